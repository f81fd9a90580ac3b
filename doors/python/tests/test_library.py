"""The foreign call, against the program byte for byte."""

import json
import os
import pathlib
import shutil
import subprocess
import sys
import tempfile
import unittest
from concurrent.futures import ThreadPoolExecutor

from surroundings import IS_QUICK, PACKAGE, PROGRAM, ROOT, program_line

import random_requests
from i_overlay_mesh import DrawingError, answer, is_proved, library

RANDOM_REQUESTS = 50 if IS_QUICK else 300

STRANGE = [
    b"",
    b"{",
    b"null",
    b"\xff",
    b"\0",
    b"[" * 2000,
    b'{"op":"outline"}',
    b'{"op":"outline","int":"i16","out":"shapes","paths":[[[15360,0]]],"style":{"outer":1024,"inner":1024}}',
]

CROSSING = (
    b'{"op":"stroke","int":"i32","out":"shapes","paths":[[[0,0],[90,90],[90,0],[0,90]]],"style":{"width":9}}'
)
"""The edges of this stroke are split more than once."""


def long_request():
    """A short request whose answer is long."""
    paths = [[[x * 2000, 0], [x * 2000 + 1, 1]] for x in range(200)]
    cap = {"round": [2**22, 5]}
    style = {"width": 1000, "start": cap, "end": cap}
    return json.dumps({"op": "stroke", "int": "i32", "out": "shapes", "paths": paths, "style": style}).encode()


@unittest.skipUnless(PROGRAM.exists(), "the program is not built")
class TestAgainstProgram(unittest.TestCase):
    def check(self, request):
        self.assertEqual(answer(request), program_line(request))
        self.assertEqual(answer(request, most_splits=0), program_line(request))

    def test_examples(self):
        for file in sorted((ROOT / "examples").rglob("*.json")):
            with self.subTest(file.name):
                self.check(file.read_bytes())

    def test_strange_texts(self):
        for request in STRANGE:
            with self.subTest(request):
                self.check(request)

    def test_random_requests_in_threads(self):
        requests = [json.dumps(random_requests.request(number)).encode() for number in range(RANDOM_REQUESTS)]
        with ThreadPoolExecutor(4) as pool:
            for request, line in zip(requests, pool.map(answer, requests)):
                self.assertEqual(line, program_line(request))

    def test_an_answer_longer_than_the_first_room(self):
        request = long_request()
        line = answer(request)
        self.assertGreater(len(line), library.ROOM_FACTOR * len(request))
        self.assertEqual(line, program_line(request))


class TestAnswer(unittest.TestCase):
    def test_any_bytes(self):
        self.assertEqual(answer(bytearray(b"{")), b'{"unreadable":"request"}\n')
        self.assertEqual(answer(memoryview(b"{")), b'{"unreadable":"request"}\n')
        for no_bytes in (5, "{", None):
            with self.assertRaises(TypeError):
                answer(no_bytes)

    def test_a_limit(self):
        self.assertEqual(answer(CROSSING, 1), b'{"refused":"splitting took more than 1 splits"}\n')
        self.assertEqual(answer(CROSSING, 2**64 - 1), answer(CROSSING))
        for limit in (-1, 2**64):
            with self.assertRaises(DrawingError):
                answer(b"{", limit)

    def test_a_copy_of_the_package(self):
        """The folder of the package with the shared object in it is all that is needed."""
        with tempfile.TemporaryDirectory() as folder:
            copy = pathlib.Path(folder) / "i_overlay_mesh"
            shutil.copytree(PACKAGE / "i_overlay_mesh", copy)
            shutil.copy(library.find_library(), copy / library.FILE)
            code = "import i_overlay_mesh as m; print(m.library.find_library(), m.answer(b'').decode(), end='')"
            command = [sys.executable, "-c", code]
            environment = {key: value for key, value in os.environ.items() if key != library.VARIABLE}
            run = subprocess.run(command, cwd=folder, env=environment, stdout=subprocess.PIPE, text=True, check=True)
            self.assertEqual(run.stdout, f'{copy / library.FILE} {{"unreadable":"request"}}\n')

    def test_a_library_that_is_not_proved_says_so(self):
        """At import, and in the version that the command tells: exactly where the object has the mark."""
        is_marked = library.UNPROVED.encode() + b"\0" in pathlib.Path(library.find_library()).read_bytes()
        self.assertEqual(is_proved(), not is_marked)
        environment = {**os.environ, "PYTHONWARNINGS": "always"}
        command = [sys.executable, "-m", "i_overlay_mesh", "--version"]
        run = subprocess.run(command, cwd=PACKAGE, env=environment, capture_output=True, text=True, check=True)
        self.assertEqual("built before its proof" in run.stdout, is_marked)
        self.assertEqual("UnprovedWarning" in run.stderr, is_marked)


if __name__ == "__main__":
    unittest.main()
