"""Tests the cut into components, the join, and that any number of workers answers the same bytes."""

import json
import pathlib
import random
import shutil
import subprocess
import sys
import tempfile
import unittest

TILES = pathlib.Path(__file__).resolve().parent.parent
ROOT = TILES.parent.parent
LINES = ROOT / "crates/mesh_lines/out/mesh_lines"

sys.path.insert(0, str(TILES))
sys.path.insert(0, str(ROOT / "doors/python"))

from components import components  # noqa: E402
from i_overlay_mesh import answer  # noqa: E402
from lines import UNREADABLE, cut, join, line_of  # noqa: E402
from padding import padding_of  # noqa: E402

try:
    import distributed
except ImportError:
    distributed = None


def square(x, y, side):
    """A square with its least corner at a point."""
    return [[x, y], [x + side, y], [x + side, y + side], [x, y + side]]


def outline(paths, offset=10, **words):
    """A request for the shapes of an outline."""
    style = {"outer": offset, "inner": offset, **words}
    return {"op": "outline", "int": "i32", "out": "shapes", "paths": paths, "style": style}


def made_map(count, seed=1, out="shapes"):
    """Rough circles in about as many places, of which some touch."""
    noise = random.Random(seed)
    paths = []
    for index in range(count):
        x, y = 400 * (index % 100) + noise.randint(0, 200), 400 * (index // 100) + noise.randint(0, 200)
        sizes = [noise.randint(60, 160) for _ in range(8)]
        steps = [(2, 0), (1, 1), (0, 2), (-1, 1), (-2, 0), (-1, -1), (0, -2), (1, -1)]
        paths.append([[x + dx * size // 2, y + dy * size // 2] for (dx, dy), size in zip(steps, sizes)])
    return {**outline(paths, 12, join={"round": [2**27, 5]}), "out": out}


def answered(request):
    """The answer of all components, one after another."""
    text = line_of(request)
    return join(text, [answer(line) for line in cut(text)])


def by_command(*words, given=None):
    """What the command writes."""
    command = [sys.executable, str(TILES / "tiles"), *map(str, words)]
    return subprocess.run(command, input=given, stdout=subprocess.PIPE, check=True).stdout


class Cutting(unittest.TestCase):
    def test_boxes_that_touch(self):
        paths = [square(0, 0, 10), square(100, 0, 10), square(20, 0, 10), [], square(50, 0, 30)]
        self.assertEqual(components(paths, 5), [[0, 2], [1], [3], [4]])
        self.assertEqual(components(paths, 10), [[0, 1, 2, 4], [3]])

    def test_components_against_all_pairs(self):
        noise = random.Random(7)
        for _ in range(200):
            paths = [square(noise.randint(0, 300), noise.randint(0, 300), noise.randint(1, 60)) for _ in range(12)]
            self.assertEqual(sorted(components(paths, 3)), sorted(slow_components(paths, 3)))

    def test_padding_is_the_librarys(self):
        self.assertEqual(padding_of(outline([], 25)), 25)
        self.assertEqual(padding_of({**outline([], 25), "style": {"outer": -25, "inner": 40}}), 40)
        stroke = {"op": "stroke", "int": "i16", "out": "shapes", "paths": [], "style": {"width": 20, "end": "square"}}
        self.assertEqual(padding_of(stroke), 20)
        stroke["style"]["start"] = {"custom": [[0, -10], [300, 400], [0, 10]]}
        self.assertEqual(padding_of(stroke), 500)
        brush = {"op": "variable_stroke", "int": "i32", "out": "shapes", "paths": [[[0, 0, 4], [9, 9, 30]]], "style": {}}
        self.assertEqual(padding_of(brush), 15)


class Joining(unittest.TestCase):
    def test_the_programs_bytes_where_nothing_bends(self):
        paths = [square(40 * (index * 7 % 50), 40 * (index % 13), 10 + index % 9) for index in range(200)]
        for words in ({}, {"options": {"clockwise": True}}, {"options": {"min_area": 900}}, {"out": "edges"}):
            request = {**outline(paths, 3), **words}
            self.assertEqual(answered(request), answer(line_of(request)))

    def test_one_component_that_fails(self):
        request = outline([square(0, 0, 10), square(2**30 - 12, 0, 10)], 3)
        self.assertEqual(answered(request), answer(line_of(request)))
        request["paths"].append([[0.5, 1]])
        self.assertEqual(answered(request), UNREADABLE)

    def test_what_is_not_cut(self):
        zones = [[square(0, 0, 10)], [square(5, 5, 10)], [square(50, 5, 10)]]
        plain = {"int": "i32", "out": "shapes", "paths": [square(0, 0, 10), square(90, 0, 10)], "style": {}}
        for words in (
            {"op": "boolean", "rule": "xor", "subject": zones[0], "clip": zones[1]},
            {"op": "coverage", "zones": zones, "least": 1},
            {"op": "overlaps", "zones": zones},
        ):
            request = {**words, **plain}
            self.assertEqual(cut(line_of(request)), [line_of(request)])
            self.assertEqual(answered(request), answer(line_of(request)))

    def test_distances_are_of_the_whole(self):
        request = {**outline([square(0, 0, 10), square(90, 0, 10)], 3), "options": {"distances": True}}
        self.assertEqual(cut(line_of(request)), [line_of(request)])
        self.assertEqual(answered(request), answer(line_of(request)))

    def test_what_is_no_request(self):
        for text in (b"", b"{", b"[]", b"\xff", b'{"op":"outline"}', b'"\n"', b"[" * 5000, b"\xef\xbb\xbf{}"):
            self.assertEqual(join(text, [answer(line) for line in cut(text)]), UNREADABLE)

    def test_areas_of_bent_drawings(self):
        request = made_map(900)
        ours, whole = json.loads(answered(request))["shapes"], json.loads(answer(line_of(request)))["shapes"]
        self.assertEqual(len(ours), len(whole))
        same = sum(shape in whole for shape in ours)
        self.assertGreater(same, 0.98 * len(ours))


class Workers(unittest.TestCase):
    def setUp(self):
        folder = tempfile.TemporaryDirectory()
        self.addCleanup(folder.cleanup)
        self.folder = pathlib.Path(folder.name)
        self.request = self.folder / "request.json"
        self.request.write_bytes(line_of(made_map(1200)))
        self.wanted = answered(made_map(1200))

    @unittest.skipIf(not (shutil.which("parallel") and LINES.exists()), "GNU parallel or mesh_lines is not there")
    def test_parallel(self):
        lines = self.folder / "lines"
        lines.write_bytes(by_command("cut", self.request))
        for workers in ("1", "2"):
            words = ["parallel", "--will-cite", "--pipepart", "-a", str(lines), "--block", "64k", "-k", "-j", workers]
            words.append(str(LINES))
            answers = subprocess.run(words, stdout=subprocess.PIPE, check=True).stdout
            self.assertEqual(by_command("join", self.request, given=answers), self.wanted)

    @unittest.skipIf(distributed is None, "Dask is not there")
    def test_workers_of_dask(self):
        for workers in (1, 2):
            self.assertEqual(by_command("answer", self.request, "--workers", workers), self.wanted)

    @unittest.skipIf(distributed is None, "Dask is not there")
    def test_a_worker_that_dies(self):
        import cluster

        text = self.request.read_bytes()
        lines = cut(text)
        marker = self.folder / "died"
        with cluster.local_cluster(2) as workers:
            with distributed.Client(workers) as client:
                package = str(ROOT / "doors/python")
                tasks = [
                    client.submit(die_once, str(TILES), package, batch, str(marker), retries=3, pure=False)
                    for batch in batches_of(lines, 40)
                ]
                answers = [line for part in client.gather(tasks) for line in part]
        self.assertTrue(marker.exists())
        self.assertEqual(join(text, answers), self.wanted)
        self.assertEqual(list(cluster.batches([b"a" * 300_000, b"b"])), [[b"a" * 300_000], [b"b"]])


def batches_of(lines, size):
    """Lines in order, so many together."""
    return [lines[first : first + size] for first in range(0, len(lines), size)]


def die_once(tiles, package, batch, marker):
    """Answers lines; the first worker that comes here ends in the middle, and leaves a mark."""
    if tiles not in sys.path:
        sys.path.insert(0, tiles)
    from cluster import answer_batch

    answers = answer_batch(package, batch[: len(batch) // 2])
    try:
        open(marker, "x").close()
    except FileExistsError:
        return answers + answer_batch(package, batch[len(batch) // 2 :])
    import os

    os._exit(9)


def slow_components(paths, padding):
    """Components by all pairs, again and again."""
    groups = [{number} for number in range(len(paths))]

    def touch(one, other):
        spans = [
            (min(vertex[axis] for vertex in path) - padding, max(vertex[axis] for vertex in path) + padding)
            for path in (paths[one], paths[other])
            for axis in (0, 1)
        ]
        return all(spans[axis][0] <= spans[axis + 2][1] and spans[axis + 2][0] <= spans[axis][1] for axis in (0, 1))

    while True:
        pairs = [(a, b) for a in groups for b in groups if a is not b and any(touch(i, j) for i in a for j in b)]
        if not pairs:
            return [sorted(group) for group in groups]
        one, other = pairs[0]
        groups = [group for group in groups if group is not one and group is not other] + [one | other]
