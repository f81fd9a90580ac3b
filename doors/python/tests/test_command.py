"""`python3 -m i_overlay_mesh`, as a process."""

import json
import os
import pty
import re
import subprocess
import sys
import unittest
import xml.etree.ElementTree

from surroundings import COUNTRY, PACKAGE

from i_overlay_mesh import __version__, buffer

POLYGON = {"type": "Polygon", "coordinates": [[[0, 0], [20, 0], [20, 20], [0, 20], [0, 0]]]}
LINE = {"type": "LineString", "coordinates": [[0, 0], [30, 0], [30, 10]]}
ZIGZAG = {"type": "LineString", "coordinates": [[0, 0], [1]]}


def feature(geometry, **members):
    return {"type": "Feature", "properties": {"name": "Åland", "n": 1.5}, "geometry": geometry, **members}


def run(*words, text="", data=None, **options):
    """A run of the command, with text or bytes on its standard input."""
    command = [sys.executable, "-m", "i_overlay_mesh", *words]
    return subprocess.run(
        command,
        input=text.encode() if data is None else data,
        cwd=PACKAGE,
        capture_output=True,
        check=False,
        timeout=60,
        **options,
    )


class TestBuffer(unittest.TestCase):
    def answer(self, value, *words):
        result = run("buffer", "--distance", "5", *words, text=json.dumps(value))
        self.assertEqual((result.returncode, result.stderr), (0, b""))
        self.assertEqual(result.stdout.count(b"\n"), 1)
        return json.loads(result.stdout)

    def buffered(self, geometry, **options):
        return json.loads(json.dumps(buffer(geometry, 5.0, **options).geojson()))

    def test_a_collection_keeps_all_but_the_box(self):
        features = [
            feature(POLYGON, id=7, bbox=[0, 0, 20, 20], more=[1]),
            feature(None),
            feature(LINE, id="a"),
            feature({"type": "GeometryCollection", "geometries": [POLYGON, LINE]}),
        ]
        value = {"type": "FeatureCollection", "name": "all", "bbox": [0, 0, 30, 20], "features": features}
        geometries = [item["geometry"] and self.buffered(item["geometry"]) for item in features]
        expected = {
            "type": "FeatureCollection",
            "name": "all",
            "features": [
                feature(geometries[0], id=7, more=[1]),
                feature(None),
                feature(geometries[2], id="a"),
                feature(geometries[3]),
            ],
        }
        self.assertEqual(self.answer(value), expected)

    def test_a_feature_and_a_geometry(self):
        self.assertEqual(self.answer(feature(LINE)), feature(self.buffered(LINE)))
        self.assertEqual(self.answer(LINE), self.buffered(LINE))

    def test_any_encoding(self):
        environment = {**os.environ, "PYTHONIOENCODING": "ascii"}
        text = "\ufeff" + json.dumps(feature(LINE), ensure_ascii=False)
        result = run("buffer", "--distance", "5", text=text, env=environment)
        self.assertIn('"Åland"', result.stdout.decode())
        half = {**feature(LINE), "id": "\ud800"}
        self.assertEqual(self.answer(half)["id"], "\ud800")

    def test_options(self):
        cases = [
            (["--join", "bevel", "--cap", "butt"], {"join": "bevel", "cap": "butt"}),
            (["--join", "miter", "--miter-limit", "2"], {"join": "miter", "miter_limit": 2.0}),
            (["--tolerance", "0.25"], {"tolerance": 0.25}),
            (["--step", "30", "--at-least", "--scale", "100"], {"step": 30.0, "at_least": True, "scale": 100.0}),
            (["--sliver-width", "10.5"], {"sliver_width": 10.5}),
        ]
        for words, options in cases:
            with self.subTest(words):
                self.assertEqual(self.answer(LINE, *words), self.buffered(LINE, **options))

    def test_slivers(self):
        square = [[0, 0], [9000, 0], [9000, 9000], [0, 9000], [0, 0]]
        narrow = [[1000, 1000], [5000, 1001], [5000, 1000], [1000, 1000]]
        polygon = {"type": "Polygon", "coordinates": [square, narrow]}
        words = ("buffer", "--distance", "0", "--join", "bevel", "--scale", "1")
        for more, rings in ((), 2), (("--sliver-width", "1"), 1):
            result = run(*words, *more, text=json.dumps(polygon))
            self.assertEqual((result.returncode, result.stderr), (0, b""))
            self.assertEqual(len(json.loads(result.stdout)["coordinates"]), rings)

    def test_lines(self):
        for separator in ("", "\x1e"):
            features = [feature(POLYGON), feature(LINE, id=2), feature(None)]
            text = "\n\n".join(separator + json.dumps(item) for item in features)
            result = run("buffer", "--distance", "5", text=text)
            self.assertEqual((result.returncode, result.stderr), (0, b""))
            answers = [json.loads(line) for line in result.stdout.splitlines()]
            geometries = [self.buffered(POLYGON), self.buffered(LINE), None]
            self.assertEqual([item["geometry"] for item in answers], geometries)
            self.assertEqual(answers[1]["id"], 2)

    def test_a_file(self):
        result = run("buffer", "--distance", "40000", "--tolerance", "200", str(COUNTRY))
        self.assertEqual(result.returncode, 0)
        (item,) = json.loads(result.stdout)["features"]
        self.assertEqual((item["id"], item["properties"]["name"]), ("ZAF", "South Africa"))
        self.assertEqual(len(item["geometry"]["coordinates"]), 2)

    def test_progress_is_for_terminals(self):
        main, other = pty.openpty()
        value = {"type": "FeatureCollection", "features": [feature(POLYGON), feature(LINE)]}
        command = [sys.executable, "-m", "i_overlay_mesh", "buffer", "--distance", "5"]
        result = subprocess.run(
            command, input=json.dumps(value).encode(), cwd=PACKAGE, stdout=subprocess.PIPE, stderr=other, check=False
        )
        os.close(other)
        shown = os.read(main, 1000)
        os.close(main)
        self.assertEqual(result.returncode, 0)
        # A bar of tqdm where that is installed, else a line.
        self.assertRegex(shown, rb"2 of 2 features|2/2")


class TestErrors(unittest.TestCase):
    def check(self, status, expected, *words, text=""):
        result = run(*words, text=text)
        self.assertEqual(result.returncode, status)
        self.assertIn(expected, result.stderr.decode())
        self.assertNotIn("Traceback", result.stderr.decode())
        return result.stdout

    def test_the_feature_is_told(self):
        value = {"type": "FeatureCollection", "features": [feature(LINE), feature(ZIGZAG)]}
        expected = "i_overlay_mesh: -: feature 1: line 0, point 1: it has 1 numbers"
        self.assertEqual(self.check(1, expected, "buffer", "--distance", "5", text=json.dumps(value)), b"")

    def test_lines_before_it_are_answered(self):
        text = "\n".join(map(json.dumps, [feature(LINE), feature(ZIGZAG)]))
        answered = self.check(1, "feature 1: line 0, point 1", "buffer", "--distance", "5", text=text)
        self.assertEqual(answered.count(b"\n"), 1)
        text = json.dumps(feature(LINE)) + "\n{"
        self.check(1, "feature 1: it is no JSON", "buffer", "--distance", "5", text=text)

    def test_files(self):
        self.check(1, "nowhere: No such file", "buffer", "--distance", "5", "nowhere")
        self.check(1, "it is no JSON", "buffer", "--distance", "5", text="{")
        self.check(1, "it is no JSON", "buffer", "--distance", "5")
        topology = json.dumps({"type": "Topology", "coordinates": []})
        self.check(1, "its type is 'Topology'", "buffer", "--distance", "5", text=topology)
        self.check(1, "it is no GeoJSON geometry", "buffer", "--distance", "5", text="[1]")

    def test_options(self):
        self.check(2, "step is 90.0 degrees", "buffer", "--distance", "5", "--step", "90")
        self.check(2, "--distance", "buffer")
        self.check(2, "sliver_width is 0.0", "buffer", "--distance", "5", "--sliver-width", "0")
        self.check(2, "at_least needs round joins", "buffer", "--distance", "5", "--at-least", "--join", "miter")

    def test_no_library(self):
        environment = {**os.environ, "I_OVERLAY_MESH_LIBRARY": "/nowhere"}
        result = run("buffer", "--distance", "5", text=json.dumps(LINE), env=environment)
        self.assertEqual(result.returncode, 1)
        self.assertIn(b"/nowhere is not the library", result.stderr)


class TestOthers(unittest.TestCase):
    def test_help_and_version(self):
        self.assertRegex(run("--version").stdout.decode(), rf"^i_overlay_mesh {re.escape(__version__)}( \(.*\))?\n$")
        self.assertIn(b"buffer", run("--help").stdout)
        self.assertIn(b"--tolerance", run("buffer", "--help").stdout)

    def test_a_picture(self):
        text = "\n".join(map(json.dumps, [feature(LINE), feature({"type": "Point", "coordinates": [3, 4]})]))
        result = run("draw", str(COUNTRY), "-", text=text)
        self.assertEqual(result.returncode, 0)
        root = xml.etree.ElementTree.fromstring(result.stdout)
        kinds = [element.tag.rpartition("}")[2] for element in root.iter()]
        self.assertEqual([kinds.count(kind) for kind in ("g", "path", "polyline", "circle")], [2, 1, 1, 1])
        self.assertEqual(run("draw", "-", text=json.dumps(feature(None))).returncode, 2)


if __name__ == "__main__":
    unittest.main()
