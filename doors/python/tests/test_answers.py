"""Answers as values, arrays as a way in, Shapely's words, and types."""

import os
import pathlib
import pickle
import random
import re
import shutil
import subprocess
import sys
import tempfile
import unittest
import xml.etree.ElementTree

from surroundings import PACKAGE, numpy, shapely

from i_overlay_mesh import DrawingError, buffer, is_proved, outline, stroke, variable_stroke

SQUARE = [[0, 0], [4, 0], [4, 3], [0, 3]]
LINE = [[0, 0], [30, 0], [30, 10]]


class TestValues(unittest.TestCase):
    def answers(self):
        return [
            outline(SQUARE, 1),
            outline(SQUARE, 1, scale=1),
            outline(SQUARE, 1, most_splits=0),
            outline(SQUARE, -9),
            stroke(LINE, 20, scale=0.5, origin=(0.1, 7)),
        ]

    def test_equality_and_pickles(self):
        answers = self.answers()
        for number, (one, again) in enumerate(zip(answers, self.answers())):
            self.assertEqual(one, again)
            copy = pickle.loads(pickle.dumps(one))
            self.assertEqual(copy, one)
            self.assertEqual(
                (copy.polygons, copy.scale, copy.origin, copy.nearness),
                (one.polygons, one.scale, one.origin, one.nearness),
            )
            self.assertEqual([number == other for other in range(len(answers))], [one == other for other in answers])
        self.assertNotEqual(answers[0], answers[0].polygons)

    def test_how_it_is_told(self):
        told = repr(outline([SQUARE], 1, scale=1, origin=(0, 5), most_splits=0, join="bevel"))
        self.assertRegex(told, r"^Shapes\(polygons=1, rings=1, points=8, scale=1, origin=\(0, 5\), nearness=0\.0")
        self.assertEqual("built before its proof" in told, not is_proved())

    def test_pictures(self):
        for shapes in self.answers():
            root = xml.etree.ElementTree.fromstring(shapes._repr_svg_())
            paths = [element for element in root.iter() if element.tag.endswith("path")]
            self.assertEqual(len(paths), len(shapes))

    @unittest.skipIf(numpy is None, "numpy is not there")
    def test_arrays(self):
        for shapes in self.answers():
            points, rings, polygons = shapes.arrays()
            nested = [
                [points[rings[ring] : rings[ring + 1]].tolist() for ring in range(polygons[index], polygons[index + 1])]
                for index in range(len(shapes))
            ]
            self.assertEqual(nested, shapes.polygons)


@unittest.skipIf(numpy is None, "numpy is not there")
class TestArrays(unittest.TestCase):
    """An array, or a geometry of Shapely, is drawn and refused as the same numbers in lists."""

    def check(self, call, lists, others):
        try:
            expected = call(lists)
        except DrawingError as error:
            for other in others:
                with self.assertRaises(type(error)) as caught:
                    call(other)
                self.assertEqual(str(caught.exception), str(error))
            return
        for other in others:
            self.assertEqual(call(other), expected)

    def ring(self, draw):
        size, x, y = 10 ** draw.uniform(-2, 5), draw.choice([0, 1e6]), draw.choice([0.0, 5.5e6])
        ring = [(x + size * draw.uniform(-1, 1), y + size * draw.uniform(-1, 1)) for _ in range(draw.randint(3, 9))]
        rounding = draw.choice([None, 0, 3])
        return size, ring if rounding is None else [(round(px, rounding), round(py, rounding)) for px, py in ring]

    def test_random_drawings(self):
        draw = random.Random(5)
        for _ in range(150):
            size, ring = self.ring(draw)
            options = {"scale": draw.choice([None, None, 1, 1000, 0.1, 2**20 / size])}
            options["origin"] = draw.choice([None, (0, 0), ring[0], (0.1, 7)])
            distance = size * draw.choice([-0.1, 0, 0.3, 2])
            rings = [ring, self.ring(draw)[1][: len(ring)]]
            self.check(lambda given: outline(given, distance, **options), ring, [numpy.array(ring)])
            lists = [numpy.array(item) for item in rings]
            self.check(lambda given: outline(given, distance, **options), rings, [lists])
            self.check(lambda given: stroke(given, abs(distance), **options), rings, [lists, tuple(lists)])
            wide = [(*point, draw.uniform(-1, 5)) for point in ring]
            self.check(lambda given: variable_stroke(given, **options), wide, [numpy.array(wide)])

    def test_whole_numbers(self):
        for kind in ("int8", "int64", "uint16"):
            shapes = outline(numpy.array(SQUARE, kind), 2, scale=1)
            self.assertEqual(shapes, outline(SQUARE, 2, scale=1))
            self.assertTrue(all(type(number) is int for number in shapes.polygons[0][0][0]))
        self.check(
            lambda given: outline(given, 1),
            [[2**60, 0], [2**60 + 9, 0], [2**60, 9]],
            [numpy.array([[2**60, 0], [2**60 + 9, 0], [2**60, 9]])],
        )

    def test_what_breaks_a_rule(self):
        for wrong in (
            [[0.0, 0], [1, float("nan")], [2, 2]],
            [[0.0, 0], [float("inf"), 1], [2, 2]],
            [[0.0, 0, 1, 1], [1, 1, 1, 1]],
        ):
            self.check(lambda given: outline(given, 1), [SQUARE, wrong], [[numpy.array(SQUARE), numpy.array(wrong)]])
        far = [[0.0, 0], [10, 0], [10, 2.0**31]]
        self.check(lambda given: outline(given, 8, scale=4, origin=(0, 0)), far, [numpy.array(far)])
        many = SQUARE * 80
        self.check(lambda given: outline(given, 0.5, scale=2**27), many, [numpy.array(many)])

    @unittest.skipIf(shapely is None, "Shapely is not there")
    def test_shapely(self):
        kinds = shapely.geometry
        ring = [(0.5, 0), (4, 0), (4, 3.25), (0, 3)]
        hole = [(1, 1), (2, 1), (2, 2)]
        for geometry in (
            kinds.Polygon(ring, [hole]),
            kinds.MultiPolygon([kinds.Polygon(ring, [hole]), kinds.Polygon([(x + 9, y) for x, y in ring])]),
            kinds.LineString(ring),
            kinds.LineString([(x, y, 7) for x, y in ring]),
            kinds.MultiLineString([ring, [*hole, hole[0]]]),
            kinds.MultiPoint(ring),
            kinds.GeometryCollection([kinds.Polygon(ring), kinds.LineString(hole), kinds.Point(9, 9)]),
        ):
            mapping = kinds.mapping(geometry)
            self.check(lambda given: buffer(given, 0.5), mapping, [geometry, [geometry], [None, geometry]])
            self.check(lambda given: stroke(given, 0.5), mapping, [geometry])
        nothing = kinds.Polygon([(0, 0), (1, 1), (2, float("inf"))])
        with self.assertRaisesRegex(DrawingError, r"^geometry 1, polygon 0, ring 0, point 2: y is inf"):
            buffer([kinds.Point(0, 0), nothing], 1)


class TestWordsOfShapely(unittest.TestCase):
    def test_what_means_the_same(self):
        for own, other in [
            ({"step": 11.25}, {"quad_segs": 8}),
            ({"cap": "butt", "join": "bevel"}, {"cap_style": "flat", "join_style": "bevel"}),
            ({"cap": "square", "join": "miter", "miter_limit": 3}, {"cap_style": 3, "join_style": 2, "mitre_limit": 3}),
            ({}, {"cap_style": "round", "join_style": 1, "quad_segs": 16}),
        ]:
            geometry = {"type": "LineString", "coordinates": LINE}
            self.assertEqual(buffer(geometry, 1, **own), buffer(geometry, 1, **other))
            self.assertEqual(stroke(LINE, 2, **own), stroke(LINE, 2, **other))
        geometry = {"type": "LineString", "coordinates": LINE}
        for side, distance in (("left", 1), ("right", -1)):
            self.assertEqual(buffer(geometry, distance, single_sided=True), stroke(LINE, 2, side=side))
        with self.assertRaisesRegex(DrawingError, "polygon 0, ring 0: single_sided is for lines"):
            buffer([SQUARE], 1, single_sided=True)

    @unittest.skipIf(shapely is None, "Shapely is not there")
    def test_its_own_values(self):
        line = shapely.geometry.LineString(LINE)
        for name in ("round", "flat", "square"):
            style = getattr(shapely.geometry.CAP_STYLE, name)
            self.assertEqual(buffer(line, 1, cap_style=style), buffer(line, 1, cap=name))

    def test_mistakes(self):
        for words, expected in [
            ({"quad_segs": 1}, "quad_segs is 1, and has to be a whole number from 2 to 256"),
            ({"quad_segs": 8, "step": 5}, "one of them is enough"),
            ({"join": "round", "join_style": 1}, "join and join_style both say the same thing"),
            ({"cap_style": "butt"}, "cap_style is 'butt', and has to be one of round, square, flat"),
            ({"join_style": 7}, "join_style is 7, and has to be one of round, mitre, bevel"),
            ({"mitre_limit": 0}, "miter_limit is 0.0, and has to be from 1"),
        ]:
            with self.assertRaisesRegex(DrawingError, re.escape(expected)):
                buffer(
                    {"type": "LineString", "coordinates": LINE},
                    1,
                    **{"join_style": 2, **words} if "mitre_limit" in words else words,
                )


@unittest.skipIf(shutil.which("mypy") is None, "mypy is not there")
class TestTypes(unittest.TestCase):
    def test_a_caller(self):
        """mypy finds nothing in a program that uses all, nor in the package."""
        with tempfile.TemporaryDirectory() as folder:
            words = ["mypy", "--strict", "--ignore-missing-imports", "--cache-dir", folder]
            caller = pathlib.Path(__file__).with_name("caller.py")
            environment = {**os.environ, "MYPYPATH": str(PACKAGE)}
            for given in caller, PACKAGE / "i_overlay_mesh":
                run = subprocess.run([*words, str(given)], env=environment, capture_output=True, text=True, check=False)
                self.assertEqual(run.returncode, 0, run.stdout)
            run = subprocess.run(
                [sys.executable, str(caller)],
                env={**environment, "PYTHONPATH": str(PACKAGE)},
                capture_output=True,
                text=True,
                check=False,
            )
            self.assertEqual((run.returncode, run.stderr), (0, ""))


if __name__ == "__main__":
    unittest.main()
