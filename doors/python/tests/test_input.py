"""What is taken as a drawing, and what is told of one that breaks a rule."""

import json
import math
import unittest

from surroundings import COUNTRY, numpy, shapely

from i_overlay_mesh import DrawingError, GridRangeError, buffer, outline, stroke, variable_stroke

OUTER = [[0, 0], [20, 0], [20, 20], [0, 20]]
HOLE = [[5, 5], [15, 5], [15, 15], [5, 15]]
ISLAND = [[8, 8], [12, 8], [12, 12], [8, 12]]
LINE = [[0, 0], [30, 0], [30, 10]]


def closed(ring):
    return [*ring, ring[0]]


def geometry(kind, coordinates):
    return {"type": kind, "coordinates": coordinates}


def feature(shape, **properties):
    return {"type": "Feature", "properties": properties, "geometry": shape}


class Holder:
    def __init__(self, mapping):
        self.__geo_interface__ = mapping


class TestForms(unittest.TestCase):
    def test_polygons(self):
        polygon = geometry("Polygon", [closed(OUTER), closed(HOLE)])
        expected = outline(polygon, 1).polygons
        self.assertEqual([len(rings) for rings in expected], [2])
        forms = [
            [OUTER, HOLE],
            [[OUTER, HOLE]],
            (tuple(map(tuple, OUTER)), tuple(map(tuple, HOLE))),
            geometry("MultiPolygon", [[closed(OUTER), closed(HOLE)]]),
            feature(polygon),
            {"type": "FeatureCollection", "features": [feature(None), feature(polygon)]},
            {"type": "GeometryCollection", "geometries": [polygon]},
            Holder(polygon),
            Holder(feature(polygon)),
            [Holder(polygon)],
            [polygon],
            geometry("Polygon", [[[x, y, 100.5] for x, y in ring] for ring in (OUTER, HOLE)]),
        ]
        for form in forms:
            with self.subTest(form):
                self.assertEqual(outline(form, 1).polygons, expected)

    def test_lines(self):
        expected = stroke(LINE, 2).polygons
        line = geometry("LineString", LINE)
        forms = [[LINE], line, geometry("MultiLineString", [LINE]), Holder(feature(line)), [Holder(line)]]
        for form in forms:
            with self.subTest(form):
                self.assertEqual(stroke(form, 2).polygons, expected)

    def test_rings_are_stroked_as_closed(self):
        expected = stroke(OUTER, 2, closed=True).polygons
        self.assertEqual(len(expected[0]), 2)
        for form in (closed(OUTER), geometry("Polygon", [closed(OUTER)]), geometry("LinearRing", closed(OUTER))):
            self.assertEqual(stroke(form, 2).polygons, expected)

    def test_open_and_closed_lines_together(self):
        shapes = stroke([LINE, closed(OUTER)], 4, join="miter", cap="butt", scale=1)
        self.assertEqual(len(shapes), 1)
        apart = stroke([[[100, 0], [120, 0]], closed(OUTER)], 2)
        self.assertEqual(len(apart), 2)

    def test_caps_of_both_ends(self):
        line = [[0, 0], [20, 0]]
        spear = [[0, -4], [9, 0], [0, 4]]
        for options, expected in [
            ({"cap": "butt"}, [[0, -2], [20, -2], [20, 2], [0, 2]]),
            ({"cap": "butt", "end_cap": "square"}, [[0, -2], [22, -2], [22, 2], [0, 2]]),
            ({"cap": "butt", "start_cap": "square"}, [[-2, -2], [20, -2], [20, 2], [-2, 2]]),
            ({"cap": "flat", "end_cap": spear}, [[0, -2], [20, -2], [20, -4], [29, 0], [20, 4], [20, 2], [0, 2]]),
        ]:
            with self.subTest(options):
                self.assertEqual(stroke(line, 4, scale=1, **options).polygons, [[expected]])

    def test_widths(self):
        expected = variable_stroke([[0, 0, 4], [20, 0, 8]]).polygons
        self.assertEqual(variable_stroke([[0, 0], [20, 0]], widths=[4, 8]).polygons, expected)
        self.assertEqual(variable_stroke([[[0, 0], [20, 0]]], widths=[[4, 8]]).polygons, expected)

    @unittest.skipIf(numpy is None, "numpy is not there")
    def test_numpy(self):
        self.assertEqual(outline(numpy.array(OUTER, float), 1).polygons, outline(OUTER, 1).polygons)
        rings = [numpy.array(OUTER), numpy.array(HOLE, numpy.float32)]
        self.assertEqual(outline(rings, 1).polygons, outline([OUTER, HOLE], 1).polygons)
        widths = numpy.array([4.0, 8.0])
        line = numpy.array([[0, 0], [20, 0]])
        expected = variable_stroke([[0, 0, 4], [20, 0, 8]]).polygons
        self.assertEqual(variable_stroke(line, widths=widths).polygons, expected)

    @unittest.skipIf(shapely is None, "Shapely is not there")
    def test_shapely(self):
        polygon = shapely.geometry.Polygon(OUTER, [HOLE])
        self.assertEqual(outline(polygon, 1).polygons, outline([OUTER, HOLE], 1).polygons)
        self.assertEqual(outline([polygon], 1).polygons, outline([OUTER, HOLE], 1).polygons)
        self.assertEqual(outline(shapely.geometry.Polygon(), 1).polygons, [])


class TestRings(unittest.TestCase):
    def test_either_sense_and_order(self):
        expected = outline([OUTER, HOLE], 1).polygons
        for first in (OUTER, OUTER[::-1]):
            for second in (HOLE, HOLE[::-1]):
                self.assertEqual(outline([first, second], 1).polygons, expected)
                self.assertEqual(outline([second, first], 1).polygons, expected)
                self.assertEqual(outline(geometry("Polygon", [first, second]), 1).polygons, expected)

    def test_an_island_in_a_hole(self):
        shapes = outline([ISLAND, HOLE, OUTER], 1)
        self.assertEqual([len(rings) for rings in shapes.polygons], [2, 1])

    def test_first(self):
        shapes = outline([OUTER, HOLE, ISLAND], 1, rings="first")
        self.assertEqual([len(rings) for rings in shapes.polygons], [2])

    def test_sense(self):
        self.assertEqual(len(outline([OUTER, HOLE], 1, rings="sense").polygons[0]), 1)
        self.assertEqual(len(outline([OUTER, HOLE[::-1]], 1, rings="sense").polygons[0]), 2)
        self.assertEqual(outline([OUTER[::-1]], 1, rings="sense").polygons, [])

    def test_rings_that_touch(self):
        inner = [[0, 0], [10, 0], [10, 10]]
        shapes = outline([inner, OUTER], 0, scale=1)
        area = sum(a[0] * b[1] - a[1] * b[0] for ring in shapes.polygons[0] for a, b in zip(ring, ring[1:] + ring[:1]))
        self.assertEqual(area, 2 * (400 - 50))

    def test_rings_that_touch_from_outside(self):
        notched = [[0, 0], [20, 0], [20, 20], [10, 20], [10, 10], [0, 10]]
        beside = [[0, 10], [10, 10], [10, 20]]
        shapes = outline([beside, notched], 0, scale=1)
        self.assertEqual([len(rings) for rings in shapes.polygons], [1])
        self.assertIn([10, 20], shapes.polygons[0][0])
        self.assertNotIn([10, 10], shapes.polygons[0][0])

    def test_holes_have_a_distance_of_their_own(self):
        shapes = outline([OUTER, HOLE], 2, hole_distance=-1, join="miter", scale=1)
        self.assertEqual(shapes.polygons[0][0][0], [-2, -2])
        self.assertEqual(shapes.polygons[0][1][0], [4, 4])


class TestAnswers(unittest.TestCase):
    def test_geojson(self):
        one = outline([OUTER, HOLE], 1, join="miter", scale=1)
        mapping = json.loads(json.dumps(one.geojson()))
        self.assertEqual(mapping, json.loads(json.dumps(one.__geo_interface__)))
        self.assertEqual(mapping["type"], "Polygon")
        self.assertEqual([(ring[0], len(ring)) for ring in mapping["coordinates"]], [([-1, -1], 5), ([6, 6], 5)])
        two = outline([[OUTER], [[[x + 100, y] for x, y in OUTER]]], 1)
        self.assertEqual((two.geojson()["type"], len(two)), ("MultiPolygon", 2))
        none = outline([OUTER], -50)
        self.assertEqual(none.geojson(), geometry("MultiPolygon", []))
        self.assertFalse(none)

    def test_an_answer_is_taken_again(self):
        once = outline([OUTER, HOLE], 1, scale=64)
        again = outline(once, 0, scale=64)
        self.assertEqual(again.polygons, once.polygons)

    @unittest.skipIf(shapely is None, "Shapely is not there")
    def test_shapely(self):
        self.assertEqual(outline([OUTER, HOLE], 1, join="miter").shapely().area, 22 * 22 - 8 * 8)
        self.assertTrue(outline([OUTER], -50).shapely().is_empty)
        self.assertEqual(shapely.geometry.shape(outline([OUTER], 1, join="miter")).area, 22 * 22)


class TestErrors(unittest.TestCase):
    def check(self, expected, call, *arguments, kind=DrawingError, **options):
        with self.assertRaises(kind) as caught:
            call(*arguments, **options)
        self.assertIn(expected, str(caught.exception))

    def test_coordinates(self):
        wrong = [[OUTER], [OUTER, [[5, 5], [6, math.nan], [6, 6]]]]
        self.check("polygon 1, ring 1, point 1: y is nan, and has to be finite", outline, wrong, 1)
        self.check("polygon 0, ring 0, point 2: x is inf", outline, [[0, 0], [1, 1], [math.inf, 0]], 1)
        self.check("line 1, point 0: it has 1 numbers", stroke, [LINE, [[1], [2, 2]]], 1)
        self.check("line 0, point 1: x is '7', and has to be a number", stroke, [[0, 0], ["7", 1]], 1)
        self.check("point 0: it has 2 numbers, and has to have x and y and width", variable_stroke, LINE)

    def test_the_place_is_told(self):
        with self.assertRaises(DrawingError) as caught:
            outline({"type": "FeatureCollection", "features": [feature(geometry("Polygon", [[[0, None]]]))]}, 1)
        self.assertEqual(caught.exception.where, "feature 0, polygon 0, ring 0, point 0")
        self.assertEqual(caught.exception.rule, "y is None, and has to be a number")

    def test_geometries(self):
        self.check("line 0: `outline` takes polygons", outline, geometry("LineString", LINE), 1)
        self.check("point 0: `stroke` takes lines", stroke, geometry("Point", [1, 2]), 1)
        self.check("its type is 'Circle'", outline, {"type": "Circle", "coordinates": []}, 1)
        self.check("it has no coordinates", outline, {"type": "Polygon"}, 1)
        self.check("lists in 1 levels", outline, [1, 2, 3], 1)

    def test_range(self):
        far = [[[0, 0], [10, 0], [10, 10]], [[2, 2], [2**31, 4], [5, 5]]]
        options = {"kind": GridRangeError, "scale": 4, "origin": (0, 0)}
        self.check("ring 1, point 1: x is 2147483648", outline, far, 8, **options)
        self.check("no scale does, as with less distance is 1", outline, far, 1, **options)
        self.check("is wider than the grid", outline, OUTER, 2**31, kind=GridRangeError, scale=1)

    def test_a_point_just_out_of_range(self):
        scale = 2 * outline(OUTER, 1).scale
        self.check("polygon 0, ring 0, point 0: x is 0", outline, OUTER, 1, kind=GridRangeError, scale=scale)
        ring = [[10, 10], [11, 10], [11, 2000], [10, 11]]
        self.check("point 2: y is 2000", outline, ring, 1, kind=GridRangeError, scale=2**19 + 2**17, origin=(0, 0))

    def test_the_scale_that_is_advised_is_safe(self):
        with self.assertRaisesRegex(GridRangeError, "power of two that is safe is (?P<scale>[0-9]+)") as caught:
            outline(OUTER, 1, scale=2**40)
        scale = int(str(caught.exception).rsplit(" ", 1)[1])
        self.assertEqual(scale, outline(OUTER, 1).scale)

    def test_coarse(self):
        self.check("distance is 0.25, and has to be at least 1 grid unit", outline, OUTER, 0.25, scale=1)
        self.check("and has to be at least 3 grid units: at the scale 1 it is 2", stroke, LINE, 2, scale=1)
        self.assertEqual(stroke(LINE, 0).polygons, [])
        self.assertEqual(stroke(LINE, -3).polygons, [])
        self.assertEqual(stroke(LINE, -1e30, scale=1000).polygons, [])
        expected = variable_stroke([[0, 0, 0], [9, 0, 5]]).polygons
        self.assertEqual(variable_stroke([[0, 0, -1e30], [9, 0, 5]]).polygons, expected)

    def test_words(self):
        self.check("join is 'mitred', and has to be one of round, miter", outline, OUTER, 1, join="mitred")
        self.check("start_cap is 'pointed'", stroke, LINE, 1, cap="pointed")
        self.check("rings is 'any'", outline, OUTER, 1, rings="any")
        self.check("step is 50.0 degrees, and has to be from 360/1024 to 45", outline, OUTER, 1, step=50)
        self.check("one of them is enough", outline, OUTER, 1, step=5, tolerance=1)
        self.check("tolerance is 0, and has to be above 0", outline, OUTER, 1, tolerance=0)
        self.check("come only within 4.71e-06", outline, OUTER, 1, tolerance=1e-7)
        self.check("at_least needs round joins", outline, OUTER, 1, at_least=True, join="bevel")
        self.check("miter_limit is 30.0, and has to be", outline, OUTER, 1, join="miter", miter_limit=30)
        self.check("scale is 0, and has to be above 0", outline, OUTER, 1, scale=0)
        self.check("origin is 5, and has to be a point", outline, OUTER, 1, origin=5)
        self.check("distance is nan, and has to be finite", outline, OUTER, math.nan)
        self.check("a width for each", variable_stroke, LINE, widths=[1, 2])


if __name__ == "__main__":
    unittest.main()
