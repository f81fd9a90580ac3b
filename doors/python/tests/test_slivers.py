"""Slivers, left out where it is asked for."""

import itertools
import random
import unittest
from array import array
from fractions import Fraction

from surroundings import SLIVER, nested

from i_overlay_mesh import DrawingError, arrays, buffer, outline, stroke, variable_stroke
from i_overlay_mesh.library import Outcome

NARROW = [[0, 0], [4000, 0], [4000, 1]]
ON_GRID = {"scale": 1, "origin": (0, 0)}
LINE = [[0, 0], [100, 10]]


def is_sliver(contour, width):
    """Whether each vertex lies in the strip along the line from the first one to the one farthest from it."""
    (x, y), *others = contour

    def distance(point):
        return max(abs(point[0] - x), abs(point[1] - y))

    end = max(others, key=distance, default=(x, y))
    dx, dy = end[0] - x, end[1] - y
    turns = (dx * (point[1] - y) - dy * (point[0] - x) for point in contour)
    return all(abs(turn) <= width * distance(end) for turn in turns)


def left(shapes, width):
    """The shapes without their slivers, by the rule."""
    kept = [shape for shape in shapes if not all(is_sliver(contour, width) for contour in shape)]
    return [[outer, *(hole for hole in holes if not is_sliver(hole, width))] for outer, *holes in kept]


def flat_point(source, size):
    """A random point, mostly near the axis x."""
    return [source.randint(-size, size), source.randint(-size, size) // 10 ** source.randint(0, 9)]


class TestSlivers(unittest.TestCase):
    def test_a_drawing_that_may_have_one(self):
        options = {"join": "bevel", "rings": "sense", **ON_GRID}
        for more in {}, {"most_splits": 0}:
            whole = outline([SLIVER], 50000, **options, **more).polygons
            self.assertEqual(outline([SLIVER], 50000, sliver_width=1, **options, **more).polygons, left(whole, 1))
        self.assertEqual(outline([SLIVER], 50000, sliver_width=10**12, **options).polygons, [])

    def test_the_width_is_in_units_of_the_input(self):
        small = [[Fraction(x, 1000), Fraction(y, 1000)] for x, y in NARROW]
        for width, polygons in (0.001, 0), (0.0019, 0), (None, 1):
            options = {"join": "bevel", "scale": 1000, "origin": (0, 0), "sliver_width": width}
            self.assertEqual(len(outline([small], 0, **options).polygons), polygons)
        with self.assertRaises(DrawingError) as caught:
            outline([small], 50, scale=1000, sliver_width=0.0009)
        self.assertIn("sliver_width is 0.0009, and has to be at least 1 grid unit", str(caught.exception))

    def test_all_calls(self):
        square = {"type": "Polygon", "coordinates": [[[0, 0], [100, 0], [100, 100], [0, 100], [0, 0]]]}
        for draw in (
            lambda **more: stroke(LINE, 4, cap="butt", **more),
            lambda **more: variable_stroke([[0, 0, 4], [100, 10, 4]], **more),
            lambda **more: buffer({"type": "LineString", "coordinates": LINE}, 2, **more),
        ):
            self.assertEqual(len(draw(sliver_width=1).polygons), 1)
            self.assertEqual(draw(sliver_width=1).polygons, draw().polygons)
            self.assertEqual(draw(sliver_width=10).polygons, [])
        both = {"type": "GeometryCollection", "geometries": [square, {"type": "Point", "coordinates": [300, 0]}]}
        self.assertEqual(len(buffer(both, 2, sliver_width=0.5).polygons), 2)
        self.assertEqual(len(buffer(both, 2, sliver_width=10).polygons), 1)
        self.assertEqual(outline([], 1, sliver_width=1).polygons, [])

    def test_widths_that_are_none(self):
        for width in (0, -1, float("nan"), "1"):
            with self.assertRaises(DrawingError):
                outline(SLIVER, 1, sliver_width=width)

    def test_random_shapes(self):
        """What is left is what the rule leaves, of shapes of any points."""
        source = random.Random(1)
        gone = 0
        for number in range(300):
            size = 10 ** source.randint(1, 9)
            shapes = [
                [[flat_point(source, size) for _ in range(source.randint(1, 5))] for _ in range(source.randint(1, 4))]
                for _ in range(number % 4)
            ]
            width = min(2**32 - 1, source.randint(0, size) * 2 // 10 ** source.randint(0, 3))
            points, contour_ends = arrays.lists_in([contour for shape in shapes for contour in shape], 2).kept
            told = arrays.Told(points, contour_ends, array("Q", itertools.accumulate(map(len, shapes))))
            outcome, kept = arrays.left(told, width)
            self.assertEqual((outcome, nested(kept)), (Outcome.ANSWERED, left(shapes, width)))
            gone += nested(kept) != shapes
        self.assertGreater(gone, 50)


if __name__ == "__main__":
    unittest.main()
