"""Scale and origin: exact both ways."""

import random
import unittest
from decimal import Decimal
from fractions import Fraction

from surroundings import numpy

from i_overlay_mesh import GridRangeError, buffer, outline, stroke, variable_stroke
from i_overlay_mesh.grid import MOST, Grid

SQUARE = [[0, 0], [10, 0], [10, 10], [0, 10]]


def moved(ring, x, y):
    return [[px + x, py + y] for px, py in ring]


def points(shapes):
    return [tuple(point) for polygon in shapes.polygons for ring in polygon for point in ring]


class TestGrid(unittest.TestCase):
    def test_what_lies_on_the_grid_comes_back(self):
        draw = random.Random(1)
        for _ in range(2000):
            scale = draw.choice([Fraction(1), Fraction(2**20), Fraction(1, 2**9), Fraction(1000), Fraction(1, 3)])
            origin = (Fraction(draw.randrange(-(10**9), 10**9)) / 7, Fraction(draw.uniform(-1e6, 1e6)))
            grid = Grid(scale, origin)
            place = [draw.randint(-MOST, MOST), draw.randint(-MOST, MOST)]
            self.assertEqual(grid.place(grid.points([place], False)[0]), place)

    def test_a_place_is_the_nearest_one(self):
        draw = random.Random(2)
        for _ in range(2000):
            grid = Grid(Fraction(draw.randint(1, 10**6), draw.randint(1, 10**3)), (Fraction(1, 3), Fraction(-5)))
            point = (draw.uniform(-100, 100), draw.randint(-100, 100))
            for place, coordinate, origin in zip(grid.place(point), point, grid.origin):
                exact = (Fraction(coordinate) - origin) * grid.scale
                self.assertLessEqual(abs(exact - place), Fraction(1, 2))

    def test_floats_come_back_from_an_outline_by_nothing(self):
        draw = random.Random(3)
        for _ in range(50):
            # A triangle of decimals far from 0, on a grid of thousandths.
            ring = [(round(draw.uniform(5e6, 6e6), 3), round(draw.uniform(-1e3, 1e3), 3)) for _ in range(3)]
            self.assertEqual(set(points(outline(ring, 0, scale=1000))), set(ring))
            self.assertEqual(set(points(outline(ring, 0, scale=1000, origin=(5e6, 0.1)))), set(ring))

    def test_the_default_scale_keeps_binary_fractions(self):
        ring = [(1e6 + 0.125, 2.5), (1e6 + 3.75, 2.5), (1e6 + 3.75, 9.0625)]
        self.assertEqual(set(points(outline(ring, 0))), set(ring))

    def test_moving_the_input_moves_the_answer(self):
        here = outline(SQUARE, 2, join="bevel")
        there = outline(moved(SQUARE, 2**20, -(2**21)), 2, join="bevel")
        self.assertEqual(here.scale, there.scale)
        self.assertEqual([(x + 2**20, y - 2**21) for x, y in points(here)], points(there))

    def test_whole_numbers_stay_whole(self):
        shapes = outline(SQUARE, 2, join="miter", scale=1)
        self.assertEqual(points(shapes), [(-2, -2), (12, -2), (12, 12), (-2, 12)])
        self.assertTrue(all(type(number) is int for point in points(shapes) for number in point))
        floats = outline([[0.0, 0], *SQUARE[1:]], 2, join="miter", scale=1)
        self.assertTrue(all(type(number) is float for point in points(floats) for number in point))
        self.assertEqual(points(floats), points(shapes))

    def test_other_numbers(self):
        ring = [(Decimal("0.5"), Fraction(1, 2)), (3, 0.5), (3, 2)]
        expected = {(0.5, 0.5), (3.0, 0.5), (3.0, 2.0)}
        self.assertEqual(set(points(outline(ring, 0))), expected)

    @unittest.skipIf(numpy is None, "numpy is not there")
    def test_numbers_of_numpy(self):
        ring = [(numpy.float32(0.5), numpy.int64(0)), (numpy.float64(3), numpy.int8(0)), (numpy.uint16(3), 2)]
        self.assertEqual(set(points(outline(ring, 0))), {(0.5, 0.0), (3.0, 0.0), (3.0, 2.0)})


class TestDefaultScale(unittest.TestCase):
    """The scale that is told is safe, and twice as much is not."""

    def check(self, call):
        told = call(None, None)
        again = call(told.scale, told.origin)
        self.assertEqual(again.polygons, told.polygons)
        with self.assertRaises(GridRangeError):
            call(told.scale * 2, None)

    def test_outline(self):
        draw = random.Random(4)
        for join in ("round", "miter", "bevel"):
            for _ in range(5):
                size = 10 ** draw.uniform(-6, 9)
                distance = size * 10 ** draw.uniform(-3, 3)
                ring = [[x * size, y * size * draw.random()] for x, y in SQUARE]
                self.check(lambda scale, origin: outline(ring, distance, join=join, scale=scale, origin=origin))

    def test_stroke(self):
        for cap in ("round", "square", "butt", [[0, -3], [50, 0], [0, 3]]):
            self.check(lambda scale, origin: stroke(SQUARE, 3, cap=cap, scale=scale, origin=origin))

    def test_variable_stroke(self):
        line = [[0, 0, 3.5], [100, 0, 80]]
        self.check(lambda scale, origin: variable_stroke(line, scale=scale, origin=origin))

    def test_area(self):
        # The points allow a finer scale than the area, as the ring runs round eighty times.
        ring = SQUARE * 80
        told = outline(ring, 0.5, join="bevel")
        self.assertEqual(told.scale, 2**24)
        with self.assertRaisesRegex(GridRangeError, "polygon 0, ring 0: its double area"):
            outline(ring, 0.5, join="bevel", scale=2**25)

    def test_fractions(self):
        size = Fraction(8, 7)
        self.assertEqual(outline([[x and size, y and size] for x, y in SQUARE], 0).scale, 2**30)

    def test_no_size(self):
        self.assertEqual(outline([[5.5, 5.5]] * 3, 0).polygons, [])
        self.assertEqual(outline([], 1).polygons, [])
        self.assertEqual(buffer({"type": "GeometryCollection", "geometries": []}, 1).polygons, [])


if __name__ == "__main__":
    unittest.main()
