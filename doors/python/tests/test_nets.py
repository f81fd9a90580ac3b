"""Nets that are nearer to each other than a distance."""

import itertools
import math
import random
import unittest
from decimal import Decimal
from fractions import Fraction

from surroundings import IS_QUICK
from test_clearances import ON_GRID, apart_sq, sections, winding

from i_overlay_mesh import DrawingError, clearances, outline, stroke, union


def square(x, y, size):
    """A square ring."""
    return [[x, y], [x + size, y], [x + size, y + size], [x, y + size]]


def random_net(draw):
    """The union of some squares and triangles, of which some squares have a hole."""
    parts = []
    for _ in range(draw.randint(0, 3)):
        x, y, size = draw.randint(-30, 30), draw.randint(-30, 30), draw.randint(2, 15)
        rings = [[x, y], [x + size, y + 3], [x + 1, y + size]], square(x, y, size), square(x - 2, y - 3, size + 9)
        parts.append(draw.choice([rings[:1], rings[1:2], rings[1:]]))
    return union(*parts, **ON_GRID)


def edges_of(net):
    """The edges of a net."""
    return [edge for polygon in net.polygons for ring in polygon for edge in sections(ring, True)]


def holds(net, point):
    """Whether a point that lies on no edge belongs to a net."""
    return sum(winding(point, ring) for polygon in net.polygons for ring in polygon) != 0


def square_apart(first, second):
    """The square of the distance of two nets; None where one has no point."""
    edges = edges_of(first), edges_of(second)
    least = min((apart_sq(*edge, *other) for edge in edges[0] for other in edges[1]), default=None)
    if least:
        for net, others in (first, edges[1]), (second, edges[0]):
            if any(holds(net, start) for start, _ in others):
                return Fraction(0)
    return least


class TestClearances(unittest.TestCase):
    def test_made(self):
        nets = [union([square(x, 0, size)], **ON_GRID) for x, size in ((0, 100), (103, 97), (10, 10), (200, 5))]
        self.assertEqual(clearances(nets, 0), [])
        self.assertEqual(clearances(nets, 3), [(0, 2, 0), (1, 3, 0)])
        self.assertEqual(clearances(nets, 3.5), [(0, 1, 3), (0, 2, 0), (1, 3, 0)])
        self.assertEqual([pair[:2] for pair in clearances(nets, 1e30)], list(itertools.combinations(range(4), 2)))
        self.assertEqual(clearances(iter(nets[:1]), 9), [])
        self.assertEqual(clearances([], 9), [])
        self.assertEqual(clearances([*nets[:2], outline([], 1, **ON_GRID)], 9), [(0, 1, 3)])
        # More pairs than there is room for at first.
        self.assertEqual(len(clearances(nets[:1] * 30, 1)), 30 * 29 // 2)

    def test_units_of_the_input(self):
        """Distances are exact: of floats, which are seldom decimal fractions, too."""
        grid = {"scale": 1000, "origin": (7, 9)}
        nets = [stroke([[0, y], [5, y]], 0.2, **grid) for y in (0, 0.5, 0.8, 1.3)]
        self.assertEqual(clearances(nets, 0.15), [(1, 2, math.nextafter(0.1, 0))])
        self.assertEqual(clearances(nets, Decimal("0.1")), [])
        self.assertEqual(clearances(nets, Fraction(1, 10)), [])
        self.assertEqual(len(clearances(nets, 0.1)), 1)
        self.assertEqual(len(clearances(nets, Fraction(3001, 10000))), 3)

    def test_random(self):
        draw = random.Random(77)
        for _ in range(20 if IS_QUICK else 200):
            nets = [random_net(draw) for _ in range(4)]
            distance = draw.choice([draw.randint(0, 30), Fraction(draw.randint(1, 200), 7)])
            told = {pair[:2]: pair[2] for pair in clearances(nets, distance)}
            for first, second in itertools.combinations(range(4), 2):
                least = square_apart(nets[first], nets[second])
                if least is None or math.floor(least) >= distance**2:
                    self.assertNotIn((first, second), told)
                else:
                    near = told.pop((first, second))
                    self.assertLessEqual(Fraction(near) ** 2, math.floor(least))
                    self.assertAlmostEqual(near, math.sqrt(math.floor(least)))
            self.assertEqual(told, {})

    def test_what_is_refused(self):
        net = union([square(0, 0, 9)], **ON_GRID)
        for nets, distance, message in (
            (net, 1, "nets is no list, and has to be one of answers"),
            (7, 1, "nets is no list"),
            ([net, [[0, 0], [1, 1]]], 1, "net 1: it is no answer of this package"),
            ([net, union([square(0, 0, 9)], scale=2, origin=(0, 0))], 1, "net 1: its grid has scale 2 and origin"),
            ([net], -1, "distance is -1, and has to be 0 or more"),
            ([net], math.nan, "distance is nan, and has to be finite"),
            ([], "3", "distance is '3', and has to be a number"),
        ):
            with self.assertRaisesRegex(DrawingError, message):
                clearances(nets, distance)


if __name__ == "__main__":
    unittest.main()
