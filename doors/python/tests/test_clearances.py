"""Distances that are kept, and how near answers come to lines."""

import itertools
import math
import pickle
import random
import unittest
from array import array
from fractions import Fraction
from unittest import mock

from surroundings import IS_QUICK

from i_overlay_mesh import (
    DrawingError,
    GridRangeError,
    arrays,
    buffer,
    buffer_all,
    distances,
    outline,
    stroke,
    styles,
    variable_stroke,
)

SQUARE = [[0, 0], [100, 0], [100, 100], [0, 100]]
CROSSING = [[0, 0], [10, 10], [10, 0], [0, 10]]
ON_GRID = {"scale": 1, "origin": (0, 0)}


def distance_sq(p, a, b):
    """The square of the distance of a point from a section."""
    (x, y), (dx, dy) = (p[0] - a[0], p[1] - a[1]), (b[0] - a[0], b[1] - a[1])
    length, along = dx * dx + dy * dy, x * dx + y * dy
    if along <= 0 or length == 0:
        return Fraction(x * x + y * y)
    if along >= length:
        return Fraction((p[0] - b[0]) ** 2 + (p[1] - b[1]) ** 2)
    return Fraction((dx * y - dy * x) ** 2) / length


def side(a, b, p):
    """The side of a line on which a point lies: 1, -1, or 0."""
    turn = (b[0] - a[0]) * (p[1] - a[1]) - (b[1] - a[1]) * (p[0] - a[0])
    return (turn > 0) - (turn < 0)


def apart_sq(a, b, c, d):
    """The square of the distance of two sections."""
    if side(a, b, c) * side(a, b, d) < 0 and side(c, d, a) * side(c, d, b) < 0:
        return Fraction(0)
    return min(distance_sq(a, c, d), distance_sq(b, c, d), distance_sq(c, a, b), distance_sq(d, a, b))


def sections(path, closed):
    """Those of a path."""
    return list(zip(path, [*path[1:], path[0]] if closed else path[1:]))


def winding(point, contour):
    """How often a contour winds round a point that is not on it."""
    x, y = point
    total = 0
    for a, b in sections(contour, True):
        if (a[1] <= y) != (b[1] <= y) and (side(a, b, point) > 0) == (b[1] > a[1]):
            total += 1 if b[1] > a[1] else -1
    return total


def star(draw, count, size):
    """A ring that does not cross itself."""
    turns = (2 * math.pi * (index + draw.uniform(-0.3, 0.3)) / count for index in range(count))
    radii = [size * draw.uniform(0.3, 1) for _ in range(count)]
    return [[radius * math.cos(turn), radius * math.sin(turn)] for radius, turn in zip(radii, turns)]


def near(draw, path, closed, distance):
    """A point nearer to a path than a distance, mostly by little."""
    a, b = draw.choice(sections(path, closed))
    share, turn = draw.choice([0, 1, draw.random()]), draw.uniform(0, 7)
    far = distance * draw.choice([draw.random(), 0.999, 1 - 1e-7])
    return [(1 - share) * u + share * v + far * w for u, v, w in zip(a, b, (math.cos(turn), math.sin(turn)))]


def random_paths(draw, size, count):
    """Some, of few points."""
    return [[[draw.randint(-size, size) for _ in "xy"] for _ in range(draw.randint(1, 4))] for _ in range(count)]


class TestClearanceTo(unittest.TestCase):
    def test_made(self):
        grown = outline([SQUARE], 10, join="miter", **ON_GRID)
        self.assertEqual(grown.clearance_to([SQUARE], True), 10)
        self.assertEqual(grown.clearance_to(SQUARE), 10)
        self.assertEqual(grown.clearance_to([[-20, -20], [120, -20]]), 10)
        # The closing section crosses the answer.
        corner = [[-40, 140], [140, 140], [140, -40]]
        self.assertEqual((grown.clearance_to(corner), grown.clearance_to(corner, True)), (30, 0))
        for kind, coordinates, expected in (
            ("Point", [113, 114], 5),
            ("MultiPoint", [[50, 50], [113, 114]], 5),
            ("Polygon", [[[-13, 0], [-30, 0], [-30, 9], [-13, 0]]], 3),
            ("LineString", corner, 30),
            ("LineString", [*corner, corner[0]], 0),
        ):
            self.assertEqual(grown.clearance_to({"type": kind, "coordinates": coordinates}), expected)
        self.assertEqual(grown.clearance_to([]), math.inf)
        self.assertEqual(grown.clearance_to([[[1, 1]], []]), math.inf)
        self.assertEqual(outline([], 1).clearance_to(SQUARE), math.inf)
        with self.assertRaisesRegex(GridRangeError, "line 0, point 1: y is 2147483648, which lies at 2147483648"):
            grown.clearance_to([[0, 0], [0, 2**31]])

    def test_units_of_the_input(self):
        """What rounding onto the grid may take is taken off, and the root is rounded down."""
        grown = outline([[Fraction(x, 7), Fraction(y, 7)] for x, y in SQUARE], 1, join="miter", scale=100)
        self.assertGreater(grown.clearance_to([[Fraction(-9, 7), 0], [Fraction(-9, 7), 1]]), 0.27)
        self.assertLess(grown.clearance_to([[Fraction(-9, 7), 0], [Fraction(-9, 7), 1]]), Fraction(2, 7))

    def test_random(self):
        """The square of what is told is that of the least distance, less a little."""
        draw = random.Random(1)
        for number in range(60 if IS_QUICK else 600):
            size = 10 ** draw.randint(1, 8)
            lists, paths = random_paths(draw, size, number % 4), random_paths(draw, size, number % 3)
            told = arrays.Told(*arrays.lists_in(lists, 2).kept, array("Q", range(1, len(lists) + 1)))
            for closed in (False, True):
                edges = [edge for contour in lists for edge in sections(contour, True)]
                least = min(
                    (apart_sq(*edge, *part) for path in paths for part in sections(path, closed) for edge in edges),
                    default=distances.NONE,
                )
                square = distances.square_to(told, arrays.lists_in(paths, 2), closed)
                self.assertEqual(square, math.floor(least))
            points = sorted((path[0] for path in paths), key=lambda point: point[1])
            on_edges = [any(distance_sq(point, *edge) == 0 for edge in edges) for point in points]
            told_windings = distances.windings_round(points, told)
            for point, is_on, found in zip(points, on_edges, told_windings):
                if not is_on:
                    self.assertEqual(found, sum(winding(point, contour) for contour in lists))


class TestOwnClearance(unittest.TestCase):
    def test_made(self):
        """An answer knows what it was drawn of."""
        corner = [[-40, 140], [140, 140], [140, -40]]
        for answer, paths, closed in (
            (outline([SQUARE], 10, join="miter", **ON_GRID), [SQUARE], True),
            (outline([SQUARE], -10, **ON_GRID), [SQUARE], True),
            (stroke(corner, 20, cap="square", **ON_GRID), [corner], False),
            (stroke(corner, 20, closed=True), [corner], True),
            (stroke([corner, [*SQUARE, SQUARE[0]]], 20, scale=7), [corner, [*SQUARE, SQUARE[0]]], None),
            (buffer({"type": "MultiPoint", "coordinates": corner}, 9), [[point] for point in corner], True),
            (buffer([SQUARE], 9, most_splits=0), [SQUARE], True),
        ):
            self.assertEqual(answer.clearance, answer.clearance_to(paths, closed))
            self.assertGreater(answer.clearance, 5)
        self.assertEqual(stroke(corner, 20, cap="butt", **ON_GRID).clearance, 0)
        both = {"type": "GeometryCollection", "geometries": [{"type": "LineString", "coordinates": corner}]}
        both["geometries"].append({"type": "Point", "coordinates": [700, 700]})
        self.assertEqual(buffer(both, 5).clearance, buffer(both, 5).clearance_to(both))

    def test_widths(self):
        """A vertex may stand alone, and then is a point."""
        line, alone = [[0, 0, 20], [100, 0, 40], [100, 80, 30]], [[900, 0, 16]]
        narrow = [[x, y] for x, y, _ in line]
        answer = variable_stroke([line], step=1)
        self.assertEqual(answer.clearance, answer.clearance_to([narrow]))
        self.assertTrue(9.9 < answer.clearance <= 10)
        answer = variable_stroke([line, alone], step=1)
        self.assertEqual(answer.clearance, answer.clearance_to([[900, 0]], True))
        self.assertTrue(7.9 < answer.clearance <= 8)
        self.assertIsNone(answer.reach)

    def test_not_known(self):
        drawn = stroke([[0, 0], [100, 0]], 20)
        (one,) = buffer_all([[SQUARE]], 5)
        for answer in (drawn | drawn, pickle.loads(pickle.dumps(drawn)), one):
            self.assertEqual((answer.clearance, answer.reach), (None, None))
        self.assertEqual((stroke([], 20).clearance, stroke([], 20).reach), (math.inf, None))
        self.assertEqual(stroke([[[1, 1]]], 20).clearance, math.inf)


class TestReach(unittest.TestCase):
    def check(self, lines, closed, words, draw):
        """All points that are nearer than is told are inside; butt caps leave out those beyond."""
        answer = stroke(lines, 40, closed=closed, **words)
        self.assertTrue(0 <= answer.reach <= 20)
        for _ in range(40 if answer.reach else 0):
            line = draw.choice(lines)
            point = near(draw, line, closed, answer.reach)
            is_beyond = any(
                sum((p - e) * (e - b) for p, e, b in zip(point, end, before)) > -abs(answer.reach) / 1000
                for end, before in ((line[0], line[1]), (line[-1], line[-2]))
            )
            if closed or words["cap"] != "butt" or not is_beyond:
                self.assertEqual(sum(winding(point, ring) for polygon in answer.polygons for ring in polygon), 1)
        return answer.reach

    def test_random(self):
        draw, told = random.Random(3), 0
        for _ in range(20 if IS_QUICK else 200):
            words = {"step": draw.choice([45, 20, 5]), "cap": draw.choice(["round", "square", "butt"])}
            words |= {"join": draw.choice(["round", "miter", "bevel"]), "scale": draw.choice([None, 900])}
            lines = [[[draw.uniform(-99, 99) for _ in "xy"] for _ in range(draw.randint(2, 9))] for _ in "12"]
            told += self.check(lines, draw.choice([False, True]), words, draw) > 0
        self.assertGreater(told, 5)

    def test_made(self):
        line, corner, back = [[0, 0], [1000, 0]], [[0, 0], [1000, 0], [1000, 1000]], [[0, 0], [1000, 0], [0, 0]]
        for words in {"cap": "square"}, {"cap": "butt"}, {"cap": "round", "step": 1}, {"closed": True, "step": 1}:
            self.assertTrue(98 < stroke(line, 200, **ON_GRID, **words).reach <= 100)
        self.assertTrue(68 < stroke(corner, 200, join="bevel", **ON_GRID).reach < 71)
        geometry = {"type": "LineString", "coordinates": corner}
        self.assertEqual(buffer(geometry, 100).reach, stroke(corner, 200).reach)
        for lines, words in (
            (line, {"side": "left"}),
            (line, {"end_cap": [[0, -100], [200, 0], [0, 100]]}),
            (back, {"join": "bevel", "closed": False}),
            ([line, [[0, 0.1], [0.1, 0]]], {"cap": "square"}),
        ):
            self.assertEqual(stroke(lines, 200, **ON_GRID, **words).reach, 0)
        self.assertIsNone(outline([SQUARE], 10).reach)
        self.assertIsNone(buffer([SQUARE], 10).reach)

    def test_units_of_the_input(self):
        """What rounding onto the grid may take is taken off."""
        whole = stroke([[0, 0], [700, 0]], 140, **ON_GRID).reach
        part = stroke([[0, 0], [Fraction(700, 7), 0]], 20, scale=7, origin=(0, 0)).reach
        self.assertTrue(whole - 1 < 7 * part < whole)


class TestAtLeast(unittest.TestCase):
    def check(self, shapes, paths, closed, distance, draw):
        """All points nearer than a distance are in the answer, and it is told that they are."""
        self.assertGreaterEqual(shapes.clearance_to(paths, closed), distance)
        for _ in range(30):
            point = near(draw, draw.choice(paths), closed, distance)
            self.assertEqual(sum(winding(point, ring) for polygon in shapes.polygons for ring in polygon), 1)

    def test_random(self):
        draw = random.Random(2)
        for number in range(12 if IS_QUICK else 120):
            distance, count = draw.choice([0.3, 5, 40]), draw.choice([3, 7, 30])
            words = {"step": draw.choice([45, 20, 5]), "scale": draw.choice([None, 9, 1000]), "at_least": True}
            ring = star(draw, count, 100)
            hole = [[x / 5, y / 5] for x, y in ring]
            self.check(outline([ring, hole], distance, **words), [ring, hole], True, distance, draw)
            line = [[draw.uniform(-100, 100) for _ in "xy"] for _ in range(count)]
            caps = {"cap": draw.choice(["round", "square"])}
            self.check(stroke(line, 2 * distance, **words, **caps), [line], False, distance, draw)
            points = {"type": "MultiPoint", "coordinates": line}
            self.check(buffer(points, distance, **words), [[point, point] for point in line], False, distance, draw)
            (answer,) = buffer_all([points], distance, **words)
            self.assertEqual(answer, buffer(points, distance, **words))

    def test_another_radius_is_drawn(self):
        """Where the radius is too small by some units, a greater one is drawn, and where by many, it is told."""
        words = {"at_least": True, "step": 45, **ON_GRID}
        for loss in (-1, -2):
            with mock.patch.object(styles, "LOSS_ON_GRID", loss), mock.patch.object(
                distances, "draw", wraps=distances.draw
            ) as drawn:
                self.assertGreaterEqual(outline([SQUARE], 40, **words).clearance_to([SQUARE], True), 40)
            self.assertGreater(drawn.call_count, 1)
        with mock.patch.object(styles, "LOSS_ON_GRID", -9):
            with self.assertRaisesRegex(DrawingError, "polygon 0, ring 0: the answer comes nearer to it than 40, so"):
                outline([SQUARE], 40, **words)

    def test_what_cannot_be_kept(self):
        rings = [[[x + 1000 * number, y] for x, y in SQUARE] for number in range(9)]
        rings[7] = [[x, y + 500] for x, y in CROSSING]
        for words in {}, {"rings": "sense"}:
            with self.assertRaisesRegex(DrawingError, "polygon 0, ring 7: .* so at_least cannot be kept: does it"):
                outline(rings, 1, at_least=True, **words)
        with self.assertRaisesRegex(DrawingError, "polygon 0, ring 0: it is not in the answer, so at_least"):
            outline([[0, 0], [5, 5], [9, 9]], 1, at_least=True)
        collection = {"type": "MultiLineString", "coordinates": [SQUARE, [[900, 0], [900, 0]]]}
        with self.assertRaisesRegex(DrawingError, "line 1: it is not in the answer, so at_least"):
            buffer(collection, 1, at_least=True)

    def test_what_is_not_asked_for(self):
        """Inwards, with flat caps, on one side, and where holes stay, no distance can be kept to all of a boundary."""
        overlapping = [SQUARE, [[x + 50, y + 30] for x, y in SQUARE]]
        self.assertEqual(len(outline(overlapping, -5, at_least=True, rings="sense").polygons), 1)
        ring = [SQUARE, [[10, 10], [10, 90], [90, 90], [90, 10]]]
        self.assertEqual(len(outline(ring, 20, hole_distance=0, at_least=True).polygons), 1)
        for words in ({"cap": "butt"}, {"side": "left"}):
            self.assertEqual(len(stroke([[0, 0], [9, 0]], 2, at_least=True, **words).polygons), 1)
        self.assertEqual(len(outline([], 5, at_least=True)), 0)


if __name__ == "__main__":
    unittest.main()
