"""Booleans, coverage and overlaps: worked rows, answers of one grid, what is refused, and random ones.

These are looked at far from edges, and beside the program.
"""

import contextlib
import io
import itertools
import json
import math
import pathlib
import pickle
import random
import runpy
import unittest
from array import array

from surroundings import IS_QUICK, PACKAGE, PROGRAM, nested, numpy, program_line, shapely

import i_overlay_mesh
from i_overlay_mesh import (
    DrawingError,
    GridRangeError,
    Shapes,
    TooManySplits,
    answer,
    arrays,
    buffer,
    coverage,
    difference,
    intersection,
    outline,
    overlaps,
    stroke,
    symmetric_difference,
    union,
)
from i_overlay_mesh.distances import windings_round
from i_overlay_mesh.library import Outcome
from i_overlay_mesh.styles import FILL_KINDS, RULE_KINDS, boolean_structure

A = [[0, 0], [4, 0], [4, 4], [0, 4]]
B = [[2, 2], [6, 2], [6, 6], [2, 6]]
R = [[4, 0], [8, 0], [8, 4], [4, 4]]
N = [[4, 4], [8, 4], [8, 8], [4, 8]]
I = [[1, 1], [3, 1], [3, 3], [1, 3]]  # noqa: E741
S = [[0, 0], [5, 0], [5, 3]]
U = [[3, 0], [7, 0], [7, 4], [3, 4]]

LESS = [[0, 0], [4, 0], [4, 2], [2, 2], [2, 4], [0, 4]]
REST = [[2, 4], [4, 4], [4, 2], [6, 2], [6, 6], [2, 6]]
ALL = [[0, 0], [4, 0], [4, 2], [6, 2], [6, 6], [2, 6], [2, 4], [0, 4]]

WHOLE = {"scale": 1, "origin": (0, 0)}

RANDOM_BOOLEANS = 40 if IS_QUICK else 300

FILLED = {
    "even_odd": lambda winding: winding % 2 == 1,
    "non_zero": lambda winding: winding != 0,
    "positive": lambda winding: winding > 0,
    "negative": lambda winding: winding < 0,
}

KEPT = {
    "subject": lambda a, b: a,
    "clip": lambda a, b: b,
    "intersect": lambda a, b: a and b,
    "union": lambda a, b: a or b,
    "difference": lambda a, b: a and not b,
    "inverse_difference": lambda a, b: b and not a,
    "xor": lambda a, b: a != b,
}


def area(shapes):
    """The area of polygons."""
    rings = [ring for polygon in shapes.polygons for ring in polygon]
    return sum(a[0] * b[1] - a[1] * b[0] for ring in rings for a, b in zip(ring, [*ring[1:], ring[0]])) / 2


class TestRows(unittest.TestCase):
    def check(self, call, operands, polygons, **words):
        self.assertEqual(call(*operands, **WHOLE, **words).polygons, polygons)

    def test_two_squares(self):
        self.check(union, (A, B), [[ALL]])
        self.check(intersection, (A, B), [[[[2, 2], [4, 2], [4, 4], [2, 4]]]])
        self.check(difference, (A, B), [[LESS]])
        self.check(difference, (B, A), [[REST]])
        self.check(symmetric_difference, (A, B), [[LESS], [REST]])

    def test_touching(self):
        self.check(union, (A, R), [[[[0, 0], [8, 0], [8, 4], [0, 4]]]])
        self.check(intersection, (A, R), [])
        self.check(union, (A, N), [[A], [N]])

    def test_holes(self):
        self.check(difference, (A, I), [[A, [[1, 1], [1, 3], [3, 3], [3, 1]]]])
        self.check(difference, (A, A), [])
        self.check(symmetric_difference, (A, A[::-1]), [])
        # A ring within another one is a hole, and what fills it fills all.
        self.check(union, ([A, I],), [[A, [[1, 1], [1, 3], [3, 3], [3, 1]]]])
        self.check(union, ([A, I], I), [[A]])

    def test_bent(self):
        self.check(intersection, (S, U), [[[[3, 0], [5, 0], [5, 3], [3, 2]]]])
        self.check(difference, (S, U), [[[[0, 0], [3, 0], [3, 2]]]])

    def test_many(self):
        self.check(union, (), [])
        self.check(union, (A,), [[A]])
        self.check(union, (A, B, R, N), [[[[0, 0], [8, 0], [8, 8], [4, 8], [4, 6], [2, 6], [2, 4], [0, 4]]]])

    def test_fills(self):
        square = [[0, 0], [6, 0], [6, 6], [0, 6]]
        self.check(intersection, ([[A], [B]], square), [[ALL]])
        self.check(intersection, ([[A], [B]], square), [[LESS], [REST]], fill="even_odd")
        self.check(intersection, ([A[::-1]], B), [], rings="sense")
        self.check(intersection, ([A[::-1]], B), [[[[2, 2], [4, 2], [4, 4], [2, 4]]]], rings="sense", fill="non_zero")
        self.check(union, ([A[::-1]],), [[A]], rings="sense", fill="negative")


class TestZones(unittest.TestCase):
    def test_coverage(self):
        told = coverage([A, B, I], 2, **WHOLE).polygons
        self.assertEqual(told, [[[[1, 1], [3, 1], [3, 2], [4, 2], [4, 4], [2, 4], [2, 3], [1, 3]]]])
        self.assertEqual(coverage([[[A], [A]], B, I], 3, **WHOLE).polygons, [[[[2, 2], [3, 2], [3, 3], [2, 3]]]])
        self.assertEqual(coverage([A, B], 1, **WHOLE), union(A, B, **WHOLE))
        self.assertEqual(coverage([A, B], 3, **WHOLE).polygons, [])
        self.assertEqual(coverage([], 1).polygons, [])

    def test_overlaps(self):
        common = [[[[2, 2], [4, 2], [4, 4], [2, 4]]]]
        told = [(i, j, shapes.polygons) for i, j, shapes in overlaps([A, B, R, I], **WHOLE)]
        self.assertEqual([pair[:2] for pair in told], [(0, 1), (0, 3), (1, 2), (1, 3)])
        self.assertEqual(told[0][2], common)
        for i, j, shapes in overlaps([A, B, R, I], **WHOLE):
            self.assertEqual(shapes, intersection([A, B, R, I][i], [A, B, R, I][j], **WHOLE))
        self.assertEqual(overlaps([A, R]), [])
        self.assertEqual(overlaps([]), [])

    def test_answers(self):
        pads = [outline(ring, 1, **WHOLE) for ring in (A, B, N)]
        self.assertEqual(coverage(pads, 2), union(pads[0] & pads[1], pads[1] & pads[2], pads[0] & pads[2]))
        self.assertEqual([(i, j) for i, j, _ in overlaps(pads)], [(0, 1), (0, 2), (1, 2)])
        self.assertEqual(overlaps(pads)[0][2], pads[0] & pads[1])

    def test_fills(self):
        common, ways = intersection(A, B, **WHOLE), {"rings": "sense", "fill": "negative", **WHOLE}
        self.assertEqual(coverage([[A[::-1]], [B[::-1]]], 2, **ways), common)
        self.assertEqual(coverage([outline(A, 0, **WHOLE), [B[::-1]]], 2, **ways), common)
        self.assertEqual(overlaps([[B[::-1]], outline(A, 0, **WHOLE), [B]], **ways), [(0, 1, common)])

    def test_limits(self):
        with self.assertRaises(TooManySplits):
            coverage([S, U], 2, most_splits=1, **WHOLE)
        with self.assertRaises(TooManySplits):
            overlaps([S, U], most_splits=1, **WHOLE)
        self.assertIsNone(coverage([S, U], 2, most_splits=1000, **WHOLE).nearness)

    def test_what_are_no_zones(self):
        for zones in (A[0][0], "A", outline(A, 1), {"type": "Polygon", "coordinates": [A]}):
            with self.assertRaises(DrawingError):
                overlaps(zones)
        for least in (0, -1, 1.5, 2**32, "2", None):
            with self.assertRaises(DrawingError):
                coverage([A], least)
        with self.assertRaises(DrawingError) as caught:
            coverage([A, [[0, 0], [1, math.nan], [2, 2]]], 1)
        self.assertEqual(caught.exception.where, "zone 1, polygon 0, ring 0, point 1")


class TestAnswers(unittest.TestCase):
    """Answers of one grid are combined as they are."""

    def test_operators(self):
        a, b = outline(A, 1, scale=64, origin=(0, 0)), outline(B, 1, scale=64, origin=(0, 0))
        self.assertEqual(a | b, union(a, b))
        self.assertEqual(a & b, intersection(a, b))
        self.assertEqual(a - b, difference(a, b))
        self.assertEqual(a ^ b, symmetric_difference(a, b))
        self.assertEqual((a | b).grid, a.grid)
        self.assertEqual(a | a, a)
        self.assertEqual(a & a, a)
        self.assertFalse(a - a)
        self.assertEqual((a - b) | (a & b), a)
        self.assertEqual(pickle.loads(pickle.dumps(a & b)), a & b)
        self.assertIsNone((a | b).nearness)

    def test_nothing_is_rounded_again(self):
        """On a grid of thirds no vertex is a float, and a union with a far square keeps each place."""
        words = {"scale": 3, "origin": (0, 0)}
        ring = [[0, 0], [5, 1], [4, 6]]
        a, far = outline(ring, 1, **words), outline([[90, 90], [91, 90], [91, 91]], 0, **words)
        both = a | far
        self.assertEqual(both.polygons[:1], a.polygons)
        self.assertEqual(union(a), a)

    def test_an_answer_and_a_drawing(self):
        """The drawing is brought onto the answer's grid."""
        a = outline(A, 0, scale=16, origin=(0, 0))
        told = intersection(a, B)
        self.assertEqual(told.grid, a.grid)
        self.assertEqual(told.polygons, [[[[2.0, 2.0], [4.0, 2.0], [4.0, 4.0], [2.0, 4.0]]]])
        self.assertEqual(intersection(B, a), told)
        with self.assertRaises(GridRangeError) as caught:
            union(a, [[0, 0], [2**27, 0], [0, 1]])
        self.assertEqual(caught.exception.where, "operand 1, polygon 0, ring 0, point 1")

    def test_unequal_grids(self):
        a, b = outline(A, 1, scale=64, origin=(0, 0)), outline(B, 1, scale=32, origin=(0, 0))
        moved = outline(B, 1, scale=64, origin=(1, 0))
        for other in (b, moved):
            for combine in (union, intersection, difference, symmetric_difference):
                with self.assertRaises(DrawingError) as caught:
                    combine(a, other)
                self.assertIn("operand 1: its grid has scale", str(caught.exception))
            with self.assertRaises(DrawingError):
                a | other
        with self.assertRaises(DrawingError):
            union(a, scale=32)
        with self.assertRaises(DrawingError):
            union(a, origin=(1, 1))
        self.assertEqual(union(a, scale=64, origin=(0, 0)), a)

    def test_other_types(self):
        a = outline(A, 1)
        for combine in (lambda: a | A, lambda: a & A, lambda: a - A, lambda: a ^ A, lambda: A | a):
            with self.assertRaises(TypeError):
                combine()

    def test_offsets(self):
        """What lies within two of a square and of a line at once."""
        words = {"scale": 1000, "origin": (0, 0)}
        a, line = outline(A, 2, **words), stroke([[5, -9], [5, 9]], 4, cap="butt", **words)
        self.assertAlmostEqual(max(x for polygon in (a & line).polygons for ring in polygon for x, _ in ring), 6)
        self.assertEqual((a - line) | (a & line), a)


class TestDrawings(unittest.TestCase):
    def test_mappings(self):
        polygons = [{"type": "Polygon", "coordinates": [[*ring, ring[0]]]} for ring in (A, B)]
        told = intersection(*polygons)
        self.assertEqual(told.geojson()["type"], "Polygon")
        self.assertEqual(told.polygons, [[[[2.0, 2.0], [4.0, 2.0], [4.0, 4.0], [2.0, 4.0]]]])
        both = {"type": "GeometryCollection", "geometries": polygons}
        self.assertEqual(union(both).polygons, union(*polygons).polygons)

    def test_whole_numbers(self):
        self.assertIsInstance(union(A, B, scale=1).polygons[0][0][0][0], int)
        self.assertIsInstance(union(A, [[0.0, 0], [1, 0], [1, 1]], scale=1).polygons[0][0][0][0], float)
        self.assertIsInstance(union(A, B).polygons[0][0][0][0], float)

    def test_nearness(self):
        for call in (union, intersection, difference, symmetric_difference):
            told = call(S, U, most_splits=0, **WHOLE)
            self.assertEqual(told.polygons, call(S, U, **WHOLE).polygons)
            self.assertGreater(told.nearness, 0)
            self.assertLess(told.nearness, 2)
            self.assertEqual(call(S, U, most_splits=1000, **WHOLE), told)
            with self.assertRaises(TooManySplits):
                call(S, U, most_splits=1, **WHOLE)
        self.assertEqual(union(A, I, most_splits=1, **WHOLE).nearness, 0)
        self.assertEqual(union(most_splits=3).nearness, 0)

    def test_slivers(self):
        square = [[0, 0], [9000, 0], [9000, 9000], [0, 9000]]
        thin = [[1000, 1000], [5000, 1000], [5000, 1001]]
        self.assertEqual(len(difference(square, thin, **WHOLE).polygons[0]), 2)
        self.assertEqual(len(difference(square, thin, sliver_width=1, **WHOLE).polygons[0]), 1)
        self.assertEqual(intersection(square, thin, sliver_width=1, **WHOLE).polygons, [])

    def test_what_is_refused(self):
        line = {"type": "LineString", "coordinates": [[0, 0], [1, 1]]}
        for operand, where in (
            (line, "operand 1, line 0"),
            ({"type": "Point", "coordinates": [0, 0]}, "operand 1, point 0"),
            (None, "operand 1"),
            ([[0, 0], [1, "x"], [2, 2]], "operand 1, polygon 0, ring 0, point 1"),
        ):
            for call in (union, intersection, difference, symmetric_difference):
                with self.assertRaises(DrawingError) as caught:
                    call(A, operand)
                self.assertEqual(caught.exception.where, where)
        for words in ({"fill": "odd"}, {"rings": "outer"}, {"scale": 0}, {"most_splits": -1}, {"sliver_width": 0}):
            with self.assertRaises(DrawingError):
                union(A, **words)
        with self.assertRaises(GridRangeError) as caught:
            union(A, [[0, 0], [1, 0], [2**31, 1]], scale=1)
        self.assertEqual(caught.exception.where, "operand 0, polygon 0, ring 0, point 0")
        with self.assertRaises(GridRangeError) as caught:
            union(A, [[0, 0], [1, 0], [2**31, 1]], scale=1, origin=(0, 0))
        self.assertEqual(caught.exception.where, "operand 1, polygon 0, ring 0, point 2")
        self.assertIn("the greatest power of two that is safe is 0.25", str(caught.exception))

    def test_empty_ones(self):
        empty = {"type": "Polygon", "coordinates": []}
        self.assertEqual(union(empty, []).polygons, [])
        self.assertEqual(union(A, empty, **WHOLE).polygons, [[A]])
        self.assertEqual(difference(A, [], **WHOLE).polygons, [[A]])
        self.assertEqual(intersection([], A, **WHOLE).polygons, [])
        self.assertEqual(difference(empty, empty).scale, 1)

    @unittest.skipUnless(numpy, "numpy is not there")
    def test_arrays(self):
        a, b = (numpy.array(ring, float) for ring in (A, B))
        self.assertEqual(difference(a, b).polygons, difference(A, B).polygons)

    @unittest.skipUnless(shapely, "Shapely is not there")
    def test_shapely(self):
        a = shapely.geometry.Polygon(A).buffer(1)
        b = shapely.geometry.Polygon(B, [[[3, 3], [5, 3], [5, 5], [3, 5]]])
        for call, name in (
            (union, "union"),
            (intersection, "intersection"),
            (difference, "difference"),
            (symmetric_difference, "symmetric_difference"),
        ):
            told, theirs = call(a, b).shapely(), getattr(a, name)(b)
            self.assertLess(told.symmetric_difference(theirs).area, 1e-6, name)

    def test_exports(self):
        for name in ("union", "intersection", "difference", "symmetric_difference", "coverage", "overlaps"):
            self.assertIn(name, i_overlay_mesh.__all__)
            self.assertTrue(getattr(i_overlay_mesh, name).__doc__)
        self.assertTrue((pathlib.Path(i_overlay_mesh.__file__).parent / "py.typed").exists())
        self.assertIs(type(A and union(A)), Shapes)
        self.assertEqual(buffer(A, 0, **WHOLE), union(A, **WHOLE))

    def test_example(self):
        """The worked example runs, and its areas add up."""
        with contextlib.redirect_stdout(io.StringIO()):
            told = runpy.run_path(str(PACKAGE / "examples/cutting.py"))
        self.assertEqual(len(told["pocket"].polygons[0]), 3)
        self.assertEqual(len(told["dry"].polygons[0]), 2)
        dry, wet, land = (area(told[name]) for name in ("dry", "wet", "land"))
        self.assertAlmostEqual(dry + wet, land, places=2)
        self.assertLess(0.9 * land, dry)


def random_contours(source):
    """Some contours, of which some cross themselves."""
    return [
        [[source.randint(-60, 60), source.randint(-60, 60)] for _ in range(source.randint(1, 6))]
        for _ in range(source.randint(0, 3))
    ]


def as_told(contours):
    """Contours in the form in which the library tells shapes."""
    points = array("i", itertools.chain.from_iterable(itertools.chain.from_iterable(contours)))
    return arrays.Told(points, array("Q", itertools.accumulate(map(len, contours))), array("Q"))


def distance(point, start, end):
    """How far a point lies from an edge, by the greater of the differences in x and y."""
    (ax, ay), (bx, by) = ([place - own for place, own in zip(vertex, point)] for vertex in (start, end))
    dx, dy = bx - ax, by - ay
    # It is least at an end, or where a difference is 0, or where both are equal in size.
    turns = [(-ax, dx), (-ay, dy), (ay - ax, dx - dy), (-ax - ay, dx + dy)]
    places = [0, 1] + [min(max(part / whole, 0), 1) for part, whole in turns if whole]
    return min(max(abs(ax + place * dx), abs(ay + place * dy)) for place in places)


class TestRandom(unittest.TestCase):
    def test_random_booleans(self):
        """Farther than the nearness from all edges a boolean contains just what its rule keeps."""
        source = random.Random(76)
        ways = list(itertools.product(RULE_KINDS, FILL_KINDS, FILL_KINDS))
        probed = 0
        for _ in range(RANDOM_BOOLEANS):
            rule, *fills = source.choice(ways)
            operands = [random_contours(source) for _ in range(2)]
            asked, lists = boolean_structure(rule, *fills), [arrays.lists_in(operand, 2) for operand in operands]
            outcome, told, nearness = arrays.combined(asked, *lists, most_splits=0)
            self.assertEqual(outcome, Outcome.ANSWERED)
            self.assertEqual(arrays.combined(asked, *lists), (outcome, told, 0))
            edges = [edge for ring in itertools.chain(*operands) for edge in zip(ring, [*ring[1:], ring[0]])]
            points = [(source.randint(-60, 60), source.randint(-60, 60)) for _ in range(40)]
            far = [point for point in points if all(distance(point, *edge) > nearness / 64 + 0.001 for edge in edges)]
            probes = sorted(far, key=lambda point: point[1])
            windings = [windings_round(probes, as_told(operand)) for operand in operands]
            inside = [[FILLED[fill](winding) for winding in own] for fill, own in zip(fills, windings)]
            kept = [int(KEPT[rule](a, b)) for a, b in zip(*inside)]
            self.assertEqual(windings_round(probes, told), kept, (rule, fills, operands))
            probed += sum(kept)
        self.assertGreater(probed, RANDOM_BOOLEANS)


def random_boxes(source):
    """Zones of some rectangles each, whose edges meet in whole points alone."""
    zones = []
    for _ in range(source.randint(0, 6)):
        corners = [[source.randint(0, 9) for _ in range(4)] for _ in range(source.randint(1, 2))]
        zones.append([[[[x, y], [x + 4, y], [x + 4, y + 1 + h], [x, y + 1 + h]]] for x, y, h, _ in corners])
    return zones


class TestRandomZones(unittest.TestCase):
    def test_random_zones(self):
        """Zones overlap in what two of them have in common, and what is covered twice is that of all pairs."""
        source = random.Random(29)
        for _ in range(RANDOM_BOOLEANS):
            zones = random_boxes(source)
            pairs = list(itertools.combinations(range(len(zones)), 2))
            common = [(i, j, intersection(zones[i], zones[j], **WHOLE)) for i, j in pairs]
            self.assertEqual(overlaps(zones, **WHOLE), [pair for pair in common if pair[2]], zones)
            self.assertEqual(coverage(zones, 1, **WHOLE), union(*zones, **WHOLE), zones)
            self.assertEqual(coverage(zones, 2, **WHOLE), union(*(shapes for _, _, shapes in common), **WHOLE), zones)


class TestProgram(unittest.TestCase):
    def test_random_booleans(self):
        """In arrays a boolean has the shapes that its request has, in the library and by the program."""
        source = random.Random(76)
        ways = list(itertools.product(RULE_KINDS, FILL_KINDS, FILL_KINDS))
        for _ in range(RANDOM_BOOLEANS):
            rule, first, second = source.choice(ways)
            subject, clip = random_contours(source), random_contours(source)
            request = {"op": "boolean", "int": "i32", "out": "shapes", "rule": rule, "subject": subject, "clip": clip}
            request["fill"] = {"subject": first, "clip": second}
            text = json.dumps(request).encode()
            lists = arrays.lists_in(subject, 2), arrays.lists_in(clip, 2)
            outcome, told, _ = arrays.combined(boolean_structure(rule, first, second), *lists)
            self.assertEqual(outcome, Outcome.ANSWERED)
            self.assertEqual(nested(told), json.loads(answer(text))["shapes"], text)
            if PROGRAM.exists():
                self.assertEqual(program_line(text), answer(text))


if __name__ == "__main__":
    unittest.main()
