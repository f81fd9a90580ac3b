"""Many geometries at once: each as by itself, whatever else is asked."""

import random
import signal
import subprocess
import sys
import time
import unittest

from surroundings import PACKAGE, numpy, shapely

from i_overlay_mesh import DrawingError, Shapes, TooManySplits, buffer, buffer_all
from i_overlay_mesh.pool import MOST_ITEMS, chunks_of

SQUARE = [[0, 0], [4, 0], [4, 3], [0, 3]]
BROKEN = {"type": "LineString", "coordinates": [[0, 0], [1]]}


def geometry(kind, coordinates):
    return {"type": kind, "coordinates": coordinates}


def mappings():
    """GeoJSON of each kind."""
    line = [[0, 0], [30, 0], [30, 10]]
    return [
        geometry("Polygon", [[*SQUARE, SQUARE[0]]]),
        None,
        geometry("LineString", line),
        geometry("MultiPoint", [[0, 0], [9, 9]]),
        {"type": "GeometryCollection", "geometries": [geometry("Point", [1, 2]), geometry("LineString", line)]},
    ]


def star(draw, count, size, x, y):
    """A ring round a point."""
    turns = sorted(draw.uniform(0, 6.28) for _ in range(count))
    return [
        (x + size * draw.uniform(0.3, 1) * numpy.cos(t), y + size * draw.uniform(0.3, 1) * numpy.sin(t)) for t in turns
    ]


def made(draw, kind):
    """A random geometry of Shapely."""
    kinds = shapely.geometry
    size, x, y = 10 ** draw.uniform(-2, 4), draw.choice([0, 1e6, -5e5]) + draw.random(), draw.choice([0, 5.5e6])
    ring = star(draw, draw.randint(4, 12), size, x, y)
    away = [(px + 4 * size, py) for px, py in ring]
    inner = [(x + (px - x) / 9, y + (py - y) / 9) for px, py in ring]
    return [
        lambda: kinds.Polygon(ring),
        lambda: kinds.Polygon(ring, [inner]),
        lambda: kinds.MultiPolygon([kinds.Polygon(ring), kinds.Polygon(away)]),
        lambda: kinds.LineString(ring),
        lambda: kinds.LineString([*ring, ring[0]]),
        lambda: kinds.MultiLineString([ring, [*away, away[0]]]),
        lambda: kinds.Point(x, y),
        lambda: kinds.MultiPoint(ring),
        lambda: kinds.GeometryCollection([kinds.Polygon(ring), kinds.Point(x, y)]),
        lambda: kinds.Polygon(),
        lambda: None,
    ][kind]()


class TestMany(unittest.TestCase):
    def test_each_is_as_by_itself(self):
        given = mappings()
        for workers in (1, 3):
            answers = buffer_all(given, 2, workers=workers)
            self.assertEqual(answers, [None if item is None else buffer(item, 2) for item in given])
            self.assertIsInstance(answers[0], Shapes)

    def test_a_distance_for_each(self):
        given = mappings()
        distances = [1, 2, 3.5, 2, 5]
        expected = [None if item is None else buffer(item, own) for item, own in zip(given, distances)]
        self.assertEqual(buffer_all(given, distances), expected)
        with self.assertRaisesRegex(DrawingError, "distance has 2 numbers, and has to have one for each of 5"):
            buffer_all(given, [1, 2])

    def test_nothing(self):
        self.assertEqual(buffer_all([], 1), [])
        self.assertEqual(buffer_all([None, None], 1), [None, None])

    def test_the_first_error_is_raised(self):
        given = [mappings()[0]] * 40
        given[7] = given[31] = BROKEN
        for workers in (1, 4):
            with self.assertRaises(DrawingError) as caught:
                buffer_all(given, 1, workers=workers)
            self.assertEqual(caught.exception.where, "geometry 7, line 0, point 1")
        with self.assertRaisesRegex(TooManySplits, "geometry 0"):
            buffer_all([geometry("LineString", [[0, 0], [50, 3], [7, 40], [20, -30]])], 4, most_splits=1)

    def test_errors_are_collected(self):
        given = [mappings()[0]] * 40
        given[7] = given[31] = BROKEN
        errors = {}
        answers = buffer_all(given, 1, errors=errors)
        self.assertEqual(sorted(errors), [7, 31])
        self.assertEqual([number for number, answer in enumerate(answers) if answer is None], [7, 31])
        self.assertIn("geometry 31, line 0", str(errors[31]))

    def test_progress(self):
        told = []
        buffer_all([mappings()[0]] * 50, 1, workers=2, progress=lambda done, total: told.append((done, total)))
        self.assertEqual(told[-1], (50, 50))
        self.assertEqual([done for done, _ in told], sorted({done for done, _ in told}))

    def test_chunks(self):
        """Each number stands in one chunk, and each thread has some of them."""
        for count, workers in [(0, 3), (1, 1), (5, 4), (100, 4), (10_000, 4), (30_001, 1)]:
            chunks = chunks_of(count, workers)
            self.assertEqual([number for chunk in chunks for number in chunk], list(range(count)))
            self.assertGreaterEqual(len(chunks), min(count, 4 * workers))
            self.assertLessEqual(max(map(len, chunks), default=0), MOST_ITEMS)

    def test_words(self):
        for words, expected in [
            ({"workers": 0}, "workers is 0, and has to be a whole number from 1"),
            ({"progress": 3}, "progress is 3, and has to be True, or a function"),
            ({"project": "EPSG:3035"}, "geometries have no CRS but those of GeoPandas"),
            ({"join": "mitred"}, "join is 'mitred'"),
        ]:
            with self.assertRaisesRegex(DrawingError, expected):
                buffer_all(mappings(), 1, **words)
        with self.assertRaisesRegex(DrawingError, "`buffer` takes a single geometry"):
            buffer_all(mappings()[0], 1)

    def test_a_signal_is_heard_within_a_second(self):
        """While one geometry takes long inside the library."""
        code = (
            "import math, signal, i_overlay_mesh as m\n"
            # A shell ignores the signal for what it starts in the background.
            "signal.signal(signal.SIGINT, signal.default_int_handler)\n"
            "ring = [(math.cos(i) * 1e3 + i % 7, math.sin(i) * 1e3) for i in range(20000)]\n"
            "print('begun', flush=True)\n"
            "m.buffer_all([{'type': 'LineString', 'coordinates': ring}] * 8, 1.0, workers=2)\n"
        )
        process = subprocess.Popen(
            [sys.executable, "-c", code], cwd=PACKAGE, stdout=subprocess.PIPE, stderr=subprocess.PIPE
        )
        process.stdout.readline()
        time.sleep(1)
        begun = time.monotonic()
        process.send_signal(signal.SIGINT)
        _, error = process.communicate(timeout=60)
        self.assertIn(b"KeyboardInterrupt", error)
        # A second, and what it takes to end on a machine that has other work. The drawing would take hours.
        self.assertLess(time.monotonic() - begun, 60)


@unittest.skipIf(shapely is None or numpy is None, "Shapely is not there")
class TestShapely(unittest.TestCase):
    def check(self, given, distance, **words):
        """Each answer is that of `buffer`, point for point."""
        answers = buffer_all(given, distance, **words)
        for item, answer in zip(given, answers):
            if item is None or item.is_empty:
                self.assertIs(answer, item)
                continue
            expected = buffer(item, distance, **words).shapely()
            self.assertEqual(answer.geom_type, expected.geom_type)
            self.assertTrue(answer.equals_exact(expected, 0), (item.wkt, distance, words))

    def test_each_is_as_by_itself(self):
        draw = random.Random(1)
        given = [made(draw, number % 11) for number in range(110)]
        for distance in (1, -0.25, 0):
            self.check(given, distance)
        distances = [draw.choice([1, -1, 0, 0.25, draw.uniform(-9, 9)]) for _ in given]
        answers = buffer_all(given, distances)
        for item, distance, answer in zip(given, distances, answers):
            if item is not None and not item.is_empty:
                self.assertTrue(answer.equals_exact(buffer(item, distance).shapely(), 0), (item.wkt, distance))
        self.check(given, 2.5, join="bevel", cap="square")
        self.check([item for item in given if item is None or item.is_valid], 0.5, at_least=True, step=20)
        self.check(given, 1, quad_segs=8, join_style="mitre", mitre_limit=3)
        self.check(given, 3, most_splits=0)
        lines = [item for item in given if item is None or "Line" in item.geom_type or "Point" in item.geom_type]
        for distance in (0.001, -0.001):
            self.check(lines, distance, single_sided=True)
        with self.assertRaisesRegex(DrawingError, "geometry 0, polygon 0, ring 0: single_sided is for lines"):
            buffer_all(given, 1, single_sided=True)

    def test_lengths_of_any_size(self):
        """A distance that no grid of floats has, beside others, is left to exact numbers."""
        points = [shapely.geometry.Point(x, 0) for x in (0, 5, 0, 1e300)]
        distances = [1e-320, 1, 1e300, 1e299]
        for item, distance, answer in zip(points, distances, buffer_all(points, distances, workers=1)):
            self.assertTrue(answer.equals_exact(buffer(item, distance).shapely(), 0), distance)

    def test_rooms(self):
        """Answers that the room takes one after the other, and one that is longer than it."""
        if not hasattr(shapely, "linearrings"):
            self.skipTest("Shapely 2 is not there")
        from unittest import mock

        from i_overlay_mesh import batches

        draw = random.Random(3)
        given = [made(draw, number % 7) for number in range(70)]
        with mock.patch.object(batches, "FIRST_ROOM", (300, 2, 1)):
            self.check(given, 2)

    def test_points_that_are_one_as_floats(self):
        """Far from the origin, where the grid is finer than floats are, a ring may end where it starts before it is closed."""
        for place in range(40):
            point = shapely.geometry.Point(2**23 + place / 7, 2**23 - place / 3)
            self.check([point], 2.0**-24)

    def test_arrays_keep_their_form(self):
        given = numpy.full((2, 3), None, object)
        given[0, 1] = shapely.geometry.Point(1, 2)
        given[1, 2] = shapely.geometry.Polygon()
        answers = buffer_all(given, 1)
        self.assertEqual(answers.shape, (2, 3))
        self.assertTrue(answers[0, 1].equals_exact(buffer(given[0, 1], 1).shapely(), 0))
        self.assertIs(answers[1, 2], given[1, 2])
        self.assertEqual(buffer_all(numpy.array([]), 1).shape, (0,))
        with self.assertRaisesRegex(DrawingError, "an array of float64"):
            buffer_all(numpy.zeros(3), 1)

    def test_what_is_not_finite_is_told(self):
        given = [shapely.geometry.Point(0, 0), shapely.geometry.LineString([(0, 0), (1, float("inf"))])]
        with self.assertRaisesRegex(DrawingError, "geometry 1, line 0, point 1: y is inf, and has to be finite"):
            buffer_all(given, 1)

    def test_middles(self):
        """The origin of many at once is that of one, at halves too."""
        if not hasattr(shapely, "linearrings"):
            self.skipTest("Shapely 2 is not there")
        from fractions import Fraction

        from i_overlay_mesh.batches import middle_places
        from i_overlay_mesh.exact import nearest_whole

        draw = random.Random(2)
        values = [
            draw.choice([0, 0.5, -0.5, 1.5, 1e-20, -1e-20, 0.5 - 2**-54]) + draw.randint(-3, 3) for _ in range(2000)
        ]
        pairs = list(zip(values[::2], values[1::2]))
        low, high = numpy.array(pairs).T
        expected = [nearest_whole((Fraction(a) + Fraction(b)) / 2) for a, b in pairs]
        self.assertEqual(middle_places(low, high).tolist(), expected)


if __name__ == "__main__":
    unittest.main()
