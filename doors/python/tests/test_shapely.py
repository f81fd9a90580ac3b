"""Answers against Shapely's, on made polygons and on a country, within the tolerances that are stated."""

import json
import math
import random
import unittest

from surroundings import COUNTRY, shapely

from i_overlay_mesh import buffer, outline, stroke, variable_stroke

# So many steps for a quarter of a turn come within 5e-6 of a radius.
FINE = 256
FINE_GAP = 5e-6
# What rounding to the grid does, in grid units.
ON_GRID = 4
# What is added to a radius of arcs that lie outside, as each of a thousand steps may lose a little.
OUTSIDE_MORE = 4e-6

BEVEL, MITER, FLAT = 3, 2, 2


def star(draw, count, size):
    """A polygon round a point, of any radii."""
    radii = [size * draw.uniform(0.4, 1) for _ in range(count)]
    turns = [2 * math.pi * index / count for index in range(count)]
    return [[radius * math.cos(turn), radius * math.sin(turn)] for radius, turn in zip(radii, turns)]


def drawn(shapes):
    """The answer as a geometry that Shapely's operations take."""
    geometry = shapes.shapely()
    return geometry if geometry.is_valid else geometry.buffer(0)


def country():
    """A country with a hole, in metres."""
    return shapely.geometry.shape(json.loads(COUNTRY.read_text(encoding="utf-8"))["features"][0]["geometry"])


@unittest.skipIf(shapely is None, "Shapely is not there")
class AgainstShapely(unittest.TestCase):
    def check_between(self, shapes, inner, outer):
        """The answer holds one geometry and lies in another one."""
        answer = drawn(shapes)
        self.assertTrue(answer.is_valid)
        self.assertEqual(inner.difference(answer).area, 0)
        self.assertEqual(answer.difference(outer).area, 0)

    def check_near(self, shapes, geometry, distance, tolerance):
        """Nothing of the answer is farther than the distance, nor misses it by more than the tolerance."""
        slack = abs(distance) * FINE_GAP + ON_GRID / shapes.scale
        inner = geometry.buffer(distance - tolerance - slack, resolution=FINE)
        outer = geometry.buffer(distance + slack, resolution=FINE)
        self.check_between(shapes, inner, outer)

    def check_at_least(self, shapes, geometry, distance, tolerance):
        """The answer has all within the distance, and no more than the tolerance beyond."""
        slack = abs(distance) * (FINE_GAP + OUTSIDE_MORE) + 3 * ON_GRID / shapes.scale
        inner = geometry.buffer(distance, resolution=FINE)
        outer = geometry.buffer(distance + tolerance + slack, resolution=FINE)
        self.check_between(shapes, inner, outer)

    def check_alike(self, shapes, expected, length):
        """Both cover the same but for what rounding does along the boundary."""
        apart = drawn(shapes).symmetric_difference(expected).area
        self.assertLessEqual(apart, ON_GRID / shapes.scale * expected.length + length * 1e-9)


class TestMade(AgainstShapely):
    def test_round_joins(self):
        draw = random.Random(1)
        for count in (3, 5, 8, 40):
            for distance in (-20, -3, 1, 30):
                polygon = shapely.geometry.Polygon(star(draw, count, 100))
                for tolerance in (0.5, 0.01):
                    shapes = outline(polygon, distance, tolerance=tolerance)
                    if distance > 0:
                        self.check_near(shapes, polygon, distance, tolerance)
                    else:
                        # Inwards, an arc that cuts its corner takes less away.
                        slack = ON_GRID / shapes.scale - distance * FINE_GAP
                        inner = polygon.buffer(distance - slack, resolution=FINE)
                        outer = polygon.buffer(distance + tolerance + slack, resolution=FINE)
                        self.check_between(shapes, inner, outer)

    def test_steps(self):
        polygon = shapely.geometry.Polygon(star(random.Random(2), 7, 10))
        # An arc of steps of 45 degrees comes within 7.7 hundredths of its radius, one of 90/16 within 1.3 thousandths.
        self.check_near(outline(polygon, 5, step=45), polygon, 5, 5 * 0.0762)
        self.check_near(outline(polygon, 5), polygon, 5, 5 * 0.00121)

    def test_at_least(self):
        draw = random.Random(3)
        for step, share in ((45, 0.0824), (5.625, 0.00121), (0.36, 0.000005)):
            polygon = shapely.geometry.Polygon(star(draw, 9, 100))
            self.check_at_least(outline(polygon, 10, step=step, at_least=True), polygon, 10, 10 * share)
        polygon = shapely.geometry.Polygon(star(draw, 9, 100))
        for tolerance in (1, 0.1, 0.001):
            self.check_at_least(outline(polygon, 10, tolerance=tolerance, at_least=True), polygon, 10, tolerance)

    def test_at_least_on_a_coarse_grid(self):
        draw = random.Random(10)
        for _ in range(40):
            polygon = shapely.geometry.Polygon(star(draw, 9, 100))
            on_grid = shapely.geometry.Polygon([[round(x), round(y)] for x, y in polygon.exterior.coords])
            for step in (2, 30):
                # The enlarged distance is just a whole number, so that rounding up adds nothing.
                distance = 8.9999 * math.cos(math.radians(step / 2))
                shapes = outline(on_grid, distance, step=step, at_least=True, scale=1)
                self.assertEqual(on_grid.buffer(distance, resolution=FINE).difference(drawn(shapes)).area, 0)

    def test_a_tolerance_that_any_step_keeps(self):
        coarsest = outline(star(random.Random(11), 5, 10), 2, step=45).polygons
        for tolerance in (0.16, 2, 1e300):
            self.assertEqual(outline(star(random.Random(11), 5, 10), 2, tolerance=tolerance).polygons, coarsest)
        self.assertEqual(len(outline(star(random.Random(11), 5, 1e-310), 1e-315, tolerance=1e200)), 1)

    def test_at_least_inwards(self):
        polygon = shapely.geometry.Polygon(star(random.Random(4), 9, 100))
        shapes = outline(polygon, -5, tolerance=0.1, at_least=True)
        self.assertEqual(drawn(shapes).difference(polygon.buffer(-5, resolution=FINE)).area, 0)

    def test_miters_and_bevels(self):
        draw = random.Random(5)
        for count in (4, 7, 12):
            polygon = shapely.geometry.Polygon(star(draw, count, 100)).convex_hull
            length = polygon.length
            miter = outline(polygon, 5, join="miter", miter_limit=20, min_turn=0)
            self.check_alike(miter, polygon.buffer(5, join_style=MITER, mitre_limit=20), length)
            self.check_alike(outline(polygon, 5, join="bevel"), polygon.buffer(5, join_style=BEVEL), length)

    def test_the_limit_of_miters(self):
        spike = [[0, 0], [100, 0], [0, 10]]
        for limit in (1.5, 3, 8):
            shapes = outline(spike, 5, join="miter", miter_limit=limit)
            farthest = max(x for x, _ in shapes.polygons[0][0]) - 100
            half = math.atan2(10, 100) / 2
            # The ends of the edge that clips are moved sides' points, as far away as the limit says.
            along = math.atan2(math.sqrt(limit**2 - 1), 1)
            expected = 5 * limit * max(math.cos(math.pi / 2 - 2 * half - along), math.cos(math.pi / 2 - along))
            self.assertAlmostEqual(farthest, expected, 5)

    def test_several_polygons(self):
        draw = random.Random(6)
        parts = []
        for index in range(4):
            ring = star(draw, 12, 30)
            parts.append(shapely.geometry.Polygon([[x + 50 * index, y] for x, y in ring]))
        polygons = shapely.geometry.MultiPolygon(parts)
        self.check_near(outline(polygons, 8, tolerance=0.05), polygons, 8, 0.05)

    def test_strokes(self):
        draw = random.Random(7)
        for _ in range(8):
            line = shapely.geometry.LineString([[draw.uniform(-100, 100), draw.uniform(-100, 100)] for _ in range(6)])
            self.check_near(stroke(line, 10, tolerance=0.05), line, 5, 0.05)
            self.check_at_least(stroke(line, 10, tolerance=0.05, at_least=True), line, 5, 0.05)
        straight = shapely.geometry.LineString([[0, 0], [30, 40]])
        for cap, style in (("butt", 2), ("square", 3)):
            self.check_alike(stroke(straight, 10, cap=cap), straight.buffer(5, cap_style=style), 50)

    def test_sides(self):
        line = shapely.geometry.LineString([[0, 0], [30, 0], [60, 10]])
        for side, distance in (("left", 5), ("right", -5)):
            expected = line.buffer(distance, single_sided=True, join_style=MITER)
            self.check_alike(stroke(line, 10, side=side, join="miter"), expected, 100)

    def test_variable_strokes(self):
        draw = random.Random(8)
        for _ in range(8):
            a, b = ([draw.uniform(-100, 100), draw.uniform(-100, 100), draw.uniform(1, 50)] for _ in range(2))
            circles = [shapely.geometry.Point(x, y).buffer(width / 2, resolution=FINE) for x, y, width in (a, b)]
            hull = shapely.geometry.MultiPolygon(circles).convex_hull
            shapes = variable_stroke([a, b], tolerance=0.05)
            slack = 50 * FINE_GAP + ON_GRID / shapes.scale
            self.check_between(shapes, hull.buffer(-0.05 - slack), hull.buffer(slack))
            outside = variable_stroke([a, b], tolerance=0.05, at_least=True)
            self.check_between(outside, hull, hull.buffer(0.05 + 3 * slack))

    def test_all_kinds_together(self):
        parts = [
            shapely.geometry.Polygon(star(random.Random(9), 9, 50)),
            shapely.geometry.LineString([[0, 0], [100, 0], [100, 50]]),
            shapely.geometry.Point(80, 15),
            shapely.geometry.Point(-200, 30),
        ]
        geometry = shapely.geometry.GeometryCollection(parts)
        shapes = buffer(geometry, 10, tolerance=0.01)
        self.check_near(shapes, geometry, 10, 0.01)
        self.assertEqual(len(shapes), 2)


class TestCountry(AgainstShapely):
    def test_outwards(self):
        land = country()
        shapes = outline(land, 40_000, tolerance=50)
        self.check_near(shapes, land, 40_000, 50)
        self.assertEqual([len(rings) for rings in shapes.polygons], [2])

    def test_at_least(self):
        land = country()
        self.check_at_least(outline(land, 40_000, tolerance=50, at_least=True), land, 40_000, 50)

    def test_inwards(self):
        land = country()
        shapes = outline(land, -40_000, tolerance=50)
        slack = 1
        inner = land.buffer(-40_000 - slack, resolution=FINE)
        outer = land.buffer(-40_000 + 50 + slack, resolution=FINE)
        self.check_between(shapes, inner, outer)

    def test_border(self):
        border = country().exterior
        self.check_near(stroke(border, 20_000, tolerance=50), border, 10_000, 50)

    def test_by_nothing(self):
        land = country()
        self.assertEqual(drawn(outline(land, 0)).symmetric_difference(land).area, 0)


if __name__ == "__main__":
    unittest.main()
