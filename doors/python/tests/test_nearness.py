"""Nearness and limits on splits, in the calls that take arrays."""

import json
import unittest

from surroundings import PROGRAM, nested, program_line

import random_requests
from i_overlay_mesh import DrawingError, TooManySplits, arrays, buffer, outline, stroke, variable_stroke
from i_overlay_mesh.library import Outcome
from i_overlay_mesh.styles import style_of

SQUARE = [(0, 0), (4, 0), (4, 3), (0, 3)]
STAR = [(0, 10), (-6, -8), (9.5, 3), (-9.5, 3), (6, -8)]
LINE = [[0, 0], [50, 3], [7, 40], [20, -30]]
RANDOM_REQUESTS = 60


class TestNearness(unittest.TestCase):
    def check(self, draw):
        """The same shapes as without a limit, a small nearness, and nothing past a limit."""
        plain, near = draw(None), draw(0)
        self.assertIsNone(plain.nearness)
        self.assertEqual(near.polygons, plain.polygons)
        self.assertEqual(draw(10**6).nearness, near.nearness)
        self.assertGreater(near.nearness, 0)
        self.assertLess(near.nearness * near.scale, 3)
        with self.assertRaises(TooManySplits) as caught:
            draw(1)
        self.assertIn("more splits than 1", str(caught.exception))

    def test_outlines(self):
        for join in ("bevel", "miter", "round"):
            self.check(lambda most, join=join: outline([STAR], 2, join=join, rings="sense", most_splits=most))

    def test_strokes(self):
        for cap in ("butt", "square", "round", [[0, -1], [2, 0], [0, 1]]):
            self.check(lambda most, cap=cap: stroke(LINE, 8, cap=cap, side="both", most_splits=most))
        self.check(lambda most: stroke(LINE, 8, closed=True, side="left", join="miter", most_splits=most))

    def test_variable_strokes(self):
        self.check(lambda most: variable_stroke([[0, 0, 4], [90, 5, 30], [-2, 70, 9]], most_splits=most))

    def test_several_steps(self):
        geometry = {
            "type": "GeometryCollection",
            "geometries": [
                {"type": "Polygon", "coordinates": [[*STAR, STAR[0]]]},
                {"type": "LineString", "coordinates": LINE},
                {"type": "Point", "coordinates": [3, 3]},
            ],
        }
        self.check(lambda most: buffer(geometry, 2, most_splits=most))

    def test_what_rounding_does_not_move(self):
        self.assertEqual(outline(SQUARE, 0, scale=1, most_splits=1).nearness, 0)
        self.assertEqual(outline([], 1, most_splits=5).nearness, 0)

    def test_limits_that_are_none(self):
        for most in (-1, 2**64, 0.5):
            with self.assertRaises(DrawingError):
                outline(SQUARE, 1, most_splits=most)

    @unittest.skipUnless(PROGRAM.exists(), "the program is not built")
    def test_random_requests(self):
        """In arrays a request has the shapes that the program lists."""
        for number in range(RANDOM_REQUESTS):
            request = random_requests.request(number)
            request.update({"int": "i32", "out": "shapes"})
            request["style"].setdefault("arc", [68_356_528, 5])
            if request["op"] != "variable_stroke":
                del request["style"]["arc"]
            line = json.loads(program_line(json.dumps(request).encode()))
            style = style_of(request)
            lists = arrays.lists_in(request["paths"], 3 if style.operation == "variable_stroke" else 2)
            outcome, told, _ = arrays.drawn(style, lists, 0)
            self.assertEqual(outcome, Outcome.ANSWERED if "shapes" in line else Outcome.OUT_OF_RANGE)
            self.assertEqual(nested(told), line.get("shapes", []))


if __name__ == "__main__":
    unittest.main()
