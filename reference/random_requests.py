"""Requests that look random, always the same by their seed and number. Some are refused, and some are no requests."""
import json
from random import Random

UNITS = {"i16": 1 << 14, "i32": 1 << 30}
ODD = [None, True, -1, 3, 40000, 1 << 31, 1 << 70, 0.5, "x", [], [1], [1, -2], [1, 2, 3], [1, None], [1, 0.5],
       [40000, 1 << 31], [[1]], [[[1, "2"]]], {}, {"miter": -1}, {"round": [1]}, {"custom": [[1]]}, {"custom": 3},
       {"miter": 1, "x": 2}, {"round": 1, "x": 2}]  # values that fit few keys

SELDOM = [json.dumps({"op": "outline", "int": "i16", "out": out, "paths": paths, "options": {"min_area": 20},
                      "style": {"outer": n, "inner": -n, "join": join, "min_turn": 0}}) for out, paths, n, join in (
    ("edges", [[[0, 0], [-5, 3], [-1, 0]]], 1, {"miter": 70453008}),
    ("edges", [[[9, 7], [2, -5], [-3, -11]]], 3, {"round": [0, 32]}),
    ("shapes", [[[0, 0], [4, 0], [4, 4], [0, 4]], [[4, 0], [8, 0], [8, 4], [4, 4]]], 0, "bevel"))]
"""Seldom drawn: a peak past the padding, an arc's point that falls behind, small contours of a large shape."""

class Inputs(Random):
    """The parts of a request, drawn at random."""

    def __init__(self, seed):
        super().__init__(seed)
        self.int = self.choice(list(UNITS))
        self.reach = min(UNITS[self.int] // 40, self.choice([4, 8, 12, 40, 40, 300, 5000, 1 << 30]))
        self.offset = self.choice([0, 1, 2, 3, 3, self.reach // 8, self.reach // 3, self.reach])

    def some(self, keys):
        """An object without some of its keys."""
        return {key: value for key, value in keys.items() if self.randrange(6)}

    def point(self, reach):
        """A point near (0, 0), on a coarse lattice at times."""
        pitch = self.choice([1, 1, max(1, reach // 3)])
        return [self.randint(-reach, reach) // pitch * pitch for _ in range(2)]

    def path(self, most):
        """Some points: scattered, with repeats, spikes, points to run straight through, and points that come again."""
        points = [self.point(self.reach)]
        for _ in range(self.randint(0, most)):
            last, before = points[-1], points[-2:][0]
            ahead = [2 * a - b for a, b in zip(last, before)]
            onward = self.choice([last, before, ahead, points[0]] + 8 * [self.point(self.reach)])
            points.append(onward if max(map(abs, onward)) <= 4 * self.reach else last)
        return points

    def rectangles(self):
        """Rectangles, each round the one before, farther than the offset or not, one way round or the other."""
        size, found = 0, []
        for turn in self.choice([[1, -1, 1, -1], [-1, 1, -1, 1], [1, 1, -1, -1]])[:self.randint(1, 4)]:
            size += self.randint(self.offset, 3 * self.offset) + self.randint(1, self.reach)
            (x, y), n = self.point(1), size
            found.append([[x - n, y - n], [x + n, y - n], [x + n, y + n], [x - n, y + n]][::turn])
        return found

    def arc(self, radius):
        """The options of an arc, with fine steps at times where the radius is small."""
        fine = [self.randint(0, 1 << 24)] if radius < 9 else []
        return [self.choice(fine + [self.randint(1 << 26, 1 << 30), 1 << 29]), self.choice([0, 4, 5, 8, 32, 99])]

    def style(self, op):
        """The style of an operation, without some keys that are not required, with joins and caps of any kind."""
        if op == "variable_stroke":
            return self.some({"arc": self.arc(self.reach)})
        bits = self.choice([0, 59652323, 70453008, 1 << 29, 1610612736, (1 << 32) - 1, self.randrange(1 << 31)])
        more = {"join": self.choice(["bevel", {"miter": bits}, {"miter": bits}, {"round": self.arc(self.offset)}]),
                "min_turn": self.choice([0, 59652323, 1 << 30, 1 << 31])}
        if op == "outline":
            outer, inner = (self.choice([self.offset, self.offset, -self.offset]) for _ in range(2))
            return {"outer": outer, "inner": inner, **self.some(more)}
        for end in ("start", "end"):
            custom = [self.point(self.offset + 1) for _ in range(self.randrange(5))]
            more[end] = self.choice(["butt", "square", {"round": self.arc(self.offset)}, {"custom": custom}])
        more["side"] = self.choice(["both", "both", "left", "right"])
        return {"width": self.choice([-1, 2, 2 * self.offset - 1] + 3 * [2 * self.offset]), **self.some(more)}

    def request(self):
        """A request that is answered or refused."""
        op = self.choice(["outline", "stroke", "variable_stroke"])
        paths = [self.path(self.choice([2, 4, 6, 9])) for _ in range(self.choice([0, 1, 1, 1, 1, 2, 3]))]
        paths = paths if self.randrange(4) else self.rectangles()
        if op == "variable_stroke":
            greatest = 2 * self.choice([self.offset, self.reach])
            widths = [-1, 0, 2, 3, greatest // 8, greatest // 4, greatest // 3, greatest - 1, greatest]
            paths = [[[*point, self.choice(widths)] for point in path] for path in paths]
        words = {"op": op, "int": self.int, "out": self.choice(["edges", "shapes"]), "paths": paths}
        words["style"] = self.style(op)
        if op == "stroke" and self.randrange(4):
            words["closed"] = self.choice([True, False])
        if self.randrange(2):
            flags = {key: self.choice([True, False]) for key in ("clockwise", "collinear")}
            area = self.choice([0, self.randint(0, 4 * self.reach ** 2) % (1 << 16)])
            words["options"] = self.some({"min_area": area, **flags})
        if not self.randrange(12):
            self.choice([words, words["style"]])[self.choice(["arc", "closed", "widht", "join"])] = "bevel"
        if not self.randrange(14) and paths:
            limit = UNITS[self.int] - self.choice([0, 1, 2, self.offset, self.offset + 1])
            self.choice(self.choice(paths))[self.randrange(2)] = self.choice([-limit, limit])
        return words

    def spoiled(self, words):
        """The text of what may be no request: a value is an odd one, or goes, or the text is no JSON."""
        place = self.choice([words, words["style"], words.get("options", words), *words["paths"]])
        key = self.choice(list(place if isinstance(place, dict) else range(len(place))) or ["x"])
        text, kind = json.dumps(words), self.randrange(4)
        if kind == 0:
            more = ["1.0", "1e3", 1 << 64, -1 - (1 << 63), "[0.5]", 200 * "[" + 200 * "]"]
            return self.choice(["", " ", text[:self.randrange(len(text))], text[:-1], text + "x", text + " {}",
                                "\ufeff" + text, text.replace(":", " ", 1), text.replace(",", ", !", 1),
                                *(f'{text[:-1]},"z":{value}}}' for value in more)])
        place[key] = self.choice(ODD)
        if kind == 1:
            del place[key]
        return json.dumps(words)

def request(seed, number):
    """The text of the request of this number."""
    inputs = Inputs(f"{seed} {number}")
    words = inputs.request()
    text = json.dumps(words) if inputs.randrange(8) else inputs.spoiled(words)
    return SELDOM[number] if number < len(SELDOM) else text
