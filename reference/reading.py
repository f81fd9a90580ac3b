"""Reading a request: what it asks for, or why it is none. Joins and caps become tuples, as
`("round", bits, precision)`; points become pairs, and vertices triples."""
import json
from collections import namedtuple

from overlay import DEFAULT_OPTIONS
from plane import I16, I32

NOT_WHOLE = object()  # stands for a number with a fraction or an exponent, or past 64 bits
OPERATIONS = ["outline", "stroke", "variable_stroke"]

COMBINATIONS = ["boolean", "coverage", "overlaps"]

STYLE_KEYS = {"outline": ["outer", "inner", "join", "min_turn"], "variable_stroke": ["arc"],
              "stroke": ["width", "join", "min_turn", "start", "end", "side"]}
Request = namedtuple("Request", "op width out paths style closed options ignored")

class Unreadable(Exception):
    """Why a text is no request: the line that people are told, or how it begins, where the rules give no more."""

def needed(is_so, line, value=None):
    """A value, where something is so."""
    if not is_so:
        raise Unreadable(line)
    return value

def nested(value, depth=0):
    """All that a value has in it, with how many lists and objects each stands in, itself among them."""
    yield depth + isinstance(value, (dict, list)), value
    for item in value.values() if isinstance(value, dict) else value if isinstance(value, list) else ():
        yield from nested(item, depth + 1)

def parsed(text):
    """The value of a text of JSON in UTF-8, nested at most 127 deep. Where it is none the first wrong token is told, or
    the last byte of a text that ends too early."""
    needed(text.strip(b" \t\n\r"), "the input is empty")
    needed(not text.startswith(b"\xef\xbb\xbf"), "line 1, column 1: a byte order mark")
    try:
        words = text.decode()
        value = json.loads(words, parse_int=lambda n: int(n) if -(1 << 63) <= int(n) < 1 << 64 else NOT_WHOLE,
                           parse_float=lambda _: NOT_WHOLE, parse_constant=int)
        json.dumps(value, default=str, ensure_ascii=False).encode()
    except json.JSONDecodeError as fault:
        before = text[:min(len(words[:fault.pos].encode()), len(text) - 1)].split(b"\n")
        raise Unreadable(f"line {len(before)}, column {len(before[-1]) + 1}: invalid JSON") from None
    except (ValueError, RecursionError):
        raise Unreadable("line ") from None
    needed(all(depth <= 127 for depth, _ in nested(value)), "line ")
    return needed(isinstance(value, dict), "an object is needed", value)

class Reader:
    """Reads the parts of a request, each with its place in it. The first thing that is wrong is told."""

    def get(self, value, key, place=""):
        """What an object has under a key that is required."""
        return needed(key in value, f'{place}"{key}" is missing', value.get(key))

    def one_of(self, value, place, *names):
        """A value that is one of some names."""
        *most, last = (f'"{name}"' for name in names)
        return needed(value in names, f"{place}: {', '.join(most)} or {last} is needed", value)

    def flag(self, value, place):
        """A value that is true or false."""
        return needed(type(value) is bool, f"{place}: true or false is needed", value)

    def bits(self, value, line):
        """A whole number of 32 bits without sign."""
        return needed(type(value) is int and 0 <= value < 1 << 32, line, value)

    def step(self, value, line):
        """The options of an arc: bits and a precision."""
        needed(isinstance(value, list) and len(value) == 2, line)
        return tuple(self.bits(item, line) for item in value)

    def number(self, value, place):
        """A number of the request's type."""
        needed(type(value) is int, f"{place}: a whole number is needed")
        is_fitting = self.width.least <= value <= self.width.most
        return needed(is_fitting, f"{place}: {value} is no {self.width.name}", value)

    def points(self, value, place, count, words):
        """A list of points of two numbers, or of vertices of three."""
        needed(isinstance(value, list), f"{place}: a path is a list of points")
        for i, point in enumerate(value):
            needed(isinstance(point, list) and len(point) == count, f"{place}[{i}]: {words}")
        return [tuple(self.number(c, f"{place}[{i}]") for c in point) for i, point in enumerate(value)]

    def kind(self, value, place, plain, made):
        """A join or a cap: a plain name, or an object of one key, what is made with numbers."""
        if not isinstance(value, dict):
            return needed(value in plain, f"{place}: ", (value,))
        name, told = (*value.items(), (None, None))[0]
        needed(name in made, f"{place}: ")
        needed(len(value) == 1, f"{place}: only one key is allowed")
        if name == "miter":
            return name, self.bits(told, f'{place}: "miter" needs BITS')
        if name == "round":
            return (name, *self.step(told, f'{place}: "round" needs [BITS, PRECISION]'))
        needed(isinstance(told, list), f"{place}: ")
        return name, self.points(told, f"{place}.custom", 2, "a point has two numbers")

    def style(self, value, op):
        """The style of an operation, with all its keys."""
        needed(isinstance(value, dict), "style: an object is needed")
        if op == "variable_stroke":
            return {"arc": self.step(value.get("arc", [68356528, 5]), "style.arc: ")}
        numbers = ["outer", "inner"] if op == "outline" else ["width"]
        style = {key: self.number(self.get(value, key, "style: "), f"style.{key}") for key in numbers}
        style["join"] = self.kind(value.get("join", "bevel"), "style.join", ["bevel"], ["miter", "round"])
        style["min_turn"] = self.bits(value.get("min_turn", 59652323), "style.min_turn: ")
        if op == "stroke":
            for key in ["start", "end"]:
                style[key] = self.kind(value.get(key, "butt"), f"style.{key}", ["butt", "square"], ["round", "custom"])
            style["side"] = self.one_of(value.get("side", "both"), "style.side", "both", "left", "right")
        return style

    def options(self, value):
        """The options of the overlay, each with its default."""
        needed(isinstance(value, dict), "options: an object is needed")
        area = value.get("min_area", 0)
        needed(type(area) is int and 0 <= area < 4 * self.width.least ** 2, "options.min_area: ")
        flags = [key for key in DEFAULT_OPTIONS if key != "min_area"]
        return {"min_area": area, **{key: self.flag(value.get(key, False), f"options.{key}") for key in flags}}

    def read(self, text):
        """The request in a text."""
        value = parsed(text)
        self.width = {"i16": I16, "i32": I32}[self.one_of(self.get(value, "int"), "int", "i16", "i32")]
        op = self.one_of(self.get(value, "op"), "op", *OPERATIONS, *COMBINATIONS)
        if op in COMBINATIONS:
            raise NotImplementedError("requests that combine are not answered here")
        closed = op == "stroke" and self.flag(value.get("closed", False), "closed")
        style, paths = self.style(self.get(value, "style"), op), self.get(value, "paths")
        needed(isinstance(paths, list), "paths: ")
        kind = (3, "a vertex has three numbers") if op == "variable_stroke" else (2, "a point has two numbers")
        paths = [self.points(path, f"paths[{i}]", *kind) for i, path in enumerate(paths)]
        out = self.one_of(self.get(value, "out"), "out", "edges", "shapes")
        given = value.get("options", {}) if out == "shapes" else {}
        options = self.options(given)
        needed(all(item is not NOT_WHOLE for _, item in nested(value)),
               "a number is no whole number from -2^63 to 2^64-1, under a key that is ignored")
        used = {"op", "int", "out", "paths", "style", op == "stroke" and "closed", out == "shapes" and "options"}
        looked_at = [("", value, used), ("style: ", value["style"], STYLE_KEYS[op]),
                     ("options: ", given, DEFAULT_OPTIONS)]
        ignored = [f'{place}"{key}" is ignored' for place, found, keys in looked_at for key in found if key not in keys]
        return Request(op, self.width, out, paths, style, closed, options, ignored)
