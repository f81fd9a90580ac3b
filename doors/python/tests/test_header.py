"""The header for C is the one source of kinds, outcomes, structs and calls: Python, Rust and the library keep to it."""

import ctypes
import json
import re
import unittest

from surroundings import ROOT, nested

from i_overlay_mesh import answer, arrays, library, styles
from i_overlay_mesh.distances import windings_round
from i_overlay_mesh.library import Outcome


def code_of(file):
    """The text of a file of C without its comments."""
    return re.sub(r"/\*.*?\*/", "", (ROOT / "doors" / file).read_text(), flags=re.S)


TEXT = code_of("c/i_overlay_mesh.h")

EACH = code_of("c/each.c")

RUST = ROOT / "doors/rust/src"

LINE = [[[0, 0], [500, 0], [500, 90]]]

NUMBERS = {
    "int32_t": ctypes.c_int32,
    "uint32_t": ctypes.c_uint32,
    "uint64_t": ctypes.c_uint64,
    "size_t": ctypes.c_size_t,
}


def enumeration(first):
    """The numbers of the enumeration that begins with a name, by their names in lower case, less what all begin with."""
    words = re.search(rf"enum \{{\s*({first} = .*?)\}}", TEXT, re.S)[1]
    prefix = re.match(r"MESH_(CAP_|SIDE_|RULE_|FILL_)?", first)[0]
    return {name[len(prefix) :].lower(): int(number) for name, number in re.findall(r"(\w+) = (\d+)", words)}


OUTCOMES = enumeration("MESH_ANSWERED")
JOINS = enumeration("MESH_BEVEL")
CAPS = enumeration("MESH_CAP_BUTT")
SIDES = enumeration("MESH_SIDE_BOTH")
RULES = enumeration("MESH_RULE_SUBJECT")
FILLS = enumeration("MESH_FILL_EVEN_ODD")
MIN_TURN = int(re.search(r"MESH_MIN_TURN (\d+)u", TEXT)[1])


def fields_of(words):
    """The types and names of fields."""
    parts = [part.split(maxsplit=1) for part in words.split(";") if part.strip()]
    return [(kind, name.strip()) for kind, names in parts for name in names.split(",")]


STRUCTS = {name: fields_of(words) for words, name in re.findall(r"typedef struct \{(.*?)\} (\w+);", TEXT, re.S)}


def calls_of(text):
    """The types and names of the arguments of calls."""
    return {
        name: [re.fullmatch(r"\s*(.*?)(\w+)\s*", part, re.S).groups() for part in words.split(",")]
        for name, words in re.findall(r"^mesh_outcome (\w+)\((.*?)\)", text, re.M | re.S)
    }


CALLS = calls_of(TEXT)


def name_of(word):
    """A name of a type as the header writes it."""
    return "mesh" + re.sub(r"([A-Z])", lambda letter: "_" + letter[1].lower(), word)


class TestPython(unittest.TestCase):
    def test_kinds(self):
        self.assertEqual(len(re.findall(r"\benum \{", TEXT)), 6)
        self.assertEqual({outcome.name.lower(): int(outcome) for outcome in Outcome}, OUTCOMES)
        self.assertEqual(styles.JOIN_KINDS, JOINS)
        self.assertEqual(styles.CAP_KINDS, CAPS)
        self.assertEqual(styles.SIDE_KINDS, SIDES)
        self.assertEqual(styles.RULE_KINDS, RULES)
        self.assertEqual(styles.FILL_KINDS, FILLS)
        self.assertEqual(set(styles.JOINS.values()), set(JOINS))
        self.assertEqual({*styles.CAPS.values(), "custom"}, set(CAPS))
        self.assertEqual(styles.DEFAULT_MIN_TURN, MIN_TURN)

    def test_operations(self):
        words = re.search(r"enum \{(.*?)\}", EACH)[1]
        told = {name.lower(): int(number) for name, number in re.findall(r"MESH_(\w+) = (\d+)", words)}
        self.assertEqual(styles.OPERATIONS, told)

    def test_structs(self):
        kinds = {name: kind for name, kind in vars(styles).items() if name.endswith("Structure")}
        names = {kind: name_of(name[: -len("Structure")]) for name, kind in kinds.items()}
        names[styles.OutlineStructure] += "_style"
        names[styles.StrokeStructure] += "_style"
        names[styles.CountsStructure] = "mesh_shape_counts"
        lists = {"mesh_edge_counts", *(name for name in STRUCTS if name.endswith(("_i32", "_i16")))}
        self.assertEqual(set(names.values()), set(STRUCTS) - lists)
        known = {**NUMBERS, **{name: kind for kind, name in names.items()}}
        for kind, name in names.items():
            told = [(field, known[word]) for word, field in STRUCTS[name]]
            self.assertEqual(list(kind._fields_), told, name)

    def test_calls(self):
        for name, arguments in {**CALLS, **calls_of(EACH)}.items():
            if "_edges_" in name or name == "mesh_why":
                continue
            told = [ctypes.c_void_p if "*" in word else NUMBERS[word.strip()] for word, _ in arguments]
            self.assertEqual(library.parameters_of(re.sub(r"_i(16|32)$", "", name)), told, name)


class TestLibrary(unittest.TestCase):
    """The library takes the kinds of the header and no others."""

    def outcome(self, number, kinds):
        """How a drawing ends whose style has a number for its join, its caps or its side."""
        stroke = styles.stroke_style(100, styles.JoinStyle("bevel"), (styles.End("butt"),) * 2, "both", False)
        structure = stroke.structure
        if kinds is JOINS:
            structure.join.kind = number
        elif kinds is CAPS:
            structure.start_cap.kind = structure.end_cap.kind = number
        else:
            structure.side = number
        return arrays.reach(stroke, arrays.lists_in(LINE, 2))[0]

    def test_kinds(self):
        for kinds in (JOINS, CAPS, SIDES):
            for number in range(len(kinds) + 2):
                expected = Outcome.ANSWERED if number in kinds.values() else Outcome.MALFORMED
                self.assertEqual(self.outcome(number, kinds), expected, (number, kinds))

    def test_rules_and_fills(self):
        """Each rule and fill of the header keeps what it says, and there are no others."""
        square, other = ([[[x, x], [x + 4, x], [x + 4, x + 4], [x, x + 4]]] for x in (0, 2))
        subject, clip = arrays.lists_in(square, 2), arrays.lists_in(other, 2)
        kept = {"subject": "a.", "clip": "b.", "intersect": "a&b", "union": "a|b", "difference": "a&~b"}
        kept.update({"inverse_difference": "b&~a", "xor": "a^b"})
        probes = {(1, 1): (1, 0), (3, 3): (1, 1), (5, 5): (0, 1), (9, 9): (0, 0)}
        for number in range(len(RULES) + 2):
            outcome, told, _ = arrays.combined(styles.BooleanStructure(number, 1, 1), subject, clip)
            self.assertEqual(outcome, Outcome.ANSWERED if number in RULES.values() else Outcome.MALFORMED)
            rule = next((rule for rule in RULES if RULES[rule] == number), None)
            for probe, (a, b) in probes.items() if rule else ():
                wanted = eval(kept[rule].replace(".", ""), {"a": a, "b": b}) & 1
                self.assertEqual(windings_round([probe], told), [wanted], (rule, probe))
        twice = {"even_odd": 0, "non_zero": 1, "positive": 1, "negative": 0}
        for number in range(len(FILLS) + 2):
            for way in ((0, number, 1), (1, 1, number)):
                both = arrays.lists_in(square * 2, 2)
                outcome, told, _ = arrays.combined(styles.BooleanStructure(*way), both, both)
                self.assertEqual(outcome, Outcome.ANSWERED if number in FILLS.values() else Outcome.MALFORMED)
                fill = next((fill for fill in FILLS if FILLS[fill] == number), None)
                if fill:
                    self.assertEqual(len(told.shape_ends), twice[fill], (fill, way))

    def test_words(self):
        """A request names each kind as the header does, and means the same by it as its number."""
        arc, points = [2**26, 5], [[0, -50], [30, 0], [0, 50]]
        said = {"miter": {"miter": 2**30}, "round": {"round": arc}, "custom": {"custom": points}}
        for key, kinds in (("join", JOINS), ("start", CAPS), ("end", CAPS), ("side", SIDES)):
            lines = []
            for name in kinds:
                style = {"width": 100, key: said.get(name, name)}
                request = {"op": "stroke", "int": "i32", "out": "shapes", "paths": LINE, "style": style}
                lines.append(json.loads(answer(json.dumps(request).encode())))
                outcome, told, _ = arrays.drawn(styles.style_of(request), arrays.lists_in(LINE, 2))
                self.assertEqual((outcome, lines[-1]), (Outcome.ANSWERED, {"shapes": nested(told)}), (key, name))
            self.assertEqual(len({str(line) for line in lines}), len(kinds), key)


class TestRust(unittest.TestCase):
    def test_kinds(self):
        text = (RUST / "style.rs").read_text()
        for kind, numbers in (("Join", JOINS), ("Cap", CAPS)):
            told = re.findall(rf"{kind}::(\w+)(?:\(\w+\))? => \((\d+)", text)
            self.assertEqual({name.lower(): int(number) for name, number in told}, numbers)
            names = re.search(rf"pub enum {kind}(?:<I>)? \{{(.*?)\n\}}", text, re.S)[1]
            self.assertEqual({name.lower() for name in re.findall(r"^    (\w+)[,(]", names, re.M)}, set(numbers))
        text += (RUST / "booleans.rs").read_text()
        for kind, numbers in (("Side", SIDES), ("BooleanRule", RULES), ("FillRule", FILLS)):
            names = re.findall(r"^    (\w+),", re.search(rf"pub enum {kind} \{{(.*?)\n\}}", text, re.S)[1], re.M)
            told = {name_of(name)[len("mesh_") :]: number for number, name in enumerate(names)}
            self.assertEqual(told, numbers)
        self.assertEqual(int(re.search(r"MIN_TURN: u32 = ([\d_]+)", text)[1]), MIN_TURN)

    def test_outcomes(self):
        text = (RUST / "error.rs").read_text()
        told = {
            name_of(name)[len("mesh_") :]: int(number)
            for number, name in re.findall(r"(\d+) => Err\(Error::(\w+)\)", text)
        }
        told["answered"] = int(re.search(r"(\d+) => Ok\(\(\)\)", text)[1])
        told["room_too_small"] = int(re.search(r"ROOM_TOO_SMALL: Outcome = (\d+)", text)[1])
        self.assertEqual(told, OUTCOMES)

    def test_structs(self):
        text = "".join((RUST / f"{name}.rs").read_text() for name in ("calls", "nets", "style"))
        told = {}
        for name, words in re.findall(r"#\[repr\(C\)\]\npub struct (\w+) \{(.*?)\n\}", text, re.S):
            fields = re.findall(r"^    pub (\w+): (\w+),", words, re.M)
            told[name_of(name.replace("Raw", ""))] = [(type_of(kind), field) for field, kind in fields]
        self.assertEqual(told, {name: STRUCTS[name] for name in STRUCTS if not name.endswith(("_i32", "_i16"))})

    def test_calls(self):
        text = (RUST / "calls.rs").read_text()
        told = {}
        for wide, narrow, words in re.findall(r"^    \w+: (\w+), (\w+), \((.*?)\);", text, re.M | re.S):
            told[wide], told[narrow] = arguments_of(words, "i32"), arguments_of(words, "i16")
        for name, words in re.findall(r"pub fn (mesh_\w+)\((.*?)\)", text, re.S):
            told[name] = arguments_of(words, "")
        expected = {name: [(" ".join(kind.split()), word) for kind, word in words] for name, words in CALLS.items()}
        self.assertEqual(told, expected)


LISTS = {"[I; 2]": "mesh_point", "[I; 3]": "mesh_vertex", "[[I; 2]; 2]": "mesh_edge"}


def type_of(word, width=""):
    """A type of Rust as the header writes it."""
    if word.startswith("*"):
        kind = type_of(word.split(" ", 1)[1], width)
        return f"const {kind} *" if word.startswith("*const") else f"{kind} *"
    if word in LISTS:
        return f"{LISTS[word]}_{width}"
    if word == "usize":
        return "size_t"
    number = re.fullmatch(r"([iu])(\d+)", word)
    if number:
        return f"{'u' if number[1] == 'u' else ''}int{number[2]}_t"
    return name_of(word.replace("Raw", ""))


def arguments_of(words, width):
    """Types and names of the arguments of a call of Rust."""
    return [(type_of(kind, width), name) for name, kind in re.findall(r"(\w+): (\*?[^,]+)", words)]


if __name__ == "__main__":
    unittest.main()
