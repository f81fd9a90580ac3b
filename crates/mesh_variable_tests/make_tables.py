#!/usr/bin/env python3
"""Draws small paths at random, has the reference program stroke them, and writes both as tables for the tests.

The reference program stands in `reference/` of this repository. It was written from the specification, by others than
this crate's plain programs, so that neither follows the other. The seed is fixed: the same reference program gives the
same tables. Run `rt fmt` in this crate afterwards.
"""
import pathlib
import random
import sys

sys.path.insert(0, str(pathlib.Path(__file__).resolve().parents[2] / "reference"))

from overlay import resolved
from plane import I16, I32, is_safe, loop, winding
from splitting import bendable, counted
from variable_strokes import circle_of, covers, section_of, variable_padding, variable_stroke

SEED = 1
TABLES = pathlib.Path(__file__).resolve().parent / "src" / "tables"

DEFAULT = (68356528, 5)
EIGHTH = (536870912, 5)
ARCS = [DEFAULT, EIGHTH, (134217728, 4), (0, 0), (4294967295, 40)]

# the paths that are worked out by hand elsewhere
WORKED = [
    ([(3, 4, 4), (3, 4, 6)], DEFAULT),
    ([(0, 0, 2048), (8192, 0, 4096)], DEFAULT),
    ([(0, 0, 2)], DEFAULT),
    ([], DEFAULT),
    ([(0, 0, 8), (100, 0, 8), (200, 0, 2), (300, 0, 2), (400, 0, 8)], EIGHTH),
    ([(0, 0, 200), (1000, 0, 200), (500, 0, 20)], EIGHTH),
]

WORKED_SECTIONS = [vertices for vertices in [
    [(0, 0, 8192), (4, 0, 8192)],
    [(0, 0, 2048), (8192, 0, 4096)],
    [(0, 0, 200), (1000, 0, 200)],
] for _ in range(2)]


class Inputs:
    """Inputs that look random, the same each time."""

    def __init__(self, table):
        self.random = random.Random(f"{SEED} {table}")

    def point(self, size):
        """A point with both coordinates of at most `size`."""
        return (self.random.randint(-size, size), self.random.randint(-size, size))

    def width(self, size):
        """A width whose radius is at most `size`, often one without an area."""
        return self.random.choice([-3, 0, 1, 2] + 8 * [self.random.randint(3, 2 * size)])

    def path(self):
        """One to seven vertices, with repeats, reversals, loops, and circles between two greater ones."""
        vertices = [(*self.point(12), self.width(7))]
        while self.random.randrange(6) and len(vertices) < 7:
            before, last = vertices[-2:] if len(vertices) > 1 else (vertices[0], vertices[0])
            ahead = tuple(2 * b - a for a, b in zip(before[:2], last[:2]))
            between = tuple((a + b) // 2 for a, b in zip(before[:2], last[:2]))
            choices = [last[:2], before[:2], vertices[0][:2], ahead, between, between] + 8 * [self.point(18)]
            vertices.append((*self.random.choice(choices), self.width(9)))
        return vertices

    def query(self, points):
        """A point of the grid 2 near a given point, or between two."""
        p, r, step = self.random.choice(points), self.random.choice(points), self.point(3)
        if self.random.randrange(2):
            return tuple(2 * c + d for c, d in zip(p, step))
        return tuple(a + b + d for a, b, d in zip(p, r, step))


def listed(items):
    """Items, each some numbers, with commas between."""
    return ", ".join(" ".join(map(str, item)) for item in items)


def loops(edges):
    """Closed lists of points that have these edges, each as often as they do."""
    onward = {}
    for start, end in sorted(edges):
        onward.setdefault(start, []).append(end)
    found = []
    while any(onward.values()):
        walk = [min(start for start, ends in onward.items() if ends)]
        while onward[walk[-1]]:
            end = onward[walk[-1]].pop(0)
            if end in walk:
                at = walk.index(end)
                found.append(walk[at:])
                walk = walk[:at + 1]
            else:
                walk.append(end)
        assert len(walk) == 1
    return found


def told_once(small, large):
    """The answers of both widths of numbers, each after its width, or the one that both give."""
    return [("both", small)] if small == large else [("16", small), ("32", large)]


def rows_of_edges():
    """The worked paths, and random ones: the width of the numbers, the arcs, the path, and the edges as loops."""
    inputs = Inputs("edges")
    paths = WORKED + [(inputs.path(), inputs.random.choice(ARCS[:3])) for _ in range(30)]
    for path, arc in paths:
        for width, edges in told_once(*(sorted(variable_stroke(width, path, arc)[0]) for width in (I16, I32))):
            yield f"{width} | {listed([arc])} | {listed(path)} | " + "; ".join(map(listed, loops(edges)))


def rows_of_windings():
    """Random paths: the width of the numbers, the arcs, the path, and how often its pieces wind round points."""
    inputs = Inputs("windings")
    for number in range(200):
        width, arc, path = inputs.random.choice([I16, I32]), ARCS[number % 5], inputs.path()
        edges, pieces = variable_stroke(width, path, arc)
        points = [vertex[:2] for vertex in path] + [end for edge in edges for end in edge]
        queries = [inputs.query(points) for _ in range(25)]
        told = {q: sum(winding(loop(piece), q, 2) for piece in pieces) for q in queries}
        assert all(count == winding(edges, q, 2) for q, count in told.items())
        chosen = sorted(told, key=lambda q: (abs(told[q]), q), reverse=True)
        answers = chosen[:2] + chosen[-1:] + [q for q in chosen if told[q] < 0][:2]
        counts = listed((*q, told[q]) for q in sorted(set(answers)))
        yield f"{width.name[1:]} | {listed([arc])} | {listed(path)} | {counts}"


def rows_of_sections():
    """Two vertices, the points at which their circles' tangents touch them, and circles that the section covers, and
    circles that it does not, each as a vertex."""
    inputs = Inputs("sections")
    for number in range(48):
        w, size = [I16, I32][number % 2], inputs.random.choice([5, 12, 40, 400, 4000])
        a, b = WORKED_SECTIONS[number] if number < len(WORKED_SECTIONS) else [
            (*inputs.point(size), inputs.random.randint(-1, 2 * size)) for _ in range(2)]
        section = section_of(w, circle_of(a), circle_of(b))
        if not section:
            yield f"{w.name[1:]} | {listed([a, b])} | | |"
            continue
        contacts = [section.a_left, section.a_right, section.b_left, section.b_right]
        vertices = {True: [], False: []}
        for _ in range(3):
            share, least = inputs.random.random(), max(0, min(a[2], b[2]))
            spot = [round(p + share * (q - p)) + inputs.random.randint(-size, size) // 4 for p, q in zip(a, b)][:2]
            width = inputs.random.choice([-1, 2, least // 2, least])
            vertices[covers(section, circle_of((*spot, width)))].append((*spot, width))
        told = [listed(items) for items in ([a, b], contacts, vertices[True], vertices[False])]
        yield " | ".join([w.name[1:]] + told)


def rows_of_shapes():
    """The width of the numbers, the arcs, paths, options, and the shapes.

    The options are the least area, whether contours are clockwise, and whether they keep points on a line. No row has an edge that rounding bends, so there is one answer.
    """
    line = [(0, 0, 8), (20, 0, 8)]
    cases = [([path], arc, (0, False, False)) for path, arc in WORKED[:5]]
    cases += [
        ([[], [(0, 0, 2)]], DEFAULT, (0, False, False)),
        ([WORKED[4][0]], EIGHTH, (0, True, False)),
        ([WORKED[4][0]], EIGHTH, (900, False, False)),
        ([WORKED[4][0], line], EIGHTH, (0, False, True)),
        ([line, [(0, 100, 8), (20, 100, 8)], []], EIGHTH, (0, False, False)),
        ([line, line], EIGHTH, (0, True, True)),
        ([[(0, 0, 4), (40, 0, 4), (40, 40, 4), (0, 40, 4), (0, 0, 4)]], EIGHTH, (0, False, False)),
        ([[(0, 0, 4), (40, 0, 4), (40, 40, 4), (0, 40, 4), (0, 0, 4)]], EIGHTH, (1600, True, False)),
    ]
    for paths, arc, (area, clockwise, collinear) in cases:
        options = {"min_area": area, "clockwise": clockwise, "collinear": collinear}
        answers = []
        for w in (I16, I32):
            edges = [edge for path in paths for edge in variable_stroke(w, path, arc)[0]]
            assert not bendable(list(counted(edges)))
            answers.append(resolved(edges, 1, options))
        for width, shapes in told_once(*answers):
            text = " / ".join("; ".join(map(listed, shape)) for shape in shapes)
            yield (f"{width} | {listed([arc])} | {'; '.join(map(listed, paths))}"
                   f" | {area} {int(clockwise)} {int(collinear)} | {text}")


def rows_of_ranges():
    """The width of the numbers, paths, and whether they may be stroked (1) or not (0)."""
    for w in (I16, I32):
        least, most, unit = w.least, w.most, w.unit
        cases = [
            [[(0, 0, most - 1)]], [[(0, 0, most)]], [[(0, 0, least)]], [[]],
            [[(unit - 1, 1 - unit, 0)]], [[(unit, 0, 0)]], [[(0, -unit, 0)]], [[(1 - unit, 0, 1)]],
            [[(unit - 2, 0, 2)]], [[(unit - 2, 0, 3)]], [[(0, 2 - unit, 2)]], [[(0, 2 - unit, 3)]],
            [[(least, most, least)]], [[(most, least, most)]], [[(least, least, most)]], [[(most, most, most)]],
            [[(unit - 5, 0, 1)], [(0, 0, 8)]], [[(unit - 5, 0, 1)], [(0, 0, 9)]],
            [[(0, 0, 8), (0, 5 - unit, 1)]], [[(0, 0, 9), (0, 5 - unit, 1)]],
            [[(0, 0, 9)], [], [(0, unit - 5, 1)]], [[(0, 0, 8)], [], [(0, unit - 5, 1)]],
        ]
        for paths in cases:
            padding = variable_padding(paths)
            is_so = all(is_safe(w, vertex[:2], padding) for path in paths for vertex in path)
            yield f"{w.name[1:]} | {'; '.join(map(listed, paths))} | {int(is_so)}"


# a table, and what it is
WHAT = {
    "edges": "Paths and the edges of their strokes as closed lists of points",
    "windings": "Paths and how often the pieces of their strokes wind round points of the grid 2",
    "sections": "Two vertices, the contacts of their tangents, and circles that the section covers or not",
    "shapes": "Paths and the shapes of their strokes",
    "ranges": "Paths that may be stroked, and paths that may not",
}


def main():
    TABLES.mkdir(exist_ok=True)
    for table, title in WHAT.items():
        rows = list(globals()[f"rows_of_{table}"]())
        text = "\n".join(row.rstrip() for row in rows)
        (TABLES / f"{table}.rt").write_text(
            f"//! {title}, as `make_tables.py` wrote them.\n\npub const {table.upper()}: &str = \"{text}\";\n")
        print(table, len(rows), "rows", len(text), "bytes")


if __name__ == "__main__":
    main()
