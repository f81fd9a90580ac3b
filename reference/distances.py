#!/usr/bin/env python3
"""Tries the laws of distances at random points of random drawings, in whole numbers.

    reference/distances.py [--points N] [--seed S] [--program PROGRAM]

- outer: edges wind only as near to the path as joins and caps reach; those of an outline, otherwise than the contour.
- inner: a stroke on both sides holds what is as near to its path as all parts leave room for, but beyond butt ends.
- formula: all parts of a round stroke leave room for the distance that the formula says. It is asked once a drawing.
- answers: each point nearer to the path than any edge of the answer is wound round as the path's vertices. They are
  asked of a PROGRAM that reads a request from standard input, as `mesh_run` does; without one they are left out.

Points are tried where a law could break: near edges, vertices and ends, and as far away as it says. Each that breaks
one is printed with its request. In the end stand the worst that was seen, and how many points came under each law; the
status is 1 where one was broken.
"""
import argparse
import json
import subprocess
import sys
import time
from collections import namedtuple
from math import isqrt
from random import Random

from outlines import cleaned, outline
from plane import I16, I32, chain, cross, dot, loop, minus, plus, winding
from reaches import cap_reach, join_reach, kept_by_formula, rounded_reach, stroke_room
from strokes import stroke
from variable_strokes import circle_of, variable_stroke

ROWS, GRIDS = 24, [1, 1, 2, 3, 7, 64, 1024]
"""In how many rows points are tried of each drawing, and on which grids."""

CAPS = ["butt", "round", "custom", "square"]
"""Caps, by how far they reach."""

Drawing = namedtuple("Drawing", "family words edges path spans room butts kept")
"""A drawing, with the words of its request: the edges that wind round what is held; the sections of the path; each
radius, with how far it reaches and from which sections or vertices; how much room all parts leave, below 0 where they
leave none; butt ends, with the way that they look; and what the formula says, where it says anything."""

def worded(kind):
    """A join or a cap as a request has it."""
    if len(kind) == 1:
        return kind[0]
    return {kind[0]: kind[1] if len(kind) == 2 else kind[1:]}

class Inputs(Random):
    """Drawings at random, always the same by their seed."""

    def __init__(self, seed):
        super().__init__(seed)
        self.width = self.choice([I16, I32])
        radius = self.choice([2, 3, *map(self.randrange, (8, 60, 4000, 4000, 1 << self.randint(12, 28)))])
        self.radius = max(2, radius if radius <= self.width.unit // 4 else radius % 4000)

    def near(self, size):
        """A vector of at most that size in each component."""
        return self.randint(-size, size), self.randint(-size, size)

    def path(self, most):
        """Some points: short and long steps, along an axis at times, spikes, nearly straight corners, repeats."""
        limit, points = self.width.unit // 2, [self.near(self.radius)]
        if not self.randrange(4):
            points = [self.near(limit)]
        sizes = [3, 3, self.radius // 3 + 1, self.radius, 2 * self.radius, 5 * self.radius, 40 * self.radius, limit]
        size = self.choice([None, *sizes])
        for _ in range(self.choice([1, 1, 2, 3, 4, most])):
            last, before = points[-1], points[-2:][0]
            x, y = v = self.near(size or self.choice(sizes))
            onward = self.choice(6 * [plus(last, v)] + [
                before, plus(before, self.near(2)), plus(last, (x, 0)), plus(last, (0, y)), plus(last, (x, x)), last,
                plus(plus(last, minus(last, before)), self.near(2)), points[0]])
            points.append(onward if max(map(abs, onward)) <= limit else last)
        return points

    def arc(self):
        """The options of an arc, with fine steps seldom."""
        bits = self.choice([1 << 29, 1 << 28, 1 << 27, 68356528, self.randint(1 << 26, 1 << 29), 0])
        return max(bits, self.choice([1 << 22, 1 << 24, 1 << 25, 1 << 25])), self.choice([0, 5, 5, 8, 32])

    def join(self):
        """A join of any kind, and the least turn of miters."""
        bits = self.choice([0, 70453008, 1 << 29, 1 << 30, 1610612736, self.randrange(1 << 31)])
        join = self.choice([("bevel",), ("miter", bits), ("round", *self.arc())])
        return {"join": join, "min_turn": self.choice([0, 59652323, 1 << 30])}

    def cap(self):
        """A cap of any kind. One of points is an arrow, or at random."""
        n = self.radius
        points = self.choice([[(0, -2 * n), (2 * n, 0), (0, 2 * n)], [self.near(2 * n) for _ in range(3)]])
        return self.choice(2 * [("butt",), ("square",), ("round", *self.arc())] + [("custom", points)])

    def stroke(self):
        """The stroke of a path, or a half."""
        path, closed, radius = self.path(6), self.choice([True, False]), self.radius
        side, start = self.choice(6 * ["both"] + ["left", "right"]), self.cap()
        end = self.choice([start, self.cap()])
        style = {"width": 2 * radius, **self.join(), "start": start, "end": end, "side": side}
        if style["join"][0] == "round" and self.randrange(2):
            style.update(start=style["join"], end=style["join"])
        caps = [style["start"], style["end"]] if side == "both" and not closed else []
        reach = max([join_reach(style["join"], radius), *(cap_reach(cap, radius) for cap in caps)])
        edges, sections = stroke(self.width, path, closed, style)[0], chain([*path, *path[:1]] if closed else path)
        family = ["stroke" if side == "both" else "half", style["join"][0]]
        family += [name for name in CAPS if name in (cap[0] for cap in caps)][-1:]
        words = {"op": "stroke", "closed": closed, "style": style, "paths": [path]}
        room, butts = stroke_room(self.width, path, closed, style, radius)
        kept = kept_by_formula(self.width, closed, style, radius)
        return Drawing(" ".join(family), words, edges, sections, [(radius, reach, sections)], room, butts, kept)

    def outline(self):
        """The outline of a contour, by an offset of either sign. Its edges are taken with those of the contour, run
        backwards, which wind where both wind otherwise."""
        contour, offset, style = self.path(7), self.choice([1, -1]) * self.radius, self.join()
        edges = outline(self.width, contour, offset, style["join"], style["min_turn"])[0]
        edges = edges + [(q, p) for p, q in loop(contour)]
        words = {"op": "outline", "style": {"outer": offset, "inner": offset, **style}, "paths": [contour]}
        sections = loop(cleaned(contour))
        spans = [(self.radius, join_reach(style["join"], self.radius), sections)]
        return Drawing("outline " + style["join"][0], words, edges, loop(contour), spans, -1, [], None)

    def variable(self):
        """A stroke of variable width. A vertex reaches by its radius, a section by the greater one of its ends."""
        widths = [0, 1, 3, self.radius // 4, self.radius, 2 * self.radius - 1, 2 * self.radius]
        path = [(*point, self.choice(widths)) for point in self.path(6)]
        style, circles, reached = {"arc": self.arc()}, [circle_of(vertex) for vertex in path], {}
        for (a, r), (b, s) in zip(circles[:1] + circles, circles):
            reached[s] = reached.get(s, []) + [(b, b)]
            reached[max(r, s)] = reached.get(max(r, s), []) + [(a, b)]
        words = {"op": "variable_stroke", "style": style, "paths": [path]}
        spans = [(radius, rounded_reach(radius), sections) for radius, sections in reached.items()]
        edges = variable_stroke(self.width, path, style["arc"])[0]
        return Drawing("variable stroke", words, edges, chain([center for center, _ in circles]), spans, -1, [], None)

    def drawing(self):
        """A drawing of any kind."""
        found = self.choice(4 * [self.stroke] + [self.outline, self.variable])()
        style = {k: worded(v) if k in ("join", "start", "end") else v for k, v in found.words["style"].items()}
        return found._replace(words={"int": self.width.name, "out": "shapes", **found.words, "style": style})

    def point(self, sections, edges, aims):
        """A point that is near a drawn edge, or as far as an aim from a vertex or a section, or anywhere near."""
        kind, i = self.randrange(8), self.randrange(9)
        (px, py), (rx, ry) = self.choice(edges if kind < 3 else sections)
        x, y, d = px + (rx - px) * i // 8, py + (ry - py) * i // 8, self.choice(aims)
        if kind >= 3:
            v = self.near(1 << 20)
            if kind == 3:
                d = self.randrange(2 * d + 2)
            elif kind > 5:
                v = self.choice([(ry - py, px - rx), (py - ry, rx - px)])
            else:
                x, y = self.choice([(px, py), (rx, ry)])
            n = isqrt(dot(v, v)) or 1
            x, y = x + v[0] * d // n, y + v[1] * d // n
        return plus((x, y), self.near(self.choice([0, 1, 1, 2, aims[0] // 64 + 1])))

def nearest(sections, q):
    """The least squared distance of a point from sections, as a numerator and a denominator."""
    x, y, n, d = *q, None, 1
    for (px, py), (rx, ry) in sections:
        vx, vy, ux, uy = rx - px, ry - py, x - px, y - py
        along, square, e = ux * vx + uy * vy, vx * vx + vy * vy, 1
        if along <= 0:
            a = ux * ux + uy * uy
        elif along >= square:
            a = (x - rx) ** 2 + (y - ry) ** 2
        else:
            a, e = (ux * vy - uy * vx) ** 2, square
        if n is None or a * d < n * e:
            n, d = a, e
    return n, d

def separation(sections, edges):
    """The least squared distance of sections and edges, likewise. It is between an end of one and the other, unless
    they cross."""
    found, least = [], (0, 0)
    for a, b in sections:
        for p, q in edges:
            v, w = minus(b, a), minus(q, p)
            if cross(v, minus(p, a)) * cross(v, minus(q, a)) < 0 > cross(w, minus(a, p)) * cross(w, minus(b, p)):
                return 0, 1
            found += [nearest([(p, q)], a), nearest([(p, q)], b), nearest([(a, b)], p), nearest([(a, b)], q)]
    for n, d in found:
        if n * least[1] <= least[0] * d:
            least = n, d
    return least

def refined(edges, m):
    """Edges on the grid refined by `m`."""
    return [((m * px, m * py), (m * rx, m * ry)) for (px, py), (rx, ry) in edges]

def thousandths(n, d):
    """The root of a fraction in thousandths, cut."""
    return isqrt(1000000 * n // d)

def row(edges, y):
    """The edges that cross a row: up to which `x` each counts for a point of the row, and how it crosses."""
    found = []
    for (px, py), (rx, ry) in edges:
        if py <= y < ry:
            found.append((px - (px - rx) * (y - py) // (ry - py) - 1, 1))
        elif ry <= y < py:
            found.append((px - (px - rx) * (py - y) // (py - ry) - 1, -1))
    return found

def samples(inputs, around, edges, aims):
    """Points with how often edges wind round them: some near where a law could break, and in the row of each the points
    before and behind each edge."""
    for _ in range(ROWS):
        x, y = inputs.point(around, edges, aims)
        found = row(edges, y)
        for x in sorted({x, *(last + i for last, _ in found for i in (0, 1))}):
            yield (x, y), sum(change for last, change in found if x <= last)

class Trial:
    """What was tried of each law, what broke it, and the worst that was seen of each family."""

    def __init__(self, program):
        self.program, self.points, self.drawings, self.worst, self.short = program, 0, 0, {}, 0
        self.tried, self.broken = ({law: 0 for law in ("outer", "inner", "formula", "answers")} for _ in range(2))

    def law(self, law, is_kept, drawing, m, q):
        """One trial of a law."""
        self.tried[law] += 1
        if not is_kept:
            self.broken[law] += 1
            if self.broken[law] <= 5:
                print(f"{law}: broken at {q} of the grid {m}\n  {json.dumps(drawing.words)}")

    def see(self, drawing, column, value):
        """Keeps the greatest value that was seen in a column of the table of families."""
        found = self.worst.setdefault(drawing.family, [None, None, None])
        found[column] = value if found[column] is None else max(found[column], value)

    def drawn(self, inputs, drawing):
        """Tries the outer and the inner law at points of a drawing."""
        m, room = inputs.choice(GRIDS), drawing.room
        edges, square = refined(drawing.edges, m), m * m
        spans = [(1000 * r, reach, thousandths(reach, 2), refined(found, m)) for r, reach, found in drawing.spans]
        keeps = all(reach == rounded_reach(r) for r, reach, _ in drawing.spans)
        butts = [((m * x, m * y), v) for (x, y), v in drawing.butts]
        if drawing.kept is not None:
            self.law("formula", room >= 2 * drawing.kept ** 2 + 3, drawing, 1, "its whole path")
        aims = [isqrt(square * reach // 2) for _, reach, _ in drawing.spans] + [m * inputs.radius]
        aims += 6 * [isqrt(square * room // 2)] if room > 3 else []
        for q, count in samples(inputs, [e for *_, found in spans for e in found], edges, aims):
            self.points += 1
            if not count and room < 0:
                continue
            near = [nearest(found, q) for *_, found in spans]
            if count:
                is_reached = any(2 * n <= reach * square * d for (_, reach, _, _), (n, d) in zip(spans, near))
                self.law("outer", is_reached, drawing, m, q)
                far = [(thousandths(n, d * square), r, most) for (r, _, most, _), (n, d) in zip(spans, near)]
                self.see(drawing, 1, min(distance - most for distance, _, most in far))
                if keeps:
                    self.see(drawing, 0, min(distance - r for distance, r, _ in far))
            if room >= 0 and all(dot(v, minus(q, end)) < 0 for end, v in butts):
                n, d = near[0]
                if 2 * n <= (room - 3) * square * d:
                    self.law("inner", count > 0, drawing, m, q)
                if count <= 0:
                    self.short += 2 * n < room * square * d
                    self.see(drawing, 2, thousandths(room, 2) - thousandths(n, d * square))

    def answered(self, inputs, drawing):
        """Tries the law of answers at points of a drawing, as the program answers it."""
        found = subprocess.run(self.program, input=json.dumps(drawing.words).encode(), capture_output=True)
        if not found.stdout.startswith((b'{"shapes"', b'{"refused"')):
            self.law("answers", False, drawing, 1, None)
            return
        shapes = json.loads(found.stdout).get("shapes", [])
        edges = [edge for shape in shapes for points in shape for edge in loop([tuple(p) for p in points])]
        top, below = separation(drawing.path, edges)
        if not top:
            return
        m, inside = inputs.choice(GRIDS), winding(edges, drawing.path[0][0])
        edges, sections, aims = refined(edges, m), refined(drawing.path, m), [isqrt(m * m * top // below)]
        for q, count in samples(inputs, sections, edges, aims):
            n, d = nearest(sections, q)
            if n * below < top * m * m * d:
                self.law("answers", count == inside, drawing, m, q)

    def table(self):
        """The worst that was seen of each family, in grid units: how far beyond its radius a point is held, where that
        is what bounds it, and how far beyond its bound; and by how much a point is not held that is nearer than the
        room."""
        print(f"{'':22} {'beyond the radius':>18} {'beyond the bound':>18} {'short of the room':>18}")
        for family, found in sorted(self.worst.items()):
            print(f"{family:22}", *(f"{'-' if value is None else format(value / 1000, '.2f'):>18}" for value in found))

def main():
    parser = argparse.ArgumentParser(description=__doc__.split("\n")[0])
    parser.add_argument("--program", nargs="+")
    for name, default in (("--points", 100000), ("--seed", 1)):
        parser.add_argument(name, type=int, default=default)
    given = parser.parse_args()
    begun, trial = time.process_time(), Trial(given.program)
    while trial.points < given.points:
        trial.drawings += 1
        inputs = Inputs(f"{given.seed} {trial.drawings}")
        drawing = inputs.drawing()
        if drawing.edges:
            trial.drawn(inputs, drawing)
            if given.program:
                trial.answered(inputs, drawing)
    trial.table()
    for law, count in trial.tried.items():
        print(f"{law}: {count} cases came under the law, {trial.broken[law]} broke it")
    print(f"{trial.short} points were not held that are nearer than the room, but for what the law leaves for rounding")
    seconds = round(time.process_time() - begun)
    print(f"{trial.points} points of {trial.drawings} drawings of seed {given.seed}, {seconds} seconds")
    sys.exit(any(trial.broken.values()))

if __name__ == "__main__":
    main()
