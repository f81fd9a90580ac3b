#!/usr/bin/env python3
"""Holds a program to the outlines and strokes of 200 contours, the same each time, with radii of 0, 1 and 2.

    reference/contours.py PROGRAM

Its answers are compared with the reference, as `compare.py` does. Its edges have to close up, to stay within the
padding, and to wind as the contour and the pieces between it and its outline do, or as the pieces of the stroke: at
each point of the grid 2 that differs by at most 2 from a vertex in both coordinates.
"""
import json
import sys
from collections import Counter
from concurrent.futures import ProcessPoolExecutor

from compare import asked, fault
from joins import join_padding
from outlines import outline
from plane import double_area, loop, winding
from random_requests import UNITS, Inputs
from reading import Reader
from strokes import stroke, stroke_padding

JOINS = ["bevel", {"miter": 0}, {"miter": 1 << 29}, {"round": [12309758, 32]}, {"round": [1 << 29, 5]}]

def contour(number, unit):
    """One of the contours: small, with repeats and points where it turns back; some with a long spike, read back from
    the end, with points twice, at the end of the safe range, as wide as it is, or with a point at an end of the type."""
    inputs = Inputs(f"contour {number}")
    inputs.reach = 8
    points, near, kind = inputs.path(9), unit - inputs.randint(1, 12), number % 8
    if kind == 0:
        points += [[inputs.randint(-1000, 1000) for _ in range(2)], points[-1]]
    elif kind == 1:
        points += points[::-1]
    elif kind == 2:
        points = [point for point in points for _ in range(inputs.randint(1, 2))]
    elif kind == 3:
        east, north = (near - max(values) for values in zip(*points))
        points = [[x + east, y + north] for x, y in points]
    elif kind == 4:
        up = inputs.choice([-1, near // 32])
        points = [[x * (near // 32), y * up] for x, y in points]
    elif kind == 5:
        points += [[inputs.choice([-2 * unit, 2 * unit - 1, -unit, unit]), inputs.randint(-1, 1)]]
    return points

def requests():
    """The texts of the requests: of each contour and radius an outline and a stroke, with the least turn 0."""
    for number in range(200):
        width = ("i16", "i32")[number // 8 % 2]
        points, more = contour(number, UNITS[width]), {"join": JOINS[number % 5], "min_turn": 0}
        for radius in range(3):
            offset = radius if number % 16 < 8 else -radius
            for op, style in (("outline", {"outer": offset, "inner": offset}), ("stroke", {"width": 2 * radius})):
                words = {"op": op, "int": width, "out": ("edges", "shapes")[(number + radius) % 2], "paths": [points],
                         "style": {**style, **more}}
                yield json.dumps(words if op == "outline" else {**words, "closed": number % 3 == 0})

def wanted(request):
    """The edges and the pieces round which edges have to wind, the latter once more or once less, and the padding."""
    [path], style = request.paths, request.style
    if request.op == "stroke":
        return [], stroke(request.width, path, request.closed, style)[1], 1, stroke_padding(style)
    offset = style["outer"]
    own = loop(path) if double_area(path) else []
    pieces = outline(request.width, path, offset, style["join"], style["min_turn"])[1] if own else []
    return own, pieces, 1 if offset > 0 else -1, join_padding(style["join"], abs(offset))

def edges_fault(request, edges):
    """What is wrong with edges: they do not close up, lie too far away, or wind otherwise than wanted at a point."""
    own, pieces, sign, padding = wanted(request)
    ends = Counter(tuple(edge[0]) for edge in edges)
    ends.subtract(tuple(edge[1]) for edge in edges)
    if any(ends.values()):
        return "the edges do not close up"
    vertices = {tuple(point) for point in request.paths[0]}
    if any(all(max(abs(x - v[0]), abs(y - v[1])) > padding for v in vertices) for edge in edges for x, y in edge):
        return f"an edge ends farther than {padding} from each vertex"
    boundaries = [loop(piece) for piece in pieces]
    for x, y in vertices:
        for q in ((2 * x + i, 2 * y + j) for i in range(-4, 5) for j in range(-4, 5)):
            held = sum(winding(boundary, q, 2) != 0 for boundary in boundaries)
            if winding(edges, q, 2) != winding(own, q, 2) + sign * held:
                return f"at half of {q} the edges do not wind as they have to"
    return ""

def tried(program, text):
    """What is wrong with a program's answer to a request, if anything, and what it was held against."""
    [answered] = asked(program, [text])
    wrong, against = fault(text, answered, 0)
    edges = json.loads(answered[1] or "{}").get("edges")
    if edges and not wrong:
        wrong, against = edges_fault(Reader().read(text.encode()), edges[0]), "edges and windings"
    return wrong and f"{wrong}\n  {text}\n  {answered}", against

def main():
    texts, held, faults = list(requests()), Counter(), 0
    with ProcessPoolExecutor() as pool:
        for wrong, against in pool.map(tried, [sys.argv[1:]] * len(texts), texts, chunksize=10):
            held[against] += 1
            if wrong:
                faults += 1
                print(wrong)
    print(f"{sum(held.values())} requests of 200 contours, {faults} differ, held against {dict(held)}")
    sys.exit(faults > 0 or sum(held.values()) < len(texts))

if __name__ == "__main__":
    main()
