#!/usr/bin/env python3
"""Draws an answer near its edges, as SVG on standard output: all of it, and a corner magnified, with the band in which
the answer may be wrong.

    docs/draw_nearness.py --program PROGRAM > docs/nearness.svg

PROGRAM is `mesh_run`. The offset curve is dashed, the band of the error bound round it is orange, the
answer is blue, and points of the grid are dots. The distance is what `mesh_bench 0 nearness` tells of the request.
"""
import argparse
import json
import shlex
import subprocess
import sys

REQUEST = {
    "op": "outline",
    "int": "i32",
    "paths": [[[3, -3], [67, -7], [56, 34], [26, 42], [16, 73], [-15, 60]]],
    "style": {"outer": 9, "inner": 9, "join": {"round": [400000000, 5]}},
}

TOLD = 31
"""The nearness of the answer, in 64ths of a grid unit, as `mesh_bench 0 nearness` told it for this request."""

CORNER = (34, 50)
"""The middle of the magnified part, and how far it reaches in each coordinate, in grid units."""
REACH = 4.5

PANEL = 400
MARGIN = 20
FONT = 15

ANSWER = 'fill="#4a90d9" fill-opacity="0.35" stroke="#1b4f9c" stroke-width="2" stroke-linejoin="round"'
BAND = 'fill="#e8a33d" opacity="0.7"'
BOUNDARY = 'fill="none" stroke="#1b4f9c" stroke-width="2" stroke-linejoin="round"'
DRAWN = 'fill="none" stroke="#333333" stroke-width="1.2" stroke-dasharray="5 3"'


def ask(command, out):
    """The program's answer to the request: edges or shapes."""
    text = json.dumps(REQUEST | {"out": out})
    run = subprocess.run(command, input=text, stdout=subprocess.PIPE, text=True, check=False)
    try:
        return json.loads(run.stdout)[out]
    except (ValueError, KeyError):
        sys.exit(f"draw_nearness.py: the program answered {run.stdout[:200]!r}")


def band(edge, reach):
    """The points within a distance of an edge, by the greater of both coordinates' differences: a hexagon."""
    (x0, y0), (x1, y1) = edge
    way_x, way_y = (1 if x1 >= x0 else -1), (1 if y1 >= y0 else -1)
    a, b = reach * way_x, reach * way_y
    return [(x0 - a, y0 - b), (x0 + a, y0 - b), (x1 + a, y1 - b), (x1 + a, y1 + b), (x1 - a, y1 + b), (x0 - a, y0 + b)]


class Frame:
    """Where a part of the plane stands in the picture."""

    def __init__(self, left, low_x, high_y, scale):
        self.left, self.low_x, self.high_y, self.scale = left, low_x, high_y, scale

    def moved(self, point):
        """A point of the plane in the picture."""
        x = self.left + MARGIN + (point[0] - self.low_x) * self.scale
        return f"{x:.1f},{MARGIN + (self.high_y - point[1]) * self.scale:.1f}"

    def path(self, points, end=" Z"):
        """The data of an SVG path."""
        return "M" + " L".join(map(self.moved, points)) + end


def drawn(frame, edges, shapes):
    """The SVG text of the answer and of the edges."""
    for shape in shapes:
        yield f'<path d="{" ".join(frame.path(contour) for contour in shape)}" {ANSWER} fill-rule="evenodd"/>'
    yield f'<path d="{" ".join(frame.path(edge, "") for edge in edges)}" {DRAWN}/>'


def magnified(frame, edges, shapes):
    """The SVG text of the corner, with the bands and the grid."""
    yield from drawn(frame, [], shapes)
    yield f"<g {BAND}>"
    yield from (f'<path d="{frame.path(band(edge, TOLD / 64))}"/>' for edge in edges)
    yield "</g>"
    yield f'<path d="{" ".join(frame.path(contour) for shape in shapes for contour in shape)}" {BOUNDARY}/>'
    yield from drawn(frame, edges, [])
    for x in range(int(CORNER[0] - REACH), int(CORNER[0] + REACH) + 1):
        for y in range(int(CORNER[1] - REACH), int(CORNER[1] + REACH) + 1):
            left, top = frame.moved((x, y)).split(",")
            yield f'<circle cx="{left}" cy="{top}" r="2" fill="#333333"/>'


def caption(middle, words):
    """The SVG text of a caption."""
    return f'<text x="{middle}" y="{PANEL + FONT}" text-anchor="middle">{words}</text>'


def picture(edges, shapes):
    """The SVG text."""
    points = [point for edge in edges for point in edge]
    xs, ys = zip(*points)
    inner = PANEL - 2 * MARGIN
    whole = Frame(0, min(xs), max(ys), inner / max(max(xs) - min(xs), max(ys) - min(ys)))
    near = Frame(PANEL, CORNER[0] - REACH, CORNER[1] + REACH, inner / (2 * REACH))
    left, top = map(float, whole.moved((CORNER[0] - REACH, CORNER[1] + REACH)).split(","))
    side = 2 * REACH * whole.scale
    box = f'x="{PANEL + MARGIN}" y="{MARGIN}" width="{inner}" height="{inner}"'
    width, height = 2 * PANEL, PANEL + 2 * FONT
    return "\n".join(
        [
            f'<svg xmlns="http://www.w3.org/2000/svg" width="{width}" height="{height}"'
            f' viewBox="0 0 {width} {height}" font-family="sans-serif" font-size="{FONT}">',
            "<title>An outline, its offset curve, and the band of its error bound</title>",
            f'<defs><clipPath id="corner"><rect {box}/></clipPath></defs>',
            f'<rect width="{width}" height="{height}" fill="white"/>',
            *drawn(whole, edges, shapes),
            f'<rect x="{left:.1f}" y="{top:.1f}" width="{side:.1f}" height="{side:.1f}" fill="none" stroke="#c0392b"/>',
            '<g clip-path="url(#corner)">',
            *magnified(near, edges, shapes),
            "</g>",
            f'<rect {box} fill="none" stroke="#c0392b"/>',
            caption(PANEL // 2, "an outline, offset 9, and its offset curve (dashed)"),
            caption(PANEL + PANEL // 2, f"a corner: exact outside the band of {TOLD}/64 of a unit"),
            "</svg>",
        ]
    )


def main():
    parser = argparse.ArgumentParser(prog="draw_nearness.py", description="Draws an answer near its edges, as SVG.")
    parser.add_argument("--program", type=shlex.split, required=True, metavar="COMMAND", help="mesh_run")
    command = parser.parse_args().program
    edges = [(tuple(start), tuple(end)) for path in ask(command, "edges") for start, end in path]
    print(picture(edges, ask(command, "shapes")))


if __name__ == "__main__":
    main()
