#!/usr/bin/env python3
"""Draws requests of `mesh_run` and the program's answers to them, as SVG on standard output.

    docs/draw.py REQUEST.json [REQUEST.json ..] > picture.svg

The answers are those of `crates/mesh_run/out/mesh_run`, which `rt run` in crates/mesh_run proves and builds; or else of
`doors/out/bin/mesh_run`, which `doors/build --unproved` builds; or else of `rt try`, which takes a minute or two, and is
for requests of some thousand vertices at most. The last two prove nothing.

Contours to be outlined are grey, paths to be stroked are dashed lines, the answer is blue; the y axis points up. Where
the width changes by vertex, the circles round the vertices are dotted. Edges that are not resolved have tips, pieces of
sections are blue, those of corners and caps orange, and numbers say how often the edges wind.

Of booleans, coverage and overlaps, what each operand covers is grey, and the answer blue.
"""
import argparse
import json
import pathlib
import shlex
import subprocess
import sys
import tempfile
from typing import NamedTuple
from xml.sax.saxutils import escape

import pieces

CRATE = pathlib.Path(__file__).resolve().parent.parent / "crates/mesh_run"
PROGRAMS = [CRATE / "out/mesh_run", CRATE.parent.parent / "doors/out/bin/mesh_run"]

PANEL = 400
MARGIN = 20
ROW = 4
FONT = 15
LINE = 19
DEFAULT_ARC = (68356528, 5)
MOST_ROUNDS = 100
COMBINING = ("boolean", "coverage", "overlaps")
CELL = 4

ANSWER = 'fill="#4a90d9" fill-opacity="0.35" stroke="#1b4f9c" stroke-width="2" stroke-linejoin="round"'
OWN = 'fill="none" stroke="#333333" stroke-width="1.2" stroke-dasharray="5 3"'
OPERAND = 'fill="#888888" fill-opacity="0.25" stroke="#555555" stroke-width="1"'
CIRCLE = 'fill="none" stroke="#333333" stroke-width="1" stroke-dasharray="1 3"'
SIDE_PIECE = 'fill="#4a90d9" fill-opacity="0.3"'
CORNER_PIECE = 'fill="#e8a33d" fill-opacity="0.6"'
EDGE = 'fill="none" stroke="#1b4f9c" stroke-width="1.6" marker-end="url(#tip)"'
TIP = (
    '<defs><marker id="tip" viewBox="0 0 10 10" refX="9" refY="5" markerWidth="6" markerHeight="6" orient="auto">'
    '<path d="M0,0 L10,5 L0,10 z" fill="#1b4f9c"/></marker></defs>'
)


class Panel(NamedTuple):
    """A request, its answers one after another, each a list of shapes, and the edges that were drawn, if asked for."""

    request: dict
    answers: list
    edges: list
    operands: list = []
    """Of a request that combines: its operands."""

    @property
    def is_outline(self):
        """Whether contours are moved."""
        return self.request["op"] == "outline"

    @property
    def combines(self):
        """Whether operands are combined."""
        return self.request["op"] in COMBINING

    @property
    def is_closed(self):
        """Whether a path goes on from its last point to its first."""
        is_ring = self.request["op"] == "stroke" and self.request.get("closed", False)
        return self.is_outline or self.combines or is_ring

    @property
    def paths(self):
        """The points of the paths."""
        if self.combines:
            return []
        return [[tuple(vertex[:2]) for vertex in path] for path in self.request["paths"]]

    @property
    def circles(self):
        """The circles round the vertices of variable strokes: a point with a radius."""
        if self.request["op"] != "variable_stroke":
            return []
        return [(x, y, (max(width, 0) + 1) // 2) for path in self.request["paths"] for x, y, width in path]


# The program


def ask_program(command, requests):
    """The answers of a program, each of its standard output."""
    for request in requests:
        try:
            run = subprocess.run(command, input=request, stdout=subprocess.PIPE, text=True, check=False)
        except OSError as error:
            sys.exit(f"draw.py: {command[0]}: {error.strerror}")
        yield run.stdout


def ask_rt_try(requests):
    """The answers of the program as `rt try` builds it, once for all requests."""
    print("draw.py: answered by `rt try` in a minute or two; `doors/build --unproved` keeps a program", file=sys.stderr)
    with tempfile.TemporaryDirectory() as folder:
        for index, request in enumerate(requests):
            (pathlib.Path(folder) / f"{index:04}").write_text(request, encoding="utf-8")
        try:
            run = subprocess.run(
                ["rt", "try", "--cases", folder], cwd=CRATE, capture_output=True, text=True, check=False
            )
        except OSError:
            sys.exit(f"draw.py: no {PROGRAMS[0]} and no rt on the path: say by --program what answers")
    parts = ("\n" + run.stdout).split("\n== ")[1:]
    if len(parts) != len(requests):
        sys.exit("draw.py: `rt try` gave no answer:\n" + "\n".join(run.stderr.splitlines()[-5:])[-500:])
    return [part.partition("\n")[2] for part in parts]


def ask(command, files, requests):
    """The answers to requests, of these files: objects with shapes, or with edges."""
    texts = [json.dumps(request) for request in requests]
    if command is None:
        command = next(([str(program)] for program in PROGRAMS if program.exists()), None)
    answers = []
    for file, text in zip(files, ask_rt_try(texts) if command is None else ask_program(command, texts)):
        try:
            answer = json.loads(text)
        except ValueError:
            sys.exit(f"draw.py: {file}: the program answered no line of JSON, but {text[:200]!r}")
        if not isinstance(answer, dict) or not {"shapes", "edges", "overlaps"} & answer.keys():
            sys.exit(f"draw.py: {file}: the program answered {text.strip()}")
        answers.append(answer)
    return answers


def read(file):
    """The request that a file holds."""
    try:
        request = json.loads(pathlib.Path(file).read_text(encoding="utf-8"))
    except OSError as error:
        sys.exit(f"draw.py: {file}: {error.strerror}")
    except ValueError as error:
        sys.exit(f"draw.py: {file}: no JSON: {error}")
    if not isinstance(request, dict):
        sys.exit(f"draw.py: {file}: a request is an object")
    return request


def shapes_of(answer):
    """All shapes of an answer, those of overlaps too."""
    return answer.get("shapes", []) + [shape for *_, shapes in answer.get("overlaps", []) for shape in shapes]


def operands_of(request):
    """The operands of a request that combines, each with its fill rule."""
    fill = request.get("fill", "non_zero")
    if request["op"] == "boolean":
        fills = fill if isinstance(fill, dict) else {"subject": fill, "clip": fill}
        return [(request[key], fills[key]) for key in ("subject", "clip")]
    return [(zone, fill) for zone in request["zones"]]


def operand_panels(command, file, request):
    """The operands of a request that combines, each as what it is drawn of, with what it covers."""
    operands = operands_of(request) if request["op"] in COMBINING else []
    if not operands:
        return []
    alone = {"op": "boolean", "int": request["int"], "out": "shapes", "rule": "subject", "clip": []}
    answers = ask(command, [file] * len(operands), [alone | {"subject": it, "fill": fill} for it, fill in operands])
    drawn = [it if isinstance(it, dict) else {"op": "outline", "paths": it} for it, _ in operands]
    return [Panel(one, [answer["shapes"]], []) for one, answer in zip(drawn, answers)]


def rounds(command, file, request, first):
    """The first answer, and those to what was answered, until no shape is left."""
    shapes = first
    while shapes:
        yield shapes
        contours = [contour for shape in shapes for contour in shape]
        shapes = ask(command, [file], [request | {"paths": contours}])[0]["shapes"]


def panels_of(command, files, is_repeated, has_pieces):
    """The requests of files with their answers."""
    requests = [read(file) for file in files]
    asked = [request | ({"out": "edges"} if has_pieces else {}) for request in requests]
    panels = []
    for file, request, answer in zip(files, requests, ask(command, files, asked)):
        edges = [(tuple(start), tuple(end)) for path in answer.get("edges", []) for start, end in path]
        answers = [] if "edges" in answer else [shapes_of(answer)]
        if is_repeated and answers:
            answers = [shapes for shapes, _ in zip(rounds(command, file, request, answers[0]), range(MOST_ROUNDS))]
        panels.append(Panel(request, answers, edges, operand_panels(command, file, request)))
    return panels


# Captions


def caption_of(panel):
    """How a request is drawn, in words."""
    request = panel.request
    if request["op"] == "boolean":
        return request["rule"].replace("_", " ")
    if request["op"] == "coverage":
        return f"where at least {request['least']} zones cover the plane"
    if request["op"] == "overlaps":
        return f"overlaps of {len(request['zones'])} zones"
    style = request["style"]
    if request["op"] == "variable_stroke":
        return f"arcs in steps of {degrees(style.get('arc', DEFAULT_ARC)[0])}"
    join = join_name(style.get("join", "bevel"))
    if panel.is_outline:
        outer, inner = style["outer"], style["inner"]
        caption = f"offset {outer}" if outer == inner else f"outer offset {outer}, inner offset {inner}"
    elif panel.is_closed:
        caption = f"width {style['width']}, closed"
    elif style.get("side", "both") != "both":
        caption = f"width {style['width']}, {style['side']} half"
    else:
        caption = f"width {style['width']}, {caps_name(style)}"
    caption += f", {join}"
    if len(panel.answers) > 1:
        caption += f", {len(panel.answers)} times"
    elif panel.answers == [[]]:
        caption += ": no shape"
    return caption


def caps_name(style):
    """The caps of a style in words."""
    start, end = (cap if isinstance(cap, str) else next(iter(cap)) for cap in ends_of(style))
    return f"{start} caps" if start == end else f"{start} and {end} caps"


def ends_of(style):
    """The caps of a style, at the start and at the end."""
    return style.get("start", "butt"), style.get("end", "butt")


def join_name(join):
    """A join in words."""
    if isinstance(join, str):
        return f"{join}s"
    if "miter" in join:
        return f"miters of {degrees(join['miter'])}"
    return f"round joins, steps of {degrees(join['round'][0])}"


def degrees(bits):
    """An angle in words; 2^32 bits are a turn."""
    return f"{bits * 360 / 2**32:.3g}°"


def width_of(text):
    """The width of a text in pixels, in the widest of the common fonts."""
    widths = {**dict.fromkeys("ijl.,:;'|!", 0.4), **dict.fromkeys("frt()[]-/ °", 0.5), **dict.fromkeys("mwMW%@", 1.0)}
    return FONT * sum(widths.get(letter, 0.8 if letter.isupper() else 0.66) for letter in text)


def wrapped(text, width):
    """Lines of words that are no wider than asked, unless a word is."""
    lines = [""]
    for word in text.split():
        longer = f"{lines[-1]} {word}".strip()
        if lines[-1] and width_of(longer) > width:
            lines.append(word)
        else:
            lines[-1] = longer
    return lines


# The picture


class Frame(NamedTuple):
    """Where the plane stands in a panel: its left and upper side, its least x and greatest y, and the scale."""

    left: float
    top: float
    low_x: int
    high_y: int
    scale: float

    def moved(self, point):
        """A point of the plane in the picture."""
        x = self.left + MARGIN + (point[0] - self.low_x) * self.scale
        return f"{x:.1f},{self.top + MARGIN + (self.high_y - point[1]) * self.scale:.1f}"

    def path(self, paths, is_closed=True):
        """The data of an SVG path of contours, or of open paths."""
        end = " Z" if is_closed else ""
        return " ".join("M" + " L".join(map(self.moved, path)) + end for path in paths if path)


def bounds_of(panels):
    """The least and the greatest coordinates of all that is drawn in panels."""
    contours = [contour for panel in panels for shapes in panel.answers for shape in shapes for contour in shape]
    contours += [path for panel in panels for path in panel.paths + panel.edges]
    contours += [path for panel in panels for operand in panel.operands for path in operand.paths]
    contours += [contour for panel in panels for operand in panel.operands for shapes in operand.answers
                 for shape in shapes for contour in shape]
    points = [point for contour in contours for point in contour]
    points += [(x + way * r, y + way * r) for panel in panels for x, y, r in panel.circles for way in (-1, 1)]
    xs, ys = zip(*points) if points else ((0,), (0,))
    return min(xs), min(ys), max(xs), max(ys)


def operand_lines(operand, frame):
    """The SVG text of an operand: what it covers, and dashed what it is drawn of."""
    for shape in (shape for shapes in operand.answers for shape in shapes):
        yield f'<path d="{frame.path(shape)}" {OPERAND} fill-rule="evenodd"/>'
    yield f'<path d="{frame.path(operand.paths, operand.is_closed)}" {OWN}/>'


def panel_lines(panel, frame):
    """The SVG text of one panel, without its caption."""
    for operand in panel.operands:
        yield from operand_lines(operand, frame)
    own = frame.path(panel.paths, panel.is_closed)
    if panel.is_outline:
        yield f'<path d="{own}" fill="#cccccc" fill-rule="evenodd"/>'
    if panel.edges:
        sides, corners = pieces.pieces_of(panel)
        yield from (f'<path d="{frame.path([piece])}" {SIDE_PIECE}/>' for piece in sides)
        yield from (f'<path d="{frame.path([piece])}" {CORNER_PIECE}/>' for piece in corners)
    for shape in (shape for shapes in panel.answers for shape in shapes):
        yield f'<path d="{frame.path(shape)}" {ANSWER} fill-rule="evenodd"/>'
    for x, y, radius in panel.circles:
        center_x, center_y = frame.moved((x, y)).split(",")
        yield f'<circle cx="{center_x}" cy="{center_y}" r="{radius * frame.scale:.1f}" {CIRCLE}/>'
    if own:
        yield f'<path d="{own}" {OWN}/>'
    yield from (f'<path d="{frame.path([edge], False)}" {EDGE}/>' for edge in panel.edges)
    contours = [end for path in panel.paths if panel.is_outline for end in pieces.sections_of(path, True)]
    for point, count in pieces.counts(panel.edges, contours, CELL / frame.scale):
        x, y = frame.moved(point).split(",")
        yield f'<text x="{x}" y="{float(y) + FONT / 3:.1f}" text-anchor="middle" font-weight="bold">{count}</text>'


class Layout(NamedTuple):
    """How panels stand: their width in pixels, whether each has a scale of its own, and whether all are one."""

    panel_width: int
    has_own_scales: bool
    is_one_panel: bool


def row_lines(panels, top, layout):
    """The SVG text of a row of panels, and where it ends."""
    inner = layout.panel_width - 2 * MARGIN
    lines, depth = [], 0
    for index, panel in enumerate(panels):
        low_x, low_y, high_x, high_y = bounds_of([panel] if layout.has_own_scales else panels)
        scale = inner / max(high_x - low_x, high_y - low_y, 1)
        left = (0 if layout.is_one_panel else index * layout.panel_width) + (inner - (high_x - low_x) * scale) / 2
        lines += panel_lines(panel, Frame(left, top, low_x, high_y, scale))
        depth = max(depth, round(2 * MARGIN + (high_y - low_y) * scale))
    captions = [caption_of(panel) for panel in panels]
    rows = [wrapped(caption, inner) for caption in (["; ".join(captions)] if layout.is_one_panel else captions)]
    for index, row in enumerate(rows):
        middle = index * layout.panel_width + layout.panel_width // 2
        for place, words in enumerate(row):
            y = top + depth + place * LINE + FONT - 3
            lines.append(f'<text x="{middle}" y="{y}" text-anchor="middle">{escape(words)}</text>')
    return lines, top + depth + LINE * max(map(len, rows)) + 10


def drawing(panels, layout):
    """The SVG text."""
    row_length = len(panels) if layout.is_one_panel else ROW
    bottom, lines = 0, []
    for first in range(0, len(panels), row_length):
        row_text, bottom = row_lines(panels[first : first + row_length], bottom, layout)
        lines += row_text
    width = layout.panel_width * (1 if layout.is_one_panel else min(len(panels), ROW))
    is_outline = all(panel.is_outline for panel in panels)
    kind = "Polygons and their outlines" if is_outline else "Paths and their strokes"
    title = "Regions and what is made of them" if all(panel.combines for panel in panels) else kind
    return "\n".join(
        [
            f'<svg xmlns="http://www.w3.org/2000/svg" width="{width}" height="{bottom}"'
            f' viewBox="0 0 {width} {bottom}" font-family="sans-serif" font-size="{FONT}">',
            f"<title>{title}</title>",
            *([TIP] if any(panel.edges for panel in panels) else []),
            f'<rect width="{width}" height="{bottom}" fill="white"/>',
            *lines,
            "</svg>",
        ]
    )


def main():
    parser = argparse.ArgumentParser(prog="draw.py", description="Draws requests and their answers, as SVG.")
    parser.add_argument("requests", nargs="+", metavar="REQUEST.json", help="a file with a request of mesh_run")
    parser.add_argument("--pieces", action="store_true", help="draw edges and pieces, and how often edges wind")
    parser.add_argument("--again", action="store_true", help="hand shapes in again until none is left, and draw all")
    parser.add_argument("--own-scale", action="store_true", help="let each request fill its panel")
    parser.add_argument("--over", action="store_true", help="draw all requests over each other, in one panel")
    parser.add_argument("--panel", type=int, default=PANEL, help="the width of a panel, in pixels")
    parser.add_argument("--program", type=shlex.split, metavar="COMMAND", help="what answers a request")
    options = parser.parse_args()
    if (options.pieces or options.again) and any(read(file)["op"] in COMBINING for file in options.requests):
        sys.exit("draw.py: --pieces and --again are for requests that draw paths")
    panels = panels_of(options.program, options.requests, options.again, options.pieces)
    print(drawing(panels, Layout(options.panel, options.own_scale and not options.over, options.over)))


if __name__ == "__main__":
    main()
