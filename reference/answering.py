"""What a program answers to a request: a status, a line, and what people are told."""
import json

from joins import join_padding
from outlines import outline_edges
from overlay import DEFAULT_OPTIONS, resolved
from plane import double_area, is_safe, loop
from reading import Reader, Unreadable
from strokes import stroke, stroke_padding
from variable_strokes import variable_padding, variable_stroke

def drawn(request):
    """The edges that a request draws, for each of its paths."""
    width, style = request.width, request.style
    if request.op == "outline":
        return [outline_edges(width, path, style) for path in request.paths]
    if request.op == "stroke":
        return [stroke(width, path, request.closed, style)[0] for path in request.paths]
    return [variable_stroke(width, path, style["arc"])[0] for path in request.paths]

def refusal(request):
    """Why a request is refused, if it is: a point that moves by the padding leaves the safe range, or the double area
    of a contour does not fit a type of twice the bits. The padding is how far what is drawn reaches from a vertex: an
    outline as far as the join of the greater offset, used or not, a variable stroke by the greatest radius."""
    width, limit, style = request.width, request.width.unit - 1, request.style
    if request.op == "outline":
        padding = join_padding(style["join"], max(abs(style["outer"]), abs(style["inner"])))
    else:
        padding = stroke_padding(style) if request.op == "stroke" else variable_padding(request.paths)
    for i, path in enumerate(request.paths):
        for j, point in enumerate(path):
            if not is_safe(width, point[:2], padding):
                return f"paths[{i}][{j}]: with the padding {padding} it leaves the range from {-limit} to {limit}"
    areas = [double_area(path) for path in request.paths if request.op == "outline"]
    large = [i for i, area in enumerate(areas) if not -2 * width.least ** 2 <= area < 2 * width.least ** 2]
    return f"paths[{large[0]}]: its area is too large" if large else ""

def shapes_of(request):
    """One of the answers that are allowed. An outline resolves each contour alone, by the default options, and then
    what comes of all together, that of holes the other way about. Strokes are resolved all at once."""
    edges = []
    for path, found in zip(request.paths, drawn(request)):
        if request.op == "outline":
            fill = 1 if double_area(path) > 0 else -1
            shapes = resolved(found, fill, DEFAULT_OPTIONS)
            found = [edge for shape in shapes for points in shape for edge in loop(points[::fill])]
        edges += found
    return resolved(edges, 1, request.options)

def answer(text):
    """An answer that is allowed to a request: the status, the line, and what people are told."""
    try:
        request = Reader().read(text)
    except Unreadable as fault:
        return 2, '{"unreadable":"request"}', [str(fault)]
    told, why = list(request.ignored), refusal(request)
    if why:
        return 1, '{"refused":"mesh coordinate exceeds the integer engine range"}', [why, *told]
    if request.op == "outline" and request.paths and all(double_area(path) < 0 for path in request.paths):
        told.append("paths: each contour runs clockwise, as a hole does; outer contours run counterclockwise")
    found = [sorted(edges) for edges in drawn(request)] if request.out == "edges" else shapes_of(request)
    return 0, json.dumps({request.out: found}, separators=(",", ":")), told
