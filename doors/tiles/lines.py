"""Cuts a request into requests of components, a line each, and joins the lines that answer them."""
import json

from components import components
from padding import padding_of

UNREADABLE = b'{"unreadable":"request"}\n'

DRAWINGS = ("outline", "stroke", "variable_stroke")
"""What draws paths. Other operations combine regions, and are not cut."""

PATHS_OF_LINE = 64
"""How many paths a line has where edges are asked for, which are answered path by path."""


def read_request(text):
    """The object that the bytes of a request hold, if they hold one."""
    try:
        request = json.loads(text.decode("utf-8"))
    except (ValueError, RecursionError):
        return None
    return request if isinstance(request, dict) and "\n" not in request else None


def line_of(request):
    """A request in one line."""
    return json.dumps(request, separators=(",", ":")).encode() + b"\n"


def is_drawing(request):
    """Whether a request draws paths, and these are lists of whole numbers, as a drawing has them."""
    if request.get("op") not in DRAWINGS:
        return False
    paths = request.get("paths")
    size = 3 if request.get("op") == "variable_stroke" else 2
    return isinstance(paths, list) and all(
        isinstance(path, list) and all(is_vertex(vertex, size) for vertex in path) for path in paths
    )


def asks_for_distances(request):
    """Whether a request asks for distances of its shapes, which are told of the whole."""
    return request["out"] == "shapes" and request.get("options", {}).get("distances", False) is not False


def is_vertex(value, size):
    """Whether a value is a list of so many whole numbers."""
    return isinstance(value, list) and len(value) == size and all(type(number) is int for number in value)


def cut(text):
    """The lines of a request's components. What cannot be cut is one line, which the program answers as the whole."""
    request = read_request(text)
    if request is None:
        return [b"?\n"]
    try:
        if not is_drawing(request) or asks_for_distances(request):
            return [line_of(request)]
        if request["out"] == "edges":
            numbers = range(len(request["paths"]))
            parts = [numbers[first : first + PATHS_OF_LINE] for first in numbers[::PATHS_OF_LINE]]
        else:
            parts = components(request["paths"], padding_of(request))
    except (KeyError, TypeError, ValueError, AttributeError, OverflowError, IndexError):
        return [line_of(request)]
    lines = [line_of({**request, "paths": [request["paths"][number] for number in part]}) for part in parts]
    return lines or [line_of(request)]


def key_of(shape, clockwise):
    """By what shapes are ordered: the points of the head, counterclockwise."""
    head = shape[0]
    return head[:1] + head[:0:-1] if clockwise else head


def join(text, answers):
    """The line that answers a request, of the lines that answer its components.

    Shapes stand in their order. A component that cannot be read, or else the first that is refused, is the answer.
    """
    parts = [json.loads(line) for line in answers]
    if any("unreadable" in part for part in parts):
        return UNREADABLE
    for part, line in zip(parts, answers):
        if "refused" in part:
            return line
    if "overlaps" in parts[0] or "clearance2" in parts[0]:
        return answers[0]
    request = read_request(text)
    if request["out"] == "edges":
        return line_of({"edges": [edges for part in parts for edges in part["edges"]]})
    clockwise = request.get("options", {}).get("clockwise", False)
    shapes = [shape for part in parts for shape in part["shapes"]]
    shapes.sort(key=lambda shape: key_of(shape, clockwise))
    return line_of({"shapes": shapes})
