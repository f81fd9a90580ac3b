"""How far a style moves points at most, as the library's own call tells it."""
import ctypes
import pathlib
import sys
from array import array

sys.path.insert(0, str(pathlib.Path(__file__).resolve().parent.parent / "python"))

from i_overlay_mesh.arrays import lists_of, reach  # noqa: E402
from i_overlay_mesh.library import Outcome  # noqa: E402
from i_overlay_mesh.styles import style_of  # noqa: E402

KINDS = {"i16": (ctypes.c_int16, "h"), "i32": (ctypes.c_int32, "i")}


def padding_of(request):
    """How far the drawing of a request reaches at most beyond its points, in each coordinate."""
    width = request["int"]
    number, code = KINDS[width]
    # The widths of vertices alone say how far a stroke of variable width reaches.
    vertices = [vertex for path in request["paths"] for vertex in path] if request["op"] == "variable_stroke" else []
    numbers = array(code, [number for vertex in vertices for number in vertex])
    lists = lists_of(numbers, array("Q", [len(vertices)] if vertices else []), 3)
    outcome, padding = reach(style_of(request), lists, width, number)
    if outcome not in (Outcome.ANSWERED, Outcome.OUT_OF_RANGE):
        raise ValueError(f"the library cannot read a style that it should: {request['style']}")
    return padding
