"""Polygon offsetting and booleans: grows, shrinks and combines polygons and gives lines a width, by a proved library.

    >>> from i_overlay_mesh import outline
    >>> grown = outline([[0, 0], [4, 0], [4, 3], [0, 3]], 1, join="miter")
    >>> grown.geojson()["coordinates"]
    [[[-1.0, -1.0], [5.0, -1.0], [5.0, 4.0], [-1.0, 4.0], [-1.0, -1.0]]]

Coordinates are rounded to an integer grid, the library draws there exactly by its rules, and the answer is converted
back. Each answer has the `scale` and `origin` of its grid. Errors count the parts of a drawing from 0.
"""

from .booleans import coverage, difference, intersection, overlaps, symmetric_difference, union
from .errors import DrawingError, GridRangeError, LibraryMissing, TooManySplits, UnprovedWarning
from .grid import Grid
from .library import answer, is_proved, warn_of_proof
from .many import buffer_all
from .nets import clearances
from .offsets import buffer, outline, stroke, variable_stroke
from .shapes import Shapes

__version__ = "1.2.0"

__all__ = [
    "DrawingError",
    "Grid",
    "GridRangeError",
    "LibraryMissing",
    "Shapes",
    "TooManySplits",
    "UnprovedWarning",
    "answer",
    "buffer",
    "buffer_all",
    "clearances",
    "coverage",
    "difference",
    "intersection",
    "is_proved",
    "outline",
    "overlaps",
    "stroke",
    "symmetric_difference",
    "union",
    "variable_stroke",
]

warn_of_proof()
