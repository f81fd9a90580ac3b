"""Nets that are near to each other."""

from __future__ import annotations

import math
from fractions import Fraction
from typing import Any, Sequence

from .arrays import near_nets
from .booleans import Region, grid_of_answers
from .distances import length_of
from .engine import Wishes, told
from .errors import DrawingError
from .exact import Number, read_number
from .shapes import Shapes

MOST_DISTANCE = 2**32 - 1
"""On the grid no points are as far apart."""

NO_WISHES = Wishes(None, None, None, None)


def clearances(nets: Sequence[Shapes], distance: Number) -> list[tuple[int, int, float]]:
    """Which pairs of nets of a board are nearer to each other than a distance, and how near.

    All other pairs keep the distance, which is proved on the grid: every point of one is at least that far from every
    point of the other. Nets that touch or overlap are at distance 0, and so is a net that lies within another.

    Args:
        nets: a list of answers of this package, of one grid.
        distance: in the unit of the input, and exact: the float 0.1 is a little more than Fraction(1, 10). Nothing is
            nearer than 0.

    Returns:
        For each such pair the indices of both, the lesser first, and their distance, rounded down, in order. Where the
        distance is no whole number of grid units, it may list pairs at that distance, or farther by less than one unit.

    Raises:
        DrawingError: a net is no answer, answers are of unequal grids, or the distance is invalid.
        MemoryError: an allocation failed.
    """
    answers = nets_in(nets)
    number = read_number("", "distance", distance)
    if number < 0:
        raise DrawingError("", f"distance is {distance}, and has to be 0 or more")
    if not answers:
        return []
    grid = grid_of_answers([Region.of(f"net {index}", net) for index, net in enumerate(answers)], [], NO_WISHES)
    on_grid = Fraction(number) * grid.scale
    found = told(*near_nets([net._told for net in answers], min(math.ceil(on_grid), MOST_DISTANCE)))
    near = [pair for pair in found if pair[2] < on_grid**2]
    return [(first, second, length_of(square, grid, Fraction(0))) for first, second, square in near]


def nets_in(nets: Any) -> list[Shapes]:
    """The answers of a list."""
    if isinstance(nets, Shapes) or not hasattr(nets, "__iter__"):
        raise DrawingError("", "nets is no list, and has to be one of answers")
    answers = list(nets)
    for index, net in enumerate(answers):
        if not isinstance(net, Shapes):
            raise DrawingError(f"net {index}", "it is no answer of this package, and has to be one")
    return answers
