"""The grid of whole numbers on which all is drawn."""

from __future__ import annotations

from dataclasses import dataclass
from fractions import Fraction
from functools import cached_property
from typing import NamedTuple, Sequence

from .exact import Number, exact_ratio, nearest_whole

# A coordinate on the grid is safe where it is at most this in size.
MOST = 2**30 - 1

ROUNDED = Fraction(70710678119, 10**11)
"""More than half the root of 2, by which a point moves at most that is rounded on the grid."""

HARDLY_MORE_THAN_HALF = Fraction(501, 1000)

Place = list[int]


class Axis(NamedTuple):
    """One coordinate: its place is coordinate * up / down - shift / part, all of them whole numbers."""

    up: int
    down: int
    shift: int
    part: int

    @classmethod
    def of(cls, scale: Fraction, origin: Fraction) -> Axis:
        """The axis of a scale and of the coordinate that lies at 0."""
        shift = origin * scale
        return cls(scale.numerator, scale.denominator, shift.numerator, shift.denominator)

    def place(self, coordinate: Number) -> int:
        """The nearest place of a coordinate."""
        numerator, denominator = exact_ratio(coordinate)
        below = denominator * self.down
        above = numerator * self.up * self.part - self.shift * below
        below *= self.part
        return (2 * above + below) // (2 * below)

    def coordinate(self, place: int) -> float:
        """The float nearest to the coordinate of a place."""
        return (place * self.part + self.shift) * self.down / (self.part * self.up)

    def whole_coordinate(self, place: int) -> int:
        """The coordinate of a place, where all of the grid's are whole numbers."""
        return place + self.shift


@dataclass(frozen=True)
class Grid:
    """The integer grid of a drawing. A coordinate lies at `(coordinate - origin) * scale` on it, rounded.

    scale: grid units for each unit of the drawing.
    origin: the point of the drawing that lies at (0, 0).
    """

    scale: Fraction
    origin: tuple[Fraction, Fraction]

    @cached_property
    def axes(self) -> tuple[Axis, Axis]:
        """Both coordinates."""
        x, y = self.origin
        return Axis.of(self.scale, x), Axis.of(self.scale, y)

    def place(self, point: Sequence[Number]) -> Place:
        """The place of a point."""
        x, y = self.axes
        return [x.place(point[0]), y.place(point[1])]

    def length(self, length: Number) -> int:
        """A length in grid units, rounded."""
        return nearest_whole(Fraction(length) * self.scale)

    @property
    def has_whole_coordinates(self) -> bool:
        """Whether the coordinate of each place is a whole number."""
        return self.scale == 1 and all(origin.denominator == 1 for origin in self.origin)

    def moved(self, are_whole: bool) -> Fraction:
        """How far points may move where they are brought onto the grid, in its units, if their coordinates are ints."""
        return Fraction(0) if are_whole and self.has_whole_coordinates else ROUNDED

    def points(self, places: Sequence[Place], whole: bool) -> list[list[Number]]:
        """The points of places, with whole numbers for coordinates if asked for and the grid has them."""
        x, y = self.axes
        if whole and self.has_whole_coordinates:
            return [[x.whole_coordinate(place[0]), y.whole_coordinate(place[1])] for place in places]
        return [[x.coordinate(place[0]), y.coordinate(place[1])] for place in places]


def power_of_two(exponent: int) -> Fraction:
    """2 to a whole exponent of either sign."""
    return Fraction(2**exponent) if exponent >= 0 else Fraction(1, 2**-exponent)


def first_exponent(length: Fraction) -> int:
    """The exponent of the greatest power of two by which a length, which is above 0, may stay below 2^30.

    One that is hardly more than half of a power of two counts as that half, to which it may be rounded on the grid.
    """
    # A numerator of n bits over a denominator of d bits lies between 2^(n - d - 1) and 2^(n - d + 1).
    top = length.numerator.bit_length() - length.denominator.bit_length()
    top += length >= power_of_two(top)
    return 30 - top + (length < HARDLY_MORE_THAN_HALF * power_of_two(top))
