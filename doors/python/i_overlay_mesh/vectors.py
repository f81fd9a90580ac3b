"""Grids over arrays of numpy: the same places and coordinates as `grid` tells of one number at a time."""

from __future__ import annotations

from typing import Any

import numpy

from .grid import Axis, Grid

Array = Any
"""An array of numpy."""

BLOCK = 65536
"""So many numbers are brought onto the grid at once, so that what is computed on the way takes little memory."""

EXACT = 2**53
"""Whole numbers up to this size are floats."""

ROUNDING = 2.0**-50
"""More than a few roundings of floats take, of the size of a number."""


def exponent_of(axis: Axis) -> int | None:
    """The exponent of a scale that is a power of two, where the origin lies on the grid; else none."""
    if axis.part != 1 or abs(axis.shift) >= 2**62:
        return None
    if axis.down == 1 and axis.up & (axis.up - 1) == 0:
        return axis.up.bit_length() - 1
    if axis.up == 1 and axis.down & (axis.down - 1) == 0:
        return 1 - axis.down.bit_length()
    return None


def rounded(values: Array) -> Array:
    """The nearest whole numbers, a half upwards, as floats. They are exact."""
    nearest = numpy.rint(values)
    nearest += values - nearest == 0.5
    return nearest


def exact_places(values: Array, axis: Axis) -> Array:
    """The nearest places of coordinates, one at a time."""
    return numpy.array([axis.place(value) for value in values.tolist()], numpy.int64)


def near_places(values: Array, axis: Axis) -> Array:
    """The nearest places of coordinates on any grid: by floats where these tell, and else one at a time."""
    origin, scale = axis.shift / axis.part * axis.down / axis.up, axis.up / axis.down
    near = (values - origin) * scale
    nearest = numpy.rint(near)
    size = max(abs(float(values.min())), abs(float(values.max()))) + abs(origin)
    doubt = numpy.abs(numpy.abs(near - nearest) - 0.5) <= ROUNDING * size * scale
    places = nearest.astype(numpy.int64)
    at: Array = numpy.nonzero(doubt)[0]
    places[at] = exact_places(values[at], axis)
    return places


def places_of(values: Array, axis: Axis) -> Array:
    """The nearest places of coordinates, which are floats or whole numbers. All have to be in range."""
    values = values.astype(numpy.float64, copy=False)
    exponent = exponent_of(axis)
    if exponent is not None and -1000 < exponent < 1000:
        return rounded(numpy.ldexp(values, exponent)).astype(numpy.int64) - axis.shift
    if max(abs(axis.shift), axis.up, axis.down, axis.part) < 2**900:
        return near_places(values, axis)
    return exact_places(values, axis)


def fill_places(points: Array, grid: Grid, out: Array) -> None:
    """Writes the places of points, which are all in range, into an array of two columns."""
    for start in range(0, len(points), BLOCK):
        part = slice(start, start + BLOCK)
        for column, axis in enumerate(grid.axes):
            out[part, column] = places_of(points[part, column], axis)


def coordinates_of(places: Array, axis: Axis) -> Array:
    """The floats nearest to the coordinates of places."""
    exponent = exponent_of(axis)
    if exponent is not None and -1000 < exponent < 1000:
        return numpy.ldexp((places.astype(numpy.int64) + axis.shift).astype(numpy.float64), -exponent)
    most = abs(axis.shift) + 2**31 * axis.part
    if most * axis.down < EXACT and axis.part * axis.up < EXACT:
        # Both are floats exactly, so their quotient is the nearest one.
        above = (places.astype(numpy.int64) * axis.part + axis.shift) * axis.down
        return above.astype(numpy.float64) / float(axis.part * axis.up)
    return numpy.array([axis.coordinate(place) for place in places.tolist()], numpy.float64)


def points_of(places: Array, grid: Grid, whole: bool) -> Array:
    """The points of places, in two columns, with whole numbers for coordinates if asked for and the grid has them."""
    if whole and grid.has_whole_coordinates and all(abs(axis.shift) < 2**62 for axis in grid.axes):
        return places.astype(numpy.int64) + numpy.array([axis.shift for axis in grid.axes], numpy.int64)
    points = numpy.empty((len(places), 2), numpy.float64)
    for start in range(0, len(places), BLOCK):
        part = slice(start, start + BLOCK)
        for column, axis in enumerate(grid.axes):
            points[part, column] = coordinates_of(places[part, column], axis)
    return points


def starts_of(ends: Array) -> Array:
    """Where each of some lists begins that stand end to end."""
    return numpy.concatenate([numpy.zeros(1, numpy.int64), ends[:-1]]) if len(ends) else ends


def list_numbers(ends: Array) -> Array:
    """For each item of lists that stand end to end the number of its list."""
    return numpy.repeat(numpy.arange(len(ends)), numpy.diff(ends, prepend=0))


def double_areas(places: Array, ends: Array) -> tuple[Array, Array]:
    """Twice the area of each ring, as whole numbers: how often 2^31, and how much more."""
    high, low = numpy.zeros(len(ends), numpy.int64), numpy.zeros(len(ends), numpy.int64)
    starts = starts_of(ends)
    for start in range(0, len(places), BLOCK):
        end = min(len(places), start + BLOCK)
        rings = numpy.arange(numpy.searchsorted(ends, start, "right"), numpy.searchsorted(ends, end - 1, "right") + 1)
        rings = rings[ends[rings] > starts[rings]]
        before = numpy.arange(start - 1, end - 1)
        begun = rings[starts[rings] >= start]
        before[starts[begun] - start] = ends[begun] - 1
        here, last = places[start:end].astype(numpy.int64), places[before].astype(numpy.int64)
        cross = last[:, 0] * here[:, 1] - last[:, 1] * here[:, 0]
        at = numpy.maximum(starts[rings], start) - start
        high[rings] += numpy.add.reduceat(cross >> 31, at)
        low[rings] += numpy.add.reduceat(cross & (2**31 - 1), at)
    return high + (low >> 31), low & (2**31 - 1)


def turn(places: Array, ends: Array, are_holes: Array) -> None:
    """Turns rings in place: counterclockwise, or clockwise where they are holes."""
    runs_clockwise = double_areas(places, ends)[0] < 0
    starts = starts_of(ends)
    rings: Array = numpy.nonzero(runs_clockwise != are_holes)[0]
    for ring in rings.tolist():
        part = slice(starts[ring], ends[ring])
        places[part] = places[part][::-1].copy()
