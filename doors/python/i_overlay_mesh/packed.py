"""Paths of a drawing in arrays of numpy: no vertex of them becomes an object of Python."""

from __future__ import annotations

from dataclasses import dataclass, replace
from fractions import Fraction
from typing import Any, Callable, Optional, Sequence

import numpy

from .arrays import Lists
from .errors import DrawingError
from .exact import Number
from .grid import Grid
from .paths import MOST_AREA, Box, Far, ListedPaths, Path, Paths
from .rings import with_senses
from .styles import Arcs
from .vectors import EXACT, Array, double_areas, fill_places, places_of, starts_of, turn

Names = Callable[[int], str]
"""Where a path stands, by its number."""


def is_plain(values: Any) -> bool:
    """Whether an array has floats or whole numbers that are floats exactly."""
    if not isinstance(values, numpy.ndarray) or values.dtype.kind not in "iuf" or values.dtype.itemsize > 8:
        return False
    if values.dtype.kind == "f" or values.dtype.itemsize < 8 or values.size == 0:
        return True
    return -EXACT <= int(values.min()) and int(values.max()) <= EXACT


def lists_in_arrays(places: Array, ends: Array) -> Lists:
    """Places as the library reads them."""
    numbers = ends.astype(numpy.uint64)
    items = (places.ctypes.data, len(places))
    return Lists(items, (numbers.ctypes.data, len(numbers)), (places, numbers))


def plain_number(value: Any) -> Number:
    """A number of an array as Python has it."""
    number: Number = value.item()
    return number


@dataclass(frozen=True)
class PackedPaths(Paths):
    """Paths end to end.

    vertices: a column for x, one for y, and maybe one for widths.
    ends: for each path how many vertices stand in it and before it.
    where: where each path stands.
    are_rings: whether each is a ring.
    polygons: of rings, for each polygon how many rings stand in it and before it.
    first_bounds: whether the first ring of a polygon bounds it and the others are holes.
    """

    vertices: Array
    ends: Array
    where: Names
    are_rings: bool = False
    polygons: Optional[Array] = None
    first_bounds: bool = True

    def first(self) -> Optional[str]:
        return self.where(0) if len(self.ends) else None

    def box(self) -> Optional[Box]:
        if not len(self.vertices):
            return None
        x, y = self.vertices[:, 0], self.vertices[:, 1]
        low = plain_number(x.min()), plain_number(y.min())
        return Box(low, (plain_number(x.max()), plain_number(y.max())))

    def are_whole(self) -> bool:
        return bool(self.vertices.dtype.kind in "iu")

    def greatest_width(self) -> Fraction:
        if not len(self.vertices):
            return Fraction(0)
        return Fraction(plain_number(self.vertices[:, 2].max()))

    def places(self, grid: Grid) -> Array:
        """The places of all points."""
        places = numpy.empty((len(self.vertices), 2), numpy.int32)
        fill_places(self.vertices, grid, places)
        return places

    def lists(self, grid: Grid) -> Lists:
        return lists_in_arrays(self.places(grid), self.ends)

    def wide_lists(self, grid: Grid, arcs: Arcs) -> Lists:
        places = numpy.empty((len(self.vertices), 3), numpy.int32)
        fill_places(self.vertices, grid, places)
        widths = self.vertices[:, 2]
        if arcs.outside:
            kinds, at = numpy.unique(widths, return_inverse=True)
            sizes = [arcs.width(grid, width) for width in kinds.tolist()]
            places[:, 2] = numpy.array(sizes, numpy.int64)[at.reshape(-1)]
        elif len(widths):
            # No width passes the greatest, which the range was asked for, but those below 0 may be of any size.
            axis = replace(grid, origin=(Fraction(0), Fraction(0))).axes[0]
            places[:, 2] = places_of(numpy.maximum(widths, 0), axis)
        return lists_in_arrays(places, self.ends)

    def contours(self, grid: Grid, rule: Optional[str]) -> Lists:
        places = self.places(grid)
        rule = rule or ("first" if self.first_bounds else "nested")
        assert self.polygons is not None
        if rule == "nested" and len(self.ends) > len(self.polygons):
            return lists_in_arrays(self.nested(places), self.ends)
        if rule != "sense":
            are_holes = numpy.ones(len(self.ends), bool)
            are_holes[starts_of(self.polygons)[self.polygons > starts_of(self.polygons)]] = False
            turn(places, self.ends, are_holes)
        return lists_in_arrays(places, self.ends)

    def nested(self, places: Array) -> Array:
        """The places with rings turned by how many others hold them."""
        parts: list[Array] = []
        ends = self.ends.tolist()
        rings = [places[start:end] for start, end in zip([0, *ends], ends)]
        assert self.polygons is not None
        for start, end in zip([0, *self.polygons.tolist()], self.polygons.tolist()):
            own = [ring.tolist() for ring in rings[start:end]]
            parts += [numpy.array(ring, numpy.int32).reshape(-1, 2) for ring in with_senses(own, "nested")]
        return numpy.concatenate(parts)

    def are_closed(self) -> Array:
        """For each path whether it is a ring or ends where it starts."""
        if self.are_rings or not len(self.ends):
            return numpy.ones(len(self.ends), bool)
        starts = starts_of(self.ends)
        filled = self.ends - starts > 2
        closed = numpy.zeros(len(self.ends), bool)
        first, last = self.vertices[starts[filled]], self.vertices[self.ends[filled] - 1]
        closed[filled] = (first == last).all(axis=1)
        return closed

    def of_kind(self, closed: bool, choice: Optional[bool]) -> Optional[Paths]:
        kept = (self.are_closed() if choice is None else numpy.full(len(self.ends), choice)) == closed
        if not kept.any():
            return None
        if kept.all():
            return self
        sizes = self.ends - starts_of(self.ends)
        numbers = numpy.nonzero(kept)[0]
        vertices = self.vertices[numpy.repeat(kept, sizes)]
        return PackedPaths(vertices, numpy.cumsum(sizes[kept]), lambda number: self.where(int(numbers[number])), closed)

    def with_width(self, width: Fraction) -> Paths:
        if Fraction(float(width)) != width:
            return self.listed().with_width(width)
        column = numpy.full(len(self.vertices), float(width))
        return replace(self, vertices=numpy.column_stack([self.vertices[:, :2], column]))

    def listed(self) -> ListedPaths:
        points, ends = [tuple(point) for point in self.vertices.tolist()], self.ends.tolist()
        paths = [
            Path(self.where(number), points[start:end], self.are_rings)
            for number, (start, end) in enumerate(zip([0, *ends], ends))
        ]
        sizes: Array = numpy.diff(self.polygons, prepend=0) if self.polygons is not None else numpy.zeros(0, int)
        return ListedPaths(paths, [(count, self.first_bounds) for count in sizes.tolist()])

    def name_of(self, vertex: int) -> tuple[str, int]:
        """Where the path of a vertex stands, and the vertex's number in it."""
        number = int(numpy.searchsorted(self.ends, vertex, "right"))
        return self.where(number), vertex - int(starts_of(self.ends)[number])

    def farthest(self, grid: Grid, most: int) -> Optional[Far]:
        low, high = [], []
        for axis in grid.axes:
            # As floats the bounds are near, so what lies near them is looked at once more.
            edge = [
                float(((sign * most) * axis.part + axis.shift) * axis.down / (axis.part * axis.up)) for sign in (-1, 1)
            ]
            slack = 2.0**-45 * (abs(edge[0]) + abs(edge[1]))
            low.append(edge[0] + slack)
            high.append(edge[1] - slack)
        points = self.vertices[:, :2]
        rows: Array = numpy.nonzero(((points < low) | (points > high)).any(axis=1))[0]
        for vertex in rows.tolist():
            point = [plain_number(number) for number in points[vertex]]
            for name, coordinate, place in zip("xy", point, grid.place(point)):
                if abs(place) > most:
                    where, index = self.name_of(vertex)
                    return Far(f"{where}, point {index}", name, coordinate, place)
        return None

    def widest(self, grid: Grid) -> Optional[str]:
        high, low = double_areas(self.places(grid), self.ends)
        for number, (times, more) in enumerate(zip(high.tolist(), low.tolist())):
            if abs(times * 2**31 + more) > MOST_AREA:
                return self.where(number)
        return None


# Reading


def checked(vertices: Array, ends: Array, where: Names, names: Sequence[str]) -> Array:
    """The vertices with a column for each name, all of them finite."""
    kept = vertices[:, : len(names)]
    if kept.dtype.kind == "f":
        total = kept.sum(dtype=numpy.float64) if len(kept) else 0.0
        if not numpy.isfinite(total) and not numpy.isfinite(kept).all():
            at = int(numpy.argmin(numpy.isfinite(kept).all(axis=1)))
            number = int(numpy.searchsorted(ends, at, "right"))
            column = int(numpy.argmin(numpy.isfinite(kept[at])))
            place = f"{where(number)}, point {at - int(starts_of(ends)[number])}"
            raise DrawingError(place, f"{names[column]} is {kept[at, column].item()}, and has to be finite")
    return kept


def of_one_kind(path: Array) -> Array:
    """A path of whole numbers in 64 bits, so that several stay whole numbers together; any other as it is."""
    return path.astype(numpy.int64, copy=False) if path.dtype.kind in "iu" else path


def packed(arrays: Sequence[Array], where: Names, names: Sequence[str], **more: Any) -> PackedPaths:
    """Paths of arrays, one for each, whose rows have a number for each name and maybe a height."""
    for number, path in enumerate(arrays):
        if not len(names) <= path.shape[1] <= 3:
            place = f"{where(number)}, point 0"
            raise DrawingError(place, f"it has {path.shape[1]} numbers, and has to have {' and '.join(names)}")
    ends = numpy.cumsum(numpy.array([len(path) for path in arrays], numpy.int64))
    cut = [of_one_kind(path[:, : len(names)]) for path in arrays if len(path)]
    vertices = cut[0] if len(cut) == 1 else numpy.concatenate(cut) if cut else numpy.empty((0, len(names)))
    return PackedPaths(checked(vertices, ends, where, names), ends, where, **more)


def rings_of(
    polygons: Sequence[Sequence[Array]], first_bounds: bool, where: Optional[Sequence[str]] = None
) -> PackedPaths:
    """Rings of polygons, given by an array for each ring."""
    ends = numpy.cumsum(numpy.array([len(rings) for rings in polygons], numpy.int64))

    def name(number: int) -> str:
        polygon = int(numpy.searchsorted(ends, number, "right"))
        ring = number - int(starts_of(ends)[polygon])
        return f"{where[polygon] if where is not None else f'polygon {polygon}'}, ring {ring}"

    rings = [ring for polygon in polygons for ring in polygon]
    return packed(rings, name, ("x", "y"), are_rings=True, polygons=ends, first_bounds=first_bounds)
