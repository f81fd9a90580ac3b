"""Answers."""

from __future__ import annotations

import math
import sys
from array import array
from fractions import Fraction
from functools import cached_property
from typing import Any, Optional, Sequence

from .arrays import Source, Told, split
from .exact import Number, plain
from .grid import Grid
from .library import is_proved

Points = list[list[Number]]
PICTURE_WIDTH = 400
"""Of a picture in a notebook, in pixels."""


class Shapes:
    """The polygons of an answer, in the units of the input. Answers can be compared and pickled.

    Answers of one grid are combined by `a | b`, `a & b`, `a - b` and `a ^ b`, as `union`, `intersection`, `difference`
    and `symmetric_difference` do, and nothing is rounded onto the grid again. Unequal grids raise a `DrawingError`.

    grid: the scale and origin of the grid, as exact fractions.
    nearness_on_grid: the error bound in 64ths of a grid unit; None without `most_splits`.
    """

    grid: Grid
    nearness_on_grid: Optional[int]

    def __init__(
        self,
        told: Told,
        grid: Grid,
        nearness: Optional[int] = None,
        is_whole: bool = False,
        sources: Optional[Sequence[Source]] = None,
    ) -> None:
        self._told = told
        self._is_whole = is_whole
        self._sources = sources
        self._polygons: Optional[list[list[Points]]] = None
        self.grid = grid
        self.nearness_on_grid = nearness

    @property
    def polygons(self) -> list[list[Points]]:
        """Polygons as lists of rings: first the outer boundary, counterclockwise, then the holes, clockwise.

        A ring is a list of points [x, y] that does not repeat its first point, but may pass through a point twice.
        Coordinates are ints if all coordinates of the input were ints and you gave `scale=1`; else floats. The lists are
        made when they are first asked for; `arrays` makes none.
        """
        if self._polygons is None:
            numbers = self._told.points
            if "numpy" in sys.modules:
                points: Points = self.arrays()[0].tolist()
            else:
                points = self.grid.points([list(place) for place in zip(numbers[::2], numbers[1::2])], self._is_whole)
            self._polygons = split(split(points, self._told.contour_ends), self._told.shape_ends)
        return self._polygons

    def arrays(self) -> tuple[Any, Any, Any]:
        """The answer as three numpy arrays: points, ends of rings, ends of polygons. (Numpy has to be installed.)

        The points of all rings, one per row; a 0 and then, for each ring, the index after its last point; a 0 and then,
        for each polygon, the index after its last ring. Rings do not repeat their first points.
        """
        import numpy

        from .vectors import points_of

        places = numpy.frombuffer(self._told.points, numpy.int32).reshape(-1, 2)
        ends = (numpy.frombuffer(numbers, numpy.uint64) for numbers in (self._told.contour_ends, self._told.shape_ends))
        rings, polygons = (numpy.concatenate([numpy.zeros(1, numpy.int64), part.astype(numpy.int64)]) for part in ends)
        return points_of(places, self.grid, self._is_whole), rings, polygons

    @property
    def nearness(self) -> Optional[float]:
        """The error bound, in the units of the input; None without `most_splits`.

        At every point farther than this from the offset curve on the grid, the answer is exactly right. Distance is the
        greater of the differences in x and in y. 0 means that rounding moved nothing.
        """
        if self.nearness_on_grid is None:
            return None
        exact = Fraction(self.nearness_on_grid, 64) / self.grid.scale
        nearest = float(exact)
        return nearest if Fraction(nearest) >= exact else math.nextafter(nearest, math.inf)

    @cached_property
    def clearance(self) -> Optional[float]:
        """How near the edges come to the lines, rings and points that were drawn: `clearance_to` of these.

        It is None where the answer does not know them: of booleans and of `buffer_all`, and out of a pickle.
        """
        from .distances import clearance_of

        return None if self._sources is None else clearance_of(self.grid, self._told, self._sources)

    @cached_property
    def reach(self) -> Optional[float]:
        """How near to its lines a stroke holds all points for certain, in the unit of the input and rounded down.

        Every point that is nearer to a line than this is inside, as long as it is farther than the error bound,
        `nearness`, from each drawn edge, which runs round a section, a join or a cap. That is proved on the grid. Left
        out are slivers that were dropped, and points beyond an end with a butt cap. Lines of a single point are not
        drawn.

        0.0 means that nothing is told: the stroke has one side only, custom caps, a width of more than 2^29 grid units,
        a line that is a point on the grid, or a join that leaves no room, as a bevel does where a line turns back. None
        means that the answer is no stroke, or does not know its lines, as for `clearance`.
        """
        from .distances import reach_of

        return None if self._sources is None else reach_of(self.grid, self._sources)

    def clearance_to(self, paths: Any, closed: Optional[bool] = None) -> float:
        """How near the edges come to lines, in the unit of the input and rounded down; infinite where there are none.

        Where one vertex of each line is inside, so is every point that is nearer to one than this; and where one is
        outside, so is every such point. Both are proved on the grid. What rounding lines onto it may take is taken off.

        Args:
            paths: a drawing of any kind: of polygons the rings count, and single points. Lists are lines; or rings and
                polygons where `closed` is True.
            closed: whether lines go on from their last point to their first; by default those do that are rings or end
                where they start.
        """
        from .distances import clearance_to

        return clearance_to(self.grid, self._told, paths, closed)

    @property
    def scale(self) -> Number:
        """Grid units for each unit of the input."""
        return plain(self.grid.scale)

    @property
    def origin(self) -> tuple[Number, Number]:
        """The point, in input units, that lies at (0, 0) on the grid."""
        x, y = self.grid.origin
        return plain(x), plain(y)

    @property
    def __geo_interface__(self) -> dict[str, Any]:
        return self.geojson()

    def geojson(self) -> dict[str, Any]:
        """A GeoJSON geometry: a Polygon if there is exactly one, else a MultiPolygon. Rings repeat their first point."""
        polygons = [[[*ring, ring[0]] for ring in polygon] for polygon in self.polygons]
        if len(polygons) == 1:
            return {"type": "Polygon", "coordinates": polygons[0]}
        return {"type": "MultiPolygon", "coordinates": polygons}

    def shapely(self) -> Any:
        """A Shapely Polygon if there is exactly one, else a MultiPolygon. (Shapely has to be installed.)

        A ring may pass through a point twice. Shapely calls that invalid; its `make_valid` or `buffer(0)` repairs it.
        """
        import shapely.geometry

        if hasattr(shapely, "linearrings"):
            import numpy

            from .geometries import polygons_of, together

            parts = list(self.arrays())
            polygons, rings = parts.pop()[1:], parts.pop()[1:]
            return together(polygons_of(parts.pop(), rings, polygons), numpy.array([len(self)]))[0]
        polygons = [shapely.geometry.Polygon(polygon[0], polygon[1:]) for polygon in self.polygons]
        return polygons[0] if len(polygons) == 1 else shapely.geometry.MultiPolygon(polygons)

    def _repr_svg_(self) -> str:
        """A picture, which notebooks show."""
        from .picture import picture_of

        return picture_of([self.geojson()], PICTURE_WIDTH)

    def __repr__(self) -> str:
        told, (x, y) = self._told, self.origin
        words = [
            f"polygons={len(told.shape_ends)}",
            f"rings={len(told.contour_ends)}",
            f"points={len(told.points) // 2}",
            f"scale={self.scale}",
            f"origin=({x}, {y})",
        ]
        if self.nearness_on_grid is not None:
            words.append(f"nearness={self.nearness}")
        if not is_proved():
            words.append("built before its proof")
        return f"Shapes({', '.join(words)})"

    def _without_sources(self) -> Shapes:
        """The same without what it was drawn of, which takes memory where answers are many."""
        return Shapes(self._told, self.grid, self.nearness_on_grid, self._is_whole)

    def _parts(self) -> tuple[Any, ...]:
        """All that an answer is."""
        told = self._told
        return told.points, told.contour_ends, told.shape_ends, self.grid, self.nearness_on_grid, self._is_whole

    def __eq__(self, other: object) -> bool:
        if not isinstance(other, Shapes):
            return NotImplemented
        return self._parts() == other._parts()

    __hash__ = None  # type: ignore[assignment]

    def __reduce__(self) -> tuple[Any, ...]:
        points, contour_ends, shape_ends, grid, nearness, is_whole = self._parts()
        lists = (points.tobytes(), contour_ends.tobytes(), shape_ends.tobytes())
        return unpickled, (lists, (grid.scale, grid.origin), nearness, is_whole)

    def __or__(self, other: object) -> Shapes:
        if not isinstance(other, Shapes):
            return NotImplemented
        from .booleans import union

        return union(self, other)

    def __and__(self, other: object) -> Shapes:
        if not isinstance(other, Shapes):
            return NotImplemented
        from .booleans import intersection

        return intersection(self, other)

    def __sub__(self, other: object) -> Shapes:
        if not isinstance(other, Shapes):
            return NotImplemented
        from .booleans import difference

        return difference(self, other)

    def __xor__(self, other: object) -> Shapes:
        if not isinstance(other, Shapes):
            return NotImplemented
        from .booleans import symmetric_difference

        return symmetric_difference(self, other)

    def __bool__(self) -> bool:
        return len(self) > 0

    def __len__(self) -> int:
        return len(self._told.shape_ends)


def unpickled(lists: Sequence[bytes], grid: tuple[Any, Any], nearness: Optional[int], is_whole: bool) -> Shapes:
    """An answer out of what its pickle has."""
    points, contour_ends, shape_ends = (array(kind, numbers) for kind, numbers in zip("iQQ", lists))
    return Shapes(Told(points, contour_ends, shape_ends), Grid(*grid), nearness, is_whole)
