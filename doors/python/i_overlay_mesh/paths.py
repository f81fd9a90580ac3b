"""Paths of a drawing, exactly as they were given, and how they are brought onto a grid."""

from __future__ import annotations

from abc import ABC, abstractmethod
from dataclasses import dataclass, replace
from fractions import Fraction
from typing import NamedTuple, Optional, Sequence

from .arrays import Lists, lists_in
from .exact import Number
from .grid import Grid
from .rings import double_area, with_senses
from .styles import Arcs

MOST_AREA = 2**63 - 1

Vertex = tuple[Number, ...]


class Box(NamedTuple):
    """The least and the greatest coordinates of all points."""

    low: tuple[Number, Number]
    high: tuple[Number, Number]


class Far(NamedTuple):
    """A coordinate that lies too far out on a grid, and where it stands in the drawing."""

    where: str
    name: str
    coordinate: Number
    place: int


def box_round(boxes: Sequence[Box]) -> Optional[Box]:
    """The box round some; none round none."""
    if not boxes:
        return None
    low = min(box.low[0] for box in boxes), min(box.low[1] for box in boxes)
    return Box(low, (max(box.high[0] for box in boxes), max(box.high[1] for box in boxes)))


class Paths(ABC):
    """Paths of one kind: rings of polygons, lines, or single points. Vertices may have a width as well."""

    @abstractmethod
    def first(self) -> Optional[str]:
        """Where the first of them stands; none where there is none."""

    @abstractmethod
    def box(self) -> Optional[Box]:
        """The box of all points; none where there is no point."""

    @abstractmethod
    def are_whole(self) -> bool:
        """Whether all coordinates were given as ints."""

    @abstractmethod
    def greatest_width(self) -> Fraction:
        """The greatest width of a vertex, and no less than 0."""

    @abstractmethod
    def lists(self, grid: Grid) -> Lists:
        """The places of all points."""

    @abstractmethod
    def wide_lists(self, grid: Grid, arcs: Arcs) -> Lists:
        """The places of all vertices, with their widths."""

    @abstractmethod
    def contours(self, grid: Grid, rule: Optional[str]) -> Lists:
        """The places of rings of polygons, boundaries counterclockwise and holes clockwise by a rule."""

    @abstractmethod
    def of_kind(self, closed: bool, choice: Optional[bool]) -> Optional[Paths]:
        """Those that are closed, or those that are not, by a choice if there is one; none where there is none."""

    @abstractmethod
    def with_width(self, width: Fraction) -> Paths:
        """The same with a width at each vertex."""

    @abstractmethod
    def listed(self) -> ListedPaths:
        """The same as lists."""

    @abstractmethod
    def farthest(self, grid: Grid, most: int) -> Optional[Far]:
        """The first coordinate whose place is greater in size than the most, if one is."""

    @abstractmethod
    def widest(self, grid: Grid) -> Optional[str]:
        """Where a ring stands whose area is out of range on the grid, if there is one."""


@dataclass(frozen=True)
class Path:
    """Points, and where they stand in the drawing."""

    where: str
    points: list[Vertex]
    is_ring: bool = False

    @property
    def is_closed(self) -> bool:
        """Whether it is a ring or ends where it starts."""
        return self.is_ring or (len(self.points) > 2 and self.points[0] == self.points[-1])


@dataclass(frozen=True)
class ListedPaths(Paths):
    """Paths as lists of numbers of any kind.

    paths: all of them.
    polygons: of rings, for each polygon how many rings it has, and whether the first bounds it and the others are holes.
    """

    paths: Sequence[Path]
    polygons: Sequence[tuple[int, bool]] = ()

    def first(self) -> Optional[str]:
        return self.paths[0].where if self.paths else None

    def box(self) -> Optional[Box]:
        points = [point for path in self.paths for point in path.points]
        if not points:
            return None
        xs, ys = (tuple(column) for column in zip(*(point[:2] for point in points)))
        return Box((min(xs), min(ys)), (max(xs), max(ys)))

    def are_whole(self) -> bool:
        return all(type(x) is int and type(y) is int for path in self.paths for x, y, *_ in path.points)

    def greatest_width(self) -> Fraction:
        return max((Fraction(width) for path in self.paths for _, _, width in path.points), default=Fraction(0))

    def places(self, grid: Grid) -> list[list[list[int]]]:
        """The places of each path."""
        return [[grid.place(point) for point in path.points] for path in self.paths]

    def lists(self, grid: Grid) -> Lists:
        return lists_in(self.places(grid), 2)

    def wide_lists(self, grid: Grid, arcs: Arcs) -> Lists:
        return lists_in(
            [[[*grid.place(point), arcs.width(grid, point[2])] for point in path.points] for path in self.paths], 3
        )

    def contours(self, grid: Grid, rule: Optional[str]) -> Lists:
        rings, contours, start = self.places(grid), [], 0
        for count, first_bounds in self.polygons:
            own = rings[start : start + count]
            contours += with_senses(own, rule or ("first" if first_bounds else "nested"))
            start += count
        return lists_in(contours, 2)

    def of_kind(self, closed: bool, choice: Optional[bool]) -> Optional[Paths]:
        paths = [path for path in self.paths if (path.is_closed if choice is None else choice) == closed]
        return ListedPaths(paths) if paths else None

    def with_width(self, width: Fraction) -> Paths:
        return ListedPaths(
            [replace(path, points=[(*point[:2], width) for point in path.points]) for path in self.paths]
        )

    def listed(self) -> ListedPaths:
        return self

    def farthest(self, grid: Grid, most: int) -> Optional[Far]:
        for path in self.paths:
            for index, point in enumerate(path.points):
                for name, coordinate, place in zip("xy", point, grid.place(point)):
                    if abs(place) > most:
                        return Far(f"{path.where}, point {index}", name, coordinate, place)
        return None

    def widest(self, grid: Grid) -> Optional[str]:
        for path, places in zip(self.paths, self.places(grid)):
            if abs(double_area(places)) > MOST_AREA:
                return path.where
        return None


def no_paths() -> Paths:
    """No paths at all."""
    return ListedPaths([])
