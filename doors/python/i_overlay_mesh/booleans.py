"""Booleans of regions, and how often zones cover the plane."""

from __future__ import annotations

import itertools
import json
from array import array
from collections.abc import Mapping
from dataclasses import dataclass
from fractions import Fraction
from typing import Any, Optional, Sequence

from .arrays import Lists, Told, combined, end_to_end, lists_of, nothing, split
from .engine import Limit, Task, Wishes, finest_grid, fits, grid_by, left_out, read_wishes, safe_scale, settled, told
from .errors import DrawingError, GridRangeError, TooManySplits
from .exact import Number, plain, read_number
from .grid import MOST, Grid
from .library import Outcome, reply
from .paths import Paths, box_round
from .reading import inside, is_geometry, read
from .rings import RULES
from .shapes import Shapes
from .styles import FILL_KINDS, BooleanStructure, JoinStyle, boolean_structure, choose, outline_style

FILLS = tuple(FILL_KINDS)

MOST_LEAST = 2**32 - 1
"""The library is asked for no more zones."""


def union(
    *operands: Any,
    fill: str = "positive",
    rings: Optional[str] = None,
    scale: Optional[Number] = None,
    origin: Optional[Sequence[Number]] = None,
    most_splits: Optional[int] = None,
    sliver_width: Optional[Number] = None,
) -> Shapes:
    """The points of one of some regions, or of several: `a | b` of two answers.

    Args:
        operands: each an answer of this package; or polygons in any form that `outline` takes.
        fill: which points the rings of polygons fill, by how often these wind round them: 'positive' (the default; a
            boundary counts 1 and a hole -1), 'non_zero', 'even_odd' or 'negative'. Overlapping polygons of one operand
            are united. Answers are taken as they are.
        rings: which rings of polygons are holes, as for `outline`.
        scale, origin: of the grid, as for `outline`. If an operand is an answer, all is combined on its grid; answers
            are not rounded again, and have to be of one grid.
        most_splits: a limit on splits, 0 for none. If it is given, the answer has an error bound, `nearness`: it is
            right at every point farther than this from all edges of the operands on the grid.
        sliver_width: as for `outline`.

    Returns:
        The polygons, with the scale and origin of their grid. Where regions only touch, they have nothing in common.

    Raises:
        DrawingError: an operand or an argument is invalid, or answers are of unequal grids. GridRangeError: an operand
            leaves the range of the grid. TooManySplits: it takes more splits than `most_splits`.
        MemoryError: an allocation failed.
    """
    how = read_combining(fill, rings, read_wishes(scale, origin, most_splits, sliver_width))
    return united(Regions.of("operand", operands, how))


def intersection(
    a: Any,
    b: Any,
    *,
    fill: str = "positive",
    rings: Optional[str] = None,
    scale: Optional[Number] = None,
    origin: Optional[Sequence[Number]] = None,
    most_splits: Optional[int] = None,
    sliver_width: Optional[Number] = None,
) -> Shapes:
    """The points that two regions have in common: `a & b` of two answers. Touching is nothing in common.

    Args, Returns, Raises: as `union`.
    """
    how = read_combining(fill, rings, read_wishes(scale, origin, most_splits, sliver_width))
    return of_both("intersect", Regions.of("operand", (a, b), how))


def difference(
    a: Any,
    b: Any,
    *,
    fill: str = "positive",
    rings: Optional[str] = None,
    scale: Optional[Number] = None,
    origin: Optional[Sequence[Number]] = None,
    most_splits: Optional[int] = None,
    sliver_width: Optional[Number] = None,
) -> Shapes:
    """The points of the first region that are not in the second: `a - b` of two answers.

    Args, Returns, Raises: as `union`.
    """
    how = read_combining(fill, rings, read_wishes(scale, origin, most_splits, sliver_width))
    return of_both("difference", Regions.of("operand", (a, b), how))


def symmetric_difference(
    a: Any,
    b: Any,
    *,
    fill: str = "positive",
    rings: Optional[str] = None,
    scale: Optional[Number] = None,
    origin: Optional[Sequence[Number]] = None,
    most_splits: Optional[int] = None,
    sliver_width: Optional[Number] = None,
) -> Shapes:
    """The points of exactly one of two regions: `a ^ b` of two answers.

    Args, Returns, Raises: as `union`.
    """
    how = read_combining(fill, rings, read_wishes(scale, origin, most_splits, sliver_width))
    return of_both("xor", Regions.of("operand", (a, b), how))


def coverage(
    zones: Sequence[Any],
    least: int,
    *,
    fill: str = "positive",
    rings: Optional[str] = None,
    scale: Optional[Number] = None,
    origin: Optional[Sequence[Number]] = None,
    most_splits: Optional[int] = None,
    sliver_width: Optional[Number] = None,
) -> Shapes:
    """The points that at least so many of some zones hold.

    Args:
        zones: a list of regions, each as for `union`.
        least: how many, from 1 on; with 1 it is the union of all.
        fill, rings, scale, origin, sliver_width: as for `union`.
        most_splits: a limit on splits; the answer has no error bound.

    Returns, Raises: as `union`.
    """
    count = read_least(least)
    how = read_combining(fill, rings, read_wishes(scale, origin, most_splits, sliver_width))
    regions = Regions.of("zone", zones_in(zones), how)
    answer = regions.asked({"op": "coverage", "least": count})
    return regions.answer(told_in(answer["shapes"]), None)


def overlaps(
    zones: Sequence[Any],
    *,
    fill: str = "positive",
    rings: Optional[str] = None,
    scale: Optional[Number] = None,
    origin: Optional[Sequence[Number]] = None,
    most_splits: Optional[int] = None,
    sliver_width: Optional[Number] = None,
) -> list[tuple[int, int, Shapes]]:
    """Which pairs of zones overlap, and where. Zones that only touch do not overlap.

    Args:
        zones: a list of regions, each as for `union`.
        fill, rings, scale, origin, sliver_width: as for `union`. A pair that has only slivers in common is not listed.
        most_splits: a limit on splits of all pairs together; answers have no error bound.

    Returns:
        For each pair that overlaps the indices of both, the lesser first, and what they have in common, in order.

    Raises: as `union`.
    """
    how = read_combining(fill, rings, read_wishes(scale, origin, most_splits, sliver_width))
    regions = Regions.of("zone", zones_in(zones), how)
    found = [
        (first, second, regions.answer(told_in(shapes), None))
        for first, second, shapes in regions.asked({"op": "overlaps"})["overlaps"]
    ]
    return [pair for pair in found if pair[2]]


# What is combined


@dataclass(frozen=True)
class Combining:
    """How regions are combined.

    fill: which points rings of polygons fill.
    rule: which rings are holes.
    """

    fill: str
    rule: Optional[str]
    wishes: Wishes


def read_least(least: Any) -> int:
    """How many zones have to hold a point."""
    number = read_number("", "least", least)
    if number != int(number) or not 1 <= number <= MOST_LEAST:
        raise DrawingError("", f"least is {least}, and has to be a whole number from 1 to {MOST_LEAST}")
    return int(number)


def read_combining(fill: Any, rings: Any, wishes: Wishes) -> Combining:
    """How regions are combined, of the words of a call."""
    if rings is not None:
        choose("rings", rings, RULES)
    return Combining(choose("fill", fill, FILLS), rings, wishes)


@dataclass(frozen=True)
class Region:
    """An operand: an answer, or rings of polygons.

    where: the operand in words.
    """

    where: str
    answer: Optional[Shapes]
    paths: Optional[Paths]

    @classmethod
    def of(cls, where: str, value: Any) -> Region:
        """The region that a value is."""
        if isinstance(value, Shapes):
            return cls(where, value, None)
        try:
            drawing = read(value, as_polygons=True)
        except DrawingError as error:
            raise type(error)(inside(where, error.where) if error.where else where, error.rule) from None
        for part in (drawing.lines, drawing.points):
            first = part.first()
            if first is not None:
                raise DrawingError(inside(where, first), "it is no polygon, and only polygons are combined")
        return cls(where, None, drawing.polygons)

    @property
    def is_whole(self) -> bool:
        """Whether all coordinates were given as ints."""
        if self.answer is not None:
            return self.answer._is_whole
        return self.paths is None or self.paths.are_whole()

    def lists(self, grid: Grid, how: Combining) -> Lists:
        """The contours on the grid."""
        if self.answer is not None:
            shapes = self.answer._told
            return lists_of(shapes.points, shapes.contour_ends, 2)
        assert self.paths is not None
        return self.paths.contours(grid, how.rule)

    def fill(self, how: Combining) -> str:
        """Which points its contours fill."""
        return how.fill if self.answer is None else "positive"

    def shapes(self, grid: Grid, how: Combining, limit: Optional[Limit]) -> Told:
        """The region resolved alone."""
        if self.answer is not None:
            return self.answer._told
        return ask("subject", (self.fill(how), "positive"), self.lists(grid, how), lists_of_nothing(), limit)


@dataclass(frozen=True)
class Regions:
    """Operands on one grid."""

    all: Sequence[Region]
    grid: Grid
    how: Combining

    @classmethod
    def of(cls, name: str, values: Sequence[Any], how: Combining) -> Regions:
        """The regions that values are, with the name of each."""
        regions = [Region.of(f"{name} {index}", value) for index, value in enumerate(values)]
        return cls(regions, grid_of(regions, how.wishes), how)

    def limit(self) -> Optional[Limit]:
        """The limit on splits, where one is given."""
        most_splits = self.how.wishes.most_splits
        return None if most_splits is None else Limit(most_splits)

    def answer(self, shapes: Told, limit: Optional[Limit]) -> Shapes:
        """What was found, as an answer."""
        if self.how.wishes.sliver_width is not None:
            shapes = left_out(shapes, self.how.wishes.sliver_width, self.grid)
        whole = all(region.is_whole for region in self.all) and self.grid.has_whole_coordinates
        return Shapes(shapes, self.grid, None if limit is None else limit.nearness, whole)

    def asked(self, words: dict[str, Any]) -> dict[str, Any]:
        """What the program answers to a request about the regions.

        A request has one fill for all zones. Where answers stand beside rings with another, these are resolved first.
        """
        fills = [region.fill(self.how) for region in self.all]
        fill = fills[0] if len(set(fills)) == 1 else "positive"
        zones = []
        for region, own in zip(self.all, fills):
            lists = region.lists(self.grid, self.how)
            if own != fill:
                shapes = region.shapes(self.grid, self.how, self.limit())
                lists = lists_of(shapes.points, shapes.contour_ends, 2)
            zones.append(contours_in(lists))
        request = {**words, "int": "i32", "out": "shapes", "fill": fill, "zones": zones}
        most_splits = self.how.wishes.most_splits
        outcome, line = reply(json.dumps(request, separators=(",", ":")).encode(), most_splits)
        if outcome is Outcome.TOO_MANY_SPLITS:
            raise TooManySplits("", f"it takes more splits than {most_splits}")
        answer: dict[str, Any] = told(outcome, json.loads(line))
        return answer


def zones_in(zones: Any) -> Sequence[Any]:
    """The zones of a list."""
    is_one = isinstance(zones, (Shapes, Mapping, str, bytes)) or is_geometry(zones)
    if is_one or not hasattr(zones, "__iter__"):
        raise DrawingError("", "zones is no list, and has to be one of regions")
    return list(zones)


def lists_of_nothing() -> Lists:
    """No contours."""
    return lists_of(array("i"), array("Q"), 2)


# The grid


def grid_of(regions: Sequence[Region], wishes: Wishes) -> Grid:
    """The grid on which regions are combined: that of answers where there are some."""
    answers = [region for region in regions if region.answer is not None]
    if answers:
        return grid_of_answers(answers, [region for region in regions if region.answer is None], wishes)
    paths = [region.paths for region in regions if region.paths is not None]
    boxes = [box for box in (part.box() for part in paths) if box is not None]
    box = box_round(boxes)
    if box is None:
        return Grid(wishes.scale or Fraction(1), wishes.origin or (Fraction(0), Fraction(0)))
    tasks = [plain_task(part) for part in paths if part.box() is not None]
    if wishes.scale is None:
        return finest_grid(tasks, wishes.origin, box)
    grid = grid_by(wishes.scale, wishes.origin, box)
    if not fits(tasks, grid, box):
        tell_far(regions, grid, f"the grid at this scale; {safe_scale(tasks, wishes.origin, box)}")
    return grid


def plain_task(paths: Paths) -> Task:
    """Paths that are moved by nothing, which tell the range of a grid."""
    return Task(paths, Fraction(0), lambda grid: outline_style(0, 0, JoinStyle("bevel")), paths.lists)


def grid_of_answers(answers: Sequence[Region], others: Sequence[Region], wishes: Wishes) -> Grid:
    """The one grid of some answers, in whose range the other regions have to be."""
    grids = [region.answer.grid for region in answers if region.answer is not None]
    grid = grids[0]
    for region, own in zip(answers, grids):
        if own != grid:
            raise DrawingError(
                region.where,
                f"its grid has {grid_in_words(own)}, and that of {answers[0].where} has {grid_in_words(grid)}: draw"
                " both with one scale and one origin",
            )
    if wishes.scale not in (None, grid.scale) or wishes.origin not in (None, grid.origin):
        raise DrawingError("", f"answers are combined on their own grid, which has {grid_in_words(grid)}")
    tell_far(others, grid, "the answer's grid; an answer that was drawn at a smaller scale does")
    return grid


def tell_far(regions: Sequence[Region], grid: Grid, remedy: str) -> None:
    """Says which point of regions leaves the range of a grid, if one does."""
    for region in regions:
        far = None if region.paths is None else region.paths.farthest(grid, MOST)
        if far is not None:
            raise GridRangeError(
                inside(region.where, far.where),
                f"{far.name} is {far.coordinate}, which lies at {far.place}, and may lie up to {MOST} in size on"
                f" {remedy}",
            )


def grid_in_words(grid: Grid) -> str:
    """The scale and the origin of a grid."""
    x, y = grid.origin
    return f"scale {plain(grid.scale)} and origin ({plain(x)}, {plain(y)})"


# Combining


def ask(rule: str, fills: tuple[str, str], subject: Lists, clip: Lists, limit: Optional[Limit]) -> Told:
    """The shapes of a boolean on the grid, which has a limit or none."""
    boolean: BooleanStructure = boolean_structure(rule, *fills)
    return settled(combined(boolean, subject, clip, None if limit is None else limit.most_splits), limit)


def of_both(rule: str, regions: Regions) -> Shapes:
    """What a boolean keeps of two regions."""
    limit, how, grid = regions.limit(), regions.how, regions.grid
    first, second = regions.all
    fills = first.fill(how), second.fill(how)
    shapes = ask(rule, fills, first.lists(grid, how), second.lists(grid, how), limit)
    return regions.answer(shapes, limit)


def united(regions: Regions) -> Shapes:
    """The union of regions: each resolved alone, and then all together."""
    limit, how = regions.limit(), regions.how
    parts = [region.shapes(regions.grid, how, limit) for region in regions.all]
    if not parts:
        return regions.answer(nothing(), limit)
    if len(parts) == 1 and regions.all[0].answer is None:
        return regions.answer(parts[0], limit)
    contours, _ = end_to_end(parts)
    last = limit and Limit(limit.most_splits)
    shapes = ask("subject", ("positive", "positive"), contours, lists_of_nothing(), last)
    if limit and last:
        limit.nearness += last.nearness
    return regions.answer(shapes, limit)


# Shapes as JSON has them


def contours_in(lists: Lists) -> list[list[list[int]]]:
    """The contours of lists."""
    numbers, ends = (memoryview(part).cast("B") for part in lists.kept)
    places = numbers.cast("i").tolist()
    return split([list(place) for place in zip(places[::2], places[1::2])], ends.cast("Q").tolist())


def told_in(shapes: list[list[list[list[int]]]]) -> Told:
    """Shapes as the library tells them in arrays."""
    contours = list(itertools.chain.from_iterable(shapes))
    points = array("i", itertools.chain.from_iterable(itertools.chain.from_iterable(contours)))
    contour_ends = array("Q", itertools.accumulate(map(len, contours)))
    return Told(points, contour_ends, array("Q", itertools.accumulate(map(len, shapes))))
