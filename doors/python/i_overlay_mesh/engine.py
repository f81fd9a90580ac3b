"""Draws on a grid: finds it, asks the library, and tells what went wrong in words of the drawing."""

from __future__ import annotations

from array import array
from dataclasses import dataclass
from fractions import Fraction
from typing import Any, Callable, NoReturn, Optional, Sequence, TypeVar

from .arrays import Lists, Source, Told, drawn, left, lists_in, lists_of, nothing, reach
from .errors import DrawingError, GridRangeError, TooManySplits
from .exact import nearest_whole, plain, read_most_splits, read_number
from .grid import MOST, Grid, Place, first_exponent, power_of_two
from .library import Outcome
from .paths import Box, Paths, box_round
from .shapes import Shapes
from .styles import JoinStyle, Style, outline_style

# On the grid no contour is as wide, so each is a sliver of this width.
MOST_SLIVER_WIDTH = 2**32 - 1

Value = TypeVar("Value")


class OutOfRange(Exception):
    """The library refused a drawing for its range."""


class Limit:
    """A limit on the splits of each call of a drawing, 0 for none, and the greatest nearness that one of them told.

    Where the answers of several tasks are joined, that is one more step, and the nearness of both steps add up.
    """

    def __init__(self, most_splits: int) -> None:
        self.most_splits = most_splits
        self.nearness = 0

    def tell(self, nearness: int) -> None:
        """Notes the nearness of an answer beside others, in 64ths of a grid unit."""
        self.nearness = max(self.nearness, nearness)


@dataclass(frozen=True)
class Wishes:
    """What is asked for besides what is drawn.

    scale, origin: of the grid, where they are given.
    most_splits: a limit on splits, 0 for none, where the nearness is asked for.
    sliver_width: how wide slivers are that are left out, in units of the drawing.
    """

    scale: Optional[Fraction]
    origin: Optional[tuple[Fraction, Fraction]]
    most_splits: Optional[int]
    sliver_width: Optional[Fraction]


@dataclass(frozen=True)
class Kept:
    """Paths to which a distance is kept: their places on a grid, and whether all are closed."""

    placed: Callable[[Grid], Lists]
    closed: bool


@dataclass(frozen=True)
class Task:
    """One call of the library, but for the grid.

    paths: what is drawn.
    reach: a length that all is moved by at least, for a first guess at the scale.
    style: how it is drawn on a grid; none where a length does not fit.
    placed: the paths on a grid.
    widest: of vertices with widths the greatest width on a grid, by which alone the range is asked for; else none.
    kept: to what a distance is kept where one is; none where it cannot be.
    """

    paths: Paths
    reach: Fraction
    style: Callable[[Grid], Optional[Style]]
    placed: Callable[[Grid], Lists]
    widest: Optional[Callable[[Grid], int]] = None
    kept: Optional[Kept] = None

    def source(self, grid: Grid) -> Source:
        """What is drawn on the grid."""
        style = self.style(grid)
        if style is None:
            raise OutOfRange
        return Source(style, self.placed(grid), grid.moved(self.paths.are_whole()))

    def room(self, grid: Grid) -> int:
        """The greatest coordinate that the library lets a point have; below 0 where there is none.

        Each point, moved by the padding, has to stay below 2^30, and the library tells the padding.
        """
        style, width = self.style(grid), self.widest(grid) if self.widest else None
        if style is None or (width is not None and width > 2 * MOST):
            return -1
        vertices = [[[0, 0]]] if width is None else [[[0, 0, width]]]
        outcome, padding = reach(style, lists_in(vertices, 2 if width is None else 3))
        return told(outcome, MOST - padding if outcome in (Outcome.ANSWERED, Outcome.OUT_OF_RANGE) else 0)

    def allows(self, grid: Grid, low: Place, high: Place) -> bool:
        """Whether points stay in range from one corner of a box to the other."""
        return max(abs(place) for place in (*low, *high)) <= self.room(grid)


def told(outcome: Outcome, value: Value) -> Value:
    """A value where the library told one."""
    if outcome is Outcome.OUT_OF_MEMORY:
        raise MemoryError("the library ran out of memory")
    if outcome in (Outcome.ANSWERED, Outcome.OUT_OF_RANGE):
        return value
    raise RuntimeError(f"the library cannot read what this package made: {outcome.name}")


def ask(style: Style, lists: Lists, limit: Optional[Limit]) -> Told:
    """The shapes of a drawing, which has a limit or none."""
    return settled(drawn(style, lists, None if limit is None else limit.most_splits), limit)


def settled(ended: tuple[Outcome, Told, int], limit: Optional[Limit]) -> Told:
    """The shapes that a call told, whose nearness is noted at a limit."""
    outcome, shapes, nearness = ended
    if outcome is Outcome.OUT_OF_RANGE:
        raise OutOfRange
    if outcome is Outcome.TOO_MANY_SPLITS:
        raise TooManySplits("", f"it takes more splits than {limit.most_splits if limit else 0}")
    told(outcome, shapes)
    if limit is not None:
        limit.tell(nearness)
    return shapes


def union(parts: Sequence[Told], limit: Optional[Limit]) -> Told:
    """The shapes of all parts together: their contours, moved by nothing."""
    points, ends = array("i"), array("Q")
    for part in parts:
        before = len(points) // 2
        points += part.points
        ends.extend(before + end for end in part.contour_ends)
    style = outline_style(0, 0, JoinStyle("bevel"))
    assert style is not None
    last = limit and Limit(limit.most_splits)
    shapes = ask(style, lists_of(points, ends, 2), last)
    if limit and last:
        limit.nearness += last.nearness
    return shapes


def left_out(shapes: Told, sliver_width: Fraction, grid: Grid) -> Told:
    """The shapes on a grid without slivers, whose width on it is cut, so that nothing goes that is wider."""
    width = min(MOST_SLIVER_WIDTH, int(sliver_width * grid.scale))
    if width == 0:
        raise DrawingError(
            "",
            f"sliver_width is {plain(sliver_width)}, and has to be at least 1 grid unit: at the scale"
            f" {plain(grid.scale)} that is {plain(1 / grid.scale)}",
        )
    outcome, kept = left(shapes, width)
    return told(outcome, kept)


# The grid


def grid_by(scale: Fraction, origin: Optional[tuple[Fraction, Fraction]], box: Box) -> Grid:
    """A grid of a scale, round the middle of a box where no origin is given."""
    if origin is None:
        x, y = ((Fraction(low) + Fraction(high)) / 2 for low, high in zip(box.low, box.high))
        origin = nearest_whole(x * scale) / scale, nearest_whole(y * scale) / scale
    return Grid(scale, origin)


def fits(tasks: Sequence[Task], grid: Grid, box: Box) -> bool:
    """Whether all is in range on a grid."""
    low, high = grid.place(box.low), grid.place(box.high)
    return max(abs(place) for place in (*low, *high)) <= MOST and all(task.allows(grid, low, high) for task in tasks)


def finest_grid(tasks: Sequence[Task], origin: Optional[tuple[Fraction, Fraction]], box: Box) -> Grid:
    """The grid of the greatest power of two by which all is in range."""
    ends = [(Fraction(low), Fraction(high)) for low, high in zip(box.low, box.high)]
    if origin is None:
        half = max((high - low) / 2 for low, high in ends)
    else:
        half = max(abs(end - start) for pair, start in zip(ends, origin) for end in pair)
    length = half + max(task.reach for task in tasks)
    grid = grid_by(power_of_two(first_exponent(length)) if length else Fraction(1), origin, box)
    while length and not fits(tasks, grid, box):
        grid = grid_by(grid.scale / 2, origin, box)
    return grid


# What is asked for


def read_scale(scale: Any) -> Optional[Fraction]:
    """A scale, if one is given."""
    if scale is None:
        return None
    number = read_number("", "scale", scale)
    if number <= 0:
        raise DrawingError("", f"scale is {scale}, and has to be above 0")
    return Fraction(number)


def read_origin(origin: Any) -> Optional[tuple[Fraction, Fraction]]:
    """An origin, if one is given."""
    if origin is None:
        return None
    try:
        x, y = origin
    except (TypeError, ValueError):
        raise DrawingError("", f"origin is {origin!r}, and has to be a point (x, y)") from None
    return Fraction(read_number("", "the origin's x", x)), Fraction(read_number("", "the origin's y", y))


def read_sliver_width(width: Any) -> Optional[Fraction]:
    """The width of slivers that are left out, if one is given."""
    if width is None:
        return None
    number = read_number("", "sliver_width", width)
    if number <= 0:
        raise DrawingError("", f"sliver_width is {width}, and has to be above 0")
    return Fraction(number)


def read_wishes(scale: Any, origin: Any, most_splits: Any, sliver_width: Any) -> Wishes:
    """What is asked for besides what is drawn."""
    return Wishes(
        read_scale(scale), read_origin(origin), read_most_splits(most_splits), read_sliver_width(sliver_width)
    )


# Drawing


def draw(tasks: Sequence[Task], wishes: Wishes) -> Shapes:
    """The shapes of all tasks together, on one grid, and their nearness where a limit on splits is given."""
    boxes = [(task, task.paths.box()) for task in tasks]
    tasks = [task for task, own in boxes if own is not None]
    box = box_round([own for _, own in boxes if own is not None])
    if box is None:
        start = wishes.origin or (Fraction(0), Fraction(0))
        nearness = None if wishes.most_splits is None else 0
        return Shapes(nothing(), Grid(wishes.scale or Fraction(1), start), nearness, sources=())
    if wishes.scale is not None:
        grid = grid_by(wishes.scale, wishes.origin, box)
        if not fits(tasks, grid, box):
            tell_range(tasks, grid, wishes.origin, box)
        try:
            return drawn_on(tasks, grid, wishes)
        except OutOfRange:
            tell_range(tasks, grid, wishes.origin, box)
    grid = finest_grid(tasks, wishes.origin, box)
    while True:
        try:
            return drawn_on(tasks, grid, wishes)
        except OutOfRange:
            # The area of a ring is out of range, which the box does not tell.
            grid = grid_by(grid.scale / 2, wishes.origin, box)


def drawn_on(tasks: Sequence[Task], grid: Grid, wishes: Wishes) -> Shapes:
    """The answer on a grid."""
    limit = None if wishes.most_splits is None else Limit(wishes.most_splits)
    sources = [task.source(grid) for task in tasks]
    parts = [ask(source.style, source.lists, limit) for source in sources]
    shapes = parts[0] if len(parts) == 1 else union(parts, limit)
    if wishes.sliver_width is not None:
        shapes = left_out(shapes, wishes.sliver_width, grid)
    is_whole = all(source.moved == 0 for source in sources)
    return Shapes(shapes, grid, None if limit is None else limit.nearness, is_whole, sources)


# What is out of range


def tell_range(tasks: Sequence[Task], grid: Grid, origin: Any, box: Box) -> NoReturn:
    """Says which point is out of range, or which ring has too great an area."""
    most = min(min(MOST, task.room(grid)) for task in tasks)
    remedy = safe_scale(tasks, origin, box)
    if most < 0:
        raise GridRangeError("", f"what is drawn at a single point is wider than the grid at this scale; {remedy}")
    for task in tasks:
        far = task.paths.farthest(grid, most)
        if far is not None:
            raise GridRangeError(
                far.where,
                f"{far.name} is {far.coordinate}, which lies at {far.place} on the grid, and may be drawn"
                f" up to {most} in size at this scale; {remedy}",
            )
    for task in tasks:
        where = task.paths.widest(grid)
        if where is not None:
            raise GridRangeError(where, "its double area passes 2^63 - 1 on the grid; a smaller scale does")
    raise GridRangeError("", "the area of what was drawn passes the grid's range; a smaller scale does")


def safe_scale(tasks: Sequence[Task], origin: Optional[tuple[Fraction, Fraction]], box: Box) -> str:
    """Which scale would be safe, in words."""
    try:
        scale = finest_grid(tasks, origin, box).scale
    except DrawingError as error:
        return f"no scale does, as with less {error}"
    return f"the greatest power of two that is safe is {plain(scale)}"
