"""Distances that are kept: how near answers come to lines, by calls of the library that are proved."""

from __future__ import annotations

import math
from array import array
from bisect import bisect_left
from ctypes import byref, c_uint64
from fractions import Fraction
from typing import Any, Callable, Iterator, Optional, Sequence

from .arrays import NUMBER, Lists, Source, Told, address_of, inner_reach, lists_of
from .engine import Kept, Task, Wishes, draw, told
from .errors import DrawingError, GridRangeError
from .exact import Number, plain
from .grid import MOST, Grid
from .library import Outcome, call_of
from .paths import Paths
from .reading import read
from .shapes import Shapes
from .styles import CAP_KINDS

NONE = 2**64 - 1
"""What the library tells where there is no edge or no path. In the grid's range no square is as great."""

FINE = 32
"""So many bits below a grid unit a root is told."""

MOST_MORE = 3
"""By so many grid units more something is drawn that comes nearer than it may."""


def square_to(shapes: Told, paths: Lists, closed: bool) -> int:
    """The square of the least distance on the grid, rounded down; `NONE` where there is no edge or no path."""
    lists = lists_of(shapes.points, shapes.contour_ends, 2)
    ends = (address_of(shapes.shape_ends), len(shapes.shape_ends))
    square = c_uint64()
    call = call_of("mesh_clearance")
    outcome = Outcome(call(*lists.words(), *ends, *paths.words(), int(closed), byref(square)))
    return told(outcome, square.value)


# How near an answer comes


def clearance_to(grid: Grid, shapes: Told, paths: Any, closed: Optional[bool]) -> float:
    """How near the edges of shapes come to paths, in the unit of the input and rounded down."""
    drawing = read(paths, as_polygons=closed is True)
    parts = [(drawing.points, True)]
    for part in (drawing.polygons, drawing.lines):
        for is_closed in (False, True):
            kept = part.of_kind(is_closed, closed)
            if kept is not None:
                parts.append((kept, is_closed))
    return min(distance_to(grid, shapes, part, is_closed) for part, is_closed in parts)


def distance_to(grid: Grid, shapes: Told, paths: Paths, closed: bool) -> float:
    """How near the edges of shapes come to paths that are all closed or all open."""
    far = paths.farthest(grid, MOST)
    if far is not None:
        raise GridRangeError(
            far.where,
            f"{far.name} is {far.coordinate}, which lies at {far.place} on the answer's grid, and may lie up to {MOST}"
            " in size; an answer that was drawn at a smaller scale does",
        )
    return distance_on_grid(grid, shapes, paths.lists(grid), closed, grid.moved(paths.are_whole()))


def distance_on_grid(grid: Grid, shapes: Told, lists: Lists, closed: bool, moved: Fraction) -> float:
    """The same of paths on the grid, onto which they may have moved so far."""
    square = square_to(shapes, lists, closed)
    return math.inf if square == NONE else length_of(square, grid, moved)


def length_of(square: int, grid: Grid, less: Fraction) -> float:
    """The root of a square on the grid, less a length there, in the unit of the input and rounded down."""
    root = Fraction(math.isqrt(square << 2 * FINE), 2**FINE)
    exact = max(Fraction(0), root - less) / grid.scale
    nearest = float(exact)
    return nearest if Fraction(nearest) <= exact else math.nextafter(nearest, 0)


# What an answer was drawn of


def clearance_of(grid: Grid, shapes: Told, sources: Sequence[Source]) -> float:
    """How near the edges of shapes come to what they were drawn of."""
    parts = ((*part, source.moved) for source in sources for part in measured(source))
    return min((distance_on_grid(grid, shapes, *part) for part in parts), default=math.inf)


def measured(source: Source) -> list[tuple[Lists, bool]]:
    """The paths, and whether they are closed. A vertex with a width may stand alone, and counts as a point."""
    operation, structure = source.style.operation, source.style.structure
    if operation != "variable_stroke":
        return [(source.lists, operation == "outline" or bool(structure.closed))]
    numbers, ends = numbers_of(source.lists)
    points = array("i", bytes(NUMBER * (len(numbers) // 3 * 2)))
    points[::2], points[1::2] = array("i", numbers[::3]), array("i", numbers[1::3])
    alone = array("i")
    for start, end in zip([0, *ends], ends):
        if end - start == 1:
            alone += points[2 * start : 2 * end]
    return [
        (lists_of(points, array("Q", ends), 2), False),
        (lists_of(alone, array("Q", range(1, len(alone) // 2 + 1)), 2), True),
    ]


def reach_of(grid: Grid, sources: Sequence[Source]) -> Optional[float]:
    """How near to their lines strokes hold all points, in the unit of the input and rounded down; else none."""
    if not sources or any(source.style.operation != "stroke" for source in sources):
        return None
    return min(length_of(squared_reach(source), grid, source.moved) for source in sources)


def squared_reach(source: Source) -> int:
    """The square of that on the grid. Shapes may lack what custom caps hold, and lines that are points on the grid."""
    style = source.style.structure
    is_custom = CAP_KINDS["custom"] in (style.start_cap.kind, style.end_cap.kind) and not style.closed
    if is_custom or any(is_one_place(path) for path in paths_of(source.lists)):
        return 0
    return told(*inner_reach(source.style, source.lists))


def paths_of(lists: Lists) -> Iterator[Sequence[int]]:
    """The coordinates of each path."""
    numbers, ends = numbers_of(lists)
    return (numbers[2 * start : 2 * end] for start, end in zip([0, *ends], ends))


def is_one_place(path: Sequence[int]) -> bool:
    """Whether a path has several points, all in one place."""
    x, y = path[:2] if len(path) else (0, 0)
    return len(path) > 2 and all(place == x for place in path[::2]) and all(place == y for place in path[1::2])


# Drawing what keeps a distance


def draw_kept(tasks: Callable[[int], Sequence[Task]], wishes: Wishes, distance: Number) -> Shapes:
    """The shapes of tasks, which hold all points nearer than a distance to their paths where it is above 0.

    tasks: with radii enlarged by some grid units.
    """
    for more in range(MOST_MORE + 1):
        drawn = tasks(more)
        shapes = draw(drawn, wishes)
        if distance <= 0 or all(keeps(task, shapes, Fraction(distance), more == MOST_MORE) for task in drawn):
            break
    return shapes


def keeps(task: Task, shapes: Shapes, distance: Fraction, is_last: bool) -> bool:
    """Whether shapes hold all points nearer than a distance to the paths of a task; raises where no more units help."""
    kept, grid, drawn = task.kept, shapes.grid, shapes._told
    if kept is None or task.paths.box() is None:
        return True
    lists, closed = kept.placed(grid), kept.closed
    least = (distance * grid.scale + grid.moved(task.paths.are_whole())) ** 2

    def come_near(some: Lists) -> bool:
        return square_to(drawn, some, closed) < least

    number = first_outside(drawn, lists, closed)
    if number is not None:
        fault = "it is not in the answer"
    elif not come_near(lists):
        return True
    elif not is_last:
        return False
    else:
        number, fault = first_of(lists, come_near), f"the answer comes nearer to it than {plain(distance)}"
    where = task.paths.listed().paths[number].where
    raise DrawingError(where, f"{fault}, so at_least cannot be kept: does it cross itself, or have no area?")


def numbers_of(lists: Lists) -> tuple[Sequence[int], Sequence[int]]:
    """The coordinates of lists of points, and the ends, which are arrays of Python or of numpy."""
    numbers, ends = lists.kept
    return memoryview(numbers).cast("B").cast("i"), memoryview(ends).cast("B").cast("Q")


def first_of(lists: Lists, has: Callable[[Lists], bool]) -> int:
    """The number of a path that has something of which at least one has it, by halves."""
    numbers, ends = numbers_of(lists)
    first, last = 0, len(ends)
    while last - first > 1:
        middle = (first + last) // 2
        start = ends[first - 1] if first else 0
        own = array("i", numbers[2 * start : 2 * ends[middle - 1]])
        half = lists_of(own, array("Q", (end - start for end in ends[first:middle])), 2)
        first, last = (first, middle) if has(half) else (middle, last)
    return first


def first_outside(shapes: Told, lists: Lists, closed: bool) -> Optional[int]:
    """The first of some paths whose first vertex is not in the shapes. Paths that have no section are not asked for."""
    numbers, ends = numbers_of(lists)
    asked: list[tuple[int, int, int]] = []
    for number, (start, end) in enumerate(zip([0, *ends], ends)):
        if end - start > (0 if closed else 1):
            asked.append((numbers[2 * start + 1], numbers[2 * start], number))
    asked.sort()
    windings = windings_round([(x, y) for y, x, _ in asked], shapes)
    return min((number for (_, _, number), winding in zip(asked, windings) if winding == 0), default=None)


def windings_round(points: Sequence[tuple[int, int]], shapes: Told) -> list[int]:
    """How often shapes wind round points that are sorted by y, and lie on no edge."""
    windings = [0] * len(points)
    heights = [y for _, y in points]
    start = 0
    for end in shapes.contour_ends:
        xs, ys = shapes.points[2 * start : 2 * end : 2], shapes.points[2 * start + 1 : 2 * end : 2]
        start = end
        # A contour does not wind round points outside its box.
        west, east = min(xs), max(xs)
        rows = range(bisect_left(heights, min(ys)), bisect_left(heights, max(ys)))
        places = [place for place in rows if west < points[place][0] < east]
        if places:
            add_windings(points, places, xs, ys, windings)
    return windings


def add_windings(
    points: Sequence[tuple[int, int]], places: Sequence[int], xs: array[int], ys: array[int], windings: list[int]
) -> None:
    """Adds how often a contour winds round some of the points: each edge that goes up on the right of one, once."""
    heights = [points[place][1] for place in places]
    ax, ay = xs[-1], ys[-1]
    for bx, by in zip(xs, ys):
        if ay != by:
            low, high = (ay, by) if ay < by else (by, ay)
            if low <= heights[-1] and heights[0] < high:
                for index in range(bisect_left(heights, low), bisect_left(heights, high)):
                    x, y = points[places[index]]
                    if ((bx - ax) * (y - ay) > (by - ay) * (x - ax)) == (by > ay):
                        windings[places[index]] += 1 if by > ay else -1
        ax, ay = bx, by
