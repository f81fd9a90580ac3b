"""Outlines, strokes, and strokes of variable width."""

from __future__ import annotations

from dataclasses import dataclass, replace
from functools import lru_cache
from fractions import Fraction
from typing import Any, Optional, Sequence

from .arrays import Lists
from .distances import draw_kept
from .engine import Kept, Task, Wishes, draw, read_wishes
from .errors import DrawingError
from .exact import Number, plain, read_number
from .grid import Grid
from .paths import ListedPaths, Path, Paths, Vertex
from .reading import Drawing, inside, read
from .rings import RULES
from .shapes import Shapes
from .styles import (
    SIDES,
    Arcs,
    Cap,
    CapStyle,
    JoinStyle,
    Look,
    Style,
    are_numbers,
    choose,
    outline_style,
    read_arcs,
    read_caps,
    read_look,
    stroke_style,
    variable_style,
)

Caps = tuple[CapStyle, CapStyle]

KEEPING_CAPS = ("round", "square")
"""Those at which all points nearer than half the width to an end are drawn."""


def outline(
    polygons: Any,
    distance: Number,
    *,
    hole_distance: Optional[Number] = None,
    join: Optional[str] = None,
    step: Optional[float] = None,
    tolerance: Optional[Number] = None,
    at_least: bool = False,
    miter_limit: Optional[float] = None,
    min_turn: Optional[float] = None,
    rings: Optional[str] = None,
    scale: Optional[Number] = None,
    origin: Optional[Sequence[Number]] = None,
    most_splits: Optional[int] = None,
    sliver_width: Optional[Number] = None,
    quad_segs: Optional[int] = None,
    join_style: Any = None,
    mitre_limit: Optional[float] = None,
) -> Shapes:
    """Moves the boundaries of polygons, and unites the results.

    Args:
        polygons: a GeoJSON mapping or an object with `__geo_interface__` that has polygons; or a list of such; or, as
            lists or an array, a ring, the rings of one polygon, or a list of polygons.
        distance: how far boundaries move outwards; below 0, inwards.
        hole_distance: how far the boundaries of holes move into the holes; by default as far.
        join: how gaps at corners are filled: 'round' (the default), 'miter' or 'bevel'.
        step: the greatest angle between points of an arc, in degrees from 360/1024 to 45; by default 5.625.
        tolerance: instead of `step`, the greatest gap between an arc and its circle, in units of the input.
        at_least: whether arcs lie outside their circles, so that all points nearer than `distance` to a boundary are
            drawn; the distance is enlarged a little, and by some grid units for rounding. A proved call checks the
            answer, and an error is raised where this cannot be kept, as where rings cross themselves. It is checked for
            the lesser distance if `hole_distance` is another, and not at all if one is below 0. For clearances; needs
            round joins.
        miter_limit: how far the peak of a miter may be from its corner, as a multiple of the distance, from 1 to 22.9;
            by default 5. A farther one is clipped by an edge whose ends are that far.
        min_turn: the turn in degrees below which a miter is a bevel; by default 5.
        rings: which rings are holes. 'first': all but the first of a polygon. 'nested': those inside an odd number of
            others. 'sense': those that run clockwise. By default 'first' for geometries, 'nested' for lists.
        scale: grid units for each unit of the input; by default the greatest power of two that fits.
        origin: the point, in input units, that lies at (0, 0) on the grid; by default the middle of the input.
        most_splits: a limit on how often edges are split where they meet; 0 for none. If it is given, the answer has an
            error bound, `nearness`. A few points nearly on one line can take very many splits, so set a limit for
            untrusted input.
        sliver_width: drops holes and polygons that are as thin as this, in units of the input: all of their points lie
            within it of the line from the first point to the one farthest from that, measured along the axis along
            which the line runs less far. Rounding may leave such slivers where nearly parallel edges cross, mostly
            thinner than a grid unit.
        quad_segs, join_style, mitre_limit: Shapely's names for `step` (as segments per quarter circle), `join` and
            `miter_limit`.

    Returns:
        The polygons, with the scale and origin of their grid.

    Raises:
        DrawingError: the input or an argument is invalid. GridRangeError: `scale` or `origin` takes the drawing out of
            the grid's range. TooManySplits: it takes more splits than `most_splits`.
        MemoryError: an allocation failed.
    """
    drawing = read(polygons, as_polygons=True)
    reject("outline", "polygons, and strokes take lines", [drawing.lines, drawing.points])
    outer = read_number("", "distance", distance)
    inner = outer if hole_distance is None else read_number("", "hole_distance", hole_distance)
    look = read_look(
        max(abs(Fraction(outer)), abs(Fraction(inner))),
        join=join,
        step=step,
        tolerance=tolerance,
        at_least=at_least,
        miter_limit=miter_limit,
        min_turn=min_turn,
        quad_segs=quad_segs,
        join_style=join_style,
        mitre_limit=mitre_limit,
    )
    wishes = read_wishes(scale, origin, most_splits, sliver_width)

    def tasks(more: int) -> list[Task]:
        return [outline_task(drawing.polygons, (outer, inner), look.enlarged(more).arcs, look.join, rings)]

    return draw_kept(tasks, wishes, min(Fraction(outer), Fraction(inner)) if at_least else 0)


def stroke(
    lines: Any,
    width: Number,
    *,
    cap: Optional[Cap] = None,
    start_cap: Optional[Cap] = None,
    end_cap: Optional[Cap] = None,
    side: str = "both",
    closed: Optional[bool] = None,
    join: Optional[str] = None,
    step: Optional[float] = None,
    tolerance: Optional[Number] = None,
    at_least: bool = False,
    miter_limit: Optional[float] = None,
    min_turn: Optional[float] = None,
    scale: Optional[Number] = None,
    origin: Optional[Sequence[Number]] = None,
    most_splits: Optional[int] = None,
    sliver_width: Optional[Number] = None,
    quad_segs: Optional[int] = None,
    cap_style: Any = None,
    join_style: Any = None,
    mitre_limit: Optional[float] = None,
) -> Shapes:
    """Gives lines a width, and unites the results. Lines of a single point are not drawn.

    Args:
        lines: a GeoJSON mapping or an object with `__geo_interface__` that has lines or polygons, whose rings are
            drawn; or a list of such; or a line or a list of lines, as lists or an array.
        width: the whole width, half of it on each side; nothing is drawn for 0 or less.
        cap: how open lines end: 'round' (the default), 'square' or 'butt'; or your own as a list of points in input
            units, as for a line that runs along the x axis, rightwards, and ends at (0, 0). They lead from its right
            side (y below 0) to its left.
        start_cap, end_cap: the cap of one end, if the two differ.
        side: 'both', 'left' or 'right', seen along a line. A one-sided stroke is cut off straight at its ends.
        closed: whether lines go on from their last point to their first; by default only lines that are rings or end
            where they start.
        join, step, tolerance, at_least, miter_limit, min_turn, scale, origin, most_splits, sliver_width: as for
            `outline`. Both sides are checked, and open lines if their caps are round or square.
        quad_segs, cap_style, join_style, mitre_limit: Shapely's names for `step` (as segments per quarter circle),
            `cap`, `join` and `miter_limit`.

    Returns, Raises: as `outline`.
    """
    drawing = read(lines, as_polygons=False)
    reject("stroke", "lines", [drawing.points])
    full = read_number("", "width", width)
    look = read_look(
        Fraction(full) / 2,
        join=join,
        step=step,
        tolerance=tolerance,
        at_least=at_least,
        miter_limit=miter_limit,
        min_turn=min_turn,
        quad_segs=quad_segs,
        join_style=join_style,
        mitre_limit=mitre_limit,
    )
    drawn_side = choose("side", side, SIDES)
    caps = read_caps("start_cap", cap, cap_style, start_cap), read_caps("end_cap", cap, cap_style, end_cap)
    wishes, paths = read_wishes(scale, origin, most_splits, sliver_width), [drawing.lines, drawing.polygons]

    def tasks(more: int) -> list[Task]:
        return stroke_tasks(paths, full, look.enlarged(more), drawn_side, caps, closed)

    return draw_kept(tasks, wishes, Fraction(full) / 2 if at_least else 0)


def variable_stroke(
    lines: Any,
    *,
    widths: Optional[Any] = None,
    step: Optional[float] = None,
    tolerance: Optional[Number] = None,
    at_least: bool = False,
    scale: Optional[Number] = None,
    origin: Optional[Sequence[Number]] = None,
    most_splits: Optional[int] = None,
    sliver_width: Optional[Number] = None,
) -> Shapes:
    """Draws lines whose width changes from vertex to vertex, and unites the results.

    Each vertex is a circle with its width as diameter, and outer tangents join neighbouring circles. A line of one
    vertex is a circle.

    Args:
        lines: as for `stroke`, but open, with vertices (x, y, width).
        widths: if vertices are (x, y), a list of widths for each line, or one list for one line.
        step, tolerance, at_least, scale, origin, most_splits, sliver_width: as for `outline`, but nothing is checked.

    Returns, Raises: as `outline`.
    """
    drawing = read(lines, as_polygons=False, with_widths=widths is None)
    reject("variable_stroke", "lines", [drawing.polygons])
    parts = [part for part in (drawing.lines, drawing.points) if part.first() is not None]
    if widths is not None:
        parts = [with_widths(ListedPaths([path for part in parts for path in part.listed().paths]), widths)]
    radius = max((part.greatest_width() for part in parts), default=Fraction(0)) / 2
    arcs = read_arcs(max(radius, Fraction(0)), step, tolerance, at_least)
    tasks = [variable_task(part, arcs) for part in parts]
    return draw(tasks, read_wishes(scale, origin, most_splits, sliver_width))


def buffer(
    geometry: Any,
    distance: Number,
    *,
    cap: Optional[Cap] = None,
    join: Optional[str] = None,
    step: Optional[float] = None,
    tolerance: Optional[Number] = None,
    at_least: bool = False,
    miter_limit: Optional[float] = None,
    min_turn: Optional[float] = None,
    scale: Optional[Number] = None,
    origin: Optional[Sequence[Number]] = None,
    most_splits: Optional[int] = None,
    sliver_width: Optional[Number] = None,
    quad_segs: Optional[int] = None,
    cap_style: Any = None,
    join_style: Any = None,
    mitre_limit: Optional[float] = None,
    single_sided: bool = False,
) -> Shapes:
    """Everything within a distance of a geometry: polygons grow, lines become strokes, points become circles.

    Args:
        geometry: a GeoJSON mapping or an object with `__geo_interface__`, or a list of such; lists are polygons.
        distance: how far; below 0 polygons shrink, and lines and points are not drawn.
        cap, join, step, tolerance, at_least, miter_limit, min_turn, scale, origin, most_splits, sliver_width: as for
            `stroke` and `outline`. Polygons, open lines, closed lines and points are drawn separately and then united;
            `most_splits` limits each of these steps by itself. Slivers are dropped from the united answer.
        quad_segs, cap_style, join_style, mitre_limit: Shapely's names for `step` (as segments per quarter circle),
            `cap`, `join` and `miter_limit`.
        single_sided: whether lines are drawn on one side only: the left, or the right if the distance is below 0.
            Polygons are then refused.

    Returns, Raises: as `outline`.
    """
    how = read_buffering(
        distance,
        cap=cap,
        join=join,
        step=step,
        tolerance=tolerance,
        at_least=at_least,
        miter_limit=miter_limit,
        min_turn=min_turn,
        scale=scale,
        origin=origin,
        most_splits=most_splits,
        sliver_width=sliver_width,
        quad_segs=quad_segs,
        cap_style=cap_style,
        join_style=join_style,
        mitre_limit=mitre_limit,
        single_sided=single_sided,
    )
    return how.shapes(geometry)


@dataclass(frozen=True)
class Buffering:
    """How geometries are buffered.

    side: of lines, where they are drawn on one side alone; else both.
    """

    distance: Number
    look: Look
    caps: Caps
    side: str
    wishes: Wishes

    def shapes(self, geometry: Any) -> Shapes:
        """All that is within the distance of a geometry."""
        drawing = read(geometry, as_polygons=True)
        kept = self.distance if self.look.arcs.outside else 0
        return draw_kept(
            lambda more: replace(self, look=self.look.enlarged(more)).tasks(drawing), self.wishes, kept
        )

    @property
    def line_width(self) -> Fraction:
        """How wide lines are drawn."""
        size = Fraction(self.distance)
        return 2 * (abs(size) if self.side != "both" else size)

    def tasks(self, drawing: Drawing) -> list[Task]:
        """The calls for polygons, lines and points."""
        tasks, radius = [], self.distance
        where = drawing.polygons.first()
        if where is not None:
            if self.side != "both":
                raise DrawingError(
                    where, "single_sided is for lines, and a polygon has a boundary: `stroke` draws one side of it"
                )
            tasks.append(outline_task(drawing.polygons, (radius, radius), self.look.arcs, self.look.join, None))
        if drawing.lines.first() is not None and self.line_width > 0:
            tasks += stroke_tasks([drawing.lines], self.line_width, self.look, self.side, self.caps, None)
        if drawing.points.first() is not None and radius > 0:
            task = variable_task(drawing.points.with_width(2 * Fraction(radius)), self.look.arcs)
            tasks.append(replace(task, kept=Kept(drawing.points.lists, True)))
        return tasks


def read_buffering(
    distance: Any,
    *,
    cap: Any,
    scale: Any,
    origin: Any,
    most_splits: Any,
    sliver_width: Any,
    cap_style: Any,
    single_sided: Any,
    **words: Any,
) -> Buffering:
    """How geometries are buffered, of the words of `buffer`."""
    radius = read_number("", "distance", distance)
    look = read_look(abs(Fraction(radius)), **words)
    cap_of_lines = read_caps("cap", cap, cap_style)
    side = ("left" if radius > 0 else "right") if single_sided else "both"
    wishes = read_wishes(scale, origin, most_splits, sliver_width)
    return Buffering(radius, look, (cap_of_lines, cap_of_lines), side, wishes)


# Tasks


def outline_task(
    rings: Paths, distances: tuple[Number, Number], arcs: Arcs, join: JoinStyle, rule: Optional[str]
) -> Task:
    """The outlines of polygons, by the distances of boundaries and of holes."""
    if rule is not None:
        choose("rings", rule, RULES)

    def style(grid: Grid) -> Optional[Style]:
        outer, inner = (arcs.radius(grid, distance) for distance in distances)
        tell_coarse("distance", distances[0], outer, 1, grid)
        tell_coarse("hole_distance", distances[1], inner, 1, grid)
        return outline_style(outer, inner, join)

    @lru_cache(maxsize=1)
    def placed(grid: Grid) -> Lists:
        return rings.contours(grid, rule)

    reach = max(abs(Fraction(distance)) for distance in distances)
    return Task(rings, reach, style, placed, kept=Kept(placed, True))


def stroke_tasks(
    paths: Sequence[Paths], width: Number, look: Look, side: str, caps: Caps, closed: Optional[bool]
) -> list[Task]:
    """The strokes of open lines and those of closed ones."""
    choice = None if closed is None else bool(closed)
    tasks = []
    for is_closed in (False, True):
        for part in paths:
            kept = part.of_kind(is_closed, choice)
            if kept is not None:
                tasks.append(stroke_task(kept, width, look, side, caps, is_closed))
    return tasks


def stroke_task(paths: Paths, width: Number, look: Look, side: str, caps: Caps, closed: bool) -> Task:
    """The strokes of lines that are all open or all closed."""

    def style(grid: Grid) -> Optional[Style]:
        whole_width = look.arcs.width(grid, width)
        tell_coarse("width", width, whole_width, 3, grid)
        start, end = caps
        ends = (start.on(grid, look.arcs), end.on(grid, look.arcs))
        return stroke_style(whole_width, look.join, ends, side, closed)

    is_kept = side == "both" and (closed or all(cap.kind in KEEPING_CAPS for cap in caps))
    kept = Kept(paths.lists, closed) if is_kept else None
    return Task(paths, max(Fraction(width) / 2, Fraction(0)), style, paths.lists, kept=kept)


def variable_task(paths: Paths, arcs: Arcs) -> Task:
    """The strokes of lines whose vertices have widths."""
    greatest = max(paths.greatest_width(), Fraction(0))

    def style(grid: Grid) -> Optional[Style]:
        width = arcs.width(grid, greatest)
        tell_coarse("the greatest width", greatest, width, 3, grid)
        return variable_style(arcs.options()) if are_numbers([width]) else None

    def placed(grid: Grid) -> Lists:
        return paths.wide_lists(grid, arcs)

    return Task(paths, greatest / 2, style, placed, lambda grid: arcs.width(grid, greatest))


# Input


def reject(call: str, taken: str, paths: Sequence[Paths]) -> None:
    """Says what a call does not take."""
    for part in paths:
        where = part.first()
        if where is not None:
            raise DrawingError(where, f"`{call}` takes {taken}")


def tell_coarse(what: str, length: Number, on_grid: int, least: int, grid: Grid) -> None:
    """Says that a grid is too coarse for a length. A stroke of a radius of one grid unit is not drawn."""
    if length != 0 and (length > 0 or least == 1) and abs(on_grid) < least:
        unit = "unit" if least == 1 else "units"
        raise DrawingError(
            "",
            f"{what} is {plain(Fraction(length))}, and has to be at least {least} grid {unit}: at the scale"
            f" {plain(grid.scale)} it is {on_grid}",
        )


def with_widths(given: Paths, widths: Any) -> Paths:
    """The lines with a width at each vertex."""
    paths = given.listed().paths
    lists = [list_of(item) for item in list_of(widths) or []]
    if len(paths) == 1 and all(item is None for item in lists):
        lists = [list_of(widths)]
    if len(lists) != len(paths):
        raise DrawingError("", f"widths has {len(lists)} lists, and has to have one for each of {len(paths)} lines")
    result = []
    for path, own in zip(paths, lists):
        if own is None or len(own) != len(path.points):
            raise DrawingError(path.where, f"it has {len(path.points)} vertices, and has to have a width for each")
        vertices: list[Vertex] = [
            (*point, read_number(inside(path.where, f"point {index}"), "width", width))
            for index, (point, width) in enumerate(zip(path.points, own))
        ]
        result.append(Path(path.where, vertices, path.is_ring))
    return ListedPaths(result)


def list_of(value: Any) -> Optional[list[Any]]:
    """The items of a sequence or an array; none for a number."""
    if hasattr(value, "tolist"):
        value = value.tolist()
    return list(value) if hasattr(value, "__iter__") and not isinstance(value, (str, bytes)) else None
