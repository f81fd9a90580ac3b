"""Buffers many small geometries of Shapely at once: read, placed, drawn, brought back and made by arrays."""

from __future__ import annotations

import threading
from ctypes import addressof, byref, c_size_t, c_uint8
from dataclasses import dataclass
from fractions import Fraction
from typing import Optional, Sequence

import numpy
import shapely

from .arrays import NOTHING
from .engine import Task
from .errors import DrawingError
from .geometries import polygons_of, together
from .grid import HARDLY_MORE_THAN_HALF, MOST, Grid, power_of_two
from .library import Outcome, call_of
from .offsets import Buffering, outline_task, stroke_task, variable_task
from .packed import PackedPaths
from .styles import OPERATIONS, Style
from .vectors import Array, list_numbers, rounded, starts_of, turn

POINTS, LINES, POLYGONS = (0, 4), (1, 5), (3, 6)
"""The numbers of Shapely's types, of one and of many."""

FIRST_ROOM = (2**17, 2**13, 2**13)
"""Points, contours and shapes of the room that is used for one call after the other."""

GRID = numpy.dtype([("x", numpy.int64), ("y", numpy.int64), ("unit", numpy.float64)])
"""A grid as the call for many drawings takes it."""

NO_POINTS = (addressof(NOTHING), 0)
"""The points of a cap that has none."""

MOST_POINTS = 1024
"""Of a geometry that is drawn with others. Larger ones take longer than what is done for each, and memory for all."""

SPAN = 2048
"""More than there are exponents of scales, of which as many are below 0 as above."""

FARTHEST = 2.0**61
"""Coordinates that lie farther out on the grid are left to exact numbers."""


Ways = Sequence[Buffering]


@dataclass
class Group:
    """Geometries of one kind, each drawn by itself.

    tasks: how they are drawn.
    of_task: for each geometry by which of the tasks.
    numbers: which of the given ones they are.
    points: of all paths, one behind the other.
    ends: for each path how many points stand in it and before it.
    paths: for each geometry how many paths stand in it and before it.
    are_holes: of rings whether each is a hole.
    """

    tasks: Sequence[Task]
    of_task: Array
    numbers: Array
    points: Array
    ends: Array
    paths: Array
    are_holes: Optional[Array] = None

    @property
    def vertices(self) -> Array:
        """For each geometry how many points stand in it and before it."""
        return self.ends[self.paths - 1]

    def keys(self, exponents: Array) -> Array:
        """The task of each geometry, and the exponent of its scale, in one number."""
        return SPAN * self.of_task + exponents + SPAN // 2


@dataclass
class Grids:
    """A grid for each geometry of a group: the exponent of its scale, and the place of its origin on the grid."""

    exponents: Array
    origins: Array
    are_found: Array


@dataclass
class Answers:
    """The answers to geometries of a group, which are made of them before the thread draws others.

    rows: which of the group they are.
    counts: how many points, contours and shapes each has; and the lists of all.
    """

    rows: Array
    counts: Array
    coordinates: Array
    contour_ends: Array
    shape_ends: Array


# Reading


def empty_paths() -> PackedPaths:
    """No paths, for a task that says only how it is drawn."""
    return PackedPaths(numpy.zeros((0, 3)), numpy.zeros(0, numpy.int64), str)


def group_of(tasks: Sequence[Task], of_task: Array, numbers: Array, paths: Array, of_path: Array) -> Group:
    """Paths as a group, of which each stands in one of the geometries."""
    points, of_point = shapely.get_coordinates(paths, return_index=True)
    ends = numpy.cumsum(numpy.bincount(of_point, minlength=len(paths)))
    return Group(tasks, of_task, numbers, points, ends, numpy.cumsum(numpy.bincount(of_path, minlength=len(numbers))))


def parts_of(geometries: Array) -> tuple[Array, Array]:
    """The parts of geometries, and of which geometry each is."""
    if (shapely.get_type_id(geometries) <= POLYGONS[0]).all():
        return geometries, numpy.arange(len(geometries))
    parts, of_part = shapely.get_parts(geometries, return_index=True)
    return parts, of_part


def rings_of(polygons: Array) -> tuple[Array, Array]:
    """The rings of polygons, and of which polygon each is. A polygon without holes has the points of its ring alone."""
    if not shapely.get_num_interior_rings(polygons).any():
        return polygons, numpy.arange(len(polygons))
    rings, of_ring = shapely.get_rings(polygons, return_index=True)
    return rings, of_ring


def polygon_groups(geometries: Array, numbers: Array, ways: Ways, of_way: Array) -> list[Group]:
    """The rings of polygons."""
    parts, of_part = parts_of(geometries[numbers])
    rings, of_ring = rings_of(parts)
    tasks = [outline_task(empty_paths(), (how.distance,) * 2, how.look.arcs, how.look.join, None) for how in ways]
    group = group_of(tasks, of_way, numbers, rings, of_part[of_ring])
    group.are_holes = numpy.concatenate([[False], of_ring[1:] == of_ring[:-1]])
    return [group]


def line_groups(geometries: Array, numbers: Array, ways: Ways, of_way: Array) -> list[Group]:
    """The lines of geometries all of whose lines are open, and of those all of whose lines end where they start."""
    lines, of_line = parts_of(geometries[numbers])
    points, of_point = shapely.get_coordinates(lines, return_index=True)
    sizes = numpy.bincount(of_point, minlength=len(lines))
    ends = numpy.cumsum(sizes)
    are_closed = (sizes > 2) & (points[ends - sizes] == points[ends - 1]).all(axis=1)
    closed_lines = numpy.bincount(of_line, are_closed, len(numbers))
    groups = []
    for closed, chosen in ((False, closed_lines == 0), (True, closed_lines == numpy.bincount(of_line))):
        if chosen.any():
            tasks = [stroke_task(empty_paths(), how.line_width, how.look, how.side, how.caps, closed) for how in ways]
            kept = chosen[of_line]
            own = numpy.cumsum(chosen)[of_line[kept]] - 1
            groups.append(group_of(tasks, of_way[chosen], numbers[chosen], lines[kept], own))
    return groups


def point_groups(geometries: Array, numbers: Array, ways: Ways, of_way: Array) -> list[Group]:
    """Single points, as lines of one vertex with a width."""
    points, of_point = parts_of(geometries[numbers])
    vertices = [numpy.array([[0.0, 0.0, 2 * float(how.distance)]]) for how in ways]
    one = numpy.ones(1, numpy.int64)
    tasks = [variable_task(PackedPaths(vertex, one, str), how.look.arcs) for vertex, how in zip(vertices, ways)]
    return [group_of(tasks, of_way, numbers, points, of_point)]


def groups_of(geometries: Array, ways: Ways, of_way: Array) -> list[Group]:
    """The geometries that are drawn at once: small ones, of one kind each, not empty, and with no empty part."""
    kinds, are_hollow = shapely.get_type_id(geometries), shapely.is_empty(geometries)
    (many,) = numpy.nonzero(kinds > POLYGONS[0])
    if len(many):
        parts, of_part = shapely.get_parts(geometries[many], return_index=True)
        are_hollow[many[of_part[shapely.is_empty(parts)]]] = True
    kinds[are_hollow | (shapely.get_num_coordinates(geometries) > MOST_POINTS)] = -1
    groups = []
    for (one, several), make, are_drawn in (
        (POLYGONS, polygon_groups, [how.side == "both" for how in ways]),
        (POINTS, point_groups, [how.distance > 0 for how in ways]),
        (LINES, line_groups, [how.line_width > 0 for how in ways]),
    ):
        (numbers,) = numpy.nonzero(((kinds == one) | (kinds == several)) & numpy.array(are_drawn)[of_way])
        if len(numbers):
            groups += make(geometries, numbers, ways, of_way[numbers])
    return groups


# Grids


def middle_places(low: Array, high: Array) -> Array:
    """The whole numbers nearest to the middles of numbers, a half away from zero. They are exact."""
    low_whole, high_whole = numpy.rint(low), numpy.rint(high)
    low_part, high_part = low - low_whole, high - high_whole
    total, part = low_whole.astype(numpy.int64) + high_whole.astype(numpy.int64), low_part + high_part
    half, is_odd = total >> 1, (total & 1) == 1
    # The middle lies at `half`, and more: `part` / 2, and a half where the total is odd.
    above = is_odd & ((part > 0) | ((part == 0) & (total > 0)))
    is_whole_part = (low_part == high_part) & (numpy.abs(low_part) == 0.5)
    up = is_whole_part & ~is_odd & (part > 0) & (half >= 0)
    down = is_whole_part & ~is_odd & (part < 0) & (half <= 0)
    # An odd total and a part of 1 in size make a whole number.
    up |= is_whole_part & is_odd & (part > 0)
    above &= ~(is_whole_part & is_odd)
    return half + above + up - down


class Styles:
    """The styles of a group's tasks for each scale, by the keys of the group."""

    def __init__(self, tasks: Sequence[Task]) -> None:
        self.tasks = tasks
        self.known: dict[int, tuple[Optional[Style], int, int]] = {}

    def at(self, key: int) -> tuple[Optional[Style], int, int]:
        """The style, none where the grid is too coarse for a length; the greatest coordinate; the greatest width."""
        if key not in self.known:
            number, exponent = divmod(key, SPAN)
            task, grid = self.tasks[number], Grid(power_of_two(exponent - SPAN // 2), (Fraction(0), Fraction(0)))
            width = task.widest(grid) if task.widest else 0
            try:
                self.known[key] = task.style(grid), task.room(grid), width
            except DrawingError:
                self.known[key] = None, MOST, width
        return self.known[key]

    def rooms(self, keys: Array) -> tuple[Array, Array, Array]:
        """For each key the greatest coordinate, whether the grid is fine enough, and the greatest width."""
        kinds: Array
        kinds, of_kind = numpy.unique(keys, return_inverse=True)
        found = [self.at(key) for key in kinds.tolist()]
        room = numpy.array([room for _, room, _ in found])
        is_fine = numpy.array([style is not None for style, _, _ in found]) | (room < 0)
        width = numpy.array([width for _, _, width in found])
        return room[of_kind], is_fine[of_kind], width[of_kind]


def find_grids(group: Group, styles: Styles) -> Grids:
    """For each geometry the grid of the greatest power of two by which it is in range, round its middle."""
    starts = starts_of(group.vertices)
    low = numpy.minimum.reduceat(group.points, starts, axis=0)
    high = numpy.maximum.reduceat(group.points, starts, axis=0)
    lengths = (high - low).max(axis=1) / 2 + numpy.array([float(task.reach) for task in group.tasks])[group.of_task]
    are_open = numpy.isfinite(low + high).all(axis=1) & (lengths > 0)
    parts, powers = numpy.frexp(numpy.where(are_open, lengths, 1))
    # As `first_exponent` of one length: parts lie from a half to below 1.
    exponents = 30 - powers.astype(numpy.int64) + (parts < float(HARDLY_MORE_THAN_HALF))
    are_open &= numpy.abs(exponents) < 900
    origins = numpy.zeros((len(starts), 2), numpy.int64)
    are_found = numpy.zeros(len(starts), bool)
    while are_open.any():
        (rows,) = numpy.nonzero(are_open)
        own = exponents[rows]
        bottom, top = (numpy.ldexp(corner[rows], own[:, None]) for corner in (low, high))
        is_near = (numpy.abs(bottom) < FARTHEST).all(axis=1) & (numpy.abs(top) < FARTHEST).all(axis=1)
        bottom, top = (numpy.where(is_near[:, None], corner, 0) for corner in (bottom, top))
        middles = middle_places(bottom, top)
        sizes = [numpy.abs(rounded(corner).astype(numpy.int64) - middles).max(axis=1) for corner in (bottom, top)]
        room, has_style, _ = styles.rooms(group.keys(exponents)[rows])
        fits = is_near & (numpy.maximum(*sizes) <= numpy.minimum(MOST, room))
        origins[rows[fits]] = middles[fits]
        are_found[rows[fits]] = has_style[fits]
        # What is too small or too far out for this grid is left to exact numbers.
        are_open[rows[fits | ~has_style | ~is_near]] = False
        exponents[rows[~fits]] -= 1
        are_open &= exponents > -900
    return Grids(exponents, origins, are_found)


def places_of(group: Group, grids: Grids, styles: Styles) -> Array:
    """The places of all vertices, with widths where the tasks have some. Those of geometries without a grid are 0."""
    of_point, found = list_numbers(group.vertices), grids.are_found
    points = numpy.where(found[of_point][:, None], group.points, 0)
    has_widths = group.tasks[0].widest is not None
    places = numpy.empty((len(points), 3 if has_widths else 2), numpy.int32)
    whole = rounded(numpy.ldexp(points, grids.exponents[of_point][:, None])).astype(numpy.int64)
    places[:, :2] = whole - numpy.where(found[:, None], grids.origins, 0)[of_point]
    if has_widths and found.any():
        widths = numpy.zeros(len(found), numpy.int32)
        widths[found] = styles.rooms(group.keys(grids.exponents)[found])[2]
        places[:, 2] = widths[of_point]
    if group.are_holes is not None:
        turn(places, group.ends, group.are_holes)
    return places


# Drawing


class Rooms:
    """Room for the answers of one call. Memory that no call writes is never taken from the system."""

    def __init__(self, points: int, contours: int, shapes: int) -> None:
        self.sizes = points, contours, shapes
        self.places = numpy.empty((points, 2), numpy.int32)
        self.coordinates = numpy.empty((points + contours, 2))
        self.ends = numpy.empty(contours, numpy.int64), numpy.empty(shapes, numpy.int64)
        starts: tuple[Array, ...] = (self.places, *self.ends)
        self.words = tuple(word for start, size in zip(starts, self.sizes) for word in (start.ctypes.data, size))

    def told(self, counts: Array) -> tuple[Array, ...]:
        """The coordinates and the ends of so many points, contours and shapes, until the next call."""
        points, contours, shapes = counts.tolist()
        return self.coordinates[:points], self.ends[0][:contours], self.ends[1][:shapes]


OWN = threading.local()
"""Of each thread the room that it used last: new memory would cost as much time as making geometries of what is in it."""


def own_room() -> Rooms:
    """The room of this thread."""
    if not hasattr(OWN, "room"):
        OWN.room = Rooms(*FIRST_ROOM)
    room: Rooms = OWN.room
    return room


def drawn(group: Group, grids: Grids, styles: Styles, places: Array, stop: c_uint8) -> Answers:
    """Draws the geometries that have a grid: by one call those of one style, as far as the room does."""
    vertex, path = starts_of(group.vertices), starts_of(group.paths)
    ends = (group.ends - vertex[list_numbers(group.paths)]).astype(numpy.uint64)
    keys = group.keys(grids.exponents)
    order = numpy.argsort(keys, kind="stable")
    order = order[grids.are_found[order]]
    keys = keys[order]
    parts = numpy.column_stack([vertex, group.vertices - vertex, path, group.paths - path])[order].astype(numpy.uint64)
    own_grids = numpy.empty(len(order), GRID)
    own_grids["x"], own_grids["y"] = grids.origins[order].T
    own_grids["unit"] = numpy.ldexp(1.0, -grids.exponents[order])
    counts, outcomes = numpy.zeros((len(order), 3), numpy.int64), numpy.zeros(len(order), numpy.uint8)
    room, start, told = own_room(), 0, []
    while start < len(order) and not stop.value:
        style, _, _ = styles.at(int(keys[start]))
        assert style is not None
        own = slice(start, int(numpy.searchsorted(keys, keys[start], "right")))
        given = places, ends, parts[own], own_grids[own]
        start += each(style, given, room, counts[own], outcomes[own], stop)
        told.append(room.told(counts[own.start : start].sum(axis=0)))
        if start < len(order):
            told[-1] = tuple(items.copy() for items in told[-1])
        if start < own.stop:
            room = OWN.room = Rooms(*numpy.maximum(counts[start], room.sizes).tolist())
    kept = outcomes[:start] == Outcome.ANSWERED
    lists = told[0] if len(told) == 1 else map(numpy.concatenate, zip(room.told(numpy.zeros(3, int)), *told))
    return Answers(order[:start][kept], counts[:start][kept], *lists)


def each(
    style: Style, given: tuple[Array, ...], room: Rooms, counts: Array, outcomes: Array, stop: c_uint8
) -> int:
    """Draws one part of what is given after the other, into the room, and answers how many are done.

    given: the places and ends of all drawings, the parts, and a grid for each part.
    """
    places, ends, parts, grids = given
    caps = () if style.caps else (*NO_POINTS, *NO_POINTS)
    done = c_size_t()
    call_of("mesh_draw_each")(
        OPERATIONS[style.operation],
        *(places.ctypes.data, ends.ctypes.data, parts.ctypes.data, len(parts), grids.ctypes.data),
        *style.words(),
        *caps,
        *room.words,
        counts.ctypes.data,
        room.coordinates.ctypes.data,
        outcomes.ctypes.data,
        byref(stop),
        byref(done),
    )
    return done.value


# Answers


def made(answers: Answers) -> Array:
    """Geometries of Shapely: a Polygon where there is one, else a MultiPolygon."""
    points, contours, shapes = answers.counts.T
    contour_ends = answers.contour_ends + numpy.repeat(numpy.cumsum(points) - points, contours)
    shape_ends = answers.shape_ends + numpy.repeat(numpy.cumsum(contours) - contours, shapes)
    return together(polygons_of(answers.coordinates, contour_ends, shape_ends), shapes)


def buffered(geometries: Array, ways: Ways, of_way: Array, stop: c_uint8) -> tuple[Array, Array]:
    """Geometries buffered, each in one of the ways, and for each whether it was; others are left to exact numbers.

    stop: a number that ends the work once it is not 0.
    """
    result = numpy.full(len(geometries), None, object)
    are_done = numpy.zeros(len(geometries), bool)
    for group in groups_of(geometries, ways, of_way):
        styles = Styles(group.tasks)
        grids = find_grids(group, styles)
        answers = drawn(group, grids, styles, places_of(group, grids, styles), stop)
        numbers = group.numbers[answers.rows]
        result[numbers] = made(answers)
        are_done[numbers] = True
    return result, are_done
