"""The library's calls for drawings in arrays: numbers end to end in, numbers end to end out."""

from __future__ import annotations

import ctypes
import itertools
import mmap
from array import array
from ctypes import byref, c_int64, c_size_t, c_uint64
from dataclasses import dataclass
from fractions import Fraction
from typing import Any, Callable, Optional, Sequence, Union

from .library import Outcome, call_of
from .styles import TURN, BooleanStructure, CountsStructure, NetClearanceStructure, OptionsStructure, Style

NUMBER, END = 4, 8
"""The sizes of a coordinate and of an end, in bytes."""

LARGE = 65536
"""So many bytes are asked of the system."""

PAIRS = 8
"""So many near nets there is mostly room for beside each."""

DEFAULT_OPTIONS = OptionsStructure()


@dataclass(frozen=True)
class Lists:
    """Lists as the library reads them, that stand end to end in one.

    items: the address of the points or vertices, and how many there are.
    ends: the address of the numbers that say for each list how many items stand in it and before it, and how many there
        are.
    kept: what has to live as long.
    """

    items: tuple[int, int]
    ends: tuple[int, int]
    kept: tuple[Any, ...]

    def words(self) -> tuple[int, int, int, int]:
        """The arguments of a call."""
        return (*self.items, *self.ends)


# Where a list is empty, its address is that of something all the same.
NOTHING = (ctypes.c_uint64 * 1)()


def address_of(numbers: array[int]) -> int:
    """Where an array lies."""
    return numbers.buffer_info()[0] if len(numbers) else ctypes.addressof(NOTHING)


def lists_of(numbers: array[int], ends: array[int], size: int) -> Lists:
    """Lists of items of so many numbers."""
    items = (address_of(numbers), len(numbers) // size)
    return Lists(items, (address_of(ends), len(ends)), (numbers, ends))


def lists_in(paths: Sequence[Sequence[Sequence[int]]], size: int) -> Lists:
    """Lists of points or vertices as the library reads them."""
    numbers = array("i", itertools.chain.from_iterable(itertools.chain.from_iterable(paths)))
    return lists_of(numbers, array("Q", itertools.accumulate(map(len, paths))), size)


@dataclass
class Told:
    """Shapes as the library tells them.

    points: the coordinates of all points.
    contour_ends: for each contour how many points stand in it and before it.
    shape_ends: for each shape how many contours stand in it and before it.
    """

    points: array[int]
    contour_ends: array[int]
    shape_ends: array[int]


@dataclass(frozen=True)
class Source:
    """Paths on a grid, of which an answer was drawn.

    style: how they were drawn.
    lists: their points or vertices.
    moved: how far points may have moved onto the grid, in its units.
    """

    style: Style
    lists: Lists
    moved: Fraction


def nothing() -> Told:
    """No shapes."""
    return Told(array("i"), array("Q"), array("Q"))


def split(items: list[Any], ends: Sequence[int]) -> list[list[Any]]:
    """Lists that stand end to end."""
    return [items[start:end] for start, end in zip([0, *ends], ends)]


class Room:
    """Room for shapes. Where it is large, memory that no call writes is never taken from the system."""

    def __init__(self, points: int, contours: int, shapes: int) -> None:
        self.sizes = (points, contours, shapes)
        lengths = (2 * NUMBER * points, END * contours, END * shapes)
        self.starts = [0, *itertools.accumulate(-(-length // 64) * 64 for length in lengths)]
        size = max(1, self.starts[-1])
        self.memory: Union[bytearray, mmap.mmap] = bytearray(size) if size < LARGE else mmap.mmap(-1, size)
        base = ctypes.addressof(ctypes.c_char.from_buffer(self.memory))
        self.words = tuple(word for start, size in zip(self.starts, self.sizes) for word in (base + start, size))
        self.counts = CountsStructure()

    def told(self) -> Told:
        """A copy of the shapes in it."""
        counts, view = self.counts, memoryview(self.memory)
        parts: list[array[int]] = []
        lengths = (2 * NUMBER * counts.points, END * counts.contours, END * counts.shapes)
        for kind, start, length in zip("iQQ", self.starts, lengths):
            numbers: array[int] = array(kind)
            numbers.frombytes(view[start : start + length])
            parts.append(numbers)
        return Told(*parts)


def steps_of(style: Style) -> int:
    """How many points an arc of a whole turn may have, 0 where there are no arcs."""
    structure = style.structure
    arcs = [structure] if style.operation == "variable_stroke" else [structure.join.arc]
    if style.operation == "stroke":
        arcs += [structure.start_cap.arc, structure.end_cap.arc]
    return max((TURN // max(arc.max_step, 2**22) for arc in arcs if arc.max_step), default=0) + 2


def room_for(style: Style, lists: Lists) -> Room:
    """Room for the shapes of most drawings."""
    contours = lists.ends[1] + 8
    return Room(4 * lists.items[1] + (2 * steps_of(style) + 8) * contours, contours, contours)


def called(call: Callable[[Room], int], room: Room) -> tuple[Outcome, Told]:
    """How a call ended, and its shapes, in larger rooms where the first is too small."""
    while True:
        outcome = Outcome(call(room))
        if outcome is Outcome.ANSWERED:
            return outcome, room.told()
        if outcome is not Outcome.ROOM_TOO_SMALL:
            return outcome, nothing()
        room = Room(room.counts.points, room.counts.contours, room.counts.shapes)


def drawn(style: Style, lists: Lists, most_splits: Optional[int] = None) -> tuple[Outcome, Told, int]:
    """How a drawing ended, its shapes, and where there is a limit on splits their nearness in 64ths of a grid unit.

    most_splits: how many splits may be made; 0 stands for any number.
    """
    given = [*lists.words(), *style.words(), byref(DEFAULT_OPTIONS)]
    if most_splits is None:
        plain = call_of(f"mesh_{style.operation}")
        return (*called(lambda room: plain(*given, *room.words, byref(room.counts)), room_for(style, lists)), 0)
    near, nearness = call_of(f"mesh_{style.operation}_near"), c_uint64()

    def call(room: Room) -> int:
        return near(*given, most_splits, *room.words, byref(room.counts), byref(nearness))

    return (*called(call, room_for(style, lists)), nearness.value)


def reach(style: Style, lists: Lists, width: str = "i32", number: Any = ctypes.c_int32) -> tuple[Outcome, int]:
    """Whether a drawing stays in range, and how far it reaches from its points at most, in each coordinate."""
    padding = c_int64()
    call = call_of(f"mesh_validate_{style.operation}", width)
    return Outcome(call(*lists.words(), *style.words(number), byref(padding))), padding.value


def inner_reach(style: Style, lists: Lists) -> tuple[Outcome, int]:
    """How near to its paths a stroke holds all points for certain: the square of that, 0 where nothing is told."""
    square = c_uint64()
    call = call_of("mesh_inner_reach")
    return Outcome(call(*lists.words(), *style.words(), byref(square))), square.value


def combined(
    boolean: BooleanStructure, subject: Lists, clip: Lists, most_splits: Optional[int] = None
) -> tuple[Outcome, Told, int]:
    """How a boolean of contours ended, its shapes, and, where there is a limit on splits, their nearness."""
    given = [*subject.words(), *clip.words(), byref(boolean), byref(DEFAULT_OPTIONS)]
    points, contours = subject.items[1] + clip.items[1], subject.ends[1] + clip.ends[1] + 8
    room = Room(points + points // 2 + 32, contours, contours)
    if most_splits is None:
        plain = call_of("mesh_boolean")
        return (*called(lambda room: plain(*given, *room.words, byref(room.counts)), room), 0)
    near, nearness = call_of("mesh_boolean_near"), c_uint64()

    def call(room: Room) -> int:
        return near(*given, most_splits, *room.words, byref(room.counts), byref(nearness))

    return (*called(call, room), nearness.value)


def left(shapes: Told, width: int) -> tuple[Outcome, Told]:
    """How the call for shapes without their slivers ended, and what is left, which is never more."""
    lists = lists_of(shapes.points, shapes.contour_ends, 2)
    ends = (address_of(shapes.shape_ends), len(shapes.shape_ends))
    call = call_of("mesh_without_slivers")
    room = Room(lists.items[1], lists.ends[1], ends[1])
    return called(lambda room: call(*lists.words(), *ends, width, *room.words, byref(room.counts)), room)


def end_to_end(parts: Sequence[Told]) -> tuple[Lists, array[int]]:
    """The contours of some shapes, and for each of these how many contours stand in it and before it."""
    points, contour_ends, ends = array("i"), array("Q"), array("Q")
    for part in parts:
        before = len(points) // 2
        points += part.points
        contour_ends.extend(before + end for end in part.contour_ends)
        ends.append(len(contour_ends))
    return lists_of(points, contour_ends, 2), ends


def near_nets(nets: Sequence[Told], distance: int) -> tuple[Outcome, list[tuple[int, int, int]]]:
    """How the call for nets nearer to each other than a distance ended, and the pairs with squared distances."""
    lists, ends = end_to_end(nets)
    call, count = call_of("mesh_clearances"), c_size_t(PAIRS * len(nets) + 1)
    while True:
        size = count.value
        room = (NetClearanceStructure * size)()
        given = (*lists.words(), address_of(ends), len(ends), distance)
        outcome = Outcome(call(*given, room, size, byref(count)))
        if outcome is not Outcome.ROOM_TOO_SMALL:
            found = room[: count.value] if outcome is Outcome.ANSWERED else []
            return outcome, [(pair.first, pair.second, pair.squared) for pair in found]
