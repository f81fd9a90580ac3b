"""Joins, caps and arcs: by their names, by Shapely's, by the words of a request, and as the library's calls take them.

Every part of the package that says how something is drawn, and `doors/tiles`, says it by this module.
"""

from __future__ import annotations

import ctypes
import math
from ctypes import c_int32, c_size_t, c_uint32, c_uint64
from dataclasses import dataclass, replace
from fractions import Fraction
from typing import Any, Mapping, Optional, Sequence, Union

from .errors import DrawingError
from .exact import Number, nearest_whole, read_number
from .grid import Grid

TURN = 2**32
FINEST_STEP = 2**22
COARSEST_STEP = 2**29
PRECISION = 5
MOST_NUMBER = 2**31 - 1
"""The greatest coordinate or length that a call in 32 bits takes."""

# As Shapely's: 16 steps for a quarter of a turn.
DEFAULT_STEP = 5.625
MITER_LIMIT = 5.0
MOST_MITER_LIMIT = 22.9
MIN_TURN = 5.0

# What rounding takes from an arc at most: of its radius a little for each step, and some grid units beside.
LOSS_A_STEP = Fraction(4, 2**30)
LOSS_ON_GRID = 3

JOINS = {"round": "round", "miter": "miter", "mitre": "miter", "bevel": "bevel"}
CAPS = {"round": "round", "square": "square", "butt": "butt", "flat": "butt"}

# The numbers of the header for C, which is their source: a test compares them with it.
JOIN_KINDS = {"bevel": 0, "miter": 1, "round": 2}
CAP_KINDS = {"butt": 0, "square": 1, "round": 2, "custom": 3}
SIDE_KINDS = {"both": 0, "left": 1, "right": 2}
RULE_KINDS = {
    "subject": 0,
    "clip": 1,
    "intersect": 2,
    "union": 3,
    "difference": 4,
    "inverse_difference": 5,
    "xor": 6,
}
FILL_KINDS = {"even_odd": 0, "non_zero": 1, "positive": 2, "negative": 3}

SIDES = tuple(SIDE_KINDS)

# Those of each.c.
OPERATIONS = {"outline": 0, "stroke": 1, "variable_stroke": 2}

# What a request means that says nothing of them.
DEFAULT_MIN_TURN = 59_652_323
DEFAULT_ARC = (68_356_528, PRECISION)

Cap = Union[str, Sequence[Sequence[Number]]]


# As the library's calls take them


class ArcStructure(ctypes.Structure):
    _fields_ = [("max_step", c_uint32), ("precision", c_uint32)]


class JoinStructure(ctypes.Structure):
    _fields_ = [("kind", c_uint32), ("miter_angle", c_uint32), ("miter_min_turn", c_uint32), ("arc", ArcStructure)]


class OutlineStructure(ctypes.Structure):
    _fields_ = [("outer_offset", c_int32), ("inner_offset", c_int32), ("join", JoinStructure)]


class CapStructure(ctypes.Structure):
    _fields_ = [("kind", c_uint32), ("arc", ArcStructure)]


class StrokeStructure(ctypes.Structure):
    _fields_ = [
        ("width", c_int32),
        ("join", JoinStructure),
        ("start_cap", CapStructure),
        ("end_cap", CapStructure),
        ("side", c_uint32),
        ("closed", c_uint32),
    ]


class OptionsStructure(ctypes.Structure):
    _fields_ = [("min_area", c_uint64), ("clockwise", c_uint32), ("collinear", c_uint32)]


class BooleanStructure(ctypes.Structure):
    _fields_ = [("rule", c_uint32), ("subject_fill", c_uint32), ("clip_fill", c_uint32)]


class CountsStructure(ctypes.Structure):
    _fields_ = [("points", c_size_t), ("contours", c_size_t), ("shapes", c_size_t)]


class NetClearanceStructure(ctypes.Structure):
    _fields_ = [("first", c_size_t), ("second", c_size_t), ("squared", c_uint64)]


Points = Sequence[Sequence[int]]


@dataclass(frozen=True)
class Style:
    """The style of a call.

    operation: `outline`, `stroke` or `variable_stroke`.
    structure: what the call takes.
    caps: of a stroke the points of both caps, which are empty but for custom ones.
    """

    operation: str
    structure: ctypes.Structure
    caps: tuple[Points, ...] = ()

    def words(self, number: Any = c_int32) -> list[Any]:
        """The arguments of the call that say how to draw, with points of caps in numbers of a kind."""
        words: list[Any] = [ctypes.byref(self.structure)]
        for points in self.caps:
            flat = [coordinate for point in points for coordinate in point]
            words += [(number * len(flat))(*flat), len(points)]
        return words


def are_numbers(numbers: Sequence[int]) -> bool:
    """Whether all numbers fit the library's coordinates and lengths in 32 bits."""
    return all(abs(number) <= MOST_NUMBER for number in numbers)


@dataclass(frozen=True)
class End:
    """A cap on the grid: its kind, its arc, and the points of a custom one."""

    kind: str
    arc: tuple[int, int] = (0, 0)
    points: Points = ()

    def structure(self) -> CapStructure:
        """The cap as a call takes it."""
        return CapStructure(CAP_KINDS[self.kind], ArcStructure(*self.arc))


@dataclass(frozen=True)
class JoinStyle:
    """A join of outer corners: its kind, the angle below which a miter is clipped, its least turn, and its arc."""

    kind: str
    angle: int = 0
    min_turn: int = DEFAULT_MIN_TURN
    arc: tuple[int, int] = (0, 0)

    def structure(self) -> JoinStructure:
        """The join as a call takes it."""
        return JoinStructure(JOIN_KINDS[self.kind], self.angle, self.min_turn, ArcStructure(*self.arc))


def outline_style(outer: int, inner: int, join: JoinStyle) -> Optional[Style]:
    """A style of outlines; none where an offset does not fit."""
    if not are_numbers([outer, inner]):
        return None
    return Style("outline", OutlineStructure(outer, inner, join.structure()))


def stroke_style(width: int, join: JoinStyle, ends: tuple[End, End], side: str, closed: bool) -> Optional[Style]:
    """A style of strokes; none where the width or a point of a cap does not fit."""
    if not are_numbers([width, *(number for end in ends for point in end.points for number in point)]):
        return None
    start, end = ends
    structure = StrokeStructure(
        width, join.structure(), start.structure(), end.structure(), SIDE_KINDS[side], int(closed)
    )
    return Style("stroke", structure, (start.points, end.points))


def variable_style(arc: tuple[int, int]) -> Style:
    """A style of strokes of variable width."""
    return Style("variable_stroke", ArcStructure(*arc))


def boolean_structure(rule: str, subject_fill: str, clip_fill: str) -> BooleanStructure:
    """A boolean by a rule, of operands that are filled by rules."""
    return BooleanStructure(RULE_KINDS[rule], FILL_KINDS[subject_fill], FILL_KINDS[clip_fill])


# In the words of a request


def named(said: Any) -> tuple[str, Any]:
    """The name of a kind in a request, and what is said of it."""
    return next(iter(said.items())) if isinstance(said, Mapping) else (said, None)


def arc_of(said: Sequence[int]) -> tuple[int, int]:
    """An arc of a request."""
    step, precision = said
    return step, precision


def join_of(words: Mapping[str, Any]) -> JoinStyle:
    """The join of a style of a request."""
    kind, more = named(words.get("join", "bevel"))
    min_turn = words.get("min_turn", DEFAULT_MIN_TURN)
    if kind == "round":
        return JoinStyle(kind, 0, min_turn, arc_of(more))
    return JoinStyle(kind, more if kind == "miter" else 0, min_turn)


def end_of(said: Any) -> End:
    """A cap of a request."""
    kind, more = named(said)
    if kind == "round":
        return End(kind, arc_of(more))
    return End(kind, points=more if kind == "custom" else ())


def style_of(request: Mapping[str, Any]) -> Style:
    """The style of a request that is well formed."""
    words = request["style"]
    style: Optional[Style]
    if request["op"] == "outline":
        style = outline_style(words["outer"], words["inner"], join_of(words))
    elif request["op"] == "stroke":
        ends = (end_of(words.get("start", "butt")), end_of(words.get("end", "butt")))
        closed = bool(request.get("closed", False))
        style = stroke_style(words["width"], join_of(words), ends, words.get("side", "both"), closed)
    else:
        style = variable_style(arc_of(words.get("arc", DEFAULT_ARC)))
    if style is None:
        raise ValueError(f"a length of the style passes 32 bits: {words}")
    return style


# By their names


def choose(what: str, name: Any, names: Union[Mapping[str, str], Sequence[str]]) -> str:
    """One of the listed names."""
    if isinstance(name, str) and name in names:
        return names[name] if isinstance(names, Mapping) else name
    raise DrawingError("", f"{what} is {name!r}, and has to be one of {', '.join(names)}")


def bits_of(degrees: float) -> int:
    """An angle in bits of 2^32 a turn, cut."""
    return int(degrees / 360 * TURN)


@dataclass(frozen=True)
class Arcs:
    """The arcs of joins and caps.

    step: the greatest angle between neighbouring points, in bits.
    outside: whether radii are enlarged, so that arcs lie outside their circles.
    more: by how many grid units they are enlarged besides.
    """

    step: int
    outside: bool
    more: int = 0

    def options(self) -> tuple[int, int]:
        """The greatest step, and how near a step comes to it."""
        return self.step, PRECISION

    def radius(self, grid: Grid, radius: Number) -> int:
        """A radius of either sign in grid units: rounded, or enlarged so that nothing comes nearer than it."""
        size = abs(Fraction(radius)) * grid.scale
        if not self.outside or size == 0:
            return nearest_whole(Fraction(radius) * grid.scale)
        outer = size / Fraction(math.cos(math.pi * self.step / TURN))
        steps = TURN // self.step + 2
        outer += outer * steps * LOSS_A_STEP + LOSS_ON_GRID + self.more
        return math.ceil(outer) if radius > 0 else -math.ceil(outer)

    def width(self, grid: Grid, width: Number) -> int:
        """A width in grid units, likewise. One below 0 counts as 0."""
        if width <= 0:
            return 0
        if not self.outside:
            return nearest_whole(Fraction(width) * grid.scale)
        return 2 * self.radius(grid, Fraction(width) / 2)


def read_arcs(radius: Union[Number, Fraction], step: Any, tolerance: Any, at_least: bool) -> Arcs:
    """The arcs round a greatest radius, by a step in degrees or a tolerance in units of the drawing."""
    if step is not None and tolerance is not None:
        raise DrawingError("", "step and tolerance both say how fine arcs are: one of them is enough")
    if tolerance is None:
        degrees = float(read_number("", "step", DEFAULT_STEP if step is None else step))
        bits = bits_of(degrees)
        if not FINEST_STEP <= bits <= COARSEST_STEP:
            raise DrawingError("", f"step is {degrees} degrees, and has to be from 360/1024 to 45")
        return Arcs(bits, at_least)
    gap = read_number("", "tolerance", tolerance)
    if gap <= 0:
        raise DrawingError("", f"tolerance is {tolerance}, and has to be above 0")
    bits = COARSEST_STEP
    # Where the gap may be as great as the radius, any step does.
    size = abs(Fraction(radius))
    if gap < size:
        bits = step_for_gap(float(Fraction(gap) / size), at_least)
    if bits < FINEST_STEP:
        least = float(size) * (1 - math.cos(math.pi / 1024))
        raise DrawingError("", f"tolerance is {tolerance}, and arcs of 1024 steps a turn come only within {least:.3g}")
    return Arcs(bits, at_least)


def step_for_gap(gap: float, outside: bool) -> int:
    """The greatest step whose chords keep within a gap, below 1, of their circle of the radius 1, in bits."""
    if outside:
        half = math.atan(math.sqrt(gap * (2 + gap)))
    else:
        half = 2 * math.asin(math.sqrt(gap / 2))
    return min(COARSEST_STEP, int(half / math.pi * TURN))


def read_join(join: Any, arcs: Arcs, miter_limit: Any, min_turn: Any) -> JoinStyle:
    """A join by its name."""
    kind = choose("join", join, JOINS)
    if arcs.outside and kind != "round":
        raise DrawingError("", f"at_least needs round joins: a {kind} may come nearer to a corner")
    if kind == "bevel":
        return JoinStyle(kind)
    if kind == "round":
        return JoinStyle(kind, arc=arcs.options())
    limit = float(read_number("", "miter_limit", miter_limit))
    if not 1 <= limit <= MOST_MITER_LIMIT:
        raise DrawingError("", f"miter_limit is {limit}, and has to be from 1 to {MOST_MITER_LIMIT}")
    turn = float(read_number("", "min_turn", min_turn))
    if not 0 <= turn <= 180:
        raise DrawingError("", f"min_turn is {turn} degrees, and has to be from 0 to 180")
    angle = math.degrees(2 * math.asin(1 / limit))
    return JoinStyle(kind, bits_of(angle), bits_of(turn))


@dataclass(frozen=True)
class CapStyle:
    """The cap of an end: a kind, or points in units of the drawing."""

    kind: str
    points: tuple[tuple[Number, Number], ...] = ()

    def on(self, grid: Grid, arcs: Arcs) -> End:
        """The cap on a grid."""
        if self.kind == "round":
            return End(self.kind, arcs.options())
        return End(self.kind, points=[[grid.length(x), grid.length(y)] for x, y in self.points])


def read_cap(what: str, cap: Any) -> CapStyle:
    """A cap by its name, or by its points for an end at (0, 0) that looks along the axis x, from right to left."""
    if isinstance(cap, str) or not hasattr(cap, "__iter__"):
        return CapStyle(choose(what, cap, CAPS))
    points = []
    for index, point in enumerate(getattr(cap, "tolist", lambda: cap)()):
        where = f"{what}, point {index}"
        if not isinstance(point, (list, tuple)) or len(point) != 2:
            raise DrawingError(where, f"it is {point!r}, and has to have two coordinates")
        points.append((read_number(where, "x", point[0]), read_number(where, "y", point[1])))
    return CapStyle("custom", tuple(points))


# By Shapely's names

# Its numbers, which older versions take in place of names.
JOIN_NUMBERS = {1: "round", 2: "mitre", 3: "bevel"}
CAP_NUMBERS = {1: "round", 2: "flat", 3: "square"}
CAP_STYLES = ("round", "square", "flat")
JOIN_STYLES = ("round", "mitre", "bevel")

MOST_SEGMENTS = 256


@dataclass(frozen=True)
class Look:
    """Arcs and joins."""

    arcs: Arcs
    join: JoinStyle

    def enlarged(self, more: int) -> Look:
        """The same with radii enlarged by some grid units."""
        return replace(self, arcs=replace(self.arcs, more=more))


def one_of(name: str, value: Any, other: str, told: Any) -> Any:
    """What is said by a name of this package or by another one of Shapely, but not by both."""
    if value is not None and told is not None:
        raise DrawingError("", f"{name} and {other} both say the same thing: one of them is enough")
    return value if value is not None else told


def styled(what: str, value: Any, numbers: dict[int, str], names: tuple[str, ...]) -> Any:
    """A style of Shapely by its name: it may be given by its number, or by a member of an enumeration."""
    if value is None:
        return None
    name = getattr(value, "name", value)
    if isinstance(name, int) and not isinstance(name, bool):
        name = numbers.get(name, name)
    return choose(what, name, names)


def step_of(step: Any, tolerance: Any, quad_segs: Any) -> Any:
    """The step of arcs, by itself or by how many segments a quarter of a turn has."""
    if quad_segs is None:
        return step
    if step is not None or tolerance is not None:
        raise DrawingError("", "quad_segs, step and tolerance each say how fine arcs are: one of them is enough")
    count = read_number("", "quad_segs", quad_segs)
    if count != int(count) or not 2 <= count <= MOST_SEGMENTS:
        raise DrawingError("", f"quad_segs is {quad_segs}, and has to be a whole number from 2 to {MOST_SEGMENTS}")
    return 90 / int(count)


def read_look(
    radius: Union[Number, Fraction],
    *,
    join: Optional[str],
    step: Any,
    tolerance: Any,
    at_least: bool,
    miter_limit: Any,
    min_turn: Any,
    quad_segs: Any = None,
    join_style: Any = None,
    mitre_limit: Any = None,
) -> Look:
    """The arcs round a greatest radius, and the joins."""
    arcs = read_arcs(radius, step_of(step, tolerance, quad_segs), tolerance, at_least)
    named = one_of("join", join, "join_style", styled("join_style", join_style, JOIN_NUMBERS, JOIN_STYLES))
    limit = one_of("miter_limit", miter_limit, "mitre_limit", mitre_limit)
    kind = "round" if named is None else named
    least = MIN_TURN if min_turn is None else min_turn
    return Look(arcs, read_join(kind, arcs, MITER_LIMIT if limit is None else limit, least))


def read_caps(what: str, cap: Optional[Cap], cap_style: Any, other: Optional[Cap] = None) -> CapStyle:
    """The cap of an end, by this package's name or Shapely's, unless the end has another one of its own."""
    told = one_of("cap", cap, "cap_style", styled("cap_style", cap_style, CAP_NUMBERS, CAP_STYLES))
    chosen = other if other is not None else told
    return read_cap(what, "round" if chosen is None else chosen)
