"""Joins: how the moved sides of two sections are connected at a corner; and how far a join reaches.

A join is `("bevel",)`, `("miter", bits)` or `("round", bits, precision)`. A corner has its vertex, the ends of both
sides, the directions of both sections, how far the sides were moved, and a sense: 1 where the join runs
counterclockwise round the vertex, else -1."""
from collections import namedtuple

from arcs import arc
from plane import cross, direction, dot, minus, plus, rounded, sine_and_cosine, times

Corner = namedtuple("Corner", "vertex a b incoming outgoing radius sense")

def miter_angle(join):
    """A miter's angle as it counts: 5 degrees at least, and less than half a turn."""
    return min(max(join[1], 59_652_323), (1 << 31) - 1)

def join_padding(join, radius):
    """How far a join reaches from its vertex in a coordinate: a miter as far as the peak of its angle, and 2 more."""
    if join[0] != "miter" or radius == 0:
        return abs(radius)
    return rounded(abs(radius) << 30, sine_and_cosine(miter_angle(join) // 2)[0]) + 2

def turns_back(corner, p, q):
    """Whether the way from one point to another turns back round the corner."""
    return corner.sense * cross(minus(p, corner.vertex), minus(q, corner.vertex)) < 0

def round_points(width, options, corner):
    """The points of a round join between both ends: those of an arc, but for points from which, or to which, the way
    would turn back. Rounding puts such points behind where steps are fine and the radius is small."""
    used, ends = [corner.a], (direction(width, minus(end, corner.vertex)) for end in (corner.a, corner.b))
    for d in arc(width, options, *ends, corner.sense):
        point = plus(corner.vertex, times(d, corner.radius, width.unit))
        if not turns_back(corner, used[-1], point) and not turns_back(corner, point, corner.b):
            used.append(point)
    return used[1:]

def miter_points(width, join, min_turn, corner):
    """The points of a miter between both ends: none for turns below the least one, two where a sharp peak is clipped,
    else the peak; and none where a point lies past the padding or the way turns back."""
    _, a, b, va, vb, radius, _ = corner
    across, along = cross(va, vb), dot(va, vb)
    sine, cosine = sine_and_cosine(min(min_turn, 1 << 31))
    if across == 0 or sine * along > cosine * abs(across):
        return []
    sine, cosine = sine_and_cosine(miter_angle(join))
    if sine * -along > cosine * abs(across):
        sine, cosine = sine_and_cosine(miter_angle(join) // 2)
        reach = rounded(radius * cosine, sine)
        points = [plus(a, times(va, reach, width.unit)), minus(b, times(vb, reach, width.unit))]
    else:
        points = [plus(a, times(va, cross(minus(b, a), vb), across))]
    is_far = any(abs(c) > join_padding(join, radius) for p in points for c in minus(p, corner.vertex))
    return [] if is_far or any(turns_back(corner, p, q) for p, q in zip([a, *points], [*points, b])) else points

def join_points(width, join, min_turn, corner):
    """All points of a join, in order, both ends among them. Ends that are one point need no others."""
    if join[0] == "bevel" or corner.a == corner.b:
        return [corner.a, corner.b]
    is_round = join[0] == "round"
    between = round_points(width, join[1:], corner) if is_round else miter_points(width, join, min_turn, corner)
    return [corner.a, *between, corner.b]
