"""How far drawings reach from their paths, and how near to them strokes hold all points. Both are told as twice the
square of a distance in grid units; what a formula says, as a distance."""
from math import isqrt

from arcs import sine_and_cosine
from joins import join_padding
from plane import I32, chain, cross, dot, minus, raised_root, times
from strokes import corner_points, end_points, sections_of

def rounded_reach(n):
    """Twice the square of a length with what rounding may add to it."""
    return 2 * n * n + 3 * n + 1

def join_reach(join, radius):
    """How far a join reaches from its corner, as twice the square of a distance."""
    peak = 4 * join_padding(join, radius) ** 2 if join[0] == "miter" else 0
    return max(rounded_reach(radius), peak)

def cap_reach(cap, radius):
    """How far a cap reaches from its end, likewise."""
    if cap[0] == "custom":
        return rounded_reach(max((raised_root(dot(p, p)) for p in cap[1]), default=0))
    return rounded_reach(radius) * (2 if cap[0] == "square" else 1)

def fan_room(center, points):
    """How near to a center all is in the triangles from it over a list of points, as twice the square of a distance."""
    found = []
    for p, q in chain(points):
        x, y = minus(p, center), minus(q, center)
        if cross(x, y) < 0:
            return [-1]
        found += [2 * dot(x, x), 2 * dot(y, y), dot(x, x) + dot(x, y), dot(y, y) + dot(x, y)]
    return found

def stroke_room(width, path, closed, style, radius):
    """How much room the sections, joins and caps of a stroke leave, and its butt ends, which leave out of account what
    is beyond them. There is none but for strokes on both sides, of radii above 1 and up to a quarter of the unit."""
    sections = sections_of(width, path, closed, radius)
    if style["side"] != "both" or radius < 2 or 4 * radius > width.unit or not sections:
        return -1, []
    found, butts = [], []
    for s in sections:
        v = minus(s.b, s.a)
        found.append(2 * dot(times(s.d, radius, width.unit), v) ** 2 // dot(v, v))
    for before, after in list(zip(sections[-1:] + sections, sections))[0 if closed else 1:]:
        found += fan_room(before.b, corner_points(width, style, before, after, radius)[1])
    ends = [] if closed else end_points(width, style, "both", sections[0], sections[-1], radius)
    outward = [times(sections[0].d, -radius, width.unit), times(sections[-1].d, radius, width.unit)]
    for (center, points), key, v in zip(ends, ("start", "end"), outward):
        if style[key][0] == "butt":
            butts.append((center, v))
        else:
            found += fan_room(center, points)
    return min(found), butts

def kept_by_formula(width, closed, style, radius):
    """The distance within which a formula says that round strokes hold all points: what is left of the radius times the
    cosine of half the step, less one. None for other strokes, and beyond the radii for which the formula is."""
    kinds = [style["join"]] + ([] if closed else [style["start"], style["end"]])
    if style["side"] != "both" or width is not I32 or not 2 <= radius <= 1 << 17 or any(k[0] != "round" for k in kinds):
        return None
    step = min(max(1 << 22, *(k[1] for k in kinds)), 1 << 29)
    return isqrt(radius * radius * ((1 << 30) + sine_and_cosine(step)[1]) >> 31) - 1
