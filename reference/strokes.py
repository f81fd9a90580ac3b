"""The stroke of a path: each section drawn on its right as it runs and on its left back, with joins and caps.

A cap is `("butt",)`, `("square",)`, `("round", bits, precision)` or `("custom", points)`. A section runs from `a` to
`b` in a direction, and has the ends of its right and of its left side."""
from collections import namedtuple

from joins import Corner, join_padding, join_points, round_points
from plane import chain, cross, direction, dot, fan, minus, plus, raised_root, rounded, times

Section = namedtuple("Section", "a b d a_right b_right a_left b_left")

def stroke_radius(line_width):
    """Half of a width, rounded up. A width below 0 counts as 0."""
    return (max(line_width, 0) + 1) // 2

def sections_of(width, path, closed, radius):
    """The sections of a path, between neighbouring points that differ; a closed one goes on to its first point."""
    found = []
    for a, b in chain([*path, *path[:1]] if closed else path):
        d = direction(width, minus(b, a))
        x, y = times(d, radius, width.unit)
        found.append(Section(a, b, d, *(plus(p, side) for side in ((y, -x), (-y, x)) for p in (a, b))))
    return found

def section_points(s, side):
    """The corners of what is drawn of a section. A half is drawn between the path and its side."""
    right, left = (s.a_right, s.b_right), (s.b_left, s.a_left)
    return {"both": right + left, "right": right + (s.b, s.a), "left": (s.a, s.b) + left}[side]

def corner_points(width, style, before, after, radius):
    """What is drawn where a path goes from a section to the next: the side that the join is on, its points, and those
    of the way through the vertex on the other side. A turn to the right is drawn as it is seen from its other end."""
    v, (x0, y0), (x1, y1) = before.b, before.d, after.d
    if cross(minus(v, before.a), minus(after.b, v)) >= 0:
        side, through = "right", [after.a_left, v, before.b_left]
        corner = Corner(v, before.b_right, after.a_right, before.d, after.d, radius, 1)
    else:
        side, through = "left", [before.b_right, v, after.a_right]
        corner = Corner(v, after.a_left, before.b_left, (-x1, -y1), (-x0, -y0), radius, 1)
    return side, join_points(width, style["join"], style["min_turn"], corner), through

def cap_points(width, cap, center, start, end, outward, radius):
    """The points of a cap, from side to side. Custom points are turned with the axis x to the direction of the end."""
    between, (x, y) = [], outward
    if cap[0] == "square":
        between = [plus(p, times(outward, radius, width.unit)) for p in (start, end)]
    elif cap[0] == "round":
        between = round_points(width, cap[1:], Corner(center, start, end, outward, outward, radius, 1))
    elif cap[0] == "custom":
        turned = [(dot((x, -y), p), dot((y, x), p)) for p in cap[1]]
        between = [plus(center, (rounded(p[0], width.unit), rounded(p[1], width.unit))) for p in turned]
    return [start, *between, end]

def end_points(width, style, side, first, last, radius):
    """Both ends of an open path, each with the points that it runs through. A half is cut off straight."""
    if side == "both":
        ends = [(style["start"], first.a, first.a_left, first.a_right, (-first.d[0], -first.d[1])),
                (style["end"], last.b, last.b_right, last.b_left, last.d)]
        return [(end[1], cap_points(width, *end, radius)) for end in ends]
    corners, others = section_points(first, side), section_points(last, side)
    return [(first.a, [corners[3], corners[0]]), (last.b, [others[1], others[2]])]

def stroke(width, path, closed, style):
    """The edges of a path's stroke, and its pieces: a parallelogram for each section, the fans of joins and caps."""
    radius, side = stroke_radius(style["width"]), style.get("side", "both")
    sections = sections_of(width, path, closed, radius) if radius > 1 else []
    pieces = [section_points(s, side) for s in sections]
    edges = [edge for a, b, c, d in pieces for edge in ((a, b), (c, d))]
    for before, after in list(zip(sections[-1:] + sections, sections))[0 if closed else 1:]:
        join_side, points, through = corner_points(width, style, before, after, radius)
        if side != join_side:
            edges += chain(through)
        if side in ("both", join_side):
            edges += chain(points)
            pieces += fan(before.b, points)
    ends = sections[:1] + sections[-1:] if not closed else []
    for center, points in end_points(width, style, side, *ends, radius) if ends else []:
        edges += chain(points)
        pieces += fan(center, points)
    return edges, pieces

def stroke_padding(style):
    """How far a stroke reaches from a vertex: as far as its join and both caps, a half as far as its join alone. A
    square cap reaches twice the radius, one of points as far as the farthest, raised, the others the radius."""
    radius = stroke_radius(style["width"])
    reaches = [join_padding(style["join"], radius)]
    for cap in (style["start"], style["end"]) if style["side"] == "both" else ():
        points = cap[1] if cap[0] == "custom" else [(2 * radius if cap[0] == "square" else radius, 0)]
        reaches += [raised_root(dot(p, p)) for p in points]
    return max(reaches)
