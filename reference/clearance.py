"""How near the edges of shapes come to what they are drawn of: the square of the least distance, rounded down."""
from fractions import Fraction

from plane import cross, loop, minus

def dot(a, b):
    """The dot product."""
    return a[0] * b[0] + a[1] * b[1]

def from_point(p, edge):
    """The squared distance between a point and an edge."""
    along, way = minus(*edge[::-1]), minus(p, edge[0])
    part = dot(along, way)
    if part <= 0:
        return Fraction(dot(way, way))
    if part >= dot(along, along):
        return Fraction(dot(minus(p, edge[1]), minus(p, edge[1])))
    return Fraction(cross(along, way) ** 2, dot(along, along))

def are_crossing(e, f):
    """Whether each of two edges has its ends on both sides of the other."""
    sides = [cross(minus(*a[::-1]), minus(p, a[0])) for a, b in ((e, f), (f, e)) for p in b]
    return sides[0] * sides[1] < 0 and sides[2] * sides[3] < 0

def separation(e, f):
    """The squared distance of two edges."""
    return 0 if are_crossing(e, f) else min(from_point(p, a) for a, b in ((e, f), (f, e)) for p in b)

def clearance(request, shapes):
    """The least squared distance, rounded down, if there is an edge and a section."""
    paths = [[point[:2] for point in path] for path in request.paths]
    is_closed = request.op == "outline" or request.closed
    sections = [section for path in paths for section in zip(path, path[1:] + path[:1] if is_closed else path[1:])]
    edges = [edge for shape in shapes for points in shape for edge in loop([tuple(point) for point in points])]
    found = [separation(edge, section) for section in sections for edge in edges]
    return int(min(found)) if found else None
