"""The stroke of a path whose width changes from vertex to vertex, along the outer tangents of the vertices' circles.

A vertex is `(x, y, width)`; a circle is `(center, radius)`. Circles and arcs run counterclockwise. A section has its
circles and the points at which both tangents touch them."""
from collections import namedtuple
from math import isqrt

from arcs import arc
from plane import chain, cross, direction, dot, fan, minus, plus, raised_root, times
from strokes import stroke_radius

Section = namedtuple("Section", "a b a_left b_left a_right b_right")

def circle_of(vertex):
    """The circle round a vertex: its radius is half of the width, rounded up."""
    return vertex[:2], stroke_radius(vertex[2])

def is_held(a, b):
    """Whether one of two circles holds the other."""
    v = minus(b[0], a[0])
    return dot(v, v) <= (a[1] - b[1]) ** 2

def section_of(width, a, b):
    """The section between two circles. There is none where one holds the other, or both radii are at most 1."""
    if is_held(a, b) or max(a[1], b[1]) <= 1:
        return None
    (x, y), delta, factor = minus(b[0], a[0]), a[1] - b[1], 1
    square = x * x + y * y
    while 4 * factor ** 2 * square < 8 * width.unit ** 2:
        factor *= 2
    along, root = factor * delta, isqrt((square - delta ** 2) * factor ** 2)
    sides = (along * x - root * y, along * y + root * x), (along * x + root * y, along * y - root * x)
    touched = (plus(center, times(side, radius, factor * square)) for side in sides for center, radius in (a, b))
    return Section(a, b, *touched)

def covers(section, circle):
    """Whether a circle lies in a section's quadrilateral: its center is, from each side, at least the radius away. It
    is told by a product with the side's length, raised, so a circle that touches a side may be missed."""
    corners = [section.a_left, section.b_left, section.b_right, section.a_right]
    turn = cross(minus(corners[1], corners[0]), minus(corners[2], corners[1]))
    sides = [(minus(r, q), minus(circle[0], q)) for q, r in zip(corners, corners[1:] + corners)]
    inward = [(cross(side, v) * (1 if turn > 0 else -1), circle[1] * raised_root(dot(side, side))) for side, v in sides]
    return turn != 0 and all(found >= max(0, least) for found, least in inward)

def chains_of(circles, sections):
    """The chains of a path: steps that are drawn together, by their numbers, the circle that they start from, and
    whether both ends are round. A step with a circle that holds the other parts them. So does a cover, a step to a
    circle that the step before covers, smaller than one of its own; it starts a new chain, butt, and may end it so."""
    chains, start, is_round, steps, ends_round = [], circles[0], True, [], True
    for i, (a, b) in enumerate(zip(circles, circles[1:])):
        before, ends_round = sections[i - 1] if i else None, True
        if is_held(a, b):
            chains.append((start, is_round, steps, a[1] >= b[1]))
            start, is_round, steps = b, a[1] < b[1], []
            continue
        if before and max(before.a[1], a[1]) > b[1] and covers(before, b):
            chains.append((start, is_round, steps, True))
            start, is_round, steps, ends_round = a, False, [], False
        steps.append(i)
    return [*chains, (start, is_round, steps, ends_round)]

class Drawing:
    """The edges of a stroke, and the pieces that they go round, as they are drawn."""

    def __init__(self, width, options):
        self.width, self.options, self.edges, self.pieces = width, options, [], []

    def polyline(self, center, x, y, radius):
        """A line from a point to another through the points of an arc round a center, by a radius."""
        ends = [direction(self.width, minus(end, center)) for end in (x, y)]
        between = [plus(center, times(d, radius, self.width.unit)) for d in arc(self.width, self.options, *ends, 1)]
        self.edges += chain([x, *between, y])
        self.pieces += fan(center, [x, *between, y])

    def circle(self, center, radius):
        """A circle: from its point in the east to the one in the west, and back. One of radius 1 or 0 has no edges."""
        east, west = plus(center, (radius, 0)), minus(center, (radius, 0))
        for ends in [(east, west), (west, east)] if radius > 1 else []:
            self.polyline(center, *ends, radius)

    def arc(self, center, x, y, is_round, is_major_on_a_ray):
        """What leads from a point to another at a vertex: a straight edge, or an arc round a center. It is major where
        the second lies to the right of the first; where they lie on one ray, it is as said, at an end of a chain where
        the circle is the greater one. From a point to itself a minor arc is nothing, and a major one a circle."""
        v, w = minus(x, center), minus(y, center)
        is_major = cross(v, w) < 0 or cross(v, w) == 0 and dot(v, w) >= 0 and is_major_on_a_ray
        if not is_round or center in (x, y) or not is_major and x == y:
            self.edges += chain([x, y])
            return
        radius, u, t = isqrt(dot(v, v)), direction(self.width, v), direction(self.width, w)
        if is_major and cross(u, t) == 0 and dot(u, t) > 0:
            self.circle(center, radius)
            self.edges += chain([x, y])
        else:
            self.polyline(center, x, y, radius)
            self.pieces.append((center, y, x))

    def joint(self, p, n):
        """What connects a section with the next: on each side an arc where the way opens there, else a straight edge.
        Sections that do not meet, since others between were left out, end and start butt."""
        center = p.b[0]
        if center != n.a[0]:
            self.edges += chain([p.b_right, p.b_left]) + chain([n.a_left, n.a_right])
            return
        turn, left_turn, right_turn = (cross(minus(q, p), minus(s, r)) for p, q, r, s in (
            (p.a[0], center, center, n.b[0]), (p.a_left, p.b_left, n.a_left, n.b_left),
            (p.a_right, p.b_right, n.a_right, n.b_right)))
        self.pieces.append((n.a_left, p.b_left, p.b_right, n.a_right))
        self.arc(center, n.a_left, p.b_left, left_turn < 0 or turn < 0, False)
        self.arc(center, p.b_right, n.a_right, right_turn > 0 or turn >= 0, True)

    def chain(self, circle, is_round, steps, ends_round, sections):
        """A chain: its sections with what starts, joins and ends them; or, without a step, the circle of its start."""
        found = [sections[i] for i in steps if sections[i]]
        for s in found:
            self.edges += chain([s.b_left, s.a_left]) + chain([s.a_right, s.b_right])
            self.pieces.append((s.a_right, s.b_right, s.b_left, s.a_left))
        if found:
            first, last = found[0], found[-1]
            self.arc(first.a[0], first.a_left, first.a_right, is_round, first.a[1] > first.b[1])
            for p, n in zip(found, found[1:]):
                self.joint(p, n)
            self.arc(last.b[0], last.b_right, last.b_left, ends_round, last.b[1] > last.a[1])
        elif not steps and (is_round or ends_round):
            self.circle(*circle)

def variable_stroke(width, path, options):
    """The edges of a path's stroke of variable width, and its pieces."""
    circles, drawing = [circle_of(vertex) for vertex in path], Drawing(width, options)
    sections = [section_of(width, a, b) for a, b in zip(circles, circles[1:])]
    for found in chains_of(circles, sections) if circles else []:
        drawing.chain(*found, sections)
    return drawing.edges, drawing.pieces

def variable_padding(paths):
    """How far strokes of variable width reach from a vertex: the greatest radius of all."""
    return max((stroke_radius(vertex[2]) for path in paths for vertex in path), default=0)
