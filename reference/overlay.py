"""The overlay after splitting: sides, the boundary, contours, and shapes. The fill is 1 where windings above 0 are
filled, and -1 where those below 0 are."""
from fractions import Fraction

from plane import cross, crossing, dot, double_area, loop, minus, winding
from splitting import counted, split

DEFAULT_OPTIONS = {"min_area": 0, "clockwise": False, "collinear": False, "distances": False}

def boundary_of(counts, fill):
    """Each split segment whose sides differ in fill, once, directed with the filled side on its left. The side to the
    east, or above, has the winding at the midpoint; the left of an edge has the winding of its right and its count."""
    found = []
    for (a, b), count in counts.items():
        q = a[0] + b[0], a[1] + b[1]
        left = sum(n * crossing(s, q, 2) for s, n in counts.items() if (2 * s[0][1] <= q[1]) != (2 * s[1][1] <= q[1]))
        left += count if b[1] > a[1] else 0
        if (left * fill > 0) != ((left - count) * fill > 0):
            found.append((a, b) if left * fill > 0 else (b, a))
    return found

def crossroads(boundary):
    """At each point the edges of a boundary that end there, and those that start there."""
    found = {}
    for edge in sorted(boundary):
        found.setdefault(edge[0], ([], []))[1].append(edge)
        found.setdefault(edge[1], ([], []))[0].append(edge)
    return found

def first_clockwise(edge, outgoing):
    """The edge, of those that leave the end of an edge, that comes first clockwise from where that one came."""
    back = minus(*edge)

    def turn(onward):
        ahead, aside = dot(back, minus(*onward[::-1])), cross(minus(*onward[::-1]), back)
        return (0 if aside > 0 else 2, Fraction(-ahead, aside)) if aside else (1 if ahead < 0 else 3, 0)
    return min(outgoing, key=turn)

def traced(onward):
    """The contours of a boundary, by what each edge goes on with."""
    rest, found = set(onward), []
    while rest:
        edge, points = min(rest), []
        while edge in rest:
            rest.remove(edge)
            points.append(edge[0])
            edge = onward[edge]
        found.append(points)
    return found

def is_straight(p, q, r):
    """Whether the way through three points runs straight on at the second."""
    return cross(minus(q, p), minus(r, q)) == 0 and dot(minus(q, p), minus(r, q)) > 0

def straightened(points):
    """A contour without the vertices that it runs straight through."""
    return [q for p, q, r in zip(points[-1:] + points, points, points[1:] + points) if not is_straight(p, q, r)]

def side_point(a, b):
    """A point of an edge that is nearer to its start than any whole point, and the grid that it is on."""
    m = 2 * max(abs(b[0] - a[0]), abs(b[1] - a[1]))
    return (m * a[0] + b[0] - a[0], m * a[1] + b[1] - a[1]), m

def arranged(contours, options):
    """Shapes of contours. Each begins at its least point, of several visits to that at the one with the least next
    point. Small ones are dropped. Those of positive area head shapes, and each other one stands with the head of least
    area that holds its side point. All are ordered by their points."""
    contours = [points if options["collinear"] else straightened(points) for points in contours]
    contours = sorted(min((points[i:] + points[:i] for i in range(len(points))), key=lambda turned: turned[:2])
                      for points in contours if abs(double_area(points)) >= 2 * options["min_area"])
    shapes = [[points] for points in contours if double_area(points) > 0]
    heads = sorted((double_area(points), points, i) for i, (points,) in enumerate(shapes))
    for points in contours:
        if double_area(points) <= 0:
            q, m = side_point(*points[:2])
            found = [shapes[i] for _, head, i in heads if winding(loop(head), q, m) != 0]
            if found:
                found[0].append(points)
            else:
                shapes.append([points])
    turn = -1 if options["clockwise"] else 1
    return [[points[:1] + points[1:][::turn] for points in shape] for shape in sorted(shapes)]

def resolved(edges, fill, options):
    """A resolution of edges: what is filled, as shapes. No contract says which edge a contour goes on with."""
    boundary = boundary_of(split(counted(edges)), fill)
    roads = crossroads(boundary)
    return arranged(traced({edge: first_clockwise(edge, roads[edge[1]][1]) for edge in boundary}), options)
