"""The relation between a request and the shapes that may be answered. It allows several answers: which segments are
split first is free, and so is which contour an edge belongs to where several leave one point. Where the orders of
splits are few enough, an answer is right exactly if one of them gives it. Else it is held to what they have in common.
"""
from itertools import permutations, product
from math import factorial, prod
from random import Random

from answering import drawn
from overlay import arranged, boundary_of, crossroads, is_straight, side_point, straightened, traced
from plane import cross, double_area, is_safe, loop, minus, winding
from splitting import all_results, bendable, counted, is_whole, legal_splits

def pairings(boundary):
    """All ways in which the edges of a boundary may go on where several leave a point; none where they are over 64."""
    roads = crossroads(boundary).values()
    if prod(factorial(len(outgoing)) for _, outgoing in roads) > 64:
        return []
    orders = [[list(zip(incoming, order)) for order in permutations(outgoing)] for incoming, outgoing in roads]
    return [dict(pair for pairs in chosen for pair in pairs) for chosen in product(*orders)]

def is_near(edge, q, m, nearness):
    """Whether a point of the grid `m` is within a distance of an edge, which is given in 64ths of a unit."""
    (ax, ay), (dx, dy), reach = edge[0], minus(*edge[::-1]), m * nearness
    x, y = q[0] - m * ax, q[1] - m * ay
    is_in_box = all(m * min(0, d) * 64 - reach <= 64 * c <= m * max(0, d) * 64 + reach for c, d in ((x, dx), (y, dy)))
    return is_in_box and 64 * abs(dx * y - dy * x) <= reach * (abs(dx) + abs(dy))

class Relation:
    """What may be answered to a request for shapes. It has the edges that are drawn, a list for each path, and, for an
    outline, the fill of each contour."""

    def __init__(self, request):
        self.lists, self.options, self.width = drawn(request), request.options, request.width
        self.fills = [1 if double_area(path) > 0 else -1 for path in request.paths if request.op == "outline"]
        self.edges = [edge for edges in self.lists for edge in edges]

    def first_results(self):
        """What resolving each contour of an outline alone may give: lists of edges, each with its nearness; none where
        there are more than 8. For strokes it is what is drawn."""
        if not self.fills:
            return [(self.edges, 0)]
        found = {((), 0)}
        for edges, fill in zip(self.lists, self.fills):
            own = set()
            for counts, nearness in all_results(edges):
                ways = pairings(boundary_of(counts, fill))
                if not ways:
                    return []
                for onward in ways:
                    contours = [straightened(points)[::fill] for points in traced(onward)]
                    own.add((tuple(sorted(edge for points in contours for edge in loop(points))), nearness))
            found = {(a + b, max(k, n)) for (a, k), (b, n) in product(found, own)}
            if len(found) > 8:
                return []
        return sorted(found)

    def has_boundary(self, contours, boundary):
        """Whether contours have a boundary's edges, each once, but those of contours below the least area."""
        roads, rest, least = crossroads(boundary), set(boundary), 2 * self.options["min_area"]
        for a, b in (edge for points in contours for edge in loop(points)):
            while a != b:
                ways = roads.get(a, ((), ()))[1]
                way = next((edge for edge in ways if edge[1] == b or is_straight(*edge, b)), None)
                if way not in rest or self.options["collinear"] and way[1] != b:
                    return False
                rest.remove(way)
                a = way[1]
        ways = pairings(rest) if rest and least else []
        return not rest or least > 0 and (not ways or any(
            all(abs(double_area(points)) < least for points in traced(onward)) for onward in ways))

    def far_fault(self, edges, nearness):
        """What is wrong at points that no rounding reaches: farther than the nearness from all that is drawn or, for
        strokes without one, in the box of no edge that may be bent. What is drawn fills a point where strokes wind
        above 0, or more outer contours have an outline that winds above 0 than holes have one that winds below 0."""
        boxes, noise = bendable(list(counted(self.edges))) if nearness is None else [], Random(0)
        for _ in range(40 if self.edges and (nearness is not None or not self.fills) else 0):
            p, r = noise.choice(noise.choice(self.edges)), noise.choice(noise.choice(self.edges + edges))
            q = tuple(a + b + noise.randint(-3, 3) for a, b in zip(p, r))
            if any(all(2 * min(span) <= c <= 2 * max(span) for c, span in zip(q, zip(*box))) for box in boxes) or (
                    nearness is not None and any(is_near(edge, q, 2, nearness) for edge in self.edges)):
                continue
            counts = [winding(drawn_edges, q, 2) for drawn_edges in self.lists]
            count = sum(fill for fill, n in zip(self.fills, counts) if fill * n > 0) if self.fills else sum(counts)
            if winding(edges, q, 2) != (count > 0):
                return f"the winding at {q} of the grid 2"
        return ""

    def common_fault(self, contours, nearness):
        """What is wrong with an answer, whatever the order of splits: contours meet in whole points, no two edges share
        more than those, and, where none is left out for its area, each has what is filled on its left, and no point
        far away is filled otherwise."""
        edges = [edge for points in contours for edge in loop(points)]
        segments = list(counted(edges))
        for s, t in ((s, t) for i, s in enumerate(segments) for t in segments[:i] if legal_splits(s, t)):
            if not is_whole(s, t) or cross(minus(*s), minus(*t)) == 0:
                return f"{s} and {t} share more than whole points"
        for a, b in edges if not self.options["min_area"] else []:
            if winding(edges, *side_point(a, b)) != (b[1] < a[1] or b[1] == a[1] and b[0] > a[0]):
                return f"the sides of {(a, b)}"
        return "" if self.options["min_area"] else self.far_fault(edges, nearness)

    def fault(self, shapes, nearness=None):
        """What is wrong with shapes, and with the nearness that is told with them, if it is; and what they were held
        against. Nothing is wrong where the fault is empty."""
        shapes = [[[tuple(p) for p in points] for points in shape] for shape in shapes]
        turn = -1 if self.options["clockwise"] else 1
        contours = [points[:1] + points[1:][::turn] for shape in shapes for points in shape]
        is_proper = all(len(points) > 2 and all(is_safe(self.width, p, 0) for p in points) for points in contours)
        if not is_proper or arranged(contours, self.options) != shapes:
            return "the form or the order of contours", "form"
        firsts = [(all_results(edges), near) for edges, near in self.first_results()]
        for counts, told in ((counts, near + last) for results, near in firsts for counts, last in results):
            if nearness in (None, told) and self.has_boundary(contours, boundary_of(counts, 1)):
                return "", "all orders"
        if firsts and all(results for results, _ in firsts):
            return "no order of splits gives it", "all orders"
        return self.common_fault(contours, nearness), "what all orders share"

    def limit_fault(self, limit, is_refused):
        """What is wrong with a refusal for a limit on splits, or with an answer in spite of it. A split adds at most
        two segments, so a least number is needed; and where no two edges meet inside one, none is made."""
        segments = list(counted(self.edges))
        if is_refused:
            return "" if any(legal_splits(s, t) for s in segments for t in segments) else "nothing is split"
        lists = self.lists if self.fills else [self.edges]
        added = [[len(counts) - len(counted(edges)) for counts, _ in all_results(edges)] for edges in lists]
        return "more splits are needed" if sum((min(found, default=0) + 1) // 2 for found in added) > limit else ""
