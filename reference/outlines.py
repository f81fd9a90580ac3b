"""The outline of a contour: its sections moved by an offset, with joins where the moved sections part."""
from joins import Corner, join_points
from plane import chain, cross, direction, dot, double_area, fan, loop, minus, plus, times

def cleaned(contour):
    """A contour without repeats, then without points that it runs straight through. Spikes stay. It begins anywhere."""
    points = [p for i, p in enumerate(contour) if p != contour[i - 1]]
    sides = [(minus(p, points[i - 1]), minus(p, points[i + 1 - len(points)])) for i, p in enumerate(points)]
    return [p for p, (a, b) in zip(points, sides) if cross(a, b) != 0 or dot(a, b) > 0]

def outline(width, contour, offset, join, min_turn):
    """The edges of a contour's outline, and its pieces: a strip for each section, and a fan for each outer corner. At
    an outer corner the moved sections part: it turns away from the side that they are moved to, or turns back."""
    moved, edges, pieces = [], [], []
    for a, b in loop(cleaned(contour)):
        d = direction(width, minus(b, a))
        x, y = times(d, offset, width.unit)
        moved.append((a, b, d, plus(a, (y, -x)), plus(b, (y, -x))))
    for (a0, _, d0, _, top0), (a, b, d, a_top, b_top) in zip(moved[-1:] + moved[:-1], moved):
        edges += chain([a_top, b_top])
        pieces.append((a, a_top, b_top, b))
        onward, previous = minus(b, a), minus(a, a0)
        turn = cross(onward, previous)
        if (turn > 0) == (offset < 0) if turn else dot(onward, previous) < 0:
            corner = Corner(a, top0, a_top, d0, d, abs(offset), 1 if offset >= 0 else -1)
            points = join_points(width, join, min_turn, corner)
            edges += chain(points)
            pieces += fan(a, points)
        else:
            edges += chain([top0, a, a_top])
    return edges, pieces if offset else []

def outline_edges(width, contour, style):
    """The edges of a contour's outline by a style: by the outer offset where the contour runs counterclockwise, by the
    inner one where it runs clockwise. A contour of area 0 has none."""
    area = double_area(contour)
    offset = style["outer" if area > 0 else "inner"]
    return outline(width, contour, offset, style["join"], style["min_turn"])[0] if area else []
