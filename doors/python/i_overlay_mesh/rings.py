"""Which rings bound a polygon from outside and which are its holes. The library tells them by their sense."""

from __future__ import annotations

from typing import Optional, Sequence

from .grid import Place

RULES = ("first", "nested", "sense")

Ring = Sequence[Place]


def double_area(ring: Ring) -> int:
    """Twice the area, above 0 where the ring runs counterclockwise."""
    return sum(a[0] * b[1] - a[1] * b[0] for a, b in zip([*ring[-1:], *ring[:-1]], ring))


def turned(ring: Ring, is_hole: bool) -> Ring:
    """The ring counterclockwise, or clockwise for a hole."""
    return ring[::-1] if (double_area(ring) < 0) != is_hole else ring


def with_senses(rings: Sequence[Ring], rule: str) -> list[Ring]:
    """The rings of a polygon, boundaries counterclockwise and holes clockwise.

    rule: 'first', the first bounds and the others are holes; 'nested', a ring in an even number of others bounds;
    'sense', as they run.
    """
    if rule == "sense":
        return list(rings)
    if rule == "first":
        return [turned(ring, index > 0) for index, ring in enumerate(rings)]
    boxes = [box_of(ring) for ring in rings]
    return [turned(ring, depth_of(index, rings, boxes) % 2 == 1) for index, ring in enumerate(rings)]


def box_of(ring: Ring) -> Optional[tuple[int, int, int, int]]:
    """The least and the greatest coordinates."""
    if not ring:
        return None
    xs, ys = [x for x, _ in ring], [y for _, y in ring]
    return min(xs), min(ys), max(xs), max(ys)


def depth_of(index: int, rings: Sequence[Ring], boxes: Sequence[Optional[tuple[int, int, int, int]]]) -> int:
    """How many other rings hold a ring."""
    own = boxes[index]
    if own is None:
        return 0
    return sum(
        other != index and box is not None and is_in_box(own, box) and is_inside(rings[index], rings[other])
        for other, box in enumerate(boxes)
    )


def is_in_box(inner: Sequence[int], outer: Sequence[int]) -> bool:
    """Whether a box lies in another one."""
    return outer[0] <= inner[0] and outer[1] <= inner[1] and inner[2] <= outer[2] and inner[3] <= outer[3]


def is_inside(ring: Ring, other: Ring) -> bool:
    """Whether a ring lies in another one, by its first vertex or middle of an edge that is not on the other's edges.

    A ring does not lie in one with which it falls together.
    """
    doubled = [[2 * x, 2 * y] for x, y in other]
    vertices = [[2 * x, 2 * y] for x, y in ring]
    middles = [[a[0] + b[0], a[1] + b[1]] for a, b in zip(ring, [*ring[1:], ring[0]])]
    for point in [*vertices, *middles]:
        held = holds(doubled, point)
        if held is not None:
            return held
    return False


def holds(ring: Ring, point: Place) -> Optional[bool]:
    """Whether a ring winds round a point; none where the point lies on its edges."""
    x, y = point
    winding = 0
    for (ax, ay), (bx, by) in zip([ring[-1], *ring[:-1]], ring):
        side = (bx - ax) * (y - ay) - (by - ay) * (x - ax)
        if side == 0 and min(ax, bx) <= x <= max(ax, bx) and min(ay, by) <= y <= max(ay, by):
            return None
        if (ay <= y) != (by <= y):
            if (side > 0) == (by > ay):
                winding += 1 if by > ay else -1
    return winding != 0
