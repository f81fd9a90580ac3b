"""Numbers, directions and edges. There are whole numbers of any size and nothing else, so every step is exact.

Points, vectors and directions are pairs of whole numbers, and an edge is a pair of points. A width is a type of
coordinates, with the length of its directions, its least and its greatest number. The refined grid `m` has the points
whose coordinates are whole multiples of `1/m`; they are written as whole numbers, `m` times as large.
"""
from collections import namedtuple
from functools import lru_cache
from math import isqrt

Width = namedtuple("Width", "name unit least most")

I16 = Width("i16", 1 << 14, -(1 << 15), (1 << 15) - 1)
I32 = Width("i32", 1 << 30, -(1 << 31), (1 << 31) - 1)
FULL = 1 << 60

def is_safe(width, point, padding):
    """Whether a point that moves by a padding in each coordinate stays below the unit in size."""
    return max(abs(point[0]), abs(point[1])) + padding < width.unit

def cut(a, b):
    """`a` over `b`, cut towards zero."""
    return abs(a) // abs(b) * (1 if (a < 0) == (b < 0) else -1)

def rounded(a, b):
    """The whole number nearest to `a` over `b`. A half goes away from zero."""
    return (2 * abs(a) + abs(b)) // (2 * abs(b)) * (1 if (a < 0) == (b < 0) else -1)

def raised_root(n):
    """The root of a whole number, raised to the next whole number where it is none."""
    return isqrt(n - 1) + 1 if n else 0

def plus(p, v):
    """A point moved by a vector."""
    return p[0] + v[0], p[1] + v[1]

def minus(p, q):
    """The vector from `q` to `p`."""
    return p[0] - q[0], p[1] - q[1]

def cross(v, w):
    """Above 0 where `w` lies to the left of `v`, below 0 where it lies to the right."""
    return v[0] * w[1] - v[1] * w[0]

def dot(v, w):
    """Above 0 where `w` looks the way of `v`."""
    return v[0] * w[0] + v[1] * w[1]

def times(v, a, b):
    """A vector times `a` over `b`, each component rounded. So a direction is scaled by a radius over the unit."""
    return rounded(v[0] * a, b), rounded(v[1] * a, b)

def direction(width, v):
    """A vector brought to the length of the unit: in each component the greatest number that makes it no longer."""
    x, y = (isqrt(width.unit ** 2 * c * c // dot(v, v)) for c in v)
    return x if v[0] >= 0 else -x, y if v[1] >= 0 else -y

@lru_cache(None)
def halved(i):
    """Cosine and sine, times 2^60, of a turn halved `i` times, from a quarter on, each found from the one before."""
    if i == 2:
        return 0, FULL
    c, s = halved(i - 1)
    cosine = isqrt(FULL * (FULL + c) // 2)
    return cosine, min(s * FULL // (2 * cosine), isqrt(FULL * FULL - cosine * cosine))

@lru_cache(None)
def sine_and_cosine(bits):
    """Sine and cosine, times 2^30, of an angle in bits of 2^32 a turn: of its set bits, one turned on by the next."""
    quarter, low = divmod(bits, 1 << 30)
    c, s = FULL, 0
    for j in reversed(range(30)):
        if low >> j & 1:
            cj, sj = halved(32 - j)
            c, s = max(0, cut(c * cj - s * sj, FULL)), cut(s * cj + c * sj, FULL)
    c, s = c >> 30, s >> 30
    return [(s, c), (c, -s), (-s, -c), (-c, s)][quarter]

def chain(points):
    """The edges between neighbouring points. Equal neighbours give none."""
    return [(p, q) for p, q in zip(points, points[1:]) if p != q]

def loop(points):
    """The edges of a closed list of points, the last to the first too. Equal neighbours give none."""
    return chain([*points, *points[:1]])

def crossing(edge, q, m=1):
    """How an edge crosses the ray from a point to the east: once (1) where it rises with the point to its left, once
    backwards (-1) where it falls with the point to its right; else not at all (0)."""
    (px, py), (rx, ry) = edge
    x, y = q[0] - m * px, q[1] - m * py
    if y >= 0:
        return 1 if y < m * (ry - py) and (rx - px) * y > (ry - py) * x else 0
    return -1 if y >= m * (ry - py) and (rx - px) * y < (ry - py) * x else 0

def winding(edges, q, m=1):
    """How often edges wind round a point: the sum of their crossings."""
    return sum(crossing(edge, q, m) for edge in edges)

def fan(center, points):
    """The triangles from a point over a list of points, one for each two neighbours."""
    return [(center, p, q) for p, q in zip(points, points[1:])]

def double_area(points):
    """Twice the area that a closed list of points goes round, below 0 where it runs clockwise."""
    return sum(p[0] * q[1] - p[1] * q[0] for p, q in loop(points))
