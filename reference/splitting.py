"""Splitting: segments that share a point inside one of them are split there, until any two share only common ends.

A segment is an edge with its smaller end first. Which two are split first is free, so several results are allowed.
One is found in some order, and all where they are few. A result is split segments with their net counts, and a
nearness: how far, in 64ths of a unit, any split point lies from its witness, the edge that its segment stands for.
"""
from functools import lru_cache

from plane import cross, minus, rounded

def signed(edge):
    """An edge with its smaller end first, and 1, or -1 where it runs the other way, as rounding may turn a piece."""
    return (edge, 1) if edge[0] < edge[1] else (edge[::-1], -1)

def counted(edges):
    """The segments of edges with net counts: how many edges run from the smaller to the larger end, less the others."""
    counts = {}
    for s, sign in map(signed, edges):
        counts[s] = counts.get(s, 0) + sign
    return counts

def is_inside(p, a, b):
    """Whether a point lies on the segment between two others, and is none of them."""
    return a < p < b and cross(minus(b, a), minus(p, a)) == 0

def crossing_point(s, t):
    """The point in which two segments cross inside both, each coordinate rounded; none where they do not."""
    (a, b), (c, d) = s, t
    v, w, between = minus(b, a), minus(d, c), minus(c, a)
    area = cross(v, w)
    along, across = (cross(between, u) * (1 if area > 0 else -1) for u in (w, v))
    if 0 < along < abs(area) and 0 < across < abs(area):
        return tuple(rounded(a[i] * abs(area) + v[i] * along, abs(area)) for i in (0, 1))

def shared_corners(s, t):
    """The corners of the box that the boxes of two segments share: four, two, one, or none."""
    left, right = max(s[0][0], t[0][0]), min(s[1][0], t[1][0])
    low, high = max(min(s[0][1], s[1][1]), min(t[0][1], t[1][1])), min(max(s[0][1], s[1][1]), max(t[0][1], t[1][1]))
    return {(x, y) for x in (left, right) for y in (low, high)} if left <= right and low <= high else ()

@lru_cache(200_000)
def legal_splits(s, t):
    """The splits that two segments allow: each is a list of segments with the point at which they are split. Where an
    end of one lies inside the other, that one is split there; where they cross, each is, unless that is its own end."""
    (a, b), (c, d) = s, t
    if s == t or b <= c or d <= a or max(a[1], b[1]) < min(c[1], d[1]) or max(c[1], d[1]) < min(a[1], b[1]):
        return []
    touching = [[(one, p)] for one, other in ((s, t), (t, s)) for p in other if is_inside(p, *one)]
    p = crossing_point(s, t)
    return touching or ([[(one, p) for one in (s, t) if p not in one]] if p else [])

def split(counts):
    """What splitting in some order makes of segments with net counts. Each in turn is held against those before it."""
    counts, todo, done = dict(counts), list(counts), {}
    while todo:
        s = todo.pop()
        legal = next((found for t in done for found in legal_splits(s, t)), None) if s in counts else ()
        if legal is None:
            done[s] = True
        for one, p in legal or ():
            done.pop(one, None)
            count = counts.pop(one)
            for piece, sign in map(signed, ((one[0], p), (p, one[1]))):
                counts[piece] = counts.get(piece, 0) + sign * count
                todo.append(piece)
        todo += [s] if legal else []
    return counts

def is_whole(s, t):
    """Whether two segments that are not on one line share whole points alone."""
    p = crossing_point(s, t)
    return p is None or is_inside(p, *s) and is_inside(p, *t)

def bendable(segments):
    """The segments that may be bent in some order: those that meet others in points that are not whole, and those that
    run through the box of a bendable one. Segments along an axis never are."""
    slanted = [s for s in segments if s[0][0] != s[1][0] and s[0][1] != s[1][1]]
    found = {s for s in slanted for t in segments if legal_splits(s, t) and not is_whole(s, t)}
    fresh = list(found)
    for box in fresh:
        for s in slanted:
            turns = [cross(minus(s[1], s[0]), minus(p, s[0])) for p in shared_corners(s, box)] if s not in found else []
            if turns.count(0) > 1 or len(turns) == 4 and min(turns) < 0 < max(turns):
                found.add(s)
                fresh.append(s)
    return found

def after(state, nearness, legal):
    """The states that a split leads to: segments with their counts and witnesses, and the nearness so far, rounded up.
    Where a piece comes to stand with a segment of the same ends, either witness may stay."""
    states = [state]
    for one, p in legal:
        count, (a, b) = state[one]
        reach = abs(b[0] - a[0]) + abs(b[1] - a[1])
        nearness = max(nearness, -(-64 * abs(cross(minus(b, a), minus(p, a))) // reach))
        states = [{s: told for s, told in found.items() if s != one} for found in states]
        for piece, sign in map(signed, ((one[0], p), (p, one[1]))):
            merged = ((found, *found.get(piece, (0, (a, b)))) for found in states)
            states = [{**found, piece: (before + sign * count, witness)}
                      for found, before, other in merged for witness in {other, (a, b)}]
    return [(frozenset(found.items()), nearness) for found in states]

def all_results(edges):
    """All results of splitting, by all orders; none where more than 150 states would be looked at. Segments that are
    never bent are split among each other first: where others are split does not depend on it."""
    counts = counted(edges)
    bent = bendable(list(counts))
    counts = {**split({s: count for s, count in counts.items() if s not in bent}), **{s: counts[s] for s in bent}}
    near = {t: count for t, count in counts.items() if any(shared_corners(s, t) for s in bent)}
    fresh = [(frozenset((s, (count, s)) for s, count in near.items()), 0)]
    seen, found = set(fresh), []
    while fresh and len(seen) <= 150:
        state, nearness = fresh.pop()
        segments = sorted(s for s, _ in state)
        moves = [legal for i, s in enumerate(segments) for t in segments[:i] for legal in legal_splits(s, t)]
        onward = {new for legal in moves for new in after(dict(state), nearness, legal)} - seen
        seen |= onward
        fresh += onward
        if not moves:
            rest = {s: count for s, count in counts.items() if s not in near}
            found.append(({**rest, **{s: count for s, (count, _) in state}}, nearness))
    return [] if fresh else found
