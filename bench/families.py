#!/usr/bin/env python3
"""Prints a request of `mesh_run` for the outline of contours with about N vertices in all, the same in each run.

    bench/families.py FAMILY N [--offset small|large] [--stroke] [--seed S] [--shuffled] [--out shapes|edges]

The drawings of a family look alike for every N: they fill the same box with ever finer detail, and offsets are
measured by that detail. So the number of crossings a vertex stays about the same, but for `walk` and `hatch`.

With --stroke the contours are drawn as closed strokes; `pens` and `wide walk` are strokes alone, many steps wide.
"""
import argparse
import json
import math
import random
from typing import NamedTuple

RADIUS = 2**26
"""About half the side of the box that a drawing fills, in grid units; offsets stay in the safe range round it."""

CLUSTER_RADIUS = 2**20
"""That of the part which is crowded where all detail stands in a small part of the box, in grid units."""

FAR = 2**29
"""How far away the rest then is, in grid units."""

BEND = 0.3
"""How far a coast bends at most from the line between two of its points, as a part of their distance."""

OFFSETS = {"small": 0.1, "large": 16}
"""The offsets, as parts of a drawing's spacing."""

GREATEST_OFFSET = 2**29
"""No offset is greater, in grid units, so that drawings of few vertices stay in the safe range too."""

LEAST_CONTOUR = 3

PEN_STEPS = 30
"""How many steps along a curve the width of a pen is."""

WALK_STEPS = 16
"""How many of the longest steps of a walk its width is, where that is wide."""

ZONE_VERTICES = 24

ZONE_RADIUS = 0.5
"""As a part of the mean distance between zones."""


class Drawing(NamedTuple):
    """Contours, and how far details stand from each other, in grid units."""

    contours: list
    spacing: float


def coast_between(noise, start, end, count):
    """So many points between two: the middle one beside the line through both, and so on in each half."""
    if count == 0:
        return []
    bend = noise.uniform(-BEND, BEND)
    along = (end[0] - start[0], end[1] - start[1])
    middle = (start[0] + along[0] / 2 + bend * along[1], start[1] + along[1] / 2 - bend * along[0])
    before = (count - 1) // 2
    return [
        *coast_between(noise, start, middle, before),
        middle,
        *coast_between(noise, middle, end, count - 1 - before),
    ]


def island(count, noise, radius):
    """A coast round a triangle of this radius. Its spacing is the mean length of its edges."""
    corners = [polar(radius, index / 3) for index in range(3)]
    points = []
    for index in range(3):
        inner = (count - 3) // 3 + (index < (count - 3) % 3)
        points += [corners[index], *coast_between(noise, corners[index], corners[(index + 1) % 3], inner)]
    length = sum(math.dist(points[index - 1], points[index]) for index in range(len(points)))
    return Drawing([points], length / len(points))


def coast(count, noise):
    """One contour, rough on every scale."""
    return island(count, noise, RADIUS)


def cluster(count, noise):
    """A coast that is small beside the distance of two squares to it."""
    small = island(max(LEAST_CONTOUR, count - 8), noise, CLUSTER_RADIUS)
    side = CLUSTER_RADIUS
    far = [square(sign * FAR, sign * FAR, side) for sign in (-1, 1)]
    return Drawing(small.contours + far, small.spacing)


def rough_circle(count, noise):
    """A circle whose radius changes from each vertex to the next. Its spacing is that of the vertices along it."""
    step = 2 * math.pi * RADIUS / count
    points = [polar(RADIUS + noise.uniform(-step, step) / 2, index / count) for index in range(count)]
    return Drawing([points], step)


def star(count, noise):
    """Spikes all round, of unlike lengths. Its spacing is half the width of a spike at its foot."""
    foot = RADIUS / 4
    points = []
    for spike in range(max(2, count // 2)):
        turn = spike / max(2, count // 2)
        points += [polar(RADIUS * noise.uniform(0.8, 1), turn), polar(foot, turn + 1 / count)]
    return Drawing([points], 2 * math.pi * foot / count)


def comb(count, _noise):
    """One contour with upright teeth, all of one length. Its spacing is the gap between them."""
    teeth = max(1, (count - 2) // 4)
    pitch = 2 * RADIUS / teeth
    width = 0.45 * pitch
    points = [(RADIUS, -RADIUS), (-RADIUS, -RADIUS)]
    for tooth in range(teeth):
        left = -RADIUS + tooth * pitch
        points += [(left, 0), (left, RADIUS), (left + width, RADIUS), (left + width, 0)]
    return Drawing([counterclockwise(points)], pitch - width)


def hatch(count, _noise):
    """Long thin parallel strips, the box of each meets that of each other. Its spacing is the gap between them."""
    strips = max(1, count // 4)
    pitch = RADIUS / 2 / strips
    contours = []
    for strip in range(strips):
        low = -RADIUS + strip * pitch
        high = low + pitch / 2
        contours.append(
            [(-RADIUS, low), (RADIUS, low + RADIUS), (RADIUS, high + RADIUS), (-RADIUS, high)]
        )
    return Drawing(contours, pitch / 2)


def walk(count, noise):
    """One contour that wanders at random in the box, across itself. Its spacing is a twelfth of the longest step."""
    step = 2 * RADIUS / math.sqrt(count)
    points = [(0, 0)]
    while len(points) < count:
        points.append(tuple(within_box(value + noise.uniform(-step, step)) for value in points[-1]))
    return Drawing([counterclockwise(points)], step / 12)


def squares(count, noise):
    """Squares with square holes, about in rows and columns. Its spacing is a sixteenth of that of the columns."""
    number = max(1, count // 8)
    columns = math.isqrt(number - 1) + 1
    pitch = 2 * RADIUS / columns
    contours = []
    for index in range(number):
        x = -RADIUS + (index % columns + noise.uniform(0.4, 0.6)) * pitch
        y = -RADIUS + (index // columns + noise.uniform(0.4, 0.6)) * pitch
        side = noise.uniform(0.5, 0.7) * pitch
        contours += [square(x, y, side), square(x, y, side / 2)[::-1]]
    return Drawing(contours, pitch / 16)


def pens(count, noise):
    """Four closed curves that cross themselves, as glyphs of a script do. Its spacing is their mean step."""
    contours = []
    for _ in range(4):
        waves = [(number, noise.uniform(0.2, 1) / number, noise.uniform(0, 1), noise.uniform(0, 1)) for number in (1, 2, 3)]
        points = []
        for index in range(max(LEAST_CONTOUR, count // 4)):
            turn = 4 * index / count
            x = sum(size * math.cos(2 * math.pi * (number * turn + first)) for number, size, first, _ in waves)
            y = sum(size * math.sin(2 * math.pi * (number * turn + second)) for number, size, _, second in waves)
            points.append((RADIUS / 2 * x, RADIUS / 2 * y))
        contours.append(points)
    steps = [math.dist(points[index - 1], points[index]) for points in contours for index in range(len(points))]
    return Drawing(contours, sum(steps) / len(steps))


FAMILIES = {
    "coast": coast,
    "comb": comb,
    "walk": walk,
    "hatch": hatch,
    "cluster": cluster,
    "rough circle": rough_circle,
    "squares with holes": squares,
    "star": star,
}

STROKES = {
    "coast": (coast, 1),
    "rough circle": (rough_circle, 1),
    "squares with holes": (squares, 1),
    "walk": (walk, 1),
    "wide walk": (walk, 12 * WALK_STEPS),
    "pens": (pens, PEN_STEPS),
}
"""Drawings that are stroked along closed paths, and their widths as parts of the spacing."""


def polar(radius, turn):
    """The point at this distance from 0, after this part of a turn."""
    return (radius * math.cos(2 * math.pi * turn), radius * math.sin(2 * math.pi * turn))


def square(x, y, side):
    """A square about a point, counterclockwise."""
    half = side / 2
    return [(x - half, y - half), (x + half, y - half), (x + half, y + half), (x - half, y + half)]


def counterclockwise(points):
    """The contour itself, or the other way about where it would be a hole."""
    area = sum(points[index - 1][0] * y - points[index - 1][1] * x for index, (x, y) in enumerate(points))
    return points if area > 0 else points[::-1]


def within_box(value):
    """A coordinate, thrown back where it leaves the box."""
    if abs(value) <= RADIUS:
        return value
    return math.copysign(2 * RADIUS, value) - value


def request(family, count, offset="small", seed=1, out="shapes", shuffled=False):
    """The request for the outline of a drawing of this family, with an offset by its name, as an object."""
    drawing = FAMILIES[family](max(LEAST_CONTOUR, count), random.Random(f"{family} {count} {seed}"))
    if shuffled:
        random.Random(f"order {seed}").shuffle(drawing.contours)
    distance = min(max(1, round(OFFSETS[offset] * drawing.spacing)), GREATEST_OFFSET)
    paths = whole(drawing.contours)
    style = {"outer": distance, "inner": distance}
    return {"op": "outline", "int": "i32", "out": out, "paths": paths, "style": style}


def stroke_request(family, count, seed=1, out="shapes"):
    """The request for the strokes along a drawing, as an object."""
    draw, width = STROKES[family]
    drawing = draw(max(LEAST_CONTOUR, count), random.Random(f"{family} {count} {seed}"))
    paths = whole(drawing.contours)
    style = {"width": min(max(2, 2 * round(width * drawing.spacing / 2)), GREATEST_OFFSET)}
    return {"op": "stroke", "int": "i32", "out": out, "closed": True, "paths": paths, "style": style}


def whole(contours, east=0, north=0):
    """The contours on the grid, moved so far."""
    return [[[round(x + east), round(y + north)] for x, y in contour] for contour in contours]


def boolean_request(family, count, rule, seed=1):
    """The request for a boolean of two drawings of this family, as an object. They are unlike each other where chance has
    a part in them, and the second is moved by half its spacing both ways."""
    first, second = (
        FAMILIES[family](max(LEAST_CONTOUR, count), random.Random(f"{family} {count} {number}"))
        for number in (seed, seed + 1)
    )
    step = second.spacing / 2
    operands = {"subject": whole(first.contours), "clip": whole(second.contours, step, step)}
    return {"op": "boolean", "int": "i32", "out": "shapes", "rule": rule, "fill": "even_odd", **operands}


def overlaps_request(count, seed=1):
    """The request for the overlaps of so many small rough circles, as an object. They lie at random about in rows and
    columns, and each overlaps two or three others."""
    noise = random.Random(f"zones {count} {seed}")
    columns = math.isqrt(count - 1) + 1
    pitch = 2 * RADIUS / columns
    part = ZONE_RADIUS * pitch / RADIUS
    zones = []
    for index in range(count):
        east = -RADIUS + (index % columns + noise.random()) * pitch
        north = -RADIUS + (index // columns + noise.random()) * pitch
        [contour] = rough_circle(ZONE_VERTICES, noise).contours
        zones.append(whole([[(x * part, y * part) for x, y in contour]], east, north))
    return {"op": "overlaps", "int": "i32", "out": "shapes", "fill": "even_odd", "zones": zones}


def main():
    parser = argparse.ArgumentParser(description="Prints a request for the outline of contours of a family.")
    names = dict.fromkeys([*FAMILIES, *STROKES])
    parser.add_argument("family", choices=names, metavar="FAMILY", help=", ".join(names))
    parser.add_argument("count", type=int, metavar="N", help="about how many vertices there are in all")
    parser.add_argument("--offset", choices=OFFSETS, default="small")
    parser.add_argument("--stroke", action="store_true", help="along the contours, in place of their outline")
    parser.add_argument("--seed", default="1")
    parser.add_argument("--shuffled", action="store_true", help="the contours of an outline in random order")
    parser.add_argument("--out", choices=["shapes", "edges"], default="shapes")
    words = parser.parse_args()
    if words.family not in (STROKES if words.stroke else FAMILIES):
        parser.error(f"no {'stroke' if words.stroke else 'outline'} of this family")
    if words.stroke:
        asked = stroke_request(words.family, words.count, words.seed, words.out)
    else:
        asked = request(words.family, words.count, words.offset, words.seed, words.out, words.shuffled)
    print(json.dumps(asked, separators=(",", ":")))


if __name__ == "__main__":
    main()
