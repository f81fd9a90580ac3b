"""Requests of `mesh_run` that look random, always the same by their number."""
import random

OPERATIONS = ["outline", "stroke", "variable_stroke"]

UNITS = {"i16": 2**14, "i32": 2**30}
"""Coordinates are safe below these in size, in grid units."""

MITER_BITS = (59_652_323, 2**31 - 1)
"""The least and the greatest angle of a miter, in bits; the least one reaches 23 offsets far."""

STEP_BITS = (2**26, 2**29)
"""The least and the greatest step of an arc, in bits."""


class Sizes:
    """How far points are from 0, and how great offsets are, so that all that is drawn is safe."""

    def __init__(self, noise, int_type, is_mitered):
        unit = UNITS[int_type]
        self.reach = min(unit // 2, noise.choice([10, 100, 1000, 10_000, 1_000_000, unit]))
        most = min(unit // (64 if is_mitered else 8), 2 * self.reach)
        self.offset = noise.randint(1, max(1, noise.choice([most, most // 10, most // 100])))


def arc(noise):
    """The options of an arc."""
    return [noise.randint(*STEP_BITS), noise.choice([4, 5, 8, 32])]


def join(noise):
    """A join of any kind."""
    kind = noise.choice(["bevel", "miter", "round"])
    if kind == "bevel":
        return kind
    return {kind: noise.randint(*MITER_BITS) if kind == "miter" else arc(noise)}


def cap(noise, offset):
    """A cap of any kind."""
    kind = noise.choice(["butt", "square", "round", "custom"])
    if kind in ("butt", "square"):
        return kind
    if kind == "round":
        return {kind: arc(noise)}
    return {kind: [near(noise, (0, 0), offset) for _ in range(noise.randint(0, 3))]}


def near(noise, point, reach):
    """A point that differs from another by at most so much in each coordinate."""
    return [value + noise.randint(-reach, reach) for value in point]


def path(noise, reach):
    """Points at random: scattered, on a coarse lattice, step by step, or there and back a unit beside."""
    count = noise.randint(3, 14)
    kind = noise.choice(["scattered", "lattice", "steps", "back"])
    if kind == "lattice":
        pitch = max(1, reach // noise.randint(2, 6))
        return [[value // pitch * pitch for value in near(noise, (0, 0), reach)] for _ in range(count)]
    if kind == "steps":
        points = [near(noise, (0, 0), reach // 2)]
        while len(points) < count:
            points.append([bounded(value, reach) for value in near(noise, points[-1], max(1, reach // 4))])
        return points
    points = [near(noise, (0, 0), reach) for _ in range(count)]
    if kind == "back":
        points += [[bounded(value, reach) for value in near(noise, point, 1)] for point in reversed(points[1:-1])]
    return points


def bounded(value, reach):
    """A coordinate, brought to the nearest within reach."""
    return max(-reach, min(reach, value))


def style(noise, operation, offset, joint):
    """The style of an operation."""
    if operation == "variable_stroke":
        return {"arc": arc(noise)}
    if operation == "outline":
        signs = [noise.choice([1, 1, -1]) for _ in range(2)]
        return {"outer": signs[0] * offset, "inner": signs[1] * offset, "join": joint}
    return {"width": 2 * offset, "join": joint, "start": cap(noise, offset), "end": cap(noise, offset)}


def request(number, seed=1, operations=OPERATIONS):
    """The request of this number, for shapes, as an object."""
    noise = random.Random(f"{seed} {number}")
    operation = noise.choice(operations)
    int_type = noise.choice(list(UNITS))
    joint = join(noise)
    sizes = Sizes(noise, int_type, isinstance(joint, dict) and "miter" in joint)
    paths = [path(noise, sizes.reach) for _ in range(noise.choice([1, 1, 1, 2, 3]))]
    if operation == "variable_stroke":
        paths = [[[*point, noise.randint(0, 2 * sizes.offset)] for point in points] for points in paths]
    words = {"op": operation, "int": int_type, "out": "shapes", "paths": paths}
    words["style"] = style(noise, operation, sizes.offset, joint)
    if operation == "stroke":
        words["closed"] = noise.choice([False, True])
    return words
