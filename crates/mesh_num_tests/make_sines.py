#!/usr/bin/env python3
"""Writes the tables of sines and cosines for the tests.

The values are computed here with Python's whole numbers, from the definition in `mesh_sine/specs/Sine.antt`, apart from
the code that is tested, and each is compared with Python's own sines, which are fractions. The seed is fixed: the
tables are the same each time. Run `rt fmt` in this crate afterwards.
"""
import math
import pathlib
import random

SEED = 1
ROWS = 200
TURN, QUARTER, EIGHTH = 2**32, 2**30, 2**29
ONE = 2**60
SINES = pathlib.Path(__file__).resolve().parent / "src" / "sines"

HEAD = """//! Angles with their sines and cosines, times 2^30: %s.
//! The script `make_sines.py` of this crate wrote this file: change the script.

use super::Row;

"""


def half_pair(cosine, sine):
    """The pair of half the angle with this pair."""
    half = math.isqrt(ONE * (ONE + cosine) // 2)
    return half, min(sine * ONE // (2 * half), math.isqrt(ONE * ONE - half * half))


def sum_pair(first, second):
    """The pair of the sum of two angles; a cosine below 0 counts as 0."""
    cosine = max(0, first[0] * second[0] - first[1] * second[1]) // ONE
    return cosine, (first[1] * second[0] + first[0] * second[1]) // ONE


def halves():
    """The pairs of the angles of 2^30 bits, 2^29 and so on down to 1."""
    pairs = [(0, ONE)]
    while len(pairs) < 31:
        pairs.append(half_pair(*pairs[-1]))
    return pairs


HALVES = halves()


def sine_and_cosine(bits):
    """The sine and the cosine of an angle, times 2^30."""
    quarters, low = divmod(bits, QUARTER)
    pair = (ONE, 0)
    for place in range(29, -1, -1):
        if low >> place & 1:
            pair = sum_pair(pair, HALVES[30 - place])
    cosine, sine = pair[0] // 2**30, pair[1] // 2**30
    return [(sine, cosine), (cosine, -sine), (-sine, -cosine), (-cosine, sine)][quarters]


def row(bits):
    """An angle with its sine and cosine, each of which cutting makes less by at most 1."""
    sine, cosine = sine_and_cosine(bits)
    radians = 2 * math.pi * bits / TURN
    for found, true in [(sine, math.sin(radians)), (cosine, math.cos(radians))]:
        assert -0.001 < abs(true) * 2**30 - abs(found) < 1.001, bits
    return bits, sine, cosine


def spread(drawn, quarter):
    """Angles of a quarter turn, one of each of as many equal parts."""
    part = QUARTER // ROWS
    return [quarter * QUARTER + index * part + drawn.randrange(part) for index in range(ROWS)]


def near_eighths(drawn):
    """Angles beside each eighth of a turn: the next ones, and others of which most are near."""
    angles = set()
    for eighth in range(8):
        distances = {1, -1, 2, -2, 3, -3}
        while len(distances) < ROWS // 8:
            distances.add(drawn.choice([1, -1]) * drawn.randrange(4, 2 ** drawn.randint(4, 27)))
        angles |= {(eighth * EIGHTH + distance) % TURN for distance in distances}
    return sorted(angles)


def write(name, meaning, angles):
    """A table's file."""
    rows = "".join(f"    {row(bits)},\n" for bits in angles)
    table = f"pub static {name.upper()}: [Row; {len(angles)}] = [\n{rows}];\n"
    (SINES / f"{name}.rt").write_text(HEAD % meaning + table)


def main():
    SINES.mkdir(exist_ok=True)
    drawn = random.Random(SEED)
    write("eighths", "the eighths of a turn, and all angles of one bit",
          sorted({eighth * EIGHTH for eighth in range(8)} | {2**place for place in range(32)}))
    for quarter, word in enumerate(["first", "second", "third", "fourth"]):
        write(f"{word}_quarter", f"{ROWS} of the {word} quarter of a turn", spread(drawn, quarter))
    write("near_eighths", f"{ROWS} beside the eighths of a turn", near_eighths(drawn))


if __name__ == "__main__":
    main()
