#!/usr/bin/env python3
"""Times outlines within one process, without reading and writing, and prints a table.

    bench/in_process.py [PROGRAM] [--most N] [--seconds S] > table.md

PROGRAM is `mesh_bench`, which `rt run` makes in crates/mesh_bench. It reads a request once and answers it as often as
it is told; the time of one answer is that of many less that of one, each the least processor time of five, so reading
is not in it.
"""
import argparse
import json

from families import FAMILIES, OFFSETS
from families import request as family_request
from program import add_program, run, seconds_above_zero, tell

SIZES = [10, 100, 1000, 10_000, 100_000]

TIMES = 5

LONG = 1
"""Answers that take so many seconds are measured once."""

LIMIT = 60
"""Of one process, in seconds."""


class TooLong(Exception):
    """A process did not end in the limit."""


def seconds(command, text, count):
    """The processor time of a process that answers a request so often."""
    done = run([*command, str(count), "request"], text, LIMIT)
    if done.status is None:
        raise TooLong
    if done.status != 0:
        raise SystemExit(f"{command} ended with {done.status}")
    return done.processor


def seconds_each(command, text, wanted):
    """The least time of one answer, measured over so many that they take about the wanted seconds."""
    least = seconds(command, text, 1)
    times = TIMES if least < LONG else 1
    least = min([least, *(seconds(command, text, 1) for _ in range(times - 1))])
    count = 1
    while seconds(command, text, 1 + count) - least < wanted and count < 10_000_000:
        count *= 4
    most = min(seconds(command, text, 1 + count) for _ in range(times))
    return max(0, most - least) / count


def cell(command, text, wanted):
    """The microseconds of one answer, in a cell of the table."""
    try:
        return f"{1e6 * seconds_each(command, text, wanted):.1f}"
    except TooLong:
        return f"> {LIMIT // 2} s"


def main():
    parser = argparse.ArgumentParser(description="Times outlines within one process.")
    add_program(parser, "mesh_bench")
    parser.add_argument("--most", type=int, default=1000, metavar="N", help="no drawing has more vertices")
    parser.add_argument("--seconds", type=seconds_above_zero, default=1, help="about how long a process runs")
    words = parser.parse_args()
    sizes = [count for count in SIZES if count <= words.most] or SIZES[:1]
    print("Microseconds of an answer, the best of 3.\n")
    heads = ["family", "offset", *[f"{count:,} vertices" for count in sizes]]
    print(f"| {' | '.join(heads)} |\n|{'---|' * len(heads)}")
    for family in FAMILIES:
        for offset in OFFSETS:
            cells = []
            for count in sizes:
                text = json.dumps(family_request(family, count, offset), separators=(",", ":")).encode()
                cells.append(cell(words.program, text, words.seconds))
                tell(f"{family}, {offset}, {count}: {cells[-1]} microseconds")
            print(f"| {family} | {offset} | {' | '.join(cells)} |")


if __name__ == "__main__":
    main()
