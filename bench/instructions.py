#!/usr/bin/env python3
"""Counts the instructions of one answer by one or more programs, and prints a table.

    bench/instructions.py PROGRAM [PROGRAM ...] [--most N] [--peers] > table.md

Each PROGRAM is a `mesh_bench`, as `rt run` makes it in crates/mesh_bench, or `bench/unproved.py`. valgrind's callgrind
counts: the same each time, whatever else the machine does; what memory costs is not in it. The first column is in
thousands, the others are its parts: below 1 fewer are needed. With --peers the last column is the ratio of the last
program to the better one of Clipper and Boost.Polygon (see peers/ratios.py).
"""
import argparse
import json
import os
import pathlib
import re
import subprocess
import sys
import tempfile
from concurrent.futures import ThreadPoolExecutor

sys.path.insert(0, str(pathlib.Path(__file__).resolve().parent / "peers"))

from families import FAMILIES, OFFSETS  # noqa: E402
from families import request as family_request  # noqa: E402
from ratios import EXACT, build, words_of  # noqa: E402

TIMES = {10: 100, 100: 5, 1000: 1, 10_000: 1}
"""How many answers are counted at each size."""

COUNTED = re.compile(r"Collected : (\d+)")


def collected(command, text):
    """The instructions of a process."""
    watched = ["valgrind", "--tool=callgrind", "--callgrind-out-file=/dev/null", *command]
    done = subprocess.run(watched, input=text, stdout=subprocess.DEVNULL, stderr=subprocess.PIPE, text=True, check=True)
    return int(COUNTED.search(done.stderr).group(1))


def instructions(command, text, times):
    """Those of one answer, of the command for so many answers."""
    return (collected(command(1 + times), text) - collected(command(1), text)) / times


def answers(program):
    """The command of a program for so many answers."""
    return lambda count: [program, str(count), "request"]


def draws(driver, peer):
    """The command of a library beside ours for so many answers."""
    return lambda count: [driver, peer, f"x{count}"]


def row(programs, driver, family, offset, count):
    """A line of the table."""
    request = family_request(family, count, offset)
    first, *others = (instructions(answers(program), json.dumps(request), TIMES[count]) for program in programs)
    parts = "".join(f" {other / first:.2f} |" for other in others)
    if driver:
        drawn = words_of(request, "bevel")
        best = min(instructions(draws(driver, peer), drawn, TIMES[count]) for peer in EXACT)
        parts += f" {[first, *others][-1] / best:.2f} |"
    return f"| {family} | {offset} | {count} | {first / 1000:,.0f} |{parts}"


def print_table(programs, driver, cases):
    """The table of these cases."""
    heads = " part |" * len(programs[1:]) + " ratio |" * bool(driver)
    print(f"| family | offset | vertices | instructions, thousands |{heads}")
    print(f"|---|---|---|---|{heads.count('|') * '---|'}")
    with ThreadPoolExecutor(os.cpu_count()) as pool:
        for line in pool.map(lambda case: row(programs, driver, *case), cases):
            print(line, flush=True)


def main():
    parser = argparse.ArgumentParser(description="Counts the instructions of answers.")
    parser.add_argument("programs", nargs="+", metavar="PROGRAM")
    parser.add_argument("--most", type=int, default=1000, help="no drawing has more vertices")
    parser.add_argument("--peers", action="store_true", help="beside Clipper and Boost.Polygon")
    given = parser.parse_args()
    cases = [(family, offset, count) for count in TIMES if count <= given.most
             for family in FAMILIES for offset in OFFSETS]
    with tempfile.TemporaryDirectory() as folder:
        print_table(given.programs, str(build(folder)) if given.peers else None, cases)


if __name__ == "__main__":
    main()
