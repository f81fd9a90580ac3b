#!/usr/bin/env python3
"""Times the outlines of contours that are hard to split, with the offset 0, and prints a table.

    bench/hard.py [PROGRAM] [--limit SECONDS] > table.md

One process answers one request; the best of five is taken. Some contours take hundreds of thousands of splits in an
unlucky order and few in another, some take many in every order that was tried. A program doesn't tell how many splits
it made. So each time is also held against that of four points whose segments are cut about 2,000 times in any order,
with the time of a process that splits nothing taken off both. Ends with the status 1 where a contour wasn't answered.
"""
import argparse
import json
import re
import sys

from program import add_program, memory_text, run, seconds_above_zero, tell

TIMES = 5

TRIANGLE = [(0, 0), (1, 0), (0, 1)]
"""A contour without a split."""

UNLUCKY = "few in a good order"

LONG = "many in every order tried"

CONTOURS = [
    (
        "contour 1",
        UNLUCKY,
        [(-165510, -707181), (29412, 537765), (-165509, -707183), (29412, 537766), (-119436, -37920), (152992, 101796)],
    ),
    (
        "contour 2",
        UNLUCKY,
        [(-95031, 106272), (-72430, -190583), (-95031, 106271), (-72429, -190582), (-110630, 71009), (-62151, 91653)],
    ),
    (
        "contour 3",
        UNLUCKY,
        [(0, -2), (75568491, 99941795), (1, 2), (75568490, 99941793), (0, 2), (75568492, 99941795)],
    ),
    ("contour 4", UNLUCKY, [(56684, 39801), (78741, -58266), (56684, 39802), (66112, -31467), (77071, 7086)]),
    ("contour 5", UNLUCKY, [(386315, -122650), (199460, -75437), (386316, -122650), (237134, -99227), (259848, -44456)]),
    (
        "contour 6",
        LONG,
        [(-49084, -65240), (-23045, 52569), (-49084, -65241), (-39270, 33461), (-15692, 14092), (-39270, 33460)],
    ),
    (
        "contour 7",
        LONG,
        [(-514339, 278681), (648638, 493878), (-514338, 278681), (-69009, 498496), (1966, 211288), (-69010, 498496)],
    ),
    ("contour 8", LONG, [(42, -2554), (2823, 8472), (42, -2555), (-273, -3699), (2666, 2402)]),
    ("contour 9", "31 in every order", [(63, -30), (92, -39), (63, -30), (84, -33), (54, -29)]),
    (
        "contour 10",
        UNLUCKY,
        [(62595, -107365), (-138073, -121907), (62594, -107365), (-71446, -113185), (2913, -121154), (-71447, -113186)],
    ),
]


def four_points(size):
    """Four points near one line, whose crossing moves along it step by step: 3 * size - 20 cuts in every order."""
    return [(size + 2, 2 * size + 1), (2, 0), (size + 1, 2 * size), (1, -2)]


MEASURE = ("four points, n = 673", "1,999 cuts in every order", four_points(673))


def request(contour):
    """The request for the outline of a contour, with the offset 0, as an object."""
    style = {"outer": 0, "inner": 0, "join": "bevel"}
    return {"op": "outline", "int": "i32", "out": "shapes", "paths": [contour], "style": style}


def best_run(command, contour, limit):
    """The fastest of the runs on the outline of a contour, or the first that gave no answer."""
    text = json.dumps(request(contour)).encode()
    best = None
    for _ in range(TIMES):
        done = run(command, text, limit)
        if done.status != 0:
            return done
        if best is None or done.seconds < best.seconds:
            best = done
    return best


def row(name, splits, contour, done, measure):
    """The row of a contour; `measure` is the time of 1,999 cuts, and of none, in seconds."""
    cells = [name, str(len(contour)), splits]
    if done.status != 0:
        state = "stopped" if done.status is None else f"status {done.status}"
        return [*cells, f"{state} after {done.seconds:.3g}", "-", "-", "-"]
    longer, none = measure
    ratio = f"{max(0, done.seconds - none) / (longer - none):.2f}" if longer > none else "-"
    vertices = len(re.findall(rb"\d,", done.answer))
    return [*cells, f"{done.seconds:.4f}", ratio, memory_text(done.memory), str(vertices)]


def main():
    parser = argparse.ArgumentParser(description="Times the outlines of contours that are hard to split.")
    add_program(parser)
    parser.add_argument("--limit", type=seconds_above_zero, default=60, metavar="SECONDS", help="of one process")
    words = parser.parse_args()
    cases = [("triangle", "none", TRIANGLE), MEASURE, *CONTOURS]
    cases.append(("four points, n = 3000", "8,980 cuts in every order", four_points(3000)))
    runs = []
    for name, _, contour in cases:
        done = best_run(words.program, contour, words.limit)
        runs.append(done)
        tell(f"{name}: status {done.status}, {done.seconds:.4f} s")
    measure = (runs[1].seconds, runs[0].seconds)
    print("| contour | points | splits | seconds | times 1,999 cuts | MB | vertices of the outline |")
    print("|---|---|---|---|---|---|---|")
    for (name, splits, contour), done in zip(cases, runs):
        print(f"| {' | '.join(row(name, splits, contour, done, measure))} |")
    sys.exit(any(done.status != 0 for done in runs))


if __name__ == "__main__":
    main()
