#!/usr/bin/env python3
"""Tells how near to the drawn edges answers are exact, beside how far their vertices lie from these, and prints a table.

    bench/told.py [PROGRAM] [--bench COMMAND] [--count N] [--random COUNT] [--limit SECONDS] > table.md

Over the families, the examples, contours that are hard to split (both ways round) and requests at random, of `i32`. The
nearness is what `mesh_bench 0 nearness` tells; both distances are the greater of both coordinates' differences, in grid
units.
"""
import argparse
import json
import math
import pathlib
import shlex

import random_requests
from families import FAMILIES, OFFSETS
from families import request as family_request
from hard import CONTOURS
from hard import request as hard_request
from program import add_program, run, seconds_above_zero, tell

ROOT = pathlib.Path(__file__).resolve().parent.parent

BENCH = ROOT / "crates/mesh_bench/out/mesh_bench"


def distance(point, edge):
    """How far a point is from an edge: from its box, and from its line."""
    (x0, y0), (x1, y1) = edge
    x, y = point
    beside = max(min(x0, x1) - x, x - max(x0, x1), min(y0, y1) - y, y - max(y0, y1), 0)
    turn = abs((x1 - x0) * (y - y0) - (y1 - y0) * (x - x0))
    return max(beside, turn / max(abs(x1 - x0) + abs(y1 - y0), 1))


def farthest(edges, shapes):
    """The greatest distance of a vertex of the shapes from the nearest edge."""
    vertices = {tuple(vertex) for shape in shapes for contour in shape for vertex in contour}
    return max((min(distance(vertex, edge) for edge in edges) for vertex in vertices), default=0)


def ask(command, request, out, limit):
    """The program's answer to a request for edges or shapes; nothing where there is none."""
    done = run(command, json.dumps({**request, "out": out}, separators=(",", ":")).encode(), limit)
    return json.loads(done.answer)[out] if done.status == 0 else None


def measure(command, bench, request, limit):
    """The told nearness in grid units, how many splits were made, and the greatest measured distance."""
    done = run([*bench, "0", "nearness"], json.dumps(request, separators=(",", ":")).encode(), limit)
    edges = ask(command, request, "edges", limit)
    shapes = ask(command, request, "shapes", limit)
    if done.status != 0 or edges is None or shapes is None:
        return None
    words = done.answer.split()
    drawn = [(tuple(start), tuple(end)) for path in edges for start, end in path]
    return int(words[0]) / 64, int(words[5]), farthest(drawn, shapes)


def requests(count, most, seed):
    """Kinds of requests, and the requests of each."""
    for family in FAMILIES:
        for offset in OFFSETS:
            yield f"{family}, {offset} offset", [family_request(family, count, offset)]
    files = sorted((ROOT / "examples").glob("*.json"))
    yield "examples", [json.loads(file.read_text(encoding="utf-8")) for file in files]
    for name, _, contour in CONTOURS:
        yield name, [hard_request(contour), hard_request(contour[::-1])]
    yield "at random", [random_requests.request(number, seed) for number in range(most)]


def row(name, measured):
    """A row of the table."""
    told = sorted(nearness for nearness, _, _ in measured)
    ninth = told[math.ceil(0.9 * len(told)) - 1]
    splits = max(made for _, made, _ in measured)
    reached = max(far for _, _, far in measured)
    return [name, str(len(measured)), f"{ninth:.2f}", f"{told[-1]:.2f}", f"{reached:.2f}", str(splits)]


def main():
    parser = argparse.ArgumentParser(description="Tells how near answers are exact, beside measured distances.")
    add_program(parser)
    parser.add_argument("--bench", type=shlex.split, default=[str(BENCH)], metavar="COMMAND", help="mesh_bench")
    parser.add_argument("--count", type=int, default=200, metavar="N", help="vertices of a family's drawing")
    parser.add_argument("--random", type=int, default=300, metavar="COUNT", help="how many requests at random")
    parser.add_argument("--seed", default="1", help="of the requests at random")
    parser.add_argument("--limit", type=seconds_above_zero, default=60, metavar="SECONDS", help="of one process")
    words = parser.parse_args()
    rows = [["requests", "answered", "told, 90% within", "told, greatest", "measured, greatest", "most splits"], ["---"] * 6]
    for name, asked in requests(words.count, words.random, words.seed):
        wide = [request for request in asked if request["int"] == "i32"]
        measured = [measure(words.program, words.bench, request, words.limit) for request in wide]
        answered = [one for one in measured if one is not None]
        tell(f"{name}: {len(answered)} of {len(wide)}")
        for told, _, far in answered:
            if far > told:
                tell(f"{name}: a vertex lies farther than told: {far} and not {told}")
        if answered:
            rows.append(row(name, answered))
    for cells in rows:
        print(f"| {' | '.join(cells)} |")


if __name__ == "__main__":
    main()
