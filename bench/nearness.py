#!/usr/bin/env python3
"""Measures how far the vertices of answers are from the given edges, and prints a table.

    bench/nearness.py [PROGRAM] [--most N] [--random COUNT] [--limit SECONDS] > table.md

Over the families, the examples and requests at random. The given edges are those that the program answers to the same
request with `"out":"edges"`; distances are in grid units. The requests that show the greatest ones follow the table.
"""
import argparse
import json
import math
import pathlib
from typing import NamedTuple

import random_requests
from edge_grid import EdgeGrid
from families import FAMILIES, OFFSETS
from families import request as family_request
from program import add_program, run, seconds_above_zero, tell

EXAMPLES = pathlib.Path(__file__).resolve().parent.parent / "examples"

SIZES = [10, 100, 1000, 10_000, 100_000]

LONGEST_SHOWN = 4000
"""Requests of more characters are named, but not shown."""


class Farthest(NamedTuple):
    """The vertex of a group's answers that is farthest from the given edges, and the request that shows it."""

    distance: float
    vertex: tuple
    name: str
    request: dict


class Group:
    """Requests of one kind, and how far their answers' vertices are from the given edges."""

    def __init__(self, name):
        self.name = name
        self.answered = 0
        self.unanswered = []
        self.distances = []
        self.farthest = None

    def add(self, name, request, measured):
        """Adds what was measured of a request: distances by vertices, or in words why there are none."""
        if isinstance(measured, str):
            self.unanswered.append(f"{name}: {measured}")
            return
        self.answered += 1
        self.distances += measured.values()
        for vertex, distance in measured.items():
            if self.farthest is None or distance > self.farthest.distance:
                self.farthest = Farthest(distance, vertex, name, request)

    def row(self):
        """The row of the table."""
        asked = self.answered + len(self.unanswered)
        cells = [self.name, str(asked), str(self.answered), str(len(self.distances))]
        if self.distances:
            ordered = sorted(self.distances)
            most = ordered[math.ceil(0.99 * len(ordered)) - 1]
            cells += [f"{most:.3f}", f"{ordered[-1]:.3f}"]
        else:
            cells += ["-", "-"]
        return cells


def ask(command, request, out, limit):
    """The program's answer to a request for edges or shapes, or in words why there is none."""
    text = json.dumps({**request, "out": out}, separators=(",", ":")).encode()
    done = run(command, text, limit)
    if done.status is None:
        return f"stopped after {limit:g} s"
    if done.status != 0:
        return f"status {done.status}, {done.answer.decode(errors='replace').strip()}"
    return json.loads(done.answer)[out]


def measure(command, request, limit):
    """How far each vertex of the answer is from the given edges, or in words why that can't be told."""
    edges = ask(command, request, "edges", limit)
    shapes = edges if isinstance(edges, str) else ask(command, request, "shapes", limit)
    if isinstance(shapes, str):
        return shapes
    grid = EdgeGrid([(tuple(start), tuple(end)) for path in edges for start, end in path])
    vertices = {tuple(vertex) for shape in shapes for contour in shape for vertex in contour}
    return {vertex: grid.nearest(vertex) for vertex in vertices}


def family_requests(most):
    """The requests of the bench, by names that tell how to make them."""
    for count in SIZES:
        for family in FAMILIES if count <= most else []:
            for offset in OFFSETS:
                name = f"bench/families.py '{family}' {count} --offset {offset}"
                yield name, family_request(family, count, offset)


def example_requests():
    """The examples, by their files."""
    for file in sorted(EXAMPLES.glob("*.json")):
        yield f"examples/{file.name}", json.loads(file.read_text(encoding="utf-8"))


def served_operations(command, limit):
    """The operations of which the program reads requests."""
    operations = []
    for operation in random_requests.OPERATIONS:
        request = random_requests.request(0, 1, [operation])
        done = run(command, json.dumps(request).encode(), limit)
        if done.status == 2:
            tell(f"{operation} is not served: no request at random has it")
        else:
            operations.append(operation)
    return operations


def random_group(count, seed, operations):
    """So many requests at random, by their numbers."""
    for number in range(count):
        yield f"request {number} of seed {seed}", random_requests.request(number, seed, operations)


def measure_group(command, name, requests, limit):
    """The group of these requests, measured."""
    group = Group(name)
    for number, (request_name, request) in enumerate(requests):
        group.add(request_name, request, measure(command, request, limit))
        if number % 100 == 0 or len(json.dumps(request)) > LONGEST_SHOWN:
            tell(f"{name}: {request_name}")
    return group


def total(groups):
    """All groups as one."""
    whole = Group("all")
    for group in groups:
        whole.answered += group.answered
        whole.unanswered += group.unanswered
        whole.distances += group.distances
    return whole


def show(groups):
    """Prints the table, the farthest vertex of each group, and what was not answered."""
    rows = [["requests", "asked", "answered", "vertices", "99% within", "greatest"], ["---"] * 6]
    rows += [group.row() for group in [*groups, total(groups)]]
    for cells in rows:
        print(f"| {' | '.join(cells)} |")
    for group in groups:
        if group.farthest is not None:
            farthest = group.farthest
            print(f"\n{group.name}: {list(farthest.vertex)} is {farthest.distance:.3f} away, in {farthest.name}")
            text = json.dumps(farthest.request, separators=(",", ":"))
            if len(text) <= LONGEST_SHOWN:
                print(f"\n```json\n{text}\n```")
    for reason in total(groups).unanswered:
        tell(f"not answered: {reason}")


def main():
    parser = argparse.ArgumentParser(description="Measures how far answers' vertices are from the given edges.")
    add_program(parser)
    parser.add_argument("--most", type=int, default=10_000, metavar="N", help="no drawing has more vertices")
    parser.add_argument("--random", type=int, default=2000, metavar="COUNT", help="how many requests at random")
    parser.add_argument("--seed", default="1", help="of the requests at random")
    parser.add_argument("--limit", type=seconds_above_zero, default=60, metavar="SECONDS", help="of one process")
    words = parser.parse_args()
    operations = served_operations(words.program, words.limit)
    kinds = [
        ("the bench", family_requests(words.most)),
        ("examples", example_requests()),
        ("at random", random_group(words.random, words.seed, operations)),
    ]
    show([measure_group(words.program, name, requests, words.limit) for name, requests in kinds])


if __name__ == "__main__":
    main()
