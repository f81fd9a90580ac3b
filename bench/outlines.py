#!/usr/bin/env python3
"""Times outlines of rough circles of many vertices, and prints a table.

Build the program first: in crates/mesh_run run `rt run < stdin`.
"""
import json
import math
import pathlib
import random
import subprocess
import time

PROGRAM = pathlib.Path(__file__).resolve().parent.parent / "crates/mesh_run/out/mesh_run"

RADIUS = 2**20
ROUGHNESS = 2**14
OFFSET = 2**12


def rough_circle(count):
    """The vertices of a circle whose radius changes from each to the next, the same in each run."""
    noise = random.Random(count)
    vertices = []
    for index in range(count):
        angle = 2 * math.pi * index / count
        radius = RADIUS + noise.randint(-ROUGHNESS, ROUGHNESS)
        vertices.append([round(radius * math.cos(angle)), round(radius * math.sin(angle))])
    return vertices


def request(count):
    """A request for the shapes of its outline."""
    style = {"outer": OFFSET, "inner": OFFSET}
    words = {"op": "outline", "int": "i32", "out": "shapes", "paths": [rough_circle(count)], "style": style}
    return json.dumps(words).encode()


def measure(count):
    """The number of the answer's vertices, and the least of three times in milliseconds."""
    text = request(count)
    least = None
    for _ in range(3):
        start = time.perf_counter()
        answer = subprocess.run([PROGRAM], input=text, capture_output=True, check=True).stdout
        milliseconds = 1000 * (time.perf_counter() - start)
        least = milliseconds if least is None else min(least, milliseconds)
    return sum(len(contour) for shape in json.loads(answer)["shapes"] for contour in shape), least


def main():
    print("| vertices | vertices of the outline | milliseconds, best of 3 |")
    print("|---|---|---|")
    for count in [100, 1000, 3000]:
        answered, milliseconds = measure(count)
        print(f"| {count} | {answered} | {milliseconds:.1f} |")


if __name__ == "__main__":
    main()
