#!/usr/bin/env python3
"""Times a map as one request, and as lines of its components with one and more workers, and prints a table.

    bench/tiles.py [PROGRAM] [--lines COMMAND] [--count N | --coast FILE] > table.md

PROGRAM is `mesh_run`, and COMMAND `mesh_lines`; `rt run` makes both in their crates. GNU parallel feeds the workers.
The map is made of N outlines, or a coast drawn with a pen: FILE is what `gmt coast -R-20/40/30/72 -Di -W -M` prints
(Debian's `gmt` and `gmt-gshhg-low`).
"""
import argparse
import json
import pathlib
import shlex
import shutil
import subprocess
import sys
import tempfile
import time

from program import add_program, tell

ROOT = pathlib.Path(__file__).resolve().parent.parent

LINES = ROOT / "crates/mesh_lines/out/mesh_lines"

sys.path[:0] = [str(ROOT / "doors/tiles"), str(ROOT / "doors/tiles/tests"), str(ROOT / "doors/python")]

from lines import cut, join, line_of  # noqa: E402
from test_tiles import made_map  # noqa: E402

BLOCK = "1M"

DEGREE = 10**6
"""Grid units in a degree: about a tenth of a metre."""

PEN = DEGREE // 50
"""How wide a coast is drawn, in grid units."""


def coast(file):
    """The request to draw the lines of a file, whose points are degrees, with a round pen."""
    paths = []
    with open(file, encoding="utf-8") as lines:
        for line in lines:
            if line.startswith(">"):
                paths.append([])
            else:
                paths[-1].append([round(float(word) * DEGREE) for word in line.split()])
    arc = {"round": [2**28, 5]}
    style = {"width": PEN, "join": arc, "start": arc, "end": arc}
    return {"op": "stroke", "int": "i32", "out": "shapes", "closed": False, "paths": paths, "style": style}


def seconds_of(command, file):
    """The seconds that a command takes from a file, and what it writes."""
    with open(file, "rb") as given:
        start = time.perf_counter()
        done = subprocess.run(command, stdin=given, stdout=subprocess.PIPE, check=True)
        return time.perf_counter() - start, done.stdout


def main():
    parser = argparse.ArgumentParser(description="Times a map as one request and as lines.")
    add_program(parser)
    parser.add_argument("--lines", type=shlex.split, default=[str(LINES)], metavar="COMMAND", help="mesh_lines")
    parser.add_argument("--count", type=int, default=20_000, metavar="N", help="how many outlines")
    parser.add_argument("--coast", metavar="FILE", help="lines of a coast, in degrees")
    words = parser.parse_args()
    text = line_of(coast(words.coast) if words.coast else made_map(words.count))
    with tempfile.TemporaryDirectory() as folder:
        request, lines = pathlib.Path(folder) / "request.json", pathlib.Path(folder) / "lines"
        request.write_bytes(text)
        start = time.perf_counter()
        parts = cut(text)
        cutting = time.perf_counter() - start
        lines.write_bytes(b"".join(parts))
        rows = []
        seconds, whole = seconds_of(words.program, request)
        rows.append(("one request", seconds))
        seconds, answers = seconds_of(words.lines, lines)
        rows.append(("lines, one worker", seconds))
        joined = join(text, answers.splitlines(keepends=True))
        if shutil.which("parallel"):
            for workers in ("1", "2", "4"):
                command = ["parallel", "--will-cite", "--pipepart", "-a", str(lines), "--block", BLOCK, "-k", "-j", workers]
                seconds, answers = seconds_of([*command, *words.lines], request)
                rows.append((f"GNU parallel, {workers} at once", seconds))
                if join(text, answers.splitlines(keepends=True)) != joined:
                    sys.exit(f"{workers} workers answer other bytes")
    shapes, others = json.loads(whole)["shapes"], {json.dumps(shape) for shape in json.loads(joined)["shapes"]}
    other = sum(json.dumps(shape) not in others for shape in shapes)
    paths = len(json.loads(text)["paths"])
    tell(f"{paths} paths, {len(parts)} lines, cut in {cutting:.2f} s; {other} of {len(shapes)} shapes differ")
    print("| way | seconds |\n| --- | --- |")
    for name, seconds in rows:
        print(f"| {name} | {seconds:.2f} |")


if __name__ == "__main__":
    main()
