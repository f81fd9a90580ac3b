#!/usr/bin/env python3
"""Times calls from C, Rust and Python against a process for each request, and prints a table.

    bench/doors.py > table.md

It needs what `doors/build` makes, and the program that `rt run` makes in crates/mesh_run. Times are processor time, of
one call, the best of several rounds of many: other work beside it changes them little. The requests are outlines of a
rough circle by a small offset with bevels, as shapes.
"""

import json
import os
import pathlib
import resource
import subprocess
import sys
import tempfile
import time

from families import request as family_request

ROOT = pathlib.Path(__file__).resolve().parent.parent
OUT = ROOT / "doors/out"
PROGRAM = ROOT / "crates/mesh_run/out/mesh_run"
SIZES = [10, 10_000]
ROUNDS = 9
COLUMNS = [
    "process",
    "C, `mesh_answer`",
    "C, arrays",
    "Rust, `answer`",
    "Rust, slices",
    "Python, `answer`",
    "Python, lists",
]

sys.path.insert(0, str(ROOT / "doors/python"))


def best(calls, call, clock=time.process_time):
    """The microseconds of one call."""
    least = float("inf")
    for _ in range(ROUNDS):
        start = clock()
        for _ in range(calls):
            call()
        least = min(least, (clock() - start) / calls)
    return 1e6 * least


def of_children():
    """The processor time of processes that ended."""
    used = resource.getrusage(resource.RUSAGE_CHILDREN)
    return used.ru_utime + used.ru_stime


def in_c(folder, files):
    """`mesh_answer` and `mesh_outline_i32`."""
    program = f"{folder}/door_calls"
    library = OUT / "lib/libi_overlay_mesh.a"
    flags = ["-O2", f"-I{OUT / 'include'}"]
    subprocess.run(["cc", *flags, ROOT / "bench/door_calls.c", library, "-o", program], check=True)
    return numbers([program, *files])


def in_rust(files):
    """`answer` and `outline` of the crate."""
    words = ["--release", "--quiet", "--offline", "--manifest-path", ROOT / "doors/rust/Cargo.toml"]
    environment = {**os.environ, "CARGO_TARGET_DIR": str(OUT / "rust")}
    return numbers(["cargo", "run", *words, "--example", "measure", "--", *files], environment)


def numbers(command, environment=None):
    run = subprocess.run(command, stdout=subprocess.PIPE, text=True, check=True, env=environment)
    return [float(word) for word in run.stdout.split()]


def in_python(text, contour, offset):
    """`answer` and `outline` of the package, on whole numbers and on the grid of these."""
    from i_overlay_mesh import answer, outline

    calls = 1 + 2000 // len(contour)
    ring = [[contour]]
    drawn = lambda: outline(ring, offset, join="bevel", rings="sense", scale=1, origin=(0, 0))
    return best(calls, lambda: answer(text)), best(calls, drawn)


def in_process(text):
    """A process, with its start and its end."""
    run = lambda: subprocess.run([PROGRAM], input=text, stdout=subprocess.DEVNULL, check=True)
    return best(1 + 100_000 // len(text), run, of_children)


def main():
    print("| vertices |", " | ".join(COLUMNS), "|")
    print("| --- | --- | --- | --- | --- | --- | --- | --- |")
    for size in SIZES:
        request = family_request("rough circle", size)
        request["style"]["join"] = "bevel"
        text = json.dumps(request).encode()
        style, contour = request["style"], request["paths"][0]
        with tempfile.TemporaryDirectory() as folder:
            files = [f"{folder}/request", f"{folder}/drawing"]
            pathlib.Path(files[0]).write_bytes(text)
            flat = [style["outer"], style["inner"], *(number for point in contour for number in point)]
            pathlib.Path(files[1]).write_text(" ".join(map(str, flat)), encoding="ascii")
            times = [in_process(text), *in_c(folder, files), *in_rust(files), *in_python(text, contour, style["outer"])]
        print(f"| {size} | " + " | ".join(f"{it:,.0f}" for it in times) + " |", flush=True)


if __name__ == "__main__":
    main()
