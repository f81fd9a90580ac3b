#!/usr/bin/env python3
"""Times the splitting of segments that look random, in sizes that double, and prints a table.

Build the program first: in crates/mesh_bench run `rt run`.
"""
import pathlib
import subprocess
import time

PROGRAM = pathlib.Path(__file__).resolve().parent.parent / "crates/mesh_bench/out/mesh_bench"


def measure(count, *more):
    """The program's counts before and after, with these further arguments, and the least of three times in seconds."""
    least = None
    for _ in range(3):
        start = time.perf_counter()
        words = subprocess.run([PROGRAM, str(count), *more], capture_output=True, text=True, check=True).stdout.split()
        seconds = time.perf_counter() - start
        least = seconds if least is None else min(least, seconds)
    return int(words[0]), int(words[3]), least


def main():
    print("| segments | crossings, about | split segments | seconds |")
    print("|---|---|---|---|")
    for count in [250 * 2**power for power in range(7)]:
        before, after, seconds = measure(count)
        print(f"| {before} | {(after - before) // 2} | {after} | {seconds:.3f} |")


if __name__ == "__main__":
    main()
