#!/usr/bin/env python3
"""Times the whole overlay of contours of four points that look random, in sizes that double, and prints a table.

Build the program first: in crates/mesh_bench run `rt run`.
"""
from splitting import measure


def main():
    print("| segments | shapes | seconds |")
    print("|---|---|---|")
    for count in [250 * 2**power for power in range(7)]:
        segments, shapes, seconds = measure(count, "overlay")
        print(f"| {segments} | {shapes} | {seconds:.3f} |")


if __name__ == "__main__":
    main()
