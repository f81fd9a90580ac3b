#!/usr/bin/env python3
"""Times round joins of half a turn with arcs of 8, 64 and 512 directions, and prints a table.

Build the program first: in crates/mesh_bench run `rt run`.
"""
from splitting import measure

ALL_DIRECTIONS = 2**23


def main():
    print("| directions | edges of a join | a join, microseconds, best of 3 |")
    print("|---|---|---|")
    for directions in [8, 64, 512]:
        joins, edges, seconds = measure(ALL_DIRECTIONS // directions, "round", str(directions))
        print(f"| {directions} | {edges // joins} | {1_000_000 * seconds / joins:.2f} |")


if __name__ == "__main__":
    main()
