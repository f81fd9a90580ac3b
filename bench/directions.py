#!/usr/bin/env python3
"""Times the directions of vectors that look random, with components of at most so many bits, and prints a table.

Build the program first: in crates/mesh_bench run `rt run`.
"""
from splitting import measure

COUNT = 2**21


def main():
    print("| bits of a component | directions | a direction, nanoseconds, best of 3 |")
    print("|---|---|---|")
    for bits in [31, 24, 16, 8]:
        _, found, seconds = measure(COUNT, "directions", str(bits))
        print(f"| {bits} | {found} | {1_000_000_000 * seconds / COUNT:.0f} |")


if __name__ == "__main__":
    main()
