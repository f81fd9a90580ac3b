#!/usr/bin/env python3
"""Times `buffer_all` of the package for Python beside Shapely's `buffer`, on many small polygons.

    bench/buffer_all.py [--count N] [--vertices N] [--workers N] [--rounds N]

Both draw arcs of 16 steps a quarter of a turn, in turns. Shapely is shared by as many threads, in as many chunks. Beside
the time stands the processor time, which tells more where the machine has other work; the last row is the part of it that
the compiled library takes. Times are the least of all rounds, and quotients the middle ones of them. The package has to be
found, and Shapely 2.
"""

import argparse
import pathlib
import sys
import time
from concurrent.futures import ThreadPoolExecutor

import numpy
import shapely

sys.path.insert(0, str(pathlib.Path(__file__).resolve().parent.parent / "doors/python"))

from i_overlay_mesh import batches, buffer_all  # noqa: E402

DISTANCE = 10.0


def polygons(count, vertices):
    """Polygons round points of a map, of radii from 50 to 100."""
    source = numpy.random.default_rng(1)
    made = []
    for _ in range(count):
        x, y = source.uniform(0, 1e6, 2)
        turns = numpy.sort(source.uniform(0, 2 * numpy.pi, vertices))
        radii = source.uniform(50, 100, vertices)
        made.append(shapely.Polygon(numpy.c_[x + radii * numpy.cos(turns), y + radii * numpy.sin(turns)]))
    return numpy.array(made)


def by_shapely(given, workers):
    """Shapely's buffers, by threads."""
    chunks = numpy.array_split(given, 8 * workers)
    with ThreadPoolExecutor(workers) as pool:
        return numpy.concatenate(list(pool.map(lambda chunk: shapely.buffer(chunk, DISTANCE, quad_segs=16), chunks)))


class InLibrary:
    """Counts the processor time of the calls of the library, in all threads."""

    def __init__(self):
        self.used, self.each = [], batches.each
        batches.each = self.timed

    def timed(self, *words):
        """The call, and how long it took."""
        begun = time.thread_time()
        try:
            return self.each(*words)
        finally:
            self.used.append(time.thread_time() - begun)

    def taken(self):
        """The time since this was asked last."""
        total, self.used = sum(self.used), []
        return total


def measured(calls, rounds):
    """For each call the time, the processor time, and the processor time in the library of each round, in seconds."""
    library, rows = InLibrary(), [[] for _ in calls]
    for _ in range(rounds):
        for row, call in zip(rows, calls):
            wall, used = time.perf_counter(), time.process_time()
            call()
            row.append((time.perf_counter() - wall, time.process_time() - used, library.taken()))
    return [numpy.array(row) for row in rows]


def main():
    parser = argparse.ArgumentParser(description="Times many small polygons.")
    parser.add_argument("--count", type=int, default=10_000)
    parser.add_argument("--vertices", type=int, default=10)
    parser.add_argument("--workers", type=int, default=4)
    parser.add_argument("--rounds", type=int, default=5)
    given = parser.parse_args()
    drawn = polygons(given.count, given.vertices)
    calls = [lambda: by_shapely(drawn, given.workers), lambda: buffer_all(drawn, DISTANCE, workers=given.workers)]
    theirs, own = measured(calls, given.rounds)
    each = 1e6 / given.count
    (wall, used, _), (own_wall, own_used, library) = each * theirs.min(axis=0), each * own.min(axis=0)
    quotient, used_quotient = numpy.median(own[:, :2] / theirs[:, :2], axis=0)
    print(f"{given.count} polygons of {given.vertices} vertices, {given.workers} threads")
    print("| microseconds for each | time | processor time |\n| --- | --- | --- |")
    print(f"| Shapely | {wall:.1f} | {used:.1f} |")
    print(f"| `buffer_all` | {own_wall:.1f} | {own_used:.1f} |")
    print(f"| in the library | | {library:.1f} |")
    print(f"| `buffer_all` by Shapely | {quotient:.2f} | {used_quotient:.2f} |")


if __name__ == "__main__":
    main()
