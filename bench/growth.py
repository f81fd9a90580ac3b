#!/usr/bin/env python3
"""Times the outlines of all families in sizes that grow tenfold, prints a table, and draws a picture.

    bench/growth.py [PROGRAM] [--most N] [--limit SECONDS] > table.md

One process answers one request, its reading and writing included; the best of three is taken. The picture is
docs/growth.svg. Where a process takes longer than the limit it is stopped, and its family is left there.
"""
import argparse
import math
import pathlib
import re
import subprocess
import sys
import tempfile
from typing import NamedTuple

from families import FAMILIES, OFFSETS
from growth_picture import Line, drawing
from program import MEGABYTE, add_program, memory_text, run_file, seconds_above_zero, tell
from yardstick import Yardstick

BENCH = pathlib.Path(__file__).resolve().parent

PICTURE = BENCH.parent / "docs/growth.svg"

SIZES = [10, 100, 1000, 10_000, 100_000]

LEAST_SORT = 1000
"""For how many vertices the sort is shown in the picture at least: less takes no time beside a process."""

TIMES = 3

EDGES_OF_VERTEX = 4

BLOCK = 2**20


class Best(NamedTuple):
    """The least time of the runs on one request, the most memory in bytes, and the number of answered vertices.

    Where a run did not answer, `failure` says how, and there is no more than that.
    """

    seconds: float
    memory: int
    vertices: int
    failure: str


class Series(NamedTuple):
    """The runs of one family with one offset, by the number of vertices."""

    family: str
    offset: str
    runs: dict

    def answered(self):
        """The sizes that were answered, and how."""
        return {count: best for count, best in self.runs.items() if not best.failure}


def count_of_vertices(answer):
    """How many points stand in an answer, which is read block by block: each has one comma after a digit."""
    answer.seek(0)
    found, last = 0, b""
    while block := answer.read(BLOCK):
        found += len(re.findall(rb"\d,", last + block))
        last = block[-1:]
    return found


def write_request(family, offset, count, file):
    """Writes a request. Another process makes it, so that this one stays small: see `own_memory`."""
    words = [sys.executable, str(BENCH / "families.py"), family, str(count), "--offset", offset]
    subprocess.run(words, stdout=file, check=True)


def measure(command, family, offset, count, limit):
    """The best of the runs on one request."""
    least, most, vertices = math.inf, 0, 0
    with tempfile.TemporaryFile() as asked:
        write_request(family, offset, count, asked)
        for _ in range(TIMES):
            with tempfile.TemporaryFile() as answered:
                done = run_file(command, asked, answered, limit)
                if done.status is None:
                    return Best(0, 0, 0, stopped_text(limit))
                if done.status != 0:
                    return Best(0, 0, 0, f"status {done.status}")
                least, most = min(least, done.seconds), max(most, done.memory)
                vertices = count_of_vertices(answered)
    return Best(least, most, vertices, "")


def stopped_text(limit):
    """What stands for a time past the limit."""
    return f"> {limit:g}"


def measure_series(command, family, offset, sizes, limit):
    """The runs of one family with one offset, up to the first size at which the program is stopped."""
    runs = {}
    for count in sizes:
        best = runs[count] = measure(command, family, offset, count, limit)
        shown = best.failure or f"{best.seconds:.4f} s, {best.memory / MEGABYTE:.0f} MB"
        tell(f"{family}, {offset}, {count}: {shown}")
        if best.failure == stopped_text(limit):
            break
    return Series(family, offset, runs)


def growth(times):
    """The exponent of growth between the two greatest sizes, as text."""
    sizes = sorted(times)[-2:]
    if len(sizes) < 2:
        return "-"
    return f"{math.log(times[sizes[1]] / times[sizes[0]]) / math.log(sizes[1] / sizes[0]):.2f}"


def seconds_text(seconds):
    """A time in a cell of the table, in three digits down to a microsecond."""
    return f"{seconds:.{min(6, max(0, 2 - math.floor(math.log10(seconds))))}f}"


def row(series, sizes, sorts):
    """The row of a series in the table."""
    cells = [series.family, series.offset]
    for count in sizes:
        best = series.runs.get(count)
        cells.append("-" if best is None else best.failure or seconds_text(best.seconds))
    answered = series.answered()
    cells.append(growth({count: best.seconds for count, best in answered.items()}))
    if answered:
        most = max(answered)
        best = answered[most]
        cells += [f"{best.seconds / sorts[most]:.0f}", memory_text(best.memory), str(best.vertices)]
    else:
        cells += ["-", "-", "-"]
    return cells


def table(all_series, sizes, sorts, sort_name):
    """The table as Markdown."""
    heads = ["family", "offset", *[f"{count:,}" for count in sizes]]
    heads += ["growth", "in sorts", "MB", "vertices of the outline"]
    rows = [heads, ["---"] * len(heads)]
    rows += [row(series, sizes, sorts) for series in all_series]
    sort_cells = [seconds_text(sorts[count]) for count in sizes]
    rows.append([f"four edges a vertex, sorted by {sort_name}", "", *sort_cells, growth(sorts), "1", "", ""])
    return "\n".join(f"| {' | '.join(cells)} |" for cells in rows)


def picture(all_series, sorts):
    """The picture as SVG, a panel for each offset."""
    panels = []
    for offset in OFFSETS:
        lines = [
            Line(series.family, {count: best.seconds for count, best in series.answered().items()})
            for series in all_series
            if series.offset == offset
        ]
        panels.append((f"{offset} offset", lines))
    shown_sorts = {count: seconds for count, seconds in sorts.items() if count >= LEAST_SORT} or sorts
    return drawing(panels, Line("a sort of four edges a vertex", shown_sorts))


def names_of(text):
    """Families, read from an argument."""
    names = text.split(",")
    for name in names:
        if name not in FAMILIES:
            raise argparse.ArgumentTypeError(f"no family is called {name!r}")
    return names


def main():
    parser = argparse.ArgumentParser(description="Times the outlines of all families in sizes that grow tenfold.")
    add_program(parser)
    parser.add_argument("--most", type=int, default=SIZES[-1], metavar="N", help="no drawing has more vertices")
    parser.add_argument("--limit", type=seconds_above_zero, default=60, metavar="SECONDS", help="of one process")
    parser.add_argument("--families", type=names_of, default=list(FAMILIES), metavar="NAMES", help="commas between")
    parser.add_argument("--picture", default=str(PICTURE), metavar="FILE", help="where the picture is written")
    words = parser.parse_args()
    sizes = [count for count in SIZES if count <= words.most] or SIZES[:1]
    yardstick = Yardstick()
    sorts = {count: yardstick.seconds(EDGES_OF_VERTEX * count) for count in sizes}
    all_series = []
    try:
        for family in words.families:
            for offset in OFFSETS:
                all_series.append(measure_series(words.program, family, offset, sizes, words.limit))
    except KeyboardInterrupt:
        tell("stopped: what was measured follows")
    print(f"Seconds, the best of {TIMES}. The last four columns are of the greatest sizes that were answered.\n")
    print(table(all_series, sizes, sorts, yardstick.name()))
    with open(words.picture, "w", encoding="utf-8") as file:
        file.write(picture(all_series, sorts))


if __name__ == "__main__":
    main()
