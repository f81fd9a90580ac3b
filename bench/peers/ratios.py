#!/usr/bin/env python3
"""Times outlines and strokes beside Clipper, Boost.Polygon and GEOS, prints a table of ratios, and draws them.

    bench/peers/ratios.py [PROGRAM] [--most N] [--rounds N] [--seconds S] [--limit SECONDS] > table.md
    bench/peers/ratios.py [PROGRAM] --requests FOLDER [--peers clipper ...] > table.md

PROGRAM is `mesh_bench`, which `rt run` makes in crates/mesh_bench. The libraries beside it are Debian's
(libpolyclipping-dev, libboost-dev, libgeos-dev), driven by peers.cpp. Each answers the same drawing in one process,
without reading and writing, in turn; the least processor time counts, up to 10,000 vertices that of all rounds. A ratio is
our time over the better one of Clipper and Boost.Polygon, which are exact as ours is; GEOS computes in floating point and
simplifies a drawing first, so its time stands beside. The picture is docs/peers.svg. With --requests the drawings are
the files of a folder, as bench/real.py writes them, and no picture is drawn. With --peers only these libraries answer;
Boost takes seconds for each coast.
"""
import argparse
import json
import math
import pathlib
import shutil
import subprocess
import sys
import tempfile
from collections.abc import Callable
from typing import NamedTuple

HERE = pathlib.Path(__file__).resolve().parent

ROOT = HERE.parent.parent

sys.path.insert(0, str(HERE.parent))

from families import FAMILIES, OFFSETS, STROKES  # noqa: E402
from families import request as family_request  # noqa: E402
from families import stroke_request  # noqa: E402
from in_process import TooLong, seconds_each  # noqa: E402
from program import add_program, seconds_above_zero, tell  # noqa: E402
from ratio_picture import drawing  # noqa: E402

PICTURE = ROOT / "docs/peers.svg"

SIZES = [10, 100, 1000, 10_000, 100_000]

STYLED_SIZE = 10_000
"""For how many vertices joins other than bevels, and strokes, are measured."""

MOST_REPEATED = 10_000
"""Drawings of more vertices are measured in the first round alone."""

EXACT = ["clipper", "boost"]

PEERS = [*EXACT, "geos"]

JOINS = {"bevel": "bevel", "miter": {"miter": 2**30}, "round": {"round": [2**29, 5]}}
"""Joins by the name that peers.cpp has for them: miters to half a turn less a quarter, round ones of 45 degrees."""


class Case(NamedTuple):
    """What is measured: a drawing, the join, and what makes the request."""

    name: str
    count: int
    join: str
    request: Callable[[], dict]


class Row(NamedTuple):
    """A request, and the seconds of each that answered it."""

    name: str
    count: int
    ours: float
    peers: dict

    def ratio(self):
        """Our time over the best exact one; nothing where one side has none."""
        best = min((self.peers[name] for name in EXACT if name in self.peers), default=math.inf)
        return self.ours / best if math.isfinite(best) and math.isfinite(self.ours) else None

    def least(self, other):
        """The least times of two measurements."""
        names = [*self.peers, *(name for name in other.peers if name not in self.peers)]
        peers = {name: min(row.peers[name] for row in (self, other) if name in row.peers) for name in names}
        return self._replace(ours=min(self.ours, other.ours), peers=peers)


def build(folder, name="peers"):
    """Builds a driver of the libraries beside ours."""
    compiler = shutil.which("g++") or shutil.which("clang++")
    if compiler is None:
        sys.exit("a C++ compiler is needed")
    driver = pathlib.Path(folder) / name
    words = [compiler, "-std=c++17", "-O2", "-o", str(driver), str(HERE / f"{name}.cpp"), "-lpolyclipping", "-lgeos_c"]
    if subprocess.run(words, check=False).returncode != 0:
        sys.exit("apt-get install libpolyclipping-dev libboost-dev libgeos-dev gives what is missing")
    return driver


def words_of(request, join):
    """The drawing of a request as peers.cpp reads it."""
    style = request["style"]
    if request["op"] == "outline":
        kind, offset = "outline", style["outer"]
    else:
        kind, offset = "closed" if request.get("closed") else "open", style["width"] / 2
    return f"{kind} {join} {offset} {contour_words(request['paths'])}"


def contour_words(contours):
    """Contours as the drivers read them."""
    lines = [str(len(contours))]
    for contour in contours:
        lines.append(f"{len(contour)} " + " ".join(f"{x} {y}" for x, y in contour))
    return "\n".join(lines)


def peer_answer(driver, peer, words, seconds, limit):
    """The least seconds of a library beside ours, and the count and the area of its answer; nothing where it makes no
    such thing, or not in the limit."""
    command = [str(driver), peer, str(seconds)]
    try:
        done = subprocess.run(command, input=words, capture_output=True, text=True, timeout=limit, check=False)
    except subprocess.TimeoutExpired:
        return None
    return [float(word) for word in done.stdout.split()] if done.returncode == 0 else None


def measure(words, driver, case):
    """The times of one request, each library in turn."""
    request = case.request()
    asked = {**request, "style": {**request["style"], "join": JOINS[case.join]}}
    text = json.dumps(asked, separators=(",", ":")).encode()
    drawn = words_of(request, case.join)
    peers = {}
    for peer in words.peers:
        answer = peer_answer(driver, peer, drawn, words.seconds, words.limit)
        if answer is not None:
            peers[peer] = answer[0]
    try:
        ours = seconds_each(words.program, text, words.seconds)
    except TooLong:
        ours = math.inf
    row = Row(case.name, case.count, ours, peers)
    ratio = row.ratio()
    tell(f"{case.name}, {case.count}: {ours:.3g} s, {'no ratio' if ratio is None else f'{ratio:.2f}'}; {peers}")
    return row


def figure(value, unit=1):
    """A number in three digits."""
    if value is None or not math.isfinite(value):
        return "-"
    value *= unit
    return f"{value:.{max(0, 2 - math.floor(math.log10(value)))}f}" if value > 0 else "0"


def print_rows(rows):
    """A table of times in milliseconds, and ratios."""
    heads = ["drawing", "vertices", "ours, ms", *[f"{peer}, ms" for peer in PEERS], "ratio"]
    print(f"| {' | '.join(heads)} |\n|{'---|' * len(heads)}")
    for row in rows:
        times = [figure(row.peers.get(peer), 1000) for peer in PEERS]
        print(f"| {' | '.join([row.name, str(row.count), figure(row.ours, 1000), *times, figure(row.ratio())])} |")


def print_ratios(rows, sizes):
    """A table of ratios alone, a line a family and offset."""
    print(f"| bevels | {' | '.join(f'{count:,}' for count in sizes)} |\n|{'---|' * (1 + len(sizes))}")
    for name in dict.fromkeys(row.name for row in rows):
        found = {row.count: row.ratio() for row in rows if row.name == name}
        print(f"| {name} | {' | '.join(figure(found.get(count)) for count in sizes)} |")
    print()


def bevel_cases(sizes):
    """What is measured with bevels: name, number of vertices, join."""
    return [
        Case(f"{family}, {offset} offset", count, "bevel", lambda f=family, c=count, o=offset: family_request(f, c, o))
        for family in FAMILIES
        for offset in OFFSETS
        for count in sizes
    ]


def styled_cases(size):
    """What is measured of one size: outlines with other joins, and strokes."""
    outlines = [
        Case(f"{family}, {offset} offset, {join}", size, join, lambda f=family, o=offset: family_request(f, size, o))
        for family in FAMILIES
        for offset in OFFSETS
        for join in ["miter", "round"]
    ]
    strokes = [Case(f"{family}, stroke", size, "bevel", lambda f=family: stroke_request(f, size)) for family in STROKES]
    return [*outlines, *strokes]


def read_cases(folder):
    """The requests in the files of a folder, by their names."""
    cases = []
    for file in sorted(folder.glob("*.json")):
        request = json.loads(file.read_text(encoding="utf-8"))
        join = next(name for name, known in JOINS.items() if request["style"]["join"] == known)
        cases.append(Case(file.stem, sum(map(len, request["paths"])), join, lambda asked=request: asked))
    return cases


def measured(words, driver, cases):
    """The least times of each case, round after round, so that a busy moment does not count."""
    rows = {}
    for turn in range(words.rounds):
        for case in cases:
            if turn == 0 or case.count <= MOST_REPEATED:
                row = measure(words, driver, case)
                rows[case] = rows[case].least(row) if case in rows else row
    return list(rows.values())


def main():
    parser = argparse.ArgumentParser(description="Times outlines and strokes beside other libraries.")
    add_program(parser, "mesh_bench")
    parser.add_argument("--most", type=int, default=100_000, metavar="N", help="no drawing has more vertices")
    parser.add_argument("--rounds", type=int, default=1, metavar="N", help="how often all is measured")
    parser.add_argument("--seconds", type=seconds_above_zero, default=0.2, help="about how long each is repeated")
    parser.add_argument("--limit", type=seconds_above_zero, default=60, metavar="SECONDS", help="of one process")
    parser.add_argument("--requests", type=pathlib.Path, metavar="FOLDER", help="measure the requests in its files")
    parser.add_argument("--peers", nargs="+", choices=PEERS, default=PEERS, help="the libraries beside ours")
    words = parser.parse_args()
    if words.requests:
        with tempfile.TemporaryDirectory() as folder:
            print_rows(measured(words, build(folder), read_cases(words.requests)))
        return
    sizes = [count for count in SIZES if count <= words.most] or SIZES[:1]
    size = min(STYLED_SIZE, words.most)
    with tempfile.TemporaryDirectory() as folder:
        driver = build(folder)
        rows = measured(words, driver, [*bevel_cases(sizes), *styled_cases(size)])
    bevels = rows[: len(bevel_cases(sizes))]
    print_ratios(bevels, sizes)
    print_rows(rows)
    lines = {name: {row.count: row.ratio() for row in bevels if row.name == name} for name in [row.name for row in bevels]}
    PICTURE.write_text(drawing(lines, sizes), encoding="utf-8")


if __name__ == "__main__":
    main()
