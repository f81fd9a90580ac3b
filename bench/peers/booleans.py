#!/usr/bin/env python3
"""Times booleans and overlaps beside Clipper, Boost.Polygon and GEOS, and prints a table.

    bench/peers/booleans.py [PROGRAM] [--answers PROGRAM] [--only OPERANDS] [--most N] [--rounds N] > table.md

PROGRAM is `mesh_bench`, that of --answers `mesh_run`, as `rt run` makes them in their crates. The libraries beside ours
are driven by booleans.cpp, each with the same operands in one process, without reading and writing. Each round times all
of them in turn; the least processor time counts. We and Clipper resolve operands that cross themselves within the time,
by the even-odd rule; GEOS has them made valid before. Clipper and Boost.Polygon find no pairs of zones that may overlap:
the driver does it for them, by sorted boxes as ours. GEOS does it by its tree.

A library whose answer has another area than ours, by more than one grid unit along all edges of the operands, or another
number of pairs that overlap, is told of and has no figure; nor has one that takes too long.
"""
import argparse
import json
import math
import sys
import tempfile
from typing import NamedTuple

from ratios import PEERS, build, contour_words, figure, peer_answer
from families import boolean_request, overlaps_request
from in_process import TooLong
from in_process import seconds as process_seconds
from program import CRATES, add_program, run, seconds_above_zero, tell

RULES = ["union", "intersect", "difference", "xor"]

FAMILIES = ["coast", "comb", "walk", "rough circle"]

SIZES = [100, 1000, 10_000, 100_000]
"""How many vertices each of the two operands has."""

ONE_RULE_SIZE = 100_000
"""From this size on they are united alone: the other rules take about as long."""

ZONE = "zones"

ZONES = [1000, 10_000, 40_000]
"""How many zones there are."""


class Case(NamedTuple):
    """A request, what is combined how in it, and how large."""

    family: str
    count: int
    rule: str
    request: dict


class Row(NamedTuple):
    """A case, and the seconds of each that answered it as we do."""

    case: Case
    seconds: dict

    def ratio(self, peer):
        """Our time over that of a library."""
        return self.seconds["ours"] / self.seconds[peer] if self.seconds.keys() >= {"ours", peer} else None


def operands(request):
    """The contours of each operand of a request."""
    return request["zones"] if request["op"] == "overlaps" else [request["subject"], request["clip"]]


def words_of(request):
    """A request as booleans.cpp reads it."""
    given = operands(request)
    return "\n".join([f"{request.get('rule', 'overlaps')} {len(given)}", *map(contour_words, given)])


def edges(contours):
    """The edges of closed contours."""
    return [(contour[index - 1], contour[index]) for contour in contours for index in range(len(contour))]


def area(shapes):
    """The area of polygons with holes."""
    return sum(x * v - u * y for shape in shapes for (x, y), (u, v) in edges(shape)) / 2


def own_answer(program, text, limit):
    """The number of vertices or pairs of our answer, and its area; nothing where it takes too long."""
    done = run([program], text, limit)
    if done.status is None:
        return None
    answer = json.loads(done.answer)
    if "overlaps" in answer:
        return len(answer["overlaps"]), sum(area(shapes) for _, _, shapes in answer["overlaps"])
    return sum(len(contour) for shape in answer["shapes"] for contour in shape), area(answer["shapes"])


def agrees(request, own, other):
    """Whether an answer is ours, but for rounding. Ours is taken for right where there is none."""
    if own is None:
        return True
    rounding = sum(math.dist(*edge) for contours in operands(request) for edge in edges(contours))
    return abs(own[1] - other[1]) <= rounding and (request["op"] != "overlaps" or own[0] == other[0])


def least(seconds, name, found):
    """Notes the seconds of one more round."""
    seconds[name] = min(found, seconds.get(name, math.inf))


def time_peer(words, driver, peer, case, asked, own, seconds):
    """Times a library; tells whether it answers the case as we do."""
    found = peer_answer(driver, peer, asked, words.seconds, words.limit)
    if found is None:
        tell(f"{case.family}, {case.count}, {case.rule}: no answer of {peer} within {words.limit} seconds")
        return False
    if not agrees(case.request, own, found[1:]):
        tell(f"{case.family}, {case.count}, {case.rule}: {peer} has {found[1:]}, and we {own}")
        return False
    least(seconds, peer, found[0])
    return True


def repeats(program, text, wanted):
    """How many of our answers more than one take about the wanted seconds."""
    count = 1
    while process_seconds(program, text, 1 + count) - process_seconds(program, text, 1) < wanted:
        count *= 4
    return count


def own_seconds(words, text, time_others):
    """The seconds of our answer: the least time of a process with many, less the least of a process with one."""
    count = repeats(words.program, text, words.seconds)
    spent = {}
    for _ in range(words.rounds):
        time_others()
        for answers in [1, 1 + count]:
            least(spent, answers, process_seconds(words.program, text, answers))
    return max(0, spent[1 + count] - spent[1]) / count


def measure(words, driver, case, left_out):
    """The row of a case. A library that has no figure for one has none for the later ones of its family."""
    text = json.dumps(case.request, separators=(",", ":")).encode()
    asked = words_of(case.request)
    own = own_answer(words.answers, text, words.limit)
    seconds = {}

    def time_others():
        for peer in PEERS:
            if (case.family, peer) not in left_out and not time_peer(words, driver, peer, case, asked, own, seconds):
                left_out.add((case.family, peer))

    try:
        seconds["ours"] = own_seconds(words, text, time_others)
    except TooLong:
        tell(f"{case.family}, {case.count}, {case.rule}: no answer of ours in time")
    row = Row(case, seconds)
    tell(" ".join(cells(row)))
    return row


def cells(row):
    """A line of the table: milliseconds, and ratios to Clipper and GEOS."""
    times = [figure(row.seconds.get(name), 1000) for name in ["ours", *PEERS]]
    what = [row.case.family, f"{row.case.count:,}", row.case.rule]
    return [*what, *times, figure(row.ratio("clipper")), figure(row.ratio("geos"))]


def print_table(rows):
    """A table of milliseconds, and of our time over that of Clipper and of GEOS."""
    heads = ["operands", "vertices or zones", "", "ours, ms", *[f"{peer}, ms" for peer in PEERS], "to Clipper", "to GEOS"]
    print(f"| {' | '.join(heads)} |\n|{'---|' * len(heads)}")
    for row in rows:
        print(f"| {' | '.join(cells(row))} |")
    print()


def print_growth(rows):
    """The exponent of growth of each from one number of zones to the next."""
    for before, after in zip(rows, rows[1:]):
        names = [name for name in ["ours", *PEERS] if name in before.seconds and name in after.seconds]
        step = math.log(after.case.count / before.case.count)
        grown = [f"{name} {math.log(after.seconds[name] / before.seconds[name]) / step:.2f}" for name in names]
        print(f"Growth from {before.case.count:,} to {after.case.count:,} zones: {', '.join(grown)}.")


def cases(kinds, most):
    """Two drawings of each family, combined by each rule, and zones."""
    for family in [kind for kind in FAMILIES if kind in kinds]:
        for count in [size for size in SIZES if size <= most]:
            for rule in RULES[:1] if count >= ONE_RULE_SIZE else RULES:
                yield Case(family, count, rule, boolean_request(family, count, rule))
    for count in [size for size in ZONES if ZONE in kinds and size <= most]:
        yield Case(ZONE, count, "overlaps", overlaps_request(count))


def main():
    parser = argparse.ArgumentParser(description="Times booleans and overlaps beside other libraries.")
    add_program(parser, "mesh_bench")
    parser.add_argument("--answers", default=str(CRATES / "mesh_run/out/mesh_run"), metavar="PROGRAM")
    parser.add_argument("--only", choices=[*FAMILIES, ZONE], help="these operands alone")
    parser.add_argument("--most", type=int, default=100_000, metavar="N", help="no more vertices of an operand, or zones")
    parser.add_argument("--seconds", type=seconds_above_zero, default=0.2, help="about how long each is repeated")
    parser.add_argument("--limit", type=seconds_above_zero, default=60, metavar="SECONDS", help="of one process")
    parser.add_argument("--rounds", type=int, default=5, help="how often each is timed, in turn")
    words = parser.parse_args()
    left_out = set()
    with tempfile.TemporaryDirectory() as folder:
        driver = build(folder, "booleans")
        kinds = [words.only] if words.only else [*FAMILIES, ZONE]
        rows = [measure(words, driver, case, left_out) for case in cases(kinds, words.most)]
    print_table(rows)
    print_growth([row for row in rows if row.case.family == ZONE])


if __name__ == "__main__":
    main()
