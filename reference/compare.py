#!/usr/bin/env python3
"""Compares a program's answers to random requests with the reference, by the relation that contracts allow.

    reference/compare.py PROGRAM [--requests N] [--seed S] [--lines [--most-splits N]]
    reference/compare.py --rows FOLDER

PROGRAM reads a request from standard input, as `mesh_run` does. With --lines it reads one from each line, as
`mesh_lines` does, and is asked for nearness and reasons, with a limit on splits if one is given. With --rows no program
is run: the requests of the tests' tables in a folder are taken, and the lines that stand beside them.
"""
import argparse
import json
import pathlib
import re
import subprocess
import sys
import time

from answering import answer
from clearance import clearance
from random_requests import request
from reading import Reader
from relation import Relation

FAILURES = {"REFUSED": (1, '{"refused":"mesh coordinate exceeds the integer engine range"}\n', None),
            "UNREADABLE": (2, '{"unreadable":"request"}\n', None)}
"""What the requests of a table are answered whose name ends so, if it has no lines beside them."""

STRING = re.compile(r'r#"([\s\S]*?)"#|"((?:[^"\\]|\\.)*)"')
"""A string as Rust writes it."""

def strings(table):
    """The strings of a table, in order, but not those in its notes."""
    for raw, plain in STRING.findall(re.sub(r"^ *//.*$", "", table, flags=re.M)):
        yield raw or json.loads('"' + re.sub(r"\\u\{(\w{4})\}", r"\\u\1", plain) + '"', strict=False)

def rows(folder):
    """Each request of the tables in a folder, and what it is answered. Tables of what people are told are left out."""
    for path in sorted(pathlib.Path(folder).glob("*.rt")):
        if path.stem in ("notes", "reasons"):
            continue
        for name, table in re.findall(r"^pub const (\w+): .*? = &\[$(.*?)^\];$", path.read_text(), re.M | re.S):
            found = list(strings(table))
            if found[1].startswith(('{"edges":', '{"shapes":', '{"clearance2":')):
                yield from ((text, (0, line + "\n", None)) for text, line in zip(found[::2], found[1::2]))
            elif name.split("_")[-1] in FAILURES:
                yield from ((text, FAILURES[name.split("_")[-1]]) for text in found)

def asked(program, texts):
    """What a program of one request answers to each text: its status, its line, and what it tells people."""
    for text in texts:
        found = subprocess.run(program, input=text.encode(), capture_output=True)
        yield found.returncode, found.stdout.decode(), found.stderr.decode().splitlines()

def asked_lines(program, texts):
    """What a program of lines answers to all texts, likewise. It tells reasons alone, in its lines."""
    found = subprocess.run(program, input="".join(text + "\n" for text in texts).encode(), capture_output=True)
    for line in found.stdout.decode().splitlines():
        yield 2 if "unreadable" in line else 1 if "refused" in line else 0, line + "\n", None

def distance_fault(request, shapes, told):
    """What is wrong with the distances that are told of shapes. How near a stroke holds points is not compared."""
    if sorted(told) != (["clearance2", "reach2"] if request.options["distances"] else []):
        return "distances are to be told just where they are asked for"
    if told and told["clearance2"] != clearance(request, shapes):
        return f"the clearance {clearance(request, shapes)} is needed"
    return "no reach is to be told" if told and told["reach2"] is not None and request.op != "stroke" else ""

def fault(text, answered, limit):
    """What is wrong with an answer to a request, and what it was held against. Nothing is where the fault is empty."""
    (expected, expected_line, expected_told), (status, line, told) = answer(text.encode()), answered
    found = json.loads(line or "0")
    if not isinstance(found, dict) or json.dumps(found, separators=(",", ":")) + "\n" != line:
        return "a compact line with an object is needed", "the form"
    nearness, told = found.pop("nearness", None), [found.pop("why")] if "why" in found else told
    distances = {key: found.pop(key) for key in ("clearance2", "reach2") if key in found}
    relation = Relation(Reader().read(text.encode())) if expected_line.startswith('{"shapes"') else None
    if relation and limit:
        is_refused = found == {"refused": f"splitting took more than {limit} splits"}
        wrong = relation.limit_fault(limit, is_refused)
        if wrong or is_refused:
            return wrong, "the limit on splits"
    if status != expected:
        return f"the status {expected} is needed", "the form"
    if told is not None and (sorted(told) != sorted(expected_told) if status < 2 else
                             not "".join(told[:1]).startswith(expected_told[0])):
        return f"{expected_told} is to be told", "what is told"
    if relation and list(found) == ["shapes"]:
        wrong = distance_fault(Reader().read(text.encode()), found["shapes"], distances)
        return (wrong, "distances") if wrong else relation.fault(found["shapes"], nearness)
    is_right = found == json.loads(expected_line) and nearness in (None, 0) and not distances
    return "" if is_right else f"the line is to be {expected_line}", ["edges", "a refusal", "no request"][status]

def main():
    parser = argparse.ArgumentParser(description=__doc__.split("\n")[0])
    parser.add_argument("program", nargs="*")
    parser.add_argument("--lines", action="store_true")
    parser.add_argument("--rows")
    for name, default in (("--requests", 1000), ("--seed", 1), ("--most-splits", 0)):
        parser.add_argument(name, type=int, default=default)
    given = parser.parse_args()
    begun, held, faults = time.monotonic(), {}, 0
    if given.rows:
        texts, found = zip(*rows(given.rows))
    else:
        texts = [request(given.seed, number) for number in range(given.requests)]
        limit = ["--most-splits", str(given.most_splits)] if given.most_splits else []
        words = [*given.program, "--nearness", "--why", *limit]
        found = asked_lines(words, texts) if given.lines else asked(given.program, texts)
    for number, (text, answered) in enumerate(zip(texts, found)):
        wrong, against = fault(text, answered, given.most_splits)
        held[against] = held.get(against, 0) + 1
        if wrong:
            faults += 1
            print(f"{number}: {wrong}\n  {text}\n  {answered}")
    count, seconds = sum(held.values()), round(time.monotonic() - begun)
    kind = "of the tables" if given.rows else f"of seed {given.seed}"
    print(f"{count} requests {kind}, {faults} differ, {seconds} seconds, held against {held}")
    sys.exit(faults > 0 or count < len(texts))

if __name__ == "__main__":
    main()
