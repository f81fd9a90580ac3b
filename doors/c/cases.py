"""Writes cases for the test in C: requests, of which so many random ones, and what the program answers to each.

    cases.py COUNT

A case is a line of numbers: how many bytes the request has, how many the program's line, its status, how many numbers
the drawing has; then the request, the line, and these numbers, each behind a space. They are of requests for a drawing
that are read, in the order in which `test.c` reads them; other cases have none.
"""

import ctypes
import json
import os
import pathlib
import random
import subprocess
import sys
import warnings
from concurrent.futures import ThreadPoolExecutor

ROOT = pathlib.Path(__file__).resolve().parent.parent.parent
sys.path += [str(ROOT / "bench"), str(ROOT / "doors/python")]
warnings.filterwarnings("ignore", ".*built before its proof")

import random_requests
from i_overlay_mesh.styles import FILL_KINDS, RULE_KINDS, SIDES, style_of

PROGRAM = os.environ.get("I_OVERLAY_MESH_PROGRAM", ROOT / "crates/mesh_run/out/mesh_run")

RANDOM_REQUESTS = int(sys.argv[1])

BOOLEANS = 60
"""So many random requests combine regions."""

SECONDS = 5
"""A request is left out where the program takes longer: splits can run on."""

STRANGE = [
    b"",
    b"{",
    b"null",
    b"\xff",
    b"\0",
    b'{"op":"outline"}',
    b"[" * 2000,
    b'{"op":"outline","int":"i16","out":"edges","paths":[],"style":{"outer":1,"inner":1}}',
    b'{"op":"outline","int":"i16","out":"shapes","paths":[[[15360,0]]],"style":{"outer":1024,"inner":1024}}',
    b'{"op":"outline","int":"i16","out":"shapes","paths":[[[0,0,0]]],"style":{"outer":1,"inner":1}}',
]

SLIVER = (
    b'{"op":"outline","int":"i32","out":"shapes","paths":[[[-253668,994080],[-537283,2004779],[-537751,2004563],'
    b'[-538416,2004132],[-561008,2047212],[-561818,2047551],[-562788,2047957]]],"style":{"outer":50000,"inner":50000}}'
)
"""The smallest drawing that is known to be answered with a sliver."""


def random_paths(source):
    """Some contours on a small grid."""
    return [[[source.randint(-9, 9), source.randint(-9, 9)] for _ in range(source.randint(2, 5))] for _ in range(2)]


def operand(source, width):
    """Some contours, a drawing, or nothing."""
    if source.randrange(3):
        return random_paths(source)
    words = random_requests.request(source.randrange(100_000))
    keys = ("op", "paths", "style", "closed")
    return {key: words[key] for key in keys if key in words} if words["int"] == width else []


def combination(source):
    """A random request for a boolean, a coverage or overlaps."""
    operation, width = source.choice(["boolean", "boolean", "coverage", "overlaps"]), source.choice(["i16", "i32"])
    words = {"op": operation, "int": width, "out": "shapes", "fill": source.choice(list(FILL_KINDS))}
    if operation == "boolean":
        words["rule"] = source.choice(list(RULE_KINDS))
        words["subject"], words["clip"] = operand(source, width), operand(source, width)
    else:
        words["zones"] = [operand(source, width) for _ in range(source.randint(0, 4))]
    if operation == "coverage":
        words["least"] = source.randint(1, 3)
    return words


def requests():
    """The examples, strange requests, random ones, of which each fifth asks for edges, and one with a sliver."""
    for example in sorted((ROOT / "examples").rglob("*.json")):
        yield example.read_bytes()
    yield from STRANGE
    for number in range(RANDOM_REQUESTS):
        words = random_requests.request(number)
        if number % 5 == 0:
            words["out"] = "edges"
        elif number % 5 == 1:
            words["options"] = {"min_area": number % 50, "clockwise": number % 2 == 0, "collinear": number % 3 == 0}
        if words["op"] == "stroke":
            words["style"]["side"] = SIDES[number % 3]
        yield json.dumps(words).encode()
    source = random.Random(76)
    for _ in range(BOOLEANS):
        yield json.dumps(combination(source)).encode()
    yield SLIVER


def numbers_of(structure):
    """The numbers of a structure, field by field."""
    for name, _ in structure._fields_:
        value = getattr(structure, name)
        yield from numbers_of(value) if isinstance(value, ctypes.Structure) else [value]


def style_numbers(words):
    """A style; of a stroke then the points of both custom caps."""
    style = style_of(words)
    return [*numbers_of(style.structure), *(number for points in style.caps for number in item_numbers(points))]


def item_numbers(items):
    """How many items there are, and the numbers of each."""
    return [len(items)] + [number for item in items for number in item]


def drawing_numbers(request):
    """The numbers of a drawing; none of a request for something else."""
    words = json.loads(request)
    if words["op"] not in random_requests.OPERATIONS:
        return []
    options = words.get("options", {})
    chosen = [options.get("min_area", 0), int(options.get("clockwise", False)), int(options.get("collinear", False))]
    width = {"i16": 16, "i32": 32}[words["int"]]
    ends = [sum(map(len, words["paths"][: index + 1])) for index in range(len(words["paths"]))]
    items = [item for path in words["paths"] for item in path]
    operation = random_requests.OPERATIONS.index(words["op"])
    out = ["shapes", "edges"].index(words["out"])
    return [operation, width, out, *style_numbers(words), *chosen, len(ends), *ends, *item_numbers(items)]


def case(request):
    """A request with the program's answer, nothing where that takes too long."""
    try:
        run = subprocess.run(
            [PROGRAM], input=request, stdout=subprocess.PIPE, stderr=subprocess.DEVNULL, timeout=SECONDS
        )
    except subprocess.TimeoutExpired:
        return b""
    numbers = drawing_numbers(request) if run.returncode != 2 else []
    head = b"%d %d %d %d\n" % (len(request), len(run.stdout), run.returncode, len(numbers))
    return head + request + run.stdout + b"".join(b" %d" % number for number in numbers) + b"\n"


with ThreadPoolExecutor() as pool:
    for text in pool.map(case, requests()):
        sys.stdout.buffer.write(text)
