"""The shared object with the proved code."""

from __future__ import annotations

import ctypes
import ctypes.util
import functools
import os
import pathlib
import warnings
from enum import IntEnum
from typing import Any, Callable

from .errors import LibraryMissing, UnprovedWarning
from .exact import read_most_splits

FILE = "libi_overlay_mesh.so"
VARIABLE = "I_OVERLAY_MESH_LIBRARY"
UNPROVED = "mesh_unproved"

NEWEST = ("mesh_draw_each_i32", "mesh_boolean_i32", "mesh_clearances_i32", "mesh_inner_reach_i32")
"""Calls that another library, or one of an earlier version, does not have."""

LEAST_ROOM = 4096
# A line is seldom longer than this many times its request, unless it has many arcs.
ROOM_FACTOR = 4

LIST = [ctypes.c_void_p, ctypes.c_size_t]
"""The parameters of a list, as one that is read or a room that is written: where it lies, and how many items it has."""

STRUCTURE = ctypes.c_void_p
"""The parameter of a structure, or of a number that is told."""


class Outcome(IntEnum):
    """How a call ended, by the codes of the header for C."""

    ANSWERED = 0
    OUT_OF_RANGE = 1
    MALFORMED = 2
    OUT_OF_MEMORY = 3
    TOO_MANY_SPLITS = 4
    ROOM_TOO_SMALL = 5


def find_library() -> str:
    """The file of the shared object: what the environment names, beside the package, built here, or the system's."""
    if VARIABLE in os.environ:
        return os.environ[VARIABLE]
    package = pathlib.Path(__file__).resolve().parent
    for folder in (package, package.parent.parent / "out" / "lib"):
        if (folder / FILE).exists():
            return str(folder / FILE)
    found = ctypes.util.find_library("i_overlay_mesh")
    if found is None:
        raise LibraryMissing(f"{FILE} is not there: `doors/build` makes it, or {VARIABLE} says where it is")
    return found


@functools.lru_cache(maxsize=None)
def load_library() -> ctypes.CDLL:
    """The shared object. Its calls may run at once in many threads: ctypes lets other threads go on meanwhile."""
    file = find_library()
    try:
        library = ctypes.CDLL(file)
        for name in NEWEST:
            getattr(library, name)
    except (OSError, AttributeError) as error:
        raise LibraryMissing(f"{file} is not the library: {error}") from error
    return library


def parameters_of(name: str) -> list[Any]:
    """The parameters of a call, but one for edges, by its name without its width."""
    if name.startswith("mesh_answer"):
        limit = [ctypes.c_uint64] if name == "mesh_answer_within" else []
        return [*LIST, *limit, *LIST, STRUCTURE]
    rooms = [*LIST, *LIST, *LIST, STRUCTURE]
    if name == "mesh_draw_each":
        parts = [STRUCTURE, STRUCTURE, *LIST, STRUCTURE]
        return [ctypes.c_uint32, *parts, STRUCTURE, *LIST, *LIST, *rooms, *[STRUCTURE] * 4]
    if name == "mesh_clearance":
        return [*LIST, *LIST, *LIST, *LIST, *LIST, ctypes.c_uint32, STRUCTURE]
    if name == "mesh_clearances":
        return [*LIST, *LIST, *LIST, ctypes.c_uint32, *LIST, STRUCTURE]
    if name == "mesh_without_slivers":
        return [*LIST, *LIST, *LIST, ctypes.c_uint32, *rooms]
    if name.startswith("mesh_boolean"):
        asked = [*LIST, *LIST, *LIST, *LIST, STRUCTURE, STRUCTURE]
        return [*asked, ctypes.c_uint64, *rooms, STRUCTURE] if name.endswith("_near") else [*asked, *rooms]
    drawing = [*LIST, *LIST, STRUCTURE]
    if name.endswith(("mesh_stroke", "mesh_stroke_near", "validate_stroke", "inner_reach")):
        drawing += [*LIST, *LIST]
    if name.startswith(("mesh_validate_", "mesh_inner_reach")):
        return [*drawing, STRUCTURE]
    if name.endswith("_near"):
        return [*drawing, STRUCTURE, ctypes.c_uint64, *rooms, STRUCTURE]
    return [*drawing, STRUCTURE, *rooms]


@functools.lru_cache(maxsize=None)
def call_of(name: str, width: str = "i32") -> Callable[..., int]:
    """A call of the library, as `mesh_outline`, that answers the number of an outcome."""
    call: Callable[..., int] = getattr(load_library(), f"{name}_{width}" if width else name)
    setattr(call, "restype", ctypes.c_uint8)  # noqa: B010, which the type does not have
    setattr(call, "argtypes", parameters_of(name))  # noqa: B010
    return call


def is_proved() -> bool:
    """Whether the compiled library was proved before it was built. (One that was not has a mark.)"""
    try:
        ctypes.c_char.in_dll(load_library(), UNPROVED)
    except ValueError:
        return True
    return False


def warn_of_proof() -> None:
    """Warns if the library was built before its proof. A missing library is reported by the first call."""
    try:
        proved = is_proved()
    except LibraryMissing:
        return
    if not proved:
        text = f"{find_library()} was built before its proof: do not rely on its answers"
        warnings.warn(text, UnprovedWarning, stacklevel=3)


def reply(request: bytes, most_splits: int | None = None) -> tuple[Outcome, bytes]:
    """How a request ended, and the program's line for it, or that of a limit on splits that it passed."""
    call = call_of("mesh_answer" if most_splits is None else "mesh_answer_within", "")
    limit = () if most_splits is None else (most_splits,)
    size = max(LEAST_ROOM, ROOM_FACTOR * len(request))
    needed = ctypes.c_size_t()
    while True:
        room = ctypes.create_string_buffer(size)
        outcome = Outcome(call(request, len(request), *limit, room, size, ctypes.byref(needed)))
        if outcome is not Outcome.ROOM_TOO_SMALL:
            return outcome, ctypes.string_at(room, needed.value)
        size = needed.value


def answer(request: bytes, most_splits: Any = None) -> bytes:
    """The line that the program `mesh_run` prints for a request in JSON, byte for byte, with its line feed.

    For a request that is refused or cannot be read, this is `{"refused":..}` or `{"unreadable":..}`. With
    `most_splits` one that takes more splits is refused; 0 means no limit.
    """
    return reply(bytes(memoryview(request)), read_most_splits(most_splits))[1]
