"""Runs the program on a request, one process a request, and tells time and memory."""
import argparse
import math
import os
import pathlib
import resource
import shlex
import signal
import subprocess
import sys
import tempfile
import time
from typing import NamedTuple

CRATES = pathlib.Path(__file__).resolve().parent.parent / "crates"

KIBIBYTE = 1024

MEGABYTE = 1_000_000


class Run(NamedTuple):
    """What one process did. `status` is None where it was stopped, `processor` its time on processors, in seconds, and
    `memory` the most it had at once, in bytes.
    """

    status: int | None
    seconds: float
    processor: float
    memory: int
    answer: bytes


def add_program(parser, crate="mesh_run"):
    """Adds the argument for the program of a crate to a parser of arguments."""
    parser.add_argument(
        "program",
        nargs="?",
        type=shlex.split,
        default=[str(CRATES / crate / "out" / crate)],
        metavar="PROGRAM",
        help=f"the program, or a command line in quotes; by default the one that `rt run` makes in crates/{crate}",
    )


def seconds_above_zero(text):
    """A limit in seconds, read from an argument."""
    limit = float(text)
    if limit <= 0:
        raise argparse.ArgumentTypeError("a limit is above 0")
    return limit


def run_file(command, asked, answered, limit):
    """Runs a command from one open file to another, and stops it after so many seconds. The answer is in the file."""
    asked.seek(0)
    start = time.perf_counter()
    process = subprocess.Popen(command, stdin=asked, stdout=answered, stderr=subprocess.DEVNULL)
    was_stopped = False

    def stop(_signal, _frame):
        nonlocal was_stopped
        was_stopped = True
        try:
            os.kill(process.pid, signal.SIGKILL)
        except ProcessLookupError:
            pass

    before = signal.signal(signal.SIGALRM, stop)
    signal.setitimer(signal.ITIMER_REAL, limit)
    try:
        _, state, usage = os.wait4(process.pid, 0)
    finally:
        signal.setitimer(signal.ITIMER_REAL, 0)
        signal.signal(signal.SIGALRM, before)
    seconds = time.perf_counter() - start
    process.returncode = os.waitstatus_to_exitcode(state)
    status = None if was_stopped else process.returncode
    return Run(status, seconds, usage.ru_utime + usage.ru_stime, usage.ru_maxrss * KIBIBYTE, b"")


def run(command, request, limit):
    """Runs a command on the bytes of a request, with the answer."""
    with tempfile.TemporaryFile() as asked, tempfile.TemporaryFile() as answered:
        asked.write(request)
        done = run_file(command, asked, answered, limit)
        answered.seek(0)
        return done._replace(answer=answered.read())


def own_memory():
    """The most memory that this process had at once, in bytes. Of a process that it starts less can't be told."""
    return resource.getrusage(resource.RUSAGE_SELF).ru_maxrss * KIBIBYTE


def memory_text(memory):
    """An amount of memory in a cell of a table, in megabytes."""
    if memory <= own_memory():
        return f"< {math.ceil(own_memory() / MEGABYTE)}"
    return f"{memory / MEGABYTE:.0f}"


def tell(text):
    """Shows how far the work is, beside the table."""
    print(text, file=sys.stderr, flush=True)
