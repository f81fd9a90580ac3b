"""How long the machine takes to sort edges, for other times to be held against: in C++ where that can be built."""
import os
import pathlib
import random
import shutil
import subprocess
import tempfile
import time

SOURCE = pathlib.Path(__file__).resolve().parent / "sort_edges.cpp"

COMPILERS = ["c++", "g++", "clang++"]


class Yardstick:
    """The sort, built once."""

    def __init__(self):
        self.folder = tempfile.TemporaryDirectory()
        self.program = os.path.join(self.folder.name, "sort_edges")
        compiler = next((name for name in [os.environ.get("CXX"), *COMPILERS] if name and shutil.which(name)), None)
        self.is_built = compiler is not None and is_built_by(compiler, self.program)

    def name(self):
        """What sorts."""
        return "std::sort in C++, -O2" if self.is_built else "sorted() in Python"

    def seconds(self, count):
        """The least of three times in which so many edges are sorted."""
        if self.is_built:
            words = [self.program, str(count)]
            return float(subprocess.run(words, capture_output=True, text=True, check=True).stdout.split()[0])
        return sorted_here(count)


def is_built_by(compiler, program):
    """Builds the program of the sort; whether that worked."""
    return subprocess.run([compiler, "-O2", "-o", program, str(SOURCE)], check=False).returncode == 0


def sorted_here(count):
    """The least of three times in which Python sorts so many edges, in seconds."""
    noise = random.Random(1)
    edges = [tuple(noise.getrandbits(32) - 2**31 for _ in range(4)) for _ in range(count)]
    least = None
    for _ in range(3):
        start = time.perf_counter()
        sorted(edges)
        seconds = time.perf_counter() - start
        least = seconds if least is None else min(least, seconds)
    return least
