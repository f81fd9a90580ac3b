"""Work on many items by a pool of threads, which a signal can stop."""

from __future__ import annotations

import ctypes
import os
import queue
import sys
import threading
from typing import Any, Callable, Optional, TextIO, Union

from .errors import DrawingError

Tell = Callable[[int, int], None]
Progress = Union[None, bool, Tell]

PATIENCE = 0.2
"""So many seconds the main thread waits at most before it looks for signals."""

MOST_ITEMS = 1024
"""Of a chunk."""

FEW_ITEMS = 256
"""What is done once for a chunk takes little beside what is done for so many items."""

CHUNKS_A_WORKER = 8
"""At least, where there are enough items."""


def chunks_of(count: int, workers: int) -> list[range]:
    """All numbers below a count in chunks, large ones first, and small ones for those that are done early."""
    least = max(1, min(FEW_ITEMS, count // (workers * CHUNKS_A_WORKER)))
    chunks, start = [], 0
    while start < count:
        size = max(least, min(MOST_ITEMS, (count - start) // (2 * workers)))
        chunks.append(range(start, min(count, start + size)))
        start += size
    return chunks


def read_workers(workers: Any) -> int:
    """How many threads are asked for; by default one for each processor that may be used."""
    if workers is None:
        return len(os.sched_getaffinity(0)) if hasattr(os, "sched_getaffinity") else os.cpu_count() or 1
    if not isinstance(workers, int) or isinstance(workers, bool) or workers < 1:
        raise DrawingError("", f"workers is {workers!r}, and has to be a whole number from 1")
    return workers


class Meter:
    """A line on a stream that says how much is done."""

    def __init__(self, stream: TextIO, what: str) -> None:
        self.stream, self.what, self.has_begun = stream, what, False

    def tell(self, done: int, total: Optional[int]) -> None:
        """Shows how many of how many are done, where that is known."""
        self.has_begun = True
        of = "" if total is None else f" of {total}"
        self.stream.write(f"\r{done}{of} {self.what}")
        self.stream.flush()

    def end(self) -> None:
        """Goes on to the next line."""
        if self.has_begun:
            self.stream.write("\n")


class Bar:
    """A bar of tqdm."""

    def __init__(self, bar: Any) -> None:
        self.bar = bar

    def tell(self, done: int, total: Optional[int]) -> None:
        """Moves the bar."""
        self.bar.total = total
        self.bar.update(done - self.bar.n)

    def end(self) -> None:
        """Leaves the bar as it is."""
        self.bar.close()


def meter_on(stream: TextIO, what: str) -> Union[Meter, Bar]:
    """A bar of tqdm where it is installed, else a line."""
    try:
        import tqdm
    except ImportError:
        return Meter(stream, what)
    return Bar(tqdm.tqdm(file=stream, unit=f" {what}", leave=True))


class Pool:
    """Threads that take chunks of numbers from 0 on, in their order.

    An error of one number ends the taking of chunks, unless errors are collected; all chunks that were taken are
    finished, so that the error that is raised is the first one.
    """

    def __init__(self, work: Callable[[range, Pool], None], errors: Optional[dict[int, Exception]]) -> None:
        self.work = work
        self.is_collecting = errors is not None
        self.errors: dict[int, Exception] = errors if errors is not None else {}
        self.stop = ctypes.c_uint8()
        self.done: queue.SimpleQueue[int] = queue.SimpleQueue()
        self.lock = threading.Lock()

    @property
    def is_stopped(self) -> bool:
        """Whether the work is to end: `stop` is not 0, which the library looks at as well."""
        return self.stop.value != 0

    def fail(self, number: int, error: Exception) -> None:
        """Notes the error of a number."""
        self.errors[number] = error

    def take(self) -> Optional[range]:
        """The next chunk; none where there is none, or the work is to end."""
        with self.lock:
            if self.is_stopped or not self.chunks or (self.errors and not self.is_collecting):
                return None
            return self.chunks.pop()

    def run_thread(self) -> None:
        """What a thread does."""
        try:
            while True:
                chunk = self.take()
                if chunk is None:
                    return
                try:
                    self.work(chunk, self)
                except Exception as error:  # noqa: BLE001, which the main thread raises
                    self.is_collecting = False
                    self.fail(chunk.start, error)
                self.done.put(len(chunk))
        finally:
            self.done.put(-1)

    def run(self, count: int, workers: int, tell: Optional[Tell]) -> None:
        """Works on all numbers below a count, and raises the first error, unless errors are collected."""
        self.chunks = chunks_of(count, workers)[::-1]
        threads = [threading.Thread(target=self.run_thread, daemon=True) for _ in range(min(workers, len(self.chunks)))]
        for thread in threads:
            thread.start()
        # Threads that are inside the library are left to themselves where a signal ends the wait.
        try:
            self.wait(len(threads), count, tell)
        finally:
            self.stop.value = 1
        if self.errors and not self.is_collecting:
            raise self.errors[min(self.errors)]

    def wait(self, running: int, count: int, tell: Optional[Tell]) -> None:
        """Waits for all threads."""
        finished = 0
        while running:
            try:
                items = self.done.get(timeout=PATIENCE)
            except queue.Empty:
                continue
            if items < 0:
                running -= 1
                continue
            finished += items
            if tell is not None:
                tell(finished, count)


def shown(progress: Progress, what: str) -> tuple[Optional[Tell], Callable[[], None]]:
    """What is told how much is done, and what is called at the end."""
    if progress is None or progress is False:
        return None, lambda: None
    if progress is True:
        meter = meter_on(sys.stderr, what)
        return meter.tell, meter.end
    if not callable(progress):
        raise DrawingError(
            "", f"progress is {progress!r}, and has to be True, or a function of how many are done of how many"
        )
    return progress, lambda: None
