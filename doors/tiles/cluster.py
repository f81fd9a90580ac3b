"""Answers lines in many processes, by Dask: each worker calls the library through its shared object, and keeps no state.

A worker that dies is begun anew, and its lines are answered again: a line has one answer, wherever it is made.
"""
import logging
import pathlib
import sys

from distributed import Client, LocalCluster

HERE = pathlib.Path(__file__).resolve().parent

BATCH_BYTES = 1 << 18
"""About how many bytes of lines a worker is given at once."""


def batches(lines):
    """Lines in order, some quarter of a megabyte together."""
    batch, size = [], 0
    for line in lines:
        batch.append(line)
        size += len(line)
        if size >= BATCH_BYTES:
            yield batch
            batch, size = [], 0
    if batch:
        yield batch


def answer_batch(package, batch):
    """The answers of lines, in a worker. `package` is the folder of the library's package for Python."""
    if package not in sys.path:
        sys.path.insert(0, package)
    from i_overlay_mesh import answer

    return [answer(line.rstrip(b"\n")) for line in batch]


def answer_lines(lines, workers, scheduler=None, retries=3):
    """The answers of lines in their order, by so many processes here or by the workers of a scheduler."""
    if scheduler is not None:
        with Client(scheduler) as client:
            return gathered(client, lines, retries)
    with local_cluster(workers) as cluster:
        with Client(cluster) as client:
            return gathered(client, lines, retries)


def local_cluster(workers):
    """So many processes on this machine."""
    return LocalCluster(n_workers=workers, threads_per_worker=1, dashboard_address=None, silence_logs=logging.CRITICAL)


def gathered(client, lines, retries):
    """The answers of lines, each batch a task."""
    package = str(HERE.parent / "python")
    tasks = [client.submit(answer_batch, package, batch, retries=retries, pure=False) for batch in batches(lines)]
    return [line for answers in client.gather(tasks) for line in answers]
