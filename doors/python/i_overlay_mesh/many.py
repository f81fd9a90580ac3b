"""Many geometries, each buffered by itself, by a pool of threads."""

from __future__ import annotations

import sys
from fractions import Fraction
from typing import Any, Callable, Optional, Sequence

from .errors import DrawingError
from .exact import Number, read_number
from .offsets import Buffering, read_buffering
from .pool import Pool, Progress, read_workers, shown
from .reading import is_geometry
from .styles import Cap


def buffer_all(
    geometries: Any,
    distance: Any,
    *,
    cap: Optional[Cap] = None,
    join: Optional[str] = None,
    step: Optional[float] = None,
    tolerance: Optional[Number] = None,
    at_least: bool = False,
    miter_limit: Optional[float] = None,
    min_turn: Optional[float] = None,
    scale: Optional[Number] = None,
    origin: Optional[Sequence[Number]] = None,
    most_splits: Optional[int] = None,
    sliver_width: Optional[Number] = None,
    quad_segs: Optional[int] = None,
    cap_style: Any = None,
    join_style: Any = None,
    mitre_limit: Optional[float] = None,
    single_sided: bool = False,
    workers: Optional[int] = None,
    progress: Progress = None,
    errors: Optional[dict[int, Exception]] = None,
    project: Any = None,
) -> Any:
    """Buffers each geometry by itself, as `buffer` does, in several threads.

    Args:
        geometries: a list, a numpy array, or a GeoPandas column or table. Each item is a Shapely geometry, a GeoJSON
            mapping, or anything else that `buffer` takes. None and empty geometries stay as they are.
        distance: how far; or a list or an array with one distance per geometry.
        cap, join, step, tolerance, at_least, miter_limit, min_turn, scale, origin, most_splits, sliver_width, quad_segs,
            cap_style, join_style, mitre_limit, single_sided: as for `buffer`.
        workers: how many threads; by default one for each processor.
        progress: True for a bar on standard error; or a function that is called with how many are done, and of how many.
        errors: a dict that collects the errors by index; the answer then has None in those places. Without it, the
            first geometry that cannot be buffered raises its error, which has the index.
        project: for GeoPandas only: a CRS whose unit is a length, or 'utm', in which a map in degrees is buffered; the answer
            is brought back to degrees.

    Returns:
        The same kind as `geometries`, in the same order: a list, an array of the same shape, or a column or table with
        the same index, columns and CRS. Shapely geometries come back as such, anything else as `Shapes`.

    Raises:
        DrawingError: as `buffer`; it says which geometry. KeyboardInterrupt: within a second.
    """
    words = dict(
        cap=cap,
        join=join,
        step=step,
        tolerance=tolerance,
        at_least=at_least,
        miter_limit=miter_limit,
        min_turn=min_turn,
        scale=scale,
        origin=origin,
        most_splits=most_splits,
        sliver_width=sliver_width,
        quad_segs=quad_segs,
        cap_style=cap_style,
        join_style=join_style,
        mitre_limit=mitre_limit,
        single_sided=single_sided,
    )

    def draw(items: Sequence[Any]) -> list[Any]:
        return draw_all(items, hows(distance, len(items), words), read_workers(workers), progress, errors)

    if "geopandas" in sys.modules:
        from . import frames

        if frames.is_frame(geometries):
            return frames.drawn(geometries, distance, draw, project)
    if project is not None:
        raise DrawingError("", "project is given, and geometries have no CRS but those of GeoPandas")
    return like(geometries, draw)


def like(geometries: Any, draw: Callable[[Sequence[Any]], list[Any]]) -> Any:
    """The answers in a list, or in an array where an array was given."""
    if "numpy" in sys.modules:
        import numpy

        if isinstance(geometries, numpy.ndarray):
            if geometries.dtype != object and geometries.size:
                raise DrawingError("", f"geometries is an array of {geometries.dtype}, and has to be one of objects")
            result = numpy.full(geometries.size, None, object)
            # Some answers are sequences, which an array would take apart.
            for number, answer in enumerate(draw(geometries.ravel().tolist())):
                result[number] = answer
            return result.reshape(geometries.shape)
    if isinstance(geometries, (str, bytes, dict)) or not hasattr(geometries, "__iter__") or is_geometry(geometries):
        raise DrawingError("", "geometries is no list and no array; `buffer` takes a single geometry")
    return draw(list(geometries))


def hows(distance: Any, count: int, words: dict[str, Any]) -> Sequence[Buffering]:
    """How each geometry is buffered."""
    if hasattr(distance, "tolist"):
        distance = distance.tolist()
    if not hasattr(distance, "__iter__") or isinstance(distance, (str, bytes)):
        return [read_buffering(distance, **words)] * count
    distances = list(distance)
    if len(distances) != count:
        raise DrawingError(
            "", f"distance has {len(distances)} numbers, and has to have one for each of {count} geometries"
        )
    known: dict[Number, Buffering] = {}
    for number in (read_number(f"geometry {index}", "distance", item) for index, item in enumerate(distances)):
        if number not in known:
            known[number] = read_buffering(number, **words)
    return [known[number] for number in distances]


def draw_all(
    items: Sequence[Any],
    ways: Sequence[Buffering],
    workers: int,
    progress: Progress,
    errors: Optional[dict[int, Exception]],
) -> list[Any]:
    """Each item buffered in its way."""
    result: list[Any] = [None] * len(items)

    def work(chunk: range, pool: Pool) -> None:
        left = at_once(items, ways, chunk, result, pool)
        for number in left:
            if pool.is_stopped:
                return
            try:
                result[number] = drawn(items[number], ways[number])
            except DrawingError as error:
                pool.fail(number, told_at(number, error))
                if not pool.is_collecting:
                    return

    tell, end = shown(progress, "geometries")
    try:
        Pool(work, errors).run(len(items), workers, tell)
    finally:
        end()
    return result


def told_at(number: int, error: DrawingError) -> DrawingError:
    """An error with the number of the geometry."""
    where = f"geometry {number}" + (f", {error.where}" if error.where else "")
    told = type(error)(where, error.rule)
    told.__cause__ = error
    return told


def drawn(item: Any, how: Buffering) -> Any:
    """A geometry buffered: one of Shapely for one of Shapely, else shapes. None and empty ones stay as they are."""
    if item is None:
        return None
    if not is_geometry(item):
        return how.shapes(item)._without_sources()
    return item if item.is_empty else how.shapes(item).shapely()


def at_once(
    items: Sequence[Any], ways: Sequence[Buffering], chunk: range, result: list[Any], pool: Pool
) -> Sequence[int]:
    """Buffers what of a chunk arrays can; answers the numbers of the others."""
    shapely: Any = sys.modules.get("shapely")
    if not hasattr(shapely, "linearrings"):
        return chunk
    import numpy

    from . import batches

    own_items, own_ways = items[chunk.start : chunk.stop], ways[chunk.start : chunk.stop]
    known = dict(zip(map(id, own_ways), own_ways))
    plain = [how for how in known.values() if is_plain_way(how)]
    places = {**dict.fromkeys(known, -1), **{id(how): place for place, how in enumerate(plain)}}
    of_way = numpy.array([*map(places.__getitem__, map(id, own_ways))])
    given = numpy.full(len(chunk), None, object)
    # Some items are sequences, which an array would take apart.
    for place, item in enumerate(own_items):
        given[place] = item
    (chosen,) = numpy.nonzero((of_way >= 0) & shapely.is_geometry(given))
    if not len(chosen):
        return chunk
    answers, are_done = batches.buffered(given[chosen], plain, of_way[chosen], pool.stop)
    done: Any = chosen[are_done]
    for place, answer in zip(done.tolist(), answers[are_done].tolist()):
        result[chunk.start + place] = answer
    left: Any = numpy.delete(numpy.arange(chunk.start, chunk.stop), done)
    numbers: list[int] = left.tolist()
    return numbers


def is_plain_way(how: Buffering) -> bool:
    """Whether each geometry takes a grid of its own, and nothing is asked beside shapes."""
    if how.look.arcs.outside and how.distance > 0:
        return False
    wishes = how.wishes
    asked = (wishes.scale, wishes.origin, wishes.most_splits, wishes.sliver_width)
    return all(wish is None for wish in asked) and Fraction(float(how.distance)) == how.distance
