"""Files of GeoJSON: one object, or features one a line."""

from __future__ import annotations

import itertools
import json
from collections.abc import Iterator
from dataclasses import dataclass
from typing import Any, Callable, Iterable, Sequence

from .errors import DrawingError

# Before a line a record separator may stand, as in GeoJSON text sequences.
SEPARATOR = "\x1e"
WHITE = SEPARATOR + " \t\r\n"


class FeatureError(Exception):
    """A feature cannot be buffered, or a file is none of its kind."""


@dataclass(frozen=True)
class Work:
    """What is done to geometries.

    draw: buffers some, where each is a GeoJSON mapping or None; in a mapping it tells the errors of those that cannot be.
    batch: how many lines are read before they are answered.
    tell: is told how many lines are done.
    """

    draw: Callable[[Sequence[Any], dict[int, Exception]], list[Any]]
    batch: int
    tell: Callable[[int], None]

    def drawn(self, geometries: Sequence[Any], names: Sequence[str]) -> Iterator[Any]:
        """The geometries buffered, in order, up to the first that cannot be."""
        errors: dict[int, Exception] = {}
        answers = self.draw(geometries, errors)
        for number, answer in enumerate(answers):
            if number in errors:
                raise FeatureError(told(names[number], errors[number].__cause__)) from errors[number]
            yield answer


def told(where: str, error: object) -> str:
    """An error with where it came."""
    return f"{where}: {error}" if where else str(error)


def buffered_file(lines: Iterable[str], work: Work) -> Iterator[str]:
    """The file with each geometry buffered: its lines one by one, or all of it at once."""
    lines = iter(lines)
    first = next((line for line in lines if line.strip(WHITE)), "")
    if is_feature(first):
        second = next((line for line in lines if line.strip(WHITE)), None)
        if second is not None:
            yield from buffered_lines(itertools.chain([first, second], lines), work)
            return
    yield buffered_text(first + "".join(lines), work)


def is_feature(line: str) -> bool:
    """Whether a line is a feature."""
    try:
        value = json.loads(line.strip(WHITE))
    except ValueError:
        return False
    return isinstance(value, dict) and value.get("type") == "Feature"


def buffered_lines(lines: Iterable[str], work: Work) -> Iterator[str]:
    """Features, one a line, some at a time."""
    texts = (text for text in (line.strip(WHITE) for line in lines) if text)
    done = 0
    while True:
        names, features, failure = [], [], None
        for number, text in enumerate(itertools.islice(texts, work.batch), done):
            try:
                features.append(checked(f"feature {number}", parsed(f"feature {number}", text)))
            except FeatureError as error:
                failure = error
                break
            names.append(f"feature {number}")
        geometries = work.drawn([feature.get("geometry") for feature in features], names)
        for name, feature, geometry in zip(names, features, geometries):
            done += 1
            yield written(name, replaced(feature, geometry))
            work.tell(done)
        if failure is not None:
            raise failure
        if not features:
            return


def buffered_text(text: str, work: Work) -> str:
    """One GeoJSON object."""
    value = parsed("", text.strip(WHITE))
    kind = value.get("type") if isinstance(value, dict) else None
    if kind == "Feature":
        feature = checked("feature 0", value)
        (geometry,) = work.drawn([feature.get("geometry")], ["feature 0"])
        return written("feature 0", replaced(feature, geometry))
    if kind != "FeatureCollection":
        (geometry,) = work.drawn([checked_geometry("", value)], [""])
        return written("", geometry)
    features = value.get("features")
    if not isinstance(features, list):
        raise FeatureError("the FeatureCollection has no list of features")
    names = [f"feature {number}" for number in range(len(features))]
    features = [checked(name, feature) for name, feature in zip(names, features)]
    geometries = work.drawn([feature.get("geometry") for feature in features], names)
    done = [replaced(feature, geometry) for feature, geometry in zip(features, geometries)]
    return written("", {**without_box(value), "features": done})


def checked(where: str, feature: Any) -> dict[str, Any]:
    """A feature, with a geometry or none."""
    if not isinstance(feature, dict) or feature.get("type") != "Feature":
        raise FeatureError(f"{where}: it is no Feature")
    if feature.get("geometry") is not None:
        checked_geometry(where, feature["geometry"])
    return feature


def checked_geometry(where: str, geometry: Any) -> Any:
    """What may be a geometry."""
    if not isinstance(geometry, dict):
        raise FeatureError(told(where, "it is no GeoJSON geometry"))
    return geometry


def replaced(feature: dict[str, Any], geometry: Any) -> dict[str, Any]:
    """A feature with another geometry; one without a geometry as it is."""
    return feature if feature.get("geometry") is None else {**without_box(feature), "geometry": geometry}


def without_box(value: dict[str, Any]) -> dict[str, Any]:
    """All but the box, which is another one now."""
    return {key: item for key, item in value.items() if key != "bbox"}


def parsed(where: str, text: str) -> Any:
    """What a text of JSON says."""
    try:
        return json.loads(text)
    except ValueError as error:
        raise FeatureError(told(where, f"it is no JSON: {error}")) from error


def written(where: str, value: Any) -> str:
    """The text of a value, on one line. The format has no infinity, which a property may have been read as."""
    try:
        text = json.dumps(value, ensure_ascii=False, separators=(",", ":"), allow_nan=False)
        # Half of a character beyond 16 bits can be written as an escape alone.
        return text if is_unicode(text) else json.dumps(value, separators=(",", ":"))
    except ValueError as error:
        raise FeatureError(told(where, f"a property is no JSON: {error}")) from error


def is_unicode(text: str) -> bool:
    """Whether a text can be written in UTF-8."""
    try:
        text.encode()
    except UnicodeEncodeError:
        return False
    return True
