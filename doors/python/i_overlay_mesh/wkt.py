"""Geometries as well-known text, one a line."""

from __future__ import annotations

import re
from typing import Any, Mapping

from .errors import DrawingError

TOKEN = re.compile(r"\s*([A-Za-z]+|[-+0-9.][-+0-9.eE]*|[(),;=])")

KINDS = {
    "POINT": ("Point", 0),
    "LINESTRING": ("LineString", 1),
    "LINEARRING": ("LinearRing", 1),
    "POLYGON": ("Polygon", 2),
    "MULTIPOINT": ("MultiPoint", 1),
    "MULTILINESTRING": ("MultiLineString", 2),
    "MULTIPOLYGON": ("MultiPolygon", 3),
}
"""For each kind its name in GeoJSON, and in how many levels of brackets its points stand."""


class Words:
    """The words of a text, one after the other."""

    def __init__(self, text: str) -> None:
        self.words: list[str] = []
        at = 0
        while text[at:].strip():
            found = TOKEN.match(text, at)
            if found is None:
                raise DrawingError("", f"at {text[at:].strip()[:20]!r} it is no WKT")
            self.words.append(found[1].upper())
            at = found.end()
        self.words.append("")
        self.at = 0

    @property
    def next(self) -> str:
        """The word that follows."""
        return self.words[self.at]

    def take(self, wanted: str = "") -> str:
        """The word that follows, which has to be the one that is wanted, if one is."""
        word = self.next
        if word == "" or (wanted and word != wanted):
            raise DrawingError("", f"it is no WKT: {wanted or 'more'!r} is missing before {word or 'its end'!r}")
        self.at += 1
        return word

    def takes(self, word: str) -> bool:
        """Takes a word if it follows."""
        if self.next != word:
            return False
        self.at += 1
        return True


def read(text: str) -> dict[str, Any]:
    """The GeoJSON mapping of a text. A number of a CRS before it, as in `SRID=3035;`, is passed over."""
    words = Words(text)
    if words.takes("SRID"):
        words.take("=")
        words.take()
        words.take(";")
    geometry = geometry_of(words)
    if words.next != "":
        raise DrawingError("", f"it is no WKT: {words.next!r} follows its end")
    return geometry


def geometry_of(words: Words) -> dict[str, Any]:
    """The geometry that follows."""
    name = words.take()
    size = 2
    for mark in ("ZM", "Z", "M"):
        if name.endswith(mark) and name not in KINDS and name[: -len(mark)] in (*KINDS, "GEOMETRYCOLLECTION"):
            name, size = name[: -len(mark)], 3
        elif words.takes(mark):
            size = 3
    if name == "GEOMETRYCOLLECTION":
        if words.takes("EMPTY"):
            return {"type": "GeometryCollection", "geometries": []}
        return {"type": "GeometryCollection", "geometries": listed(words, geometry_of)}
    if name not in KINDS:
        raise DrawingError("", f"{name!r} is none of the geometries of WKT")
    kind, levels = KINDS[name]
    if words.takes("EMPTY"):
        return {"type": kind, "coordinates": []}
    if kind == "Point":
        return {"type": kind, "coordinates": listed(words, point_of)[0]}
    return {"type": kind, "coordinates": nested(words, levels)}


def listed(words: Words, read_item: Any) -> list[Any]:
    """Items in brackets."""
    words.take("(")
    items = [read_item(words)]
    while words.takes(","):
        items.append(read_item(words))
    words.take(")")
    return items


def nested(words: Words, levels: int) -> list[Any]:
    """Points in brackets in levels. An empty part has none."""
    if levels == 1:
        return listed(words, point_of)
    return listed(words, lambda inner: [] if inner.takes("EMPTY") else nested(inner, levels - 1))


def point_of(words: Words) -> list[float]:
    """A point; those of a MULTIPOINT may have brackets. A number beyond x and y is passed over."""
    has_brackets = words.takes("(")
    numbers = []
    while words.next not in (",", ")", ""):
        word = words.take()
        try:
            numbers.append(float(word))
        except ValueError:
            raise DrawingError("", f"{word!r} is no number of WKT") from None
    if has_brackets:
        words.take(")")
    return numbers[:2]


def written(geometry: Mapping[str, Any]) -> str:
    """The text of a polygon or of polygons."""
    coordinates = geometry["coordinates"]
    name = geometry["type"].upper()
    return f"{name} {bracketed(coordinates)}" if coordinates else f"{name} EMPTY"


def bracketed(items: Any) -> str:
    """Lists in brackets; points as two numbers."""
    if not isinstance(items[0], (list, tuple)):
        return " ".join(map(plain, items))
    return f"({', '.join(map(bracketed, items))})"


def plain(number: float) -> str:
    """A number, whole ones without a point."""
    return str(int(number)) if number == int(number) and abs(number) < 2**53 else repr(float(number))
