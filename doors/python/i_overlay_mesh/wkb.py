"""Geometries as well-known binary, one behind the other."""

from __future__ import annotations

import struct
from array import array
from typing import Any, Iterator, Mapping, Sequence

from .errors import DrawingError

POINT, LINE, POLYGON, COLLECTION = 1, 2, 3, 7
MULTIPLE = {4: ("MultiPoint", POINT), 5: ("MultiLineString", LINE), 6: ("MultiPolygon", POLYGON)}

# In the extended form; else the hundreds of the kind say how many coordinates a point has.
HAS_Z, HAS_M, HAS_NUMBER = 0x80000000, 0x40000000, 0x20000000


class Bytes:
    """What is read of bytes."""

    def __init__(self, data: bytes) -> None:
        self.data, self.at = data, 0

    def take(self, size: int) -> bytes:
        """So many bytes more."""
        part = self.data[self.at : self.at + size]
        if len(part) < size:
            raise DrawingError("", f"it is no WKB: it ends after {len(self.data)} bytes, within a geometry")
        self.at += size
        return part

    def whole(self, order: str) -> int:
        """A whole number of four bytes."""
        number: int = struct.unpack(order + "I", self.take(4))[0]
        return number

    def points(self, order: str, count: int, size: int) -> list[list[float]]:
        """So many points of so many coordinates, of which two are taken."""
        numbers = array("d", self.take(8 * count * size))
        if order == ">":
            numbers.byteswap()
        return [list(point) for point in zip(numbers[::size], numbers[1::size])]


def read_all(data: bytes) -> Iterator[dict[str, Any]]:
    """The GeoJSON mappings of all geometries."""
    given = Bytes(data)
    while given.at < len(data):
        yield geometry_of(given)


def read(data: bytes) -> dict[str, Any]:
    """The GeoJSON mapping of one geometry."""
    return geometry_of(Bytes(data))


def read_hex(text: str) -> dict[str, Any]:
    """The GeoJSON mapping of one geometry in hexadecimal digits."""
    try:
        data = bytes.fromhex(text)
    except ValueError:
        raise DrawingError("", f"it is no WKB: {text[:20]!r} are no hexadecimal digits") from None
    return read(data)


def head_of(given: Bytes) -> tuple[str, int, int]:
    """The order of bytes, the kind, and how many coordinates a point has."""
    first = given.take(1)[0]
    if first > 1:
        raise DrawingError("", f"it is no WKB: the first byte is {first}, and has to be 0 or 1")
    order = "<" if first else ">"
    word = given.whole(order)
    size = 2 + bool(word & HAS_Z) + bool(word & HAS_M)
    if word & HAS_NUMBER:
        given.take(4)
    kind = word & 0x0FFFFFFF
    if kind >= 1000:
        size = 4 if kind >= 3000 else 3
        kind %= 1000
    return order, kind, size


def geometry_of(given: Bytes) -> dict[str, Any]:
    """The geometry that follows."""
    order, kind, size = head_of(given)
    if kind == POINT:
        (point,) = given.points(order, 1, size)
        # An empty point is one of no numbers.
        return {"type": "Point", "coordinates": point if point[0] == point[0] else []}
    count = given.whole(order)
    if kind == LINE:
        return {"type": "LineString", "coordinates": given.points(order, count, size)}
    if kind == POLYGON:
        rings = [given.points(order, given.whole(order), size) for _ in range(count)]
        return {"type": "Polygon", "coordinates": rings}
    if kind in MULTIPLE:
        return {"type": MULTIPLE[kind][0], "coordinates": [geometry_of(given)["coordinates"] for _ in range(count)]}
    if kind == COLLECTION:
        return {"type": "GeometryCollection", "geometries": [geometry_of(given) for _ in range(count)]}
    raise DrawingError("", f"its kind is {kind}, which is none of the geometries of WKB")


def written(geometry: Mapping[str, Any]) -> bytes:
    """The bytes of a polygon or of polygons, in little endian."""
    if geometry["type"] == "Polygon":
        return polygon(geometry["coordinates"])
    parts = b"".join(map(polygon, geometry["coordinates"]))
    return struct.pack("<BII", 1, 6, len(geometry["coordinates"])) + parts


def polygon(rings: Sequence[Sequence[Sequence[float]]]) -> bytes:
    """The bytes of a polygon."""
    parts = [struct.pack("<BII", 1, POLYGON, len(rings))]
    for ring in rings:
        parts.append(struct.pack(f"<I{2 * len(ring)}d", len(ring), *(number for point in ring for number in point)))
    return b"".join(parts)
