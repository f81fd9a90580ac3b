"""Drawings as callers have them: GeoJSON mappings, objects with `__geo_interface__`, sequences, arrays of numpy."""

from __future__ import annotations

import sys
from collections.abc import Mapping
from dataclasses import dataclass, field
from typing import Any, Optional

from .errors import DrawingError
from .exact import read_number
from .paths import ListedPaths, Path, Paths, Vertex, no_paths

COUNTED = {"FeatureCollection": ("features", "feature"), "GeometryCollection": ("geometries", "geometry")}


@dataclass(frozen=True)
class Drawing:
    """What a drawing has, in order: rings of polygons, lines, single points."""

    polygons: Paths = field(default_factory=no_paths)
    lines: Paths = field(default_factory=no_paths)
    points: Paths = field(default_factory=no_paths)


def inside(where: str, what: str) -> str:
    """Where a part stands."""
    return f"{where}, {what}" if where else what


def as_list(where: str, value: Any) -> list[Any]:
    """The items of a sequence or an array."""
    if hasattr(value, "tolist"):
        value = value.tolist()
    if isinstance(value, (str, bytes)) or not hasattr(value, "__iter__"):
        raise DrawingError(where, f"it is {value!r}, and has to be a list")
    return list(value)


def mapping_of(value: Any) -> Optional[Mapping[str, Any]]:
    """The GeoJSON mapping that a value is or offers."""
    value = getattr(value, "__geo_interface__", value)
    return value if isinstance(value, Mapping) else None


class Reader:
    """Reads drawings whose vertices have a number of coordinates: 2, and a height that is ignored; or 3."""

    def __init__(self, with_widths: bool = False) -> None:
        self.names = ("x", "y", "width") if with_widths else ("x", "y")
        self.rings: list[Path] = []
        self.polygons: list[tuple[int, bool]] = []
        self.lines: list[Path] = []
        self.points: list[Path] = []

    @property
    def drawing(self) -> Drawing:
        """What was read."""
        return Drawing(ListedPaths(self.rings, self.polygons), ListedPaths(self.lines), ListedPaths(self.points))

    # Parts

    def vertex(self, where: str, point: Any) -> Vertex:
        """One point."""
        items = as_list(where, point)
        if not len(self.names) <= len(items) <= 3:
            raise DrawingError(where, f"it has {len(items)} numbers, and has to have {' and '.join(self.names)}")
        return tuple(read_number(where, name, item) for name, item in zip(self.names, items))

    def path(self, where: str, points: Any, is_ring: bool = False) -> Path:
        """A list of points."""
        vertices = [
            self.vertex(inside(where, f"point {index}"), point) for index, point in enumerate(as_list(where, points))
        ]
        return Path(where, vertices, is_ring)

    def polygon(self, where: str, rings: Any, first_bounds: bool) -> None:
        """A list of rings."""
        paths = [
            self.path(inside(where, f"ring {index}"), ring, True) for index, ring in enumerate(as_list(where, rings))
        ]
        self.rings += paths
        self.polygons.append((len(paths), first_bounds))

    def line(self, where: str, points: Any, is_ring: bool = False) -> None:
        """A line."""
        self.lines.append(self.path(where, points, is_ring))

    def point(self, where: str, point: Any) -> None:
        """A single point."""
        self.points.append(self.path(where, [point]))

    # Mappings

    def mapping(self, where: str, geometry: Mapping[str, Any]) -> None:
        """A GeoJSON object of any type. Without a geometry it has nothing."""
        kind = geometry.get("type")
        if kind == "Feature":
            self.geometry(where, geometry.get("geometry"))
        elif kind in COUNTED:
            key, name = COUNTED[kind]
            for index, part in enumerate(as_list(inside(where, key), self.member(where, geometry, key))):
                self.geometry(inside(where, f"{name} {index}"), part)
        else:
            self.simple(where, kind, self.member(where, geometry, "coordinates"))

    def geometry(self, where: str, geometry: Any) -> None:
        """A part of a GeoJSON object."""
        if geometry is None:
            return
        mapping = mapping_of(geometry)
        if mapping is None:
            raise DrawingError(where, f"it is {geometry!r}, and has to be a GeoJSON object")
        self.mapping(where, mapping)

    @staticmethod
    def member(where: str, geometry: Mapping[str, Any], key: str) -> Any:
        """What a GeoJSON object has to have."""
        if key not in geometry:
            raise DrawingError(where, f"its type is {geometry.get('type')!r}, and it has no {key}")
        return geometry[key]

    def simple(self, where: str, kind: Any, coordinates: Any) -> None:
        """A geometry that has coordinates."""
        if kind == "Polygon":
            self.polygon(inside(where, "polygon 0"), coordinates, True)
        elif kind == "MultiPolygon":
            for index, polygon in enumerate(as_list(where, coordinates)):
                self.polygon(inside(where, f"polygon {index}"), polygon, True)
        elif kind in ("LineString", "LinearRing"):
            self.line(inside(where, "line 0"), coordinates, kind == "LinearRing")
        elif kind == "MultiLineString":
            for index, line in enumerate(as_list(where, coordinates)):
                self.line(inside(where, f"line {index}"), line)
        elif kind == "Point":
            # An empty point has no coordinates.
            if len(as_list(where, coordinates)):
                self.point(inside(where, "point 0"), coordinates)
        elif kind == "MultiPoint":
            for index, point in enumerate(as_list(where, coordinates)):
                self.point(inside(where, f"point {index}"), point)
        else:
            raise DrawingError(where, f"its type is {kind!r}, which is none of GeoJSON's geometries")

    # Sequences

    def any_drawing(self, value: Any, as_polygons: bool) -> Drawing:
        """A drawing of any kind, or several in turn. Bare sequences are polygons or lines."""
        mapping = mapping_of(value)
        if mapping is not None:
            self.mapping("", mapping)
            return self.drawing
        if value is None or isinstance(value, (str, bytes)):
            raise DrawingError("", f"what is to be drawn is {value!r}, and has to be GeoJSON, a geometry, or a list")
        items = as_list("", value)
        if any(mapping_of(item) is not None for item in items):
            for index, item in enumerate(items):
                self.geometry(f"geometry {index}", item)
        elif as_polygons:
            self.bare_polygons(items)
        else:
            self.bare_lines(items)
        return self.drawing

    def bare_polygons(self, items: list[Any]) -> None:
        """A ring, the rings of one polygon, or polygons, by how deep the list is."""
        depth = depth_of(items)
        if depth == 2:
            self.polygon("polygon 0", [items], False)
        elif depth == 3:
            self.polygon("polygon 0", items, False)
        elif depth == 4:
            for index, polygon in enumerate(items):
                self.polygon(f"polygon {index}", polygon, False)
        elif depth is not None:
            raise DrawingError("", f"lists in {depth} levels are no ring, no rings of a polygon, and no polygons")

    def bare_lines(self, items: list[Any]) -> None:
        """A line, or lines."""
        depth = depth_of(items)
        if depth == 2:
            self.line("line 0", items)
        elif depth == 3:
            for index, line in enumerate(items):
                self.line(f"line {index}", line)
        elif depth is not None:
            raise DrawingError("", f"lists in {depth} levels are no line, and no lines")


def depth_of(value: Any) -> Optional[int]:
    """In how many levels of lists the first number stands; none where there is no number."""
    if isinstance(value, (str, bytes)):
        return 0
    try:
        items = iter(value)
    except TypeError:
        return 0
    for item in items:
        depth = depth_of(item)
        if depth is not None:
            return depth + 1
    return None


def is_geometry(value: Any) -> bool:
    """Whether a value is a geometry of Shapely."""
    base = sys.modules.get("shapely.geometry.base")
    return base is not None and isinstance(value, base.BaseGeometry)


def read(value: Any, as_polygons: bool, with_widths: bool = False) -> Drawing:
    """The parts of a drawing. Bare sequences are polygons or lines.

    Arrays of numpy, and geometries of Shapely where numpy is there, are read without a loop over their vertices.
    """
    if "numpy" in sys.modules:
        from . import wholesale

        drawing = wholesale.read(value, as_polygons, with_widths)
        if drawing is not None:
            return drawing
    return Reader(with_widths).any_drawing(value, as_polygons)
