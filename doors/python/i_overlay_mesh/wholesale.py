"""Reads arrays of numpy and geometries of Shapely as a whole, where no vertex has to be looked at by itself."""

from __future__ import annotations

import sys
from dataclasses import dataclass, field
from typing import Any, Optional, Sequence

import numpy

from .packed import PackedPaths, is_plain, packed, rings_of
from .paths import no_paths
from .reading import Drawing, inside, is_geometry
from .vectors import Array

NAMES = ("x", "y")
NAMES_WITH_WIDTH = ("x", "y", "width")


def read(value: Any, as_polygons: bool, with_widths: bool) -> Optional[Drawing]:
    """The parts of a drawing that is an array, lists of arrays, or geometries of Shapely; none of any other."""
    names = NAMES_WITH_WIDTH if with_widths else NAMES
    arrays = arrays_of(value)
    if arrays is not None:
        return polygons_in(arrays) if as_polygons else lines_in(arrays, names)
    geometries = geometries_of(value)
    if geometries is None:
        return None
    parts = Parts()
    for where, geometry in geometries:
        if not parts.add(where, geometry):
            return None
    return parts.drawing(names)


# Arrays


def arrays_of(value: Any) -> Any:
    """An array, or lists of arrays of points, that numbers are read of as they are; else none."""
    if is_plain(value):
        return value if 2 <= value.ndim <= 4 and value.size else None
    if not isinstance(value, (list, tuple)) or not value:
        return None
    if all(is_plain(item) and item.ndim == 2 for item in value):
        return list(value)
    lists = [arrays_of(item) for item in value if isinstance(item, (list, tuple))]
    is_deep = len(lists) == len(value) and all(
        isinstance(item, list) and isinstance(item[0], numpy.ndarray) for item in lists
    )
    return lists if is_deep else None


def polygons_in(arrays: Any) -> Drawing:
    """A ring, the rings of one polygon, or polygons, by how deep the lists are."""
    if isinstance(arrays, numpy.ndarray) and arrays.ndim == 2:
        return Drawing(polygons=rings_of([[arrays]], False))
    is_flat = arrays.ndim == 3 if isinstance(arrays, numpy.ndarray) else isinstance(arrays[0], numpy.ndarray)
    return Drawing(polygons=rings_of([list(arrays)] if is_flat else [list(item) for item in arrays], False))


def lines_in(arrays: Any, names: Sequence[str]) -> Optional[Drawing]:
    """A line, or lines."""
    if isinstance(arrays, numpy.ndarray):
        lines = [arrays] if arrays.ndim == 2 else list(arrays)
    else:
        lines = arrays
    if any(not isinstance(line, numpy.ndarray) or line.ndim != 2 for line in lines):
        return None
    return Drawing(lines=packed(lines, lambda number: f"line {number}", names))


# Geometries of Shapely


def geometries_of(value: Any) -> Optional[list[tuple[str, Any]]]:
    """Geometries of Shapely with where they stand: one, a list or an array of some, a column or a table of GeoPandas."""
    if is_geometry(value):
        return [("", value)]
    word = "geometry"
    if "geopandas" in sys.modules and hasattr(value, "crs") and hasattr(value, "geometry"):
        word, value = "feature", value.geometry.to_numpy()
    elif isinstance(value, numpy.ndarray) and value.dtype == object and value.ndim == 1:
        value = value.tolist()
    if not isinstance(value, (list, tuple, numpy.ndarray)) or not len(value):
        return None
    if not all(item is None or is_geometry(item) for item in value) or all(item is None for item in value):
        return None
    return [(f"{word} {index}", item) for index, item in enumerate(value)]


def coordinates_of(geometry: Any) -> Array:
    """The coordinates of a line or a ring, two or three columns."""
    shapely = sys.modules["shapely"]
    if hasattr(shapely, "get_coordinates"):
        return shapely.get_coordinates(geometry, include_z=bool(geometry.has_z))
    return numpy.asarray(geometry.coords)


def rings_in(polygon: Any) -> list[Array]:
    """The coordinates of each ring of a polygon, that of its boundary first."""
    shapely = sys.modules["shapely"]
    if not hasattr(shapely, "get_coordinates"):
        return [coordinates_of(ring) for ring in (polygon.exterior, *polygon.interiors)]
    # The boundary itself would be a copy of the polygon.
    sizes = [shapely.get_num_coordinates(ring) for ring in polygon.interiors]
    points = coordinates_of(polygon)
    return numpy.split(points, numpy.cumsum([len(points) - sum(sizes), *sizes])[:-1])


@dataclass
class Parts:
    """What geometries have: arrays of points, and where each stands."""

    polygons: list[tuple[str, list[Array]]] = field(default_factory=list)
    lines: list[tuple[str, Array]] = field(default_factory=list)
    rings: list[tuple[str, Array]] = field(default_factory=list)
    points: list[tuple[str, Array]] = field(default_factory=list)

    def add(self, where: str, geometry: Any) -> bool:
        """Adds a geometry; false where it is of a kind that is read otherwise."""
        if geometry is None or geometry.is_empty:
            return True
        kind = geometry.geom_type
        if kind == "GeometryCollection":
            return all(self.add(inside(where, f"geometry {index}"), part) for index, part in enumerate(geometry.geoms))
        parts = list(geometry.geoms) if kind.startswith("Multi") else [geometry]
        for index, part in enumerate(parts):
            self.add_simple(where, index, part)
        return True

    def add_simple(self, where: str, index: int, part: Any) -> None:
        """Adds a polygon, a line or a point."""
        if part.is_empty:
            return
        if part.geom_type == "Polygon":
            self.polygons.append((inside(where, f"polygon {index}"), rings_in(part)))
        elif part.geom_type == "Point":
            self.points.append((inside(where, f"point {index}"), coordinates_of(part)))
        else:
            kept = self.rings if part.geom_type == "LinearRing" else self.lines
            kept.append((inside(where, f"line {index}"), coordinates_of(part)))

    def drawing(self, names: Sequence[str]) -> Optional[Drawing]:
        """The drawing of all."""
        if self.rings and self.lines:
            return None
        polygons = rings_of([rings for _, rings in self.polygons], True, [where for where, _ in self.polygons])
        lines = paths_of(self.lines or self.rings, names, bool(self.rings))
        return Drawing(
            polygons if self.polygons else no_paths(), lines or no_paths(), paths_of(self.points, names) or no_paths()
        )


def paths_of(
    parts: Sequence[tuple[str, Array]], names: Sequence[str], are_rings: bool = False
) -> Optional[PackedPaths]:
    """Lines or points; none where there is none."""
    if not parts:
        return None
    where = [name for name, _ in parts]
    return packed([path for _, path in parts], lambda number: where[number], names, are_rings=are_rings)
