"""Geometries of Shapely 2 by arrays."""

from __future__ import annotations

import numpy
import shapely

from .vectors import Array, list_numbers, starts_of

LEAST_RING = 4
"""So many points a ring of Shapely has at least, the first one twice."""


def are_rings(points: Array, ring_ends: Array) -> bool:
    """Whether all lists of points are rings as Shapely has them, which end where they start."""
    starts = starts_of(ring_ends)
    return bool((ring_ends - starts >= LEAST_RING).all() and (points[starts] == points[ring_ends - 1]).all())


def polygons_of(points: Array, ring_ends: Array, polygon_ends: Array) -> Array:
    """Polygons of rings of points that stand end to end; rings are closed where they are not."""
    if not len(polygon_ends):
        return numpy.zeros(0, object)
    has_holes = len(ring_ends) > len(polygon_ends)
    polygons: Array
    if not has_holes and are_rings(points, ring_ends):
        # This makes no objects of the rings, and takes a third of the time. In Shapely 2.1.0 it writes beyond its memory
        # where a MultiPolygon has many polygons, so it is asked for polygons of one ring alone.
        offsets = numpy.concatenate([[0], ring_ends])
        lists = offsets, numpy.arange(len(offsets))
        polygons = shapely.from_ragged_array(shapely.GeometryType.POLYGON, points, lists)
        return polygons
    rings = shapely.linearrings(points, indices=list_numbers(ring_ends))
    # Where nobody else has them, they take no memory beside the polygons, which take as much.
    del points
    # Where there are no holes, one call for all takes half of the time.
    polygons = shapely.polygons(rings, indices=list_numbers(polygon_ends) if has_holes else None)
    return polygons


def together(polygons: Array, counts: Array) -> Array:
    """Geometries of so many polygons each: a Polygon where there is one, else a MultiPolygon."""
    geometries = numpy.full(len(counts), None, object)
    if not counts.all():
        geometries[counts == 0] = shapely.MultiPolygon()
    of_polygon = numpy.repeat(numpy.arange(len(counts)), counts)
    is_single = (counts == 1)[of_polygon]
    geometries[of_polygon[is_single]] = polygons[is_single]
    several, own = numpy.unique(of_polygon[~is_single], return_inverse=True)
    if len(several):
        geometries[several] = shapely.multipolygons(polygons[~is_single], indices=own)
    return geometries
