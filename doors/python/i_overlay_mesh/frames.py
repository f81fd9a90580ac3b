"""Columns and tables of GeoPandas: their index, columns and CRS stay."""

from __future__ import annotations

from typing import Any, Callable, Sequence

import geopandas
import pandas

from .errors import DrawingError

UTM = "utm"


def is_frame(value: Any) -> bool:
    """Whether a value is a column or a table of GeoPandas."""
    return isinstance(value, (geopandas.GeoSeries, geopandas.GeoDataFrame))


def name_of(crs: Any) -> str:
    """A CRS in a few words."""
    code = crs.to_authority()
    return ":".join(code) if code else str(crs.name)


def on_a_plane(column: Any, project: Any) -> Any:
    """The column in a CRS whose unit is a length."""
    if project is not None:
        if column.crs is None:
            raise DrawingError(
                "", "project is given, and the geometries have no CRS to project them from: `set_crs` says it"
            )
        try:
            column = column.to_crs(column.estimate_utm_crs() if project == UTM else project)
        except (RuntimeError, ValueError) as error:
            raise DrawingError("", f"project is {project!r}: {error}") from error
    if column.crs is not None and column.crs.is_geographic:
        raise DrawingError(
            "",
            f"the CRS is {name_of(column.crs)}, whose unit is the degree and no length: bring the map to metres first,"
            " as by `to_crs(3035)`, or give project= a CRS in metres, or project='utm'",
        )
    return column


def drawn(value: Any, distance: Any, draw: Callable[[Sequence[Any]], list[Any]], project: Any) -> Any:
    """A column or a table with its geometries buffered."""
    column = value.geometry
    if isinstance(distance, pandas.Series) and not distance.index.equals(column.index):
        raise DrawingError(
            "",
            "distance is a column with another index than the geometries: `distance.reindex(geometries.index)` has theirs",
        )
    plane = on_a_plane(column, project)
    answers = geopandas.GeoSeries(draw(plane.to_numpy().tolist()), index=column.index, crs=plane.crs, name=column.name)
    if project is not None:
        answers = answers.to_crs(column.crs)
    if isinstance(value, geopandas.GeoSeries):
        return answers
    return value.set_geometry(answers, crs=column.crs)
