"""A picture of GeoJSON, as SVG."""

from __future__ import annotations

import json
from typing import Any, Sequence

from .errors import DrawingError
from .features import SEPARATOR
from .paths import Path
from .reading import Drawing, Reader

# The fill and the line of each layer, and again from the first.
COLORS = (("#8a8a8a", "#444444"), ("#4a90d9", "#1b4f9c"), ("#e8a33d", "#9c5f0b"), ("#5fb36a", "#226b2d"))
MARGIN = 20
DOT = 2


def drawing_of(text: str) -> Drawing:
    """All of a file, which is one GeoJSON object or features one a line."""
    try:
        values = [json.loads(text.strip(SEPARATOR))]
    except ValueError:
        values = [json.loads(line) for line in text.replace(SEPARATOR, "").splitlines() if line.strip()]
    reader = Reader()
    for value in values:
        reader.any_drawing(value, as_polygons=True)
    return reader.drawing


def picture(texts: Sequence[str], width: int) -> str:
    """The layers of files over each other, the first undermost."""
    drawings = [drawing_of(text) for text in texts]
    if all(not path.points for drawing in drawings for path in paths_of(drawing)):
        raise DrawingError("", "there is nothing to draw")
    return layers(drawings, width)


def picture_of(geometries: Sequence[Any], width: int) -> str:
    """GeoJSON objects over each other, the first undermost; an empty picture where there is nothing to draw."""
    return layers([Reader().any_drawing(geometry, as_polygons=True) for geometry in geometries], width)


def layers(drawings: Sequence[Drawing], width: int) -> str:
    """Drawings over each other, the first undermost."""
    points = [point[:2] for drawing in drawings for path in paths_of(drawing) for point in path.points] or [(0, 0)]
    (left, right), (low, high) = ((min(column), max(column)) for column in zip(*points))
    factor = (width - 2 * MARGIN) / (max(right - left, (high - low) / 2) or 1)

    def placed(point: Sequence[Any]) -> str:
        return f"{MARGIN + float(point[0] - left) * factor:.2f},{MARGIN + float(high - point[1]) * factor:.2f}"

    height = round(float(high - low) * factor) + 2 * MARGIN
    lines = [f'<svg xmlns="http://www.w3.org/2000/svg" width="{width}" height="{height}">']
    lines.append(f'<rect width="{width}" height="{height}" fill="white"/>')
    for index, drawing in enumerate(drawings):
        fill, line = COLORS[index % len(COLORS)]
        lines.append(f'<g fill="{fill}" fill-opacity="0.35" stroke="{line}" stroke-linejoin="round">')
        lines += layer(drawing, placed, line)
        lines.append("</g>")
    return "\n".join([*lines, "</svg>"])


def paths_of(drawing: Drawing) -> list[Path]:
    """All paths of a drawing."""
    return [path for part in (drawing.polygons, drawing.lines, drawing.points) for path in part.listed().paths]


def layer(drawing: Drawing, placed: Any, color: str) -> list[str]:
    """The elements of a drawing."""
    elements = []
    polygons, start = drawing.polygons.listed(), 0
    for count, _ in polygons.polygons:
        own = polygons.paths[start : start + count]
        start += count
        rings = ["M" + " ".join(map(placed, ring.points)) + "z" for ring in own if ring.points]
        elements.append(f'<path fill-rule="evenodd" d="{" ".join(rings)}"/>')
    for path in drawing.lines.listed().paths:
        elements.append(f'<polyline fill="none" points="{" ".join(map(placed, path.points))}"/>')
    for path in drawing.points.listed().paths:
        for point in path.points:
            x, y = placed(point).split(",")
            elements.append(f'<circle fill="{color}" fill-opacity="1" cx="{x}" cy="{y}" r="{DOT}"/>')
    return elements
