"""A program that uses the whole package, for mypy: `mypy --strict` has to find nothing in it."""

import pickle
from typing import Optional

import i_overlay_mesh as mesh
from i_overlay_mesh import DrawingError, Grid, Shapes


def area(shapes: Shapes) -> float:
    """The area of an answer."""
    total = 0.0
    for polygon in shapes.polygons:
        for ring in polygon:
            for (x, y), (next_x, next_y) in zip(ring, ring[1:] + ring[:1]):
                total += float(x * next_y - y * next_x) / 2
    return total


def main() -> None:
    """Draws by each call."""
    square = [(0, 0), (4, 0), (4, 3), (0, 3)]
    grown: Shapes = mesh.outline(square, 0.5, join_style="mitre", mitre_limit=3, most_splits=0)
    nearness: Optional[float] = grown.nearness
    grid: Grid = grown.grid
    track = mesh.stroke(square, 0.25, cap_style="flat", closed=True)
    brush = mesh.variable_stroke([(0, 0, 0.2), (4, 0, 0.8)], at_least=True)
    points = mesh.buffer({"type": "Point", "coordinates": [1, 2]}, 1, quad_segs=8)
    assert pickle.loads(pickle.dumps(points)) == points
    corner = mesh.outline([(3, 2), (4, 2), (4, 3)], 0, scale=grid.scale, origin=grid.origin)
    twice: Shapes = mesh.coverage([grown, corner], 2)
    parts: list[Shapes] = [grown | corner, grown & corner, grown - corner, grown ^ corner, twice]
    pairs: list[tuple[int, int, Shapes]] = mesh.overlaps([square, corner], fill="non_zero", most_splits=0)
    print(len(parts), [(first, second, len(common)) for first, second, common in pairs])
    holed: Shapes = mesh.difference(square, mesh.outline(square, -0.5, scale=2**10, origin=(0, 0)), most_splits=0)
    assert mesh.union(holed, holed) == holed | holed == holed & holed and not holed - holed and not holed ^ holed
    print(mesh.intersection(square, square, fill="even_odd"), mesh.symmetric_difference(holed, square, rings="nested"))
    errors: dict[int, Exception] = {}
    for shapes in mesh.buffer_all([points, None], 1.5, workers=2, errors=errors, progress=lambda done, total: None):
        print(shapes)
    print(area(grown), nearness, grid.scale, len(track), bool(brush), mesh.is_proved(), mesh.answer(b"{"))
    try:
        mesh.outline(square, float("nan"))
    except DrawingError as error:
        print(error.where, error.rule)


if __name__ == "__main__":
    main()
