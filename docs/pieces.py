"""The pieces of outlines and strokes, and how often edges wind round the regions that they part."""
import collections
import math


def scaled(vector, radius, unit):
    """A vector brought to a radius, by its direction in whole numbers."""
    squared = vector[0] ** 2 + vector[1] ** 2

    def part(size):
        product = math.isqrt(unit**2 * size**2 // squared) * radius
        return (2 * product + unit) // (2 * unit) * (1 if size >= 0 else -1)

    return part(vector[0]), part(vector[1])


def sections_of(path, is_closed):
    """The sections of a path, between neighbours that differ; of a contour without points where it runs straight on."""
    return [(a, b) for a, b in zip(path, path[1:] + (path[:1] if is_closed else [])) if a != b]


def double_area(path):
    """Twice the signed area of a contour."""
    return sum(a[0] * b[1] - b[0] * a[1] for a, b in zip(path, path[1:] + path[:1]))


def moved_sections(panel, path):
    """Each section of a path: its ends, its ends moved to the right, and its ends moved to the left."""
    style = panel.request["style"]
    unit = 2**30 if panel.request["int"] == "i32" else 2**14
    if panel.is_outline:
        right, left = style["outer" if double_area(path) > 0 else "inner"], 0
    else:
        radius, side = (max(style["width"], 0) + 1) // 2, style.get("side", "both")
        right, left = radius * (side != "left"), -radius * (side != "right")
    for ends in sections_of(path, panel.is_closed):
        sides = []
        for reach in (right, left):
            x, y = scaled((ends[1][0] - ends[0][0], ends[1][1] - ends[0][1]), abs(reach), unit)
            way = 1 if reach > 0 else -1
            sides.append([(point[0] + way * y, point[1] - way * x) for point in ends])
        yield ends, *sides


def pieces_of(panel):
    """The pieces of outlines and strokes: those of sections, and those of corners and caps."""
    onward = collections.defaultdict(list)
    for start, end in panel.edges:
        onward[start].append(end)

    def fan(center, start, end):
        """The edges that lead from one point to another are taken out; with the center they bound a piece."""
        points = [start]
        while points[-1] != end and onward[points[-1]]:
            points.append(onward[points[-1]].pop())
        if center not in points:
            corners.append([center, *points])

    sides, corners = [], []
    if panel.request["op"] == "variable_stroke":
        return sides, corners
    for path in panel.paths:
        moved = list(moved_sections(panel, path))
        for _, right, left in moved:
            sides.append([*right, *reversed(left)])
            for start, end in (right, reversed(left)):
                if end in onward[start]:
                    onward[start].remove(end)
        for (_, right, left), ((center, _), next_right, next_left) in zip(
            moved, moved[1:] + (moved[:1] if panel.is_closed else [])
        ):
            fan(center, right[1], next_right[0])
            if not panel.is_outline:
                fan(center, next_left[0], left[1])
        if moved and not panel.is_closed:
            fan(moved[-1][0][1], moved[-1][1][1], moved[-1][2][1])
            fan(moved[0][0][0], moved[0][2][0], moved[0][1][0])
    return sides, corners


def windings(edges, xs, y):
    """How often edges wind round the points of a row, from the west to the east."""
    crossings = [
        (start[0] + (y - start[1]) * (end[0] - start[0]) / (end[1] - start[1]), 1 if start[1] <= y else -1)
        for start, end in edges
        if (start[1] <= y) != (end[1] <= y)
    ]
    return [sum(way for place, way in crossings if place > x) for x in xs]


def counts(edges, own, step):
    """Points inside the regions that edges and those of contours part, with how often the edges wind round each.

    A step is the distance of the points that are looked at; smaller regions have none.
    """
    if not edges:
        return
    xs, ys = zip(*(point for edge in edges for point in edge))
    columns = [min(xs) + step * (place - 0.5) for place in range(int((max(xs) - min(xs)) / step) + 3)]
    rows = [min(ys) + step * (place - 0.5) for place in range(int((max(ys) - min(ys)) / step) + 3)]
    grid = {
        (column, row): both
        for row, y in enumerate(rows)
        for column, both in enumerate(zip(windings(edges, columns, y), windings(own, columns, y)))
    }
    for region in regions_of(grid):
        (column, row), depth = deepest(region)
        if depth > 2 and grid[column, row] != (0, 0):
            yield (columns[column], rows[row]), grid[column, row][0]


def neighbours(cell):
    """The four cells beside a cell."""
    return [(cell[0] + x, cell[1] + y) for x, y in ((1, 0), (-1, 0), (0, 1), (0, -1))]


def regions_of(grid):
    """Connected cells of one value."""
    seen = set()
    for first in grid:
        if first in seen:
            continue
        region, front = {first}, [first]
        while front:
            for cell in neighbours(front.pop()):
                if cell not in region and grid.get(cell) == grid[first]:
                    region.add(cell)
                    front.append(cell)
        seen |= region
        yield region


def deepest(region):
    """The cell of a region that is farthest from its border, and how far, in cells."""
    layer, depth, rest = None, 0, region
    while rest:
        layer, depth = rest, depth + 1
        rest = {cell for cell in rest if all(beside in rest for beside in neighbours(cell))}
    middle = [sum(part) / len(layer) for part in zip(*layer)]
    return min(layer, key=lambda cell: (cell[0] - middle[0]) ** 2 + (cell[1] - middle[1]) ** 2), depth
