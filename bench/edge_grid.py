"""Finds the nearest of many edges to a point, by cells of the plane."""
import math
from bisect import bisect_right


def distance(point, edge):
    """How far a point is from an edge, in grid units. What is divided is exact."""
    (start_x, start_y), (end_x, end_y) = edge
    along_x, along_y = end_x - start_x, end_y - start_y
    to_x, to_y = point[0] - start_x, point[1] - start_y
    squared_length = along_x * along_x + along_y * along_y
    part = to_x * along_x + to_y * along_y
    if part <= 0:
        return math.hypot(to_x, to_y)
    if part >= squared_length:
        return math.hypot(point[0] - end_x, point[1] - end_y)
    return abs(along_x * to_y - along_y * to_x) / math.sqrt(squared_length)


def cuts_of(values):
    """Coordinates that part these into about as many ranges of one number as a square of that many cells has rows."""
    ordered = sorted(values)
    step = max(1, len(ordered) // (math.isqrt(len(ordered)) + 1))
    return sorted(set(ordered[step::step]))


class EdgeGrid:
    """Edges, filed in the cells that they pass. Cells are small where many edges end."""

    def __init__(self, edges):
        kept = {(min(start, end), max(start, end)) for start, end in edges if start != end}
        self.ends = {end for edge in kept for end in edge}
        self.columns = cuts_of([x for x, _ in self.ends])
        self.rows = cuts_of([y for _, y in self.ends])
        self.cells = {}
        for edge in kept:
            self.file(edge)

    def file(self, edge):
        """Lists an edge in each cell that it passes, column by column from the west."""
        (start_x, start_y), (end_x, end_y) = edge
        first, last = bisect_right(self.columns, start_x), bisect_right(self.columns, end_x)
        for column in range(first, last + 1):
            west = start_y if column == first else height_at(edge, self.columns[column - 1])
            east = end_y if column == last else height_at(edge, self.columns[column])
            low, high = min(west, east), max(west, east)
            # heights between the ends are cut to whole numbers, so a unit more is looked at on either side
            for row in range(bisect_right(self.rows, low - 1), bisect_right(self.rows, high + 1) + 1):
                self.cells.setdefault((column, row), []).append(edge)

    def border(self, point, column, row, ring):
        """How far a point is at least from what lies outside so many rings of cells about its own."""
        least = math.inf
        for value, cuts, place in [(point[0], self.columns, column), (point[1], self.rows, row)]:
            if place - ring > 0:
                least = min(least, value - cuts[place - ring - 1])
            if place + ring < len(cuts):
                least = min(least, cuts[place + ring] - value)
        return least

    def nearest(self, point):
        """How far the nearest edge is; infinitely far where there is none."""
        if point in self.ends:
            return 0.0
        column, row = bisect_right(self.columns, point[0]), bisect_right(self.rows, point[1])
        least = math.inf
        ring = 0
        while True:
            for cell in ring_cells(column, row, ring):
                for edge in self.cells.get(cell, ()):
                    least = min(least, distance(point, edge))
            border = self.border(point, column, row, ring)
            if least <= border or border == math.inf:
                return least
            ring += 1


def height_at(edge, x):
    """The height of an edge at this place, which is between its ends, cut to a whole number."""
    (start_x, start_y), (end_x, end_y) = edge
    return start_y + (end_y - start_y) * (x - start_x) // (end_x - start_x)


def ring_cells(column, row, ring):
    """The cells that are so many columns or rows away, and no more."""
    if ring == 0:
        yield column, row
        return
    for aside in range(-ring, ring + 1):
        yield column + aside, row - ring
        yield column + aside, row + ring
    for aside in range(-ring + 1, ring):
        yield column - ring, row + aside
        yield column + ring, row + aside
