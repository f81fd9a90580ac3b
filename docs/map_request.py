#!/usr/bin/env python3
"""Writes polygons of a shapefile as a request of `mesh_run` for their outline, on standard output.

    docs/map_request.py LAND.shp --holes LAKES.shp --window -11 51 -5 56 --offset 20000 > request.json

A shapefile runs boundaries clockwise and holes counterclockwise, so its rings are turned round. Those of `--holes` stay
as they are: they become holes, and the islands in them land. Polygons are taken whose box lies in the window. Degrees
become metres as they are in the middle of the window; so distances are true there, and within some percent elsewhere in
a country.
"""
import argparse
import json
import math
import pathlib
import struct
import sys

METRES_A_DEGREE = 111_195

POLYGONS = {5, 15, 25}


def rings_of(file, window):
    """The rings of the polygons of a shapefile whose box lies in a window, without the point that repeats the first."""
    try:
        data = pathlib.Path(file).read_bytes()
    except OSError as error:
        sys.exit(f"map_request.py: {file}: {error.strerror}")
    if data[:4] != struct.pack(">i", 9994):
        sys.exit(f"map_request.py: {file}: no shapefile")
    west, south, east, north = window
    place = 100
    while place < len(data):
        record = place + 8
        place = record + 2 * struct.unpack_from(">i", data, place + 4)[0]
        kind, low_x, low_y, high_x, high_y = struct.unpack_from("<i4d", data, record) if place > record + 4 else [0] * 5
        if kind not in POLYGONS or low_x < west or low_y < south or high_x > east or high_y > north:
            continue
        part_count, point_count = struct.unpack_from("<2i", data, record + 36)
        starts = [*struct.unpack_from(f"<{part_count}i", data, record + 44), point_count]
        numbers = struct.unpack_from(f"<{2 * point_count}d", data, record + 44 + 4 * part_count)
        points = list(zip(numbers[::2], numbers[1::2]))
        yield from (points[start : end - 1] for start, end in zip(starts, starts[1:]))


def on_grid(ring, window, unit):
    """A ring in grid units, by the degrees in the middle of a window. Points that fall together are one."""
    west, south, east, north = window
    middle_x, middle_y = (west + east) / 2, (south + north) / 2
    scale_y = METRES_A_DEGREE / unit
    scale_x = scale_y * math.cos(math.radians(middle_y))
    points = [[round((x - middle_x) * scale_x), round((y - middle_y) * scale_y)] for x, y in ring]
    return [point for index, point in enumerate(points) if point != points[index - 1]]


def request_text(paths, offsets, unit):
    """The request, a ring a line."""
    outer, inner = (round(offset / unit) for offset in offsets)
    style = json.dumps({"outer": outer, "inner": inner, "join": {"round": [2**28, 5]}})
    rings = ",\n".join("    " + json.dumps(path, separators=(",", ":")) for path in paths)
    return (
        '{\n  "op": "outline",\n  "int": "i32",\n  "out": "shapes",\n'
        f'  "paths": [\n{rings}\n  ],\n  "style": {style}\n}}'
    )


def main():
    parser = argparse.ArgumentParser(prog="map_request.py", description="Writes a shapefile's polygons as a request.")
    parser.add_argument("land", metavar="LAND.shp", help="a shapefile of polygons, in degrees")
    parser.add_argument("--holes", metavar="LAKES.shp", help="a shapefile whose polygons are holes")
    parser.add_argument("--window", type=float, nargs=4, required=True, metavar=("WEST", "SOUTH", "EAST", "NORTH"))
    parser.add_argument("--offset", type=float, default=10_000, help="how far boundaries move out, in metres")
    parser.add_argument("--inner", type=float, help="how far holes shrink, in metres; by default the same")
    parser.add_argument("--unit", type=float, default=1, help="metres of a grid unit")
    options = parser.parse_args()
    rings = [ring[::-1] for ring in rings_of(options.land, options.window)]
    if options.holes:
        rings += rings_of(options.holes, options.window)
    paths = [path for path in (on_grid(ring, options.window, options.unit) for ring in rings) if len(path) > 2]
    if not paths:
        sys.exit(f"map_request.py: {options.land}: no polygon lies in the window")
    inner = options.offset if options.inner is None else options.inner
    print(request_text(paths, (options.offset, inner), options.unit))


if __name__ == "__main__":
    main()
