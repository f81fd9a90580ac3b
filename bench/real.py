#!/usr/bin/env python3
"""Writes requests of real drawings, made of files in Debian's packages: coasts and rivers, copper zones and tracks of
boards, glyphs, tool paths.

    bench/real.py FOLDER

The packages are fetched by `apt-get download` and unpacked into a folder that goes again; none is installed. Each
request is one file, NAME.json, which `bench/peers/ratios.py PROGRAM --requests FOLDER` measures.
"""
import argparse
import json
import math
import pathlib
import re
import struct
import subprocess
import sys
import tempfile
from typing import Iterator

PACKAGES = ["r-cran-maps", "r-cran-mapdata", "kicad-demos", "python3-fonttools", "fonts-dejavu-core", "linuxcnc-uspace"]

EARTH = 6_371_000
"""Its radius in metres, of which ten are a grid unit of maps."""

NANOMETRES = 1_000_000
"""Grid units of a millimetre, on boards and tool paths."""

TEXT = "Nobody has to trust an offset that is proved: regions stay as they were meant, and chains close. 0123456789 @&%$"

Point = tuple[int, int]

Path = list[Point]

Place = tuple[float, float]
"""A point that is not on the grid yet."""


def unpack(folder: pathlib.Path) -> None:
    """Fetches the packages, and unpacks them into the folder."""
    for package in PACKAGES:
        subprocess.run(["apt-get", "download", "-qq", package], cwd=folder, check=True)
    for file in folder.glob("*.deb"):
        subprocess.run(["dpkg-deb", "-x", file, folder], check=True)


def without_repeats(points: list[Point], closed: bool) -> Path:
    """The points without those that repeat the one before."""
    kept = [point for index, point in enumerate(points) if index == 0 or point != points[index - 1]]
    return kept[:-1] if closed and len(kept) > 1 and kept[0] == kept[-1] else kept


def area(path: Path) -> int:
    """Twice the area, above 0 where the path runs counterclockwise."""
    return sum(x * v - u * y for (x, y), (u, v) in zip(path, [*path[1:], path[0]]))


def counterclockwise(path: Path) -> Path:
    """The path so turned."""
    return path if area(path) > 0 else path[::-1]


# Maps, as the R package `maps` keeps them: lines in one file, and the lines round each polygon in another.


class Map:
    """A map of R: its lines in radians, and the lines of its polygons."""

    def __init__(self, folder: pathlib.Path, package: str, name: str) -> None:
        place = folder / "usr/lib/R/site-library" / package / "mapdata"
        data = (place / f"{name}.L").read_bytes()
        self.lines = []
        for index in range(struct.unpack_from("<i", data, 4)[0]):
            start, count = struct.unpack_from("<iH", data, 8 + 28 * index)
            numbers = struct.unpack_from(f"<{2 * count}f", data, start)
            self.lines.append(list(zip(numbers[::2], numbers[1::2])))
        rings = (place / f"{name}.G").read_bytes()
        self.polygons = []
        for index in range(struct.unpack_from("<H", rings)[0]):
            start, count = struct.unpack_from("<iH", rings, 2 + 24 * index)
            self.polygons.append(struct.unpack_from(f"<{count}i", rings, start))
        names = (place / f"{name}.N").read_text(encoding="latin-1").splitlines()
        self.names = [line.rsplit("\t", 1)[0] for line in names]

    def placed(self, line: list[Place], latitude: float) -> list[Point]:
        """A line in grid units, true to scale at a latitude in radians."""
        return [(round(x * math.cos(latitude) * EARTH / 10), round(y * EARTH / 10)) for x, y in line]

    def rings(self, country: str) -> list[Path]:
        """The polygons of a country, counterclockwise."""
        found = []
        for name, numbers in zip(self.names, self.polygons):
            if name.split(":")[0] == country:
                lines = (self.lines[abs(number) - 1][:: 1 if number > 0 else -1] for number in numbers)
                found.append([point for line in lines for point in line])
        latitude = found[0][0][1]
        paths = [without_repeats(self.placed(ring, latitude), True) for ring in found]
        return [counterclockwise(path) for path in paths if len(path) > 2]


# Boards


def points_of(text: str) -> list[Point]:
    """The points of a piece of a board."""
    numbers = re.findall(r"\(xy (-?[\d.]+) (-?[\d.]+)\)", text)
    return [(round(float(x) * NANOMETRES), round(-float(y) * NANOMETRES)) for x, y in numbers]


def zones(board: str, layer: str) -> list[Path]:
    """The filled copper of a layer: contours that come back on their way to where they have holes."""
    pieces = board.split("(filled_polygon")[1:]
    paths = [points_of(piece.split("(filled_segments")[0]) for piece in pieces if f'(layer "{layer}")' in piece[:80]]
    return [counterclockwise(without_repeats(path, True)) for path in paths if len(path) > 2]


def tracks(board: str, layer: str) -> list[Path]:
    """The tracks of a layer, each piece a path."""
    number = r"(-?[\d.]+)"
    pattern = rf'\(segment \(start {number} {number}\) \(end {number} {number}\) \(width [\d.]+\) \(layer "{layer}"\)'
    found = []
    for words in re.findall(pattern, board):
        x, y, u, v = (round(float(word) * NANOMETRES) for word in words)
        if (x, y) != (u, v):
            found.append([(x, -y), (u, -v)])
    return found


# Glyphs


def glyphs(folder: pathlib.Path, font: str, text: str) -> list[Path]:
    """The outlines of a line of text, curves in eight steps."""
    sys.path.insert(0, str(folder / "usr/lib/python3/dist-packages"))
    from fontTools.pens.basePen import BasePen  # noqa: E402
    from fontTools.ttLib import TTFont  # noqa: E402

    class Flat(BasePen):
        """Takes a glyph's contours as points."""

        def __init__(self, glyph_set: object, shift: int) -> None:
            super().__init__(glyph_set)
            self.shift, self.paths = shift, []

        def put(self, point: Place) -> None:
            self.paths[-1].append((round(64 * (point[0] + self.shift)), round(64 * point[1])))

        def _moveTo(self, pt: Place) -> None:
            self.paths.append([])
            self.put(pt)

        def _lineTo(self, pt: Place) -> None:
            self.put(pt)

        def _qCurveToOne(self, pt1: Place, pt2: Place) -> None:
            (a, b), (c, d), (e, f) = self._getCurrentPoint(), pt1, pt2
            for step in range(1, 9):
                t = step / 8
                u = 1 - t
                self.put((u * u * a + 2 * u * t * c + t * t * e, u * u * b + 2 * u * t * d + t * t * f))

    face = TTFont(folder / "usr/share/fonts/truetype/dejavu" / font)
    glyph_set, names, shift, paths = face.getGlyphSet(), face.getBestCmap(), 0, []
    for letter in text:
        pen = Flat(glyph_set, shift)
        glyph_set[names[ord(letter)]].draw(pen)
        # Outer contours of this kind of font run clockwise.
        paths += [without_repeats(path, True)[::-1] for path in pen.paths]
        shift += glyph_set[names[ord(letter)]].width
    return [path for path in paths if len(path) > 2]


# Tool paths


def arc(start: Place, end: Place, middle: Place, left: bool) -> Iterator[Place]:
    """Points of an arc, by at most five degrees."""
    (x, y), (u, v), (a, b) = start, end, middle
    first, last = math.atan2(y - b, x - a), math.atan2(v - b, u - a)
    turn = (last - first) % (2 * math.pi) if left else -((first - last) % (2 * math.pi))
    turn = turn or (2 * math.pi if left else -2 * math.pi)
    count, radius = max(1, math.ceil(abs(turn) / math.radians(5))), math.hypot(x - a, y - b)
    for step in range(1, count):
        angle = first + turn * step / count
        yield a + radius * math.cos(angle), b + radius * math.sin(angle)
    yield end


def value(text: str) -> str:
    """A sum of products of numbers in brackets as a number; what is no such sum stays."""
    parts = re.sub(r"(?<=[\d.])-", "+-", text[1:-1]).split("+")
    try:
        return repr(sum(math.prod(map(float, part.split("*"))) for part in parts))
    except ValueError:
        return text


def words_of(line: str, known: dict[str, str]) -> list[tuple[str, float]]:
    """The letters and numbers of a line of a program, whose parameters are known, or get known by it."""
    line = re.sub(r"\(.*?\)|;.*", "", line).upper().replace(" ", "")
    given = re.fullmatch(r"(#<\w+>|#\d+)=([-+]?[\d.]+)", line)
    if given:
        known[given[1]] = given[2]
    line = re.sub(r"#<\w+>|#\d+", lambda found: known.get(found[0], found[0]), line)
    line = re.sub(r"\[[^\[\]]*\]", lambda found: value(found[0]), line)
    if "#" in line or "[" in line or line.startswith("O"):
        return []
    return [(letter, float(number)) for letter, number in re.findall(r"([A-Z])([-+]?[\d.]+)", line)]


def tool_paths(text: str) -> list[Path]:
    """The cuts of a program for a milling machine, seen from above: its straight moves and arcs."""
    paths, at, mode, unit, known = [[]], (0.0, 0.0), 0, 1.0, {}
    for line in text.splitlines():
        words = words_of(line, known)
        codes = [number for letter, number in words if letter == "G"]
        unit = 25.4 if 20 in codes else 1.0 if 21 in codes else unit
        mode = next((int(code) for code in codes if code in (0, 1, 2, 3)), mode)
        place = dict(words)
        if not {"X", "Y"} & place.keys():
            continue
        end = place.get("X", at[0]), place.get("Y", at[1])
        if mode == 0:
            paths.append([end])
        elif mode == 1 or "R" in place:
            paths[-1].append(end)
        else:
            middle = at[0] + place.get("I", 0.0), at[1] + place.get("J", 0.0)
            paths[-1] += arc(at, end, middle, mode == 3)
        at = end
    placed = [[(round(x * unit * NANOMETRES), round(y * unit * NANOMETRES)) for x, y in path] for path in paths]
    kept = [without_repeats(path, False) for path in placed]
    return [path for path in kept if len(path) > 1]


# Requests


ROUND = {"round": [2**29, 5]}
"""Joins of 45 degrees, as the libraries beside ours are asked to draw."""


def outline(paths: list[Path], offset: int) -> dict:
    """A request for an outline."""
    style = {"outer": offset, "inner": offset, "join": ROUND}
    return {"op": "outline", "int": "i32", "out": "shapes", "paths": paths, "style": style}


def stroke(paths: list[Path], width: int, closed: bool = False) -> dict:
    """A request for a stroke."""
    style = {"width": width, "join": ROUND}
    return {"op": "stroke", "int": "i32", "out": "shapes", "closed": closed, "paths": paths, "style": style}


def requests(folder: pathlib.Path) -> Iterator[tuple[str, dict]]:
    """The requests by their names."""
    world = Map(folder, "mapdata", "worldHires")
    for country in ["Greece", "Norway", "Japan"]:
        yield f"coast_{country.lower()}_out_1km", outline(world.rings(country), 100)
    yield "coast_norway_out_10km", outline(world.rings("Norway"), 1000)
    yield "coast_norway_in_500m", outline(world.rings("Norway"), -50)
    rivers = Map(folder, "mapdata", "rivers")
    lines = [without_repeats(rivers.placed(line, 0.8), False) for line in rivers.lines]
    yield "rivers_5km", stroke([line for line in lines if len(line) > 1], 1000)
    boards = folder / "usr/share/kicad/demos"
    for name in ["video", "kit-dev-coldfire-xilinx_5213", "stickhub/StickHub"]:
        file = boards / (f"{name}.kicad_pcb" if "/" in name else f"{name}/{name}.kicad_pcb")
        board = file.read_text(encoding="utf-8")
        short = name.rsplit("/", 1)[-1].split("-")[0].lower()
        for layer in sorted(set(re.findall(r'\(layer "([^"]*\.Cu|[A-Z0-9_]*)"\)', board))):
            copper, pieces = zones(board, layer), tracks(board, layer)
            side = re.sub(r"\W", "_", layer).lower()
            if sum(map(len, copper)) > 1000:
                yield f"zone_{short}_{side}_out", outline(copper, NANOMETRES // 5)
                yield f"zone_{short}_{side}_in", outline(copper, -NANOMETRES // 10)
            if len(pieces) > 500:
                yield f"tracks_{short}_{side}", stroke(pieces, NANOMETRES // 2)
    for font in ["DejaVuSans", "DejaVuSerif"]:
        text = glyphs(folder, f"{font}.ttf", TEXT)
        yield f"glyphs_{font.lower()}_bold", outline(text, 4000)
        yield f"glyphs_{font.lower()}_pen", stroke(text, 20_000, closed=True)
        yield f"glyphs_{font.lower()}_wide_pen", stroke(text, 160_000, closed=True)
    programs = folder / "usr/share/linuxcnc/ncfiles"
    for name, tenths in [("3D_Chips", 100), ("arcspiral", 30), ("systems", 10), ("plasmatest", 30), ("cds", 60)]:
        text = (programs / f"{name}.ngc").read_text(encoding="latin-1")
        yield f"tool_{name.lower()}", stroke(tool_paths(text), tenths * NANOMETRES // 10)


def vertices(request: dict) -> int:
    """How many vertices its paths have."""
    return sum(map(len, request["paths"]))


def main() -> None:
    """Writes the requests."""
    parser = argparse.ArgumentParser(description="Writes requests of real drawings.")
    parser.add_argument("folder", type=pathlib.Path, metavar="FOLDER")
    given = parser.parse_args()
    given.folder.mkdir(parents=True, exist_ok=True)
    with tempfile.TemporaryDirectory() as place:
        unpack(pathlib.Path(place))
        for name, request in requests(pathlib.Path(place)):
            (given.folder / f"{name}.json").write_text(json.dumps(request, separators=(",", ":")), encoding="utf-8")
            print(f"{name}: {vertices(request)} vertices in {len(request['paths'])} paths")


if __name__ == "__main__":
    main()
