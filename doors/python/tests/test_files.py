"""Files of all formats: what is read is what was written, and what is drawn is what `buffer` draws."""

import json
import os
import pathlib
import random
import struct
import tempfile
import unittest

from surroundings import shapely
from test_command import LINE, POLYGON, run

from i_overlay_mesh import DrawingError, buffer, wkb, wkt

try:
    import geopandas
except ImportError:
    geopandas = None

try:
    import fiona
except ImportError:
    fiona = None

TEXTS = {
    "POINT (1 2)": {"type": "Point", "coordinates": [1, 2]},
    "point z(1 2 3)": {"type": "Point", "coordinates": [1, 2]},
    "SRID=3035;POINT ZM (1 2 3 4)": {"type": "Point", "coordinates": [1, 2]},
    "POINT EMPTY": {"type": "Point", "coordinates": []},
    "LINESTRING(0 0,1e1 -.5)": {"type": "LineString", "coordinates": [[0, 0], [10, -0.5]]},
    "LINESTRINGZ(0 0 7,1 1 7)": {"type": "LineString", "coordinates": [[0, 0], [1, 1]]},
    "MULTIPOINT ((1 2), (3 4))": {"type": "MultiPoint", "coordinates": [[1, 2], [3, 4]]},
    "MULTIPOINT (1 2, 3 4)": {"type": "MultiPoint", "coordinates": [[1, 2], [3, 4]]},
    "POLYGON ((0 0, 9 0, 9 9, 0 0))": {"type": "Polygon", "coordinates": [[[0, 0], [9, 0], [9, 9], [0, 0]]]},
    "MULTILINESTRING ((0 0, 1 1), EMPTY)": {"type": "MultiLineString", "coordinates": [[[0, 0], [1, 1]], []]},
    "GEOMETRYCOLLECTION (POINT (1 2), GEOMETRYCOLLECTION EMPTY)": {
        "type": "GeometryCollection",
        "geometries": [{"type": "Point", "coordinates": [1, 2]}, {"type": "GeometryCollection", "geometries": []}],
    },
}

NO_TEXTS = [
    "",
    "POINT",
    "POINT (1 2",
    "POINT (1 2) 3",
    "CIRCLE (1 2)",
    "POINT (a b)",
    "POINT ?",
    "LINESTRING (0 0 1 1)) ",
]


def area_of(geometry):
    """Twice the area of a polygon's boundary, as a file may turn a ring or begin it elsewhere."""
    ring = geometry["coordinates"][0]
    return round(abs(sum(a[0] * b[1] - a[1] * b[0] for a, b in zip(ring, ring[1:]))), 6)


class TestText(unittest.TestCase):
    def test_texts(self):
        for text, geometry in TEXTS.items():
            self.assertEqual(wkt.read(text), geometry)

    def test_what_is_none(self):
        for text in NO_TEXTS:
            with self.subTest(text), self.assertRaises(DrawingError):
                wkt.read(text)

    def test_a_text_is_read_again(self):
        draw = random.Random(1)
        for _ in range(50):
            ring = [[draw.uniform(-1e9, 1e9), draw.choice([7, 0.1, -1e300])] for _ in range(5)]
            for geometry in (
                {"type": "Polygon", "coordinates": [ring, ring[:3]]},
                {"type": "MultiPolygon", "coordinates": [[ring], [ring, ring]]},
                {"type": "MultiPolygon", "coordinates": []},
            ):
                self.assertEqual(wkt.read(wkt.written(geometry)), geometry)
                self.assertEqual(wkb.read(wkb.written(geometry)), geometry)


class TestBinary(unittest.TestCase):
    def test_both_orders_and_heights(self):
        for order, first in ("<", 1), (">", 0):
            for kind, size in ((2, 2), (1002, 3), (3002, 4), (0x80000002, 3), (0x20000002, 2)):
                number = struct.pack(order + "I", 3035) if kind & 0x20000000 else b""
                points = struct.pack(f"{order}{2 * size}d", *([1.5, 2] + [7] * (size - 2)) * 2)
                data = struct.pack(order + "BI", first, kind) + number + struct.pack(order + "I", 2) + points
                self.assertEqual(wkb.read(data), {"type": "LineString", "coordinates": [[1.5, 2], [1.5, 2]]})
                with self.assertRaises(DrawingError):
                    wkb.read(data[:-1])

    def test_what_is_none(self):
        for data in (b"\2", struct.pack("<BI", 1, 99) + b"\0" * 4):
            with self.assertRaises(DrawingError):
                wkb.read(data)

    @unittest.skipIf(shapely is None, "Shapely is not there")
    def test_what_shapely_writes(self):
        import shapely.wkb

        for text, geometry in TEXTS.items():
            if "EMPTY" not in text:
                self.assertEqual(wkb.read(shapely.wkb.dumps(shapely.geometry.shape(geometry))), geometry)


class TestCommand(unittest.TestCase):
    def setUp(self):
        holder = tempfile.TemporaryDirectory()
        self.addCleanup(holder.cleanup)
        self.folder = pathlib.Path(holder.name)
        self.expected = [buffer(geometry, 5.0).geojson() for geometry in (POLYGON, LINE)]

    def answer(self, data, *words, name=None):
        """What the command writes for a file, or for standard input."""
        if name is None:
            result = run("buffer", "--distance", "5", *words, data=data)
        else:
            (self.folder / name).write_bytes(data)
            result = run("buffer", "--distance", "5", *words, str(self.folder / name))
        self.assertEqual((result.returncode, result.stderr), (0, b""))
        return result.stdout

    def test_text(self):
        text = b"POLYGON ((0 0, 20 0, 20 20, 0 20, 0 0))\n\nLINESTRING (0 0, 30 0, 30 10)\n"
        for words, name in ((), None), (("--workers", "1"), "map.wkt"), (("--format", "wkt"), None):
            lines = self.answer(text, *words, name=name).decode().splitlines()
            self.assertEqual([wkt.read(line) for line in lines], self.expected)

    def test_binary(self):
        data = struct.pack("<BIII10d", 1, 3, 1, 5, 0, 0, 20, 0, 20, 20, 0, 20, 0, 0)
        data += struct.pack(">BII6d", 0, 2, 3, 0, 0, 30, 0, 30, 10)
        for name in (None, "map.wkb"):
            self.assertEqual(list(wkb.read_all(self.answer(data, name=name))), self.expected)
        first = data[:93]
        self.assertEqual(wkb.read(bytes.fromhex(self.answer(first.hex().encode()).decode())), self.expected[0])

    def test_an_output(self):
        out = self.folder / "out.geojson"
        self.assertEqual(self.answer(json.dumps(POLYGON).encode(), "-o", str(out)), b"")
        self.assertEqual(json.loads(out.read_text()), json.loads(json.dumps(self.expected[0])))
        out.write_text("as it was")
        result = run("buffer", "--distance", "5", "-o", str(out), text="{")
        self.assertEqual((result.returncode, out.read_text()), (1, "as it was"))
        self.assertEqual(list(self.folder.iterdir()), [out])

    def test_an_output_by_its_name(self):
        """Geometries alone are written in any format, and what has properties in its own."""
        text = b"POLYGON ((0 0, 20 0, 20 20, 0 20, 0 0))\nLINESTRING (0 0, 30 0, 30 10)\n"
        out = {kind: self.folder / f"out.{kind}" for kind in ("wkt", "wkb", "geojson")}
        for file in out.values():
            self.answer(text, "-o", str(file))
        self.assertEqual([wkt.read(line) for line in out["wkt"].read_text().splitlines()], self.expected)
        self.assertEqual(list(wkb.read_all(out["wkb"].read_bytes())), self.expected)
        features = [json.loads(line) for line in out["geojson"].read_text().splitlines()]
        self.assertEqual([item["geometry"] for item in features], json.loads(json.dumps(self.expected)))
        result = run("buffer", "--distance", "5", "-o", str(out["wkt"]), data=json.dumps(POLYGON).encode())
        self.assertEqual(result.returncode, 2)
        self.assertIn(b"FILE is GeoJSON, and wkt", result.stderr)
        self.assertEqual(len(out["wkt"].read_text().splitlines()), 2)

    def test_errors(self):
        for data, words, expected in [
            (b"POINT (1 2)\nPOINT (1 x)", (), b"geometry 1: 'X' is no number"),
            (b"POINT (1 2)", ("--format", "wkb"), b"geometry 0: it is no WKB: 'POINT (1 2)' are no hexadecimal digits"),
            (b"\1\3", (), b"it is no WKB"),
            (b"POINT (1 2)", ("--project", "utm"), b"have no CRS to project from"),
            (b"", ("--workers", "0"), b"workers is 0"),
        ]:
            result = run("buffer", "--distance", "5", *words, data=data)
            self.assertIn(expected, result.stderr)
            self.assertNotEqual(result.returncode, 0)

    @unittest.skipIf(geopandas is None, "GeoPandas is not there")
    def test_layers(self):
        kinds = shapely.geometry
        given = [
            kinds.Polygon(POLYGON["coordinates"][0]),
            None,
            kinds.MultiPolygon([kinds.Polygon([(50, 0), (60, 0), (60, 9)])]),
        ]
        table = geopandas.GeoDataFrame({"name": ["Åland", "x", "y"]}, geometry=given, crs=3035)
        source = self.folder / "map.gpkg"
        table.to_file(source, layer="land")
        for name in ("out.gpkg", "out.shp"):
            result = run("buffer", "--distance", "5", "--layer", "land", str(source), "-o", str(self.folder / name))
            self.assertEqual((result.returncode, result.stdout), (0, b""), result.stderr)
            answers = geopandas.read_file(self.folder / name)
            self.assertEqual((list(answers["name"]), answers.crs.to_epsg()), (["Åland", "x", "y"], 3035))
            for item, answer in zip(given, answers.geometry):
                if item is not None:
                    self.assertEqual(answer.symmetric_difference(buffer(item, 5.0).shapely()).area, 0)
        table.to_crs(4326).to_file(self.folder / "degrees.gpkg")
        result = run("buffer", "--distance", "5", str(self.folder / "degrees.gpkg"), "-o", str(self.folder / "no.gpkg"))
        self.assertIn(b"whose unit is the degree", result.stderr)
        self.assertFalse((self.folder / "no.gpkg").exists())
        for name, status in ("no.wkt", 2), ("no.unknown", 1):
            result = run("buffer", "--distance", "5", str(source), "-o", str(self.folder / name))
            self.assertEqual((result.returncode, (self.folder / name).exists()), (status, False), result.stderr)
        out = self.folder / "stream.gpkg"
        # Other packages take the coordinates of GeoJSON for degrees.
        words = "--project", "EPSG:3857", "-o", str(out)
        result = run("buffer", "--distance", "5", *words, data=json.dumps(POLYGON).encode())
        self.assertEqual(result.returncode, 0, result.stderr)
        self.assertEqual(len(geopandas.read_file(out)), 1)

    @unittest.skipIf(fiona is None, "fiona is not there")
    def test_layers_by_fiona_alone(self):
        """Where GeoPandas cannot be imported."""
        (self.folder / "geopandas.py").write_text("raise ImportError")
        path = os.pathsep.join([str(self.folder), *filter(None, [os.environ.get("PYTHONPATH")])])
        environment = {**os.environ, "PYTHONPATH": path}
        source, degrees = self.folder / "map.gpkg", self.folder / "degrees.gpkg"
        schema = {"geometry": "Unknown", "properties": {"name": "str"}}
        given = [POLYGON, None, LINE]
        for file, crs in (source, "EPSG:3035"), (degrees, "EPSG:4326"):
            with fiona.open(file, "w", driver="GPKG", layer="land", crs=crs, schema=schema) as layer:
                layer.writerecords({"geometry": item, "properties": {"name": "Åland"}} for item in given)
        for name in ("out.gpkg", "out.shp"):
            words = ("--layer", "land", str(source), "-o", str(self.folder / name))
            result = run("buffer", "--distance", "5", *words, env=environment)
            self.assertEqual((result.returncode, result.stdout), (0, b""), result.stderr)
            with fiona.open(self.folder / name) as layer:
                answers = [feature.__geo_interface__ for feature in layer]
                self.assertEqual(layer.crs.to_epsg(), 3035)
            self.assertEqual({answer["properties"]["name"] for answer in answers}, {"Åland"})
            areas = [None if answer["geometry"] is None else area_of(answer["geometry"]) for answer in answers]
            self.assertEqual(areas, [area_of(self.expected[0]), None, area_of(self.expected[1])])
        for words, status, expected in [
            ((str(degrees),), 2, b"the unit of its CRS is the degree"),
            ((str(source), "-o", str(self.folder / "out.unknown")), 1, b"driver"),
            ((str(source), "--layer", "sea"), 1, b"sea"),
            ((str(self.folder / "none.gpkg"),), 1, b"none.gpkg"),
        ]:
            result = run("buffer", "--distance", "5", *words, env=environment)
            self.assertEqual((result.returncode, b"Traceback" in result.stderr), (status, False), result.stderr)
            self.assertIn(expected, result.stderr)

    def test_a_layer_that_is_none(self):
        (self.folder / "map.gpkg").write_bytes(b"nothing")
        result = run("buffer", "--distance", "5", str(self.folder / "map.gpkg"))
        self.assertEqual(result.returncode, 1)
        self.assertNotIn(b"Traceback", result.stderr)


if __name__ == "__main__":
    unittest.main()
