"""Files of geometries: GeoJSON, WKT and WKB by this package itself, and all others by GeoPandas or fiona."""

from __future__ import annotations

import contextlib
import io
import os
import pathlib
import sys
import tempfile
from typing import Any, BinaryIO, Callable, Iterator, Optional, Sequence

from . import wkb, wkt
from .errors import DrawingError
from .features import FeatureError, Work, buffered_file, written

SUFFIXES = {
    ".geojson": "geojson",
    ".json": "geojson",
    ".geojsonl": "geojson",
    ".geojsons": "geojson",
    ".ndjson": "geojson",
    ".wkt": "wkt",
    ".wkb": "wkb",
}
FORMATS = ("geojson", "wkt", "wkb")
STREAM = "-"
HEX = set("0123456789abcdefABCDEF")


def format_of(file: str, said: Optional[str]) -> Optional[str]:
    """The format of a file, by what is said of it or by its name, if that tells it; of what others read `layer`."""
    if said is not None:
        return said
    suffix = pathlib.Path(file).suffix.lower()
    return None if file == STREAM or not suffix else SUFFIXES.get(suffix, "layer")


def guessed(start: bytes) -> str:
    """The format of a stream, by how it begins."""
    if start[:1] in (b"\0", b"\1"):
        return "wkb"
    text = start.decode("utf-8", "replace").lstrip("\ufeff\x1e \t\r\n")
    if not text[:1].isalnum():
        return "geojson"
    return "wkb" if set(text[:10]) <= HEX else "wkt"


def opened(file: str) -> io.BufferedReader:
    """A file to read, or standard input."""
    return open(sys.stdin.fileno() if file == STREAM else file, "rb", closefd=file != STREAM)


def buffered(file: str, said: Optional[str], work: Work, out: BinaryIO, named: Optional[str] = None) -> None:
    """Writes a file of GeoJSON, WKT or WKB with its geometries buffered, in the same format.

    named: another format, by the name of what is written. GeoJSON has more than geometries, and stays what it is.
    """
    with opened(file) as source:
        kind = format_of(file, said) or guessed(source.peek(64))
        if kind == "geojson":
            if named not in (None, kind):
                raise DrawingError("", f"FILE is GeoJSON, and {named} by which --output is named has no properties")
            lines = buffered_file(io.TextIOWrapper(source, encoding="utf-8-sig"), work)
            parts: Iterator[bytes] = (line.encode() + b"\n" for line in lines)
        else:
            parts = buffered_geometries(source.read(), kind, work, named)
        for part in parts:
            out.write(part)
            out.flush()
    out.flush()


def buffered_geometries(data: bytes, kind: str, work: Work, named: Optional[str]) -> Iterator[bytes]:
    """WKB, one geometry behind the other; or in hexadecimal digits, or WKT, a geometry a line."""
    if kind == "wkb" and data[:1] in (b"\0", b"\1", b""):
        geometries, form = read_by(lambda given: list(wkb.read_all(given)), "", data), "wkb"
        names = [f"geometry {number}" for number in range(len(geometries))]
    else:
        read, form = (wkt.read, "wkt") if kind == "wkt" else (wkb.read_hex, "hex")
        lines = [line.strip() for line in data.decode("utf-8-sig").splitlines() if line.strip()]
        names = [f"geometry {number}" for number in range(len(lines))]
        geometries = [read_by(read, name, line) for name, line in zip(names, lines)]
    write = WRITERS[form if named is None or named == kind else named]
    return map(write, work.drawn(geometries, names))


def feature(geometry: Any) -> bytes:
    """A geometry as a feature of GeoJSON, on one line."""
    return written("", {"type": "Feature", "properties": {}, "geometry": geometry}).encode() + b"\n"


WRITERS: dict[str, Callable[[Any], bytes]] = {
    "wkt": lambda geometry: wkt.written(geometry).encode() + b"\n",
    "wkb": wkb.written,
    "hex": lambda geometry: wkb.written(geometry).hex().upper().encode() + b"\n",
    "geojson": feature,
}


def read_by(read: Callable[[Any], Any], name: str, given: Any) -> Any:
    """What is read, or an error with where it came."""
    try:
        return read(given)
    except (DrawingError, ValueError) as error:
        raise FeatureError(f"{name}: {error}" if name else str(error)) from error


# By other packages


@contextlib.contextmanager
def told() -> Iterator[None]:
    """Tells the errors of another package, which has its own kinds of them, as errors of a file."""
    try:
        yield
    except Exception as error:  # noqa: BLE001
        raise FeatureError(str(error)) from error


def written_whole(out: str, write: Callable[[pathlib.Path], Any]) -> None:
    """Writes a layer. What was there is replaced only once all new files stand, of which a shapefile has several."""
    target = pathlib.Path(out)
    with told(), tempfile.TemporaryDirectory(dir=target.parent) as name:
        made = pathlib.Path(name) / target.name
        write(made)
        # What GeoPandas makes of a name that it does not know is a folder with a shapefile.
        if target.suffix and made.is_dir() and any(made.glob("*.shp")):
            raise FeatureError(f"{out} names no format that can be written")
        for file in pathlib.Path(name).iterdir():
            os.replace(file, target.with_name(file.name))


def layers_of(file: str) -> Any:
    """A file for another package to read, or the bytes of standard input."""
    return io.BytesIO(sys.stdin.buffer.read()) if file == STREAM else file


def buffered_layer(
    file: str, out: Optional[str], draw: Callable[[Any, Any], Any], layer: Optional[str], project: Optional[str]
) -> None:
    """Buffers a layer of a file that another package reads, and writes it to a file, or as GeoJSON."""
    try:
        import geopandas
    except ImportError:
        buffered_by_fiona(file, out, draw, layer, project)
        return
    words = {} if layer is None else {"layer": layer}
    with told():
        given = geopandas.read_file(layers_of(file), **words)
    table = draw(given, project)
    if out is None or out == STREAM:
        sys.stdout.buffer.write(table.to_json(drop_id=True).encode() + b"\n")
        sys.stdout.buffer.flush()
    else:
        written_whole(out, lambda path: table.to_file(path, **words))


def buffered_by_fiona(
    file: str, out: Optional[str], draw: Callable[[Any, Any], Any], layer: Optional[str], project: Optional[str]
) -> None:
    """The same by fiona alone, which projects nothing."""
    try:
        import fiona
    except ImportError:
        known = ", ".join(sorted(SUFFIXES))
        raise FeatureError(
            f"files of this kind are read by geopandas or fiona, and neither is installed; this package itself reads {known}"
        ) from None
    if project is not None:
        raise FeatureError("--project needs geopandas, which is not installed")
    with told(), fiona.open(layers_of(file), layer=layer) as source:
        crs, properties = source.crs, source.schema["properties"]
        is_geographic = crs and crs.is_geographic
        features = [feature.__geo_interface__ for feature in source]
    if is_geographic:
        raise DrawingError("", "the unit of its CRS is the degree and no length: bring the map to metres first")
    geometries = draw([feature["geometry"] for feature in features], None)
    answers = [{**feature, "geometry": geometry} for feature, geometry in zip(features, geometries)]
    if out is None or out == STREAM:
        sys.stdout.buffer.write(written("", {"type": "FeatureCollection", "features": answers}).encode() + b"\n")
        sys.stdout.buffer.flush()
        return

    def write(path: pathlib.Path) -> None:
        driver = fiona.drvsupport.driver_from_extension(path)
        schema = {"geometry": "Unknown", "properties": properties}
        with fiona.open(path, "w", driver=driver, crs=crs, schema=schema, layer=layer) as target:
            target.writerecords(answers)

    written_whole(out, write)


def mappings(answers: Sequence[Any]) -> list[Any]:
    """Answers as GeoJSON mappings."""
    return [None if answer is None else answer.geojson() for answer in answers]
