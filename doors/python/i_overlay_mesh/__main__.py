"""`python3 -m i_overlay_mesh`: geometries in, geometries or a picture out."""

from __future__ import annotations

import argparse
import io
import json
import os
import sys
from typing import Any, Optional, Sequence, TextIO

from . import __version__, buffer_all
from .errors import DrawingError, LibraryMissing
from .features import FeatureError, Work
from .files import FORMATS, STREAM, buffered, buffered_layer, format_of, mappings
from .library import is_proved
from .picture import picture
from .pool import meter_on, read_workers
from .styles import CAPS, JOINS, MITER_LIMIT

NAME = "i_overlay_mesh"


LINES = 256
"""So many lines are answered at once, where there are several threads."""


def version() -> str:
    """The version, and whether the library is proved."""
    try:
        kind = "" if is_proved() else " (built before its proof)"
    except LibraryMissing:
        kind = " (no library)"
    return f"{NAME} {__version__}{kind}"


def arguments() -> argparse.ArgumentParser:
    """The commands and their options."""
    parser = argparse.ArgumentParser(
        prog=NAME, description="Polygon offsetting of GeoJSON, WKT, WKB, and layers of maps."
    )
    parser.add_argument("--version", action="version", version=version())
    commands = parser.add_subparsers(dest="command", metavar="COMMAND", required=True)
    add_buffer(commands)
    add_draw(commands)
    return parser


def add_buffer(commands: Any) -> None:
    """The command that buffers."""
    command = commands.add_parser(
        "buffer",
        help="buffer each geometry by a distance",
        description="Buffers each geometry of a file by a distance, in the units of its coordinates. Polygons are moved"
        " outwards or, below 0, inwards; lines become strokes, points circles. GeoJSON (one object, or features one a"
        " line), WKT and WKB are answered in the same format, with all but the geometries and 'bbox' kept; WKT and WKB also"
        " in another one, by the name of the output. Whatever else"
        " geopandas or fiona reads, as shapefiles and GeoPackage, is answered as a layer with the same columns and CRS.",
        epilog="Features and their parts are counted from 0. Exit status: 0, all was buffered; 1, a feature could"
        " not be, or the file is none of its kind; 2, the options are wrong. Degrees are no lengths: bring a map to"
        " metres first, or see --project.",
    )
    command.add_argument("file", nargs="?", default=STREAM, metavar="FILE", help="'-', the default, is standard input")
    command.add_argument("--output", "-o", metavar="FILE", help="by default, and as '-', standard output")
    command.add_argument("--distance", type=float, required=True, help="how far; below 0, polygons shrink")
    command.add_argument("--join", choices=sorted(JOINS), default="round", help="corners (round)")
    command.add_argument("--cap", choices=sorted(CAPS), default="round", help="ends of lines (round)")
    fineness = command.add_mutually_exclusive_group()
    fineness.add_argument("--tolerance", type=float, metavar="GAP", help="greatest gap between arcs and circles")
    fineness.add_argument("--step", type=float, metavar="DEGREES", help="greatest step of arcs (5.625)")
    command.add_argument("--at-least", action="store_true", help="arcs lie outside their circles, for clearances")
    command.add_argument("--miter-limit", type=float, default=MITER_LIMIT, help="greatest peak, in distances (5)")
    command.add_argument("--scale", type=float, help="grid units a unit (for each feature the finest that is safe)")
    command.add_argument("--sliver-width", type=float, metavar="WIDTH", help="leave out what is as thin as this")
    add_files(command)
    command.set_defaults(run=run_buffer)


def add_files(command: argparse.ArgumentParser) -> None:
    """Options of how files are read, and by how many threads they are answered."""
    command.add_argument("--format", choices=FORMATS, help="of FILE (by its name, of a stream by how it begins)")
    command.add_argument("--layer", metavar="NAME", help="of a file that has several")
    command.add_argument(
        "--project", metavar="CRS", help="buffer a layer in this CRS, and bring it back; 'utm' is the zone it lies in"
    )
    command.add_argument(
        "--workers", type=int, metavar="N", help="threads (one a processor); with 1 each line is answered as it comes"
    )


def add_draw(commands: Any) -> None:
    """The command that draws."""
    command = commands.add_parser(
        "draw",
        help="draw GeoJSON as SVG",
        description="Draws the geometries of GeoJSON files over each other, as SVG. The y axis points up.",
    )
    command.add_argument("files", nargs="+", metavar="FILE", help="'-' is standard input")
    command.add_argument("--size", type=int, default=800, help="width of the picture (800)")
    command.set_defaults(run=run_draw)


def opened(file: str) -> TextIO:
    """A file to read, or standard input. Some begin with a mark of their encoding."""
    if file == "-":
        return io.TextIOWrapper(sys.stdin.buffer, encoding="utf-8-sig")
    return open(file, encoding="utf-8-sig")


def print_line(text: str) -> None:
    """Prints a line in UTF-8, whatever the terminal's encoding is."""
    sys.stdout.buffer.write(text.encode() + b"\n")
    sys.stdout.buffer.flush()


def run_buffer(options: argparse.Namespace) -> None:
    """Writes the file with its geometries buffered."""
    words = dict(
        join=options.join,
        cap=options.cap,
        tolerance=options.tolerance,
        step=options.step,
        at_least=options.at_least,
        miter_limit=options.miter_limit,
        scale=options.scale,
        sliver_width=options.sliver_width,
    )
    workers = read_workers(options.workers)
    # What is wrong with the options themselves is told before a file is read.
    buffer_all([None], options.distance, **words)
    progress = Progress(sys.stderr)

    def draw(geometries: Sequence[Any], errors: dict[int, Exception]) -> list[Any]:
        return mappings(
            buffer_all(geometries, options.distance, workers=workers, errors=errors, progress=progress.tell, **words)
        )

    def draw_layer(given: Any, project: Any) -> Any:
        try:
            answers = buffer_all(
                given, options.distance, workers=workers, progress=progress.tell, project=project, **words
            )
        except DrawingError as error:
            raise FeatureError(str(error)) if error.where else error from None
        return mappings(answers) if isinstance(answers, list) else answers

    kinds = {format_of(options.file, options.format), format_of(options.output or STREAM, None)}
    try:
        if "layer" in kinds:
            for kind in kinds & {"wkt", "wkb"}:
                raise DrawingError("", f"{kind} has geometries alone, and a layer has columns and a CRS: name GeoJSON")
            buffered_layer(options.file, options.output, draw_layer, options.layer, options.project)
        elif options.project is not None:
            raise DrawingError("", "--project is given, and GeoJSON, WKT and WKB have no CRS to project from")
        else:
            write(options, Work(draw, 1 if workers == 1 else LINES, progress.tell_lines))
    finally:
        progress.end()


def write(options: argparse.Namespace, work: Work) -> None:
    """Writes a file of GeoJSON, WKT or WKB."""
    if options.output in (None, STREAM):
        buffered(options.file, options.format, work, sys.stdout.buffer)
        return
    # What stands there is replaced once all is done.
    beside = f"{options.output}.{os.getpid()}"
    try:
        with open(beside, "wb") as out:
            buffered(options.file, options.format, work, out, format_of(options.output, None))
        os.replace(beside, options.output)
    finally:
        if os.path.exists(beside):
            os.unlink(beside)


def run_draw(options: argparse.Namespace) -> None:
    """Prints the picture of files."""
    layers = []
    for file in options.files:
        with opened(file) as lines:
            layers.append(lines.read())
    print_line(picture(layers, options.size))


class Progress:
    """How many features are done, on a terminal alone."""

    def __init__(self, stream: TextIO) -> None:
        self.meter = meter_on(stream, "features") if stream.isatty() else None
        self.is_streaming = False

    def tell(self, done: int, total: Optional[int]) -> None:
        """Shows how many features of how many are done."""
        if self.meter and not self.is_streaming:
            self.meter.tell(done, total)

    def tell_lines(self, done: int) -> None:
        """Shows how many lines are done, of which nobody knows how many there are."""
        self.is_streaming = True
        if self.meter:
            self.meter.tell(done, None)

    def end(self) -> None:
        """Goes on to the next line."""
        if self.meter:
            self.meter.end()


def main(words: Optional[Sequence[str]] = None) -> int:
    """Runs a command, and answers its exit status."""
    options = arguments().parse_args(words)
    try:
        options.run(options)
    except BrokenPipeError:
        # Whoever read the answer has gone; Python would complain once more as it ends.
        os.dup2(os.open(os.devnull, os.O_WRONLY), sys.stdout.fileno())
        return 1
    except FeatureError as error:
        return failed(f"{options.file}: {error}", 1)
    except OSError as error:
        return failed(f"{error.filename}: {error.strerror}" if error.filename else str(error), 1)
    except UnicodeDecodeError as error:
        return failed(f"the file is not in UTF-8: {error}", 1)
    except json.JSONDecodeError as error:
        return failed(f"the file is no JSON: {error}", 1)
    except MemoryError as error:
        return failed(str(error) or "out of memory", 1)
    except (DrawingError, LibraryMissing) as error:
        return failed(str(error), 2 if isinstance(error, DrawingError) else 1)
    return 0


def failed(reason: str, status: int) -> int:
    """Says why it failed."""
    print(f"{NAME}: {reason}", file=sys.stderr)
    return status


if __name__ == "__main__":
    sys.exit(main())
