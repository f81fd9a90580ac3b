"""Draws times against numbers of vertices, both by their logarithms, as SVG."""
import math
from typing import NamedTuple

PANEL = 520
LEFT = 70
TOP = 40
BOTTOM = 50
NAMES = 150
DEPTH = 400

LINE_OF_TEXT = 16

COLORS = ["#0072b2", "#d55e00", "#009e73", "#cc79a7", "#8c564b", "#e69f00", "#56b4e9", "#000000"]


class Line(NamedTuple):
    """A name, and times in seconds by numbers of vertices."""

    name: str
    times: dict


class Scale(NamedTuple):
    """The powers of ten at the ends of both axes of a panel, and where the panel begins."""

    left: float
    low_count: int
    high_count: int
    low_time: int
    high_time: int

    def x(self, count):
        """Where a number of vertices stands."""
        part = (math.log10(count) - self.low_count) / (self.high_count - self.low_count)
        return self.left + LEFT + part * (PANEL - LEFT - NAMES)

    def y(self, seconds):
        """Where a time stands."""
        part = (math.log10(seconds) - self.low_time) / (self.high_time - self.low_time)
        return TOP + DEPTH * (1 - part)


def ends(values):
    """The powers of ten round values, at least one apart."""
    low, high = math.floor(math.log10(min(values))), math.ceil(math.log10(max(values)))
    return low, max(high, low + 1)


def scale_of(lines, left):
    """A scale on which all lines stand."""
    counts = [count for line in lines for count in line.times]
    times = [seconds for line in lines for seconds in line.times.values()]
    return Scale(left, *ends(counts), *ends(times))


def text(x, y, words, anchor="middle", more=""):
    """A text of the picture."""
    return f'<text x="{x:.1f}" y="{y:.1f}" text-anchor="{anchor}"{more}>{words}</text>'


def straight(start, end, more):
    """A straight line between two points."""
    return f'<line x1="{start[0]:.1f}" y1="{start[1]:.1f}" x2="{end[0]:.1f}" y2="{end[1]:.1f}" {more}/>'


def seconds_name(power):
    """A power of ten seconds in words, down to a microsecond."""
    if power >= 0:
        return f"{10**power:,} s"
    return f"{10 ** (power + 3)} ms" if power >= -3 else f"{10 ** (power + 6)} µs"


def axes(scale):
    """The lines of the powers of ten, and their names."""
    parts = []
    light = 'stroke="#dddddd"'
    low, high = 10.0**scale.low_time, 10.0**scale.high_time
    first, last = 10**scale.low_count, 10**scale.high_count
    for power in range(scale.low_count, scale.high_count + 1):
        x = scale.x(10**power)
        parts.append(straight((x, scale.y(low)), (x, scale.y(high)), light))
        parts.append(text(x, TOP + DEPTH + 18, f"{10**power:,}"))
    for power in range(scale.low_time, scale.high_time + 1):
        y = scale.y(10.0**power)
        parts.append(straight((scale.x(first), y), (scale.x(last), y), light))
        parts.append(text(scale.x(first) - 6, y + 4, seconds_name(power), "end"))
    parts.append(text((scale.x(first) + scale.x(last)) / 2, TOP + DEPTH + 38, "vertices"))
    return parts


def slopes(scale):
    """How times would grow as the number of vertices, and as its square."""
    parts = []
    first, last = 10**scale.low_count, 10**scale.high_count
    low = 10.0**scale.low_time
    for power, name in [(1, "n"), (2, "n²")]:
        end = min(last, first * (10.0**scale.high_time / low) ** (1 / power))
        until = (scale.x(end), scale.y(low * (end / first) ** power))
        parts.append(straight((scale.x(first), scale.y(low)), until, 'stroke="#bbbbbb" stroke-dasharray="2 4"'))
        parts.append(text(until[0] - 10, until[1] + 16, name, "end", ' fill="#888888"'))
    return parts


def curve(scale, line, color, more=""):
    """The times of a line, each with a dot."""
    points = [(scale.x(count), scale.y(seconds)) for count, seconds in sorted(line.times.items())]
    data = " ".join(f"{x:.1f},{y:.1f}" for x, y in points)
    parts = [f'<polyline points="{data}" fill="none" stroke="{color}" stroke-width="1.8"{more}/>']
    parts += [f'<circle cx="{x:.1f}" cy="{y:.1f}" r="2.6" fill="{color}"/>' for x, y in points]
    return parts


def name_places(heights):
    """Where names stand that would stand at these heights, in their order, but not over each other."""
    places = []
    for height in heights:
        places.append(max(height, places[-1] + LINE_OF_TEXT) if places else height)
    over = max(0, places[-1] - (TOP + DEPTH)) if places else 0
    for index in range(len(places) - 1, -1, -1):
        most = places[index + 1] - LINE_OF_TEXT if index + 1 < len(places) else places[index] - over
        places[index] = min(places[index], most)
    return places


def names(scale, lines):
    """The names of lines beside their ends, each with a thin line to it."""
    last = [(max(line.times), line) for line, _ in lines]
    stands = sorted(
        (scale.y(line.times[count]), scale.x(count), line.name, color)
        for (count, line), (_, color) in zip(last, lines)
    )
    x = scale.x(10**scale.high_count) + 24
    parts = []
    for place, (y, end, name, color) in zip(name_places([stand[0] for stand in stands]), stands):
        parts.append(straight((end + 4, y), (x - 4, place), f'stroke="{color}" stroke-width="0.6"'))
        parts.append(text(x, place + 4, name, "start", f' fill="{color}"'))
    return parts


def panel(title, lines, sort, scale):
    """One panel."""
    colored = [(line, COLORS[index % len(COLORS)]) for index, line in enumerate(lines) if line.times]
    parts = [text(scale.left + LEFT, TOP - 16, title, "start", ' font-size="15"'), *axes(scale), *slopes(scale)]
    for line, color in colored:
        parts += curve(scale, line, color)
    parts += curve(scale, sort, "#888888", ' stroke-dasharray="6 4"')
    return parts + names(scale, [*colored, (sort._replace(name="sort"), "#888888")])


def drawing(panels, sort):
    """The SVG text of panels, each a title and its lines, with the times of a sort in all of them."""
    shown = [line for _, lines in panels for line in lines if line.times] + [sort]
    width, height = PANEL * len(panels), TOP + DEPTH + BOTTOM
    parts = [
        f'<svg xmlns="http://www.w3.org/2000/svg" width="{width}" height="{height}"'
        f' viewBox="0 0 {width} {height}" font-family="sans-serif" font-size="13">',
        f"<title>The time of an outline against its number of vertices, and of {sort.name}</title>",
        f'<rect width="{width}" height="{height}" fill="white"/>',
    ]
    for index, (title, lines) in enumerate(panels):
        parts += panel(title, lines, sort, scale_of(shown, index * PANEL))
    return "\n".join([*parts, "</svg>"]) + "\n"
