"""Draws ratios of times against numbers of vertices, both by their logarithms, as SVG."""
import math

WIDTH = 760
HEIGHT = 460
LEFT = 70
RIGHT = 210
TOP = 40
BOTTOM = 50

LINE_OF_TEXT = 15

LEAST, MOST = 0.01, 20
"""The ratios at the lower and the upper end."""

COLORS = ["#0072b2", "#d55e00", "#009e73", "#cc79a7", "#8c564b", "#e69f00", "#56b4e9", "#000000"]


def x_of(count, sizes):
    """Where a number of vertices stands."""
    low, high = math.log10(sizes[0]), math.log10(max(sizes[-1], sizes[0] * 10))
    return LEFT + (math.log10(count) - low) / (high - low) * (WIDTH - LEFT - RIGHT)


def y_of(ratio):
    """Where a ratio stands; what is beyond an end stands at it."""
    part = (math.log10(min(MOST, max(LEAST, ratio))) - math.log10(LEAST)) / (math.log10(MOST) - math.log10(LEAST))
    return TOP + (1 - part) * (HEIGHT - TOP - BOTTOM)


def text(x, y, words, anchor="middle", more=""):
    """A text of the picture."""
    return f'<text x="{x:.1f}" y="{y:.1f}" text-anchor="{anchor}"{more}>{words}</text>'


def level(ratio, sizes, more):
    """A level line, and its name."""
    y = y_of(ratio)
    line = f'<line x1="{x_of(sizes[0], sizes):.1f}" y1="{y:.1f}" x2="{WIDTH - RIGHT}" y2="{y:.1f}" {more}/>'
    return [line, text(LEFT - 8, y + 4, f"{ratio:g}", "end")]


def axes(sizes):
    """The levels, that of 1 marked, and the sizes."""
    parts = []
    for ratio in [0.01, 0.1, 10]:
        parts += level(ratio, sizes, 'stroke="#dddddd"')
    parts += level(1, sizes, 'stroke="#444444" stroke-width="1.6"')
    for count in sizes:
        parts.append(text(x_of(count, sizes), HEIGHT - BOTTOM + 18, f"{count:,}"))
    parts.append(text((LEFT + WIDTH - RIGHT) / 2, HEIGHT - 12, "vertices"))
    return parts


def places(heights):
    """Where names stand that would stand at these heights, in their order, but not over each other."""
    found = []
    for height in heights:
        found.append(max(height, found[-1] + LINE_OF_TEXT) if found else height)
    return found


def curve(ratios, sizes, color, more):
    """The ratios of a line, each with a dot."""
    points = [(x_of(count, sizes), y_of(ratios[count])) for count in sizes if ratios.get(count)]
    data = " ".join(f"{x:.1f},{y:.1f}" for x, y in points)
    parts = [f'<polyline points="{data}" fill="none" stroke="{color}" stroke-width="1.6"{more}/>']
    return parts + [f'<circle cx="{x:.1f}" cy="{y:.1f}" r="2.4" fill="{color}"/>' for x, y in points]


def drawing(lines, sizes):
    """The SVG text of lines, each a name and ratios by size; those of large offsets are broken."""
    families = list(dict.fromkeys(name.split(",")[0] for name in lines))
    parts = [
        f'<svg xmlns="http://www.w3.org/2000/svg" width="{WIDTH}" height="{HEIGHT}"'
        f' viewBox="0 0 {WIDTH} {HEIGHT}" font-family="sans-serif" font-size="12">',
        "<title>Our time over the better one of Clipper and Boost.Polygon, by vertices</title>",
        f'<rect width="{WIDTH}" height="{HEIGHT}" fill="white"/>',
        text(LEFT, TOP - 16, "our time over the better one of Clipper and Boost.Polygon (broken: large offsets)", "start"),
        *axes(sizes),
    ]
    ends = []
    for name, ratios in lines.items():
        color = COLORS[families.index(name.split(",")[0]) % len(COLORS)]
        parts += curve(ratios, sizes, color, ' stroke-dasharray="5 3"' if "large" in name else "")
        last = max((count for count in sizes if ratios.get(count)), default=None)
        if last is not None:
            ends.append((y_of(ratios[last]), name.replace(" offset", ""), color))
    ends.sort()
    for place, (_, name, color) in zip(places([y for y, _, _ in ends]), ends):
        parts.append(text(WIDTH - RIGHT + 14, place + 4, name, "start", f' fill="{color}"'))
    return "\n".join([*parts, "</svg>"]) + "\n"
