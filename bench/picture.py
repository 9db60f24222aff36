"""The picture of docs/SPEED.md: bars of instructions a frame, and lines of nanoseconds an order, as SVG."""
import math

WIDTH, HEIGHT = 1000, 400
TOP, BOTTOM = 56, 330
BARS_LEFT, BARS_RIGHT = 196, 468
LINES_LEFT, LINES_RIGHT = 608, 884
NEAREST = 14

STYLE = """
text { font: 12px system-ui, sans-serif; fill: #1f2328 }
.title { font-weight: bold }
.back { fill: #ffffff }
.grid { stroke: #d8dee4 }
.axis { stroke: #59636e }
.bar { fill: #2f6fb3 }
.line { fill: none; stroke-width: 2 }
.s0 { stroke: #2f6fb3 } .s1 { stroke: #b8500a } .s2 { stroke: #1f7a45 }
.d0 { fill: #2f6fb3 } .d1 { fill: #b8500a } .d2 { fill: #1f7a45 }
@media (prefers-color-scheme: dark) {
  text { fill: #e6edf3 }
  .back { fill: #0d1117 }
  .grid { stroke: #30363d }
  .axis { stroke: #9198a1 }
  .bar { fill: #5a9be0 }
  .s0 { stroke: #5a9be0 } .s1 { stroke: #e8904a } .s2 { stroke: #56b37f }
  .d0 { fill: #5a9be0 } .d1 { fill: #e8904a } .d2 { fill: #56b37f }
}
"""


def text(x, y, words, anchor="start", more=""):
    return f'<text x="{x:.1f}" y="{y:.1f}" text-anchor="{anchor}"{more}>{words}</text>'


def line(kind, from_x, from_y, to_x, to_y):
    return f'<line class="{kind}" x1="{from_x:.1f}" y1="{from_y:.1f}" x2="{to_x:.1f}" y2="{to_y:.1f}"/>'


def ticks(most):
    """Round numbers from 0, at most seven of them, of which the last reaches the greatest value."""
    unit = 10 ** math.floor(math.log10(most / 5))
    step = next(times * unit for times in (1, 2, 5, 10) if times * unit * 6 >= most)
    return [step * place for place in range(math.ceil(most / step) + 1)]


def bars(rows, note):
    """A bar for each name and its instructions, and what isn't drawn."""
    marks = ticks(max(value for _, value in rows))
    each = (BOTTOM - TOP) / len(rows)
    scale = (BARS_RIGHT - BARS_LEFT) / marks[-1]
    parts = [text(BARS_LEFT, 30, "A frame of each stream", more=' class="title"')]
    parts += [line("grid", BARS_LEFT + mark * scale, TOP, BARS_LEFT + mark * scale, BOTTOM) for mark in marks]
    parts += [text(BARS_LEFT + mark * scale, BOTTOM + 20, f"{mark:,.0f}", "middle") for mark in marks]
    for place, (name, value) in enumerate(rows):
        y, size = TOP + each * place, value * scale
        parts.append(f'<rect class="bar" x="{BARS_LEFT}" y="{y + each * 0.2:.1f}" width="{size:.1f}" height="{each * 0.6:.1f}"/>')
        parts.append(text(BARS_LEFT - 8, y + each / 2 + 4, name, "end"))
        parts.append(text(BARS_LEFT + size + 6, y + each / 2 + 4, f"{value:,.0f}"))
    parts.append(line("axis", BARS_LEFT, TOP, BARS_LEFT, BOTTOM))
    parts.append(text((BARS_LEFT + BARS_RIGHT) / 2, BOTTOM + 40, "processor instructions a frame", "middle"))
    return parts + [text((BARS_LEFT + BARS_RIGHT) / 2, BOTTOM + 58, note, "middle")]


def place_of(sizes):
    """Where a size lies on the logarithmic axis."""
    first, last = math.log(sizes[0]), math.log(sizes[-1])
    return lambda size: LINES_LEFT + (LINES_RIGHT - LINES_LEFT) * (math.log(size) - first) / ((last - first) or 1)


def height_of(most):
    """Where a value lies on the upright axis."""
    return lambda value: BOTTOM - (BOTTOM - TOP) * value / most


def apart(heights):
    """The same heights, each moved down until it is as far below the one above as a line of text."""
    moved, above = {}, -math.inf
    for place in sorted(range(len(heights)), key=heights.__getitem__):
        above = moved[place] = max(heights[place], above + NEAREST)
    return moved


def axes(sizes, marks, across, up):
    parts = [text(LINES_LEFT, 30, "An order, by the size of the journal", more=' class="title"')]
    parts += [line("grid", LINES_LEFT, up(mark), LINES_RIGHT, up(mark)) for mark in marks]
    parts += [text(LINES_LEFT - 8, up(mark) + 4, f"{mark:,.0f}", "end") for mark in marks]
    parts += [line("axis", across(size), BOTTOM, across(size), BOTTOM + 5) for size in sizes]
    parts += [text(across(size), BOTTOM + 20, f"{size:,.0f}", "middle") for size in sizes]
    middle = (TOP + BOTTOM) / 2
    return parts + [
        line("axis", LINES_LEFT, BOTTOM, LINES_RIGHT, BOTTOM),
        line("axis", LINES_LEFT, TOP, LINES_LEFT, BOTTOM),
        text((LINES_LEFT + LINES_RIGHT) / 2, BOTTOM + 40, "entries of the journal, on a logarithmic axis", "middle"),
        text(LINES_LEFT - 52, middle, "nanoseconds an order", "middle", f' transform="rotate(-90 {LINES_LEFT - 52} {middle})"'),
    ]


def lines(sizes, series):
    """A line for each name and its nanoseconds, size by size."""
    marks = ticks(max(max(values) for _, values in series))
    across, up = place_of(sizes), height_of(marks[-1])
    heights = apart([up(values[-1]) for _, values in series])
    parts = axes(sizes, marks, across, up)
    for place, (name, values) in enumerate(series):
        points = [(across(size), up(value)) for size, value in zip(sizes, values)]
        path = " ".join(f"{x:.1f},{y:.1f}" for x, y in points)
        parts.append(f'<polyline class="line s{place}" points="{path}"/>')
        parts += [f'<circle class="d{place}" cx="{x:.1f}" cy="{y:.1f}" r="3.5"/>' for x, y in points]
        parts.append(text(LINES_RIGHT + 10, heights[place] + 4, name))
    return parts


def picture(frames, note, sizes, orders):
    """Both panels. `frames` has a name and its instructions, `orders` a name and its nanoseconds for each of the sizes."""
    parts = [
        f'<svg xmlns="http://www.w3.org/2000/svg" viewBox="0 0 {WIDTH} {HEIGHT}" width="{WIDTH}" height="{HEIGHT}" role="img">',
        "<title>Instructions a frame by stream, and nanoseconds an order by the entries of the journal</title>",
        f"<style>{STYLE}</style>",
        f'<rect class="back" width="{WIDTH}" height="{HEIGHT}"/>',
    ]
    return "\n".join(parts + bars(frames, note) + lines(sizes, orders) + ["</svg>", ""])
