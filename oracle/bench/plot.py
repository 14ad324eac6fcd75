"""The plot: how many times as fast as the original and as Rust by hand, by the dimension."""
from math import log

# a call, which of its rows, and how it is drawn
SERIES = (
    ("encode", "", "circle"),
    ("tests", "", "square"),
    ("valid", "chunks of 50", "diamond"),
    ("valid_sq_norm_equal", "chunks of about √d", "triangle"),
    ("accumulate", "", "cross"),
    ("unshard", "", "ring"),
)

STYLE = """
  .card { fill: #ffffff } text { fill: #24292f; font: 13px sans-serif } .title { font-size: 16px; font-weight: bold }
  .grid { stroke: #d0d7de } .even { stroke: #24292f; stroke-width: 1.5 } .line { fill: none; stroke-width: 2 }
  .s0 { color: #0969da } .s1 { color: #cf222e } .s2 { color: #1a7f37 }
  .s3 { color: #8250df } .s4 { color: #9a6700 } .s5 { color: #bf3989 }
  @media (prefers-color-scheme: dark) {
    .card { fill: #0d1117 } text { fill: #e6edf3 } .grid { stroke: #30363d } .even { stroke: #e6edf3 }
    .s0 { color: #58a6ff } .s1 { color: #ff7b72 } .s2 { color: #3fb950 }
    .s3 { color: #bc8cff } .s4 { color: #d29922 } .s5 { color: #f778ba }
  }
"""

WIDTH, HEIGHT = 940, 530
TOP, BOTTOM = 90, 390
PANELS = ((70, 450), (540, 920))
TICKS = (0.2, 0.5, 1, 2, 5, 10, 20, 50, 100)

MARKS = {
    "circle": '<circle cx="{x}" cy="{y}" r="4.5" fill="currentColor"/>',
    "square": '<rect x="{x}" y="{y}" width="9" height="9" transform="translate(-4.5 -4.5)" fill="currentColor"/>',
    "diamond": '<path transform="translate({x} {y})" d="M0 -6L6 0L0 6L-6 0Z" fill="currentColor"/>',
    "triangle": '<path transform="translate({x} {y})" d="M0 -6L6 5L-6 5Z" fill="currentColor"/>',
    "cross": '<path transform="translate({x} {y})" d="M-5 -5L5 5M-5 5L5 -5" stroke="currentColor" stroke-width="2.5"/>',
    "ring": '<circle class="card" cx="{x}" cy="{y}" r="4.5" stroke="currentColor" stroke-width="2.5"/>',
}


def scale(low, high, start, end):
    """A logarithmic axis."""
    return lambda x: start + (end - start) * log(x / low) / log(high / low)


def mark(shape, x, y):
    return MARKS[shape].format(x=f"{x:.1f}", y=f"{y:.1f}")


def text(x, y, words, anchor="middle", more=""):
    return f'<text x="{x:.1f}" y="{y:.1f}" text-anchor="{anchor}"{more}>{words}</text>'


def rows_of(name, which, rows, tests):
    """The rows of one series: of the circuits, those with longer chunks, and a report's own vector."""
    mine = [r for r in rows if r.name == name and r.tests in (None, tests) and "share" not in r.note]
    return [r for r in mine if not which or r.note != "chunks of 1"]


def points(rows, tests, way):
    """For each series, how many times as fast as a way, by the dimension."""
    for name, which, _ in SERIES:
        mine = [r for r in rows_of(name, which, rows, tests) if way(r)]
        yield [(r.length, way(r).median) for r in mine]


def panel(heading, series, ticks, dimensions, left, right):
    x = scale(dimensions[0], dimensions[-1], left + 15, right - 15)
    y = scale(ticks[0], ticks[-1], BOTTOM, TOP)
    yield text((left + right) / 2, TOP - 16, heading)
    for tick in ticks:
        kind = "even" if tick == 1 else "grid"
        yield f'<path class="{kind}" d="M{left} {y(tick):.1f}H{right}"/>'
        yield text(left - 8, y(tick) + 4.5, f"{tick:g}", "end")
    for d in dimensions:
        yield f'<path class="grid" d="M{x(d):.1f} {TOP}V{BOTTOM}"/>'
        yield text(x(d), BOTTOM + 20, d)
    yield text((left + right) / 2, BOTTOM + 42, "dimension d")
    for i, line in enumerate(series):
        places = [(x(d), y(times)) for d, times in line]
        path = "L".join(f"{a:.1f} {b:.1f}" for a, b in places)
        marks = "".join(mark(SERIES[i][2], a, b) for a, b in places)
        yield f'<g class="s{i}"><path class="line" stroke="currentColor" d="M{path}"/>{marks}</g>' if places else ""


def legend():
    for i, (name, which, shape) in enumerate(SERIES):
        x, y = PANELS[i % 2][0], BOTTOM + 76 + 24 * (i // 2)
        words = f"{name}, {which}" if which else name
        yield f'<g class="s{i}">{mark(shape, x, y - 4.5)}</g>' + text(x + 14, y, words, "start")


def picture(rows, tests):
    calls = [r for r in rows if r.kind == "call"]
    dimensions = sorted({r.length for r in calls if r.name == "encode"})
    pairs = (("the original's time / ours", lambda r: r.to_original), ("time by hand / ours", lambda r: r.to_by_hand))
    series = [list(points(calls, tests, way)) for _, way in pairs]
    times = [t for panel_series in series for line in panel_series for _, t in line] + [1]
    below = max((t for t in TICKS if t <= min(times)), default=TICKS[0])
    above = min((t for t in TICKS if t >= max(times)), default=TICKS[-1])
    ticks = [t for t in TICKS if below <= t <= above]
    title = f"How many times as fast, at T = {tests}: above 1, ours takes less time"
    parts = [
        f'<svg xmlns="http://www.w3.org/2000/svg" viewBox="0 0 {WIDTH} {HEIGHT}" width="{WIDTH}" height="{HEIGHT}">',
        f"<style>{STYLE}</style>",
        f'<rect class="card" width="{WIDTH}" height="{HEIGHT}"/>',
        text(WIDTH / 2, 34, title, more=' class="title"'),
    ]
    for (heading, _), lines, (left, right) in zip(pairs, series, PANELS):
        parts += panel(heading, lines, ticks, dimensions, left, right)
    return "\n".join([*parts, *legend(), "</svg>", ""])
