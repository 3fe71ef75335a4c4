"""The chart of docs/PERF.md: for each row of bench/figures.txt the better peer's time over ours."""
import math
from itertools import groupby

from .bench import ratio

WIDTH, LEFT, RIGHT, LOWEST, HIGHEST = 800, 352, 752, 0.78, 5.0
ROW, HEADING, TOP, BOTTOM = 17, 46, 76, 14
TICKS = (0.8, 1, 1.5, 2, 3, 4, 5)
TITLES = {
    "program": "The program, 64 MB of messages",
    "reading": "Reading by views, a million words",
    "building": "Building",
    "classic": "The classic benchmarks",
}
# Blue and orange of one lightness each differ for every kind of colour blindness; the shapes differ, too.
THEMES = {
    "light": dict(back="#ffffff", text="#1f2328", faint="#59636e", grid="#d8dee4", one="#1f2328", faster="#0072b2", slower="#c24e00"),
    "dark": dict(back="#0d1117", text="#e6edf3", faint="#9ba4ae", grid="#30363d", one="#e6edf3", faster="#56b4e9", slower="#f0a030"),
}


def place(value):
    """Where a ratio is from left to right: twice as fast is as far from 1 as half as fast."""
    return LEFT + (RIGHT - LEFT) * math.log(value / LOWEST) / math.log(HIGHEST / LOWEST)


def text(x, y, said, fill, anchor="start", size=12, weight="normal"):
    said = said.replace("`", "").replace("&", "&amp;")
    return f'<text x="{x:.1f}" y="{y:.1f}" fill="{fill}" font-size="{size}" font-weight="{weight}" text-anchor="{anchor}">{said}</text>'


def line(x1, y1, x2, y2, stroke, width=1):
    return f'<line x1="{x1:.1f}" y1="{y1:.1f}" x2="{x2:.1f}" y2="{y2:.1f}" stroke="{stroke}" stroke-width="{width}"/>'


def mark(value, y, colours):
    """A disc where ours is as fast or faster, and a square where it is slower."""
    x = place(value)
    if round(value, 2) >= 1:
        return f'<circle cx="{x:.1f}" cy="{y:.1f}" r="4.5" fill="{colours["faster"]}"/>'
    return f'<rect x="{x - 4:.1f}" y="{y - 4:.1f}" width="8" height="8" fill="{colours["slower"]}"/>'


def row_of(row, y, colours):
    value = ratio(row)
    colour = colours["faster" if round(value, 2) >= 1 else "slower"]
    ends = [float(each) for each in row.sets] or [value]
    yield line(place(1), y, place(value), y, colour, 2.5)
    if row.sets:
        yield line(place(min(ends)), y, place(max(ends)), y, colours["faint"])
        yield from (line(place(end), y - 4, place(end), y + 4, colours["faint"]) for end in (min(ends), max(ends)))
    yield mark(value, y, colours)
    # a rim as the ground has it keeps the number apart from the lines of the scale
    rim = f' stroke="{colours["back"]}" stroke-width="4" paint-order="stroke"'
    yield text(place(max(ends + [value, 1])) + 9, y + 4, f"{value:.2f}", colours["text"]).replace("<text", "<text" + rim)
    yield text(LEFT - 14, y + 4, row.name, colours["text"], "end")


def section(name, rows, y, colours):
    """A table's part of the chart, which begins at y, and where it ends."""
    drawn, end = [text(14, y + 18, TITLES[name], colours["text"], size=14, weight="bold")], y + HEADING + ROW * len(rows)
    for tick in TICKS:
        is_one = tick == 1
        drawn.append(line(place(tick), y + 28, place(tick), end, colours["one" if is_one else "grid"], 1.5 if is_one else 1))
        drawn.append(text(place(tick), y + 22, f"{tick:.1f}" if tick < 2 else str(tick), colours["faint"], "middle", 11))
    y += HEADING - ROW / 2
    for number, (group, members) in enumerate(groupby(rows, lambda row: row.group)):
        if number:
            drawn.append(line(14, y - ROW / 2 + 4, RIGHT, y - ROW / 2 + 4, colours["grid"]))
        y += ROW / 4
        drawn.append(text(14, y + 4, group, colours["faint"]))
        for row in members:
            drawn += row_of(row, y, colours)
            y += ROW
        y -= ROW / 4
    return drawn, end


def draw(rows, theme):
    """The chart as SVG, for light or for dark backgrounds."""
    colours = THEMES[theme]
    drawn = [
        text(14, 26, "Processor time of the better peer over ours", colours["text"], size=16, weight="bold"),
        text(14, 46, "Peers: the C++ library and the Rust crate. At 2 ours takes half the better one's time.", colours["faint"]),
        mark(1.0001, 0, colours).replace(f'cx="{place(1.0001):.1f}" cy="0.0"', 'cx="20" cy="61"'),
        text(32, 65, "ours is faster", colours["faint"]),
        mark(0.9, 0, colours).replace(f'x="{place(0.9) - 4:.1f}" y="-4.0"', 'x="136" y="57"'),
        text(152, 65, "ours is slower", colours["faint"]),
    ]
    if any(row.sets for row in rows):
        drawn += [line(258, 61, 286, 61, colours["faint"]), line(258, 57, 258, 65, colours["faint"]), line(286, 57, 286, 65, colours["faint"]),
                  text(294, 65, "range over several sets of runs", colours["faint"])]
    y = TOP
    for name, members in groupby(rows, lambda row: row.table):
        part, y = section(name, list(members), y, colours)
        drawn += part
    y += BOTTOM
    head = f'<svg xmlns="http://www.w3.org/2000/svg" width="{WIDTH}" height="{y:.0f}" viewBox="0 0 {WIDTH} {y:.0f}"'
    style = 'font-family="DejaVu Sans, Verdana, Helvetica, Arial, sans-serif"'
    title = "<title>The better peer's processor time over ours, row by row</title>"
    back = f'<rect width="{WIDTH}" height="{y:.0f}" fill="{colours["back"]}"/>'
    return "\n".join([f"{head} {style}>", title, back, *drawn, "</svg>\n"])
