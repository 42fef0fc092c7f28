"""Draws bench/figures.svg from the measured values in bench/figures.csv.

Run by hand, whenever a value in the table changes: python3 -B bench/plot.py [TABLE [PICTURE]]

A row `time` has the workers as its x and the wall time of `apply`; a row `memory` has the blocks and the peak of memory.
`series` is the program, `group` the conflicts in 100 batches. Each panel shows one measure of one group.
"""

import csv
import math
import os
import sys

sys.path.insert(0, os.path.join(os.path.dirname(__file__), "..", "tools"))

import usage

HERE = os.path.dirname(os.path.abspath(__file__))

# The picture, and where the panels lie in it: left edges, top, width and height of the drawn part.
WIDTH, HEIGHT = 1080, 400
LEFTS, TOP, PANEL_WIDTH, PANEL_HEIGHT = (70, 300, 530, 830), 100, 190, 220
# A point lies at least this far from the sides of its panel, so that its value fits beside it.
MARGIN = 42

# The color and the dashes of each series, and how far below a point in the middle its value is written.
STYLES = {"sawval": ("#1f5fa8", "none", -10), "plain program": ("#c2571a", "6 4", 18)}
HEADS = {"time": "{} of 100 batches conflict", "memory": "memory, {} of 100 conflict"}
BELOW = {"time": "workers", "memory": "blocks in the chain"}
BESIDE = {"time": "wall time, ms", "memory": "peak of memory, MB"}


def text(x, y, words, anchor="middle", size=12, more=""):
    return f'<text x="{x:.1f}" y="{y:.1f}" text-anchor="{anchor}" font-size="{size}"{more}>{words}</text>'


def line(x1, y1, x2, y2, color):
    return f'<line x1="{x1:.1f}" y1="{y1:.1f}" x2="{x2:.1f}" y2="{y2:.1f}" stroke="{color}"/>'


def step_for(most):
    """The distance of the lines of a scale from 0 to this value: 1, 2 or 5 times a power of ten."""
    least = most / 4
    power = 10 ** math.floor(math.log10(least))
    return next(power * each for each in (1, 2, 5, 10) if power * each >= least)


def panel(left, measure, group, rows, most, named):
    """One panel: its scale, and a line with its values for each series. The scale is written where it is `named`."""
    bottom, right = TOP + PANEL_HEIGHT, left + PANEL_WIDTH
    step = step_for(most)
    top_value = step * math.ceil(most / step)
    places = sorted({x for _, x, _ in rows})
    width = (PANEL_WIDTH - 2 * MARGIN) / (math.log(places[-1] / places[0]) or 1)

    def at(x, value):
        return left + MARGIN + width * math.log(x / places[0]), bottom - PANEL_HEIGHT * value / top_value

    out = [text((left + right) / 2, TOP - 14, HEADS[measure].format(group), size=13, more=' font-weight="bold"')]
    for index in range(round(top_value / step) + 1):
        y = at(places[0], index * step)[1]
        out.append(line(left, y, right, y, "#d5d5d5" if index else "#444444"))
        if named:
            out.append(text(left - 8, y + 4, f"{index * step:g}", "end"))
    if named:
        middle = TOP + PANEL_HEIGHT / 2
        out.append(text(left - 48, middle, BESIDE[measure], more=f' transform="rotate(-90 {left - 48} {middle})"'))
    for x in places:
        out.append(text(at(x, 0)[0], bottom + 18, f"{x:g}"))
    out.append(text((left + right) / 2, bottom + 38, BELOW[measure]))
    for series, (color, dashes, beside) in STYLES.items():
        points = sorted((x, value) for name, x, value in rows if name == series)
        path = " ".join(f"{x:.1f},{y:.1f}" for x, y in (at(*point) for point in points))
        out.append(f'<polyline points="{path}" fill="none" stroke="{color}" stroke-width="2" stroke-dasharray="{dashes}"/>')
        for point in points:
            x, y = at(*point)
            out.append(f'<circle cx="{x:.1f}" cy="{y:.1f}" r="3.5" fill="{color}"/>')
            places_of_value = {points[0]: (x - 8, y + 4, "end"), points[-1]: (x + 8, y + 4, "start")}
            value_x, value_y, anchor = places_of_value.get(point, (x, y + beside, "middle"))
            out.append(text(value_x, value_y, f"{point[1]:g}", anchor, more=f' fill="{color}"'))
    return out


def legend():
    out, x = [], LEFTS[0]
    for series, (color, dashes, _) in STYLES.items():
        out.append(f'<line x1="{x}" y1="52" x2="{x + 34}" y2="52" stroke="{color}" stroke-width="2" stroke-dasharray="{dashes}"/>')
        out.append(text(x + 42, 56, series, "start", 13))
        x += 120
    return out


def picture(table):
    """The lines of the picture of these rows."""
    panels = {}
    for row in table:
        panel_rows = panels.setdefault((row["measure"], int(row["group"])), [])
        panel_rows.append((row["series"], float(row["x"]), float(row["value"])))
    if len(panels) > len(LEFTS):
        sys.exit(f"{len(panels)} panels, and room for {len(LEFTS)}")
    sources = {(row["measure"], f"{row['commit']}, {row['date']}") for row in table}
    told = "; ".join(f"{measure}: {source}" for measure, source in sorted(sources, reverse=True))
    out = [
        f'<svg xmlns="http://www.w3.org/2000/svg" viewBox="0 0 {WIDTH} {HEIGHT}" font-family="sans-serif" fill="#222222">',
        f'<rect width="{WIDTH}" height="{HEIGHT}" fill="#ffffff"/>',
        text(LEFTS[0], 28, "apply: time by workers (20,000 transactions), memory by length of the chain", "start", 16),
        *legend(),
    ]
    before = None
    for left, ((measure, group), rows) in zip(LEFTS, panels.items()):
        most = max(float(row["value"]) for row in table if row["measure"] == measure)
        out += panel(left, measure, group, rows, most, measure != before)
        before = measure
    out.append(text(LEFTS[0], HEIGHT - 14, f"Measured ({told}). Both scales of x are logarithmic.", "start", 11))
    return [*out, "</svg>", ""]


def main():
    usage.words(__doc__, 0, 2)
    table = sys.argv[1] if len(sys.argv) > 1 else os.path.join(HERE, "figures.csv")
    into = sys.argv[2] if len(sys.argv) > 2 else os.path.join(HERE, "figures.svg")
    with open(table, newline="", encoding="utf-8") as file:
        rows = list(csv.DictReader(file))
    with open(into, "w", encoding="utf-8") as file:
        file.write("\n".join(picture(rows)))


if __name__ == "__main__":
    main()
