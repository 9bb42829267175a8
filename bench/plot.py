#!/usr/bin/env python3
"""Draws what `peers.sh` measured, and prints the rows of docs/PERFORMANCE.md.

    plot.py TABLE FOLDER      the table that peers.sh printed, and where ratios.svg and openings.svg go

A ratio says how many times faster, or with how many times fewer bytes, another library did what Stasis did: above 1 it is ahead.
"""
import math
import re
import sys

NAMES = {"stasis": "Stasis", "sqlite": "SQLite", "lmdb": "LMDB", "berkeley": "Berkeley DB"}
OTHERS = [name for name in NAMES if name != "stasis"]
COLOURS = {"stasis": "#222222", "sqlite": "#3b6ea5", "lmdb": "#c8752c", "berkeley": "#5a8f3c"}
OPENING = re.compile(r"opening behind (\d+) commits$")
WIDTH, LEFT, RIGHT, TOP = 860, 300, 70, 70


def read_table(path):
    """The rows of the table: what was measured, its unit, and the value of each library."""
    with open(path, encoding="utf-8") as file:
        lines = [line.rstrip("\n").split("\t") for line in file if line.strip() and not line.startswith("#")]
    names = lines[0][2:]
    return [(row[0], row[1], dict(zip(names, map(float, row[2:])))) for row in lines[1:]]


def ratio(unit, values, name):
    """How many times better another library is than Stasis."""
    if unit.startswith("a second"):
        return values[name] / values["stasis"]
    return values["stasis"] / values[name]


def say(ratio_):
    return f"{ratio_:.0f}" if ratio_ >= 10 else f"{ratio_:.1f}" if ratio_ >= 0.95 else f"{ratio_:.2f}"


def show(value):
    return f"{value:,.1f}" if value < 100 else f"{value:,.0f}"


def text(x, y, words, anchor="start", colour="#222222", size=13):
    return f'<text x="{x:.1f}" y="{y:.1f}" text-anchor="{anchor}" fill="{colour}" font-size="{size}">{words}</text>'


def line(x1, y1, x2, y2, colour="#d0d0d0", width=1):
    return f'<line x1="{x1:.1f}" y1="{y1:.1f}" x2="{x2:.1f}" y2="{y2:.1f}" stroke="{colour}" stroke-width="{width}"/>'


def write(path, height, title, parts):
    head = f'<svg xmlns="http://www.w3.org/2000/svg" width="{WIDTH}" height="{height}" viewBox="0 0 {WIDTH} {height}" font-family="sans-serif">'
    back = f'<rect width="{WIDTH}" height="{height}" fill="#ffffff"/>'
    with open(path, "w", encoding="utf-8") as file:
        file.write("\n".join([head, f"<title>{title}</title>", back, text(16, 26, title, size=16), *parts, "</svg>"]) + "\n")


def legend(names, y):
    parts = []
    for number, name in enumerate(names):
        x = LEFT + 130 * number
        parts += [f'<rect x="{x}" y="{y - 10}" width="12" height="12" fill="{COLOURS[name]}"/>', text(x + 18, y, NAMES[name])]
    return parts


def draw_ratios(rows, path):
    """Bars to both sides of 1, on a logarithmic scale, three for each measure."""
    all_of = [ratio(unit, values, name) for _, unit, values in rows for name in OTHERS]
    least, most = 10 ** math.floor(math.log10(min(all_of))), 10 ** math.ceil(math.log10(max(all_of)))
    scale = (WIDTH - LEFT - RIGHT) / math.log(most / least)
    place = lambda value: LEFT + scale * math.log(value / least)
    height = TOP + 62 * len(rows) + 40
    parts = legend(OTHERS, 50)
    for power in range(round(math.log10(least)), round(math.log10(most)) + 1):
        parts += [line(place(10**power), TOP, place(10**power), height - 36), text(place(10**power), height - 18, f"{10.0 ** power:g}", "middle")]
    for number, (what, unit, values) in enumerate(rows):
        y = TOP + 12 + 62 * number
        words, _, behind = what.partition(", ")
        under = ", ".join(filter(None, [behind, unit.removeprefix("a second ")]))
        parts += [text(LEFT - 12, y + 16, words, "end"), text(LEFT - 12, y + 33, under, "end", "#777777", 11)]
        for place_of, name in enumerate(OTHERS):
            value = ratio(unit, values, name)
            left, right = sorted((place(1), place(value)))
            parts.append(f'<rect x="{left:.1f}" y="{y + 16 * place_of}" width="{max(right - left, 1):.1f}" height="13" fill="{COLOURS[name]}"/>')
            parts.append(text(right + 5 if value >= 1 else left - 5, y + 11 + 16 * place_of, say(value), "start" if value >= 1 else "end", size=11))
    parts.append(line(place(1), TOP, place(1), height - 36, "#222222", 1.5))
    write(path, height, "How many times faster than Stasis (1): to the right the other library is ahead", parts)


def draw_openings(rows, path):
    """Lines on logarithmic scales: the milliseconds of an opening by the commits behind which the program was killed."""
    points = [(int(OPENING.match(what)[1]), values) for what, _, values in rows]
    left, width, height, bottom = 80, WIDTH - 80 - 130, 420, 360
    most_x, least_x = max(it for it, _ in points), min(it for it, _ in points)
    all_of = [value for _, values in points for value in values.values()]
    least, most = 10 ** math.floor(math.log10(min(all_of))), 10 ** math.ceil(math.log10(max(all_of)))
    x = lambda commits: left + width * math.log(commits / least_x) / math.log(most_x / least_x)
    y = lambda value: bottom - (bottom - 50) * math.log(value / least) / math.log(most / least)
    parts = []
    for power in range(round(math.log10(least)), round(math.log10(most)) + 1):
        parts += [line(left, y(10**power), left + width, y(10**power)), text(left - 8, y(10**power) + 4, f"{10.0 ** power:g} ms", "end")]
    parts += [text(x(commits), bottom + 22, f"{commits:,}", "middle") for commits, _ in points]
    parts.append(text(left + width / 2, bottom + 46, "commits of one put since the last checkpoint", "middle"))
    free = math.inf
    for name in sorted(points[0][1], key=lambda name: points[-1][1][name]):
        places = [(x(commits), y(values[name])) for commits, values in points]
        free = min(places[-1][1] + 4, free - 16)
        parts.append(f'<polyline fill="none" stroke="{COLOURS[name]}" stroke-width="2.5" points="{" ".join(f"{a:.1f},{b:.1f}" for a, b in places)}"/>')
        parts += [f'<circle cx="{a:.1f}" cy="{b:.1f}" r="3.5" fill="{COLOURS[name]}"/>' for a, b in places]
        parts.append(text(places[-1][0] + 10, free, NAMES[name], colour=COLOURS[name]))
    write(path, height, "An opening after a crash, in milliseconds of the processor", parts)


def main(table, folder):
    rows = read_table(table)
    draw_ratios([row for row in rows if row[1].startswith("a second")], f"{folder}/ratios.svg")
    draw_openings([row for row in rows if OPENING.match(row[0]) and "processor" in row[1]], f"{folder}/openings.svg")
    for what, unit, values in rows:
        cells = [show(values["stasis"])]
        for name in OTHERS:
            cells.append(show(values[name]) + ("" if unit == "syncs" else f" ({say(ratio(unit, values, name))})"))
        print("| " + " | ".join([f"{what}: {unit}", *cells]) + " |")


if __name__ == "__main__":
    main(*sys.argv[1:])
