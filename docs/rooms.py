#!/usr/bin/env python3
"""Draws the rooms of the house and their arrows: docs/rooms.py > docs/rooms.svg, at the top of the project.

A room is the first word of its crates' names; the ground floor, the doors and the programs have boxes of their own. It stands above every room that it uses; an
arrow goes from a room to one that uses it, left out where a longer way leads there too. The picture comes from
crates.txt alone. Two rooms that use each other are a fault of the house, and the script says so.
"""
import sys
from html import escape

KIT = {"check", "io"}
PLACES = {
    "floats": "ground floor", "sets": "ground floor", "units": "ground floor",
    "utils": "doors", "sdc_common": "doors", "sdc2d": "doors", "sdc2d_thermo": "doors",
    "planner": "planner", "answers": "answers", "cases": "cases",
}
# what is written into a box in place of how many crates it holds
SAID = {
    "ground floor": "units, floats, sets", "doors": "utils, sdc_common, sdc2d, sdc2d_thermo",
    "planner": "program", "answers": "program", "cases": "program",
}
WIDTH, HEIGHT, ACROSS, DOWN = 224, 48, 240, 92


def room(crate):
    return PLACES.get(crate, crate.split("_")[0])


def read(path):
    """Each room's count of crates, and which rooms it uses."""
    counts, uses = {}, {}
    for line in open(path):
        name, colon, rest = line.split("#")[0].partition(":")
        if not colon:
            continue
        here = room(name.split()[0])
        counts[here] = counts.get(here, 0) + 1
        below = {room(other) for other in rest.split() if other not in KIT}
        uses.setdefault(here, set()).update(below - {here})
    return counts, uses


def heights(uses):
    """How far above the ground each room stands: one more than the highest that it uses."""
    found = {}

    def height(name, path):
        if name in path:
            sys.exit("rooms.py: these use each other: " + " ".join(path[path.index(name):]))
        if name not in found:
            found[name] = 1 + max((height(other, path + [name]) for other in uses[name]), default=-1)
        return found[name]

    for name in uses:
        height(name, [])
    return found


def reaches(uses, start, end):
    return any(other == end or reaches(uses, other, end) for other in uses[start])


def arrows(uses):
    """Pairs (used, user) without those that a longer way joins too."""
    return sorted(
        (below, above)
        for above, used in uses.items()
        for below in used
        if not any(other != below and reaches(uses, other, below) for other in used)
    )


def laid(high, pairs):
    """Rows of boxes and of bends, from the ground up, and the ways of the arrows: a bend stands in each row that a long arrow
    passes. A few sweeps put what belongs together below one another."""
    rows = [sorted(name for name in high if high[name] == k) for k in range(max(high.values()) + 1)]
    ways = []
    for below, above in pairs:
        way = [below] + [(below, above, k) for k in range(high[below] + 1, high[above])] + [above]
        for bend in way[1:-1]:
            rows[bend[2]].append(bend)
        ways.append(way)
    near = {}
    for way in ways:
        for one, other in zip(way, way[1:]):
            near.setdefault(one, []).append(other)
            near.setdefault(other, []).append(one)
    middle = {}

    def place(row):
        for i, item in enumerate(row):
            middle[item] = i - (len(row) - 1) / 2

    for row in rows:
        place(row)
    for _ in range(8):
        for row in rows:
            row.sort(key=lambda item: (sum(middle[other] for other in near[item]) / len(near[item]), str(item)))
            place(row)
    return rows, ways, middle


def draw(counts, uses):
    rows, ways, middle = laid(heights(uses), arrows(uses))
    wide = max(len(row) for row in rows)
    total = (wide * ACROSS + 20, len(rows) * DOWN)

    def point(item):
        row = next(k for k, items in enumerate(rows) if item in items)
        return total[0] / 2 + middle[item] * ACROSS, total[1] - (row + 0.5) * DOWN

    out = [
        f'<svg xmlns="http://www.w3.org/2000/svg" viewBox="0 0 {total[0]} {total[1]}" font-family="sans-serif">',
        '<defs><marker id="tip" viewBox="0 0 8 8" refX="8" refY="4" markerWidth="7" markerHeight="7" orient="auto">'
        '<path d="M0 0 8 4 0 8z" fill="#456"/></marker></defs>',
        f'<rect width="{total[0]}" height="{total[1]}" fill="#fff"/>',
    ]
    for way in ways:
        x, y = point(way[0])
        line = f"M{x:g} {y - HEIGHT / 2:g}"
        y -= HEIGHT / 2
        for item in way[1:]:
            nx, ny = point(item)
            ny += HEIGHT / 2 + 3 if item == way[-1] else 0
            line += f" C{x:g} {y - 26:g} {nx:g} {ny + 26:g} {nx:g} {ny:g}"
            x, y = nx, ny
        out.append(f'<path d="{line}" fill="none" stroke="#456" stroke-width="1.4" marker-end="url(#tip)"/>')
    for name in sorted(counts):
        x, y = point(name)
        said = SAID.get(name, f"{counts[name]} crates")
        out.append(f'<rect x="{x - WIDTH / 2:g}" y="{y - HEIGHT / 2:g}" width="{WIDTH}" height="{HEIGHT}" rx="6" '
                   'fill="#eef3f7" stroke="#456"/>')
        out.append(f'<text x="{x:g}" y="{y - 3:g}" text-anchor="middle" font-size="16">{escape(name)}</text>')
        out.append(f'<text x="{x:g}" y="{y + 15:g}" text-anchor="middle" font-size="10" fill="#456">{escape(said)}</text>')
    return "\n".join(out + ["</svg>"]) + "\n"


sys.stdout.write(draw(*read("crates.txt")))
