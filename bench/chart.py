#!/usr/bin/env python3
"""Draws how time grows: chart.py OUT ROUNDS. Three panels with logarithmic axes, a line for each program."""
import math
import sys

from measured import PROGRAMS, SERIES, measured

LOOKS = {"rattle": ("Rattle", "#0b6e4f"), "plain": ("plain Rust", "#1f4e9e"), "rgrow": ("rgrow's Rust", "#b3391f")}
WIDE, HIGH, LEFT, TOP, GAP = 300, 330, 92, 74, 34
TIMES = {1e3: "1 µs", 1e4: "10 µs", 1e5: "100 µs", 1e6: "1 ms", 1e7: "10 ms", 1e8: "100 ms", 1e9: "1 s", 1e10: "10 s"}


class Axis:
    """A logarithmic scale from the least of some values to the greatest, with a little room, on so many points."""

    def __init__(self, values, start, length, room):
        low, high = math.log(min(values)), math.log(max(values))
        self.low, self.high = low - room * (high - low), high + room * (high - low)
        self.start, self.length = start, length

    def at(self, value):
        return self.start + self.length * (math.log(value) - self.low) / (self.high - self.low)

    def holds(self, value):
        return self.low <= math.log(value) <= self.high

    def ticks(self):
        """The powers of ten, and 2 and 5 between them where there are few."""
        powers = range(int(self.low / math.log(10)) - 1, int(self.high / math.log(10)) + 2)
        tens = [10**power for power in powers if power >= 0 and self.holds(10**power)]
        if len(tens) > 2:
            return tens
        return [step * 10**power for power in powers if power >= 0 for step in (1, 2, 5) if self.holds(step * 10**power)]


def text(x, y, words, size=13, anchor="middle", colour="#222", extra=""):
    return f'<text x="{x:.1f}" y="{y:.1f}" font-size="{size}" text-anchor="{anchor}" fill="{colour}"{extra}>{words}</text>'


def line(x1, y1, x2, y2, colour, width=1):
    return f'<line x1="{x1:.1f}" y1="{y1:.1f}" x2="{x2:.1f}" y2="{y2:.1f}" stroke="{colour}" stroke-width="{width}"/>'


def mark(program, x, y):
    colour = LOOKS[program][1]
    if program == "rattle":
        return f'<circle cx="{x:.1f}" cy="{y:.1f}" r="4.5" fill="{colour}"/>'
    if program == "plain":
        return f'<rect x="{x - 4:.1f}" y="{y - 4:.1f}" width="8" height="8" fill="{colour}"/>'
    return f'<path d="M{x:.1f} {y - 5.5:.1f} l5.5 9.5 h-11 z" fill="{colour}"/>'


def panel(left, name, some, upright, first):
    what, fixed, read = SERIES[name]
    along = Axis([read(s) for s in some], left, WIDE, 0.05)
    parts = [f'<rect x="{left}" y="{TOP}" width="{WIDE}" height="{HIGH}" fill="#fff" stroke="#999"/>']
    for tick in upright.ticks():
        y = upright.at(tick)
        parts.append(line(left, y, left + WIDE, y, "#e2e2e2"))
        if first:
            parts.append(text(left - 8, y + 4, TIMES[tick], anchor="end"))
    for tick in along.ticks():
        x = along.at(tick)
        parts.append(line(x, TOP, x, TOP + HIGH, "#eeeeee"))
        parts.append(text(x, TOP + HIGH + 18, f"{tick:,}"))
    parts.append(text(left + WIDE / 2, TOP + HIGH + 40, what, 14))
    parts.append(text(left + WIDE / 2, TOP - 10, fixed, 13, colour="#555"))
    for program in PROGRAMS:
        points = [(along.at(read(s)), upright.at(s.least[program])) for s in some]
        path = " ".join(f"{x:.1f},{y:.1f}" for x, y in points)
        parts.append(f'<polyline points="{path}" fill="none" stroke="{LOOKS[program][1]}" stroke-width="2"/>')
        parts += [mark(program, x, y) for x, y in points]
    return parts


def legend(x):
    parts = []
    for program in PROGRAMS:
        name, colour = LOOKS[program]
        parts += [line(x, 26, x + 34, 26, colour, 2), mark(program, x + 17, 26), text(x + 42, 31, name, 14, "start")]
        x += 150
    return parts


def main():
    all = measured(sys.argv[1], int(sys.argv[2]))
    series = {name: sorted((s for s in all if s.series == name), key=SERIES[name][2]) for name in SERIES}
    times = [s.least[program] for some in series.values() for s in some for program in PROGRAMS]
    upright = Axis(times, TOP + HIGH, -HIGH, 0.04)
    wide, high = LEFT + len(series) * (WIDE + GAP), TOP + HIGH + 56
    parts = [
        f'<svg xmlns="http://www.w3.org/2000/svg" viewBox="0 0 {wide} {high}" width="{wide}" height="{high}" font-family="sans-serif">',
        "<title>Time of a least-energy run against bays, legal strands and rows of the ledger</title>",
        f'<rect width="{wide}" height="{high}" fill="#fff"/>',
        text(20, TOP + HIGH / 2, "processor time of one run", 14, extra=f' transform="rotate(-90 20 {TOP + HIGH / 2})"'),
        *legend(LEFT),
    ]
    for at, (name, some) in enumerate(series.items()):
        parts += panel(LEFT + at * (WIDE + GAP), name, some, upright, at == 0)
    print("\n".join(parts + ["</svg>"]))


main()
