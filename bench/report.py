#!/usr/bin/env python3
"""Writes the table of what was measured: report.py OUT ROUNDS LOAD. OUT holds the systems and each program's lines."""
import datetime
import math
import os
import subprocess
import sys

from measured import PROGRAMS, SERIES, mean, measured


def said(*command):
    return subprocess.run(command, capture_output=True, text=True, check=True).stdout.strip()


def processor():
    with open("/proc/cpuinfo") as text:
        named = [line.split(":", 1)[1].strip() for line in text if line.startswith("model name")]
    return named[0] if named else said("uname", "-m")


def kit():
    """The kit's own line."""
    return said("rt", "version")


def span(low, high):
    return str(low) if low == high else f"{low} to {high}"


def time(ns):
    for unit, size in (("s", 1e9), ("ms", 1e6)):
        if ns >= size:
            return f"{ns / size:.3g} {unit}"
    return f"{ns / 1e3:.3g} µs"


def table(head, rows):
    return "\n".join(["| " + " | ".join(row) + " |" for row in (head, ["---"] * len(head), *rows)])


def systems(all):
    head = ["", "rows", "columns", "legal strands", "need", "candidates", "Rattle", "plain", "rgrow", "Rattle / plain", "rgrow / plain"]
    rows = []
    for at, s in enumerate(all):
        sizes = [str(at), str(s.rows), str(s.cols), span(*s.legal), f"{s.need:,}", f"{s.candidates:,}"]
        times = [f"{s.each('rattle'):.2f}", f"{s.each('plain'):.2f}", f"{s.each('rgrow'):.0f}"]
        rows.append(sizes + times + [f"{s.ratio('rattle'):.2f}", f"{s.ratio('rgrow'):.0f}"])
    return table(head, rows)


def means(all):
    groups = [
        ("all fifty", all),
        ("4×12", [s for s in all if (s.rows, s.cols) == (4, 12)]),
        ("a need of 10,000 rows or more", [s for s in all if s.need >= 10_000]),
        ("a need of less than 10,000 rows", [s for s in all if s.need < 10_000]),
    ]
    rows = []
    for name, some in groups:
        ratios = {program: [s.ratio(program) for s in some] for program in ("rattle", "rgrow")}
        ends = f"{min(ratios['rattle']):.2f} to {max(ratios['rattle']):.2f}"
        rows.append([name, str(len(some)), f"{mean(ratios['rattle']):.2f}", ends, f"{mean(ratios['rgrow']):.0f}"])
    return table(["systems", "how many", "Rattle / plain", "from, to", "rgrow / plain"], rows)


def growth(name, all):
    what, fixed, read = SERIES[name]
    some = sorted((s for s in all if s.series == name), key=read)
    rows = [[f"{read(s):,}"] + [time(s.least[program]) for program in PROGRAMS] for s in some]
    # From the middle on, where what a run does once no longer counts.
    first, last = some[len(some) // 2], some[-1]
    steep = lambda program: math.log(last.least[program] / first.least[program]) / math.log(read(last) / read(first))
    rows.append(["steepness"] + [f"{steep(program):.2f}" for program in PROGRAMS])
    return f"### By {what} ({fixed})\n\n" + table([what, "Rattle", "plain", "rgrow"], rows)


def main():
    out, rounds, load = sys.argv[1], int(sys.argv[2]), sys.argv[3]
    all = measured(out, rounds)
    slack = {program: mean([s.median[program] / s.least[program] for s in all]) for program in PROGRAMS}
    print(f"""# What was measured

Written by `bench/run` on {datetime.date.today().isoformat()}; [README.md](README.md) says what these figures are and what they are not.

- Processor: {processor()}, {os.cpu_count()} cores; load {load} when the measuring began.
- {said("rustc", "--version")}, opt-level 3; Rattle's kit {kit()}, its release archive.
- Each system {rounds} times in turn in each program, again and again for a while; the least time counts. A median run took so many times that, in the
  geometric mean: Rattle {slack["rattle"]:.2f}, plain {slack["plain"]:.2f}, rgrow {slack["rgrow"]:.2f}.
- All three answered the same energies, bit for bit, on every system; Rattle and plain also left the same layout and the same ledger.

## Means

Geometric means of the ratios of times.

{means(all)}

## The fifty systems

Times are in nanoseconds a candidate.

{systems(all)}

## How time grows

The time of a whole run. Steepness is the slope in the chart, where both axes are logarithmic, from the middle of the series to its end: 1 is in proportion.

![growth](growth.svg)

{growth("bays", all)}

{growth("strands", all)}

{growth("rows", all)}""")


main()
