#!/usr/bin/env python3
"""Writes the fifty systems that are measured, one case of `mfe_configuration` a line (docs/CASES.md).

Three fields more stand in each line, which no program asks: `series`, the series that the system belongs to; `need`, the
rows of its ledger; `candidates`, the sums that a run forms and compares. The seed is fixed, and of Python's generator
only `random()` is used, so that the systems are the same everywhere.
"""
import random
import struct

LIMIT = 1_048_576
STRANDS = 64
rng = random.Random(20260625)


def below(n):
    return int(rng.random() * n)


def between(low, high, digits):
    return round(low + rng.random() * (high - low), digits)


def bits(x):
    return struct.pack(">d", x).hex()


def sizes(rows, cols, counts):
    """The need, and the candidates, of a run with so many legal strands on the bays, which stand in scan order."""
    window, block, need, candidates = min(rows, cols), 1, 0, 0
    for k, count in enumerate(counts):
        candidates += block * count
        block = block * count // (counts[k - window] if k >= window else 1)
        need += block
    return need, candidates


def scan(rows, cols):
    """The bays' row-by-row numbers in scan order."""
    if cols <= rows:
        return list(range(rows * cols))
    return [row * cols + col for col in range(cols) for row in range(rows)]


class Kind:
    """Bays of one scaffold glue, and the strands that bind it."""

    def __init__(self, number, strands):
        self.scaffold, self.bottom, self.strands = 2 * number + 1, 2 * number + 2, strands


def kinds_for(counts):
    """A kind for each count that is asked for, and as many more of them as there are strands left, at most six."""
    wanted = sorted(set(counts))
    kinds, used = [], 1
    for turn in range(6):
        for count in wanted:
            if used + count - 1 <= STRANDS and (turn == 0 or len(kinds) < 6):
                kinds.append(Kind(len(kinds), list(range(used, used + count - 1))))
                used += count - 1
    assert {len(kind.strands) + 1 for kind in kinds} == set(wanted), counts
    return kinds, used


def system(series, rows, cols, counts, seeded=0, listed=0):
    """A system whose bays, row by row, have so many legal strands; then some bays get a seed or a list that keeps half."""
    kinds, strands = kinds_for(counts)
    at = [rng_kind(kinds, count) for count in counts]
    sides = [2 * len(kinds) + 1 + i for i in range(12)]
    glues = sides[-1] + 1
    table = [[0] * 5 for _ in range(strands)]
    cells = []
    for kind in kinds:
        cells.append((kind.scaffold, kind.bottom, between(-11, -7, 2), between(-0.03, -0.02, 4)))
        for strand in kind.strands:
            table[strand] = [sides[below(12)] for _ in range(4)] + [kind.bottom]
    for i in sides:
        for j in sides:
            if rng.random() < 0.6:
                cells.append((i, j, between(-3, 0.5, 2), between(-0.01, 0, 4)))
    legal = [[0] + kind.strands for kind in at]
    seeds, lists = [], [[] for _ in at]
    for _ in range(seeded):
        bay = below(len(at))
        strand = at[bay].strands[below(len(at[bay].strands))]
        seeds += [bay // cols, bay % cols, strand]
        legal[bay] = [strand]
    for _ in range(listed):
        bay = below(len(at))
        lists[bay] = legal[bay][: (len(legal[bay]) + 1) // 2]
        legal[bay] = lists[bay]
    need, candidates = sizes(rows, cols, [len(legal[bay]) for bay in scan(rows, cols)])
    assert need <= LIMIT, (rows, cols, need)
    fields = {
        "series": series, "need": need, "candidates": candidates, "rows": rows, "cols": cols, "strands": strands,
        "glues": glues, "kelvin": bits(between(305, 335, 1)),
        "strand_glues": [glue for row in table for glue in row], "scaffold": [kind.scaffold for kind in at],
        "cells": [place for cell in cells for place in cell[:2]],
        "energies": [bits(x) for cell in cells for x in cell[2:]],
        "logs": [bits(between(-18, -14, 6)) for _ in range(strands)], "seeds": seeds,
    }
    if listed:
        fields["offsets"] = [sum(len(one) for one in lists[:i]) for i in range(len(lists) + 1)]
        fields["tiles"] = [tile for one in lists for tile in one]
    write(fields)


def rng_kind(kinds, count):
    fitting = [kind for kind in kinds if len(kind.strands) + 1 == count]
    return fitting[below(len(fitting))]


def write(fields):
    shown = lambda value: ",".join(map(str, value)) if isinstance(value, list) else str(value)
    print("mfe_configuration " + " ".join(f"{key}={shown(value)}" for key, value in fields.items()))


def uniform(series, rows, cols, count):
    system(series, rows, cols, [count] * (rows * cols))


def mixed(series, rows, cols, least, most, seeded=0, listed=0):
    """Counts drawn between two ends, at most five different ones, until the ledger is long enough and not too long."""
    while True:
        some = [least + below(most - least + 1) for _ in range(5)]
        counts = [some[below(5)] for _ in range(rows * cols)]
        need, _ = sizes(rows, cols, [counts[bay] for bay in scan(rows, cols)])
        if need <= LIMIT and sum(set(some)) - len(set(some)) < STRANDS:
            return system(series, rows, cols, counts, seeded, listed)


def fifty():
    for cols in (4, 6, 8, 12, 16, 24, 32):
        uniform("bays", 4, cols, 5)
    for count in (2, 3, 4, 5, 6, 8, 10, 12, 16, 20):
        uniform("strands", 3, 12, count)
    for rows, cols in ((2, 30), (3, 20), (4, 15), (5, 12), (6, 10)):
        uniform("rows", rows, cols, 5)
    for count in (2, 3, 4, 8, 10, 12):
        uniform("grid", 4, 12, count)
    mixed("grid", 4, 12, 2, 14)
    mixed("grid", 4, 12, 2, 16, seeded=3, listed=6)
    for rows, cols, count in (
        (1, 32, 20), (32, 1, 6), (2, 32, 20), (32, 2, 12), (3, 32, 20), (20, 3, 16), (12, 4, 9), (5, 5, 8), (6, 6, 5),
        (7, 7, 4), (8, 8, 3), (12, 12, 2),
    ):
        uniform("shape", rows, cols, count)
    for rows, cols, least, most, seeded, listed in (
        (2, 2, 2, 20, 0, 0), (3, 8, 2, 20, 0, 0), (10, 3, 4, 20, 0, 0), (4, 9, 2, 18, 2, 4), (9, 5, 2, 10, 0, 0),
        (5, 16, 2, 8, 4, 8), (6, 7, 2, 7, 0, 0), (32, 4, 2, 10, 8, 16),
    ):
        mixed("mixed", rows, cols, least, most, seeded, listed)


if __name__ == "__main__":
    fifty()
