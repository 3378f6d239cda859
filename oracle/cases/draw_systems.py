"""What the generators of cases on systems draw from, and how a system is written.

A system is a dict of its fields in the order in which they are written: numbers, lists of numbers, and floats as the
digits of a case file. `cells` is a list of row, column, ΔG and ΔS, which is written as two fields.
"""

from casefile import write_float, write_list
from draw import INSIDE, NAN, Draw

ZERO, MINUS_ZERO = write_float(0.0), write_float(-0.0)
ZEROS = [ZERO, MINUS_ZERO]
TINY, LARGE = 2.2250738585072014e-308, 1.7976931348623157e308
# Subnormals, the smallest normal numbers, and numbers whose bond is infinite at some temperature or every one.
ODD = [5e-324, -5e-324, 1.1e-310, -TINY / 3.0, TINY, -TINY, 1e-300, -1e-17, 1e17, 1e306, -1e306]
ODD = [write_float(energy) for energy in [*ODD, 1e308, -1e308, LARGE, -LARGE]]
INFINITE = [write_float(float("inf")), write_float(float("-inf"))]
NOT_FINITE = INFINITE + NAN
CHOSEN = [write_float(kelvin) for kelvin in INSIDE]
WARM = write_float(310.15)

# Numbers that name no strand, where there are so many.
UNKNOWN = [99, 64, 2**32 - 1, 2**31, 256, 1000]


def line(call, fields):
    """A case: fields that are None are left out."""
    words = [call]
    for key, value in fields.items():
        if key == "cells":
            words.append(f"cells={write_list(number for cell in value for number in cell[:2])}")
            words.append(f"energies={write_list(energy for cell in value for energy in cell[2:])}")
        elif isinstance(value, list):
            words.append(f"{key}={write_list(value)}")
        elif value is not None:
            words.append(f"{key}={value}")
    return " ".join(words)


def allowed(fields):
    return line("allowed_tiles", fields)


def bonds(fields):
    return line("bonds", fields)


def both(fields):
    return [allowed(fields), bonds(fields)]


def with_lists(fields, lists):
    """The system under a list for each bay, row by row."""
    offsets = [sum(map(len, lists[:bay])) for bay in range(len(lists) + 1)]
    return {**fields, "offsets": offsets, "tiles": [tile for tiles in lists for tile in tiles]}


def lists_of(fields):
    """The lists of a system whose offsets are in order; empty ones where it has none."""
    offsets, tiles = fields.get("offsets"), fields.get("tiles")
    if offsets is None:
        return [[] for _ in fields["scaffold"]]
    return [tiles[start:end] for start, end in zip(offsets, offsets[1:])]


def seed_of(fields, bay):
    """The strand that a bay is seeded with, or None."""
    seeds, strand = fields["seeds"], None
    for at in range(0, len(seeds), 3):
        if seeds[at] * fields["cols"] + seeds[at + 1] == bay:
            strand = seeds[at + 2]
    return strand


class SystemDraw(Draw):
    def often(self, times, of):
        """True so many times of so many."""
        return self.between(1, of) <= times

    def some(self, items, most):
        """At most so many of the items, each once, in any order."""
        rest, taken = list(items), []
        while rest and len(taken) < most:
            taken.append(rest.pop(self.between(0, len(rest) - 1)))
        return taken

    def inside(self):
        return self.pick(CHOSEN) if self.often(1, 2) else self.kelvin()

    def energy(self, size):
        """An energy of some size with either sign, and digits in all places or in few."""
        if self.often(1, 2):
            return write_float(size * self.between(-100, 100) / 100.0)
        return write_float(size * (2.0 * (self.bits() >> 11) / 2**53 - 1.0))

    def cell(self):
        """ΔG and ΔS: mostly plain numbers, often a zero of either sign beside one, or two, or odd ones."""
        dg, ds = self.energy(12.0), self.energy(0.05)
        kind = self.between(0, 9)
        dg = self.pick(ZEROS) if kind in (4, 6) else self.pick(ODD) if kind in (7, 9) else dg
        ds = self.pick(ZEROS) if kind in (5, 6, 9) else self.pick(ODD) if kind in (8, 9) else ds
        return dg, ds

    def log(self):
        return self.pick([ZERO, MINUS_ZERO, INFINITE[1], self.energy(40.0), self.energy(40.0), self.pick(ODD)])

    def logs(self, strands):
        """Strand 0's is never read, so that it may be anything."""
        first = self.pick([ZERO, *NOT_FINITE, self.log()])
        return [first, *(self.log() for _ in range(strands - 1))][:strands]

    def read_cells(self, strand_glues, scaffold):
        """The pairs of glues of which a bond is asked: bay and bottom, east and west, south and north."""
        above = strand_glues[5:]
        north, east, south, west, bottom = (above[side::5] for side in range(5))
        pairs = [(scaffold, bottom), (east, west), (south, north)]
        return [sorted({(a, b) for a in first for b in second}) for first, second in pairs]

    def cells(self, strand_glues, scaffold, most):
        """Cells that are read, and cells with exchanged indices that differ from these; most are the scaffold's."""
        bays, *sides = self.read_cells(strand_glues, scaffold)
        places = self.some(bays, most) + self.some(sides[0] + sides[1], most // 2)
        places += [(b, a) for a, b in self.some(places, most // 2)]
        return [(a, b, *self.cell()) for a, b in self.some(places, len(places))]

    def system(self, rows, cols, strands, glues, most):
        """A system without constraints; at most twice so many cells, of which later ones may replace earlier ones."""
        strand_glues = [self.between(0, glues - 1) for _ in range(5 * strands)]
        scaffold = [self.between(0, glues - 1) for _ in range(rows * cols)]
        return {
            "rows": rows,
            "cols": cols,
            "strands": strands,
            "glues": glues,
            "kelvin": self.inside(),
            "strand_glues": strand_glues,
            "scaffold": scaffold,
            "cells": self.cells(strand_glues, scaffold, most),
            "logs": self.logs(strands),
            "seeds": [],
        }

    def seeded(self, fields, most):
        """The system with up to so many seeds, often several on one bay."""
        seeds, last = [], fields["strands"] - 1
        for _ in range(self.between(1, most)):
            bay = [self.between(0, fields["rows"] - 1), self.between(0, fields["cols"] - 1)]
            if seeds and self.often(1, 3):
                bay = self.pick(seeds)[:2]
            seeds.append([*bay, self.pick([0, self.between(0, last), last])])
        return {**fields, "seeds": sum(seeds, [])}

    def tiles(self, fields, bay):
        """A list that leaves a bay some legal strand: empty, one number, or several with repeats, some of them unknown."""
        kept = seed_of(fields, bay) or 0
        kind = self.between(0, 6)
        if kind < 3:
            return [] if kind < 2 else [kept]
        strands = fields["strands"]
        named = [self.between(0, strands - 1) for _ in range(self.between(0, 4))]
        named += self.some([strands, strands + 1, *UNKNOWN], self.between(0, 2)) + named[:1]
        return self.some([kept, *named], len(named) + 1)

    def listed(self, fields):
        """The system under lists; some have only empty ones."""
        if self.often(1, 12):
            return with_lists(fields, [[] for _ in fields["scaffold"]])
        return with_lists(fields, [self.tiles(fields, bay) for bay in range(len(fields["scaffold"]))])

    def any_system(self, rows, cols, strands, glues, most):
        """A system with or without seeds, with or without constraints."""
        fields = self.system(rows, cols, strands, glues, most)
        fields = self.seeded(fields, 5) if self.often(1, 2) else fields
        return self.listed(fields) if self.often(1, 2) else fields
