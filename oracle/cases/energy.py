#!/usr/bin/env python3
"""Writes the case file for the energies of layouts to standard output, the same bytes each time.

    oracle/cases/energy.py                      the cases of crates/answers/data/energy.cases
    oracle/cases/energy.py --large N --seed S   N cases of all kinds at random, for comparisons by hand

How many cases each kind has goes to standard error.
"""

import sys
from itertools import combinations, product

sys.dont_write_bytecode = True
from casefile import write_float
from draw_systems import CHOSEN, INFINITE, LARGE, MINUS_ZERO, ODD, ZERO, SystemDraw, line
from generate import generate
from systems_faults import NO_LOG, broken, matrix, put, shorter, longer
from systems_limits import plain

ONE, MINUS_ONE = write_float(1.0), write_float(-1.0)
# As many cells as a case on systems has at most, so that one reader has room for both.
MOST_CELLS = 48
# The smallest number there is, and numbers whose bond, or the sum of two such bonds, is infinite.
LEAST, MINUS_LEAST, TWICE_LEAST = write_float(5e-324), write_float(-5e-324), write_float(1e-323)
LARGEST = [write_float(energy) for energy in [LARGE, -LARGE, 1e308, -1e308, 6e307, -6e307, 3e307, -3e307]]
# Numbers of sizes so far apart that the order of additions shows.
APART = [write_float(sign * size) for size in [1e16, 1e8, 1.0, 1e-8] for sign in [1.0, -1.0]]
SHAPES = [(rows, cols) for rows, cols in product(range(1, 9), repeat=2) if rows <= 4 or cols <= 4]


def state_g(fields, layout):
    return line("state_g", {**fields, "layout": layout})


class EnergyDraw(SystemDraw):
    def log(self):
        """A logarithm for which a concentration is known: mostly of the size that they have, sometimes 0.0 or minus infinity."""
        if self.often(1, 12):
            return self.pick([ZERO, INFINITE[1]])
        size = 1.0 + (39.0 if self.often(3, 4) else 699.0) * (self.bits() >> 11) / 2**53
        return write_float(-size if self.often(4, 5) else size)

    def finite_logs(self, strands):
        return [ZERO, *(write_float(-1.0 - 20.0 * (self.bits() >> 11) / 2**53) for _ in range(strands - 1))][:strands]

    def layout(self, fields):
        """A strand for each bay: any, few, or mostly empty."""
        last = fields["strands"] - 1
        few = [0, self.between(0, last), self.between(0, last)]
        kind = self.between(0, 3)
        strands = {0: few, 1: [0, 0, 0, last]}.get(kind)
        return [self.pick(strands) if strands else self.between(0, last) for _ in fields["scaffold"]]

    def full(self, fields):
        """No bay empty, where there is a strand to fill it."""
        last = fields["strands"] - 1
        return [self.between(min(1, last), last) for _ in fields["scaffold"]]

    def filled(self, rows, cols, strands, glues, values):
        """A system with the cells that are read, or as many as there is room for, drawn from these values."""
        fields = self.system(rows, cols, strands, glues, 0)
        places = sorted({place for pairs in self.read_cells(fields["strand_glues"], fields["scaffold"]) for place in pairs})
        cells = [(a, b, self.pick(values), ZERO) for a, b in self.some(places, MOST_CELLS)]
        return {**fields, "cells": cells, "logs": self.finite_logs(strands)}


def document_01(draw):
    """The rules' one bay, empty and with its strand, also without concentration."""
    glues = [0, 0, 0, 0, 0, 0, 0, 1, 1, 1]
    for dg, ds in [(ONE, ZERO), (MINUS_ONE, ZERO), (ZERO, ONE), (ZERO, ZERO)]:
        for log, seeds, strand in product([ZERO, INFINITE[1]], [[], [0, 0, 1]], [0, 1]):
            fields = plain(1, 1, 2, 2, strand_glues=glues, scaffold=[0], cells=[(0, 1, dg, ds)], logs=[ZERO, log], seeds=seeds)
            yield state_g(fields, [strand])


def every_layout(draw):
    """Every layout of small grids, legal or not; cells that are bonded one way alone."""
    for rows, cols, strands in [(1, 1, 5), (1, 2, 3), (2, 1, 3), (1, 3, 2), (2, 2, 3), (2, 3, 2), (3, 2, 2)]:
        fields = draw.system(rows, cols, strands, 6, 20)
        fields = {**fields, "logs": draw.finite_logs(strands)}
        yield from (state_g(fields, list(layout)) for layout in product(range(strands), repeat=rows * cols))


def shapes(draw):
    """Grids of every shape from 1x1 to 4x8 and 8x4: any layout and a full one, with seeds that need not fit."""
    for rows, cols in SHAPES:
        fields = draw.seeded(draw.system(rows, cols, draw.between(2, 8), draw.between(2, 7), 12), 3)
        yield state_g(fields, draw.layout(fields))
        fields = {**fields, "kelvin": draw.inside(), "logs": draw.finite_logs(fields["strands"])}
        yield state_g(fields, draw.full(fields))


def order(draw):
    """Full layouts of bonds of very different sizes: another order of additions gives another sum."""
    for _ in range(150):
        fields = draw.filled(draw.between(2, 4), draw.between(2, 4), draw.between(2, 4), draw.between(3, 6), APART)
        yield state_g(fields, draw.full(fields) if draw.often(2, 3) else draw.layout(fields))


def extremes(draw):
    """Energies that overflow either way, in one bond or in the sum, one after the other or not at all; logarithms of minus
    infinity beside them; numbers that are almost nothing."""
    for number in range(200):
        values = [LARGEST, LARGEST + [ZERO, ONE], ODD, LARGEST[4:] + [ZERO]][number % 4]
        fields = draw.filled(draw.between(1, 3), draw.between(1, 3), draw.between(2, 3), draw.between(2, 4), values)
        fields = {**fields, "logs": draw.logs(fields["strands"])} if draw.often(1, 3) else fields
        yield state_g(fields, draw.full(fields) if draw.often(1, 2) else draw.layout(fields))


def listing_against_scan(draw):
    """Two bays and their bond: the listing sum overflows where (bay + bond) would not, and the other way round."""
    glues = [0, 0, 0, 0, 0, 0, 1, 0, 0, 1]
    for own, side in product(LARGEST, repeat=2):
        for shape, sides in [((1, 2), glues), ((2, 1), [0, 0, 0, 0, 0, 0, 0, 1, 0, 1])]:
            fields = plain(*shape, 2, 2, strand_glues=sides, scaffold=[1, 1], cells=[(1, 1, own, ZERO), (1, 0, side, ZERO)])
            yield state_g(fields, [1, 1])


def zeros(draw):
    """Sums that are 0.0 or almost, of either sign: minus zero comes from a sum that (R T) makes too small, and from no other."""
    glues = [0, 0, 0, 0, 0, 0, 0, 0, 1, 1, 1, 2, 0, 2, 2]
    for first, second in product([ZERO, MINUS_ZERO, LEAST, MINUS_LEAST, TWICE_LEAST], repeat=2):
        for kelvin in [CHOSEN[0], CHOSEN[-1]]:
            cells = [(1, 1, first, ZERO), (1, 2, second, ZERO), (2, 1, first, ZERO)]
            fields = plain(1, 2, 3, 3, strand_glues=glues, scaffold=[1, 1], cells=cells, kelvin=kelvin)
            yield from (state_g(fields, layout) for layout in [[1, 1], [1, 2], [2, 1]])


def large(draw):
    """The largest grid and many strands; all empty, one strand alone, full."""
    for rows, cols, strands, glues in [(32, 32, 3, 4), (32, 1, 64, 9), (1, 32, 64, 256), (12, 12, 20, 12)]:
        fields = {**draw.system(rows, cols, strands, glues, 20), "logs": draw.finite_logs(strands)}
        bays = rows * cols
        for layout in [[0] * bays, [0] * (bays - 1) + [1], [strands - 1] * bays, draw.full(fields), draw.layout(fields)]:
            yield state_g(fields, layout)


def other_logarithms(draw):
    """Logarithms that no concentration is known for, as the port takes them all."""
    for log in [MINUS_ZERO, *ODD, write_float(0.5), write_float(-0.1), write_float(709.0)]:
        yield state_g(plain(1, 2, 3, logs=[NO_LOG[0], log, ZERO]), draw.pick([[1, 1], [0, 1], [1, 2]]))


def drawn(draw):
    """Any systems and layouts."""
    for _ in range(150):
        fields = draw.any_system(draw.between(1, 5), draw.between(1, 5), draw.between(1, 9), draw.between(1, 9), 14)
        fields = {key: value for key, value in fields.items() if key not in ("offsets", "tiles")}
        yield state_g(fields, draw.layout(fields))


def lengths(draw):
    """5: layouts of another length."""
    for rows, cols, counts in [(1, 1, [0, 2]), (2, 3, [0, 3, 5, 7, 12]), (3, 2, [2, 5, 7]), (32, 32, [1023, 1025])]:
        yield from (state_g(plain(rows, cols, 2), [1] * count) for count in counts)


def strands(draw):
    """6: a strand past the count at each bay, other numbers, and the first of two bays row by row, where columns are scanned
    first too."""
    for rows, cols in [(2, 3), (3, 2), (1, 4)]:
        bays = range(rows * cols)
        layouts = [[3 if bay == bad else 1 for bay in bays] for bad in bays]
        layouts += [[3 if bay in two else 0 for bay in bays] for two in combinations(bays, 2)]
        yield from (state_g(plain(rows, cols), layout) for layout in layouts)
    yield from (state_g(plain(), [1, 2, number, 0, 0, 0]) for number in [4, 64, 256, 2**31, 2**32 - 1])
    yield from [state_g(plain(strands=1), [0] * 6), state_g(plain(strands=1), [0, 0, 0, 0, 1, 0])]
    yield from [state_g(plain(strands=64), [63] * 6), state_g(plain(strands=64), [63, 63, 63, 63, 63, 64])]


def of_the_system(draw):
    """1 to 4 of the system, also with a layout that is wrong too."""
    for number in [1, 2, 3, 4]:
        for _ in range(45 if number == 1 else 20):
            fields = broken(draw, draw.seeded(draw.system(2, 3, 3, 4, 3), 2), [number])
            right = [draw.between(0, 2) for _ in range(6)]
            yield state_g(fields, draw.pick([right, right, right[:5], [9] * 6]))
    for key, change in product(["strand_glues", "scaffold", "logs"], [shorter, longer]):
        yield state_g(change(key)(draw, plain()), [0] * 6)
    for key, by in product(["delta_g_length", "entropy_length"], [-1, 1]):
        yield state_g(matrix(key, by)(draw, plain()), [0] * 6)
    yield from (state_g(put(seeds=[0] * count)(draw, plain()), [0] * 6) for count in [1, 2, 4])


def joined(draw):
    """Several faults in one case: the one that is tested first counts."""
    numbers = [1, 2, 3, 4, 5, 6, 10]
    for some in [*combinations(numbers, 2), *combinations(numbers, 2), *combinations(numbers, 3), numbers, numbers[1:], numbers[3:]]:
        fields = draw.filled(2, 3, 3, 4, [write_float(-LARGE)]) if 10 in some else draw.system(2, 3, 3, 4, 3)
        layout = draw.full(fields)
        layout = layout[:-2] + [7, 8] if 6 in some else layout
        layout = layout + [1] if 5 in some else layout
        system = [number for number in some if number < 5]
        yield state_g(broken(draw, draw.seeded(fields, 2), system), layout)


def readings(draw):
    """What docs/CASES.md says of the field `layout`: anywhere in the line, the first of two, empty, unknown keys beside it; a
    value that is not of its kind."""
    fields = plain(1, 2, 2)
    whole = state_g(fields, [1, 0])
    call, *words = whole.split(" ")
    yield from [whole, f"{call} note=1 {' '.join(words)}", f"{whole} layout=9", f"{call} layout=1,1 {' '.join(words)}"]
    yield from [" ".join([call, *reversed(words)]), state_g(fields, []), whole.replace("layout=1,0", "layout=01,00")]
    yield from (whole.replace(f" {word}", "", 1) for word in words)
    for value in ["x", "1,", ",1", "1,,0", "-1,0", "1 0", str(2**32), f"0,{2**64}", "1.0,0", "1;0"]:
        yield whole.replace("layout=1,0", f"layout={value}")
    yield from ["state_g", "state_gs rows=1", "state_g layout=0"]


SECTIONS = [document_01, every_layout, shapes, order, extremes, listing_against_scan, zeros, large, other_logarithms, drawn]
SECTIONS += [lengths, strands, of_the_system, joined, readings]


def any_case(draw):
    """One case of any kind, in order or with faults of up to three refusals."""
    shape = (draw.between(1, 6), draw.between(1, 6))
    strands, glues = draw.between(1, 8), draw.between(1, 9)
    kind = draw.between(0, 4)
    if kind < 3:
        fields = draw.system(*shape, strands, glues, draw.between(0, 16))
    else:
        fields = draw.filled(*shape, strands, glues, APART if kind == 3 else LARGEST + ODD + [ZERO])
    fields = draw.seeded(fields, 3) if draw.often(1, 3) else fields
    layout = draw.full(fields) if draw.often(1, 2) else draw.layout(fields)
    if draw.often(1, 4):
        fields = broken(draw, fields, draw.some([1, 2, 3, 4], draw.between(0, 2)))
        layout = draw.pick([layout, layout[1:], layout + [0], [strands, *layout[1:]], [*layout[:-1], strands]])
    return state_g(fields, layout)


if __name__ == "__main__":
    generate("energy", SECTIONS, any_case, EnergyDraw)
