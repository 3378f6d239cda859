#!/usr/bin/env python3
"""Writes the case file for least-energy runs to standard output, the same bytes each time.

    oracle/cases/layouts.py                      the cases of crates/answers/data/layouts.cases
    oracle/cases/layouts.py --large N --seed S   N cases of all kinds at random, for comparisons by hand

How many cases each kind has goes to standard error.
"""

import sys
from itertools import combinations, product

sys.dont_write_bytecode = True
from casefile import read_line, write_float
from draw_systems import CHOSEN, INFINITE, LARGE, MINUS_ZERO, WARM, ZERO, ZEROS, line, with_lists
from energy import APART, LARGEST, LEAST, MINUS_LEAST, TWICE_LEAST, EnergyDraw
from generate import generate
from layouts_rules import rows_needed
from systems_faults import HUGE, NO_LOG, broken, longer, matrix, put, shorter
from systems_limits import plain
from systems_rules import System, legal_sets, read_constraints

ONE, MINUS_ONE = write_float(1.0), write_float(-1.0)
# Few numbers, exact ones among them, so that sums tie.
ROUND = [write_float(energy) for energy in [-2.0, -1.0, -1.0, -0.5, 0.0, 0.5, 1.0]]
# No run of the file has a longer ledger, and few cases more cells.
MOST_ROWS, MOST_CELLS = 32_768, 20
SHAPES = [(rows, cols) for rows, cols in product(range(1, 6), repeat=2) if min(rows, cols) < 5]


def run(fields):
    """A case. What faults of systems say of the sets goes for the layout: each is one place a bay."""
    return line("mfe_configuration", {("layout_length" if key == "sets_length" else key): fields[key] for key in fields})


def rows_of(fields):
    """The need of a system in order."""
    _, read = read_line(run(fields).encode())
    s = System(read)
    return rows_needed(s, legal_sets(s, *read_constraints(read)))


def lent(fields, energies, leaving):
    return {**fields, "energies_length": energies, "leaving_length": leaving}


def one_bay(dg, ds, **others):
    """The rules' one bay and one strand."""
    return plain(1, 1, 2, 2, strand_glues=[0] * 7 + [1] * 3, scaffold=[0], cells=[(0, 1, dg, ds)], **others)


def all_legal(rows, cols, strands, **others):
    """Every strand is legal at each bay, and binds it by 1 kcal/mol; two of them do not bind each other."""
    given = {"strand_glues": ([0] * 4 + [1]) * strands, "scaffold": [1] * (rows * cols), "cells": [(1, 1, MINUS_ONE, ZERO)]}
    return plain(rows, cols, strands, 2, **{**given, **others})


def of_counts(rows, cols, counts):
    """So many legal strands at each bay, row by row."""
    return with_lists(all_legal(rows, cols, max(counts)), [list(range(count)) for count in counts])


class RunDraw(EnergyDraw):
    def bound(self, rows, cols, strands, glues, cell):
        """A system with many of the cells that are read, each drawn by `cell`."""
        fields = self.system(rows, cols, strands, glues, 0)
        places = sorted({place for pairs in self.read_cells(fields["strand_glues"], fields["scaffold"]) for place in pairs})
        most = min(len(places), MOST_CELLS)
        cells = [(a, b, *cell()) for a, b in self.some(places, self.between(most // 2, most))]
        return {**fields, "cells": cells, "logs": self.finite_logs(strands)}

    def bond(self):
        """Plain energies; sometimes one of both is zero."""
        kind = self.between(0, 11)
        dg, ds = self.energy(12.0), self.energy(0.05)
        return (self.pick(ZEROS), ds) if kind == 0 else (dg, self.pick(ZEROS)) if kind < 4 else (dg, ds)

    def count(self):
        return 12 if self.often(1, 10) else self.between(1, 6)

    def restricted(self, fields):
        """With or without seeds, with or without lists."""
        fields = self.seeded(fields, 3) if self.often(1, 3) else fields
        return self.listed(fields) if self.often(1, 3) else fields

    def fitting(self, make):
        """A system from `make` that needs no more rows than the file has room for."""
        while True:
            fields = make()
            if rows_of(fields) <= MOST_ROWS:
                return fields

    def small(self, cell):
        """A small system of any shape."""
        sizes = lambda: (*self.pick(SHAPES), self.count(), self.between(2, 5))
        return self.fitting(lambda: self.restricted(self.bound(*sizes(), cell)))

    def of_values(self, values, shapes, most):
        """A small system whose energies are all of these values."""
        sizes = lambda: (*self.pick(shapes), self.between(2, most), self.between(2, 4))
        return self.fitting(lambda: self.filled(*sizes(), values))


def document_01(draw):
    """The rules' own cases: one bay with its strand, its seed and its lists; the needs of two strands a bay."""
    for dg, ds in [(ONE, ZERO), (MINUS_ONE, ZERO), (ZERO, ONE), (ZERO, ZERO)]:
        yield run(one_bay(dg, ds))
        yield run(one_bay(dg, ds, seeds=[0, 0, 1], logs=[ZERO, INFINITE[1]]))
        yield from (run(with_lists(one_bay(dg, ds), [tiles])) for tiles in [[], [0], [99], [1], [0, 1], [1, 99, 1]])
    yield from (run(all_legal(rows, cols, 2)) for rows, cols in [(2, 2), (2, 3), (3, 2), (1, 3), (3, 1), (3, 3), (2, 1)])


def limits(draw):
    """8: 3x3 with 53 legal strands a bay needs 1,045,001 rows, with 54 too many; needs at the limit and one above it; products
    that no 64 bits hold; the lent tables are empty."""
    for sizes in [(3, 3, 53), (3, 3, 54), (3, 3, 64), (32, 32, 64), (32, 31, 2)]:
        yield run(lent(all_legal(*sizes), 0, 0))
    yield from (run(fields) for fields in [all_legal(3, 3, 54), all_legal(31, 32, 64), all_legal(32, 32, 2)])
    for last in [1, 2, 3]:
        counts = [62, 64, 64, 64, 64, 64, 1, 1, last]
        yield from (run(lent(of_counts(3, 3, counts), *tables)) for tables in [(0, 0), (0, 9), (9, 0)])
    sizes = [(1, 32, 64), (32, 1, 64), (2, 32, 64), (32, 2, 64), (3, 5, 64), (5, 3, 33), (4, 4, 16), (4, 4, 17), (4, 4, 29)]
    sizes += [(20, 20, 1), (20, 20, 2), (16, 16, 2), (17, 16, 2)]
    yield from (run(lent(all_legal(*each), 0, 0)) for each in sizes)


def drawn(draw):
    """Any small systems, from 1x1 to 4x5 and 5x4, with up to 6 strands, sometimes 12; with and without seeds and lists."""
    yield from (run(draw.small(draw.bond)) for _ in range(640))


def shapes(draw):
    """Every shape, each with two systems without seeds and lists, so that lines and sides are told apart."""
    for rows, cols in SHAPES:
        for strands in [2, 3]:
            yield run(draw.bound(rows, cols, strands, 4, draw.bond))


def ties(draw):
    """Few energies, the same for many strands: sums tie, in a row's choice and in the last block."""
    for _ in range(90):
        fields = draw.of_values(ROUND, SHAPES, 4)
        logs = [ZERO] * fields["strands"] if draw.often(2, 3) else fields["logs"]
        yield run(draw.restricted({**fields, "logs": logs}))
    for rows, cols in [(1, 2), (2, 1), (2, 2), (2, 3), (3, 2)]:
        yield from (run(all_legal(rows, cols, strands)) for strands in [3, 4])
        yield run(all_legal(rows, cols, 3, cells=[(1, 1, ZERO, ONE)]))


def entropies(draw):
    """ΔG is zero and ΔS is not: legal everywhere, a bond of 0.0 at 310.15 K alone."""
    for number in range(40):
        cell = lambda: (draw.pick(ZEROS), draw.energy(0.05))
        fields = draw.bound(*draw.pick(SHAPES[:12]), draw.between(2, 4), 3, cell)
        yield run({**fields, "kelvin": [WARM, CHOSEN[0], CHOSEN[-1], fields["kelvin"]][number % 4]})


def order(draw):
    """Energies of very different sizes: another order of additions gives another sum, and another layout."""
    yield from (run(draw.of_values(APART, SHAPES[4:], 4)) for _ in range(80))


def extremes(draw):
    """Energies that overflow either way, in one bond or in the sum; most are 10, some are plus infinity, some finite."""
    for number in range(90):
        values = [LARGEST, LARGEST[4:] + [ZERO, ONE], LARGEST[::2] + [ZERO], LARGEST[::2] + [ONE, MINUS_ONE]][number % 4]
        fields = draw.of_values(values, SHAPES[:12], 3)
        yield run(draw.restricted({**fields, "logs": draw.logs(fields["strands"])} if draw.often(1, 3) else fields))


def two_bays(draw):
    """Two bays and their bond, each of them so large that the order in which they are added decides; all layouts, or both
    strands seeded."""
    glues = {(1, 2): [0, 0, 0, 0, 0, 0, 1, 0, 0, 1], (2, 1): [0, 0, 0, 0, 0, 0, 0, 1, 0, 1]}
    for own, side in product(LARGEST[2:6], repeat=2):
        for shape, sides in glues.items():
            fields = plain(*shape, 2, 2, strand_glues=sides, scaffold=[1, 1], cells=[(1, 1, own, ZERO), (1, 0, side, ZERO)])
            seeds = [0, 0, 1, shape[0] - 1, shape[1] - 1, 1]
            yield from (run({**fields, "seeds": given}) for given in [[], seeds])


def no_concentration(draw):
    """Logarithms of minus infinity: a bay costs plus infinity, and where it is seeded the whole run does."""
    for number in range(30):
        fields = draw.bound(*draw.pick(SHAPES[:12]), draw.between(2, 4), 3, draw.bond)
        logs = [INFINITE[1] if draw.often(1, 2) else log for log in fields["logs"]]
        yield run(draw.seeded({**fields, "logs": logs}, 2) if number % 2 else {**fields, "logs": logs})


def small_numbers(draw):
    """Sums that are 0.0 or almost, of either sign, and tie or do not."""
    for first, second in product([ZERO, MINUS_ZERO, LEAST, MINUS_LEAST, TWICE_LEAST], repeat=2):
        cells = [(1, 1, first, ONE), (1, 2, second, ONE), (2, 1, first, ZERO)]
        glues = [0] * 8 + [1, 1, 1, 2, 0, 2, 2]
        yield run(plain(1, 2, 3, 3, strand_glues=glues, scaffold=[1, 1], cells=cells))


def large(draw):
    """Long and large grids with few choices, and many strands on a line."""
    for rows, cols in [(1, 32), (32, 1), (2, 16), (16, 2), (3, 12), (12, 3), (6, 6), (7, 6), (6, 7), (8, 8)]:
        fields = draw.bound(rows, cols, 2, 3, draw.bond)
        yield from [run(fields), run(draw.seeded(fields, 12))]
    for rows, cols in [(1, 5), (5, 1), (2, 4), (4, 2)]:
        yield run(draw.fitting(lambda: draw.bound(rows, cols, 64, 6, draw.bond)))
    few = draw.fitting(lambda: with_lists(draw.bound(32, 32, 4, 4, draw.bond), [[0]] * 1000 + [[]] * 4 + [[0]] * 20))
    yield from [run(few), run(draw.bound(32, 32, 1, 4, draw.bond)), run(all_legal(12, 12, 1))]


def other_logarithms(draw):
    """Logarithms that no concentration is known for, as the port takes them all."""
    others = [write_float(log) for log in [0.5, -0.1, 709.0, -LARGE, LARGE]]
    for log in [MINUS_ZERO, LEAST, *others]:
        yield run(plain(1, 2, 3, logs=[NO_LOG[0], log, ZERO]))


def tables(draw):
    """9: either table or both one short, shorter, or empty; exactly full; longer, also where the answer is 10; of unequal
    lengths."""
    minus = write_float(-LARGE)
    for rows, cols, strands in [(1, 1, 2), (2, 2, 2), (1, 3, 3), (3, 2, 3), (2, 4, 4)]:
        fields = draw.bound(rows, cols, strands, 3, draw.bond)
        need = rows_of(fields)
        lengths = [(need - 1, need), (need, need - 1), (need - 1, need - 1), (0, need), (need, 0), (0, 0)]
        lengths += [(need - 1, need + 9), (need, need), (need + 1, need), (need, need + 1), (need + 40, need + 7)]
        lengths += [(need + 300, need + 300)]
        yield from (run(lent(fields, *pair)) for pair in lengths)
        bad = {**all_legal(rows, cols, strands), "cells": [(1, 1, minus, ZERO)]}
        need = rows_of(bad)
        lengths = [(need - 1, need), (need, need - 1), (need, need), (need + 1, need), (need, need + 30), (need + 9, need)]
        yield from (run(lent(bad, *pair)) for pair in lengths)


def shapes_refused(draw):
    """5: layouts of another length, and offsets of a wrong shape."""
    for rows, cols, lengths in [(1, 1, [0, 2]), (2, 3, [0, 3, 5, 7, 12]), (3, 2, [2, 5, 7]), (32, 32, [1023, 1025])]:
        yield from (run(plain(rows, cols, 2, layout_length=length)) for length in lengths)
    wrong = [[], [0], [0, 3], [0, 1, 3], [0, 1, 2, 3, 3], [1, 1, 2, 3], [HUGE, 1, 2, 3], [0, 2, 1, 3], [0, 4, 2, 3]]
    wrong += [[0, HUGE, 2, 3], [0, 1, 2, 2], [0, 1, 2, 4], [0, 1, 2, HUGE], [0, 0, 0, 0]]
    for offsets in [[0, 1, 2, 3], [0, 0, 0, 3], [0, 3, 3, 3], *wrong]:
        yield run({**plain(1, 3), "offsets": offsets, "tiles": [0, 1, 0]})
    yield run({**plain(1, 3), "tiles": [1, 2, 3]})


def none_left(draw):
    """7: bays that a list leaves nothing; the first in scan order counts, given by its row-by-row number."""
    for rows, cols in [(2, 3), (3, 2), (2, 2), (1, 4)]:
        for empty in [*combinations(range(rows * cols), 1), *combinations(range(rows * cols), 2)]:
            yield run(with_lists(plain(rows, cols, 2), [[99] if bay in empty else [] for bay in range(rows * cols)]))
    yield run(with_lists(plain(1, 1, seeds=[0, 0, 1]), [[0, 2]]))


def of_the_system(draw):
    """1 to 4 of the system."""
    for number in [1, 2, 3, 4]:
        for _ in range(45 if number == 1 else 18):
            yield run(broken(draw, draw.any_system(2, 3, 3, 4, 3), [number]))
    for key, change in product(["strand_glues", "scaffold", "logs"], [shorter, longer]):
        yield run(change(key)(draw, plain()))
    yield from (run(matrix(key, by)(draw, plain())) for key, by in product(["delta_g_length", "entropy_length"], [-1, 1]))
    yield from (run(put(seeds=[0] * count)(draw, plain())) for count in [1, 2, 4])


def neighbours(draw):
    """Each refusal together with the next one that is tested, and with every later one."""
    bad, minus = NO_LOG[1], write_float(-LARGE)
    ten = {"cells": [(1, 1, minus, ZERO)]}
    nine = {"energies_length": 0, "leaving_length": 0}
    eight = all_legal(3, 3, 54)
    seven = {"offsets": [0, 1, *[1] * 8], "tiles": [99]}
    faults = {
        1: [{"kelvin": bad}, {"rows": 0}, {"cols": 33}, {"strands": 65}, {"entropy_length": 3}],
        2: [{"strand_glues": [2] * 270}, {"scaffold": [1] * 8 + [2]}],
        3: [{"cells": [(1, 1, bad, ZERO)]}, {"logs": [ZERO] * 53 + [bad]}],
        4: [{"seeds": [3, 0, 0]}, {"seeds": [0, 0, 54]}],
        5: [{"layout_length": 8}, {"offsets": [0, 1, 1], "tiles": [99]}, {"offsets": [1, *[1] * 9], "tiles": [99]}],
        7: [seven],
        8: [{}],
        9: [nine],
        10: [ten],
    }
    numbers = list(faults)
    pairs = [*zip(numbers, numbers[1:]), *combinations(numbers, 2)]
    for first, second in pairs:
        fields = eight if 8 in (first, second) else all_legal(3, 3, 2)
        few = {"strand_glues": [2] * 10, "logs": [ZERO, bad], "seeds": [0, 0, 2]}
        for one, other in product(faults[first], faults[second][:1]):
            joined = {**other, **one}
            cut = {key: few[key] for key in joined if key in few and (key != "seeds" or joined[key][2] == 54)}
            yield run({**fields, **joined, **(cut if fields is not eight else {})})
    yield run({**eight, **ten, **nine})


def joined(draw):
    """Faults of several refusals of the system and its constraints, with tables that are short."""
    numbers = [1, 2, 3, 4, 5, 7]
    for some in [*combinations(numbers, 2), *combinations(numbers, 3), numbers, numbers[1:], numbers[3:]]:
        fields = broken(draw, draw.any_system(draw.between(1, 3), draw.between(1, 3), 3, 4, 2), some)
        yield run(lent(fields, *draw.pick([(None, None), (0, 0), (0, None), (None, 0)])))


def readings(draw):
    """What docs/CASES.md says of the fields of lengths: anywhere in the line, the first of two; values not of their kind."""
    whole = run({**with_lists(plain(1, 2, 2), [[0], []]), "layout_length": 2, "energies_length": 9, "leaving_length": 8})
    call, *words = whole.split(" ")
    fields = " ".join(words)
    yield from [whole, f"{call} note=1 {fields}", f"{whole} energies_length=0", f"{call} leaving_length=1 {fields}"]
    yield from [" ".join([call, *reversed(words)]), whole.replace("leaving_length=8", "leaving_length=008")]
    yield from (whole.replace(f" {word}", "", 1) for word in words)
    for word, value in product(words[-3:], ["x", "", "-1", "2,2", str(2**64)]):
        yield whole.replace(word, f"{word.partition('=')[0]}={value}")
    yield from ["mfe_configuration", "mfe_configurations rows=1", "mfe rows=1"]


SECTIONS = [document_01, limits, drawn, shapes, ties, entropies, order, extremes, two_bays, no_concentration, small_numbers]
SECTIONS += [large, other_logarithms, tables, shapes_refused, none_left, of_the_system, neighbours, joined, readings]


def any_case(draw):
    """One case of any kind, in order or with faults of up to two refusals."""
    kind = draw.between(0, 5)
    if kind < 3:
        fields = draw.small(draw.bond)
    else:
        fields = draw.of_values([ROUND, APART, LARGEST + [ZERO, ONE]][kind - 3], SHAPES, 4)
    if draw.often(1, 8):
        need = rows_of(fields)
        fields = lent(fields, max(0, need + draw.between(-2, 3)), max(0, need + draw.between(-2, 3)))
    if draw.often(1, 6):
        fields = broken(draw, fields, draw.some([1, 2, 3, 4, 5, 7], draw.between(1, 2)))
    return run(fields)


if __name__ == "__main__":
    generate("layouts", SECTIONS, any_case, RunDraw)
