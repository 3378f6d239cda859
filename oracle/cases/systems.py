#!/usr/bin/env python3
"""Writes the case file for systems to standard output, the same bytes each time.

    oracle/cases/systems.py                      the cases of crates/answers/data/systems.cases
    oracle/cases/systems.py --large N --seed S   N cases of all kinds at random, for comparisons by hand

How many cases each kind has goes to standard error.
"""

import sys
from itertools import combinations, product

sys.dont_write_bytecode = True
from casefile import write_float
from draw_systems import CHOSEN, INFINITE, ODD, WARM, ZERO, ZEROS, SystemDraw, allowed, bonds, both, with_lists
from generate import generate
from systems_faults import broken, none_legal
from systems_limits import LIMITS, plain

ONE, MINUS_ONE = write_float(1.0), write_float(-1.0)
SHAPES = [(rows, cols) for rows, cols in product(range(1, 13), repeat=2) if rows <= 4 or cols <= 4]
SHAPES += [(5, 5), (6, 6), (7, 7), (8, 8), (5, 6), (6, 5), (12, 12)]


def one_bay(dg, ds, **others):
    """The rules' one bay and one strand. Glue 1 of the strand meets glue 0 of the bay."""
    glues = [0, 0, 0, 0, 0, 0, 0, 1, 1, 1]
    return plain(1, 1, 2, 2, strand_glues=glues, scaffold=[0], cells=[(0, 1, dg, ds)], **others)


def document_01(draw):
    """The rules' own cases of one bay: which strands are legal, and their bonds."""
    for dg, ds in [(ONE, ZERO), (MINUS_ONE, ZERO), (ZERO, ONE), (ZERO, ZERO)]:
        yield from both(one_bay(dg, ds))
    yield from both(one_bay(ONE, ZERO, seeds=[0, 0, 1], logs=[ZERO, INFINITE[1]]))
    yield from (allowed(with_lists(one_bay(MINUS_ONE, ZERO), [tiles])) for tiles in [[], [0], [99], [1], [0, 1]])


def zeros(draw):
    """Every pair of zeros of either sign, plain and odd numbers in the one cell that counts; the cell with exchanged
    indices has another pair."""
    values = [*ZEROS, ONE, write_float(-1.5), *ODD[:5], *ODD[-4:]]
    for dg, ds in product(values, repeat=2):
        fields = one_bay(dg, ds, kelvin=draw.inside())
        zero = dg in ZEROS and ds in ZEROS
        exchanged = (1, 0, ONE, ONE) if zero else (1, 0, draw.pick(values), draw.pick(values))
        yield draw.pick(both({**fields, "cells": [*fields["cells"], exchanged]}))
    for dg, ds, kelvin in product(ZEROS, ZEROS, [CHOSEN[0], CHOSEN[-1]]):
        yield from both(one_bay(dg, ds, kelvin=kelvin))


def shapes(draw):
    """Grids of every shape from 1x1 to 4x12 and 12x4, and larger ones, without constraints and with them."""
    for rows, cols in SHAPES:
        fields = draw.system(rows, cols, draw.between(2, 8), draw.between(2, 7), 5)
        yield allowed(draw.seeded(fields, 4) if draw.often(1, 2) else fields)
        fields = draw.system(rows, cols, draw.between(2, 6), draw.between(2, 7), 4)
        yield allowed(draw.listed(draw.seeded(fields, 6) if draw.often(2, 3) else fields))


def small(draw):
    """Small grids with few strands, with and without seeds and constraints."""
    for _ in range(160):
        yield allowed(draw.any_system(draw.between(1, 3), draw.between(1, 3), draw.between(1, 4), draw.between(1, 5), 4))


def many_strands(draw):
    """Up to 64 strands, the largest grid, and glues up to 256."""
    sizes = [(1, 1, 64, 3), (4, 12, 64, 6), (12, 4, 64, 9), (3, 3, 63, 12), (2, 5, 33, 40), (3, 2, 32, 256)]
    for size in [*sizes, (1, 4, 64, 256)]:
        yield allowed(draw.system(*size, 24))
        yield allowed(draw.listed(draw.seeded(draw.system(*size, 12), 8)))
    yield allowed(draw.listed(draw.seeded(draw.system(32, 32, 5, 9, 20), 30)))
    fields = draw.system(32, 32, 64, 3, 0)
    yield allowed({**fields, "cells": [(a, b, ONE, ZERO) for a, b in [(0, 0), (0, 1), (1, 2), (2, 0), (2, 2)]]})


def one_way(draw):
    """Cells on one side of the diagonal alone, so that exchanged indices show in every set and bond."""
    for number in range(40):
        fields = draw.system(draw.between(1, 3), draw.between(1, 3), draw.between(2, 4), draw.between(3, 6), 8)
        cells = [(a, b, draw.energy(9.0), draw.energy(0.05)) for a, b in combinations(range(fields["glues"]), 2)]
        cells = [cell if number % 2 else (cell[1], cell[0], *cell[2:]) for cell in draw.some(cells, 8)]
        yield from both({**fields, "cells": cells})


def all_bonds(draw):
    """Bonds of up to 6 strands on small grids."""
    for _ in range(110):
        short, long = draw.between(1, 4), draw.between(1, 12)
        shape = draw.pick([(short, short), (short, draw.between(1, 4)), (1, long), (long, 1)])
        yield bonds(draw.any_system(*shape, draw.between(1, 6), draw.between(1, 7), 7))


def bonds_by_temperature(draw):
    """The bonds of one system at chosen temperatures and others in the range."""
    fields = draw.system(1, 2, 3, 4, 6)
    yield from (bonds({**fields, "kelvin": kelvin}) for kelvin in CHOSEN + [draw.kelvin() for _ in range(20)])


def seeds(draw):
    """Each bay seeded with each strand, 0 and strands that do not bind there too; several seeds on one bay, of which the
    last counts."""
    for rows, cols in [(2, 3), (3, 2), (2, 2)]:
        for bay, strand in product(range(rows * cols), range(3)):
            yield allowed(plain(rows, cols, seeds=[*divmod(bay, cols), strand]))
    for strands in [*product(range(3), repeat=2), (1, 2, 0), (0, 1, 2), (2, 0, 1), (2, 2, 2), (0, 0, 1)]:
        yield allowed(plain(seeds=[number for strand in strands for number in [1, 0, strand]]))
        mixed = [number for strand in strands for number in [1, 2, strand, 0, 1, strand]]
        yield allowed(with_lists(plain(seeds=mixed), [[], [0, 1, 2], [], [], [], [2, 1, 0]]))


def lists(draw):
    """Every list of up to two of these numbers for one bay, and some of three: strand 1 binds there, 2 does not. The same
    seeded with each."""
    numbers = [0, 1, 2, 3, 4, 99, 2**32 - 1]
    fields = plain(1, 1, scaffold=[1], cells=[(1, 0, ONE, ZERO)], strand_glues=[2] * 9 + [0] + [2] * 5)
    named = [list(tiles) for count in range(3) for tiles in product(numbers, repeat=count)]
    for tiles in named + [[0, 0, 0], [1, 1, 1], [0, 1, 2], [2, 1, 0], [99, 99, 1], [2, 2, 99], [3, 0, 3]]:
        yield allowed(with_lists(fields, [tiles]))
    for strand, tiles in product(range(3), named[:8] + [[0, 1], [1, 2], [2, 0], [99, 0], [1, 99], [0, 1, 2]]):
        yield allowed(with_lists({**fields, "seeds": [0, 0, strand]}, [tiles]))


def none_left(draw):
    """Bays that a list leaves nothing: every one or two of small grids, of which the first in scan order counts, given by
    its row-by-row number; any of larger ones."""
    for rows, cols in [(2, 3), (3, 2), (2, 2), (3, 3), (1, 4), (4, 1)]:
        for empty in [*combinations(range(rows * cols), 1), *combinations(range(rows * cols), 2)]:
            tiles = [[99] if bay in empty else [] for bay in range(rows * cols)]
            yield allowed(with_lists(plain(rows, cols, 2), tiles))
    for _ in range(40):
        short, long = draw.between(2, 4), draw.between(3, 12)
        fields = draw.system(*draw.pick([(short, long), (long, short)]), draw.between(1, 4), draw.between(1, 4), 2)
        yield allowed(none_legal(draw, draw.listed(draw.seeded(fields, 6))))


SECTIONS = [document_01, zeros, shapes, small, many_strands, one_way, all_bonds, bonds_by_temperature, seeds, lists]
SECTIONS += [none_left, *LIMITS]


def any_case(draw):
    """One case of any kind, in order or with faults of up to three refusals."""
    short, long = draw.between(1, 4), draw.between(1, 12)
    shape = draw.pick([(short, long), (long, short), (short, draw.between(1, 4))])
    strands = draw.between(1, 6) if draw.often(3, 4) else draw.between(7, 64)
    glues = draw.between(1, 8) if draw.often(3, 4) else draw.between(9, 256)
    fields = draw.any_system(*shape, strands, glues, draw.between(0, 12))
    if draw.often(1, 2):
        fields = broken(draw, fields, draw.some([1, 2, 3, 4, 5, 7], draw.between(1, 3)))
    return allowed(fields) if strands > 6 or draw.often(1, 2) else bonds(fields)


if __name__ == "__main__":
    generate("systems", SECTIONS, any_case, SystemDraw)
