"""Cases on systems at the rules' limits and past them: refusals 1 to 5, several of them in one case, and lines that are
no case."""

from itertools import combinations, product

from casefile import write_float
from draw import KELVINS, NAN
from draw_systems import INFINITE, LARGE, MINUS_ZERO, NOT_FINITE, WARM, ZERO, allowed, bonds, both, with_lists
from systems_faults import HUGE, MOST, NO_LOG, broken, longer, matrix, put, replaced, shorter

ONE, MINUS_TWO = write_float(1.0), write_float(-2.0)


def plain(rows=2, cols=3, strands=3, glues=4, **others):
    """A system in order without seeds and constraints. Of two rows and three columns its sets are 3, 1, 5, 1, 3, 1."""
    below = max(glues, 1)
    fields = {"rows": rows, "cols": cols, "strands": strands, "glues": glues, "kelvin": WARM}
    fields["strand_glues"] = [(place + place // 5) % below for place in range(5 * strands)]
    fields["scaffold"] = [(bay * 3 + 1) % below for bay in range(rows * cols)]
    fields["cells"] = [(1, 2, ONE, ZERO), (3, 0, MINUS_TWO, ZERO)] if glues > 3 else [(0, 0, ONE, ZERO)]
    return {**fields, "logs": [ZERO] * strands, "seeds": [], **others}


def sizes(draw):
    """Rows, columns, strands and glues at their limits, all else as the sizes ask; huge ones, also where a product comes
    round to a length that is there."""
    for rows, cols in product([0, 1, 32, 33], repeat=2):
        yield from [allowed(plain(rows, cols, 2)), bonds(plain(rows, cols, 1))]
    yield from (allowed(plain(strands=strands)) for strands in [0, 1, 64, 65])
    yield from (bonds(plain(strands=strands)) for strands in [0, 1, 65])
    for glues in [0, 1, 256, 257]:
        yield from both(plain(glues=glues)) + both(plain(strands=1, glues=glues))
    for key, size in product(["rows", "cols"], [2**32, 2**63, HUGE]):
        yield from both({**plain(), key: size, "sets_length": 6})
    for size in [2**32, 2**63, HUGE]:
        yield from both({**plain(), "strands": size})
    for size in [258, 2**32, HUGE]:
        yield from both({**plain(), "glues": size, "delta_g_length": 16, "entropy_length": 16})
    yield from both({**plain(), "rows": 2**32, "cols": 2**32, "scaffold": [], "sets_length": 0})
    yield from both({**plain(), "rows": 2**63 + 3, "cols": 2, "sets_length": 6})
    yield from both({**plain(), "glues": 2**32, "cells": [], "delta_g_length": 0, "entropy_length": 0})


def temperatures(draw):
    """Both calls at chosen temperatures: in the range, one float outside it, far from it, infinite, NaN."""
    for kelvin in KELVINS:
        yield from both(plain(1, 2, 2, kelvin=kelvin))


def lengths(draw):
    """Each slice one short, one long and empty, of two systems."""
    slices = ["strand_glues", "scaffold", "logs"]
    faults = [fault(key) for key in slices for fault in [shorter, longer]] + [put(**{key: []}) for key in slices]
    faults += [matrix(key, by) for key in ["delta_g_length", "entropy_length"] for by in [-1, 1]]
    faults += [put(delta_g_length=0), put(entropy_length=0), put(delta_g_length=0, entropy_length=0)]
    faults += [put(seeds=[0] * count) for count in [1, 2, 4, 5]]
    for fault, fields in product(faults, [plain(), plain(1, 1, 1, 1)]):
        yield from both(fault(draw, fields))
    for glues, length in [(256, 65535), (256, 65537), (257, 65536), (256, 66049), (255, 65536)]:
        yield allowed(plain(glues=glues, delta_g_length=length))
        yield bonds(plain(glues=glues, entropy_length=length))


def glue_numbers(draw):
    """A glue number that is not below the count at each place; other numbers and counts; the first of two places."""
    fields = plain()
    keys = ["strand_glues"] * 15 + ["scaffold"] * 6
    at = [(key, place % 15) for place, key in enumerate(keys)]
    for key, place in at:
        yield from both(replaced(fields, key, place, 4))
    for (key, place), number in product([at[0], at[9], at[14], at[15], at[18], at[20]], [5, 256, 2**31, MOST]):
        yield draw.pick(both(replaced(fields, key, place, number)))
    for first, second in [(0, 14), (5, 9), (8, 15), (3, 20), (15, 20), (17, 18)]:
        yield from both(replaced(replaced(fields, *at[first], 4), *at[second], 9))
    for glues in [1, 256]:
        for key, place in [("strand_glues", 0), ("strand_glues", 14), ("scaffold", 0), ("scaffold", 5)]:
            yield from both(replaced(plain(glues=glues), key, place, glues - 1))
            yield from both(replaced(plain(glues=glues), key, place, glues))


def energies(draw):
    """Infinities and NaN at the first, a middle and the last place of either matrix, also behind later places in the list;
    cells that are replaced, and the largest numbers, are taken."""
    for (a, b), bad in product([(0, 0), (2, 1), (3, 3)], NOT_FINITE):
        yield draw.pick(both(plain(cells=[(1, 2, ONE, ZERO), (a, b, bad, ONE)])))
        yield draw.pick(both(plain(cells=[(a, b, ZERO, bad), (1, 2, ONE, ZERO)])))
    bad = NAN[0]
    for first, second in [((0, 0), (3, 3)), ((1, 2), (1, 3)), ((0, 3), (1, 0))]:
        for dg, ds in [(bad, ZERO), (ZERO, bad), (bad, bad)]:
            yield from both(plain(cells=[(*second, dg, ds), (*first, dg, ds)]))
            yield from both(plain(cells=[(*second, ds, dg), (*first, dg, ds)]))
    for glues in [1, 256]:
        for cell in [(0, 0), (glues - 1, glues - 1)]:
            yield from both(plain(strands=2, glues=glues, cells=[(*cell, INFINITE[0], ZERO)]))
            yield from both(plain(strands=2, glues=glues, cells=[(*cell, ZERO, INFINITE[1])]))
    for largest in [write_float(LARGE), write_float(-LARGE)]:
        yield from both(plain(cells=[(0, 0, largest, ZERO), (3, 3, ZERO, largest), (1, 2, largest, largest)]))
    yield from both(plain(cells=[(1, 2, bad, bad), (1, 2, ONE, ZERO), (0, 3, ONE, bad), (0, 3, ONE, ONE)]))
    yield from both(plain(cells=[(1, 2, ONE, ZERO), (1, 2, ONE, bad)]))


def logs(draw):
    """Plus infinity and NaN as each strand's log concentration; strand 0's is taken, and minus infinity anywhere."""
    for strand, bad in product(range(3), NO_LOG):
        yield draw.pick(both(replaced(plain(), "logs", strand, bad)))
    for strand, taken in product(range(3), [INFINITE[1], MINUS_ZERO, write_float(LARGE), write_float(-LARGE)]):
        yield draw.pick(both(replaced(plain(), "logs", strand, taken)))
    for bad in NO_LOG[:2]:
        yield from both(plain(logs=[bad] * 3)) + both(plain(strands=1, logs=[bad])) + both(plain(logs=[bad, ZERO, bad]))
        yield from both(plain(strands=2, glues=256, logs=[bad, bad])) + both(plain(strands=2, glues=1, logs=[ZERO, bad]))
    yield allowed(plain(strands=64, logs=[ZERO] * 63 + [NAN[0]]))
    yield from both(plain(cells=[(3, 3, ZERO, NAN[0])], logs=[ZERO, NAN[0], ZERO]))


def seeds_off(draw):
    """Seeds at the grid's edges and off them by one and by much, exchanged row and column, strands past the count; the first
    of several."""
    for rows, cols in [(2, 3), (3, 2), (1, 1), (32, 32)]:
        good = [rows - 1, cols - 1, 2]
        bad = [[rows, 0, 1], [0, cols, 1], [0, 0, 3], [rows, cols, 3], [MOST, 0, 0], [0, MOST, 0], [0, 0, MOST]]
        bad += [[cols - 1, rows - 1, 1], [rows - 1, cols, 0], [rows, cols - 1, 0], [0, rows * cols - 1, 0], [2**31, 0, 0]]
        if rows == 32:
            yield from (allowed(plain(rows, cols, seeds=seed)) for seed in [good, *bad[:2]])
        else:
            yield from (draw.pick(both(plain(rows, cols, seeds=seed))) for seed in [good, *bad])
    first, second = [0, 0, 2], [1, 2, 1]
    for bad in [[2, 0, 0], [0, 3, 0], [1, 1, 3]]:
        for order in [[first, bad], [first, second, bad], [bad, first, bad], [first, bad, bad, second]]:
            yield from both(plain(seeds=sum(order, [])))
    yield from both(plain(strands=1, seeds=[0, 0, 1])) + both(plain(strands=1, seeds=[1, 2, 0]))


def shapes_of_constraints(draw):
    """Sets of another length than the bays' number; offsets of a wrong count, that do not begin at 0, that fall, or that
    end beside the number of tiles."""
    for rows, cols, lengths in [(1, 1, [0, 1, 2]), (2, 3, [0, 5, 6, 7]), (32, 32, [1023, 1025])]:
        yield from (allowed(plain(rows, cols, strands=2, sets_length=length)) for length in lengths)
    three = plain(1, 3)
    tiles = [0, 1, 0]
    right = [[0, 1, 2, 3], [0, 0, 0, 3], [0, 3, 3, 3], [0, 0, 3, 3]]
    wrong = [[], [0], [3], [0, 3], [0, 1, 3], [0, 1, 2, 3, 3], [0, 0, 1, 2, 3]]
    wrong += [[1, 1, 2, 3], [3, 3, 3, 3], [HUGE, 1, 2, 3], [2, 1, 2, 3]]
    wrong += [[0, 2, 1, 3], [0, 3, 0, 3], [0, 4, 2, 3], [0, 1, 4, 3], [0, HUGE, 2, 3], [0, 1, 0, 3], [0, 2**32, 2**32, 3]]
    wrong += [[0, 1, 2, 2], [0, 1, 2, 4], [0, 1, 2, 0], [0, 0, 0, 0], [0, 1, 2, HUGE], [0, 1, 2, 2**32 + 3], [0, 4, 4, 4]]
    for offsets in right + wrong:
        yield allowed({**three, "offsets": offsets, "tiles": tiles})
    for offsets, tiles in [([0, 0, 0, 0], []), ([0, 0, 0, 1], []), ([0, 0, 0], []), ([0, 0, 0, 0], [0])]:
        yield allowed({**three, "offsets": offsets, "tiles": tiles})
    for offsets in [[0, 1], [0, 0], [1, 1], [0, 2], [0, 1, 1], [1]]:
        yield allowed({**plain(1, 1), "offsets": offsets, "tiles": [0]})
    yield allowed({**three, "tiles": [1, 2, 3]})
    yield bonds({**three, "offsets": [3, 1], "tiles": [0, 9], "sets_length": 1})


def neighbours(draw):
    """Each kind of fault of a refusal with each of the next one that is tested."""
    bad = NAN[0]
    ones = [{"rows": 0}, {"cols": 33}, {"strands": 65}, {"glues": 257}, {"kelvin": bad}, {"strand_glues": [9] * 14}]
    ones += [{"scaffold": [9] * 7}, {"logs": [ZERO, bad]}, {"delta_g_length": 15}, {"entropy_length": 17}, {"seeds": [9]}]
    twos = [{"strand_glues": [0] * 14 + [4]}, {"scaffold": [4] * 6}]
    threes = [{"cells": [(0, 0, bad, ZERO)]}, {"cells": [(0, 0, ZERO, bad)]}, {"logs": [ZERO, ZERO, bad]}]
    fours = [{"seeds": [2, 0, 0]}, {"seeds": [0, 3, 0]}, {"seeds": [0, 0, 3]}]
    none_left = {"offsets": [0, 1, 1, 1, 1, 1, 1], "tiles": [3]}
    fives = [{"sets_length": length, **none_left} for length in [5, 7]]
    wrong = [[0, 1], [1] * 7, [0, 1, 0, 1, 1, 1, 1], [0] * 7, [0, 1, 1, 1, 1, 1, 2]]
    fives += [{"offsets": offsets, "tiles": [3]} for offsets in wrong]
    for first, second in [(ones, twos), (twos, threes), (threes, fours)]:
        yield from (draw.pick(both({**plain(), **b, **a})) for a, b in product(first, second))
    yield from (allowed({**plain(), **b, **a}) for a, b in product(fours, fives))
    yield from (allowed({**plain(), **fault}) for fault in [*fives, none_left])


def joined(draw):
    """Faults of several refusals in one case: the one that is tested first counts."""
    numbers = [1, 2, 3, 4, 5, 7]
    for pair in list(combinations(numbers, 2)) * 6:
        yield allowed(broken(draw, draw.any_system(draw.between(1, 3), draw.between(1, 4), 3, 4, 2), pair))
    for pair in list(combinations(numbers[:4], 2)) * 4:
        yield bonds(broken(draw, draw.any_system(draw.between(1, 3), draw.between(1, 4), 3, 4, 2), pair))
    for some in [numbers, numbers[1:], numbers[2:], numbers[3:], *combinations(numbers, 3)]:
        yield draw.pick(both(broken(draw, draw.any_system(2, 3, 3, 4, 2), some)))


def readings(draw):
    """What docs/CASES.md says of fields: free order, unknown keys, a key twice; lines that lack a field, and values not of
    their kind or without room."""
    fields = with_lists(plain(1, 2, 2), [[0], []])
    whole = allowed(fields)
    call, *words = whole.split(" ")
    yield from [whole, f"{call} note=1 {' '.join(words)}", f"{whole} rows=7 seeds=9", f"{call} cols=02 {' '.join(words)}"]
    yield " ".join([call, *reversed(words)])
    for word in words[:-2]:
        yield from (line.replace(f" {word}", "", 1) for line in both(fields))
    numbers = [("rows", "x"), ("rows", ""), ("cols", "-1"), ("strands", str(2**64)), ("glues", "4,4"), ("kelvin", "310.15")]
    lists = [("strand_glues", [2**32]), ("scaffold", [2**32, 0]), ("seeds", [0, 0, 2**32]), ("logs", [ZERO, "0"])]
    lists += [("logs", [ZERO, ZERO.replace("0", "A")]), ("delta_g_length", 66050), ("entropy_length", 66050)]
    yield from (draw.pick(both({**fields, key: value})) for key, value in numbers + lists)
    for key, value in [("tiles", [2**32]), ("tiles", ["x"]), ("offsets", [0, "1x", 1]), ("sets_length", "two")]:
        yield allowed({**fields, key: value})
    yield from [whole.replace("energies=", "energies=0,"), whole.replace("cells=", "cells=,")]
    yield from ["allowed_tiles", "bonds", "allowed rows=1", "bond"]


LIMITS = [sizes, temperatures, lengths, glue_numbers, energies, logs, seeds_off, shapes_of_constraints]
LIMITS += [neighbours, joined, readings]
