#!/usr/bin/env python3
"""Writes the case file for names to standard output, the same bytes each time.

    oracle/cases/names.py                      the cases of crates/answers/data/names.cases
    oracle/cases/names.py --large N --seed S   N cases of all kinds at random, for comparisons by hand

How many cases each kind has goes to standard error. The cases at the rules' limits are in names_limits.py. Energy keys are drawn
here as well, among the names that they go by, and written by keys.py.
"""

import sys
from itertools import product

sys.dont_write_bytecode = True
from draw_names import LONG, NEAR, RAW, SIGNS, SORTS, WIDE, NameDraw, bases_of, case
from faults import FAULTS
from generate import generate
from names_limits import LIMITS, with_128

ZERO, ONE, MINUS = "0" * 16, "3ff0000000000000", "8" + "0" * 15


def single_names(draw):
    """Every byte alone and before a star; names of all sorts before few stars; names of stars alone, and many stars."""
    names = [bytes([byte]) + stars for byte in range(256) for stars in [b"", b"*"]]
    for base in NEAR + SIGNS + WIDE + LONG + RAW:
        names += [base + b"*" * draw.between(0, 4), base + b"*" * draw.between(1, 9)]
    many = [1, 2, 3, 4, 63, 64, 255, 256, 257, 300]
    names += [base + b"*" * stars for base in [b"", b"a", b"a*b"] for stars in many]
    return [case("self_and_inverse", {"name": name}) for name in names]


def chosen_systems(draw):
    """Names chosen by hand: five glues of one strand, then one bay; and bays alone."""
    a, ab, ring = b"a", b"ab", "é".encode()
    fives = [[None] * 5, [b""] * 5, [b"", b"*", b"**", b"***", None], [a, b"a*", b"a**", b"a***", b"a****"]]
    fives += [[b"a*", a, b"b*", b"b", b"c***"], [a, ab, b"abc", b"ab*", b"a*"], [b"abc", ab, a, b"", b"*"]]
    fives += [[b"a*b", b"a*b*", b"a**b", b"a*b**", a], [b"*a", a, b"*a*", b"**a", b"*"], [b"A", a, b" a", b"a ", b"a\0"]]
    fives += [[ring, ring + b"*", "e\u0301".encode(), "é＊".encode(), b"e"], [b"\xff", b"\xff*", b"\xfe", b"\xc3*", a]]
    fives += [[None, a, None, b"b", None], [a] * 5, [b"a*"] * 5, [b"a" + b"*" * 255, a, b"a" + b"*" * 256, b"", b"*"]]
    for five in fives:
        for bay in [None, b"", b"*", a, b"a*", b"z"]:
            yield case("register", {"rows": 1, "cols": 1, "strands": 2, **draw.lent([*five, bay])})
        bays = [name.rstrip(b"*") + b"*" * (len(name) % 2) if name is not None else None for name in five]
        yield case("register", {"rows": 1, "cols": 5, "strands": 1, **draw.lent(bays)})
        yield case("register", {"rows": 5, "cols": 1, "strands": 1, **draw.lent(five)})


def small_systems(draw):
    """Small systems over few bases of all sorts; some have names that are no UTF-8, some too many stars on the scaffold."""
    for turn in range(430):
        bases = draw.bases(draw.between(1, 6), raw=turn % 15 == 0)
        sizes = draw.between(1, 3), draw.between(1, 3), draw.between(1, 4)
        yield case("register", draw.register(*sizes, bases, draw.between(0, 5), 9 if turn % 9 == 1 else 1))


def middle_systems(draw):
    """Systems of some size."""
    for turn in range(40):
        bases = draw.bases(draw.between(5, 25), raw=turn % 15 == 0)
        sizes = draw.between(1, 7), draw.between(1, 7), draw.between(1, 9)
        yield case("register", draw.register(*sizes, bases, draw.between(0, 4), 9 if turn % 20 == 1 else 1))


def registered_keys(draw):
    """A system, and then energy keys over the bases that it registers, in the same text."""
    for _ in range(60):
        sizes = draw.between(1, 2), draw.between(1, 2), draw.between(2, 3)
        system = draw.register(*sizes, draw.bases(draw.between(1, 5)))
        bases, places = bases_of(system)
        yield case("register", system)
        yield case("energy_keys", draw.energy_keys(draw.keys_apart(draw.between(1, 4), bases), places, system["text"]))


def keys_apart(draw):
    """Keys of which no two meet on a cell, over few bases of all sorts; some names are in no base list, some no UTF-8."""
    for turn in range(310):
        bases = draw.bases(draw.pick([0, 1, 2, 3, 4, 5, 6]), raw=turn % 15 == 0)
        keys = draw.keys_apart(draw.pick([0, 1, 1, 2, 3, 4, 5, 6]), bases)
        yield case("energy_keys", draw.keys_over(bases, keys))


def keys_met(draw):
    """Keys that meet on a cell, equal ones too: the later wins, also where it sets 0.0."""
    for turn in range(120):
        bases = draw.bases(draw.between(1, 3), raw=turn % 15 == 0)
        keys = [draw.key(bases) for _ in range(draw.between(1, 2))]
        for _ in range(draw.between(1, 3)):
            keys.insert(draw.between(0, len(keys)), draw.again(draw.pick(keys)))
        fields = draw.keys_over(bases, keys)
        if turn % 4 == 0 and fields["kinds"][-1] == 0:
            fields["numbers"][-2:] = [ZERO, ZERO]
        yield case("energy_keys", fields)


def chosen_keys(draw):
    """Keys chosen by hand: on the diagonal, of base and inverse, of many stars, of empty names; zeros of either sign."""
    a, b = b"a", b"b"
    singles = [a, b"a*", b"a" + b"*" * 300, b"a" + b"*" * 301, b"", b"*", b"***", b"ab", b"a*b", b"aa", b"A"]
    pairs = [(a, a), (a, b"a**"), (b"a*", b"a*"), (b"a*", b"a***"), (a, b"a*"), (b"a*", a), (b"", b"*"), (b"", b"")]
    pairs += [(a, b), (b, a), (b"a*", b), (a, b"b*"), (b"a***", b"b" + b"*" * 40), (a, b""), (b"*", b"b*")]
    pairs += [(a, b"ab"), (b"ab", b"ab"), (b"c", b"c"), (b"", b"c")]
    lists = [[(name,)] for name in singles] + [[pair] for pair in pairs]
    lists += [[(a,), (b,), (b"",)], [(a, a), (a,), (b"a*", b"a*")], [(a, b), (a, b"b*"), (b"a*", b), (b"a*", b"b*")]]
    lists += [[(a,), (b"a*",)], [(b"a*",), (a,)], [(a, b), (b, a)], [(a,), (a,)], [(a, a), (b"a**", a)]]
    lists += [[(a,), (b"a*", a), (a,)]]
    for keys in lists:
        yield case("energy_keys", draw.keys_over([a, b, b""], keys, sequences=0))
        yield case("energy_keys", draw.keys_over([a, b, b""], keys, sequences=7))
    for dg, ds in product([ZERO, MINUS, ONE], repeat=2):
        for first in [[], [ONE, ONE]]:
            fields = draw.keys_over([a], [(a,)] * (1 + len(first) // 2), sequences=0)
            yield case("energy_keys", {**fields, "numbers": [*first, dg, ds]})


def chosen_base_lists(draw):
    """Base lists that no registering gives: repeats, stars at the end, parts of one another; zeros for what is not
    written; places past the count, which are not read; keys in the same text as the bases."""
    lists = [[0, 1, 2, 1], [0, 2, 2, 2, 0, 1], [3, 2, 1, 1], [5, 2, 0, 1], [5, 3], [4, 1, 8, 0], [0, 0, 0, 0], [8, 0]]
    lists += [[0, 8], [0, 1, 1, 1], [0, 2, 0, 1], [0, 3, 1, 1, 2, 1], [0, 4, 0, 4, 0, 3], [1, 0, 0, 1, 2, 0]]
    lists += [[3, 1, 1, 1, 0, 1]]
    for places in lists:
        for keys in [[(b"a",)], [(b"b", b"ab*")], [(b"", b"a*")], [(b"abab",), (b"ab**", b"*")], [(b"b*", b"b")]]:
            yield case("energy_keys", draw.energy_keys(keys, places, b"abab*a**", sequences=2))
    for _ in range(20):
        offsets = sorted(draw.between(0, 8) for _ in range(5))
        fields = draw.energy_keys([(b"",), (b"", b"")], draw.pick(lists), b"abab*a**", sequences=0)
        yield case("energy_keys", {**fields, "text": b"abab*a**", "offsets": offsets})
    counted = [([], 1), ([], 2), ([], 127), ([0, 1], 2), ([0, 1, 1], 2)]
    counted += [([0, 1, 99, 99], 1), ([99, 99], 0), ([0, 1, 2**64 - 1], 1), ([0, 1, *[99] * 252], 1)]
    for places, count in counted:
        fields = draw.energy_keys([(b"a", b"b"), (b"",), (b"a",)], places, b"ab", sequences=0)
        yield case("energy_keys", {**fields, "count": count})


def numerals(draw):
    """Every tile of 64 without names, and some of 64 of which the odd ones have one."""
    for tile in range(64):
        fields = {"strands": 64, "text": b"null", "offsets": [0] + [4] * 64, "present": [1] + [0] * 63}
        yield case("tile_name", {**fields, "tile": tile})
    names = [b"null"] + [None if tile % 2 == 0 else b"x" for tile in range(1, 64)]
    yield from (case("tile_name", draw.tile_name(names, tile)) for tile in [1, 2, 9, 10, 11, 12, 62, 63])


def tile_names(draw):
    """Tiles with names and without; numerals as names, `null` as a name, repeats, empty names, names that are no UTF-8."""
    for turn in range(240):
        names = draw.tile_names(draw.pick([1, 2, 3, 4, 5, 6, 12, draw.between(1, 40)]), raw=turn % 15 == 0)
        yield case("tile_name", draw.tile_name(names, draw.between(0, len(names) - 1)))


def seeds(draw):
    """Seeds that are in order, several on one bay; numerals, `null` and repeated names among the tiles."""
    for turn in range(240):
        rows, cols = draw.pick([(1, 1), (1, 2), (2, 2), (3, 5), (32, 32), (draw.between(1, 32), draw.between(1, 32))])
        names = draw.tile_names(draw.pick([1, 2, 3, 4, 5, 8, draw.between(1, 20)]), raw=turn % 15 == 0)
        seeds = draw.any_seeds(draw.pick([0, 1, 1, 2, 3, 4, 6]), rows, cols, names)
        yield case("seeds_by_name", draw.seeds(rows, cols, names, seeds))


def chosen_seeds(draw):
    """A tile named `null`, or like another's numeral, before it and behind; the same name twice; names of stars."""
    for names in [[b"null"], [b"1", None, None], [None, b"0"], [b"0", None], [None, None, b"1"], [b"x"] * 3, [b"", b""]]:
        for name in [b"null", b"0", b"1", b"2", b"x", b"", b"00", b"null*"]:
            yield case("seeds_by_name", draw.seeds(1, 1, [b"null", *names], [(0, 0, name)]))
    for name in [b"a", b"a*", b"a**", b"*", b"a*b"]:
        tiles = [b"null", b"a*", b"a", b"*", b"a*b"]
        yield case("seeds_by_name", draw.seeds(2, 1, tiles, [(1, 0, name), (1, 0, b"a")]))


def base_case(draw, call):
    """A small case that is in order, with a bay, a key or a seed to break."""
    if call == "register":
        sizes = draw.between(1, 3), draw.between(1, 3), draw.between(2, 3)
        return draw.register(*sizes, draw.bases(draw.between(1, 5)))
    if call == "energy_keys":
        bases = draw.bases(draw.between(1, 4))
        return draw.keys_over(bases, [draw.key(bases) for _ in range(draw.between(1, 4))])
    names = draw.tile_names(draw.between(1, 5))
    if call == "tile_name":
        return draw.tile_name(names, draw.between(0, len(names) - 1))
    rows, cols = draw.between(1, 4), draw.between(1, 4)
    return draw.seeds(rows, cols, names, draw.any_seeds(draw.between(1, 4), rows, cols, names))


def spoiled(draw, call, faults):
    fields = base_case(draw, call)
    for fault in faults:
        fields = fault(draw, fields)
    return case(call, fields)


def one_fault(draw):
    """Each call with each of its faults alone."""
    for call, levels in FAULTS.items():
        for fault in [fault for level in levels for fault in level]:
            yield from (spoiled(draw, call, [fault]) for _ in range(2))


def several_faults(draw):
    """Faults of two refusals and of three in one case: the order of refusals. Of bad keys or seeds the first counts."""
    for call, levels in FAULTS.items():
        for deep, shallow in [(0, 1), (0, 2), (1, 2)]:
            for turn in range(max(len(levels[deep]), len(levels[shallow]))):
                faults = [levels[level][turn % len(levels[level])] for level in (deep, shallow)]
                yield spoiled(draw, call, faults)
        yield from (spoiled(draw, call, [draw.pick(level) for level in levels]) for _ in range(12))
        if call in ("energy_keys", "seeds_by_name"):
            for _ in range(40):
                yield spoiled(draw, call, [draw.pick(levels[0]) for _ in range(draw.between(2, 3))])


SECTIONS = [single_names, chosen_systems, small_systems, middle_systems, registered_keys, keys_apart, keys_met, chosen_keys]
SECTIONS += [chosen_base_lists, numerals, tile_names, seeds, chosen_seeds, one_fault, several_faults, *LIMITS]


def any_case(draw):
    """One case of any kind: in order, or with one fault or more."""
    call = draw.pick([*FAULTS, "register", "energy_keys", "self_and_inverse"])
    if call == "self_and_inverse":
        return case(call, {"name": draw.pick(draw.pick([*SORTS, RAW])) + draw.stars()})
    if draw.often(1, 3):
        return spoiled(draw, call, [draw.pick(level) for level in FAULTS[call] if draw.often(1, 2)])
    return case(call, any_fields(draw, call))


def any_fields(draw, call):
    raw = draw.often(1, 20)
    rows, cols, strands = (draw.pick([draw.between(1, 4), draw.between(1, 32)]) for _ in range(3))
    if call == "register":
        if draw.often(1, 20):
            return with_128(draw, rows, cols, draw.between(27, 64))
        bases, most = draw.bases(draw.between(1, 30), raw), draw.pick([1] * 8 + [9])
        return draw.register(rows, cols, strands, bases, draw.between(0, 5), most)
    if call == "energy_keys":
        bases = draw.bases(draw.between(0, 30), raw)
        any_keys = [draw.key(bases) for _ in range(draw.between(0, 20))]
        return draw.keys_over(bases, draw.pick([any_keys, draw.keys_apart(20, bases)]))
    names = draw.tile_names(draw.between(1, 64), raw)
    if call == "tile_name":
        return draw.tile_name(names, draw.between(0, len(names) - 1))
    return draw.seeds(rows, cols, names, draw.any_seeds(draw.between(0, 9), rows, cols, names))


def on_keys(line):
    """Whether a case is one on energy keys."""
    return line.split(" ")[0] == "energy_keys"


if __name__ == "__main__":
    generate("names", SECTIONS, any_case, NameDraw, lambda line: not on_keys(line))
