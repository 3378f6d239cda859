#!/usr/bin/env python3
"""Writes the case file for sequences to standard output, the same bytes each time.

    oracle/cases/sequences.py                      the cases of crates/answers/data/sequences.cases
    oracle/cases/sequences.py --large N --seed S   N cases of all kinds at random, for comparisons by hand

How many cases each kind has goes to standard error.
"""

import sys
from itertools import product

sys.dont_write_bytecode = True
from casefile import write_float, write_text
from draw import BAD, KELVINS, NAN, OTHERS, OUTSIDE, Draw
from generate import generate
from rules import PARTNER, TABLED

LIMITS = [0, 1, 2, 255, 256, 257]
MISSING = [length for length in range(2, 254) if length not in TABLED]
WHERE = ["first", "last", "any"]


def dg_ds(dna):
    return f"string_dna_dg_ds dna={write_text(dna)}"


def delta_g(dna, kelvin):
    return f"string_dna_delta_g kelvin={kelvin} dna={write_text(dna)}"


def hundredths(dna):
    return f"string_dna_hundredths dna={write_text(dna)}"


def singles(dna, kelvin):
    """The three calls on one sequence."""
    return [dg_ds(dna), delta_g(dna, kelvin), hundredths(dna)]


def pair(a, b):
    return f"sequence_pair_str_dg_ds a={write_text(a)} b={write_text(b)}"


def words(longest, letters=b"ACGT"):
    """Every sequence up to that length."""
    return [bytes(word) for length in range(longest + 1) for word in product(letters, repeat=length)]


def short_singles(draw):
    """Every sequence of at most 4 letters; every two letters in small and capital."""
    for dna in words(4) + [two for two in words(2, b"acgtACGT") if len(two) == 2]:
        yield dg_ds(dna)
        yield hundredths(dna)


def temperatures(draw):
    """Every short sequence inside the range; chosen sequences, refused ones too, at chosen temperatures and any bits."""
    for dna in words(4):
        yield from (delta_g(dna, draw.kelvin()) for _ in range(3))
    for dna in [b"", b"A", b"AC", b"cgatg", b"TTTT", b"GCGCGCGC", b"AN", b"n", draw.dna(20)]:
        yield from (delta_g(dna, kelvin) for kelvin in KELVINS)
    for _ in range(150):
        yield delta_g(draw.styled(draw.dna(draw.between(0, 8))), f"{draw.bits():016x}")


def short_pairs(draw):
    """Every two sequences of at most 3 letters each; every letter over every letter, small and capital."""
    yield from (pair(a, b) for a, b in product(words(3), repeat=2))
    yield from (pair(bytes([x]) + b"A", bytes([y]) + b"t") for x, y in product(b"acgtACGT", repeat=2))


def long_singles(draw):
    """At the limits of length, and of any length between them."""
    for length in LIMITS * 2:
        yield from singles(draw.styled(draw.dna(length)), draw.kelvin())
    for _ in range(110):
        yield from singles(draw.styled(draw.dna(draw.between(2, 256))), draw.kelvin())


def long_pairs(draw):
    """At the limits of length, equal and not; letters at random, and patterns of loops."""
    for m, n in product(LIMITS, repeat=2):
        yield pair(draw.styled(draw.dna(m)), draw.styled(draw.dna(n)))
    for length in LIMITS:
        yield pair(*draw.over("g" * length))
    for _ in range(150):
        length = draw.between(4, 12)
        yield pair(draw.styled(draw.dna(length)), draw.styled(draw.dna(length)))
    for _ in range(40):
        length = draw.between(13, 256)
        yield pair(draw.dna(length), draw.dna(length))
    for _ in range(120):
        yield pair(*draw.over(draw.pattern(60)))
    for _ in range(60):
        yield pair(*draw.over(draw.pattern(256)))


def single_mismatches(draw):
    """One pair of letters that does not meet, at each place and in each way; several, each alone."""
    for length in range(1, 10):
        for place in range(length):
            a = draw.dna(length)
            for wrong in range(3):
                b = bytearray(PARTNER[letter] for letter in a)
                b[place] = OTHERS[b[place]][wrong]
                yield pair(draw.styled(a), draw.styled(bytes(b)))
    for place in range(40):
        yield pair(*draw.over("g" * place + "x" + "g" * (39 - place)))
    for place in [0, 1, 127, 254, 255]:
        yield pair(*draw.over("g" * place + "x" + "g" * (255 - place)))
    for _ in range(60):
        alone = "".join(draw.pick(["xgg", "xggg", "gg"]) for _ in range(draw.between(2, 40)))
        yield pair(*draw.over(alone))


def tabled_loops(draw):
    """Loops of each length that has a value: inside, with letters that meet inside it, and open at either end."""
    for length in TABLED:
        plain, mixed = "x" * length, draw.loop(length)
        for loop in [plain, plain, mixed]:
            yield pair(*draw.over("g" * draw.between(1, 4) + loop + "g" * draw.between(2, 4)))
        for loop in [plain, mixed]:
            yield pair(*draw.over(loop + "x" + "g" * draw.between(2, 4)))
            yield pair(*draw.over("g" * draw.between(2, 4) + loop))
            yield pair(*draw.over("g" * draw.between(2, 4) + loop + "g"))


def missing_loops(draw):
    """Loops of each length that has none, up to the longest that fits: inside, and open at the start. Open at the end,
    or at both, they are answered."""
    for length in MISSING:
        yield pair(*draw.over("g" * draw.between(1, min(2, 254 - length)) + "x" * length + "gg"))
        yield pair(*draw.over(draw.loop(length) + "xgg"))
    for length in [1, 2, 11, 13, 15, 17, 19, 24, 29, 31, 40, 100, 200, 250]:
        yield pair(*draw.over("gg" + "x" * length))
        yield pair(*draw.over("gg" + "x" * length + "g"))
        yield pair(*draw.over("x" * length))
    yield from (pair(*draw.over(pattern)) for pattern in ["xg", "xxg", "xxxg", "xxgg", "xxxgg", "gxxg", "gxxgg", "ggxxg"])


def several_loops(draw):
    """Two or three loops, with values and without: the first without one counts."""
    lengths = {"t": TABLED[:10], "m": [2, 2, 11, 13, 15, 17, 19, 21, 22, 31]}
    for kinds in ["tt", "tm", "mt", "mm", "tmm", "mtt", "ttt", "ttm"]:
        for _ in range(20):
            loops = ["x" * draw.pick(lengths[kind]) for kind in kinds]
            met = ["g" * draw.between(2, 4) for _ in kinds]
            yield pair(*draw.over("g" * draw.between(1, 3) + "".join(map(str.__add__, loops, met))))
    for kinds in ["t", "m"]:
        for _ in range(10):
            loop = "x" * draw.pick(lengths[kinds])
            yield pair(*draw.over("g" + loop + "gg" + "x" * draw.between(1, 20)))


def bad_bytes(draw):
    """Every byte there is at one place of a single, of a first and of a second sequence."""
    for byte in range(256):
        dna = b"AC" + bytes([byte]) + b"T"
        yield dg_ds(dna)
        yield pair(dna, b"TGCA") if byte & 1 else pair(b"TGCA", dna)


def damaged(draw):
    """Copies with a byte that is no letter at the first, the last or any place, of one sequence or both."""
    for bad, where in product(BAD, WHERE):
        dna = draw.styled(draw.dna(draw.between(2, 12)))
        place = {"first": 0, "last": len(dna)}.get(where, draw.between(0, len(dna)))
        broken = dna[:place] + bad + dna[place:]
        yield draw.pick(singles(broken, draw.kelvin()))
        yield pair(*draw.pick([(broken, dna), (dna, broken)]))
    for where in WHERE * 30:
        dna = draw.styled(draw.dna(draw.between(1, 256)))
        yield draw.pick(singles(draw.damaged(dna, where), draw.any_kelvin()))
    for first, second in [(first, second) for first in WHERE for second in WHERE] * 8:
        a, b = draw.over("g" * draw.between(1, 30))
        yield pair(draw.damaged(a, first), draw.damaged(b, second))


def joined(draw):
    """Several faults in one case: the order of refusals."""
    for length in [0, 1, 2, 255, 256, 257, 258, 300]:
        good = draw.dna(length)
        last = good[:-1] + b"n"
        for kelvin in [draw.kelvin(), write_float(OUTSIDE[0]), NAN[0]]:
            yield delta_g(last, kelvin)
            yield delta_g(good, kelvin)
        yield from [dg_ds(last), hundredths(last), dg_ds(b"n" + good), hundredths(b"n" + good)]
        other = draw.dna(draw.pick([0, 1, length, length + 1, 257]))
        yield from [pair(last, other), pair(other, last), pair(good, other[:-1] + b"U"), pair(last, last)]
        yield from [pair(good, last + b"u"), pair(last + b"A", good), pair(good, good + b"A"), pair(good + b"A", good)]
    for _ in range(20):
        a, b = draw.over("gxxggxxxxxxxxxxxggg")
        yield pair(a, draw.pick([b[:-1], b + b"A", draw.damaged(b, "any"), b]))


def readings(draw):
    """What docs/CASES.md says of fields: free order, unknown keys, a key twice, words that are no field; and lines that are no case."""
    yield "string_dna_delta_g dna=cgatg kelvin=4073626666666666"
    yield "string_dna_dg_ds note= dna=cgatg other=1"
    yield "string_dna_dg_ds dna=cgatg dna=ccc"
    yield "sequence_pair_str_dg_ds b=TGC a=ACG"
    yield "string_dna_dg_ds dna=AC=GT"
    yield from ["string_dna_dg_ds note dna=cgatg", "string_dna_dg_ds  dna=cgatg ", "string_dna_dg_ds dna dna=cgatg", "string_dna_dg_ds =x dna=cgatg"]
    for line in ["string_dna", "string_dna_dg_dsx dna=AC", "STRING_DNA_DG_DS dna=AC", "string_dna_dg_ds", "string_dna_dg_ds dna"]:
        yield line
    yield from ["string_dna_dg_ds sequence=AC", "string_dna_dg_ds DNA=AC", "string_dna_delta_g dna=AC", "string_dna_hundredths a=AC"]
    yield from ["sequence_pair_str_dg_ds a=AC", "sequence_pair_str_dg_ds b=AC"]
    for kelvin in ["", "310.15", "407362666666666", "40736266666666660", "407362666666666G", "7FF8000000000000"]:
        yield f"string_dna_delta_g kelvin={kelvin} dna=AC"
    for dna in ["%", "%4", "%zz", "%4E", "%41C", "A,C", "AC\t", "AC\r", "A\x7fC"]:
        yield f"string_dna_dg_ds dna={dna}"


SECTIONS = [short_singles, temperatures, short_pairs, long_singles, long_pairs, single_mismatches, tabled_loops]
SECTIONS += [missing_loops, several_loops, bad_bytes, damaged, joined, readings]


def any_case(draw):
    """One case of any kind."""
    kind = draw.between(0, 9)
    length = draw.pick([draw.between(0, 6), draw.between(2, 40), draw.between(2, 256), draw.between(254, 258)])
    if kind < 3:
        return draw.pick(singles(draw.styled(draw.dna(length)), draw.any_kelvin()))
    if kind == 3:
        dna = draw.styled(draw.dna(length + 1))
        return draw.pick(singles(draw.damaged(dna, draw.pick(WHERE)), draw.any_kelvin()))
    if kind == 4:
        return pair(draw.styled(draw.dna(length)), draw.styled(draw.dna(draw.pick([length] * 9 + [length + 1, 3]))))
    a, b = draw.over(draw.pattern(draw.pick([6, 12, 40, 100, 256, 258])))
    if kind == 5:
        a = draw.damaged(a, draw.pick(WHERE)) if a and draw.bits() & 1 else a
        b = draw.damaged(b, draw.pick(WHERE)) if b and draw.bits() & 1 else b
    return pair(a, b)


if __name__ == "__main__":
    generate("sequences", SECTIONS, any_case, Draw)
