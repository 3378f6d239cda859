"""The rules for names, read on their own: the whole answer to every case, and its refusals in the rules' order.

Nothing here comes from the Rust. Beside each refusal stands what the Rust is known to do there (verdicts.py).
"""

from casefile import read_bytes, read_number, read_numbers, read_or, read_text, write_list, write_text
from verdicts import CANNOT, PANICS, judged

# The rules' limits. A grid with a side over the last of them is not put to the Rust, because it would have to be built.
SIDE, STRANDS, TEXT, BASES, BUILT = 32, 64, 16384, 127, 256
NUMERALS = "".join(f"{place:02}" for place in range(63)).encode()

# Where the Rust answers though 01 refuses.
LARGE = "more rows, columns or strands"
LENGTHY = "over 16,384 bytes of names"
TABLE = "a lent table of another length"
MANY = "over 127 bases"
DIGITS = "another numerals text"


def self_and_inverse(name):
    """A name's base, and how many stars follow it."""
    base = name.rstrip(b"*")
    return base, len(name) - len(base)


def entries(text, offsets):
    return [text[start:end] for start, end in zip(offsets, offsets[1:])]


def when(wrong, refusal, rust):
    return [(f"refused {refusal}", rust)] if wrong else []


def kept(reasons):
    """Refusals of a call that has lent tables, which stay as they were."""
    return [(line + " kept", rust) for line, rust in reasons]


def cannot(reasons):
    return any(rust == CANNOT for _, rust in reasons)


def _sides(rows, cols):
    reasons = []
    for side in [rows, cols]:
        reasons += when(side == 0, 1, PANICS) + when(side > SIDE, 1, CANNOT if side > BUILT else LARGE)
    return reasons


def _strands(strands):
    return when(strands == 0, 1, CANNOT) + when(strands > STRANDS, 1, LARGE)


def overruns(text, offsets):
    """An offset falls, or overruns its text."""
    return any(offset > len(text) for offset in offsets) or any(a > b for a, b in zip(offsets, offsets[1:]))


def no_flags(flags):
    return any(flag > 1 for flag in flags)


class Names:
    """A text of names as a case has it, with what 1 and 17 say of it."""

    def __init__(self, fields):
        self.text, self.offsets = read_text(fields, "text"), read_numbers(fields, "offsets")
        self.present = read_bytes(fields, "present")

    def ones(self, count):
        counts = len(self.offsets) != count + 1 or len(self.present) != count
        return when(len(self.text) > TEXT, 1, LENGTHY) + when(counts, 1, CANNOT)

    def seventeens(self):
        return when(no_flags(self.present) or overruns(self.text, self.offsets), 17, CANNOT)

    def of_tiles(self, strands, numerals):
        """1 and 17 of the names of tiles: entry 0 is `null`, and the numerals are the rules'."""
        ones = _strands(strands) + self.ones(strands)
        seventeens = self.seventeens()
        if not cannot(ones + seventeens):
            seventeens += when(self.all()[0] != b"null", 17, CANNOT)
        return ones, seventeens + when(numerals != NUMERALS, 17, DIGITS)

    def all(self):
        """The names, None where one is absent."""
        both = zip(entries(self.text, self.offsets), self.present)
        return [name if present else None for name, present in both]

    def shown(self):
        return [name if name is not None else b"%d" % (tile - 1) for tile, name in enumerate(self.all())]

    def handed(self):
        """What the Rust is handed of them."""
        return [name for name in self.all() if name is not None]


def _self_and_inverse(fields):
    name = read_text(fields, "name")
    base, stars = self_and_inverse(name)
    return judged([], [name], f"base {write_text(base)} {'inverse' if stars % 2 else 'base'}")


def registered(names):
    """The glue of each name, the first entry of each base, and of the 128th base."""
    numbers, firsts, glues = {}, [], []
    for entry, name in enumerate(names):
        if name is None:
            glues.append(0)
            continue
        base, stars = self_and_inverse(name)
        if base not in numbers:
            numbers[base] = 2 * len(numbers) + 1
            firsts.append(entry)
        glues.append(numbers[base] + stars % 2)
    return glues, firsts, firsts[BASES : BASES + 1]


def _register(fields):
    rows, cols, strands = (read_number(fields, key) for key in ["rows", "cols", "strands"])
    lent, bays = Names(fields), rows * cols
    right = {"glues_length": strands * 5, "scaffold_length": bays, "bases_length": 2 * BASES}
    ones = _sides(rows, cols) + _strands(strands) + lent.ones((strands - 1) * 5 + bays)
    for table, length in right.items():
        ones += when(read_or(fields, table, read_number, length) != length, 1, TABLE)
    reasons = ones + lent.seventeens()
    if cannot(reasons):
        return judged(kept(reasons), [])
    names = lent.all()
    scaffold = names[len(names) - bays :]
    glues, firsts, too_many = registered(names)
    starred = [bay for bay, name in enumerate(scaffold) if name is not None and name.endswith(b"**")]
    reasons += [(f"refused 15 {entry}", MANY) for entry in too_many]
    reasons += [(f"refused 16 {bay}", PANICS) for bay in starred[:1]]
    bases = [number for entry in firsts for number in (lent.offsets[entry], len(self_and_inverse(names[entry])[0]))]
    lists = {"glues": [0] * 5 + glues[: len(names) - bays], "scaffold": glues[len(names) - bays :], "bases": bases}
    answer = f"registered {len(firsts)} " + " ".join(f"{key}={write_list(value)}" for key, value in lists.items())
    return judged(kept(reasons), lent.handed(), answer)


def _tile_name(fields):
    strands, lent, tile = read_number(fields, "strands"), Names(fields), read_number(fields, "tile")
    ones, seventeens = lent.of_tiles(strands, read_or(fields, "numerals", read_text, NUMERALS))
    reasons = ones + seventeens + when(tile >= strands, 6, PANICS)
    if cannot(reasons):
        return judged(reasons, [])
    shown = lent.shown()
    return judged(reasons, lent.handed(), f"name {write_text(shown[tile])}" if tile < strands else None)


def _seeds_by_name(fields):
    rows, cols, strands = (read_number(fields, key) for key in ["rows", "cols", "strands"])
    lent, places = Names(fields), read_numbers(fields, "places")
    text, offsets = read_text(fields, "seed_text"), read_numbers(fields, "seed_offsets")
    ones, seventeens = lent.of_tiles(strands, read_or(fields, "numerals", read_text, NUMERALS))
    count = len(places) // 2
    ones += _sides(rows, cols) + when(len(places) % 2, 1, CANNOT) + when(len(text) > TEXT, 1, LENGTHY)
    ones += when(len(offsets) != count + 1, 1, CANNOT)
    ones += when(read_or(fields, "seeds_length", read_number, 3 * count) != 3 * count, 1, TABLE)
    reasons = ones + seventeens + when(overruns(text, offsets), 17, CANNOT)
    if cannot(reasons):
        return judged(kept(reasons), [])
    shown, names, seeds = lent.shown(), entries(text, offsets), []
    for seed, (row, col, name) in enumerate(zip(places[::2], places[1::2], names)):
        reasons += when(row >= rows or col >= cols, f"4 {seed}", PANICS) + when(name not in shown, f"18 {seed}", PANICS)
        seeds += [row, col, shown.index(name) if name in shown else 0]
    return judged(kept(reasons), lent.handed() + names, f"seeds {write_list(seeds)}")


CALLS = {
    "self_and_inverse": _self_and_inverse,
    "register": _register,
    "tile_name": _tile_name,
    "seeds_by_name": _seeds_by_name,
}
