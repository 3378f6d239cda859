"""The rules for systems, read on their own: refusals 1 to 5 and 7 in the rules' order, legal strands, and bonds.

Nothing here comes from the Rust. Beside each refusal stands what the Rust is known to do there (verdicts.py). Legal
strands and bonds are worked out to hold the Rust's against them; the frozen line is the Rust's.
"""

from math import inf, isfinite

from casefile import Unreadable, read_float, read_floats, read_number, read_numbers, read_or, write_float, write_list
from names_rules import kept, when
from verdicts import CANNOT, PANICS, judged

# The rules' limits; then the oracle's own, past which the Rust is not asked, and the longest matrix that a case can lend.
SIDE, STRANDS, GLUES = 32, 64, 256
LONGEST_SIDE, MOST_STRANDS, LONGEST_MATRIX = 256, 128, 66049
R, KELVIN_37 = 1.98720425864083 / 1000.0, 310.15
NORTH, EAST, SOUTH, WEST, BOTTOM = range(5)

# Where the Rust answers though 01 refuses.
SIZES = "no glue, or more rows, columns, strands or glues"
WARM = "kelvin outside 200 to 500"
UNREAD = "a glue number not below the count that the call does not read"
ENERGY = "an energy that is not finite"
LOG = "a log concentration that is NaN or plus infinity"
TABLE = "a lent table of another length"
EMPTY = "a bay without a legal strand"


def read_small(fields, key):
    """A list of numbers below 2^32."""
    numbers = read_numbers(fields, key)
    if any(number >= 2**32 for number in numbers):
        raise Unreadable
    return numbers


class System:
    """A system as a case has it. A matrix is its length and, by their places, the cells that the case names."""

    def __init__(self, fields):
        self.rows, self.cols = read_number(fields, "rows"), read_number(fields, "cols")
        self.strands, self.glues = read_number(fields, "strands"), read_number(fields, "glues")
        self.kelvin, self.logs = read_float(fields, "kelvin"), read_floats(fields, "logs")
        self.strand_glues, self.scaffold = read_small(fields, "strand_glues"), read_small(fields, "scaffold")
        seeds = read_small(fields, "seeds")
        self.whole_seeds, self.seeds = len(seeds) % 3 == 0, list(zip(seeds[::3], seeds[1::3], seeds[2::3]))
        cells, energies = read_numbers(fields, "cells"), read_floats(fields, "energies")
        if len(cells) % 2 or len(cells) != len(energies):
            raise Unreadable
        places = [row * self.glues + col for row, col in zip(cells[::2], cells[1::2])]
        self.delta_g = self._matrix(fields, "delta_g_length", zip(places, energies[::2]))
        self.entropy = self._matrix(fields, "entropy_length", zip(places, energies[1::2]))

    def _matrix(self, fields, key, cells):
        length = read_or(fields, key, read_number, self.glues**2)
        if length > LONGEST_MATRIX:
            raise Unreadable
        return length, {place: energy for place, energy in cells if place < length}

    @property
    def bays(self):
        return self.rows * self.cols

    def glue(self, strand, side):
        return self.strand_glues[5 * strand + side]

    def energies(self, a, b):
        """ΔG and ΔS of the cell of two glues, in this index order."""
        place = a * self.glues + b
        return self.delta_g[1].get(place, 0.0), self.entropy[1].get(place, 0.0)

    def bond(self, a, b):
        dg, ds = self.energies(a, b)
        return (dg - (self.kelvin - KELVIN_37) * ds) / (R * self.kelvin)


def _sizes(s):
    """1: sizes and temperature. The Rust has no system without a row, a column, or strand 0."""
    reasons = []
    for side in [s.rows, s.cols]:
        reasons += when(side == 0, 1, PANICS) + when(side > SIDE, 1, CANNOT if side > LONGEST_SIDE else SIZES)
    reasons += when(s.strands == 0 or s.strands > MOST_STRANDS, 1, CANNOT) + when(s.strands > STRANDS, 1, SIZES)
    return reasons + when(not 1 <= s.glues <= GLUES, 1, SIZES) + when(not 200.0 <= s.kelvin <= 500.0, 1, WARM)


def _lengths(s):
    """1: slices. The Rust's tables have the length that their sizes ask."""
    pairs = [(len(s.strand_glues), 5 * s.strands), (len(s.scaffold), s.bays), (len(s.logs), s.strands)]
    pairs += [(s.delta_g[0], s.glues**2), (s.entropy[0], s.glues**2)]
    return when(not s.whole_seeds or any(has != right for has, right in pairs), 1, CANNOT)


def _glues(s, sides):
    """2. Where there is a strand above 0 the Rust reads its bottom glue and the bays', and the others if `sides` are asked."""
    reasons = []
    for place, glue in enumerate(s.strand_glues + s.scaffold):
        strand, side = divmod(place, 5)
        of_strand = strand > 0 and (sides or side == BOTTOM)
        read = of_strand if place < len(s.strand_glues) else s.strands > 1
        reasons += when(glue >= s.glues, f"2 {place}", PANICS if read else UNREAD)
    return reasons


def _energies(s):
    """3. Strand 0's logarithm has a place and is never read."""
    places = [place for place, energy in s.delta_g[1].items() if not isfinite(energy)]
    places += [s.delta_g[0] + place for place, energy in s.entropy[1].items() if not isfinite(energy)]
    logs = s.delta_g[0] + s.entropy[0]
    bad = [logs + place for place, log in enumerate(s.logs) if place > 0 and not log < inf]
    return [(f"refused 3 {place}", ENERGY if place < logs else LOG) for place in sorted(places) + bad]


def _seeds(s):
    """4."""
    reasons = []
    for number, (row, col, strand) in enumerate(s.seeds):
        reasons += when(row >= s.rows or col >= s.cols or strand >= s.strands, f"4 {number}", PANICS)
    return reasons


def system(s, sides):
    """Refusals 1 to 4, in rising order."""
    return _sizes(s) + _lengths(s) + _glues(s, sides) + _energies(s) + _seeds(s)


def shapes(s, offsets, tiles, lent):
    """5: what is lent to be filled, one place a bay, and the constraints where there are any."""
    reasons = when(lent != s.bays, 5, TABLE)
    if offsets is not None:
        ends = len(offsets) == s.bays + 1 and offsets[0] == 0 and offsets[-1] == len(tiles)
        falls = any(a > b for a, b in zip(offsets, offsets[1:]))
        reasons += when(not ends or falls, 5, CANNOT)
    return reasons


def legal(s, bay):
    """The legal strands of a bay, before any list."""
    row, col = divmod(bay, s.cols)
    seeded = [strand for *place, strand in s.seeds if place == [row, col]]
    if seeded:
        return {seeded[-1]}
    glue = s.scaffold[bay]
    return {0} | {t for t in range(1, s.strands) if s.energies(glue, s.glue(t, BOTTOM)) != (0.0, 0.0)}


def listed(strands, named):
    """The legal strands that a list leaves: all where it is empty."""
    return strands & set(named) if named else strands


def scan(s):
    """The bays in scan order, by their row-by-row numbers."""
    if s.cols <= s.rows:
        return list(range(s.bays))
    return [row * s.cols + col for col in range(s.cols) for row in range(s.rows)]


def read_constraints(fields):
    """Offsets and tiles; where there are no constraints, None and nothing."""
    offsets = read_or(fields, "offsets", read_numbers, None)
    return offsets, [] if offsets is None else read_small(fields, "tiles")


def legal_sets(s, offsets, tiles):
    """The legal strands of each bay under constraints in order, row by row."""
    lists = [[]] * s.bays if offsets is None else [tiles[a:b] for a, b in zip(offsets, offsets[1:])]
    return [listed(legal(s, bay), lists[bay]) for bay in range(s.bays)]


def _allowed_tiles(fields):
    s = System(fields)
    offsets, tiles = read_constraints(fields)
    reasons = system(s, False) + shapes(s, offsets, tiles, read_or(fields, "sets_length", read_number, s.bays))
    answer = None
    if not reasons:
        sets = legal_sets(s, offsets, tiles)
        answer = f"sets {write_list(sum(1 << t for t in strands) for strands in sets)}"
        empty = [bay for bay in scan(s) if not sets[bay]]
        if empty:
            reasons, answer = when(True, f"7 {empty[0]}", EMPTY), f"{answer} first_empty={empty[0]}"
    return judged(kept(reasons), [], answer)


def _bonds(fields):
    s = System(fields)
    reasons = system(s, True)
    if reasons:
        return judged(reasons, [])
    strands = range(1, s.strands)
    we = [s.bond(s.glue(a, EAST), s.glue(b, WEST)) for a in strands for b in strands]
    ns = [s.bond(s.glue(a, SOUTH), s.glue(b, NORTH)) for a in strands for b in strands]
    scaffold = [s.bond(glue, s.glue(t, BOTTOM)) for glue in s.scaffold for t in strands]
    lists = [write_list(map(write_float, bonds)) for bonds in [we, ns, scaffold]]
    return judged([], [], "bonds we={} ns={} scaffold={}".format(*lists))


CALLS = {"allowed_tiles": _allowed_tiles, "bonds": _bonds}
