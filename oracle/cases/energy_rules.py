"""The rules for the energy of a layout, read on their own: refusals 1 to 6 and 10, and the listing sum.

Nothing here comes from the Rust. Beside each refusal stands what the Rust is known to do there (verdicts.py). The energy is
worked out in Python's binary64 to hold the Rust's against it; the frozen line is the Rust's where it can be asked.
"""

from math import inf, isnan

from casefile import write_float
from names_rules import when
from systems_rules import BOTTOM, EAST, NORTH, R, SOUTH, WEST, System, read_small, system
from verdicts import CANNOT, PANICS, judged

# Where the Rust answers though 01 refuses.
NO_ENERGY = "a listing sum that is NaN or minus infinity"

# The logarithms for which the oracle looks for a concentration: these, and those of a size from 1 to 700.
LOOKED_FOR = [write_float(0.0), write_float(-inf)]


def _is_looked_for(log):
    return write_float(log) in LOOKED_FOR or 1.0 <= abs(log) <= 700.0


def site(s, bay, strand):
    return 0.0 if strand == 0 else s.bond(s.scaffold[bay], s.glue(strand, BOTTOM)) - s.logs[strand]


def edge(s, first, second, side, other):
    """Two neighbours by the sides that meet."""
    return 0.0 if 0 in (first, second) else s.bond(s.glue(first, side), s.glue(second, other))


def listing_sum(s, layout):
    total = 0.0
    for bay, strand in enumerate(layout):
        row, col = divmod(bay, s.cols)
        total += site(s, bay, strand)
        if col > 0:
            total += edge(s, layout[bay - 1], strand, EAST, WEST)
        if row > 0:
            total += edge(s, layout[bay - s.cols], strand, SOUTH, NORTH)
    return total


def is_asked(s):
    """What keeps the Rust from being asked, apart from refusals: a logarithm that no known concentration has."""
    return all(map(_is_looked_for, s.logs[1:]))


def _system(s):
    """1 to 4. Which glues the Rust reads depends on the layout, so where one is past the count it is not asked."""
    return [(line, CANNOT if line.startswith("refused 2") else rust) for line, rust in system(s, True)]


def _written(energy):
    return "energy nan" if isnan(energy) else f"energy {write_float(energy)}"


def _state_g(fields):
    s = System(fields)
    layout = read_small(fields, "layout")
    reasons = _system(s) + when(len(layout) != s.bays, 5, PANICS)
    for bay, strand in enumerate(layout):
        reasons += when(strand >= s.strands, f"6 {bay}", PANICS)
    answer = None
    if not reasons:
        total = listing_sum(s, layout)
        answer = _written(total * (R * s.kelvin))
        reasons = when(not total > -inf, 10, NO_ENERGY)
    return judged(reasons, [], answer, is_asked(s))


CALLS = {"state_g": _state_g}
