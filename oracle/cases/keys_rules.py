"""The rules for energy keys, read on their own, as names_rules.py has them for the other calls on names.

A sequence's sums are worked out in Python's floats, which are binary64 and rounded at each operation, as the rules ask.
"""

from math import isfinite, isnan

from casefile import read_bytes, read_floats, read_number, read_numbers, read_or, read_text, write_float
from names_rules import BASES, LENGTHY, MANY, TABLE, TEXT
from names_rules import cannot, entries, kept, no_flags, overruns, self_and_inverse, when
from rules import STEP, single
from verdicts import CANNOT, PANICS, judged

# Where the Rust answers though 01 refuses, and where what it answers depends on the order of a hash map.
INFINITE = "a number that is not finite"
REPLACED = "a bad key before an equal one"
MEET = "keys that meet on one cell"

# The steps' ΔS in ten-thousandths; their ΔG stands in the rules for sequences, in hundredths.
ENTROPIES = {
    "TT AA": -213,
    "CC GG": -199,
    "GT AC": -224,
    "CA TG": -227,
    "GA TC": -222,
    "CT AG": -210,
    "TA": -213,
    "AT": -204,
    "CG": -272,
    "GC": -244,
}
ENTROPY = {step.encode(): value for steps, value in ENTROPIES.items() for step in steps.split()}


def base_energy(dna):
    """ΔG and ΔS of one sequence: the steps' values from 0.0 left to right, then the starting terms once."""
    dg = ds = 0.0
    for at in range(len(dna) - 1):
        step = dna[at : at + 2].upper()
        dg, ds = STEP[step] / 100 + dg, ENTROPY[step] / 10000 + ds
    return dg + 1.96, ds + 0.0057


class Keys:
    """A list of energy keys as a case has it, with the base list."""

    def __init__(self, fields):
        self.text, self.offsets = read_text(fields, "text"), read_numbers(fields, "offsets")
        self.paired, self.kinds = read_bytes(fields, "paired"), read_bytes(fields, "kinds")
        self.numbers = read_floats(fields, "numbers")
        self.sequences, self.sequence_offsets = read_text(fields, "sequences"), read_numbers(fields, "sequence_offsets")
        self.bases, self.count = read_numbers(fields, "bases"), read_number(fields, "count")
        self.length = max(read_or(fields, "bases_length", read_number, 2 * BASES), len(self.bases))
        self.side = read_or(fields, "side", read_number, 2 * self.count + 1)

    def ones(self):
        lengths = [len(self.offsets) - 1, 2 * len(self.paired), len(self.numbers), 2 * len(self.sequence_offsets) - 2]
        reasons = when(len(self.text) > TEXT, 1, LENGTHY)
        reasons += when(any(length != 2 * len(self.kinds) for length in lengths), 1, CANNOT)
        reasons += when(self.length != 2 * BASES, 1, TABLE) + when(self.count > BASES, 1, MANY)
        reasons += when(2 * self.count > self.length, 1, CANNOT)
        return reasons + when(self.side != 2 * self.count + 1, 1, TABLE)

    def seventeens(self):
        wrong = no_flags(self.paired) or no_flags(self.kinds) or overruns(self.text, self.offsets)
        wrong = wrong or overruns(self.sequences, self.sequence_offsets)
        return when(wrong or any(sum(place) > len(self.text) for place in self.base_places()), 17, CANNOT)

    def base_places(self):
        """Offset and length of each base. Places that are not written are 0; two bases of them show what more would."""
        count = min(self.count, len(self.bases) // 2 + 2)
        places = self.bases[: 2 * count] + [0] * (2 * count - len(self.bases))
        return list(zip(places[::2], places[1::2]))

    def base_names(self):
        return [self.text[start : start + length] for start, length in self.base_places()]

    def all(self):
        """The keys, each a tuple of one name or two."""
        names = entries(self.text, self.offsets)
        return [tuple(names[2 * k : 2 * k + 1 + paired]) for k, paired in enumerate(self.paired)]

    def energy(self, k):
        """A key's refusals, and its ΔG and ΔS where it has them."""
        if self.kinds[k] == 0:
            numbers = self.numbers[2 * k : 2 * k + 2]
            return when(not all(map(isfinite, numbers)), f"3 {k}", INFINITE), numbers
        dna = entries(self.sequences, self.sequence_offsets)[k]
        reasons = single(dna, k)
        return reasons, None if any(rust == PANICS for _, rust in reasons) else base_energy(dna)


def _glue(name, bases):
    """What a name resolves to, None where its base is not registered. First match counts."""
    base, stars = self_and_inverse(name)
    return 2 * bases.index(base) + 1 + stars % 2 if base in bases else None


def joined(key, bases):
    """The two glues that a key joins: of one name its base and inverse, however many stars it has."""
    if len(key) == 1:
        base, _ = self_and_inverse(key[0])
        key = (base, base + b"*")
    return [_glue(name, bases) for name in key]


def _energy_keys(fields):
    lent = Keys(fields)
    reasons = lent.ones() + lent.seventeens()
    if cannot(reasons):
        return judged(kept(reasons), [])
    keys, bases, cells, meet = lent.all(), lent.base_names(), {}, False
    for k, key in enumerate(keys):
        refused, energy = lent.energy(k)
        if key in keys[k + 1 :]:
            # The Rust holds the last of equal keys and never reads the others; here its cells are set again as well.
            meet, reasons = True, reasons + [(line, REPLACED) for line, _ in refused]
            continue
        reasons += refused
        i, j = joined(key, bases)
        if i is not None and j is not None:
            meet = meet or (i, j) in cells
            cells[i, j] = cells[j, i] = energy
    handed = bases + [name for key in keys for name in key]
    handed += [dna for dna, kind in zip(entries(lent.sequences, lent.sequence_offsets), lent.kinds) if kind]
    ours = len(set(bases)) < len(bases) or any(base.endswith(b"*") for base in bases)
    verdict = judged(kept(reasons), handed, _matrices(cells), not ours)
    if meet and verdict.rust == "answer" and not reasons:
        # The Rust would go by hash; it is asked with the last of these keys alone, and 01 gives the line.
        verdict.line, verdict.difference = verdict.answer, MEET
    return verdict


def _matrices(cells):
    def written(energy):
        return ",".join("nan" if isnan(number) else write_float(number) for number in energy)

    set_ones = [(at, energy) for at, energy in sorted(cells.items()) if energy and any(number != 0.0 for number in energy)]
    return "matrices" + "".join(f" {i},{j}={written(energy)}" for (i, j), energy in set_ones)


CALLS = {"energy_keys": _energy_keys}
