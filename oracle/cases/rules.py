"""The rules for sequences, read on their own: which case is refused and how, and the hundredths mode.

Nothing here comes from the Rust, and no float is worked out. Beside each refusal stands what the Rust is known to do
there, so that `oracle/freeze.py` can hold every line of its answers against it: PANICS, or the name of a recorded
difference under which it answers.
"""

from casefile import read_float, read_text
from verdicts import PANICS, Verdict, judged

LONG = "over 256 letters"
WARM = "kelvin outside 200 to 500"
BETWEEN = "loop length that is not tabled"

LIMIT = 256
TABLED = [3, 4, 5, 6, 7, 8, 9, 10, 12, 14, 16, 18, 20, 25, 30]
PARTNER = dict(zip(b"ACGT", b"TGCA"))

# The hundredths mode: the table's steps times 100, and the starting term.
START = 196
END = 5
STEPS = {
    "TT AA": -100,
    "CC GG": -184,
    "GT AC": -144,
    "CA TG": -145,
    "GA TC": -130,
    "CT AG": -128,
    "TA": -58,
    "AT": -88,
    "CG": -217,
    "GC": -224,
}
STEP = {step.encode(): value for steps, value in STEPS.items() for step in steps.split()}


def _letters(which, dna):
    """Refusal 11: the first letter that is none."""
    for place, letter in enumerate(dna):
        if letter not in b"acgtACGT":
            return [(f"refused 11 {which} {place}", PANICS)]
    return []


def _temperature(kelvin):
    return [] if 200.0 <= kelvin <= 500.0 else [("refused 1", WARM)]


def _limit(*sequences):
    return [("refused 13", LONG)] if max(map(len, sequences)) > LIMIT else []


def single(dna, which=0):
    """What one sequence is refused for, in the rules' order."""
    return _limit(dna) + _letters(which, dna) + ([("refused 12", PANICS)] if len(dna) < 2 else [])


def _pair(a, b):
    """What two sequences are refused for, in the rules' order. Loops have a meaning only where all before is in order."""
    letters = _letters(0, a) + _letters(1, b)
    unequal = [("refused 13", PANICS)] if len(a) != len(b) else []
    loops = [] if letters or unequal else _loops(a.upper(), b.upper())
    return _limit(a, b) + letters + unequal + loops


def closed_loops(a, b):
    """The lengths of the closed loops, from left to right, of two sequences in capitals."""
    meets = [PARTNER[x] == y for x, y in zip(a, b)]
    lengths, bad = [], 0
    for good in map(lambda x, y: x and y, meets, meets[1:]):
        if not good:
            bad += 1
        else:
            lengths += [bad - 1] if bad > 2 else []
            bad = 0
    return lengths


def _loops(a, b):
    """Refusal 14: the first closed loop without a value. The Rust has a value for all of them but length 2."""
    missing = [length for length in closed_loops(a, b) if length not in TABLED]
    return [(f"refused 14 {missing[0]}", PANICS if 2 in missing else BETWEEN)] if missing else []


def _dg_ds(fields):
    dna = read_text(fields, "dna")
    return judged(single(dna), [dna])


def _delta_g(fields):
    dna, kelvin = read_text(fields, "dna"), read_float(fields, "kelvin")
    return judged(_temperature(kelvin) + single(dna), [dna])


def _pair_dg_ds(fields):
    a, b = read_text(fields, "a"), read_text(fields, "b")
    return judged(_pair(a, b), [a, b])


def _hundredths(fields):
    """A call that the Rust lacks: the answer is whole numbers and is the rules' own."""
    dna = read_text(fields, "dna")
    reasons = single(dna)
    return Verdict(reasons[0][0] if reasons else f"hundredths {hundredths(dna.upper())}", "none")


def hundredths(dna):
    steps = sum(STEP[dna[at : at + 2]] for at in range(len(dna) - 1))
    return steps + START + (END if {dna[0], dna[-1]} & set(b"AT") else 0)


CALLS = {
    "string_dna_dg_ds": _dg_ds,
    "string_dna_delta_g": _delta_g,
    "string_dna_hundredths": _hundredths,
    "sequence_pair_str_dg_ds": _pair_dg_ds,
}
