"""Ways to break a case on names: each spoils one thing that a refusal of the rules speaks of.

A fault takes the draw and the fields, and gives new fields. Where several are put into one case, those that 01 tests last
go first, because they need the fields in order.
"""

from draw import BAD
from draw_names import NOT_FINITE, names_of
from names_rules import NUMERALS, entries

HUGE = 2**64 - 1


def put(**values):
    return lambda draw, fields: {**fields, **values}


def off_by(key, by, right):
    """A lent table's length beside the right one, which the fields tell."""
    return lambda draw, fields: {**fields, key: max(0, right(fields) + by)}


def shorter(key):
    return lambda draw, fields: {**fields, key: fields[key][:-1]}


def longer(key, item=None):
    """One item more, like the last."""
    return lambda draw, fields: {**fields, key: fields[key] + (fields[key][-1:] or [0] if item is None else [item])}


def _place(fields, key, place, item):
    return {**fields, key: fields[key][:place] + [item] + fields[key][place + 1 :]}


def flag(key):
    """A byte that is not 0 or 1."""

    def fault(draw, fields):
        return _place(fields, key, draw.between(0, len(fields[key]) - 1), draw.pick([2, 2, 3, 128, 255]))

    return fault


def falls(key):
    """An offset one below the one before it; where there is none to fall, one that overruns."""

    def fault(draw, fields):
        offsets = fields[key]
        places = [place for place in range(1, len(offsets)) if offsets[place - 1] > 0]
        place = draw.pick(places) if places else 0
        return _place(fields, key, place, offsets[place - 1] - 1 if places else HUGE)

    return fault


def overruns(key, text, far=False):
    """The last offset, or any, is past its text by one, or far."""

    def fault(draw, fields):
        end = len(fields[text])
        place = len(fields[key]) - 1 if draw.often(1, 2) else draw.between(0, len(fields[key]) - 1)
        return _place(fields, key, place, draw.pick([HUGE, 2**63, 2**32 + end]) if far else end + 1)

    return fault


# The counts, flags and offsets of a text of names, and the sizes.
COUNTS = [shorter("offsets"), longer("offsets"), shorter("present"), longer("present")]
OFFSETS = [falls("offsets"), overruns("offsets", "text"), overruns("offsets", "text", far=True)]
SIZES = [put(**{key: size}) for key in ["rows", "cols"] for size in [0, 33]] + [put(strands=0), put(strands=65)]


def two_stars(draw, fields):
    """Two stars or more after a scaffold name."""
    names, bay = names_of(fields), draw.between(1, fields["rows"] * fields["cols"])
    names[-bay] = (names[-bay] or b"a").rstrip(b"*") + b"*" * draw.pick([2, 2, 3, 4, 5])
    return {**fields, **draw.lent(names)}


TABLES = [off_by("glues_length", by, lambda fields: 5 * fields["strands"]) for by in [-1, 1, -5]]
TABLES += [off_by("scaffold_length", by, lambda fields: fields["rows"] * fields["cols"]) for by in [-1, 1]]
TABLES += [put(bases_length=length) for length in [0, 253, 255, 256]]
REGISTER = [[two_stars], [flag("present"), *OFFSETS], [*SIZES, *COUNTS, *TABLES]]
# No table of the right length can be lent for these, so they say which one is.
REGISTER[2] += [put(rows=HUGE, scaffold_length=1), put(cols=HUGE, scaffold_length=1), put(strands=HUGE, glues_length=5)]


def _any_key(draw, fields, kind):
    k = draw.between(0, len(fields["kinds"]) - 1)
    return k, _place(fields, "kinds", k, kind)


def number(draw, fields):
    """A key's ΔG or ΔS that is not finite."""
    k, fields = _any_key(draw, fields, 0)
    for place in [2 * k, 2 * k + 1]:
        fields = _place(fields, "numbers", place, draw.number())
    return _place(fields, "numbers", 2 * k + draw.between(0, 1), draw.pick(NOT_FINITE))


def sequence(make):
    """A key's sequence made anew."""

    def fault(draw, fields):
        k, fields = _any_key(draw, fields, 1)
        dna = entries(fields["sequences"], fields["sequence_offsets"])
        dna[k] = make(draw)
        offsets = [sum(map(len, dna[:place])) for place in range(len(dna) + 1)]
        return {**fields, "sequences": b"".join(dna), "sequence_offsets": offsets}

    return fault


def _bad_letter(draw):
    dna = draw.styled(draw.dna(draw.between(0, 5)))
    place = draw.between(0, len(dna))
    return dna[:place] + draw.pick(BAD) + dna[place:]


SEQUENCES = [sequence(_bad_letter), sequence(lambda draw: draw.dna(draw.between(0, 1)))]
SEQUENCES += [sequence(lambda draw: draw.dna(257)), sequence(lambda draw: draw.dna(draw.between(257, 300)) + b"n")]


def base(places):
    """A base of the list, below the count, that ends past the text: by one, or so far that the sum of offset and length
    comes round to a small number."""

    def fault(draw, fields):
        j = draw.between(0, fields["count"] - 1)
        start, length = draw.pick(places(len(fields["text"])))
        return _place(_place(fields, "bases", 2 * j, start), "bases", 2 * j + 1, length)

    return fault


def counted(count, side):
    """More bases than the rules have; where twice their number does not fit 64 bits, a careless side is that of no base."""
    return put(count=count, side=side)


BASES = [base(lambda end: [(0, end + 1), (end, 1), (1, end)]), base(lambda end: [(end + 1, 0)])]
BASES += [base(lambda end: [(HUGE, 1), (1, HUGE), (HUGE, HUGE), (2**63, 2**63)])]
KEYS = [[number, *SEQUENCES], [flag("paired"), flag("kinds"), *OFFSETS, *BASES]]
KEYS[1] += [falls("sequence_offsets"), *(overruns("sequence_offsets", "sequences", far) for far in [False, True])]
KEYS += [[shorter(key) for key in ["offsets", "paired", "kinds", "numbers", "sequence_offsets"]]]
KEYS[2] += [longer("offsets"), longer("paired"), longer("kinds", 0), longer("numbers", "0" * 16), longer("sequence_offsets")]
KEYS[2] += [put(bases_length=length) for length in [253, 255, 256]]
KEYS[2] += [off_by("side", by, lambda fields: 2 * fields["count"] + 1) for by in [-1, 1, -2, 2]]
KEYS[2] += [counted(128, 257), counted(128, 255), counted(2**63, 1), counted(HUGE, 1)]


def entry_0(draw, fields):
    """The first name is not `null`, or not there."""
    if draw.often(1, 3):
        return _place(fields, "present", 0, 0)
    names = [draw.pick([b"", b"nul", b"Null", b"null*", b"nulk", b"0", b"null "]), *names_of(fields)[1:]]
    return {**fields, **draw.lent(names)}


def numerals(draw, fields):
    """Another numerals text: shorter, longer, or with another byte."""
    place = draw.between(0, 125)
    other = NUMERALS[:place] + bytes([NUMERALS[place] ^ 1]) + NUMERALS[place + 1 :]
    others = [b"", NUMERALS[:-1], NUMERALS[:-2], NUMERALS + b"6", NUMERALS + b"63", b" " + NUMERALS[1:], NUMERALS[2:]]
    return {**fields, "numerals": draw.pick([*others, other, other, other])}


def tile(draw, fields):
    """A tile that is not below the count."""
    return {**fields, "tile": fields["strands"] + draw.pick([0, 0, 1, 5, 2**63, HUGE - fields["strands"]])}


TILES = [[tile], [flag("present"), *OFFSETS, entry_0, entry_0, numerals, numerals]]
TILES += [[*(put(strands=size) for size in [0, 65, HUGE]), *COUNTS]]


def off_grid(draw, fields):
    """A seed in a row or a column that the grid does not have."""
    place = draw.between(0, len(fields["places"]) - 1)
    side = fields["cols" if place % 2 else "rows"]
    return _place(fields, "places", place, draw.pick([side, side, side + 1, 2**32, HUGE]))


def unknown(draw, fields):
    """A seed of a name that no tile shows."""
    names = entries(fields["seed_text"], fields["seed_offsets"])
    names[draw.between(0, len(names) - 1)] = draw.pick([b"nobody", b"NULL", b"null*", b"*", b"007", b"\xff", b"63", b"-1"])
    lent = draw.lent(names)
    return {**fields, "seed_text": lent["text"], "seed_offsets": lent["offsets"]}


SEEDS = [[unknown, off_grid], [flag("present"), *OFFSETS, entry_0, numerals]]
SEEDS[1] += [falls("seed_offsets"), *(overruns("seed_offsets", "seed_text", far) for far in [False, True])]
SEEDS += [[*SIZES, put(rows=HUGE), put(cols=HUGE), put(strands=HUGE), *COUNTS]]
SEEDS[2] += [shorter("places"), longer("places"), shorter("seed_offsets"), longer("seed_offsets")]
SEEDS[2] += [off_by("seeds_length", by, lambda fields: len(fields["places"]) // 2 * 3) for by in [-1, 1, -3, 3]]

# Of each call its faults, those that 01 tests last in front.
FAULTS = {"register": REGISTER, "energy_keys": KEYS, "tile_name": TILES, "seeds_by_name": SEEDS}
