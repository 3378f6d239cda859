"""Cases on names at the rules' limits: sizes, lent tables, bytes of text, bases, sequences; and what is unreadable."""

from draw_names import NOT_FINITE, case
from names_rules import NUMERALS

ZERO, ONE = "0" * 16, "3ff0000000000000"
LAST = 2**64 - 1
NOTHING = {"text": b"", "offsets": [0], "present": []}
NULL = {"text": b"null", "offsets": [0, 4], "present": [1]}
NULL_SEED = {"places": [0, 0], "seed_text": b"null", "seed_offsets": [0, 4]}


def seeded(rows=1, cols=1, strands=1, **more):
    """A case of one `null` seed, with other fields."""
    return case("seeds_by_name", {"rows": rows, "cols": cols, "strands": strands, **NULL, **NULL_SEED, **more})


def sizes(draw):
    """Rows, columns and strands of 0, 1, the limit and one more, with entries for just so many."""
    for rows, cols in [(1, 1), (32, 1), (1, 32), (33, 1), (1, 33), (0, 1), (1, 0), (0, 0), (0, 33), (257, 0)]:
        yield case("register", draw.register(rows, cols, 2, [b"a", b"b"], absent=7))
        last = (max(rows, 1) - 1, max(cols, 1) - 1, b"a")
        for seeds in [[last], [], [(rows, 0, b"a")], [(0, cols, b"a")]]:
            yield case("seeds_by_name", draw.seeds(rows, cols, [b"null", b"a"], seeds))
    for strands in [1, 2, 63, 64, 65, 66]:
        yield case("register", draw.register(1, 1, strands, [b"a", b"b"], absent=8))
        names = [b"null"] + [draw.pick([None, None, b"x"]) for _ in range(strands - 1)]
        for tile in [0, strands - 1, strands]:
            yield case("tile_name", draw.tile_name(names, tile))
        for name in [names[-1] or b"%d" % (strands - 2), b"%d" % (strands - 1)]:
            yield case("seeds_by_name", draw.seeds(1, 1, names, [(0, 0, name)]))
    yield case("tile_name", {"strands": 0, **NOTHING, "tile": 0})
    yield seeded(strands=0, **NOTHING)


def careless_sizes(draw):
    """Sizes at which a count of entries comes round to a small number in 64 bits, or below 0."""
    one = {"text": b"a", "offsets": [0, 1], "present": [1]}
    two = {"text": b"ab", "offsets": [0, 1, 2], "present": [1, 1]}
    yield case("register", {"rows": 1, "cols": 5, "strands": 0, **NOTHING, "glues_length": 0})
    yield case("register", {"rows": 2**32, "cols": 2**32, "strands": 1, **NOTHING, "scaffold_length": 0})
    yield case("register", {"rows": LAST, "cols": LAST, "strands": 1, **one, "scaffold_length": 1})
    yield case("register", {"rows": LAST, "cols": 1, "strands": 1, **NOTHING, "scaffold_length": 0})
    yield case("register", {"rows": 32, "cols": 32, "strands": LAST, **one, "glues_length": 5})
    fifth = pow(5, -1, 2**64)
    yield case("register", {"rows": 1, "cols": 1, "strands": fifth + 1, **two, "glues_length": 6})
    yield case("tile_name", {"strands": LAST, **NOTHING, "tile": 0})
    yield from (seeded(rows, cols) for rows, cols in [(2**32, 2**32), (LAST, 1), (1, LAST)])


def lent_tables(draw):
    """Lent tables of no length, one short, right, one long, and two."""
    for rows, cols, strands in [(1, 1, 1), (2, 3, 3), (3, 2, 2)]:
        fields = draw.register(rows, cols, strands, [b"a", b"bc"])
        for table, right in [("glues_length", strands * 5), ("scaffold_length", rows * cols), ("bases_length", 254)]:
            for length in [0, right - 1, right, right + 1, right + 2]:
                yield case("register", {**fields, table: length})
    for bays in [[], [(0, 0)], [(0, 0), (1, 1)]]:
        fields = draw.seeds(2, 2, [b"null", b"x"], [(*bay, b"x") for bay in bays])
        yield from (case("seeds_by_name", {**fields, "seeds_length": length}) for length in range(8))
    for bases in [[], [b"a"], [b"a", b"b"]]:
        fields = draw.keys_over(bases, [(b"a",)], sequences=0)
        yield from (case("energy_keys", {**fields, "side": side}) for side in [0, 1, 2, 3, 4, 5, 6, 255])
        lengths = [0, 2, 4, 253, 254, 255, 256]
        yield from (case("energy_keys", {**fields, "bases_length": length}) for length in lengths[len(bases) :])


def texts(draw):
    """Texts of 16,384 bytes, and of one more: long names, or bytes behind the last name. Sequences have no such limit."""
    for end in [16384, 16385]:
        names = [b"a" * 5000, b"a" * 5000 + b"*", b"a" * 4999, b"", b"b", b"c" * (end - 15001)]
        offsets = [sum(map(len, names[:place])) for place in range(7)]
        fields = {"text": b"".join(names), "offsets": offsets, "present": [1, 1, 1, 0, 1, 1]}
        yield case("register", {"rows": 1, "cols": 1, "strands": 2, **fields})
        key = (b"a" * 7999 + b"**", b"b" * (end - 16001))
        fields = draw.energy_keys([key], [0, 8000, 1, 7999], b"a" * 8000, sequences=0)
        yield case("energy_keys", {**fields, "paired": [0]})
        fields = {"text": b"null" + b"x" * (end - 4), "offsets": [0, 4, end, end], "present": [1, 1, 0]}
        yield case("tile_name", {"strands": 3, **fields, "tile": 2})
        yield seeded(seed_text=b"null" + b"y" * (end - 4))
    yield seeded(text=b"null" + b"x" * 16381)
    fields = draw.keys_over([b"a"], [(b"a",)], sequences=10)
    yield case("energy_keys", {**fields, "sequences": b"n" * 16383 + b"ACGT", "sequence_offsets": [16383, 16387]})


def grids(draw):
    """The largest grid with the most strands, and with the empty one alone; long rows, long columns."""
    yield case("register", draw.register(32, 32, 64, draw.plain_bases(100), absent=2))
    yield case("register", draw.register(32, 32, 1, draw.plain_bases(30), absent=3))
    for rows, cols, strands in [(32, 1, 9), (1, 32, 9), (32, 2, 3), (2, 32, 3), (9, 11, 5)]:
        yield case("register", draw.register(rows, cols, strands, draw.plain_bases(40), absent=2))


def with_128(draw, rows, cols, strands, entry=0):
    """A system with 127 bases before an entry that brings the 128th (0: any entry), or with 127 and no more (None)."""
    total = (strands - 1) * 5 + rows * cols
    entry = draw.between(127, total - 1) if entry == 0 else entry
    before = list(range(total if entry is None else entry))
    while len(before) > 127:
        before.pop(draw.between(0, len(before) - 1))
    new, bases = {*before, entry}, draw.plain_bases(127)
    bases.insert(draw.between(0, 126), b"")
    names, known = [], 0
    for place in range(total):
        known += place in new
        name = bases[known - 1] if place in new else draw.pick(bases[: max(known, 1)])
        names.append(name + draw.stars(1) if place in new or known and draw.often(1, 2) else None)
    return {"rows": rows, "cols": cols, "strands": strands, **draw.lent(names)}


def base_limits(draw):
    """127 bases, and the 128th at the first entry that can bring it, at others, in a strand and on the scaffold."""
    places = [(1, 1, 27, [127, 129, 130, None]), (2, 2, 26, [127, 128, None]), (4, 32, 1, [127, None]), (32, 5, 1, [159])]
    for rows, cols, strands, entries in [*places, (1, 1, 64, [314, 315, None]), (3, 3, 40, [150])]:
        yield from (case("register", with_128(draw, rows, cols, strands, entry)) for entry in entries)


def base_limit_with_others(draw):
    """The 128th base together with two stars on the scaffold before it, on it and behind it, and with what 17 and 1 refuse;
    then two stars and 127 bases."""
    for place, count in [(0, 128), (126, 128), (127, 128), (128, 128), (131, 128), (0, 127), (130, 127), (131, 127)]:
        bases = draw.plain_bases(count)
        names = bases + [bases[0]] * (132 - count)
        names[place] += b"**"
        fields = {"rows": 12, "cols": 11, "strands": 1, **draw.lent(names)}
        yield case("register", fields)
        if place in (127, 131):
            yield case("register", {**fields, "present": fields["present"][:-1] + [2]})
            yield case("register", {**fields, "offsets": fields["offsets"][:-1] + [len(fields["text"]) + 1]})
            yield case("register", {**fields, "bases_length": 253})
    for stars in [1, 2, 3]:
        names = draw.plain_bases(129)
        names[127] += b"*" * stars
        yield case("register", {"rows": 1, "cols": 4, "strands": 26, **draw.lent(names)})


def many_keys(draw):
    """127 bases and keys over them, the first and the last of them too; one base more, which the Rust takes."""
    bases = draw.plain_bases(128)
    for count, keys in [(127, 3), (127, 12), (127, 40), (126, 4), (64, 10)]:
        ends = [(bases[count - 1],), (bases[0], bases[count - 1] + b"*")]
        yield case("energy_keys", draw.keys_over(bases[:count], draw.keys_apart(keys, bases[:count]) + ends))
    fields = draw.keys_over(bases, [(bases[0],), (bases[127],)])
    yield from (case("energy_keys", {**fields, "bases_length": 256, "side": side}) for side in [257, 255])
    yield case("energy_keys", {**fields, "bases": fields["bases"][:254], "side": 257})


def base_places(draw):
    """Bases at the end of the text and past it, of no length too; past the count they are not read."""
    ends = [(3, 0), (4, 0), (3, 1), (2, 2), (0, 3), (0, 4), (LAST, 0), (LAST, 1), (LAST, 4), (1, LAST), (2**63, 2**63)]
    for start, length in ends:
        fields = draw.energy_keys([(b"",)], [0, 1, start, length], b"ab", sequences=0)
        fields = {**fields, "text": b"abc", "offsets": [2, 2, 2]}
        yield from (case("energy_keys", {**fields, "count": count}) for count in [1, 2])


def energies(draw, names, values):
    """A key of these names for each value, ΔG and ΔS as digits or a sequence, and one more key."""
    fields = draw.keys_over([b"a", b"b"], [*[names] * len(values), (b"a", b"b")], sequences=0)
    dna = [value if isinstance(value, bytes) else b"" for value in values] + [b""]
    numbers = [number for value in values for number in ([ONE, ONE] if isinstance(value, bytes) else value)]
    fields |= {"kinds": [int(isinstance(value, bytes)) for value in values] + [0], "numbers": [*numbers, ONE, ZERO]}
    offsets = [sum(map(len, dna[:place])) for place in range(len(dna) + 1)]
    return case("energy_keys", {**fields, "sequences": b"".join(dna), "sequence_offsets": offsets})


def key_values(draw):
    """Numbers that are not finite and sequences at the limits of length or with a bad letter, of keys that are registered
    and of keys that are not, alone and beside another bad key. Where a key is given again the Rust never reads the first."""
    bad = [[number, ONE] for number in NOT_FINITE] + [[ONE, number] for number in NOT_FINITE] + [NOT_FINITE[:2]]
    letters = [b"n", b"An", b"nA", b"ACGU", b"AC GT", b"acgt\xff", b"A\xc3\xa9", b"\0AC"]
    for names in [(b"a",), (b"c", b"a*")]:
        lengths = [draw.styled(draw.dna(length)) for length in [0, 1, 2, 3, 255, 256, 257]]
        for value in bad + lengths + letters + [draw.dna(255) + b"n", draw.dna(256) + b"n"]:
            yield energies(draw, names, [value])
        for first in [b"A", b"ACn", draw.dna(257), b"ACG"]:
            yield from [energies(draw, names, [first, bad[2]]), energies(draw, names, [b"AC", first, b"nA"])]
            yield from [energies(draw, names, [bad[3], first]), energies(draw, names, [first, b"GT"])]


def tile_texts(draw):
    """First names that are not `null`, or not there; numerals of another length, or with another byte."""
    others = [b"", NUMERALS[:-1], NUMERALS[:-2], NUMERALS[2:], NUMERALS + b"6", NUMERALS + b"63", b"0" + NUMERALS]
    others += [NUMERALS[::-1], b" " + NUMERALS[1:]]
    for place in [0, 1, 19, 20, 124, 125]:
        others.append(NUMERALS[:place] + bytes([NUMERALS[place] ^ 1]) + NUMERALS[place + 1 :])
    for first in [b"", b"nul", b"Null", b"null*", b"null ", b"nulk", b"0", b"\0null"]:
        yield case("tile_name", draw.tile_name([first, b"null"], 1))
        yield case("seeds_by_name", draw.seeds(1, 1, [first, b"null"], [(0, 0, b"null")]))
    for numerals in others:
        yield case("tile_name", {**draw.tile_name([b"null", b"x"], 1), "numerals": numerals})
        yield seeded(numerals=numerals)
    for present, tile in [([0], 0), ([0], 1), ([2], 0), ([255], 1)]:
        yield case("tile_name", {"strands": 1, **NULL, "present": present, "tile": tile})
        yield seeded(present=present)


def no_entries(draw):
    """No keys and no seeds, where an offset still has a text to fit in."""
    none = {"paired": [], "kinds": [], "numbers": [], "bases": [], "count": 0}
    ends = [(0, 0, 0, 0), (3, 3, 2, 2), (3, 4, 2, 2), (3, 3, 2, 3), (0, 1, 0, 0), (0, 0, 0, LAST)]
    for end, offset, dna, dna_offset in ends:
        sequences = {"sequences": b"n" * dna, "sequence_offsets": [dna_offset]}
        yield case("energy_keys", {"text": b"a" * end, "offsets": [offset], **none, **sequences})
        yield seeded(places=[], seed_text=b"x" * end, seed_offsets=[offset])


def readings(draw):
    """Lines that lack a field or have a value not of its kind; free order, unknown keys, a key twice, leading zeros."""
    lent = "text=null offsets=0,4 present=1"
    keys = "text=a offsets=0,1,1 paired=0 kinds=0 numbers=3ff0000000000000,0000000000000000"
    calls = {"self_and_inverse": "name=a*", "register": "rows=1 cols=1 strands=1 text=a offsets=0,1 present=1"}
    calls["energy_keys"] = f"{keys} sequences= sequence_offsets=0,0 bases=0,1 count=1"
    calls["tile_name"] = f"strands=1 {lent} tile=0"
    calls["seeds_by_name"] = f"rows=1 cols=1 strands=1 {lent} places=0,0 seed_text=null seed_offsets=0,4"
    wrong = {"tile": ["", "-1", "+1", "0x1", "1.0", "1,", "18446744073709551616", "000000000000000000001", "1%30"]}
    wrong |= {"numbers": ["0,0", f"{ONE},{ONE}0", f"{ONE},", f"7FF0000000000000,{ONE}"], "name": ["%2A", "a\x7f"]}
    wrong |= {"text": ["%", "%4", "%zz", "%4E", "a,b"], "offsets": ["0,4 ", "0;4"], "paired": ["-0"]}
    wrong |= {"present": ["1,", ",1", "x", "1,,1"]}
    optional = {"register": ["glues_length", "scaffold_length", "bases_length"], "energy_keys": ["bases_length", "side"]}
    optional |= {"tile_name": ["numerals"], "seeds_by_name": ["numerals", "seeds_length"]}
    for call, fields in calls.items():
        fields = fields.split(" ")
        yield " ".join([call, *fields])
        yield " ".join([call, *fields[::-1]])
        yield " ".join([call, "note=", *fields, "other=1,2"])
        yield " ".join([call, *fields, *(field.partition("=")[0] + "=5" for field in fields)])
        for place, field in enumerate(fields):
            key = field.partition("=")[0]
            yield " ".join([call, *fields[:place], *fields[place + 1 :]])
            for value in wrong.get(key, []):
                yield " ".join([call, *fields[:place], f"{key}={value}", *fields[place + 1 :]])
        for key in optional.get(call, []):
            yield from (" ".join([call, *fields, f"{key}={value}"]) for value in ["%", "1,2,", "0,x"])
        yield call
    yield f"tile_name strands=00001 {lent} tile=00000000000000000000 numerals={NUMERALS.decode()}"
    yield "register rows=001 cols=01 strands=1 text=a offsets=00,001 present=01"
    yield from ["tile_names strands=1", "Register rows=1"]
    yield from [f"tile_name  strands=1 {lent} tile=0", f"tile_name strands=1 {lent} tile=0 "]


LIMITS = [sizes, careless_sizes, lent_tables, texts, grids, base_limits, base_limit_with_others, many_keys, base_places]
LIMITS += [key_values, tile_texts, no_entries, readings]
