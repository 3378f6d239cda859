"""What the cases on names are drawn from: names, texts of them, systems, keys and seeds, each as the fields of a case."""

from casefile import write_float, write_list, write_text
from draw import Draw
from keys_rules import joined
from names_rules import entries, registered, self_and_inverse

# Bases of all sorts: one letter; parts of one another, with stars inside and in front; signs that a case file writes
# otherwise; signs of several bytes, some like a star; long ones; numerals; and bytes that are no UTF-8.
PLAIN = [bytes([byte]) for byte in b"abcdefghijklmnopqrstuvwxyzABCDEFGHIJKLMNOPQRSTUVWXYZ0123456789"]
NEAR = [b"", b"a", b"ab", b"abc", b"abcd", b"b", b"ba", b"aa", b"A", b"a*b", b"a**b", b"*a", b"**b", b"*a*b"]
SIGNS = [b" ", b"a b", b",", b"a,b", b"%", b"%2a", b"=", b"#", b"\n", b"\r\n", b"\0", b"a\0", b"\x7f", b"+", b")", b"a'"]
WIDE = [sign.encode() for sign in ["é", "α", "日本", "a＊", "∗", "a·", "e\u0301", "𝔸", "ª", "\u202ea", "\ufeff"]]
LONG = [b"glue_number_one", b"glue_number_two", b"x" * 40, b"x" * 41, b"a*" * 20 + b"a"]
DIGITS = [b"0", b"1", b"2", b"3", b"00", b"01", b"7", b"10", b"62", b"63", b"-1", b"1.0", b"null", b"Null", b"nul"]
RAW = [b"\xff", b"\xc3", b"a\x80", b"\xaa", b"a\xaa", b"\xe2\x82", b"\xed\xa0\x80", b"\xc1\xaa", b"\x80*\x80"]
SORTS = [PLAIN[:6], PLAIN[:6], PLAIN, NEAR, NEAR, SIGNS, WIDE, LONG, DIGITS]

NUMBERS = [0.0, -0.0, 1.0, -1.0, 0.5, 5e-324, -5e-324, 2.2250738585072014e-308]
NUMBERS += [1.7976931348623157e308, -1.7976931348623157e308]
NOT_FINITE = ["7ff0000000000000", "fff0000000000000", "7ff8000000000000", "fff8000000000000", "7ff0000000000001"]


def case(call, fields):
    """A case; a field that is None is left out."""
    kinds = {bytes: write_text, int: str, list: write_list}
    written = [f"{key}={kinds[type(value)](value)}" for key, value in fields.items() if value is not None]
    return " ".join([call] + written)


def names_of(fields):
    """The names of a lent text, None where one is absent."""
    both = zip(entries(fields["text"], fields["offsets"]), fields["present"])
    return [name if present else None for name, present in both]


def bases_of(fields):
    """The bases that registering a system gives, and their places."""
    names, bases, places = names_of(fields), [], []
    for entry in registered(names)[1]:
        bases.append(self_and_inverse(names[entry])[0])
        places += [fields["offsets"][entry], len(bases[-1])]
    return bases, places


class NameDraw(Draw):
    def often(self, times, of):
        return self.between(1, of) <= times

    def bases(self, count, raw=False):
        """Different bases of all sorts."""
        found = []
        while len(found) < count:
            base = self.pick(self.pick(SORTS + [RAW, RAW] * raw))
            found += [base] if base not in found else []
        return found

    def plain_bases(self, count):
        """As many as are asked for, of one letter or two."""
        start = self.between(0, 61)
        letters = PLAIN[start:] + PLAIN[:start]
        return [(letters[j // 62 - 1] if j >= 62 else b"") + letters[j % 62] for j in range(count)]

    def stars(self, most=None):
        many = self.between(0, 40) if self.often(1, 9) else 4
        count = self.pick([0, 0, 0, 0, 1, 1, 1, 2, 3, self.between(2, 6), many])
        return b"*" * (count if most is None else min(count, most))

    def names(self, count, bases, absent=3, most=None):
        """Names over these bases, so many in ten absent."""
        return [None if self.often(absent, 10) else self.pick(bases) + self.stars(most) for _ in range(count)]

    def lent(self, names):
        """A text of names; sometimes there is more at its ends, and under names that are absent."""
        text = bytearray(self.pick([b"", b"", b"", b"a", b"**", b"zz"]))
        offsets = [len(text)]
        for name in names:
            text += name if name is not None else self.pick([b"", b"", b"", b"a", b"a**", b"\xff"])
            offsets.append(len(text))
        text += self.pick([b"", b"", b"", b"*", b"a"])
        return {"text": bytes(text), "offsets": offsets, "present": [int(name is not None) for name in names]}

    def register(self, rows, cols, strands, bases, absent=3, most=1):
        """A system; its scaffold names have at most so many stars."""
        glues = self.names((strands - 1) * 5, bases, absent)
        scaffold = self.names(rows * cols, bases, absent, most)
        return {"rows": rows, "cols": cols, "strands": strands, **self.lent(glues + scaffold)}

    def number(self):
        """A finite float, as digits."""
        kind = self.between(0, 5)
        if kind == 0:
            return write_float(self.pick(NUMBERS))
        if kind == 1:
            bits = self.bits()
            return f"{bits & ~(1 << 62) if bits >> 52 & 0x7FF == 0x7FF else bits:016x}"
        return write_float(-self.between(0, 1500) / 100 if kind < 5 else self.between(-999, 999) / 10000)

    def key(self, bases):
        """A key of one name or two, some over a base that is not in the list."""
        known = bases + self.bases(1) if self.often(1, 6) or not bases else bases
        names = [self.pick(known) + self.stars() for _ in range(self.between(1, 2))]
        if len(names) == 2 and self.often(2, 10):
            names[1] = self_and_inverse(names[0])[0] + self.stars()
        return tuple(names)

    def keys_apart(self, count, bases):
        """Keys of which no two meet on a cell, as far as they are found."""
        keys, taken = [], []
        for _ in range(count):
            key = self.key(bases)
            glues = set(joined(key, bases))
            if glues not in taken and key not in keys:
                keys, taken = keys + [key], taken + ([glues] if None not in glues else [])
        return keys

    def again(self, key):
        """A key that meets this one on a cell."""
        split = [self_and_inverse(name) for name in key]
        more = [base + b"*" * (stars + 2 * self.between(0, 2)) for base, stars in split]
        if len(key) == 2:
            return tuple(self.pick([more, more[::-1], list(key)]))
        base = split[0][0]
        return self.pick([(base + self.stars(),), key, (base, base + b"*"), (base + b"***", base + b"**")])

    def base_list(self, bases):
        """Places of bases in a text, and the text; a base may be a part of what is there already."""
        places, text = [], b""
        for base in bases:
            at = text.find(base) if self.often(1, 3) else -1
            if at < 0:
                at, text = len(text), text + base + self.pick([b"", b"", b"*", b"**", b"-"])
            places += [at, len(base)]
        return places, text

    def sequence(self):
        length = self.pick([2, 2, 3, self.between(2, 12), self.between(2, 12), self.between(13, 40)])
        return self.styled(self.dna(length))

    def energy_keys(self, keys, places, text, sequences=4):
        """Keys behind a text with the places of bases, so many in ten with a sequence. What a key does not read is
        anything."""
        offsets, kinds, numbers, dna, dna_offsets = [len(text)], [], [], b"", [0]
        for key in keys:
            second = key[1] if len(key) == 2 else self.pick([b"", b"", b"a", b"\xff"])
            offsets += [len(text) + len(key[0]), len(text) + len(key[0]) + len(second)]
            text += key[0] + second
            kinds.append(int(self.often(sequences, 10)))
            numbers += [self.pick(NOT_FINITE), "0" * 16] if kinds[-1] else [self.number(), self.number()]
            dna += self.sequence() if kinds[-1] else self.pick([b"", b"", b"n"])
            dna_offsets.append(len(dna))
        fields = {"text": text, "offsets": offsets, "paired": [len(key) - 1 for key in keys], "kinds": kinds}
        fields |= {"numbers": numbers, "sequences": dna, "sequence_offsets": dna_offsets}
        return fields | {"bases": places, "count": len(places) // 2}

    def keys_over(self, bases, keys, sequences=4):
        return self.energy_keys(keys, *self.base_list(bases), sequences)

    def tile_names(self, strands, raw=False):
        """Names of tiles: the empty one's, then names, numerals, repeats and absent ones."""
        pool = self.bases(4, raw) + [b"null", b"0", b"1", b"%d" % self.between(0, strands)]
        return [b"null"] + [self.pick(pool + [None] * 5) for _ in range(strands - 1)]

    def tile_name(self, names, tile):
        return {"strands": len(names), **self.lent(names), "tile": tile}

    def seeds(self, rows, cols, names, seeds):
        """Seeds, each a row, a column and a name."""
        fields = {"rows": rows, "cols": cols, "strands": len(names), **self.lent(names)}
        lent = self.lent([name for _, _, name in seeds])
        fields |= {"places": [number for row, col, _ in seeds for number in (row, col)]}
        return fields | {"seed_text": lent["text"], "seed_offsets": lent["offsets"]}

    def any_seeds(self, count, rows, cols, names):
        """Seeds that are in order, half of them on a bay that has one already."""
        shown = [name if name is not None else b"%d" % (tile - 1) for tile, name in enumerate(names)]
        seeds = []
        for _ in range(count):
            bay = (self.between(0, rows - 1), self.between(0, cols - 1))
            bay = self.pick(seeds)[:2] if seeds and self.often(1, 2) else bay
            seeds.append((*bay, self.pick(shown)))
        return seeds
