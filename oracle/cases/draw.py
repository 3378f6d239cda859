"""What case generators draw from: numbers that are the same on every machine, sequences, temperatures, patterns."""

from math import inf, nextafter

from casefile import write_float
from rules import PARTNER

LETTERS = b"ACGT"
OTHERS = {letter: bytes(x for x in LETTERS if x != letter) for letter in LETTERS}

# Bytes that are no letters, most of them near to one, in ASCII or in a careless reader's table.
BAD = [bytes([b]) for b in b"BbDdHhSsUuNnXx@`[{ \t\r\n\0%,=#*-.0?\x7f\x80\xc1\xe1\xff"]
# The same for signs of several bytes: e acute, a Cyrillic A, a mathematical A, and UTF-8 that is cut off or overlong.
BAD += [b"\xc3\xa9", b"\xd0\x90", b"\xf0\x9d\x90\x80", b"\xe2\x82", b"\xc1\x81", b"\xed\xa0\x80"]

INSIDE = [200.0, nextafter(200.0, inf), 273.15, 298.15, nextafter(310.15, 0.0), 310.15]
INSIDE += [nextafter(310.15, inf), 373.15, nextafter(500.0, 0.0), 500.0]
OUTSIDE = [nextafter(200.0, 0.0), nextafter(500.0, inf), 0.0, -0.0, 1.0, 37.0, 199.0, 501.0, -1.0, -200.0, -310.15]
OUTSIDE += [5e-324, -5e-324, 2.2250738585072014e-308, 1e300, 1.7976931348623157e308, -1.7976931348623157e308, inf, -inf]
NAN = ["7ff8000000000000", "fff8000000000000", "7ff0000000000001", "7ff8000000000123", "ffffffffffffffff"]
# All as the digits of a case file.
KELVINS = [write_float(kelvin) for kelvin in INSIDE + OUTSIDE] + NAN


class Draw:
    """Draws by splitmix64, so that a seed means the same cases under every Python."""

    def __init__(self, seed):
        self.state = seed

    def bits(self):
        mask = 2**64 - 1
        self.state = (self.state + 0x9E3779B97F4A7C15) & mask
        z = self.state
        z = ((z ^ z >> 30) * 0xBF58476D1CE4E5B9) & mask
        z = ((z ^ z >> 27) * 0x94D049BB133111EB) & mask
        return z ^ z >> 31

    def between(self, low, high):
        """A whole number from low to high, both included."""
        return low + self.bits() % (high - low + 1)

    def pick(self, items):
        return items[self.between(0, len(items) - 1)]

    def dna(self, length):
        letters = bytearray()
        while len(letters) < length:
            word = self.bits()
            letters += bytes(LETTERS[word >> at & 3] for at in range(0, 64, 2))
        return bytes(letters[:length])

    def styled(self, dna):
        """In capitals, in small letters, or mixed."""
        style = self.between(0, 2)
        if style == 2:
            return bytes(b if self.bits() & 1 else b | 0x20 for b in dna)
        return dna if style == 0 else dna.lower()

    def kelvin(self):
        """A temperature inside the range, as digits."""
        return write_float(200.0 + 300.0 * (self.bits() >> 11) / 2**53)

    def any_kelvin(self):
        """Mostly inside, sometimes a chosen one, sometimes any 64 bits."""
        kind = self.between(0, 9)
        return f"{self.bits():016x}" if kind == 0 else self.pick(KELVINS) if kind < 3 else self.kelvin()

    def damaged(self, dna, where):
        """A sequence with one letter replaced: the first, the last, or any."""
        place = {"first": 0, "last": len(dna) - 1}.get(where, self.between(0, len(dna) - 1))
        return dna[:place] + self.pick(BAD) + dna[place + 1 :]

    def over(self, pattern):
        """Two sequences, letter over letter, that meet where the pattern has `g` and do not where it has `x`."""
        a = self.dna(len(pattern))
        b = bytearray()
        for letter, sign in zip(a, pattern):
            partner = PARTNER[letter]
            b.append(partner if sign == "g" else self.pick(OTHERS[partner]))
        return self.styled(a), self.styled(bytes(b))

    def loop(self, length):
        """A loop of that many letters whose ends do not meet; inside some do, but never two in a row."""
        signs = ["x"] * length
        for place in range(1, length - 1):
            if signs[place - 1] == "x" and self.bits() & 1:
                signs[place] = "g"
        return "".join(signs)

    def pattern(self, longest):
        """Runs of letters that meet and loops, in turn, some of them open at an end."""
        signs = "" if self.bits() & 1 else "g" * self.between(1, 6)
        while len(signs) < longest and self.between(0, 4):
            length = self.pick([1, 1, 2, 3, 4, self.between(2, 30), self.between(2, longest)])
            signs += "x" * length if self.bits() & 1 else self.loop(length)
            signs += "g" * self.between(0, 6)
        return signs[: self.between(0, longest)] if self.between(0, 3) == 0 else signs[:longest]
