"""Reads and writes case files: docs/CASES.md in Python. Knows nothing of the calls."""

import struct

PLAIN = frozenset(range(0x21, 0x7F)) - frozenset(b"%,")
DIGITS = frozenset(b"0123456789")
HEX = DIGITS | frozenset(b"abcdef")


class Unreadable(Exception):
    """The line is no case, or a field is missing or not of its kind."""


def write_text(raw):
    """Bytes as a text value."""
    return "".join(chr(b) if b in PLAIN else f"%{b:02x}" for b in raw)


def write_float(value):
    return struct.pack(">d", value).hex()


def write_list(items):
    """Numbers, or what is written already, as a list."""
    return ",".join(map(str, items))


def lines(data):
    """The lines of a case file that are cases, as bytes."""
    return [line for line in data.split(b"\n") if line and not line.startswith(b"#")]


def read_line(line):
    """A case's call and its fields; where a key stands twice the first one counts, and a word without `=` is no field."""
    call, *words = line.split(b" ")
    fields = {}
    for word in words:
        key, equals, value = word.partition(b"=")
        if equals:
            fields.setdefault(key, value)
    return call.decode("latin-1"), fields


def read_text(fields, key):
    value, raw, at = _value(fields, key), bytearray(), 0
    while at < len(value):
        if value[at] in PLAIN:
            raw.append(value[at])
            at += 1
        else:
            digits = value[at + 1 : at + 3]
            if value[at] != ord("%") or len(digits) != 2 or not HEX.issuperset(digits) or int(digits, 16) in PLAIN:
                raise Unreadable
            raw.append(int(digits, 16))
            at += 3
    return bytes(raw)


def read_float(fields, key):
    return _float(_value(fields, key))


def read_number(fields, key):
    return _number(_value(fields, key))


def read_numbers(fields, key):
    return [_number(item) for item in _items(fields, key)]


def read_bytes(fields, key):
    """A list of numbers below 256."""
    numbers = read_numbers(fields, key)
    if any(number > 255 for number in numbers):
        raise Unreadable
    return numbers


def read_floats(fields, key):
    return [_float(item) for item in _items(fields, key)]


def read_or(fields, key, read, missing):
    """What a field holds, or `missing` where the case does not have it."""
    return read(fields, key) if key.encode() in fields else missing


def _items(fields, key):
    value = _value(fields, key)
    return value.split(b",") if value else []


def _float(value):
    if len(value) != 16 or not HEX.issuperset(value):
        raise Unreadable
    return struct.unpack(">d", bytes.fromhex(value.decode()))[0]


def _number(value):
    if not 1 <= len(value) <= 20 or not DIGITS.issuperset(value) or int(value) >= 2**64:
        raise Unreadable
    return int(value)


def _value(fields, key):
    try:
        return fields[key.encode()]
    except KeyError:
        raise Unreadable from None
