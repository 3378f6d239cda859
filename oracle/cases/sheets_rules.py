"""The rules of constraint sheets (docs/requests/Q-1.md), read on their own: what a text says of a grid, how lists are
written down, and what is refused, in its order. Nothing here comes from the port.

A text goes byte by byte through a machine that knows RFC 4180. Where it finds nothing wrong, Python's csv module has to
find the same fields.
"""

import csv
import io
import re
from itertools import accumulate, chain

from casefile import Unreadable, read_line, read_number, read_numbers, read_or, read_text, write_list, write_text
from systems_rules import read_small

SIDE = 32
# What the program has room for: a text to read and one to write into, offsets, and tiles.
TEXT_READ, TEXT_LENT, OFFSETS, TILES = 196608, 65536, 1100, 65600
COMMA, QUOTE, CR, LF = b',"\r\n'
# Where the machine is: at the start of a record or of a later field, in a field without quotes or within them, after a
# quote that closes a field or is the first of two, after a CR.
RECORD, FIELD, BARE, QUOTED, CLOSED, RETURN = range(6)
NUMBER = rb"(?:0|[1-9][0-9]*)"
LIST = re.compile(NUMBER + rb"(?: " + NUMBER + rb")*")


def records(text):
    """The records of a text, each a list of its fields' contents. The first field that is no field of RFC 4180 is None, and
    nothing follows it."""
    found, record, content, state = [], [], bytearray(), RECORD
    for byte in text:
        if state == QUOTED:
            if byte == QUOTE:
                state = CLOSED
            else:
                content.append(byte)
        elif state == CLOSED and byte == QUOTE:
            content.append(byte)
            state = QUOTED
        elif byte == LF or byte == COMMA and state != RETURN:
            record.append(bytes(content))
            content.clear()
            state = FIELD
            if byte == LF:
                found.append(record)
                record, state = [], RECORD
        elif byte == CR and state != RETURN:
            state = RETURN
        elif byte == QUOTE and state in (RECORD, FIELD):
            state = QUOTED
        elif byte == QUOTE or state in (CLOSED, RETURN):
            return [*found, [*record, None]]
        else:
            content.append(byte)
            state = BARE
    if state == RECORD:
        return found
    return [*found, [*record, None if state in (QUOTED, RETURN) else bytes(content)]]


def by_csv(text):
    """The same by Python's csv module, which takes a line without bytes for a record without fields."""
    lines = csv.reader(io.StringIO(text.decode("latin-1"), newline=""), strict=True)
    return [[field.encode("latin-1") for field in line] or [b""] for line in lines]


def sound(found):
    return all(field is not None for record in found for field in record)


def numbers_in(content):
    """The numbers of a field's content, or None where it is no list."""
    if content is None or content and not LIST.fullmatch(content):
        return None
    numbers = [int(word) for word in content.split(b" ")] if content else []
    return numbers if all(number < 2**32 for number in numbers) else None


def first_fault(rows, cols, found):
    """Line and field of the first field in reading order that is bad, missing or surplus."""
    for line, record in enumerate(found, 1):
        if line > rows:
            return line, 1
        for number, content in enumerate(record, 1):
            if number > cols or numbers_in(content) is None:
                return line, number
        if len(record) < cols:
            return line, len(record) + 1
    return (len(found) + 1, 1) if len(found) < rows else None


def is_grid(rows, cols):
    return 1 <= rows <= SIDE and 1 <= cols <= SIDE


def sheet_of(rows, cols, lists):
    """The text of a sheet: no quotes, CR LF after each record."""
    cells = [" ".join(map(str, tiles)) for tiles in lists]
    lines = [",".join(cells[row * cols : row * cols + cols]) + "\r\n" for row in range(rows)]
    return "".join(lines).encode()


def room(length, most):
    if length > most:
        raise Unreadable
    return length


def refused(*numbers):
    """A refusal, which leaves what was lent as it was."""
    return f"refused {' '.join(map(str, numbers))} kept"


def read_sheet(fields):
    rows, cols, text = read_number(fields, "rows"), read_number(fields, "cols"), read_text(fields, "text")
    bays = min(rows, SIDE + 1) * min(cols, SIDE + 1)
    offsets = room(read_or(fields, "offsets_length", read_number, bays + 1), OFFSETS)
    room(len(text), TEXT_READ)
    tiles = room(read_or(fields, "tiles_length", read_number, TILES), TILES)
    if not is_grid(rows, cols):
        return refused(1)
    found = records(text)
    if sound(found):
        assert found == by_csv(text), f"the csv module reads otherwise: {text!r}"
    fault = first_fault(rows, cols, found)
    if fault:
        return refused(19, *fault)
    if offsets != bays + 1:
        return refused(5)
    lists = [numbers_in(content) for record in found for content in record]
    listed, ends = [*chain(*lists)], [0, *accumulate(map(len, lists))]
    if tiles < len(listed):
        return refused(9, len(listed))
    return f"lists {len(listed)} offsets={write_list(ends)} tiles={write_list(listed)}"


def write_sheet(fields):
    rows, cols = read_number(fields, "rows"), read_number(fields, "cols")
    offsets, tiles = read_numbers(fields, "offsets"), read_small(fields, "tiles")
    room(len(offsets), OFFSETS)
    room(len(tiles), TILES)
    length = room(read_or(fields, "text_length", read_number, TEXT_LENT), TEXT_LENT)
    if not is_grid(rows, cols):
        return refused(1)
    if len(offsets) != rows * cols + 1 or offsets != sorted(offsets) or (offsets[0], offsets[-1]) != (0, len(tiles)):
        return refused(5)
    text = sheet_of(rows, cols, [tiles[start:end] for start, end in zip(offsets, offsets[1:])])
    if length < len(text):
        return refused(9, len(text))
    return f"written {len(text)} text={write_text(text)}"


CALLS = {"read_sheet": read_sheet, "write_sheet": write_sheet}


def answer(line):
    """The line that the program has to write for a case."""
    try:
        call, fields = read_line(line)
        if call not in CALLS:
            raise Unreadable
        return CALLS[call](fields)
    except Unreadable:
        return "unreadable"
