#!/usr/bin/env python3
"""Writes the case file for constraint sheets to standard output, the same bytes each time.

    oracle/cases/sheets.py                      the cases of crates/answers/data/sheets.cases
    oracle/cases/sheets.py --large N --seed S   N cases of all kinds at random, for comparisons by hand

How many cases each kind has goes to standard error.
"""

import re
import sys
from itertools import combinations, product
from pathlib import Path

sys.dont_write_bytecode = True
from draw_sheets import CRLF, LF, SheetDraw, reading, sheet, square, writing
from generate import generate
from sheets_lent import LENT

MARK = b"\xef\xbb\xbf"
GOOD = [b"", b'""', b"0", b'"0"', b"7", b"0 0", b"0 1", b"1 0", b"10", b"5 5 5", b'"1 2"', b"4294967295", b"4294967294 0"]
GOOD += [b'"0 4294967295"', b"1000000000", b" ".join([b"0"] * 64)]
NO_NUMBERS = [b"007", b"00", b"01", b"0 00", b"1 02", b"+1", b"-1", b"-0", b"1.0", b"1e3", b"0x1", b"1_000", b"1 +2"]
NO_NUMBERS += [b"4294967296", b"4294967300", b"04294967295", b"10000000000", b"18446744073709551615", b"18446744073709551616"]
NO_NUMBERS += [b"18446744073709551617", b"36893488147419103232", b"1" + b"0" * 40, b"1 4294967296", b"4294967296 1"]
NO_LISTS = [b" ", b"  ", b" 1", b"1 ", b"1  2", b" 1 2", b"1 2 ", b"1\t2", b"\t1", b"1;2", b"1\x0b2", b"1\xa02", b"\xc2\xa01"]
NO_LISTS += [b"x", b"1x", b"x1", b"1 x", b"1 x 2", b"O", b"null", b"'0", b"=0", b"\xd9\xa3", b"\xef\xbc\x91", b"\0", b"1\0"]
QUOTES = [b'1"', b'1"2"', b' "1"', b'1""', b'"1"2', b'"1" ', b'"1"x', b'""1', b'"" ', b'"1""2"', b'"""1"""', b'""""', b'"1"""']
QUOTES += [b'" 1"', b'"1 "', b'" "', b'"007"', b'"x"', b'"1,2"', b'","', b'"1\n2"', b'"1\r\n2"', b'"\n"', b'"1\r2"', b'"\r\n"', b"'1'"]
OPEN = [b'"', b'"1', b'"1""', b'"""', b'"1\r\n2']
RETURNS = [b"\r", b"1\r", b"\r1", b"1\r2", b'"1"\r', b'""\r', b"1\r\r", b"1 2\r3", b"\r\r"]
MARKS = [MARK, MARK + b"1", MARK + b'"1"', b"1" + MARK, b"\xff\xfe1\0", b"\xfe\xff\x001"]
BAD = NO_NUMBERS + NO_LISTS + QUOTES + OPEN + RETURNS + MARKS
PLACES = [(1, 1), (2, 2), (3, 3)]


def one_bay(draw):
    """One bay: every field that is a list, and every one that is none, without line ending, with LF and with CR LF."""
    for content in GOOD:
        yield from (reading(1, 1, content + ending) for ending in [b"", LF, CRLF])
    yield from (reading(1, 1, content) for content in BAD)


def places(draw):
    """Every such field as the first, the middle and the last of three rows and columns."""
    yield from (reading(3, 3, square(content, place)) for content, place in product(GOOD + BAD, PLACES))


def bytes_alone(draw):
    """Every byte as a sheet of its own, and those that mean something between two digits, bare and in quotes."""
    yield from (reading(1, 1, bytes([byte])) for byte in range(256))
    for byte in b'",; \t\r\n\0\x0b\x0c\x1a\x7f\x80\xa0\xff/:+-.':
        between = b"1" + bytes([byte]) + b"2"
        yield from [reading(1, 1, between), reading(1, 1, b'"' + between + b'"')]


def nothing(draw):
    """Sheets of no bytes, of line endings, commas and quotes alone, for small grids."""
    texts = [b"", LF, CRLF, b"\r", LF + LF, CRLF + LF, b",", b"," + LF, b"," + CRLF + b",", b'""', b'""' + LF, b'"",""', b",,"]
    yield from (reading(rows, cols, text) for text in texts for rows, cols in product([1, 2], repeat=2))


def shapes(draw):
    """Sheets of so many records and fields for grids of other sizes: the first missing or surplus field is told."""
    for rows, cols in [(1, 1), (2, 3), (3, 2), (3, 1)]:
        for records, fields in product(range(5), range(1, 5)):
            if records or fields == 1:
                yield reading(rows, cols, sheet([[b"1"] * fields] * records) if records else b"")
    for counts in product(range(1, 5), repeat=2):
        yield reading(2, 3, sheet([[b""] * count for count in counts], LF))
        yield reading(2, 3, sheet([[b'"0"'] * count for count in counts], CRLF, b""))


def line_endings(draw):
    """Both line endings in every mixture, the last one missing too; a CR alone, the two exchanged, lines without bytes at
    every place, and bytes behind the last line."""
    for first, second, last in product([LF, CRLF], [LF, CRLF], [b"", LF, CRLF]):
        yield reading(3, 2, b"1,0" + first + b'"",2 3' + second + b'4,""' + last)
        yield reading(3, 1, b"0" + first + second + b'"1"' + last)
    for ending in [b"\r", b"\n\r", b"\r\r\n", b"\r\n\r\n", b"\n\n", b" \r\n", b"\x0c", b"\x85", b"\xe2\x80\xa8"]:
        lines = [b"1,2", b"3,4", b"5,6"]
        yield reading(3, 2, ending.join(lines) + LF)
        yield from (reading(3, 2, LF.join([*lines[:at], lines[at] + ending, *lines[at + 1 :]])) for at in range(3))
        yield reading(3, 2, ending + LF.join(lines))
    for cols, line in [(1, b"1"), (2, b"1,2")]:
        yield from (reading(3, cols, LF.join(line if at != blank else b"" for at in range(4)) + LF) for blank in range(4))
        yield from (reading(2, cols, line + CRLF + line + CRLF + tail) for tail in [b"\x1a", b"\0", b" ", b"\r", b"\n", b'"', b","])


def two_faults(draw):
    """Two bad fields at every two places of three rows and columns, or a bad one and a record that is short or long: the
    first counts. Line endings within quotes do not count."""
    numbers = list(range(9))
    for first, second in combinations(numbers, 2):
        fields = [draw.pick([b"x", b"1 ", b"00"]) if at in (first, second) else b"0" for at in numbers]
        yield reading(3, 3, sheet([fields[:3], fields[3:6], fields[6:]]))
    for line, count, bad in product([1, 2, 3], [2, 4], PLACES):
        lines = [[b"x" if (row, col) == bad else b"" for col in (1, 2, 3)] for row in (1, 2, 3)]
        lines[line - 1] = (lines[line - 1] + [b""])[:count]
        yield reading(3, 3, sheet(lines, LF, b""))
    for text in [b'"\n\n",1\n', b'1,"\r\n"\n', b'1\n"\n"\nx', b'1,"\n', b'"\n', b'1,2\n"1\n",2', b'"1\n2"x\n', b'1\n2,3']:
        yield from [reading(1, 2, text), reading(2, 2, text), reading(3, 1, text)]


def damaged(draw):
    """Small sheets with a byte changed, dropped or added at every place."""
    for rows, cols, text in [(2, 2, b'0,"1 2"\r\n,3\n'), (2, 1, b'1\r\n""')]:
        for at, byte in product(range(len(text) + 1), b'", \r\n0x'):
            yield reading(rows, cols, text[:at] + bytes([byte]) + text[at:])
            if at < len(text) and text[at] != byte:
                yield reading(rows, cols, text[:at] + bytes([byte]) + text[at + 1 :])
        yield from (reading(rows, cols, text[:at] + text[at + 1 :]) for at in range(len(text)))


def long_fields(draw):
    """Fields of many bytes: numbers, digits, spaces, quotes; as a list, in quotes, and with a fault at the end."""
    many = b" ".join(str(number).encode() for number in range(1000))
    for content in [many, b'"' + many + b'"', many + b" ", many + b"x", b'"' + many, b"9" * 2000, b"0" * 2000, b" " * 2000]:
        yield reading(1, 1, content)
    yield from [reading(1, 1, b'"' * 2000), reading(1, 1, b'"' * 2001), reading(1, 1, b"," * 2000), reading(1, 1, LF * 2000)]


def drawn(draw):
    """Grids at random, in the forms that are read alike, and the same with damage."""
    for _ in range(30):
        rows, cols = draw.between(1, 5), draw.between(1, 5)
        text = draw.text(rows, cols, draw.grid(rows, cols))
        yield from [reading(rows, cols, text), reading(rows, cols, draw.damaged(text))]


def other_tools(draw):
    """The sheets that other tools wrote (oracle/sheets), for the grids that they were given; `file` says which one it is."""
    for file in sorted((Path(__file__).parent.parent / "sheets").glob("*/*.csv")):
        rows, cols = re.fullmatch(r".*_(\d+)x(\d+)", file.stem).groups()
        yield reading(rows, cols, file.read_bytes(), file=f"{file.parent.name}/{file.name}")


SECTIONS = [one_bay, places, bytes_alone, nothing, shapes, line_endings, two_faults, damaged, long_fields, drawn, other_tools, *LENT]


def any_case(draw):
    """One case of any kind: reading a sheet, mostly damaged, or writing one."""
    rows, cols = draw.between(1, 6), draw.between(1, 6)
    lists = draw.grid(rows, cols)
    if draw.often(1, 4):
        return writing(rows, cols, lists, **({"text_length": draw.between(0, 200)} if draw.often(1, 2) else {}))
    text = draw.text(rows, cols, lists)
    others = {"tiles_length": draw.between(0, 60)} if draw.often(1, 4) else {}
    return reading(rows, cols, draw.damaged(text) if draw.often(2, 3) else text, **others)


if __name__ == "__main__":
    generate("sheets", SECTIONS, any_case, SheetDraw)
