"""Cases on constraint sheets about what is lent: lengths, the order of refusals, sides, and all of writing."""

from itertools import product

from casefile import write_list
from draw_sheets import cell, reading, sheet, writing
from sheets_rules import sheet_of

LARGEST = 2**32 - 1
# Four bays with five numbers in all.
FOUR = [[0], [1, 2], [], [3, LARGEST]]
FOUR_TEXT = sheet_of(2, 2, FOUR)
SIDES = [0, 33, 34, 2**31, 2**32, 2**32 + 1, 2**63, 2**64 - 1]


def lent_to_reading(draw):
    """Offsets lent one short, right and too long; room for one number too few, for all, and for more, which keeps what it
    held."""
    for lists in [FOUR, [[], [], [], []], [[], [7], [], []]]:
        text, count = sheet_of(2, 2, lists), sum(map(len, lists))
        yield from (reading(2, 2, text, offsets_length=length) for length in [0, 1, 3, 4, 5, 6, 1100])
        lengths = sorted({0, 1, max(count - 1, 0), count, count + 1, count + 40})
        yield from (reading(2, 2, text, tiles_length=length) for length in lengths)
        yield reading(2, 2, text, offsets_length=5, tiles_length=count)


def order_of_reading(draw):
    """Every set of refusals 1, 19, 5 and 9 at once: the first of them counts."""
    for sides, text, offsets, tiles in product([(2, 2), (0, 2), (2, 33)], [FOUR_TEXT, FOUR_TEXT + b"x"], [5, 4], [5, 4]):
        yield reading(*sides, text, offsets_length=offsets, tiles_length=tiles)


def sides(draw):
    """Rows and columns at 0, just past their limit, and far past it, where a product of the two does not fit its type."""
    for side in SIDES:
        for rows, cols in [(side, 1), (1, side), (side, side)]:
            yield reading(rows, cols, b"1")
            yield writing(rows, cols, [[1]])
    yield reading(2**32, 2**32, b"", offsets_length=1)
    yield writing(2**32, 2**32, [], offsets="0")
    yield reading(2**63, 2, b"", offsets_length=1)


def unreadable(draw):
    """Lines that are no cases: a field missing or not of its kind, more than there is room for, another call."""
    yield from ["read_sheet", "write_sheet", "read_sheets rows=1 cols=1 text=1", "sheet"]
    yield from ["read_sheet rows=1 cols=1", "read_sheet rows=1 text=1", "read_sheet cols=1 text=1"]
    yield from ["read_sheet rows=x cols=1 text=1", "read_sheet rows=1 cols= text=1", "read_sheet rows=1 cols=1 text=%31"]
    yield from ["read_sheet rows=1 cols=1 text=%", "read_sheet rows=1 cols=1 text=1,2", "read_sheet rows=1 cols=1 text=%0A"]
    yield from [reading(1, 1, b"1", offsets_length=1101), reading(1, 1, b"1", tiles_length=65601)]
    yield from [reading(1, 1, b"1", offsets_length=""), reading(1, 1, b"1", tiles_length="-1")]
    yield from ["write_sheet rows=1 cols=1 offsets=0,0", "write_sheet rows=1 cols=1 tiles="]
    yield from [writing(1, 1, [[2**32]]), writing(1, 1, [[1]], text_length=65537), writing(1, 1, [[1]], offsets="0,x")]
    yield writing(1, 1, [[]], offsets=write_list([0] * 1101))


def written(draw):
    """Grids of many shapes written down, and what was written is read again: empty lists, lone zeros, the largest number."""
    for rows, cols in [*product([1, 2, 3, 5], repeat=2), (1, 32), (32, 1), (12, 4), (4, 12), (32, 32)]:
        for lists in [draw.grid(rows, cols), draw.grid(rows, cols, 1)]:
            yield from [writing(rows, cols, lists), reading(rows, cols, sheet_of(rows, cols, lists))]
    for tiles in [[], [0], [LARGEST], [0, 0], [0, LARGEST], [LARGEST] * 3, list(range(64)), [10**power for power in range(10)]]:
        for lists in [[tiles], [[], tiles, []]]:
            yield from [writing(1, len(lists), lists), reading(1, len(lists), sheet_of(1, len(lists), lists))]


def lent_to_writing(draw):
    """A text lent that is empty, one byte short, exactly full, and longer, which keeps what it held."""
    for rows, cols, lists in [(2, 2, FOUR), (1, 1, [[]]), (1, 1, [[0]]), (1, 3, [[], [], []]), (3, 1, [[], [12, 0], []])]:
        need = len(sheet_of(rows, cols, lists))
        for length in sorted({0, 1, need - 2, need - 1, need, need + 1, need + 90}):
            yield writing(rows, cols, lists, text_length=length)


def bad_offsets(draw):
    """Offsets that do not cut the tiles into a list for each bay: too few, too many, not from 0, falling, and not to the
    count of the tiles."""
    right = [0, 1, 3, 3, 5]
    wrong = [right[:-1], [*right, 5], [], [0], [1, *right[1:]], [5] * 5, [0] * 5, [0, 5, 5, 5, 4], [0, 1, 3, 3, 6]]
    wrong += [[0, 2, 1, 3, 5], [0, 1, 3, 2, 5], [0, 6, 6, 6, 5], [0, 1, 3, 6, 5], [0, 1, 3, 3, 2**64 - 1], right[::-1]]
    wrong += [[0, 2**64 - 1, 2**64 - 1, 2**64 - 1, 5], [2**64 - 1] * 5, [0, 0, 0, 0, 0, 5]]
    for offsets in wrong:
        yield writing(2, 2, FOUR, offsets=write_list(offsets))
    for offsets in [[0, 0, 0, 0, 5], [0, 5, 5, 5, 5], [0, 1, 2, 3, 5], [0, 0, 5, 5, 5]]:
        yield writing(2, 2, FOUR, offsets=write_list(offsets))
    yield writing(2, 2, FOUR, tiles="0,1,2,3")
    yield writing(2, 2, FOUR, tiles="0,1,2,3,4,5")
    yield writing(2, 2, FOUR, tiles="")
    yield writing(2, 2, [[]] * 4)


def order_of_writing(draw):
    """Every set of refusals 1, 5 and 9 at once: the first of them counts."""
    need = len(FOUR_TEXT)
    for sides, offsets, length in product([(2, 2), (0, 2), (2, 33)], ["0,1,3,3,5", "0,1,3,3,4", "0,1,3,5"], [need, need - 1]):
        yield writing(*sides, FOUR, offsets=offsets, text_length=length)


def largest(draw):
    """The largest grid: blank, of lone zeros, with long lists in some bays; a fault in its last field or behind it, a field
    or a record too few; with all 64 strands of a system in each bay."""
    every = list(range(64))
    blank, zeros = [[b""] * 32] * 32, [[b'"0"'] * 32] * 32
    lists = [every if row == col else [row, col][: (row + col) % 3] for row, col in product(range(32), repeat=2)]
    yield from (reading(32, 32, text) for text in [sheet(blank), sheet(zeros), sheet(blank, b"\n", b""), sheet_of(32, 32, lists)])
    need = len(sheet_of(32, 32, lists))
    yield from [writing(32, 32, lists, text_length=need - 1), writing(32, 32, lists, text_length=need)]
    short = [[b"0"] * 32, *blank[2:], [b""] * 31 + [cell(every)]]
    for last in [b"1", b"x", b'"', b"1 ", b"4294967296", b"1\r", b"1,2", b"1\r\n\r", b"1\r\n,", b'"\n"']:
        yield reading(32, 32, sheet([*short[:-1], [*blank[0][:-1], last]]))
    yield from [reading(32, 32, sheet(short[:-1])), reading(32, 32, sheet([*short[:-1], short[-1][:-1]]))]
    yield from (reading(32, 32, sheet(short), tiles_length=length) for length in [0, 95, 96, 97])
    yield from (reading(32, 32, sheet(short), offsets_length=length) for length in [1024, 1025, 1026])
    yield from [reading(1, 32, sheet([short[-1]])), reading(32, 1, sheet([[cell(tiles)] for tiles in lists[5::32]]))]
    yield reading(32, 32, sheet([[cell((first + bay) % 64 for first in every) for bay in range(32)]] * 32))


LENT = [lent_to_reading, order_of_reading, sides, unreadable, written, lent_to_writing, bad_offsets, order_of_writing, largest]
