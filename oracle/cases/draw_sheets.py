"""What the cases on constraint sheets are made of: their lines, grids at random, and texts in several forms."""

from itertools import accumulate, chain

from casefile import write_list, write_text
from draw import Draw

CRLF, LF = b"\r\n", b"\n"


def with_fields(line, others):
    return " ".join([line, *(f"{key}={value}" for key, value in others.items())])


def reading(rows, cols, text, **others):
    """A case that reads a text."""
    return with_fields(f"read_sheet rows={rows} cols={cols} text={write_text(text)}", others)


def writing(rows, cols, lists, **others):
    """A case that writes lists down, one a bay; another field of the same name stands in front of theirs, so it counts."""
    lent = {"offsets": write_list([0, *accumulate(map(len, lists))]), "tiles": write_list(chain(*lists))}
    return with_fields(f"write_sheet rows={rows} cols={cols}", {**lent, **others})


def cell(tiles):
    return " ".join(map(str, tiles)).encode()


def sheet(lines, ending=CRLF, last=None):
    """The text of lines of fields; the last may end otherwise than the others."""
    text = ending.join(b",".join(fields) for fields in lines)
    return text + (ending if last is None else last)


def square(content, place, other=b"2 0"):
    """A sheet of three rows and columns with one field at a place, line and number from 1."""
    return sheet([[content if (line, number) == place else other for number in (1, 2, 3)] for line in (1, 2, 3)])


class SheetDraw(Draw):
    """Draws lists, grids and sheets."""

    def often(self, part, whole):
        return self.between(1, whole) <= part

    def number(self):
        return self.pick([0, 0, self.between(1, 9), self.between(10, 63), self.between(64, 2**32 - 1), 2**32 - 1])

    def tiles(self, longest=4):
        return [self.number() for _ in range(self.between(0, longest))]

    def grid(self, rows, cols, longest=4):
        return [self.tiles(longest) for _ in range(rows * cols)]

    def text(self, rows, cols, lists):
        """The lists as a sheet, some fields in quotes, lines ended in either way, the last perhaps not at all."""
        lines = []
        for row in range(rows):
            cells = [cell(tiles) for tiles in lists[row * cols : row * cols + cols]]
            lines.append(b",".join(b'"' + one + b'"' if self.often(1, 3) else one for one in cells))
        ended = [line + self.pick([LF, CRLF]) for line in lines]
        return b"".join(ended[:-1]) + (ended[-1] if self.often(2, 3) or not lines[-1] else lines[-1])

    def damaged(self, text, _=None):
        """A text with a byte changed, dropped or added, up to three times."""
        for _ in range(self.between(1, 3)):
            at, byte = self.between(0, len(text)), bytes([self.pick(b'",, \r\n019x\xef\0')])
            text = text[:at] + self.pick([byte, b"", byte]) + text[at + self.between(0, 1) :]
        return text
