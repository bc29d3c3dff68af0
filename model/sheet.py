"""The sheet program: lines of records in, a row for each line out.

Renders the scope paper's section "The sheet program", of "Refusal numbers" the
code 24, and change request K1's records. Input is bytes; a row has the line's number, counted from 1, the
refusal code or 0, and the value, which is 0 if the line is refused.

A frame, stall, cell or leave is here the record of that word alone; what it names
is a cube layout, a region or an element, judged by the rules of cube.py and
regions.py. No buffer is at hand, so there is no check 5, and nothing is cleared.
"""

import re
from collections import namedtuple

from cube import U32_MAX, CubeLayout, extent
from regions import EMPTY_SLOT, Rectangle, count, empty_table, place, position, with_slot

Row = namedtuple("Row", "line code value")

HEADER = "line\tanswer\tvalue\n"
LINE_MAX = 120
NO_FRAME = 1
UNREADABLE = 24
NUMBERS = {b"frame": 7, b"stall": 6, b"cell": 5, b"leave": 2}
NUMBER = re.compile(rb"0|[1-9][0-9]*")


# --- lines and fields ---

def lines(source):
    """The lines without their newlines; a last line may lack its own."""
    parts = source.split(b"\n")
    return parts if parts[-1] else parts[:-1]


def number(field):
    """The number that a field has, or None."""
    if not NUMBER.fullmatch(field) or int(field) > U32_MAX:
        return None
    return int(field)


def record(line):
    """The word of a line's record and its numbers, or None."""
    if len(line) > LINE_MAX:
        return None
    word, *fields = line.split(b"\t")
    numbers = [number(field) for field in fields]
    if len(numbers) != NUMBERS.get(word) or None in numbers:
        return None
    return word, numbers


# --- records ---

class Sheet:
    """What the lines leave for the next: the region table of the last accepted frame, at first none."""

    def __init__(self):
        self.table = None

    def answer(self, line):
        """The code and the value of a line."""
        read = record(line)
        if read is None:
            return UNREADABLE, 0
        word, numbers = read
        if word == b"frame":
            return self.frame(CubeLayout(*numbers))
        if self.table is None:
            return NO_FRAME, 0
        *rest, owner = numbers
        if word == b"stall":
            return self.stall(rest[0], owner, Rectangle(*rest[1:]))
        if word == b"cell":
            return self.cell(rest[0], owner, *rest[1:])
        return self.leave(rest[0], owner)

    def frame(self, q):
        """Takes a layout with empty slots; the value is its extent, without the start."""
        code, _, value = extent(q)
        if not code:
            self.table = empty_table(q)
        return code, value

    def stall(self, n, owner, g):
        """Places a region; the value is its number of elements."""
        code, _, self.table = place(self.table, n, owner, g)
        return code, 0 if code else g.columns * g.rows * self.table.layout.channels

    def cell(self, n, owner, c, h, w):
        """Asks for an element of a region; the value is the byte where it begins, with the start."""
        code, _, value = position(self.table, n, owner, c, h, w)
        return code, value

    def leave(self, n, owner):
        """Empties the slot of a region; the value is the number of its elements, which are cleared."""
        code, _, value = count(self.table, n, owner)
        if not code:
            self.table = self.table._replace(slots=with_slot(self.table.slots, n, EMPTY_SLOT))
        return code, value


# --- whole inputs ---

def rows(source):
    """The row of each line."""
    sheet = Sheet()
    return [Row(i, *sheet.answer(line)) for i, line in enumerate(lines(source), 1)]


def row_text(row):
    """A row as the program prints it."""
    return "\t".join(map(str, row)) + "\n"


def text(source):
    """The program's whole output."""
    return HEADER + "".join(map(row_text, rows(source)))
