"""The test cases of the sheet program: inputs as bytes.

Renders no rule; the inputs stand at the limits named in the scope paper's "The
sheet program" and "Refusal numbers", in change request K1, and at the readings of
the open points. A fault is tried on a sheet that has a frame and a stall before it and asks for a
cell after it, so that what the fault leaves behind shows too.
"""

import random
from itertools import product

from cube import U32_MAX, CubeLayout, extent
from cube_cases import layout
from regions import Rectangle
from regions_cases import over_corner, patchwork
from sheet import LINE_MAX, Sheet

SESSION = (b"frame\t3\t2\t40\t0\t128\t256\t0\n"
           b"stall\t0\t0\t0\t2\t2\t7\n"
           b"stall\t1\t1\t0\t2\t1\t8\n"
           b"cell\t0\t33\t1\t1\t7\n"
           b"leave\t0\t8\n"
           b"leave\t0\t7\n"
           b"stall\t1\t1\t0\t2\t1\t8\n")
EXAMPLE = CubeLayout(3, 2, 40, 0, 128, 256, 0)
RANDOM_SHEETS = 600
LONG_LINE = 100000


# --- building sheets ---

def line(word, *fields):
    """A record's line: the word and its fields, numbers or bytes."""
    return b"\t".join([word, *(f if isinstance(f, bytes) else str(f).encode("ascii") for f in fields)])


def frame(q):
    """The line of a layout."""
    return line(b"frame", *q)


def stall(slot, *rectangle, owner=7):
    """The line of a placing."""
    return line(b"stall", slot, *rectangle, owner)


def cell(slot, c, h, w, owner=7):
    """The line of an element."""
    return line(b"cell", slot, c, h, w, owner)


def leave(slot, owner=7):
    """The line of a leaving."""
    return line(b"leave", slot, owner)


def sheet(*lines):
    """The input with these lines, each with its newline."""
    return b"".join(part + b"\n" for part in lines)


FRAME = frame(EXAMPLE)
STALL = stall(0, 1, 0, 2, 2)
CELL = cell(0, 33, 1, 1)
LEAVE = leave(0)
GOOD = (frame(CubeLayout(2, 3, 33, 1, 96, 288, 64)), stall(1, 0, 0, 1, 1), cell(0, 7, 1, 0))


def within(*lines):
    """The lines after a frame and a stall, and before a cell."""
    return sheet(FRAME, STALL, *lines, CELL)


def in_groups(lines, count):
    """Sheets of so many lines each."""
    lines = list(lines)
    for i in range(0, len(lines), count):
        yield within(*lines[i:i + count])


# --- bytes and lines ---

def line_ends():
    """Ends of lines and of the input; only byte 10 parts lines."""
    yield SESSION
    yield from (b"", b"\n", b"\n\n", b"\n\n\n", b"\r\n", b"\r", b"\0", b"\0\n", b"\n\0", b"\t", b"\t\n",
                b" ", b"0", b"frame", b"cell\n")
    yield SESSION.replace(b"\n", b"\r\n")
    yield SESSION.replace(b"\n", b"\r")
    yield SESSION.replace(b"\n", b"\n\n")
    yield SESSION.replace(b"\n", b"\n\0\n")
    for end in (b"\n", b"\n\n", b"\r\n", b"\0", b"\0\n", b" ", b"\t", b"\x0b", b"\x1a", b"\x85\n"):
        yield SESSION + end
        yield SESSION[:-1] + end
    for count in range(1, len(SESSION)):
        if count % 7 == 0 or SESSION[count - 1] in b"\t\n":
            yield SESSION[:count]
    for start in b"\xef\xbb\xbf", b"\n", b" ", b"\0", b"\r\n", b"\xff\xfe":
        yield start + SESSION
    for part in b"\r", b"\x0b", b"\x0c", b"\x1c", b"\x1e", b"\x85", b"\xc2\x85", b"\xe2\x80\xa8":
        yield within(part.join((STALL, CELL)), part + CELL, CELL + part)


def every_byte():
    """Each byte in a number, in a word, between the two, and as a line."""
    for low in range(0, 256, 2):
        parts = []
        for byte in (bytes([low]), bytes([low + 1])):
            parts += [cell(0, byte, 1, 1), cell(0, 3, 1, b"1" + byte), cell(0, 3, 1, 1, b"7" + byte),
                      b"cell" + byte + CELL[5:], b"cel" + byte + CELL[4:], leave(0, byte),
                      b"leave" + byte + LEAVE[6:], byte]
        yield within(*parts)


# --- numbers ---

def number_texts(n):
    """Fields like a number n: itself, with zeros or signs before, past 32 and 64 bits, not decimal."""
    plain = b"%d" % n
    yield from (plain, b"0" + plain, b"00" + plain, b"+" + plain, b"-" + plain, b" " + plain)
    yield from (plain + b" ", plain + b"\0", plain + b".", plain + b"x", b"0x" + plain, b"")
    yield from (plain + plain, b"0" * 9 + plain, b"0" * 20 + plain, b"\xd9" + bytes([0xa0 + n % 10]))
    yield from (b"%d" % (n + more) for more in (2 ** 32, 10 * 2 ** 32, 2 ** 64))


LIMITS = (b"4294967295", b"4294967296", b"4294967297", b"4294967305", b"4294967300", b"4300000000",
          b"5000000000", b"9999999999", b"04294967295", b"10000000000", b"42949672950", b"42949672960",
          b"99999999999", b"18446744073709551615", b"18446744073709551616", b"18446744073709551617",
          b"340282366920938463463374607431768211457", b"1" + b"0" * 99, b"9" * 100, b"0" * 100,
          b"0" * 99 + b"1", b"0", b"00", b"000", b"01", b"-0", b"+0", b"1e1", b"1_0", b"1,0", b"1.0",
          b"0b1", b"--1", b"1-")
RECORDS = (FRAME, stall(3, 0, 1, 1, 1), CELL, leave(0, 8), leave(1))


def field_numbers():
    """Each number of each record in other forms, near ones and limits."""
    for record in RECORDS:
        word, *fields = record.split(b"\t")
        for i, field in enumerate(fields):
            texts = [*number_texts(int(field)), *LIMITS]
            changed = (line(word, *fields[:i], other, *fields[i + 1:]) for other in texts)
            yield from in_groups(changed, 5)


def next_to_limits():
    """Sheets that take the greatest number, and refuse the next one as unreadable."""
    for n in (U32_MAX, U32_MAX + 1, 10 * U32_MAX, 10 ** 10, 10 ** 99):
        yield within(stall(n, 0, 0, 1, 1), stall(1, n, 0, 1, 1), cell(n, 0, 0, 0), cell(0, n, 0, 0))
        yield within(stall(1, 0, 0, 1, 1, owner=n), cell(0, 0, 0, 0, n), leave(n), leave(0, n), leave(n, n))
        yield within(frame(EXAMPLE._replace(surface=n)), frame(EXAMPLE._replace(precision=n)))
        yield sheet(stall(n, n, n, n, n), cell(n, n, n, n), leave(n, n), line(b"frame", *[n] * 7), FRAME,
                    STALL)
    yield sheet(FRAME, stall(0, 0, 0, 1, 1), cell(0, 0, 0, 0))


# --- shapes ---

def words():
    """Words that are no record's, with a record's numbers."""
    for record in RECORDS:
        word, rest = record.split(b"\t", 1)
        others = (word.upper(), word.capitalize(), word[:-1], word[1:], word + word[-1:], word + b" ",
                  b" " + word, word + b"\0", word + b":", b"", word + b"s", word[::-1],
                  b"\xff" + word, b'"' + word + b'"')
        changed = [other + b"\t" + rest for other in others]
        changed += [other.split(b"\t")[0] + b"\t" + rest for other in RECORDS]
        yield from in_groups(changed, 5)


def fields_missing_or_extra():
    """Records with a field left out, added, emptied or doubled."""
    for record in RECORDS:
        parts = record.split(b"\t")
        count = len(parts)
        lacking = [line(*parts[:i], *parts[i + 1:]) for i in range(count)]
        lacking += [line(*parts[:i]) for i in range(1, count)]
        extra = [line(*parts[:i], other, *parts[i:]) for i in range(count + 1) for other in (b"0", b"")]
        extra += [record + b"\t0\t0", record + b"\t\t", b"\t\t" + record, line(*parts, *parts)]
        emptied = [line(*parts[:i], b"", *parts[i + 1:]) for i in range(1, count)]
        yield from in_groups(lacking + extra + emptied, 5)


def fields_parted_otherwise():
    """Records with other bytes for the tabs, all of them or one."""
    signs = (b" ", b"  ", b"\t\t", b"\t ", b" \t", b",", b"\x0b", b"\\t", b"")
    for record in RECORDS:
        changed = [record.replace(b"\t", sign) for sign in signs]
        changed += [record.replace(b"\t", b" ", 1), b" ".join(record.rsplit(b"\t", 1))]
        yield from in_groups(changed, 5)


def words_alone():
    """Words without numbers, tabs alone, and lines that are no records."""
    yield within(b"frame", b"stall", b"cell", b"frame\t", b"stall\t", b"cell\t", b"framestallcell")
    yield within(b"leave", b"leave\t", b"leave\t\t", b"leaves\t0\t7", b"release\t0\t7", b"leave\t0\t7\t",
                 b"leave\t0")
    yield within(b"frame" + b"\t" * 7, b"stall" + b"\t" * 6, b"cell" + b"\t" * 5, b"\t", b"\t" * 4)
    yield within(b"0", b"#", b"quit", b"help", b" ", b"line\tanswer\tvalue", b"1\t0\t480")


# --- long lines ---

def of_length(count, word, *numbers):
    """A line of so many bytes that is a record but for zeros before its last number."""
    plain = line(word, *numbers)
    *parts, last = plain.split(b"\t")
    return line(*parts, b"0" * (count - len(plain)) + last)


def long_lines():
    """Lines of about 120 bytes and of many more; the next line is read as itself."""
    for count in (83, 119, LINE_MAX, LINE_MAX + 1, 122, 127, 128, 129):
        for numbers in ((b"frame", *EXAMPLE), (b"stall", 3, 0, 1, 1, 1, 7), (b"cell", 0, 33, 1, 1, 7),
                        (b"leave", 0, 7)):
            yield sheet(FRAME, STALL, of_length(count, *numbers), *GOOD)
            yield sheet(FRAME, STALL, CELL, of_length(count, *numbers))[:-1]
        yield within(b"0" * count, b"\t" * count, b"\0" * (count - 1))
        yield within((CELL + b"\t" + b"9" * count)[:count], CELL)
    for count in (LINE_MAX - 1, LINE_MAX, LINE_MAX + 1, 256, 300):
        yield sheet(FRAME, STALL, b"x" * count + b"\r", *GOOD)
        yield sheet(b"x" * count, FRAME, STALL, b"\xff" * count, b"", b"\xff" * count, CELL)
    for count in (*range(118, 124), 127, 128, 240, 242, 255, 256, 257, 512):
        yield sheet(FRAME, STALL, b"7" * count + CELL, *GOOD)
        yield sheet(FRAME, STALL, b"7" * count + b"\t" + CELL, b"7" * count + STALL, CELL)
    longest = line(b"frame", *[U32_MAX] * 7)
    yield sheet(longest, longest + b"0", b"0" + longest, FRAME, longest, STALL, CELL)


def very_long_lines():
    """Lines of up to 100000 bytes, before a good line, and last."""
    yield sheet(FRAME, STALL, b"a" * LONG_LINE, *GOOD)
    yield sheet(FRAME, STALL, b"\t" * 65536 + CELL, *GOOD)
    yield sheet(b"0" * 8192 + FRAME, FRAME, b"\0" * 4096, CELL, STALL, CELL)
    yield sheet(FRAME, STALL, CELL, b"cell\t0\t" + b"3" * 5000 + b"\t1\t1\t7")[:-1]
    yield b"\n" * 300 + SESSION


# --- frames ---

REFUSED = (EXAMPLE._replace(width=0), EXAMPLE._replace(height=8193), EXAMPLE._replace(channels=0),
           EXAMPLE._replace(precision=3), EXAMPLE._replace(precision=U32_MAX), EXAMPLE._replace(line=64),
           EXAMPLE._replace(surface=192), EXAMPLE._replace(line=112), EXAMPLE._replace(start=16),
           EXAMPLE._replace(start=U32_MAX))


def before_a_frame():
    """Records before an accepted frame; a refused frame is none."""
    early = (stall(0, 0, 0, 1, 1), stall(16, 0, 0, 0, 0, owner=0), cell(0, 0, 0, 0),
             cell(U32_MAX, 9999, 9, 9, 0), leave(0), leave(16, 0))
    yield sheet(*early)
    yield sheet(*early, b"", b"stall\t0\t0\t0\t1\t7", b"cell\t0\t0\t0\t00\t7", b"leave\t0", *early, FRAME,
                *early)
    for q in REFUSED:
        yield sheet(frame(q), *early, b"cell", FRAME, CELL, STALL, CELL)
        yield sheet(early[0], frame(q), early[0], early[2], frame(q), early[2])
    for unreadable in (b"frame", b"Frame" + FRAME[5:], FRAME + b"\t", FRAME + b"\r", FRAME + b"0" * 100):
        yield sheet(unreadable, *early, FRAME, STALL, CELL)


def after_a_frame():
    """Refused frames leave the frame and the slots; accepted ones empty them."""
    other = CubeLayout(4, 3, 17, 2, 160, 640, 96)
    probes = (stall(0, 0, 0, 1, 1), stall(1, 0, 0, 1, 2), cell(1, 39, 1, 0), CELL, cell(0, 40, 0, 0))
    last = cell(0, 16, 0, 0)
    yield sheet(FRAME, STALL, LEAVE, FRAME, LEAVE, stall(0, 1, 0, 2, 2, owner=8), CELL, LEAVE, leave(0, 8))
    for q in REFUSED:
        yield within(frame(q), *probes)
        yield sheet(FRAME, STALL, frame(other), frame(q), CELL, stall(0, 3, 2, 1, 1), last, frame(q),
                    last)
    yield sheet(FRAME, STALL, CELL, FRAME, CELL, STALL, STALL, CELL)
    yield sheet(FRAME, STALL, frame(other), CELL, stall(0, 2, 1, 2, 2), cell(0, 16, 1, 1), FRAME, CELL,
                STALL, CELL)
    yield sheet(FRAME, *(stall(n, n % 3, n // 3, 1, 1) for n in range(6)), frame(other),
                *(cell(n, 0, 0, 0) for n in range(6)), stall(2, 3, 2, 1, 1), cell(2, 16, 0, 0))
    yield sheet(FRAME, stall(15, 0, 0, 3, 2), FRAME, stall(0, 0, 0, 3, 2), cell(0, 1, 1, 2),
                cell(15, 1, 1, 2))
    yield sheet(*[FRAME] * 12)
    yield within(frame(other)[:-1], frame(other) + b" ", frame(other)[1:], b"frame")


def changed_frames(q, names, steps):
    """A layout's frame, and those with one of the named numbers moved by a step, not below 0."""
    yield frame(q)
    for name, step in product(names, steps):
        yield frame(q._replace(**{name: max(0, getattr(q, name) + step)}))


def faults_of_frames():
    """Frames at their limits, and with two faults."""
    sizes = ("width", "height", "channels")
    for q in (layout(8192, 1, 1, 0), layout(1, 8192, 1, 0), layout(1, 1, 8192, 0), layout(1, 1, 8192, 2)):
        yield sheet(*changed_frames(q, sizes, (-1, 1)))
    for q in (EXAMPLE, layout(1, 1, 1, 1), layout(5, 4, 32, 0, 1, 1, 32), layout(5, 1, 33, 0),
              layout(2, 9, 17, 2, 0, 1)):
        yield sheet(*changed_frames(q, ("line", "surface"), (-32, -1, 1, 16, 32)))
        yield sheet(*changed_frames(q, ("precision", ), (1, 2, 3, 4)),
                    *changed_frames(q, ("start", ), (1, 16, 31, 32, 33, 4294967264 - q.start)))
    faults = ({"width": 0}, {"height": 0}, {"channels": 8193}, {"precision": 3}, {"line": 0},
              {"surface": 0}, {"start": 1})
    for i, one in enumerate(faults):
        others = faults[:i] + faults[i + 1:]
        yield sheet(*(frame(EXAMPLE._replace(**one, **other)) for other in others))


# --- stalls and cells ---

def slots():
    """The sixteen slots and none of them, twice the same, and all filled."""
    q = layout(16, 2, 3, 1)
    yield sheet(frame(q), *(stall(n, n, 0, 1, 2) for n in range(18)), stall(15, 0, 0, 1, 1))
    yield sheet(frame(q), *(stall(n, 15 - n, 0, 1, 2) for n in range(16)),
                *(cell(n, 2, 1, 0) for n in range(18)))
    for n in (0, 1, 14, 15, 16, 17, 31, 32, 255, 256, 65536, 2147483648, U32_MAX):
        yield within(stall(n, 0, 0, 1, 1), cell(n, 0, 0, 0), stall(n, 0, 1, 1, 1), stall(n, 0, 0, 0, 0),
                     stall(n, 0, 0, 3, 2), cell(n, 40, 0, 0))


ROOM = layout(7, 6, 3, 0, 1, 0, 32)
MIDDLE = Rectangle(2, 2, 3, 2)
AROUND = ((2, 0, 3, 2), (2, 4, 3, 2), (0, 2, 2, 2), (5, 2, 2, 2), (1, 1, 1, 1), (5, 1, 1, 1),
          (1, 4, 1, 1), (5, 4, 1, 1), (0, 0, 7, 1), (0, 5, 2, 1))
OVER = ((2, 2, 3, 2), (0, 0, 7, 6), (3, 2, 1, 1), (0, 2, 7, 1), (3, 0, 1, 6), (0, 0, 3, 3), (4, 3, 3, 3),
        (1, 1, 5, 4))
OUTSIDE = ((0, 0, 0, 1), (0, 0, 1, 0), (0, 0, 0, 0), (0, 0, 8, 1), (0, 0, 1, 7), (7, 0, 1, 1),
           (0, 6, 1, 1), (7, 0, 0, 1), (0, 6, 1, 0), (6, 5, 2, 1), (6, 5, 1, 2), (2, 2, 0, 2),
           (2, 2, 6, 2), (2, 2, 2, 5), (U32_MAX, 0, 1, 1), (U32_MAX, 0, 2, 1), (0, U32_MAX, 1, 2),
           (1, 0, U32_MAX, 1), (0, 1, 1, U32_MAX), (4294967290, 0, 10, 1), (0, 4294967290, 1, 10),
           (0, 0, U32_MAX, U32_MAX), (U32_MAX, U32_MAX, U32_MAX, U32_MAX),
           (2147483648, 0, 2147483648, 1), (0, 2147483648, 1, 2147483649))


def placings():
    """Stalls that touch another or share positions with it, outside, empty, and faults of two kinds."""
    base = (frame(ROOM), stall(7, *MIDDLE))
    for low, right in product((0, 1), (0, 1)):
        corners = (over_corner(ROOM, MIDDLE, right, low, reach) for reach in (0, 1, 9))
        yield sheet(*base, *(stall(3, *g) for g in corners))
    yield sheet(*base, *(stall(n + n // 7, *g) for n, g in enumerate(AROUND)))
    for g in OVER:
        yield sheet(*base, stall(0, *g), cell(0, 0, 0, 0), stall(0, 0, 0, 1, 1), cell(0, 0, 0, 0))
    for i in range(0, len(OUTSIDE), 4):
        yield sheet(*base, *(stall(n, *g) for n in (0, 7) for g in OUTSIDE[i:i + 4]),
                    stall(0, 0, 0, 2, 2), cell(0, 2, 1, 1))
    yield sheet(frame(ROOM), stall(0, 0, 0, 7, 6), stall(0, 0, 0, 7, 6), stall(1, 0, 0, 7, 6),
                stall(1, 6, 5, 1, 1), stall(1, 6, 5, 2, 1), cell(0, 2, 5, 6), cell(1, 0, 0, 0))


def just_outside(q, g):
    """Places (c, h, w) one step past a stall, and past 32 bits from its corner."""
    yield from ((0, g.rows, 0), (0, 0, g.columns), (q.channels - 1, g.rows, g.columns))
    yield from ((q.channels, 0, 0), (q.channels, g.rows - 1, g.columns - 1), (U32_MAX, g.rows - 1, 0))
    yield from ((0, q.height - 1, 0), (0, 0, q.width - 1), (0, q.height, 0), (0, 0, q.width))
    yield from ((0, U32_MAX, 0), (0, 0, U32_MAX), (U32_MAX, U32_MAX, U32_MAX))
    yield from ((0, U32_MAX - g.row, 0), (0, 0, U32_MAX - g.column))


def corners():
    """Every corner of a stall, by channels at an atom's border and at the ends, and just outside."""
    stalls = (Rectangle(0, 0, 1, 1), Rectangle(1, 2, 3, 2), Rectangle(4, 0, 1, 5))
    for precision, g in product(range(3), stalls):
        q = layout(5, 5, 34, precision, 1, 2, 64)
        for h, w in product((0, g.rows - 1), (0, g.columns - 1)):
            at = (cell(9, c, h, w) for c in (0, 15, 16, 31, 32, 33, 34, U32_MAX))
            yield sheet(frame(q), stall(9, *g), *at)
        yield sheet(frame(q), stall(9, *g), *(cell(9, *at) for at in just_outside(q, g)))


def cells():
    """Cells in slots placed, refused and free, and each of a stall."""
    yield sheet(FRAME, CELL, STALL, cell(1, 0, 0, 0), cell(16, 40, 2, 2), cell(1, 40, 2, 2),
                cell(0, 40, 2, 2), stall(1, 0, 0, 1, 1), stall(1, 0, 1, 1, 1), cell(1, 0, 0, 0),
                cell(1, 0, 1, 0))
    yield sheet(FRAME, STALL, *(cell(0, c, h, w) for c, h, w in product((0, 39, 40), range(3), range(3))))
    yield sheet(FRAME, STALL, stall(1, 1, 0, 1, 1), cell(1, 0, 0, 0), stall(1, 0, 0, 1, 1),
                cell(1, 0, 0, 0), stall(1, 0, 1, 1, 1), cell(1, 0, 0, 0), cell(0, 0, 0, 0))


def owners():
    """Ids at their limits and past them, another's, and with a second fault of each kind."""
    no_ids = (0, 65536, 70000, 65543, U32_MAX)
    for n in (*no_ids, 1, 65535, 8):
        yield within(stall(1, 0, 0, 1, 1, owner=n), cell(1, 0, 0, 0, n), cell(0, 33, 1, 1, n), leave(0, n),
                     stall(0, 0, 1, 1, 1, owner=n), stall(16, 0, 1, 1, 1, owner=n),
                     stall(2, 0, 0, 0, 1, owner=n), stall(2, 1, 0, 1, 1, owner=n), cell(2, 0, 0, 0, n),
                     cell(16, 0, 0, 0, n), cell(0, 40, 0, 0, n), cell(0, 0, 2, 0, n), leave(2, n),
                     leave(16, n), leave(1, n), leave(1, n))
    yield sheet(FRAME, stall(0, 0, 0, 1, 2), stall(1, 1, 0, 1, 2, owner=8), stall(2, 2, 0, 1, 2),
                *(cell(slot, 0, 0, 0, owner) for slot in range(4) for owner in (7, 8)))


def leavings():
    """Leavings by the owner, by another and twice; the slot and the room are free after them, the others stay."""
    for slot, owner in ((0, 7), (15, 1), (8, 65535)):
        seat = stall(slot, 1, 0, 2, 2, owner=owner)
        yield sheet(FRAME, seat, leave(slot, owner % 9 + 1), leave(slot, owner), leave(slot, owner),
                    cell(slot, 0, 0, 0, owner), seat, cell(slot, 0, 0, 0, owner), leave(slot, owner))
        yield sheet(FRAME, seat, stall(1, 0, 0, 2, 1), leave(slot, owner), stall(1, 0, 0, 2, 1),
                    cell(1, 39, 0, 1), stall(slot, 2, 0, 1, 1, owner=9), cell(slot, 39, 0, 0, owner),
                    cell(slot, 39, 0, 0, 9), leave(1), leave(slot, 9))
    base = (frame(ROOM), stall(7, *MIDDLE), *(stall(n + n // 7, *g, owner=n + 1) for n, g in enumerate(AROUND)))
    yield sheet(*base, *(leave(n + n // 7, n + 1) for n in range(len(AROUND))), cell(7, 2, 1, 2), leave(7),
                stall(3, 0, 0, 7, 6, owner=3), leave(3, 3))
    yield sheet(*base, *(part for n, g in enumerate(AROUND) for part in (
        leave(n + n // 7, n + 1), stall(n + n // 7, *g), cell(n + n // 7, 0, 0, 0))))
    q = layout(16, 2, 3, 1)
    yield sheet(frame(q), *(stall(n, n, 0, 1, 2) for n in range(16)), *(leave(n) for n in range(17)),
                stall(9, 0, 0, 16, 2), leave(9))


def past_32_bits():
    """Frames whose extents, positions and counts of elements pass 32 bits."""
    for q in (CubeLayout(1, 1, 8192, 1, 32, 4294967264, 4294967264),
              CubeLayout(8192, 8192, 8192, 0, 262144, 2147483648, 0),
              CubeLayout(8192, 8192, 8192, 2, 524256, 4294967264, 4294967264),
              CubeLayout(2, 2, 33, 0, 2147483648, 4294967264, 4294967264),
              CubeLayout(134, 3, 64, 1, 2147479488, 4294967264, 32)):
        last = (q.channels - 1, q.height - 1, q.width - 1)
        yield sheet(frame(q), stall(0, 0, 0, q.width, q.height), cell(0, 0, 0, 0), cell(0, *last),
                    cell(0, q.channels // 2, 0, q.width // 2), cell(0, q.channels, 0, 0), LEAVE)
        yield sheet(frame(q), stall(15, q.width - 1, q.height - 1, 1, 1), cell(15, last[0], 0, 0),
                    cell(15, *last))
    two_rows = CubeLayout(1, 2, 1, 0, 4294967264, 4294967264, 0)
    yield sheet(*(frame(two_rows._replace(surface=surface)) for surface in (0, 32, 4294967264)))
    yield sheet(frame(two_rows._replace(line=4294967232, start=4294967264)), stall(0, 0, 1, 1, 1),
                cell(0, 0, 0, 0))


# --- random sheets ---

def some_layout(rng):
    """A small layout, now and then one of wide strides."""
    q = layout(rng.randint(1, 7), rng.randint(1, 6), rng.choice((1, 2, 15, 16, 17, 31, 32, 33, 40, 65)),
               rng.randrange(3), rng.randrange(3), rng.randrange(3), 32 * rng.randrange(4))
    if rng.random() < 0.15:
        q = q._replace(surface=4294967264, start=rng.choice((0, 4294967264)))
    assert extent(q)[0] == 0
    return q


def wrong_layout(rng, q):
    """The layout with one or two numbers changed, mostly to faulty ones."""
    changes = {"width": (0, 8193, U32_MAX, q.width + 5), "height": (0, 8193, U32_MAX),
               "channels": (0, 8193), "precision": (3, 4, U32_MAX),
               "line": (0, q.line - 32, q.line + 16), "surface": (0, q.surface - 32, 17),
               "start": (1, 16, U32_MAX)}
    for name in rng.sample(sorted(changes), rng.choice((1, 1, 2))):
        q = q._replace(**{name: max(0, rng.choice(changes[name]))})
    return q


def damaged(rng, part):
    """A line with a byte changed, left out or put in, or a piece doubled."""
    at = rng.randrange(len(part) + 1)
    kind = rng.randrange(4)
    new = rng.choice((0, 9, 9, 10, 13, 32, 43, 45, 47, 48, 48, 49, 57, 58, 255, rng.randrange(256)))
    new = bytes([new])
    if kind == 0:
        return part[:at] + new + part[at + 1:]
    if kind == 1:
        return part[:at] + part[at + 1:]
    if kind == 2:
        return part[:at] + new + part[at:]
    end = rng.randrange(at, len(part) + 1)
    return part[:end] + part[at:end] + part[end:]


def some_rectangle(rng, q, pieces):
    """A rectangle of a patchwork that covers the plane, or any inside, or one often outside or empty."""
    kind = rng.random()
    if pieces and kind < 0.5:
        return pieces.pop()
    if kind < 0.8:
        column, row = rng.randrange(q.width), rng.randrange(q.height)
        return Rectangle(column, row, rng.randint(1, q.width - column), rng.randint(1, q.height - row))
    column, row = rng.randint(0, q.width), rng.randint(0, q.height)
    return Rectangle(column, row, rng.randint(0, 4), rng.randint(0, 4))


def placed_regions(state):
    """What each slot has that is placed."""
    slots = state.table.slots if state.table else ()
    return {n: slot for n, slot in enumerate(slots) if slot.placed}


def some_stall(rng, q, pieces, regions):
    """A placing, mostly in an empty slot."""
    free = [n for n in range(4) if n not in regions]
    slot = free[0] if free and rng.random() < 0.7 else rng.choice((0, 1, 14, 15, 16, 17))
    owner = rng.choice((1, 7, 7, 8, 65535) if rng.random() < 0.9 else (0, 65536, U32_MAX))
    return stall(slot, *some_rectangle(rng, q, pieces), owner=owner)


def some_seat(rng, regions):
    """A slot, mostly one that is placed, and its owner's id, now and then another."""
    slot = rng.choice(sorted(regions)) if regions and rng.random() < 0.9 else rng.randint(0, 17)
    owner = regions[slot].owner if slot in regions and rng.random() < 0.9 else rng.choice((0, 1, 7, 8, 65536))
    return slot, owner


def some_cell(rng, q, regions):
    """A cell of a stall or one step past it, now and then in another slot."""
    slot, owner = some_seat(rng, regions)
    g = regions[slot].rectangle if slot in regions else Rectangle(0, 0, 1, 1)
    inside = rng.random() < 0.7
    c = rng.choice((0, q.channels - 1, rng.randrange(q.channels), q.channels - inside))
    return cell(slot, c, rng.randint(0, g.rows - inside), rng.randint(0, g.columns - inside), owner)


def some_line(rng, state, pieces):
    """A line that goes with what the lines before it left; `pieces` are the rectangles not yet used."""
    q, regions = state.table.layout if state.table else EXAMPLE, placed_regions(state)
    kind = rng.random()
    if kind < 0.07 or (state.table is None and kind < 0.7):
        q = some_layout(rng)
        pieces[:] = patchwork(rng, q, min(rng.randint(2, 5), q.width * q.height))
        return frame(q)
    if kind < 0.2:
        return frame(wrong_layout(rng, q))
    if kind < 0.4 or (kind < 0.6 and not regions):
        return some_stall(rng, q, pieces, regions)
    if kind < 0.5:
        return leave(*some_seat(rng, regions))
    return some_cell(rng, q, regions)


def some_lines(rng, count):
    """So many lines, some of them damaged."""
    state, pieces = Sheet(), []
    for _ in range(count):
        part = some_line(rng, state, pieces)
        if rng.random() < 0.12:
            part = damaged(rng, part)
        state.answer(part)
        yield part


def random_sheets():
    """Short sheets of such lines, some without the last newline or with more."""
    rng = random.Random(20)
    for _ in range(RANDOM_SHEETS):
        body = b"\n".join(some_lines(rng, rng.randint(2, 14)))
        yield body + rng.choice((b"\n", b"\n", b"\n", b"", b"\n\n", b"\r\n"))


GROUPS = (line_ends, every_byte, field_numbers, next_to_limits, words, fields_missing_or_extra,
          fields_parted_otherwise, words_alone, long_lines, very_long_lines, before_a_frame,
          after_a_frame, faults_of_frames, slots, placings, corners, cells, owners, leavings, past_32_bits,
          random_sheets)


def all_cases():
    """Every input once, in the order of the groups."""
    return list(dict.fromkeys(source for group in GROUPS for source in group()))
