"""Asserts the starred cases of the scope paper's "Worked on squared paper".

Beside them stand inputs on which readings of "Cells and cubes", "Stalls",
"Weights", "Pixels", "Two tables", "The sheet program", "Refusal numbers" and of
change requests K1, K2, K3, K5, K6, K7 and K8 part.
Prints nothing if all hold.
"""

from itertools import product

import camera
import mend
import padding
import pixels
import sheet
import walk
import weights
from cube import (Box, CubeLayout, box_positions, byte_owner, element_check, element_position, extent, nan_count, pack,
                  position, read_box, surface_count, unpack, whole_box, write_box)
from lut import (EXPONENTIAL, LINEAR, OVERFLOW, PRIORITY, S32_MAX, S32_MIN, UNDERFLOW, X_ONLY,
                 LutSettings, Slope, XSettings, YSettings, linear_value, look, run, run_code, x_value)
from parlour import Conversion, PlainPicture, paint
from quantize import quantize
from regions import (EMPTY_SLOTS, Rectangle, RegionTable, Slot, count, edit, empty_table, place, read, release,
                     share_position, with_slot)
from regions import position as region_position
from weights import WeightLayout

EXAMPLE = CubeLayout(3, 2, 40, 0, 128, 256, 0)
WEIGHTS = WeightLayout(3, 65, 1, 2, 0)
HALF_STEPS = Slope(3, 1)
TENS, FLAT_Y = [10 * i for i in range(65)], [0] * 257
X_LINEAR = XSettings(LINEAR, 2, 0, 256, HALF_STEPS, HALF_STEPS)
X_EXPONENTIAL = XSettings(EXPONENTIAL, 0, 0, S32_MAX, HALF_STEPS, HALF_STEPS)
LUT = LutSettings(X_LINEAR, YSettings(0, 1000, 1256, HALF_STEPS, HALF_STEPS), 0, 0, 0)


def starred():
    """The starred cube cases."""
    raw = [0] * 240
    assert position(EXAMPLE, 33, 1, 2) == (0, 0, 449)
    assert extent(EXAMPLE) == (0, 0, 480)
    assert pack(EXAMPLE, raw, bytes(480))[0] == 0
    assert pack(EXAMPLE, raw, bytes(479))[0] == 5
    assert extent(EXAMPLE._replace(surface=224))[0] == 0
    assert extent(EXAMPLE._replace(surface=192))[0] == 3
    one = CubeLayout(1, 1, 1, 1, 32, 32, 0)
    assert pack(one, [-2], bytes([238]) * 32) == (0, 0, bytes([0xFE, 0xFF]) + bytes(30))
    assert surface_count(one._replace(channels=16)) == 1
    assert surface_count(one._replace(channels=17)) == 2
    assert extent(CubeLayout(1, 1, 1, 0, 32, 0, 0)) == (3, 0, 0)


def raw_order():
    """Element (c, h, w) has raw index (c*H + h)*W + w."""
    positions = list(box_positions(EXAMPLE, whole_box(EXAMPLE)))
    for c in range(40):
        for h in range(2):
            for w in range(3):
                assert positions[(c * 2 + h) * 3 + w] == element_position(EXAMPLE, c, h, w)


def past_32_bits():
    """Sums and products do not wrap."""
    assert extent(CubeLayout(1, 1, 8192, 1, 32, 4294967264, 4294967264)) == (0, 0, 2194728271936)
    assert extent(CubeLayout(8192, 8192, 8192, 0, 262144, 2147483648, 0)) == (0, 0, 549755813888)
    for surface in (0, 32, 4294967264):
        assert extent(CubeLayout(1, 2, 1, 0, 4294967264, surface, 0))[0] == 3
    assert extent(EXAMPLE._replace(line=0))[0] == 3


def lent_memory():
    """Code 5 looks at the whole cube, also for a box; 6 comes before 5."""
    cell = Box(0, 0, 0, 1, 1, 1)
    assert write_box(EXAMPLE, cell, [0], bytes(479))[0] == 5
    assert read_box(EXAMPLE, cell, [0], bytes(479))[0] == 5
    assert pack(EXAMPLE, [], b"") == (6, 0, b"")
    assert unpack(EXAMPLE, [], b"") == (6, 0, [])


def boxes():
    """The index at fault counts the caller's elements; firsts and counts are c, h, w."""
    buffer = bytes(480)
    assert write_box(EXAMPLE, Box(1, 1, 0, 1, 1, 2), [0, 200], buffer) == (7, 1, buffer)
    assert read_box(EXAMPLE, Box(4294967295, 0, 0, 2, 1, 1), [0, 0], buffer)[0] == 9
    assert read_box(EXAMPLE, Box(38, 0, 0, 2, 1, 1), [9, 9], buffer) == (0, 0, [0, 0])


def by_hand(n, is_placed, *numbers, q=EXAMPLE, owner=7):
    """A table with one slot filled by hand."""
    table = empty_table(q)
    return table._replace(slots=with_slot(table.slots, n, Slot(is_placed, owner, Rectangle(*numbers))))


def nan_patterns():
    """Change request K7: which of all elements each precision takes; of fp16 those that Python does not read as NaN."""
    q, every = CubeLayout(1, 1, 1, 2, 32, 32, 0), range(-32768, 32768)
    for element in every:
        assert element_check(q, [element]) == ((26, 0) if nan_count([element]) else (0, 0))
        assert element_check(q._replace(precision=1), [element]) == (0, 0)
        assert element_check(q._replace(precision=0), [element]) == ((0, 0) if -128 <= element < 128 else (7, 0))
    assert [z for z in every if element_check(q, [z])[0]] == [*range(-1023, 0), *range(31745, 32768)]
    for bits, code in ((0x7C00, 0), (0xFC00, 0), (0x7C01, 26), (0x7FFF, 26), (0xFC01, 26), (0xFFFF, 26)):
        assert pack(q, [(bits + 32768) % 65536 - 32768], bytes(32))[0] == code


def nan_calls():
    """Change request K7: 26 stands last, with the least index, in every call that writes; reads give NaN."""
    q = CubeLayout(2, 1, 2, 2, 64, 64, 0)
    table, box, buffer = by_hand(5, True, 0, 0, 2, 1, q=q), whole_box(q), bytes([0xFF]) * 64
    for raw, index in (([-1, 0, 31745, 0], 0), ([31744, -1024, 32767, -1], 2), ([0, 0, 0, -1023], 3)):
        assert pack(q, raw, buffer) == write_box(q, box, raw, buffer) == (26, index, buffer)
        assert edit(table, 5, 7, box, raw, buffer) == (26, index, buffer)
        assert walk.start(q, raw, 64) == (26, index, None)
        assert weights.pack(WeightLayout(4, 1, 1, 1, 2), raw, buffer * 2) == (26, index, buffer * 2)
        for short in (pack(q, raw, buffer[1:]), write_box(q, box, raw, buffer[1:]), edit(table, 5, 7, box, raw, buffer[1:]),
                      walk.start(q, raw, 63), weights.pack(WeightLayout(4, 1, 1, 1, 2), raw, buffer)):
            assert short[:2] == (5, 0)
        assert pack(q, raw[1:], b"")[0] == walk.start(q, raw[1:], 0)[0] == 6
        assert edit(table, 5, 8, box, raw, buffer)[0] == 25 and edit(table, 4, 8, box, raw, buffer)[0] == 8
        assert write_box(q, box._replace(rows=2), raw, buffer)[0] == 9
        # the same numbers in int16
        wide = q._replace(precision=1)
        assert pack(wide, raw, buffer)[0] == walk.start(wide, raw, 64)[0] == 0
        assert unpack(q, [0] * 4, pack(wide, raw, buffer)[2]) == (0, 0, raw)
    # ff is NaN everywhere: reads give it, an edit writes there, a release clears
    assert unpack(q, [0] * 4, buffer) == read_box(q, box, [0] * 4, buffer) == (0, 0, [-1] * 4)
    assert weights.unpack(WeightLayout(4, 1, 1, 1, 2), [0] * 4, buffer * 2) == (0, 0, [-1] * 4)
    after = edit(table, 5, 7, Box(1, 0, 0, 1, 1, 1), [-1024], buffer)[2]
    assert read(table, 5, 7, box, [0] * 4, after) == (0, 0, [-1, -1, -1024, -1])
    assert read(table, 5, 7, box, [0] * 4, release(table, 5, 7, after)[3]) == (0, 0, [0] * 4)


def placings():
    """The paper's sheet example; overlap has no width and no clipping; empty slots do not matter."""
    one = Rectangle(0, 0, 1, 1)
    code, _, table = place(empty_table(EXAMPLE), 0, 7, Rectangle(0, 0, 2, 2))
    assert code == 0 and place(table, 1, 8, Rectangle(1, 0, 2, 1)) == (10, 0, table)
    assert place(table, 0, 7, one)[0] == place(table, 16, 7, one)[0] == 8
    assert place(table, 1, 8, Rectangle(2, 0, 0, 1))[0] == place(table, 1, 8, Rectangle(2, 0, 2, 1))[0] == 9
    assert place(by_hand(0, True, 4294967295, 0, 4, 2), 1, 8, one)[0] == 0
    assert place(by_hand(0, True, 0, 0, 4294967295, 4294967295), 1, 8, one)[0] == 10
    assert place(by_hand(0, True, 0, 0, 0, 9), 1, 8, one)[0] == 0
    assert place(by_hand(0, False, 0, 0, 3, 2), 1, 8, one)[0] == 0
    sides = [(first, count) for first in range(4) for count in range(4)]
    for (a, b), (c, d), (e, f), (g, h) in product(sides, sides, sides[::3], sides[::3]):
        spots = set(product(range(a, a + b), range(c, c + d)))
        both = spots & set(product(range(e, e + f), range(g, g + h)))
        assert share_position(Rectangle(a, c, b, d), Rectangle(e, g, f, h)) == bool(both)


def region_calls():
    """The named region alone is checked, by 9; 1 to 4 come before 8; 5 looks at the whole cube."""
    cell, buffer = Box(0, 0, 0, 1, 1, 1), bytes(480)
    outside = by_hand(3, True, 2, 1, 2, 1)
    assert edit(outside, 3, 7, cell, [0], buffer)[0] == read(outside, 3, 7, cell, [0], buffer)[0] == 9
    assert edit(outside, 2, 7, cell, [0], buffer)[0] == read(outside, 16, 7, cell, [0], buffer)[0] == 8
    bad = RegionTable(EXAMPLE._replace(start=16), EMPTY_SLOTS)
    assert edit(bad, 0, 7, cell, [0], buffer)[0] == read(bad, 0, 7, cell, [0], buffer)[0] == 4
    table = by_hand(5, True, 1, 0, 2, 2)
    assert edit(table, 5, 7, cell, [0], bytes(479))[0] == read(table, 5, 7, cell, [0], bytes(479))[0] == 5
    assert edit(table, 5, 7, Box(1, 1, 0, 1, 1, 2), [0, 200], buffer) == (7, 1, buffer)
    after = edit(table, 5, 7, Box(33, 1, 1, 1, 1, 1), [-2], buffer)[2]
    assert [at for at in range(480) if after[at]] == [449] and after[449] == 254
    assert read(table, 5, 7, Box(33, 1, 0, 1, 1, 2), [9, 9], after) == (0, 0, [0, -2])


def owner_ids():
    """25 stands before 8 when placing, else directly after 8; a hand-made id that is none is never right."""
    cell, buffer, one = Box(0, 0, 0, 1, 1, 1), bytes(480), Rectangle(0, 0, 1, 1)
    table = by_hand(0, True, 0, 0, 2, 2)
    for owner in (0, 65536, 70000, 4294967295):
        assert {place(table, n, owner, g)[0] for n in (0, 1, 16) for g in (one, Rectangle(3, 0, 1, 1))} == {25}
        assert place(table._replace(layout=EXAMPLE._replace(start=16)), 0, owner, one)[0] == 4
        own = by_hand(0, True, 0, 0, 2, 2, owner=owner)
        assert edit(own, 0, owner, cell, [0], buffer)[0] == read(own, 0, owner, cell, [0], buffer)[0] == 25
        assert release(own, 0, owner, buffer) == (25, 0, own, buffer)
        assert region_position(own, 0, owner, 0, 0, 0)[0] == count(own, 0, owner)[0] == 25
    assert place(table, 1, 1, Rectangle(2, 0, 1, 1))[0] == place(table, 1, 65535, Rectangle(2, 0, 1, 1))[0] == 0
    for n, owner, code in ((1, 0, 8), (16, 8, 8), (0, 8, 25), (0, 0, 25), (0, 7, 9)):
        past = cell._replace(w=2)
        assert edit(table, n, owner, past, [], b"")[0] == read(table, n, owner, past, [], b"")[0] == code
        assert region_position(table, n, owner, 0, 0, 2)[0] == code
    outside = by_hand(0, True, 2, 0, 2, 2)
    for n, owner, code in ((1, 0, 8), (0, 8, 25), (0, 7, 9)):
        assert release(outside, n, owner, b"") == (code, 0, outside, b"")
        assert count(outside, n, owner)[0] == code


def leaving():
    """A release clears the region's bytes alone and empties its slot; the next owner reads zeros there."""
    buffer = bytes([238]) * 480
    table = place(place(empty_table(EXAMPLE), 3, 7, Rectangle(0, 0, 2, 2))[2], 4, 7, Rectangle(2, 0, 1, 2))[2]
    assert release(table, 3, 8, buffer) == (25, 0, table, buffer)
    assert release(table, 3, 7, buffer[:479]) == (5, 0, table, buffer[:479])
    assert count(table, 3, 7) == (0, 0, 160)
    code, _, after, cleared = release(table, 3, 7, buffer)
    assert code == 0 and after == place(empty_table(EXAMPLE), 4, 7, Rectangle(2, 0, 1, 2))[2]
    mine = {element_position(EXAMPLE, c, h, w) for c in range(40) for h in range(2) for w in range(2)}
    assert len(mine) == 160 and all(b == (0 if at in mine else 238) for at, b in enumerate(cleared))
    assert release(after, 3, 7, cleared) == (8, 0, after, cleared)
    _, _, later = place(after, 9, 8, Rectangle(1, 0, 1, 2))
    assert read(later, 9, 8, Box(0, 0, 0, 40, 2, 1), [5] * 80, cleared) == (0, 0, [0] * 80)


def sheet_session():
    """The paper's session with ids and leavings, byte for byte, with and without its last newline."""
    session = (b"frame\t3\t2\t40\t0\t128\t256\t0\nstall\t0\t0\t0\t2\t2\t7\n"
               b"stall\t1\t1\t0\t2\t1\t8\ncell\t0\t33\t1\t1\t7\n"
               b"leave\t0\t8\nleave\t0\t7\nstall\t1\t1\t0\t2\t1\t8\n")
    printed = ("line\tanswer\tvalue\n1\t0\t480\n2\t0\t160\n3\t10\t0\n4\t0\t417\n"
               "5\t25\t0\n6\t0\t160\n7\t0\t80\n")
    assert sheet.text(session) == sheet.text(session[:-1]) == printed
    assert sheet.text(b"") == printed[:18]


def sheet_answers(source):
    """The code and value of each line."""
    return [(row.code, row.value) for row in sheet.rows(source)]


def sheet_lines():
    """Only byte 10 parts lines, only byte 9 fields; a number has no zero before it and its limit."""
    unreadable, good = (24, 0), b"frame\t3\t2\t40\t0\t128\t256\t"
    assert sheet_answers(b"\n") == sheet_answers(b"\0") == [unreadable]
    assert sheet_answers(b"\n\n") == sheet_answers(b"\r\n\r") == [unreadable] * 2
    for end in (b"", b"00", b"01", b"0\r", b"0\t", b"0 ", b"-0", b"4294967296", b"0" * 100000):
        assert sheet_answers(good + end + b"\n" + good + b"0") == [unreadable, (0, 480)]
    assert sheet_answers(good + b"4294967264\n" + good + b"4294967295") == [(0, 480), (4, 0)]


def sheet_frames():
    """Before an accepted frame a record is 1 whatever its numbers; a refused frame changes nothing."""
    good, refused = b"frame\t3\t2\t40\t0\t128\t256\t32\n", b"frame\t3\t2\t40\t0\t128\t192\t0\n"
    stall, cell = b"stall\t15\t0\t0\t2\t2\t7\n", b"cell\t15\t33\t1\t1\t7\n"
    early = b"stall\t16\t0\t0\t0\t0\t0\ncell\t0\nleave\t16\t0\n"
    assert sheet_answers(early + refused + cell) == [(1, 0), (24, 0), (1, 0), (3, 0), (1, 0)]
    filled = good + stall
    assert sheet_answers(filled) == [(0, 480), (0, 160)]
    assert sheet_answers(filled + refused + stall + cell)[2:] == [(3, 0), (8, 0), (0, 449)]
    assert sheet_answers(filled + good + cell)[2:] == [(0, 480), (8, 0)]
    assert sheet_answers(filled + b"cell\t15\t40\t0\t0\t7\ncell\t15\t0\t0\t2\t7\n")[2:] == [(9, 0)] * 2


def sheet_owners():
    """Orders: stall 25, 8, 9, 10; cell 8, 25, 9; leave 8, 25, 9. The shapes without the id are 24."""
    filled = b"frame\t3\t2\t40\t0\t128\t256\t0\nstall\t1\t0\t0\t2\t2\t7\n"
    for lines, codes in (
            (b"stall\t1\t9\t9\t0\t0\t0\nstall\t1\t9\t9\t0\t0\t7\nstall\t2\t0\t0\t1\t1\t65536\n", [25, 8, 25]),
            (b"cell\t2\t0\t0\t9\t0\ncell\t1\t0\t0\t9\t8\ncell\t1\t0\t0\t9\t7\n", [8, 25, 9]),
            (b"leave\t2\t0\nleave\t1\t8\nleave\t1\t0\nleave\t16\t7\n", [8, 25, 25, 8]),
            (b"stall\t2\t2\t0\t1\t1\ncell\t1\t0\t0\t0\nleave\t1\nleave\t1\t7\t0\nleave\t1\t07\n", [24] * 5)):
        assert sheet_answers(filled + lines)[2:] == [(code, 0) for code in codes]
    left = filled + b"leave\t1\t7\n"
    assert sheet_answers(left + b"leave\t1\t7\ncell\t1\t0\t0\t0\t7\n")[2:] == [(0, 160), (8, 0), (8, 0)]
    assert sheet_answers(left + b"stall\t1\t1\t0\t2\t1\t8\ncell\t1\t0\t0\t0\t8\n")[3:] == [(0, 80), (0, 32)]


def scan_order():
    """Change request K6: the atoms of the paper's frame; of any small cube each atom once, and what packing leaves."""
    raw = list(range(-120, 120))
    atoms = walk.scan(EXAMPLE, raw)
    assert [at for at, _ in atoms] == [0, 32, 64, 128, 160, 192, 256, 288, 320, 384, 416, 448]
    assert atoms[1][1] == bytes(raw[6 * c + 1] % 256 for c in range(32))
    assert atoms[-1] == (448, bytes(raw[6 * c + 5] for c in range(32, 40)) + bytes(24))
    assert walk.first_walk(EXAMPLE) == (0, 0, 3, 2, 40, 0, 3, 2, 6, 64, 64, 187)
    for width, height, channels, precision, gap in product((1, 2, 3), (1, 2, 3), (1, 15, 16, 17, 32, 33, 65), range(3),
                                                           (0, 32)):
        line = 32 * width + gap
        q = CubeLayout(width, height, channels, precision, line, height * line + 2 * gap, gap)
        # none is NaN in fp16
        raw = [i % 256 - (2128 if precision == 2 else 128) for i in range(width * height * channels)]
        buffer = bytes([238]) * (gap + extent(q)[2] + 9)
        code, index, first = walk.start(q, raw, len(buffer))
        atoms = walk.scan(q, raw)
        assert len(atoms) == surface_count(q) * height * width
        assert pack(q, raw, buffer) == (code, index, walk.written(atoms, buffer)) and code == 0
        walk.check(first, raw, atoms)


def walk_refusals():
    """Change request K6: a start is refused as packing is; of the buffer it gets the length, any number."""
    raw = [0] * 240
    assert walk.start(EXAMPLE, raw, 480)[:2] == walk.start(EXAMPLE, raw, 2 ** 64 - 1)[:2] == (0, 0)
    assert walk.start(EXAMPLE, raw, 479) == (5, 0, None)
    assert walk.start(EXAMPLE, raw[1:], 479) == (6, 0, None)
    assert walk.start(EXAMPLE._replace(start=16), raw[1:], 0) == (4, 0, None)
    assert walk.start(EXAMPLE, raw[:9] + [128] + raw[10:], 480) == (7, 9, None)
    assert walk.start(EXAMPLE._replace(precision=1), raw[:9] + [128] + raw[10:], 992)[:2] == (0, 0)


def any_walk():
    """Open point 27: a missing element is 0, and a sum past 64 bits leaves none; the walk is then as it came."""
    first, most = walk.first_walk(EXAMPLE), 2 ** 64 - 1
    assert walk.step(first, [7, 8]) == (0, bytes([7]) + bytes(31), first._replace(position=32, index=1, columns=2))
    assert walk.step(first, [])[:2] == (0, bytes(32))
    assert walk.step(first._replace(plane=0), [7])[1] == bytes([7]) * 32
    assert walk.step(first._replace(plane=most), [7])[1] == bytes([7]) + bytes(31)
    for none in (first._replace(channels=0), first._replace(position=most - 31), first._replace(index=most),
                 first._replace(columns=1, line=most, position=1),
                 first._replace(columns=0, rows=0, group=most, index=1)):
        assert walk.step(none, [7]) == (None, bytes(32), none)
    assert walk.step(first._replace(position=most - 32), [])[2].position == most
    last = first._replace(columns=1, rows=1, channels=32, position=most, index=most)
    assert walk.step(last, []) == (most, bytes(32), last._replace(columns=0, rows=0, channels=0))


def padding_bytes():
    """Change request K8: the padding of the paper's frame; of any small cube the bytes that are whose says, wherever a part is cut."""
    assert padding.padding_positions(EXAMPLE, 0, 480) == [
        256 + 128 * h + 32 * w + k for h, w, k in product(range(2), range(3), range(8, 32))]
    assert padding.padding_positions(EXAMPLE._replace(channels=64), 0, 480) == []
    for width, height, channels, precision, gap in product((1, 3), (1, 2), (1, 15, 16, 17, 31, 32, 33, 65), range(3),
                                                           (0, 32)):
        line = 32 * width + gap
        q = CubeLayout(width, height, channels, precision, line, height * line + 2 * gap, gap)
        end = gap + extent(q)[2] + 9
        every = [p for p in range(end) if byte_owner(q, p) == ("padding",)]
        for first, last in ((0, end), (0, 0), (end // 3, end // 2), (end - 40, end), (end // 2, end // 2 + 1)):
            assert padding.padding_positions(q, first, last) == [p for p in every if first <= p < last]
        source = bytes([238]) * end
        _, dirt, after = padding.check(q, 37, source)
        assert [p for p, _ in dirt] == every and after == bytes(0 if p in set(every) else 238 for p in range(end))
        raw = [0] * (width * height * channels)
        assert unpack(q, raw, after) == unpack(q, raw, source)
        packed = pack(q, raw, source)[2]
        assert padding.check(q, 37, packed) == (0, [], packed)


def mending_readings():
    """Change request K8: order, empty parts, sums past 64 bits, places that stay."""
    def code(first=0, length=480, part=32, places=32, olds=32, **changes):
        return padding.mend(EXAMPLE._replace(**changes), first, length, bytes(part), [7] * places, bytes(olds))[0]
    most = 2 ** 64 - 1
    assert code() == code(448) == code(480, part=0) == code(most, most, 0, 0, 0) == code(places=33, olds=40) == 0
    assert code(length=479) == code(449) == code(481, part=0) == code(most - 31, most) == code(most - 30, most) == 5
    assert code(places=31) == code(olds=31) == 18
    assert code(start=1, length=0) == 4 and code(449, places=0) == code(length=479, olds=0) == 5
    assert padding.mend(EXAMPLE, 262, 480, bytes([9, 9, 9, 0]), [7] * 5, bytes([6] * 4)) == (
        0, 0, 1, bytes([9, 9, 0, 0]), [264, 7, 7, 7, 7], bytes([9, 6, 6, 6]))


def mending_program():
    """Open point 20: a refusal's number alone; which fault is told first; whose a line's shape is."""
    files = {b"saved": bytes([9]) * 480, b"short": bytes(479), b"sub": mend.FOLDER, b"/dev/full": mend.FULL}
    good, bad = b"frame\t3\t2\t40\t0\t128\t256\t0\n", b"frame\t3\t2\t40\t0\t128\t192\t0\n"

    def printed(source):
        return mend.run(source, files).printed
    for source in (good + b"saved\nsaved", good + b"saved\nnew\n\n", good + b"saved\n\n", good + b"sa\tved\nnew",
                   good + b"n" * 121 + b"\nnew", bad + b"missing\nnew", good + b"sub\nnew", good + b"saved\nsub"):
        assert printed(source) == b"24\n"
    assert printed(bad + b"saved\nsub") == b"3\n" and printed(good + b"short\nno/new") == b"5\n"
    assert printed(good + b"saved\n/dev/full") == b"position\told\n24\n"
    done = mend.run(good + b"saved\nnew", files)
    assert done.printed.startswith(b"position\told\n264\t9\n265\t9\n") and done.printed.count(b"\n") == 145
    assert mend.run(good + b"new\nagain", done.files).printed == b"position\told\n"


def starred_weights():
    """The starred weight cases, by number and by the packed bytes."""
    assert weights.element_number(WEIGHTS, 1, 64, 0, 1) == 388
    assert weights.element_number(WEIGHTS, 2, 5, 0, 0) == 133
    assert weights.element_count(WEIGHTS) == 390 and weights.filled_bytes(WEIGHTS) == 512
    raw = [0] * 390
    raw[(1 * 65 + 64) * 2 + 1], raw[(2 * 65 + 5) * 2] = 7, -9
    code, _, after = weights.pack(WEIGHTS, raw, bytes([238]) * 600)
    assert code == 0 and (after[388], after[133]) == (7, 247)
    assert after[390:512] == bytes(122) and after[512:] == bytes([238]) * 88
    assert weights.unpack(WEIGHTS, [5] * 390, after) == (0, 0, raw)
    seventeen = WeightLayout(17, 1, 1, 1, 1)
    assert weights.pack(seventeen, [0] * 16 + [-2], bytes(128))[2][32:34] == bytes([0xFE, 0xFF])


def weight_order():
    """Element numbers count group, block, row, column, kernel, channel, the last one fastest."""
    for q in (WEIGHTS, WeightLayout(33, 129, 2, 3, 0), WeightLayout(33, 65, 3, 2, 1)):
        group = 32 if q.precision == 0 else 16
        walk = (weights.element_number(q, k, c, r, s)
                for g, b in product(range(0, q.kernels, group), range(0, q.channels, 64))
                for r, s in product(range(q.height), range(q.width))
                for k, c in product(range(g, min(g + group, q.kernels)),
                                    range(b, min(b + 64, q.channels))))
        assert list(walk) == list(range(weights.element_count(q)))


def lent_weights():
    """Code 5 looks at the filled surface, also when unpacking; 6 comes before 5; products do not wrap."""
    raw = [0] * 390
    assert weights.pack(WEIGHTS, raw, bytes(512))[0] == 0
    for call in (weights.pack, weights.unpack):
        assert call(WEIGHTS, raw, bytes(511))[0] == 5
        assert call(WEIGHTS, [], b"")[0] == 6
        assert call(WeightLayout(8192, 8192, 32, 32, 0), [], b"")[0] == 6
    assert weights.pack(WEIGHTS, raw[:2] + [200] + raw[:386] + [-129], bytes(512))[:2] == (7, 2)


def starred_conversions():
    """The starred conversion cases; 2 comes before 16."""
    assert quantize(100, 128, 3, 2, 0) == quantize(100, 128, 3, 2, 1) == (0, 0, -21, False)
    assert quantize(255, 0, 1, 0, 0) == (0, 0, 127, True)
    assert quantize(255, 0, 1, 0, 1) == (0, 0, 255, False)
    assert quantize(1, 0, 1, 32, 2) == (2, 0, 0, False)
    assert quantize(1, 0, 1, 32, 1) == (16, 0, 0, False)


def nearest_conversions():
    """Change request K5: halves go away from zero, all else to the nearest; what is rounded is then held, and told."""
    def values(numbers, *setting):
        """The values of numbers, of which none is held."""
        answers = [quantize(d, *setting) for d in numbers]
        assert all(code == index == held == 0 for code, index, _, held in answers)
        return [value for _, _, value, _ in answers]

    # 130 less 128 is half of 4; 126 is as much below
    assert values((126, 127, 128, 129, 130, 131), 128, 1, 2, 0) == [-1, 0, 0, 0, 1, 1]
    # -84 over 4 is exact; -81 over 4 is -20.25, -78 over 4 -19.5, -75 over 4 -18.75
    assert values((100, 101, 102, 103), 128, 3, 2, 0) == [-21, -20, -20, -19]
    assert values((-3, -2, -1, 0, 1, 2, 3), 0, 1, 1, 1) == [-2, -1, -1, 0, 1, 1, 2]
    assert values((-3, -2, -1, 0, 1, 2, 3), 0, 1, 0, 1) == [-3, -2, -1, 0, 1, 2, 3]
    assert values((-2 ** 30 - 1, -2 ** 30, 1 - 2 ** 30, 2 ** 30 - 1, 2 ** 30), 0, 1, 31, 0) == [-1, -1, 0, 0, 1]
    # half a step past a limit is the first to be held
    for precision, least, most in ((0, -128, 127), (1, -32768, 32767)):
        assert values((2 * most - 1, 2 * most, 2 * least, 2 * least + 1), 0, 1, 1, precision) == [most, most, least, least]
        assert quantize(2 * most + 1, 0, 1, 1, precision) == (0, 0, most, True)
        assert quantize(2 * least - 1, 0, 1, 1, precision) == (0, 0, least, True)
    assert quantize(254, 0, 1, 1, 0) == (0, 0, 127, False) and quantize(255, 0, 1, 1, 0) == (0, 0, 127, True)


def pixel_settings():
    """An unknown precision is 20, after 19 and 1; a line is enough or short; positions do not wrap."""
    p = pixels.PixelSetting(12, 10, 6, 4, 0, 5, 64, 96)
    assert len(pixels.FORMATS) == 17
    assert pixels.position(p, 2, 3) == (0, 0, 64 + 3 * 96 + 7 * 4)
    assert pixels.position(p, 10, 0)[0] == pixels.position(p, 0, 6)[0] == 23
    assert pixels.setting(p._replace(line=64))[0] == 0
    assert pixels.setting(p._replace(line=32))[0] == 22
    assert pixels.setting(p._replace(precision=3))[0] == 20
    assert pixels.setting(p._replace(precision=3, height=0))[0] == 1
    assert pixels.setting(p._replace(format=17, height=0))[0] == 19
    far = p._replace(start=4294967264, line=4294967264)
    assert pixels.position(far, 9, 5) == (0, 0, 6 * 4294967264 + 56)


def float_formats():
    """The formats of floats are fp16 and no other is; of T_R16_F the rest is as it was, so 20 comes before 21."""
    assert [code for code, f in enumerate(pixels.FORMATS) if f.precision == 2] == [5, 8, 11]
    p = pixels.PixelSetting(5, 17, 2, 1, 2, 15, 0, 64)
    assert pixels.setting(p) == (0, 0, 0)
    assert pixels.setting(p._replace(precision=1))[0] == pixels.setting(p._replace(precision=1, offset=16))[0] == 20
    assert pixels.setting(p._replace(offset=16))[0] == 21
    assert pixels.setting(p._replace(width=18))[0] == 22
    assert pixels.position(p, 16, 1) == (0, 0, 64 + 31 * 2)
    assert pixels.setting(p._replace(format=4, precision=1))[0] == 0
    assert pixels.setting(p._replace(format=4))[0] == 20


def four_components():
    """A picture of 2 by 2 pixels of T_A8B8G8R8 in a region at column 1, row 1 of a frame of four channels."""
    q = CubeLayout(3, 3, 4, 0, 96, 288, 32)
    table = by_hand(5, True, 1, 1, 2, 2, q=q)
    first = bytes([0x01, 0x02, 0x03, 0x04, 0x05, 0x06, 0x07, 0x08])
    second = bytes([0x09, 0x0A, 0x0B, 0x0C, 0x0D, 0x0E, 0x80, 0xFF])
    p = pixels.PixelSetting(12, 2, 2, 4, 0, 1, 32, 64)
    picture = bytes([238]) * 36 + first + bytes([238]) * 56 + second
    assert pixels.position(p, 1, 1) == (0, 0, 32 + 64 + 8) and len(picture) == 32 + 64 + 12
    after = bytearray([238]) * 320
    for at, pixel in ((160, first[:4]), (192, first[4:]), (256, second[:4]), (288, bytes([0x0D, 0x0E, 0x7F, 0x7F]))):
        after[at:at + 4] = pixel
    # 80 and ff are held
    assert paint(table, 5, 7, p, picture, Conversion(0, 1, 0), bytes([238]) * 320) == (0, 0, 2, bytes(after))
    # less 128 each, in two bytes: 1 is 81 ff, 255 is 7f 00
    wide = q._replace(precision=1)
    table = table._replace(layout=wide)
    for at, pixel in ((160, first[:4]), (192, first[4:]), (256, second[:4]), (288, second[4:])):
        after[at:at + 8] = b"".join((b - 128).to_bytes(2, "little", signed=True) for b in pixel)
    assert after[160:168] == bytes([0x81, 0xFF, 0x82, 0xFF, 0x83, 0xFF, 0x84, 0xFF])
    assert after[288:296] == bytes([0x8D, 0xFF, 0x8E, 0xFF, 0, 0, 0x7F, 0])
    assert paint(table, 5, 7, p, picture, Conversion(128, 1, 0), bytes([238]) * 320) == (0, 0, 0, bytes(after))


def painted_bytes(code, stored, conversion, precision):
    """The bytes of the element that a picture of one pixel of one component becomes."""
    q = CubeLayout(1, 1, 1, precision, 32, 32, 0)
    p = pixels.PixelSetting(code, 1, 1, 1, pixels.FORMATS[code].precision, 0, 0, 32)
    refused, _, _, after = paint(by_hand(0, True, 0, 0, 1, 1, q=q), 0, 7, p, stored, Conversion(*conversion), bytes(32))
    assert refused == 0 and not any(after[precision + 1:])
    return after[:precision + 1]


def one_component():
    """T_R16_I alone is signed; T_R10 and T_R12 use their low bits; every other component is as its bytes say."""
    assert painted_bytes(4, bytes([0xFE, 0xFF]), (0, 1, 0), 1) == bytes([0xFE, 0xFF])
    assert painted_bytes(3, bytes([0xFE, 0xFF]), (0, 1, 0), 1) == bytes([0xFF, 0x7F])
    # (-2 - 1) * 3 over 2 is -4.5, so -5; (65534 - 32767) over 2 is 16383.5, so 16384
    assert painted_bytes(4, bytes([0xFE, 0xFF]), (1, 3, 1), 0) == bytes([0xFB])
    assert painted_bytes(3, bytes([0xFE, 0xFF]), (32767, 1, 1), 1) == bytes([0x00, 0x40])
    assert painted_bytes(2, bytes([0x34, 0xF6]), (0, 1, 0), 1) == bytes([0x34, 0x06])
    assert painted_bytes(1, bytes([0x34, 0xF6]), (0, 1, 0), 1) == bytes([0x34, 0x02])
    assert painted_bytes(3, bytes([0x34, 0x76]), (0, 1, 0), 1) == bytes([0x34, 0x76])
    assert painted_bytes(0, bytes([0xFF]), (128, -1, 0), 0) == bytes([0x81])


def held_components():
    """Components are counted, not pixels, by their rounded values; the plain picture counts as many."""
    q, slot = CubeLayout(2, 2, 4, 0, 64, 128, 0), Rectangle(0, 0, 2, 2)
    p, table = pixels.PixelSetting(12, 2, 2, 4, 0, 0, 0, 32), place(empty_table(q), 9, 7, slot)[2]
    picture = bytes([0, 127, 128, 254, 255, 255, 255, 129]) + bytes(24) + bytes([1, 2, 3, 4, 255, 0, 0, 0])

    def counted(k, precision=0, owner=7):
        """The answer of the call and of a plain picture that was placed the same region."""
        frame = q._replace(precision=precision)
        plain = PlainPicture(frame, [0] * 16, bytes(128))
        assert plain.place(9, 7, slot) == (0, 0)
        answer = paint(table._replace(layout=frame), 9, owner, p, picture, k, bytes(128))
        assert plain.paint(9, owner, p, picture, k) == answer[:3] and plain.packed() == answer[3]
        return answer[:3]

    # from 128 on: two of the first pixel, all four of the second, none of the third, one of the last
    assert counted(Conversion(0, 1, 0)) == (0, 0, 7)
    # over 2 the four of 255, no 254
    assert counted(Conversion(0, 1, 1)) == (0, 0, 4)
    assert counted(Conversion(0, -1, 0)) == (0, 0, 6)
    assert counted(Conversion(128, 1, 0)) == counted(Conversion(0, 1, 0), 1) == (0, 0, 0)
    assert counted(Conversion(500, 1, 0)) == counted(Conversion(-32768, 1, 0), 1) == (0, 0, 16)
    assert counted(Conversion(0, 1, 0), owner=8) == (25, 0, 0)


def painting_readings():
    """The orders of K3, where readings part; T_R16 goes into int8, and is held."""
    q = CubeLayout(2, 2, 1, 0, 64, 128, 0)
    table, buffer, plain = by_hand(3, True, 0, 0, 1, 1, q=q), bytes(128), Conversion(0, 1, 0)
    one = pixels.PixelSetting(0, 1, 1, 1, 0, 0, 0, 32)

    def code(p=one, n=3, owner=7, given=1, k=plain, room=128, **changes):
        """The answer with so many pixel bytes and bytes of room, and the layout changed."""
        return paint(table._replace(layout=q._replace(**changes)), n, owner, p, bytes(given), k, bytes(room))[0]

    assert code() == 0 and code(given=0) == 30
    # the last pixel's end, not its line's: with start 64 and X offset 3, in the second row
    assert code(one._replace(start=64, offset=3, height=2), given=64 + 32 + 4) == 9
    assert code(one._replace(start=64, offset=3, height=2), given=64 + 32 + 3) == 30
    assert code(channels=0) == 29 and code(channels=0, precision=2) == 29
    assert code(width=0, precision=2) == 2 and code(width=0) == 1
    assert code(precision=2, k=plain._replace(shift=32)) == 2 and code(given=0, k=plain._replace(shift=32)) == 16
    assert code(line=33, given=0) == 30 and code(line=33) == 3 and code(start=8, n=2) == 4
    for number, channels, precision in ((5, 1, 2), (8, 4, 2), (11, 4, 2)):
        floats = one._replace(format=number, channels=channels, precision=precision)
        assert code(floats, given=0, precision=2, channels=channels) == 29
        assert code(floats._replace(precision=1), given=0) == 20
    assert code(one._replace(format=12, channels=4), given=4) == 29
    two = one._replace(width=2, height=2)
    for room in (0, 127, 128):
        assert code(two, owner=8, given=34, room=room) == 25 and code(two, given=34, room=room) == 9
        assert code(two, n=4, owner=8, given=34, room=room) == 8
    assert code(room=127) == 5 and code(one._replace(width=2), given=2, room=127) == 9
    outside = by_hand(3, True, 1, 1, 2, 2, q=q)
    assert paint(outside, 3, 7, two, bytes(34), plain, buffer) == (9, 0, 0, buffer)
    sixteen = one._replace(format=3, precision=1)
    assert paint(table, 3, 7, sixteen, bytes([0x34, 0x12]), plain, buffer) == (0, 0, 1, bytes([0x7F]) + bytes(127))


def starred_lookups():
    """The starred lookup cases; neither the slope nor the step between entries is rounded first."""
    assert x_value(X_LINEAR, TENS, 6) == 15
    assert x_value(X_LINEAR, TENS, 258) == 643 != 640 + 2 * (3 // 2) == 642
    assert x_value(X_LINEAR, TENS, -1) == -2
    assert x_value(X_LINEAR, TENS, 256) == 640
    falling = TENS[:2] + [7] + TENS[3:]
    assert x_value(X_LINEAR, falling, 6) == 8 != 10 - 3 * 2 // 4 == 9
    assert x_value(X_EXPONENTIAL, TENS, 6) == 25
    assert look(LUT._replace(x=X_EXPONENTIAL), TENS, FLAT_Y, 0) == (UNDERFLOW, 0)
    from_8 = LUT._replace(x=X_EXPONENTIAL._replace(number=3))
    assert look(from_8, TENS, FLAT_Y, 7)[0] == UNDERFLOW
    assert look(from_8, TENS, FLAT_Y, 8) == (X_ONLY, 0)


def lookup_readings():
    """Below an exponential X the distance may be positive; products and ends do not wrap."""
    from_8 = X_EXPONENTIAL._replace(number=3)
    assert x_value(from_8, [5] + TENS[1:], 7) == 5 + 7 * 3 // 2
    widest = from_8._replace(start=S32_MAX, below=Slope(-32768, -16))
    assert (S32_MIN - S32_MAX) * -32768 * 2 ** 16 == 2 ** 63 - 2 ** 31
    assert x_value(widest, TENS, S32_MIN) == S32_MAX
    for end in (S32_MIN + 63, S32_MAX):
        late = X_LINEAR._replace(number=0, start=S32_MAX, end=end)
        assert run_code(LUT._replace(x=late), TENS, FLAT_Y, [], [], (0,) * 5) == 13
    assert x_value(X_EXPONENTIAL._replace(number=-32, start=S32_MIN), TENS, S32_MAX) == 639
    assert [linear_value(TENS, -6, d) for d in (0, 1)] == [0, 640]


def lookup_runs():
    """18 comes before 17; 17 counts all five counters, also without samples; 16 all four shifts."""
    full = (4294967295, 1, 0, 0, 0)
    assert run(LUT, TENS, FLAT_Y, [], [], full) == (17, 0, [], full)
    assert run(LUT, TENS, FLAT_Y, [], [7], full) == (18, 0, [7], full)
    exact = (4294967290, 1, 1, 1, 0)
    assert run(LUT, TENS, FLAT_Y, [1, 2, 300], [9] * 3, exact) == (17, 0, [9] * 3, exact)
    after = (4294967291, 1, 1, 1, 1)
    assert run(LUT, TENS, FLAT_Y, [6, 258], [9] * 2, exact) == (0, 0, [15, 643], after)
    unused = LUT._replace(x=X_EXPONENTIAL._replace(above=Slope(0, 16)))
    assert run_code(unused, TENS, FLAT_Y, [], [], (0,) * 5) == 16


def lookup_kinds():
    """One above and one below is of the priority kind, and the named table answers by its slope."""
    for bit, value in ((0, 643), (1, (258 - 1000) * 3 // 2)):
        assert look(LUT._replace(priority=bit), TENS, FLAT_Y, 258) == (PRIORITY, value)
    for bit, value in ((0, 640 + (1258 - 256) * 3 // 2), (1, 3)):
        assert look(LUT._replace(overflow=bit), TENS, FLAT_Y, 1258) == (OVERFLOW, value)


def starred_curves():
    """The starred curve entries; every entry is the greatest by its rule; past the end is the last."""
    assert (camera.entry(1, 2), camera.entry(1, 255)) == (1448, 16351)
    for table, count, step in ((0, 65, 262144), (1, 257, 1048576)):
        entries = [camera.entry(table, i) for i in range(count)]
        assert all(e * e <= i * step < (e + 1) * (e + 1) for i, e in enumerate(entries))
        assert camera.entry(table, count) == camera.entry(table, 4294967295) == entries[-1]


def newton_steps():
    """Change request K4: entry 2's steps as the page for pupils has them; the steps of every entry but 0 end with it."""
    assert camera.estimates(2097152) == [65535, 32783, 16423, 8275, 4264, 2377, 1629, 1458, 1448]
    for table, count, step in ((0, 65, 262144), (1, 257, 1048576)):
        for i in range(1, count):
            assert camera.estimates(i * step)[-1] == camera.entry(table, i)
    assert camera.estimates(268435456, 16383) == [16383]  # a start below the root


def starred_ready_made():
    """The starred ready-made case; s outside 2 to 22 is 14; a bit left unnamed is 0."""
    code, _, q = camera.ready_made(4)
    assert code == 0
    assert run(q, camera.X_CURVE, camera.Y_CURVE, [256, 257, 4097, -1], [9] * 4, (0,) * 5) == (
        0, 0, [4096, 4103, 4096, 0], (0, 1, 1, 1, 1))
    assert camera.ready_made(4, 0, None, 1)[2] == q._replace(underflow=1)
    for s in range(-1, 25):
        code, _, q = camera.ready_made(s)
        assert code == (0 if 2 <= s <= 22 else 14)
        assert code or run_code(q, camera.X_CURVE, camera.Y_CURVE, [], [], (0,) * 5) == 0


if __name__ == "__main__":
    starred()
    raw_order()
    past_32_bits()
    lent_memory()
    boxes()
    nan_patterns()
    nan_calls()
    placings()
    region_calls()
    owner_ids()
    leaving()
    sheet_session()
    sheet_lines()
    sheet_frames()
    sheet_owners()
    scan_order()
    walk_refusals()
    any_walk()
    padding_bytes()
    mending_readings()
    mending_program()
    starred_weights()
    weight_order()
    lent_weights()
    starred_conversions()
    nearest_conversions()
    pixel_settings()
    float_formats()
    four_components()
    one_component()
    held_components()
    painting_readings()
    starred_lookups()
    lookup_readings()
    lookup_runs()
    lookup_kinds()
    starred_curves()
    newton_steps()
    starred_ready_made()
