"""The test cases of painting: sessions in which regions are painted from pictures of every format.

Renders no rule of its own; the sessions stand at the limits named in change
requests K3 and K5, and in the scope paper's "Pixels" and "Conversion". Each field
of a line is described in README.md: elements are here the bytes of a pixel buffer.
A session is a list of lines that begins with a packing.
"""

import random
from collections import namedtuple
from itertools import combinations, product

from cases import case_type
from cube import U32_MAX, extent_bytes
from cube_cases import layout
from parlour import LOW_BITS, SIGNED_FORMAT, Conversion, picture_end
from pixels import FORMATS, FP16
from pixels_cases import LINE_MAX, setting
from quantize import LIMITS
from quantize_cases import S16_MAX, S16_MIN
from regions import SLOT_COUNT, Rectangle, whole_region
from regions_cases import (BEGIN, PUPILS, READ, Seat, begin, boxed, calls, hand_layout, hand_slot, leaving,
                           other_id, other_slot, patchwork, placed, released, usual)

# `zero` is the conversion's offset; `offset` is the picture's, as in a pixel setting
PaintCase = case_type("PaintCase", "slot owner format width height channels precision offset start line "
                                   "zero scale shift")
BufferCase = case_type("BufferCase", "")

PAINT, LEND = 29, 30

PIXELS_MAX = 16384
PLAIN = Conversion(0, 1, 0)
CENTRED = Conversion(128, 1, 0)
# among them some that hold everything to one end, and some that hold nothing
CONVERSIONS = (PLAIN, CENTRED, Conversion(128, 3, 2), Conversion(0, -1, 0), Conversion(-7, -5, 3),
               Conversion(S16_MIN, S16_MAX, 0), Conversion(S16_MAX, S16_MAX, 0), Conversion(S16_MIN, S16_MIN, 31),
               Conversion(S16_MAX, 1, 8), Conversion(0, 255, 8), Conversion(500, 1, 4), Conversion(99, 0, 0),
               Conversion(2048, -9, 9), Conversion(1, 1, 31), Conversion(200, 5, 1))
WIDTHS = (1, 2, 63, 64, 65, 127, 128, 129, 255, 256, 257, 258, 511, 512, 513, 514, 516)
WHOLE_FORMATS = tuple(code for code, f in enumerate(FORMATS) if f.precision != FP16)
FLOAT_FORMATS = tuple(code for code, f in enumerate(FORMATS) if f.precision == FP16)


# --- building lines ---

def painted(slot, p, k=PLAIN, more=0, **changes):
    """A painting by the usual owner with the pixel bytes that the picture has, and `more`, then changed."""
    count = min(max(0, picture_end(p) + more), PIXELS_MAX)
    t = PaintCase(PAINT, slot, usual(slot), *p, k.offset - S16_MIN, k.scale - S16_MIN, k.shift, n=count,
                  base=-S16_MIN, span=256)._replace(**changes)
    return t._replace(fault_index=t.n)


def lent(m):
    """A drawn buffer of so many bytes."""
    return BufferCase(LEND, m=m)


def spread(code, precision):
    """The conversion of a format's components to a whole precision, or to a part of it: only the highest are held."""
    f = FORMATS[code]
    bits = LOW_BITS.get(f.name, 8 * f.bytes // f.channels)
    middle = 0 if f.name == SIGNED_FORMAT else min(2 ** (bits - 1), S16_MAX)
    return Conversion(middle, 1, max(0, bits - (8 if precision == 0 else 16)))


def seen(q, slot, g, **changes):
    """A read of a whole region."""
    return boxed(READ, q, slot, whole_region(q, g), **changes)


# --- formats, conversions, sizes ---

def formats(precision):
    """Each format with X offsets, starts and gaps, its pixel bytes just enough or one too few; floats are refused."""
    for code, f in enumerate(FORMATS):
        q = layout(6, 5, f.channels, precision, code % 2, 0, 32 * (code % 3))
        g = Rectangle(1 + code % 3, 1 + code % 2, 3, 2 + code // 2 % 2)
        slot = code % SLOT_COUNT
        yield begin(q, code)
        yield placed(slot, g)
        for offset, start, gap, k in ((0, 0, 0, PLAIN), (f.offset_max, 32, 1, CENTRED),
                                      (1, 96, 3, CONVERSIONS[code % len(CONVERSIONS)])):
            p = setting(code, g.columns, g.rows, offset, start, gap)
            yield painted(slot, p, k)
            yield painted(slot, p, k, -1)
        yield painted(slot, setting(code, g.columns, g.rows), PLAIN, 77)
        yield painted(slot, setting(code, g.columns, g.rows), PLAIN, n=0)
        yield seen(q, slot, g)


def conversions(precision):
    """Every conversion of drawn pictures of some formats, and shifts past their limit."""
    for code in (0, 1, 2, 3, 4, 9, 15):
        channels = FORMATS[code].channels
        q = layout(9, 3, channels, precision, 0, 0, 32)
        g = Rectangle(1, 1, 8 if channels == 1 else 4, 2)
        yield begin(q)
        yield placed(3, g)
        for k in CONVERSIONS:
            yield painted(3, setting(code, g.columns, g.rows, code % 2), k)
        for shift in (32, 64, U32_MAX):
            yield painted(3, setting(code, g.columns, g.rows), PLAIN._replace(shift=shift))


def counts(precision):
    """Pictures of which none, all and some components are held, of T_R8 and T_A8B8G8R8.

    `upper` holds the bytes from 128 on, `lower` those below; `both` holds 0 to 14 and, from half a step past the limit
    on, 185 to 255; `over_2` holds 255 alone.
    """
    whole, half = (1, 1) if precision == 0 else (256, 257)
    upper, lower = Conversion(0, whole, 0), Conversion(256, whole, 0)
    both, over_2 = Conversion(100, 3 * half, 1), Conversion(0, half, 1)
    for code, columns in ((0, 70), (12, 9)):
        q = layout(columns + 2, 4, FORMATS[code].channels, precision, 1, 0, 32)
        g, p = Rectangle(1, 1, columns, 3), setting(code, columns, 3, 1, 32, 1)
        yield begin(q)
        yield placed(11, g)
        for k, base, span in ((upper, 0, 128), (upper, 128, 128), (upper, 0, 256), (lower, 128, 128), (lower, 0, 128),
                              (lower, 0, 256), (both, 15, 170), (both, 0, 256), (both, 14, 2), (both, 184, 2),
                              (over_2, 0, 255), (over_2, 255, 1), (over_2, 254, 2)):
            yield painted(11, p, k, base=base - S16_MIN, span=span)
        yield painted(11, p, upper, owner=usual(11) + 1, base=128 - S16_MIN, span=128)
        yield seen(q, 11, g)


def wide(precision):
    """Pictures of about 64, 128, 256 and 512 columns, one after another on the same room."""
    for channels, codes in ((1, (0, 4, 2)), (4, (12, 6, 16))):
        q = layout(516, 2, channels, precision, 1, 0, 32)
        yield begin(q)
        for i, width in enumerate(WIDTHS):
            rows = 1 + i % 2
            g = Rectangle((0, 516 - width, (516 - width) // 2)[i % 3], (i // 2 % 2) * (2 - rows), width, rows)
            code = codes[(i + precision) % 3]
            p = setting(code, width, rows, i % (FORMATS[code].offset_max + 1), 32 * (i % 4), i % 3)
            yield placed(i % SLOT_COUNT, g)
            yield painted(i % SLOT_COUNT, p, spread(code, precision))
            if i % 4 == 0:
                yield seen(q, i % SLOT_COUNT, g)
            yield released(i % SLOT_COUNT)


def tall(precision):
    """Pictures of many rows; one of 8192 columns, and one of 8192 rows."""
    for channels, code, height in ((1, 1, 63), (4, 14, 65), (1, 0, 129), (4, 10, 70)):
        q = layout(3, height + 1, channels, precision, 1, 0, 0)
        g = Rectangle(1, 1, 1 + channels % 2, height)
        yield begin(q)
        yield placed(4, g)
        yield painted(4, setting(code, g.columns, height, 2, 64, height % 2), spread(code, precision))
        yield seen(q, 4, g)
    width, height = (8192, 1) if precision == 0 else (1, 8192)
    q = layout(width, height, 1, precision)
    p = setting(0, width, height, 31)
    yield begin(q, m=extent_bytes(q))
    yield placed(0, Rectangle(0, 0, width, height))
    yield painted(0, p, CENTRED, n=picture_end(p))


def edges(precision):
    """Regions at each edge of a frame, one position, and the whole frame, painted in turn with neighbours there."""
    for channels, codes in ((1, (0, 3)), (4, (13, 7))):
        q = layout(5, 4, channels, precision, 1, 1, 64)
        rectangles = (Rectangle(0, 0, 1, 1), Rectangle(4, 0, 1, 2), Rectangle(0, 3, 4, 1), Rectangle(4, 3, 1, 1),
                      Rectangle(1, 0, 3, 3), Rectangle(0, 1, 1, 2))
        yield begin(q, 33)
        for slot, g in enumerate(rectangles):
            yield placed(slot, g)
            yield painted(slot, setting(codes[slot % 2], g.columns, g.rows, slot % 4), CENTRED)
        for slot, g in enumerate(rectangles):
            yield seen(q, slot, g)
            # as wide as high, and high as wide
            yield painted(slot, setting(codes[0], g.rows, g.columns))
        for slot in range(len(rectangles)):
            yield released(slot)
        yield placed(9, Rectangle(0, 0, 5, 4))
        yield painted(9, setting(codes[1], 5, 4, 3, 32, 1), CONVERSIONS[4])
        yield painted(9, setting(codes[0], 5, 4), CONVERSIONS[2])


def far(precision):
    """Starts and lines up to 32 bits; the line of a picture of one row is never gone along."""
    q = layout(4, 2, 1, precision, 0, 0, 32)
    yield begin(q)
    yield placed(1, Rectangle(0, 0, 3, 1))
    yield placed(2, Rectangle(0, 1, 4, 1))
    yield placed(3, Rectangle(3, 0, 1, 1))
    for code in (0, 3):
        yield painted(1, setting(code, 3, 1)._replace(line=LINE_MAX), CENTRED)
        yield painted(2, setting(code, 4, 1, 1, 8192)._replace(line=LINE_MAX))
        yield painted(2, setting(code, 4, 1)._replace(start=LINE_MAX))
        yield painted(3, setting(code, 1, 1, FORMATS[code].offset_max))
        yield painted(3, setting(code, 1, 1, FORMATS[code].offset_max), PLAIN, -1)
    yield released(1)
    yield released(2)
    yield placed(1, Rectangle(0, 0, 3, 2))
    for line in (32, 64, 2147483648, LINE_MAX):
        yield painted(1, setting(0, 3, 2)._replace(line=line))
    yield painted(1, setting(0, 3, 2)._replace(line=LINE_MAX, start=LINE_MAX), n=PIXELS_MAX)


# --- several faults ---

Scene = namedtuple("Scene", "layout region painting lent")
# in the order of the checks: the code, what it is a fault of, and what is changed there
FAULTS = ((19, "painting", {"format": 17}), (1, "painting", {"width": 0}), (20, "painting", {"precision": 3}),
          (21, "painting", {"offset": 32}), (22, "painting", {"line": 97}), (29, "layout", {"channels": 5}),
          (29, "painting", {"format": 8, "precision": 2}), (2, "layout", {"precision": 2}),
          (16, "painting", {"shift": 32}), (30, "painting", {"n": 107}), (1, "layout", {"height": 0}),
          (3, "layout", {"surface": 0}), (4, "layout", {"start": 40}), (8, "painting", {"slot": 7}),
          (25, "painting", {"owner": 8}), (9, "region", {"column": 5}), (9, "region", {"rows": 3}),
          (5, "lent", {"m": 1023}))


def scene(precision, faults):
    """What a painting of a hand-made table with these faults is made of; of two in one place the first is had."""
    q, p = layout(6, 4, 4, precision, 2, 0, 64), setting(12, 2, 2, 1)._replace(line=96)
    assert picture_end(p) == 108 and q.start + extent_bytes(q) == 1024
    # the pixel bytes are enough for T_A16B16G16R16_F too
    parts = Scene(q, Rectangle(2, 1, 2, 2), painted(6, p, n=picture_end(p._replace(format=8))), lent(1024))
    for _, part, changes in reversed(faults):
        parts = parts._replace(**{part: getattr(parts, part)._replace(**changes)})
    return parts


def many_faults(precision):
    """No fault, each alone, each with the next, each with all later ones, and two that are apart."""
    order = range(len(FAULTS))
    apart = [pair for pair in combinations(order, 2) if pair[1] > pair[0] + 1]
    before = Scene(None, None, None, None)
    yield begin(layout(6, 4, 4, precision, 2, 0, 64))
    for places in ((), *((i,) for i in order), *((i, i + 1) for i in order[:-1]), *(order[i:] for i in order[:-2]),
                   *apart[precision::2]):
        parts = scene(precision, [FAULTS[i] for i in places])
        if parts.layout != before.layout:
            yield hand_layout(parts.layout)
        if parts.region != before.region:
            yield hand_slot(6, 1, *parts.region)
        if parts.lent != before.lent:
            yield parts.lent
        yield parts.painting._replace(fault_index=parts.painting.n)
        before = parts


# --- hand-made tables ---

def hand_slots(precision):
    """Slots made by hand: outside the frame with a picture of their size, overlapping, with ids that are none."""
    q = layout(6, 4, 4, precision, 1, 0, 32)
    yield begin(q, 9)
    for numbers in ((5, 0, 2, 2), (0, 3, 2, 2), (6, 0, 2, 2), (U32_MAX, 0, 2, 2), (1, U32_MAX, 2, 2), (4, 2, 2, 2)):
        yield hand_slot(8, 1, *numbers)
        yield painted(8, setting(12, 2, 2))
    for numbers in ((1, 1, 0, 2), (1, 1, 2, 0), (1, 1, U32_MAX, 2), (1, 1, 2, 4294967294), (1, 1, 3, 2), (1, 1, 2, 3)):
        yield hand_slot(8, 1, *numbers)
        yield painted(8, setting(12, 2, 2))
        yield painted(8, setting(12, 2, 2), owner=usual(8) + 1)
    yield hand_slot(8, 0, 1, 1, 2, 2)
    yield painted(8, setting(12, 2, 2))
    for owner in (0, 65536, 70000, U32_MAX):
        yield hand_slot(8, 1, 1, 1, 2, 2, owner=owner)
        yield painted(8, setting(12, 2, 2), owner=owner)
        yield painted(8, setting(12, 2, 2), owner=owner % 65536)
    # two slots hold the same room in part: each sees what was painted through the other
    yield hand_slot(8, 1, 1, 1, 3, 2)
    yield hand_slot(9, 1, 2, 0, 3, 3)
    yield painted(8, setting(6, 3, 2, 1), CONVERSIONS[2])
    yield seen(q, 9, Rectangle(2, 0, 3, 3))
    yield painted(9, setting(13, 3, 3, 2), CENTRED)
    yield seen(q, 8, Rectangle(1, 1, 3, 2))
    for slot in (16, 17, 24, 256, 65544, U32_MAX):
        yield painted(slot, setting(12, 3, 2), owner=usual(8))


def hand_layouts(precision):
    """Layouts made by hand: sizes, strides and starts that are refused, precisions, and another good one."""
    q = layout(4, 3, 1, precision, 0, 1, 32)
    p = setting(3, 2, 2, 3)
    yield begin(q, 64)
    yield placed(2, Rectangle(1, 1, 2, 2))
    for changes in ({"width": 0}, {"width": 8193}, {"height": U32_MAX}, {"channels": 0}, {"channels": 8193},
                    {"precision": 2}, {"precision": 3}, {"precision": U32_MAX}, {"width": 0, "precision": 2},
                    {"channels": 0, "precision": 2}, {"line": 0}, {"line": 96}, {"line": 130}, {"surface": 352},
                    {"surface": 417}, {"line": LINE_MAX}, {"start": 1}, {"start": U32_MAX}, {"start": LINE_MAX},
                    {"start": 96}, {"start": 128}, {"surface": LINE_MAX}, {"height": 2},
                    {"width": 2, "line": 160, "surface": 416}, {"line": 160, "surface": 448, "start": 0},
                    {"precision": 1 - precision}):
        yield hand_layout(q._replace(**changes))
        yield painted(2, p, CENTRED)
        if "line" in changes or "width" in changes:
            yield painted(2, p, CENTRED, -1)


# --- sessions of all calls ---

def some_conversion(rng, code, precision):
    """A listed conversion, or one whose values lie about in the range of a precision: all, or some are held."""
    if rng.random() < 0.3:
        return rng.choice(CONVERSIONS)
    whole = spread(code, precision)
    scale = rng.choice((1, -1, rng.randint(1, 40), rng.randint(-40, -1), rng.randint(S16_MIN, S16_MAX)))
    shift = whole.shift + abs(scale).bit_length() - rng.randint(0, 2)
    offset = whole.offset + rng.choice((0, rng.randint(-500, 500), rng.randint(S16_MIN, S16_MAX)))
    return Conversion(min(max(offset, S16_MIN), S16_MAX), scale, min(max(shift, 0), 31))


def some_picture(rng, q, g):
    """A setting of any format that the frame takes, as large as a region."""
    code = rng.choice([c for c in WHOLE_FORMATS if FORMATS[c].channels == q.channels])
    most = FORMATS[code].offset_max
    return setting(code, g.columns, g.rows, rng.choice((0, most, rng.randint(0, most))),
                   32 * rng.choice((0, 0, 1, 5)), rng.choice((0, 0, 1, 4)))


def some_painting(rng, q, seats):
    """An accepted painting."""
    slot = rng.choice(sorted(seats))
    p = some_picture(rng, q, seats[slot].rectangle)
    return painted(slot, p, some_conversion(rng, p.format, q.precision), rng.choice((0, 0, 1, 40)),
                   owner=seats[slot].owner)


def of_format(code):
    """The format's code, channels and precision."""
    return {"format": code, "channels": FORMATS[code].channels, "precision": FORMATS[code].precision}


def faulty_painting(rng, q, seats):
    """A painting with one or two faults of the picture, the conversion, the pixel bytes, the slot, the id, the size."""
    t = some_painting(rng, q, seats)
    f = FORMATS[t.format]
    unlike = [c for c in WHOLE_FORMATS if FORMATS[c].channels != q.channels]
    faults = ({"format": rng.choice((17, 18, 256, U32_MAX))},
              {rng.choice(("width", "height")): rng.choice((0, 8193, U32_MAX))},
              {"precision": rng.choice([code for code in range(4) if code != f.precision])},
              {"channels": rng.choice((0, 2, 5 - f.channels, U32_MAX))},
              {"offset": f.offset_max + rng.choice((1, 32, 4294967200))},
              {"start": t.start + rng.choice((1, 16, 31))},
              {"line": rng.choice((0, 31, t.line + 16))},
              of_format(rng.choice(FLOAT_FORMATS)),
              of_format(rng.choice(unlike)),
              {"shift": rng.choice((32, 33, 64, 256, U32_MAX))},
              {"n": rng.choice((0, t.n // 2))},
              {"slot": other_slot(rng, seats)},
              {"owner": other_id(rng, seats, t.slot)},
              {"height": t.height + 1, "n": t.n + t.line},
              {"width": t.width + 1, "line": t.line + 32, "n": t.n + 32 * t.height},
              {"height": max(1, t.height - 1)})
    for changes in rng.sample(faults, rng.choice((1, 1, 2))):
        t = t._replace(**changes)
    return t._replace(fault_index=t.n)


def session(rng, q, rectangles, count):
    """Regions placed one after another and painted, then so many calls of every kind."""
    yield begin(q, rng.choice((0, 1, 50)))
    seats = {}
    for slot, g in zip(rng.sample(range(SLOT_COUNT), len(rectangles)), rectangles):
        seats[slot] = Seat(rng.choice(PUPILS), g)
        yield placed(slot, g, seats[slot].owner)
        yield some_painting(rng, q, seats)
    for _ in range(count):
        kind = rng.random()
        if kind < 0.45:
            yield some_painting(rng, q, seats)
        elif kind < 0.65:
            yield faulty_painting(rng, q, seats)
        elif kind < 0.72:
            yield from leaving(rng, q, seats)
        else:
            yield from calls(rng, q, seats, 1)
    for slot, (owner, g) in sorted(seats.items()):
        yield seen(q, slot, g, owner=owner)


def sessions(precision):
    """Sessions with frames of one channel and of four."""
    rng = random.Random(20260611 + precision)
    for channels, (width, height, count) in product((1, 4), ((11, 7, 9), (20, 3, 16), (70, 4, 5))):
        q = layout(width, height, channels, precision, rng.randrange(3), rng.randrange(2), 32 * rng.randrange(3))
        yield from session(rng, q, patchwork(rng, q, count + 2)[:count], 45)


# --- the list ---

SESSIONS = (formats, conversions, wide, tall, edges, far, many_faults, hand_slots, hand_layouts, sessions, counts)


def all_cases():
    """Every line of every session, session after session."""
    lines = [t for kind in SESSIONS for precision in LIMITS for t in kind(precision)]
    assert lines[0].op == BEGIN
    return lines
