"""The test cases of the region tables: seeded sessions of placings, edits, reads and releases.

Renders no rule of its own; the sessions stand at the limits named in the scope
paper's "Stalls" and "Refusal numbers", and in change requests K1 and K7. Each
field of a line is described in README.md. A session is a list of lines that
begins with a packing.
"""

import random
from collections import namedtuple
from itertools import product

from cases import ANY_ELEMENT, FP16_EDGES, NAN_DRAWS, NANS, accepted, case_type, lent_case
from cube import ATOM, ELEMENT_BYTES, U32_MAX, Box, CubeLayout, extent_bytes
from cube_cases import layout
from regions import ID_MAX, SLOT_COUNT, Rectangle, whole_region

LayoutCase = case_type("LayoutCase", "width height channels precision line surface start")
PlaceCase = case_type("PlaceCase", "slot owner column row columns rows")
BoxCase = case_type("BoxCase", "slot owner gap3 gap4 gap5 gap6 gap7 c h w nc nh nw")
SlotCase = case_type("SlotCase", "slot placed owner column row columns rows")
WholeCase = case_type("WholeCase", "slot owner")
ElementCase = case_type("ElementCase", "slot owner c h w")
# what a session knows of a slot that is placed
Seat = namedtuple("Seat", "owner rectangle")

BEGIN, PLACE, EDIT, READ, HAND_SLOT, HAND_LAYOUT, RELEASE, POSITION, COUNT = range(20, 29)

SESSION_ELEMENTS_MAX = 2048
SESSION_BUFFER_MAX = 16384
PRECISIONS = range(3)
NO_SLOTS = (16, 17, 31, 32, 256, 65536, U32_MAX)
NO_IDS = (0, ID_MAX + 1, 70000, 131072, 2147483648, U32_MAX)
PUPILS = (1, 2, 3, 7, 255, 256, 4464, 32768, ID_MAX - 1, ID_MAX)
PAST_INT8 = (0, 32639, 32896, 65535)
# what int8 and fp16 do not take; int16 takes all. 32767 is past int8 and NaN in fp16
NOT_TAKEN = {0: PAST_INT8, 1: PAST_INT8, 2: NANS}
PAST_BOTH = 65535
UNIT_BOX = Box(0, 0, 0, 1, 1, 1)


# --- building lines ---

def begin(q, more=0, **changes):
    """A packing of the whole cube, its buffer `more` bytes longer, then changed."""
    return lent_case(LayoutCase(BEGIN, *q), q.width * q.height * q.channels,
                     q.start + extent_bytes(q) + more, True, **changes)


def usual(slot):
    """The owner of a slot where no other is named; neighbours have the same one now and then."""
    return PUPILS[slot * 3 // 4 % len(PUPILS)]


def placed(slot, g, owner=None):
    """A placing."""
    return PlaceCase(PLACE, slot, usual(slot) if owner is None else owner, *g)


def boxed(op, q, slot, box, **changes):
    """An edit or read by the usual owner with as many elements as the box has, then changed."""
    count = min(box.channels * box.rows * box.columns, SESSION_ELEMENTS_MAX)
    contents = accepted(q.precision, slot + count) if op == EDIT else ANY_ELEMENT
    t = BoxCase(op, slot, usual(slot), *[0] * 5, *box, n=count, fault_index=U32_MAX,
                **contents)._replace(**changes)
    return t if t.fault_index < t.n else t._replace(fault_index=t.n)


def both(q, slot, box, **changes):
    """An edit and a read of the same box."""
    return [boxed(op, q, slot, box, **changes) for op in (EDIT, READ)]


def released(slot, owner=None):
    """A release."""
    return WholeCase(RELEASE, slot, usual(slot) if owner is None else owner)


def asked(slot, c=0, h=0, w=0, owner=None):
    """The position of an element, and the count of its region."""
    owner = usual(slot) if owner is None else owner
    return [ElementCase(POSITION, slot, owner, c, h, w), WholeCase(COUNT, slot, owner)]


def hand_slot(slot, is_placed, *numbers, owner=None):
    """Numbers put into a slot by hand."""
    return SlotCase(HAND_SLOT, slot, is_placed, usual(slot) if owner is None else owner, *numbers)


def hand_layout(q):
    """A layout put into the table by hand."""
    return LayoutCase(HAND_LAYOUT, *q)


def third(items, precision):
    """A precision's share of items that have nothing to do with the precision."""
    return list(items)[precision::len(PRECISIONS)]


# --- rectangles of a session ---

def parlour(q):
    """Sixteen regions side by side over the full height, with all columns."""
    borders = [i * q.width // SLOT_COUNT for i in range(SLOT_COUNT + 1)]
    return [Rectangle(a, 0, b - a, q.height) for a, b in zip(borders, borders[1:])]


def cut(rng, g):
    """A rectangle cut in two at random; itself where it has one position."""
    across = rng.random() * (g.columns + g.rows - 2) < g.columns - 1
    if across and g.columns > 1:
        k = rng.randint(1, g.columns - 1)
        return [g._replace(columns=k), g._replace(column=g.column + k, columns=g.columns - k)]
    if g.rows > 1:
        k = rng.randint(1, g.rows - 1)
        return [g._replace(rows=k), g._replace(row=g.row + k, rows=g.rows - k)]
    return [g]


def patchwork(rng, q, count):
    """At most so many touching rectangles of several shapes that together are the whole plane."""
    pieces = [Rectangle(0, 0, q.width, q.height)]
    while len(pieces) < count:
        pieces.sort(key=lambda g: g.columns * g.rows)
        pieces[-1:] = cut(rng, pieces[-1])
    rng.shuffle(pieces)
    return pieces


def over_corner(q, g, right, low, reach):
    """The rectangle from a corner position of another outward, as far as the cube goes."""
    w, h = g.column + right * (g.columns - 1), g.row + low * (g.rows - 1)
    column, row = (w if right else max(0, w - reach)), (h if low else max(0, h - reach))
    columns = min(reach + 1, q.width - w) if right else w - column + 1
    rows = min(reach + 1, q.height - h) if low else h - row + 1
    return Rectangle(column, row, columns, rows)


# --- boxes of a region ---

def stretch(rng, size):
    """First and count on one axis: all, one of the ends, up to an end, or anything inside."""
    first = rng.randrange(size)
    return rng.choice(((0, size), (0, 1), (size - 1, 1), (first, size - first), (0, first + 1),
                       (first, rng.randint(1, size - first))))


def channel_stretch(rng, q):
    """First and count of channels, often on both sides of an atom's border."""
    border = ATOM // ELEMENT_BYTES[q.precision]
    if q.channels > border and rng.random() < 0.4:
        first = rng.randint(max(0, border - 2), border)
        return first, rng.randint(1, min(3, q.channels - first))
    return stretch(rng, q.channels)


def some_box(rng, q, g):
    """A box of a region: whole, one element, or a stretch on each axis."""
    kind = rng.random()
    if kind < 0.12:
        return whole_region(q, g)
    if kind < 0.3:
        c = rng.choice((0, q.channels - 1, rng.randrange(q.channels)))
        h = rng.choice((0, g.rows - 1, rng.randrange(g.rows)))
        w = rng.choice((0, g.columns - 1, rng.randrange(g.columns)))
        return Box(c, h, w, 1, 1, 1)
    (c, nc), (h, nh), (w, nw) = channel_stretch(rng, q), stretch(rng, g.rows), stretch(rng, g.columns)
    return Box(c, h, w, nc, nh, nw)


def wrong_box(rng, q, g, box):
    """The box past the region on one axis, or without elements."""
    first, count, size = rng.choice((("c", "channels", q.channels), ("h", "rows", g.rows),
                                     ("w", "columns", g.columns)))
    at = getattr(box, first)
    changes = rng.choice(({count: size - at + 1}, {first: size, count: 1}, {count: 0},
                          {first: U32_MAX, count: 2}, {first: U32_MAX, count: 1},
                          {count: U32_MAX}, {first: 1, count: U32_MAX}))
    return box._replace(**changes)


# --- random calls; `seats` has the owner and the rectangle of each slot that is placed ---

def some_call(rng, q, seats):
    """An accepted edit or read."""
    slot = rng.choice(sorted(seats))
    box = some_box(rng, q, seats[slot].rectangle)
    return boxed(rng.choice((EDIT, EDIT, READ)), q, slot, box, owner=seats[slot].owner)


def other_slot(rng, seats):
    """A slot that is not placed, or none of the sixteen."""
    free = [n for n in range(SLOT_COUNT) if n not in seats]
    return rng.choice(free) if free and rng.random() < 0.6 else rng.choice(NO_SLOTS)


def other_id(rng, seats, slot):
    """An id that is none, another pupil's, or next to the owner's."""
    owner = seats[slot].owner
    kind = rng.random()
    if kind < 0.4:
        return rng.choice(NO_IDS)
    if kind < 0.7:
        return rng.choice([p for p in PUPILS if p != owner])
    return rng.choice((owner - 1, owner + 1, owner + ID_MAX + 1))


def faulty_call(rng, q, seats):
    """An edit or read with one or two faults of 8, 25, 9, 6, 7 (26 in fp16; none in a read, nor in int16)."""
    slot, op = rng.choice(sorted(seats)), rng.choice((EDIT, EDIT, READ))
    owner, g = seats[slot]
    box = some_box(rng, q, g)
    kinds = set(rng.choice(((8,), (25,), (25,), (9,), (9,), (6,), (7,), (7,), (7, 7), (8, 25), (8, 9), (8, 6),
                            (25, 9), (25, 9), (25, 6), (25, 7), (9, 6), (6, 7), (9, 7))))
    t = boxed(op, q, other_slot(rng, seats) if 8 in kinds else slot,
              wrong_box(rng, q, g, box) if 9 in kinds else box,
              owner=other_id(rng, seats, slot) if 25 in kinds else owner)
    if 6 in kinds:
        count = rng.choice((t.n - 1, t.n + 1, 0, t.n + 32, t.n // 2))
        t = t._replace(n=min(max(0, count), SESSION_ELEMENTS_MAX), fault_index=U32_MAX)
    if 7 in kinds and t.n:
        index = rng.choice((0, t.n - 1, rng.randrange(t.n), rng.randrange(t.n)))
        t = t._replace(fault_index=index, fault_value=rng.choice(NOT_TAKEN[q.precision]))
        if op == EDIT and q.precision != 1 and rng.random() < 0.3:
            t = t._replace(**({"base": 32630, "span": 276} if q.precision == 0 else NAN_DRAWS[0]))
    return t if t.fault_index < t.n else t._replace(fault_index=t.n)


def faulty_place(rng, q, seats):
    """A placing with a fault of 25, 8, 9 or 10, or of several."""
    free = [n for n in range(SLOT_COUNT) if n not in seats]
    slot = rng.choice(free) if free and rng.random() < 0.8 else other_slot(rng, {})
    owner = rng.choice(NO_IDS if rng.random() < 0.25 else PUPILS)
    g = seats[rng.choice(sorted(seats))].rectangle
    if rng.random() < 0.35:
        return placed(slot, rng.choice((
            g._replace(columns=0), g._replace(rows=0), g._replace(columns=q.width - g.column + 1),
            g._replace(rows=q.height - g.row + 1), g._replace(column=U32_MAX, columns=2),
            g._replace(row=U32_MAX), g._replace(rows=U32_MAX), Rectangle(q.width, 0, 1, 1))), owner)
    if rng.random() < 0.2:
        return placed(slot, rng.choice((g, Rectangle(0, 0, q.width, q.height),
                                        g._replace(columns=1, rows=1))), owner)
    return placed(slot, over_corner(q, g, rng.randrange(2), rng.randrange(2), rng.randrange(4)), owner)


def faulty_release(rng, seats):
    """A release with a fault of 8 or 25, or of both."""
    slot = rng.choice(sorted(seats))
    kinds = rng.choice(((8,), (25,), (25,), (8, 25)))
    return released(other_slot(rng, seats) if 8 in kinds else slot,
                    other_id(rng, seats, slot) if 25 in kinds else seats[slot].owner)


def leaving(rng, q, seats):
    """A pupil leaves, and tries again; another sits on that room, in that slot or another one, and reads it."""
    slot = rng.choice(sorted(seats))
    owner, g = seats.pop(slot)
    yield released(slot, owner)
    yield rng.choice((released(slot, owner), boxed(READ, q, slot, UNIT_BOX, owner=owner)))
    if seats and rng.random() < 0.5:
        yield some_call(rng, q, seats)
    free = [n for n in range(SLOT_COUNT) if n not in seats]
    slot = slot if rng.random() < 0.5 else rng.choice(free)
    seats[slot] = Seat(rng.choice(PUPILS), g)
    yield placed(slot, g, seats[slot].owner)
    if seats[slot].owner != owner:
        yield boxed(READ, q, slot, UNIT_BOX, owner=owner)
    yield boxed(READ, q, slot, some_box(rng, q, g), owner=seats[slot].owner)


def calls(rng, q, seats, count, leaves=True):
    """So many calls, mostly accepted ones; no pupil leaves unless `leaves`."""
    for _ in range(count):
        kind = rng.random()
        if kind < 0.76:
            yield some_call(rng, q, seats)
        elif kind < 0.91:
            yield faulty_call(rng, q, seats)
        elif kind < 0.95:
            yield faulty_place(rng, q, seats)
        elif kind < 0.97 or not leaves:
            yield faulty_release(rng, seats)
        else:
            yield from leaving(rng, q, seats)


def some_session(rng, q, rectangles, more, steps, count):
    """Regions placed one after another, with so many calls after each and then so many at the end."""
    yield begin(q, more)
    yield boxed(READ, q, 0, UNIT_BOX)
    seats = {}
    slots = rng.sample(range(SLOT_COUNT), len(rectangles))
    for slot, g in zip(slots, rectangles):
        slot = slot if slot not in seats else min(set(range(SLOT_COUNT)) - set(seats))
        seats[slot] = Seat(rng.choice(PUPILS), g)
        yield placed(slot, g, seats[slot].owner)
        yield from calls(rng, q, seats, steps)
        if rng.random() < 0.5:
            yield faulty_place(rng, q, seats)
    yield from calls(rng, q, seats, count)
    for slot, (owner, g) in sorted(seats.items()):
        if rng.random() < 0.3:
            yield boxed(READ, q, slot, whole_region(q, g), owner=owner)
    for slot, (owner, _) in sorted(seats.items()):
        if rng.random() < 0.3:
            yield released(slot, owner)


def parlours(precision):
    """Sixteen regions side by side, over one surface and over several."""
    rng = random.Random(31 + precision)
    for q, more in ((layout(48, 6, 5 + precision, precision, 0, 0, 0), 0),
                    (layout(32, 3, 17, precision, 1, 2, 64), 45),
                    (layout(20, 3, 33, precision, 2, 1, 32), 1)):
        rectangles = parlour(q)
        rng.shuffle(rectangles)
        yield from some_session(rng, q, rectangles, more, 2, 180)


def patchworks(precision):
    """Regions of several shapes with gaps between them, and one that is the whole cube."""
    rng = random.Random(47 + precision)
    for q, more, count in ((layout(13, 9, 16, precision, 3, 0, 96), 0, 14),
                           (layout(7, 5, 40, precision, 0, 5, 4096), 333, 11),
                           (layout(9, 14, 14 + precision, precision), 32, 16)):
        rectangles = patchwork(rng, q, count + 4)[:count]
        yield from some_session(rng, q, rectangles, more, 2, 100)
    q = layout(5, 4, 65, precision, 1, 1, 32)
    yield from some_session(rng, q, [Rectangle(0, 0, 5, 4)], 7, 0, 12)
    q = layout(1, 1, 1, precision)
    yield from some_session(rng, q, [Rectangle(0, 0, 1, 1)], 0, 0, 8)


# --- chosen sessions ---

def touching(precision):
    """Regions that touch at sides and corners, and placings that share just one position or all."""
    q = layout(7, 6, 3, precision, 1, 0, 32)
    middle = Rectangle(2, 2, 3, 2)
    yield begin(q)
    yield placed(7, middle)
    for right, low, reach in product((0, 1), (0, 1), (precision, 9)):
        yield placed(3, over_corner(q, middle, right, low, reach))
    for g in third((middle, Rectangle(0, 0, 7, 6), Rectangle(3, 2, 1, 1), Rectangle(0, 2, 7, 1),
                    Rectangle(3, 0, 1, 6), Rectangle(0, 0, 3, 3), Rectangle(0, 3, 7, 3),
                    Rectangle(4, 0, 3, 6), Rectangle(1, 1, 5, 4)), precision):
        yield placed(3, g)
    for slot, g in third((
            (16, middle), (7, Rectangle(0, 0, 0, 0)), (7, middle), (7, Rectangle(0, 0, 1, 1)),
            (3, Rectangle(2, 2, 6, 2)), (3, Rectangle(2, 2, 3, 5)), (3, Rectangle(2, 2, 0, 2)),
            (3, Rectangle(2, 2, 3, 0)), (3, Rectangle(7, 0, 1, 1)), (3, Rectangle(0, 6, 1, 1)),
            (3, Rectangle(U32_MAX, U32_MAX, U32_MAX, U32_MAX)), (3, Rectangle(1, 0, U32_MAX, 1)),
            (U32_MAX, Rectangle(0, 0, 1, 1))), precision):
        yield placed(slot, g)
    around = (Rectangle(2, 0, 3, 2), Rectangle(2, 4, 3, 2), Rectangle(0, 2, 2, 2), Rectangle(5, 2, 2, 2),
              Rectangle(1, 1, 1, 1), Rectangle(5, 1, 1, 1), Rectangle(1, 4, 1, 1), Rectangle(5, 4, 1, 1),
              Rectangle(0, 0, 2, 1), Rectangle(5, 0, 2, 1), Rectangle(0, 5, 2, 1), Rectangle(6, 4, 1, 2))
    for slot, g in zip((0, 1, 2, 3, 4, 5, 6, 8, 12, 13, 14, 15), around):
        yield placed(slot, g)
        yield boxed(EDIT, q, slot, whole_region(q, g))
        yield boxed(READ, q, 7, whole_region(q, middle))
    # each one step past the middle region is a neighbour's element, and refused
    for changes in ({"rows": 3}, {"columns": 4}, {"channels": 4}, {"h": 1}, {"w": 1}, {"c": 1},
                    {"h": 2, "rows": 1}, {"w": 3, "columns": 1}, {"c": 3, "channels": 1}):
        yield from both(q, 7, whole_region(q, middle)._replace(**changes))


def absurd_slots(precision):
    """Slots filled by hand with rectangles outside the cube, without positions, or overlapping."""
    q = layout(4, 3, 20, precision, 1, 1, 32)
    cell = Rectangle(0, 0, 1, 1)
    tests = (Rectangle(0, 0, 4, 2), cell, Rectangle(2, 0, 1, 1), Rectangle(3, 2, 1, 1))
    for numbers in third((
            (U32_MAX, 0, 4, 2), (0, 0, U32_MAX, U32_MAX), (0, 0, 0, 9), (0, 0, 9, 0), (1, 1, 0, 1),
            (1, 1, 1, 0), (2, 1, 0, 0), (2, 0, U32_MAX, 1), (0, 2, 1, U32_MAX),
            (U32_MAX, U32_MAX, U32_MAX, U32_MAX), (4294967294, 4294967293, 4, 4), (3, 2, 4, 4),
            (4, 0, 1, 3), (0, 3, 4, 1), (1, 0, U32_MAX, 4294967292), (4294967293, 0, 4, 3),
            (0, 4294967294, 4, 4), (1, 0, 0, 3)), precision):
        yield begin(q)
        yield placed(5, Rectangle(0, 2, 1, 1))
        yield hand_slot(9, 1, *numbers)
        for slot, g in enumerate(tests):
            yield placed(slot, g)
        yield placed(9, cell)
        yield from both(q, 9, UNIT_BOX)
        yield from both(q, 5, UNIT_BOX._replace(channels=20))
        yield from asked(9)
        yield released(9)
        yield released(9, usual(9) + 1)
        yield released(5)


def left_over(precision):
    """Empty slots with numbers left over, a slot emptied by hand, and filled again."""
    q = layout(6, 4, 18, precision, 0, 2, 64)
    g = Rectangle(1, 1, 3, 2)
    yield begin(q, 12)
    for slot, numbers in ((0, (0, 0, 6, 4)), (1, (0, 0, U32_MAX, U32_MAX)), (15, (U32_MAX, 1, 2, 3)),
                          (4, g), (8, (5, 3, 1, 1))):
        yield hand_slot(slot, 0, *numbers)
    for slot in (0, 1, 15, 4, 8):
        yield from both(q, slot, UNIT_BOX)
        yield released(slot)
    yield placed(4, g)
    yield from both(q, 4, whole_region(q, g))
    yield placed(0, Rectangle(4, 0, 2, 4))
    yield placed(1, Rectangle(0, 0, 1, 1))
    yield from both(q, 1, Box(0, 0, 0, 18, 1, 1))
    yield hand_slot(4, 0, *g)
    yield from both(q, 4, UNIT_BOX)
    yield placed(2, g)
    yield placed(4, g)
    yield from both(q, 2, whole_region(q, g))
    yield hand_slot(4, 1, *g)
    for op, slot in product((EDIT, READ), (2, 4)):
        yield boxed(op, q, slot, Box(3, 1, 1, 9, 1, 2))
    yield placed(8, Rectangle(1, 1, 1, 1))
    yield placed(8, Rectangle(1, 3, 1, 1))
    # two slots hold the same room: a release through one clears it for both
    yield released(2)
    yield boxed(READ, q, 4, whole_region(q, g))
    yield released(4)


def owners(precision):
    """Ids put in by hand that are none, and wrong ids for every call; then those of the regions."""
    q = layout(4, 3, 18, precision, 1, 1, 32)
    g = Rectangle(1, 0, 2, 3)
    yield begin(q, 9)
    yield placed(6, g, 7)
    for owner in NO_IDS:
        yield hand_slot(2, 1, 0, 0, 1, 2, owner=owner)
        for given in (owner, 7, owner % (ID_MAX + 1)):
            yield from both(q, 2, UNIT_BOX, owner=given)
            yield from asked(2, owner=given)
            yield released(2, given)
        yield from both(q, 6, whole_region(q, g), owner=owner)
        yield from asked(6, 17, 2, 1, owner=owner)
        yield released(6, owner)
        yield placed(6, g, owner)
        yield placed(3, Rectangle(3, 0, 1, 1), owner)
    for owner in (6, 8, 65543):
        yield from both(q, 6, whole_region(q, g), owner=owner)
        yield from both(q, 6, whole_region(q, g)._replace(rows=4), owner=owner)
        yield from asked(6, 18, 0, 0, owner=owner)
        yield released(6, owner)
    yield from asked(6, 17, 2, 1, owner=7)
    yield from asked(6, 17, 3, 1, owner=7)
    yield from both(q, 6, whole_region(q, g), owner=7)
    yield released(6, 7)
    yield from asked(6, owner=7)
    yield placed(6, g, 8)
    yield boxed(READ, q, 6, whole_region(q, g), owner=8)


def leavings(precision):
    """Regions of one row, one column, to each edge and over several surfaces, released one by one."""
    for q in (layout(6, 5, 33, precision, 1, 2, 32), layout(5, 4, 1, precision, 0, 1, 0),
              layout(7, 3, 16, precision, 2, 0, 64)):
        rectangles = (Rectangle(0, 0, 1, q.height - 1), Rectangle(1, 0, q.width - 1, 1),
                      Rectangle(q.width - 2, 1, 2, q.height - 1), Rectangle(1, 1, q.width - 3, 1),
                      Rectangle(0, q.height - 1, q.width - 2, 1))
        yield begin(q, 70)
        for slot, g in enumerate(rectangles):
            yield placed(slot, g)
        for slot, g in enumerate(rectangles):
            yield released(slot)
            yield released(slot)
            for other, h in list(enumerate(rectangles))[slot + 1:]:
                yield boxed(READ, q, other, whole_region(q, h))
            yield placed(slot, g, ID_MAX)
            yield boxed(READ, q, slot, whole_region(q, g), owner=ID_MAX)
            yield boxed(EDIT, q, slot, whole_region(q, g), owner=ID_MAX)


def wide(precision):
    """Regions of about 64 and 128 columns, two rows and two channels, released."""
    q = layout(131, 3, 2, precision, precision, 0, 32)
    for column, columns in ((0, 63), (0, 64), (67, 64), (1, 65), (3, 127), (3, 128), (1, 129), (0, 130), (0, 131)):
        g = Rectangle(column, 1, columns, 2)
        yield begin(q)
        yield placed(9, g)
        yield placed(10, Rectangle(0, 0, 131, 1))
        yield released(9)
        yield placed(11, Rectangle(0, 1, 131, 2))
        yield boxed(READ, q, 11, whole_region(q, Rectangle(0, 1, 131, 2)))
        yield released(10)


def overlapping(precision):
    """Regions made by hand that overlap: edits and reads through one and the other."""
    rng = random.Random(71 + precision)
    q = layout(8, 6, 34, precision, 1, 0, 32)
    regions = {0: Rectangle(0, 0, 5, 4), 1: Rectangle(2, 1, 6, 5), 6: Rectangle(0, 0, 8, 6),
               9: Rectangle(4, 0, 1, 6), 15: Rectangle(2, 1, 6, 5)}
    yield begin(q)
    for slot, g in regions.items():
        yield hand_slot(slot, 1, *g)
    yield hand_slot(3, 1, 6, 4, 3, 2)
    yield from both(q, 3, UNIT_BOX)
    yield from calls(rng, q, {n: Seat(usual(n), g) for n, g in regions.items()}, 32, leaves=False)
    yield released(6)
    for slot, g in regions.items():
        yield boxed(READ, q, slot, whole_region(q, g))


LAYOUT_FAULTS = {1: ({"width": 0}, {"height": 8193}, {"channels": U32_MAX}), 2: ({"precision": 3},),
                 3: ({"line": 0}, {"line": 161}, {"surface": 32}, {"line": 4294967264}),
                 4: ({"start": 16}, {"start": 4294967295})}


def hand_layouts(precision):
    """Layouts put in by hand: refused by 1 to 4, longer than the buffer (5), or another good one."""
    q = layout(5, 4, 19, precision, 0, 1, 32)
    g = Rectangle(1, 0, 3, 4)
    box = whole_region(q, g)
    yield begin(q, 64)
    yield placed(2, g)
    for faults in LAYOUT_FAULTS.values():
        for changes in third(faults * 2, precision):
            yield hand_layout(q._replace(**changes))
            yield placed(0, Rectangle(0, 0, 1, 1))
            yield from both(q, 2, box)
            yield released(2)
        yield hand_layout(q._replace(**faults[precision % len(faults)]))
        yield placed(16, Rectangle(0, 0, 0, 0), 0)
        yield from both(q, 3, box._replace(rows=0), n=3, fault_index=1, fault_value=PAST_BOTH)
        yield from asked(2, owner=0)
        yield released(16, 0)
    for changes in ({"precision": 3, "start": 1, "channels": 0}, {"precision": 9, "line": 33},
                    {"start": 1, "surface": 1}):
        yield hand_layout(q._replace(**changes))
        yield from both(q, 16, box)
        yield placed(2, g)
    yield hand_layout(q)
    yield from both(q, 2, box)
    # longer than the buffer: placing asks for no buffer; 6 comes before 5, 5 before 7 and 26
    for slot, longer in third(enumerate((
            q._replace(start=96 + 32), q._replace(start=4294967264), q._replace(surface=q.surface + 96),
            q._replace(height=64, surface=32 * 320), q._replace(surface=4294967264),
            q._replace(channels=100), q._replace(line=192, surface=864, start=64),
            CubeLayout(8192, 8192, 8192, precision, 262144, 2147483648, 0),
            CubeLayout(8192, 1, 8192, precision, 262144, 4294967264, 4294967264))), precision):
        yield hand_layout(longer)
        yield placed(4 + slot, Rectangle(0 if slot % 2 else 4, slot // 2, 1, 1))
        yield from both(longer, 2, UNIT_BOX)
        yield from both(longer, 2, UNIT_BOX, n=2)
        yield boxed(EDIT, longer, 2, UNIT_BOX, fault_index=0, fault_value=PAST_BOTH)
        yield from both(longer, 2, UNIT_BOX._replace(w=3))
        yield from asked(2)
        yield released(2)
        yield released(2, 0)
    # the last layout that the buffer holds, then others over the same bytes
    for other in (q._replace(start=96), *third((
            q._replace(start=0), q._replace(line=192, surface=768), layout(3, 4, 19, precision),
            layout(4, 4, 16, (precision + 1) % 3, 1, 0, 64), layout(4, 5, 33, 0, 0, 0, 0),
            layout(4, 4, 2, (precision + 1) % 3, 2, 3, 32), layout(5, 3, 19, precision),
            layout(8, 4, 2, precision), layout(1, 4, 9, precision)), precision)):
        yield hand_layout(other)
        small = Box(0, 1, 0, min(other.channels, 17), 2, 2)
        yield from both(other, 2, small)
        yield from both(other, 2, box._replace(channels=other.channels))
        yield placed(0, Rectangle(4, 0, 1, 5))
        yield placed(1, Rectangle(other.width - 1, 0, 1, other.height))


def refused_begins(precision):
    """Packings that are refused: the bytes stay as drawn, the table is empty and of that layout."""
    q = layout(5, 3, 21, precision, 1, 0, 32)
    g = Rectangle(3, 1, 2, 2)
    changed = [changes for faults in LAYOUT_FAULTS.values() for changes in faults[:2]]
    changed += [{"n": 314}, {"m": q.start + extent_bytes(q) - 1}, {"n": 0}, {"m": 0},
                {"n": 316, "m": 5}]
    changed = third(changed, precision)
    changed += [{"fault_index": 0, "fault_value": NOT_TAKEN[precision][0]},
                {"fault_index": 314, "fault_value": PAST_BOTH}]
    for i, changes in enumerate(changed):
        yield begin(q, 40, **changes)
        yield boxed(READ, q, 6, UNIT_BOX)
        yield placed(6, g)
        yield from both(q, 6, whole_region(q, g))
        yield from both(q, 6, UNIT_BOX._replace(c=i), n=i % 2 + 1)
    yield hand_layout(q)
    yield from both(q, 6, Box(4, 0, 1, 15, 2, 1))
    yield begin(q)
    yield from both(q, 6, UNIT_BOX)
    yield begin(q._replace(start=17))
    yield placed(6, g)
    yield hand_layout(q)
    yield placed(6, g)
    yield from both(q, 6, whole_region(q, g))


def edges(precision):
    """Elements on and past the edges of int8, or of fp16's NaN: the least index in the box's raw order is named."""
    q = layout(6, 3, 40, precision, 0, 0, 0)
    g = Rectangle(2, 0, 3, 3)
    values, draws = NANS, NAN_DRAWS
    if precision != 2:
        values = (32639, 32640, 32895, 32896)
        spans = (32639, 257), (32640, 259), (32640, 257), (32630, 270)
        draws = [*({"base": base, "span": span} for base, span in spans), ANY_ELEMENT]
    yield begin(q)
    yield placed(11, g)
    for box in (Box(31, 1, 1, 2, 2, 2), whole_region(q, g))[:2 if precision == 0 else 1]:
        count = box.channels * box.rows * box.columns
        for index, value in product((0, 1, count // 2, count - 1, count), values):
            yield boxed(EDIT, q, 11, box, fault_index=index, fault_value=value)
        for draw in draws:
            yield boxed(EDIT, q, 11, box, **draw)
        yield boxed(EDIT, q, 11, box, **draws[1], fault_index=count - 1, fault_value=PAST_BOTH)
        yield boxed(READ, q, 11, box, fault_index=0, fault_value=PAST_BOTH)
    yield boxed(READ, q, 11, whole_region(q, g))
    for i, value in enumerate(FP16_EDGES):
        yield boxed(EDIT, q, 11, Box(i, 1, 0, 2, 1, 3), fault_index=i % 6, fault_value=value)
    yield boxed(READ, q, 11, whole_region(q, g))


def last_in_order(precision):
    """An element that int8 and fp16 do not take, with each fault that comes before it: 7 or 26 is last."""
    q = layout(5, 3, 18, precision, 1, 0, 32)
    g, box = Rectangle(1, 0, 3, 3), Box(14, 1, 0, 4, 2, 3)
    wrong = {"fault_index": 7, "fault_value": PAST_BOTH}
    yield begin(q, 32)
    yield placed(4, g)
    yield from both(q, 4, box)
    for changes in ({"n": 23}, {"n": 25}, {"nc": 5}, {"nh": 0}, {"w": 1}, {"owner": 0}, {"owner": 65540}, {"slot": 5},
                    {"slot": 16}, {"slot": 5, "owner": 0, "nh": 0, "n": 25}, {"owner": 0, "nh": 0, "n": 25},
                    {"nh": 0, "n": 25}, {}):
        yield boxed(EDIT, q, 4, box, **wrong)._replace(**changes)
        yield boxed(READ, q, 4, box)
    for changes in ({"start": 96}, {"start": 16}, {"surface": 32}, {"precision": 3}, {"width": 0}, {"start": 64}):
        yield hand_layout(q._replace(**changes))
        yield boxed(EDIT, q, 4, box, **wrong)
        yield boxed(EDIT, q, 4, box, **wrong, n=25)
        yield boxed(EDIT, q, 5, box, **wrong)
        yield from both(q, 4, box)


def old_buffers(precision):
    """Tables made by hand over drawn bytes and over int16: in fp16 reads give NaN, edits and releases write there."""
    rng = random.Random(89 + precision)
    for q, g in ((layout(12, 5, 17, precision, 1, 1, 32), Rectangle(2, 1, 9, 4)),
                 (layout(4, 3, 40, precision, 0, 2, 64), Rectangle(0, 0, 4, 3))):
        whole = whole_region(q, g)
        part = whole._replace(c=1, channels=q.channels - 1, h=1, rows=g.rows - 1)
        # the first packing lends no elements and is refused
        for packing in (begin(q, 40, n=0), begin(q._replace(precision=1), 40, **NAN_DRAWS[0])):
            yield packing
            yield hand_layout(q)
            yield hand_slot(7, 1, *g)
            yield boxed(READ, q, 7, whole)
            yield boxed(EDIT, q, 7, part, fault_index=5, fault_value=PAST_BOTH)
            for _ in range(10):
                yield boxed(READ, q, 7, some_box(rng, q, g))
                yield boxed(EDIT, q, 7, some_box(rng, q, g)._replace(c=0, channels=1))
            yield from calls(rng, q, {7: Seat(usual(7), g)}, 8, leaves=False)
            yield boxed(READ, q, 7, whole)
            yield boxed(EDIT, q, 7, part)
            yield boxed(READ, q, 7, whole)
            yield released(7)
            yield placed(8, g)
            yield boxed(READ, q, 8, whole)


# --- the list ---

SESSIONS = (parlours, patchworks, touching, absurd_slots, left_over, owners, leavings, wide, overlapping,
            hand_layouts, refused_begins, edges, last_in_order, old_buffers)


def all_cases():
    """Every line of every session, session after session."""
    lines = [t for session in SESSIONS for precision in PRECISIONS for t in session(precision)]
    assert lines[0].op == BEGIN
    assert all(t.n <= SESSION_ELEMENTS_MAX and t.m <= SESSION_BUFFER_MAX for t in lines)
    return lines
