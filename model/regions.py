"""Region tables: placing and releasing regions of a cube, editing and reading boxes of a region.

Renders the scope paper's sections "Stalls" and "The plain picture", of "Refusal
numbers" the codes 8, 9 and 10, and change requests K1 with its code 25 and K7
with its 26, each with the orders of these calls. Whole numbers have no width;
answers are as in cube.py.

The paper's desk is here a region table, its stalls are regions, its frame is a
cube layout, a pupil's number is an owner id, and leaving is a release. Every rule
looks at a layout and sixteen slots, so a table that was made by hand is judged
anew at each call.
"""

from collections import namedtuple

from cube import (Box, box_code, box_elements, element_check, element_position, layout_code, lent_code, pack,
                  room_code, with_elements)

Rectangle = namedtuple("Rectangle", "column row columns rows")
Slot = namedtuple("Slot", "placed owner rectangle")
RegionTable = namedtuple("RegionTable", "layout slots")

SLOT_COUNT = 16
ID_MAX = 65535
EMPTY_SLOT = Slot(False, 0, Rectangle(0, 0, 0, 0))
EMPTY_SLOTS = (EMPTY_SLOT,) * SLOT_COUNT


# --- rectangles ---

def column_range(g):
    """The w of a rectangle's positions; none if it has no columns."""
    return range(g.column, g.column + g.columns)


def row_range(g):
    """The h of a rectangle's positions; none if it has no rows."""
    return range(g.row, g.row + g.rows)


def share_position(g, other):
    """Whether some (w, h) is in both: some w and some h are, as positions are all pairs of the two."""
    return (any(w in column_range(other) for w in column_range(g))
            and any(h in row_range(other) for h in row_range(g)))


def moved_box(g, box):
    """The cube's box that is a region's box, counted from the region's corner."""
    return box._replace(h=g.row + box.h, w=g.column + box.w)


# --- checks: the refusal code, or 0 ---

def slot_code(slots, n, placed):
    """Check 8: the slot exists, and is placed or empty as the call asks."""
    return 0 if n < SLOT_COUNT and slots[n].placed == placed else 8


def id_code(owner):
    """Check 25 of a placing: the id is 1 to 65535."""
    return 0 if 1 <= owner <= ID_MAX else 25


def owner_code(slots, n, owner):
    """Checks 8, 25 of any other call: the slot is placed; the id is 1 to 65535, and the region's."""
    return slot_code(slots, n, True) or id_code(owner) or (0 if slots[n].owner == owner else 25)


def rectangle_code(q, g):
    """Check 9 of a region: it has positions and lies in the cube."""
    return box_code(q, Box(0, g.row, g.column, 1, g.rows, g.columns))


def area_code(q, g, box):
    """Check 9 of a box: the region is in the cube, and the box is in the region."""
    return rectangle_code(q, g) or box_code(q._replace(width=g.columns, height=g.rows), box)


def overlap_code(slots, g):
    """Check 10: no position is in a slot already placed; what an empty slot holds does not matter."""
    return 10 if any(s.placed and share_position(g, s.rectangle) for s in slots) else 0


def place_code(q, slots, n, owner, g):
    """Checks 1 to 4, 25, 8, 9, 10 of a placing."""
    return (layout_code(q) or id_code(owner) or slot_code(slots, n, False) or rectangle_code(q, g)
            or overlap_code(slots, g))


def area_call_code(q, slots, n, owner, box):
    """Checks 1 to 4, 8, 25, 9 of a call on a box of a region."""
    return (layout_code(q) or owner_code(slots, n, owner)
            or area_code(q, slots[n].rectangle, box))


def read_code(q, slots, n, owner, box, elements, buffer):
    """Checks 1 to 4, 8, 25, 9, 6, 5 of a read."""
    return area_call_code(q, slots, n, owner, box) or lent_code(q, box, elements, buffer)


def edit_check(q, slots, n, owner, box, elements, buffer):
    """Checks 1 to 4, 8, 25, 9, 6, 5, 7 or 26 of an edit: (code, index at fault)."""
    code = read_code(q, slots, n, owner, box, elements, buffer)
    return (code, 0) if code else element_check(q, elements)


def count_code(q, slots, n, owner):
    """Checks 1 to 4, 8, 25, 9 of a call on a whole region."""
    return layout_code(q) or owner_code(slots, n, owner) or rectangle_code(q, slots[n].rectangle)


def release_code(q, slots, n, owner, buffer):
    """Checks 1 to 4, 8, 25, 9, 5 of a release: an edit's, without 6, 7 and 26."""
    return count_code(q, slots, n, owner) or room_code(q, buffer)


# --- slots and tables ---

def with_slot(slots, n, slot):
    """The slots with one of them put in."""
    return slots[:n] + (slot,) + slots[n + 1:]


def empty_table(q):
    """The table of a layout, unchecked, without regions."""
    return RegionTable(q, EMPTY_SLOTS)


def whole_region(q, g):
    """The box of a region that is the whole region."""
    return Box(0, 0, 0, q.channels, g.rows, g.columns)


def zeros(box):
    """As many zeros as a box has elements."""
    return [0] * (box.channels * box.rows * box.columns)


# --- calls ---

def place(table, n, owner, g):
    """Place a region: (code, 0, table after)."""
    code = place_code(*table, n, owner, g)
    if code:
        return code, 0, table
    return 0, 0, table._replace(slots=with_slot(table.slots, n, Slot(True, owner, g)))


def edit(table, n, owner, box, elements, buffer):
    """Write a box of a region: (code, index at fault, buffer after)."""
    code, index = edit_check(*table, n, owner, box, elements, buffer)
    if code:
        return code, index, buffer
    moved = moved_box(table.slots[n].rectangle, box)
    return 0, 0, with_elements(table.layout, moved, elements, buffer)


def read(table, n, owner, box, elements, buffer):
    """Read a box of a region: (code, 0, elements after)."""
    code = read_code(*table, n, owner, box, elements, buffer)
    if code:
        return code, 0, elements
    return 0, 0, box_elements(table.layout, moved_box(table.slots[n].rectangle, box), buffer)


def release(table, n, owner, buffer):
    """Release a region: (code, 0, table after, buffer after); its elements become 0, its slot empty."""
    code = release_code(*table, n, owner, buffer)
    if code:
        return code, 0, table, buffer
    whole = whole_region(table.layout, table.slots[n].rectangle)
    cleared = edit(table, n, owner, whole, zeros(whole), buffer)
    assert cleared[0] == 0
    return 0, 0, table._replace(slots=with_slot(table.slots, n, EMPTY_SLOT)), cleared[2]


def position(table, n, owner, c, h, w):
    """Position of an element of a region: (code, 0, byte with the start)."""
    box = Box(c, h, w, 1, 1, 1)
    code = area_call_code(*table, n, owner, box)
    if code:
        return code, 0, 0
    moved = moved_box(table.slots[n].rectangle, box)
    return 0, 0, element_position(table.layout, moved.c, moved.h, moved.w)


def count(table, n, owner):
    """How many elements a region has: (code, 0, count)."""
    code = count_code(*table, n, owner)
    if code:
        return code, 0, 0
    g = table.slots[n].rectangle
    return 0, 0, table.layout.channels * g.rows * g.columns


# --- the plain picture ---

class PlainPicture:
    """A raw tensor and sixteen slots, fed with the calls' arguments; it knows neither table nor buffer.

    `before` are the buffer's bytes from before the packing: the calls use
    their number alone, `packed` has the raw tensor packed over them.
    """

    def __init__(self, q, raw, before):
        self.layout = q
        self.raw = list(raw)
        self.before = before
        self.slots = EMPTY_SLOTS

    def raw_indices(self, n, box):
        """Raw index of each element of a box of a region, in the box's raw order."""
        q, g = self.layout, self.slots[n].rectangle
        return [(c * q.height + g.row + h) * q.width + g.column + w
                for c in range(box.c, box.c + box.channels)
                for h in range(box.h, box.h + box.rows)
                for w in range(box.w, box.w + box.columns)]

    def put(self, n, box, elements):
        """The elements put at a box of a region."""
        for at, element in zip(self.raw_indices(n, box), elements):
            self.raw[at] = element

    def place(self, n, owner, g):
        """A placing: (code, 0)."""
        code = place_code(self.layout, self.slots, n, owner, g)
        if not code:
            self.slots = with_slot(self.slots, n, Slot(True, owner, g))
        return code, 0

    def edit(self, n, owner, box, elements):
        """An edit: (code, index at fault)."""
        code, index = edit_check(self.layout, self.slots, n, owner, box, elements, self.before)
        if not code:
            self.put(n, box, elements)
        return code, index

    def read(self, n, owner, box, elements):
        """A read: (code, 0, elements after)."""
        code = read_code(self.layout, self.slots, n, owner, box, elements, self.before)
        if code:
            return code, 0, elements
        return 0, 0, [self.raw[at] for at in self.raw_indices(n, box)]

    def release(self, n, owner):
        """A release: (code, 0); an edit of zeros to the whole region, whose slot is then empty."""
        code = release_code(self.layout, self.slots, n, owner, self.before)
        if not code:
            whole = whole_region(self.layout, self.slots[n].rectangle)
            self.put(n, whole, zeros(whole))
            self.slots = with_slot(self.slots, n, EMPTY_SLOT)
        return code, 0

    def packed(self):
        """The bytes that the buffer must have."""
        return pack(self.layout, self.raw, self.before)[2]
