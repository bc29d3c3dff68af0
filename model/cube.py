"""Feature cubes: checks, positions, packing, and boxes of a cube.

Renders the scope paper's section "Cells and cubes", of "Refusal numbers" the
codes 1 to 7 and 9, and change request K7 with its code 26, each with the orders
of these calls. Whole numbers have no width.

A call answers (code, index at fault, ...). The code is 0 if the call is
accepted; the index is that of the first element that is not taken for codes 7
and 26, and 0 otherwise. Calls leave their arguments alone and hand back contents
as they are after the call, so a refused call hands back what it was given.

The paper's frame is here a cube layout, its cells are elements, its raw
picture is a raw tensor, its pads are padding bytes.
"""

import math
import struct
from collections import namedtuple
from itertools import product

CubeLayout = namedtuple("CubeLayout", "width height channels precision line surface start")
Box = namedtuple("Box", "c h w channels rows columns")

ATOM = 32
SIZE_MAX = 8192
U32_MAX = 4294967295
ELEMENT_BYTES = {0: 1, 1: 2, 2: 2}


# --- layouts and positions ---

def element_bytes(q):
    """Bytes of one element (e)."""
    return ELEMENT_BYTES[q.precision]


def surface_count(q):
    """Number of surfaces (S): the channels' bytes over 32, rounded up."""
    return (q.channels * element_bytes(q) + ATOM - 1) // ATOM


def extent_bytes(q):
    """Bytes from the start to the end of the last atom."""
    return (surface_count(q) - 1) * q.surface + (q.height - 1) * q.line + ATOM * q.width


def element_position(q, c, h, w):
    """Byte at which element (c, h, w) begins, the start included."""
    byte = c * element_bytes(q)
    return q.start + byte // ATOM * q.surface + h * q.line + w * ATOM + byte % ATOM


def atom_positions(q):
    """Byte at which each atom begins, for every surface, row and column."""
    for s, h, w in product(range(surface_count(q)), range(q.height), range(q.width)):
        yield q.start + s * q.surface + h * q.line + w * ATOM


def byte_owner(q, p):
    """Whose byte p is: ("element", c, h, w, byte), ("padding",), ("gap",) or ("outside",).

    Byte p is byte b of element (c, h, w) if it is at the element's position
    plus b. Of one atom's 32 bytes only those channels can be it that its
    surface holds; so each surface, row and column whose atom covers p is tried.
    """
    e = element_bytes(q)
    if not q.start <= p < q.start + extent_bytes(q):
        return ("outside",)
    for s in range(surface_count(q)):
        h, rest = divmod(p - q.start - s * q.surface, q.line)
        w = rest // ATOM
        if not (0 <= h < q.height and w < q.width):
            continue
        per_atom = ATOM // e
        for c, b in product(range(s * per_atom, min((s + 1) * per_atom, q.channels)), range(e)):
            if element_position(q, c, h, w) + b == p:
                return ("element", c, h, w, b)
        return ("padding",)
    return ("gap",)


def whole_box(q):
    """The box that is the whole cube."""
    return Box(0, 0, 0, q.channels, q.height, q.width)


def box_positions(q, box):
    """Byte at which each element of a box begins, in raw order (w fastest)."""
    for c, h, w in product(range(box.c, box.c + box.channels),
                           range(box.h, box.h + box.rows),
                           range(box.w, box.w + box.columns)):
        yield element_position(q, c, h, w)


# --- checks: the refusal code, or 0 ---

def is_aligned(number):
    """Whether a number is a 32-bit unsigned multiple of 32."""
    return 0 <= number <= U32_MAX and number % ATOM == 0


def strides_fit(q):
    """Whether both strides are aligned and long enough, also for one row or one surface."""
    return (is_aligned(q.line) and is_aligned(q.surface)
            and q.line >= ATOM * q.width
            and q.surface >= (q.height - 1) * q.line + ATOM * q.width)


def layout_code(q):
    """Checks 1, 2, 3, 4 of a layout."""
    if not all(1 <= size <= SIZE_MAX for size in (q.width, q.height, q.channels)):
        return 1
    if q.precision not in ELEMENT_BYTES:
        return 2
    if not strides_fit(q):
        return 3
    if not is_aligned(q.start):
        return 4
    return 0


def box_code(q, box):
    """Check 9: a box has elements and lies in the cube."""
    inside = (box.channels >= 1 and box.rows >= 1 and box.columns >= 1
              and box.c + box.channels <= q.channels
              and box.h + box.rows <= q.height
              and box.w + box.columns <= q.width)
    return 0 if inside else 9


def room_code(q, buffer):
    """Check 5: the buffer holds the whole cube."""
    return 5 if q.start + extent_bytes(q) > len(buffer) else 0


def lent_code(q, box, elements, buffer):
    """Checks 6, 5: the element count of the box exactly, and room in the buffer."""
    if len(elements) != box.channels * box.rows * box.columns:
        return 6
    return room_code(q, buffer)


def is_past_int8(element):
    """Whether an element is outside -128..127."""
    return not -128 <= element <= 127


def is_nan(element):
    """Whether an element's sixteen bits are NaN in fp16: of five for the exponent all are set, of ten for the fraction any.

    Before them stands the sign, which does not matter.
    """
    bits = f"{element % 65536:016b}"
    return bits[1:6] == "11111" and "1" in bits[6:]


def element_check(q, elements):
    """Check 7 in int8, 26 in fp16: (code, index at fault), the first element that is not taken. int16 takes all."""
    code, is_refused = {0: (7, is_past_int8), 2: (26, is_nan)}.get(q.precision, (0, None))
    for index, element in enumerate(elements if code else ()):
        if is_refused(element):
            return code, index
    return 0, 0


# --- bytes ---

def stored_bytes(e, element):
    """The e bytes of an element, two's complement, low byte first."""
    return (element % 256 ** e).to_bytes(e, "little")


def stored_element(stored):
    """The signed element that the bytes hold."""
    return int.from_bytes(stored, "little", signed=True)


def nan_count(elements):
    """How many elements are NaN as Python itself reads them, as half floats; no check uses it."""
    return sum(map(math.isnan, struct.unpack(f"<{len(elements)}e", struct.pack(f"<{len(elements)}h", *elements))))


def with_zero_atoms(q, buffer):
    """The buffer with every whole atom zero; bytes between and outside stay."""
    after = bytearray(buffer)
    for at in atom_positions(q):
        after[at:at + ATOM] = bytes(ATOM)
    return bytes(after)


def with_elements(q, box, elements, buffer):
    """The buffer with the box's elements written; every other byte stays."""
    after = bytearray(buffer)
    e = element_bytes(q)
    for at, element in zip(box_positions(q, box), elements):
        after[at:at + e] = stored_bytes(e, element)
    return bytes(after)


def box_elements(q, box, buffer):
    """The box's elements in raw order, read from the buffer."""
    e = element_bytes(q)
    return [stored_element(buffer[at:at + e]) for at in box_positions(q, box)]


# --- calls ---

def pack(q, elements, buffer):
    """Pack a raw tensor: (code, index at fault, buffer after); order 1, 2, 3, 4, 6, 5, 7 or 26."""
    code, index = layout_code(q) or lent_code(q, whole_box(q), elements, buffer), 0
    if not code:
        code, index = element_check(q, elements)
    if code:
        return code, index, buffer
    return 0, 0, with_elements(q, whole_box(q), elements, with_zero_atoms(q, buffer))


def unpack(q, elements, buffer):
    """Unpack to a raw tensor: (code, 0, elements after); order 1, 2, 3, 4, 6, 5."""
    code = layout_code(q) or lent_code(q, whole_box(q), elements, buffer)
    if code:
        return code, 0, elements
    return 0, 0, box_elements(q, whole_box(q), buffer)


def write_box(q, box, elements, buffer):
    """Write a box's elements: (code, index at fault, buffer after); order 1 to 4, 9, 6, 5, 7 or 26."""
    code, index = layout_code(q) or box_code(q, box) or lent_code(q, box, elements, buffer), 0
    if not code:
        code, index = element_check(q, elements)
    if code:
        return code, index, buffer
    return 0, 0, with_elements(q, box, elements, buffer)


def read_box(q, box, elements, buffer):
    """Read a box's elements: (code, 0, elements after); order 1 to 4, 9, 6, 5."""
    code = layout_code(q) or box_code(q, box) or lent_code(q, box, elements, buffer)
    if code:
        return code, 0, elements
    return 0, 0, box_elements(q, box, buffer)


def position(q, c, h, w):
    """Position of an element: (code, 0, byte with the start); order 1 to 4, 9."""
    code = layout_code(q) or box_code(q, Box(c, h, w, 1, 1, 1))
    return code, 0, 0 if code else element_position(q, c, h, w)


def extent(q):
    """Extent of a layout: (code, 0, bytes without the start); order 1 to 4."""
    code = layout_code(q)
    return code, 0, 0 if code else extent_bytes(q)


def whose(q, p):
    """`whose`: the owner's word and numbers; none if refused."""
    code = layout_code(q)
    return (code, 0) if code else (0, 0, *byte_owner(q, p))
