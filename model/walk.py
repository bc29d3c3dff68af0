"""The atoms of a cube one after another: columns fastest, then rows, then surfaces.

Renders change request K6 and open point 27, twice. `scan` is the paper's formula
("Cells and cubes"): each position and each byte by its own products, and no
walk. `step` is one step of any walk over any elements, in the words of the
library's definitions: it adds strides. `check` asserts that the two agree on a
cube. Whole numbers have no width, but a walk's sums have 64 bits.
"""

from collections import namedtuple
from itertools import product

from cube import ATOM, element_bytes, element_check, extent_bytes, layout_code, stored_bytes, surface_count

# position and index are the next atom's and its first element's; columns, rows and channels are left, that atom
# counted; line, surface and group are strides (first_walk)
Walk = namedtuple("Walk", "position index columns rows channels precision width height plane line surface group")
Stride = namedtuple("Stride", "columns rows channels bytes elements")

U64_SIZE = 1 << 64
NO_BYTES = bytes(ATOM)


# --- the paper's formula ---

def atom_position(q, s, h, w):
    """Byte at which the atom of surface s, row h, column w begins."""
    return q.start + s * q.surface + h * q.line + ATOM * w


def raw_index(q, c, h, w):
    """Index of element (c, h, w) among the elements."""
    return (c * q.height + h) * q.width + w


def atom_channels(q):
    """Channels of a whole atom."""
    return ATOM // element_bytes(q)


def atom_bytes(q, elements, s, h, w):
    """The bytes of an atom: of each channel of its surface, and 0 past the last channel."""
    e, count = element_bytes(q), atom_channels(q)
    return b"".join(stored_bytes(e, elements[raw_index(q, c, h, w)]) if c < q.channels else bytes(e)
                    for c in range(s * count, (s + 1) * count))


def scan(q, elements):
    """Each atom's position and bytes, in scan order."""
    return [(atom_position(q, s, h, w), atom_bytes(q, elements, s, h, w))
            for s, h, w in product(range(surface_count(q)), range(q.height), range(q.width))]


def written(atoms, buffer):
    """The buffer with each atom written at its position."""
    after = bytearray(buffer)
    for position, stored in atoms:
        after[position:position + ATOM] = stored
    return bytes(after)


# --- the start ---

def first_walk(q):
    """The walk before the first atom.

    `line` leads from the last atom of a line to the next line's first, `surface`
    from the last atom of a surface to the next surface's first, both in bytes, and
    `group` is the latter in elements.
    """
    last = q.height - 1, q.width - 1
    return Walk(position=atom_position(q, 0, 0, 0), index=raw_index(q, 0, 0, 0),
                columns=q.width, rows=q.height, channels=q.channels,
                precision=q.precision, width=q.width, height=q.height, plane=raw_index(q, 1, 0, 0),
                line=atom_position(q, 0, 1, 0) - atom_position(q, 0, 0, q.width - 1),
                surface=atom_position(q, 1, 0, 0) - atom_position(q, 0, *last),
                group=raw_index(q, atom_channels(q), 0, 0) - raw_index(q, 0, *last))


def start(q, elements, length):
    """A start over a buffer of so many bytes: (code, index at fault, first walk or None); order 1, 2, 3, 4, 6, 5, 7 or 26."""
    code, index = layout_code(q), 0
    if not code and len(elements) != q.width * q.height * q.channels:
        code = 6
    if not code and q.start + extent_bytes(q) > length:
        code = 5
    if not code:
        code, index = element_check(q, elements)
    return code, index, None if code else first_walk(q)


# --- a step, of any walk over any elements ---

def step_size(walk):
    """Bytes of an element; a precision that is not known has two, as int16 and fp16."""
    return 1 if walk.precision == 0 else 2


def stride_of(walk):
    """What is left behind the next atom, and the way to the one behind it; nothing behind the last."""
    full = ATOM // step_size(walk)
    if walk.columns > 1:
        return Stride(walk.columns - 1, walk.rows, walk.channels, ATOM, 1)
    if walk.rows > 1:
        return Stride(walk.width, walk.rows - 1, walk.channels, walk.line, 1)
    if walk.channels > full:
        return Stride(walk.width, walk.height, walk.channels - full, walk.surface, walk.group)
    return Stride(0, 0, 0, 0, 0)


def is_left(walk):
    """Whether a walk has an atom, and its sums fit 64 bits."""
    stride = stride_of(walk)
    return (walk.channels > 0 and walk.position + stride.bytes < U64_SIZE
            and walk.index + stride.elements < U64_SIZE)


def step_bytes(walk, elements):
    """The bytes of the next atom; an element that is missing is 0."""
    e, stored = step_size(walk), bytearray(ATOM)
    for k in range(ATOM):
        channel = k // e
        index = walk.index + channel * walk.plane
        if channel < walk.channels and index < len(elements):
            stored[k] = stored_bytes(2, elements[index])[k % e]
    return bytes(stored)


def step(walk, elements):
    """A step: (position, bytes, walk behind it); where no atom is left (None, bytes of 0, the walk as it came)."""
    if not is_left(walk):
        return None, NO_BYTES, walk
    s = stride_of(walk)
    after = walk._replace(position=walk.position + s.bytes, index=walk.index + s.elements,
                          columns=s.columns, rows=s.rows, channels=s.channels)
    return walk.position, step_bytes(walk, elements), after


# --- both ---

def check(walk, elements, atoms):
    """Asserts that the steps from a walk give these atoms, no two at one position, and from then on none."""
    for position, stored in atoms:
        told, held, walk = step(walk, elements)
        assert (told, held) == (position, stored)
    assert step(walk, elements) == (None, NO_BYTES, walk)
    assert len({position for position, _ in atoms}) == len(atoms)
