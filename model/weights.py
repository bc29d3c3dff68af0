"""Direct-convolution weights: checks, element numbers, packing and unpacking.

Renders the scope paper's section "Weights", and of "Refusal numbers" the codes
1, 2, 6, 5, 7, and change request K7's 26, in the order of weights. Answers are
as in cube.py. A surface of weights begins at byte 0 of its buffer.
"""

from collections import namedtuple
from itertools import product

from cube import ELEMENT_BYTES, SIZE_MAX, element_bytes, element_check, stored_bytes, stored_element

WeightLayout = namedtuple("WeightLayout", "kernels channels height width precision")

FILTER_MAX = 32
GROUP_KERNELS = {0: 32, 1: 16, 2: 16}
BLOCK_CHANNELS = 64
FILL = 128


# --- element numbers ---

def element_count(q):
    """Number of elements of the weights."""
    return q.kernels * q.channels * q.height * q.width


def filled_bytes(q):
    """Bytes of the surface, with the 0 bytes that fill it to a multiple of 128."""
    return (element_count(q) * element_bytes(q) + FILL - 1) // FILL * FILL


def part(index, size, whole):
    """Which part of `size` an index of `whole` is in, its place there, and how long that part is."""
    at, place = divmod(index, size)
    return at, place, min(size, whole - at * size)


def element_number(q, k, c, r, s):
    """The number, from 0, of element (k, c, r, s) in the surface."""
    group_kernels = GROUP_KERNELS[q.precision]
    g, j, n = part(k, group_kernels, q.kernels)
    b, d, m = part(c, BLOCK_CHANNELS, q.channels)
    plane = q.height * q.width
    return (g * group_kernels * plane * q.channels + b * BLOCK_CHANNELS * plane * n
            + ((r * q.width + s) * n + j) * m + d)


def element_positions(q):
    """Byte at which each element begins, in raw order (s fastest)."""
    for k, c, r, s in product(range(q.kernels), range(q.channels), range(q.height), range(q.width)):
        yield element_number(q, k, c, r, s) * element_bytes(q)


# --- checks: the refusal code, or 0 ---

def layout_code(q):
    """Checks 1, 2 of a layout."""
    if not all(1 <= size <= SIZE_MAX for size in (q.kernels, q.channels)):
        return 1
    if not all(1 <= size <= FILTER_MAX for size in (q.height, q.width)):
        return 1
    if q.precision not in ELEMENT_BYTES:
        return 2
    return 0


def lent_code(q, elements, buffer):
    """Checks 6, 5: the element count exactly, and a buffer that holds the filled surface."""
    if len(elements) != element_count(q):
        return 6
    if filled_bytes(q) > len(buffer):
        return 5
    return 0


# --- calls ---

def pack(q, elements, buffer):
    """Pack raw weights: (code, index at fault, buffer after); order 1, 2, 6, 5, 7 or 26."""
    code, index = layout_code(q) or lent_code(q, elements, buffer), 0
    if not code:
        code, index = element_check(q, elements)
    if code:
        return code, index, buffer
    surface = bytearray(filled_bytes(q))
    for at, element in zip(element_positions(q), elements):
        surface[at:at + element_bytes(q)] = stored_bytes(element_bytes(q), element)
    return 0, 0, bytes(surface) + buffer[len(surface):]


def unpack(q, elements, buffer):
    """Unpack to raw weights: (code, 0, elements after); order 1, 2, 6, 5."""
    code = layout_code(q) or lent_code(q, elements, buffer)
    if code:
        return code, 0, elements
    return 0, 0, [stored_element(buffer[at:at + element_bytes(q)]) for at in element_positions(q)]
