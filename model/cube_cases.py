"""The test cases of the cube calls: hand-chosen corners and seeded random layouts.

Renders no rule of its own; the cases stand at the limits named in the scope
paper's "Cells and cubes" and "Refusal numbers", and in change request K7. Each
field of a case is described in README.md.
"""

import random
from itertools import combinations, product

from cases import FP16_EDGES, INFINITIES, NAN_DRAWS, NANS, case_type, lent_case, with_changes
from cube import ATOM, U32_MAX, Box, CubeLayout, extent_bytes, whole_box

CubeCase = case_type("CubeCase",
                     "width height channels precision line surface start c h w nc nh nw")

PACK, UNPACK, WRITE_BOX, READ_BOX, POSITION, EXTENT = range(6)

EXAMPLE = CubeLayout(3, 2, 40, 0, 128, 256, 0)
INT16_EXAMPLE = CubeLayout(3, 2, 20, 1, 128, 256, 32)
FP16_EXAMPLE = INT16_EXAMPLE._replace(precision=2)
CHANNELS = (1, 2, 15, 16, 17, 31, 32, 33, 63, 64, 65)


# --- building cases ---

def layout(width, height, channels, precision, line_more=0, surface_more=0, start=0):
    """The layout with the least strides, each lengthened by a number of atoms."""
    line = ATOM * (width + line_more)
    surface = (height - 1) * line + ATOM * width + ATOM * surface_more
    return CubeLayout(width, height, channels, precision, line, surface, start)


def lent(op, q, box, more=0, **changes):
    """An accepted packing or box call (sizes permitting), its buffer `more` bytes longer, then changed."""
    t = CubeCase(op, *q, *(box if op in (WRITE_BOX, READ_BOX) else ()))
    return lent_case(t, box.channels * box.rows * box.columns, q.start + extent_bytes(q) + more,
                     op in (PACK, WRITE_BOX), **changes)


def whole(op, q, more=0, **changes):
    """A call on the whole cube."""
    return lent(op, q, whole_box(q), more, **changes)


def asked(op, q, c=0, h=0, w=0, **changes):
    """A position or extent call."""
    return CubeCase(op, *q, c, h, w)._replace(**changes)


def any_call(op, q, **changes):
    """A call of any kind on the whole cube or on its first element."""
    return asked(op, q, **changes) if op in (POSITION, EXTENT) else whole(op, q, **changes)


# --- accepted corners ---

def accepted_whole():
    """Pack and unpack for each precision, channels on both sides of the atom borders."""
    planes = ((1, 1), (3, 2), (2, 3), (5, 1), (1, 4))
    mores = ((0, 0, 0), (1, 0, 32), (0, 2, 0), (2, 1, 96))
    for i, (precision, channels) in enumerate(product(range(3), CHANNELS)):
        for op in (PACK, UNPACK):
            q = layout(*planes[(i + op) % 5], channels, precision, *mores[(i // 2 + op) % 4])
            yield whole(op, q, more=(0, 1, 0, 45)[i % 4])


def accepted_ones():
    """One row and one column, in every precision, over dirt that must stay."""
    for precision, op in product(range(3), (PACK, UNPACK)):
        yield whole(op, layout(1, 1, 1, precision))
        yield whole(op, layout(1, 1, 33, precision, 3, 2, 64), more=77)


def accepted_large():
    """As many channels, columns, rows, elements and bytes as the files allow."""
    for q in (layout(1, 1, 8192, 0), layout(1, 1, 8192, 1), layout(2048, 1, 1, 0),
              layout(1, 2048, 1, 2), layout(16, 16, 32, 0, 1, 3, 32), layout(8, 8, 128, 1),
              layout(64, 32, 4, 2), layout(1, 1, 1, 1, 0, 0, 65504)):
        yield whole(PACK, q)
        yield whole(UNPACK, q)


def accepted_boxes():
    """Boxes from one element to the whole cube, with channels across atom borders."""
    for q in (layout(4, 3, 70, 0, 1, 1, 32), layout(4, 3, 35, 1), layout(3, 4, 35, 2, 0, 2, 64)):
        border = ATOM // (1 if q.precision == 0 else 2)
        last = (q.channels - 1, q.height - 1, q.width - 1)
        for box in (whole_box(q), Box(0, 0, 0, 1, 1, 1), Box(*last, 1, 1, 1),
                    Box(border - 1, 1, 2, 1, 1, 1), Box(border, 1, 2, 1, 1, 1),
                    Box(border - 1, 0, 1, 2, 1, 1), Box(border - 2, 1, 0, 4, 2, 3),
                    Box(0, 1, 1, q.channels, 1, 1), Box(border, 0, 0, 1, q.height, q.width),
                    Box(3, 2, 0, 5, 1, q.width), Box(1, 0, 2, 2 * border, q.height, 1),
                    Box(2 * border, 1, 1, q.channels - 2 * border, 2, 2)):
            yield lent(WRITE_BOX, q, box, more=box.channels % 2)
            yield lent(READ_BOX, q, box, more=box.channels % 3)


# --- refused corners ---

def wrong_sizes():
    """Width, height and channels 0, 8193 and greatest."""
    for i, (name, size) in enumerate(product(("width", "height", "channels"), (0, 8193, U32_MAX))):
        yield asked(EXTENT, EXAMPLE, **{name: size})
        yield any_call(i % 5, EXAMPLE, **{name: size})
    yield asked(EXTENT, EXAMPLE, width=0, height=0, channels=0)


def wrong_precisions():
    """Unknown precision codes in every call."""
    for op in range(6):
        yield any_call(op, EXAMPLE, precision=3)
    yield asked(EXTENT, EXAMPLE, precision=U32_MAX)
    yield whole(PACK, EXAMPLE, precision=U32_MAX)
    yield asked(EXTENT, EXAMPLE, precision=256)


def strides():
    """Line and surface strides around their limits, taken and refused."""
    for line in (0, 1, 31, 32, 64, 95, 97, 112, 127, 129, 160, 4294967264, U32_MAX):
        yield asked(EXTENT, EXAMPLE, line=line)
    for surface in (0, 32, 192, 193, 223, 225, 224, 255, 2147483648, 4294967264, U32_MAX):
        yield asked(EXTENT, EXAMPLE, surface=surface)
    for q in (layout(3, 1, 40, 0), layout(3, 2, 32, 0), layout(3, 1, 8, 1), layout(1, 1, 1, 2)):
        yield asked(EXTENT, q)
        yield asked(EXTENT, q, surface=q.surface - 32)
        yield asked(EXTENT, q, line=q.line - 32)
        yield asked(EXTENT, q, line=q.line + 32)
        yield asked(EXTENT, q, line=q.line + 16)
    for i, change in enumerate(({"line": 64}, {"line": 112}, {"surface": 192}, {"surface": 240},
                                {"line": 0}, {"surface": 0}, {"line": 160}, {"line": 4294967264})):
        yield any_call(i % 5, EXAMPLE, **change)
    yield whole(PACK, EXAMPLE, line=96)
    yield whole(UNPACK, EXAMPLE, surface=224)
    yield whole(PACK, layout(3, 1, 33, 0), line=4294967264)
    yield whole(UNPACK, layout(2, 2, 32, 0), surface=4294967264)
    yield whole(PACK, layout(2, 3, 16, 1), surface=4294967264)


def starts():
    """Starts on and off the multiples of 32."""
    for start in (1, 16, 31, 33, 4294967264, U32_MAX):
        yield asked(EXTENT, EXAMPLE, start=start)
        yield asked(POSITION, EXAMPLE, 33, 1, 2, start=start)
    for op, start in ((PACK, 1), (UNPACK, 16), (WRITE_BOX, 31), (READ_BOX, 33), (PACK, U32_MAX)):
        yield any_call(op, EXAMPLE, start=start, m=600)
    yield whole(PACK, EXAMPLE, start=4294967264)


def lent_counts():
    """Element counts and buffer lengths one off, and nothing lent."""
    for q, op in product((EXAMPLE, INT16_EXAMPLE), (PACK, UNPACK, WRITE_BOX, READ_BOX)):
        exact = whole(op, q)
        yield exact
        yield whole(op, q, m=exact.m - 1)
        yield whole(op, q, n=exact.n - (1 if op % 2 else -1))
    for op in (PACK, UNPACK, WRITE_BOX, READ_BOX):
        yield whole(op, EXAMPLE, n=0, m=0)
        yield whole(op, layout(1, 1, 1, 1), n=1, m=0)
    yield whole(PACK, EXAMPLE, n=239)
    yield whole(UNPACK, EXAMPLE, n=241)
    for op in (WRITE_BOX, READ_BOX):
        yield lent(op, EXAMPLE, Box(0, 0, 0, 1, 1, 1), m=479)
        yield lent(op, EXAMPLE, Box(0, 0, 0, 1, 1, 1), m=32)
        yield lent(op, EXAMPLE, Box(4, 1, 1, 3, 1, 2), n=240)
        yield lent(op, EXAMPLE, Box(4, 1, 1, 3, 1, 2), n=7)
        yield lent(op, EXAMPLE, Box(4, 1, 1, 3, 1, 2), n=5)


def int8_ranges():
    """Elements on and past the edges of int8; the least index at fault is named."""
    minus_129, minus_128, plus_127, plus_128 = (v + 32768 for v in (-129, -128, 127, 128))
    for index, value in ((0, minus_129), (0, plus_128), (119, 0), (120, plus_128), (239, minus_129),
                         (239, 65535), (0, minus_128), (0, plus_127), (239, minus_128),
                         (120, plus_127)):
        yield whole(PACK, EXAMPLE, fault_index=index, fault_value=value)
    box = Box(30, 0, 1, 5, 2, 2)
    for index, value in ((0, minus_129), (11, plus_128), (19, 65535), (19, plus_127),
                         (0, minus_128)):
        yield lent(WRITE_BOX, EXAMPLE, box, fault_index=index, fault_value=value)
    for base, span in ((32568, 400), (32640, 257), (32639, 257), (32630, 270)):
        yield whole(PACK, layout(4, 4, 33, 0), base=base, span=span)
        yield lent(WRITE_BOX, layout(4, 4, 33, 0), Box(1, 0, 0, 32, 4, 3), base=base, span=span)
    yield whole(PACK, EXAMPLE, base=32640, span=257, fault_index=3, fault_value=minus_129)
    yield lent(WRITE_BOX, EXAMPLE, Box(1, 1, 0, 1, 1, 2), fault_index=1, fault_value=32968)
    yield lent(WRITE_BOX, EXAMPLE, Box(1, 1, 0, 1, 1, 2), base=0, span=1)


def int16_ranges():
    """The same elements are taken in int16; reading int8 ignores what the elements were."""
    for value in (0, 32639, 32640, 32895, 32896, 65535):
        yield whole(PACK, INT16_EXAMPLE, fault_index=7, fault_value=value)
    for op in (UNPACK, READ_BOX):
        yield whole(op, EXAMPLE, fault_index=5, fault_value=65535)


def fp16_ranges():
    """Elements about the borders of NaN: the least index is named, infinity is taken. Other precisions, and reads."""
    box = Box(14, 0, 1, 5, 2, 2)
    for i, value in enumerate(FP16_EDGES):
        yield whole(PACK, FP16_EXAMPLE, fault_index=(0, 57, 119)[i % 3], fault_value=value)
        yield lent(WRITE_BOX, FP16_EXAMPLE, box, fault_index=(0, 7, 19)[i % 3], fault_value=value)
    for value in INFINITIES + NANS:
        # taken in int16; in int8 all but -1 are past the range
        for q in (INT16_EXAMPLE, EXAMPLE):
            yield whole(PACK, q, fault_index=57, fault_value=value)
            yield lent(WRITE_BOX, q, box, fault_index=7, fault_value=value)
        yield whole(UNPACK, FP16_EXAMPLE, fault_index=57, fault_value=value)
        yield lent(READ_BOX, FP16_EXAMPLE, box, fault_index=7, fault_value=value)
    for q in (FP16_EXAMPLE, INT16_EXAMPLE, layout(4, 4, 33, 2)):
        for i, draw in enumerate(NAN_DRAWS):
            yield whole(PACK, q, **draw)
            yield lent(WRITE_BOX, q, box, **draw)
            # one more, before or behind the first that was drawn
            yield whole(PACK, q, **draw, fault_index=i, fault_value=NANS[i])
            yield lent(WRITE_BOX, q, box, **draw, fault_index=19 - i, fault_value=NANS[i])


def wrong_boxes():
    """Boxes that are empty or reach past the cube."""
    inside = (10, 0, 1, 20, 2, 2)
    sizes = (EXAMPLE.channels, EXAMPLE.height, EXAMPLE.width)
    for axis, size in enumerate(sizes):
        changes = [(inside[axis], 0), (size, 1), (0, size + 1), (size - 1, 2),
                   (U32_MAX, 2), (U32_MAX, 1), (0, U32_MAX), (1, U32_MAX)]
        for i, (first, count) in enumerate(changes):
            numbers = list(inside)
            numbers[axis], numbers[axis + 3] = first, count
            yield lent(WRITE_BOX if (i + axis) % 2 else READ_BOX, EXAMPLE, Box(*numbers), n=40)
    for op in (WRITE_BOX, READ_BOX):
        yield lent(op, EXAMPLE, Box(0, 0, 0, 0, 0, 0))
        yield lent(op, EXAMPLE, Box(0, 0, 0, 3, 2, 40))


FAULTS = {1: {"channels": 8193}, 2: {"precision": 3}, 3: {"line": 64}, 4: {"start": 33},
          9: {"nh": 3}, 6: {"n": 241}, 5: {"m": 479},
          7: {"fault_index": 9, "fault_value": 32896}}
FP16_FAULTS = {**FAULTS, 6: {"n": 121}, 5: {"m": 511}, 26: {"fault_index": 9, "fault_value": NANS[1]}}
ORDERS = {PACK: (1, 2, 3, 4, 6, 5, 7), UNPACK: (1, 2, 3, 4, 6, 5),
          WRITE_BOX: (1, 2, 3, 4, 9, 6, 5, 7), READ_BOX: (1, 2, 3, 4, 9, 6, 5),
          POSITION: (1, 2, 3, 4, 9), EXTENT: (1, 2, 3, 4)}


def with_faults(op, codes, q=EXAMPLE, faults=FAULTS):
    """A call on the example that has the fault of each code."""
    changes = {name: value for code in codes for name, value in faults[code].items()}
    if op == POSITION and 9 in codes:
        changes["h"] = 2
    if op in (POSITION, EXTENT):
        changes.pop("nh", None)
        return asked(op, q, **changes)
    return whole(op, q, **{"m": 600, **changes})


def many_faults():
    """Two faults at once, and every later fault at once: the first in the call's order decides."""
    for pair in combinations(ORDERS[PACK], 2):
        yield with_faults(PACK, pair)
    for code in ORDERS[WRITE_BOX]:
        if code != 9:
            yield with_faults(WRITE_BOX, (code, 9))
    for op in (UNPACK, WRITE_BOX, READ_BOX, POSITION, EXTENT):
        for i in range(len(ORDERS[op]) - 1):
            yield with_faults(op, ORDERS[op][i:])


def nan_faults():
    """NaN alone, with each fault that comes before it, and with all later ones: 26 stands at 7's place."""
    for op in (PACK, WRITE_BOX):
        before = ORDERS[op][:-1]
        for codes in ((), *((code,) for code in before), *(before[i:] for i in range(len(before) - 1))):
            yield with_faults(op, (*codes, 26), FP16_EXAMPLE, FP16_FAULTS)


# --- sizes past 32 bits ---

def huge():
    """Layouts whose positions, extents and counts pass 32 bits."""
    far = CubeLayout(1, 1, 8192, 1, 32, 4294967264, 4294967264)
    full = CubeLayout(8192, 8192, 8192, 0, 262144, 2147483648, 0)
    for q in (far, full, full._replace(precision=1), full._replace(start=4294967264)):
        yield asked(EXTENT, q)
        yield asked(POSITION, q, q.channels - 1, q.height - 1, q.width - 1)
        yield asked(POSITION, q, 4097, q.height // 2, q.width // 2)
        yield asked(POSITION, q, q.channels, 0, 0)
    yield whole(PACK, far)
    yield whole(UNPACK, far, n=5)
    for n in (0, 3):
        yield whole(PACK, full, n=n, m=64)
        yield whole(UNPACK, full, n=n, m=64)
    yield lent(WRITE_BOX, full, whole_box(full), n=0, m=64)
    yield lent(READ_BOX, full, whole_box(full), n=0, m=0)
    yield lent(WRITE_BOX, full, Box(8191, 8191, 8190, 1, 1, 2), m=128)
    yield lent(READ_BOX, full, Box(0, 0, 0, 2, 1, 1), m=128)


def wrapping():
    """Counts, strides and ends that a 32-bit sum or product would let pass."""
    # 82 * 6605 * 7930 is 4294967300, four past 32 bits
    q = layout(82, 6605, 7930, 0)
    for op in (PACK, UNPACK, WRITE_BOX, READ_BOX):
        yield whole(op, q, n=4, m=256)
    for q in (layout(1, 1, 1, 0, 0, 0, 4294967264), layout(1, 1, 33, 0)._replace(surface=4294967264),
              layout(1, 1, 65, 0)._replace(surface=2147483648),
              CubeLayout(1, 2, 1, 0, 2147483648, 2147483680, 2147483648)):
        yield whole(PACK, q, m=96)
        yield whole(READ_BOX, q, m=96)
        yield asked(EXTENT, q)
    for surface in (0, 32, 4294967264):
        yield asked(EXTENT, CubeLayout(1, 2, 1, 0, 4294967264, surface, 0))
        yield asked(EXTENT, CubeLayout(1, 3, 1, 0, 2147483648, surface, 0))
    yield asked(EXTENT, CubeLayout(1, 2, 1, 0, 4294967232, 4294967264, 0))
    yield asked(EXTENT, CubeLayout(1, 1, 1, 0, 4294967264, 32, 0))


def positions():
    """Positions of elements at the edges of the cube and past them."""
    for c, h, w in ((0, 0, 0), (33, 1, 2), (33, 1, 1), (31, 0, 0), (32, 0, 0), (39, 1, 2), (40, 0, 0),
                    (0, 2, 0), (0, 0, 3), (39, 1, 3), (U32_MAX, 0, 0), (0, U32_MAX, 0),
                    (0, 0, U32_MAX), (2, 1, 39)):
        yield asked(POSITION, EXAMPLE, c, h, w)
    for precision, c in product((1, 2), (0, 15, 16, 19)):
        yield asked(POSITION, INT16_EXAMPLE._replace(precision=precision), c, 1, 2)


# --- random cases ---

def random_layout(rng):
    """A valid layout of a small cube."""
    channels = rng.choice(CHANNELS + (rng.randint(1, 130),) * 4)
    return layout(rng.randint(1, 6), rng.randint(1, 5), channels, rng.randrange(3),
                  rng.choice((0, 0, 1, 2, 5)), rng.choice((0, 0, 1, 3)),
                  ATOM * rng.choice((0, 0, 1, 2, 7)))


def random_span(rng, size):
    """A first index and a count that lie in a size."""
    first = rng.randrange(size)
    return first, rng.randint(1, size - first)


def random_box(rng, q):
    """A box in the cube."""
    c, channels = random_span(rng, q.channels)
    h, rows = random_span(rng, q.height)
    w, columns = random_span(rng, q.width)
    return Box(c, h, w, channels, rows, columns)


def random_lent(rng):
    """An accepted packing or box call."""
    op, q = rng.randrange(4), random_layout(rng)
    box = random_box(rng, q) if op in (WRITE_BOX, READ_BOX) else whole_box(q)
    return lent(op, q, box, more=rng.choice((0, 0, 0, 1, 31, 200)))


def random_asked(rng):
    """A position or extent call with strides and start of any size."""
    q = layout(rng.choice((1, 7, 8192, rng.randint(1, 8192))), rng.choice((1, 8192, rng.randint(1, 99))),
               rng.choice((1, 8192, rng.randint(1, 8192))), rng.randrange(3))
    q = q._replace(line=q.line + ATOM * rng.choice((0, rng.randint(1, 9999))))
    least = (q.height - 1) * q.line + ATOM * q.width
    most = max(least, U32_MAX - U32_MAX % ATOM)
    q = q._replace(surface=rng.choice((least, rng.randrange(least, most + 1, ATOM), most)),
                   start=ATOM * rng.choice((0, rng.randrange(1 << 27))))
    if least > U32_MAX or rng.random() < 0.3:
        return asked(EXTENT, q._replace(surface=min(q.surface, U32_MAX)))
    return asked(POSITION, q, rng.randrange(q.channels), rng.randrange(q.height), rng.randrange(q.width))


def spoiled(rng, t):
    """A case with one to three of its numbers changed."""
    names = ["width", "height", "channels", "precision", "line", "surface", "start"]
    names += ["n", "m"] if t.op in (PACK, UNPACK, WRITE_BOX, READ_BOX) else []
    names += ["c", "h", "w", "nc", "nh", "nw"] if t.op in (WRITE_BOX, READ_BOX) else []
    return with_changes(rng, t, names)


def random_cases():
    """Accepted random calls, and some with numbers changed."""
    rng = random.Random(20240607)
    for _ in range(130):
        yield random_lent(rng)
    for _ in range(24):
        yield spoiled(rng, random_lent(rng))
    for _ in range(30):
        yield random_asked(rng)
    for _ in range(8):
        yield spoiled(rng, random_asked(rng))


# --- the list ---

GROUPS = (accepted_whole, accepted_ones, accepted_large, accepted_boxes, wrong_sizes, wrong_precisions,
          strides, starts, lent_counts, int8_ranges, int16_ranges, fp16_ranges, wrong_boxes, many_faults,
          nan_faults, huge, wrapping, positions, random_cases)


def all_cases():
    """Every case of a cube call."""
    return [t for group in GROUPS for t in group()]
