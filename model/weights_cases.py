"""The test cases of the weight calls: hand-chosen corners and seeded random layouts.

Renders no rule of its own; the cases stand at the limits named in the scope
paper's "Weights" and "Refusal numbers", and in change request K7. Each field of a
case is described in README.md.
"""

import random
from itertools import combinations, product

from cases import ELEMENTS_MAX, FP16_EDGES, INFINITIES, NAN_DRAWS, NANS, case_type, lent_case, with_changes
from cube import U32_MAX
from weights import WeightLayout, element_count, filled_bytes

WeightCase = case_type("WeightCase", "kernels channels height width precision")

PACK, UNPACK = 6, 7
OPS = (PACK, UNPACK)

EXAMPLE = WeightLayout(3, 65, 1, 2, 0)
INT16_EXAMPLE = WeightLayout(17, 3, 2, 1, 1)
FP16_EXAMPLE = INT16_EXAMPLE._replace(precision=2)
KERNELS = (15, 16, 17, 31, 32, 33)
CHANNELS = (63, 64, 65, 128, 129)
FILTERS = ((1, 2), (3, 1), (2, 1), (1, 3), (2, 3), (4, 1), (3, 2))


# --- building cases ---

def lent(op, q, more=0, **changes):
    """An accepted call (sizes permitting), its buffer `more` bytes longer, then changed."""
    return lent_case(WeightCase(op, *q), element_count(q), filled_bytes(q) + more, op == PACK,
                     **changes)


def filtered(kernels, channels, precision, i):
    """A layout with the first filter, counted from the i-th, that keeps it small enough; else 1 x 1."""
    turned = FILTERS[i % len(FILTERS):] + FILTERS[:i % len(FILTERS)]
    small = (f for f in turned if kernels * channels * f[0] * f[1] <= ELEMENTS_MAX)
    return WeightLayout(kernels, channels, *next(small, (1, 1)), precision)


# --- accepted corners ---

def borders():
    """Kernels and channels on both sides of the groups' and blocks' borders, for each precision."""
    for i, (kernels, channels, precision) in enumerate(product(KERNELS, CHANNELS, range(3))):
        yield lent(OPS[i % 2], filtered(kernels, channels, precision, i),
                   more=(0, 1, 0, 200)[i // 2 % 4])


def shapes():
    """One element, the largest filters, and as many kernels and channels as there can be."""
    for i, sizes in enumerate(((1, 1, 1, 1), (1, 1, 32, 32), (8, 1, 32, 32), (2, 3, 32, 1),
                               (3, 2, 1, 32), (8192, 1, 1, 1), (1, 8192, 1, 1), (33, 2, 5, 7),
                               (49, 1, 7, 5), (65, 126, 1, 1), (2, 193, 3, 4))):
        yield lent(PACK, WeightLayout(*sizes, i % 3), more=i)
        yield lent(UNPACK, WeightLayout(*sizes, (i + 1) % 3), more=128 * (i % 2))


def fills():
    """Surfaces that end before, on and past a multiple of 128, their buffers one short and longer."""
    for i, (precision, off) in enumerate(product(range(3), (-1, 0, 1))):
        q = WeightLayout((128 if precision == 0 else 64) + off, 1, 1, 1, precision)
        yield lent(OPS[i % 2], q)
        yield lent(OPS[i % 2], q, m=filled_bytes(q) - 1)
        yield lent(OPS[(i + 1) % 2], q, more=(1, 127, 128)[i % 3])
    for op in OPS:
        for m in (0, 390, 511, 512, 513, 5000):
            yield lent(op, EXAMPLE, m=m)
        yield lent(op, INT16_EXAMPLE, m=204)
        yield lent(op, INT16_EXAMPLE, m=255)


# --- refused corners ---

def wrong_sizes():
    """Each size 0, one past its greatest, and greatest of all; the last ones that are taken."""
    sizes = (("kernels", 8193), ("channels", 8193), ("height", 33), ("width", 33))
    for i, (name, past) in enumerate(sizes):
        for j, size in enumerate((0, past, U32_MAX)):
            yield lent(OPS[(i + j) % 2], EXAMPLE, **{name: size})
        yield lent(OPS[i % 2], EXAMPLE, **{name: past - 1})
    yield lent(PACK, EXAMPLE, kernels=0, n=0, m=0)
    yield lent(UNPACK, EXAMPLE, channels=0, n=0)
    yield lent(PACK, WeightLayout(1, 1, 33, 1, 0))
    yield lent(UNPACK, WeightLayout(1, 1, 1, 64, 1))


def wrong_precisions():
    """Unknown precision codes in both calls."""
    for op, precision in product(OPS, (3, 256, U32_MAX)):
        yield lent(op, EXAMPLE, precision=precision)


def counts():
    """Element counts one off, and nothing lent."""
    for op, q in product(OPS, (EXAMPLE, INT16_EXAMPLE, INT16_EXAMPLE._replace(precision=2))):
        yield lent(op, q, n=element_count(q) - 1)
        yield lent(op, q, n=element_count(q) + 1)
    for op in OPS:
        yield lent(op, EXAMPLE, n=0)
        yield lent(op, EXAMPLE, n=0, m=0)
        yield lent(op, EXAMPLE, n=512)


def huge():
    """Element counts past 32 bits, which a 32-bit product would take for 0 or 4."""
    full = WeightLayout(8192, 8192, 32, 32, 0)
    for op, precision in product(OPS, range(3)):
        yield lent(op, full._replace(precision=precision), n=0, m=0)
    for op in OPS:
        yield lent(op, full, n=0, m=128)
        yield lent(op, full)
        # 6605 * 2501 * 13 * 20 is 4294967300, four past 32 bits
        yield lent(op, WeightLayout(6605, 2501, 13, 20, 0), n=4, m=128)


def ranges():
    """Elements on and past the edges of int8: the least raw index at fault is named. int16 takes all."""
    minus_129, minus_128, plus_127, plus_128 = (v + 32768 for v in (-129, -128, 127, 128))
    for index, value in ((0, minus_129), (0, plus_128), (1, 0), (194, minus_129), (195, 65535),
                         (389, plus_128), (0, minus_128), (389, plus_127)):
        yield lent(PACK, EXAMPLE, fault_index=index, fault_value=value)
    for base, span in ((32568, 400), (32640, 257), (32639, 257), (0, 65536)):
        yield lent(PACK, WeightLayout(33, 65, 1, 3, 0), base=base, span=span)
    yield lent(PACK, EXAMPLE, base=32640, span=260, fault_index=389, fault_value=minus_129)
    yield lent(UNPACK, EXAMPLE, fault_index=5, fault_value=65535)
    for value in (0, minus_129, plus_128, 31745 + 32768, 65535):
        yield lent(PACK, INT16_EXAMPLE, fault_index=7, fault_value=value)


def fp16_ranges():
    """Elements about the borders of NaN: the least index is named, infinity is taken. Other precisions, and reads."""
    for i, value in enumerate(FP16_EDGES):
        yield lent(PACK, FP16_EXAMPLE, fault_index=(0, 50, 101)[i % 3], fault_value=value)
    for value in INFINITIES + NANS:
        # taken in int16; in int8 all but -1 are past the range
        for q in (INT16_EXAMPLE, EXAMPLE):
            yield lent(PACK, q, fault_index=50, fault_value=value)
        yield lent(UNPACK, FP16_EXAMPLE, fault_index=50, fault_value=value)
    for q in (FP16_EXAMPLE, INT16_EXAMPLE, WeightLayout(33, 65, 1, 3, 2)):
        for i, draw in enumerate(NAN_DRAWS):
            yield lent(PACK, q, **draw)
            # one more, before or behind the first that was drawn
            yield lent(PACK, q, **draw, fault_index=i, fault_value=NANS[i])
            yield lent(PACK, q, **draw, fault_index=101 - i, fault_value=NANS[i])


FAULTS = {1: {"height": 33}, 2: {"precision": 3}, 6: {"n": 391}, 5: {"m": 511},
          7: {"fault_index": 9, "fault_value": 32896}}
FP16_FAULTS = {1: {"height": 33}, 2: {"precision": 3}, 6: {"n": 103}, 5: {"m": 255},
               26: {"fault_index": 9, "fault_value": NANS[1]}}


def with_faults(op, codes, q=EXAMPLE, faults=FAULTS):
    """A call on the example that has the fault of each code."""
    changes = {name: value for code in codes for name, value in faults[code].items()}
    return lent(op, q, **changes)


def many_faults():
    """Two faults at once, and every later fault at once: the first in the order decides."""
    for pair in combinations(FAULTS, 2):
        yield with_faults(PACK, pair)
    order = tuple(FAULTS)
    for i in range(len(order) - 2):
        yield with_faults(PACK, order[i:])
        yield with_faults(UNPACK, order[i:-1])


def nan_faults():
    """NaN alone, with each fault that comes before it, and with all later ones: 26 stands at 7's place."""
    *before, last = FP16_FAULTS
    for codes in ((), *((code,) for code in before), *(before[i:] for i in range(len(before) - 1))):
        yield with_faults(PACK, (*codes, last), FP16_EXAMPLE, FP16_FAULTS)


# --- random cases ---

def random_lent(rng):
    """An accepted call on few enough elements."""
    kernels = rng.choice((rng.randint(1, 70), rng.choice(KERNELS)))
    channels = rng.choice((rng.randint(1, 140), rng.choice(CHANNELS)))
    while kernels * channels > ELEMENTS_MAX:
        channels = channels // 2
    height = rng.randint(1, min(32, ELEMENTS_MAX // (kernels * channels)))
    width = rng.randint(1, min(32, ELEMENTS_MAX // (kernels * channels * height)))
    return lent(rng.choice(OPS), WeightLayout(kernels, channels, height, width, rng.randrange(3)),
                more=rng.choice((0, 0, 1, 128, 333)))


def random_cases():
    """Accepted random calls, and some with numbers changed."""
    rng = random.Random(20240608)
    for _ in range(20):
        yield random_lent(rng)
    for _ in range(8):
        yield with_changes(rng, random_lent(rng), [*WeightLayout._fields, "n", "m"])


# --- the list ---

GROUPS = (borders, shapes, fills, wrong_sizes, wrong_precisions, counts, huge, ranges, fp16_ranges,
          many_faults, nan_faults, random_cases)


def all_cases():
    """Every case of a weight call."""
    return [t for group in GROUPS for t in group()]
