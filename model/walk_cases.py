"""The test cases of walks over a cube's atoms: corners, large and drawn cubes, steps of walks made by hand.

Renders no rule of its own; the cases stand at the limits named in the scope
paper's "Cells and cubes", in change requests K6 and K7 and in open point 27. Each
field of a case is described in README.md: of a step, the twelve numbers of its walk.
"""

import random
from itertools import combinations, product

from cases import ANY_ELEMENT, FP16_EDGES, INFINITIES, NAN_DRAWS, NANS, accepted, case_type, nearby
from cube import ATOM, U32_MAX, CubeLayout, extent_bytes
from cube_cases import (CHANNELS, EXAMPLE, FAULTS, FP16_EXAMPLE, FP16_FAULTS, INT16_EXAMPLE, layout,
                        random_layout)
from walk import U64_SIZE, Walk, first_walk, step

WalkCase = case_type("WalkCase", "width height channels precision line surface start")
StepCase = case_type("StepCase", " ".join(Walk._fields))
ElementsCase = case_type("ElementsCase", "")

# BESIDE is a walk with the packing of the same words behind it
WALK, BESIDE, STEP, LEND = range(31, 35)

ELEMENTS_MAX = 307200
BUFFER_MAX = 2457600
U64_MAX = U64_SIZE - 1
WORD_MAX = (1 << 61) - (1 << 31) - 1
ORDER = (1, 2, 3, 4, 6, 5, 7)


# --- building cases ---

def walked(q, more=0, **changes):
    """A walk over a cube whose elements are lent, with a buffer `more` bytes longer than needed, then changed."""
    n, m = q.width * q.height * q.channels, q.start + extent_bytes(q) + more
    t = WalkCase(WALK, *q, n=min(n, ELEMENTS_MAX), m=min(m, BUFFER_MAX), fault_index=U32_MAX,
                 **accepted(q.precision, n + m // 32))._replace(**changes)
    return t if t.fault_index < t.n else t._replace(fault_index=t.n)


def beside(*given, **changes):
    """Such a walk, and the packing of the same words behind it."""
    return walked(*given, **changes)._replace(op=BESIDE)


def lent(n, precision=1):
    """Elements for the steps that follow: they refuse nothing, so those of fp16 are NaN now and then."""
    return ElementsCase(LEND, n=n, fault_index=n, **(accepted(0, 0) if precision == 0 else ANY_ELEMENT))


def stepped(walk, **changes):
    """A step of a walk, some of its numbers changed."""
    return StepCase(STEP, *walk._replace(**changes))


# --- walks that are accepted ---

def borders():
    """Each precision with channels on both sides of the atom borders, lines and surfaces with gaps and without."""
    planes = ((1, 1), (3, 2), (2, 3), (5, 1), (1, 4), (4, 3))
    mores = ((0, 0, 0), (1, 0, 32), (0, 2, 0), (2, 1, 96), (0, 0, 64))
    for i, (precision, channels) in enumerate(product(range(3), CHANNELS)):
        yield walked(layout(*planes[i % 6], channels, precision, *mores[i % 5]), more=(0, 1, 45, 32)[i % 4])


def ones():
    """One row, one column, one atom, one surface, over a buffer that is longer."""
    for precision, (width, height, channels) in product(range(3), product((1, 7), (1, 6), (1, 70))):
        yield walked(layout(width, height, channels, precision))
        yield walked(layout(width, height, channels, precision, 2, 3, 160), more=77)


def large():
    """Cubes of 8,192 to 307,200 elements, among them the longest sides and the fullest buffers."""
    sizes = ((8192, 1, 1), (1, 8192, 1), (1, 1, 8192), (2, 4, 8192), (64, 32, 32, 1, 2, 64), (100, 50, 17, 3, 0, 32),
             (37, 29, 65), (9, 11, 700, 1, 1, 96), (256, 16, 16), (5, 3, 8191, 0, 1, 32))
    for precision, (width, height, channels, *mores) in product(range(3), sizes):
        yield walked(layout(width, height, channels, precision, *mores))
    for q in (layout(320, 240, 4, 0), layout(240, 320, 4, 1), layout(300, 256, 1, 2)):
        yield walked(q)
    yield walked(layout(19, 17, 900, 1, 2, 5, 32), more=1000)
    yield walked(layout(31, 33, 300, 0, 1, 7, 4096), more=31)
    yield walked(layout(2, 2, 33, 2)._replace(surface=262144, start=64))
    yield walked(layout(3, 4, 20, 1)._replace(line=8192, surface=65536))


def lengths():
    """Buffers of just enough bytes, one more and one too few; element counts one off; nothing lent."""
    for q in (EXAMPLE, INT16_EXAMPLE, FP16_EXAMPLE, layout(1, 1, 1, 0),
              layout(2, 3, 33, 0, 1, 1, 64)):
        exact = beside(q)
        yield exact
        yield from (exact._replace(m=exact.m + more) for more in (1, -1, -32))
        yield from (beside(q, n=exact.n + more) for more in (1, -1))
        yield beside(q, n=0)
        yield exact._replace(m=0)
        yield beside(q, n=0, m=0)


# --- walks that are refused ---

def with_faults(codes, q=EXAMPLE, faults=FAULTS):
    """A walk over the example that has the fault of each code."""
    changes = {name: value for code in codes for name, value in faults[code].items()}
    return beside(q, **{"m": 600, **changes})


def faults():
    """Each fault alone, any two at once, and every later one at once: the first in packing's order decides."""
    for code in ORDER:
        yield with_faults((code,))
    for pair in combinations(ORDER, 2):
        yield with_faults(pair)
    for i in range(len(ORDER) - 2):
        yield with_faults(ORDER[i:])


def nan_faults():
    """NaN alone, with each fault that comes before it, and with all later ones: 26 stands at 7's place."""
    before = ORDER[:-1]
    for codes in ((), *((code,) for code in before), *(before[i:] for i in range(len(before) - 1))):
        yield with_faults((*codes, 26), FP16_EXAMPLE, FP16_FAULTS)


def limits():
    """Sizes, precisions, strides and starts on and past their limits."""
    for name, value in (("width", 0), ("width", 8193), ("height", 0), ("height", U32_MAX), ("channels", 0),
                        ("channels", U32_MAX), ("precision", 3), ("precision", 256), ("precision", U32_MAX),
                        ("line", 0), ("line", 95), ("line", 96), ("line", 160), ("line", U32_MAX), ("surface", 0),
                        ("surface", 192), ("surface", 224), ("surface", 225), ("surface", 4294967264), ("start", 1),
                        ("start", 31), ("start", 32), ("start", 4294967264), ("start", U32_MAX)):
        yield beside(EXAMPLE, m=1024)._replace(**{name: value})
    # counts and ends past 32 bits: 82 * 6605 * 7930 is 4294967300
    yield beside(layout(82, 6605, 7930, 0), n=4, m=256)
    yield beside(CubeLayout(8192, 8192, 8192, 0, 262144, 2147483648, 0), n=3, m=64)
    yield beside(CubeLayout(1, 1, 17, 1, 32, 4294967264, 4294967264), m=96)
    yield beside(CubeLayout(1, 2, 1, 0, 2147483648, 2147483680, 2147483648), m=96)


def ranges():
    """int8 elements on and past their edges, the least index at fault; int16 takes all."""
    for index, value in ((0, -129), (0, -128), (119, 127), (119, 128), (239, 128), (239, -32768), (239, 32767)):
        yield beside(EXAMPLE, fault_index=index, fault_value=value + 32768)
    for value in (-32768, -129, 128, 31745, 32767):
        yield beside(INT16_EXAMPLE, fault_index=7, fault_value=value + 32768)
    for base, span in ((32568, 400), (32640, 257), (32639, 257), (32630, 270)):
        yield beside(layout(4, 4, 33, 0), base=base, span=span)


def fp16_ranges():
    """fp16 elements about the borders of NaN, the least index at fault; infinity is taken. Other precisions."""
    for i, value in enumerate(FP16_EDGES):
        yield beside(FP16_EXAMPLE, fault_index=(0, 57, 119)[i % 3], fault_value=value)
    for q, value in product((INT16_EXAMPLE, EXAMPLE), INFINITIES + NANS):
        yield beside(q, fault_index=57, fault_value=value)
    for q in (FP16_EXAMPLE, INT16_EXAMPLE, layout(4, 4, 33, 2)):
        for i, draw in enumerate(NAN_DRAWS):
            yield beside(q, **draw)
            # one more, before or behind the first that was drawn
            yield beside(q, **draw, fault_index=i, fault_value=NANS[i])
            yield beside(q, **draw, fault_index=119 - i, fault_value=NANS[i])
    # lists of each length, the last one NaN
    for n in (*range(1, 36), 63, 64, 65, 127, 128, 129):
        yield beside(layout(1, 1, n, 2), fault_index=n - 1, fault_value=NANS[n % 4])
    # every element that fp16 takes, of one sign and of the other; then one NaN at the end
    for base in (0, 32768):
        every = beside(layout(907, 7, 5, 2), base=base, span=1, step=1)
        yield every
        yield every._replace(fault_index=every.n - 1, fault_value=base + 31745)


# --- drawn walks ---

def random_walk(rng):
    """An accepted walk over a small cube."""
    return walked(random_layout(rng), more=rng.choice((0, 0, 1, 31, 200)))


def random_large(rng):
    """An accepted walk over a cube of up to 70,000 elements and some hundred thousand bytes."""
    precision = rng.randrange(3)
    width, height = rng.randint(1, 40), rng.randint(1, 30)
    channels = rng.randint(1, max(1, min(8192, rng.choice((4000, 20000, 70000)) // (width * height))))
    q = layout(width, height, channels, precision, rng.choice((0, 0, 1, 4)), rng.choice((0, 0, 2, 9)),
               ATOM * rng.choice((0, 1, 30)))
    return walked(q, more=rng.choice((0, 0, 5, 64)))


def spoiled(rng, t):
    """A walk with one to three of its numbers changed, and the packing of the same words."""
    names = ("width", "height", "channels", "precision", "line", "surface", "start", "n", "m")
    for name in rng.sample(names, rng.choice((1, 1, 2, 3))):
        most = {"n": ELEMENTS_MAX, "m": BUFFER_MAX}.get(name, U32_MAX)
        t = t._replace(**{name: nearby(rng, getattr(t, name), most)})
    return t._replace(op=BESIDE, fault_index=t.n)


def random_walks():
    """Accepted walks, and some with numbers changed."""
    rng = random.Random(20240606)
    for _ in range(120):
        yield random_walk(rng)
    for _ in range(90):
        yield random_large(rng)
    for _ in range(60):
        yield spoiled(rng, random_walk(rng))


# --- steps ---

def whole_scans():
    """Every step of some walks, one after another, and two more at the end."""
    for q in (EXAMPLE, INT16_EXAMPLE, FP16_EXAMPLE, layout(1, 1, 1, 0), layout(3, 1, 33, 0),
              layout(1, 3, 17, 2, 1, 1, 32), layout(2, 2, 100, 1, 0, 2)):
        yield lent(q.width * q.height * q.channels, q.precision)
        walk = first_walk(q)
        while walk.channels:
            yield stepped(walk)
            walk = step(walk, [])[2]
        yield stepped(walk)
        yield stepped(walk)


def no_atoms():
    """No channels; no columns or rows left; no width or height: each as it comes."""
    walk = first_walk(EXAMPLE)
    yield lent(240, 0)
    for changes in ({"channels": 0}, {"channels": 0, "position": U64_MAX, "index": U64_MAX}, {"columns": 0},
                    {"rows": 0}, {"columns": 0, "rows": 0}, {"columns": 0, "rows": 0, "channels": 8},
                    {"columns": 1, "rows": 1, "channels": 1}, {"columns": 1, "width": 0},
                    {"columns": 1, "rows": 1, "width": 0, "height": 0},
                    {"columns": 1, "rows": 1, "channels": 33, "group": 0, "surface": 0}, {"columns": U64_MAX},
                    {"columns": 1, "rows": U64_MAX}, {"columns": 1, "rows": 1, "channels": U64_MAX}, {"plane": 0}):
        yield stepped(walk, **changes)
    yield stepped(Walk(*[0] * len(walk)))
    yield stepped(Walk(*[1] * len(walk)))
    yield stepped(Walk(*[U64_MAX] * len(walk)))


def precisions():
    """Precision codes that are not known hold two bytes an element; channels around an atom's."""
    yield lent(240)
    for precision, channels in product((0, 1, 2, 3, 7, U64_MAX), (1, 15, 16, 17, 32, 33)):
        yield stepped(first_walk(EXAMPLE), columns=1, rows=1, precision=precision, channels=channels)


def missing():
    """Elements that are missing, some or all; planes that lead past the last one."""
    for n in (0, 1, 7, 100, 239):
        yield lent(n)
        for index in (0, 1, 6, n, 230):
            yield stepped(first_walk(EXAMPLE), index=index, columns=2)
    yield lent(240)
    for plane in (0, 1, 239, 240, 1 << 32, 1 << 59, 1 << 60, WORD_MAX, U64_MAX - 230, U64_MAX - 1, U64_MAX):
        for index in (0, 5, 240, U64_MAX - 1):
            yield stepped(first_walk(INT16_EXAMPLE), plane=plane, index=index)


def sums():
    """Positions, indices and strides whose sums are the greatest of 64 bits, and one more."""
    walk = first_walk(EXAMPLE)
    lines, surfaces = walk._replace(columns=1), walk._replace(columns=1, rows=1)
    last = surfaces._replace(channels=5)
    yield lent(240, 0)
    for position in (U64_MAX, U64_MAX - 31, U64_MAX - 32, U64_MAX - 64, WORD_MAX):
        for left in (walk, lines, surfaces, last):
            yield stepped(left, position=position)
    for index in (U64_MAX, U64_MAX - 1, U64_MAX - 187, U64_MAX - 186, WORD_MAX):
        for left in (walk, lines, surfaces, last):
            yield stepped(left, index=index)
    for stride, first in product((U64_MAX, U64_MAX - 1, U64_MAX - 7), (0, 1, 7, 8)):
        yield stepped(lines, line=stride, position=first)
        yield stepped(surfaces, surface=stride, position=first)
        yield stepped(surfaces, group=stride, index=first)
    yield stepped(surfaces, surface=U64_MAX, group=U64_MAX, position=0, index=0)
    yield stepped(last, position=U64_MAX, index=U64_MAX, surface=U64_MAX, group=U64_MAX, line=U64_MAX)


def random_steps():
    """Walks of any numbers; walks on their way, as they are and with a number changed; over elements of other cubes."""
    rng = random.Random(20240608)
    small = (0, 1, 2, 3, 15, 16, 17, 31, 32, 33, 64, 100)
    for i in range(40):
        yield lent(rng.choice((0, 3, 40, 500, 2000)), i % 3)
        for _ in range(6):
            yield stepped(Walk(*(rng.choice((*small, rng.randrange(1000), U64_MAX - rng.choice(small)))
                                 for _ in Walk._fields)))
            walk = first_walk(random_layout(rng))
            for _ in range(rng.randrange(15)):
                walk = step(walk, [])[2]
            yield stepped(walk)
            yield stepped(walk, **{rng.choice(Walk._fields): rng.choice((*small, U64_MAX))})


# --- the list ---

GROUPS = (borders, ones, large, lengths, faults, nan_faults, limits, ranges, fp16_ranges, random_walks, whole_scans,
          no_atoms, precisions, missing, sums, random_steps)


def all_cases():
    """Every case of a walk."""
    return [t for group in GROUPS for t in group()]
