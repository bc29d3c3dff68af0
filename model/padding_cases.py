"""The test cases of mending: parts of files cut anywhere, the borders of every check, whole files in parts.

Renders no rule of its own; the cases stand at the limits named in change request
K8 and in open points 20 and 24. Each field of a case is described in README.md: of a
part the frame, its first position, the file's length, how many places the report
has for positions and for old bytes, and what these hold before; of a file the frame
and the length of a part. Their bytes are drawn, those of gaps and elements too.
"""

import random
from itertools import combinations, product

from cases import accepted, case_type, nearby
from cube import ATOM, U32_MAX, CubeLayout, extent_bytes
from cube_cases import CHANNELS, EXAMPLE, FP16_EXAMPLE, INT16_EXAMPLE, layout, random_layout
from walk_cases import U64_MAX

PartCase = case_type("PartCase", "width height channels precision line surface start first length places olds before")
FileCase = case_type("FileCase", "width height channels precision line surface start size")

# CLEAN is a file that was packed before it is mended
PART, FILE, CLEAN = range(41, 44)

PLACES_MAX = 65536
BUFFER_MAX = 2457600
ORDER = (1, 2, 3, 4, 5, 18)
# one surface and two, with gaps behind lines, surfaces and both, each precision
EXAMPLES = (EXAMPLE, INT16_EXAMPLE, FP16_EXAMPLE, layout(2, 3, 33, 0, 1, 1, 64), layout(3, 2, 9, 1, 2, 0, 32),
            layout(1, 4, 17, 2, 1, 3), layout(4, 1, 63, 0, 0, 5, 96))


# --- building cases ---

def end_of(q):
    """The byte behind the last atom, counted from the file's beginning."""
    return q.start + extent_bytes(q)


def part(q, first, m, /, more=0, **changes):
    """A part of m bytes of a file that ends `more` bytes behind the cube or the part; one place for each byte; then changed."""
    t = PartCase(PART, *q, first, max(end_of(q), first + m) + more, m, m, first % 251 + 1, m=m)
    return t._replace(**changes)


def file(q, size, more=0, **changes):
    """A file that ends `more` bytes behind the cube, in parts of so many bytes; then changed."""
    return FileCase(FILE, *q, size, m=end_of(q) + more)._replace(**changes)


# --- parts that are accepted ---

def cut_anywhere():
    """Parts that begin and end at each byte about an atom's borders, its padding, gaps, the start and the extent."""
    for q in EXAMPLES:
        last = end_of(q) - ATOM * q.width
        used = q.channels * (1 if q.precision == 0 else 2) % ATOM
        edges = sorted({0, q.start, last - ATOM, last, last + used, last + ATOM, end_of(q) - ATOM * q.width - q.line + used,
                        end_of(q), end_of(q) + 40})
        for edge, before, after in product(edges, (0, 1), (0, 1, 33)):
            first = max(0, edge - before)
            yield part(q, first, edge + after - first, more=after % 2)


def single_bytes():
    """A part of one byte at each position of a file, and behind it."""
    for q in (layout(1, 2, 29, 0, 1, 0, 32), layout(1, 1, 17, 2, 0, 1)):
        for first in range(end_of(q) + 3):
            yield part(q, first, 1)


def borders():
    """Whole files of each precision with channels on both sides of an atom's border; multiples of 32 bytes have no padding."""
    planes = ((1, 1), (3, 2), (2, 3), (5, 1), (1, 4), (4, 3))
    mores = ((0, 0, 0), (1, 0, 32), (0, 2, 0), (2, 1, 96), (0, 0, 64))
    for i, (precision, channels) in enumerate(product(range(3), CHANNELS + (30, 14, 48, 47, 128))):
        q = layout(*planes[i % 6], channels, precision, *mores[i % 5])
        yield part(q, 0, end_of(q), more=(0, 1, 45)[i % 3])
        yield file(q, (1, 7, 32, 100, PLACES_MAX)[i % 5], more=(0, 1, 45)[i % 3])


def far():
    """Parts far in files of over 2^32 bytes, in the padding of the last surface and before it; files of 2^64 - 1 bytes."""
    for q in (CubeLayout(1, 1, 8191, 1, 32, 4294967264, 4294967264), CubeLayout(3, 2, 8190, 2, 4096, 4294967264, 32),
              CubeLayout(8192, 8192, 33, 0, 262144, 2147483648, 4294967264)):
        for first in (end_of(q) - 96, end_of(q) - 33, end_of(q) - 1, q.start, q.start + 5, end_of(q), end_of(q) + 7):
            yield part(q, first, 130)
            yield part(q, first, 70, length=U64_MAX)
    for first in (1 << 60, U64_MAX - 40):
        yield part(EXAMPLE, first, 40, length=first + 40)
        yield part(EXAMPLE, first, 40, length=U64_MAX)


def places():
    """Reports of just enough places, one too few in either list or both, none, and more, which stay."""
    for q in EXAMPLES[:3]:
        for m, more, other in product((1, 31, end_of(q)), (0, 1, 40), (0, 1, 40)):
            yield part(q, end_of(q) - m, m, places=m + more, olds=m + other)
        for m in (1, 40, end_of(q)):
            for short, other in product((m - 1, 0), (m, m + 3, m - 1)):
                yield part(q, end_of(q) - m, m, places=short, olds=other)
                yield part(q, end_of(q) - m, m, places=other, olds=short)
        for count in (0, 5):
            yield part(q, 3, 0, places=count, olds=5 - count)


# --- parts that are refused ---

def lengths():
    """Files of just the cube's bytes, one more, one fewer; parts that end at the file's end, one byte before and behind it; empty ones."""
    for q in EXAMPLES[:4]:
        end = end_of(q)
        for length in (end - 1, end, end + 1, 0, U64_MAX):
            yield part(q, 0, end - 1, length=length)
            yield part(q, max(0, length - 1) if length <= end else 5, 1, length=length)
        for m, over in product((1, 33, 100), (-1, 0, 1, 2)):
            yield part(q, end + 9 - m + over, m, length=end + 9)
        for first in (end - 1, end, end + 1, 1 << 32, U64_MAX):
            yield part(q, first, 0, length=end)


def sums_past_64_bits():
    """First positions and parts whose sum is 2^64 - 1, 2^64 and more: 5, and no wrap."""
    for m in (0, 1, 2, 32, 480):
        for first in (U64_MAX - m - 1, U64_MAX - m, U64_MAX - m + 1, U64_MAX):
            if first <= U64_MAX:
                yield part(EXAMPLE, first, m, length=U64_MAX)
                yield part(EXAMPLE, first, m, length=480)


FAULTS = {1: {"channels": 8193}, 2: {"precision": 3}, 3: {"line": 64}, 4: {"start": 33}, 5: {"length": 479},
          18: {"olds": 479}}
# the same number for a part past the end, and the other list too short
OTHER_FAULTS = {**FAULTS, 1: {"width": 0}, 3: {"surface": 192}, 5: {"first": 121}, 18: {"places": 0}}
NO_FAULT = {"first": 0, "length": 600}


def faults():
    """Each fault alone, any two at once, and every later one at once: the first in the order decides."""
    for told in (FAULTS, OTHER_FAULTS):
        for codes in (*((code,) for code in ORDER), *combinations(ORDER, 2), *(ORDER[i:] for i in range(4))):
            yield part(EXAMPLE, 0, 480, **{**NO_FAULT, **{k: v for code in codes for k, v in told[code].items()}})
    # the frame too long for the file, and the part past its end, with and without a place too few
    for olds in (480, 479):
        yield part(EXAMPLE, 0, 480, first=1, length=479, olds=olds)
        yield part(EXAMPLE, 0, 480, first=U64_MAX, length=479, olds=olds)
    yield part(INT16_EXAMPLE, 0, 100, start=33, length=10, places=0)


def limits():
    """Sizes, precisions, strides and starts on and past their limits."""
    for name, value in (("width", 8193), ("height", 0), ("height", U32_MAX), ("channels", 0), ("channels", U32_MAX),
                        ("precision", 256), ("precision", U32_MAX), ("line", 0), ("line", 95), ("line", 96), ("line", 160),
                        ("line", U32_MAX), ("surface", 0), ("surface", 224), ("surface", 225), ("surface", 4294967264),
                        ("start", 1), ("start", 32), ("start", 4294967264), ("start", U32_MAX)):
        yield part(EXAMPLE, 0, 512, length=1024)._replace(**{name: value})
        yield file(EXAMPLE, 100, more=512)._replace(**{name: value})


# --- whole files ---

def clean():
    """Files that were packed: there is nothing to mend."""
    for i, q in enumerate((*EXAMPLES, *(layout(2, 3, channels, i % 3, 1, 1, 32) for i, channels in enumerate(CHANNELS)))):
        n = q.width * q.height * q.channels
        yield file(q, (1, 33, 1000)[i % 3], op=CLEAN, n=n, fault_index=n, **accepted(q.precision, i))


def large():
    """Files of up to 65,536 bytes, cut into parts of many sizes; parts of up to 65,536 bytes; a part that is longer is 18."""
    whole = layout(64, 32, 3, 0)
    for q, more in ((whole, 0), (layout(31, 33, 29, 0, 1, 0, 64), 11), (layout(16, 16, 40, 1, 1, 2), 1000),
                    (layout(1, 1, 8191, 2), 5), (layout(1024, 1, 33, 0), 0), (layout(1, 500, 17, 1, 1), 0)):
        for size in (1000, 4096, 65535, PLACES_MAX):
            yield file(q, size, more)
        yield part(q, 0, end_of(q), more, places=PLACES_MAX, olds=PLACES_MAX)
    yield part(whole, 1, 65535, places=65535, olds=65535)
    yield part(whole, 0, 65537, places=PLACES_MAX, olds=PLACES_MAX)
    yield part(layout(320, 240, 4, 0), 0, BUFFER_MAX, places=PLACES_MAX, olds=PLACES_MAX)


# --- drawn cases ---

def random_part(rng):
    """A part of a small cube's file."""
    q = random_layout(rng)
    first = rng.randrange(end_of(q) + 20)
    m = rng.choice((0, 1, 32, rng.randrange(200), rng.randrange(end_of(q) + 60)))
    t = part(q, first, m, more=rng.choice((0, 0, 1, 31, 5000)))
    return t._replace(places=m + rng.choice((0, 0, 1, 9)), olds=m + rng.choice((0, 0, 1, 9)))


def spoiled(rng, t):
    """A part with one to three of its numbers changed."""
    names = ("width", "height", "channels", "precision", "line", "surface", "start", "first", "length", "places", "olds")
    for name in rng.sample(names, rng.choice((1, 1, 2, 3))):
        most = PLACES_MAX if name in ("places", "olds") else U32_MAX
        t = t._replace(**{name: nearby(rng, getattr(t, name), most)})
    return t


def random_cases():
    """Accepted parts, some with numbers changed, and files."""
    rng = random.Random(20240609)
    for _ in range(130):
        yield random_part(rng)
    for _ in range(60):
        yield spoiled(rng, random_part(rng))
    for _ in range(60):
        yield file(random_layout(rng), rng.choice((1, 2, 31, 32, 33, rng.randint(1, 500))), more=rng.choice((0, 0, 1, 77)))


# --- the list ---

GROUPS = (cut_anywhere, single_bytes, borders, far, places, lengths, sums_past_64_bits, faults, limits, clean, large,
          random_cases)


def all_cases():
    """Every case of mending."""
    return [t for group in GROUPS for t in group()]
