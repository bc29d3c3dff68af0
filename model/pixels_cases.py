"""The test cases of the pixel calls: hand-chosen corners and seeded random settings.

Renders no rule of its own; the cases stand at the limits named in the scope
paper's "Pixels" and "Refusal numbers". Each field of a case is described in
README.md.
"""

import random
from itertools import combinations, product

from cases import case_type, with_changes
from cube import ATOM, U32_MAX
from pixels import FORMATS, PixelSetting, line_bytes

PixelCase = case_type("PixelCase", "format width height channels precision offset start line x y")

SETTING, POSITION = 8, 9
LINE_MAX = 4294967264


# --- building cases ---

def setting(code, width, height, offset=0, start=0, line_more=0):
    """A setting with the table's channels and precision and the least line, lengthened by atoms."""
    f = FORMATS[code]
    p = PixelSetting(code, width, height, f.channels, f.precision, offset, start, 0)
    return p._replace(line=(line_bytes(p) + ATOM - 1) // ATOM * ATOM + ATOM * line_more)


def checked(p, **changes):
    """A check of a setting, then changed."""
    return PixelCase(SETTING, *p)._replace(**changes)


def located(p, x, y, **changes):
    """A position, then changed."""
    return PixelCase(POSITION, *p, x, y)._replace(**changes)


EXAMPLE = setting(12, 10, 6, 5, 64, 1)


# --- the table ---

def offsets():
    """Every format with its least and largest X offset, and one past it."""
    for code, f in enumerate(FORMATS):
        for offset in (0, f.offset_max, f.offset_max + 1):
            yield checked(setting(code, 7 + code, 3, offset, 32 * code))
        yield located(setting(code, 9, 5, f.offset_max, 96), 8, 4)
    yield checked(EXAMPLE, offset=U32_MAX)
    yield located(EXAMPLE, 0, 0, offset=4294967291)


def wrong_codes():
    """Format codes past the table."""
    for code in (17, 256, U32_MAX):
        yield checked(EXAMPLE, format=code)
        yield located(EXAMPLE, 0, 0, format=code)


def unlike_table():
    """Channels or precision of another format, or of none."""
    for code, f in enumerate(FORMATS):
        yield checked(setting(code, 6, 4), precision=(f.precision + 1 + code % 2) % 3)
    for code in (0, 5, 6, 8, 16):
        yield checked(setting(code, 6, 4), channels=5 - FORMATS[code].channels)
    for changes in ({"channels": 0}, {"channels": 3}, {"channels": 8193}, {"channels": U32_MAX},
                    {"precision": 3}, {"precision": U32_MAX}, {"channels": 1, "precision": 1}):
        yield checked(EXAMPLE, **changes)
    yield located(EXAMPLE, 0, 0, channels=1)
    yield located(EXAMPLE, 0, 0, precision=3)


# --- sizes, start and line ---

def sizes():
    """Width and height at and past their limits."""
    for name, size in product(("width", "height"), (0, 1, 8192, 8193, U32_MAX)):
        yield checked(EXAMPLE._replace(line=65536), **{name: size})
    yield checked(EXAMPLE, width=0, height=0)
    yield located(EXAMPLE, 0, 0, width=0)
    yield located(EXAMPLE, 0, 0, height=8193)
    for code in (0, 5, 11, 16):
        p = setting(code, 8192, 8192, FORMATS[code].offset_max)
        yield checked(p)
        yield checked(p, line=p.line - ATOM)


def strides():
    """Starts and lines on and off the multiples of 32; lines exactly enough and 32 short."""
    for start in (1, 16, 31, 33, LINE_MAX, U32_MAX):
        yield checked(EXAMPLE, start=start)
    for line in (0, 1, 32, 60, 63, 64, 65, 80, LINE_MAX, U32_MAX):
        yield checked(EXAMPLE, line=line)
    for code, f in ((0, FORMATS[0]), (1, FORMATS[1]), (6, FORMATS[6]), (14, FORMATS[14])):
        atom_pixels = ATOM // f.bytes
        for width in (3 * atom_pixels - 1, 3 * atom_pixels):
            # offset 1: the first ends on a multiple of 32, the second one pixel past it
            p = setting(code, width, 2, 1)
            yield checked(p)
            yield checked(p, line=p.line - ATOM)
    yield located(EXAMPLE, 0, 0, start=48)
    yield located(EXAMPLE, 0, 0, line=32)


# --- positions ---

def corners():
    """Positions at the corners of an image and outside it."""
    for p in (EXAMPLE, setting(0, 33, 2), setting(8, 1, 2, 2, 32)):
        for x, y in ((0, 0), (p.width - 1, p.height - 1), (p.width, 0), (0, p.height)):
            yield located(p, x, y)
    for x, y in ((9, 0), (0, 5), (4, 3), (3, 4), (5, 9), (10, 6), (9, 6), (10, 5), (U32_MAX, 0),
                 (0, U32_MAX), (U32_MAX, U32_MAX), (4294967291, 1), (1073741824, 0)):
        yield located(EXAMPLE, x, y)


def past_32_bits():
    """Positions that pass 32 bits."""
    for code in (0, 3, 7, 16):
        p = setting(code, 8192, 8192, FORMATS[code].offset_max, LINE_MAX)
        yield located(p, 8191, 8191)
        yield located(p._replace(line=LINE_MAX), 8191, 8191)
    for start, line, y in ((LINE_MAX, 96, 0), (LINE_MAX - 32, 96, 0), (0, LINE_MAX, 1), (32, LINE_MAX, 1),
                           (0, 2147483648, 2), (LINE_MAX, LINE_MAX, 5)):
        yield located(EXAMPLE._replace(start=start, line=line), 2, y)


# --- several faults, and random cases ---

FAULTS = {19: {"format": 17}, 1: {"width": 8193}, 20: {"channels": 3}, 21: {"offset": 8},
          22: {"start": 33}, 23: {"y": 6}}


def with_faults(op, codes):
    """A call on the example that has the fault of each code."""
    changes = {name: value for code in codes for name, value in FAULTS[code].items()}
    return PixelCase(op, *EXAMPLE)._replace(**changes)


def many_faults():
    """Two faults at once, and every later fault at once: the first in the order decides."""
    for pair in combinations(FAULTS, 2):
        yield with_faults(POSITION, pair)
    order = tuple(FAULTS)
    for i in range(4):
        yield with_faults(SETTING, order[i:-1])
    yield with_faults(POSITION, order)


def random_located(rng):
    """A position in a setting of any size."""
    code = rng.randrange(len(FORMATS))
    p = setting(code, rng.randint(1, 8192), rng.randint(1, 8192),
                rng.randint(0, FORMATS[code].offset_max), ATOM * rng.choice((0, rng.randrange(1 << 27))),
                rng.choice((0, 1, rng.randint(1, 100000))))
    return located(p, rng.randrange(p.width), rng.randrange(p.height))


def random_cases():
    """Accepted random positions, and some with numbers changed."""
    rng = random.Random(20240609)
    for _ in range(14):
        yield random_located(rng)
    for _ in range(8):
        yield with_changes(rng, random_located(rng), [*PixelSetting._fields, "x", "y"])


# --- the list ---

GROUPS = (offsets, wrong_codes, unlike_table, sizes, strides, corners, past_32_bits, many_faults,
          random_cases)


def all_cases():
    """Every case of a pixel call."""
    return [t for group in GROUPS for t in group()]
