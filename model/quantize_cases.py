"""The test cases of conversion: hand-chosen corners and seeded random numbers.

Renders no rule of its own; the cases stand at the limits named in the scope
paper's "Conversion" and "Refusal numbers", and at the halves of change request
K5. Each field of a case is described in README.md.
"""

import random
from itertools import product

from cases import case_type
from cube import U32_MAX
from quantize import LIMITS

QuantizeCase = case_type("QuantizeCase", "d offset scale shift precision")

QUANTIZE = 10
D_MIN, D_MAX = -2147483648, 2147483647
S16_MIN, S16_MAX = -32768, 32767


def quantized(d, offset, scale, shift, precision):
    """A conversion of d, its signed numbers moved to 0 and up."""
    return QuantizeCase(QUANTIZE, d - D_MIN, offset - S16_MIN, scale - S16_MIN, shift, precision)


# --- corners ---

def starred():
    """The cases of the paper and of K5, in both precisions, and neighbours."""
    for precision in LIMITS:
        yield quantized(100, 128, 3, 2, precision)
        yield quantized(101, 128, 3, 2, precision)
        yield quantized(255, 0, 1, 0, precision)
        yield quantized(156, 128, 3, 2, precision)
        yield quantized(100, 128, -3, 2, precision)
        for d in range(124, 133):
            yield quantized(d, 128, 1, 2, precision)
        for d in range(252, 258):
            yield quantized(d, 0, 1, 1, precision)
            yield quantized(-d, 0, 1, 1, precision)


def extremes():
    """The ends of d, offset, scale and shift."""
    for numbers in product((D_MIN, D_MAX), (S16_MIN, S16_MAX), (S16_MIN, S16_MAX), (0, 31), LIMITS):
        yield quantized(*numbers)
    for d, offset in product((D_MIN, D_MAX), (S16_MIN, S16_MAX)):
        yield quantized(d, offset, 1, 16, 1)
        yield quantized(d, offset, -1, 24, 0)
        yield quantized(d, offset, 0, 0, 1)


def limits():
    """Whole values just inside and outside the limits of each precision."""
    for precision, (least, most) in LIMITS.items():
        for value in (least - 1, least, least + 1, most - 1, most, most + 1):
            yield quantized(value, 0, 1, 0, precision)
            yield quantized(-value + 7, 7, -1, 0, precision)
            yield quantized(value * 32, 0, 1, 5, precision)


def onto_limits():
    """Values that round onto a limit and are not held, and the next ones, from half a step past it on, that are."""
    for (precision, (least, most)), shift in product(LIMITS.items(), (1, 2, 5, 15)):
        for past, inside in ((2 * most + 1, -1), (2 * least - 1, 1)):
            half = past * 2 ** (shift - 1)
            for d in (half - 1, half, half + 1, half + inside * 2 ** shift):
                yield quantized(d, 0, 1, shift, precision)
                yield quantized(-d - 9, -9, -1, shift, precision)
    # 127.5, -128.5 and 32767.5 with shift 31
    for d, (step, scale, precision) in product((-1, 0, 1), ((2 ** 30, 255, 0), (2 ** 30, -257, 0),
                                                            (2 ** 15 - 2 ** 31, S16_MIN, 1))):
        yield quantized(step + d, 0, scale, 31, precision)


def halves():
    """Halves of both signs, and the numbers just beside them; a shift of 0 has whole values alone."""
    for shift, precision, scale in product((0, 1, 2, 31), LIMITS, (1, -1, 3, -3)):
        half = 2 ** shift // 2
        for d in (half - 1, half, half + 1):
            yield quantized(d, 0, scale, shift, precision)
            yield quantized(-d, 0, scale, shift, precision)
    for d, shift in ((-2, 1), (-3, 1), (-4, 2), (-5, 2), (-6, 2), (-7, 2), (-1, 31), (-2 ** 30 - 7, 31), (3, 1)):
        yield quantized(d, 0, 1, shift, 0)
        yield quantized(-d, 0, -1, shift, 1)
    for d, scale in product((-3, 2), (3, -3, 5, -5)):
        yield quantized(d, -1, scale, 2, 1)
    for offset in (123, 124, 125, 127, 128, 129, 131, 132, 133):
        yield quantized(128, offset, 1, 3, 0)


def shifts():
    """Shifts around their limits, for values that stay apart."""
    for shift in (0, 1, 2, 15, 30, 31, 32, 33, 63, 64, 256, U32_MAX):
        yield quantized(123456789, -11, 29, shift, 1)
        yield quantized(-123456789, 11, 29, shift, 0)


def precisions():
    """Precision codes that are refused, before the shift."""
    for precision, shift in product((2, 3, 256, U32_MAX), (0, 31, 32, U32_MAX)):
        yield quantized(100, 128, 3, shift, precision)


def wide_numbers():
    """Offset and scale fields past 16 bits count modulo 65536."""
    yield quantized(100, 128, 3, 2, 0)._replace(offset=U32_MAX)
    yield quantized(100, 128, 3, 2, 1)._replace(scale=65536)


# --- random cases ---

def aimed(rng):
    """A conversion whose value lies about in a range twice as wide as its precision's."""
    precision = rng.randrange(2)
    offset = rng.randint(S16_MIN, S16_MAX)
    scale = rng.choice((rng.randint(1, 9), rng.randint(-9, -1), rng.randint(1, S16_MAX),
                        rng.randint(S16_MIN, -1)))
    shift = rng.randrange(32)
    d = rng.randint(*LIMITS[precision]) * 2 * 2 ** shift // scale + offset + rng.randint(-3, 3)
    return quantized(min(max(d, D_MIN), D_MAX), offset, scale, shift, precision)


def random_cases():
    """Conversions aimed at the range, and of any numbers."""
    rng = random.Random(20240610)
    for _ in range(40):
        yield aimed(rng)
    for _ in range(10):
        yield quantized(rng.randint(D_MIN, D_MAX), rng.randint(S16_MIN, S16_MAX),
                        rng.randint(S16_MIN, S16_MAX), rng.randint(16, 31), rng.randrange(2))


# --- the list ---

GROUPS = (starred, extremes, limits, onto_limits, halves, shifts, precisions, wide_numbers, random_cases)


def all_cases():
    """Every case of a conversion."""
    return [t for group in GROUPS for t in group()]
