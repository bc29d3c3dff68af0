"""The test cases of the two-table lookup: hand-chosen corners and seeded random settings.

Renders no rule of its own; the cases stand at the limits named in the scope
paper's "Two tables" and "Refusal numbers". Each field of a line is described
in README.md. A case is a set of lines that set a part of the lookup each, and
runs after them; a line that would set a part again as it is falls away.
"""

import random
from collections import namedtuple
from itertools import combinations, product

from cases import OWN_NUMBERS, case_type
from cube import U32_MAX
from lut import (EXPONENTIAL, LINEAR, S32_MAX, S32_MIN, X_LAST, X_NUMBERS, Y_LAST, Y_SELECTS,
                 LutSettings, Slope, XSettings, YSettings, linear_end, times_power)
from quantize import saturate

XCase = case_type("XCase", "mode number start end below_scale below_shift above_scale above_shift")
YCase = case_type("YCase", "select start end below_scale below_shift above_scale above_shift")
PriorityCase = case_type("PriorityCase", "priority overflow underflow x_only y_only below above both")
TableCase = case_type("TableCase", "")
RunCase = case_type("RunCase", " ".join(f"sample{k}" for k in range(OWN_NUMBERS)))

X_SETTINGS, Y_SETTINGS, PRIORITIES, X_TABLE, Y_TABLE, RUN = range(11, 17)

SAMPLES_MAX = 8192
ENTRIES_MAX = 512
S16_MIN, S16_MAX = -32768, 32767
SCALES = (S16_MIN, -1, 0, 1, 3, S16_MAX)
FLAT = Slope(0, 0)
BITS = list(product((0, 1), repeat=3))
NO_COUNTS = (0,) * 5

Setup = namedtuple("Setup", "settings counters x_table y_table")


# --- building lines ---

def held(value):
    """The nearest 32-bit signed number."""
    return saturate(value, S32_MIN, S32_MAX)


def slope_numbers(*slopes):
    """Scales and shifts, moved to 0 and up."""
    return [number for slope in slopes for number in (slope.scale - S16_MIN, slope.shift - S32_MIN)]


def setup_lines(setup):
    """The five lines that set a lookup."""
    (x, y, *bits), counters, *tables = setup
    yield XCase(X_SETTINGS, x.mode, *[n - S32_MIN for n in (x.number, x.start, x.end)],
                *slope_numbers(x.below, x.above))
    yield YCase(Y_SETTINGS, *[n - S32_MIN for n in (y.select, y.start, y.end)],
                *slope_numbers(y.below, y.above))
    yield PriorityCase(PRIORITIES, *bits, *counters)
    yield from (t._replace(op=op) for op, t in zip((X_TABLE, Y_TABLE), tables))


def table(count, step, base=32768, span=1, **changes):
    """The entries base, base + step and so on, 32768 for 0, each a random number below span higher."""
    t = TableCase(X_TABLE, n=count, base=base, span=span, step=step % 65536, fault_index=count)
    return t._replace(**changes)


def shape(step, base=32768, span=1):
    """Both tables, by one rule."""
    return table(X_LAST + 1, step, base, span), table(Y_LAST + 1, step, base, span)


def run(chosen, drawn=0, window=(S32_MIN, S32_MAX), **changes):
    """A run of chosen samples (thirteen at most), then of so many drawn from a window."""
    chosen = [held(sample) - S32_MIN for sample in chosen][:OWN_NUMBERS]
    low, high = map(held, window) if drawn else (S32_MIN, S32_MIN)
    count = len(chosen) + drawn
    t = RunCase(RUN, *chosen, n=count, m=count, base=low - S32_MIN, span=min(high - low + 1, U32_MAX),
                fault_index=len(chosen))
    return t._replace(**changes)


def tried(setup, *runs):
    """A lookup, and runs of it."""
    return [*setup_lines(setup), *runs]


def without_repeats(lines):
    """The lines that count: runs, counters that are not 0, and parts that differ from the last."""
    last = {}
    for t in lines:
        if t.op == RUN or last.get(t.op) != t or (t.op == PRIORITIES and any(t[4:9])):
            yield t
        last[t.op] = t


# --- settings ---

def linear_x(select, start, below=FLAT, above=FLAT):
    """A linear X; its end is right where there is one."""
    return XSettings(LINEAR, select, start, held(linear_end(start, X_LAST, select)), below, above)


def exponential_x(offset, start, below=FLAT, above=FLAT):
    """An exponential X."""
    return XSettings(EXPONENTIAL, offset, start, S32_MAX, below, above)


def linear_y(select, start, below=FLAT, above=FLAT):
    """A Y; its end is right where there is one."""
    return YSettings(select, start, held(linear_end(start, Y_LAST, select)), below, above)


def lookup(x, y, tables, bits=(0, 0, 0)):
    """A lookup without counts."""
    return Setup(LutSettings(x, y, *bits), NO_COUNTS, *tables)


RAMPS = shape(10)
NOISE = shape(0, 0, 65536)
EXTREMES = shape(0, 65535, 2)
SHAPES = (RAMPS, NOISE, EXTREMES, shape(-257), shape(1, 65535 - 9), shape(-1, 9), shape(32769, 65535),
          shape(-32767, 65535), shape(0, 0, 3), shape(0, 65533, 3), shape(513, 20, 400))

STEPS = Slope(3, 1)
PLAIN_Y = linear_y(1, 100, Slope(-5, 2), Slope(7, -1))
PLAIN = lookup(linear_x(2, 0, STEPS, STEPS), PLAIN_Y, RAMPS)
PLAIN_EXPONENTIAL = lookup(exponential_x(0, 0, STEPS, STEPS), PLAIN_Y, RAMPS)
PLAIN_RUN = run((6, 258, -1, 256, 100, 612, 613))


def with_x(setup, **changes):
    """The lookup with X changed."""
    q = setup.settings
    return setup._replace(settings=q._replace(x=q.x._replace(**changes)))


def with_y(setup, **changes):
    """The lookup with Y changed."""
    q = setup.settings
    return setup._replace(settings=q._replace(y=q.y._replace(**changes)))


def with_bits(setup, bits):
    """The lookup with the three priority bits."""
    return setup._replace(settings=LutSettings(setup.settings.x, setup.settings.y, *bits))


# --- samples ---

def borders(t):
    """The samples on both sides of a table's start and end."""
    return [at + more for at in (t.start, t.end) for more in (-1, 0, 1)]


def step_borders(rng, t, last, select, count):
    """Samples about the borders between entries of a linear table."""
    return [t.start + times_power(rng.randint(0, last), select) + rng.choice((-1, 0, 1))
            for _ in range(count)]


def around(q):
    """A window over both tables, a quarter of the lesser longer at each end."""
    tables = q.x, q.y
    more = min(t.end - t.start for t in tables) // 4 + 3
    return min(t.start for t in tables) - more, max(t.end for t in tables) + more


def powers(start, exponents):
    """Samples a power of two from a start, one less and one more."""
    return [start + 2 ** k + more for k in exponents for more in (-1, 0, 1)]


# --- corners: settings that are taken ---

def untouched():
    """A lookup of zeros, set part by part until it is taken."""
    yield run(())
    yield run((0, 5))
    x, y, bits, x_table, y_table = setup_lines(PLAIN)
    for line in (x_table, bits, y_table, x, y):
        yield line
        yield run((0, 5, -5))


def starred():
    """The paper's cases, with Y far away and with Y about the same samples."""
    away = lookup(PLAIN.settings.x, linear_y(0, 1000), RAMPS)
    seven = table(X_LAST + 1, 10, fault_index=2, fault_value=32775)
    samples = (6, 258, -1, 255, 256, 257, 0, 1000, 1256, 1257, S32_MIN, S32_MAX)
    for setup in (away, PLAIN):
        for bits in BITS:
            yield from tried(with_bits(setup, bits), run(samples))
        yield from tried(setup._replace(x_table=seven), run((4, 5, 6, 7, 8, 9)))
        for offset in (0, 3):
            x = exponential_x(offset, 0, STEPS, STEPS)
            yield from tried(with_bits(with_x(setup, **x._asdict()), (0, 0, 0)),
                             run((6, 0, 7, 8, 9, 1, 2, 3, 4, 5, -1, S32_MIN, S32_MAX)))


def kinds():
    """X and Y apart, touching, overlapping, one in the other and alike, with all priority bits."""
    falls, rises = Slope(-7, 1), Slope(5, -2)
    starts = ((0, 2000), (0, 256), (0, 200), (0, 0), (-100, 0), (-300, 0), (-2000, 0), (0, 257),
              (-257, 0))
    for (x_start, y_start), select in product(starts, (0, 2)):
        x, y = linear_x(2, x_start, falls, rises), linear_y(select, y_start, rises, falls)
        for bits in BITS[::select + 1]:
            setup = lookup(x, y, SHAPES[3], bits)
            yield from tried(setup, run(borders(x) + borders(y), 12, around(setup.settings)))
    for offset, start, y_start in product((-5, 0, 4, 9), (-40, 0), (-300, -20, 40, S32_MAX - 256)):
        x, y = exponential_x(offset, start, falls, rises), linear_y(0, y_start, rises, falls)
        for bits in BITS[::3]:
            yield from tried(lookup(x, y, NOISE, bits),
                             run(borders(x)[:3] + borders(y) + [S32_MAX], 20, (-400, 900)))


def starts_for(size):
    """Starts of a linear table of a size: the least, the greatest, and about 0."""
    starts = (S32_MIN, S32_MAX - size, -size // 2 - 3, 0)
    return [start for start in starts if S32_MIN <= start <= S32_MAX - size]


def selects():
    """Every select of X and of Y, at several starts, over tables of several shapes."""
    rng = random.Random(101)
    y = linear_y(18, -2 ** 26)
    for select in X_NUMBERS[LINEAR]:
        for start in starts_for(linear_end(0, X_LAST, select)):
            x = linear_x(select, start, Slope(1, 0), Slope(-1, 3))
            chosen = borders(x) + step_borders(rng, x, X_LAST, select, 6)
            yield from tried(lookup(x, y, (SHAPES[select % 4][0], NOISE[1])),
                             run(chosen, 20, (x.start, x.end)))
    x = linear_x(20, -2 ** 26)
    for select in Y_SELECTS:
        for start in starts_for(linear_end(0, Y_LAST, select)):
            y = linear_y(select, start, Slope(-1, 0), Slope(1, 2))
            chosen = borders(y) + step_borders(rng, y, Y_LAST, select, 6)
            yield from tried(lookup(x, y, (NOISE[0], SHAPES[select % 5 + 1][1]), (1, 1, 1)),
                             run(chosen, 20, (y.start, y.end)))


def exponentials():
    """Every offset, at and beside powers of two."""
    rng = random.Random(102)
    for offset in X_NUMBERS[EXPONENTIAL]:
        y = linear_y(rng.choice((-8, 0, 9)), rng.choice((-9000, 0, 40)))
        for start in (S32_MIN, rng.choice((0, -1, 1000)), rng.randint(-2 ** 30, 2 ** 30)):
            x = exponential_x(offset, start, Slope(rng.choice(SCALES), rng.randint(-2, 9)), STEPS)
            setup = lookup(x, y, SHAPES[offset % 3], (0, 0, offset // 2 % 2))
            near = [k for k in (offset - 1, offset, offset + 1) if 0 <= k < 32]
            yield from tried(setup, run([start - 1, start, start + 1, S32_MAX] + powers(start, near), 8))
            yield run(powers(start, rng.sample(range(32), 2)) + [S32_MIN], 8, (start, start + 2 ** 16))
    for room, offset in product((0, 1, 2, 8), (-32, -1, 0, 1, 3, 31)):
        yield from tried(lookup(exponential_x(offset, S32_MAX - room, STEPS), PLAIN_Y, RAMPS),
                         run([S32_MAX - k for k in range(10)] + [S32_MIN, 0, 300]))


def slopes():
    """Extreme scales and shifts on each side of each table, near and so far that the sum saturates."""
    extreme = [Slope(*pair) for pair in product((S16_MIN, -1, 1, S16_MAX), (-16, -15, -1, 0, 1, 14, 15))]
    for i, slope in enumerate(extreme):
        others = [extreme[(i * 5 + k) % len(extreme)] for k in (3, 11, 16)]
        x = linear_x(0, (S32_MIN, 1000, S32_MAX - 64)[i % 3], slope, others[0])
        y = linear_y(-2, (100000, S32_MIN + 5, S32_MAX - 64)[i // 2 % 3], others[1], others[2])
        near = [at for t in (x, y) for at in (t.start - 1, t.start - 3, t.start - 65536,
                                              t.end + 1, t.end + 5, t.end + 65537)]
        for bits in ((0, 0, 0), (1, 1, 1)):
            yield from tried(lookup(x, y, SHAPES[i % 3], bits), run(near), run((S32_MIN, S32_MAX), 12))


def saturated():
    """Sums at the ends of 32 bits, and a little less and more."""
    for scale, shift, entry in product((1, -1), (0, 1, -1), (0, 7, -7)):
        slope = Slope(scale, shift)
        x, y = linear_x(0, 1000 + S32_MIN, slope, slope), linear_y(0, S32_MAX - 1256, slope, slope)
        distances = [times_power((end - entry) * scale, shift) for end in (S32_MIN, S32_MAX)]
        for bits, origin in (((0, 0, 0), x.end), ((1, 1, 1), y.start)):
            yield from tried(lookup(x, y, shape(0, 32768 + entry), bits),
                             run([origin + d + more for d in distances for more in range(-2, 4)]))


def greatest_products():
    """The greatest distances, scales and negative shifts, below and above."""
    samples = [end + more * k for k in range(4) for end, more in ((S32_MIN, 1), (S32_MAX, -1))]
    for scale, bits in product((S16_MIN, S16_MAX), ((0, 0, 0), (1, 1, 1))):
        slope = Slope(scale, -16)
        for x, y in ((exponential_x(0, S32_MAX, slope), linear_y(-8, S32_MAX - 1, slope)),
                     (linear_x(-6, S32_MAX - 1, slope), linear_y(-8, S32_MAX - 1, slope)),
                     (linear_x(-6, S32_MIN, FLAT, slope), linear_y(-8, S32_MIN, FLAT, slope))):
            yield from tried(lookup(x, y, EXTREMES, bits), run(samples))


def steep():
    """Tables that go from 32767 to -32768 and back in one step, by linear and exponential ways."""
    rng = random.Random(103)
    for select, tables in product((0, 1, 5, 16, 23), SHAPES[2:8]):
        x, y = linear_x(select + 2, -2 ** 30, STEPS, FLAT), linear_y(select, -2 ** 30, FLAT, STEPS)
        if rng.random() < 0.3:
            x = exponential_x(rng.randint(-32, 0), -2 ** 30)
        for bits in ((0, 0, 0), (1, 1, 1)):
            chosen = step_borders(rng, y, Y_LAST, select, 6)
            yield from tried(lookup(x, y, tables, bits), run(chosen, 40, (y.start, y.end)))


def long_runs():
    """Runs of thousands of samples."""
    setup = lookup(PLAIN.settings.x, PLAIN_Y, NOISE, (1, 0, 1))
    yield from tried(setup, run((), SAMPLES_MAX, around(setup.settings)))
    x, y = exponential_x(-3, -10000, STEPS), linear_y(9, -40000, STEPS, STEPS)
    yield from tried(lookup(x, y, EXTREMES, (0, 1, 0)), run((S32_MIN, S32_MAX), 5000, (-70000, 140000)))


def wide_numbers():
    """Numbers of a line past what they are counted modulo, and more chosen samples than samples."""
    x, y, bits, x_table, y_table = setup_lines(PLAIN)
    yield x._replace(below_scale=U32_MAX, above_scale=65536 + 32771)
    yield y._replace(below_scale=65536, above_scale=U32_MAX - 65535)
    yield bits._replace(priority=U32_MAX, underflow=65536)
    yield x_table._replace(step=U32_MAX, base=U32_MAX, span=U32_MAX)
    yield y_table._replace(step=U32_MAX - 99, base=65536, span=70000)
    yield run(borders(PLAIN_Y), 50, (-200, 900))
    yield run((-1, 0), 40)._replace(base=U32_MAX, span=U32_MAX)
    yield run((), 40)._replace(base=2147483648 + 600, span=2147483648 + 77)
    yield run(range(13))._replace(n=7, m=7)


# --- corners: refusals ---

def lengths():
    """Tables of other lengths: 11."""
    for count in (0, 1, 32, 63, 64, 65, 66, 129, 257, 512):
        yield from tried(PLAIN._replace(x_table=table(count, 10)), PLAIN_RUN)
    for count in (0, 1, 65, 128, 255, 256, 257, 258, 512):
        yield from tried(PLAIN._replace(y_table=table(count, 10)), PLAIN_RUN)
    yield from tried(PLAIN._replace(x_table=table(257, 1), y_table=table(65, 1)), PLAIN_RUN)
    yield from tried(PLAIN._replace(x_table=table(64, 1), y_table=table(258, 1)), run(()))


def x_numbers():
    """X selects and offsets at their limits, each also as a number of the other mode: 12."""
    for number in (S32_MIN, -65542, -257, -33, -32, -31, -8, -7, -6, -5, 0, 25, 26, 27, 31, 32, 33, 256,
                   S32_MAX):
        size = linear_end(0, X_LAST, number) if abs(number) < 40 else 0
        for start in (S32_MIN, -1, 0):
            x = XSettings(LINEAR, number, start, held(start + size), STEPS, STEPS)
            yield from tried(lookup(x, PLAIN_Y, RAMPS), run(borders(x)))
        for mode in (EXPONENTIAL, U32_MAX):
            yield from tried(with_x(PLAIN_EXPONENTIAL, mode=mode, number=number),
                             run((0, 1, 2, 3, S32_MAX, -1)))


def x_ends():
    """X ends that are off by one or more, or that wrap: 13."""
    for select, start in product((-6, -1, 0, 2, 25), (S32_MIN, -33, 0, S32_MAX - 64)):
        end = linear_end(start, X_LAST, select)
        wrapped = (end - S32_MIN) % 4294967296 + S32_MIN
        for other in sorted({wrapped, held(end), held(end - 1), held(end + 1), start, S32_MAX}):
            yield from tried(with_x(PLAIN, number=select, start=start, end=other),
                             run((start, other, 0)))
    for start, end in ((S32_MAX, S32_MAX), (S32_MAX, S32_MIN + 63), (S32_MAX, S32_MIN),
                       (S32_MAX - 63, S32_MAX), (S32_MAX - 63, S32_MIN), (S32_MAX - 64, S32_MAX)):
        yield from tried(with_x(PLAIN, number=0, start=start, end=end), run((start, end, 0)))
    for offset, end in product((-32, 0, 31), (S32_MAX, S32_MAX - 1, 0, S32_MIN, -1, 64)):
        yield from tried(with_x(PLAIN_EXPONENTIAL, number=offset, end=end), run((0, 1, end)))


def y_selects():
    """Y selects at their limits: 14."""
    for select in (S32_MIN, -257, -33, -32, -10, -9, -8, -7, 0, 22, 23, 24, 25, 26, 31, 32, 256,
                   S32_MAX):
        size = linear_end(0, Y_LAST, select) if abs(select) < 40 else 0
        for start in (S32_MIN, -1, 0):
            y = YSettings(select, start, held(start + size), STEPS, STEPS)
            yield from tried(lookup(PLAIN.settings.x, y, RAMPS), run(borders(y)))


def y_ends():
    """Y ends that are off by one or more, or that wrap: 15."""
    for select, start in product((-8, -1, 0, 3, 23), (S32_MIN, -33, 0, S32_MAX - 256)):
        end = linear_end(start, Y_LAST, select)
        wrapped = (end - S32_MIN) % 4294967296 + S32_MIN
        for other in sorted({wrapped, held(end), held(end - 1), held(end + 1), start, S32_MAX}):
            yield from tried(with_y(PLAIN, select=select, start=start, end=other),
                             run((start, other, 0)))
    for start, end in ((S32_MAX, S32_MAX), (S32_MAX, S32_MIN + 255), (S32_MAX - 255, S32_MIN),
                       (S32_MAX - 255, S32_MAX), (S32_MAX - 256, S32_MAX)):
        yield from tried(with_y(PLAIN_EXPONENTIAL, select=0, start=start, end=end), run((start, end, 0)))


def shifts():
    """Shifts at their limits on each side of each table, in both modes: 16."""
    extreme = (S32_MIN, -65536, -32, -17, -16, -15, 15, 16, 17, 31, 32, 65536, S32_MAX)
    for setup, change, side in product((PLAIN, PLAIN_EXPONENTIAL), (with_x, with_y), ("below", "above")):
        for shift in extreme:
            yield from tried(change(setup, **{side: Slope(9, shift)}), PLAIN_RUN)


def outputs():
    """Outputs fewer or more than samples: 18."""
    pairs = ((0, 0), (0, 1), (1, 0), (1, 1), (5, 4), (5, 6), (13, 20), (40, 39), (40, 0), (0, 40),
             (40, 40))
    for setup, (n, m) in product((PLAIN, PLAIN_EXPONENTIAL), pairs):
        yield from tried(setup, run((1, 300, -3, 7, 100), 8)._replace(n=n, m=m))


def counts():
    """Counters whose sum with the samples reaches 4294967295, and passes it: 17."""
    for k in range(5):
        for full, n in product((U32_MAX, U32_MAX - 1, U32_MAX - 6), (0, 1, 6, 7)):
            counters = tuple(full if i == k else 0 for i in range(5))
            yield from tried(PLAIN._replace(counters=counters), PLAIN_RUN._replace(n=n, m=n))
        counters = tuple(U32_MAX if i == k else 1 if i == (k + 1) % 5 else 0 for i in range(5))
        for n in (0, 1):
            yield from tried(PLAIN._replace(counters=counters), PLAIN_RUN._replace(n=n, m=n))
    fifth = U32_MAX // 5
    for counters in ((fifth,) * 5, (fifth, fifth, fifth, fifth, fifth - 1), (U32_MAX,) * 5,
                     (2147483648, 2147483648, 0, 0, 0), (2147483648, 0, 2147483647, 0, 0),
                     (4294967290, 1, 1, 1, 0), (1, 2, 3, 4, 5)):
        for n in (0, 1, 2, 3):
            yield from tried(PLAIN._replace(counters=counters), PLAIN_RUN._replace(n=n, m=n))
    # runs one after another: each has the counters that the one before handed back
    for more in (13, 14, 26, 27):
        yield from tried(PLAIN._replace(counters=(0, U32_MAX - 26, 0, 0, 0)),
                         run((), more), run((), 13), run((), 13))


FAULTS = {
    11: lambda setup: setup._replace(x_table=table(64, 10)),
    12: lambda setup: with_x(setup, number=32),
    13: lambda setup: with_x(setup, end=setup.settings.x.end - 1),
    14: lambda setup: with_y(setup, select=24),
    15: lambda setup: with_y(setup, end=setup.settings.y.end + 1),
    16: lambda setup: with_x(setup, above=Slope(3, 16)),
    17: lambda setup: setup._replace(counters=(0, 0, U32_MAX, 0, 0)),
    18: lambda setup: setup,
}


def faulty(setup, codes):
    """The lookup with a fault for each code, and a run."""
    for code in codes:
        setup = FAULTS[code](setup)
    return tried(setup, PLAIN_RUN._replace(m=3) if 18 in codes else PLAIN_RUN)


def orders():
    """One fault, two of them, all from a code on, and all up to one."""
    codes = list(FAULTS)
    chosen = [*combinations(codes, 1), *combinations(codes, 2), *(codes[i:] for i in range(8)),
              *(codes[:i] for i in range(8))]
    for setup, faults in product((PLAIN, PLAIN_EXPONENTIAL), chosen):
        yield from faulty(setup, faults)
    yield from tried(PLAIN._replace(y_table=table(256, 0), counters=(U32_MAX,) * 5),
                     PLAIN_RUN._replace(m=0))
    for place in ({"below": Slope(1, -17)}, {"above": Slope(1, 16)}):
        yield from tried(with_y(PLAIN, end=0, **place), PLAIN_RUN)
        yield from tried(with_x(PLAIN, end=0, **place), PLAIN_RUN)


# --- random cases ---

def some_slope(rng):
    """A slope, often a gentle one."""
    if rng.random() < 0.5:
        return Slope(rng.randint(-40, 40), rng.randint(-2, 6))
    return Slope(rng.choice((*SCALES, rng.randint(S16_MIN, S16_MAX))), rng.randint(-16, 15))


def some_shape(rng):
    """Two tables of any shape."""
    pairs = [rng.choice(SHAPES), rng.choice(SHAPES)]
    if rng.random() < 0.4:
        pairs = [shape(rng.randint(-900, 900), rng.randrange(65536), rng.choice((1, 50, 5000)))] * 2
    return pairs[0][0], pairs[1][1]


def some_x(rng):
    """An X of either mode."""
    sides = some_slope(rng), some_slope(rng)
    if rng.random() < 0.4:
        start = rng.choice((0, rng.randint(-5000, 5000), rng.randint(S32_MIN, S32_MAX)))
        return exponential_x(rng.randint(-32, 31), start, *sides)
    select = rng.choice(X_NUMBERS[LINEAR])
    size = linear_end(0, X_LAST, select)
    start = rng.choice((held(-size), S32_MIN, S32_MAX - size, rng.randint(S32_MIN, S32_MAX - size)))
    return linear_x(select, start, *sides)


def some_y(rng, x):
    """A Y, mostly about where X is."""
    select = rng.choice(Y_SELECTS)
    if x.mode == LINEAR and rng.random() < 0.8:
        select = min(max(x.number + rng.randint(-5, 1), Y_SELECTS[0]), Y_SELECTS[-1])
    size = linear_end(0, Y_LAST, select)
    low, high = x.start - size, x.end if x.mode == LINEAR else x.start + 2 * size
    start = rng.choice((x.start, low, rng.randint(low, high), rng.randint(low, high),
                        rng.randint(S32_MIN, S32_MAX)))
    return linear_y(select, min(max(start, S32_MIN), S32_MAX - size), some_slope(rng), some_slope(rng))


def some_samples(rng, q):
    """Chosen samples about both tables' borders and steps."""
    samples = borders(q.x) + borders(q.y) + step_borders(rng, q.y, Y_LAST, q.y.select, 4)
    if q.x.mode == LINEAR:
        samples += step_borders(rng, q.x, X_LAST, q.x.number, 4)
    else:
        samples += powers(q.x.start, rng.sample(range(32), 3))
    return rng.sample(samples + [S32_MIN, S32_MAX], rng.randint(2, 8))


def some_window(rng, q):
    """A window over both tables, about one of them, or of all samples."""
    low, high = around(q)
    t = rng.choice((q.x, q.y))
    return rng.choice(((low, high), (low, high), (t.start - 40, t.start + 90), (t.start, t.end),
                       (t.end - 90, t.end + 40), (S32_MIN, S32_MAX)))


def random_cases():
    """Lookups that are taken, each with several runs and other priority bits."""
    rng = random.Random(20240611)
    for _ in range(200):
        x = some_x(rng)
        setup = lookup(x, some_y(rng, x), some_shape(rng))
        for _ in range(2):
            setup = with_bits(setup, rng.choice(BITS))
            q = setup.settings
            yield from tried(setup, run(some_samples(rng, q), rng.randint(1, 50), some_window(rng, q)),
                             run((), rng.randint(1, 60), some_window(rng, q)),
                             run((), rng.randint(40, 60), around(q)))


def random_faults():
    """Random lookups with one to three faults."""
    rng = random.Random(20240612)
    for _ in range(80):
        x = some_x(rng)
        setup = lookup(x, some_y(rng, x), RAMPS, rng.choice(BITS))
        if setup.settings.y.end == S32_MAX:
            continue
        yield from faulty(setup, rng.sample(list(FAULTS), rng.choice((1, 1, 2, 3))))


# --- the list ---

GROUPS = (untouched, starred, kinds, selects, exponentials, slopes, saturated, greatest_products, steep,
          long_runs, wide_numbers, lengths, x_numbers, x_ends, y_selects, y_ends, shifts, outputs, counts,
          orders, random_cases, random_faults)


def all_cases():
    """Every line of every lookup, one lookup after another."""
    return list(without_repeats(t for group in GROUPS for t in group()))
