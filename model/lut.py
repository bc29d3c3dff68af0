"""The two-table lookup: checks of its settings, one sample, a run of samples.

Renders the scope paper's section "Two tables" without the camera curve, and of
"Refusal numbers" the codes 11 to 16, 18, 17 in this order. Whole numbers have
no width; Python's // is the floor, also below zero.

A run answers (code, 0, outputs, counters), the last two as they are after it,
so a refused run hands back what it was given. The paper's holding to a range is
here to saturate; the scale and shift of one side of a table are its slope.
"""

from collections import namedtuple

from cube import U32_MAX
from quantize import saturate

Slope = namedtuple("Slope", "scale shift")
XSettings = namedtuple("XSettings", "mode number start end below above")
YSettings = namedtuple("YSettings", "select start end below above")
LutSettings = namedtuple("LutSettings", "x y priority overflow underflow")

LINEAR, EXPONENTIAL = range(2)
X, Y = range(2)
BELOW, HIT, ABOVE = range(3)
X_ONLY, Y_ONLY, UNDERFLOW, OVERFLOW, PRIORITY = range(5)

S32_MIN, S32_MAX = -2147483648, 2147483647
X_LAST, Y_LAST = 64, 256
X_NUMBERS = {LINEAR: range(-6, 26), EXPONENTIAL: range(-32, 32)}
Y_SELECTS = range(-8, 24)
SHIFTS = range(-16, 16)


def times_power(n, power):
    """n times a power of two, rounded down."""
    return n * 2 ** power if power >= 0 else n // 2 ** -power


# --- checks ---

def linear_end(start, last, select):
    """The end that a linear table must have: a whole number for every select that is taken."""
    return start + times_power(last, select)


def x_end(x):
    """The end that X must have."""
    return S32_MAX if x.mode == EXPONENTIAL else linear_end(x.start, X_LAST, x.number)


def x_code(x):
    """Checks 12, 13 of X."""
    if x.number not in X_NUMBERS[x.mode]:
        return 12
    return 0 if x.end == x_end(x) else 13


def y_code(y):
    """Checks 14, 15 of Y."""
    if y.select not in Y_SELECTS:
        return 14
    return 0 if y.end == linear_end(y.start, Y_LAST, y.select) else 15


def shift_code(q):
    """Check 16 of all four shifts, also of the upper one of an exponential X."""
    slopes = (q.x.below, q.x.above, q.y.below, q.y.above)
    return 0 if all(slope.shift in SHIFTS for slope in slopes) else 16


def run_code(q, x_entries, y_entries, samples, outputs, counters):
    """Checks 11 to 16, 18, 17 of a run."""
    if (len(x_entries), len(y_entries)) != (X_LAST + 1, Y_LAST + 1):
        return 11
    code = x_code(q.x) or y_code(q.y) or shift_code(q)
    if code:
        return code
    if len(outputs) != len(samples):
        return 18
    return 17 if sum(counters) + len(samples) > U32_MAX else 0


# --- one table ---

def linear_place(t, sample):
    """Where a sample lies by the start and end of a linear table."""
    return BELOW if sample < t.start else ABOVE if sample > t.end else HIT


def x_place(x, sample):
    """Where a sample lies in X; an exponential X never overflows."""
    if x.mode == LINEAR:
        return linear_place(x, sample)
    return HIT if sample - x.start >= 2 ** max(x.number, 0) else BELOW


def interpolated(entries, i, f, power):
    """The value f steps of 2^power on the way from entry i to the next."""
    return (entries[i] * 2 ** power + (entries[i + 1] - entries[i]) * f) // 2 ** power


def linear_value(entries, select, d):
    """The value of a hit at distance d from the start of a linear table."""
    if select <= 0:
        return entries[d * 2 ** -select]
    i, f = divmod(d, 2 ** select)
    return entries[i] if i == len(entries) - 1 else interpolated(entries, i, f, select)


def exponential_value(entries, offset, d):
    """The value of a hit at distance d from the start of an exponential X."""
    power = d.bit_length() - 1
    return interpolated(entries, power - offset, d - 2 ** power, power)


def sloped_value(entry, slope, distance):
    """The value at a signed distance from a table's start or end: multiplied, then rounded down."""
    return saturate(entry + times_power(distance * slope.scale, -slope.shift), S32_MIN, S32_MAX)


def missed_value(t, entries, place, sample):
    """The value of a sample below or above a table."""
    if place == BELOW:
        return sloped_value(entries[0], t.below, sample - t.start)
    return sloped_value(entries[-1], t.above, sample - t.end)


def x_value(x, entries, sample):
    """What X gives for a sample."""
    place = x_place(x, sample)
    if place != HIT:
        return missed_value(x, entries, place, sample)
    value = linear_value if x.mode == LINEAR else exponential_value
    return value(entries, x.number, sample - x.start)


def y_value(y, entries, sample):
    """What Y gives for a sample."""
    place = linear_place(y, sample)
    if place != HIT:
        return missed_value(y, entries, place, sample)
    return linear_value(entries, y.select, sample - y.start)


# --- both tables ---

def kind_and_table(q, in_x, in_y):
    """The kind of a sample, by its places in both tables, and the table that answers."""
    if (in_x == HIT) != (in_y == HIT):
        return (X_ONLY, X) if in_x == HIT else (Y_ONLY, Y)
    if in_x == in_y == ABOVE:
        return OVERFLOW, q.overflow
    if in_x == in_y == BELOW:
        return UNDERFLOW, q.underflow
    return PRIORITY, q.priority


def look(q, x_entries, y_entries, sample):
    """The kind and the output of one sample."""
    kind, table = kind_and_table(q, x_place(q.x, sample), linear_place(q.y, sample))
    if table == X:
        return kind, x_value(q.x, x_entries, sample)
    return kind, y_value(q.y, y_entries, sample)


def run(q, x_entries, y_entries, samples, outputs, counters):
    """Look up every sample: (code, 0, outputs, counters); order 11 to 16, 18, 17."""
    code = run_code(q, x_entries, y_entries, samples, outputs, counters)
    if code:
        return code, 0, outputs, counters
    looks = [look(q, x_entries, y_entries, sample) for sample in samples]
    kinds = [kind for kind, _ in looks]
    return 0, 0, [value for _, value in looks], tuple(c + kinds.count(k) for k, c in enumerate(counters))
