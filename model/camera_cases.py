"""The test cases of the camera curve and the ready-made setting.

Renders no rule of its own; the cases stand at the limits named in the scope
paper's "Two tables". Each field of a line is described in README.md; the state
that a line leaves is that of lut_cases.py.
"""

from itertools import product

from camera import READY_SELECTS
from cases import case_type
from cube import U32_MAX
from lut import S32_MAX, S32_MIN, X_LAST, Y_LAST, linear_end
from lut_cases import Y_TABLE, run, table

EntryCase = case_type("EntryCase", "table index")
ReadyCase = case_type("ReadyCase", "s priority overflow underflow")

ENTRY, READY_MADE = range(17, 19)
CHOICES = list(product(range(3), repeat=3))


def ready_made(s, choices=(0, 0, 0)):
    """The ready-made setting; each bit is 0 unnamed, 1 named as 0, 2 named as 1."""
    return ReadyCase(READY_MADE, s - S32_MIN, *choices)


def two_runs(s):
    """Samples about the borders and entries of both curves of the setting s, and drawn ones."""
    x_end, y_end = linear_end(0, X_LAST, s - 2), linear_end(0, Y_LAST, s)
    step = 2 ** s
    yield run((-1, 0, 1, x_end - 1, x_end, x_end + 1, y_end - 1, y_end, y_end + 1, 5 * step - 1,
               5 * step, 5 * step + 1, S32_MIN), 20, (-step, y_end + 4 * step))
    yield run((S32_MAX,), 30, (0, x_end + 8))


# --- cases ---

def entries():
    """Every entry of both curves, and indexes past the end; any table but 0 is Y."""
    for table, last in ((0, X_LAST), (1, Y_LAST)):
        for index in (*range(last + 3), 512, 1000, 65536, 65538, 2147483648, U32_MAX):
            yield EntryCase(ENTRY, table, index)
    for index in (2, 64, 65, 255, 256, 257):
        yield EntryCase(ENTRY, 2, index)
        yield EntryCase(ENTRY, U32_MAX, index)


def starred():
    """The paper's case."""
    yield ready_made(4)
    yield run((256, 257, 4097, -1))


def ready_mades():
    """Every s that is taken and its neighbours; a refused one leaves the last."""
    for s in range(-2, 26):
        yield ready_made(s)
        yield from two_runs(min(max(s, READY_SELECTS[0]), READY_SELECTS[-1]))
    for s in (S32_MIN, S32_MIN + 4, -254, -23, 256, 258, 65540, S32_MAX):
        yield ready_made(9, (2, 0, 1))
        yield ready_made(s, (1, 2, 2))
        yield from two_runs(9)


def bits():
    """All choices of the three bits; refused ones leave the last that were taken."""
    for s, choices in product((2, 4, 13, 22), CHOICES):
        yield ready_made(s, choices)
        yield next(two_runs(s))
    # with another Y table both tables answer differently on every side
    for choices in CHOICES:
        yield ready_made(5, choices)
        yield table(Y_LAST + 1, 1, 40000)._replace(op=Y_TABLE)
        yield run((-1, 0, 2049, 8192, 8193, S32_MIN))
    for choices in CHOICES[::4]:
        yield ready_made(7, choices)
        yield ready_made(23, [2 - choice for choice in choices])
        yield from two_runs(7)
    yield ready_made(6, (U32_MAX, 3, 65536))
    yield from two_runs(6)


# --- the list ---

GROUPS = (entries, starred, ready_mades, bits)


def all_cases():
    """Every line about the curve, after those of the other lookups."""
    return [t for group in GROUPS for t in group()]
