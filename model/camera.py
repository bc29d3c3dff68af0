"""The camera curve, its X companion, and the ready-made setting for both.

Renders the last paragraph of the scope paper's section "Two tables", of
"Refusal numbers" the code 14 for the ready-made s, and change request K4. An
index past a curve's end is the last one's; the paper leaves this free.
"""

from math import isqrt

from lut import (LINEAR, X, X_LAST, Y_LAST, LutSettings, Slope, XSettings, YSettings, linear_end)

X_STEP, Y_STEP = 262144, 1048576
READY_SELECTS = range(2, 23)
FLAT = Slope(0, 0)

X_CURVE = [isqrt(j * X_STEP) for j in range(X_LAST + 1)]
Y_CURVE = [isqrt(i * Y_STEP) for i in range(Y_LAST + 1)]


def entry(table, index):
    """Entry of the X companion or, for Y, of the camera curve; past the end the last one."""
    curve = X_CURVE if table == X else Y_CURVE
    return curve[min(index, len(curve) - 1)]


def estimates(n, e=65535):
    """Change request K4's steps to the root of n, from e on while the estimate falls; n is not 0."""
    steps = [e]
    while (after := (e + n // e) // 2) < e:
        e = after
        steps.append(e)
    return steps


def bit(choice):
    """A priority bit that is named 0 or 1, or None where it is left unnamed."""
    return 0 if choice is None else choice


def ready_made(s, priority=None, overflow=None, underflow=None):
    """The ready-made setting: (code, 0, settings), None for settings if refused."""
    if s not in READY_SELECTS:
        return 14, 0, None
    x = XSettings(LINEAR, s - 2, 0, linear_end(0, X_LAST, s - 2), FLAT, FLAT)
    y = YSettings(s, 0, linear_end(0, Y_LAST, s), FLAT, FLAT)
    return 0, 0, LutSettings(x, y, bit(priority), bit(overflow), bit(underflow))
