"""Integer conversion of one number to int8 or int16.

Renders the paragraph "Conversion" of the scope paper's section "Pixels", its
rounding by change request K5, and of "Refusal numbers" the codes 2, 16 in this
order. Answers are as in cube.py. The paper's conversion is here to quantize, its
holding to a range to saturate, its SF the scale.
"""

LIMITS = {0: (-128, 127), 1: (-32768, 32767)}
SHIFT_MAX = 31


def saturate(value, least, most):
    """The number in least..most that is nearest to a value."""
    return min(max(value, least), most)


def nearest(value, shift):
    """The whole number nearest to a value over 2^shift; of two, the one away from zero."""
    quotient, rest = divmod(abs(value), 2 ** shift)
    if 2 * rest >= 2 ** shift:
        quotient += 1
    return -quotient if value < 0 else quotient


def quantize(d, offset, scale, shift, precision):
    """Quantize d: (code, 0, value, whether the rounded value lay beyond a limit); order 2, 16."""
    if precision not in LIMITS:
        return 2, 0, 0, False
    if not 0 <= shift <= SHIFT_MAX:
        return 16, 0, 0, False
    least, most = LIMITS[precision]
    rounded = nearest((d - offset) * scale, shift)
    return 0, 0, saturate(rounded, least, most), not least <= rounded <= most
