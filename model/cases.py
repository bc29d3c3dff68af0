"""What cases of every kind share: the numbers of a line, and their limits.

Renders no rule. Each field of a case is described in README.md.
"""

from collections import namedtuple

from cube import U32_MAX

ELEMENTS_MAX = 8192
BUFFER_MAX = 65536

OWN_NUMBERS = 13
CONTENTS = {"n": 0, "m": 0, "base": 0, "span": 1, "step": 0, "fault_index": 0, "fault_value": 0}
ANY_ELEMENT = {"base": 0, "span": 65536, "step": 0}


def fp16_case(pattern):
    """The number that stands in a case for the element of these bits."""
    return (pattern + 32768) % 65536


INFINITIES = tuple(map(fp16_case, (0x7C00, 0xFC00)))
NANS = tuple(map(fp16_case, (0x7C01, 0x7FFF, 0xFC01, 0xFFFF)))
# elements about the borders of NaN; infinity with one bit of the fraction; the greatest NaN without one of the exponent
FP16_EDGES = (*(element + 32768 for element in (-1025, -1024, -1023, -1022, -2, -1, 0, 1, 31743, 31744, 31745, 31746,
                                                32766, 32767, -32768, -32767)),
              *(fp16_case(0x7C00 + k % 2 * 0x8000 + 2 ** k) for k in range(1, 10)),
              *(fp16_case(0x7FFF + k % 2 * 0x8000 - 2 ** k) for k in range(10, 15)))
# what to draw from where there is to be NaN: about both borders, infinity or the first NaN, NaN alone, anything
NAN_DRAWS = ({"base": 31740 + 32768, "span": 10, "step": 32768}, {"base": 31744 + 32768, "span": 2, "step": 32768},
             {"base": 31745 + 32768, "span": 1023, "step": 32768}, ANY_ELEMENT)


def case_type(name, own):
    """A kind of case: the op, thirteen numbers of its own (0 if not named or given), and the contents."""
    fields = own.split()
    fields += [f"unused{i}" for i in range(len(fields), OWN_NUMBERS)]
    return namedtuple(name, ["op", *fields, *CONTENTS],
                      defaults=[0] * OWN_NUMBERS + list(CONTENTS.values()))


def accepted(precision, turn):
    """What to draw from so that a call that writes takes every element: base, span and step.

    fp16 takes 0 to 31744 and -32768 to -1024, the last of each an infinity. A
    step of 32768 leads from either to the other; `turn` says which is first.
    """
    if precision == 0:
        return {"base": 32640, "span": 256, "step": 0}
    return {"base": 32768 * (turn % 2), "span": 31745, "step": 32768} if precision == 2 else ANY_ELEMENT


def lent_case(t, n, m, writes, /, **changes):
    """The case with n elements and m bytes lent, as far as the file allows, then changed.

    Elements are drawn from all that the call accepts: from those of its
    precision alone where it writes them. The fault index is n where none is meant.
    """
    contents = accepted(t.precision, n + m // 32) if writes else ANY_ELEMENT
    t = t._replace(n=min(n, ELEMENTS_MAX), m=min(m, BUFFER_MAX), fault_index=U32_MAX,
                   **contents)._replace(**changes)
    return t if t.fault_index < t.n else t._replace(fault_index=t.n)


def nearby(rng, value, most):
    """Another number near a number, or an extreme one."""
    return min(max(0, rng.choice((0, value - 1, value + 1, value - 32, value + 32, 2 * value, 8193,
                                  U32_MAX))), most)


def with_changes(rng, t, names):
    """The case with one to three of the named numbers changed, and no fault value."""
    for name in rng.sample(names, rng.choice((1, 1, 2, 3))):
        most = {"n": ELEMENTS_MAX, "m": BUFFER_MAX}.get(name, U32_MAX)
        t = t._replace(**{name: nearby(rng, getattr(t, name), most)})
    return t._replace(fault_index=t.n)
