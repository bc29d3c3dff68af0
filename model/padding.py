"""Padding made zero again in a part of a file that holds a cube, and what stood there reported.

Renders change request K8 and of the open points 20 and 24 what is about the call.
A byte of an atom is padding if it is no byte of an element: both by the scope
paper's formula ("Cells and cubes"), and by nothing else. Whole numbers have no width.
"""

from collections import namedtuple

from cube import ATOM, element_bytes, element_position, extent_bytes, layout_code, surface_count

# a report's line: a position in the file, and the byte that stood there
Dirt = namedtuple("Dirt", "position old")


# --- which bytes are padding ---

def touched(origin, stride, size, count, first, end):
    """Those of `count` stretches of `size` bytes, the first at origin, a stride apart, that have a byte from first to end - 1."""
    least = -((origin + size - 1 - first) // stride)
    return range(max(0, least), min(count, (end - 1 - origin) // stride + 1))


def atoms(q, first, end):
    """Surface, row, column and position of each atom that has a byte from first to end - 1."""
    for s in range(surface_count(q)):
        surface = q.start + s * q.surface
        for h in touched(surface, q.line, ATOM * q.width, q.height, first, end):
            line = surface + h * q.line
            for w in touched(line, ATOM, ATOM, q.width, first, end):
                yield s, h, w, line + w * ATOM


def surface_channels(q):
    """The channels of each surface."""
    channels = [[] for _ in range(surface_count(q))]
    for c in range(q.channels):
        channels[c * element_bytes(q) // ATOM].append(c)
    return channels


def padding_positions(q, first, end):
    """The padding bytes from first to end - 1: those of atoms that no element has; ascending."""
    e, channels = element_bytes(q), surface_channels(q)
    found = []
    for s, h, w, at in atoms(q, first, end):
        if len(channels[s]) * e < ATOM:
            elements = {element_position(q, c, h, w) + b for c in channels[s] for b in range(e)}
            found += [p for p in range(at, at + ATOM) if first <= p < end and p not in elements]
    return sorted(found)


# --- the call ---

def frame_code(q, length):
    """Checks 1 to 4, and 5: the file holds the whole cube."""
    return layout_code(q) or (5 if q.start + extent_bytes(q) > length else 0)


def mend_code(q, first, length, part, positions, olds):
    """Checks 1, 2, 3, 4, 5 of the frame and of the part, then 18: a place for each byte of the part in both lists."""
    if code := frame_code(q, length):
        return code
    if first + len(part) > length:
        return 5
    return 18 if len(positions) < len(part) or len(olds) < len(part) else 0


def report(q, first, part):
    """Every padding byte of the part that is not zero."""
    return [Dirt(p, part[p - first]) for p in padding_positions(q, first, first + len(part)) if part[p - first] != 0]


def mended(dirt, first, part):
    """The part with the reported bytes zero."""
    after = bytearray(part)
    for p, _ in dirt:
        after[p - first] = 0
    return bytes(after)


def mend(q, first, length, part, positions, olds):
    """Mend a part of a file: (code, 0, count, part, positions and olds after); order 1, 2, 3, 4, 5, 18."""
    if code := mend_code(q, first, length, part, positions, olds):
        return code, 0, 0, part, positions, olds
    dirt = report(q, first, part)
    n = len(dirt)
    return (0, 0, n, mended(dirt, first, part), [d.position for d in dirt] + positions[n:],
            bytes(d.old for d in dirt) + olds[n:])


# --- a whole file, part by part ---

def mend_parts(q, size, source):
    """Mend a file in parts of `size` bytes, after an empty one: (code, report, file after)."""
    dirt, after, room = [], b"", ([0] * size, bytes(size))
    code = mend(q, 0, len(source), b"", *room)[0]
    for first in range(0, len(source), size):
        part_code, _, n, part, positions, olds = mend(q, first, len(source), source[first:first + size], *room)
        code = code or part_code
        dirt += map(Dirt, positions[:n], olds[:n])
        after += part
    return code, dirt, after


def written_back(dirt, source):
    """A file with the old bytes of a report written at their positions."""
    after = bytearray(source)
    for p, old in dirt:
        after[p] = old
    return bytes(after)


def check(q, size, source):
    """Asserts what is claimed of a file that is mended in parts, and hands back (code, report, file after).

    The parts give what the whole gives in one, mending again reports none, and
    the old bytes written back restore the file.
    """
    code, dirt, after = mend_parts(q, size, source)
    assert mend_parts(q, max(1, len(source)), source) == (code, dirt, after)
    assert mend_parts(q, size, after) == (code, [], after)
    assert written_back(dirt, after) == source
    return code, dirt, after
