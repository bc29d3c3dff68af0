"""Painting a region of a cube from a camera's picture.

Renders change request K3 with its codes 29 and 30: the components of a picture's
pixels, the elements that they become, and the order of the call's checks; and of
change request K5 how many components are held. Whole numbers have no width;
answers are as in cube.py.

A picture is a pixel setting and the bytes of a pixel buffer. One conversion
serves all its components.
"""

from collections import namedtuple
from itertools import product

import regions
from cube import room_code
from pixels import FORMATS, FP16, pixel_position, setting_code
from quantize import LIMITS, quantize

Conversion = namedtuple("Conversion", "offset scale shift")

SIGNED_FORMAT = "T_R16_I"
LOW_BITS = {"T_R10": 10, "T_R12": 12}


# --- components ---

def component(p, pixels, n, x, y):
    """Component n of pixel (x, y), counted from the lowest address: 1 or 2 bytes, low byte first."""
    f = FORMATS[p.format]
    size = f.bytes // f.channels
    at = pixel_position(p, x, y) + n * size
    value = int.from_bytes(pixels[at:at + size], "little", signed=f.name == SIGNED_FORMAT)
    return value % 2 ** LOW_BITS[f.name] if f.name in LOW_BITS else value


def converted(p, pixels, k, precision):
    """Each component's element, and whether it was held; in raw order.

    Component n of pixel (x, y) is of channel n, row y, column x.
    """
    return [quantize(component(p, pixels, n, x, y), *k, precision)[2:]
            for n, y, x in product(range(p.channels), range(p.height), range(p.width))]


def painted_elements(p, pixels, k, precision):
    """The elements alone."""
    return [element for element, _ in converted(p, pixels, k, precision)]


def picture_end(p):
    """The byte behind the last pixel."""
    return pixel_position(p, p.width - 1, p.height - 1) + FORMATS[p.format].bytes


# --- checks: the refusal code, or 0 ---

def kind_code(q, p):
    """Check 29: the format is not one of floats, and the picture has the cube's channels."""
    return 29 if FORMATS[p.format].precision == FP16 or p.channels != q.channels else 0


def pixels_code(p, pixels):
    """Check 30: the pixel buffer has the last pixel; the rest of its line is not asked for."""
    return 30 if picture_end(p) > len(pixels) else 0


def picture_code(q, p, pixels, k):
    """Checks 19, 1, 20, 21, 22 of the setting, 29, 2 and 16 of the conversion, 30."""
    return (setting_code(p) or kind_code(q, p) or quantize(0, *k, q.precision)[0]
            or pixels_code(p, pixels))


def size_code(g, p):
    """Check 9 of a picture: it is as wide and as high as the region."""
    return 0 if (p.width, p.height) == (g.columns, g.rows) else 9


def paint_code(q, slots, n, owner, p, pixels, k, buffer):
    """The picture's checks, then 1 to 4, 8, 25, 9, 5: an edit's, without 6, 7 and 26."""
    return (picture_code(q, p, pixels, k) or regions.count_code(q, slots, n, owner)
            or size_code(slots[n].rectangle, p) or room_code(q, buffer))


# --- the call ---

def paint(table, n, owner, p, pixels, k, buffer):
    """Paint a region: (code, 0, how many components were held, buffer after).

    It is an edit of the whole region with the converted components.
    """
    code = paint_code(*table, n, owner, p, pixels, k, buffer)
    if code:
        return code, 0, 0, buffer
    whole = regions.whole_region(table.layout, table.slots[n].rectangle)
    elements, held = zip(*converted(p, pixels, k, table.layout.precision))
    edited = regions.edit(table, n, owner, whole, list(elements), buffer)
    assert edited[0] == 0
    return 0, 0, sum(held), edited[2]


# --- the plain picture ---

def lies_beyond(d, k, precision):
    """Whether a component lies half a step or more past a limit, before it is rounded."""
    least, most = LIMITS[precision]
    twice = 2 * (d - k.offset) * k.scale
    return twice >= (2 * most + 1) * 2 ** k.shift or twice <= (2 * least - 1) * 2 ** k.shift


class PlainPicture(regions.PlainPicture):
    """A plain picture that is fed paintings too."""

    def paint(self, n, owner, p, pixels, k):
        """A painting: (code, 0, how many components were held); an edit of the whole region.

        The count is made pixel by pixel, without the conversion.
        """
        code = paint_code(self.layout, self.slots, n, owner, p, pixels, k, self.before)
        if code:
            return code, 0, 0
        precision = self.layout.precision
        whole = regions.whole_region(self.layout, self.slots[n].rectangle)
        self.put(n, whole, painted_elements(p, pixels, k, precision))
        count = 0
        for y, x, part in product(range(p.height), range(p.width), range(p.channels)):
            if lies_beyond(component(p, pixels, part, x, y), k, precision):
                count += 1
        return 0, 0, count
