"""One-plane pixel formats: checks of a setting, and positions of pixels.

Renders the scope paper's section "Pixels" without its conversion, with change
request K2's row for T_R16_F, and of "Refusal numbers" the codes 19, 1, 20, 21,
22, 23 in this order. Answers are as in cube.py. Code 1 is about width and
height alone; a precision that is unknown is unlike the table's, so 20.
"""

from collections import namedtuple

from cube import SIZE_MAX, is_aligned

PixelFormat = namedtuple("PixelFormat", "name channels bytes precision offset_max")
PixelSetting = namedtuple("PixelSetting", "format width height channels precision offset start line")

INT8, INT16, FP16 = range(3)

FORMATS = (
    PixelFormat("T_R8", 1, 1, INT8, 31),
    PixelFormat("T_R10", 1, 2, INT16, 15),
    PixelFormat("T_R12", 1, 2, INT16, 15),
    PixelFormat("T_R16", 1, 2, INT16, 15),
    PixelFormat("T_R16_I", 1, 2, INT16, 15),
    PixelFormat("T_R16_F", 1, 2, FP16, 15),
    PixelFormat("T_A16B16G16R16", 4, 8, INT16, 3),
    PixelFormat("T_X16B16G16R16", 4, 8, INT16, 3),
    PixelFormat("T_A16B16G16R16_F", 4, 8, FP16, 3),
    PixelFormat("T_A16Y16U16V16", 4, 8, INT16, 3),
    PixelFormat("T_V16U16Y16A16", 4, 8, INT16, 3),
    PixelFormat("T_A16Y16U16V16_F", 4, 8, FP16, 3),
    PixelFormat("T_A8B8G8R8", 4, 4, INT8, 7),
    PixelFormat("T_A8R8G8B8", 4, 4, INT8, 7),
    PixelFormat("T_B8G8R8A8", 4, 4, INT8, 7),
    PixelFormat("T_R8G8B8A8", 4, 4, INT8, 7),
    PixelFormat("T_V8U8Y8A8", 4, 4, INT8, 7),
)


def line_bytes(p):
    """Bytes from the start of a line to the end of its last pixel."""
    return (p.offset + p.width) * FORMATS[p.format].bytes


def setting_code(p):
    """Checks 19, 1, 20, 21, 22 of a setting."""
    if not 0 <= p.format < len(FORMATS):
        return 19
    if not all(1 <= size <= SIZE_MAX for size in (p.width, p.height)):
        return 1
    f = FORMATS[p.format]
    if (p.channels, p.precision) != (f.channels, f.precision):
        return 20
    if not 0 <= p.offset <= f.offset_max:
        return 21
    if not (is_aligned(p.start) and is_aligned(p.line) and p.line >= line_bytes(p)):
        return 22
    return 0


def setting(p):
    """Check of a setting: (code, 0, 0); order 19, 1, 20, 21, 22."""
    return setting_code(p), 0, 0


def pixel_position(p, x, y):
    """Byte at which pixel (x, y) begins, the start included."""
    return p.start + y * p.line + (x + p.offset) * FORMATS[p.format].bytes


def position(p, x, y):
    """Position of pixel (x, y): (code, 0, byte with the start); order 19, 1, 20, 21, 22, 23."""
    code = setting_code(p)
    if not code and not (0 <= x < p.width and 0 <= y < p.height):
        code = 23
    if code:
        return code, 0, 0
    return 0, 0, pixel_position(p, x, y)
