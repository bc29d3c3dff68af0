"""Writes the stored files of crates/sheet_long: the sheet program on one long input.

Renders the scope paper's "The sheet program" and change request K1's records through the model. The input has over 64 KiB, which the
program reads in two parts, and the second begins within a line; over 400 lines, so that numbers of lines grow to three digits; and values
over 2^32. Its last line lacks its newline.
"""

from pathlib import Path

from cube import CubeLayout
from sheet import rows, text
from sheet_cases import cell, frame, leave, sheet, stall

CRATE = Path(__file__).resolve().parent.parent / "crates" / "sheet_long"
PART = 65536
WIDE = CubeLayout(8192, 8192, 8192, 0, 262144, 2147483648, 4294967264)
SMALL = CubeLayout(3, 2, 40, 1, 128, 256, 64)


def wide_lines():
    """A cube of over 2^39 bytes, its regions, and elements of them."""
    yield frame(WIDE)
    for slot in range(16):
        yield stall(slot, 512 * slot, 256 * slot, 512, 8192 - 256 * slot, owner=slot + 1)
    for i in range(300):
        yield cell(i % 17, 37 * i % 8193, 1021 * i % 8192, 53 * i % 513, i % 17 + i % 23 // 22 + 1)
    for slot in range(16):
        yield leave(slot, slot + slot % 4 // 3 + 1)


def small_lines():
    """A small cube; lines of it that are refused among others."""
    yield frame(SMALL)
    for i in range(60):
        yield stall(i % 5, i % 3, i % 2, 1, 1, owner=i % 4)
        yield cell(i % 5, i % 41, i % 2, 0, i % 4)
        yield stall(5 + i % 12, 0, 0, 3, 2)
        yield b"cell\t0\t0\t0\t0" if i % 7 == 0 else leave(i % 5, i % 4)
        yield b""


def source():
    """The input: the wide cube, a line of over 50,000 bytes, the small cube across the end of the first part, and a last line without newline."""
    wide = sheet(*wide_lines())
    small = sheet(*small_lines())
    long = b"cell\t0\t0\t0\t0\t" + b"1" * (PART - len(wide) - len(small) // 2)
    return wide + sheet(long) + small + frame(WIDE)


if __name__ == "__main__":
    whole = source()
    answers = rows(whole)
    assert len(whole) > PART and whole[PART - 1:PART + 1].count(b"\n") == 0 and len(answers) > 100
    assert max(row.value for row in answers) > 1 << 39 and {row.code for row in answers} >= {0, 8, 9, 10, 24, 25}
    (CRATE / "stdin").write_bytes(whole)
    (CRATE / "stdout").write_text(text(whole), encoding="ascii", newline="\n")
