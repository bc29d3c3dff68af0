"""Writes crates/mend and crates/mend_cases: input, expected output, and the files of data/.

Renders change request K8 and open points 20 and 24 through the model. A case of
`mend_cases` is the name of a file to show, and the input of a run. Contents
are drawn from seeds; every byte of a gap is drawn too, so that it shows if one is
cleared.
"""

import random
import shutil
from pathlib import Path

from cases import accepted
from cube import extent_bytes, pack
from cube_cases import EXAMPLE, layout
from mend import FOLDER, FULL, report_lines, request, run, told
from padding import padding_positions, report
from walk import raw_index

CRATES = Path(__file__).resolve().parent.parent / "crates"
PART = 65536
DATA_MAX = 1 << 20

INT8 = layout(5, 4, 70, 0, 1, 2, 64)
INT16 = layout(4, 3, 37, 1, 2, 1, 32)
FP16 = layout(3, 5, 20, 2, 0, 3)
CLEAN = layout(6, 2, 33, 0, 1, 1, 96)
NO_PADDING = layout(3, 3, 32, 1, 1, 1, 32)
# one channel: of each atom all bytes but the first are padding
LONG = layout(90, 96, 1, 0)
MANY = layout(30, 73, 1, 0)
# just 65,536 bytes; a row fewer; two surfaces of nearly as many, with gaps
BORDER = layout(64, 32, 3, 0)
SHORTER = layout(64, 31, 3, 0)
GAPS = layout(29, 32, 31, 1, 3, 3)


# --- files ---

def drawn(q, seed, dirt, more=0):
    """A file that holds a packed cube, with a byte of dirt at each of these positions, and `more` bytes behind it."""
    rng = random.Random(seed)
    draw = accepted(q.precision, seed)
    elements = [(draw["base"] + i * draw["step"] + rng.randrange(draw["span"])) % 65536 - 32768
                for i in range(raw_index(q, q.channels, 0, 0))]
    code, _, source = pack(q, elements, rng.randbytes(q.start + extent_bytes(q) + more))
    assert code == 0
    damaged = bytearray(source)
    for p in dirt:
        damaged[p] = rng.randrange(1, 256)
    return bytes(damaged)


def padding_of(q, seed=0, share=1.0, end=1 << 64):
    """The cube's padding positions below `end`, or a drawn share of them."""
    rng = random.Random(seed)
    return [p for p in padding_positions(q, 0, min(end, q.start + extent_bytes(q))) if rng.random() < share]


def about_borders(q):
    """The last and the first padding bytes on either side of each part's border, and of the file's end."""
    every, end = padding_of(q), q.start + extent_bytes(q)
    edges = [*range(PART, end, PART), end]
    return [p for p in every if any(edge - 2 <= p <= edge + 2 for edge in edges)]


def many_dirty():
    """A file with more lines of the first part than fit twice in 64 KiB of text, and a few of the second part."""
    positions = padding_of(MANY, 5, 0.25, PART) + [p for p in padding_of(MANY, 6, 0.05) if p >= PART]
    source = drawn(MANY, 11, positions)
    assert len(report_lines(report(MANY, 0, source[:PART]))) > 2 * PART
    return source


def data():
    """The files of data/ by their names; a folder of them has a file in it."""
    return {
        b"paper": drawn(EXAMPLE, 1, [264, 265, 287, 296, 319, 350, 351, 392, 415, 430, 456, 479]),
        b"int8": drawn(INT8, 2, padding_of(INT8, 2, 0.5), 11),
        b"int16": drawn(INT16, 3, padding_of(INT16, 3, 0.5)),
        b"fp16": drawn(FP16, 4, padding_of(FP16)),
        b"clean": drawn(CLEAN, 5, []),
        b"cells": drawn(NO_PADDING, 6, [], 3),
        b"empty": b"",
        b"one": b"\xee",
        b"b65535": drawn(SHORTER, 7, about_borders(SHORTER), 65535 - extent_bytes(SHORTER)),
        b"b65536": drawn(BORDER, 8, padding_of(BORDER, 8, 0.01) + about_borders(BORDER)),
        b"b65537": drawn(GAPS, 9, padding_of(GAPS, 9, 0.2), 65537 - extent_bytes(GAPS)),
        b"long": drawn(LONG, 10, padding_of(LONG, 10, 0.002) + about_borders(LONG)),
        b"many": many_dirty(),
        b"kept": random.Random(12).randbytes(1000),
        b"longer": random.Random(13).randbytes(70001),
        b"folder": FOLDER,
        b"folder/file": b"in a folder\n",
    }


# --- cases: the file to show, and the input ---

def frame(q):
    """The line of a frame, without its newline."""
    return b"\t".join([b"frame", *(b"%d" % number for number in q)])


def asked(q, first, second, show=None):
    """A case of three lines, which shows the second file unless another is named."""
    return second if show is None else show, b"\n".join([frame(q), first, second, b""])


def damaged():
    """Damaged frames of each precision, a clean one, one without padding; then each mended file again."""
    for q, name in ((EXAMPLE, b"paper"), (INT8, b"int8"), (INT16, b"int16"), (FP16, b"fp16"), (CLEAN, b"clean"),
                    (NO_PADDING, b"cells")):
        yield asked(q, name, name + b".new")
        yield asked(q, name + b".new", name + b".again")
    yield asked(EXAMPLE, b"paper", b"folder/new")
    # the first file stays
    yield asked(EXAMPLE, b"paper", b"paper.new", b"paper")


def sizes():
    """Files about a part's length and of many parts; thousands of dirty bytes in one part."""
    for q, name in ((SHORTER, b"b65535"), (BORDER, b"b65536"), (GAPS, b"b65537"), (LONG, b"long"), (MANY, b"many")):
        yield asked(q, name, name + b".new")
        yield asked(q, name + b".new", b"again")
    # one byte too few; one byte, and none, for any frame
    yield asked(BORDER, b"b65535", b"short.new")
    yield asked(layout(1, 1, 1, 0), b"one", b"short.new")
    yield asked(layout(1, 1, 1, 0), b"empty", b"short.new")
    yield asked(EXAMPLE._replace(start=32), b"paper", b"short.new")
    # a frame that ends before the file does
    yield asked(layout(1, 1, 1, 0), b"paper", b"small.new")


def first_files():
    """First files that are missing, a folder, empty, in a folder that is missing, or behind a file."""
    for name in (b"missing", b"folder", b"empty", b"missing/file", b"paper/file"):
        yield asked(EXAMPLE, name, b"kept")
    yield asked(layout(2, 1, 1, 0)._replace(line=0), b"missing", b"kept")
    yield asked(EXAMPLE, b"folder/file", b"kept")
    yield asked(layout(1, 1, 1, 0), b"folder/file", b"kept")


def second_files():
    """Second files that are a folder, in none, or take no byte; those that are there are emptied first, longer or shorter."""
    for name in (b"folder", b"missing/new", b"paper/new"):
        yield asked(EXAMPLE, b"paper", name)
        # the frame's number comes first
        yield asked(EXAMPLE._replace(precision=3), b"paper", name)
        yield asked(EXAMPLE._replace(surface=192), b"paper", name)
        yield asked(BORDER, b"paper", name)
    for q, name in ((EXAMPLE, b"paper"), (CLEAN, b"clean"), (LONG, b"long"), (EXAMPLE, b"empty"),
                    (EXAMPLE._replace(width=0), b"paper")):
        yield asked(q, name, b"/dev/full", b"missing")
    yield asked(EXAMPLE, b"paper", b"longer")
    yield asked(EXAMPLE, b"paper", b"one")
    yield asked(SHORTER, b"b65535", b"one")
    yield asked(EXAMPLE, b"paper", b"one", b"folder")


def refused():
    """A refused sheet leaves the second file, and the first: each number, and each pair of neighbours."""
    bad = {1: {"height": 0}, 2: {"precision": 3}, 3: {"line": 64}, 4: {"start": 1}, 5: {"surface": 4294967264}}
    for codes in ((1,), (2,), (3,), (4,), (5,), (1, 2), (2, 3), (3, 4), (4, 5)):
        yield asked(EXAMPLE._replace(**{k: v for code in codes for k, v in bad[code].items()}), b"paper", b"kept")
    yield asked(EXAMPLE._replace(height=0), b"paper", b"kept", b"paper")
    yield asked(EXAMPLE._replace(height=0), b"missing", b"kept")
    yield asked(EXAMPLE._replace(start=480), b"folder", b"kept")
    yield asked(EXAMPLE, b"paper", b"new", b"")


def inputs():
    """Inputs that are none: lines missing, more or empty; names that are equal, empty, parted, too long; other records; bytes of all kinds."""
    line, rest = frame(EXAMPLE), b"paper\nkept\n"
    longest, too_long = b"n" * 120, b"n" * 121
    for source in (b"", b"\n", b"\n\n\n", line, line + b"\n", line + b"\npaper", line + b"\npaper\n", line + b"\npaper\n\n",
                   line + b"\n" + rest + b"\n", line + b"\n" + rest + b"more\n", line + b"\n" + rest + b"more",
                   b"\n" + line + b"\n" + rest, rest + line + b"\n", line + b"\n\n" + rest,
                   line + b"\npaper\npaper\n", line + b"\npaper\npaper", line + b"\nkept\nkept\n", line + b"\n\nkept\n",
                   line + b"\n\n\n", line + b"\npa\tper\nkept\n", line + b"\npaper\nke\tpt\n", line + b"\npaper\nkept\t\n",
                   line + b"\n\tpaper\nkept\n", line + b"\n" + too_long + b"\nkept\n", line + b"\npaper\n" + too_long + b"\n",
                   line + b"\n" + longest + b"\nkept\n", line + b"\n" + longest + b"\n" + longest + b"\n",
                   line + b"\n" + longest + b"\nkept", line + b"\npaper\n" + b"n" * 3000 + b"\n",
                   line.replace(b"frame", b"stall") + b"\n" + rest, b"stall\t0\t0\t0\t2\t2\t7\n" + rest, b"leave\t0\t7\n" + rest,
                   line.replace(b"40", b"040") + b"\n" + rest, line.replace(b"40", b"+40") + b"\n" + rest,
                   line.replace(b"256", b"4294967296") + b"\n" + rest, line.replace(b"\t0", b"\t-0") + b"\n" + rest,
                   line[:-2] + b"\n" + rest, line + b"\t0\n" + rest, line + b"\t\n" + rest, line + b"\r\n" + rest,
                   line.replace(b"\t", b" ") + b"\n" + rest, b"Frame" + line[5:] + b"\n" + rest, b" " + line + b"\n" + rest,
                   line + b" " * (121 - len(line)) + b"\n" + rest, b"\xff" + line + b"\n" + rest,
                   # two faults: the shape is looked at first
                   line.replace(b"3\t2", b"0\t2") + b"\npaper\npaper\n", line.replace(b"3\t2", b"0\t2") + b"\npaper\n",
                   line + b"\nmissing\nmissing\n"):
        assert request(source) is None or b"n" * 120 in source
        yield b"kept", source
    # taken: no newline at the end; names of any bytes, of 120 bytes, with spaces and dots
    yield b"last.new", line + b"\npaper\nlast.new"
    for name in (b"\xff\xfe\x80", b" ", b"a b", b"-", b"\r", b"\x01", b"s" * 120, b"frame\\t3", "Kühe".encode()):
        yield asked(EXAMPLE, b"paper", name)
        yield asked(EXAMPLE, name, b"back.new")
    yield asked(EXAMPLE, b"s" * 120, b"t" * 120)
    yield asked(EXAMPLE, b"paper", b"paper ")
    # names that only look like others
    yield asked(EXAMPLE, b"Paper", b"kept")
    yield asked(EXAMPLE, b"./missing", b"kept")


def emptied():
    """The file that all refusals left is emptied and written by the one that is accepted."""
    yield asked(EXAMPLE, b"missing", b"kept")
    yield asked(EXAMPLE, b"paper", b"kept")


GROUPS = (damaged, sizes, first_files, second_files, refused, inputs, emptied)


def all_cases():
    """Every case."""
    return [case for group in GROUPS for case in group()]


# --- stored files ---

def store(crate, source, printed, files):
    """Writes a crate's stdin, stdout and data/."""
    folder = CRATES / crate
    shutil.rmtree(folder / "data", ignore_errors=True)
    for name, held in files.items():
        path = folder / "data" / name.decode("ascii")
        if held is not FOLDER:
            path.parent.mkdir(parents=True, exist_ok=True)
            path.write_bytes(held)
    (folder / "stdin").write_bytes(source)
    (folder / "stdout").write_bytes(printed)


def write_cases():
    """crates/mend_cases."""
    files, cases = data(), all_cases()
    assert sum(len(held) for held in files.values() if held is not FOLDER) < DATA_MAX
    assert all(b"\0" not in name + source and b"\n" not in name and len(source) <= 4000 for name, source in cases)
    printed = told(cases, {**files, b"/dev/full": FULL})
    store("mend_cases", b"".join(b"%s\n%s\0" % case for case in cases), printed, files)


def write_program():
    """crates/mend: the paper's frame, saved from an older board."""
    files = {b"saved": data()[b"paper"]}
    _, source = asked(EXAMPLE, b"saved", b"mended")
    store("mend", source, run(source, files).printed, files)


if __name__ == "__main__":
    write_program()
    write_cases()
