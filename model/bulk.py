"""The drawn cases of every call, as lines of the board program.

Renders no rule: the lists of cases are those of the `*_cases.py` files, and
each line is described in docs/TESTING.md. Contents are drawn from a seed that
each line has for itself.
"""

from itertools import count, groupby

import camera_cases
import cube_cases
import lut_cases
import padding_cases
import parlour_cases
import pixels_cases
import quantize_cases
import regions_cases
import sheet_cases
import walk_cases
import weights_cases

SEEDS = count(1)
RUN_MIN = 4
CALLS = {cube_cases.PACK: ("pack", 7), cube_cases.UNPACK: ("unpack", 7), cube_cases.WRITE_BOX: ("write", 13),
         cube_cases.READ_BOX: ("read", 13), cube_cases.POSITION: ("position", 10), cube_cases.EXTENT: ("extent", 7),
         weights_cases.PACK: ("pack_weights", 5), weights_cases.UNPACK: ("unpack_weights", 5),
         pixels_cases.SETTING: ("pixel setting", 8), pixels_cases.POSITION: ("pixel position", 10)}


def said(name, *numbers):
    """A line of a command."""
    return " ".join([name, *map(str, numbers)])


def seed():
    """A seed that no other line has."""
    return next(SEEDS) * 2654435761 % 4294967296


def signed(number):
    """The 32-bit signed number that a number of a case stands for."""
    return number - 2147483648


def short(number):
    """The 16-bit signed number that a number of a case stands for."""
    return number % 65536 - 32768


# --- lists ---

def element_lines(t):
    """The elements of a case, drawn, and the one that is at fault."""
    yield said("draw elements", t.n, seed(), short(t.base), t.span, t.step)
    if t.fault_index < t.n:
        yield said("set element", t.fault_index, short(t.fault_value))


def call_lines(t):
    """A case that stands alone: what it lends, and its call."""
    name, own = CALLS[t.op]
    if name in ("pack", "unpack", "write", "read", "pack_weights", "unpack_weights"):
        yield from element_lines(t)
        yield said("draw buffer", t.m, seed())
    yield said(name, *t[1:1 + own])


def conversion_lines(t):
    """A conversion."""
    yield said("convert", signed(t.d), short(t.offset), short(t.scale), t.shift, t.precision)


# --- walks ---

def wide(number):
    """A number of 64 bits as the program reads it: one that is too great counts back from 2^64."""
    return number if number <= walk_cases.WORD_MAX else number - walk_cases.U64_SIZE


def walk_lines(t):
    """A walk, some with a packing behind it; or a step, whose elements are lent before."""
    if t.op == walk_cases.STEP:
        yield said("step", *map(wide, t[1:13]))
        return
    yield from element_lines(t)
    if t.op != walk_cases.LEND:
        yield said("draw buffer", t.m, seed())
        yield said("walk", *t[1:8])
    if t.op == walk_cases.BESIDE:
        yield said("pack", *t[1:8])


# --- mending ---

def mend_lines(t):
    """A part of a file, or a whole one, some packed before."""
    if t.op == padding_cases.CLEAN:
        yield from element_lines(t)
    yield said("draw buffer", t.m, seed())
    if t.op == padding_cases.PART:
        yield said("mend part", *t[1:8], *map(wide, t[8:10]), *t[10:13])
        return
    if t.op == padding_cases.CLEAN:
        yield said("pack", *t[1:8])
    yield said("mend file", *t[1:9])


# --- sessions ---

def session_lines(t):
    """A line of a session of placings, edits, reads, releases and paintings."""
    if t.op == regions_cases.BEGIN:
        yield from element_lines(t)
        yield said("draw buffer", t.m, seed())
        yield said("pack", *t[1:8])
        yield said("desk", *t[1:8])
    elif t.op == regions_cases.PLACE:
        yield said("place", *t[1:7])
    elif t.op in (regions_cases.EDIT, regions_cases.READ):
        yield from element_lines(t)
        yield said("edit" if t.op == regions_cases.EDIT else "look", t.slot, t.owner, *t[8:14])
    elif t.op == regions_cases.HAND_SLOT:
        yield said("hand slot", *t[1:8])
    elif t.op == regions_cases.RELEASE:
        yield said("release", *t[1:3])
    elif t.op == parlour_cases.PAINT:
        yield from element_lines(t)
        yield said("paint", *t[1:11], short(t.zero), short(t.scale), t.shift)
    elif t.op == parlour_cases.LEND:
        yield said("draw buffer", t.m, seed())
    elif t.op == regions_cases.POSITION:
        yield said("stall position", *t[1:6])
    elif t.op == regions_cases.COUNT:
        yield said("stall count", *t[1:3])
    else:
        yield said("hand layout", *t[1:8])


# --- lookups ---

def slope_numbers(t):
    """The slopes of a case of settings."""
    return short(t.below_scale), signed(t.below_shift), short(t.above_scale), signed(t.above_shift)


class Lookups:
    """The lines of lookups; the tables are lent when a run wants others than those that are lent."""

    def __init__(self):
        self.tables, self.lent = {lut_cases.X_TABLE: None, lut_cases.Y_TABLE: None}, None

    def table_lines(self):
        """The entries of both tables; None has no entries, 0 those of the camera curve."""
        x, y = self.tables.values()
        if x == y == 0:
            yield "draw curves 322"
        elif x == 0:
            yield "draw curves 65"
        else:
            yield from self.drawn_lines("draw elements", x, 0)
        if y:
            yield from self.drawn_lines("more elements", y, self.split())

    def drawn_lines(self, name, t, before):
        """The entries of a table, behind so many others."""
        if t is None:
            yield "elements"
            return
        yield said(name, t.n, seed(), short(t.base), t.span, wrapped_short(t.step))
        if t.fault_index < t.n:
            yield said("set element", before + t.fault_index, short(t.fault_value))

    def split(self):
        """How many entries are X's."""
        x = self.tables[lut_cases.X_TABLE]
        return 65 if x == 0 else x.n if x else 0

    def lines(self, t):
        """The lines of a case."""
        if t.op == lut_cases.X_SETTINGS:
            name = "x linear" if t.mode == 0 else "x exponential"
            yield said(name, signed(t.number), signed(t.start), signed(t.end), *slope_numbers(t))
        elif t.op == lut_cases.Y_SETTINGS:
            yield said("y", signed(t.select), signed(t.start), signed(t.end), *slope_numbers(t))
        elif t.op == lut_cases.PRIORITIES:
            yield said("bits", *t[1:4])
            yield said("counters", *t[4:9])
        elif t.op in self.tables:
            self.tables[t.op] = t
        elif t.op == lut_cases.RUN:
            yield from self.run_lines(t)
        elif t.op == camera_cases.ENTRY:
            for build in ("curve", "computed"):
                yield said(f"{build} x" if t.table == 0 else f"{build} y", t.index)
        else:
            yield from self.ready_lines(t)

    def run_lines(self, t):
        """A run: first the chosen samples, then the drawn ones."""
        if self.lent != self.tables:
            yield from self.table_lines()
            self.lent = dict(self.tables)
        chosen = min(t.n, t.fault_index, 13)
        yield said("samples", *map(signed, t[1:1 + chosen]))
        if t.n > chosen:
            yield said("more samples", t.n - chosen, seed(), signed(t.base), t.span)
        yield said("lookup", self.split(), t.m, seed())

    def ready_lines(self, t):
        """The ready-made setting; if it is taken its curves are lent for the next run."""
        yield said("ready", signed(t.s), *({0: 2, 1: 0}.get(choice, 1) for choice in t[2:5]))
        if 2 <= signed(t.s) <= 22:
            self.tables = dict.fromkeys(self.tables, 0)


def wrapped_short(number):
    """The 16-bit signed number that is a number modulo 65536."""
    return (number + 32768) % 65536 - 32768


# --- sheets ---

def sheet_lines(source):
    """A sheet: its bytes, runs of a byte as one and a count."""
    runs = ((byte, len(list(run))) for byte, run in groupby(source))
    words = (f"{byte:02x}*{n}" if n >= RUN_MIN else " ".join([f"{byte:02x}"] * n) for byte, n in runs)
    yield said("buffer", *words)
    yield "sheet"


# --- the list ---

def lines():
    """Every drawn case."""
    kinds = ((cube_cases, call_lines), (weights_cases, call_lines), (pixels_cases, call_lines),
             (quantize_cases, conversion_lines), (lut_cases, (lookups := Lookups()).lines),
             (camera_cases, lookups.lines), (regions_cases, session_lines), (sheet_cases, sheet_lines),
             (parlour_cases, session_lines), (walk_cases, walk_lines), (padding_cases, mend_lines))
    return ["# drawn cases", "print sums"] + [text for cases, said_of in kinds for t in cases.all_cases()
                                              for text in said_of(t)]
