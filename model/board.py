"""Runs board commands on the model, and writes crates/board/stdin and stdout.

Renders every section of the scope paper through the model's calls;
docs/TESTING.md has the commands. The cases are those of board_cases.txt, which
are written out, and those of bulk.py, which are drawn. Below their last line,
the mark, stand the cases that were added by hand: these are kept with the
output that was stored for them, under the numbers that their lines have now.
"""

import re
from pathlib import Path

import bulk
import camera
import cube
import lut
import padding
import parlour
import pixels
import quantize
import regions
import sheet
import walk
import weights

HERE = Path(__file__).resolve().parent
CASES = HERE / "board_cases.txt"
INPUT = HERE.parent / "crates" / "board" / "stdin"
OUTPUT = HERE.parent / "crates" / "board" / "stdout"
MARK = "# cases of your own go below this line"

ROOM = {"elements": 307200, "buffer": 2457600, "samples": 65536}
OUTPUTS_MAX = 65536
PLACES_MAX = 65536
CUTS_MAX = 400
ROW = 32
S32_MIN = -2147483648


class Unreadable(Exception):
    """A line that is not understood."""


# --- words ---

def ranged(pattern, base, low, high):
    """A kind of words: of the pattern's shape, and a number from low to high."""
    def read(word):
        if not re.fullmatch(pattern, word) or not low <= int(word, base) <= high:
            raise Unreadable
        return int(word, base)
    return read


natural = ranged("[0-9]+", 10, 0, cube.U32_MAX)
position = ranged("[0-9]+", 10, 0, (1 << 61) - (1 << 31) - 1)
wide = ranged("-?[0-9]+", 10, S32_MIN, (1 << 61) - (1 << 31) - 1)
signed = ranged("-?[0-9]+", 10, S32_MIN, 2147483647)
element = ranged("-?[0-9]+", 10, -32768, 32767)
byte = ranged("[0-9a-fA-F]{2}", 16, 0, 255)

KINDS = {"n": natural, "p": position, "w": wide, "s": signed, "e": element, "b": byte}
MEMBERS = {"elements": element, "buffer": byte, "samples": signed}


def numbers(words, kinds):
    """What the words say, one of each kind and no other."""
    if len(words) != len(kinds):
        raise Unreadable
    return [KINDS[kind](word) for word, kind in zip(words, kinds)]


def members(words, name):
    """The members of a list; `v*N` is N of them."""
    listed = []
    for word in words:
        value, *times = word.split("*", 1)
        count = natural(times[0]) if times else 1
        if not 1 <= count <= ROOM[name] - len(listed):
            raise Unreadable
        listed += [MEMBERS[name](value)] * count
    return listed


# --- contents ---

def draws(seed):
    """The endless 32-bit numbers that follow from a seed, each of two steps of 31 bits."""
    x = seed
    while True:
        x = (x * 1103515245 + 12345) % 2147483648
        high = x // 32768
        x = (x * 1103515245 + 12345) % 2147483648
        yield high * 65536 + x // 32768


def wrapped(value, low, size):
    """The number from low to low + size - 1 that is a value modulo size."""
    return (value - low) % size + low


def drawn(name, count, seed, base=0, span=0, step=0):
    """Members of a list: base + i * step + a draw modulo span; a span of 0 leaves the draw as it is."""
    low, size = {"elements": (-32768, 65536), "buffer": (0, 256), "samples": (S32_MIN, 4294967296)}[name]
    source = draws(seed)
    return [wrapped(base + i * step + (next(source) % span if span else next(source)), low, size)
            for i in range(count)]


def checksum(values):
    """One number for a list of numbers."""
    s = 0
    for v in values:
        s = (s * 65599 + (v - S32_MIN) % 4294967296 + 1) % 4294967296
    return s


def halves(position):
    """A position as two members of a checksum: modulo 2^32, and divided by it."""
    return position % 4294967296, position // 4294967296


def rows(name, values):
    """The values, 32 a line; no line if there are none."""
    texts = [f"{v:02x}" for v in values] if name == "buffer" else [str(v) for v in values]
    return [" ".join(texts[at:at + ROW]) for at in range(0, len(texts), ROW)]


# --- commands ---

EVERYTHING = {"elements", "buffer", "samples", "desk", "x", "y", "bits", "counters"}
SETTINGS = {"x", "y", "bits"}
PACKED = {"elements", "buffer"}
# name: the words' kinds, what it sets, what it looks at; a list's name as kinds is a list of its members
COMMANDS = {
    **{name: (name, {name}, set()) for name in ROOM},
    "cells": ("ne", {"elements"}, set()),
    "fill": ("nb", {"buffer"}, set()),
    **{f"{verb} {name}": (kinds, {name}, looks) for name, kinds in
       (("elements", "nnens"), ("buffer", "nn"), ("samples", "nnsn"))
       for verb, looks in (("draw", set()), ("more", {name}))},
    "draw curves": ("n", {"elements"}, set()),
    "set element": ("ne", {"elements"}, {"elements"}),
    "print all": ("", set(), set()),
    "print sums": ("", set(), set()),
    **{f"{verb} {name}": ("", set(), {name}) for verb in ("show", "sum") for name in ROOM},
    "pack": ("n" * 7, {"buffer"}, PACKED),
    "write": ("n" * 13, {"buffer"}, PACKED),
    "pack_weights": ("n" * 5, {"buffer"}, PACKED),
    "edit": ("n" * 8, {"buffer"}, PACKED | {"desk"}),
    "unpack": ("n" * 7, {"elements"}, PACKED),
    "read": ("n" * 13, {"elements"}, PACKED),
    "unpack_weights": ("n" * 5, {"elements"}, PACKED),
    "look": ("n" * 8, {"elements"}, PACKED | {"desk"}),
    "desk": ("n" * 7, {"desk"}, set()),
    "place": ("n" * 6, {"desk"}, {"desk"}),
    "release": ("n" * 2, {"buffer", "desk"}, PACKED | {"desk"}),
    "paint": ("n" * 10 + "een", {"buffer"}, PACKED | {"desk"}),
    "hand slot": ("n" * 7, {"desk"}, {"desk"}),
    "hand layout": ("n" * 7, {"desk"}, {"desk"}),
    "pixel setting": ("n" * 8, set(), set()),
    "stall position": ("n" * 5, set(), {"desk"}),
    "stall count": ("n" * 2, set(), {"desk"}),
    "position": ("n" * 10, set(), set()),
    "extent": ("n" * 7, set(), set()),
    "pixel position": ("n" * 10, set(), set()),
    "convert": ("seenn", set(), set()),
    "curve x": ("n", set(), set()),
    "curve y": ("n", set(), set()),
    "computed x": ("n", set(), set()),
    "computed y": ("n", set(), set()),
    "x linear": ("ssseses", {"x"}, set()),
    "x exponential": ("ssseses", {"x"}, set()),
    "y": ("ssseses", {"y"}, set()),
    "bits": ("nnn", {"bits"}, set()),
    "counters": ("nnnnn", {"counters"}, set()),
    "ready": ("snnn", SETTINGS, SETTINGS),
    "lookup": ("nnn", {"counters"}, SETTINGS | {"elements", "samples", "counters"}),
    "sheet": ("", set(), {"buffer"}),
    "whose": ("n" * 7 + "p", set(), set()),
    "walk": ("n" * 7, {"buffer"}, PACKED),
    "step": ("w" * 12, set(), {"elements"}),
    "mend part": ("n" * 7 + "wwnnn", {"buffer"}, {"buffer"}),
    "mend file": ("n" * 8, {"buffer"}, {"buffer"}),
}


def named(text):
    """The command that a line begins with, and its words; no name begins with another and a space."""
    words = text.split(" ")
    for k in range(1, len(words) + 1):
        if " ".join(words[:k]) in COMMANDS:
            return " ".join(words[:k]), words[k:]
    return None, []


class Board:
    """What the lines leave for the next: the lists, the region table, the lookup, how to print, what is spoilt.

    Beside the table goes the plain picture, from a desk of the layout that was
    packed last until a line changes buffer or table by other means. After every
    call the two must agree.
    """

    def __init__(self):
        self.lists = {"elements": [], "buffer": b"", "samples": []}
        self.spoilt, self.sums = set(), False
        self.table = regions.empty_table(cube.CubeLayout(*[0] * 7))
        self.packed, self.picture = None, None
        flat = lut.Slope(0, 0)
        x, y = lut.XSettings(lut.LINEAR, 0, 0, 0, flat, flat), lut.YSettings(0, 0, 0, flat, flat)
        self.settings, self.counters = lut.LutSettings(x, y, lut.X, lut.X, lut.X), (0,) * 5

    # --- what is lent ---

    def lend(self, name, values):
        """Lends a list anew."""
        if len(values) > ROOM[name]:
            raise Unreadable
        self.lists[name] = bytes(values) if name == "buffer" else values
        if name == "buffer":
            self.packed = self.picture = None

    def repeat(self, name, count, value):
        """`cells`, `fill`."""
        if count > ROOM[name]:
            raise Unreadable
        self.lend(name, [value] * count)

    def draw(self, name, more, count, *source):
        """`draw`, `more`."""
        before = list(self.lists[name]) if more else []
        if count > ROOM[name] - len(before):
            raise Unreadable
        self.lend(name, before + drawn(name, count, *source))

    def curves(self, count):
        """`draw curves`: the entries of X, then those of Y, the last again and again."""
        if count > ROOM["elements"]:
            raise Unreadable
        entries = camera.X_CURVE + camera.Y_CURVE
        self.lend("elements", [entries[min(i, len(entries) - 1)] for i in range(count)])

    def set_element(self, index, value):
        """`set element`."""
        elements = list(self.lists["elements"])
        if index >= len(elements):
            raise Unreadable
        elements[index] = value
        self.lists["elements"] = elements

    # --- answers ---

    def left(self, answer, name):
        """The lines of a call that may change a list: its answer, and the list, or the checksums of the other and of the list."""
        *told, self.lists[name] = answer
        head = " ".join(map(str, told))
        if self.sums:
            other = "elements" if name == "buffer" else "buffer"
            return [f"{head} {checksum(self.lists[other])} {checksum(self.lists[name])}"]
        return [head] + rows(name, self.lists[name])

    # --- cubes, weights, regions ---

    def on_cube(self, name, given):
        """`pack`, `unpack`; with a box `write`, `read`."""
        q, lent = cube.CubeLayout(*given[:7]), (self.lists["elements"], self.lists["buffer"])
        if name == "pack":
            answer = cube.pack(q, *lent)
            self.picture, self.packed = None, None if answer[0] else (q, *lent)
            return self.left(answer, "buffer")
        if name == "unpack":
            return self.left(cube.unpack(q, *lent), "elements")
        box = cube.Box(*given[7:])
        if name == "write":
            self.picture = self.packed = None
            return self.left(cube.write_box(q, box, *lent), "buffer")
        return self.left(cube.read_box(q, box, *lent), "elements")

    def on_weights(self, name, given):
        """`pack_weights`, `unpack_weights`."""
        q, lent = weights.WeightLayout(*given), (self.lists["elements"], self.lists["buffer"])
        if name == "unpack_weights":
            return self.left(weights.unpack(q, *lent), "elements")
        self.picture = self.packed = None
        return self.left(weights.pack(q, *lent), "buffer")

    def on_box(self, name, slot, owner, *box):
        """`edit`, `look`."""
        called = (slot, owner, cube.Box(*box), self.lists["elements"])
        if name == "edit":
            answer = regions.edit(self.table, *called, self.lists["buffer"])
            assert not self.picture or self.picture.edit(*called) == answer[:2]
            self.packed = None
            out = self.left(answer, "buffer")
        else:
            answer = regions.read(self.table, *called, self.lists["buffer"])
            assert not self.picture or self.picture.read(*called) == answer
            out = self.left(answer, "elements")
        self.check_picture()
        return out

    def on_release(self, *called):
        """`release`."""
        code, index, self.table, buffer = regions.release(self.table, *called, self.lists["buffer"])
        assert not self.picture or self.picture.release(*called) == (code, index)
        self.packed = None
        out = self.left((code, index, buffer), "buffer")
        self.check_picture()
        return out

    def on_paint(self, slot, owner, *given):
        """`paint`: the pixel buffer is the low byte of each element; the answer has how many components were held."""
        pixel_bytes = bytes(element % 256 for element in self.lists["elements"])
        called = (slot, owner, pixels.PixelSetting(*given[:8]), pixel_bytes, parlour.Conversion(*given[8:]))
        answer = parlour.paint(self.table, *called, self.lists["buffer"])
        assert not self.picture or self.picture.paint(*called) == answer[:3]
        self.packed = None
        out = self.left(answer, "buffer")
        self.check_picture()
        return out

    # --- atoms in scan order ---

    def on_walk(self, given):
        """`walk`: the atoms written, the answer with their number and the checksum of their positions.

        Asserts that packing has the same answer and leaves the same buffer, and
        that the steps of the walk give the same atoms.
        """
        q, elements, buffer = cube.CubeLayout(*given), self.lists["elements"], self.lists["buffer"]
        code, index, first = walk.start(q, elements, len(buffer))
        atoms = [] if code else walk.scan(q, elements)
        after = walk.written(atoms, buffer)
        assert cube.pack(q, elements, buffer) == (code, index, after)
        if first:
            walk.check(first, elements, atoms)
        self.picture, self.packed = None, None if code else (q, elements, buffer)
        positions = [at for at, _ in atoms]
        head, *listed = self.left((code, index, len(atoms), checksum(positions), "same", after), "buffer")
        return [head, *([] if self.sums else rows("positions", positions)), *listed]

    def on_step(self, given):
        """`step`: the atom, the walk behind it, and the atom's bytes; a negative number counts back from 2^64."""
        before = walk.Walk(*(number % walk.U64_SIZE for number in given))
        at, stored, after = walk.step(before, self.lists["elements"])
        told = "none left" if at is None else f"at {at}"
        return [" ".join(["0 0", told, "walk", *map(str, after)]), *rows("buffer", stored)]

    # --- mending ---

    def on_part(self, given):
        """`mend part`: the buffer is a part of a file; all places of a report are one number before."""
        q, (first, length) = cube.CubeLayout(*given[:7]), (number % walk.U64_SIZE for number in given[7:9])
        if max(given[9:11]) > PLACES_MAX:
            raise Unreadable
        places = [given[11]] * given[9], bytes([given[11] % 256]) * given[10]
        code, index, n, after, positions, olds = padding.mend(q, first, length, self.lists["buffer"], *places)
        self.lend("buffer", after)
        head = f"{code} {index} {n}"
        if self.sums:
            sums = checksum(word for p in positions for word in halves(p)), checksum(olds), checksum(after)
            return [" ".join(map(str, (head, *sums)))]
        return [head, *rows("positions", positions), *rows("buffer", olds), *rows("buffer", after)]

    def on_file(self, given):
        """`mend file`: the buffer is a whole file, mended in parts; what the program holds against it is asserted."""
        q, source, size = cube.CubeLayout(*given[:7]), self.lists["buffer"], given[7]
        if size == 0 or max(size, len(source)) > PLACES_MAX:
            raise Unreadable
        code, dirt, after = padding.check(q, size, source)
        assert code or not self.holds_packed(q) or not dirt
        self.lend("buffer", after)
        head = f"{code} 0 {len(dirt)} {checksum(number for p, old in dirt for number in (*halves(p), old))} same"
        return [f"{head} {checksum(after)}"] if self.sums else [head, *rows("buffer", after)]

    def holds_packed(self, q):
        """Whether the buffer is a packed one of this layout, with edits, leavings and paintings or without."""
        return bool(self.packed and self.packed[0] == q or self.picture and self.picture.layout == q)

    # --- region tables ---

    def on_table(self, name, given):
        """`desk`, `place`, `hand slot`, `hand layout`."""
        code, index = 0, 0
        if name == "desk":
            q = cube.CubeLayout(*given)
            self.table = regions.empty_table(q)
            self.picture = parlour.PlainPicture(*self.packed) if self.packed and self.packed[0] == q else None
        elif name == "place":
            called = (*given[:2], regions.Rectangle(*given[2:]))
            code, index, self.table = regions.place(self.table, *called)
            assert not self.picture or self.picture.place(*called) == (code, index)
        else:
            self.by_hand(name, given)
        self.check_picture()
        return [f"{code} {index}"]

    def by_hand(self, name, given):
        """Changes the table without a call."""
        self.packed = self.picture = None
        if name == "hand layout":
            self.table = self.table._replace(layout=cube.CubeLayout(*given))
        elif given[0] < regions.SLOT_COUNT:
            slot = regions.Slot(given[1] != 0, given[2], regions.Rectangle(*given[3:]))
            self.table = self.table._replace(slots=regions.with_slot(self.table.slots, given[0], slot))

    def check_picture(self):
        """Asserts that the buffer is the plain picture, packed, that the slots are its slots, and that fp16 has no NaN."""
        if self.picture:
            assert self.lists["buffer"] == self.picture.packed()
            assert self.table == (self.picture.layout, self.picture.slots)
            assert self.picture.layout.precision != 2 or not cube.nan_count(self.picture.raw)

    # --- values ---

    def value(self, name, given):
        """The commands that answer a code, an index and a value, or the first two alone; `convert` also tells if it was held."""
        if name == "position":
            answer = cube.position(cube.CubeLayout(*given[:7]), *given[7:])
        elif name == "stall position":
            answer = regions.position(self.table, *given)
        elif name == "stall count":
            answer = regions.count(self.table, *given)
        elif name == "extent":
            answer = cube.extent(cube.CubeLayout(*given))
        elif name == "whose":
            answer = cube.whose(cube.CubeLayout(*given[:7]), given[7])
        elif name == "convert":
            *answer, held = quantize.quantize(*given)
            answer.append(int(held))
        elif name == "pixel setting":
            answer = pixels.setting(pixels.PixelSetting(*given))[:2]
        elif name == "pixel position":
            answer = pixels.position(pixels.PixelSetting(*given[:8]), *given[8:])
        else:
            answer = 0, 0, camera.entry(lut.X if name.endswith(" x") else lut.Y, given[0])
        return [" ".join(map(str, answer))]

    # --- lookup ---

    def set_lookup(self, name, given):
        """`x linear`, `x exponential`, `y`, `bits`, `counters`."""
        if name == "counters":
            self.counters = tuple(given)
        elif name == "bits":
            bits = [lut.X if bit == 0 else lut.Y for bit in given]
            self.settings = lut.LutSettings(self.settings.x, self.settings.y, *bits)
        else:
            slopes = lut.Slope(*given[3:5]), lut.Slope(*given[5:])
            if name == "y":
                self.settings = self.settings._replace(y=lut.YSettings(*given[:3], *slopes))
            else:
                mode = lut.LINEAR if name == "x linear" else lut.EXPONENTIAL
                self.settings = self.settings._replace(x=lut.XSettings(mode, *given[:3], *slopes))
        return []

    def ready(self, s, *choices):
        """`ready`."""
        bits = [{0: lut.X, 1: lut.Y}.get(choice) for choice in choices]
        code, index, settings = camera.ready_made(s, *bits)
        if not code:
            self.settings = settings
        return [f"{code} {index}"]

    def lookup(self, split, count, before):
        """`lookup`."""
        entries = self.lists["elements"]
        if split > len(entries) or count > OUTPUTS_MAX:
            raise Unreadable
        outputs = [wrapped(before, S32_MIN, 4294967296)] * count
        code, index, outputs, self.counters = lut.run(self.settings, entries[:split], entries[split:],
                                                      self.lists["samples"], outputs, self.counters)
        head = " ".join(map(str, (code, index, *self.counters)))
        return [f"{head} {checksum(outputs)}"] if self.sums else [head] + rows("samples", outputs)

    # --- sheets ---

    def sheet(self):
        """`sheet`: what the sheet program prints, and that no cut in two changes it."""
        source = self.lists["buffer"]
        cuts = len(source) + 1 if len(source) <= CUTS_MAX else CUTS_MAX
        return sheet.text(source).split("\n")[:-1], f"same cuts {cuts}"

    # --- lines ---

    def lending(self, name, words):
        """A command that lends; false if it is none."""
        kinds = COMMANDS[name][0]
        if name in ROOM:
            self.lend(name, members(words, name))
        elif name in ("cells", "fill"):
            self.repeat({"cells": "elements", "fill": "buffer"}[name], *numbers(words, kinds))
        elif name == "draw curves":
            self.curves(*numbers(words, kinds))
        elif name.startswith(("draw ", "more ")):
            self.draw(name[5:], name.startswith("more "), *numbers(words, kinds))
        elif name == "set element":
            self.set_element(*numbers(words, kinds))
        else:
            return False
        return True

    def answered(self, name, words):
        """The lines of a command's answer, the first without its number."""
        given = numbers(words, COMMANDS[name][0])
        if name in ("pack", "unpack", "write", "read"):
            return self.on_cube(name, given)
        if name in ("pack_weights", "unpack_weights"):
            return self.on_weights(name, given)
        if name in ("edit", "look"):
            return self.on_box(name, *given)
        if name == "release":
            return self.on_release(*given)
        if name == "paint":
            return self.on_paint(*given)
        if name == "walk":
            return self.on_walk(given)
        if name == "step":
            return self.on_step(given)
        if name == "mend part":
            return self.on_part(given)
        if name == "mend file":
            return self.on_file(given)
        if name in ("desk", "place", "hand slot", "hand layout"):
            return self.on_table(name, given)
        if name == "ready":
            return self.ready(*given)
        if name == "lookup":
            return self.lookup(*given)
        if name.startswith("sum "):
            return [str(checksum(self.lists[name[4:]]))]
        if COMMANDS[name][1]:
            return self.set_lookup(name, given)
        return self.value(name, given)

    def command(self, number, name, words):
        """The lines that a command prints."""
        if self.lending(name, words):
            return []
        if name.startswith("show ") and not words:
            return rows(name[5:], self.lists[name[5:]])
        if name.startswith("print ") and not words:
            self.sums = name == "print sums"
            return []
        if name == "sheet" and not words:
            told, cuts = self.sheet()
            return told + [f"{number}: {cuts}"]
        out = self.answered(name, words)
        return [f"{number}: {out[0]}", *out[1:]] if out else []

    def line(self, number, text):
        """The lines that a line of input prints."""
        if not text or text.startswith("#"):
            return []
        name, words = named(text)
        _, sets, looks = COMMANDS.get(name, ("", EVERYTHING, set()))
        try:
            if name is None:
                raise Unreadable
            if self.spoilt & looks:
                self.check_words(name, words)
                self.spoilt |= sets
                return [f"{number}: not made"]
            out = self.command(number, name, words)
        except Unreadable:
            self.spoilt |= sets
            return [f"{number}: unreadable"]
        self.spoilt -= sets
        return out

    def check_words(self, name, words):
        """Raises Unreadable if the words are not those of the command."""
        if name not in ROOM:
            numbers(words, COMMANDS[name][0])


def printed(lines):
    """The lines that the lines of input print, one after the other."""
    board = Board()
    return [out for number, text in enumerate(lines, 1) for out in board.line(number, text)]


# --- files ---

def lines_of(path):
    """A file's lines; none if there is no file."""
    return path.read_text(encoding="ascii").split("\n")[:-1] if path.exists() else []


def renumbered(lines, shift):
    """Lines of output with the numbers of their answers moved."""
    return [re.sub(r"^\d+(?=: )", lambda m: str(int(m[0]) + shift), text) for text in lines]


def own_cases():
    """The cases below the mark, and what is stored for them, as if they stood at the beginning."""
    given, stored = lines_of(INPUT), lines_of(OUTPUT)
    if MARK not in given or given[-1] == MARK:
        return [], []
    at = given.index(MARK) + 1
    return given[at:], renumbered(stored[len(printed(given[:at])):], -at)


def write(path, lines):
    """A file of these lines."""
    path.parent.mkdir(parents=True, exist_ok=True)
    path.write_text("".join(line + "\n" for line in lines), encoding="ascii", newline="\n")


if __name__ == "__main__":
    own, stored = own_cases()
    cases = lines_of(CASES) + bulk.lines() + ["print all", MARK]
    write(INPUT, cases + own)
    write(OUTPUT, printed(cases) + renumbered(stored, len(cases)))
