"""The mending program: a frame and two file names in, the report of the first file out, the mended file in the second.

Renders change request K8 and open points 20 and 24. Files are a dictionary from
names to bytes; a name that it lacks is that of a missing file. The report is made
of the whole file at once: that the program goes through it in parts must not show.
"""

from collections import namedtuple

from cube import CubeLayout
from padding import frame_code, mended, report
from sheet import LINE_MAX, UNREADABLE, lines, record

# what is no file of bytes: a folder opens for reading alone, and is not read; of FULL it matters that it opens for
# writing and takes no byte
FOLDER, FULL = "folder", "full"

# what a run printed, the number that it printed last (0 if none), the first file's length as it was read (0 if it was
# not), and the files after it
Run = namedtuple("Run", "printed code length files")
Request = namedtuple("Request", "layout first second")

HEADER = b"position\told\n"


# --- the input ---

def is_name(line):
    """Whether a line is a name: one field of 1 to 120 bytes."""
    return 1 <= len(line) <= LINE_MAX and b"\t" not in line


def request(source):
    """What an input asks for: a frame line and two different names, one a line, and nothing else; or None."""
    listed = lines(source)
    if len(listed) != 3:
        return None
    frame, first, second = record(listed[0]), *listed[1:]
    if frame is None or frame[0] != b"frame" or not is_name(first) or not is_name(second) or first == second:
        return None
    return Request(CubeLayout(*frame[1]), first, second)


# --- files ---

def is_text(name):
    """Whether a name is UTF-8 text: only then does the program's library open it."""
    try:
        name.decode()
    except UnicodeDecodeError:
        return False
    return True


def opens_to_write(files, name):
    """Whether a file can be made or emptied under a name: the name is text, and it is no folder, and stands in one that is there."""
    folder, _, _ = name.rpartition(b"/")
    return is_text(name) and files.get(name) is not FOLDER and (name in files or not folder or files.get(folder) is FOLDER)


# --- a run ---

def number_line(code):
    """A number alone on its line."""
    return b"%d\n" % code


def report_lines(dirt):
    """The lines of a report."""
    return b"".join(b"%d\t%d\n" % (p, old) for p, old in dirt)


def run(source, files):
    """A run of the program over files."""
    def refused(code, length):
        return Run(number_line(code), code, length, files)

    asked = request(source)
    if asked is None:
        return refused(UNREADABLE, 0)
    whole = files.get(asked.first)
    if not is_text(asked.first) or not isinstance(whole, bytes):
        return refused(UNREADABLE, 0)
    if code := frame_code(asked.layout, len(whole)):
        return refused(code, len(whole))
    if not opens_to_write(files, asked.second):
        return refused(UNREADABLE, len(whole))
    if files.get(asked.second) is FULL:
        # no byte of the first part can be written, so none of its lines is printed
        return Run(HEADER + number_line(UNREADABLE), UNREADABLE, len(whole), files)
    dirt = report(asked.layout, 0, whole)
    return Run(HEADER + report_lines(dirt), 0, len(whole), {**files, asked.second: mended(dirt, 0, whole)})


# --- many runs, one after another ---

def checksum(text):
    """A number for all bytes of a text."""
    s = 0
    for b in text:
        s = (s * 65599 + b + 1) % 4294967296
    return s


def shown(files, name):
    """What is told of a file: its length and its checksum."""
    held = files.get(name)
    return b"%d %d\n" % (len(held), checksum(held)) if isinstance(held, bytes) else b"none\n"


def told(cases, files):
    """What the test program prints for cases, each a file to show and the input of a run; the files of one are there for the next."""
    out = []
    for number, (name, source) in enumerate(cases, 1):
        printed, code, length, files = run(source, files)
        out += [b"case %d\n" % number, printed, b"ended %d %d %d\n" % (code, length, checksum(printed)), shown(files, name)]
    return b"".join(out)
