"""Writes crates/pack_frame/stdout: the scope paper's example layout, packed.

Renders "Cells and cubes" on one raw tensor of 240 elements over a buffer of
480 bytes 238. A line has its first byte's offset and 32 bytes in hexadecimal.
"""

from pathlib import Path

from cube import CubeLayout, pack

OUTPUT = Path(__file__).resolve().parent.parent / "crates" / "pack_frame" / "stdout"


def packed_example():
    """The packed buffer of the example layout."""
    raw = [i % 251 - 125 for i in range(240)]
    code, _, buffer = pack(CubeLayout(3, 2, 40, 0, 128, 256, 0), raw, bytes([238]) * 480)
    assert code == 0
    return buffer


def dump(buffer):
    """The buffer as text, 32 bytes a line."""
    for at in range(0, len(buffer), 32):
        yield f"{at} {buffer[at:at + 32].hex(' ')}\n"


if __name__ == "__main__":
    OUTPUT.parent.mkdir(parents=True, exist_ok=True)
    OUTPUT.write_text("".join(dump(packed_example())), encoding="ascii", newline="\n")
