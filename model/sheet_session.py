"""Writes crates/sheet/stdin and stdout: the scope paper's session, and the sheet program's whole output for it.

Renders "The sheet program" through the model.
"""

from pathlib import Path

from sheet import text
from sheet_cases import SESSION

FOLDER = Path(__file__).resolve().parent.parent / "crates" / "sheet"


if __name__ == "__main__":
    FOLDER.mkdir(parents=True, exist_ok=True)
    (FOLDER / "stdin").write_bytes(SESSION)
    (FOLDER / "stdout").write_text(text(SESSION), encoding="ascii", newline="\n")
