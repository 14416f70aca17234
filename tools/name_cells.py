#!/usr/bin/env python3
"""name_cells.py [--check]

Writes the cells of two-letter names from their tables: crates/sd_kinds/src/flag_cells.rt from flags.rt, and
crates/sd_rights/src/right_cells.rt from rights_table.rt. With --check it writes nothing, and fails if one of the files
is stale; the last line is then 'N passed, M failed'. What the files say is proved all the same: a wrong cell fails the
check of its crate.
"""
import argparse
import pathlib
import re
import sys
import textwrap
from typing import NamedTuple

sys.dont_write_bytecode = True
sys.path.append(str(pathlib.Path(__file__).resolve().parent.parent / "tests/shared"))
import preload  # noqa: E402

CRATES = pathlib.Path(__file__).resolve().parent.parent / "crates"
NAMED = re.compile(r"named!\(b'([A-Z])', b'([A-Z])', (\w+)(?: as u32)?\)")
CONSTANT = re.compile(r"^pub const (\w+): u8 = (0x[0-9a-f]+);$", re.M)
LETTERS = 32  # the cells of a first letter
TEXT = """\
//! The bits of the names of {what} by their letters. `make figures` writes this file from `{table}`.

use sd_text::NameCells;

/// The bits of each two letters, or 0.
pub static {name}: NameCells = [
{cells}
];
"""


class Cells(NamedTuple):
    crate: str
    table: str
    file: str
    name: str
    what: str


ALL = [Cells("sd_kinds", "flags.rt", "flag_cells.rt", "FLAG_CELLS", "flags"),
       Cells("sd_rights", "rights_table.rt", "right_cells.rt", "RIGHT_CELLS", "access rights")]


def path_of(cells: Cells) -> pathlib.Path:
    return CRATES / cells.crate / "src" / cells.file


def written(cells: Cells) -> str:
    """The file as it has to be. No name is in two rows."""
    text = (CRATES / cells.crate / "src" / cells.table).read_text(encoding="utf-8")
    constants = dict(CONSTANT.findall(text))
    bits = ["0"] * (LETTERS * LETTERS)
    for first, second, mask in NAMED.findall(text):
        place = ord(first) % LETTERS * LETTERS + ord(second) % LETTERS
        if bits[place] != "0":
            sys.exit(f"{cells.table}: {first}{second} has two rows")
        bits[place] = constants.get(mask, mask).replace("_", "")  # `rt fmt` gives what is longer a line of its own
    body = textwrap.fill(", ".join(bits) + ",", 100, initial_indent="    ", subsequent_indent="    ")
    return TEXT.format(what=cells.what, table=cells.table, name=cells.name, cells=body)


def main() -> int:
    parser = argparse.ArgumentParser(description="Writes the cells of names from their tables.")
    parser.add_argument("--check", action="store_true", help="writes nothing, and fails if a file is stale")
    if not parser.parse_args().check:
        for cells in ALL:
            path_of(cells).write_text(written(cells), encoding="utf-8")
        return 0
    count = preload.Count(most_shown=10)
    for cells in ALL:
        count.add(path_of(cells).read_text(encoding="utf-8") == written(cells),
                  f"{cells.file} is stale: run make figures")
    return count.end()


if __name__ == "__main__":
    sys.exit(main())
