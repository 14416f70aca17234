#!/usr/bin/env python3
"""alias_places.py [--check]

Writes crates/sd_alias/src/places.rt from table.rt beside it. It says where the entry of each two letters is, and that
of each SID. With --check it writes nothing, and fails if the file is stale; the last line is then 'N passed, M failed'.
What the file says is proved all the same: a wrong place fails the check of sd_alias.
"""
import argparse
import pathlib
import random
import re
import sys
import textwrap
from typing import List, Tuple

sys.dont_write_bytecode = True
sys.path.append(str(pathlib.Path(__file__).resolve().parent.parent / "tests/shared"))
import preload  # noqa: E402

SOURCES = pathlib.Path(__file__).resolve().parent.parent / "crates/sd_alias/src"
TABLES, PLACES = SOURCES / "table.rt", SOURCES / "places.rt"
KNOWN = re.compile(r"known!\(b'(\w)', b'(\w)', (\d+), (\d+), \[([\d, ]+)\]\)")
RELATIVE = re.compile(r"relative!\(b'(\w)', b'(\w)', \d+\)")
LETTERS = 26
SID_CELLS = 128
HEAD = """\
//! Where each name of two letters is in the tables of aliases. `make figures` writes this file from `table.rt`.

/// The letters from A to Z.
pub const LETTERS: usize = 26;

/// No name.
pub const NO: u8 = 255;
"""
TABLE = """
/// The place of the entry of each two capital letters, or `NO`. There are 26 cells for each first letter, and in them
/// one for each second letter. The entries of `WELL_KNOWN` have the first places, and those of `DOMAIN_RELATIVE` the
/// next ones.
pub const PLACES: [u8; LETTERS * LETTERS] = [
{cells}
];

/// What spreads SIDs over the cells: the entry of each SID in `WELL_KNOWN` has a cell of its own.
pub const SID_SPREAD: u64 = {spread};

/// The place of the entry of each SID, or `NO`, in the cell that its authority and last sub-authority give.
pub const SID_PLACES: [u8; {sid_cells}] = [
{sids}
];
"""


def sid_places(known: List[Tuple[str, ...]]) -> Tuple[str, List[str]]:
    """A factor that gives each SID a cell of its own, and the cells."""
    keys = [int(row[2]) + 32 * int(row[4].split(",")[int(row[3]) - 1]) for row in known]
    if len(set(keys)) < len(keys):
        sys.exit(f"{TABLES}: two names have the same authority and the same last sub-authority, so they share a cell")
    chance = random.Random(1)
    while True:
        spread = chance.getrandbits(64) | 1
        found = [key * spread % 2**64 * SID_CELLS // 2**64 for key in keys]
        if len(set(found)) == len(found):
            break
    cells = ["NO"] * SID_CELLS
    for place, cell in enumerate(found):
        cells[cell] = str(place)
    return f"0x{spread:_x}", cells


def filled(cells: List[str]) -> str:
    return textwrap.fill(", ".join(cells) + ",", 99, initial_indent="    ", subsequent_indent="    ")


def written() -> str:
    """The file as it has to be."""
    text = TABLES.read_text(encoding="utf-8")
    known = KNOWN.findall(text)
    cells = ["NO"] * (LETTERS * LETTERS)
    for place, row in enumerate([*known, *RELATIVE.findall(text)]):
        cells[LETTERS * (ord(row[0]) - ord("A")) + ord(row[1]) - ord("A")] = str(place)
    spread, sids = sid_places(known)
    return HEAD + TABLE.format(cells=filled(cells), spread=spread, sid_cells=SID_CELLS, sids=filled(sids))


def main() -> int:
    parser = argparse.ArgumentParser(description="Writes the places of aliases from their tables.")
    parser.add_argument("--check", action="store_true", help="writes nothing, and fails if the places are stale")
    if not parser.parse_args().check:
        PLACES.write_text(written(), encoding="utf-8")
        return 0
    count = preload.Count(most_shown=10)
    count.add(PLACES.read_text(encoding="utf-8") == written(), f"{PLACES.name} is stale: run make figures")
    return count.end()


if __name__ == "__main__":
    sys.exit(main())
