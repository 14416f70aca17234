#!/usr/bin/env python3
"""figures.py

Prints what each crate contains, and how large it is. It also counts the lines of definitions to read. Lines of
definitions are those of specs/*.antt but for specs/Inner/, Lib.antt, `use` lines and empty lines. In src, the models of
types and the traits of the devices have to be read too.
"""
import pathlib
import re
import sys
from typing import List

TOP = pathlib.Path(__file__).resolve().parent.parent
HEADS = ("crate", "functions", "src", "specs", "proofs", "edits in the gate", "further edits",
         "definitions", "comments")
ITEM = re.compile(r"\bfn\s+\w+")
COMMENT = re.compile(r"//.*")
OF_TESTS = {"sd_tests", "sd_run_tests"}
NO_DEFINITIONS = {"Lib.antt", "Inner.antt"}  # these only list modules
MODEL = re.compile(r"^ *ghost (?:Value|view) = \{.*?\};$", re.M | re.S)
DEVICES = "sd_run/src/device.rt"
TRAIT = re.compile(r"^pub trait \w+ \{$.*?^\}$", re.M | re.S)


def subject_of(crate: str) -> str:
    """What a crate contains, by the first sentence of its root file."""
    source = next((TOP / "crates" / crate / "src").glob("[lm][ia][bi]*.rt"))
    head = " ".join(re.findall(r"^//! ?(.*)", source.read_text(encoding="utf-8"), re.M))
    return re.split(r"(?<=\.)\s", head, 1)[0]


def crates() -> List[str]:
    rows = (TOP / "crates.txt").read_text(encoding="utf-8").splitlines()
    return [row.partition(":")[0].split()[0] for row in rows if row.strip() and not row.startswith("#")]


def texts(folder: pathlib.Path) -> List[str]:
    return [path.read_text(encoding="utf-8") for path in sorted(folder.rglob("*")) if path.suffix in (".rt", ".antt")]


def lines_of_definitions(crate: str) -> List[int]:
    """How many lines of definitions a crate has, and how many of them are comments."""
    files = [path for path in (TOP / "crates" / crate / "specs").glob("*.antt") if path.name not in NO_DEFINITIONS]
    lines = [line.strip() for path in files for line in path.read_text(encoding="utf-8").splitlines()]
    lines = [line for line in lines if line and not line.startswith("use ")]
    return [len(lines), sum(line.startswith("--") for line in lines)]


def lines_in_sources() -> int:
    """How many lines of src a reader of the definitions needs."""
    files = {path.relative_to(TOP / "crates").as_posix(): path.read_text(encoding="utf-8")
             for path in sorted((TOP / "crates").glob("*/src/**/*.rt")) if path.parent.parent.name not in OF_TESTS}
    items = [item for text in files.values() for item in MODEL.findall(text)] + TRAIT.findall(files[DEVICES])
    lines = [line.strip() for item in items for line in item.splitlines()]
    return sum(bool(line) and not line.startswith("//") for line in lines)


def figures_of(crate: str) -> List[int]:
    folder = TOP / "crates" / crate
    functions = sum(len(ITEM.findall(COMMENT.sub("", text))) for text in texts(folder / "src"))
    lines = [sum(text.count("\n") for text in texts(folder / part)) for part in ("src", "specs", "proofs")]
    edits = [len(list(place.glob("*.edit"))) for place in (folder / "must-fail", TOP / "tests/edits" / crate)]
    return [functions, *lines, *edits, *lines_of_definitions(crate)]


def main() -> int:
    figures = {crate: figures_of(crate) for crate in crates()}
    figures["all"] = [sum(column) for column in zip(*figures.values())]
    rows = [HEADS, *((name, *(f"{number:,}" for number in numbers)) for name, numbers in figures.items())]
    widths = [max(map(len, column)) for column in zip(*rows)]
    for name, *cells in rows:
        print(name.ljust(widths[0]), *(cell.rjust(width) for cell, width in zip(cells, widths[1:])), sep="  ")
    print(f"lines of src that a reader of the definitions needs: {lines_in_sources()}\n")
    for crate in crates():
        print(f"{crate}: {subject_of(crate)}")
    return 0


if __name__ == "__main__":
    sys.exit(main())
