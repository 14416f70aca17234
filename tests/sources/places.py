"""Compares the tables of docs/ARCHITECTURE.md with the files that a change touches: an alias, an error, a kind of ACE,
a format, a question, a rule or a report of sdtool-audit. Each table is held to one instance of its subject that the
sources have. Every file that names the instance has to be in the table, and of each row some file has to name it. So
whoever adds a table, a binding or a list that a change has to follow also adds it there. --files prints the files of a
subject and stops; an option and a further input of a command have no table.
"""
import fnmatch
import functools
import itertools
import pathlib
import re
from typing import NamedTuple

import names
import preload

TOP = pathlib.Path(__file__).resolve().parents[2]
DOCUMENT = "docs/ARCHITECTURE.md"
# What only tells of an instance, or gives it as an example, need not change with another one.
TOLD = ["CHANGELOG.md", "CONTRIBUTING.md", "README.md", "docs/*", "examples/*", "bench/*", "tests/library/c/older/*",
        "tests/sources/places.py", "windows/examples.toml", "windows/kinds.toml", "windows/schema.toml"]
# What has to change there is named by the check. Edits, which names.py leaves out, are named by tools/edits.py --apply.
NAMED = ["crates/*/proofs/*"]


class Subject(NamedTuple):
    heading: str  # of its table, if it has one
    instance: str
    pattern: str  # what names the instance


SUBJECTS = {
    "alias": Subject("An alias", "MU", r"\bMU\b|b'M', b'U'"),
    "error": Subject("An error", "not-self-relative", r"(?i)\b(?:not|isn't).?self.?relative|bit 0x8000 is clear"),
    "kind": Subject("A kind of ACE", "ObjectAudit", r"(?i)object.?audit|[\"'(`]OU[\"'`;]|b'O', b'U'|audit_?object"),
    "option": Subject("", "--take-ownership", r"(?i)take.?ownership"),
    "input": Subject("", "--creator", r"\b[Cc]reator\b(?!.?(?i:owner|group|rights))"),
    "format": Subject("A format of `sdtool-audit`", "wevtutil", r"wevtutil(?! sl)"),
    "question": Subject("A question of `sdtool-audit`", "Having", r"\bHaving\b"),
    "rule": Subject("A rule of `sdtool-audit`", "children-change", r"children-change"),
    "report": Subject("A form of its reports", "Markdown", r"(?<!copied\", )\"markdown\"|class Markdown|--to markdown"),
}


def is_one_of(path, patterns):
    return any(fnmatch.fnmatch(path, pattern) for pattern in patterns)


def changes(path):
    return not is_one_of(path, TOLD + NAMED)


@functools.lru_cache(maxsize=None)
def texts():
    """Each file of the repository with its text."""
    return [(path.relative_to(TOP).as_posix(), path.read_text(encoding="utf-8", errors="replace"))
            for path in sorted(names.files())]


def naming(pattern):
    """The files of the repository that name the instance."""
    name = re.compile(pattern)
    return [path for path, text in texts() if name.search(text)]


def places_in(cell):
    """Each place of a first column as a pattern of paths. `sd_x`: `a.rt`, `specs/B.antt` are files of a crate."""
    crate = None
    for name, colon in re.findall(r"`([^`]+)`(:?)", cell):
        if colon:
            crate = name
        elif crate is None:
            yield name + "*" if name.endswith("/") else name
        elif name.endswith(".rt"):
            yield f"crates/{crate}/src/{name}"
        else:
            yield f"crates/{crate}/{name}*" if name.endswith("/") else f"crates/{crate}/{name}"


def rows_of(text, heading):
    """The places of each row of the first table below a heading."""
    section = re.search(rf"^### {re.escape(heading)}\n(.*?)(?=^##|\Z)", text, re.S | re.M)
    table = re.search(r"^\| Where \|.*?\n(.*?)(?=\n\n|\Z)", section[1], re.S | re.M) if section else None
    cells = re.findall(r"^\| (.*?) \|", table[1], re.M) if table else []
    return [(cell, [place for part in cell.split("; ") for place in places_in(part)]) for cell in cells]


def add_options(parser):
    parser.add_argument("--files", choices=SUBJECTS, help="prints the files of a subject, and stops")


def main(count: preload.Count, given: preload.Given) -> None:
    if given.files:
        print("\n".join(filter(changes, naming(SUBJECTS[given.files].pattern))))
        return
    count.most_shown = 1000
    text = (TOP / DOCUMENT).read_text(encoding="utf-8")
    for subject in SUBJECTS.values():
        if not subject.heading:
            count.add(naming(subject.pattern), f"no file names {subject.instance}")
            continue
        files, rows = naming(subject.pattern), rows_of(text, subject.heading)
        count.add(rows, f"{DOCUMENT} has no table below '{subject.heading}'")
        for path in filter(changes, files):
            found = is_one_of(path, itertools.chain.from_iterable(places for _, places in rows))
            count.add(found, f"{path} names {subject.instance}, and the table below '{subject.heading}' leaves it out")
        for cell, places in rows:
            found = any(is_one_of(path, places) for path in files)
            count.add(found, f"'{subject.heading}': no file of {cell} names {subject.instance}")
