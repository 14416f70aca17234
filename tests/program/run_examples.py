"""Runs the examples of the documents and of the man page, and compares what they print. An example is a command after
'$ ' in a fenced block or in the section EXAMPLES, and has the program on the PATH as sdtool. What it prints, on both
streams, has to be what the document shows below it. A document without an example fails, and so does an example that
stands in no such block. In the tables of docs/SAMBA.md the column of sdtool has to be what the program answers.
"""
import os
import pathlib
import re
import shutil
import subprocess
import tempfile
from typing import NamedTuple

import preload

SECONDS = 1200  # for one command
TOP = pathlib.Path(__file__).resolve().parents[2]
# The documents, and the folder in which the commands of each are run: one that has a copy of examples/, or that copy.
DOCUMENTS = {"README.md": ".", "docs/COOKBOOK.md": "examples", "docs/FORMAT.md": ".", "docs/sdtool.1": "examples"}
BESIDE_SAMBA = "docs/SAMBA.md"  # its tables are run row by row
COMMAND = re.compile(r"\s*\$ .*\b(sdtool|who_may_write|\w+\.(py|sh))\b")
OF_LIBRARY = re.compile(r"\bwho_may_write\b")  # c_examples.py runs these
ESCAPES = {r"\-": "-", r"\(aq": "'", r"\(dq": '"', r"\(ha": "^", r"\(ti": "~", r"\(bs": "\\", r"\e": "\\", r"\&": ""}


class Example(NamedTuple):
    command: str
    printed: str


def plain(line):
    """A line of the man page without its escapes."""
    return re.sub(r"\\(\(..|.)", lambda found: ESCAPES[found[0]], line)


def blocks_of(text, is_man_page):
    """The lines of each block."""
    if is_man_page:
        section = text.partition(".SH EXAMPLES\n")[2].partition("\n.SH ")[0]
        blocks = re.findall(r"^\.nf\n(.*?)^\.fi$", section, re.S | re.M)
        return [list(map(plain, block.splitlines())) for block in blocks]
    return [block.splitlines() for block in re.findall(r"^```[^\n]*\n(.*?)^```$", text, re.S | re.M)]


def examples_in(blocks):
    """Each command, with the lines below it up to the next one."""
    for lines in blocks:
        starts = [at for at, line in enumerate(lines) if line.startswith("$ ")]
        for start, end in zip(starts, [*starts[1:], len(lines)]):
            yield Example(lines[start][2:], "".join(line + "\n" for line in lines[start + 1:end]))


def tables_in(text):
    """Each row of each table: its cells, without backticks, by the heads."""
    for table in re.findall(r"(?:^\|.*\n)+", text, re.M):
        heads, _, *rows = ([cell.strip().strip("`") for cell in line.strip("|\n").split(" | ")]
                           for line in table.splitlines())
        yield from (dict(zip(heads, row)) for row in rows)


def beside_samba(row):
    """What a row asks, of which line, and the front of the answer."""
    derive = ["derive", "--from", "sddl", "--owner", "BA", "--group", "SY", "--kind"]
    if "Options" in row:
        return ["check", "--from", "sddl", *row["Options"].split()], row["Descriptor"], row["sdtool"]
    if "Folder" in row:
        return [*derive, row["--kind"]], row["Folder"], f"O:BAG:SY{row['sdtool']}\n"
    if "--creator" in row:
        creator = ["--creator", row["--creator"]]
        return [*derive, row["--kind"], *creator], "D:(A;OICI;FA;;;SY)", f"O:BAG:SY{row['sdtool']}\n"
    return ["convert", "--from", "sddl"], row["Samba"].replace("nothing", row["sdtool"]), f"{row['sdtool']}\n"


def judge_tables(count, program):
    rows = list(tables_in((TOP / BESIDE_SAMBA).read_text(encoding="utf-8")))
    count.add(rows, f"{BESIDE_SAMBA} has no table")
    for row in rows:
        words, line, wanted = beside_samba(row)
        ended = subprocess.run([program, *words], input=f"{line}\n", text=True, stdout=subprocess.PIPE)
        count.add(ended.stdout.startswith(wanted), f"{BESIDE_SAMBA}: {row} has {ended.stdout}")


def printed_by(command, folder, path):
    ended = subprocess.run(["sh", "-c", command], cwd=folder, env={**os.environ, "PATH": path}, text=True,
                           stdin=subprocess.DEVNULL, stdout=subprocess.PIPE, stderr=subprocess.STDOUT, timeout=SECONDS)
    return ended.stdout


def main(count: preload.Count, given: preload.Given) -> None:
    program = given.program
    judge_tables(count, program)
    with tempfile.TemporaryDirectory() as bin_folder:
        os.symlink(program, os.path.join(bin_folder, "sdtool"))
        path = os.pathsep.join([bin_folder, os.environ["PATH"]])
        for document, folder in DOCUMENTS.items():
            text = (TOP / document).read_text(encoding="utf-8")
            examples = list(examples_in(blocks_of(text, document.endswith(".1"))))
            stand = sum(bool(COMMAND.match(line)) for line in text.splitlines())
            count.add(0 < stand == len(examples), f"{document}: {stand} examples stand there, {len(examples)} are run")
            room = pathlib.Path(bin_folder, document.replace("/", "_"))
            shutil.copytree(TOP / "examples", room / "examples")
            for example in examples:
                if OF_LIBRARY.search(example.command):
                    continue
                printed = printed_by(example.command, room / folder, path)
                count.add(printed == example.printed,
                          f"{document}: {example.command}\n  printed {printed!r}\n  not     {example.printed!r}")
