"""Runs rows and random lines without a proof, in about a minute: `rt try` builds the program from its sources as they
stand, proves nothing and keeps no file. It is given the lines of worked rows (rows/) but for very long ones, all with
the same words in one run where there are two rows or more, or help is asked for, and random lines of compare.py, whose
answers are those of the reference. It stops too where an index is out of bounds, a number overflows or memory is used
wrongly. The reference is compared with the rows first.
"""
import collections
import pathlib
import random
import re
import subprocess
import tempfile
from typing import NamedTuple, Tuple

import compare
import preload
import run_rows

PROGRAM = pathlib.Path(__file__).resolve().parents[2] / "crates/sdtool"
RANDOM_LINES = 200  # of either form
WORDS = [compare.UNDER[0], compare.EXPLAINED[0], compare.CHECKED[1]]
WORDS_FROM_SDDL = [compare.EVERY_WORDS_FROM_SDDL[3]]
MOST_BYTES = 20_000  # of a row: such a build is slow, and of more than 1 MiB of output it judges none
HELP = {"help", "--help", "-h"}
ENDED = re.compile(rb"case=.* run=ended status=(\d+) .*\boutput=expected\b")


class Run(NamedTuple):
    words: Tuple[str, ...]
    given: bytes
    stdout: bytes
    status: int
    what: str


def of_rows():
    """For all rows with the same words one run, over their lines."""
    rows_of = collections.defaultdict(list)
    for row in filter(run_rows.is_for_files, run_rows.all_rows()):
        given, stdout = run_rows.text(row["stdin"]), run_rows.text(row.get("stdout", ""))
        words = tuple(run_rows.text(word).decode("latin-1") for word in row["words"])
        if HELP.intersection(words):
            stdout = stdout.replace(b"Usage: sdtool", b"Usage: program")  # the name that `rt try` gives it
        if row.get("status", 0) < 2 and given.endswith(b"\n") and len(given + stdout) <= MOST_BYTES:
            rows_of[words].append((given, stdout, row.get("status", 0)))
    for words, rows in rows_of.items():
        if len(rows) > 1 or HELP.intersection(words):
            given, stdout, statuses = zip(*rows)
            yield Run(words, b"".join(given), b"".join(stdout), max(statuses), f"{len(rows)} rows")


def of_random_lines():
    maker = compare.Lines(random.Random(1))
    for line, every_words in ((maker.line, WORDS), (maker.sddl_line, WORDS_FROM_SDDL)):
        given = compare.Input(b"".join(line() + maker.end() for _ in range(RANDOM_LINES)))
        for words in every_words:
            answers, status = given.answers(words)
            stdout = b"".join(answer + b"\n" for answer in answers)
            yield Run(tuple(words), given.data, stdout, status, f"{len(answers)} random lines")


def told_of(folder):
    """What `rt try` says of each file of the folder, by its name: a line, and those before it."""
    nothing = subprocess.DEVNULL
    command = ["rt", "try", "--cases", folder]
    said = subprocess.run(command, cwd=PROGRAM, stdin=nothing, stdout=nothing, stderr=subprocess.PIPE).stderr
    told, before = {}, b""
    for line in said.splitlines(keepends=True):
        before += line
        if line.startswith(b"case="):
            told[line.split()[0].decode()] = line, before
            before = b""
    return told, before


def main(count: preload.Count) -> None:
    run_rows.judge(count, filter(run_rows.is_for_reference, run_rows.all_rows()), run_rows.asked_of_reference)
    print(f"rows on the reference: {count.passed}", flush=True)
    runs = {f"{number:03}": run for number, run in enumerate([*of_rows(), *of_random_lines()])}
    with tempfile.TemporaryDirectory() as name:
        for number, run in runs.items():
            path = pathlib.Path(name, number)
            path.write_bytes(run.given)
            path.with_suffix(".stdout").write_bytes(run.stdout)
            path.with_suffix(".args").write_text("".join(f"{word}\n" for word in run.words), encoding="utf-8")
        told, rest = told_of(name)
    for number, run in runs.items():
        line, all_lines = told.get(f"case={number}", (b"", rest))
        ended = ENDED.match(line)
        is_right = ended and int(ended[1]) == run.status
        print(f"sdtool {' '.join(run.words)}: {run.what}")
        count.add(is_right, f"status {run.status} is wanted:\n{all_lines.decode(errors='replace')}")
