#!/usr/bin/env python3
"""edits.py [--apply] [--edit WORD] [CRATE ..]

Tries the edits, wrong bodies that the prover must refuse: those of crates/NAME/must-fail and tests/edits/NAME. Each
puts a wrong body in place of a function's own, and the prover has to refuse it. Without names it tries the edits of all
crates, with --edit those whose name has the word. It runs two crates side by side.

First `rt check` has to prove each crate as it stands, which keeps its work in out/. Each edit is then made in a copy of
the crate, of those below it and of their kept work, and `rt check` runs there, so an edit costs what it changes
and no second proof. An edit passes where the crate is not proved with it because a goal fails. It fails where

  - the crate is still proved
  - the edit does not apply, compile or read, or the check breaks off
  - all that fails is a proof file that names what the edit took away, and what cites that file

Each edit has a line with its seconds. With --apply nothing is checked but that each edit still applies, and that the
first line of each edit of crates/NAME/must-fail is a comment that says what refuses it. That takes a second. The last
line is 'N passed, M failed'.
"""
import argparse
import contextlib
import pathlib
import re
import shutil
import subprocess
import sys
import tempfile
import threading
import time
from concurrent.futures import ThreadPoolExecutor
from typing import NamedTuple

sys.dont_write_bytecode = True
sys.path.append(str(pathlib.Path(__file__).resolve().parent.parent / "tests/shared"))
import preload  # noqa: E402
import layers  # noqa: E402

TOP = pathlib.Path(__file__).resolve().parent.parent
AT_ONCE = 2  # crates
SECONDS = 900  # for one check
CHECK = ("rt", "check", "--jobs", "1")
COMMENT = "# "
REFUSED_BY = f"{COMMENT}Refused by "  # how an edit of the gate begins
PLACE = r"(?:\./)?(\S+?):\d+:\d+: "
# Where antt reads a text that an edit made false, it names a goal; these words say that it could not read the text.
UNREAD = re.compile(PLACE + r"error: (`[^`]*`: )?(.*)")
UNREAD_WORDS = re.compile(
    r"is not in scope|has no field|is no name|operand is missing|expected the end|cannot continue")
GOAL = re.compile(r"note: " + PLACE + "|" + PLACE + "error")
# A proof that names what is gone, and what cites that proof.
NAMES_WHAT_IS_GONE = re.compile(r"(?:\./)?proofs/.*(?:has no field|is not in scope|has no `|was not admitted)")
STALE = re.compile(r"module .Rattle-\w+-.*Run the lower steps again")


class WrongEdit(Exception):
    """Says why an edit cannot be tried, or what it shows."""


class Checked(NamedTuple):
    status: object  # of the command, or None where it took too long
    said: str
    seconds: float


def check(folder):
    began = time.monotonic()
    streams = {"stdin": subprocess.DEVNULL, "stdout": subprocess.PIPE, "stderr": subprocess.STDOUT}
    try:
        ended = subprocess.run(CHECK, cwd=folder, timeout=SECONDS, encoding="utf-8", errors="replace", **streams)
        status, said = ended.returncode, ended.stdout
    except subprocess.TimeoutExpired:
        status, said = None, ""
    return Checked(status, said, time.monotonic() - began)


def copy_folder(start, end):
    subprocess.run(["cp", "-a", str(start), str(end)], check=True)


def edits_of(crate, word):
    """The files of a crate's edits; no two have one name."""
    folders = TOP / "crates" / crate / "must-fail", TOP / "tests/edits" / crate
    found = {path.stem: path for folder in folders for path in folder.glob("*.edit") if word in path.stem}
    return [found[name] for name in sorted(found)]


def below(crate, listed):
    """The crates of the repository that a crate depends on."""
    direct = listed[crate] & listed.keys()
    return direct.union(*(below(other, listed) for other in direct))


def edited(text, folder):
    """By its path, what each file of the crate is with the edit."""
    path, old, texts = None, None, {}
    for line in text.splitlines():
        word, _, rest = line.partition(":")
        rest = rest[1:] if rest.startswith(" ") else rest
        if word == "file":
            path = rest.strip()
        elif word == "old":
            old = rest
        elif word == "new":
            if not path or not old or not path.startswith("src/") or not (folder / path).is_file():
                raise WrongEdit("no old text, or no file below src/, is named before a new text")
            now = texts.get(path) or (folder / path).read_text(encoding="utf-8")
            if now.count(old) != 1:
                raise WrongEdit(f"an old text is in {path} {now.count(old)} times, and not once")
            if old == rest:
                raise WrongEdit("a new text is the old one")
            texts[path], old = now.replace(old, rest), None
        elif line and not line.startswith(COMMENT):
            raise WrongEdit(f"a line is no file, old text or new text: {line}")
    if not texts:
        raise WrongEdit("it has no pair of texts")
    return texts


def is_unread(line, changed):
    found = UNREAD.match(line)
    if not found or not (found[1] in changed or found[1].startswith(("src/", "specs/"))):
        return False
    return not found[2] or bool(UNREAD_WORDS.search(re.sub("`[^`]*`", "", found[3])))


def failed_goal(checked, changed):
    """The line of a goal that fails with the edit."""
    lines = [line for line in checked.said.splitlines() if not line.startswith("rt: ")] or [""]
    if checked.status is None:
        raise WrongEdit(f"the check took more than {SECONDS} seconds")
    if checked.status == 0:
        raise WrongEdit("NOT REFUSED: the crate is still proved")
    if any(is_unread(line, changed) for line in lines):
        raise WrongEdit(f"it does not read: {next(line for line in lines if is_unread(line, changed))}")
    if STALE.search(checked.said):
        raise WrongEdit("the kept work of a library cannot be used")
    if checked.status != 1 or not lines[-1].startswith("logic=not-proved"):
        errors = [line for line in checked.said.splitlines() if "error" in line] or lines
        raise WrongEdit(f"the check did not reach the prover: {errors[0]}")
    goals = [line for line in lines if GOAL.match(line)]
    telling = [line for line in goals if not NAMES_WHAT_IS_GONE.match(line)]
    if not telling:
        raise WrongEdit(f"only a proof file that names what is gone fails: {goals[0] if goals else 'no goal is named'}")
    return telling[0]


class Copy:
    """A copy of a crate and of those below it, with their kept work."""

    def __init__(self, crate, listed, room):
        self.folder, self.kept = room / "crates" / crate, room / "kept"
        names = {crate, *below(crate, listed)}
        (room / "crates").mkdir()
        for name in names:
            copy_folder(TOP / "crates" / name, room / "crates" / name)
        rows = "".join(f"{name}: {' '.join(sorted(listed[name]))}\n" for name in listed if name in names)
        (room / "crates.txt").write_text(rows, encoding="utf-8")
        shutil.copy(TOP / "HANDLES", room)
        (self.folder / "out").rename(self.kept)

    @contextlib.contextmanager
    def under(self, texts):
        """The crate with these files, over the work that was kept of it as it stands."""
        were = {path: (self.folder / path).read_text(encoding="utf-8") for path in texts}
        copy_folder(self.kept, self.folder / "out")
        try:
            for path, text in texts.items():
                (self.folder / path).write_text(text, encoding="utf-8")
            yield
        finally:
            for path, text in were.items():
                (self.folder / path).write_text(text, encoding="utf-8")
            shutil.rmtree(self.folder / "out")


class Edits:
    """The edits that are tried, and what came of them."""

    def __init__(self, listed):
        self.listed, self.count, self.printing = listed, preload.Count(), threading.Lock()

    def tell(self, name, is_right, what):
        with self.printing:
            self.count.passed, self.count.failed = self.count.passed + is_right, self.count.failed + (not is_right)
            print(f"{'refused' if is_right else 'FAIL'} {name}{what[:200]}", flush=True)

    def is_proved(self, crate, paths):
        checked = check(TOP / "crates" / crate)
        if checked.status == 0:
            return True
        print("\n".join(checked.said.splitlines()[-20:]))
        for path in paths:
            self.tell(f"{crate}/{path.stem}", False, ": the crate is not proved as it stands")
        return False

    def try_one(self, copy, crate, path):
        seconds = ""
        try:
            texts = edited(path.read_text(encoding="utf-8"), copy.folder)
            with copy.under(texts):
                checked = check(copy.folder)
            seconds = f" ({checked.seconds:.1f} s)"
            self.tell(f"{crate}/{path.stem}", True, f"{seconds}: {failed_goal(checked, texts)}")
        except WrongEdit as why:
            self.tell(f"{crate}/{path.stem}", False, f"{seconds}: {why}")

    def try_crate(self, crate, paths):
        with tempfile.TemporaryDirectory(prefix="edits-") as room:
            copy = Copy(crate, self.listed, pathlib.Path(room))
            for path in paths:
                self.try_one(copy, crate, path)


def apply_all(chosen):
    """Whether each edit applies to the crate as it is, and one of the gate says what refuses it."""
    count = preload.Count(most_shown=1000)
    for crate, paths in chosen.items():
        for path in paths:
            why = None
            text = path.read_text(encoding="utf-8")
            try:
                edited(text, TOP / "crates" / crate)
                if path.parent.name == "must-fail" and not text.startswith(REFUSED_BY):
                    raise WrongEdit("its first line does not say what refuses it")
            except WrongEdit as fault:
                why = fault
            count.add(not why, f"{crate}/{path.stem}: {why}")
    return count.end()


def main():
    parser = argparse.ArgumentParser(description="Tries the edits that the prover has to refuse.")
    parser.add_argument("crates", nargs="*", metavar="CRATE", help="by default all")
    parser.add_argument("--apply", action="store_true", help="only looks whether the edits apply")
    parser.add_argument("--edit", metavar="WORD", default="", help="only edits with this word in their names")
    given = parser.parse_args()
    listed = layers.dependencies(TOP)
    unknown = set(given.crates) - listed.keys()
    chosen = {crate: edits_of(crate, given.edit) for crate in listed if not given.crates or crate in given.crates}
    chosen = {crate: paths for crate, paths in chosen.items() if paths}
    if unknown or not chosen:
        parser.error(f"there is no crate {min(unknown)}" if unknown else "there is no such edit")
    if given.apply:
        return apply_all(chosen)
    edits = Edits(listed)
    chosen = {crate: paths for crate, paths in chosen.items() if edits.is_proved(crate, paths)}
    with ThreadPoolExecutor(AT_ONCE) as pool:
        longest_first = sorted(chosen.items(), key=lambda item: -len(item[1]))
        for running in [pool.submit(edits.try_crate, *item) for item in longest_first]:
            running.result()
    return edits.count.end()


if __name__ == "__main__":
    sys.exit(main())
