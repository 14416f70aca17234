#!/usr/bin/env python3
"""prove.py CRATE WORD..

Runs `rt WORD..` in the folder of a crate, which first proves the crates below it, one after the other. Where there are
four processors and the memory, a second rt in a copy of the crates proves those that the first comes to last, and the
first takes them over. Standard output has a line for each crate: how many of all are proved, and about how long the
rest takes. What rt says goes to files in out/, and its end is shown if the command fails. The exit status is rt's.
"""
import contextlib
import fcntl
import os
import pathlib
import re
import shutil
import subprocess
import sys
import threading
import time
from typing import Dict, Iterator, List, Optional, Set, TextIO

TOP = pathlib.Path(__file__).resolve().parent.parent
BEGINS = re.compile(r"rt: chose --jobs \d+ for (\w+)$")
LAST_LINES = 40  # of what rt said, where it fails
START = 800  # lines that are proved in the time in which a crate's libraries are loaded
SAYS_FROM = 0.1  # of all, and no time is told before
PROCESSORS, MEMORY = 4, 8 * 2**30  # that are free where a second crate is begun


def dependencies() -> Dict[str, List[str]]:
    """The crates of this repository that each one names, in the order in which it names them."""
    rows = [row for row in (TOP / "crates.txt").read_text(encoding="utf-8").splitlines() if row
            and not row.startswith("#")]
    named = {row.partition(":")[0].split()[0]: row.partition(":")[2].split() for row in rows}
    return {crate: [name for name in names if name in named] for crate, names in named.items()}


def in_order(crate: str, known: Dict[str, List[str]]) -> List[str]:
    """The crates that are proved for a crate, in the order in which rt proves them, and the crate itself."""
    found: Dict[str, None] = {}
    for name in known[crate]:
        found.update(dict.fromkeys(in_order(name, known)))
    return [*found, crate]


def lines_of(crate: str) -> int:
    """How much there is to prove."""
    folders = (TOP / "crates" / crate / part for part in ("src", "specs", "proofs"))
    files = (file for folder in folders for file in folder.rglob("*") if file.is_file())
    return sum(file.read_bytes().count(b"\n") for file in files)


def in_words(seconds: float) -> str:
    return "about a minute" if seconds < 90 else f"about {round(seconds / 60)} minutes"


def has_room() -> bool:
    """Whether a second crate can be proved."""
    free = re.search(r"^MemAvailable: +(\d+) kB", pathlib.Path("/proc/meminfo").read_text(encoding="ascii"), re.M)
    return len(os.sched_getaffinity(0)) >= PROCESSORS and free is not None and int(free[1]) * 1024 >= MEMORY


class Progress:
    """What is proved so far. rt says nothing of crates that an earlier run has proved, so it passes over them."""

    def __init__(self, crate: str) -> None:
        self.known = dependencies()
        self.order = in_order(crate, self.known)
        self.weights = {name: START + lines_of(name) for name in self.order}
        self.at, self.began = -1, time.monotonic()
        self.beside: Set[str] = set()  # proved by the second rt
        self.found: Optional[Set[str]] = None  # proved by an earlier run

    def proved(self) -> Set[str]:
        return {*self.order[:max(self.at, 0)], *self.beside}

    def begins(self, crate: str) -> str:
        """The line that is shown where a crate is begun."""
        self.at = self.order.index(crate)
        proved = self.proved()
        self.found = set(proved) if self.found is None else self.found
        done = sum(self.weights[name] for name in proved - self.found)
        left = sum(self.weights[name] for name in self.order if name not in proved)
        said = f"{len(proved)} of {len(self.order)} crates are proved"
        if done < SAYS_FROM * (done + left):
            return f"{said}: {crate}"
        return f"{said}, {in_words((time.monotonic() - self.began) * left / done)} left: {crate}"

    def last_ready(self) -> Optional[str]:
        """The last of all crates that stands over proved ones alone, and that nobody has begun."""
        proved = self.proved()
        ready = [name for name in self.order[self.at + 1:-1]
                 if name not in proved and proved.issuperset(self.known[name])]
        return ready[-1] if ready else None


class Beside(threading.Thread):
    """
    A second rt over a copy. rt takes what is proved in one checkout of this machine for another, and waits for what is
    being proved. So nothing rests on this one: where it fails, the first proves the rest.
    """

    def __init__(self, progress: Progress, folder: pathlib.Path, log: TextIO) -> None:
        super().__init__()
        self.progress, self.folder, self.log, self.has_ended = progress, folder, log, threading.Event()
        self.running: Optional[subprocess.Popen[bytes]] = None

    def run(self) -> None:
        while not self.has_ended.wait(1):
            crate = self.progress.last_ready() if has_room() else None
            if not crate:
                continue
            self.running = subprocess.Popen(["rt", "lib"], cwd=self.folder / "crates" / crate, stdin=subprocess.DEVNULL,
                                            stdout=self.log, stderr=subprocess.STDOUT)
            if self.running.wait():
                return
            self.progress.beside.add(crate)

    def end(self) -> None:
        self.has_ended.set()
        while self.is_alive():
            if self.running:
                self.running.kill()
            self.join(1)


@contextlib.contextmanager
def beside(progress: Progress, folder: pathlib.Path) -> Iterator[None]:
    """Has a second rt prove beside the first. Of two commands at once in one checkout, one has it."""
    with open(folder.with_suffix(".log"), "a", encoding="utf-8") as log:
        try:
            fcntl.flock(log, fcntl.LOCK_EX | fcntl.LOCK_NB)
        except BlockingIOError:
            yield
            return
        shutil.rmtree(folder, ignore_errors=True)  # what a command that was killed left
        shutil.copytree(TOP / "crates", folder / "crates", symlinks=True, ignore=shutil.ignore_patterns("out"))
        shutil.copy(TOP / "crates.txt", folder)
        log.truncate(0)
        second = Beside(progress, folder, log)
        second.start()
        try:
            yield
        finally:
            second.end()
            shutil.rmtree(folder, ignore_errors=True)


def prove(crate: str, words: List[str], progress: Progress, log: pathlib.Path) -> int:
    """Runs rt, shows how far it is, and returns its status."""
    told: List[str] = []
    with open(log, "w", encoding="utf-8") as kept:
        running = subprocess.Popen(["rt", *words], cwd=TOP / "crates" / crate, stdin=subprocess.DEVNULL,
                                   encoding="utf-8", errors="replace", stdout=subprocess.PIPE, stderr=subprocess.STDOUT)
        for line in running.stdout or ():
            kept.write(line)
            kept.flush()
            told = [*told, line][-LAST_LINES:]
            found = BEGINS.match(line.rstrip())
            if found and found[1] in progress.weights:
                print(progress.begins(found[1]), flush=True)
    status = running.wait()
    if status:
        sys.stdout.writelines(told)
    return status if status >= 0 else 128 - status


def main() -> int:
    if len(sys.argv) < 3:
        sys.exit(__doc__)
    crate, *words = sys.argv[1:]
    log = TOP / f"out/{crate}.log"
    log.parent.mkdir(exist_ok=True)
    print(f"proving {crate}; all that rt says is in {log.relative_to(TOP)}", flush=True)
    progress = Progress(crate)
    with beside(progress, log.with_name("beside")):
        return prove(crate, words, progress, log)


if __name__ == "__main__":
    sys.exit(main())
