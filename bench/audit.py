#!/usr/bin/env python3
"""audit.py [--objects N] [--distinct PERCENT,..] [--jobs N] [--rounds N] [--no-database] [--write]

Makes exports of a file share and measures sdtool-audit on them: 'risks' from CSV for each share of distinct
descriptors, and for the first of them also 'risks --into', and 'who permissions' of the database that it made. Reports
are CSV that goes to /dev/null, and the table of the second question. Each report has to count the objects that the
export has.

An export is a table as Export-Csv writes it: Path and Sddl, all fields quoted, CR LF. A descriptor has four or five
ACEs, and one of them has a SID that no other descriptor has. Up to 20 neighbours have the same descriptor, as those of
a folder do, and where it comes again that is far away. One name in a hundred is odd: with commas, quotation marks,
letters of other scripts, bytes that aren't UTF-8, like an option or a formula; one in 100,000 has a line end in it.
Exports are kept in the folder sdtool-bench among the temporary files.

Time is wall clock, the median of the rounds, and beside it the microseconds of a processor for each object, in all
processes together; databases are made and asked once. Memory is the most that all processes of a run had together,
looked at every half second; a page that several of them share counts once (PSS of Linux). With --objects 10000000 the
exports have 3.1 GB each. It needs Python with click and rich (Debian: python3-click, python3-rich), and the library in
out/lib, or the one that SDTOOL_LIBRARY names.
"""
import argparse
import os
import pathlib
import re
import resource
import statistics
import subprocess
import sys
import tempfile
import threading
import time

sys.dont_write_bytecode = True
import generate  # noqa: E402,F401  (which finds the folder of the tests)
import preload  # noqa: E402
import results  # noqa: E402

TOP = pathlib.Path(__file__).resolve().parent.parent
LIBRARY = os.environ.get("SDTOOL_LIBRARY", str(TOP / "out/lib/libsdtool.so"))
DOMAIN = "S-1-5-21-1004336348-1177238915-682003330"
ODD_NAMES = [b"a, b; c\td", b'said ""no""', b"=1+1", b"-rf", b"--help", b" blanks ", "Größe".encode(), "日本語".encode(),
             "\u202etxt.exe".encode(), "\U0001f600".encode(), b"caf\xe9", b"100%", b"$(ls)", b"a'b", b"CON", b"x" * 200]
TWO_LINES = b"two\nlines"
NEIGHBOURS = 20
SCATTER = 7_919  # a prime: the descriptors of neighbouring folders are so far from each other


def descriptor(number):
    """A folder's permissions, of which one ACE is for an account of its own. One in ten is open to Everyone."""
    own = f"(A;OICI;0x1301bf;;;{DOMAIN}-{1000 + number})"
    everyone = "(A;OICI;0x1301bf;;;WD)" if number % 10 == 0 else ""
    return (f"O:BAG:{DOMAIN}-513D:AI{own}{everyone}(A;OICIID;FA;;;SY)(A;OICIID;FA;;;BA)"
            f"(A;OICIID;0x1200a9;;;{DOMAIN}-{40_000 + number % 500})").encode()


def name(number):
    if number % 100_000 == 50_000:
        return TWO_LINES
    return ODD_NAMES[number // 100 % len(ODD_NAMES)] if number % 100 == 0 else b"report.docx"


def export_of(folder, objects, percent):
    """An export with so many objects, whose descriptors are so many in a hundred."""
    path = folder / f"folders-{objects}-{percent:g}.csv"
    if path.exists():
        return path
    distinct = max(1, round(objects * percent / 100))
    neighbours = max(1, min(NEIGHBOURS, objects // distinct))
    part = path.with_suffix(".part")
    with open(part, "wb") as file:
        file.write(b'"Path","Sddl"\r\n')
        for number in range(objects):
            if number % neighbours == 0:
                shared = descriptor(number // neighbours * SCATTER % distinct)
            file.write(b'"\\\\fs1\\data\\%d\\%d %s","%s"\r\n' % (number // 5000, number, name(number), shared))
    part.rename(path)
    return path


def memory_of(group):
    """The bytes that the processes of a group have together."""
    total = 0
    for process in pathlib.Path("/proc").glob("[0-9]*"):
        try:
            if os.getpgid(int(process.name)) == group:
                total += 1024 * int(re.search(r"\nPss:\s+(\d+)", (process / "smaps_rollup").read_text())[1])
        except (OSError, TypeError):  # it has ended
            continue
    return total


class Run:
    """A run of sdtool-audit: its seconds, those of processors, the most memory of all its processes, and what it
    counted."""

    def __init__(self, python, words):
        environment = {**os.environ, "PYTHONPATH": str(TOP / "python"), "SDTOOL_LIBRARY": LIBRARY}
        began, before = time.monotonic(), resource.getrusage(resource.RUSAGE_CHILDREN)
        child = subprocess.Popen([python, "-m", "sdtool.audit", *map(str, words)], env=environment,
                                 stdin=subprocess.DEVNULL, stdout=subprocess.PIPE, stderr=subprocess.PIPE, text=True,
                                 start_new_session=True)
        self.memory, self._ended = 0, threading.Event()
        looking = threading.Thread(target=self._look, args=(child.pid,))
        looking.start()
        stdout, stderr = child.communicate()
        self.seconds = time.monotonic() - began
        after = resource.getrusage(resource.RUSAGE_CHILDREN)
        self.processor = after.ru_utime + after.ru_stime - before.ru_utime - before.ru_stime
        self._ended.set()
        looking.join()
        counted = re.search(r"([0-9,]+) objects: .*", stdout + stderr)
        if child.returncode not in (0, 1) or counted is None:
            sys.exit(f"bench: sdtool-audit ended with {child.returncode}: {stderr[-1000:]}")
        self.objects, self.told = int(counted[1].replace(",", "")), counted[0]

    def _look(self, group):
        while not self._ended.wait(0.5):
            self.memory = max(self.memory, memory_of(group))


def measured(what, objects, runs):
    """Prints a row of the runs, which have to count all objects."""
    for run in runs:
        if run.objects != objects:
            sys.exit(f"bench: {what}: {run.told}, and the export has {objects:,}")
    seconds = statistics.median(run.seconds for run in runs)
    processor = statistics.median(run.processor for run in runs)
    print(f"{what:34}{seconds:9.2f} s{objects / seconds:12,.0f} objects/s{processor / objects * 1e6:7.1f} us"
          f"{max(run.memory for run in runs) / 1e6:8.0f} MB   {runs[-1].told}", flush=True)


def main():
    parser = argparse.ArgumentParser(description="Measures sdtool-audit on exports of a file share.")
    parser.add_argument("--objects", type=int, default=100_000, help="of each export (%(default)s)")
    parser.add_argument("--distinct", default="0.1,1,5,20,100", metavar="PERCENT,..",
                        help="of the objects have a descriptor of their own (%(default)s)")
    parser.add_argument("--jobs", type=int, default=4, help="processes that answer (%(default)s)")
    parser.add_argument("--rounds", type=int, default=3, help="(%(default)s)")
    parser.add_argument("--no-database", action="store_true", help="no database is made")
    results.add_option(parser)
    wanted = parser.parse_args()
    python = preload.python_with("click", "rich") or sys.exit("bench: no Python here has click and rich")
    folder = pathlib.Path(tempfile.gettempdir()) / "sdtool-bench"
    folder.mkdir(exist_ok=True)
    exports = {float(each): export_of(folder, wanted.objects, float(each)) for each in wanted.distinct.split(",")}
    print(f"{wanted.objects:,} objects, {os.cpu_count()} processors, --jobs {wanted.jobs}, medians of "
          f"{wanted.rounds} rounds")
    jobs = ["--jobs", wanted.jobs]
    to_null = ["--to", "csv", "--out", "/dev/null"]
    for percent, path in exports.items():
        measured(f"risks, {percent:g} % distinct", wanted.objects,
                 [Run(python, ["risks", path, *to_null, *jobs]) for _ in range(wanted.rounds)])
    if wanted.no_database:
        return
    percent, path = next(iter(exports.items()))
    with tempfile.TemporaryDirectory(dir=folder) as kept:
        database = pathlib.Path(kept) / "share.db"
        measured(f"risks --into, {percent:g} % distinct", wanted.objects,
                 [Run(python, ["risks", path, "--into", database, *to_null, *jobs])])
        for asked in (["who", "permissions"], ["risks"]):
            measured(f"{' '.join(asked)}, of the database", wanted.objects, [Run(python, [*asked, database, *jobs])])


if __name__ == "__main__":
    sys.exit(results.kept(main))
