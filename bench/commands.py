#!/usr/bin/env python3
"""commands.py [--processors N] [--write]

Times the two commands of README as somebody new runs them: `make run` and then `make test`, in a clone of this commit,
on all processors or on the first N. It prints how long each took, its processor time, how many crates rt had kept from
earlier runs on this machine (none, if figures are to count), and the ten longest parts of the tests. What the commands
print goes to out/commands/ of this checkout.
"""
import argparse
import os
import pathlib
import re
import resource
import subprocess
import sys
import tempfile
import time

sys.dont_write_bytecode = True
import results  # noqa: E402

TOP = pathlib.Path(__file__).resolve().parent.parent
LOGS = TOP / "out/commands"
KEPT = re.compile(r"begins with what a check kept in|is kept: an earlier run")
SUM = re.compile(r"^\d+ passed, \d+ failed$", re.M)
PARTS = "The longest parts, in seconds by the clock and of processors:\n"


def timed(tree, target):
    """Runs one command. Its status, what it printed, and how long it took by the clock and of all processors."""
    before, began = resource.getrusage(resource.RUSAGE_CHILDREN), time.monotonic()
    log = LOGS / f"{target}.log"
    with log.open("wb") as out:
        status = subprocess.run(["make", target], cwd=tree, stdin=subprocess.DEVNULL, stdout=out,
                                stderr=subprocess.STDOUT, check=False).returncode
    after = resource.getrusage(resource.RUSAGE_CHILDREN)
    spent = after.ru_utime + after.ru_stime - before.ru_utime - before.ru_stime
    minutes = f"{(time.monotonic() - began) / 60:.1f} minutes, {spent / 60:.1f} of processors"
    return status, log.read_text(errors="replace"), minutes


def row(target, status, minutes, kept):
    load = ", ".join(f"{one:.1f}" for one in os.getloadavg())
    print(f"make {target}: {minutes}, {kept} crates kept, status {status}, load {load}", flush=True)


def main():
    parser = argparse.ArgumentParser(description=__doc__, formatter_class=argparse.RawDescriptionHelpFormatter)
    parser.add_argument("--processors", type=int)
    results.add_option(parser)
    asked = parser.parse_args()
    if asked.processors:
        os.sched_setaffinity(0, sorted(os.sched_getaffinity(0))[:asked.processors])
    LOGS.mkdir(parents=True, exist_ok=True)
    with tempfile.TemporaryDirectory(prefix="sdtool-commands-") as folder:
        tree = pathlib.Path(folder, "sdtool")
        subprocess.run(["git", "clone", "--quiet", str(TOP), str(tree)], check=True)
        status, _, minutes = timed(tree, "run")
        row("run", status, minutes, len(KEPT.findall((tree / "out/sdtool.log").read_text(errors="replace"))))
        if status:
            return status
        status, told, minutes = timed(tree, "test")
        row("test", status, minutes, len(KEPT.findall(told)))
    print(*SUM.findall(told)[-1:])
    print(PARTS + told.partition(PARTS)[2].rpartition("\n" + (SUM.findall(told) or [""])[-1])[0])
    return status


if __name__ == "__main__":
    sys.exit(results.kept(main))
