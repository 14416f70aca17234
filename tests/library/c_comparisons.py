"""Tests that the library compares a SID and an ACE at most once, in a check, a run or reasons. No contract says that of
a call that makes its own token, so this counts instructions, by valgrind's callgrind (Debian's package valgrind). Where
it is missing, a line says that this was skipped.

tests/library/c/comparisons.c checks DACLs of 500 and of 1,000 ACEs for tokens of 500 and of 1,000 SIDs. What grows with
both numbers is the comparisons, and 16 of them are one step of the processor's vectors. So a step has a limit, and a
call that made half as many comparisons more would exceed it.
"""
import pathlib
import re
import shutil
import subprocess
import tempfile

import preload

TOP = pathlib.Path(__file__).resolve().parents[2]
CALLS = ["check", "held", "many", "run", "reasons", "reasons-held"]
FEW, MANY = 500, 1000
MOST_PER_STEP = 22  # instructions for 16 comparisons
STEP = 16
SECONDS = 3000
COLLECTED = re.compile(rb"Collected : (\d+)")


def built(folder):
    """The program that makes the calls, or why there is none."""
    program = folder / "comparisons"
    words = [*preload.compiler(), "-O2", f"-I{TOP / 'include'}", TOP / "tests/library/c/comparisons.c",
             TOP / "out/lib/libsdtool.a", "-o"]
    ended = subprocess.run([*words, program], stdout=subprocess.PIPE, stderr=subprocess.STDOUT, check=False)
    return (program, "") if ended.returncode == 0 else (None, ended.stdout.decode())


def instructions(program, call, sids, aces, checks):
    words = ["valgrind", "--tool=callgrind", "--callgrind-out-file=/dev/null", str(program), call, str(sids), str(aces),
             str(checks)]
    ended = subprocess.run(words, stdout=subprocess.DEVNULL, stderr=subprocess.PIPE, timeout=SECONDS, check=True)
    return int(COLLECTED.search(ended.stderr)[1])


def of_a_check(program, call, sids, aces):
    """The instructions of one check: what two have more than one."""
    return instructions(program, call, sids, aces, 2) - instructions(program, call, sids, aces, 1)


def per_step(program, call):
    """The instructions for 16 comparisons."""
    cost = {(sids, aces): of_a_check(program, call, sids, aces) for sids in (FEW, MANY) for aces in (FEW, MANY)}
    grown = cost[MANY, MANY] - cost[MANY, FEW] - cost[FEW, MANY] + cost[FEW, FEW]
    return STEP * grown / (MANY - FEW) ** 2


def main(count: preload.Count) -> None:
    if shutil.which("valgrind") is None:
        print("skipped: there is no valgrind")
        return
    with tempfile.TemporaryDirectory() as folder:
        program, said = built(pathlib.Path(folder))
        for call in CALLS:
            step = per_step(program, call) if program else 0
            count.add(0 < step <= MOST_PER_STEP,
                      f"{call}: {step:.1f} instructions for {STEP} comparisons, and not {MOST_PER_STEP} {said}")
