"""Doubles the length of each construct of each reader of the page. In Node, twice as long a text may take 2.3 times the
instructions: valgrind counts them, and what else the machine does changes nothing. Lengths are short, so what does no
more with each character than copy it is not seen. What takes more is doubled again, since a limit of a reader may lie
between two lengths. What the library reads, where `make wasm` has built it, may take 2.6 times the processor's time for
longer texts. Both measures have to refuse readers that are slow. It needs Node and Debian's valgrind.
"""
import concurrent.futures
import itertools
import json
import os
import pathlib
import shutil
import subprocess
import tempfile

import counted_calls
import preload

SCRIPT = str(pathlib.Path(__file__).resolve().parent / "web/growth.mjs")
MOST_FOR_EACH = 2.3  # twice the instructions are linear, four times are quadratic
DOUBLINGS = 2
TRIES = 5  # of what has to be refused
TOGETHER = 8  # constructs that are counted at once
JOBS = len(os.sched_getaffinity(0))  # side by side


def slow_ones(counted, reader, places):
    """The constructs, or groups of them, that take more than their lengths give reason for, with what they take."""
    counts = [counted.call(reader, places, 0)[0]]
    while len(counts) <= DOUBLINGS:
        counts.append(counted.call(reader, places, len(counts))[0])
        if counts[-1] <= MOST_FOR_EACH * counts[-2]:
            return []
    half = len(places) // 2
    parts = [places[:half], places[half:]] if half else []
    return list(itertools.chain(*(slow_ones(counted, reader, part) for part in parts))) or [(places, counts)]


def told(*words):
    return json.loads(subprocess.run(["node", SCRIPT, *words], stdout=subprocess.PIPE, check=True).stdout)


def time_library(count, readers, slow):
    """Measures the readers of the library, and what the measure has to refuse."""
    if not readers:
        print("skipped: the readers of the library, which make wasm builds")
        return
    chosen = [reader for reader in (*readers, *slow) if preload.is_chosen(reader)]

    def timed(reader):
        # What else the machine does may hide one that is slow, and makes none slow four times in a row.
        for _ in range(TRIES if reader in slow else 1):
            if found := told("--time", reader):
                break
        return found

    with concurrent.futures.ThreadPoolExecutor(JOBS) as pool:
        for reader, found in zip(chosen, pool.map(timed, chosen)):
            count.add(bool(found) == (reader in slow), f"{reader}: {found[:5]} microseconds")


def main(count):
    if not shutil.which("node") or not shutil.which("valgrind"):
        print("skipped: node (Debian: nodejs), or valgrind")
        return
    of_page, of_library, slow, constructs = told()
    time_library(count, of_library, slow)
    readers = [*of_page, *slow]
    groups = [list(range(len(constructs)))[at:at + TOGETHER] for at in range(0, len(constructs), TOGETHER)]
    pairs = [pair for pair in itertools.product(readers, groups) if preload.is_chosen(pair[0])]

    def judged(share):
        with tempfile.TemporaryDirectory() as folder, \
                counted_calls.CountedScript([SCRIPT, "--answer"], folder) as counted:
            return [(reader, *one) for reader, group in pairs[share::JOBS]
                    for one in slow_ones(counted, reader, group)]

    with concurrent.futures.ThreadPoolExecutor(JOBS) as pool:
        found = list(itertools.chain(*pool.map(judged, range(JOBS))))
    for reader in dict.fromkeys(reader for reader, _ in pairs):
        wrong = [f"{[constructs[at] for at in places]}: {counts}" for name, places, counts in found if name == reader]
        count.add(bool(wrong) == (reader in slow), f"{reader}: {'; '.join(wrong[:5])}")
