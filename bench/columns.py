#!/usr/bin/env python3
"""columns.py [PROGRAM] [--rows N] [--distinct N] [--rounds N] [--write]

Measures sdtool.columns.to_sddl beside Series.map(sdtool.to_sddl), and the program on the same descriptors as lines of
hex: rows a second of processor, the best of rounds. A descriptor has an owner, a group and two ACEs. Once all rows are
distinct, and once there are a thousand descriptors. Each round has new rows, each with bytes of its own, whose hashes
Python does not know yet. It needs NumPy and pandas, and the library in out/lib or the one that SDTOOL_LIBRARY names.
"""
import argparse
import array
import importlib
import itertools
import os
import pathlib
import resource
import subprocess
import sys
import tempfile
import time

sys.dont_write_bytecode = True
import results  # noqa: E402

TOP = pathlib.Path(__file__).resolve().parent.parent


def descriptors(count, sdtool):
    return [sdtool.from_sddl(f"O:BAG:SYD:(A;OICI;0x1301bf;;;S-1-5-21-1-2-3-{number})(A;OICI;FA;;;BA)")
            for number in range(1000, 1000 + count)]


def program_seconds(program, rows):
    with tempfile.TemporaryFile() as given:
        given.write(b"".join(row.hex().encode() + b"\n" for row in rows))
        given.seek(0)
        before = resource.getrusage(resource.RUSAGE_CHILDREN)
        subprocess.run([program, "convert"], stdin=given, stdout=subprocess.DEVNULL, check=True)
        after = resource.getrusage(resource.RUSAGE_CHILDREN)
    return after.ru_utime + after.ru_stime - before.ru_utime - before.ru_stime


def seconds(make, work):
    given = make()
    began = time.process_time()
    work(given)
    return time.process_time() - began


def show(what, rows, found):
    print(f"{what:44}{rows / min(found):14,.0f} rows/s{min(found) / rows * 1e9:8.0f} ns", flush=True)


def main():
    parser = argparse.ArgumentParser(description="Measures sdtool.columns.")
    parser.add_argument("program", nargs="?", default=str(TOP / "crates/sdtool/out/sdtool"), type=os.path.abspath)
    parser.add_argument("--rows", type=int, default=1_000_000, help="(%(default)s)")
    parser.add_argument("--rounds", type=int, default=3, help="(%(default)s)")
    results.add_option(parser)
    wanted = parser.parse_args()
    os.environ.setdefault("SDTOOL_LIBRARY", str(TOP / "out/lib/libsdtool.so"))
    sys.path.insert(0, str(TOP / "python"))
    sdtool, columns, pandas = map(importlib.import_module, ("sdtool", "sdtool.columns", "pandas"))
    print(f"{wanted.rows:,} rows, load {os.getloadavg()[0]:.1f} before, the best of {wanted.rounds} rounds")
    all_distinct = descriptors(wanted.rows, sdtool)
    for what, table in (("distinct", all_distinct), ("of 1,000 descriptors", all_distinct[:1000])):
        shared = list(itertools.islice(itertools.cycle(table), wanted.rows))

        def rows(shared=shared):
            return [bytes(bytearray(row)) for row in shared]

        def buffers(shared=shared):
            return columns.Column(b"".join(shared), array.array("q", itertools.accumulate(map(len, shared), initial=0)))

        for name, make, work in (
                ("Series.map(sdtool.to_sddl)", lambda: pandas.Series(rows()), lambda held: held.map(sdtool.to_sddl)),
                ("columns.to_sddl of a Series", lambda: pandas.Series(rows()), columns.to_sddl),
                ("columns.to_sddl of a list", rows, columns.to_sddl),
                ("columns.to_sddl of a list, shared objects", lambda: shared, columns.to_sddl),
                ("columns.to_sddl of buffers", buffers, columns.to_sddl)):
            show(f"{name}, {what}", wanted.rows, [seconds(make, work) for _ in range(wanted.rounds)])
        found = [program_seconds(wanted.program, shared) for _ in range(wanted.rounds)]
        show(f"the program, {what}", wanted.rows, found)
    return 0


if __name__ == "__main__":
    sys.exit(results.kept(main))
