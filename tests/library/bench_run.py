"""Tests bench/run on a small part of a workload: with the same checkout as OLD and as NEW it prints a row of its table
and writes its ratio. It stops where an output differs, where a workload has no such name, and where a program fails. It
needs sd_bench as `rt ci` builds it.
"""
import pathlib
import re
import subprocess
import tempfile

import preload

TOP = pathlib.Path(__file__).resolve().parents[2]
RUN = TOP / "bench/run"
WORKLOAD = "calls"
HEADS = "| NAME | seconds in OLD | seconds in NEW | OLD over NEW |\n|---|--:|--:|--:|\n"
ROW = re.compile(rf"\| {WORKLOAD} \| (\d+\.\d{{3}}) \| (\d+\.\d{{3}}) \| (\d+\.\d\d) \|\n")
WRITTEN = re.compile(rf"# bench/run: .*, on \d+ of \d+ processors .*\n {{10,}}seed 7\n{WORKLOAD} +(\d+\.\d\d)\n")
SECONDS = 600


def checkout(folder, name, count):
    """A checkout with the sd_bench of this one, whose workload has so many calls in each section."""
    made = folder / name
    (made / "bench").mkdir(parents=True)
    (made / "crates").symlink_to(TOP / "crates")
    text = (TOP / "bench" / f"{WORKLOAD}.txt").read_text(encoding="utf-8")
    (made / "bench" / f"{WORKLOAD}.txt").write_text(re.sub(r"^# \d+", f"# {count}", text, flags=re.M), encoding="utf-8")
    return made


def ran(*words):
    return subprocess.run([RUN, *words], capture_output=True, text=True, timeout=SECONDS, check=False)


def main(count: preload.Count) -> None:
    program = TOP / "crates/sd_bench/out/sd_bench"
    count.add(program.exists(), f"there is no {program}: rt ci builds it, or rt run in crates/sd_bench")
    if not program.exists():
        return
    with tempfile.TemporaryDirectory() as name:
        one, other = (checkout(pathlib.Path(name), f"of {number}", number) for number in (40_000, 2_000))
        ended = ran("--write", one, one, "7", WORKLOAD)
        row = ROW.fullmatch(ended.stdout.removeprefix(HEADS))
        count.add(ended.returncode == 0 and ended.stdout.startswith(HEADS) and row, f"one checkout twice: {ended}")
        if row:
            before, after, ratio = map(float, row.groups())
            # Of what is printed each number is rounded.
            least, most = (before - 0.0005) / (after + 0.0005) - 0.005, (before + 0.0005) / (after - 0.0005) + 0.005
            is_right = before > 0.002 and after > 0.002 and least <= ratio <= most
            count.add(is_right, f"the seconds of one checkout: {ended.stdout}")
            text = (one / "bench/results/run.txt").read_text(encoding="utf-8")
            written = WRITTEN.fullmatch(text)
            count.add(written and written[1] == row[3], f"{ended.stdout} is written as {text}")
        ended = ran(one, other, "7", WORKLOAD)
        count.add(ended.returncode != 0 and "the outputs differ" in ended.stderr, f"other outputs: {ended}")
        ended = ran(one, one, "7", "none")
        count.add(ended.returncode != 0 and "there is no workload none" in ended.stderr, f"no such workload: {ended}")
        ended = ran(one, one, "seven", WORKLOAD)
        count.add(ended.returncode != 0 and not ROW.search(ended.stdout), f"a program that fails: {ended}")
        ended = ran(one)
        count.add(ended.returncode != 0 and "OLD NEW" in ended.stderr, f"one word: {ended}")
