#!/usr/bin/env python3
"""distributed.py [PROGRAM] [--library FILE] [--megabytes N] [--rounds N] [--job WORD] [--many] [--write]

Measures ways to answer one large file on one machine: one program (crates/sdtool/out/sdtool where none is given), GNU
parallel with --pipepart, and sdtool.distributed over a scheduler with one, two and four workers. These are processes on
127.0.0.1 with one thread each.

The input is the mixture that generate.py makes, in hex, 1 GB of it, kept in the folder sdtool-bench among the temporary
files. Each way writes its answers to a file there, which has to be equal to that of one program. Time is wall clock,
the median of the rounds, in each of which all ways run once; the start of Python and the connection count. What Dask
costs is the time of one worker beyond that of one program, as a share of the latter. Traffic is what goes through the
loopback device in a run: between driver, scheduler and workers, and of other programs of this machine. --job takes only
the commands that have the word.

Then come 10,000 files of a kilobyte, and two of 300 MB, cut from the input: xargs -P starts a program for each, and
sdtool.distributed has as many workers. --many measures these alone. The load is that of the machine, before and after.

It needs parallel, and Python with dask, distributed and fsspec (Debian: parallel, python3-dask, python3-distributed,
python3-fsspec). Figures may be compared within one run, on a machine that does nothing else.
"""
import argparse
import filecmp
import functools
import os
import pathlib
import re
import shlex
import shutil
import statistics
import subprocess
import sys
import tempfile
import time

sys.dont_write_bytecode = True
import run  # noqa: E402  (which finds the folder of the tests)
import dask_cluster  # noqa: E402
import results  # noqa: E402

COMMANDS = [["convert"], ["check", "--token", "WD,AU,BU", "--want", "FW"], ["explain"],
            ["derive", "--kind", "file", "--owner", "BA", "--group", "BU"]]
BLOCKS = 16  # of the input
WORKERS = (1, 2, 4)
# How many files, of how many bytes, and how many times as long as by xargs their answers may take.
MANY = (10_000, 1000, 1.3), (2, 300_000_000, 2)
ONE = "one program"


def loopback_bytes():
    return int(re.search(r"lo:\s*(\d+)", pathlib.Path("/proc/net/dev").read_text())[1])


class Ways:
    """Each way to answer the input, as a function that writes the answers and tells their path."""

    def __init__(self, processes, program, given, folder):
        self.processes, self.program, self.given, self.folder = processes, program, given, folder
        self.clusters, self.traffic, self.inputs = {}, {}, folder
        for workers in WORKERS:
            scheduler, address = self.clusters[workers] = processes.start_scheduler()
            for _ in range(workers):
                processes.start_worker(address)
            processes.wait_for_workers(address, workers)

    def run(self, command, **others):
        status = subprocess.run(command, env=self.processes.environment, cwd=self.folder, **others).returncode
        if status not in (0, 1):
            sys.exit(f"bench: {shlex.join(command)} ended with status {status}")

    def one_program(self, words):
        path = self.folder / "one"
        with open(self.given, "rb") as stdin, open(path, "wb") as stdout:
            self.run([self.program, *words], stdin=stdin, stdout=stdout)
        return path

    def parallel(self, words):
        """Its status is the number of programs that met a faulty line."""
        path = self.folder / "parallel"
        with open(path, "wb") as stdout:
            block = str(-(-self.given.stat().st_size // BLOCKS))
            command = ["parallel", "--will-cite", "--pipepart", "--keep-order", "--block", block, "-a", self.given]
            subprocess.run([*command, shlex.join([self.program, *words])], env=self.processes.environment,
                           stdout=stdout)
        return path

    def distributed(self, workers, words):
        out = self.folder / "distributed"
        shutil.rmtree(out, ignore_errors=True)
        command = [self.processes.python, "-m", "sdtool.distributed", "--scheduler", self.clusters[workers][1],
                   "--out", str(out), "--block", str(-(-self.given.stat().st_size // BLOCKS))]
        before = loopback_bytes()
        self.run([*command, *words, "--", str(self.given)], stdout=subprocess.DEVNULL)
        self.traffic[workers] = loopback_bytes() - before
        return out / self.given.name

    def xargs(self, words):
        """A program for each file of the inputs."""
        out = self.folder / "xargs"
        shutil.rmtree(out, ignore_errors=True)
        out.mkdir()
        one = f"{shlex.join([self.program, *words])} < @ > {out}/@; [ $? -lt 2 ]"
        with subprocess.Popen(["ls"], cwd=self.inputs, stdout=subprocess.PIPE) as names:
            command = ["xargs", "-P", str(WORKERS[-1]), "-I@", "sh", "-c", one]
            subprocess.run(command, stdin=names.stdout, cwd=self.inputs, check=True)
        return out

    def distributed_many(self, words):
        out = self.folder / "distributed"
        shutil.rmtree(out, ignore_errors=True)
        self.run([self.processes.python, "-m", "sdtool.distributed", "--scheduler", self.clusters[WORKERS[-1]][1],
                  "--out", str(out), *words, "--", str(self.inputs)], stdout=subprocess.DEVNULL)
        return out

    def all(self):
        yield ONE, self.one_program
        yield "parallel --pipepart", self.parallel
        for workers in self.clusters:
            yield f"sdtool.distributed, {workers}", functools.partial(self.distributed, workers)

    def scheduler_memory(self, workers):
        """The most bytes that a scheduler had in memory."""
        status = pathlib.Path(f"/proc/{self.clusters[workers][0].pid}/status").read_text()
        return 1024 * int(re.search(r"VmHWM:\s*(\d+)", status)[1])


def is_same(wanted, path):
    """Whether two files are equal, or the files of two folders but for the records of a run."""
    if wanted.is_file():
        return filecmp.cmp(wanted, path, shallow=False)
    names = sorted(os.listdir(wanted))
    _, *others = filecmp.cmpfiles(wanted, path, names, shallow=False)
    return not any(others) and names == sorted(name for name in os.listdir(path) if name != "_sdtool")


def cut(given, folder, count, size):
    """Files of so many bytes, but for the rest of their last lines, in a folder."""
    shutil.rmtree(folder, ignore_errors=True)
    folder.mkdir()
    with open(given, "rb") as lines:
        for number in range(count):
            (folder / str(number)).write_bytes(lines.read(size) + lines.readline())
    return folder


def measure_many(ways, words, rounds):
    """Gives whether all files had the same answers."""
    for count, size, most in MANY:
        ways.inputs = cut(ways.given, ways.folder / "inputs", count, size)
        pair = (f"xargs -P {WORKERS[-1]}", ways.xargs), (f"sdtool.distributed, {WORKERS[-1]}", ways.distributed_many)
        medians = measure(pair, words, rounds)
        if medians is None:
            return False
        one, other = medians.values()
        print(f"sdtool {shlex.join(words)}, {count:,} files of {size:,} bytes: {one:.2f} s by xargs -P {WORKERS[-1]}, "
              f"{other:.2f} s by sdtool.distributed with as many workers, {other / one:.2f} times; {most} is the most")
    return True


def load():
    return " ".join(f"{each:.1f}" for each in os.getloadavg())


def measure(ways, words, rounds):
    """The median of each way's seconds, or None where answers differ."""
    taken = {name: [] for name, _ in ways}
    for _ in range(rounds):
        for name, way in ways:
            began = time.monotonic()
            path = way(words)
            taken[name].append(time.monotonic() - began)
            if name == ways[0][0]:
                wanted = path
            elif not is_same(wanted, path):
                print(f"{name}: other answers than those of {ways[0][0]}")
                return None
    return {name: statistics.median(seconds) for name, seconds in taken.items()}


def show(ways, words, size, medians):
    print(f"sdtool {shlex.join(words)}")
    for name, seconds in medians.items():
        speed = medians[ONE] / seconds
        print(f"  {name:28}{seconds:8.2f} s{size / seconds / 1e6:8.0f} MB/s{speed:8.2f} of one program's speed")
    cost = medians[f"sdtool.distributed, {WORKERS[0]}"] / medians[ONE] - 1
    print(f"  Dask costs one worker {cost:.0%} of one program's time")
    for workers in WORKERS:
        print(f"  {workers} workers: {ways.traffic[workers] / 1e6:.2f} MB of traffic, "
              f"{ways.scheduler_memory(workers) / 1e6:.0f} MB in the scheduler")


def main():
    parser = argparse.ArgumentParser(description="Measures one program, parallel, and sdtool.distributed.")
    parser.add_argument("program", nargs="?", default=str(run.PROGRAM), type=os.path.abspath)
    parser.add_argument("--library", default=dask_cluster.PYTHON.parent / "out/lib/libsdtool.so", type=os.path.abspath)
    parser.add_argument("--megabytes", type=int, default=1000, help="of the input (%(default)s)")
    parser.add_argument("--rounds", type=int, default=3, help="(%(default)s)")
    parser.add_argument("--job", default="", help="takes only the commands that have this word")
    parser.add_argument("--many", action="store_true", help="measures many files alone")
    results.add_option(parser)
    wanted = parser.parse_args()
    for path in wanted.program, wanted.library:
        if not os.path.exists(path):
            sys.exit(f"bench: there is no {path}; 'make program' and 'make library' build both")
    if not wanted.many and not shutil.which("parallel"):
        sys.exit("bench: there is no parallel on the PATH")
    folder = pathlib.Path(tempfile.gettempdir()) / "sdtool-bench"
    folder.mkdir(exist_ok=True)
    given = run.input_file(folder, ["--form", "hex", "--megabytes", str(wanted.megabytes)])
    with tempfile.TemporaryDirectory(dir=folder, ignore_cleanup_errors=True) as name:
        python = dask_cluster.python_with_dask(name)
        if python is None:
            sys.exit("bench: no Python here has dask, distributed and fsspec")
        processes = dask_cluster.Processes(name, python, wanted.library)
        try:
            ways = Ways(processes, wanted.program, given, pathlib.Path(name))
            print(f"{given.stat().st_size / 1e6:.0f} MB, {run.lines_in(given):,} lines, {os.cpu_count()} processors, "
                  f"medians of {wanted.rounds} rounds; load before: {load()}")
            for words in (words for words in COMMANDS if wanted.job in shlex.join(words) and not wanted.many):
                medians = measure(list(ways.all()), words, wanted.rounds)
                if medians is None:
                    return 1
                show(ways, words, given.stat().st_size, medians)
            if not measure_many(ways, COMMANDS[0], wanted.rounds):
                return 1
            print(f"load after: {load()}")
        finally:
            processes.end_all()
    return 0


if __name__ == "__main__":
    sys.exit(results.kept(main))
