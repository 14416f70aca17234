"""Keeps what a command of bench/ prints: with --write that becomes bench/results/NAME.txt, below a line that has the
command, the commit and the machine. A command that fails writes nothing.
"""
import contextlib
import io
import os
import pathlib
import platform
import re
import shlex
import subprocess
import sys

OPTION = "--write"
FOLDER = pathlib.Path(__file__).resolve().parent / "results"
MODEL = re.compile(r"^model name\s*: (.*)$", re.M)


def add_option(parser):
    parser.add_argument(OPTION, action="store_true", help="also writes what it prints to bench/results/")


def commit_of(checkout):
    """The commit of a checkout, with a mark if files differ from it."""
    words = ["git", "-C", str(checkout), "describe", "--always", "--dirty", "--exclude=*", "--abbrev=12"]
    told = subprocess.run(words, stdout=subprocess.PIPE, stderr=subprocess.DEVNULL, text=True, check=False)
    return told.stdout.strip() or "an unknown commit"


def machine():
    cpuinfo = pathlib.Path("/proc/cpuinfo")
    found = MODEL.search(cpuinfo.read_text(encoding="utf-8")) if cpuinfo.exists() else None
    return (f"{len(os.sched_getaffinity(0))} of {os.cpu_count()} processors "
            f"({found[1] if found else platform.machine()})")


def command():
    return shlex.join([f"bench/{pathlib.Path(sys.argv[0]).name}", *sys.argv[1:]])


def write(folder, head, text):
    folder.mkdir(exist_ok=True)
    path = folder / f"{pathlib.Path(sys.argv[0]).name}.txt"
    path.write_text(f"# {head}\n{text}", encoding="utf-8")


class Both(io.StringIO):
    """Keeps what is printed, and prints it."""

    def __init__(self, stdout):
        super().__init__()
        self.stdout = stdout

    def write(self, text):
        self.stdout.write(text)
        return super().write(text)

    def flush(self):
        self.stdout.flush()


def kept(main):
    """Runs a command, and gives its status."""
    if OPTION not in sys.argv[1:]:
        return main()
    both = Both(sys.stdout)
    with contextlib.redirect_stdout(both):
        status = main()
    if not status:
        write(FOLDER, f"{command()} at {commit_of(FOLDER.parent)}, on {machine()}", both.getvalue())
    return status
