"""What tests share: the program and the library, small libraries in C that they preload under the program, signals,
what is chosen, and the count of what was judged. Who imports it finds the modules of all folders of tests, and those of
tools/.
"""
import argparse
import os
import pathlib
import re
import shutil
import signal
import subprocess
import sys
from typing import IO, Any, Callable, List, NamedTuple, Optional, Sequence, Union

TOP = pathlib.Path(__file__).resolve().parents[2]
FOLDERS = {path.parent for path in TOP.glob("tests/*/*.py")} - {TOP / "tests/reference"}
sys.path[:0] = map(str, [*sorted(FOLDERS), TOP / "tests", TOP / "tools"])
PROGRAM = os.path.abspath(os.environ.get("SDTOOL_PROGRAM", TOP / "crates/sdtool/out/sdtool"))
DEBIAN_PYTHON = "/usr/bin/python3"  # which sees Debian's packages
LIBRARY = os.path.abspath(os.environ.get("SDTOOL_LIBRARY", TOP / "out/lib/libsdtool.so"))
COUNTED = re.compile(r"^(\d+) passed, (\d+) failed$", re.M)
ONLY: List[str] = []  # words of --only
chosen: List[str] = []  # the parts that run


def is_chosen(part: Any) -> bool:
    """Whether a part of a test is to run: a function, or a name."""
    name = getattr(part, "__name__", part)
    is_it = not ONLY or any(word in name for word in ONLY)
    if is_it:
        chosen.append(name)
    return is_it


def python_with(*modules: str, folder: Union[str, "os.PathLike[str]"] = "/") -> Optional[str]:
    """A Python that has the modules, or None. It is asked from a folder that has no file of their names."""
    for python in (sys.executable, DEBIAN_PYTHON):
        asked = [python, "-c", f"import {', '.join(modules)}"]
        if os.access(python, os.X_OK) and subprocess.run(asked, cwd=folder, stderr=subprocess.DEVNULL).returncode == 0:
            return python
    return None


def go_on_in(python: str) -> None:
    """Starts the test again in a Python that has what it needs, if it does not run there."""
    if python != sys.executable and os.environ.get("SDTOOL_TESTS_PYTHON") != python:
        os.environ["SDTOOL_TESTS_PYTHON"] = python
        sys.stdout.flush()
        os.execv(python, [python, *sys.argv])


def compiler() -> List[str]:
    for name in (os.environ.get("CC"), "cc", "gcc", "clang"):
        if name and shutil.which(name):
            return [name]
    # The toolchain brings a compiler, and a linker beside it.
    kit = pathlib.Path(os.path.realpath(shutil.which("rt") or "rt")).parent.parent
    return [str(kit / "toolchain/bin/clang"), "-fuse-ld=lld"]


def build(source: str, folder: Union[str, "os.PathLike[str]"]) -> str:
    """The library that the file of this folder makes."""
    library = os.path.join(folder, pathlib.Path(source).with_suffix(".so").name)
    path = pathlib.Path(__file__).with_name(source)
    options = ["-O2", "-shared", "-fPIC", "-nostdlib", "-fno-builtin"]
    subprocess.run([*compiler(), *options, "-o", library, str(path)], check=True)
    return library


def copy_tree(place: pathlib.Path) -> pathlib.Path:
    """A copy of the tree without the crates, in which what is built is new, so that make builds nothing. What writes
    into a tree runs in one, since other tests read this one."""
    left_out = shutil.ignore_patterns(".git", "crates", "dist", "mypy", "*.deb", "__pycache__")
    shutil.copytree(TOP, place, symlinks=True, ignore=left_out)
    (place / ".git").symlink_to(TOP / ".git")
    program, library = place / "crates/sdtool/out/sdtool", place / "out/lib/libsdtool.so"
    program.parent.mkdir(parents=True)
    shutil.copy(PROGRAM, program)
    for built in program, library:
        os.utime(built)
    return place


class Event(NamedTuple):
    """A call that faults.c told of."""
    letter: str  # 'r' a read of the input, 'w' a write of the output, 'v' of the faults; in upper case where it failed
    moved: int   # bytes


def events_in(file: IO[bytes]) -> List[Event]:
    file.seek(0)
    return [Event(line[0], int(line[1:])) for line in file.read().decode().splitlines()]


def let_signals_come() -> None:
    """
    A shell that starts a test in the background has SIGINT ignored, and nohup SIGHUP. Each process that the test starts
    and then interrupts would ignore them too. A handler that does nothing is not handed on.
    """
    for number in signal.SIGINT, signal.SIGHUP:
        if signal.getsignal(number) == signal.SIG_IGN:
            signal.signal(number, lambda *_: None)


def raised(call: Callable[..., Any], *arguments: Any, **named: Any) -> Optional[Exception]:
    """What a call raises, or None."""
    try:
        call(*arguments, **named)
    except Exception as problem:  # each is looked at
        return problem
    return None


class Given(argparse.Namespace):
    """The words of the command line, and the program."""

    @property
    def program(self) -> str:
        if not os.path.exists(PROGRAM):
            sys.exit(f"there is no {PROGRAM}: make program")
        return PROGRAM


class Count:
    """What passed and what failed; no more failures are printed than so many."""

    def __init__(self, most_shown: int = 20) -> None:
        self.passed = self.failed = 0
        self.most_shown = most_shown

    def add(self, is_right: object, what: object) -> None:
        self.passed, self.failed = self.passed + bool(is_right), self.failed + (not is_right)
        if not is_right and self.failed <= self.most_shown:
            print(f"FAIL {what}")

    def add_counted(self, said: str, status: int) -> bool:
        """
        Adds the line of a test that counts. A library may write more as the program ends. A test without such a line,
        or with another status than the line says, has failed.
        """
        counted = COUNTED.findall(said)
        passed, failed = map(int, counted[-1]) if counted else (0, 1)
        self.passed, self.failed = self.passed + passed, self.failed + (failed or bool(status))
        return not failed and not status

    def add_run(self, words: Sequence[str], no_such_part: Optional[int] = None, before: str = "") -> int:
        """Runs another test, prints all but its last line, behind a text, and adds that. Gives its status."""
        child = subprocess.Popen(words, stdin=subprocess.DEVNULL, stdout=subprocess.PIPE, text=True, errors="replace")
        last = ""
        for line in child.stdout or ():
            print(before + last if last else "", end="", flush=True)
            last = line
        if not COUNTED.fullmatch(last.strip()):
            print(before + last, end="", flush=True)
        if child.wait() != no_such_part:
            self.add_counted(last, child.returncode)
        return child.returncode

    def end(self) -> int:
        """Prints the last line, and gives the exit status."""
        print(f"{self.passed} passed, {self.failed} failed")
        return 1 if self.failed else 0
