"""Tests that the Python module believes no object of a caller, in each CPython from 3.8 on that is there, in its
development mode: the rows of lying_objects.py, by the extension and by ctypes. Row by row, both have to give the same
answer, or both refuse. The extension is compiled with the headers of each of these Pythons. All rows also run under the
address sanitizer, in the oldest and the newest Python, if the compiler has it. Also tested: interpreters of one process
that have locks of their own, and an import beside other extensions. --show prints the time of each run.
"""
import concurrent.futures
import glob
import json
import os
import pathlib
import shutil
import subprocess
import sys
import tempfile
import time

import preload

TOP = pathlib.Path(__file__).resolve().parents[2]
sys.path.insert(0, str(TOP / "python"))
import build_wheel  # noqa: E402

LIBRARY = preload.LIBRARY
ROWS = TOP / "tests/python/lying_objects.py"
WITHOUT_EXTENSION = "--without-extension"
FEWEST_ROWS = 8_000
SECONDS = 6000
SANITIZED = ["-fsanitize=address,undefined", "-fno-sanitize-recover=undefined", "-O1", "-g"]

# Interpreters with locks of their own, in three threads. One that cannot have the module says so.
INTERPRETERS = """
import sys, threading
try:
    import _interpreters as interpreters
except ImportError:
    import _xxsubinterpreters as interpreters
inside = '''
import gc, sys
try:
    import sdtool
except ImportError as problem:
    assert "does not support loading in subinterpreters" in str(problem), problem
else:
    # Its counts of references need the one lock. What goes wrong without it shows only now and then.
    assert "sdtool._native" not in sys.modules, "the extension is shared by interpreters with locks of their own"
    for number in range(300):
        one = sdtool.SecurityDescriptor.from_sddl(f"O:BAD:(A;;{number:#x};;;BU)S:NO_ACCESS_CONTROL")
        assert one.dacl[0].mask == number and one.sacl is sdtool.Acl.NULL and one.group is None
        assert sdtool.Checker(sdtool.Token(["BU"]), 1)(one).granted == (number % 2 == 1)
    gc.collect()
'''

def work():
    one = interpreters.create()
    problem = None
    try:
        problem = interpreters.run_string(one, inside)
    except Exception as raised:
        problem = raised
    if problem is not None:
        problems.append(str(problem))
    interpreters.destroy(one)

problems = []
for _ in range(3):
    threads = [threading.Thread(target=work) for _ in range(3)]
    for thread in threads:
        thread.start()
    for thread in threads:
        thread.join()
print(problems or "whole", None is None, (1, "", b"") == (1, "", b""))
"""

# Types of other extensions beside ours, and one below ours: in 3.8 each type has to have the number of its version.
BESIDE = """
import sdtool, decimal, gc
class Sub(sdtool.Acl):
    pass
for _ in range(2000):
    Sub.name = property(lambda self: 1)
    assert Sub([]).name == 1 and decimal.Decimal(1).sqrt() == 1
    del Sub.name
    assert not hasattr(Sub([]), "name")
gc.collect()
print(type(Sub([])).__name__, sdtool.SecurityDescriptor.from_sddl("D:").sddl())
"""


def ran(words, **environment):
    """What a command prints on its output and on the other stream, and its status."""
    ended = subprocess.run(list(map(str, words)), stdout=subprocess.PIPE, stderr=subprocess.PIPE, timeout=SECONDS,
                           check=False, text=True, errors="replace",
                           env={**os.environ, "SDTOOL_LIBRARY": LIBRARY, **environment})
    return ended.stdout, ended.stderr, ended.returncode


def pythons():
    """Each CPython from 3.8 on, oldest first: its command, version and folder of headers."""
    found = {}
    code = ("import sys, sysconfig; print(sys.implementation.name, *sys.version_info[:2], "
            "sysconfig.get_paths()['include']);import ctypes, decimal")
    of_pyenv = sorted(glob.glob(os.path.join(os.environ.get("PYENV_ROOT", os.path.expanduser("~/.pyenv")),
                                             "versions/3.*/bin/python3")))
    for python in [sys.executable, "/usr/bin/python3", *(f"python3.{minor}" for minor in range(8, 20)), *of_pyenv]:
        if shutil.which(python):
            said, _, status = ran([python, "-c", code])
            kind, major, minor, headers = [*said.split(maxsplit=3), *[""] * 4][:4]
            if status == 0 and kind == "cpython" and (int(major), int(minor)) >= (3, 8):
                found.setdefault((int(major), int(minor)), (python, headers.strip()))
    return [(python, version, headers) for version, (python, headers) in sorted(found.items())]


def module_with(folder, flags=(), headers=None):
    """A copy of the module with an extension that is compiled with these flags. Gives what the compiler says against
    it."""
    shutil.copytree(TOP / "python/sdtool", folder / "sdtool",
                    ignore=shutil.ignore_patterns("__pycache__", "*.so", "audit"))
    own = [f"-I{headers}"] if headers else []
    before = build_wheel.FLAGS
    build_wheel.FLAGS = [*before, *flags, *own]
    try:
        return build_wheel.compile_extension(folder / "sdtool" / build_wheel.EXTENSION)
    finally:
        build_wheel.FLAGS = before


def rows_of(python, module, *words, **environment):
    """The rows by their names, and what there is to say of a run that has no end."""
    began = time.monotonic()
    try:
        printed, errors, status = ran([python, "-B", "-X", "dev", "-W", "ignore", ROWS, *words], PYTHONPATH=str(module),
                                      **environment)
    except subprocess.TimeoutExpired:
        return {}, f"it takes more than {SECONDS} s"
    if "--show" in sys.argv:
        print(f"{python} {' '.join(words)}: {time.monotonic() - began:.1f} s")
    *rows, end = [json.loads(line) for line in printed.splitlines()] or [None]
    problem = "" if status == 0 and end == "end" else f"status {status}, after {rows[-1:]}: {errors[-1500:]}"
    return {name: (outcome, problem_of_row) for name, outcome, problem_of_row in rows}, problem


def are_same(one, other):
    """Both give the same answer, or both refuse."""
    return one == other or one[0] == other[0] == "refused"


def test_rows(count, python, version, module):
    """Each row by the extension and by ctypes, side by side."""
    with concurrent.futures.ThreadPoolExecutor(2) as both:
        (extension, problem), (foreign, other_problem) = both.map(lambda words: rows_of(python, module, *words),
                                                                  ([], [WITHOUT_EXTENSION]))
    what = f"Python {'.'.join(map(str, version))}"
    count.add(not problem and len(extension) >= FEWEST_ROWS, f"{what}, the extension: {len(extension)} rows, {problem}")
    count.add(not other_problem, f"{what}, ctypes: {other_problem}")
    count.add(problem or other_problem or extension.keys() == foreign.keys(), f"{what}: other rows by ctypes")
    for name in extension.keys() & foreign.keys():
        (ours, wrong), (theirs, other_wrong) = extension[name], foreign[name]
        count.add(not wrong and not other_wrong and are_same(ours, theirs),
                  f"{what}, {name}: the extension {ours} {wrong}; ctypes {theirs} {other_wrong}"[:900])


def test_sanitized(count, python, version, module, runtime):
    rows, problem = rows_of(python, module, LD_PRELOAD=runtime, PYTHONMALLOC="malloc", ASAN_OPTIONS="detect_leaks=0")
    wrong = {name: problem_of_row for name, (_, problem_of_row) in rows.items() if problem_of_row}
    count.add(not problem and not wrong and len(rows) >= FEWEST_ROWS,
              f"under the address sanitizer, Python {version}: {len(rows)} rows, {problem} {list(wrong.items())[:3]}")


def test_interpreters(count, python, version, module):
    # Python 3.12 refuses ctypes in such interpreters, and then now and then crashes by itself: 4 of 150 runs of
    # `import ctypes` in them did, without this module.
    for _ in range(5 if version == (3, 12) else 1):
        printed, errors, status = ran([python, "-W", "ignore", "-c", INTERPRETERS], PYTHONPATH=str(module))
        if status >= 0:
            break
    count.add((printed, status) == ("whole True True\n", 0),
              f"interpreters of Python {version}: {status} {printed} {errors[-900:]}")


def test_beside(count, python, version, module):
    printed, errors, status = ran([python, "-X", "dev", "-W", "ignore", "-c", BESIDE], PYTHONPATH=str(module))
    count.add((printed, status) == ("Sub D:\n", 0),
              f"beside other extensions, Python {version}: {status} {printed} {errors[-900:]}")


def sanitizer():
    """The file of the address sanitizer's run-time library, or None."""
    found = subprocess.run([*preload.compiler(), "-print-file-name=libasan.so"], stdout=subprocess.PIPE, check=False,
                           text=True).stdout.strip()
    return found if os.path.isabs(found) and os.path.exists(found) else None


def test_all_rows(count, found, folder):
    module = folder / "module"
    problem = module_with(module)
    if problem:
        print(f"skipped: there is no extension to compare with, since {problem}")
        return
    for python, version, _ in found:
        test_rows(count, python, version, module)
        test_beside(count, python, version, module)
        if version >= (3, 12):  # older interpreters share one lock
            test_interpreters(count, python, version, module)


def test_headers(count, found, folder):
    """Compiled with whatever headers, the extension serves the oldest and the newest Python."""
    for _, version, headers in found:
        if not os.path.exists(os.path.join(headers, "Python.h")):
            continue
        module = folder / f"headers-{version[1]}"
        problem = module_with(module, headers=headers)
        count.add(problem is None, f"with the headers of Python {version}: {problem}")
        for python, other, _ in (found[0], found[-1]):
            if problem is None:
                test_beside(count, python, f"{other} with the headers of {version}", module)


def test_all_sanitized(count, found, folder):
    runtime = sanitizer()
    module = folder / "sanitized"
    problem = module_with(module, SANITIZED) if runtime else "the compiler has no shared libasan"
    if problem:
        print(f"skipped: the rows under the address sanitizer, since {problem}")
        return
    with concurrent.futures.ThreadPoolExecutor(2) as both:
        list(both.map(lambda one: test_sanitized(count, one[0], one[1], module, runtime), {found[0], found[-1]}))


def add_options(parser):
    parser.add_argument("--show", action="store_true", help="the time of each run")


def main(count: preload.Count, given: preload.Given) -> None:
    found = pythons()
    print(f"in Python {', '.join('.'.join(map(str, version)) for _, version, _ in found)}")
    with tempfile.TemporaryDirectory() as name:
        folder = pathlib.Path(name)
        test_all_rows(count, found, folder)
        test_headers(count, found, folder)
        test_all_sanitized(count, found, folder)
