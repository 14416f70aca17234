"""Tests how the assembly finds its native library: beside it, in runtimes/, and where the system has it, but never in
the current folder. What is missing, broken, for another processor or older is a LibraryException that says so.
"""
import os
import pathlib
import shutil
import subprocess
import tempfile

import assembly
import c_interface
import preload

RUNTIMES = {name: f"runtimes/{name}/native/{assembly.LIBRARY}" for name in ("linux-x64", "linux-arm64")}
EXCEPTION = "Sdtool.LibraryException "


class Case:
    """An empty folder of a program, and one in which it runs."""

    def __init__(self, top, program):
        self.app, self.current = pathlib.Path(top, "app"), pathlib.Path(top, "current")
        for folder in (self.app, self.current):
            shutil.rmtree(folder, ignore_errors=True)
            folder.mkdir()
        for path in (program, program.with_name("Sdtool.dll")):
            shutil.copy(path, self.app)
        self.program = self.app / program.name

    def put(self, library, name=assembly.LIBRARY, folder=None):
        path = pathlib.Path(folder or self.app, name)
        path.parent.mkdir(parents=True, exist_ok=True)
        shutil.copy(library, path)

    def said(self, **environment):
        """What the program prints: both lines are the same."""
        others = {name: value for name, value in os.environ.items() if not name.startswith(("LD_", "SDTOOL_", "MONO_"))}
        ended = assembly.ran(self.program, cwd=self.current, env={**others, **environment})
        lines = ended.stdout.splitlines()
        return lines[0] if len(lines) == 2 and lines[0] == lines[1] else f"{ended.stdout} {ended.stderr}"


def other_library(folder, name, version, without=()):
    """A library that has the names of the calls, and nothing behind them but its version."""
    header = c_interface.header_in((preload.TOP / c_interface.HEADER).read_text(encoding="utf-8"))
    code = "".join(f"int {call}(void) {{ return {version if call == 'sdtool_version_number' else 0}; }}\n"
                   for call in header.functions if call not in without)
    source, library = pathlib.Path(folder, f"{name}.c"), pathlib.Path(folder, f"{name}.so")
    source.write_text(code, encoding="utf-8")
    subprocess.run([*preload.compiler(), "-shared", "-fPIC", "-o", str(library), str(source)], check=True)
    return library


def trap(folder):
    """A library that ends the process that loads it."""
    source, library = pathlib.Path(folder, "trap.c"), pathlib.Path(folder, "trap.so")
    source.write_text("#include <unistd.h>\n__attribute__((constructor)) static void end(void) { _exit(9); }\n",
                      encoding="utf-8")
    subprocess.run([*preload.compiler(), "-shared", "-fPIC", "-o", str(library), str(source)], check=True)
    return library


def judge_places(count, case, planted):
    """Where a library is found, and where not."""
    library = preload.LIBRARY
    loaded = "loaded "
    one = case()
    count.add(one.said().startswith(EXCEPTION), f"without a library: {one.said()}")
    one.put(library)
    count.add(one.said().startswith(loaded), f"beside the assembly: {one.said()}")
    for name in ("libdl.so.2", "libdl.so", assembly.LIBRARY, "sdtool.dll", "libsdtool.so"):
        one.put(planted, name, one.current)
    count.add(one.said().startswith(loaded), f"with others in the current folder: {one.said()}")
    (one.app / assembly.LIBRARY).unlink()
    count.add(one.said().startswith(EXCEPTION), f"in the current folder alone: {one.said()}")
    for folders in (":", "", ".", "/usr/lib:", "/usr/lib::/lib", "lib"):
        found = one.said(LD_LIBRARY_PATH=folders)
        count.add(found.startswith(EXCEPTION), f"in the current folder, LD_LIBRARY_PATH={folders}: {found}")
    for name, path in RUNTIMES.items():
        one = case()
        one.put(library, path)
        count.add(one.said().startswith(loaded), f"in {name}: {one.said()}")
    one = case()
    one.put(library, folder=one.current.parent / "system")
    found = one.said(LD_LIBRARY_PATH=str(one.current.parent / "system"))
    count.add(found.startswith(loaded), f"where the system has it: {found}")


def judge_refusals(count, case, folder):
    """What no library is, and that the next place is looked at then."""
    text = pathlib.Path(folder, "text")
    text.write_text("no library\n", encoding="utf-8")
    for bad, said in ((text, ": "), (other_library(folder, "older", 99), "its version is 99, below 100"),
                      (other_library(folder, "other", 100, ("sdtool_edit",)), "without sdtool_edit"),
                      (other_library(folder, "none", 100, ("sdtool_version_number",)), "sdtool_version_number")):
        one = case()
        one.put(bad)
        found = one.said()
        count.add(found.startswith(EXCEPTION) and said in found and str(one.app) in found, f"{bad.name}: {found}")
        one.put(preload.LIBRARY, RUNTIMES["linux-x64"])
        count.add(one.said().startswith("loaded "), f"{bad.name} beside, and a good one behind it: {one.said()}")
    later = other_library(folder, "later", 101)
    one = case()
    one.put(later)
    count.add(one.said() == "loaded 101", f"a later one: {one.said()}")


def main(count: preload.Count) -> None:
    if not assembly.is_ready("dotnet_loading"):
        return
    with tempfile.TemporaryDirectory() as folder:
        built = pathlib.Path(folder, "built")
        built.mkdir()
        assembly.laid_out(built)
        program = assembly.over_assembly(built, "Loading")

        def case():
            return Case(folder, program)

        if preload.is_chosen(judge_places):
            judge_places(count, case, trap(folder))
        if preload.is_chosen(judge_refusals):
            judge_refusals(count, case, folder)
