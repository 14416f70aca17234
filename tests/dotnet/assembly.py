"""What tests of dotnet/ share: the assembly and programs over it, compiled by mcs, and the library beside them."""
import pathlib
import shutil
import subprocess
import sys

import preload

SECONDS = 3000
LIBRARY = "libsdtool.so.0"
CS = preload.TOP / "tests/dotnet/cs"
sys.path.insert(0, str(preload.TOP / "packaging"))
import nuget  # noqa: E402


def missing():
    """What there is not, to test the assembly."""
    for command, package in (("mcs", "mono-mcs"), ("mono", "mono-runtime"), ("ikdasm", "mono-devel")):
        if not shutil.which(command):
            return f"there is no command {command} (Debian: {package})"
    if not nuget.MSCORLIB.exists():
        return f"there is no {nuget.MSCORLIB} (Debian: mono-devel)"
    return None


def is_ready(name, needs_library=True):
    """Whether a test can run; else it says why not."""
    problem = missing()
    if problem is None and needs_library and not pathlib.Path(preload.LIBRARY).exists():
        problem = f"there is no {preload.LIBRARY}"
    if problem:
        print(f"{name}: skipped, {problem}")
    return problem is None


def compiled(folder, *sources, flags=()):
    """A program of C#, in a folder."""
    program = pathlib.Path(folder, sources[0].stem + ".exe")
    run(["mcs", "-unsafe", "-optimize", "-warnaserror", "-nowarn:1591", f"-out:{program}", *flags, *map(str, sources)])
    return program


def run(words):
    """What a command prints that has to succeed."""
    ended = subprocess.run(words, stdout=subprocess.PIPE, stderr=subprocess.STDOUT, text=True, check=False)
    assert ended.returncode == 0, f"{words[0]} ends with {ended.returncode}: {ended.stdout}"
    return ended.stdout


def laid_out(folder, library=preload.LIBRARY):
    """A folder with the assembly and the library beside it."""
    nuget.compile_assembly(pathlib.Path(folder, "Sdtool.dll"))
    shutil.copy(library, pathlib.Path(folder, LIBRARY))


def over_assembly(folder, name, *references):
    """A program of tests/dotnet/cs over the assembly in the same folder."""
    given = ["Sdtool.dll", *references]
    return compiled(folder, CS / f"{name}.cs", flags=[f"-lib:{folder}", *(f"-reference:{one}" for one in given)])


def over_sources(folder, name, *references):
    """A program of tests/dotnet/cs that has the sources of the assembly in it."""
    sources = sorted((preload.TOP / "dotnet/Sdtool").glob("*.cs"))
    return compiled(folder, CS / f"{name}.cs", *sources, flags=[f"-reference:{one}" for one in references])


def command(folder, program):
    """A file by which a program is run without the word mono."""
    path = pathlib.Path(folder, program.stem)
    path.write_text(f'#!/bin/sh\nexec mono "{program}" "$@"\n', encoding="utf-8")
    path.chmod(0o755)
    return path


def ran(program, *words, given="", **others):
    """What a program prints, of which it is an error if there is anything beside its output."""
    return subprocess.run(["mono", str(program), *words], input=given, capture_output=True, text=True, timeout=SECONDS,
                          check=False, **others)
