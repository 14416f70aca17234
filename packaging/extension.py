#!/usr/bin/env python3
"""extension.py SYSTEM FILE

Compiles the extension of the Python module for a system, linux-x86_64, linux-aarch64 or windows-x86_64, with the
headers of this Python or of another that is there. It is over the limited interface of Python, so it needs nothing else
of the system's Python, and the same file serves each version from 3.8 on. The same sources and tools give the same
bytes.
"""
import glob
import os
import pathlib
import re
import shutil
import subprocess
import sys
import sysconfig
import tempfile
from typing import Optional, Union

TOP = pathlib.Path(__file__).resolve().parents[1]
sys.dont_write_bytecode = True
sys.path.insert(0, str(TOP / "python"))
import build_wheel  # noqa: E402

SOURCE = TOP / "python/sdtool/_native.c"
FLAGS = ["-std=gnu11", "-O2", "-Wall", "-Wextra", "-Werror", "-shared", "-s"]
# An older C library than that of the compiler is enough: the oldest of which the system has one.
LINUX = ["-fPIC", "-Wl,--build-id=none", "-Wl,-z,relro,-z,now"]
COMPILERS = {
    "linux-x86_64": [os.environ.get("CC", "gcc"), *LINUX, '-DOLDEST_C_LIBRARY="GLIBC_2.2.5"'],
    "linux-aarch64": ["aarch64-linux-gnu-gcc", *LINUX, '-DOLDEST_C_LIBRARY="GLIBC_2.17"'],
    "windows-x86_64": ["x86_64-w64-mingw32-gcc", "-static-libgcc",
                       "-Wl,--no-insert-timestamp,--disable-auto-image-base"],
}
FILES = {"linux-x86_64": "_native.abi3.so", "linux-aarch64": "_native.abi3.so", "windows-x86_64": "_native.pyd"}
DLL = "python3.dll"  # which each version of Python for Windows has, with the limited interface


def headers() -> Optional[str]:
    """The folder of Python.h, if one is there."""
    places = [sysconfig.get_paths()["include"], *sorted(glob.glob("/usr/include/python3.*"))]
    return next((place for place in places if os.path.exists(os.path.join(place, "Python.h"))), None)


def missing(system: str) -> Optional[str]:
    """What there is not, to compile for a system."""
    if not shutil.which(COMPILERS[system][0]):
        return f"there is no {COMPILERS[system][0]}"
    return None if headers() else "there is no Python.h, of Debian's package python3-dev"


def compile_object(system: str, folder: pathlib.Path, target: pathlib.Path) -> None:
    """Compiles the source to an object. The headers are copied, since Python.h takes the pyconfig.h beside it."""
    include, python = folder / "include", headers()
    assert python  # else missing() has said so
    shutil.copytree(python, include, ignore=shutil.ignore_patterns("internal", "pyconfig*.h"))
    shutil.copy(TOP / "packaging/pyconfig.h", include)
    compiler, *flags = COMPILERS[system]
    words = [flag for flag in [*FLAGS, *flags] if not flag.startswith("-Wl,")
             and flag not in ("-shared", "-s", "-static-libgcc")]
    subprocess.run([compiler, *words, f"-I{include}", f"-I{TOP / 'include'}", "-c", SOURCE, "-o", target], check=True)


def import_library(folder: pathlib.Path, compiled: pathlib.Path) -> pathlib.Path:
    """What the linker has to know of python3.dll: the names that the object uses."""
    tools = COMPILERS["windows-x86_64"][0][:-len("gcc")]
    symbols = subprocess.run([tools + "nm", "--undefined-only", compiled], stdout=subprocess.PIPE, check=True,
                             text=True).stdout
    names = re.findall(r"__imp_(_?Py\w+)", symbols)
    data = [name for name in names if re.fullmatch(r"PyExc_\w+|Py\w+_Type|_Py_\w+Struct", name)]
    definition, library = folder / "python3.def", folder / "libpython3.a"
    definition.write_text(f"LIBRARY {DLL}\nEXPORTS\n" + "".join(
        f"    {name}{' DATA' if name in data else ''}\n" for name in sorted(names)), encoding="ascii")
    subprocess.run([tools + "dlltool", "-D", DLL, "-d", definition, "-l", library], check=True)
    return library


def compile_extension(system: str, target: Union[str, pathlib.Path]) -> None:
    """Compiles the extension for a system."""
    with tempfile.TemporaryDirectory() as name:
        folder = pathlib.Path(name)
        compiled, made = folder / "native.o", folder / FILES[system]
        compile_object(system, folder, compiled)
        libraries = [import_library(folder, compiled)] if system.startswith("windows") else []
        compiler, *flags = COMPILERS[system]
        subprocess.run([compiler, *FLAGS, *flags, compiled, *libraries, "-o", made], check=True)
        build_wheel.place(made, target)


def main() -> None:
    if len(sys.argv) != 3 or sys.argv[1] not in COMPILERS:
        sys.exit(__doc__)
    problem = missing(sys.argv[1])
    if problem:
        sys.exit(f"extension.py: {problem}")
    compile_extension(sys.argv[1], sys.argv[2])


if __name__ == "__main__":
    main()
