#!/usr/bin/env python3
"""wheels.py SYSTEM..

Makes a Python wheel for each system, with the library in it, in out/dist: it needs nothing else of the system. SYSTEM
is linux-x86_64, linux-aarch64 or windows-x86_64, of which 'make systems' built the library. The tag of a wheel for
Linux names the C library that it needs.

A wheel has the module's extension too, where a compiler for the system and Python.h are there. Its tag names no ABI of
Python: an interpreter that cannot load the extension, such as PyPy, a CPython without a global lock, or one of several
that have locks of their own, makes the same calls through ctypes.
"""
import pathlib
import re
import sys
import tempfile
from typing import Iterator, Tuple

TOP = pathlib.Path(__file__).resolve().parents[1]
sys.dont_write_bytecode = True
sys.path.insert(0, str(TOP / "python"))
import build_wheel  # noqa: E402
import extension  # noqa: E402

# pip knows no older tag for arm64.
OLDEST = {"linux-x86_64": (2, 5), "linux-aarch64": (2, 17)}
# The library has compiled code of others in it.
LICENCES = {"LICENSE": TOP / "LICENSE", "COPYRIGHT": TOP / "packaging/copyright"}


def platform_of(system: str, binaries: bytes) -> str:
    """The platform of a wheel's tag."""
    if system == "windows-x86_64":
        return "win_amd64"
    needed = {(int(major), int(minor)) for major, minor in re.findall(rb"GLIBC_(\d+)\.(\d+)", binaries)}
    major, minor = max(needed | {OLDEST[system]})
    return f"manylinux_{major}_{minor}_{system[len('linux-'):]}"


def binaries_of(system: str) -> Iterator[Tuple[str, bytes]]:
    """The library and the extension, each as a name and its bytes."""
    name = "sdtool.dll" if system == "windows-x86_64" else "libsdtool.so.0"
    yield f"sdtool/{name}", (TOP / "out" / "systems" / system / name).read_bytes()
    problem = extension.missing(system)
    if problem:
        print(f"{system}: a wheel without the extension, since {problem}")
        return
    with tempfile.TemporaryDirectory() as folder:
        target = pathlib.Path(folder, extension.FILES[system])
        extension.compile_extension(system, target)
        yield f"sdtool/{target.name}", target.read_bytes()


def main() -> None:
    folder = TOP / "out" / "dist"
    folder.mkdir(parents=True, exist_ok=True)
    for system in sys.argv[1:]:
        binaries = list(binaries_of(system))
        files = [(str(path.relative_to(build_wheel.HERE)), path.read_bytes()) for path in build_wheel.module_files()]
        # Reports of audits go into the page.
        files += [("sdtool/audit/sdtool.html", page.read_bytes()) for page in (TOP / "out/sdtool.html",)
                  if page.exists()]
        files += [(f"{build_wheel.NAME}.dist-info/{name}", path.read_bytes()) for name, path in LICENCES.items()]
        platform = platform_of(system, b"".join(data for _, data in binaries))
        print(folder / build_wheel.write_wheel(folder, [*files, *binaries], f"py3-none-{platform}"))


if __name__ == "__main__":
    main()
