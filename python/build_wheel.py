"""Builds what pip installs, with the standard library alone: so pip needs neither a network nor setuptools.

pip calls build_wheel, or build_editable with its option -e, as PEP 517 and PEP 660 describe. `build_wheel.py
--extension` builds the extension in place, beside the module's files.

The extension is one file of C over the limited interface of Python, so a wheel with it serves every Python from 3.8 on.
It needs a C compiler, Python.h and sdtool.h. A wheel that is built without one of them works as well: its calls go
through ctypes, which takes two to three microseconds more for each.
"""
import base64
import hashlib
import os
import pathlib
import re
import shlex
import shutil
import subprocess
import sys
import sysconfig
import tarfile
import tempfile
import zipfile
from typing import Any, List, Optional, Tuple, Union

HERE = pathlib.Path(__file__).resolve().parent
MODULE = HERE / "sdtool"
SOURCE, EXTENSION = MODULE / "_native.c", "_native.abi3.so"
PROJECT = dict(re.findall(r'^([\w-]+) = "(.*)"$', (HERE / "pyproject.toml").read_text(encoding="utf-8"), re.M))
NAME = f"{PROJECT['name']}-{PROJECT['version']}"
METADATA = f"""Metadata-Version: 2.1
Name: {PROJECT['name']}
Version: {PROJECT['version']}
Summary: {PROJECT['description']}
License: Apache-2.0
Requires-Python: {PROJECT['requires-python']}
Provides-Extra: distributed
Requires-Dist: dask >= 2022.12; extra == 'distributed'
Requires-Dist: distributed >= 2022.12; extra == 'distributed'
Requires-Dist: fsspec >= 2022.11; extra == 'distributed'
Provides-Extra: live
Requires-Dist: click >= 8; extra == 'live'
Requires-Dist: rich >= 13; extra == 'live'
Provides-Extra: audit
Requires-Dist: click >= 8; extra == 'audit'
Requires-Dist: rich >= 13; extra == 'audit'
"""
# The command of the extra.
ENTRY_POINTS = (f"{NAME}.dist-info/entry_points.txt", b"[console_scripts]\nsdtool-audit = sdtool.audit.__main__:main\n")
ANY = "py3-none-any"
FLAGS = ["-std=gnu11", "-O2", "-Wall", "-Wextra", "-Werror", "-shared", "-fPIC"]
Path = Union[str, pathlib.Path]
Files = List[Tuple[str, bytes]]  # names and bytes


def module_files() -> List[pathlib.Path]:
    """The files of the module that are the same everywhere."""
    return sorted(path for path in MODULE.rglob("*") if path.suffix in (".py", ".pyi")
                  or path.name in ("py.typed", "sdtool.html"))


def header_folder() -> Optional[pathlib.Path]:
    """Where sdtool.h is: beside this file in a source archive, in the repository, or where the compiler looks."""
    return next((folder for folder in (HERE, HERE.parent / "include") if (folder / "sdtool.h").exists()), None)


def compile_extension(target: pathlib.Path) -> Optional[str]:
    """Compiles the extension. Gives why it cannot, or None."""
    compiler = shlex.split(os.environ.get("CC", "cc"))
    if os.name != "posix" or not shutil.which(compiler[0]):
        return "there is no C compiler"
    folders = [sysconfig.get_paths()["include"], *([str(header_folder())] if header_folder() else [])]
    ended = subprocess.run([*compiler, *FLAGS, *(f"-I{folder}" for folder in folders), str(SOURCE), "-o",
                            str(target), "-ldl"],
                           stdout=subprocess.PIPE, stderr=subprocess.STDOUT, check=False)
    return None if ended.returncode == 0 else ended.stdout.decode("utf-8", "replace")


def place(made: pathlib.Path, target: Path) -> None:
    """Puts a file at a place where other programs may look at any time: it is there as a whole or not at all, and a
    file with the same bytes stays."""
    target = pathlib.Path(target)
    if target.exists() and target.read_bytes() == made.read_bytes():
        return
    unfinished = target.with_name(f".{target.name}.{os.getpid()}")
    try:
        shutil.copy(made, unfinished)
        os.replace(unfinished, target)
    finally:
        unfinished.unlink(missing_ok=True)


def place_extension() -> Optional[str]:
    """Builds the extension beside the module's files, unless it is newer than what it is built from. Gives why it
    cannot, or None."""
    target, folder = MODULE / EXTENSION, header_folder()
    sources = [SOURCE, pathlib.Path(__file__), *([folder / "sdtool.h"] if folder else [])]
    if target.exists() and all(target.stat().st_mtime > source.stat().st_mtime for source in sources):
        return None
    with tempfile.TemporaryDirectory() as name:
        made = pathlib.Path(name, EXTENSION)
        problem = compile_extension(made)
        if problem is None:
            place(made, target)
        return problem


def extension_files() -> Files:
    """The extension, as a name and its bytes, or nothing where it cannot be compiled."""
    with tempfile.TemporaryDirectory() as folder:
        target = pathlib.Path(folder, EXTENSION)
        problem = compile_extension(target)
        if problem:
            print(f"sdtool is built without its extension, so its calls go through ctypes: {problem}", file=sys.stderr)
            return []
        return [(f"sdtool/{EXTENSION}", target.read_bytes())]


def extension_tag() -> str:
    """A wheel with the extension is for each Python from 3.8 on, on this kind of system."""
    return f"cp38-abi3-{re.sub(r'[-.]', '_', sysconfig.get_platform())}"


def write_wheel(folder: Path, files: Files, tag: str = ANY) -> str:
    """A wheel of the files, each as a name and its bytes, for the systems of a tag."""
    purelib = "true" if tag == ANY else "false"
    wheel_file = f"Wheel-Version: 1.0\nGenerator: build_wheel.py\nRoot-Is-Purelib: {purelib}\nTag: {tag}\n"
    files = [*files, (f"{NAME}.dist-info/METADATA", METADATA.encode()),
             (f"{NAME}.dist-info/WHEEL", wheel_file.encode())]
    record = ""
    wheel = f"{NAME}-{tag}.whl"
    with zipfile.ZipFile(pathlib.Path(folder, wheel), "w", zipfile.ZIP_DEFLATED) as archive:
        for name, data in [*files, ENTRY_POINTS]:
            digest = base64.urlsafe_b64encode(hashlib.sha256(data).digest()).rstrip(b"=").decode()
            record += f"{name},sha256={digest},{len(data)}\n"
            archive.writestr(zipfile.ZipInfo(name), data)
        name = f"{NAME}.dist-info/RECORD"
        archive.writestr(zipfile.ZipInfo(name), f"{record}{name},,\n")
    return wheel


def build_wheel(wheel_directory: str, config_settings: Any = None, metadata_directory: Any = None) -> str:
    files = [(str(path.relative_to(HERE)), path.read_bytes()) for path in module_files()]
    extension = extension_files()
    return write_wheel(wheel_directory, files + extension, extension_tag() if extension else ANY)


def build_editable(wheel_directory: str, config_settings: Any = None, metadata_directory: Any = None) -> str:
    place_extension()
    return write_wheel(wheel_directory, [("sdtool.pth", f"{HERE}\n".encode())])


def build_sdist(sdist_directory: str, config_settings: Any = None) -> str:
    archive = f"{NAME}.tar.gz"
    with tarfile.open(pathlib.Path(sdist_directory, archive), "w:gz") as tar:
        for path in (HERE / "pyproject.toml", HERE / "build_wheel.py", *module_files(), SOURCE):
            tar.add(path, f"{NAME}/{path.relative_to(HERE)}")
        folder = header_folder()
        if folder:
            tar.add(folder / "sdtool.h", f"{NAME}/sdtool.h")
    return archive


if __name__ == "__main__":
    if sys.argv[1:] != ["--extension"]:
        sys.exit("usage: build_wheel.py --extension")
    sys.exit(place_extension())
