"""Tests the Python wheels, and compiles the extension for each system. The wheels are of what is built in out/systems.
The one for this machine is installed by pip into an empty virtual environment of the oldest and the newest Python 3
from 3.8 on that are there. The module has to use its extension; without the extension's file, and where the environment
names another library, it has to give the same answers through ctypes. What a wheel for another system cannot show here
is looked at: for which machine its files are, which C library and which names of Python they need, and what its tag and
its record say. Two builds have to give the same bytes.
"""
import base64
import csv
import functools
import hashlib
import io
import json
import os
import pathlib
import re
import shutil
import subprocess
import sys
import tempfile
import zipfile

TOP = pathlib.Path(__file__).resolve().parents[2]
sys.path.insert(0, str(TOP / "packaging"))
import extension  # noqa: E402
import preload  # noqa: E402

SYSTEMS = TOP / "out/systems"
SECONDS = 3000
# What an installed module says: whether it has its extension, and some answers of each kind of call.
ASKED = """
import json, sys, sdtool
descriptor = sdtool.SecurityDescriptor.from_sddl("O:BAD:(A;;FR;;;BU)(OA;;CR;bf967aba-0de6-11d0-a285-00aa003049e2;;AU)")
checker = sdtool.Checker(sdtool.Token(["BU", "WD"]), sdtool.FileMask.READ_DATA)
try:
    sdtool.from_sddl("D:(A;;FR;;Everyone)")
except sdtool.Fault as fault:
    line = fault.line
print(json.dumps(["sdtool._native" in sys.modules, sdtool.version(), descriptor.bytes.hex(), descriptor.sddl(),
                  checker(descriptor), [repr(ace) for ace in descriptor.dacl],
                  [str(one) for one in checker.many([descriptor, b""])], line,
                  sdtool.run(["convert"], b"zz\\n").output.decode(), sys.modules["sdtool"].__file__]))
"""
LAYOUT = ("0100048014000000000000000000000024000000010200000000000520000000200200000400480002000000"
          "000018008900120001020000000000052000000021020000"
          "050028000001000001000000ba7a96bfe60dd011a28500aa003049e201010000000000050b000000")
# What each system's files are, as the first bytes of an ELF or PE file say: the machine's number.
MACHINES = {"linux-x86_64": ("ELF", 0x3e), "linux-aarch64": ("ELF", 0xb7), "windows-x86_64": ("PE", 0x8664)}
NAMES = {"linux-x86_64": ("libsdtool.so.0", "_native.abi3.so"), "linux-aarch64": ("libsdtool.so.0", "_native.abi3.so"),
         "windows-x86_64": ("sdtool.dll", "_native.pyd")}
TAGS = {"linux-x86_64": r"py3-none-manylinux_2_(\d+)_x86_64", "linux-aarch64": r"py3-none-manylinux_2_(\d+)_aarch64",
        "windows-x86_64": r"py3-none-win_amd64"}
# What the limited interface has on Windows alone.
OF_WINDOWS = {"PyErr_SetFromWindowsErr"}
PYTHONS = [*(f"python3.{minor}" for minor in range(8, 15)), "/usr/bin/python3", "pypy3"]


def ran(words, **others):
    """What a command prints on both streams, and its status."""
    ended = subprocess.run(list(map(str, words)), stdout=subprocess.PIPE, stderr=subprocess.STDOUT, timeout=SECONDS,
                           check=False, text=True, **others)
    return ended.stdout, ended.returncode


def test_compiled(count, system):
    """The extension compiles for a system, whose headers have names of their own, also where nothing else is built for
    it."""
    problem = extension.missing(system)
    if system == "linux-x86_64" and os.uname().machine != "x86_64":
        problem = "its compiler is this machine's own"
    if problem:
        print(f"skipped: the extension of {system}, since {problem}")
        return
    with tempfile.TemporaryDirectory() as folder:
        target = pathlib.Path(folder, extension.FILES[system])
        printed, status = ran([sys.executable, TOP / "packaging/extension.py", system, target])
        count.add(status == 0 and machine_of(target.read_bytes()) == MACHINES[system],
                  f"the extension of {system}: {printed[:2000]}")


def wheels_of(system, folder):
    """The wheel of a system, built in a copy of the tree's parts that it is made of."""
    tree = pathlib.Path(folder, "tree")
    for name in ("python", "packaging", "include"):
        shutil.copytree(TOP / name, tree / name, ignore=shutil.ignore_patterns("__pycache__", "*.so"))
    shutil.copy(TOP / "LICENSE", tree)
    shutil.copytree(SYSTEMS / system, tree / "out/systems" / system, symlinks=True)
    printed, status = ran([sys.executable, tree / "packaging/wheels.py", system])
    found = list((tree / "out/dist").glob("*.whl"))
    return found[0] if status == 0 and len(found) == 1 else None, printed


def machine_of(data):
    """Which kind of file it is, and for which machine."""
    if data[:4] == b"\x7fELF":
        return "ELF", int.from_bytes(data[18:20], "little")
    at = int.from_bytes(data[0x3c:0x40], "little")
    return ("PE", int.from_bytes(data[at + 4:at + 6], "little")) if data[at:at + 4] == b"PE\0\0" else ("?", 0)


def names_used(data, system, folder):
    """The names of Python that the extension needs, and the libraries."""
    path = pathlib.Path(folder, "extension")
    path.write_bytes(data)
    if system.startswith("linux"):
        printed, _ = ran(["readelf", "--wide", "--dyn-syms", "--dynamic", path])
        return set(re.findall(r" UND (_?Py\w+)", printed)), set(re.findall(r"NEEDED.*\[(.*)\]", printed))
    printed, _ = ran(["x86_64-w64-mingw32-objdump", "-p", path])
    return set(re.findall(r"\b(_?Py\w+)\n", printed)) - {"PyInit__native"}, set(re.findall(r"DLL Name: (\S+)", printed))


def test_contents(count, wheel, system, folder):
    """The files of a wheel, and its record and tag."""
    with zipfile.ZipFile(wheel) as archive:
        files = {name: archive.read(name) for name in archive.namelist()}
    module = {str(path.relative_to(TOP / "python")) for path in (TOP / "python/sdtool").rglob("*")
              if path.suffix in (".py", ".pyi") or path.name == "py.typed"}
    binaries = {f"sdtool/{name}" for name in NAMES[system]}
    found = {name for name in files if not name.startswith("sdtool-")}
    count.add(module | binaries <= found, f"{wheel.name} lacks {(module | binaries) - found}")
    licences = [files.get(f"{wheel.name.split('-py3')[0]}.dist-info/{name}") for name in ("LICENSE", "COPYRIGHT")]
    count.add(licences == [(TOP / path).read_bytes() for path in ("LICENSE", "packaging/copyright")],
              f"licences of {wheel.name}")
    record = list(csv.reader(io.StringIO(next(data for name, data in files.items()
                                              if name.endswith("/RECORD")).decode())))
    digests = {name: base64.urlsafe_b64encode(hashlib.sha256(data).digest()).rstrip(b"=")
               for name, data in files.items()}
    expected = sorted([name, f"sha256={digests[name].decode()}", str(len(data))] for name, data in files.items()
                      if not name.endswith("/RECORD"))
    count.add(sorted(row for row in record if row[1]) == expected and len(record) == len(files),
              f"the record of {wheel.name}")
    tag = re.fullmatch(rf"sdtool-[\d.]+-({TAGS[system]})\.whl", wheel.name)
    said = next(data for name, data in files.items() if name.endswith("/WHEEL")).decode()
    count.add(tag is not None and f"\nTag: {tag[1]}\n" in said and "Root-Is-Purelib: false" in said,
              f"{wheel.name}: {said}")
    for name in sorted(binaries & found):
        count.add(machine_of(files[name]) == MACHINES[system], f"{wheel.name}: {name} is for {machine_of(files[name])}")
        needed = [int(minor) for minor in re.findall(rb"GLIBC_2\.(\d+)", files[name])]
        count.add(not needed or max(needed) <= int(tag[2]),
                  f"{name} needs glibc 2.{max(needed, default=0)}, and has the tag {tag[1]}")
    extension = files.get(f"sdtool/{NAMES[system][1]}")
    if extension:
        names, libraries = names_used(extension, system, folder)
        others = names - exported() - OF_WINDOWS
        count.add(len(names) > 30 and not others, f"{wheel.name} needs what Python 3.8 has not: {sorted(others)}")
        count.add(libraries <= ({"libc.so.6"} if system.startswith("linux")
                                else {"python3.dll", "KERNEL32.dll", "msvcrt.dll"}),
                  f"{wheel.name} needs {libraries}")


@functools.cache
def exported():
    """The names that the oldest Python that is here exports."""
    names = set()
    for python in filter(shutil.which, PYTHONS):
        code = ("import sys, sysconfig, os; print(os.path.realpath(sys.executable)); "
                "print(os.path.join(sysconfig.get_config_var('LIBDIR') or '', "
                "sysconfig.get_config_var('LDLIBRARY') or ''))")
        for path in filter(os.path.isfile, ran([python, "-c", code])[0].split("\n")):
            names |= set(re.findall(r" [TDBRV] (_?Py\w+)", ran(["nm", "-D", "--defined-only", path])[0]))
        if names:
            break
    return names


def answers(python, **environment):
    """What the installed module says, or what came in place of it."""
    others = {name: value for name, value in os.environ.items()
              if not name.startswith(("SDTOOL_", "PYTHON", "LD_LIBRARY"))}
    printed, status = ran([python, "-W", "error", "-c", ASKED], cwd="/", env={**others, **environment})
    return json.loads(printed) if status == 0 else [printed]


def pip():
    """The words that call a pip which installs into other environments."""
    for python in (sys.executable, *PYTHONS):
        if shutil.which(python):
            found = re.match(r"pip (\d+)\.(\d+)", ran([python, "-m", "pip", "--version"])[0])
            if found and (int(found[1]), int(found[2])) >= (22, 3):
                return [python, "-m", "pip", "--disable-pip-version-check"]
    return None


def pythons():
    """The oldest and the newest Python 3 that are here, the system's and PyPy."""
    found = {}
    for python in PYTHONS:
        if shutil.which(python):
            said, status = ran([python, "-c",
                                "import sys, venv; print(sys.implementation.name, *sys.version_info[:2])"])
            if status == 0:
                found.setdefault(said, python)
    plain = [python for said, python in found.items() if said.startswith("cpython")]
    return [*dict.fromkeys([*plain[:1], *(python for python in plain if python.startswith("/")), *plain[-1:],
                            *(python for said, python in found.items() if not said.startswith("cpython"))])]


def test_installed(count, wheel, python, folder):
    """An empty environment in which pip installs the wheel: by the extension, and without it."""
    place = pathlib.Path(folder, "environment")
    printed, status = ran([python, "-m", "venv", "--without-pip", place])
    if status != 0:
        print(f"skipped: {python} makes no virtual environment")
        return
    own = place / "bin/python"
    version = ran([own, "-c", "import sys; print(*sys.version_info[:2])"])[0].strip()
    to = [*pip(), "--python", own]
    printed, status = ran([*to, "install", "--quiet", "--no-compile", "--no-index", "--no-deps", wheel])
    count.add(status == 0, f"{python}: pip install: {printed}")
    by_extension = answers(own)
    loaded = ran([own, "-c",
                  "import importlib.machinery as m; print('.abi3.so' in m.EXTENSION_SUFFIXES)"])[0] == "True\n"
    count.add(by_extension[0] is loaded, f"Python {version}: the extension is not used: {by_extension}")
    module = next(place.glob("lib/*/site-packages/sdtool"), place)
    expected = [by_extension[0], *EXPECTED, str(module / "__init__.py")]
    count.add(by_extension == expected, f"Python {version}: {by_extension}, not {expected}")
    other = answers(own, SDTOOL_LIBRARY=str(SYSTEMS / "linux-x86_64/libsdtool.so"))
    count.add(other == by_extension, f"Python {version} with SDTOOL_LIBRARY: {other}")
    (module / "_native.abi3.so").unlink()
    by_ctypes = answers(own)
    count.add(by_ctypes == [False, *by_extension[1:]], f"Python {version}: without the extension: {by_ctypes}")
    (module / "_native.abi3.so").write_bytes(b"\x7fELF")
    broken = answers(own)
    count.add(broken == by_ctypes, f"Python {version}: with an extension that does not load: {broken}")
    printed, status = ran([*to, "uninstall", "--quiet", "--yes", "sdtool"])
    left = [path for path in module.rglob("*") if path.is_file() and path.suffix != ".pyc"]
    count.add(status == 0 and not left, f"Python {version}: pip uninstall leaves {left}: {printed}")


# From the worked rows and FORMAT: the layout above, and what the program prints.
SDDL = "O:BAD:(A;;FR;;;BU)(OA;;CR;bf967aba-0de6-11d0-a285-00aa003049e2;;AU)"
EXPECTED = [
    re.search(r'^version = "(.*)"$', (TOP / "python/pyproject.toml").read_text(encoding="utf-8"), re.M)[1], LAYOUT,
    SDDL, [True, 1],
    ["Ace(AceKind.ACCESS_ALLOWED, AceFlags(0x0), 0x120089, Sid('S-1-5-32-545'))",
     "Ace(AceKind.ACCESS_ALLOWED_OBJECT, AceFlags(0x0), 0x100, Sid('S-1-5-11'), "
     "UUID('bf967aba-0de6-11d0-a285-00aa003049e2'))"],
    ["Verdict(granted=True, mask=1)", "error 5 short: fewer than 20 bytes, at byte 0"], "error 20 shape",
    "error 2 hex-digit\n"]


def main(count: preload.Count) -> None:
    for system in MACHINES:
        test_compiled(count, system)
    systems = [system for system in MACHINES if (SYSTEMS / system / NAMES[system][0]).is_file()]
    if not systems:
        print("skipped: nothing is built in out/systems")
    for system in systems:
        with tempfile.TemporaryDirectory() as one, tempfile.TemporaryDirectory() as two:
            wheel, printed = wheels_of(system, one)
            count.add(wheel is not None, f"{system}: {printed}")
            if wheel is None:
                continue
            again, _ = wheels_of(system, two)
            count.add(again is not None and again.name == wheel.name and again.read_bytes() == wheel.read_bytes(),
                      f"two builds of {wheel.name} differ")
            if "without the extension" in printed:
                print(f"skipped: {printed.strip()}")
                continue
            test_contents(count, wheel, system, one)
            if system == f"linux-{os.uname().machine}":
                if not pip():
                    print("skipped: no Python here has a pip that installs into other environments")
                    continue
                for python in pythons():
                    with tempfile.TemporaryDirectory() as folder:
                        test_installed(count, wheel, python, folder)
