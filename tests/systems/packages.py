"""Tests the packages of what 'make systems' built, out/systems. For each system with a library a Python wheel is built
and installed by pip. Then the module is imported from an empty folder, without a library of the system, and answers the
worked rows as the program does. This system's wheel goes into an empty virtual environment. That for arm64 goes to a
Python of Debian for arm64, under qemu-user, which is in the folder of --arm64; if it is not there, apt-get downloads
it. That for Windows is only unpacked, since Debian has no Python for Windows.

With --archives it also packs all archives in two copies of the tree at other places, in other surroundings, and
compares them byte for byte. Then it unpacks each, compares its checksums, and runs the examples of its README.txt, for
arm64 under qemu-user and for Windows under wine.
"""
import base64
import concurrent.futures
import contextlib
import json
import os
import pathlib
import re
import shutil
import subprocess
import tempfile

import c_library
import preload
import systems

TOP = pathlib.Path(__file__).resolve().parents[2]
SYSTEMS = TOP / "out" / "systems"
PYTHON = "/usr/bin/python3"  # which has Debian's modules, those for environments among them
SECONDS = 600
LIBRARIES = {"linux-x86_64": "libsdtool.so.0", "linux-aarch64": "libsdtool.so.0", "windows-x86_64": "sdtool.dll"}
# Reads lines of JSON, each the words and the input of a run, and prints one with the answers for each.
SCRIPT = """
import base64, json, os, sdtool, sys
from sdtool import _library
print(json.dumps([sdtool.__file__, sdtool.version(), sorted(os.listdir('.')), _library._transport.__name__]))
for line in sys.stdin:
    words, given = json.loads(line)
    answers = sdtool.run(words, base64.b64decode(given))
    print(json.dumps([base64.b64encode(answers.output).decode(), answers.message, answers.status]))
descriptor = sdtool.SecurityDescriptor.from_sddl("O:BAD:(A;;FR;;;BU)")
print(json.dumps([descriptor.check(sdtool.Token(["BU"]), 1).granted, str(descriptor.dacl[0]),
                  descriptor.owner.alias()]))
"""
# What a Python of Debian is made of.
PACKAGES = ["libc6", "python3.11-minimal", "libpython3.11-minimal", "libpython3.11-stdlib", "zlib1g",
            "libexpat1", "libffi8", "libssl3", "libbz2-1.0", "liblzma5", "libuuid1"]


def ran(words, **others):
    return subprocess.run(list(map(str, words)), stdin=subprocess.DEVNULL, stdout=subprocess.PIPE,
                          stderr=subprocess.STDOUT, timeout=SECONDS, check=False, **others)


def surroundings():
    """Those of a user who has nothing of this tree."""
    return {name: value for name, value in os.environ.items()
            if not name.startswith(("PYTHON", "SDTOOL", "LD_", "PIP_"))}


def built_wheel(count, system):
    ended = ran([PYTHON, TOP / "packaging/wheels.py", system])
    wheel = pathlib.Path(ended.stdout.decode().strip().split("\n")[-1])
    count.add(ended.returncode == 0 and wheel.exists(), f"the wheel of {system}: {ended.stdout.decode()}")
    return wheel if ended.returncode == 0 and wheel.exists() else None


def rows():
    """The words and the input of rows, and which have words that are text."""
    for _, words, data in c_library.rows_in_memory():
        if len(data) < 100_000 and all(word.isascii() for word in words):
            yield [word.decode() for word in words], data


def test_answers(count, program, what, python, folder, installed):
    """A Python that imports the module of a wheel, in an empty folder."""
    asked = list(rows())
    lines = "".join(json.dumps([words, base64.b64encode(data).decode()]) + "\n" for words, data in asked)
    empty = folder / "empty"
    empty.mkdir(exist_ok=True)
    ended = subprocess.run([*map(str, python), "-c", SCRIPT], input=lines.encode(), capture_output=True, cwd=empty,
                           timeout=SECONDS, check=False, env={**surroundings(), "PYTHONPATH": str(installed or "")})
    found = [json.loads(line) for line in ended.stdout.decode().splitlines()]
    count.add(ended.returncode == 0 and len(found) == len(asked) + 2, f"{what}: {ended.stderr.decode()[-2000:]}")
    if len(found) != len(asked) + 2:
        return
    file, version, listed, transport = found[0]
    expected = c_library.TOP.joinpath("python/pyproject.toml").read_text(encoding="utf-8").split('version = "')[
        1].split('"')[0]
    count.add(str(folder) in file and listed == [] and version == expected, f"{what}: {found[0]}")
    # A wheel that has the extension is used by it.
    has_extension = any(pathlib.Path(file).parent.glob("_native*.so"))
    count.add(transport == ("sdtool._native" if has_extension else "sdtool._foreign"), f"{what}: {transport}")
    with concurrent.futures.ThreadPoolExecutor(os.cpu_count()) as threads:
        expected = threads.map(lambda asked: c_library.of_program(["sdtool", *asked[0]], asked[1],
                                                                  executable=program), asked)
        for (words, _), (output, message, status), wanted in zip(asked, found[1:-1], expected):
            count.add((base64.b64decode(output), message.encode(), status) == wanted, f"{what}: {words}")
    count.add(found[-1] == [True, "(A;;FR;;;BU)", "BA"], f"{what}, objects: {found[-1]}")


def test_here(count, program, wheel, folder):
    place = folder / "environment"
    made = ran([PYTHON, "-m", "venv", place], env=surroundings())
    installed = ran([place / "bin/pip", "install", "--no-index", wheel], cwd=folder, env=surroundings())
    count.add(made.returncode == installed.returncode == 0, f"pip: {made.stdout.decode()} {installed.stdout.decode()}")
    test_answers(count, program, wheel.name, [place / "bin/python"], folder, None)
    shutil.rmtree(place)
    # Without its library the module says what is missing: so the answers above came from the wheel's.
    ended = subprocess.run([PYTHON, "-c", "import sdtool"], cwd=folder, capture_output=True, check=False,
                           env={**surroundings(), "PYTHONPATH": str(TOP / "python"),
                                "SDTOOL_LIBRARY": str(folder / "none")})
    count.add(b"ImportError" in ended.stderr, f"without the library: {ended.stderr.decode()}")


def downloaded(folder):
    """A Python for arm64 in a folder: packages of Debian, unpacked. apt-get keeps its lists there too."""
    options = ["-o", f"Dir::State={folder}/state", "-o", f"Dir::State::status={folder}/status", "-o",
               f"Dir::Cache={folder}/cache",
               "-o", "APT::Architecture=arm64", "-o", "APT::Architectures=arm64"]
    for name in ("state/lists/partial", "cache/archives/partial", "packages", "root"):
        (folder / name).mkdir(parents=True)
    (folder / "status").touch()
    for words in (["update"], ["download", *PACKAGES]):
        ended = ran(["apt-get", *options, *words], cwd=folder / "packages")
        if ended.returncode:
            return ended.stdout.decode()
    for package in (folder / "packages").iterdir():
        ended = ran(["dpkg", "-x", package, folder / "root"])
        if ended.returncode:
            return ended.stdout.decode()
    return None


def test_arm64(count, program, wheel, folder, given):
    if not given:
        print(f"{wheel.name}: not installed; --arm64 FOLDER names a folder for a Python of that system")
        return
    if not shutil.which("qemu-aarch64"):
        print(f"{wheel.name}: not installed, there is no command qemu-aarch64")
        return
    if not (given / "root").exists():
        problem = downloaded(given)
        count.add(not problem, f"a Python for arm64: {problem}")
    python = ["qemu-aarch64", "-L", given / "root", given / "root/usr/bin/python3.11"]
    # The pip of this system, which is in Python alone, says which wheels the other one takes.
    pip = next(pathlib.Path("/usr/share/python-wheels").glob("pip-*.whl"), "none")
    tags = "from pip._vendor.packaging.tags import sys_tags; print(*sys_tags(), sep='\\n')"
    taken = ran([*python, "-c", tags], env={**surroundings(), "PYTHONPATH": str(pip)}).stdout.decode().split()
    count.add("-".join(wheel.stem.split("-")[2:]) in taken,
              f"{wheel.name} is none that Python for arm64 takes: {taken[:3]}")
    target = unpacked(count, wheel, folder)
    test_answers(count, program, wheel.name, python, folder, target)


def unpacked(count, wheel, folder):
    """The folder in which pip unpacks a wheel for another system."""
    _, _, _, abi, platform = wheel.stem.split("-")
    target = folder / platform
    ended = ran([PYTHON, "-m", "pip", "install", "--no-index", "--no-deps", "--no-compile", "--only-binary=:all:",
                 "--platform", platform, "--abi", abi, "--implementation", "cp", "--python-version", "3.11", "--target",
                 target, wheel],
                cwd=folder, env=surroundings())
    count.add(ended.returncode == 0, f"{wheel.name}: {ended.stdout.decode()}")
    return target


def test_unpacked(count, wheel, folder):
    """A wheel for a system without a Python here: pip takes its tag, and it has the library that was tested."""
    library = unpacked(count, wheel, folder) / "sdtool" / LIBRARIES["windows-x86_64"]
    expected = (SYSTEMS / "windows-x86_64" / library.name).read_bytes()
    count.add(library.exists() and library.read_bytes() == expected, f"{wheel.name} has another {library.name}")
    print(f"{wheel.name}: only unpacked, Debian has no Python for Windows")


def test_wheels(count, program, folder, arm64):
    for system, library in LIBRARIES.items():
        if not (SYSTEMS / system / library).exists():
            print(f"the wheel of {system}: skipped, its library is not built")
            continue
        wheel = built_wheel(count, system)
        if wheel and system == "linux-x86_64":
            test_here(count, program, wheel, folder)
        elif wheel and system == "linux-aarch64":
            test_arm64(count, program, wheel, folder, arm64)
        elif wheel:
            test_unpacked(count, wheel, folder)


def archives_of(place, changes, mask, time):
    """What dist.sh makes in a copy of the tree at a place, with other surroundings, of documents and modules of that
    time."""
    preload.copy_tree(place)
    for path in (path for folder in ("docs", "examples", "python") for path in (place / folder).rglob("*")):
        os.utime(path, (time, time))
    ended = ran(["sh", "-c", f"umask {mask} && exec packaging/dist.sh"], cwd=place, env={**os.environ, **changes})
    return ended, {path.name: path.read_bytes() for path in (place / "out/dist").glob("*")}


def examples(text):
    """The command of each example and what it prints."""
    for command, printed in re.findall(r"^    [$>] (.*)\n((?:    .*\n)+)", text, re.M):
        yield command, "".join(line[4:] for line in printed.splitlines(keepends=True))


def runner(system, command):
    """The words that run an example; None if they need a command that is not here."""
    if system == "windows-x86_64":
        return ["wine", "cmd", "/c", command] if shutil.which("wine") else None
    if system == "linux-aarch64":
        command = command.replace("bin/sdtool", "qemu-aarch64 bin/sdtool")
    return ["sh", "-c", command] if system != "linux-aarch64" or shutil.which("qemu-aarch64") else None


def test_unpacked_archive(count, archive, folder, wine):
    """An archive in an empty folder: its checksums, and the examples of its README.txt."""
    system = archive.name.split("-", 2)[2].split(".")[0]
    place = folder / "unpacked" / system
    place.mkdir(parents=True)
    shutil.unpack_archive(archive, place)
    tree, = place.iterdir()
    ended = ran(["sha256sum", "--check", "--strict", "--quiet", "SHA256SUMS"], cwd=tree)
    count.add(ended.returncode == 0, f"{archive.name}: {ended.stdout.decode()}")
    found = list(examples((tree / "README.txt").read_text(encoding="utf-8")))
    count.add(found, f"{archive.name}: no example")
    for command, printed in found:
        words = runner(system, command)
        if not words:
            print(f"{archive.name}: its examples are skipped, there is nothing to run them")
            return
        ended = subprocess.run(words, cwd=tree, stdin=subprocess.DEVNULL, capture_output=True, timeout=SECONDS,
                               check=False, env={**surroundings(), **wine})
        count.add(ended.stdout.decode() == printed,
                  f"{archive.name}: {command}: {ended.stdout.decode()} {ended.stderr.decode()}")


def test_archives(count, folder):
    places = [(folder / "a" / "tree", {"TZ": "UTC", "LANG": "C", "HOME": str(folder)}, "022", 1_000_000_000),
              (folder / "another" / "place of the tree", {"TZ": "Asia/Tokyo", "LANG": "C.UTF-8", "LC_ALL": "C.UTF-8"},
               "077", 2_000_000_000)]
    with concurrent.futures.ThreadPoolExecutor(2) as threads:
        (one, first), (other, second) = threads.map(archives_of, *zip(*places))
    count.add(one.returncode == other.returncode == 0 and len(first) > 3,
              f"dist.sh: {one.stdout.decode()} {other.stdout.decode()}")
    count.add(sorted(first) == sorted(second), f"archives: {sorted(first)} {sorted(second)}")
    for name in first.keys() & second.keys():
        count.add(first[name] == second[name], f"{name} is other bytes at another place")
    archives = [path for path in (places[0][0] / "out/dist").iterdir() if path.name.endswith((".tar.gz", ".zip"))
                and not path.name.endswith("-powershell.zip")]
    with systems.wine(folder / "wine") if shutil.which("wine") else contextlib.nullcontext({}) as wine:
        for archive in archives:
            test_unpacked_archive(count, archive, folder, wine)


def add_options(parser):
    parser.add_argument("--arm64", type=lambda name: pathlib.Path(name).resolve(),
                        help="a folder for a Python for arm64")
    parser.add_argument("--archives", action="store_true", help="compare two packings of all archives")


def main(count: preload.Count, given: preload.Given) -> None:
    with tempfile.TemporaryDirectory() as name:
        folder = pathlib.Path(name)
        test_wheels(count, given.program, folder, given.arm64)
        if given.archives:
            test_archives(count, folder)
