"""Tests that the library works where it is installed: by `make install`, from the archive of `make dist` and from
Debian's packages. Each time a program in C and in C++ is built with the words that pkg-config gives, by CMake and by
Meson, linked to the shared and to the static library, and run. Also tested: what `make uninstall` leaves, the library's
man pages, the names and symbols of the shared library, what abidiff says of changes to it, licences, lintian's opinion
of the packages, and the Python module as pip installs it. Parts whose tools are missing are skipped.
"""
import gzip
import os
import pathlib
import re
import shlex
import shutil
import subprocess
import sys
import tempfile

import preload

TOP = pathlib.Path(__file__).resolve().parents[2]
sys.path.insert(0, str(TOP / "packaging"))
import extension  # noqa: E402

EXTENSION = extension.FILES["linux-x86_64"]  # of the Python module, on any Linux
PREFIX = "/opt/sdtool"
WARNINGS = ["-Wall", "-Wextra", "-Wpedantic", "-Werror"]
SECONDS = 3000
# From the worked examples: SDDL, and its layout as bytes.
SDDL = "O:BAG:SYD:(A;;FA;;;WD)"
LAYOUT = ("0100048014000000240000000000000030000000010200000000000520000000200200000101000000000005120000"
          "0002001c000100000000001400ff011f00010100000000000100000000")
# Each language, and its compiler.
COMPILERS = {"c": os.environ.get("CC", "cc"), "c++": os.environ.get("CXX", "c++")}


def version_of(path, pattern):
    return re.search(pattern, (TOP / path).read_text(encoding="utf-8"), re.M)[1]


# A program for each library.
PROJECT = """cmake_minimum_required(VERSION 3.13)
project(installed C CXX)
find_package(sdtool {version} EXACT REQUIRED)
foreach(language c cxx)
    foreach(library sdtool static)
        set(name ${{language}}_${{library}})
        configure_file({source} ${{name}}.${{language}} COPYONLY)
        add_executable(${{name}} ${{CMAKE_CURRENT_BINARY_DIR}}/${{name}}.${{language}})
        target_link_libraries(${{name}} sdtool::${{library}})
    endforeach()
endforeach()
"""


# The same for Meson: installed, or as a subproject, with the library that its option says.
MESON = """project('installed', 'c', 'cpp')
foreach language : ['c', 'cpp']
    source = configure_file(input: '{source}', output: 'installed.' + language, copy: true)
    executable(language, source, dependencies: dependency(
        'sdtool', version: '{version}', static: get_option('default_library') == 'static'))
endforeach
"""


VERSION = version_of("packaging/control", r"^Version: (.*)$")
HEADER = (TOP / "include/sdtool.h").read_text(encoding="utf-8")
# The man pages of the library: one of each function, and one of all else.
PAGES = {"sdtool.h.3", *(f"{name}.3" for name in re.findall(r"\b(sdtool_\w+)\(", HEADER))}
# What each of Debian's packages has besides documents.
FILES_OF_PACKAGES = {
    "sdtool": {"sdtool", "sdtool.1.gz", "_sdtool", "sdtool.fish"},
    "libsdtool0": {f"libsdtool.so.{VERSION}", "libsdtool.so.0"},
    "libsdtool-dev": {"sdtool.h", "libsdtool.a", "libsdtool.so", "sdtool.pc", "sdtool-config.cmake",
                      "sdtool-config-version.cmake", *(f"{name}.gz" for name in PAGES)},
    "python3-sdtool": {path.name for path in (TOP / "python/sdtool").rglob("*")
                       if path.is_file() and path.suffix not in (".c", ".so", ".pyc") and "audit" not in path.parts}
    | {"METADATA"}
    | ({EXTENSION} if not extension.missing(f"linux-{os.uname().machine}") else set()),
    "sdtool-audit": {"sdtool-audit", "sdtool-audit.1.gz", "sdtool-collect.ps1",
                     *(path.name for path in (TOP / "python/sdtool/audit").rglob("*.py")),
                     *(path.name for path in (TOP / "out").glob("sdtool.html"))},
}
# What abidiff has to find: a change of the header, and whether its types change or a name is gone.
CHANGES = {"uint8_t granted;": "uint16_t granted;", "uint32_t mask, bool label": "uint64_t mask, bool label",
           "uint8_t resource_manager;": "uint8_t resource_manager, more;", "    size_t length;": "    uint32_t length;",
           "bool sdtool_next_ace": "uint32_t sdtool_next_ace"}
ABI_CHANGE = 4  # a bit of the status of abidiff
EXPECTED = f"{VERSION}\n{LAYOUT} {SDDL}\nerror 20\n"


def ran(words, **others):
    """What a command prints on both streams, and its status."""
    ended = subprocess.run(list(map(str, words)), stdout=subprocess.PIPE, stderr=subprocess.STDOUT,
                           check=False, text=True, **{"timeout": SECONDS, **others})
    return ended.stdout, ended.returncode


def make(tree, target, *words):
    printed, status = ran([os.environ.get("MAKE", "make"), "--no-print-directory", target, *words], cwd=tree)
    if status != 0:
        sys.exit(f"make {target}: {printed}\n0 passed, 1 failed")


def install(tree, root):
    """Installs all below the folder, and gives the environment in which pkg-config finds the library there."""
    make(tree, "install", f"DESTDIR={root}", f"PREFIX={PREFIX}")
    return environment(root, pathlib.Path(f"{root}{PREFIX}", "lib"))


def environment(root, libraries):
    return {**os.environ, "PKG_CONFIG_LIBDIR": str(libraries / "pkgconfig"), "PKG_CONFIG_SYSROOT_DIR": str(root),
            "PKG_CONFIG_ALLOW_SYSTEM_CFLAGS": "1", "PKG_CONFIG_ALLOW_SYSTEM_LIBS": "1",
            "LD_LIBRARY_PATH": str(libraries)}


def test_programs(count, where, folder, found):
    """Programs in both languages, with both libraries."""
    words, status = ran(["pkg-config", "--cflags", "--libs", "sdtool"], env=found)
    count.add(status == 0, f"{where}: pkg-config: {words}")
    printed, _ = ran(["pkg-config", "--modversion", "sdtool"], env=found)
    count.add(printed == VERSION + "\n", f"{where}: pkg-config has version {printed}")
    for language, compiler in COMPILERS.items():
        if not shutil.which(compiler):
            print(f"skipped: {where}, {language}: there is no {compiler}")
            continue
        for is_static in (False, True):
            name = f"{where}, {language}, {'static' if is_static else 'shared'}"
            program = folder / "installed"
            program.unlink(missing_ok=True)
            source = ["-x", language, TOP / "tests/library/c/installed.c", "-x", "none",
                      *(["-static"] if is_static else [])]
            printed, status = ran([compiler, *WARNINGS, *source, "-o", program, *shlex.split(words)], env=found)
            count.add(status == 0 and printed == "", f"{name}: {printed}")
            if status == 0:
                path = {"LD_LIBRARY_PATH": "" if is_static else found["LD_LIBRARY_PATH"]}
                answer = ran([program], input=f"{SDDL}\nX:\n", env={**os.environ, **path})
                count.add(answer == (EXPECTED, 0), f"{name}: printed {answer}")


def test_cmake(count, where, folder, tree):
    """The same programs, by CMake, which finds the library below a folder."""
    if not shutil.which("cmake"):
        print(f"skipped: {where}: there is no cmake")
        return
    project, built = folder / "project", folder / "built"
    project.mkdir()
    source = PROJECT.format(version=VERSION, source=TOP / "tests/library/c/installed.c")
    (project / "CMakeLists.txt").write_text(source, encoding="utf-8")
    for words in (["-S", project, "-B", built, f"-DCMAKE_PREFIX_PATH={tree}"], ["--build", built]):
        printed, status = ran(["cmake", *words])
        count.add(status == 0, f"{where}: cmake: {printed}")
    for name in ("c_sdtool", "c_static", "cxx_sdtool", "cxx_static"):
        answer = ran([built / name], input=f"{SDDL}\nX:\n")
        count.add(answer == (EXPECTED, 0), f"{where}, {name}: printed {answer}")


def test_meson(count, where, folder, found, subproject=None):
    """The same programs, by Meson, which finds the library by pkg-config, or in a subproject."""
    if not shutil.which("meson"):
        print(f"skipped: {where}: there is no meson")
        return
    name = "subproject" if subproject else "installed"
    project = folder / f"meson-{name}"
    project.mkdir()
    if subproject:
        shutil.copytree(subproject, project / "subprojects/sdtool", symlinks=True)
        found = {**found, "PKG_CONFIG_LIBDIR": str(folder), "LD_LIBRARY_PATH": ""}
    source = MESON.format(version=VERSION, source=TOP / "tests/library/c/installed.c")
    (project / "meson.build").write_text(source, encoding="utf-8")
    for kind in ("shared", "static"):
        built = project / kind
        words = ["meson", "setup", f"--default-library={kind}", "--wrap-mode=" + (
            "forcefallback" if subproject else "nofallback"), built, project]
        for one in (words, ["meson", "compile", "-C", built]):
            printed, status = ran(one, env=found)
            count.add(status == 0, f"{where}, {name}: meson: {printed}")
        needed, _ = ran(["readelf", "-d", built / "c"])
        count.add(("libsdtool" in needed) == (kind == "shared"), f"{where}, {name}, {kind}: {needed}")
        for program in ("c", "cpp"):
            answer = ran([built / program], input=f"{SDDL}\nX:\n", env=found)
            count.add(answer == (EXPECTED, 0), f"{where}, {name}, {kind} {program}: printed {answer}")


def test_abi(count, folder):
    """abidiff finds changes of types and names, of libraries that are linked as ours is."""
    if not shutil.which("abidiff"):
        print("skipped: there is no abidiff")
        return

    def linked(name, text, symbols):
        header, described, library = (folder / f"{name}{end}" for end in (".h", ".o", ".so"))
        header.write_text(text, encoding="utf-8")
        for words in ([TOP / "packaging/describe.sh", header, described],
                      [COMPILERS["c"], "-shared", "-Wl,-soname,libsdtool.so.0", f"-Wl,--version-script={symbols}",
                       "-Wl,--whole-archive", TOP / "out/lib/libsdtool.a", "-Wl,--no-whole-archive", described, "-o",
                       library]):
            printed, status = ran(words)
            count.add((printed, status) == ("", 0), f"abidiff: {words[0]}: {printed}")
        return library

    symbols = (TOP / "packaging/library.map").read_text(encoding="utf-8")
    names = folder / "names.map"
    names.write_text(symbols, encoding="utf-8")
    ours, same = TOP / "out/lib/libsdtool.so", linked("same", HEADER, names)
    printed, status = ran(["abidiff", ours, same])
    count.add(status == 0, f"abidiff of the same header: {printed}")
    for number, (old, new) in enumerate(CHANGES.items()):
        changed = HEADER.replace(old, new)
        count.add(changed != HEADER, f"the header has no {old}")
        printed, status = ran(["abidiff", ours, linked(f"changed{number}", changed, names)])
        count.add(status & ABI_CHANGE and re.search(r"[1-9]\d* functions? with", printed),
                  f"abidiff misses {new}: {printed}")
    names.write_text(symbols.replace("sdtool_edit;", ""), encoding="utf-8")
    printed, status = ran(["abidiff", ours, linked("lacking", HEADER, names)])
    count.add(status & ABI_CHANGE and "1 Removed" in printed, f"abidiff misses that a call is gone: {printed}")


def test_names(count, libraries):
    """The names of the shared library, and which library a program asks for."""
    real, soname, plain = (libraries / f"libsdtool.so.{VERSION}", libraries / "libsdtool.so.0",
                           libraries / "libsdtool.so")
    count.add(real.is_file() and not real.is_symlink(), f"{real} is no file")
    count.add(os.path.samefile(soname, real) and os.path.samefile(plain, real), "the links to the shared library")
    dynamic, _ = ran(["readelf", "-d", real])
    count.add(re.findall(r"\(SONAME\).*\[(.*)\]", dynamic) == ["libsdtool.so.0"], dynamic)
    count.add(re.findall(r"\(NEEDED\).*\[(.*)\]", dynamic) == ["libc.so.6"], dynamic)
    count.add("BIND_NOW" in dynamic, dynamic)
    symbols, _ = ran(["nm", "-D", "--defined-only", real])
    names = [line.split()[-1] for line in symbols.splitlines() if " A " not in line]
    count.add(names and all(name.startswith("sdtool_") for name in names), symbols)


def test_install(count, folder):
    root, tree = folder / "root", preload.copy_tree(folder / "tree")
    found = install(tree, root)
    installed = pathlib.Path(f"{root}{PREFIX}")
    test_names(count, installed / "lib")
    test_programs(count, "make install", folder, found)
    test_cmake(count, "make install", folder, installed)
    test_meson(count, "make install", folder, found)
    test_module(count, folder, found)
    test_pages(count, installed / "share/man/man3")
    make(tree, "uninstall", f"DESTDIR={root}", f"PREFIX={PREFIX}")
    left = [path for path in installed.rglob("*") if path.is_symlink() or not path.is_dir() or path.name == "sdtool"]
    count.add(not left, f"make uninstall leaves {left}")


def test_pages(count, folder):
    """The man pages of the library: groff finds no fault in them, and each shows its function and what is said of
    it."""
    count.add({path.name for path in folder.iterdir()} == PAGES, f"man pages: {sorted(folder.iterdir())}")
    if not shutil.which("groff"):
        print("skipped: there is no groff")
        return
    for path in sorted(folder.iterdir()):
        warnings, status = ran(["groff", "-man", "-Tutf8", "-ww", "-z", path])
        count.add((warnings, status) == ("", 0), f"{path.name}: {warnings}")
        shown = ran(["groff", "-man", "-Tascii", "-P-cbou", "-rLL=200n", path])[0]
        wanted = ["struct sdtool_outcome {", "SDTOOL_TOO_SMALL = 71"] if path.stem == "sdtool.h" else [f" {path.stem}("]
        count.add(all(one in shown for one in ("DESCRIPTION", "SEE ALSO", *wanted)),
                  f"{path.name} lacks something of {wanted}")


def test_module(count, folder, found):
    """The Python module, as pip installs it."""
    if ran([sys.executable, "-c", "import pip"])[1] != 0:
        print("skipped: this Python has no pip")
        return
    site, source = folder / "site", folder / "python"
    shutil.copytree(TOP / "python", source, ignore=shutil.ignore_patterns("__pycache__"))
    words = ["-m", "pip", "install", "--quiet", "--disable-pip-version-check", "--no-index", "--target", site, source]
    printed, status = ran([sys.executable, *words], cwd=folder)
    count.add(status == 0, f"pip install: {printed}")
    code = f"import sdtool; print(sdtool.version(), sdtool.from_sddl({SDDL!r}).hex(), sdtool.__file__)"
    without = {name: value for name, value in found.items() if name != "SDTOOL_LIBRARY"}
    answer = ran([sys.executable, "-c", code], env={**without, "PYTHONPATH": str(site)}, cwd=folder)
    count.add(answer == (f"{VERSION} {LAYOUT} {site}/sdtool/__init__.py\n", 0), f"the module: {answer}")
    count.add((site / "sdtool/py.typed").is_file(), "the module has no py.typed")
    count.add(version_of("python/pyproject.toml", '^version = "(.*)"$') == VERSION, "the module has another version")


def test_archive(count, folder):
    """The archive works wherever it is unpacked."""
    tree = preload.copy_tree(folder / "tree")
    archive = tree / ran([tree / "packaging/dist.sh", "linux-x86_64"])[0].splitlines()[-1]
    shutil.unpack_archive(archive, folder)
    tree = folder / archive.name.replace(".tar.gz", "")
    printed, status = ran(["sha256sum", "--quiet", "-c", "SHA256SUMS"], cwd=tree)
    count.add((printed, status) == ("", 0), f"the archive's checksums: {printed}")
    found = environment("", tree / "lib")
    test_programs(count, "make dist", folder, found)
    test_cmake(count, "make dist", folder, tree)
    test_meson(count, "make dist", folder, found, tree)


def test_packages(count, folder):
    if not shutil.which("dpkg-deb") or not shutil.which("dpkg-architecture"):
        print("skipped: there is no dpkg-deb or no dpkg-architecture")
        return
    tree = preload.copy_tree(folder / "tree")
    make(tree, "deb")
    packages = [next((tree / "out").glob(f"{name}_{VERSION}_*.deb")) for name in FILES_OF_PACKAGES]
    root = folder / "packages"
    for path, wanted in zip(packages, FILES_OF_PACKAGES.values()):
        printed, status = ran(["dpkg-deb", "-x", path, root])
        count.add(status == 0, f"{path}: {printed}")
        listed = [line.split()[5] for line in ran(["dpkg-deb", "-c", path])[0].splitlines()]
        files = {pathlib.Path(name).name for name in listed if "/doc/" not in name and not name.endswith("/")}
        count.add(wanted == files, f"{path} has {files}")
    libraries = next(root.rglob("libsdtool.a")).parent
    code = "import sdtool, sys; print(sdtool.version(), 'sdtool._native' in sys.modules)"
    answer = ran([sys.executable, "-B", "-c", code],
                 env={**os.environ, "PYTHONPATH": str(next(root.rglob("dist-packages"))),
                      "LD_LIBRARY_PATH": str(libraries)})
    count.add(answer == (f"{VERSION} {EXTENSION in FILES_OF_PACKAGES['python3-sdtool']}\n", 0),
              f"python3-sdtool: {answer}")
    test_programs(count, "make deb", folder, environment(root, libraries))
    test_cmake(count, "make deb", folder, root / "usr")
    test_metadata(count, root, packages)
    test_licences(count, root)
    if shutil.which("lintian"):
        # It reads each man page, which takes long on a busy machine.
        printed, status = ran(["lintian", "--allow-root", "--fail-on", "error,warning", *packages], timeout=SECONDS)
        count.add(status == 0, f"lintian: {printed}")
    else:
        print("skipped: there is no lintian")


def test_metadata(count, root, packages):
    """What other packages ask: the version of the Python module, and since when the library has each name."""
    code = "import importlib.metadata; print(importlib.metadata.version('sdtool'))"
    answer = ran([sys.executable, "-c", code], env={**os.environ, "PYTHONPATH": str(next(root.rglob("dist-packages")))})
    count.add(answer == (VERSION + "\n", 0), f"importlib.metadata: {answer}")
    symbols, status = ran(["dpkg-deb", "--info", packages[1], "symbols"])
    names = {line.split("@")[0].strip() for line in symbols.splitlines()[1:]}
    count.add(status == 0 and set(re.findall(r"\bsdtool_\w+(?=\()", HEADER)) <= names, f"libsdtool0: {symbols}")


def test_licences(count, root):
    """Each package has its licence and its changes, and what runs is bound when it is loaded."""
    for name in FILES_OF_PACKAGES:
        documents = root / "usr/share/doc" / name
        text = (documents / "copyright").read_text(encoding="utf-8")
        count.add("License: Apache-2.0" in text and "License: MIT" in text, f"{name}: {text}")
        changes = gzip.decompress((documents / "changelog.gz").read_bytes()).decode()
        count.add(changes.startswith(f"sdtool ({VERSION}) "), f"{name}: {changes[:200]}")
    for path in (*root.rglob("*.so.?.*"), *root.rglob("*.abi3.so")):
        dynamic, _ = ran(["readelf", "-d", path])
        count.add("BIND_NOW" in dynamic, f"{path.name}: {dynamic}")


def test_scripts(count):
    """A package or a library for another system is not made where a part of it failed, also in front of a pipe."""
    scripts = [path for folder in ("packaging", "systems") for path in sorted((TOP / folder).glob("*.sh"))]
    run = [path for path in scripts if os.access(path, os.X_OK)]
    count.add(len(run) > 3, "scripts that make packages")
    for path in run:
        count.add("\nset -euo pipefail\n" in path.read_text(encoding="utf-8"), path.name)


def main(count: preload.Count) -> None:
    test_scripts(count)
    if not shutil.which("pkg-config"):
        print("skipped: there is no pkg-config")
        return
    for test in filter(preload.is_chosen, (test_install, test_archive, test_packages, test_abi)):
        with tempfile.TemporaryDirectory() as name:
            test(count, pathlib.Path(name))
