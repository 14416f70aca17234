#!/usr/bin/env python3
"""compile.py CRATE FILE [--ir FILE] [--target TRIPLE]

Compiles a proved crate, a program into an object file or the library into an archive, over the work that 'rt run' and
'rt lib' kept. With --ir it also keeps the LLVM IR that the compiler hands to clang, from which other systems are built.

The compiler calls the clang of its toolchain folder once. Here that folder is one of links, in which clang is a script
that copies its input and then calls the real clang.
"""
import argparse
import pathlib
import shlex
import shutil
import subprocess
import sys
import tempfile

TOP = pathlib.Path(__file__).resolve().parents[1]
KIT = pathlib.Path(shutil.which("rt") or sys.exit("there is no command 'rt' on the PATH")).resolve().parents[1]
CLANG = """#!/bin/bash
for word; do
    [[ $word != *.bc ]] || cp "$word" {kept}
done
exec -a "$0" {clang} "$@"
"""


def libraries():
    """The libraries that each crate names, and whether it is a static library: what crates.txt says."""
    found = {}
    for line in (TOP / "crates.txt").read_text(encoding="utf-8").splitlines():
        if line and not line.startswith("#"):
            names, _, uses = line.partition(":")
            crate, *kind = names.split()
            found[crate] = (uses.split(), kind == ["staticlib"])
    return found


def below(crate, known):
    """The crates of this repository that a crate is built over, those that it does not name itself too."""
    found = {}
    for name in known[crate][0]:
        if name in known:
            found |= {**below(name, known), name: None}
    return found


def words_for(crate):
    """The words that name the crate and what it is compiled with."""
    known = libraries()
    uses, is_static = known[crate]
    words = ["--crate-name", crate, "src/lib.rt" if is_static else "src/main.rt",
             *["--crate-type", "staticlib"] * is_static]
    place_of = {name: TOP / "crates" / name / "out" / "rlib" for name in below(crate, known)}
    for name in ["std", *uses]:
        words += ["--extern", f"{name}={place_of.get(name, KIT / 'rlibs') / name}.rlib"]
    for place in [KIT / "rlibs", *place_of.values()]:
        words += ["-L", f"dependency={place}"]
    return [*words, "--links", f"{crate}=", "--antt-project", KIT / "rattle/logic/antt-project.json",
            "--logic-built", KIT / "logic_built", "--incremental", "out/incremental", "--jobs", "2",
            "--backend", "llvm"]


def make_toolchain(folder, kept):
    """A toolchain folder of links whose clang keeps what it compiles."""
    (folder / "bin").mkdir()
    (folder / "lib").symlink_to(KIT / "toolchain/lib")
    for file in (KIT / "toolchain/bin").iterdir():
        (folder / "bin" / file.name).symlink_to(file.resolve() if file.name != "clang" else file)
    script = folder / "bin" / "clang"
    script.unlink()
    script.write_text(CLANG.format(kept=shlex.quote(str(kept)), clang=shlex.quote(str(KIT / "toolchain/bin/clang"))))
    script.chmod(0o755)


def main():
    parser = argparse.ArgumentParser(description="Compiles a proved crate, and keeps its LLVM IR.")
    parser.add_argument("crate")
    parser.add_argument("file", type=pathlib.Path)
    parser.add_argument("--ir", type=pathlib.Path)
    parser.add_argument("--target", default="x86_64-unknown-linux-gnu")
    given = parser.parse_args()
    with tempfile.TemporaryDirectory() as name:
        folder = pathlib.Path(name)
        kept, toolchain = folder / "module.bc", folder / "toolchain"
        toolchain.mkdir()
        make_toolchain(toolchain, kept)
        words = [KIT / "bin/rattle", "build", *words_for(given.crate), "--target", given.target,
                 "--toolchain", toolchain, "-o", given.file.resolve()]
        given.file.parent.mkdir(parents=True, exist_ok=True)
        ended = subprocess.run(words, cwd=TOP / "crates" / given.crate, stdin=subprocess.DEVNULL, check=False)
        if ended.returncode:
            return ended.returncode
        if given.ir:
            shutil.move(kept, given.ir)
    return 0


if __name__ == "__main__":
    sys.exit(main())
