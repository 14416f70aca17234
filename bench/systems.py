#!/usr/bin/env python3
"""systems.py [PROGRAM] [--megabytes N] [--rounds N] [--write]

Measures what 'make systems' built beside PROGRAM (crates/sdtool/out/sdtool where none is given), on the mixture that
generate.py makes: converted from hex to SDDL and from SDDL to hex, explained, checked, and derived from. Each has to
write the same bytes with the same status. They run in turn, and the medians are printed, in seconds and as a multiple
of PROGRAM's.

Time is processor time of the whole process, user and system, its start included; the last row is a run without input.
That of wine's server is not in it. The input comes from a file, and the output goes to /dev/null. Then it prints the
processor time of a call from C and of one from JavaScript.
"""
import argparse
import filecmp
import os
import pathlib
import shutil
import subprocess
import sys
import tempfile

sys.dont_write_bytecode = True
import run  # noqa: E402
import preload  # noqa: E402
import results  # noqa: E402

TOP = pathlib.Path(__file__).resolve().parent.parent
BUILT = TOP / "out" / "systems"
JAVASCRIPT = TOP / "tests/systems/javascript"
# What is measured: the form of the lines, and what is asked.
MEASURED = {
    "hex to SDDL": ("hex", run.TO_SDDL),
    "SDDL to hex": ("sddl", run.TO_HEX),
    "explained": ("hex", ["explain"]),
    "checked": ("hex", run.CHECKED),
    "derived": ("hex", [*run.DERIVED, "--to", "hex"]),
}
CALL_ROUNDS = 20_000


def programs(native):
    """The words that start the program of each system that is here."""
    found = {
        "native": [native],
        "static": [BUILT / "linux-x86_64/sdtool"],
        "Windows, wine": ["wine", BUILT / "windows-x86_64/sdtool.exe"],
        "WASI, Node": ["node", "--no-warnings", TOP / "javascript/wasi.mjs", BUILT / "wasm/sdtool-wasi.wasm"],
        "module, Node": ["node", TOP / "bench/module.mjs", BUILT / "wasm"],
    }
    for name, words in list(found.items()):
        missing = [word for word in words if isinstance(word, pathlib.Path) and not word.exists()
                   or not shutil.which(words[0])]
        if missing:
            print(f"{name}: skipped, there is no {missing[0]}")
            del found[name]
    return {name: list(map(str, words)) for name, words in found.items()}


def measured(folder, commands, given, rounds):
    """The median of each system's times, if all write the same."""
    expected = None
    for name, command in commands.items():
        written = folder / "written"
        status = run.run(command, given, written)[1]
        if expected is None:
            expected = status
            written.rename(folder / "expected")
        elif status != expected or not filecmp.cmp(written, folder / "expected", shallow=False):
            sys.exit(f"{name}: another answer, status {status}: {command}")
    return run.medians(commands, given, rounds)


def calls(folder):
    """Microseconds of the three calls of speed.c and of speed.mjs."""
    program = folder / "speed"
    subprocess.run([*preload.compiler(), "-O2", f"-I{TOP / 'include'}", TOP / "tests/library/c/speed.c",
                    BUILT / "linux-x86_64/libsdtool.a",
                    "-o", program], check=True)
    for name, words in (("C", [program]), ("JavaScript", ["node", JAVASCRIPT / "speed.mjs", BUILT / "wasm"])):
        taken = subprocess.run([*map(str, words), str(CALL_ROUNDS)], stdout=subprocess.PIPE,
                               check=True).stdout.decode().strip()
        print(f"microseconds of a call from {name}, to SDDL, from SDDL, a check: {taken}", flush=True)


def main():
    parser = argparse.ArgumentParser(description="Measures the programs of 'make systems' beside the one of "
                                     "this system.")
    parser.add_argument("program", nargs="?", default=run.PROGRAM, type=pathlib.Path)
    parser.add_argument("--megabytes", type=int, default=50, help="of each input (%(default)s)")
    parser.add_argument("--rounds", type=int, default=5, help="(%(default)s)")
    results.add_option(parser)
    given = parser.parse_args()
    kept = pathlib.Path(tempfile.gettempdir()) / "sdtool-bench"
    kept.mkdir(exist_ok=True)
    starts = programs(given.program.resolve())
    inputs = {source: run.input_file(kept, ["--form", source, "--megabytes", str(given.megabytes)])
              for source in ("hex",
                             "sddl")}
    with tempfile.TemporaryDirectory() as name:
        folder = pathlib.Path(name)
        os.environ.update(WINEPREFIX=str(folder / "wine"), WINEDEBUG="-all")
        os.environ.pop("DISPLAY", None)
        quiet = {"stdin": subprocess.DEVNULL, "stdout": subprocess.DEVNULL, "stderr": subprocess.DEVNULL}
        if "Windows, wine" in starts:
            for words in (["wine", "cmd", "/c", "exit"], ["wineserver", "-p"], ["wine", "cmd", "/c", "exit"]):
                subprocess.run(words, check=False, **quiet)
        try:
            calls(folder)
            print("| | " + " | ".join(starts) + " |\n|---" * 1 + "|---" * len(starts) + "|")
            (folder / "empty").touch()
            for what, (source, asked) in [*MEASURED.items(), ("no input", (None, run.TO_SDDL))]:
                path = inputs[source] if source else folder / "empty"
                commands = {name: [*words, *run.words_of(source or "hex", asked)] for name, words in starts.items()}
                times = measured(folder, commands, path, given.rounds)
                cells = [f"{times[name]:.2f} ({times[name] / times['native']:.2f})" if source else f"{times[name]:.3f}"
                         for name in starts]
                print(f"| {what} | {' | '.join(cells)} |", flush=True)
        finally:
            if "Windows, wine" in starts:
                subprocess.run(["wineserver", "-k"], check=False, **quiet)


if __name__ == "__main__":
    sys.exit(results.kept(main))
