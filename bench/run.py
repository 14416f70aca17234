#!/usr/bin/env python3
"""run.py [PROGRAM] [--megabytes N] [--rounds N] [--write]

Measures the program (crates/sdtool/out/sdtool where none is given) against baseline.rs and cat: on the mixture that
generate.py makes in hex, base64 and SDDL, to hex, base64 and SDDL and explained under one of its domains, checked, and
derived from; on lines of 375 to 1,500 ACEs, which show whether an ACE costs the same in a longer line; and on lines
that are nearly as long as may be.
The inputs have the same size and are kept in the folder sdtool-bench among the temporary files.

It checks that program and baseline write the same each time, runs the three in turn, so that what else the machine
does meets them alike, and prints the medians. Time is processor time, user and system; megabytes are those of the
input, which comes from a file; the output goes to /dev/null. In one run more of program and baseline it counts their
reads and writes, and in a third of the program, whose input comes through a pipe, it looks at the memory that the
program had resident at most.
"""
import argparse
import filecmp
import hashlib
import os
import pathlib
import shutil
import statistics
import subprocess
import sys
import tempfile

sys.dont_write_bytecode = True
import generate  # noqa: E402  (which finds the folder of the tests)
import memory  # noqa: E402
import preload  # noqa: E402
import results  # noqa: E402

HERE = pathlib.Path(__file__).resolve().parent
PROGRAM = HERE.parent / "crates/sdtool/out/sdtool"
DOMAIN_TEXT = "-".join(["S-1", *map(str, generate.HOME)])


def accounts(*numbers):
    """Accounts and groups of the domain."""
    return [f"{DOMAIN_TEXT}-{number}" for number in numbers]


# A user who is in groups that are met in descriptors, and one who is in very many of which none is.
USUAL_TOKEN = ["WD", "AU", "IU", "BU", *accounts(1105, 513, *range(40_000, 40_014))]
LARGEST_TOKEN = accounts(*range(40_000, 41_024))
CHECKED, CHECKED_IN_VAIN = (["check", "--want", "FR", "--token", ",".join(token)]
                            for token in (USUAL_TOKEN, LARGEST_TOKEN))
DERIVED = ["derive", "--kind", "container", "--owner", *accounts(1105), "--group", *accounts(513)]
# A folder that its user creates with labels and ACEs of its own.
CREATOR = f"D:(A;OICI;GA;;;CO)(A;OICI;0x1301bf;;;{DOMAIN_TEXT}-1105)(D;;WD;;;WD)S:(ML;OICI;NW;;;ME)"
CREATED = [*DERIVED, "--creator", CREATOR]
LOW = [*CHECKED, "--level", "4096"]
TO_HEX, TO_BASE64, TO_SDDL = (["convert", "--to", form] for form in ("hex", "base64", "sddl"))
LONGEST = "longest"
# What is measured: the form of the lines, the number of ACEs of each, or None for the mixture, and what is asked.
MEASURED = {
    "the mixture to hex": ("hex", None, TO_HEX),
    "the mixture to base64": ("hex", None, TO_BASE64),
    "the mixture to SDDL": ("hex", None, TO_SDDL),
    "the mixture explained": ("hex", None, ["explain"]),
    "the mixture from base64 to hex": ("base64", None, TO_HEX),
    "the mixture from base64 to base64": ("base64", None, TO_BASE64),
    "the mixture from base64 to SDDL": ("base64", None, TO_SDDL),
    "the mixture from SDDL to hex": ("sddl", None, TO_HEX),
    "the mixture from SDDL to SDDL": ("sddl", None, TO_SDDL),
    "the mixture checked for a token of 20": ("hex", None, CHECKED),
    "the mixture checked for the same token at the level Low": ("hex", None, LOW),
    "the mixture derived from": ("hex", None, [*DERIVED, "--to", "hex"]),
    "the mixture derived from, SDDL to SDDL": ("sddl", None, DERIVED),
    "the mixture derived from with a creator's descriptor": ("hex", None, [*CREATED, "--to", "hex"]),
    "375 ACEs a line to hex": ("hex", 375, TO_HEX),
    "750 ACEs a line to hex": ("hex", 750, TO_HEX),
    "1,500 ACEs a line to hex": ("hex", 1500, TO_HEX),
    "1,500 ACEs a line explained": ("hex", 1500, ["explain"]),
    "375 ACEs a line from SDDL to hex": ("sddl", 375, TO_HEX),
    "1,500 ACEs a line from SDDL to hex": ("sddl", 1500, TO_HEX),
    "the longest lines of hex to hex": ("hex", LONGEST, TO_HEX),
    "the longest lines of base64 to hex": ("base64", LONGEST, TO_HEX),
    "the longest lines of SDDL to hex": ("sddl", LONGEST, TO_HEX),
    "1,500 ACEs a line checked for a token of 1,024": ("hex", 1500, CHECKED_IN_VAIN),
}


def words_of(source, asked):
    """Under the domain, where a SID may be spelled by its alias."""
    return [*asked, "--from", source, "--domain", DOMAIN_TEXT]


def input_file(folder, settings):
    """The input, made anew where this generator has not made it yet."""
    generator = HERE / "generate.py"
    made_by = [generator, *sorted(pathlib.Path(generate.reference.__file__).parent.glob("*.py"))]
    version = hashlib.sha256(b"".join(path.read_bytes() for path in made_by)).hexdigest()[:12]
    path = folder / f"{'-'.join(word.strip('-') for word in settings)}-{version}.lines"
    if not path.exists():
        print(f"making {path}")
        unfinished = path.with_suffix(".unfinished")
        with open(unfinished, "wb") as file:
            subprocess.run([sys.executable, generator, *settings], stdout=file, check=True)
        unfinished.rename(path)
    return path


def build_baseline(folder):
    path = folder / "baseline"
    subprocess.run(["rustc", "-O", "--edition", "2021", "-o", path, HERE / "baseline.rs"], check=True)
    return path


def run(command, given, written):
    """The processor time of one run in seconds, and its exit status."""
    with open(given, "rb") as stdin, open(written, "wb") as stdout:
        child = subprocess.Popen(command, stdin=stdin, stdout=stdout)
        _, status, usage = os.wait4(child.pid, 0)
        child.returncode = os.waitstatus_to_exitcode(status)
    return usage.ru_utime + usage.ru_stime, child.returncode


def write_the_same(folder, given, commands):
    """Whether program and baseline write the same and end with the same status."""
    ours, theirs = folder / "ours", folder / "theirs"
    statuses = [run(command, given, path)[1] for command, path in zip(commands, (ours, theirs))]
    same = statuses[0] == statuses[1] and filecmp.cmp(ours, theirs, shallow=False)
    if same:
        ours.unlink()
        theirs.unlink()
    else:
        print(f"the outputs for {given} differ: {ours} (status {statuses[0]}) and {theirs} (status {statuses[1]})")
    return same


def calls(command, given, library):
    """The number of reads and writes of a run, which the preloaded library tells of."""
    with tempfile.TemporaryFile() as told, open(given, "rb") as stdin:
        environment = {**os.environ, "LD_PRELOAD": library, "FAULT_TELL": str(told.fileno())}
        subprocess.run(command, stdin=stdin, stdout=subprocess.DEVNULL, env=environment, pass_fds=[told.fileno()])
        return len(preload.events_in(told))


def lines_in(path):
    with open(path, "rb") as file:
        return sum(piece.count(b"\n") for piece in iter(lambda: file.read(1 << 20), b""))


def blocks_of(path):
    with open(path, "rb") as file:
        yield from iter(lambda: file.read(memory.BLOCK), b"")


def medians(commands, given, rounds):
    """The median of each command's times."""
    times = {name: [] for name in commands}
    for _ in range(rounds):
        for name, command in commands.items():
            times[name].append(run(command, given, os.devnull)[0])
    return {name: statistics.median(taken) for name, taken in times.items()}


def main():
    parser = argparse.ArgumentParser(description="Measures the program against a plain one in Rust, and cat.")
    parser.add_argument("program", nargs="?", default=PROGRAM, type=os.path.abspath)
    parser.add_argument("--megabytes", type=int, default=150, help="of each input (%(default)s)")
    parser.add_argument("--rounds", type=int, default=9, help="(%(default)s)")
    results.add_option(parser)
    wanted = parser.parse_args()
    if not os.access(wanted.program, os.X_OK):
        sys.exit(f"bench: there is no program at {wanted.program}; 'make program' builds it")
    if not shutil.which("rustc"):
        sys.exit("bench: the baseline is built by rustc, and there is none on the PATH")
    folder = pathlib.Path(tempfile.gettempdir()) / "sdtool-bench"
    folder.mkdir(exist_ok=True)
    baseline, library = build_baseline(folder), preload.build("faults.c", folder)
    inputs, commands = {}, {}
    for name, (source, aces, asked) in MEASURED.items():
        lines = {None: [], LONGEST: ["--longest"]}.get(aces, ["--aces", str(aces)])
        settings = ["--form", source, "--megabytes", str(wanted.megabytes), *lines]
        inputs[name], words = input_file(folder, settings), words_of(source, asked)
        commands[name] = {"sdtool": [wanted.program, *words], "baseline": [baseline, *words], "cat": ["cat"]}
    judged = [(given, [commands[name]["sdtool"], commands[name]["baseline"]]) for name, given in inputs.items()]
    if not all([write_the_same(folder, given, both) for given, both in judged]):
        return 1
    print(f"processor time, medians of {wanted.rounds} rounds; the outputs are equal")
    speeds = {}
    for name, given in inputs.items():
        size, lines = given.stat().st_size, lines_in(given)
        print(f"{name}: {lines:,} lines, {size / 1e6:.1f} MB")
        taken = medians(commands[name], given, wanted.rounds)
        _, aces, _ = MEASURED[name]
        speeds[name] = taken["baseline"] / taken["sdtool"]
        for command, time in taken.items():
            shown = f"  {command:10}{time:8.3f} s{size / time / 1e6:8.0f} MB/s{lines / time:13,.0f} lines/s"
            if command != "cat":
                shown += f"{calls(commands[name][command], given, library) / size * 1e6:8.0f} calls a MB"
            print(shown + (f"{time / lines / aces * 1e9:9.1f} ns an ACE" if isinstance(aces, int) else ""))
        print(f"  sdtool has at most {memory.run(commands[name]['sdtool'], blocks_of(given)).memory:,} KiB resident")
    for name, speed in speeds.items():
        print(f"on {name} sdtool has {speed:.2f} of the baseline's speed")
    return 0


if __name__ == "__main__":
    sys.exit(results.kept(main))
