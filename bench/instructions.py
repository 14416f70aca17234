#!/usr/bin/env python3
"""instructions.py [PROGRAM] [--lines FILE] [--top N] [--job WORD] [--against FILE] [--json FILE]

Counts the instructions that the program executes (crates/sdtool/out/sdtool where none is given), by valgrind's
callgrind (Debian's package valgrind). Unlike times these figures do not move with what else the machine does, so they
show what a change of a few per cent costs or saves.

Each job runs over the first 500 and over the first 1,500 lines of an input. The difference of both counts, divided by a
thousand, is what a line costs. What is left of the shorter run is what a start costs: reading the words and making the
engine. A count for each function is taken away in the same way, so a function of the start alone has no row.

The lines are those of generate.py without faults: descriptors of 3 to 10 ACEs, a third of them with a SACL. With
--lines they are those of a file of hex, which has to have 1,500 lines. SDDL and base64 are made from them by the
reference of the tests, SDDL under no domain.

It prints a row for each job: instructions a line, an ACE, and those of a start. With --top N the functions follow that
cost most, each with its own instructions, without those of the functions that it calls. The compiler inlines most small
functions, so a row stands for what was inlined there too. The types of an instance are left out of its name. --job
takes only jobs whose name has the word. --json writes the figures to a file, and --against shows the change from such a
file in per cent.
"""
import argparse
import collections
import itertools
import json
import os
import pathlib
import re
import shutil
import subprocess
import sys
import tempfile

sys.dont_write_bytecode = True
import generate  # noqa: E402  (which finds the folder of the tests)

reference = generate.reference
PROGRAM = pathlib.Path(__file__).resolve().parent.parent / "crates/sdtool/out/sdtool"
FEW, MANY = 500, 1500
DOMAIN_TEXT = "-".join(["S-1", *map(str, generate.HOME)])
OWNER, GROUP = f"{DOMAIN_TEXT}-1105", f"{DOMAIN_TEXT}-513"
# The SIDs of a user's token: accounts, groups and what each logon has.
OTHER_GROUPS = [f"{DOMAIN_TEXT}-{number}" for number in range(40_000, 40_014)]
TOKEN = ",".join([OWNER, GROUP, "WD", "AU", "IU", "BU", *OTHER_GROUPS])
# What is counted: the form of the lines, and what is asked.
JOBS = {
    "hex to hex": ("hex", ["convert", "--to", "hex"]),
    "hex to base64": ("hex", ["convert", "--to", "base64"]),
    "hex to SDDL": ("hex", ["convert", "--to", "sddl"]),
    "base64 to hex": ("base64", ["convert", "--to", "hex"]),
    "SDDL to hex": ("sddl", ["convert", "--to", "hex"]),
    "SDDL to SDDL": ("sddl", ["convert", "--to", "sddl"]),
    "explain": ("hex", ["explain"]),
    "check, a token of 20": ("hex", ["check", "--want", "FR", "--token", TOKEN]),
    "derive, hex to hex": ("hex", ["derive", "--to", "hex", "--kind", "container", "--owner", OWNER, "--group", GROUP]),
    "derive, SDDL to SDDL": ("sddl", ["derive", "--kind", "container", "--owner", OWNER, "--group", GROUP]),
}
SPELLED = {
    "hex": bytes.hex,
    "base64": reference.to_base64,
    "sddl": lambda data: reference.sddl(reference.read(data), reference.Settings()),
}
# What follows a function's name: the types of an instance, as a hash, and the depth of a recursion.
AFTER_NAME = re.compile(r"(::<#[0-9a-f]+>)?('\d+)?$")


def descriptors(path):
    """As many descriptors as a run has lines at most."""
    if path is None:
        generator = generate.Generator(1)
        return [generator.descriptor() for _ in range(MANY)]
    with open(path, encoding="ascii") as lines:
        found = [bytes.fromhex(line) for line in itertools.islice(lines, MANY)]
    if len(found) < MANY:
        sys.exit(f"instructions: {path} has {len(found)} lines and not {MANY:,}")
    return found


def aces_in(data):
    descriptor = reference.read(data)
    return sum(len(acl.aces) for acl in (descriptor.sacl, descriptor.dacl) if acl)


def counts_of(path):
    """The instructions of each function itself, in a file that callgrind wrote."""
    counts, names, function, is_of_call = collections.Counter(), {}, None, False
    for line in path.read_text(encoding="utf-8").splitlines():
        named = re.match(r"fn=\((\d+)\)(?: (.*))?$", line)
        if named:
            function = names.setdefault(named[1], named[2])
        elif re.match(r"cfn=\((\d+)\) ", line):
            number, name = re.match(r"cfn=\((\d+)\) (.*)$", line).groups()
            names.setdefault(number, name)
        elif line.startswith("calls="):
            is_of_call = True  # the next line has what the called function costs
        elif re.match(r"[+\-*\d]", line):
            if not is_of_call:
                counts[function] += int(line.split()[1])
            is_of_call = False
    return counts


def counted(command, lines, folder):
    """The instructions of a run over the lines, by function."""
    given, told = folder / "given", folder / "told"
    given.write_bytes(lines)
    with open(given, "rb") as stdin:
        tool = ["valgrind", "--tool=callgrind", f"--callgrind-out-file={told}", "--compress-pos=yes", *command]
        run = subprocess.run(tool, stdin=stdin, stdout=subprocess.DEVNULL, stderr=subprocess.PIPE, check=False)
    if run.returncode != 0:
        sys.exit(f"instructions: {' '.join(map(str, command))} ended with {run.returncode}\n{run.stderr.decode()}")
    return counts_of(told)


def measured(command, lines, folder):
    """What a start costs, and the cost of a line by function."""
    few, many = (counted(command, b"".join(lines[:count]), folder) for count in (FEW, MANY))
    a_line = {name: (many[name] - few[name]) / (MANY - FEW) for name in many}
    return few.total() - sum(a_line.values()) * FEW, a_line


def change(new, old):
    return f"{100 * (new - old) / old:+8.1f} %" if old else ""


def main():
    parser = argparse.ArgumentParser(description="Counts the program's instructions a line.")
    parser.add_argument("program", nargs="?", default=PROGRAM, type=os.path.abspath)
    parser.add_argument("--lines", help="a file with lines of hex")
    parser.add_argument("--top", type=int, default=0, help="how many functions are shown for each job (%(default)s)")
    parser.add_argument("--job", default="", help="only jobs with this word in their name")
    parser.add_argument("--json", help="where to write the figures")
    parser.add_argument("--against", help="figures to compare with")
    given = parser.parse_args()
    if not shutil.which("valgrind"):
        sys.exit("instructions: there is no valgrind on the PATH")
    if not os.access(given.program, os.X_OK):
        sys.exit(f"instructions: there is no program at {given.program}; 'make program' builds it")
    data = descriptors(given.lines)
    aces = sum(map(aces_in, data[FEW:])) / (MANY - FEW)
    before = json.loads(pathlib.Path(given.against).read_text(encoding="utf-8")) if given.against else {}
    spelled, figures = {}, {}
    print(f"lines of {2 * sum(map(len, data)) / len(data):.0f} hex digits and {aces:.1f} ACEs on average")
    print(f"{'instructions':24}{'a line':>10}{'an ACE':>10}{'a start':>12}")
    for name, (form, words) in JOBS.items():
        if given.job not in name:
            continue
        if form not in spelled:
            spelled[form] = [SPELLED[form](one).encode() + b"\n" for one in data]
        with tempfile.TemporaryDirectory() as folder:
            start, functions = measured([given.program, *words, "--from", form], spelled[form], pathlib.Path(folder))
        total = sum(functions.values())
        figures[name] = {"line": total, "start": start, "functions": functions}
        told = change(total, before[name]["line"]) if name in before else ""
        print(f"{name:24}{total:10,.0f}{total / aces:10,.0f}{start:12,.0f}{told}", flush=True)
        for function, cost in sorted(functions.items(), key=lambda row: -row[1])[:given.top]:
            print(f"    {cost:10,.0f}{cost / aces:10,.0f}  {AFTER_NAME.sub('', function)[:90]}")
    if given.json:
        pathlib.Path(given.json).write_text(json.dumps(figures), encoding="utf-8")


if __name__ == "__main__":
    main()
