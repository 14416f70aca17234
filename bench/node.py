#!/usr/bin/env python3
"""node.py PROGRAM PROGRAM .. [--rounds N] [--megabytes N] [--only WORD] [--write]

Compares builds of the program for WASI (out/systems/wasm/sdtool-wasi.wasm) in Node: they answer lines of generate.py by
turns in one process. Answers have to be the same. It prints the medians of the rounds, in milliseconds of processor
time, and of the first program's time over the last one's the median of the rounds and the quartiles.
"""
import argparse
import json
import pathlib
import statistics
import subprocess
import sys
import tempfile

sys.dont_write_bytecode = True
import make_inputs  # noqa: E402
import run  # noqa: E402
import results  # noqa: E402

TURNS = pathlib.Path(__file__).with_name("wasi_turns.mjs")
ONE_DOMAIN = make_inputs.ONE_DOMAIN.split()
CHECKS = {f"checked, a token of {count:,}": ("hex", False,
                                             ["check", "--want", "FR", "--token", make_inputs.token(count)])
          for count in (20, 300, 1_000)}
# The form of the lines, whether the last character of each is wrong, and what is asked.
JOBS = {
    "hex to hex": ("hex", False, run.TO_HEX),
    "hex to SDDL": ("hex", False, [*run.TO_SDDL, *ONE_DOMAIN]),
    "hex to base64": ("hex", False, run.TO_BASE64),
    "hex explained": ("hex", False, ["explain"]),
    **CHECKS,
    "derived from, hex to hex": ("hex", False, [*run.DERIVED, "--to", "hex"]),
    "SDDL to hex": ("sddl", False, [*run.TO_HEX, *ONE_DOMAIN]),
    "SDDL to SDDL": ("sddl", False, [*run.TO_SDDL, *ONE_DOMAIN]),
    "SDDL to base64": ("sddl", False, [*run.TO_BASE64, *ONE_DOMAIN]),
    "base64 to hex": ("base64", False, run.TO_HEX),
    "base64 to SDDL": ("base64", False, [*run.TO_SDDL, *ONE_DOMAIN]),
    "base64 to base64": ("base64", False, run.TO_BASE64),
    "hex whose last character is wrong": ("hex", True, run.TO_HEX),
    "base64 whose last character is wrong": ("base64", True, run.TO_HEX),
}


def lines_of(folder, source, is_wrong, megabytes):
    """The input of a job; each line with another last character where that is to be wrong."""
    path = run.input_file(folder, ["--form", source, "--megabytes", str(megabytes)])
    if not is_wrong:
        return path
    wrong = folder / f"{path.stem}-wrong.lines"
    wrong.write_bytes(b"".join(line[:-1] + b"!\n" for line in path.read_bytes().splitlines()))
    return wrong


def times_of(programs, rounds, file, words):
    """For each program the times of all rounds."""
    told = subprocess.run(["node", TURNS, str(rounds), file, *programs, "--", *words], stdout=subprocess.PIPE,
                          check=True).stdout
    return [json.loads(line) for line in told.splitlines()]


def main():
    parser = argparse.ArgumentParser(description="Compares builds for WebAssembly in Node.")
    parser.add_argument("programs", nargs="+")
    parser.add_argument("--rounds", type=int, default=11, help="(%(default)s)")
    parser.add_argument("--megabytes", type=int, default=5, help="of each input (%(default)s)")
    parser.add_argument("--only", default="", help="jobs with this word in their names")
    results.add_option(parser)
    given = parser.parse_args()
    jobs = {job: asked for job, asked in JOBS.items() if given.only in job}
    with tempfile.TemporaryDirectory() as name:
        forms = sorted({(source, is_wrong) for source, is_wrong, _ in jobs.values()})
        files = {form: lines_of(pathlib.Path(name), *form, given.megabytes) for form in forms}
        heads = " | ".join(["Job", *(f"ms in {name}" for name in given.programs), "first over last", "quartiles"])
        print(f"| {heads} |\n|---{'|--:' * (len(given.programs) + 2)}|")
        for job, (source, is_wrong, asked) in jobs.items():
            times = times_of(given.programs, given.rounds, files[source, is_wrong], [*asked, "--from", source])
            low, middle, high = statistics.quantiles([first / last for first, last in zip(times[0], times[-1])], n=4)
            medians = " | ".join(f"{statistics.median(one):.1f}" for one in times)
            print(f"| {job} | {medians} | {middle:.2f} | {low:.2f} to {high:.2f} |", flush=True)


if __name__ == "__main__":
    sys.exit(results.kept(main))
