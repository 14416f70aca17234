#!/usr/bin/env python3
"""languages.py [--rounds N] [--write]

Measures a check of a descriptor of 76 bytes, with a token and a descriptor at hand, and a call that does nothing, from
each language beside C: the least of the rounds, in which all languages take turns. Rust, Go and .NET may take 1.3 of
C's time and an empty call. It needs what their tests need (CONTRIBUTING), and leaves out what is not there.
"""
import argparse
import math
import os
import pathlib
import sys
import tempfile

sys.dont_write_bytecode = True
import results  # noqa: E402

sys.path.insert(0, str(pathlib.Path(__file__).resolve().parent.parent / "tests/shared"))
import preload  # noqa: E402
import all_languages  # noqa: E402
import language_requests  # noqa: E402


def main():
    parser = argparse.ArgumentParser(description=__doc__, formatter_class=argparse.RawDescriptionHelpFormatter)
    parser.add_argument("--rounds", type=int, default=5, help="(%(default)s)")
    results.add_option(parser)
    asked, count = parser.parse_args(), preload.Count()
    with tempfile.TemporaryDirectory() as folder:
        programs = {"C": (language_requests.program_in_c(folder), {})}
        for language, way in all_languages.ways(count, folder).items():
            programs[language] = [*way.words, "time"], way.surroundings
        taken = {language: [math.inf, math.inf] for language in programs}
        for _ in range(asked.rounds):
            for language, (words, surroundings) in programs.items():
                taken[language] = list(map(min, taken[language], language_requests.times(words, surroundings)))
    print(f"{'':20}{'a check':>12}{'an empty call':>16}{'of C':>8}")
    for language, (check, empty) in taken.items():
        print(f"{language:20}{check:9.0f} ns{empty:13.0f} ns{(check - empty) / taken['C'][0]:8.2f}")
    load = ", ".join(f"{one:.1f}" for one in os.getloadavg())
    print(f"The last column is a check without the time of an empty call, over C's. Load {load}.")
    return 1 if count.failed else 0


if __name__ == "__main__":
    sys.exit(results.kept(main))
