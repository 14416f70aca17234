"""Tests the library's calls for a column by tests/library/c/columns.c. Each row has to be answered as by the call for
it alone, and what is converted or derived as the program answers its line: the worked rows, empty ones, too long ones,
and random changes of these. Offsets of which many lie, outputs of each size, and each refusal are tried too. It runs
plain, under the sanitizers for addresses and undefined behaviour if the compiler has them, under valgrind if that is
there, and with a page that cannot be touched behind each block and in front of it.
"""
import pathlib
import random
import tempfile

import c_library
import c_objects
import preload

# What columns.c calls it, and the program.
KINDS = (("to_sddl", ["convert"]), ("from_sddl", ["convert", "--from", "sddl", "--to", "hex"]),
         ("normalize", ["convert", "--to", "hex"]))
OF_SMALL = 12  # rows whose outputs have each size
SHORT = 400  # characters of such a row
OF_WORLD_AND_SYSTEM = ["derive", "--owner", "WD", "--group", "SY", "--to", "hex", "--kind"]
CREATOR = "O:BAG:BAD:(A;OICI;FA;;;BA)(D;;FW;;;BU)S:(AU;SAFA;FA;;;WD)"
# The empty line, of which the program's words are not those of the library.
EMPTY = {"to_sddl": "error 5", "from_sddl": "0100008000000000000000000000000000000000", "normalize": "error 5",
         "derive": "error 5"}


def add_options(parser):
    parser.add_argument("--lines", type=int, default=100_000)


def rows_of(kind, number, choices):
    of_hex, of_sddl = c_library.lines_of_rows()
    if kind == "from_sddl":
        return [*of_sddl, *c_library.random_lines(of_sddl, number, c_library.change_text, choices)]
    return [*of_hex, c_library.TOO_MANY_BYTES,
            *c_library.random_lines(of_hex, number, c_library.change_bytes, choices)]


def with_empty(kind, rows, answers, choices):
    """The rows and answers with empty ones among them."""
    pairs = [*zip(rows, answers), *[("", EMPTY[kind])] * (len(rows) // 20 + 1)]
    choices.shuffle(pairs)
    return [row for row, _ in pairs], [answer for _, answer in pairs]


def test_short(runners, kind, lines, choices):
    short = choices.sample([line for line in lines if len(line) < SHORT], OF_SMALL) + [""]
    runners.test(["small", kind, "-"], short, None)
    runners.test(["refused", kind, "-"], short, None)


def test_derivations(count, arguments, runners, choices):
    creator, = c_objects.answers(arguments.program, ["convert", "--from", "sddl", "--to", "hex"], [CREATOR])
    lines = rows_of("derive", arguments.lines // 4, choices)
    for of_call, more in ((["-"], ["file"]), ([creator], ["file", "--creator", CREATOR]),
                          ([creator, "numeric"], ["container", "--creator", CREATOR])):
        answers = c_objects.answers(arguments.program, [*OF_WORLD_AND_SYSTEM, *more], lines)
        count.add(len(answers) == len(lines), f"derive {more}: {len(answers)} answers of the program")
        rows, expected = with_empty("derive", lines, answers, choices)
        runners.test(["print", "derive", *of_call], rows, expected)
        runners.test(["lies", "derive", *of_call], rows, None)
    test_short(runners, "derive", lines, choices)


def main(count: preload.Count, arguments: preload.Given) -> None:
    choices = random.Random(96)
    with tempfile.TemporaryDirectory() as name:
        runners = c_objects.Runners(count, pathlib.Path(name), "columns")
        for kind, words in KINDS:
            lines = rows_of(kind, arguments.lines // 4, choices)
            for of_call, more in c_library.options():
                if "--numeric" in more and kind != "to_sddl":
                    continue
                of_call = of_call or ["-"]
                answers = c_objects.answers(arguments.program, [*words, *more], lines)
                count.add(len(answers) == len(lines), f"{kind} {more}: {len(answers)} answers of the program")
                rows, expected = with_empty(kind, lines, answers, choices)
                runners.test(["print", kind, *of_call], rows, expected)
                runners.test(["lies", kind, *of_call], rows, None)
            test_short(runners, kind, lines, choices)
        test_derivations(count, arguments, runners, choices)
        lines = rows_of("normalize", arguments.lines // 4, choices)
        lines, _ = with_empty("normalize", lines, lines, choices)
        for job in ("whole", "lies"):
            runners.test([job, "check", "-"], lines, None)
        runners.test(["refused", "check", "-"], choices.sample(lines, OF_SMALL), None)
