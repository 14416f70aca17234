"""Tests the calls of the library from C and Python. Each answer of a call has to be what the program answers to the
same line: for each line of the worked rows, and random changes of them. Checks and derivations have to answer what the
worked rows say, and random ones what the program answers; also tried are arguments that no words spell.
tests/library/c/calls.c also tries each size of the output, refused allocations and threads, and looks at what is
allocated; it runs under the address sanitizer if the compiler has it, and under valgrind if that is there.
tests/library/c/runs.c does the same for runs: each row without devices of its own, and in each size of the output:
whole answers, and as much of help as fits. Both also run with a page that cannot be touched behind each block and in
front of it, and with inputs that cannot be written. Descriptors of the densest ACEs have outputs of each size. Also
tested: the symbols of the libraries, the header in C and C++, the names of faults, a program that was compiled with an
older header, and the Python module's examples.
"""
import concurrent.futures
import doctest
import os
import pathlib
import random
import re
import shutil
import subprocess
import sys
import tempfile

import compare
import preload
import reference
import run_rows

TOP = pathlib.Path(__file__).resolve().parents[2]
LIBRARIES = TOP / "out" / "lib"
COMPILER = os.environ.get("CC", "cc")
WARNINGS = ["-std=c11", "-Wall", "-Wextra", "-Werror", "-O1", "-g", "-D_GNU_SOURCE"]
WRAPS = ["-Wl,--wrap=malloc", "-Wl,--wrap=realloc"]
SANITIZERS = ["-fsanitize=address,undefined"]
# Neither valgrind nor the sanitizer follows what a forked process of several threads does with memory.
NO_FORKS = ["env", "FORKS=0"]
VALGRIND = [*NO_FORKS, "valgrind", "-q", "--leak-check=full", "--error-exitcode=9"]
GUARDS = ("after", "before")
SECONDS = 3000
AT_ONCE = 4  # runs of rows side by side, of which there are thousands
DOMAIN = bytes.fromhex("010400000000000515000000010000000200000003000000")  # S-1-5-21-1-2-3
# S-1-5-21 and 14 more numbers. It is a SID, but has no room for the number of an alias, so as a domain it counts as
# none.
FULL_DOMAIN = bytes.fromhex("010f000000000005" + "15000000" + "01000000" * 14)
# one byte more than the largest descriptor
TOO_MANY_BYTES = "0100008000000000000000000000000000000000" + "00" * (131_226 - 19)
MAPPINGS, KINDS = ["file", "key", "ds"], ["file", "container"]
QUESTIONS_OF_A_RUN = 20
HEX = re.compile(r"(?:[0-9a-f]{2})+")
# The job of calls.c, the program's words, and whether its lines are hex.
JOBS = (("convert", ["convert"], True), ("explain", ["explain"], True), ("normalize", ["convert", "--to", "hex"], True),
        ("from_sddl", ["convert", "--from", "sddl", "--to", "hex"], False))
# What a random change puts into a text.
TEXTS = (";", "(", ")", ":", "D:", "S:", "O:", "G:", "P", "AI", "BA", "WD", "DA", "SY", "FA", "0x", "ID",
         "OICI", "A", "ML", "-", "1", "4294967296", " ", "S-1-5-")


def expand(text):
    """A text of a row; None where it is long."""
    if isinstance(text, str):
        return text
    if isinstance(text, list):
        parts = list(map(expand, text))
        return None if None in parts else "".join(parts)
    return None


def lines_of_rows():
    """The lines of the rows in hex, and those in SDDL."""
    of_hex, of_sddl = set(), set()
    for row in run_rows.all_rows():
        for text in (expand(row.get("stdin", "")), expand(row.get("stdout", ""))):
            for line in (text or "").split("\n"):
                if HEX.fullmatch(line):
                    of_hex.add(line)
                elif line and "\r" not in line and len(line) < 100_000 and "sddl" in row["words"]:
                    of_sddl.add(line)
    return sorted(of_hex), sorted(of_sddl)


def change_bytes(line, choices):
    cells = bytearray.fromhex(line)
    for _ in range(choices.randint(1, 3)):
        at = choices.randrange(len(cells)) if cells else 0
        what = choices.randrange(4)
        if what == 0 and cells:
            cells[at] = choices.choice((0, 1, 2, 4, 8, 16, 20, 255, choices.randrange(256)))
        elif what == 1 and cells:
            cells[at] ^= 1 << choices.randrange(8)
        elif what == 2 and cells:
            del cells[at:at + choices.randint(1, 4)]
        else:
            cells[at:at] = bytes(choices.randint(1, 4))
    return cells.hex()


def change_text(line, choices):
    for _ in range(choices.randint(1, 3)):
        at = choices.randint(0, len(line))
        what = choices.randrange(3)
        if what == 0:
            line = line[:at] + choices.choice(TEXTS) + line[at:]
        elif what == 1:
            line = line[:at] + line[at + choices.randint(1, 4):]
        else:
            end = choices.randint(at, len(line))
            line = line[:at] + line[at:end] * 2 + line[end:]
    return line


def random_lines(lines, count, change, choices):
    short = [line for line in lines if len(line) < 2000]
    changed = {change(choices.choice(short), choices) for _ in range(count)}
    return sorted(line for line in changed if line and len(line) < 100_000 and not set("\r\n") & set(line))


def with_input(words, data, **others):
    """A run whose input is a file. A program that wine fails to start is known by what is unread of it (systems.py)."""
    with tempfile.TemporaryFile() as given:
        given.write(data)
        given.seek(0)
        return subprocess.run(words, stdin=given, capture_output=True, timeout=SECONDS, check=False, **others)


def ran(words, text, **others):
    return with_input(words, text.encode("latin-1"), **others)


def without_name(answers):
    """Answers with each fault as its number and its parts."""
    return re.sub(r"(?m)^(error \d+) \S+", r"\1", answers)


def built(folder, source, name, flags):
    """A file of tests/library/c as a program, or None where the compiler refuses the flags."""
    program = folder / f"{source}-{name}"
    words = [COMPILER, *WARNINGS, *flags, f"-I{TOP / 'include'}", str(TOP / "tests/library/c" / f"{source}.c"),
             str(LIBRARIES / "libsdtool.a"), *WRAPS, "-pthread", "-o", str(program)]
    compiled = subprocess.run(words, stdout=subprocess.PIPE, stderr=subprocess.STDOUT, check=False)
    return (program if compiled.returncode == 0 else None), compiled.stdout.decode()


def options():
    """Each choice of a domain and of numbers alone: the words of calls.c, and those of the program."""
    yield [], []
    yield [DOMAIN.hex()], ["--domain", "S-1-5-21-1-2-3"]
    yield [FULL_DOMAIN.hex()], []
    yield ["-", "numeric"], ["--numeric"]


def compare_calls(count, runner, program, lines, name):
    for job, words, is_hex in JOBS:
        text = "".join(line + "\n" for line in lines[0 if is_hex else 1])
        for more_of_calls, more in options():
            if "--numeric" in more and job not in ("convert", "explain"):
                continue
            expected = without_name(ran([program, *words, *more], text).stdout.decode("latin-1"))
            ended = ran([*runner, job, *more_of_calls], text)
            found = ended.stdout.decode("latin-1")
            wrong = next((f"{a!r} in place of {b!r}" for a, b in zip(found.split("\n"), expected.split("\n"))
                          if a != b), "")
            count.add(found == expected and ended.returncode == 0 and not ended.stderr,
                      f"{name} {job} {more}: status {ended.returncode}, {wrong} {ended.stderr.decode()[:500]}")


class Question:
    """A call of check or derive: a line of calls.c, and what the same call of the Python module gives."""

    def __init__(self, words, descriptor):
        settings, ask = reference.settings_of(words), reference.settings_of(words).ask
        given = dict(zip(words, words[1:]))
        self.job, self.descriptor, self.ask = words[0].decode(), descriptor, ask
        self.mapping = given.get(b"--type", b"file").decode()
        if ask:
            self.token = [(sid.to_bytes(), only_denies) for sid, only_denies in ask.token]
            self.wanted = reference.rights_of_text(given[b"--want"]) if b"--want" in given else 0
            self.maximum, self.security = b"--maximum" in words, ask.security
            self.take_ownership, self.level = ask.take_ownership, ask.level
            self.object_type = ask.object_type or b""
            self.principal_self = ask.principal_self.to_bytes() if ask.principal_self else b""
        else:
            self.kind, self.plan = given[b"--kind"].decode(), settings.plan
            self.owner, self.group = settings.plan.owner.to_bytes(), settings.plan.group.to_bytes()
            self.creator = reference.layout(settings.creator) if settings.creator else b""

    def line(self):
        if self.job == "check":
            fields = (self.descriptor, b"".join(sid for sid, _ in self.token), bytes(deny for _, deny in self.token),
                      self.object_type, self.principal_self)
            flags = self.maximum + 2 * self.security + 4 * self.take_ownership
            numbers = (self.wanted, MAPPINGS.index(self.mapping), flags, "-" if self.level is None else self.level)
        else:
            fields = (self.descriptor, self.creator, self.owner, self.group)
            numbers = (KINDS.index(self.kind), MAPPINGS.index(self.mapping))
        return " ".join([*(field.hex() or "-" for field in fields), *map(str, numbers)])

    def asked(self, sdtool):
        """The answer of the Python module, as a line."""
        if self.job == "derive":
            return sdtool.derive(self.descriptor, self.owner, self.group, kind=self.kind, creator=self.creator or None,
                                 mapping=self.mapping).hex()
        sids, deny_only = ([sid for sid, deny in self.token if deny == which] for which in (False, True))
        verdict = sdtool.check(self.descriptor, sids, deny_only=deny_only, wanted=self.wanted, maximum=self.maximum,
                               mapping=self.mapping, level=self.level, object_type=self.object_type or None,
                               principal_self=self.principal_self or None, security=self.security,
                               take_ownership=self.take_ownership)
        return f"{'granted' if verdict.granted else 'denied'} 0x{verdict.mask:08x}"


def reasons_for(question, answer):
    """What the reference says of each right, as calls.c prints it; a fault as it is."""
    if answer.startswith("error"):
        return answer
    told = reference.access.reasons(reference.read(question.descriptor), question.ask)
    return " ".join(f"{reference.access.REASONS.index(one.word)}" + ("" if one.place is None else f":{one.place}")
                    for one in told)


def origins_for(question, answer):
    """What the reference says of each ACE that is derived, as calls.c prints it; a fault as it is."""
    if answer.startswith("error"):
        return answer
    creator = reference.read(question.creator) if question.creator else None
    parts = []
    for name, letter in (("sacl", "S"), ("dacl", "D")):
        told = reference.inheriting.origins(letter, reference.read(question.descriptor), creator, question.plan)
        parts += [name, *(f"{'c' if one.from_creator else 'p'}{one.place}{'+' * one.inherit_only}" for one in told)]
    return " ".join(parts)


def questions_of_rows(job):
    """The questions of the worked rows, each with the answer of its row."""
    for row in run_rows.all_rows():
        data, words = run_rows.text(row.get("stdin", "")), [run_rows.text(word) for word in row["words"]]
        is_help = any(word.encode() in words for word in run_rows.HELP)
        if words[:1] != [job.encode()] or row.get("status", 0) > 1 or is_help or len(data) > 100_000:
            continue
        settings = reference.settings_of(words)
        answers = run_rows.text(row.get("stdout", "")).decode("latin-1").split("\n")
        for found, answer in zip(reference.all_shown(data, settings), answers):
            if isinstance(found, reference.Descriptor):
                yield Question(words, reference.layout(found)), as_hex(job, answer, settings)


def as_hex(job, answer, settings):
    """A derived descriptor as hex, whatever form the row has it in; any other answer as it is."""
    if job == "check" or answer.startswith("error"):
        return without_name(answer)
    shown = reference.all_shown(answer.encode("latin-1") + b"\n", settings._replace(source=settings.to))[0]
    return reference.layout(shown).hex() if isinstance(shown, reference.Descriptor) else ""


def random_questions(job, number, program, choices):
    """Random questions, each with what the program answers."""
    maker = compare.Lines(choices)
    for _ in range(number // QUESTIONS_OF_A_RUN):
        found = [reference.read(maker.descriptor().data) for _ in range(QUESTIONS_OF_A_RUN)]
        descriptors = [maker.labelled(one) if job == "check" else maker.parent(one) for one in found]
        words = compare.check_words(maker, descriptors) if job == "check" else compare.derive_words(maker, descriptors)
        if "--to" in words:
            del words[words.index("--to"):words.index("--to") + 2]
        words = [word for word in words if word != "--numeric"] + (["--to", "hex"] if job == "derive" else [])
        lines = [change_bytes(one, choices) if choices.random() < 0.2 else one
                 for one in (reference.layout(one).hex() for one in descriptors)]
        answers = ran([program, *words], "".join(line + "\n" for line in lines)).stdout.decode("latin-1").split("\n")
        for line, answer in zip(lines, answers):
            if line:
                yield Question([word.encode() for word in words], bytes.fromhex(line)), without_name(answer)


def questions_of_any_creator(number, choices):
    """Derivations whose creators' descriptors no SDDL spells: with a resource manager byte, or with bits of an ACL that
    is absent. The answers are those of the reference."""
    maker = compare.Lines(choices)
    for _ in range(number):
        parent, creator = (maker.parent(reference.read(maker.descriptor().data)) for _ in range(2))
        words = ["derive", "--kind", choices.choice(KINDS), "--owner", "BA", "--group", "SY", "--to", "hex",
                 "--type", choices.choice(MAPPINGS)]
        words = [word.encode() for word in words]
        question = Question(words, reference.layout(parent))
        question.creator = reference.layout(creator)
        settings = reference.settings_of(words)._replace(creator=creator)
        yield question, without_name(reference.answers([parent], settings)[0][0].decode())


def test_questions(count, runners, job, asked):
    """Each question in one call of calls.c for all of them, by each runner."""
    text = "".join(question.line() + "\n" for question, _ in asked)
    expected = "".join(answer + "\n" for _, answer in asked)
    for name, runner, most in runners:
        ended = ran([*runner, job], "".join(text.splitlines(True)[:most]))
        found, wanted = ended.stdout.decode("latin-1").split("\n"), "".join(
            expected.splitlines(True)[:most]).split("\n")
        wrong = next((f"{a!r} in place of {b!r} for {c[0].line()}" for a, b, c in zip(found, wanted, asked) if a != b),
                     "")
        count.add(found == wanted and ended.returncode == 0 and not ended.stderr,
                  f"{name} {job}: status {ended.returncode}, {wrong} {ended.stderr.decode()[:500]}")


def test_arguments(count, runner):
    """Arguments that no words spell: a SID cut short or with a byte behind it, a flag or a number too high."""
    sid, none = "010100000000000512000000", "-"
    empty = "0100008000000000000000000000000000000000"
    whole = {"check": [empty, sid * 2, "0001", "00" * 16, sid, "131072", "0", "0", none],
             "derive": [empty, none, sid, sid, "0", "0"]}
    not_sids = [none, sid + "00", sid[:-2]]
    # The low 8 or 16 bits of these are right ones, but nothing may cut them.
    too_high = ["256", "257", "258", "65536", "65537", "65538", "4294967295"]
    # For each place the number of the argument, and each wrong value with the entry that is wrong.
    wrong = {"check": {1: (2, {none: 0, sid: 1, sid[:-2] + sid: 2, sid * 2 + "01": 2, sid * 3: 2,
                               "02" + sid[2:] + sid: 0}),
                       2: (3, {"0002": 1, "ff00": 0}), 3: (4, {"00": 0, "00" * 15: 0, "00" * 17: 0}),
                       4: (5, {sid[:-2]: 0, sid + "00": 0, "00": 0}), 6: (6, dict.fromkeys(["3", *too_high], 0))},
             "derive": {1: (7, {"00": 0, "01" * 20: 0}), 2: (8, dict.fromkeys(not_sids, 0)),
                        3: (9, dict.fromkeys(not_sids, 0)), 4: (10, dict.fromkeys(["2", *too_high], 0)),
                        5: (6, dict.fromkeys(["3", *too_high], 0))}}
    for job, asks_alike in (("reasons", "check"), ("origins", "derive")):
        whole[job], wrong[job] = whole[asks_alike], wrong[asks_alike]
    for job, places in wrong.items():
        lines, expected = [], ""
        for place, (argument, values) in places.items():
            for value, entry in values.items():
                lines.append(" ".join([*whole[job][:place], value, *whole[job][place + 1:]]) + "\n")
                expected += f"error 70 {argument} {entry}\n"
        ended = ran([*runner, job], "".join(lines))
        count.add(ended.stdout.decode() == expected and ended.returncode == 0,
                  f"arguments of {job}: {ended.stdout.decode()!r} {ended.stderr.decode()!r}")
    # Fewer and more flags than SIDs.
    flags = [" ".join([empty, sid * 2, value, *whole["check"][3:]]) + "\n" for value in (none, "00", "000000")]
    ended = ran([*runner, "check"], "".join(flags))
    found = ended.stdout.decode()
    count.add(found == "error 70 2 0\nerror 70 2 1\nerror 70 2 2\n", f"flags: {found!r}")
    # The right ones, the most SIDs and one more, no right, a reserved bit, and no descriptor.
    check, most = whole["check"], 1024
    granted = "granted 0x00020000"  # without a DACL
    cases = [(check, granted), ([empty, sid * most, "00" * most, *check[3:]], granted),
             ([empty, sid * (most + 1), "00" * (most + 1), *check[3:]], "error 70 3 1024"),
             ([empty, none, none, *check[3:]], granted), ([*check[:5], "0", *check[6:]], "error 50"),
             ([*check[:5], str(1 << 26), *check[6:]], "error 51"), ([none, *check[1:]], "error 5"),
             ([none, *check[1:5], "0", *check[6:]], "error 50"), ([TOO_MANY_BYTES, *check[1:]], "error 1")]
    ended = ran([*runner, "check"], "".join(" ".join(line) + "\n" for line, _ in cases))
    found = ended.stdout.decode().splitlines()
    count.add(found == [answer for _, answer in cases], f"cases of check: {found} {ended.stderr.decode()}")
    # Bytes that begin with a descriptor, but are too many for one.
    derive = whole["derive"]
    lines = [[TOO_MANY_BYTES, *derive[1:]], [empty, TOO_MANY_BYTES, *derive[2:]]]
    for job in ("derive", "origins"):
        ended = ran([*runner, job], "".join(" ".join(line) + "\n" for line in lines))
        count.add(ended.stdout == b"error 1\nerror 70 7 0\n", f"{job} of too many bytes: {ended.stdout} {ended.stderr}")
    for job in ("convert", "explain", "normalize"):
        ended = ran([*runner, job], TOO_MANY_BYTES + "\n")
        count.add(ended.stdout == b"error 1\n" and not ended.stderr,
                  f"{job} of too many bytes: {ended.stdout} {ended.stderr}")
    # A wrong domain comes before a text that is too long.
    for domain, answer in ((sid[:-2], b"error 70 1 0\n"), (none, b"error 1\n")):
        ended = ran([*runner, "from_sddl", domain], " " * 1_049_873 + "\n")  # one more than SDTOOL_MOST_TEXT
        count.add(ended.stdout == answer and not ended.stderr,
                  f"a long text under {domain}: {ended.stdout} {ended.stderr}")


def rows_in_memory():
    """The words and the input of each row that runs without devices of its own."""
    for row in run_rows.all_rows():
        if not {"talk", "input", "output", "faults"} & set(row):
            yield row["id"], [run_rows.text(word) for word in row["words"]], run_rows.text(row.get("stdin", ""))


def of_program(words, data, **others):
    """A run of the program, or of a test in C: what it prints, and its exit status."""
    ended = with_input(words, data, **others)
    return ended.stdout, ended.stderr, ended.returncode


def test_runs(count, runner, program, name, rows):
    """Runs of rows: the program's output, message and status."""
    asked = [("plain", *row) for row in rows] + [("refusals", *row) for row in rows[::20]]

    def both(one):
        task, _, words, data = one
        return of_program(["sdtool", *words], data, executable=program), of_program([*runner, task, *words], data)

    with concurrent.futures.ThreadPoolExecutor(AT_ONCE) as threads:
        for (task, row, *_), (expected, found) in zip(asked, threads.map(both, asked)):
            count.add(found == expected, f"{name} {task} {row}: {found} in place of {expected}"[:900])


def answers_of_each_line(program, words, lines):
    """The lengths of the answers to the first lines, for each number of lines."""
    total = 0
    yield total
    for line in lines:
        total += len(of_program([program, *words], line + b"\n")[0])
        yield total


# Lines of some lengths, with an error and an empty one among them, and without an LF at the end.
SIZED = b"O:BAG:SYD:PAI(A;OICI;FA;;;SY)(D;;FW;;;WD)S:(AU;SAFA;FA;;;WD)\nD:\nzz\n\nO:BA\nD:(A;;FA;;;S-1-5-21-1-2-3-4)"
SIZED_WORDS = ([b"convert"], [b"convert", b"--to", b"hex"], [b"convert", b"--to", b"base64"], [b"explain"],
               [b"check", b"--token", b"WD", b"--maximum"],
               [b"derive", b"--kind", b"file", b"--owner", b"BA", b"--group", b"BA"])


def test_sizes(count, runner, program, name):
    """In each size of the output are the whole answers that fit."""
    full = b"sdtool: error 61 write\n"
    for own in SIZED_WORDS:
        words = [own[0], b"--from", b"sddl", *own[1:]]
        fronts = list(answers_of_each_line(program, words, SIZED.split(b"\n")))
        most, status = fronts[-1], of_program([program, *words], SIZED)[2]
        expected = b"".join(
            b"%d %d %d %s" % ((size, status, most, b"\n") if size >= most
                              else (size, 3, max(front for front in fronts if front <= size), full))
            for size in range(most + 2))
        found = of_program([*runner, "sizes", *words], SIZED)
        pairs = zip(found[0].split(b"\n"), expected.split(b"\n"))
        wrong = next((f"{a!r} in place of {b!r}" for a, b in pairs if a != b), "")
        count.add(found == (expected, b"", status), f"{name} sizes of {words}: {found[1:]} {wrong}")


def test_help(count, runner, program, name):
    """For each size of the output, as much of help as fits, status 0 and no message."""
    for words in ([b"--help"], [b"help", b"check"], [b"derive", b"--help"]):
        most = len(of_program(["sdtool", *words], b"", executable=program)[0])
        expected = b"".join(b"%d 0 %d \n" % (size, min(size, most)) for size in range(most + 2))
        found = of_program([*runner, "sizes", *words], b"")
        count.add(found == (expected, b"", 0), f"{name} help of {words}: {found[0][:60]} {found[1:]}")


def test_words(count, runner, program):
    """Words that no process gets, or that are no text."""
    usage = (b"", b"sdtool: usage\n", 2)
    for task, words in (("plain", []), ("plain", [b"convert", b"--domain", b"\xff"]), ("plain", [b"\xc3"]),
                        ("cut", [b"convert"]), ("cut", [b"convert", b"--to", b"hex"]), ("cut", [b""])):
        expected = (of_program([program], b"D:\n") if task == "cut" and words == [b""] else usage)
        found = of_program([*runner, task, *words], b"D:\n")
        count.add(found == expected, f"{task} {words}: {found} in place of {expected}")


def test_runs_in_c(count, folder, program):
    rows = list(rows_in_memory())
    plain, said = built(folder, "runs", "plain", [])
    count.add(plain is not None, said)
    if plain is None:
        return
    test_runs(count, [plain], program, "plain", rows)
    test_sizes(count, [plain], program, "plain")
    test_help(count, [plain], program, "plain")
    for words in SIZED_WORDS:
        words = [words[0], b"--from", b"sddl", *words[1:]]
        found, expected = of_program([plain, "threads", *words], SIZED), of_program([program, *words], SIZED)
        count.add(found == expected, f"threads {words}: {found}")
    for where in GUARDS:
        guarded = ["env", f"GUARD={where}", plain]
        test_runs(count, guarded, program, f"guard {where}", [row for row in rows if len(row[2]) < 100_000][::4])
        test_sizes(count, guarded, program, f"guard {where}")
        test_help(count, guarded, program, f"guard {where}")
    checked, _ = built(folder, "runs", "checked", SANITIZERS)
    if checked is not None:
        test_runs(count, [checked], program, "sanitized", [row for row in rows if len(row[2]) < 100_000])
        test_sizes(count, [checked], program, "sanitized")
        test_words(count, [checked], program)
    else:
        test_words(count, [plain], program)
    if shutil.which("valgrind"):
        test_runs(count, [*VALGRIND, plain], program, "valgrind", rows[::40])


def test_python_runs(count, program, rows):
    import sdtool  # noqa: PLC0415
    for row, words, data in rows:
        # The module's words are texts; each other byte is one that no text has.
        answers = sdtool.run([word.decode("utf-8", "surrogateescape") for word in words], data)
        expected = of_program(["sdtool", *words], data, executable=program)
        count.add((answers.output, answers.message.encode(), answers.status) == expected, f"Python's run of {row}")


def test_fault_texts(count):
    """Each number below 600 has the name that docs/FORMAT.md gives it, or none. One that is too high has none."""
    import sdtool  # noqa: PLC0415
    document = (TOP / "docs" / "FORMAT.md").read_text(encoding="utf-8")
    names = {int(number): name for number, name in re.findall(r"(?m)^\| `error (\d+) ([a-z0-9-]+)", document)}
    for number in [*range(600), 1 << 16, *((1 << 16) + number for number in names), (1 << 24) + 1, (1 << 32) - 1]:
        try:
            found = sdtool.fault_text(number)
        except sdtool.ArgumentFault:
            found = None
        count.add(found == names.get(number), f"fault {number} is {found}, not {names.get(number)}")


def densest():
    """Descriptors whose texts have the most characters for each byte: one to six ACEs of the same SID."""
    everyone, null = bytes.fromhex("010100000000000100000000"), bytes.fromhex("0100000000000000")

    def two(number):
        return number.to_bytes(2, "little")

    for kind, flags, mask, sid in ((2, 0xDB, 0xF00F01FF, everyone), (2, 0xDB, 0xF01F01FF, null),
                                   (0, 0x1F, 0x1F01FF, everyone), (2, 0xDB, 0xFFFFFFFF, everyone),
                                   (5, 0x1B, 0xF00F01FF, everyone)):
        body = (bytes([3, 0, 0, 0]) + bytes(range(32)) if kind == 5 else b"") + sid
        ace = bytes([kind, flags]) + two(8 + len(body)) + mask.to_bytes(4, "little") + body
        for aces in range(1, 7):
            acl = bytes([4, 0]) + two(8 + aces * len(ace)) + bytes([aces, 0, 0, 0]) + ace * aces
            control, offsets = (0x8010, (0, 0, 20, 0)) if kind == 2 else (0x8004, (0, 0, 0, 20))
            yield (bytes([1, 0]) + two(control) + b"".join(two(o) + bytes(2) for o in offsets) + acl).hex()


def declarations(path):
    """What a header declares: each struct, function and constant, and each member of an enum."""
    text = re.sub(r"/\*.*?\*/", " ", path.read_text(encoding="utf-8"), flags=re.S)
    found = {line.strip() for line in re.findall(r"(?m)^#define (\w+\(?.* .*)$", text) if "VERSION" not in line}
    text = re.sub(r"(?m)^#.*$|extern \"C\" \{", "", text)
    for name, members in re.findall(r"enum (\w*) ?\{([^}]*)\}", text):
        found |= {f"{name}: {' '.join(member.split())}" for member in members.split(",") if member.strip()}
    text = re.sub(r"enum \w* ?\{[^}]*\};", "", text)
    return found | {" ".join(one.split()) for one in re.findall(r"struct \w+ \{[^}]*\}|[^;{}]*\([^;{}]*\)", text)}


def test_older(count, folder, program):
    """A program that was compiled with an older header runs with the library, and the header still declares the
    same."""
    gone = declarations(TOP / "tests/library/c" / "older" / "sdtool.h") - declarations(TOP / "include" / "sdtool.h")
    count.add(not gone, f"the header does not declare these any more: {sorted(gone)}")
    older = folder / "older"
    words = [COMPILER, *WARNINGS, str(TOP / "tests/library/c" / "older.c"), f"-L{LIBRARIES}", "-lsdtool",
             "-o", str(older)]
    compiled = ran(words, "")
    count.add(compiled.returncode == 0, f"older.c: {compiled.stdout.decode()} {compiled.stderr.decode()}")
    if compiled.returncode != 0:
        return
    sddl = "O:BAG:SYD:(A;OICI;FA;;;WD)\n"

    def answer(*words):
        return ran([program, words[0], "--from", "sddl", *words[1:]], sddl).stdout.decode()

    layout = answer("convert", "--to", "hex")
    expected = layout * 2 + answer("convert") + answer("explain", "--numeric")
    expected += answer("derive", "--to", "hex", "--kind", "container", "--owner", "BA", "--group", "WD")
    # The rights of FR, which FA has; the second entry is neither enabled nor deny-only; a line and a wrong one.
    expected += "0 1 0x00120089\n70 3 1\n1 0\nD:\nerror 20 shape\nsid-form\n"
    expected += f"domain: 70 0 0 1 0 0\nsmall: 71 0 0 0 0 {len(answer('convert')) - 1}\noffset: 8 4 0 0 0 0\n"
    ended = ran([str(older)], "", env={**os.environ, "LD_LIBRARY_PATH": str(LIBRARIES)})
    count.add(ended.stdout.decode() == expected and ended.returncode == 0,
              f"an older program: {ended.stdout.decode()!r} in place of {expected!r} {ended.stderr.decode()}")


def test_symbols(count):
    for words in (["nm", "-D", "--defined-only", LIBRARIES / "libsdtool.so"],
                  ["nm", "-g", "--defined-only", LIBRARIES / "libsdtool.a"]):
        listed = subprocess.run(words, stdout=subprocess.PIPE, check=True).stdout.decode()
        names = {line.split()[2] for line in listed.splitlines() if len(line.split()) == 3 and " A " not in line}
        declared = set(re.findall(r"\b(sdtool_\w+)\(", (TOP / "include" / "sdtool.h").read_text(encoding="utf-8")))
        count.add({name.partition("@")[0] for name in names} == declared, f"{words[-1]} has {sorted(names)}")


def test_header(count):
    for language in ("c", "c++"):
        words = [COMPILER, "-x", language, "-Wall", "-Wextra", "-Wpedantic", "-Werror", "-fsyntax-only", "-"]
        ended = ran(words, f'#include "{TOP}/include/sdtool.h"\n#include "{TOP}/include/sdtool.h"\n')
        # A compiler may lack C++.
        count.add(ended.returncode == 0 or b"cc1plus" in ended.stderr,
                  f"the header in {language}: {ended.stderr.decode()}")


def test_python(count, program, lines, asked):
    os.environ["SDTOOL_LIBRARY"] = str(LIBRARIES / "libsdtool.so")
    sys.path.insert(0, str(TOP / "python"))
    import sdtool  # noqa: PLC0415
    result = doctest.testmod(sdtool)
    count.add(result.failed == 0 and result.attempted > 8, f"the module's examples: {result}")

    def answer(call, argument):
        try:
            return call(argument)
        except sdtool.Fault as fault:
            return without_name(fault.line) + "\n"

    calls = ((lambda line: sdtool.to_sddl(bytes.fromhex(line)) + "\n"),
             (lambda line: sdtool.explain(bytes.fromhex(line))),
             (lambda line: sdtool.normalize(bytes.fromhex(line)).hex() + "\n"),
             (lambda line: sdtool.from_sddl(line).hex() + "\n"))
    for call, (job, words, is_hex) in zip(calls, JOBS):
        chosen = lines[0 if is_hex else 1]
        expected = without_name(ran([program, *words],
                                    "".join(line + "\n" for line in chosen)).stdout.decode("latin-1"))
        found = "".join(answer(call, line) for line in chosen)
        count.add(found == expected, f"Python's {job}")
    for job, questions in asked.items():
        found = [answer(lambda question: question.asked(sdtool), question).rstrip("\n") for question, _ in questions]
        count.add(found == [expected for _, expected in questions], f"Python's {job}")


def add_options(parser):
    parser.add_argument("--lines", type=int, default=400)


def main(count: preload.Count, arguments: preload.Given) -> None:
    choices = random.Random(29)
    rows = lines_of_rows()
    lines = tuple(of_rows + random_lines(of_rows, arguments.lines, change, choices)
                  for of_rows, change in zip(rows, (change_bytes, change_text)))
    test_symbols(count)
    test_header(count)
    with tempfile.TemporaryDirectory() as name:
        folder = pathlib.Path(name)
        test_runs_in_c(count, folder, arguments.program)
        plain, said = built(folder, "calls", "plain", [])
        count.add(plain is not None, said)
        if plain is not None:
            compare_calls(count, [plain], arguments.program, lines, "plain")
        checked, _ = built(folder, "calls", "checked", SANITIZERS)
        if checked is not None:
            compare_calls(count, [*NO_FORKS, checked], arguments.program, rows, "sanitized")
        if plain is not None:
            dense = list(densest())
            compare_calls(count, [plain], arguments.program, (dense, []), "densest")
            for where in GUARDS:
                guarded = tuple(of_rows[:40] + of_rows[-40:] for of_rows in (rows[0] + dense, rows[1]))
                compare_calls(count, ["env", f"GUARD={where}", plain], arguments.program, guarded, f"guard {where}")
        test_older(count, folder, arguments.program)
        valgrind = [*VALGRIND, str(plain)]
        if plain is not None and shutil.which("valgrind"):
            few = tuple(of_rows[:30] for of_rows in rows)
            compare_calls(count, valgrind, arguments.program, few, "valgrind")
        asked = {job: [*questions_of_rows(job), *random_questions(job, arguments.lines, arguments.program, choices)]
                 for job in ("check", "derive")}
        asked["derive"] += questions_of_any_creator(arguments.lines, choices)
        why = [(question, reasons_for(question, answer)) for question, answer in asked["check"]]
        where = [(question, origins_for(question, answer)) for question, answer in asked["derive"]]
        runners = [("plain", [plain], None)] * (plain is not None)
        runners += [("sanitized", [*NO_FORKS, checked], None)] * (checked is not None)
        runners += [(f"guard {where}", ["env", f"GUARD={where}", plain], 60) for where in GUARDS if plain is not None]
        runners += [("valgrind", valgrind, 30)] * bool(plain is not None and shutil.which("valgrind"))
        for job, questions in (*asked.items(), ("reasons", why), ("origins", where)):
            test_questions(count, runners, job, questions)
        for _, runner, _ in runners[:2]:
            test_arguments(count, runner)
    test_python(count, arguments.program, lines, asked)
    test_python_runs(count, arguments.program, list(rows_in_memory()))
    test_fault_texts(count)
