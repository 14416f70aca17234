"""Tests what 'make systems' built, out/systems, against the program of this system. For each system:

  rows      the worked rows; of those that ask for a device of their own, the ones that the system can be given
  lines     N lines as compare.py makes them, in hex, base64 and SDDL, through each of the four commands: each byte of
            the answers, and the status, has to be the program's
  processor the static program of Linux on x86-64 under qemu-user, as a processor that is too old for it, and as one
that isn't
  limits    a line of 100 MB, and an input of many lines beside a short one, for the memory that both take
  library   the same lines in calls of sdtool_run, by tests/library/c/run_lines.c; on arm64 and Windows the library's
            own tests in C, calls.c, runs.c and objects.c; for JavaScript the calls that c_library.py and c_objects.py
            make, tests/systems/javascript/ module.mjs, its types, by types.ts, arguments that lie, by lies.mjs, an
            engine without vectors, the time of a call (speed.mjs), the example of docs/SYSTEMS.md, and the module in
            browsers
  streams   on Windows tests/library/c/on_windows.c: pipes, NUL, missing streams, arguments that are no text, and
            consoles, which wine has where there is a display; in a WASI host of our own the reads and writes that fail
            as device_faults.py fails those of Linux
  stack     on Windows how it is touched, and that little of it suffices

arm64 runs under qemu-user, Windows under wine, and WebAssembly in Node. A system whose tools are missing is skipped,
and a line says so.
"""
import base64
import concurrent.futures
import contextlib
import errno
import functools
import hashlib
import http.server
import json
import os
import pathlib
import random
import re
import shlex
import shutil
import subprocess
import sys
import tempfile
import threading
import time
from typing import NamedTuple

import browsers
import c_edits
import c_library
import c_objects
import c_texts
import compare
import device_faults
import fault_places
import fault_words
import preload
import run_rows
import sddl_texts
from reference.binary import layout
from reference.editing import edit
from reference.places import place_of_bytes

TESTS = pathlib.Path(__file__).resolve().parent
BUILT = preload.TOP / "out" / "systems"
SECONDS = 3000
MEANINGS = fault_words.documented()
JOBS = os.cpu_count() or 1
LONG_LINE = 100_000_000
MANY_LINES, FEW_LINES = 1_000_000, 1_000
MOST_WORDS = 1 << 20
TOO_OLD, OLDEST = "core2duo", "Nehalem"  # processors of qemu: the last without x86-64-v2, and the first with it
MORE_MEMORY, TRIES = 16 << 20, 10  # that many lines may take beyond few ones, at best of so many runs
PAGE, SMALL_STACK = 4096, 256 << 10
STARTS, FAILED_STARTS, FAILED_ENDS, STARTS_OF_A_FAILURE = "starts", "failed starts", "failed ends", 50
# the status by which Linux's loader ends a process that it finds in disorder; the program never ends so
LOADER_FAILED = 127
LINES_OF_BROWSERS = 2000
CALL_ROUNDS = 2000
EACH_OF_LINES = 4  # of those of rows that the slow tests in C get, one in so many
EACH_OF_FAULTS = 12  # of the faults of a run so many at its ends, and of the others one in so many
WITHOUT_VECTORS = "--no-enable-sse4-1"  # makes Node an engine that has no vectors of WebAssembly
# microseconds that a call from JavaScript may take beyond one from C: ten times the goal, on a busy machine
MOST_MORE = 100.0
CROSS = {"linux-aarch64": "aarch64-linux-gnu-gcc", "windows-x86_64": "x86_64-w64-mingw32-gcc"}
DOMAIN = compare.DOMAINS[0]
COMMANDS = [["convert"], ["convert", "--to", "hex"], ["explain", "--domain", DOMAIN],
            ["check", "--token", "WD,!BA,SY,S-1-5-32-545", "--maximum", "--level", "8192"],
            ["derive", "--kind", "container", "--owner", "BA", "--group", "SY"]]
# The program compares sixteen entries of a token in one step: here are three times as many. Some are like another SID
# in what is compared first, some are deny-only, and others are met at the places 1, 16, 17, 40 and 49.
OTHERS = [f"S-1-5-21-1-2-3-{number}" for number in range(39)]
LONG_TOKEN = ["S-1-5-32-546", "S-1-2-0", "!S-1-5-32-545", "S-1-6-18", "S-1-5-33-544", *OTHERS[:10], "S-1-5-32-545",
              "WD", "!BA", *OTHERS[10:31], "SY", *OTHERS[31:], "BA"]
COMMANDS += [["check", "--token", ",".join(LONG_TOKEN), "--maximum"]]
KINDS = {"hex": "line", "base64": "base64_line", "sddl": "sddl_line"}
SHARES = {"hex": 4, "base64": 2, "sddl": 4}  # tenths of the lines


class System(NamedTuple):
    file: str
    runner: list  # the words before the file
    tools: list   # commands that it takes to run it
    devices: set  # of those that rows ask for, the ones that it can't be given
    most_words: int = MOST_WORDS  # bytes of a command line
    any_bytes: bool = True        # whether a word may be bytes that are no text


SYSTEMS = {
    "linux-x86_64": System("sdtool", [], [], set()),
    "linux-aarch64": System("sdtool", ["qemu-aarch64"], ["qemu-aarch64", CROSS["linux-aarch64"]], set()),
    # Wine makes text of each word, waits for a pipe that doesn't wait, and reads a terminal in its own way. Windows has
    # a most for command lines. on_windows.c tries words that are no text.
    "windows-x86_64": System("sdtool.exe", ["wine"], ["wine", CROSS["windows-x86_64"]],
                             {"input not ready", "output not ready", "input fails after each byte"}, 32_000, False),
    # Node makes text of each word, and opens /dev/null in the place of a stream that is closed.
    "wasm": System("sdtool-wasi.wasm", ["node", "--no-warnings", str(preload.TOP / "javascript/wasi.mjs")],
                   ["node", "wasm-opt"],
                   {"input closed", "output closed"}, MOST_WORDS, False),
}


def devices_of(row):
    """The devices of its own that a row asks for, as 'input closed'."""
    found = {f"{stream} {row[stream]}" for stream in ("input", "output", "faults") if stream in row}
    return found | ({"talk"} if row.get("talk") else set())


def script_of(folder, name, words):
    """A command that runs a program of another system as one of this one. It notes each start.

    Wine now and then fails to start a program, and says so by status 1 alone. The program ends with 1 only after it has
    read a line. So where it ended with 1, and nothing has been read of a file that has something, it never ran: then it
    is started once more, and that is noted. Once in 10,000 starts Linux's loader fails at the end of wine's process,
    adds its own message and takes the program's status away. That is noted, and 'unless_lost' tries again. Any other
    end is the program's."""
    script = folder / f"{name} {pathlib.Path(words[-1]).name}"
    start = shlex.join(map(str, words)) + ' "$@"'
    # Empty files, since rows let no file grow.
    for name_of in (STARTS, FAILED_STARTS, FAILED_ENDS):
        (folder / name_of).mkdir(exist_ok=True)
    again = f""": > {shlex.quote(str(folder / STARTS))}/$$
{start}
status=$?
if [ $status = 1 ] && [ -f /proc/self/fd/0 ] && [ -s /proc/self/fd/0 ]; then
    exec 9<&0
    read -r name place < /proc/self/fdinfo/9
    exec 9<&-
    if [ "$name$place" = pos:0 ]; then
        : > {shlex.quote(str(folder / FAILED_STARTS))}/$$
        {start}
        status=$?
    fi
fi
if [ $status = {LOADER_FAILED} ]; then
    : > {shlex.quote(str(folder / FAILED_ENDS))}/$$
fi
exit $status
"""
    script.write_text(f"#!/bin/sh\n{again if name == 'windows-x86_64' else 'exec ' + start}\n", encoding="utf-8")
    script.chmod(0o755)
    return str(script)


def script_for(folder, name):
    system = SYSTEMS[name]
    return script_of(folder, name, [*system.runner, BUILT / name / system.file])


def judge_starts(count, folder):
    """Wine may fail at the start or the end of a program, but seldom."""
    starts, *failed = (len(list((folder / name).iterdir())) for name in (STARTS, FAILED_STARTS, FAILED_ENDS))
    print(f"wine: {starts} starts; {failed[0]} failed, and {failed[1]} ends, and were made again")
    count.add(sum(failed) * STARTS_OF_A_FAILURE <= starts, f"wine failed {sum(failed)} times")


def unless_lost(run, statuses):
    """What 'run' gives. If wine lost how one of its programs ended, it is called once more, and what comes then
    counts."""
    given = run()
    return run() if LOADER_FAILED in statuses(given) else given


def judged(row, program):
    """What a row comes to: each of its runs as whether it is right, and its name with what is wrong."""
    runs = unless_lost(lambda: list(run_rows.runs(program, row, False)),
                       lambda runs: [ended.status for _, ended, _ in runs])
    return [(not wrong, f"{name}: {'; '.join(wrong)}")
            for name, ended, stdout in runs
            for wrong in [run_rows.differences(row, ended, stdout)]]


def is_text(word):
    try:
        word.decode()
    except UnicodeDecodeError:
        return False
    return True


def why_not(row, system):
    """Why a system can't be given a row; None if it can."""
    words = [run_rows.text(word) for word in row["words"]]
    if not system.any_bytes and not all(map(is_text, words)):
        return "words that are no text"
    if sum(map(len, words)) > system.most_words:
        return "a long command line"
    return next(iter(devices_of(row) & system.devices), None)


def test_rows(count, program, name):
    system, asked, left_out = SYSTEMS[name], [], {}
    for row in run_rows.all_rows():
        reason = why_not(row, system)
        if reason:
            left_out[reason] = left_out.get(reason, 0) + 1
        else:
            asked.append(row)
    with concurrent.futures.ProcessPoolExecutor(JOBS) as pool:
        for found in pool.map(judged, asked, [program] * len(asked), chunksize=4):
            for is_right, what in found:
                count.add(is_right, f"{name} {what}")
    for reason, number in sorted(left_out.items()):
        print(f"{name}: {number} rows left out, {reason}")


def made_lines(source, number, seed):
    """Lines of a source, each with its end."""
    maker = compare.Lines(random.Random(f"{seed} {source}"))
    make = getattr(maker, KINDS[source])
    return b"".join(make() + maker.end() for _ in range(number))


def inputs(folder, number):
    """Files of lines, by their source."""
    pieces = [(source, number * share // 10 // JOBS, f"systems {part}") for source,
              share in SHARES.items() for part in range(JOBS)]
    with concurrent.futures.ProcessPoolExecutor(JOBS) as pool:
        made = list(pool.map(made_lines, *zip(*pieces)))
    for source in SHARES:
        (folder / source).write_bytes(b"".join(data for (of, _, _), data in zip(pieces, made) if of == source))
    return {source: folder / source for source in SHARES}


def answers(program, words, file):
    """What the program writes for a file of lines, its messages, and its status."""
    with open(file, "rb") as given:
        ended = subprocess.run([program, *words], stdin=given, capture_output=True, timeout=SECONDS, check=False)
    return ended.stdout, ended.stderr, ended.returncode


def first_difference(found, expected):
    if found[1:] != expected[1:]:
        return f"status {found[2]} {found[1][:200]}, not {expected[2]} {expected[1][:200]}"
    pairs = zip(found[0].split(b"\n"), expected[0].split(b"\n"))
    return next((f"line {at}: {a[:200]}, not {b[:200]}" for at, (a, b) in enumerate(pairs) if a != b), "another length")


def test_lines(count, native, program, name, files):
    for source, file in files.items():
        lines = file.read_bytes().count(b"\n")
        for words in COMMANDS:
            words = [*words, "--from", source]
            expected = answers(native, words, file)
            found = unless_lost(lambda: answers(program, words, file), lambda ended: ended[2:])
            count.add(found == expected and lines > 0,
                      f"{name} {words}: {found == expected or first_difference(found, expected)}")
            # So consoles show them, whatever their code page.
            count.add(found[0].isascii() and found[1].isascii(), f"{name} {words}: an answer beyond ASCII")


def test_processor(count, native, name, files):
    """On a processor without what the code is compiled for the program says so and answers nothing."""
    emulator = "qemu-x86_64"
    if not shutil.which(emulator):
        print(f"{name}: older processors are skipped, there is no command {emulator}")
        return
    program = BUILT / name / SYSTEMS[name].file
    file = next(iter(files.values()))
    ended = answers(emulator, ["-cpu", TOO_OLD, program, *COMMANDS[0]], file)
    count.add(ended[0] == b"" and ended[1] != b"" and ended[2] == 127,
              f"{name} on {TOO_OLD}: {ended[1]}, status {ended[2]}")
    found, expected = answers(emulator, ["-cpu", OLDEST, program, *COMMANDS[0]], file), answers(native,
                                                                                                COMMANDS[0], file)
    count.add(found == expected, f"{name} on {OLDEST}: {found == expected or first_difference(found, expected)}")


def memory_of(program, words, file):
    """The most memory that a run of the program takes, in bytes, if it ends well."""
    pid = os.fork()
    if pid == 0:
        with open(file, "rb") as given, open(os.devnull, "wb") as taken:
            os.dup2(given.fileno(), 0)
            os.dup2(taken.fileno(), 1)
            os.execvp(program, [program, *words])
    _, status, usage = os.wait4(pid, 0)
    return usage.ru_maxrss * 1024 if status == 0 else None


def test_limits(count, native, program, name, folder):
    long = folder / "long"
    long.write_bytes(b"0" * LONG_LINE + b"\n" + b"0100008000000000000000000000000000000000\n")
    expected, found = (answers(one, ["convert", "--to", "hex"], long) for one in (native, program))
    count.add(found == expected and found[0].startswith(b"error 1 too-long\n"),
              f"{name}: a line of {LONG_LINE} bytes gives {found}")
    long.unlink()
    few, many = folder / "few", folder / "many"
    for file, lines in ((few, FEW_LINES), (many, MANY_LINES)):
        file.write_bytes(b"O:BAG:SYD:PAI(A;OICI;FA;;;SY)(A;OICI;FA;;;BA)\n" * lines)
    if name != "windows-x86_64":  # wine's own server holds what its programs have
        words = ["convert", "--from", "sddl", "--to", "hex"]
        less, more = memory_of(program, words, few), memory_of(program, words, many)
        if less and more and more - less > MORE_MEMORY:  # what collects garbage may come late on a busy machine
            more = min(filter(None, (memory_of(program, words, many) for _ in range(TRIES))), default=None)
        count.add(less and more and more - less <= MORE_MEMORY,
                  f"{name}: {more} bytes of memory, beside {less} for few lines")
    for file in (few, many):
        file.unlink()


def built_for(folder, name, source, options=()):
    """A file of tests/library/c as a program of the system; None if its compiler refuses it."""
    is_windows = name == "windows-x86_64"
    program = folder / (source + ".exe" if is_windows else source)
    library = BUILT / name / ("libsdtool.dll.a" if is_windows else "libsdtool.a")
    words = [CROSS[name], "-std=gnu11", "-Wall", "-Wextra", "-Werror", "-O1", "-D_GNU_SOURCE",
             f"-I{preload.TOP / 'include'}", preload.TOP / "tests/library/c" / f"{source}.c", library, *options,
             "-pthread", "-static", "-o", program]
    ended = subprocess.run(words, stdout=subprocess.PIPE, stderr=subprocess.STDOUT, check=False)
    if ended.returncode:
        print(ended.stdout.decode())
    return None if ended.returncode else program


def test_calls(count, native, calls, runs, name, number):
    """Calls as c_library.py makes them, by commands that stand for calls.c and runs.c."""
    choices = random.Random(42)
    rows = [lines[::1 if name == "wasm" else EACH_OF_LINES] for lines in c_library.lines_of_rows()]
    lines = tuple(of_rows + c_library.random_lines(of_rows, number, change, choices)
                  for of_rows, change in zip(rows, (c_library.change_bytes, c_library.change_text)))
    c_library.compare_calls(count, calls, native, lines, name)
    for job in ("check", "derive"):
        asked = [*c_library.questions_of_rows(job), *c_library.random_questions(job, number, native, choices)]
        c_library.test_questions(count, [(name, calls, None)], job, asked)
        beside, answers_of = (("reasons", c_library.reasons_for) if job == "check"
                              else ("origins", c_library.origins_for))
        told = [(question, answers_of(question, answer)) for question, answer in asked]
        c_library.test_questions(count, [(name, calls, None)], beside, told)
    if name != "wasm":  # module.mjs asks those of JavaScript, which names an argument in its own way
        c_library.test_arguments(count, calls)
    # Other systems make text of each word, and mingw's start of a program that of a code page.
    rows = [row for row in c_library.rows_in_memory() if len(row[2]) < 100_000 and
            (SYSTEMS[name].any_bytes or all(word.isascii() for word in row[1]) and sum(map(len, row[1])) < 32_000)]
    for row, words, data in rows[::10]:
        expected = c_library.of_program(["sdtool", *words], data, executable=native)
        found = unless_lost(lambda: c_library.of_program([*runs, "plain", *words], data), lambda ended: ended[2:])
        count.add(found == expected, f"{name} run of {row}: {found} in place of {expected}"[:900])


def ended_in_host(tasks):
    """How runs of the WASI program end, in a host of our own whose streams can fail."""
    program = BUILT / "wasm" / SYSTEMS["wasm"].file
    given = "".join(json.dumps(task) + "\n" for task in tasks)
    words = ["node", TESTS / "javascript/faults.mjs", program]
    said = subprocess.run(words, input=given.encode(), capture_output=True, timeout=SECONDS, check=False)
    if said.returncode:
        print(said.stderr.decode()[-2000:])
    for line in said.stdout.decode().splitlines():
        ended = json.loads(line)
        yield device_faults.Ended(ended["status"], base64.b64decode(ended["stdout"]), base64.b64decode(ended["stderr"]),
                                  [preload.Event(*event) for event in ended["events"]])


def task_of(job, settings):
    """A run as faults.mjs takes it."""
    error = settings.get("error", errno.EIO)
    return {"words": job.words, "data": base64.b64encode(job.data).decode(), "piece": job.piece,
            "takes": job.takes, **settings,
            "error": errno.errorcode[error] if error else 0}


def test_faults(count, pool):
    """Reads and writes of the WASI program fail as device_faults.py fails those of Linux: the first and the last ones,
    and some of the others."""
    jobs = [*device_faults.SHORT_JOBS, *device_faults.CUT_JOBS, *device_faults.LARGE_JOBS]
    tried = []
    for job, plain in zip(jobs, ended_in_host([task_of(job, {}) for job in jobs])):
        answers = device_faults.Answers(job)
        count.add(device_faults.is_plain(plain, answers), f"WASI {job.words}, no fault: {plain}")
        faults = list(device_faults.faults_of(plain, device_faults.IN_OTHERS))
        tried += [(job, answers, *fault) for fault in [*faults[:EACH_OF_FAULTS], *faults[::EACH_OF_FAULTS],
                                                       *faults[-EACH_OF_FAULTS:]]]
    shares = [tried[part::JOBS] for part in range(JOBS)]
    tasks = [[task_of(job, settings) for job, _, _, settings in share] for share in shares]
    for share, ended in zip(shares, pool.map(lambda share: list(ended_in_host(share)), tasks)):
        count.add(len(ended) == len(share), f"{len(ended)} runs ended, of {len(share)}")
        for (job, answers, judge, settings), one in zip(share, ended):
            count.add(judge(one, answers), f"WASI {device_faults.shown(job, settings)}: {one}")
    print(f"wasm: {len(tried)} runs in which a read or a write fails")


class ModuleRunner:
    """Asks calls.mjs what c_objects.py asks objects.c. It tells a walk that ends with a fault by the fault alone, and
    an argument by its name."""

    def __init__(self, count, calls):
        self.count, self.ways = count, [("JavaScript", calls, None)]

    def test(self, words, lines, expected, seldom=1):
        if words == ["walk"]:
            expected = [answer if answer.endswith("end") else answer.split("\n")[-1] for answer in expected]
        (name, calls, _), = self.ways
        ended = c_library.ran([*calls, *words], "".join(line + "\n" for line in lines))
        found = ended.stdout.decode("latin-1")
        wanted = "".join(answer + "\n" for answer in expected).replace("error 70 12 0\n", "error 70 sid 0\n")
        wrong = next((f"{a!r} in place of {b!r}" for a, b in zip(found.split("\n"), wanted.split("\n")) if a != b), "")
        self.count.add(found == wanted and ended.returncode == 0 and not ended.stderr,
                       f"{name} {words[:1]}: status {ended.returncode}, {wrong} {ended.stderr.decode()[:900]}")


def test_objects(count, native, runner, number):
    """SIDs, parts, ACEs, many checks and building, with what the program says of the same lines."""
    choices = random.Random(31)
    maker = compare.Lines(choices)
    lines = c_objects.descriptors(maker, number, choices)
    c_objects.test_parts(runner, native, lines)
    c_objects.test_large_parts(runner, native)
    c_objects.test_walks(runner, native, lines)
    c_objects.test_sids_from_texts(runner, native, c_objects.sid_texts(maker, number // 2, choices))
    c_objects.test_texts_of_sids(runner, native, c_objects.sids_of(maker, number // 2, choices))
    c_objects.test_many(runner, native, maker, lines, choices)


def test_document(count, built, folder):
    """The example of docs/SYSTEMS.md gives what its comments say. It runs in one file too, without the module beside
    it."""
    text = (preload.TOP / "docs/SYSTEMS.md").read_text(encoding="utf-8")
    shown = re.search(r"```js\n(import .*?)```", text, re.S)
    example = shown[1] if shown else ""
    checked = re.sub(r"^(?!const |import )(.*); // (.*)$", r"assert.deepEqual(\1, \2); asserted += 1;",
                     example, flags=re.M)
    script = 'import assert from "node:assert/strict";\nlet asserted = 0;\n' + checked + "console.log(asserted);\n"
    shutil.copy(built / "sdtool.single.mjs", folder)
    for module in ((built / "sdtool.mjs").as_uri(), "./sdtool.single.mjs"):
        (folder / "example.mjs").write_text(script.replace("./sdtool.mjs", module), encoding="utf-8")
        ended = subprocess.run(["node", "example.mjs"], cwd=folder, capture_output=True, timeout=SECONDS, check=False)
        count.add(ended.returncode == 0 and ended.stdout.strip() == b"4",
                  f"the example of SYSTEMS.md: {ended.stderr.decode()[:2000]}")


class Files(http.server.SimpleHTTPRequestHandler):
    extensions_map = {**http.server.SimpleHTTPRequestHandler.extensions_map, ".mjs": "text/javascript",
                      ".wasm": "application/wasm"}

    def log_message(self, *_):
        pass


def answered(kind, address, module):
    """What browser.html comes to, in a browser: its title."""
    browser = browsers.started(kind)
    try:
        browser.open(f"{address}/browser.html#{module}")
        end = time.monotonic() + SECONDS
        while time.monotonic() < end:
            title = browser.run("return document.title")
            if title != "running":
                return title
            time.sleep(0.2)
        return "too slow"
    finally:
        browser.end()


def test_browsers(count, native, built, folder, files):
    """The module in browsers, beside sdtool.wasm and in one file, with the program's answers."""
    site = folder / "site"
    site.mkdir()
    runs = [(source, [*words, "--from", source]) for source in files for words in COMMANDS]
    expected = []
    for source, file in files.items():
        (site / source).write_bytes(b"".join(file.read_bytes().splitlines(keepends=True)[:LINES_OF_BROWSERS]))
    for source, words in runs:
        output, _, status = answers(native, words, site / source)
        expected.append([status, hashlib.sha256(output).hexdigest()])
    expected.append(["O:BAD:(A;;FR;;;BU)", True, "error 5 short"])
    (site / "runs.json").write_text(json.dumps(runs), encoding="utf-8")
    for file in (TESTS / "javascript/browser.html", *(built / name for name in ("sdtool.mjs", "sdtool.single.mjs",
                                                                                "sdtool.wasm"))):
        shutil.copy(file, site)
    server = http.server.ThreadingHTTPServer(("127.0.0.1", 0), functools.partial(Files, directory=site))
    threading.Thread(target=server.serve_forever, daemon=True).start()
    kinds = []
    for kind in browsers.BROWSERS:
        if kind.missing():
            print(f"the module in {kind.name}: skipped, Debian: {kind.missing()}")
        else:
            kinds += [(kind, "sdtool.mjs"), (kind, "sdtool.single.mjs")]
    with concurrent.futures.ThreadPoolExecutor(2) as threads:
        pending = [threads.submit(answered, kind, f"http://127.0.0.1:{server.server_port}", module)
                   for kind, module in kinds]
        for (kind, module), one in zip(kinds, pending):
            found = one.exception() or one.result()
            count.add(found == json.dumps(expected, separators=(",", ":")),
                      f"{module} in {kind.name}: {str(found)[:500]}")
    server.shutdown()


def test_types(count, built, folder):
    """sdtool.d.ts names the calls that there are, and programs of TypeScript can be written with it."""
    declared = re.search(r"export interface Sdtool \{(.*?)^\}", (built / "sdtool.d.ts").read_text(encoding="utf-8"),
                         re.M | re.S)[1]
    script = ("const { load } = await import(process.argv[1]); "
              "console.log(Object.getOwnPropertyNames(Object.getPrototypeOf(await load())).join(' '))")
    words = ["node", "--input-type=module", "--eval", script, "--", (built / "sdtool.mjs").as_uri()]
    found = subprocess.run(words, capture_output=True, check=False, text=True, timeout=SECONDS).stdout.split()
    named = re.findall(r"^    (\w+)\(", declared, re.M)
    count.add(sorted(found) == sorted(["constructor", *named]) and named,
              f"sdtool.d.ts has {named}, the module {found}")
    compiler = shutil.which("tsc")
    if not compiler:
        print("types: skipped, there is no command tsc")
        return
    (folder / "node_modules").mkdir()
    (folder / "node_modules/sdtool").symlink_to(built)
    (folder / "package.json").write_text('{"type": "module"}', encoding="utf-8")
    shutil.copy(TESTS / "javascript/types.ts", folder)
    for resolution in ("node", "node16"):
        words = [compiler, "--noEmit", "--strict", "--target", "es2022", "--module",
                 "es2022" if resolution == "node" else resolution,
                 "--moduleResolution", resolution, "--lib", "es2022,dom", folder / "types.ts"]
        ended = subprocess.run(words, cwd=folder, stdout=subprocess.PIPE, stderr=subprocess.STDOUT, check=False,
                               timeout=SECONDS)
        count.add(ended.returncode == 0, f"types of {resolution}: {ended.stdout.decode()[:2000]}")


def test_stack(count, native, folder, files):
    """Windows commits a page of the stack when the page in front of it is touched. So no function may move the stack by
    a page or more at once without touching the pages in between, as the probe does that the compiler calls. And a small
    stack suffices."""
    for file in ("sdtool.exe", "sdtool.dll"):
        words = ["x86_64-w64-mingw32-objdump", "-d", "--no-show-raw-insn", BUILT / "windows-x86_64" / file]
        code = subprocess.run(words, capture_output=True, check=True, timeout=SECONDS).stdout.decode()
        frames = [int(size, 16) for size in re.findall(r"\bsub +\$0x([0-9a-f]+),%rsp", code)]
        probed = re.findall(r"\bcall .*\n.*\bsub +%rax,%rsp", code)
        count.add(len(frames) > 50 and max(frames) < PAGE and probed,
                  f"{file}: frames of {max(frames)} bytes, {len(probed)} probes")
    program = bytearray((BUILT / "windows-x86_64/sdtool.exe").read_bytes())
    header = int.from_bytes(program[0x3c:0x40], "little") + 24  # the optional header of a PE file
    reserve, commit = header + 72, header + 80
    count.add(int.from_bytes(program[reserve:commit], "little") == 8 << 20, "the stack that sdtool.exe asks for")
    program[reserve:commit + 8] = SMALL_STACK.to_bytes(8, "little") + PAGE.to_bytes(8, "little")
    small = folder / "small_stack.exe"
    small.write_bytes(program)
    script = script_of(folder, "windows-x86_64", [*SYSTEMS["windows-x86_64"].runner, small])
    for source in files:
        words = [*COMMANDS[4], "--from", source]
        expected, found = answers(native, words, files[source]), answers(script, words, files[source])
        difference = found == expected or first_difference(found, expected)
        count.add(found == expected, f"{words} with {SMALL_STACK} bytes of stack: {difference}")


class LibraryRunners(c_objects.Runners):
    """objects.c on another system."""

    def __init__(self, count, name, words):
        self.count, self.under_valgrind, self.ways = count, set(), [(name, words, None)]


def test_in_c(count, native, name, folder, number):
    """calls.c, runs.c and objects.c, the tests of the library in C, with what the program says of the same lines."""
    wraps = [] if name == "windows-x86_64" else c_library.WRAPS
    programs = {source: built_for(folder, name, source, wraps) for source in ("calls", "runs", "objects")}
    for source, program in programs.items():
        count.add(program, f"{name}: {source}.c is not built")
    if all(programs.values()):
        # qemu-user does not follow a process that one of several threads forks.
        words = {source: [script_of(folder, name, ["env", "FORKS=0", "ROUNDS=2", *SYSTEMS[name].runner, program])]
                 for source, program in programs.items()}
        test_calls(count, native, words["calls"], words["runs"], name, number)
        runners = LibraryRunners(count, name, words["objects"])
        runners.test_cases()
        test_objects(count, native, runners, number)


def test_streams(count, name, folder):
    """Streams and words as only Windows has them. A wine of its own has a display, and so consoles."""
    program = built_for(folder, name, "on_windows", ["-lshell32"])
    count.add(program, f"{name}: on_windows.c is not built")
    if not program:
        return
    with display() as screen, wine(folder / "wine with a display", screen) as surroundings:
        ended = subprocess.run([*SYSTEMS[name].runner, program, BUILT / name / "sdtool.exe"], capture_output=True,
                               stdin=subprocess.DEVNULL, timeout=SECONDS, check=False, env=surroundings)
    said = ended.stdout.decode("latin-1")
    count.add(ended.returncode == 0 and " passed, 0 failed" in said, f"{name} streams: {said}")
    count.add(screen is None or "skipped" not in said, f"{name} streams: {said}")


def test_library(count, native, name, folder, files, number):
    """The library, from a program in C of the system: all lines through all commands, in one call each."""
    runner = SYSTEMS[name].runner
    if name == "windows-x86_64":
        shutil.copy(BUILT / name / "sdtool.dll", folder)
        test_streams(count, name, folder)
    program = built_for(folder, name, "run_lines")
    count.add(program, f"{name}: run_lines.c is not built")
    if program:
        test_lines(count, native, script_of(folder, name, [*runner, program]), f"{name}, library", files)
    test_in_c(count, native, name, folder, number)


def last_counts(text):
    """The numbers of a last line 'N passed, M failed'."""
    words = text.splitlines()[-1].replace(",", "").split() if text else []
    return (int(words[0]), int(words[2])) if len(words) == 4 and words[1::2] == ["passed", "failed"] else (0, 1)


def count_script(count, words):
    """The counts of a script of tests/systems/javascript."""
    ended = subprocess.run(["node", *words], capture_output=True, timeout=SECONDS, check=False)
    passed, failed = last_counts(ended.stdout.decode())
    count.passed, count.failed = count.passed + passed, count.failed + failed
    if failed:
        print(ended.stdout.decode(), ended.stderr.decode())


def test_without_vectors(count, built, files):
    """In an engine without vectors nothing is answered, and what is missing is said."""
    modules = [(built / name).as_uri() for name in ("sdtool.mjs", "sdtool.single.mjs")]
    count_script(count, [WITHOUT_VECTORS, TESTS / "javascript/vectors.mjs", *modules])
    words = ["node", "--no-warnings", WITHOUT_VECTORS, built / "wasi.mjs", built / SYSTEMS["wasm"].file, *COMMANDS[0]]
    with open(files["hex"], "rb") as given:
        ended = subprocess.run(words, stdin=given, capture_output=True, timeout=SECONDS, check=False)
    count.add(ended.returncode != 0 and ended.stdout == b"" and b"SIMD" in ended.stderr,
              f"WASI without vectors: {ended}"[:900])


def least_times(words):
    """The least of each time that a command prints, of several runs."""
    runs = [subprocess.run(words, capture_output=True, check=True).stdout.split() for _ in range(TRIES)]
    return [min(map(float, times)) for times in zip(*runs)]


def test_places(count, calls, number):
    """Where bytes are no descriptor, as the independent implementation says it."""
    chosen = random.Random(7)
    given = [row[0] for row in fault_places.OF_BYTES if row[0]]
    given += filter(None, fault_places.hostile(compare.Lines(chosen), chosen, 10 * number))
    ended = subprocess.run([*calls, "place"], input="".join(f"{data.hex()}\n" for data in given).encode(),
                           capture_output=True, timeout=SECONDS, check=False)
    told = [json.loads(line) for line in ended.stdout.decode().splitlines()]
    count.add(len(told) == len(given), f"places of {len(given)} lines: {len(told)}, {ended.stderr.decode()[:2000]}")
    for data, found in zip(given, told):
        expected = place_of_bytes(data)
        if expected is None or found is None:
            count.add(found is expected, f"{data.hex()[:300]}: {found}, not {expected}")
            continue
        line, place = expected
        count.add(found[:3] == [line, list(place), f"{line}: {meaning_of(line)}, {fault_places.in_words(place)}"] and
                  fault_places.is_excerpt(found[3], data, place), f"{data.hex()[:300]}: {found}, not {expected}")


def test_edits(count, calls, number):
    """Random edits, as the independent implementation makes them."""
    chosen = random.Random(9)
    asked = [(c_edits.random_descriptor(chosen), c_edits.random_changes(chosen)) for _ in range(10 * number)]
    given = [f"{layout(descriptor).hex()} {json.dumps(c_edits.as_json(changes), separators=(',', ':'))}\n"
             for descriptor, changes in asked]
    ended = subprocess.run([*calls, "edit"], input="".join(given).encode(), capture_output=True, timeout=SECONDS,
                           check=False)
    told = ended.stdout.decode().splitlines()
    count.add(len(told) == len(given), f"edits of {len(given)} lines: {len(told)}, {ended.stderr.decode()[:2000]}")
    for line, found, (descriptor, changes) in zip(given, told, asked):
        touched, made = edit(descriptor, changes)
        right = (f"error {made.args[0]} {made.args[2]} changes {len(touched)}" if isinstance(made, Exception) else
                 f"{layout(made).hex()} {json.dumps([touched, *c_edits.orders(made)], separators=(',', ':'))}")
        count.add(found == right, f"{line}: {found}, not {right}")


def test_texts(count, calls):
    """Texts of parts, as the independent implementation reads and prints them."""
    asked = [one for one in c_texts.lines_for_c(random.Random(10)) if one[0].endswith("to_text") or one[1].isascii()]
    given = "".join(f"{call} {first.hex() or '-'} {second.hex() or '-'}\n" for call, first, second, _ in asked)
    ended = c_library.ran([*calls, "text"], given)
    told = ended.stdout.decode().splitlines()
    count.add(len(told) == len(asked), f"{len(asked)} texts: {len(told)}, {ended.stderr.decode()[:2000]}")
    for found, (call, first, second, right) in zip(told, asked):
        # Of what it refuses itself it tells the same argument.
        count.add(found == (c_texts.as_line(right) if call != "ace_read" or right[0] else found),
                  f"{call} {first.hex()} {second.hex()}: {found}, not {right}")


def meaning_of(line):
    """What docs/FORMAT.md says of the fault of a line."""
    return MEANINGS[int(line.split()[1])][1]


def test_places_of_texts(count, calls, number):
    """Where a text is no SDDL, in the code units of JavaScript, as the independent implementation says it."""
    given = list(sddl_texts.hostile(random.Random(8), 10 * number, 1_000_000))
    ended = subprocess.run([*calls, "text_place", fault_places.DOMAIN.to_bytes().hex()],
                           input="".join(f"{json.dumps(text)}\n" for text in given).encode(), capture_output=True,
                           timeout=SECONDS, check=False)
    told = [json.loads(line) for line in ended.stdout.decode().splitlines()]
    count.add(len(told) == len(given), f"places of {len(given)} texts: {len(told)}, {ended.stderr.decode()[:2000]}")
    for text, found in zip(given, told):
        expected = sddl_texts.expected(text, code_units=True)
        if expected is None or found is None:
            count.add(found is expected, f"{text[:300]!r}: {found}, not {expected}")
            continue
        count.add(found[:3] == [expected.line, list(expected.place),
                                f"{expected.line}: {meaning_of(expected.line)}, {expected.said}"] and
                  sddl_texts.is_excerpt(found[3], sddl_texts.with_pairs(text), expected.first, expected.size),
                  f"{text[:300]!r}: {found}, not {expected}")


def test_javascript(count, native, name, folder, files, number):
    """The JavaScript module: the same calls, what is its own, and how long a call takes beside one from C."""
    built = str(BUILT / name)
    for script in ("module.mjs", "lies.mjs"):
        count_script(count, [TESTS / "javascript" / script, built])
    test_without_vectors(count, BUILT / name, files)
    calls = ["node", str(TESTS / "javascript/calls.mjs"), built]
    test_calls(count, native, calls, calls, name, number)
    test_places(count, calls, number)
    test_places_of_texts(count, calls, number)
    test_edits(count, calls, number)
    test_texts(count, calls)
    test_objects(count, native, ModuleRunner(count, calls), number)
    test_types(count, BUILT / name, folder)
    test_document(count, BUILT / name, folder)
    test_browsers(count, native, BUILT / name, folder, files)
    speed = folder / "speed"
    library = BUILT / "linux-x86_64" / "libsdtool.a"
    compiled = subprocess.run([preload.compiler()[0], "-O2", f"-I{preload.TOP / 'include'}",
                               preload.TOP / "tests/library/c/speed.c", library, "-o", speed], check=False)
    count.add(compiled.returncode == 0, "speed.c is not built")
    if compiled.returncode == 0:
        in_c, in_script = (least_times([*words, str(CALL_ROUNDS)])
                           for words in ([speed], ["node", TESTS / "javascript/speed.mjs", built]))
        print(f"microseconds of a call, to and from SDDL and of a check: from C {in_c}, from JavaScript {in_script}")
        for job, one, other in zip(("to_sddl", "from_sddl", "check"), in_c, in_script):
            count.add(other - one <= MOST_MORE,
                      f"{job} takes {other} microseconds from JavaScript, beside {one} from C")


@contextlib.contextmanager
def display():
    """The name of a display that nobody sees; None if there is no program for one."""
    if not shutil.which("Xvfb"):
        print("consoles of Windows: skipped, there is no command Xvfb")
        yield None
        return
    told, telling = os.pipe()
    server = subprocess.Popen(["Xvfb", "-displayfd", str(telling), "-nolisten", "tcp"], pass_fds=[telling],
                              stdin=subprocess.DEVNULL, stdout=subprocess.DEVNULL, stderr=subprocess.DEVNULL)
    os.close(telling)
    try:
        with open(told, encoding="ascii") as number:
            yield f":{number.readline().strip()}"
    finally:
        server.terminate()
        server.wait()


@contextlib.contextmanager
def wine(prefix, screen=None):
    """The surroundings of wine in a folder of its own, with a server that stays until the tests end. It is started
    before any program: one that a program starts ends with the last program, and a program that comes at that moment is
    not started."""
    prefix.mkdir()
    surroundings = {**os.environ, "WINEPREFIX": str(prefix), "WINEDEBUG": "-all"}
    surroundings.pop("DISPLAY", None)
    if screen:
        surroundings["DISPLAY"] = screen
    quiet = {"stdin": subprocess.DEVNULL, "stdout": subprocess.DEVNULL, "stderr": subprocess.DEVNULL,
             "timeout": SECONDS,
             "env": surroundings}
    # Where the tests are killed, it ends by itself after some time without a program.
    subprocess.run(["wineserver", f"-p{SECONDS}"], check=True, **quiet)
    # The first starts bring up services, which may say something of their own.
    for _ in range(2):
        subprocess.run(["wine", "cmd", "/c", "exit"], check=False, **quiet)
    try:
        yield surroundings
    finally:
        subprocess.run(["wineserver", "-k"], check=False, **quiet)


@contextlib.contextmanager
def wine_of_its_own(folder):
    """Wine without a display, in a folder of its own, for this program and all that it starts."""
    os.environ.pop("DISPLAY", None)
    with wine(folder / "wine") as surroundings:
        os.environ.update(surroundings)
        yield


def server_of_wine(folder):
    """The socket of wine's server, which is another file if the server was started again."""
    place = (folder / "wine").stat()
    sockets = pathlib.Path("/tmp").glob(f"*wine-*/server-{place.st_dev:x}-{place.st_ino:x}/socket")
    return [(str(socket), socket.stat().st_ino, socket.stat().st_ctime) for socket in sockets]


def test_system(count, native, name, folder, files, lines):
    program = script_for(folder, name)
    server = server_of_wine(folder) if name == "windows-x86_64" else None
    test_rows(count, program, name)
    test_lines(count, native, program, name, files)
    test_limits(count, native, program, name, folder)
    number = min(400, lines)
    if name == "linux-x86_64":
        test_processor(count, native, name, files)
    elif name in CROSS:
        test_library(count, native, name, folder, files, number // 10)
        if name == "windows-x86_64":
            test_stack(count, native, folder, files)
            judge_starts(count, folder)
            count.add(server and server_of_wine(folder) == server, "wine's server was started again")
    elif name == "wasm":
        with concurrent.futures.ThreadPoolExecutor(JOBS) as pool:
            test_faults(count, pool)
        test_javascript(count, native, name, folder, files, number)


def start_again():
    """Debian's Python sees Debian's selenium; another one may not."""
    preload.go_on_in(preload.python_with("selenium") or sys.executable)


def add_options(parser):
    parser.add_argument("--lines", type=int, default=100_000, help="(%(default)s)")


def main(count: preload.Count, given: preload.Given) -> None:
    start_again()
    with tempfile.TemporaryDirectory() as name:
        folder = pathlib.Path(name)
        files = inputs(folder, given.lines)
        for system in filter(preload.is_chosen, SYSTEMS):
            missing = [tool for tool in SYSTEMS[system].tools if not shutil.which(tool)]
            if missing:
                print(f"{system}: skipped, there is no command {', '.join(missing)}")
                continue
            if not (BUILT / system / SYSTEMS[system].file).exists():
                count.add(False, f"{system} is not built")
                continue
            with wine_of_its_own(folder) if system == "windows-x86_64" else contextlib.nullcontext():
                test_system(count, given.program, system, folder, files, given.lines)
