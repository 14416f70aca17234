"""Runs the worked rows of tests/rows/ on the built program, and compares what it writes and its exit status. With
--one-byte the input comes one byte a read; rows that ask for a device of their own are left out. With --reference no
program is run: the answers of the reference are compared, in all rows that answer lines or name an option whose value
does not read, and ask for no device, so that the rows and what compare.py compares with are known to say the same.

A file has its rows and their source: the section of the standard that gives the values, another implementation, or the
document that has the rule where no standard says it. A row with another source names it.
A row has the program's words, its standard input, and what has to come of them: stdout, stderr and status, which are
empty and 0 where they are left out. Help tells the program's name: it is called sdtool, whatever its file is.
A text is a string of characters below 256, each of which stands for one byte, or a list of texts, or
{"repeat": TEXT, "times": N}, or {"numbered": [BEFORE, AFTER], "times": N}: the numbers from 1 to N, each between two
texts. Where the standard streams are not to be files, a row has one of these:

  talk     true: the input goes in line by line, each once the answer to the line before it has come. With an
           output "full", "closed pipe" or "not ready" that begins once the answers of stdout have come: then one
           line more goes in, and the program has to end by itself, while its input is open
  input    "closed", "directory", "not ready" (a pipe that does not block: where nothing has come yet a read
           fails), or "fails after each byte": for each front of the input a run of its own, in which the read
           after it fails
  output   "closed", "closed pipe", "full", or "fails after each byte": for each front of the output
           but the whole a run of its own, in which the write of the byte after it fails
  faults   "closed" or "full", for the standard error
"""
import json
import os
import pty
import resource
import select
import signal
import stat
import subprocess
import sys
import tempfile
import threading
import tty
from typing import NamedTuple

import preload
import reference

SECONDS = 1200  # for one run, and to end once its output takes nothing more: a program that hangs fails its row
ASKED_WRONGLY = ("sdtool: usage: ", "sdtool: error 50 ", "sdtool: error 51 ")  # what the reference says of words
HELP = ("help", "--help", "-h")


class Ended(NamedTuple):
    stdout: bytes
    stderr: bytes
    status: object  # an exit status, minus a signal's number, "too slow", or "waits for more"
    has_read: bool  # of a seekable input


def text(value):
    """The bytes of a text of a row."""
    if isinstance(value, dict) and "numbered" in value:
        before, after = map(text, value["numbered"])
        return b"".join(before + b"%d" % number + after for number in range(1, value["times"] + 1))
    if isinstance(value, dict):
        return text(value["repeat"]) * value["times"]
    if isinstance(value, list):
        return b"".join(map(text, value))
    return value.encode("latin-1")


def rows_in(file):
    """The rows of a subject, each with a source: its own, or that of the file."""
    subject = json.loads(file.read_text(encoding="utf-8"))
    return [{"source": subject["source"], **row} for row in subject["rows"]]


def all_rows():
    """The rows of all subjects; no two have one id."""
    files = sorted((preload.TOP / "tests/rows").glob("*.json"))
    rows = [row for file in files for row in rows_in(file)]
    if len({row["id"] for row in rows}) < len(rows):
        sys.exit("two rows have one id")
    return rows


def lines_of(data):
    """The lines of the data, each with its LF (bytes.splitlines would cut at a CR as well)."""
    return [line + b"\n" for line in data.split(b"\n")[:-1]]


def file_of(data):
    with tempfile.TemporaryFile() as file:
        file.write(data)
        file.seek(0)
        return os.dup(file.fileno())


def fed(data, pair, piece):
    """The reading end of the pair, and the thread that feeds the other end and then closes it."""
    reading, writing = pair

    def feed():
        try:
            for at in range(0, len(data), piece):
                os.write(writing, data[at:at + piece])
        except OSError:  # the program has ended and reads no more
            pass
        os.close(writing)
    return reading, threading.Thread(target=feed)


def open_input(kind, data):
    """A descriptor for the standard input; the thread that feeds it, if it needs one; and another descriptor, if one
    has to stay open."""
    if kind == "bytes":  # a pipe in packet mode: one read never gets the bytes of two writes
        return *fed(data, os.pipe2(os.O_DIRECT | os.O_CLOEXEC), 1), None
    if kind == "fails":  # where a terminal hangs up, a read fails once it has given what was typed
        ends = pty.openpty()
        tty.setraw(ends[1])
        return *fed(data, ends, 256), None
    if kind == "not ready":
        reading, writing = os.pipe()
        os.set_blocking(reading, False)
        os.write(writing, data)
        return reading, None, writing
    if kind == "directory":
        return os.open("/", os.O_RDONLY), None, None
    return file_of(data), None, None


def open_output(kind):
    if kind == "full":
        return os.open("/dev/full", os.O_WRONLY)
    if kind == "closed pipe":
        reading, writing = os.pipe()
        os.close(reading)
        return writing
    return file_of(b"")


def bytes_of(fd):
    """All that stands in a file; of a pipe or a device nothing."""
    if not stat.S_ISREG(os.fstat(fd).st_mode):
        return b""
    os.lseek(fd, 0, os.SEEK_SET)
    with open(fd, "rb", closefd=False) as file:
        return file.read()


def started(command, **streams):
    return subprocess.Popen(["sdtool", *command[1:]], executable=command[0], **streams)


def execute(command, data, given="file", output="file", faults="file", takes=None):
    """Runs the command; with takes, an output that takes so many bytes and then fails."""
    closed = [fd for fd, kind in enumerate((given, output, faults)) if kind == "closed"]

    def in_child():
        # A program that does not look after these signals must not be saved by what its parent ignores. Only
        # the size limit stands for a failing disk here, and a failing disk raises no signal.
        signal.signal(signal.SIGPIPE, signal.SIG_DFL)
        signal.signal(signal.SIGXFSZ, signal.SIG_DFL if takes is None else signal.SIG_IGN)
        if takes is not None:
            resource.setrlimit(resource.RLIMIT_FSIZE, (takes, takes))
        for fd in closed:
            os.close(fd)
    stdin, feeder, other_end = open_input(given, data)
    stdout = open_output(output)
    # (a pipe, which the size limit does not bind)
    stderr = subprocess.PIPE if faults == "file" else open_output(faults)
    child = started(command, stdin=stdin, stdout=stdout, stderr=stderr, preexec_fn=in_child)
    if feeder:
        os.close(stdin)
        feeder.start()
    try:
        _, told = child.communicate(timeout=SECONDS)
        status = child.returncode
    except subprocess.TimeoutExpired:
        child.kill()
        _, told = child.communicate()
        status = "too slow"
    has_read = False
    if feeder:
        feeder.join()
    else:
        has_read = given == "file" and os.lseek(stdin, 0, os.SEEK_CUR) > 0
        os.close(stdin)
    if other_end:
        os.close(other_end)
    written = bytes_of(stdout)
    os.close(stdout)
    if stderr is not subprocess.PIPE:
        os.close(stderr)
    return Ended(written, told or b"", status, has_read)


def next_line(fd):
    """What comes up to an LF, the end, or a silence of SECONDS."""
    line = b""
    while not line.endswith(b"\n") and select.select([fd], [], [], SECONDS)[0]:
        piece = os.read(fd, 65536)
        if not piece:
            break
        line += piece
    return line


def converse(command, data, answers):
    """Says one line at a time and waits for its answer; the answers that came before the wrong one, and it."""
    child = started(command, stdin=subprocess.PIPE, stdout=subprocess.PIPE, stderr=subprocess.PIPE)
    heard = b""
    for line, answer in zip(lines_of(data), lines_of(answers)):
        try:
            child.stdin.write(line)
            child.stdin.flush()
        except BrokenPipeError:  # the program has ended too soon
            break
        said = next_line(child.stdout.fileno())
        heard += said
        if said != answer:
            child.kill()
            break
    rest, told = child.communicate()
    return Ended(heard + rest, told, child.returncode, True)


def fill(fd):
    """Fills a pipe, which does not block from then on, and gives the number of bytes."""
    os.set_blocking(fd, False)
    size = 0
    for piece in (b"." * 4096, b"."):
        try:
            while True:
                size += os.write(fd, piece)
        except BlockingIOError:
            pass
    return size


def read_all(fd):
    with open(fd, "rb") as file:
        return file.read()


def outlast(command, data, answers, output):
    """Says a line for each of the answers, and one more once the output takes nothing more; the input stays open."""
    reading, writing = os.pipe()
    stdout = open_output("full") if output == "full" else writing
    child = started(command, stdin=subprocess.PIPE, stdout=stdout, stderr=subprocess.PIPE)
    heard, filled, lines = b"", 0, iter(lines_of(data))
    for _ in lines_of(answers):
        child.stdin.write(next(lines))
        child.stdin.flush()
        heard += next_line(reading)
    if output == "closed pipe":
        os.close(reading)
    elif output == "not ready":
        filled = fill(writing)
    child.stdin.write(next(lines))
    child.stdin.flush()
    try:
        status = child.wait(SECONDS)
    except subprocess.TimeoutExpired:
        child.kill()
        status = "waits for more"
    child.stdin.close()
    with child.stderr as file:
        told = file.read()
    child.wait()
    os.close(writing)
    if stdout != writing:
        os.close(stdout)
    if output != "closed pipe":
        heard += read_all(reading)[filled:]
    return Ended(heard, told, status, True)


def short(data, most=100):
    shown = repr(data)[1:] if isinstance(data, bytes) else str(data)
    return shown if len(shown) <= most else f"{shown[:most]}.. ({len(data)} bytes)"


def differences(row, ended, stdout):
    """What is not as the row wants it, each in a few words."""
    wanted = [("status", row.get("status", 0), ended.status),
              ("stderr", text(row.get("stderr", "")), ended.stderr),
              ("stdout", stdout, ended.stdout)]
    if row.get("status") == 2 or is_for_help(row):
        wanted.append(("has read", False, ended.has_read))
    return [f"{what} {short(got)}, not {short(want)}" for what, want, got in wanted if got != want]


def runs(program, row, one_byte):
    """For each run of the row its name, how it ended, and the output that it should have."""
    command = [program] + [os.fsdecode(text(word)) for word in row["words"]]
    name, data, stdout = row["id"], text(row["stdin"]), text(row.get("stdout", ""))
    devices = {"given": row.get("input", "file"), "output": row.get("output", "file"),
               "faults": row.get("faults", "file")}
    if one_byte:
        yield name, execute(command, data, "bytes"), stdout
    elif row.get("talk") and "output" in row:
        yield name, outlast(command, data, stdout, row["output"]), stdout
    elif row.get("talk"):
        yield name, converse(command, data, stdout), stdout
    elif devices["given"] == "fails after each byte":
        answers = lines_of(stdout)
        for taken in range(len(data) + 1):
            ended = data.count(b"\n", 0, taken)  # only these lines are answered
            yield f"{name} {taken}", execute(command, data[:taken], "fails"), b"".join(answers[:ended])
    elif devices["output"] == "fails after each byte":
        for taken in range(len(stdout)):
            yield f"{name} {taken}", execute(command, data, takes=taken), stdout[:taken]
    else:
        yield name, execute(command, data, **devices), stdout


def is_for_files(row):
    """Whether the row asks for no device of its own."""
    return not {"talk", "input", "output", "faults"} & row.keys()


def is_for_help(row):
    return any(word in HELP for word in row["words"])


def is_for_reference(row):
    """Whether the reference says what has to come of the row: it knows neither help nor which words are no options."""
    is_known = row.get("status", 0) < 2 or row.get("stderr", "").startswith(ASKED_WRONGLY)
    return is_for_files(row) and not is_for_help(row) and is_known


def asked_of_reference(row):
    """The one run of the row, as runs gives it, with the answers of the reference in place of a program's."""
    stdout = text(row.get("stdout", ""))
    try:
        settings = reference.settings_of([text(word) for word in row["words"]])
        answers, status = reference.answers(reference.all_shown(text(row["stdin"]), settings), settings)
    except reference.Usage as fault:
        yield row["id"], Ended(b"", f"{fault}\n".encode(), 2, False), stdout
    else:
        yield row["id"], Ended(b"".join(answer + b"\n" for answer in answers), b"", status, True), stdout


def judge(count, rows, runs_of):
    """Counts the runs that a row has by what it wants of them."""
    for row in rows:
        for name, ended, stdout in runs_of(row):
            wrong = differences(row, ended, stdout)
            count.add(not wrong, f"{name}: {'; '.join(wrong)}")


def add_options(parser):
    parser.add_argument("--reference", action="store_true", help="compares the answers of the reference")
    parser.add_argument("--one-byte", action="store_true", help="the input comes one byte a read")


def main(count: preload.Count, given: preload.Given) -> None:
    rows = [row for row in all_rows() if preload.is_chosen(row["id"])]
    if given.one_byte:
        rows = [row for row in rows if is_for_files(row)]
    if given.reference:
        rows = [row for row in rows if is_for_reference(row)]
    count.most_shown = len(rows)
    judge(count, rows, asked_of_reference if given.reference else lambda row: runs(given.program, row, given.one_byte))
