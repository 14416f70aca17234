"""Fails the program's reads and writes. Each call of a few runs fails in turn, once and for good, in several of the
ways in which such a call fails. A small library (faults.c) that is preloaded under it fails them, and tells of each
call, so that is seen which ones came after the failed one.

  A read that fails     60 and status 3. The answers to the lines that had ended arrived before it, nothing after it.
                        An interrupted one and one that would block are failed reads too, and never the end.
  A write that fails    61 and status 3, the last one too, whatever comes of the next one. A front of the answers
                        arrived. No call follows but the one that says so. A write that takes nothing is a failed one.
                        One that is interrupted is tried again, as std's BufWriter does.
  A write of help       status 0, and no call follows.

Wherever the program reads, the answers to all lines that had ended are out.
"""
import base64
import concurrent.futures
import errno
import itertools
import os
import re
import subprocess
import tempfile
from typing import NamedTuple

import preload
import reference

SECONDS = 1200  # for one run
MANY = 1_000_000
FIRST_CALLS, LAST_CALLS = 300, 20  # that fail in turn; a program that is as it should be makes no more
PIECE = 65_536  # bytes that the program asks for in a read
READ_FAULTS = [errno.EIO, errno.EAGAIN, errno.EINTR, errno.EBADF, errno.ETIMEDOUT, errno.ENOMEM]
# (0: the write takes nothing.)
WRITE_FAULTS = [0, errno.EIO, errno.EAGAIN, errno.ENOSPC, errno.EPIPE, errno.ETIMEDOUT, errno.ENOMEM]
IN_SHORT_JOBS, IN_OTHERS = {0, errno.EIO, errno.EAGAIN, errno.EINTR}, {0, errno.EIO}  # where a call is none of the ends
ONCE, FOR_GOOD = 1, 0
SAYS_READ, SAYS_WRITE = b"sdtool: error 60 read\n", b"sdtool: error 61 write\n"

NO_PARTS = b"0100008000000000000000000000000000000000"
OWNER = b"0100008014000000000000000000000000000000" b"010100000000000512000000"
BASE64_NO_PARTS, BASE64_OWNER = (base64.b64encode(bytes.fromhex(text.decode())) for text in (NO_PARTS, OWNER))
ACE = b"00001400ff011f00010100000000000100000000"
WITH_DACL = b"010004800000000000000000000000001400000002001c0001000000" + ACE
TWO_LINES = NO_PARTS + b"\nzz\n"
SHORT_HEX = OWNER + b"\nzz\n\n" + NO_PARTS + b"\r\n" + OWNER
SHORT_SDDL = b"o:ba d:(a;;fa;;;wd)\n?\n\nS:P\r\n O:SY\n \nG:WD"
# Every flag and right that has a name, and a SID of sixteen characters: SDDL nearly five times as long as the bytes.
LONG_ACE = b"02df1000ff010ff00100ffffffffffff"
LONG_ACL = b"0200f8ffff0f0000" + LONG_ACE * 4095
BOTH_LONG = b"01001480000000000000000014000000" + (20 + 65_528).to_bytes(4, "little").hex().encode() + LONG_ACL * 2
BASE64_BOTH_LONG = base64.b64encode(bytes.fromhex(BOTH_LONG.decode()))
LONG_SDDL = b"D:" + b"(AU;OICINPIOIDSAFA;CCDCLCSWRPWPDTLOCRSDRCWDWOGAGXGWGR;;;S-1-0xffffffffffff)" * 4095
MANY_HEX = (WITH_DACL + b"\n" + b"zz\n" * 20 + OWNER + b"\n") * 150
SHORT_BASE64 = BASE64_OWNER + b"\nAQ\n\n" + BASE64_NO_PARTS + b"\r\n" + BASE64_OWNER
MANY_BASE64 = (BASE64_OWNER + b"\n" + b"AQ==\n" * 20) * 150
MANY_SDDL = b"O:BAG:SYD:P(A;;FA;;;WD)(A;;FR;;;SY)\nO:ZZ\n" * 600


class Job(NamedTuple):
    words: list
    data: bytes
    piece: int = 0  # the most bytes that a read gives; 0: as many as are asked for
    takes: int = 0  # the most bytes that a write takes


HEX, SDDL = ["convert", "--to", "hex"], ["convert"]
SDDL_TO_HEX, SDDL_TO_SDDL = ["convert", "--from", "sddl", "--to", "hex"], ["convert", "--from", "sddl"]
EXPLAIN, EXPLAIN_SDDL = ["explain"], ["explain", "--from", "sddl"]
TO_BASE64, FROM_BASE64 = ["convert", "--to", "base64"], ["convert", "--from", "base64"]
CHECK = ["check", "--token", "WD,!SY", "--maximum"]
DERIVE = ["derive", "--kind", "container", "--owner", "BA", "--group", "SY"]
CHECK_AT_LEVEL = ["check", "--token", "WD,!SY", "--maximum", "--level", "4096"]
DERIVE_WITH_CREATOR = [*DERIVE, "--creator", "O:WDD:(A;OICI;GA;;;CO)(A;;FR;;;BU)S:P(ML;;NW;;;HI)"]
DERIVE_SDDL_TO_HEX = [*DERIVE, "--from", "sddl", "--to", "hex"]
SHORT_JOBS = [Job(HEX, SHORT_HEX, 1), Job(SDDL, SHORT_HEX, 1), Job(SDDL_TO_SDDL, SHORT_SDDL, 1),
              Job(SDDL_TO_HEX, SHORT_SDDL, 1), Job(EXPLAIN, SHORT_HEX, 1), Job(CHECK, SHORT_HEX, 1),
              Job(CHECK_AT_LEVEL, SHORT_HEX, 1), Job(DERIVE, SHORT_HEX, 1), Job(DERIVE_WITH_CREATOR, SHORT_HEX, 1),
              Job(TO_BASE64, SHORT_HEX, 1), Job(FROM_BASE64, SHORT_BASE64, 1),
              Job(HEX, TWO_LINES, 1, 1)]
LARGE_JOBS = [Job(HEX, MANY_HEX), Job(SDDL, MANY_HEX), Job(SDDL_TO_SDDL, MANY_SDDL), Job(SDDL_TO_HEX, MANY_SDDL),
              Job(SDDL, SHORT_HEX + b"\n" + BOTH_LONG + b"\n" + SHORT_HEX), Job(EXPLAIN, MANY_HEX),
              Job(EXPLAIN, SHORT_HEX + b"\n" + BOTH_LONG + b"\n" + SHORT_HEX),
              Job(SDDL_TO_HEX, SHORT_SDDL + b"\n" + LONG_SDDL + b"\n" + SHORT_SDDL), Job(DERIVE, MANY_HEX),
              Job(DERIVE_SDDL_TO_HEX, SHORT_SDDL + b"\n" + LONG_SDDL + b"\n" + SHORT_SDDL),
              Job(CHECK_AT_LEVEL, MANY_HEX), Job(DERIVE_WITH_CREATOR, MANY_HEX),
              Job(TO_BASE64, SHORT_HEX + b"\n" + BOTH_LONG + b"\n" + SHORT_HEX), Job(FROM_BASE64, MANY_BASE64)]
# Pieces in which several lines end, an input that is one piece, and writes that take a few bytes.
CUT_JOBS = [*(Job(HEX, SHORT_HEX, piece) for piece in (7, 50, 0)),
            *(Job(SDDL_TO_SDDL, SHORT_SDDL, piece) for piece in (3, 0)), Job(EXPLAIN_SDDL, SHORT_SDDL, 3),
            Job(DERIVE_SDDL_TO_HEX, SHORT_SDDL, 3), Job([*DERIVE_WITH_CREATOR, "--from", "sddl"], SHORT_SDDL, 3),
            Job(HEX, SHORT_HEX, 0, 4), Job(SDDL, SHORT_HEX, 5, 2), Job(SDDL_TO_SDDL, SHORT_SDDL, 0, 1),
            Job(HEX, MANY_HEX, 0, 3000), Job(EXPLAIN, SHORT_HEX, 0, 7),
            Job(FROM_BASE64, SHORT_BASE64, 5), Job(TO_BASE64, SHORT_HEX, 0, 3)]
HELP = [["--help"], ["help"], ["convert", "--help"], ["help", "convert"], ["explain", "--help"], ["derive", "--help"]]


class Ended(NamedTuple):
    status: object  # or "too slow"
    stdout: bytes
    stderr: bytes
    events: list  # of preload.Event

    def __str__(self):
        told = " ".join(f"{letter}{moved}" for letter, moved in self.events[-12:])
        return f"status {self.status}, stdout {short(self.stdout)}, stderr {self.stderr[:80]}, calls .. {told}"

    def letters(self):
        return "".join(letter for letter, _ in self.events)


def short(data):
    return f"{data[:60]}" if len(data) <= 60 else f"{data[:60]}.. ({len(data)} bytes)"


class Runner:
    """Runs the program over the library."""

    def __init__(self, program, library):
        self.program, self.library = program, library

    def run(self, words, data, output=None, **settings):
        """How it ended; with an output, its path."""
        with tempfile.TemporaryFile() as given, tempfile.TemporaryFile() as told, \
                (open(output, "wb") if output else tempfile.TemporaryFile()) as written:
            given.write(data)
            given.seek(0)
            environment = {**os.environ, "LD_PRELOAD": self.library, "FAULT_TELL": str(told.fileno())}
            environment.update({f"FAULT_{name.upper()}": str(value) for name, value in settings.items()})
            child = subprocess.Popen([self.program, *words], stdin=given, stdout=written, stderr=subprocess.PIPE,
                                     env=environment, pass_fds=[told.fileno()])
            try:
                _, stderr = child.communicate(timeout=SECONDS)
                status = child.returncode
            except subprocess.TimeoutExpired:
                child.kill()
                _, stderr = child.communicate()
                status = "too slow"
            written.seek(0)
            return Ended(status, b"" if output else written.read(), stderr, preload.events_in(told))

    def answer(self, job, output=None, **settings):
        return self.run(job.words, job.data, output, piece=job.piece, takes=job.takes, **settings)


class Answers:
    """What has to come of a job's input."""

    def __init__(self, job):
        settings = reference.settings_of([word.encode() for word in job.words])
        answers, self.status = reference.answers(reference.all_shown(job.data, settings), settings)
        self.of_line = [answer + b"\n" for answer in answers]
        self.all = b"".join(self.of_line)
        # After so many bytes of the input, so many bytes of the answers are known.
        self.ends = [found.end() for found in re.finditer(b"\n", job.data)]
        self.sizes = [0]
        for answer in self.of_line:
            self.sizes.append(self.sizes[-1] + len(answer))

    def known(self, got):
        """The size of the answers to the lines that end in so many bytes of the input."""
        return self.sizes[sum(end <= got for end in self.ends)]


def is_prompt(events, answers):
    """Whether, wherever the program read, the answers to all lines that had ended were out."""
    got = written = 0
    for letter, moved in events:
        if letter in "rR" and written != answers.known(got):
            return False
        got += moved if letter == "r" else 0
        written += moved if letter == "w" else 0
    return True


def moved(events, letter):
    return sum(event.moved for event in events if event.letter == letter)


def is_read_fault(ended, answers):
    """Whether the run ended as one in which a read failed has to."""
    done, _, rest = ended.letters().partition("R")
    wanted = answers.all[:answers.known(moved(ended.events, "r"))]
    return ended[:3] == (3, wanted, SAYS_READ) and set(done) <= set("rw") and rest == "v" \
        and is_prompt(ended.events, answers)


def is_write_fault(ended, answers):
    """Whether the run ended as one in which a write failed has to."""
    done, _, rest = ended.letters().partition("W")
    wanted = answers.all[:moved(ended.events, "w")]
    return ended[:3] == (3, wanted, SAYS_WRITE) and set(done) <= set("rw") and rest == "v" \
        and is_prompt(ended.events, answers)


def is_plain(ended, answers):
    """Whether the run ended as one without a fault has to; its end is read once."""
    *reads, last = (event.moved for event in ended.events if event.letter == "r")
    return ended[:3] == (answers.status, answers.all, b"") and set(ended.letters()) == set("rw") \
        and last == 0 and all(reads) and is_prompt(ended.events, answers)


def is_interrupted(ended, answers):
    """Whether the output came whole in spite of interrupted writes, each of which was tried again before a read."""
    again = re.sub("W+w", "w", ended.letters())
    return ended[:3] == (answers.status, answers.all, b"") and set(again) == set("rw")


def places(calls):
    """The calls that fail in turn."""
    return [at for at in range(1, calls + 1) if at <= FIRST_CALLS or at > calls - LAST_CALLS]


def faults_of(plain, errors):
    """The faults that a job is run under: what judges it, and the library's settings. The first and the last calls fail
    in every way, the others by these errors."""
    reads, writes = (plain.letters().count(letter) for letter in "rw")
    for fd, calls, judge, kinds in ((0, reads, is_read_fault, READ_FAULTS), (1, writes, is_write_fault, WRITE_FAULTS)):
        for at, error in itertools.product(places(calls), kinds):
            is_an_end = at <= 2 or at >= calls - 1
            if is_an_end or error in errors:
                yield judge, {"fd": fd, "at": at, "times": ONCE, "error": error}
            if is_an_end or error == errno.EIO:
                yield judge, {"fd": fd, "at": at, "times": FOR_GOOD, "error": error}
    for at, times in itertools.product(places(writes), (ONCE, 3)):
        yield is_interrupted, {"fd": 1, "at": at, "times": times, "error": errno.EINTR}


def shown(job, settings):
    stream = {0: "read", 1: "write"}[settings["fd"]]
    times = {ONCE: "once", FOR_GOOD: "for good"}.get(settings["times"], f"{settings['times']} times")
    error = errno.errorcode.get(settings["error"], "nothing taken")
    return f"sdtool {' '.join(job.words)}, pieces of {job.piece}, writes of {job.takes}, " \
           f"{stream} {settings['at']} fails {times} ({error})"


def judge_jobs(count, runner, pool):
    """Each read and each write of each job in turn."""
    for job in (*SHORT_JOBS, *CUT_JOBS, *LARGE_JOBS):
        answers, plain = Answers(job), runner.answer(job)
        words = " ".join(["sdtool", *job.words])
        count.add(is_plain(plain, answers), f"{words}, no fault: {plain}")
        tried = list(faults_of(plain, IN_SHORT_JOBS if job in SHORT_JOBS else IN_OTHERS))
        for (judge, settings), ended in zip(tried, pool.map(lambda one: runner.answer(job, **one[1]), tried)):
            count.add(judge(ended, answers), f"{shown(job, settings)}: {ended}")
        reads, writes = (plain.letters().count(letter) for letter in "rw")
        print(f"{words}, {len(job.data)} bytes in pieces of {job.piece or PIECE}: {reads} reads, {writes} writes, "
              f"{len(tried)} faults")


def judge_both(count, runner):
    """A read fails whose answers before it could not go out: that is a failed write, and the read is not made."""
    for job in SHORT_JOBS:
        answers, first = Answers(job), job.data.index(b"\n") + 1
        for at in (1, first, first + 1, first + 2, len(job.data)):
            ended = runner.answer(job, output="/dev/full", fd=0, at=at, times=FOR_GOOD)
            says, last = (SAYS_READ, "Rv") if at <= first else (SAYS_WRITE, "wv")
            # (the failed write is the device's, of which the library tells as of one that moved nothing)
            calls = "r" * min(at - 1, first) + last
            count.add(ended[:3] == (3, b"", says) and ended.letters() == calls and answers.known(first) > 0,
                      f"sdtool {' '.join(job.words)} > /dev/full, read {at} fails: {ended}")


def judge_help(count, runner):
    """Help whose writes fail is help that was shown: status 0."""
    for words in HELP:
        plain = runner.run(words, b"", takes=100)
        letters = plain.letters()
        count.add(plain.status == 0 and plain.stdout and not plain.stderr and set(letters) == {"w"},
                  f"sdtool {' '.join(words)}: {plain}")
        for at in range(1, len(letters) + 1):
            for error in WRITE_FAULTS:
                for times in (ONCE, FOR_GOOD):
                    ended = runner.run(words, b"", takes=100, fd=1, at=at, times=times, error=error)
                    wanted = plain.stdout[:100 * (at - 1)]
                    is_right = ended[:3] == (0, wanted, b"") and ended.letters() == "w" * (at - 1) + "W"
                    count.add(is_right, f"sdtool {' '.join(words)}, write {at} fails: {ended}")


def judge_faults(count, runner):
    """A fault stream that fails changes no status, and nothing is read or written instead."""
    for words, output, status, calls in (([], None, 2, "V"), (["convert", "--to", "xml"], None, 2, "V"),
                                         (["convert"], "/dev/full", 3, "rwV")):
        for error in WRITE_FAULTS:
            ended = runner.run(words, SHORT_HEX, output, fd=2, at=1, times=FOR_GOOD, error=error)
            count.add(ended[:3] == (status, b"", b"") and ended.letters() == calls,
                      f"sdtool {' '.join(words)}, the write of the fault fails: {ended}")


def judge_many(count, runner):
    """More than a million reads and writes, none of which fails; and then one that does."""
    data = b"\n" * (MANY + 10)
    for settings, status, wanted, says in (({}, 0, data, b""),
                                           ({"fd": 0, "at": MANY + 5}, 3, data[:MANY + 4], SAYS_READ),
                                           ({"fd": 1, "at": MANY + 5}, 3, data[:MANY + 4], SAYS_WRITE)):
        ended = runner.run(["convert"], data, piece=1, times=FOR_GOOD, **settings)
        count.add(ended[:3] == (status, wanted, says), f"a million lines, {settings}: {ended}")


def main(count: preload.Count, given: preload.Given) -> None:
    program = given.program
    with tempfile.TemporaryDirectory() as folder, concurrent.futures.ThreadPoolExecutor(os.cpu_count()) as pool:
        runner = Runner(program, preload.build("faults.c", folder))
        judge_jobs(count, runner, pool)
        judge_both(count, runner)
        judge_help(count, runner)
        judge_faults(count, runner)
        judge_many(count, runner)
