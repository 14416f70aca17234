"""Tests how sdtool-audit ends when it is stopped. It ends at once, with its status, without a file that looks whole,
and with all of its processes. A signal, a kill or the loss of a process ends it. The library waits.c has signals come
between Python's look for them and each call that waits. It needs what tests/audit/audit.py needs, and is skipped
without it.
"""
import bz2
import contextlib
import gzip
import lzma
import os
import pathlib
import pty
import random
import re
import signal
import subprocess
import termios
import threading
import time
from typing import List, Optional, Tuple

import audit
import audit_package
import preload
from audit import DOMAIN, SECONDS, Place

LATEST = 60  # seconds in which a run ends, or does something where the machine is busy; one that waits does nothing
LOOKS = 10   # for so many times LATEST a run may go on
NOTE = f"{audit.EVERY_DOMAIN}\n"
INTERRUPTED = "sdtool-audit: interrupted, so the report isn't whole\n"
LOST_WORKER = "sdtool-audit: the report isn't whole: a process that answers was ended from outside\n"
MAY_WRITE = "out.csv:new.csv:kept.db:fix.csv:pipe"
BEFORE = "the report before\n"


def listens(process: int) -> bool:
    """Whether a process handles TERM itself, which Python leaves to the system."""
    with contextlib.suppress(OSError):
        caught = re.search(r"^SigCgt:\s*([0-9a-f]+)", pathlib.Path(f"/proc/{process}/status").read_text(), re.M)
        return caught is not None and bool(int(caught[1], 16) >> (signal.SIGTERM - 1) & 1)
    return False


def when_read(path: pathlib.Path, run: "subprocess.Popen[str]") -> Optional[int]:
    """An end of a pipe to write to, once a run reads it; None if the run ends before."""
    while run.poll() is None:
        with contextlib.suppress(OSError):  # as long as nobody reads
            end = os.open(path, os.O_WRONLY | os.O_NONBLOCK)
            os.set_blocking(end, True)
            return end
        time.sleep(0.01)
    return None


def feed(end: int, data: bytes) -> None:
    with contextlib.suppress(BrokenPipeError), open(end, "wb") as file:
        file.write(data)


def test_signals(place: Place) -> None:
    """Ctrl-C and TERM: one sentence, status 3, and no file that looks whole. Each signal comes once so many bytes were
    read."""
    long = place.table(((f"C:\\folder {at // 100}\\file {at}", f"O:BAD:(A;;FA;;;{DOMAIN}-{1000 + at})")
                        for at in range(120_000)), "long.csv")
    data = (place.folder / long).read_bytes()
    pipe = place.folder / "pipe"
    os.mkfifo(pipe)
    place.write("out.csv", "the report before\n")
    cases = [(["risks", "pipe", "--to", "csv", "--out", "out.csv"], signal.SIGINT, 0),
             (["risks", "pipe", "--to", "csv", "--out", "out.csv"], signal.SIGTERM, 1 << 19),
             (["risks", "pipe", "--into", "kept.db", "--out", "new.csv"], signal.SIGTERM, 1 << 21),
             (["risks", "pipe", "--out", "new.csv"], signal.SIGINT, 1 << 16),
             (["inherit", "pipe", "--fix", "fix.csv", "--into", "kept.db", "--out", "new.csv"], signal.SIGINT, 1 << 22),
             (["diff", long, "pipe", "--to", "jsonl", "--out", "new.csv"], signal.SIGHUP, 1 << 20),
             (["risks", "pipe", "--to", "html", "--jobs", "1"], signal.SIGTERM, len(data))]
    for words, one, count in cases:
        child = subprocess.Popen([place.python, "-m", "sdtool.audit", *words], cwd=place.folder,
                                 stdin=subprocess.DEVNULL,
                                 env={**place.environment, "SDTOOL_AUDIT_MAY_WRITE": "out.csv:new.csv:kept.db:fix.csv"},
                                 stdout=subprocess.DEVNULL, stderr=subprocess.PIPE, text=True, start_new_session=True)
        end = when_read(pipe, child)
        # The whole group has it, as from a terminal. Before the program listens, the system ends it.
        while child.poll() is None and not listens(child.pid):
            time.sleep(0.01)
        if end is not None:
            feed(os.dup(end), data[:count])  # ends when all but what a pipe holds was read
        is_running = child.poll() is None
        with contextlib.suppress(ProcessLookupError):
            os.killpg(child.pid, one)
        try:
            stderr = child.communicate(timeout=SECONDS)[1]
        except subprocess.TimeoutExpired:
            os.killpg(child.pid, signal.SIGKILL)
            place.count.add(False, f"{words} doesn't end after {one}")
            continue
        finally:
            if end is not None:
                os.close(end)
        place.expect((is_running, child.returncode, stderr.replace(NOTE, "")),
                     (True, 3, "sdtool-audit: interrupted, so the report isn't whole\n"),
                     f"{words} after {one}: {stderr}")
    kill_worker(place, pipe, data)
    left = {path.name for path in place.folder.iterdir()} - {"hooks", "long.csv", "pipe", "out.csv"}
    place.expect((left, (place.folder / "out.csv").read_text()), (set(), "the report before\n"),
                 "files of runs that were interrupted")


def kill_worker(place: Place, pipe: pathlib.Path, data: bytes) -> None:
    """A worker that is killed, as where memory is short. The run can't end before: it has the rest of its source after
    that."""
    child = subprocess.Popen([place.python, "-m", "sdtool.audit", "risks", "pipe", "--to", "csv", "--jobs", "2",
                              "--out", "new.csv"],
                             cwd=place.folder, env={**place.environment, "SDTOOL_AUDIT_MAY_WRITE": "new.csv"},
                             stdin=subprocess.DEVNULL, stdout=subprocess.DEVNULL, stderr=subprocess.PIPE, text=True)
    children = pathlib.Path(f"/proc/{child.pid}/task/{child.pid}/children")
    end = when_read(pipe, child)
    if end is None or not children.exists():
        os.kill(child.pid, signal.SIGKILL)
        place.count.add(end is not None, f"a run that doesn't read its source: {child.communicate()[1]}")
        print("skipped: this system doesn't tell the workers of a run")
        return
    feeder = threading.Thread(target=feed, args=(os.dup(end), data[:len(data) // 2]))
    feeder.start()
    workers: list = []
    while child.poll() is None and len(workers) < 2:
        workers = children.read_text().split()
        time.sleep(0.05)
    for worker in workers[:1]:
        os.kill(int(worker), signal.SIGKILL)
    feeder.join()
    feed(end, data[len(data) // 2:])
    stderr = child.communicate(timeout=SECONDS)[1].replace(NOTE, "")
    place.expect((child.returncode, stderr),
                 (3, "sdtool-audit: the report isn't whole: a process that answers was ended from outside\n"),
                 f"a worker that was killed: {stderr}")


def long_list(place: Place) -> bytes:
    """A list that workers answer, whose descriptors all differ; and beside it a short one, a pipe and a report from
    before."""
    long = place.table(((f"C:\\folder {at // 100}\\file {at}", f"O:BAD:(A;;FA;;;{DOMAIN}-{1000 + at})")
                        for at in range(120_000)), "long.csv")
    place.table([("a", "O:BAD:(A;;FA;;;WD)")], "short.csv")
    os.mkfifo(place.folder / "pipe")
    place.write("out.csv", BEFORE)
    return (place.folder / long).read_bytes()


def start(place: Place, words: str, **more) -> "subprocess.Popen[str]":
    """A run in a session of its own. What is no stream is for its environment."""
    streams = {"stdin": subprocess.DEVNULL, "stdout": subprocess.PIPE, "stderr": subprocess.PIPE,
               **{name: more.pop(name) for name in ("stdin", "stdout", "stderr") if name in more}}
    return subprocess.Popen([place.python, *more.pop("program", ("-m", "sdtool.audit")), *words.split()],
                            cwd=place.folder, text=True, start_new_session=True,
                            env={**place.environment, "SDTOOL_AUDIT_MAY_WRITE": MAY_WRITE, **more}, **streams)


def time_of(session: int) -> int:
    """How long the processes of a session have used a processor, in its own unit."""
    used = 0
    for path in pathlib.Path("/proc").glob("[0-9]*/stat"):
        with contextlib.suppress(OSError):
            fields = path.read_text().rpartition(")")[2].split()
            used += int(fields[11]) + int(fields[12]) if int(fields[3]) == session else 0
    return used


def ended(place: Place, run: "subprocess.Popen[str]", what: str) -> Optional[Tuple[int, str]]:
    """The status and the words of a run, once nothing of it has its pipes; None if it waits without an end."""
    used = -1
    try:
        for _ in range(LOOKS):
            with contextlib.suppress(subprocess.TimeoutExpired):
                told = run.communicate(timeout=LATEST)[1] or ""
                return run.returncode, told.replace(NOTE, "")
            before, used = used, time_of(run.pid)
            if used == before:
                break
        place.count.add(False, f"{what}: the run, or a process of it, doesn't end")
        return None
    finally:
        with contextlib.suppress(ProcessLookupError):
            os.killpg(run.pid, signal.SIGKILL)
        run.wait()


def expect_interrupted(place: Place, run: "subprocess.Popen[str]", what: str) -> None:
    got = ended(place, run, what)
    if got is not None:
        place.expect(got, (3, INTERRUPTED if run.stderr else ""), what)
    left = {path.name for path in place.folder.iterdir()} - {"hooks", "long.csv", "short.csv", "pipe", "out.csv",
                                                             "waits.so", "spawned.py", "windows.py"}
    place.expect((left, (place.folder / "out.csv").read_text()), (set(), BEFORE),
                 f"files of an interrupted run: {what}")


class Waiting:
    """A run under waits.c."""

    def __init__(self, place: Place, words: str, calls: str, is_held: bool = True, **more) -> None:
        self.held = place.folder / "held"
        if is_held:
            self.held.touch()
        self.run = start(place, words, LD_PRELOAD=str(place.folder / "waits.so"), HOLD_CALLS=calls,
                         HOLD_FILE=str(self.held), **more)

    def interrupt(self, place: Place, one: int) -> bool:
        """Sends a signal once a call is held. Whether one was."""
        until = time.monotonic() + SECONDS
        while self.held.exists() and self.run.poll() is None and time.monotonic() < until:
            time.sleep(0.005)
        is_held = not self.held.exists()
        self.held.unlink(missing_ok=True)
        with contextlib.suppress(ProcessLookupError):
            self.run.send_signal(one)
        return is_held


def test_lost_while_reading(place: Place) -> None:
    """A signal just before a source is read: a list, an archive, the second list or names, from a pipe."""
    preload.build("waits.c", place.folder)
    data = long_list(place)
    begun, more = data[:1 << 17], data[:1 << 22]
    rows = [("risks pipe --to csv --out out.csv --jobs 1", b""), ("risks pipe --to csv --out out.csv --jobs 2", b""),
            ("risks pipe --to csv --out out.csv --jobs 1", begun), ("risks pipe --to csv --out out.csv --jobs 2", more),
            ("risks pipe --into kept.db --jobs 2", begun), ("diff long.csv pipe --to jsonl --out new.csv", begun),
            ("inherit pipe --fix fix.csv --out new.csv --jobs 1", begun), ("show pipe --out new.csv", begun),
            ("risks pipe --jobs 1", gzip.compress(begun)[:-100]), ("risks pipe --jobs 2", bz2.compress(more)[:-100]),
            ("who change pipe", lzma.compress(begun)[:-100]), ("risks pipe", audit.zipped(begun, "a.csv")[:-100]),
            ("risks short.csv --sid-names pipe", b"S-1-1-0,Everybody\n")]
    for at, (words, given) in enumerate(rows):
        waiting = Waiting(place, words, "read")
        end = when_read(place.folder / "pipe", waiting.run)
        if end is not None and given:
            threading.Thread(target=feed, args=(os.dup(end), given), daemon=True).start()
        is_held = waiting.interrupt(place, (signal.SIGTERM, signal.SIGINT, signal.SIGHUP)[at % 3])
        place.expect(is_held, True, f"{words}: a read that waits")
        expect_interrupted(place, waiting.run, f"{words}, a read")
        if end is not None:
            os.close(end)
    place.write("windows.py", audit_package.WINDOWS)
    waiting = Waiting(place, "risks pipe --out new.csv --into kept.db", "read", program=("windows.py",))
    end = when_read(place.folder / "pipe", waiting.run)
    if end is not None:
        feed(os.dup(end), begun)
    place.expect(waiting.interrupt(place, signal.SIGTERM), True, "a read that waits on Windows")
    expect_interrupted(place, waiting.run, "a read on Windows")
    if end is not None:
        os.close(end)
    for words in ("risks --out new.csv --jobs 1", "show -"):
        reading, writing = os.pipe()
        waiting = Waiting(place, words, "read", stdin=reading)
        os.write(writing, begun[:5000])
        place.expect(waiting.interrupt(place, signal.SIGTERM), True, f"{words}: a read of standard input that waits")
        expect_interrupted(place, waiting.run, f"{words}, standard input")
        os.close(reading)
        os.close(writing)


def test_lost_while_opening(place: Place) -> None:
    """A signal just before a pipe is opened whose other end nobody has."""
    preload.build("waits.c", place.folder)
    long_list(place)
    for words in ("risks pipe --out new.csv --jobs 1", "risks long.csv --to csv --out pipe --jobs 2"):
        waiting = Waiting(place, words, "open", HOLD_OPEN="pipe")
        place.expect(waiting.interrupt(place, signal.SIGTERM), True, f"{words}: an open that waits")
        expect_interrupted(place, waiting.run, f"{words}, an open")


def test_lost_while_writing(place: Place) -> None:
    """A signal just before a write to a pipe that is full."""
    preload.build("waits.c", place.folder)
    long_list(place)
    for words, stream in (("risks long.csv --to csv --jobs 1", "stdout"),
                          ("risks long.csv --to csv --jobs 2", "stdout"),
                          ("risks long.csv --to html --jobs 2 --list all", "stdout"), ("show long.csv", "stdout"),
                          ("inherit long.csv --to jsonl", "stdout"), ("risks short.csv --to csv", "stderr")):
        reading, writing = os.pipe()
        if stream == "stderr":
            os.set_blocking(writing, False)
            with contextlib.suppress(BlockingIOError):
                while True:
                    os.write(writing, bytes(1 << 16))
            os.set_blocking(writing, True)
        waiting = Waiting(place, words, "write", **{stream: writing})
        os.close(writing)
        place.expect(waiting.interrupt(place, signal.SIGTERM), True, f"{words}: a write that waits")
        expect_interrupted(place, waiting.run, f"{words}, a write to {stream}")
        os.close(reading)
    waiting = Waiting(place, "risks long.csv --to csv --out pipe", "write")
    reading = os.open(place.folder / "pipe", os.O_RDONLY)
    place.expect(waiting.interrupt(place, signal.SIGTERM), True, "--out pipe: a write that waits")
    expect_interrupted(place, waiting.run, "--out pipe, a write")
    os.close(reading)


def workers_of(run: "subprocess.Popen[str]", count: int) -> List[int]:
    """The processes of a run, once there are so many; fewer if it ends before."""
    children = pathlib.Path(f"/proc/{run.pid}/task/{run.pid}/children")
    found: List[str] = []
    until = time.monotonic() + LOOKS * LATEST
    while len(found) < count and run.poll() is None and time.monotonic() < until:
        with contextlib.suppress(OSError):
            found = children.read_text().split()
        time.sleep(0.01)
    return [int(one) for one in found]


def test_lost_while_waiting_for_workers(place: Place) -> None:
    """A signal just before a run waits for its workers, which are stopped. None of them is left."""
    preload.build("waits.c", place.folder)
    data = long_list(place)
    for words in ("risks pipe --to csv --out out.csv --jobs 2",
                  "who change pipe --out new.csv --jobs 2 --into kept.db"):
        waiting = Waiting(place, words, "lock", is_held=False)
        end = when_read(place.folder / "pipe", waiting.run)
        if end is None:
            place.count.add(False, f"{words}: the run doesn't read its source")
            continue
        threading.Thread(target=feed, args=(os.dup(end), data * 4), daemon=True).start()
        workers = workers_of(waiting.run, 2)
        for worker in workers:
            os.kill(worker, signal.SIGSTOP)
        waiting.held.touch()
        place.expect((waiting.interrupt(place, signal.SIGTERM), len(workers)), (True, 2), f"{words}: a lock that waits")
        expect_interrupted(place, waiting.run, f"{words}, workers that are stopped")
        os.close(end)


def test_last_words(place: Place) -> None:
    """The run's own thread goes on as soon as its workers are ended, while the other thread still says why."""
    place.write("slow.py", """import io, os, signal, sys, threading, time
from sdtool.audit import stopping
class Slow(io.TextIOWrapper):
    def write(self, text):
        size = super().write(text)
        time.sleep(0.3)
        return size
sys.stderr = Slow(sys.stderr.detach(), line_buffering=True)
ended = threading.Event()
stopping.before_end.append(ended.set)
def work():
    os.kill(os.getpid(), signal.SIGTERM)
    ended.wait()
def waits():
    try:
        work()
    except stopping.Stopped:
        ended.wait()
        raise
stopping.run(waits)
""")
    got = ended(place, start(place, "", program=("slow.py",)), "the last words")
    place.expect(got, (3, INTERRUPTED), "the last words, while the run ends")


def test_lost_at_a_terminal(place: Place) -> None:
    """A signal just before a run waits for its terminal, whose flow is stopped."""
    preload.build("waits.c", place.folder)
    data = long_list(place)
    for jobs in ("1", "2"):
        leader, follower = pty.openpty()
        words = f"risks pipe --jobs {jobs} --out new.csv"
        waiting = Waiting(place, words, "lock,write", is_held=False, stderr=follower)
        end = when_read(place.folder / "pipe", waiting.run)
        if end is None:
            place.count.add(False, f"{words}: the run doesn't read its source")
            continue
        termios.tcflow(follower, termios.TCOOFF)
        waiting.held.touch()
        feed(end, data[:1 << 20])  # at the end of its source the run clears its bar
        place.expect(waiting.interrupt(place, signal.SIGTERM), True, f"{words}: a terminal that waits")
        expect_interrupted(place, waiting.run, f"{words}, a terminal")
        os.close(leader)
        os.close(follower)


def test_two_signals(place: Place) -> None:
    """Two signals at once, at any time of a run."""
    data = long_list(place)
    chance = random.Random(7)
    for at in range(8):
        words = f"risks pipe --to csv --out new.csv --jobs {1 + at % 3}"
        run = start(place, words)
        end = when_read(place.folder / "pipe", run)
        if end is not None:
            feed(os.dup(end), data[:chance.randrange(1 << 22)])
        for one in chance.sample((signal.SIGINT, signal.SIGTERM, signal.SIGHUP), 2):
            with contextlib.suppress(ProcessLookupError):
                run.send_signal(one)
        expect_interrupted(place, run, f"{words}, two signals")
        if end is not None:
            os.close(end)


def test_killed(place: Place) -> None:
    """A run that is killed, at any time: its workers end, forked or begun anew, and nobody has its pipes."""
    place.write("spawned.py", audit_package.WITHOUT)
    data = long_list(place)
    chance = random.Random(11)
    for at in range(12):
        words, is_spawned = "risks pipe --to csv --jobs 3", at % 3 == 2
        run = start(place, words, **({"program": ("spawned.py",)} if is_spawned else {}))
        reader = threading.Thread(target=run.communicate)
        reader.start()
        end = when_read(place.folder / "pipe", run)
        if end is not None:
            threading.Thread(target=feed, args=(os.dup(end), data * 2), daemon=True).start()
        workers = workers_of(run, chance.randrange(4))
        time.sleep(chance.random() / 4)
        run.kill()
        reader.join(LOOKS * LATEST)
        place.expect((run.returncode, reader.is_alive()), (-signal.SIGKILL, False),
                     f"killed with {len(workers)} workers{', spawned' if is_spawned else ''}: nobody has the pipes "
                     "of the run")
        with contextlib.suppress(ProcessLookupError):
            os.killpg(run.pid, signal.SIGKILL)
        if end is not None:
            os.close(end)


def is_idle(process: int) -> bool:
    return pathlib.Path(f"/proc/{process}/stat").read_text().rpartition(")")[2].split()[0] == "S"


def test_killed_while_answering(place: Place) -> None:
    """Workers that are killed while they send what they have answered, which the run takes later."""
    data = long_list(place)
    for words in ("risks pipe --to csv --jobs 2 --out new.csv",
                  "who change pipe --to csv --jobs 2 --into kept.db --out new.csv"):
        run = start(place, words)
        end = when_read(place.folder / "pipe", run)
        if end is None:
            place.count.add(False, f"{words}: the run doesn't read its source")
            continue
        threading.Thread(target=feed, args=(os.dup(end), data * 4), daemon=True).start()
        workers = workers_of(run, 2)
        os.kill(run.pid, signal.SIGSTOP)
        quiet = 0
        while quiet < 30:
            quiet = quiet + 1 if all(map(is_idle, workers)) else 0
            time.sleep(0.01)
        for worker in workers:
            os.kill(worker, signal.SIGKILL)
        os.kill(run.pid, signal.SIGCONT)
        place.expect(ended(place, run, f"{words}, workers killed"), (3, LOST_WORKER), f"{words}, workers killed")
        os.close(end)


def test_without_a_listener(place: Place) -> None:
    """A run that can't listen to signals says so, and has no status that would mean an answer."""
    place.table([("a", "O:BAD:(A;;FA;;;WD)")], "short.csv")
    place.write("few.py", "import os\ndef pipe():\n    raise OSError(24, 'Too many open files')\nos.pipe = pipe\n" +
                audit_package.START)
    got = ended(place, start(place, "risks short.csv", program=("few.py",)), "a run without a pipe")
    place.expect(got, (3, "sdtool-audit: the report isn't whole: OSError: '[Errno 24] Too many open files'\n"),
                 "a run without a pipe")


TESTS = (test_signals, test_lost_while_reading, test_lost_while_opening, test_lost_while_writing,
         test_lost_while_waiting_for_workers, test_last_words, test_lost_at_a_terminal, test_two_signals, test_killed,
         test_killed_while_answering, test_without_a_listener)


def main(count: preload.Count) -> None:
    audit.run_tests(count, TESTS)
