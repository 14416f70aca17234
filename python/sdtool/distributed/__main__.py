"""The command line of runs on a Dask cluster, and what they report."""
import argparse
import contextlib
import io
import json
import logging
import os
import signal
import sys
import threading
import uuid
from typing import Any, Callable, List, NoReturn, Optional, TextIO, Tuple

import dask.config
import sdtool
from dask.system import CPU_COUNT
from distributed import CancelledError, Client
from distributed.comm import CommClosedError

from .bounded import Bounded, running_loop, within
from .engine import PATIENT_SECONDS, Engine, Job
from .inputs import Taking, opened
from .work import MODULES, RUN, UNFINISHED, Place, Work, entries, files_of, printable, shown_url

CLOSE_SECONDS = 5
LEAST_THREADS = 4  # without a cluster: a task that hangs keeps its thread, and others go on


def put(text: str, stream: Optional[TextIO]) -> None:
    """Writes what changes no status. A stream that is closed or full is passed over."""
    with contextlib.suppress(OSError, ValueError):
        if stream is not None:
            stream.write(text)
            stream.flush()


def say(what: object) -> None:
    put(f"sdtool.distributed: {printable(str(what))}\n", sys.stderr)


# The output.

def take_over(work: Work) -> None:
    """Makes this run the owner of the output, and removes what earlier ones have not finished.

    Of runs with other words that begin at once, one owns the output at most: a hard link gives the name of the record
    to one claim alone. Where there are no such links, or the record is torn, each looks for the claims of others. A run
    has its folder only when it has owned the output. So the folders that are there while this one owns it are its own
    and those of earlier runs, also where several begin at once."""
    place, fs, record = work.place, work.place.fs, f"{work.place.ours}/run.json"
    claim, told = f"{place.ours}/{uuid.uuid4().hex}", json.dumps({"run": work.run, "words": work.words}).encode()
    if place.renames:
        fs.makedirs(place.ours, exist_ok=True)
    try:
        fs.pipe_file(claim, told)
        if not (place.is_local and is_linked(claim, record) and place.owner()):
            for path, _ in files_of(fs, place.ours, UNFINISHED):
                if place.owner(path).get("words", work.words) != work.words:
                    raise ValueError(f"--out: a run with other words begins there: {shown_url(fs, path)}")
        require_words(place, work.words)
        if place.renames:
            place.move(claim, record)
            fs.makedirs(work.mine, exist_ok=True)
        else:
            fs.pipe_file(record, told)
    finally:
        with contextlib.suppress(FileNotFoundError):
            fs.rm_file(claim)
    folders = [each["name"].rstrip("/") for each in entries(fs, place.ours) if each["type"] == "directory"]
    work.require_ownership()
    for folder in [place.ours, *folders]:
        if folder == place.ours or RUN.fullmatch(os.path.basename(folder)) and folder != work.mine:
            remove_run(place, folder)


def is_linked(claim: str, record: str) -> bool:
    """Gives a claim the name of the record, unless another one has it. Gives whether the file system has links."""
    try:
        os.link(claim, record)
    except (FileExistsError, FileNotFoundError):  # which another run has removed, that owns the output
        pass
    except OSError:
        return False
    return True


def require_words(place: Place, words: List[str]) -> None:
    """Refuses an output that has answers to other words."""
    there = place.owner().get("words", words)
    if there != words:
        raise ValueError(f"--out: {shown_url(place.fs, place.root)} has answers of 'sdtool "
                         f"{' '.join(map(str, there))}'; give another folder")


def remove_run(place: Place, folder: str) -> None:
    """Removes the files that a run has not finished, and its folder, unless there is anything else in it."""
    if place.is_local and os.path.islink(folder):
        return
    for path, _ in list(files_of(place.fs, folder, UNFINISHED)):
        with contextlib.suppress(FileNotFoundError):
            place.fs.rm_file(path)
    with contextlib.suppress(Exception):  # object stores have no folders
        place.fs.rmdir(folder)


# The cluster.

def client_of(wanted: argparse.Namespace) -> Client:
    """A client of the scheduler, or of a cluster in this process. That one has no profiler: Python 3.11 may stop for
    good where two threads look at the frames of all, as Dask's profiler does."""
    own = {} if wanted.scheduler else {
        "n_workers": 1, "threads_per_worker": max(LEAST_THREADS, CPU_COUNT), "processes": False, "memory_limit": 0,
        "silence_logs": "error", "dashboard_address": "127.0.0.1:0", "worker_dashboard_address": "127.0.0.1:0",
        "scheduler_kwargs": {"worker_ttl": "1 day"}}
    with dask.config.set({"distributed.worker.profile.enabled": False}):
        return Client(wanted.scheduler, timeout=wanted.wait, set_as_default=False, loop=running_loop(), **own)


def drive(wanted: argparse.Namespace, work: Work, taking: Taking) -> List[Job]:
    """Answers the inputs. Each has then what came of it, or the reason why nothing did."""
    engine, client, reason = Engine(work, taking.inputs, wanted, say), None, ""
    logs = logging.root.manager.disable
    where = wanted.scheduler or "the one in this process"
    waiting = threading.Timer(PATIENT_SECONDS, say, [f"the scheduler does not answer: {where}"])
    try:
        within(wanted.wait, f"--out: {wanted.out}", take_over, work)
        waiting.start()
        logging.disable()  # of Dask: the run itself says what it ends for
        client = client_of(wanted)
        waiting.cancel()
        engine.run(client)
    except (CommClosedError, CancelledError):  # which may name all tasks
        reason = f"OSError: the scheduler is lost: {where}"
    except Exception as error:
        reason = f"{type(error).__name__}: {error}"
    finally:
        waiting.cancel()
        with contextlib.suppress(Exception):
            if client is not None:
                client.close(timeout=CLOSE_SECONDS)
        logging.disable(logs)
        with contextlib.suppress(Exception):
            within(wanted.wait, "the end", remove_run, work.place, work.mine)
    for job in engine.jobs:
        engine.close(job, reason)
    return engine.jobs


# The command line.

class Parser(argparse.ArgumentParser):
    def error(self, message: str) -> NoReturn:
        put(f"{self.format_usage()}{self.prog}: error: {message}\n", sys.stderr)
        sys.exit(2)


def at_least(least: float, most: float = 1e9) -> Callable[[str], float]:
    """Reads a number of the same type, for argparse."""
    def number(word: str) -> float:
        value = type(least)(word)
        if not least <= value <= most:  # nor nan
            raise ValueError
        return value
    return number


def wanted_of(words: List[str]) -> argparse.Namespace:
    parser = Parser(prog="python3 -m sdtool.distributed", allow_abbrev=False,
                    usage="%(prog)s [--scheduler ADDRESS] --out URL [..] COMMAND [OPTIONS] -- INPUT..")
    add = parser.add_argument
    add("--scheduler", metavar="ADDRESS", default=dask.config.get("scheduler-address", None),
        help="of Dask, as tcp://host:8786; without it and DASK_SCHEDULER_ADDRESS, a cluster in this process")
    add("--out", metavar="URL", required=True, help="the folder of the answers")
    add("--parts", action="store_true", help="leave the answers to an input in parts, in a folder of its name")
    add("--block", type=at_least(1, 1e18), default="64000000", metavar="BYTES",
        help="of an input in one task (%(default)s)")
    add("--wait", type=at_least(1e-9), default="60", metavar="SECONDS",
        help="for a scheduler, a worker, a file system and any progress (%(default)s)")
    add("--retries", type=at_least(0), default="3", metavar="N", help="of a task that fails (%(default)s)")
    add("--slowest", type=at_least(1e-9), default="500000", metavar="BYTES",
        help="a second: a task that is slower, behind its first 30 seconds, goes to another worker (%(default)s)")
    add("command", choices=("convert", "explain", "check", "derive"), help="and its options, for sdtool")
    add("options", nargs=argparse.REMAINDER, help=argparse.SUPPRESS)
    at = words.index("--") if "--" in words else len(words)
    wanted = parser.parse_args(words[:at])
    wanted.urls, wanted.words = words[at + 1:], [wanted.command, *wanted.options]
    if not wanted.urls:
        parser.error("inputs stand behind --")
    return wanted


def answered(wanted: argparse.Namespace) -> Tuple[List[Job], List[Tuple[str, str]]]:
    """Finds the inputs and answers them. Wrong words are a ValueError."""
    def in_output(call: Callable[..., Any], *arguments: Any) -> Any:
        return within(wanted.wait, f"--out: {wanted.out}", call, *arguments)

    place = Place(*in_output(opened, wanted.out))
    in_output(require_words, place, wanted.words)
    in_output(place.list_all)
    taking = Taking(place, wanted.parts, Bounded(wanted.wait))
    taking.take_all(wanted.urls)
    if not taking.inputs:
        return [], taking.refused
    work = in_output(Work, f"sdtool-{uuid.uuid4().hex}", wanted.words, sdtool._library.digest(), MODULES, wanted.out,
                     wanted.parts)
    with contextlib.redirect_stdout(sys.stderr):  # for what Dask prints
        return drive(wanted, work, taking), taking.refused


def shown(jobs: List[Job], refused: List[Tuple[str, str]]) -> int:
    """Shows what has no answers, whatever becomes of the counts, and then those. Gives the status, which does not pass
    over counts that cannot be printed."""
    came = [(job.given.url, job.came) for job in jobs if isinstance(job.came, dict)]
    for job in jobs:
        if not isinstance(job.came, dict):
            say(f"{job.given.url} has no answers: {job.came}")
    for url, reason in refused:
        say(f"{url} has no answers: it {reason}")
    if sys.stdout is None:
        say("standard output is closed, so the counts are not shown")
        return 3
    with contextlib.suppress(ValueError):  # in another thread than the first
        signal.signal(signal.SIGPIPE, signal.SIG_DFL)  # as programs do whose output is closed
    if isinstance(sys.stdout, io.TextIOWrapper):
        is_utf8 = sys.stdout.encoding.lower() in ("utf-8", "utf8")
        sys.stdout.reconfigure(errors="surrogateescape" if is_utf8 else "backslashreplace")  # for names of files
    try:
        for url, total in came:
            print(f"{total['lines']:15,} lines {total['errors']:15,} errors  {url}")
        sys.stdout.flush()
    except OSError as error:
        say(f"the counts cannot be printed: {error}")
        with contextlib.suppress(Exception):
            sys.stdout.close()
        return 3
    return 3 if refused or len(came) < len(jobs) else int(any(total["errors"] for _, total in came))


def main(words: List[str]) -> int:
    wanted = wanted_of(words)
    if not hasattr(os, "O_PATH"):  # nor /proc, by which a worker tells its library
        say("runs on many machines need Linux")
        return 2
    status, output, message = sdtool.run(wanted.words, b"")
    if status or output:  # wrong words, or help
        put(output.decode() or message, sys.stderr if status else sys.stdout)
        return status
    try:
        jobs, refused = answered(wanted)
    except (ValueError, ImportError) as error:
        say(error)
        return 2
    except Exception as error:  # which file systems have many of
        say(f"{type(error).__name__}: {error}")
        return 3
    except KeyboardInterrupt:
        say("interrupted; the same command goes on where this run ended")
        return 130
    return shown(jobs, refused)


if __name__ == "__main__":
    status = main(sys.argv[1:])
    with contextlib.suppress(Exception):
        sys.stdout.flush()
        sys.stderr.flush()
    os._exit(status)  # a task that hangs in this process would hold it
