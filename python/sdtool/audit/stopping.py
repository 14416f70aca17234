"""How a run ends before its time: by a signal, or where a standard stream is closed.

Python runs handlers of signals before and after a system call. A signal that comes between this check and the call
doesn't interrupt the call, which may wait for ever: for a source, a worker, a lock or a reader. So a run relies on no
call to be interrupted. A signal raises Stopped in the main thread, which tidies up. It is also written to a pipe, whose
reader is a thread that ends the program if the main thread doesn't end it in time.
"""
import contextlib
import errno
import io
import os
import signal
import stat
import sys
import threading
import time
from typing import Any, Callable, Iterator, List, Set

# Those that a terminal sends to all of its processes, and all that ask a program to end, as far as the system has them.
_OF_TERMINALS = tuple(getattr(signal, name) for name in ("SIGINT", "SIGBREAK") if hasattr(signal, name))
SIGNALS = (*_OF_TERMINALS, *(getattr(signal, name) for name in ("SIGTERM", "SIGHUP") if hasattr(signal, name)))
NOT_WHOLE = 3
_PATIENCE = 1.0  # seconds for the main thread to end, and then for the last words
_INTERRUPTED = "sdtool-audit: interrupted, so the report isn't whole"
unfinished: Set[str] = set()  # files that aren't whole
before_end: List[Callable[[], None]] = []  # what ends other things that a run has begun, the last first
_is_stopping = False  # whether Stopped was raised, or must not be
_words = threading.Lock()  # held by the thread that says that the run was interrupted
_is_said = False  # whether one of them has begun to


class Stopped(BaseException):
    """A signal asked the run to end. Nothing that handles an Exception takes it for a fault."""


def _stop(number: int, frame: Any) -> None:
    """Raises Stopped once: what tidies up is not interrupted."""
    global _is_stopping
    if not _is_stopping:
        _is_stopping = True
        raise Stopped


def _listen() -> None:
    """Lets signals end the run, but for those that the caller has this process ignore."""
    reading, writing = os.pipe()
    if hasattr(os, "set_blocking"):
        os.set_blocking(writing, False)
    threading.Thread(target=_end_in_time, args=(reading,), daemon=True).start()
    signal.set_wakeup_fd(writing, warn_on_full_buffer=False)
    for one in SIGNALS:
        if signal.getsignal(one) is not signal.SIG_IGN:
            signal.signal(one, _stop)


def _end_in_time(signals: int) -> None:
    """Ends what the main thread doesn't end in time after a signal."""
    os.read(signals, 1)
    time.sleep(_PATIENCE)
    try:
        last = threading.Thread(target=_end_the_rest, daemon=True)
        last.start()
        last.join(_PATIENCE)  # standard error may be a pipe that nobody reads
    finally:
        _exit(NOT_WHOLE)


def _end_the_rest() -> None:
    for act in reversed(before_end):
        with contextlib.suppress(Exception):
            act()
    _say_interrupted()


def _say_interrupted() -> None:
    """Says it once. The thread that comes second ends the program, so it waits until the words are out."""
    global _is_said
    if _words.acquire(timeout=_PATIENCE):
        try:
            if not _is_said:
                _is_said = True
                with contextlib.suppress(OSError, ValueError):
                    print(_INTERRUPTED, file=sys.stderr, flush=True)
        finally:
            _words.release()


def _exit(status: int) -> None:
    """Ends the program, and waits for no thread."""
    for path in list(unfinished):
        remove(path)
    os._exit(status)


def remove(path: str) -> None:
    """Removes a file that isn't whole, if it is there."""
    with contextlib.suppress(OSError):
        os.chmod(path, stat.S_IRUSR | stat.S_IWUSR)  # Windows removes no file that is read-only
    with contextlib.suppress(OSError):
        os.remove(path)
    unfinished.discard(path)


def close_early(close: Callable[[], None]) -> None:
    """Windows removes no file that is open, so an unfinished one is closed before the end."""
    if sys.platform == "win32":
        before_end.append(close)


def in_worker() -> None:
    """A worker leaves Ctrl-C, which reaches all processes of a terminal, to its parent."""
    signal.set_wakeup_fd(-1)
    for one in SIGNALS:
        signal.signal(one, signal.SIG_IGN if one in _OF_TERMINALS else signal.SIG_DFL)
    if hasattr(signal, "pthread_sigmask"):
        signal.pthread_sigmask(signal.SIG_UNBLOCK, SIGNALS)


@contextlib.contextmanager
def held_back() -> Iterator[None]:
    """Signals wait: a process that is about to start has the handlers of its parent."""
    if not hasattr(signal, "pthread_sigmask"):
        yield
        return
    before = signal.pthread_sigmask(signal.SIG_BLOCK, SIGNALS)
    try:
        yield
    finally:
        signal.pthread_sigmask(signal.SIG_SETMASK, before)


class ClosedOutput(io.TextIOBase):
    """Standard output that is closed: writing to it is a fault, and not nothing."""

    def writable(self) -> bool:
        return True

    def write(self, text: str) -> int:
        raise OSError(errno.EBADF, "standard output is closed")


def _open_streams() -> None:
    """Keeps the numbers of closed standard streams, so that no other file gets one of them."""
    for number in range(3):
        try:
            os.fstat(number)
        except OSError:
            os.open(os.devnull, os.O_RDWR)
    if sys.stdout is None:
        sys.stdout = ClosedOutput()
    if sys.stderr is None:
        sys.stderr = open(os.devnull, "w", encoding="utf-8")


def _end(status: int) -> None:
    """Ends the program. What can't be written at the end makes the report one that isn't whole."""
    global _is_stopping
    _is_stopping = True
    try:
        sys.stdout.flush()
    except (OSError, ValueError):
        status = NOT_WHOLE
    with contextlib.suppress(OSError, ValueError):
        sys.stderr.flush()
    _exit(status)


def run(work: Callable[[], int]) -> None:
    """Runs a program, and ends it with the status that it gives."""
    try:
        _open_streams()
        _listen()
        _end(work())
    except Stopped:
        _say_interrupted()
    except Exception as error:  # Python's own status, 1, would mean that something was found
        with contextlib.suppress(OSError, ValueError):
            print(f"sdtool-audit: the report isn't whole: {type(error).__name__}: {str(error)!r}", file=sys.stderr)
    _end(NOT_WHOLE)
