"""`python -m sdtool` is the program: the same words, answers, messages and exit status."""
import os
import signal
import sys
from typing import Iterator, Optional

from ._runs import Run

_PIECE = 1 << 16
_STATUS_STOPPED, _STATUS_NO_MEMORY = 3, 4
_INPUT, _OUTPUT, _FAULTS = 0, 1, 2


class _Stopped(Exception):
    """A stream that failed: the message is the program's."""


def _pieces() -> Iterator[bytes]:
    while True:
        try:
            piece = os.read(_INPUT, _PIECE)
        except OSError:
            raise _Stopped("error 60 read") from None
        if not piece:
            return
        yield piece


def _write(data: bytes) -> None:
    rest = memoryview(data)
    while rest:
        try:
            taken = os.write(_OUTPUT, rest)
        except OSError:
            taken = 0
        if not taken:
            raise _Stopped("error 61 write")
        rest = rest[taken:]


def _tell(message: bytes) -> None:
    """A stream for faults that fails changes nothing."""
    try:
        os.write(_FAULTS, message)
    except OSError:
        pass


def _answer_all(run: Run) -> int:
    if run.is_over:
        _tell(run.message)
        try:
            _write(run.help)
        except _Stopped:
            pass  # Help that cannot be written changes no status.
        return run.status
    for piece in _pieces():
        _write(run.answer(piece))
    _write(run.end())
    return run.status


def main(words: Optional[bytes] = None) -> int:
    """The exit status. Words have a NUL behind each; by default they are those of the command line."""
    if words is None:
        words = b"".join(os.fsencode(word) + b"\0" for word in sys.argv[1:])
    try:
        return _answer_all(Run(words))
    except _Stopped as stopped:
        _tell(f"sdtool: {stopped}\n".encode("ascii"))
        return _STATUS_STOPPED
    except MemoryError:
        _tell(b"sdtool: no memory\n")
        return _STATUS_NO_MEMORY


if __name__ == "__main__":
    # As the program: no traceback where it is interrupted.
    signal.signal(signal.SIGINT, signal.SIG_DFL)
    sys.exit(main())
