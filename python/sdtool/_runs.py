"""The program over bytes in memory, and over a stream of lines."""
import io
import itertools
import os
from typing import IO, Any, Counter, Iterable, Iterator, List, NamedTuple, Sequence, Union

from . import _arguments, _library
from ._errors import ArgumentFault

_STATUS_USAGE = 2
# No line of any form is longer, so each that is has fault 1, whatever else it has.
_LONGEST_LINE = 1_049_872
_PIECE = 1 << 16
_AHEAD = 1024
_FIRST_OF_BLOCK, _LAST_OF_BLOCK = "control ", "end"

Source = Union[IO[bytes], IO[str], Iterable[Union[str, bytes, bytearray, memoryview]]]


class Answers(NamedTuple):
    """What a run prints.

    status is the exit status of the program: 0, 1 if at least one answer is an error line, or 2 if the words are wrong.
    output has the answers, one after the other. message is what the program prints to standard error,
    which is empty with 0 and 1.
    """

    status: int
    output: bytes
    message: str


def _spelled(words: Sequence[str]) -> bytes:
    """The words as the library takes them."""
    spelled = [_arguments.text("words", word, index)
               for index, word in enumerate(_arguments.items("words", words, "str"))]
    for index, word in enumerate(spelled):
        if b"\0" in word:
            raise ArgumentFault("a word has a NUL", "words", index)
    return b"".join(word + b"\0" for word in spelled)


def run(words: Sequence[str], input: Union[bytes, bytearray, memoryview]) -> Answers:
    r"""What the program prints to an input, one descriptor a line.

    words are those of the command line, without the program's name. Errors are lines of the output, and wrong words are
    a message: see Answers. The whole input and all answers are in memory; lines() answers a stream.

    >>> run(["convert", "--from", "sddl", "--to", "hex"], b"D:P\nD:(A;;FA;;;WD\n")
    Answers(status=1, output=b'01000490000000000000000000000000140000000200080000000000\nerror 20 shape\n', message='')
    >>> run(["convert", "--to", "xml"], b"")
    Answers(status=2, output=b'', message='sdtool: usage: --to\n')
    """
    status, output, message = _library.run(_spelled(words), _arguments.data("input", input))
    return Answers(status, output, message.decode("ascii"))


class Run:
    """A run whose input comes in pieces. Words are those of the command line, each with a NUL behind it."""

    def __init__(self, words: bytes) -> None:
        self._words = words
        # Without input there is an output only if help was asked for.
        self.status, self.help, self.message = _library.run(words, b"")
        self._open = bytearray()

    @property
    def is_over(self) -> bool:
        """Whether nothing is to be read: the words are wrong, or ask for help."""
        return self.status == _STATUS_USAGE or self.help != b""

    def answer(self, piece: bytes) -> bytes:
        """The answers to the lines that end in a piece."""
        at = piece.rfind(b"\n") + 1
        if not at:
            self._keep(piece)
            return b""
        ended = bytes(self._open) + piece[:at] if self._open else piece[:at]
        self._open.clear()
        self._keep(piece[at:])
        return self._run(ended)

    @property
    def has_begun(self) -> bool:
        """Whether a line has begun that has not ended."""
        return bool(self._open)

    def end(self) -> bytes:
        """The answer to a last line without a newline."""
        last = bytes(self._open)
        self._open.clear()
        return self._run(last)

    def _keep(self, piece: bytes) -> None:
        """Adds to the line that has not ended. With two bytes more than the longest one it is too long, however it
        ends."""
        self._open += piece[:max(0, _LONGEST_LINE + 2 - len(self._open))]

    def _run(self, data: bytes) -> bytes:
        status, output, self.message = _library.run(self._words, data)
        self.status = max(self.status, status)
        return output


def checked(words: Sequence[str], pieces: Iterable[bytes], total: Counter[str]) -> Iterator[bytes]:
    """The answers to the lines that end in each piece. Counts lines, error lines and bytes; a line without an answer is
    a RuntimeError."""
    spelled = _spelled(words)
    run = Run(spelled)
    explains = spelled.startswith(b"explain\0")
    for piece in itertools.chain(pieces, [b""]):  # nothing ends a last line without a newline
        lines, answers = (piece.count(b"\n"), run.answer(piece)) if piece else (int(run.has_begun), run.end())
        errors = answers.count(b"\nerror ") + answers.startswith(b"error ")
        answered = answers.count(b"\n")
        if explains:
            answered = answers.count(b"\nend\n") + errors
            if answers.startswith(b"\n") or b"\n\n" in answers:  # the answers to empty lines
                answered += answers.split(b"\n").count(b"") - 1
        total.update(lines=lines, errors=errors, bytes=len(answers))
        if answered != lines or run.status != (total["errors"] > 0) or answers[-1:] not in (b"", b"\n"):
            raise RuntimeError(f"{lines} lines have {answered} answers, {errors} errors, status {run.status} "
                               f"{run.message.decode()}")
        yield answers


def lines(source: Source, words: Sequence[str], *, ahead: int = _AHEAD) -> Iterator[str]:
    """The program's answer to each line of a source, as they come, in memory that does not grow.

    source is a file, binary or text, or any iterable of lines, each a str or bytes with or without its newline. words
    are those of the command line, without the program's name. There is one answer for each line, in order and without
    its last newline: an explanation is one answer of several lines, and a line that is refused has the answer 'error N
    ..'.

    From a binary file the answers come for each piece that a read gives, as from a pipe. From any other source, at most
    ahead lines are taken before their answers come; with ahead=1, no line is taken before the last one is answered.

    >>> for answer in lines(["D:P", "D:(A;;FA;;;Everyone)", "", "O:BA"], ["convert", "--from", "sddl"]):
    ...     print(repr(answer))
    'D:P'
    'error 25 sid-form'
    ''
    'O:BA'

    Wrong words, and words that ask for help, are an ArgumentFault before any line is read. So is a line that has a
    newline in it: its answers would be taken for those of other lines.
    """
    most = _arguments.number("ahead", ahead)
    if most < 1:
        raise ArgumentFault("at least one line has to be taken", "ahead")
    started = Run(_spelled(words))
    if started.is_over:
        raise ArgumentFault(started.message.decode("ascii").rstrip("\n") or "the words ask for help", "words")
    if issubclass(type(source), (io.BufferedIOBase, io.RawIOBase)):
        return _answers_of_pieces(_pieces_of(source), started)
    if issubclass(type(source), io.TextIOWrapper):
        return _answers_of_pieces(_batches_of(_texts_of(source), most), started)
    given: Iterator[Any] = _arguments.iterator("source", source, "lines, or a file")
    return _answers_of_pieces(_batches_of(given, most), started)


def _pieces_of(file: Any) -> Iterator[bytes]:
    """What each read of a binary file gives: what there is, without waiting for more."""
    while True:
        data = _arguments.data("source", piece_of(file, _PIECE))
        if not data:
            return
        yield data


def _texts_of(file: Any) -> Iterator[str]:
    """The lines of a text file. In non-blocking mode Python takes no bytes yet for the end, so whether it is that is
    asked first."""
    for line in file:
        if not line.endswith("\n"):
            _require_end(file)
        yield line
    _require_end(file)


def _require_end(file: Any) -> None:
    if _never_waits(file) and piece_of(file.buffer, 1):
        raise BlockingIOError("the file is in non-blocking mode, and had no bytes for a moment")


def piece_of(file: Any, most: int) -> Any:
    """What one read of a binary file gives, which is nothing at its end alone: without bytes at the moment, a file in
    non-blocking mode is a BlockingIOError."""
    piece = getattr(file, "read1", file.read)(most)
    if type(piece) is bytes and piece == b"" and _never_waits(file):
        piece = file.read(1)  # None where there are no bytes yet, for which read1 gives the same as at the end
    if piece is None:
        raise BlockingIOError("the file is in non-blocking mode, and has no bytes at the moment")
    return piece


def _never_waits(file: Any) -> bool:
    """Whether a file is in non-blocking mode."""
    try:
        return not os.get_blocking(file.fileno())
    except (AttributeError, OSError, TypeError, ValueError):  # it is no file of the system
        return False


def _batches_of(given: Iterator[Any], most: int) -> Iterator[bytes]:
    """Lines, so many together and no more bytes than a piece has, but one line at least."""
    batch: List[bytes] = []
    size = 0
    for index, item in enumerate(given):
        batch.append(_line_of(item, index))
        size += len(batch[-1])
        if len(batch) == most or size >= _PIECE:
            yield b"".join(batch)
            batch, size = [], 0
    if batch:
        yield b"".join(batch)


def _line_of(item: Any, index: int) -> bytes:
    """A line with its newline."""
    line = _arguments.bytes_of_line("source", item, index)
    line = line[:-1] if line.endswith(b"\n") else line
    if b"\n" in line:
        raise ArgumentFault("a line has a newline in it", "source", index)
    return line[:_LONGEST_LINE + 2] + b"\n"


def _answers_of_pieces(pieces: Iterable[bytes], started: Run) -> Iterator[str]:
    for piece in pieces:
        yield from _split(started.answer(piece))
    yield from _split(started.end())


def _split(output: bytes) -> Iterator[str]:
    """Each answer. That of a descriptor that is explained goes on to its line 'end'."""
    block: List[str] = []
    for line in output.decode("ascii").split("\n")[:-1]:
        block.append(line)
        if line == _LAST_OF_BLOCK or not block[0].startswith(_FIRST_OF_BLOCK):
            yield "\n".join(block)
            block = []
