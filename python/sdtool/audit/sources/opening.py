"""Files, pipes, archives and compressed files, as bytes or as lines of text. Each is opened once and read from its
beginning to its end."""
import codecs
import contextlib
import io
import itertools
import lzma
import re
import sys
import zipfile
import zlib
from typing import Any, Callable, Iterator, List, NamedTuple, Optional, Tuple, Union

from sdtool._runs import piece_of
from sdtool.audit.sources import archives
from sdtool.audit.sources.archives import Trouble
from sdtool.distributed.packed import Unpacked

STANDARD_INPUT = "-"
HEAD = 1 << 16    # bytes that show what a source is
CHUNK = 1 << 20   # bytes that are read at once
LONGEST_LINE = 1 << 23  # characters; what follows in the line is dropped, and no descriptor is so long
_TOO_LONG = " .. (the line is too long)"  # stands for what was dropped, so that no descriptor is read as whole
# What the standard library raises when a compressed or encoded source is cut or damaged.
READ_FAULTS = (OSError, EOFError, zlib.error, lzma.LZMAError, zipfile.BadZipFile, UnicodeError, NotImplementedError,
               RuntimeError)
_BOMS = ((codecs.BOM_UTF8, "utf-8"), (codecs.BOM_UTF32_LE, "utf-32-le"), (codecs.BOM_UTF32_BE, "utf-32-be"),
         (codecs.BOM_UTF16_LE, "utf-16-le"), (codecs.BOM_UTF16_BE, "utf-16-be"))
_FEW_NULS = 7  # in a text that isn't UTF-16
_OF_XZ = b"\xfd7zXZ\0", b"\x5d\0\0\x80\0"  # also of its older form
_MOST_LAYERS = 4  # of compression and archives
AS_THEY_CAME = "as-they-came"  # how texts are written: what the source had of other bytes and lone surrogates


def _write_surrogates(error: UnicodeError) -> Tuple[bytes, int]:
    """Bytes that were no UTF-8 go out as they came in; lone surrogates of UTF-16 as three bytes."""
    if not isinstance(error, UnicodeEncodeError):
        raise error
    spelled = b"".join(bytes([ord(one) & 0xff]) if "\udc80" <= one <= "\udcff" else one.encode("utf-8", "surrogatepass")
                       for one in error.object[error.start:error.end])
    return spelled, error.end


codecs.register_error(AS_THEY_CAME, _write_surrogates)


class OpeningFault(Exception):
    """A source can't be opened, or isn't what the words say."""


class EncodingChange(UnicodeError):
    """The text goes on in another encoding."""


class Counted(io.RawIOBase):
    """A stream that tells how many bytes were read, and gives what one read of the source gives."""

    def __init__(self, raw: Any, tell: Callable[[int], None] = lambda count: None) -> None:
        super().__init__()
        self._raw = raw
        self._tell = tell

    def readable(self) -> bool:
        return True

    def readinto(self, buffer: Any) -> int:
        # A pipe gives what it has.
        data = piece_of(self._raw, len(buffer))
        buffer[:len(data)] = data
        self._tell(len(data))
        return len(data)


class _Begun(io.RawIOBase):
    """A stream whose first bytes were read to look at them. A fault that was met there comes behind them."""

    def __init__(self, head: bytes, fault: Optional[Exception], stream: io.BufferedReader) -> None:
        super().__init__()
        self._head, self._fault, self._stream = head, fault, stream

    def readable(self) -> bool:
        return True

    def readinto(self, buffer: Any) -> int:
        if self._head:
            data, self._head = self._head[:len(buffer)], self._head[len(buffer):]
        elif self._fault is not None:
            raise self._fault
        else:
            data = self._stream.read1(len(buffer))
        buffer[:len(data)] = data
        return len(data)


class Stream(NamedTuple):
    """One source of bytes: a file, or a member of an archive."""

    label: str
    raw: io.BufferedReader
    head: bytes


Content = Union[Stream, Trouble]


def _compression(head: bytes) -> Optional[str]:
    """The kind of one layer of compression, by the first bytes."""
    if head.startswith(b"BZh") and head[4:10] == b"1AY&SY" and not head[:64].isascii():
        return "bzip2"
    return "gzip" if head.startswith(b"\x1f\x8b") else "xz" if head.startswith(_OF_XZ) else None


def _begun(stream: io.BufferedReader) -> Tuple[bytes, io.BufferedReader]:
    """The first bytes of a stream, and the stream with them."""
    head, fault = b"", None
    try:
        while len(head) < HEAD:
            data = stream.read1(CHUNK)
            if not data:
                break
            head += data
    except READ_FAULTS as error:
        fault = error
    return head, io.BufferedReader(_Begun(head, fault, stream), CHUNK)


def _contents(label: str, stream: io.BufferedReader, layers: int) -> Iterator[Content]:
    head, begun = _begun(stream)
    if layers:
        members = archives.members_of(head, begun, label)
        if members is not None:
            for member in members:
                if isinstance(member, Trouble):
                    yield member
                else:
                    yield from _contents(member.label, io.BufferedReader(Counted(member.raw), CHUNK), layers - 1)
            return
        kind = _compression(head)
        if kind is not None:
            yield from _contents(label, io.BufferedReader(Unpacked(begun.read1, kind), CHUNK), layers - 1)
            return
    yield Stream(label, begun, head)


def contents(path: str, tell: Callable[[int], None]) -> Iterator[Content]:
    """What a path holds: one stream, or one for each file of an archive. tell is told how many bytes were read."""
    with contextlib.ExitStack() as stack:
        if path == STANDARD_INPUT:
            raw = sys.stdin.buffer
        else:
            try:
                raw = stack.enter_context(open(path, "rb", buffering=0))
            except (OSError, ValueError) as error:
                reason = error.strerror if isinstance(error, OSError) else str(error)
                raise OpeningFault(f"{path}: {reason}") from error
        counted = io.BufferedReader(Counted(raw, tell), CHUNK)
        yield from _contents("stdin" if path == STANDARD_INPUT else path, counted, _MOST_LAYERS)


def streams(path: str, tell: Callable[[int], None]) -> Iterator[Stream]:
    """The streams of a path that has to be read whole."""
    for content in contents(path, tell):
        if isinstance(content, Trouble):
            raise OpeningFault(f"{content.label}: {content.reason}")
        yield content


def encoding_of(head: bytes, named: Optional[str]) -> str:
    """The encoding of a text by its byte order mark, by its NULs or by name."""
    if named:
        return named
    for mark, encoding in _BOMS:
        if head.startswith(mark):
            return encoding
    at = head.find(b"\0")
    if at < 0 or _is_utf8(head[:at].rpartition(b"\n")[0]):
        return "utf-8"
    sample = head[:len(head) & ~1]
    low, high = sample[1::2].count(0), sample[0::2].count(0)
    # ASCII in UTF-16 has a NUL in every second byte, and other scripts have ASCII between them. A descriptor has more
    # of them.
    least = max(_FEW_NULS, len(sample) // 100)
    if low > 4 * high and low > least:
        return "utf-16-le"
    return "utf-16-be" if high > 4 * low and high > least else "utf-8"


def _is_utf8(data: bytes) -> bool:
    """Whether bytes that aren't few are UTF-8, most of it ASCII."""
    try:
        return 2 * sum(byte < 0x80 for byte in data) > len(data.decode("utf-8").encode()) > 0
    except UnicodeError:
        return False


def _errors(encoding: str) -> str:
    """Bytes that aren't UTF-8 are kept, and so are the lone surrogates that a name in NTFS may have."""
    return "surrogatepass" if codecs.lookup(encoding).name.startswith("utf-16") else "surrogateescape"


# UTF-16 or UTF-32 that is read as UTF-8: NULs by turns with other characters.
_WIDE = re.compile(r"(?:[^\0]\0){3}|(?:\0[^\0]){3}|(?:[^\0]\0{3}){2}")
# ASCII that is read as UTF-16: characters whose bytes are both ASCII, among them such as are in no name.
_NARROW = re.compile("[" +
                     "".join(f"{chr(high << 8 | 9)}-{chr(high << 8 | 13)}{chr(high << 8 | 32)}-{chr(high << 8 | 126)}"
                             for high in (9, 10, 13, *range(0x20, 0x7f))) + "]{6,}")
# UTF-16 that is read with its bytes in the other order.
_SWAPPED = re.compile("[" + "".join(chr(low << 8) for low in (9, 10, 13, *range(0x20, 0x7f))) + "]{6,}")
_RARE = re.compile("[\u0a0d\u0d0a\u2c00-\u2dff\u3200-\u4dff]")


def _changed_at(text: str, is_wide: bool) -> int:
    """Where a text goes on in another encoding; -1 if it doesn't."""
    if not is_wide:
        wide = _WIDE.search(text) if "\0" in text else None
        return -1 if wide is None else wide.start() + (text[wide.start()] == "\n")
    swapped = _SWAPPED.search(text)
    at = min((one for one in (text.find("\ufffe"), swapped.start() if swapped else -1) if one >= 0), default=-1)
    if at < 0:
        at = next((found.start() for found in _NARROW.finditer(text)
                   if 3 * len(_RARE.findall(found[0])) >= len(found[0])), -1)
    return at


def chunks(stream: io.BufferedReader, encoding: str) -> Iterator[str]:
    """The text of a stream, without byte order marks at the beginning and at those of lines. Lines that end with CR
    alone end with LF."""
    texts = _decoded(stream, encoding)
    first = next(texts, "")
    if first:
        texts = itertools.chain((first,), texts)
        yield from _with_lf(texts) if _has_cr_alone(first) else texts


_QUOTED_CR = re.compile(r'(?:\A|[,;\t|])"(?:[^"\r]|"")*\r(?:[^"]|"")*"(?:[,;\t|\r]|\Z)')


def _has_cr_alone(first: str) -> bool:
    """Whether the first part of a text has CR, but none in a field in quotation marks, and no LF."""
    return "\r" in first[:-1] and "\n" not in first and not _QUOTED_CR.search(first[:HEAD])


def _with_lf(texts: Iterator[str]) -> Iterator[str]:
    """A text with LF in place of CR and of CR LF."""
    held = ""  # a CR, behind which an LF may come
    for text in texts:
        text = held + text
        held = "\r" if text.endswith("\r") else ""
        text = (text[:-1] if held else text).replace("\r\n", "\n").replace("\r", "\n")
        if text:
            yield text
    if held:
        yield "\n"


def _decoded(stream: io.BufferedReader, encoding: str) -> Iterator[str]:
    """The text of a stream, without byte order marks at the beginning and at those of lines."""
    decoder = codecs.getincrementaldecoder(encoding)(_errors(encoding))
    is_wide = codecs.lookup(encoding).name.startswith("utf-16")
    is_first = True
    while True:
        data = stream.read1(CHUNK)
        fault: Optional[UnicodeError] = None
        try:
            text = decoder.decode(data, final=not data)
        except UnicodeDecodeError as error:
            fault = error
            # The bytes that the decoder kept from before are the first of the error's.
            text = codecs.getincrementaldecoder(encoding)(_errors(encoding)).decode(error.object[:error.start])
        if is_first and text:
            text = text[1:] if text[0] == "\ufeff" else text
            is_first = False
        if "\n\ufeff" in text:
            text = text.replace("\n\ufeff", "\n")
        at = _changed_at(text, is_wide)
        if at >= 0:
            text, fault = text[:at], EncodingChange("the text goes on in another encoding")
        if text:
            yield text
        if fault is not None:
            raise fault
        if not data:
            return


def whole_lines(texts: Iterator[str]) -> Iterator[str]:
    """A text in parts that end with an LF, but for the last, as many lines together as were read at once: a last line
    without an LF comes with those before it. Of a line that is too long, the first part, and words that say so."""
    ready = rest = ""
    is_dropping = False
    try:
        for text in texts:
            if is_dropping:
                at = text.find("\n")
                if at < 0:
                    continue
                text, is_dropping = _TOO_LONG + text[at:], False
            at = text.rfind("\n") + 1
            if at:
                if ready:
                    yield ready
                ready, rest = rest + text[:at], text[at:]
            else:
                rest += text
            if len(rest) > LONGEST_LINE:
                rest, is_dropping = rest[:LONGEST_LINE], True
    except READ_FAULTS:
        if ready:
            yield ready
        raise
    last = rest + _TOO_LONG if is_dropping else rest
    if ready or last:
        yield ready + last


def blocks(texts: Iterator[str]) -> Iterator[List[str]]:
    """The lines of a text, without their LF, as many together as were read at once."""
    for text in whole_lines(texts):
        parts: List[str] = text.split("\n")
        if not parts[-1]:
            parts.pop()
        yield parts


def lines(texts: Iterator[str]) -> Iterator[str]:
    return itertools.chain.from_iterable(blocks(texts))


def without_cr(texts: Iterator[str]) -> Iterator[str]:
    """Lines, without the CR before their LF."""
    for line in texts:
        yield line[:-1] if line.endswith("\r") else line


class Ahead:
    """A text that is looked at before it is read. text is what was read so far, and a fault that was met comes behind
    it."""

    def __init__(self, texts: Iterator[str]) -> None:
        self._texts = texts
        self._parts: List[str] = []
        self._fault: Optional[Exception] = None
        self.count = self.lines = 0
        self.is_ended = False

    @property
    def text(self) -> str:
        self._parts = ["".join(self._parts)]
        return self._parts[0]

    def read(self, most: int) -> None:
        """Reads on until there are so many characters, or no more come."""
        while self.count < most and not self.is_ended:
            try:
                text = next(self._texts, "")
            except READ_FAULTS as error:
                text, self._fault = "", error
            self.is_ended = not text
            self.count += len(text)
            self.lines += text.count("\n")
            self._parts.append(text)

    def all(self) -> Iterator[str]:
        if self.text:
            yield self.text
        if self._fault is not None:
            raise self._fault
        yield from self._texts
