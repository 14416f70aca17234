"""Registry exports, which reg export and regedit write."""
import collections
import functools
import re
from typing import Any, Dict, Iterator, List, NamedTuple, Optional, Tuple, Union

from sdtool._windows import HINTS
from sdtool.audit.sources.frame import BY_NAMES, Format, Lines, Look, Piece
from sdtool.audit.sources.items import LONGEST_NAME, UNTOLD, Item, bytes_item, item_of, unreadable
from sdtool.audit.sources.options import SourceOptions

_HEAD_LINE = re.compile(r"(Windows Registry Editor Version [0-9]+\.[0-9]+|REGEDIT4)\s*\Z", re.I)
_KEY = re.compile(r"\[-?(HKEY_[A-Z_]+|HK[A-Z]{2,3})(\\.*)?\]\s*\Z", re.I | re.S)
_NAME = re.compile(r'(?:"((?:[^"\\]|\\.)*)"|(@))\s*=', re.S)
_TEXT = re.compile(r'"((?:[^"\\]|\\.)*)"\s*\Z', re.S)
_OPEN_TEXT = re.compile(r'"(?:[^"\\]|\\.)*\\?\Z', re.S)
_BINARY = re.compile(r"hex(?:\([0-9a-f]+\))?:(.*)", re.I | re.S)
_HEX_VALUE = re.compile(r'"(?:[^"\\]|\\.)*"=hex(?:\([0-9a-f]+\))?:[0-9a-f]{2},', re.I)
_NUMBER = re.compile(r"(dword:[0-9a-f]{1,8}|-)\s*\Z", re.I)
_SHORT = re.compile(r"dword:[0-9a-f]{1,7}\s*\Z", re.I)
_GOES_ON = re.compile(r"\s*[0-9a-f]{2}(?:,|\s*\\?\s*\Z)", re.I)  # a further line of hex digits
_DIGITS = re.compile(r"\s*(?:[0-9a-f]{2}(?:,[0-9a-f]{2})*)?\s*\Z", re.I)
_ACL = re.compile(r"[DSOG]:(?![\\/])", re.I)  # D:\Data is a path
# Names of values that hold a descriptor, beside those of a key whose name ends with Security.
_NAMES = re.compile(r"security|.*permission|.*sd|.*securitydescriptor|.*dacl", re.I)
_TEXT_NAMES = re.compile(r".*sd|.*securitydescriptor", re.I)
_MOST_LINES = 100_000  # of a value
_MOST_PIECES = 100_000  # of a key, until they are given


def _patterns_of(hint: Dict[str, Any]) -> Tuple[str, str]:
    return "\\\\" + hint["key"] + r"\Z" if "key" in hint else "", "|".join(hint.get("value", (r"[^\\]*",)))


# What a value protects, by the end of its key and by its name. The first that fits counts.
_KINDS = [(*(re.compile(one, re.I) for one in _patterns_of(hint)), hint["kind"])
          for hint in HINTS if "key" in hint or "value" in hint]
_HEAD, _BLANK, _COMMENT, _KEY_LINE = "the head", "a blank line", "a comment", "the name of a key"
_OTHER = "a value that is no descriptor"
_AGAIN = "export the key again"


def _recognizes(look: Look) -> bool:
    return any(_HEAD_LINE.match(line) or _KEY.match(line) or _HEX_VALUE.match(line) for line in look.lines)


class Value(NamedTuple):
    """A value, over one line or more. reason says why it can't be read."""

    begin: int
    end: int
    name: str
    data: str
    reason: str = ""


class _Numbered:
    """Lines with their numbers, which can be given back."""

    def __init__(self, source: Lines) -> None:
        self._lines = iter(source)
        self._held: List[str] = []
        self.number = 0

    def next(self) -> Optional[str]:
        line: Optional[str] = self._held.pop() if self._held else next(self._lines, None)  # type: ignore[arg-type]
        self.number += line is not None
        return line

    def is_ended(self) -> bool:
        line = self.next()
        if line is not None:
            self.give_back([line])
        return line is None

    def give_back(self, lines: List[str]) -> None:
        self._held += reversed(lines)
        self.number -= len(lines)


def _unescaped(text: str) -> str:
    return re.sub(r"\\(.)", r"\1", text, flags=re.S)


def _value(first: str, found: "re.Match[str]", lines: _Numbered) -> Value:
    """A value that begins with a line. What goes on in other lines is read as far as it is part of the value."""
    begin = lines.number
    name = "" if found[2] else _unescaped(found[1])
    data = first[found.end():].strip()
    if _TEXT.match(data) or _NUMBER.match(data):
        # reg export writes eight digits. Others may have written fewer, but a last line may be cut.
        reason = "the value is cut" if _SHORT.match(data) and lines.is_ended() else ""
        return Value(begin, begin + 1, name, data, reason)
    if _OPEN_TEXT.match(data):
        return _text_value(begin, name, first[found.end():], lines)
    if _BINARY.match(data):
        return _binary_value(begin, name, data, lines)
    return Value(begin, begin + 1, name, data, "the value is cut or damaged")


def _text_value(begin: int, name: str, data: str, lines: _Numbered) -> Value:
    """A text with line ends in it."""
    taken: List[str] = []
    while len(taken) < _MOST_LINES:
        line = lines.next()
        if line is None:
            break
        taken.append(line)
        if '"' not in line.replace('\\\\', "").replace('\\"', ""):
            continue
        whole = "\n".join([data, *taken])
        if _TEXT.match(whole):
            return Value(begin, begin + 1 + len(taken), name, whole.strip())
        break
    lines.give_back(taken)
    return Value(begin, begin + 1, name, data, "the text has no end")


def _binary_value(begin: int, name: str, data: str, lines: _Numbered) -> Value:
    """Hex digits, which go on in the next line behind a backslash."""
    parts: List[str] = []
    line = data[data.index(":") + 1:]
    count = 0
    while True:
        is_open = line.rstrip().endswith("\\")
        digits = re.sub(r",\Z", "", line.rstrip()[:-1].rstrip(" \t")) if is_open else line
        if not _DIGITS.match(digits):
            return Value(begin, begin + 1 + count, name, "", "the value has something other than hex digits")
        parts.append(digits)
        if not is_open:
            return Value(begin, begin + 1 + count, name, "hex:" + re.sub(r"[\s,]", "", "".join(parts)).lower())
        following = lines.next()
        if following is None or count >= _MOST_LINES or not _GOES_ON.match(following):
            if following is not None:
                lines.give_back([following])
            return Value(begin, begin + 1 + count, name, "", "the value is cut: it goes on in a line that isn't there")
        line = following
        count += 1


@functools.lru_cache(maxsize=100)
def _kinds_of(key: str) -> List[Tuple[Any, str]]:
    """The names of values that tell the kinds of objects in a key, with these."""
    return [(names, kind) for pattern, names, kind in _KINDS if pattern.search(key)]


def _kind_of(key: str, name: str) -> str:
    """The kind of the object that a value of a key protects."""
    front, last = (key, name) if "\\" not in name else f"{key}\\{name}".rsplit("\\", 1)
    return next((kind for names, kind in _kinds_of(front) if names.fullmatch(last)), UNTOLD)


def _is_descriptor(key: str, name: str, digits: str) -> bool:
    """Whether a binary value is a descriptor: by its name, or by revision and control of a self-relative one."""
    if key.lower().endswith("\\security") or _NAMES.fullmatch(name):
        return True
    return digits[:2] == "01" and len(digits) >= 40 and int(digits[6:8], 16) & 0x80 != 0


def item_of_value(key: Optional[str], value: Value, label: str, options: SourceOptions) -> Union[Item, str]:
    """The object that a value is, or what else it is."""
    shown = key if key is not None else "[?]"
    full = f"{shown}\\{value.name}" if value.name else shown
    kind = options.kind or _kind_of(shown, value.name)
    if value.reason:
        return unreadable(full, label, value.begin, value.reason, _AGAIN, kind)
    found: Union[Item, str] = _OTHER
    if value.data.startswith("hex:"):
        digits = value.data[4:]
        if _is_descriptor(shown, value.name, digits):
            found = bytes_item(full, label, value.begin, bytes.fromhex(digits), kind) if digits else \
                item_of(full, label, value.begin, "", kind)
    else:
        text = _TEXT.match(value.data)
        if text and (_ACL.match(_unescaped(text[1])) or _TEXT_NAMES.fullmatch(value.name)):
            found = item_of(full, label, value.begin, _unescaped(text[1]), kind)
    if key is None and isinstance(found, Item):
        return unreadable(full, label, value.begin, "the line with its key is damaged or not there", _AGAIN, kind)
    return found


def _without_rivals(pieces: List[Piece]) -> Iterator[Piece]:
    """The pieces of a key. Of values with one name none is known, since a key has each name once."""
    counts = collections.Counter(piece.taken.name.lower() for piece in pieces if isinstance(piece.taken, Item))
    for piece in pieces:
        one = piece.taken
        if isinstance(one, Item) and one.form and counts[one.name.lower()] > 1:
            piece = piece._replace(taken=unreadable(one.name, one.source, one.line,
                                                    "the key has two values with this name", _AGAIN, one.kind))
        yield piece


def _line(text: str) -> Tuple[str, str]:
    """What a line is that is no value: the word for it, and the key that it names."""
    if not text.strip():
        return _BLANK, ""
    if text.lstrip().startswith(";"):
        return _COMMENT, ""
    if _HEAD_LINE.match(text):
        return _HEAD, ""
    if _KEY.match(text) and len(text) <= LONGEST_NAME:
        return _KEY_LINE, text.strip()[1:-1].lstrip("-")
    return "", ""


def _read(source: Lines, label: str, options: SourceOptions) -> Iterator[Piece]:
    """The values that are descriptors, in binary or as SDDL, and lines that are damaged."""
    key: Optional[str] = None
    lines = _Numbered(source)
    pieces: List[Piece] = []  # of the key
    while True:
        text = lines.next()
        if text is None:
            yield from _without_rivals(pieces)
            return
        number = lines.number
        found = _NAME.match(text)
        if found:
            value = _value(text, found, lines)
            pieces.append(Piece(value.begin, value.end, item_of_value(key, value, label, options), bool(value.reason)))
            continue
        word, named = _line(text)
        if word == _KEY_LINE or len(pieces) > _MOST_PIECES:
            yield from _without_rivals(pieces)
            pieces = []
        if word:
            key = named if word == _KEY_LINE else key
            pieces.append(Piece(number, number + 1, word))
            continue
        name = f"{key}: {text[:100]}" if key else f"{label}:{number}"
        lost = unreadable(name, label, number, "the line is neither a key nor a value", _AGAIN,
                          options.kind or _kind_of(key or "", ""))
        if text.startswith("[") or text.rstrip().endswith("]") or "HKEY_" in text:
            key = None
        elif _GOES_ON.match(text):
            _skip_digits(lines)
        pieces.append(Piece(number, lines.number + 1, lost, True))


def _skip_digits(lines: _Numbered) -> None:
    """Goes behind the lines of hex digits that follow, which belong to the value of the line at hand."""
    while True:
        following = lines.next()
        if following is None or not _GOES_ON.match(following):
            break
    if following is not None:
        lines.give_back([following])


FORMAT = Format("reg", "reg export KEY FILE",
                "a value that is a descriptor by its name, its key or its bytes, or that is damaged",
                (_HEAD, _BLANK, _COMMENT, _KEY_LINE, _OTHER), _recognizes, _read, guess=BY_NAMES)
