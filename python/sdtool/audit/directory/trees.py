"""Names of objects as places in a tree: the folder of each, and the name by which it is looked up."""
import base64
import collections
import functools
import re
import struct
from typing import Counter, Dict, Iterator, Optional, Set

from sdtool.audit.sources.binary import end_of
from sdtool.audit.sources.items import HEX, SDDL, UNREADABLE, Item

# How names of Windows begin that are whole; in these either slash parts.
_WHOLE = re.compile(r"[A-Za-z]:|\\\\|[\w.]+\\\w+::|HK(?:EY_|LM|CU)", re.I)
_FIRST_PART = re.compile(r"(?:[^,\\]|\\.)*,", re.S)
_MOST_KEPT = 1_000  # characters
_MOST_LEVELS = 200  # of folders; most programs take no path of more than 260 characters
_BACKSLASH, _SLASH, _EITHER = "\\", "/", "\\/"


class _Letters(Dict[int, int]):
    """Small letters, for capital ones that Windows takes for the same: one for one, so that 'ss' is another folder than
    '\u00df'."""

    def __missing__(self, code: int) -> int:
        small = chr(code).lower()
        self[code] = ord(small) if len(small) == 1 and small.upper() == chr(code) else code
        return self[code]


_SMALL = _Letters()


def _parts_at(name: str, kind: str) -> str:
    """What parts a name. A registry key may have a slash in it, and a name of Linux a backslash."""
    if kind == "key":
        return _BACKSLASH
    if _WHOLE.match(name):
        return _EITHER
    return _SLASH if "/" in name else _BACKSLASH


def key_of(name: str, kind: str = "file") -> str:
    """The name by which a folder is looked up. Windows and directories don't tell upper from lower case."""
    return _kept_key(name, kind) if len(name) <= _MOST_KEPT else _kept_key.__wrapped__(name, kind)


@functools.lru_cache(maxsize=10_000)
def _kept_key(name: str, kind: str) -> str:
    if kind == "ds":
        return name.casefold()
    marks = _parts_at(name, kind)
    short = name.rstrip(marks) or name
    if marks == _EITHER:
        return short.translate(_SMALL).replace("/", "\\")
    return short.translate(_SMALL) if marks == _BACKSLASH and marks in short else short


def folder_of(name: str, kind: str) -> str:
    """The name of the folder of an object, or nothing."""
    if kind == "ds":
        found = _FIRST_PART.match(name)
        return name[found.end():].lstrip() if found else ""
    marks = _parts_at(name, kind)
    stripped = name.rstrip(marks)
    at = max(stripped.rfind(mark) for mark in marks)
    return "" if at < 0 else stripped[:at] or stripped[:1]


def folder_key(name: str, kind: str) -> str:
    """The key of the folder of a name."""
    folder = folder_of(name, kind)
    return key_of(folder, kind) if folder else ""


def folders_above(key: str, kind: str) -> Iterator[str]:
    """The keys of a folder and of those above it, the nearest first."""
    for _ in range(_MOST_LEVELS):
        if not key:
            return
        yield key
        key = folder_key(key, kind)


_REST = re.compile(r"(?:.*: )?the rest\b", re.S)
_BEHIND = re.compile(r".*: from (?:line|byte) [0-9]+ on\Z", re.S)
# Reasons of objects that are there as a whole.
_LACKS = ("there is no descriptor", "no attribute", "the entry has no ", "two ")


def is_rest(item: Item) -> bool:
    """Whether an object stands for what is behind the place where a source is cut, or for a source without objects."""
    if item.form != UNREADABLE:
        return False
    return item.name.startswith("the rest of ") or bool(_BEHIND.match(item.name)) or \
        not item.line and (bool(_REST.match(item.name)) or item.name == item.source)


def is_cut(last: Optional[Item]) -> bool:
    """Whether a source may have been cut in its last object, so that others may be missing behind it."""
    if last is None or last.form == UNREADABLE:
        return last is not None and not last.text.startswith(_LACKS) and not last.text.endswith(" is no descriptor")
    if last.form == SDDL:
        return last.text.count("(") != last.text.count(")")
    try:
        data = bytes.fromhex(last.text) if last.form == HEX else base64.b64decode(last.text, validate=True)
    except ValueError:
        return True
    return (len(data) < 20 or max([end_of(data),
                                   *(at + 8 for at in struct.unpack_from("<IIII", data, 4) if at)]) > len(data))


class Repeats:
    """Numbers objects of one name, so that the first of a list is compared with the first of another.

    A hash stands for a name, so that names need not be kept. Names whose hashes are equal only get a higher number, in
    both lists alike if their order is alike.
    """

    def __init__(self) -> None:
        self._seen: Set[int] = set()
        self._repeated: Counter[str] = collections.Counter()

    def number_of(self, name: str) -> int:
        mark = hash(name)
        if mark not in self._seen:
            self._seen.add(mark)
            return 0
        self._repeated[name] += 1
        return self._repeated[name]


def unnamed(item: Item) -> str:
    """The name by which two lists are compared: objects without one have their lines."""
    return f"\0{item.line}" if item.name == f"{item.source}:{item.line}" else item.name
