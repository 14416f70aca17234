"""Tables whose columns stand below titles and a line of dashes: what Format-Table prints, and SQLite in columns."""
import bisect
import re
from typing import Dict, Iterator, List, NamedTuple, Optional

from sdtool.audit.sources.frame import BY_NAMES, Format, Lines, Look, Piece
from sdtool.audit.sources.items import Item, unreadable
from sdtool.audit.sources.json_text import items_of_element
from sdtool.audit.sources.messages import named_in, strange_item
from sdtool.audit.sources.naming import DESCRIPTOR_NAMES, NAME_NAMES, ranked, telling
from sdtool.audit.sources.options import SourceOptions

_DASHES = re.compile(r"[ \t]*-+(?:[ \t]+-+)+[ \t]*\Z")
_BLANK, _HEAD = "a blank line", "the titles and the dashes below them"
_WHOLE = "print the whole descriptors: Export-Csv writes what can be read"


class _Titles(NamedTuple):
    """The titles of the columns, their words, where each begins, those that tell something, and the one with
    descriptors."""

    names: List[str]
    words: List[str]
    starts: List[int]
    telling: List[str]
    descriptor: str

    def members(self, line: str) -> Optional[Dict[str, str]]:
        """The cells of a row: all that the line has, and those that tell something; None if one is wider than its
        column."""
        starts = self.starts[:bisect.bisect_right(self.starts, len(line))]
        if any(start and line[start - 1:start].strip() for start in starts):
            return None
        ends = [*starts[1:], len(line)]
        return {**dict.fromkeys(self.telling, ""),
                **{name: line[start:end].strip() for name, start, end in zip(self.names, starts, ends)}}


def _titles(line: str, dashes: str) -> Optional[_Titles]:
    if not _DASHES.match(dashes):
        return None
    starts = [found.start() for found in re.finditer("-+", dashes)]
    names = [line[start:end].strip() for start, end in zip(starts, [*starts[1:], len(line)])]
    described = ranked(names, DESCRIPTOR_NAMES)
    if not described or not ranked(names, NAME_NAMES) or len(set(names)) < len(names):
        return None
    return _Titles(names, " ".join(names).split(), starts, telling(names), names[described[0]])


def _recognizes(look: Look) -> bool:
    return any(_titles(line, dashes) for line, dashes in zip(look.lines, look.lines[1:]))


class _Row:
    """A row, with the rest of its descriptor in the lines below."""

    def __init__(self, number: int, line: str, titles: _Titles) -> None:
        self.begin, self.end, self._line, self._titles = number, number + 1, line, titles
        self._members = titles.members(line)
        self._more: List[str] = []

    def takes(self, line: str) -> bool:
        """Whether a line has nothing but more of the descriptor."""
        cells = self._titles.members(line) or {}
        more = cells.pop(self._titles.descriptor, "")
        if self._members is None or not more or any(cells.values()):
            return False
        self._more.append(more)
        self.end += 1
        return True

    def items(self, label: str, options: SourceOptions) -> List[Item]:
        if self._members is None:
            return [unreadable(self._line.strip()[:1000], label, self.begin, "a value is wider than its column", _WHOLE,
                               options.kind or "file")]
        key = self._titles.descriptor
        whole = "".join([self._members[key], *self._more])
        return items_of_element({**self._members, key: whole}, label, self.begin, options)


def _read(source: Lines, label: str, options: SourceOptions) -> Iterator[Piece]:
    titles: Optional[_Titles] = None
    row: Optional[_Row] = None
    before = ""  # a line that may have titles
    number = 0

    def ended() -> Iterator[Piece]:
        if before.strip():
            reason = f"{before.strip()[:80]!r} stands above no dashes"
            lost = strange_item(before, label, number, reason, _WHOLE, options.kind or "file")
            yield Piece(number, number + 1, lost, named_in(before) is None)
        elif number:
            yield Piece(number, number + 1, _BLANK)

    for at, line in enumerate(source, 1):
        if row is not None and row.takes(line):
            continue
        if row is not None:
            yield Piece(row.begin, row.end, row.items(label, options))
            row = None
        found = _titles(before, line) if titles is None else None
        if found:
            titles = found
            yield Piece(number, at + 1, _HEAD)
            continue
        if titles is None:
            yield from ended()
            before, number = line, at
        elif not line.strip():
            yield Piece(at, at + 1, _BLANK)
        elif _DASHES.match(line) or line.split() == titles.words:
            yield Piece(at, at + 1, _HEAD)
        elif named_in(line) is not None:
            yield Piece(at, at + 1, strange_item(line, label, at, "", "", options.kind or "file"))
        else:
            row = _Row(at, line, titles)
    if row is not None:
        yield Piece(row.begin, row.end, row.items(label, options))
    if titles is None:
        yield from ended()


FORMAT = Format("columns", "Format-Table Path,Sddl, sqlite3 -column", "a row, and any line before the titles",
                (_BLANK, _HEAD), _recognizes, _read, guess=BY_NAMES)
