"""Lists of titles and values, one below the other: what Format-List prints, SQLite in lines, and YAML."""
import json
import re
from typing import Dict, Iterator, List, NamedTuple, Optional, Set

from sdtool.audit.sources import json_text, ldif, wevtutil
from sdtool.audit.sources.frame import BY_NAMES, Format, Lines, Look, Piece
from sdtool.audit.sources.items import Item, looks_like_descriptor, unreadable
from sdtool.audit.sources.json_text import items_of_element
from sdtool.audit.sources.messages import named_in, strange_item
from sdtool.audit.sources.naming import DESCRIPTOR_NAMES, NAME_NAMES, plain_name, ranked
from sdtool.audit.sources.options import SourceOptions

_TITLE = re.compile(r"""(?P<front>[ \t]*(?:-[ \t]+)?)(?P<mark>["']?)(?P<title>[A-Za-z][\w .()/-]{0,60}?)(?P=mark)"""
                    r"(?P<padding>[ \t]*)(?:=[ \t]*|[:|](?:[ \t]+|\Z))(?P<value>.*)\Z")
# Between records and above them: of YAML, of psql, of MySQL, of a file of settings, and of TOML.
_HEAD_LINE = re.compile(
    r"""(?:---|\.\.\.|%YAML.*|-\[ RECORD [0-9]+ \][-+]*|\*+ [0-9]+\. row \*+|[0-9]+ rows? in set.*|"""
    r"""\[[^\[\]]+\]|\[\[[^\[\]]+\]\])\s*\Z|\s*(?:"[^"]*"|'[^']*'|[^\s"'#-][^#"]*):\s*\Z""")
_RECORD = re.compile(r"-\[ RECORD 1 \]")
_BLOCK = re.compile(r"[|>][+-]?\s*\Z")
_OF_ACLS = {"access", "owner", "audit"}  # what Get-Acl lists beside the path
_BLANK, _HEAD = "a blank line", "the title of a list"
_EXPORT = "Get-Acl .. | Select-Object Path,Sddl | Export-Csv -Encoding UTF8 FILE writes what can be read"


class _Field(NamedTuple):
    """A title with the lines of its value."""

    title: str
    is_padded: bool  # as Format-List has it, which breaks a value at the width of the window
    lines: List[str]
    widths: List[int]

    def value(self, width: int) -> str:
        text = self.lines[0].strip()
        rest = [line.strip() for line in self.lines[1:]]
        if _BLOCK.match(text):
            return "".join(rest)
        is_descriptor = looks_like_descriptor(text)
        for before, line in zip(self.widths, rest):
            text += line if is_descriptor or self.is_padded and before >= width else " " + line
        return _unquoted(text)


def _unquoted(text: str) -> str:
    if len(text) > 1 and text[0] == text[-1] == "'":
        return text[1:-1].replace("''", "'")
    if len(text) > 1 and text[0] == text[-1] == '"':
        try:
            return str(json.loads(text))
        except ValueError:
            return text[1:-1]
    return text


def _is_open_descriptor(text: str) -> bool:
    """Whether a descriptor has a quotation mark before it and none behind: then it may be cut."""
    return text[:1] in ("'", '"') and (len(text) == 1 or text[-1] != text[0]) and looks_like_descriptor(text[1:])


class _Record:
    """The fields of an object, and where they stand. above is the title of a map of YAML that it is in."""

    def __init__(self, begin: int, column: int, above: str) -> None:
        self.begin, self.column, self.above = begin, column, above
        self.fields: List[_Field] = []
        self.titles: Set[str] = set()

    def add(self, found: "re.Match[str]") -> None:
        self.titles.add(found["title"])
        self.fields.append(_Field(found["title"], bool(found["padding"]), [found["value"]], [len(found[0])]))

    def takes(self, line: str, column: int, found: "Optional[re.Match[str]]", is_item: bool) -> bool:
        """Whether a line goes on in the record: with a further title, or in the value of the last one."""
        if found is not None and column == self.column and found["title"] not in self.titles:
            self.add(found)
            return True
        if is_item or not line.strip() or column <= self.column:
            return False
        self.fields[-1].lines.append(line)
        self.fields[-1].widths.append(len(line))
        return True

    def members(self) -> Dict[str, str]:
        width = max(width for field in self.fields for width in field.widths)
        return {field.title: field.value(width) for field in self.fields}


def _item(record: _Record, label: str, options: SourceOptions) -> List[Item]:
    members = record.members()
    titles = list(members)
    is_open = any(map(_is_open_descriptor, members.values()))
    is_described = options.descriptor_column in members or bool(ranked(titles, DESCRIPTOR_NAMES))
    if not is_open and (is_described or any(map(looks_like_descriptor, members.values()))):
        return items_of_element(members, label, record.begin, options, record.above)
    name = next((members[titles[at]] for at in ranked(titles, NAME_NAMES) if members[titles[at]]), record.above)
    reason = "the quotation mark before the descriptor isn't closed" if is_open else \
        f"the list has no descriptor; it has {', '.join(titles[:10])}"
    return [unreadable(name or f"{label}:{record.begin}", label, record.begin, reason, _EXPORT, options.kind or "file")]


def _recognizes(look: Look) -> bool:
    """Whether titles with a descriptor, or those of Get-Acl, stand one below the other."""
    if any(one.recognizes(look) for one in (wevtutil.FORMAT, ldif.FORMAT, json_text.FORMAT, json_text.LINES_FORMAT)):
        return False
    found = [one for one in map(_TITLE.match, look.lines) if one]
    if not any(map(_RECORD.match, look.lines)):  # a table of psql has lines between its columns too
        found = [one for one in found if "|" not in one[0][:one.start("value")]]
    plain = {plain_name(one["title"]) for one in found}
    described = any(plain_name(one["title"]) in DESCRIPTOR_NAMES
                    and looks_like_descriptor(_unquoted(one["value"].strip()))
                    for one in found)
    return described or bool(plain & {"path", "pspath"} and plain & _OF_ACLS)


def _read(source: Lines, label: str, options: SourceOptions) -> Iterator[Piece]:
    record: Optional[_Record] = None
    end = 1  # the line behind the record
    above = ""
    for number, line in enumerate(source, 1):
        found = _TITLE.match(line)
        column = len(found["front"]) if found else len(line) - len(line.lstrip())
        is_item = found is not None and "-" in found["front"]
        if record is not None and record.takes(line, column, None if is_item else found, is_item):
            end = number + 1
            continue
        if record is not None:
            yield Piece(record.begin, end, _item(record, label, options))
            record, above = None, ""
        if not line.strip():
            yield Piece(number, number + 1, _BLANK)
        elif _HEAD_LINE.match(line):
            yield Piece(number, number + 1, _HEAD)
            title = line.strip()
            is_name = title[-1] in ":]" and title[0] not in "-*" and title[:2] != "[["
            above = _unquoted(title.strip("[]").rstrip(":")) if is_name else ""
        elif found:
            record, end = _Record(number, column, "" if is_item else above), number + 1
            record.add(found)
        else:
            reason = f"{line.strip()[:80]!r} is no title with a value"
            lost = strange_item(line, label, number, reason, _EXPORT, options.kind or "file")
            yield Piece(number, number + 1, lost, named_in(line) is None)
    if record is not None:
        yield Piece(record.begin, end, _item(record, label, options))


FORMAT = Format("list", "Get-Acl | Format-List, sqlite3 -line, YAML", "titles with values, and any other line",
                (_BLANK, _HEAD), _recognizes, _read, guess=BY_NAMES)
