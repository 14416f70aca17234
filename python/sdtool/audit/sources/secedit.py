"""Security templates, which secedit /export writes."""
import re
from typing import Iterator, List, Optional, Tuple, Union

from sdtool.audit.sources.frame import Format, Lines, Look, Piece
from sdtool.audit.sources.items import WITHOUT_OWNER, Item, item_of, looks_like_descriptor, shortened, unreadable
from sdtool.audit.sources.options import SourceOptions

_KINDS = {"file security": "file", "registry keys": "key", "service general setting": "service"}
_OTHERS = {"unicode", "version", "profile description", "system access", "event audit", "registry values",
           "privilege rights",
           "kerberos policy", "application log", "security log", "system log", "group membership", "strings"}
_TITLE = re.compile(r"\s*\[([^\[\]]*)\]\s*\Z")
_SETTING = re.compile(r'\s*[^\s",=][^",=]*=')
_FIELD = re.compile(r'[ \t]*(?:"((?:[^"]|"")*)"|((?:[^",\s](?:[^,]*[^,\s])?)?))[ \t]*(,|\Z)')
_BLANK, _COMMENT, _SECTION, _OTHER = "a blank line", "a comment", "the title of a section", "a setting (name = value)"
_AGAIN = "run secedit /export again"


def _recognizes(look: Look) -> bool:
    titles = (_TITLE.match(line) for line in look.lines)
    return any(title and (title[1].strip().lower() in _OTHERS or title[1].strip().lower() in _KINDS)
               for title in titles)


def _fields_of(text: str) -> List[str]:
    """The fields of a row, with blanks around its commas or without; none if it is malformed."""
    row: List[str] = []
    at = 0
    while True:
        found = _FIELD.match(text, at)
        if not found:
            return []
        row.append(found[2] if found[1] is None else found[1].replace('""', '"'))
        if not found[3]:
            return row
        at = found.end()


def _row_item(text: str, label: str, number: int, kind: str) -> Item:
    row = _fields_of(text)
    if len(row) != 3:
        reason = (f"the line has {len(row)} fields, not 3"
                  if row else "malformed line: a quotation mark doesn't end its field")
        return unreadable(text[:1000], label, number, reason, _AGAIN, kind)
    return item_of(row[0], label, number, row[2], kind)._replace(place=WITHOUT_OWNER)


def _has_descriptor(text: str) -> bool:
    return any(looks_like_descriptor(part.strip(' "')) for part in re.split("[,=]", text))


def _taken(line: str, section: Optional[str], label: str, number: int,
           options: SourceOptions) -> Tuple[Union[Item, str], bool]:
    """What a line is that is no title."""
    text = line.strip()
    if not text:
        return _BLANK, False
    if text.startswith(";"):
        return _COMMENT, False
    if section in _KINDS:
        return _row_item(text, label, number, options.kind or _KINDS[section]), False
    if _SETTING.match(text) and not _has_descriptor(text) and section is not None:
        return _OTHER, False
    where = "before the first section" if section is None else f"in section [{shortened(section)}]"
    row = _row_item(text, label, number, options.kind or "file")
    return unreadable(row.name if row.form else text[:1000], label, number,
                      f"an object or a line that isn't known, {where}",
                      "objects stand in [File Security], [Registry Keys] and [Service General Setting]",
                      options.kind or "file"), text.count(",") < 2 or section is None


def _read(source: Lines, label: str, options: SourceOptions) -> Iterator[Piece]:
    """The objects of the three sections that have descriptors. What looks like one in another is told."""
    section: Optional[str] = None
    for number, line in enumerate(source, 1):
        title = _TITLE.match(line)
        if title:
            section = title[1].strip().lower()
            yield Piece(number, number + 1, _SECTION)
            continue
        taken, is_strange = _taken(line, section, label, number, options)
        yield Piece(number, number + 1, taken, is_strange)


FORMAT = Format("secedit", "secedit /export /cfg FILE",
                "a row of [File Security], [Registry Keys] or [Service General Setting]",
                (_BLANK, _COMMENT, _SECTION, _OTHER), _recognizes, _read)
