"""What programs print that has not all of a descriptor, and which command writes what can be read. Each object that
they list is one that can't be read."""
import itertools
import re
from typing import Callable, Iterator, List, NamedTuple, Optional, Tuple

from sdtool.audit.sources.frame import Format, Lines, Look, Piece
from sdtool.audit.sources.items import Item, looks_like_descriptor, unreadable
from sdtool.audit.sources.messages import named_in, strange_item
from sdtool.audit.sources.options import SourceOptions


class _Printed(NamedTuple):
    """Lines of a program: what most of them, or some of them, look like, and the name of the object that begins with a
    line, by that line and the next one."""

    what: str
    help: str
    recognizes: Callable[[List[str]], bool]
    name: Callable[[str, str], str]


_ICACLS = re.compile(r".*:(\((DENY|[A-Z]{1,3}(,[A-Z]{1,3})*)\))+\s*\Z")
_CACLS = re.compile(r".*[\w$)]:(\((OI|CI|IO|ID|NP)\))*([NRWCF]|\(special access:\))\s*\Z|\s+[A-Z]+(_[A-Z]+)*\s*\Z")
_ENDED = re.compile(r"(Successfully|Erfolgreich) ")
_ACCESSCHK = re.compile(r"Accesschk v[0-9]|\s+(RW|R | W)\s+\S|\s+\[[0-9]+\] [A-Z_]+_ACE_TYPE: ", re.I)
_BANNER = re.compile(r"Accesschk v[0-9]|Copyright |Sysinternals", re.I)
_SUBINACL = re.compile(r"/(?:control|owner|primary group|pace|aace|perm\. ace count|audit ace count)\s*=")
_OF_SUBINACL = re.compile(r"\+\w+ (.+)")
_DSACLS = re.compile(r"(?:Access list|Effective Permissions on this object are|Permissions inherited to subobjects "
                     r"are):\s*\Z", re.I)


def _most(pattern: "re.Pattern[str]") -> Callable[[List[str]], bool]:
    return lambda lines: 2 * sum(bool(pattern.match(line)) for line in lines) > len(lines)


def _some(pattern: "re.Pattern[str]") -> Callable[[List[str]], bool]:
    return lambda lines: any(map(pattern.match, lines))


def _is_table(lines: List[str]) -> bool:
    """Whether lines are those of Format-Table, which Get-Acl prints by itself."""
    return any(re.match(r"(Path|PSPath|PSChildName)\s+\w", one) and re.match(r"(-+\s+)+-+\s*\Z", two)
               for one, two in zip(lines, lines[1:]))


def _in_front(line: str, following: str) -> str:
    """The name in front of the first account: the lines below are set in by its length."""
    if line[:1].isspace() or _ENDED.match(line):
        return ""
    front = len(following) - len(following.lstrip())
    return line[:front].strip() if 0 < front < len(line) and line[front - 1] == " " else line.strip()


def _of_accesschk(line: str, following: str) -> str:
    return "" if line[:1].isspace() or _BANNER.match(line) else line.strip()


def _of_subinacl(line: str, following: str) -> str:
    found = _OF_SUBINACL.match(line)
    return found[1] if found else ""


def _of_table(line: str, following: str) -> str:
    """The first cell of a row, which isn't set in as the name of the folder above the table is."""
    is_head = re.match(r"(Path|PSPath|PSChildName)\s+\w|-+\s", line)
    return "" if line[:1].isspace() or is_head else re.split(r"\s{2,}|\s(?=\S+\\)", line)[0]


def _unnamed(line: str, following: str) -> str:
    return ""


_EXPORT = "Get-Acl .. | Select-Object Path,Sddl | Export-Csv -Encoding UTF8 FILE writes what can be read"
_SAVE = "icacls FOLDER /save FILE /t writes what can be read"
_PRINTED = (
    _Printed("AccessChk", _SAVE, _some(_ACCESSCHK), _of_accesschk),
    _Printed("SubInACL", _SAVE, _some(_SUBINACL), _of_subinacl),
    _Printed("dsacls", "ldifde, or Get-ADObject with nTSecurityDescriptor, writes what can be read",
             _some(_DSACLS), _unnamed),
    _Printed("Get-Acl", _EXPORT, _is_table, _of_table),
    _Printed("icacls without /save", _SAVE, _most(_ICACLS), _in_front),
    _Printed("cacls", _SAVE, _most(_CACLS), _in_front),
    _Printed("sc, which failed,", "sc sdshow NAME writes what can be read, as an administrator",
             lambda lines: lines[0].startswith("[SC] ") and not any(map(looks_like_descriptor, lines)), _unnamed),
)
_BEFORE = "lines before the first object"


def _printed(look: Look) -> Optional[_Printed]:
    lines = [line for line in look.full() if not _ENDED.match(line)]
    return next((one for one in _PRINTED if lines and one.recognizes(lines)), None)


def _recognizes(look: Look) -> bool:
    return _printed(look) is not None


class _Reading:
    """What was printed, line by line."""

    def __init__(self, lines: List[str], label: str, kind: str) -> None:
        found = _printed(Look("", lines, True))
        self._name = found.name if found else _unnamed
        self._help = found.help if found else "look at what wrote it"
        self._reason = f"this is what {found.what if found else 'a program'} prints, which has not all of a descriptor"
        self._label, self._kind = label, kind

    def item(self, line: str, following: str, number: int) -> Optional[Item]:
        """The object that begins with a line."""
        if self._name is not _unnamed and named_in(line) is not None:
            return strange_item(line, self._label, number, "", "", self._kind)
        name = self._name(line, following) if line.strip() else ""
        return unreadable(name[:1000], self._label, number, self._reason, self._help, self._kind) if name else None

    def whole(self) -> Item:
        """What stands for a source whose objects have no names."""
        return unreadable(self._label, self._label, 0, self._reason, self._help, self._kind)


_MOST_LOOKED = 200  # lines


def _read(source: Lines, label: str, options: SourceOptions) -> Iterator[Piece]:
    lines = iter(source)
    first = list(itertools.islice(lines, _MOST_LOOKED))
    reading = _Reading(first, label, options.kind or "file")
    begin, item = 1, None
    number = 0
    for number, (line, following) in enumerate(_pairs(itertools.chain(first, lines)), 1):
        found = reading.item(line, following, number)
        if found is None:
            continue
        if number > begin:
            yield Piece(begin, number, _BEFORE if item is None else item)
        begin, item = number, found
    if number:
        yield Piece(begin, number + 1, reading.whole() if item is None else item)


def _pairs(lines: Iterator[str]) -> Iterator[Tuple[str, str]]:
    """Each line with the next one."""
    before: Optional[str] = None
    for line in lines:
        if before is not None:
            yield before, line
        before = line
    if before is not None:
        yield before, ""


FORMAT = Format("printed", "icacls without /save, cacls, Get-Acl alone, AccessChk, SubInACL, dsacls, sc that failed",
                "an object that is listed, or the source", (_BEFORE,), _recognizes, _read, is_sure=False)
