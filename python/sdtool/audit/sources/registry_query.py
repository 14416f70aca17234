"""What reg query prints: the name of a key, and below it its values, set in."""
import re
from typing import Iterator, Optional

from sdtool.audit.sources.frame import BY_NAMES, Format, Lines, Look, Piece
from sdtool.audit.sources.items import LONGEST_NAME
from sdtool.audit.sources.messages import strange_item
from sdtool.audit.sources.options import SourceOptions
from sdtool.audit.sources.registry import Value, item_of_value

_KEY = re.compile(r"HKEY_[A-Z_]+(?:\\.*)?\Z|HK(?:LM|CU|CR|U|CC)(?:\\.*)?\Z", re.I)
_TYPE = re.compile(r"(?<=[ \t])REG_(?P<type>[A-Z_]+)(?=[ \t]|\Z)")
_DIGITS = re.compile(r"(?:[0-9a-f]{2})*\s*\Z", re.I)
_END = re.compile(r"(?:End of search|Ende der Suche): ")
_BLANK, _KEY_LINE, _OTHER = "a blank line", "the name of a key", "a value that is no descriptor"
_AGAIN = "run reg query again"


def _recognizes(look: Look) -> bool:
    values = (line[:1] in (" ", "\t") and bool(_TYPE.search(line)) for line in look.lines)
    return any(map(_KEY.match, look.lines)) and any(values)


def _value(number: int, found: "re.Match[str]") -> Value:
    """A value in the form of an export."""
    name, data = found.string[:found.start()].strip(), found.string[found.end():].strip()
    name = "" if re.fullmatch(r"\([^()]*\)|<[^<>]*>", name) else name  # what stands for the value without a name
    if found["type"] != "BINARY":
        return Value(number, number + 1, name, '"' + data.replace("\\", "\\\\").replace('"', '\\"') + '"')
    reason = "" if _DIGITS.match(data) else "the value has something other than hex digits"
    return Value(number, number + 1, name, "hex:" + data.lower(), reason)


def _read(source: Lines, label: str, options: SourceOptions) -> Iterator[Piece]:
    key: Optional[str] = None
    for number, line in enumerate(source, 1):
        found = _TYPE.search(line) if line[:1] in (" ", "\t") else None
        if not line.strip() or _END.match(line):
            yield Piece(number, number + 1, _BLANK)
        elif _KEY.match(line) and len(line) <= LONGEST_NAME:
            key = line.strip()
            yield Piece(number, number + 1, _KEY_LINE)
        elif found:
            taken = item_of_value(key, _value(number, found), label, options)
            yield Piece(number, number + 1, _OTHER if isinstance(taken, str) else taken)
        else:
            reason = f"{line.strip()[:80]!r} is neither a key nor a value"
            lost = strange_item(line, label, number, reason, _AGAIN, options.kind or "file")
            key = None if _KEY.match(line) else key
            yield Piece(number, number + 1, lost, True)


FORMAT = Format("reg-query", "reg query KEY /s", "a value that is a descriptor, and any other line",
                (_BLANK, _KEY_LINE, _OTHER), _recognizes, _read, guess=BY_NAMES)
