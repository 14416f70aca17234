"""What samba-tool dsacl get prints of directory objects: a line with the name, then the SDDL."""
import re
from typing import Iterator, Optional, Tuple

from sdtool.audit.sources.frame import Format, Lines, Look, Piece
from sdtool.audit.sources.items import item_of, looks_like_descriptor, unreadable
from sdtool.audit.sources.messages import strange_item
from sdtool.audit.sources.options import SourceOptions

_NAME = re.compile(r"descriptor for (.*):\Z")
_BLANK = "a blank line"
_AGAIN = "run samba-tool dsacl get again"


def _recognizes(look: Look) -> bool:
    return any(map(_NAME.match, look.lines))


def _read(source: Lines, label: str, options: SourceOptions) -> Iterator[Piece]:
    kind = options.kind or "ds"
    name: Optional[Tuple[int, str]] = None

    def without_descriptor() -> Iterator[Piece]:
        if name is not None:
            yield Piece(name[0], name[0] + 1,
                        unreadable(name[1], label, name[0], "no descriptor follows the name", _AGAIN, kind))

    for number, line in enumerate(source, 1):
        found = _NAME.match(line)
        if name is not None and not found and looks_like_descriptor(line):
            yield Piece(name[0], number + 1, item_of(name[1], label, name[0], line, kind))
            name = None
            continue
        yield from without_descriptor()
        name = (number, found[1]) if found else None
        if not found and not line.strip():
            yield Piece(number, number + 1, _BLANK)
        elif not found:
            lost = strange_item(line, label, number, f"{line[:200]!r} is neither a name nor its descriptor",
                                _AGAIN, kind)
            yield Piece(number, number + 1, lost, True)
    yield from without_descriptor()


FORMAT = Format("dsacl", "samba-tool dsacl get", "a name with its descriptor, also without, and any other line",
                (_BLANK,), _recognizes, _read)
