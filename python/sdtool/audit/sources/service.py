"""What sc sdshow prints: an empty line before each descriptor, and no name."""
import re
from typing import Iterator

from sdtool.audit.sources.frame import Format, Lines, Look, Piece
from sdtool.audit.sources.items import item_of, unreadable
from sdtool.audit.sources.options import SourceOptions

_ACL_LINE = re.compile(r"[DSOG]:(?![\\/])", re.I)
# sc prints no owner, and all rights of services in pairs of letters. These don't spell the right to synchronize, which
# each ACE of a file has. LO is to interrogate the service.
_OTHER_RIGHTS = re.compile(r"\([AD];[^;]*;(?!(?:CC|DC|LC|SW|RP|WP|DT|LO|CR|SD|RC|WD|WO|GA|GR|GW|GX)*;)", re.I)
_INTERROGATE = re.compile(r"\(A;[^;]*;(?:[A-Z]{2})*?LO", re.I)
# In `sc sdshow scmanager`, to connect, to list services and to query the lock go together.
_MANAGER = re.compile(r";CCLCRP(?:WP)?RC;", re.I)
_BLANK = "an empty line before a descriptor or at the end"


def _is_of_service(text: str) -> bool:
    return bool(_MANAGER.search(text)) or bool(_INTERROGATE.search(text)) and not _OTHER_RIGHTS.search(text)


def _recognizes(look: Look) -> bool:
    """Whether most descriptors of what was looked at stand behind an empty line, and all that aren't cut are of
    services."""
    found = [(before, text) for before, text in zip(["-", *look.lines], look.lines) if _ACL_LINE.match(text)]
    whole = [text for _, text in found if text.count("(") == text.count(")")]
    is_behind = 2 * sum(not before.strip() for before, _ in found) > len(found)
    return (is_behind and bool(whole) and all(map(_is_of_service, whole))
            and not any(text[0] in "OGog" for _, text in found))


def _read(source: Lines, label: str, options: SourceOptions) -> Iterator[Piece]:
    was_blank = False
    for number, line in enumerate(source, 1):
        kind = options.kind or ("service-manager" if _MANAGER.search(line) else "service")
        if line.strip():
            yield Piece(number, number + 1, item_of(f"{label}:{number}", label, number, line, kind))
        elif was_blank:
            yield Piece(number, number + 1,
                        unreadable(f"{label}:{number}", label, number, "no descriptor follows the empty line",
                                   "run sc sdshow again", kind), True)
        else:
            yield Piece(number, number + 1, _BLANK)
        was_blank = not line.strip()


FORMAT = Format("sc", "sc sdshow NAME", "a line that isn't empty", (_BLANK,), _recognizes, _read, is_sure=False,
                guess="which prints the rights of services")
