"""What smbcacls --numeric prints, of one file or of several, one after the other. It prints no names; sharesec prints
that of a share in brackets."""
import re
from typing import Dict, Iterator, List, Tuple

from sdtool.audit.sources.frame import Format, Lines, Look, Piece
from sdtool.audit.sources.items import Item, item_of, unreadable
from sdtool.audit.sources.messages import strange_item
from sdtool.audit.sources.options import SourceOptions
from sdtool.audit.sources.samba import CONTROL_NAMES, Unknown, flags_text

# ACL:SID:TYPE/FLAGS/MASK. Names instead of SIDs can't be looked up here, and a mask of fewer digits is cut.
_ACE_LINE = re.compile(r"ACL:(S-1-[0-9x-]+):(\w+)/(?:0x([0-9a-f]{1,8})|([0-9]{1,9}))/(0x[0-9a-f]{8})\Z", re.I)
_WORD = re.compile(r"(REVISION|CONTROL|OWNER|GROUP|ACL):", re.I)
_SHARE = re.compile(r"\[(.+)\]\Z")
_SID = re.compile(r"S-1-[0-9a-fA-Fx-]+\Z", re.I)
_KINDS = {"0": "A", "1": "D", "0x0": "A", "0x1": "D"}
_HELP = "use smbcacls --sddl, or --numeric; for a share, sharesec NAME --viewsddl"
_BLANK = "a blank line"


def _recognizes(look: Look) -> bool:
    return any(re.match(r"REVISION:[0-9]+\s*\Z", line, re.I) for line in look.lines)


def _sddl(block: List[str]) -> str:
    """The SDDL of the lines of one file."""
    fields: Dict[str, str] = {}
    aces = []
    for line in block:
        word, _, rest = line.partition(":")
        if word.upper() != "ACL":
            if word.upper() in fields:
                raise Unknown(f"two lines have {word.upper()}: {fields[word.upper()]!r} and {rest.strip()!r}")
            fields[word.upper()] = rest.strip()
            continue
        found = _ACE_LINE.match(line.strip())
        if not found or found[2].lower() not in _KINDS:
            raise Unknown(f"{line.strip()[:200]!r} names no SID or isn't numeric")
        flags = int(found[3], 16) if found[3] else int(found[4])
        aces.append(f"({_KINDS[found[2].lower()]};{flags_text(flags)};{found[5]};;;{found[1]})")
    for part in ("REVISION", "OWNER", "GROUP"):
        if part not in fields:
            raise Unknown(f"the line with {part} is missing")
        if part != "REVISION" and fields[part] and not _SID.match(fields[part]):
            raise Unknown(f"{part.lower()} {fields[part]!r} is a name")
    control = fields.get("CONTROL", "")
    if not re.fullmatch("0x[0-9a-fA-F]+", control):
        raise Unknown(f"control {control!r} isn't numeric")
    bits = int(control, 16)
    text = "".join(f"{part[0]}:{fields[part]}" for part in ("OWNER", "GROUP") if fields[part])
    if not bits & 0x4:
        return text or " "
    if not aces:
        raise Unknown("the list of ACEs is empty or null, which smbcacls prints alike")
    return text + "D:" + "".join(name for bit, name in CONTROL_NAMES if bits & bit) + "".join(aces)


def _item(number: int, block: List[str], label: str, kind: str) -> Item:
    share = _SHARE.match(block[0])
    if share and len(block) == 1:
        return unreadable(f"{label}:{number}", label, number, f"{block[0][:200]!r} is no line of a descriptor",
                          _HELP, kind)
    name, lines = (share[1], block[1:]) if share else (f"{label}:{number}", block)
    try:
        return item_of(name, label, number, _sddl(lines), kind)
    except Unknown as error:
        return unreadable(name, label, number, str(error), _HELP, kind)


def _begins(word: str, block: List[Tuple[int, str]]) -> bool:
    """Whether a line is of another descriptor than those before it, of which the first may be missing."""
    if word not in ("REVISION", "CONTROL"):
        return False
    words = {line.partition(":")[0].upper() for _, line in block if not _SHARE.match(line)}
    return word == "REVISION" and bool(words) or word == "CONTROL" and bool(words & {"CONTROL", "ACL"})


def _read(source: Lines, label: str, options: SourceOptions) -> Iterator[Piece]:
    kind = options.kind or "file"
    block: List[Tuple[int, str]] = []

    def ended() -> Iterator[Piece]:
        if block:
            begin = block[0][0]
            yield Piece(begin, block[-1][0] + 1, _item(begin, [line for _, line in block], label, kind),
                        bool(_SHARE.match(block[-1][1])))
            block.clear()

    for number, line in enumerate(source, 1):
        found = _WORD.match(line)
        if _SHARE.match(line):
            yield from ended()
            block.append((number, line))
            continue
        if found:
            if _begins(found[1].upper(), block):
                yield from ended()
            block.append((number, line))
            continue
        yield from ended()
        if not line.strip():
            yield Piece(number, number + 1, _BLANK)
        else:
            lost = strange_item(line, label, number, f"{line[:200]!r} is no line of a descriptor", _HELP, kind)
            yield Piece(number, number + 1, lost, True)
    yield from ended()


FORMAT = Format("smbcacls", "smbcacls --numeric", "a descriptor, also without its first line, and any other line",
                (_BLANK,), _recognizes, _read)
