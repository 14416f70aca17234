"""What samba-tool ntacl get prints without --as-sddl: dumps of Samba's structures, one for each file."""
import re
from typing import Dict, Iterator, List, Optional, Set, Tuple

from sdtool.audit.sources.frame import Format, Lines, Look, Piece
from sdtool.audit.sources.items import Item, item_of, unreadable
from sdtool.audit.sources.messages import strange_item
from sdtool.audit.sources.options import SourceOptions
from sdtool.audit.sources.samba import CONTROL_NAMES, Unknown, flags_text

# A line of Samba's dump of a structure: a name, a colon and a value.
_DUMPED = re.compile(r"\s*(\w+)(?:\([0-9]+\))?\s*: ?(.*)")
_HEAD = re.compile(r"\s*\w+ *: struct security_descriptor\s*\Z")
_NUMBER = re.compile(r".*\(([0-9]{1,18})\)\s*\Z")
_GUID = re.compile(r"[0-9a-f]{8}-[0-9a-f]{4}-[0-9a-f]{4}-[0-9a-f]{4}-[0-9a-f]{12}\Z", re.I)
_ACE_TYPES = {0: "A", 1: "D", 2: "AU", 5: "OA", 6: "OD", 7: "OU", 0x11: "ML"}
_SACL_NAMES = ((0x2000, "P"), (0x200, "AR"), (0x800, "AI"))
_SELF_RELATIVE = 0x8000
_HELP = "use samba-tool ntacl get --as-sddl"
_BLANK = "a blank line"
_FIELDS = {"revision", "type", "owner_sid", "group_sid", "sacl", "dacl", "size", "num_aces", "aces", "flags",
           "access_mask",
           "object", "trustee", "inherited_type", "security_descriptor", "coda", "ignored"}


def _recognizes(look: Look) -> bool:
    return any(_HEAD.match(line) for line in look.lines)


def _number(text: str) -> int:
    found = _NUMBER.match(text)
    if not found:
        raise Unknown(f"{text.strip()!r} is no number")
    return int(found[1])


class _Dump:
    """A descriptor as Samba dumps it, in the order of its lines."""

    def __init__(self) -> None:
        self.control: Optional[int] = None
        self.sids: Dict[str, str] = {}
        self.acls: Dict[str, Optional[List[Dict[str, str]]]] = {}
        self._acl: Optional[List[Dict[str, str]]] = None
        self._awaited: Set[str] = {"owner_sid", "group_sid", "sacl", "dacl"}  # what has to come
        self._count = 0  # of the ACEs that the dump says there are

    def add(self, name: str, value: str) -> None:
        if name == "num_aces":
            self._count += _number(value)
            self._awaited.discard("num_aces")
        elif name == "type" and self.control is None:
            self.control = _number(value)
        elif name in ("owner_sid", "group_sid") and value.startswith("S-1-"):
            if name[0].upper() in self.sids:
                raise Unknown(f"two lines have {name}")
            self.sids[name[0].upper()] = value
            self._awaited.discard(name)
        elif name in ("owner_sid", "group_sid") and value == "NULL":
            self._awaited.discard(name)
        elif name in ("sacl", "dacl") and value in ("NULL", "*"):
            if name in self.acls or "num_aces" in self._awaited:
                raise Unknown("the dump is cut")
            self._acl = None if value == "NULL" else []
            self.acls[name] = self._acl
            self._awaited.discard(name)
            self._awaited |= set() if self._acl is None else {"num_aces"}
        elif name == "aces" and value == "struct security_ace" and self._acl is not None:
            self._acl.append({})
        elif self._acl:
            self._add_to_ace(self._acl[-1], name, value)

    @staticmethod
    def _add_to_ace(ace: Dict[str, str], name: str, value: str) -> None:
        if name == "type" and "type" not in ace:
            kind = _number(value)
            if kind not in _ACE_TYPES:
                raise Unknown(f"an ACE has the type {kind}, which isn't supported")
            ace["type"] = _ACE_TYPES[kind]
        elif name in ("type", "inherited_type") and _GUID.match(value):
            ace["object" if name == "type" else "inherited"] = value
        elif name == "flags":
            number = _number(value)
            if "flags" in ace:  # the second says which object types there are
                ace["types"] = str(number)
            else:
                ace["flags"] = flags_text(number)
        elif name == "access_mask":
            ace["mask"] = hex(_number(value))
        elif name == "trustee":
            ace["sid"] = value
        elif name == "size":
            ace["size"] = str(_number(value))
        elif name == "ignored":
            ace["rest"] = value

    def sddl(self) -> str:
        if self._awaited or self.control is None or not self.control & _SELF_RELATIVE or self._count != sum(
                len(aces) for aces in self.acls.values() if aces is not None):
            raise Unknown("the dump is cut")
        text = "".join(f"{part}:{sid}" for part, sid in self.sids.items())
        for part, present, names in (("dacl", 0x4, CONTROL_NAMES), ("sacl", 0x10, _SACL_NAMES)):
            if not self.control & present:
                continue
            flags = "".join(name for bit, name in names if self.control & bit)
            if part not in self.acls:
                raise Unknown("the dump is cut")
            aces = self.acls[part]
            text += f"{part[0].upper()}:{flags}" + ("NO_ACCESS_CONTROL" if aces is None
                                                    else "".join(map(_ace_text, aces)))
        return text


def _ace_text(ace: Dict[str, str]) -> str:
    if not {"type", "flags", "mask", "sid"} <= set(ace):
        raise Unknown("the dump is cut")
    if ace["type"].startswith("O") and int(ace.get("types", "-1")) & 3 != ("object" in ace) + 2 * ("inherited" in ace):
        raise Unknown("the dump is cut: an object type is missing")
    # A SID that is cut may be another one. Behind the SID other bytes may stand.
    length = 8 + 4 * ace["type"].startswith("O") + 16 * (("object" in ace) +
                                                         ("inherited" in ace)) + 8 + 4 * (ace["sid"].count("-") - 2)
    if length < int(ace.get("size", "0")) and "length=" not in ace.get("rest", ""):
        raise Unknown("the dump is cut: a SID is shorter than its ACE says")
    return (f"({ace['type']};{ace['flags']};{ace['mask']};{ace.get('object', '')};{ace.get('inherited', '')};"
            f"{ace['sid']})")


def sddl_of(lines: List[str]) -> str:
    """The SDDL of the lines of one dump."""
    dump = _Dump()
    for line in lines:
        found = _DUMPED.match(line)
        if found:
            dump.add(found[1], found[2].strip())
    return dump.sddl()


def _item(number: int, block: List[str], label: str, kind: str) -> Item:
    try:
        if not _HEAD.match(block[0]):
            raise Unknown("the first line of the dump is missing")
        return item_of(f"{label}:{number}", label, number, sddl_of(block), kind)
    except Unknown as error:
        return unreadable(f"{label}:{number}", label, number, str(error), _HELP, kind)


def _is_dumped(line: str) -> bool:
    """Whether a line is one of a dump: a field, or the name of a flag that is set or not."""
    found = _DUMPED.match(line)
    return bool(found) and (found[1] in _FIELDS or bool(re.match(r"[01]: ", line.strip()))  # type: ignore[index]
                            or line.startswith("      "))


def _read(source: Lines, label: str, options: SourceOptions) -> Iterator[Piece]:
    kind = options.kind or "file"
    block: List[Tuple[int, str]] = []

    def ended() -> Iterator[Piece]:
        if block:
            begin = block[0][0]
            yield Piece(begin, block[-1][0] + 1, _item(begin, [line for _, line in block], label, kind))
            block.clear()

    for number, line in enumerate(source, 1):
        if _HEAD.match(line):
            yield from ended()
            block.append((number, line))
        elif _is_dumped(line):
            block.append((number, line))
        else:
            yield from ended()
            if not line.strip():
                yield Piece(number, number + 1, _BLANK)
            else:
                lost = strange_item(line, label, number, f"{line[:200]!r} is no line of a dump", _HELP, kind)
                yield Piece(number, number + 1, lost, True)
    yield from ended()


FORMAT = Format("ndr", "samba-tool ntacl get", "a dump, also without its first line, and any other line", (_BLANK,),
                _recognizes, _read)
