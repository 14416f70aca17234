"""Where the fault of bytes (MS-DTYP 2.4.6) or of SDDL (2.5.1) is: its part, its ACE, its field, and a range of the
input."""
import re
from typing import NamedTuple, Optional

from .binary import HEADER, read, read_ace, read_sid
from .parts import (ACE_HEADER, ACL_HEADER, INHERITED_OBJECT_TYPE_PRESENT, LARGEST_ACL, OBJECT_TYPE_PRESENT,
                    OBJECT_TYPES, Fault)
from .sddl_reading import (BLANKS, PART_TEXT, ace_of_text, acl_of_text, bits_of_text, from_sddl, guid_of_text,
                           parts_of_sddl, rights_of_text, sid_of_text)
from .tables import ACE_FLAGS, KINDS

OFFSETS = {"owner": 4, "group": 8, "sacl": 12, "dacl": 16}  # of the offsets in the header
FIELDS = {9: "sid", 11: "size", 12: "kind", 13: "flags"}
SIZE_OF_ACE_HEADER = 4  # type, flags and size


class Place(NamedTuple):
    part: Optional[str]
    ace: Optional[int]  # from 0
    field: Optional[str]
    offset: int
    size: int


def range_of(start, size, end):
    """A range, cut by the end of what holds it."""
    return start, min(size, end - start)


def acl_range(data, start):
    return start, ACL_HEADER.unpack_from(data, start)[2]


def sid_range(data, start, end):
    """As many bytes as the SID's count asks for, whatever it is."""
    return range_of(start, 8 + 4 * data[start + 1], end)


def faulty_ace(data, start, part):
    """The number of the first ACE that does not read, where it begins, and where its ACL ends."""
    number, at, end = 0, start + ACL_HEADER.size, sum(acl_range(data, start))
    while True:
        try:
            at += read_ace(data[at:end], part)[1]
        except Fault:
            return number, at, end
        number += 1


def sid_start(data, at):
    """Where the SID of the ACE at a place begins."""
    announced = data[at + ACE_HEADER.size] if data[at] in OBJECT_TYPES else None
    if announced is None:
        return at + ACE_HEADER.size
    guids = bool(announced & OBJECT_TYPE_PRESENT) + bool(announced & INHERITED_OBJECT_TYPE_PRESENT)
    return at + ACE_HEADER.size + 4 + 16 * guids


def part_range(data, part):
    """The whole extent of a part that reads."""
    start = HEADER.unpack_from(data)[3 + list(OFFSETS).index(part)]
    return (start, read_sid(data[start:], part).size()) if part in ("owner", "group") else acl_range(data, start)


def place_of(data, fault):
    number, _, *parts = fault.args
    if not parts:
        return Place(None, None, None, *{5: (len(data), 0), 6: (0, 1), 7: (2, 2)}[number])
    part = parts[-1]
    if number == 8:
        return Place(part, None, None, OFFSETS[part], 4)
    if number == 14:
        return Place(part, None, None, *part_range(data, part))
    start = int.from_bytes(data[OFFSETS[part]:][:4], "little")
    if number == 10:
        return Place(part, None, None, start, ACL_HEADER.size)
    if part in ("owner", "group"):
        return Place(part, None, FIELDS[number], *sid_range(data, start, len(data)))
    ace, at, end = faulty_ace(data, start, part)
    if number == 9:
        size = int.from_bytes(data[at + 2:at + 4], "little")
        return Place(part, ace, FIELDS[number], *sid_range(data, sid_start(data, at), at + size))
    return Place(part, ace, FIELDS[number], *range_of(at, SIZE_OF_ACE_HEADER, end))


def place_of_bytes(data):
    """The first fault of the bytes and its place, or None where they show a descriptor."""
    try:
        read(data)
    except Fault as fault:
        return str(fault), place_of(data, fault)
    return None


PARTS = {"O": "owner", "G": "group", "D": "dacl", "S": "sacl"}
ACE_FIELDS = ("kind", "flags", "rights", "object type", "inherited object type", "sid")
# What a text may end by that begins a shaped one: nothing, the colon of a head, or the rest of an ACE.
ENDS = (b"", b":", *(b";" * count + b")" for count in range(6)))
ACE_TEXT = re.compile(rb"\(([^()]*)\)")
HEAD_TEXT = re.compile(rb"([OGDS]):", re.IGNORECASE)
OPEN_OR_CLOSED = re.compile(rb"\([^()]*(?:\)|\Z)")


class Field(NamedTuple):
    part: str
    ace: Optional[int]
    name: str
    offset: int
    text: bytes
    object_kind: bool  # whether it is of an ACE that may have object types
    has_aces: bool     # whether it is the head of an ACL that has ACEs


def is_shaped(text):
    try:
        parts_of_sddl(text)
    except Fault:
        return False
    return True


def begins_shaped(text):
    """Whether some shaped text begins so."""
    return any(is_shaped(text + end) for end in ENDS)


def size_of_character(text):
    """The bytes of the character that the text begins with, and 1 where that is not UTF-8."""
    for size in range(1, 5):
        try:
            text[:size].decode()
        except UnicodeDecodeError:
            continue
        return len(text[:size])
    return 1


def place_of_shape(text):
    """The range begins at the greatest n such that the first n bytes begin some shaped text."""
    least, most = 0, len(text)  # the first `least` bytes begin one, and so does each front of these
    while least < most:
        middle = (least + most + 1) // 2
        least, most = (middle, most) if begins_shaped(text[:middle]) else (least, middle - 1)
    front = text[:least]
    outside = OPEN_OR_CLOSED.sub(lambda found: b"_" * len(found[0]), front)
    heads = list(HEAD_TEXT.finditer(outside))
    part = ace = name = None
    if heads:
        letter, body = heads[-1][1].decode().upper(), front[heads[-1].end():]
        part = PARTS[letter]
        if body.count(b"(") > body.count(b")"):
            ace, name = body.count(b")"), ACE_FIELDS[body.rpartition(b"(")[2].count(b";")]
        elif b"(" not in body:
            name = "sid" if letter in "OG" else "flags"
    return Place(part, ace, name, least, size_of_character(text[least:]))


def heads_of(text):
    """The match of each part of a shaped text, from the left."""
    at = len(text) - len(text.lstrip(BLANKS))
    while at < len(text):
        found = PART_TEXT.match(text, at)
        yield found
        at = found.end()


def front_of(found):
    """Where the text before a part's ACEs begins, and that text, both without the blanks at its ends."""
    text = found[2].strip(BLANKS)
    return found.start(2) + (len(found[2]) - len(found[2].lstrip(BLANKS)) if text else 0), text


def fields_of(text):
    """The fields of a shaped text, from the left."""
    for found in heads_of(text):
        letter, aces = found[1].decode().upper(), list(ACE_TEXT.finditer(found[3]))
        name = "sid" if letter in "OG" else "flags"
        yield Field(PARTS[letter], None, name, *front_of(found), object_kind=False, has_aces=bool(aces))
        for number, ace in enumerate(aces):
            at, kind = found.start(3) + ace.start(1), ace[1].partition(b";")[0].upper().decode("latin-1")
            is_object = any(KINDS[code] == kind for code in OBJECT_TYPES)
            for field_name, field in zip(ACE_FIELDS, ace[1].split(b";")):
                yield Field(PARTS[letter], number, field_name, at, field, is_object, False)
                at += len(field) + 1


def read_field(field, domain):
    """Nothing, or the field's fault."""
    if field.name == "sid":
        sid_of_text(field.text, domain)
    elif field.ace is None:
        is_null = acl_of_text("D", field.text, (), domain)[1] is None
        if is_null and field.has_aces:
            raise Fault(26, "flags")
    elif field.name == "kind":
        if field.text.upper().decode("latin-1") not in KINDS.values():
            raise Fault(29, "kind")
    elif field.name == "flags":
        bits_of_text(field.text, ACE_FLAGS, Fault(26, "flags"))
    elif field.name == "rights":
        rights_of_text(field.text)
    else:
        guid_of_text(field.text, field.object_kind)


def place_of_second_head(text):
    """The letter and the colon of the first head whose letter stood before."""
    seen = set()
    for found in heads_of(text):
        part = PARTS[found[1].decode().upper()]
        if part in seen:
            return Place(part, None, None, found.start(1), 2)
        seen.add(part)
    return None


def place_of_field(text, domain):
    """The first field that does not read, and its fault."""
    for field in fields_of(text):
        try:
            read_field(field, domain)
        except Fault as fault:
            return fault, Place(field.part, field.ace, field.name, field.offset, len(field.text))
    return None, None


def place_of_large_acl(text, domain):
    """The ACE with which the size of the first such ACL passes the largest one, with its parentheses."""
    for found in heads_of(text):
        size = ACL_HEADER.size
        for number, ace in enumerate(ACE_TEXT.finditer(found[3])):
            size += len(ace_of_text(ace[1], domain).to_bytes())
            if size > LARGEST_ACL:
                return Place(PARTS[found[1].decode().upper()], number, None, found.start(3) + ace.start(), len(ace[0]))
    return None


def place_of_sddl(text, domain):
    """The first fault of the text under a domain and its place, or None where it means a descriptor."""
    try:
        from_sddl(text, domain)
    except Fault as fault:
        number = fault.args[0]
        if number == 20:
            return str(fault), place_of_shape(text)
        if number == 21:
            return str(fault), place_of_second_head(text)
        if number == 30:
            return str(fault), place_of_large_acl(text, domain)
        first, place = place_of_field(text, domain)
        return str(first), place
    return None
