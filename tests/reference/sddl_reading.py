"""SDDL (MS-DTYP 2.5.1), and the texts of SIDs (2.4.2.1) and GUIDs (2.3.4.3), as they are read."""
import functools
import operator
import re
import uuid

from .binary import SELF_RELATIVE
from .parts import ACL_HEADER, ACL_NAMES, LARGEST_ACL, OBJECT_TYPES, Ace, Acl, Descriptor, Fault, Sid
from .tables import ACE_FLAGS, ACL_FLAGS, EVERY_RIGHT, KINDS, OF_THE_DOMAIN, WELL_KNOWN

TEXT_LIMIT = 183  # bytes of a field, and of the longest SID text
SID_TEXT = re.compile(rb"S-1-(0x[0-9a-f]{12}|[0-9]+)((?:-[0-9]+){0,15})", re.IGNORECASE)
MOST_OF_A_DOMAIN = 14  # sub-authorities; one more comes after them
NUMBER_TEXT = re.compile(rb"0x([0-9a-f]+)|0([0-7]*)|([1-9][0-9]*)", re.IGNORECASE)  # hex, octal, decimal
GUID_TEXT = re.compile(rb"[0-9a-f]{8}(?:-[0-9a-f]{4}){3}-[0-9a-f]{12}", re.IGNORECASE)

# A part of an SDDL line: its letter and a colon, a text, and ACEs of six fields with blanks after them. No other colon
# stands outside parentheses, so the text ends before the next part's letter, before a parenthesis, or with the line.
BLANKS = b" \t"
PART_TEXT = re.compile(rb"([OGDS]):([^:()]*)((?:\([^();]*(?:;[^();]*){5}\)[ \t]*)*)(?=[OGDS]:|\Z)", re.IGNORECASE)
ACL_TEXT = re.compile(rb"((?:P|AR|AI)*)(NO_ACCESS_CONTROL)?", re.IGNORECASE)


def sid_of_text(text, domain=None):
    """The SID that the text spells under a domain or None."""
    if re.fullmatch(rb"[A-Za-z]{2}", text):
        alias = text.decode().upper()
        if alias in WELL_KNOWN:
            authority, *subs = WELL_KNOWN[alias]
            return Sid(authority, tuple(subs))
        if alias not in OF_THE_DOMAIN:
            raise Fault(22, "alias")
        if domain is None or len(domain.sub_authorities) > MOST_OF_A_DOMAIN:
            raise Fault(23, "needs-domain")
        return Sid(domain.authority, (*domain.sub_authorities, OF_THE_DOMAIN[alias]))
    found = SID_TEXT.fullmatch(text)
    if len(text) > TEXT_LIMIT or not found:
        raise Fault(25, "sid-form")
    authority, *subs = found[1], *found[2].split(b"-")[1:]
    is_hex = authority[1:2] in (b"x", b"X")
    decimal = subs if is_hex else [authority, *subs]
    if any(len(number) > 10 or int(number) >= 1 << 32 for number in decimal):
        raise Fault(24, "number")
    return Sid(int(authority, 16 if is_hex else 10), tuple(map(int, subs)))


def bits_of_text(text, names, fault):
    """The bits of a run of names, of which each has two letters."""
    pairs = [text[at:at + 2].upper().decode("latin-1") for at in range(0, len(text), 2)]
    if len(text) > TEXT_LIMIT or not names.keys() >= set(pairs):
        raise fault
    return functools.reduce(operator.or_, map(names.get, pairs), 0)


def rights_of_text(text):
    """The mask of a number or of a run of names."""
    fault = Fault(27, "rights")
    if not text[:1].isdigit():
        return bits_of_text(text, EVERY_RIGHT, fault)
    found = NUMBER_TEXT.fullmatch(text)
    if len(text) > TEXT_LIMIT or not found:
        raise fault
    digits, base = next((digits, base) for digits, base in zip(found.groups(), (16, 8, 10)) if digits is not None)
    mask = int(digits or b"0", base)
    if mask >= 1 << 32:
        raise fault
    return mask


def guid_of_text(text, is_object):
    """The bytes of a GUID, which stands in an object ACE alone, or None where the text is empty."""
    if not text:
        return None
    if not is_object or not GUID_TEXT.fullmatch(text):
        raise Fault(28, "guid")
    return uuid.UUID(text.decode("ascii")).bytes_le


@functools.lru_cache(maxsize=100_000)
def ace_of_text(text, domain):
    """The ACE of the six fields in a pair of parentheses, or the fault of the first of them that does not read."""
    kind, flags, rights, object_type, inherited_object_type, sid = text.split(b";")
    ace_type = next((number for number, name in KINDS.items() if name.encode() == kind.upper()), None)
    if ace_type is None:
        raise Fault(29, "kind")
    is_object = ace_type in OBJECT_TYPES
    return Ace(ace_type, bits_of_text(flags, ACE_FLAGS, Fault(26, "flags")), rights_of_text(rights),
               guid_of_text(object_type, is_object), guid_of_text(inherited_object_type, is_object),
               sid_of_text(sid, domain))


def acl_of_text(letter, text, ace_texts, domain):
    """The bits that the ACL sets in the control word, and the ACL, which is None where it is null."""
    found = len(text) <= TEXT_LIMIT and ACL_TEXT.fullmatch(text)
    if not found or (found[2] and ace_texts):
        raise Fault(26, "flags")
    present, flags = ACL_FLAGS[letter]
    control = present | sum(flags[name.decode()] for name in set(re.findall(rb"P|AR|AI", found[1].upper())))
    return control, None if found[2] else Acl(tuple(ace_of_text(ace, domain) for ace in ace_texts))


def parts_of_sddl(line):
    """The letter of each part from the left, its text without blanks at its ends, and the texts of its ACEs."""
    at, parts = len(line) - len(line.lstrip(BLANKS)), []
    while at < len(line):
        found = PART_TEXT.match(line, at)
        if not found or (found[1] in b"OGog" and found[3]):
            raise Fault(20, "shape")
        parts.append((found[1].decode().upper(), found[2].strip(BLANKS), re.findall(rb"\(([^()]*)\)", found[3])))
        at = found.end()
    return parts


def from_sddl(line, domain):
    """The descriptor that the line spells, or the first fault in order."""
    parts = parts_of_sddl(line)
    letters = [letter for letter, _, _ in parts]
    if len(set(letters)) < len(letters):
        raise Fault(21, "part-twice")
    control, read_parts = SELF_RELATIVE, dict.fromkeys("OGSD")
    for letter, text, ace_texts in parts:
        if letter in ACL_FLAGS:
            bits, read_parts[letter] = acl_of_text(letter, text, ace_texts, domain)
            control |= bits
        else:
            read_parts[letter] = sid_of_text(text, domain)
    for letter in letters:
        acl = read_parts[letter] if letter in ACL_FLAGS else None
        if acl and ACL_HEADER.size + sum(len(ace.to_bytes()) for ace in acl.aces) > LARGEST_ACL:
            raise Fault(30, "acl-too-large", ACL_NAMES[letter])
    return Descriptor(control, 0, *read_parts.values())
