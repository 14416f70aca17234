"""What a source gives: an object with its name, its place, and its descriptor or the reason why there is none."""
import base64
import re
import struct
from typing import NamedTuple, Optional

SDDL, HEX, BASE64, UNREADABLE = "sddl", "hex", "base64", ""

_MOST_BYTES = 131_226
_MOST_REASON = 2_000  # characters
LONGEST_NAME = 32_767  # characters of a path, a key or a member of an archive; Windows has no longer ones
# A descriptor in bytes has at least 20. Before hex stands what programs of databases write there.
_HEX_DESCRIPTOR = re.compile(r"(?:0[xX]|\\x|[xX](?P<mark>'))?(?P<digits>01(?:[0-9a-fA-F]{2}){19,})(?(mark)')\Z")
# The revision, 1, is the first byte: in base64 a letter A, and then one that the second byte ends.
_BASE64_DESCRIPTOR = re.compile(r"A[Q-Za-f][A-Za-z0-9+/]{25,}={0,2}\Z")
_SDDL_DESCRIPTOR = re.compile(r"[ \t]*[OGDSogds]:(?![\\/])")  # D:\Data is a path
_SEPARATED_HEX = re.compile(r"(?:0[xX])?01(?:[ ,:-]+(?:0[xX])?[0-9a-fA-F]{2}){19,}\Z")

_NO_DESCRIPTOR = ("name the column with --descriptor-column, or the format with --format; a descriptor is SDDL, hex "
                  "that begins with 01, or base64 that begins with A")

# Allowed, denied, audit and alarm, and those of them that have a SID and a mask alone.
_PLAIN_ACES = (0, 1, 2, 3, 0x11)

# Kinds of objects whose source doesn't say what they are, but perhaps by a path of a file system.
UNTOLD, BY_PATH = "untold", "path"

# The reason of an object that was listed, and was no more when it was asked for.
GONE = "gone: it was listed, and no longer there when it was asked for"

# The place of an object whose source never has owners.
WITHOUT_OWNER = "without owner"


class Item(NamedTuple):
    """An object of a source.

    form says how text spells the descriptor: "sddl", "hex" or "base64". If it is empty, the object can't be read, text
    has the reason, and help what would help; else help says what was changed to read it. kind is the kind of object,
    which gives its rights their meaning: see masks.py. It is UNTOLD or BY_PATH where the source doesn't say. line is
    the line of the source where the object begins, or 0 in a source without lines. is_folder is None where the source
    doesn't say. place has what a directory says of an object: see places.py.
    """

    name: str
    source: str
    line: int
    form: str
    text: str
    kind: str = "file"
    help: str = ""
    is_folder: Optional[bool] = None
    place: str = ""


def shortened(text: str, most: int = 200) -> str:
    """A text of a source as a sentence has it."""
    return text if len(text) <= most else text[:most] + ".."


def unreadable(name: str, source: str, line: int, reason: str, advice: str, kind: str = "file") -> Item:
    return Item(name, source, line, UNREADABLE, shortened(reason, _MOST_REASON), kind, advice)


def with_usual_revision(data: bytes) -> bytes:
    """A descriptor whose ACLs have revision 2 in place of 3, which smbcacls writes and which differs in compound ACEs
    alone.

    One with such an ACE, or with others that revision 3 doesn't have, is given as it is.
    """
    if len(data) < 20:
        return data
    for at in struct.unpack_from("<II", data, 12):
        if not at or at + 8 > len(data) or data[at] != 3:
            continue
        position, end, count = at + 8, at + int.from_bytes(data[at + 2:at + 4],
                                                           "little"), data[at + 4] | data[at + 5] << 8
        for _ in range(count):
            if position + 4 > min(end, len(data)) or data[position] not in _PLAIN_ACES:
                return data
            position += max(4, int.from_bytes(data[position + 2:position + 4], "little"))
        data = data[:at] + b"\2" + data[at + 1:]
    return data


_REVISION = "an ACL of revision 3 without compound ACEs was read as one of revision 2"


def bytes_item(name: str, source: str, line: int, data: bytes, kind: str = "file", is_folder: Optional[bool] = None,
               place: str = "") -> Item:
    """An object whose descriptor stands in bytes."""
    usual = with_usual_revision(data)
    return Item(name, source, line, HEX, usual.hex(), kind, "" if usual is data else _REVISION, is_folder, place)


def looks_like_descriptor(text: str) -> bool:
    """Whether a text is meant as a descriptor; the library says whether it is one."""
    text = text.strip()
    found = _HEX_DESCRIPTOR.match(text)
    return bool(_SDDL_DESCRIPTOR.match(text) or _SEPARATED_HEX.match(text)
                or found and _has_offsets(bytes.fromhex(found["digits"][:40]))
                or _BASE64_DESCRIPTOR.match(text) and _has_offsets(base64.b64decode(text[:28].ljust(28, "="))))


def _has_offsets(data: bytes) -> bool:
    """Whether the head of a descriptor says where its parts are, which no word in base64 and no digest in hex does."""
    return len(data) >= 20 and all(not at or 20 <= at < _MOST_BYTES for at in struct.unpack_from("<4I", data, 4))


def item_of(name: str, source: str, line: int, text: str, kind: str = "file",
            is_folder: Optional[bool] = None) -> Item:
    """An object whose descriptor is spelled by a text in any form."""
    spelled, text = text, text.strip(" \t\r\n")
    if not text:
        return unreadable(name, source, line, "there is no descriptor",
                          "export the object again, with its permissions", kind)
    if "\n" in text:
        return unreadable(name, source, line, "the descriptor has a line end in it", "write it in one line", kind)
    form = SDDL
    if not _SDDL_DESCRIPTOR.match(text):
        if _SEPARATED_HEX.match(text):
            text = re.sub("0[xX]|[ ,:-]", "", text)
        found = _HEX_DESCRIPTOR.match(text)
        if found:
            form, text = HEX, found["digits"]
        elif _BASE64_DESCRIPTOR.match(text):
            form = BASE64
        else:
            return unreadable(name, source, line, f"{shortened(text, 40)!r} is no descriptor", _NO_DESCRIPTOR, kind)
    if form == SDDL:
        # Blanks are part of SDDL, and the place of a fault counts them.
        front, _, behind = spelled.partition(text)
        text = re.split("[\r\n]", front)[-1] + text + re.split("[\r\n]", behind)[0]
        return Item(name, source, line, form, text, kind, "", is_folder)
    try:
        data = bytes.fromhex(text) if form == HEX else base64.b64decode(text, validate=True)
    except ValueError:
        return Item(name, source, line, form, text, kind, "", is_folder)
    usual = with_usual_revision(data)
    return Item(name, source, line, form, text, kind, "", is_folder) if usual is data else \
        Item(name, source, line, HEX, usual.hex(), kind, _REVISION, is_folder)
