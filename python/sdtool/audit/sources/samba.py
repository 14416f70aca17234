"""What the sources of Samba have in common: its attribute with a descriptor, and words of SDDL."""
import struct
from typing import Optional

from sdtool.audit.sources.items import Item, bytes_item, unreadable

_HEADER = 20
NO_ATTRIBUTE = "run as root on the server, or name the attribute with --attribute"

FLAG_NAMES = ((0x1, "OI"), (0x2, "CI"), (0x4, "NP"), (0x8, "IO"), (0x10, "ID"), (0x40, "SA"), (0x80, "FA"))
CONTROL_NAMES = ((0x1000, "P"), (0x100, "AR"), (0x400, "AI"))


class Unknown(Exception):
    """Why there is no descriptor."""


def flags_text(number: int) -> str:
    """The flags of an ACE in SDDL."""
    known = sum(bit for bit, _ in FLAG_NAMES)
    if number & ~known:
        raise Unknown(f"ACE flags {number:#x} are unknown")
    return "".join(name for bit, name in FLAG_NAMES if number & bit)


def _descriptor_at(data: bytes) -> int:
    """Where the descriptor begins in Samba's attribute, xattr_NTACL of its xattr.idl; 0 if there is none.

    The attribute has its version twice and a reference to what follows. In version 1 that is the descriptor. Later
    versions have a reference to the descriptor, hashes, and in version 4 a text and a time, and then the descriptor.
    """
    if len(data) < 12:
        return 0
    version, again, reference, descriptor = struct.unpack_from("<HHII", data)
    if version != again or not reference or version > 1 and not descriptor:
        return 0
    if version == 4:
        end = data.find(b"\0", 78)  # of the text, behind which are a time and a hash, from a multiple of 4 on
        return 0 if end < 0 else (end + 4) // 4 * 4 + 8 + 64
    return {1: 8, 2: 28, 3: 80}.get(version, 0)


def unwrapped(data: bytes) -> bytes:
    """The descriptor of Samba's attribute. Its offsets count from the attribute's first byte, so they are moved."""
    at = _descriptor_at(data)
    if not at or len(data) < at + _HEADER:
        raise Unknown("no descriptor in the attribute")
    offsets = struct.unpack_from("<4I", data, at + 4)
    if any(0 < offset < at + _HEADER for offset in offsets):
        raise Unknown("no descriptor in the attribute")
    moved = struct.pack("<4I", *(offset and offset - at for offset in offsets))
    return data[at:at + 4] + moved + data[at + _HEADER:]


def item_of_attribute(path: str, label: str, line: int, name: str, data: bytes, kind: str,
                      is_folder: Optional[bool] = None) -> Item:
    try:
        descriptor = unwrapped(data) if name.endswith("NTACL") else data
    except Unknown as error:
        return unreadable(path, label, line, f"{name}: {error}", "look at the attribute with getfattr", kind)
    if not descriptor:
        return unreadable(path, label, line, f"{name} is empty", "look at the attribute with getfattr", kind)
    return bytes_item(path, label, line, descriptor, kind, is_folder)
