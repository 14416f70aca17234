"""What a descriptor has: SIDs (MS-DTYP 2.4.2), ACEs (2.4.4) and ACLs (2.4.5), each with the bytes that it is laid out
as; and the fault that a line is answered with, which names the parts that it speaks of.
"""
import struct
from typing import NamedTuple, Optional, Tuple

ACL_HEADER = struct.Struct("<BBHHH")  # revision, a byte that says nothing, size, number of ACEs, two that say nothing
ACE_HEADER = struct.Struct("<BBHI")   # type, flags, size, mask

# Access allowed, access denied and system audit; the same three for an object; and the mandatory label.
PLAIN_TYPES, OBJECT_TYPES, LABEL_TYPE = (0x00, 0x01, 0x02), (0x05, 0x06, 0x07), 0x11
OBJECT_TYPE_PRESENT, INHERITED_OBJECT_TYPE_PRESENT = 0x1, 0x2
ACL_NAMES = {"D": "dacl", "S": "sacl"}
LARGEST_ACL = 0xffff  # bytes


class Fault(Exception):
    """The one fault that a line is answered with: a number, a name and the parts that it speaks of."""

    def __str__(self):
        return " ".join(["error", *map(str, self.args)])


class Sid(NamedTuple):
    authority: int
    sub_authorities: tuple

    def text(self):
        authority = str(self.authority) if self.authority < 1 << 32 else f"0x{self.authority:012x}"
        return "-".join(["S-1", authority, *map(str, self.sub_authorities)])

    def size(self):
        return 8 + 4 * len(self.sub_authorities)

    def to_bytes(self):
        subs = b"".join(sub.to_bytes(4, "little") for sub in self.sub_authorities)
        return bytes([1, len(self.sub_authorities)]) + self.authority.to_bytes(6, "big") + subs


class Ace(NamedTuple):
    type: int
    flags: int
    mask: int
    object_type: Optional[bytes]  # a GUID's sixteen bytes
    inherited_object_type: Optional[bytes]
    sid: Sid

    def to_bytes(self):
        body = b""
        if self.type in OBJECT_TYPES:
            announced = OBJECT_TYPE_PRESENT * (self.object_type is not None)
            announced += INHERITED_OBJECT_TYPE_PRESENT * (self.inherited_object_type is not None)
            body = announced.to_bytes(4, "little") + (self.object_type or b"") + (self.inherited_object_type or b"")
        body += self.sid.to_bytes()
        return ACE_HEADER.pack(self.type, self.flags, ACE_HEADER.size + len(body), self.mask) + body


class Acl(NamedTuple):
    aces: Tuple[Ace, ...]

    def to_bytes(self):
        revision = 4 if any(ace.type in OBJECT_TYPES for ace in self.aces) else 2
        body = b"".join(ace.to_bytes() for ace in self.aces)
        return ACL_HEADER.pack(revision, 0, ACL_HEADER.size + len(body), len(self.aces), 0) + body


class Descriptor(NamedTuple):
    control: int
    resource_manager: int
    owner: Optional[Sid]
    group: Optional[Sid]
    sacl: Optional[Acl]  # None where it is absent and where it is null; the control word tells them apart
    dacl: Optional[Acl]
