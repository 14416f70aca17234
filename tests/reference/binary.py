"""A self-relative SECURITY_DESCRIPTOR (MS-DTYP 2.4.6): what its bytes show, and the bytes that it is laid out as.

All numbers are little-endian but a SID's authority.
"""
import itertools
import struct

from .parts import (ACE_HEADER, ACL_HEADER, INHERITED_OBJECT_TYPE_PRESENT, LABEL_TYPE, OBJECT_TYPE_PRESENT,
                    OBJECT_TYPES, PLAIN_TYPES, Ace, Acl, Descriptor, Fault, Sid)

HEADER = struct.Struct("<BBHIIII")  # revision, resource manager byte, control, offsets: owner, group, SACL, DACL
DACL_PRESENT, SACL_PRESENT, SELF_RELATIVE = 0x0004, 0x0010, 0x8000
UNKNOWN_FLAG = 0x20  # the one bit of an ACE's flags that is refused


def read_sid(data, part):
    """The SID at the front of the data."""
    revision, count = data[0], data[1]
    if revision != 1 or count > 15 or 8 + 4 * count > len(data):
        raise Fault(9, "sid", part)
    return Sid(int.from_bytes(data[2:8], "big"), struct.unpack_from(f"<{count}I", data, 8))


def read_ace(left, part):
    """The ACE at the front of what is left of an ACL, and the size that it says."""
    if len(left) < 16:
        raise Fault(11, "ace-size", part)
    ace_type, flags, size, mask = ACE_HEADER.unpack_from(left)
    if size < 16 or size % 4 != 0 or size > len(left):
        raise Fault(11, "ace-size", part)
    if ace_type not in (*PLAIN_TYPES, *OBJECT_TYPES, LABEL_TYPE):
        raise Fault(12, "ace-type", part)
    if flags & UNKNOWN_FLAG:
        raise Fault(13, "ace-flags", part)
    body = left[ACE_HEADER.size:size]
    guids = {OBJECT_TYPE_PRESENT: None, INHERITED_OBJECT_TYPE_PRESENT: None}
    if ace_type in OBJECT_TYPES:
        announced, body = int.from_bytes(body[:4], "little"), body[4:]
        for bit in guids:
            if announced & bit:
                guids[bit], body = body[:16], body[16:]
    if len(body) < 8:  # (where a GUID does not fit there is nothing left)
        raise Fault(11, "ace-size", part)
    return Ace(ace_type, flags, mask, *guids.values(), sid=read_sid(body, part)), size


def read_acl(data, part):
    """The ACL at the front of the data, and the size that it says."""
    revision, _, size, count, _ = ACL_HEADER.unpack_from(data)
    if revision not in (2, 4) or size < ACL_HEADER.size or size > len(data):
        raise Fault(10, "acl", part)
    left, aces = data[ACL_HEADER.size:size], []
    for _ in range(count):
        ace, ace_size = read_ace(left, part)
        aces.append(ace)
        left = left[ace_size:]
    return Acl(tuple(aces)), size


def from_offset(data, offset, part):
    """The bytes from a part's offset on: past the header, and room for the eight bytes that every part has."""
    if offset < HEADER.size or offset + 8 > len(data):
        raise Fault(8, "offset", part)
    return data[offset:]


def read(data):
    """The descriptor that the bytes show, or the first fault in order."""
    if len(data) < HEADER.size:
        raise Fault(5, "short")
    revision, resource_manager, control, *offsets = HEADER.unpack_from(data)
    if revision != 1:
        raise Fault(6, "revision")
    if not control & SELF_RELATIVE:
        raise Fault(7, "not-self-relative")
    stands = {"owner": True, "group": True, "sacl": control & SACL_PRESENT, "dacl": control & DACL_PRESENT}
    parts, places = dict.fromkeys(stands), []
    for part, offset in zip(parts, offsets):
        if not stands[part] or offset == 0:
            continue
        front = from_offset(data, offset, part)
        if part in ("owner", "group"):
            parts[part] = read_sid(front, part)
            size = parts[part].size()
        else:
            parts[part], size = read_acl(front, part)
        places.append((part, set(range(offset, offset + size))))
    for (one, place), (other, other_place) in itertools.combinations(places, 2):
        if not place.isdisjoint(other_place):
            raise Fault(14, "overlap", one, other)
    return Descriptor(control, resource_manager, **parts)


def layout(descriptor):
    """The one canonical form: header, owner, group, SACL, DACL, without gaps; 0 for the offset of what is not there."""
    offsets, body = [], b""
    for part in (descriptor.owner, descriptor.group, descriptor.sacl, descriptor.dacl):
        offsets.append(HEADER.size + len(body) if part else 0)
        body += part.to_bytes() if part else b""
    return HEADER.pack(1, descriptor.resource_manager, descriptor.control, *offsets) + body
