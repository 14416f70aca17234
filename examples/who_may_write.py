#!/usr/bin/env python3
"""who_may_write.py DIRECTORY [ATTRIBUTE]

Prints for DIRECTORY and everything below it the SIDs of those who may change it, by the security descriptor in its
attribute security.NTACL, as Samba keeps it, or system.ntfs_acl, as ntfs-3g shows it. ATTRIBUTE is another one, in
Samba's form if its name ends with NTACL. Files whose descriptor is missing or malformed are 'unknown'. who_may_write.c
says more; both print the same.
"""
import errno
import os
import re
import stat
import struct
import sys
from typing import Iterator, Sequence

import sdtool
from sdtool import FileMask

CHANGES = (FileMask.WRITE_DATA | FileMask.APPEND_DATA | FileMask.WRITE_EA | FileMask.DELETE_CHILD
           | FileMask.WRITE_ATTRIBUTES | FileMask.DELETE | FileMask.WRITE_DAC | FileMask.WRITE_OWNER)
EVERYONE = sdtool.Sid("WD")
HEADER = 20
ATTRIBUTES = ["security.NTACL", "system.ntfs_acl"]


class Unknown(Exception):
    """Why there is no answer."""


def descriptor_at(data: bytes) -> int:
    """Where the descriptor begins in Samba's attribute, xattr_NTACL of its xattr.idl; 0 if there is none.

    The attribute has its version twice and a reference to what follows. In version 1 that is the descriptor. Later
    versions have a reference to the descriptor, hashes, and in version 4 a text and a time, and then the descriptor.
    """
    if len(data) < 12:
        return 0
    version, again, reference, descriptor = struct.unpack_from("<HHII", data)
    if version != again or not reference or version > 1 and not descriptor:
        return 0
    if version == 4:
        end = data.find(b"\0", 78)  # of the text, behind which are a time and a hash, from a multiple of 4 on
        return 0 if end < 0 else (end + 4) // 4 * 4 + 8 + 64
    return {1: 8, 2: 28, 3: 80}.get(version, 0)


def unwrapped(data: bytes) -> bytes:
    """The descriptor of Samba's attribute. Its offsets count from the attribute's first byte, so they are moved."""
    at = descriptor_at(data)
    if not at or len(data) < at + HEADER:
        raise Unknown("no descriptor in the attribute")
    offsets = struct.unpack_from("<4I", data, at + 4)
    if any(0 < offset < at + HEADER for offset in offsets):
        raise Unknown("no descriptor in the attribute")
    moved = struct.pack("<4I", *(offset and offset - at for offset in offsets))
    return data[at:at + 4] + moved + data[at + HEADER:]


def descriptor_of(path: bytes, attributes: Sequence[str]) -> bytes:
    for name in attributes:
        try:
            data = os.getxattr(path, name, follow_symlinks=False)
        except OSError as error:
            if error.errno not in (errno.ENODATA, errno.ENOTSUP):
                raise
            continue
        return unwrapped(data) if name.endswith("NTACL") else data
    raise Unknown("no attribute")


def sids_in(descriptor: sdtool.SecurityDescriptor) -> Iterator[sdtool.Sid]:
    """The SIDs that may have rights: Everyone, the owner, and those of ACEs that allow."""
    yield EVERYONE
    if descriptor.owner is not None:
        yield descriptor.owner
    if descriptor.dacl.is_list:
        yield from (ace.sid for ace in descriptor.dacl if ace.kind in (sdtool.AceKind.A, sdtool.AceKind.OA))


def may_change(descriptor: sdtool.SecurityDescriptor, sid: sdtool.Sid) -> bool:
    """Whether a token with this SID and Everyone may change the file."""
    verdict = descriptor.check(sdtool.Token([EVERYONE, sid]), maximum=True)
    return verdict.granted and verdict.mask & CHANGES != 0


def answer(path: bytes, attributes: Sequence[str]) -> str:
    descriptor = sdtool.SecurityDescriptor.from_bytes(descriptor_of(path, attributes))
    sids = dict.fromkeys(sids_in(descriptor))  # each once
    return ", ".join(str(sid) for sid in sids if may_change(descriptor, sid)) or "nobody"


def tell(path: bytes, text: str) -> None:
    # Other characters than these would let the name of a file pretend to be an answer.
    sys.stdout.buffer.write(re.sub(rb"[\0-\x1f\x7f]", b"?", path) + b": " + text.encode() + b"\n")


def walk(path: bytes, attributes: Sequence[str]) -> bool:
    """Tells who may change a file or folder, and all below it. Gives whether nothing is unknown."""
    known = True
    is_folder = False
    try:
        mode = os.lstat(path).st_mode
        if stat.S_ISLNK(mode):
            return True  # a symbolic link has no permissions
        is_folder = stat.S_ISDIR(mode)
        tell(path, answer(path, attributes))
    except Unknown as why:
        tell(path, f"unknown, {why}")
        known = False
    except sdtool.Fault as fault:
        tell(path, f"unknown, {fault.line}")
        known = False
    except OSError as error:
        tell(path, f"unknown, {error.strerror}")
        known = False
    if is_folder:
        try:
            names = sorted(os.listdir(path))
        except OSError as error:
            tell(os.path.join(path, b"*"), f"unknown, {error.strerror}")
            return False
        for name in names:
            known = walk(os.path.join(path, name), attributes) and known
    return known


def main() -> int:
    if len(sys.argv) not in (2, 3):
        print("usage: who_may_write.py DIRECTORY [ATTRIBUTE]", file=sys.stderr)
        return 2
    return 0 if walk(os.fsencode(sys.argv[1]), sys.argv[2:] or ATTRIBUTES) else 1


if __name__ == "__main__":
    sys.exit(main())
