"""A file of bytes that is one descriptor."""
import struct
from typing import Iterator

from sdtool.audit.sources.frame import Data, Format, Piece
from sdtool.audit.sources.items import UNTOLD, bytes_item, unreadable
from sdtool.audit.sources.options import SourceOptions

_LONGEST = 131_226


def looks_like_descriptor(head: bytes) -> bool:
    """Whether a file of bytes begins with a self-relative descriptor."""
    return len(head) >= 20 and head[0] == 1 and b"\0" in head[:20] and head[3] & 0x80 != 0


def end_of(data: bytes) -> int:
    """Where the last part of a self-relative descriptor ends."""
    end = 20
    owner, group, *acls = struct.unpack_from("<IIII", data, 4)
    for at in (owner, group):
        if at and at + 8 <= len(data):
            end = max(end, at + 8 + 4 * data[at + 1])
    for at in acls:
        if at and at + 8 <= len(data):
            end = max(end, at + int.from_bytes(data[at + 2:at + 4], "little"))
    return end


def _read(source: Data, label: str, options: SourceOptions) -> Iterator[Piece]:
    data, kind = source.read(_LONGEST + 1), options.kind or UNTOLD
    rest = data[end_of(data):] if len(data) >= 20 else b""
    if any(rest):
        lost = unreadable(label, label, 0,
                          f"behind the descriptor, from byte {len(data) - len(rest)} on, are other bytes" +
                          (": a second descriptor" if looks_like_descriptor(rest) else ""),
                          "write each descriptor to a file of its own", kind)
        yield Piece(0, source.units(), lost)
    elif data:
        yield Piece(0, len(data), bytes_item(label, label, 0, data, kind))


FORMAT = Format("binary", "a file that is one descriptor in bytes", "the file", (), lambda look: False, _read,
                takes="bytes")
