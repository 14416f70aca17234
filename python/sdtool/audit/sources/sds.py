"""The descriptors of an NTFS volume, in its stream $Secure:$SDS."""
import struct
from typing import Iterator, List, Optional, Tuple

from sdtool.audit.sources.frame import Data, Format, Piece
from sdtool.audit.sources.items import bytes_item, unreadable
from sdtool.audit.sources.opening import HEAD
from sdtool.audit.sources.options import SourceOptions

# An entry is a hash, an id, an offset of 8 bytes, its size and then the descriptor, and begins at a multiple of 16.
# Each block of 256 KiB stands twice, one after the other, so that an entry which is damaged is read from the other one.
_BLOCK = 0x40000
_HEAD = struct.Struct("<IIQI")
_LEAST = _HEAD.size + 20
_ZEROS, _COPY, _FREE = "zeros between entries", "the second copy of a block", "zeros behind the last entry of a block"
_AGAIN = "read the volume again"


def looks_like_stream(head: bytes) -> bool:
    if len(head) == HEAD and not any(head):
        return True  # a first block that was lost
    return _entry(head, 0, 0) is not None and head[_HEAD.size:_HEAD.size + 1] == b"\1"


def _entry(block: bytes, at: int, start: int) -> Optional[Tuple[int, int]]:
    """The id and the size of the entry at a place, if one is there."""
    if at + _HEAD.size > len(block):
        return None
    _, number, offset, size = _HEAD.unpack_from(block, at)
    return (number, size) if offset == start + at and 0 < number and _LEAST <= size <= _BLOCK - at else None


def _hash(descriptor: bytes) -> int:
    """The hash of an entry, as NTFS computes it."""
    found = 0
    for word, in struct.iter_unpack("<I", descriptor[:len(descriptor) & ~3]):
        found = (word + (found << 3 | found >> 29)) & 0xffffffff
    return found


def _whole(block: bytes, at: int, start: int) -> Optional[bytes]:
    """The bytes of the entry at a place, if all of it is there."""
    found = _entry(block, at, start)
    return block[at:at + found[1]] if found and at + found[1] <= len(block) else None


def _better(first: bytes, second: bytes, at: int, start: int, before: int) -> Optional[bytes]:
    """The entry at a place in one of two copies: the one whose hash is right and whose id follows that before, else the
    first that is whole."""
    found = [entry for entry in (_whole(first, at, start), _whole(second, at, start)) if entry is not None]
    if len(found) == 2 and found[0] != found[1]:
        right = [entry for entry in found if _hash(entry[_HEAD.size:]) == _HEAD.unpack_from(entry)[0]] or found
        behind = _entry(first, at + len(right[0]) + 15 & ~15, start)
        following = ([entry for entry in right
                      if _HEAD.unpack_from(entry)[1] in (before + 1, behind[0] - 1 if behind else 0)] or right)
        return following[0]
    return found[0] if found else None


def _next_entry(first: bytes, second: bytes, at: int, start: int) -> int:
    """Where the next entry begins in either copy, or the end of the block."""
    for place in range(at + 16 & ~15, max(len(first), len(second)), 16):
        if _entry(first, place, start) or _entry(second, place, start):
            return place
    return max(len(first), len(second))


def _block_pieces(first: bytes, second: bytes, start: int, label: str, kind: str) -> Tuple[List[Piece], int]:
    """The pieces of a block, and where its last entry ends."""
    pieces: List[Piece] = []
    at = last = number = 0
    length = len(first)
    while at < length:
        entry = _better(first, second, at, start, number)
        if entry is not None:
            number = _HEAD.unpack_from(entry)[1]
            end = min(length, (at + len(entry) + 15) & ~15)
            name = f"security id {number}"
            pieces.append(Piece(start + at, start + end, bytes_item(name, label, 0, entry[_HEAD.size:], kind)))
            last = at + len(entry)
        else:
            end = min(length, _next_entry(first, second, at, start))
            if any(first[at:end]) or any(second[at:end]) or end < length and end > at + 16:
                lost = unreadable(f"{label}: bytes {start + at} to {start + end - 1}", label, 0,
                                  "an entry of the stream is damaged or cut", _AGAIN, kind)
                pieces.append(Piece(start + at, start + end, lost))
            else:
                pieces.append(Piece(start + at, start + end, _FREE if end == length else _ZEROS))
        at = end
    return pieces, last


def _read(source: Data, label: str, options: SourceOptions) -> Iterator[Piece]:
    """The descriptors, each once, named by the id by which files refer to it."""
    kind, start = options.kind or "file", 0
    while True:
        first = source.read(_BLOCK)
        if not first:
            return
        second = source.read(_BLOCK) if len(first) == _BLOCK else b""
        pieces, last = _block_pieces(first, second, start, label, kind)
        yield from pieces
        at = start + len(first)
        is_told = bool(pieces) and not isinstance(pieces[-1].taken, str) and not getattr(pieces[-1].taken, "form", "")
        if len(second) < last and (second or not is_told):
            # The copy of the last block ends where its last entry does, so the stream ends too early.
            lost = unreadable(f"{label}: from byte {at} on", label, 0, "the stream is cut", _AGAIN, kind)
            yield Piece(at, at + len(second), lost)
        elif second:
            yield Piece(at, at + len(second), _COPY)
        start += 2 * _BLOCK


FORMAT = Format("sds", "ntfscat -a 0x80 -n '$SDS' IMAGE '$Secure'",
                "an entry, from the copy of its block if it is damaged", (_ZEROS, _FREE, _COPY), lambda look: False,
                _read, takes="bytes")
