"""The files of zip and tar archives, read from the first byte to the last, so that a pipe may hold one. What is no part
of an archive, a member that can't be read and an archive without its end are told."""
import io
import struct
import zipfile
import zlib
from typing import Any, Callable, Dict, Generator, Iterator, List, NamedTuple, Optional, Tuple, Union

from sdtool.audit.sources.items import LONGEST_NAME, shortened

_LOCAL, _CENTRAL, _END = b"PK\3\4", b"PK\1\2", b"PK\5\6"
_END_64, _LOCATOR_64, _DESCRIPTOR, _SIGNATURE = b"PK\6\6", b"PK\6\7", b"PK\7\x08", b"PK\5\5"
_LOCAL_HEAD = struct.Struct("<4sHHHHHIIIHH")
_CENTRAL_HEAD = struct.Struct("<4sHHHHHHIIIHHHHHII")
_PART = 1 << 16
_LONGEST_NUMBER = 20
_MOST_HEAD = 1 << 24  # bytes of a head of tar with a name
_PACK_AGAIN = "pack the files again"
_CUT = "the archive is cut or damaged"


class Member(NamedTuple):
    """A file of an archive."""

    label: str
    raw: io.RawIOBase


class Trouble(NamedTuple):
    """A part of an archive that can't be read, and the reason."""

    label: str
    reason: str
    help: str


class _Bytes:
    """A stream of bytes that can be looked at and given back."""

    def __init__(self, stream: Any) -> None:
        self._stream = stream
        self._held = b""
        self._next = 0  # of what is held, the first byte that isn't taken
        self.at = 0  # bytes taken

    def look(self, count: int) -> bytes:
        wanted = count - len(self._held) + self._next
        if wanted > 0:
            parts = [self._held[self._next:]]
            while wanted > 0:
                part = self._stream.read1(_PART)
                if not part:
                    break
                parts.append(part)
                wanted -= len(part)
            self._held, self._next = b"".join(parts), 0
        return self._held[self._next:self._next + count]

    def take(self, count: int) -> bytes:
        data = self.look(count)
        self._next += len(data)
        self.at += len(data)
        return data

    def some(self, most: int) -> bytes:
        """At least one byte, unless the stream is at its end."""
        return self.take(min(most, max(1, len(self._held) - self._next)))

    def give_back(self, count: int) -> None:
        """Bytes of the last ones that were taken at once."""
        self._next -= count
        self.at -= count


class _Copied:
    """What is stored without compression, in the form of a decompressor."""

    def __init__(self, size: int) -> None:
        self._left = size
        self.eof = not size
        self.unused_data = b""

    def decompress(self, data: bytes) -> bytes:
        taken = data[:self._left]
        self._left -= len(taken)
        self.eof = not self._left
        self.unused_data = data[len(taken):]
        return taken


class _Entry(NamedTuple):
    """What the head of a member says. size is that of the compressed bytes, or None if it stands behind them."""

    name: str
    flags: int
    method: int
    crc: int
    size: Optional[int]
    whole: int


class _Packed(io.RawIOBase):
    """The bytes of a member of a zip archive."""

    def __init__(self, source: _Bytes, entry: _Entry, unpacker: Any) -> None:
        super().__init__()
        self._source, self._entry, self._unpacker = source, entry, unpacker
        self.left = entry.size  # compressed bytes
        self.taken = 0
        self.crc, self.whole = 0, 0
        self._ready = memoryview(b"")

    def readable(self) -> bool:
        return True

    def readinto(self, buffer: Any) -> int:
        while not self._ready:
            if self._unpacker.eof or self.left == 0:
                if self.left is not None and (self.left, self.crc, self.whole) != (0, self._entry.crc,
                                                                                   self._entry.whole):
                    raise zipfile.BadZipFile("the member is damaged: its check sum or its size is another")
                return 0
            data = self._source.some(_PART if self.left is None else min(self.left, _PART))
            if not data:
                raise EOFError("the member is cut")
            self._count(len(data))
            self._ready = memoryview(self._unpacker.decompress(data))
            rest = getattr(self._unpacker, "unused_data", b"") if self._unpacker.eof else b""
            if rest:
                self._source.give_back(len(rest))
                self._count(-len(rest))
            self.crc = zlib.crc32(self._ready, self.crc)
            self.whole += len(self._ready)
        given, self._ready = self._ready[:len(buffer)], self._ready[len(buffer):]
        buffer[:len(given)] = given
        return len(given)

    def _count(self, count: int) -> None:
        self.taken += count
        if self.left is not None:
            self.left -= count

    def finish(self) -> bool:
        """Goes behind the member; False if its end isn't known."""
        if self.left is not None:
            return _skip(self._source, self.left)
        try:
            buffer = bytearray(_PART)
            while self.readinto(memoryview(buffer)):
                pass
        except (EOFError, zlib.error, OSError, zipfile.BadZipFile):
            return False
        return True


def _skip(source: _Bytes, count: int) -> bool:
    while count:
        data = source.some(min(count, _PART))
        if not data:
            return False
        count -= len(data)
    return True


def _unpacker_of(entry: _Entry) -> Any:
    """What unpacks a member, or None if its method isn't known."""
    if entry.method == 0 and entry.size is not None:
        return _Copied(entry.size)
    if entry.method == 8:
        return zlib.decompressobj(-15)
    if entry.method == 12:
        import bz2
        return bz2.BZ2Decompressor()
    if entry.method == 14:
        return zipfile.LZMADecompressor()  # type: ignore[attr-defined]
    return None


def _sizes(extra: bytes, size: int, whole: int) -> Tuple[int, int]:
    """The sizes of a member, which an extra field has if they are large."""
    at = 0
    while at + 4 <= len(extra):
        kind, length = struct.unpack_from("<HH", extra, at)
        if kind == 1:
            numbers = [number for number, in struct.iter_unpack("<Q", extra[at + 4:at + 4 + length // 8 * 8])]
            if whole == 0xffffffff and numbers:
                whole = numbers.pop(0)
            if size == 0xffffffff and numbers:
                size = numbers.pop(0)
        at += 4 + length
    return size, whole


def _name(data: bytes, flags: int) -> str:
    return data.decode("utf-8", "surrogateescape") if flags & 0x800 else data.decode("cp437")


class _Zip:
    """A zip archive, as far as it was read."""

    def __init__(self, source: _Bytes, label: str) -> None:
        self._source, self._label = source, label
        self._seen: List[Tuple[str, int]] = []    # name and check sum of the members
        self._listed: List[Tuple[str, int]] = []  # the same in the directory at the end

    def _trouble(self, reason: str) -> Trouble:
        return Trouble(f"{self._label}: from byte {self._source.at} on", reason, _PACK_AGAIN)

    def members(self) -> Iterator[Union[Member, Trouble]]:
        is_ended = False
        while True:
            mark = self._source.look(4)
            if mark == _LOCAL:
                is_ended = False
                if not (yield from self._member()):
                    yield self._trouble(_CUT)
                    return
            elif mark == _CENTRAL and self._take_listed():
                continue
            elif mark in (_END_64, _SIGNATURE) and self._take_sized():
                continue
            elif mark == _LOCATOR_64:
                self._source.take(20)
            elif mark == _END and self._take_end():
                is_ended = True
                if sorted(self._seen) != sorted(self._listed):
                    yield self._trouble("the archive has other members than its directory at the end says")
                self._seen, self._listed = [], []
            elif not mark and is_ended:
                return
            else:
                yield self._trouble(_CUT if not is_ended else "what is behind the archive is no part of it")
                while self._source.some(_PART):
                    pass
                return

    def _member(self) -> Generator[Union[Member, Trouble], None, bool]:
        """A member, and whether its end is known."""
        source = self._source
        head = source.take(_LOCAL_HEAD.size)
        if len(head) < _LOCAL_HEAD.size:
            return False
        _, _, flags, method, _, _, crc, size, whole, name_size, extra_size = _LOCAL_HEAD.unpack(head)
        name, extra = source.take(name_size), source.take(extra_size)
        if len(name) + len(extra) < name_size + extra_size:
            return False
        size, whole = _sizes(extra, size, whole)
        is_behind = bool(flags & 8) and not size  # the sizes stand behind the bytes
        entry = _Entry(_name(name, flags), flags, method, crc, None if is_behind else size, whole)
        label = f"{self._label}:{entry.name}"
        unpacker = _unpacker_of(entry)
        if flags & 1 or unpacker is None:
            reason = ("the member is encrypted" if flags & 1
                      else f"the member is compressed by method {method}, which isn't known")
            yield Trouble(label, reason, "unpack the archive, and name its files")
            self._seen.append((entry.name, crc))
            return (entry.size is not None and _skip(source, entry.size)
                    and (not flags & 8 or self._take_descriptor(None, flags)))
        packed = _Packed(source, entry, unpacker)
        if not entry.name.endswith("/") or whole:  # a folder has no bytes
            yield Member(label, packed)
        if not packed.finish():
            return False
        if flags & 8 and not self._take_descriptor(packed if is_behind else None, flags):
            yield Trouble(label, "the member is damaged: its check sum or its size is another", _PACK_AGAIN)
        self._seen.append((entry.name, packed.crc if is_behind else crc))
        return True

    def _take_descriptor(self, packed: Optional[_Packed], flags: int) -> bool:
        """Takes what stands behind a member, and compares it with the member."""
        source = self._source
        if source.look(4) == _DESCRIPTOR:
            source.take(4)
        data = source.look(20)
        for form in ("<III", "<IQQ"):
            size = struct.calcsize(form)
            if len(data) >= size:
                crc, size_behind, whole = struct.unpack_from(form, data)
                following = source.look(size + 2)[size:size + 2]
                if following == b"PK":
                    source.take(size)
                    return packed is None or (crc, size_behind, whole) == (packed.crc, packed.taken, packed.whole)
        source.take(12)
        return False

    def _take_listed(self) -> bool:
        head = self._source.take(_CENTRAL_HEAD.size)
        if len(head) < _CENTRAL_HEAD.size:
            return False
        fields = _CENTRAL_HEAD.unpack(head)
        flags, crc, name_size, extra_size, comment_size = fields[3], fields[7], fields[10], fields[11], fields[12]
        name = self._source.take(name_size)
        self._listed.append((_name(name, flags), crc))
        return len(name) == name_size and _skip(self._source, extra_size + comment_size)

    def _take_sized(self) -> bool:
        """Takes a record that says how long it is."""
        mark = self._source.take(4)
        form = "<Q" if mark == _END_64 else "<H"
        size = self._source.take(struct.calcsize(form))
        return len(size) == struct.calcsize(form) and _skip(self._source, struct.unpack(form, size)[0])

    def _take_end(self) -> bool:
        end = self._source.take(22)
        return len(end) == 22 and _skip(self._source, struct.unpack_from("<H", end, 20)[0])


class _Stored(io.RawIOBase):
    """The bytes of a member of a tar archive."""

    def __init__(self, source: _Bytes, size: int) -> None:
        super().__init__()
        self._source, self.left = source, size

    def readable(self) -> bool:
        return True

    def readinto(self, buffer: Any) -> int:
        if not self.left:
            return 0
        data = self._source.some(min(self.left, len(buffer)))
        if not data:
            raise EOFError("the archive is cut")
        self.left -= len(data)
        buffer[:len(data)] = data
        return len(data)


def _number(field: bytes) -> int:
    """A number as tar writes it: octal digits, or bytes behind one of 0x80."""
    if field[0] & 0x80:
        return int.from_bytes(bytes([field[0] & 0x7f]) + field[1:], "big")
    return int(field.strip(b" \0") or b"0", 8)


def _is_tar_head(block: bytes) -> bool:
    try:
        return len(block) == 512 and _number(block[148:156]) == sum(block) - sum(block[148:156]) + 8 * 32 and any(block)
    except ValueError:
        return False


def _pax(data: bytes) -> Dict[str, str]:
    """The fields of an extended head. Each begins with its length and a blank."""
    fields = {}
    at = 0
    while at < len(data):
        blank = data.index(b" ", at, at + _LONGEST_NUMBER)
        length = int(data[at:blank])
        key, _, value = data[blank + 1:at + length - 1].partition(b"=")
        fields[key.decode("utf-8", "replace")] = value.decode("utf-8", "surrogateescape")
        at += max(1, length)
    return fields


def _tar_members(source: _Bytes, label: str) -> Iterator[Union[Member, Trouble]]:
    long_name: Optional[str] = None
    long_size: Optional[int] = None
    while True:
        at, block = source.at, source.take(512)
        if block == bytes(512):
            break
        if not _is_tar_head(block):
            yield Trouble(f"{label}: from byte {at} on", _CUT, _PACK_AGAIN)
            while source.some(_PART):
                pass
            return
        size, kind = _number(block[124:136]), block[156:157]
        if kind in b"Lx" and kind and size <= _MOST_HEAD:
            data = source.take((size + 511) // 512 * 512)[:size]
            if kind == b"L":
                long_name = data.rstrip(b"\0").decode("utf-8", "surrogateescape")
            else:
                try:
                    fields = _pax(data)
                    long_name, long_size = (fields.get("path", long_name),
                                            int(fields["size"]) if "size" in fields else None)
                except ValueError:
                    yield Trouble(f"{label}: from byte {at} on", "the head of a member is damaged", _PACK_AGAIN)
            continue
        name = block[:100].rstrip(b"\0").partition(b"\0")[0]
        if block[257:263] == b"ustar\0" and block[345]:
            name = block[345:500].partition(b"\0")[0] + b"/" + name
        full = long_name if long_name is not None else name.decode("utf-8", "surrogateescape")
        if len(full) > LONGEST_NAME:
            yield Trouble(f"{label}: from byte {at} on", "the name of a member is longer than any is", _PACK_AGAIN)
        member_label = f"{label}:{shortened(full, LONGEST_NAME)}"
        size = long_size if long_size is not None else size
        long_name = long_size = None
        if kind in (b"0", b"\0", b"7"):
            stored = _Stored(source, size)
            yield Member(member_label, stored)
            if not _skip(source, stored.left) or not _skip(source, -size % 512):
                yield Trouble(f"{label}: from byte {source.at} on", _CUT, _PACK_AGAIN)
                return
        elif kind in b"123456" and kind:
            continue  # a link, a device or a folder has no bytes
        else:
            if kind not in (b"g", b"K"):  # fields of all members, and the name to which a link goes
                yield Trouble(member_label, f"the member is of a kind that isn't known: {kind!r}",
                              "unpack the archive, and name its files")
            if not _skip(source, (size + 511) // 512 * 512):
                yield Trouble(f"{label}: from byte {source.at} on", _CUT, _PACK_AGAIN)
                return
    at = source.at
    while True:
        data = source.some(_PART)
        if not data:
            return
        if any(data):
            yield Trouble(f"{label}: from byte {at} on", "what is behind the archive is no part of it", _PACK_AGAIN)
            while source.some(_PART):
                pass
            return


def members_of(head: bytes, stream: Any, label: str) -> Optional[Iterator[Union[Member, Trouble]]]:
    """The files of an archive, or None if a stream is none."""
    if head.startswith((_LOCAL, _END)):
        return _guarded(_Zip(_Bytes(stream), label).members, label)
    if _is_tar_head(head[:512]) or head[257:262] == b"ustar" and b"\0" in head[:100]:  # the first head may be damaged
        source = _Bytes(stream)
        return _guarded(lambda: _tar_members(source, label), label)
    return None


def _guarded(make: Callable[[], Iterator[Union[Member, Trouble]]], label: str) -> Iterator[Union[Member, Trouble]]:
    """Members, and what stands for the rest of an archive that can't be read to its end."""
    try:
        yield from make()
    except (OSError, EOFError, zlib.error, zipfile.BadZipFile, RuntimeError, ValueError, struct.error) as error:
        yield Trouble(f"{label}: the rest", f"the archive can't be read: {error}", "copy the file again")
