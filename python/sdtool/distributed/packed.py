"""Compressed files: what a file is by its name and its first bytes, and all that is in it."""
import bz2
import io
import lzma
import zlib
from typing import Any, Callable, Dict, NamedTuple, Optional, Tuple

PIECE = 1 << 12  # bytes that are read at once: zstd may make 32,000 times as many of them
# How files begin that nothing here reads: zip, 7z, rar, lz4, lzip, lzop, compress.
OTHER_BEGINNINGS = (b"PK\3\4", b"PK\5\6", b"7z\xbc\xaf\x27\x1c", b"Rar!\x1a\7", b"\4\x22M\x18", b"\2\x21L\x18", b"LZIP",
                    b"\x89LZO", b"\x1f\x9d")
OTHER_SUFFIXES = (".zip", ".7z", ".rar", ".lz4", ".lz", ".lzo", ".lzma", ".z", ".br", ".sz", ".snappy", ".zz",
                  ".tar", ".tgz", ".tbz", ".tbz2", ".txz", ".tzst")
TAR_AT, TAR = 257, b"ustar"  # where the header of a tar archive says what it is
LONGEST_BEGINNING = TAR_AT + len(TAR)


def _zstd() -> Any:
    try:
        import zstandard
    except ImportError as error:
        raise ImportError(f"a .zst file needs Debian's python3-zstandard, which is not here ({error})") from None
    return zstandard.ZstdDecompressor().decompressobj()


class Kind(NamedTuple):
    suffix: str
    beginnings: Tuple[bytes, ...]
    open: Callable[[], Any]  # gives an object that decompresses one stream
    is_padded: bool  # whether zeros may follow a stream
    is_bounded: bool = True  # whether it gives no more at once than it is asked for


# How a frame of zstd without data begins, which may come first. One of lz4 does too, and what follows it is no zstd.
SKIPPED = [bytes([first, *b"\x2aM\x18"]) for first in range(0x50, 0x60)]
KINDS: Dict[str, Kind] = {
    "gzip": Kind(".gz", (b"\x1f\x8b",), lambda: zlib.decompressobj(31), True),  # 31: with gzip's header and checksum
    "bzip2": Kind(".bz2", (b"BZh",), bz2.BZ2Decompressor, False),
    "xz": Kind(".xz", (b"\xfd7zXZ\0",), lzma.LZMADecompressor, True),
    "zstd": Kind(".zst", (b"\x28\xb5\x2f\xfd", *SKIPPED), _zstd, False, False),
}


def kind_of(name: str, beginning: bytes) -> Optional[str]:
    """The kind of a file by its suffix, or else by its first bytes. None: it is not compressed. A kind that is not read
    here is a ValueError."""
    low = name.lower()
    unpacked = next((low[:-len(kind.suffix)] for kind in KINDS.values() if low.endswith(kind.suffix)), low)
    if low.endswith(OTHER_SUFFIXES) or unpacked.endswith(OTHER_SUFFIXES):
        raise ValueError("is compressed in a way that is not read here")
    for name, kind in KINDS.items():
        if low.endswith(kind.suffix):
            return name
    if beginning.startswith(OTHER_BEGINNINGS) or beginning[TAR_AT:].startswith(TAR):
        raise ValueError("is compressed in a way that is not read here, by its first bytes")
    return next((name for name, kind in KINDS.items() if beginning.startswith(kind.beginnings)), None)


def name_without_suffix(name: str, kind: Optional[str]) -> str:
    suffix = KINDS[kind].suffix if kind else ""
    return name[:-len(suffix)] if suffix and name.lower().endswith(suffix) and len(name) > len(suffix) else name


class Unpacked(io.RawIOBase):
    """The bytes of all streams of a file, which a function reads. It is an error if the file is empty, ends within a
    stream, or has anything but streams and their padding."""

    def __init__(self, read: Callable[[int], bytes], name: str) -> None:
        super().__init__()
        self._read, self._name, self._kind = read, name, KINDS[name]
        self._stream: Any = self._kind.open()
        self._data, self._held = b"", memoryview(b"")  # of the file, and unpacked

    def readable(self) -> bool:
        return True

    def readinto(self, buffer: Any) -> int:
        while not self._held and self._stream:
            if self._stream.eof:
                self._go_on()
            else:
                self._unpack(len(buffer))
        count = min(len(buffer), len(self._held))
        buffer[:count], self._held = self._held[:count], self._held[count:]
        return count

    def _unpack(self, most: int) -> None:
        self._held = memoryview(self._stream.decompress(self._data, *(most,) * self._kind.is_bounded))
        self._data = getattr(self._stream, "unconsumed_tail", b"")  # of zlib
        if not (self._held or self._data or self._stream.eof) and getattr(self._stream, "needs_input", True):
            self._data = self._read(PIECE)
            if not self._data:
                raise EOFError(f"the file ends within a stream of {self._name}, or is empty")

    def _go_on(self) -> None:
        """Begins the next stream, behind padding, if there is one."""
        data = self._stream.unused_data or self._read(PIECE)
        while self._kind.is_padded and data and not data.strip(b"\0"):
            data = self._read(PIECE)
        self._data = data.lstrip(b"\0") if self._kind.is_padded else data
        self._stream = self._kind.open() if data else None
