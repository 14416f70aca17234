"""Streams that are no text and that nothing here reads: archives, compressed files, hives and others, by their first
bytes."""
import re
from typing import NamedTuple, Optional

_UNPACK = "unpack it, and name its files"
_EXPORT = "export it as text, and name that file"
_ODD = re.compile(rb"[\x01-\x08\x0e-\x1a\x1c-\x1f]")
_LEAST_BYTES, _MOST_ODD = 100, 20  # of so many bytes one is odd in what is no text


class Refused(NamedTuple):
    """Why a stream isn't read, and what helps."""

    reason: str
    help: str


# A first name may begin as some of these do, so that more than their first letters is looked at.
_STARTS = tuple((re.compile(pattern, re.S), Refused(reason, advice)) for pattern, reason, advice in (
    (rb"SQLite format 3\0", "a database of SQLite is read from a file, not from a pipe or an archive",
     "write it to a file"),
    (rb"7z\xbc\xaf\x27\x1c", "an archive of 7-Zip isn't read", _UNPACK),
    (rb"Rar!\x1a\x07", "an archive of RAR isn't read", _UNPACK),
    (rb"(?:\x28\xb5\x2f\xfd|[\x50-\x5f]\x2a\x4d\x18)", "what Zstandard or LZ4 compressed isn't read", _UNPACK),
    (rb"(?:\x04\x22|\x02\x21\x4c|\x03\x21\x4c)\x4d?\x18", "what LZ4 compressed isn't read", _UNPACK),
    (rb"MSCF\0\0\0\0", "a cabinet isn't read", _UNPACK),
    (rb"PK\x03\x04", "the archive is inside of too many others", _UNPACK),
    (rb"\x1f\x8b\x08", "it is compressed too many times", _UNPACK),
    (rb"0707(?:0[12][0-9A-Fa-f]{104}|07[0-7]{70})|\xc7\x71|\x71\xc7", "an archive of cpio isn't read", _UNPACK),
    (rb"\xed\xab\xee\xdb", "a package of RPM isn't read", _UNPACK),
    (rb"!<arch>\n(?:.{58}`\n|\Z)", "an archive of ar, such as a package of Debian, isn't read", _UNPACK),
    (rb"\x1f[\x9d\x9e\xa0]", "what compress or pack wrote isn't read", _UNPACK),
    (rb"LZIP[\0-\2]", "what lzip compressed isn't read", _UNPACK),
    (rb"\x89LZO\0\r\n", "what lzop compressed isn't read", _UNPACK),
    (rb"\xff\x06\0\0sNaPpY", "what Snappy compressed isn't read", _UNPACK),
    (rb"xar!\0", "an archive of xar isn't read", _UNPACK), (rb"MSWIM\0\0\0", "an image of Windows isn't read", _UNPACK),
    (rb"..-l[hz][0-9ds]-", "an archive of LHA isn't read", _UNPACK),
    (rb"\x60\xea.{2}[\x1e-\x30]", "an archive of ARJ isn't read", _UNPACK),
    (rb"regf.{0,27}\0", "a hive of the registry isn't read", "reg export KEY FILE writes what can be read"),
    (rb"PReg\x01\0\0\0", "the registry part of a group policy isn't read",
     "reg export KEY FILE writes what can be read"),
    (rb"ElfFile\0", "an event log isn't read", "wevtutil gl NAME writes the permissions of a log"),
    (rb"\xd0\xcf\x11\xe0\xa1\xb1\x1a\xe1|%PDF-1", "a document isn't read", _EXPORT)))


def refused(head: bytes, is_wide: bool) -> Optional[Refused]:
    """Why a stream with this beginning isn't read, if it isn't. is_wide says that it is text in UTF-16 or UTF-32."""
    found = next((one for pattern, one in _STARTS if pattern.match(head)), None)
    if found is None and not is_wide and len(head) > _LEAST_BYTES and _MOST_ODD * len(_ODD.findall(head)) > len(head):
        return Refused("it is neither text nor of a form that is read", _EXPORT)
    return found
