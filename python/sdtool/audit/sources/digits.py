"""One descriptor in decimal numbers, or in hex or base64 over several lines."""
import base64
import re
from typing import Iterator

from sdtool.audit.sources.binary import end_of
from sdtool.audit.sources.frame import Format, Look, Piece, Texts
from sdtool.audit.sources.items import UNTOLD, bytes_item, looks_like_descriptor, unreadable
from sdtool.audit.sources.options import SourceOptions

_NUMBERS = re.compile(r"\s*1[\s,]+(?:[0-9]{1,3}[\s,]+)*[0-9]{1,3}\s*\Z")
_HEX = re.compile(r"\s*(?:0x)?01(?:[\s,:-]|0x|[0-9a-f]{2})*\Z", re.I)
_BASE64 = re.compile(r"\s*AQ[A-Za-z0-9+/\s]*(?:={1,2}\s*)?\Z")
_MOST = 1 << 20  # characters
_AGAIN = "copy the whole descriptor"


def bytes_of(text: str) -> bytes:
    """The bytes that a text spells; none if it spells something else."""
    try:
        if _NUMBERS.match(text):
            return bytes(map(int, re.findall("[0-9]+", text)))
        if _HEX.match(text):
            return bytes.fromhex(re.sub(r"0x|[\s,:-]", "", text, flags=re.I))
        return base64.b64decode("".join(text.split()), validate=True) if _BASE64.match(text) else b""
    except ValueError:
        return b""


def _recognizes(look: Look) -> bool:
    """Whether a text spells one descriptor, as long as its head says, and no line of several does."""
    data = bytes_of(look.text) if look.is_whole and len(look.text) < _MOST else b""
    is_one = len(data) >= 20 and data[0] == 1 and end_of(data) == len(data)
    is_in_lines = len(look.full()) > 1 and sum(map(looks_like_descriptor, look.full())) < 2
    return is_one and (is_in_lines or bool(_NUMBERS.match(look.text)))


def _read(source: Texts, label: str, options: SourceOptions) -> Iterator[Piece]:
    text, kind = "", options.kind or UNTOLD
    for part in source:
        text += part if len(text) <= _MOST else ""
    data = bytes_of(text) if len(text) <= _MOST else b""
    item = bytes_item(label, label, 1, data, kind) if data else \
        unreadable(label, label, 1, "these are no bytes of a descriptor", _AGAIN, kind)
    if source.count:
        yield Piece(0, source.count, item)


FORMAT = Format("digits", "one descriptor in decimal numbers, or over several lines in hex or base64", "the source", (),
                _recognizes, _read, takes="text")
