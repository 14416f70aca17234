"""What getfattr prints: for each file its name, then its attributes."""
import base64
import re
from typing import Iterator, List, Optional, Tuple

from sdtool.audit.sources.frame import Format, Lines, Look, Piece
from sdtool.audit.sources.items import Item, unreadable
from sdtool.audit.sources.messages import strange_item
from sdtool.audit.sources.opening import AS_THEY_CAME
from sdtool.audit.sources.options import SourceOptions
from sdtool.audit.sources.samba import NO_ATTRIBUTE, item_of_attribute

_START = "# file: "
_COMMENT_LINE = re.compile(r"# (owner|group|flags): ")
_ATTRIBUTE = re.compile(r"\w+\.[^\s=]+(=|\Z)")  # its namespace, a dot and its name
_BLANK, _COMMENT, _OTHER = "a blank line", "a comment", "another attribute"
_VALUE = "the attribute of the file above"


def _recognizes(look: Look) -> bool:
    return any(line.startswith(_START) for line in look.lines)


def _unescaped(name: str) -> str:
    """A name as getfattr escapes it."""
    spelled = re.sub(rb"\\([0-7]{3})", lambda found: bytes([int(found[1], 8) & 0xff]),
                     name.encode("utf-8", AS_THEY_CAME))
    return spelled.decode("utf-8", "surrogateescape")


def _bytes_of(text: str) -> bytes:
    if text[:2] in ("0x", "0X"):
        return bytes.fromhex(text[2:])
    if text[:2] in ("0s", "0S"):
        return base64.b64decode(text[2:], validate=True)
    raise ValueError("the value is neither hex nor base64: use getfattr -e hex")


def _item(name: str, line: int, found: List[Tuple[str, str]], label: str, kind: str) -> Item:
    """A file with the attributes that it has of those with a descriptor."""
    if not found:
        return unreadable(name, label, line, "no attribute with a descriptor", NO_ATTRIBUTE, kind)
    if len(found) > 1:
        return unreadable(name, label, line,
                          f"two attributes have a descriptor: {' and '.join(one for one, _ in found[:2])}",
                          "name one with --attribute", kind)
    attribute, value = found[0]
    try:
        data = _bytes_of(value.strip())
    except ValueError as error:
        return unreadable(name, label, line, f"{attribute}: {error}", "run getfattr -e hex again", kind)
    return item_of_attribute(name, label, line, attribute, data, kind)


def _read(source: Lines, label: str, options: SourceOptions) -> Iterator[Piece]:
    kind = options.kind or "file"
    name: Optional[Tuple[int, str]] = None
    found: List[Tuple[str, str]] = []
    held: List[Piece] = []  # what stands behind the name
    is_lost = False  # whether a line that isn't known stands for the file of the attributes that follow
    has_attribute = False

    def ended() -> Iterator[Piece]:
        nonlocal has_attribute
        has_attribute = False
        if name is not None:
            yield Piece(name[0], name[0] + 1, _item(name[1], name[0], found, label, kind))
        yield from held
        held.clear()
        found.clear()

    for number, line in enumerate(source, 1):
        if line.startswith(_START):
            yield from ended()
            name, is_lost = (number, _unescaped(line[len(_START):])), False
            continue
        if name is not None and has_attribute and line.strip() and held and held[-1].taken == _BLANK:
            yield from ended()
            name = None  # a blank line is behind the attributes of each file
        attribute, equals, value = line.partition("=")
        if not line.strip():
            piece, is_lost = Piece(number, number + 1, _BLANK), False
        elif _COMMENT_LINE.match(line):
            piece = Piece(number, number + 1, _COMMENT)
        elif name is not None and attribute in options.attributes:
            found.append((attribute, value))
            piece = Piece(number, number + 1, _VALUE)
        elif (name is not None or is_lost) and _ATTRIBUTE.match(line):
            piece = Piece(number, number + 1, _OTHER)
        else:
            reason = ("no name stands before this attribute" if _ATTRIBUTE.match(line)
                      else f"{line[:80]!r} is neither a name nor an attribute")
            lost = strange_item(line, label, number, reason, "run getfattr again", kind)
            piece = Piece(number, number + 1, lost, True)
            yield from ended()
            name, is_lost = None, True  # what follows may be of another file
        held.append(piece)
        has_attribute = has_attribute or piece.taken in (_OTHER, _VALUE)
        if name is None:
            yield from ended()
    yield from ended()


FORMAT = Format("getfattr", "getfattr -R -n security.NTACL -e hex FOLDER", "a file, also without an attribute",
                (_BLANK, _COMMENT, _OTHER, _VALUE), _recognizes, _read)
