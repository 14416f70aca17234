"""Where a fault is in what was given, and the text around it."""
from typing import Callable, Dict, Literal, NamedTuple, Optional, Protocol, Tuple

FieldName = Literal["kind", "flags", "rights", "object type", "inherited object type", "sid", "size"]

# By the numbers of include/sdtool.h.
PARTS: Tuple[Optional[str], ...] = (None, "owner", "group", "sacl", "dacl")
FIELDS: Tuple[Optional[FieldName], ...] = (None, "kind", "flags", "rights", "object type", "inherited object type",
                                           "sid", "size")
NO_ACE = 0xFFFFFFFF
_IN_WORDS: Dict[str, str] = {"owner": "the owner", "group": "the group", "sacl": "the SACL", "dacl": "the DACL",
                             "sid": "SID"}
_MOST_SHOWN = 72  # characters
_DIGITS = 2  # of a byte
_CONTINUATIONS = bytes(range(0x80, 0xc0))  # bytes that begin no character
HEAD_OF_ACE = "D:"  # which makes a descriptor of the text of an ACE


class Place(NamedTuple):
    """Where a fault is.

    part is "owner", "group", "sacl", "dacl" or None, and ace the index of an ACE of that part, or None. field is
    "kind", "flags", "rights", "object type", "inherited object type", "sid", "size" or None. What was given, bytes or a
    text, has the fault in given[offset:offset + size], which is empty where something is missing.
    """

    part: Optional[str]
    ace: Optional[int]
    field: Optional[FieldName]
    offset: int
    size: int


class Located(NamedTuple):
    """A place that was looked up, the same in words, and what is around it."""

    place: Optional[Place]
    words: str
    excerpt: str

    def located(self) -> "Located":
        return self


class Where(Protocol):
    """What was given, until somebody asks for the place, or the place."""

    def located(self) -> Located: ...


NOWHERE = Located(None, "", "")
_Found = Optional[Tuple[int, int, int, int, int]]  # by the library: part, ACE, field, offset and size in bytes


class InBytes:
    """The bytes of a descriptor that has a fault, as they were."""

    def __init__(self, data: bytes, find: Callable[[bytes], _Found]) -> None:
        self._data = data
        self._find = find

    def located(self) -> Located:
        found = self._find(self._data)
        if found is None:
            return NOWHERE
        place = _place_of(found)
        shown = _around(self._data.hex(), _DIGITS * place.offset, _DIGITS * place.size, _DIGITS)
        return Located(place, _in_words(place, place.offset), shown)


class InText:
    """A text of SDDL that has a fault, in UTF-8, and the SID of its domain. With is_ace the text is an ACE that was
    given, behind the head of a DACL that was not."""

    def __init__(self, text: bytes, domain: Optional[bytes], find: Callable[[bytes, Optional[bytes]], _Found],
                 is_ace: bool = False) -> None:
        self._text = text
        self._domain = domain
        self._find = find
        self._is_ace = is_ace

    def of_ace(self) -> "InText":
        return InText(self._text, self._domain, self._find, True)

    def located(self) -> Located:
        found = self._find(self._text, self._domain)
        if found is None:
            return NOWHERE
        place, front = _place_of(found), len(HEAD_OF_ACE) if self._is_ace else 0
        given, offset = self._text[front:], place.offset - front
        # which was given
        is_head = (place.field is None and given[offset:offset + place.size].upper() == HEAD_OF_ACE.encode())
        part, ace = (None, None) if front and place.part == "dacl" and not is_head else (place.part, place.ace)
        first, end = _characters(given[:offset]), _characters(given[:offset + place.size])
        place = Place(part, ace, place.field, first, end - first)
        return Located(place, _in_words(place, offset), _around(_text_of(given), first, end - first, 1))


class InField:
    """A text that is none of a field by itself."""

    def __init__(self, text: str, field: Optional[FieldName]) -> None:
        self._text = text
        self._field = field

    def located(self) -> Located:
        place = Place(None, None, self._field, 0, len(self._text))
        return Located(place, _in_words(place, 0), _around(self._text, 0, place.size, 1))


def _place_of(found: Tuple[int, int, int, int, int]) -> Place:
    part, ace, field, offset, size = found
    return Place(PARTS[part], None if ace == NO_ACE else ace, FIELDS[field], offset, size)


def _in_words(place: Place, byte: int) -> str:
    """A place in words, which count from ACE 1, as an explanation does, and from byte 0."""
    words = [f"at byte {byte}"]
    if place.part is not None:
        part = _IN_WORDS[place.part]
        words.append(part if place.ace is None else f"ACE {place.ace + 1} of {part}")
    if place.field is not None:
        words.append(_IN_WORDS.get(place.field, place.field))
    return ", ".join(words)


def _characters(text: bytes) -> int:
    """How many characters begin in a text in UTF-8."""
    return len(text.translate(None, _CONTINUATIONS))


def _text_of(data: bytes) -> str:
    return data.decode("utf-8", "surrogatepass")


def _around(text: str, offset: int, size: int, step: int) -> str:
    """Two lines: the characters of a text around a range, and carets below it. An empty range has one."""
    first = max(0, min(offset - (_MOST_SHOWN - min(size, _MOST_SHOWN)) // 2, len(text) - _MOST_SHOWN))
    first -= first % step
    shown = "".join(character if character.isprintable() else "?" for character in text[first:first + _MOST_SHOWN])
    return f"{shown}\n{' ' * (offset - first)}{'^' * max(1, min(size, first + _MOST_SHOWN - offset))}"
