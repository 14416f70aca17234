"""What a source says of the place of a directory object, and the text of it that an object carries."""
import re
from typing import NamedTuple, Tuple

from sdtool._windows import DEFAULTS, PROTECTING
from sdtool.audit.sources.items import WITHOUT_OWNER

_PART = "\1"  # between the parts of a place; no name of a class has it
_ABOVE = "\2"  # before what is above an object
SHARE = "\3"  # before what the share of an object is
_PROTECTING, _PROTECTED = PROTECTING


class Place(NamedTuple):
    """What a source says of a directory object: without classes it says nothing."""

    classes: Tuple[str, ...] = ()  # the last one is the object's own
    named: str = ""                # the first part of its name, if a default is for that
    is_of_accounts: bool = True    # whether its naming context has accounts
    handed_on: Tuple[int, ...] = ()  # the numbers of the ACEs that the object above hands on
    heirs: str = ""                # where its heirs are counted
    makers: Tuple[str, ...] = ()   # the SIDs of machines that it is their own of

    def text(self) -> str:
        return _PART.join([",".join(self.classes), self.named, "1" * self.is_of_accounts,
                           ",".join(map(str, self.handed_on)), self.heirs,
                           *([",".join(self.makers)] if self.makers else [])])


class Above(NamedTuple):
    """What a source says of the folder of an object: its name and descriptor, or why nothing is known of it. Nothing is
    above a root."""

    is_folder: bool  # whether the object is one itself
    name: str = ""
    form: str = ""
    text: str = ""
    reason: str = ""

    def with_place(self, place: str) -> str:
        """The text of a place that has this too."""
        names = (one.replace(_ABOVE, " ") for one in (self.reason, self.name))
        return _ABOVE.join([place, "1" * self.is_folder, *names, self.form, self.text])


def above_of(text: str) -> Tuple[str, Above]:
    """The text of a place without what is above, and that."""
    place, *parts = text.split(_ABOVE, 5)
    if not parts:
        return place, Above(False, reason="its folder wasn't looked for, since the source can be read only once")
    is_folder, reason, name, form, descriptor = parts
    return place, Above(bool(is_folder), name, form, descriptor, reason)


class Through(NamedTuple):
    """The share by which an object of a server is reached: its name and descriptor, or why it has none that is known.
    An object that isn't of a share has one without a name."""

    name: str = ""
    form: str = ""
    told: str = ""  # the descriptor, or the reason
    samba: str = ""  # whether the server is one of Samba

    def text(self) -> str:
        """The text of the place of an object of the share."""
        return SHARE.join(["", *(re.sub("[\1-\3\ud800-\udfff]", " ", one) for one in self)])


def through_of(text: str) -> Tuple[str, Through]:
    """The text of a place without its share, and that."""
    place, *parts = text.split(SHARE)
    return place, Through(*parts)


def place_of(text: str) -> Place:
    """The place of its text."""
    if not text:
        return Place()
    classes, named, is_of_accounts, handed_on, heirs, *makers = text.split(_PART)
    return Place(_words(classes), named, bool(is_of_accounts), tuple(map(int, _words(handed_on))), heirs,
                 _words("".join(makers)))


def _words(text: str) -> Tuple[str, ...]:
    return tuple(text.split(",")) if text else ()


def classes_of(text: str) -> Tuple[str, ...]:
    """The classes of the object that the text of a place is of."""
    text = through_of(text.partition(_ABOVE)[0])[0]
    return place_of("" if text == WITHOUT_OWNER else text).classes


def known_place(text: str, kind: str) -> Place:
    """The place of an object of a kind, with all classes that its rights are of. A template has its class by its
    kind. Without classes the name says nothing."""
    text = through_of(text)[0]
    place = place_of("" if text == WITHOUT_OWNER else text)
    if not place.classes:
        own = ("pKICertificateTemplate",) if kind == "template" else ()
        return Place(own, handed_on=place.handed_on, heirs=place.heirs, makers=place.makers)
    return place._replace(classes=_PROTECTED + place.classes) if place.named == _PROTECTING else place


NAMED_PLACES = frozenset({_PROTECTING, *(name for row in DEFAULTS for name in row[2])})
