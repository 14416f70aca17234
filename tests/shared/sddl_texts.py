"""Hostile texts of SDDL, and where the independent implementation (tests/reference) finds their faults, in the
characters or the code units that a door counts.
"""
import unicodedata
from typing import NamedTuple

import compare
import fault_places
from reference.places import Place, place_of_sddl

DOMAIN = "S-1-5-21-1-2-3"  # that of fault_places.DOMAIN
# Characters of 1 to 4 bytes, among them some that do not show, that stand above the one before, or that turn the
# direction.
STRANGE = ["\0", "\t", "\x1b", "\x7f", "\x85", "\xa0", "\xe9", "\u0301", "\u05d0", "\u202e", "\u2028", "\u20ac",
           "\u6f22", "\ufeff", "\uff21", "\ufffd", "\U0001043c", "\U0001f600", "\U000e0041"]
HALVES = ["\ud800", "\udfff", "\ud83d\ude00"]  # of surrogate pairs, which no UTF-8 has
MOST_SHOWN = 72


class Expected(NamedTuple):
    """What a door says of a fault: its line, its place, the same in words, and the characters of the range."""

    line: str
    place: Place
    said: str
    first: int
    size: int


def hostile(chosen, count, most=20_000):
    """The texts of the rows that were counted by hand, and random ones with strange characters in them."""
    for row in fault_places.OF_SDDL:
        if len(row[0]) <= most and row[0].isascii():
            yield row[0].decode()
    maker = compare.Lines(chosen)
    for _ in range(count):
        text = maker.sddl_line().decode("latin-1")
        for _ in range(chosen.choice((0, 0, 1, 1, 2, 5))):
            at = chosen.randrange(len(text) + 1)
            text = text[:at] + chosen.choice(STRANGE + HALVES) + text[at + chosen.choice((0, 0, 1)):]
        yield text.replace("\n", "")


def in_code_units(text):
    """A text of JavaScript as its encoder takes it: pairs of halves are characters, and what is left of them U+FFFD."""
    return text.encode("utf-16-le", "surrogatepass").decode("utf-16-le", "replace")


def with_pairs(text):
    """A text in which two halves that stand side by side are a character, as JavaScript has them."""
    return text.encode("utf-16-le", "surrogatepass").decode("utf-16-le", "surrogatepass")


def expected(text, code_units=False, with_domain=True):
    """What a door says of a text under DOMAIN, or None for one that has a descriptor."""
    given = in_code_units(text) if code_units else text
    found = place_of_sddl(given.encode("utf-8", "surrogatepass"), fault_places.DOMAIN if with_domain else None)
    if found is None:
        return None
    line, place = found
    if place is None:
        return Expected(line, None, line, 0, 0)
    first, end = (begun(given, place.offset), begun(given, place.offset + place.size))
    counted = [len(given[:at].encode("utf-16-le", "surrogatepass")) // 2 if code_units else at for at in (first, end)]
    said = fault_places.in_words(place)
    return Expected(line, place._replace(offset=counted[0], size=counted[1] - counted[0]), said, first, end - first)


def begun(text, size):
    """How many characters begin in so many bytes of a text."""
    at = count = 0
    for character in text:
        if at >= size:
            break
        at += len(character.encode("utf-8", "surrogatepass"))
        count += 1
    return count


def shows(character):
    return character == " " or unicodedata.category(character)[0] not in "CZ"


def is_excerpt(shown, text, first, size):
    """Whether two lines are the characters of a text around a range, and carets below it."""
    line, _, carets = shown.partition("\n")
    before, count = len(carets) - len(carets.lstrip(" ")), len(carets.strip(" "))
    begin = first - before
    window = text[max(begin, 0):begin + MOST_SHOWN]
    as_shown = "".join(character if shows(character) else "?" for character in window)
    is_whole = len(window) == min(len(text), MOST_SHOWN)
    return (begin >= 0 and line == as_shown and is_whole
            and carets == " " * before + "^" * max(1, min(size, MOST_SHOWN)) and
            (size == 0 or before + count <= len(line)))
