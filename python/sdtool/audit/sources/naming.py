"""Titles of columns and members: which have descriptors, which have names, and what they and names tell of objects: the
kind, and the classes of those of a directory."""
import functools
import re
from typing import AbstractSet, Dict, Iterable, List, Sequence

from sdtool._windows import DESCRIPTORS, HINTS, TITLES
from sdtool.audit.sources.items import BY_PATH, UNTOLD, Item, item_of
from sdtool.audit.sources.ldif import place_of_object, unknown_attribute

DESCRIPTOR_NAMES, NAME_NAMES = TITLES["descriptor"], TITLES["name"]  # the first that is there counts
_OF_SHARES = frozenset(TITLES["share"])
CLASS_NAME = "objectclass"
_CLASS = re.compile(r"[\w-]+")
# How names of objects tell their kind; the first that fits counts.
_NAMES = [hint for hint in HINTS if "name" in hint]
_KIND_OF_NAME = re.compile("|".join(f"({hint['name']})" for hint in _NAMES), re.I)
_MOST_OF_NAME = 1_000  # characters in which a name tells a kind, since many objects may have one long name
_NO_LETTERS = str.maketrans("", "", " _-")


def plain_name(title: str) -> str:
    """A title in the form of the tables above."""
    return title.translate(_NO_LETTERS).lower()


# Titles that tell the kind of objects; the first that is there counts.
_KINDS = {plain_name(name): hint["kind"] for hint in HINTS for name in hint.get("property", ())}
# Those of other attributes of directory objects that are descriptors.
_ATTRIBUTES = {plain_name(name): kind for name, kind in DESCRIPTORS.items()}
_TELLING = frozenset({*DESCRIPTOR_NAMES, *NAME_NAMES, *_OF_SHARES, *_KINDS, *_ATTRIBUTES, CLASS_NAME})


def telling(titles: Iterable[str]) -> List[str]:
    """The titles that tell something of objects; of those that are read as the same no more than two."""
    found: Dict[str, List[str]] = {}
    for title in titles:
        same = found.setdefault(plain_name(title), []) if plain_name(title) in _TELLING else []
        same += [title] if len(same) < 2 else []
    return [title for same in found.values() for title in same]


def _is_of_share(titles: AbstractSet[str]) -> bool:
    return {"name", "path"} <= titles and bool(titles & _OF_SHARES) and not titles & {"sddl", "pspath"}


def ranked(titles: Sequence[str], names: Sequence[str]) -> List[int]:
    """The places of the titles that are among these names, the best first."""
    plain = [plain_name(title) for title in titles]
    found = [(names.index(one), at) for at, one in enumerate(plain) if one in names]
    if names is NAME_NAMES and _is_of_share(set(plain)):
        found = [(-1 if plain[at] == "name" else rank, at) for rank, at in found]
    return [at for _, at in sorted(found)]


def kind_of_titles(titles: Iterable[str]) -> str:
    """The kind of the objects that have these titles alone, or nothing."""
    plain = {plain_name(title) for title in titles}
    told = next((kind for title, kind in _KINDS.items() if title in plain), "")
    return told or ("share" if _is_of_share(plain) else "")


def kind_of_name(name: str) -> str:
    """The kind of an object that its name tells."""
    found = _KIND_OF_NAME.match(name, 0, _MOST_OF_NAME)
    kind: str = _NAMES[found.lastindex - 1]["kind"] if found and found.lastindex else UNTOLD
    return BY_PATH if kind == "folder" else kind


@functools.lru_cache(maxsize=1_000)
def is_attribute(title: str) -> bool:
    """Whether a title is of an attribute with a descriptor beside that of its object."""
    return plain_name(title) in _ATTRIBUTES


def attribute_item(name: str, title: str, label: str, line: int, text: str) -> Item:
    """Such a descriptor."""
    kind, own = _ATTRIBUTES[plain_name(title)], f"{name}: {title}"
    return item_of(own, label, line, text, kind) if kind else unknown_attribute(own, title, label, line)


def place_of_classes(name: str, text: str, kind: str) -> str:
    """The place of a directory object, of a text with its classes, of which the last one is its own."""
    return place_of_object(name, tuple(_CLASS.findall(text))) if kind in ("ds", "template") else ""
