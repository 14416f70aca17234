"""Where an ACE was set that an object inherits: by the origins of its folder's ACEs, and of those above."""
import base64
import functools
from typing import Dict, List, NamedTuple, Optional, Tuple

import sdtool
from sdtool.audit.directory.trees import folder_key
from sdtool.audit.masks import MAPPINGS
from sdtool.audit.sources.items import BASE64, SDDL, Item
from sdtool.audit.store.scratch import Scratch, restored

_NOBODY = "S-1-0-0"  # stands for an owner that the source doesn't say
_INHERIT_ONLY = sdtool.AceFlags.IO
_MOST_KEPT = 10_000
_MOST_OBJECTS = 100  # which may have thousands of ACEs


class _Object(NamedTuple):
    name: str
    folder: str  # its key
    kind: str
    descriptor: sdtool.SecurityDescriptor
    aces: Tuple[sdtool.Ace, ...]


class _Place(NamedTuple):
    """An ACE of an object, and whether it was set there."""

    name: str
    number: int  # from 1
    is_set: bool


def places_of(folder: sdtool.SecurityDescriptor, is_folder: bool, owner: str, group: str, kind: str) -> List[int]:
    """For each ACE that an object gets from its folder, the number of the folder's ACE that it is made of, from 1."""
    told = folder.origins(owner, group, kind="container" if is_folder else "file",
                          mapping=MAPPINGS[kind][0])  # type: ignore[arg-type]
    return [origin.place + 1 for origin in told.dacl]


class Trails:
    """The ways of ACEs through the folders of a table of objects, which has a key for each and that of its folder."""

    def __init__(self, scratch: Scratch, domain: str) -> None:
        self._scratch = scratch
        self._domain = domain
        self._way = functools.lru_cache(_MOST_KEPT)(self._followed)
        self._object = functools.lru_cache(_MOST_OBJECTS)(self._looked_up)
        self._above = functools.lru_cache(_MOST_OBJECTS)(self._compared)

    def told(self, item: Item, number: int) -> str:
        """From which ACE of its folder an object would get an ACE, and where that was set."""
        first, last = self._way(folder_key(item.name, item.kind), number)
        if first is None:
            return ""
        if last is None or last == first:
            return f"from ACE {number} of {first.name}, {'set there' if first.is_set else 'inherited from above'}"
        where = f"set at {last.name}, ACE {last.number}" if last.is_set else f"inherited from above {last.name}"
        return f"from ACE {number} of {first.name}, {where}"

    def _followed(self, key: str, number: int) -> Tuple[Optional[_Place], Optional[_Place]]:
        """The ACE of a folder, and the one above of which it was made in the end, as far as the source has it."""
        first: Optional[_Place] = None
        last: Optional[_Place] = None
        seen = set()
        found = self._object(key)
        while found is not None and key not in seen and number <= len(found.aces):
            seen.add(key)
            is_set = not found.aces[number - 1].flags & sdtool.AceFlags.ID
            last = _Place(found.name, number, is_set)
            first = first or last
            number_above = None if is_set else self._above(key)[number - 1]
            if number_above is None:
                break
            key, number, found = found.folder, number_above, self._object(found.folder)
        return first, last

    def _compared(self, key: str) -> List[Optional[int]]:
        """For each ACE of an object the number of the ACE of its folder of which it was made."""
        found = self._object(key)
        assert found is not None
        above = self._object(found.folder)
        return [None] * len(found.aces) if above is None else _numbers_above(found, above)

    def _looked_up(self, key: str) -> Optional[_Object]:
        """The object of a key, if the source has one descriptor for it, which is a list."""
        rows = self._scratch.database.execute(
            "SELECT name, form, text, kind, folder FROM objects WHERE key = ? GROUP BY form, text ORDER BY "
            "min(id) LIMIT 2",
            (key.encode("utf-8", "surrogatepass"),)).fetchall() if key else []
        if len(rows) != 1:
            return None
        name, form, text, kind, folder = rows[0]
        try:
            descriptor = read_descriptor(form, restored(text), self._domain)
        except (sdtool.Error, ValueError):
            return None
        return (_Object(restored(name), folder.decode("utf-8", "surrogatepass"), kind, descriptor,
                        tuple(descriptor.dacl)) if descriptor.dacl.is_list else None)


def read_descriptor(form: str, text: str, domain: str) -> sdtool.SecurityDescriptor:
    """The descriptor of a text of a form."""
    if form == SDDL:
        return sdtool.SecurityDescriptor.from_sddl(text, domain=domain or None)
    return sdtool.SecurityDescriptor.from_bytes(base64.b64decode(text, validate=True) if form == BASE64
                                                else bytes.fromhex(text))


def _numbers_above(found: _Object, above: _Object) -> List[Optional[int]]:
    """For each ACE of an object the number of the ACE above of which it would be made. Of equal ones the first is made
    of the first."""
    arguments = (found.descriptor.owner or _NOBODY, found.descriptor.group or _NOBODY)
    try:
        handed = above.descriptor.derive(*arguments, kind="container",
                                         mapping=MAPPINGS[found.kind][0])  # type: ignore[arg-type]
        numbers = places_of(above.descriptor, True, str(arguments[0]), str(arguments[1]), found.kind)
    except sdtool.Fault:
        return [None] * len(found.aces)
    left: Dict[sdtool.Ace, List[int]] = {}  # the numbers of equal ACEs, the last one first
    for number, ace in reversed(list(zip(numbers, handed.dacl))):
        left.setdefault(_for_any_class(ace), []).append(number)
    equal = [left.get(_for_any_class(ace)) for ace in found.aces]
    return [one.pop() if one else None for one in equal]


def _for_any_class(ace: sdtool.Ace) -> sdtool.Ace:
    """An ACE for a class of directory objects as it is in objects of the others, where it is inherit-only."""
    return ace if ace.inherited_object_type is None else ace.replace(flags=ace.flags | _INHERIT_ONLY)
