"""What directory objects have of the objects above them, as the sources have these."""
import functools
from typing import Dict, Iterable, List, Literal, NamedTuple, Optional, Tuple

import sdtool
from sdtool._windows import CLASSES
from sdtool.audit.checks import MOST_TYPED
from sdtool.audit.directory.trails import places_of, read_descriptor
from sdtool.audit.library import (CONTAINER_INHERIT, DENIES, INHERIT_ONLY, INHERITED, PROTECTED, Ace, Descriptor,
                                  Refusal, explained, mapped)
from sdtool.audit.sources import ldif
from sdtool.audit.sources.items import HEX, Item
from sdtool.audit.store.scratch import Scratch, restored, stored
from sdtool.audit.windows import names as sids

_MOST_KEPT = 1_000  # descriptors of parents, and what these hand on to one class
_KIND: Literal["ds"] = "ds"
_CREATORS = (sids.CREATOR_OWNER, sids.CREATOR_GROUP)
_NOBODY = "S-1-0-0"  # stands for the creator, who gets nothing that counts here
_OF_KNOWN_CLASSES = frozenset(CLASSES.values())
# What an ACE grants, without where it counts: its kind, its mask, its object type, its class and its trustee.
_Grant = Tuple[str, int, str, str, str]


class _Reach(NamedTuple):
    """Where an ACE counts."""

    here: bool
    below: bool

    def covers(self, other: "_Reach") -> bool:
        return self.here >= other.here and self.below >= other.below

    def plus(self, other: "_Reach") -> "_Reach":
        return _Reach(self.here or other.here, self.below or other.below)


_NOWHERE = _Reach(False, False)


class _Handed(NamedTuple):
    """What an object hands on: where each ACE counts, how many that deny come before it, and these."""

    reach: Dict[_Grant, _Reach]
    denied: Dict[_Grant, int]
    denies: List[Tuple[_Grant, _Reach]]


def _grant_of(ace: Ace) -> _Grant:
    return ace.kind, mapped(ace.mask, _KIND), ace.object_type, ace.inherited_type, ace.sid


def _reach_of(ace: Ace) -> _Reach:
    return _Reach(not ace.flags & INHERIT_ONLY, bool(ace.flags & CONTAINER_INHERIT))


def _is_of_class(guid: str, of_class: str) -> bool:
    """Whether an ACE for a class counts for objects of a class that is named. Both may be unknown here."""
    if not guid or not of_class:
        return not guid
    return CLASSES[of_class] == guid if of_class in CLASSES else guid not in _OF_KNOWN_CLASSES


def _counts(reach: Dict[_Grant, _Reach], grant: _Grant, where: _Reach) -> bool:
    """Whether a grant counts wherever it has to."""
    return reach.get(grant, _NOWHERE).covers(where)


def _is_crowded(above: sdtool.SecurityDescriptor) -> bool:
    """Whether an object may have too many trustees and object types to be asked about, so that it is unknown."""
    types = {ace.object_type for ace in above.dacl if ace.object_type is not None}
    return len(types) * len({ace.sid for ace in above.dacl} if types else ()) > MOST_TYPED


_NOTHING = _Handed({}, {}, [])


class Parents:
    """The descriptors of objects by name, in a file if they are many, and what each hands on."""

    def __init__(self, domain: str) -> None:
        self._domain = domain
        self._database = Scratch().database
        self._database.execute("CREATE TABLE objects(key, form, text)")
        self._has_index = False
        self._descriptor = functools.lru_cache(_MOST_KEPT)(self._looked_up)
        self._handed = functools.lru_cache(_MOST_KEPT)(self._derived)

    def add(self, items: Iterable[Item]) -> None:
        """Takes objects, also those that can't be read."""
        self._database.executemany("INSERT INTO objects VALUES (?, ?, ?)", (
            (stored(item.name.casefold()), item.form, stored(item.text)) for item in items))

    def handed_on(self, name: str, found: Descriptor, of_class: str) -> Tuple[int, ...]:
        """The numbers, from 1, of the inherited ACEs of an object that the object above hands on, as far as its
        descriptor is known, with what it denies before. What stood for the creator there, or stands for the owner,
        belongs to the object alone, and nothing arrives at a protected DACL."""
        above = ldif.parent_of(name).casefold()
        if not above or found.control & PROTECTED or not any(ace.flags & INHERITED for ace in found.aces):
            return ()
        handed, numbers, passed = self._handed(above, of_class), [], 0
        seen: Dict[_Grant, _Reach] = {}
        for number, ace in enumerate(found.aces, 1):
            grant, reach = _grant_of(ace), _reach_of(ace)
            while passed < len(handed.denies) and _counts(seen, *handed.denies[passed]):
                passed += 1
            if (ace.flags & INHERITED and ace.sid != sids.OWNER_RIGHTS and grant in handed.reach
                    and _counts(handed.reach, grant, reach) and handed.denied[grant] <= passed):
                numbers.append(number)
            seen[grant] = seen.get(grant, _NOWHERE).plus(reach)
        return tuple(numbers)

    def _looked_up(self, key: str) -> Optional[sdtool.SecurityDescriptor]:
        """The descriptor of an object, if the sources have one for it that can be read."""
        if not self._has_index:
            self._database.execute("CREATE INDEX objects_key ON objects(key)")
            self._has_index = True
        rows = self._database.execute("SELECT DISTINCT form, text FROM objects WHERE key = ? LIMIT 2",
                                      (stored(key),)).fetchall()
        if len(rows) != 1 or not rows[0][0]:
            return None
        try:
            return read_descriptor(rows[0][0], restored(rows[0][1]), self._domain)
        except (sdtool.Error, ValueError):
            return None

    def _derived(self, key: str, of_class: str) -> _Handed:
        """What an object hands on to those of a class below it."""
        above = self._descriptor(key)
        if above is None or not above.dacl.is_list or _is_crowded(above):
            return _NOTHING
        try:
            handed = explained(HEX, [above.derive(_NOBODY, _NOBODY, kind="container", mapping=_KIND).bytes.hex()])[0]
            numbers = places_of(above, True, _NOBODY, _NOBODY, _KIND)
        except sdtool.Fault:
            return _NOTHING
        assert not isinstance(handed, Refusal)
        found = _Handed({}, {}, [])
        for number, ace in zip(numbers, handed.aces):
            grant, (here, below) = _grant_of(ace), _reach_of(ace)
            here = (here and _is_of_class(ace.inherited_type, of_class)
                    and str(above.dacl[number - 1].sid) not in _CREATORS)
            found.reach[grant] = found.reach.get(grant, _NOWHERE).plus(_Reach(here, below))
            found.denied[grant] = len(found.denies)
            if ace.kind in DENIES and ace.sid != _NOBODY:
                found.denies.append((grant, _Reach(here, below)))
        return found
