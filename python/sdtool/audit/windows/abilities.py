"""What rights of a directory object let somebody do, by name: windows/directory.toml has the list."""
from typing import Any, Callable, Dict, FrozenSet, Iterable, Iterator, List, NamedTuple, Optional, Sequence, Tuple

from sdtool._windows import ABILITIES, CLASSES, HARMLESS, OBJECT_TYPES
from sdtool.audit.library import Ace, Descriptor, Got, mapped
from sdtool.audit.windows import names as sids
from sdtool.audit.windows.rights import FULL

_CREATE, _DELETE, _VALIDATED, _WRITE, _EXTENDED = 0x1, 0x2, 0x8, 0x20, 0x100
_OF_TYPES = _CREATE | _DELETE | _VALIDATED | _WRITE | _EXTENDED  # what an object type can limit
# What has the rights of all object types.
_ALL_OF = {_CREATE: "all classes of children", _EXTENDED: "all extended rights", _WRITE: "all properties",
           _VALIDATED: "all validated writes"}
TEMPLATE = "pKICertificateTemplate"
_HARMLESS = frozenset(HARMLESS)
_CLASS_NAMES = {guid: name for name, guid in CLASSES.items()}

# Whether a trustee has a right where ACEs for some object types count.
Gives = Callable[[int, Sequence[str]], bool]


class Where(NamedTuple):
    """An object, or what inherits from it: its classes, those whose object type is that of all of it, whether its
    naming context has accounts, and whether a source tells the classes."""

    classes: Sequence[str]
    own: Sequence[str]
    has_accounts: bool = True
    is_known: bool = True

    @property
    def is_template(self) -> bool:
        """Whether all extended rights are those to enroll."""
        return bool(self.classes) and self.classes[-1] == TEMPLATE


class Ability(NamedTuple):
    """One way to an ability. types are GUIDs, each with the property set that has it, "" for an ACE without an object
    type, "*" for any, or "?" for one that nothing names: neither windows/schema.toml nor, in named, a schema."""

    name: str
    right: int
    types: Tuple[Tuple[str, ...], ...]
    flat: Tuple[str, ...]  # all of types
    needs_all: bool
    unless: str
    on: FrozenSet[str]
    only: str
    also: Tuple[str, ...]
    known: bool
    says: str
    severity: str
    named: FrozenSet[str]

    def means(self, classes: Sequence[str]) -> bool:
        """Whether it means something for an object of these classes, or of classes that aren't known."""
        return not classes or not self.on or not self.on.isdisjoint(classes)

    def is_by(self, object_type: str) -> bool:
        """Whether an ACE with this object type gives it."""
        if object_type in self.flat or "*" in self.flat and object_type not in _HARMLESS:
            return True
        is_unknown = bool(object_type) and object_type not in OBJECT_TYPES and object_type not in self.named
        return "?" in self.flat and is_unknown

    def paths(self, object_type: str) -> Iterable[Tuple[str, ...]]:
        """The object types that decide about it together, where it comes by one of them, or by one that has all."""
        own = tuple(path for path in self.types if object_type in path)
        return own or (((object_type,),) if not {"", "*", "?"}.isdisjoint(self.flat) or not self.types else self.types)


class Had(NamedTuple):
    """An ability that a trustee has: by which rights, and for which object type."""

    rule: str
    mask: int
    object_type: str
    says: str
    types: Tuple[str, ...]  # all object types by which it comes
    severity: str
    claimed: int            # the mask that says tells of


def _ability(row: Dict[str, Any], named_types: Dict[str, str]) -> Ability:
    types = row["types"] + tuple((named_types[name],) for name in row["named"] if name in named_types)
    flat = tuple(one for path in types for one in path)
    return Ability(row["name"], row["right"], types, flat, row["all"], row["unless"], frozenset(row["on"]), row["only"],
                   row["also"], row["known"], row["says"], row["severity"], frozenset(named_types.values()))


_EVERY = tuple(_ability(row, {}) for row in ABILITIES)


class Abilities:
    """The abilities that are asked for. Without trust whoever has one is meant. named_types has GUIDs that differ from
    forest to forest, by their names."""

    def __init__(self, rules: FrozenSet[str], trust: Optional[sids.Trust], named_types: Dict[str, str]) -> None:
        self._trust = trust
        self._all = [_ability(row, named_types) for row in ABILITIES if row["name"] in rules]
        # Those that tell of the rights of all object types at once.
        self._of_all_types = {one.right: one for one in self._all if "" in one.flat}

    def _is_for(self, ability: Ability, sid: str, is_told: bool) -> bool:
        """Whether it is a finding that a trustee has it. is_told: a rule for everybody tells of the trustee."""
        if sids.meaning_of(sid).who == sids.STAND_IN:
            return False
        if self._trust is None:
            return True
        if self._trust.has(sid) and sid not in ability.also or ability.only == "somebody" and is_told:
            return False
        return ability.only != "everybody" or bool(sids.everybody_class(sid))

    def concern(self, ace: Ace, sid: str) -> bool:
        """Whether an ACE may give a trustee an ability."""
        mask = mapped(ace.mask, "ds")
        is_whole = not ace.object_type or ace.object_type in _CLASS_NAMES
        return any(mask & one.right and (is_whole or one.is_by(ace.object_type)) and self._is_for(one, sid, False)
                   for one in self._all)

    def needs_class(self, ace: Ace, classes: Sequence[str]) -> bool:
        """Whether an ACE may give an ability that is told where the class is known, as it is here."""
        mask = mapped(ace.mask, "ds")
        return bool(ace.object_type) and any(one.known and mask & one.right and one.means(classes)
                                             and one.is_by(ace.object_type) for one in self._all)

    def bound(self, descriptor: Descriptor) -> List[Ability]:
        """The abilities of objects of some classes alone that somebody may have."""
        given = {(ace.object_type, mapped(ace.mask, "ds")) for ace in descriptor.aces}
        return [one for one in self._all if one.on and (descriptor.dacl != "list" or any(
            mask & one.right and (not object_type or bool(class_of(object_type)) or one.is_by(object_type))
            for object_type, mask in given))]

    def had(self, sid: str, got: Got, where: Where, gives: Gives, gives_all: Gives, is_told: bool = False) -> List[Had]:
        """The abilities of a trustee, each once. gives is asked about one of them that some ACE gives, and gives_all
        about those that need several rights together."""
        found: Dict[str, Had] = {}
        for ability in self._all:
            is_told_already = ability.name in found or ability.unless in found and self._trust is not None
            if is_told_already or not ability.means(where.classes) or not self._is_for(ability, sid, is_told):
                continue
            one = self._all_of(ability, got, where, gives_all) if ability.needs_all else \
                self._first(ability, sid, got, where, gives)
            if one is not None:
                found[ability.name] = one
        return list(found.values())

    @staticmethod
    def _all_of(ability: Ability, got: Got, where: Where, gives: Gives) -> Optional[Had]:
        """An ability that needs the rights of all its object types. One of them has to be the trustee's own."""
        own = [one for one, mask in (("", got.mask), *got.by_type)
               if mask & ability.right and (not one or one in ability.flat or is_own(one, where.own))]
        if not own or not where.has_accounts or not all(gives(ability.right, path) for path in ability.types):
            return None
        by, claimed = _by(ability, own[0], got)
        return Had(ability.name, ability.right, "", ability.says + by, tuple(dict.fromkeys([*ability.flat, *own])),
                   ability.severity, claimed)

    def _first(self, ability: Ability, sid: str, got: Got, where: Where, gives: Gives) -> Optional[Had]:
        """The first way by which a trustee has an ability."""
        for object_type, mask in self._ways(ability, sid, got, where):
            paths = ability.paths(object_type) if mask & ability.right else ()
            if any(gives(ability.right, (*path, object_type)) for path in paths):
                by, claimed = _by(ability, object_type, got)
                return Had(ability.name, ability.right, object_type, self._text(ability, object_type, where) + by,
                           (object_type,), ability.severity, claimed)
        return None

    def _is_told(self, right: int, sid: str) -> bool:
        """Whether another ability tells of a right for all object types. The question who is about each by itself."""
        told = self._of_all_types.get(right)
        return told is not None and self._trust is not None and self._is_for(told, sid, False)

    def _ways(self, ability: Ability, sid: str, got: Got, where: Where) -> Iterator[Tuple[str, int]]:
        """The rights that may give an ability, with their object types. What is told of all object types isn't told of
        each, and whoever may write all properties needs no validated writes."""
        is_enrolling = ability.right == _EXTENDED and where.is_template
        is_whole = not is_enrolling if "" in ability.flat else is_enrolling and ability.on == {TEMPLATE} \
            or not self._is_told(ability.right, sid)
        writing = _WRITE if ability.right == _VALIDATED and self._is_told(_WRITE, sid) else 0
        if is_whole and not got.mask & writing:
            yield "", got.mask
        is_typed = bool(where.classes) or not where.is_known or not ability.known or self._trust is None
        for one, mask in got.by_type:
            is_all = is_whole and not (got.mask | mask) & writing and is_own(one, where.own)
            if is_all or is_typed and ability.is_by(one):
                yield one, mask

    @staticmethod
    def _text(ability: Ability, object_type: str, where: Where) -> str:
        """What an ability lets somebody do. All properties or extended rights of an object of a known class are told by
        name."""
        if object_type or ability.flat != ("",) or not where.classes or not where.is_known:
            return ability.says
        more = dict.fromkeys(one.name for one in _EVERY
                             if one.right == ability.right and one.on and one.means(where.classes)
                             and not one.needs_all and one.only == "" and one.flat != ("?",))
        return ability.says + (f", so {', '.join(more)}" if more else "")

    @staticmethod
    def rest(got: Got, had: Sequence[Had], where: Where) -> Got:
        """What a trustee has beside its abilities and the rights that do nothing that counts."""
        idle = _EXTENDED if where.is_template else 0
        told: Dict[str, int] = {}
        for one in had:
            told[one.object_type] = told.get(one.object_type, 0) | one.mask
        # For an extended right no other right means anything.
        left = [(one, mask & ~told.get(one, 0) & ~(_OF_TYPES if one in _HARMLESS else idle)) for one, mask in
                (("", got.mask), *got.by_type)]
        return Got(left[0][1], tuple((one, mask) for one, mask in left[1:] if mask))


def _by(ability: Ability, object_type: str, got: Got) -> Tuple[str, int]:
    """By what a trustee has an ability that has object types of its own, in words and as a mask."""
    full = FULL["ds"]
    if object_type or "" in ability.flat:
        return "", ability.right
    return (", by full control", full) if got.mask & full == full else (f", by {_ALL_OF[ability.right]}", ability.right)


def is_harmless(ace: Ace) -> bool:
    """Whether an ACE gives a right alone that does nothing that counts."""
    return ace.object_type in _HARMLESS and not mapped(ace.mask, "ds") & (_CREATE | _DELETE | _VALIDATED)


def is_own(object_type: str, own: Sequence[str]) -> bool:
    """Whether an object type is that of an object as a whole: its own class, which is one of some, or isn't known."""
    name = class_of(object_type)
    return bool(name) and (not own or name in own)


def class_of(object_type: str) -> str:
    """The class that an object type is, or nothing."""
    return _CLASS_NAMES.get(object_type, "")


def class_names(guids: Iterable[str]) -> Tuple[str, ...]:
    """The classes of inherited object types: none if one of them is any class, or one that isn't known."""
    listed = tuple(_CLASS_NAMES.get(guid, OBJECT_TYPES.get(guid, "")) for guid in guids)
    return () if "" in listed else listed
