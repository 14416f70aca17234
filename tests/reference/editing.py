"""A descriptor that is edited: changes are made one after the other, each on what those before left."""
from typing import Any, NamedTuple, Optional

from .binary import DACL_PRESENT, SACL_PRESENT, SELF_RELATIVE
from .parts import ACL_HEADER, ACL_NAMES, LARGEST_ACL, Acl, Ace, Fault, Sid
from .tables import ACE_FLAGS, KINDS

ABSENT, NULL, EMPTY = "absent", "null", "list"
END, BY_ORDER = "end", "order"
NOT_ASKED = object()
FIXED = SELF_RELATIVE | SACL_PRESENT | DACL_PRESENT


class Match(NamedTuple):
    """What an ACE has to be like."""
    sid: Any = NOT_ASKED
    type: Any = NOT_ASKED
    mask: Any = NOT_ASKED
    object_type: Any = NOT_ASKED
    inherited_object_type: Any = NOT_ASKED
    flags: int = 0
    flags_mask: int = 0

    def takes(self, ace):
        wanted = self._asdict()
        flags, flags_mask = wanted.pop("flags"), wanted.pop("flags_mask")
        return ace.flags & flags_mask == flags and all(
            value is NOT_ASKED or getattr(ace, name) == value for name, value in wanted.items())


class Setting(NamedTuple):
    """What it gets."""
    sid: Optional[Sid] = None
    set_mask: int = 0
    clear_mask: int = 0
    set_flags: int = 0
    clear_flags: int = 0

    def of(self, ace):
        return ace._replace(
            sid=self.sid or ace.sid, mask=ace.mask & ~self.clear_mask | self.set_mask,
            flags=ace.flags & ~self.clear_flags | self.set_flags)


class Change(NamedTuple):
    """A change by its name; it uses the members that its name needs."""
    name: str
    acl: str = ""  # "D" or "S"
    place: Any = None
    ace: Optional[Ace] = None
    match: Optional[Match] = None
    setting: Optional[Setting] = None
    state: str = ""
    sid: Optional[Sid] = None
    set_bits: int = 0
    clear_bits: int = 0


class Impossible(Exception):
    """A change that can't be made."""


def rank(letter, ace):
    """What denies stands before what grants in a DACL, and what is inherited stands last in both."""
    if ace.flags & ACE_FLAGS["ID"]:
        return 2
    return 1 if letter == "D" and KINDS[ace.type] not in ("D", "OD") else 0


def first_out_of_order(letter, aces):
    """The place of the first ACE whose rank is below that of the one before it."""
    pairs = zip(aces, aces[1:])
    return next((place for place, (before, ace) in enumerate(pairs, 1)
                 if rank(letter, ace) < rank(letter, before)), None)


def place_of(change, aces):
    """Where an ACE is put."""
    if change.place == END:
        return len(aces)
    if change.place == BY_ORDER:
        if first_out_of_order(change.acl, aces) is not None:
            raise Impossible
        own = rank(change.acl, change.ace)
        return max((place for place, ace in enumerate(aces, 1) if rank(change.acl, ace) <= own), default=0)
    if change.place > len(aces):
        raise Impossible
    return change.place


def changed(change, aces):
    """The ACEs of a list after a change, and how many it put, took or set."""
    if change.name == "put":
        place = place_of(change, aces)
        return aces[:place] + (change.ace,) + aces[place:], 1
    if change.name in ("take", "replace"):
        if change.place >= len(aces):
            raise Impossible
        new = (change.ace,) if change.name == "replace" else ()
        return aces[:change.place] + new + aces[change.place + 1:], 1
    count = sum(map(change.match.takes, aces))
    if change.name == "take each":
        return tuple(ace for ace in aces if not change.match.takes(ace)), count
    assert change.name == "set each", change.name
    return tuple(change.setting.of(ace) if change.match.takes(ace) else ace for ace in aces), count


def with_present_bits(descriptor, state_of):
    control = descriptor.control & ~FIXED | SELF_RELATIVE
    control |= SACL_PRESENT * (state_of["S"] != ABSENT) | DACL_PRESENT * (state_of["D"] != ABSENT)
    return descriptor._replace(control=control)


def edited_acl(descriptor, change, state_of):
    """The descriptor with one of its ACLs changed, and how many ACEs that put, took or set."""
    name = ACL_NAMES[change.acl]
    if change.name == "state":
        state_of = {**state_of, change.acl: change.state}
        acl = Acl(()) if change.state == EMPTY else None
        return with_present_bits(descriptor._replace(**{name: acl}), state_of), 0
    acl = getattr(descriptor, name)
    if change.name == "order":
        if acl is not None:
            acl = Acl(tuple(sorted(acl.aces, key=lambda ace: rank(change.acl, ace))))
        return descriptor._replace(**{name: acl}), 0
    if acl is None:
        raise Impossible
    aces, count = changed(change, acl.aces)
    if ACL_HEADER.size + sum(len(ace.to_bytes()) for ace in aces) > LARGEST_ACL:
        raise Fault(30, "acl-too-large", name)
    return descriptor._replace(**{name: Acl(aces)}), count


def edited(descriptor, change):
    """The descriptor after one change, and how many ACEs that put, took or set."""
    state_of = {letter: EMPTY if getattr(descriptor, name) is not None
                else NULL if descriptor.control & present else ABSENT
                for letter, name, present in (("S", "sacl", SACL_PRESENT), ("D", "dacl", DACL_PRESENT))}
    if change.name in ("owner", "group"):
        return descriptor._replace(**{change.name: change.sid}), 0
    if change.name == "control":
        return descriptor._replace(control=descriptor.control & ~change.clear_bits | change.set_bits), 0
    return edited_acl(descriptor, change, state_of)


def edit(descriptor, changes):
    """How many ACEs each change put, took or set, up to the first that can't be made; and the descriptor after all, or
    why that one can't be made: 73 or 30, with the ACL's name.
    """
    touched = []
    for change in changes:
        try:
            descriptor, count = edited(descriptor, change)
        except Impossible:
            return touched, Fault(73, "change", ACL_NAMES[change.acl])
        except Fault as fault:
            return touched, fault
        touched.append(count)
    return touched, descriptor
