"""The changes of an edit, each as the bytes that the library takes for it."""
import struct
from typing import Any, NamedTuple, Optional, Tuple, Union

from . import _arguments, _library
from ._arguments import BytesLike, GuidLike
from ._errors import ArgumentFault
from ._flags import AceFlags, AceKind, Control
from ._slots import Slot, not_made
from ._values import Ace, SecurityDescriptor, SidLike, _Fixed, _make, _raw_of
from ._words import ACLS, PLACES, STATES, AclName, State

# struct sdtool_change: its numbers, the bits of the control word, the small numbers, and then GUIDs and SIDs.
_LAYOUT = struct.Struct("=7I2H8B16s16s68s68s")
_NUMBERS = ("kind", "part", "place", "compare", "mask", "set_mask", "clear_mask", "set_control", "clear_control",
            "ace_kind", "flags", "flags_mask", "set_flags", "clear_flags", "state", "object_type_use",
            "inherited_object_type_use")
_BYTES = ("object_type", "inherited_object_type", "sid", "set_sid")
_PUT, _TAKE, _REPLACE, _TAKE_EACH, _SET_EACH, _ORDER, _STATE, _OWNER, _GROUP, _CONTROL = range(1, 11)
_COMPARE_KIND, _COMPARE_MASK = 1, 2
_NO_ACE = 0xFFFFFFFF
_MOST_PLACE = min(PLACES.values()) - 1
_TYPE_NONE, _TYPE_GIVEN = 1, 2
_ANY: Any = type("Any", (), {"__repr__": lambda self: "<any>"})()  # of a match: what is not compared


class Order(NamedTuple):
    """Where the order of the ACLs ends: of each the place of the first ACE whose rank is below that of the one before,
    or None."""

    sacl: Optional[int]
    dacl: Optional[int]


class Edited(NamedTuple):
    """A descriptor after changes, and how many ACEs each of them put, took or set."""

    descriptor: SecurityDescriptor
    touched: Tuple[int, ...]


class Change(_Fixed):
    """A change, for the edit of a descriptor.

    An ACL is "dacl" or "sacl". A match compares what is given of an ACE: its SID, kind, mask and object types, of which
    None says that it has none, and its flags among those of flags_mask.

    >>> Change.take_each("dacl", sid="WD", flags_mask=AceFlags.ID) == Change.take("dacl", 0)
    False
    """

    __slots__ = ("_held",)

    def __init__(self, data: BytesLike) -> None:
        """The change of struct sdtool_change, as bytes() of a Change has it."""
        found = _arguments.data("data", data)
        if len(found) != _LAYOUT.size:
            raise ArgumentFault(f"a change has {_LAYOUT.size} bytes, not {len(found)}", "data")
        _make(self, _held.fill(self, found))

    def __bytes__(self) -> bytes:
        return bytes_of(self)

    def __eq__(self, other: object) -> bool:
        if not _arguments.is_a(other, Change):
            return NotImplemented
        return bytes_of(self) == bytes_of(other)

    def __hash__(self) -> int:
        return hash(bytes_of(self))

    def __reduce__(self) -> Any:
        return Change, (bytes_of(self),)

    def __repr__(self) -> str:
        return f"Change({bytes_of(self)!r})"

    @classmethod
    def put(cls, acl: AclName, place: Union[int, str], ace: Ace) -> "Change":
        """An ACE gets a place: from 0 to the number of ACEs, "end", or "order", behind the last one of no higher
        rank."""
        where = (_arguments.word("place", place, PLACES) if _arguments.is_a(place, str)  # type: ignore[arg-type]
                 else _arguments.number("place", place, _MOST_PLACE))  # type: ignore[arg-type]
        return _change(_PUT, part=_part(acl), place=where, **_of_ace(ace))

    @classmethod
    def take(cls, acl: AclName, place: int) -> "Change":
        """The ACE at a place goes."""
        return _change(_TAKE, part=_part(acl), place=_arguments.number("place", place))

    @classmethod
    def replace(cls, acl: AclName, place: int, ace: Ace) -> "Change":
        """Another ACE stands at a place."""
        return _change(_REPLACE, part=_part(acl), place=_arguments.number("place", place), **_of_ace(ace))

    @classmethod
    def take_each(cls, acl: AclName, *, sid: SidLike = _ANY, kind: Union[AceKind, int] = _ANY, mask: int = _ANY,
                  object_type: Optional[GuidLike] = _ANY, inherited_object_type: Optional[GuidLike] = _ANY,
                  flags: Union[AceFlags, int] = 0, flags_mask: Union[AceFlags, int] = 0) -> "Change":
        """Each ACE that matches goes."""
        return _change(_TAKE_EACH, part=_part(acl), **_match(sid, kind, mask, object_type, inherited_object_type, flags,
                                                             flags_mask))

    @classmethod
    def set_each(cls, acl: AclName, *, sid: SidLike = _ANY, kind: Union[AceKind, int] = _ANY, mask: int = _ANY,
                 object_type: Optional[GuidLike] = _ANY, inherited_object_type: Optional[GuidLike] = _ANY,
                 flags: Union[AceFlags, int] = 0, flags_mask: Union[AceFlags, int] = 0,
                 set_sid: Optional[SidLike] = None, set_mask: int = 0, clear_mask: int = 0,
                 set_flags: Union[AceFlags, int] = 0, clear_flags: Union[AceFlags, int] = 0) -> "Change":
        """Each ACE that matches gets another SID, and bits of its mask and flags are set and cleared."""
        found = _match(sid, kind, mask, object_type, inherited_object_type, flags, flags_mask)
        if set_sid is not None:
            found["set_sid"] = _arguments.sid("set_sid", set_sid)
        return _change(
            _SET_EACH, part=_part(acl), set_mask=_arguments.number("set_mask", set_mask),
            clear_mask=_arguments.number("clear_mask", clear_mask),
            set_flags=_arguments.number("set_flags", set_flags, 0xff),
            clear_flags=_arguments.number("clear_flags", clear_flags, 0xff), **found)

    @classmethod
    def order(cls, acl: AclName) -> "Change":
        """The ACEs come into order, those of one rank as they stood; an absent or a null ACL stays."""
        return _change(_ORDER, part=_part(acl))

    @classmethod
    def state(cls, acl: AclName, state: State) -> "Change":
        """The ACL becomes "absent", "null" or a "list" without ACEs."""
        return _change(_STATE, part=_part(acl), state=_arguments.word("state", state, STATES))

    @classmethod
    def owner(cls, sid: Optional[SidLike]) -> "Change":
        return _change(_OWNER, sid=_arguments.sid_or_none("sid", sid) or b"")

    @classmethod
    def group(cls, sid: Optional[SidLike]) -> "Change":
        return _change(_GROUP, sid=_arguments.sid_or_none("sid", sid) or b"")

    @classmethod
    def control(cls, *, set: Union[Control, int] = 0, clear: Union[Control, int] = 0) -> "Change":
        """Bits of the control word are set and cleared: all but 0x8000, 0x10 and 0x4."""
        return _change(_CONTROL, set_control=_arguments.number("set", set, 0xffff),
                       clear_control=_arguments.number("clear", clear, 0xffff))


_held = Slot(Change, "_held")


def edited(descriptor: bytes, changes: Tuple[Change, ...]) -> Edited:
    return Edited(*_library.edit(descriptor, b"".join([bytes_of(change, at) for at, change in enumerate(changes)])))


def order_of(descriptor: bytes) -> Order:
    return Order(*[None if place == _NO_ACE else place for place in _library.order(descriptor)])


def bytes_of(change: Any, index: Optional[int] = None) -> bytes:
    """What the library takes for a change."""
    if not _arguments.is_a(change, Change):
        raise _arguments.wrong_type("changes", change, "Change", index)
    found: Optional[bytes] = _held.of(change)
    if found is None:
        raise not_made(change)
    return found


def _change(kind: int, **members: Any) -> Change:
    """The change with these members; all others are 0."""
    numbers = [members.pop(name, 0) for name in _NUMBERS[1:]]
    found = [members.pop(name, b"") for name in _BYTES]
    assert not members
    return Change(_LAYOUT.pack(kind, *numbers, *found))


def _part(acl: AclName) -> int:
    return _arguments.word("acl", acl, ACLS)


def _of_ace(ace: Ace) -> Any:
    """The members of a new ACE."""
    kind, flags, mask, sid, object_type, inherited = _raw_of(ace)
    return {"ace_kind": kind, "flags": flags, "mask": mask, "sid": sid, **_type("object_type", object_type),
            **_type("inherited_object_type", inherited)}


def _type(name: str, guid: Optional[bytes]) -> Any:
    return {} if guid is None else {f"{name}_use": _TYPE_GIVEN, name: guid}


def _compared_type(name: str, value: Optional[GuidLike]) -> Any:
    """The members of an object type that a match compares."""
    if value is _ANY:
        return {}
    guid = _arguments.guid(name, value)
    return {f"{name}_use": _TYPE_NONE} if guid is None else _type(name, guid)


def _match(sid: SidLike, kind: Union[AceKind, int], mask: int, object_type: Optional[GuidLike],
           inherited_object_type: Optional[GuidLike], flags: Union[AceFlags, int],
           flags_mask: Union[AceFlags, int]) -> Any:
    """The members of a match."""
    found: Any = {"flags": _arguments.number("flags", flags, 0xff),
                  "flags_mask": _arguments.number("flags_mask", flags_mask, 0xff),
                  **_compared_type("object_type", object_type),
                  **_compared_type("inherited_object_type", inherited_object_type)}
    if sid is not _ANY:
        found["sid"] = _arguments.sid("sid", sid)
    if kind is not _ANY:
        found.update(compare=_COMPARE_KIND, ace_kind=_arguments.number("kind", kind, 0xff))
    if mask is not _ANY:
        found.update(compare=found.get("compare", 0) | _COMPARE_MASK, mask=_arguments.number("mask", mask))
    return found
