"""SIDs, ACEs, ACLs, descriptors and tokens as objects. None of them can be changed, and two are equal exactly if their
content is the same. Each answer is one of the library."""
import functools
import itertools
import struct
import uuid
from typing import (TYPE_CHECKING, Any, Callable, ClassVar, Dict, FrozenSet, Iterable, Iterator, NamedTuple, NoReturn,
                    Optional, Sequence, Tuple, Type, TypeVar, Union, overload)

from . import _arguments, _library
from ._arguments import BytesLike, GuidLike, sid_or_none
from ._errors import ArgumentFault, Error, Fault, Unchangeable, WrongType, shown
from ._flags import AceFlags, AceKind, Control
from ._places import HEAD_OF_ACE, InText
from ._slots import Slot, not_made, type_name
from ._words import KINDS, MAPPINGS, PRIVILEGES, REASONS, Kind, Mapping, Privilege, ReasonKind

_MOST_SIDS = 1024
_Bytes = bytes  # within Ace and SecurityDescriptor, bytes is what they are
_KIND_OF = {kind.value: kind for kind in AceKind}
_FLAGS_OF = [AceFlags(value) for value in range(256)]
_ABSENT, _NULL, _LIST = 0, 1, 2
_REASONS = struct.Struct("50H")  # 25 times struct sdtool_reason
_ORIGIN = struct.Struct("H??")  # struct sdtool_origin
_NO_PLACE = 0xFFFF
_GRANTING = ("no-dacl", "owner", "privilege", "granted")
_Answer = TypeVar("_Answer")
if TYPE_CHECKING:
    from ._changes import Change, Edited, Order
_SAME: Any = type("Same", (), {"__repr__": lambda self: "<the same>"})()  # of replace: what an object has already


class _Fixed:
    """An object that cannot be changed."""

    __slots__ = ()

    def __setattr__(self, name: str, value: object) -> NoReturn:
        raise Unchangeable(f"{_attribute(name)} of a {type_name(self)} cannot be changed")

    def __delattr__(self, name: str) -> NoReturn:
        raise Unchangeable(f"{_attribute(name)} of a {type_name(self)} cannot be deleted")


def _attribute(name: str) -> str:
    return shown(_arguments.characters("name", name))


def _make(value: object, is_new: bool) -> None:
    """Refuses an __init__ of an object that is made already: is_new says whether it is not."""
    if not is_new:
        raise Unchangeable(f"the {type_name(value)} is there, and cannot be made again")


class Sid(bytes):
    """A SID. It is the bytes of its binary form, so it goes wherever those go.

    A str is its text, S-1-5-32-544 or an alias such as BA; those of a domain, such as DA, need the domain.

    >>> Sid("BA")
    Sid('S-1-5-32-544')
    >>> Sid("BA").hex(), Sid(bytes.fromhex("01020000000000052000000020020000")).alias()
    ('01020000000000052000000020020000', 'BA')
    >>> str(Sid("DA", domain="S-1-5-21-1-2-3"))
    'S-1-5-21-1-2-3-512'
    """

    __slots__ = ()

    def __new__(cls, value: "SidLike", *, domain: Optional["SidLike"] = None) -> "Sid":
        return bytes.__new__(cls, _arguments.sid("value", value, domain=sid_or_none("domain", domain)))

    def alias(self, *, domain: Optional["SidLike"] = None) -> Optional[str]:
        """The two letters that SDDL has for it, or None."""
        shown = _library.sid_to_text(_arguments.sid("sid", self), sid_or_none("domain", domain), False)
        return None if shown.startswith("S-") else shown

    def __str__(self) -> str:
        return _library.sid_to_text(_arguments.sid("sid", self), None, True)

    def __repr__(self) -> str:
        return f"Sid({str(self)!r})"

    def __format__(self, spec: str) -> str:
        return format(str(self), spec)


SidLike = Union[Sid, str, BytesLike]
_new_sid: Callable[[Type[Sid], bytes], Sid] = bytes.__new__


class _AceFields(NamedTuple):
    kind: AceKind
    flags: AceFlags
    mask: int
    sid: Sid
    object_type: Optional[uuid.UUID] = None
    inherited_object_type: Optional[uuid.UUID] = None


class Ace(_AceFields):
    """An entry of an ACL, a tuple of its fields.

    mask is an int. FileMask(ace.mask), KeyMask(ace.mask) and DirectoryMask(ace.mask) have the names of its bits, since
    an ACE does not say what kind of object it is for. The GUIDs are only in the kinds for objects.

    >>> ace = Ace(AceKind.A, AceFlags.OI | AceFlags.CI, 0x120089, "BU")
    >>> ace.sddl()
    '(A;OICI;FR;;;BU)'
    >>> Ace.from_sddl("(D;;FW;;;WD)")
    Ace(AceKind.ACCESS_DENIED, AceFlags(0x0), 0x120116, Sid('S-1-1-0'))
    """

    __slots__ = ()

    def __new__(cls, kind: Union[AceKind, int], flags: Union[AceFlags, int], mask: int, sid: SidLike,
                object_type: Optional[GuidLike] = None, inherited_object_type: Optional[GuidLike] = None) -> "Ace":
        return _ace_of(_raw(kind, flags, mask, sid, object_type, inherited_object_type))

    @classmethod
    def from_sddl(cls, text: str, *, domain: Optional[SidLike] = None) -> "Ace":
        """The ACE of a text in parentheses, such as (A;;FR;;;BU)."""
        spelled = _arguments.characters("text", text)
        if not spelled.startswith("("):
            raise ArgumentFault("an ACE is a text in parentheses", "text")
        of = sid_or_none("domain", domain)
        try:
            found = SecurityDescriptor.from_sddl(HEAD_OF_ACE + spelled, domain=of)
        except Fault as fault:
            if isinstance(fault._where, InText):
                fault._where = fault._where.of_ace()
            raise
        if len(found.dacl) > 1:
            raise ArgumentFault("the text has more than one ACE", "text")
        if found != SecurityDescriptor(dacl=found.dacl):
            raise ArgumentFault("behind the ACE is another part of a descriptor", "text")
        return found.dacl[0]

    def sddl(self, *, domain: Optional[SidLike] = None, numeric: bool = False) -> str:
        """Its text in SDDL, in parentheses."""
        data = _library.build(0, 0, None, None, _ABSENT, (), _LIST, (_raw_of(self),))
        return _library.to_sddl(data, domain, _arguments.flag("numeric", numeric))[len("D:"):]

    @classmethod
    def from_bytes(cls, data: BytesLike) -> "Ace":
        """The ACE that some bytes are.

        >>> Ace.from_bytes(Ace.from_sddl("(A;;FR;;;BU)").bytes)
        Ace(AceKind.ACCESS_ALLOWED, AceFlags(0x0), 0x120089, Sid('S-1-5-32-545'))
        """
        found = _library.ace_read(_arguments.data("data", data))
        if found is None:
            raise ArgumentFault("bytes are behind the ACE", "data")
        return found

    @property
    def bytes(self) -> _Bytes:
        """Its bytes, as they stand in an ACL."""
        return _library.ace_from_text(self.sddl(numeric=True), None)

    def replace(self, *, kind: Union[AceKind, int] = _SAME, flags: Union[AceFlags, int] = _SAME, mask: int = _SAME,
                sid: SidLike = _SAME, object_type: Optional[GuidLike] = _SAME,
                inherited_object_type: Optional[GuidLike] = _SAME) -> "Ace":
        """The same ACE with other values of some fields."""
        given = (kind, flags, mask, sid, object_type, inherited_object_type)
        return Ace(*[old if new is _SAME else new for old, new in zip(_fields_of(self), given)])

    __replace__ = replace  # what copy.replace calls

    def _replace(self, **fields: Any) -> "Ace":
        return self.replace(**fields)

    @classmethod
    def _make(cls, iterable: Iterable[Any], **_: Any) -> "Ace":
        fields = list(_arguments.items("iterable", iterable, "fields"))
        if not len(Ace._fields) - len(Ace._field_defaults) <= len(fields) <= len(Ace._fields):
            raise WrongType(f"iterable: an Ace of {len(fields)} fields")
        return Ace(*fields)

    def __repr__(self) -> str:
        kind, flags, mask, trustee, object_type, inherited = _ace_of(_raw_of(self))
        fields = [repr(kind), repr(flags), f"{mask:#x}", repr(trustee)]
        if object_type is not None:
            fields.append(repr(object_type))
        if inherited is not None:
            fields.append(f"inherited_object_type={inherited!r}")
        return f"Ace({', '.join(fields)})"

    def __str__(self) -> str:
        return self.sddl()


_new_ace: Callable[[Type[Ace], Tuple[Any, ...]], Ace] = tuple.__new__
_RawAce = Tuple[int, int, int, bytes, Optional[bytes], Optional[bytes]]


def _raw_fields(kind: Any, flags: Any, mask: Any, sid: Any, object_type: Any, inherited_object_type: Any) -> _RawAce:
    """The fields of an ACE, each read at the door."""
    return (_arguments.number("kind", kind, 0xff), _arguments.number("flags", flags, 0xff),
            _arguments.number("mask", mask), _arguments.sid("sid", sid), _arguments.guid("object_type", object_type),
            _arguments.guid("inherited_object_type", inherited_object_type))


def _raw(*fields: Any) -> _RawAce:
    """The fields of an ACE that can be."""
    raw = _raw_fields(*fields)
    try:
        _library.build(0, 0, None, None, _ABSENT, (), _LIST, (raw,))
    except ArgumentFault:
        raise ArgumentFault("no ACE has this kind, these flags and these object types together") from None
    return raw


def _fields_of(ace: Any, name: str = "ace", index: Optional[int] = None) -> Tuple[Any, ...]:
    """What the tuple of an ACE holds: whoever has made it, and whatever its attributes say."""
    if not _arguments.is_a(ace, Ace):
        raise _arguments.wrong_type(name, ace, "Ace", index)
    fields = tuple.__getitem__(ace, slice(None))
    if len(fields) != len(Ace._fields):
        raise WrongType(f"{name}: an Ace of {len(fields)} fields, which Ace() has not made")
    return fields


def _raw_of(ace: Any, name: str = "ace", index: Optional[int] = None) -> _RawAce:
    return _raw_fields(*_fields_of(ace, name, index))


def _raw_aces(name: str, aces: Iterable[Ace]) -> Tuple[_RawAce, ...]:
    return tuple([_raw_of(ace, name, index) for index, ace in enumerate(_arguments.items(name, aces, "Ace"))])


def _ace_of(raw: _RawAce) -> Ace:
    """An ACE of fields that the library has seen."""
    kind, flags, mask, trustee, object_type, inherited = raw
    if kind not in _KIND_OF:
        raise ArgumentFault(f"{kind} is the type of no ACE", "kind")
    return _new_ace(Ace, (_KIND_OF[kind], _FLAGS_OF[flags], mask, _new_sid(Sid, trustee),
                          object_type and _guid_of(object_type), inherited and _guid_of(inherited)))


@functools.lru_cache(maxsize=1024)
def _known_guid(data: bytes) -> Tuple[uuid.UUID, int]:
    """A GUID that the library found. A directory has the same few in most descriptors."""
    found = uuid.UUID(bytes_le=data)
    return found, found.int


def _guid_of(data: bytes) -> uuid.UUID:
    """The same object for the same GUID, unless somebody has changed its number."""
    found, number = _known_guid(data)
    return found if _number_of_uuid(found) is number else uuid.UUID(bytes_le=data)


_number_of_uuid = uuid.UUID.__dict__["int"].__get__


class NoAces(Error, TypeError):
    """An absent or a null ACL has no list of ACEs: that it is not there grants everything, and an empty list
    nothing."""


class Acl(_Fixed, _library.Entries, Sequence[Ace]):
    """An ACL: a list of ACEs, or Acl.NULL or Acl.ABSENT.

    A descriptor whose DACL is absent or null grants everything, and one whose DACL is an empty list grants nothing. So
    none of them is false, and the two without a list have no length and no items: ask is_list, is_null or is_absent.

    >>> acl = Acl([Ace(AceKind.A, 0, 0x120089, "BU")])
    >>> len(acl), acl[0].sid.alias(), acl.is_list
    (1, 'BU', True)
    >>> Acl.NULL == Acl.ABSENT
    False
    >>> list(Acl.NULL)
    Traceback (most recent call last):
        ...
    sdtool.NoAces: the ACL is null, which is no list of ACEs; ask is_list first
    >>> if Acl():
    ...     pass
    Traceback (most recent call last):
        ...
    sdtool.WrongType: an ACL is neither true nor false; ask is_list, is_null, is_absent, or its length
    """

    __slots__ = ()
    NULL: ClassVar["Acl"]
    ABSENT: ClassVar["Acl"]

    def __init__(self, aces: Iterable[Ace] = ()) -> None:
        _make(self, _library.state(self) is None)
        found = _raw_aces("aces", aces)
        _check_aces(found)
        _make(self, _library.fill(self, _LIST, tuple([_ace_of(raw) for raw in found])))

    @property
    def is_list(self) -> bool:
        return (_state(self) or _state_of(self)) == _LIST

    @property
    def is_null(self) -> bool:
        return (_state(self) or _state_of(self)) == _NULL

    @property
    def is_absent(self) -> bool:
        return _state_of(self) == _ABSENT

    def __reversed__(self) -> Iterator[Ace]:
        return reversed(_library.aces(self))

    @overload
    def __getitem__(self, index: int) -> Ace: ...
    @overload
    def __getitem__(self, index: slice) -> "Acl": ...

    def __getitem__(self, index: Union[int, slice]) -> Union[Ace, "Acl"]:
        found: Any = _library.aces(self)[index]
        return found if type(found) is Ace else _acl_of(_LIST, found)

    def __bool__(self) -> NoReturn:
        raise WrongType("an ACL is neither true nor false; ask is_list, is_null, is_absent, or its length")

    def __eq__(self, other: object) -> bool:
        if not _arguments.is_a(other, Acl):
            return NotImplemented
        return _content_of(self) == _content_of(other)

    def __hash__(self) -> int:
        return hash(_content_of(self))

    def __reduce__(self) -> Any:
        return _unpickled_acl, _content_of(self)

    def __repr__(self) -> str:
        state, aces = _content_of(self)
        return {_NULL: "Acl.NULL", _ABSENT: "Acl.ABSENT"}.get(state) or f"Acl({list(aces)!r})"


_state = _library.state


def _acl_of(state: int, aces: Optional[Tuple[Ace, ...]]) -> Acl:
    """The ACL of a state, and of ACEs of our own if that is a list."""
    acl = object.__new__(Acl)
    _library.fill(acl, state, aces)
    return acl


def _state_of(acl: Any) -> int:
    found = _state(acl)
    if found is None:
        raise not_made(acl)
    return found


def _content_of(acl: Any) -> Tuple[int, Tuple[Ace, ...]]:
    state = _state_of(acl)
    return state, _library.aces(acl) if state == _LIST else ()


def _no_list(acl: Acl) -> NoReturn:
    state = "null" if _state_of(acl) == _NULL else "absent"
    raise NoAces(f"the ACL is {state}, which is no list of ACEs; ask is_list first")


def _check_aces(aces: Tuple[_RawAce, ...]) -> None:
    """Refuses an ACE that cannot be. A list that no ACL has room for is a fault of the descriptor that it is for."""
    try:
        _library.build(0, 0, None, None, _ABSENT, (), _LIST, aces)
    except ArgumentFault as fault:
        raise ArgumentFault("no ACE has this kind, these flags and these object types together", "aces",
                            fault.index) from None
    except Fault:
        pass


def _unpickled_acl(state: int, aces: Iterable[Ace]) -> Acl:
    which = _arguments.number("state", state, _LIST)
    if which == _LIST:
        return Acl(aces)
    if list(_arguments.items("aces", aces, "Ace")):
        raise ArgumentFault("an ACL without a list has no ACEs", "aces")
    return Acl.NULL if which == _NULL else Acl.ABSENT


Acl.NULL = _acl_of(_NULL, None)
Acl.ABSENT = _acl_of(_ABSENT, None)


class Verdict(NamedTuple):
    """The answer of an access check, true exactly if it is granted.

    With granted, mask has the granted rights: those that were wanted and, with maximum, each other that is granted.
    Otherwise it has the wanted rights that are missing.

    >>> bool(Verdict(granted=False, mask=0x2))
    False
    """

    granted: bool
    mask: int

    def __bool__(self) -> bool:
        return tuple.__getitem__(self, 0) is True


class Reason(NamedTuple):
    """Why a right is granted or denied, true exactly if it is granted.

    kind is "nothing" where nothing grants it, "label" where the mandatory label takes it, "no-dacl", "owner",
    "privilege", or "granted" or "denied" by an ACE. ace is the ACE of the DACL or, with "label", that of the SACL, and
    place its index there; they are None where there is none, as for the default label.
    """

    kind: ReasonKind
    place: Optional[int]
    ace: Optional[Ace]

    def __bool__(self) -> bool:
        return tuple.__getitem__(self, 0) in _GRANTING


class Origin(NamedTuple):
    """Where an ACE of a derived descriptor comes from.

    ace is the ACE that it was made of, and place the index of that in its ACL: the creator's with from_creator, and
    else the folder's. With inherit_only it is the copy for what is made in the new object.
    """

    from_creator: bool
    place: int
    inherit_only: bool
    ace: Ace


class Origins(NamedTuple):
    """The origins of the ACEs of a derived descriptor, in their order. An ACL that is null or absent has none."""

    sacl: Tuple[Origin, ...]
    dacl: Tuple[Origin, ...]


class _Holder(NamedTuple):
    """What a token holds."""

    sids: Tuple[Sid, ...]
    deny_only: Tuple[Sid, ...]
    level: Optional[int]
    privileges: FrozenSet[str]
    read: Any  # the SIDs as the library has read them
    questions: Dict[Any, Any]  # the requests that were made last, as the library has read them

    def content(self) -> Tuple[Any, ...]:
        return self[:4]


class Token(_Fixed):
    """Who asks: the user's SID, those of all groups, and of groups such as Everyone (WD).

    SIDs of deny_only count only for ACEs that deny. level is an integrity level, such as 8192 for medium; without it,
    none is looked at. privileges are "security" (SeSecurityPrivilege) and "take-ownership" (SeTakeOwnershipPrivilege).
    domain is for aliases such as DA.

    >>> Token(["WD", "AU", "BU"], level=8192)
    Token([Sid('S-1-1-0'), Sid('S-1-5-11'), Sid('S-1-5-32-545')], level=8192)
    """

    __slots__ = ("_holder",)

    def __init__(self, sids: Iterable[SidLike], *, deny_only: Iterable[SidLike] = (), level: Optional[int] = None,
                 privileges: Iterable[Privilege] = (), domain: Optional[SidLike] = None) -> None:
        _make(self, _holder.of(self) is None)
        of = sid_or_none("domain", domain)
        enabled, denying = _sids("sids", sids, of), _sids("deny_only", deny_only, of)
        read = read_token(enabled, denying)
        most_trusted = None if level is None else _arguments.number("level", level)
        held = [_arguments.characters("privileges", one, index)
                for index, one in enumerate(_arguments.items("privileges", privileges, "str"))]
        for privilege in held:
            _arguments.word("privileges", privilege, PRIVILEGES)
        _make(self, _holder.fill(self, _Holder(enabled, denying, most_trusted, frozenset(held), read, {})))

    @property
    def sids(self) -> Tuple[Sid, ...]:
        return _holder_of(self).sids

    @property
    def deny_only(self) -> Tuple[Sid, ...]:
        return _holder_of(self).deny_only

    @property
    def level(self) -> Optional[int]:
        return _holder_of(self).level

    @property
    def privileges(self) -> FrozenSet[str]:
        return _holder_of(self).privileges

    def __eq__(self, other: object) -> bool:
        if not _arguments.is_a(other, Token):
            return NotImplemented
        return _holder_of(self).content() == _holder_of(other).content()

    def __hash__(self) -> int:
        return hash(_holder_of(self).content())

    def __reduce__(self) -> Any:
        return _token_of, _holder_of(self).content()

    def __repr__(self) -> str:
        holder = _holder_of(self)
        others = [f"deny_only={list(holder.deny_only)!r}"] * bool(holder.deny_only)
        others += [f"level={holder.level}"] * (holder.level is not None)
        others += [f"privileges={sorted(holder.privileges)!r}"] * bool(holder.privileges)
        return f"Token({', '.join([repr(list(holder.sids)), *others])})"


_holder = Slot(Token, "_holder")
_get_holder = _holder.get


def _holder_of(token: Any) -> _Holder:
    try:
        found: _Holder = _get_holder(token)
    except AttributeError:
        raise not_made(token) from None
    except TypeError:
        raise _arguments.wrong_type("token", token, "Token") from None
    return found


def _sids(name: str, values: Iterable[SidLike], domain: Optional[bytes]) -> Tuple[Sid, ...]:
    return tuple([_new_sid(Sid, found) for found in _arguments.sids(name, values, domain=domain)])


def read_token(enabled: Sequence[bytes], denying: Sequence[bytes]) -> Any:
    """SIDs as the library reads them, once for all checks."""
    if len(enabled) + len(denying) > _MOST_SIDS:
        raise ArgumentFault(f"{len(enabled) + len(denying)} SIDs; a token has at most {_MOST_SIDS}", "sids")
    return _library.token(b"".join([*enabled, *denying]), bytes(len(enabled)) + b"\1" * len(denying))


def _token_of(sids: Any, deny_only: Any, level: Any, privileges: Any) -> Token:
    return Token(sids, deny_only=deny_only, level=level, privileges=privileges)


_MOST_QUESTIONS = 16
# What a check asks for, each as the door has read it: wanted, maximum, mapping, object_type, principal_self.
_Request = Tuple[int, bool, str, Optional[bytes], Optional[bytes]]


def _request(wanted: int, maximum: bool, mapping: Mapping, object_type: Optional[GuidLike],
             principal_self: Optional[SidLike]) -> _Request:
    return (_arguments.number("wanted", wanted), _arguments.flag("maximum", maximum),
            mapping if type(mapping) is str else _arguments.characters("mapping", mapping),
            None if object_type is None else _arguments.guid("object_type", object_type),
            None if principal_self is None else _arguments.sid("principal_self", principal_self))


def _question_of(holder: _Holder, request: _Request) -> Any:
    """A token and a request, as the library has read them. The token keeps the last ones, by values of the door
    alone."""
    found = holder.questions.get(request)
    if found is None:
        wanted, maximum, mapping, object_type, principal_self = request
        found = _library.question(
            holder.read, object_type, principal_self, wanted, _arguments.word("mapping", mapping, MAPPINGS),
            holder.level or 0, holder.level is not None, maximum, "security" in holder.privileges,
            "take-ownership" in holder.privileges)
        if len(holder.questions) >= _MOST_QUESTIONS:
            holder.questions.clear()
        holder.questions[request] = found
    return found


class Checker(_Fixed, _library.Asking):
    """Access checks of one token and one request, which are read once. Threads may share it.

    The arguments are those of SecurityDescriptor.check.

    >>> may_read = Checker(Token(["WD", "BU"]), 0x120089)
    >>> may_read(SecurityDescriptor.from_sddl("D:(A;;FR;;;BU)"))
    Verdict(granted=True, mask=1179785)
    """

    __slots__ = ("_asked",)

    def __init__(self, token: Token, wanted: int = 0, *, maximum: bool = False, mapping: Mapping = "file",
                 object_type: Optional[GuidLike] = None, principal_self: Optional[SidLike] = None) -> None:
        _make(self, _library.asked(self) is None)
        holder = _holder_of(token)
        request = _request(wanted, maximum, mapping, object_type, principal_self)
        _make(self, _library.ask(self, _question_of(holder, request)))
        _asked.fill(self, (holder, request))

    def many(self, descriptors: Iterable["DescriptorLike"], *, ahead: int = 1024) -> Iterator[Union[Verdict, Fault]]:
        """The verdict on each descriptor, in order, and for one that has none its Fault, which is neither true nor
        false. At most ahead descriptors are taken before their verdicts come."""
        question = _library.asked(self)
        if question is None:
            raise not_made(self)
        most = _arguments.number("ahead", ahead)
        if most < 1:
            raise ArgumentFault("at least one descriptor has to be taken", "ahead")
        return _verdicts(question, _arguments.iterator("descriptors", descriptors, "descriptors"), most)

    def reasons(self, descriptor: "DescriptorLike") -> Tuple[Reason, ...]:
        """Why the token has each right or not, as SecurityDescriptor.reasons. It does not matter what is wanted."""
        question = _library.asked(self)
        if question is None:
            raise not_made(self)
        if _arguments.is_a(descriptor, SecurityDescriptor):
            return _reasons(question, descriptor)
        return _reasons(question, _of_bytes(_arguments.layout("descriptor", descriptor)))

    def __reduce__(self) -> Any:
        asked = _asked.of(self)
        if asked is None:
            raise not_made(self)
        holder, request = asked
        return _checker_of, (_token_of(*holder.content()), *request)


_asked = Slot(Checker, "_asked")


def _changing() -> Any:
    """The module of changes, which needs this one."""
    from . import _changes
    return _changes


def _verdicts(question: Any, given: Iterator["DescriptorLike"], most: int) -> Iterator[Union[Verdict, Fault]]:
    while True:
        found = _library.check_many(question, itertools.islice(given, most))
        yield from found
        if len(found) < most:
            return


def _checker_of(token: Token, wanted: int, maximum: bool, mapping: Mapping, object_type: Optional[GuidLike],
                principal_self: Optional[SidLike]) -> Checker:
    return Checker(token, wanted, maximum=maximum, mapping=mapping, object_type=object_type,
                   principal_self=principal_self)


class SecurityDescriptor(_Fixed, _library.Layout):
    """A security descriptor. Its content is all that its canonical layout says; two are equal exactly if that is.

    >>> users = SecurityDescriptor.from_sddl("O:BAD:(A;OICI;FR;;;BU)")
    >>> users.owner, users.dacl[0].flags.names, users.sacl
    (Sid('S-1-5-32-544'), ('OBJECT_INHERIT', 'CONTAINER_INHERIT'), Acl.ABSENT)
    >>> bool(users.check(Token(["WD", "BU"]), FileMask.WRITE_DATA))
    False
    >>> users.derive("BA", "SY").sddl()
    'O:BAG:SYD:AI(A;ID;FR;;;BU)'
    >>> users.replace(owner="SY", dacl=[*users.dacl, Ace(AceKind.A, 0, FileMask.FA, "SY")]).sddl()
    'O:SYD:(A;OICI;FR;;;BU)(A;;FA;;;SY)'

    The empty text of SDDL is a descriptor without parts. A descriptor whose DACL is absent or null grants everything,
    as on Windows. A caller that has no use for those asks for the DACL:

    >>> SecurityDescriptor.from_sddl("").dacl.is_list
    False
    """

    __slots__ = ()

    def __init__(self, *, owner: Optional[SidLike] = None, group: Optional[SidLike] = None,
                 dacl: Union[Acl, Iterable[Ace]] = Acl.ABSENT, sacl: Union[Acl, Iterable[Ace]] = Acl.ABSENT,
                 control: int = 0, resource_manager: int = 0) -> None:
        """Bits of control that say which parts there are follow from the parts."""
        _make(self, _library.layout(self) is None)
        _make(self, _library.lay(self, _library.build(
            _arguments.number("control", control, 0xffff),
            _arguments.number("resource_manager", resource_manager, 0xff),
            sid_or_none("owner", owner), sid_or_none("group", group), *_raw_acl("sacl", sacl),
            *_raw_acl("dacl", dacl))))

    @classmethod
    def from_bytes(cls, data: BytesLike) -> "SecurityDescriptor":
        """The descriptor that bytes have, in whatever layout."""
        return _of_bytes(data)

    @classmethod
    def from_sddl(cls, text: str, *, domain: Optional[SidLike] = None) -> "SecurityDescriptor":
        """The descriptor of a text. A line that keeps its newline is refused, so strip it."""
        return _of_sddl(text, domain)

    @property
    def bytes(self) -> _Bytes:
        """Its canonical layout."""
        return _data_of(self)

    def __bytes__(self) -> _Bytes:
        return _data_of(self)

    @property
    def control(self) -> Control:
        return _control_of(_parts(self)[0])

    @property
    def resource_manager(self) -> int:
        """The resource manager byte."""
        return _parts(self)[1]

    @property
    def owner(self) -> Optional[Sid]:
        return _parts(self)[2]

    @property
    def group(self) -> Optional[Sid]:
        return _parts(self)[3]

    @property
    def sacl(self) -> Acl:
        return _parts(self)[4]

    @property
    def dacl(self) -> Acl:
        return _parts(self)[5]

    @property
    def order(self) -> "Order":
        """Where the order of its ACLs ends.

        >>> SecurityDescriptor.from_sddl("D:(A;;FR;;;BU)(D;;FW;;;BU)S:").order
        Order(sacl=None, dacl=1)
        """
        found: "Order" = _changing().order_of(_data_of(self))
        return found

    def edit(self, *changes: "Change") -> "Edited":
        """The descriptor after changes that are made one after the other, and how many ACEs each of them put, took or
        set. The Fault of a change that can't be made has its index.

        >>> from sdtool import Change
        >>> shared = SecurityDescriptor.from_sddl("D:PAI(A;;FR;;;WD)(A;ID;FA;;;BA)")
        >>> deny = Ace(AceKind.D, 0, 2, "BU")
        >>> edited = shared.edit(Change.take_each("dacl", sid="WD"), Change.put("dacl", "order", deny))
        >>> edited.descriptor.sddl(), edited.touched
        ('D:PAI(D;;DC;;;BU)(A;ID;FA;;;BA)', (1, 1))
        """
        made: "Edited" = _changing().edited(_data_of(self), changes)
        return made

    def sddl(self, *, domain: Optional[SidLike] = None, numeric: bool = False) -> str:
        """Its text. SDDL has no text for the resource manager byte and for some control bits, which are lost."""
        return _library.to_sddl(self, domain, _arguments.flag("numeric", numeric))

    def explain(self, *, domain: Optional[SidLike] = None, numeric: bool = False) -> str:
        """Its explanation, as 'sdtool explain' prints it."""
        return _library.explain(self, domain, _arguments.flag("numeric", numeric))

    def check(self, token: Token, wanted: int = 0, *, maximum: bool = False, mapping: Mapping = "file",
              object_type: Optional[GuidLike] = None, principal_self: Optional[SidLike] = None) -> Verdict:
        """Whether it grants a token the rights of wanted and, with maximum, what else it grants.

        mapping is "file", "key" or "ds": what the generic rights stand for. object_type is the object type of a check
        in a directory. principal_self is the SID that PRINCIPAL SELF stands for. Many checks of one token take a
        Checker.
        """
        request = _request(wanted, maximum, mapping, object_type, principal_self)
        return _library.check(_question_of(_holder_of(token), request), self)

    def reasons(self, token: Token, *, mapping: Mapping = "file", object_type: Optional[GuidLike] = None,
                principal_self: Optional[SidLike] = None) -> Tuple[Reason, ...]:
        """Why a token has each of the rights 0 to 24 or not, by its place in a mask. The arguments are those of check.

        >>> why = SecurityDescriptor.from_sddl("D:(D;;WD;;;BU)(A;;FR;;;WD)").reasons(Token(["WD", "BU"]))
        >>> [reason.kind for reason in why[:2]], why[18].place, str(why[18].ace)
        (['granted', 'nothing'], 0, '(D;;WD;;;BU)')
        """
        request = _request(0, True, mapping, object_type, principal_self)
        return _reasons(_question_of(_holder_of(token), request), self)

    def derive(self, owner: SidLike, group: SidLike, *, kind: Kind = "file", creator: Optional["DescriptorLike"] = None,
               mapping: Mapping = "file") -> "SecurityDescriptor":
        """The descriptor of a new file or container in a folder that has this one. creator is the descriptor that the
        creator brings, if any."""
        return _descriptor_of(derived(_data_of(self), owner, group, kind, creator, mapping))

    def origins(self, owner: SidLike, group: SidLike, *, kind: Kind = "file",
                creator: Optional["DescriptorLike"] = None, mapping: Mapping = "file") -> Origins:
        """Where each ACE comes from of the descriptor that derive gives for the same arguments.

        >>> folder = SecurityDescriptor.from_sddl("D:(A;;FA;;;BA)(A;CI;GR;;;BU)")
        >>> folder.derive("BA", "SY", kind="container").sddl()
        'O:BAG:SYD:AI(A;ID;FR;;;BU)(A;CIIOID;GR;;;BU)'
        >>> [(origin.place, origin.inherit_only) for origin in folder.origins("BA", "SY", kind="container").dacl]
        [(1, False), (1, True)]
        """
        data, brought = _data_of(self), _creator(creator)
        sacl, dacl = _of_derivation(_library.origins, data, owner, group, kind, brought, mapping)
        own, lent = _parts(self), None if brought is None else _parts(_of_bytes(brought))
        return Origins(_origins(sacl, own[4], lent[4] if lent else None),
                       _origins(dacl, own[5], lent[5] if lent else None))

    def replace(self, *, owner: Optional[SidLike] = _SAME, group: Optional[SidLike] = _SAME,
                dacl: Union[Acl, Iterable[Ace]] = _SAME, sacl: Union[Acl, Iterable[Ace]] = _SAME, control: int = _SAME,
                resource_manager: int = _SAME) -> "SecurityDescriptor":
        """The same descriptor with other parts. Without an owner or a group it has None there."""
        own = _parts(self)
        return SecurityDescriptor(
            control=own[0] if control is _SAME else control,
            resource_manager=own[1] if resource_manager is _SAME else resource_manager,
            owner=own[2] if owner is _SAME else owner, group=own[3] if group is _SAME else group,
            sacl=own[4] if sacl is _SAME else sacl, dacl=own[5] if dacl is _SAME else dacl)

    __replace__ = replace  # what copy.replace calls

    def __eq__(self, other: object) -> bool:
        if not _arguments.is_a(other, SecurityDescriptor):
            return NotImplemented
        return _data_of(self) == _data_of(other)

    def __hash__(self) -> int:
        return hash(_data_of(self))

    def __reduce__(self) -> Any:
        return SecurityDescriptor.from_bytes, (_data_of(self),)

    def __str__(self) -> str:
        return self.sddl()

    def __repr__(self) -> str:
        """The text, or the bytes where SDDL has no text for all of it."""
        data = _data_of(self)
        text = _library.to_sddl(data, None, True)
        if _library.from_sddl(text, None) == data:
            return f"SecurityDescriptor.from_sddl({text!r})"
        return f"SecurityDescriptor.from_bytes(bytes.fromhex({data.hex()!r}))"


DescriptorLike = Union[SecurityDescriptor, BytesLike]
_of_bytes, _of_sddl, _parts = _library.descriptor_of_bytes, _library.descriptor_of_sddl, _library.parts


_layout = _library.layout


def _reasons(question: Any, descriptor: Any) -> Tuple[Reason, ...]:
    told = _REASONS.unpack(_library.reasons(question, descriptor))
    pairs = list(zip(told[::2], told[1::2]))  # most rights share a few reasons
    made = {pair: _reason(descriptor, REASONS[pair[0]], pair[1]) for pair in dict.fromkeys(pairs)}
    return tuple([made[pair] for pair in pairs])


def decisions(checker: Checker, descriptor: DescriptorLike) -> Tuple[Tuple[ReasonKind, Optional[int], int], ...]:
    """The reasons of a checker in texts and numbers alone, for programs that ask about many descriptors: each kind and
    place once, with the mask of the rights that it decides about."""
    question = _library.asked(checker)
    if question is None:
        raise not_made(checker)
    return _grouped(_library.reasons(question, descriptor))


@functools.lru_cache(maxsize=10_000)
def _grouped(told: bytes) -> Tuple[Tuple[ReasonKind, Optional[int], int], ...]:
    found: Dict[Tuple[int, int], int] = {}
    for right, pair in enumerate(zip(*[iter(_REASONS.unpack(told))] * 2)):
        found[pair] = found.get(pair, 0) | 1 << right
    return tuple([(REASONS[kind], None if place == _NO_PLACE else place, mask)
                  for (kind, place), mask in found.items()])


def _reason(descriptor: Any, kind: ReasonKind, place: int) -> Reason:
    if place == _NO_PLACE:
        return Reason(kind, None, None)
    parts = _parts(descriptor)
    return Reason(kind, place, _library.aces(parts[4] if kind == "label" else parts[5])[place])


def _origins(cells: bytes, parents: Acl, creators: Optional[Acl]) -> Tuple[Origin, ...]:
    aces = [_library.aces(acl) if acl is not None and acl.is_list else () for acl in (parents, creators)]
    return tuple([Origin(from_creator, place, inherit_only, aces[from_creator][place])
                  for place, from_creator, inherit_only in _ORIGIN.iter_unpack(cells)])


def _data_of(descriptor: Any) -> bytes:
    found = _layout(descriptor)
    if found is None:
        raise not_made(descriptor)
    return found


def _descriptor_of(data: bytes) -> SecurityDescriptor:
    """The descriptor of a canonical layout."""
    descriptor = object.__new__(SecurityDescriptor)
    _library.lay(descriptor, data)
    return descriptor


@functools.lru_cache(maxsize=1024)
def _control_of(word: int) -> Control:
    return Control(word)


def _raw_acl(name: str, value: Union[Acl, Iterable[Ace]]) -> Tuple[int, Tuple[_RawAce, ...]]:
    if _arguments.is_a(value, Acl):
        state, aces = _content_of(value)
        return state, tuple([_raw_of(ace, name, index) for index, ace in enumerate(aces)])
    if value is None:
        raise WrongType(f"{name}: Acl.NULL, Acl.ABSENT or ACEs, not None, which does not say which of them")
    return _LIST, _raw_aces(name, value)


def derived(parent: bytes, owner: SidLike, group: SidLike, kind: Kind, creator: Optional[DescriptorLike],
            mapping: Mapping) -> bytes:
    """The layout of a new object's descriptor, in a folder that has the descriptor of parent."""
    return _of_derivation(_library.derive, parent, owner, group, kind, _creator(creator), mapping)


def _creator(creator: Optional[DescriptorLike]) -> Optional[bytes]:
    return None if creator is None else _arguments.layout("creator", creator)


def _of_derivation(call: Callable[..., _Answer], parent: bytes, owner: SidLike, group: SidLike, kind: Kind,
                   brought: Optional[bytes], mapping: Mapping) -> _Answer:
    """What a call of the library gives that derives, of a creator's descriptor as the door has read it."""
    arguments = (parent, brought, _arguments.sid("owner", owner), _arguments.sid("group", group),
                 _arguments.word("kind", kind, KINDS), _arguments.word("mapping", mapping, MAPPINGS))
    try:
        if brought == b"":
            raise ArgumentFault("no bytes", "creator")  # The library would take them for no creator.
        return call(*arguments)
    except ArgumentFault:
        # All other arguments are checked above. A creator that is no descriptor has a fault of its own.
        try:
            _library.normalize(brought or b"")
        except Fault as fault:
            raise fault.of("creator") from None
        raise


_library.adopt(SecurityDescriptor, Acl, Acl.ABSENT, Acl.NULL, Verdict, Ace, Sid,
               tuple([*map(_KIND_OF.get, range(256))]), tuple(_FLAGS_OF), _library.answer_of_fault, _no_list,
               _arguments.text, sid_or_none, _arguments.layout, _arguments.only, _guid_of)
