"""The calls of include/sdtool.h by ctypes, where _native is not there. Both have the same functions, of which
_native.pyi has the signatures; here each call takes about ten times as long beside the library's own time."""
import array
import collections
import ctypes
import itertools
from typing import Any, Callable, Dict, Iterable, Iterator, List, NoReturn, Optional, Tuple

from . import _header as c
from ._slots import Slot, not_made

_FIRST_SIZE = 4096  # larger answers take a second call
_GROWTH = 4  # as long as all values may be their answers, before there is a second call
_library: Any = None
_raises: Callable[..., NoReturn]
# What adopt() is given.
_descriptor_type: Any
_acl_type: Any
_acl_absent: Any
_acl_null: Any
_verdict_type: Any
_ace_type: Any
_sid_type: Any
_kinds: Tuple[Any, ...]
_flags: Tuple[Any, ...]
_fault_of: Callable[..., Any]
_no_list: Callable[..., NoReturn]
_read_text: Callable[..., bytes]
_read_sid: Callable[..., Optional[bytes]]
_read_layout: Callable[..., bytes]
_read_only: Callable[..., Any]
_read_guid: Callable[[bytes], Any]


class Layout:
    __slots__ = ("_data", "_found")


_data, _found = Slot(Layout, "_data"), Slot(Layout, "_found")


class Entries:
    __slots__ = ("_acl",)

    def __iter__(self) -> Iterator[Any]:
        return iter(aces(self))

    def __len__(self) -> int:
        return len(aces(self))


# The state of an ACL and its list of ACEs, or in place of that the bytes and the number of those that nobody has asked
# for.
_acl = Slot(Entries, "_acl")


class Asking:
    __slots__ = ("_question",)

    def __call__(self, /, *given: Any, **named: Any) -> Any:
        question = _question.of(self)
        if question is None:
            raise not_made(self)
        return check(question, _read_only("descriptor", given, named))


_question = Slot(Asking, "_question")


def load(path: str, raises: Callable[..., NoReturn]) -> None:
    """Opens the library. An OSError says why that fails. raises is called with the numbers of a fault."""
    global _library, _raises
    library = ctypes.CDLL(path)
    for name, arguments, answer in c.CALLS:
        try:
            call = getattr(library, "sdtool_" + name)
        except AttributeError:
            raise OSError(f"it has no sdtool_{name}") from None
        call.argtypes = list(arguments)
        call.restype = answer
    _library, _raises = library, raises


def adopt(descriptor: Any, acl: Any, absent: Any, null: Any, verdict: Any, ace: Any, sid: Any, kinds: Tuple[Any, ...],
          flags: Tuple[Any, ...], fault_of: Callable[..., Any], no_list: Callable[..., NoReturn],
          read_text: Callable[..., bytes], read_sid: Callable[..., Optional[bytes]], read_layout: Callable[..., bytes],
          read_only: Callable[..., Any], read_guid: Callable[[bytes], Any]) -> None:
    global _descriptor_type, _acl_type, _acl_absent, _acl_null, _verdict_type, _ace_type, _sid_type, _kinds, _flags
    global _fault_of, _no_list, _read_text, _read_sid, _read_layout, _read_only, _read_guid
    _descriptor_type, _acl_type, _acl_absent, _acl_null, _verdict_type = descriptor, acl, absent, null, verdict
    _ace_type, _sid_type, _kinds, _flags, _fault_of, _no_list = ace, sid, kinds, flags, fault_of, no_list
    _read_text, _read_sid, _read_layout, _read_only, _read_guid = read_text, read_sid, read_layout, read_only, read_guid


def _refuse(outcome: Any, given: Optional[bytes] = None, domain: Optional[bytes] = None) -> NoReturn:
    """Raises a fault, of a descriptor or of a text under a domain, if one was given."""
    _raises(outcome.fault, outcome.part, outcome.other_part, outcome.argument, outcome.entry, given, domain)


def _fault_told(outcome: Any, given: Optional[bytes], domain: Optional[bytes]) -> Any:
    """The Fault that _refuse raises."""
    return _fault_of(outcome.fault, outcome.part, outcome.other_part, outcome.argument, outcome.entry, given, domain)


def _answer(call: Callable[..., Any], *arguments: Any, given: Optional[bytes] = None,
            domain: Optional[bytes] = None) -> bytes:
    """What a call gives. The fault may be one of the descriptor, or of the text under a domain, that was given."""
    size = _FIRST_SIZE
    while True:
        output = ctypes.create_string_buffer(size)
        outcome = call(*arguments, output, size)
        if outcome.fault == c.OK:
            return output.raw[:outcome.length]
        if outcome.fault != c.TOO_SMALL:
            break
        size = outcome.length
    _refuse(outcome, given, domain)


def _text(call: Callable[..., Any], *arguments: Any, given: Optional[bytes] = None) -> str:
    return _answer(call, *arguments, given=given).decode("latin-1")


def version() -> str:
    return _text(_library.sdtool_version)


def fault_text(number: int) -> str:
    return _text(_library.sdtool_fault_text, number)


def _in(data: Optional[bytes]) -> Tuple[Optional[bytes], int]:
    """Two arguments of a call: bytes of the door, or none."""
    return data, 0 if data is None else len(data)


def lay(descriptor: Any, data: bytes) -> bool:
    return _data.fill(descriptor, data)


def layout(descriptor: Any) -> Any:
    return _data.of(descriptor)


def _descriptor_of(data: bytes) -> Any:
    descriptor = object.__new__(_descriptor_type)
    _data.put(descriptor, data)
    return descriptor


def _normal(data: bytes) -> bytes:
    return _answer(_library.sdtool_normalize, *_in(data), given=data)


def normalize(descriptor: Any) -> bytes:
    return _normal(_read_layout("descriptor", descriptor))


def from_sddl(text: Any, domain: Any) -> bytes:
    given, of = _read_text("text", text), _read_sid("domain", domain)
    return _answer(_library.sdtool_from_sddl, *_in(given), *_in(of), given=given, domain=of)


def descriptor_of_sddl(text: Any, domain: Any) -> Any:
    return _descriptor_of(from_sddl(text, domain))


def descriptor_of_bytes(data: Any) -> Any:
    return _descriptor_of(_normal(_read_layout("data", data)))


def _print(call: Callable[..., Any], descriptor: Any, domain: Any, numeric: bool) -> str:
    data = _read_layout("descriptor", descriptor)
    return _text(call, *_in(data), *_in(_read_sid("domain", domain)), numeric, given=data)


def to_sddl(descriptor: Any, domain: Any, numeric: bool) -> str:
    return _print(_library.sdtool_to_sddl, descriptor, domain, numeric)


def explain(descriptor: Any, domain: Any, numeric: bool) -> str:
    return _print(_library.sdtool_explain, descriptor, domain, numeric)


def derive(parent: bytes, creator: Optional[bytes], owner: bytes, group: bytes, kind: int, mapping: int) -> bytes:
    return _answer(_library.sdtool_derive, *_in(parent), *_in(creator), *_in(owner), *_in(group), kind, mapping,
                   given=parent)


def origins(parent: bytes, creator: Optional[bytes], owner: bytes, group: bytes, kind: int,
            mapping: int) -> Tuple[bytes, bytes]:
    """The origins of the SACL's and of the DACL's ACEs, as struct sdtool_origin has them."""
    sacl, dacl = (c.Origin * c.MOST_DERIVED_ACES)(), (c.Origin * c.MOST_DERIVED_ACES)()
    told = _library.sdtool_derive_origins(*_in(parent), *_in(creator), *_in(owner), *_in(group), kind, mapping,
                                          sacl, len(sacl), dacl, len(dacl))
    if told.outcome.fault != c.OK:
        _refuse(told.outcome)
    size = ctypes.sizeof(c.Origin)
    return ctypes.string_at(sacl, size * told.sacl_count), ctypes.string_at(dacl, size * told.dacl_count)


def sid_from_text(text: str, domain: Optional[bytes]) -> bytes:
    return _answer(_library.sdtool_sid_from_text, *_in(_read_text("text", text)), *_in(domain))


def sid_to_text(sid: bytes, domain: Optional[bytes], numeric: bool) -> str:
    return _text(_library.sdtool_sid_to_text, *_in(sid), *_in(domain), numeric)


def ace_from_text(text: str, domain: Optional[bytes]) -> bytes:
    return _answer(_library.sdtool_ace_from_text, *_in(_read_text("text", text)), *_in(domain))


def ace_to_text(ace: bytes, domain: Optional[bytes], numeric: bool) -> str:
    return _text(_library.sdtool_ace_to_text, *_in(ace), *_in(domain), numeric)


def ace_read(data: bytes) -> Any:
    """The ACE that bytes are, or None if bytes are behind it."""
    ace = _library.sdtool_ace_read(*_in(data))
    if ace.fault != c.OK:
        _raises(ace.fault, 0, 0, 0, 0, None, None)
    return _ace_at(data, ace) if ace.place.size == len(data) else None


def _number(call: Callable[..., Any], text: str) -> int:
    """The number that a text means."""
    found = call(*_in(_read_text("text", text)))
    if found.outcome.fault != c.OK:
        _refuse(found.outcome)
    return found.number  # type: ignore[no-any-return]


def rights_from_text(text: str) -> int:
    return _number(_library.sdtool_rights_from_text, text)


def rights_to_text(mask: int, label: bool) -> str:
    return _text(_library.sdtool_rights_to_text, mask, label)


def flags_from_text(text: str) -> int:
    return _number(_library.sdtool_flags_from_text, text)


def flags_to_text(flags: int) -> str:
    return _text(_library.sdtool_flags_to_text, flags)


def guid_from_text(text: str) -> bytes:
    return _answer(_library.sdtool_guid_from_text, *_in(_read_text("text", text)))


def guid_to_text(guid: bytes) -> str:
    return _text(_library.sdtool_guid_to_text, *_in(guid))


def is_one_sid(value: bytes) -> bool:
    return bool(value) and _library.sdtool_sid_size(value, len(value)) == len(value)


def place(data: bytes) -> Optional[Tuple[int, ...]]:
    return _place(_library.sdtool_place(*_in(data)))


def sddl_place(text: bytes, domain: Optional[bytes]) -> Optional[Tuple[int, ...]]:
    return _place(_library.sdtool_sddl_place(*_in(text), *_in(domain)))


def _place(found: Any) -> Optional[Tuple[int, ...]]:
    return None if found.fault == c.OK else (found.part, found.ace, found.field, found.place.offset, found.place.size)


def run(words: bytes, data: bytes) -> Tuple[int, bytes, bytes]:
    message = ctypes.create_string_buffer(c.MOST_MESSAGE)
    size = _FIRST_SIZE + 4 * len(data)
    while True:
        output = ctypes.create_string_buffer(size)
        ending = _library.sdtool_run(words, len(words), data, len(data), output, size, message, c.MOST_MESSAGE)
        if ending.status == c.STATUS_NO_MEMORY:
            raise MemoryError
        # Help that was cut ends with 0.
        if ending.status != c.STATUS_STOPPED and ending.length < size:
            return ending.status, ctypes.string_at(output, ending.length), ctypes.string_at(message,
                                                                                            ending.message_length)
        size *= 4


def token(sids: bytes, entries: bytes) -> Any:
    """A token that is read; and what it was read from."""
    size = c.TOKEN_WORDS_FIRST + c.TOKEN_WORDS_EACH * min(len(entries), c.MOST_SIDS)
    numbers = (ctypes.c_uint32 * size)()
    given = (sids, len(sids), entries, len(entries))
    outcome = _library.sdtool_token_read(*given, numbers, size)
    if outcome.fault != c.OK:
        _refuse(outcome)
    return (numbers, size), given


def question(token: Any, object_type: Optional[bytes], principal_self: Optional[bytes], wanted: int,
             mapping: int, level: int, has_level: bool, maximum: bool, security: bool, take_ownership: bool) -> Any:
    options = c.HAS_LEVEL * has_level | c.SECURITY * security | c.TAKE_OWNERSHIP * take_ownership
    asker = c.Asker(mapping, level, options)
    return token, (*_in(object_type), *_in(principal_self), c.Request(asker, wanted, c.MAXIMUM * maximum))


def ask(checker: Any, question: Any) -> bool:
    return _question.fill(checker, question)


def asked(checker: Any) -> Any:
    return _question.of(checker)


def check(question: Any, descriptor: Any) -> Any:
    data = _read_layout("descriptor", descriptor)
    (numbers, _), asked = question
    verdict = _library.sdtool_check_with(data, len(data), *numbers, *asked)
    if verdict.outcome.fault != c.OK:
        _refuse(verdict.outcome, data)
    return _verdict_of(verdict)


def _verdict_of(verdict: Any) -> Any:
    return tuple.__new__(_verdict_type, (verdict.granted == 1, verdict.mask))


def check_many(question: Any, descriptors: Iterable[Any]) -> List[Any]:
    layouts = [_read_layout("descriptors", descriptor) for descriptor in descriptors]  # each when it is taken
    count = len(layouts)
    data, offsets = _joined(layouts)
    verdicts = (c.Verdict * count)()
    (_, (sids, _, entries, _)), (object_type, _, principal_self, _, request) = question
    asked = c.LargeColumnCheck(c.LargeColumn(_given(data), offsets, count + 1), *map(_given, (
        sids, entries, object_type, principal_self)), request)
    outcome = _library.sdtool_check_column_large(asked, verdicts, count)
    if outcome.fault != c.OK:
        _refuse(outcome)
    return [_verdict_of(verdict) if verdict.outcome.fault == c.OK else _fault_told(verdict.outcome, data, None)
            for verdict, data in zip(verdicts, layouts)]


def _joined(values: List[Any]) -> Tuple[bytes, Any]:
    """The bytes of a column, and its offsets."""
    held = array.array("Q", itertools.accumulate(map(len, values), initial=0))
    return b"".join(values), (ctypes.c_uint64 * len(held)).from_buffer(held)


def distinct(rows: List[Any], kind: type) -> Optional[Tuple[List[Any], List[int]]]:
    if not {*map(type, rows)} <= {kind, type(None)}:
        return None
    places: Dict[Any, int] = collections.defaultdict(itertools.count().__next__, {None: -1})
    found = list(map(places.__getitem__, rows))
    del places[None]
    return list(places), found


def convert_many(kind: int, values: List[Any], domain: Optional[bytes], is_numeric: bool) -> List[Any]:
    given = [_read_text("column", value) for value in values] if kind == c.CONVERT_FROM_SDDL else values

    def ask(data: bytes, offsets: Any, count: int, begin: int, *room: Any) -> Any:
        asked = c.LargeConversion(_given(data), offsets, count, _given(domain), begin, kind, is_numeric)
        return _library.sdtool_convert_many_large(asked, *room)

    return _column_of(given, ask, kind == c.CONVERT_TO_SDDL, domain)


def derive_many(parents: List[bytes], creator: Optional[bytes], owner: bytes, group: bytes, kind: int,
                mapping: int) -> List[Any]:
    creation = c.Creation(_given(creator), _given(owner), _given(group), kind, mapping)

    def ask(data: bytes, offsets: Any, count: int, begin: int, *room: Any) -> Any:
        asked = c.LargeDerivation(c.LargeColumn(_given(data), offsets, count), creation, begin)
        return _library.sdtool_derive_many_large(asked, *room)

    return _column_of(parents, ask, False, None)


def _column_of(given: List[Any], ask: Callable[..., Any], is_text: bool, domain: Optional[bytes]) -> List[Any]:
    """The answers of a call to the rows of a column."""
    data, offsets = _joined(given)
    count = len(given)
    ends, outcomes = (ctypes.c_uint64 * (count + 1))(), (c.Outcome * count)()
    output, row = ctypes.create_string_buffer(_FIRST_SIZE + _GROWTH * len(data)), 0
    while True:
        rest = count - row
        told = ask(data, _from(offsets, row), rest + 1, ends[row], output, len(output), _from(ends, row), rest + 1,
                   _from(outcomes, row), rest)
        if told.fault != c.TOO_SMALL:
            break
        row += told.entry
        larger = ctypes.create_string_buffer(2 * (ends[row] + told.length))
        ctypes.memmove(larger, output, ends[row])
        output = larger
    if told.fault != c.OK:
        _refuse(told)
    answered = ctypes.string_at(output, ends[count])
    whole: Any = answered.decode("latin-1") if is_text else answered
    found: List[Any] = [whole[first:end] for first, end in zip(ends, itertools.islice(ends, 1, None))]
    faults = array.array("I", bytes(outcomes))[::ctypes.sizeof(c.Outcome) // 4]  # the first number of each
    for at, fault in enumerate(faults):
        if fault != c.OK:
            found[at] = _fault_told(outcomes[at], given[at], domain)
    return found


def _from(numbers: Any, place: int) -> Any:
    """A pointer to an item of an array."""
    return ctypes.cast(ctypes.byref(numbers, place * ctypes.sizeof(numbers._type_)),
                       ctypes.POINTER(numbers._type_))


def reasons(question: Any, descriptor: Any) -> bytes:
    """The reasons for all rights, as struct sdtool_reason has them."""
    data = _read_layout("descriptor", descriptor)
    (numbers, _), (*asked, request) = question
    told = (c.Reason * c.RIGHTS)()
    outcome = _library.sdtool_reasons_with(data, len(data), *numbers, *asked, request.asker, told)
    if outcome.fault != c.OK:
        _refuse(outcome, data)
    return bytes(told)


def _part_at(data: bytes, place: Any) -> Optional[bytes]:
    return data[place.offset:place.offset + place.size] if place.size else None


def _sid_at(data: bytes, place: Any) -> Any:
    found = _part_at(data, place)
    return found and bytes.__new__(_sid_type, found)


def _guid_at(data: bytes, place: Any) -> Any:
    found = _part_at(data, place)
    return found and _read_guid(found)


def parts(descriptor: Any) -> Tuple[Any, ...]:
    answer: Optional[Tuple[Any, ...]] = _found.of(descriptor)
    if answer is not None:
        return answer
    data = _read_layout("descriptor", descriptor)
    found = _library.sdtool_parts(data, len(data))
    if found.outcome.fault != c.OK:
        _refuse(found.outcome, data)
    answer = (found.control, found.resource_manager, _sid_at(data, found.owner), _sid_at(data, found.group),
              _acl_at(data, found.sacl), _acl_at(data, found.dacl))
    _found.put(descriptor, answer)
    return answer


def _acl_at(data: bytes, place: Any) -> Any:
    if place.state != c.ACL_LIST:
        return _acl_null if place.state == c.ACL_NULL else _acl_absent
    acl = object.__new__(_acl_type)
    _acl.put(acl, (c.ACL_LIST, None, _part_at(data, place.place), place.ace_count))
    return acl


def fill(acl: Any, state: int, aces: Optional[Tuple[Any, ...]]) -> bool:
    return _acl.fill(acl, (state, aces, None, 0))


def state(acl: Any) -> Optional[int]:
    held = _acl.of(acl)
    return None if held is None else held[0]


def aces(acl: Any) -> Tuple[Any, ...]:
    held = _acl.of(acl)
    if held is None:
        raise not_made(acl)
    state, found, data, count = held
    if state != c.ACL_LIST:
        _no_list(acl)
    if found is None:
        found = _aces_of(data, count)
        _acl.put(acl, (state, found, None, 0))
    return tuple(found)


def _ace_at(data: bytes, ace: Any) -> Any:
    return tuple.__new__(_ace_type, (
        _kinds[ace.kind], _flags[ace.flags], ace.mask, _sid_at(data, ace.sid), _guid_at(data, ace.object_type),
        _guid_at(data, ace.inherited_object_type)))


def _aces_of(acl: bytes, count: int) -> Tuple[Any, ...]:
    ace = c.Ace()
    found = []
    while _library.sdtool_next_ace(acl, len(acl), ace):
        found.append(_ace_at(acl, ace))
    if ace.fault != c.OK:
        _raises(ace.fault, 0, 0, 0, 0, None, None)
    if len(found) != count:
        raise SystemError("an ACL has another number of ACEs than its descriptor says")
    return tuple(found)


def _given(data: Optional[bytes]) -> c.Bytes:
    return c.Bytes(data, len(data or b""))


def _new_acl(state: int, aces: Tuple[Any, ...]) -> c.NewAcl:
    found = (c.NewAce * len(aces))(*[
        c.NewAce(_given(sid), _given(object_type), _given(inherited), mask, kind, flags)
        for kind, flags, mask, sid, object_type, inherited in aces])
    return c.NewAcl(found, len(aces), state)


def build(control: int, resource_manager: int, owner: Optional[bytes], group: Optional[bytes], sacl_state: int,
          sacl: Tuple[Any, ...], dacl_state: int, dacl: Tuple[Any, ...]) -> bytes:
    descriptor = c.NewDescriptor(_given(owner), _given(group), _new_acl(sacl_state, sacl),
                                 _new_acl(dacl_state, dacl), control, resource_manager)
    return _answer(_library.sdtool_build, descriptor)


def edit(data: bytes, changes: bytes) -> Tuple[Any, Tuple[int, ...]]:
    """The edited descriptor, and how many ACEs each of the changes put, took or set."""
    count = len(changes) // ctypes.sizeof(c.Change)
    given = (c.Change * count).from_buffer_copy(changes)
    touched = (ctypes.c_uint32 * count)()
    made = _answer(_library.sdtool_edit, data, len(data), given, count, touched, count, given=data)
    return _descriptor_of(made), tuple(touched)


def order(data: bytes) -> Tuple[int, int]:
    """Where the order of the SACL and of the DACL ends, or NO_ACE."""
    told = _library.sdtool_order(*_in(data))
    if told.outcome.fault != c.OK:
        _refuse(told.outcome, data)
    return told.sacl, told.dacl


# As MOST_KEPT and LARGEST_KEPT of _native.c.
_MOST_KEPT, _LARGEST_KEPT = 8192, 1024
_FAULTS_OF_CALLS = (c.ARGUMENT, c.TOO_SMALL, c.NO_MEMORY)  # and not of a descriptor
# What adopt_plain() is given.
_plain_type: Any
_plain_ace_type: Any
_plain_kinds: Tuple[Optional[str], ...]
_plain_absent: str
_plain_null: str
_Values = Dict[bytes, Any]
_Kept = Tuple[_Values, _Values, _Values, _Values]  # of ACLs, ACEs, SIDs and GUIDs


def adopt_plain(descriptor: Any, ace: Any, kinds: Tuple[Optional[str], ...], absent: str, null: str) -> None:
    global _plain_type, _plain_ace_type, _plain_kinds, _plain_absent, _plain_null
    _plain_type, _plain_ace_type, _plain_kinds, _plain_absent, _plain_null = descriptor, ace, kinds, absent, null


def plain(descriptors: Iterable[Any], domain: Optional[bytes], kept: _Kept) -> List[Any]:
    room = ctypes.create_string_buffer(c.MOST_BYTES)
    return [_plain_answer(descriptor, domain, kept, room) for descriptor in descriptors]  # each when it is taken


def _plain_answer(descriptor: Any, domain: Optional[bytes], kept: _Kept, room: Any) -> Any:
    if issubclass(type(descriptor), str):
        text = _read_text("descriptors", descriptor)
        outcome = _library.sdtool_from_sddl(*_in(text), *_in(domain), room, c.MOST_BYTES)
        if outcome.fault != c.OK:
            return _plain_fault(outcome, text, domain)
        data = ctypes.string_at(room, outcome.length)
    else:
        data = _read_layout("descriptors", descriptor)
    found = _library.sdtool_parts(data, len(data))
    if found.outcome.fault != c.OK:
        return _fault_told(found.outcome, data, None)
    return tuple.__new__(_plain_type, (
        _plain_sid(data, found.owner, kept), _plain_sid(data, found.group, kept), _plain_acl(data, found.dacl, kept),
        _plain_acl(data, found.sacl, kept), found.control, found.resource_manager))


def _plain_fault(outcome: Any, text: bytes, domain: Optional[bytes]) -> Any:
    """The Fault of a text. What is no fault of its is raised."""
    if outcome.fault in _FAULTS_OF_CALLS:
        _refuse(outcome)
    return _fault_told(outcome, text, domain)


def _keep(values: _Values, key: bytes, made: Any) -> Any:
    """Keeps what bytes say, since the same few are in most descriptors."""
    if len(key) <= _LARGEST_KEPT:
        if len(values) >= _MOST_KEPT:
            values.clear()
        values[key] = made
    return made


def _plain_acl(data: bytes, acl: Any, kept: _Kept) -> Any:
    if acl.state != c.ACL_LIST:
        return _plain_null if acl.state == c.ACL_NULL else _plain_absent
    offset, size = acl.place.offset, acl.place.size
    key = data[offset:offset + size]
    made = kept[0].get(key)
    return _keep(kept[0], key, _plain_aces(key, acl.ace_count, kept)) if made is None else made


def _plain_aces(acl: bytes, count: int, kept: _Kept) -> Tuple[Any, ...]:
    ace = c.Ace()
    found: List[Any] = []
    while len(found) < count and _library.sdtool_next_ace(acl, len(acl), ace):
        offset, size = ace.place.offset, ace.place.size
        key = acl[offset:offset + size]
        made = kept[1].get(key)
        found.append(_keep(kept[1], key, _plain_ace(acl, ace, kept)) if made is None else made)
    if ace.fault != c.OK:
        _raises(ace.fault, 0, 0, 0, 0, None, None)
    if len(found) < count:
        raise SystemError("an ACL has fewer ACEs than its descriptor says")
    return tuple(found)


def _plain_ace(acl: bytes, ace: Any, kept: _Kept) -> Any:
    return tuple.__new__(_plain_ace_type, (
        _plain_kinds[ace.kind], ace.flags, ace.mask, _plain_sid(acl, ace.sid, kept),
        _plain_guid(acl, ace.object_type, kept), _plain_guid(acl, ace.inherited_object_type, kept)))


def _plain_sid(data: bytes, place: Any, kept: _Kept) -> Any:
    key = _part_at(data, place)
    if key is None:
        return None
    made = kept[2].get(key)
    return _keep(kept[2], key, sid_to_text(key, None, True)) if made is None else made


def _plain_guid(data: bytes, place: Any, kept: _Kept) -> Any:
    key = _part_at(data, place)
    if key is None:
        return None
    made = kept[3].get(key)
    return _keep(kept[3], key, str(_read_guid(key))) if made is None else made
