"""The door: each value of a caller is read here, once, into an exact value of Python's own types, before anything is
done with it.

The type of an object decides what it is, and its __class__ does not. Of a subclass counts what the type below it keeps:
the bytes, the characters, the digits, the number of a UUID. So no length, truth, hash, order or conversion of an object
of the caller is believed, and behind the door nobody looks at that object again. The extension takes values of the
exact types by itself and lets this module read all others, so both ways to the library have the same rules.

A wrong type is a WrongType, a wrong value an ArgumentFault.
"""
import operator
import re
import uuid
from typing import Any, Dict, Iterable, Iterator, List, Mapping, Optional, Tuple, TypeVar, Union

from . import _library
from ._errors import ArgumentFault, Fault, WrongType, shown
from ._places import InField
from ._slots import not_made, type_name

BytesLike = Union[bytes, bytearray, memoryview]
GuidLike = Union[uuid.UUID, str, BytesLike]

_Item = TypeVar("_Item")
_TEXTS = (str, bytes, bytearray, memoryview)
_GUID_SIZE = 16
_MOST_NUMBER = 2**32 - 1
_MOST_ITEMS = 2**16 - 1  # no ACL has more ACEs
_MOST_SHOWN = 64  # bits of a number, or bytes, in a message
_GUID_TEXT = re.compile("[0-9a-fA-F]{8}(?:-[0-9a-fA-F]{4}){3}-[0-9a-fA-F]{12}")
_WHOLE = slice(None)
_number_of_uuid = uuid.UUID.__dict__["int"].__get__
_is_subtype = type.__subclasscheck__
_digits_of = int.__index__


def is_a(value: object, kind: type) -> bool:
    """Whether an object is of a type or one below it, whatever it says of itself."""
    return _is_subtype(kind, type(value))


def wrong_type(name: str, value: object, wanted: str, index: Optional[int] = None) -> WrongType:
    place = name if index is None else f"{name}[{index}]"
    return WrongType(f"{place}: {wanted}, not {type_name(value)}")


def _bytes_of(name: str, value: Any, index: Optional[int] = None) -> Optional[bytes]:
    """The bytes that lie in an object now, or None if it is not of a type that has bytes."""
    if type(value) is bytes:
        return value
    if is_a(value, bytes):
        return bytes.__getitem__(value, _WHOLE)
    if is_a(value, bytearray):
        return bytes(bytearray.__getitem__(value, _WHOLE))
    if type(value) is not memoryview:
        return None
    try:
        return memoryview.tobytes(value)
    except ValueError:
        raise ArgumentFault("a memoryview that was released", name, index) from None


def data(name: str, value: BytesLike, index: Optional[int] = None) -> bytes:
    found = _bytes_of(name, value, index)
    if found is None:
        raise wrong_type(name, value, "bytes, bytearray or memoryview", index)
    return found


def characters(name: str, value: str, index: Optional[int] = None) -> str:
    if type(value) is str:
        return value
    if not is_a(value, str):
        raise wrong_type(name, value, "str", index)
    return str.__str__(value)


def text(name: str, value: str, index: Optional[int] = None) -> bytes:
    """The bytes of a text. What is no text, as half of a surrogate pair, stays something that no SDDL has."""
    found = characters(name, value, index)
    try:
        return found.encode()
    except UnicodeEncodeError:
        return found.encode("utf-8", "surrogatepass")


def bytes_of_line(name: str, value: Union[str, BytesLike], index: int) -> bytes:
    """A line of a text, or of bytes."""
    if is_a(value, str):
        return text(name, value, index)  # type: ignore[arg-type]
    found = _bytes_of(name, value, index)
    if found is None:
        raise wrong_type(name, value, "str, bytes, bytearray or memoryview", index)
    return found


def iterator(name: str, values: Iterable[_Item], wanted: str) -> Iterator[_Item]:
    """What a list or any other iterable has, to be read one by one. A single text or value is no list of its parts."""
    if type(values) is list or not any(is_a(values, kind) for kind in _TEXTS):
        try:
            return iter(values)
        except TypeError:
            pass
    raise wrong_type(name, values, f"an iterable of {wanted}")


def items(name: str, values: Iterable[_Item], wanted: str) -> Iterator[_Item]:
    """What a list or any other iterable has, for a list of our own: each is to be read before the next one is taken."""
    for index, value in enumerate(iterator(name, values, wanted)):
        if index == _MOST_ITEMS:
            raise ArgumentFault(f"more than {_MOST_ITEMS} items", name)
        yield value


def flag(name: str, value: bool) -> bool:
    if value is not True and value is not False:
        raise wrong_type(name, value, "bool")
    return value


def number(name: str, value: int, most: int = _MOST_NUMBER) -> int:
    """A number of so many bits, of 32 where nothing else is said. True and False are none: they are a flag in the wrong
    place."""
    kind = type(value)
    found = (value if kind is int else _digits_of(value) if _is_subtype(int, kind) and kind is not bool
             else _integer(name, value))
    if not 0 <= found <= most:
        what = str(found) if found.bit_length() <= _MOST_SHOWN else f"a number of {found.bit_length()} bits"
        raise ArgumentFault(f"{what} is not from 0 to {most}", name)
    return found


def _integer(name: str, value: Any) -> int:
    """What is no int, as a number of numpy, is asked once for one."""
    try:
        found = operator.index(value)
    except (TypeError, Warning):
        found = True
    if type(value) is bool or type(found) is bool:
        raise wrong_type(name, value, "int")
    return _digits_of(found)


def word(name: str, value: str, known: Mapping[str, int]) -> int:
    """The number of a word."""
    found = characters(name, value)
    if found not in known:
        raise ArgumentFault(f"'{shown(found)}' is none of {', '.join(map(repr, known))}", name)
    return known[found]


def guid(name: str, value: Optional[GuidLike]) -> Optional[bytes]:
    """The 16 bytes of a GUID in binary, or None where there is none."""
    if value is None:
        return None
    if is_a(value, uuid.UUID):
        return _guid_of_number(name, value)
    if is_a(value, str):
        return _guid_of_text(name, characters(name, value))  # type: ignore[arg-type]
    found = _bytes_of(name, value)
    if found is None:
        raise wrong_type(name, value, "uuid.UUID, str, bytes, bytearray, memoryview or None")
    if len(found) != _GUID_SIZE:
        raise ArgumentFault(f"a GUID has 16 bytes in binary, not {len(found)}", name)
    return found


def _in_binary(data: bytes) -> bytes:
    """A GUID as MS-DTYP 2.3.4.2 has it in binary: its first three numbers have their lowest byte first."""
    return data[3::-1] + data[5:3:-1] + data[7:5:-1] + data[8:]


def _guid_of_number(name: str, value: Any) -> bytes:
    try:
        found = number(name, _number_of_uuid(value), 2**128 - 1)
    except AttributeError:
        raise not_made(value) from None
    return _in_binary(found.to_bytes(_GUID_SIZE, "big"))


def _guid_of_text(name: str, value: str) -> bytes:
    """A GUID as SDDL has it. UUID also reads other forms, as with braces."""
    if not _GUID_TEXT.fullmatch(value):
        raise ArgumentFault(f"'{shown(value)}' is no GUID, such as bf967aba-0de6-11d0-a285-00aa003049e2", name)
    return _in_binary(bytes.fromhex(value.replace("-", "")))


def sid(name: str, value: Union[str, BytesLike], index: Optional[int] = None, *,
        domain: Optional[bytes] = None) -> bytes:
    """Exactly one SID in binary, from its text or its bytes."""
    if type(value) is not bytes and is_a(value, str):
        spelled = characters(name, value)  # type: ignore[arg-type]
        try:
            return _library.sid_from_text(spelled, domain)
        except Fault as fault:
            raise fault.of(name, index, InField(spelled, "sid")) from None
    found = data(name, value, index)  # type: ignore[arg-type]
    if not _library.is_one_sid(found):
        what = (found.hex() or "no bytes") if len(found) <= _MOST_SHOWN else f"{len(found)} bytes"
        raise ArgumentFault(f"{what}: not exactly one SID in binary", name, index)
    return found


def sid_or_none(name: str, value: Optional[Union[str, BytesLike]], *,
                domain: Optional[bytes] = None) -> Optional[bytes]:
    """A SID in binary, or None where there is none."""
    return None if value is None else sid(name, value, domain=domain)


def sids(name: str, values: Iterable[Union[str, BytesLike]], *, domain: Optional[bytes] = None) -> List[bytes]:
    is_one = _library.is_one_sid
    return [value if type(value) is bytes and is_one(value) else sid(name, value, index, domain=domain)
            for index, value in enumerate(items(name, values, "SIDs"))]


def layout(name: str, value: Any) -> bytes:
    """The bytes of a descriptor: those of a SecurityDescriptor, or bytes that are given."""
    if is_a(value, _library.Layout):
        held = _library.layout(value)
        if held is None:
            raise not_made(value)
        return held
    return data(name, value)


def only(name: str, given: Tuple[Any, ...], named: Dict[str, Any]) -> Any:
    """The one argument of a call, which is given by its place or by its name."""
    if len(given) == 1 and not named:
        return given[0]
    if not given and len(named) == 1:
        (key, value), = named.items()
        if characters("a name", key) == name:
            return value
    raise WrongType(f"{len(given)} arguments and {len(named)} with a name; the call takes one, {name}")
