#!/usr/bin/env python3
"""lying_objects.py [--without-extension]

Has the rows of tests/python/python_lies.py. They are for the Python that runs it. Each argument of each call of the
module gets each lie that there is for its type: an object that says something else of itself than what it is. What an
object is follows from its type and from what a type of Python keeps in it; the row says which plain value that is, or
that there is none.

Prints a line of JSON for each row: its name, its outcome, and what is wrong with it. An outcome is the answer, or a
refusal. It is wrong if it is neither the answer to the plain value nor a refusal, if what is no such value is not
refused, and if a refusal is no sdtool.Error.
"""
import array
import collections
import copy
import copyreg
import ctypes
import enum
import functools
import gc
import io
import itertools
import json
import os
import pickle
import sys
import threading
import unittest.mock
import uuid
import weakref

if "--without-extension" in sys.argv:
    sys.modules["sdtool._native"] = None
import sdtool  # noqa: E402
from sdtool import Ace, AceFlags, AceKind, Acl, Checker, FileMask, SecurityDescriptor, Sid, Token  # noqa: E402

# From MS-DTYP 2.4.2: Users, Authenticated Users, Administrators, Everyone, System, and a domain.
BU, BA = bytes.fromhex("01020000000000052000000021020000"), bytes.fromhex("01020000000000052000000020020000")
AU, WD, SY = bytes.fromhex("01010000000000050b000000"), bytes.fromhex("010100000000000100000000"), bytes.fromhex(
    "010100000000000512000000")
DOMAIN = bytes.fromhex("010400000000000515000000010000000200000003000000")
GUID, OTHER_GUID = uuid.UUID("bf967aba-0de6-11d0-a285-00aa003049e2"), uuid.UUID(int=9)
READ, WRITE, ALL = 0x120089, 0x120116, 0x1f01ff
REFUSED = object()  # the meaning of what is no value of its kind
HUGE = 1 << 40_000
SECONDS = 3000


class Own(Exception):
    """An exception of the caller's own code."""


def layout(text):
    return sdtool.from_sddl(text)


# ---- lies ----

def other_of(value):
    """Another value of the same type, which an object claims to be."""
    if isinstance(value, bytes):
        return {len(BU): WD, len(AU): WD, 16: OTHER_GUID.bytes_le}.get(len(value), layout(""))
    if isinstance(value, str):
        return {"file": "ds", "container": "file"}.get(value, "D:(A;;FA;;;WD)")
    return 1


def methods_of_a_liar(value):
    """The methods with which an object of a subclass says that it is something else, each alone."""
    other = other_of(value)
    text = other if isinstance(other, str) else "S-1-1-0"
    data = other if isinstance(other, bytes) else bytes(16)
    number = other if isinstance(other, int) else 0
    same = {
        "__bool__": lambda self: False, "__len__": lambda self: 0, "__eq__": lambda self, one: True,
        "__ne__": lambda self, one: False, "__hash__": lambda self: 7, "__lt__": lambda self, one: True,
        "__le__": lambda self, one: True, "__gt__": lambda self, one: True, "__ge__": lambda self, one: True,
        "__contains__": lambda self, one: True,
        "__iter__": lambda self: iter(other if not isinstance(other, int) else ()),
        "__getitem__": lambda self, at: other if isinstance(other, int) else other[at], "__bytes__": lambda self: data,
        "__str__": lambda self: text, "__repr__": lambda self: text, "__format__": lambda self, spec: text,
        "__index__": lambda self: number, "__int__": lambda self: number,
        "__buffer__": lambda self, flags: memoryview(data),
        "__release_buffer__": lambda self, view: None, "__float__": lambda self: 0.0, "__fspath__": lambda self: text,
        "__length_hint__": lambda self: 0, "__reversed__": lambda self: iter(()), "__add__": lambda self, one: other,
        "__radd__": lambda self, one: other, "__mod__": lambda self, one: other, "__copy__": lambda self: other,
        "__deepcopy__": lambda self, memo: other, "__reduce__": lambda self: (type(other), (other,)),
        "__reduce_ex__": lambda self, protocol: (type(other), (other,)), "__getnewargs__": lambda self: (other,),
        "__sizeof__": lambda self: 0, "__call__": lambda self, *given, **named: other, "__dir__": lambda self: [],
        "__and__": lambda self, one: number, "__or__": lambda self, one: number, "__neg__": lambda self: number,
        "__getattribute__": lambda self, name: object.__getattribute__(self, name) if name == "__class__" else other,
        "__getattr__": lambda self, name: other, "__class__": property(lambda self: type(other)),
        "__instancecheck__": lambda self, one: True, "__subclasshook__": classmethod(lambda cls, one: True),
        "__init__": lambda self, *given, **named: None, "__del__": lambda self: None,
        "encode": lambda self, *given: data, "decode": lambda self, *given: text,
        "hex": lambda self, *given: data.hex(),
        "tobytes": lambda self, *given: data, "join": lambda self, *given: other,
        "startswith": lambda self, *given: True,
        "bit_length": lambda self: 1, "to_bytes": lambda self, *given: data, "lower": lambda self: text,
        "replace": lambda self, *given: other, "find": lambda self, *given: 0, "count": lambda self, *given: 0,
    }
    worse = {"__len__ is long": ("__len__", lambda self: 1 << 20), "__len__ fails": ("__len__", fails),
             "__hash__ fails": ("__hash__", fails), "__eq__ fails": ("__eq__", fails),
             "__bool__ fails": ("__bool__", fails),
             "__class__ fails": ("__class__", property(fails)), "__getattribute__ fails": ("__getattribute__", fails),
             "__repr__ fails": ("__repr__", fails), "__iter__ fails": ("__iter__", fails),
             "__hash__ is none": ("__hash__", None)}
    yield from ((name, {name: method}) for name, method in same.items())
    yield from ((name, dict([pair])) for name, pair in worse.items())
    yield "all of them", {name: method for name, method in same.items() if name not in ("__getattribute__", "__del__")}


def fails(*given, **named):
    raise Own("a method of the caller")


class Lying(type):
    """A class that says of itself whatever suits it."""

    def __instancecheck__(cls, one):
        return True

    def __subclasscheck__(cls, one):
        return True

    def __eq__(cls, other):
        return True

    def __hash__(cls):
        return 7

    def __bool__(cls):
        return False

    def __repr__(cls):
        raise Own("the name of a class")

    def __getattribute__(cls, name):
        if name in ("__name__", "__qualname__", "__module__"):
            raise Own("the name of a class")
        return type.__getattribute__(cls, name)


def made(base, value, methods, metaclass=type):
    """An object of a subclass with these methods, which keeps a value of the base."""
    methods = dict(methods, __slots__=()) if base not in (uuid.UUID,) else dict(methods)
    found = base.__new__(metaclass("Liar", (base,), methods), value)
    if base is bytearray:
        base.__init__(found, value)
    return found


# What is asked first of an object that has bytes.
FEW = ("__len__", "__bool__", "__bytes__", "__buffer__", "__getitem__", "__iter__", "__eq__", "__hash__", "__class__",
       "__len__ is long", "__getattribute__", "__hash__ fails", "all of them")


def some_methods_of_a_liar(value):
    return ((name, methods) for name, methods in methods_of_a_liar(value) if name in FEW)


def subclasses(base, value, methods_of=methods_of_a_liar):
    """Objects of subclasses of a base, which keep a value of it, each with its lie."""
    for name, methods in methods_of(value):
        yield f"a {base.__name__} whose {name}", (lambda methods=methods: made(base, value, methods)), value
    yield f"a {base.__name__} of a class that lies", lambda: made(base, value, {}, Lying), value
    yield f"a {base.__name__} of a subclass", lambda: made(base, value, {}), value


class WithBytes:
    def __init__(self, value):
        self.value = value

    def __bytes__(self):
        return self.value

    def __len__(self):
        return len(self.value)

    def __iter__(self):
        return iter(self.value)

    def __buffer__(self, flags):
        return memoryview(self.value)


def claiming(base, value):
    """Objects of no type below a base that say they are of it."""
    yield "a mock", lambda: mock_of(unittest.mock.Mock, base)
    yield "a magic mock", lambda: mock_of(unittest.mock.MagicMock, base)
    yield "a magic mock of an object", lambda: mock_of(unittest.mock.create_autospec, base)
    yield "a mock without a spec", unittest.mock.Mock
    yield "a sentinel", lambda: unittest.mock.sentinel.value
    yield "an object with its __class__", lambda: type("Claim", (), {"__class__": base, "value": value})()
    yield "an object whose __class__ comes later", lambda: type("Claim", (),
                                                                {"__class__": property(lambda self: base)})()
    yield "the type", lambda: base
    yield "a subclass", lambda: type("Sub", (), {})
    yield "an object", object
    yield "an exception", lambda: Own(value)
    yield "a function", lambda: lambda *given: value
    yield "an object of a class that lies", lambda: Lying("Claim", (), {})()
    yield "a generator function", lambda: (lambda: (yield value))
    yield "a partial", lambda: functools.partial(base, value)
    yield "a weak reference", lambda: weakref.ref(Own)
    yield "not implemented", lambda: NotImplemented
    yield "an ellipsis", lambda: Ellipsis


@functools.lru_cache(maxsize=None)
def mock_of(kind, base):
    return kind(base, instance=True) if kind is unittest.mock.create_autospec else kind(spec=base)


def refused(base, value, *but):
    """What is refused in place of a value of a base: objects that claim to be one, and values of other types."""
    for name, make in claiming(base, value):
        yield name, make, REFUSED
    for other in (0, 1, 1.0, True, False, 1j, "", "x", b"", b"x", bytearray(), (), [], {}, set(), None, HUGE,
                  float("nan")):
        if not isinstance(other, but):
            yield (f"{type(other).__name__} {str(other)[:5]}" if other is not HUGE else "a huge number",
                   lambda other=other: other, REFUSED)


NONE = type(None)
BYTES = (bytes, bytearray)


def lies_of_bytes(value, *but):
    """Of bytes: what has them in another form, and what only says that it has some."""
    yield from subclasses(bytes, value)
    yield from subclasses(bytearray, value, some_methods_of_a_liar)
    yield "a bytearray", lambda: bytearray(value), value
    yield "a memoryview", lambda: memoryview(value), value
    yield "a memoryview of a bytearray", lambda: memoryview(bytearray(value)), value
    yield "a memoryview of every second byte", lambda: memoryview(bytes(one for byte in value
                                                                        for one in (byte, 0)))[::2], value
    yield "a memoryview from the end", lambda: memoryview(value[::-1])[::-1], value
    yield "a memoryview of a subclass", lambda: memoryview(made(bytes, value, {"__bytes__": lambda self: b""})), value
    yield ("a memoryview of numbers",
           lambda: memoryview(array.array("I", value)) if len(value) % 4 else memoryview(value).cast("I"),
           value if len(value) % 4 == 0 else None)
    yield "a released memoryview", lambda: released(value), REFUSED
    yield "an array", lambda: array.array("B", value), REFUSED
    yield "a ctypes array", lambda: (ctypes.c_char * len(value)).from_buffer_copy(value) if value else object(), REFUSED
    yield "an object with __bytes__ and a buffer", lambda: WithBytes(value), REFUSED
    yield "a list of numbers", lambda: list(value), REFUSED
    yield from refused(bytes, value, *but, *BYTES)


def released(value):
    view = memoryview(value)
    view.release()
    return view


def lies_of_layouts(value):
    yield from lies_of_bytes(value)
    yield "no bytes", lambda: b"", REFUSED
    yield "bytes that are false and empty", lambda: made(bytes, b"", {"__len__": lambda self: 20}), REFUSED
    yield from lies_of_objects(SecurityDescriptor, lambda: SecurityDescriptor.from_bytes(value), value)


def lies_of_sids(value):
    yield from lies_of_bytes(value, str)
    yield from ((name, make, value) for name, make, _ in subclasses(str, "S-1-5-32-545") if value == BU)
    yield "a Sid", lambda: Sid(value), value
    yield from ((f"{name} (a Sid)",
                 lambda methods=methods: bytes.__new__(type("Liar", (Sid,), dict(methods, __slots__=())), value), value)
                for name, methods in some_methods_of_a_liar(value))
    yield "half a Sid", lambda: bytes.__new__(Sid, value[:len(value) // 2]), REFUSED
    yield "an empty Sid", lambda: bytes.__new__(Sid, b""), REFUSED
    yield "two Sids", lambda: bytes.__new__(Sid, value + value), REFUSED
    yield "a Sid and a byte", lambda: bytes.__new__(Sid, value + b"\0"), REFUSED
    yield "a Sid by copyreg", lambda: copyreg._reconstructor(Sid, bytes, value[:-1]), REFUSED
    yield "no bytes", lambda: b"", REFUSED
    yield "an empty bytearray", lambda: bytearray(), REFUSED
    yield "no text", lambda: "", REFUSED
    yield "a text that is false", lambda: made(str, "",
                                               {"__bool__": lambda self: True, "__len__": lambda self: 2}), REFUSED


def lies_of_texts(value):
    yield from subclasses(str, value)
    for name, make, meaning in refused(str, value, str):
        yield name, make, meaning
    yield "bytes of the text", lambda: value.encode(), REFUSED
    yield "a user string", lambda: __import__("collections").UserString(value), REFUSED
    yield "a text with half a surrogate pair", lambda: value + "\ud800", value + "\ud800"
    yield "a subclass with half a surrogate pair", lambda: made(str, value + "\udcff",
                                                                {"encode": lambda self, *how: b"D:"}), value + "\udcff"


class Index:
    """An object that has a number, as numpy's."""

    def __init__(self, *values):
        self.values = list(values)

    def __index__(self):
        found = self.values.pop(0) if len(self.values) > 1 else self.values[0]
        if isinstance(found, Exception):
            raise found
        return found


def lies_of_numbers(value):
    yield from subclasses(int, value)
    yield "an enum", lambda: enum.IntEnum("Enum", {"ONE": value}).ONE, value
    yield "a flag", lambda: FileMask(value), value
    yield "a flag of another value", lambda: flag_with(value, 1), value
    yield "an index", lambda: Index(value), value
    yield "an index that is another one the second time", lambda: Index(value, 1, 0), value
    yield "an index that fails", lambda: Index(Own("no")), REFUSED
    yield "an index that is a text", lambda: Index("1"), REFUSED
    yield "an index of a subclass", lambda: Index(made(int, value, {"__le__": lambda self, one: True,
                                                                    "__index__": lambda self: 1})), value
    yield "an index of a huge number", lambda: Index(HUGE), REFUSED
    yield "an index that is a float", lambda: Index(1.0), REFUSED
    for number in (-1, -HUGE, HUGE, 2**32 + value, 2**64 + value, value - 2**32, -value - 1):
        for name, methods in (("", None), (" that says it is small",
                                           {"__le__": lambda self, one: True, "__ge__": lambda self, one: True,
                                            "__lt__": lambda self, one: True, "bit_length": lambda self: 1,
                                            "__gt__": lambda self, one: False, "__str__": lambda self: "1"})):
            yield (f"{number.bit_length()} bits, sign {number < 0}{name}",
                   lambda number=number, methods=methods: number if methods is None
                   else made(int, number, methods), REFUSED)
    for name, make, meaning in refused(int, value, int):
        if "magic" not in name:  # which has an __index__
            yield name, make, meaning
    yield "True", lambda: True, REFUSED
    yield "False", lambda: False, REFUSED
    yield "a decimal", lambda: __import__("decimal").Decimal(value), REFUSED
    yield "a fraction", lambda: __import__("fractions").Fraction(value), REFUSED


def flag_with(value, shown):
    """A member of an enum whose value is another number than the one that it keeps."""
    found = int.__new__(FileMask, value)
    object.__setattr__(found, "_value_", shown)
    return found


def lies_of_flags(value):
    for name, make, meaning in refused(bool, value, bool, NONE):
        yield name, make, meaning
    yield "none", lambda: None, REFUSED
    yield "a subclass of int", lambda: made(int, int(value),
                                            {"__eq__": lambda self, one: True, "__bool__": lambda self: value}), REFUSED


def lies_of_guids(value):
    data = value.bytes_le
    for name, methods in methods_of_a_liar(data):
        more = {**methods, "bytes_le": property(lambda self: OTHER_GUID.bytes_le),
                "bytes": property(lambda self: bytes(16)),
                "int": property(lambda self: 9), "fields": property(fails)}
        if "__getattribute__" not in name and name != "__eq__ fails":
            yield f"a UUID whose {name}", (lambda methods=methods: liar_of_uuid(value, methods)), value
        yield f"a UUID whose {name} and number", (lambda more=more: liar_of_uuid(value, more)), value
    yield from ((f"{name} as GUID", make, value)
                for name, make, meaning in subclasses(bytes, data, some_methods_of_a_liar))
    yield from ((f"{name} as GUID", make, value)
                for name, make, meaning in subclasses(str, str(value), some_methods_of_a_liar))
    yield "a memoryview", lambda: memoryview(data), value
    yield "a bytearray", lambda: bytearray(data), value
    yield "a UUID that was not made", lambda: uuid.UUID.__new__(uuid.UUID), REFUSED
    for number in (-1, 2**128, HUGE, "9", None, 1.0, True):
        yield f"a UUID of {str(number)[:4] if number is not HUGE else 'HUGE'}", lambda number=number: uuid_with(
            number), REFUSED
    yield "a UUID of a lying number", lambda: uuid_with(made(int, value.int, {"__index__": lambda self: 9})), value
    for data in (b"", bytes(15), bytes(17), bytes(32), made(bytes, b"", {"__len__": lambda self: 16})):
        yield f"{bytes.__getitem__(data, slice(None)).hex()} as GUID", lambda data=data: data, REFUSED
    for text in ("", f"{{{value}}}", value.hex, f"urn:uuid:{value}", f"{value}\n", f" {value}",
                 "\uff10" + str(value)[1:]):
        yield f"{text!a} as GUID", lambda text=text: text, REFUSED
    for name, make, meaning in refused(uuid.UUID, value, str, bytes, bytearray, NONE):
        yield name, make, meaning


def liar_of_uuid(value, methods):
    found = object.__new__(type("Liar", (uuid.UUID,), dict(methods)))
    uuid.UUID.__dict__["int"].__set__(found, value.int)
    return found


def uuid_with(number):
    found = uuid.UUID.__new__(uuid.UUID)
    uuid.UUID.__dict__["int"].__set__(found, number)
    return found


class Once:
    """An iterable that has something else the second time."""

    def __init__(self, *values):
        self.values = list(values)

    def __iter__(self):
        return iter(self.values.pop(0) if self.values else [])


def lies_of_lists(value):
    """Of an iterable: it is read once, and what its length and truth say counts for nothing."""
    for name in ("__len__", "__length_hint__", "__bool__", "__contains__", "__getitem__", "__eq__", "__hash__"):
        for kind, method in (("lies", lambda self, *given: 0), ("fails", fails)):
            yield (f"a list whose {name} {kind}",
                   (lambda name=name, method=method: type("Liar", (list,),
                                                          {name: method, "__iter__": list.__iter__})(value)), value)
            yield f"an iterable whose {name} {kind}", \
                (lambda name=name, method=method: type("Liar", (Once,), {name: method})(value)), value
    yield "a tuple", lambda: tuple(value), value
    yield "a generator", lambda: (one for one in value), value
    yield "an iterator", lambda: iter(value), value
    yield "a chain", lambda: itertools.chain(value), value
    yield "something else the second time", lambda: Once(value, [], []), value
    yield "a dictionary", lambda: dict.fromkeys(value) if hashable(value) else value, value
    yield "an old sequence", lambda: type("Sequence", (), {"__getitem__": lambda self, at: value[at]})(), value
    yield "an iterator that fails", lambda: failing(value), REFUSED
    yield "an iterable that fails", lambda: type("Liar", (), {"__iter__": fails})(), REFUSED
    yield "an iterable of no iterator", lambda: type("Liar", (), {"__iter__": lambda self: 5})(), REFUSED
    yield "without an end", lambda: itertools.repeat(value[0]), REFUSED
    yield "an iterator without an end", lambda: itertools.cycle(value), REFUSED
    for name, make, meaning in refused(list, value, list, tuple, dict, set):
        if "magic" not in name:  # which has an __iter__
            yield name, make, meaning
    for item in (None, 1, object(), [], (), {}, unittest.mock.MagicMock()):
        yield f"a list with {type(item).__name__}", lambda item=item: [*value, item], REFUSED


def hashable(value):
    try:
        return len(set(value)) == len(value)
    except TypeError:
        return False


def failing(value):
    yield from value[:1]
    raise Own("an iterator of the caller")


def lies_of_objects(kind, make, meaning):
    """Of an object of the module: subclasses that lie mean what they are made of, and what was not made means
    nothing."""
    plain = make()
    arguments = arguments_of(plain)
    for name, methods in methods_of_a_liar(b""):
        if name == "__init__" or name == "all of them":
            methods = {key: method for key, method in methods.items() if key != "__init__"}
        yield f"a {kind.__name__} whose {name}", \
            (lambda methods=methods: type("Liar", (kind,), methods)(*arguments[0], **arguments[1])), meaning
    attributes = [name for name in dir(kind) if not name.startswith("__")]
    yield (f"a {kind.__name__} with other attributes",
           (lambda: type("Liar", (kind,), {name: property(fails) for name in attributes})(*arguments[0],
                                                                                          **arguments[1])), meaning)
    yield f"a {kind.__name__} that was not made", lambda: kind.__new__(kind), REFUSED
    yield f"a {kind.__name__} by object.__new__", lambda: object.__new__(kind), REFUSED
    yield f"a {kind.__name__} without super().__init__", lambda: type("Sub", (kind,),
                                                                      {"__init__": lambda self: None})(), REFUSED
    yield f"a {kind.__name__} whose __init__ failed", lambda: failed(kind), REFUSED
    yield f"a {kind.__name__} whose __init__ failed late", lambda: failed_late(kind, arguments), meaning
    yield f"a {kind.__name__} that was copied before it was made", lambda: copy.copy(kind.__new__(kind)), REFUSED
    yield f"a {kind.__name__} that was pickled before it was made", lambda: pickle.loads(
        pickle.dumps(kind.__new__(kind), 2)), REFUSED
    yield f"a {kind.__name__} by copyreg", lambda: copyreg.__newobj__(kind), REFUSED
    yield f"a {kind.__name__} by copyreg, with a state", lambda: with_state(copyreg.__newobj__(kind),
                                                                            {"_state": 0, "_data": b""}), REFUSED
    yield f"a {kind.__name__} with slots that were set", lambda: with_slots(kind.__new__(kind)), REFUSED
    if kind.__flags__ & 1 << 9 and hasattr(kind, "__weakref__"):
        yield f"a proxy of a {kind.__name__}", lambda: weakref.proxy(plain), REFUSED
    if kind is not Acl:  # a mock that is iterated is an empty list
        for name, make_other in claiming(kind, None):
            yield name, make_other, REFUSED
        yield f"a magic mock of a {kind.__name__}", lambda: unittest.mock.MagicMock(spec=plain), REFUSED
    yield f"a {kind.__name__} that was copied", lambda: copy.copy(make()), meaning
    yield f"a {kind.__name__} that was deeply copied", lambda: copy.deepcopy(make()), meaning
    for protocol in range(pickle.HIGHEST_PROTOCOL + 1):
        yield f"a {kind.__name__} that was pickled by {protocol}", lambda protocol=protocol: pickle.loads(
            pickle.dumps(make(), protocol)), meaning
    yield f"a {kind.__name__} that is made again", lambda: made_again(make(), arguments), meaning


def arguments_of(plain):
    """The arguments that make an object of the module."""
    if type(plain) is Acl:
        return ([*plain],), {}
    if type(plain) is Token:
        return (list(plain.sids),), {"deny_only": plain.deny_only, "level": plain.level, "privileges": plain.privileges}
    return (), {"owner": plain.owner, "group": plain.group, "dacl": plain.dacl, "sacl": plain.sacl,
                "control": plain.control,
                "resource_manager": plain.resource_manager}


def failed(kind):
    """An object that its __init__ has left because of an error."""
    found = kind.__new__(kind)
    try:
        if kind is SecurityDescriptor:
            kind.__init__(found, dacl=failing([Ace(0, 0, READ, "BU")]))
        else:
            kind.__init__(found, failing([Ace(0, 0, READ, "BU")] if kind is Acl else [BU]))
    except Own:
        pass
    return found


def failed_late(kind, arguments):
    """An object that an __init__ of its subclass has left because of an error, after that of its class had ended."""

    def init(self, *given, **named):
        keep.append(self)
        kind.__init__(self, *given, **named)
        raise Own("late")

    keep = []
    try:
        type("Sub", (kind,), {"__init__": init})(*arguments[0], **arguments[1])
    except Own:
        pass
    return keep[0]


def with_state(found, state):
    for name, value in state.items():
        try:
            object.__setattr__(found, name, value)
        except AttributeError:
            pass
    return found


def with_slots(found):
    """An object whose attributes of all names that the classes have are set from outside."""
    names = {name for kind in type(found).__mro__ for name in [*kind.__dict__.get("__slots__", ()), *kind.__dict__]}
    for name in sorted(names | {"_state", "_data", "_found", "_aces", "_question", "_read", "_questions",
                                "_holder", "_acl"}):
        for value in (0, b"", layout("")):
            for kind in (object, type(found)):
                try:
                    if not name.startswith("__"):
                        kind.__setattr__(found, name, value)
                except (AttributeError, TypeError):
                    pass
    return found


def made_again(found, arguments):
    """An object whose __init__ is called a second time, which is refused and changes nothing."""
    for again in (arguments, ((), {}), (([],), {})):
        try:
            found.__init__(*again[0], **again[1])
        except (sdtool.Error, TypeError):
            continue
        raise SystemExit("made again")
    return found


def lies_of_acls(value):
    """Of an ACL, where a list of ACEs is taken too."""
    yield from lies_of_objects(Acl, lambda: Acl(value), value)
    yield from lies_of_aces(value)
    yield "a null ACL", lambda: Acl.NULL, Acl.NULL
    yield "an absent ACL", lambda: Acl.ABSENT, Acl.ABSENT
    yield "a proxy of a null ACL", lambda: unittest.mock.MagicMock(spec=Acl.NULL, __iter__=fails), REFUSED
    yield "a mock of an ACL", lambda: unittest.mock.Mock(spec=Acl), REFUSED
    yield "a mock that says it is null", lambda: unittest.mock.Mock(spec=Acl, is_null=True, is_list=False,
                                                                    _state=1), REFUSED
    yield "a mock that says it is absent", lambda: unittest.mock.Mock(spec=Acl, is_absent=True, _state=0), REFUSED
    yield "a magic mock of an ACL", lambda: unittest.mock.MagicMock(spec=Acl), []
    yield "an object with the class of an ACL", lambda: type("Claim", (), {"__class__": Acl, "_state": 1,
                                                                           "is_null": True})(), REFUSED
    yield "a subclass that says it is null", lambda: type("Liar", (Acl,),
                                                          {"_state": 1, "is_null": True, "is_list": False,
                                                           "__iter__": lambda self: iter(())})(value), value
    yield "an ACL that is used while it is made", lambda: from_within(value), REFUSED
    yield "an ACL that is made from within", lambda: twice_from_within(value), value
    for state in (0, 1, 3, -1, None, True, "1", HUGE):
        yield f"an ACL unpickled of {str(state)[:4] if state is not HUGE else 'HUGE'}", \
            lambda state=state: Acl.ABSENT.__reduce__()[0](state, tuple(value)), REFUSED
    yield "an ACL unpickled of 7 without ACEs", lambda: Acl.ABSENT.__reduce__()[0](7, ()), REFUSED
    yield "an ACL unpickled", lambda: Acl.ABSENT.__reduce__()[0](2, tuple(value)), value


def from_within(value):
    """What an ACL is while its __init__ reads an iterable: no ACL."""
    def reading():
        yield from value
        seen.append(attempt(lambda: SecurityDescriptor(dacl=acl).dacl.is_absent))

    acl, seen = Acl.__new__(Acl), []
    acl.__init__(reading())
    if seen[0][0] != "refused":
        raise SystemExit(f"an ACL is used while it is made: {seen}")
    raise Own("it was refused")


def twice_from_within(value):
    """An ACL that its own iterable makes: the first one to end wins, and the other one is refused."""
    def reading():
        acl.__init__(value)
        yield Ace(0, 0, ALL, "WD")

    acl = Acl.__new__(Acl)
    try:
        acl.__init__(reading())
    except sdtool.Unchangeable:
        return acl
    raise SystemExit("an ACL is made twice")


def lies_of_aces(value):
    """Of a list of ACEs: lists that lie, and ACEs that Ace() has not made."""
    yield from ((name, make, meaning) for name, make, meaning in lies_of_lists(value)
                if name != "an iterator without an end")
    fields = tuple(value[0])
    for name, methods in methods_of_a_liar(b""):
        if "__init__" not in name and "__getattribute__" not in name:
            yield f"an Ace whose {name}", (lambda methods=methods: [liar_of_ace(methods, fields)]), value[:1]
    yield "an Ace whose fields lie", lambda: [liar_of_ace({name: property(lambda self: 0) for name in Ace._fields},
                                                          fields)], value[:1]
    for at, values in ((0, [-1, 3, 256, HUGE, None, "A", 1.0, True, b"", object()]),
                       (1, [-1, 256, 0x20, HUGE, None, "OI", True]),
                       (2, [-1, 2**32, 2**64 + 1, HUGE, None, "FR", 1.0, True, object()]),
                       (3, [b"", BU[:-1], BU + BU, None, 1, object(), bytes.__new__(Sid, b"x")]),
                       (4, [b"", bytes(15), 1, "x", uuid_with(-1)]),
                       (5, [b"", bytes(15), 1, "x", uuid_with(HUGE)])):
        for index, wrong in enumerate(values):
            yield f"an Ace whose field {at} is wrong, {index}", \
                (lambda at=at, wrong=wrong: [tuple.__new__(Ace, (*fields[:at], wrong, *fields[at + 1:]))]), REFUSED
    for size in (0, 1, 4, 5, 7):
        yield f"an Ace of {size} fields", lambda size=size: [tuple.__new__(Ace, (*fields, *fields)[:size])], REFUSED
    yield "an Ace of plain fields", lambda: [tuple.__new__(Ace, (int(fields[0]), int(fields[1]), fields[2],
                                                                 bytes(fields[3]), *fields[4:]))], value[:1]
    yield "an Ace of lying fields", lambda: [tuple.__new__(Ace, (
        made(int, int(fields[0]), {"__index__": lambda self: 0, "__int__": lambda self: 0,
                                   "__eq__": lambda self, one: True}),
        made(int, int(fields[1]), {"__index__": lambda self: 8}), made(int, fields[2], {"__index__": lambda self: ALL}),
        made(bytes, bytes(fields[3]), {"__len__": lambda self: 0, "__bytes__": lambda self: WD}),
        *fields[4:]))], value[:1]
    yield "a kind with a GUID that it has not", lambda: [tuple.__new__(Ace, (AceKind.A, AceFlags(0), 1, Sid(BU), GUID,
                                                                             None))], REFUSED
    yield "a tuple of the fields", lambda: [fields], REFUSED
    yield "a list of a mock of an Ace", lambda: [unittest.mock.MagicMock(spec=value[0])], REFUSED
    yield "an Ace", lambda: value[0], REFUSED
    yield "an Ace by copyreg", lambda: [copyreg._reconstructor(Ace, tuple, (0, 0, -1, b"", None, None))], REFUSED
    yield "a subclass by its mro", lambda: [tuple.__new__(by_mro(), fields)], value[:1]


def liar_of_ace(methods, fields):
    return tuple.__new__(type("Liar", (Ace,), dict(methods, __slots__=())), fields)


def by_mro():
    """A class of tuples that only its metaclass puts below Ace."""
    class Meta(type):
        def mro(cls):
            return [cls, *Ace.__mro__]

    return Meta("Liar", (tuple,), {"__slots__": ()})


def lies_of_tokens(value):
    yield from lies_of_objects(Token, lambda: value, value)
    for name, method in (("level", property(lambda self: None)), ("sids", property(lambda self: (Sid(WD),))),
                         ("privileges", property(lambda self: frozenset(["security", "take-ownership"]))),
                         ("deny_only", property(lambda self: ())), ("_read", property(lambda self: Token([WD])))):
        yield f"a Token with another {name}", (lambda name=name, method=method: type("Liar", (Token,), {name: method})(
            value.sids, deny_only=value.deny_only, level=value.level, privileges=value.privileges)), value
    yield "none", lambda: None, REFUSED
    yield "a list of SIDs", lambda: [BU], REFUSED
    yield "a Token unpickled of another level", lambda: value.__reduce__()[0](value.sids, value.deny_only, -1,
                                                                              value.privileges), REFUSED
    yield "a Token unpickled of half a SID", lambda: value.__reduce__()[0]([BU[:8]], value.deny_only, value.level,
                                                                           ()), REFUSED


def lies_of_words(value):
    yield from ((name, make, meaning) for name, make, meaning in lies_of_texts(value) if "surrogate" not in name)
    yield "another word", lambda: value + "x", REFUSED
    yield "a word that is equal", lambda: made(str, "none of them", {"__eq__": lambda self, one: True,
                                                                     "__hash__": lambda self: hash(value)}), REFUSED


def optional(lies, *empty):
    """The same, where None means that there is none."""
    def found(value):
        for name, make, meaning in lies(value):
            if name != "NoneType None" and name != "none":
                yield name, make, meaning
        for one in (0, False, (), [], {}, *empty):
            yield f"{one!r} in place of none", lambda one=one: one, REFUSED
    return found


sid_or_none = optional(lies_of_sids, b"", bytearray(), "")
guid_or_none = optional(lies_of_guids, b"", bytearray(), "")
layout_or_none = optional(lies_of_layouts, b"", bytearray(), "")


def number_or_none(value):
    return ((name, make, meaning) for name, make, meaning in lies_of_numbers(value) if name != "NoneType None")


def list_of(lies, more=()):
    """Of a list: lists that lie, and lists of items that lie."""
    def found(value):
        yield from lies_of_lists(value)
        for name, make, meaning in lies(value[0]):
            whole = (lambda make=make: [make(), *value[1:]])
            yield (f"a list with {name}", whole,
                   meaning if meaning is REFUSED or meaning is None else [meaning, *value[1:]])
    return found


# ---- calls ----

GRANTING = layout("O:BAG:SYD:(A;;FA;;;WD)(A;;FA;;;AU)(A;;FA;;;BU)")
PARENT = layout("O:BAG:SYD:(A;OICI;FR;;;BU)(A;OICIIO;GA;;;CO)")
CREATOR = layout("D:(D;;FW;;;AU)")
DENY_USERS = layout("O:BAD:(D;;FR;;;BU)(A;;FA;;;AU)")
OF_OBJECT = layout(f"D:(OD;;CR;{GUID};;AU)(OA;;CR;;;AU)")
OF_SELF = layout("D:(D;;FR;;;PS)(A;;FA;;;AU)")
OF_HIGH = layout("D:(A;;FA;;;AU)S:(ML;;NW;;;HI)")
ACES = [Ace(AceKind.D, 0, READ, "BU"), Ace(AceKind.A, AceFlags.OI, ALL, "AU")]
OBJECT_ACE = dict(kind=5, flags=3, mask=0x100, sid=AU, object_type=GUID, inherited_object_type=OTHER_GUID)
ASKED = Token([AU], deny_only=[BU], level=4096)


def of_descriptor(one):
    """All that a descriptor is."""
    return [one.bytes.hex(), one.sddl(), bool(one.check(Token([AU, BU]), READ)),
            bool(one.check(Token([AU, BU]), WRITE))]


def of_token(token):
    many = list(Checker(token, READ).many([DENY_USERS, OF_HIGH, GRANTING]))
    return [repr(token), *map(tuple, many), tuple(SecurityDescriptor.from_bytes(OF_HIGH).check(token, 2))]


def of_reasons(reasons):
    return [(one.kind, one.place, one.ace and one.ace.sddl()) for one in reasons]


def of_origins(origins):
    return [[(one.from_creator, one.place, one.inherit_only, one.ace.sddl()) for one in some] for some in origins]


def calls():
    """Each call with plain values of its arguments, and the lies of those that are tried."""
    yield ("to_sddl", sdtool.to_sddl,
           dict(descriptor=layout("O:DAG:BAD:(A;;FR;;;BU)") if False else DENY_USERS, domain=DOMAIN, numeric=False),
           dict(descriptor=lies_of_layouts, domain=sid_or_none, numeric=lies_of_flags))
    yield "explain", sdtool.explain, dict(descriptor=DENY_USERS, domain=DOMAIN, numeric=True), \
        dict(descriptor=lies_of_layouts, domain=sid_or_none, numeric=lies_of_flags)
    yield "normalize", sdtool.normalize, dict(descriptor=DENY_USERS), dict(descriptor=lies_of_layouts)
    yield "from_sddl", sdtool.from_sddl, dict(text="O:DAD:(D;;FR;;;BU)", domain=DOMAIN), dict(text=lies_of_texts,
                                                                                              domain=sid_or_none)
    yield ("check of deny-only", sdtool.check, dict(descriptor=DENY_USERS, sids=[AU], deny_only=[BU], wanted=READ),
           dict(descriptor=lies_of_layouts, sids=list_of(lies_of_sids), deny_only=list_of(lies_of_sids),
                wanted=lies_of_numbers))
    yield ("check of an object", sdtool.check,
           dict(descriptor=OF_OBJECT, sids=[AU], wanted=0x100, mapping="ds", object_type=GUID),
           dict(object_type=guid_or_none, mapping=lies_of_words))
    yield "check of self", sdtool.check, dict(descriptor=OF_SELF, sids=[AU], wanted=READ,
                                              principal_self=AU), dict(principal_self=sid_or_none)
    yield "check of a level", sdtool.check, dict(descriptor=OF_HIGH, sids=[AU], wanted=2,
                                                 level=4096), dict(level=number_or_none)
    yield ("check of privileges", sdtool.check,
           dict(descriptor=layout("D:"), sids=[AU], wanted=0x1080000, maximum=False, security=False,
                take_ownership=False),
           dict(maximum=lies_of_flags, security=lies_of_flags, take_ownership=lies_of_flags))
    yield ("derive", sdtool.derive,
           dict(parent=PARENT, owner=BA, group=SY, kind="container", creator=CREATOR, mapping="file"),
           dict(parent=lies_of_layouts, owner=lies_of_sids, group=lies_of_sids, kind=lies_of_words,
                creator=layout_or_none, mapping=lies_of_words))
    yield "run", sdtool.run, dict(words=["convert", "--from", "sddl"], input=b"D:P\nD:(A;;FR;;;BU)\n"), \
        dict(words=list_of(lies_of_words_of_run), input=lies_of_bytes)
    yield ("lines", lambda **named: list(sdtool.lines(**named)),
           dict(source=["D:P", "O:BA"], words=["convert", "--from", "sddl"], ahead=1),
           dict(source=stream_of(lies_of_lines), words=list_of(lies_of_words_of_run), ahead=lies_of_small_numbers))
    yield "fault_text", sdtool.fault_text, dict(number=25), dict(number=lies_of_small_numbers)
    ace = sdtool.ace_from_text("(A;;FR;;;S-1-5-21-1-2-3-512)")
    yield "ace_from_text", sdtool.ace_from_text, dict(text="(D;;FR;;;DA)", domain=DOMAIN), dict(text=lies_of_texts,
                                                                                                domain=sid_or_none)
    yield "ace_to_text", sdtool.ace_to_text, dict(ace=ace, domain=DOMAIN, numeric=False), dict(
        ace=lies_of_bytes, domain=sid_or_none, numeric=lies_of_flags)
    yield "Ace.from_bytes", lambda data: repr(Ace.from_bytes(data)), dict(data=ace), dict(data=lies_of_bytes)
    yield "Ace.bytes", lambda aces: [one.bytes for one in aces], dict(aces=ACES), dict(aces=lies_of_own_aces)
    yield "rights_from_text", sdtool.rights_from_text, dict(text="FR"), dict(text=lies_of_texts)
    yield "rights_to_text", sdtool.rights_to_text, dict(mask=1, label=True), dict(mask=lies_of_numbers,
                                                                                  label=lies_of_flags)
    yield "flags_from_text", sdtool.flags_from_text, dict(text="OICI"), dict(text=lies_of_texts)
    yield "flags_to_text", sdtool.flags_to_text, dict(flags=3), dict(flags=lies_of_small_numbers)
    yield "guid_from_text", sdtool.guid_from_text, dict(text="bf967aba-0de6-11d0-a285-00aa003049e2"), dict(
        text=lies_of_texts)
    yield "guid_to_text", sdtool.guid_to_text, dict(guid=bytes(range(16))), dict(guid=lies_of_bytes)
    yield "Sid", Sid, dict(value="S-1-5-32-545", domain=DOMAIN), dict(value=lies_of_texts_of_sids, domain=sid_or_none)
    yield "Sid of bytes", Sid, dict(value=BU), dict(value=lies_of_sids)
    yield "Sid.alias", lambda value, domain: bytes.__new__(Sid, value).alias(domain=domain), dict(
        value=DOMAIN[:1] + b"\5" + DOMAIN[2:] + bytes([0, 2, 0, 0]),
        domain=DOMAIN), dict(
                                                                                                domain=sid_or_none)
    yield "Ace", Ace, OBJECT_ACE, dict(kind=lies_of_small_numbers, flags=lies_of_small_numbers, mask=lies_of_numbers,
                                       sid=lies_of_sids, object_type=guid_or_none, inherited_object_type=guid_or_none)
    yield "Ace._make", lambda fields: Ace._make(fields), dict(fields=list(Ace(**OBJECT_ACE))), dict(
        fields=lies_of_fields)
    yield ("Ace.replace", lambda **named: Ace(**OBJECT_ACE).replace(**named), OBJECT_ACE,
           dict(kind=lies_of_small_numbers, flags=lies_of_small_numbers, mask=lies_of_numbers, sid=lies_of_sids,
                object_type=guid_or_none))
    yield "Ace.from_sddl", Ace.from_sddl, dict(text="(D;;FR;;;BU)", domain=DOMAIN), dict(text=lies_of_texts,
                                                                                         domain=sid_or_none)
    yield "Ace.sddl", lambda aces: [one.sddl() for one in aces], dict(aces=ACES), dict(aces=lies_of_own_aces)
    yield "Acl", lambda aces: repr(Acl(aces)), dict(aces=ACES), dict(aces=lies_of_aces)
    yield ("SecurityDescriptor", lambda **named: of_descriptor(SecurityDescriptor(**named)),
           dict(owner=BA, group=SY, dacl=ACES, sacl=[Ace(AceKind.ML, 0, 1, "HI")], control=0x1000, resource_manager=7),
           dict(owner=sid_or_none, group=sid_or_none, dacl=lies_of_acls, sacl=lies_of_acls_of_labels,
                control=lies_of_numbers, resource_manager=lies_of_small_numbers))
    yield ("SecurityDescriptor.from_bytes", lambda data: of_descriptor(SecurityDescriptor.from_bytes(data)),
           dict(data=DENY_USERS), dict(data=lies_of_layouts))
    yield "SecurityDescriptor.from_sddl", lambda **named: of_descriptor(SecurityDescriptor.from_sddl(**named)), \
        dict(text="O:DAD:(D;;FR;;;BU)", domain=DOMAIN), dict(text=lies_of_texts, domain=sid_or_none)
    whole = SecurityDescriptor.from_bytes(DENY_USERS)
    yield ("SecurityDescriptor.replace", lambda **named: of_descriptor(whole.replace(**named)),
           dict(owner=BA, group=SY, dacl=ACES, control=0, resource_manager=1),
           dict(owner=sid_or_none, group=sid_or_none, dacl=lies_of_acls, control=lies_of_numbers,
                resource_manager=lies_of_small_numbers))
    for name in ("sddl", "explain"):
        yield f"SecurityDescriptor.{name}", getattr(whole, name), dict(domain=DOMAIN, numeric=False), dict(
            domain=sid_or_none, numeric=lies_of_flags)
    yield ("SecurityDescriptor.check",
           lambda descriptor, **named: SecurityDescriptor.from_bytes(descriptor).check(**named),
           dict(descriptor=DENY_USERS, token=ASKED, wanted=READ, maximum=False, mapping="file"),
           dict(token=lies_of_tokens, wanted=lies_of_numbers, maximum=lies_of_flags, mapping=lies_of_words))
    yield "SecurityDescriptor.check of an object", SecurityDescriptor.from_bytes(OF_OBJECT).check, \
        dict(token=Token([AU]), wanted=0x100, mapping="ds", object_type=GUID), dict(object_type=guid_or_none)
    yield "SecurityDescriptor.check of self", SecurityDescriptor.from_bytes(OF_SELF).check, \
        dict(token=Token([AU]), wanted=READ, principal_self=AU), dict(principal_self=sid_or_none)
    yield ("SecurityDescriptor.reasons",
           lambda descriptor, **named: of_reasons(SecurityDescriptor.from_bytes(descriptor).reasons(**named)),
           dict(descriptor=OF_OBJECT, token=ASKED, mapping="ds", object_type=GUID),
           dict(token=lies_of_tokens, mapping=lies_of_words, object_type=guid_or_none))
    yield ("SecurityDescriptor.reasons of self",
           lambda **named: of_reasons(SecurityDescriptor.from_bytes(OF_SELF).reasons(**named)),
           dict(token=Token([AU]), principal_self=AU), dict(principal_self=sid_or_none))
    yield ("SecurityDescriptor.derive",
           lambda **named: of_descriptor(SecurityDescriptor.from_bytes(PARENT).derive(**named)),
           dict(owner=BA, group=SY, kind="container", creator=CREATOR, mapping="file"),
           dict(owner=lies_of_sids, group=lies_of_sids, kind=lies_of_words, creator=layout_or_none))
    yield ("SecurityDescriptor.origins",
           lambda **named: of_origins(SecurityDescriptor.from_bytes(PARENT).origins(**named)),
           dict(owner=BA, group=SY, kind="container", creator=CREATOR, mapping="file"),
           dict(owner=lies_of_sids, group=lies_of_sids, kind=lies_of_words, creator=layout_or_none,
                mapping=lies_of_words))
    yield ("Token", lambda **named: of_token(Token(**named)),
           dict(sids=[AU], deny_only=[BU], level=4096, privileges=["security"], domain=DOMAIN),
           dict(sids=list_of(lies_of_sids), deny_only=list_of(lies_of_sids), level=number_or_none,
                privileges=list_of(lies_of_words), domain=sid_or_none))
    yield ("Checker", lambda descriptor, **named: Checker(**named)(descriptor),
           dict(descriptor=DENY_USERS, token=ASKED, wanted=READ, maximum=False, mapping="file"),
           dict(descriptor=lies_of_layouts, token=lies_of_tokens, wanted=lies_of_numbers, maximum=lies_of_flags,
                mapping=lies_of_words))
    yield "Checker of an object", lambda **named: Checker(**named)(OF_OBJECT), \
        dict(token=Token([AU]), wanted=0x100, mapping="ds", object_type=GUID), dict(object_type=guid_or_none)
    yield "Checker of self", lambda **named: Checker(**named)(OF_SELF), \
        dict(token=Token([AU]), wanted=READ, principal_self=AU), dict(principal_self=sid_or_none)
    yield "Checker.reasons", lambda descriptor: of_reasons(Checker(ASKED, READ).reasons(descriptor)), \
        dict(descriptor=DENY_USERS), dict(descriptor=lies_of_layouts)
    yield ("Checker.many", lambda descriptors, ahead: list(Checker(ASKED, READ).many(descriptors, ahead=ahead)),
           dict(descriptors=[DENY_USERS, GRANTING], ahead=2),
           dict(descriptors=stream_of(lies_of_layouts), ahead=lies_of_small_numbers))
    yield "plain_descriptors", lambda **named: list(sdtool.plain_descriptors(**named)), \
        dict(descriptors=[DENY_USERS, OF_OBJECT], domain=DOMAIN, ahead=2), \
        dict(descriptors=stream_of(lies_of_layouts_and_no_texts), domain=sid_or_none, ahead=lies_of_small_numbers)
    yield "plain_descriptors of texts", lambda **named: list(sdtool.plain_descriptors(**named)), \
        dict(descriptors=["O:DAD:(D;;FR;;;BU)", "O:DU"], domain=DOMAIN), \
        dict(descriptors=stream_of(lies_of_texts_and_no_bytes), domain=sid_or_none)


def lies_of_layouts_and_no_texts(value):
    """Of bytes, where a str is a text."""
    return ((name, make, meaning) for name, make, meaning in lies_of_layouts(value) if not name.startswith("str "))


def lies_of_texts_and_no_bytes(value):
    """Of a text, where bytes are a descriptor."""
    of_bytes = ("bytes", "bytearray")
    return ((name, make, meaning) for name, make, meaning in lies_of_texts(value) if not name.startswith(of_bytes))


def lies_of_words_of_run(value):
    yield from ((name, make, meaning) for name, make, meaning in lies_of_texts(value) if "surrogate" not in name)


def lies_of_lines(value):
    yield from subclasses(str, value)
    yield from ((name, make, value) for name, make, meaning in subclasses(bytes, value.encode()))
    yield from ((name, make, value) for name, make, meaning in subclasses(bytearray, value.encode(),
                                                                          some_methods_of_a_liar))
    for name, make, meaning in refused(str, value, str, bytes, bytearray):
        yield name, make, meaning


def lies_of_small_numbers(value):
    """Of a number that has few bits: those that only the first 32 of a number have are others."""
    for name, make, meaning in lies_of_numbers(value):
        yield name, make, meaning


def lies_of_texts_of_sids(value):
    yield from ((name, make, meaning) for name, make, meaning in lies_of_texts(value)
                if not any(kind in name for kind in ("bytes", "bytearray")))


def lies_of_own_aces(value):
    yield from ((name, make, meaning) for name, make, meaning in lies_of_aces(value) if name.startswith("an Ace ")
                and "copyreg" not in name)


def lies_of_acls_of_labels(value):
    return lies_of_acls(value)


def lies_of_fields(value):
    yield from ((name, make, meaning) for name, make, meaning in lies_of_lists(value) if "magic" not in name
                and "dictionary" not in name)


def stream_of(lies):
    """Of an iterable whose items have answers while more are taken, so that it may have no end, and a Fault is an
    answer."""
    def found(value):
        yield from ((name, make, meaning) for name, make, meaning in list_of(lies)(value)
                    if not any(word in name for word in ("without an end", "no bytes", "false and empty")))
    return found


# ---- rows ----

def shown(value):
    """What an answer says, as JSON has it."""
    if type(value) in (list, tuple, Acl):
        return [shown(one) for one in value]
    if isinstance(value, (Sid, bytes)):
        return bytes.hex(value)
    if isinstance(value, SecurityDescriptor):
        return value.bytes.hex()
    if isinstance(value, Ace):
        return [int(value.kind), int(value.flags), value.mask, bytes.hex(value.sid), str(value.object_type),
                str(value.inherited_object_type)]
    if isinstance(value, sdtool.Answers):
        return [value.status, value.output.decode("latin-1"), value.message]
    if isinstance(value, tuple):
        return [type(value).__name__, *map(shown, value)]
    if isinstance(value, Exception):
        return str(value)
    return value if value is None or isinstance(value, (bool, int, str)) else repr(value)


def attempt(call):
    """The outcome of a call: an answer, or a refusal with its exception."""
    try:
        found = call()
    except Exception as problem:  # each is looked at
        return "refused", type(problem).__name__, isinstance(problem, (sdtool.Error, Own))
    return "answer", shown(found)


def judged(outcome, expected):
    """What is wrong with an outcome, or nothing."""
    if outcome[0] == "refused":
        return "" if outcome[2] else f"a refusal that is no sdtool.Error: {outcome[1]}"
    if expected is REFUSED:
        return f"it is not refused: {outcome[1]}"
    return "" if outcome == expected else f"{outcome[1]}, and of the plain value {expected[1:]}"


def rows_of_calls():
    for call_name, call, plain, lies in calls():
        answer = attempt(lambda call=call, plain=plain: call(**plain))
        for argument, lies_of_it in lies.items():
            for name, make, meaning in lies_of_it(plain[argument]):
                if meaning is None:
                    continue
                whole = f"{call_name}({argument}) {name}"

                def row(make=make, meaning=meaning, call=call, plain=plain, argument=argument, answer=answer):
                    try:
                        given = make()
                    except Exception as problem:  # such an object cannot be, or is refused when it is made
                        return ("refused", type(problem).__name__, True), ""
                    outcome = attempt(lambda: call(**{**plain, argument: given}))
                    expected = answer
                    if meaning is REFUSED or meaning != plain[argument]:
                        expected = (REFUSED if meaning is REFUSED
                                    else attempt(lambda: call(**{**plain, argument: meaning})))
                    return outcome, judged(outcome, expected)

                yield whole, row


def expects(outcome, expected):
    """A row that has an answer to give, such as 'granted' or 'refused'."""
    return outcome, "" if outcome == expected or outcome[:1] == expected else f"not {expected}"


def changed_later():
    """Arguments that a later one changes count as they were when they were taken."""
    def clear(data):
        data[:] = bytes(len(data))

    def sids_that(data, change):
        change(data)
        yield AU

    def change_of(call, plain):
        data = bytearray(plain)
        view = memoryview(data)
        for given in (data, view):
            data[:] = plain
            yield attempt(lambda given=given: call(given, lambda: clear(data)))

    def check(given, change):
        return sdtool.check(given, sids_that(None, lambda _: change()), deny_only=[BU], wanted=READ)

    def of_sids(given, change):
        return sdtool.check(DENY_USERS, [AU], deny_only=itertools.chain([given], sids_that(None, lambda _: change())),
                            wanted=READ)

    def of_object(given, change):
        return sdtool.check(OF_OBJECT, [AU], wanted=Changing(0x100, change), mapping="ds", object_type=given)

    def many(given, change):
        def source():
            yield given
            change()
        return list(Checker(ASKED, READ).many(source()))

    def plainly(given, change):
        def source():
            yield given
            change()
        return list(sdtool.plain_descriptors(source()))

    def build(given, change):
        return SecurityDescriptor(owner=given, dacl=changing_list(ACES, change))

    def lines(given, change):
        def source():
            yield given
            change()
            yield b"D:P"
        return list(sdtool.lines(source(), ["convert", "--from", "sddl"]))

    for name, call, plain in (("check", check, DENY_USERS), ("sids", of_sids, BU),
                              ("object_type", of_object, GUID.bytes_le),
                              ("many", many, DENY_USERS), ("plain", plainly, DENY_USERS), ("build", build, BA),
                              ("lines", lines, b"D:(A;;FR;;;BU)")):
        def row(call=call, plain=plain):
            expected = attempt(lambda: call(plain, lambda: None))
            found = list(change_of(call, plain))
            return found[0], "" if found == [expected, expected] else f"{found}, and of what does not change {expected}"
        yield f"changed by a later argument: {name}", row


class Changing(Index):
    """A number that changes something when it is asked for."""

    def __init__(self, value, change):
        super().__init__(value)
        self.change = change

    def __index__(self):
        self.change()
        return super().__index__()


def changing_list(values, change):
    change()
    yield from values


def same_buffer():
    """A source that has one bytearray for all: each answer is about what it held when it was taken."""
    def source():
        buffer = bytearray()
        for one in (GRANTING, DENY_USERS, b"", GRANTING):
            buffer[:] = one
            yield buffer

    def row_of(call):
        answers, expected = list(call(source())), list(call([GRANTING, DENY_USERS, b"", GRANTING]))
        return ("answer", shown(answers)), "" if shown(answers) == shown(expected) else f"{answers}, not {expected}"

    yield "one buffer for all", lambda: row_of(Checker(ASKED, READ).many)
    yield "one buffer for all plain descriptors", lambda: row_of(sdtool.plain_descriptors)


def lying_hashes():
    """No value of a caller is a key of what the module keeps for all."""
    def poison():
        for data, other in ((GUID.bytes_le, OTHER_GUID.bytes_le), (OTHER_GUID.bytes_le, GUID.bytes_le)):
            liar = made(bytes, data, {"__hash__": lambda self, other=other: hash(other),
                                      "__eq__": lambda self, one: True})
            attempt(lambda: Ace(5, 0, 0x100, AU, liar))
            attempt(lambda: sdtool.check(OF_OBJECT, [AU], wanted=0x100, mapping="ds", object_type=liar))
            attempt(lambda: Checker(Token([AU]), 0x100, mapping="ds", object_type=liar)(OF_OBJECT))
        return [str(Ace(5, 0, 0x100, AU, one).replace(mask=1).object_type) for one in (GUID, OTHER_GUID)]

    def changed_uuid():
        """A UUID of an answer, changed by force: the next answer has the right one."""
        found = SecurityDescriptor.from_bytes(OF_OBJECT).dacl[0].object_type
        uuid.UUID.__dict__["int"].__set__(found, 5)
        try:
            again = SecurityDescriptor.from_sddl(f"D:(OD;;CR;{GUID};;AU)").dacl[0].object_type
            return str(again)
        finally:
            uuid.UUID.__dict__["int"].__set__(found, GUID.int)

    def changed_sid():
        """A Sid of an answer whose class was changed by force."""
        found = SecurityDescriptor.from_bytes(DENY_USERS).dacl[0].sid
        other = type("Other", (bytes,), {"__slots__": (), "alias": lambda self: "WD"})
        try:
            object.__setattr__(found, "__class__", other)
        except TypeError:
            return "Sid"
        try:
            return type(SecurityDescriptor.from_sddl("O:BU").owner).__name__
        finally:
            object.__setattr__(found, "__class__", Sid)

    def questions():
        """The requests that a token keeps are looked up by values of the door."""
        token, whole = Token([AU]), SecurityDescriptor.from_bytes(OF_OBJECT)
        whole.check(token, 0x100, mapping="ds")
        liar = made(str, str(GUID), {"__hash__": lambda self: hash(None), "__eq__": lambda self, one: True})
        wanted = made(int, 0x100, {"__eq__": lambda self, one: True, "__hash__": lambda self: hash(0x100)})
        return [tuple(whole.check(token, wanted, mapping="ds", object_type=liar)),
                tuple(whole.check(token, wanted, mapping="ds"))]

    yield "the cache of GUIDs", lambda: expects(attempt(poison), ("answer", [str(GUID), str(OTHER_GUID)]))
    yield "a UUID that was changed", lambda: expects(attempt(changed_uuid), ("answer", str(GUID)))
    yield "a Sid that was changed", lambda: expects(attempt(changed_sid), ("answer", "Sid"))
    yield "the cache of questions", lambda: expects(attempt(questions), ("answer", [[False, 0x100], [True, 0x100]]))


def uses_of_nothing():
    """Each use of each object that was not made is refused."""
    blank = {kind: kind.__new__(kind) for kind in (Acl, SecurityDescriptor, Token, Checker)}
    acl, whole, token, checker = blank.values()
    good = SecurityDescriptor.from_bytes(GRANTING)
    uses = {
        "is_list": lambda: acl.is_list, "is_null": lambda: acl.is_null, "is_absent": lambda: acl.is_absent,
        "len": lambda: len(acl),
        "list": lambda: list(acl), "acl[0]": lambda: acl[0], "acl[:]": lambda: acl[:],
        "reversed": lambda: list(reversed(acl)),
        "in": lambda: ACES[0] in acl, "acl ==": lambda: acl == Acl.ABSENT, "== acl": lambda: Acl.ABSENT == acl,
        "hash": lambda: hash(acl),
        "repr": lambda: repr(acl), "reduce": lambda: acl.__reduce__(), "pickle": lambda: pickle.dumps(acl),
        "copy": lambda: copy.copy(acl),
        "deepcopy": lambda: copy.deepcopy(acl), "count": lambda: acl.count(1), "index": lambda: acl.index(1),
        "bool": lambda: bool(acl),
        "Acl(acl)": lambda: Acl(acl), "dacl": lambda: SecurityDescriptor(dacl=acl),
        "sacl": lambda: SecurityDescriptor(sacl=acl),
        "replace": lambda: good.replace(dacl=acl),
        "bytes": lambda: whole.bytes, "bytes()": lambda: bytes(whole), "owner": lambda: whole.owner,
        "whole.dacl": lambda: whole.dacl,
        "control": lambda: whole.control, "sddl": lambda: whole.sddl(), "explain": lambda: whole.explain(),
        "str": lambda: str(whole),
        "whole repr": lambda: repr(whole), "whole ==": lambda: whole == good, "== whole": lambda: good == whole,
        "whole hash": lambda: hash(whole),
        "whole pickle": lambda: pickle.dumps(whole), "whole copy": lambda: copy.copy(whole),
        "check": lambda: whole.check(Token([WD]), 1),
        "derive": lambda: whole.derive("BA", "BA"), "origins": lambda: whole.origins("BA", "BA"),
        "whole replace": lambda: whole.replace(owner="BA"),
        "normalize": lambda: sdtool.normalize(whole), "from_bytes": lambda: SecurityDescriptor.from_bytes(whole),
        "check of it": lambda: Checker(Token([WD]), 1)(whole),
        "many of it": lambda: list(Checker(Token([WD]), 1).many([good, whole])),
        "creator": lambda: good.derive("BA", "BA", creator=whole),
        "creator of origins": lambda: good.origins("BA", "BA", creator=whole),
        "plain values of it": lambda: list(sdtool.plain_descriptors([good, whole])),
        "sids": lambda: token.sids, "deny_only": lambda: token.deny_only, "level": lambda: token.level,
        "privileges": lambda: token.privileges,
        "token ==": lambda: token == Token([]), "== token": lambda: Token([]) == token,
        "token hash": lambda: hash(token),
        "token repr": lambda: repr(token), "token pickle": lambda: pickle.dumps(token),
        "token copy": lambda: copy.copy(token),
        "check with it": lambda: good.check(token, 1), "Checker of it": lambda: Checker(token, 1),
        "checker()": lambda: checker(good), "checker(named)": lambda: checker(descriptor=good),
        "many": lambda: list(checker.many([good])),
        "checker pickle": lambda: pickle.dumps(checker), "checker copy": lambda: copy.copy(checker),
    }
    for name, use in uses.items():
        yield f"what was not made: {name}", lambda use=use: (lambda outcome: (outcome,
                                                                              judged(outcome, REFUSED)))(attempt(use))


def uses_of_others():
    """A method that is called for an object of another type is refused, whatever that says of itself."""
    methods = {"is_null": Acl.is_null.fget, "is_absent": Acl.is_absent.fget, "acl hash": Acl.__hash__,
               "acl repr": Acl.__repr__,
               "acl reduce": Acl.__reduce__, "acl init": lambda one: Acl.__init__(one, []),
               "acl[0]": lambda one: Acl.__getitem__(one, 0),
               "bytes": SecurityDescriptor.bytes.fget, "owner": SecurityDescriptor.owner.fget,
               "dacl": SecurityDescriptor.dacl.fget,
               "replace": lambda one: SecurityDescriptor.replace(one, owner="BA"),
               "reduce": SecurityDescriptor.__reduce__,
               "derive": lambda one: SecurityDescriptor.derive(one, "BA", "BA"),
               "origins": lambda one: SecurityDescriptor.origins(one, "BA", "BA"), "init": SecurityDescriptor.__init__,
               "level": Token.level.fget, "token hash": Token.__hash__,
               "token init": lambda one: Token.__init__(one, []),
               "many": lambda one: list(Checker.many(one, [])),
               "checker init": lambda one: Checker.__init__(one, ASKED, 1),
               "ace sddl": Ace.sddl, "ace repr": Ace.__repr__, "sid text": Sid.__str__}
    for name, method in methods.items():
        for kind, make in (("an object", object), ("a mock", lambda: unittest.mock.MagicMock(spec=Acl)),
                           ("a number", lambda: 5),
                           ("a tuple", lambda: (0, ())),
                           ("a claim", lambda: type("Claim", (), {"__class__": SecurityDescriptor})())):
            yield f"for {kind}: {name}", lambda method=method, make=make: (lambda outcome: (outcome,
                                                                                            judged(outcome, REFUSED)))(
                attempt(lambda: method(make())))


def made_from_within():
    """An object that is made again while its __init__ reads an argument is made once, and whole."""
    def token():
        def source():
            found.__init__([WD], level=1)
            yield AU
        found = Token.__new__(Token)
        outcome = attempt(lambda: found.__init__(source(), level=9))
        return [outcome[:2], repr(found), tuple(SecurityDescriptor.from_bytes(GRANTING).check(found, 1))]

    def checker():
        found = Checker.__new__(Checker)
        outcome = attempt(lambda: found.__init__(Token([WD]), Changing(ALL, lambda: found.__init__(ASKED, READ))))
        return [outcome[:2], tuple(found(DENY_USERS)), tuple(pickle.loads(pickle.dumps(found))(DENY_USERS))]

    def descriptor():
        found = SecurityDescriptor.__new__(SecurityDescriptor)
        outcome = attempt(lambda: found.__init__(control=Changing(0, lambda: found.__init__(dacl=ACES)), owner="SY"))
        return [outcome[:2], found.sddl(), shown(found.owner)]

    def used():
        def source():
            seen.append(attempt(lambda: SecurityDescriptor.from_bytes(GRANTING).check(found, 1))[0])
            yield AU
        found, seen = Token.__new__(Token), []
        found.__init__(source())
        return seen

    refusal = ["refused", "Unchangeable"]
    yield "a token from within", lambda: expects(attempt(token),
                                                 ("answer", [refusal, "Token([Sid('S-1-1-0')], level=1)", [True, 1]]))
    yield "a checker from within", lambda: expects(attempt(checker),
                                                   ("answer", [refusal, [False, READ], [False, READ]]))
    yield "a descriptor from within", lambda: expects(attempt(descriptor), ("answer", [
        refusal, "D:(D;;FR;;;BU)(A;OI;FA;;;AU)", None]))
    yield "a token that is used while it is made", lambda: expects(attempt(used), ("answer", ["refused"]))


def one_of_many_threads():
    """Threads that make one object: one of them wins, and the object is whole."""
    def race(kind, arguments):
        def work(at):
            barrier.wait()
            outcomes.append(attempt(lambda: found.__init__(*arguments[at % 2][0], **arguments[at % 2][1]))[0])

        found, barrier, outcomes = kind.__new__(kind), threading.Barrier(4), []
        threads = [threading.Thread(target=work, args=(at,)) for at in range(4)]
        for thread in threads:
            thread.start()
        for thread in threads:
            thread.join(SECONDS)
        return sorted(outcomes), repr(found) in (repr(kind(*given, **named)) for given, named in arguments)

    def row():
        found = [race(Token, [(([AU],), {"level": 1}), (([BU],), {"level": 2})]),
                 race(Acl, [((ACES,), {}), (([],), {})]),
                 race(SecurityDescriptor, [((), {"owner": "BA"}), ((), {"dacl": ACES})])]
        return (("answer", ""), "" if all(one == (["answer", "refused", "refused", "refused"], True) for one in found)
                else str(found))

    yield "made by four threads", row


def keywords():
    """Names of arguments: one that is unknown, twice there, or only equal to one that is known."""
    checker = Checker(ASKED, READ)
    liar = made(str, "other", {"__eq__": lambda self, one: True, "__hash__": lambda self: hash("descriptor")})
    subclass = made(str, "descriptor", {})
    for name, call in (("no argument", lambda: checker()), ("two arguments", lambda: checker(DENY_USERS, GRANTING)),
                       ("twice", lambda: checker(DENY_USERS, **{"descriptor": GRANTING})),
                       ("unknown", lambda: checker(other=GRANTING)),
                       ("one more", lambda: checker(descriptor=GRANTING, other=1)),
                       ("a name that is equal", lambda: checker(**{liar: GRANTING})),
                       ("two names", lambda: checker(**{liar: GRANTING, "descriptor": DENY_USERS}))):
        yield f"checker: {name}", lambda call=call: (lambda outcome: (outcome, judged(outcome, REFUSED)))(attempt(call))
    yield "checker: a name of a subclass", lambda: expects(attempt(lambda: checker(**{subclass: GRANTING})),
                                                           ("answer", ["Verdict", True, READ]))
    yield "checker: by its name", lambda: expects(attempt(lambda: checker(descriptor=DENY_USERS)),
                                                  ("answer", ["Verdict", False, READ]))
    yield "checker: no names", lambda: expects(attempt(lambda: checker(GRANTING, **{})),
                                               ("answer", ["Verdict", True, READ]))


def seen_by_gc():
    """What Python's collector shows while objects are made is whole."""
    def look():
        """Takes each item of ACEs, verdicts and plain values, and of tuples of ACEs. Python's own may not be whole."""
        of_module = (Ace, sdtool.Verdict, sdtool.PlainAce, sdtool.PlainDescriptor)
        for one in gc.get_objects():
            if type(one) in of_module or type(one) is tuple and len(one) in (40, 300):
                list(map(type, tuple.__iter__(one)))

    def row():
        text = "D:" + "".join(f"(OA;;CR;{uuid.UUID(int=number)};{uuid.UUID(int=number + 1)};S-1-5-21-{number})"
                              for number in range(40))
        before, calls_before = gc.get_threshold(), list(gc.callbacks)
        gc.freeze()  # What is there already is not shown.
        gc.callbacks.append(lambda phase, info: look())
        gc.set_threshold(1, 1, 1)
        try:
            found = [len([one.object_type for one in SecurityDescriptor.from_sddl(text).dacl]) for _ in range(2)]
            list(Checker(ASKED, READ).many([GRANTING, b"", DENY_USERS, b"x"]))
            found += [len(one.dacl) for one in sdtool.plain_descriptors([text, text.replace("S-1-5-21", "S-1-5-22")])]
        finally:
            gc.unfreeze()
            gc.set_threshold(*before)
            gc.callbacks[:] = calls_before
        return ("answer", found), "" if found == [40] * 4 else f"{found}"

    def threads():
        ended = threading.Event()

        def work():
            while not ended.is_set():
                look()

        interval = sys.getswitchinterval()
        gc.freeze()
        sys.setswitchinterval(1e-6)
        thread = threading.Thread(target=work)
        thread.start()
        try:
            text = "D:" + "".join(f"(OA;;CR;{uuid.UUID(int=number)};;S-1-5-22-{number})" for number in range(300))
            found = [len(list(SecurityDescriptor.from_sddl(text).dacl)) for _ in range(3)]
            found += [len(one.dacl) for _ in range(3) for one in sdtool.plain_descriptors([text])]
        finally:
            ended.set()
            thread.join(SECONDS)
            gc.unfreeze()
            sys.setswitchinterval(interval)
        return ("answer", found), "" if found == [300] * 6 else f"{found}"

    yield "seen by a callback of gc", row
    yield "seen by a thread", threads


def held_by_gc():
    """Each call while a callback of Python's collector holds all that it is shown, also what is not made yet."""
    def held(call):
        kept, before, calls_before = [], gc.get_threshold(), list(gc.callbacks)

        def keep(phase, info):
            kept[:] = gc.get_objects()

        gc.freeze()  # What is there already is not shown.
        gc.callbacks.append(keep)
        gc.set_threshold(1, 1, 1)
        try:
            return attempt(call)
        finally:
            gc.set_threshold(*before)
            gc.callbacks[:] = calls_before
            gc.unfreeze()

    def place_of(call, *given):
        try:
            call(*given)
        except sdtool.Fault as fault:
            return list(fault.place), fault.where, fault.excerpt()
        return None

    uses = {name: (lambda call=call, plain=plain: call(**plain)) for name, call, plain, _ in calls()}
    uses["the names of flags"] = lambda: AceFlags(0xff).names
    uses["a place in an ACE"] = lambda: place_of(Ace.from_sddl, "(A;;FA;;;Everyone)")
    uses["a place in a text"] = lambda: place_of(sdtool.from_sddl, "D:(A;;FA;;;WD)(A;;FA;;;Everyone)")
    uses["the ACEs of a list"] = lambda: list(Acl([Ace(AceKind.A, 0, number, "BU") for number in range(1, 40)]))
    for name, use in uses.items():
        def row(use=use):
            outcome = held(use)
            return outcome, judged(outcome, attempt(use))
        yield f"held by a callback of gc: {name}", row


def loud():
    """Texts and names of a caller's in messages: cut, and without characters that a terminal would take for its own."""
    text = "\x1b[31m\u202e" + "x" * 3_000_000
    named = type(text, (), {})

    def row(use):
        try:
            found = use()
        except sdtool.Error as problem:
            message = str(problem)
            is_right = len(message) < 400 and message.isprintable()
            wrong = "" if is_right else f"{len(message)} characters: {ascii(message[:80])}"
            return ("refused", type(problem).__name__), wrong
        except (AttributeError, TypeError):  # of the row's own use of what is given
            return ("refused", "Own"), ""
        return ("answer", shown(found)), ""

    for call_name, call, plain, _ in calls():
        for argument, value in plain.items():
            for what in (text, named(), *([[text], [named()]] if isinstance(value, list) else [])):
                use = functools.partial(call, **{**plain, argument: what})
                yield f"loud: {call_name}({argument})", lambda use=use: row(use)
    for one in Acl([]), ASKED, Checker(ASKED, READ), SecurityDescriptor():
        yield "loud: a name that is set", lambda one=one: row(lambda: setattr(one, text, 1))
        yield "loud: a name that is deleted", lambda one=one: row(lambda: delattr(one, text))
        yield "loud: a name that is none", lambda one=one: row(lambda: type(one).__setattr__(one, named(), 1))
        liar = type(text, (type(one),), {"__slots__": ()})
        yield "loud: a subclass", lambda liar=liar: row(lambda: liar.__new__(liar).__reduce__())


def streams():
    """Files whose reads give something else than bytes."""
    def source(*pieces):
        class File(io.RawIOBase):
            def read1(self, size):
                return next(left, b"")
        left = iter(pieces)
        return File()

    words = ["convert", "--from", "sddl"]
    liar = made(bytes, b"D:P\nO:BA\n",
                {"rfind": lambda self, *given: 0, "__getitem__": lambda self, at: b"", "__len__": lambda self: 0,
                 "__bool__": lambda self: False, "__iadd__": fails, "__radd__": fails})
    for name, pieces, expected in (("bytes that lie", [liar], ["D:P", "O:BA"]),
                                   ("a bytearray", [bytearray(b"D:P\n")], ["D:P"]),
                                   ("a memoryview", [memoryview(b"D:P\n")], ["D:P"])):
        yield f"a file with {name}", lambda pieces=pieces, expected=expected: expects(
            attempt(lambda: list(sdtool.lines(source(*pieces), words))), ("answer", expected))
    for name, piece in (("a text", "D:P\n"), ("a number", 5), ("a list", [1]),
                        ("a mock", unittest.mock.MagicMock(spec=bytes))):
        yield f"a file with {name}", lambda piece=piece: (lambda outcome: (outcome, judged(outcome, REFUSED)))(
            attempt(lambda: list(sdtool.lines(source(piece), words))))


def rows():
    for part in (rows_of_calls, changed_later, same_buffer, lying_hashes, uses_of_nothing, uses_of_others,
                 made_from_within, one_of_many_threads, keywords, seen_by_gc, held_by_gc, loud, streams):
        yield from part()


def main():
    if (sys.modules.get("sdtool._native") is None) != ("--without-extension" in sys.argv):
        sys.exit("the extension is not what was asked for")
    names = collections.Counter()
    for name, row in rows():
        names[name] += 1
        name = name if names[name] == 1 else f"{name}, {names[name]}"
        if os.environ.get("ROWS_SHOW"):
            print(name, file=sys.stderr, flush=True)
        outcome, problem = row()
        print(json.dumps([name, list(outcome[:2]), problem]))
    print(json.dumps("end"))


if __name__ == "__main__":
    main()
