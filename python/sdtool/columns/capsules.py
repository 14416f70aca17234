"""Arrow's PyCapsule interface, by ctypes: columns of other libraries, and ours for them.

It does not say how long most buffers are, so for that the other library is trusted.
"""
import ctypes
import itertools
import struct
from array import array
from ctypes import CFUNCTYPE, POINTER, PYFUNCTYPE, Structure, c_char_p, c_int, c_int64, c_void_p, py_object
from typing import Any, Dict, List, Tuple

from .. import _arguments
from .._errors import ArgumentFault
from .buffers import Column, cut, with_nulls

_INDEXES = {"c": "b", "C": "B", "s": "h", "S": "H", "i": "i", "I": "I", "l": "q", "L": "Q"}  # of a dictionary
_VIEW, _WITHIN = struct.Struct("<i4xii"), 12  # up to so many bytes are in the view itself, behind their number
_NULLABLE = 2


class _Schema(Structure):
    """struct ArrowSchema."""


class _Array(Structure):
    """struct ArrowArray."""


class _Stream(Structure):
    """struct ArrowArrayStream."""


_Release = CFUNCTYPE(None, c_void_p)
_Fill = CFUNCTYPE(c_int, c_void_p, c_void_p)
_OWN = [("release", c_void_p), ("private_data", c_void_p)]
_Schema._fields_ = [("format", c_char_p), ("name", c_char_p), ("metadata", c_void_p), ("flags", c_int64),
                    ("n_children", c_int64), ("children", POINTER(POINTER(_Schema))), ("dictionary", POINTER(_Schema)),
                    *_OWN]
_Array._fields_ = [("length", c_int64), ("null_count", c_int64), ("offset", c_int64), ("n_buffers", c_int64),
                   ("n_children", c_int64), ("buffers", POINTER(c_void_p)), ("children", POINTER(POINTER(_Array))),
                   ("dictionary", POINTER(_Array)), *_OWN]
_Stream._fields_ = [("get_schema", _Fill), ("get_next", _Fill),
                    ("get_last_error", CFUNCTYPE(c_char_p, c_void_p)), *_OWN]
_NAMES = {_Schema: b"arrow_schema", _Array: b"arrow_array", _Stream: b"arrow_array_stream"}
_api = ctypes.pythonapi
_pointer_of = PYFUNCTYPE(c_void_p, py_object, c_char_p)(("PyCapsule_GetPointer", _api))
_pointer_in = PYFUNCTYPE(c_void_p, c_void_p, c_char_p)(("PyCapsule_GetPointer", _api))  # of one that is going
_new_capsule = PYFUNCTYPE(py_object, c_void_p, c_char_p, c_void_p)(("PyCapsule_New", _api))


# Columns of other libraries.

def taken(column: Any, is_text: bool) -> Tuple[List[Any], bool]:
    """The bytes of each row of a column, or None; and whether its offsets have 64 bits."""
    if hasattr(column, "__arrow_c_array__"):
        capsules = column.__arrow_c_array__()
        if type(capsules) is not tuple or len(capsules) != 2:
            raise _arguments.wrong_type("column", capsules, "two capsules")
        schema, given = map(_at, (_Schema, _Array), capsules)
        return _rows(schema, given, is_text), _is_wide(schema)
    rows: List[Any] = []
    capsule = column.__arrow_c_stream__()
    stream, schema = _at(_Stream, capsule), _Schema()
    _fill(stream, stream.get_schema, schema)
    try:
        while True:
            given = _Array()
            _fill(stream, stream.get_next, given)
            if not given.release:
                return rows, _is_wide(schema)
            try:
                rows += _rows(schema, given, is_text)
            finally:
                _release(given)
    finally:
        _release(schema)


def _at(kind: Any, capsule: Any) -> Any:
    try:
        return kind.from_address(_pointer_of(capsule, _NAMES[kind]))
    except ValueError:
        raise _arguments.wrong_type("column", capsule, f"a capsule {_NAMES[kind].decode()}") from None


def _fill(stream: Any, call: Any, made: Any) -> None:
    number = call(ctypes.addressof(stream), ctypes.addressof(made))
    if number:
        told = stream.get_last_error(ctypes.addressof(stream)) or b""
        raise OSError(number, told.decode("utf-8", "replace"))


def _release(made: Any) -> None:
    _Release(made.release)(ctypes.addressof(made))


def _is_wide(schema: Any) -> bool:
    return schema.format in (b"U", b"Z", b"vu", b"vz")


def _numbers(code: str, address: int, count: int, first: int = 0) -> "array[int]":
    found = array(code)
    found.frombytes(_bytes(address, found.itemsize * first, found.itemsize * count))
    return found


def _bytes(address: int, first: int, size: int) -> bytes:
    if size < 0 or size and not address:
        raise ArgumentFault("a buffer is missing", "column")
    return ctypes.string_at(address + first, size) if size else b""


def _rows(schema: Any, given: Any, is_text: bool) -> List[Any]:
    name, length, first, buffers = schema.format.decode("latin-1"), given.length, given.offset, given.buffers
    if min(length, first) < 0:
        raise ArgumentFault("a length below 0", "column")
    if name == "n" or not length:
        return [None] * length
    valid = _bytes(buffers[0], 0, (first + length + 7) // 8) if given.null_count and buffers[0] else None
    if schema.dictionary and name in _INDEXES:
        values = _rows(schema.dictionary.contents, given.dictionary.contents, is_text)
        return _chosen(values, with_nulls([*_numbers(_INDEXES[name], buffers[1], length, first)], valid, first))
    if name in (("u", "U") if is_text else ("z", "Z")):
        offsets = _numbers("i" if name in "uz" else "q", buffers[1], length + 1, first)
        return with_nulls(cut(offsets, lambda start, end: _bytes(buffers[2], start, end - start)), valid, first)
    if name == ("vu" if is_text else "vz"):
        views = _bytes(buffers[1], _VIEW.size * first, _VIEW.size * length)
        sizes = _numbers("q", buffers[given.n_buffers - 1], given.n_buffers - 3)
        blocks = [_bytes(buffers[2 + at], 0, size) for at, size in enumerate(sizes)]
        rows = with_nulls([*range(length)], valid, first)
        return [None if row is None else _viewed(views[_VIEW.size * row:][:_VIEW.size], blocks) for row in rows]
    if name[:2] == "w:" and not is_text:
        size = int(name[2:])
        data = _bytes(buffers[1], size * first, size * length)
        return with_nulls([data[size * row:size * (row + 1)] for row in range(length)], valid, first)
    raise ArgumentFault(f"a column with Arrow's type {name}, not of {'texts' if is_text else 'bytes'}", "column")


def _chosen(values: List[Any], indexes: List[Any]) -> List[Any]:
    if any(index is not None and not 0 <= index < len(values) for index in {*indexes}):
        raise ArgumentFault("an index passes the end of the dictionary", "column")
    return [None if index is None else values[index] for index in indexes]


def _viewed(view: bytes, blocks: List[bytes]) -> bytes:
    """The value of a view: it is short and in it, or in a block."""
    size, block, start = _VIEW.unpack(view)
    if size <= _WITHIN:
        found = view[4:4 + size]
    else:
        found = blocks[block][start:start + size] if 0 <= block < len(blocks) and start >= 0 else b""
    if len(found) != size:
        raise ArgumentFault("a view passes the end of its block", "column")
    return found


# Columns for other libraries.

_kept: Dict[Any, Any] = {}  # what structures point to, until they are released
_keys = itertools.count(1)


def _let_go(kind: Any) -> Any:
    """What releases a structure, and those below it that nobody has moved."""
    def let_go(address: int, kept: Dict[Any, Any] = _kept) -> None:
        made = kind.from_address(address)
        for at in range(made.n_children):
            below = made.children[at].contents
            if below.release:
                _release(below)
        made.release = None
        del kept[made.private_data]
    return _Release(let_go)


def _end(kind: Any) -> Any:
    """What ends a capsule."""
    def end(capsule: int, kept: Dict[Any, Any] = _kept, name: bytes = _NAMES[kind]) -> None:
        address = _pointer_in(capsule, name)
        made = kind.from_address(address)
        if made.release:
            _release(made)
        del kept[kind, address]
    return PYFUNCTYPE(None, c_void_p)(end)


_LET_GO, _END = ({kind: make(kind) for kind in (_Schema, _Array)} for make in (_let_go, _end))
for _each in (_LET_GO, _END, _NAMES):
    _api.Py_IncRef(py_object(_each))  # other libraries may call these when this module has gone


def given(column: Column) -> Tuple[Any, Any]:
    return _capsule(_schema_of(column, "")), _capsule(_array_of(column))


def _capsule(made: Any) -> Any:
    kind, address = type(made), ctypes.addressof(made)
    _kept[kind, address] = made
    return _new_capsule(address, _NAMES[kind], ctypes.cast(_END[kind], c_void_p))


def _holding(made: Any, *held: Any) -> Any:
    """A structure that keeps what it points to."""
    made.release = ctypes.cast(_LET_GO[type(made)], c_void_p)
    made.private_data = key = next(_keys)
    _kept[key] = made, held
    return made


def _below(kind: Any, made: List[Any]) -> Any:
    return (POINTER(kind) * len(made))(*map(ctypes.pointer, made))


def _schema_of(column: Column, name: str) -> Any:
    children = _below(_Schema, [_schema_of(child, key) for key, child in column.children.items()])
    return _holding(_Schema(column.format.encode(), name.encode(), None, _NULLABLE, len(children), children), children)


def _array_of(column: Column) -> Any:
    children = _below(_Array, [_array_of(child) for child in column.children.values()])
    held = [None if one is None else bytes(one) for one in column.buffers]
    buffers = (c_void_p * len(held))(*[ctypes.cast(c_char_p(one), c_void_p) for one in held])
    nulls = 0 if held[0] is None else -1
    return _holding(_Array(column.length, nulls, 0, len(held), len(children), buffers, children), held, children)
