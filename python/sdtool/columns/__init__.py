"""Columns of security descriptors and of SDDL. Each row gets the answer of the call with the same name in sdtool.

| Column | Its answers |
|---|---|
| a list, or another iterable | a list |
| a NumPy array of objects | such an array |
| a pandas Series | a Series with the same index and name |
| an array or series of another library with Arrow's PyCapsule interface, or a Column | a Column |

Values that repeat are answered once. Nulls stay nulls: None, what pandas takes for null, and Arrow's. A null answer
says that nothing is known, and neither "granted" nor "no permissions". What becomes of a row without an answer:

- faults="null": it is null too
- faults="raise": the Fault of the first such row is raised; its index is the row, or the label of a Series
- faults="struct": each row is an Outcome, but for nulls

>>> rows = [from_sddl(["O:BA"])[0], None, b"short"]
>>> to_sddl(rows)
['O:BA', None, None]
>>> to_sddl(rows, faults="struct")[2]
Outcome(answer=None, number=5, name='short', offset=5)
>>> check(from_sddl(["D:(A;;FR;;;BU)", "D:"]), Token(["BU"]), 0x120089)
[Verdict(granted=True, mask=1179785), Verdict(granted=False, mask=1179785)]
"""
import hashlib
import itertools
import math
import random
import sys
from typing import Any, Callable, Iterable, List, Literal, NamedTuple, Optional, Sequence, Tuple

from .. import _arguments, _library
from .._arguments import GuidLike, sid_or_none
from .._errors import ArgumentFault, Fault
from .._plain import plain_descriptors
from .._values import Checker, DescriptorLike, SidLike, Token
from .._words import KINDS, MAPPINGS, Kind, Mapping
from .buffers import Column

__all__ = ["AceRow", "Column", "Outcome", "aces", "check", "derive", "digest", "from_sddl", "normalize", "to_sddl"]

Faults = Literal["null", "raise", "struct"]
_FAULTS = {"null": 0, "raise": 1, "struct": 2}
_DIGEST_BYTES = 32
_KIND: Tuple[Any, ...] = bytes, str  # of values: by whether they are texts
_TO_SDDL, _FROM_SDDL, _NORMALIZE = range(3)  # enum sdtool_conversion_kind
_AT_ONCE = 1 << 10  # values of a call, between which other threads run
_Answers = Callable[[List[Any]], Iterable[Any]]  # to values that are not null; a Fault is one too
_Distinct = Tuple[List[Any], Sequence[int]]  # values, and the place of each row's, or -1 for null
_Form = Tuple[_Distinct, Callable[[int], Any], Callable[[List[Any], Sequence[int], Any], Any]]
_FEW, _FEW_EQUAL = 1 << 12, 2  # rows without a sample, and of a sample


class Outcome(NamedTuple):
    """The answer to a row, or the number and name of its fault, and where that is if it has a place: the byte, or in a
    str the character."""

    answer: Any
    number: Optional[int]
    name: Optional[str]
    offset: Optional[int]


class AceRow(NamedTuple):
    """An ACE, as PlainAce has it: with its ACL, "sacl" or "dacl", and its place there.

    A DACL without ACEs is a row whose kind is "absent", "null" or "empty", and the rest null. The first two grant
    everything to everyone.
    """

    acl: str
    place: Optional[int]
    kind: str
    flags: Optional[int]
    mask: Optional[int]
    sid: Optional[str]
    object_type: Optional[str]
    inherited_object_type: Optional[str]


def to_sddl(column: Any, *, domain: Optional[SidLike] = None, numeric: bool = False, faults: Faults = "null") -> Any:
    of, is_numeric = sid_or_none("domain", domain), _arguments.flag("numeric", numeric)
    return _answered(column, _converted(_TO_SDDL, of, is_numeric), "u", faults)


def from_sddl(column: Any, *, domain: Optional[SidLike] = None, faults: Faults = "null") -> Any:
    return _answered(column, _converted(_FROM_SDDL, sid_or_none("domain", domain)), "z", faults, True)


def normalize(column: Any, *, faults: Faults = "null") -> Any:
    return _answered(column, _normalized, "z", faults)


def digest(column: Any, *, faults: Faults = "null") -> Any:
    """The digest of the canonical layout, BLAKE2b of 256 bits: the same for descriptors with the same content."""
    return _answered(column, lambda values: map(_digest_of, _normalized(values)), "z", faults)


def check(column: Any, token: Token, wanted: int = 0, *, maximum: bool = False, mapping: Mapping = "file",
          object_type: Optional[GuidLike] = None, principal_self: Optional[SidLike] = None,
          faults: Faults = "null") -> Any:
    """The Verdict on each row. The arguments are those of SecurityDescriptor.check."""
    checker = Checker(token, wanted, maximum=maximum, mapping=mapping, object_type=object_type,
                      principal_self=principal_self)
    return _answered(column, checker.many, {"granted": "b", "mask": "I"}, faults)


def derive(column: Any, owner: SidLike, group: SidLike, *, kind: Kind = "file",
           creator: Optional[DescriptorLike] = None, mapping: Mapping = "file", faults: Faults = "null") -> Any:
    brought = None if creator is None else _arguments.layout("creator", creator)
    arguments = (brought, _arguments.sid("owner", owner), _arguments.sid("group", group),
                 _arguments.word("kind", kind, KINDS), _arguments.word("mapping", mapping, MAPPINGS))
    try:
        _library.normalize(b"" if brought is None else brought)
    except Fault as fault:
        if brought is not None:
            raise fault.of("creator") from None
    return _answered(column, _in_pieces(lambda values: _library.derive_many(values, *arguments)), "z", faults)


def aces(column: Any, *, faults: Faults = "null") -> Any:
    """A list for each row, with an AceRow for each ACE, to be exploded: so there is a row for each ACE. First come
    those of the SACL, as in the layout.

    >>> for row in aces(from_sddl(["D:(A;;FR;;;BU)", "O:BA"])):
    ...     print(row[0])
    AceRow(acl='dacl', place=0, kind='A', flags=0, mask=1179785, sid='S-1-5-32-545', object_type=None, \
inherited_object_type=None)
    AceRow(acl='dacl', place=None, kind='absent', flags=None, mask=None, sid=None, object_type=None, \
inherited_object_type=None)
    """
    schema = dict(zip(AceRow._fields, "uIuIIuuu"))
    return _answered(column, lambda values: map(_rows_of, plain_descriptors(values)), [schema], faults)


def _rows_of(found: Any) -> Any:
    if isinstance(found, Fault):
        return found
    of_acls = {"sacl": found.sacl if isinstance(found.sacl, tuple) else (), "dacl": found.dacl}
    rows = [AceRow(acl, place, *ace) for acl, held in of_acls.items() if isinstance(held, tuple)
            for place, ace in enumerate(held)]
    if not found.dacl or not isinstance(found.dacl, tuple):
        rows.append(AceRow("dacl", None, found.dacl or "empty", *[None] * 5))
    return rows


def _digest_of(found: Any) -> Any:
    return found if isinstance(found, Fault) else hashlib.blake2b(found, digest_size=_DIGEST_BYTES).digest()


def _in_pieces(call: Callable[[List[Any]], List[Any]]) -> _Answers:
    return lambda values: itertools.chain.from_iterable(call(values[at:at + _AT_ONCE])
                                                        for at in range(0, len(values), _AT_ONCE))


def _converted(kind: int, domain: Optional[bytes] = None, is_numeric: bool = False) -> _Answers:
    return _in_pieces(lambda values: _library.convert_many(kind, values, domain, is_numeric))


_normalized = _converted(_NORMALIZE)


def _answered(column: Any, answers: _Answers, schema: Any, faults: Faults, is_text: bool = False) -> Any:
    """The answers to a column. Behind this door a value is bytes, a str or None, so equal ones have equal answers."""
    which = _arguments.word("faults", faults, _FAULTS)
    (asked, rows), label, made = _read(column, is_text)
    table = list(answers(asked))
    if len(table) != len(asked):
        raise SystemError(f"{len(asked)} values have {len(table)} answers")
    if which == _FAULTS["struct"]:
        table = list(map(_outcome_of, table))
        schema = dict(zip(Outcome._fields, (schema, "I", "u", "I")))
    elif Fault in {*map(type, table)}:
        for at, answer in enumerate(table):
            if isinstance(answer, Fault):
                if which == _FAULTS["raise"]:
                    raise answer.of("column", label(rows.index(at)))
                table[at] = None
    table.append(None)  # the last one, which is the place -1
    return made(table, rows, schema)


def _outcome_of(answer: Any) -> Outcome:
    if not isinstance(answer, Fault):
        return Outcome(answer, None, None, None)
    return Outcome(None, answer.number, answer.name, answer.place and answer.place.offset)


def _read(column: Any, is_text: bool) -> _Form:
    """The distinct values of a column, how its rows are called, and what makes a column of the same form: of a table of
    answers, the place in it for each row, and the type in Arrow."""
    numpy: Any = sys.modules.get("numpy")  # which a column of theirs has imported
    pandas: Any = sys.modules.get("pandas")
    if getattr(column, "ndim", 1) != 1 or hasattr(column, "__dask_graph__"):
        raise _arguments.wrong_type("column", column, "one column in memory")
    if pandas is not None and _arguments.is_a(column, pandas.Series):
        held = column.to_numpy(object)
        found = _told_apart(held.tolist(), _KIND[is_text])
        if found is None:
            held = held.copy()
            held[pandas.isna(held)] = None
            found = _distinct(held.tolist(), is_text)
        return found, column.index.__getitem__, lambda table, rows, _: pandas.Series(
            _objects(table, rows), column.index, name=column.name)
    if numpy is not None and _arguments.is_a(column, numpy.ndarray):
        if column.dtype.kind not in ("OU" if is_text else "O"):
            raise _arguments.wrong_type("column", column, "an array of objects")
        return _distinct(column.tolist(), is_text), int, lambda table, rows, _: _objects(table, rows)
    if _arguments.is_a(column, Column):
        if column.format not in (("u", "U") if is_text else ("z", "Z")):
            raise ArgumentFault(f"it has {'bytes' if is_text else 'texts'}", "column")
        held, is_wide = column.rows(), column.format.isupper()
    elif hasattr(column, "__arrow_c_array__") or hasattr(column, "__arrow_c_stream__"):
        from . import capsules
        held, is_wide = capsules.taken(column, is_text)
    else:
        values = list(_arguments.iterator("column", column, "str" if is_text else "descriptors"))
        return _distinct(values, is_text), int, lambda table, rows, _: list(map(table.__getitem__, rows))
    values, places = _distinct(held, False)
    if is_text:  # their bytes need not be UTF-8
        values = [value.decode("utf-8", "surrogateescape") for value in values]
    return (values, places), int, lambda table, rows, schema: Column.of(
        schema, table if -1 in rows else table[:-1], rows, is_wide)


def _distinct(rows: List[Any], is_text: bool) -> _Distinct:
    """The distinct values of rows, by Python's own types, whatever objects of other types say of themselves."""
    found = _told_apart(rows, _KIND[is_text])
    if found is not None:
        return found

    def exact(row: int, value: Any) -> Any:
        if is_text:
            return _arguments.characters("column", value, row)
        if _arguments.is_a(value, _library.Layout):
            return _arguments.layout("column", value)
        return _arguments.data("column", value, row)

    return _distinct([value if value is None else exact(row, value) for row, value in enumerate(rows)], is_text)


def _told_apart(rows: List[Any], kind: type) -> Optional[_Distinct]:
    """The same, or None if a row has another type. Where hardly two rows of a sample are equal, each row is taken for a
    value of its own, since it would take longer to tell all apart than to answer some twice."""
    if len(rows) > _FEW:
        # If each value came twice, eight pairs of these would be equal. Equal rows are often next to each other, so the
        # sample has no order.
        found = _library.distinct(random.Random(0).sample(rows, 4 * math.isqrt(len(rows))), kind)
        if found is not None and sum(place >= 0 for place in found[1]) - len(found[0]) <= _FEW_EQUAL:
            types, numbers = {*map(type, rows)}, itertools.count()
            if types == {kind}:
                return rows, range(len(rows))
            if types == {kind, type(None)}:
                return ([row for row in rows if row is not None],
                        [-1 if row is None else next(numbers) for row in rows])
    return _library.distinct(rows, kind)


def _objects(table: List[Any], rows: Sequence[int]) -> Any:
    """The same as an array of NumPy."""
    return sys.modules["numpy"].fromiter(map(table.__getitem__, rows), object, len(rows))
