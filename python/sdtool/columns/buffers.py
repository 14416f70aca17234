"""Columns in Arrow's layout. What is decided upon is a copy, so buffers that change meanwhile mix no answers."""
import itertools
import operator
from array import array
from typing import Any, Callable, Dict, Iterable, List, Optional, Sequence, Tuple

from .. import _arguments
from .._errors import ArgumentFault

# Of the numbers in a buffer, by its format: how array calls numbers with as many bits.
_NUMBERS = {code: {4: "i", 8: "q"}[array(code).itemsize] for code in "iIlLqQ"}
_MOST_OF_32_BITS = 2**31 - 1


class Column:
    """A column in Arrow's layout: `data` has the bytes of all rows, row I those from offsets[I] up to offsets[I + 1].

    offsets are numbers of 32 or 64 bits. valid has a bit for each row, the lowest of a byte first, which is 0 for null;
    without it no row is null. With is_text the bytes are texts in UTF-8.

    A column of answers has the type `format` of Arrow's C data interface, `length` rows, and the `buffers` (valid,
    offsets, data). Verdicts, ACEs and outcomes have `children` by their names. Libraries with Arrow's PyCapsule
    interface take a column, as pyarrow.array(column) or polars.Series(column).

    >>> import array, sdtool
    >>> data = sdtool.from_sddl("O:BA") + sdtool.from_sddl("D:")
    >>> valid, offsets, texts = to_sddl(Column(data, array.array("i", [0, 36, 64]))).buffers
    >>> list(offsets), texts
    ([0, 4, 6], b'O:BAD:')
    """

    length: int
    format: str
    buffers: Tuple[Any, ...]
    children: Dict[str, "Column"]

    def __init__(self, data: Any, offsets: Any, valid: Any = None, *, is_text: bool = False) -> None:
        places = _view("offsets", offsets)
        if places.ndim != 1 or places.format not in _NUMBERS:
            raise ArgumentFault("they are not numbers of 32 or 64 bits", "offsets")
        found = array(_NUMBERS[places.format], places.tobytes())
        bits = None if valid is None else _view("valid", valid).tobytes()
        if not found or bits is not None and 8 * len(bits) < len(found) - 1:
            raise ArgumentFault("there are too few", "valid" if found else "offsets")
        self.length, self.children = len(found) - 1, {}
        self.format = _typed("u" if _arguments.flag("is_text", is_text) else "z", found)
        self.buffers = bits, found, _view("data", data).tobytes()

    @classmethod
    def of(cls, schema: Any, table: Sequence[Any], rows: Sequence[int], is_wide: bool) -> "Column":
        """The column whose rows have these values of a table. A schema is a type of Arrow's C data interface, a dict of
        those of a struct's fields, or a list with that of a list's items."""
        made = object.__new__(cls)
        made.format, made.length, made.children = "+s", len(rows), {}
        valid = None if None not in table else _bitmap([value is not None for value in table], rows)
        if isinstance(schema, dict):
            made.buffers = valid,
            for at, (name, field) in enumerate(schema.items()):
                values = [None if value is None else value[at] for value in table]
                made.children[name] = cls.of(field, values, rows, is_wide)
        elif isinstance(schema, list):
            lengths = [len(value or ()) for value in table]
            items = [range(end - length, end) for length, end in zip(lengths, itertools.accumulate(lengths))]
            made.buffers = valid, _offsets(lengths, rows, is_wide)
            made.format = _typed("+l", made.buffers[1])
            made.children["item"] = cls.of(schema[0], _chained(value or () for value in table),
                                           _chained(map(items.__getitem__, rows)), is_wide)
        elif schema in ("u", "z"):
            parts = [value.encode() if isinstance(value, str) else value or b"" for value in table]
            offsets = _offsets([*map(len, parts)], rows, is_wide)
            made.format = _typed(schema, offsets)
            made.buffers = valid, offsets, b"".join(map(parts.__getitem__, rows))
        else:
            numbers: List[int] = [value or 0 for value in table]
            held = _bitmap(numbers, rows) if schema == "b" else array("I", map(numbers.__getitem__, rows))
            made.format, made.buffers = schema, (valid, held)
        return made

    def rows(self) -> List[Optional[bytes]]:
        """The bytes of each row, or None."""
        valid, offsets, data = self.buffers
        return with_nulls(cut(offsets, lambda first, end: bytes(data[first:end])), valid, 0)

    def __arrow_c_array__(self, requested_schema: Any = None) -> Tuple[Any, Any]:
        from . import capsules
        return capsules.given(self)


def _view(name: str, value: Any) -> memoryview:
    try:
        return memoryview(value)
    except (TypeError, ValueError, BufferError):
        raise _arguments.wrong_type(name, value, "a buffer") from None


def _typed(name: str, offsets: "array[int]") -> str:
    """A type by its name with offsets of 32 bits, for these ones."""
    return name if offsets.itemsize == 4 else name[:-1] + name[-1].upper()


def cut(offsets: Sequence[int], read: Callable[[int, int], bytes]) -> List[bytes]:
    """The bytes between each offset and the next one, of those that a function reads. None may decrease, or pass their
    end: before that is known nothing is read."""
    first, end = offsets[0], offsets[-1]
    is_rising = 0 <= first and all(map(operator.le, offsets, itertools.islice(offsets, 1, None)))
    data = read(first, end) if is_rising else b""
    if not is_rising or len(data) != end - first:
        raise ArgumentFault("offsets decrease, or pass the end of the data", "column")
    places = offsets if not first else [place - first for place in offsets]
    return [data[one:other] for one, other in zip(places, itertools.islice(places, 1, None))]


def with_nulls(values: List[Any], valid: Optional[bytes], first: int) -> List[Any]:
    """Values, of which those are null whose bit of a bitmap is 0."""
    if valid is None:
        return values
    bits = f"{int.from_bytes(valid, 'little'):0{8 * len(valid)}b}"[::-1]
    return [value if bit == "1" else None for value, bit in zip(values, itertools.islice(bits, first, None))]


def _bitmap(table: Sequence[Any], rows: Sequence[int]) -> bytes:
    """A bit for each row: whether what the table has for it is true."""
    bits = "".join(map(["1" if value else "0" for value in table].__getitem__, rows))
    return int(bits[::-1] or "0", 2).to_bytes((len(bits) + 7) // 8, "little")


def _offsets(lengths: List[int], rows: Sequence[int], is_wide: bool) -> "array[int]":
    ends = [*itertools.accumulate(map(lengths.__getitem__, rows), initial=0)]
    return array("q" if is_wide or ends[-1] > _MOST_OF_32_BITS else "i", ends)


def _chained(values: Iterable[Iterable[Any]]) -> List[Any]:
    return list(itertools.chain.from_iterable(values))
