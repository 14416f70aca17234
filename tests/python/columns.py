"""Tests sdtool.columns and sdtool.dask. Each row of a column has to get what the single call gives for it. The columns
have 100,000 random rows, among them nulls, empty ones, damaged ones and objects that lie of themselves; as a list, an
array of NumPy, a Series of pandas, buffers, and Arrow's layouts. Those are lent and taken by a library in C (arrow.c),
whose buffers end at a page that cannot be read. Also tested: offsets that lie, buffers that change, rows without an
answer, that a distinct value is answered once, and columns of Dask, of a million rows too. NumPy, pandas and Dask are
used if they are there; a line says what is not.

All of it is tried by the module's extension, where that is built, and by ctypes.
"""
import array
import ctypes
import functools
import gc
import importlib
import os
import pathlib
import random
import re
import struct
import subprocess
import sys
import tempfile
import threading
import unittest.mock

import dask_cluster
import preload
import python_plain
from preload import TOP, raised
from python_module import WITHOUT_EXTENSION

os.environ["PYTHONPATH"] = str(TOP / "python")
import sdtool  # noqa: E402
from sdtool import FileMask, SecurityDescriptor, Token, _foreign, columns  # noqa: E402
from sdtool.columns import AceRow, Column, Outcome, capsules  # noqa: E402

DOMAIN = "S-1-5-21-1-2-3"
TOKEN = Token(["WD", "AU", "BU"], deny_only=["BA"], level=8192)
CREATOR = sdtool.from_sddl("D:(A;;FR;;;WD)")


def optional(name):
    try:
        return importlib.import_module(name)
    except ImportError:
        return None


OPTIONAL = ("numpy", "pandas", "dask")
numpy, pandas, dask = map(optional, OPTIONAL)


# ---- what the single calls say ----

def aces_of(value):
    """The rows of ACEs, by objects."""
    found = SecurityDescriptor.from_bytes(value)
    rows = [AceRow(name, place, str(ace.kind), int(ace.flags), ace.mask, str(ace.sid),
                   *(guid and str(guid) for guid in (ace.object_type, ace.inherited_object_type)))
            for name, acl in (("sacl", found.sacl), ("dacl", found.dacl)) if acl.is_list
            for place, ace in enumerate(acl)]
    dacl = found.dacl
    state = "absent" if dacl.is_absent else "null" if dacl.is_null else "empty" if not len(dacl) else None
    return rows + ([AceRow("dacl", None, state, *[None] * 5)] if state else [])


# The function, its arguments behind the column, and the single call.
CALLS = {
    "to_sddl": ({}, sdtool.to_sddl),
    "to_sddl numeric": ({"domain": DOMAIN, "numeric": True}, functools.partial(sdtool.to_sddl, numeric=True)),
    "to_sddl domain": ({"domain": DOMAIN}, functools.partial(sdtool.to_sddl, domain=DOMAIN)),
    "normalize": ({}, sdtool.normalize),
    "check": ({"token": TOKEN, "wanted": FileMask.FW, "mapping": "file"},
              lambda value: SecurityDescriptor.from_bytes(value).check(TOKEN, FileMask.FW)),
    "check maximum": ({"token": TOKEN, "maximum": True, "mapping": "ds", "principal_self": "AU"},
                      lambda value: SecurityDescriptor.from_bytes(value).check(
                          TOKEN, maximum=True, mapping="ds", principal_self="AU")),
    "derive": ({"owner": "BA", "group": sdtool.Sid("SY"), "kind": "container", "creator": CREATOR},
               lambda value: sdtool.derive(value, "BA", "SY", kind="container", creator=CREATOR)),
    "aces": ({}, aces_of),
}
OF_TEXTS = {
    "from_sddl": ({}, sdtool.from_sddl),
    "from_sddl domain": ({"domain": DOMAIN}, functools.partial(sdtool.from_sddl, domain=DOMAIN)),
}


def function(name, module=columns):
    return getattr(module, name.split()[0])


def outcome_of(call, value):
    """What faults="struct" has to give for a row."""
    if value is None:
        return None
    try:
        return Outcome(call(value), None, None, None)
    except sdtool.Fault as fault:
        return Outcome(None, fault.number, fault.name, fault.place and fault.place.offset)


# ---- rows ----

class Liar(bytes):
    """It says that it is every other value."""

    def __hash__(self): return hash(b"")  # noqa: E731
    def __eq__(self, other): return True  # noqa: E731
    def __len__(self): return 0  # noqa: E731
    def __getitem__(self, at): return b""  # noqa: E731
    def __bytes__(self): return b""  # noqa: E731


class TextLiar(str):
    def __hash__(self): return hash("")  # noqa: E731
    def __eq__(self, other): return True  # noqa: E731
    def __str__(self): return "D:"  # noqa: E731
    encode = lambda self, *_: b"D:"  # noqa: E731


def plain_of(value):
    """What a row is, whatever it says."""
    if value is None or type(value) in (bytes, str):
        return value
    if isinstance(value, str):
        return str.__str__(value)
    return value.bytes if isinstance(value, SecurityDescriptor) else bytes(memoryview(value))


def rows_of(distinct, count, choices):
    """Rows of Python's own types; and the same, of which some are objects of other types."""
    rows = [choices.choice((None, distinct[0])) if choices.randrange(10) == 0 else choices.choice(distinct)
            for _ in range(count)]
    others = list(rows)
    for at in choices.sample(range(count), count // 10):
        value = rows[at]
        if isinstance(value, bytes):
            made = choices.choice((bytearray, memoryview, Liar, SecurityDescriptor))
            if made is not SecurityDescriptor:
                others[at] = made(value)
            elif outcome_of(sdtool.normalize, value).answer == value:
                others[at] = made.from_bytes(value)
        elif value is not None:
            others[at] = TextLiar(value)
    return rows, others


# ---- Arrow, by arrow.c ----

class Lent:
    """A column of another library."""

    def __init__(self, *capsules):
        self.capsules = capsules

    def __arrow_c_array__(self, requested_schema=None):
        return self.capsules


class Streamed:
    """A column in parts of another library."""

    def __init__(self, capsule):
        self.capsule = capsule

    def __arrow_c_stream__(self, requested_schema=None):
        return self.capsule


class Arrow:
    """The library in C, and capsules of what it lends and takes."""

    def __init__(self, folder):
        path = pathlib.Path(folder, "arrow.so")
        subprocess.run([*preload.compiler(), "-std=gnu11", "-O1", "-Wall", "-Wextra", "-Werror", "-shared", "-fPIC",
                        str(pathlib.Path(__file__).with_name("arrow.c")), "-o", str(path)], check=True)
        self.library = ctypes.CDLL(str(path))
        for name in ("new_schema", "new_array", "new_stream", "column_text"):
            getattr(self.library, name).restype = ctypes.c_void_p
        self.api = ctypes.pythonapi
        self.pointer = ctypes.PYFUNCTYPE(ctypes.c_void_p, ctypes.py_object, ctypes.c_char_p)(
            ("PyCapsule_GetPointer", self.api))
        self.new = ctypes.PYFUNCTYPE(ctypes.py_object, ctypes.c_void_p, ctypes.c_char_p, ctypes.c_void_p)(
            ("PyCapsule_New", self.api))
        pointer_in = ctypes.PYFUNCTYPE(ctypes.c_void_p, ctypes.c_void_p, ctypes.c_char_p)(
            ("PyCapsule_GetPointer", self.api))
        self.names = {"schema": b"arrow_schema", "array": b"arrow_array", "stream": b"arrow_array_stream"}
        self.ends = {name: ctypes.PYFUNCTYPE(None, ctypes.c_void_p)(
            lambda capsule, end=getattr(self.library, f"end_{name}"), told=told: end(
                ctypes.c_void_p(pointer_in(capsule, told)))) for name, told in self.names.items()}

    @property
    def live(self):
        gc.collect()
        return ctypes.c_int64.in_dll(self.library, "live").value

    def capsule(self, name, pointer):
        return self.new(pointer, self.names[name], ctypes.cast(self.ends[name], ctypes.c_void_p))

    def schema(self, form, dictionary=None):
        return self.library.new_schema(form.encode(), ctypes.c_void_p(dictionary))

    def array(self, length, buffers, first=0, dictionary=None, nulls=-1):
        held = (ctypes.c_char_p * len(buffers))(*buffers)
        sizes = (ctypes.c_size_t * len(buffers))(*[len(one or b"") for one in buffers])
        return self.library.new_array(ctypes.c_int64(length), ctypes.c_int64(nulls), ctypes.c_int64(first),
                                      ctypes.c_int64(len(buffers)), held, sizes, ctypes.c_void_p(dictionary))

    def lent(self, schema, given):
        """An object with the interface, once."""
        return Lent(self.capsule("schema", schema), self.capsule("array", given))

    def streamed(self, schema, arrays, fails=False):
        held = (ctypes.c_void_p * len(arrays))(*arrays)
        stream = self.library.new_stream(ctypes.c_void_p(schema), held, ctypes.c_int64(len(arrays)), fails)
        return Streamed(self.capsule("stream", stream))

    def taken(self, column):
        """What the library writes of each row of a column."""
        schema, given = column.__arrow_c_array__()
        ends = array.array("q", bytes(8 * column.length))
        text = self.library.column_text(ctypes.c_void_p(self.pointer(schema, b"arrow_schema")),
                                        ctypes.c_void_p(self.pointer(given, b"arrow_array")),
                                        ctypes.c_int64(column.length), ctypes.c_void_p(ends.buffer_info()[0]))
        told = memoryview(ctypes.string_at(text, ends[-1] if ends else 0))
        self.library.free_text(ctypes.c_void_p(text))
        return [bytes(told[first:end]) for first, end in zip([0, *ends], ends)]


def bits_of(values, before=0):
    """Arrow's bitmap, behind some bits that say nothing."""
    bits = [True] * before + [value is not None for value in values]
    bits += [True] * (-len(bits) % 8)
    return bytes(sum(bit << at for at, bit in enumerate(bits[first:first + 8])) for first in range(0, len(bits), 8))


def laid_out(values, code):
    """Validity, offsets and data. Nulls have some bytes too, which say nothing."""
    parts = [b"\1\2\3" if value is None else value for value in values]
    offsets = array.array(code, [0])
    for part in parts:
        offsets.append(offsets[-1] + len(part))
    return bits_of(values), offsets.tobytes(), b"".join(parts)


def views_of(values):
    """The buffers of Arrow's views, with two blocks."""
    blocks, views = [bytearray(b"front"), bytearray()], bytearray()
    for at, value in enumerate(values):
        if value is None:
            views += struct.pack("<i4xii", 99, 77, -5)
        elif len(value) <= 12:
            views += struct.pack("<i12s", len(value), value)
        else:
            views += struct.pack("<i4sii", len(value), value[:4], at % 2, len(blocks[at % 2]))
            blocks[at % 2] += value
    return [bits_of(values), bytes(views), *map(bytes, blocks), struct.pack("<2q", *map(len, blocks))]


def in_utf8(values):
    return [value.encode("utf-8", "surrogatepass") if isinstance(value, str) else value for value in values]


def layouts(arrow, values, is_text):
    """What lends the same column in each of Arrow's layouts, by their names."""
    data = in_utf8(values)
    small, large, views = ("u", "U", "vu") if is_text else ("z", "Z", "vz")

    def lent(form, made, first=0):
        return arrow.lent(arrow.schema(form), arrow.array(len(data), made, first))

    def dictionary(before=0):
        known = {value: at for at, value in enumerate(dict.fromkeys(data))}
        indexes = array.array("i", [*range(before), *map(known.__getitem__, data)]).tobytes()
        return arrow.lent(arrow.schema("i", arrow.schema(small)), arrow.array(
            len(data), [None, indexes], before, arrow.array(len(known), laid_out([*known], "i"))))

    def stream():
        parts = [data[:1], [], data[1:7000], data[7000:]]
        return arrow.streamed(arrow.schema(small), [arrow.array(len(part), laid_out(part, "i")) for part in parts])

    return {
        small: lambda: lent(small, laid_out(data, "i")),
        large: lambda: lent(large, laid_out(data, "q")),
        f"{small} cut": lambda: lent(small, laid_out([b"before", None, b"it", *data, b"behind"], "i"), 3),
        views: lambda: lent(views, views_of(data)),
        f"{views} cut": lambda: lent(views, views_of([None, b"before", *data, b"behind"]), 2),
        "dictionary": dictionary,
        "dictionary cut": functools.partial(dictionary, 2),
        f"{large} cut": lambda: lent(large, laid_out([None, *data], "q"), 1),
        "stream": stream,
    }


def written(value):
    """A value as arrow.c writes it."""
    if value is None or isinstance(value, int):
        text = str("null" if value is None else value).lower().encode()
    elif isinstance(value, (bytes, str)):
        data = value if isinstance(value, bytes) else value.encode()
        text = b"%c%d:%b" % (b"z" if value is data else b"u", len(data), data)
    elif isinstance(value, tuple):
        text = b"{%b}" % b"".join(name.encode() + b"=" + written(one)
                                  for name, one in zip(getattr(value, "_fields"), value))
    else:
        text = b"[%b]" % b"".join(map(written, value))
    return text + b","


# ---- tests ----

def compare(count, what, found, expected):
    """Equal rows share their answers, so each pair of objects is compared once."""
    pairs = dict(zip(zip(map(id, found), map(id, expected)), zip(found, expected)))
    unequal = {key for key, (one, other) in pairs.items() if one != other or type(one) is not type(other)}
    wrong = [at for at, key in enumerate(zip(map(id, found), map(id, expected))) if key in unequal] if unequal else []
    count.add(len(found) == len(expected) and not wrong,
              f"{what}: {len(found)} rows, {len(wrong)} wrong"
              + (f", row {wrong[0]}: {found[wrong[0]]!r}, not {expected[wrong[0]]!r}"[:900] if wrong else ""))


def test_rows(count, of_hex, of_sddl, size, choices):
    """All forms of a column, in all calls. The single calls answer each distinct value once."""
    with tempfile.TemporaryDirectory() as folder:
        arrow = Arrow(folder)
        for calls, distinct in ((CALLS, [b"", *map(bytes.fromhex, of_hex)]), (OF_TEXTS, ["", *of_sddl])):
            rows, others = rows_of(distinct, size, choices)
            lenders = [*layouts(arrow, rows, calls is OF_TEXTS).items()]
            each = max(2, len(lenders) // len(calls))
            for at, (name, (named, call)) in enumerate(calls.items()):
                known = {value: outcome_of(call, value) for value in {*rows}}
                first = each * at % len(lenders)
                judge_call(count, arrow, name, named, rows, others, known, lenders[first:first + each])
        count.add(arrow.live == 0, f"{arrow.live} structures are not released")


def judge_call(count, arrow, name, named, rows, others, known, lenders):
    """One call, with some of Arrow's layouts. All calls together have all of these."""
    def each(table):
        return list(map(table.__getitem__, rows))

    call, is_text, expected = function(name), name in OF_TEXTS, each(known)
    answers = {value: outcome and outcome.answer for value, outcome in known.items()}
    plain = each(answers)
    faults = sum(outcome is not None and outcome.number is not None for outcome in expected)
    count.add(len(rows) // 20 < faults < len(rows) // 10 * 9, f"{name}: {faults} of {len(rows)} rows have a fault")
    for what, given in (("list", rows), ("others", others), ("generator", iter(rows)), ("tuple", tuple(others))):
        found = call(given, **named)
        count.add(type(found) is list, f"{name}, {what}: {type(found)}")
        compare(count, f"{name}, {what}", found, plain)
    compare(count, f"{name}, outcomes", call(others, **named, faults="struct"), expected)
    if numpy:
        held = numpy.empty(len(others), object)
        held[:] = rows
        found = call(held, **named)
        count.add(type(found) is numpy.ndarray and found.dtype == object, f"{name}, NumPy: {type(found)}")
        compare(count, f"{name}, NumPy", found.tolist(), plain)
    if pandas:
        held = pandas.Series(others, [f"row {at}" for at in range(len(others))], object, "sd")
        held[held.isna()] = float("nan")
        found = call(held, **named)
        count.add((type(found), found.name) == (pandas.Series, "sd") and found.index.equals(held.index),
                  f"{name}, pandas: {type(found)} {found.name}")
        compare(count, f"{name}, pandas", found.tolist(), plain)
    texts = each({value: written(answer) for value, answer in answers.items()})
    for what, lend in lenders:
        found = call(lend(), **named)
        count.add(type(found) is Column, f"{name}, {what}: {type(found)}")
        compare(count, f"{name}, {what}", arrow.taken(found), texts)
    valid, offsets, data = laid_out(in_utf8(rows), "q")
    held = Column(data, memoryview(offsets).cast("q"), valid, is_text=is_text)
    compare(count, f"{name}, buffers", arrow.taken(call(held, **named, faults="struct")),
            each({value: written(outcome) for value, outcome in known.items()}))


def test_lies(count, folder):
    """Offsets, views, indexes and lengths that lie are refused, and nothing is read beyond a buffer."""
    arrow, rows = Arrow(folder), [b"abcd", None, b"", b"a value of more than twelve bytes"]
    valid, offsets, data = laid_out(rows, "i")
    numbers = [0, 4, 7, 7, 40]
    lies = [[-1, 4, 7, 7, 40], [0, 4, 3, 7, 40], [0, 4, 7, 7, 6], [0, 4, 7, 41, 40], [0, 4, 7, 7, -40],
            [40, 0, 0, 0, 0], [2**31 - 1, 4, 7, 7, 40], [0, 2**31 - 1, -2**31, 7, 40], [5, 4, 7, 7, 40]]
    for name in ("to_sddl", "normalize", "check"):
        call = functools.partial(function(name), **CALLS[name][0])
        for lie in [*lies, [0, 4, 7, 7, 41], [0, 4, 7, 7, 2**31 - 1], [0, 4, 7, 41, 41]]:
            for code in "iq":
                judge_refusal(count, f"{name} {lie} {code}", call, Column(data, array.array(code, lie), valid))
        for lie in lies:  # Arrow does not say where its data ends
            given = arrow.array(4, (valid, array.array("i", lie).tobytes(), data))
            judge_refusal(count, f"{name} {lie} of Arrow", call, arrow.lent(arrow.schema("z"), given))
    right = views_of(rows)
    for at, lie in enumerate([(13, 2, 0), (13, -1, 0), (13, 0, -1), (13, 1, -20), (99, 0, 0), (13, 1, 30),
                              (2**31 - 1, 1, 0), (-1, 0, 0), (33, 1, 1), (33, 0, 2**31 - 1)]):
        views = right[1][:48] + struct.pack("<i4xii", *lie)
        given = arrow.array(4, [right[0], views, *right[2:]])
        judge_refusal(count, f"the view {lie}", columns.to_sddl, arrow.lent(arrow.schema("vz"), given))
    for index in (-1, 4, 2**31 - 1, -2**31):
        known = arrow.array(4, (valid, offsets, data))
        given = arrow.array(2, [None, struct.pack("<2i", 0, index)], 0, known)
        judge_refusal(count, f"the index {index}", columns.to_sddl, arrow.lent(
            arrow.schema("i", arrow.schema("z")), given))
    for form, buffers in (("+s", [None]), ("i", [None, bytes(16)]), ("u", (valid, offsets, data)), ("", [None]),
                          ("w:-4", [None, b""]), ("z", [valid, None, data]), ("z", [valid, offsets, None])):
        judge_refusal(count, f"the format {form!r}", columns.to_sddl, arrow.lent(
            arrow.schema(form), arrow.array(4, buffers)))
    for form, buffers in (("vz", right), ("w:2", [None, b"D:D:"]), ("z", (valid, offsets, data))):
        judge_refusal(count, f"the format {form!r} for texts", columns.from_sddl, arrow.lent(
            arrow.schema(form), arrow.array(2, buffers)))
    judge_refusal(count, "views of texts", columns.to_sddl, arrow.lent(arrow.schema("vu"), arrow.array(4, right)))
    for length, first in ((-1, 0), (4, -1)):
        judge_refusal(count, f"{length} rows from {first}", columns.to_sddl, arrow.lent(
            arrow.schema("z"), arrow.array(length, (valid, offsets, data), first)))
    for given in ([], [arrow.array(4, (valid, array.array("i", lies[1]).tobytes(), data))]):
        problem = raised(columns.to_sddl, arrow.streamed(arrow.schema("z"), given, True))
        count.add(type(problem) is (sdtool.ArgumentFault if given else OSError) and (given or "disk" in str(problem)),
                  f"a stream that fails: {problem!r}")
    for junk in (None, 1, (), (None, None), "x", (arrow.capsule("schema", arrow.schema("z")), 1)):
        given = Lent()
        given.capsules = junk
        judge_refusal(count, f"capsules {junk!r}", columns.to_sddl, given)
    given = problem = junk = None
    count.add(arrow.live == 0, f"{arrow.live} structures are not released")
    for arguments in ((data, []), (data, None), (data, b""), (data, array.array("i")),
                      (data, array.array("h", numbers)), (data, array.array("d", numbers)), (data, array.array(
                          "i", numbers), b""), ("x", array.array("i", [0])),
                      (data, memoryview(bytes(16)).cast("i", [2, 2])), (data, array.array("i", numbers), 7)):
        judge_refusal(count, f"buffers {arguments}", Column, *arguments)
    for form in ("z", "U"):
        sizes = laid_out(rows, "i" if form == "z" else "q")
        given = arrow.lent(arrow.schema(form), arrow.array(0, [None, None, None]))
        found = (columns.to_sddl if form == "z" else columns.from_sddl)(given)
        count.add(arrow.taken(found) == [] and found.format == {"z": "u", "U": "Z"}[form],
                  f"no rows of {form}: {found.format} {found.buffers} {sizes[:0]}")
    one = sdtool.from_sddl("O:BAG:SY")
    for most, form in ((8, "u"), (7, "U")):
        with unittest.mock.patch("sdtool.columns.buffers._MOST_OF_32_BITS", most):
            found = columns.to_sddl(Column(one, array.array("i", [0, len(one)])))
        count.add(found.format == form and arrow.taken(found) == [written("O:BAG:SY")], f"{most} bytes: {found.format}")
    nothing = arrow.lent(arrow.schema("n"), arrow.array(3, []))
    count.add(arrow.taken(columns.to_sddl(nothing)) == [written(None)] * 3, "Arrow's type of nulls")
    fixed = arrow.lent(arrow.schema("w:20"), arrow.array(2, [b"\2", bytes(20) + sdtool.from_sddl("") + bytes(20)], 1))
    found = columns.to_sddl(fixed, faults="struct")
    count.add(arrow.taken(found) == [*map(written, (Outcome("", None, None, None), None))], "bytes of one size")
    del given, nothing, fixed
    count.add(arrow.live == 0, f"{arrow.live} structures are not released at the end")
    del found
    gc.collect()
    count.add(not capsules._kept, f"{len(capsules._kept)} of our structures are not released")


def judge_refusal(count, what, call, *given):
    problem = raised(call, *given)
    count.add(isinstance(problem, sdtool.Error), f"{what}: {problem!r}")


def test_changes(count):
    """Buffers that change during a call have answers to what they were at some time, and each in its own row."""
    texts = ["O:BAD:(A;;FR;;;BU)", "O:SYD:(A;;FA;;;BA)(D;;FW;;;WD)"]
    data = [sdtool.from_sddl(text) for text in texts]
    size = max(map(len, data))
    padded = [one + bytes(size - len(one)) for one in data]
    rows = [bytearray(padded[at % 2]) for at in range(2000)]
    offsets = array.array("q", range(0, size * 2001, size))
    whole = bytearray(b"".join(padded * 1000))
    ends = threading.Event()

    def change():
        choices = random.Random(7)
        while not ends.is_set():
            at = choices.randrange(2000)
            rows[at][:] = padded[choices.randrange(2)]
            whole[at * size:(at + 1) * size] = padded[choices.randrange(2)]
            offsets[at] = choices.choice((at * size, -1, 2**62))

    held = Column(whole, offsets)
    before = columns.to_sddl(held).buffers
    thread = threading.Thread(target=change)
    thread.start()
    for _ in range(30):
        found = columns.to_sddl(rows)
        count.add(set(found) <= set(texts) and len(found) == 2000, f"rows that change: {set(found)}")
        count.add(columns.to_sddl(held).buffers == before, "a column of buffers that change later")
        other = raised(Column, whole, offsets) or raised(columns.to_sddl, Column(whole, offsets))
        count.add(other is None or type(other) is sdtool.ArgumentFault, f"offsets that change: {other!r}")
    ends.set()
    thread.join()
    valid = bytearray(b"\1")
    held = Column(data[0], array.array("i", [0, len(data[0])]), valid)
    valid[0] = 0
    count.add(bytes(columns.to_sddl(held).buffers[2]) == texts[0].encode(), "a bitmap that changes later")
    given = [data[0], data[1]]

    class Clearing(bytearray):
        """It empties the list that it is in."""

        def __getitem__(self, at):
            given.clear()
            return bytearray.__getitem__(self, at)

    given.append(Clearing(data[1]))
    count.add(columns.to_sddl(given) == [texts[0], texts[1], texts[1]], "a list that a row empties")


def test_faults(count):
    right, short, wrong = sdtool.from_sddl("D:"), b"short", bytes(20)
    rows = [None, right, wrong, short, right]
    for call, fault in ((columns.to_sddl, "revision"), (columns.normalize, "revision"), (columns.aces, "revision"),
                        (functools.partial(columns.check, token=TOKEN, wanted=1), "revision"),
                        (functools.partial(columns.derive, owner="BA", group="BA"), "revision")):
        problem = raised(call, rows, faults="raise")
        count.add(isinstance(problem, sdtool.Fault) and (problem.name, problem.argument, problem.index) == (
            fault, "column", 2) and str(problem).startswith("column[2]: error 6"), f"{call}: {problem!r}")
    problem = raised(columns.from_sddl, iter(["D:", None, "D:", "O:Z"]), faults="raise")
    count.add((problem.name, problem.index) == ("sid-form", 3), f"a text: {problem}")
    if pandas:
        series = pandas.Series(rows, ["a", "b", "c", "c", "d"])
        problem = raised(columns.to_sddl, series, faults="raise")
        count.add(problem.index == "c" and str(problem).startswith("column[c]: "), f"the label of a row: {problem}")
        for null in (None, float("nan"), pandas.NA, pandas.NaT):
            found = columns.to_sddl(pandas.Series([right, null]))
            count.add(found.tolist() == ["D:", None], f"{null!r}: {found.tolist()}")
        texts = pandas.Series(["D:", pandas.NA, "O:Z"], dtype="string")
        count.add(columns.from_sddl(texts).tolist() == [right, None, None], "pandas' strings")
        repeated = pandas.Series(["D:", "D:", None], dtype="category")
        count.add(columns.from_sddl(repeated).tolist() == [right, right, None], "pandas' categories")
        exploded = columns.aces(pandas.Series([sdtool.from_sddl("D:(A;;FR;;;BU)(A;;FW;;;BA)"), None])).explode()
        count.add([row and row.place for row in exploded.tolist()] == [0, 1, None], f"exploded: {exploded.tolist()}")
        frame = pandas.DataFrame({"sd": rows})
        judge_refusal(count, "a frame", columns.to_sddl, frame)
        judge_refusal(count, "a frame in place of texts", columns.from_sddl, frame)
    if numpy:
        for given in (numpy.array([right], "S"), numpy.zeros((2, 2), object), numpy.array([1.5]), numpy.array("D:")):
            judge_refusal(count, f"{given!r}", columns.to_sddl, given)
        count.add(columns.from_sddl(numpy.array(["D:", "O:Z"])).tolist() == [right, None], "NumPy's texts")
    for given in (None, 1, right, "D:", bytearray(right), [1], ["D:"], [right, object()], [[right]], [float("nan")],
                  Column(b"D:", array.array("i", [0, 2]), is_text=True)):
        judge_refusal(count, f"{given!r} in place of descriptors", columns.to_sddl, given)
    for given in ([right], [1], [None, b"D:"], Column(b"D:", array.array("i", [0, 2]))):
        judge_refusal(count, f"{given!r} in place of texts", columns.from_sddl, given)
    problem = raised(columns.to_sddl, [right, None, 7])
    count.add(type(problem) is sdtool.WrongType and "column[2]" in str(problem), f"{problem!r}")
    unmade = SecurityDescriptor.__new__(SecurityDescriptor)
    judge_refusal(count, "one that is not made", columns.to_sddl, [unmade])
    for call, named in ((columns.to_sddl, {"faults": "other"}), (columns.to_sddl, {"faults": None}),
                        (columns.to_sddl, {"domain": b""}), (columns.to_sddl, {"numeric": 1}),
                        (columns.from_sddl, {"domain": "x"}), (columns.check, {"token": None, "wanted": 1}),
                        (columns.check, {"token": TOKEN}), (columns.check, {"token": TOKEN, "wanted": 1 << 26}),
                        (columns.check, {"token": TOKEN, "wanted": 1, "mapping": "x"}),
                        (columns.derive, {"owner": "x", "group": "BA"}
                         ), (columns.derive, {"owner": "BA", "group": b""}),
                        (columns.derive, {"owner": "BA", "group": "BA", "kind": "x"}),
                        (columns.derive, {"owner": "BA", "group": "BA", "creator": b""}),
                        (columns.derive, {"owner": "BA", "group": "BA", "creator": short})):
        for rows in ([], [None], [right], [short]):
            problem = raised(call, rows, **named)
            count.add(isinstance(problem, sdtool.Error) and getattr(problem, "argument", None) != "column",
                      f"{call.__name__} {named} over {rows}: {problem!r}")
    ended = subprocess.run(["b2sum", "-l", "256"], input=sdtool.normalize(right), stdout=subprocess.PIPE, check=True)
    found = columns.digest([right, None, short, bytearray(right)])
    count.add([one and one.hex() for one in found] == [ended.stdout.split()[0].decode(), None, None, found[0].hex()],
              f"digests: {found}")


def test_arguments(count):
    """Each argument changes an answer, as it does that of the single call."""
    guid = "00299570-246d-11d0-a768-00aa006e0529"
    rows = [sdtool.from_sddl(text) for text in (
        "D:(A;;CR;;;PS)", f"D:(OA;;CR;{guid};;AU)", "D:(A;OICI;GA;;;AU)", "D:(A;OICIIO;GA;;;CO)(A;OICIIO;GR;;;CG)")]
    control = {"token": TOKEN, "wanted": 0x100}
    most = {"token": TOKEN, "maximum": True}
    new = {"owner": "BA", "group": "SY"}
    for name, given, more in (
            ("check", control, {"wanted": 2}), ("check", control, {"principal_self": "AU"}),
            ("check", control, {"object_type": guid}), ("check", control, {"maximum": True}),
            ("check", most, {"mapping": "key"}), ("check", most, {"token": Token(["WD"])}),
            ("derive", new, {"owner": "BU"}), ("derive", new, {"group": "BU"}), ("derive", new, {"kind": "container"}),
            ("derive", new, {"mapping": "key"}), ("derive", new, {"creator": CREATOR})):
        found, others = function(name)(rows, **{**given, **more}), function(name)(rows, **given)
        alone = [SecurityDescriptor.from_bytes(row).check(**{**given, **more}) if name == "check"
                 else sdtool.derive(row, **{**given, **more}) for row in rows]
        count.add(found == alone and found != others, f"{name} {more}: {found}, and alone {alone}")


def with_taken(call, rows):
    """What a call gives, and the values that the library converted for it."""
    taken, many = [], columns._library.convert_many

    def seen(kind, values, *rest):
        taken.extend(values)
        return many(kind, values, *rest)

    with unittest.mock.patch.object(columns._library, "convert_many", seen):
        return call(rows), taken


def test_once(count):
    """Each distinct value is answered once, in a million rows with hidden answers."""
    choices = random.Random(5)
    texts = [f"O:BAD:(A;;{mask:#x};;;S-1-5-21-{mask}-7)" for mask in range(1, 1001)]
    data = [sdtool.from_sddl(text) for text in texts] + [b"damaged"]
    picked = [choices.randrange(1001) for _ in range(1_000_000)]
    rows = [data[at] for at in picked]
    found, taken = with_taken(columns.to_sddl, rows)
    count.add(len(taken) == len(set(taken)) == 1001, f"{len(taken)} values were answered")
    expected = [*(sdtool.to_sddl(one) for one in data[:-1]), None]
    count.add(found == [expected[at] for at in picked], "a million rows")
    if pandas:
        series = pandas.Series([data[at][:] for at in picked])
        count.add(columns.to_sddl(series).tolist() == found, "a million rows of pandas")


def test_apart(count):
    """Where hardly two rows are equal, each is answered. Equal ones are seen wherever they are. All get what the single
    calls give."""
    rows = columns.from_sddl([f"O:BAD:(A;;{mask:#x};;;S-1-5-21-{mask}-7)" for mask in range(1, 10_001)])
    rows += [b"damaged", b"", None]
    known = {row: outcome_of(sdtool.to_sddl, row) for row in rows}
    for what, given, most in (("two equal pairs", [*rows, *rows[:2]], 10_004),
                              ("equal rows far away", rows * 2, 10_002),
                              ("equal rows one behind the other", [row for row in rows for _ in "12"], 10_002)):
        given = [row and bytes(bytearray(row)) for row in given]
        found, taken = with_taken(functools.partial(columns.to_sddl, faults="struct"), given)
        compare(count, what, found, [known[row] for row in given])
        count.add(len(taken) == most, f"{what}: {len(taken)} values were answered, not {most}")
        texts = [outcome and outcome.answer for outcome in found]
        expected = [outcome_of(sdtool.from_sddl, text) for text in texts]
        compare(count, f"{what}, from SDDL", columns.from_sddl(texts, faults="struct"), expected)


def test_room(count):
    """Where a call has many values, many calls and calls whose room is too small give the same answers."""
    texts = ["", "D:", *(f"O:BAD:{'(A;;FR;;;BU)' * number}" for number in range(40)), "O:Z", "\udcff", "D:(A;;FR;;;Z)"]
    data = columns.from_sddl(texts)
    for call, values in (columns.from_sddl, texts), (columns.to_sddl, data), (columns.normalize, data):
        expected = call(values, faults="struct")
        for first, growth, at_once in (0, 0, 1 << 12), (1, 1, 1), (30, 0, 7), (4096, 0, 41):
            with unittest.mock.patch.multiple(_foreign, _FIRST_SIZE=first, _GROWTH=growth), \
                    unittest.mock.patch.object(columns, "_AT_ONCE", at_once):
                compare(count, f"{call.__name__} with room {first}, {growth}, {at_once} at once",
                        call(values, faults="struct"), expected)


def test_dask(count):
    if not (dask and pandas):
        return
    from dask.bag import from_sequence
    from dask.dataframe import from_pandas
    from sdtool import dask as over
    choices = random.Random(3)
    data = [sdtool.from_sddl(f"O:BAD:(A;;{mask:#x};;;BU)") for mask in range(1, 300)] + [None, b"", b"damaged"]
    frame = pandas.DataFrame({"sd": [choices.choice(data) for _ in range(20_000)], "name": range(20_000)},
                             index=[f"{at:06}" for at in range(20_000)])
    frame["sddl"] = columns.to_sddl(frame.sd)
    parts = from_pandas(frame, npartitions=7)
    bag = from_sequence(frame.sd.tolist(), npartitions=5)

    def judge(where):
        for name, (named, _) in {**CALLS, **OF_TEXTS, "digest": ({}, None)}.items():
            column = "sddl" if name in OF_TEXTS else "sd"
            mapped = function(name, over)(parts[column], **named)
            expected = function(name)(frame[column], **named)
            found = mapped.compute()
            count.add((mapped.divisions, mapped.name, found.name) == (parts.divisions, column, column)
                      and found.index.equals(frame.index), f"{name} {where}: index, divisions and name")
            compare(count, f"{name} {where}", found.tolist(), expected.tolist())
            if name not in OF_TEXTS:
                compare(count, f"{name} of a bag {where}", function(name, over)(bag, **named).compute(),
                        function(name)(frame[column].tolist(), **named))
        more = parts.assign(text=over.to_sddl(parts.sd), granted=over.check(parts.sd, TOKEN, FileMask.FR)).compute()
        count.add(list(more.columns) == ["sd", "name", "sddl", "text", "granted"] and more.name.equals(frame.name)
                  and more.text.equals(frame.sddl), f"other columns {where}")
        problem = raised(over.to_sddl(parts.sd, faults="raise").compute)
        first = frame.index[[at in (b"", b"damaged") for at in frame.sd]]
        count.add(isinstance(problem, sdtool.Fault) and problem.index in first, f"a fault {where}: {problem!r}")

    with dask.config.set(scheduler="sync"):
        judge("in this thread")
        for given in (frame.sd, [b""], parts, None):
            judge_refusal(count, f"{type(given)} in place of a series of Dask", over.to_sddl, given)
        judge_refusal(count, "a domain", functools.partial(over.to_sddl, domain="x"), parts.sd)
        judge_refusal(count, "a series of Dask", columns.to_sddl, parts.sd)
    with tempfile.TemporaryDirectory(ignore_cleanup_errors=True) as folder:
        processes = dask_cluster.Processes(folder, sys.executable, preload.LIBRARY)
        try:
            _, address = processes.start_scheduler()
            for threads in (1, 2):
                processes.start_worker(address, threads=threads)
            processes.wait_for_workers(address, 2)
            with dask_cluster.client_of(address) as client:
                before = client.run_on_scheduler(lambda dask_scheduler: dask_scheduler.transition_counter)
                judge("by a client that is there")
                after = client.run_on_scheduler(lambda dask_scheduler: dask_scheduler.transition_counter)
                count.add(after > before, "the client's workers have answered")
                many = pandas.concat([frame] * 50, ignore_index=True)
                found = over.to_sddl(from_pandas(many, npartitions=16).sd).compute()
                count.add(found.equals(many.sddl), "a million rows")
        finally:
            processes.end_all()


def test_document(count):
    """The programs of docs/DISTRIBUTED.md that can run here."""
    if not (dask and pandas):
        return
    section = (TOP / "docs/DISTRIBUTED.md").read_text(encoding="utf-8").partition("\n## Columns\n")[2]
    program, printed = re.findall(r"^```\w*\n(.*?)^```$", section.partition("\n## ")[0], re.S | re.M)
    ended = subprocess.run([sys.executable, "-c", program], stdout=subprocess.PIPE, stderr=subprocess.STDOUT, text=True)
    count.add(ended.stdout == printed, f"docs/DISTRIBUTED.md prints {ended.stdout!r}, not {printed!r}")
    statement = re.search(r"^[|] pandas [|] `(.*)` [|]$", section, re.M)[1]
    held = {"columns": columns, "frame": pandas.DataFrame({"sd": [sdtool.from_sddl("D:P"), None]})}
    exec(statement, held)
    count.add(held["frame"].sddl.tolist() == ["D:P", None], f"{statement}: {held['frame']}")


def test_ends(count, folder):
    """A column that another library still has when Python ends."""
    Arrow(folder)
    code = (f"import ctypes, sys; sys.path[:0] = [{str(TOP / 'python')!r}]\nfrom sdtool import columns\n"
            "made = columns.Column.of('u', ['x'], [0], False).__arrow_c_array__()\n"
            "sys.modules['kept'] = made\nprint('whole')")
    ended = subprocess.run([sys.executable, "-c", code], stdout=subprocess.PIPE, stderr=subprocess.STDOUT, text=True)
    count.add((ended.returncode, ended.stdout) == (0, "whole\n"), f"a capsule at the end: {ended}")


def add_options(parser):
    parser.add_argument("--seed", type=int, default=1)
    parser.add_argument("--rows", type=int, default=100_000)
    parser.add_argument(WITHOUT_EXTENSION, action="store_true", help="by ctypes alone")


def main(count: preload.Count, arguments: preload.Given) -> None:
    preload.go_on_in(preload.python_with(*OPTIONAL) or sys.executable)
    for name in OPTIONAL:
        if optional(name) is None:
            print(f"skipped: columns of {name} (Debian: python3-{name})")
    choices = random.Random(arguments.seed)
    if preload.is_chosen(test_rows):
        of_hex, of_sddl = python_plain.lines(min(1500, arguments.rows), choices)
        test_rows(count, of_hex, of_sddl, arguments.rows, choices)
    for test in filter(preload.is_chosen, (test_changes, test_faults, test_arguments, test_once, test_apart,
                                           test_room)):
        test(count)
    with tempfile.TemporaryDirectory() as folder:
        for in_folder in filter(preload.is_chosen, (test_lies, test_ends)):
            in_folder(count, folder)
    once = list(filter(preload.is_chosen, (test_dask, test_document)))
    if arguments.without_extension:
        return
    for test in once:
        test(count)
    if "sdtool._native" not in sys.modules:
        print("skipped: the extension is not built, so this was ctypes")
    else:
        count.add_run([sys.executable, *sys.argv, WITHOUT_EXTENSION], before="without the extension: ")
