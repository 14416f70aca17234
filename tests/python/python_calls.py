"""Tests the Python module over the built library: that arguments are checked before they reach the library, what
exceptions say and that they can be pickled, what is true and what is not, lines() beside the program on the same input,
`python -m sdtool` beside the program on the worked rows and on streams that fail, and an import without the library.
With mypy, a caller has to pass its strict mode.
"""
import concurrent.futures
import copy
import io
import os
import pathlib
import pickle
import re
import shutil
import subprocess
import sys
import tempfile
import threading
import uuid

import c_library
import preload
from preload import raised

TOP = c_library.TOP
ENVIRONMENT = {**os.environ, "SDTOOL_LIBRARY": preload.LIBRARY, "PYTHONPATH": str(TOP / "python")}
os.environ.update(ENVIRONMENT)
sys.path.insert(0, str(TOP / "python"))
import sdtool  # noqa: E402

SECONDS = 3000
MORE_MEMORY = 32 << 10  # KiB that a stream of 100 MB may add
# From MS-DTYP 2.4.2: Users, Administrators, Everyone, System.
BU, BA = bytes.fromhex("01020000000000052000000021020000"), bytes.fromhex("01020000000000052000000020020000")
WD, SY = bytes.fromhex("010100000000000100000000"), bytes.fromhex("010100000000000512000000")
READ = 0x120089
EMPTY = bytes.fromhex("0100008000000000000000000000000000000000")
OF_USERS = sdtool.from_sddl("O:BAD:(A;;FR;;;BU)")
# One descriptor for which the words of the caller below are wrong in each way.
HOSTILE = (b"D:P\n\nzz\nO:BAD:(A;;FR;;;BU)\r\nD:(A;;FA;;;WD)\r\r\n \n\xff\xfe\nD:(OA;;RP;x;;WD)\n\0\nO:DA\n"
           b"D:(A;;FR;;;WD)\r")

CALLER = '''
import uuid
from typing import Iterator, List, Optional
import sdtool

def ask(text: str, user: bytes) -> Optional[bool]:
    try:
        verdict = sdtool.check(sdtool.from_sddl(text), [user, bytearray(user)], wanted=0x2, mapping="file", level=8192,
                               object_type=uuid.UUID(int=0))
    except sdtool.Fault as fault:
        print(fault.number, fault.name, fault.part or "", fault.line, fault.meaning)
        return None
    return verdict.granted

def all_of(path: str) -> List[str]:
    with open(path, "rb") as file:
        answers: Iterator[str] = sdtool.lines(file, ["convert"])
        return [*answers, *sdtool.lines(["D:P", b"D:"], ["convert", "--from", "sddl"], ahead=1)]

def trustees(path: str) -> Iterator[str]:
    with open(path) as file:
        for found in sdtool.plain_descriptors((line.rstrip("\\n") for line in file), domain="S-1-5-21-1-2-3"):
            if isinstance(found, sdtool.Fault):
                print(found.line)
            elif isinstance(found.dacl, tuple):
                yield from (ace.sid for ace in found.dacl if ace.kind == "A" and ace.mask & 0x2)
            else:
                yield f"everyone, since the DACL is {found.dacl}"
'''
WRONG_CALLER = "import sdtool\nsdtool.check(b'', [], mapping='folder')\nsdtool.to_sddl('D:')\n"


def test_types(count):
    """Of each argument some values of a wrong type, which are a WrongType, and so a TypeError, that names it."""
    whole: dict = {
        sdtool.to_sddl: {"descriptor": EMPTY, "domain": None, "numeric": False},
        sdtool.explain: {"descriptor": EMPTY, "domain": None, "numeric": False},
        sdtool.normalize: {"descriptor": EMPTY},
        sdtool.from_sddl: {"text": "D:", "domain": None},
        sdtool.check: {"descriptor": EMPTY, "sids": [BU], "deny_only": [BU], "wanted": 1, "maximum": False,
                       "mapping": "file",
                       "level": None, "object_type": None, "principal_self": None, "security": False,
                       "take_ownership": False},
        sdtool.derive: {"parent": EMPTY, "owner": BU, "group": BU, "kind": "file", "creator": None, "mapping": "file"},
        sdtool.run: {"words": ["convert"], "input": b""},
        sdtool.lines: {"source": [], "words": ["convert"], "ahead": 1},
        sdtool.fault_text: {"number": 25},
        sdtool.ace_from_text: {"text": "(A;;FR;;;BU)", "domain": None},
        sdtool.ace_to_text: {"ace": sdtool.ace_from_text("(A;;FR;;;BU)"), "domain": None, "numeric": False},
        sdtool.rights_from_text: {"text": "FR"}, sdtool.rights_to_text: {"mask": 1, "label": False},
        sdtool.flags_from_text: {"text": "OI"}, sdtool.flags_to_text: {"flags": 1},
        sdtool.guid_from_text: {"text": "bf967aba-0de6-11d0-a285-00aa003049e2"},
        sdtool.guid_to_text: {"guid": bytes(16)},
        sdtool.plain_descriptors: {"descriptors": [], "domain": None, "ahead": 1},
    }
    wrong: dict = {
        "descriptor": ["O:BA", None, 20, [1], object()], "domain": [1, ["S"], 1.0], "numeric": [0, 1, None, "yes"],
        "text": [None, 1, object(), ["D:"]], "sids": [BU, "BU", None, 1, [1], [None], [BU, 2.0]],
        "deny_only": [BU, "BU", None, [1]], "wanted": [True, False, None, 1.0, "FR", b"1"], "maximum": [0, 1, None],
        "mapping": [0, None, b"file"], "level": [True, 1.0, "high"], "object_type": [1, 1.0],
        "principal_self": [1, [BU]],
        "security": [0, None], "take_ownership": [1, "yes"], "parent": ["D:", None], "owner": [None, 1],
        "group": [None, 1],
        "kind": [1, None], "creator": ["D:", 1], "words": ["convert", b"convert", [b"convert"], [None]],
        "input": ["D:", None, 5], "source": ["D:", b"D:", 5], "ahead": [True, None, 1.5],
        "number": [True, None, "25", 25.0], "ace": ["(A;;FR;;;BU)", None, 1], "mask": [True, None, "FR", 1.0],
        "label": [0, None, "ML"], "flags": [True, None, "OI", 1.0], "guid": [1, None, "00"],
        "descriptors": ["D:", b"D:", 5, None],
    }
    for call, arguments in whole.items():
        problem = raised(call, **arguments)
        count.add(problem is None, f"{call.__name__} of right arguments: {problem!r}")
        for name in arguments:
            for value in wrong[name]:
                problem = raised(call, **{**arguments, name: value})
                count.add(type(problem) is sdtool.WrongType and name in str(problem),
                          f"{call.__name__}({name}={value!r}): {problem!r}")
    problem = raised(list, sdtool.lines([1], ["convert"]))
    count.add(type(problem) is sdtool.WrongType and "source[0]" in str(problem),
              f"a line that is a number: {problem!r}")
    problem = raised(list, sdtool.plain_descriptors([1]))
    count.add(type(problem) is sdtool.WrongType and "descriptors" in str(problem), f"a number of many: {problem!r}")


class Index:
    """A number of another class, as numpy has."""

    def __init__(self, value):
        self.value = value

    def __index__(self):
        return self.value


def test_numbers(count):
    ask = lambda **named: sdtool.check(OF_USERS, [BU], **{"wanted": READ, **named})  # noqa: E731
    for number in (-1, 2**32, 2**32 | READ, -2**31, 2**64, 2**31 - 2**32):
        for name in ("wanted", "level"):
            problem = raised(ask, **{name: number})
            count.add(type(problem) is sdtool.ArgumentFault and problem.argument == name,
                      f"{name}={number}: {problem!r}")
    for number in (-1, 2**8 + 25, 2**16 + 25, 2**24 + 25, 2**32 + 25, 2**64 + 25, 25 - 2**32):
        problem = raised(sdtool.fault_text, number)
        count.add(type(problem) is sdtool.ArgumentFault and problem.argument == "number",
                  f"fault_text({number}): {problem!r}")
    for number in (-1, 0, 2**32):
        problem = raised(sdtool.lines, [], ["convert"], ahead=number)
        count.add(type(problem) is sdtool.ArgumentFault and problem.argument == "ahead", f"ahead={number}: {problem!r}")
    count.add(ask(wanted=Index(READ)) == (True, READ) and ask(level=Index(0)), "a number of another class")
    # The highest numbers are taken as they are: a level above each label, and rights that cannot be asked for.
    labelled = sdtool.from_sddl("D:(A;;FA;;;BU)S:(ML;;NW;;;SI)")
    for level, granted in ((0, False), (16383, False), (16384, True), (2**32 - 1, True)):
        count.add(sdtool.check(labelled, [BU], wanted=2, level=level).granted == granted, f"level {level}")
    problem = raised(ask, wanted=2**32 - 1)
    count.add(type(problem) is sdtool.Fault and problem.number == 51, f"all rights: {problem!r}")


def test_sids(count):
    """No SID is made of what is left of another one."""
    for name in ("sids", "deny_only"):
        for values, index in (([BU + BA], 0), ([BU, b""], 1), ([b""], 0), ([BU[:-1]], 0), ([BU, BU, BU + b"\0"], 2),
                              ([BU[:8], BU[8:]], 0)):
            problem = raised(sdtool.check, EMPTY, **{"sids": [], **{name: values}}, wanted=1)
            count.add(type(problem) is sdtool.ArgumentFault and (problem.argument, problem.index) == (name, index),
                      f"{name}={values}: {problem!r}")
    problem = raised(sdtool.check, EMPTY, [BU + BA], deny_only=[b""], wanted=1)
    count.add(type(problem) is sdtool.ArgumentFault and problem.index == 0, f"two SIDs in one: {problem!r}")
    for named in ({"owner": b""}, {"group": b""}, {"owner": BU + BA}, {"group": BU[:-4]}):
        problem = raised(sdtool.derive, EMPTY, **{"owner": BA, "group": BA, **named})
        count.add(type(problem) is sdtool.ArgumentFault and problem.argument in named, f"derive {named}: {problem!r}")
    for call in (sdtool.to_sddl, sdtool.explain):
        problem = raised(call, EMPTY, domain=BU + BA)
        count.add(type(problem) is sdtool.ArgumentFault and problem.argument == "domain",
                  f"{call.__name__}: {problem!r}")
        problem = raised(call, EMPTY, domain=b"")
        count.add(type(problem) is sdtool.ArgumentFault and problem.argument == "domain",
                  f"{call.__name__}: {problem!r}")
    # No bytes are no SID, and do not say that there is none.
    for data in (BU[:-1], b""):
        problem = raised(sdtool.check, EMPTY, [], principal_self=data, wanted=1)
        count.add(type(problem) is sdtool.ArgumentFault and problem.argument == "principal_self", f"self: {problem!r}")
    problem = raised(sdtool.derive, EMPTY, BA, BA, creator=b"")
    count.add(type(problem) is sdtool.Fault and (problem.number, problem.argument) == (5, "creator"),
              f"creator: {problem!r}")
    for size in (0, 1, 15, 17, 32):
        problem = raised(sdtool.check, EMPTY, [], object_type=bytes(size), wanted=1)
        count.add(type(problem) is sdtool.ArgumentFault and problem.argument == "object_type",
                  f"GUID of {size}: {problem!r}")
    count.add(raised(sdtool.check, EMPTY, [BU] * 1024, wanted=1) is None, "1,024 SIDs")
    problem = raised(sdtool.check, EMPTY, [BU] * 1000, deny_only=[BU] * 25, wanted=1)
    count.add(type(problem) is sdtool.ArgumentFault and problem.argument == "sids", f"1,025 SIDs: {problem!r}")


def test_taken_types(count):
    """Bytes of each type, also where they do not lie side by side, a generator of SIDs, and GUIDs of both types."""
    apart = memoryview(bytes(byte for pair in zip(OF_USERS, OF_USERS) for byte in pair))[::2]
    for data in (OF_USERS, bytearray(OF_USERS), memoryview(OF_USERS), apart, memoryview(bytearray(OF_USERS))):
        count.add(sdtool.to_sddl(data) == "O:BAD:(A;;FR;;;BU)" and sdtool.normalize(data) == OF_USERS, f"{type(data)}")
        count.add(sdtool.explain(data).endswith("end\n") and sdtool.check(data, [BU], wanted=READ), f"{type(data)}")
        count.add(sdtool.derive(data, BA, bytearray(BA), creator=data) != b"", f"derive of {type(data)}")
    for sids in ([BU], (BU,), {BU}, (sid for sid in [BU]), [bytearray(BU)], [memoryview(BU)], {BU: 1}):
        count.add(sdtool.check(OF_USERS, sids, wanted=READ).granted, f"SIDs as {type(sids)}")
    user = uuid.UUID("bf967aba-0de6-11d0-a285-00aa003049e2")
    object_ace = sdtool.from_sddl(f"D:(OA;;CR;{user};;AU)")
    signed_in = sdtool.from_sddl("O:AU")[20:]
    for value, granted in ((user, True), (user.bytes_le, True), (bytearray(user.bytes_le), True), (None, False),
                           (user.bytes, False)):
        verdict = sdtool.check(object_ace, [signed_in], wanted=0x100, mapping="ds", object_type=value)
        count.add(verdict.granted == granted, f"object_type={value!r}")
    domain = sdtool.from_sddl("O:S-1-5-21-1-2-3")[20:]
    for value in (domain, bytearray(domain), memoryview(domain)):
        count.add(sdtool.from_sddl("O:DA", domain=value) == sdtool.from_sddl("O:S-1-5-21-1-2-3-512"), f"{type(value)}")


def test_verdicts(count):
    yes, no = sdtool.check(OF_USERS, [BU], wanted=READ), sdtool.check(OF_USERS, [BU], wanted=2)
    count.add(bool(yes) is True and bool(no) is False, "the truth of a verdict")
    count.add((yes.granted, yes.mask) == (True, READ) and (no.granted, no.mask) == (False, 2), f"{yes} {no}")
    count.add(pickle.loads(pickle.dumps(no)) == no and not copy.deepcopy(no), "a verdict that is copied")
    # Nothing is granted with --maximum: denied, with no right that is missing.
    none = sdtool.check(sdtool.from_sddl("D:"), [BU], maximum=True)
    count.add(not none and none == (False, 0), f"{none}")


def faults():
    """Some faults, each with what it has to say."""
    yield raised(sdtool.from_sddl, "D:(A;;FA;;;Everyone)"), (25, "sid-form", None, None, None,
                                                             None), "error 25 sid-form"
    yield raised(sdtool.to_sddl, b""), (5, "short", None, None, None, None), "error 5 short"
    yield (raised(sdtool.to_sddl, bytes.fromhex("01000480000000000000000000000000140000000200080001000000")),
           (11, "ace-size", "dacl", None, None, None), "error 11 ace-size dacl")
    yield (raised(sdtool.normalize, bytes.fromhex("0100008014000000140000000000000000000000") + SY),
           (14, "overlap", "owner", "group", None, None), "error 14 overlap owner group")
    yield raised(sdtool.check, EMPTY, [BU]), (50, "empty-request", None, None, None, None), "error 50 empty-request"
    yield raised(sdtool.derive, EMPTY, BA, BA, creator=b"x"), (5, "short", None, None, "creator", None), "error 5 short"
    yield raised(sdtool.derive, b"x", BA, BA), (5, "short", None, None, None, None), "error 5 short"


def test_faults(count):
    names = ("number", "name", "part", "other_part", "argument", "index")
    for fault, expected, line in faults():
        count.add(type(fault) is sdtool.Fault and tuple(getattr(fault, name) for name in names) == expected,
                  f"{fault!r}")
        count.add(fault.line == line and line in str(fault) and fault.meaning in str(fault), f"{fault}")
        count.add(fault.argument is None or str(fault).startswith(fault.argument + ": "), f"{fault}")
    others = [raised(sdtool.check, EMPTY, [BU, b""], wanted=1), raised(sdtool.run, ["convert", "\0"], b""),
              raised(sdtool.lines, [], ["convert", "--to", "xml"])]
    count.add([(type(fault), fault.number, fault.name, fault.argument, fault.index) for fault in others] ==
              [(sdtool.ArgumentFault, 70, "argument", *rest) for rest in (("sids", 1), ("words", 1), ("words", None))],
              f"{others}")
    count.add("sdtool: usage: --to" in str(others[2]) and "sids[1]" in str(others[0]), f"{others}")
    for fault in [*(fault for fault, _, _ in faults()), *others]:
        count.add(isinstance(fault, (sdtool.Error, ValueError)) and isinstance(fault, sdtool.Error),
                  f"{type(fault).__mro__}")
        copies = [copy.copy(fault), copy.deepcopy(fault)]
        copies += [pickle.loads(pickle.dumps(fault, protocol)) for protocol in range(pickle.HIGHEST_PROTOCOL + 1)]
        for found in copies:
            count.add(type(found) is type(fault) and str(found) == str(fault) and found.args == fault.args and
                      all(getattr(found, name) == getattr(fault, name) for name in names),
                      f"a copy of {fault!r}: {found!r}")
    count.add(not issubclass(sdtool.ArgumentFault, sdtool.Fault), "an argument's fault is none of the descriptor's")


def answer_of(line):
    """Work of another process: a line that is refused raises a Fault there."""
    return sdtool.to_sddl(sdtool.from_sddl(line))


def test_processes(count):
    """A refused line in a process pool is raised in this process, and the pool goes on."""
    with concurrent.futures.ProcessPoolExecutor(2) as pool:
        futures = [pool.submit(answer_of, line) for line in ("D:P", "D:(A;;FA;;WD)", "O:BA")]
        found = [future.exception() or future.result() for future in futures]
    count.add(found[0] == "D:P" and found[2] == "O:BA" and isinstance(found[1], sdtool.Fault) and found[1].number == 20,
              f"a pool: {found}")


def test_empty_text(count):
    """The empty text is a descriptor without parts, and grants everything; a newline is no part of a line."""
    for text in ("", " ", "\t "):
        count.add(sdtool.from_sddl(text) == EMPTY, f"{text!r}")
        count.add(sdtool.check(sdtool.from_sddl(text), [BU], wanted=0x1f01ff).granted, f"{text!r} grants")
    for text, number in (("D:(A;;FA;;;WD)\n", 20), ("\n", 20), ("D:P\n", 26), ("O:BA\n", 25), ("D:P\r", 26),
                         ("\ufeffD:P", 20)):
        problem = raised(sdtool.from_sddl, text)
        count.add(isinstance(problem, sdtool.Fault) and problem.number == number, f"{text!r}: {problem!r}")
    for text in ("O:\udcff", "D:(A;;FA;;;\ud800)", "\u0661"):
        count.add(isinstance(raised(sdtool.from_sddl, text), sdtool.Fault), f"{text!r}")


def expected_answers(program, words, data):
    """What the program answers to each line, one run a line."""
    pieces = data.split(b"\n")
    whole = [piece + b"\n" for piece in pieces[:-1]] + [pieces[-1]] * (pieces[-1] != b"")
    return [c_library.of_program([program, *words], line)[0].decode()[:-1] for line in whole]


class Slow(io.RawIOBase):
    """A file that gives one byte a read."""

    def __init__(self, data):
        super().__init__()
        self.rest = data

    def readable(self):
        return True

    def readinto(self, buffer):
        one, self.rest = self.rest[:1], self.rest[1:]
        buffer[:len(one)] = one
        return len(one)


def test_lines(count, program):
    for words in (["convert", "--from", "sddl"], ["explain", "--from", "sddl"],
                  ["convert", "--from", "sddl", "--to", "hex"],
                  ["check", "--from", "sddl", "--token", "WD", "--maximum"]):
        expected = expected_answers(program, words, HOSTILE)
        for name, source in (("BytesIO", io.BytesIO(HOSTILE)), ("slow", Slow(HOSTILE)),
                             ("buffered", io.BufferedReader(Slow(HOSTILE), 3))):
            count.add(list(sdtool.lines(source, words)) == expected, f"lines of {name}, {words}")
        # As a list, each item is a line: the last one too.
        items = HOSTILE.split(b"\n")
        expected = expected_answers(program, words, HOSTILE + b"\n")
        for ahead in (1, 2, 3, 1000):
            count.add(list(sdtool.lines(items, words, ahead=ahead)) == expected,
                      f"lines of a list, {words}, {ahead} ahead")
        count.add(list(sdtool.lines(map(memoryview, items), words)) == expected, f"lines of views, {words}")
        count.add(list(sdtool.lines((item + b"\n" for item in items), words)) == expected,
                  f"lines with newlines, {words}")
    convert = ["convert", "--from", "sddl"]
    count.add(list(sdtool.lines(io.StringIO("D:P\nO:BA\n\nD:"), convert)) == ["D:P", "O:BA", "", "D:"],
              "lines of a text")
    count.add(list(sdtool.lines(["D:P", "O:\u00fc", "D:"], convert)) == ["D:P", "error 25 sid-form", "D:"], "no ASCII")
    count.add(list(sdtool.lines([], convert)) == [] and list(sdtool.lines([""], convert)) == [""],
              "no line, and an empty one")
    problem = raised(list, sdtool.lines(["D:P", "D:\nD:"], convert))
    count.add(type(problem) is sdtool.ArgumentFault and (problem.argument, problem.index) == ("source", 1),
              f"{problem!r}")
    long = 1_049_872
    found = list(sdtool.lines([" " * long, " " * (long + 1), b" " * 3_000_000, "D:P"], convert))
    count.add(found == ["", "error 1 too-long", "error 1 too-long", "D:P"],
              f"long lines: {[one[:30] for one in found]}")
    for words in ([], ["convert", "--to"], ["--help"], ["check"], ["convert", "\ud800"]):
        problem = raised(sdtool.lines, ["D:P"], words)
        count.add(type(problem) is sdtool.ArgumentFault and problem.argument == "words",
                  f"lines with {words}: {problem!r}")
    test_order(count, convert)


def test_order(count, words):
    """Answers come as soon as they can: before the next line with ahead=1, and for each piece that a pipe has."""
    seen = []

    def source():
        for line in ("D:P", "O:BA", "D:"):
            yield line
            count.add(seen[-1:] == [line], f"the answer to {line} comes before the next line: {seen}")

    for answer in sdtool.lines(source(), words, ahead=1):
        seen.append(answer)
    count.add(seen == ["D:P", "O:BA", "D:"], f"{seen}")
    reading, writing = os.pipe()
    with open(reading, "rb") as file:
        answers = sdtool.lines(file, words)
        for line in (b"D:P\nO:BA\n", b"D:\nO:"):
            os.write(writing, line)
            count.add([next(answers) for _ in range(line.count(b"\n"))] ==
                      line.decode().split("\n")[:-1], f"a pipe that had {line}")
        os.close(writing)
        count.add(list(answers) == ["error 25 sid-form"], "the end of a pipe")
    # No bytes yet are not the end, and what is there of a line is no line.
    for mode, buffering in ("rb", -1), ("rb", 0), ("r", -1):
        reading, writing = os.pipe()
        os.set_blocking(reading, False)
        with open(reading, mode, buffering) as file:
            os.write(writing, b"D:P\nO:")
            answers = sdtool.lines(file, words, ahead=1)
            found = next(answers), type(raised(next, answers))
            count.add(found == ("D:P", BlockingIOError), f"a pipe in non-blocking mode, {mode} {buffering}: {found}")
            answers = sdtool.lines(file, words)
            os.write(writing, b"D:")
            os.close(writing)
            count.add(list(answers) == ["D:"], f"the end of a pipe in non-blocking mode, {mode} {buffering}")


def test_memory(count):
    """A stream of 100 MB in memory that does not grow, and a line without an end."""
    code = """
import resource, sys, sdtool
def lines():
    for _ in range(1_000_000):
        yield "O:BAD:(A;;FR;;;BU)(A;;FR;;;BU)(A;;FR;;;BU)(A;;FR;;;BU)(A;;FR;;;BU)(A;;FR;;;BU)(A;;FR;;;BU)(A;;FR;;;BU)"
def peak():
    return resource.getrusage(resource.RUSAGE_SELF).ru_maxrss
words = ["check", "--from", "sddl", "--token", "WD", "--maximum"]
list(sdtool.lines(["D:P"] * 3000, words))
before = peak()
print(sum(1 for answer in sdtool.lines(lines(), words) if answer == "denied 0x00000000"), peak() - before)
class Endless:
    left = 1600
    def read1(self, size):
        self.left -= 1
        return b"x" * 65536 if self.left > 0 else b""
import io
class File(Endless, io.RawIOBase): pass
print(list(sdtool.lines(File(), words)), peak() - before)
"""
    found, status = ran([sys.executable, "-c", code])
    numbers = re.fullmatch(r"1000000 (\d+)\n\['error 1 too-long'\] (\d+)\n", found)
    count.add(status == 0 and numbers and max(map(int, numbers.groups())) < MORE_MEMORY, f"memory: {found}")


def ran(words, **others):
    ended = subprocess.run(words, stdout=subprocess.PIPE, stderr=subprocess.STDOUT, timeout=SECONDS,
                           check=False, text=True, env=others.pop("env", ENVIRONMENT), **others)
    return ended.stdout, ended.returncode


MODULE = [sys.executable, "-B", "-m", "sdtool"]


def test_program(count, program):
    """The worked rows by `python -m sdtool`, and what it makes of streams that fail."""
    rows = [row for row in c_library.rows_in_memory() if len(row[2]) < 100_000]
    for name, words, data in rows[::3]:
        found = c_library.of_program([*MODULE, *words], data, env=ENVIRONMENT)
        expected = c_library.of_program(["sdtool", *words], data, executable=program)
        count.add(found == expected, f"python -m sdtool, {name}: {found} in place of {expected}"[:900])
    for words in ([b"convert", b"\xff"], [b"convert", b"--domain", b"\xc3"], []):
        found = c_library.of_program([*MODULE, *words], b"", env=ENVIRONMENT)
        count.add(found == c_library.of_program([program, *words], b""), f"python -m sdtool {words}: {found}")
    shell = "printf 'D:P\\nD:\\nzz' | {} convert --from sddl {}; echo ${{PIPESTATUS[1]}}"
    plain, module = str(program), " ".join(MODULE)
    for streams in (">/dev/full", ">&-", "<&-", "2>/dev/full", "2>&-", "<&- >/dev/full"):
        found, expected = (ran(["bash", "-c", shell.format(one, streams)]) for one in (module, plain))
        count.add(found == expected, f"python -m sdtool {streams}: {found} in place of {expected}")
    # An answer comes before the next line is there.
    with subprocess.Popen([*MODULE, "convert", "--from", "sddl"], stdin=subprocess.PIPE, stdout=subprocess.PIPE,
                          env=ENVIRONMENT) as process:
        for line in (b"D:P\n", b"O:BA\n"):
            process.stdin.write(line)
            process.stdin.flush()
            count.add(process.stdout.readline() == line, f"the answer to {line} while the input is open")
        process.stdin.close()
        count.add(process.wait() == 0, "the status")


def test_imports(count):
    code = "import sdtool"
    for name, shown in (("/nowhere/libsdtool.so", "/nowhere/libsdtool.so"), ("libc.so.6", "sdtool_"),
                        (str(TOP), str(TOP))):
        found, status = ran([sys.executable, "-c", code], env={**ENVIRONMENT, "SDTOOL_LIBRARY": name})
        last = found.splitlines()[-1]
        count.add(status == 1 and last.startswith("ImportError:") and name in last and shown in last and
                  "SDTOOL_LIBRARY" in last, f"an import of {name}: {found}")
    without = {name: value for name, value in ENVIRONMENT.items() if name not in ("SDTOOL_LIBRARY", "LD_LIBRARY_PATH")}
    found, status = ran([sys.executable, "-c", code + "; print(sdtool.version())"], env=without)
    last = found.splitlines()[-1]
    # A machine may have the library.
    count.add(status == 0 or last.startswith("ImportError:") and "libsdtool.so.0" in last
              and "SDTOOL_LIBRARY" in last, found)


def test_threads(count):
    """Calls side by side in threads have the answers that they have alone."""
    texts = [f"O:BAD:(A;;{number:#x};;;BU)" for number in range(1, 200)]
    expected = [sdtool.from_sddl(text) for text in texts]
    wrong = []

    def work():
        for _ in range(20):
            for text, data in zip(texts, expected):
                if sdtool.from_sddl(text) != data or sdtool.to_sddl(data) != sdtool.to_sddl(sdtool.normalize(data)):
                    wrong.append(text)
                if not isinstance(raised(sdtool.to_sddl, data[:-1]), sdtool.Fault):
                    wrong.append(text)

    threads = [threading.Thread(target=work) for _ in range(8)]
    for thread in threads:
        thread.start()
    for thread in threads:
        thread.join()
    count.add(not wrong, f"threads: {wrong[:3]}")


def test_annotations(count):
    if not shutil.which("mypy"):
        print("skipped: there is no mypy")
        return
    with tempfile.TemporaryDirectory() as name:
        caller, wrong = pathlib.Path(name, "caller.py"), pathlib.Path(name, "wrong.py")
        caller.write_text(CALLER, encoding="utf-8")
        wrong.write_text(WRONG_CALLER, encoding="utf-8")
        mypy = ["mypy", "--strict", "--cache-dir", str(pathlib.Path(name, "cache"))]
        environment = {**os.environ, "MYPYPATH": str(TOP / "python")}
        found, status = ran([*mypy, str(caller)], env=environment, cwd=name)
        count.add(status == 0, f"mypy --strict takes no caller: {found}")
        found, status = ran([*mypy, str(wrong)], env=environment, cwd=name)
        count.add(status == 1 and found.count("error:") >= 2, f"mypy takes a wrong caller: {found}")


def main(count: preload.Count, given: preload.Given) -> None:
    program = given.program
    tests = (test_types, test_numbers, test_sids, test_taken_types, test_verdicts, test_faults, test_processes,
             test_empty_text, test_imports, test_threads, test_annotations, test_memory)
    for test in filter(preload.is_chosen, tests):
        test(count)
    test_lines(count, program)
    test_program(count, program)
