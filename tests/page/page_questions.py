"""Asks the page about kinds of objects that the library doesn't map. It asks the desk, in Node. It runs over the module
that `make wasm` builds. What is unknown is said to be, nothing that is granted is left out, and the copied command has
the same answer. Where nothing tells the kind, each view asks for it, and answers nothing that depends on it. A text
that begins with a front of SDDL is refused where tests/reference refuses it, at that place. Expected values are those
of winnt.h, winspool.h and certadm.h. Without Node or the module it is skipped in a line.
"""
import base64
import json
import os
import pathlib
import random
import re
import shutil
import subprocess

import preload
import sddl_texts

TOP = pathlib.Path(__file__).resolve().parents[2]
SCRIPT = pathlib.Path(__file__).resolve().with_suffix(".mjs")
SECONDS = 1200


def asked(kind, text, token, expected, **more):
    return ("ask", kind, text, {"token": token, "exact": True, "maximum": False, **more}, expected)


def verdict(is_granted, mask, missing=None):
    """MISSING is what the command asks for, if the page asks for all that is granted and nothing is."""
    said = f"{'granted' if is_granted else 'denied'} 0x{mask if missing is None else missing:08x}"
    return {"verdict": {"granted": is_granted, "mask": mask}, "command": said}


HIGH = "O:SYG:SYD:(A;;0x1fffff;;;WD)S:(ML;;NW;;;HI)"
WRITE_MEMORY = "0x20"
ROWS = [
    # A level below the object's may take rights that no mapping of files has, such as writing memory.
    asked("process", HIGH, "WD", {"isLevelUnknown": True}, want=WRITE_MEMORY, level=" 4096"),
    asked("process", HIGH, "WD", verdict(True, 0x20), want=WRITE_MEMORY, level=" 12288"),
    asked("process", HIGH, "WD", verdict(True, 0x20), want=WRITE_MEMORY, level=""),
    asked("process", "D:(A;;0x1fffff;;;WD)", "WD", {"isLevelUnknown": True}, want=WRITE_MEMORY, level=" 4096"),
    asked("service", "D:(A;;0x2;;;WD)S:(ML;IO;NW;;;HI)", "WD", verdict(True, 0x2), want="0x2", level=" 8192"),
    # Rights that files don't have.
    asked("process", "O:SYD:(A;;0x800;;;BU)", "BU", verdict(True, 0x800), maximum=True),
    asked("process", "O:SYD:(A;;0x800;;;BU)", "BU", verdict(True, 0x800), maximum=True, want="0x800"),
    asked("process", "O:SYD:(A;;0x800;;;BU)", "BU", verdict(False, 0x1), maximum=True, want="0x801"),
    asked("process", "O:SYD:(A;;0x800;;;BU)", "AU", verdict(False, 0, 0x1fffff), maximum=True),
    asked("process", "D:NO_ACCESS_CONTROL", "AU", verdict(True, 0x1fffff), maximum=True),
    asked("authority", "O:SYD:(A;;0x200;;;AU)", "AU", verdict(True, 0x200), maximum=True),
    # Generic rights that are wanted mean those of the kind.
    asked("process", "O:SYD:(A;;0x120116;;;BU)", "BU", verdict(False, 0xae8), want="GW"),
    asked("process", "O:SYD:(A;;0x20bea;;;BU)", "BU", verdict(True, 0x20bea), want="GW"),
    asked("service", "O:SYD:(A;;0xf01ff;;;BU)", "BU", verdict(True, 0xf01ff), want="GA"),
    asked("file", "O:SYD:(A;;FA;;;BU)", "BU", verdict(True, 0x1f01ff), want="GA"),
    # So do those of an ACE, also in the command.
    asked("service", "O:SYD:(A;;GA;;;BU)", "BU", verdict(True, 0xf01ff), maximum=True),
    asked("service", "O:SYD:(D;;GW;;;BU)(A;;GA;;;BU)", "BU", verdict(True, 0xd01fd), maximum=True),
    asked("service", "O:SYD:(A;;GR;;;BU)", "BU", verdict(False, 0x2), maximum=True, want="0xf"),
    asked("service", "O:SYD:(A;;GX;;;BU)", "BU", verdict(True, 0x170), want="0x170"),
    asked("log", "O:SYD:(A;;GR;;;BU)(A;;0x100;;;BU)", "BU", verdict(True, 0x20001), maximum=True),
    asked("log", "O:SYD:(A;;0x100;;;BU)", "BU", verdict(False, 0, 0xf0007), maximum=True),
    asked("com", "O:SYD:(A;;0x1;;;BU)", "BU", verdict(True, 0x1f), maximum=True),
    asked("authority", "O:SYD:(A;;GX;;;AU)", "AU", verdict(True, 0x20200), maximum=True),
    asked("key", "O:SYD:(A;;GA;;;BU)", "BU", verdict(True, 0xf003f), maximum=True),
    # What a new object gets.
    ("inherit", "printer", "O:SYG:SYD:(A;OIIO;GA;;;CO)", {}, {"isMappingUnknown": True}),
    ("inherit", "printer", "O:SYG:SYD:(A;;GA;;;BA)S:(AU;OISA;GA;;;WD)", {}, {"isMappingUnknown": True}),
    ("inherit", "printer", "O:SYG:SYD:(A;;GA;;;BA)(A;OIIO;0xf0030;;;CO)", {}, {"isMappingUnknown": None}),
    ("inherit", "printer", "O:SYG:SYD:(A;OI;0xf0030;;;BA)", {"creator": "D:(A;;GA;;;BU)"}, {"isMappingUnknown": True}),
    ("inherit", "key", "O:SYG:SYD:(A;CI;GA;;;BA)", {}, {"isMappingUnknown": None}),
    # What is made in an object, by the flags that its kind inherits by.
    *(("inherit", kind, "O:SYG:SYD:(A;OICI;0x20001;;;BA)", {"kind": made}, expected) for kind, made, expected in (
        ("folder", "container", {"heirs": ["container", "file"]}), ("folder", "file", {"heirs": []}),
        ("key", "container", {"heirs": ["container"]}),
        ("key", "file", {"hasNoHeirs": True}), ("ds", "file", {"hasNoHeirs": True}),
        ("wmi", "container", {"heirs": ["container"]}),
        ("task", "file", {"heirs": []}), ("share", "container", {"hasNoHeirs": True}))),
    # Whether what children inherit differs: subkeys inherit by CI alone, and from a service nothing inherits.
    *(("compare", kind, f"D:(A;{flag};0xf003f;;;BA)", {"other": "D:(A;;0xf003f;;;BA)"}, {"areBelowSame": is_same})
      for kind, flag, is_same in (("folder", "OI", False), ("folder", "CI", False), ("key", "CI", False),
                                  ("key", "OI", True), ("service", "CI", True))),
]

OF_USERS = "0102000000000005" "20000000" "21020000"
FRONT = "01000480" "00000000" "00000000" "00000000" "14000000"
IN_HEX = FRONT + "02002000" "01000000" "00001800" "02000000" + OF_USERS
TYPED_IN_HEX = (FRONT + "02003400" "01000000" "05002c00" "01000000" "01000000"
                "ba7a96bfe60dd011a28500aa003049e2" + OF_USERS)
SERVICE = "D:(A;;CCLCSWRPWPDTLOCRRC;;;SY)(A;;CCDCLCSWRPWPDTLOCRSDRCWDWO;;;BA)"
# Texts that tell no kind, with rights that several kinds have, and no file alone.
OPEN = ["D:(A;;DC;;;BU)", "D:(A;OICI;DC;;;BU)", "O:BAG:SYD:(D;;LC;;;BU)(A;;RC;;;BU)", "C:\\Data D:(A;;DC;;;BU)",
        IN_HEX, SERVICE, "x,\"D:(A;;DC;;;BU)\"", "D:(A;;GA;;;BA)", "D:(A;;0x1;;;BU)", "D:(A;;RC;;;BU)",
        "D:(A;OICIIO;GA;;;CO)(A;;LCSWSDRCWDWO;;;BA)", "D:S:(AU;SA;0x2;;;WD)"]
KEY, OTHER_KEY = "HKLM:\\X D:(A;;0x2;;;BU)", "D:(A;;KA;;;BU)"
FOLDER = "O:BAG:SYD:(A;OICI;FA;;;BA)"
TYPED = "O:BAD:(OA;;CC;bf967aba-0de6-11d0-a285-00aa003049e2;;AU)"
# Texts that tell a kind, or fit a file.
TOLD = [(KEY, "key"), (OTHER_KEY, "key"), (FOLDER, "folder"), ("C:\\Data " + FOLDER, "folder"), (TYPED, "ds"),
        (TYPED_IN_HEX, "ds"),
        ("Data Everyone:(GA)\n", "folder"), ("Data Everyone:(DENY)(WD,AD)\n", "folder"), ("\n" + SERVICE, "service"),
        ("channelAccess: O:BAG:SYD:(A;;0x7;;;BU)", "log")]
# Texts with several descriptors, and the kind of each.
BYTES = base64.b64encode(bytes.fromhex(IN_HEX)).decode()
SEVERAL = [
    ("dn: CN=User,CN=Certificate Templates,CN=x\nnTSecurityDescriptor:: %s\n\ndn: CN=Ann,DC=x\n"
     "nTSecurityDescriptor:: %s" % (BYTES, BYTES), ("ds", "ds")),
    ("CN=User,CN=Certificate Templates,CN=x %s\nCN=Ann,DC=x %s" % (FOLDER, FOLDER), ("template", "ds")),
    ("Path : Microsoft.PowerShell.Core\\Registry::HKEY_LOCAL_MACHINE\\X\nSddl : D:(A;;0x2;;;BU)\n\n"
     "Path : Microsoft.PowerShell.Core\\FileSystem::C:\\X\nSddl : D:(A;;FA;;;BU)", ("key", "folder")),
]
# Two descriptors, and the kind that both are compared as, or why the page asks for it.
PAIRS = [(FOLDER, "D:(A;;DC;;;BU)", "rights"), ("D:(A;;DC;;;BU)", FOLDER, "rights"), ("D:(A;;DC;;;BU)", KEY, "texts"),
         (FOLDER, KEY, "texts"), (KEY, TYPED, "texts"), ("C:\\Data " + FOLDER, KEY, "texts"),
         (FOLDER, TYPED_IN_HEX, "rights"), (KEY, "D:(A;;DC;;;BU)", "key"),
         (KEY, FOLDER, "key"), (KEY, OTHER_KEY, "key"), (FOLDER, "C:\\Data " + FOLDER, "folder"),
         (TYPED, TYPED_IN_HEX, "ds")]
# A folder and what its creator gives, and the same.
CREATORS = [(FOLDER, "D:(A;;DC;;;BU)", "rights"), (FOLDER, OTHER_KEY, "texts"), ("D:(A;;DC;;;BU)", FOLDER, "rights"),
            (FOLDER, FOLDER, "folder"),
            (KEY, "D:(A;;DC;;;BU)", "key"), (KEY, OTHER_KEY, "key")]
VIEWS = ["look", "ask", "inherit", "compare"]
# Of these none is made in another one, by windows/kinds.toml.
HEIRLESS = ["service", "log", "process", "template"]
# What an answer has that depends on the kind.
OF_KIND = {"look": "grid", "ask": "verdict", "inherit": "object", "compare": "rights"}
DEPENDS = {"grid", "model", "warnings", "dangers", "texts", "verdict", "reasons", "command", "object", "parent",
           "creator", "rights", "changed",
           "isMappingUnknown", "isLevelUnknown"}


def answered(view, kind):
    """What a view says of a kind that is known, and whether it has what depends on the kind."""
    is_nothing = view == "inherit" and kind in HEIRLESS
    return {"asksKind": None, "kind": kind, **({"hasNoHeirs": True} if is_nothing else {})}, not is_nothing


def rows_of_kinds():
    """Questions about texts of open and of known kinds: (view, kind, text, more, what the answer has, the key that
    depends on the kind and whether it is there)."""
    for view in VIEWS:
        more = {"other": "D:(A;;RC;;;BU)"} if view == "compare" else {}
        for text in OPEN:
            yield view, None, text, more, {"asksKind": "rights"}, False
            for kind in ("folder", "file", "key", "ds", "service", "log", "process"):
                yield view, kind, text, more, *answered(view, kind)
        for text, kind in TOLD:
            yield view, None, text, more, *answered(view, kind)
        for text, kinds in SEVERAL:
            for chosen, kind in enumerate(kinds):
                yield view, None, text, {**more, "chosen": chosen}, *answered(view, kind)
    for name, pairs, key in (("compare", PAIRS, "other"), ("inherit", CREATORS, "creator")):
        for text, other, kind in pairs:
            is_open = kind in ("rights", "texts")
            yield (name, None, text, {key: other}, {"asksKind": kind} if is_open else {"asksKind": None, "kind": kind},
                   not is_open)
            yield name, "service", text, {key: other}, *answered(name, "service")
    # What does not depend on the kind is said before.
    yield "compare", None, OPEN[0], {}, {"isOtherEmpty": True, "asksKind": None}, False
    yield "compare", None, OPEN[0], {"other": OPEN[0]}, {"isSame": True, "asksKind": "rights", "count": 1}, False
    yield "compare", None, OPEN[0], {"other": OPEN[1]}, {"isSame": False, "asksKind": "rights", "count": 1}, False
    yield "inherit", None, OPEN[0], {"owner": ""}, {"asksKind": None}, False
    yield "ask", None, OPEN[0], {"token": ""}, {"isNobody": True, "asksKind": None}, False
    yield "ask", None, OPEN[0], {"maximum": False}, {"refused": 50, "asksKind": None}, False
    for view in VIEWS:
        yield view, None, "D:(A;;DC;;;Everyone)", {}, {"asksKind": None}, False


# Of these a text is put together, with a front that nobody can read or a part that comes twice.
PIECES = ["O:", "G:", "D:", "S:", "O:S-15 ", "O:BA", "G:SY", "O:S-1-5-18", "D:P", "D:X", "S:X", "O: ", "D:(A;;FA;;;WD)",
          "D:AI(A;;FA;;;WD)", "S:(AU;SA;FA;;;WD)", " ", "\t", "D:NO_ACCESS_CONTROL", "x", "O:DA", "o:s-15"]
FRONT_OF_TEXT = re.compile(r"[ \t]*[OGDS]:", re.I)
REFUSED = 600  # texts


def refused_texts():
    """Texts that begin with a front: the question, and where the reference finds a fault, or None."""
    chance, told = random.Random(1), 0
    while told < REFUSED:
        text = "".join(chance.choice(PIECES) for _ in range(chance.randrange(2, 5))).strip()
        if FRONT_OF_TEXT.match(text):
            told += 1
            expected = sddl_texts.expected(text, code_units=True, with_domain=False)
            # Aliases of a domain are read all the same.
            is_relative = expected is not None and expected.line.split()[1] == "23"
            yield ("look", "folder", text, {}), sddl_texts.expected(text, True) if is_relative else expected


def judge_text(count, row, expected, got):
    text = row[2]
    if expected is None:
        count.add(not got.get("fault") and got["line"] == text, f"{text!r}: {got.get('fault')} in {got['line']!r}")
        return
    fault, number = got.get("fault", {}), int(expected.line.split()[1])
    count.add(fault.get("number") == number and got["line"] == text, f"{text!r}: {expected.line}, not {fault}")
    place = got.get("place", {})
    where = (expected.place.offset, expected.place.offset + expected.place.size) if expected.place else None
    count.add(where in (None, (place.get("start"), place.get("end"))), f"{text!r}: the place {place}, not {where}")


def judge_kind(count, row, got):
    name, kind, text, more, expected, is_answered = row
    told = {key: got.get(key) for key in expected}
    count.add(told == expected, f"{name} of {kind} {text!r} {more}: {told}, not {expected}")
    depends = sorted(DEPENDS & {key for key, value in got.items() if value is not None})
    is_right = OF_KIND[name] in depends or bool(got.get("isMappingUnknown")) if is_answered else not depends
    count.add(is_right, f"{name} of {kind} {text!r} {more} answers {depends}")


def add_options(words):
    words.add_argument("--library", default=str(TOP / "out/systems/wasm/sdtool.mjs"), help="the page's library")


def main(count: preload.Count, chosen: preload.Given) -> None:
    if not (shutil.which("node") and os.path.exists(chosen.library)):
        print(f"skipped: no Node, or no {chosen.library}")
        return
    of_kinds, of_texts = [*rows_of_kinds()], [*refused_texts()]
    rows = [*(row[:4] for row in (*ROWS, *of_kinds)), *(row for row, _ in of_texts)]
    given = json.dumps([{"name": name, "kind": kind, "text": text, "more": more} for name, kind, text, more in rows])
    ended = subprocess.run(["node", str(SCRIPT), chosen.library], input=given, capture_output=True, text=True,
                           timeout=SECONDS)
    answers = json.loads(ended.stdout) if ended.returncode == 0 else []
    count.add(len(answers) == len(rows), f"the page gave no answers: {ended.stderr[-2000:]}")
    for (name, kind, text, more, expected), got in zip(ROWS, answers):
        told = {key: got.get(key) for key in expected}
        count.add(told == expected, f"{name} of {kind} {text} {more}: {told}, not {expected}")
    for row, got in zip(of_kinds, answers[len(ROWS):]):
        judge_kind(count, row, got)
    for (row, expected), got in zip(of_texts, answers[len(ROWS) + len(of_kinds):]):
        judge_text(count, row, expected, got)
