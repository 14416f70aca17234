"""Compares texts of parts of a descriptor with the reference.

  rows     a few texts by hand, each rule once
  random   GUIDs, rights, flags and ACEs, and what is nearly one: their texts, their bytes, each fault with its number,
           argument and length; each through the library and through the package; and that a text that was printed reads
           as what was printed
  rooms    outputs of each size
  memory   the same calls by tests/library/c/texts.c, plain and under sanitizers: blocks of exactly their size, no
           allocation but the one that the header names, and that one refused
"""
import ctypes
import functools
import importlib
import os
import pathlib
import random
import sys
import tempfile
from ctypes import c_bool, c_char_p, c_size_t, c_uint32

import c_library
import preload
import reference
from reference import binary, sddl_printing, sddl_reading
from reference.parts import ACL_HEADER, Ace, Fault, Sid

sys.path.insert(0, str(preload.TOP / "python"))
OK, ARGUMENT, TOO_SMALL, ROOM = 0, 70, 71, 400
DOMAIN_NUMBER, ACE, FLAGS, GUID = 1, 18, 19, 20  # arguments
MOST_ACE, MOST_ACE_TEXT, MOST_TEXT = 112, 312, 1_049_872
DOMAIN = Sid(5, (21, 1, 2, 3))
FULL_DOMAIN = Sid(5, (21, *range(1, 15)))
LONGEST_SID = Sid(0xffff_ffff_ffff, (0xffff_ffff,) * 15)
LONGEST = Ace(7, 0xdf, 0xfff7_7777, b"\xff" * 16, b"\xff" * 16, LONGEST_SID)
SIDS = (Sid(1, (0,)), Sid(5, (32, 545)), Sid(5, (21, 1, 2, 3, 512)), Sid(3, ()), LONGEST_SID)
GUIDS = (None, bytes(16), bytes(range(16)), b"\xff" * 16)
TYPES = (0, 1, 2, 5, 6, 7, 0x11)
MASKS = (0, 1, 3, 7, 8, 0x1f01ff, 0x120089, 0x120116, 0xf003f, 0x1000_0000, 0xf000_0000, 0xffff_ffff, 1 << 9)
# What a random change puts into a text.
PIECES = (b";", b"(", b")", b":", b"D:", b"S:", b"O:BA", b" ", b"\t", b"\n", b"0", b"x", b"0x", b"010", b"FA", b"fr",
          b"OI", b"ID", b"A", b"OA", b"ML", b"XA", b"DA", b"WD", b"S-1-1-0", b"-", b"{", b"}", b"\xff", b"\0",
          b"NO_ACCESS_CONTROL", b"(A;;FA;;;WD)", b"00000000-0000-0000-0000-000000000000")


class Outcome(ctypes.Structure):
    _fields_ = [(name, c_uint32) for name in ("fault", "part", "other_part", "argument")]
    _fields_ += [("entry", c_size_t), ("length", c_size_t)]


class Number(ctypes.Structure):
    _fields_ = [("outcome", Outcome), ("number", c_uint32)]


class Place(ctypes.Structure):
    _fields_ = [("offset", c_size_t), ("size", c_size_t)]


class AceFound(ctypes.Structure):
    _fields_ = [("fault", c_uint32), ("mask", c_uint32), ("number", c_uint32), ("kind", ctypes.c_uint8),
                ("flags", ctypes.c_uint8), ("place", Place), ("object_type", Place), ("inherited_object_type", Place),
                ("sid", Place)]


class Settings:
    def __init__(self, domain, numeric):
        self.domain = None if domain is None or len(domain.sub_authorities) > 14 else domain
        self.numeric = numeric


OUTPUT = ctypes.create_string_buffer(ROOM)


@functools.lru_cache(maxsize=None)
def library():
    return ctypes.CDLL(str(preload.LIBRARY))


def call(name, answer, *arguments):
    given = []
    for argument in arguments:
        if isinstance(argument, bytes):
            given += [c_char_p(argument), c_size_t(len(argument))]
        else:
            given.append(c_bool(argument) if isinstance(argument, bool) else c_uint32(argument))
    function = getattr(library(), f"sdtool_{name}")
    function.restype = answer
    return function, given


def told(outcome, length=0):
    """All numbers of a fault."""
    return tuple(getattr(outcome, name) for name, _ in Outcome._fields_[:5]) + (outcome.length - length,)


def answered(name, *arguments, room=ROOM):
    function, given = call(name, Outcome, *arguments)
    outcome = function(*given, OUTPUT, c_size_t(room))
    return OUTPUT.raw[:outcome.length] if outcome.fault == OK else told(outcome)


def number(name, text):
    function, given = call(name, Number, text)
    found = function(*given)
    return found.number if told(found.outcome) == (0,) * 6 else (*told(found.outcome), found.number)


def fault(number, argument=0):
    return number, 0, 0, argument, 0, 0


def right_of(read, *arguments):
    try:
        return read(*arguments)
    except Fault as found:
        return fault(found.args[0])


# What is right, by the reference.

def ace_of(text, domain):
    """The one ACE of a DACL of this text."""
    if len(text) + 2 > MOST_TEXT:
        raise Fault(1, "too-long")
    if not text.startswith(b"("):
        raise Fault(20, "shape")
    found = sddl_reading.from_sddl(b"D:" + text, domain)
    alone = found._replace(dacl=None) == binary.read(bytes.fromhex("0100048000000000000000000000000000000000"))
    if not alone or found.dacl is None or len(found.dacl.aces) != 1:
        raise Fault(20, "shape")
    return found.dacl.aces[0]


def ace_in(data):
    """The ACE at the front of some bytes, as an ACL would have it."""
    header = binary.HEADER.pack(1, 0, 0x8004, 0, 0, 0, binary.HEADER.size)
    size = ACL_HEADER.size + min(len(data), 0xffff - ACL_HEADER.size)
    return binary.read(header + ACL_HEADER.pack(4, 0, size, 1, 0) + data[:size - ACL_HEADER.size]).dacl.aces[0]


def size_of_ace(data):
    return int.from_bytes(data[2:4], "little")


def whole_ace(data):
    ace = ace_in(data)
    if size_of_ace(data) != len(data):
        raise Fault(ARGUMENT, "argument")
    return ace


def places_of(data):
    """All that sdtool_ace_read finds."""
    try:
        ace = ace_in(data)
    except Fault as found:
        return (found.args[0],) + (0,) * 12
    at, places = 12 if ace.type in (5, 6, 7) else 8, []
    for guid in (ace.object_type, ace.inherited_object_type):
        places += [0, 0] if guid is None else [at, 16]
        at += 0 if guid is None else 16
    return (0, ace.mask, 1, ace.type, ace.flags, 0, size_of_ace(data), *places, at, ace.sid.size())


def read_places(data):
    function, given = call("ace_read", AceFound, data)
    ace = function(*given)
    places = (ace.place, ace.object_type, ace.inherited_object_type, ace.sid)
    return (ace.fault, ace.mask, ace.number, ace.kind, ace.flags,
            *(number for place in places for number in (place.offset, place.size)))


def bytes_of(text, domain):
    return ace_of(text, domain).to_bytes()


def flags_of(text):
    return sddl_reading.bits_of_text(text, reference.ACE_FLAGS, Fault(26, "flags"))


def guid_of(text):
    if not text:
        raise Fault(28, "guid")
    return sddl_reading.guid_of_text(text, True)


# What is tried.

def random_ace(chance):
    kind = chance.choice(TYPES)
    is_object = kind in (5, 6, 7)
    return Ace(kind, chance.choice((0, 3, 0x10, chance.getrandbits(8) & 0xdf)),
               chance.choice((*MASKS, chance.getrandbits(32))), chance.choice(GUIDS) if is_object else None,
               chance.choice(GUIDS) if is_object else None, chance.choice(SIDS))


def nearly(chance, text):
    """A text with a few changes."""
    for _ in range(chance.choice((0, 1, 1, 2, 3))):
        at, end = sorted(chance.randrange(len(text) + 1) for _ in range(2))
        end = min(end, at + 3)
        text = text[:at] + chance.choice((b"", b"", *PIECES, bytes([chance.getrandbits(8)]))) + text[end:]
    return chance.choice((text, text, text.swapcase()))


def python_of(call, *arguments, **named):
    """What the package answers, or its fault."""
    sdtool = importlib.import_module("sdtool")
    try:
        found = getattr(sdtool, call)(*arguments, **named)
    except sdtool.Fault as refused:
        return fault(refused.number)
    except sdtool.ArgumentFault as refused:
        return fault(ARGUMENT, {"ace": ACE, "flags": FLAGS, "guid": GUID, "domain": DOMAIN_NUMBER}[refused.argument])
    return found.encode() if isinstance(found, str) else found


class Judge:
    def __init__(self, count, chance):
        self.count, self.chance = count, chance

    def same(self, what, right, *found):
        self.count.add(all(one == right and type(one) is type(right) for one in found), f"{what}: {found}, not {right}")

    def rights(self, mask, text):
        for label in (False, True):
            printed = sddl_printing.rights_sddl(mask, label).encode()
            self.same(f"mask {mask:#x}, label {label}", printed, answered("rights_to_text", mask, label),
                      python_of("rights_to_text", mask, label=label))
            self.same(f"{printed} read", mask, number("rights_from_text", printed))
        self.read("rights_from_text", text, fault_of_number(right_of(sddl_reading.rights_of_text, text)))

    def flags(self, flags, text):
        is_one = flags < 256 and not flags & 0x20
        printed = sddl_printing.names_of(flags, reference.ACE_FLAGS).encode() if is_one else fault(ARGUMENT, FLAGS)
        self.same(f"flags {flags:#x}", printed, answered("flags_to_text", flags), python_of("flags_to_text", flags))
        if is_one:
            self.same(f"{printed} read", flags, number("flags_from_text", printed))
        self.read("flags_from_text", text, fault_of_number(right_of(flags_of, text)))

    def read(self, name, text, right):
        """A number that a text means. A str has no bytes that are no UTF-8."""
        self.same(f"{name} {text}", right, number(name, text))
        if text.isascii():
            self.same(f"{name} {text} in Python", right if isinstance(right, int) else right[:6],
                      python_of(name, text.decode()))

    def guid(self, guid, text):
        printed = sddl_printing.guid_sddl(guid).encode() if len(guid) == 16 else fault(ARGUMENT, GUID)
        self.same(f"GUID {guid.hex()}", printed, answered("guid_to_text", guid), python_of("guid_to_text", guid))
        if len(guid) == 16:
            self.same(f"{printed} read", guid, answered("guid_from_text", printed))
        right = right_of(guid_of, text)
        self.same(f"GUID of {text}", right, answered("guid_from_text", text))
        if text.isascii():
            self.same(f"GUID of {text} in Python", right, python_of("guid_from_text", text.decode()))

    def ace_of_text(self, text, domain=None):
        given = domain.to_bytes() if domain else b""
        right = right_of(bytes_of, text, Settings(domain, False).domain)
        found = answered("ace_from_text", text, given)
        self.same(f"ACE of {text[:400]} under {domain}", right, found)
        if text.isascii():
            self.same(f"ACE of {text[:400]} in Python", right,
                      python_of("ace_from_text", text.decode(), domain=given or None))

    def ace(self, ace, domain, numeric):
        given, data = domain.to_bytes() if domain else b"", ace.to_bytes()
        printed = sddl_printing.ace_sddl(ace, Settings(domain, numeric)).encode()
        self.same(f"{ace} under {domain}", printed, answered("ace_to_text", data, given, numeric),
                  python_of("ace_to_text", data, domain=given or None, numeric=numeric))
        self.ace_of_text(printed, domain)
        self.bytes(data + self.chance.choice((b"", b"\0", data)))
        self.ace_of_text(nearly(self.chance, printed), domain)
        broken = bytearray(data)
        for _ in range(self.chance.choice((0, 1, 1, 2))):
            broken[self.chance.randrange(min(len(broken), self.chance.choice((4, 12, 200))))] = self.chance.choice(
                (0, 1, 2, 5, 9, 0x11, 0x20, 0xff, len(data), self.chance.getrandbits(8)))
        self.bytes(bytes(broken[:self.chance.choice((None, self.chance.randrange(len(broken) + 1)))]))

    def bytes(self, data):
        """Bytes that are an ACE, or nearly."""
        self.same(f"ACE at {data.hex()}", places_of(data), read_places(data))
        try:
            right = sddl_printing.ace_sddl(whole_ace(data), Settings(None, False)).encode()
        except Fault:
            right = fault(ARGUMENT, ACE)
        self.same(f"text of {data.hex()}", right, answered("ace_to_text", data, b"", False),
                  python_of("ace_to_text", data))
        self.object(data, right)

    def object(self, data, text):
        """The same as an Ace of the package."""
        sdtool = importlib.import_module("sdtool")
        try:
            ace = sdtool.Ace.from_bytes(data)
        except sdtool.Fault as refused:
            self.same(f"Ace of {data.hex()}", places_of(data)[0], refused.number)
        except sdtool.ArgumentFault:
            self.count.add(places_of(data)[0] == OK and size_of_ace(data) < len(data), f"no Ace of {data.hex()}")
        else:
            self.same(f"Ace of {data.hex()}", text, ace.sddl().encode())
            self.same(f"bytes of {text}", ace_in(data).to_bytes(), ace.bytes)


def fault_of_number(right):
    return right if isinstance(right, int) else (*right, 0)


# Texts and what they mean, by hand (MS-DTYP 2.5.1.1, 2.4.4 and 2.3.4.3).
EVERYONE = "010100000000000100000000"
OF_RIGHTS = {b"": 0, b"0": 0, b"010": 8, b"0x10": 16, b"10": 10, b"FA": 0x1f01ff, b"frfw": 0x12019f,
             b"4294967295": 0xffff_ffff,
             b"KA": 0xf003f, b"NWNR": 3}
OF_FLAGS = {b"": 0, b"OICI": 3, b"id": 0x10, b"SAFA": 0xc0, b"OIOI": 1}
NO_RIGHTS = (b" FA", b"FA ", b"F", b"XX", b"4294967296", b"0x", b"08", b"-1", b"0x100000000", b"FA;", b"\0", b"F" * 184)
NO_FLAGS = (b" ", b"O", b"XX", b"3", b"OI CI", b"0x3", b"OI" * 92)
GUID_TEXT, GUID_BYTES = b"bf967aba-0de6-11d0-a285-00aa003049e2", "ba7a96bfe60dd011a28500aa003049e2"
NO_GUIDS = (b"", b"{" + GUID_TEXT + b"}", GUID_TEXT[:-1], GUID_TEXT +
            b"0", GUID_TEXT.replace(b"-", b""), b" " + GUID_TEXT)
OF_ACES = {b"(A;;FA;;;WD)": "00001400ff011f00" + EVERYONE, b"(D;OICI;0x2;;;wd)": "0103140002000000" + EVERYONE,
           b"(A;;;;;WD) \t ": "0000140000000000" + EVERYONE,
           b"(OA;;CC;" + GUID_TEXT + b";;WD)": "05002800010000000100000" + "0" + GUID_BYTES + EVERYONE}
# Each with its fault: what does not begin as an ACE comes first, then the faults of the text, and then what is more.
NO_ACES = {
    20: (b"", b" (A;;FA;;;WD)", b"A;;FA;;;WD", b"P(A;;FA;;;WD)", b"XX(A;;FA;;;WD)", b"(", b"()", b"(A;;FA;;;WD",
         b"(A;;FA;;WD)", b"(A;;FA;;;WD)(A;;FA;;;WD)", b"(A;;FA;;;WD)S:", b"(A;;FA;;;WD)O:BA", b"(A;;FA;;;WD)x",
         b"(a;;fa;;;wd)NO_ACCESS_CONTROL"),
    21: (b"(A;;FA;;;WD)D:",),
    22: (b"(A;;FA;;;ZZ)",),
    23: (b"(A;;FA;;;DA)",),
    24: (b"(A;;FA;;;S-1-4294967296)",),
    25: (b"(A;;FA;;;Everyone)",),
    26: (b"(A;OIX;FA;;;WD)", b"(A; ;FA;;;WD)", b"(A;;FA;;;WD)S:(AU;XX;;;;WD)"),
    27: (b"(A;;F;;;WD)", b"(A;;FA;;;WD)(A;;XX;;;WD)"),
    28: (b"(A;;FA;" + GUID_TEXT + b";;WD)", b"(OA;;FA;0;;WD)"),
    29: (b"(XA;;FA;;;WD)",),
}


def judge_rows(count):
    for name, right, wrong, refused in (("rights", OF_RIGHTS, NO_RIGHTS, 27), ("flags", OF_FLAGS, NO_FLAGS, 26)):
        for text, value in right.items():
            count.add(number(f"{name}_from_text", text) == value, f"{name} {text}")
        for text in wrong:
            count.add(number(f"{name}_from_text", text) == (*fault(refused), 0), f"{name} {text}")
    count.add(answered("guid_from_text", GUID_TEXT.upper()) == bytes.fromhex(GUID_BYTES), "a GUID in capitals")
    count.add(answered("guid_to_text", bytes.fromhex(GUID_BYTES)) == GUID_TEXT, "the text of a GUID")
    for text in NO_GUIDS:
        count.add(answered("guid_from_text", text) == fault(28), f"GUID {text}")
    for text, data in OF_ACES.items():
        count.add(answered("ace_from_text", text, b"") == bytes.fromhex(data), f"ACE {text}")
    for refused, texts in NO_ACES.items():
        for text in texts:
            count.add(answered("ace_from_text", text, b"") == fault(refused), f"no ACE {text}")
    printed = [answered("rights_to_text", 1, label) for label in (False, True)]
    count.add(printed == [b"CC", b"NW"], f"the first right, and that of a label: {printed}")
    # DOMAIN is looked at first, then the length; of two wrong arguments of a text's ACE the ACE.
    for arguments, right in (((b"", b"\1"), fault(ARGUMENT, DOMAIN_NUMBER)), ((b"x" * MOST_TEXT, b""), fault(1)),
                             ((b"x" * (MOST_TEXT - 2), b""), fault(20))):
        found = answered("ace_from_text", *arguments)
        count.add(found == right, f"{arguments[0][:9]} under {arguments[1]}: {found}")
    ace = bytes.fromhex(OF_ACES[b"(A;;FA;;;WD)"])
    for data_of_ace, domain, right in ((b"", b"\1", ACE), (ace, b"\1", DOMAIN_NUMBER), (ace + ace, b"", ACE)):
        found = answered("ace_to_text", data_of_ace, domain, False)
        count.add(found == fault(ARGUMENT, right), f"the text of {data_of_ace.hex()}: {found}")
    aces = answered("ace_from_text", b"(A;;FA;;;DA)", DOMAIN.to_bytes()), LONGEST.to_bytes()
    count.add(answered("ace_to_text", aces[0], DOMAIN.to_bytes(), False) == b"(A;;FA;;;DA)", "an alias of a domain")
    count.add(answered("ace_to_text", aces[0], DOMAIN.to_bytes(), True)
              == b"(A;;FA;;;S-1-5-21-1-2-3-512)", "numbers alone")
    longest = [len(answered("ace_to_text", aces[1], b"", False)), len(aces[1])]
    count.add(longest[0] <= MOST_ACE_TEXT and longest[1] == MOST_ACE, f"the longest ACE: {longest}")


def judge_random(count, chance, rounds):
    judge = Judge(count, chance)
    for flags in (*range(0x103), 1 << 31, 0xffff_ffff):
        judge.flags(flags, nearly(chance, sddl_printing.names_of(flags, reference.ACE_FLAGS).encode()))
    for bit in range(32):
        judge.rights(1 << bit, b"%d" % (1 << bit))
    for _ in range(rounds):
        mask = chance.choice((chance.getrandbits(32), chance.getrandbits(32) & chance.getrandbits(32), *MASKS))
        text = chance.choice((sddl_printing.rights_sddl(mask, chance.random() < 0.1),
                             f"0x{mask:X}", str(mask), f"0{mask:o}"))
        judge.rights(mask, nearly(chance, text.encode()))
        guid = chance.getrandbits(128).to_bytes(16, "little")
        judge.guid(chance.choice((guid, guid, guid[:chance.randrange(17)], guid + b"\0")),
                   nearly(chance, sddl_printing.guid_sddl(guid).encode()))
        judge.ace(random_ace(chance), chance.choice((None, None, DOMAIN, FULL_DOMAIN)), chance.random() < 0.3)


def judge_rooms(count):
    """The calls with an output of each size: one that is too small is told how many bytes there are."""
    ace = LONGEST.to_bytes()
    text = answered("ace_to_text", ace, b"", True)
    for name, *arguments in (("ace_from_text", text, b""), ("ace_to_text", ace, b"", False), ("flags_to_text", 0xdf),
                             ("rights_to_text", 0x1f01fe, False), ("guid_from_text", GUID_TEXT),
                             ("guid_to_text", ace[12:28])):
        whole = answered(name, *arguments)
        for room in range(len(whole) + 1):
            found = answered(name, *arguments, room=room)
            right = whole if room == len(whole) else (TOO_SMALL, 0, 0, 0, 0, len(whole))
            count.add(found == right, f"{name} with room for {room} bytes: {found}")


def lines_for_c(chance):
    """Calls of texts.c, and what is right."""
    domain = DOMAIN.to_bytes()
    for _ in range(300):
        ace = random_ace(chance)
        data, text = ace.to_bytes(), nearly(chance, sddl_printing.ace_sddl(ace, Settings(DOMAIN, False)).encode())
        guid = chance.getrandbits(128).to_bytes(16, "little")
        mask, flags = chance.choice((*MASKS, chance.getrandbits(32))), chance.getrandbits(9)
        rights = nearly(chance, sddl_printing.rights_sddl(mask, False).encode())
        guid_text = nearly(chance, sddl_printing.guid_sddl(guid).encode())
        cut = data[:chance.randrange(len(data))]
        yield "ace_from_text", text, domain, right_of(bytes_of, text, DOMAIN)
        yield "ace_from_text", text, b"\1", fault(ARGUMENT, DOMAIN_NUMBER)
        for call, numeric in (("ace_to_text", False), ("ace_to_numbers", True)):
            yield call, data, domain, sddl_printing.ace_sddl(ace, Settings(DOMAIN, numeric)).encode()
        yield "ace_to_text", cut, b"", fault(ARGUMENT, ACE)
        yield "ace_read", cut, b"", fault(places_of(cut)[0])
        yield "rights_from_text", rights, b"", right_of(sddl_reading.rights_of_text, rights)
        for label in (b"", b"\1"):
            printed = sddl_printing.rights_sddl(mask, label != b"").encode()
            yield "rights_to_text", label, mask.to_bytes(4, "little"), printed
        yield "flags_from_text", rights, b"", right_of(flags_of, rights)
        is_one = flags < 256 and not flags & 0x20
        yield ("flags_to_text", b"", flags.to_bytes(2, "little"),
               sddl_printing.names_of(flags, reference.ACE_FLAGS).encode() if is_one else fault(ARGUMENT, FLAGS))
        yield "guid_from_text", guid_text, b"", right_of(guid_of, guid_text)
        yield "guid_to_text", guid, b"", sddl_printing.guid_sddl(guid).encode()


def as_line(right):
    """An answer as texts.c prints it."""
    if isinstance(right, tuple):
        return f"{right[0]} {right[3]} 0 "
    return f"0 0 {right} " if isinstance(right, int) else f"0 0 {len(right)} {right.hex()}"


def judge_memory(count, chance):
    lines = list(lines_for_c(chance))
    given = "".join(f"{call} {first.hex() or '-'} {second.hex() or '-'}\n" for call, first, second, _ in lines)
    with tempfile.TemporaryDirectory() as folder:
        for name, flags in (("plain", []), ("sanitized", c_library.SANITIZERS)):
            program, said = c_library.built(pathlib.Path(folder), "texts", name, flags)
            count.add(program is not None, f"texts.c is not built, {name}: {said}")
            if program is None:
                continue
            ended = c_library.ran([program], given)
            found = ended.stdout.decode().splitlines()
            count.add(ended.returncode == 0 and not ended.stderr and len(found) == len(lines),
                      f"texts.c, {name}: status {ended.returncode} {ended.stderr.decode()[:2000]}")
            for line, (call, first, second, right) in zip(found, lines):
                told = as_line(right)
                count.add(line == told, f"{call} {first.hex()} {second.hex()}: {line}, not {told}")


def main(count: preload.Count) -> None:
    os.environ["SDTOOL_LIBRARY"] = str(preload.LIBRARY)
    judge_rows(count)
    judge_rooms(count)
    judge_random(count, random.Random(94), 2000)
    judge_memory(count, random.Random(95))
