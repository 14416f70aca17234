"""Compares the places of faults with their definition. It refuses what the reference (tests/reference/places.py) says
that this does not allow, and what the built library says otherwise:

  rows     faults of bytes and of SDDL whose places were counted by hand
  laws     of random lines of SDDL: the place's fault is the fault, its range is in the text, it is the field that does
           not read and none before it does, and for a fault of the shape the front up to it begins a shaped text and
           the front with one byte more begins none, by a machine that reads byte by byte
  library  sdtool_place, of random lines and changes of their bytes, and sdtool_sddl_place, of random lines of SDDL and
           changes of their characters, without a domain, under one and under a full one; of the largest inputs and
           larger ones, and of domains that are none. It is skipped without the library
"""
import ctypes
import pathlib
import random

import compare
import preload
from reference import places
from reference.parts import Fault
from reference.sddl_reading import from_sddl, sid_of_text

LIBRARY = pathlib.Path(preload.LIBRARY)
DOMAIN, FULL_DOMAIN = sid_of_text(b"S-1-5-21-1-2-3"), sid_of_text(b"S-1-5-21" + b"-1" * 14)
DOMAINS = (None, DOMAIN, FULL_DOMAIN)
MOST_BYTES, MOST_TEXT = 131_226, 1_049_872
NO_ACE = 0xffff_ffff
PARTS = (None, "owner", "group", "sacl", "dacl")
FIELDS = (None, "kind", "flags", "rights", "object type", "inherited object type", "sid", "size")
EVERYONE, SYSTEM = b"\1\1" + bytes(5) + b"\1" + bytes(4), b"\1\1" + bytes(5) + b"\5\x12" + bytes(3)
GUID = b"bf967aba-0de6-11d0-a285-00aa003049e2"
CHARACTERS = (*map(str.encode, "\u00e9\u20ac\U0001f600\0\n\t (;):"), b"\xe2\x82", b"\xf0\x9f", b"\x82", b"\xff",
              b"\xed\xa0\x80", b"\xc0\x80", b"\xf4\x90\x80\x80")
LARGE = 3278  # of ACEs of 20 bytes the one before the last passes 65,535


def header(control=0, owner=0, group=0, sacl=0, dacl=0):
    return compare.header(owner, group, sacl, dacl, 0x8000 | control)


def acl(size, count, body=b"", revision=2):
    return bytes([revision, 0, size, 0, count, 0, 0, 0]) + body


def ace(kind=0, flags=0, size=20, body=EVERYONE):
    return bytes([kind, flags, size, 0, 1, 0, 0, 0]) + body


# Bytes, and the number of their fault, its part, ACE, field, offset and size.
OF_BYTES: list = [
    (b"", 5, None, None, None, 0, 0),
    (b"\1\0\4", 5, None, None, None, 3, 0),
    (bytes(20), 6, None, None, None, 0, 1),
    (b"\1" + bytes(19), 7, None, None, None, 2, 2),
    (header(owner=20), 8, "owner", None, None, 4, 4),
    (header(group=8) + SYSTEM, 8, "group", None, None, 8, 4),
    (header(0x10, sacl=0xffff_fffe), 8, "sacl", None, None, 12, 4),
    (header(4, dacl=21) + bytes(8), 8, "dacl", None, None, 16, 4),
    (header(owner=20) + b"\1\x10" + bytes(80), 9, "owner", None, "sid", 20, 72),
    (header(group=21) + b"\0\1\1" + bytes(8), 9, "group", None, "sid", 21, 10),
    (header(4, dacl=20) + acl(28, 1, ace(body=b"\1\2" + bytes(10)) + SYSTEM), 9, "dacl", 0, "sid", 36, 12),
    (header(4, dacl=20) + acl(68, 1, ace(5, 0, 60, b"\2\0\0\0" + bytes(16) + b"\2\1" + bytes(30))), 9, "dacl", 0,
     "sid", 56, 12),
    (header(0x10, sacl=24) + bytes(4) + acl(7, 0), 10, "sacl", None, None, 24, 8),
    (header(4, dacl=20) + acl(8, 0, revision=3), 10, "dacl", None, None, 20, 8),
    (header(4, dacl=20) + acl(28, 2, ace()), 11, "dacl", 1, "size", 48, 0),
    (header(0x10, sacl=20) + acl(11, 1, ace()), 11, "sacl", 0, "size", 28, 3),
    (header(4, dacl=20) + acl(48, 2, ace() + ace(size=22)), 11, "dacl", 1, "size", 48, 4),
    (header(4, dacl=20) + acl(48, 2, ace() + ace(9, 0x20)), 12, "dacl", 1, "kind", 48, 4),
    (header(0x14, sacl=20, dacl=4) + acl(28, 1, ace(9)), 12, "sacl", 0, "kind", 28, 4),
    (header(4, dacl=20) + acl(48, 2, ace(flags=0x20) + ace(9)), 13, "dacl", 0, "flags", 28, 4),
    (header(owner=20, group=24) + b"\1\1\0\0\1\1\0\5" + bytes(8), 14, "group", None, None, 24, 12),
    (header(4, owner=32, dacl=20) + acl(15, 0) + bytes(4) + EVERYONE, 14, "dacl", None, None, 20, 15),
]
OF_SDDL: list = [
    (b"x", 20, None, None, None, 0, 1),
    (b" O", 20, None, None, None, 2, 0),
    (b"O BA", 20, None, None, None, 1, 1),
    (b"\xc3\xa9", 20, None, None, None, 0, 2),
    (b"O:B:", 20, "owner", None, "sid", 3, 1),
    (b"O:(A", 20, "owner", None, "sid", 2, 1),
    (b"G:BAD:)", 20, "dacl", None, "flags", 6, 1),
    (b"O:ZZD:(A;;FA;;WD)", 20, "dacl", 0, "inherited object type", 16, 1),
    (b"D:(A;;FA;;;WD;)", 20, "dacl", 0, "sid", 13, 1),
    (b"D:(A;;FA;;;WD)(A;;(", 20, "dacl", 1, "rights", 18, 1),
    (b"D:(A;;FA;;;WD", 20, "dacl", 0, "sid", 13, 0),
    (b"D:(A;;FA;;;WD) x", 20, "dacl", None, None, 15, 1),
    (b"D:(A;;FA;;;WD)S", 20, "dacl", None, None, 15, 0),
    (b"D:(A;;FA;;;WD)\xe2\x82\xacS", 20, "dacl", None, None, 14, 3),
    (b"D:(A;;FA;;;WD)\xe2\x82", 20, "dacl", None, None, 14, 1),
    (b"D:S:(A;;;;;)x", 20, "sacl", None, None, 12, 1),
    (b"O:ZZ o:BA", 21, "owner", None, None, 5, 2),
    (b"D:S:G:d:O:S:", 21, "dacl", None, None, 6, 2),
    (b"O:  ZZ G:BA", 22, "owner", None, "sid", 4, 2),
    (b"D:(A;;FA;;;ZZ)(B;;;;;)", 22, "dacl", 0, "sid", 11, 2),
    (b"O:DAG:S-1-5-21D:(A;;FA;;;EA)S:(ML;;NW;;;DE)", 22, "sacl", 0, "sid", 40, 2),
    (b"G:S-1-4294967296", 24, "group", None, "sid", 2, 14),
    (b"O:", 25, "owner", None, "sid", 2, 0),
    (b"O: \t D:", 25, "owner", None, "sid", 2, 0),
    (b"D:(A;;FA;;; WD )", 25, "dacl", 0, "sid", 11, 4),
    (b"S: PX\tD:", 26, "sacl", None, "flags", 3, 2),
    (b"D:NO_ACCESS_CONTROL (A;;FA;;;WD)", 26, "dacl", None, "flags", 2, 17),
    (b"D:S:( AU;;FA;;;WD)", 29, "sacl", 0, "kind", 5, 3),
    (b"D:(A;;FA;;;WD)S:(AU;XX;FA;;;WD)", 26, "sacl", 0, "flags", 20, 2),
    (b"D:(A;;FA;;;WD) (A;CI; FA;;;WD)", 27, "dacl", 1, "rights", 21, 3),
    (b"D:(A;;FA;" + GUID + b";;WD)", 28, "dacl", 0, "object type", 9, 36),
    (b"D:(OA;;FA;" + GUID + b";{x};WD)", 28, "dacl", 0, "inherited object type", 47, 3),
    (b"D:(OA;;FA;x;y;WD)", 28, "dacl", 0, "object type", 10, 1),
    (b"D:(XA;;;;;)", 29, "dacl", 0, "kind", 3, 2),
    (b"D:(;;;;;)", 29, "dacl", 0, "kind", 3, 0),
    (b"S:D:P" + b"(A;;;;;WD) " * LARGE, 30, "dacl", LARGE - 2, None, 5 + 11 * (LARGE - 2), 10),
    (b"D:" + b"(A;;;;;WD)" * 70_000 + b"(A;;;;;X)", 25, "dacl", 70_000, "sid", 700_009, 1),
]


OF_SDDL_ALONE: list = [
    (b"O:BAG:DAD:(A;;FA;;;DU)", 23, "group", None, "sid", 6, 2),
    (b"D:(A;;FA;;;WD)(A;;FA;;;da)S:(AU;;FA;;;ZZ)", 23, "dacl", 1, "sid", 23, 2),
    (b"S: \tP (AU;SA;FA;;;WD)\t(AU;SA;FA;;;EA) ", 23, "sacl", 1, "sid", 34, 2),
]


def fronts(text):
    """How many bytes of the text begin a shaped one, by a machine that reads it byte by byte."""
    state, last, cuts = "before", 0, 0
    for at, byte in enumerate(text):
        letter, is_head = chr(last).upper(), byte == ord(":") and chr(last).upper() in "OGDS" and last
        if state == "ace":
            if byte == ord("(") or byte == ord(";") and cuts == 5 or byte == ord(")") and cuts < 5:
                return at
            cuts += byte == ord(";")
            state = "after" if byte == ord(")") else "ace"
            last = 0
            continue
        if is_head:
            state, last = "sid" if letter in "OG" else "acl", 0
            continue
        waits = state in ("before", "after") and last  # a letter there has to be a head's
        if waits or byte in b":)" or byte == ord("(") and state in ("before", "sid"):
            return at
        if byte == ord("("):
            state, cuts, last = "ace", 0, 0
            continue
        if state in ("before", "after") and byte not in b" \tOGDSogds":
            return at
        last = 0 if byte in b" \t" else byte
    return len(text)


def judge_rows(count):
    for found, rows, what in ((places.place_of_bytes, OF_BYTES, bytes.hex), (of_sddl, OF_SDDL, repr),
                              (of_sddl_alone, OF_SDDL_ALONE, repr)):
        for given, number, *place in rows:
            told = found(given)
            right = told and (told[0].split()[1], told[1]) == (str(number), tuple(place))
            count.add(right, f"{what(given[:200])}: {told}, and not {number} {place}")


def of_sddl(text):
    return places.place_of_sddl(text, DOMAIN)


def of_sddl_alone(text):
    return places.place_of_sddl(text, None)


def fault_of(text):
    try:
        from_sddl(text, DOMAIN)
    except Fault as fault:
        return fault
    return None


def judge_laws(count, text):
    fault, told = fault_of(text), of_sddl(text)
    count.add((told and told[0]) == (fault and str(fault)), f"{text!r}: {told}, and the fault is {fault}")
    if not told or not fault:
        return
    place, number = told[1], fault.args[0]
    end = place.offset + place.size
    count.add(0 <= place.offset <= end <= len(text), f"{text!r}: {place} is not in the text")
    if number == 20:
        count.add(place.offset == fronts(text), f"{text!r}: {place}, and not {fronts(text)}")
        is_at_end = place.offset == len(text)
        count.add(is_at_end == (place.size == 0), f"{text!r}: {place} has another size at the end")
    elif 22 <= number <= 29 and not (number == 26 and place.ace is None and b"(" in text[end:]):
        # (of NO_ACCESS_CONTROL and ACEs it is both together that don't read)
        field = text[place.offset:end]
        other = {"sid": b"WD", "flags": b"", "rights": b"", "kind": b"A"}.get(place.field, b"")
        mended = fault_of(text[:place.offset] + (other if other != field else b"WD") + text[end:])
        later = mended is None or mended.args[0] == 30 or of_sddl_offset(text, place, other) >= place.offset
        count.add(later, f"{text!r}: {place} is mended, and a fault is before it")


def of_sddl_offset(text, place, other):
    """Where the next fault is if a field is mended."""
    return of_sddl(text[:place.offset] + other + text[place.offset + place.size:])[1].offset


class Told(ctypes.Structure):
    _fields_ = [(name, ctypes.c_uint32) for name in ("fault", "part", "ace", "field")]
    _fields_ += [("offset", ctypes.c_size_t), ("size", ctypes.c_size_t)]


IN_WORDS = {"owner": "the owner", "group": "the group", "sacl": "the SACL", "dacl": "the DACL", "sid": "SID"}
MOST_SHOWN = 72  # characters around a place


def in_words(place):
    """How a message ends that says where a fault is: ACEs count from 1 there."""
    holder = IN_WORDS.get(place.part) if place.ace is None else f"ACE {place.ace + 1} of {IN_WORDS[place.part]}"
    return ", ".join(filter(None, (f"at byte {place.offset}", holder, IN_WORDS.get(place.field, place.field))))


def is_excerpt(shown, data, place):
    """Whether two lines are digits of the bytes around a place, and carets below it."""
    digits, offset, (text, carets) = data.hex(), 2 * place.offset, shown.split("\n")
    before, size = len(carets) - len(carets.lstrip(" ")), len(carets.strip(" "))
    first = offset - before
    return (first >= 0 and first % 2 == 0 and text == digits[first:first + MOST_SHOWN]
            and set(carets[before:]) == {"^"} and
            size == max(1, min(2 * place.size, MOST_SHOWN)) and (place.size == 0 or before + size <= len(text)))


class Calls:
    """The calls of the library, whose answers are put as the reference's."""

    def __init__(self, library):
        self.calls = ctypes.CDLL(str(library))

    def told(self, name, *given):
        call = getattr(self.calls, name)
        call.argtypes, call.restype = [ctypes.c_char_p, ctypes.c_size_t] * len(given), Told
        return call(*(one for data in given for one in (data, len(data))))

    def place(self, name, *given):
        told = self.told(name, *given)
        return told.fault, PARTS[told.part], told.ace, FIELDS[told.field], told.offset, told.size

    def place_of_bytes(self, data):
        return self.place("sdtool_place", data)

    def place_of_sddl(self, text, domain):
        return self.place("sdtool_sddl_place", text, domain)


NOWHERE = (0, None, NO_ACE, None, 0, 0)


def told_of(found):
    """What the library tells of a place of the reference."""
    if not found:
        return NOWHERE
    fault, place = found
    return (int(fault.split()[1]), place.part, NO_ACE if place.ace is None else place.ace, place.field,
            place.offset, place.size)


def judge_library(count, maker, chosen, lines):
    if not LIBRARY.exists():
        print(f"sdtool_place and sdtool_sddl_place: skipped, there is no {LIBRARY}")
        return
    calls = Calls(LIBRARY)
    for data in (*(row[0] for row in OF_BYTES), bytes(MOST_BYTES), bytes(MOST_BYTES + 1),
                 *hostile(maker, chosen, lines)):
        found, right = calls.place_of_bytes(data), told_of(places.place_of_bytes(data)
                                                           if len(data) <= MOST_BYTES else None)
        count.add(found == right, f"{data[:300].hex()}: {found}, and not {right}")
    judge_texts(count, calls, ((row[0], domain) for row in (*OF_SDDL, *OF_SDDL_ALONE) for domain in DOMAINS))
    judge_texts(count, calls, ((text, chosen.choice(DOMAINS)) for text in hostile_texts(maker, chosen, lines)))
    judge_texts(count, calls, ((text, DOMAIN) for text in long_texts()))
    judge_domains(count, calls)


def judge_texts(count, calls, texts):
    for text, domain in texts:
        found = calls.place_of_sddl(text, domain.to_bytes() if domain else b"")
        right = told_of(places.place_of_sddl(text, domain) if len(text) <= MOST_TEXT else None)
        count.add(found == right, f"{text[:300]!r} under {domain}: {found}, and not {right}")


def judge_domains(count, calls):
    """Under bytes that are not one SID no text has a place, also one that no domain changes."""
    right = DOMAIN.to_bytes()
    wrong = [right[:size] for size in range(1, len(right))] + [right + bytes(size) for size in (1, 4, 8)]
    for domain in (*wrong, right + right, b"\2" + right[1:], b"\1\x10" + bytes(70), bytes(8)):
        for text in (b"O:DA", b"O:ZZ", b"x", b"D:" + b"(A;;;;;WD)" * LARGE):
            found = calls.place_of_sddl(text, domain)
            count.add(found == NOWHERE, f"{text[:9]!r} under {domain.hex()}: {found}")


def long_texts():
    """Texts round the limit, with a fault at their end or their beginning."""
    for size in (MOST_TEXT - 1, MOST_TEXT, MOST_TEXT + 1):
        for front, filler, end in ((b"D:", b" ", b"(A;;;;;ZZ)"), (b"O:", b"x", b""), (b"", b" ", b"O:BAG"),
                                   (b"x", b" ", b""),
                                   (b"S:", b" ", b"P"), (b"D:(A;;", b"0", b";;;WD)"), (b"O:BA", b"\t", b"O:BA")):
            yield front + filler * (size - len(front) - len(end)) + end


def hostile(maker, chosen, lines):
    """Random descriptors, and changes of a byte or two of them."""
    while lines > 0:
        line = maker.line()
        try:
            data = bytes.fromhex(line.decode())
        except ValueError:
            continue
        yield data
        for _ in range(3 if data else 0):
            changed = bytearray(data)
            for _ in range(chosen.choice((1, 1, 2))):
                changed[chosen.randrange(len(changed))] = chosen.choice((*range(9), 12, 15, 16, 17, 20, 32, 255,
                                                                         chosen.randrange(256)))
            yield bytes(changed[:chosen.randrange(len(changed) + 1)] if chosen.random() < 0.2 else changed)
        lines -= 4


def hostile_texts(maker, chosen, lines):
    """Random lines of SDDL, and as many with a character more or another one."""
    for _ in range(lines // 2):
        line = maker.sddl_line()
        yield line
        at = chosen.randrange(len(line) + 1)
        yield line[:at] + chosen.choice(CHARACTERS) + line[at + chosen.randrange(2):]


def add_options(words):
    words.add_argument("--lines", type=int, default=100_000)


def main(count: preload.Count, given: preload.Given) -> None:
    lines, chosen = given.lines, random.Random(1)
    maker = compare.Lines(chosen)
    judge_rows(count)
    for _ in range(lines // 10):
        judge_laws(count, maker.sddl_line())
    judge_library(count, maker, chosen, lines)
