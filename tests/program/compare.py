"""Compares the program with the reference on thousands of lines, many of them broken and hostile: from a file, in
random pieces through a pipe, in many short inputs with all kinds of ends, and a few lines in every cut at two places;
from hex, base64 and SDDL; as hex and base64, and as SDDL or explained, without a domain, under several domains, and
with numbers alone. What is printed as SDDL, and what is spelled otherwise than it would be printed, is compared with
the descriptor that it was made from. Checks ask for what has to do with the descriptors: by tokens of SIDs that stand
in them, about rights and object types of their ACEs, at levels near those of their labels. Many of these ACEs are for
OWNER RIGHTS or PRINCIPAL SELF. What is derived comes from descriptors whose ACEs are handed on, for owners and groups
that stand in them, and from creators' descriptors of the same kind. There are as many checks, and as many derivations,
as --lines says: `--only checks --only derivations --lines 100000` takes about four minutes on an idle processor. The
same seed gives the same lines.
"""
import functools
import itertools
import operator
import os
import random
import subprocess
import tempfile
import threading
from typing import List, NamedTuple, Tuple

import base64_lines
import preload
import reference

SECONDS = 1200      # for one run of the program
PACKET = 4096      # the most that a pipe in packet mode hands over in one read
SHOWN = 10         # failures that are printed
ENDS_OF_BYTES = [0, 1, 2, 14, 15, 16, 127, 128, 254, 255]
NO_DIGITS = [byte for byte in range(256) if byte not in reference.HEX_DIGITS + b"\n"]
PARTS = range(4)   # owner, group, SACL, DACL, in the order of their offsets
ACLS = (2, 3)
SACL_PRESENT, DACL_PRESENT = 0x10, 0x4
UNKNOWN_FLAG = 0x20
HEX, SDDL, NUMERIC = ["convert", "--to", "hex"], ["convert"], ["convert", "--to", "sddl", "--numeric"]
BASE64 = ["convert", "--to", "base64"]
# A usual domain, one that is a well-known SID, the shortest one, and the longest one.
DOMAINS = ["S-1-5-21-1004336348-1177238915-682003330", "BA", "S-1-5", "S-1-0xfedcba987654" + "-4294967295" * 14]
UNDER = [["convert", "--domain", domain] for domain in DOMAINS]
EXPLAINED = [["explain"], ["explain", "--domain", DOMAINS[0]], ["explain", "--numeric"]]
CHECKED = [["check", "--token", "WD,!BA,SY", "--maximum"],
           ["check", "--token", "BU,DU", "--domain", DOMAINS[0], "--type", "ds", "--want", "RPWP", "--self", "BU"]]
DERIVED = [["derive", "--kind", "container", "--owner", "BA", "--group", "SY"],
           ["derive", "--kind", "file", "--owner", "DA", "--group", "BU", "--domain", DOMAINS[0], "--type", "ds",
            "--to", "hex"]]
EVERY_WORDS = [HEX, BASE64, SDDL, NUMERIC, *UNDER, [*UNDER[0], "--numeric"], *EXPLAINED, *CHECKED, *DERIVED]
FROM_SDDL = ["--from", "sddl"]
TO_HEX = ["--to", "hex"]
EVERY_WORDS_FROM_SDDL = [[*words, *FROM_SDDL] for words in (HEX, SDDL, BASE64, UNDER[0], [*UNDER[0], *TO_HEX],
                                                            EXPLAINED[1], CHECKED[1], DERIVED[1])]
EVERY_WORDS_FROM_BASE64 = [[*words, "--from", "base64"]
                           for words in (HEX, SDDL, BASE64, EXPLAINED[0], CHECKED[0], DERIVED[0])]
DOMAIN_SIDS = [reference.sid_of_text(domain.encode()) for domain in DOMAINS]
CREATORS = [reference.sid_of_text(name) for name in (b"CO", b"CG")]
# PRINCIPAL SELF and OWNER RIGHTS, which stand for others (MS-DTYP 2.4.2.4).
STAND_INS = [reference.sid_of_text(name) for name in (b"PS", b"S-1-3-4")]
LABEL_TYPE, INHERIT_ONLY, LABEL_AUTHORITY = 0x11, 0x08, 16
LEVELS = [0, 0x1000, 0x2000, 0x2000, 0x2100, 0x3000, 0x4000]
MOST_LEVEL = 0xffff_ffff
LINES_OF_A_RUN = 20  # that checks, or derives
SOME_MASKS = [*reference.RIGHTS.values(), *reference.COMPOUND_RIGHTS.values(), *reference.LABEL_RIGHTS.values()]
ALIASES, KIND_NAMES, FLAG_NAMES, RIGHT_NAMES = (
    [name.encode() for name in names] for names in ([*reference.WELL_KNOWN, *reference.OF_THE_DOMAIN],
                                                    reference.KINDS.values(), reference.ACE_FLAGS,
                                                    reference.EVERY_RIGHT))
LETTERS = b"abcdefghijklmnopqrstuvwxyzABCDEFGHIJKLMNOPQRSTUVWXYZ"
# Bytes that mean something in SDDL, their neighbours, and bytes that stand nowhere in it.
TELLING_BYTES = b";():-ODGSPARIUWXodx019fF_ \t\r.,@[{\0\x0b\xa0\xff"
GUID_TEXT = b"bf967aba-0de6-11d0-a285-00aa003049e2"
WHOLE_SDDL = [
    b"O:BAG:S-1-5-21-1-2-3-512D:PAI(OA;CIIO;RPWP;" + GUID_TEXT + b";;DA)(A;;0x1f;;;WD)S:AR(ML;;NW;;;HI)",
    b" o:ba\td:no_access_control s:(au;safa;017;;;s-1-0x0000000000ff-1) (AU;;15;;;SY)\t",
    b"S:PARAI(OU;;KX;;" + GUID_TEXT.upper() + b";AU)G:S-1-4294967295-0000000000D:(D;;;;;BG)O:LA",
]


class Piece(NamedTuple):
    """Some bytes of a descriptor, and the fields in them of which faults can be made."""
    data: bytes
    fields: List[Tuple[int, int]] = []  # place and size


def join(*pieces):
    data, fields = b"", []
    for piece in pieces:
        fields += [(len(data) + place, size) for place, size in piece.fields]
        data += piece.data
    return Piece(data, fields)


def header(owner=0, group=0, sacl=0, dacl=0, control=0x8000, manager=0):
    return reference.HEADER.pack(1, manager, control, owner, group, sacl, dacl)


def sid_bytes(count, filler=b"\x01"):
    return bytes([1, count]) + filler * (6 + 4 * count)


def sid(data):
    return Piece(data, [(0, 1), (1, 1)])


def ace(ace_type, flags, mask, body, sid_data, spare=b"", size=None):
    """The body is the object flags and GUIDs, where there are any."""
    size = 8 + len(body + sid_data + spare) if size is None else size
    front = Piece(reference.ACE_HEADER.pack(ace_type, flags, size, mask), [(0, 1), (1, 1), (2, 2)])
    return join(front, Piece(body, [(0, 4)] if body else []), sid(sid_data), Piece(spare))


def acl(*aces, revision=2, spare=b"", size=None, count=None, unused=(0, 0)):
    body = join(*aces, Piece(spare))
    size = 8 + len(body.data) if size is None else size
    front = reference.ACL_HEADER.pack(revision, unused[0], size, len(aces) if count is None else count, unused[1])
    return join(Piece(front, [(0, 1), (2, 2), (4, 2)]), body)


def one_acl(data):
    """Descriptors with this ACL alone, as DACL and as SACL."""
    yield header(0, 0, 0, 20, 0x8004) + data
    yield header(0, 0, 20, 0, 0x8010) + data


def laid_out(pieces, gaps, order, unused=(0, 0, 0, 0), control=0x8000, manager=0):
    """A descriptor of four pieces, None for what is not there: in this order, each after its gap."""
    offsets, body = list(unused), []
    for part, gap in zip(order, gaps):
        if pieces[part]:
            body.append(Piece(gap))
            offsets[part] = 20 + len(join(*body).data)
            body.append(pieces[part])
            control |= {2: SACL_PRESENT, 3: DACL_PRESENT}.get(part, 0)
    front = Piece(header(*offsets, control=control, manager=manager),
                  [(0, 1), (2, 2), (4, 4), (8, 4), (12, 4), (16, 4)])
    return join(front, *body)


def whole():
    """A descriptor with everything that there is."""
    guids = bytes(range(0x40, 0x60))
    sacl = acl(ace(2, 0xc0, 0x1f01ff, b"", sid_bytes(1)), ace(0x11, 0, 1, b"", sid_bytes(0), bytes(4)),
               ace(7, 0x42, 0x10, b"\2\0\0\0" + guids[:16], sid_bytes(2)), revision=4, spare=bytes(3))
    dacl = acl(ace(0, 3, 0x1200a9, b"", sid_bytes(1)), ace(5, 0, 0x100, b"\3\0\0\0" + guids, sid_bytes(0)),
               ace(1, 0x10, 0xffff_ffff, b"", sid_bytes(1), bytes(8)),
               ace(6, 0, 8, b"\0\0\0\0", sid_bytes(1)), revision=4)
    return laid_out([sid(sid_bytes(2)), sid(sid_bytes(1)), sacl, dacl], [b"", b"", b"\0", b""], (0, 1, 2, 3))


def with_field(data, place, size, value):
    changed = bytearray(data)
    changed[place:place + size] = (value % (1 << 8 * size)).to_bytes(size, "little")
    return bytes(changed)


def ends_of_field(data, place, size):
    """The ends of a field's range, and its value's neighbours."""
    value, most = int.from_bytes(data[place:place + size], "little"), 1 << 8 * size
    near = [value + step for step in (-16, -8, -4, -3, -2, -1, 1, 2, 3, 4, 8, 16, 32)]
    ends = [0, 1, 2, 3, 4, 7, 8, 15, 16, 17, 19, 20, most // 2 - 1, most // 2, most - 8, most - 2, most - 1]
    of_length = [len(data) + step for step in (-9, -8, -7, -1, 0, 1)] if size == 4 else []
    return sorted({end % most for end in near + ends + of_length} - {value})


def sid_lines():
    two = header(20, 88) + sid_bytes(15) + sid_bytes(15, b"\xff")
    yield from (two[:length] for length in range(len(two) + 1))
    for count, other in itertools.product(range(17), range(17)):
        yield header(20, 28 + 4 * count) + sid_bytes(count) + sid_bytes(other)
    for at, value in itertools.product((0, 1, 2, 3, 20, 21, 28, 29), range(256)):
        yield with_field(header(20, 28) + sid_bytes(0) + sid_bytes(0), at, 1, value)
    # In a body of bytes 1 a SID of 12 bytes stands everywhere: every way of two places to meet or to miss.
    for owner, group in itertools.product(range(17, 62), range(17, 62)):
        yield header(owner, group) + bytes([1]) * 40


def acl_lines():
    data, fields = whole()
    yield from (data[:length] for length in range(len(data) + 1))
    yield from (with_field(data, bit // 8, 1, data[bit // 8] ^ 1 << bit % 8) for bit in range(8 * len(data)))
    for place, size in fields:
        yield from (with_field(data, place, size, value) for value in ends_of_field(data, place, size))
    for value in range(256):
        yield from one_acl(acl(ace(value, 0, 1, b"", sid_bytes(1))).data)
        yield from one_acl(acl(ace(0, value, 1, b"", sid_bytes(1))).data)
        yield from one_acl(acl(ace(5, 0, 1, bytes([value, 0, 0, value]) + bytes(32), sid_bytes(1))).data)
        yield from one_acl(acl(revision=value).data)
    for size in range(41):
        yield from one_acl(acl(ace(0, 0, 1, b"", sid_bytes(1)), size=size).data + bytes(8))
        yield from one_acl(acl(ace(0, 0, 1, b"", sid_bytes(1), size=size), spare=bytes(12)).data)
    # Every size, object flag and number of sub-authorities that may or may not fit together.
    for size, bits, count in itertools.product(range(16, 124, 4), range(4), range(17)):
        body = bytes([bits, 0, 0, 0]) + bytes(16 * (bits % 2 + bits // 2)) + sid_bytes(count)
        yield header(0, 0, 0, 20, 0x8004) + acl(ace(5, 0, 1, body[:size - 8], b"",
                                                    bytes(max(0, size - 8 - len(body))))).data
    for aces, count, spare in itertools.product(range(4), range(6), (0, 1, 15, 16, 20)):
        yield from one_acl(acl(*[ace(0, 0, 1, b"", sid_bytes(1))] * aces, count=count, spare=bytes(spare)).data)


def named_sids():
    """Every SID that has an alias, those beside it, and those that are one sub-authority shorter or longer."""
    sids = [reference.Sid(names[0], names[1:]) for names in reference.WELL_KNOWN.values()]
    for (authority, subs), last in itertools.product(DOMAIN_SIDS, range(495, 557)):
        sids.append(reference.Sid(authority, (*subs, last)))
    for authority, subs in sids:
        for others in (subs, subs[:-1], (*subs[:-1], subs[-1] ^ 1 << 9), (0, *subs), (*subs, 0)):
            if len(others) <= 15:
                yield reference.Sid(authority, others)
        yield from (reference.Sid(other, subs) for other in (0, authority + 1, authority ^ 1 << 32))


def sddl_lines():
    """What has a text of its own: SIDs, authorities, rights, flags, GUIDs, and the flags of ACLs."""
    yield from (header(20) + one.to_bytes() for one in named_sids())
    for power, step in itertools.product(range(49), (-1, 0, 1)):
        authority = (1 << power) + step
        if authority < 1 << 48:
            yield header(20) + reference.Sid(authority, (authority % (1 << 32),)).to_bytes()
    one_bit = [1 << bit for bit in range(32)]
    masks = {mask ^ change for mask in (*SOME_MASKS, *one_bit, 7, 0) for change in (0, *one_bit)} | set(range(17))
    for mask, kind in itertools.product(sorted(masks), (0, 5, 0x11)):
        body = bytes(4) if kind == 5 else b""
        yield header(0, 0, 0, 20, 0x8004) + acl(ace(kind, 0, mask, body, sid_bytes(0))).data
    # The bits of the control word that speak of ACLs, all together, and some of the others beside them; the ACLs absent
    # or null, and absent or empty.
    of_acls = [control for control in range(0x8000, 0x10000, 4) if not control & 0x40e8]
    for control in (*of_acls, 0x8008, 0x8020, 0x8040, 0x8080, 0xc000, 0xffff, 0xbfff, 0xffeb, 0xfffb, 0xffef):
        yield header(0, 0, 0, 0, control)
        yield header(0, 0, 20, 28, control) + acl().data * 2


def double_fault_lines():
    """Several faults at once, of which the first in order is answered: in one ACE, and in several parts."""
    for size, ace_type, flags, bits, revision, count in itertools.product(
            (0, 12, 16, 17, 20, 24, 28, 36, 52, 200), (0, 5, 9), (0, UNKNOWN_FLAG), (0, 1, 3), (1, 2), (0, 1, 16)):
        guids = bytes(16 * (bits % 2 + bits // 2))
        body = bytes([bits, 0, 0, 0]) + guids if ace_type == 5 else b""
        one = ace(ace_type, flags, 1, body, bytes([revision, count]) + bytes(6), bytes(40), size)
        yield header(0, 0, 0, 20, 0x8004) + acl(one, one).data
    good = [sid_bytes(0), sid_bytes(0), acl().data, acl().data]
    bad = [sid_bytes(16), b"\2" + sid_bytes(0)[1:], acl(count=1).data, acl(ace(9, 0, 1, b"", sid_bytes(0))).data]
    for states in itertools.product(("absent", "good", "bad", "meets", "far"), repeat=4):
        offsets, body = [0] * 4, b""
        for part, state in zip(PARTS, states):
            offsets[part] = {"absent": 0, "far": 0xffff_fff8}.get(state, 20 + len(body))
            body += bad[part] if state == "bad" else good[part]
            if state == "meets":  # (its last byte is the first one of the next part)
                body = body[:-1]
        yield header(*offsets, control=0x8014) + body


def overlap_lines():
    """Places that meet, touch and miss: of two parts, byte for byte, and of all four."""
    long_sid, long_acl = bytes([1, 15, 0, 0, 0, 0, 0, 5]), reference.ACL_HEADER.pack(2, 0, 68, 0, 0)
    short_sid, short_acl = bytes([1, 0, 0, 0, 0, 0, 0, 5]), reference.ACL_HEADER.pack(2, 0, 8, 0, 0)
    for (one, other), place in itertools.product(itertools.permutations(PARTS, 2), range(20, 110)):
        offsets, data = [0] * 4, bytearray(110)
        offsets[one], offsets[other] = 32, place
        data[32:40] = long_acl if one in ACLS else long_sid
        data[place:place + 8] = short_acl if other in ACLS else short_sid
        yield header(*offsets, control=0x8014) + bytes(data[20:])
    # The parts stand eight bytes after one another and have more than eight, or they stand apart.
    for order, apart, more in itertools.product(itertools.permutations(PARTS), range(16), (0, 4, 8, 16, 24)):
        offsets, body = [0] * 4, b""
        for place, part in enumerate(order):
            offsets[part] = 20 + 8 * place
            body += (reference.ACL_HEADER.pack(4, 0, 8 + more, 0, 0) if part in ACLS
                     else bytes([1, more // 4]) + bytes(6))
        body += bytes(more)
        for part in PARTS:
            if apart >> part & 1:
                offsets[part] = 20 + len(body)
                body += short_acl if part in ACLS else short_sid
        yield header(*offsets, control=0x8014) + body


def fixed_lines():
    """Lines that leave no value of a small field, and no place of a part, to chance."""
    for data in itertools.chain(sid_lines(), acl_lines(), sddl_lines(), double_fault_lines(), overlap_lines()):
        yield data.hex().encode()
    for byte, at in itertools.product(NO_DIGITS, (0, 1, 39)):
        line = bytearray(header().hex().encode())
        line[at] = byte
        yield bytes(line)


def texts(letters, most):
    """Every text of at most so many of these bytes."""
    for length in range(most + 1):
        yield from (bytes(text) for text in itertools.product(letters, repeat=length))


def in_an_ace(kind=b"A", flags=b"", rights=b"", object_type=b"", inherited=b"", sid_text=b"WD"):
    return b"D:(" + b";".join([kind, flags, rights, object_type, inherited, sid_text]) + b")"


def mutations(line):
    """Each byte dropped, doubled, and each telling byte in its place and before it."""
    for at in range(len(line)):
        front, rest = line[:at], line[at + 1:]
        yield front + rest
        yield front + line[at:at + 1] * 2 + rest
        for byte in TELLING_BYTES:
            yield front + bytes([byte]) + rest
            yield front + bytes([byte]) + line[at:]


def shape_lines():
    """Few bytes, of those that make the shape of a line: alone, and beside what is in order."""
    yield from texts(b"ODs:();P \t", 4)
    yield from (b"D:" + text for text in texts(b"O:();P A", 4))
    yield from (b"D:P(A;;;;;WD)" + text for text in texts(b"OS:(); P", 4))
    yield from (in_an_ace(sid_text=text) for text in texts(b";() :OW", 4))
    # Parts in any order, some of them twice, some of them with a text that does not read.
    for count in range(1, 5):
        for letters in itertools.product(b"OGDs", repeat=count):
            for faults in itertools.product((False, True), repeat=count):
                read = [b"BA" if letter in b"OG" else b"P" for letter in letters]
                yield b"".join(b"%c:%b" % (letter, b"?" if fault else text)
                               for letter, text, fault in zip(letters, read, faults))


def field_lines():
    """Short texts in each field, those round the limits of numbers and lengths, and several faults in one ACE."""
    pairs = [bytes(pair) for pair in itertools.product(LETTERS + b"1", repeat=2)]
    yield from (b"O:" + pair for pair in pairs)
    for name in ("kind", "flags", "rights"):
        yield from (in_an_ace(**{name: pair}) for pair in pairs)
    yield from (in_an_ace(kind=b"ML", rights=pair) for pair in pairs)
    yield from (b"S:" + text for text in texts(b"PARI ", 5))
    yield from (in_an_ace(kind=text) for text in texts(b"ADUOMLX", 3))
    yield from (in_an_ace(flags=text) for text in texts(b"OIC1x", 4))
    yield from (in_an_ace(rights=text) for text in texts(b"0xX179GAa", 4))
    yield from (b"G:S-1-" + text for text in texts(b"0-5x", 5))
    for near in (0, 1 << 31, 1 << 32, 10 ** 10, 1 << 64):
        for number in range(max(0, near - 2), near + 3):
            for zeros in (0, 1, 2, 5, 9, 10, 160, *range(165, 184)):
                for form in ("%d", "%o", "0%o", "0x%x", "0X%X"):
                    front, digits = ("0x", (form % number)[2:]) if form[1] in "xX" else ("", form % number)
                    yield in_an_ace(rights=(front + "0" * zeros + digits).encode())
                padded = b"0" * zeros + b"%d" % number
                yield from (b"O:S-1-" + padded, b"O:S-1-5-" + padded, b"O:S-1-5-1-" + padded + b"-2")
                yield in_an_ace(sid_text=b"S-1-0x%012x-%b" % (number % (1 << 48), padded))
    for length in range(178, 190):
        yield from (b"D: " + (b"PAI" * 64)[:length] + b" ", b"S:" + b"P" * (length - 17) + b"NO_ACCESS_CONTROL")
        for text in (b"OI" * 100, b"GA" * 100, b"A" * 200, b"S-1-5" + b"-4294967295" * 15 + b"-1" * 20,
                     b"0x" + b"0" * 200):
            yield b"O:" + text[:length]
            yield from (in_an_ace(**{name: text[:length]})
                        for name in ("kind", "flags", "rights", "object_type", "sid_text"))
            yield in_an_ace(b"OA", b"", b"", b"", text[:length])
    for count in range(13, 18):
        yield from (b"O:S-1-5" + b"-%d" % sub * count for sub in (0, 4_294_967_295, 4_294_967_296))
    guids = (b"", GUID_TEXT, b"?")
    sids = (b"WD", b"DA", b"ZZ", b"", b"S-1-4294967296")
    for fields in itertools.product((b"a", b"oa", b"?"), (b"", b"IO", b"?"), (b"", b"7", b"8?"), guids, guids, sids):
        yield in_an_ace(*fields)


def fixed_sddl_lines():
    """Lines that leave no text of few bytes, and no place in some whole lines, to chance."""
    yield from itertools.chain(shape_lines(), field_lines(), *map(mutations, WHOLE_SDDL))


def aces_of_size(size):
    """ACEs of so many bytes together, each of 16 but the last one."""
    whole, rest = divmod(size, 16)
    return b"(A;;;;;S-1-5)" * (whole - 1) + b"(A;;;;;S-1-5" + b"-1" * (rest // 4) + b")"


def long_sddl_lines():
    """Lines round the limit of a line, and lists round the limit of an ACL."""
    limit = reference.LINE_LIMITS["sddl"]
    for more, filler in itertools.product((0, 1), (b" ", b"x", b"(;;;;;)")):
        yield b"O:BAD:" + (filler * limit)[:limit + more - 6]
    yield b"\t" * (limit - 4) + b"O:BA\r"
    yield b" " * limit + b"\r"
    yield b"O:G:" * 10_000
    for size in range(0xffe0, 0x10020, 4):
        yield b"D:" + aces_of_size(size - 8)
        yield b"S:P(OU;;;;" + GUID_TEXT + b";WD)" + aces_of_size(size - 8 - 40) + b"D:"
    large, small = b"(A;;;;;S-1-5)" * 4096, b"(A;;;;;S-1-5)" * 4095
    for first, second in itertools.product((large, small, small + b"(?;;;;;)", large + b"(A;;;;;ZZ)"), repeat=2):
        yield b"D:" + first + b"S:" + second
        yield b"S:" + first + b"O:BAD:" + second


def large_descriptors():
    small = ace(1, 0xdf, 0xffff_ffff, b"", sid_bytes(0)).data
    large = ace(6, 0, 1, b"\xff" * 4 + bytes(32), sid_bytes(15)).data
    full = reference.ACL_HEADER.pack(4, 1, 0xffff, 4095, 0xffff) + small * 4095 + bytes(7)
    for data in (full, reference.ACL_HEADER.pack(2, 0, 0xfff8, 4095, 0) + small * 4095,
                 reference.ACL_HEADER.pack(2, 0, 0xffff, 4096, 0) + small * 4095 + small[:7],
                 reference.ACL_HEADER.pack(2, 0, 0xffff, 585, 0) + large * 585 + bytes(7),
                 reference.ACL_HEADER.pack(2, 0, 0xffff, 1, 0) + ace(0, 0, 1, b"", sid_bytes(1),
                                                                     bytes(65_504)).data + bytes(3),
                 reference.ACL_HEADER.pack(2, 0, 0xffff, 0, 0) + bytes(65_527)):
        yield from one_acl(data)
        yield header(0, 0, 0, 20, 0x8004) + data[:-1]
    sids = sid_bytes(15) + sid_bytes(15)
    yield header(20, 88, 156, 156 + 0xffff, 0x8014) + sids + full + full
    yield header(20, 88, 156 + 0xffff, 156, 0x8014) + sids + full + full
    yield header(20, 88, 156, 155 + 0xffff, 0x8014) + sids + full[:-1] + full + bytes(1)
    yield header(20, 88, 156, 156 + 0xffff, 0x8014) + sids + full + full[:-16] + b"\xff" + full[-15:]


def long_lines():
    """Lines round the limit: what they hold, and how far they go."""
    yield from (data.hex().encode() for data in large_descriptors())
    limit = reference.LINE_LIMITS["hex"]
    last = (header(limit // 2 - 8) + bytes(limit // 2 - 28) + sid_bytes(0)).hex().encode()
    yield from (last, last + b"\r", last + b"0", last[:-1], last[:-2])
    for front, more in itertools.product((b"", header().hex().encode(), b"z"), (-1, 0, 1, 2)):
        yield front + b"7" * (limit + more - len(front))
    yield b"7" * (limit - 1) + b"\r"
    yield b"7" * (3 * limit)


class Lines:
    """Random lines, of which the most are nearly right."""

    def __init__(self, chance):
        self.chance = chance
        self.named = list(named_sids())
        self.kinds = [self.descriptor, self.descriptor, self.canonical, self.overlap, self.ends, self.ends,
                      self.mutated, self.truncated, self.junk]

    def sid(self):
        kind = self.chance.random()
        if kind < 0.2:
            return self.chance.choice(self.named).to_bytes()
        if kind < 0.3:
            authority, subs = self.chance.choice(DOMAIN_SIDS)
            last = self.chance.choice([self.chance.choice(list(reference.OF_THE_DOMAIN.values())),
                                       self.chance.randrange(1201), self.chance.getrandbits(32)])
            return reference.Sid(authority, (*subs, last)).to_bytes()
        if kind < 0.4:  # (an authority of few bits, so that it is often a decimal number)
            subs = [self.chance.getrandbits(self.chance.randint(1, 32)) for _ in range(self.chance.randrange(16))]
            return reference.Sid(self.chance.getrandbits(self.chance.randint(1, 48)), tuple(subs)).to_bytes()
        count = self.chance.choice([0, 1, 2, 5, 15, self.chance.randrange(16)])
        return bytes([1, count]) + self.chance.randbytes(6 + 4 * count)

    def gap(self):
        return self.chance.randbytes(self.chance.choice([0, 0, 0, 1, 2, 3, self.chance.randrange(40)]))

    def ace(self):
        """Of any kind, with any bits that announce nothing, and bytes after its SID."""
        ace_type = self.chance.choice(list(reference.KINDS))
        flags = self.chance.choice([0, 0xff, self.chance.getrandbits(8)]) & ~UNKNOWN_FLAG
        one, other = (1 << self.chance.randrange(32) for _ in range(2))
        mask = self.chance.choice([0, 0xffff_ffff, one, one | other, self.chance.getrandbits(32),
                                   self.chance.choice(SOME_MASKS), self.chance.randrange(9), self.rights()])
        body = b""
        if ace_type in reference.OBJECT_TYPES:
            bits = self.chance.randrange(4)
            others = self.chance.choice([0, 0, 0xffff_fffc, self.chance.getrandbits(30) << 2])
            body = (bits | others).to_bytes(4, "little") + self.chance.randbytes(16 * (bits % 2 + bits // 2))
        spare = self.chance.choice([0, 0, 0, 4, 8, 4 * self.chance.randrange(30)])
        return ace(ace_type, flags, mask, body, self.sid(), self.chance.randbytes(spare))

    def rights(self):
        """A few rights that have names."""
        some = self.chance.choices(list(reference.RIGHTS.values()), k=self.chance.randint(1, 9))
        return functools.reduce(operator.or_, some)

    def acl(self):
        aces = [self.ace() for _ in range(self.chance.choice([0, 1, 1, 2, 3, self.chance.randrange(9)]))]
        unused = self.chance.choice([(0, 0), (0xff, 0xffff), (self.chance.getrandbits(8), self.chance.getrandbits(16))])
        return acl(*aces, revision=self.chance.choice([2, 4]), spare=self.gap(), unused=unused)

    def pieces(self):
        """Any of the four parts."""
        standing = self.chance.choice([0b1111, 0b1011, 0b1000, 0b0100, self.chance.randrange(16),
                                       self.chance.randrange(4)])
        makers = [lambda: sid(self.sid())] * 2 + [self.acl] * 2
        return [maker() if standing >> part & 1 else None for part, maker in enumerate(makers)]

    def descriptor(self):
        """Parts in any order, with gaps; ACLs that do not stand are absent, with any offset, or null."""
        pieces, unused = self.pieces(), [0] * 4
        control = (self.chance.getrandbits(16) | 0x8000) & ~(SACL_PRESENT | DACL_PRESENT)
        for part, present in zip(ACLS, (SACL_PRESENT, DACL_PRESENT)):
            if not pieces[part] and self.chance.random() < 0.5:
                control |= present
            else:
                unused[part] = self.chance.choice([0, 20, self.chance.getrandbits(32)])
        order = self.chance.sample(PARTS, 4)
        made = laid_out(pieces, [self.gap() for _ in PARTS], order, unused, control, self.chance.getrandbits(8))
        return join(made, Piece(self.gap()))

    def canonical(self):
        """What an answer would be: it is its own answer."""
        return Piece(reference.layout(reference.read(self.descriptor().data)))

    def overlap(self):
        """Two parts, the second one written over a piece of the first, or close to it."""
        gap, first, second = (self.chance.choice([self.gap, self.sid, lambda: self.acl().data])() for _ in range(3))
        place = self.chance.randrange(len(gap) + len(first) + 2)
        body = bytearray(gap + first + self.gap())
        body[place:place + len(second)] = second
        offsets = [0, 0, 0, 0]
        for at in (20 + len(gap), 20 + place):
            acl_there = at + 8 <= 20 + len(body) and body[at - 20] != 1
            offsets[self.chance.choice(ACLS if acl_there else (0, 1))] = at
        return Piece(header(*offsets, control=0x8014) + bytes(body))

    def ends(self):
        """A field or two at an end of its range, or near its value."""
        data, fields = self.descriptor()
        for place, size in self.chance.sample(fields, self.chance.choice([1, 1, 1, 2])):
            data = with_field(data, place, size, self.chance.choice(ends_of_field(data, place, size)))
        return Piece(data)

    def mutated(self):
        data = bytearray(self.descriptor().data)
        for _ in range(self.chance.choice([1, 1, 2, 4])):
            at = self.chance.randrange(self.chance.choice([20, len(data), len(data)]))
            data[at] = self.chance.choice([*ENDS_OF_BYTES, data[at] ^ 1 << self.chance.randrange(8),
                                           self.chance.randrange(256)])
        return Piece(bytes(data))

    def truncated(self):
        data = self.descriptor().data
        return Piece(data[:self.chance.randrange(len(data) + 1)])

    def junk(self):
        return Piece(self.chance.randbytes(self.chance.randrange(200)))

    def spelled(self, data):
        line = bytearray(data.hex().encode())
        case = self.chance.randrange(4)
        if case == 0:
            line = line.upper()
        elif case == 1:
            upper = self.chance.getrandbits(len(line)) if line else 0
            line = bytearray(byte & 0xdf if byte >= 97 and upper >> at & 1 else byte for at, byte in enumerate(line))
        return line

    def line(self):
        line = self.spelled(self.chance.choice(self.kinds)().data)
        change = self.chance.randrange(40)
        if change == 0 and line:
            del line[self.chance.randrange(len(line))]
        elif change == 1 and line:
            line[self.chance.randrange(len(line))] = self.chance.choice(NO_DIGITS)
        elif change == 2:
            line[self.chance.randrange(len(line) + 1):0] = self.chance.choice([b"\r", b"\r\r", b"\0", b" ",
                                                                               b"g", b"00"])
        elif change == 3:
            return self.chance.randbytes(self.chance.randrange(60)).replace(b"\n", b"\r")
        elif change == 4:
            return b""
        return bytes(line)

    def base64_line(self):
        return base64_lines.any_line(self.chance, self.chance.choice(self.kinds)().data)

    def plain(self):
        """A descriptor without what SDDL has no letters for."""
        descriptor = reference.read(self.descriptor().data)
        control = reference.SELF_RELATIVE
        for present, flags in reference.ACL_FLAGS.values():
            if descriptor.control & present:
                control |= descriptor.control & (present | sum(flags.values()))
        return descriptor._replace(control=control, resource_manager=0)

    def parent(self, descriptor):
        """The descriptor with ACEs of which the most are handed on, many of them for the creator."""
        return descriptor._replace(sacl=self.handed_on(descriptor.sacl), dacl=self.handed_on(descriptor.dacl))

    def handed_on(self, acl):
        return acl and reference.Acl(tuple(ace._replace(
            flags=self.chance.choice([ace.flags, ace.flags & ~7, ace.flags & ~4]) | self.chance.choice([0, 1, 2, 3, 3]),
            mask=self.chance.choice([ace.mask, ace.mask & 0x0fff_ffff]),
            sid=self.chance.choice([ace.sid, ace.sid, *CREATORS])) for ace in acl.aces))

    def label(self):
        """An ACE that says a level, or one that nearly does."""
        level = self.chance.choice([*LEVELS, self.chance.getrandbits(32), MOST_LEVEL])
        sid = reference.Sid(LABEL_AUTHORITY, (level,))
        others = [reference.Sid(LABEL_AUTHORITY, (level, level)), reference.Sid(LABEL_AUTHORITY, ()),
                  reference.Sid(5, (level,))]
        flags = self.chance.choice([0, 0, 0, INHERIT_ONLY, self.chance.getrandbits(8) & ~UNKNOWN_FLAG])
        mask = self.chance.choice([self.chance.randrange(8), self.chance.randrange(8), self.chance.getrandbits(32)])
        return reference.Ace(LABEL_TYPE, flags, mask, None, None, self.chance.choice([sid] * 6 + others))

    def labelled(self, descriptor):
        """The descriptor, the most with a label or two in their SACL."""
        aces = list(descriptor.sacl.aces if descriptor.sacl else ())
        for _ in range(self.chance.choice([0, 1, 1, 1, 2])):
            aces.insert(self.chance.randint(0, len(aces)), self.label())
        if not aces:
            return descriptor
        return descriptor._replace(control=descriptor.control | SACL_PRESENT, sacl=reference.Acl(tuple(aces)))

    def with_stand_ins(self, descriptor):
        """The descriptor with a DACL in which many ACEs are for its owner, PRINCIPAL SELF or OWNER RIGHTS, and in which
        object types differ in one bit."""
        if not descriptor.dacl:
            return descriptor
        guid = self.chance.randbytes(16)
        bit = self.chance.randrange(128)
        near = (int.from_bytes(guid, "little") ^ 1 << bit).to_bytes(16, "little")
        return descriptor._replace(dacl=reference.Acl(tuple(ace._replace(
            sid=self.chance.choice([ace.sid, ace.sid, *STAND_INS, descriptor.owner or ace.sid]),
            object_type=ace.object_type and self.chance.choice([ace.object_type, guid, guid, near]))
            for ace in descriptor.dacl.aces)))

    def in_any_case(self, text):
        upper = self.chance.choice([0, -1, self.chance.getrandbits(len(text) + 1)])
        return "".join(letter.upper() if upper >> at & 1 else letter.lower() for at, letter in enumerate(text))

    def blanks(self):
        return self.chance.choice(["", "", "", " ", "\t", " \t  "])

    def padded(self, digits, most):
        """With zeros before them, or without."""
        return digits.zfill(self.chance.choice([0, 0, self.chance.randint(0, most)]))

    def sid_text(self, sid, domain):
        alias = reference.aliases_under(domain).get(sid)
        if alias and self.chance.random() < 0.7:
            return alias
        authority = f"0x{sid.authority:012x}"
        if sid.authority < 1 << 32 and self.chance.random() < 0.7:
            authority = self.padded(str(sid.authority), 10)
        return "-".join(["S-1", authority, *(self.padded(str(sub), 10) for sub in sid.sub_authorities)])

    def names_text(self, bits, names):
        """Names of these bits in any order, some of them again; None where they do not have all of the bits."""
        some = [name for name, named in names.items() if named & ~bits == 0]
        if functools.reduce(operator.or_, map(names.get, some), 0) != bits:
            return None
        some += self.chance.choices(some, k=self.chance.choice([0, 0, 1, 9])) if some else []
        self.chance.shuffle(some)
        return "".join(some)

    def rights_text(self, mask):
        numbers = ["0x" + self.padded(f"{mask:x}", 181), "0" + self.padded(f"{mask:o}", 182), str(mask)]
        names = self.names_text(mask, reference.EVERY_RIGHT)
        return self.chance.choice(numbers if names is None else [*numbers, names, names, names])

    def ace_text(self, ace, domain):
        fields = [reference.KINDS[ace.type], self.names_text(ace.flags, reference.ACE_FLAGS),
                  self.rights_text(ace.mask), reference.guid_sddl(ace.object_type),
                  reference.guid_sddl(ace.inherited_object_type), self.sid_text(ace.sid, domain)]
        return f"({';'.join(fields)})"

    def spelled_as_sddl(self, descriptor, domain):
        """The descriptor in SDDL, in any of the ways in which it is read."""
        parts = [f"{letter}:{self.blanks()}{self.sid_text(sid, domain)}"
                 for letter, sid in (("O", descriptor.owner), ("G", descriptor.group)) if sid]
        for letter, acl in (("D", descriptor.dacl), ("S", descriptor.sacl)):
            present, flags = reference.ACL_FLAGS[letter]
            if descriptor.control & present:
                pieces = [self.names_text(descriptor.control & sum(flags.values()),
                                          flags) + "NO_ACCESS_CONTROL" * (acl is None)]
                pieces += [self.ace_text(ace, domain) for ace in acl.aces] if acl else []
                parts.append(f"{letter}:{self.blanks()}" + "".join(piece + self.blanks() for piece in pieces))
        self.chance.shuffle(parts)
        text = self.blanks() + "".join(part + self.blanks() for part in parts)
        return (text if self.chance.random() < 0.3 else self.in_any_case(text)).encode()

    def mutated_sddl(self, line):
        """With a change or a few."""
        line = bytearray(line)
        for _ in range(self.chance.choice([1, 1, 1, 2, 4])):
            at = self.chance.randrange(len(line) + 1)
            end = at + self.chance.choice([0, 1, 1, self.chance.randrange(9)])
            line[at:end] = self.chance.choice([b"", line[at:end] * 2, self.chance.choices(TELLING_BYTES),
                                               self.sddl_piece()])
        return bytes(line)

    def pair(self):
        """Any two letters."""
        return bytes(self.chance.choices(LETTERS, k=2))

    def names(self, listed):
        """A run of names of a table, and now and then of a pair that stands in another table or in none."""
        names = self.chance.choices(listed, k=self.chance.choice([0, 1, 1, 2, 5]))
        return b"".join(self.pair() if self.chance.random() < 0.1 else name for name in names)

    def named_ace(self):
        """An ACE all of whose fields are names, in either case."""
        sid = self.chance.choice([*ALIASES, self.pair(), self.pair()])
        kind = self.chance.choice([*KIND_NAMES, *KIND_NAMES, self.pair()])
        line = in_an_ace(kind, self.names(FLAG_NAMES), self.names(RIGHT_NAMES), b"", b"", sid)
        return self.in_any_case(line.decode()).encode()

    def sddl_piece(self):
        return self.chance.choice([b"O:", b"G:BA", b"D:", b"S:P", b"(", b")", b";", b"(A;;;;;WD)", b"AI", b"OI",
                                   b"0x", b"S-1-", b"NO_ACCESS_CONTROL", b"-0", b"4294967296", GUID_TEXT, b"DA", b"ZZ",
                                   b" \t", self.pair()])

    def sddl_line(self):
        """Nearly right, of names alone, or of a few pieces."""
        kind = self.chance.random()
        if kind < 0.2:
            return b"".join(self.sddl_piece() for _ in range(self.chance.randrange(9)))
        if kind < 0.3:
            return self.named_ace()
        line = self.spelled_as_sddl(self.plain(), self.chance.choice([None, DOMAIN_SIDS[0]]))
        return line if self.chance.random() < 0.3 else self.mutated_sddl(line)

    def end(self):
        return self.chance.choice([b"\n"] * 8 + [b"\r\n"] * 4 + [b"\r\r\n"])

    def last_end(self):
        return self.chance.choice([b"", b"", b"\r", b"\r\r", b"\n", b"\r\n", b"\n\n", b"\n\r"])

    def piece(self):
        """The size of a piece that an input is cut into."""
        return self.chance.choice([1, 2, self.chance.randint(1, 50), self.chance.randint(1, PACKET), PACKET])


def feed(fd, data, sizes):
    at = 0
    try:
        for size in sizes:
            at += os.write(fd, data[at:at + size])
            if at == len(data):
                break
    except BrokenPipeError:  # the program has ended too soon, which its answers show
        pass
    os.close(fd)


def answers_of(program, words, data, sizes):
    """The program's answers, and its status; the input is cut into pieces of these sizes, or comes as a file."""
    with tempfile.TemporaryFile() as given, tempfile.TemporaryFile() as written:
        reading, feeder = given.fileno(), None
        if sizes:
            reading, writing = os.pipe2(os.O_DIRECT | os.O_CLOEXEC)
            feeder = threading.Thread(target=feed, args=(writing, data, sizes))
        else:
            given.write(data)
            given.seek(0)
        child = subprocess.Popen([program, *words], stdin=reading, stdout=written)
        if feeder:
            os.close(reading)
            feeder.start()
        try:
            status = child.wait(timeout=SECONDS)
        except subprocess.TimeoutExpired:
            child.kill()
            child.wait()
            status = "too slow"
        if feeder:
            feeder.join()
        written.seek(0)
        return written.read(), status


def short(line):
    shown = repr(line[:400])[1:]
    return shown if len(line) <= 400 else f"{shown}.. ({len(line)} bytes)"


def after_lfs(data, at, count):
    """Behind so many LFs from a place on, or at the end."""
    for _ in range(count):
        at = data.find(b"\n", at) + 1 or len(data)
    return at


class Input:
    """An input, and what its lines show, which is found out once for all ways in which they are converted."""

    def __init__(self, data, known=None):
        """Where it is known what the lines show, the reference does not read them."""
        self.data, self.lines, self.known, self.shown, self.answered = data, reference.lines(data), known, {}, {}

    def answers(self, words):
        """The answers that the reference gives under these words, and the status."""
        settings = reference.settings_of([word.encode() for word in words])
        if settings not in self.answered:
            reading = settings.source, settings.domain if settings.source == "sddl" else None
            if not self.known and reading not in self.shown:
                self.shown[reading] = reference.all_shown(self.data, settings)
            self.answered[settings] = reference.answers(self.known or self.shown[reading], settings)
        return self.answered[settings]


class Count:
    """What was compared, and what differed."""

    def __init__(self):
        self.passed = self.failed = 0

    def fail(self, *shown):
        self.failed += 1
        if self.failed <= SHOWN:
            print("FAIL", "\n  ".join(shown))

    def run(self, program, what, words, given, sizes=None):
        """One run of the program: each answer is compared, and then that there is nothing more, and the status."""
        wanted, wanted_status = given.answers(words)
        written, status = answers_of(program, words, given.data, sizes)
        what, at = " ".join([what, *words]), 0
        for line, answer in zip(given.lines, wanted):
            # (an explanation has lines of its own)
            end = after_lfs(written, at, answer.count(b"\n") + 1)
            if written[at:end] == answer + b"\n":
                self.passed += 1
            else:
                self.fail(f"{what}: {short(line)}", f"gave {short(written[at:end])}", f"not  {short(answer)}")
            at = end
        if at == len(written) and status == wanted_status:
            self.passed += 1
        else:
            self.fail(f"{what}, at the end",
                      f"status {status}, not {wanted_status}; more output: {short(written[at:])}")

    def run_or_refuse(self, program, words, given):
        """One run of the program, whose words may have a value that does not read: then there is no answer."""
        try:
            given.answers(words)
        except reference.Usage as fault:
            ended = subprocess.run([program, *words], input=given.data, capture_output=True, timeout=SECONDS)
            if (ended.returncode, ended.stdout, ended.stderr) == (2, b"", f"{fault}\n".encode()):
                self.passed += 1
            else:
                self.fail(f"refused words {words}: gave {ended}, not {fault}")
        else:
            self.run(program, "with words that are read", words, given)


def compare_hex(count, program, maker, number):
    """From hex, random lines of this number among the others."""
    pieces = [*fixed_lines(), *(maker.line() for _ in range(number))]
    maker.chance.shuffle(pieces)
    all_lines = Input(b"".join(line + maker.end() for line in pieces))
    # (apart, since their bytes are as many as those of all others)
    long = Input(b"".join(line + maker.end() + maker.line() + b"\n" for line in long_lines()))
    for words in EVERY_WORDS:
        count.run(program, "from a file", words, all_lines)
    for words in (HEX, BASE64, UNDER[0], EXPLAINED[0]):
        count.run(program, "cut", words, all_lines, (maker.piece() for _ in itertools.count()))
        count.run(program, "long lines from a file", words, long)
        count.run(program, "long lines cut", words, long, (maker.chance.randint(1, PACKET) for _ in itertools.count()))


def compare_base64(count, program, maker, number):
    """From base64, random lines of this number among the others."""
    headers = [header(), header() + b"\xff", header(20) + sid_bytes(0)]  # with one `=`, none, and two
    pieces = [*base64_lines.fixed_lines(headers, whole().data), *(maker.base64_line() for _ in range(number))]
    maker.chance.shuffle(pieces)
    all_lines = Input(b"".join(line + maker.end() for line in pieces))
    long = Input(b"".join(line + maker.end() + maker.base64_line() + b"\n"
                          for line in base64_lines.long_lines(large_descriptors())))
    for words in EVERY_WORDS_FROM_BASE64:
        count.run(program, "from a file", words, all_lines)
    for words in EVERY_WORDS_FROM_BASE64[:3]:
        count.run(program, "cut", words, all_lines, (maker.piece() for _ in itertools.count()))
        count.run(program, "long lines from a file", words, long)
        count.run(program, "long lines cut", words, long, (maker.chance.randint(1, PACKET) for _ in itertools.count()))


def compare_spelled(count, program, maker, descriptors):
    """From SDDL that is printed, and from SDDL that is spelled otherwise; such lines for later changes."""
    lines = []
    for words in (SDDL, UNDER[0], NUMERIC):
        settings = reference.settings_of([word.encode() for word in words])
        printed = [reference.sddl(descriptor, settings).encode() for descriptor in descriptors]
        spelled = [maker.spelled_as_sddl(descriptor, settings.domain) for descriptor in descriptors]
        for what, texts_of_all in (("printed", printed), ("spelled otherwise", spelled)):
            known = [descriptor if text else None for descriptor, text in zip(descriptors, texts_of_all)]
            given = Input(b"".join(text + b"\n" for text in texts_of_all), known)
            count.run(program, what, [*words, *FROM_SDDL], given)
            # No option is given twice.
            others = [word for word in words if word not in ("--to", "sddl")]
            count.run(program, what, [*others, *FROM_SDDL, *TO_HEX], given)
            count.run(program, what, ["explain", *others[1:], *FROM_SDDL], given)
        lines += spelled
    return lines


def compare_sddl(count, program, maker, number):
    """From SDDL, random lines of this number, and changed ones of ten times this number, among the others."""
    spelled = compare_spelled(count, program, maker, [maker.plain() for _ in range(number // 4)])
    pieces = [*fixed_sddl_lines(), *(maker.sddl_line() for _ in range(number))]
    short_ones = [line for line in spelled if 0 < len(line) < 300]
    pieces += [maker.mutated_sddl(line) for line in maker.chance.choices(short_ones, k=10 * number)]
    maker.chance.shuffle(pieces)
    all_lines = Input(b"".join(line + maker.end() for line in pieces))
    long = Input(b"".join(line + maker.end() + maker.sddl_line() + b"\n" for line in long_sddl_lines()))
    for words in EVERY_WORDS_FROM_SDDL:
        count.run(program, "from a file", words, all_lines)
    count.run(program, "long lines from a file", EVERY_WORDS_FROM_SDDL[0], long)
    words = EVERY_WORDS_FROM_SDDL[1]
    count.run(program, "cut", words, all_lines, (maker.piece() for _ in itertools.count()))
    count.run(program, "long lines cut", words, long, (maker.chance.randint(1, PACKET) for _ in itertools.count()))


def compare_short(count, program, maker, number):
    """Inputs of few lines, with all kinds of ends."""
    for _ in range(number // 25):
        kind, every_words = maker.chance.choice([(maker.line, EVERY_WORDS),
                                                 (maker.base64_line, EVERY_WORDS_FROM_BASE64),
                                                 (maker.sddl_line, EVERY_WORDS_FROM_SDDL)])
        data = b"".join(kind() + maker.end() for _ in range(maker.chance.randrange(4))) + kind() + maker.last_end()
        sizes = maker.chance.choice([None, itertools.repeat(1), itertools.repeat(7)])
        count.run(program, "short input", maker.chance.choice(every_words), Input(data), sizes)


# What is given in every cut: a line that reads, with a CR, and such as do not, with CRs where they count and where not.
CUT = {
    "hex": [b"01000080" + b"00" * 16 + b"\r\n0z\r\n\r\r\n0", b"0100008014000000" + b"00" * 12 + b"0101000000000005\r"],
    "base64": [b"AQAAgAAAAAAAAAAAAAAAAAAAAAA=\r\nAR==\n\r\nAQ\r"],
    "sddl": [b"O:BAD:P(A;CI;FA;;;WD)\r\nd:\r\r\nO", b"G: S-1-1 S:(AU;SA;0x1;;;BG)\n)\nO:BAO:",
             b"D:(A;;1;;;WD)(A;;\rG:\n\t o:sy\r"],
}


def cuts_in_three(size):
    """The sizes of all pieces that so many bytes are cut into, at two places; one of the pieces may be the whole."""
    for first in range(1, size + 1):
        for second in range(1, size - first + 1):
            yield [first, second, size - first - second] if first + second < size else [first, second]
    yield [size]


def compare_cuts(count, program, _maker, _number):
    """Each input in every cut at two places."""
    for source, inputs in CUT.items():
        for data in inputs:
            given = Input(data)
            for sizes in cuts_in_three(len(data)):
                count.run(program, f"cut into {sizes}", ["convert", "--from", source, "--to", "hex"], given, sizes)


def sid_texts(descriptors):
    """The texts of the SIDs of their owners and DACLs."""
    return [sid.text() for one in descriptors
            for sid in (one.owner, *(ace.sid for ace in (one.dacl.aces if one.dacl else ())))
            if sid is not None]


def like(sid):
    """Another SID with as many sub-authorities and the same last one: its key is the same, so the rest has to be
    compared."""
    parts = sid.split("-")
    at = 3 if len(parts) > 4 else 2
    if at < len(parts):
        parts[at] = "8" if parts[at] == "7" else "7"
    return "-".join(parts)


def among_others(maker, some):
    """These SIDs among many others. The program compares sixteen entries of a token in one step."""
    others = [like(sid) for sid in some] + [f"S-1-5-21-1-2-3-{number}" for number in range(9)]
    many = some + maker.chance.choices(others, k=maker.chance.randint(7, 55))
    maker.chance.shuffle(many)
    return many


def token_text(maker, descriptors):
    """The text of a token with SIDs of these descriptors among others, some of them deny-only."""
    some = maker.chance.choices(sid_texts(descriptors) + ["WD", "S-1-3-4", "PS"], k=maker.chance.randint(1, 9))
    if maker.chance.random() < 0.4:
        some = among_others(maker, some)
    return ",".join(maker.chance.choice(["", "", "!"]) + sid for sid in some)


def level_text(maker, descriptors):
    """A level near one of their labels, or near that of an object without one."""
    aces = [ace for one in descriptors if one.sacl for ace in one.sacl.aces if ace.type == LABEL_TYPE]
    levels = [ace.sid.sub_authorities[0] for ace in aces if ace.sid.sub_authorities] + [0x2000]
    level = maker.chance.choice(levels) + maker.chance.choice([-1, -1, 0, 0, 0, 1])
    return maker.padded(str(min(max(0, level), MOST_LEVEL)), 10)


def check_words(maker, descriptors):
    """Words of check that ask for something, about what the descriptors say."""
    aces = [ace for one in descriptors if one.dacl for ace in one.dacl.aces]
    words = ["check", "--token", token_text(maker, descriptors), "--type",
             maker.chance.choice(list(reference.MAPPINGS))]
    masks = [mask for mask in (maker.rights(), maker.chance.getrandbits(25), *(ace.mask for ace in aces)) if mask]
    wanted = maker.chance.choice(masks) & ~reference.RESERVED
    if wanted and maker.chance.random() < 0.7:
        words += ["--want", f"0x{wanted:x}"]
    if "--want" not in words or maker.chance.random() < 0.5:
        words.append("--maximum")
    if maker.chance.random() < 0.75:
        words += ["--level", level_text(maker, descriptors)]
    guids = [ace.object_type for ace in aces if ace.object_type is not None]
    if guids and maker.chance.random() < 0.7:
        words += ["--object", reference.guid_sddl(maker.chance.choice(guids))]
    if maker.chance.random() < 0.5:
        words += ["--self", maker.chance.choice(words[2].replace("!", "").split(","))]
    return words + [flag for flag in ("--security", "--take-ownership") if maker.chance.random() < 0.3]


def compare_checks(count, program, maker, number):
    """Checks by tokens that have something to do with the descriptors, each on a few of them."""
    for _ in range(number // LINES_OF_A_RUN):
        descriptors = [maker.labelled(maker.with_stand_ins(reference.read(maker.descriptor().data)))
                       for _ in range(LINES_OF_A_RUN)]
        given = Input(b"".join(reference.layout(one).hex().encode() + b"\n" for one in descriptors), descriptors)
        count.run(program, "checked", check_words(maker, descriptors), given)


def derive_words(maker, descriptors):
    """Words of derive, for an owner and a group of these descriptors or others."""
    others = ["BA", "CO", "CG", "s-1-0x00000000000f-007"]
    words = ["derive", "--kind", maker.chance.choice(["file", "container", "container"])]
    if maker.chance.random() < 0.3:
        words += ["--domain", DOMAINS[0]]
        others += ["DA", "du"]
    for name in ("--owner", "--group"):
        words += [name, maker.chance.choice(maker.chance.choice([others, sid_texts(descriptors) or others]))]
    if maker.chance.random() < 0.7:
        words += ["--type", maker.chance.choice(list(reference.MAPPINGS))]
    words += maker.chance.choice([[], [], TO_HEX, ["--to", "base64"]])
    if maker.chance.random() < 0.75:
        words += ["--creator", creator_text(maker, DOMAIN_SIDS[0] if "--domain" in words else None)]
    return words + ["--numeric"] * (maker.chance.random() < 0.2)


def creator_text(maker, domain):
    """A creator's descriptor, whose ACEs are of the same kinds as a parent's."""
    return maker.spelled_as_sddl(maker.labelled(maker.parent(maker.plain())), domain).decode()


def compare_faulty_creators(count, program, maker, number):
    """Creators' descriptors with a change or a few: most of them do not read, and then nothing is answered."""
    parent = Input(b"D:(A;OICI;FA;;;SY)\n")
    for _ in range(number):
        creator = maker.mutated_sddl(creator_text(maker, None).encode())
        if creator.isascii() and b"\0" not in creator and not creator.startswith(b"-"):
            count.run_or_refuse(program, [*DERIVED[0], *FROM_SDDL, "--creator", creator.decode()], parent)


def large_parents(counts=(2729, 2730)):
    """ACLs whose copies for an owner of 16 bytes are about as large as an ACL may be."""
    def acl_of(letter, kind, count, rest):
        aces = f"({kind};OICINP;FA;;;CO)" * count + "".join(f"({kind};OICINP;FA;;;S-1-5{sub})" for sub in rest)
        return f"{letter}:{aces}".encode()
    for count, rest in itertools.product(counts, ([], [""], ["-1"], ["-1-2-3"], ["-1-2-3-4"])):
        dacl, sacl = acl_of("D", "A", count, rest), acl_of("S", "AU", count, rest)
        yield from (dacl, sacl, dacl + b"S:(AU;CI;FA;;;CO)", sacl + b"D:(A;OI;FA;;;CG)", dacl + sacl)


def compare_derived(count, program, maker, number):
    """What is derived for owners and groups that have something to do with the descriptors, from a few of them each."""
    for _ in range(number // LINES_OF_A_RUN // 2):
        descriptors = [maker.parent(reference.read(maker.descriptor().data)) for _ in range(LINES_OF_A_RUN)]
        given = Input(b"".join(reference.layout(one).hex().encode() + b"\n" for one in descriptors), descriptors)
        count.run(program, "derived", derive_words(maker, descriptors), given)
        descriptors = [maker.parent(maker.plain()) for _ in range(LINES_OF_A_RUN)]
        spelled = [maker.spelled_as_sddl(one, None) for one in descriptors]
        known = [one if text else None for one, text in zip(descriptors, spelled)]
        given = Input(b"".join(text + b"\n" for text in spelled), known)
        count.run(program, "derived", [*derive_words(maker, descriptors), *FROM_SDDL], given)
    large = Input(b"".join(line + b"\n" for line in large_parents()))
    for kind, form in itertools.product(["file", "container"], ["hex", "base64", "sddl"]):
        words = ["derive", "--kind", kind, "--owner", "BA", "--group", "SY", "--to", form, *FROM_SDDL]
        count.run(program, "large ACLs derived", words, large)
    # Together with those of a creator they are about as large as an ACL may be.
    large = Input(b"".join(line + b"\n" for line in large_parents((1729, 1730))))
    creators = ["D:" + "(A;;FA;;;CO)" * 1000, "D:" + "(A;;FA;;;CO)" * 1000 + "S:P",
                "S:" + "(AU;SA;FA;;;CO)" * 1000, "D:P" + "(A;;FA;;;CO)" * 1000 + "S:NO_ACCESS_CONTROL"]
    for kind, creator in itertools.product(["file", "container"], creators):
        words = ["derive", "--kind", kind, "--owner", "BA", "--group", "SY", "--creator", creator, *FROM_SDDL]
        count.run(program, "large ACLs derived with a creator", words, large)
    compare_faulty_creators(count, program, maker, number // LINES_OF_A_RUN)


PARTS_OF_ALL = {"hex": compare_hex, "base64": compare_base64, "sddl": compare_sddl, "short": compare_short,
                "cuts": compare_cuts, "checks": compare_checks, "derivations": compare_derived}


def add_options(parser):
    parser.add_argument("--lines", type=int, default=10_000, help="random lines (%(default)s)")
    parser.add_argument("--seed", type=int, default=1, help="(%(default)s)")


def main(count: preload.Count, given: preload.Given) -> None:
    compared = Count()
    for part in filter(preload.is_chosen, PARTS_OF_ALL):
        PARTS_OF_ALL[part](compared, given.program, Lines(random.Random(f"{given.seed} {part}")), given.lines)
    count.passed, count.failed = compared.passed, compared.failed
