"""Tries arguments of the library just outside what it takes. What include/sdtool.h lists is answered as the reference
answers it, and all else is the argument that is wrong.

  numbers  of each enumeration: 0 to 300, each power of two with those beside it, and the greatest; each byte of an
           entry, of an ACE's type and of its flags
  lengths  of a SID, a domain, an owner, a group, a creator, a GUID and a token, from 0 to 100, each with zeros, with
           ones and with what has another length
  bytes    each byte in each place of a usual descriptor, and of an ACL that is walked through
  GUIDs    zeros, ones, others, and each with a byte off, of an object ACE and in the call
  SIDs     the same, of an ACE and in a token, also in memory of the caller
  words    of sdtool_run: each text of one and two bytes as the value of an option with a list, and as a mark in a token
  layers   an argument of the C for Linux and for WASI, systems/c, that is as long as its room, longer and shorter, by
           tests/library/c/arguments.c

It needs a C compiler.
"""
import ctypes
import itertools
import pathlib
import re
import subprocess
import tempfile
from ctypes import POINTER, Structure, byref, c_bool, c_char_p, c_size_t, c_uint8, c_uint16, c_uint32

import c_library
import neighbours
import preload
import reference
from reference import Ace, Acl, Descriptor, Sid

OK, TOO_SMALL, ARGUMENT, MOST_BYTES, MOST_NUMBER = 0, 71, 70, 131_226, (1 << 32) - 1
EMPTY_REQUEST, RESERVED_BITS, MOST_SHORT, NO_PLACE, MOST_DERIVED_ACES = 50, 51, 0xffff, 0xffff, 4095
DOMAIN, SIDS, ENTRIES, OBJECT, SELF, MAPPING, CREATOR, OWNER, GROUP, KIND, FAULT, SID, SACL, DACL, TOKEN = range(1, 16)
ABSENT, NULL, LIST = range(3)
LENGTHS = range(101)
EVERYONE, USER = Sid(1, (0,)), neighbours.USER
DOMAIN_SID = Sid(5, (21, 1, 2, 3))
HAS_LEVEL, SECURITY, TAKE_OWNERSHIP, MAXIMUM = 1, 2, 4, 1  # options of an asker, and that of a request


class Outcome(Structure):
    _fields_ = [("fault", c_uint32), ("part", c_uint32), ("other_part", c_uint32), ("argument", c_uint32),
                ("entry", c_size_t),
                ("length", c_size_t)]


class Asker(Structure):
    _fields_ = [("mapping", c_uint32), ("level", c_uint32), ("options", c_uint32)]


class Request(Structure):
    _fields_ = [("asker", Asker), ("wanted", c_uint32), ("options", c_uint32)]


class Verdict(Structure):
    _fields_ = [("outcome", Outcome), ("mask", c_uint32), ("granted", c_bool)]


class Reason(Structure):
    _fields_ = [("kind", c_uint16), ("place", c_uint16)]


class Origin(Structure):
    _fields_ = [("place", c_uint16), ("from_creator", c_bool), ("inherit_only", c_bool)]


class Origins(Structure):
    _fields_ = [("outcome", Outcome), ("sacl_count", c_size_t), ("dacl_count", c_size_t)]


class Place(Structure):
    _fields_ = [("offset", c_size_t), ("size", c_size_t)]


class FoundAce(Structure):
    _fields_ = [("fault", c_uint32), ("mask", c_uint32), ("number", c_uint32), ("kind", c_uint8), ("flags", c_uint8),
                *((name, Place) for name in ("place", "object_type", "inherited", "sid"))]


class Bytes(Structure):
    _fields_ = [("bytes", c_char_p), ("size", c_size_t)]


class NewAce(Structure):
    _fields_ = [("sid", Bytes), ("object_type", Bytes), ("inherited", Bytes), ("mask", c_uint32), ("kind", c_uint8),
                ("flags", c_uint8)]


class NewAcl(Structure):
    _fields_ = [("aces", POINTER(NewAce)), ("ace_count", c_size_t), ("state", c_uint32)]


class NewDescriptor(Structure):
    _fields_ = [("owner", Bytes), ("group", Bytes), ("sacl", NewAcl), ("dacl", NewAcl), ("control", c_uint16),
                ("resource_manager", c_uint8)]


class Ending(Structure):
    _fields_ = [("status", c_uint32), ("length", c_size_t), ("message_length", c_size_t)]


LIBRARY = ctypes.CDLL(str(c_library.LIBRARIES / "libsdtool.so"))
OUTPUT = ctypes.create_string_buffer(MOST_BYTES)


def call(name, answer, *arguments):
    """Calls an export. Bytes become two arguments, a pointer and a size; numbers have 32 bits."""
    given = []
    for argument in arguments:
        if isinstance(argument, bytes):
            given += [c_char_p(argument), c_size_t(len(argument))]
        elif argument is OUTPUT:
            given += [OUTPUT, c_size_t(MOST_BYTES)]
        else:
            given.append(c_uint32(argument) if isinstance(argument, int) and not isinstance(argument, bool)
                         else argument)
    function = getattr(LIBRARY, name)
    function.restype = answer
    return function(*given)


def answered(name, *arguments):
    """The answer of a call with an output, or its fault: its number, its argument and the entry of that."""
    outcome = call(name, Outcome, *arguments, OUTPUT)
    return (ctypes.string_at(OUTPUT, outcome.length) if outcome.fault == OK
            else (outcome.fault, outcome.argument, outcome.entry))


def judged(descriptor, sids, entries, request, object_type=b"", principal_self=b""):
    """The verdicts of the three calls that check; the same list or the same fault by each."""
    before = [c_char_p(sids), c_size_t(len(sids)), c_char_p(entries), c_size_t(len(entries))]
    asked = [object_type, principal_self, byref(request)]
    one = call("sdtool_check", Verdict, descriptor, *before, *asked)
    verdicts = (Verdict * 1)()
    many = call("sdtool_check_many", Outcome, byref(Bytes(descriptor, len(descriptor))), c_size_t(1), *before,
                *asked, verdicts, c_size_t(1))
    token = (c_uint32 * (2 + 20 * max(len(entries), 1)))()
    read = call("sdtool_token_read", Outcome, *before, token, c_size_t(len(token)))
    found = [as_answer(one), as_answer(verdicts[0] if many.fault == OK else many)]
    lent = call("sdtool_check_with", Verdict, descriptor, token, c_size_t(len(token)), *asked)
    found.append(as_answer(read) if read.fault != OK else as_answer(lent))
    # A token that was not read is none.
    is_one = read.fault == OK or as_answer(lent) == (ARGUMENT, TOKEN, 0)
    found += why(descriptor, before, token if read.fault == OK else None, [object_type, principal_self],
                 request, found[0])
    return found[0] if all(one == found[0] for one in found) and is_one else found


def why(descriptor, before, token, asked, request, answer):
    """The answer once more for each of the two calls for reasons, or what differs from it."""
    for name, given in (("sdtool_reasons", before),
                        ("sdtool_reasons_with", [token, c_size_t(len(token))] if token else None)):
        if given is None or answer in ((EMPTY_REQUEST, 0, 0), (RESERVED_BITS, 0, 0)):  # faults of what is wanted
            continue
        told = (Reason * len(reference.access.PLACES))(*[Reason(MOST_SHORT, 0)] * len(reference.access.PLACES))
        outcome = call(name, Outcome, descriptor, *given, *asked, byref(request.asker), told)
        if outcome.fault != OK:
            yield (as_answer(outcome) if all((one.kind, one.place) == (0, NO_PLACE) for one in told)
                   else "a reason beside a fault")
            continue
        words = [reference.access.REASONS[one.kind] for one in told]
        rights = sum(1 << place for place, word in enumerate(words) if word in reference.access.GRANTING)
        verdict_word, mask = answer.split() if isinstance(answer, str) else ("", "0")
        wrong = int(mask, 16) & (~rights if verdict_word == "granted" else rights)
        yield words if wrong or not verdict_word else answer


def as_answer(told):
    outcome = told if isinstance(told, Outcome) else told.outcome
    if outcome.fault != OK or isinstance(told, Outcome):
        return outcome.fault, outcome.argument, outcome.entry
    return f"{'granted' if told.granted else 'denied'} 0x{told.mask:08x}"


def verdict(descriptor, entries, mapping="file", object_type=None, principal_self=None):
    """The reference's verdict on the maximum."""
    mapping = reference.MAPPINGS[mapping]
    ask = reference.access.Ask(tuple(entries), 0, True, mapping, object_type, principal_self, False, False)
    return reference.access.verdict(descriptor, ask)


def numbers():
    powers = [1 << place for place in range(33)]
    return sorted({*range(301), *(number + step for number in powers for step in (-1, 0, 1)
                                  if number + step <= MOST_NUMBER)})


def with_dacl(*aces, owner=None):
    return Descriptor(reference.SELF_RELATIVE | reference.DACL_PRESENT, 0, owner, None, None, Acl(aces))


def allow(sid, mask=0x1f_01ff, kind=0, flags=0, object_type=None):
    return Ace(kind, flags, mask, object_type, None, sid)


def is_sid(data):
    """By MS-DTYP 2.4.2.2."""
    return len(data) >= 8 and data[0] == 1 and data[1] <= 15 and len(data) == 8 + 4 * data[1]


def sid_in(data):
    subs = (int.from_bytes(data[at:at + 4], "little") for at in range(8, len(data), 4))
    return Sid(int.from_bytes(data[2:8], "big"), tuple(subs))


def nearly_sids():
    """Bytes of each length: zeros, ones, a SID of each count, and one of another revision."""
    for length in LENGTHS:
        rest = bytes(range(0x10, 0x10 + 100))
        yield from (bytes(length), b"\xff" * length, b"\x01" * length)
        counts = sorted({0, 1, 2, 14, 15, 16, 17, 255,
                         *((length - 8) // 4 + step for step in (-1, 0, 1))} & set(range(256)))
        yield from ((bytes([1, count]) + rest)[:length] for count in counts)
        if length >= 8 and length % 4 == 0:
            yield from ((bytes([revision, (length - 8) // 4 & 0xff]) + rest)[:length]
                        for revision in (*range(18), 0x81, 0xff))


# Each part gives what was found and what has to come of it.

def mappings():
    generic = with_dacl(*(allow(EVERYONE, 1 << place) for place in (28, 29, 30, 31)))
    data, everyone, of_number = reference.layout(generic), EVERYONE.to_bytes(), ["file", "key", "ds"]
    parent = with_dacl(allow(EVERYONE, 1 << 31, flags=1))
    for number in numbers():
        request = Request(Asker(mapping=number), options=MAXIMUM)
        right = verdict(generic, [(EVERYONE, False)], of_number[number]) if number < 3 else (ARGUMENT, MAPPING, 0)
        yield f"mapping {number}", judged(data, everyone, b"\0", request), right
        plan = number < 3 and reference.inheriting.Plan(False, USER, EVERYONE, reference.MAPPINGS[of_number[number]])
        right = reference.layout(reference.inheriting.derived(parent, None, plan)) if plan else (ARGUMENT, MAPPING, 0)
        yield f"derive with mapping {number}", derived(parent, b"", USER.to_bytes(), EVERYONE.to_bytes(), 0,
                                                       number), right


def derived(parent, creator, owner, group, kind, mapping):
    """What is derived, or a fault that the call for origins has too; else what that call says."""
    given = reference.layout(parent), creator, owner, group, kind, mapping
    answer, (told, *origins) = answered("sdtool_derive", *given), origins_of(*given)
    if told.outcome.fault != OK or not isinstance(answer, bytes):
        fault = told.outcome.fault, told.outcome.argument, told.outcome.entry
        return answer if answer == fault and (told.sacl_count, told.dacl_count) == (0, 0) else fault
    found = reference.read(answer)
    counts = [len(acl.aces) if acl else 0 for acl in (found.sacl, found.dacl)]
    return answer if list(map(len, origins)) == counts else origins


def origins_of(parent, creator, owner, group, kind, mapping, sacl_room=MOST_DERIVED_ACES, dacl_room=MOST_DERIVED_ACES):
    """What sdtool_derive_origins tells, and the origins of the SACL's and the DACL's ACEs. Behind them nothing is
    written, and after a fault none."""
    rooms = [(Origin * room)() for room in (sacl_room, dacl_room)]
    for cells in rooms:
        ctypes.memset(cells, 0xaa, ctypes.sizeof(cells))
    told = call("sdtool_derive_origins", Origins, parent, creator, owner, group, kind, mapping,
                *(it for cells in rooms for it in (cells, c_size_t(len(cells)))))
    found = []
    for cells, count in zip(rooms, (told.sacl_count, told.dacl_count) if told.outcome.fault == OK else (0, 0)):
        rest = bytes(cells)[ctypes.sizeof(Origin) * count:]
        found.append([(one.place, one.from_creator, one.inherit_only) for one in cells[:count]]
                     if rest.count(0xaa) == len(rest) else "more origins than were told")
    return told, *found


def kinds():
    parent = with_dacl(allow(EVERYONE, flags=3), allow(USER, flags=1), allow(USER, flags=2))
    for number in numbers():
        plan = number < 2 and reference.inheriting.Plan(number == 1, USER, EVERYONE, reference.MAPPINGS["file"])
        right = reference.layout(reference.inheriting.derived(parent, None, plan)) if plan else (ARGUMENT, KIND, 0)
        yield f"kind {number}", derived(parent, b"", USER.to_bytes(), EVERYONE.to_bytes(), number, 0), right


def entries():
    """Each byte of an entry, at each place of tokens of one to three SIDs."""
    sids, request = [EVERYONE, USER, Sid(5, (18,))], Request(options=MAXIMUM)
    descriptor = with_dacl(*(allow(sid, 1 << at, kind) for kind in (0, 1) for at, sid in enumerate(sids)),
                           allow(EVERYONE, 8))
    for count in (1, 2, 3):
        some = b"".join(sid.to_bytes() for sid in sids[:count])
        for at, byte in itertools.product(range(count), range(256)):
            given = bytes(at) + bytes([byte]) + bytes(count - at - 1)
            right = (ARGUMENT, ENTRIES, at)
            if byte < 2:
                right = verdict(descriptor, [(sid, bool(kind)) for sid, kind in zip(sids, given)])
            yield f"entry {byte} at {at} of {count}", judged(reference.layout(descriptor), some, given, request), right


def built(owner=b"", group=b"", sacl=(ABSENT, ()), dacl=(ABSENT, ()), control=0):
    """What sdtool_build gives. An ACE has its type, its flags, and its SID and GUIDs as bytes."""
    acls = []
    for state, aces in (sacl, dacl):
        made = (NewAce(*(Bytes(one, len(one)) for one in of_bytes), 0x1ff, kind, flags)
                for kind, flags, *of_bytes in aces)
        acls.append(NewAcl((NewAce * max(len(aces), 1))(*made), len(aces), state))
    new = NewDescriptor(Bytes(owner, len(owner)), Bytes(group, len(group)), *acls, control, 0)
    return answered("sdtool_build", byref(new))


def with_list(aces, letter):
    """The layout of a descriptor that has these ACEs, as they are given to be built, in one ACL."""
    acl = Acl(tuple(Ace(kind, flags, 0x1ff, object_type or None, inherited or None, sid_in(sid))
                    for kind, flags, sid, object_type, inherited in aces))
    present = reference.DACL_PRESENT if letter == "D" else reference.SACL_PRESENT
    acls = (None, acl) if letter == "D" else (acl, None)
    return reference.layout(Descriptor(reference.SELF_RELATIVE | present, 0, None, None, *acls))


ACLS = (("D", "dacl", DACL), ("S", "sacl", SACL))


def states():
    ace = (0, 0, EVERYONE.to_bytes(), b"", b"")
    for (letter, name, argument), number, aces in itertools.product(ACLS, numbers(), ((), (ace,))):
        present = reference.DACL_PRESENT if letter == "D" else reference.SACL_PRESENT
        right = (ARGUMENT, argument, 0)
        if number == LIST:
            right = with_list(aces, letter)
        elif number in (ABSENT, NULL) and not aces:
            control = reference.SELF_RELATIVE | (present if number == NULL else 0)
            right = reference.layout(Descriptor(control, 0, None, None, None, None))
        yield f"{name} of state {number} with {len(aces)} ACEs", built(**{name: (number, aces)}), right


def types_and_flags():
    guid, sid = neighbours.GUID, EVERYONE.to_bytes()
    for (letter, name, argument), byte, guids in itertools.product(ACLS, range(256),
                                                                   ((b"", b""), (guid, b""), (b"", guid))):
        ace = (byte, 0, sid, *guids)
        can_be = byte in reference.KINDS and (guids == (b"", b"") or byte in reference.OBJECT_TYPES)
        yield f"type {byte} in {name}", built(**{name: (LIST, (ace,))}), \
            with_list((ace,), letter) if can_be else (ARGUMENT, argument, 0)
        ace = (5, byte, sid, *guids)
        yield f"flags {byte} in {name}", built(**{name: (LIST, (ace,))}), \
            (ARGUMENT, argument, 0) if byte & 0x20 else with_list((ace,), letter)


def faults():
    """The numbers that the header lists have a name, and no other has."""
    header = (c_library.TOP / "include/sdtool.h").read_text(encoding="utf-8")
    enumeration = re.search(r"enum sdtool_fault \{(.*?)\};", header, re.S)[1]
    listed = {int(number) for number in re.findall(r"\bSDTOOL_\w+ = (\d+)", enumeration)}
    listed.remove(OK)
    for number in numbers():
        found = answered("sdtool_fault_text", number)
        is_name = isinstance(found, bytes) and re.fullmatch(rb"[a-z0-9-]{2,32}", found)
        yield f"fault {number}", found if number not in listed or not is_name else "a name", \
            "a name" if number in listed else (ARGUMENT, FAULT, 0)


def sids_as_texts():
    for data in nearly_sids():
        text = sid_in(data).text().encode() if is_sid(data) else (ARGUMENT, SID, 0)
        yield f"text of {shown(data)}", answered("sdtool_sid_to_text", data, b"", True), text
        yield f"size of {shown(data)}", call("sdtool_sid_size", c_size_t, data), size_of_sid(data)


def owners():
    """What is nearly a SID as the owner or the group of what is derived and of what is built."""
    parent, user = with_dacl(allow(Sid(3, (0,)), flags=3), allow(Sid(3, (1,)), flags=3)), USER.to_bytes()
    for data, is_owner in itertools.product(nearly_sids(), (True, False)):
        name, wrong = ("owner", (ARGUMENT, OWNER, 0)) if is_owner else ("group", (ARGUMENT, GROUP, 0))
        sid = sid_in(data) if is_sid(data) else None
        plan = (sid and reference.inheriting.Plan(True, *((sid, USER) if is_owner else (USER, sid)),
                                                  reference.MAPPINGS["file"]))
        right = reference.layout(reference.inheriting.derived(parent, None, plan)) if plan else wrong
        given = (data, user) if is_owner else (user, data)
        yield f"derive with {name} {shown(data)}", derived(parent, b"", *given, 1, 0), right
        right = reference.layout(Descriptor(reference.SELF_RELATIVE, 0, *((sid, None) if is_owner else (None, sid)),
                                            None, None))
        yield f"build with {name} {shown(data)}", built(**{name: data}), right if sid or not data else wrong


def trustees():
    """What is nearly a SID as the trustee of an ACE to build."""
    for data, (letter, name, argument) in itertools.product(nearly_sids(), ACLS):
        aces = ((0, 0, USER.to_bytes(), b"", b""), (5, 0, data, b"", b""))
        yield f"build with {name} of {shown(data)}", built(**{name: (LIST, aces)}), \
            with_list(aces, letter) if is_sid(data) else (ARGUMENT, argument, 1)


def domains():
    """What is nearly a SID as a domain. A domain that is empty or full is none."""
    owned = Descriptor(reference.SELF_RELATIVE, 0, DOMAIN_SID, None, None, None)
    for data in nearly_sids():
        sid = sid_in(data) if is_sid(data) else None
        text = DOMAIN_SID.text().encode()
        admins = of_admins = (23, 0, 0)
        if sid and len(sid.sub_authorities) < 15:
            group = Sid(sid.authority, (*sid.sub_authorities, 512))
            admins, of_admins = group.to_bytes(), reference.layout(owned._replace(owner=group))
        for name, arguments, right in (
                ("sdtool_to_sddl", (reference.layout(owned), data, True), b"O:" + text),
                ("sdtool_sid_to_text", (DOMAIN_SID.to_bytes(), data, True), text),
                ("sdtool_sid_from_text", (b"DA", data), admins), ("sdtool_from_sddl", (b"O:DA", data), of_admins),
                ("sdtool_explain", (reference.layout(owned), data, True), b"control 0x8000 SR\nrm 0x00\nowner " + text +
                 b"\ngroup none\ndacl absent\nsacl absent\nend\n")):
            right = right if sid or not data else (ARGUMENT, DOMAIN, 0)
            yield f"{name} under {shown(data)}", answered(name, *arguments), right


def askers():
    """What is nearly a SID as what PRINCIPAL SELF stands for, and as the one SID of a token."""
    request = Request(options=MAXIMUM)
    for_self = with_dacl(allow(Sid(5, (10,)), 0x7))
    for data in nearly_sids():
        sid = sid_in(data) if is_sid(data) else None
        right = (verdict(for_self, [(sid or USER, False)], principal_self=sid) if sid
                 or not data else (ARGUMENT, SELF, 0))
        token = data if sid else USER.to_bytes()
        yield f"check for {shown(data)}", judged(reference.layout(for_self), token, b"\0", request, b"", data), right
        granting = with_dacl(allow(sid or USER, 0x7))
        # Bytes behind a SID are told as the SID behind the last one.
        right = verdict(granting, [(sid, False)]) if sid else (ARGUMENT, SIDS, int(size_of_sid(data) > 0))
        yield f"token of {shown(data)}", judged(reference.layout(granting), data, b"\0", request), right


def shown(data):
    return f"{len(data)} bytes {data[:12].hex()}"


def size_of_sid(data):
    if len(data) < 8 or data[0] != 1 or data[1] > 15 or 8 + 4 * data[1] > len(data):
        return 0
    return 8 + 4 * data[1]


def guid_lengths():
    """What is nearly a GUID, as each argument that is one."""
    descriptor, sid = with_dacl(allow(EVERYONE, 7, 5, object_type=neighbours.ZEROS)), EVERYONE.to_bytes()
    request = Request(Asker(mapping=2), options=MAXIMUM)
    for length, byte in itertools.product(LENGTHS, (0, 0xff, 0x5a)):
        data = bytes([byte]) * length
        is_one = length in (0, 16)
        right = verdict(descriptor, [(EVERYONE, False)], "ds", data or None) if is_one else (ARGUMENT, OBJECT, 0)
        found = judged(reference.layout(descriptor), sid, b"\0", request, data)
        yield f"check for an object of {length} bytes {byte}", found, right
        pairs = ((data, b""), (b"", data), (data, data), (data, neighbours.GUID))
        for (letter, name, argument), guids in itertools.product(ACLS, pairs):
            aces = ((0, 0, sid, b"", b""), (6, 0, sid, *guids))
            yield f"build with object types of {length} bytes {byte}", built(**{name: (LIST, aces)}), \
                with_list(aces, letter) if is_one else (ARGUMENT, argument, 1)


def creators():
    """Fronts of descriptors, zeros and ones, as what a creator brings and as a descriptor."""
    parent = with_dacl(allow(EVERYONE, flags=3))
    plan = reference.inheriting.Plan(False, USER, EVERYONE, reference.MAPPINGS["file"])
    whole = [reference.layout(with_dacl(allow(EVERYONE), allow(USER), owner=USER)),
             reference.layout(Descriptor(reference.SELF_RELATIVE | reference.DACL_PRESENT, 0, None, None, None, None)),
             reference.layout(Descriptor(reference.SELF_RELATIVE, 0, None, None, None, None)) + bytes(100)]
    for length, data in itertools.product(LENGTHS,
                                          (*whole, bytes(100), b"\xff" * 100, b"\x01" + bytes(99), b"O:BAD:P " * 13)):
        data = data[:length]
        try:
            found, fault = reference.read(data), None
        except reference.parts.Fault as raised:
            found, fault = None, raised.args[0]
        right = (ARGUMENT, CREATOR, 0)
        if found or not data:
            right = reference.layout(reference.inheriting.derived(parent, found, plan))
        yield f"creator {data.hex()}", derived(parent, data, USER.to_bytes(), EVERYONE.to_bytes(), 0, 0), right
        yield (f"normalize {data.hex()}", answered("sdtool_normalize", data),
               reference.layout(found) if found else (fault, 0, 0))


def nearly(data):
    """Some bytes with each other byte in each place, and their fronts."""
    found = {data[:at] + bytes([byte]) + data[at + 1:] for at in range(len(data)) for byte in range(256)}
    return sorted(found | {data[:length] for length in range(len(data))})


def descriptors():
    for data in nearly(neighbours.usual_descriptor()):
        try:
            right = reference.layout(reference.read(data))
        except reference.parts.Fault as fault:
            right = (fault.args[0], 0, 0)
        yield f"normalize {data.hex()}", answered("sdtool_normalize", data), right


def walks():
    acl = reference.read(neighbours.usual_descriptor()).dacl
    for data in nearly(acl.to_bytes()) + nearly(Acl(acl.aces[:1]).to_bytes() + bytes(3)):
        yield f"walk through {data.hex()}", walked(data), walk_of(data)


def walked(data):
    """Each ACE that a walk finds, and the fault that ends it or 0."""
    found, ace = [], FoundAce()
    while len(found) <= len(data) and call("sdtool_next_ace", c_bool, data, byref(ace)):
        parts = [data[one.offset:one.offset + one.size] for one in (ace.place, ace.object_type, ace.inherited, ace.sid)]
        found.append((ace.number, ace.kind, ace.flags, ace.mask, ace.place.offset, *parts))
    return [*found, ace.fault]


def walk_of(data):
    """The same by the reference, which reads one ACE behind the other."""
    found, at = [], reference.ACL_HEADER.size
    if len(data) < at:
        return [10]
    _, _, size, count, _ = reference.ACL_HEADER.unpack_from(data)
    try:
        reference.binary.read_acl(data[:4] + bytes(2) + data[6:], "dacl")  # of no ACEs
        for number in range(1, count + 1):
            ace, ace_size = reference.binary.read_ace(data[at:size], "dacl")
            found.append((number, ace.type, ace.flags, ace.mask, at, data[at:at + ace_size], ace.object_type or b"",
                          ace.inherited_object_type or b"", ace.sid.to_bytes()))
            at += ace_size
    except reference.parts.Fault as fault:
        return [*found, fault.args[0]]
    return [*found, OK]


def guids_compared():
    request = Request(Asker(mapping=2), options=MAXIMUM)
    few = [neighbours.ZEROS, neighbours.ONES, neighbours.GUID, None]
    pairs = {pair for guid in neighbours.guids() for some in few for pair in ((guid, some), (some, guid), (guid, guid))}
    for one, other in pairs:
        aces = allow(EVERYONE, 0x1ff, 6, object_type=neighbours.ONES), allow(EVERYONE, 0x1ff, 5, object_type=one)
        descriptor = with_dacl(*aces)
        right = verdict(descriptor, [(EVERYONE, False)], "ds", other)
        found = judged(reference.layout(descriptor), EVERYONE.to_bytes(), b"\0", request, other or b"")
        yield f"object {one} and {other}", found, right


def sids_compared():
    """Each SID beside some, in a token alone and behind others, also where it only denies."""
    request, others = Request(options=MAXIMUM), [Sid(9, (number,)) for number in range(17)]
    for sid in neighbours.SIDS:
        for near, count in itertools.product(neighbours.sids_beside(sid)[::3], (0, 1, 16, 17)):
            for one, other in ((sid, near), (near, sid)):
                descriptor = with_dacl(allow(one, 0x1, 1), allow(one, 0x6), owner=one)
                for kind in (0, 1):
                    token = [(it, False) for it in others[:count]] + [(other, bool(kind))]
                    right = verdict(descriptor, token)
                    told = b"".join(it.to_bytes() for it, _ in token), bytes(count) + bytes([kind])
                    found = judged(reference.layout(descriptor), *told, request)
                    yield f"{one.text()} and {other.text()} behind {count}", found, right


def token_sizes():
    """A token in memory of the caller that is cut, of each size, or that was never read."""
    request, data = Request(options=MAXIMUM), reference.layout(with_dacl(allow(USER, 0x7)))
    for count in range(4):
        sids = b"".join(Sid(5, (number,)).to_bytes() for number in range(1, count)) + (USER.to_bytes()
                                                                                       if count else b"")
        given, needed = (c_char_p(sids), c_size_t(len(sids)), c_char_p(bytes(count)), c_size_t(count)), 2 + 20 * count
        for size in LENGTHS:
            token = (c_uint32 * max(size, 1))(*[0xffff_ffff] * size)
            read = call("sdtool_token_read", Outcome, *given, token, c_size_t(size))
            told = (read.fault, read.argument, read.length)
            yield f"token of {count} in {size} numbers", told, (TOO_SMALL if size < needed else OK, 0, needed)
            found = as_answer(call("sdtool_check_with", Verdict, data, token, c_size_t(size), b"", b"", byref(request)))
            right = (ARGUMENT, TOKEN, 0)
            if size >= needed:
                right = verdict(with_dacl(allow(USER, 0x7)), [(USER, False)] if count else [])
            yield f"check with a token of {count} in {size} numbers", found, right
            if size >= needed:
                for cut in (0, 1, needed - 1):
                    found = as_answer(call("sdtool_check_with", Verdict, data, token, c_size_t(cut), b"", b"",
                                           byref(request)))
                    yield f"check with {cut} of {needed} numbers", found, (ARGUMENT, TOKEN, 0)


def token_marks():
    """A token in memory whose first number is changed, or whose second one says another count of SIDs."""
    request, data, most = Request(options=MAXIMUM), reference.layout(with_dacl(allow(USER, 0x7))), 2 + 20 * 1026
    sids = USER.to_bytes()
    right = verdict(with_dacl(allow(USER, 0x7)), [(USER, False)])

    def checked(place, number, size):
        token = (c_uint32 * most)()
        call("sdtool_token_read", Outcome, sids, c_char_p(b"\0"), c_size_t(1), token, c_size_t(22))
        token[place] = token[place] if number is None else number(token[place]) & MOST_NUMBER
        return as_answer(call("sdtool_check_with", Verdict, data, token, c_size_t(size), b"", b"", byref(request)))
    yield "a token as it was read", checked(0, None, 22), right
    for place in range(32):
        yield f"bit {place} of the mark", checked(0, lambda mark, place=place: mark ^ 1 << place,
                                                  22), (ARGUMENT, TOKEN, 0)
    for step in (-1, 1, 1 << 31):
        yield f"the mark and {step}", checked(0, lambda mark, step=step: mark + step, 22), (ARGUMENT, TOKEN, 0)
    for count, size in ((2, 22), (2, 41), (1025, most), (1026, most), (1 << 31, most), (MOST_NUMBER, most),
                        (1 << 16 | 1, 22)):
        yield f"a count of {count} in {size} numbers", checked(1, lambda _, count=count: count,
                                                               size), (ARGUMENT, TOKEN, 0)
    # Its numbers are then taken for other SIDs, of which none has its key.
    yield "a count of 1024", checked(1, lambda _: 1024, most), verdict(with_dacl(allow(USER, 0x7)), [])


def words():
    """Each text of one and two bytes as the value of an option with a list, and as a mark of a token."""
    every = [bytes([one]) for one in range(1, 256)] + [bytes(pair)
                                                       for pair in itertools.product(range(1, 256), repeat=2)]
    for option, (before, listed) in neighbours.LISTS.items():
        fixed = b"".join(word.encode() + b"\0" for word in before) + f"--{option}=".encode()
        for text in every:
            yield f"--{option}={text}", ended(fixed + text + b"\0"), told_of(option, text,
                                                                             text.decode("latin-1") in listed)
    for text in every:
        fixed = b"check\0--maximum\0--token="
        yield f"--token={text}BA", ended(fixed + text + b"BA\0"), told_of("token", text, text == b"!")


def told_of(option, text, is_right):
    if not neighbours.is_text(text):
        return 2, neighbours.USAGE
    return (0, b"") if is_right else (2, b"sdtool: usage: --%s\n" % option.encode())


MESSAGE = ctypes.create_string_buffer(64)


def ended(some_words):
    """The status and the message of a run on no input."""
    LIBRARY.sdtool_run.restype = Ending
    ending = LIBRARY.sdtool_run(c_char_p(some_words), c_size_t(len(some_words)), None, c_size_t(0), OUTPUT,
                                c_size_t(MOST_BYTES), MESSAGE, c_size_t(len(MESSAGE)))
    return ending.status, ctypes.string_at(MESSAGE, ending.message_length)


def layers():
    """The layers in C, each as the compiler of this system builds it."""
    source = pathlib.Path(__file__).with_name("c") / "arguments.c"
    for system, flags in (("linux", []), ("wasi", ["-DWASI", "-Wno-attributes", "-no-pie"])):
        with tempfile.TemporaryDirectory() as name:
            program = pathlib.Path(name) / system
            tested = f'-DSYSTEM="{c_library.TOP}/systems/c/{system}.c"'
            words = [c_library.COMPILER, *c_library.WARNINGS, *flags, tested, source, "-pthread", "-o", program]
            compiled = subprocess.run(words, stdout=subprocess.PIPE, stderr=subprocess.STDOUT, check=False)
            found = compiled.stdout.decode()[:600] or ran(program)
            yield f"arguments of {system}", found, (0, "")


def ran(program):
    done = subprocess.run([program], stdout=subprocess.PIPE, stderr=subprocess.STDOUT, timeout=c_library.SECONDS,
                          check=False)
    return done.returncode, done.stdout.decode()[:300]


PARTS = (mappings, kinds, entries, states, types_and_flags, faults, sids_as_texts, owners, trustees, domains, askers,
         guid_lengths, creators, descriptors, walks, guids_compared, sids_compared, token_sizes, token_marks,
         words, layers)


def main(count: preload.Count) -> None:
    for part in filter(preload.is_chosen, PARTS):
        before = count.passed
        for what, found, right in part():
            count.add(found == right, f"{what}\n  gave {found}\n  not  {right}")
        print(f"{part.__name__.replace('_', ' ')}: {count.passed - before}", flush=True)
