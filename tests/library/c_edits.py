"""Compares edits with the reference.

  rows     a few edits by hand, each rule of an edit once
  random   random descriptors and changes through the library: the answer, the counts, the order, each fault with its
           number, part, argument and entry; and that an edit by some changes and then by others is the edit by all
  members  each byte of a change: those that its kind doesn't use must be 0, and those that it uses have few values
  memory   edits by tests/library/c/edits.c, plain and under sanitizers: the same answers, each allocation refused, and
           no more memory than the header says
  limits   as many changes as there may be and one more, the largest ACL, small outputs, and memory that is refused
  python   the same changes by Change of the package: the same bytes, answers and faults
  objects  changes as objects of the package, and what it refuses of a caller
  table    the changes in the table of docs/LIBRARY.md, each with what it leaves of an ACL, by hand
"""
import copy
import ctypes
import importlib
import os
import pathlib
import pickle
import random
import re
import struct
import sys
import tempfile
from ctypes import POINTER, c_char_p, c_size_t, c_uint32

import c_library
import preload
from reference import binary, editing
from reference.editing import ABSENT, BY_ORDER, EMPTY, END, NOT_ASKED, NULL, Change, Match, Setting
from reference.parts import ACL_NAMES, Acl, Ace, Descriptor, Fault, Sid

sys.path.insert(0, str(preload.TOP / "python"))
LIBRARY = pathlib.Path(preload.LIBRARY)
OK, ARGUMENT, TOO_SMALL, MOST_BYTES, MOST_CHANGES = 0, 70, 71, 131_226, 16_384
NO_ACE, CHANGES, MOST_MEMORY = 0xffff_ffff, 16, 4 << 20
PART_NUMBERS = {"owner": 1, "group": 2, "sacl": 3, "dacl": 4}
# struct sdtool_change of the header, member by member.
LAYOUT = struct.Struct("=7I2H8B16s16s68s68s")
MEMBERS = ("kind part place compare mask set_mask clear_mask set_control clear_control ace_kind flags flags_mask"
           " set_flags clear_flags state object_type_use inherited_object_type_use object_type inherited_object_type"
           " sid set_sid").split()
NUMBERS = {"put": 1, "take": 2, "replace": 3, "take each": 4, "set each": 5, "order": 6, "state": 7, "owner": 8,
           "group": 9, "control": 10}
STATES, PARTS, PLACES = {ABSENT: 0, NULL: 1, EMPTY: 2}, {"S": 3, "D": 4}, {END: 0xffff_ffff, BY_ORDER: 0xffff_fffe}
OF_ACE = {"mask", "ace_kind", "flags", "object_type_use", "inherited_object_type_use", "object_type",
          "inherited_object_type", "sid"}
OF_MATCH = {*OF_ACE, "compare", "flags_mask"}
OF_SETTING = {"set_mask", "clear_mask", "set_flags", "clear_flags", "set_sid"}
# What each kind of change uses beside its kind.
USED = {"put": {"part", "place", *OF_ACE}, "take": {"part", "place"}, "replace": {"part", "place", *OF_ACE},
        "take each": {"part", *OF_MATCH}, "set each": {"part", *OF_MATCH, *OF_SETTING}, "order": {"part"},
        "state": {"part", "state"}, "owner": {"sid"}, "group": {"sid"}, "control": {"set_control", "clear_control"}}
EVERYONE, SYSTEM, USERS = Sid(1, (0,)), Sid(5, (18,)), Sid(5, (32, 545))
SIDS = (EVERYONE, SYSTEM, USERS, Sid(5, (21, 1, 2, 3, 500)), Sid(0xffff_ffff_ffff, tuple(range(15))), Sid(3, ()))
GUIDS = (bytes(16), bytes(range(16)), b"\xff" * 16)
TYPES = (0, 1, 2, 5, 6, 7, 0x11)
FLAGS = tuple(flags for flags in range(256) if not flags & 0x20)
MASKS = (0, 1, 0x1f01ff, 0x120089, 0xffff_ffff)


# What a change is in C.

def members_of_ace(ace):
    found = {"ace_kind": ace.type, "flags": ace.flags, "mask": ace.mask, "sid": ace.sid.to_bytes()}
    for name in ("object_type", "inherited_object_type"):
        if getattr(ace, name) is not None:
            found.update({name: getattr(ace, name), f"{name}_use": 2})
    return found


def members_of_match(match):
    found = {"flags": match.flags, "flags_mask": match.flags_mask}
    if match.sid is not NOT_ASKED:
        found["sid"] = match.sid.to_bytes()
    if match.type is not NOT_ASKED:
        found.update(ace_kind=match.type, compare=1)
    if match.mask is not NOT_ASKED:
        found.update(mask=match.mask, compare=found.get("compare", 0) + 2)
    for name in ("object_type", "inherited_object_type"):
        value = getattr(match, name)
        if value is None:
            found[f"{name}_use"] = 1
        elif value is not NOT_ASKED:
            found.update({name: value, f"{name}_use": 2})
    return found


def members_of(change):
    """The members of the struct that a change uses."""
    found = {"kind": NUMBERS[change.name]}
    if change.acl:
        found["part"] = PARTS[change.acl]
    if change.place is not None:
        found["place"] = PLACES.get(change.place, change.place)
    if change.ace:
        found.update(members_of_ace(change.ace))
    if change.match:
        found.update(members_of_match(change.match))
    if change.setting:
        found.update(change.setting._asdict(), sid=found.get("sid", b""),
                     set_sid=change.setting.sid.to_bytes() if change.setting.sid else b"")
    if change.name == "state":
        found["state"] = STATES[change.state]
    if change.name in ("owner", "group") and change.sid:
        found["sid"] = change.sid.to_bytes()
    if change.name == "control":
        found.update(set_control=change.set_bits, clear_control=change.clear_bits)
    return found


def packed(members):
    return LAYOUT.pack(*[members.get(name, b"" if name in MEMBERS[-4:] else 0) for name in MEMBERS])


def bytes_of(change):
    return packed(members_of(change))


# The calls.

class Outcome(ctypes.Structure):
    _fields_ = [(name, c_uint32) for name in ("fault", "part", "other_part", "argument")]
    _fields_ += [("entry", c_size_t), ("length", c_size_t)]


class Order(ctypes.Structure):
    _fields_ = [("outcome", Outcome), ("sacl", c_uint32), ("dacl", c_uint32)]


class Calls:
    def __init__(self):
        library = ctypes.CDLL(str(LIBRARY))
        self.edit_call, self.order_call = library.sdtool_edit, library.sdtool_order
        self.edit_call.argtypes = [c_char_p, c_size_t, c_char_p, c_size_t, POINTER(c_uint32), c_size_t, c_char_p,
                                   c_size_t]
        self.edit_call.restype, self.order_call.restype = Outcome, Order
        self.order_call.argtypes = [c_char_p, c_size_t]
        self.output = ctypes.create_string_buffer(MOST_BYTES)

    def edit(self, data, changes, room=MOST_BYTES):
        """The counts and the answer of changes in bytes, or all numbers of the fault."""
        count = len(changes) // LAYOUT.size
        touched = (c_uint32 * (count + 1))(*[0xdead] * (count + 1))
        told = self.edit_call(data, len(data), changes, count, touched, count, self.output, room)
        counts = [number for number in touched if number != 0xdead]
        if told.fault == OK:
            return counts, self.output.raw[:told.length]
        return counts, tuple(getattr(told, name) for name, _ in Outcome._fields_)

    def order(self, data):
        told = self.order_call(data, len(data))
        return tuple(None if place == NO_ACE else place for place in (told.sacl, told.dacl)), told.outcome.fault


def right_of(descriptor, changes):
    """The same by the reference: of the fault of a change its part, the argument and its index."""
    touched, made = editing.edit(descriptor, changes)
    if isinstance(made, Fault):
        return touched, (made.args[0], PART_NUMBERS[made.args[2]], 0, CHANGES, len(touched), 0)
    return touched, binary.layout(made)


def not_read(fault):
    numbers = [PART_NUMBERS[part] for part in fault.args[2:]]
    return [], (fault.args[0], *(numbers + [0, 0])[:2], 0, 0, 0)


def is_none(index):
    return [], (ARGUMENT, 0, 0, CHANGES, index, 0)


# What is tried.

def random_ace(chance):
    kind = chance.choice(TYPES)
    is_object = kind in (5, 6, 7)
    return Ace(kind, chance.choice(FLAGS) if chance.random() < 0.3 else chance.choice((0, 3, 0x10, 0x13)),
               chance.choice(MASKS), chance.choice((None, *GUIDS)) if is_object else None,
               chance.choice((None, *GUIDS)) if is_object else None, chance.choice(SIDS))


def random_acl(chance):
    return chance.choice((None, Acl(tuple(random_ace(chance) for _ in range(chance.choice((0, 1, 2, 3, 8)))))))


def random_descriptor(chance):
    sacl, dacl = random_acl(chance), random_acl(chance)
    control = 0x8000 | chance.getrandbits(16) & ~0x14
    control |= 0x10 * (sacl is not None or chance.random() < 0.5) | 4 * (dacl is not None or chance.random() < 0.5)
    return Descriptor(control, chance.getrandbits(8), chance.choice((None, *SIDS)), chance.choice((None, *SIDS)), sacl,
                      dacl)


def random_match(chance):
    """A match that compares something: of a random ACE, so that some ACE agrees."""
    ace = random_ace(chance)
    mask = chance.choice((0, 0x10, 0x13, 0xdf, chance.choice(FLAGS)))
    fields = {name: getattr(ace, name) for name in ("sid", "type", "mask", "object_type", "inherited_object_type")
              if chance.random() < 0.3}
    if not fields and not mask:
        fields["sid"] = ace.sid
    return Match(flags=ace.flags & mask, flags_mask=mask, **fields)


def random_setting(chance):
    words = [chance.choice(MASKS) for _ in range(2)]
    flags = [chance.choice((0, 0x10, 3, chance.choice(FLAGS))) for _ in range(2)]
    return Setting(chance.choice((None, *SIDS)), words[0], words[1] & ~words[0], flags[0], flags[1] & ~flags[0])


def random_change(chance):
    name, acl = chance.choice(tuple(NUMBERS)), chance.choice("SDD")
    if name == "put":
        place = chance.choice((0, 0, 1, 2, 5, END, BY_ORDER, BY_ORDER, 0xffff_fffd))
        return Change(name, acl, place=place, ace=random_ace(chance))
    if name == "take":
        return Change(name, acl, place=chance.choice((0, 0, 1, 2, 7, 0xffff_ffff)))
    if name == "replace":
        return Change(name, acl, place=chance.choice((0, 0, 1, 2, 7, 0xffff_fffe)), ace=random_ace(chance))
    if name == "take each":
        return Change(name, acl, match=random_match(chance))
    if name == "set each":
        return Change(name, acl, match=random_match(chance), setting=random_setting(chance))
    if name == "state":
        return Change(name, acl, state=chance.choice(tuple(STATES)))
    if name in ("owner", "group"):
        return Change(name, sid=chance.choice((None, *SIDS)))
    if name == "control":
        bits = chance.getrandbits(16) & ~0x8014
        return Change(name, set_bits=bits, clear_bits=chance.getrandbits(16) & ~0x8014 & ~bits)
    return Change(name, acl)


def random_changes(chance):
    """Changes that can mostly be made: in front of them, now and then, one that makes a list, or orders it."""
    found = [random_change(chance) for _ in range(chance.choice((0, 1, 2, 3, 6, 12)))]
    if chance.random() < 0.6:
        front = [Change("order", "D"), Change("put", "D", place=END, ace=random_ace(chance))]
        found[:0] = front[:chance.choice((0, 1, 2))]
    return found


ROW = Descriptor(0x8404, 7, USERS, None, None, Acl((
    Ace(1, 0, 1, None, None, EVERYONE), Ace(0, 0, 2, None, None, USERS), Ace(0, 0x10, 3, None, None, SYSTEM))))
DENY, ALLOW, MATCH = Ace(1, 0, 8, None, None, SYSTEM), Ace(0, 3, 8, None, None, SYSTEM), Match(sid=USERS)
# Changes of ROW; the masks of the DACL that they leave, None where it is null or absent, or their fault and its index;
# and the counts.
ROWS = (
    ([Change("put", "D", place=0, ace=ALLOW)], [8, 1, 2, 3], [1]),
    ([Change("put", "D", place=3, ace=ALLOW)], [1, 2, 3, 8], [1]),
    ([Change("put", "D", place=4, ace=ALLOW)], (73, 0), []),
    ([Change("put", "D", place=END, ace=ALLOW)], [1, 2, 3, 8], [1]),
    ([Change("put", "D", place=BY_ORDER, ace=DENY)], [1, 8, 2, 3], [1]),
    ([Change("put", "D", place=BY_ORDER, ace=ALLOW)], [1, 2, 8, 3], [1]),
    ([Change("put", "D", place=0, ace=ALLOW), Change("put", "D", place=BY_ORDER, ace=ALLOW)], (73, 1), [1]),
    ([Change("put", "D", place=0, ace=ALLOW), Change("order", "D")], [1, 8, 2, 3], [1, 0]),
    ([Change("take", "D", place=1)], [1, 3], [1]),
    ([Change("take", "D", place=3)], (73, 0), []),
    ([Change("take", "D", place=0)] * 3, [], [1, 1, 1]),
    ([Change("take", "D", place=0)] * 4, (73, 3), [1, 1, 1]),
    ([Change("replace", "D", place=2, ace=ALLOW)], [1, 2, 8], [1]),
    ([Change("take each", "D", match=MATCH)], [1, 3], [1]),
    ([Change("take each", "D", match=Match(sid=Sid(5, (19,))))], [1, 2, 3], [0]),
    ([Change("take each", "D", match=Match(flags_mask=0x10))], [3], [2]),
    ([Change("set each", "D", match=Match(flags=0x10, flags_mask=0x10), setting=Setting(None, 0x10, 1, 0, 0x10)),
      Change("take each", "D", match=Match(flags_mask=0x10, mask=0x12))], [1, 2], [1, 1]),
    ([Change("state", "D", state=NULL)], None, [0]),
    ([Change("state", "D", state=ABSENT), Change("order", "D")], None, [0, 0]),
    ([Change("state", "D", state=NULL), Change("take each", "D", match=MATCH)], (73, 1), [0]),
    ([Change("state", "D", state=EMPTY), Change("put", "D", place=BY_ORDER, ace=ALLOW)], [8], [0, 1]),
    ([Change("put", "S", place=END, ace=ALLOW)], (73, 0), []),
    ([Change("owner", sid=None), Change("group", sid=SYSTEM), Change("control", set_bits=0x1000, clear_bits=0x400)],
     [1, 2, 3], [0, 0, 0]),
)


def judge_rows(count, calls):
    data = binary.layout(ROW)
    for changes, right, counts in ROWS:
        touched, found = calls.edit(data, b"".join(map(bytes_of, changes)))
        if isinstance(found, bytes):
            made = binary.read(found)
            masks = made.dacl and [ace.mask for ace in made.dacl.aces]
            kept = made.resource_manager == 7 and bool(made.control & 4) == (
                masks is not None or changes[0].state != ABSENT)
            if changes[0].name == "owner":
                kept = kept and made == ROW._replace(control=0x9004, owner=None, group=SYSTEM)
            found = masks
        else:
            kept, found = found[1:4] == (4 if changes[0].acl == "D" else 3, 0, CHANGES), (found[0], found[4])
        count.add(kept and (touched, found) == (counts, right), f"{changes}: {found} and {touched}, not {right}")
    for descriptor, right in ((ROW, (None, None)), (ROW._replace(dacl=Acl(ROW.dacl.aces[::-1])), (None, 1)),
                              (ROW._replace(dacl=None), (None, None))):
        count.add(calls.order(binary.layout(descriptor)) == (right, OK), f"the order of {descriptor}")


def judge_random(count, calls, chance, edits):
    for _ in range(edits):
        descriptor, changes = random_descriptor(chance), random_changes(chance)
        data, given = binary.layout(descriptor), list(map(bytes_of, changes))
        found, right = calls.edit(data, b"".join(given)), right_of(descriptor, changes)
        count.add(found == right, f"{descriptor} and {changes}: {found}, not {right}")
        count.add(calls.order(data) == (orders(descriptor), OK), f"the order of {descriptor}")
        at = chance.randrange(len(given) + 1)
        counts, middle = calls.edit(data, b"".join(given[:at]))
        if isinstance(middle, bytes):
            later, end = calls.edit(middle, b"".join(given[at:]))
            if not isinstance(end, bytes):
                end = (*end[:4], end[4] + at, end[5])
            count.add((counts + later, end) == found, f"{descriptor} by {changes}, cut at {at}: {end}, not {found}")
        else:
            count.add((counts, middle) == found, f"{descriptor} by {changes}, up to {at}: {middle}, not {found}")
        judge_hostile(count, calls, chance, data, given)


def orders(descriptor):
    return tuple(acl and editing.first_out_of_order(letter, acl.aces)
                 for letter, acl in (("S", descriptor.sacl), ("D", descriptor.dacl)))


def judge_hostile(count, calls, chance, data, given):
    """Bytes that are often no descriptor, and a change of which a byte is another one: what is none comes first."""
    broken = bytearray(data)
    broken[chance.randrange(len(broken))] = chance.getrandbits(8)
    broken = bytes(broken[:chance.randrange(len(broken) + 1)] if chance.random() < 0.3 else broken)
    changes, at = list(given), None
    if changes and chance.random() < 0.5:
        at = chance.randrange(len(changes))
        changed = bytearray(changes[at])
        changed[chance.randrange(len(changed))] = chance.choice((0, 1, 2, 0x10, 0x20, 0xff, chance.getrandbits(8)))
        changes[at] = bytes(changed)
    found = calls.edit(broken, b"".join(changes))
    meant = list(map(change_of, changes))
    if None in meant:
        right = is_none(meant.index(None))
    else:
        try:
            right = right_of(binary.read(broken), meant)
        except Fault as fault:
            right = not_read(fault)
    count.add(found == right, f"{broken.hex()} and {[change.hex() for change in changes]}: {found}, not {right}")
    told, fault = calls.order(broken)
    try:
        count.add((told, fault) == (orders(binary.read(broken)), OK), f"the order of {broken.hex()}")
    except Fault as refused:
        count.add((told, fault) == ((0, 0), refused.args[0]), f"the order of {broken.hex()}: {fault}")


# The change that bytes spell, by the rules of the header; None if they are none.

def change_of(data):
    given = dict(zip(MEMBERS, LAYOUT.unpack(data)))
    name = {number: name for name, number in NUMBERS.items()}.get(given["kind"])
    if name is None or any(any(value) if isinstance(value, bytes) else value for member, value in given.items()
                           if member != "kind" and member not in USED[name]):
        return None
    acl = {number: letter for letter, number in PARTS.items()}.get(given["part"], "")
    if acl == "" and "part" in USED[name]:
        return None
    try:
        return Change(name, acl, **fields_of(name, given))
    except ValueError:
        return None


def fields_of(name, given):
    if name in ("put", "replace"):
        ace = ace_of(given)
        place = given["place"]
        if name == "put":
            place = {number: word for word, number in PLACES.items()}.get(place, place)
        return {"place": place, "ace": ace}
    if name == "take":
        return {"place": given["place"]}
    if name == "take each":
        return {"match": match_of(given)}
    if name == "set each":
        return {"match": match_of(given), "setting": setting_of(given)}
    if name == "state":
        return {"state": (ABSENT, NULL, EMPTY)[refused_unless(given["state"] < 3) or given["state"]]}
    if name in ("owner", "group"):
        return {"sid": sid_of(given["sid"], True)}
    if name == "control":
        both = given["set_control"] | given["clear_control"]
        refused_unless(not both & 0x8014 and not given["set_control"] & given["clear_control"])
        return {"set_bits": given["set_control"], "clear_bits": given["clear_control"]}
    return {}


def refused_unless(holds):
    if not holds:
        raise ValueError


def sid_of(data, may_be_none):
    if may_be_none and not any(data):
        return None
    refused_unless(data[0] == 1 and data[1] <= 15 and not any(data[8 + 4 * data[1]:]))
    return binary.read_sid(data, "owner")


def type_of(given, name, of_none):
    """An object type by its use; of_none is what is meant where none is said of it."""
    use, guid = given[f"{name}_use"], given[name]
    refused_unless(use == 2 or not any(guid) and use in of_none)
    return guid if use == 2 else of_none[use]


def ace_of(given):
    types = [type_of(given, name, {0: None}) for name in ("object_type", "inherited_object_type")]
    refused_unless(given["ace_kind"] in TYPES and not given["flags"] & 0x20)
    refused_unless(types == [None, None] or given["ace_kind"] in (5, 6, 7))
    return Ace(given["ace_kind"], given["flags"], given["mask"], types[0], types[1], sid_of(given["sid"], False))


def match_of(given):
    fields = {name: type_of(given, name, {0: NOT_ASKED, 1: None}) for name in ("object_type", "inherited_object_type")}
    sid = sid_of(given["sid"], True)
    fields["sid"] = NOT_ASKED if sid is None else sid
    refused_unless(given["compare"] < 4 and not given["flags_mask"] & 0x20)
    refused_unless(given["flags"] & given["flags_mask"] == given["flags"])
    for bit, member, field in ((1, "ace_kind", "type"), (2, "mask", "mask")):
        is_compared = given["compare"] & bit
        refused_unless(is_compared or not given[member])
        fields[field] = given[member] if is_compared else NOT_ASKED
    refused_unless(fields["type"] is NOT_ASKED or fields["type"] in TYPES)
    refused_unless(given["flags_mask"] or any(value is not NOT_ASKED for value in fields.values()))
    return Match(flags=given["flags"], flags_mask=given["flags_mask"], **fields)


def setting_of(given):
    refused_unless(not given["set_mask"] & given["clear_mask"] and not given["set_flags"] & given["clear_flags"])
    refused_unless(not (given["set_flags"] | given["clear_flags"]) & 0x20)
    return Setting(sid_of(given["set_sid"], True), given["set_mask"], given["clear_mask"], given["set_flags"],
                   given["clear_flags"])


def judge_members(count, calls, chance):
    """Each byte of a change of each kind, with a few values and all of them in turn."""
    data = binary.layout(ROW)
    starts = {name: [change for change in (random_change(chance) for _ in range(400)) if change.name == name][:3]
              for name in NUMBERS}
    for changes in starts.values():
        for change in changes:
            whole = bytes_of(change)
            for at in range(len(whole)):
                for value in {0, 1, 2, 3, 5, 8, 0x20, 0x80, 0xff, chance.getrandbits(8)} if at > 3 else range(256):
                    judge_one(count, calls, data, whole[:at] + bytes([value]) + whole[at + 1:])
    judge_one(count, calls, data, bytes(LAYOUT.size))
    for kind in (*range(12), 0x100, 1 << 31, 0xffff_ffff):
        for part in range(6):
            judge_one(count, calls, data, packed({"kind": kind, "part": part}))


def judge_one(count, calls, data, given):
    change = change_of(given)
    right = is_none(0) if change is None else right_of(ROW, [change])
    found = calls.edit(data, given)
    count.add(found == right, f"{given.hex()}: {found}, not {right}")


def judge_limits(count, calls):
    data, order = binary.layout(ROW), bytes_of(Change("order", "D"))
    count.add(calls.edit(data, order * MOST_CHANGES) == ([0] * MOST_CHANGES, data), "as many changes as may be")
    for last in (order, bytes(LAYOUT.size)):
        found = calls.edit(b"", order * MOST_CHANGES + last)
        count.add(found == is_none(0), f"a change too many: {found[1]}")
    found = calls.edit(b"", order * 5 + bytes(LAYOUT.size) * 2)
    count.add(found == is_none(5), f"a change that is none, of no descriptor: {found}")
    count.add(calls.edit(b"", order) == not_read(Fault(5, "short")), "no descriptor")
    count.add(calls.edit(bytes(MOST_BYTES + 1), order)[1][0] == 1, "too many bytes")
    count.add(calls.edit(data, b"") == ([], data), "no changes")
    for room in (0, 19, len(data) - 1):
        found = calls.edit(data, order, room)
        count.add(found == ([0], (TOO_SMALL, 0, 0, 0, 0, len(data))), f"room for {room} bytes: {found}")
    found = calls.edit(data, bytes_of(Change("take", "D", place=9)), 0)
    count.add(found[1][0] == 73, f"a change that can't be made, and no room: {found}")
    judge_large(count, calls)


def judge_large(count, calls):
    """Lists of the size that no ACL passes: one ACE more, a longer SID, and what is too large only in between."""
    small = Ace(0, 0, 1, None, None, Sid(3, ()))
    many = Acl((small,) * 4095)
    descriptor = ROW._replace(dacl=many, sacl=many, control=0x8014)
    data = binary.layout(descriptor)
    grown = Change("set each", "S", match=Match(sid=small.sid), setting=Setting(sid=EVERYONE))
    back = Change("take", "S", place=0)
    for changes in ([Change("put", "D", place=END, ace=small)], [grown],
                    [Change("replace", "S", place=4094, ace=ALLOW)],
                    [back, Change("put", "S", place=4094, ace=small)], [Change("order", "D"), Change("order", "S")],
                    [Change("order", "D"), Change("put", "S", place=BY_ORDER, ace=small), back],
                    [Change("take", "D", place=0), Change("put", "D", place=0, ace=ALLOW), Change("owner", sid=None)],
                    [Change("take", "D", place=0), Change("put", "D", place=0, ace=small)] * 300):
        given = b"".join(map(bytes_of, changes))
        found, right = calls.edit(data, given), right_of(descriptor, changes)
        count.add(found == right, f"{changes[:3]} of large lists: {found[1][:9]}, not {right[1][:9]}")


# The same by C, with blocks of exactly their size.

def judge_memory(count, chance):
    edits = [(random_descriptor(chance), random_changes(chance)) for _ in range(300)]
    many = Acl((Ace(0, 0, 1, None, None, Sid(3, ())),) * 4094)
    large = ROW._replace(dacl=many, sacl=many, control=0x8014)
    edits += [(large, [Change("order", "D"), Change("put", "D", place=0, ace=many.aces[0]), Change("order", "S"),
                       Change("take each", "S", match=Match(mask=1))])]
    given = "".join(f"{binary.layout(descriptor).hex()} {b''.join(map(bytes_of, changes)).hex() or '-'}\n"
                    for descriptor, changes in edits)
    with tempfile.TemporaryDirectory() as folder:
        for name, flags in (("plain", []), ("sanitized", ["-fsanitize=address,undefined"])):
            program, said = c_library.built(pathlib.Path(folder), "edits", name, ["-Wl,--wrap=free", *flags])
            count.add(program is not None, f"edits.c is not built, {name}: {said}")
            if program is None:
                continue
            ended = c_library.ran([program], given)
            *found, most = ended.stdout.decode().splitlines() or [""]
            count.add(ended.returncode == 0 and not ended.stderr and len(found) == len(edits),
                      f"edits.c, {name}: status {ended.returncode} {ended.stderr.decode()[:2000]}")
            for line, (descriptor, changes) in zip(found, edits):
                touched, right = right_of(descriptor, changes)
                numbers = (OK, 0, 0, 0, 0, len(right)) if isinstance(right, bytes) else right
                told = " ".join(map(str, (*numbers, *touched)))
                count.add(line == f"{told} :{right.hex() if isinstance(right, bytes) else ''}",
                          f"{descriptor} and {changes}: {line}")
            print(f"the edit that takes most memory, {name}: {most}")
            count.add(int(most.split()[0]) < MOST_MEMORY, f"an edit takes {most}")


# The same for JavaScript, whose GUIDs are in hex here.

def as_json(changes):
    return [json_of(change) for change in changes]


def json_of(change):
    name, found = change.name, {}
    if change.acl:
        found["acl"] = ACL_NAMES[change.acl]
    if change.place is not None:
        found["place"] = change.place
    if change.ace:
        found["ace"] = fields_in_json(change.ace._asdict())
    if change.match:
        found["match"] = fields_in_json(change.match._asdict())
    if change.setting:
        sid, *numbers = change.setting
        found["setting"] = dict(zip(("setMask", "clearMask", "setFlags", "clearFlags"), numbers))
        if sid is not None:
            found["setting"]["sid"] = sid.text()
    if name == "state":
        found["state"] = change.state
    if name in ("owner", "group"):
        found["sid"] = change.sid and change.sid.text()
    if name == "control":
        found.update(setControl=change.set_bits, clearControl=change.clear_bits)
    return {"change": {"take each": "takeEach", "set each": "setEach"}.get(name, name), **found}


def fields_in_json(fields):
    names = {"type": "kind", "flags_mask": "flagsMask", "object_type": "objectType",
             "inherited_object_type": "inheritedObjectType"}
    return {names.get(name, name): value.text() if isinstance(value, Sid) else
            value.hex() if isinstance(value, bytes) else value
            for name, value in fields.items() if value is not NOT_ASKED}


# The same through Python.

def package():
    os.environ["SDTOOL_LIBRARY"] = str(LIBRARY)
    return importlib.import_module("sdtool")


def python_change(sdtool, change):
    """The change as the package makes it, of what it takes from a caller."""
    make, acl = sdtool.Change, ACL_NAMES.get(change.acl)

    def sid_of_bytes(sid):
        return None if sid is None else sdtool.Sid(sid.to_bytes())

    given = {}
    if change.match:
        given = {name: value for name, value in change.match._asdict().items() if value is not NOT_ASKED}
        if "sid" in given:
            given["sid"] = sid_of_bytes(given["sid"])
        if "type" in given:
            given["kind"] = sdtool.AceKind(given.pop("type"))
    if change.ace:
        ace = sdtool.Ace(sdtool.AceKind(change.ace.type), change.ace.flags, change.ace.mask,
                         sid_of_bytes(change.ace.sid), object_type=change.ace.object_type,
                         inherited_object_type=change.ace.inherited_object_type)
    if change.name in ("put", "replace"):
        return getattr(make, change.name)(acl, change.place, ace)
    if change.name == "take":
        return make.take(acl, change.place)
    if change.name == "take each":
        return make.take_each(acl, **given)
    if change.name == "set each":
        setting = change.setting._asdict()
        setting["set_sid"] = sid_of_bytes(setting.pop("sid"))
        return make.set_each(acl, **given, **setting)
    if change.name == "order":
        return make.order(acl)
    if change.name == "state":
        return make.state(acl, change.state)
    if change.name == "control":
        return make.control(set=change.set_bits, clear=change.clear_bits)
    return getattr(make, change.name)(sid_of_bytes(change.sid))


def judge_python(count, chance, edits):
    sdtool = package()
    for _ in range(edits):
        descriptor, changes = random_descriptor(chance), random_changes(chance)
        made = [python_change(sdtool, change) for change in changes]
        count.add(list(map(bytes, made)) == list(map(bytes_of, changes)), f"{changes}: other bytes")
        whole = sdtool.SecurityDescriptor.from_bytes(binary.layout(descriptor))
        touched, right = right_of(descriptor, changes)
        try:
            edited = whole.edit(*made)
            found = list(edited.touched), bytes(edited.descriptor)
        except sdtool.Fault as fault:
            found = touched, (fault.number, PART_NUMBERS[fault.part], 0, CHANGES, fault.index, 0)
            count.add(fault.argument == "changes", f"{fault!r} is of another argument")
        count.add(found == (touched, right), f"{descriptor} and {changes}: {found}, not {right}")
        count.add(tuple(whole.order) == orders(descriptor), f"the order of {descriptor}")


def judge_objects(count):
    """Changes of the package as objects, and what it refuses of a caller."""
    sdtool = package()
    make, whole = sdtool.Change, sdtool.SecurityDescriptor.from_sddl("D:(A;;FA;;;BA)")
    ace = whole.dacl[0]
    for change in (make.take("dacl", 1), make.put("sacl", "order", ace), make.owner("BA"), make.control(set=1)):
        same = [eval(repr(change), {"Change": make}), pickle.loads(pickle.dumps(change)), copy.deepcopy(change),
                make(bytes(change))]
        count.add(all(one == change and hash(one) == hash(change) for one in same), f"{change!r} has no equals")
    for wrong, kind, argument, index in (
            (lambda: make.put("dacl", 0xffff_fffe, ace), "ArgumentFault", "place", None),
            (lambda: make.put("dacl", "first", ace), "ArgumentFault", "place", None),
            (lambda: make.take("owner", 0), "ArgumentFault", "acl", None),
            (lambda: make.state("dacl", "empty"), "ArgumentFault", "state", None),
            (lambda: make.take_each("dacl", sid=b""), "ArgumentFault", "sid", None),
            (lambda: make.owner(bytes(8)), "ArgumentFault", "sid", None),
            (lambda: make(bytes(207)), "ArgumentFault", "data", None),
            (lambda: make.take("dacl", "end"), "WrongType", None, None),
            (lambda: whole.edit(make.order("dacl"), 5), "WrongType", None, None),
            (lambda: whole.edit(make.__new__(make)), "WrongType", None, None),
            (lambda: whole.edit(make.order("dacl"), make(bytes(208))), "ArgumentFault", "changes", 1),
            (lambda: whole.edit(make.take_each("dacl")), "ArgumentFault", "changes", 0),
            (lambda: whole.edit(make.control(clear=4)), "ArgumentFault", "changes", 0),
            (lambda: whole.edit(make.order("dacl"), make.take("sacl", 0)), "Fault", "changes", 1)):
        try:
            found = wrong()
        except sdtool.Error as problem:
            found = problem
        count.add((type(found).__name__, getattr(found, "argument", None), getattr(found, "index", None))
                  == (kind, argument, index), f"{found!r} in place of {kind} of {argument}")


TABLE_START = "D:AI(D;;FW;;;BU)(A;;FA;;;BA)(A;;FX;;;BU)(A;ID;FR;;;BU)(A;ID;FA;;;SY)"
# The first tool of each row, and the ACL behind its changes.
TABLE = {
    "icacls /grant": "D:AI(D;;FW;;;BU)(A;;FA;;;BA)(A;;FX;;;BU)(A;;FR;;;BU)(A;ID;FR;;;BU)(A;ID;FA;;;SY)",
    "icacls /grant:r": "D:AI(D;;FW;;;BU)(A;;FA;;;BA)(A;;FR;;;BU)(A;ID;FR;;;BU)(A;ID;FA;;;SY)",
    "icacls /remove:g": "D:AI(D;;FW;;;BU)(A;;FA;;;BA)(A;ID;FR;;;BU)(A;ID;FA;;;SY)",
    "dsacls /R": "D:AI(A;;FA;;;BA)(A;ID;FR;;;BU)(A;ID;FA;;;SY)",
    "icacls /inheritance:r": "D:PAI(D;;FW;;;BU)(A;;FA;;;BA)(A;;FX;;;BU)",
    "icacls /inheritance:d": "D:PAI(D;;FW;;;BU)(A;;FA;;;BA)(A;;FX;;;BU)(A;;FR;;;BU)(A;;FA;;;SY)",
    "icacls /substitute": "D:AI(D;;FW;;;AU)(A;;FA;;;BA)(A;;FX;;;AU)(A;ID;FR;;;AU)(A;ID;FA;;;SY)",
    "smbcacls -a": "D:AI(D;;FW;;;BU)(A;;FA;;;BA)(A;;FX;;;BU)(A;;FR;;;BU)(A;ID;FR;;;BU)(A;ID;FA;;;SY)",
    "smbcacls -D": "D:AI(D;;FW;;;BU)(A;;FA;;;BA)(A;ID;FR;;;BU)(A;ID;FA;;;SY)",
    "smbcacls -M": "D:AI(D;;FW;;;BU)(A;;FA;;;BA)(A;;FX;;;BU)(A;ID;FX;;;BU)(A;ID;FA;;;SY)",
}


def judge_table(count):
    sdtool = package()
    text = (preload.TOP / "docs/LIBRARY.md").read_text(encoding="utf-8")
    section = text.partition("\n## Changes\n")[2].partition("\n## ")[0]
    rows = dict(re.findall(r"^\| `([^`]+)`[^|]*\| (`.*`) \|$", section, re.M))
    count.add(TABLE.keys() == rows.keys(), f"docs/LIBRARY.md: the rows {sorted(rows)}")
    known = {name: getattr(sdtool.Change, name) for name in ("put", "take_each", "set_each", "order", "control")}
    known.update(A=sdtool.AceKind.A, ID=sdtool.AceFlags.ID, PD=sdtool.Control.PD, sid="BU", other="AU",
                 mask=int(sdtool.FileMask.FX), ace=sdtool.Ace.from_sddl("(A;;FR;;;BU)"))
    for tool, right in TABLE.items():
        changes = [eval(code, known) for code in re.findall(r"`([^`]+)`", rows.get(tool, ""))]
        edited = sdtool.SecurityDescriptor.from_sddl(TABLE_START).edit(*changes)
        count.add(edited.descriptor.sddl() == right, f"{tool}: {edited}, not {right}")


def add_options(words):
    words.add_argument("--edits", type=int, default=50_000)


def main(count: preload.Count, given: preload.Given) -> None:
    if not LIBRARY.exists():
        print(f"edits: skipped, there is no {LIBRARY}")
        return
    calls, chance = Calls(), random.Random(1)
    for part in (judge_rows, judge_limits):
        if preload.is_chosen(part):
            part(count, calls)
    if preload.is_chosen(judge_memory):
        judge_memory(count, chance)
    if preload.is_chosen(judge_members):
        judge_members(count, calls, chance)
    if preload.is_chosen(judge_random):
        judge_random(count, calls, chance, given.edits)
    if preload.is_chosen(judge_python):
        judge_python(count, chance, given.edits // 10)
    if preload.is_chosen(judge_objects):
        judge_objects(count)
    if preload.is_chosen(judge_table):
        judge_table(count)
