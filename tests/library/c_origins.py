"""Asks the library where each ACE of a derived descriptor comes from.

  lines  20,000 random derivations, half of them with a creator's descriptor, a tenth with a damaged one: the origins
         are those of the reference, as many as the ACEs that sdtool_derive gives, and a fault is the reference's. With
         one cell less for an ACL nothing is written, and the counts are told all the same.
  most   ACLs with as many ACEs as there can be have an origin for each. One ACE more is too large, in the SACL before
         the DACL, also where only the copies pass the limit.
  laws   by hand: equal ACEs, ACEs that give nothing, null and absent ACLs, protected ones, both copies of one ACE
"""
import collections
import random

import c_library
import compare
import preload
import reference
from c_neighbours import ARGUMENT, CREATOR, MOST_DERIVED_ACES, OK, TOO_SMALL, answered, origins_of
from reference import Ace, Acl, Descriptor, Sid
from reference.inheriting import Plan, derived, origins

TOO_LARGE, SACL, DACL = 40, 3, 4
PARTS = ("", "owner", "group", "sacl", "dacl")
SELF_RELATIVE, SACL_PRESENT, DACL_PRESENT, DACL_PROTECTED = 0x8000, 0x10, 0x4, 0x1000
OI, CI, NP, IO, ID = 1, 2, 4, 8, 16
EVERYONE, SYSTEM, NULL_SID, CREATOR_OWNER = Sid(1, (0,)), Sid(5, (18,)), Sid(0, ()), Sid(3, (0,))
PLANS = [Plan(is_container, EVERYONE, SYSTEM, reference.MAPPINGS["file"]) for is_container in (False, True)]


def given_by(parent, creator, plan):
    mapping = list(reference.MAPPINGS.values()).index(plan.mapping)
    return parent, creator, plan.owner.to_bytes(), plan.group.to_bytes(), int(plan.is_container), mapping


def expected(parent, creator, plan):
    """The origins of the SACL's and of the DACL's ACEs, or the fault with what it is about."""
    try:
        brought = reference.read(creator) if creator else None
    except reference.parts.Fault:
        return ARGUMENT, 0, CREATOR
    try:
        found = reference.read(parent)
        derived(found, brought, plan)
    except reference.parts.Fault as fault:
        return fault.args[0], PARTS.index((*fault.args[2:], "")[0]), 0
    return [[tuple(one) for one in origins(letter, found, brought, plan)] for letter in "SD"]


def told_by(given, **room):
    told, *found = origins_of(*given, **room)
    outcome = told.outcome
    return found if outcome.fault == OK else (outcome.fault, outcome.part, outcome.argument)


def counts_told(given, **room):
    told, *found = origins_of(*given, **room)
    return told.outcome.fault, told.sacl_count, told.dacl_count, found


def test_room(count, given, right):
    """One cell less than an ACL needs, and exactly as many."""
    sacl, dacl = map(len, right)
    count.add(counts_told(given, sacl_room=sacl, dacl_room=dacl) == (OK, sacl, dacl, right), f"room for just {right}")
    for rooms in ((sacl - 1, dacl), (sacl, dacl - 1), (0, 0)):
        if min(rooms) >= 0 and rooms != (sacl, dacl):
            found = counts_told(given, sacl_room=rooms[0], dacl_room=rooms[1])
            count.add(found == (TOO_SMALL, sacl, dacl, [[], []]), f"{rooms} cells for {right}: {found}")


def test_lines(count, number, choices):
    """Prints how often each kind of origin came, of which none may be missing."""
    maker, seen = compare.Lines(choices), collections.Counter()
    for at in range(number):
        parent, creator = (reference.layout(maker.parent(reference.read(maker.descriptor().data))) for _ in range(2))
        creator = b"" if choices.random() < 0.5 else creator
        if choices.random() < 0.1:
            parent = bytes.fromhex(c_library.change_bytes(parent.hex(), choices))
        if creator and choices.random() < 0.1:
            creator = bytes.fromhex(c_library.change_bytes(creator.hex(), choices))
        owner, group = (choices.choice([EVERYONE, SYSTEM, CREATOR_OWNER]) for _ in range(2))
        plan = Plan(choices.random() < 0.5, owner, group, choices.choice(list(reference.MAPPINGS.values())))
        given, right = given_by(parent, creator, plan), expected(parent, creator, plan)
        found = told_by(given)
        count.add(found == right,
                  f"{' '.join(it.hex() for it in given[:4])} {given[4:]}:\n  gave {found}\n  not  {right}")
        if isinstance(right, tuple):
            seen[f"fault {right[0]}" if right[0] == ARGUMENT else "fault"] += 1
            continue
        answer = answered("sdtool_derive", *given)
        acls = [acl.aces if acl else () for acl in (reference.read(answer).sacl, reference.read(answer).dacl)]
        listed = [[bool(ace.flags & IO) for ace in aces] for aces in acls]
        count.add([[one[2] for one in some] for some in right] == listed, f"the ACEs of {answer.hex()}")
        seen.update(f"{name} {'creator' if one[1] else 'parent'}{' inherit-only' * one[2]}"
                    for name, some in zip(("sacl", "dacl"), right) for one in some)
        if at % 10 == 0:
            test_room(count, given, right)
    print(dict(seen.most_common()))
    kinds = {f"{name} {giver}{only}" for name in ("sacl", "dacl") for giver in ("creator", "parent")
             for only in ("", " inherit-only")}
    wanted = {"fault", f"fault {ARGUMENT}", *kinds}
    count.add(wanted <= set(seen), f"what did not come: {wanted - set(seen)}")


def described(dacl=None, sacl=None, control=0):
    """A descriptor with these ACLs. A list is there; None is an absent ACL, or a null one by its bit in the control
    word."""
    control |= SELF_RELATIVE | SACL_PRESENT * (sacl is not None) | DACL_PRESENT * (dacl is not None)
    acls = [None if aces is None else Acl(tuple(aces)) for aces in (sacl, dacl)]
    return reference.layout(Descriptor(control, 0, None, None, *acls))


def ace(flags, sid=EVERYONE, mask=1, kind=0):
    return Ace(kind, flags, mask, None, None, sid)


def test_most(count):
    least = ace(OI, NULL_SID)  # 16 bytes, of which one ACL holds 4,095
    audit = ace(OI | 0x40, NULL_SID, kind=2)
    full = [(place, False, False) for place in range(MOST_DERIVED_ACES)]
    parent = described([least] * MOST_DERIVED_ACES, [audit] * MOST_DERIVED_ACES)
    count.add(told_by(given_by(parent, b"", PLANS[0])) == [full, full], "the most ACEs")
    # In a container each of them gives one to hand on.
    onward = [(place, False, True) for place in range(MOST_DERIVED_ACES)]
    count.add(told_by(given_by(parent, b"", PLANS[1])) == [onward, onward], "the most ACEs to hand on")
    one = described([ace(0, NULL_SID)], [ace(0x40, NULL_SID, kind=2)])
    for creator, fault in ((described(None, [audit]), SACL), (described([least], None), DACL), (one, SACL)):
        for rooms in ({}, {"sacl_room": 0, "dacl_room": 0}):
            given = given_by(parent, creator, PLANS[0])
            count.add(told_by(given, **rooms) == (TOO_LARGE, fault, 0), f"one ACE more: {told_by(given, **rooms)}")
            count.add(counts_told(given, **rooms) == (TOO_LARGE, 0, 0, [[], []]), "counts of what is too large")
    # Each gives two of 20 bytes, so 1,638 of them are as many as there can be.
    given = given_by(described([ace(CI, CREATOR_OWNER)] * 1638), b"", PLANS[1])
    right = [[], [(place, False, only) for place in range(1638) for only in (False, True)]]
    count.add(told_by(given) == right, "1,638 ACEs that give two each")
    given = given_by(described([ace(CI, CREATOR_OWNER)] * 1639), b"", PLANS[1])
    count.add(told_by(given) == (TOO_LARGE, DACL, 0), f"1,639 ACEs that give two each: {told_by(given)}")


def laws():
    """A parent, a creator's descriptor, whether a container is made, and the origins of the DACL's ACEs by hand."""
    equal, idle, both = ace(OI | CI), ace(0), ace(CI, CREATOR_OWNER)
    yield "equal ACEs", [equal] * 3, None, True, [(0, False, False), (1, False, False), (2, False, False)]
    yield "ACEs that give nothing", [idle, ace(CI), idle, equal, idle], None, False, [(3, False, False)]
    yield "both copies", [idle, both, both], None, True, [(1, False, False), (1, False, True), (2, False, False),
                                                          (2, False, True)]
    yield "the creator's first", [equal, equal], [idle, ace(ID), idle], True, \
        [(0, True, False), (2, True, False), (0, False, False), (1, False, False)]
    yield "the creator's of a container", [equal], [both], True, [(0, True, False), (0, True, True), (0, False, False)]
    yield "the creator's that is inherit-only", [equal], [ace(IO | OI)], True, [(0, True, True), (0, False, False)]
    yield "an empty list of the creator's", [equal], [], False, [(0, False, False)]
    yield "no ACE", [], None, True, []
    yield "to hand on alone", [ace(OI)], None, True, [(0, False, True)]
    yield "no further", [ace(CI | NP), ace(OI | NP)], None, True, [(0, False, False)]


def test_laws(count):
    for name, aces, brought, is_container, right in laws():
        creator = b"" if brought is None else described(brought)
        for parent, found in ((described(aces), [[], right]), (described(None, aces), [[], []])):
            given = given_by(parent, creator, PLANS[is_container])
            if parent == described(None, aces):  # the same ACEs in a SACL, of which the creator has none
                found = [[one for one in right if not one[1]], [one for one in right if one[1]]]
            count.add(told_by(given) == found, f"{name}: {told_by(given)} in place of {found}")
    equal = [ace(OI | CI)]
    null = reference.layout(Descriptor(SELF_RELATIVE | DACL_PRESENT | SACL_PRESENT, 0, None, None, None, None))
    for name, parent, creator, found in (
            ("a null DACL of the creator's", described(equal, equal), null, [[], []]),
            ("null ACLs of the parent's", null, b"", [[], []]),
            ("null ACLs of the parent's, and a creator's list", null, described(equal), [[], [(0, True, False)]]),
            ("a protected DACL of the creator's", described(equal, equal), described([ace(0)], None, DACL_PROTECTED),
             [[(0, False, False)], [(0, True, False)]]),
            ("P without a DACL", described(equal), described(None, None, DACL_PROTECTED), [[], [(0, False, False)]])):
        given = given_by(parent, creator, PLANS[1])
        count.add(told_by(given) == found, f"{name}: {told_by(given)} in place of {found}")


def add_options(parser):
    parser.add_argument("--lines", type=int, default=20_000)


def main(count: preload.Count, given: preload.Given) -> None:
    test_laws(count)
    test_most(count)
    test_lines(count, given.lines, random.Random(78))
