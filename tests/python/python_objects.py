"""Tests the Python module's objects over the built library. What they say of each descriptor of the worked rows has to
be what the independent implementation (tests/reference) says, and what they build of its parts has to be its layout.
Checks and derivations have to answer what the worked rows say. Also tested: that objects cannot be changed, that they
are equal exactly if their content is, that each repr reads back, that they can be pickled, copied and shared by threads
and processes, what a null and an absent ACL are, and what cannot be built. hypothesis makes random descriptors, texts
and objects that have to come back as they were; without python3-hypothesis that part is skipped.

All of it is tried by the module's extension, where that is built, and by ctypes.
"""
import concurrent.futures
import copy
import doctest
import enum
import itertools
import os
import pickle
import random
import re
import subprocess
import sys
import threading
import time
import uuid

import c_library
import compare
import fault_places
import preload
import reference
import sddl_texts
from preload import TOP, raised
from python_module import WITHOUT_EXTENSION
from reference.places import place_of_bytes

import sdtool
from sdtool import (Ace, AceFlags, AceKind, Acl, Checker, Control, DirectoryMask, FileMask, KeyMask,
                    SecurityDescriptor, Sid, Token)

try:
    import hypothesis
    from hypothesis import strategies
except ImportError:
    hypothesis = None

NAMES = {name: getattr(sdtool, name) for name in sdtool.__all__}
OBJECT_CLASS = uuid.UUID("bf967aba-0de6-11d0-a285-00aa003049e2")
READ = 0x120089
DOMAIN = "S-1-5-21-1-2-3"
REASONS = ["nothing", "label", "no-dacl", "owner", "privilege", "granted", "denied"]
MOST_SECONDS = 600  # that a thread waits for others


def raise_it(problem):
    raise problem


def descriptors_of_rows():
    """The descriptors of the worked rows, as the independent implementation reads them."""
    of_hex, of_sddl = c_library.lines_of_rows()
    for line, words in [*((line, [b"convert"]) for line in of_hex),
                        *((line, [b"convert", b"--from", b"sddl"]) for line in of_sddl)]:
        if len(line) < 20_000:
            settings = reference.settings_of(words)
            found = reference.all_shown(line.encode("latin-1", "replace") + b"\n", settings)[0]
            if isinstance(found, reference.Descriptor):
                yield found


def sid_of(sid):
    return sid and Sid(sid.to_bytes())


def guid_of(guid):
    return guid and uuid.UUID(bytes_le=guid)


def ace_of(ace):
    return Ace(ace.type, ace.flags, ace.mask, sid_of(ace.sid), guid_of(ace.object_type),
               guid_of(ace.inherited_object_type))


def acl_of(descriptor, acl, present):
    if not descriptor.control & present:
        return Acl.ABSENT
    return Acl.NULL if acl is None else Acl(map(ace_of, acl.aces))


def test_rows(count):
    """What the objects say of each descriptor, and what is built of the same parts."""
    printing = reference.settings_of([b"convert"])
    for expected in {reference.layout(one): one for one in descriptors_of_rows()}.values():
        data = reference.layout(expected)
        found = SecurityDescriptor.from_bytes(data)
        parts = {"owner": sid_of(expected.owner), "group": sid_of(expected.group),
                 "dacl": acl_of(expected, expected.dacl, reference.DACL_PRESENT),
                 "sacl": acl_of(expected, expected.sacl, reference.SACL_PRESENT)}
        count.add(all(getattr(found, name) == part for name, part in parts.items()),
                  f"parts of {data.hex()}: {found!r}")
        count.add((found.control, found.resource_manager) == (expected.control, expected.resource_manager),
                  f"{data.hex()}")
        count.add(found.bytes == bytes(found) == data
                  and found.sddl() == str(found) == reference.sddl(expected, printing), f"{data.hex()}: {found.sddl()}")
        count.add(found.explain() == sdtool.explain(data), f"explain of {data.hex()}")
        for name in ("dacl", "sacl"):
            acl = getattr(expected, name)
            for ours, theirs in zip(getattr(found, name) if acl else (), acl.aces if acl else ()):
                fields = (ours.kind, ours.flags, ours.mask, bytes(ours.sid), ours.object_type,
                          ours.inherited_object_type)
                count.add(fields == (theirs.type, theirs.flags, theirs.mask, theirs.sid.to_bytes(),
                                     guid_of(theirs.object_type), guid_of(theirs.inherited_object_type)),
                          f"an ACE of {data.hex()}: {ours}")
        built = SecurityDescriptor(**parts, control=expected.control, resource_manager=expected.resource_manager)
        count.add(built == found and hash(built) == hash(found) and built.bytes == data,
                  f"built: {built!r}, not {found!r}")
        count.add(found.replace() == found and eval(repr(found), NAMES.copy()) == found, f"repr: {found!r}")


def test_sids(count):
    """The texts and aliases of the independent implementation's tables."""
    domain = reference.sid_of_text(DOMAIN.encode())
    for sid, alias in reference.aliases_under(domain).items():
        found = Sid(alias, domain=DOMAIN)
        count.add(found == sid.to_bytes() and str(found) == f"{found}" == sid.text()
                  and found.alias(domain=DOMAIN) == alias and
                  Sid(sid.text()) == Sid(alias.lower(), domain=Sid(DOMAIN)) == found and
                  eval(repr(found), NAMES.copy()) == found and format(found, ">200") == sid.text().rjust(200),
                  f"{alias}: {found!r}")
        count.add(found.alias() == reference.aliases_under(None).get(sid),
                  f"{alias} without the domain: {found.alias()}")
    for text, number in (("ZZ", 22), ("DA", 23), ("S-1-5-4294967296", 24), ("S-1-", 25), ("Everyone", 25), ("", 25),
                         ("S-1-5 ", 25)):
        problem = raised(Sid, text)
        count.add(type(problem) is sdtool.Fault and problem.number == number, f"Sid({text!r}): {problem!r}")
    for data in (b"", bytes(8), Sid("BA") + Sid("BU"), Sid("BA")[:-1], b"\2" + Sid("BA")[1:], bytes(100)):
        problem = raised(Sid, bytes(data))
        count.add(type(problem) is sdtool.ArgumentFault and problem.number == 70, f"Sid({data!r}): {problem!r}")
    for value in (None, 1, 1.5, [1], uuid.UUID(int=0)):
        count.add(type(raised(Sid, value)) is sdtool.WrongType, f"Sid({value!r})")
    same = [Sid("BA"), Sid(b"" + Sid("BA")), Sid(bytearray(Sid("BA"))), Sid(memoryview(Sid("BA"))), Sid(Sid("BA"))]
    count.add(len(set(same)) == 1 and all(type(sid) is Sid for sid in same), "a SID of each type")
    count.add(Sid("BA") != Sid("BU") and bool(Sid("S-1-0")) and len(Sid("S-1-0")) == 8, "SIDs")
    count.add(raised(setattr, Sid("BA"), "x", 1) is not None, "a SID that is changed")


def test_acls(count):
    ace = Ace("A" and AceKind.A, 0, READ, "BU")
    none = [Acl.NULL, Acl.ABSENT]
    for acl, name in zip(none, ("null", "absent")):
        for call in (len, list, tuple, iter, lambda acl: acl[0], lambda acl: ace in acl, lambda acl: acl[:1], reversed,
                     lambda acl: [*acl], lambda acl: acl.index(ace), lambda acl: acl.count(ace)):
            problem = raised(call, acl)
            count.add(isinstance(problem, sdtool.NoAces) and isinstance(problem, (TypeError, sdtool.Error)) and
                      name in str(problem), f"{name}: {problem!r}")
        count.add(repr(acl) == f"Acl.{name.upper()}" and eval(repr(acl), NAMES.copy()) == acl, f"{acl!r}")
        count.add([acl.is_list, acl.is_null, acl.is_absent] == [False, name == "null", name == "absent"], name)
    for acl in (*none, Acl(), Acl([ace])):
        count.add(type(raised(bool, acl)) is sdtool.WrongType
                  and type(raised(lambda acl: not acl, acl)) is sdtool.WrongType, f"bool({acl!r})")
    different = [*none, Acl(), Acl([ace]), Acl([ace, ace]), Acl([ace.replace(mask=1)])]
    count.add(all((one == other) == (one is other) for one, other in itertools.product(different, repeat=2)),
              "ACLs that differ")
    count.add(len(set(different)) == len(different) and Acl([ace]) == Acl((ace,)) and Acl() != []
              and Acl() != (), "ACLs")
    some = Acl([ace, ace.replace(sid="BA"), ace.replace(sid="SY")])
    count.add(some[1].sid == Sid("BA") and some[-1].sid == Sid("SY") and some[1:] == Acl(list(some)[1:]) and
              some.index(some[2]) == 2 and ace in some and list(reversed(some))[0].sid == Sid("SY"),
              "an ACL as a sequence")
    # What a descriptor grants tells them apart, as MS-DTYP 2.5.3.2 says: without a list all, with an empty one nothing.
    for acl, granted, text in ((Acl.ABSENT, True, ""), (Acl.NULL, True, "D:NO_ACCESS_CONTROL"), (Acl(), False, "D:")):
        descriptor = SecurityDescriptor(dacl=acl)
        count.add(descriptor.dacl == acl and descriptor.sddl() == text and
                  bool(descriptor.check(Token(["WD"]), READ)) == granted, f"{descriptor!r}")
    for value in (None, 1, "D:", b"D:", [None], ["(A;;FR;;;BU)"], [tuple(ace)]):
        count.add(type(raised(lambda value: SecurityDescriptor(dacl=value), value)) is sdtool.WrongType,
                  f"dacl={value!r}")


def test_aces(count):
    ace = Ace(AceKind.OA, AceFlags.CI | AceFlags.ID, DirectoryMask.CR, "AU", OBJECT_CLASS, uuid.UUID(int=5))
    count.add(ace.sddl() == str(ace) == f"(OA;CIID;CR;{OBJECT_CLASS};{uuid.UUID(int=5)};AU)", f"{ace}")
    count.add(Ace.from_sddl(str(ace)) == ace == eval(repr(ace), {**NAMES, "UUID": uuid.UUID}), f"{ace!r}")
    for kind in AceKind:
        count.add(Ace.from_sddl(f"({kind};;FR;;;WD)").kind is kind
                  and Ace(kind, 0, READ, "WD").sddl().startswith(f"({kind};"), f"{kind!r}")
    same = [Ace(5, 0x12, 0x100, Sid("AU"), OBJECT_CLASS.bytes_le, bytearray(uuid.UUID(int=5).bytes_le)),
            Ace(5, 0x12, 0x100, bytes(Sid("AU")), str(OBJECT_CLASS), memoryview(uuid.UUID(int=5).bytes_le))]
    count.add(all(one == ace and hash(one) == hash(ace) and repr(one) == repr(ace) for one in same), f"{same}")
    for field, value in (("kind", 3), ("kind", 9), ("kind", 256), ("kind", -1), ("flags", 0x20), ("flags", 256),
                         ("flags", -1),
                         ("mask", -1), ("mask", 2**32), ("sid", b""), ("object_type", bytes(15)),
                         ("object_type", "{x}"),
                         ("object_type", f"{{{OBJECT_CLASS}}}"), ("inherited_object_type", bytes(17))):
        problem = raised(ace.replace, **{field: value})
        count.add(type(problem) is sdtool.ArgumentFault, f"an ACE with {field}={value!r}: {problem!r}")
    for field, value in (("kind", None), ("kind", True), ("flags", "OI"), ("mask", 1.0), ("mask", False), ("sid", None),
                         ("sid", 1), ("object_type", 1)):
        count.add(type(raised(ace.replace, **{field: value})) is sdtool.WrongType, f"an ACE with {field}={value!r}")
    # GUIDs are in the kinds for objects alone.
    for kind in (AceKind.A, AceKind.D, AceKind.AU, AceKind.ML):
        count.add(type(raised(ace.replace, kind=kind)) is sdtool.ArgumentFault, f"{kind!r} with a GUID")
    for text, said in (("A;;FR;;;BU", "in parentheses"), ("", "in parentheses"), (" (A;;FR;;;BU)", "in parentheses"),
                       ("(A;;FR;;;BU)(A;;FR;;;BU)", "more than one ACE"),
                       ("(A;;FR;;;BU)(A;;FR;;;BU)O:BA", "more than one ACE"), ("(A;;FR;;;BU)O:BA", "behind the ACE"),
                       ("(A;;FR;;;BU)G:BA", "behind the ACE"), ("(A;;FR;;;BU)S:", "behind the ACE"),
                       ("P(A;;FR;;;BU)", "in parentheses"), ("NO_ACCESS_CONTROL", "in parentheses")):
        problem = raised(Ace.from_sddl, text)
        count.add(type(problem) is sdtool.ArgumentFault and said in str(problem), f"the ACE {text!r}: {problem}")
    for text, number in (("(A;;FR;;;BU)S:(A;;FR;;;BU)", 70), ("(A;;FR;;BU)", 20), ("(XA;;FR;;;BU)", 29),
                         ("(A;;FR;;;DA)", 23)):
        problem = raised(Ace.from_sddl, text)
        is_right = isinstance(problem, sdtool.Error) and getattr(problem, "number", 0) == number
        count.add(is_right, f"the ACE {text!r}: {problem!r}")
    count.add(FileMask(READ).names == ("READ_DATA", "READ_EA", "READ_ATTRIBUTES", "READ_CONTROL", "SYNCHRONIZE") and
              KeyMask(0x20019).names == ("QUERY_VALUE", "ENUMERATE_SUB_KEYS", "NOTIFY", "READ_CONTROL") and
              DirectoryMask(0x100).names == ("CONTROL_ACCESS",), "names of rights")
    for value in (FileMask(READ), KeyMask(1 << 26), AceFlags(0), Control(0x8004), AceKind.ML, FileMask.FA | 1 << 27):
        count.add(eval(repr(value), NAMES.copy()) == value and type(eval(repr(value), NAMES.copy())) is type(value),
                  f"{value!r}")


def test_names(count):
    """The names of bits are those of the independent implementation's tables, wherever SDDL has one."""
    for names, mask in ((reference.ACE_FLAGS, AceFlags), (reference.RIGHTS, DirectoryMask)):
        for name, bit in names.items():
            count.add(getattr(mask, name) == bit, f"{mask.__name__}.{name}")
    for name, compound in reference.COMPOUND_RIGHTS.items():
        count.add(getattr(KeyMask if name.startswith("K") else FileMask, name) == compound, name)
    for name, bit in reference.CONTROL_CODES.items():
        count.add(getattr(Control, name) == bit, f"Control.{name}")
    for number, name in reference.KINDS.items():
        count.add(str(AceKind(number)) == name, name)


def test_building(count):
    """What cannot be built, and which part that is."""
    whole = SecurityDescriptor.from_sddl("O:BAG:SYD:PAI(A;;FR;;;BU)S:(ML;;NW;;;HI)")
    count.add(whole.replace(owner=None, group=None).sddl() == "D:PAI(A;;FR;;;BU)S:(ML;;NW;;;HI)", "without an owner")
    count.add(whole.replace(dacl=Acl.NULL, sacl=Acl.ABSENT).sddl() == "O:BAG:SYD:PAINO_ACCESS_CONTROL", "a null DACL")
    count.add(whole.replace(control=0).sddl() == "O:BAG:SYD:(A;;FR;;;BU)S:(ML;;NW;;;HI)", "without flags")
    count.add(whole.replace(control=0xffff, dacl=Acl.ABSENT, sacl=Acl.ABSENT).control == 0xffeb,
              "bits that follow from the parts")
    count.add(whole.replace(resource_manager=7).bytes[1] == 7, "the resource manager byte")
    ace = whole.dacl[0]
    most = (65_535 - 8) // (8 + len(ace.sid))
    large = whole.replace(dacl=[ace] * most)
    count.add(len(large.dacl) == most and set(large.dacl) == {ace}, "the largest ACL")
    for part in ("dacl", "sacl"):
        problem = raised(whole.replace, **{part: [ace] * (most + 1)})
        count.add(type(problem) is sdtool.Fault and (problem.number, problem.part) == (30, part),
                  f"{part}: {problem!r}")
    for named in ({"owner": b"x"}, {"group": Sid("BA") + b"\0"}, {"control": 0x10000}, {"control": -1},
                  {"resource_manager": 256}, {"resource_manager": -1}):
        problem = raised(whole.replace, **named)
        count.add(type(problem) is sdtool.ArgumentFault and problem.argument in named, f"{named}: {problem!r}")
    for named in ({"owner": 1}, {"group": [1]}, {"control": "P"}, {"control": True}, {"resource_manager": None}):
        count.add(type(raised(whole.replace, **named)) is sdtool.WrongType, f"{named}")
    count.add(type(raised(whole.replace, other=1)) is TypeError, "an unknown name")
    problem = raised(whole.replace, owner="Everyone")
    count.add(type(problem) is sdtool.Fault and (problem.number, problem.argument) == (25, "owner"), f"{problem!r}")


def values():
    """A value of each type, and more."""
    descriptor = SecurityDescriptor.from_sddl("O:BAD:PAI(A;OICI;FR;;;BU)(OA;;CR;;;AU)")
    token = Token(["BU", "WD"], deny_only=["BA"], level=8192, privileges=["security"])
    yield from (descriptor, descriptor.dacl, descriptor.sacl, Acl.NULL, Acl(), descriptor.dacl[1], Sid("BA"),
                token, Token([]), descriptor.check(token, READ), FileMask(READ), AceFlags(3), AceKind.ML,
                Control(0x8004), SecurityDescriptor(control=3, resource_manager=9))


def test_values(count):
    for value in values():
        found = [copy.copy(value), copy.deepcopy(value), eval(repr(value), NAMES.copy())]
        found += [pickle.loads(pickle.dumps(value, protocol)) for protocol in range(pickle.HIGHEST_PROTOCOL + 1)]
        count.add(all(one == value and hash(one) == hash(value) and type(one) is type(value)
                      and repr(one) == repr(value)
                      for one in found), f"copies of {value!r}: {found!r}")
        count.add(value != object() and value != None and not value == 0.5, f"{value!r} beside others")  # noqa: E711
        # Python lets an enum have more attributes, but not another value.
        names = (("name", "value") if isinstance(value, enum.Enum)
                 else ("new", "_data", "_aces", "sids", "owner", "mask", "level"))
        for name in names:
            count.add(isinstance(raised(setattr, value, name, 1), AttributeError), f"{value!r}.{name} is set")
            count.add(isinstance(raised(delattr, value, name), AttributeError), f"{value!r}.{name} is deleted")
    checker = Checker(Token(["BU"]), READ, mapping="file", object_type=OBJECT_CLASS, principal_self="BA")
    allowing = SecurityDescriptor.from_sddl("D:(A;;FR;;;BU)")
    count.add(pickle.loads(pickle.dumps(checker))(allowing) == checker(allowing) == (True, READ),
              "a checker that is pickled")


def test_tokens(count):
    token = Token(["DA"], deny_only=["DU"], domain=DOMAIN, level=0)
    count.add(token.sids == (Sid(f"{DOMAIN}-512"),) and token.deny_only == (Sid(f"{DOMAIN}-513"),) and token.level == 0,
              f"{token!r}")
    for named in ({"level": -1}, {"level": 2**32}, {"privileges": ["backup"]}, {"sids": ["BU"] * 1025}, {"sids": [b""]},
                  {"deny_only": [Sid("BA") + Sid("BA")]}):
        problem = raised(Token, **{"sids": [], **named})
        count.add(type(problem) is sdtool.ArgumentFault and problem.argument in named, f"{named}: {problem!r}")
    for named in ({"level": True}, {"level": "high"}, {"privileges": "security"}, {"privileges": [1]}, {"sids": "BU"},
                  {"sids": None}, {"sids": [1]}, {"deny_only": Sid("BA")}):
        count.add(type(raised(Token, **{"sids": [], **named})) is sdtool.WrongType, f"{named}")
    for given in (["BU"], None, sdtool, Sid("BA")):
        count.add(type(raised(Checker, given)) is sdtool.WrongType, f"Checker({given!r})")
    problem = raised(Token, ["BU", "Everyone"])
    count.add(type(problem) is sdtool.Fault and (problem.number, problem.argument, problem.index) == (25, "sids", 1),
              f"{problem!r}")


def token_of(question):
    """The token of a check, and the arguments beside it."""
    sids, deny_only = ([sid for sid, deny in question.token if deny == which] for which in (False, True))
    privileges = ["security"] * question.security + ["take-ownership"] * question.take_ownership
    named = {"mapping": question.mapping, "object_type": question.object_type or None,
             "principal_self": question.principal_self or None}
    return Token(sids, deny_only=deny_only, level=question.level, privileges=privileges), named


def why(question):
    """The reasons of the objects for the question of a check, as tests/library/c/calls.c prints them."""
    descriptor = SecurityDescriptor.from_bytes(question.descriptor)
    token, named = token_of(question)
    told, checker = descriptor.reasons(token, **named), Checker(token, **named)
    if not told == checker.reasons(descriptor) == checker.reasons(question.descriptor):
        return "a checker has other reasons"
    for right, reason in enumerate(told):
        acl = descriptor.sacl if reason.kind == "label" else descriptor.dacl
        if reason.ace is not (None if reason.place is None else acl[reason.place]):
            return f"another ACE: {reason}"
        if bool(reason) != bool(descriptor.check(token, 1 << right, **named)):
            return f"another verdict than {reason} on right {right}"
    return " ".join(f"{REASONS.index(reason.kind)}" + ("" if reason.place is None else f":{reason.place}")
                    for reason in told)


def where(question):
    """The origins that the objects have for the question of a derivation, as tests/library/c/calls.c prints them."""
    folder, creator = SecurityDescriptor.from_bytes(question.descriptor), None
    if question.creator:
        creator = SecurityDescriptor.from_bytes(question.creator)
    named = {"kind": question.kind, "mapping": question.mapping}
    found = folder.origins(question.owner, question.group, creator=creator, **named)
    if found != folder.origins(question.owner, question.group, creator=question.creator or None, **named):
        return "other origins of bytes"
    child, told = folder.derive(question.owner, question.group, creator=creator, **named), []
    for name in ("sacl", "dacl"):
        acl, origins = getattr(child, name), getattr(found, name)
        aces = acl if acl.is_list else ()
        if len(origins) != len(aces):
            return f"{len(origins)} origins of {len(aces)} ACEs"
        for origin, ace in zip(origins, aces):
            giver = getattr(creator if origin.from_creator else folder, name)
            if origin.ace != giver[origin.place] or not origin.from_creator and origin.ace is not giver[origin.place]:
                return f"another ACE: {origin}"
            if origin.inherit_only != bool(ace.flags & AceFlags.IO):
                return f"{origin} of {ace}"
        told += [name, *(f"{'c' if it.from_creator else 'p'}{it.place}{'+' * it.inherit_only}" for it in origins)]
    return " ".join(told)


def asked(question):
    """The answer of the objects to a question of the worked rows, as a line."""
    descriptor = SecurityDescriptor.from_bytes(question.descriptor)
    if question.job == "derive":
        return descriptor.derive(question.owner, question.group, kind=question.kind, creator=question.creator or None,
                                 mapping=question.mapping).bytes.hex()
    token, named = token_of(question)
    named["maximum"] = question.maximum
    verdict = descriptor.check(token, question.wanted, **named)
    many = list(Checker(token, question.wanted, **named).many([descriptor, question.descriptor, b"", descriptor]))
    if many[0] != verdict or many[1] != verdict or many[3] != verdict or not isinstance(many[2], sdtool.Fault):
        return f"many verdicts differ: {many}"
    return f"{'granted' if verdict else 'denied'} 0x{verdict.mask:08x}"


def test_questions(count):
    for job in ("check", "derive"):
        for question, expected in c_library.questions_of_rows(job):
            answers = [(asked, expected)]
            if job == "check":
                answers.append((why, c_library.reasons_for(question, expected)))
            else:
                answers.append((where, c_library.origins_for(question, expected)))
            for ask, right in answers:
                problem = None
                try:
                    found = ask(question)
                except sdtool.Fault as fault:
                    problem, found = fault, c_library.without_name(fault.line)
                count.add(found == right, f"{job} {question.line()}: {found} {problem}, not {right}")


def test_many(count):
    """A fault in its place, and no more descriptors taken than said."""
    checker = Checker(Token(["BU"]), READ)
    yes, no = SecurityDescriptor.from_sddl("D:(A;;FR;;;BU)"), SecurityDescriptor.from_sddl("D:")
    taken = []

    def source():
        for one in [yes, no.bytes, b"short", bytearray(yes.bytes)] * 3:
            taken.append(one)
            yield one

    for ahead in (1, 2, 5, 1024):
        taken.clear()
        verdicts = checker.many(source(), ahead=ahead)
        first = next(verdicts)
        count.add(first == (True, READ) and len(taken) == min(ahead, 12), f"{len(taken)} taken with {ahead} ahead")
        found = [first, *verdicts]
        count.add([isinstance(one, sdtool.Fault) and one.number == 5 or one.granted for one in found] ==
                  [True, False, True, True] * 3, f"{found}")
    # A fault never passes for a verdict that is granted, and stays an exception like any other.
    given = [*checker.many([b"short"]), *sdtool.plain_descriptors([b"short", "D:("])]
    for fault in [*given, *map(copy.copy, given), *map(pickle.loads, map(pickle.dumps, given))]:
        problem = raised(bool, fault)
        count.add(type(problem) is sdtool.WrongType and fault.line in str(problem),
                  f"the truth of {fault!r}: {problem!r}")
    with concurrent.futures.ThreadPoolExecutor(1) as threads:
        for call, argument in (raise_it, given[0]), (sdtool.to_sddl, b"short"):
            problem = raised(threads.submit(call, argument).result)
            count.add(type(problem) is sdtool.Fault and bool(problem), f"a fault that a thread raises: {problem!r}")
    count.add(list(checker.many([])) == [], "no descriptor")
    problem = raised(list, Checker(Token(["BU"])).many([yes]))
    count.add(isinstance(problem, sdtool.Fault) and problem.number == 50, f"no right: {problem!r}")
    for given in (None, 1, yes.bytes, ["D:"], [None]):
        count.add(type(raised(lambda given: list(checker.many(given)), given)) is sdtool.WrongType, f"many({given!r})")


# Bytes that are no descriptor, and how the message of their fault ends.
SAID = [
    (b"", "error 5 short: fewer than 20 bytes, at byte 0"),
    (bytes(20), "error 6 revision: the revision of the header is not 1, at byte 0"),
    (fault_places.header(group=8),
     "error 8 offset group: the offset is below 20, or fewer than 8 bytes follow it, at byte 8, the group"),
    (fault_places.header(0x10, sacl=20) + fault_places.acl(7, 0), "at byte 20, the SACL"),
    (fault_places.header(owner=20) + b"\1\x10" + bytes(80), "at byte 20, the owner, SID"),
    (fault_places.header(4, dacl=20) + fault_places.acl(48, 2, fault_places.ace() + fault_places.ace(9)),
     "error 12 ace-type dacl: the type of an ACE is not supported, at byte 48, ACE 2 of the DACL, kind"),
    (fault_places.header(0x10, sacl=20) + fault_places.acl(28, 2, fault_places.ace()),
     "at byte 48, ACE 2 of the SACL, size"),
    (fault_places.header(4, dacl=20) + fault_places.acl(28, 1, fault_places.ace(flags=0x20)),
     "at byte 28, ACE 1 of the DACL, flags"),
]


def test_places(count):
    """Where bytes are no descriptor, beside the independent implementation."""
    for data, said in SAID:
        count.add(str(raised(SecurityDescriptor.from_bytes, data)).endswith(said), f"{data.hex()}: {said}")
    chosen, placed = random.Random(6), 0
    rows = [row[0] for row in fault_places.OF_BYTES]
    for data in (*rows, *fault_places.hostile(compare.Lines(chosen), chosen, 4000)):
        expected, problem = place_of_bytes(data), raised(SecurityDescriptor.from_bytes, data)
        if expected is None or not isinstance(problem, sdtool.Fault):
            count.add(expected is problem is None, f"{data.hex()[:300]}: {problem!r}, not {expected}")
            continue
        placed += 1
        line, place = expected
        right = (problem.line == line and isinstance(problem.place, sdtool.Place)
                 and tuple(problem.place) == tuple(place))
        right = right and problem.where == fault_places.in_words(place) and str(problem).endswith(f", {problem.where}")
        count.add(right and fault_places.is_excerpt(problem.excerpt(), data, place),
                  f"{data.hex()[:300]}: {problem.line} {problem.place!r} {problem.excerpt()!r}, not {expected}")
        if data and placed % 20 == 0:
            judge_ways(count, data, problem)
    count.add(placed > 2000, f"only {placed} faults of bytes")
    for problem in (raised(SecurityDescriptor.from_bytes, bytes(131_227)), sdtool.Fault(5, "short"),
                    raised(sdtool.from_sddl, " " * 1_049_873), raised(sdtool.check, sdtool.from_sddl(""), ["WD"])):
        count.add(problem.place is None and problem.excerpt() == problem.where == ""
                  and " at byte " not in str(problem), f"no place: {problem!r}")


def judge_ways(count, data, expected):
    """Every call with a descriptor says the same place, of the bytes as they were."""
    token, whole = Token(["WD"]), SecurityDescriptor.from_sddl("D:")
    checker = Checker(token, 1)
    for call in (sdtool.to_sddl, sdtool.explain, sdtool.normalize, checker, checker.reasons,
                 lambda given: next(checker.many([given])), lambda given: sdtool.check(given, ["WD"], wanted=1),
                 lambda given: sdtool.derive(given, "BA", "BA"), lambda given: whole.derive("BA", "BA", creator=given)):
        given = bytearray(data)
        try:
            problem = call(given)
        except sdtool.Fault as fault:
            problem = fault
        given[:] = bytes(len(given))
        copies = [pickle.loads(pickle.dumps(problem)), copy.copy(problem), copy.deepcopy(problem), problem]
        count.add(all((one.place, one.excerpt(), one.line) == (expected.place, expected.excerpt(), expected.line) and
                      str(one) == str(problem) and str(one).endswith(f", {expected.where}") for one in copies),
                  f"{data.hex()}: {problem}")
    large = fault_places.header(owner=4) + bytes(100_000)
    count.add(len(pickle.dumps(raised(sdtool.normalize, large))) < 1000, "the pickle of a fault has all of the bytes")
    problem, found = raised(sdtool.normalize, data), []
    threads = [threading.Thread(target=lambda: found.append(problem.place)) for _ in range(4)]
    for thread in threads:
        thread.start()
    for thread in threads:
        thread.join()
    count.add(found == [expected.place] * 4, f"a place that threads ask for: {found}")


# Texts, and how the message of their fault ends: each fault, and each field.
SAID_OF_TEXTS = [
    ("O:BAx:", "error 20 shape: parentheses, colons or the number of fields are wrong, at byte 5, the owner, SID"),
    ("D:(A;;FA;;;WD", "at byte 13, ACE 1 of the DACL, SID"),
    ("D:(A;;FA;;;WD)\xe9", "at byte 14, the DACL"),
    ("x", "at byte 0"),
    ("O:SYO:SY", "error 21 part-twice: two parts have the same letter, at byte 4, the owner"),
    ("G: ZZ ", "error 22 alias: two letters that are not an alias, at byte 3, the group, SID"),
    ("D:(A;;FA;;;LA)", "error 23 needs-domain: a relative alias without a domain, at byte 11, ACE 1 of the DACL, SID"),
    ("D:(A;;FA;;;S-1-5-4294967296)", "at byte 11, ACE 1 of the DACL, SID"),
    ("D:(A;;FA;;;Everyone)", "error 25 sid-form: any other text that is not a SID, at byte 11, ACE 1 of the DACL, SID"),
    ("S:(AU;SA;FA;;;\u6f22)", "at byte 14, ACE 1 of the SACL, SID"),
    ("D:PX", "error 26 flags: flags of an ACL or an ACE that are not in the tables, at byte 2, the DACL, flags"),
    ("D:(A;XX;FA;;;WD)", "at byte 5, ACE 1 of the DACL, flags"),
    ("D:(A;;;;;WD)(A;;0xg;;;WD)",
     "error 27 rights: rights that are not in the tables, at byte 16, ACE 2 of the DACL, rights"),
    ("D:(OA;;CC;x;;WD)",
     "error 28 guid: an object type is not a GUID, or its ACE is of a kind without object types, at byte 10, ACE 1 of "
     "the DACL, object type"),
    ("D:(OA;;CC;;x;WD)", "at byte 11, ACE 1 of the DACL, inherited object type"),
    ("D:(XA;;FA;;;WD)", "error 29 kind: no such kind of ACE, such as XA, at byte 3, ACE 1 of the DACL, kind"),
    ("D:" + "(A;;;;;WD)" * 3278,
     "error 30 acl-too-large dacl: the ACL would exceed 65,535 bytes; the first from the left, at byte 32762, ACE 3277 "
     "of the DACL"),
]


def test_places_of_texts(count):
    """Where a text is no SDDL, beside the independent implementation."""
    for text, said in SAID_OF_TEXTS:
        problem = raised(sdtool.from_sddl, text)
        place, is_placed = problem.place, str(problem).endswith(said) and str(problem).endswith(f", {problem.where}")
        count.add(is_placed and 0 <= place.offset <= place.offset + place.size <= len(text), f"{text[:99]}: {problem}")
    chosen, placed = random.Random(7), 0
    for text in sddl_texts.hostile(chosen, 4000):
        with_domain = chosen.random() < 0.7
        domain = sddl_texts.DOMAIN if with_domain else None
        expected, problem = sddl_texts.expected(text, with_domain=with_domain), raised(sdtool.from_sddl, text,
                                                                                       domain=domain)
        if expected is None or not isinstance(problem, sdtool.Fault):
            count.add(expected is problem is None, f"{text!r}: {problem!r}, not {expected}")
            continue
        placed += 1
        count.add(problem.line == expected.line and isinstance(problem.place, sdtool.Place) and
                  tuple(problem.place) == tuple(expected.place) and problem.where == expected.said and
                  str(problem).endswith(f", {expected.said}") and
                  sddl_texts.is_excerpt(problem.excerpt(), text, expected.first, expected.size),
                  f"{text!r}: {problem.line} {problem.place!r} {problem.excerpt()!r}, not {expected}")
        if placed % 20 == 0:
            judge_ways_of_text(count, text, domain, problem)
    count.add(placed > 3000, f"only {placed} faults of texts")
    judge_laziness(count)


class Text(str):
    """A text that says something else of itself."""

    def __str__(self):
        return "D:"

    def __len__(self):
        return 1

    def encode(self, *_):
        return b"D:"

    def __getitem__(self, key):
        return "D"


def judge_ways_of_text(count, text, domain, expected):
    """Every call with a text says the same place, also copied, from another thread, and of a text that lies."""
    calls: list = [lambda: sdtool.from_sddl(Text(text), domain=domain),
                   lambda: SecurityDescriptor.from_sddl(text, domain=domain),
                   lambda: SecurityDescriptor.from_sddl(Text(text), domain=domain),
                   lambda: next(sdtool.plain_descriptors([text], domain=domain)),
                   lambda: list(sdtool.plain_descriptors(["D:", Text(text), b""], domain=domain))[1]]
    for call in calls:
        try:
            problem = call()
        except sdtool.Fault as fault:
            problem = fault
        copies = [pickle.loads(pickle.dumps(problem)), copy.copy(problem), copy.deepcopy(problem), problem]
        count.add(all((one.place, one.where, one.excerpt(), str(one)) ==
                      (expected.place, expected.where, expected.excerpt(), str(expected)) for one in copies),
                  f"{text!r}: {problem}")
    problem, found = raised(sdtool.from_sddl, text, domain=domain), []
    threads = [threading.Thread(target=lambda: found.append((problem.place, problem.where))) for _ in range(4)]
    for thread in threads:
        thread.start()
    for thread in threads:
        thread.join()
    count.add(found == [(expected.place, expected.where)] * 4, f"a place that threads ask for: {found}")


def judge_laziness(count):
    """A place is found when it is first asked for, with the domain as it was, and once."""
    transport, asked = sdtool._library._transport, []
    find = transport.sddl_place
    transport.sddl_place = lambda *given: (asked.append(given), find(*given))[1]
    try:
        domain = bytearray(Sid(sddl_texts.DOMAIN))
        problem = raised(sdtool.from_sddl, "O:DAG:ZZ", domain=domain)
        domain[:] = bytes(len(domain))
        count.add((problem.number, problem.line, asked) == (22, "error 22 alias", []), f"{problem.line} {asked}")
        told = [problem.place for _ in range(3)] + [pickle.loads(pickle.dumps(problem)).place]
        count.add(told == [("group", None, "sid", 6, 2)] * 4 and len(asked) == 1, f"asked {len(asked)} times: {told}")
    finally:
        transport.sddl_place = find
    large = raised(sdtool.from_sddl, "D:" + "(A;;FA;;;WD)" * 1000 + "\u6f22" * 9)
    count.add(len(pickle.dumps(large)) < 1000 and large.place.offset == 12_002,
              "the pickle of a fault has all of the text")


# Texts of an ACE, and what the fault says of them.
OF_ACES = [
    ("(A;;ZZ;;;WD)", 27, (None, None, "rights", 4, 2), "at byte 4, rights"),
    ("(A;;\u6f22;;;WD)", 27, (None, None, "rights", 4, 1), "at byte 4, rights"),
    ("(A;;FA;;;\u6f22\u6f22)", 25, (None, None, "sid", 9, 2), "at byte 9, SID"),
    ("(XA;;FA;;;WD)", 29, (None, None, "kind", 1, 2), "at byte 1, kind"),
    ("(;;FA;;;WD)", 29, (None, None, "kind", 1, 0), "at byte 1, kind"),
    ("(A;;FA;;;WD", 20, (None, None, "sid", 11, 0), "at byte 11, SID"),
    ("(", 20, (None, None, "kind", 1, 0), "at byte 1, kind"),
    ("(A;;FA;;;WD)\xe9x", 20, (None, None, None, 12, 1), "at byte 12"),
    ("(A;;FA;;;WD)(A;;FA;;;W)", 25, (None, None, "sid", 21, 1), "at byte 21, SID"),
    ("(A;;FA;;;WD)S:(AU;;FA;;;W)", 25, ("sacl", 0, "sid", 24, 1), "at byte 24, ACE 1 of the SACL, SID"),
    ("(A;;FA;;;WD)D:", 21, ("dacl", None, None, 12, 2), "at byte 12, the DACL"),
    ("(A;;FA;;;WD)d:(XA;;FA;;;WD)", 21, ("dacl", None, None, 12, 2), "at byte 12, the DACL"),
    ("(D:;;FA;;;WD)", 29, (None, None, "kind", 1, 2), "at byte 1, kind"),
    ("(A;;FA;;;d:)", 25, (None, None, "sid", 9, 2), "at byte 9, SID"),
]
# Texts that are no SID.
OF_SIDS = [("ZZ", 22), ("LA", 23), ("S-1-5-4294967296", 24), ("", 25), (" BA", 25), ("\u6f22\U0001f600", 25),
           ("\ud800", 25)]


def test_places_of_parts(count):
    """A place is in the text that was given, and in none that was made of it."""
    for text, number, place, said in OF_ACES:
        for given in (text, Text(text)):
            problem = raised(Ace.from_sddl, given)
            right = (isinstance(problem, sdtool.Fault)
                     and (problem.number, problem.place, problem.where) == (number, place, said))
            count.add(right and sddl_texts.is_excerpt(problem.excerpt(), text, place[3], place[4]) and
                      pickle.loads(pickle.dumps(problem)).place == place, f"{text!r}: {problem!r} {problem.place}")
    for text, number in OF_SIDS:
        place = (None, None, "sid", 0, len(text))
        for call, argument, index in ((lambda given: Sid(given), "value", None),
                                      (lambda given: Token(["WD", given]), "sids", 1),
                                      (lambda given: Token([], deny_only=[given]), "deny_only", 0),
                                      (lambda given: Ace(0, 0, 0, given), "sid", None),
                                      (lambda given: SecurityDescriptor(owner=given), "owner", None),
                                      (lambda given: sdtool.from_sddl("D:", domain=given), "domain", None),
                                      (lambda given: Ace.from_sddl("(A;;FA;;;WD)", domain=given), "domain", None)):
            for given in (text, Text(text)):
                problem = raised(call, given)
                right = isinstance(problem, sdtool.Fault) and (problem.number, problem.place, problem.argument,
                                                               problem.index) == (
                    number, place, argument, index) and str(problem).endswith(", at byte 0, SID")
                count.add(right and sddl_texts.is_excerpt(problem.excerpt(), text, 0, len(text)),
                          f"{text!r}: {problem!r}")


def verdict_of(pair):
    checker, descriptor = pair
    return checker(descriptor)


def test_threads_and_processes(count):
    checker = Checker(Token(["BU", "WD"], level=8192), maximum=True)
    descriptors = [SecurityDescriptor.from_sddl(f"D:(A;;{mask:#x};;;BU)") for mask in range(1, 300)]
    expected = [checker(descriptor) for descriptor in descriptors]
    wrong = []

    def work():
        for _ in range(10):
            if ([checker(descriptor) for descriptor in descriptors] != expected or
                list(checker.many(descriptors)) != expected
                    or [one.dacl[0].mask for one in descriptors] != list(range(1, 300))):
                wrong.append(1)

    threads = [threading.Thread(target=work) for _ in range(6)]
    for thread in threads:
        thread.start()
    with concurrent.futures.ProcessPoolExecutor(2) as pool:  # which forks while the threads run
        found = list(pool.map(verdict_of, [(checker, descriptor) for descriptor in descriptors[:20]]))
        problem = pool.submit(verdict_of, (checker, b"short")).exception()
    for thread in threads:
        thread.join()
    count.add(not wrong and found == expected[:20], f"threads and processes: {wrong} {found}")
    count.add(isinstance(problem, sdtool.Fault) and problem.line == "error 5 short",
              f"a fault of a process: {problem!r}")


def ran(code, *words, python=sys.executable, **environment):
    """What a program prints on both streams, and its status. It has the module as it is tested here."""
    before = "import sys; sys.modules['sdtool._native'] = None\n" if WITHOUT_EXTENSION in sys.argv else ""
    ended = subprocess.run([python, *words, "-c", before + code], stdout=subprocess.PIPE, stderr=subprocess.STDOUT,
                           check=False, text=True, env={**os.environ, "PYTHONPATH": str(TOP / "python"), **environment})
    return ended.stdout, ended.returncode


def test_handlers(count):
    """A handler of a signal, or a finalizer, may run at any time, and make objects too."""
    code = """
import faulthandler, sdtool, sys
def handler(frame, event, argument):
    # Python calls this, as it would a handler, while an object is being made.
    if event == "call" and frame.f_back.f_code.co_name == "fill":
        sys.setprofile(None)
        made.append(sdtool.Token(["BU"]))
made = []
faulthandler.dump_traceback_later(60, exit=True)
sys.setprofile(handler)
token = sdtool.Token(["WD"])
print(token, made)
"""
    found = ran(code)
    count.add(found == ("Token([Sid('S-1-1-0')]) [Token([Sid('S-1-5-32-545')])]\n", 0),
              f"an object made by a handler: {found}")


def test_modes(count):
    """With all warnings as errors, with those of bytes beside text, in Python's development mode, and without
    assertions."""
    code = """
import sdtool, pickle, uuid
whole = sdtool.SecurityDescriptor.from_sddl("O:BAG:SYD:PAI(A;OICI;FR;;;BU)"
                                            "(OA;;CR;bf967aba-0de6-11d0-a285-00aa003049e2;;AU)")
again = whole.replace(owner="BU", group=None, dacl=[*whole.dacl][:1])
print(again, again.group, repr(sdtool.Sid("BA")), f"{sdtool.Sid('BA')}", pickle.loads(pickle.dumps(again)) == again)
print(sdtool.Checker(sdtool.Token(["BU"]), 1, principal_self="BA", object_type=str(uuid.UUID(int=0)))(whole))
print(list(sdtool.lines(["zz", ""], ["convert"])))
"""
    expected = ("O:BUD:PAI(A;OICI;FR;;;BU) None Sid('S-1-5-32-544') S-1-5-32-544 True\nVerdict(granted=True, mask=1)\n"
                "['error 2 hex-digit', '']\n")
    for words in (["-W", "error"], ["-bb", "-W", "error"], ["-X", "dev", "-W", "error"], ["-O"], ["-OO"],
                  ["-I", "-B"], ["-S"]):
        if "-I" in words:  # without the path of the environment
            found = ran(f"import sys; sys.path.insert(0, {str(TOP / 'python')!r})\n{code}", *words)
        else:
            found = ran(code, *words)
        count.add(found == (expected, 0), f"python {words}: {found}")


def test_interpreters(count):
    """Interpreters of one process have a module each. One that cannot load it says so and does no harm."""
    code = """
import sdtool, threading
try:
    import _xxsubinterpreters as interpreters
except ImportError:
    import _interpreters as interpreters
own = sdtool.SecurityDescriptor.from_sddl("D:(A;;FR;;;BU)")
inside = "import sdtool; assert sdtool.SecurityDescriptor.from_sddl('D:(A;;FR;;;BU)').dacl[0].sid == sdtool.Sid('BU')"
for _ in range(3):
    one = interpreters.create()
    try:
        problem = interpreters.run_string(one, inside)
    except Exception as raised:
        problem = raised
    if problem is not None and not any(said in str(problem) for said in (
            "ImportError", "does not support loading in subinterpreters")):
        print(problem)
    interpreters.destroy(one)
print(own.dacl[0].sid.alias(), own == sdtool.SecurityDescriptor.from_sddl("D:(A;;FR;;;BU)"))
"""
    if raised(__import__, "_xxsubinterpreters") is not None and raised(__import__, "_interpreters") is not None:
        print("skipped: this Python has no module for interpreters")
        return
    found = ran(code, "-W", "ignore")
    count.add(found == ("BU True\n", 0), f"interpreters: {found}")


def test_leaks(count):
    """Calls of each kind, also ones that are refused, leave no memory behind."""
    code = r"""
import gc, resource, sdtool
from sdtool import Acl, Checker, SecurityDescriptor, Sid, Token
text = "O:BAG:SYD:PAI(A;OICI;FR;;;BU)(OA;;CR;bf967aba-0de6-11d0-a285-00aa003049e2;;AU)S:(AU;SA;FA;;;WD)"
whole = SecurityDescriptor.from_sddl(text)
checker = Checker(Token(["BU", "WD"]), maximum=True)
view = memoryview(bytearray(whole.bytes))
def refused(call, *arguments):
    try:
        call(*arguments)
    except (sdtool.Error, TypeError):
        return
    raise SystemExit(f"{call} takes {arguments}")
def once(number):
    one = SecurityDescriptor.from_sddl(text)
    [(ace.kind, ace.flags, ace.mask, ace.sid, ace.object_type) for acl in (one.dacl, one.sacl) for ace in acl]
    SecurityDescriptor.from_bytes(view).sddl(), checker(view), checker(descriptor=one)
    list(checker.many([one, view, b""]))
    one.check(Token([Sid(f"S-1-5-{number}")]), 1), one.derive("BA", "BA"), one.replace(dacl=Acl.NULL)
    one.explain(), repr(one)
    list(sdtool.plain_descriptors([text, view, b"", one, "O:ZZ", f"O:S-1-5-{number}D:(A;;{number:#x};;;BU)"]))
    refused(list, sdtool.plain_descriptors([text, 1])), refused(sdtool.plain_descriptors, text)
    Sid(f"S-1-5-21-1-{number}").alias(), sdtool.run(["convert"], b"zz")
    list(sdtool.lines(["D:"], ["convert", "--from", "sddl"]))
    refused(SecurityDescriptor.from_sddl, "D:(A;;FA;;;Everyone)"), refused(SecurityDescriptor.from_sddl, "O:\ud800")
    refused(SecurityDescriptor.from_sddl, 1), refused(SecurityDescriptor.from_bytes, None)
    refused(checker, b""), refused(checker)
    refused(checker, 1, 2), refused(list, checker.many([1])), refused(Sid, b"x"), refused(one.replace, "x")
    refused(checker, SecurityDescriptor.__new__(SecurityDescriptor)), refused(Checker.__new__(Checker), one)
def peak():
    gc.collect()
    return resource.getrusage(resource.RUSAGE_SELF).ru_maxrss
for number in range(ROUNDS):
    once(number)
before = peak()
for number in range(ROUNDS, 4 * ROUNDS):
    once(number)
print(peak() - before)
"""
    printed, status = ran(code.replace("ROUNDS", "1500"))
    count.add(status == 0 and printed.strip().isdigit() and int(printed) < 1024, f"KiB that calls leave: {printed}")


def test_no_memory(count):
    """Each allocation of Python in turn is refused: a MemoryError, and the next call is right."""
    code = r"""
import _testcapi, sdtool
from sdtool import Checker, SecurityDescriptor, Sid, Token
text = ("O:BAG:SYD:PAI(A;OICI;FR;;;BU)(OA;;CR;bf967aba-0de6-11d0-a285-00aa003049e2;;AU)"
        "S:(AU;SA;FA;;;S-1-5-21-1-2-3-NUMBER)")
large = "D:" + "(A;;FR;;;S-1-5-21-1-2-3-4)" * 300
checker = Checker(Token(["BU", "WD"]), maximum=True)
data = SecurityDescriptor.from_sddl(text.replace("NUMBER", "1")).bytes
def calls(number):
    yield lambda: (SecurityDescriptor.from_sddl(text.replace("NUMBER", str(number))).sacl[0].sid
                   == Sid(f"S-1-5-21-1-2-3-{number}"))
    yield lambda: len(SecurityDescriptor.from_sddl(large).dacl) == 300
    yield lambda: SecurityDescriptor.from_bytes(data).sddl() == text.replace("NUMBER", "1")
    yield lambda: checker(data) == (True, 0x120089)
    yield lambda: [str(one)[:7] for one in checker.many([data, b""])] == ["Verdict", "error 5"]
    yield lambda: Token([Sid(f"S-1-5-21-9-{number}")]).sids[0].alias() is None
    yield lambda: SecurityDescriptor.from_bytes(data).replace(owner="BU").owner.alias() == "BU"
    yield lambda: sdtool.run(["convert"], b"zz").output == b"error 2 hex-digit\n"
    yield lambda: [one if isinstance(one, sdtool.Fault) else one.sacl[0].sid for one in sdtool.plain_descriptors(
        [text.replace("NUMBER", str(number)), data])] == [f"S-1-5-21-1-2-3-{number}", "S-1-5-21-1-2-3-1"]
    yield lambda: [str(one)[:8] for one in sdtool.plain_descriptors(["O:ZZ", b""])] == ["error 22", "error 5 "]
    yield lambda: [len(one.dacl) for one in sdtool.plain_descriptors([large])] == [300]
refused = 0
for at in range(120):
    for call in calls(at):
        try:
            _testcapi.set_nomemory(at, at + 1)
            answer = call()
        except MemoryError:
            refused += 1
            answer = True
        finally:
            _testcapi.remove_mem_hooks()
        if not (answer and call()):
            print("a wrong answer", at)
print("refused", refused > 200)
"""
    # By ctypes there are other exceptions than a MemoryError, and CPython 3.12 and 3.13 crash where code without any
    # extension has no memory, as for a generator.
    if WITHOUT_EXTENSION in sys.argv or sys.version_info >= (3, 12):
        return
    if raised(__import__, "_testcapi") is not None:
        print("skipped: this Python has no _testcapi, which refuses memory")
        return
    found = ran(code, "-W", "ignore")
    count.add(found == ("refused True\n", 0), f"without memory: {found}")


def test_long_calls_in_threads(count):
    """Other threads run while a call takes long."""
    text = "D:" + "(A;;FR;;;S-1-5-21-1-2-3-4)" * 1700
    descriptor = SecurityDescriptor.from_sddl(text)
    calls = [lambda: SecurityDescriptor.from_sddl(text), lambda: SecurityDescriptor.from_bytes(descriptor.bytes),
             descriptor.sddl, descriptor.explain, lambda: sdtool.run(["convert", "--from", "sddl"], text.encode() * 3),
             lambda: Checker(Token(["WD"]), READ)(descriptor),
             lambda: list(Checker(Token(["WD"]), READ).many([descriptor] * 9)),
             lambda: list(sdtool.plain_descriptors([text])), lambda: list(sdtool.plain_descriptors([descriptor]))]
    for call in calls:
        expected, ended, answers = call(), threading.Event(), []

        def work():
            end = time.monotonic() + MOST_SECONDS
            while not ended.is_set() and time.monotonic() < end:
                if call() != expected:
                    answers.append("another answer")
                answers[:1] = answers[:1] or ["some"]
            if not ended.is_set():
                answers.append("no other thread ran")

        interval = sys.getswitchinterval()
        sys.setswitchinterval(1000)  # so this thread goes on only where the other one lets it
        try:
            thread = threading.Thread(target=work)
            thread.start()
            while not answers and thread.is_alive():
                time.sleep(0.001)
            ended.set()
            thread.join()
        finally:
            sys.setswitchinterval(interval)
        count.add(answers == ["some"], f"long calls in threads: {answers[:3]}")


def test_once(count):
    """An object that is there cannot be made again, and no way around its checks makes one."""
    for value, again in ((SecurityDescriptor(), {"owner": "BA"}), (Acl(), {}), (Token([]), {"sids": ["BA"]}),
                         (Checker(Token([]), 1), {"token": Token(["BA"])})):
        before = (hash(value), repr(value))
        problem = raised(value.__init__, **again)
        count.add(type(problem) is sdtool.Unchangeable and isinstance(problem, AttributeError) and
                  (hash(value), repr(value)) == before, f"{value!r} made again: {problem!r}")
    ace = Ace(0, 0, READ, "BU")
    for made in (lambda: Ace._make([3, 0, READ, "BU"]), lambda: ace._replace(kind=3), lambda: ace._replace(mask=-1)):
        count.add(isinstance(raised(made), sdtool.ArgumentFault), "an ACE that cannot be")
    count.add(Ace._make(ace) == ace and type(Ace._make(ace)) is Ace and ace._replace(mask=1) == ace.replace(mask=1),
              "ACEs by tuples")
    whole = SecurityDescriptor.from_sddl("O:BAD:(A;;FR;;;BU)")
    if hasattr(copy, "replace"):
        count.add(copy.replace(whole, owner="SY") == whole.replace(owner="SY") and copy.replace(ace, mask=1).mask == 1,
                  "copy.replace")
    for make in (lambda: SecurityDescriptor.__new__(SecurityDescriptor).owner, lambda: Checker.__new__(Checker)(whole),
                 lambda: len(Acl.__new__(Acl)), lambda: whole.check(Token.__new__(Token), 1)):
        count.add(type(raised(make)) is sdtool.WrongType, "an object whose __init__ was not called")


def test_examples(count):
    for module in (sdtool,):
        result = doctest.testmod(module)
        count.add(result.failed == 0 and result.attempted > 40, f"the module's examples: {result}")


def test_document(count):
    """examples/may_change.py prints what docs/LIBRARY.md shows, and its other examples give what they show."""
    text = (TOP / "docs/LIBRARY.md").read_text(encoding="utf-8")
    whole = re.search(r"With the input\n\n```\n(.*?)```\n\nit prints\n\n```\n(.*?)```", text, re.DOTALL)
    count.add(whole is not None, "docs/LIBRARY.md shows no input of a program")
    program = [sys.executable, TOP / "examples/may_change.py"]
    if whole:
        given, expected = whole.groups()
        ended = subprocess.run(program, input=given, stdout=subprocess.PIPE, check=False, text=True,
                               env={**os.environ, "PYTHONPATH": str(TOP / "python")})
        count.add((ended.stdout, ended.returncode) == (expected, 0), f"examples/may_change.py prints {ended.stdout}")
    odd = b"caf\xe9\tD:(A;;FR;;;BU)\r\na\rb\tD:(A;;FR;;;BU)\n"
    ended = subprocess.run(program, input=odd, stdout=subprocess.PIPE, check=False,
                           env={**os.environ, "PYTHONPATH": str(TOP / "python"), "PYTHONIOENCODING": "utf-8"})
    count.add(ended.stdout == b"caf\xe9: no\na\rb: no\n", f"examples/may_change.py prints {ended.stdout} for odd names")
    shown = "".join(block for block in text.split("```")[1::2] if block.startswith("\n>>> "))
    runner = doctest.DocTestRunner()
    runner.run(doctest.DocTestParser().get_doctest(shown, {}, "docs/LIBRARY.md", None, 0))
    result = runner.summarize(verbose=False)
    count.add(result.failed == 0 and result.attempted > 1, f"examples of docs/LIBRARY.md: {result}")


def random_values():
    """Strategies: SIDs, ACEs, ACLs and descriptors, of all that they may have."""
    u32 = strategies.integers(0, 2**32 - 1)
    subs = strategies.lists(u32, max_size=15)
    sids = strategies.builds(lambda authority, subs: Sid(reference.Sid(authority, tuple(subs)).to_bytes()),
                             strategies.integers(0, 2**48 - 1) | strategies.just(5), subs)
    guids = strategies.none() | strategies.uuids()
    flags = strategies.integers(0, 255).map(lambda value: value & ~0x20)
    plain = strategies.builds(lambda *fields: Ace(*fields), strategies.sampled_from([0, 1, 2, 0x11]), flags, u32, sids)
    objects = strategies.builds(Ace, strategies.sampled_from([5, 6, 7]), flags, u32, sids, guids, guids)
    acls = strategies.sampled_from([Acl.NULL, Acl.ABSENT]) | strategies.lists(plain | objects, max_size=5).map(Acl)
    return sids, strategies.builds(SecurityDescriptor, owner=strategies.none() | sids,
                                   group=strategies.none() | sids, dacl=acls, sacl=acls,
                                   control=strategies.integers(0, 0xffff), resource_manager=strategies.integers(0, 255))


def test_random(count, examples):
    """Round trips of random values: bytes, text, objects and repr; and bytes and texts that may be refused."""
    sids, descriptors = random_values()
    settings = hypothesis.settings(max_examples=examples, deadline=None, database=None, derandomize=True,
                                   suppress_health_check=list(hypothesis.HealthCheck))
    printing = reference.settings_of([b"convert"])

    @settings
    @hypothesis.given(descriptors)
    def of_descriptors(descriptor):
        assert SecurityDescriptor.from_bytes(descriptor.bytes) == descriptor == eval(repr(descriptor),
                                                                                     {**NAMES, "UUID": uuid.UUID})
        assert reference.layout(reference.read(descriptor.bytes)) == descriptor.bytes
        assert descriptor.replace() == descriptor == pickle.loads(pickle.dumps(descriptor))
        assert descriptor.sddl() == reference.sddl(reference.read(descriptor.bytes), printing)
        # What SDDL says is read again as it was printed.
        again = SecurityDescriptor.from_sddl(descriptor.sddl())
        assert again.sddl() == descriptor.sddl() and (again.owner, again.dacl) == (descriptor.owner, descriptor.dacl)
        for acl in (descriptor.dacl, descriptor.sacl):
            assert eval(repr(acl), {**NAMES, "UUID": uuid.UUID}) == acl
            for ace in acl if acl.is_list else ():
                assert Ace.from_sddl(ace.sddl()) == ace == Ace(*ace)

    @settings
    @hypothesis.given(sids, strategies.binary(max_size=80))
    def of_sids(sid, data):
        assert Sid(str(sid)) == sid == Sid(bytes(sid)) == eval(repr(sid), NAMES.copy())
        assert str(sid) == reference.sid_of_text(str(sid).encode()).text()
        found = raised(Sid, data)
        assert found is None or type(found) is sdtool.ArgumentFault

    @settings
    @hypothesis.given(descriptors, strategies.data())
    def of_damage(descriptor, choices):
        data = bytearray(descriptor.bytes)
        for _ in range(choices.draw(strategies.integers(1, 3))):
            data[choices.draw(strategies.integers(0, len(data) - 1))] = choices.draw(strategies.integers(0, 255))
        problem = raised(SecurityDescriptor.from_bytes, data)
        if problem is None:
            again = SecurityDescriptor.from_bytes(data)
            assert SecurityDescriptor.from_bytes(again.bytes) == again and again.bytes == reference.layout(
                reference.read(bytes(data)))
        else:
            assert type(problem) is sdtool.Fault, repr(problem)
            assert problem.line == str(raised(reference.read, bytes(data)))

    for test in (of_descriptors, of_sids, of_damage):
        problem = raised(test)
        count.add(problem is None, f"{test.__name__}: {problem}")


def add_options(parser):
    parser.add_argument("--examples", type=int, default=300)
    parser.add_argument(WITHOUT_EXTENSION, action="store_true", help="by ctypes alone")


def main(count: preload.Count, arguments: preload.Given) -> None:
    preload.go_on_in(preload.python_with("hypothesis") or sys.executable)
    tests = [test_rows, test_sids, test_acls, test_aces, test_names, test_building, test_values, test_tokens,
             test_questions, test_many, test_places, test_places_of_texts, test_places_of_parts,
             test_threads_and_processes, test_handlers, test_modes, test_interpreters, test_leaks, test_no_memory,
             test_long_calls_in_threads, test_once, test_examples, test_document]
    for test in filter(preload.is_chosen, tests):
        test(count)
    if hypothesis:
        test_random(count, arguments.examples)
    else:
        print("skipped: random values, since there is no hypothesis (Debian: python3-hypothesis)")
    if not arguments.without_extension:
        if "sdtool._native" not in sys.modules:
            print("skipped: the extension is not built, so this was ctypes")
        else:
            count.add_run([sys.executable, *sys.argv, WITHOUT_EXTENSION], before="without the extension: ")
