"""Tests which inherited ACEs sdtool-audit reports at the object above, and what the machines of a directory make for
themselves. Its sources are LDIF, worked out by hand from MS-DTYP 2.5.3.4 and MS-ADTS 5.1.3. It needs what
tests/audit/audit.py needs, and is skipped without it.
"""
import base64
import random
import struct

import audit
import preload
from audit import DOMAIN, Place

BASE = "DC=example,DC=com"
UNIT = f"OU=Sales,{BASE}"
MALLORY, ADMINS = f"{DOMAIN}-1105", f"{DOMAIN}-512"
RESET, USER, COMPUTER = ("00299570-246d-11d0-a768-00aa006e0529", "bf967aba-0de6-11d0-a285-00aa003049e2",
                         "bf967a86-0de6-11d0-a285-00aa003049e2")
FLAGS, DESCRIPTION, TEMPLATE = ("bf967976-0de6-11d0-a285-00aa003049e2", "bf967950-0de6-11d0-a285-00aa003049e2",
                                "e5209ca2-3bba-11d2-90cc-00c04fd91ab1")
HEAD, OF_UNIT, OF_GROUP = ("top", "domain", "domainDNS"), ("top", "organizationalUnit"), ("top", "group")
OF_USER = ("top", "person", "organizationalPerson", "user")
OF_COMPUTER = (*OF_USER, "computer")
RESETS = f"(OA;CI;CR;{RESET};;{MALLORY})"
RESETS_INHERITED = RESETS.replace("CI", "CIID", 1)
DENIED = "(D;CI;CR;;;WD)"
DENIED_BELOW = DENIED.replace("CI", "CIID", 1)
WORDS = ("--domain", DOMAIN)
OF_LISTS = ("order", "inheritance-cut", "empty-dacl")


def binary(sid):
    """A SID in base64, as a directory gives it."""
    numbers = [int(one) for one in sid.split("-")[2:]]
    return base64.b64encode(struct.pack("<BB", 1, len(numbers) - 1) + numbers[0].to_bytes(6, "big") +
                            struct.pack(f"<{len(numbers) - 1}I", *numbers[1:])).decode()


def entry(name, classes, dacl, owner=ADMINS, *more):
    """An entry of LDIF. Without a DACL it has no descriptor."""
    lines = [f"dn: {name}", *(f"objectClass: {one}" for one in classes), *more]
    if dacl is not None:
        lines.append(f"nTSecurityDescriptor: O:{owner}G:{ADMINS}{dacl}")
    return "\n".join(lines) + "\n\n"


def found_in(place: Place, entries, *words, name="directory.ldif"):
    """The rules that risks finds, by object, whatever a list as a whole is like; and those of --jobs 1."""
    source = place.write(name, "".join(entries))
    told = [{one["name"]: [found["rule"] for found in one["findings"] if found["rule"] not in OF_LISTS]
             if one["answer"] != "unknown" else ["unknown"]
             for one in place.objects("risks", source, *WORDS, *words, "--jobs", jobs)}
            for jobs in ("1", "4")]
    place.expect(told[1], told[0], "four processes and one")
    return told[0]


def of(name, unit=UNIT):
    return f"CN={name},{unit}"


# What the unit has, what an object of classes below it has, and what is found at the unit and at the object.
PAIRS = [
    ("handed on", f"D:{RESETS}", OF_USER, f"D:AI{RESETS_INHERITED}", ["reset-password"], []),
    ("handed on by a protected list", f"D:P{RESETS}", OF_USER, f"D:AI{RESETS_INHERITED}", ["reset-password"], []),
    ("stale", "D:", OF_USER, f"D:AI{RESETS_INHERITED}", [], ["reset-password"]),
    ("another trustee", f"D:{RESETS.replace('1105', '1106')}", OF_USER, f"D:AI{RESETS_INHERITED}", ["reset-password"],
     ["reset-password"]),
    ("more rights", f"D:(A;CI;RP;;;{MALLORY})", OF_GROUP, f"D:AI(A;CIID;RPWD;;;{MALLORY})", [], ["takeover"]),
    ("nothing that children inherit", f"D:(OA;;CR;{RESET};;{MALLORY})", OF_USER, f"D:AI{RESETS_INHERITED}", [],
     ["reset-password"]),
    ("for the unit's files alone", f"D:(OA;OI;CR;{RESET};;{MALLORY})", OF_USER, f"D:AI{RESETS_INHERITED}", [],
     ["reset-password"]),
    ("under a protected list", f"D:{RESETS}", OF_USER, f"D:PAI{RESETS_INHERITED}", ["reset-password"],
     ["reset-password"]),
    ("what the creator got", "D:(A;CIIO;GA;;;CO)", OF_GROUP, f"D:AI(A;ID;0xf01ff;;;{MALLORY})(A;CIIOID;GA;;;CO)", [],
     ["takeover"]),
    ("what the creator's group got", "D:(A;CIIO;GA;;;CG)", OF_GROUP,
     f"D:AI(A;ID;0xf01ff;;;{MALLORY})(A;CIIOID;GA;;;CG)", [], ["takeover"]),
    ("for the creator and for a trustee", f"D:(A;CI;GA;;;{MALLORY})(A;CIIO;GA;;;CO)", OF_GROUP,
     f"D:AI(A;ID;0xf01ff;;;{MALLORY})(A;CIIOID;GA;;;{MALLORY})(A;CIIOID;GA;;;CO)", ["takeover"], []),
    ("of all levels, where the unit's is for one", f"D:{RESETS.replace('CI', 'CINP', 1)}", OF_UNIT,
     f"D:AI{RESETS_INHERITED}", ["reset-password"], ["reset-password"]),
    ("of one level", f"D:{RESETS.replace('CI', 'CINP', 1)}", OF_UNIT, f"D:AI(OA;ID;CR;{RESET};;{MALLORY})",
     ["reset-password"], []),
    ("of a class", f"D:(OA;CIIO;CR;{RESET};{USER};{MALLORY})", OF_USER, f"D:AI(OA;CIID;CR;{RESET};{USER};{MALLORY})",
     ["reset-password"], []),
    ("of another class, for what is below", f"D:(OA;CIIO;CR;{RESET};{USER};{MALLORY})", OF_UNIT,
     f"D:AI(OA;CIIOID;CR;{RESET};{USER};{MALLORY})", ["reset-password"], []),
    ("of another class, for the object", f"D:(OA;CIIO;CR;{RESET};{COMPUTER};{MALLORY})", OF_USER,
     f"D:AI(OA;CIID;CR;{RESET};{COMPUTER};{MALLORY})", ["reset-password"], ["reset-password"]),
    ("of a unit without a list", "D:NO_ACCESS_CONTROL", OF_USER, f"D:AI{RESETS_INHERITED}", ["null-dacl"],
     ["reset-password"]),
    ("of a unit that can't be read", None, OF_USER, f"D:AI{RESETS_INHERITED}", ["unknown"], ["reset-password"]),
    ("of a unit that isn't supported", "D:(XA;;FR;;;WD;(a == 1))", OF_USER, f"D:AI{RESETS_INHERITED}", ["unknown"],
     ["reset-password"]),
    ("that counts nowhere", "D:", OF_USER, f"D:AI(OA;IOID;CR;{RESET};;{MALLORY})", [], []),
    ("not inherited", f"D:{RESETS}", OF_USER, f"D:{RESETS}", ["reset-password"], ["reset-password"]),
    ("denied by the unit before", f"D:{DENIED}{RESETS}", OF_USER, f"D:AI{DENIED_BELOW}{RESETS_INHERITED}", [], []),
    ("without the deny of the unit", f"D:{DENIED}{RESETS}", OF_USER, f"D:AI{RESETS_INHERITED}", [],
     ["reset-password"]),
    ("before the deny of the unit", f"D:{DENIED}{RESETS}", OF_USER, f"D:AI{RESETS_INHERITED}{DENIED_BELOW}", [],
     ["reset-password"]),
    ("with less of the deny of the unit", f"D:{DENIED}{RESETS}", OF_USER,
     f"D:AI{DENIED_BELOW.replace('CI', 'CIIO', 1)}{RESETS_INHERITED}", [], ["reset-password"]),
    ("without a deny of the unit that comes behind", f"D:{RESETS}{DENIED}", OF_USER, f"D:AI{RESETS_INHERITED}",
     ["reset-password"], []),
    ("with a deny of its own", f"D:{RESETS}", OF_USER, f"D:AI(D;;CR;;;{MALLORY}){RESETS_INHERITED}", ["reset-password"],
     []),
]


def test_pairs(place: Place) -> None:
    """An inherited ACE is left to the object above only where that hands it on, in either order of the source."""
    for what, of_unit, classes, dacl, at_unit, at_object in PAIRS:
        entries = [entry(BASE, HEAD, "D:"), entry(UNIT, OF_UNIT, of_unit), entry(of("One"), classes, dacl)]
        for order in (entries, entries[::-1]):
            got = found_in(place, order)
            place.expect((got[UNIT][:1], got[of("One")][:1]), (at_unit, at_object), f"{what}: {of_unit}, {dacl}")


def test_templates(place: Place) -> None:
    """A property of a template is told at the template too, since what hands it on may not know its class."""
    above = f"CN=Certificate Templates,CN=Public Key Services,CN=Services,CN=Configuration,{BASE}"
    for of_class, at_container in (("", []), (TEMPLATE, ["template-edit"])):
        aces = f"(OA;CI;WP;{FLAGS};{of_class};{MALLORY})"
        got = found_in(place, [entry(above, ("top", "container"), f"D:{aces}"),
                               entry(f"CN=User,{above}", ("top", "pKICertificateTemplate"),
                                     f"D:AI{aces.replace('CI', 'CIID', 1)}")])
        place.expect((got[above], got[f"CN=User,{above}"]), (at_container, ["template-edit"]),
                     f"a template's property for class {of_class!r}")


def test_types_below(place: Place) -> None:
    """What objects below inherit for another object type than what is found here is told too."""
    for right, types, rule in (("WP", (FLAGS, DESCRIPTION), "everyone-changes"),
                               ("CR", (f"{RESET[:-1]}1", f"{RESET[:-1]}2"), "unknown-type")):
        who = "WD" if rule == "everyone-changes" else MALLORY
        source = place.write("types.ldif", entry(UNIT, OF_COMPUTER, f"D:(OA;;{right};{types[0]};;{who})"
                                                 f"(OA;CIIO;{right};{types[1]};;{who})"))
        told, = place.objects("risks", source, *WORDS)
        place.expect([(found["rule"], [one in found["text"] for one in types], "in objects below" in found["text"])
                      for found in told["findings"]], [(rule, [True, False], False), (rule, [False, True], True)],
                     f"{right} here and below")


def test_owners(place: Place) -> None:
    """What the creator got is its own, whoever the owner is."""
    dacl = f"D:AI(A;ID;0xf01ff;;;{MALLORY})(A;CIIOID;GA;;;CO)"
    for owner, wanted in ((ADMINS, ["takeover"]), (MALLORY, ["foreign-owner", "takeover"])):
        got = found_in(place, [entry(UNIT, OF_UNIT, "D:(A;CIIO;GA;;;CO)"), entry(of("Team"), OF_GROUP, dacl, owner)])
        place.expect(got[of("Team")], wanted, f"a group of {owner}")
    for owner, wanted in ((ADMINS, []), (MALLORY, ["takeover"])):
        got = found_in(place, [entry(UNIT, OF_UNIT, "D:(A;CI;RPWO;;;OW)"),
                               entry(of("Team"), OF_GROUP, "D:AI(A;CIID;RPWO;;;OW)", owner)])
        place.expect(got[of("Team")], wanted, f"what stands for the owner {owner}")
    told = place.told("who", "permissions", place.write("who.ldif", entry(of("Team"), OF_GROUP, dacl)))
    place.expect(told[of("Team")][0], "found", "who permissions of the same group")


def test_levels(place: Place) -> None:
    """Of several levels an ACE is found where it is set, or where no object above hands it on."""
    inner, one = f"OU=Inner,{UNIT}", of("One", f"OU=Inner,{UNIT}")
    handed = [entry(UNIT, OF_UNIT, f"D:AI{RESETS_INHERITED}"), entry(inner, OF_UNIT, f"D:AI{RESETS_INHERITED}"),
              entry(one, OF_USER, f"D:AI{RESETS_INHERITED}")]
    got = found_in(place, [entry(BASE, HEAD, f"D:{RESETS}"), *handed])
    place.expect(got, {BASE: ["reset-password"], UNIT: [], inner: [], one: []}, "set at the head")
    got = found_in(place, [entry(BASE, HEAD, "D:"), *handed])
    place.expect(got, {BASE: [], UNIT: ["reset-password"], inner: [], one: []}, "a unit that has kept it")
    got = found_in(place, handed[1:])
    place.expect(got, {inner: ["reset-password"], one: []}, "without what is above")
    # Names of a directory don't tell upper from lower case, and may have a blank behind the comma.
    got = found_in(place, [entry(BASE.lower(), HEAD, f"D:{RESETS}"), *handed])
    place.expect((got[BASE.lower()], got[UNIT]), (["reset-password"], []), "names in lower case")


def test_unknown_above(place: Place) -> None:
    """What an object hands on is told of those below where nothing is told of the object itself."""
    granted, one = "(A;CI;GA;;;WD)", entry(of("One"), OF_USER, "D:AI(A;CIID;GA;;;WD)")
    pairs = "".join(f"(OA;;CC;12345678-0000-4000-8000-{at:012x};;{DOMAIN}-{2000 + at})"
                    f"(OA;;RP;12345678-0000-4000-8000-{at:012x};;WD)" for at in range(300))
    for dacl, wanted in ((granted, (["everyone-changes"], [])), (granted + pairs, (["unknown"], ["everyone-changes"]))):
        got = found_in(place, [entry(UNIT, OF_UNIT, f"D:{dacl}"), one])
        place.expect((got[UNIT], got[of("One")]), wanted, f"a unit with {dacl.count('(')} ACEs")


def test_twice(place: Place) -> None:
    """An object that a source has twice hands on what is certain: nothing, if its descriptors differ."""
    one = entry(of("One"), OF_USER, f"D:AI{RESETS_INHERITED}")
    units = [entry(UNIT, OF_UNIT, f"D:{RESETS}"), entry(UNIT, OF_UNIT, "D:")]
    place.expect(found_in(place, [units[0], units[0], one])[of("One")], [], "the same descriptor twice")
    place.expect(found_in(place, [*units, one])[of("One")], ["reset-password"], "two descriptors")
    first, second = place.write("first.ldif", units[0]), place.write("second.ldif", one)
    told = {one["name"]: [found["rule"] for found in one["findings"]]
            for one in place.objects("risks", second, first, *WORDS)}
    place.expect(told, {of("One"): [], UNIT: ["reset-password"]}, "an object and its unit in two sources")
    told = place.objects("risks", "-", *WORDS, stdin=(units[0] + one).encode())
    place.expect([one["answer"] for one in told], ["found", "found"], "standard input, which can be read once")


def differences(got, wanted):
    """The first objects that have other findings than they should."""
    return [(name, got.get(name), wanted.get(name, [])) for name in sorted({*got, *wanted})
            if got.get(name) != wanted.get(name, [])][:5]


def test_many(place: Place) -> None:
    """A large directory, in any order, by one process and by several, and from a database: the same few are found."""
    chance = random.Random(5)
    units = [f"OU=U{at},{BASE}" for at in range(40)]
    rows = [entry(BASE, HEAD, "D:"), *(entry(name, OF_UNIT, f"D:{RESETS}(A;CIIO;GA;;;CO)" if at % 2 else "D:")
                                       for at, name in enumerate(units))]
    wanted = {name: ["reset-password"] for name in units[1::2]}
    for at in range(6000):
        unit = chance.randrange(40)
        name = of(f"User {at}", units[unit])
        is_kept = chance.random() < 0.02
        rows.append(entry(name, OF_USER, "D:AI(A;ID;0xf01ff;;;"
                          f"{ADMINS}){RESETS_INHERITED if unit % 2 or is_kept else ''}", f"{DOMAIN}-500"))
        if is_kept and not unit % 2:
            wanted[name] = ["reset-password"]
    chance.shuffle(rows)
    got = found_in(place, rows)
    place.expect(differences(got, wanted), [], "a large directory")
    place.ask("risks", "directory.ldif", *WORDS, "--into", "kept.db", may_write="kept.db")
    told = {one["name"]: [found["rule"] for found in one["findings"] if found["rule"] not in OF_LISTS]
            for one in place.objects("risks", "kept.db", *WORDS)}
    place.expect((len(told), differences(told, wanted)), (len(rows), []), "a database of it")


PC, OTHER, LONG = f"{DOMAIN}-2001", f"{DOMAIN}-2002", f"{DOMAIN}-2003"
ZONE, REVERSE = (f"DC={zone},CN=MicrosoftDNS,DC=DomainDnsZones,{BASE}"
                 for zone in ("example.com", "2.1.10.in-addr.arpa"))
FULL = "RPWPCRCCDCLCLORCWOWDSDDTSW"


def machine(name, sid):
    return entry(f"CN={name},CN=Computers,{BASE}", OF_COMPUTER, "D:", ADMINS, f"objectSid:: {binary(sid)}",
                 f"sAMAccountName: {name[:15]}$")


def own(name, classes, sid):
    """An object that belongs to an account, which has full control of it."""
    return entry(name, classes, f"D:(A;;{FULL};;;{sid})", sid)


def test_machines(place: Place) -> None:
    """What is below a machine's own object, and its records of DNS, may belong to it, and to nobody else."""
    of_pc, of_record, of_key = f"CN=PC1,CN=Computers,{BASE}", ("top", "dnsNode"), ("top", "msFVE-RecoveryInformation")
    of_point = ("top", "leaf", "connectionPoint", "serviceConnectionPoint")
    both = ["foreign-owner", "takeover"]
    rows = [
        (f"CN=2026,{of_pc}", of_key, PC, []), (f"CN=2027,{of_pc}", of_key, MALLORY, both),
        (f"CN=2028,{of_pc}", of_key, OTHER, both),
        (f"CN=Point,CN=Inner,{of_pc}", of_point, PC, []), (f"CN=Point,{UNIT}", of_point, PC, both),
        (f"DC=pc1,{ZONE}", of_record, PC, []), (f"DC=PC1.sub,{ZONE}", of_record, PC, []),
        (f"DC=pc1,{UNIT}", OF_USER, PC, both),
        (f"DC=pc10,{ZONE}", of_record, PC, both), (f"DC=wpad,{ZONE}", of_record, PC, both),
        (f"DC=pc2,{ZONE}", of_record, PC, both),
        (f"DC=pc2,{ZONE}9", of_record, MALLORY, both), (f"DC=longer-than-all-others,{ZONE}", of_record, LONG, []),
        (f"DC=7,{REVERSE}", of_record, PC, []), (f"DC=8,{REVERSE}", of_record, MALLORY, both),
        (of_pc.replace("PC1", "PC3"), OF_COMPUTER, PC, both),
    ]
    machines = [machine("PC1", PC), machine("PC2", OTHER), machine("longer-than-all-others", LONG)]
    objects = [own(name, classes, sid) for name, classes, sid, _ in rows]
    for entries in ([*machines, *objects], [*objects, *machines]):
        got = found_in(place, entries)
        place.expect({name: got[name] for name, *_ in rows}, {name: rules for name, _, _, rules in rows},
                     "what machines made")
    # Without the SIDs of machines nobody knows whose these are.
    got = found_in(place, objects)
    place.expect({name: got[name] for name, *_ in rows}, {name: both for name, *_ in rows},
                 "what nobody knows to be a machine's")


TESTS = (test_pairs, test_templates, test_types_below, test_owners, test_levels, test_unknown_above, test_twice,
         test_many, test_machines)


def main(count: preload.Count) -> None:
    audit.run_tests(count, TESTS)
