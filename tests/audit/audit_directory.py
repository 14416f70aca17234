"""Tests sdtool-audit on exports of a directory. What is tested: descriptors in other attributes, the domain and the
names that a source says itself, classes in tables, whose accounts Windows' own ACEs are for, and objects whose kind
nothing tells. Answers were worked out by hand, from MS-ADTS, MS-SFU, MS-CRTD and what Windows' tools print. It needs
what tests/audit/audit.py needs, and is skipped without it.
"""
import base64
import json
import re
import struct

import audit
import preload
from audit import DOMAIN, EVERYONE, Place

ANN, ROOT = f"{DOMAIN}-1105", "S-1-5-21-7-7-7"
EVERY_RIGHT = 0xf01ff
ACTING, GMSA, TEMPLATE_ACCESS = ("msDS-AllowedToActOnBehalfOfOtherIdentity", "msDS-GroupMSAMembership",
                                 "pKIEnrollmentAccess")
USER = "bf967aba-0de6-11d0-a285-00aa003049e2"
SYNC = ("1131f6aa-9c07-11d1-f79f-00c04fc2dcd2", "1131f6ad-9c07-11d1-f79f-00c04fc2dcd2")
# What sc sdshow prints of a service of a fresh Windows.
SERVICE = ("D:(A;;CCLCSWRPWPDTLOCRRC;;;SY)(A;;CCDCLCSWRPWPDTLOCRSDRCWDWO;;;BA)(A;;CCLCSWLOCRRC;;;IU)(A;;"
           "CCLCSWLOCRRC;;;SU)")


def sid(text: str) -> bytes:
    authority, *numbers = map(int, text.split("-")[2:])
    return struct.pack(">BBHI", 1, len(numbers), 0, authority) + struct.pack(f"<{len(numbers)}I", *numbers)


def in_base64(*aces) -> str:
    """A descriptor in base64 whose owner is Administrators: aces are masks and SIDs."""
    body = b"".join(struct.pack("<BBHI", 0, 0, 8 + len(one), mask) + one
                    for mask, one in ((mask, sid(who)) for mask, who in aces))
    owner = sid("S-1-5-32-544")
    data = struct.pack("<BBHIIII", 1, 0, 0x8004, 20, 0, 0, 20 + len(owner)) + owner
    return base64.b64encode(data + struct.pack("<BBHHH", 2, 0, 8 + len(body), len(aces), 0) + body).decode()


OWN = in_base64((EVERY_RIGHT, "S-1-5-32-544"))


def entry(name: str, *lines: str) -> str:
    return "\n".join((f"dn: {name}", *lines)) + "\n\n"


def test_attributes(place: Place) -> None:
    """Each attribute that is a descriptor is an object of its own: what its one right lets somebody do, and nothing
    else."""
    place.write("attributes.ldif", entry(
        "CN=SRV,DC=x", "objectClass: computer", f"nTSecurityDescriptor:: {OWN}",
        f"{ACTING}:: {in_base64((EVERY_RIGHT, ANN), (EVERY_RIGHT, f'{DOMAIN}-512'))}") + entry(
        "CN=Web,DC=x", f"nTSecurityDescriptor:: {OWN}",
            f"{GMSA.lower()}:: {in_base64((0x10, ANN), (0x20, 'S-1-1-0'))}") + entry(
        "CN=Lost,DC=x", f"{ACTING}:: {in_base64((0x100, 'S-1-1-0'))}") + entry(
        "CN=User,DC=x", f"nTSecurityDescriptor:: {OWN}", f"{TEMPLATE_ACCESS}:: {OWN}", f"{TEMPLATE_ACCESS}:: {OWN}",
        f"msExchMailboxSecurityDescriptor:: {OWN}", "objectSid:: AQUAAAAAAAUVAAAAAQAAAAIAAAADAAAA6QMAAA=="))
    place.expect(place.told("risks", "attributes.ldif"), {
        "CN=SRV,DC=x": ("nothing",), f"CN=SRV,DC=x: {ACTING}": ("found", ("acts-for-others", ANN, "Act for others")),
        "CN=Web,DC=x": ("nothing",), f"CN=Web,DC=x: {GMSA.lower()}": ("found",
                                                                      ("reads-password", ANN, "Read the password")),
        "CN=Lost,DC=x": ("unknown",),
        f"CN=Lost,DC=x: {ACTING}": ("found", ("acts-for-others", EVERYONE, "Act for others")),
        "CN=User,DC=x": ("nothing",), f"CN=User,DC=x: {TEMPLATE_ACCESS} (1)": ("unknown",),
        f"CN=User,DC=x: {TEMPLATE_ACCESS} (2)": ("unknown",),
        "CN=User,DC=x: msExchMailboxSecurityDescriptor": ("unknown",)},
        "descriptors in attributes")
    found = place.objects("risks", "attributes.ldif", "--fail-on", "high")
    place.expect({finding["severity"] for one in found for finding in one["findings"]}, {"high"},
                 "severity of attributes")
    place.expect(place.told("who", "delete", "attributes.ldif")[f"CN=SRV,DC=x: {ACTING}"], ("nothing",),
                 "a right that an attribute lacks")
    place.expect(place.told("who", "dcsync", "attributes.ldif")[f"CN=SRV,DC=x: {ACTING}"], ("nothing",),
                 "an ability and an attribute")
    place.expect(place.told("can", ANN, "read", "attributes.ldif")[f"CN=Web,DC=x: {GMSA.lower()}"],
                 ("found", ("can", "", "Read the password")), "can read a password")
    # What ldbsearch prints of one, with an owner who gets nothing by that.
    place.write("text.ldif", entry("CN=SRV,DC=x", "nTSecurityDescriptor: O:BAD:(A;;GA;;;BA)",
                                   f"{ACTING}: O:{ANN}D:(A;;WDWO;;;{ANN})"))
    place.expect(place.told("risks", "text.ldif"),
                 {"CN=SRV,DC=x": ("nothing",), f"CN=SRV,DC=x: {ACTING}": ("nothing",)},
                 "rights that mean nothing in an attribute")
    place.write("damaged.ldif", entry("CN=SRV,DC=x", f"nTSecurityDescriptor:: {OWN}", f"{ACTING}:: AQAEgA=="))
    place.expect(place.told("risks", "damaged.ldif")[f"CN=SRV,DC=x: {ACTING}"], ("unknown",), "a damaged attribute")
    place.expect(list(place.told("risks", "attributes.ldif", "--descriptor-column", ACTING)),
                 ["CN=SRV,DC=x", "CN=Web,DC=x", "CN=Lost,DC=x", "CN=User,DC=x"], "an attribute that words name")


def of_domain(domain: str, base: str) -> str:
    """A domain as ldbsearch prints it, with aliases."""
    return (entry(base, "objectClass: domainDNS", f"objectSid: {domain}", "name: x",
                  "nTSecurityDescriptor: O:DAG:DAD:(A;;RPLC;;;DU)") +
            entry(f"CN=Ann,{base}", "objectClass: user", f"objectSid: {domain}-1105", "sAMAccountName: ann",
                  "nTSecurityDescriptor: "
                  f"O:DAG:DAD:(A;;GA;;;DA)(OA;;CR;00299570-246d-11d0-a768-00aa006e0529;;{domain}-1106)") +
            entry(f"CN=Bob,{base}", "objectClass: user", f"objectSid: {domain}-1106", "sAMAccountName: bob",
                  "nTSecurityDescriptor: O:DAG:DAD:(A;;GA;;;DA)") +
            entry(f"CN=S-1-5-11,{base}", "objectSid: S-1-5-11", "cn: S-1-5-11",
                  "nTSecurityDescriptor: O:DAD:(A;;GA;;;AU)"))


def test_domain_of_the_source(place: Place) -> None:
    """An LDIF says its domain and the names of SIDs itself; words win, and two domains leave aliases unknown."""
    place.write("one.ldif", of_domain(DOMAIN, "DC=x"))
    wanted = {"DC=x": ("nothing",),
              "CN=Ann,DC=x": ("found", ("reset-password", f"bob ({DOMAIN}-1106)", "extended right")),
              "CN=Bob,DC=x": ("nothing",), "CN=S-1-5-11,DC=x": ("found", ("users-change", audit.SIGNED_IN,
                                                                          "every right to change"))}
    told = {name: (answer, *(one for one in found if one[0] != "write-properties"))
            for name, (answer, *found) in place.told("risks", "one.ldif").items()}
    place.expect(told, wanted, "the domain and the names of a source")
    ended = place.ask("risks", "one.ldif")
    place.expect([("the domain is " + DOMAIN + ", as one.ldif says" in ended.stderr),
                  "names of 3 SIDs" in ended.stderr], [True, True],
                 f"a source's own domain is said: {ended}")
    for to in ("csv", "jsonl", "sarif", "markdown"):
        text = place.ask("risks", "one.ldif", "--to", to).stdout
        place.expect([text.count(f"the domain is {DOMAIN}, as one.ldif says"), text.count("names of 3 SIDs")], [1, 1],
                     f"a source's own domain in {to}: {text}")
    without_domain = "".join(line for line in ended.stdout.splitlines(True)
                             if not line.startswith("the domain is " + DOMAIN))
    place.expect((place.ask("risks", "one.ldif", "--domain", DOMAIN).stdout, without_domain != ended.stdout),
                 (without_domain, True), "the domain by words and by the source")
    other = place.ask("show", "one.ldif", "--domain", ROOT)
    place.expect(("the domain is" in other.stderr, f"{ROOT}-512" in other.stdout), (False, True),
                 f"--domain wins: {other}")
    place.write("names.csv", f"SID,Name\n{DOMAIN}-1106,Robert\n")
    place.expect(f"Robert ({DOMAIN}-1106)" in place.ask("risks", "one.ldif", "--sid-names", "names.csv").stdout, True,
                 "--sid-names win")
    for words in (("who", "change"), ("can", ANN, "change"), ("inherit",), ("show",)):
        place.expect("the domain is" in place.ask(*words, "one.ldif").stderr, True,
                     f"the domain of a source, {words[0]}")
    place.expect(any("unknown" in one for one in place.told("who", "change", "one.ldif").values()), False,
                 "who, with aliases")
    place.write("two.ldif", of_domain(DOMAIN, "DC=x") + of_domain(ROOT, "DC=y"))
    two = place.ask("risks", "two.ldif")
    place.expect((two.status, "the heads of 2 domains" in two.stderr, "8 objects: 8 unknown" in two.stdout),
                 (3, True, True), f"two domains in a source: {two}")
    place.write("y.ldif", of_domain(ROOT, "DC=y"))
    place.expect("the heads of 2 domains" in place.ask("risks", "one.ldif", "y.ldif").stderr, True,
                 "two sources of two domains")
    place.write("broken.ldif", of_domain(DOMAIN, "DC=x") + "dn: CN=Broken,DC=x\nobjectSid:: AQ==\n\n")
    broken = place.ask("risks", "broken.ldif")
    place.expect((broken.status, "5 objects:" in broken.stdout), (3, True), f"a SID that can't be read: {broken}")


def test_classes_of_tables(place: Place) -> None:
    """A table of Get-ADObject keeps the classes, so that its objects have the answers that an LDIF of them has."""
    both = f"(OA;;CR;{SYNC[0]};;{ANN})(OA;;CR;{SYNC[1]};;{ANN})"
    rows = [("DC=x,DC=y", "domainDNS", "top;domain;domainDNS", "O:BAD:" + both),
            ("CN=Ann,DC=x,DC=y", "user", "{top, person, user}", "O:BAD:" + both),
            ("OU=Staff,DC=x,DC=y", "organizationalUnit", "top organizationalUnit",
             "O:BAD:(A;;RPWPCRCCDCLCLORCWOWDSDDTSW;;;AO)"),
            ("CN=Team,DC=x,DC=y", "group", "top|group", "O:BAD:(A;;RPWPCRCCDCLCLORCWOWDSDDTSW;;;AO)"),
            ("CN=PC,DC=x,DC=y", "computer", "top,person,organizationalPerson,user,computer",
             f"O:BAD:(OA;;CC;{USER};;{ANN})")]
    place.write("same.ldif", "".join(
        entry(name, *(f"objectClass: {one}" for one in re.findall(r"[^{},;| ]+", listed)),
              f"nTSecurityDescriptor: {text}")
        for name, _, listed, text in rows))
    wanted = place.told("risks", "same.ldif")
    place.expect([name for name, (answer, *_) in wanted.items() if answer == "found"],
                 ["DC=x,DC=y", "OU=Staff,DC=x,DC=y", "CN=PC,DC=x,DC=y"], "objects of an LDIF")
    for at, titles in ((1, ("DistinguishedName", "Name", "ObjectClass", "Sddl")),
                       (2, ("ObjectClass", "nTSecurityDescriptor", "DN", "x"))):
        lines = [dict(zip(("DistinguishedName", "DN", "ObjectClass", "Sddl", "nTSecurityDescriptor"),
                          (row[0], row[0], row[at], row[3], row[3])))
                 for row in rows]
        table = place.table([[line.get(title, "same") for title in titles] for line in lines], "objects.csv", titles)
        place.expect(place.told("risks", table), wanted, f"a table with {titles}")
        place.write("objects.json",
                    json.dumps([{title: line.get(title, "same") for title in titles} for line in lines]))
        place.expect(place.told("risks", "objects.json"), wanted, f"JSON with {titles}")
    place.write("list.json",
                json.dumps([{"DistinguishedName": name, "objectClass": listed.strip("{}").replace(",", " ").replace(
                    ";", " ").replace("|", " ").split(), "Sddl": text} for name, _, listed, text in rows]))
    place.expect(place.told("risks", "list.json"), wanted, "JSON with lists of classes")
    # Without classes the name tells a directory all the same.
    table = place.table([(row[0], row[3]) for row in rows], "names.csv", ("Name", "Sddl"))
    place.expect([answer for answer, *_ in place.told("who", "change", table).values()], ["found"] * 5,
                 "names of a directory")


def test_names_of_windows(place: Place) -> None:
    """What a source or a file of groups calls Everyone is no name of it; what --sid-names calls it is."""
    place.write("liar.ldif", entry("CN=x", "objectSid: S-1-1-0", "sAMAccountName: BUILTIN\\Administrators",
                                   "nTSecurityDescriptor: O:BAD:(A;;GA;;;WD)") +
                entry("CN=y", f"objectSid: {DOMAIN}-512", "sAMAccountName: Guests", "member: CN=z") +
                entry("CN=z", f"objectSid: {ANN}", "sAMAccountName: ann"))
    place.write("names.csv", "SID,Name\nS-1-1-0,Jeder\n")
    named = f"O:BAD:(A;;FA;;;WD)(A;;FA;;;{DOMAIN}-512)"
    source = place.table([("a", named)], "named.csv")
    for words, expected in ((("risks", "liar.ldif"), {audit.EVERYONE}),
                            (("risks", "liar.ldif", "--sid-names", "names.csv"), {"Jeder (S-1-1-0)"}),
                            (("who", "change", source, "--groups", "liar.ldif", "--all-trustees"),
                             {audit.EVERYONE, audit.ADMINISTRATORS, f"Domain Admins ({DOMAIN}-512)", f"ann ({ANN})"})):
        got = {found["trustee"] for one in place.objects(*words) for found in one["findings"]}
        place.expect(got, expected, f"names of Windows: {words}")


def test_numbers_of_domains(place: Place) -> None:
    """With --forest-root the numbers of the forest's own groups are excused under its SID, and those of each domain
    under --domain."""
    key = "5b47d60f-6090-40b2-9f37-2a4de88f3063"
    sids = [f"{domain}-{number}" for domain in (DOMAIN, ROOT) for number in (526, 527)]
    place.write("keys.ldif", "".join(entry(f"CN={one},DC=x", "objectClass: domainDNS",
                                           f"nTSecurityDescriptor: O:BAD:(OA;CI;RPWP;{key};;{one})")
                                     for one in sids))
    found = {(): [], ("--domain", DOMAIN): sids[2:], ("--domain", DOMAIN, "--forest-root", ROOT): [sids[1], sids[2]],
             ("--domain", DOMAIN, "--domain", ROOT): []}
    for words, names in found.items():
        place.expect([name[3:].partition(",")[0]
                      for name, (answer, *_) in place.told("risks", "keys.ldif", *words).items()
                      if answer == "found"], names, f"whose groups are excused: {words}")


def test_enrolling(place: Place) -> None:
    """Domain Users and Domain Computers may enroll for Windows' own templates, and for no others."""
    enroll = "0e10c968-78fb-11d2-90d4-00c04f79dc55"
    below = "CN=Certificate Templates,CN=Public Key Services,CN=Services,CN=Configuration,DC=x"
    rows = [("User", 513), ("Machine", 515), ("Machine", 513), ("Copy of User", 513), ("User", 4)]
    place.write("templates.ldif", "".join(
        entry(f"CN={name},{below}", "objectClass: top", "objectClass: pKICertificateTemplate",
              f"nTSecurityDescriptor: O:BAD:(OA;;RPWPCR;{enroll};;{f'{DOMAIN}-{number}' if number > 4 else 'IU'})")
        for name, number in rows))
    place.expect([one["answer"] for one in place.objects("risks", "templates.ldif")],
                 ["nothing", "nothing", "found", "found", "found"], "who may enroll")


def test_kinds(place: Place) -> None:
    """An object whose kind nothing tells is read as a file if its rights are those of one, and else it is unknown."""
    names = ("Spooler", "C:\\Windows\\System32\\spoolsv.exe", "W32Time")
    table = place.table([(name, SERVICE) for name in names], "services.csv")
    for words in (("risks",), ("who", "change"), ("can", ANN, "write")):
        ended = place.ask(*words, table)
        place.expect((ended.status, "3 objects: 3 unknown" in ended.stdout, "--type" in ended.stdout), (3, True, True),
                     f"services in a table: {words} {ended}")
    place.expect({one["answer"] for one in place.objects("risks", table, "--type", "service")}, {"nothing"},
                 "services by --type")
    place.expect({one["answer"] for one in place.objects("risks", table, "--type", "file")}, {"found"},
                 "files by --type")
    place.write("services.json", json.dumps([{"Name": "Spooler", "Sddl": SERVICE}]))
    place.write("services.txt", SERVICE + "\n" + SERVICE + "\n")
    place.write("service.bin", base64.b64decode(in_base64((0x2, ANN))))
    place.write("names.txt", "Spooler\nHKEY_LOCAL_MACHINE\\SOFTWARE\n")
    for name, count in (("services.json", 1), ("services.txt", 2), ("service.bin", 1)):
        place.expect([one["answer"] for one in place.objects("risks", name)], ["unknown"] * count,
                     f"the kind of {name}")
    place.expect([one["answer"] for one in place.objects("risks", "services.txt", "--object-names", "names.txt")],
                 ["unknown", "found"], "names that tell a kind")
    full, read = "O:BAG:SYD:(A;;FA;;;BA)(A;;0x2;;;WD)", "O:BAD:(A;;GR;;;WD)"
    rows = [("a", full, "found"), ("b", "O:BAD:(A;;GA;;;WD)", "found"), ("c", read, "unknown"),
            ("d", "O:BAD:", "nothing"),
            ("C:\\e", "O:BAD:(A;;GA;;;WD)", "found"), ("f", "O:BAD:(A;;FR;;;WD)", "nothing"),
            ("g", "O:BAD:(A;;0x1200;;;WD)", "unknown"),
            ("\\\\srv\\share\\h", read, "nothing"), ("HKLM:\\SOFTWARE", "O:BAD:(A;;0x2;;;WD)", "found"),
            ("/srv/i", read, "nothing"),
            ("root\\cimv2", "O:BAD:(A;;0x4;;;WD)", "found"), ("\\\\.\\pipe\\j", "O:BAD:(A;;0x2;;;WD)", "nothing")]
    told = place.told("risks", place.table([row[:2] for row in rows], "mixed.csv"), "--rules", "everyone-changes")
    place.expect({name: answer for name, (answer, *_) in told.items()}, {name: answer for name, _, answer in rows},
                 "kinds by names")
    place.expect([one["answer"] for one in place.objects("risks", place.table([("Office", "O:BAD:(A;;0x8;;;WD)")],
                                                                              "printers.csv",
                                                                              ("Name", "PermissionSDDL")))],
                 ["nothing"], "a printer by its title")


TESTS = (test_attributes, test_domain_of_the_source, test_names_of_windows, test_classes_of_tables,
         test_numbers_of_domains, test_enrolling, test_kinds)


def main(count: preload.Count) -> None:
    audit.run_tests(count, TESTS)
