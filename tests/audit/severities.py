"""Tests the severities of `sdtool-audit risks`. Over the masks of windows/examples.toml what implies something is at
least as grave: more rights, a right for all object types, and the rights to change permissions or the owner and owning
an object, which contain all others. What takes over a directory object is high. Fewer rules find all that they found
among more, and nothing graver. It needs what tests/audit/audit.py needs.
"""
import itertools

import abilities
import preload
from abilities import BITS, ELSEWHERE, EVERYONE, SEVERITIES, SIGNED_IN, SOMEBODY, findings, names, table

WRITE_DAC, WRITE_OWNER = 0x40000, 0x80000
TRUSTEES = (SOMEBODY, EVERYONE, SIGNED_IN, "S-1-5-32-546", "S-1-15-2-1")  # also Guests, and all applications
# What SDDL calls rights: MS-DTYP 2.5.1.1.
SPELLED = {**BITS, "LC": 0x4, "RP": 0x10, "LO": 0x80, "SD": 0x10000, "RC": 0x20000, "WD": WRITE_DAC, "WO": WRITE_OWNER,
           "GA": 0x10000000, "GX": 0x20000000, "GW": 0x40000000, "GR": 0x80000000, "FA": 0x1f01ff, "FR": 0x120089,
           "FW": 0x120116, "FX": 0x1200a0, "KA": 0xf003f, "KR": 0x20019, "KW": 0x20006, "KX": 0x20019}
CLASSES = ("user", "computer", "group", "organizationalUnit", "domainDNS", "groupPolicyContainer",
           "pKICertificateTemplate", "container", "msDS-GroupManagedServiceAccount", "server", "serversContainer",
           "msDS-DelegatedManagedServiceAccount")
GIVEN = "given-by-windows"
# What Windows gives to whoever logs on at the machine, beside rights that it doesn't give.
MIXED = ("O:BAG:BAD:(A;;CC;;;BA)(A;;CC;;;IU)(A;;WD;;;IU)", "O:BAG:BAD:(A;;0x4001f;;;IU)(A;;CC;;;IU)",
         "O:BAG:BAD:(A;;0x4001f;;;BU)(A;;CC;;;IU)")


def kinds():
    """The kinds of objects, each with what it has of another one."""
    rows = {row["name"]: row for row in table("kinds")["kind"]}
    return [{**rows.get(row.get("like"), {}), **row} for row in rows.values()]


def meaning(mask, kind):
    """The rights that a mask means for a kind."""
    for bit, name in ((0x80000000, "read"), (0x40000000, "write"), (0x20000000, "execute"), (0x10000000, "all")):
        mask |= kind["mapping"][name] if mask & bit else 0
    mask &= 0xfffffff
    alone, meant = kind.get("alone", (0, 0))
    return mask | meant if meant and mask & meant == alone else mask


def spelled(words):
    """The mask of a field of SDDL."""
    return (int(words, 16) if words.startswith("0x")
            else sum(SPELLED[words[at:at + 2]] for at in range(0, len(words), 2)))


def masks_of(kind):
    """The masks of a kind that the examples have, and its single rights."""
    found = {1 << place for place in range(20)}
    for row in table("examples")["rows"]:
        aces = [ace.split(";") for ace in row["sddl"].split("(")[1:]] if row["kind"] == kind["name"] else []
        found |= {spelled(fields[2]) for fields in aces if fields[0] in ("A", "D", "OA", "OD")}
    return sorted({meaning(mask, kind) for mask in found} - {0})


def objects_of(masks):
    """A name and a text for each trustee and mask, and for each owner."""
    for trustee in TRUSTEES:
        yield f"{trustee} owns", f"O:{trustee}G:BAD:(A;;0x20000;;;BA)"
        yield from ((f"{trustee} {mask:#x}", f"O:BAG:BAD:(A;;{mask:#x};;;{trustee})") for mask in masks)


def gravest(found, trustee):
    """The gravest finding of a trustee, as a number."""
    return max((SEVERITIES.index(severity) for _, sid, _, severity in found if sid == trustee), default=-1)


def judge_masks(place, what, found, masks, is_owner_usual, ruling=WRITE_DAC | WRITE_OWNER):
    """Whatever implies something is at least as grave: more rights, or those to change permissions or the owner."""
    for trustee in TRUSTEES:
        of_mask = {mask: gravest(found[f"{trustee} {mask:#x}"], trustee) for mask in masks}
        wrong = [(hex(one), hex(other)) for one, other in itertools.permutations(masks, 2)
                 if of_mask[one] > of_mask[other]
                 and (one & ~other == 0 or other & ruling)]
        place.expect(wrong, [], f"{what}, {trustee}: rights that are graver than what contains them")
        if not (is_owner_usual and trustee == SOMEBODY):
            place.expect(gravest(found[f"{trustee} owns"], trustee) >= of_mask[WRITE_DAC], True,
                         f"{what}, {trustee} owns it")


def test_masks(place):
    """All pairs of masks of each kind."""
    for kind in kinds():
        masks = masks_of(kind)
        source = place.table(list(objects_of(masks)), "masks.csv")
        found = findings(place, "risks", source, "--type", kind["name"])
        # In an attribute nobody is asked for the rights to change permissions or the owner.
        ruling = 0 if "rule" in kind else WRITE_DAC | WRITE_OWNER
        judge_masks(place, kind["name"], found, masks, kind.get("owner") == "usual", ruling)


def test_folders(place):
    """Of a folder two ACEs are at least as grave as each of them, in either order."""
    flags, masks = ("", "CI", "OI", "OICI", "CIIO", "OICIIO"), ("0x2", "0x6", "0x116", "0x46", "0x1200a9")
    aces = [f"(A;{of_children};{mask};;;{sid})" for of_children, mask, sid
            in itertools.product(flags, masks, ("S-1-5-32-545", EVERYONE))]
    texts = [*aces, *map("".join, itertools.product(aces, aces))]
    found = findings(place, "risks", place.table([(text, f"O:BAG:BAD:{text}") for text in texts]), "--type", "folder")
    of_text = {text: max((SEVERITIES.index(severity) for *_, severity in found[text]), default=-1) for text in texts}
    wrong = [(one, other) for one, other in itertools.product(aces, aces)
             if of_text[one + other] < max(of_text[one], of_text[other])]
    place.expect(wrong, [], "ACEs that are graver than what contains them")
    place.expect({SEVERITIES[of_text[text]] for text in aces if of_text[text] >= 0}, {"medium", "high"}, "one ACE")


def typed_objects(types):
    """A name and a text for each trustee, right and object type."""
    return [(f"{trustee} {right} {one}", f"O:BAG:BAD:(OA;;{right};{one};;{trustee})")
            for trustee in TRUSTEES for right in BITS for one in types]


def test_classes(place):
    """The same of directory objects by class, and the rights for an object type beside those for all of them."""
    masks = masks_of(next(kind for kind in kinds() if kind["name"] == "ds"))
    rows = table("directory")["ability"]
    types = sorted({one for row in rows for path in abilities.paths_of(row) for one in path if one} | {ELSEWHERE})
    for of_class in CLASSES:
        objects = [*objects_of(masks), *typed_objects(types)]
        chain = abilities.CHAINS.get(of_class, f"top,{of_class}").split(",")
        text = "".join(abilities.entry_text(f"CN={at},CN=x", chain, sddl) for at, (_, sddl) in enumerate(objects))
        answers = findings(place, "risks", place.write("masks.ldif", text))
        found = {name: answers[f"CN={at},CN=x"] for at, (name, _) in enumerate(objects)}
        judge_masks(place, of_class, found, masks, False)
        for trustee in TRUSTEES:
            of_all = {right: gravest(found[f"{trustee} {mask:#x}"], trustee) for right, mask in BITS.items()}
            wrong = [(right, one) for right in BITS for one in types
                     if gravest(found[f"{trustee} {right} {one}"], trustee) > of_all[right]]
            place.expect(wrong, [], f"{of_class}, {trustee}: a right that is graver for one object type")
            place.expect(of_all["DC"] <= of_all["DT"], True, f"{of_class}, {trustee}: DELETE_TREE beside DELETE_CHILD")


def test_high(place):
    """What takes over a directory object is high, and makes --fail-on high end so."""
    rows = [("DC=example,DC=com", "domainDNS", f"O:BAD:(A;;WD;;;{SOMEBODY})"),
            ("DC=a,DC=b", "domainDNS", "O:BAD:(A;;GA;;;AU)"),
            ("DC=example,DC=com", "domainDNS", f"O:BAD:(A;;GA;;;{SOMEBODY})"),
            ("CN=AdminSDHolder,CN=System,DC=example,DC=com", "container", f"O:BAD:(A;;WD;;;{SOMEBODY})"),
            ("CN=Domain Admins,CN=Users,DC=example,DC=com", "group", f"O:BAD:(A;;WO;;;{SOMEBODY})"),
            ("CN=DC1,OU=Domain Controllers,DC=example,DC=com", "computer", f"O:{SOMEBODY}D:(A;;GA;;;BA)"),
            ("CN=a,CN=x", "user", f"O:BAD:(OA;;GA;{table('schema')['class']['user']['guid']};;{SOMEBODY})"),
            ("OU=x,DC=example,DC=com", "organizationalUnit", f"O:BAD:(A;CIIO;GA;;;{SOMEBODY})")]
    for name, of_class, sddl in rows:
        source = place.write("one.ldif", f"dn: {name}\nobjectClass: {of_class}\nnTSecurityDescriptor: {sddl}\n")
        one, = place.objects("risks", source)
        place.expect({found["severity"] for found in one["findings"]}, {"high"}, f"{name} {sddl}")
        for option in ("--fail-on", "--min-severity"):
            place.expect(place.ask("risks", source, option, "high").status, 1, f"{option} high, {name} {sddl}")
    # Elsewhere somebody in particular is no danger to others.
    for sddl, severity in (("O:BAD:(A;;FA;;;S-1-5-21-1-2-3-1105)", "medium"),
                           ("O:S-1-5-21-1-2-3-1105D:(A;;FA;;;BA)", "medium"),
                           ("O:BUD:(A;;FA;;;BA)", "high")):
        one, = place.objects("risks", place.table([("file", sddl)]))
        place.expect([found["severity"] for found in one["findings"]], [severity], f"a file, {sddl}")


def all_rules():
    return [row["name"] for row in table("rules")["rule"] if not row.get("off")] + names()


def judge_fewer(place, what, of_all, fewer, kept):
    """Fewer rules find all that they found among all rules, and beside it only what others told, as no graver."""
    for name, found in fewer.items():
        own = [(rule, sid, severity) for rule, sid, _, severity in of_all[name] if rule in kept]
        got = [(rule, sid, severity) for rule, sid, _, severity in found]
        place.expect([one for one in own if one not in got], [], f"{what} of {name}: lost of {of_all[name]}")
        told = max((SEVERITIES.index(severity) for *_, severity in of_all[name]), default=-1)
        place.expect([one for one in got if SEVERITIES.index(one[2]) > told], [],
                     f"{what} of {name}: graver than {of_all[name]}")
        if GIVEN in kept:
            given, wanted = ([one for one in told_of if one[0] == GIVEN] for told_of in (found, of_all[name]))
            place.expect(given, wanted, f"{what} of {name}: what Windows gives")
        is_other_told = any(rule not in kept for rule, *_ in of_all[name])
        place.expect([one for one in got if one not in own and not is_other_told], [],
                     f"{what} of {name}: new beside {of_all[name]}")


def test_fewer_rules(place):
    """One rule alone, and all but one, over the examples and what is mixed."""
    rows = [*enumerate(table("examples")["rows"])]
    sources = []
    for kind in ("file", "folder", "service", "com"):
        of_kind = [(f"{at}", row["sddl"]) for at, row in rows if row["kind"] == kind]
        of_kind += [(text, text) for text in MIXED if kind == "com"]
        sources.append((place.table(of_kind, f"{kind}.csv"), ("--type", kind), all_rules()[:-len(names())]))
    text = "".join(abilities.entry_text(f"CN={at},CN=x", row["place"].split(","), row["sddl"])
                   for at, row in rows if row["kind"] == "ds" and "place" in row)
    sources.append((place.write("ds.ldif", text), (), all_rules()))
    for source, words, rules in sources:
        of_all = findings(place, "risks", source, *words)
        for rule in rules:
            for named, kept in ((rule, {rule}), (f"-{rule}", set(all_rules()) - {rule})):
                fewer = findings(place, "risks", source, *words, "--rules", named)
                judge_fewer(place, f"--rules {named}", of_all, fewer, kept)


def main(count: preload.Count) -> None:
    abilities.run_tests(count, (test_masks, test_folders, test_classes, test_high, test_fewer_rules))
