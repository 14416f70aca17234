"""Tries each right that gives an ability of windows/directory.toml, by MS-ADTS 5.1.3.3: an ACE for the object type, for
its property set, for the object's class or for all of the object, with the right, with generic rights or with all
rights. Whoever has one is found by `sdtool-audit who`, by `sdtool-audit risks` with that rule alone and with all rules,
and by the page. Nobody is for an ACE of another type, one for children alone, or one that a deny comes before. Where
the class isn't known, each finding says of which classes it is. It needs what tests/audit/audit.py needs, and for the
page Node and the module that `make wasm` builds.
"""
import base64
import functools
import itertools
import json
import os
import pathlib
import re
import shutil
import subprocess
import sys
import tempfile
import tomllib
from typing import NamedTuple

import audit
import preload

TOP = pathlib.Path(__file__).resolve().parents[2]
os.environ["SDTOOL_LIBRARY"] = preload.LIBRARY
sys.path.insert(0, str(TOP / "python"))

SCRIPT = pathlib.Path(__file__).resolve().with_suffix(".mjs")
PAGE_LIBRARY = TOP / "out/systems/wasm/sdtool.mjs"
SECONDS = 1200
SEVERITIES = ("note", "low", "medium", "high")
LEVELS = {"danger": "high", "caution": "medium", "note": "note"}  # what the page calls them
SOMEBODY, OTHER = "S-1-5-21-1-2-3-1105", "S-1-5-21-1-2-3-1106"
EVERYONE, SIGNED_IN = "S-1-1-0", "S-1-5-11"
# MS-ADTS 5.1.3.2: rights, and what generic rights are.
BITS = {"CC": 0x1, "DC": 0x2, "SW": 0x8, "WP": 0x20, "DT": 0x40, "CR": 0x100}
GENERIC = {"GR": 0x20094, "GW": 0x20028, "GX": 0x20004, "GA": 0xf01ff}
ELSEWHERE = "12345678-0000-4000-8000-0000000000ab"  # a type of which nothing is known
# The rules that tell of a right which contains others.
WIDER = {"takeover", "everyone-changes", "users-change", "apps-change", "foreign-owner", "all-extended-rights",
         "write-properties", "create-children"}
UNNAMED = "unknown-type"  # what stands in for names that only a schema has
TEMPLATES = "CN=Certificate Templates,CN=Public Key Services,CN=Services,CN=Configuration,DC=example,DC=com"
# A class for abilities of every class, and one for which an ability of some means nothing.
ANY_CLASS, OTHER_CLASS, TEMPLATE = "user", "dnsNode", "pKICertificateTemplate"
USER = "top,person,organizationalPerson,user"
CHAINS = {"user": USER, "computer": f"{USER},computer", "inetOrgPerson": f"{USER},inetOrgPerson",
          "msDS-GroupManagedServiceAccount": f"{USER},computer,msDS-GroupManagedServiceAccount",
          "msDS-ManagedServiceAccount": f"{USER},computer,msDS-ManagedServiceAccount",
          "msDS-DelegatedManagedServiceAccount": f"{USER},computer,msDS-DelegatedManagedServiceAccount",
          "domainDNS": "top,domain,domainDNS"}


@functools.lru_cache(None)
def table(name):
    with open(TOP / f"windows/{name}.toml", "rb") as file:
        return tomllib.load(file)


def rows_of(name):
    """The ways to an ability."""
    return [row for row in table("directory")["ability"] if row["name"] == name]


def names():
    return list(dict.fromkeys(row["name"] for row in table("directory")["ability"]))


class Given(NamedTuple):
    """ACEs for a trustee, {}, that give an ability or not."""

    aces: str
    gives: bool


KINDS = {"CR": ("right", "set", "attribute"), "WP": ("attribute", "set"), "SW": ("write",), "CC": ("class",)}


def paths_of(row):
    """The object types of an ability, each with its property set; those that only a schema knows are left out."""
    schema = table("schema")
    for name in row["types"]:
        for kind in KINDS.get(row["right"], ()):
            if name in schema[kind]:
                of_set = "" if row.get("all") else schema[kind][name].get("set", "")
                yield schema[kind][name]["guid"], schema["set"].get(of_set, {}).get("guid", of_set)
                break


def needs_schema(row):
    """Whether a way has names that only a schema has."""
    return any(name and name not in "*?" and not any(name in table("schema")[kind] for kind in KINDS[row["right"]])
               for name in row["types"])


def stands_in(name, one, is_known):
    """Whether an ACE for a type that nothing names may give what only a schema names."""
    ways = [row for row in rows_of(UNNAMED) if not is_known or one.of_class in row["on"]]
    return name != UNNAMED and any(map(needs_schema, rows_of(name))) and \
        one.given.aces in [f"(OA;;{row['right']};{ELSEWHERE};;{{}})" for row in ways]


def whole(right, of_class):
    """What has the rights of all object types."""
    named = {f"(A;;{name};;;{{}})" for name, mask in GENERIC.items() if mask & BITS[right]}
    return sorted(named | {
        f"(A;;{right};;;{{}})", "(A;;0xf01ff;;;{})", "(A;ID;GA;;;{})", f"(OA;;{right};{of_class};;{{}})",
        f"(OA;;GA;{of_class};;{{}})", f"(A;;{right};;;{{}})(D;;GA;;;{{}})", f"(D;;GA;;;{OTHER})(A;;{right};;;{{}})",
        f"(OD;;{right};{ELSEWHERE};;{{}})(A;;{right};;;{{}})", f"(D;IO;GA;;;{{}})(A;;{right};;;{{}})"})


def givens(row, of_class):
    """The ACEs that give an ability, and some that don't."""
    right, paths = row["right"], list(paths_of(row))
    yield from (Given(aces, True) for aces in whole(right, of_class))
    yield from (Given(aces, False) for aces in (
        "(A;;GR;;;{})", "(A;IO;GA;;;{})", "(D;;GA;;;{})(A;;GA;;;{})", f"(D;;{right};;;{{}})(A;;{right};;;{{}})",
        f"(OD;;{right};{of_class};;{{}})(A;;{right};;;{{}})", f"(D;;{right};;;{{}})(OA;;{right};{of_class};;{{}})"))
    if {"*", "?"} & set(row["types"]):
        yield Given(f"(OA;;{right};{ELSEWHERE};;{{}})", True)
    elif paths or needs_schema(row):
        yield Given(f"(OA;;{right};{ELSEWHERE};;{{}})", False)
    if row.get("all"):
        yield from of_several(right, [leaf for leaf, _ in paths], of_class)
        return
    if paths:
        denied = "".join(f"(OD;;{right};{leaf};;{{}})" for leaf, _ in paths)
        yield Given(f"{denied}(A;;{right};;;{{}})", "?" in row["types"])  # types without a known name are left
    for leaf, of_set in paths:
        is_left = [one for _, one in paths].count(of_set) > 1, "?" in row["types"]
        yield from of_path(right, leaf, of_set, of_class, is_left)


def of_several(right, leaves, of_class):
    """The same of object types that are needed together."""
    yield Given("".join(f"(OA;;{right};{leaf};;{{}})" for leaf in leaves), True)
    for leaf in leaves:
        yield Given(f"(OA;;{right};{leaf};;{{}})", False)
        yield Given(f"(OD;;{right};{leaf};;{{}})(A;;{right};;;{{}})", False)
        yield Given(f"(OD;;{right};{leaf};;{{}})(OA;;{right};{of_class};;{{}})", False)


def of_path(right, leaf, of_set, of_class, is_left):
    """The same of one object type. The first ACE decides that is for it, for its set, for the class or for all. is_left
    says whether other types of the set give the ability, and types of no set that is named."""
    allowed, denied = f"(OA;;{right};{leaf};;{{}})", f"(OD;;{right};{leaf};;{{}})"
    yield from (Given(aces, True) for aces in (
        allowed, f"(OA;;GA;{leaf};;{{}})", f"{allowed}(D;;GA;;;{{}})", f"{allowed}(OD;;{right};{of_class};;{{}})"))
    yield from (Given(aces, False) for aces in (
        f"(OA;;RC;{leaf};;{{}})", f"(OA;IO;{right};{leaf};;{{}})", f"(D;;{right};;;{{}}){allowed}",
        f"(OD;;{right};{of_class};;{{}}){allowed}"))
    if not of_set:
        return
    yield Given(f"(OA;;{right};{of_set};;{{}})", True)
    yield Given(f"{allowed}(OD;;{right};{of_set};;{{}})", True)
    yield Given(f"(OD;;{right};{of_set};;{{}}){allowed}", False)
    yield Given(f"{denied}(OA;;{right};{of_set};;{{}})", is_left[0])
    yield Given(f"(OD;;{right};{of_set};;{{}})(A;;{right};;;{{}})", is_left[1])


class Entry(NamedTuple):
    """An object of a directory, with ACEs for a trustee."""

    name: str
    of_class: str
    trustee: str
    given: Given

    @property
    def sddl(self):
        return f"O:BAG:BAD:{self.given.aces.replace('{}', self.trustee)}"


@functools.lru_cache(None)
def in_bytes(text):
    """A descriptor in base64, as a directory has it."""
    import sdtool
    return base64.b64encode(sdtool.from_sddl(text)).decode()


def entry_text(name, classes, sddl):
    """An object of an export of a directory."""
    named = "".join(f"objectClass: {one}\n" for one in classes)
    return f"dn: {name}\n{named}nTSecurityDescriptor:: {in_bytes(sddl)}\n\n"


def ldif(entries):
    return "".join(entry_text(one.name, CHAINS.get(one.of_class, f"top,{one.of_class}").split(","), one.sddl)
                   for one in entries)


def name_of(number, of_class):
    below = {"domainDNS": "", "pKICertificateTemplate": f",{TEMPLATES}"}.get(of_class, ",DC=example,DC=com")
    return f"{'DC' if of_class == 'domainDNS' else 'CN'}=x{number}{below}"


@functools.lru_cache(None)
def entries_of(name):
    """Objects of each class for which an ability means something, with each way to it and each trustee of a finding,
    and objects of another class."""
    found = {}
    for row in rows_of(name):
        trustees = (SIGNED_IN, EVERYONE) if row.get("only") == "everybody" else (SOMEBODY, EVERYONE, SIGNED_IN)
        for of_class in row.get("on", [ANY_CLASS]):
            guid = table("schema")["class"][of_class]["guid"]
            for given, trustee in itertools.product(givens(row, guid), trustees):
                found.setdefault((of_class, trustee, given.aces), given)
        for trustee in trustees if "on" in row else ():
            found.setdefault((OTHER_CLASS, trustee, "(A;;GA;;;{})"), Given("(A;;GA;;;{})", False))
    return [Entry(name_of(at, of_class), of_class, trustee, given)
            for at, ((of_class, trustee, _), given) in enumerate(found.items())]


def severity_of(name):
    """The least severity of an ability's ways."""
    return min((row["severity"] for row in rows_of(name)), key=SEVERITIES.index)


def sid_in(text):
    return text.rpartition("(")[2].rstrip(")")


def findings(place, *words):
    """By name, what is found of each object: rule, trustee, rights and severity."""
    found = {}
    for one in place.objects(*words):
        place.expect(one["answer"] == "unknown", False, f"{words}: {one}")
        found[one["name"]] = [(each["rule"], sid_in(each["trustee"]), each["rights"], each.get("severity", ""))
                              for each in one["findings"]]
    return found


def counted(found, is_known):
    """What is found, each once where it may be found of several classes."""
    return found if is_known else list(dict.fromkeys(found))


def judge_named(place, name, source, is_known, *words):
    """What is asked for by name is found by whatever gives it, and by nothing else. is_known: the classes are."""
    of_who = findings(place, "who", name, source, *words)
    of_risks = findings(place, "risks", source, "--rules", name, *words)
    for one in entries_of(name):
        if not is_known and not one.given.gives and "(OD;" in one.given.aces:
            continue  # what objects of this class lack those of another may have: see test_conditions
        gives = one.given.gives or not is_known and one.of_class == OTHER_CLASS
        told = [name] * gives + [UNNAMED] * stands_in(name, one, is_known)
        place.expect(counted([found[:3] for found in of_who[one.name] if found[0] == "who"], is_known),
                     [("who", one.trustee, each) for each in told], f"who {name} of {one.of_class} {words} {one.sddl}")
        place.expect(counted([found[:2] for found in of_risks[one.name]], is_known), [(name, one.trustee)] * gives,
                     f"risks --rules {name} of {one.of_class} {words} {one.sddl}")


def test_named(place):
    """Each ability by its name, of objects whose class is known and of those whose class isn't."""
    for name in names():
        judge_named(place, name, place.write(f"{name}.ldif", ldif(entries_of(name))), True)
        plain = place.table([(one.name, one.sddl) for one in entries_of(name)])
        judge_named(place, name, plain, False, "--type", "ds")


def test_design(place):
    """Who asks about everybody, also those who have an ability by design, and whom risks excuses."""
    enroll = table("schema")["right"]["Certificate-Enrollment"]["guid"]
    for aces in (f"(OA;;CR;{enroll};;{SOMEBODY})", f"(A;;CR;;;{SOMEBODY})", f"(A;;GA;;;{SOMEBODY})"):
        source = place.write("one.ldif",
                             entry_text(f"CN=x,{TEMPLATES}", ("top", "pKICertificateTemplate"), f"O:BAD:{aces}"))
        got = findings(place, "who", "enroll", source)[f"CN=x,{TEMPLATES}"]
        place.expect([found[:3] for found in got], [("who", SOMEBODY, "enroll")], f"who enroll {aces}")
        got = findings(place, "risks", source, "--rules", "enroll")[f"CN=x,{TEMPLATES}"]
        place.expect(got, [], f"risks --rules enroll {aces}")
    # Of several names each is told by itself.
    source = place.table([("u", f"O:BAD:(A;;GA;;;{SOMEBODY})")])
    asked = ["reset-password", "all-extended-rights", "dcsync", "filtered-sync"]
    got = findings(place, "who", *asked, source, "--type", "ds")["u"]
    place.expect({found[2] for found in got}, set(asked), "several names")


def test_reasons(place):
    """A finding says by what somebody has what was asked for."""
    accounts = "if this is a " + " or ".join(rows_of("reset-password")[0]["on"])
    rows = [("(A;;GA;;;WD)", f"{accounts}: set a new password, by full control", (1, "(A;;0x10000000;;;S-1-1-0)")),
            ("(A;;RC;;;WD)(A;;CR;;;WD)", f"{accounts}: set a new password, by all extended rights",
             (2, "(A;;0x100;;;S-1-1-0)"))]
    for aces, said, why in rows:
        source = place.table([("u", f"O:BAD:{aces}")], "one.csv")
        for words in (("who", "reset-password"), ("risks", "--rules", "reset-password")):
            one, = place.objects(*words, source, "--type", "ds")
            got = [(found["text"], *[(each["ace"], each["text"]) for each in found["because"]])
                   for found in one["findings"]]
            place.expect(got, [(said, why)], f"{words} {aces}")


def is_told(found, name, trustee):
    """Whether an ability of a trustee is told by itself or by what contains it, and not as slighter."""
    least = SEVERITIES.index(severity_of(name))
    return any(rule in WIDER | {name} and sid == trustee and SEVERITIES.index(severity) >= least
               for rule, sid, _, severity in found)


def test_all_rules(place):
    """With all rules each ability is told by itself, or by a right that contains it and is no less grave."""
    for name in names():
        found = findings(place, "risks", place.write(f"{name}.ldif", ldif(entries_of(name))))
        for one in entries_of(name):
            if one.given.gives:
                place.expect(is_told(found[one.name], name, one.trustee), True,
                             f"{name} of {one.of_class} {one.sddl}: {found[one.name]}")


def on_page(place, texts):
    """What the page's first view says of texts, and how long that took, or None without the page."""
    if not (shutil.which("node") and PAGE_LIBRARY.exists()):
        print(f"skipped: no Node, or no {PAGE_LIBRARY}")
        return None
    ended = subprocess.run(["node", str(SCRIPT), str(PAGE_LIBRARY)], input=json.dumps(texts),
                           capture_output=True, text=True, timeout=SECONDS)
    place.expect(ended.returncode, 0, f"the page: {ended.stderr[-2000:]}")
    return json.loads(ended.stdout) if ended.returncode == 0 else []


def test_page(place):
    """The same on the page, which finds nothing where the audit with all rules does."""
    asked = [(name, one) for name in names() for one in entries_of(name)]
    looked = on_page(place, [ldif([one]) for _, one in asked])
    if looked is None:
        return
    place.expect(len(looked), len(asked), "texts on the page")
    of_audit = {name: findings(place, "risks", place.write(f"{name}.ldif", ldif(entries_of(name)))) for name in names()}
    for (name, one), got in zip(asked, looked):
        told = [(each["rule"], each["who"], "", LEVELS[each["level"]]) for each in got["warnings"]
                if each.get("rule") and each.get("who")]
        what = f"the page, {name} of {one.of_class} {one.sddl}: {told}"
        if one.given.gives:
            place.expect(is_told(told, name, one.trustee), True, what)
        elif one.of_class != OTHER_CLASS and not of_audit[name][one.name]:
            place.expect([each for each in told if each[0] in WIDER | {name}], [], what)


def condition_in(text):
    """What the text of a finding says of classes: it is of these alone, or of all but these. None if it depends on
    none."""
    words = table("directory")["condition"]
    for word in ("only", "except"):
        found = re.match(re.escape(words[word]).replace(r"\{classes\}", "(.+?)") + "(?::|$)", text)
        if found:
            return word, frozenset(found[1].split(words["or"]))
    return None


def condition_on_page(warning):
    """The same of a warning of the page."""
    for word in ("only", "except"):
        if warning.get(f"{word}Of"):
            return word, frozenset(warning[f"{word}Of"])
    return None


def classes_in(conditions, classes):
    """Those of some classes of which something is found on any of these conditions."""
    return {one for one in classes for found in conditions
            if found is None or (one in found[1]) == (found[0] == "only")}


@functools.lru_cache(None)
def all_classes():
    """The classes that abilities and defaults name, and one more."""
    rows = [*table("directory")["ability"], *table("defaults")["default"]]
    return {OTHER_CLASS, *itertools.chain(*(row.get("on", row.get("classes", ())) for row in rows))}


@functools.lru_cache(None)
def kind_of(name):
    """A kind of objects, with what it has of another one."""
    rows = {row["name"]: row for row in table("kinds")["kind"]}
    return {**rows.get(rows[name].get("like"), {}), **rows[name]}


@functools.lru_cache(None)
def rights_in(words, kind):
    """The bits of rights in words."""
    rows = [*kind_of(kind)["rights"], *table("kinds")["standard"]]
    bits = {row["name"]: row["bit"] for row in rows}
    masks = {name[:1].upper() + name[1:]: mask for name, mask in kind_of(kind).get("masks", {}).items()}
    changing = sum(row["bit"] for row in rows if "change" in row["does"])
    named = {**bits, **masks, "every right to change": changing}
    whole = [name for name in named if words == name or words.startswith(name + ", ")]
    if not words:
        return 0
    first = max(whole, key=len, default=words.split(", ")[0])
    return (named[first] if first in named else int(first, 0)) | rights_in(words[len(first) + 2:], kind)


def by_class(told):
    """Of which classes each rule tells of each trustee, mask and ACEs, in findings of these and a condition."""
    found = {}
    for rule, who, mask, aces, condition in told:
        found.setdefault((rule, who, hex(mask), tuple(aces)), []).append(condition)
    return {key: classes_in(conditions, all_classes()) for key, conditions in found.items()}


def otherwise_on_page(findings, warnings, kind="ds"):
    """What the audit or the page says of a rule, a trustee, rights, their ACEs and classes, and the other one says
    otherwise."""
    def granted(finding):
        return functools.reduce(int.__or__, (rights_in(one["rights"], kind) for one in finding["because"]), 0)

    own = by_class((one["rule"], sid_in(one["trustee"]), granted(one), one.get("aces", []), condition_in(one["text"]))
                   for one in findings if one["trustee"])
    shown = by_class((one["rule"], one["who"], whole.get("mask", 0), whole["numbers"], condition_on_page(one))
                     for one in warnings if one.get("rule") and one.get("who") for whole in [one.get("whole", one)])
    return {key: (own.get(key), shown.get(key)) for key in own.keys() | shown.keys() if own.get(key) != shown.get(key)}


def bound_texts(name):
    """An ability's trustee, its classes and one for which it means nothing, and the ACEs of its entries."""
    rows = rows_of(name)
    trustee = SIGNED_IN if all(row.get("only") == "everybody" for row in rows) else SOMEBODY
    classes = list(dict.fromkeys([*(one for row in rows for one in row.get("on", [ANY_CLASS])), OTHER_CLASS]))
    return trustee, classes, list(dict.fromkeys(one.given.aces for one in entries_of(name) if one.trustee == trustee))


def judge_conditions(place, name):
    """What is found of an object without a class, with the classes that it depends on, is what is found of each
    class."""
    trustee, classes, texts = bound_texts(name)
    entries = [(at, Entry(name_of(f"{at}x{number}", of_class), of_class, trustee, Given(aces, True)))
               for at, aces in enumerate(texts) for number, of_class in enumerate(classes)]
    known = place.write("known.ldif", ldif([one for _, one in entries]))
    plain = place.table([(str(at), f"O:BAG:BAD:{aces.replace('{}', trustee)}") for at, aces in enumerate(texts)],
                        "plain.csv")
    for words, column in ((("who", name), 2), (("risks",), 0)):
        of_known = findings(place, *words, known)
        of_plain = {int(one["name"]): [condition_in(found["text"]) for found in one["findings"]
                                       if found[("rule", "trustee", "rights")[column]] == name]
                    for one in place.objects(*words, plain, "--type", "ds")}
        for at, aces in enumerate(texts):
            wanted = {one.of_class for number, one in entries if number == at
                      and any(found[column] == name for found in of_known[one.name])}
            place.expect(classes_in(of_plain[at], classes), wanted,
                         f"classes of {words}, {name} by {aces}: {of_plain[at]}")


def test_conditions(place):
    """Without a class each ability says of which classes it is: of those of which it is found where the class is
    known."""
    for name in names():
        judge_conditions(place, name)


def given_by_windows():
    """The ACEs that Windows gives to objects, with their classes and places."""
    guids = {name: row["guid"] for rows in table("schema").values() for name, row in rows.items()}
    for row in table("defaults")["default"]:
        if "kinds" not in row and "account" not in row:
            kind, sid = "OA" if row["object"] else "A", row.get("sid", f"S-1-5-21-1-2-3-{row.get('number')}")
            types = f"{guids.get(row['object'], '')};{guids.get(row.get('inherited'), '')}"
            yield (f"({kind};{'CI' * row.get('below', False)};{row['rights']};{types};{sid})", row.get("classes", ()),
                   row.get("at", ()))


def test_conditions_of_defaults(place):
    """What is found of an ACE that Windows gives to some classes, where no class is known, is what is found of all
    others."""
    rows, classes = [row for row in given_by_windows() if row[1]], sorted(all_classes())
    entries = [Entry(name_of(f"{at}x{number}", one), one, "", Given(aces, one not in of))
               for at, (aces, of, _) in enumerate(rows) for number, one in enumerate(classes)]
    of_known = findings(place, "risks", place.write("known.ldif", ldif(entries)))
    plain = place.objects("risks", place.table([(aces, f"O:BAG:BAD:{aces}") for aces, *_ in rows]), "--type", "ds")
    for at, ((aces, of, _), one) in enumerate(zip(rows, plain)):
        wanted, told = {}, {}
        for number, of_class in enumerate(classes):
            for rule, sid, rights, _ in of_known[name_of(f"{at}x{number}", of_class)]:
                wanted.setdefault((rule, sid, rights), set()).add(of_class)
        for each in one["findings"]:
            key = each["rule"], sid_in(each["trustee"]), each["rights"]
            told.setdefault(key, []).append(condition_in(each["text"]))
        place.expect({key: classes_in(conditions, classes) for key, conditions in told.items()}, wanted,
                     f"classes of {aces}, which Windows gives to {of}")
        place.expect([key for key, found in wanted.items() if found & set(of)], [], f"{aces} of {of}")
    place.expect(any(one["findings"] for one in plain), True, "ACEs that are found of other classes")


def test_places(place):
    """What Windows gives in a place is excused there alone, and only where the class is known: by the audit, and on
    the page."""
    above = {"CN=Policies": "CN=System,DC=example,DC=com"}
    of_templates = [aces for aces, *_ in given_by_windows() if "0e10c968-78fb-11d2-90d4-00c04f79dc55" in aces]
    entries = []
    for aces, _, at in given_by_windows():
        of_class, rest = (TEMPLATE, TEMPLATES) if aces in of_templates else ("container", "DC=example,DC=com")
        entries += [entry_text(f"{first}{more},{above.get(first, rest)}", classes, f"O:BAG:BAD:{aces}")
                    for first in at for more in ("", " 2") for classes in (("top", of_class), ())]
    looked = on_page(place, entries)
    found = {}
    told = place.objects("risks", place.write("places.ldif", "".join(entries)))
    place.expect(len(told), len(entries), "objects in places")
    for number, (entry, one) in enumerate(zip(entries, told)):
        is_there, is_known = number // 2 % 2 == 0, number % 2 == 0
        place.expect(bool(one["findings"]) and is_there and is_known, False, f"in its place: {entry} {one}")
        found[is_there, is_known] = found.get((is_there, is_known), 0) + len(one["findings"])
        if looked is not None:
            place.expect(otherwise_on_page(one["findings"], looked[number]["warnings"]), {},
                         f"in a place, by the audit and on the page: {entry}")
    place.expect([bool(count) for count in found.values()], [False, True, True, True], "what is found elsewhere")


MEMBER = "bf9679c0-0de6-11d0-a285-00aa003049e2"
FOR_MEMBERS = f"add members, only for object type member ({MEMBER})"
BY_ALL = "by full control"
ZONES = ("dnsZone or dnsZoneScope or dnsZoneScopeContainer or msWMI-StringSetParam or msWMI-IntSetParam or "
         "msWMI-UintSetParam or msWMI-MergeablePolicyTemplate or msWMI-RangeParam or msWMI-SimplePolicyTemplate")
# Questions, ACEs, and what is said of an object without a class.
SAID = [
    (("who", "dcsync"), "(A;;GA;;;{})", [f"if this is a domainDNS: replicate the passwords of the domain, {BY_ALL}"]),
    (("who", "register-replica"), "(A;;GA;;;{})", [
        f"if this is a server: register a domain controller, {BY_ALL}",
        f"if this is a serversContainer: register the server of a domain controller, {BY_ALL}"]),
    (("who", "add-member"), f"(OA;;WP;{MEMBER};;{{}})", [f"if this is a group or groupOfNames: {FOR_MEMBERS}"]),
    (("who", "write-properties"), "(A;;GA;;;{})", ["write all properties"]),
    (("risks",), f"(OA;;WP;{MEMBER};;{{}})", [f"if this is a group or groupOfNames: {FOR_MEMBERS}"]),
    (("risks",), f"(OA;CI;WP;{MEMBER};;{{}})",
     [f"unless this is a group or groupOfNames: {FOR_MEMBERS}; in objects below",
      f"if this is a group or groupOfNames: {FOR_MEMBERS}"]),
    (("risks",), "(A;;CC;;;{})", ["create objects in it"]),
    (("risks",), "(A;;CC;;;AU)", [f"unless this is a {ZONES}: create objects in it"]),
    (("risks",), "(A;;WP;;;{})", ["write all properties"]), (("risks",), "(A;;GA;;;{})", [""])]


def test_said(place):
    """The words for that; a class that is known needs none."""
    for words, aces, wanted in SAID:
        source = place.table([("x", f"O:BAG:BAD:{aces.replace('{}', SOMEBODY)}")])
        one, = place.objects(*words, source, "--type", "ds")
        place.expect((one["answer"], [found["text"] for found in one["findings"]]), ("found", wanted),
                     f"{words} {aces}")
    known = place.write("known.ldif",
                        entry_text("DC=x", ("top", "domain", "domainDNS"), f"O:BAG:BAD:(A;;GA;;;{SOMEBODY})"))
    one, = place.objects("who", "dcsync", known)
    place.expect([found["text"] for found in one["findings"]],
                 [f"replicate the passwords of the domain, {BY_ALL}"], "a class")
    # Of too many ACEs and classes it is told once that it depends on the class.
    many = "".join(f"(A;;CRWP;;;S-1-9-1-{number})" for number in range(2600))
    one, = place.objects("who", "dcsync", "reset-password", "add-member", place.table([("x", f"O:BAG:BAD:{many}")]),
                         "--type", "ds")
    place.expect({found["text"].partition(": ")[0] for found in one["findings"]},
                 {"depending on its class, which isn't known"}, "many ACEs")


def test_conditions_on_page(place):
    """Page and audit say the same of rules, trustees, rights and classes."""
    texts = list(dict.fromkeys([*(one.sddl for name in names() for one in entries_of(name)
                                  if one.given.gives and one.trustee != EVERYONE),
                                *(f"O:BAG:BAD:{aces}" for aces, *_ in given_by_windows())]))
    looked = on_page(place, [{"text": text, "kind": "ds", "isKindChosen": True} for text in texts])
    if looked is None:
        return
    of_audit = place.objects("risks", place.table([(str(at), text) for at, text in enumerate(texts)]), "--type", "ds")
    place.expect(len(looked), len(of_audit), "texts on the page")
    for text, got, one in zip(texts, looked, of_audit):
        place.expect(otherwise_on_page(one["findings"], got["warnings"]), {},
                     f"conditions of {text}, by the audit and on the page")


RESET = table("schema")["right"]["User-Force-Change-Password"]["guid"]
BESIDE = f"O:BAD:(A;;GA;;;{SOMEBODY})"
# The objects of mixed(), each with the rules that find SOMEBODY, or None where nobody knows what its rights mean.
OF_MIXED = [("CN=a,DC=x", ["add-member"]), ("CN=a,DC=x", []), ("CN=a,DC=x", ["reset-password"]), ("CN=b,DC=x", []),
            ("CN=b,DC=x: msDS-AllowedToActOnBehalfOfOtherIdentity", ["acts-for-others"]),
            ("CN=b,DC=x: msExchMailboxSecurityDescriptor", None), ("CN=User,CN=Schema,CN=Configuration,DC=x", []),
            ("CN=User,CN=Schema,CN=Configuration,DC=x: defaultSecurityDescriptor", ["reset-password"])]


def mixed():
    """Entries of one name, and attributes with descriptors of their own."""
    return (
        entry_text("CN=a,DC=x", ("top", "group"), f"O:BAG:BAD:(OA;;WP;{MEMBER};;{SOMEBODY})")
        + entry_text("CN=a,DC=x", ("top", "container"), f"O:BAG:BAD:(OA;;WP;{MEMBER};;{SOMEBODY})")
        + "dn: CN=a,DC=x\nobjectClass: user\n\n"
        + entry_text("CN=a,DC=x", (), f"O:BAG:BAD:(OA;;CR;{RESET};;{SOMEBODY})")
        + entry_text("CN=b,DC=x", CHAINS["computer"].split(","), "O:BAG:BAD:(A;;GA;;;BA)").rstrip("\n")
        + f"\nmsDS-AllowedToActOnBehalfOfOtherIdentity: {BESIDE}\n"
        f"msExchMailboxSecurityDescriptor:: {in_bytes(BESIDE)}\nhomeDrive: D:\ninfo: S:(x)\n\n"
        "dn: CN=User,CN=Schema,CN=Configuration,DC=x\nobjectClass: top\nobjectClass: classSchema\n"
        "nTSecurityDescriptor: O:BAG:BAD:(A;;GA;;;BA)\n"
        f"defaultSecurityDescriptor: D:(A;;GA;;;AO)(OA;;CR;{RESET};;{SOMEBODY})\nlDAPDisplayName: user\n\n")


def test_entries(place):
    """Each descriptor of a directory is judged by its own entry and attribute, by the audit and on the page."""
    told = [one for one in place.objects("risks", place.write("mixed.ldif", mixed()))
            if one.get("reason") != "the entry has no nTSecurityDescriptor"]
    place.expect([(one["name"], None if one["answer"] == "unknown" else [each["rule"] for each in one["findings"]])
                  for one in told], OF_MIXED, "entries")
    titles = ("DistinguishedName", "ObjectClass", "nTSecurityDescriptor", "msDS-AllowedToActOnBehalfOfOtherIdentity")
    row = ("CN=b,DC=x", "computer", "O:BAG:BAD:(A;;GA;;;BA)", BESIDE)
    members = dict(zip(titles, row))
    for source in (place.table([row], "mixed.csv", titles), place.write("mixed.json", json.dumps(members)),
                   place.write("mixed.txt", "".join(f"{one} : {text}\n" for one, text in members.items()))):
        got = [(one["name"], [each["rule"] for each in one["findings"]]) for one in place.objects("risks", source)]
        place.expect(got, OF_MIXED[3:5], f"attributes in {source}")
    looked = on_page(place, [{"text": mixed(), "chosen": at} for at in range(len(OF_MIXED))])
    for one, got in zip(told, looked or ()):
        place.expect((got["name"], got["isAsked"]), (one["name"], one["answer"] == "unknown"), "an entry on the page")
        kind = "delegation" if one["name"].endswith("OtherIdentity") else "ds"
        place.expect(otherwise_on_page(one["findings"], got["warnings"], kind), {}, f"{one['name']}, by audit and page")


def test_untold(place):
    """What may be a file or a folder is as grave on the page as in the audit: a file hands nothing on."""
    rows = [(f"C:\\x{at}", f"O:BAG:SYD:(A;{flags};0x100006;;;{SIGNED_IN})")
            for at, flags in enumerate(("", "CI", "OI"))]
    told = place.objects("risks", place.table(rows, "untold.csv", ("Path", "Sddl")))
    place.expect([each["severity"] for one in told for each in one["findings"]], ["high", "medium", "high"], "untold")
    looked = on_page(place, [f'"{name}","{text}"' for name, text in rows])
    place.expect([LEVELS[each["level"]] for got in looked or () for each in got["warnings"] if each.get("rule")],
                 ["high", "medium", "high"] if looked else [], "untold, on the page")


def run_tests(count, tests):
    """Runs the tests that are chosen."""
    python = audit.python_with_packages()
    if python is None or not os.path.exists(audit.LIBRARY):
        print(f"skipped: no Python with click and rich, or no {audit.LIBRARY}")
        return
    with tempfile.TemporaryDirectory() as folder:
        place = audit.Place(folder, python, count)
        for test in filter(preload.is_chosen, tests):
            test(place)


def main(count: preload.Count) -> None:
    run_tests(count, (test_named, test_design, test_reasons, test_all_rules, test_page, test_conditions,
                      test_conditions_of_defaults, test_places, test_said, test_conditions_on_page, test_entries,
                      test_untold))
