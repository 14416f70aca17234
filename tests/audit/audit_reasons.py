"""Tests which ACEs and rules sdtool-audit names as reasons, in each form of a report, and where it says that a
descriptor is wrong. Random objects are compared with the independent implementation (tests/reference), other rows were
worked out by hand. It needs what tests/audit/audit.py needs, and is skipped without it.
"""
import csv
import io
import json
import random
import re
import tomllib
import uuid

import audit
import preload
import reference
from audit import DOMAIN, EVERYONE, Place
from fault_places import acl, ace, header
from reference.access import GRANTING, PLACES, Ask, reason, reasons
from reference.sddl_reading import from_sddl, sid_of_text

ANN, BOB = f"{DOMAIN}-1001", f"{DOMAIN}-1002"
SIDS = [ANN, BOB, "S-1-5-32-544", "S-1-5-32-545", "S-1-1-0", "S-1-5-11", "S-1-3-4"]
MASKS = [0x1f01ff, 0x1200a9, 0x1301bf, 0xd0156, 0x40000, 0x80000, 0x10000, 0x20, 0x2]
RIGHTS = [0x1, 0x2, 0x4, 0x20, 0x40, 0x100, 0x10000, 0x20000, 0x40000, 0x80000]
OBJECTS, QUESTIONS = 60, 12
DCSYNC = ("1131f6aa-9c07-11d1-f79f-00c04fc2dcd2", "1131f6ad-9c07-11d1-f79f-00c04fc2dcd2")


def because(finding):
    """What a finding of a report in JSON says of it: number, text, rights, and whether it grants them."""
    return [(one["ace"], one["text"], one["rights"], one["grants"]) for one in finding.get("because", [])]


class Row:
    """A random object, whose ACEs are written as a report writes them."""

    def __init__(self, chance):
        self.aces = [f"({chance.choice('AAD')};{chance.choice(['', 'IO', 'OICI', 'ID'])};{chance.choice(MASKS):#x};;;"
                     f"{chance.choice(SIDS)})"
                     for _ in range(chance.randrange(7))]
        dacl = chance.choice(["", "D:NO_ACCESS_CONTROL", *["D:" + "".join(self.aces)] * 10])
        label = chance.choice(["", f"S:(ML;;NW;;;S-1-16-{chance.choice((4096, 12288))})"])
        self.has_label = bool(label)
        self.text = f"O:{chance.choice(SIDS[:4])}{dacl}{label}"
        self.descriptor = from_sddl(self.text.encode(), None)

    def decided(self, token, level, asked):
        """What decides about rights, as the implementation of tests/reference says it: number, text and whether it
        grants."""
        ask = Ask(tuple((sid_of_text(sid.encode()), False) for sid in token), 0, True, reference.MAPPINGS["file"], None,
                  None, False, False, level)
        found = {}
        for place, one in zip(PLACES, reasons(self.descriptor, ask)):
            if asked >> place & 1 and one.word != "nothing":
                is_ace, grants = one.word in ("granted", "denied"), one.word in GRANTING
                key = (one.place + 1, self.aces[one.place], grants) if is_ace else (
                    None, "no DACL" if one.word == "no dacl" else one.word, grants)
                found[key] = found.get(key, 0) | 1 << place
        return found


def test_random(place: Place) -> None:
    """What can says of the rights that a token gets, and of those that it doesn't get."""
    chance = random.Random(9)
    rows = [Row(chance) for _ in range(OBJECTS)]
    source = place.table([(f"object {at}", row.text) for at, row in enumerate(rows)])
    words, seen = Words("file"), set()
    for _ in range(QUESTIONS):
        token, level = chance.sample(SIDS[:6], chance.randrange(1, 4)), chance.choice((None, 4096, 8192))
        asked = sum(chance.sample(RIGHTS, chance.randrange(1, 4)))
        of_level = ["--level", str(level)] if level else []
        told = place.objects("can", ",".join(token), hex(asked), source, "--exact", "--type", "file", *of_level)
        place.expect(len(told), OBJECTS, f"objects of {token} {asked:#x}")
        for row, one in zip(rows, told):
            decided = row.decided(token, level, asked)
            is_granted = any(grants for _, _, grants in decided)
            if one["answer"] == "unknown" or not is_granted and not row.has_label and all(number is None
                                                                                          for number, _, _ in decided):
                place.expect(one["findings"], [], f"{row.text}: nothing is granted to {token} of {asked:#x}")
                continue
            rule = "can" if is_granted else "stopped"
            place.expect((one["answer"], {finding["rule"] for finding in one["findings"]}),
                         ("found" if is_granted else "nothing", {rule} if decided else set()),
                         f"{row.text}: {token} {asked:#x}")
            # What is granted is all that the row claims, what is denied is of what was asked for.
            claimed = sum(words.mask(finding["rights"]) for finding in one["findings"] if finding["rule"] == "can")
            decided = {**{key: mask for key, mask in decided.items() if not key[2]},
                       **{key: mask for key, mask in row.decided(token, level, claimed).items() if key[2]}}
            got = [why for finding in one["findings"] for why in because(finding)]
            place.expect(sorted((number or 0, text, grants) for number, text, _, grants in got),
                         sorted((number or 0, text, grants) for number, text, grants in decided),
                         f"{row.text}: {token} {level} {asked:#x}")
            seen.update((text if number is None else "ace", grants) for number, text, grants in decided)
    place.expect(seen, {("ace", True), ("ace", False), ("owner", True), ("no DACL", True), ("label", False)},
                 "kinds of reasons")


# Random objects of which every form of a report names the ACEs.
MANY = 3000
WRITE_PROPERTY, RESET = "bf9679c0-0de6-11d0-a285-00aa003049e2", "00299570-246d-11d0-a768-00aa006e0529"
GUEST, OWNER_RIGHTS = "S-1-5-32-546", "S-1-3-4"
# What a token of a SID has besides; that of a user has both.
ALSO = {"S-1-1-0": [], "S-1-5-11": ["S-1-1-0"], GUEST: ["S-1-1-0"]}
OF_OWNERS = ("owner", "no DACL", "privilege")


def rights_of(kind):
    """The names of rights and of masks of a kind, from windows/kinds.toml, and the mask of each."""
    with open(audit.TOP / "windows/kinds.toml", "rb") as file:
        given = tomllib.load(file)
    row = next(one for one in given["kind"] if one["name"] == kind)
    single = {right["name"]: right["bit"] for right in row["rights"] + given["standard"]}
    changing = sum(right["bit"] for right in row["rights"] + given["standard"] if "change" in right["does"])
    return single, {name.capitalize(): mask
                    for name, mask in row["masks"].items()} | {"every right to change": changing}


class Words:
    """Masks of the words that reports have for rights."""

    def __init__(self, kind):
        self.single, self.whole = rights_of(kind)

    def mask(self, text):
        if not text or text in self.whole:
            return self.whole.get(text, 0)
        first, _, rest = text.partition(", ")
        if first in self.whole:
            return self.whole[first] | (self.mask(rest) if rest else 0)
        return sum(self.single[one] if one in self.single else int(one, 16) for one in text.split(", "))


class Random:
    """A random object of a kind, and what the implementation of tests/reference says of it."""

    def __init__(self, chance, kind):
        self.kind = kind
        self.aces = [self.ace(chance) for _ in range(chance.randrange(1, 7))]
        self.owner = chance.choice((ANN, BOB, "S-1-5-32-544"))
        dacl = chance.choice(["", "D:NO_ACCESS_CONTROL", *["D:" + "".join(self.aces)] * 30])
        self.text = f"O:{self.owner}{dacl}"
        self.descriptor = from_sddl(self.text.encode(), None)

    def ace(self, chance):
        types = ["", "", WRITE_PROPERTY, RESET] if self.kind == "ds" else [""]
        flags = chance.choice(["", "", "ID", "CI", "CIID", "CIIO"] if self.kind == "ds"
                              else ["", "", "ID", "OICI", "OICIID", "OICIIO"])
        masks = [0xf01ff, 0x20094, 0x130, 0x20, 0x100, 0xd0020, 0x40000, 0x10000] if self.kind == "ds" else MASKS
        guid, who = chance.choice(types), chance.choice([*SIDS, GUEST])
        # Only some rights are those of an object type: MS-ADTS 5.1.3.3.
        mask = chance.choice(masks) & (0x130 if guid else 0x1ffffff) or 0x20
        return f"({'O' if guid else ''}{chance.choice('AAAD')};{flags};{mask:#x};{guid};;{who})"

    def ask(self, sid, guid="", listed=None):
        sids = listed or [sid, *ALSO.get(sid, ["S-1-1-0", "S-1-5-11"])]
        object_type = uuid.UUID(guid).bytes_le if guid else None
        return Ask(tuple((sid_of_text(one.encode()), False) for one in sids), 0, True, reference.MAPPINGS[self.kind],
                   object_type, None, False, False, None)

    def decided(self, ask, mask):
        """What decides about rights: the number and the text of an ACE, or a word, whether it grants, and about which
        rights."""
        found = {}
        for place in PLACES:
            if mask >> place & 1:
                one = reason(place, self.descriptor, ask)
                is_ace = one.word in ("granted", "denied")
                key = (one.place + 1 if is_ace else None,
                       self.aces[one.place] if is_ace else "no DACL" if one.word == "no dacl" else one.word)
                if one.word != "nothing":
                    found[(*key, one.word in GRANTING)] = found.get((*key, one.word in GRANTING), 0) | 1 << place
        return found


def numbers(decided):
    """The ACEs of a finding: those that grant, or those that deny where none grants."""
    grants = any(is_granted for _, _, is_granted in decided)
    return sorted(number for number, _, is_granted in decided if number and is_granted == grants)


def told(finding, words):
    return {(one["ace"], one["text"], one["grants"]): words.mask(one["rights"]) for one in finding.get("because", [])}


def type_of(finding):
    found = re.search("only for object type [^(]*\\(([0-9a-f-]{36})\\)|only for object type ([0-9a-f-]{36})",
                      finding["text"])
    return (found[1] or found[2]) if found else ""


def expect_reasons(place, row, finding, ask, words, what):
    """A finding of rights: each one that its row claims is granted by what the reference says, and by nothing else."""
    claimed, said = words.mask(finding["rights"]), told(finding, words)
    granted = {key: mask for key, mask in said.items() if key[2]}
    place.expect(granted, row.decided(ask, claimed), f"{what}: {finding}")
    place.expect(finding.get("aces", []), numbers(granted), f"{what}, its ACEs: {finding}")
    return claimed, {key: mask for key, mask in said.items() if not key[2]}


def expect_stopped(place, row, finding, asks, words, what):
    """A finding of what is denied: each right that its row claims, by what the reference says."""
    claimed, said = words.mask(finding["rights"]), told(finding, words)
    denied = {}
    for ask in asks:
        for key, mask in row.decided(ask, claimed).items():
            if not key[2]:
                denied[key] = denied.get(key, 0) | mask
    missing = claimed & ~sum({1 << bit for mask in said.values() for bit in range(25) if mask >> bit & 1})
    place.expect((missing, set(said) <= set(denied), bool(said)), (0, True, True), f"{what}: {finding}, {denied}")
    place.expect(finding.get("aces", []), sorted({number for number, _, _ in said if number}),
                 f"{what}, its ACEs: {finding}")


def of_who(place, rows, words, source, kind):
    """Every trustee that gets one of the rights, with the ACEs; and whom a deny stops."""
    for word, asked in (("permissions", 0x40000), ("0x130", 0x130)):
        for row, one in zip(rows, place.objects("who", word, source, "--all-trustees", "--type", kind)):
            what = f"who {word} {row.text}"
            for finding in one["findings"]:
                sid, guid = re.search("S-1(?:-[0-9]+)+", finding["trustee"])[0], type_of(finding)
                if finding["rule"] == "stopped":
                    expect_stopped(place, row, finding, [row.ask(sid, guid) for guid in ("", WRITE_PROPERTY, RESET)],
                                   words, what)
                    continue
                claimed, _ = expect_reasons(place, row, finding, row.ask(sid, guid), words, what)
                got = sum(mask for (_, _, grants), mask in row.decided(row.ask(sid, guid), asked).items() if grants)
                place.expect(bool(guid) or claimed & asked == got, True, f"{what}, all that is asked for: {finding}")


def of_can(place, rows, words, source, kind):
    """What tokens get, and what an ACE denies them."""
    for token, word, asked in (([ANN, "S-1-1-0", "S-1-5-11"], "0x60020", 0x60020), ([GUEST, BOB], "0x40120", 0x40120),
                               (["S-1-5-32-545", "S-1-5-32-544"], "0x10002", 0x10002)):
        for row, one in zip(rows, place.objects("can", ",".join(token), word, source, "--exact", "--type", kind)):
            what = f"can {token} {word} {row.text}"
            missing = {key: mask for key, mask in row.decided(row.ask("", "", token), asked).items() if not key[2]}
            for finding in one["findings"]:
                ask = row.ask("", type_of(finding), token)
                if finding["rule"] == "stopped":
                    expect_stopped(place, row, finding, [ask], words, what)
                    continue
                _, denied = expect_reasons(place, row, finding, ask, words, what)
                place.expect(denied, missing, f"{what}, what an ACE denies: {finding}")


def of_risks(place, rows, words, source, kind):
    """Each right that a finding claims is told with what grants it."""
    for row, one in zip(rows, place.objects("risks", source, "--type", kind)):
        for finding in one["findings"]:
            if finding["rule"] in ("order", "inheritance-cut", "empty-dacl"):
                continue
            what, said, sid = f"risks {row.text}", told(finding, words), re.search("S-1(?:-[0-9]+)+",
                                                                                   finding["trustee"])[0]
            is_below = "in objects below" in finding["text"] or "in what is made in it" in finding["text"]
            claimed = words.mask(finding["rights"])
            if kind == "file" and not is_below:
                expect_reasons(place, row, finding, row.ask(sid), words, what)
                continue
            # A part of a list is asked about: what it says is checked with the ACEs by themselves.
            covered = 0
            for (number, text, grants), mask in said.items():
                covered |= mask
                ace = re.fullmatch("\\((O?A);([A-Z]*);(0x[0-9a-f]+);([^;]*);[^;]*;(.*)\\)", text)
                if number is None:
                    place.expect((text in OF_OWNERS, grants), (True, True), f"{what}, a rule: {finding}")
                    continue
                whose = row.owner if ace[5] == OWNER_RIGHTS else ace[5]
                place.expect((text, grants, mask & ~int(ace[3], 16),
                              whose in (sid, *ALSO.get(sid, ["S-1-1-0", "S-1-5-11"])), ("IO" in ace[2]) <= is_below),
                             (row.aces[number - 1], True, 0, True, True), f"{what}, an ACE: {finding}")
            place.expect((claimed & ~covered, finding.get("aces", [])), (0, numbers(said)),
                         f"{what}, its rights: {finding}")


def of_forms(place, source, kind):
    """The other forms of a report have the ACEs and the rules of JSON lines."""
    for words in (("who", "permissions", source, "--all-trustees"), ("can", f"{ANN},WD", "0x60020", source),
                  ("risks", source)):
        words = (*words, "--type", kind)
        findings = [(one["name"], finding) for one in place.objects(*words) for finding in one["findings"]]
        written = list(csv.DictReader(io.StringIO(place.ask(*words, "--to", "csv").stdout)))
        place.expect([(row["name"], row["aces"]) for row in written if row["rule"]],
                     [(name, " ".join(map(str, one.get("aces", [])))) for name, one in findings],
                     f"ACEs in CSV of {words}")
        in_sarif = json.loads(place.ask(*words, "--to", "sarif", "--list", "all").stdout)["runs"][0]["results"]
        place.expect([[one["ace"] for one in result.get("properties", {}).get("because", [])] for result in in_sarif],
                     [[one["ace"] for one in finding.get("because", [])] for _, finding in findings],
                     f"ACEs in SARIF of {words}")
        for to in ("table", "markdown"):
            lines = place.ask(*words, "--each", "--most", "0", "--to", to).stdout.splitlines()
            got = sorted((re.search("object [0-9]+", line)[0], *named(where_of(line, to))) for line in lines
                         if "object " in line[:40])
            place.expect(got, sorted((name, *reasons_of(finding)) for name, finding in findings),
                         f"ACEs in {to} of {words}")


def where_of(line, to):
    """What a row of a table says of the ACEs of its finding."""
    if to == "markdown":
        return re.split(r"(?<!\\)\|", line)[4].replace("\\", "").strip()
    if line.endswith("]"):
        return line[line.rindex("[") + 1:-1]
    return (re.split("  +", line.strip()) + ["", ""])[2] if line.startswith("  ") else ""


def named(where):
    """The ACEs that grant and those that deny, and the rules that grant, as a row names them."""
    first, _, denied = where.rpartition("denied by ") if "denied by " in where else (where, "", "")
    listed = [[int(number) for one in re.findall("ACEs? ([0-9, and]+)", part) for number in re.findall("[0-9]+", one)]
              for part in (first, denied)]
    rules = sorted(one for one in first.split("; ") if one in OF_OWNERS)
    return (*(listed[::-1] if where.startswith("by ") else listed), rules)


def reasons_of(finding):
    """The same of a finding of JSON lines. The rule of a foreign owner says so itself."""
    said = finding.get("because", [])
    rules = {one["text"] for one in said if not one["ace"] and one["grants"] and finding["rule"] != "foreign-owner"}
    return (*(sorted({one["ace"] for one in said if one["ace"] and one["grants"] == grants})
              for grants in (True, False)), sorted(rules))


def test_many(place: Place) -> None:
    """The ACEs of each finding are those that the reference says, in each form, on random lists."""
    for kind, count, seed in (("file", MANY, 11), ("ds", MANY // 3, 12)):
        chance = random.Random(seed)
        rows = [Random(chance, kind) for _ in range(count)]
        source = place.table([(f"object {at}", row.text) for at, row in enumerate(rows)], f"{kind}.csv")
        words = Words(kind)
        of_who(place, rows, words, source, kind)
        of_can(place, rows, words, source, kind)
        of_risks(place, rows, words, source, kind)
        some = place.table([(f"object {at}", row.text) for at, row in enumerate(rows[:count // 10])],
                           f"{kind}, some.csv")
        of_forms(place, some, kind)


# Words of a command, descriptors, and what each finding says: its rule, trustee and because.
ALL, WRITE = f"(A;;0x1f01ff;;;{EVERYONE[EVERYONE.index('(') + 1:-1]})", "(D;;0x2;;;S-1-5-32-545)"
ROWS: list = [
    (("who", "0x2"), f"O:{ANN}D:{WRITE}{ALL}",
     [("who", EVERYONE, [(2, ALL, "write data", True)]),
      ("stopped", audit.USERS, [(1, WRITE, "write data", False)])]),
    (("who", "0x40000"), f"O:{ANN}D:(A;;FR;;;S-1-1-0)", [("who", ANN, [(None, "owner", "change permissions", True)])]),
    (("who", "0x40000"), f"O:{ANN}D:(A;;FA;;;{ANN})",
     [("who", ANN, [(1, f"(A;;0x1f01ff;;;{ANN})", "the rest", True), (None, "owner", "change permissions", True)])]),
    (("risks",), "O:BAD:(A;;0x1200a9;;;S-1-1-0)(A;;0x110116;;;S-1-5-32-545)",
     [("users-change", audit.USERS, [(1, "(A;;0x1200a9;;;S-1-1-0)", "Read and execute", True),
                                     (2, "(A;;0x110116;;;S-1-5-32-545)", "the rest of Modify", True)])]),
    (("who", "0x2"), f"O:{ANN}", [("who", EVERYONE, [(None, "no DACL", "write data", True)])]),
    (("risks",), f"O:{ANN}D:(A;;FR;;;S-1-1-0)",
     [("foreign-owner", ANN, [(None, "owner", "change permissions", True)])]),
    (("risks",), "O:BAD:(D;;0x2;;;S-1-5-7)(A;;FR;;;S-1-1-0)(A;;0x116;;;S-1-1-0)",
     [("everyone-changes", EVERYONE, [(2, "(A;;0x120089;;;S-1-1-0)", "Read", True),
                                      (3, "(A;;0x116;;;S-1-1-0)", "the rest of Read and write", True)])]),
]


def test_rows(place: Place) -> None:
    for words, text, wanted in ROWS:
        source = place.table([("one", text)])
        one, = place.objects(*words, source, "--all-trustees") if words[0] == "who" else place.objects(*words, source)
        got = [(found["rule"], found["trustee"], because(found)) for found in one["findings"]]
        place.expect([(rule, who, [(number, shown, grants) for number, shown, _, grants in why])
                      for rule, who, why in got],
                     [(rule, who, [(number, shown, grants) for number, shown, _, grants in why])
                      for rule, who, why in wanted],
                     f"{words} {text}")


def test_abilities(place: Place) -> None:
    """An ability that needs two rights together has the ACEs of both."""
    aces = [f"(OA;;0x100;{guid};;{ANN})" for guid in DCSYNC]
    source = place.table([("domain", f"O:BAD:(A;;0x94;;;S-1-5-11){''.join(aces)}")])
    wanted = [(2, aces[0], True), (3, aces[1], True)]
    for words in (("who", "dcsync"), ("risks",)):
        one, = place.objects(*words, source, "--type", "ds")
        found = [found for found in one["findings"] if "dcsync" in (found["rule"], found["rights"])]
        got = [[(number, text, grants) for number, text, _, grants in because(one)] for one in found]
        place.expect(got, [wanted], f"dcsync by {words}: {one}")


def test_forms(place: Place) -> None:
    """The same in each form of a report."""
    source = place.table([("one", f"O:{ANN}D:{WRITE}{ALL}"), ("two", f"O:{ANN}")])
    words = ("can", "S-1-5-32-545", "0x2", "0x4", source)
    told = {one["name"]: because(one["findings"][0]) for one in place.objects(*words)}
    place.expect({name: [why[:2] for why in whys] for name, whys in told.items()},
                 {"one": [(2, ALL), (1, WRITE)], "two": [(None, "no DACL")]}, "JSON")
    in_text = {name: "; ".join(f"{f'ACE {number} ' if number else ''}{text} {'' if grants else 'not '}{rights}"
                               for number, text, rights, grants in whys) for name, whys in told.items()}
    rows = list(csv.DictReader(io.StringIO(place.ask(*words, "--to", "csv").stdout)))
    place.expect({row["name"]: row["because"] for row in rows}, in_text, "CSV")
    run, = json.loads(place.ask(*words, "--to", "sarif").stdout)["runs"]
    place.expect([[(one["ace"], one["text"], one["rights"], one["grants"]) for one in result["properties"]["because"]]
                  for result in run["results"]], list(told.values()), "SARIF")
    rows = [audit.of_page("object", json.loads(line)) for line in place.ask(*words, "--to", "html").stdout.splitlines()
            if line[:1] == "["]
    place.expect({row["name"]: [(one["number"] or None, one["text"], one["rights"], one["grants"])
                                for one in row["findings"][0]["because"]]
                  for row in rows}, told, "HTML")
    stopped = place.ask("who", "0x2", source, "--all-trustees").stdout
    place.expect("[by ACE 1]" in stopped, True, f"the ACE that stops somebody, in a table: {stopped}")


def test_places(place: Place) -> None:
    """Where bytes are no descriptor: in the reason, and below it for one object."""
    wrong = header(4, dacl=20) + acl(48, 2, ace() + ace(9))
    source = place.table([("one", wrong.hex()), ("two", "D:(A;;FA;;;BA)")])
    said = "at byte 48, ACE 2 of the DACL, kind"
    for words in (("who", "change"), ("can", "WD", "change"), ("risks",), ("inherit",)):
        one = place.objects(*words, source)[0]
        place.expect(one["answer"] == "unknown" and one["reason"].endswith(f"(error 12 ace-type dacl), {said}"), True,
                     f"{words}: {one}")
    shown = place.ask("show", source, "--name", "one").stdout.splitlines()
    place.expect(said in shown[1], True, f"show: {shown}")
    digits, carets = shown[2][4:], shown[3][4:]
    at = len(carets) - 8
    place.expect((carets, digits[at:at + 8]), (" " * at + "^" * 8, "09001400"), "the digits that are wrong")
    # Objects that are unknown for one reason keep their names and places.
    other = header(4, dacl=20) + acl(28, 1, ace(9))
    source = place.table([("one", wrong.hex()), ("two", other.hex()), ("three", wrong.hex())])
    places = [("one", said), ("two", "at byte 28, ACE 1 of the DACL, kind"), ("three", said)]
    for words in (["who", "change"], ["risks"], ["risks", "--each"]):
        rows = place.ask(*words, source).stdout.splitlines()
        for name, at in places:
            found = [row for row in rows if re.match(f" *{name} ", row) and at in row]
            place.expect(len(found), 1, f"{name} of {words}: {rows}")


# Texts of SDDL, and how the reason ends.
OF_TEXTS = [
    ("O:BAG:SYD:(A;;FA;;;BA)(XA;;FR;;;WD;(@User.x >= 2))", "(error 20 shape), at byte 34, ACE 2 of the DACL, SID"),
    ("O:BAD:(A;;FA;;;BA)\xe9\u6f22", "(error 20 shape), at byte 18, the DACL"),
    ("D:PD:AI", "(error 21 part-twice), at byte 3, the DACL"),
    ("D:(A;;FA;;;ZZ)", "(error 22 alias), at byte 11, ACE 1 of the DACL, SID"),
    ("O:DAD:(A;;FA;;;BA)", "(error 23 needs-domain), at byte 2, the owner, SID"),
    ("G:S-1-5-4294967296", "(error 24 number), at byte 2, the group, SID"),
    ("D:(A;;FA;;;BA)(A;;FR;;;B\xfccher\u6f22)", "(error 25 sid-form), at byte 23, ACE 2 of the DACL, SID"),
    ("D:(A;;FA;;;\xe9)S:(AU", "(error 20 shape), at byte 19, ACE 1 of the SACL, kind"),
    ("S:PX", "(error 26 flags), at byte 2, the SACL, flags"),
    ("D:(A;;GENERIC_READ;;;WD)", "(error 27 rights), at byte 6, ACE 1 of the DACL, rights"),
    ("D:(OA;;CC;{x};;WD)", "(error 28 guid), at byte 10, ACE 1 of the DACL, object type"),
    ("D:(XA;;FR;;;WD)", "(error 29 kind), at byte 3, ACE 1 of the DACL, kind"),
    ("D:" + "(A;;;;;WD)" * 3277, "(error 30 acl-too-large dacl), at byte 32762, ACE 3277 of the DACL"),
    (" \t D:(A;;FA;;;BA)(A;;ZZ;;;WD)", "(error 27 rights), at byte 21, ACE 2 of the DACL, rights"),
    ("  D:(A;;FA;;;BA  ", "(error 20 shape), at byte 17, ACE 1 of the DACL, SID"),
]


def test_places_of_texts(place: Place) -> None:
    """The same where a text is no SDDL."""
    source = place.table([(f"object {at}", text) for at, (text, _) in enumerate(OF_TEXTS)])
    for words in (("who", "change"), ("can", "WD", "change"), ("risks",), ("inherit",)):
        told = place.objects(*words, source)
        place.expect([(one["answer"], one["reason"][one["reason"].index("(error "):]) for one in told],
                     [("unknown", said) for _, said in OF_TEXTS], f"{words}")
    _, said = OF_TEXTS[6]
    rows = list(csv.DictReader(io.StringIO(place.ask("who", "change", source, "--to", "csv").stdout)))
    place.expect([row["text"].endswith(told) for row, (_, told) in zip(rows, OF_TEXTS)], [True] * len(OF_TEXTS), "CSV")
    for form in ("sarif", "html"):
        shown = place.ask("who", "change", source, "--to", form).stdout
        place.expect([told in shown for _, told in OF_TEXTS], [True] * len(OF_TEXTS), f"{form}: {shown[:300]}")
    shown = place.ask("show", source, "--name", "object 6").stdout.splitlines()
    place.expect((f"{said}. Help:" in shown[1], shown[2:]),
                 (True, ["    " + OF_TEXTS[6][0], "    " + " " * 23 + "^" * 7]), f"show: {shown}")
    other = place.table([(f"object {at}", "D:(A;;FA;;;BA)(A;;FR;;;Ann)" if at == 6 else "D:")
                         for at in range(len(OF_TEXTS))], "other.csv")
    one = place.objects("diff", other, source)[6]
    place.expect(one["reason"].endswith(
        "the new one: a name stands where a SID belongs (error 25 sid-form), in the old one at byte 23, ACE 2 of the "
        "DACL, SID; in the new one at byte 23, ACE 2 of the DACL, SID"), True, f"both of a pair: {one}")
    one = place.objects("diff", other, source)[5]
    place.expect(one["reason"].endswith("(error 24 number), at byte 2, the group, SID"), True, f"one of a pair: {one}")
    tree = place.table([("C:\\a", OF_TEXTS[6][0]), ("C:\\a\\b", "D:AI(A;ID;FA;;;BA)")], "tree.csv")
    one = place.objects("inherit", tree)[1]
    place.expect(one["reason"].startswith("its folder can't be read: ") and one["reason"].endswith(said), True,
                 f"a folder: {one}")


def test_delete(place: Place) -> None:
    """A file goes by its own right or by its folder's right to delete what is in it, which gives nothing on a file."""
    ann = f"{audit.DOMAIN}-1105"
    own, bit, trusted = f"(A;;0x110000;;;{ann})", f"(A;;0x100040;;;{ann})", "(A;OICI;FA;;;BA)"
    rows = [("C:\\", trusted), ("C:\\Data", f"(A;;0x1000c0;;;{ann})"), ("C:\\Data\\own", own), ("C:\\Data\\child", ""),
            ("C:\\Data\\bit", bit), ("C:\\Data\\Sub", trusted), ("C:\\Data\\Sub\\bit", bit), ("C:\\Other\\none", ""),
            ("C:\\Other\\own", own), ("C:\\Bad", "(XA;;FA;;;BA;(x))"), ("C:\\Bad\\none", "")]
    by_folder = f"ACE 1 (A;;0x1000c0;;;{ann}) of C:\\Data"
    wanted = ["nothing", "delete children", "delete", by_folder, by_folder, by_folder, "nothing",
              "its folder isn't in the source", "delete", "the SDDL isn't supported", "its folder can't be read"]
    source = place.table([(name, f"O:BAG:SYD:{aces}") for name, aces in rows])
    told = place.objects("can", ann, "delete", source)
    for one, said in zip(told, wanted):
        causes = [cause["text"] if cause["text"] == by_folder else found["rights"]
                  for found in one["findings"] for cause in found["because"]]
        got = one["reason"] if one["answer"] == "unknown" else ", ".join(causes) or one["answer"]
        place.expect(got.startswith(said) and len(told) == len(rows), True, f"can delete {one['name']}: {one}")
    told = place.objects("can", ann, "delete", "-", stdin=(place.folder / source).read_bytes())
    place.expect([one["name"] for one in told if one["answer"] != "unknown"], ["C:\\Data\\own", "C:\\Other\\own"],
                 "can delete, of a pipe")


TESTS = (test_delete, test_random, test_many, test_rows, test_abilities, test_forms, test_places, test_places_of_texts)


def main(count: preload.Count) -> None:
    audit.run_tests(count, TESTS)
