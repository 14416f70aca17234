"""Tests of the page: what it finds in a pasted text, places of errors, warnings, names of GUIDs, another language."""
import base64
import json
import pathlib
import random
import re
import subprocess
import sys
import tempfile
import tomllib

import compare
import fault_places
import sddl_texts
from page_driver import SECONDS, TOP, Page, each_view, line_of
from reference.places import ACE_FIELDS, place_of_bytes


LANGUAGE = TOP / "tests/page/web"
NAMES_OF_WORDS = """import("%s/web/english.mjs").then(({WORDS}) => import("%s/web/german.mjs").then(
    async ({GERMAN}) => {
    const {knownGuids} = await import("%s/web/schema.mjs");
    const texts = [...Object.values(GERMAN), ...Object.values(WORDS.names), ...Object.values(WORDS.relativeNames),
        ...knownGuids().map(({name}) => name)];
    console.log(JSON.stringify([...new Set(texts.flatMap((text) => text.match(/[A-Za-z][A-Za-z-]{2,}/g) ?? []))]));
}));"""


def test_language(count, page, given):
    """With words of another language no text stays English but names: every text is one of the words."""
    module = TOP / "out/systems/wasm/sdtool.wasm"
    with tempfile.TemporaryDirectory() as folder:
        subprocess.run(["node", LANGUAGE / "translating.mjs", folder], check=True, timeout=SECONDS)
        built = pathlib.Path(folder, "sdtool.html")
        subprocess.run([sys.executable, f"{folder}/web/build.py", module, built], check=True, timeout=SECONDS,
                       stdout=subprocess.DEVNULL)
        told = subprocess.run(["node", "-e", NAMES_OF_WORDS % (folder, folder, folder)], check=True, timeout=SECONDS,
                              capture_output=True).stdout
        german = Page(page.browser, page.site, built.as_uri())
        # What the program calls its options and errors stays too.
        allowed = [*json.loads(told), *"sdtool SACL hex base sddl file key error sid-form".split()]
        for view in each_view(german):
            left = german.call("foreignWords", allowed)
            count.add(not left, f"{view}: not translated: {left[:20]}")
        german.open()
        german.do("pasteOver(given[0]); await until(isIdle);", "D:\\Data O:BAD:AI(A;OICIID;0x1301bf;;;BU)")
        said = german.do("return [document.documentElement.lang, byId('sentence').lastChild.textContent];")
        count.add(said == ["de", "Users d\u00fcrfen diesen Ordner und alles darin \u00e4ndern"], f"in German: {said}")


def test_forms(count, page, given):
    """What people have in the clipboard, and what the page says that it left out."""
    page.open()
    everyone = "O:BAG:SYD:(A;;FA;;;WD)"
    digits = line_of(given.program, ["convert", "--from", "sddl", "--to", "hex"], everyone)
    spelled = line_of(given.program, ["convert", "--from", "sddl", "--to", "base64"], everyone)
    pairs = [digits[at: at + 2] for at in range(0, len(digits), 2)]
    registry = ",\\\n  ".join(",".join(pairs[at: at + 20]) for at in range(0, len(pairs), 20))
    inherited = "O:BAG:SYD:AI(A;OICIID;FA;;;BA)(A;OICIID;FA;;;SY)(A;ID;FR;;;BU)"
    listed = "C:\\Data BUILTIN\\Administrators:(I)(OI)(CI)(F)\n        Everyone:(DENY)(WD,AD)\n\n"
    listed += "Successfully processed 1 files"
    rows = [
        (everyone, everyone, "Read as SDDL."),
        (f'"Public"=hex:{registry}\n"Work"=hex:{registry}', everyone, "hex:"),
        (f"hex(3):{registry}", everyone, "hex(3):"),
        (f"\ufeffData\r\n{everyone}\r\nData\\plan.txt\r\nO:SY\r\n", everyone, "Data"),
        (
            f"dn: CN=Share\nnTSecurityDescriptor:: {spelled[:40]}\n {spelled[40:]}\n",
            everyone,
            "nTSecurityDescriptor::",
        ),
        (f"name: Application\nchannelAccess: {everyone}\nlogging:", everyone, "channelAccess:"),
        (f"Owner  : BA\nSddl   : {inherited[:40]}\n         {inherited[40:]}\n", inherited, "Sddl"),
        (f'"C:\\a, b.txt","{everyone}"', everyone, "quotation marks"),
        (f'"Spooler",2,"{everyone}"', everyone, "Spooler"),
        (f"0x{digits}", everyone, "0x"),
        (" ".join(pairs[:20]) + ":" + "-".join(pairs[20:]), everyone, "separators"),
        (spelled, everyone, "Read as base64."),
        (", ".join(str(int(pair, 16)) for pair in pairs), everyone, "decimal"),
        (listed, "D:(A;OICIID;FA;;;BA)(D;;DCLC;;;WD)", "icacls"),
        # A text that a program wrapped: no ACE is lost, and what is no part of the descriptor is said.
        ("O:BAG:SYD:(A;;FA;;;BA)\n(A;;FA;;;WD)\n", "O:BAG:SYD:(A;;FA;;;BA)(A;;FA;;;WD)", "line ends"),
        ("O:BAG:SYD:(A;;FA;;;BA)\r\r (A;;FA;;;WD)", "O:BAG:SYD:(A;;FA;;;BA)(A;;FA;;;WD)", "line ends"),
        ("O:BA\r\nG:SY\r\nD:(A;;FA;;;WD)\r\n", everyone, "line ends"),
        ("D:(A;;FA;;;WD)\nS:(AU;SA;FA;;;WD)", "D:(A;;FA;;;WD)S:(AU;SA;FA;;;WD)", "line ends"),
        (
            "dn: CN=x\nnTSecurityDescriptor: O:BAG:SYD:(A;;FA;;;BA)\n (A;;F\n A;;;WD)\ncn: x\n",
            "O:BAG:SYD:(A;;FA;;;BA)(A;;FA;;;WD)",
            "cn: x",
        ),
        (f"Path   : C:\\Data\nOwner  : x\nSddl   : {everyone}\nAccess : a\n         b c", everyone, "Access : a"),
        (f"<Sddl>{everyone}</Sddl>", everyone, "</Sddl>"),
        (f"  Key\n    Security    REG_BINARY    {digits}\n", everyone, "REG_BINARY"),
        (f"\u201c{everyone}\u201d", everyone, "quotation marks"),
        (f"the value is `{everyone}`, I think", everyone, "I think"),
        (f"\u00a0 {everyone}\t\u00a0\r\n\r\n", everyone, "Read as SDDL."),
        (
            f'Windows Registry Editor Version 5.00\r\n\r\n[HKEY_X]\r\n"z"=hex:{registry}\r\n"b"=dword:2',
            everyone,
            '\u201c"b"=dword:2\u201d after it',
        ),
        (f"nTSecurityDescriptor:: {spelled}\ncn: x\nD:(A;;FR;;;BU)", everyone, "cn: x D:(A;;FR;;;BU)"),
    ]
    for text, sddl, said in rows:
        page.see(text)
        shown = page.do("return [document.querySelector('.words code.whole')?.textContent, byId('found').textContent];")
        count.add(shown[0] == sddl and said in shown[1], f"{text[:60]!r}: {shown}, not {sddl} {said}")
    for text, number in (("\0\0", 20), (" \0\n\0", 20), ("dn: CN=x\nnTSecurityDescriptor:: \ncn: x", 5)):
        page.see(text)
        shown = page.do("return document.querySelector('.fault .fault-name')?.textContent ?? "
                        "byId('view-look').textContent;")
        count.add(f"error {number}" in shown, f"{text!r} is no descriptor: {shown[:200]}")


def test_several(count, page, given):
    """Each of several descriptors can be chosen, by keys too, by the name that the text has for it."""
    page.open()
    page.do("put('kind', 'folder');")
    one, other = "O:BAG:SYD:(A;;FA;;;BA)", "O:BAG:SYD:(A;;FR;;;WD)"
    data, temp = r"C:\Data", r"\\server\temp"
    texts = [
        (f'"Path","Owner","Sddl"\n"{data}","x, y","{one}"\n"{temp}","z","{other}"\n', [data, temp]),
        (json.dumps([{"Path": data, "Sddl": one}, {"Path": temp, "Sddl": other}], indent=4), [data, temp]),
        (f"Path   : {data}\nSddl   : {one}\n\nPath   : {temp}\nSddl   : {other}\n", [data, temp]),
        (f"{data}\n{one}\n{temp}\n{other}\n", [data, temp]),
        (
            f"dn: CN=a,DC=x\ncn: a\nnTSecurityDescriptor: {one}\n\ndn: CN=b\ncn: b\n\ndn:: Q049Yw==\n"
            f"nTSecurityDescriptor: {other}\n",
            ["CN=a,DC=x", "CN=c"],
        ),
        (f"Original Security Descriptor:\t{one}\nNew Security Descriptor:\t{other}", ["Original Security Descriptor"]),
    ]
    for text, names in texts:
        page.see(text)
        shown = page.texts("#chosen option")
        wanted = [f"{number} of 2 {name}" for number, name in enumerate(names, 1)]
        count.add(shown[: len(wanted)] == wanted and len(shown) == 2, f"{text!r}: {shown}, not {wanted}")
        page.do("byId('chosen').focus();")
        page.browser.press("ArrowDown")
        got = page.do(
            "await until(isIdle); return [document.querySelector('.words code.whole')?.textContent, "
            "document.activeElement.id];"
        )
        count.add(got == [other, "chosen"], f"the second of {text!r} by keys: {got}")
    lines = [f"D:(A;;{number:#x};;;BA)" for number in range(1, 1301)]
    page.see("\n".join(lines))
    for number, asked in ((1, ""), (1299, "1299"), (1300, "9999")):
        got = page.do(
            "put('chosen', given[0]); await until(isIdle); return document.querySelector('.words "
            "code.whole').textContent;",
            asked,
        )
        told = line_of(given.program, ["convert", "--from", "sddl", "--to", "sddl"], lines[number - 1])
        count.add(got == told, f"number {asked!r} of {len(lines)}: {got}, not {told}")


# The text, the number, what is marked, and the words of the place.
FAULTS = [
    ("D:(A;;FA;;;WD)(A;;FA;;;Everyone)", 25, "Everyone", "the SID of ACE 2 of the DACL"),
    ("O:ZZD:(A;;GA1;;;WD)", 22, "ZZ", "the SID of the owner"),
    ("D:(A; OI;FA;;;WD)", 26, " OI", "field 2"),
    ("D:(A;;FA ;;;WD)", 27, "FA ", "field 3"),
    (
        "D:(OA;;RP;{bf967aba-0de6-11d0-a285-00aa003049e2};;AU)",
        28,
        "{bf967aba-0de6-11d0-a285-00aa003049e2}",
        "field 4",
    ),
    ("D:(XA;;FR;;;WD)", 29, "XA", "field 1"),
    (
        "D:(A;;FR;;;BU)(XA;;FR;;;WD;(@User.clearance >= 2))",
        20,
        ";",
        "the SID of ACE 2 of the DACL",
    ),
    ('D:(A;;FA;;;WD)S:(RA;;;;;WD;("Secrecy",TU,0,3))', 20, ";", "the SID of ACE 1 of the SACL"),
    ("O:BAO:SY", 21, "O:", "the second letter of the owner"),
    ("D:(A;;FA;;;WD", 20, "\u00a0", "the SID of ACE 1 of the DACL"),
    ("D:(A;;FA;;;WD)x(A;;FR;;;BU)", 20, "x", "the text behind an ACE of the DACL"),
    ("x", 20, "x", "the text before the first part"),
    ("G:S-1-5-99999999999", 24, "S-1-5-99999999999", "the SID of the group"),
    (
        "0100048000000000000000000000000014000000020020000100000009001800a900120001010000000000010000000061727478",
        12,
        "09001800",
        "the type of ACE 1 of the DACL",
    ),
    ("0100048000000000000000000000000000zz0000", 2, "z", "the characters"),
    ("010", 3, "010", "has no place"),
]


def test_faults(count, page, given):
    page.open()
    for text, number, marked, place in FAULTS:
        page.do("put('form', given[0]);", "hex" if text.startswith("01") else "auto")
        shown = page.see(text)
        got = page.do(
            "return [document.querySelector('pre.place mark')?.textContent, "
            "document.querySelectorAll('table').length, "
            "document.querySelectorAll('button.cell').length, byId('found').textContent];"
        )
        form = "hex" if text.startswith("01") else "sddl"
        told = line_of(given.program, ["convert", "--from", form], text)
        count.add(
            told.startswith(f"error {number} ") and f"(error {number} " in shown and f"(error {number} " in got[3],
            f"{text}: the program says {told}, the page {got[3]}",
        )
        count.add(got[0] == marked and place in shown, f"{text}: marked {got[0]!r}, not {marked!r}, in {shown[:200]}")
        is_kind = "The library does not evaluate it" in shown
        count.add(is_kind == ("treat the descriptor as unknown" in shown), f"{text}: what to do: {shown}")
        # Nothing of a refused descriptor is shown as if it were the answer.
        count.add(got[2] == 0 and "Who can change it" not in shown, f"{text}: a refusal beside rights")
    page.do("put('form', 'auto');")
    shown = page.see("O:BAG:DUD:(A;;FA;;;DA)")
    count.add("Domain Admins" in shown and "for an unknown domain" in shown and "error 23" not in shown,
              f"aliases of an unknown domain: {shown[:200]}")


# For each field of an ACE, texts that it can't have.
WRONG = {
    "field 1 (type)": ["AX", "", "AA", "X A", "<b>", "A)"],
    "field 2 (flags)": ["ZZ", "OIX", "O", " OI", "OI CI", "0x3", "<b>"],
    "field 3 (rights)": ["QQ", "FAX", "0xg", " FA", "FA,FR", "0x1ffffffff", "<b>", "\u202eFA"],
    "field 4 (object type)": ["{00299570-246d-11d0-a768-00aa006e0529}", "00299570", "user", "<b>"],
    "field 5 (inherited object type)": ["{00299570-246d-11d0-a768-00aa006e0529}", "00299570", "user"],
    "the SID": ["Everyone", "ZZ", "S-1-", "S-1-5-x", "S-1-5-4294967296", "S-2-5-1", " BA", "<b>", ""],
}
GOOD = [
    "A;OICI;FA;;;BA",
    "D;;FR;;;BU",
    "OA;CI;RP;bf967aba-0de6-11d0-a285-00aa003049e2;;AU",
    "A;ID;0x1200a9;;;S-1-5-21-1-2-3-4",
]


def wrong_text(chance):
    """A text with one wrong field, and what the place of the error has to be called and marked."""
    aces = [chance.choice(GOOD).split(";") for _ in range(chance.randrange(1, 9))]
    number, field = chance.randrange(len(aces)), chance.randrange(len(WRONG))
    name = list(WRONG)[field]
    wrong = chance.choice(WRONG[name])
    if field in (3, 4):
        aces[number][0] = "OA"
    aces[number][field] = wrong
    sacl = chance.random() < 0.3
    if sacl:
        for at, ace in enumerate(aces):
            if at != number or field != 0:
                ace[0] = "OU" if ace[0].startswith("O") else "AU"
    listed = "".join(f"({';'.join(ace)})" for ace in aces)
    return (
        f"O:BAG:SY{'S' if sacl else 'D'}:{listed}",
        wrong,
        f"{name} of ACE {number + 1} of the {'SACL' if sacl else 'DACL'}",
    )


def test_wrong_texts(count, page, given):
    """A wrong field of any ACE: the program's number, and the very field is named and marked."""
    chance = random.Random(given.seed + 3)
    page.open()
    page.do("put('form', 'sddl'); put('domain', '');")
    asked = 0
    while asked < 250:
        text, wrong, place = wrong_text(chance)
        told = line_of(given.program, ["convert", "--from", "sddl", "--to", "hex"], text)
        found = re.match(r"error (\d+) ", told)
        if not found:
            continue
        asked += 1
        shown = page.see(text)
        got = page.do("return [document.querySelector('pre.place mark')?.textContent, byId('found').textContent];")
        count.add(f"(error {found[1]} " in got[1], f"{text}: the program says {told}, the page {got[1]}")
        # A parenthesis in a field ends its ACE, and then the shape of the rest is wrong.
        if int(found[1]) >= 22:
            marked = wrong.replace("\u202e", "\\u{202e}") or "\u00a0"
            count.add(
                place in shown and got[0] == marked,
                f"{text}: {told}: {got[0]!r} is marked, not {marked!r}; {place} in {shown[:300]}",
            )


WORDS_OF_FIELDS = dict(zip(ACE_FIELDS, WRONG))


def words_of(number, place):
    """What the page calls a place of a text."""
    where = WHERE.get(place.part, "") if place.ace is None else f"ACE {place.ace + 1} of {WHERE[place.part]}"
    field = "the flags" if place.ace is None and place.field == "flags" else WORDS_OF_FIELDS.get(place.field)
    without = {20: "the text behind an ACE" if place.part else "the text before the first part",
               21: "the second letter"}
    return " of ".join(filter(None, (field or without.get(number), where)))


def test_hostile_texts(count, page, given):
    """Texts of any kind: the place is the one that the independent implementation finds."""
    chance = random.Random(given.seed + 7)
    page.open()
    page.do("put('form', 'sddl'); put('domain', given[0]);", sddl_texts.DOMAIN)
    asked = 0
    for text in sddl_texts.hostile(chance, 2000):
        # The field of the page has no line ends and halves of pairs, and the page leaves out what is at its ends.
        if not text.strip() or re.search("[\0\r\ufeff\ud800-\udfff]", text) or len(text) > MOST_OF_BYTES:
            continue
        expected = sddl_texts.expected(text, code_units=True)
        if expected is None:
            continue
        shown = page.see(text)
        got = page.do("return document.querySelector('pre.place mark')?.textContent;")
        marked = text[expected.first: expected.first + expected.size]
        is_marked = not all(map(sddl_texts.shows, marked)) or got == (marked[:MOST_MARKED] or "\u00a0")
        words = words_of(int(expected.line.split()[1]), expected.place)
        is_right = f"({expected.line}" in shown and is_marked and f"In {words}:" in shown
        count.add(is_right, f"{text!r}: {expected}: {got!r} is marked; {shown[:300]}")
        asked += 1
        if asked == 200:
            break
    count.add(asked == 200, f"only {asked} faults of texts")
    page.do("put('form', 'auto'); put('domain', '');")


# A text, and what of it is selected behind a front.
SELECTED = [
    ("D:(A;;FA;;;WD)(A;;FA;;;Everyone)", "", "Everyone"),
    ("C:\\Data\nO:BAG:SYD:(A;;FA;;;BA)\n   (A;;FR;;;Everyone)\nC:\\Everyone\n", "(A;;FR;;;", "Everyone"),
    ("Sddl : O:BAG:SYD:(A;;FA;;;BA)(A;;\n       FX;;;W\n       x)\n", "FX;;;", "W\n       x"),
    ('"Everyone","O:BAG:SYD:(A;;FA;;;Everyone)"', "(A;;FA;;;", "Everyone"),
    ("O:BA\nG:SY\nD:(A;;FA;;;WD);\n", "WD)", ";"),
    ("O:BA\nG:SY\nD:(A;;FA;;;WD\n", "(A;;FA;;;WD", ""),
]


def test_selected(count, page, _):
    """The place in the field, also where the page has taken a text out of it."""
    page.open()
    for text, front, selected in SELECTED:
        page.see(text)
        got = page.do(
            "Array.from(document.querySelectorAll('.fault button')).find((one) => "
            "/Select/.test(one.textContent)).click();const field = byId('text'); return [field.selectionStart, "
            "field.selectionEnd];"
        )
        start = text.index(front) + len(front) if front else text.rindex(selected)
        count.add(got == [start, start + len(selected)], f"{text!r}: {got}, not {[start, start + len(selected)]}")


FIELDS_OF_BYTES = {"kind": "the type", "flags": "the flags", "size": "the size", "sid": "the SID"}
WHERE = {"owner": "the owner", "group": "the group", "sacl": "the SACL", "dacl": "the DACL"}
MOST_MARKED = 400  # characters
MOST_OF_BYTES = 2000


def test_wrong_bytes(count, page, given):
    """Damaged bytes: the program's number, and the very bytes are named and marked, as the independent implementation
    says."""
    chance = random.Random(given.seed + 5)
    page.open()
    asked = 0
    for data in fault_places.hostile(compare.Lines(chance), chance, 10_000):
        expected = place_of_bytes(data) if 0 < len(data) < MOST_OF_BYTES else None
        if expected is None:
            continue
        line, place = expected
        form = chance.choice(("hex", "base64"))
        page.do("put('form', given[0]);", form)
        shown = page.see(data.hex() if form == "hex" else base64.b64encode(data).decode())
        got = page.do("return document.querySelector('pre.place mark')?.textContent;")
        digits = data[place.offset: place.offset + place.size].hex()
        marked = digits[:MOST_MARKED] + " .." if len(digits) > MOST_MARKED else digits or "\u00a0"
        where = WHERE.get(place.part, "") if place.ace is None else f"ACE {place.ace + 1} of {WHERE[place.part]}"
        words = " of ".join(filter(None, (FIELDS_OF_BYTES.get(place.field, "the bytes"), where)))
        is_right = f"({line}" in shown and got == marked and f"In {words}:" in shown
        count.add(is_right, f"{form} of {data.hex()}: {line} {place}: {got!r} is marked; {shown[:300]}")
        asked += 1
        if asked == 200:
            break
    count.add(asked == 200, f"only {asked} faults of bytes")
    page.do("put('form', 'auto');")


WARNINGS = [
    ("O:BA", "There is no DACL: everyone"),
    ("D:NO_ACCESS_CONTROL", "The DACL is null: everyone"),
    ("O:BAG:SYD:(A;;RC;;;OW)(A;;FA;;;BA)", "ACE 1 is for Owner Rights"),
    ("O:BAG:SYD:(A;;FA;;;BA)(A;;0x0;;;OW)", "ACE 2 is for Owner Rights"),
    ("O:BAD:", "The DACL is empty"),
    ("O:BAD:(A;;FW;;;WD)", "Everyone can"),
    ("O:BAD:(A;;SD;;;AU)", "Authenticated Users can delete"),
    ("O:BAD:(A;;DC;;;BU)", "Users can add files"),
    ("O:BAD:(A;;WD;;;S-1-5-21-1-2-3-1001)", "no administrator"),
    ("O:BAD:(A;;FR;;;BU)(D;;FW;;;BG)", "The order is not the one"),
    ("O:BAD:(A;IO;FR;;;BU)", "ACE 1 can't apply"),
    ("O:BAD:(A;;FA;;;WD)(D;;FW;;;BU)", "denies Users what earlier ACEs already allow"),
    ("O:BAD:(A;;0x0;;;BA)", "mask 0"),
    ("O:BAD:P(A;;FA;;;BA)", "Inheritance is switched off"),
    ("O:BAD:(A;;FA;;;BA)S:(ML;;NW;;;HI)", "integrity label: high integrity"),
    ("O:S-1-5-21-1-2-3-500D:(A;;FA;;;S-1-5-21-4-5-6-512)", "SIDs of 2 domains"),
]


def test_warnings(count, page, _):
    page.open()
    page.do("put('kind', 'folder');")
    for text, warning in WARNINGS:
        page.see(text)
        shown = page.texts(".warning")
        count.add(any(warning in one for one in shown), f"{text}: {shown}")
    # What Authenticated Users get is said of them, and not of each member whom an ACE names.
    page.see("O:BAD:(A;;FA;;;AU)(A;;FR;;;BU)(A;;FR;;;S-1-5-21-1-2-3-1001)(A;;WO;;;S-1-5-21-1-2-3-1002)")
    shown = page.texts(".warning.danger, .warning.caution")
    blamed = [text.split(" can ")[0].split(" ")[1:] for text in shown]
    count.add(blamed == [["Authenticated", "Users"]], f"who is blamed for what Authenticated Users get: {shown}")
    page.see("O:BAG:SYD:(A;;FA;;;BA)(A;;FA;;;SY)S:(ML;;NW;;;ME)")  # of a level as without a label
    shown = page.texts(".warning")
    count.add(shown == [], f"a harmless descriptor: {shown}")


# Texts of which the page finds the kind of object, and what it then shows.
KINDS = [
    ("O:BAG:SYD:(A;CI;KA;;;BA)(A;CI;0x2;;;BU)", "key", "Users can set values"),
    ("O:BAD:(OA;;CR;00299570-246d-11d0-a768-00aa006e0529;;S-1-5-21-1-2-3-1105)", "ds", "If this is a user or "),
    ("\nD:(A;;CCDCLCSWRPWPDTLOCRRC;;;AU)(A;;CCDCLCSWRPWPDTLOCRSDRCWDWO;;;BA)", "service",
     "Authenticated Users can change configuration"),
    ("channelAccess: O:BAG:SYD:(A;;0x7;;;BU)(A;;0xf0007;;;SY)", "log", "Users can clear"),
    ("\\\\.\\pipe\\spoolss O:SYD:(A;;0x12019f;;;WD)", "pipe", "Everyone can create an instance"),
    ("O:BAG:SYD:(A;;FA;;;BU)", "folder", "Users can add files"),
]


def test_kinds(count, page, _):
    """The page finds the kind of object, and offers those that fit where the rights fit no file."""
    page.open()
    for text, kind, warning in KINDS:
        page.see(text)
        shown = page.texts(".warning")
        found = page.do("return byId('kind').value;")
        count.add(found == kind, f"{text}: the kind is {found}, not {kind}")
        count.add(any(warning in one for one in shown), f"{text}: {shown}")
    page.see("D:(A;;CCDCLCSWRPWPDTLOCRRC;;;AU)(A;;CCDCLCSWRPWPDTLOCRSDRCWDWO;;;BA)")
    count.add(page.texts(".warning") == [], f"words before the kind is known: {page.texts('.warning')}")
    page.do("document.querySelector('[data-kind=service]').click(); await until(isIdle);")
    shown = page.texts(".warning")
    count.add(any("can change configuration" in one for one in shown), f"a kind that was asked for: {shown}")


# Users may do 0x2, which fits no file, and nothing tells the kind: as text, hex and base64, and below a path.
OPEN_HEX = ("01000480" + 12 * "00" + "14000000" "02002000" "01000000" "00001800" "02000000" "0102000000000005"
            "20000000" "21020000")
OPEN = [
    "D:(A;;DC;;;BU)",
    "D:(A;OICI;DC;;;BU)",
    "C:\\Data D:(A;;DC;;;BU)",
    OPEN_HEX,
    base64.b64encode(bytes.fromhex(OPEN_HEX)).decode(),
]
# What that is called, by winnt.h, winsvc.h and MS-ADTS, and the type that the program asks by.
CALLED = {"folder": ("add files", ""), "key": ("set values", "--type key"), "ds": ("delete children", "--type ds"),
          "service": ("change configuration", "")}
# What would say something about rights, or about a folder.
TABLES = tomllib.loads((TOP / "windows/kinds.toml").read_text(encoding="utf-8"))
NAMES = {right["name"] for kind in [*TABLES["kind"], {"rights": TABLES["standard"]}]
         for right in kind.get("rights", [])}
NAMES |= {name for kind in TABLES["kind"] for name in kind.get("masks", {})} | {"this folder", "granted", "denied",
                                                                                "gains", "loses"}
WORDS_OF_RIGHTS = re.compile(rf"\b(?:{'|'.join(map(re.escape, sorted(NAMES)))})\b")


def test_open_kinds(count, page, _):
    """Where nothing tells the kind, each view asks for it before it uses words of rights or answers, and answers after
    the choice."""
    page.open()
    page.do("put('other-text', 'D:(A;;RC;;;BU)');")
    for number, text in enumerate(OPEN):
        for view in ("look", "ask", "inherit", "compare"):
            kind = list(CALLED)[number % len(CALLED)]
            got = page.call("openKind", view, text, kind)
            what = f"{view} of {text!r}: {got}"
            before, after = got["before"], got["after"]
            count.add(before["asks"] and before["isSeen"] and before["kind"] == "" and before["boxes"] == "",
                      f"no question: {what}")
            count.add(not WORDS_OF_RIGHTS.search(before["text"]), f"words before the kind is known: {what}")
            said = {"look": "Choose what it is", "compare": "The two differ"}.get(view, "")
            count.add(before["text"].startswith(said) and bool(before["text"]) == bool(said),
                      f"what does not depend on it: {what}")
            count.add(before["sentence"] == "Unknown: Depends on what this is: Users may be able to change it",
                      f"the first line: {what}")
            count.add(not any(got["names"].values()) and not got["faint"], f"the question of {what}")
            count.add(bool(got["command"]) == (view in ("look", "compare")),
                      f"a command before the kind is known: {what}")
            name, option = CALLED[kind]
            shown = "so nothing inherits" if (view, kind) == ("inherit", "service") else name
            is_answered = (not after["asks"] and after["isSeen"] and shown in after["text"] and after["kind"] == kind
                           and name in after["boxes"])
            count.add(is_answered and (got["focus"] == f"tab-{view}" or not got["isChip"]),
                      f"after the choice of {kind}: {what}")
            count.add(got["copied"] == "", f"what was copied before the choice of {kind}: {what}")
            is_called = view != "inherit" or ("folder" in after["text"]) == (kind == "folder")
            count.add(is_called, f"a folder that is none, or is not called one: {what}")
            command = page.do(
                "byId('copied').replaceChildren(); byId('share-command').click(); await until(() => "
                "byId('copied').textContent !== ''); return byId('copied-text')?.value ?? '';"
            )
            expected = option if view in ("ask", "inherit") else ""
            is_there = bool(command) == ((view, kind) != ("inherit", "service"))
            count.add(is_there and expected in command and ("--type" in command) == bool(expected),
                      f"{command} of {what}")


# Questions without an answer about a kind that the program has no mapping for, and the beginning of what is said of
# them.
UNKNOWN = [
    ("process", "ask", "O:SYG:SYD:(A;;0x1fffff;;;WD)S:(ML;;NW;;;HI)", "put('ask-level', ' 4096');",
     "The level is below"),
    ("printer", "inherit", "O:SYG:SYD:(A;OIIO;GA;;;CO)", "", "What generic rights become"),
    ("process", "inherit", "O:SYG:SYD:(A;;0x1fffff;;;WD)", "", "No such object"),
    ("key", "inherit", "O:SYG:SYD:(A;CI;KA;;;WD)", "put('made-kind', 'file');", "No such object"),
]


def test_unknown_commands(count, page, _):
    """Where the page says that an answer is unknown, or that there is none, no command answers it."""
    for kind, view, text, script, words in UNKNOWN:
        page.open()
        page.do(f"put('kind', given[0]); byId(`tab-${{given[1]}}`).click(); {script} await see(given[2]);",
                kind, view, text)
        got = page.do(
            "byId('share-command').click(); await until(() => byId('copied').textContent !== ''); "
            "return [answerOf(given[0]).textContent, byId('copied').textContent, byId('copied-text') === null];",
            view,
        )
        count.add(got[0].startswith(words) and got[1] == got[0] and got[2], f"{kind}, {view} of {text}: {got}")


# What comes before a text whose kind is open, and whether the page then asks: only the list of kinds holds for later
# texts.
BEFORE = [
    ("await see('D:(A;;DC;;;BU)'); document.querySelector('#chips [data-kind=service]').click();", True),
    ("byId('example-folder').click();", True),
    ("location.hash = '#kind=service&d=D:(A;;DC;;;BU)'; await until(() => byId('kind').value === 'service');", True),
    ("put('kind', 'service');", False),
    ("put('kind', 'service'); await see('D:(A;;DC;;;BU)'); byId('clear').click();", True),
    ("await see('HKLM:\\\\X D:(A;;KA;;;BU)');", True),
    ("await see('D:(A;;DC;;;BU)'); document.querySelector('#chips [data-kind=key]').click(); await until(isIdle); "
     "put('ask-token', 'WD');", True),
]


def test_kind_of_text(count, page, _):
    """A kind that came with another text, or was the answer for it, is not that of the next one."""
    for script, asks in BEFORE:
        page.open()
        page.do(f"{script} await until(isIdle); await see('D:(A;;LC;;;BU)');")
        for view in ("look", "ask", "inherit", "compare"):
            got = page.do("byId(`tab-${given[0]}`).click(); put('other-text', 'D:'); await until(isIdle); return "
                          "said(given[0]);", view)
            count.add(got["asks"] == asks and got["kind"] == ("" if asks else "service"),
                      f"{view} after {script}: {got}")
    # The answer holds while the text stays, whatever else changes.
    page.open()
    page.do(
        "await see('D:(A;;DC;;;BU)'); document.querySelector('#chips [data-kind=service]').click(); await "
        "until(isIdle); byId('tab-ask').click(); put('ask-token', 'BU,WD'); put('domain', 'S-1-5-21-1-2-3'); await "
        "until(isIdle);"
    )
    got = page.do("return said('ask');")
    count.add(not got["asks"] and "change configuration" in got["text"], f"another token: {got}")
    # Two texts that tell of different kinds, of which the first alone fits a file.
    page.do("byId('clear').click(); await see('O:BAG:SYD:(A;;FA;;;BA)'); byId('tab-compare').click(); "
            "put('other-text', 'HKLM:\\\\X D:(A;;KA;;;BA)');")
    got = page.do("await until(isIdle); return said('compare');")
    count.add(got["asks"] and "full control" not in got["text"] and "0x001f01ff" in got["text"], f"two kinds: {got}")
    got = page.do("document.querySelector('#compare-result [data-kind=key]').click(); await until(isIdle); return "
                  "said('compare');")
    count.add(not got["asks"] and got["kind"] == "key" and "full control" in got["text"],
              f"two kinds, and a choice: {got}")
    # Without a choice the text tells again.
    page.open()
    got = page.do("await see('O:BAG:SYD:(A;;FA;;;BA)'); put('kind', 'key'); await until(isIdle); const before = "
                  "byId('sentence').lastChild.textContent; put('kind', ''); await until(isIdle); return [before, "
                  "byId('sentence').lastChild.textContent, byId('kind').value];")
    words = [f"Only administrators can change this {what}" for what in ("registry key", "folder")]
    count.add(got == [*words, "folder"], f"a kind that is chosen, and none: {got}")


# An ACE of a directory object, and what its GUID is called. Five GUIDs are a property and a validated write.
MEMBER = "bf9679c0-0de6-11d0-a285-00aa003049e2"
GUIDS = [
    (f"(OA;;WP;{MEMBER};;AU)", "for member (property)"),
    (f"(OA;;SW;{MEMBER};;AU)", "for Self-Membership (validated write)"),
    (f"(OA;;GA;{MEMBER};;AU)", "for Self-Membership (validated write), member (property)"),
    ("(OA;;CR;014bf69c-7b3b-11d1-85f6-08002be74fab;;AU)", "for Change-Domain-Master (right)"),
    ("(OA;;CC;bf967aba-0de6-11d0-a285-00aa003049e2;;AU)", "for user (class)"),
    ("(OA;;RP;e45795b2-9455-11d1-aebd-0000f80367c1;;AU)", "for Email-Information (property set)"),
    ("(OA;;CR;ee914b82-0a98-11d1-adbb-00c04fd8d5cd;;AU)", "for unknown GUID ee914b82-0a98-11d1-adbb-00c04fd8d5cd"),
]


def test_guids(count, page, _):
    page.open()
    page.do("put('kind', 'ds');")
    for ace, words in GUIDS:
        page.see(f"O:BAD:{ace}")
        shown = page.texts("#ace-words .object")
        count.add(shown == [words], f"{ace}: {shown}, not {words}")
