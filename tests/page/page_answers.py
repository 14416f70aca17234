"""Tests of the page: its answers are those of the program, for worked rows, cells of the grid, reasons and views."""
import base64
import collections
import re

import page_descriptors
import run_rows
from page_driver import BATCH, KINDS, TOP, line_of, run

COMMANDS = {
    "convert": {"from", "to", "domain", "numeric"},
    "explain": {"from", "domain", "numeric"},
    "check": {
        "from",
        "token",
        "want",
        "maximum",
        "type",
        "object",
        "self",
        "security",
        "take-ownership",
        "level",
        "domain",
    },
    "derive": {"from", "to", "kind", "owner", "group", "creator", "type", "domain", "numeric"},
}
FLAGS = {"numeric", "maximum", "security", "take-ownership"}
CHOICES = {
    "from": ("hex", "base64", "sddl"),
    "to": ("sddl", "hex", "base64"),
    "type": ("file", "key", "ds"),
    "kind": ("file", "container"),
}


def options_of(words):
    """What a person would choose for these words, or None where the controls don't have it."""
    command, *rest = words
    options, at = {}, 0
    if command not in COMMANDS:
        return None
    while at < len(rest):
        name = rest[at][2:]
        if not rest[at].startswith("--") or name not in COMMANDS[command] or name in options:
            return None
        value = True if name in FLAGS else rest[at + 1] if at + 1 < len(rest) else None
        if value in (None, "") or name in CHOICES and value not in CHOICES[name]:
            return None
        options[name] = value
        at += 1 if name in FLAGS else 2
    # One of the kinds is always chosen.
    return None if command == "derive" and "kind" not in options else options


def rows_for_the_page():
    for row in run_rows.all_rows():
        if not run_rows.is_for_files(row):
            continue
        words = [run_rows.text(word).decode("latin-1") for word in row["words"]]
        options = options_of(words) if words else None
        if options is not None and "\n" not in "".join(words) and "\r" not in "".join(words):
            yield row, words[0], options


def test_rows(count, page, _):
    """Every worked row that the controls have, through the page."""
    page.open()
    page.view("lines")
    page.do("put('lines-filter-token', '');")
    rows = list(rows_for_the_page())
    for at in range(0, len(rows), BATCH):
        batch = rows[at: at + BATCH]
        given = [
            {"command": command, "options": options, "data": base64.b64encode(run_rows.text(row["stdin"])).decode()}
            for row, command, options in batch
        ]
        for (row, _, _), got in zip(batch, page.call("rows", given)):
            if row.get("status", 0) < 2:
                is_right = base64.b64decode(got.get("output", "")) == run_rows.text(row.get("stdout", ""))
            else:
                message = run_rows.text(row["stderr"]).decode().strip()
                is_right = message in got.get("refused", "")
            count.add(is_right, f"row {row['id']}: {str(got)[:200]}")
    count.add(len(rows) > 400, f"only {len(rows)} rows are for the page")


SIGNS = {"granted": "\u2713", "rule": "\u25c6", "denied": "\u2715", "none": "\u00b7"}


def judge_grid(count, program, kind, descriptors, grids):
    """Each cell beside the rules, and beside a check of that right by the program, for all descriptors at once."""
    mapping = KINDS[kind]
    lines_of = collections.defaultdict(list)
    for descriptor, rows in zip(descriptors, grids):
        named = page_descriptors.trustees(descriptor)
        told = [sid for row in rows for _, sid, _ in row]
        count.add(sorted(told) == sorted(named), f"rows of {descriptor.text}: {rows}, not {named}")
        alike = [[state for _, state, _ in row[0][2]] for row in rows]
        count.add(all(alike.count(one) == 1 for one in alike), f"rows that are alike, of {descriptor.text}: {rows}")
        for token, _, cells in (one for row in rows for one in row):
            for bit, state, sign in cells:
                wanted, _ = page_descriptors.decision(descriptor, set(token.split()), bit, mapping)
                is_right = state == wanted and sign == SIGNS[state]
                count.add(is_right, f"cell {bit:#x} of {token} in {descriptor.text}: {state}, not {wanted}")
                lines_of[token, bit].append((descriptor.text, state))
    for (token, bit), asked in lines_of.items():
        words = ["check", "--from", "sddl", "--token", token.replace(" ", ","), "--want", hex(bit), "--type", mapping]
        told = run(program, words, "".join(f"{text}\n" for text, _ in asked).encode()).stdout.decode().splitlines()
        for (text, state), verdict in zip(asked, told):
            is_granted = state in ("granted", "rule")
            count.add(verdict.startswith("granted" if is_granted else "denied"), f"{text}: {state}, but {verdict}")
        count.add(len(told) == len(asked), f"{len(told)} answers to {len(asked)} lines")


def test_grid(count, page, given):
    maker = page_descriptors.Maker(given.seed)
    page.open()
    for kind in ("folder", "key", "ds"):
        page.do(
            "byId('more-options').open = true; put('kind', given[0]); put('form', 'sddl'); put('domain', '');", kind
        )
        for common in (True, False):
            page.do("put('common', given[0]);", common)
            descriptors = [maker.descriptor() for _ in range(given.descriptors // 6)]
            # A text of blanks is no text for a person.
            descriptors = [one for one in descriptors if one.text.strip()]
            grids = []
            for at in range(0, len(descriptors), BATCH):
                grids += page.call("grid", [one.text for one in descriptors[at: at + BATCH]])
            judge_grid(count, given.program, kind, descriptors, grids)


def test_reasons(count, page, given):
    """The ACE that a cell names when it is chosen."""
    maker = page_descriptors.Maker(given.seed + 1)
    page.open()
    page.do("put('kind', 'folder');")
    asked = []
    while len(asked) < 150:
        descriptor = maker.descriptor()
        sids = [ace.sid for ace in descriptor.aces or [] if ace.kind in ("A", "D", "OA", "OD")]
        if sids:
            asked.append(
                (descriptor, maker.chance.choice(sids), maker.chance.choice([0x1, 0x2, 0x20, 0x20000, 0x40000]))
            )
    told = page.call("reasons", [(descriptor.text, sid, bit) for descriptor, sid, bit in asked])
    for (descriptor, sid, bit), (token, text, marked) in zip(asked, told):
        state, number = page_descriptors.decision(descriptor, set(token.split()), bit, "file")
        expected = {"rule": "the owner always may", "none": "no ACE that applies"}.get(state, f"ACE {number} decides")
        may = "may not" if state in ("denied", "none") else "may"
        is_marked = f"dacl-{number}" in marked if number else not marked
        is_right = expected in text and f" {may} \u201c" in text and "|" not in text and is_marked
        count.add(is_right, f"why {bit:#x} of {sid} in {descriptor.text}: {text} {marked}, not {state} {number}")


def reason_of(descriptor, token, bit, question):
    """By what a right is decided: the level, a privilege, a rule, an ACE or nothing."""
    if bit == page_descriptors.SYSTEM_SECURITY:
        return ("privilege", None, True) if question["security"] else ("no-privilege", None, False)
    if question["level"] and int(question["level"]) < 8192 and not 0x1200A9 & bit:
        return (
            "level",
            None,
            False,
        )  # without a label an object has the medium level and may not be written from below
    if descriptor.aces is None:
        return "no-dacl", None, True
    state, number = page_descriptors.decision(descriptor, token, bit, "file")
    if state == "rule":
        return "owner", None, True
    if question["take"] and bit == page_descriptors.WRITE_OWNER:
        return "privilege", None, True
    return ("nothing", None, False) if state == "none" else ("ace", number, state == "granted")


def test_ask(count, page, given):
    maker = page_descriptors.Maker(given.seed + 2)
    page.open()
    page.do("put('kind', 'folder');")
    for _ in range(60):
        chance, descriptor = maker.chance, maker.descriptor()
        if not descriptor.text.strip():
            continue
        token = chance.sample(page_descriptors.SIDS, 3)
        question = {
            "token": ", ".join(token),
            "maximum": chance.random() < 0.7,
            "want": chance.choice(["", "FR", "0x1000002", "GW"]),
            "level": chance.choice(["", " 4096", " 8192"]),
            "take": chance.random() < 0.3,
            "security": chance.random() < 0.3,
            "text": descriptor.text,
        }
        if not question["maximum"] and not question["want"]:
            question["want"] = "WD"
        words = [
            "check",
            "--from",
            "sddl",
            "--token",
            ",".join(token),
            *(["--want", question["want"]] if question["want"] else []),
            *(["--maximum"] if question["maximum"] else []),
            *(["--take-ownership"] if question["take"] else []),
            *(["--security"] if question["security"] else []),
            *(["--level", question["level"].strip()] if question["level"] else []),
        ]
        got, wanted = page.call("ask", question), line_of(given.program, words, descriptor.text)
        count.add(got["verdict"] == wanted, f"ask {words} {descriptor.text}: {got['verdict']}, not {wanted}")
        count.add(len(got["reasons"]) > 0, f"no reasons: {got}")
        for bit, by, number, is_granted in got["reasons"]:
            expected = reason_of(descriptor, set(token), bit, question)
            told = (by, int(number) if number not in ("", "null") else None, is_granted)
            count.add(told == expected, f"reason of {bit:#x}, {words} {descriptor.text}: {told}, not {expected}")


def test_token(count, page, _):
    """A pasted listing of whoami."""
    page.open()
    listing = (TOP / "examples/whoami.csv").read_text(encoding="utf-8")
    page.see("O:BAD:(D;;WP;;;BA)(A;;FA;;;WD)S:(ML;;NW;;;HI)")
    got = page.call(
        "ask",
        {
            "token": listing,
            "maximum": True,
            "want": "",
            "level": "listed",
            "take": False,
            "security": False,
            "text": "O:BAD:(D;;WP;;;BA)(A;;FA;;;WD)S:(ML;;NW;;;HI)",
        },
    )
    # Medium below high, and Administrators for deny only.
    count.add(got["verdict"] == "granted 0x00120089", f"a listing of whoami: {got['verdict']}")
    shown = page.do("return byId('ask-result').textContent;")
    count.add("BUILTIN\\Administrators (deny only)" in shown, f"names of the listing: {shown[:300]}")
    got = page.call(
        "ask",
        {
            "token": "WD, Nobody!",
            "maximum": True,
            "want": "",
            "level": "",
            "take": False,
            "security": False,
            "text": "D:",
        },
    )
    count.add("Not a SID: Nobody!" in got["verdict"], f"a name in a token: {got['verdict']}")
    user = "User Name   SID\n=========== =====================\nexample\\ann S-1-5-21-1-2-3-1001\n"
    groups = "BUILTIN\\Users Alias S-1-5-32-545 Mandatory group, Enabled by default, Enabled group\n"
    held = ("SeTakeOwnershipPrivilege Take ownership of files or other objects Disabled\nSeBackupPrivilege Back up "
            "files Disabled\n")
    # FR is 0x120089, and the privilege gives 0x80000.
    for token, is_exact, verdict in (
            (user, False, "granted 0x00120089"), (user, True, "denied 0x00000000"),
            (user + groups + held, False, "granted 0x001a0089"), (user + held, False, "whoami lists no groups")):
        question = {"token": token, "exact": is_exact, "maximum": True, "want": "", "level": "listed", "take": False,
                    "security": False,
                    "text": "O:BAD:(A;;FR;;;AU)"}
        got = page.call("ask", question)
        count.add(verdict in got["verdict"], f"{token!r}, exact: {is_exact}: {got['verdict']}, not {verdict}")
        shown = page.do("return byId('ask-result').textContent;")
        is_said = "SeBackupPrivilege: may read any object" in shown and "SeTakeOwnershipPrivilege" in shown
        count.add(is_said == ("0x001a" in verdict), f"what whoami says beside SIDs: {shown[:300]}")


def test_inherit(count, page, given):
    page.open()
    page.do("put('kind', 'folder');")
    texts = [
        "D:AI(A;OICI;FA;;;SY)(A;CIIO;GRGX;;;CO)(A;OINP;FR;;;BU)S:(AU;OISA;GW;;;WD)",
        "D:(A;OICI;FA;;;SY)",
        "O:BA",
        "D:P(D;OICI;WP;;;BU)(A;CI;GA;;;CG)",
    ]
    for text in texts:
        for kind in ("file", "container"):
            for creator in ("", "D:(A;OICI;GA;;;CO)(A;;FR;;;AU)", "D:P(A;;FR;;;BU)"):
                got = [
                    node
                    for node in page.call(
                        "inherit", {"kind": kind, "owner": "BA", "group": "SY", "creator": creator, "text": text}
                    )
                    if node["sddl"] is not None
                ]
                words = ["derive", "--from", "sddl", "--owner", "BA", "--group", "SY"]
                made = line_of(
                    given.program, [*words, "--kind", kind, *(["--creator", creator] if creator else [])], text
                )
                expected = [made]
                if kind == "container":
                    child, file = (
                        line_of(given.program, [*words, "--kind", one], made) for one in ("container", "file")
                    )
                    deeper = [line_of(given.program, [*words, "--kind", one], child) for one in ("container", "file")]
                    expected += [child, *deeper, file]
                count.add(
                    [node["sddl"] for node in got] == expected,
                    f"inherit {kind} {creator} {text}: {got}, not {expected}",
                )
    got = page.call(
        "inherit",
        {
            "kind": "container",
            "owner": "BA",
            "group": "SY",
            "creator": "D:(A;OICI;GA;;;CO)(A;;FR;;;AU)",
            "text": texts[0],
        },
    )
    arrows = next(node["from"] for node in got if "level-0" in node["level"])
    # By the tables of docs/FORMAT.md: two ACEs for the creator's CO, one for AU; one for SY, two for CO, none for BU.
    wanted = ["creator 1", "creator 1", "creator 2", "parent 1", "parent 2", "parent 2", "parent 1"]
    count.add(arrows == wanted, f"arrows: {arrows}, not {wanted}")


def test_long_inherit(count, page, given):
    """A long list is shown in several turns of the page, and whole: nothing of it is left out without a word."""
    page.open()
    aces = [f"(A;OICI;FR;;;S-1-5-21-1-2-3-{number})" for number in range(1000, 1260)]
    text = f"D:{''.join(aces)}"
    got = page.call("inherit", {"kind": "file", "owner": "BA", "group": "SY", "creator": "", "text": text})
    made = line_of(given.program, ["derive", "--from", "sddl", "--owner", "BA", "--group", "SY", "--kind",
                                   "file"], text)
    sddl = next(node["sddl"] for node in got if node["sddl"])
    count.add(sddl.endswith(" ..") and made.startswith(sddl[:-3]), f"a text that is cut: {sddl[-40:]}")
    shown = page.do(
        "const more = () => document.querySelector('#inherit-result .more button'); while (more()) more().click(); "
        "return Array.from(document.querySelectorAll('#inherit-result section.node'), (node) => "
        "Array.from(node.querySelectorAll('li'), (item) => [item.dataset.from ?? '', "
        "item.querySelector('code:not(.mask):not(.sid)').textContent]));"
    )
    numbers = [["", ace] for ace in aces]
    count.add(shown[0] == numbers, f"the ACEs of the folder: {len(shown[0])}, {shown[0][:2]}")
    derived = re.findall(r"\([^()]*\)", made)
    arrows = [[f"parent {number}", ace] for number, ace in enumerate(derived, 1)]
    count.add(len(derived) == len(aces) and shown[1] == arrows, f"those of a new file: {len(shown[1])}, {shown[1][:2]}")


def test_compare(count, page, given):
    page.open()
    rows = [
        ("D:(A;;FA;;;WD)", "d: (a;;0x1f01ff;;;s-1-1-0)", ["same"], []),
        ("D:(A;;FA;;;BA)(A;;FR;;;WD)", "D:(A;;FR;;;WD)(A;;FA;;;BA)", ["same", "moved"], []),
        (
            "D:(A;;FA;;;BA)",
            "D:(A;;FR;;;BA)(A;;FR;;;AU)",
            ["changed", "added"],
            [["S-1-5-32-544", 0, 0xD0176 & 0x1F01FF | 0x0]],
        ),
        ("D:(A;;FA;;;BA)(D;;FW;;;BU)", "D:(A;;FA;;;BA)", ["same", "removed"], []),
    ]
    for one, other, states, _ in rows:
        got = page.call("compare", one, other)
        hexes = [line_of(given.program, ["convert", "--from", "sddl", "--to", "hex"], text) for text in (one, other)]
        count.add(("same content" in got["verdict"]) == (hexes[0] == hexes[1]), f"{one} {other}: {got['verdict']}")
        count.add(sorted(got["states"]) == sorted(states), f"{one} {other}: {got['states']}")
    got = page.call("compare", "D:(A;;FA;;;BA)(A;;FR;;;AU)", "D:(A;;FR;;;BA)(A;;FRFW;;;AU)")
    wanted = [["S-1-5-32-544", 0, 0x1F01FF & ~(0x120089 | 0x120116)], ["S-1-5-11", 0x120116 & ~0x120089, 0]]
    count.add(sorted(got["rights"]) == sorted(wanted), f"rights that differ: {got['rights']}, not {wanted}")
    # Without a list everybody has every right, also who is in neither.
    got = page.call("compare", "D:NO_ACCESS_CONTROL", "D:")
    count.add(got["rights"] == [["S-1-1-0", 0, 0x1F01FF]], f"rights without a list: {got['rights']}")
    # A right to one property differs, though none to the object as a whole.
    page.do("put('kind', 'ds');")
    got = page.call(
        "compare",
        "O:BAD:(A;;RP;;;AU)",
        "O:BAD:(A;;RP;;;AU)(OA;CI;RPWP;bf9679c0-0de6-11d0-a285-00aa003049e2;;BU)",
    )
    typed = page.texts("#compare-result li[data-object]")
    count.add(typed == ["gains write properties for member (property)"], f"rights to a property that differ: {typed}")
    count.add(["S-1-5-32-545", 0, 0] in got["rights"], f"whose rights to a property differ: {got['rights']}")
    shown = page.do("return byId('compare-result').textContent;")
    count.add("ACEs that children inherit differ" in shown, f"what is inherited differs: {shown[:300]}")
    # What differs for the object as a whole isn't told again for a property.
    of_property = "(OA;;WP;bf9679c0-0de6-11d0-a285-00aa003049e2;;BU)"
    for one, other, gained, lost in (("", "(A;;RP;;;BU)", 0x10, 0), ("(A;;RP;;;BU)", "", 0, 0x10)):
        got = page.call("compare", f"O:BAD:{one}{of_property}", f"O:BAD:{other}{of_property}")
        found = got["rights"], page.texts("#compare-result li[data-object]")
        count.add(found == ([["S-1-5-32-545", gained, lost]], []), f"rights that differ as a whole: {found}")
    page.do("put('kind', 'folder');")
    got = page.call("compare", "D:", "D:(A;;FA;;;Everyone)")
    count.add("error 25" in got["verdict"], f"a second descriptor that is refused: {got['verdict'][:200]}")
