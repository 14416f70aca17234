"""Tests of the page's edits: steps by keys alone and at random, beside the reference and the library, undo, who gains
and who loses, faults, inherited ACEs, and names that are long, hostile or from right to left.
"""
import collections
import json
import pathlib
import random
import shutil
import subprocess

from page_descriptors import GUIDS, SIDS
from page_driver import HOSTILE, KINDS, SECONDS, TOP, line_of, run
from page_people import LONG, PASTE, PROJECTS
from reference import Ace, Sid, layout, read
from reference.editing import Change, Match, Setting, edit, first_out_of_order

LIBRARY = TOP / "out/systems/wasm/sdtool.mjs"
SCRIPT = pathlib.Path(__file__).resolve().with_name("page_edits.mjs")
TYPES = {"A": 0, "D": 1, "AU": 2, "OA": 5, "OD": 6, "ML": 0x11}
FLAGS = {"OI": 1, "CI": 2, "NP": 4, "IO": 8, "ID": 0x10, "SA": 0x40, "FA": 0x80}
PROTECTED = {"D": 0x1000, "S": 0x2000}
LISTS = {"D": "dacl", "S": "sacl"}
NAMES = {"take each": "takeEach", "set each": "setEach"}
INHERITED = Match(flags=FLAGS["ID"], flags_mask=FLAGS["ID"])
MASKS = {"folder": {"FR": 0x120089, "FA": 0x1f01ff, "GW": 0x40000000, "0x1301bf": 0x1301bf, "0x40000": 0x40000,
                    "0x6": 0x6, "0x0": 0},
         "ds": {"GA": 0x10000000, "RPWP": 0x30, "0x100": 0x100, "WD": 0x40000, "0x20094": 0x20094}}
PLACES = {"folder": ["", "OICI", "CI", "OI", "OICIIO", "CIIO", "OIIO"], "ds": ["", "CI", "CIIO"]}
NAMED = {"Everyone": "S-1-1-0", "authenticated users": "S-1-5-11", "BU": "S-1-5-32-545", **{sid: sid for sid in SIDS}}
DECIDING = ("A", "D", "OA", "OD")
OWNER_RIGHTS = "S-1-3-4"


def sid_of(text):
    _, _, authority, *subs = text.split("-")
    return Sid(int(authority), tuple(map(int, subs)))


def flags_of(text):
    return sum(FLAGS[text[at: at + 2]] for at in range(0, len(text), 2))


def guid_of(text):
    parts = text.split("-")
    return b"".join(bytes.fromhex(part)[::-1] for part in parts[:3]) + bytes.fromhex("".join(parts[3:])) or None


def kind_of(ace):
    return next(name for name, number in TYPES.items() if number == ace.type)


class Steps:
    """Random steps of an edit, each with what a person does and the changes that it has to be."""

    def __init__(self, chance, kind, descriptor):
        self.chance, self.kind, self.now = chance, kind, descriptor
        self.past, self.future = [], []

    def aces(self, letter):
        acl = getattr(self.now, LISTS[letter])
        return acl.aces if acl else ()

    def stopping(self, letter, places):
        """An object with an inherited ACE that changes stops inheriting."""
        is_inherited = any(self.aces(letter)[place].flags & FLAGS["ID"] for place in places)
        if not is_inherited or self.now.control & PROTECTED[letter]:
            return []
        return self.stopped(letter, "set each", setting=Setting(clear_flags=FLAGS["ID"]))

    def stopped(self, letter, name, **more):
        return [Change("control", set_bits=PROTECTED[letter]), Change(name, letter, match=INHERITED, **more)]

    def step(self):
        """What a person does, and the changes; or None for an undo or redo."""
        chance = self.chance
        letter = "S" if self.aces("S") and chance.random() < 0.15 else "D"
        aces = self.aces(letter)
        ways = ["add", "owner", "undo", "redo", "inherit", *(["take"] * 2 + ["change"] * 6 + ["move"] if aces else [])]
        if any(first_out_of_order(one, self.aces(one)) is not None for one in LISTS):
            ways += ["sort"] * 2
        return getattr(self, chance.choice(ways))(letter)

    def take(self, letter):
        place = self.chance.randrange(len(self.aces(letter)))
        return ({"act": "Delete", "list": LISTS[letter], "number": place + 1},
                [*self.stopping(letter, [place]), Change("take", letter, place)])

    def move(self, letter):
        place = self.chance.randrange(len(self.aces(letter)))
        by = self.chance.choice((-1, 1))
        if not 0 <= place + by < len(self.aces(letter)):
            return self.take(letter)
        stops = self.stopping(letter, [place])
        ace = self.aces(letter)[place]
        moved = ace._replace(flags=ace.flags & ~FLAGS["ID"]) if stops else ace
        return ({"act": "ArrowUp" if by < 0 else "ArrowDown", "list": LISTS[letter], "number": place + 1},
                [*stops, Change("take", letter, place), Change("put", letter, place + by, moved)])

    def field(self, ace, letter):
        """A field of an ACE with another value, and the ACE then."""
        chance = self.chance
        kind = kind_of(ace)
        ways = ["sid", "rights", "where"] + (["kind"] * 2 if letter == "D" and kind in DECIDING else [])
        way = chance.choice(ways)
        if way == "sid":
            name, sid = chance.choice([item for item in NAMED.items() if sid_of(item[1]) != ace.sid])
            return ["sid", name], ace._replace(sid=sid_of(sid))
        if way == "rights":
            name, mask = chance.choice([item for item in MASKS[self.kind].items() if item[1] != ace.mask])
            return ["rights", name], ace._replace(mask=mask)
        if way == "kind":
            other = {"A": "D", "D": "A", "OA": "OD", "OD": "OA"}[kind]
            plain = other[-1] if not (ace.object_type or ace.inherited_object_type) else other
            return ["kind", other[-1]], ace._replace(type=TYPES[plain])
        own = ace.flags & flags_of("OICIIO")
        place = chance.choice([one for one in PLACES[self.kind] if flags_of(one) != own])
        kept = ace.flags & ~flags_of("OICIIO") & (~FLAGS["NP"] if place == "" else ~0)
        return ["where", place], ace._replace(flags=kept | flags_of(place))

    def change(self, letter):
        place = self.chance.randrange(len(self.aces(letter)))
        field, ace = self.field(self.aces(letter)[place], letter)
        stops = self.stopping(letter, [place])
        if stops:
            ace = ace._replace(flags=ace.flags & ~FLAGS["ID"])
        return ({"act": "change", "list": LISTS[letter], "number": place + 1, "fields": [field]},
                [*stops, Change("replace", letter, place, ace)])

    def add(self, _):
        chance = self.chance
        kind = chance.choice(["A", "A", "D", "AU"])
        letter = "S" if kind == "AU" else "D"
        name, sid = chance.choice(list(NAMED.items()))
        rights, mask = chance.choice(list(MASKS[self.kind].items()))
        place = chance.choice(PLACES[self.kind])
        fields = [["kind", kind], ["sid", name], ["rights", rights], ["where", place]]
        flags = flags_of(place) | (FLAGS["SA"] if kind == "AU" else 0)
        ace = Ace(TYPES[kind], flags, mask, None, None, sid_of(sid))
        if kind == "AU":
            fields += [["SA", True], ["FA", False]]
        is_absent = letter == "S" and self.now.sacl is None
        end = "order" if first_out_of_order(letter, self.aces(letter)) is None else "end"
        return {"act": "add", "fields": fields}, [*([Change("state", letter, state="list")] if is_absent else []),
                                                  Change("put", letter, end, ace)]

    def sort(self, _):
        return {"act": "sort"}, [Change("order", letter) for letter in LISTS
                                 if first_out_of_order(letter, self.aces(letter)) is not None]

    def owner(self, _):
        part = self.chance.choice(["owner", "group"])
        name, sid = self.chance.choice([*NAMED.items(), ("", None)])
        if getattr(self.now, part) == (sid and sid_of(sid)):
            return self.add(None)
        return {"act": "field", "fields": [[part, name]]}, [Change(part, sid=sid and sid_of(sid))]

    def inherit(self, _):
        if self.now.control & PROTECTED["D"]:
            return {"act": "again"}, [Change("control", clear_bits=PROTECTED["D"])]
        if not any(ace.flags & FLAGS["ID"] for ace in self.aces("D")):
            return {"act": "stop"}, self.stopped("D", "set each", setting=Setting(clear_flags=FLAGS["ID"]))
        keeps = self.chance.random() < 0.5
        more = {"setting": Setting(clear_flags=FLAGS["ID"])} if keeps else {}
        return {"act": "keep" if keeps else "drop"}, self.stopped("D", "set each" if keeps else "take each", **more)

    def undo(self, letter):
        return ({"act": "undo"}, None) if self.past else self.add(letter)

    def redo(self, letter):
        return ({"act": "redo"}, None) if self.future else self.add(letter)

    def follow(self, act, changes):
        """The descriptor after a step, by the reference."""
        if changes is None:
            one, other = (self.past, self.future) if act["act"] == "undo" else (self.future, self.past)
            other.append(self.now)
            self.now = one.pop()
            return
        _, after = edit(self.now, changes)
        self.past.append(self.now)
        self.future = []
        self.now = after


def random_text(chance, kind):
    """A descriptor to begin with."""
    names = list(MASKS[kind])

    def ace(sort):
        guid = chance.choice(GUIDS) if kind == "ds" and sort in ("OA", "OD") else ""
        own = sort if guid or not sort.startswith("O") else sort[-1]
        return (f"({own};{chance.choice(PLACES[kind])}{chance.choice(['', 'ID'])};"
                f"{hex(MASKS[kind][chance.choice(names)])};{guid};;{chance.choice(SIDS)})")

    aces = [ace(chance.choice(["A", "A", "D", "OA", "OD"])) for _ in range(chance.randint(1, 5))]
    audit = f"S:(AU;SA;0x2;;;{chance.choice(SIDS)})" if chance.random() < 0.3 else ""
    return (f"{chance.choice(['', 'O:S-1-5-32-544', 'O:S-1-5-21-1-2-3-1001'])}{chance.choice(['', 'G:SY'])}"
            f"D:{chance.choice(['', 'AI', 'P'])}{''.join(aces)}{audit}")


def in_library(change):
    """A change as the library of JavaScript takes it, with SIDs and GUIDs in hex."""
    given = {"change": NAMES.get(change.name, change.name), "acl": LISTS.get(change.acl), "place": change.place}
    if change.ace:
        kind, flags, mask, object_type, inherited, sid = change.ace
        given["ace"] = {"kind": kind, "flags": flags, "mask": mask, "sid": sid.to_bytes().hex(),
                        "objectType": object_type and object_type.hex(),
                        "inheritedObjectType": inherited and inherited.hex()}
    if change.match:
        given["match"] = {"flags": change.match.flags, "flagsMask": change.match.flags_mask}
    if change.setting:
        given["setting"] = {"clearFlags": change.setting.clear_flags}
    if change.name in ("owner", "group"):
        given["sid"] = change.sid and change.sid.to_bytes().hex()
    if change.name == "state":
        given["state"] = change.state
    if change.name == "control":
        given.update({"setControl": change.set_bits, "clearControl": change.clear_bits})
    return {name: value for name, value in given.items() if value is not None or name == "sid"}


def trustees(descriptors):
    """Those whose rights a comparison asks about. No token has the SID of owner rights, also where it is the owner."""
    sids = set()
    for one in descriptors:
        aces = one.dacl.aces if one.dacl else ()
        sids |= {one.owner} | {ace.sid for ace in aces if kind_of(ace) in DECIDING}
        sids |= set() if one.dacl else {sid_of("S-1-1-0")}
    return {sid.text() for sid in sids if sid} - {OWNER_RIGHTS}


class Checks:
    """Access checks, each of which is asked of the program once, all of a token and an object type together."""

    def __init__(self, program, kind):
        self.program, self.mapping = program, KINDS[kind]
        self.lines, self.told = collections.defaultdict(dict), {}

    def want(self, line, sid, guid):
        self.lines[sid, guid][line] = True

    def ask(self):
        for (sid, guid), lines in self.lines.items():
            words = ["check", "--token", sid, "--maximum", "--type",
                     self.mapping, *(["--object", guid] if guid else [])]
            told = run(self.program, words, "".join(f"{line}\n" for line in lines).encode()).stdout.decode().split("\n")
            for line, answer in zip(lines, told):
                verdict, mask = answer.split(" ")
                self.told[line, sid, guid] = int(mask, 16) if verdict == "granted" else 0

    def differing(self, one, other, sid, guid):
        before, after = self.told[one, sid, guid], self.told[other, sid, guid]
        return after & ~before, before & ~after


def rights_between(checks, one, other, sids, guids):
    """Who gains and who loses, as the page tells it."""
    found = []
    for sid in sids:
        gained, lost = checks.differing(one, other, sid, "")
        typed = [[guid, more & ~gained, less & ~lost] for guid in guids
                 for more, less in [checks.differing(one, other, sid, guid)] if more & ~gained or less & ~lost]
        if gained or lost or typed:
            found.append([sid, gained, lost, sorted(typed)])
    return sorted(found)


def test_random_edits(count, page, given):
    """Random steps through the page: each new text is that of the reference and of the library, and so are gains and
    losses, by access checks."""
    chance = random.Random(given.seed)
    page.open()
    page.do("put('common', false);")
    of_library = []
    for kind in ("folder", "ds"):
        page.do("put('kind', given[0]);", kind)
        checks, shown = Checks(given.program, kind), []
        guids = [guid for guid in sorted(set(GUIDS)) if guid] if kind == "ds" else []
        for _ in range(given.edits // 20):
            text = random_text(chance, kind)
            first = bytes.fromhex(line_of(given.program, ["convert", "--from", "sddl", "--to", "hex"], text))
            steps, done, states = Steps(chance, kind, read(first)), [], []
            for _ in range(10):
                act, changes = steps.step()
                before = steps.now
                steps.follow(act, changes)
                done.append(act)
                states.append(steps.now)
                if changes is not None:
                    of_library.append((before, changes, steps.now))
            for state in states:
                for sid in trustees([read(first), state]):
                    for guid in ["", *guids]:
                        checks.want(first.hex(), sid, guid)
                        checks.want(layout(state).hex(), sid, guid)
            shown.append((text, first, done, states, page.call("editSteps", text, done)))
        checks.ask()
        lines = "".join(f"{layout(state).hex()}\n" for _, _, _, states, _ in shown for state in states)
        texts = iter(run(given.program, ["convert", "--to", "sddl"], lines.encode()).stdout.decode().splitlines())
        for text, first, done, states, got in shown:
            for number, (state, one) in enumerate(zip(states, got[1:])):
                wanted = next(texts)
                about = f"{kind} {text} {done[:number + 1]}"
                count.add(one["sddl"] == wanted, f"{about}: {one['sddl']}, not {wanted}, {one['fault']}")
                rights = rights_between(checks, first.hex(), layout(state).hex(), trustees([read(first), state]), guids)
                told = sorted([*row[:3], sorted(row[3])] for row in one["rights"])
                count.add(told == rights, f"{about}: who gains and loses is {told}, not {rights}")
    page.do("put('common', true);")
    judge_library(count, of_library)


def judge_library(count, edits):
    """The reference, and so the page, beside the library itself."""
    if not (shutil.which("node") and LIBRARY.exists()):
        print(f"skipped: no Node, or no {LIBRARY}")
        return
    given = json.dumps([{"descriptor": layout(before).hex(), "changes": list(map(in_library, changes))}
                        for before, changes, _ in edits])
    ended = subprocess.run(["node", str(SCRIPT), str(LIBRARY)], input=given, capture_output=True, text=True,
                           timeout=SECONDS)
    answers = json.loads(ended.stdout) if ended.returncode == 0 else []
    count.add(len(answers) == len(edits), f"the library gave no answers: {ended.stderr[-2000:]}")
    for (_, changes, after), answer in zip(edits, answers):
        count.add(answer == layout(after).hex(), f"{changes}: the library gives {answer}, not {layout(after).hex()}")


SHOWN = "await until(isIdle); await pause(20); return editShown();"
OWN = "O:BAG:SYD:PAI(D;;LC;;;BU)(A;OICI;FA;;;SY)(A;OICI;0x1301bf;;;AU)(A;OICI;FA;;;BA)S:AI(ML;OICI;NW;;;ME)"
ALL = PROJECTS.partition(" ")[2]
MODIFY = "Authenticated Users can modify this folder and everything in it"
ONLY = "Only administrators and the system can change this folder"


def press(page, *keys):
    """Presses keys, and gives what the edit then shows."""
    page.browser.press(*keys)
    return page.do(SHOWN)


def reach(page, name):
    """Presses Tab until a control has the focus. Gives how often, or None."""
    for presses in range(1, 60):
        page.browser.press("Tab")
        if page.do("return document.activeElement.id;") == name:
            return presses
    return None


def test_edit_by_keys(count, page, _):
    """A whole edit by keys alone, which is spoken: an ACE goes, changes, moves and comes, and each step is undone."""
    page.open()
    page.do(PASTE, PROJECTS)
    page.do("window.focus(); byId('tab-look').focus();")
    got = press(page, *["ArrowRight"] * 4)
    count.add([got["sddl"], got["verdict"], got["sentence"]] == [ALL, "act", MODIFY], f"before the first step: {got}")
    count.add(reach(page, "edit-dacl-1") is not None, "the Tab key does not reach the ACEs")
    count.add(press(page, "ArrowDown", "ArrowDown")["focus"] == "edit-dacl-3", "arrows do not lead to an ACE")
    gone = press(page, "Delete")
    wanted = [OWN.replace("(A;OICI;0x1301bf;;;AU)", ""), "fine", f"After the change: {ONLY}", "edit-dacl-3"]
    count.add([gone["sddl"], gone["verdict"], gone["sentence"], gone["focus"]] == wanted, f"Del: {gone}")
    count.add(gone["why"] == f"Before: {MODIFY}. 1 step.", f"what was before: {gone['why']}")
    lost = [row[0] for row in gone["rights"] if row[2]]
    count.add("S-1-5-11" in lost and "S-1-5-32-545" in lost and "S-1-5-18" not in lost, f"who loses: {gone['rights']}")
    said = page.do("await until(() => /taken away/.test(byId('spoken').textContent)).catch(() => null); "
                   "return byId('spoken').textContent;")
    count.add(said.startswith(f"ACE 3 taken away. Fine: After the change: {ONLY}. Before: {MODIFY}"), f"said: {said}")
    got = press(page, "Control+z")
    count.add([got["sddl"], got["verdict"], got["aces"]] == [ALL, "act", ["same"] * 5], f"undone: {got}")
    count.add(press(page, "Control+y") == {**gone, "focus": got["focus"]}, "done again")
    got = press(page, "Control+z", "ArrowUp", "Alt+ArrowDown")
    count.add(got["focus"] == "edit-dacl-3" and "(A;OICI;0x1301bf;;;AU)(A;OICI;FA;;;SY)(A;OICI;FA;;;BA)" in got["sddl"],
              f"moved: {got}")
    got = press(page, "Control+z", "Home", "Enter")
    count.add(got["focus"] == "edit-sid", f"Enter leads to {got['focus']}")
    got = press(page, "Control+a", *"everyone", "Enter")
    text = ALL.replace("(D;;LC;;;BU)", "(D;;LC;;;WD)")
    is_one = got["aces"] == ["changed", "same", "same", "same", "same"]
    count.add([got["sddl"], got["focus"], is_one] == [text, "edit-sid", True], f"another trustee: {got}")
    # A field of a text has an undo of its own.
    got = press(page, "x", "Control+z")
    count.add(got["sddl"] == text, f"Ctrl+Z in a field: {got}")
    reach(page, "edit-set")
    got = press(page, *"full")
    count.add("(D;;FA;;;WD)" in got["sddl"] and got["focus"] == "edit-set", f"another set of rights: {got}")
    got = press(page, "Control+z", "Escape")
    count.add([got["sddl"], got["focus"]] == [text, "edit-dacl-1"], f"Escape: {got}")
    reach(page, "edit-add")
    got = press(page, "Enter", *"Users")
    count.add(got["focus"] == "edit-sid", f"a new ACE begins at {got['focus']}")
    reach(page, "edit-put")
    got = press(page, "Enter")
    count.add("(A;OICI;FR;;;BU)(A;OICIID;FA;;;SY)" in got["sddl"] and got["focus"] == "edit-dacl-2",
              f"a new ACE: {got}")
    got = press(page, "Control+z", "Control+z")
    count.add([got["sddl"], got["aces"]] == [ALL, ["same"] * 5], f"all is undone: {got}")


def test_take(count, page, _):
    """One press takes the ACE of the verdict away, and the object stops inheriting: so it says, with the folder above.
    Undone, the text is that before all steps."""
    page.open()
    page.do(PASTE, PROJECTS)
    got = page.do(f"byId('take').click(); byId('take').click(); {SHOWN}")
    count.add([got["verdict"], got["sentence"]] == ["fine", f"After the change: {ONLY}"], f"one press: {got}")
    told = page.do("return byId('edit-list').textContent;")
    count.add("ACEs 2, 3, 4 were inherited" in told and "change them in D:\\Data" in told,
              f"what is said: {told[:600]}")
    got = page.do(f"byId('edit-undo').click(); {SHOWN}")
    count.add([got["sddl"], got["sentence"], got["rights"]] == [ALL, MODIFY, []], f"undone: {got}")
    copied = page.do("let text = null; Object.defineProperty(navigator.clipboard, 'writeText', {configurable: true, "
                     "value: async (one) => { text = one; }}); byId('edit-redo').click(); await until(isIdle); "
                     "const all = []; for (const id of ['edit-copy', 'edit-copy-old']) { byId(id).click(); "
                     "await until(() => text !== null); all.push(text); text = null; } return all;")
    count.add(copied == [OWN.replace("(A;OICI;0x1301bf;;;AU)", ""), ALL], f"copied: {copied}")
    # What is pressed twice takes no other ACE, here and in the first view.
    got = page.do(f"byId('edit-undo').click(); await until(isIdle); byId('edit-take').click(); "
                  f"byId('edit-take').click(); {SHOWN}")
    count.add(got["why"].endswith(" 1 step.") and got["verdict"] == "fine", f"pressed twice: {got}")
    got = page.do(f"byId('tab-look').click(); byId('take').click(); {SHOWN}")
    count.add(got["why"].endswith(" 1 step.") and got["verdict"] == "fine", f"pressed again: {got}")
    # On a phone the focus leaves the verdict in view.
    page.browser.size(390, 844)
    page.open()
    page.do(PASTE, PROJECTS)
    for name in ("take", "edit-take"):
        got = page.do(f"byId('{name}').focus(); byId('{name}').click(); {SHOWN}")
        seen = page.do("await pause(500); const box = byId('edit-sentence').getBoundingClientRect(); "
                       "return box.top >= 0 && box.bottom <= innerHeight && byId('edit-sentence').checkVisibility();")
        count.add(seen and got["focus"] == "edit-dacl-3", f"after {name} on a phone: {seen}, {got['focus']}")
        page.do("byId('edit-undo').click(); await until(isIdle);")
    page.browser.size(1280, 900)
    page.open()
    page.do(f"{PASTE} byId('take').click(); await until(isIdle);", PROJECTS)
    # Another text begins anew, and the same one has its steps still.
    got = page.do(f"byId('tab-look').click(); byId('tab-edit').click(); {SHOWN}")
    count.add(got["why"].endswith("1 step."), f"after another view: {got}")
    got = page.do(f"pasteOver('O:BAD:(A;;FA;;;BU)'); byId('tab-edit').click(); {SHOWN}")
    count.add([got["sddl"], got["why"]] == ["O:BAD:(A;;FA;;;BU)", "Nothing is changed yet."], f"another text: {got}")


PRESS = ("const press = (number, key, altKey = false, ctrlKey = false) => byId(`edit-dacl-${number}`).dispatchEvent("
         "new window.KeyboardEvent('keydown', {key, altKey, ctrlKey, bubbles: true, cancelable: true})); "
         "const remove = () => first('#edit-dacl-1 .jump').click(); ")
ADMINISTRATORS, USERS, OTHERS = "(A;;FA;;;BA)", "(A;;FR;;;BU)", "(A;;FR;;;AU)"
# What is pressed in one turn of the page, before the first answer comes, and the ACEs after it.
QUICK = [
    ("press(1, 'Delete'); press(1, 'Delete');", [USERS, OTHERS]),
    ("remove(); remove();", [USERS, OTHERS]),
    ("press(1, 'ArrowDown', true); press(1, 'ArrowDown', true);", [USERS, ADMINISTRATORS, OTHERS]),
    ("byId('edit-dacl-2').click(); take('edit-sid', 'Everyone'); take('edit-rights', 'FX');",
     [ADMINISTRATORS, "(A;;FX;;;WD)", OTHERS]),
    ("byId('edit-dacl-2').click(); take('edit-rights', 'FX'); take('edit-rights', '0x120116');",
     [ADMINISTRATORS, "(A;;FW;;;BU)", OTHERS]),
    ("press(1, 'Delete', false, true); press(3, 'Delete');", [ADMINISTRATORS, USERS]),
    ("byId('edit-dacl-2').click(); take('edit-sid', 'Everyone'); press(1, 'Delete');", ["(A;;FR;;;WD)", OTHERS]),
    ("byId('edit-dacl-2').click(); press(1, 'Delete'); take('edit-sid', 'Everyone');", [USERS, OTHERS]),
    ("byId('edit-dacl-1').click(); take('edit-sid', 'Everyone'); byId('edit-down').click();",
     [USERS, "(A;;FA;;;WD)", OTHERS]),
]


def test_edit_quick(count, page, _):
    """What is pressed faster than the answers come is done to the ACE that is shown, or not at all. The fields of an
    ACE go where it goes."""
    page.open()
    page.do("put('kind', 'folder'); byId('tab-edit').click();")
    for number, (script, aces) in enumerate(QUICK):
        text = f"O:BA{'G:SY' * (number % 2)}D:{ADMINISTRATORS}{USERS}{OTHERS}"
        got = page.do(f"{PRESS} await see(given[0]); {script} {SHOWN}", text)
        count.add(got["sddl"] == text.partition("(")[0] + "".join(aces), f"{script}: {got}")
    got = page.do("return [first('tr.ace.chosen').id, first('tr.panel').previousSibling.id];")
    count.add(got == ["edit-dacl-2"] * 2, f"the fields of an ACE that has moved: {got}")
    # What is typed and is no step yet stays when an answer comes.
    got = page.do("take('edit-rights', 'FX'); byId('edit-sid').focus(); byId('edit-sid').value = 'Eve'; "
                  "await until(isIdle); await pause(20); return [byId('edit-sid').value, document.activeElement.id];")
    count.add(got == ["Eve", "edit-sid"], f"what was typed when an answer came: {got}")


# Steps, and the rows of the table after them: what became of each ACE, and what it was. An ACE is known by where it
# comes from, whatever else became of it.
STATES = [
    (f"D:{ADMINISTRATORS}{USERS}{OTHERS}", ["byId('edit-dacl-1').click(); take('edit-sid', 'Everyone');"],
     [["changed", "was Administrators"], ["same", ""], ["same", ""]]),
    (f"D:{ADMINISTRATORS}{USERS}{OTHERS}", ["byId('edit-dacl-1').click(); take('edit-sid', 'Everyone');",
                                            "byId('edit-down').click();"],
     [["same", ""], ["changed", "was Administrators"], ["same", ""]]),
    (f"D:{ADMINISTRATORS}(D;;FW;;;BU)", ["byId('edit-dacl-1').click(); take('edit-sid', 'Everyone');",
                                         "byId('edit-sort').click();"],
     [["same", ""], ["changed", "was Administrators"]]),
    ("D:AI(A;ID;FA;;;SY)(A;;FR;;;BU)", ["byId('edit-dacl-2').click(); take('edit-sid', 'Everyone');",
                                        "byId('edit-drop').click();"],
     [["removed", ""], ["changed", "was Users"]]),
    (f"D:{USERS}{ADMINISTRATORS}", ["byId('edit-dacl-1').click(); byId('edit-down').click();"],
     [["same", ""], ["moved", "was 1"]]),
]


def test_edit_states(count, page, _):
    """The table tells what became of each ACE, also of one that was changed and then moved, sorted or kept."""
    page.open()
    page.do("put('kind', 'folder'); byId('tab-edit').click();")
    for number, (text, steps, wanted) in enumerate(STATES):
        page.do("await see(given[0]);", f"O:BA{'G:SY' * (number % 2)}{text}")
        for step in steps:
            page.do(f"{step} {SHOWN}")
        got = page.do("return each('table.edit tr.compared', (row) => [row.dataset.state ?? 'removed', "
                      "/was .*/.exec(row.querySelector('.change')?.textContent)?.[0] ?? '']);")
        count.add(got == wanted, f"{text} after {steps}: {got}, not {wanted}")
    told = page.do("await see('O:BAD:AI(A;ID;FA;;;SY)(A;;FR;;;BU)'); byId('edit-drop').click(); await until(isIdle); "
                   "return byId('edit-list').textContent;")
    count.add("keeps them as its own" not in told, f"what was dropped is kept: {told[:500]}")


# Fields, and the SDDL after a change of each.
FIELDS = [
    ("folder", "D:(A;OICINP;FR;;;BU)", "byId('edit-dacl-1').click(); take('edit-where', '');", "D:(A;;FR;;;BU)"),
    ("folder", "D:(A;OICI;FR;;;BU)", "byId('edit-dacl-1').click(); byId('edit-NP').click();", "D:(A;OICINP;FR;;;BU)"),
    ("folder", "D:(A;;FX;;;BU)", "byId('edit-dacl-1').click(); byId('edit-right-128').click();",
     "D:(A;;0x120020;;;BU)"),
    ("ds", "D:(A;CI;RP;;;BU)", "byId('edit-dacl-1').click(); take('edit-inherited', 'user');",
     "D:(OA;CI;RP;;bf967aba-0de6-11d0-a285-00aa003049e2;BU)"),
    ("ds", "D:(OD;;RP;bf9679c0-0de6-11d0-a285-00aa003049e2;;BU)", "byId('edit-dacl-1').click(); "
     "take('edit-object', '');", "D:(D;;RP;;;BU)"),
    ("folder", "D:S:AI(AU;SAID;FA;;;WD)", "byId('edit-sacl-keep').click();", "D:S:PAI(AU;SA;FA;;;WD)"),
    ("folder", "D:S:AI(AU;SAID;FA;;;WD)", "byId('edit-sacl-drop').click();", "D:S:PAI"),
    ("folder", "D:(A;;FA;;;BA)(D;;FW;;;BU)S:AI(AU;SAID;FA;;;WD)(AU;SA;FA;;;WD)", "byId('edit-sort').click();",
     "D:(D;;FW;;;BU)(A;;FA;;;BA)S:AI(AU;SA;FA;;;WD)(AU;SAID;FA;;;WD)"),
    # What a new ACE has besides depends on its type.
    *(("folder", "D:", "byId('edit-add').click(); for (const type of "
       f"{types}) {{ take('edit-kind', type); await pause(50); }} take('edit-sid', '{sid}'); await pause(50); "
       "byId('edit-put').click();", wanted) for types, sid, wanted in (
        (["ML"], "S-1-16-4096", "D:S:(ML;OICI;NW;;;LW)"), (["AU"], "Everyone", "D:S:(AU;OICISAFA;FR;;;WD)"),
        (["AU", "ML", "D"], "Everyone", "D:(D;OICI;FR;;;WD)"))),
]


def test_edit_fields(count, page, given):
    """Each field and button changes what it names, and nothing else."""
    page.open()
    page.view("edit")
    for number, (kind, text, script, wanted) in enumerate(FIELDS):
        page.do("put('kind', given[0]);", kind)
        front = f"O:BA{'G:SY' * (number % 2)}"
        got = page.do(f"await see(given[0]); {script} {SHOWN}", front + text)
        hexes = [line_of(given.program, ["convert", "--from", "sddl", "--to", "hex"], one)
                 for one in (front + wanted, got["sddl"])]
        count.add(hexes[0] == hexes[1], f"{kind} {text}, {script}: {got['sddl']}, not {wanted}, {got['fault']}")


def test_edit_faults(count, page, _):
    """What can't be done is said with its words and its place, and nothing is lost of what was typed or done."""
    page.open()
    text = "O:BAD:(A;;FA;;;BA)(A;;FR;;;BU)"
    page.do(f"put('kind', 'folder'); byId('tab-edit').click(); await see('{text}'); byId('edit-dacl-2').click();")
    for field, typed, words in (("sid", "Somebody", ["SID", "ACE 2 of the DACL", "error 25", "replace the name"]),
                                ("sid", HOSTILE, ["SID", "error 25"]), ("sid", "", ["error 25"]),
                                ("rights", "XX", ["field 3 (rights)", "ACE 2", "error 27"]),
                                ("rights", "0x1ffffffff", ["error 27"])):
        got = page.do(f"take('edit-{field}', given[0]); {SHOWN}", typed)
        kept = page.do(f"return [byId('edit-{field}').value, byId('edit-{field}').getAttribute('aria-invalid')];")
        count.add(all(word in got["fault"] for word in words), f"{field} {typed!r}: {got['fault']}")
        count.add([got["sddl"], *kept] == [text, typed, "true"], f"{field} {typed!r}: {got['sddl']} {kept}")
        got = page.do(f"take('edit-{field}', '{'FR' if field == 'rights' else 'BU'}'); {SHOWN}")
        count.add([got["sddl"], got["fault"]] == [text, ""], f"after {field} {typed!r}: {got}")
    got = page.do(f"take('edit-owner', 'Nobody here'); {SHOWN}")
    count.add("the owner" in got["fault"] and "error 25" in got["fault"] and got["sddl"] == text, f"an owner: {got}")
    count.add(page.do("return window.wasHit ?? null;") is None, "a text became markup")
    page.do("put('kind', 'ds'); await until(isIdle);")
    got = page.do(f"take('edit-object', 'x-y'); {SHOWN}")
    count.add("field 4 (object type)" in got["fault"] and "error 28" in got["fault"], f"an object type: {got['fault']}")
    # Without a list there is no place for an ACE, and what was typed stays until there is one.
    page.do("put('kind', 'folder'); await see('O:BA'); byId('edit-add').click(); take('edit-sid', 'Everyone'); "
            "await pause(20);")
    got = page.do(f"byId('edit-put').click(); {SHOWN}")
    count.add("the DACL" in got["fault"] and "error 73" in got["fault"] and "make a list" in got["fault"],
              f"without a list: {got}")
    count.add(got["rights"] == [] and page.do("return byId('edit-sid').value;") == "Everyone", f"what was typed: {got}")
    got = page.do(f"byId('edit-list-make').click(); {SHOWN}")
    lost = [["S-1-1-0", 0, 0x1f01ff, []], ["S-1-5-32-544", 0, 0x1f01ff & ~0x60000, []]]
    count.add([got["sddl"], sorted(got["rights"])] == ["O:BAD:", lost], f"an empty list: {got}")
    got = page.do(f"byId('edit-put').click(); {SHOWN}")
    count.add(got["sddl"] == "O:BAD:(A;OICI;FR;;;WD)", f"what was typed before: {got}")


def test_edit_shown(count, page, _):
    """Long, hostile and right-to-left names, at 320 pixels, in both themes: nothing is cut, faint or without a name."""
    sid = "S-1-5-21-1-2-3-1001"
    page.open()
    page.do("put('names', given[0]); put('kind', 'folder'); byId('tab-edit').click(); await see(given[1]);",
            f"{sid} {LONG}\nS-1-5-32-545 {HOSTILE}",
            f"{LONG} O:{sid}D:AI(A;OICIID;FA;;;{sid})(A;;FR;;;BU)(A;;FA;;;WD)(AU;SA;FA;;;WD)")
    try:
        for width in (320, 1280):
            page.browser.size(width, 800)
            for theme in ("light", "dark"):
                page.do("document.documentElement.dataset.theme = given[0];", theme)
                for act in ("byId('edit-add').click();", "byId('edit-dacl-1').click(); byId('edit-boxes').open = true;",
                            "byId('edit-remove').click(); await until(isIdle); byId('edit-undo').click();"):
                    page.do(f"{act} await until(isIdle); await pause(50);")
                    wide = page.do("return [document.scrollingElement.scrollWidth, innerWidth];")
                    count.add(wide[0] <= wide[1], f"{act} at {width} pixels is {wide[0]} wide in {wide[1]}")
                    faint, names = page.call("contrast"), page.call("namesAndLabels")
                    count.add(not faint, f"{act}, {theme}: too little contrast: {faint[:5]}")
                    count.add(not any(names.values()), f"{act}: {names}")
                    small = page.call("smallControls")
                    count.add(not small, f"{act} at {width} pixels: {len(small)} controls are too small: {small[:8]}")
    finally:
        page.browser.size(1280, 900)
    count.add(page.do("return window.wasHit ?? null;") is None, "a name became markup")
    got = page.do(f"byId('edit-dacl-2').click(); take('edit-sid', given[0]); {SHOWN}", LONG)
    count.add(f"(A;;FR;;;{sid})" in got["sddl"], f"a name for its SID: {got}")
