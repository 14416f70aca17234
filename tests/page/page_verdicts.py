"""Asks the page for its first line. That says who can change an object, and how grave it is. The test asks in Node,
over the module that `make wasm` builds. Each case of the verdict has rows with its sentence, worked out by hand. Each
row of windows/examples.toml, and each class of Windows' schema if Debian's samba-ad-provision is there, has the verdict
that its findings and their severities give, and what Windows itself sets is never grave.
Without Node or the module it is skipped in a line.
"""
import functools
import json
import os
import pathlib
import shutil
import subprocess
import tomllib

import preload
import risk_rows

TOP = pathlib.Path(__file__).resolve().parents[2]
SCRIPT = pathlib.Path(__file__).resolve().with_suffix(".mjs")
SECONDS = 1200

ACCOUNT = "S-1-5-21-1-2-3-1105"
RESET = "00299570-246d-11d0-a768-00aa006e0529"  # User-Force-Change-Password
CHANGE = "ab721a53-1e2f-11d0-9819-00aa0040529b"  # User-Change-Password
USER = "bf967aba-0de6-11d0-a285-00aa003049e2"
FOLDER = "C:\\Data "
BASE = "(A;OICI;FA;;;SY)(A;OICI;FA;;;BA)"
ONLY = "Only administrators and the system can change this folder"
MADE = "Account 1105 has full control of what is made in this folder, not the object itself, beside administrators"
# The text, the verdict and the sentence.
ROWS = [
    # No descriptor, or one that is refused.
    ("hello", "unknown", "This is no security descriptor"),
    ("Path Owner Access\n---- ----- ------\nData CORP\\ann BUILTIN\\Users Allow  FullControl", "unknown",
     "This is the table of Get-Acl, which leaves the descriptor out"),
    ("Data CORP\\Sales:(OI)(CI)(F)", "unknown", "This listing of icacls has names that need SIDs"),
    ("C:\\Data", "unknown", "This is a path, without its descriptor"),
    ("D:(A;;FA;;;BA)(A;;FR;;;)", "unknown", "Can't be read: ACE 2 has no trustee."),
    ("D:(A;;FA;;;Everyone)", "unknown", "Can't be read: ACE 1: \u201cEveryone\u201d is no SID."),
    ("D:(A;;XX;;;BA)", "unknown", "Can't be read: ACE 1: \u201cXX\u201d are no rights."),
    # Conditions.
    ('O:BAG:SYD:(XA;;FA;;;WD;(@User.Title=="PM"))(A;;FA;;;BA)', "unknown",
     "Depends on the condition of ACE 1: if it holds, Everyone has full control of this folder"),
    ('O:BAG:SYD:(XD;;FA;;;WD;(@User.Title=="PM"))(A;;FA;;;BU)', "unknown",
     "Depends on the condition of ACE 1: unless it holds, Users have full control of this folder"),
    ('O:BAG:SYD:(XA;;FA;;;BU;(Member_of {SID(BA)}))(A;;FA;;;WD)', "act", "Everyone has full control of this folder"),
    ('O:BAG:SYD:(XA;;FR;;;BU;(Member_of {SID(BA)}))(A;;FA;;;BA)', "fine",
     "Only administrators can change this folder"),
    # What is surely granted, if both agree; that of an ACE with an object type; several conditions, and an open kind.
    ('O:BAG:SYD:(XA;;FA;;;WD;(@User.Title=="PM"))(A;;0x1301bf;;;WD)', "act", "Everyone can modify this folder"),
    ({"text": f'O:BAD:(ZA;;CR;{RESET};;{ACCOUNT};(@User.Title=="PM"))(A;;0xf01ff;;;BA)', "kind": "ds",
      "isKindChosen": True, "classes": "user"}, "unknown",
     "Depends on the condition of ACE 1: if it holds, Account 1105 can set a new password"),
    ('O:BAG:SYD:(XA;;FR;;;BU;(@User.Title=="PM"))(XA;;FA;;;WD;(@User.Title=="PM"))(A;;FA;;;BA)', "unknown",
     "Depends on the conditions of ACEs 1, 2. At worst: Everyone has full control of this folder"),
    ('D:(XA;;DC;;;WD;(@User.Title=="PM"))(A;;GA;;;SY)', "unknown",
     "Depends on what this is: Everyone may be able to change it"),
    ('D:(XA;;GA;;;WD;(@User.Title=="PM"))(A;;GA;;;SY)', "unknown",
     "Depends on the condition of ACE 1: if it holds, Everyone has full control"),
    ('O:BAG:SYD:(A;;FA;;;BA)S:(RA;;;;;WD;("Project",TS,0,"Windows"))', "fine",
     "Only administrators can change this folder"),
    ('O:BAG:SYD:(XA;;FA;;;WD;(@User.Title=="PM")', "unknown",
     "Can't be read: ACE 1: XA, conditional allow (callback), is not evaluated."),
    # No list, or one that lets nobody in.
    (FOLDER + "O:BAG:SYD:NO_ACCESS_CONTROL", "act", "Everyone has full control: the DACL is null"),
    (FOLDER + "O:BAG:SY", "act", "Everyone has full control: there is no DACL"),
    (FOLDER + "O:BAG:SYD:", "look", "Nobody gets in: the DACL is empty"),
    (FOLDER + "O:BAG:SYD:(A;OICIIO;FA;;;BU)", "look", "Nobody gets in: no ACE allows anything here"),
    (FOLDER + "O:BAG:SYD:(D;;FA;;;BU)", "look", "Nobody gets in: no ACE allows anything here"),
    (FOLDER + "O:BAG:SYD:(D;;FA;;;WD)(A;;FA;;;BA)", "look", "Nobody gets in: ACE 1 denies everyone"),
    # The owner of such a list can give itself any right.
    (FOLDER + f"O:{ACCOUNT}G:SYD:", "look", "Account 1105 owns this folder, and so can change its permissions"),
    # What the rules find, the worst of it.
    ("D:\\Data\\Projects O:BAG:SYD:AI(D;;LC;;;BU)(A;OICIID;FA;;;SY)(A;OICIID;0x1301bf;;;AU)(A;OICIID;FA;;;BA)S:AI"
     "(ML;OICI;NW;;;ME)", "act", "Authenticated Users can modify this folder and everything in it"),
    (FOLDER + f"O:BAG:SYD:(A;OICI;0x1301bf;;;BU)(A;;FA;;;{ACCOUNT})(A;;FA;;;WD)", "act",
     "Everyone has full control of this folder"),
    (FOLDER + "O:BAG:SYD:(A;OICIIO;FA;;;WD)(A;;0x1301bf;;;BU)" + BASE, "act", "Users can modify this folder"),
    (FOLDER + "O:BAG:SYD:(A;OICIIO;FA;;;BU)" + BASE, "look",
     "Users have full control of what is made in this folder, not the object itself"),
    (FOLDER + f"O:BAG:SYD:(A;;FA;;;{ACCOUNT})" + BASE, "look", "Account 1105 has full control of this folder"),
    (FOLDER + f"O:BAG:SYD:(A;;WO;;;{ACCOUNT})" + BASE, "look", "Account 1105 can take ownership of this folder"),
    (FOLDER + f"O:{ACCOUNT}G:SYD:" + BASE, "look",
     "Account 1105 owns this folder, and so can change its permissions"),
    (FOLDER + "O:BAG:SYD:(A;;FW;;;AC)" + BASE, "look", "All Application Packages can write this folder"),
    # A share's files have permissions of their own.
    ({"text": "O:BAG:SYD:(A;;FA;;;WD)", "kind": "share", "isKindChosen": True}, "look",
     "Everyone has full control of files through this share"),
    # Aliases of an unknown domain.
    (FOLDER + "O:DAG:DUD:(A;;FA;;;DU)", "act", "Domain Users have full control of this folder"),
    (FOLDER + "O:DAG:DUD:(A;;FA;;;DA)(A;;FR;;;DU)", "fine", "Only administrators can change this folder"),
    # An ability of a directory object, and one that its class decides about.
    ({"text": f"O:BAD:(OA;;CR;{RESET};;{ACCOUNT})", "kind": "ds", "isKindChosen": True, "classes": "user"}, "act",
     "Account 1105 can set a new password"),
    (f"O:BAD:(OA;;CR;{RESET};;{ACCOUNT})", "unknown",
     "Depends on its class: if it is a user or one of 5 other classes, Account 1105 can set a new password"),
    # Named accounts, and those who are trusted.
    (FOLDER + f"O:BAG:SYD:(A;OICI;0x1301bf;;;{ACCOUNT})" + BASE, "named",
     "Account 1105 can modify this folder and everything in it, beside administrators and the system"),
    (FOLDER + f"O:BAG:SYD:(A;;0x1301bf;;;{ACCOUNT})(A;;0x1301bf;;;S-1-5-21-1-2-3-1106)(A;;FW;;;LS)" + BASE, "named",
     "Account 1105 and 2 others can change this folder, beside administrators and the system"),
    (FOLDER + f"D:(A;;0x1301bf;;;{ACCOUNT})", "named", "Only Account 1105 can modify this folder"),
    (FOLDER + f"O:BAG:SYD:(D;;0x1301bf;;;{ACCOUNT})(A;;0x1301bf;;;{ACCOUNT})" + BASE, "fine", ONLY),
    (FOLDER + "O:BAG:SYD:" + BASE, "fine", ONLY),
    (FOLDER + "O:BAG:SYD:(A;OICIIO;GA;;;CO)(A;;0x1200a9;;;BU)" + BASE, "fine", ONLY),
    (FOLDER + "D:(A;;FR;;;WD)", "fine", "Nobody can change this folder"),
    (FOLDER + "D:(A;;FR;;;BA)(A;;FA;;;S-1-5-80-956008885-3418522649-1831038044-1853292631-2271478464)", "fine",
     "Only TrustedInstaller can change this folder"),
    # Everybody comes before an account that can do more.
    ({"text": f"O:{ACCOUNT}G:SYD:(OA;;KR;{RESET};;WD)", "kind": "process", "isKindChosen": True}, "named",
     "Only Everyone and Account 1105 can change this process"),
    # What is made in a folder. A deny that ends at its own children, or that is for a class, leaves the others.
    (FOLDER + f"O:BAG:SYD:(D;OICIIO;FA;;;{ACCOUNT})(A;OICIIO;FA;;;{ACCOUNT})(A;;FA;;;BA)", "fine",
     "Only administrators can change this folder"),
    (FOLDER + f"O:BAG:SYD:(D;OICINPIO;FA;;;{ACCOUNT})(A;OICIIO;FA;;;{ACCOUNT})(A;;FA;;;BA)", "named", MADE),
    ({"text": f"O:BAG:SYD:(OD;OICIIO;FA;;{USER};{ACCOUNT})(A;OICIIO;FA;;;{ACCOUNT})(A;;FA;;;BA)", "kind": "folder",
      "isKindChosen": True}, "named", MADE),
    # The kind is open: what all that fit have in common, or on whom it depends.
    ("D:(A;;GA;;;WD)", "act", "Everyone has full control"),
    ("D:(A;;WD;;;WD)", "act", "Everyone can change the permissions of this"),
    ("D:(A;;SD;;;WD)(A;;RC;;;BU)", "act", "Everyone can delete this"),
    (f"D:(A;;DC;;;{ACCOUNT})(A;;GA;;;SY)", "unknown", "Depends on what this is: Account 1105 may be able to change it"),
    (f"D:(A;;DC;;;{ACCOUNT})(A;;DC;;;S-1-5-21-1-2-3-1106)(A;;DC;;;LS)", "unknown",
     "Depends on what this is: 3 accounts may be able to change it"),
    ("O:SYD:(A;;GA;;;BA)(A;;RC;;;BU)", "fine", "Only administrators and the system can change this"),
]
# What is said below the sentence.
REASONS = [
    ("D:\\Data O:BAG:SYD:AI(D;;LC;;;BU)(A;OICIID;0x1301bf;;;AU)", "By ACE 2, inherited."),
    ("D:\\Data O:BAG:SYD:AI(D;;LC;;;BU)(A;OICIID;0x1301bf;;;AU)", "Except that Users may not add subfolders (ACE 1)."),
    (FOLDER + f"O:BAG:SYD:(A;;0x1301bf;;;WD)(A;;FA;;;{ACCOUNT})(A;;FA;;;S-1-5-21-1-2-3-1106)",
     "2 more findings below."),
    (FOLDER + "O:BAG:SYD:" + "".join(f"(D;;LC;;;{who})" for who in ("BU", "BG", "IU", "NU")) + "(A;;0x1301bf;;;AU)",
     "Except that Users may not add subfolders (ACE 1). Except that Guests may not add subfolders (ACE 2). More is "
     "denied by ACEs 3, 4."),
    (FOLDER + "O:BAG:SYD:(A;;0x1200a9;;;BU)" + BASE, "Users can read it."),
    (FOLDER + "O:DAG:DUD:(A;;FA;;;DA)", "for an unknown domain"),
    (FOLDER + "O:BAG:SY", "Unless the source left it out"),
    (FOLDER + "O:BAG:SYD:", "Administrators can still change that, as owner."),
    ('O:BAG:SYD:(XA;;FR;;;BU;(Member_of {SID(BA)}))(A;;FA;;;BA)', "ACE 1 has a condition"),
    ({"text": "O:BAG:SYD:(A;;FA;;;WD)", "kind": "share", "isKindChosen": True}, "permissions of their own"),
    ({"text": f"O:BAD:(OA;;CR;{CHANGE};;WD)(A;;0xf01ff;;;BA)", "kind": "ds", "isKindChosen": True, "classes": "user"},
     "Everyone has what Windows itself gives."),
    ("hello", "(Get-Acl PATH).Sddl"),
]
# What isn't said: somebody reads, or is denied, if a condition holds alone, and no finding stands below.
UNSAID = [('O:BAG:SYD:(XA;;FR;;;BU;(Member_of {SID(BA)}))(A;;FA;;;BA)', "can read it"),
          ('O:BAG:SYD:(XD;;LC;;;BU;(Member_of {SID(BA)}))(A;;0x1301bf;;;AU)', "Except"),
          *((f'O:BAG:SYD:{front}(A;;FA;;;WD)(A;;FA;;;{ACCOUNT}){end}', "below") for front, end in (
              ("(XA;;FR;;;BU;(Member_of {SID(BA)}))", ""), ("", 'S:(RA;;;;;WD;("Project",TS,0,"Windows"))')))]
# Windows gives these rights, but here they are for children alone, denied, denied first, or given by another ACE.
UNGIVEN = [*({"text": f"O:SYG:SYD:(A;OIIO;RPWPSDRCWDWO;;;AC){aces}(A;;GA;;;BA)", "kind": "printer",
              "isKindChosen": True} for aces in ("", "(A;;SWRC;;;AC)")),
           *({"text": f"O:BAD:{aces}(A;;0xf01ff;;;BA)", "kind": "ds", "isKindChosen": True, "classes": "user"}
             for aces in (f"(OD;;CR;{CHANGE};;WD)", f"(D;;GA;;;WD)(OA;;CR;{CHANGE};;WD)",
                          f"(A;;CR;;;WD)(OD;;CR;{CHANGE};;WD)"))]
# No exception: what is denied is granted before, is denied to children alone, or isn't granted.
UNEXCEPTED = [FOLDER + "O:BAG:SYD:(A;OICI;0x1301bf;;;AU)(D;;LC;;;BU)",
              FOLDER + "O:BAG:SYD:(A;;LC;;;BU)(D;;LC;;;BU)(A;OICI;0x1301bf;;;AU)",
              FOLDER + "O:BAG:SYD:(D;OICIIO;LC;;;BU)(A;OICI;0x1301bf;;;AU)",
              FOLDER + "O:BAG:SYD:(D;;WO;;;BU)(A;OICI;0x1301bf;;;AU)"]
DIRECTORY = ("ds", "template")
OF_NOTHING = {"fine", "named"}


@functools.lru_cache(None)
def severities():
    """The severities of each rule, usually and for directory objects, and of each ability, which may have several."""
    with open(TOP / "windows/rules.toml", "rb") as file:
        rules = tomllib.load(file)["rule"]
    abilities = {}
    with open(TOP / "windows/directory.toml", "rb") as file:
        for one in tomllib.load(file)["ability"]:
            abilities.setdefault(one["name"], set()).add(one["severity"])
    usual = {one["name"]: {one["severity"]} for one in rules}
    return {**usual, **abilities}, {**usual, **{one["name"]: {one.get("directory", one["severity"])} for one in rules},
                                    **abilities}


def severities_of(row, finding):
    rule, sid, _, *severity = finding.split("|")
    if severity:
        return set(severity)
    found = severities()[row["kind"] in DIRECTORY][rule]
    # An owner that is a group of everybody is as grave as that group's rights.
    return found | {"high"} if rule == "foreign-owner" and not sid.startswith("S-1-5-21-1-2-3-1") else found


def state_of(row):
    return {"text": row["sddl"], "kind": row["kind"], "isKindChosen": True, "classes": row.get("place", ""),
            "domain": row.get("domain", "")}


def judge_example(count, row, got):
    """A row has the verdict of the worst that is found, and without that none but one of nothing."""
    found = row.get("finds", ())
    each = [severities_of(row, one) for one in found]
    what = f"{row['kind']} {row.get('place', '')} {row['sddl']}: {got['verdict']}, {got['sentence']}"
    if got["key"] == "nobody":
        count.add(got["verdict"] == "look" and (not found or "make" in got["reasons"] or "below" in got["reasons"]),
                  f"{found} of {what}")
    elif not found:
        count.add(got["verdict"] in OF_NOTHING, f"nothing is found of {what}")
    elif row["kind"] == "ds" and not row.get("place"):
        count.add(got["verdict"] in {"act", "look", "unknown"}, f"{found} of {what}")
    elif {"high"} in each and row["kind"] != "share":
        count.add(got["verdict"] == "act", f"{found} of {what}")
    elif any("high" in one for one in each) and row["kind"] != "share":
        count.add(got["verdict"] in {"act", "look"}, f"{found} of {what}")
    elif {"medium"} in each or row["kind"] != "share":
        count.add(got["verdict"] == "look", f"{found} of {what}")
    else:
        # Groups of everybody are less grave for a share, and accounts are not.
        count.add(got["verdict"] in {"act", "look"}, f"{found} of {what}")


# What is shown first of each text, after what is chosen for it.
SHOWN = """
const found = [];
for (const {text, kind, classes = '', domain = ''} of given[0]) {
    if (kind && byId('kind').value !== kind) put('kind', kind);
    if (byId('domain').value !== domain) put('domain', domain);
    await see(text);
    if (classes) {
        put('classes', classes);
        await until(isIdle);
    }
    found.push([byId('first').dataset.verdict, byId('sentence').lastChild.textContent,
                byId('sentence-why').textContent]);
}
return found;
"""


def test_verdicts(count, page, _):
    """What the page itself shows first: the rows above, those that choose no kind before the others, and each example.
    """
    page.open()
    examples = risk_rows.rows()
    known = [(state if isinstance(state, dict) else {"text": state}, *wanted) for state, *wanted in ROWS]
    known.sort(key=lambda row: "kind" in row[0])
    shown = page.do(SHOWN, [row[0] for row in known] + [state_of(row) for row in examples])
    for (state, *wanted), got in zip(known, shown):
        count.add(got[:2] == wanted, f"{state}: the page shows {got}, not {wanted}")
    for row, (verdict, sentence, reasons) in zip(examples, shown[len(known):]):
        key = "nobody" if sentence.startswith("Nobody gets in") else ""
        judge_example(count, row, {"verdict": verdict, "sentence": sentence, "reasons": reasons, "key": key})


def judge_bare(count, row, own, got):
    """Where nothing tells the kind nothing is graver. The two attributes are told by their names, and what broad groups
    may do to a share is less grave."""
    is_open = got["asksKind"] is not None and row["kind"] not in ("share", "delegation", "managed-password")
    is_right = not is_open or got["verdict"] != "act" or own["verdict"] == "act"
    count.add(is_right, f"{row['sddl']} as {row['kind']}: {own['verdict']}, without a kind: {got['sentence']}")


def add_options(words):
    words.add_argument("--library", default=str(TOP / "out/systems/wasm/sdtool.mjs"), help="the page's library")


def asked(library, states):
    ended = subprocess.run(["node", str(SCRIPT), library], input=json.dumps(states), capture_output=True, text=True,
                           timeout=SECONDS)
    if ended.returncode:
        print(ended.stderr[-3000:])
        return None
    return json.loads(ended.stdout)


def main(count: preload.Count, chosen: preload.Given) -> None:
    if not (shutil.which("node") and os.path.exists(chosen.library)):
        print(f"skipped: no Node, or no {chosen.library}")
        return
    examples = risk_rows.rows()
    unsaid = [*UNSAID, *((text, "Windows itself gives") for text in UNGIVEN)]
    texts = (*(row[0] for row in (*ROWS, *REASONS, *unsaid)), *UNEXCEPTED)
    states = [*(text if isinstance(text, dict) else {"text": text} for text in texts), *map(state_of, examples),
              *({"text": row["sddl"]} for row in examples)]
    answers = asked(chosen.library, states)
    count.add(answers is not None, "the page gave no answers")
    if answers is None:
        return
    for (text, verdict, sentence), got in zip(ROWS, answers):
        count.add((got["verdict"], got["sentence"]) == (verdict, sentence),
                  f"{text}: {got['verdict']} {got['sentence']!r}, not {verdict} {sentence!r}")
    for (text, said), got in zip(REASONS, answers[len(ROWS):]):
        count.add(said in got["reasons"], f"{text}: {got['reasons']!r} has not {said!r}")
    for (text, said), got in zip(unsaid, answers[len(ROWS) + len(REASONS):]):
        count.add(said not in got["reasons"], f"{text}: {got['reasons']!r} has {said!r}")
    for text, got in zip(UNEXCEPTED, answers[len(ROWS) + len(REASONS) + len(unsaid):]):
        is_right = got["verdict"] == "act" and "Except" not in got["reasons"]
        count.add(is_right, f"{text}: {got['verdict']}, {got['sentence']}, {got['reasons']}")
    rest = answers[len(texts):]
    for row, own, bare in zip(examples, rest, rest[len(examples):]):
        judge_example(count, row, own)
        judge_bare(count, row, own, bare)
