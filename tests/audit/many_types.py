"""Tests how long descriptors with many trustees and object types take. Twice as many take at most 2.6 times the
instructions, in the questions of sdtool-audit: valgrind counts what each of two steps adds, and what else the machine
does changes nothing. Nor do twice as many levels of a name take more, or ACEs of two objects that are compared. On the
page four times as many take about four times as long. Too many pairs of a trustee and an object type are said to be
unknown. It needs what tests/audit/audit.py needs, Debian's valgrind, and for the page Node and the module that
`make wasm` builds.
"""
import concurrent.futures
import itertools
import json
import pathlib
import shutil
import tempfile

import abilities
import counted_calls
import preload

TRUSTEES, MOST_FOR_EACH = (20, 40, 80), 2.6  # twice the trustees are linear, four times are quadratic
LEVELS = (800, 1600, 3200)  # more than are looked at
ACES = (150, 300, 600)
JOBS = 2  # side by side
# On the page: four times the trustees take four times as long, and 16 times where every pair is asked.
FEW, MANY, MOST_GROWTH, LEAST = 200, 800, 8.0, 0.05
ROUNDS = 5
QUESTIONS = (("risks",), ("risks", "--rules", "create-children"), ("who", "change"), ("who", "create-children"),
             ("can", "WD", "change"), ("diff", "other.csv"))
# Answers a question in the process that counts.
ASK = """
import contextlib, io, sys
from sdtool.audit import command

def call(*words):
    sys.argv = ["sdtool-audit", *words]
    with contextlib.redirect_stderr(io.StringIO()):
        return command.status()
"""
# The ACEs of each trustee: here, below, denied and different below.
SHAPES = ("(OA;;CCWPCR;{0};;{1})", "(OA;CI;GA;{0};;{1})", "(OD;;WP;{0};;{1})(OA;;CC;{0};;{1})",
          "(OA;CIIO;CC;{0};;{1})(OA;;CR;{0};;{1})")


def many(trustees, types=0, aces="(OA;;CC;{0};;{1})"):
    """A descriptor in which each trustee has an object type of its own, and Everyone may read some."""
    guids = [f"12345678-0000-4000-8000-{at:012x}" for at in range(max(trustees, types))]
    own = "".join(aces.format(guid, f"S-1-5-21-1-2-3-{2000 + at}") for at, guid in enumerate(guids[:trustees]))
    return f"O:BAG:BAD:{own}" + "".join(f"(OA;;RP;{guid};;WD)" for guid in guids[:types])


def is_slow(counts):
    """Whether the second step adds more than twice what the first one does."""
    return counts[2] - counts[1] > MOST_FOR_EACH * (counts[1] - counts[0])


def growth_of(place, python, share):
    """What is wrong with the growth of some questions: each with the ACEs of each trustee."""
    wrong = []
    with tempfile.TemporaryDirectory() as name, counted_calls.CountedCalls(python, ASK, name) as counted:
        folder = pathlib.Path(name)
        for words, aces in share:
            paths = [folder / f"{trustees}.csv" for trustees in TRUSTEES]
            for path, trustees in zip(paths, TRUSTEES):
                path.write_text(f"Path,Sddl\none,{many(trustees // aces.count('(O'), 0, aces)}\n")
            asked = [str(paths[0]) if word == "other.csv" else word for word in words]
            counts = [counted.call(*asked, str(path), "--jobs", "1", "--type", "ds")[0]
                      for path in (paths[0], *paths)][1:]
            if is_slow(counts):
                wrong.append(f"{words} of {aces}: {', '.join(f'{one:,}' for one in counts)} instructions")
    return wrong


def test_growth(place):
    """Twice the trustees, each with an object type of its own."""
    if not shutil.which("valgrind"):
        print("growth: skipped, there is no command valgrind")
        return
    pairs = list(itertools.product(QUESTIONS, SHAPES))
    with concurrent.futures.ThreadPoolExecutor(JOBS) as pool:
        wrong = list(pool.map(lambda at: growth_of(place, place.python, pairs[at::JOBS]), range(JOBS)))
    place.expect(list(itertools.chain(*wrong)), [], "growth")


def test_levels(place):
    """Twice the levels of the name of an object that has inherited an ACE, of a folder or of a directory."""
    if not shutil.which("valgrind"):
        print("levels: skipped, there is no command valgrind")
        return
    made = {"deep.csv": "Path,Sddl\nC:{},O:BAD:(A;OICIID;FA;;;WD)\n",
            "deep.ldif": "dn: CN=a{}\nobjectClass: user\nnTSecurityDescriptor: O:BAD:(A;CIID;GA;;;WD)\n"}
    with tempfile.TemporaryDirectory() as folder, counted_calls.CountedCalls(place.python, ASK, folder) as counted:
        for name, level in zip(made, ("\\a folder", ",OU=a unit")):
            counts = []
            for levels in (LEVELS[0], *LEVELS):
                path = place.write(name, made[name].format(level * levels))
                counts.append(counted.call("risks", str(place.folder / path), "--jobs", "1")[0])
            place.expect(is_slow(counts[1:]), False, f"levels in {name}: {counts[1:]} instructions")


def listed(count, aces, first=2000):
    """ACEs for so many trustees."""
    return "".join(aces.format(f"S-1-5-21-1-2-3-{first + at}") for at in range(count))


def halves(count, flags):
    """So many ACEs, of which the first half denies."""
    return listed(count // 2, f"(D;{flags};GA;;;{{}})") + listed(count // 2, f"(A;{flags};GA;;;{{}})", 9000)


ENTRY = "dn: {}\nobjectClass: {}\nnTSecurityDescriptor: O:BAG:BAD:{}\n\n"
# Files with so many ACEs in an ACL, and the question about them: two lists that have none in common, an object that has
# none of its folder's, and a unit of a directory that denies to what is below.
MANY_ACES = {
    ("diff", "old.csv", "new.csv"): lambda count: {
        name: f"Path,Sddl\none,O:BAG:BAD:{listed(count, '(A;;FR;;;{})', first)}\n"
        for name, first in (("old.csv", 2000), ("new.csv", 9000))},
    ("inherit", "tree.csv"): lambda count: {
        "tree.csv": f"Path,Sddl\nC:\\,O:BAG:BAD:{listed(count, '(A;OICI;FR;;;{})')}\nC:\\a,O:BAG:BAD:AI"
                    f"{listed(count, '(A;OICIID;FR;;;{})')}\nC:\\a\\b,O:BAG:BAD:AI(A;ID;FA;;;BA)\n"},
    ("risks", "new.csv", "--baseline", "old.jsonl"): lambda count: {
        "new.csv": f"Path,Sddl\none,O:BAG:BAD:{listed(count, '(A;;FA;;;{})')}\n",
        "old.jsonl": json.dumps({"name": "one", "source": "old.csv", "line": 2, "answer": "found", "findings": [
            {"rule": "takeover", "trustee": f"S-1-5-21-1-2-3-{9000 + at}", "rights": "x", "text": "",
             "severity": "medium"} for at in range(count)]}) + "\n"},
    ("risks", "unit.ldif"): lambda count: {
        "unit.ldif": ENTRY.format("OU=a,DC=b", "organizationalUnit", halves(count, "CI")) +
        ENTRY.format("CN=c,OU=a,DC=b", "user", "AI" + halves(count, "CIID"))}}


def test_aces(place):
    """Twice the ACEs of an ACL."""
    if not shutil.which("valgrind"):
        print("ACEs: skipped, there is no command valgrind")
        return
    with tempfile.TemporaryDirectory() as folder, counted_calls.CountedCalls(place.python, ASK, folder) as counted:
        for words, make in MANY_ACES.items():
            counts = []
            for aces in (ACES[0], *ACES):
                paths = {name: str(place.folder / place.write(name, text)) for name, text in make(aces).items()}
                counts.append(counted.call(*(paths.get(word, word) for word in words), "--jobs", "1")[0])
            place.expect(is_slow(counts[1:]), False, f"ACEs of {words}: {counts[1:]} instructions")


def test_page(place):
    """Four times the trustees, by the least times of some rounds."""
    for aces in SHAPES:
        texts = [many(count // aces.count("(O"), 0, aces) for count in (4, FEW, MANY)]
        if not abilities.on_page(place, texts[:1]):
            return
        least = [float("inf")] * 3
        for _ in range(ROUNDS):
            taken = [one["time"] / 1e6 for one in abilities.on_page(place, texts * 2)[3:]]
            small, few, many_of_them = least = [min(pair) for pair in zip(least, taken)]
            growth = max(many_of_them - small, 0) / max(few - small, LEAST)
            if growth < MOST_GROWTH:
                break
        place.expect(growth < MOST_GROWTH, True,
                     f"the page of {aces}: {small:.2f}, {few:.2f} and {many_of_them:.2f} seconds")


def test_bound(place):
    """Fewer pairs are all asked about, and too many are unknown."""
    few, most = many(100, 90), many(300, 300)
    source = place.table([("few", few), ("most", most), ("plain", "O:BAD:(A;;GA;;;BA)")])
    for words in (("risks",), ("who", "change"), ("who", "create-children")):
        got = {one["name"]: one for one in place.objects(*words, source, "--type", "ds")}
        place.expect([got[name]["answer"] for name in ("few", "most")], ["found", "unknown"], f"{words}: answers")
        found = {one["trustee"] for one in got["few"]["findings"] if one["rule"] != "trusted"}
        place.expect(len(found), 100, f"{words}: trustees")
        place.expect("20,000 pairs" in got["most"].get("reason", ""), True, f"{words}: {got['most']}")
        place.expect(place.ask(*words, source, "--type", "ds").status, 3, f"{words}: status")
    pair = [place.table([("most", text)], name)
            for text, name in ((most, "old.csv"), (f"{most}(A;;GA;;;AU)", "new.csv"))]
    one, = place.objects("diff", *pair, "--type", "ds")
    place.expect(any("20,000 pairs" in found["text"] for found in one["findings"]), True, f"diff: {one}")
    looked = abilities.on_page(place, [few, most])
    if looked:
        told = [{each["key"] for each in one["warnings"]} for one in looked]
        place.expect(["manyPairs" in keys for keys in told], [False, True], f"the page: {told}")
        found = {each["who"] for each in looked[0]["warnings"] if each.get("rule") == "create-children"}
        place.expect(len(found), 100, "trustees on the page")


def main(count: preload.Count) -> None:
    abilities.run_tests(count, (test_growth, test_levels, test_aces, test_page, test_bound))
