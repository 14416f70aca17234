"""Tests the reports of sdtool-audit. What is tested: closed streams, files named twice, databases, order and groups of
findings, baselines, what is said of guesses. It needs what tests/audit/audit.py needs, and is skipped without it. What
is expected was worked out by hand. The last line is 'N passed, M failed'.
"""
import base64
import csv
import io
import json
import os
import pty
import random
import re
import shlex
import sqlite3
import subprocess
import threading
from typing import Iterator, List, Tuple

import audit
import preload
from audit import ADMINISTRATORS, DOMAIN, EVERYONE, SECONDS, SIGNED_IN, SYSTEM, Ended, Place
from audit_stopping import feed, when_read

ANN, BOB = f"{DOMAIN}-1001", f"{DOMAIN}-1002"
FOUND = "O:BAD:(A;;FA;;;WD)"
GOOD = "O:BAD:(A;;FA;;;BA)"
LISTED = "high: 1 place with 1 object"
NOTE = f"{audit.EVERY_DOMAIN}\n"


def shell(place: Place, line: str, **more: str) -> Ended:
    """Runs a line of sh, in which AUDIT is the command."""
    command = f"{shlex.quote(place.python)} -m sdtool.audit"
    environment = {**place.environment, "SDTOOL_AUDIT_MAY_WRITE": "out.csv", **more}
    ended = subprocess.run(["bash", "-c", line.replace("AUDIT", command)], cwd=place.folder, env=environment,
                           stdin=subprocess.DEVNULL, stdout=subprocess.PIPE, stderr=subprocess.PIPE, timeout=SECONDS)
    return Ended(ended.returncode, ended.stdout.decode("utf-8", "replace"), ended.stderr.decode("utf-8", "replace"))


def into_closed_pipe(place: Place, words: str, stream: str) -> Ended:
    """Runs the command. What it writes to a stream goes into a pipe whose reader is gone before."""
    reading, writing = os.pipe()
    os.close(reading)
    streams = {"stdout": subprocess.DEVNULL, "stderr": subprocess.PIPE, stream: writing}
    try:
        ended = subprocess.run([place.python, "-m", "sdtool.audit", *words.split()], cwd=place.folder,
                               env=place.environment, stdin=subprocess.DEVNULL, timeout=SECONDS, **streams)
    finally:
        os.close(writing)
    return Ended(ended.returncode, "", (ended.stderr or b"").decode("utf-8", "replace"))


def is_sentence(text: str) -> bool:
    """Whether a text is a message of the command, and no traceback."""
    return ("Traceback" not in text and "Exception" not in text and text.startswith("sdtool-audit: ")
            and text.count("\n") == 1)


def test_mounted(place: Place) -> None:
    """Who may only add to a mounted folder is medium, and the report in the page has its kind."""
    added = bytes.fromhex("0100048014000000240000000000000034000000" "01020000000000052000000020020000"
                          "01020000000000052000000020020000" "02001c0001000000" "0000140006001000"
                          "010100000000000100000000")
    try:
        for name in ("drop", place.write("drop/a.txt", "")):
            os.setxattr(place.folder / name, "user.sd", added)
    except OSError as error:
        print(f"skipped: no extended attributes here: {error}")
        return
    words = ("risks", "drop", "--attribute", "user.sd")
    place.expect([(one["name"], [(found["severity"], found["rights"]) for found in one["findings"]])
                  for one in place.objects(*words)],
                 [("drop", [("medium", "add files, add subfolders")]),
                  ("drop/a.txt", [("high", "write data, append data")])],
                 "a mounted folder")
    told = place.ask(*words, "--to", "html").stdout
    place.expect([told.count(f'"{kind}",') for kind in ("folder", "file")], [1, 1], f"kinds of mounted files: {told}")


def test_closed_streams(place: Place) -> None:
    """A stream that is closed: a sentence and the right status, whatever the command."""
    long = place.table(((f"file {at}", FOUND) for at in range(12_000)), "long.csv")
    one = place.table([("a", FOUND)], "one.csv")
    for words in (f"risks {long} --to csv", f"risks {long} --to jsonl --jobs 2", f"risks {long} --to html",
                  f"risks {long} --to sarif", f"risks {long} --most 0", f"who change {long} --to csv",
                  f"can WD change {long} --to csv", f"show {long}", f"diff {long} {one} --to csv",
                  f"inherit {long} --to csv", "rules", "rights", "--help", "risks --help"):
        ended = into_closed_pipe(place, words, "stdout")
        told = [line for line in ended.stderr.splitlines() if not line.startswith(("the administrators", "the token"))]
        place.expect((ended.status, len(told), told[:1] and told[0].startswith("sdtool-audit: ")), (3, 1, True),
                     f"{words}, into a pipe that is closed: {ended}")
    for words, status in ((f"risks {one}", 2), (f"risks {one} --to csv", 2), (f"show {one}", 2), ("rules", 3),
                          ("rights", 3),
                          ("--help", 3), ("who --help", 3), ("--version", 3)):
        ended = shell(place, f"AUDIT {words} >&-")
        place.expect((ended.status, is_sentence(ended.stderr)), (status, True),
                     f"{words}, standard output is closed: {ended}")
    ended = shell(place, f"AUDIT risks {one} --to csv --out out.csv >&-")
    place.expect((ended.status, (place.folder / "out.csv").read_text().count("a,one.csv")), (1, 1),
                 f"a report in a file: {ended}")
    for words in ("risks", "risks -", "show -", f"diff {one} -", "who change", "can WD change -", "inherit -"):
        ended = shell(place, f"AUDIT {words} <&-")
        place.expect((ended.status, ended.stdout,
                      is_sentence(ended.stderr.replace(NOTE, "").partition("\n")[0] + "\n")), (2, "", True),
                     f"{words}, standard input is closed: {ended}")
    for words, status in ((f"risks {one} --to csv", 1), (f"can WD change {one}", 1), ("risks nothing", 2),
                          ("nonsense", 2)):
        ended = shell(place, f"AUDIT {words} 2>&-")
        place.expect(ended.status, status, f"{words}, standard error is closed: {ended}")
        ended = into_closed_pipe(place, words, "stderr")
        place.expect(ended.status, status, f"{words}, standard error is a pipe that is closed: {ended}")
    if os.path.exists("/dev/full"):
        for words in (f"risks {one}", f"risks {one} --to csv", "rules", "--help"):
            ended = shell(place, f"AUDIT {words} > /dev/full")
            place.expect((ended.status, "Traceback" in ended.stderr), (3, False), f"{words}, a full disk: {ended}")


def test_without_rich(place: Place) -> None:
    """Without rich there is no bar, and each report is as with it."""
    source = place.table([("a", FOUND), ("b", "hello")])
    place.write("without/rich.py", "raise ImportError('no rich here')\n")
    path = place.environment["PYTHONPATH"] + os.pathsep + str(place.folder / "without")
    for words in (["risks", source], ["risks", source, "--to", "csv"], ["who", "change", source, "--to", "html"]):
        with_it, without = place.ask(*words), place.ask(*words, PYTHONPATH=path)
        place.expect((without.status, without.stdout), (3, with_it.stdout), f"{words}, without rich: {without}")
    leader, follower = pty.openpty()
    child = subprocess.Popen([place.python, "-m", "sdtool.audit", "risks", source, "--to", "csv"], cwd=place.folder,
                             stdin=subprocess.DEVNULL, stdout=subprocess.DEVNULL, stderr=follower,
                             env={**place.environment, "PYTHONPATH": path})
    os.close(follower)
    place.expect(child.wait(SECONDS), 3, "a terminal without rich")
    os.close(leader)


def test_words_come_first(place: Place) -> None:
    """Wrong words are told before anything is read: the source is a pipe that nobody writes to."""
    os.mkfifo(place.folder / "pipe")
    place.write("accept.toml", "[[accept]]\nrule = 'everyone-changes'\nobject = 'x'\nreason = 'y'\n")
    entry = "[[accept]]\nrule = 'everyone-changes'\nobject = 'x'\nreason = 'y'\n"
    for name, more in (("time", "until = 2027-01-31T10:00:00\n"), ("zone", "until = 2027-01-31T10:00:00Z\n"),
                       ("clock", "until = 10:00:00\n"),
                       ("text", "until = '2027-01-31'\n"), ("trustee", "trustee = 5\n"),
                       ("rights", "rights = ['x']\n")):
        place.write(f"{name}.toml", entry + more)
    wrong = [["risks", "--accept", f"{name}.toml"]
             for name in ("time", "zone", "clock", "text", "trustee", "rights", "nothing")]
    wrong += [["risks", "--rules", "nonsense"], ["risks", "--domain", "bob"], ["risks", "--trusted", "bob"],
              ["risks", "--owner", "bob"],
              ["risks", "--schema", "nothing"], ["risks", "--sid-names", "nothing"],
              ["risks", "--encoding", "nonsense"], ["risks", "--encoding", "hex"],
              ["risks", "--delimiter", "ab"], ["risks", "--out", "nowhere/x"], ["risks", "--into", "nowhere/x"],
              ["risks", "--most", "-1"],
              ["risks", "--most", "5", "--to", "csv"], ["risks", "--baseline", "nothing"],
              ["risks", "--min-severity", "grave"],
              ["risks", "--fail-on", "note"], ["risks", "--spreadsheet"], ["risks", "--spreadsheet", "--to", "html"],
              ["risks", "--into", "accept.toml"], ["risks", "--jobs", "0"],
              ["inherit", "--fix", "nowhere/x"], ["inherit", "--nonsense"], ["diff", "nothing"]]
    wrong_first = [["can", "bob", "change"], ["can", "DA", "change"], ["can", "WD", "nonsense"], ["who", "nonsense"],
                   ["who", "0"],
                   ["who", "change", "--groups", "nothing"], ["who", "dcsync", "--groups", "accept.toml"]]
    for words in (*([*words[:1], "pipe", *words[1:]] for words in wrong), *([*words, "pipe"] for words in wrong_first)):
        run = subprocess.Popen([place.python, "-m", "sdtool.audit", *words], cwd=place.folder, env=place.environment,
                               stdin=subprocess.DEVNULL, stdout=subprocess.PIPE, stderr=subprocess.PIPE, text=True)
        end = when_read(place.folder / "pipe", run)
        if end is not None:
            os.close(end)
        stdout, stderr = run.communicate()
        place.expect((end, run.returncode, stdout, bool(stderr), "Traceback" in stderr), (None, 2, "", True, False),
                     f"{words}, and none reads the source: {stderr}")


def test_files_named_twice(place: Place) -> None:
    """No output is an input, and no two outputs are one file, whatever they are called."""
    source = place.table([("a", FOUND)], "list.csv")
    contents = {"accept.toml": "[[accept]]\nrule = 'everyone-changes'\nobject = 'x'\nreason = 'y'\n",
                "groups.txt": f"{DOMAIN}-7,{ANN}\n",
                "names.csv": f"{ANN},Ann\n", "token.txt": "BU\n", "lines": FOUND + "\n", "line.names": "a\n",
                "folder/inside": "x",
                "base.jsonl": "", "schema.ldif": "dn: CN=X\nlDAPDisplayName: x\n"}
    for name, text in contents.items():
        place.write(name, text)
    os.symlink("list.csv", place.folder / "link.csv")
    os.link(place.folder / "list.csv", place.folder / "hard.csv")
    cases = [["risks", source, "--out", source], ["risks", source, "--out", "./list.csv"],
             ["risks", source, "--out", "link.csv"],
             ["risks", "link.csv", "--out", source], ["risks", source, "--out", "hard.csv"],
             ["risks", source, "--accept", "accept.toml", "--out", "accept.toml"],
             ["risks", source, "--sid-names", "names.csv", "--out", "names.csv"],
             ["risks", source, "--schema", "schema.ldif", "--out", "schema.ldif"],
             ["risks", source, "--baseline", "base.jsonl", "--out", "base.jsonl"],
             ["risks", "lines", "--object-names", "line.names", "--out", "line.names"],
             ["who", "change", source, "--groups", "groups.txt", "--out", "groups.txt"],
             ["can", "token.txt", "change", source, "--out", "token.txt"],
             ["risks", source, "--out", "new", "--into", "new"],
             ["risks", source, "--out", "new", "--into", "./new"], ["inherit", source, "--fix", "new", "--out", "new"],
             ["inherit", source, "--fix", "new", "--into", "new"], ["inherit", source, "--fix", source],
             ["inherit", source, "--out", source],
             ["diff", source, "link.csv", "--out", source], ["show", source, "--out", source],
             ["risks", "folder", "--out", "folder/new"],
             ["risks", source, "--out", "folder"], ["risks", source, "--into", source]]
    before = {path: path.read_bytes() for path in place.folder.rglob("*") if path.is_file()}
    for words in cases:
        ended = place.ask(*words, may_write=os.pathsep.join(["new", "accept.toml"]))
        place.expect((ended.status, ended.stdout), (2, ""), f"{words}: {ended}")
    ended = shell(place, f"AUDIT risks - --out {source} < {source}")
    place.expect(ended.status, 2, f"standard input is the output: {ended}")
    for words in (f"risks {source} --to csv >> {source}", f"risks - < {source} >> hard.csv",
                  f"risks {source} --accept accept.toml >> accept.toml", f"can token.txt change {source} >> token.txt",
                  f"diff {source} lines >> lines"):
        ended = shell(place, f"AUDIT {words}")
        place.expect((ended.status, ended.stderr.startswith("sdtool-audit: standard output goes to ")), (2, True),
                     f"{words}: {ended}")
    after = {path: path.read_bytes() for path in place.folder.rglob("*") if path.is_file()}
    place.expect(after, before, "files that were named twice are as they were")


def test_databases(place: Place) -> None:
    """A database has its name when it is whole, says so, and is unknown where something of it is missing."""
    source = place.table([("a", FOUND), ("b", GOOD), ("c", "hello"), ("d", GOOD)], "list.csv")
    place.ask("risks", source, "--into", "kept.db", may_write=str(place.folder / "kept.db") + os.pathsep + "kept.db")
    whole = (place.folder / "kept.db").read_bytes()
    with sqlite3.connect(place.folder / "kept.db") as database:
        place.expect(database.execute("SELECT * FROM about").fetchall(), [(3, 4, 2)], "what a database says of itself")
    # Two runs at once, of which one is faster: what stays is one of them whole, and the other says so. Neither has its
    # source before both have looked for the database.
    long = place.table(((f"file {at}", f"O:BAD:(A;;FA;;;{DOMAIN}-{1000 + at})") for at in range(60_000)), "long.csv")
    pipes = [place.folder / f"pipe {number}" for number in range(2)]
    for pipe in pipes:
        os.mkfifo(pipe)
    words = [place.python, "-m", "sdtool.audit", "risks", "--into", "both.db", "--to", "csv"]
    runs = [subprocess.Popen([*words, pipe.name], cwd=place.folder, stdin=subprocess.DEVNULL, stdout=subprocess.PIPE,
                             stderr=subprocess.PIPE, env={**place.environment, "SDTOOL_AUDIT_MAY_WRITE": "both.db"},
                             text=True)
            for pipe in pipes]
    data = (place.folder / long).read_bytes()
    ends = [when_read(pipe, run) for pipe, run in zip(pipes, runs)]
    feeders = [threading.Thread(target=feed, args=(end, data)) for end in ends if end is not None]
    for feeder in feeders:
        feeder.start()
    ended = [run.communicate(timeout=SECONDS) for run in runs]
    for feeder in feeders:
        feeder.join()
    place.expect((sorted(run.returncode for run in runs), [one[0].count("\n") for one in ended]),
                 ([1, 3], [60_001] * 2), f"two runs with one database: {[one[1] for one in ended]}")
    with sqlite3.connect(place.folder / "both.db") as database:
        place.expect(database.execute("SELECT count(*) FROM objects").fetchone(), (60_000,), "the database of two runs")
    changes = {"a lost descriptor": "DELETE FROM descriptors WHERE id = 1",
               "lost objects": "DELETE FROM objects WHERE id > 2",
               "no objects": "DELETE FROM objects", "a lost source": "DELETE FROM sources",
               "not ended": "DELETE FROM about",
               "another version": "UPDATE about SET version = 2", "no table": "DROP TABLE objects"}
    sources = []
    for what, statement in changes.items():
        path = place.folder / f"{what}.db"
        path.write_bytes(whole)
        with sqlite3.connect(path) as database:
            database.execute(statement)
        sources.append(path.name)
    place.write("cut.db", whole[:len(whole) // 2])
    place.write("garbage.db", whole[:100] + bytes(len(whole) - 100))
    for path in [*sources, "cut.db", "garbage.db"]:
        reports = [place.ask("risks", path, *words)
                   for words in (["--to", "csv"], ["--to", "jsonl"], [], ["--to", "html"])]
        is_lost_source = path == "a lost source.db"
        place.expect([one.status for one in reports], [3] * 4, f"{path}: {reports[0]} {reports[2]}")
        place.expect([bool(re.search(r"\b[1-9]\d* unknown", one.stdout + one.stderr)) for one in reports], [True] * 4,
                     f"{path} is unknown")
        sums = {re.findall(r"^[\d,]+ objects?: .*", one.stdout + one.stderr, re.M)[-1] for one in reports}
        place.expect(len(sums), 1, f"{path} is counted alike in each report: {sums}")
        beside = place.objects("risks", path, source)
        place.expect([one["answer"] for one in beside if one["source"] == "list.csv"
                      and one["line"]][-4 if not is_lost_source else -4:],
                     ["found", "nothing", "unknown", "nothing"], f"a list behind {path}")
    for words in (["--type", "key"], ["--format", "csv"], ["--encoding", "utf-8"], ["--delimiter", ","],
                  ["--no-quotes"], ["--header"],
                  ["--no-header"], ["--name-column", "1"], ["--descriptor-column", "2"], ["--object-names", "list.csv"],
                  ["--attribute", "user.x"]):
        for paths in (["kept.db"], [source, "kept.db"]):
            refused = place.ask("risks", *paths, *words)
            place.expect((refused.status, refused.stdout, words[0] in refused.stderr), (2, "", True),
                         f"{words} of a database: {refused}")
    place.write("none.csv", "name,sddl\n")
    place.ask("risks", "none.csv", "--into", "none.db", may_write="none.db")
    place.expect(place.ask("risks", "none.db").status, 3, "a database of a list without objects")


def test_one_bad_source(place: Place) -> None:
    """What can't be read of one source is unknown, and the others are answered."""
    good = place.table([("a", FOUND), ("b", GOOD)], "good.csv")
    place.write("errors.csv", "Path,Error\na,access denied\nb,access denied\n")
    for paths in (["errors.csv", good], [good, "errors.csv"]):
        objects = place.objects("risks", *paths)
        place.expect(({one["answer"] for one in objects if one["source"] == "errors.csv"},
                      [one["answer"] for one in objects if one["source"] == "good.csv"]),
                     ({"unknown"}, ["found", "nothing"]), f"{paths}")
    objects = place.objects("risks", good, "-", stdin=b"Path,Error\na,access denied\n")
    place.expect(sorted({(one["source"], one["answer"]) for one in objects}),
                 sorted({("good.csv", "found"), ("good.csv", "nothing"),
                         *((one["source"], "unknown") for one in objects[2:])}), "standard input beside a list")
    place.expect(place.ask("risks", good, "-", stdin=b"Path,Error\na,access denied\n").status, 3,
                 "the status of standard input beside a list")


def test_comparing(place: Place) -> None:
    """inherit without a folder and diff with a list that is cut: nothing is taken as compared that wasn't."""
    source = place.table([("C:\\Data", "O:BAG:SYD:P(A;OICI;FR;;;BU)"), ("C:\\Data\\a", "O:BAG:SYD:AI(A;ID;FR;;;BU)"),
                          ("D:\\lost\\b", "O:BAG:SYD:AI(A;ID;FR;;;BU)")], "tree.csv")
    ended = place.ask("inherit", source, "--to", "csv")
    rows = list(csv.DictReader(io.StringIO(ended.stdout)))
    place.expect([(row["name"], row["answer"]) for row in rows],
                 [("C:\\Data", "not compared"), ("C:\\Data\\a", "nothing"),
                  ("D:\\lost\\b", "not compared")], "objects without a folder")
    place.expect((ended.status, ended.stderr), (0, "3 objects: 2 not compared, 1 nothing\n"),
                 "objects without a folder are counted apart")
    lost = place.table([("D:\\lost\\b", "O:BAG:SYD:AI(A;ID;FR;;;BU)")], "lost.csv")
    place.expect(place.ask("inherit", lost).status, 3, "nothing could be compared")
    linux = place.table([("/srv", "O:BAG:SYD:P(A;OICI;FR;;;BU)"), ("/srv/a\\b", "O:BAG:SYD:AI(A;ID;FR;;;BU)"),
                         ("/srv/A", "O:BAG:SYD:P(A;OICI;FA;;;BU)"),
                         ("/srv/a/c", "O:BAG:SYD:AI(A;ID;FA;;;BU)")], "linux.csv")
    place.expect([(one["name"], one["answer"]) for one in place.objects("inherit", linux)],
                 [("/srv", "not compared"), ("/srv/a\\b", "nothing"), ("/srv/A", "found"),
                  ("/srv/a/c", "not compared")], "names of Linux")
    # A domain hands on an ACE for users, and one for computers: only the first counts for a user.
    user, computer = "bf967aba-0de6-11d0-a285-00aa003049e2", "bf967a86-0de6-11d0-a285-00aa003049e2"
    text = "O:BAG:SYD:P(OA;CI;RP;;{0};AU)(OA;CI;RP;;{1};AU)".format(user, computer)
    child = "O:BAG:SYD:AI(OA;CIID;RP;;{0};AU)(OA;CIIOID;RP;;{1};AU)".format(user, computer)
    entries = (("OU=a,DC=x", "organizationalUnit", text), ("CN=u,OU=a,DC=x", "user", child),
               ("CN=v,OU=a,DC=x", "computer", child),
               ("CN=w,OU=a,DC=x", "strange", child), ("CN=y,OU=a,DC=x", "", child))
    place.write("classes.ldif",
                "".join(f"dn: {name}\n" + (f"objectClass: top\nobjectClass: {of_class}\n" if of_class else "")
                        + f"nTSecurityDescriptor: {sddl}\n\n" for name, of_class, sddl in entries))
    place.expect([(one["name"][:4], one["answer"]) for one in place.objects("inherit", "classes.ldif")],
                 [("OU=a", "not compared"), ("CN=u", "nothing"), ("CN=v", "found"), ("CN=w", "unknown"),
                  ("CN=y", "unknown")],
                 "classes of directory objects")
    old = place.table([(f"file {at}", GOOD) for at in range(2000)], "old.csv")
    text = (place.folder / old).read_bytes()
    import gzip
    place.write("cut.csv.gz", gzip.compress(text)[:3000])
    for words in ([old, "cut.csv.gz"], ["cut.csv.gz", old]):
        objects = place.objects("diff", *words)
        answers = {one["answer"] for one in objects}
        place.expect((len(objects) >= 2000, answers <= {"same", "unknown"}, "unknown" in answers), (True, True, True),
                     f"diff of a list that is cut: {answers}")
        place.expect(sorted({f"file {at}" for at in range(2000)} - {one["name"] for one in objects}), [],
                     "names of a list that is cut")
    place.write("none.csv", "name,sddl\n")
    place.expect({one["answer"] for one in place.objects("diff", old, "none.csv")}, {"unknown"},
                 "diff with an empty list")
    for name in ("monday.txt", "tuesday.txt"):
        place.write(name, FOUND + "\n" + GOOD + "\n" + FOUND + "\n")
    ended = place.ask("diff", "monday.txt", "tuesday.txt")
    place.expect((ended.status, ended.stdout.splitlines()[-1]), (0, "3 objects: 3 same"),
                 f"lists without names: {ended}")
    place.write("tuesday.txt", FOUND + "\n" + FOUND + "\n" + FOUND + "\n")
    place.expect([one["answer"] for one in place.objects("diff", "monday.txt", "tuesday.txt")],
                 ["same", "changed", "same"], "a line that changed")


# A tree: what is set where, and what is inherited. Ann isn't trusted.
TREE = [("D:\\Data", "O:BAG:SYD:P(A;OICI;FA;;;BA)(A;OICI;0x1301bf;;;AU)"),
        ("D:\\Data\\a.txt", "O:BAG:SYD:AI(A;ID;FA;;;BA)(A;ID;0x1301bf;;;AU)"),
        ("D:\\Data\\Sub", f"O:{ANN}G:SYD:AI(A;OICIID;FA;;;BA)(A;OICIID;0x1301bf;;;AU)"),
        ("D:\\Data\\Sub\\b.txt", f"O:{ANN}G:SYD:AI(A;ID;FA;;;BA)(A;ID;0x1301bf;;;AU)"),
        ("D:\\Data\\drop", "O:BAG:SYD:(A;;0x100002;;;WD)"), ("D:\\Data\\good", "O:BAG:SYD:(A;;FA;;;BA)"),
        ("E:\\x\\c.txt", "O:BAG:SYD:AI(A;ID;FA;;;BA)(A;ID;0x1301bf;;;AU)"),
        ("E:\\x\\d.txt", "O:BAG:SYD:AI(A;ID;FA;;;BA)(A;ID;0x1301bf;;;AU)"), ("bad", "hello"), ("worse", "hello")]
SUM = "10 objects: 7 found, 2 unknown, 1 nothing"
# Data with three objects below, drop, and the ACE that c.txt and d.txt have; Sub and what is below it belong to Ann.
PLACES = "high: 3 places with 7 objects; medium: 1 place with 2 objects"
# The rows of its table: object, who and what, where.
ROWS = [("everyone-changes", "D:\\Data\\drop", f"{EVERYONE}: write data", "ACE 1, set here"),
        ("users-change", "D:\\Data", f"{SIGNED_IN}: Modify", "ACE 2, set here; inherited by 3 objects"),
        ("users-change", "E:\\x\\c.txt", f"{SIGNED_IN}: Modify",
         "ACE 2, inherited from above; so is that of 1 more object"),
        ("foreign-owner", "D:\\Data\\Sub", f"{ANN}: change permissions", "and 1 object below"),
        ("inheritance-cut", "D:\\Data", "", "")]
SEVERITY = {"everyone-changes": "high", "users-change": "high", "foreign-owner": "medium", "inheritance-cut": "note"}


def rows_of(text: str):
    """The rows of a table of risks: rule, object, words and place. Columns are two blanks apart."""
    rows, rule = [], ""
    for line in text.splitlines():
        if line.startswith(" " * 10):
            cells = [cell for cell in re.split("  +", line.strip()) if cell]
            rows.append((rule, *(cells + ["", ""])[:3]))
        elif re.match("[A-Z]+ ", line):
            rule = line[10:].partition(":")[0]
    return rows


def test_groups(place: Place) -> None:
    """What is most severe comes first, where it is set, with how many objects have it; in any order of the source."""
    for number, rows in enumerate((TREE, TREE[::-1], TREE[5:] + TREE[:5])):
        source = place.table(rows, "tree.csv")
        ended = place.ask("risks", source, "--domain", DOMAIN)
        wanted = list(ROWS)
        if number == 1:  # what comes first stands for those that inherited it from above
            wanted[2] = (wanted[2][0], "E:\\x\\d.txt", *wanted[2][2:])
        got = [row for row in rows_of(ended.stdout) if row[1] not in ("bad", "worse")]
        if number == 0:
            place.expect(got, wanted, f"the table of a tree: {ended}")
            place.expect(ended.stdout.splitlines()[-2:], [PLACES, SUM], "the sums of a tree")
            place.expect([line.split()[0] for line in ended.stdout.splitlines() if line[:1].isupper()],
                         ["HIGH", "HIGH", "MEDIUM", "NOTE", "UNKNOWN"], "severities in order")
            unknown = [line.split()[0] for line in ended.stdout.splitlines() if "'hello' is no descriptor" in line]
            place.expect(unknown, ["bad", "worse"], "each unknown object has a row")
        else:
            place.expect([row for row in got if row[0] != "foreign-owner"],
                         [row for row in wanted if row[0] != "foreign-owner"],
                         f"the table of a tree in another order: {ended}")
    source = place.table(TREE, "tree.csv")
    each = place.ask("risks", source, "--each")
    place.expect(len(rows_of(each.stdout)), 1 + 6 + 2 + 1 + 2, f"each object: {each}")
    place.expect("set here; inherited" in each.stdout, False, "no groups where each object is listed")
    written = list(csv.DictReader(io.StringIO(place.ask("risks", source, "--to", "csv").stdout)))
    found = [(row["name"], row["severity"], row["aces"], row["group"]) for row in written
             if row["rule"] == "users-change"]
    ace = "(A;0x1301bf;;S-1-5-11)"
    place.expect(found, [(name, "high", "2", "D:\\Data")
                         for name in ("D:\\Data", "D:\\Data\\a.txt", "D:\\Data\\Sub", "D:\\Data\\Sub\\b.txt")]
                 + [("E:\\x\\c.txt", "high", "2", ace), ("E:\\x\\d.txt", "high", "2", ace)], "groups in CSV")
    place.expect(sorted({row["name"] for row in written}), sorted(name for name, _ in TREE), "objects of CSV")
    told = {one["name"]: [(found["rule"], found["severity"], found.get("aces"), found.get("inherited"))
                          for found in one["findings"]]
            for one in place.objects("risks", source)}
    place.expect((told["D:\\Data"], told["D:\\Data\\a.txt"]),
                 ([("users-change", "high", [2], False), ("inheritance-cut", "note", None, None)],
                  [("users-change", "high", [2], True)]),
                 "severities and ACEs in JSON lines")
    # Three folders of which the lowest has the ACE for itself again: its children are its own.
    deep = place.table([("/a", "O:BAD:P(A;OICI;FA;;;WD)"), ("/a/b", "O:BAD:(A;OICIID;FA;;;WD)"),
                        ("/a/b/c", "O:BAD:P(A;OICI;FA;;;WD)"),
                        ("/a/b/c/d", "O:BAD:(A;ID;FA;;;WD)"), ("/a/b/e", "O:BAD:(A;ID;FA;;;WD)"),
                        ("/A/x", "O:BAD:(A;ID;FA;;;WD)")], "deep.csv")
    got = [row[1::2] for row in rows_of(place.ask("risks", deep).stdout) if row[0] == "everyone-changes"]
    place.expect(got, [("/a", "ACE 1, set here; inherited by 2 objects"),
                       ("/a/b/c", "ACE 1, set here; inherited by 1 object"),
                       ("/A/x", "ACE 1, inherited from above")], "the nearest place, of names that case tells apart")
    # A place that sets something for what is below it alone.
    below = place.table([("C:\\in", "O:BAD:P(A;OICIIO;FA;;;WD)"), ("C:\\IN\\x", "O:BAD:(A;ID;FA;;;WD)"),
                         ("C:\\in\\y", "O:BAD:(A;ID;FA;;;WD)")],
                        "below.csv")
    got = [row for row in rows_of(place.ask("risks", below).stdout) if row[0] == "everyone-changes"]
    place.expect(got, [("everyone-changes", "C:\\in", f"{EVERYONE}: Full control",
                        "set here, and inherited by 2 objects")], "set for what is below alone")


HOMES, DOCUMENTS = 200, 6


def file_server():
    """Homes that belong to their users with all that is in them, a folder with documents of two users and one of a
    third below, and one fault."""
    admins = "O:BAG:SYD:P(A;OICI;FA;;;BA)"
    rows = [("D:\\Homes", admins), ("D:\\Data", admins), ("D:\\Data\\Old", admins),
            ("D:\\drop", "O:BAG:SYD:(A;;0x100002;;;WD)")]
    for at in range(HOMES):
        owner, home = f"O:{DOMAIN}-{2000 + at}G:SYD:AI(A;ID;FA;;;BA)", f"D:\\Homes\\u{at}"
        rows += [(home, owner), (f"{home}\\in", owner),
                 *((f"{home}\\in\\{number}.txt", owner) for number in range(DOCUMENTS - 1))]
    for user, count in ((1001, 6), (1002, 4)):
        rows += [(f"D:\\Data\\{user} {at}.txt", f"O:{DOMAIN}-{user}G:SYD:AI(A;ID;FA;;;BA)") for at in range(count)]
    return [*rows, *((f"D:\\Data\\Old\\{at}.txt", f"O:{DOMAIN}-1001G:SYD:AI(A;ID;FA;;;BA)") for at in range(3))]


def test_owners(place: Place) -> None:
    """An owner is told once for a folder, and not where the folder above has told it; in any order, and no object is
    lost."""
    rows = file_server()
    shuffled = random.Random(3).sample(rows, len(rows))
    documents = 6 + 4 + 3
    for what, one in (("in order", rows), ("behind what is in them", rows[::-1]), ("in any order", shuffled)):
        source = place.table(one, "server.csv")
        ended = place.ask("risks", source, "--domain", DOMAIN, "--most", "0")
        got = [row for row in rows_of(ended.stdout) if row[0] == "foreign-owner"]
        homes = [row for row in got if row[1].startswith("D:\\Homes")]
        place.expect(sorted(row[1:] for row in homes),
                     sorted((f"D:\\Homes\\u{at}", f"{DOMAIN}-{2000 + at}: change permissions",
                             f"and {DOCUMENTS} objects below")
                            for at in range(HOMES)), f"homes {what}")
        shared = sorted((row[1].rpartition("\\")[0], row[2].split(":")[0], row[3]) for row in got if row not in homes)
        place.expect(shared, [("D:\\Data", f"{DOMAIN}-1001", "and 5 objects beside it"),
                              ("D:\\Data", f"{DOMAIN}-1002", "and 3 objects beside it"),
                              ("D:\\Data\\Old", f"{DOMAIN}-1001", "and 2 objects beside it")], f"documents {what}")
        place.expect(ended.stdout.splitlines()[-2], f"high: 1 place with 1 object; medium: {HOMES + 3} places with "
                     f"{HOMES * (DOCUMENTS + 1) + documents:,} objects", f"the sums {what}")
        listed = [line["name"] for line in place.objects("risks", source)
                  if "foreign-owner" in [found["rule"] for found in line["findings"]]]
        place.expect(sorted(listed), sorted(name for name, sddl in one if not sddl.startswith("O:BA")),
                     f"each object {what}")
        for words in (["--to", "csv"], ["--most", "0"], ["--to", "html"]):
            alone, together = (place.ask("risks", source, *words, "--jobs", jobs).stdout for jobs in ("1", "4"))
            place.expect(together == alone, True, f"{words} of several processes {what}")
    # Homes of administrators of which the users have full control.
    user = f"{DOMAIN}-2000"
    homes = [("D:\\Homes\\u", f"O:BAG:SYD:P(A;OICI;FA;;;BA)(A;OICI;FA;;;{user})"),
             *((f"D:\\Homes\\u\\{at}", f"O:{'BA' if at < 2 else user}G:SYD:AI(A;ID;FA;;;BA)(A;ID;FA;;;{user})")
               for at in range(6))]
    for one in (homes, homes[::-1]):
        got = [row for row in rows_of(place.ask("risks", place.table(one, "homes.csv")).stdout)
               if row[0] in ("foreign-owner", "takeover")]
        place.expect(got, [("takeover", "D:\\Homes\\u", f"{user}: Full control",
                            "ACE 2, set here; inherited by 2 objects; owner of 4 objects below")],
                     "a home with a row for its user")
    # Without a folder nothing is beside an object, and what is accepted tells nothing of the rest.
    flat = place.table([(f"name {at}", f"O:{ANN}D:(A;;FR;;;BA)") for at in range(3)], "flat.csv")
    place.expect(len(rows_of(place.ask("risks", flat).stdout)), 3, "objects without folders")
    place.write("accept.toml",
                "[[accept]]\nrule = 'foreign-owner'\nobject = 'C:\\\\a'\nreason = 'hers'\n".replace("\\\\", "\\"))
    some = place.table([("C:\\a", f"O:{ANN}D:(A;;FR;;;BA)"), ("C:\\a\\b", f"O:{ANN}D:(A;;FR;;;BA)")], "some.csv")
    got = [row[1:] for row in rows_of(place.ask("risks", some, "--accept", "accept.toml").stdout)]
    place.expect([row[0] for row in got], ["C:\\a\\b", "C:\\a"], f"an owner that is accepted for a folder alone: {got}")


def test_processes(place: Place) -> None:
    """Groups of one process and of several are the same, wherever blocks of lines meet, in any order."""
    rows = [(name.replace("D:", f"D:\\{at}").replace("E:", f"E:\\{at // 50}") if ":" in name else f"{name} {at}", sddl)
            for at in range(3000) for name, sddl in TREE]
    # Names that CSV quotes, below what sets their permissions.
    rows += [(name.replace("D:", f"F:\\{odd} {at}") if ":" in name else f"{name} {odd} {at}", sddl)
             for at in range(5) for odd in ('a, "b"', "two\nlines", "a\rCR") for name, sddl in TREE[:5]]
    for number, one in enumerate((rows, rows[::-1], rows[15_000:] + rows[:15_000])):
        source = place.table(one, f"many{number}.csv")
        for words in (["--to", "csv"], ["--most", "0"], ["--to", "html"], ["--to", "csv", "--spreadsheet"],
                      ["--each", "--most", "500"]):
            alone, together = (place.ask("risks", source, *words, "--jobs", jobs) for jobs in ("1", "4"))
            place.expect((together.status, together.stderr, together.stdout == alone.stdout,
                          len(alone.stdout) > 10_000), (3, alone.stderr, True, True),
                         f"{words} of four processes, order {number}")
        if number == 0:
            # Data of 3,000 trees and their drop folders, and one ACE that all files below E: have from above.
            place.expect(alone.stdout.splitlines()[-1], "30,075 objects: 21,075 found, 6,000 unknown, 3,000 nothing",
                         "the sum of many trees")
            grouped = place.ask("risks", source).stdout.splitlines()
            place.expect(grouped[-2], "high: 6,031 places with 21,075 objects; medium: 3,015 places with 6,030 objects",
                         "the places of many trees")


def test_many_unknown(place: Place) -> None:
    """A table of many unknown objects has the first one for each reason, and what is known, in one process and in
    several."""
    source = place.table([*((f"u{at}", "hello") for at in range(20_000)), ("open", "D:(A;;FA;;;WD)"),
                          ("other", "D:(A;;FA;;;ZZ)")], "hello.csv")
    listed = [f"u{at}" for at in range(199)]  # of 200 unknown ones
    for words in (["risks"], ["who", "change"], ["risks", "--to", "markdown"]):
        alone, together = (place.ask(*words, source, "--jobs", jobs) for jobs in ("1", "4"))
        names = re.findall(r"(?m)^(?:\| \w+ \| | {10})?(u\d+|open|other) ", alone.stdout)
        place.expect(sorted(names), sorted([*listed, "open", "other"]), f"the rows of {words}")
        left = re.findall("and 19,801 more", alone.stdout)
        place.expect((len(left), together.stdout == alone.stdout), (1, True),
                     f"what is left of {words}, and several processes")
    title = next(line for line in place.ask("risks", source).stdout.splitlines() if line.startswith("UNKNOWN"))
    place.expect(title.split()[1], "20,001", "all unknown objects are counted")


def test_severities(place: Place) -> None:
    """--min-severity, --fail-on, and what they do to the status and the sums."""
    source = place.table([one for one in TREE if one[1] != "hello"], "known.csv")
    medium = place.table([("a", f"O:{ANN}D:(A;;FR;;;BA)"), ("b", GOOD)], "medium.csv")
    low = place.table([("a", "O:BAD:(A;;FR;;;BU)(D;;FW;;;BG)"), ("b", GOOD)], "low.csv")
    for words, status, last in (
            ([source], 1, "8 objects: 7 found, 1 nothing"),
            ([source, "--min-severity", "high"], 1, "8 objects: 7 found, 1 nothing"),
            ([medium], 1, "2 objects: 1 found, 1 nothing"),
            ([medium, "--min-severity", "high"], 0, "2 objects: 1 lesser, 1 nothing"),
            ([medium, "--fail-on", "high"], 0, "2 objects: 1 found, 1 nothing"),
            ([medium, "--fail-on", "medium"], 1, "2 objects: 1 found, 1 nothing"),
            ([low, "--min-severity", "medium"], 0, "2 objects: 1 lesser, 1 nothing"),
            ([low, "--fail-on", "medium"], 0, "2 objects: 1 found, 1 nothing"),
            ([low, "--fail-on", "low"], 1, "2 objects: 1 found, 1 nothing"),
            ([low], 1, "2 objects: 1 found, 1 nothing")):
        for to in ([], ["--to", "csv"], ["--to", "csv", "--jobs", "1"]):
            ended = place.ask("risks", *words, *to)
            place.expect((ended.status, (ended.stderr if to else ended.stdout).splitlines()[-1]), (status, last),
                         f"risks {words} {to}: {ended}")
    unknown = place.table([("a", "hello")], "unknown.csv")
    place.expect(place.ask("risks", unknown, "--fail-on", "high", "--min-severity", "high").status, 3,
                 "unknown, whatever is asked for")
    rules = {result["ruleId"]: result["level"] for result in
             json.loads(place.ask("risks", source, low, "--to", "sarif").stdout)["runs"][0]["results"]}
    place.expect(rules, {"everyone-changes": "error", "users-change": "error", "foreign-owner": "warning",
                         "inheritance-cut": "note",
                         "order": "note"}, "levels of SARIF")
    driver = json.loads(place.ask("risks", source, "--to", "sarif").stdout)["runs"][0]["tool"]["driver"]
    place.expect({rule["id"]: rule["properties"]["security-severity"] for rule in driver["rules"]
                  if rule["id"] in SEVERITY},
                 {"everyone-changes": "8.0", "users-change": "8.0", "foreign-owner": "5.0", "inheritance-cut": "0.0"},
                 "scores of SARIF")


def test_trusted(place: Place) -> None:
    """who leaves trusted trustees to a count."""
    source = place.table([("ours", "O:BAD:(A;;FA;;;BA)(A;;FA;;;SY)"),
                          ("theirs", f"O:BAD:(A;;FA;;;BA)(A;;0x1301bf;;;{ANN})"), ("none", "D:")])
    ended = place.ask("who", "change", source, "--to", "jsonl")
    told = {one["name"]: (one["answer"], [(found["rule"], found["trustee"], found["text"])
                                          for found in one["findings"]]) for one in ended.objects}
    # Administrators own both, and SYSTEM has an ACE of the first alone.
    place.expect(told, {"ours": ("trusted", [("trusted", "", f"{ADMINISTRATORS}, {SYSTEM}")]),
                        "theirs": ("found", [("who", ANN, ""), ("trusted", "", ADMINISTRATORS)]),
                        "none": ("nothing", [])}, "who, trusted trustees")
    place.expect(ended.stderr, "3 objects: 1 found, 1 trusted, 1 nothing\n", "who, the sum of trusted trustees")
    table = place.ask("who", "change", source).stdout.splitlines()
    place.expect([re.split("  +", line) for line in table[1:-3]],
                 [["theirs", "found", f"{ANN}: Modify [ACE 2, set here]"]], f"who, the table: {table}")
    place.expect(place.ask("who", "change", place.table([("ours", GOOD)], "ours.csv")).status, 0,
                 "nobody but trusted trustees")
    every = place.told("who", "change", source, "--all-trustees")
    place.expect(every["ours"], ("found", ("who", ADMINISTRATORS, "Full control"), ("who", SYSTEM, "Full control")),
                 "who, --all-trustees")
    place.expect(place.told("who", "change", source, "--trusted", ANN)["theirs"][0], "trusted", "who, --trusted")
    other = place.table([("a", "O:BAD:(A;;FA;;;S-1-5-21-9-9-9-512)")], "other.csv")
    place.expect([place.told("who", "change", other, *words)["a"][0] for words in ([], ["--domain", DOMAIN])],
                 ["trusted", "found"], "administrators of another domain")
    place.write("groups.txt", f"BA=Administrators,{ANN}=Ann\n")
    place.expect(place.told("who", "change", place.table([("ours", GOOD)], "ours.csv"), "--groups",
                            "groups.txt")["ours"][0], "trusted",
                 "a member of trusted groups alone")


def test_words(place: Place) -> None:
    """Rights in the words of administrators, and what can be asked for."""
    masks = {"0x1f01ff": "Full control", "0x1301bf": "Modify", "0x1200a9": "", "0x120116": "Write", "0x2": "write data",
             "0x1701bf": "change permissions", "0x120089": ""}
    source = place.table([(mask, f"O:BAD:(A;;{mask};;;WD)") for mask in masks])
    got = {name: one[1][2] if len(one) > 1 else "" for name, one in place.told(
        "who", "change", source, "--trusted", "BA", "--type", "file").items() if one[0] != "trusted"}
    place.expect({mask: got.get(mask, "") for mask in masks},
                 {**masks, "0x1701bf": "write data, append data, write extended attributes, write "
                  "attributes, delete, change permissions"}, "words of rights")
    reads = {name: one[1][2] for name, one in place.told("who", "read", source).items() if len(one) > 1
             and one[1][0] == "who"}
    place.expect((reads.get("0x1200a9"), reads.get("0x120089"), reads.get("0x1301bf"), "0x2" in reads),
                 ("Read and execute", "Read", "Modify", False), f"who read: {reads}")
    full = {name: one[0] for name, one in place.told("who", "full", source).items()}
    place.expect({name for name, answer in full.items() if answer == "found"}, {"0x1f01ff"}, f"who full: {full}")
    both = place.table([("both", f"O:BAD:(A;;0x1301bf;;;{ANN})(A;;0xc0040;;;WD)")], "both.csv")
    place.expect([place.objects("can", ANN, word, both)[0]["answer"] for word in ("full", "change")],
                 ["found", "found"], "full by two ACEs")
    place.expect(place.objects("can", BOB, "full", both)[0]["answer"], "nothing", "full by one of two ACEs")


def test_long_numbers(place: Place) -> None:
    """A number that is no number of a column or a level is one of the words, which are told."""
    source, many = place.table([("x", GOOD)]), "9" * 5000
    place.write("token", f"S-1-5-21-1-2-3-7\nS-1-16-{many}\n")
    for words in (("can", "token", "read", source), ("risks", source, "--name-column", "\u00b2"),
                  ("risks", source, "--name-column", many)):
        ended = place.ask(*words)
        place.expect((ended.status, "Error" in ended.stderr), (2, False), f"{words[0]}: {ended.stderr[:300]}")


def test_abilities(place: Place) -> None:
    """Who can do something with directory objects, by name."""
    changes = ("1131f6aa-9c07-11d1-f79f-00c04fc2dcd2", "1131f6ad-9c07-11d1-f79f-00c04fc2dcd2")
    both = "".join(f"(OA;;CR;{guid};;{{0}})" for guid in changes)
    reset = "00299570-246d-11d0-a768-00aa006e0529"
    entries = [("DC=x", "domainDNS", "O:BAD:" + both.format(ANN) + both.format("DA") + f"(OA;;CR;{changes[0]};;{BOB})"),
               ("CN=u,DC=x", "user", f"O:BAD:(OA;;CR;{reset};;{BOB})(A;;FA;;;DA)"),
               ("CN=v,DC=x", "user", "O:BAD:(A;;0x20094;;;AU)")]
    place.write("domain.ldif", "".join(f"dn: {name}\nobjectClass: {of_class}\nnTSecurityDescriptor: {sddl}\n\n"
                                       for name, of_class, sddl in entries))
    words = ("domain.ldif", "--domain", DOMAIN)
    got = place.told("who", "dcsync", *words)
    place.expect(got["DC=x"], ("found", ("who", ANN, "dcsync"), ("trusted", "", "")), f"who can dcsync: {got}")
    place.expect([got[name][0] for name in ("CN=u,DC=x", "CN=v,DC=x")], ["nothing", "nothing"],
                 "who can dcsync, of users")
    got = place.told("who", "reset-password", *words)
    place.expect((got["CN=u,DC=x"][:2], got["CN=v,DC=x"][0]), (("found", ("who", BOB, "reset-password")), "nothing"),
                 f"who can reset passwords: {got}")
    got = place.told("who", "dcsync", "reset-password", *words, "--all-trustees")
    place.expect({one[1] for one in got["DC=x"][1:]}, {ANN, f"Domain Admins ({DOMAIN}-512)"},
                 "who can dcsync, with trusted trustees")
    files_ = place.table([("a", FOUND)], "files.csv")
    place.expect(place.ask("who", "dcsync", files_).status, 3, "who can dcsync, of files")


def test_spreadsheet(place: Place) -> None:
    """No cell of a table for spreadsheets is a formula, and its names are whole behind the apostrophe."""
    names = ["=1+1", "+1", "-1", "@SUM(A1)", "\t=1", "\r=1", "plain", "a=b", "\uff1d1", 'x"', "\n=1"]
    source = place.table([(name, sddl) for name in names for sddl in (FOUND, "O:BAD:(A;ID;FA;;;WD)", "=cmd")],
                         "=list.csv")
    for jobs in ("1", "2"):
        ended = place.ask("risks", "./" + source, "--to", "csv", "--spreadsheet", "--jobs", jobs)
        rows = list(csv.reader(io.StringIO(ended.stdout, newline="")))
        place.expect((ended.stdout[0], len(rows)), ("\ufeff", 1 + 3 * len(names)), "rows for spreadsheets")
        cells = [cell for row in rows[1:] for cell in row]
        place.expect([cell for cell in cells if cell[:1] in "=+-@\t\r\n\uff1d" and cell], [], "cells that are formulas")
        place.expect([row[0].lstrip("'") if row[0][:1] == "'" else row[0] for row in rows[1::3]], names,
                     "names in a spreadsheet")
    plain = list(csv.reader(io.StringIO(place.ask("risks", "./" + source, "--to", "csv").stdout, newline="")))
    place.expect([row[0] for row in plain[1::3]], names, "names are exact without --spreadsheet")


def test_markdown(place: Place) -> None:
    """A table for tickets: nothing of a name is markup, and one process writes what several do."""
    rows = audit.hostile_rows()
    source = place.table([row[:2] for row in rows] * 200, "hostile.csv")
    one, four = (place.ask("risks", source, "--to", "markdown", "--most", "0", "--each", "--jobs", jobs)
                 for jobs in ("1", "4"))
    place.expect((four.stdout == one.stdout, one.status), (True, 3), "Markdown of several processes")
    lines = [line for line in one.stdout.splitlines() if line.startswith("| ") and not line.startswith("| Severity")]
    place.expect(all(len(re.findall(r"(?<!\\)\|", line)) == 5 for line in lines), True, "cells of Markdown")
    text = one.stdout
    place.expect((re.findall(r"(?<!\\)<", text), re.findall("[\0-\x09\x0b-\x1f\u202e]", text), "\\<script\\>" in text),
                 ([], [], True), "markup in Markdown")
    counts = sum(finding["rule"] != ""
                 for found in place.objects("risks", place.table([row[:2] for row in rows], "few.csv"))
                 for finding in (found["findings"] or ([{"rule": "unknown"}] if found["answer"] == "unknown" else [])))
    place.expect(len(lines), 200 * counts, "rows of Markdown")
    tree = place.table(TREE, "tree.csv")
    got = [[cell.strip().replace("\\\\", "\\").replace("\\", "") for cell in re.split(r"(?<!\\)\|", line)[1:-1]]
           for line in place.ask("risks", tree, "--to", "markdown").stdout.splitlines() if line.startswith("| ")]
    place.expect([row[0] for row in got[1:]], ["high", "high", "high", "medium", "note", "unknown", "unknown"],
                 "severities in Markdown")
    place.expect([row[3] for row in got[1:4]], [row[3] for row in ROWS[:3]], "places in Markdown")


def test_long_names(place: Place) -> None:
    """A long name is cut in a table, and whole elsewhere."""
    long = "C:\\" + "folder\\" * 40 + "the end.txt"
    source = place.table([(long, FOUND), ("short", FOUND), ("\u65e5\u672c" * 60, FOUND)])
    table = place.ask("risks", source).stdout
    place.expect((long in table, ".." in table, "the end.txt" in table, max(map(len, table.splitlines())) < 250),
                 (False, True, True, True), f"a long name: {table}")
    for to in ("csv", "jsonl", "markdown", "sarif", "html"):
        text = place.ask("risks", source, "--to", to).stdout
        place.expect("folder\\folder" in text.replace("\\\\", "\\") and text.count("folder") >= 40, True,
                     f"a long name in {to}")
    # Names above such objects, in memory all at once, would be 60 times as long as the source.
    units = "".join(f",OU={'x' * 300}" for _ in range(100))
    place.write("deep.ldif", "".join(f"dn: CN={at}{units},DC=a{at}\nobjectClass: user\nnTSecurityDescriptor: "
                                     "O:BAD:(A;CIID;GA;;;WD)\n\n" for at in range(400)))
    ended = shell(place, "ulimit -v 600000; AUDIT risks deep.ldif --jobs 1 --to jsonl | wc -l")
    place.expect(ended.stdout.strip(), "400", f"long names of a directory: {ended}")


def test_baselines(place: Place) -> None:
    """What is new, changed, mended and gone, by a database and by a report."""
    old = place.table([("same", FOUND), ("mended", FOUND), ("grown", "O:BAD:(A;;0x100002;;;WD)"), ("gone", FOUND),
                       ("fresh", GOOD), ("good", GOOD),
                       ("bad", "hello"), ("turns bad", FOUND),
                       ("two", "O:BAD:(A;;0x100002;;;WD)(A;;0x100002;;;AN)")], "old.csv")
    new = place.table([("same", FOUND), ("mended", GOOD), ("grown", "O:BAD:(A;;0x100006;;;WD)"), ("fresh", FOUND),
                       ("good", GOOD), ("added", FOUND),
                       ("bad", "hello"), ("turns bad", "hello"), ("two", "O:BAD:(A;;0x100002;;;WD)")], "new.csv")
    place.write("old.jsonl", place.ask("risks", old, "--to", "jsonl").stdout)
    place.ask("risks", old, "--into", "old.db", may_write="old.db")
    wanted = {"same": ("known",), "mended": ("mended", (EVERYONE, "mended")),
              "grown": ("changed", (EVERYONE, "changed, was: write data")),
              "fresh": ("new", (EVERYONE, "new")), "good": ("nothing",), "added": ("new", (EVERYONE, "new")),
              "bad": ("unknown",),
              "turns bad": ("unknown",), "two": ("mended", ("Anonymous Logon (S-1-5-7)", "mended")),
              "gone": ("mended", (EVERYONE, "mended; the object is gone"))}
    for baseline in ("old.jsonl", "old.db"):
        ended = place.ask("risks", new, "--baseline", baseline, "--to", "jsonl")
        got = {one["name"]: (one["answer"], *((found["trustee"], found["text"]) for found in one["findings"]))
               for one in ended.objects}
        anonymous = got.get("two", ("", ("", "")))[1][0]
        place.expect(got, {**wanted, "two": ("mended", (anonymous, "mended"))}, f"what is new since {baseline}")
        place.expect("S-1-5-7" in anonymous, True, f"whose finding is mended: {anonymous}")
        place.expect((ended.status, ended.stderr.splitlines()[-1]),
                     (3, "10 objects: 1 changed, 2 new, 3 mended, 2 unknown, 1 known, 1 nothing"),
                     f"the sum since {baseline}")
        table = place.ask("risks", new, "--baseline", baseline).stdout
        place.expect(("same" in table, "added" in table, "gone" in table), (False, True, True),
                     f"the table since {baseline}: {table}")
    names = place.write("ann.csv", "S-1-1-0,Jeder\n")
    place.expect(place.told("risks", new, "--baseline", "old.jsonl", "--sid-names", names)["same"][0], "known",
                 "another name of a trustee")
    calm = place.table([("same", FOUND), ("mended", GOOD)], "calm.csv")
    place.expect((place.ask("risks", calm, "--baseline", "old.jsonl").status,
                  place.ask("risks", place.table([("x", FOUND)], "x.csv"), "--baseline",
                            "old.jsonl").status), (0, 1), "the status of what is mended, and of what is new")
    place.write("accept.toml", "[[accept]]\nrule = 'everyone-changes'\nobject = 'x'\nreason = 'y'\n")
    place.write("new.jsonl", place.ask("risks", new, "--baseline", "old.jsonl", "--to", "jsonl").stdout)
    for wrong in ("new.jsonl", "old.csv", "accept.toml"):
        ended = place.ask("risks", new, "--baseline", wrong)
        place.expect((ended.status, ended.stdout), (2, ""), f"a baseline that is none: {wrong}: {ended}")
    place.write("cut.db", (place.folder / "old.db").read_bytes()[:9000])
    place.expect(place.ask("risks", new, "--baseline", "cut.db").status, 2, "a baseline that is cut")
    import gzip
    many = place.table([(f"file {at}", FOUND) for at in range(3000)], "many.csv")
    place.write("many.jsonl", place.ask("risks", many, "--to", "jsonl").stdout)
    place.write("many.csv.gz", gzip.compress((place.folder / many).read_bytes())[:6000])
    answers = {one["answer"] for one in place.objects("risks", "many.csv.gz", "--baseline", "many.jsonl")}
    place.expect(answers, {"known", "unknown"}, "a source that is cut, with a baseline")
    same = place.table([("x", FOUND), ("x", FOUND), ("y", GOOD), ("x", GOOD)], "same.csv")
    place.write("same.jsonl", place.ask("risks", same, "--to", "jsonl").stdout)
    place.expect([one["answer"] for one in place.objects("risks", same, "--baseline", "same.jsonl")],
                 ["known", "known", "nothing", "nothing"], "objects of one name, with a baseline")
    less = place.table([("x", FOUND), ("y", GOOD)], "less.csv")
    place.expect([one["answer"] for one in place.objects("risks", less, "--baseline", "same.jsonl")],
                 ["known", "nothing", "mended"], "an object less of one name, with a baseline")
    medium = place.table([("x", "O:BAD:(A;;WD;;;S-1-5-21-1-2-3-1105)")], "medium.csv")
    place.write("medium.jsonl", place.ask("risks", medium, "--to", "jsonl").stdout)
    place.expect([place.told("risks", source, *words, "--baseline", "medium.jsonl")["x"][0] for source, *words in (
        (medium,), (medium, "--min-severity", "high"), (medium, "--rules", "no-dacl"), (medium, "--rules=-takeover"),
        (place.table([("x", GOOD)], "none.csv"),))],
        ["known", "lesser", "nothing", "nothing", "mended"], "a finding that isn't asked about is not mended")
    other = "bf967953-0de6-11d0-a285-00aa003049e2"
    typed, moved = (place.table([("x", f"O:BAD:(OA;;WP;{one};;WD)")], f"{one[:8]}.csv")
                    for one in ("bf967950-0de6-11d0-a285-00aa003049e2", other))
    place.write("typed.jsonl", place.ask("risks", typed, "--type", "ds", "--to", "jsonl").stdout)
    for source, answer in ((typed, "known"), (moved, "changed")):
        one, = place.objects("risks", source, "--type", "ds", "--baseline", "typed.jsonl")
        texts = [found["text"] for found in one["findings"]]
        place.expect((one["answer"], [other in text for text in texts]), (answer, [True] * len(texts)),
                     f"the same right for an object type: {texts}")


def test_cut_lists(place: Place) -> None:
    """What may be behind the cut of the other list is neither new nor gone, also where a format has no end."""
    from audit_sources import MADE, packed
    for name, made in MADE.items():
        parts = made.make(6)
        text = "".join(part.text for part in parts)
        at = sum(len(part.text) for part in parts[:len(parts) // 2])
        whole = place.write("whole", text)
        cut = place.write("cut", text[:at + len(parts[len(parts) // 2].text) * 2 // 3])
        for words, other in ((("diff", whole, cut), "gone"),
                             (("diff", cut, whole), "added"))[:1 + (name in ("csv", "json"))]:
            ended = place.ask(*words, "--to", "jsonl")
            answers = [one["answer"] for one in ended.objects]
            place.expect((ended.status, answers.count(other), "unknown" in answers), (3, 0, True),
                         f"diff of a list that is cut, {name}: {ended}")
    whole = packed([("a", f"a\t{GOOD}\n"), ("b", f"b\t{GOOD}\n")])
    place.write("whole", whole)
    place.write("cut", whole[:whole.index(b"PK\3\4", 4)])
    place.expect({one["name"]: one["answer"] for one in place.objects("diff", "whole", "cut")}.get("b"), "unknown",
                 "diff of an archive that is cut")


def test_lost_objects(place: Place) -> None:
    """A report that lacks objects which were read says so, in each way that objects are reported."""
    source = place.table(((f"file {at}", FOUND if at % 2 else GOOD) for at in range(9000)), "list.csv")
    place.ask("risks", source, "--into", "list.db", may_write="list.db")
    lose = ("import sdtool.audit.reports.summing as summing, sdtool.audit.__main__ as program\n"
            "add = summing.Summary.add\n"
            "def lossy(self, answer, count=1):\n"
            "    if self.total != 7: return add(self, answer, count)\n"
            "    self.answers['lost'] += 0; summing.Summary.add = add\n"
            "summing.Summary.add = lossy\nprogram.main()\n")
    for words in (["risks", source, "--jobs", "1"], ["risks", source, "--to", "csv", "--jobs", "1"],
                  ["who", "change", source, "--jobs", "1"],
                  ["diff", source, source, "--jobs", "1"], ["inherit", source, "--jobs", "1"],
                  ["risks", "list.db", "--to", "csv", "--jobs", "1"],
                  ["risks", source, "--to", "csv", "--jobs", "2"]):
        ended = subprocess.run([place.python, "-c", lose, *words], cwd=place.folder, env=place.environment,
                               stdin=subprocess.DEVNULL, capture_output=True, text=True, timeout=SECONDS)
        place.expect((ended.returncode,
                      "the report isn't whole: 9,000 objects were read, and 8,999 are in it" in ended.stderr), (3,
                                                                                                                True),
                     f"{words}, which lose an object: {ended.stderr[-300:]}")


OF_SERVICE = "D:(A;;CCLCSWRPWPDTLOCRRC;;;SY)(A;;CCLCSWLOCRRC;;;WD)"
AS_SC = "read as sc, which prints the rights of services; --type or --format says otherwise"
SAID = ("says otherwise", "the domain is", "SIDs are those of")
FRONT = '<script type="application/json" id="report">'  # of the page, before a report


def as_kind(title: str) -> str:
    return f"read as {title}, by titles or names; --type says otherwise"


def exported(*values: Tuple[str, str, str]) -> str:
    """An export of the registry, of keys with a value each."""
    system = "HKEY_LOCAL_MACHINE\\SYSTEM\\CurrentControlSet\\"
    return "Windows Registry Editor Version 5.00\n\n" + "".join(
        f'[{system}{key}]\n"{name}"="{sddl}"\n\n' for key, name, sddl in values)


# Texts, words beside them, and what is said of the objects for which a guess decides what rights mean.
GUESSED: List[Tuple[str, str, Tuple[str, ...], List[str]]] = [
    ("behind.txt", "\nO:SYG:SYD:(A;;0x4;;;WD)\n", (), []), ("alone.txt", "O:SYG:SYD:(A;;0x4;;;WD)\n", (), []),
    ("service.txt", f"\n{OF_SERVICE}\n", (), [AS_SC]),
    ("several.txt", f"\n{OF_SERVICE}\n\n{OF_SERVICE}\n", (), [AS_SC, AS_SC]),
    ("typed.txt", f"\n{OF_SERVICE}\n", ("--type", "service"), []),
    ("named.txt", f"\n{OF_SERVICE}\n", ("--format", "sc"), []),
    ("saved.txt", "Data\nD:(A;;FA;;;WD)\nMore\nD:(A;;FR;;;WD)\n", (), []),
    ("keys.txt", f"HKLM\\SOFTWARE\\X\n  {FOUND}\nHKLM\\SOFTWARE\\Y\n  {FOUND}\n", (), [as_kind("a registry key")] * 2),
    ("files.csv", f"Path,Sddl\nC:\\Data,{FOUND}\nname,{FOUND}\n", (), []),
    ("printers.csv", f"Name,PermissionSDDL\nOffice,{FOUND}\nHall,{GOOD}\nBad,hello\n", (), [as_kind("a printer")] * 2),
    ("printers.json", json.dumps([{"Name": "Office", "PermissionSDDL": FOUND}]), (), [as_kind("a printer")]),
    ("printer.txt", f"Name           : Office\nPermissionSDDL : {FOUND}\n", (), [as_kind("a printer")]),
    ("typed.csv", f"Name,PermissionSDDL\nOffice,{FOUND}\n", ("--type", "printer"), []),
    ("keys.csv", f"Path,Sddl\nHKLM\\SOFTWARE\\X,{FOUND}\nC:\\Data,{FOUND}\n", (), [as_kind("a registry key")]),
    ("objects.csv", f'DistinguishedName,ObjectClass,Sddl\n"CN=a,DC=x",user,{FOUND}\n', (),
     [as_kind("a directory object")]),
    ("key.txt", f"HKLM\\SOFTWARE\\X {FOUND}\n", (), [as_kind("a registry key")]),
    ("table.txt", f"\nName   PermissionSDDL\n----   --------------\nOffice {FOUND}\n\n", (), [as_kind("a printer")]),
    ("export.reg", exported(("Services\\Spooler\\Security", "Security", FOUND),
                            ("Services\\EventLog\\X", "CustomSD", FOUND),
                            ("Control\\X", "SD", FOUND)), (), [as_kind("a service"), as_kind("an event log")]),
    ("typed.reg", exported(("Services\\Spooler\\Security", "Security", FOUND)), ("--type", "service"), []),
    ("log.txt", f"name: Application\nenabled: true\nchannelAccess: {FOUND}\n", (), []),
    ("one.ldif", f"dn: CN=a,DC=x\nobjectClass: user\nnTSecurityDescriptor: {FOUND}\n", (), [])]


def said_in(to: str, text: str) -> List[str]:
    """What a report says of how its objects were read: of each object, or of all of them in its summary."""
    if to == "csv":
        rows = {(row["name"], row["line"]): row["help"] for row in csv.DictReader(io.StringIO(text, newline=""))}
        return [said for said in rows.values() if any(one in said for one in SAID)]
    if to == "jsonl":
        return [one["note"] for one in map(json.loads, text.splitlines()) if "note" in one]
    if to == "sarif":
        invocation, = json.loads(text)["runs"][0]["invocations"]
        lines = [one["message"]["text"] for one in invocation["toolExecutionNotifications"]]
    elif to == "html":
        lines = json.loads(text.removesuffix("</script>").splitlines()[-1])["notes"]
    else:
        # Markdown has a backslash before what would be markup.
        lines = text.replace("\\", "").splitlines()
    return [line.removesuffix(".") for line in lines if any(one in line for one in SAID)]


def forms_of(place: Place, *words: str) -> Iterator[Tuple[str, str]]:
    """The forms of a report."""
    page = place.write("front.html", FRONT + "</script>")
    for to in ("table", "markdown", "csv", "jsonl", "sarif", "html"):
        yield to, place.ask(*words, "--to", to, SDTOOL_PAGE=str(place.folder / page)).stdout


def judge_said(place: Place, source: str, notes: List[str], *words: str) -> None:
    """What reports of words say of the objects of a source."""
    in_all = [f"{source}: {note} ({notes.count(note):,})" for note in dict.fromkeys(notes)]
    for to, text in forms_of(place, *words):
        place.expect(said_in(to, text), notes if to in ("csv", "jsonl") else in_all,
                     f"what {to} of {words} says of guesses")


def test_guesses(place: Place) -> None:
    """Each report says where a form or a kind that is guessed decides what rights mean, and nothing where none does."""
    for source, text, words, notes in GUESSED:
        place.write(source, text)
        judge_said(place, source, notes, "who", "change", source, *words)
    answers = [place.objects("who", "change", source)[-1]["answer"] for source in ("behind.txt", "alone.txt")]
    place.expect(answers, ["unknown", "unknown"], "rights of several kinds, behind an empty line and without it")
    for words in (("can", "WD", "change", "service.txt"), ("risks", "service.txt"), ("inherit", "service.txt"),
                  ("diff", "service.txt", "service.txt")):
        judge_said(place, "service.txt", [AS_SC], *words)
    place.expect(AS_SC in place.ask("show", "service.txt").stdout, True, "a guess in what show says")


def test_guesses_of_many(place: Place) -> None:
    """The same of a database, of several sources and of several processes."""
    for source, text, words, notes in GUESSED:
        place.write(source, text)
        if notes and not words:
            place.ask("who", "change", source, "--into", source + ".db", may_write=source + ".db")
            judge_said(place, source, notes, "who", "change", source + ".db")
    others = ["several.txt and others: " + AS_SC + " (3)"]
    for to, text in forms_of(place, "who", "change", "several.txt", "service.txt"):
        place.expect(said_in(to, text), [AS_SC] * 3 if to in ("csv", "jsonl") else others, f"{to} of two sources")
    many = place.table(((f"printer {at}", FOUND if at % 2 else GOOD) for at in range(12_000)), "many.csv",
                       ("Name", "PermissionSDDL"))
    for jobs in ("1", "3"):
        place.expect(said_in("table", place.ask("who", "change", many, "--jobs", jobs).stdout),
                     [f"many.csv: {as_kind('a printer')} (12,000)"], f"a table of {jobs} processes")
        told = said_in("csv", place.ask("who", "change", many, "--to", "csv", "--jobs", jobs).stdout)
        place.expect((len(told), set(told)), (12_000, {as_kind("a printer")}), f"CSV of {jobs} processes")


def test_said(place: Place) -> None:
    """The domain and the names that a directory's export says itself are in its report, and what depends on a class
    says so."""
    head = base64.b64encode(bytes.fromhex("010400000000000515000000010000000200000003000000")).decode()
    place.write("head.ldif",
                f"dn: DC=x\nobjectClass: domainDNS\nobjectSid:: {head}\nnTSecurityDescriptor: O:BAD:(A;;GA;;;DA)\n")
    told = [f"the domain is {DOMAIN}, as head.ldif says: --domain names another one, and --forest-root that of "
            "Enterprise Admins", "the names of 1 SIDs are those of head.ldif: those of --sid-names and of Windows win"]
    for to, text in forms_of(place, "risks", "head.ldif"):
        in_rows = to in ("csv", "jsonl")
        place.expect(said_in(to, text), ["; ".join(told)] if in_rows else told, f"what {to} says of its domain")
    for to, text in forms_of(place, "risks", "head.ldif", "--domain", DOMAIN):
        place.expect(said_in(to, text)[:1], told[1:], f"what {to} says of the domain of --domain")
    source = place.table([("x", f"O:BAD:(A;;GA;;;{ANN})")])
    for to, text in forms_of(place, "who", "dcsync", source, "--type", "ds"):
        place.expect("if this is a domainDNS: replicate the passwords" in text, True,
                     f"{to}, of a class that isn't known")


TESTS = (test_mounted, test_closed_streams, test_without_rich, test_words_come_first, test_files_named_twice,
         test_databases, test_one_bad_source, test_comparing, test_groups, test_many_unknown, test_processes,
         test_severities, test_trusted, test_words, test_long_numbers, test_abilities, test_spreadsheet, test_owners,
         test_markdown, test_long_names, test_baselines, test_cut_lists, test_lost_objects, test_guesses,
         test_guesses_of_many, test_said)


def main(count: preload.Count) -> None:
    audit.run_tests(count, TESTS)
