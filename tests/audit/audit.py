"""Tests the questions of sdtool-audit. It takes the library of out/lib or of SDTOOL_LIBRARY. Its sources are files of
tests/audit/files/ in documented formats, and what real programs write here: samba-tool, getfattr, mkntfs and ntfscat,
slapd and ldapsearch. Answers were worked out by hand. Every run is under a hook that ends it where it opens a
connection or writes to a file that the words don't name. It needs click and rich (Debian: python3-click, python3-rich),
and is skipped without them; a source whose program is missing is skipped in a line of its own.
"""
import bz2
import collections
import concurrent.futures
import contextlib
import csv
import fcntl
import gzip
import io
import json
import lzma
import os
import pathlib
import pty
import random
import re
import shlex
import shutil
import sqlite3
import struct
import subprocess
import sys
import tempfile
import termios
import time
import tomllib
import zipfile
from typing import Any, Callable, Dict, List, NamedTuple, Optional, Sequence

import preload
import run_examples
import run_rows

TOP = pathlib.Path(__file__).resolve().parents[2]
DATA = TOP / "tests/audit/files"
LIBRARY = preload.LIBRARY
SECONDS = 600  # for one run; a machine with other work may be slow
DOMAIN = "S-1-5-21-1-2-3"
ADMINISTRATORS, SYSTEM, EVERYONE = "Administrators (S-1-5-32-544)", "Local System (S-1-5-18)", "Everyone (S-1-1-0)"
SIGNED_IN, USERS, GUESTS = "Authenticated Users (S-1-5-11)", "Users (S-1-5-32-545)", "Guests (S-1-5-32-546)"
# What risks says without --domain.
EVERY_DOMAIN = "the administrators of every domain are trusted: --domain SID trusts those of one domain alone"
# Ends a run that connects, or that writes to a file which isn't named in SDTOOL_AUDIT_MAY_WRITE.
HOOK = """
import os, sys
may_write = os.environ.get("SDTOOL_AUDIT_MAY_WRITE", "").split(os.pathsep)
def is_allowed(path):
    # A file that isn't whole is called .NAME.DIGITS.part.
    part = os.path.basename(path).rsplit(".", 2) if os.path.basename(path).endswith(".part") else [""]
    return path in may_write or path == os.devnull or any(
        part[0] == "." + os.path.basename(one)[:40] for one in may_write if one)
def hook(event, arguments):
    wrong = event.startswith("socket.") and event != "socket.gethostname"
    if event == "open" and isinstance(arguments[0], str):
        path, mode, flags = arguments
        writes = flags & (os.O_WRONLY | os.O_RDWR | os.O_CREAT)
        wrong = bool(writes) and not is_allowed(path)
    wrong = wrong or event in ("os.remove", "os.rename", "os.link", "os.mkdir", "os.chmod") and not is_allowed(
        arguments[0])
    if wrong:
        os.write(2, f"FORBIDDEN {event} {arguments}\\n".encode())
        os._exit(99)
sys.addaudithook(hook)
"""


def python_with_packages() -> Optional[str]:
    return preload.python_with("click", "rich")


class Ended(NamedTuple):
    status: int
    stdout: str
    stderr: str

    @property
    def objects(self) -> List[Dict[str, Any]]:
        """The objects of a report in JSON lines."""
        return [json.loads(line) for line in self.stdout.splitlines()]

    def __str__(self) -> str:
        return f"status {self.status}\n  stdout {self.stdout[-1500:]!r}\n  stderr {self.stderr[-800:]!r}"


# What a report is put into, and its columns.
REPORT = tomllib.loads((TOP / "windows/report.toml").read_text(encoding="utf-8"))
PAGE = '<!DOCTYPE html>\n<script type="application/json" id="report"></script>\n<p>after it</p>\n'


def of_page(row: str, values: List[Any]) -> Dict[str, Any]:
    """A row of a report in the page, by the names of its columns."""
    columns = REPORT["row"][row]
    assert len(values) == len(columns), (columns, values)
    return {name: [of_page(kind, one) for one in value] if kind in REPORT["row"] else value
            for (name, kind), value in zip(columns.items(), values)}


class Place:
    """A folder for tests, and the command in it."""

    def __init__(self, folder: str, python: str, count: preload.Count) -> None:
        self.folder, self.python, self.count = pathlib.Path(folder), python, count
        hooks = self.folder / "hooks"
        hooks.mkdir()
        (hooks / "sitecustomize.py").write_text(HOOK)
        (hooks / "sdtool.html").write_text(PAGE)
        self.environment = {**os.environ, "SDTOOL_LIBRARY": LIBRARY, "SDTOOL_PAGE": str(hooks / "sdtool.html"),
                            "PYTHONDONTWRITEBYTECODE": "1",
                            "PYTHONPATH": f"{hooks}:{TOP / 'python'}", "COLUMNS": "200"}

    def write(self, name: str, data) -> str:
        path = self.folder / name
        path.parent.mkdir(parents=True, exist_ok=True)
        path.write_bytes(data if isinstance(data, bytes) else data.encode())
        return name

    def ask(self, *words: str, stdin: bytes = b"", may_write: str = "", cwd: Optional[pathlib.Path] = None,
            **more: str) -> Ended:
        ended = subprocess.run([self.python, "-m", "sdtool.audit", *words], cwd=cwd or self.folder, input=stdin,
                               capture_output=True, timeout=SECONDS,
                               env={**self.environment, "SDTOOL_AUDIT_MAY_WRITE": may_write, **more})
        return Ended(ended.returncode, ended.stdout.decode("utf-8", "surrogateescape"),
                     ended.stderr.decode("utf-8", "replace"))

    def objects(self, *words: str, **others) -> List[Dict[str, Any]]:
        ended = self.ask(*words, "--to", "jsonl", **others)
        try:
            return ended.objects
        except ValueError:
            return [{"name": f"no JSON: {ended}", "line": 0, "answer": "", "findings": []}]

    def expect(self, got, wanted, what: str) -> None:
        self.count.add(got == wanted, f"{what}\n  got    {got!r}\n  wanted {wanted!r}")

    def table(self, rows, name: str = "table.csv", titles=("name", "sddl")) -> str:
        """A CSV file of names and descriptors."""
        text = io.StringIO()
        csv.writer(text, lineterminator="\r\n").writerows([titles, *rows])
        return self.write(name, text.getvalue())

    def told(self, *words: str, **others):
        """For each object what was found: its answer, and rule, trustee and rights of each finding."""
        return {one["name"]: (one["answer"],
                              *((found["rule"], found["trustee"], found["rights"]) for found in one["findings"]))
                for one in self.objects(*words, **others)}


def places(objects) -> List[tuple]:
    return [(one["name"], one["line"], one["answer"]) for one in objects]


POWERSHELL = "Microsoft.PowerShell.Core\\FileSystem::C:\\Data"
SERVICES = "HKEY_LOCAL_MACHINE\\SYSTEM\\CurrentControlSet\\Services"
# Objects of the files in tests/audit/files/, with the line of each, and whether Everyone may read it. The formats are
# those that Microsoft documents for Export-Csv, ConvertTo-Json, icacls, secedit, reg export, sc sdshow and wevtutil,
# RFC 2849, and the manuals of smbcacls, getfattr.
SOURCES = {
    "get-acl.csv": [(POWERSHELL, 3, "nothing"), (POWERSHELL + '\\a, "b" 100%.txt', 4, "found"),
                    (POWERSHELL + "\\two\nlines.txt", 5, "found"), (POWERSHELL + "\\tagged.txt", 7, "unknown"),
                    (POWERSHELL + "\\denied.txt", 8, "unknown"), (POWERSHELL + "\\Größe.txt", 9, "nothing")],
    "get-acl.json": [(POWERSHELL, 2, "found"), (POWERSHELL + "\\a\tb.txt", 7, "nothing"),
                     (POWERSHELL + "\\denied.txt", 12, "unknown"), ("SOURCE:16", 16, "found"),
                     ("SOURCE:17", 17, "unknown")],
    "lines.jsonl": [("C:\\one", 1, "found"), ("SOURCE:2", 2, "unknown"), ("C:\\two", 3, "nothing"),
                    ("SOURCE:4", 4, "unknown"),
                    ("C:\\none", 5, "unknown")],
    "icacls.txt": [("Data", 1, "found"), ("Data\\100% plan.txt", 3, "nothing"), ("Data\\lost.txt", 5, "unknown"),
                   ("Data\\next.txt", 6, "found"), ("SOURCE:8", 8, "unknown"), ("Data\\end.txt", 9, "unknown")],
    "policy.inf": [("Spooler", 9, "found"), ("Generic", 10, "found"), ("%SystemRoot%\\repair", 12, "nothing"),
                   ('"broken",2', 13, "unknown"), ("MACHINE\\Software\\Example", 15, "found")],
    "export.reg": [(SERVICES + "\\LanmanServer\\Shares\\Security\\Public", 4, "found"),
                   (SERVICES + "\\LanmanServer\\Shares\\Security\\Cut", 8, "unknown"),
                   (SERVICES + "\\LanmanServer\\Shares\\Security\\Empty", 9, "unknown"),
                   (SERVICES + "\\EventLog\\Application\\CustomSD", 14, "found"),
                   (SERVICES + "\\Spooler\\Security\\Security", 17, "nothing")],
    "service.txt": [("SOURCE:2", 2, "found")],
    "channel.txt": [("Application", 6, "found"), ("Hidden", 9, "unknown")],
    "directory.ldif": [("CN=Share,OU=Files,DC=example,DC=com", 6, "found"),
                       ("CN=Unreadable,OU=Files,DC=example,DC=com", 12, "unknown"),
                       ("CN=Größe,OU=Files,DC=example,DC=com", 15, "nothing"),
                       ("CN=Broken,DC=example,DC=com", 19, "unknown"),
                       ("the rest of the search", 26, "unknown")],
    "smbcacls.txt": [("SOURCE:1", 1, "found"), ("SOURCE:7", 7, "unknown")],
    "getfattr.txt": [("mnt/Data", 1, "found"), ("mnt/a b\nc", 4, "nothing"), ("mnt/none", 7, "unknown"),
                     ("mnt/text", 10, "unknown")],
}
# The question that tells whether Everyone may read an object.
EVERYONE_READS = ("can", "WD", "read")


def named(rows, source: str):
    return [(name.replace("SOURCE", source, 1) if name.startswith("SOURCE:") else name, line, answer)
            for name, line, answer in rows]


def zipped(data: bytes, name: str) -> bytes:
    written = io.BytesIO()
    with zipfile.ZipFile(written, "w", zipfile.ZIP_DEFLATED) as archive:
        archive.writestr(name, data)
    return written.getvalue()


def test_sources(place: Place) -> None:
    """Each format as it is, with CR LF, in other encodings, compressed, and from standard input."""
    def one(name: str, variant: str) -> None:
        text = (DATA / name).read_text(encoding="utf-8")
        crlf = text.replace("\n", "\r\n")
        # A name with a line end in it keeps the one that the file has.
        rows = [(title.replace("\n", "\r\n") if "two\n" in title
                 and variant not in ("plain", "utf-16-le without a mark") else title, line,
                 answer) for title, line, answer in SOURCES[name]]
        data = {"plain": text.encode(), "CR LF": crlf.encode(), "utf-8 with a mark": b"\xef\xbb\xbf" + crlf.encode(),
                "utf-16-le": b"\xff\xfe" + crlf.encode("utf-16-le"),
                "utf-16-be": b"\xfe\xff" + crlf.encode("utf-16-be"),
                "utf-16-le without a mark": text.encode("utf-16-le"), "gzip": gzip.compress(crlf.encode()),
                "bzip2": bz2.compress(crlf.encode()), "xz": lzma.compress(crlf.encode()), "stdin": crlf.encode(),
                "zip": zipped(crlf.encode(), "inner.txt"), "no last line end": crlf.rstrip().encode()}[variant]
        path = f"{variant.replace(' ', '_')}/{name}"
        if variant == "stdin":
            got, source = place.objects(*EVERYONE_READS, "-", stdin=data), "stdin"
        else:
            place.write(path, data)
            got, source = place.objects(*EVERYONE_READS, path), path + ":inner.txt" if variant == "zip" else path
        place.expect(places(got), named(rows, source), f"{name}, {variant}")

    some = ("plain", "CR LF", "utf-16-le", "stdin")
    others = ("utf-8 with a mark", "utf-16-be", "utf-16-le without a mark", "gzip", "bzip2", "xz", "zip",
              "no last line end")
    pairs = [(name, variant) for name in SOURCES for variant in some]
    pairs += [(name, variant) for name in ("get-acl.csv", "icacls.txt", "directory.ldif") for variant in others]
    with concurrent.futures.ThreadPoolExecutor() as threads:
        list(threads.map(lambda pair: one(*pair), pairs))


def test_damaged_registry(place: Place) -> None:
    """Lines of a registry export that are neither keys nor values are in the report, and those of a text are not."""
    binary = ",".join(f"{byte:02x}"
                      for byte in bytes.fromhex("01000480000000000000000000000000140000000200080000000000"))
    place.write("damaged.reg",
                "Windows Registry Editor Version 5.00\n\n; a comment\n[HKEY_LOCAL_MACHINE\\SOFTWARE\\X]\n"
                f'"Security"=hex:{binary}\n"Text"="first\nsecond line\n\nthird"\n"Security=hex:{binary}\n\n'
                f'"Other"=dword:1\n"Open"="never closed\n"TheirSD"=hex:{binary[:60]}\\\n  {binary[60:]}\n')
    place.expect([(one["name"].rpartition("X")[2][:12], one["line"], one["answer"])
                  for one in place.objects(*EVERYONE_READS, "damaged.reg")],
                 [("\\Security", 5, "nothing"), (': "Security=', 10, "unknown"), ("\\Open", 13, "unknown"),
                  ("\\TheirSD", 14, "nothing")],
                 "a damaged registry export")


KINDS = r"""
import sys
from sdtool.audit.sources.options import SourceOptions
from sdtool.audit.sources.reading import read
for item in read(sys.argv[1], SourceOptions()):
    print(item.kind)
"""


def test_kinds(place: Place) -> None:
    """What a value of a registry export protects shows in its key and its name; scmanager is known by its rights."""
    system, software = "HKEY_LOCAL_MACHINE\\SYSTEM\\CurrentControlSet\\", "HKEY_LOCAL_MACHINE\\SOFTWARE\\Microsoft\\"
    rows = [(system + "Services\\LanmanServer\\Shares\\Security", "Public", "share"),
            (system + "Control\\ServiceGroupOrder\\Security", "Security", "service-manager"),
            (system + "Services\\Spooler\\Security", "Security", "service"),
            (system + "Services\\CertSvc\\Security", "Security", "service"),
            (system + "Services\\CertSvc\\Configuration\\Our CA", "Security", "authority"),
            (system + "Services\\EventLog\\Application", "CustomSD", "log"),
            (system + "Control\\Print", "ServerSecurityDescriptor", "print-server"),
            (system + "Control\\Print\\Printers\\Office", "Security", "printer"),
            ("HKEY_CLASSES_ROOT\\AppID\\{0A}", "LaunchPermission", "com"),
            (software + "Ole", "DefaultAccessPermission", "com"),
            (software + "Ole", "MachineLaunchRestriction", "com"),
            (software + "Windows NT\\CurrentVersion\\Schedule\\TaskCache\\Tree\\Backup", "SD", "task"),
            ("HKEY_LOCAL_MACHINE\\SOFTWARE\\X", "Security", "untold")]
    binary = ",".join(f"{byte:02x}"
                      for byte in bytes.fromhex("01000480000000000000000000000000140000000200080000000000"))
    place.write("kinds.reg", "Windows Registry Editor Version 5.00\n\n" + "".join(
        f'[{key}]\n"{name}"=hex:{binary}\n\n' for key, name, _ in rows))
    ended = subprocess.run([place.python, "-c", KINDS, "kinds.reg"], cwd=place.folder, env=place.environment,
                           capture_output=True, text=True)
    place.expect(ended.stdout.split(), [kind for _, _, kind in rows],
                 f"kinds of values of a registry export: {ended.stderr}")
    place.write("manager.txt", "\nD:(A;;CC;;;AU)(A;;CCLCRPRC;;;IU)(A;;CCLCRPRC;;;SU)(A;;CCLCRPWPRC;;;SY)(A;;KA;;;BA)\n"
                "\nD:(A;;CCLCSWLOCRRC;;;IU)\n")
    ended = subprocess.run([place.python, "-c", KINDS, "manager.txt"], cwd=place.folder, env=place.environment,
                           capture_output=True, text=True)
    place.expect(ended.stdout.split(), ["service-manager", "service"],
                 f"kinds of what sc sdshow prints: {ended.stderr}")


def test_tables(place: Place) -> None:
    """Delimiters, titles and columns."""
    full, read = "O:BAG:SYD:(A;;FA;;;BA)", "O:BAG:SYD:(A;;FR;;;WD)"
    rows = [("a", 2, "nothing"), ("b", 3, "found")]
    first = [("a", 1, "nothing"), ("b", 2, "found")]
    cases = [
        ("semicolons", f'Path;Sddl\na;"{full}"\nb;"{read}"\n', [], rows),
        ("a line for the delimiter", f'sep=;\r\nPath;Sddl\r\na;"{full}"\r\nb;"{read}"\r\n', [],
         [("a", 3, "nothing"), ("b", 4, "found")]),
        ("tabs", f"Path\tSddl\na\t{full}\nb\t{read}\n", [], rows),
        ("bars", f"Path|Sddl\na|{full}\nb|{read}\n", [], rows),
        ("no titles", f"a\t{full}\nb\t{read}\n", [], first),
        ("the descriptor first", f"{full},a\n{read},b\n", ["--format", "csv"], first),
        ("other titles", f"Ordner,Rechte,Name\n-,{full},a\n-,{read},b\n", [], rows),
        ("a column by its title", f"x,y,z\n{read},a,{full}\n{full},b,{read}\n",
         ["--name-column", "y", "--descriptor-column", "Z"], rows),
        ("a column by its number", f"{read},a,{full}\n{full},b,{read}\n",
         ["--name-column", "2", "--descriptor-column", "3", "--no-header"], first),
        ("an odd delimiter", f"name^sddl\na^{full}\nb^{read}\n", ["--delimiter", "^"], rows),
        ("hex and base64", "name,sddl\na,01000480000000000000000000000000140000000200080000000000\n"
         "b,AQAAgAAAAAAAAAAAAAAAAAAAAAA=\n", [], rows),
        ("quotation marks that mean nothing", f'name\tsddl\n"a\t{full}\n"b"x\t{read}\n',
         ["--no-quotes", "--delimiter", "tab"],
         [('"a', 2, "nothing"), ('"b"x', 3, "found")]),
        ("rows of another length", f"Path;Sddl\na;{full}\nb;\"{read}\"\nc\n", [],
         [("a", 2, "unknown"), ("b", 3, "found"), ("c", 4, "unknown")]),
        ("an open quotation mark", f'Path,Sddl\n"a,{full}\nb,{read}\n', [],
         [(f'"a,{full}', 2, "unknown"), ("b", 3, "found")]),
        ("empty lines", f"Path,Sddl\na,{full}\n\nb,{read}\n\n\n", [],
         [("a", 2, "nothing"), ("SOURCE:3", 3, "unknown"), ("b", 4, "found")]),
        ("one row without an end", f"a\t{read}", [], [("a", 1, "found")]),
        ("a column without a title", f"Path,Owner\na,BA,{full}\nb,SY,{read}\nc,d\n", [],
         [("a", 2, "nothing"), ("b", 3, "found"), ("c", 4, "unknown")]),
        ("drives", f"Path,Sddl\nD:\\a,{full}\nS:\\b,{read}\n", [], [("D:\\a", 2, "nothing"), ("S:\\b", 3, "found")]),
        ("drives and other titles", f'Ordner;Rechte\nD:\\a;"{full}"\nS:/b;"{read}"\n', [],
         [("Ordner", 1, "unknown"), ("D:\\a", 2, "nothing"), ("S:/b", 3, "found")]),
        ("drives and no titles", f"D:\\a\t{full}\nG:\\b\t{read}\n", [],
         [("D:\\a", 1, "nothing"), ("G:\\b", 2, "found")]),
        ("a line end in a descriptor", f'Path,Sddl\na,"{full}\n(A;;FR;;;WD)"\nb,{read}\n', [],
         [("a", 2, "unknown"), ("b", 4, "found")]),
    ]
    with concurrent.futures.ThreadPoolExecutor() as threads:
        got = threads.map(lambda case: place.objects(*EVERYONE_READS, place.write(f"{case[0]}.csv", case[1]),
                                                     *case[2]), cases)
        for (what, _, _, wanted), found in zip(cases, got):
            place.expect(places(found), named(wanted, f"{what}.csv"), f"a table with {what}")
    # NTFS allows half a pair of UTF-16 in a name.
    halves = f"Path,Sddl\r\na\udf3b,{read}\r\nb,\udf3b{read}\r\nc,{full}\r\n".encode("utf-16-le", "surrogatepass")
    place.write("halves.csv", b"\xff\xfe" + halves)
    place.expect(places(place.objects(*EVERYONE_READS, "halves.csv")),
                 [("a\udf3b", 2, "found"), ("b", 3, "unknown"), ("c", 4, "nothing")], "half a pair of UTF-16")
    halves = "# file: a\udf3b\\040b\nuser.sd=0x0100008000000000000000000000000000000000\n".encode("utf-16-le",
                                                                                                  "surrogatepass")
    place.write("halves.txt", b"\xff\xfe" + halves)
    place.expect([one["answer"] for one in place.objects(*EVERYONE_READS, "halves.txt", "--attribute", "user.sd")],
                 ["found"], "half a pair of UTF-16 in what getfattr wrote")
    text = f'Path,Sddl\n"ä",{read}\n'
    place.write("cp1252.csv", text.encode("cp1252"))
    place.expect(places(place.objects(*EVERYONE_READS, "cp1252.csv", "--encoding", "cp1252")),
                 [("ä", 2, "found")], "cp1252")
    # Without the option the name keeps its byte.
    ended = place.ask(*EVERYONE_READS, "cp1252.csv", "--to", "csv")
    place.expect("\udce4,cp1252.csv,2,found" in ended.stdout, True, f"a byte that is no UTF-8: {ended}")


def test_plain_lines(place: Place) -> None:
    """Lines without names, and names in a file of their own."""
    lines = "O:BAD:(A;;FR;;;WD)\n\n \nO:BA\nD:NO_ACCESS_CONTROL\nD:\nxyz\nO:BAD:(A;;FA;;;BA)"
    wanted = ["found", "unknown", "unknown", "found", "found", "nothing", "unknown", "nothing"]
    place.write("list", lines)
    got = place.objects(*EVERYONE_READS, "list")
    place.expect(places(got), [(f"list:{at}", at, answer) for at, answer in enumerate(wanted, 1)], "plain lines")
    names = ["a b", "c\td", '"e"', "100%", "=1+1", "-f", "g;h", "<i>"]
    place.write("names", "\r\n".join(names) + "\r\n")
    got = place.objects(*EVERYONE_READS, "list", "--object-names", "names")
    place.expect(places(got), [(name, at, answer) for at, (name, answer) in enumerate(zip(names, wanted), 1)],
                 "names of lines")
    for what, text in (("short", "\n".join(names[:-1])), ("long", "\n".join([*names, "j"]))):
        place.write("other", text)
        ended = place.ask(*EVERYONE_READS, "list", "--object-names", "other")
        place.expect((ended.status, ended.stdout, "no object can be sure" in ended.stderr), (2, "", True),
                     f"names are {what}")


def test_drives(place: Place) -> None:
    """Names that begin as a descriptor does: D: is a drive and a DACL."""
    place.write("drives.txt", "D:\\Data\nD:PAI(A;;FA;;;BA)\nS:\\x\nD:(A;;FR;;;WD)\nG:\\lost\nO:\\y\nD:P\n")
    place.expect(places(place.objects(*EVERYONE_READS, "drives.txt")),
                 [("D:\\Data", 1, "nothing"), ("S:\\x", 3, "found"), ("G:\\lost", 5, "unknown"),
                  ("O:\\y", 6, "nothing")],
                 "names of drives in a list of icacls")
    place.write("drives.json", '{"D:\\\\a": "D:(A;;FR;;;WD)", "D:\\\\b": "O:BAD:"}')
    place.expect([(one["name"], one["answer"]) for one in place.objects(*EVERYONE_READS, "drives.json")],
                 [("D:\\a", "found"), ("D:\\b", "nothing")], "names of drives in JSON")


def hostile_rows():
    """Names and descriptors that are hard, and whether Everyone may change the object: worked out by hand."""
    guid = "bf967aba-0de6-11d0-a285-00aa003049e2"
    many = "".join(f"(A;;FR;;;S-1-5-21-1-2-3-{number})" for number in range(1001, 2000))
    return [
        ("plain", "O:BAG:SYD:(A;;FA;;;WD)", "found"), ("lower case", "o:bag:syd:(a;;fa;;;wd)", "found"),
        ("by number", "O:BAD:(A;;0x100002;;;S-1-1-0)", "found"), ("blanks around", "  O:BAD:(A;;FA;;;WD)  ", "found"),
        ("conditional", "D:(XA;;FA;;;WD;(@User.clearance >= 2))", "unknown"),
        ("attribute", 'D:(A;;FA;;;BA)S:(RA;;;;;WD;("Secrecy",TU,0,3))', "unknown"),
        ("alias", "O:DAD:(A;;FR;;;WD)", "unknown"),
        ("a name", "D:(A;;FA;;;Everyone)", "unknown"), ("scoped policy", "S:(SP;;;;;S-1-17-1)", "unknown"),
        ("no descriptor", "", "unknown"), ("a blank", " ", "unknown"), ("absent", "O:BAG:SY", "found"),
        ("null", "O:BAG:SYD:NO_ACCESS_CONTROL", "found"), ("null, protected", "D:PNO_ACCESS_CONTROL", "found"),
        ("empty list", "D:", "nothing"), ("object ACE", f"D:(OA;;CR;{guid};;WD)", "unknown"),
        ("object ACE for children", f"D:(OA;CIIO;CR;{guid};;WD)", "unknown"),
        ("denied first", "D:(D;;FA;;;WD)(A;;FA;;;WD)", "nothing"),
        ("denied last", "D:(A;;FA;;;WD)(D;;FA;;;WD)", "found"), ("for children", "D:(A;OICIIO;FA;;;WD)", "nothing"),
        ("generic", "D:(A;;GW;;;WD)(A;;FR;;;BA)", "found"), ("generic read", "D:(A;;GR;;;WD)(A;;FR;;;BA)", "nothing"),
        ("rights of no file", "D:(A;;LC;;;WD)", "unknown"),
        ("owner", "O:WDD:(A;;FR;;;BA)", "found"), ("owner rights", "O:WDD:(A;;RC;;;OW)", "nothing"),
        ("append alone", "D:(A;;LC;;;WD)(A;;FR;;;BA)", "found"),
        ("delete children alone", "D:(A;;DT;;;WD)(A;;FR;;;BA)", "found"),
        ("attributes alone", "D:(A;;LO;;;WD)(A;;FR;;;BA)", "nothing"), ("many ACEs", "D:" + many, "nothing"),
        ("cut", "O:BAG:SYD:(A;;FA;;;WD", "unknown"), ("two", "O:BAD:(A;;FR;;;WD)O:SYD:(A;;FA;;;WD)", "unknown"),
        ("hex", "01000480000000000000000000000000140000000200080000000000", "nothing"),
        ("odd hex", "010004800", "unknown"),
        ("callback in bytes",
         "0100048000000000000000000000000014000000020020000100000009001800a900120001010000000000010000000061727478",
         "unknown"), ("not a descriptor", "hello", "unknown"), ("Ä", "D:(A;;FA;;;Ä)", "unknown"),
        ('a "quoted", name', "D:(A;;FA;;;WD)", "found"), ("a\ttab", "D:(A;;FR;;;WD)", "nothing"),
        ("a\nline end", "D:(A;;FA;;;WD)", "found"), ("a\rCR", "D:(A;;FA;;;WD)", "found"),
        ("100%s %n", "D:(A;;FA;;;WD)", "found"),
        ("[red]markup[/red]", "D:(A;;FA;;;WD)", "found"), ("<script>alert(1)</script>", "D:(A;;FA;;;WD)", "found"),
        ("\x1b[2J\x1b]0;owned\x07", "D:(A;;FA;;;WD)", "found"), ("\u202egpj.exe", "D:(A;;FA;;;WD)", "found"),
        ("=cmd|'/c calc'!A1", "D:(A;;FR;;;WD)", "nothing"), ("x" * 5000, "D:(A;;FA;;;WD)", "found"),
        ("", "D:(A;;FA;;;WD)", "found"),
    ]


def test_hostile(place: Place) -> None:
    """No object is lost, none is known that isn't, in any report."""
    rows = hostile_rows()
    source = place.table([row[:2] for row in rows], "hostile.csv", ("name", "sddl"))
    wanted = collections.Counter((name, answer) for name, _, answer in rows)
    words = ("can", "WD", "change", source)
    place.expect(collections.Counter((one["name"], one["answer"]) for one in place.objects(*words)), wanted,
                 "hostile, JSON lines")
    ended = place.ask(*words, "--to", "csv")
    read = list(csv.reader(io.StringIO(ended.stdout, newline="")))
    place.expect(collections.Counter((row[0], row[3]) for row in read[1:]), wanted, "hostile, CSV")
    place.expect(ended.status, 3, "hostile, status")
    ended = place.ask(*words, "--to", "table", "--most", "0", "--each")
    shown = [line for line in ended.stdout.splitlines() if re.search(r"  (found|unknown)\b", line)]
    place.expect(len(shown), sum(answer != "nothing" for _, _, answer in rows), f"hostile, rows of the table: {ended}")
    place.expect(re.findall("[\0-\x09\x0b-\x1f\x7f\u202e]", ended.stdout), [],
                 "hostile, control characters in the table")
    counts = collections.Counter(answer for _, _, answer in rows)
    place.expect(ended.stdout.splitlines()[-1],
                 f"{len(rows)} objects: {counts['found']} found, {counts['unknown']} unknown, {counts['nothing']} "
                 "nothing", "hostile, the sum")
    ended = place.ask("risks", source, "--to", "sarif")
    results = json.loads(ended.stdout)["runs"][0]["results"]
    place.expect(sum(result["ruleId"] == "unknown" for result in results), counts["unknown"],
                 "hostile, unknown ones in SARIF")


def test_page_report(place: Place) -> None:
    """The report that is put into the page: every object with its descriptor, and nothing that could be markup."""
    rows = hostile_rows()
    source = place.table([row[:2] for row in rows], "in the page.csv", ("name", "sddl"))
    place.write("names.csv", "S-1-5-21-1-2-3-1001,</script><b>Ann</b>\n")
    words = ("can", "WD", "change", source, "--sid-names", "names.csv", "--domain", "S-1-5-21-1-2-3")
    ended = place.ask(*words, "--to", "html", "--list", "all")
    before, after = PAGE.split("</script>")
    inside = ended.stdout[len(before):-len("</script>" + after)]
    place.expect(ended.stdout, before + inside + "</script>" + after, "the page around a report")
    place.expect("<" in inside, False, "a report that could end its element")
    head, *lines, last = (json.loads(line) for line in inside.split("\n") if line)
    place.expect((head["report"], head["title"], head["domain"], head["names"]),
                 (REPORT["version"], "What WD gets of: change", "S-1-5-21-1-2-3",
                  [["S-1-5-21-1-2-3-1001", "</script><b>Ann</b>"]]), "the head of a report in the page")
    shown, told = [of_page("object", line) for line in lines], place.objects(*words)
    place.expect([(one["name"], one["source"], one["line"] or None, one["answer"], one["findings"]) for one in shown],
                 [(one["name"], one["source"], one["line"], one["answer"], [
                     {"rule": found["rule"], "trustee": found["trustee"], "rights": found["rights"],
                      "text": found["text"],
                      "accepted": found.get("accepted", ""), "severity": found.get("severity", ""),
                      "numbers": found.get("aces", []),
                      "isInherited": found.get("inherited", False),
                      "because": [{"number": why["ace"] or 0, "text": why["text"], "rights": why["rights"],
                                   "grants": why["grants"]}
                                  for why in found.get("because", [])]} for found in one["findings"]]) for one in told],
                 "objects of a report in the page")
    texts = {(one["name"], one["descriptor"]) for one in shown if one["form"]}
    spelled = {(name, one) for name, text, _ in rows for one in (text, text.strip())}
    place.expect((texts - spelled, ("blanks around", "  O:BAD:(A;;FA;;;WD)  ") in texts), (set(), True),
                 "descriptors of a report in the page")
    place.expect({(one["name"], one["reason"]) for one in shown if not one["form"]},
                 {(one["name"], one["reason"]) for one in told if one["answer"] == "unknown" and
                  one["name"] not in {name for name, _ in texts}}, "objects without a descriptor in the page")
    place.expect((last["summary"], last["listsAll"]), (ended.stderr.strip().splitlines()[-1], True),
                 "the end of a report in the page")
    for name, text in (("none.html", "no page"), ("other.html", PAGE.replace("report", "other")), ("empty.html", ""),
                       ("missing.html", None)):
        page = place.folder / name
        if text is not None:
            place.write(name, text)
        wrong = place.ask(*words, "--to", "html", SDTOOL_PAGE=str(page))
        place.expect((wrong.status, wrong.stdout, f"{page} isn't that" in wrong.stderr), (2, "", True),
                     f"a page that is none, {name}: {wrong}")
    # Where packages install the page it is found.
    installed = place.folder / "installed"
    shutil.copytree(TOP / "python/sdtool", installed / "sdtool",
                    ignore=shutil.ignore_patterns("__pycache__", "sdtool.html"))
    place.write("installed/sdtool/audit/sdtool.html", PAGE)
    found = place.ask(*words, "--to", "html", "--list", "all", SDTOOL_PAGE="", PYTHONPATH=str(installed))
    place.expect((found.status, found.stdout == ended.stdout), (ended.status, True), f"the page of a package: {found}")


def test_can(place: Place) -> None:
    """What tokens get."""
    source = place.table([
        ("all", "O:BAD:(A;;FA;;;BU)"), ("some", "O:BAD:(A;;0x100002;;;BU)"),
        ("stopped", "O:BAD:(D;;FW;;;BG)(A;;FA;;;BU)"),
        ("high", "O:BAD:(A;;FA;;;BU)S:(ML;;NW;;;HI)"), ("owned", "O:BUD:"), ("not mine", "O:BAD:(A;;FA;;;BA)")])
    full = "Full control"
    place.expect(place.told("can", "BU,WD,AU", "write", source),
                 {"all": ("found", ("can", "", full)), "some": ("found", ("can", "", "write data")),
                  "stopped": ("found", ("can", "", full)), "high": ("found", ("can", "", full)), "owned": ("nothing",),
                  "not mine": ("nothing",)}, "can, some of the rights")
    place.expect(place.told("can", "BU,!BG", "write", source)["stopped"],
                 ("nothing", ("stopped", "", "write data, append data")), "can, a deny-only SID")
    place.expect(place.told("can", "!BU", "write", source)["all"], ("nothing",), "can, deny-only alone")
    place.expect(place.told("can", "BU", "write", source, "--level", "8192")["high"],
                 ("nothing", ("stopped", "", "write data, append data")), "can, a level")
    place.expect(place.told("can", "BU", "permissions", source)["owned"], ("found", ("can", "", "change permissions")),
                 "can, an owner")
    place.expect([one["answer"] for one in place.objects("can", "BU", "0x1000000", source)], ["nothing"] * 6,
                 "can, the SACL")
    place.write("whoami.csv", '"EXAMPLE\\ann","S-1-5-21-1-2-3-1001"\r\n'
                '"BUILTIN\\Administrators","Alias","S-1-5-32-544","Group used for deny only"\r\n'
                '"BUILTIN\\Users","Alias","S-1-5-32-545","Mandatory group, Enabled by default, Enabled group"\r\n'
                '"Mandatory Label\\Medium Mandatory Level","Label","S-1-16-8192",""\r\n')
    place.expect([one["answer"] for one in place.objects("can", "whoami.csv", "write", source)],
                 ["found", "found", "found", "nothing", "nothing", "nothing"], "can, whoami /fo csv")
    place.write("whoami.txt", "\r\nUSER INFORMATION\r\n----------------\r\n\r\nUser Name   SID\r\n=========== =====\r\n"
                "example\\ann S-1-5-21-1-2-3-1001\r\n\r\nGROUP INFORMATION\r\n\r\n"
                "Group Name                Type   SID          Attributes\r\n"
                "BUILTIN\\Administrators    Alias  S-1-5-32-544 Group used for deny only\r\n"
                "BUILTIN\\Users             Alias  S-1-5-32-545 Mandatory group, Enabled by default, Enabled group\r\n"
                "Mandatory Label\\Medium Mandatory Level Label S-1-16-8192\r\n")
    place.expect([one["answer"] for one in place.objects("can", "whoami.txt", "write", source)],
                 ["found", "found", "found", "nothing", "nothing", "nothing"], "can, whoami /all")
    place.write("odd.csv", '"A","Alias","S-1-5-32-545","Irgendwas"\r\n')
    place.expect(place.ask("can", "odd.csv", "write", source).status, 2, "can, attributes that aren't known")
    unix = place.table([("u", "D:(A;;FR;;;S-1-22-1-1000)"), ("g", "D:(A;;FR;;;S-1-22-2-27)"),
                        ("o", "D:(A;;FR;;;S-1-22-2-5)")],
                       "unix.csv")
    place.write("id.txt", "uid=1000(ann) gid=1000(ann) groups=1000(ann),27(sudo)\n")
    place.expect([one["answer"] for one in place.objects("can", "id.txt", "read", unix)],
                 ["found", "found", "unknown"], "can, id")
    place.write("id.txt",
                "uid=1000(ann) gid=1000(ann) groups=1000(ann),27(sudo)\nS-1-5-21-1-2-3-1001\nS-1-5-21-1-2-3-513\n")
    place.expect([one["answer"] for one in place.objects("can", "id.txt", "read", unix)], ["found", "found", "nothing"],
                 "can, id and wbinfo --user-sids")
    # objectSid S-1-5-21-1-2-3-1001 and tokenGroups S-1-5-32-545, in base64.
    place.write("token.ldif", "dn: CN=Ann\nobjectSid:: AQUAAAAAAAUVAAAAAQAAAAIAAAADAAAA6QMAAA==\n"
                "tokenGroups:: AQIAAAAAAAUgAAAAIQIAAA==\n")
    place.expect([one["answer"] for one in place.objects("can", "token.ldif", "write", source)],
                 ["found", "found", "found", "found", "nothing", "nothing"], "can, tokenGroups")
    place.write("token.ldif", "# record 1\ndn: CN=Ann\nobjectSid: S-1-5-21-1-2-3-1001\ntokenGroups: S-1-5-32-545\n")
    place.expect([one["answer"] for one in place.objects("can", "token.ldif", "write", source)],
                 ["found", "found", "found", "found", "nothing", "nothing"], "can, tokenGroups of ldbsearch")
    place.write("token.ldif", "dn: CN=Ann\nobjectSid: S-1-5-21-1-x\ntokenGroups:: AAAA\n")
    ended = place.ask("can", "token.ldif", "write", source)
    place.expect((ended.status, ended.stdout, "no SID" in ended.stderr), (2, "", True),
                 f"can, SIDs that are damaged: {ended}")
    place.write("groups.ldif", "dn: CN=G\nobjectSid: S-1-5-21-1-2-3-1105\nsAMAccountName: Group\nmember: CN=Ann\n\n"
                "dn: CN=Ann\nobjectSid: S-1-5-21-1-2-3-1001\nsAMAccountName: Ann\n")
    group = place.table([("a", "D:(A;;FR;;;S-1-5-21-1-2-3-1105)")], "group.csv")
    told = [finding["trustee"] for one in place.objects("who", "read", group, "--groups", "groups.ldif")
            for finding in one["findings"]]
    place.expect(told, ["Group (S-1-5-21-1-2-3-1105)", "Ann (S-1-5-21-1-2-3-1001)"], "who, groups of ldbsearch")
    head = "dn: CN=X\nlDAPDisplayName: x\ndefaultSecurityDescriptor:     SDDL: struct security_descriptor\n"
    fields = "".join(f"        {one} : NULL\n" for one in ("owner_sid", "group_sid", "sacl", "dacl"))
    for text, status, said in ((head + "        type : 0x8004 (32772)\n" + fields, 0, ""),
                               (head + "    UNEXPECTED NULL POINTER\n", 2, "without --show-binary"),
                               (head.partition(":     ")[0] + ":\n", 2, "is empty"),
                               (head.partition(":     ")[0] + ":: RDoKCg==\n", 2, "line end")):
        place.write("schema.ldif", text)
        ended = place.ask("risks", group, "--schema", "schema.ldif")
        place.expect((ended.status, said in ended.stderr), (status, True), f"a schema: {ended}")
    place.write("list.txt", "# a user\nBU # users\n!BA\n")
    place.expect(place.told("can", "list.txt", "write", source)["all"][0], "found", "can, a file of SIDs")


def test_tokens(place: Place) -> None:
    """A token is never less than the real one without a word."""
    ann = f"{DOMAIN}-1001"
    source = place.table([
        ("everyone", "O:BAD:(A;;FW;;;WD)"), ("signed in", "O:BAD:(A;;FW;;;AU)"),
        ("denied", f"O:BAD:(D;;FW;;;WD)(A;;FW;;;{ann})"),
        ("anonymous", "O:BAD:(D;;FW;;;WD)(A;;FW;;;AN)"), ("packages", "O:BAD:(A;;FW;;;AC)")])

    def found(*words: str):
        return [one["name"] for one in place.objects("can", *words[:1], "write", source, *words[1:])
                if one["answer"] == "found"]

    place.expect(found(ann), ["everyone", "signed in"], "a user's SID alone")
    place.expect(found(ann, "--exact"), ["denied"], "a user's SID, exactly")
    place.expect((found("AN"), found("WD"), found("AC"), found("BG")),
                 (["anonymous"], ["everyone"], ["packages"], ["everyone"]), "tokens of SIDs that bring less")
    place.write("user.csv", f'"User Name","SID"\r\n"EXAMPLE\\ann","{ann}"\r\n')
    place.expect(found("user.csv"), ["everyone", "signed in"], "whoami /user")
    asked = place.ask("can", "user.csv", "write", source)
    place.expect(asked.stderr.splitlines()[0],
                 f"the token: {ann}, {EVERYONE}, {SIGNED_IN}", "a report names its token")
    place.write("cut.csv", f'"EXAMPLE\\ann","{ann}"\r\n"SeShutdownPrivilege","Shut down the system","Disabled"\r\n')
    cut = place.ask("can", "cut.csv", "write", source)
    place.expect((cut.status, "no groups" in cut.stderr), (2, True), "a whoami without its groups")
    place.write("many.txt", "".join(f"{DOMAIN}-{number}\n" for number in range(2000, 3100)))
    many = place.ask("can", "many.txt", "write", source)
    place.expect((many.status, many.stderr), (2, "sdtool-audit: the token has 1,102 SIDs; a token has at most 1,024\n"),
                 "too many SIDs")
    groups = '"BUILTIN\\Users","Alias","S-1-5-32-545","Mandatory group, Enabled by default, Enabled group"\r\n'
    place.write("held.csv",
                f'"EXAMPLE\\ann","{ann}"\r\n{groups}"SeTakeOwnershipPrivilege","Take ownership","Disabled"\r\n'
                '"SeSecurityPrivilege","Manage auditing","Enabled"\r\n"SeBackupPrivilege","Back up","Disabled"\r\n')
    closed = place.table([("closed", "O:BAD:(A;;FA;;;BA)")], "closed.csv")
    held = place.ask("can", "held.csv", "owner", "0x1000000", closed)
    place.expect((held.status, "take ownership, access the SACL" in held.stdout,
                  "SeBackupPrivilege: may read any object" in held.stderr), (1, True, True), "privileges of whoami")
    place.write("held.txt",
                f"User Name SID\nexample\\ann {ann}\nBUILTIN\\Users Alias S-1-5-32-545 Mandatory group, Enabled group\n"
                "SeTakeOwnershipPrivilege  Take ownership of files  Disabled\n")
    place.expect(place.told("can", "held.txt", "owner", closed)["closed"], ("found", ("can", "", "take ownership")),
                 "privileges of whoami, as a table")
    place.expect(found("user.csv", "--exact"), ["denied"], "whoami /user, exactly")
    enabled = "Mandatory group, Enabled by default, Enabled group"
    place.write("list.txt", f"\r\nUser Name: example\\ann\r\nSID:       {ann}\r\n\r\n"
                "Group Name: Everyone\r\nType:       Well-known group\r\nSID:        S-1-1-0\r\n"
                "Attributes: Group used for deny only\r\n\r\nGroup Name: NT AUTHORITY\\Authenticated Users\r\n"
                f"Type:       Well-known group\r\nSID:        S-1-5-11\r\nAttributes: {enabled}\r\n\r\n"
                "Privilege Name: SeTakeOwnershipPrivilege\r\nState:          Disabled\r\n")
    place.expect(found("list.txt"), ["signed in"], "whoami /all /fo list")
    place.expect(place.told("can", "list.txt", "owner", closed)["closed"], ("found", ("can", "", "take ownership")),
                 "privileges of whoami /fo list")
    place.write("groups.csv", f'"Everyone","Well-known group","S-1-1-0","{enabled}"\r\n')
    place.expect([one["answer"] for one in place.objects("can", "groups.csv", "write", source)],
                 ["found", "unknown", "unknown", "unknown", "unknown"], "a whoami without its user")
    for name, text in (("priv.csv", '"SeShutdownPrivilege","Shut down","Disabled"\r\n'),
                       ("priv.txt", "SeShutdownPrivilege Shut down Disabled\r\n"),
                       ("broken.txt",
                        f"example\\ann {ann}\r\nBUILTIN\\Users Alias S-1-5-32-545\r\nGroup used for deny only\r\n")):
        place.write(name, text)
        place.expect(place.ask("can", name, "write", source).status, 2, f"whoami, {name}")
    ownerless = place.table([("a", "D:(A;;FR;;;WD)"), ("b", f"D:(A;;WD;;;{ann})"), ("c", "D:(A;;RC;;;OW)"),
                             ("d", "O:BAD:(A;;FR;;;WD)")],
                            "ownerless.csv")
    place.expect([one["answer"] for one in place.objects("can", ann, "permissions", ownerless)],
                 ["unknown", "found", "nothing", "nothing"], "can, without an owner")
    place.expect([one["answer"] for one in place.objects("who", "permissions", ownerless)],
                 ["unknown", "found", "nothing", "trusted"], "who, without an owner")
    place.expect([one["answer"] for one in place.objects("can", ann, "read", ownerless)],
                 ["found", "nothing", "nothing", "found"], "can, a right that no owner has")
    given = place.table([("full", "D:(A;;FA;;;OW)"), ("data", "D:(A;;0x100002;;;OW)"), ("denied", "D:(D;;FA;;;OW)"),
                         ("below", "D:(A;OIIO;FA;;;OW)")], "given.csv")
    place.expect([[one["answer"] for one in place.objects(*words, given)] for words in (
        ("can", ann, "write"), ("who", "write"), ("who", "permissions"))],
        [["unknown", "unknown", "nothing", "nothing"]] * 2 + [["unknown", "nothing", "nothing", "unknown"]],
        "what an ACE gives to an owner that isn't there")
    place.write("listed.icacls", b"\xff\xfe" + "Data\r\nD:(A;;FR;;;WD)\r\n".encode("utf-16-le"))
    place.expect([[one["answer"] for one in place.objects(*words, "listed.icacls")]
                  for words in (("can", ann, "change"), ("who", "change"), ("can", ann, "write"))],
                 [["unknown"], ["unknown"], ["nothing"]], "icacls has no owners")
    low = place.table([("low", "O:BAD:(A;;0x2;;;WD)"), ("same", "O:BAD:(A;;0x2;;;WD)S:(ML;;NW;;;LW)")], "low.csv")
    place.expect([one["answer"] for one in place.objects("can", "WD", "write", low, "--type", "process",
                                                         "--level", "4096")],
                 ["unknown", "found"], "a level below that of a process")
    place.write("ranged.ldif",
                "dn: CN=Team\nobjectSid:: AQUAAAAAAAUVAAAAAQAAAAIAAAADAAAA0QcAAA==\nmember;range=0-0: CN=Ann\n\n"
                "dn: CN=Ann\nobjectSid:: AQUAAAAAAAUVAAAAAQAAAAIAAAADAAAA6QMAAA==\n")
    ranged = place.ask("who", "write", source, "--groups", "ranged.ldif")
    place.expect("CN=Team is not whole" in ranged.stderr, True, f"a group in ranges: {ranged.stderr}")


def test_who(place: Place) -> None:
    """Who gets rights, and whom a deny stops."""
    ann, bob, team, all_hands = (f"{DOMAIN}-{number}" for number in (1001, 1002, 2001, 2002))
    source = place.table([
        ("plain", "O:BAG:SYD:(A;;FA;;;SY)(A;;0x2;;;WD)"),
        ("denied", f"O:BAD:(D;;FA;;;{bob})(A;;FW;;;WD)(A;;FW;;;{ann})"),
        ("own deny", f"O:BAD:(D;;FW;;;{ann})(A;;FW;;;{ann})"),
        ("team", f"O:BAD:(D;;FW;;;{bob})(A;;FW;;;{team})"), ("null", "D:NO_ACCESS_CONTROL"), ("nobody", "O:BAD:"),
        ("owner rights", f"O:{ann}D:(A;;FW;;;OW)"), ("children", f"D:(A;OICIIO;FA;;;{ann})"),
        ("generic read", f"D:(A;;GR;;;{ann})(A;;FR;;;BA)")])
    write, stopped = "Write", "write data, append data"
    listed = ("--all-trustees",)
    place.expect(place.told("who", "write", source, *listed), {
        "plain": ("found", ("who", SYSTEM, "Full control"), ("who", EVERYONE, "write data")),
        # Ann gets it by Everyone's ACE and her own; Bob is stopped.
        "denied": ("found", ("who", EVERYONE, write), ("who", ann, write), ("stopped", bob, stopped)),
        "own deny": ("nothing", ("stopped", ann, stopped)),
        "team": ("found", ("who", team, write)),
        "null": ("found", ("who", EVERYONE, "Full control")), "nobody": ("nothing",),
        "owner rights": ("found", ("who", ann, write)),
        "children": ("nothing",), "generic read": ("nothing",)}, "who may write")
    place.expect(place.told("who", "permissions", source, *listed)["nobody"],
                 ("found", ("who", ADMINISTRATORS, "change permissions")), "who, the owner")
    place.write("groups.csv",
                f"# who is in which group\n{team}=Team,{ann}=Ann,{bob}=Bob,{all_hands}=All hands\n{all_hands},{ann}\n")
    place.expect(place.told("who", "write", source, "--groups", "groups.csv")["team"],
                 ("found", ("who", f"Team ({team})", write), ("who", f"Ann ({ann})", write),
                  ("stopped", f"Bob ({bob})", stopped)),
                 "who, groups")
    nested = place.table([("nested", f"O:BAD:(A;;FW;;;{all_hands})")], "nested.csv")
    place.write("nested.txt", f"{all_hands},{team}\n{team},{bob}\n")
    place.expect(place.told("who", "write", nested, "--groups", "nested.txt")["nested"],
                 ("found", ("who", all_hands, write), ("who", bob, write)), "who, nested groups")
    # No token has so many SIDs. What is asked about the other objects has its answers.
    many = [f"{DOMAIN}-{number}" for number in range(2000, 3100)]
    both = place.table([("many", "O:BAD:" + "".join(f"(A;;FW;;;{one})" for one in many)),
                        ("nested", f"O:BAD:(A;;FW;;;{all_hands})")], "both.csv")
    place.write("many.txt", "".join(f"{one},{bob}\n" for one in (*many, all_hands)))
    place.expect(place.told("who", "write", both, "--groups", "many.txt"),
                 {"many": ("unknown",), "nested": ("found", ("who", all_hands, write), ("who", bob, write))},
                 "who, a member of more groups than a token has")
    place.write("directory.ldif",
                "dn: CN=Team\nobjectSid:: AQUAAAAAAAUVAAAAAQAAAAIAAAADAAAA0QcAAA==\nsAMAccountName: Team\nmember: "
                "CN=Ann\n\ndn: CN=Ann\nobjectSid:: AQUAAAAAAAUVAAAAAQAAAAIAAAADAAAA6QMAAA==\nsAMAccountName: ann\n"
                "primaryGroupID: 513\n")
    place.expect(place.told("who", "write", source, "--groups", "directory.ldif")["team"],
                 ("found", ("who", f"Team ({team})", write), ("who", f"ann ({ann})", write)),
                 "who, groups of a directory")


def test_directory_objects(place: Place) -> None:
    """Rights by object type are told as such, and never as rights of the object."""
    member, user = "bf9679c0-0de6-11d0-a285-00aa003049e2", "bf967aba-0de6-11d0-a285-00aa003049e2"
    source = place.table([
        ("member", f"O:BAD:(OA;;WP;{member};;WD)"), ("both", f"O:BAD:(OA;;WP;{member};;AU)(A;;WP;;;AU)"),
        ("denied", f"O:BAD:(OD;;WP;{member};;AU)(OA;;WP;{member};;AU)"),
        ("class", f"O:BAD:(OA;CIIO;WP;{member};{user};WD)"),
        ("self", f"O:BAD:(OA;;WP;{member};;PS)")])
    place.expect([one["answer"] for one in place.objects("who", "write", source)],
                 ["unknown"] * 5, "object ACEs without --type ds")
    got = {one["name"]: [(found["rule"], found["trustee"], found["rights"], found["text"]) for found in one["findings"]]
           for one in place.objects("who", "write", source, "--type", "ds")}
    bound = f"only for object type member ({member})"
    place.expect(got, {"member": [("who", EVERYONE, "write properties", bound)],
                       "both": [("who", SIGNED_IN, "write properties", "")],
                       "denied": [("stopped", SIGNED_IN, "write properties",
                                   "an ACE allows it, and a deny or a missing owner stops it")],
                       "class": [], "self": [("who", "Principal Self (S-1-5-10)", "write properties", bound)]},
                 "who, by object type")
    got = place.objects("can", "AU,WD", "write", source, "--type", "ds")
    place.expect([one["answer"] for one in got], ["found", "found", "nothing", "nothing", "nothing"],
                 "can, by object type")
    place.expect(place.told("can", f"{DOMAIN}-7,WD", "write", source, "--type", "ds", "--self",
                            f"{DOMAIN}-7")["self"][0],
                 "found", "can, --self")
    # Without a class it may be a group, or another object. A template has no property of this name: MS-ADSC.
    one = next(one for one in place.objects("risks", source, "--type", "ds", "--domain", DOMAIN)
               if one["name"] == "member")
    place.expect(sorted((found["rule"], found["trustee"], found["rights"], found["text"]) for found in one["findings"]),
                 [
                     ("add-member", EVERYONE, "write properties",
                      f"if this is a group or groupOfNames: add members, {bound}"),
                     ("everyone-changes", EVERYONE, "write properties",
                      f"unless this is a group or groupOfNames: {bound}")],
                 "risks, by object type")


def test_risks(place: Place) -> None:
    """Each rule, where it finds something and where it doesn't."""
    ann, gone = f"{DOMAIN}-1001", f"{DOMAIN}-4711"
    rows = [
        ("absent", "O:BAG:SY", [("no-dacl", EVERYONE, "Full control")]),
        ("null", "O:BAG:SYD:NO_ACCESS_CONTROL", [("null-dacl", EVERYONE, "Full control")]),
        ("empty", "O:BAG:SYD:", [("empty-dacl", "", "")]),  # a note
        ("everyone", "O:BAD:(A;;0x100002;;;WD)", [("everyone-changes", EVERYONE, "write data")]),
        ("users", "O:BAD:(A;;0x100002;;;AU)", [("users-change", SIGNED_IN, "write data")]),
        ("both", "O:BAD:(A;;0x100002;;;WD)(A;;0x100006;;;AU)", [("everyone-changes", EVERYONE, "write data"),
                                                                ("users-change", SIGNED_IN, "append data")]),
        ("reads", "O:BAD:(A;;FRFX;;;WD)", []),
        ("takeover", f"O:BAD:(A;;WDWO;;;{ann})", [("takeover", ann, "change permissions, take ownership")]),
        ("trusted", "O:BAD:(A;;FA;;;SY)(A;;FA;;;BA)", []), ("domain admins", f"O:BAD:(A;;FA;;;{DOMAIN}-512)", []),
        ("denied", f"O:BAD:(D;;WDWO;;;{ann})(A;;WDWO;;;{ann})", []),
        ("generic", f"O:BAD:(A;;GA;;;{ann})", [("takeover", ann, "Full control")]),
        ("owner rights", f"O:{ann}D:(A;;WO;;;OW)", [("takeover", ann, "take ownership")]),
        ("order", "O:BAD:(A;;FR;;;BU)(D;;FW;;;BG)", [("order", "", "")]),
        ("order, inherited", "O:BAD:(A;ID;FR;;;BU)(A;;FR;;;BG)", [("order", "", "")]),
        ("in order", "O:BAD:(D;;FW;;;BG)(A;;FR;;;BU)(D;ID;FW;;;BG)(A;ID;FR;;;BU)(D;ID;FX;;;BU)", []),
        ("cut", "O:BAD:P(A;;FR;;;BU)", [("inheritance-cut", "", "")]),
    ]
    source = place.table([row[:2] for row in rows])
    notes = [("empty-dacl", "", "")], [("inheritance-cut", "", "")]
    place.expect(place.told("risks", source),
                 {name: ("found" if found and found not in notes else "nothing", *found) for name, _, found in rows},
                 "risks")
    place.expect(place.ask("risks", place.table([("reads", "O:BAD:(A;;FR;;;WD)")], "good.csv")).status, 0,
                 "risks, nothing found")
    place.expect(place.told("risks", source, "--trusted", ann)["takeover"], ("nothing",), "risks, --trusted")
    place.expect(place.told("risks", source, "--rules", "takeover")["takeover"][0], "found", "risks, --rules")
    place.expect(place.told("risks", source, "--rules", "-takeover")["takeover"][0], "nothing",
                 "risks, --rules without one")
    # Without their own rules, Everyone and Authenticated Users are outside the list like anybody else.
    place.expect(place.told("risks", place.table([("w", "O:BAD:(A;;FA;;;WD)")], "w.csv"), "--rules", "takeover")["w"],
                 ("found", ("takeover", EVERYONE, "Full control")), "risks, takeover alone")
    place.expect(place.told("risks", place.table([("a", f"O:{ann}D:(A;;FR;;;WD)"), ("b", "O:BUD:(A;;FR;;;WD)"),
                                                  ("c", "O:BAD:(A;;FR;;;WD)")], "owners.csv"), "--owner", "BU"),
                 {"a": ("found", ("foreign-owner", ann, "change permissions")), "b": ("nothing",), "c": ("nothing",)},
                 "risks, --owner")
    place.write("sids.csv", f"SID,Name\n{ann},ann\n")
    place.expect(place.told("risks", place.table([("a", f"O:{ann}G:{gone}D:(A;;FR;;;{gone})(A;;FR;;;BU)")], "gone.csv"),
                            "--sid-names", "sids.csv"),
                 {"a": ("found", ("foreign-owner", f"ann ({ann})", "change permissions"), ("unknown-sid", gone, ""))},
                 "risks, --sid-names")
    for kind, change in (("key", "set values"), ("service", "change configuration"), ("log", "write")):
        place.expect(place.told("risks", place.table([("x", "O:BAD:(A;;0x2;;;WD)")], f"{kind}.csv"),
                                "--type", kind)["x"],
                     ("found", ("everyone-changes", EVERYONE, change)), f"risks, --type {kind}")
    # The library has no mapping for these kinds: GENERIC_WRITE is the table's.
    for kind, change in (("service", "change configuration"), ("log", "write"),
                         ("process", "create threads, change its address "
                          "space, write memory, duplicate handles, create child processes, set quotas, set "
                          "information, suspend and resume")):
        generic = place.table([("x", "O:BAD:(A;;GW;;;WD)"), ("y", "O:BAD:(D;;GW;;;WD)(A;;GA;;;WD)")], f"{kind}.csv")
        place.expect(place.told("risks", generic, "--type", kind)["x"],
                     ("found", ("everyone-changes", EVERYONE, change)), f"risks, a generic right of a {kind}")
        got = place.told("who", "write", generic, "--type", kind)
        place.expect((got["x"][0], got["y"][0]), ("found", "nothing"), f"who, a generic right of a {kind}")


def test_forest(place: Place) -> None:
    """Whose administrators are trusted: those of the domains that are named, and of a forest its root's Enterprise
    Admins."""
    root, other = "S-1-5-21-7-7-7", "S-1-5-21-9-9-9"
    source = place.table([(name, f"O:SYD:(A;;FA;;;{sid})") for name, sid in (
        ("child 512", f"{DOMAIN}-512"), ("child 518", f"{DOMAIN}-518"), ("child 519", f"{DOMAIN}-519"),
        ("root 512", f"{root}-512"),
        ("root 518", f"{root}-518"), ("root 519", f"{root}-519"), ("other 519", f"{other}-519"))], "forest.csv")
    found = {(): [], ("--domain", DOMAIN): ["root 512", "root 518", "root 519", "other 519"],
             ("--domain", DOMAIN, "--forest-root", root): ["child 518", "child 519", "root 512", "other 519"],
             ("--domain", DOMAIN, "--domain", root): ["other 519"]}
    for words, names in found.items():
        place.expect([one["name"] for one in place.objects("risks", source, *words) if one["answer"] == "found"], names,
                     f"risks {words}")
    lines = place.ask("risks", source).stderr.splitlines()
    place.expect(any("--domain" in line for line in lines), True, "risks without a domain says whom it trusts")
    secret = place.table([("a", "O:BAD:(A;;FR;;;BU)"), ("b", "O:BAD:(A;;FR;;;BO)")], "secret.csv")
    place.expect([one["answer"] for one in place.objects("risks", secret, "--rules", "readable")], ["found", "nothing"],
                 "risks, readable secrets")


def test_accepting(place: Place) -> None:
    source = place.table([("C:\\in", "O:BAD:(A;;0x100002;;;WD)"), ("C:\\out", "O:BAD:(A;;0x100002;;;WD)"),
                          ("C:\\[x]", "O:BAD:(A;;0x100006;;;WD)"),
                          ("C:\\bad", "hello")])
    entry = "[[accept]]\nrule = 'everyone-changes'\nobject = '{}'\nreason = 'a drop folder'\n"
    place.write("accept.toml", entry.format("C:\\in") + entry.format("C:\\[*]") + "rights = 'write data'\n"
                + entry.format("C:\\gone") + entry.format("C:\\out") + "until = 2020-01-01\n")
    ended = place.ask("risks", source, "--accept", "accept.toml", "--to", "jsonl")
    place.expect([one["answer"] for one in ended.objects], ["accepted", "found", "found", "unknown"],
                 "accepted findings")
    place.expect(ended.objects[0]["findings"][0]["accepted"], "a drop folder", "the reason of what is accepted")
    place.expect(("accepted and not found: everyone-changes, C:\\gone" in ended.stderr,
                  "accepted until 2020-01-01, which is over: everyone-changes, C:\\out" in ended.stderr), (True, True),
                 f"entries that cover nothing: {ended}")
    sarif = json.loads(place.ask("risks", source, "--accept", "accept.toml", "--to", "sarif").stdout)
    place.expect([result.get("suppressions", [{}])[0].get("justification") for result in sarif["runs"][0]["results"]],
                 ["a drop folder", None, None, None], "suppressions in SARIF")
    one = place.table([("C:\\in", "O:BAD:(A;;0x100002;;;WD)")], "one.csv")
    place.write("one.toml", entry.format("C:\\*"))
    place.expect(place.ask("risks", one, "--accept", "one.toml").status, 0, "status of what is accepted")
    # What looks for a place of each part anew for each place of the others takes hours.
    deep = place.table([("C:" + "\\temp" * 6000, "O:BAD:(A;;0x100002;;;WD)")], "deep.csv")
    parts = "*\\temp\\*\\temp\\*\\temp\\*\\cache\\*"
    place.write("deep.toml", entry.format(parts))
    place.expect(place.ask("risks", deep, "--accept", "deep.toml").status, 1, "a long name, and an entry of many parts")
    place.expect(place.ask("show", deep, "--name", parts).status, 3, "a long name, and one of many parts")
    for wrong in ("[[accept]]\nrule = 'everyone-changes'\nobject = 'x'\n",
                  "[[accept]]\nrule = 'unknown'\nobject='x'\nreason='y'\n", entry.format("x") + "untill = 2020-01-01\n",
                  "accept = 1\n", "[[accept\n"):
        place.write("wrong.toml", wrong)
        place.expect(place.ask("risks", one, "--accept", "wrong.toml").status, 2, f"a wrong file: {wrong!r}")


def test_diff(place: Place) -> None:
    """What changed, by name and content."""
    ann = f"{DOMAIN}-1001"
    old = place.table([
        ("same", "O:BAD:(A;;FA;;;BA)"), ("spelled", "O:BAD:(A;;FA;;;BA)"), ("gone", "D:(A;;FA;;;BA)"),
        ("grown", "O:BAD:(A;;FR;;;WD)"),
        ("flag", "O:BAD:(A;CI;FR;;;WD)"), ("owner", "O:BAD:(A;;FR;;;WD)"), ("order", "O:BAD:(A;;FR;;;WD)(A;;FR;;;BU)"),
        ("cut", "O:BAD:(A;;FR;;;WD)"), ("was unknown", "hello"), ("twice", "D:(A;;FR;;;WD)"),
        ("twice", "D:(A;;FA;;;WD)"),
        ("empty", ""), ("null", "O:BAD:(A;;FA;;;BA)"), ("inner", f"O:BAD:(A;;FR;;;WD)(A;;FA;;;{ann})"),
        ("bytes", "D:P(A;;FR;;;WD)"), ("gone unknown", "hello")], "old.csv")
    new = place.table([
        ("same", "O:BAD:(A;;FA;;;BA)"), ("spelled", "o:s-1-5-32-544 d:(a;;0x1f01ff;;;ba)"), ("added", "D:(A;;FA;;;BA)"),
        ("grown", "O:BAD:(A;;FR;;;WD)(A;;0x2;;;WD)"), ("flag", "O:BAD:(A;OI;FR;;;WD)"),
        ("owner", f"O:{ann}D:(A;;FR;;;WD)"),
        ("order", "O:BAD:(A;;FR;;;BU)(A;;FR;;;WD)"), ("cut", "O:BAD:P(A;;FR;;;WD)"), ("was unknown", "D:(A;;FA;;;BA)"),
        ("twice", "D:(A;;FR;;;WD)"), ("twice", "D:(A;;FX;;;WD)"), ("empty", ""), ("null", "O:BAD:NO_ACCESS_CONTROL"),
        ("inner", f"O:BAD:(A;;FR;;;WD)(A;;FR;;;{ann})"),
        ("bytes",
         "01000490000000000000000000000000140000000200 1c0001000000000014008900120001010000000000010000 0000".replace(
             " ", "")),
        ("new unknown", "hello")], "new.csv")
    objects = place.objects("diff", old, new)
    place.expect([(one["name"], one["answer"]) for one in objects], [
        ("same", "same"), ("spelled", "same"), ("added", "added"), ("grown", "changed"), ("flag", "changed"),
        ("owner", "changed"),
        ("order", "changed"), ("cut", "changed"), ("was unknown", "unknown"), ("twice", "same"), ("twice", "changed"),
        ("empty", "unknown"), ("null", "changed"), ("inner", "changed"), ("bytes", "same"), ("new unknown", "unknown"),
        ("gone", "gone"), ("gone unknown", "unknown")], "diff")
    told = {one["name"]: [(found["rule"], found["trustee"], found["rights"]) for found in one["findings"]]
            for one in objects}
    place.expect(told["grown"], [("ace", "", ""), ("rights", EVERYONE, "gets write data")], "diff, an ACE more")
    place.expect(told["flag"], [("ace", "", "")], "diff, a flag")
    place.expect([found["text"] for one in objects if one["name"] == "flag" for found in one["findings"]],
                 [f"DACL: flags CI, then OI: {EVERYONE} may: Read, here and for files below"], "diff, which flag")
    place.expect(told["owner"], [("owner", "", ""), ("rights", ADMINISTRATORS, "loses change permissions"),
                                 ("rights", ann, "gets change permissions")], "diff, an owner")
    place.expect(told["order"], [("order", "", "")], "diff, an order")
    place.expect(told["cut"], [("control", "", "")], "diff, a flag of the DACL")
    place.expect(told["inner"][-1],
                 ("rights", ann, "loses write data, append data, write extended attributes, execute, delete "
                  "children, write attributes, delete, change permissions, take ownership"), "diff, rights")
    place.expect(told["null"][:2], [("acl", "", ""), ("ace", "", "")], "diff, a null DACL")
    place.expect(place.ask("diff", old, old).status, 3, "diff, unknown on both days")
    good = place.table([("a", "D:(A;;FA;;;BA)")], "a.csv")
    place.expect(place.ask("diff", good, good).status, 0, "diff, nothing changed")
    place.expect(place.ask("diff", good, place.table([], "none.csv")).status, 3, "diff, an empty list")
    test_roots(place)


def test_roots(place: Place) -> None:
    """Two backups, each in a folder of its own. D:\\Monday2 isn't below D:\\Monday."""
    full, read = "O:BAD:(A;;FA;;;BA)", "O:BAD:(A;;FR;;;WD)"
    old = place.table([("D:\\Monday", full), ("D:\\Monday\\a", read), ("D:\\Monday\\b", full),
                       ("D:\\Monday2\\c", full)], "monday.csv")
    new = place.table([("E:\\Tuesday\\", full), ("E:\\Tuesday\\a", full), ("E:\\Tuesday\\d", full),
                       ("D:\\Monday2\\c", full)],
                      "tuesday.csv")
    roots = ["--old-root", "D:\\Monday", "--new-root", "E:\\Tuesday\\"]
    wanted = [("E:\\Tuesday\\", "same"), ("E:\\Tuesday\\a", "changed"), ("E:\\Tuesday\\d", "added"),
              ("D:\\Monday2\\c", "same"),
              ("D:\\Monday\\b", "gone")]
    place.expect([(one["name"], one["answer"]) for one in place.objects("diff", old, new, *roots)], wanted,
                 "diff, two roots")
    ended = place.ask("diff", old, new, "--old-root", "D:\\Mon")
    place.expect((ended.status, ended.stdout, "--old-root: no name" in ended.stderr), (2, "", True),
                 f"a root of nothing: {ended}")
    descriptors = {"one": ("0100008000000000000000000000000000000000", "0100008000000000000000000000000000000000"),
                   "two": ("0100008000000000000000000000000000000000",
                           "01000480000000000000000000000000140000000200080000000000")}
    try:
        for at, folder in enumerate(("before", "after")):
            for name, of_days in descriptors.items():
                os.setxattr(place.folder / place.write(f"{folder}/{name}", ""), "user.sd", bytes.fromhex(of_days[at]))
            os.setxattr(place.folder / folder, "user.sd", bytes.fromhex(descriptors["one"][0]))
    except OSError as error:
        print(f"skipped: no extended attributes here: {error}")
        return
    got = place.objects("diff", "before", "after", "--attribute", "user.sd")
    place.expect([(one["name"], one["answer"]) for one in got],
                 [("after", "same"), ("after/one", "same"), ("after/two", "changed")], "diff, two folders")


def test_inherit(place: Place) -> None:
    """Objects and what their folders hand on."""
    top = "O:BAG:SYD:PAI(A;OICI;FA;;;SY)(A;OICI;0x1200a9;;;BU)(A;CI;FA;;;BA)"
    file_gets, folder_gets = ("(A;ID;FA;;;SY)(A;ID;0x1200a9;;;BU)",
                              "(A;OICIID;FA;;;SY)(A;OICIID;0x1200a9;;;BU)(A;CIID;FA;;;BA)")
    source = place.table([
        ("C:\\Data", top), ("C:\\Data\\good.txt", "O:BAG:SYD:AI" + file_gets),
        ("c:\\data\\GOOD", "O:BAG:SYD:AI" + folder_gets),
        ("C:\\Data\\own.txt", "O:BAG:SYD:AI(A;;FR;;;WD)" + file_gets),
        ("C:\\Data\\less.txt", "O:BAG:SYD:AI(A;;FR;;;WD)(A;ID;FA;;;SY)"),
        ("C:\\Data\\more.txt", "O:BAG:SYD:AI" + file_gets + "(A;ID;FA;;;WD)"),
        ("C:\\Data\\cut.txt", "O:BAG:SYD:PAI(A;;FA;;;SY)"),
        ("C:\\Data\\order.txt", "O:BAG:SYD:AI(A;ID;0x1200a9;;;BU)(A;ID;FA;;;SY)"), ("C:\\Data\\bad.txt", "hello"),
        ("C:\\Data\\none.txt", "O:BAG:SY"), ("C:\\Data\\Sub\\", "O:BAG:SYD:AI" + folder_gets),
        ("C:\\Data\\Sub\\file", "O:BAG:SYD:AI" + file_gets), ("C:\\Data\\bad.txt\\x", "O:BAG:SYD:AI"),
        ("D:\\Own", "O:BAG:SYD:P(A;OICIIO;FA;;;CO)"), ("D:\\Own\\mine", f"O:{DOMAIN}-7G:SYD:AI(A;ID;FA;;;{DOMAIN}-7)"),
        ("D:\\Own\\his", f"O:{DOMAIN}-8G:SYD:AI(A;ID;FA;;;{DOMAIN}-7)"),
        ("D:\\Own\\whose", f"D:AI(A;ID;FA;;;{DOMAIN}-7)")])
    objects = place.objects("inherit", source)
    place.expect([(one["name"].rpartition("\\")[2] or one["name"], one["answer"],
                   *(found["rule"] for found in one["findings"]))
                  for one in objects],
                 [("Data", "not compared"), ("good.txt", "nothing"), ("GOOD", "nothing"), ("own.txt", "nothing"),
                  ("less.txt", "found", "missing"), ("more.txt", "found", "surplus"), ("cut.txt", "found", "protected"),
                  ("order.txt", "found", "order"), ("bad.txt", "unknown"), ("none.txt", "found", "missing"),
                  ("C:\\Data\\Sub\\", "nothing"), ("file", "nothing"), ("x", "unknown"), ("Own", "not compared"),
                  ("mine", "nothing"),
                  ("his", "found", "missing", "surplus"), ("whose", "unknown")], "inherit")
    tree = place.table([("T", "O:BAG:SYD:P(A;OI;FA;;;SY)(A;OICI;FR;;;BU)"),
                        ("T/S", "O:BAG:SYD:AI(A;OICIID;FR;;;BU)(A;;FX;;;WD)"),
                        ("T/S/f", "O:BAG:SYD:AI(A;;FX;;;WD)(A;ID;FR;;;BG)"),
                        ("T/S/g", "O:BAG:SYD:AI(A;ID;FR;;;BU)")], "tree.csv")
    fixes = str(place.folder / "fixes.csv")
    ended = place.ask("inherit", tree, "--fix", fixes, "--to", "jsonl", may_write=fixes)
    written = list(csv.reader(io.StringIO(pathlib.Path(fixes).read_text())))
    # T/S has children, so it is a folder: (A;OI) alone hands on a copy for its files. T/S/f gets FR for BU either way.
    place.expect(written, [["name", "sddl"],
                           ["T/S", "O:S-1-5-32-544G:S-1-5-18D:AI(A;;FX;;;S-1-1-0)(A;OIIOID;0x1f01ff;;;S-1-5-18)"
                            "(A;OICIID;0x120089;;;S-1-5-32-545)"]], f"inherit --fix: {ended}")
    place.expect([(one["name"], one["answer"]) for one in ended.objects],
                 [("T", "not compared"), ("T/S", "found"), ("T/S/f", "found"), ("T/S/g", "nothing")], "inherit, a tree")
    place.expect([found["rule"] for one in ended.objects if one["name"] == "T/S/f" for found in one["findings"]],
                 ["missing", "surplus", "no-fix"], "inherit, a file or a folder")
    test_ways(place)


def test_ways(place: Place) -> None:
    """From which ACE of the folder a missing one would come, and where that was set: by hand, by MS-DTYP 2.5.3.4."""
    everyone, users, fills = "(A;OICI;FR;;;WD)", "(A;OICI;FX;;;BU)", "(A;;FA;;;SY)"
    of_everyone, of_users = "(A;OICIID;FR;;;WD)", "(A;OICIID;FX;;;BU)"
    names = [("R", f"O:BAG:SYD:P{fills}{everyone}{users}{everyone}"),
             ("R/A", f"O:BAG:SYD:AI(A;OICI;FW;;;BG){of_everyone}{of_users}{of_everyone}"),
             ("R/A/one", "O:BAG:SYD:AI(A;ID;FW;;;BG)(A;ID;FR;;;WD)(A;ID;FX;;;BU)"),  # one of two equal ACEs
             ("R/A/two", "O:BAG:SYD:AI(A;ID;FR;;;WD)(A;ID;FR;;;WD)"),
             ("R/B", "O:BAG:SYD:AI" + of_users + "(A;OICIID;0x1;;;S-1-5-7)"), ("R/B/x", "O:BAG:SYD:AI"),
             ("Q/C", "O:BAG:SYD:AI" + of_users), ("Q/C/y", "O:BAG:SYD:AI"),
             ("O", "O:BAG:SYD:P(A;OICI;GA;;;CO)"),
             ("O/D", f"O:{DOMAIN}-7G:SYD:AI(A;ID;FA;;;{DOMAIN}-7)(A;OICIIOID;GA;;;CO)"),
             ("O/D/z", f"O:{DOMAIN}-8G:SYD:AI")]
    got = place.objects("inherit", place.table([(name, text) for name, text in names], "ways.csv"))
    ways = {one["name"]: [found["text"].rpartition("; ")[2] for found in one["findings"] if found["rule"] == "missing"]
            for one in got}
    place.expect({name: told for name, told in ways.items() if told},
                 # The last of the equal ones is what is too few, and it was made of the last of the equal ones above.
                 {"R/A/one": ["from ACE 4 of R/A, set at R, ACE 4"],
                  "R/A/two": ["from ACE 1 of R/A, set there", "from ACE 3 of R/A, set at R, ACE 3"],
                  "R/B": ["from ACE 2 of R, set there", "from ACE 4 of R, set there"],
                  # R/B has an ACE that R doesn't hand on.
                  "R/B/x": ["from ACE 1 of R/B, set at R, ACE 3", "from ACE 2 of R/B, inherited from above"],
                  "Q/C/y": ["from ACE 1 of Q/C, inherited from above"],
                  # z is no folder, so it gets FA for its owner, by the ACE of D for CREATOR OWNER, which O sets.
                  "O/D/z": ["from ACE 2 of O/D, set at O, ACE 1"]}, "the ways of missing ACEs")
    letters = place.table([("C:\\strasse", f"O:BAG:SYD:{everyone}"),
                           ("C:\\stra\u00dfe\\x", "O:BAG:SYD:AI(A;ID;FR;;;WD)"),
                           ("C:\\\u00c4", f"O:BAG:SYD:{everyone}"), ("c:\\\u00e4\\x", "O:BAG:SYD:AI(A;ID;FR;;;WD)")],
                          "letters.csv")
    place.expect([[one["answer"] for one in place.objects(*words, letters)]
                  for words in (("inherit",), ("can", "AN", "delete"))],
                 [[*["not compared"] * 3, "nothing"], [*["unknown"] * 3, "nothing"]],
                 "names whose letters Windows tells apart, and such as it doesn't")


def test_show(place: Place) -> None:
    source = place.table([("a",
                           "O:BAG:SYD:PAI(A;OICI;FA;;;SY)(D;;FW;;;BG)(A;CIIO;FR;;;WD)S:(AU;SAFA;FA;;;WD)(ML;;NW;;;HI)"),
                          ("b", "hello"), ("ab", "D:NO_ACCESS_CONTROL")])
    ended = place.ask("show", source, "--name", "a")
    place.expect((ended.status, ended.stdout.splitlines()), (0, [
        "a (table.csv, line 2)", f"  owner: {ADMINISTRATORS}", f"  group: {SYSTEM}",
        "  protected: ACEs of the folder don't arrive",
        "  DACL:", f"    1. {SYSTEM} may: Full control, here and for files and folders below",
        f"    2. {GUESTS} may not: Write",
        f"    3. {EVERYONE} may: Read, only for folders below", "  SACL:",
        f"    1. audits any access of {EVERYONE}: Full control",
        "    2. integrity level high: a lower level may not write"]), "show")
    ended = place.ask("show", source, "--name", "*b")
    place.expect((ended.status, "  unknown: " in ended.stdout,
                  "  DACL: null, so everybody gets everything" in ended.stdout),
                 (3, True, True), "show, a pattern")
    place.expect(place.ask("show", source, "--name", "z").status, 3, "show, no such name")


def test_cache(place: Place) -> None:
    """A file of objects answers as its source does."""
    rows = hostile_rows()
    source = place.table([row[:2] for row in rows], "cached.csv")
    path = str(place.folder / "cache.db")
    allowed = os.pathsep.join([path, path + ".part"])
    first = place.ask("can", "WD", "change", source, "--into", "cache.db", "--to", "jsonl",
                      may_write=os.pathsep.join(["cache.db", "cache.db.part", allowed]))
    second = place.ask("can", "WD", "change", "cache.db", "--to", "jsonl")
    place.expect((second.status, second.stdout), (first.status, first.stdout), "a cache answers alike")
    listed = [place.ask("can", "WD", "change", one, "--to", "csv", "--list", "found").stdout
              for one in (source, "cache.db")]
    place.expect(listed[1], listed[0], "what was found, of a cache")
    sums = [place.ask("can", "WD", "change", one, "--to", "table").stdout.splitlines()[-1]
            for one in (source, "cache.db")]
    place.expect(sums[1], sums[0], "the sum of a cache")
    place.write("accept.toml", "[[accept]]\nrule = 'everyone-changes'\nobject = '*r*'\nreason = 'a test'\n")
    for words in (["who", "permissions"], ["risks"], ["risks", "--accept", "accept.toml"]):
        for report in (["--most", "1"], ["--most", "7"], ["--most", "0"], ["--to", "sarif"], ["--to", "html"]):
            whole, kept = (place.ask(words[0], *words[1:], one, *report) for one in (source, "cache.db"))
            place.expect(kept, whole, f"{words} {report}, of a cache")
    # Where the answers don't fit into memory, each object is asked about.
    code = ("import sdtool.audit.store.cache as cache, sdtool.audit.__main__ as program; cache._MOST_ANSWERS = 3; "
            "program.main()")
    ended = subprocess.run([place.python, "-c", code, "risks", "cache.db", "--most", "7"], cwd=place.folder,
                           env=place.environment, stdout=subprocess.PIPE, text=True)
    place.expect((ended.returncode, ended.stdout), place.ask("risks", source, "--most", "7")[:2],
                 "a cache of many descriptors")
    place.expect(place.ask("can", "WD", "change", source, "--into", "cache.db").status, 2, "a cache that is there")
    place.expect(sqlite3.connect(path).execute("SELECT count(*) FROM objects").fetchone()[0], len(rows),
                 "objects of a cache")
    place.write("other.db", b"SQLite format 3\0" + bytes(100))
    place.expect(place.ask("can", "WD", "change", "other.db").status, 3, "another database")
    place.expect([one.name for one in place.folder.glob(".*.part")], [], "no half cache is left")


def test_words(place: Place) -> None:
    """Wrong words have status 2 and say what is wrong; sources that are cut or empty are unknown."""
    source = place.table([("a", "O:BAD:(A;;FR;;;WD)")])
    for words in (["who", source], ["who"], ["who", "change", "nothing.csv"], ["who", "0", source],
                  ["who", "0x80000000", source],
                  ["can", "bob", "change", source], ["can", "", "change", source], ["can", "DA", "change", source],
                  ["can", "WD", source], ["risks", source, "--rules", "nonsense"], ["risks", source, "--domain", "bob"],
                  ["risks", source, "--encoding", "nonsense"], ["risks", source, "--delimiter", "ab"],
                  ["risks", source, "--descriptor-column", "7"], ["risks", source, "--out", source],
                  ["risks", "--nonsense"],
                  ["show", source, "--to", "html"], ["show", source, "--into", "new.db"],
                  ["diff", source, source, "--into", "new.db"],
                  ["risks", source, "--accept", "nothing.toml"], ["risks", source, "--trusted", "bob"],
                  ["diff", source],
                  ["can", ",".join(f"S-1-5-{at}" for at in range(1025)), "read", source],
                  ["risks", source, "--out", "nowhere/x"], ["nonsense"]):
        ended = place.ask(*words, may_write="nowhere/x")
        place.expect((ended.status, ended.stdout, bool(ended.stderr)), (2, "", True), f"wrong words {words}: {ended}")
    place.expect((place.folder / source).read_text().count("O:BAD"), 1, "a source is as it was")
    place.write("strange.csv", "this,that\n1,2\n")
    ended = place.ask("risks", source, "strange.csv", "--to", "csv", "--format", "csv")
    place.expect((ended.status, "--descriptor-column" in ended.stdout), (3, True), f"no such column: {ended}")
    ended = place.ask("risks", source, "strange.csv", "--to", "csv", "--descriptor-column", "sddl")
    place.expect((ended.status, ended.stdout, "no column 'sddl'" in ended.stderr), (2, "", True),
                 f"a column that is named: {ended}")
    whole = gzip.compress(b"name,sddl\n" + b"".join(b"n%d,O:BAD:(A;;FR;;;WD)\n" % number for number in range(20_000)))
    place.write("cut.csv.gz", whole[:len(whole) // 2])
    objects = place.objects("risks", "cut.csv.gz")
    place.expect((objects[0]["answer"], objects[-1]["answer"], "the rest" in objects[-1]["name"]),
                 ("nothing", "unknown", True), "a cut gzip file")
    for name, data in (("empty", b""), ("empty.csv", b"name,sddl\n"), ("nul", b"\0" * 100),
                       ("cut16.txt", b"\xff\xfeD\0:"),
                       ("cut.json", b'[{"name": "a", "sddl": "D:"}, {"name"'),
                       ("cut.zip", zipped(b"D:\n" * 1000, "x")[:60])):
        place.write(name, data)
        ended = place.ask("risks", name, "--to", "jsonl")
        place.expect((ended.status, ended.objects[-1]["answer"] if ended.stdout else None), (3, "unknown"),
                     f"{name}: {ended}")
    for words in (["--help"], ["--version"], ["who", "--help"], ["rights"], ["rules"]):
        ended = place.ask(*words)
        place.expect((ended.status, bool(ended.stdout), ended.stderr), (0, True, ""), f"{words}: {ended}")
    if os.path.exists("/dev/full"):
        place.expect(place.ask("risks", source, "--out", "/dev/full", may_write="/dev/full").status, 3, "a full disk")


def test_scale(place: Place) -> None:
    """Many objects: one process answers as four do, in order, in memory that doesn't grow with them."""
    kinds = ["O:BAD:(A;;FR;;;WD)", "O:BAD:(A;;FA;;;WD)", "hello", "O:BAG:SYD:AI(A;ID;FA;;;SY)(A;ID;0x1200a9;;;BU)"]

    def rows(count: int, distinct: int):
        for number in range(count):
            user = f"(A;{'ID' if number % 4 == 3 else ''};FR;;;{DOMAIN}-{1000 + number % distinct})"
            yield f"folder {number // 100}\\file {number}", kinds[number % 4] + (user if number % 4 != 2 else "")

    source = place.table(rows(30_000, 20_000), "many.csv")
    one, four = (place.ask("risks", source, "--to", "csv", "--jobs", jobs) for jobs in ("1", "4"))
    place.expect(four.stdout == one.stdout, True, "four processes answer as one does")
    place.expect(one.stderr, f"{EVERY_DOMAIN}\nhigh: 7,500 places with 7,500 objects\n"
                 "30,000 objects: 7,500 found, 7,500 unknown, 15,000 nothing\n", "the sum of many")
    read = list(csv.reader(io.StringIO(one.stdout)))
    place.expect([row[0] for row in read[1:]], [name for name, _ in rows(30_000, 1)], "the names of many, in order")
    # Names with line ends, rows that are malformed, and empty lines: also where blocks of lines meet.
    lines = []
    random_ = random.Random(1)
    for number in range(40_000):
        kind = random_.randrange(4000)
        name = f'"two\nlines {number}"' if kind < 2 else f'"open {number}' if kind == 3 else f"file {number}"
        lines += [""] * (kind == 4)
        lines.append(f'{name},"{kinds[number % 4]}"' + ",more" * (kind == 5))
    odd = place.write("odd.csv", "name,sddl\n" + "\n".join(lines) + "\n\n\n")
    # One name in ten takes two lines: the objects keep their lines, also where other processes read them.
    source = place.table((("two\nlines" if number % 10 == 3 else "a file", kinds[0]) for number in range(60_000)),
                         "two.csv")
    got = place.objects("risks", source, "--jobs", "4")
    place.expect([one["line"] for one in got], [2 + number + (number + 6) // 10 for number in range(60_000)],
                 "lines behind line ends")
    place.expect(collections.Counter(one["name"] for one in got), {"two\nlines": 6_000, "a file": 54_000},
                 "names with line ends")
    place.write("accept.toml", "[[accept]]\nrule = 'everyone-changes'\nobject = 'file *1'\nreason = 'a test'\n")
    for words in (["--to", "csv"], ["--to", "jsonl", "--list", "found"], ["--to", "sarif"], ["--to", "html"],
                  ["--to", "table"],
                  ["--to", "csv", "--accept", "accept.toml"]):
        one, four = (place.ask("risks", odd, *words, "--jobs", jobs) for jobs in ("1", "4"))
        place.expect((one.status, len(one.stdout) > 1000), (3, True), f"odd rows, {words}, in one process")
        place.expect((four.status, four.stderr, four.stdout == one.stdout), (one.status, one.stderr, True),
                     f"odd rows, {words}")
    objects = place.objects("risks", odd, "--jobs", "4")
    place.expect(sorted(set(range(40_000)) - {int(found) for one in objects
                                              for found in re.findall(r"(\d+)\W*(?:$|,)", one["name"])}), [],
                 "names that odd rows lose")
    # Nine MB in one line: it is unknown, and says so.
    long = place.write("long.csv", "name,sddl\n" + "".join(
        f"file {number},{kinds[0]}{'x' * (9 << 20) if number == 10_000 else ''}\n" for number in range(20_000)))
    one, four = (place.objects("risks", long, "--jobs", jobs) for jobs in ("1", "4"))
    place.expect((len(four), four == one), (20_000, True), "a line that is too long")
    place.expect([(got["name"], got["answer"]) for got in one if got["answer"] != "nothing"],
                 [("file 10000", "unknown")], "the object of a line that is too long")
    os.remove(place.folder / long)
    place.write("odd.csv.gz", gzip.compress((place.folder / odd).read_bytes())[:-2000])
    objects = place.objects("risks", "odd.csv.gz", "--jobs", "4")
    place.expect((len(objects) > 10_000, objects[-1]["answer"], "the rest" in objects[-1]["name"]),
                 (True, "unknown", True), "a cut table in several processes")
    peaks = []
    for count in (100_000, 500_000):
        path = place.table(rows(count, 1000), "grown.csv")
        asked = [place.python, "-m", "sdtool.audit", "risks", path, "--to", "csv", "--out", os.devnull, "--jobs", "2"]
        # The peak of a child counts from its fork, so a small process forks it.
        measure = ("import resource, subprocess, sys; subprocess.run(sys.argv[1:], stderr=subprocess.DEVNULL); "
                   "print(resource.getrusage(resource.RUSAGE_CHILDREN).ru_maxrss)")
        printed = subprocess.run([sys.executable, "-c", measure, *asked], cwd=place.folder, env=place.environment,
                                 capture_output=True).stdout
        peaks.append(int(printed))
    place.expect(20_000 < peaks[1] < peaks[0] + 10_000, True, f"memory for 100,000 and 500,000 objects: {peaks} KiB")
    os.remove(place.folder / "grown.csv")


def test_bar(place: Place) -> None:
    """The bar of a terminal: objects, objects a second, and the time left, all of it on standard error."""
    source = place.table(((f"file {at}", f"O:BAD:(A;;FR;;;{DOMAIN}-{1000 + at})") for at in range(100_000)), "long.csv")
    asked = [place.python, "-m", "sdtool.audit", "risks", source, "--to", "csv"]
    reports, told = [], []
    for words in ([], ["--no-bar"], ["--jobs", "1"]):
        leader, follower = pty.openpty()
        fcntl.ioctl(follower, termios.TIOCSWINSZ, struct.pack("4H", 24, 120, 0, 0))
        with open(place.folder / "report", "wb") as report:
            child = subprocess.Popen([*asked, *words], cwd=place.folder, stdout=report, stderr=follower,
                                     env={**place.environment, "TERM": "xterm"})
        os.close(follower)
        seen = []
        with contextlib.suppress(OSError):  # which ends the output of a terminal
            while data := os.read(leader, 65536):
                seen.append(data)
        os.close(leader)
        place.expect(child.wait(), 0, f"{words}: the status beside a terminal")
        told.append(b"".join(seen).decode())
        reports.append((place.folder / "report").read_bytes())
    plain = place.ask(*asked[3:])
    place.expect([report == plain.stdout.encode() for report in reports], [True] * 3, "a report beside a bar")
    sum_ = "100,000 objects: 100,000 nothing\r\n"
    whole = f"{EVERY_DOMAIN}\r\n{sum_}"
    place.expect((plain.stderr, told[1]), (whole.replace("\r", ""), whole), "without a bar")
    for text in told[0], told[2]:
        counts = [int(found.replace(",", "")) for found in re.findall(r"([\d,]+) objects\b(?!:)", text)]
        rates = [int(found.replace(",", "")) for found in re.findall(r"([\d,]+)/s", text)]
        place.expect((counts == sorted(counts), 0 < max(counts, default=0) <= 100_000, max(rates, default=0) > 0,
                      bool(re.search(r"\d:\d\d:\d\d.*?\d:\d\d:\d\d", text)), text.endswith(sum_)), (True,) * 5,
                     f"a bar: {text[:300]!r} .. {text[-300:]!r}")


def test_samba(place: Place) -> None:
    """Attributes that samba-tool sets, as getfattr, samba-tool and the files themselves tell them."""
    if not all(map(shutil.which, ("samba-tool", "net", "getfattr"))):
        print("skipped: samba-tool, net or getfattr is missing (Debian: samba-common-bin, attr)")
        return
    private = place.folder / "private"
    private.mkdir()
    settings = "".join(f"{name} directory = {private}\n" for name in ("state", "lock", "cache", "pid"))
    place.write("smb.conf", f"[global]\nnetbios name = TEST\nworkgroup = TEST\nprivate dir = {private}\n{settings}")
    configuration = str(place.folder / "smb.conf")
    subprocess.run(["net", "setlocalsid", DOMAIN, "-s", configuration], check=True, capture_output=True)
    share = place.folder / "share"
    (share / "a folder").mkdir(parents=True)
    told = {"share": "O:BAG:SYD:PAI(A;OICI;0x1f01ff;;;SY)(A;OICI;0x1200a9;;;WD)",
            "share/a folder": "O:BAG:SYD:AI(A;OICIID;0x1f01ff;;;SY)(A;OICIID;0x1200a9;;;WD)",
            "share/a folder/b\nc.txt": f"O:{DOMAIN}-1001G:SYD:AI(A;ID;0x1f01ff;;;SY)"}
    (share / "a folder/b\nc.txt").write_text("")
    (share / "none.txt").write_text("")
    (share / "link").symlink_to("none.txt")
    backend = ["--xattr-backend=native", "--use-ntvfs", f"--configfile={configuration}"]
    for path, sddl in told.items():
        ended = subprocess.run(["samba-tool", "ntacl", "set", sddl, path, *backend, "-q"], cwd=place.folder,
                               capture_output=True)
        if ended.returncode:
            print(f"skipped: samba-tool can't set attributes here: {ended.stderr[-200:]!r}")
            return
    wanted = [("share", 0, "found"), ("share/a folder", 0, "found"), ("share/none.txt", 0, "unknown"),
              ("share/a folder/b\nc.txt", 0, "nothing")]
    place.expect(places([{**one, "line": one["line"] or 0} for one in place.objects(*EVERYONE_READS, "share")]),
                 wanted, "a share")
    dumped = subprocess.run(["getfattr", "-R", "-n", "security.NTACL", "-e", "hex", "share"], cwd=place.folder,
                            capture_output=True)
    place.write("ntacl.txt", dumped.stdout)
    got = place.objects(*EVERYONE_READS, "ntacl.txt")
    place.expect(sorted((one["name"], one["answer"]) for one in got),
                 sorted((name, answer) for name, _, answer in wanted if answer != "unknown"), "what getfattr printed")
    for words, suffix in ((["--as-sddl"], "sddl"), ([], "ndr")):
        printed = b"".join(subprocess.run(["samba-tool", "ntacl", "get", path, *words, *backend], cwd=place.folder,
                                          capture_output=True).stdout for path in told)
        place.write(f"got.{suffix}", printed)
        got = place.objects(*EVERYONE_READS, f"got.{suffix}")
        place.expect([one["answer"] for one in got], ["found", "found", "nothing"],
                     f"samba-tool ntacl get {words}: {got}")
    objects = place.objects("inherit", "share")
    place.expect([(one["name"], one["answer"], *(found["rule"] for found in one["findings"])) for one in objects],
                 [("share", "not compared"), ("share/a folder", "nothing"), ("share/none.txt", "unknown"),
                  ("share/a folder/b\nc.txt", "found", "missing")], "inherit, a share")


CHECKS = """
import json, random, sys
from samba import NTSTATUSError, security as samba_security
from samba.dcerpc import security
from sdtool.audit import checks, library
chance = random.Random(3)
domain, everything = "S-1-5-21-1-2-3", 0x1f01ff
sids = [f"{domain}-1001", f"{domain}-1002", "S-1-5-32-544", "S-1-5-32-545", "S-1-1-0", "S-1-5-11"]
masks = [0x1f01ff, 0x1200a9, 0x1301bf, 0xd0156, 0x40000, 0x80000, 0x10000, *(1 << place for place in range(9))]


def sddl():
    aces = "".join(f"({chance.choice('AAD')};{chance.choice(['', 'IO', 'OICI', 'ID'])};{chance.choice(masks):#x};;;"
                   f"{chance.choice(sids)})"
                   for _ in range(chance.randrange(6)))
    return f"O:{chance.choice(sids)}G:{sids[0]}D:{aces}"


def of_samba(descriptor, token):
    granted = 0
    for bit in (1 << place for place in range(21) if everything >> place & 1):
        try:
            granted |= samba_security.access_check(descriptor, token, bit)
        except NTSTATUSError:
            pass
    return granted


texts = [sddl() for _ in range(300)]
for sid in sids:
    token, of_token = checks.trustee_token(sid), security.token()
    held = list(map(security.dom_sid, token.sids))  # the token of Samba keeps no reference
    of_token.num_sids, of_token.sids = len(held), held
    print(json.dumps([library.granted("sddl", texts, token, "file", everything),
                      library.granted_by_each(library.layouts("sddl", texts), token, "file", everything),
                      [of_samba(security.descriptor.from_sddl(text, security.dom_sid(domain)), of_token)
                        for text in texts]]))
"""


def test_checks(place: Place) -> None:
    """Rights that trustees get, by runs over many descriptors, by single checks and by Samba."""
    if subprocess.run([place.python, "-c", "import samba.dcerpc.security"], stderr=subprocess.DEVNULL).returncode:
        print("skipped: Samba's module for Python is missing (Debian: python3-samba)")
        return
    printed = subprocess.run([place.python, "-c", CHECKS], cwd=place.folder, env=place.environment, capture_output=True)
    told = [json.loads(line) for line in printed.stdout.splitlines()]
    place.expect((len(told), [len(one) for tokens in told for one in tokens]), (6, [300] * 18),
                 f"checks: {printed.stderr[-500:]!r}")
    for runs, singles, of_samba in told:
        place.expect((runs, singles), (of_samba, of_samba), "checks, as Samba makes them")
    place.count.add(len({mask for _, _, of_samba in told for mask in of_samba}) > 20, "checks that all have one answer")


def test_ntfs(place: Place) -> None:
    """The descriptors of a volume that mkntfs makes."""
    mkntfs = shutil.which("mkntfs", path=os.environ["PATH"] + ":/usr/sbin:/sbin")
    if not mkntfs or not shutil.which("ntfscat"):
        print("skipped: mkntfs or ntfscat is missing (Debian: ntfs-3g)")
        return
    image = place.folder / "image"
    image.write_bytes(bytes(8 << 20))
    subprocess.run([mkntfs, "-F", "-f", "-q", str(image)], check=True, capture_output=True)
    stream = subprocess.run(["ntfscat", "-a", "0x80", "-n", "$SDS", str(image), "$Secure"], capture_output=True).stdout
    place.write("secure.sds", stream)
    got = place.objects("who", "write", "secure.sds", "--all-trustees")
    # mkntfs writes two: System and Administrators may read by the first, and write too by the second.
    place.expect([(one["name"], one["answer"], *(found["trustee"] for found in one["findings"])) for one in got],
                 [("security id 256", "nothing"), ("security id 257", "found", SYSTEM, ADMINISTRATORS)], "a volume")
    place.write("cut.sds", stream[:200])
    place.expect([one["answer"] for one in place.objects("who", "write", "cut.sds")], ["nothing", "unknown"],
                 "a cut volume")


SCHEMA = """
attributetype ( 1.2.840.113556.1.2.281 NAME 'nTSecurityDescriptor' SYNTAX 1.3.6.1.4.1.1466.115.121.1.40 SINGLE-VALUE )
objectclass ( 1.3.6.1.4.1.4203.666.11.99 NAME 'secured' SUP top AUXILIARY MAY nTSecurityDescriptor )
"""


def test_directory_server(place: Place) -> None:
    """What ldapsearch prints of a small directory, folded and not, and a search that its limit ends."""
    slapd = shutil.which("slapd", path=os.environ["PATH"] + ":/usr/sbin:/sbin")
    schema = pathlib.Path("/etc/ldap/schema/core.schema")
    if not slapd or not schema.exists() or not shutil.which("ldapsearch"):
        print("skipped: slapd or ldapsearch is missing (Debian: slapd, ldap-utils)")
        return
    folder = place.folder / "ldap"
    (folder / "data").mkdir(parents=True)
    (folder / "secured.schema").write_text(SCHEMA)
    (folder / "slapd.conf").write_text(
        f"include {schema}\ninclude {folder}/secured.schema\npidfile {folder}/pid\ndatabase ldif\nsuffix dc=example\n"
        f"directory {folder}/data\nrootdn cn=admin,dc=example\nrootpw secret\n")
    everyone = ("AQAEgBQAAAAkAAAAAAAAADAAAAABAgAAAAAABSAAAAAgAgAAAQEAAAAAAAUSAAAAAgAcAAEAAAAAABQA/"
                "wEfAAEBAAAAAAABAAAAAA==")
    nobody = "AQAEkBQAAAAkAAAAAAAAADAAAAABAgAAAAAABSAAAAAgAgAAAQEAAAAAAAUSAAAAAgAIAAAAAAA="
    long_name = "x" * 120
    entries = ("dn: dc=example\nobjectClass: dcObject\nobjectClass: organization\no: example\ndc: example\n\n"
               + "".join(f"dn: ou={name},dc=example\nobjectClass: organizationalUnit\nobjectClass: secured\n"
                         f"ou: {name}\n{rest}\n"
                         for name, rest in (("open", f"nTSecurityDescriptor:: {everyone}\n"),
                                            (long_name, f"nTSecurityDescriptor:: {nobody}\n"),
                                            ("Größe", ""))))
    added = subprocess.run([slapd, "-T", "add", "-f", str(folder / "slapd.conf")], input=entries.encode(),
                           capture_output=True)
    url = "ldapi://" + str(folder / "socket").replace("/", "%2F")
    server = subprocess.Popen([slapd, "-d", "0", "-f", str(folder / "slapd.conf"), "-h", url],
                              stdout=subprocess.DEVNULL, stderr=subprocess.DEVNULL)
    try:
        search = ["ldapsearch", "-x", "-H", url, "-b", "dc=example"]
        until = time.monotonic() + SECONDS
        while subprocess.run([*search, "-s", "base", "dn"], capture_output=True).returncode != 0:
            if server.poll() is not None or time.monotonic() > until:
                print(f"skipped: slapd doesn't start here: {added.stderr[-200:]!r}")
                return
            time.sleep(0.1)
        wanted = {"dc=example": "unknown", "ou=open,dc=example": "found", f"ou={long_name},dc=example": "nothing",
                  "ou=Größe,dc=example": "unknown"}
        for words in ([], ["-o", "ldif-wrap=no"], ["-LLL"]):
            printed = subprocess.run([*search, *words, "nTSecurityDescriptor"], capture_output=True).stdout
            place.write("server.ldif", printed)
            got = {one["name"]: one["answer"] for one in place.objects(*EVERYONE_READS, "server.ldif")}
            place.expect(got, wanted, f"ldapsearch {words}: {printed[-500:]!r}")
        printed = subprocess.run([*search, "-z", "2", "nTSecurityDescriptor"], capture_output=True).stdout
        place.write("limited.ldif", printed)
        objects = place.objects(*EVERYONE_READS, "limited.ldif")
        place.expect((len(objects), objects[-1]["name"], objects[-1]["answer"]),
                     (3, "the rest of the search", "unknown"), "a search that a limit ended")
    finally:
        server.terminate()
        server.wait()


# What the library says of SDDL, which windows/ says too.
TABLES = """
import itertools, json, string, sdtool
from sdtool import _windows as table
from sdtool.audit import library
from sdtool.audit.windows import names, rights

letters = ["".join(pair) for pair in itertools.product(string.ascii_uppercase, repeat=2)]
aliases = {}
for alias in letters:
    answer = library._ask(["convert", "--from", "sddl", "--numeric", "--domain", "S-1-5-21-1-2-3"], ["O:" + alias])[0]
    if not answer.startswith("error "):
        aliases[alias] = answer[2:]
said = {row[0]: sid for sid, row in table.SIDS.items() if row[0]}
said.update({row[0]: f"S-1-5-21-1-2-3-{number}" for number, row in table.OF_A_DOMAIN.items() if row[0]})
generic = {}
for kind, row in table.KINDS.items():
    if row["library"]:
        texts = [f"D:(A;;{name};;;WD)" for name in ("GR", "GW", "GX", "GA")]
        generic[kind] = library.granted("sddl", texts, library.Token(("WD",)), kind, row["mapping"][3])
single = {}
for name in letters:
    answer = library.explained("sddl", [f"D:(A;;{name};;;WD)"])[0]
    if isinstance(answer, library.Descriptor) and bin(answer.aces[0].mask).count("1") == 1:
        single[name] = answer.aces[0].mask
flags = {}
for name in letters:
    answer = library.explained("sddl", [f"D:(A;{name};FA;;;WD)"])[0]
    if isinstance(answer, library.Descriptor):
        flags[name] = answer.aces[0].flags
kinds = set()
for name in [*letters, *string.ascii_uppercase]:
    for typed in ("", "bf9679c0-0de6-11d0-a285-00aa003049e2"):
        answer = library.explained("sddl", [f"D:({name};;FA;{typed};;WD)"])[0]
        if isinstance(answer, library.Descriptor):
            kinds.add(name)
mappings = {kind: list(row["mapping"]) for kind, row in table.KINDS.items() if row["library"]}
print(json.dumps([[aliases, said], [generic, mappings],
                  [{name: single.get(name) for name in rights.NAMES}, rights.NAMES], [flags, library.FLAGS],
                  [sorted(kinds), sorted(library.ALLOWS | library.DENIES | library.OTHERS)]]))
"""


def test_windows_tables(place: Place) -> None:
    """What windows/ and the proved crates both have: aliases, generic mappings, names of rights, flags and kinds of
    ACEs."""
    asked = [place.python, "-c", TABLES]
    ended = subprocess.run(asked, cwd=place.folder, env=place.environment, capture_output=True, text=True)
    place.count.add(ended.returncode == 0, f"the tables: {ended.stderr[-1500:]}")
    for what, (of_library, of_table) in zip(("aliases", "generic mappings", "rights", "flags", "kinds"),
                                            json.loads(ended.stdout or "[]")):
        place.expect(of_table, of_library, f"{what} of windows/ and of the library")
        place.count.add(len(of_library) > 3, f"{what}: the library told {of_library}")


def test_errors(place: Place) -> None:
    """What is said of each error: of lines of tests/rows, and of a folder that hands on too many ACEs."""
    lines: Dict[str, List[str]] = collections.defaultdict(list)
    for row in [row for file in sorted((TOP / "tests/rows").glob("*.json")) for row in run_rows.rows_in(file)]:
        given, told = (run_rows.text(row.get(key, "")).decode("latin-1").split("\n") for key in ("stdin", "stdout"))
        if row["words"][:1] == ["convert"] and "--domain" not in row["words"] and len(given) == len(told):
            for line, answer in zip(given, told):
                lines[answer].append(line)
    refused = [(answer, line) for answer in lines if answer.startswith("error ")
               for line in lines[answer][:5] if len(line) < 160_000]
    folder = [("T", "O:BAG:SYD:" + "(A;OICI;FA;;;CO)" * 3276), ("T/f", "O:BAG:SYD:AI")]
    objects = place.objects("risks", place.table(refused)) + place.objects("inherit", place.table(folder, "folder.csv"))
    said: Dict[int, set] = collections.defaultdict(set)
    for one in objects:
        found = re.fullmatch(r"(.*) \(error (\d+) .*", one.get("reason", ""))
        if found:
            said[int(found[2])].add((found[1], one["help"]))
    with open(TOP / "windows/errors.toml", "rb") as file:
        words = {int(line.split()[0]): tuple(row.get("audit", row["means"]))
                 for line, row in tomllib.load(file).items()}
    place.expect(said, {number: {words[number]} for number in (4, *range(7, 15), *range(20, 31), 40)},
                 "words of errors")


RESET, SPN, KEY, RBCD = ("00299570-246d-11d0-a768-00aa006e0529", "f3a64788-5306-11d1-a9c5-0000f80367c1",
                         "5b47d60f-6090-40b2-9f37-2a4de88f3063", "3f78c3e5-f79a-46bd-a0b8-9d18116ddc79")
MEMBERS, LINK, USER = ("bf9679c0-0de6-11d0-a285-00aa003049e2", "f30e3bbe-9ff0-11d1-b603-0000f80367c1",
                       "bf967aba-0de6-11d0-a285-00aa003049e2")
CHANGES = ("1131f6aa-9c07-11d1-f79f-00c04fc2dcd2", "1131f6ad-9c07-11d1-f79f-00c04fc2dcd2")
# Delegations to the account 1105: the object, the ACEs, and the rule that finds them there.
DELEGATED = (
    ("CN=Guest,CN=Users,", f"(OA;;CR;{RESET};;@)", "reset-password"),
    ("OU=Domain Controllers,", f"(OA;CIIO;CR;{RESET};{USER};@)", "reset-password"),
    ("CN=Domain Admins,CN=Users,", f"(OA;;WP;{MEMBERS};;@)", "add-member"),
    ("CN=krbtgt,CN=Users,", f"(OA;;WP;{SPN};;@)", "write-spn"),
    ("CN=Administrator,CN=Users,", f"(OA;;WP;{KEY};;@)", "key-credential"),
    ("CN=Infrastructure,", "(A;;WD;;;@)", "takeover"),
    ("", f"(OA;;CR;{CHANGES[0]};;@)(OA;;CR;{CHANGES[1]};;@)", "dcsync"),
    ("CN=Computers,", "(OA;;CC;bf967a86-0de6-11d0-a285-00aa003049e2;;@)", "create-children"),
    ("CN={31B2F340-016D-11D2-945F-00C04FB984F9},CN=Policies,CN=System,", "(A;CI;WP;;;@)", "write-properties"),
    ("CN=System,", "(A;;CR;;;@)", "all-extended-rights"),
    # Administrators have the DACL of AdminSDHolder.
    ("CN=AdminSDHolder,CN=System,", f"(OA;;CR;{RESET};;@)", "reset-password"),
)


def fresh_forest(place: Place):
    """An LDIF of a forest that samba-tool makes here, its schema, and its domain; nothing where Samba is missing."""
    samba_tool, ldbsearch = shutil.which("samba-tool"), shutil.which("ldbsearch")
    if not samba_tool or not ldbsearch or not pathlib.Path("/usr/share/samba/setup/provision.ldif").exists():
        return None
    folder = place.folder / "forest"
    made = subprocess.run([samba_tool, "domain", "provision", "--realm=EXAMPLE.COM", "--domain=EXAMPLE",
                           "--adminpass=Passw0rd!x", "--server-role=dc", f"--targetdir={folder}",
                           "--host-ip=127.0.0.1"], capture_output=True, text=True,
                          timeout=SECONDS)
    found = re.search(r"DOMAIN SID: *(S-1-5-21-[0-9-]+)", made.stdout + made.stderr)
    if made.returncode or not found:
        return None

    def search(base: str, query: str, *attributes: str) -> str:
        words = [ldbsearch, "-H", str(folder / "private/sam.ldb"), "--cross-ncs", "-b", base, query, *attributes]
        return subprocess.run(words, capture_output=True, text=True, timeout=SECONDS).stdout

    objects = search("", "(objectClass=*)", "nTSecurityDescriptor", "objectClass", "objectSid", "sAMAccountName")
    schema = search("CN=Schema,CN=Configuration,DC=example,DC=com", "(objectClass=*)", "lDAPDisplayName",
                    "defaultSecurityDescriptor", "schemaIDGUID")
    return objects, schema, found[1]


def test_fresh_forest(place: Place) -> None:
    """A fresh forest has no findings, and each delegation is found where it stands."""
    forest = fresh_forest(place)
    if forest is None:
        print("a fresh forest: skipped, without samba-tool, ldbsearch and the files of a domain controller")
        return
    objects, schema, domain = forest
    place.write("fresh.ldif", objects)
    place.write("schema.ldif", schema)
    count = len(re.findall(r"^dn: ", objects, re.M))
    words = ("--domain", domain)
    fresh = place.ask("risks", "fresh.ldif", *words)
    place.expect((fresh.status, fresh.stdout.splitlines()[-1:]), (0, [f"{count:,} objects: {count:,} nothing"]),
                 "a fresh forest")
    with_schema = place.ask("risks", "fresh.ldif", *words, "--schema", "schema.ldif")
    place.expect((with_schema.status, with_schema.stdout.splitlines()[-1:]),
                 (0, [f"{count:,} objects: {count:,} nothing"]), "a fresh forest with its schema")
    planted = re.sub(r"\n ", "", objects)
    ann = f"{domain}-1105"
    for name, aces, _ in DELEGATED:
        planted, times = re.subn(rf"(^dn: {re.escape(name)}DC=example,DC=com\n(?:[^\n]+\n)*?nTSecurityDescriptor: [^\n"
                                 r"]*?D:[A-Z]*)", lambda found: found[1] + aces.replace("@", ann), planted, flags=re.M)
        place.expect(times, 1, f"a delegation on {name}")
    place.write("planted.ldif", planted)
    for more in ((), ("--schema", "schema.ldif")):
        found = {(one["name"], finding["rule"], finding["trustee"])
                 for one in place.objects("risks", "planted.ldif", *words, *more)
                 for finding in one["findings"] if one["answer"] == "found"
                 if finding["rule"] not in ("inheritance-cut", "order")}
        place.expect(found, {(f"{name}DC=example,DC=com", rule, ann) for name, _, rule in DELEGATED},
                     f"delegations {more}")


def test_package(place: Place) -> None:
    """What pip installs: the command, and the packages that it needs."""
    built = subprocess.run([place.python, "-c", "import sys; sys.path.insert(0, sys.argv[1]); import build_wheel; "
                            "print(build_wheel.build_wheel('.'))", str(TOP / "python")], cwd=place.folder,
                           capture_output=True, env={**os.environ, "PYTHONDONTWRITEBYTECODE": "1"})
    with zipfile.ZipFile(place.folder / (built.stdout.decode().split() or ["none"])[-1]) as wheel:
        names = wheel.namelist()
        info = next(name.split("/")[0] for name in names if name.endswith("/METADATA"))
        metadata, entries = (wheel.read(f"{info}/{name}").decode() for name in ("METADATA", "entry_points.txt"))
    without_click = place.folder / "without"
    without_click.mkdir()
    (without_click / "click.py").write_text("raise ImportError('no click here')\n", encoding="utf-8")
    paths = [*place.folder.glob("*.whl"), without_click]
    ended = subprocess.run([place.python, "-c", "from sdtool.audit.__main__ import main; main()", "rules"],
                           cwd=place.folder, env={**place.environment, "PYTHONPATH": os.pathsep.join(map(str, paths))},
                           capture_output=True)
    place.expect((ended.returncode, ended.stdout, ended.stderr), (2, b"", b"sdtool-audit: no click here; pip install "
                 b"'sdtool[audit]' has what it needs\n"), "the command of the wheel without click")
    modules = {path.relative_to(TOP / "python").as_posix() for path in (TOP / "python/sdtool/audit").rglob("*.py")}
    place.expect(modules - set(names), set(), "modules that the wheel lacks")
    place.expect(entries, "[console_scripts]\nsdtool-audit = sdtool.audit.__main__:main\n", "the command of the wheel")
    place.expect(re.findall(r"^Requires-Dist: ([\w-]+) .*extra == 'audit'$", metadata, re.M), ["click", "rich"],
                 "what the extra needs")


def test_examples(place: Place) -> None:
    """The examples of docs/AUDIT.md print what stands there, and the man page names each command."""
    shutil.copytree(TOP / "examples", place.folder / "examples")
    programs = place.folder / "bin"
    programs.mkdir()
    (programs / "sdtool-audit").write_text(f'#!/bin/sh\nexec {shlex.quote(place.python)} -m sdtool.audit "$@"\n')
    (programs / "sdtool-audit").chmod(0o755)
    text = (TOP / "docs/AUDIT.md").read_text(encoding="utf-8")
    examples = list(run_examples.examples_in(run_examples.blocks_of(text, False)))
    stand = sum(bool(re.match(r"\s*\$ ", line)) for line in text.splitlines())
    place.count.add(0 < stand == len(examples), f"docs/AUDIT.md: {stand} examples stand there, {len(examples)} are run")
    for example in examples:
        environment = {**place.environment, "PATH": f"{programs}:{os.environ['PATH']}",
                       "PYTHONPATH": str(TOP / "python")}
        ended = subprocess.run(["sh", "-c", example.command], cwd=place.folder / "examples", env=environment, text=True,
                               stdin=subprocess.DEVNULL, stdout=subprocess.PIPE, stderr=subprocess.STDOUT,
                               timeout=SECONDS)
        place.expect(ended.stdout, example.printed, f"docs/AUDIT.md: {example.command}")
    manual = (TOP / "docs/sdtool-audit.1").read_text(encoding="utf-8")
    told = place.ask("--help").stdout.partition("Commands:")[2].split("\n")
    commands = {line.split()[0] for line in told if line.startswith("  ") and line.strip()}
    place.expect(sorted(name for name in commands if name not in manual), [], "commands that the man page lacks")


TESTS = (test_sources, test_damaged_registry, test_kinds, test_tables, test_drives, test_plain_lines, test_hostile,
         test_page_report, test_can, test_tokens, test_who, test_directory_objects, test_risks, test_forest,
         test_accepting, test_diff, test_inherit, test_show, test_cache, test_words, test_scale, test_bar, test_samba,
         test_checks, test_ntfs, test_directory_server, test_windows_tables, test_errors, test_fresh_forest,
         test_package, test_examples)


def run_tests(count: preload.Count, tests: Sequence[Callable[[Place], None]]) -> None:
    """Runs the tests that are chosen, each in a folder of its own."""
    python = python_with_packages()
    if not python:
        print("skipped: no Python here has click and rich (Debian: python3-click, python3-rich)")
        return
    for test in filter(preload.is_chosen, tests):
        with tempfile.TemporaryDirectory() as folder:
            try:
                test(Place(folder, python, count))
            except Exception as error:  # one test that breaks doesn't hide what the others find
                count.add(False, f"{test.__name__}: {type(error).__name__}: {error}")


def main(count: preload.Count) -> None:
    run_tests(count, TESTS)
