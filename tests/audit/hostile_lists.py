"""Feeds sdtool-audit and the scripts of examples/ lists that are easy to misread: refused ACEs, relative aliases, empty
lines, missing and null DACLs, ACEs for object types, other encodings and line ends, a last line without its end, names
with blanks, tabs, quotes and line ends, and lists that lack a line or a field. Each object has to have its name in the
output with the right answer, or is unknown.

The answers to the descriptors below were worked out by hand. sdtool-audit needs what tests/audit/audit.py needs, and is
skipped without it.
"""
import base64
import contextlib
import csv
import io
import itertools
import json
import os
import pathlib
import subprocess
import sys
import tempfile
import time
from typing import NamedTuple

import audit
import preload

EXAMPLES = pathlib.Path(__file__).resolve().parents[2] / "examples"
SECONDS = 1200  # for one script
MEMBER = "bf9679c0-0de6-11d0-a285-00aa003049e2"
YES, NO, UNKNOWN = "yes", "no", "unknown"
KEY = "HKEY_LOCAL_MACHINE\\Software\\Example"


class Case(NamedTuple):
    """A descriptor, and whether Everyone may change anything of a file that has it."""
    sddl: str
    changes: str


CASES = [
    Case("O:BAD:(A;;FR;;;WD)", NO),
    Case("O:BAD:(A;;FR;;;BU)(A;;DCLCSDWDWO;;;WD)", YES),
    Case("O:BUD:(A;;LC;;;WD)(A;;WDWO;;;AU)(A;;DT;;;IU)", YES),
    Case("O:BAD:(A;;DT;;;WD)", YES),
    Case("O:BAD:(A;;0x110;;;WD)", YES),
    Case("O:BAD:(A;;262144;;;WD)", YES),
    Case("O:BAD:(A;;GW;;;WD)", YES),
    Case("O:BA", YES),
    Case("O:BAG:SYS:(ML;;NW;;;LW)", YES),
    Case("O:BAD:NO_ACCESS_CONTROL", YES),
    Case("O:BAD:", NO),
    Case("O:BAD:P", NO),
    Case("o:bad:(a;;0X1F01FF;;;s-1-1-0)", YES),
    Case("O:BAD:(A;;FA;;;WD)", YES),
    Case("O:WDD:(A;;FR;;;WD)", YES),
    Case("O:BAD:(D;;FA;;;WD)(A;;FA;;;WD)", NO),
    Case("O:BAD:(D;;FA;;;WD)", NO),
    Case("O:BAD:(A;OICIIO;FA;;;WD)", NO),
    Case("O:BAD:P(A;;0;;;WD)", NO),
    Case("O:BAD:(XA;;FA;;;WD;(@User.clearance >= 2))", UNKNOWN),
    Case("O:BAD:(XA;;FA;;;WD)", UNKNOWN),
    Case("O:BAD:(A;;FA;;;WD)S:(RA;;;;;WD;(\"Secrecy\",TU,0,3))", UNKNOWN),
    Case("O:BAD:(A;;FA;;;DU)", UNKNOWN),
    Case("O:BAD:(A;;FA;;;Everyone)", UNKNOWN),
    Case("O:BAD:(A;;FA;;;WD", UNKNOWN),
    Case("C:\\Data\\plan.txt", UNKNOWN),
    Case("granted 0x001f01ff", UNKNOWN),
    Case("", UNKNOWN),
    Case(" ", UNKNOWN),
]
# What such a descriptor grants depends on the object type that is asked for.
OBJECT_CASES = [Case(f"O:BAD:(OA;;DC;{MEMBER};;WD)(A;;FR;;;AU)", UNKNOWN),
                Case(f"O:BAD:(OD;;DC;{MEMBER};;WD)", UNKNOWN)]
IS_READ = {*(case.sddl for case in CASES if case.changes != UNKNOWN), *(case.sddl for case in OBJECT_CASES)}
NAMES = ["plain", "with  blanks ", "tab\there", 'quote"d', '"quoted"', "per%cent %s", "line\nend", "carriage\rreturn",
         "back\\slash", "comma, semi;colon", "Größe", "a | pipe & more", "$(touch x)", "-n", "unknown: x", "'single'",
         "\u2028separated", "emoji \U0001f600", "=1+1", "{}", "a,b\r\nc;d"]


class Row(NamedTuple):
    name: str
    case: Case


def named_rows(cases, names=NAMES):
    """Each case with a name of its own."""
    return [Row(f"{name}{number}" if number >= len(names) else name, case)
            for number, (name, case) in enumerate(zip(itertools.cycle(names), cases))]


def csv_of(rows, delimiter=",", end="\r\n"):
    text = io.StringIO(newline="")
    writer = csv.writer(text, delimiter=delimiter, lineterminator=end, quoting=csv.QUOTE_ALL)
    writer.writerows([("Path", "Owner", "Sddl"), *((row.name, "x", row.case.sddl) for row in rows)])
    return text.getvalue()


def unquoted_csv_of(rows):
    text = io.StringIO(newline="")
    csv.writer(text).writerows([("sddl", "PATH"), *((row.case.sddl, row.name) for row in rows)])
    return text.getvalue()


def tsv_of(rows):
    return "".join(f"{row.name}\t{row.case.sddl}\n" for row in rows)


def icacls_of(rows):
    return "".join(f"{row.name}\n{row.case.sddl[row.case.sddl.index('D:'):]}\n" for row in rows)


def json_of(rows):
    return json.dumps([{"Path": row.name, "Sddl": row.case.sddl} for row in rows])


def json_lines_of(rows):
    return "".join(json.dumps({"Path": row.name, "Other": 1, "Sddl": row.case.sddl}, ensure_ascii=False) + "\n"
                   for row in rows)


def folded(line):
    return "\n ".join(line[at:at + 60] for at in range(0, len(line), 60)) + "\n"


def ldif_of(rows, hex_of):
    """A record for each object; a text that is no descriptor is left out of its record, as what may not be read is."""
    text = "# made for a test\nversion: 1\n\n"
    for row in rows:
        text += folded("dn:: " + base64.b64encode(row.name.encode()).decode()) + "objectClass: top\n"
        if hex_of.get(row.case.sddl):
            text += folded("nTSecurityDescriptor:: " + base64.b64encode(bytes.fromhex(hex_of[row.case.sddl])).decode())
        text += "\n"
    return text


def reg_of(rows, hex_of):
    text = f"Windows Registry Editor Version 5.00\n\n[{KEY}]\n"
    for row in rows:
        digits = hex_of.get(row.case.sddl, "00")
        spelled = ",".join(digits[at:at + 2] for at in range(0, len(digits), 2)).replace(",00,", ",00,\\\n  ")
        name = row.name.replace("\\", "\\\\").replace('"', '\\"')
        text += f'"{name}"=hex:{spelled}\n'
    return text


def getfattr_of(rows, hex_of):
    text = ""
    for row in rows:
        name = "".join(c if c.isascii() and c.isprintable() and c != "\\" else
                       "".join(f"\\{byte:03o}" for byte in c.encode()) for c in row.name)
        value = hex_of.get(row.case.sddl, "")
        text += f"# file: {name}\n" + (f"system.ntfs_acl=0x{value}\n" if value else "") + "\n"
    return text


def inf_of(rows):
    return "[Unicode]\nUnicode=yes\n[File Security]\n" + "".join(f'"{row.name}",2,"{row.case.sddl}"\n' for row in rows)


ENCODINGS = ["utf-8", "utf-8-sig", "utf-16", "utf-16-be-mark"]


def encoded(text, encoding):
    return b"\xfe\xff" + text.encode("utf-16-be") if encoding == "utf-16-be-mark" else text.encode(encoding)


def ways(text, with_crlf=True):
    """A list in each encoding, with either line end, and without the last one."""
    for encoding, end in itertools.product(ENCODINGS, ["\n", "\r\n"] if with_crlf else ["\n"]):
        whole = text.replace("\n", end)
        yield encoded(whole, encoding)
        if encoding in ("utf-8", "utf-16"):
            yield encoded(whole.removesuffix(end), encoding)


class Ended(NamedTuple):
    status: int
    stdout: str
    stderr: str


def run(words, given=None):
    ended = subprocess.run(words, cwd=EXAMPLES, input=given, stdout=subprocess.PIPE, stderr=subprocess.PIPE,
                           timeout=SECONDS, stdin=None if given is not None else subprocess.DEVNULL)
    return Ended(ended.returncode, ended.stdout.decode(), ended.stderr.decode())


def is_refused(ended):
    """The script says that it has no answer."""
    return ended.status == 2 and ended.stderr.strip() and not ended.stdout.strip()


def says(answer, wanted):
    return answer.startswith(f"{wanted}: ") and len(answer) > len(wanted) + 2 if wanted == UNKNOWN else \
        answer == wanted or answer.startswith(f"{wanted}: ")


# Status and words of sdtool-audit. What an ACE denies is `stopped`.
ANSWERS = {"found": YES, "nothing": NO, "stopped": NO, "unknown": UNKNOWN}


class Lists:
    """Lists as files, and what sdtool-audit answers to them."""

    def __init__(self, place):
        self.place, self.count = place, place.count
        cases = sorted(IS_READ)
        told = run(["sdtool", "convert", "--from", "sddl", "--to", "hex"], "".join(f"{c}\n" for c in cases).encode())
        self.hex_of = dict(zip(cases, told.stdout.split()))
        # A callback ACE, and a header without a part: bytes that hold a type which is refused.
        self.hex_of["O:BAD:(XA;;FA;;;WD)"] = ("0100048000000000000000000000000014000000020020000100000009001800ff011f00"
                                              "01010000000000010000000061727478")

    def answers(self, kind, data, *words):
        self.place.write("list", data)
        ended = self.place.ask("can", "WD", "change", "list", "--exact", "--type", "file", "--format", kind,
                               "--to", "jsonl", *words)
        return ended, [(one["name"], ANSWERS.get(one["answer"])) for one in ended.objects]

    def checked(self, kind, data, rows, *words):
        """Whether Everyone may change each object, in order. The status says whether one is unknown."""
        ended, told = self.answers(kind, data, *words)
        wanted = [(row.name, row.case.changes) for row in rows]
        status = (3 if any(answer == UNKNOWN for _, answer in wanted)
                  else int(any(answer == YES for _, answer in wanted)))
        self.count.add(told == wanted and ended.status == status,
                       f"{kind} {data[:40]}: status {ended.status}\n  told   {told}\n  wanted {wanted}\n{ended.stderr}")

    def unknown(self, kind, data, what):
        """A list that is damaged has an unknown object, or is refused."""
        ended, told = self.answers(kind, data)
        is_said = (ended.status == 2 and ended.stderr.strip() or ended.status == 3
                   and UNKNOWN in [answer for _, answer in told])
        self.count.add(is_said, f"{kind} {what}: status {ended.status}\n  told   {told}\n{ended.stderr}")


def without_owner(rows):
    """What an owner may do is open where a list has no owners."""
    return [row._replace(case=row.case._replace(changes=UNKNOWN)) if row.case.changes == NO else row for row in rows]


def formats(lists):
    """Each kind of list, in each of its ways."""
    rows = named_rows(CASES + OBJECT_CASES)
    for delimiter, end in itertools.product(",;\t", ["\n", "\r\n"]):
        text = csv_of(rows, delimiter, end)
        for encoding in ENCODINGS:
            lists.checked("csv", encoded(text, encoding), rows)
        lists.checked("csv", text.removesuffix(end).encode(), rows)
    lists.checked("csv", unquoted_csv_of(rows).encode(), rows)
    for kind, text in (("json", json_of(rows)), ("jsonl", json_lines_of(rows))):
        for data in ways(text, False):
            lists.checked(kind, data, rows)
    without_ends = [name for name in NAMES if not set(name) & set("\t\r\n")]
    rows = named_rows(CASES + OBJECT_CASES, without_ends)
    for data in ways(tsv_of(rows)):
        lists.checked("csv", data, rows, "--no-quotes")
    numbered = [Row(f"list:{number}", row.case) for number, row in enumerate(rows, 1)]
    for data in ways("".join(f"{row.case.sddl}\n" for row in rows)):
        lists.checked("lines", data, numbered)
    quoteless = named_rows([case for case in CASES if '"' not in case.sddl],
                           [name for name in without_ends if '"' not in name])
    for data in ways(inf_of(quoteless)):
        lists.checked("secedit", data, quoteless)
    with_dacl = [case for case in CASES + OBJECT_CASES if "D:" in case.sddl and not case.sddl.startswith("O:WD")]
    dacls = named_rows(with_dacl, without_ends)
    for data in ways(icacls_of(dacls)):
        lists.checked("icacls", data, without_owner(dacls))


def formats_of_bytes(lists):
    rows = [row for row in named_rows(CASES + OBJECT_CASES)]
    for data in ways(ldif_of(rows, lists.hex_of)):
        lists.checked("ldif", data, rows)
    rows = named_rows(CASES + OBJECT_CASES)
    for data in ways(getfattr_of(rows, lists.hex_of)):
        lists.checked("getfattr", data, rows)
    rows = named_rows(CASES + OBJECT_CASES, [name for name in NAMES if not set(name) & set("\r\n")])
    # A value that is no descriptor is none, but by its name.
    rows = [row for row in rows if row.case.sddl in lists.hex_of]
    below = [Row(f"{KEY}\\{row.name}", row.case) for row in rows]
    for data in ways(reg_of(rows, lists.hex_of)):
        lists.checked("reg", data, below)


def damaged(lists):
    """Lists that lack a part: each object is unknown, or there is no answer."""
    good, sddl = CASES[0], CASES[0].sddl
    for kind in ("lines", "csv", "csv", "json", "ldif", "icacls", "reg", "secedit", "getfattr", "sds"):
        lists.unknown(kind, b"", "an empty file")
    for kind in ("lines", "csv", "csv", "json", "icacls"):
        lists.unknown(kind, "a\tPath,Sddl\n".encode("utf-16")[:-1], "half a character of UTF-16")
        lists.unknown(kind, b"Path,Sddl\nGr\xf6\xdfe\tD:\n", "an unknown encoding")
    lists.unknown("csv", b'"Path","Path","Sddl"\n"a","b","D:"\n', "two columns with the name")
    lists.unknown("csv", f"Path,Sddl\na\rb,{sddl}\n".encode(), "a line end without quotes")
    lists.unknown("csv", f'"Path","Sddl"\n"a,"{sddl}"\n"b","{sddl}"\n'.encode(), "a quote that is not closed")
    lists.unknown("csv", f'"Path","Sddl"\n"a","{sddl}"\n"b","{sddl}\n'.encode(), "a quote that is open at the end")
    lists.unknown("icacls", f"a\n{sddl[4:]}\nb\n".encode(), "a line is missing at the end")
    lists.unknown("icacls", f"a\nb\n{sddl[4:]}\n".encode(), "a line is missing")
    lists.unknown("icacls", f"a\n{sddl[4:]}\n{sddl[4:]}\n".encode(), "a line too many")
    lists.unknown("json", json_of([Row("a", good)])[:-5].encode(), "the end is cut off")
    lists.unknown("ldif", b"dn: a\nnTSecurityDescriptor\n", "a line without a colon")
    lists.unknown("ldif", b"dn: a\n\nsearch: 2\nresult: 4 Size limit exceeded\n", "a search that did not end")
    lists.unknown("reg", b'[KEY]\n"a"=hex:00\n', "the head is missing")
    stream = (EXAMPLES / "secure.sds").read_bytes()
    lists.unknown("sds", stream[:100], "a stream that is cut")
    lists.unknown("sds", stream[:16] + bytes(4) + stream[20:], "an entry without a size")
    lists.unknown("secedit", f'[File Securty]\n"a",2,"{sddl}"\n'.encode(), "an unknown section")
    for kind, text, wanted in [
            ("csv", f'"Path","Sddl"\n"C:\\denied.txt",\n"b","{sddl}"\n', [("C:\\denied.txt", UNKNOWN), ("b", NO)]),
            ("csv", f'"Path","Sddl"\n"C:\\denied.txt"\n"b","{sddl}"\n', [("C:\\denied.txt", UNKNOWN), ("b", NO)]),
            ("csv", f"Path;Sddl\na;{sddl}\n", [("a", UNKNOWN)]),
            ("csv", f'Path,Sddl\na,"{sddl}\nD:"\n\nb,{sddl}\n', [("a", UNKNOWN), ("list:4", UNKNOWN), ("b", NO)]),
            ("csv", f'#TYPE Selected\nPath,Sddl\na,{sddl}\n', [("a", NO)]),
            ("csv", f"a\t{sddl}\nb\nc\t\n\td\t{sddl}\n\ne\t{sddl}",
             [("a", NO), ("b", UNKNOWN), ("c", UNKNOWN), ("", UNKNOWN), ("list:5", UNKNOWN), ("e", NO)]),
            ("json", '[{"Path":"a"},{"Sddl":"D:"},3,{"Path":"b","Sddl":null},{"Path":"c","Sddl":"D:","SDDL":"D:P"}]',
             [("a", UNKNOWN), ("list:1", NO), ("list:1", UNKNOWN), ("b", UNKNOWN), ("c", UNKNOWN)]),
            ("ldif", "dn: a\n\ndn:: Yg==\nnTSecurityDescriptor: x\n\nref: ldap://x\n\nsearch: 2\nresult: 0 Success\n",
             [("a", UNKNOWN), ("b", UNKNOWN)]),
            ("reg", f'Windows Registry Editor Version 5.00\n[{KEY}]\n"a"=dword:00000001\n"b"="x"\n"Security"=hex:zz\n',
             [(f"{KEY}\\Security", UNKNOWN)]),
            ("secedit", f'[Version]\nsignature="x"\n[File Security]\n"a",2,"{sddl}"\n"b",2\nc\n',
             [("a", NO), ('"b",2', UNKNOWN), ("c", UNKNOWN)]),
            ("getfattr", "# file: a\nuser.x=0x00\n# file: b\nsystem.ntfs_acl=0xzz\n# file: c\nsecurity.NTACL=0x00\n",
             [("a", UNKNOWN), ("b", UNKNOWN), ("c", UNKNOWN)]),
            ("wevtutil", "name: a\nenabled: true\n", [("a", UNKNOWN)])]:
        lists.checked(kind, text.encode(), [Row(name, Case("", answer)) for name, answer in wanted])


def lines(count):
    """The two scripts for lines without names answer each line in order."""
    cases = [*CASES, *OBJECT_CASES]
    text = "".join(f"{case.sddl}\n" for case in cases)
    wanted = [case.changes for case in cases]
    more = "O:BAD:(A;;FA;;;WD)"
    for given, answers in [(text, wanted), (text.replace("\n", "\r\n"), wanted), (text.lower(), wanted),
                           (text + more, [*wanted, YES])]:
        for words in (["sh", "may_change.sh", "WD"], [sys.executable, "-B", "ask.py", "sdtool", "WD"]):
            ended = run(words, given.encode())
            told = ended.stdout.splitlines()
            is_right = len(told) == len(answers) and all(map(says, told, answers)) and ended.status == 0
            count.add(is_right, f"{words[1:]}: {told}\n  not {answers}\n{ended.stderr}")
    for words in (["sh", "may_change.sh", "Everyone"], [sys.executable, "-B", "ask.py", "sdtool", "Everyone"]):
        count.add(is_refused(run(words, b"D:\n")), f"{words[1:]}: a wrong token has no answer")
    for encoding in ("utf-16", "utf-8-sig"):
        given = "O:BAD:(A;;FA;;;WD)\n".encode(encoding)
        for words in (["sh", "may_change.sh", "WD"], [sys.executable, "-B", "ask.py", "sdtool", "WD"]):
            told = run(words, given).stdout.splitlines()
            count.add(told and all(says(answer, UNKNOWN) for answer in told), f"{words[1:]} {encoding}: {told}")
    # Standard input may be in non-blocking mode, in which no line yet is not the end.
    for words in (["ask.py", "sdtool", "WD"],):
        reader, writer = os.pipe()
        os.set_blocking(reader, False)
        with subprocess.Popen([sys.executable, "-B", *words], cwd=EXAMPLES, stdin=reader,
                              stdout=subprocess.PIPE) as child:
            os.close(reader)
            with contextlib.suppress(BrokenPipeError):
                for line in b"O:BA\n", b"O:SY\n":
                    os.write(writer, line)
                    time.sleep(1)
            os.close(writer)
            told = child.stdout.read()
        count.add(told.count(b"\n") == 2 and child.returncode == 0, f"{words}, lines that come late: {told}")


def main(count: preload.Count, given: preload.Given) -> None:
    program = given.program
    with tempfile.TemporaryDirectory() as folder:
        os.symlink(program, os.path.join(folder, "sdtool"))
        os.environ["PATH"] = os.pathsep.join([folder, os.environ["PATH"]])
        lines(count)
        python = audit.python_with_packages()
        if python:
            lists = Lists(audit.Place(folder, python, count))
            for part in filter(preload.is_chosen, (formats, formats_of_bytes, damaged)):
                part(lists)
        else:
            print("skipped: no Python here has click and rich (Debian: python3-click, python3-rich)")
