"""Tests that no text of a source reaches a terminal as it is: names of objects, of members of archives, of files, of
accounts and of columns with escape sequences and line ends, in every command, on standard output and standard error, to
a file and to a terminal. No line may begin with what a name says, and no control character may come out. In the code of
sdtool-audit nothing but `tell` and `say` may write for people. It also fills standard error: the report has to be the
same. It needs click and rich, and the library in out/lib or the one that SDTOOL_LIBRARY names.
"""
import ast
import base64
import concurrent.futures
import csv
import io
import json
import os
import pathlib
import pty
import re
import subprocess
from typing import Dict, Iterator, List, Sequence, Tuple

import audit
import preload
from audit_sources import DOMAIN, FR, descriptor, packed, tarred

TOP = pathlib.Path(__file__).resolve().parents[2]
CODE = TOP / "python/sdtool/audit"
FORGED = "forged: 1 object: 1 nothing"
HOSTILE = f"a\x1b]0;title\x07\x1b[2J\x9b31m\u202e\u2028\r\n{FORGED}\nb"
ONE_LINE = HOSTILE.replace("\r\n", "").replace("\n", "").replace("\u2028", "")
WILD = re.compile("[\0-\x09\x0b-\x1f\x7f-\x9f\u200b-\u200f\u2028-\u202e\u2066-\u2069]")
COLORS = re.compile(r"\x1b\[[0-9;]*m")  # which a table has on a terminal
OPEN = f"O:{DOMAIN}-1001G:SYD:(A;;FA;;;WD)(A;;FA;;;{DOMAIN}-1002)"
# What writes for people, and what writes forms that have names exactly, or markup of its own.
WRITERS = {"reports/shown.py", "__main__.py"}
FORMS = {"reports/outputs.py"}


def three(number: int) -> str:
    """A descriptor of revision 3, of which a note is said."""
    found = bytearray(descriptor(number))
    found[20] = 3
    return found.hex()


def table_of(rows: Sequence[Sequence[str]]) -> str:
    written = io.StringIO()
    csv.writer(written, quoting=csv.QUOTE_ALL, lineterminator="\n").writerows(rows)
    return written.getvalue()


def sources() -> Dict[str, object]:
    """Lists with hostile texts wherever a text may stand."""
    escaped = ONE_LINE.encode().hex()
    octal = "".join(f"\\{byte:03o}" for byte in HOSTILE.encode())
    name = base64.b64encode(f"CN={HOSTILE},DC=x".encode()).decode()
    value = base64.b64encode(descriptor(7)).decode()
    rows = [(HOSTILE, OPEN), ("b", "D:(A;;FA;;;XX"), (HOSTILE + "2", HOSTILE), ("c", three(1))]
    return {
        "names.csv": table_of([("Path", "Sddl"), *rows]),
        "titles.csv": table_of([("Path", HOSTILE, "x" + HOSTILE), ("a", OPEN, FR), ("b", "", "")]),
        "short.csv": table_of([("Path", "Sddl"), (HOSTILE,), ("a", OPEN)]),
        "lines.txt": f"{FR}\n{ONE_LINE}\nFailed to open {ONE_LINE}: NT_STATUS_ACCESS_DENIED\n",
        "names.json": json.dumps([{"Path": HOSTILE, "Sddl": OPEN, HOSTILE: [{"Path": HOSTILE, "Sddl": FR}]},
                                  {"Path": "a", HOSTILE: FR, "x" + HOSTILE: OPEN},
                                  {"Path": "b", HOSTILE: 1}, {"Path": HOSTILE, "path": "c", "Sddl": FR}]),
        "map.json": json.dumps({HOSTILE: OPEN, "a": FR, "Count": 9}),
        "damaged.json": '[\n{"Path": "a", "Sddl": ' + json.dumps(HOSTILE) + "x},\n]",
        "names.ldif": f"dn:: {name}\nnTSecurityDescriptor:: {value}\n\ndn: CN=b\n{ONE_LINE}\n\ndn: CN=c\n"
        f"nTSecurityDescriptor:< {ONE_LINE}\n",
        "cut.ldif": f"# extended LDIF\n\ndn: CN=a\nnTSecurityDescriptor:: {value}\n\nresult: 4 {ONE_LINE}\n",
        "names.attr": f"# file: {octal}\nsystem.ntfs_acl=0x{descriptor(7).hex()}\n\ngetfattr: {ONE_LINE}: Permission "
        f"denied\n{ONE_LINE}\n",
        "names.txt": f"{ONE_LINE}\n{OPEN[OPEN.index('D:'):]}\nb\nD:(A;;FR;;;WD)\n", "names.inf": '[Unicode]\nUnicode=y'
        f'es\n[File Security]\n"{ONE_LINE}",2,"{OPEN}"\n{ONE_LINE}\n[{ONE_LINE}]\n"x",2,"{FR}"\n',
        "names.reg": f'Windows Registry Editor Version 5.00\n\n[HKEY_LOCAL_MACHINE\\{ONE_LINE}]\n'
        f'"{ONE_LINE}SD"="{OPEN}"\n{ONE_LINE}\n"x"=hex:zz\n',
        "names.log": f"name: {ONE_LINE}\nenabled: true\nchannelAccess: {OPEN}\n{ONE_LINE}\n",
        "names.smb": f"[{ONE_LINE}]\nREVISION:1\nCONTROL:{ONE_LINE}\nOWNER:\nGROUP:\n",
        "names.dsacl": f"descriptor for {ONE_LINE}:\n{OPEN}\n{ONE_LINE}\n",
        "names.list": f"Path : {ONE_LINE}\nSddl : {OPEN}\n\nPath : b\n{ONE_LINE[1:]} : x\n",
        "names.zip": packed([(HOSTILE, f"a\t{three(1)}\n"), (HOSTILE + "2", b"7z\xbc\xaf\x27\x1c" + bytes(50)),
                             ("x" + HOSTILE, FR + "\nx\n")]),
        "names.tar": tarred([(HOSTILE, f"a\t{three(1)}\n"), ("y" + HOSTILE, f"\n{audit_service()}\n")]),
        HOSTILE.replace("/", "") + ".csv": table_of([("Path", "Sddl"), *rows]),
        "bytes.hex": escaped + "\n"}


def audit_service() -> str:
    return "D:(A;;CCLCSWRPWPDTLOCRRC;;;SY)(A;;CCLCSWLOCRRC;;;IU)"


def helpers(place: audit.Place) -> None:
    """Files that options name."""
    sid = base64.b64encode(b"\1\5\0\0\0\0\0\5\x15\0\0\0\1\0\0\0\2\0\0\0\3\0\0\0\xe9\3\0\0").decode()
    place.write("sid-names", table_of([("SID", "Name"), (f"{DOMAIN}-1001", HOSTILE),
                                       (f"{DOMAIN}-1002", "x" + HOSTILE)]))
    place.write("groups",
                f"dn:: {base64.b64encode(f'CN={HOSTILE}'.encode()).decode()}\nobjectSid:: {sid}\n"
                f"sAMAccountName:: {base64.b64encode(HOSTILE.encode()).decode()}\nmember;range=0-1: CN=x\n")
    place.write("accepted", f"[[accept]]\nrule = 'everyone-changes'\nobject = {json.dumps(HOSTILE)}\n"
                f"reason = {json.dumps(HOSTILE)}\n[[accept]]\nrule = 'null-dacl'\n"
                f"object = {json.dumps('z' + HOSTILE)}\nreason = 'x'\nuntil = 2001-01-01\n")
    place.write("wrong", f"[[accept]]\nrule = {json.dumps(HOSTILE)}\nobject = 'a'\nreason = 'b'\n")


def commands(name: str) -> List[Tuple[str, ...]]:
    """All commands for some sources, and for the others those that say the most."""
    found = [("who", "change", name), ("who", "change", name, "--all-trustees", "--sid-names", "sid-names"),
             ("can", "S-1-1-0", "write", name),
             ("risks", name, "--sid-names", "sid-names"), ("risks", name, "--accept", "accepted"),
             ("diff", name, "names.csv"), ("inherit", name), ("show", name),
             ("who", "change", name, "--to", "markdown"), ("risks", name, "--to", "csv", "--out", "out"),
             ("who", "change", name, "--groups", "groups")]
    return found if name in ("names.csv", "names.json", "names.zip") else [found[0], found[3], found[7]]


WRONG = [("who", HOSTILE, "names.csv"), ("who", "change", HOSTILE), ("risks", "names.csv", "--rules", HOSTILE),
         ("show", "names.csv", "--name", HOSTILE),
         ("who", "change", "names.csv", "--type", HOSTILE), ("who", "change", "names.csv", "--format", HOSTILE),
         ("who", "change", "names.csv", "--" + HOSTILE),
         ("can", HOSTILE, "write", "names.csv"), ("who", "change", "names.csv", "--out", f"none/{HOSTILE}"),
         ("who", "change", "names.csv", "--encoding", HOSTILE),
         ("who", "change", "titles.csv", "--descriptor-column", "none"), ("risks", "names.csv", "--accept", "wrong"),
         ("risks", "names.csv", "--domain", HOSTILE),
         ("who", "change", "names.csv", "--sid-names", HOSTILE), ("diff", HOSTILE, "names.csv"), (HOSTILE,),
         ("can", "names.csv", "write", "names.csv"),
         ("risks", "names.csv", "--baseline", "names.csv"), ("who", "change", "names.csv", "--groups", "names.csv"),
         ("risks", "names.csv", "--schema", HOSTILE)]


def judge(place: audit.Place, what: str, text: str) -> None:
    wild = WILD.search(text)
    is_forged = any(line.strip().startswith(FORGED) for line in text.split("\n"))
    place.count.add(not wild and not is_forged, f"{what}: {'a forged line' if is_forged else ''} "
                    f"{text[max(0, wild.start() - 80):wild.start() + 40]!r}" if wild or is_forged else what)


def test_streams(place: audit.Place) -> None:
    """Standard output and standard error that go to files."""
    helpers(place)
    for name, data in sources().items():
        place.write(name, data)
    asked = [*(one for name in sources() for one in commands(name)), *WRONG]
    with concurrent.futures.ThreadPoolExecutor(2) as pool:
        told = pool.map(lambda words: place.ask(*words, may_write=str(place.folder / "out")), asked)
    for words, ended in zip(asked, told):
        for stream, text in (("standard output", ended.stdout), ("standard error", ended.stderr)):
            judge(place, f"{stream} of {[ascii(word) for word in words]}", text)
        place.count.add("Traceback" not in ended.stderr and ended.status in (0, 1, 2, 3), f"{words}: {ended}")


def at_terminal(place: audit.Place, words: Sequence[str]) -> str:
    """What a command writes to a terminal."""
    host, terminal = pty.openpty()
    child = subprocess.Popen([place.python, "-m", "sdtool.audit", *words], cwd=place.folder, stdin=subprocess.DEVNULL,
                             stdout=terminal, stderr=terminal, env={**place.environment, "SDTOOL_AUDIT_MAY_WRITE":
                                                                    str(place.folder / "out"), "TERM": "xterm"})
    os.close(terminal)
    written = b""
    while True:
        try:
            part = os.read(host, 1 << 16)
        except OSError:
            break
        if not part:
            break
        written += part
    child.wait(audit.SECONDS)
    os.close(host)
    return written.decode("utf-8", "replace").replace("\r\n", "\n")


def test_terminal(place: audit.Place) -> None:
    """The same on a terminal, where a table has colors and lines of its width."""
    helpers(place)
    for name, data in sources().items():
        place.write(name, data)
    for words in [*commands("names.csv"), *commands("names.ldif"), *WRONG[:4]]:
        judge(place, f"a terminal, {[ascii(word) for word in words]}",
              COLORS.sub("", at_terminal(place, [*words, "--no-bar"] if words[0] != "show" else words)))


def test_full(place: audit.Place) -> None:
    """Nobody hears what is said beside the report: it is the same, and its status too."""
    place.write("notes.csv", table_of([("Path", "Sddl"), *((f"d{at}", three(at)) for at in range(500))]))
    place.write("service.txt", f"\n{audit_service()}\n")
    for words in (("who", "change", "notes.csv"), ("who", "change", "service.txt"), ("risks", "notes.csv"),
                  ("diff", "notes.csv", "notes.csv"), ("inherit", "notes.csv"),
                  ("show", "notes.csv"), ("can", "S-1-1-0", "write", "notes.csv", "--to", "csv"),
                  ("risks", "notes.csv", "--to", "jsonl")):
        wanted = place.ask(*words)
        with open("/dev/full", "wb") as full:
            ended = subprocess.run([place.python, "-m", "sdtool.audit", *words], cwd=place.folder,
                                   stdin=subprocess.DEVNULL, stdout=subprocess.PIPE, stderr=full, env=place.environment,
                                   timeout=audit.SECONDS)
        place.expect((ended.returncode, ended.stdout.decode()), (wanted.status, wanted.stdout),
                     f"{words} with a full standard error; it says {wanted.stderr[:200]!r}")
        place.count.add(bool(wanted.stderr) or words[0] in ("diff", "inherit", "show"),
                        f"{words} says something: {wanted}")


# Calls that write no text of a source: help, rules and rights, and what passed `shown` before.
PLAIN = {("click.echo", "reading.format_help()"), ("click.echo", "f'{word}: {told}'"),
         ("click.echo", "f'{rule.name}: {rule.reason}'"),
         ("click.style", "shown(styled)"), ("print", "_INTERRUPTED"),
         ("print", "f\"sdtool-audit: the report isn't whole: {type(error).__name__}: {str(error)!r}\""),
         # These silence libraries, refuse a password that would be shown, and ask a server whether it is there.
         ("logging.disable", ""), ("warnings.filterwarnings", "'ignore'"), ("warnings.catch_warnings", ""),
         ("warnings.simplefilter", "'error'"), ("connection.echo", "")}


def calls(path: pathlib.Path) -> Iterator[Tuple[int, str, str]]:
    """The calls of a file: line, what is called, and with what first."""
    for node in ast.walk(ast.parse(path.read_text(encoding="utf-8"))):
        if isinstance(node, ast.Call):
            yield node.lineno, ast.unparse(node.func), ast.unparse(node.args[0]) if node.args else ""


def test_code(place: audit.Place) -> None:
    """Nothing but the two functions writes for people."""
    met = set()
    for path in sorted(CODE.rglob("*.py")):
        name = str(path.relative_to(CODE))
        for line, called, given in calls(path) if name not in WRITERS else ():
            if re.search(r"(?:^|\.)(?:echo|secho|style|print)\Z|^sys\.std(?:err|out)\.write|^(?:logging|warnings)\.",
                         called):
                met.add((called, given))
                place.count.add((called, given) in PLAIN, f"{name}, line {line}: {called}({given}) writes for people")
            elif name.startswith("reports/") and name not in FORMS and called.endswith("_file.write"):
                place.count.add(not re.sub(r"\{(?:escaped\(|shown\(|left:)|shown\(", "", given).count("{")
                                and "title" not in given or "escaped(" in given,
                                f"{name}, line {line}: {called}({given}) writes for people")
    place.expect(met, PLAIN, "what writes for people")


def main(count: preload.Count) -> None:
    audit.run_tests(count, (test_code, test_streams, test_terminal, test_full))
