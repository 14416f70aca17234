"""Compares what sdtool-audit and the page read, in each form of a descriptor. What the page reads, sdtool-audit reads
too, the same descriptors under the same names. Where the page tells the kind of object, sdtool-audit never takes
another one, other than one that is told by a form with more in it. It needs click and rich, Node for the page, and the
library in out/lib or the one that SDTOOL_LIBRARY names.
"""
import base64
import json
import os
import pathlib
import shutil
import subprocess
import sys
from typing import Dict, List, NamedTuple, Optional, Tuple

import audit
import preload
from audit_sources import DOMAIN, FR, descriptor, sddl, service

SCRIPT = pathlib.Path(__file__).resolve().with_suffix(".mjs")
DIGITS = descriptor(7).hex()
B64 = base64.b64encode(descriptor(7)).decode()
DACL = f"D:AI(A;OICIID;FA;;;BA)(A;ID;FR;;;{DOMAIN}-7)"
KEY = "HKEY_LOCAL_MACHINE\\SYSTEM\\CurrentControlSet\\Services\\Spooler\\Security"


class Form(NamedTuple):
    """A text, the names and descriptors of its objects, and their kinds. A name is None where the text has none."""

    what: str
    text: str
    objects: Tuple[Tuple[Optional[str], str], ...]
    kind: str = "file"
    of_page: bool = True  # whether the page reads it


def folded(text: str, width: int, front: str) -> str:
    return ("\n" + front).join(text[at:at + width] for at in range(0, len(text), width))


def pairs(text: str) -> str:
    return " ".join(text[at:at + 2] for at in range(0, len(text), 2))


LISTED = ("Path   : Microsoft.PowerShell.Core\\FileSystem::C:\\Data\nOwner  : BUILTIN\\Administrators\nGroup  : NT "
          "AUTHORITY\\SYSTEM\nAccess : Everyone Allow  FullControl\n         BUILTIN\\Users Allow  ReadAndExecute, "
          "Synchronize\nAudit  : \n")
OF_DATA = "Microsoft.PowerShell.Core\\FileSystem::C:\\Data"
FORMS = [
    Form("SDDL", FR + "\n", ((None, FR),), "untold"),
    Form("SDDL of several", f"{FR}\n{sddl(8)}\n", ((None, FR), (None, sddl(8))), "untold"),
    Form("Get-Acl | Format-List", f"\n\n{LISTED}Sddl   : {FR}\n\n\n", ((OF_DATA, FR),), "path"),
    Form("Get-Acl | Format-List, broken at the width of a window",
         f"\n\n{LISTED}Sddl   : {folded(DACL.replace('D:', 'O:BAG:SYD:'), 40, '         ')}\n\n\n",
         ((OF_DATA, DACL.replace("D:", "O:BAG:SYD:")),), "path"),
    Form("Get-Acl | Format-List of two", f"\nPath : C:\\a b\nSddl : {FR}\n\nPath : C:\\c\nSddl : {sddl(8)}\n\n",
         (("C:\\a b", FR), ("C:\\c", sddl(8))), "path"),
    Form("Get-ScheduledTask | Format-List", f"\nTaskName : a\nSddl     : {FR}\n\nTaskName : b\nSddl     : {sddl(8)}\n",
         (("a", FR), ("b", sddl(8))), "untold"),
    Form("names behind descriptors", f"Sddl : {FR}\nPath : C:\\a\n\nSddl : {sddl(8)}\nPath : C:\\b\n",
         (("C:\\a", FR), ("C:\\b", sddl(8))), "path"),
    Form("a path that is broken", "".join(f"{title} : {folded(value, 16, '       ')}\n" for title, value in (
        ("Path", "C:\\a very long path"), ("Sddl", FR))), (("C:\\a very long path", FR),), "path"),
    Form("Get-Printer | Format-List", f"\nName           : Office\nPermissionSDDL : {FR}\n\n",
         (("Office", FR),), "printer"),
    Form("cacls /s", f'C:\\Data "{DACL}"\n', (("C:\\Data", DACL),), "path"),
    Form("cacls /s of two", f'C:\\a b "{DACL}"\nC:\\c "{DACL}"\n', (("C:\\a b", DACL), ("C:\\c", DACL)), "path"),
    Form("a name and SDDL", f"C:\\Data\\plan.txt {FR}\n", (("C:\\Data\\plan.txt", FR),), "path"),
    Form("a title and SDDL", f"Sddl : {FR}\n", ((None, FR),), "untold"),
    Form("SDDL in quotation marks", f'"{FR}"\n', ((None, FR),), "untold"),
    Form("SDDL in apostrophes", f"'{FR}'\n", ((None, FR),), "untold"),
    Form("icacls /save", f"Data\n{DACL}\nData\\a b.txt\n{DACL}\n", (("Data", DACL), ("Data\\a b.txt", DACL)), "untold"),
    Form("sc sdshow", f"\r\n{service(1)}\r\n", ((None, service(1)),), "service"),
    Form("wevtutil gl", f"name: Application\nenabled: true\nchannelAccess: {FR}\n", (("Application", FR),), "log"),
    Form("ldapsearch", f"dn: CN=Ann,DC=x\nnTSecurityDescriptor:: {folded(B64, 40, ' ')}\n\n",
         (("CN=Ann,DC=x", DIGITS),), "ds"),
    Form("AdFind", "\nAdFind V01.62.00cpp Joe Richards (support@joeware.net) October 2023\n\nUsing server: dc.x:389\n"
         f"Directory: Windows Server 2019 (10.0.17763.1)\n\ndn:CN=Ann,DC=x\n>objectClass: top\n>objectClass: user\n"
         f">nTSecurityDescriptor: {FR}\n\n\n1 Objects returned\n", (("CN=Ann,DC=x", FR),), "ds"),
    Form("reg export", f'Windows Registry Editor Version 5.00\n\n[{KEY}]\n'
         f'"Security"=hex:{folded(",".join(pairs(DIGITS).split()), 60, "  ").replace(chr(10), chr(92) + chr(10))}\n',
         ((KEY + "\\Security", DIGITS),), "service"),
    Form("reg query", f"\n{KEY}\n    Security    REG_BINARY    {DIGITS.upper()}\n\n",
         ((KEY + "\\Security", DIGITS),), "service"),
    Form("hex", DIGITS + "\n", ((None, DIGITS),), "untold"), Form("hex with 0x", f"0x{DIGITS}\n", (
        (None, DIGITS),), "untold"), Form("hex of PostgreSQL", f"\\x{DIGITS}\n", ((None, DIGITS),), "untold"),
    Form("hex of SQL", f"x'{DIGITS}'\n", ((None, DIGITS),), "untold"),
    Form("hex with blanks", pairs(DIGITS) + "\n", ((None, DIGITS),), "untold"),
    Form("hex in lines", folded(pairs(DIGITS), 48, "") + "\n", ((None, DIGITS),), "untold"),
    Form("hex with commas", pairs(DIGITS).replace(" ", ",") + "\n", ((None, DIGITS),), "untold"),
    Form("hex of C", ", ".join(f"0x{one}" for one in pairs(DIGITS).split()) + "\n", ((None, DIGITS),), "untold"),
    Form("decimal numbers", " ".join(map(str, descriptor(7))) + "\n", ((None, DIGITS),), "untold"),
    Form("decimal numbers in lines", "\n".join(map(str, descriptor(7))) + "\n", ((None, DIGITS),), "untold"),
    Form("base64", B64 + "\n", ((None, DIGITS),), "untold"),
    Form("base64 in lines", folded(B64, 32, "") + "\n", ((None, DIGITS),), "untold"),
    Form("Export-Csv", f'"Path","Sddl"\n"C:\\Data","{FR}"\n"C:\\a b","{sddl(8)}"\n',
         (("C:\\Data", FR), ("C:\\a b", sddl(8))), "path"),
    Form("ConvertTo-Json", json.dumps([{"Path": "C:\\Data", "Sddl": FR}], indent=2), (("C:\\Data", FR),), "path"),
    Form("titles behind those of descriptors", f'Sddl;Path\n"{FR}";C:\\a\n"{sddl(8)}";"C:\\b;c"\n',
         (("C:\\a", FR), ("C:\\b;c", sddl(8))), "path"),
    Form("ConvertTo-Json -Compress", json.dumps([{"Path": "C:\\Data", "Sddl": FR}, {"Path": "C:\\b", "Sddl": sddl(8)}]),
         (("C:\\Data", FR), ("C:\\b", sddl(8))), "path"),
    Form("lines of JSON", "".join(json.dumps({"TaskName": name, "Sddl": FR}) + "\n" for name in "ab"),
         (("a", FR), ("b", FR)), "untold"),
    Form("a task", f"<Task>\n  <RegistrationInfo>\n    <SecurityDescriptor>{DACL}</SecurityDescriptor>\n"
         "  </RegistrationInfo>\n</Task>\n", ((None, DACL),), "task"),
    Form("ConvertTo-Xml", '<?xml version="1.0"?>\n<Objects>\n<Object>\n<Property Name="Path">C:\\a</Property>\n'
         f'<Property Name="Sddl">{FR}</Property>\n</Object>\n</Objects>\n', (("C:\\a", FR),), "path"),
    Form("YAML", f"- path: C:\\Data\n  sddl: '{FR}'\n- path: C:\\c\n  sddl: '{sddl(8)}'\n",
         (("C:\\Data", FR), ("C:\\c", sddl(8))), "path"),
    Form("sqlite3 -line", f" path = C:\\Data\n sddl = {FR}\n\n", (("C:\\Data", FR),), "path"),
    Form("Markdown", f"| Path | Sddl |\n|---|---|\n| C:\\Data | {FR} |\n", (("C:\\Data", FR),), "path", of_page=False),
    Form("psql, expanded",
         f"-[ RECORD 1 ]---\npath | C:\\a\nsddl | {FR}\n-[ RECORD 2 ]---\npath | C:\\b\nsddl | {sddl(8)}\n\n",
         (("C:\\a", FR), ("C:\\b", sddl(8))), "path"),
    Form("psql, bytes", f" path |  sd  \n------+------\n C:\\a | \\x{DIGITS}\n(1 row)\n\n", (("C:\\a", DIGITS),),
         "path", of_page=False),
    Form("MySQL, one below the other", "*************************** 1. row ***************************\npath: C:\\a\n"
         f"sddl: {FR}\n1 row in set (0.00 sec)\n", (("C:\\a", FR),), "path", of_page=False),
    Form("a file of settings", f"[one]\npath=C:\\a\nsddl={FR}\n\n[C:\\b]\nsddl={sddl(8)}\n",
         (("C:\\a", FR), ("C:\\b", sddl(8))), "path", of_page=False),
    Form("a list of TOML",
         f"[[object]]\npath = 'C:\\a'\nsddl = '{FR}'\n\n[[object]]\npath = 'C:\\b'\nsddl = '{sddl(8)}'\n",
         (("C:\\a", FR), ("C:\\b", sddl(8))), "path"),
    Form("a map of YAML", f"a b:\n  sddl: {FR}\n'C:\\c':\n  sddl: {sddl(8)}\n", (("a b", FR), ("C:\\c", sddl(8))),
         "path untold", of_page=False),
    Form("AccessChk -L", f"C:\\Data\n  {FR}\nC:\\b\n  {sddl(8)}\n",
         (("C:\\Data", f"  {FR}"), ("C:\\b", f"  {sddl(8)}")), "path", of_page=False),
    Form("Get-SmbShare | Format-List", "\nName               : IPC$\nPath               : \n"
         f"SecurityDescriptor : {FR}\n\n", (("IPC$", FR),), "share"),
    Form("Format-Table", f"\nPath    Sddl\n----    ----\nC:\\Data {FR}\n\n", (("C:\\Data", FR),), "path",
         of_page=False)]


def bytes_or_text(form: str, text: str) -> str:
    """A descriptor for a comparison: digits in lower case, or SDDL."""
    return text.lower() if form == "hex" else base64.b64decode(text).hex() if form == "base64" else text


def read_by_audit(place: audit.Place) -> List[List[Tuple[str, str, str]]]:
    """Names, descriptors and kinds of each form as sdtool-audit reads them. Its report has the names; what is behind
    them, its readers."""
    from sdtool.audit.sources import reading
    from sdtool.audit.sources.options import SourceOptions
    files = [place.write(f"source{at}.txt", form.text) for at, form in enumerate(FORMS)]
    told: Dict[str, List[Tuple[str, bool]]] = {name: [] for name in files}
    for one in place.objects("who", "read", *files):
        told[one["source"]].append((one["name"], one["answer"] == "unknown"))
    found = []
    for name, form in zip(files, FORMS):
        items = [item._replace(name=item.name.replace(str(place.folder) + "/", ""))
                 for item in reading.read(str(place.folder / name), SourceOptions())]
        place.expect(told[name], [(item.name, not item.form) for item in items], f"{form.what}: what the report has")
        found.append([(item.name, bytes_or_text(item.form, item.text), item.kind) for item in items])
    return found


def read_by_page() -> List[Dict]:
    if not shutil.which("node"):
        print("skipped: node (Debian: nodejs)")
        return []
    ended = subprocess.run(["node", str(SCRIPT)], input=json.dumps([form.text for form in FORMS]), capture_output=True,
                           text=True, timeout=audit.SECONDS)
    return json.loads(ended.stdout)


def test_forms(place: audit.Place) -> None:
    """Each form, by both."""
    of_page = read_by_page() or [None] * len(FORMS)
    for form, page, got in zip(FORMS, of_page, read_by_audit(place)):
        place.expect([(None if wanted is None else name, text) for (name, text, _), (wanted, _) in zip(
            got, form.objects)], list(form.objects), f"{form.what}, by sdtool-audit: {got}")
        place.expect((len(got), {kind for _, _, kind in got}), (len(form.objects), set(form.kind.split())),
                     f"{form.what}: kinds")
        if page is None or not form.of_page:
            continue
        found = [bytes_or_text(one["form"], one["line"]) for one in page["descriptors"]]
        place.expect(found, [text for _, text in form.objects], f"{form.what}, by the page: {page}")
        # A value of the registry has its own name, without that of its key.
        names = [(one["name"], name or "") for one, (name, _) in zip(page["descriptors"], form.objects)]
        place.count.add(all(name == wanted or name and wanted.endswith("\\" + name) for name, wanted in names),
                        f"{form.what}, names by the page: {names}")
        place.count.add(page["kind"] in (None, form.kind) or (page["kind"], form.kind) in (
            ("folder", "file"), ("folder", "path")), f"{form.what}: a {page['kind']} by the page")


def main(count: preload.Count) -> None:
    os.environ["SDTOOL_LIBRARY"] = audit.LIBRARY
    sys.path.insert(0, str(audit.TOP / "python"))
    audit.run_tests(count, (test_forms,))
