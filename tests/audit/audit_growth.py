"""Tests that readers of sdtool-audit take time in proportion to a source. It doubles the length of each construct of
each reader, and refuses more than 2.3 times the instructions. Archives and compressed files are among them. Every
format has to have a construct, and so has each word for what is no object in it.

Valgrind's callgrind counts the instructions, also those in C. Of three lengths, each twice the one before, the second
step may add at most 2.3 times what the first one adds: twice is linear, four times is quadratic, and what any source
takes is in no step. Lengths are such that a copy of the whole source for each repetition is refused:
callgrind counts an instruction for each byte of a copy of 4 KB and more. Where that would take too long, lengths end at
a limit, and only what does more with each byte than copy it is seen. Nor is a copy for each megabyte that is read seen.
A step that adds more is tried with further doublings, since a limit of a reader may lie between two lengths.

It needs the library in out/lib or the one that SDTOOL_LIBRARY names, and Debian's valgrind.
"""
import base64
import bz2
import concurrent.futures
import functools
import gzip
import io
import itertools
import json
import lzma
import os
import pathlib
import shutil
import struct
import sys
import tarfile
import tempfile
import zipfile
from typing import Callable, Dict, List, NamedTuple, Set, Tuple, Union

import audit
import audit_sources
import counted_calls
import preload
from audit_sources import FR, HEAD, KEY, descriptor, hexed, packed, sddl, sds_of, tarred

MOST_FOR_EACH = 2.3  # twice the instructions are linear, four times are quadratic
JOBS = len(os.sched_getaffinity(0))  # side by side
FIRST = 50  # repetitions
SEEN = 0.6  # times the instructions of a repetition: so many bytes show a copy of all of them for each
LEAST_INSTRUCTIONS, MOST_INSTRUCTIONS = 1_000_000, 30_000_000  # of the longest source, if it adds what shorter ones do
LEAST_BYTES, MOST_BYTES = 1 << 14, 1 << 18
MORE = 2  # further doublings
NOISE = 50_000  # instructions, by which counts of what no length changes differ
B64 = base64.b64encode(descriptor(7)).decode()
SERVICE = audit_sources.service(1)
LOG = f"name: A\nenabled: true\nchannelAccess: {FR}\n"
ENTRY = f"dn: CN=a\nnTSecurityDescriptor:: {B64}\n"
FILE = f"# file: a\nsystem.ntfs_acl=0x{descriptor(1).hex()}\n"
BLOCK = audit_sources._block()
BLANKS = str.maketrans("01b", " _-")  # titles that are read as the same
KEYS = r"\EventLog\TaskCache\Tree\Services"
DELEGATION = f"msDS-AllowedToActOnBehalfOfOtherIdentity:: {B64}\n"
COLLECTED = '{"sdtool-collect": 1}\n', f'{{"Name":"a","Kind":"file","Sddl":"{FR}"}}\n'
FAILED = "Failed to open \\a: NT_STATUS_ACCESS_DENIED\n"
Made = Union[str, bytes]
# Reads a source, and gives its formats with their words for what is no object in it.
READ = """
import contextlib
from sdtool.audit.sources import opening, reading
from sdtool.audit.sources.options import SourceOptions

def call(path, format_name):
    accounts = []
    with contextlib.suppress(opening.OpeningFault):
        options = SourceOptions(format=format_name if format_name in reading.NAMES else None)
        for _ in reading.read(path, options, accounts=accounts):
            pass
    return [(one.format_name, word) for one in accounts for word in ("", *filter(one.nothing.get, one.nothing))]
"""


class Construct(NamedTuple):
    """What makes a source with a construct of a length. first is the least length, most the greatest."""

    make: Callable[[int], Made]
    first: int = FIRST
    most: int = 1 << 20


def repeated(front: str, unit: str, end: str = "") -> Construct:
    return Construct(lambda count: front + unit * count + end)


def numbered(front: str, unit: str, end: str = "") -> Construct:
    """The same with '%' in place of a number."""
    return Construct(lambda count: front + "".join(unit.replace("%", str(at)) for at in range(count)) + end)


def of_parts(name: str) -> Construct:
    """The objects of a source as audit_sources.py makes it."""
    return Construct(lambda count: "".join(part.text for part in audit_sources.MADE[name].make(count)))


def of_bytes(make: Callable[[int], Made], first: int = FIRST, most: int = 1 << 20) -> Construct:
    return Construct(make, first, most)


def element(inside: object) -> str:
    return json.dumps({"Path": "a", "Sddl": FR, "Inside": inside})


def text_of(count: int) -> str:
    return f"a\t{FR}\n" * count


def pax(count: int) -> bytes:
    """A tar archive whose member has so many fields in its extended head."""
    written = io.BytesIO()
    with tarfile.open(fileobj=written, mode="w", format=tarfile.PAX_FORMAT) as archive:
        head = tarfile.TarInfo("x")
        head.pax_headers = {f"SCHILY.xattr.user.{at}": "x" for at in range(count)}
        head.size = len(text_of(1))
        archive.addfile(head, io.BytesIO(text_of(1).encode()))
    return written.getvalue()


def streamed_zip(count: int) -> bytes:
    """A zip archive that was written to a pipe, so that sizes stand behind the members."""
    written = io.BytesIO()
    # type: ignore[arg-type]
    with zipfile.ZipFile(audit_sources.Streamed(written), "w", zipfile.ZIP_DEFLATED) as archive:
        for at in range(count):
            archive.writestr(str(at), text_of(1))
    return written.getvalue()


def with_fields(count: int) -> bytes:
    """A zip archive whose member has so many extra fields."""
    written = io.BytesIO()
    with zipfile.ZipFile(written, "w") as archive:
        head = zipfile.ZipInfo("x")
        head.extra = struct.pack("<HH", 0x4321, 0) * count
        archive.writestr(head, text_of(1))
    return written.getvalue()


def dump(count: int) -> str:
    """A dump of Samba with so many ACEs."""
    text = audit_sources.of_ndr(1)[0].text
    at = text.index("                    aces: struct")
    ace = text[at:].rstrip("\n") + "\n"
    return text[:at].replace("0x00000001 (1)", f"0x1 ({count})").replace("ARRAY(1)", f"ARRAY({count})") + ace * count


def wide(count: int) -> bytes:
    """A descriptor with so many ACEs."""
    whole = descriptor(7)
    head, ace = whole[:28], whole[28:]
    return head[:22] + (8 + count * len(ace)).to_bytes(2, "little") + count.to_bytes(2,
                                                                                     "little") + head[26:] + ace * count


def gapped_volume(count: int) -> bytes:
    """A volume with zeros between its entries."""
    body, filled = descriptor(7), b""
    for at in range(count):
        filled += struct.pack("<IIQI", audit_sources.hash_of(body), 256 + at, len(filled), 20 + len(body)) + body
        filled += bytes(-len(filled) % 16 + 16)
    return filled.ljust(0x40000, b"\0") * 2


def damaged_volume(count: int) -> bytes:
    data = bytearray(sds_of(count)[0])
    for at in range(0, len(data), 4096):
        data[at:at + 8] = b"\xff" * 8
    return bytes(data)


CONSTRUCTS: Dict[str, Dict[str, Construct]] = {
    "csv": {
        "rows": of_parts("csv"),
        "columns": Construct(lambda count: f"Path,Sddl{',x' * count}\n" + f"a,{FR}{',x' * count}\n" * 3),
        "blank lines": repeated(f"Path,Sddl\na,{FR}\n", "\n", f"b,{FR}\n"),
        "blank lines at the end": repeated(f"Path,Sddl\na,{FR}\n", "\n"),
        "blank lines first": repeated("", "\n", f"Path,Sddl\na,{FR}\n"),
        "titles": repeated(f"Path,Sddl\na,{FR}\n", f"Path,Sddl\na,{FR}\n"),
        "types": numbered("", "#TYPE a.b%\n", f"Path,Sddl\na,{FR}\n"),
        "types and short rows": Construct(lambda count: "".join(f"#TYPE a.b{at}\n" for at in range(count)) +
                                          f"Path,Sddl\na,{FR}\n" + "a\n" * count),
        "open quotation marks": repeated(f"Path,Sddl\na,{FR}\n", f'"a,{FR}\n'),
        "short rows": repeated(f"Path,Sddl\na,{FR}\n", "a\n"),
        "lines in a field": repeated(f"Path,Sddl\na,{FR}\n", f'"a\nb","{FR}"\n'),
        "a long field": repeated("Path,Sddl\n", "x", f",{FR}\n"),
        "quotation marks in a field": repeated('Path,Sddl\n"', '""', f'",{FR}\n'),
        "rivals": repeated("Path,Sddl,sd\n", f"a,{FR},{sddl(8)}\n"),
        "columns of descriptors": Construct(lambda count: f"Path{',sd' * count}\n" + f"a{f',{FR}' * count}\n" * 2),
        "columns and short rows": Construct(lambda count: f"Path,Sddl{',x' * count}\na,{FR}\n" + "a\n" * count),
        "names alone": repeated("Path,Sddl\n", "secret,\n"),
        "messages": repeated(f"Path,Sddl\na,{FR}\n", FAILED),
        "delimiters": repeated("", "sep=,\n", f"Path,Sddl\na,{FR}\n"),
        "levels of a name": repeated("Path,Sddl\nC:", "\\a", f",{FR}\n"),
        "levels of a directory": repeated('Path,Sddl\n"', "CN=a,", f'DC=b",{FR}\n'),
        "classes": repeated(f'dn,Sddl,objectClass\n"CN=a,DC=b",{FR},"', "top ", 'user"\n'),
        "hex in a field": repeated("Path,Sddl\na,01", "00", "\n"),
        "base64 in a field": repeated("Path,Sddl\na,AQ", "AAAA", "\n"),
        "separated hex in a field": repeated('Path,Sddl\na,"01', " 00", '"\n'),
        "a drawn table": repeated("|Path|Sddl|\n|---|---|\n", f"|a|{FR}|\n"),
        "rules of a table": repeated(f"Path|Sddl\n----+----\na|{FR}\n", "----+----\n")},
    "lines": {
        "lines": of_parts("lines"), "empty lines": repeated(FR + "\n", "\n", FR),
        "ACEs": repeated("O:BAG:SYD:", "(A;;FR;;;WD)", "\n"),
        "hex": repeated("", descriptor(7).hex() + "\n"), "base64": repeated("", B64 + "\n"),
        "digits": repeated("01", "00", "\n"),
        "separated digits": repeated("01", " 00", "\n"), "letters": repeated("AQ", "AAAA", "\n"),
        "messages": repeated(FR + "\n", FAILED), "quotation marks": repeated(FR + "\n", "'", "\n" + FR),
        "words": repeated(FR + "\n" + FR + "\n", "no descriptor\n"),
        "a long line": repeated(FR + "\n", "x", "\n" + FR), "blanks in a line": repeated(FR + "\nx", " ", "x\n" + FR),
        "parts in a line": repeated(FR + "\nx", " O:BAG:", "x\n" + FR),
        "marks in a line": repeated(FR + "\nx", ": \"'=", "x\n" + FR), "lines without a sign": repeated(
            "O:\n", "O:O:", f"\n{FR}")},
    "icacls": {
        "pairs": of_parts("icacls"), "names": numbered("", "a%\n", "b\nD:(A;;FR;;;WD)\n"),
        "ACLs": repeated("b\nD:(A;;FR;;;WD)\n", "D:(A;;FR;;;WD)\n"),
        "blank lines": repeated("", "\n", "a\nD:(A;;FR;;;WD)\n"),
        "levels of a name": repeated("C:", "\\a", "\nD:(A;;FR;;;WD)\n"),
        "ACEs": repeated("a\nD:", "(A;;FR;;;WD)", "\n"), "messages": repeated("a\nD:(A;;FR;;;WD)\n", FAILED)},
    "secedit": {
        "rows": of_parts("secedit"), "comments": repeated("[Unicode]\n", "; a\n"),
        "sections": repeated("", "[File Security]\n"),
        "blank lines": repeated("[Unicode]\n", "\n"), "settings": repeated("[Unicode]\n", "a=b\n"),
        "fields": repeated("[File Security]\n", '"a",', "\n"),
        "blanks in a field": repeated("[File Security]\na", " ", 'x",2,"D:"\n'),
        "quotation marks": repeated('[File Security]\n"', '""', '",2,"D:"\n'),
        "a setting of many parts": repeated("[Registry Values]\na=", "b,", "\n"),
        "a title and lines": Construct(lambda count: f"[Unicode]\n[{'a' * count}]\n" + "x,D:\n" * count)},
    "reg": {
        "keys": of_parts("reg"), "values of a key": numbered(f"{HEAD}[{KEY}]\n", f'"%SD"=hex:{hexed(7)}\n'),
        "other values": numbered(f"{HEAD}[{KEY}]\n", '"a%"="b"\n'),
        "lines of digits": repeated(f'{HEAD}[{KEY}]\n"Security"=hex:', "01,02,\\\n  ", "03\n"),
        "digits in a line": repeated(f'{HEAD}[{KEY}]\n"Security"=hex:', "01,", "01\n"),
        "lines of a text": Construct(lambda count: f'{HEAD}[{KEY}]\n"a"="' + "b\n" * count + '"\n', 200, 6_000),
        "open texts": repeated(f"{HEAD}[{KEY}]\n", '"a"="b\n'),
        "open digits": repeated(f"{HEAD}[{KEY}]\n", '"a"=hex:01,\\\n'),
        "comments": repeated(HEAD, "; a\n"), "blank lines": repeated(HEAD, "\n"),
        "heads": repeated("", HEAD.strip() + "\n"),
        "damaged lines": repeated(f"{HEAD}[{KEY}]\n", "a\n"),
        "digits alone": repeated(f"{HEAD}[{KEY}]\n", "  01,02,\\\n"),
        "backslashes": repeated(f'{HEAD}[{KEY}]\n"a"="', "\\\\", '"\n'),
        "a key": repeated(f"{HEAD}[HKEY_LOCAL_MACHINE", KEYS, f']\n"a"=hex:{hexed(7)}\n'),
        "a key and values": Construct(lambda count: HEAD + "[HKEY_LOCAL_MACHINE" + "\\a" * count + "]\n" + "".join(
            f'"SD{at}"=hex:{hexed(7)}\n' for at in range(count))),
        "a name": repeated(f'{HEAD}[{KEY}]\n"', '\\"', f'SD"=hex:{hexed(7)}\n')},
    "sc": {"services": repeated("", f"\n{SERVICE}\n"), "empty lines": repeated(f"\n{SERVICE}\n", "\n"),
           "ACEs": repeated("\nD:", "(A;;CCLCSWRPWPDTLOCRRC;;;SY)", "\n"),
           "letters of rights": repeated("\nD:(A;;", "CC", ";;;SY)\n")},
    "wevtutil": {
        "logs": of_parts("wevtutil"), "settings": repeated(LOG, "enabled: true\n"),
        "settings before a descriptor": repeated(
            LOG + "name: B\n", "enabled: true\n", f"channelAccess: {FR}\n"), "names": repeated(LOG, "name: B\n"),
        "descriptors": repeated(LOG, f"channelAccess: {FR}\n"), "blank lines": repeated(LOG, "\n"),
        "other lines": repeated(LOG, "xyz\n")},
    "ldif": {
        "entries": of_parts("bare ldif"), "a search": of_parts("ldif"), "records": of_parts("ldbsearch"),
        "a folded value": repeated("dn: CN=a\ncn: b", "\n " + "x" * 70, f"\nnTSecurityDescriptor: {FR}\n"),
        "a folded descriptor": repeated("dn: CN=a\nnTSecurityDescriptor:: AQAE", "\n AAAA"),
        "attributes": repeated(ENTRY, "cn: x\n"), "ranges": numbered(ENTRY, "member;range=%-%: CN=x\n"),
        "folded comments": repeated(
            f"# {'x' * 70}", f"\n {'y' * 60}", f"\n{ENTRY}"), "comments": repeated("", "# x\n", ENTRY),
        "comments in an entry": repeated(ENTRY, "# x\n"),
        "a dump": Construct(lambda count: "dn: CN=a\nnTSecurityDescriptor:" +
                            dump(count).replace("    security_descriptor:", "    NDR:", 1)),
        "dumps": Construct(lambda count: "".join(
            f"dn: CN=a{at}\nnTSecurityDescriptor:{dump(1).replace('    security_descriptor:', '    NDR:', 1)}\n"
            for at in range(count))),
        "references": repeated(ENTRY + "\n", "ref: ldap://example\n\n"),
        "lines of a reference": repeated(ENTRY + "\n", "ref: ldap://example\n"),
        "results": repeated(ENTRY + "\n", "# extended LDIF\nresult: 0 Success\n\n"),
        "versions": repeated("", "version: 1\n", ENTRY),
        "counts": repeated(ENTRY + "\n", "# numResponses: 1\n"),
        "first records": repeated(ENTRY + "\n", "# record 1\n\n# returned 1 records\n"),
        "blank lines": repeated("", "\n", ENTRY),
        "pages": repeated(ENTRY + "\n", "# pagedresults: cookie=AA==\nresult: 0\n\n"),
        "malformed lines": repeated(ENTRY, "x\n"), "blanks": repeated(ENTRY, " \n"),
        "names": repeated("", "dn: CN=a\n"), "levels of a name": repeated("dn: ", "CN=a,", f"DC=b\n{DELEGATION}"),
        "a name": repeated("dn: CN=", "a", f",DC=b\n{DELEGATION}"),
        "escapes in a name": repeated("dn: CN=", "\\,", f",DC=b\n{DELEGATION}"),
        "other descriptors": repeated(ENTRY, DELEGATION), "a name and other descriptors": Construct(
            lambda count: f"dn: CN={'a' * count}\n" + DELEGATION * count),
        "a descriptor": repeated("dn: CN=a\nnTSecurityDescriptor:: AQAE", "AAAA", "\n"),
        "classes": repeated(ENTRY, "objectClass: top\n"), "colons": repeated(ENTRY + "cn", ":", "\n"),
        "blanks in an attribute": repeated(ENTRY + "cn:", " ", "x\n"),
        "searches": repeated("search: 1\n", "# x\n\n", ENTRY)},
    "smbcacls": {
        "descriptors": of_parts("smbcacls"), "ACEs": repeated(BLOCK, "ACL:S-1-1-0:0/0x10/0x00120089\n"),
        "owners": repeated(BLOCK, "OWNER:S-1-1-0\n"),
        "controls": repeated(BLOCK, "CONTROL:0x8404\n"), "revisions": repeated("", "REVISION:1\n"),
        "shares": repeated("", f"[a]\n{BLOCK}"),
        "names of shares": repeated(BLOCK, "[a]\n"), "blank lines": repeated(BLOCK, "\n"),
        "other lines": repeated(BLOCK, "x\n")},
    "ndr": {
        "dumps": of_parts("ndr"), "ACEs": Construct(dump),
        "fields": repeated(audit_sources.of_ndr(1)[0].text.rstrip("\n") + "\n", "    size   : 1 (1)\n"),
        "blank lines": repeated(audit_sources.of_ndr(1)[0].text, "\n"),
        "other lines": repeated(audit_sources.of_ndr(1)[0].text, "x\n")},
    "dsacl": {
        "objects": of_parts("dsacl"), "names": repeated("", "descriptor for CN=a:\n"),
        "blank lines": repeated("descriptor for CN=a:\n", "\n"),
        "other lines": repeated("descriptor for CN=a:\n", "x\n"),
        "descriptors": repeated("descriptor for CN=a:\n", FR + "\n")},
    "getfattr": {
        "files": of_parts("getfattr"), "attributes": repeated(FILE, "user.x=0x00\n"),
        "descriptors": repeated(FILE, "system.ntfs_acl=0x01\n"),
        "blank lines": repeated("# file: a\n", "\n"),
        "comments and blank lines": repeated("# file: a\n", "# owner: x\n\n"),
        "comments": repeated("# file: a\n", "# owner: x\n"),
        "escapes": repeated("# file: ", "\\040", f"\nsystem.ntfs_acl=0x{descriptor(1).hex()}\n"),
        "other lines": repeated(FILE, "x\n"), "names": repeated("", "# file: a\n"),
        "digits": repeated("# file: a\nsystem.ntfs_acl=0x01", "00", "\n")},
    "json": {
        "elements": of_parts("json"), "elements in a line": of_parts("json in one line"), "a map": of_parts("map json"),
        "a list inside": of_parts("value json"),
        "members": numbered('[{"Path": "a", ', '"a%": 1, ', f'"Sddl": "{FR}"}}]'), "objects inside": Construct(
            lambda count: f"[{element([{'Path': str(at), 'Sddl': FR} for at in range(count)])}]"),
        "lists inside": Construct(lambda count: f"[{element([[1]] * count)}]"), "objects in objects": Construct(
            lambda count: f"[{element({str(at): {'Sddl': FR} for at in range(count)})}]"),
        "objects of objects": Construct(lambda count: json.dumps({str(at): {"Sddl": FR} for at in range(count)})),
        "levels": Construct(lambda count: '[{"Path": "a", "Sddl": "%s", "x": %s1%s}]' % (FR, '{"x": ' * count,
                                                                                         "}" * count), 20, 100),
        "lists of lists": Construct(lambda count: json.dumps([[{"Path": "a", "Sddl": FR}]] * count)),
        "names twice": Construct(lambda count: "{" + ", ".join(f'"C:\\\\{at % (count // 2)}": "{FR}"'
                                                               for at in range(count)) + "}"),
        "members twice": Construct(lambda count: "[{" + ", ".join(f'"s{bin(at % (count // 2)).translate(BLANKS)}d": 1'
                                                                  for at in range(count)) + "}]"),
        "texts": repeated("", f'{{"Path": "a", "Sddl": "{FR}"}}\n'),
        "a list of texts": repeated(f'["{FR}"', f', "{FR}"', "]"),
        "bytes": repeated('[{"Path": "a", "Sddl": [1', ",0", "]}]"),
        "classes": repeated(f'[{{"dn": "CN=a,DC=b", "Sddl": "{FR}", "objectClass": ["top"', ',"user"', "]}]"),
        "levels of a name": repeated('[{"Path": "C:', "\\\\a", f'", "Sddl": "{FR}"}}]'),
        "blanks before damaged elements": Construct(lambda count: "[\n" + f"{' ' * count}{{x}},\n" * 3 + "]"),
        "a long text": repeated('[{"Path": "', "x", f'", "Sddl": "{FR}"}}]'),
        "escapes": repeated('[{"Path": "', "\\u0041", f'", "Sddl": "{FR}"}}]'),
        "blanks": repeated("[", " ", f'{{"Path": "a", "Sddl": "{FR}"}}]'),
        "numbers": repeated(f'[{{"Path": "a", "Sddl": "{FR}", "x": [', "1,", "1]}]"),
        "a number": repeated("[", "1", "]"),
        "damaged elements": repeated("[\n", '{"Path": x},\n', "]"),
        "open elements": repeated("[\n", '{"Path": "a"\n', "]"),
        "open texts": repeated("[\n", '{"Path": "a\n', "]"), "marks in a damaged element": repeated(
            '[\n{"Path": "', '\\"', "\n]"), "open lists": repeated("[\n", "[\n"), "marks": repeated("[\n", '"', "]"),
        "empty lists": repeated("", "[]\n", f'{{"Path": "a", "Sddl": "{FR}"}}'),
        "empty objects": repeated("", "{}\n", f'{{"Path": "a", "Sddl": "{FR}"}}'),
        "members beside a list": numbered("{", '"a%": 1, ', f'"value": [{{"Path": "a", "Sddl": "{FR}"}}]}}'),
        "members before a list that is cut": numbered("{", '"a%": 1, ', f'"value": [{{"Path": "a", "Sddl": "{FR}"}}]'),
        "damaged members of a map": numbered(f'{{\n  "a": "{FR}",\n', '  "b%: 1,\n', f'  "c": "{FR}"\n}}'),
        "a name and objects inside": Construct(lambda count: json.dumps(
            [{"Path": "a" * 20 * count, "Sddl": FR, "Inside": [{"Sddl": FR}] * count}])),
        "a member and objects inside": Construct(lambda count: json.dumps(
            [{"Path": "a", "Sddl": FR, "a" * 20 * count: [{"Sddl": FR}] * count}])),
        "a member beside a list": Construct(lambda count: json.dumps(
            {"value": [], "a" * 20 * count: {str(at): {"Sddl": FR} for at in range(count)}})),
        "damaged elements behind a long one": Construct(
            lambda count: f'[\n{element("x" * 20 * count)},\n' + '{"Path": x},\n' * count + "]")},
    "collected": {
        "lines": repeated(COLLECTED[0], COLLECTED[1]), "blank lines": repeated(COLLECTED[0] + COLLECTED[1] * 2, "\n"),
        "a name": repeated(COLLECTED[0] + COLLECTED[1] + '{"Name":"', "a", '","Kind":"file","Sddl":"D:"}\n'),
        "the whole": Construct(lambda count: COLLECTED[0] + COLLECTED[1] * count + f'{{"Objects": {count}}}\n')},
    "jsonl": {
        "lines": of_parts("jsonl"), "members": numbered('{"Path": "a", ', '"a%": 1, ', f'"Sddl": "{FR}"}}\n' * 2),
        "empty lines": repeated(
            f'{{"Path": "a", "Sddl": "{FR}"}}\n' * 2, "\n"), "objects inside": Construct(
                lambda count: (element([{"Path": str(at), "Sddl": FR} for at in range(count)]) + "\n") * 2),
        "damaged lines": repeated(f'{{"Path": "a", "Sddl": "{FR}"}}\n', "{x}\n"),
        "levels": Construct(lambda count: f'{{"Path": "a", "Sddl": "{FR}"}}\n' * 2 + "[" * count + "]" * count + "\n")},
    "reg-query": {
        "keys": of_parts("reg query"), "values": repeated(f"{KEY}\n", "    a    REG_SZ    b\n"),
        "a value": repeated(f"{KEY}\n    SD    REG_BINARY    01", "00", "\n"),
        "blank lines": repeated(f"{KEY}\n", "\n"), "other lines": repeated(f"{KEY}\n", "x\n"),
        "blanks": repeated(f"{KEY}\n    a", " ", "x\n    a    REG_SZ    b\n"),
        "a key": repeated("HKEY_LOCAL_MACHINE", KEYS, "\n    SD    REG_BINARY    01\n"),
        "a key and values": Construct(lambda count: "HKEY_LOCAL_MACHINE" + "\\a" * count + "\n" +
                                      "    SD    REG_BINARY    01\n" * count)},
    "digits": {
        "blanks behind letters": repeated("AQ", " ", "!"), "line ends behind letters": repeated("AQ", "\n", "!"),
        "numbers": Construct(lambda count: " ".join(map(str, wide(count))) + "\n", 20, 200), "lines of hex": Construct(
            lambda count: "".join(f"{byte:02x}\n" for byte in wide(count)), 5, 200), "lines of base64": Construct(
                lambda count: base64.encodebytes(wide(count)).decode(), 20, 200)},
    "list": {
        "objects": of_parts("list"), "elements of YAML": of_parts("yaml"),
        "titles": numbered("Path : a\n", "x% : y\n", f"Sddl : {FR}\n"),
        "lines of a value": repeated(f"Path : a\nSddl : {FR}\nAccess : x\n", "         y\n"),
        "lines of a descriptor": repeated("Path : a\nSddl : O:BAG:SYD:", "(A;;FR;;;WD)\n       ", "\n"),
        "blank lines": repeated(f"Path : a\nSddl : {FR}\n", "\n"),
        "maps of YAML": repeated("", f"a b:\n  sddl: {FR}\n"),
        "a block of YAML": repeated("Path: a\nSddl: |\n  D:\n", "  (A;;FR;;;WD)\n"),
        "levels of a name": repeated("Path : C:", "\\a", f"\nSddl : {FR}\n"),
        "messages": repeated(f"Path : a\nSddl : {FR}\n\n", FAILED),
        "other lines": repeated(f"Path : a\nSddl : {FR}\n\n", "x\n"),
        "names alone": repeated(f"Path : a\nSddl : {FR}\n\n", "Path : b\nOwner : x\n\n"),
        "blanks in a line": repeated(f"Path : a\nSddl : {FR}\n\nx", " ", "y : z\n"),
        "letters in a line": repeated(f"Path : a\nSddl : {FR}\n\n", "x ", "\n")},
    "columns": {
        "rows": of_parts("columns"), "lines of a descriptor": repeated("Path Sddl\n---- ----\na    O:BAG:SYD:",
                                                                       "(A;;FR;;;WD)\n     ", "\n"),
        "columns": Construct(lambda count: f"Path Sddl{' x' * count}\n---- ----{' -' * count}\n"),
        "titles again": repeated(f"Path Sddl\n---- ----\na    {FR}\n", "Path Sddl\n---- ----\n"),
        "blank lines": repeated("Path Sddl\n---- ----\n", "\n"),
        "blank lines first": repeated("", "\n", f"Path Sddl\n---- ----\na    {FR}\n"),
        "lines first": repeated("", "x\n", f"Path Sddl\n---- ----\na    {FR}\n"), "columns and short rows": Construct(
            lambda count: f"Path Sddl{''.join(f' {at:6}' for at in range(count))}\n---- ----{' ------' * count}\n" +
            "a\n" * count)},
    "xml": {
        "objects": of_parts("xml"), "attributes": numbered("<a><o path='x' sddl='D:' ", "x%='' ", "/></a>"),
        "elements": repeated(f"<a><o><path>x</path><sddl>{FR}</sddl></o>", "<x>y</x>", "</a>"),
        "objects without names": repeated("<a>", f"<o><sddl>{FR}</sddl></o>", "</a>"),
        "objects below many elements": Construct(
            lambda count: "<a>" + "<x>y</x>" * count + f"<o><sddl>{FR}</sddl></o>" * count + "</a>"),
        "names before objects": repeated("<a>", "<o><path>x</path></o>", f"<o><path>y</path><sddl>{FR}</sddl></o></a>"),
        "blanks": Construct(lambda count: f"<a><o><path>x</path><sddl>{FR}</sddl></o>" + " " * count + "</a>", 300_000),
        "a text": repeated(f"<a><o><path>x</path><sddl>{FR}</sddl></o><x>", "y", "</x></a>"),
        "lines of a text": Construct(
            lambda count: f"<a><o><path>x</path><sddl>{FR}</sddl></o><x>" + "y\n" * count + "</x></a>", 150_000),
        "comments": repeated(f"<a><o><path>x</path><sddl>{FR}</sddl></o>", "<!-- x -->", "</a>"),
        "texts": repeated("", f"<o path='x' sddl='{FR}'/>\n"), "instructions": repeated(
            f"<a><o><path>x</path><sddl>{FR}</sddl></o>", "<?x?>", "</a>"),
        "sections": repeated(f"<a><o><path>x</path><sddl>{FR}</sddl></o><x>", "<![CDATA[x]]>", "</x></a>"),
        "values with one title": repeated("<a><o><path>x</path>", f"<sddl>{FR}</sddl>", "</o></a>"),
        "levels of a name": repeated("<a><o><path>C:", "\\a", f"</path><sddl>{FR}</sddl></o></a>"),
        "a name and objects": Construct(
            lambda count: f"<a><path>CN={'a' * 20 * count}</path>" + f"<o><sddl>{FR}</sddl></o>" * count + "</a>"),
        "a comment": repeated(f"<a><o><path>x</path><sddl>{FR}</sddl></o><!-- ", "x", " --></a>"),
        "entities": repeated(f"<a><o><path>x</path><sddl>{FR}</sddl></o><x>", "&amp;", "</x></a>"),
        "an attribute": repeated(f"<a><o><path>x</path><sddl>{FR}</sddl></o><x y='", "z ", "'/></a>"),
        "an open tag": repeated(f"<a><o><path>x</path><sddl>{FR}</sddl></o><x ", "y ", "")},
    "printed": {
        "objects of icacls": numbered("", "C:\\a% Everyone:(F)\n      BUILTIN\\Users:(R)\n"),
        "accounts": repeated("C:\\a Everyone:(F)\n", "     Everyone:(F)\n"),
        "objects of cacls": numbered("", "C:\\a% Everyone:F\n      BUILTIN\\Users:R\n"),
        "objects of SubInACL": numbered("", "+File C:\\a%\n/pace =everyone ACCESS_ALLOWED_ACE_TYPE-0x0\n"),
        "rows of Get-Acl": repeated("Path Owner\n---- -----\n", "a    b\\c  d\n"),
        "lines of dsacls": repeated("Access list:\n", "Allow Everyone  FULL CONTROL\n"),
        "a long line": repeated("C:\\a Everyone:(F)\nx", ":(F)", "x\n"),
        "objects of AccessChk": repeated("Accesschk v6\n\n", "C:\\a\n  RW Everyone\n"),
        "lines first": repeated("", "\n", "C:\\a\n  RW Everyone\n")},
    "sds": {
        "entries": of_bytes(lambda count: sds_of(count)[0], most=1600),
        "blocks": of_bytes(lambda count: sds_of(1, count)[0], 1),
        "damaged entries": of_bytes(damaged_volume, most=1600), "gaps": of_bytes(gapped_volume, most=1600),
        "zeros": of_bytes(lambda count: sds_of(1)[0][:0x40000] + bytes(count * 1000))},
    "binary": {"a descriptor": of_bytes(lambda count: descriptor(7) + bytes(count))},
    "zip": {
        "members": of_bytes(lambda count: packed([(str(at), text_of(1)) for at in range(count)]), 10),
        "members of a pipe": of_bytes(streamed_zip, 10),
        "a member": of_bytes(lambda count: packed([("x", text_of(count))])),
        "a stored member": of_bytes(lambda count: packed([("x", text_of(count))], zipfile.ZIP_STORED)),
        "a member of bzip2": of_bytes(lambda count: packed([("x", text_of(count))], zipfile.ZIP_BZIP2)),
        "a member of lzma": of_bytes(lambda count: packed([("x", text_of(count))], zipfile.ZIP_LZMA)),
        "folders": of_bytes(lambda count: packed([*((f"{at}/", "") for at in range(count)), ("x", text_of(1))])),
        "a long name": of_bytes(lambda count: packed([("x" * count, text_of(1))]), 200, 4000),
        "fields of a head": of_bytes(with_fields, most=1 << 13),
        "members in one that is stored": of_bytes(lambda count: packed(
            [("x.zip", packed([(str(at), text_of(1)) for at in range(count)]))], zipfile.ZIP_STORED), 10),
        "archives": of_bytes(lambda count: packed([("x", text_of(1))]) * count, 20)},
    "tar": {
        "members": of_bytes(lambda count: tarred([(str(at), text_of(1)) for at in range(count)]), 20),
        "a member": of_bytes(lambda count: tarred([("x", text_of(count))])),
        "a long name": of_bytes(lambda count: tarred([("x" * count, text_of(1))]), most=1 << 22),
        "long names": of_bytes(lambda count: tarred([(f"{'x' * 200}{at}", text_of(1)) for at in range(count)]), 10),
        "a name and lines": of_bytes(lambda count: tarred([("x" * count, f"{FR}\n" * count)]), 20),
        "fields of a head": of_bytes(pax),
        "zeros": of_bytes(lambda count: tarred([("x", text_of(1))]) + bytes(512 * count))},
    "compressed": {
        "gzip": of_bytes(lambda count: gzip.compress(text_of(count).encode())),
        "bzip2": of_bytes(lambda count: bz2.compress(text_of(count).encode())),
        "xz": of_bytes(lambda count: lzma.compress(text_of(count).encode())),
        "streams of gzip": of_bytes(lambda count: gzip.compress(text_of(1).encode()) * count),
        "streams of bzip2": of_bytes(lambda count: bz2.compress(text_of(1).encode()) * count, 20),
        "streams of xz": of_bytes(lambda count: lzma.compress(text_of(1).encode()) * count, 20),
        "zeros behind gzip": of_bytes(lambda count: gzip.compress(text_of(1).encode()) + bytes(count * 100)),
        "gzip in gzip": of_bytes(lambda count: gzip.compress(gzip.compress(text_of(count).encode(), 0))),
        "zeros in gzip": of_bytes(lambda count: gzip.compress(bytes(count * 1000)))},
    "text": {
        "UTF-16": of_bytes(lambda count: text_of(count).encode("utf-16")),
        "UTF-16, high byte first": of_bytes(lambda count: ("\ufeff" + text_of(count)).encode("utf-16-be")),
        "UTF-32": of_bytes(lambda count: text_of(count).encode("utf-32")),
        "lines that end with CR LF": of_bytes(lambda count: text_of(count).replace("\n", "\r\n")),
        "lines that end with CR": of_bytes(lambda count: text_of(count).replace("\n", "\r")),
        "marks at lines": of_bytes(lambda count: ("\ufeff" + text_of(1)) * count), "bytes that are no text": of_bytes(
            lambda count: text_of(2).encode() + b"\xff" * count + b"\n"),
        "NULs": of_bytes(lambda count: text_of(2).encode() + b"\0" * count + b"\n")},
}


class Taken(NamedTuple):
    """What a source of a length takes."""

    instructions: int
    size: int  # bytes of the source


class Growth:
    """What doubles constructs and has them read by a process that counts."""

    def __init__(self, counted: counted_calls.CountedCalls, folder: str) -> None:
        self._counted = counted
        self._path = pathlib.Path(folder) / "source"
        self.met: Set[Tuple[str, str]] = set()  # formats, and their words for what is no object

    def _taken(self, construct: Construct, format_name: str, length: int) -> Taken:
        made = construct.make(length)
        data = made.encode("utf-8", "surrogateescape") if isinstance(made, str) else made
        self._path.write_bytes(data)
        instructions, met = self._counted.call(str(self._path), format_name)
        self.met |= set(map(tuple, met))
        return Taken(instructions, len(data))

    @staticmethod
    def _longest(construct: Construct, first: Taken, second: Taken) -> int:
        """The longest of three lengths, by what the least one and its double take."""
        each, size = ((after - before) / construct.first for before, after in zip(first, second))
        length = 4 * construct.first
        while length * each < LEAST_INSTRUCTIONS or length * size < max(LEAST_BYTES, SEEN * each):
            length *= 2
            if length > construct.most or length * size > MOST_BYTES or length * each > MOST_INSTRUCTIONS:
                return length // 2
        return length

    def fault(self, format_name: str, name: str, construct: Construct) -> str:
        """What a construct takes beyond what its length gives reason for, or nothing."""
        taken = functools.lru_cache(None)(functools.partial(self._taken, construct, format_name))
        self._taken(construct, format_name, construct.first)  # what a process does once
        longest = self._longest(construct, taken(construct.first), taken(2 * construct.first))
        for length in [longest << more for more in range(1 + MORE) if not more or longest << more <= construct.most]:
            before, middle, after = (taken(length // part).instructions for part in (4, 2, 1))
            if after - middle <= MOST_FOR_EACH * max(middle - before, NOISE):
                return ""
        lengths, counts = f"{length // 4}, {length // 2} and {length}", f"{before:,}, {middle:,} and {after:,}"
        return f"{format_name}, {name} of {lengths}: {counts} instructions"


def main(count: preload.Count) -> None:
    count.most_shown = 100
    python = audit.python_with_packages()
    if not python or not shutil.which("valgrind"):
        print("skipped: no Python with click and rich (Debian: python3-click, python3-rich), or no command valgrind")
        return
    preload.go_on_in(python)
    chosen = [(format_name, name, construct) for format_name, constructs in CONSTRUCTS.items()
              for name, construct in constructs.items() if preload.is_chosen(f"{format_name}: {name}")]

    def judged(share: int) -> Tuple[List[str], Set[Tuple[str, str]]]:
        with tempfile.TemporaryDirectory() as folder, counted_calls.CountedCalls(python, READ, folder) as counted:
            growth = Growth(counted, folder)
            return [growth.fault(*one) for one in chosen[share::JOBS]], growth.met

    with concurrent.futures.ThreadPoolExecutor(JOBS) as pool:
        shares = list(pool.map(judged, range(JOBS)))
    for fault in itertools.chain(*(faults for faults, _ in shares)):
        count.add(not fault, fault)
    if not preload.ONLY:
        met = set().union(*(met for _, met in shares))
        os.environ["SDTOOL_LIBRARY"] = audit.LIBRARY
        sys.path.insert(0, counted_calls.PACKAGES)
        from sdtool.audit.sources import reading
        for one in reading.FORMATS:
            for word in ("", *one.nothing):
                count.add((one.name, word) in met, f"{one.name}: no construct has {word or 'an object'}")
