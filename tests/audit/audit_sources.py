"""Tests that sdtool-audit loses no byte of a source: each belongs to an object, to what its format says is none, or to
an object that can't be read. Sources of every format are made here, with the objects that they have, and then damaged:
cut, bytes changed, lines dropped or doubled, one behind the other, in other encodings, compressed and packed. What is
expected is counted by what makes the source, never by what reads it. Lists that once lost or invented an object are
behind that. It needs click and rich, and the library in out/lib or the one that SDTOOL_LIBRARY names.
"""
import argparse
import base64
import bz2
import collections
import csv
import gzip
import io
import json
import lzma
import os
import pathlib
import random
import re
import struct
import subprocess
import sys
import tarfile
import tempfile
import threading
import time
import zipfile
from typing import Any, Callable, Dict, List, NamedTuple, Optional, Sequence, Tuple

import audit
import preload

TOP = pathlib.Path(__file__).resolve().parents[2]
READ, UNKNOWN = "read", "unknown"
DOMAIN = "S-1-5-21-1-2-3"
DAMAGES = 60  # of each kind, for each format
LONG = 20_000  # characters
MOST_SECONDS = 1.5  # of the processor, to read a list with such a text; lists of 20,000 lines take a third of that
TRIES = 3  # of what takes longer


class Object(NamedTuple):
    """An object of a source: its name, None where the format has no names, and its descriptor as the reader gives
    it."""

    name: Optional[str]
    text: str


class Part(NamedTuple):
    """A part of a source, with its objects. Damage to one that rules touches all behind it."""

    text: str
    objects: Tuple[Object, ...] = ()
    rules: bool = False


def sddl(number: int) -> str:
    return f"O:BAG:SYD:(A;;FR;;;{DOMAIN}-{number})"


def descriptor(number: int) -> bytes:
    """A self-relative descriptor whose one ACE is for the account of that number."""
    sid = struct.pack("<BB6s5I", 1, 5, b"\0\0\0\0\0\5", 21, 1, 2, 3, number)
    ace = struct.pack("<BBHI", 0, 0, 8 + len(sid), 0x120089) + sid
    acl = struct.pack("<BBHHH", 2, 0, 8 + len(ace), 1, 0) + ace
    return struct.pack("<BBHIIII", 1, 0, 0x8004, 0, 0, 0, 20) + acl


def of_csv(count: int) -> List[Part]:
    rows = [Part(f'"C:\\d\\{at}, x.txt","{sddl(at)}"\n', (Object(f"C:\\d\\{at}, x.txt", sddl(at)),))
            for at in range(count)]
    return [Part('"Path","Sddl"\n'), *rows]


def of_tsv(count: int) -> List[Part]:
    return [Part(f"d {at}\t{sddl(at)}\n", (Object(f"d {at}", sddl(at)),)) for at in range(count)]


def of_lines(count: int) -> List[Part]:
    return [Part(sddl(at) + "\n", (Object(None, sddl(at)),)) for at in range(count)]


def of_icacls(count: int) -> List[Part]:
    return [Part(f"Data\\{at}.txt\nD:AI(A;ID;FR;;;{DOMAIN}-{at})\n",
                 (Object(f"Data\\{at}.txt", f"D:AI(A;ID;FR;;;{DOMAIN}-{at})"),))
            for at in range(count)]


def of_secedit(count: int) -> List[Part]:
    rows = [Part(f'"%SystemRoot%\\{at}",2,"{sddl(at)}"\n', (Object(f"%SystemRoot%\\{at}", sddl(at)),))
            for at in range(count)]
    return [Part("[Unicode]\nUnicode=yes\n"), Part("[System Access]\nMinimumPasswordAge = 0\n"),
            Part("[File Security]\n", (), True), *rows, Part('[Version]\nsignature="$CHICAGO$"\nRevision=1\n')]


def of_reg(count: int) -> List[Part]:
    def key(at: int) -> Part:
        digits = ",".join(f"{byte:02x}" for byte in descriptor(at))
        name = f"HKEY_LOCAL_MACHINE\\SOFTWARE\\K{at}"
        text = (f'[{name}]\n"Text"="a \\"b\\""\n"Security"=hex:{digits[:60]}\\\n  {digits[60:]}\n'
                '"Number"=dword:00000001\n\n')
        return Part(text, (Object(f"{name}\\Security", descriptor(at).hex()),))
    return [Part("Windows Registry Editor Version 5.00\n\n"), *map(key, range(count))]


def service(number: int) -> str:
    """A descriptor as sc sdshow prints it."""
    return f"D:(A;;CCLCSWRPWPDTLOCRRC;;;SY)(A;;CCLCSWLOCRRC;;;{DOMAIN}-{number})"


def of_sc(count: int) -> List[Part]:
    return [Part(f"\n{service(at)}\n", (Object(None, service(at)),)) for at in range(count)]


def of_wevtutil(count: int) -> List[Part]:
    return [Part(f"name: Log {at}\nenabled: true\ntype: Admin\nchannelAccess: {sddl(at)}\nlogging:\n  maxSize: 1\n",
                 (Object(f"Log {at}", sddl(at)),)) for at in range(count)]


def _entry(at: int) -> Tuple[str, Object]:
    value = base64.b64encode(descriptor(at)).decode()
    return (f"dn: CN=u{at},DC=example\nobjectClass: user\nnTSecurityDescriptor:: {value[:40]}\n {value[40:]}\n",
            Object(f"CN=u{at},DC=example", descriptor(at).hex()))


def of_ldif(count: int) -> List[Part]:
    found = [_entry(at) for at in range(count)]
    return [Part("# extended LDIF\n#\n# LDAPv3\n\n"), *(Part(f"# u\n{text}\n", (one,)) for text, one in found),
            Part(f"# search result\nsearch: 2\nresult: 0 Success\n\n# numResponses: {count + 1}\n"
                 f"# numEntries: {count}\n")]


def of_bare_ldif(count: int) -> List[Part]:
    return [Part(f"{text}\n", (one,)) for text, one in map(_entry, range(count))]


def of_ldbsearch(count: int) -> List[Part]:
    entries = [Part(f"# record {at + 1}\ndn: CN=u{at}\nnTSecurityDescriptor: {sddl(at)}\n\n",
                    (Object(f"CN=u{at}", sddl(at)),))
               for at in range(count)]
    return [*entries, Part(f"# Referral\nref: ldap://example/DC=x\n\n# returned {count + 1} records\n"
                           f"# {count} entries\n# 1 referrals\n")]


def of_smbcacls(count: int) -> List[Part]:
    return [Part("REVISION:1\nCONTROL:0x8404\nOWNER:S-1-5-32-544\nGROUP:S-1-5-18\n"
                 f"ACL:{DOMAIN}-{at}:0/0x10/0x00120089\n", (Object(
                     None, f"O:S-1-5-32-544G:S-1-5-18D:AI(A;ID;0x00120089;;;{DOMAIN}-{at})"),)) for at in range(count)]


def of_ndr(count: int) -> List[Part]:
    text = """    security_descriptor: struct security_descriptor
        revision                 : SECURITY_DESCRIPTOR_REVISION_1 (1)
        type                     : 0x8004 (32772)
               1: SEC_DESC_DACL_PRESENT
               1: SEC_DESC_SELF_RELATIVE
        owner_sid                : *
            owner_sid                : S-1-5-32-544
        group_sid                : *
            group_sid                : S-1-5-18
        sacl                     : NULL
        dacl                     : *
            dacl: struct security_acl
                revision                 : SECURITY_ACL_REVISION_NT4 (2)
                size                     : 0x0034 (52)
                num_aces                 : 0x00000001 (1)
                aces: ARRAY(1)
                    aces: struct security_ace
                        type                     : SEC_ACE_TYPE_ACCESS_ALLOWED (0)
                        flags                    : 0x00 (0)
                               0: SEC_ACE_FLAG_OBJECT_INHERIT
                        size                     : 0x0024 (36)
                        access_mask              : 0x00120089 (1179785)
                        object                   : union security_ace_object_ctr(case 0)
                        trustee                  : {sid}

"""
    return [Part(text.replace("{sid}", f"{DOMAIN}-{at}"),
                 (Object(None, f"O:S-1-5-32-544G:S-1-5-18D:(A;;0x120089;;;{DOMAIN}-{at})"),))
            for at in range(count)]


def of_dsacl(count: int) -> List[Part]:
    return [Part(f"descriptor for CN=u{at},DC=x:\n{sddl(at)}\n", (Object(f"CN=u{at},DC=x", sddl(at)),))
            for at in range(count)]


def of_getfattr(count: int) -> List[Part]:
    return [Part(f"# file: mnt/{at}\\040x\nsystem.ntfs_acl=0x{descriptor(at).hex()}\nuser.other=\"x\"\n\n",
                 (Object(f"mnt/{at} x", descriptor(at).hex()),)) for at in range(count)]


def of_json(count: int) -> List[Part]:
    def element(at: int) -> Part:
        text = json.dumps({"Path": f"C:\\{at}", "Owner": "x", "Sddl": sddl(at)}, indent=2)
        return Part(text + (",\n" if at < count - 1 else "\n]\n"), (Object(f"C:\\{at}", sddl(at)),))
    return [Part("[\n", (), True), *map(element, range(count))]


def of_short_json(count: int) -> List[Part]:
    return [Part("["), *(Part(json.dumps({"Path": f"C:\\{at}", "Sddl": sddl(at)}) + (", " if at < count - 1 else "]"),
                              (Object(f"C:\\{at}", sddl(at)),))
                         for at in range(count))]


def of_map_json(count: int) -> List[Part]:
    members = [Part(f'  "C:\\\\{at}": "{sddl(at)}"' + (",\n" if at < count - 1 else "\n}\n"),
                    (Object(f"C:\\{at}", sddl(at)),)) for at in range(count)]
    return [Part("{\n", (), True), members[0]._replace(rules=True), *members[1:]]


def of_value_json(count: int) -> List[Part]:
    parts = of_json(count)
    return [Part('{"value": [\n', (), True), *parts[1:], Part(f', "Count": {count}}}\n')]


def of_jsonl(count: int) -> List[Part]:
    return [Part(json.dumps({"name": f"C:\\{at}", "descriptor": sddl(at)}) + "\n", (Object(f"C:\\{at}", sddl(at)),))
            for at in range(count)]


def of_list(count: int) -> List[Part]:
    return [Part(f"Path  : C:\\d {at}\nOwner : BA\nSddl  : {sddl(at)[:30]}\n        {sddl(at)[30:]}\n\n",
                 (Object(f"C:\\d {at}", sddl(at)),)) for at in range(count)]


def of_yaml(count: int) -> List[Part]:
    return [Part(f"- path: C:\\d {at}\n  sddl: '{sddl(at)}'\n", (Object(f"C:\\d {at}", sddl(at)),))
            for at in range(count)]


def of_columns(count: int) -> List[Part]:
    rows = [Part(f"{f'd {at}':7} {sddl(at)}\n", (Object(f"d {at}", sddl(at)),)) for at in range(count)]
    return [Part("Path    Sddl\n----    ----\n", (), True), *rows]


def of_reg_query(count: int) -> List[Part]:
    name = "HKEY_LOCAL_MACHINE\\SOFTWARE\\K"
    return [Part(f"\n{name}{at}\n    Text    REG_SZ    a b\n    Security    REG_BINARY    "
                 f"{descriptor(at).hex().upper()}\n", (Object(f"{name}{at}\\Security", descriptor(at).hex()),))
            for at in range(count)]


def of_xml(count: int) -> List[Part]:
    rows = [Part(f"<Object>\n  <Property Name=\"Path\">C:\\d {at}</Property>\n"
                 f"  <Property Name=\"Sddl\">{sddl(at)}</Property>\n</Object>\n",
                 (Object(f"C:\\d {at}", sddl(at)),)) for at in range(count)]
    return [Part("<Objects>\n", (), True), *rows, Part("</Objects>\n")]


class Made(NamedTuple):
    """What makes a source of a format. ends says whether the format has an end; resumes, whether it is read behind
    damage; is_short, whether an object is in one line among others that aren't missed."""

    make: Callable[[int], List[Part]]
    format: str
    ends: bool = False
    resumes: bool = True
    is_short: bool = False


MADE = {"csv": Made(of_csv, "csv"), "tsv": Made(of_tsv, "csv"), "lines": Made(of_lines, "lines"),
        "icacls": Made(of_icacls, "icacls"),
        "secedit": Made(of_secedit, "secedit"), "reg": Made(of_reg, "reg"), "sc": Made(of_sc, "sc"),
        "wevtutil": Made(of_wevtutil, "wevtutil"), "ldif": Made(of_ldif, "ldif", True),
        "bare ldif": Made(of_bare_ldif, "ldif"),
        "ldbsearch": Made(of_ldbsearch, "ldif", True), "smbcacls": Made(of_smbcacls, "smbcacls"),
        "ndr": Made(of_ndr, "ndr"),
        "dsacl": Made(of_dsacl, "dsacl"), "getfattr": Made(of_getfattr, "getfattr"),
        "json": Made(of_json, "json", True),
        "json in one line": Made(of_short_json, "json", True, False),
        "value json": Made(of_value_json, "json", True), "map json": Made(of_map_json, "json", True),
        "jsonl": Made(of_jsonl, "jsonl"),
        "list": Made(of_list, "list"), "yaml": Made(of_yaml, "list"), "columns": Made(of_columns, "columns"),
        "reg query": Made(of_reg_query, "reg-query", is_short=True),
        "xml": Made(of_xml, "xml", True, False)}


class Found(NamedTuple):
    """What was read: objects with their names and descriptors, the reasons of others, and whether all bytes are
    accounted for."""

    objects: List[Object]
    unknown: List[Tuple[str, str]]
    is_whole: bool
    fault: str = ""


class Place:
    def __init__(self, folder: str, count: preload.Count, seed: int) -> None:
        self.folder, self.count, self.seed = pathlib.Path(folder), count, seed

    def read(self, data, name: str = "source", **options) -> Found:
        from sdtool.audit.sources import reading
        from sdtool.audit.sources.options import SourceOptions
        path = self.folder / name
        path.write_bytes(data if isinstance(data, bytes) else data.encode("utf-8", "surrogateescape"))
        accounts: list = []
        try:
            items = list(reading.read(str(path), SourceOptions(**options), accounts=accounts))
        except Exception as error:
            return Found([], [], False, f"{type(error).__name__}: {error}")
        short = [item._replace(name=item.name.replace(str(path), name)) for item in items]
        return Found([Object(item.name, item.text) for item in short if item.form],
                     [(item.name, item.text) for item in short if not item.form], all(one.is_whole for one in accounts))

    def write(self, text: str) -> None:
        (self.folder / "list").write_text(text)

    def expect(self, got, wanted, what: str) -> None:
        self.count.add(got == wanted, f"{what}\n  got    {got!r}\n  wanted {wanted!r}")

    def answers(self, what: str, data, wanted: Sequence[Tuple[str, str]], **options) -> None:
        """Expects these names, each with whether its object is read."""
        found = self.read(data, **options)
        got = [*((one.name, READ) for one in found.objects), *((name, UNKNOWN) for name, _ in found.unknown)]
        self.count.add(collections.Counter(got) == collections.Counter(wanted) and found.is_whole and not found.fault,
                       f"{what}\n  got    {got!r} {found.unknown!r} {found.fault}\n  wanted {list(wanted)!r}")

    def says(self, what: str, data, count: int, *words: str, reads: int = 0, **options) -> None:
        """Expects so many objects that can't be read, with words in their reasons or help, and so many that can."""
        from sdtool.audit.sources import reading
        from sdtool.audit.sources.options import SourceOptions
        path = self.folder / "source"
        path.write_bytes(data if isinstance(data, bytes) else data.encode("utf-8", "surrogateescape"))
        items = list(reading.read(str(path), SourceOptions(**options)))
        told = " ".join(f"{item.name} {item.text} {item.help}" for item in items if not item.form)
        got = (sum(not item.form for item in items), sum(bool(item.form) for item in items),
               [word for word in words if word not in told])
        self.count.add(got == (count, reads, []), f"{what}: {got} of {(count, reads)}\n  {told}")


def known(objects: Sequence[Object]) -> "collections.Counter":
    """Objects for a comparison: the formats without names have None."""
    return collections.Counter(objects)


def without_names(found: Sequence[Object], like: Sequence[Object]) -> List[Object]:
    return [Object(None, one.text) for one in found] if like and like[0].name is None else list(found)


def objects_of(parts: Sequence[Part]) -> List[Object]:
    return [one for part in parts for one in part.objects]


def test_whole(place: Place) -> None:
    """Sources without damage, in each encoding, compressed, packed and one behind the other."""
    encodings: Dict[str, Callable[[str], bytes]] = {
        "utf-8": str.encode, "CR LF": lambda text: text.replace("\n", "\r\n").encode(),
        "utf-8 with a mark": lambda text: b"\xef\xbb\xbf" + text.encode(),
        "utf-16-le": lambda text: b"\xff\xfe" + text.encode("utf-16-le"),
        "utf-16-be": lambda text: b"\xfe\xff" + text.encode("utf-16-be"),
        "utf-16-le without a mark": lambda text: text.encode("utf-16-le"),
        "utf-32": lambda text: text.encode("utf-32"), "gzip": lambda text: gzip.compress(text.encode()),
        "bzip2": lambda text: bz2.compress(text.encode()), "xz": lambda text: lzma.compress(text.encode()),
        "two of gzip": lambda text: gzip.compress(text[:500].encode()) + gzip.compress(text[500:].encode()),
        "two of xz": lambda text: lzma.compress(text[:500].encode()) + bytes(8) + lzma.compress(text[500:].encode()),
        "zip": lambda text: packed([("x", text)]), "stored": lambda text: packed([("x", text)], zipfile.ZIP_STORED),
        "zip of bzip2": lambda text: packed([("x", text)], zipfile.ZIP_BZIP2),
        "zip of lzma": lambda text: packed([("x", text)], zipfile.ZIP_LZMA),
        "zip in zip": lambda text: packed([("x", packed([("y", text)]))]), "tar": lambda text: tarred([("x", text)]),
        "tar.gz": lambda text: gzip.compress(tarred([("x" * 150, text)]))}
    for name, made in MADE.items():
        for count in (1, 2, 7, 40):
            parts = made.make(count)
            text, wanted = "".join(part.text for part in parts), objects_of(parts)
            for encoding, encode in encodings.items():
                if count < 7 and encoding not in ("utf-8", "CR LF", "utf-16-le"):
                    continue
                found = place.read(encode(text))
                expect_all(place, found, wanted, f"{name}, {count} objects, {encoding}")
        two = [*made.make(9), *made.make(9)]
        found = place.read("".join(part.text for part in two))
        expect_all(place, found, objects_of(two), f"{name}, two one behind the other")


def expect_all(place: Place, found: Found, wanted: Sequence[Object], what: str) -> None:
    got = known(without_names(found.objects, wanted))
    place.count.add(got == known(wanted) and not found.unknown and found.is_whole and not found.fault,
                    f"{what}: lost {list((known(wanted) - got).elements())[:3]}, invented "
                    f"{list((got - known(wanted)).elements())[:3]}, unknown {found.unknown[:3]}, {found.is_whole} "
                    f"{found.fault}")


def packed(members: Sequence[Tuple[str, object]], method: int = zipfile.ZIP_DEFLATED) -> bytes:
    written = io.BytesIO()
    with zipfile.ZipFile(written, "w", method) as archive:
        for name, data in members:
            archive.writestr(name, data if isinstance(data, bytes) else str(data).encode())
    return written.getvalue()


def tarred(members: Sequence[Tuple[str, str]], form: int = tarfile.GNU_FORMAT) -> bytes:
    written = io.BytesIO()
    with tarfile.open(fileobj=written, mode="w", format=form) as archive:
        for name, text in members:
            head = tarfile.TarInfo(name)
            head.size = len(text.encode())
            archive.addfile(head, io.BytesIO(text.encode()))
    return written.getvalue()


def line_starts(text: str) -> List[int]:
    return [0, *(at + 1 for at, one in enumerate(text) if one == "\n" and at + 1 < len(text))]


class Damage(NamedTuple):
    """A damaged text, and the places of the text that the damage touches, from one to the one behind it."""

    text: str
    begin: int
    end: int


def damages(text: str, chance: random.Random) -> Dict[str, Damage]:
    starts = [*line_starts(text), len(text)]
    at = chance.randrange(len(text))
    line = chance.randrange(len(starts) - 1)
    begin, end = starts[line], starts[line + 1]
    other = chance.choice("\0\n\t\"',:;=[]{}()x0 #\\é")
    return {"cut": Damage(text[:at], at, len(text)), "byte": Damage(text[:at] + other + text[at + 1:], at, at + 1),
            "dropped": Damage(text[:begin] + text[end:], begin, end),
            "doubled": Damage(text[:end] + text[begin:end] + text[end:], begin, end)}


def test_damage(place: Place) -> None:
    """No byte of a damaged source is unaccounted for, and no object of an undamaged part is lost or invented."""
    for name, made in MADE.items():
        chance = random.Random(f"{place.seed} {name}")
        for number in range(DAMAGES):
            parts = made.make(chance.choice((3, 8, 20)))
            text = "".join(part.text for part in parts)
            for kind, damage in damages(text, chance).items():
                found = place.read(damage.text, format=made.format)
                expect_undamaged(place, found, parts, damage, made, f"{name}, {kind} {number}")
                guessed = place.read(damage.text)
                missing = known(objects_of(parts)) - known(without_names(guessed.objects, objects_of(parts)))
                quiet = kind in ("byte", "dropped", "doubled") and missing and not guessed.unknown and \
                    len(guessed.objects) < len(objects_of(parts)) - 1
                place.count.add(guessed.is_whole and not guessed.fault and not quiet,
                                f"{name}, {kind} {number}, without --format: {guessed.fault} {guessed.is_whole} "
                                f"{missing}\n{damage.text[:300]!r}")


def test_damaged_bytes(place: Place) -> None:
    """Bytes of UTF-16 that are cut, dropped or doubled: what stands before is read, and what is behind is never passed
    over."""
    for name, made in MADE.items():
        chance = random.Random(f"{place.seed} {name}")
        for number in range(DAMAGES // 3):
            parts = made.make(chance.choice((3, 8, 20)))
            text = "".join(part.text for part in parts)
            for encoding, mark in (("utf-16-le", b"\xff\xfe"), ("utf-16-be", b"\xfe\xff")):
                data = text.encode(encoding)
                at = chance.randrange(len(data))
                for what, damaged in (("cut", data[:at]), ("dropped", data[:at] + data[at + 1:]),
                                      ("doubled", data[:at] + data[at:at + 1] + data[at:]),
                                      ("other", data[:at] + bytes([data[at] ^ chance.randrange(1, 256)]) +
                                       data[at + 1:])):
                    found = place.read(mark + damaged, format=made.format)
                    end, before = 0, []
                    for part in parts:
                        end += 2 * len(part.text)
                        before += part.objects if end + 200 < at and not part.rules else ()
                    got = known(without_names(found.objects, objects_of(parts)))
                    lost = known(before) - got
                    gone = known(objects_of(parts)) - got
                    place.count.add(found.is_whole and not found.fault and not lost
                                    and (what == "cut" or len(gone) <= 2 or bool(found.unknown)),
                                    f"{name}, {encoding}, {what} {number} at {at} of {len(data)}: lost "
                                    f"{list(lost)[:2]}, gone {len(gone)}, {found.fault}")


def expect_undamaged(place: Place, found: Found, parts: Sequence[Part], damage: Damage, made: Made, what: str) -> None:
    # The line end between two parts belongs to both.
    at, far, touched = 0, [], []
    for part in parts:
        is_touched = (damage.begin - 1 <= at + len(part.text) and at <= damage.end
                      or any(one.rules for _, one in touched))
        (touched if is_touched else far).append((at, part))
        at += len(part.text)
    undamaged = objects_of([part for start, part in far if start < damage.begin or made.resumes])
    got = known(without_names(found.objects, objects_of(parts)))
    lost = known(undamaged) - got
    invented = got - known(objects_of(parts))
    most = max(1, len(objects_of([part for _, part in touched])))
    place.count.add(found.is_whole and not found.fault and not lost
                    and sum(invented.values()) <= most + ("\n" in damage.text[damage.begin:damage.end]),
                    f"{what}: lost {list(lost)[:3]}, invented {list(invented)[:3]}, {found.is_whole} {found.fault}\n"
                    f"  {found.unknown[:3]}\n  {damage.text[max(0, damage.begin - 120):damage.begin + 120]!r}")
    gone = known(objects_of(parts)) - got
    is_cut = damage.end == len("".join(part.text for part in parts)) and damage.begin < len(
        damage.text) + 1 and damage.text == "".join(
        part.text for part in parts)[:damage.begin]
    if is_cut and made.ends and damage.text.strip() and at > len(damage.text) + 1:
        # What the last lines of a search say beside its end may be cut without a loss.
        is_lost = bool(gone) or not made.resumes and bool(damage.text)
        place.count.add(bool(found.unknown) or not is_lost,
                        f"{what}: a cut that is not told: {gone}\n  {damage.text[-200:]!r}")
    elif not is_cut and len(damage.text) < at:  # nobody can tell that a part is gone of which no line is left
        gone -= known(objects_of([part for start, part in touched if damage.begin <= start
                                  and start + len(part.text) <= damage.end]))
        place.count.add(not gone or bool(found.unknown) or bool(invented) or made.is_short,
                        f"{what}: gone without a word: {list(gone)[:3]}")


def sds_of(count: int, blocks: int = 1) -> Tuple[bytes, List[Object]]:
    """A stream of an NTFS volume, each block twice, with count descriptors in each block."""
    data, objects, number = b"", [], 256
    for block in range(blocks):
        start, filled = block * 0x80000, b""
        for at in range(count):
            body = descriptor(number)
            filled += struct.pack("<IIQI", hash_of(body), number, start + len(filled), 20 + len(body)) + body
            filled += bytes(-len(filled) % 16)
            objects.append(Object(f"security id {number}", body.hex()))
            number += 1
        data += filled.ljust(0x40000, b"\0") + (filled if block == blocks - 1 else filled.ljust(0x40000, b"\0"))
    return data, objects


def hash_of(data: bytes) -> int:
    found = 0
    for word, in struct.iter_unpack("<I", data):
        found = (word + ((found << 3 | found >> 29) & 0xffffffff)) & 0xffffffff
    return found


def test_volume(place: Place) -> None:
    """$SDS: an entry that is damaged in one copy is read from the other, and what is damaged in both is one unknown."""
    data, wanted = sds_of(5, 2)
    expect_all(place, place.read(data), wanted, "a volume")
    size = -(-(20 + len(descriptor(0))) // 16) * 16
    for what, begin, end in (("head", size, size + 8), ("id", size + 4, size + 8), ("whole entry", size, 2 * size),
                             ("block", 0, 0x40000),
                             ("descriptor", size + 20, size + 30), ("first head", 0, 20), ("copy", 0x40000, 0x80000)):
        damaged = data[:begin] + bytes(end - begin) + data[end:]
        expect_all(place, place.read(damaged, format="sds"), wanted, f"a volume with a {what} of zeros in one copy")
    both = data[:size] + bytes(size) + data[2 * size:0x40000 + size] + bytes(size) + data[0x40000 + 2 * size:]
    found = place.read(both)
    place.expect((known(wanted) - known(found.objects), len(found.unknown), found.is_whole),
                 (known(wanted[1:2]), 1, True), "a volume with an entry of zeros in both copies")
    chance = random.Random(place.seed)
    one, objects = sds_of(6)
    for number in range(DAMAGES):
        cut = chance.randrange(20, len(one))
        found = place.read(one[:cut], format="sds")
        lost = known(objects) - known(found.objects)
        place.count.add(found.is_whole and not found.fault and bool(found.unknown),
                        f"a volume cut at {cut}: {found.unknown} {lost}")
        at = chance.randrange(0, 6 * size)
        damaged = one[:at] + bytes([one[at] ^ 0x41]) + one[at + 1:]
        found = place.read(damaged, format="sds")
        place.expect((known(objects) - known(found.objects), found.unknown, found.is_whole), (known([]), [], True),
                     f"a volume with another byte at {at}")
    head = place.read(one[:6 * size], format="sds")
    place.expect((known(head.objects), len(head.unknown)), (known(objects), 1),
                 "a volume that ends with its first entries")


def test_bytes(place: Place) -> None:
    """Files of one descriptor."""
    expect_all(place, place.read(descriptor(7)), [Object("source", descriptor(7).hex())], "a file of bytes")
    place.says("two descriptors in a file", descriptor(7) + descriptor(8), 1, "second descriptor")
    for at in range(20, len(descriptor(7))):
        found = place.read(descriptor(7)[:at])
        place.count.add(found.is_whole and len(found.objects) + len(found.unknown) == 1,
                        f"a descriptor cut at {at}: {found}")
    three = bytearray(descriptor(7))
    three[20] = 3
    for text in (three.hex(), base64.b64encode(three).decode()):
        expect_all(place, place.read(f"a\t{text}\n"), [Object("a", descriptor(7).hex())],
                   "an ACL of revision 3 in a table")
    expect_all(place, place.read(bytes(three)), [Object("source", descriptor(7).hex())], "an ACL of revision 3")
    compound = bytearray(three)
    compound[28] = 4
    expect_all(place, place.read(bytes(compound)), [Object("source", bytes(compound).hex())], "a compound ACE")


def _block(number: int = 1) -> str:
    return f"REVISION:1\nCONTROL:0x8404\nOWNER:S-1-5-32-544\nGROUP:S-1-5-18\nACL:{DOMAIN}-{number}:0/0x10/0x00120089\n"


def hexed(number: int) -> str:
    return ",".join(f"{byte:02x}" for byte in descriptor(number))


FR = sddl(7)
B64 = base64.b64encode(descriptor(7)).decode()
HEAD = "Windows Registry Editor Version 5.00\n\n"
KEY = "HKEY_LOCAL_MACHINE\\A"


def test_titles(place: Place) -> None:
    """A row is titles only where a title is known, or words name it."""
    place.answers("a first row without a descriptor", f"secret.txt\t\nb\t{FR}\n",
                  [("secret.txt", UNKNOWN), ("b", READ)])
    place.answers("a first row that says so", f"secret.txt\tdenied\nb\t{FR}\n", [("secret.txt", UNKNOWN), ("b", READ)])
    place.says("a line that may be titles", f'Ordner;Rechte\na;"{FR}"\n', 1, "--header", reads=1, format="csv")
    place.answers("a file of the name of a title", f"file1\t\nb\t{FR}\n", [("file1", UNKNOWN), ("b", READ)])
    place.answers("a name like a title", f"key\t\nb\t{FR}\n", [("key", UNKNOWN), ("b", READ)])
    place.answers("titles by words", f"x,y\na,{FR}\n", [("a", READ)], descriptor_column="y")
    place.answers("titles of one column", f"Sddl\n{FR}\n", [("source:2", READ)], format="csv")
    all_columns = ("PSPath", "PSChildName", "Path", "Owner", "Access", "Sddl", "AccessToString", "AuditToString")
    row = ("x::C:\\a", "a", "x::C:\\a", "BA", "System.Security.AccessControl.FileSystemAccessRule", FR,
           "Everyone Allow  Read\nBA Allow", "")
    text = "".join(",".join(f'"{cell}"' for cell in cells) + "\r\n" for cells in (all_columns, row))
    place.answers("Get-Acl | Export-Csv with all columns", text, [("x::C:\\a", READ)])
    place.answers("the same with its type", "#TYPE System.Security.AccessControl.FileSecurity\r\n" + text,
                  [("x::C:\\a", READ)])
    place.answers("titles again", f"Path,Sddl\na,{FR}\nPath,Sddl\nb,{FR}\n", [("a", READ), ("b", READ)])
    place.answers("a mark of UTF-8 in the middle",
                  b"\xef\xbb\xbfPath,Sddl\na," + FR.encode() + b"\n\xef\xbb\xbfPath,Sddl\nb," + FR.encode(),
                  [("a", READ), ("b", READ)])
    place.answers("blank lines before titles", f"\n\nPath,Sddl\na,{FR}\n", [("a", READ)])
    place.answers("a blank line behind a type", f"#TYPE a.b\n\nPath,Sddl\na,{FR}\n", [("a", READ)])
    place.answers("a malformed line before titles", f'"x\nPath,Sddl\na,{FR}\nb,{FR}\n',
                  [('"x', UNKNOWN), ("a", READ), ("b", READ)])
    place.answers("a title without a list", "Path,Sddl\n", [("source", UNKNOWN)])
    place.answers("a line before titles", f"# of Monday\nPath,Sddl\na,{FR}\nb,{FR}\n",
                  [("# of Monday", UNKNOWN), ("a", READ), ("b", READ)])
    place.answers("titles with an empty one", f"Path,Sddl,\na,{FR},\nb,{FR},\n", [("a", READ), ("b", READ)])
    place.answers("one column under its title", f'"Sddl"\n"{FR}"\n"{FR}"\n', [("source:2", READ), ("source:3", READ)])
    for name in ("two\nlines", "\nlead", "a\n\nb"):
        place.answers(f"one row, {name!r}, without a line end", f'"{name}","{FR}"', [(name, READ)])
    for name in ("01" + "ab" * 19, "01" + "cd" * 31, "AQ" + "Ab" * 20):
        place.answers(f"a name that is a digest, {name}", f"{name}\t{FR}\n", [(name, READ)])
    place.answers("a long name of letters", f"Adobe,AccessibilityAndCompatibility,{FR}\n", [("Adobe", READ)])


def test_twice(place: Place) -> None:
    """Where one is expected and two are, both are named and nothing is known."""
    other = sddl(8)
    place.says("two columns of one title", f"Path,Sddl,sddl\na,{FR},{other}\n", 1, "Sddl and sddl")
    place.says("two columns of names", f"Path,Path,Sddl\na,b,{FR}\n", 1, "Path and Path")
    place.says("two columns with descriptors", f"Path,Sddl,SecurityDescriptor\na,{FR},{other}\nb,{FR},\n", 1,
               "Sddl and SecurityDescriptor", reads=1)
    place.says("before and after", f"Path,Before,After\na,{FR},{other}\n", 1, "Before and After")
    place.says("two members of one name", json.dumps([{"Path": "a", "Sddl": FR, "sddl": other}]), 1, "Sddl and sddl")
    place.says("a key twice", f'[{{"Path": "a", "Sddl": "{FR}", "Sddl": "{other}"}}]', 1, "Sddl is there twice")
    place.says("two members with descriptors", json.dumps([{"Path": "a", "Sddl": FR, "SecurityDescriptor": other}]), 1,
               "Sddl and SecurityDescriptor")
    place.says("members before and after", json.dumps([{"Path": "a", "Before": FR, "After": other}]), 1,
               "Before and After")
    place.says("one object before and after", json.dumps({"Before": FR, "After": other}), 1, "Before and After")
    place.says("a name twice in a map", f'{{"a": "{FR}", "a": "{other}", "b": "{FR}"}}', 2, "a is there twice", reads=1)
    place.says("two attributes", f"# file: a\nsecurity.NTACL=0x{descriptor(1).hex()}\n"
               f"security.NTACL=0x{descriptor(2).hex()}\n", 1, "two attributes")
    place.says("two owners", _block().replace("GROUP", "OWNER:S-1-5-18\nGROUP"), 1, "OWNER")
    place.says("two descriptors in an entry", f"dn: CN=a\nnTSecurityDescriptor:: {B64}\nnTSecurityDescriptor:: {B64}\n",
               1, "two descriptors")
    place.says("two names in an object", json.dumps([{"Path": "a", "path": "b", "Sddl": FR}]), 1, "Path and path")


def test_others(place: Place) -> None:
    """What a program prints beside its list is in the report."""
    denied = "Failed to open \\a: NT_STATUS_ACCESS_DENIED\n"
    place.answers("smbcacls, one failed", _block() + denied + _block(2),
                  [("source:1", READ), ("\\a", UNKNOWN), ("source:7", READ)])
    place.says("smbcacls, a mask that is cut", _block() + _block(2).rstrip()[:-4], 1, "numeric", reads=1)
    place.answers("smbcacls, all failed", denied, [("\\a", UNKNOWN)])
    place.answers("smbcacls, the first failed", denied + _block(), [("\\a", UNKNOWN), ("source:2", READ)])
    place.answers("icacls, one failed", "a\nD:(A;;FR;;;WD)\nb: Access is denied.\nc\nD:(A;;FR;;;WD)\n",
                  [("a", READ), ("b", UNKNOWN), ("c", READ)])
    place.answers("icacls, the first failed", "b: Access is denied.\na\nD:(A;;FR;;;WD)\nc\nD:(A;;FR;;;WD)\n",
                  [("a", READ), ("b", UNKNOWN), ("c", READ)])
    place.answers("sc, one failed", f"\n{FR}\n[SC] OpenService FAILED 5:\n\nAccess is denied.\n\n{FR}\n",
                  [("source:2", READ), ("source:3", UNKNOWN), ("source:5", UNKNOWN), ("source:7", READ)], format="sc")
    place.answers("wevtutil, one failed", f"name: A\nenabled: true\nchannelAccess: {FR}\nFailed to read "
                  f"configuration.\nname: B\nenabled: true\nchannelAccess: {FR}\n",
                  [("A", READ), ("source:4", UNKNOWN), ("B", READ)])
    place.answers("getfattr, one failed",
                  f"# file: a\nsystem.ntfs_acl=0x{descriptor(1).hex()}\n\ngetfattr: b: Permission denied\n# file: c\n"
                  f"system.ntfs_acl=0x{descriptor(1).hex()}\n", [("a", READ), ("b", UNKNOWN), ("c", READ)])
    failed = "[SC] OpenService FAILED 5:\n\nAccess is denied.\n\n"
    found = place.read("".join(f"\n{service(at)}\n" for at in range(20)) + failed + "".join(f"\n{service(at)}\n"
                                                                                            for at in range(20)))
    place.expect((len(found.objects), len(found.unknown)), (40, 3), "sc of many services, one failed")
    found = place.read(failed + "".join(f"\n{service(at)}\n" for at in range(20)))
    place.expect((len(found.objects), len(found.unknown)), (20, 3), "sc of many services, the first failed")
    place.answers("wevtutil, two descriptors of a log",
                  f"name: A\nchannelAccess: {FR}\nchannelAccess: {FR}\nname: B\nenabled: true\nchannelAccess: {FR}\n",
                  [("A", READ), ("source:3", UNKNOWN), ("B", READ)])
    place.answers("getfattr, streams of Samba",
                  f"# file: a\nsecurity.selinux=\"x\"\nsystem.ntfs_acl=0x{descriptor(1).hex()}\n"
                  f"user.DosStream.Zone.Identifier:$DATA=0x00\n\n# file: b\nsystem.ntfs_acl=0x{descriptor(1).hex()}\n",
                  [("a", READ), ("b", READ)])
    place.answers("getfattr, a head that is damaged", "? file: a\nuser.x=0x00\n"
                  f"system.ntfs_acl=0x{descriptor(1).hex()}\n\nxyz\n", [("source:1", UNKNOWN), ("source:5", UNKNOWN)],
                  format="getfattr")
    place.answers("smbcacls, a first line that is missing", _block() + _block(2).partition("\n")[2] + _block(3),
                  [("source:1", READ), ("source:6", UNKNOWN), ("source:10", READ)])
    place.answers("icacls, a line of blanks", "a\n  \nD:(A;;FR;;;WD)\nc\nD:(A;;FR;;;WD)\n",
                  [("a", UNKNOWN), ("source:3", UNKNOWN), ("c", READ)])
    place.answers("secedit, a title that is misspelled", f'[Unicode]\nUnicode=yes\n[File Securty]\n"a",2,"{FR}"\n',
                  [("a", UNKNOWN)])
    place.answers("secedit, a row in another section",
                  f'[Version]\nRevision=1\n"a",2,"{FR}"\n[File Security]\n"b",2,"{FR}"\n',
                  [("a", UNKNOWN), ("b", READ)])
    place.answers("secedit, a description first",
                  f'; a comment\n[Profile Description]\nDescription=x\n[File Security]\n"b",2,"{FR}"\n', [("b", READ)])
    place.answers("secedit, settings",
                  '[Unicode]\nUnicode=yes\n[Privilege Rights]\nSeX = *S-1-5-32-544\n[Registry Values]\n'
                  f'MACHINE\\A=4,1\n[Registry Keys]\n"MACHINE\\A",0,"{FR}"\n', [("MACHINE\\A", READ)])
    for what, text, word in (("icacls without /save", "C:\\a BUILTIN\\Users:(I)(RX)\n     Everyone:(OI)(CI)(F)\n\n"
                              "Successfully processed 1 files\n", "/save"),
                             ("cacls", "C:\\a BUILTIN\\Users:(OI)(CI)R\n     Everyone:F\n", "/save"),
                             ("Format-List without Sddl", "\n\nPath   : Microsoft::C:\\a\nOwner  : BA\nGroup  : SY\n"
                              "Access : Everyone Allow  Read\nAudit  : \n", "Export-Csv"),
                             ("AccessChk", "Accesschk v6.15 - Reports\nCopyright (C) 2006-2022 Mark Russinovich\n\n"
                              "C:\\a\n  RW BUILTIN\\A\n  R  Everyone\n", "AccessChk"),
                             ("AccessChk -l", "c:\\a\n  DESCRIPTOR FLAGS:\n      [SE_DACL_PRESENT]\n  OWNER: BA\n"
                              "  [0] ACCESS_ALLOWED_ACE_TYPE: Everyone\n\tFILE_ALL_ACCESS\n", "AccessChk"),
                             ("SubInACL", "====\n+File C:\\a\n====\n/control=0x0\n/owner             =a\\b\n"
                              "/pace =everyone\tACCESS_ALLOWED_ACE_TYPE-0x0\n", "SubInACL"),
                             ("dsacls", "Owner: A\\B\nGroup: A\\C\n\nAccess list:\nAllow Everyone   SPECIAL ACCESS\n"
                              "          DELETE\n", "dsacls"),
                             ("cacls with a special access", "C:\\a Everyone:(OI)(CI)R\n     BUILTIN\\Users:(special "
                              "access:)\n            READ_CONTROL\n            SYNCHRONIZE\n", "/save"),
                             ("sc without rights", "[SC] OpenService FAILED 5:\n\nAccess is denied.\n\n", "sc sdshow"),
                             ("Get-Acl", "\n    Directory: C:\\\n\nPath Owner  Access\n---- -----  ------\n"
                              "a    BUILTIN\\A Everyone Allow ...\n", "Export-Csv")):
        place.says(f"output of {what}", text, 1, word)


MESSAGES = [("Failed to open \\secret: NT_STATUS_ACCESS_DENIED", "\\secret"),
            ("Failed to open \\a b\\c d.txt: NT_STATUS_SHARING_VIOLATION", "\\a b\\c d.txt"),
            ("tree connect failed: NT_STATUS_BAD_NETWORK_NAME", None), ("C:\\secret: Access is denied.", "C:\\secret"),
            ("Access is denied.", None),
            ("ERROR(<class 'PermissionError'>): uncaught exception - [Errno 13] Permission denied: '/srv/secret'",
             "/srv/secret"),
            ("Get-Acl : Access to the path 'C:\\secret' is denied.", "C:\\secret"),
            ("ls: cannot access '/srv/x y': No such file or directory", "/srv/x y")]


def drawn(rows: List[Tuple[str, ...]], front: str, between: str, end: str, rule: str = "-+") -> List[str]:
    """A table as programs draw it: its first row, a line, and the others."""
    widths = [max(map(len, column)) for column in zip(*rows)]
    lines = [front + between.join(cell.ljust(width) for cell, width in zip(row, widths)) + end for row in rows]
    return [lines[0], rule[1].join(rule[0] * (width + 2) for width in widths), *lines[1:]]


def test_drawn(place: Place) -> None:
    """Tables of Markdown, psql, MySQL and SQLite: each row is an object with its name, and lines of dashes are none."""
    rows = [("path", "owner", "sddl"), ("C:\\a b", "x", FR), ("C:\\c", "y", sddl(8)), ("C:\\d", "", "")]
    wanted = [("C:\\a b", READ), ("C:\\c", READ), ("C:\\d", UNKNOWN)]
    of_psql = drawn(rows, " ", " | ", "")
    of_markdown = drawn(rows, "| ", " | ", " |")
    border = "+" + of_markdown[1] + "+"
    of_mysql = [border, of_markdown[0], border, *of_markdown[2:], border]
    box = [line.replace("|", "\u2502").replace("-", "\u2500").replace("+", "\u253c") if at in (0, 1, 2, 4, 5) else line
           for at, line in enumerate(of_mysql)]
    box = [line.replace("|", "\u2502") if line.startswith("|") else line for line in box]
    for what, lines in (("psql", [*of_psql, "(3 rows)", ""]), ("psql -t", [*of_psql[2:], ""]),
                        ("Markdown", [of_markdown[0], f"|{of_markdown[1].replace('+', '|')}|", *of_markdown[2:]]),
                        ("Markdown without titles", of_markdown[2:]), ("MySQL", of_mysql),
                        ("MySQL without titles", of_mysql[3:-1]), ("a box", box),
                        ("psql -A", ["|".join(row) for row in rows] + ["(3 rows)"]),
                        ("SQLite", ["|".join(row) for row in rows[1:]]),
                        ("SQLite with its head", ["|".join(row) for row in rows])):
        place.answers(f"a table of {what}", "\n".join(lines) + "\n", wanted)
    # A short one has more lines for the eye than rows.
    of_one = [border, of_markdown[0], border, of_markdown[2], border]
    place.answers("SQLite, one row in a box", "\n".join(of_one) + "\n", wanted[:1])
    place.answers("MySQL, one row", "\n".join([*of_one, "1 row in set (0.00 sec)", ""]), wanted[:1])
    place.answers("a table with an empty first column", f",C:\\a,{FR}\n,C:\\b,{FR}\n",
                  [("C:\\a", READ), ("C:\\b", READ)])
    place.answers("a row whose name is in another column", f"Path,Name,Sddl\na,x,{FR}\n,y,{FR}\n,,{FR}\n",
                  [("a", READ), ("y", READ), ("", READ)])


def test_shares(place: Place) -> None:
    """A share has its own name, and not the local path, which others have too, or none. Printers have the rights of
    printers."""
    from sdtool.audit.sources import reading
    from sdtool.audit.sources.options import SourceOptions
    shares = [("Public", "C:\\Data", FR), ("Data$", "C:\\Data", sddl(8)), ("IPC$", "", sddl(9))]
    full = ("PresetPathAcl", "ShareState", "AvailabilityType", "ShareType", "Description", "Name", "Path", "ScopeName",
            "SecurityDescriptor", "Special")
    texts = {"Get-SmbShare | Export-Csv": "\n".join(",".join(f'"{cell}"' for cell in row) for row in (
                 full, *(("", "Online", "NonClustered", "FileSystemDirectory", "", name, path, "*", text, "False")
                         for name, path, text in shares))),
             "Select-Object Name,Path,SecurityDescriptor": "Name,Path,SecurityDescriptor\n" +
             "\n".join(map(",".join, shares)),
             "Select-Object Path,Name,SecurityDescriptor": "Path,Name,SecurityDescriptor\n" +
             "\n".join(f"{path},{name},{text}" for name, path, text in shares),
             "ConvertTo-Json": json.dumps([{"ShareState": 1, "Name": name, "Path": path, "ScopeName": "*",
                                            "SecurityDescriptor": text} for name, path, text in shares]),
             "ConvertTo-Json of three": json.dumps([{"Path": path, "Name": name, "SecurityDescriptor": text}
                                                    for name, path, text in shares])}
    for what, text in texts.items():
        place.answers(what, text + "\n", [("Public", READ), ("Data$", READ), ("IPC$", READ)])
        place.write(text)
        place.expect({item.kind for item in reading.read(str(place.folder / "list"), SourceOptions())}, {"share"},
                     f"the kinds of {what}")
    place.answers("files with both", f"Name,Path,Sddl\na,C:\\a,{FR}\nb,C:\\b,{FR}\n",
                  [("C:\\a", READ), ("C:\\b", READ)])
    for text in (f"Name,PermissionSDDL\nOffice,{FR}\n", json.dumps([{"Name": "Office", "PermissionSDDL": FR}])):
        place.write(text)
        place.expect([(item.name, item.kind) for item in reading.read(str(place.folder / "list"), SourceOptions())],
                     [("Office", "printer")], f"a printer: {text}")


def test_messages(place: Place) -> None:
    """What a program says of an object that it can't read is that object, unknown, and no name of the one behind it."""
    for message, name in MESSAGES:
        for good in (FR, "D:AI(A;ID;FR;;;WD)"):
            for lines in (("m", "s"), ("s", "m"), ("s", "m", "s"), ("m", "s", "m", "s"), ("s", "m", "s", "m", "s"),
                          ("m", "s", "s", "m", "s"), ("m", "m", "s")):
                text = "".join((message if one == "m" else good) + "\n" for one in lines)
                place.answers(f"a list of {lines}, {message!r}", text,
                              [(f"source:{at}", READ) if one == "s" else (name or f"source:{at}", UNKNOWN)
                               for at, one in enumerate(lines, 1)])
        place.answers(f"names and ACLs, {message!r}", f"a\nD:(A;;FR;;;WD)\n{message}\nc\nD:(A;;FR;;;WD)\n",
                      [("a", READ), (name or "source:3", UNKNOWN), ("c", READ)])
    place.answers("files whose names sound so", "".join(f"{name}\nD:(A;;FR;;;WD)\n" for name in SOUNDING),
                  [(name, READ) for name in SOUNDING])
    unknown = "\\secret kann nicht gelesen werden"
    for lines in (("s", "m", "s"), ("s", "m", "s", "m", "s"), ("s", "s", "m", "s")):
        text = "".join((unknown if one == "m" else FR) + "\n" for one in lines)
        place.answers(f"a list of {lines} with words that nobody knows", text,
                      [(f"source:{at}", READ if one == "s" else UNKNOWN) for at, one in enumerate(lines, 1)])


SOUNDING = ["Access is denied.txt", "Error (old).txt", "NT_STATUS_OK.txt", "Failed to open", "The system files",
            "path 'x'.txt", "Permission denied"]


def test_guesses(place: Place) -> None:
    """A form that is guessed never takes rights for less than they are: what stands behind an empty line may be a
    file's."""
    from sdtool.audit.sources import reading
    from sdtool.audit.sources.options import SourceOptions
    manager = ("D:(A;;CC;;;AU)(A;;CCLCRPRC;;;IU)(A;;CCLCRPRC;;;SU)(A;;CCLCRPWPRC;;;SY)(A;;KA;;;BA)(A;;CC;;;AC)S:(AU;FA;"
               "KA;;;WD)(AU;OIIOFA;GA;;;WD)")
    for text, kinds in (("\nO:SYG:SYD:(A;;0x4;;;WD)\n", ["untold", "untold"]),
                        ("\nD:(A;;0x4;;;WD)\n", ["untold", "untold"]), ("\nD:(A;;LC;;;WD)\n", ["untold", "untold"]),
                        ("\nO:SYG:SYD:(A;;CCLCSWLOCRRC;;;WD)\n", ["untold", "untold"]),
                        ("\nD:(A;;FA;;;BA)(A;;CCLCSWLO;;;WD)\n", ["untold", "untold"]),
                        (f"\n{service(1)}\n", ["service"]), (f"\r\n{manager}\r\n", ["service-manager"]),
                        (f"{service(1)}\n", ["untold"])):
        place.write(text)
        accounts: list = []
        items = list(reading.read(str(place.folder / "list"), SourceOptions(), accounts=accounts))
        place.expect(([item.kind for item in items], [note.split(",")[0] for note in accounts[0].notes]),
                     (kinds, ["read as sc"] if kinds[0].startswith("service") else []), f"kinds of {text!r}")
        place.expect({item.kind for item in reading.read(str(place.folder / "list"), SourceOptions(format="sc"))} <=
                     {"service", "service-manager"}, True, f"kinds of {text!r}, --format sc")


def test_dumps(place: Place) -> None:
    """What a dump of Samba lacks is never taken for an empty list, or for no owner."""
    whole = of_ndr(1)[0].text
    lines = whole.split("\n")
    for at, line in enumerate(lines[:-2]):
        cut = place.read("\n".join(lines[:at + 1]) + "\n", format="ndr")
        place.count.add(not cut.objects and len(cut.unknown) == 1 or at == len(lines) - 3,
                        f"a dump that ends with {line!r}: {cut}")
        if re.search("_sid .*S-1|sacl|dacl|type|num_aces|mask|trustee|flags", line):
            found = place.read(whole.replace(line + "\n", "", 1) + whole, format="ndr")
            # The head of the list has no field of its own.
            is_head = (line.strip() == "dacl: struct security_acl"
                       or line.strip().startswith(("type                     : SEC", "flags")))
            place.count.add(len(found.unknown) == 1 and len(found.objects) == 1 or is_head,
                            f"a dump without {line!r}: {found}")
    place.says("a SID that is cut", whole.rstrip()[:-6], 1, "shorter", format="ndr")
    place.says("a dump without its first line", whole.partition("\n")[2] + whole, 1, "first line", reads=1)
    null = whole[:whole.index("dacl                     : *")] + "dacl                     : NULL\n"
    place.answers("a dump without a list", null, [("source:1", READ)])


def test_registry(place: Place) -> None:
    """Cut and open values of a registry export."""
    place.says("a value twice in a key", f'{HEAD}[{KEY}]\n"Security"=hex:{hexed(7)}\n"security"=hex:{hexed(8)}\n[{KEY}2'
               f']\n"Security"=hex:{hexed(7)}\n', 2, "two values", reads=1)
    place.says("a value before any key", f'{HEAD}"Security"=hex:{hexed(7)}\n', 1, "not there")
    place.says("a line amid digits", f'{HEAD}[{KEY}]\n"Security"=hex:{hexed(7)[:60]}\\\nxyz\n  {hexed(7)[60:120]}\\\n'
               f'  {hexed(7)[120:]}\n"SD"=hex:{hexed(7)}\n', 3, "goes on", reads=1)
    good = f'"Security"=hex:{hexed(7)}\n'
    place.answers("a cut value before a key", f'{HEAD}[{KEY}]\n"Security"=hex:{hexed(7)[:30]}\\\n[{KEY}2]\n{good}',
                  [(f"{KEY}\\Security", UNKNOWN), (f"{KEY}2\\Security", READ)])
    place.answers("a cut value at the end", f'{HEAD}[{KEY}]\n{good}"Other"=hex:01,02,\\\n',
                  [(f"{KEY}\\Security", READ), (f"{KEY}\\Other", UNKNOWN)])
    for cut in ('"BSD"=', '"BSD"=hex', "[HKEY_LOC", '"BSD"', '"BS', '"A"=dword:', '"A"=dword:0000',
                '"A"=hex(2):25,', '"A"="x'):
        found = place.read(f"{HEAD}[{KEY}]\n{good}{cut}")
        place.expect((len(found.objects), len(found.unknown)), (1, 1), f"a registry export that ends with {cut}")
    place.answers("a text over lines", f'{HEAD}[{KEY}]\n"Text"="first\n[{KEY}2]\n\\"Security\\"=hex:{hexed(1)}\nlast"\n'
                  f'{good}', [(f"{KEY}\\Security", READ)])
    place.answers("values that are none",
                  f'{HEAD}; a comment\n[-{KEY}3]\n[{KEY}]\n@="x"\n"A"=dword:00000001\n"B"=-\n"C"=hex(b):01,00\n{good}',
                  [(f"{KEY}\\Security", READ)])
    place.answers("two exports", (HEAD + f"[{KEY}]\n{good}\n") * 2, [(f"{KEY}\\Security", READ)] * 2)
    place.answers("a key that is damaged", f"{HEAD}[{KEY}]\n{good}\nHKEY_LOCAL_MACHINE\\B]\n{good}",
                  [(f"{KEY}\\Security", READ), (f"{KEY}: HKEY_LOCAL_MACHINE\\B]", UNKNOWN), ("[?]\\Security", UNKNOWN)])


class Streamed:
    """A file that can't go back."""

    def __init__(self, file: io.BytesIO) -> None:
        self.write, self.flush = file.write, file.flush


def test_archives(place: Place) -> None:
    """Archives and compressed files: each member is there, also beside one that can't be read."""
    good = f"a\t{FR}\n"
    errors = "#TYPE System.Management.Automation.ErrorRecord\n\"Exception\",\"TargetObject\"\n\"denied\",\"C:\\x\"\n"
    found = place.read(packed([("1", good), ("2", errors), ("3", good)]))
    place.expect((len(found.objects), len(found.unknown), found.fault), (2, 1, ""),
                 f"a member that is an export of errors {found.unknown}")
    found = place.read(packed([("1", good), ("in.zip", packed([("x", good)])), ("3", good)]))
    place.expect((len(found.objects), found.unknown), (3, []), "a zip in a zip")
    place.says("folders alone", packed([("a/", ""), ("b/", "")]), 1, "no objects")
    written = io.BytesIO()
    with zipfile.ZipFile(Streamed(written), "w", zipfile.ZIP_DEFLATED) as archive:  # type: ignore[arg-type]
        for name, text in (("a", good), ("b/", ""), ("b/c", good * 50)):
            archive.writestr(name, text)
    found = place.read(written.getvalue())
    place.expect((len(found.objects), found.unknown), (51, []), "an archive that was written to a pipe")
    place.says("an empty archive", packed([]), 1, "no objects")
    two = packed([("1", good)]) + packed([("2", good)])
    found = place.read(two)
    place.expect((len(found.objects), found.unknown), (2, []), "two archives one behind the other")
    inner = packed([("in", "".join(of_tsv_text(9)))], zipfile.ZIP_STORED)
    outer = packed([("0", good), ("in.zip", inner)], zipfile.ZIP_STORED)
    chance = random.Random(place.seed)
    for whole, count in ((packed([("1", good * 50), ("2", good * 50)]), 100), (outer, 10),
                         (tarred([("1", good * 50), ("2", good * 50)]), 100)):
        for number in range(DAMAGES):
            cut = whole[:chance.randrange(30, len(whole.rstrip(b"\0")) - 1)]
            found = place.read(cut)
            place.count.add(bool(found.unknown) and not found.fault and len(found.objects) <= count,
                            f"an archive cut at {len(cut)}: {found.fault}")
            at = chance.randrange(len(whole))
            other = place.read(whole[:at] + bytes([whole[at] ^ 0x55]) + whole[at + 1:])
            place.count.add(not other.fault and len(other.objects) <= count + 1,
                            f"an archive with another byte at {at}: {other.fault}")
    text = "".join(of_tsv_text(400))
    for what, pack, mark in (("gzip", gzip.compress, 3), ("bzip2", bz2.compress, 2), ("xz", lzma.compress, 3)):
        second = pack(text.encode())
        for begin, damaged in (("a damaged head", b"?" * mark + second[mark:]), ("garbage", b"garbage"),
                               ("a cut", second[:len(second) // 2])):
            found = place.read(pack(text.encode()) + damaged)
            place.expect((len(found.objects) >= 400, len(found.unknown), found.fault), (True, 1, ""),
                         f"{what}, a second stream with {begin}")
        for number in range(DAMAGES):
            found = place.read(second[:chance.randrange(20, len(second) - 1)])
            place.count.add(bool(found.unknown) and not found.fault, f"{what}, cut: {found.fault}")
    found = place.read(tarred([("1", good), ("2", errors), ("x" * 200, good)], tarfile.PAX_FORMAT))
    place.expect((len(found.objects), len(found.unknown)), (2, 1), f"a tar archive {found.unknown}")
    place.says("a tar archive whose first head is damaged", b"?" + tarred([("1", good)])[1:], 1, "cut or damaged")
    place.says("a database in an archive", packed([("x.db", b"SQLite format 3\0" + bytes(200))]), 1, "database")


def of_tsv_text(count: int) -> List[str]:
    return [part.text for part in of_tsv(count)]


def test_json(place: Place) -> None:
    """What JSON says beside its list, and lists inside of objects."""
    one = {"Path": "a", "Sddl": FR}
    place.answers("a list with its count", json.dumps({"value": [one], "Count": 1}), [("a", READ)])
    place.says("a count above the list", json.dumps({"value": [one], "Count": 3}), 1, "Count says 3", reads=1)
    for member in ("error", "@odata.nextLink"):
        place.says(f"{member} beside a list", json.dumps({"value": [one], member: "x"}), 1, member, reads=1)
    place.says("an empty list beside others", json.dumps({"value": [], "Count": 0}), 1, "no objects")
    place.says("an empty list", "[]", 1, "no objects")
    place.says("children without a descriptor", json.dumps(
        [{**one, "Children": [{"Path": "b", "Sddl": None}, {"Path": "c", "Sddl": ""}]}]), 2, "Children", reads=1)
    place.says("children by a word", json.dumps([{"Path": "a", "R": FR, "Children": [{"Path": "b", "R": FR}]}]), 1,
               "Children", reads=1, descriptor_column="R")
    place.answers("bytes in a list inside of others",
                  json.dumps({"d": {"results": [{"Path": "a", "SD": list(descriptor(7))}]}}), [("a", READ)])
    place.answers("names of objects, some denied",
                  json.dumps({"a": {"Sddl": FR}, "b": {"Sddl": FR}, "c": {"error": "x"}, "d": None, "e": "denied"}),
                  [("a", READ), ("b", READ), ("c", UNKNOWN), ("d", UNKNOWN), ("e", UNKNOWN)])
    place.says("children", json.dumps([{**one, "Children": [{"Path": "b", "Sddl": FR}]}]), 1, "Children", reads=1)
    place.says("a list that is cut", json.dumps({"value": [one, one]})[:-20], 1, "cut", reads=1)
    place.says("a map that is cut", json.dumps({"C:\\a": FR, "C:\\b": FR, "C:\\c": FR})[:-30], 1, "cut", reads=2)
    place.says("no end of the list", json.dumps([one])[:-1], 1, "cut", reads=1)
    place.answers("two lists of one name",
                  f'{{"value": [{json.dumps(one)}], "value": [{json.dumps({**one, "Path": "b"})}]}}',
                  [("a", READ), ("b", READ), ("source:1", UNKNOWN)])
    place.answers("one object with its count", json.dumps({"value": one, "Count": 1}), [("a", READ)])
    place.answers("names of objects", json.dumps({"C:\\a": {"Sddl": FR}, "C:\\b": {"Sddl": FR}}),
                  [("C:\\a", READ), ("C:\\b", READ)])
    place.answers("a list inside of others", json.dumps({"d": {"results": [one, {**one, "Path": "b"}]}}),
                  [("a", READ), ("b", READ)])
    place.answers("a list of lists", json.dumps([[one], [{**one, "Path": "b"}]]), [("a", READ), ("b", READ)])
    place.says("a name that is null", json.dumps([{"Path": None, "Sddl": FR}]), 0, reads=1)
    many = {"value": [{"Path": f"C:\\{at}", "Sddl": sddl(at), "Owner": "x" * 1000} for at in range(17_000)],
            "Count": 17_000}
    found = place.read(json.dumps(many))
    place.expect((len(found.objects), found.unknown, found.is_whole), (17_000, [], True),
                 "a list of more characters than an element may have")
    many["Count"] = 17_001
    found = place.read(json.dumps(many))
    place.expect((len(found.objects), len(found.unknown)), (17_000, 1), "the same with another count")


ODD_NAMES = ["a,b", 'q"uote', "x;y", "tab\tname", "=1+1", "#c", "#TYPE x", "Path", "Sddl", "Name", "\u6587\u4ef6",
             "\u202etxt", "NULL", "-", "1", "{x}", "[y]", "dn: x", "\\\\srv\\share", "D:\\Data", "HKLM:\\A", "a|b",
             "name: x", "''", '"', "S-1-5-32-544", "(A;;FA;;;WD)", "sep=;", "AQAEgBQAAAA", "0x01", "x" * 300, "*",
             "%TEMP%", "a=b", "key", "object", "two\nlines"]
HEADS = [((), "nd"), ((), "dn"), ((), "nod"), (("Path", "Sddl"), "nd"), (("Name", "SDDL"), "nd"),
         (("FullName", "Owner", "Sddl"), "nod"), (("Sddl", "Path"), "dn"),
         (("Path", "Owner", "Group", "Access", "Sddl", "AccessToString"), "nooodo"),
         (("DistinguishedName", "nTSecurityDescriptor"), "nd"),
         (("Path", "Size", "SecurityDescriptor", "LastWriteTime"), "nodo"), (("Id", "Name", "Sddl"), "ond"),
         (("object name", "security_descriptor"), "nd")]
BESIDE = ["BUILTIN\\Administrators", "2024-01-01 10:00", "123", "",
          "System.Security.AccessControl.FileSystemAccessRule", "Everyone Allow  Read\nBA Allow  Full"]


def spelled(number: int, form: str) -> str:
    return {"sddl": sddl(number), "hex": descriptor(number).hex(),
            "base64": base64.b64encode(descriptor(number)).decode()}[form]


def odd_names(count: int, chance: random.Random) -> List[str]:
    return [chance.choice(ODD_NAMES) if chance.random() < 0.3 else f"C:\\d\\{at}.txt" for at in range(count)]


def table_of(names: List[str], form: str, chance: random.Random) -> str:
    """A table as programs write them: with titles or without, columns in any order, with any delimiter, quoted or
    not."""
    titles, order = chance.choice(HEADS)
    delimiter = chance.choice(",,;\t|")
    quoting = csv.QUOTE_ALL if delimiter == ";" or chance.random() < 0.6 else csv.QUOTE_MINIMAL
    written = io.StringIO()
    writer = csv.writer(written, delimiter=delimiter, quoting=quoting, lineterminator=chance.choice(["\n", "\r\n"]))
    writer.writerows([titles] if titles else [])
    writer.writerows([name if one == "n" else spelled(at, form) if one == "d" else chance.choice(BESIDE)
                      for one in order]
                     for at, name in enumerate(names))
    head = "#TYPE Selected.System.Security\r\n" if titles and quoting == csv.QUOTE_ALL and chance.random() < 0.2 else ""
    return (f"sep={delimiter}\n" if titles and chance.random() < 0.1 else "") + head + written.getvalue()


def json_of(names: List[str], form: str, chance: random.Random) -> str:
    """JSON as programs write it: lists, lists with members around them, texts one behind the other, lines."""
    name, descriptor_name = chance.choice([("Path", "Sddl"), ("name", "descriptor"), ("FullName", "SDDL"), ("dn", "sd"),
                                           ("file", "acl")])
    elements = [{**({"Owner": "BA"} if chance.random() < 0.5 else {}), name: one, descriptor_name: spelled(at, form),
                 **({"Access": [{"Rights": 1, "Who": "x"}]} if chance.random() < 0.2 else {})}
                for at, one in enumerate(names)]
    indent, is_ascii = chance.choice([None, 1, 2, 4]), chance.random() < 0.5

    def text(value: object) -> str:
        return json.dumps(value, indent=indent, ensure_ascii=is_ascii)

    half = len(elements) // 2
    return chance.choice([
        lambda: text(elements), lambda: text({"value": elements, "Count": len(elements)}),
        lambda: text({"d": {"results": elements}}),
        lambda: "".join(json.dumps(one) + "\n" for one in elements), lambda: "\n".join(map(text, elements)),
        lambda: "[\n" + ",\n".join(map(json.dumps, elements)) + "\n]\n",
        lambda: text([elements[:half], elements[half:]] if half else elements),
        lambda: text(elements[:half]) + "\n" + text(elements[half:]) if half else text(elements[0])])()


def test_layouts(place: Place) -> None:
    """Tables and JSON in the layouts of many programs, with odd names: each object is read under its name."""
    for make in (table_of, json_of):
        for number in range(4 * DAMAGES):
            chance = random.Random(f"{place.seed} {make.__name__} {number}")
            names, form = odd_names(chance.choice((1, 2, 5, 30, 120)),
                                    chance), chance.choice(["sddl", "sddl", "hex", "base64"])
            text = make(names, form, chance)
            wanted = [Object(name, spelled(at, form)) for at, name in enumerate(names)]
            expect_all(place, place.read(text.encode(chance.choice(["utf-8", "utf-8-sig", "utf-16"]))), wanted,
                       f"{make.__name__} {number}: {text[:200]!r}")


def test_json_behind_damage(place: Place) -> None:
    """Behind damage JSON is read from the next line on that begins as the elements before do, and never from inside of
    one."""
    wanted = [(f"C:\\{at}", READ) for at in range(4)]
    elements = [{"Path": f"C:\\{at}", "Sddl": FR,
                 "Access": [{"Path": "inside", "Sddl": FR, "Id": 1}, {"Path": "inside", "Id": 2}]} for at in range(4)]
    inside = [("inside", UNKNOWN)]
    lines = json.dumps(elements, indent=2).split("\n")
    for what, head, tail in (("a list", [], []), ("a list with its count", ['{"value":'], [', "Count": 4}'])):
        whole = [*head, *lines, *tail]
        at = len(head) + lines.index('    "Path": "C:\\\\1",')
        rest = [one for one in wanted if one[0] != "C:\\1"]
        for damage, begin, end, more, name in (("the begin of an element is gone", at - 1, at, [],
                                                f"source: lines {at} to {at + 13}"),
                                               ("a comma is gone", at + 1, at + 2, [], "C:\\1"),
                                               ("an element goes on in the next", at + 5, at + 15, [], ""),
                                               ("another begin", at, at, [lines[1]], f"source:{at}"),
                                               ("a text is open", at, at + 1, ['    "Path": "C:\\\\1,'], "")):
            found = place.read("\n".join([*whole[:begin], *more, *whole[end:]]))
            got = [one.name for one in found.objects]
            unknown = [one for one, _ in found.unknown]
            lost = [one for one, _ in wanted if one not in got and one not in unknown]
            place.count.add(set(lost) <= {"C:\\1", "C:\\2"} and len(lost) <= 1 + (not name) and "inside" not in got
                            and not found.fault and found.is_whole
                            and len(got) == len(set(got)) and set(unknown) > {"inside"}
                            and (not name or name in unknown), f"{what}, {damage}: {got} {found.unknown} {found.fault}")
        place.answers(f"{what} without damage", "\n".join(whole), [*wanted, *inside * 4])
        place.expect(rest, wanted[:1] + wanted[2:], "what stays")
    short = json.dumps([{"Path": f"C:\\{at}", "Sddl": FR} for at in range(4)])
    place.answers("JSON in one line", short.replace('"Path": "C:\\\\1"', '"Path": C:\\\\1"'),
                  [wanted[0], ("source: from line 1 on", UNKNOWN)])
    place.answers("a map with a name that is open", f'{{\n  "a": "{FR}",\n  "b: "{FR}",\n  "c": "{FR}"\n}}',
                  [("a", READ), ("source:3", UNKNOWN), ("c", READ)])
    place.answers("an object that is cut", f'{{\n  "Rechte": "{FR}",\n  "Path": "a",\n  "Sddl": "O:', [("a", UNKNOWN)])
    place.answers("a list without its begin", "\n".join(lines[1:]), [*wanted, ("source:15", UNKNOWN), *inside * 4])


def test_ldif(place: Place) -> None:
    """Entries that RFC 2849 doesn't have, and searches that say that they aren't whole."""
    good = f"dn: CN=a\nnTSecurityDescriptor:: {B64}\n"
    other = good.replace("CN=a", "CN=b")
    both = [("CN=a", READ), ("CN=b", READ)]
    place.answers("no blank line between entries", good + other, both)
    place.answers("a line of one blank between entries", good + " \n" + other, both)
    place.answers("no blank behind dn:", good.replace("dn: ", "dn:") + "\n" + other, both)
    place.answers("an empty name", good.replace("CN=a", "") + "\n" + other, [("", READ), ("CN=b", READ)])
    place.answers("only an empty name", good.replace(" CN=a", ""), [("", READ)])
    place.answers("an indented name", good + "\n " + other, [("CN=a", READ), ("CN=b", UNKNOWN)])
    place.answers("no name", good + "\n" + f"nTSecurityDescriptor:: {B64}\n", [("CN=a", READ), ("line 4", UNKNOWN)])
    name = base64.b64encode("CN=Größe".encode()).decode()
    place.answers("a damaged entry with a name in base64", f"dn:: {name}\nnTSecurityDescriptor:: !!\n\n{good}",
                  [("CN=Größe", UNKNOWN), ("CN=a", READ)])
    head = "# extended LDIF\n#\n# LDAPv3\n\n"
    tail = "# search result\nsearch: 2\nresult: 0 Success\n\n# numResponses: 2\n# numEntries: 1\n"
    place.answers("a search", f"{head}{good}\n{tail}", [("CN=a", READ)])
    place.says("a search without its result", f"{head}{good}\n", 1, "result", reads=1)
    place.says("a search with more entries", f"{head}{good}\n{tail.replace('numEntries: 1', 'numEntries: 2')}", 1,
               "2 entries", reads=1)
    place.says("a search that ended early", f"{head}{good}\n{tail.replace('0 Success', '4 Size limit exceeded')}", 1,
               "4 Size limit", reads=1)
    pages = (f"{head}{good}\nsearch: 2\nresult: 0 Success\ncontrol: 1.2.840.113556.1.4.319 false MAUCAQEEAA==\n"
             "pagedresults: cookie=AA==\n\n")
    place.says("a search with more pages", pages, 1, "pages", reads=1)
    place.answers("all pages of a search",
                  f"{pages}{other}\n{tail.replace('0 Success', '0 Success' + chr(10) + 'pagedresults: cookie=')}", both)
    ldb = f"# record 1\ndn: CN=a\nnTSecurityDescriptor: {FR}\n\n# returned 1 records\n# 1 entries\n# 0 referrals\n"
    place.answers("ldbsearch", ldb, [("CN=a", READ)])
    place.says("ldbsearch without its end", ldb.partition("# returned")[0], 1, "returned", reads=1)
    dumped = "\n".join("" + line for line in of_ndr(1)[0].text.replace("    security_descriptor:",
                                                                       "    NDR:").strip("\n").split("\n"))
    place.answers("ldbsearch --show-binary",
                  f"# record 1\ndn: CN=a\nnTSecurityDescriptor: {dumped}\n\n# record 2\ndn: CN=b\n"
                  f"nTSecurityDescriptor: {dumped}\n\n# returned 2 records\n# 2 entries\n# 0 referrals\n", both)
    place.says("ldbsearch with more records", ldb.replace("returned 1", "returned 2"), 1, "2 entries are said", reads=1)
    place.says("ldbsearch with more records and entries",
               ldb.replace("returned 1", "returned 2").replace("# 1 entries", "# 2 entries"), 1, "2 entries", reads=1)
    more = dumped.replace("NDR: struct security_descriptor", "SDDL: struct security_descriptor")
    place.answers("attributes behind the blank line of a dump",
                  f"# record 1\ndn: CN=a\ndefaultSecurityDescriptor: {more}\n\ndnsRecord:     NDR: struct "
                  f"dnsp_DnssrvRpcRecord\n        wDataLength : 0x0004 (4)\n\nnTSecurityDescriptor: {dumped}\n\ncn: a\n"
                  f"\n# record 2\ndn: CN=b\nnTSecurityDescriptor: {dumped}\n\n\n# Referral\nref: ldap://example/DC=x\n"
                  "\n# returned 3 records\n# 2 entries\n# 1 referrals\n",
                  [both[0], ("CN=a: defaultSecurityDescriptor", READ), both[1]])
    place.answers("an entry without its name behind a dump",
                  f"dn: CN=a\nnTSecurityDescriptor: {dumped}\n\n\nnTSecurityDescriptor: {dumped}\n",
                  [("CN=a", READ), (f"line {dumped.count(chr(10)) + 5}", UNKNOWN)])
    place.answers("indented lines behind a comment that isn't folded", ldb + of_ndr(1)[0].text,
                  [("CN=a", READ), ("line 8", UNKNOWN)])
    place.answers("a comment within a folded name", f"dn: CN=a\n#\n bcdefgh\nnTSecurityDescriptor: {FR}\n\n{good}",
                  [("CN=a", UNKNOWN), ("CN=a", READ)])
    place.answers("folded comments", f"# {'x' * 70}\n {'y' * 70}\n y\n{good}# {'x' * 70}\n yy\n\n{other}", both)
    place.answers("a dump that is cut", f"# record 1\ndn: CN=a\nnTSecurityDescriptor: {dumped[:-200]}\n\n# returned 1 "
                  "records\n# 1 entries\n", [("CN=a", UNKNOWN)])


def test_spellings(place: Place) -> None:
    """What other programs write of the same formats."""
    both = [("a", READ), ("b", READ)]
    place.answers("lines that end with CR", f"a\t{FR}\rb\t{FR}\r", both)
    place.answers("a table whose lines end with CR", f"Path,Sddl\ra,{FR}\rb,{FR}", both)
    place.answers("names and ACLs that end with CR", "a\rD:(A;;FR;;;WD)\rb\rD:(A;;FR;;;WD)\r".encode("utf-16-le"), both)
    place.answers("names with quotation marks before CR", '"a\rD:(A;;FR;;;WD)\r"b\rD:(A;;FR;;;WD)\r',
                  [('"a', READ), ('"b', READ)])
    place.answers("a CR in quotation marks alone", f'"a\rb",{FR}', [("a\rb", READ)])
    place.answers("a CR in quotation marks", f'"a\rb",{FR}\r\n"c",{FR}', [("a\rb", READ), ("c", READ)])
    place.answers("blanks around the commas of a template",
                  f'[File Security]\n"a" , 2 , "{FR}"\n"b",2,"{FR}"\n"c,2,"{FR}"\n', [*both, (f'"c,2,"{FR}"', UNKNOWN)])
    place.answers("a text of JSON", f'"{FR}"', [("source:1", READ)])
    place.answers("texts of JSON in lines", f'"{FR}"\nnull\n"{FR}"\n',
                  [("source:1", READ), ("source:2", UNKNOWN), ("source:3", READ)])
    place.answers("a column in quotation marks below its title", f'"Sddl"\n"{FR}"\n', [("source:2", READ)])
    place.answers("a map with its count", f'{{"a":"{FR}","b":"{FR}","Count":2}}', both)
    place.says("a map with a higher count", f'{{"a":"{FR}","b":"{FR}","Count":3}}', 1, "Count says 3", reads=2)
    place.answers("a path without an object in a map", f'{{"C:\\\\a":{{"Sddl":"{FR}"}},"C:\\\\b":"Access is denied"}}',
                  [("C:\\a", READ), ("C:\\b", UNKNOWN)])
    place.answers("texts of JSON behind a message", f'ERROR\n"{FR}"\n"{FR}"\n',
                  [("source:1", UNKNOWN), ("source:2", READ), ("source:3", READ)])
    place.answers("a type without titles", f'#TYPE x\n"a","{FR}"\n"b","{FR}"\n', both)
    place.answers("services with a line between",
                  f"\n{service(1)}\n\n{service(2)}\n\n{service(3)}\n# x\n{service(4)}\n",
                  [*((f"source:{at}", READ) for at in (2, 4, 6, 8)), ("source:7", UNKNOWN)])
    text = (f"# file: a\nsystem.ntfs_acl=0x{descriptor(1).hex()}\n\nsystem.ntfs_acl=0x{descriptor(2).hex()}\n"
            "user.x=\"y\"\n")
    place.answers("an attribute without its file", text, [("a", READ), ("source:4", UNKNOWN)])
    place.answers("a NUL in a short list", f"{FR}\n{FR[:9]}\0{FR[9:]}\n", [("source:1", READ), ("source:2", READ)])
    share = "REVISION:1\nCONTROL:SR|DP\nOWNER:\nGROUP:\nACL:S-1-1-0:ALLOWED/0x0/FULL\n\n"
    place.answers("shares of sharesec", f"[a]\n{share}[b]\n{share}[c]\n{_block()}[d]\n",
                  [("a", UNKNOWN), ("b", UNKNOWN), ("c", READ), ("source:21", UNKNOWN)])
    # getfattr -e text leaves out a NUL at the end.
    place.says("an attribute as text", '# file: a\nsystem.ntfs_acl="\\001"\n', 1, "use getfattr -e hex")


def test_more(place: Place) -> None:
    """Kin of the rows above."""
    rows = "".join(f"secret {at}\t\n" for at in range(100))
    place.answers("descriptors that come late", f"{rows}a\t{FR}\n",
                  [*((f"secret {at}", UNKNOWN) for at in range(100)), ("a", READ)])
    long = "O:BAG:SYD:" + "(A;;FR;;;WD)" * 9_000
    for what, first in (("a long first line", [("x", long)]), ("long first lines", [("x", long)] * 3),
                        ("a long name", [("x" * 99_000, FR)])):
        names = [name for name, _ in first] + ["a", "b"]
        rows = [*first, ("a", FR), ("b", FR)]
        for form, text in (("TSV", "".join(f"{name}\t{text}\n" for name, text in rows)),
                           ("CSV", "Path,Sddl\n" + "".join(f'"{name}","{text}"\n' for name, text in rows)),
                           ("icacls", "".join(f"{name}\n{text[8:]}\n" for name, text in rows)), ("JSON lines", "".join(
                               json.dumps({"Path": name, "Sddl": text}) + "\n" for name, text in rows)),
                           ("JSON", json.dumps([{"Path": name, "Sddl": text} for name, text in rows])),
                           ("wevtutil", "".join(f"name: {name}\nchannelAccess: {text}\n" for name, text in rows)),
                           ("LDIF", "".join(f"dn: {name}\nnTSecurityDescriptor: {text}\n\n" for name, text in rows))):
            place.answers(f"{form}, {what}", text, [(name, READ) for name in names])
        lines = [f"source:{at}" for at in range(1, len(rows) + 1)]
        place.answers(f"lines, {what}", "".join(text + "\n" for _, text in rows), [(name, READ) for name in lines])
        place.answers(f"JSON texts, {what}", "".join(json.dumps(text) + "\n" for _, text in rows),
                      [(name, READ) for name in lines])
    for count in (2_500, 20_000):
        names = [f"C:\\secret folder {at}\\notes.txt" for at in range(count)]
        denied = [(name, UNKNOWN) for name in names]
        for delimiter in "\t,;|":
            place.answers(f"{count} rows before the first descriptor, {delimiter!r}", "".join(
                f"{name}{delimiter}\n" for name in names) + f'a{delimiter}"{FR}"\nb{delimiter}"{FR}"\n',
                          [*denied, ("a", READ), ("b", READ)])
        place.answers(f"{count} rows before the first descriptor, three columns",
                      "".join(f"{name}\tx\tdenied\n" for name in names) + f"a\tx\t{FR}\nb\tx\t{FR}\n",
                      [*denied, ("a", READ), ("b", READ)])
        said = "".join(f"{name}: Access is denied.\n" for name in names)
        place.answers(f"{count} messages before icacls", said + "a\nD:(A;;FR;;;WD)\nb\nD:(A;;FR;;;WD)\n",
                      [*denied, ("a", READ), ("b", READ)])
        place.answers(f"{count} messages before smbcacls", said + _block() + _block(2),
                      [*denied, (f"source:{count + 1}", READ), (f"source:{count + 6}", READ)])
        place.answers(f"{count} messages before lines", said + FR + "\n" + FR + "\n",
                      [*denied, (f"source:{count + 1}", READ), (f"source:{count + 2}", READ)])
        place.answers(f"{count} empty lines before a table", "\n" * count + f"a\t{FR}\nb\t{FR}\n",
                      [("a", READ), ("b", READ)])
    place.answers("a known title without descriptors", f"Path,Acl,Beschreibung\na,full,{FR}\nb,full,{FR}\n",
                  [("a", READ), ("b", READ)])
    place.answers("a map with a null", json.dumps({"C:\\a": FR, "C:\\b": None}), [("C:\\a", READ), ("C:\\b", UNKNOWN)])
    place.says("one object of unknown members", json.dumps({"File": "a", "Rechte": FR}), 1, "no member")
    place.answers("JSON lines whose first is cut",
                  '{"name": "a", "sd\n' + "".join(f'{{"name": "{name}", "sddl": "{FR}"}}\n' for name in "bcd"),
                  [("source:1", UNKNOWN), ("b", READ), ("c", READ), ("d", READ)])
    text = f"a\t{FR}\nb\t{FR}\n".encode()
    cpio = b"070701" + b"0000A1B2" * 13 + b"list\0\0" + text + b"\0" * 9
    for what, data in (("7-Zip", b"7z\xbc\xaf\x27\x1c" + bytes(99)), ("RAR", b"Rar!\x1a\x07\0" + bytes(99)),
                       ("registry", b"regf" + bytes(999)),
                       ("cpio", cpio), ("cpio", b"070707" + b"0123456" * 10 + b"list\0" + text),
                       ("cpio", b"\xc7\x71" + bytes(24) + text),
                       ("RPM", b"\xed\xab\xee\xdb\3\0" + bytes(90) + text),
                       ("LZ4", b"\x04\x22\x4d\x18\x64\x40\xa7\x4c\0\0\0" + text + bytes(8)),
                       ("LZ4", b"\x02\x21\x4c\x18" + text), ("Zstandard", b"\x28\xb5\x2f\xfd\x04" + text),
                       ("Debian", b"!<arch>\nlist/           0           0     0     644     9         `\n" + text),
                       ("lzip", b"LZIP\1" + text), ("compress", b"\x1f\x9d\x90" + text),
                       ("document", b"%PDF-1.4\n" + text),
                       ("neither text", random.Random(place.seed).randbytes(3000))):
        place.says(what, data, 1, what)
        place.says(f"{what} in an archive", packed([("x", data), ("y", text)]), 1, what, reads=2)
    for name in ("070701 report", "070707", "LZIP", "!<arch>", "MZ", "xar!", "regf", "PAR1", "BZh9", "Rar!",
                 "7z", "PK"):
        place.answers(f"a first name {name}", f"{name}\t{FR}\nb\t{FR}\n", [(name, READ), ("b", READ)])
        place.answers(f"icacls, a first name {name}", f"{name}\nD:(A;;FR;;;WD)\nb\nD:(A;;FR;;;WD)\n",
                      [(name, READ), ("b", READ)])
    data = f"a\t{FR}\n".encode()
    for _ in range(6):
        data = packed([("x", data)])
    place.says("six archives inside of each other", data, 1, "too many")


def test_numbers(place: Place) -> None:
    """A number that Python doesn't take costs no other object, whatever it stands in."""
    many = "9" * 5000
    entry = f"dn: CN=a,DC=b\nnTSecurityDescriptor: {FR}\n\n"
    acl = "REVISION:1\nCONTROL:0x8004\nOWNER:S-1-5-32-544\nGROUP:S-1-5-18\nACL:S-1-1-0:0/{}/0x001200a9\n"
    dump = of_ndr(1)[0].text
    rows = [("json", json.dumps([{"Path": "a", "Sddl": FR}, {"Path": "b", "Sddl": FR}]).replace('"b"', many), 2),
            ("json", f'[\n{{"Path": "a", "Sddl": "{FR}"}},\n{{"n": {many}}},\n{{"Path": "b", "Sddl": "{FR}"}}\n]', 3),
            ("jsonl", f'{{"Path": "a", "Sddl": "{FR}"}}\n{{"n": {many}}}\n', 2),
            ("ldif", f"{entry}# numEntries: {many}\n", 1), ("ldif", f"{entry}# returned {many} records\n", 1),
            ("ldif", f"{entry}# {many} entries\n", 1), ("ldif", f"{entry}{many} Objects returned\n", 2),
            ("smbcacls", acl.format("08") + acl.format("0"), 2), ("smbcacls", acl.format(many) + acl.format("0"), 2),
            ("ndr", dump + dump.replace("(1)", f"({many})"), 2)]
    for name, text, wanted in rows:
        found = place.read(text, format=name)
        place.expect((len(found.objects) > 0, len(found.objects) + len(found.unknown), found.is_whole, found.fault),
                     (True, wanted, True, ""), f"{name} with {text[-60:]!r}")


def test_looks(place: Place) -> None:
    """A format is told by all that is looked at: a first name may look like another one."""
    for name in ("[2024] a.txt", "{8E2C}\\x", "REGEDIT4 x", "Windows Registry Editor notes", "#TYPE a", "dn: x",
                 "# file: x", "name: x", "[Version]", "REVISION:1 a", "version: 1", "Acl", "sep=;", "regf",
                 "BZh91AY&SY"):
        acl = f"D:AI(A;;FR;;;{DOMAIN}-1)"
        place.answers(f"icacls, a first name {name}", f"{name}\n{acl}\nb\n{acl}\nc\n{acl}\n",
                      [(name, READ), ("b", READ), ("c", READ)])
        place.answers(f"a table, a first name {name}", f"{name}\t{FR}\nb\t{FR}\nc\t{FR}\n",
                      [(name, READ), ("b", READ), ("c", READ)])
    place.answers("hex and base64 beside SDDL", f"xyz\n{FR}\n{B64}\nD:(A;;FR;;;WD)\n{B64}\n",
                  [("source:1", UNKNOWN), *((f"source:{at}", READ) for at in range(2, 6))])
    place.answers("titles behind a descriptor", f"{FR}\tx,y\n", [("x,y", READ)])
    place.answers("an empty line before icacls", f"\na\n{FR}\nb\n{FR}\n", [("a", READ), ("b", READ)])
    place.answers("an empty line before a table", f"\na\t{FR}\nb\t{FR}\n", [("a", READ), ("b", READ)])
    place.answers("an empty line before lines", f"\n{FR}\n{FR}\n",
                  [("source:1", UNKNOWN), ("source:2", READ), ("source:3", READ)])
    place.answers("icacls, a first name like base64", f"Adobe\n{FR}\nb\n{FR}\n", [("Adobe", READ), ("b", READ)])
    acl = f"D:AI(A;;FR;;;{DOMAIN}-1)"
    for name in ("[File Security]", "dn: CN=x", "name: x", "# file: x", "# extended LDIF"):
        place.answers(f"icacls, one object {name}", f"{name}\n{acl}\n", [(name, READ)])
        place.answers(f"a table, one object {name}", f"{name}\t{FR}\n", [(name, READ)])
    place.says("the look is said", f"a\n{FR}\nb\n", 1, "read as icacls", reads=1)
    for script in ("Größe", "Документы и файлы", "\u6587\u4ef6\u5939", "\u30d5\u30a1\u30a4\u30eb"):
        text = "".join(f"{script}\\{script} {at}.txt\r\nD:AI(A;ID;FR;;;{DOMAIN}-{at})\r\n" for at in range(9))
        place.answers(f"icacls without its mark, {script}", text.encode("utf-16-le"),
                      [(f"{script}\\{script} {at}.txt", READ) for at in range(9)])


def test_encodings(place: Place) -> None:
    """A source that goes on in another encoding is unknown from there on."""
    first, second = f"a\t{FR}\r\nb\t{FR}\r\n", f"c\t{FR}\r\nd\t{FR}\r\n"
    for what, data in (("UTF-16 behind UTF-8", first.encode() + second.encode("utf-16-le")),
                       ("UTF-16 with a mark behind UTF-8", first.encode() + second.encode("utf-16")),
                       ("UTF-16 behind UTF-8 without a line end", first.encode() + second.encode("utf-16-be")),
                       ("UTF-8 behind UTF-16", b"\xff\xfe" + first.encode("utf-16-le") + second.encode()),
                       ("the other UTF-16", b"\xff\xfe" + first.encode("utf-16-le") + second.encode("utf-16-be"))):
        place.says(what, data, 1, "encoding", reads=2)
        long = data.replace(first.encode(), first.encode() * 40_000) if data.startswith(first.encode()) else data
        if long is not data:
            place.says(what + ", far behind", long, 1, "encoding", reads=80_000)
    one = json.dumps([{"Path": "a", "Sddl": FR}])
    for first_one, then in (("utf-8", "utf-16-le"), ("utf-16", "utf-8")):
        place.says(f"JSON in one line, {then} behind {first_one}", one.encode(first_one) + b"\n" + one.encode(then), 1,
                   "encoding", reads=1)
    for text in ("\u6587\u4ef6\u5939" * 9, "Größe", "Документы", "\u30d5\u30a1\u30a4\u30eb"):
        for encoding in ("utf-8", "utf-16"):
            place.answers(f"{text} in {encoding}", f"{text}\t{FR}\nb\t{FR}\n".encode(encoding),
                          [(text, READ), ("b", READ)])
    place.says("a line that is too long", f"a\t{FR}\nb\t{FR}" + "x" * (9 << 20) + f"\nc\t{FR}\n", 0, reads=3)


def test_long(place: Place) -> None:
    """No reader takes longer for each character of a text the longer that is: all read a text that goes on in one way
    for long."""
    for name, made in MADE.items():
        text = "".join(part.text for part in made.make(5))
        line = line_starts(text)[len(line_starts(text)) // 2]
        places = {0, line + 1, text.find(",", line) + 2, text.find("\"", line) + 2, len(text) // 2}
        for unit in (" ", "\"", "\\\"", "O:", ",", "\\", "(", "a: ", "\n"):
            for at in sorted(places):
                for _ in range(TRIES):
                    began = time.process_time()
                    found = place.read(text[:at] + unit * (LONG // len(unit)) + "x" + text[at:])
                    took = time.process_time() - began
                    if took < MOST_SECONDS:
                        break
                place.count.add(took < MOST_SECONDS and not found.fault,
                                f"{name}, {unit!r} from {at} on: {took:.1f} seconds {found.fault}")


def test_pipes(place: Place) -> None:
    """A pipe is opened once, and no byte of it is lost."""
    from sdtool.audit.sources import reading
    from sdtool.audit.sources.options import SourceOptions
    text = "".join(of_tsv_text(3000))
    for data in (text.encode(), packed([("x", text)]), gzip.compress(text.encode())):
        path = str(place.folder / "fifo")
        os.mkfifo(path)
        writer = threading.Thread(target=lambda: pathlib.Path(path).write_bytes(data))
        writer.start()
        is_database = reading.is_database(path)
        got = [item.name for item in reading.read(path, SourceOptions()) if item.form]
        writer.join()
        os.remove(path)
        place.expect((is_database, len(got), got[0]), (False, 3000, "d 0"), "a pipe")
    place.write(text)
    for words in ("<(cat list)", "/dev/stdin < list", "- < list", "/dev/fd/3 3< list"):
        ended = subprocess.run(["bash", "-c", f"{sys.executable} -m sdtool.audit can S-1-1-0 write {words} --no-bar"],
                               cwd=place.folder, capture_output=True, text=True, env={**os.environ, "PYTHONPATH": str(
                                   TOP / "python"), "PYTHONDONTWRITEBYTECODE": "1"}, timeout=600)
        place.expect((ended.returncode, ended.stdout.splitlines()[-1:]), (0, ["3,000 objects: 3,000 nothing"]),
                     f"can .. {words}: {ended.stderr[-300:]}")
    # A pipe in non-blocking mode that has no bytes yet has not ended.
    reader, writer = os.pipe()
    os.set_blocking(reader, False)
    os.write(writer, "".join(of_tsv_text(3)).encode())
    ended = subprocess.run([sys.executable, "-m", "sdtool.audit", "can", "S-1-1-0", "write", "-", "--no-bar"],
                           stdin=reader, capture_output=True, text=True, env={**os.environ, "PYTHONPATH": str(
                               TOP / "python"), "PYTHONDONTWRITEBYTECODE": "1"}, timeout=600)
    os.close(reader)
    os.close(writer)
    place.expect((ended.returncode, "non-blocking mode" in ended.stdout + ended.stderr), (3, True),
                 f"a pipe that is open: {ended.stdout[-300:]} {ended.stderr[-300:]}")


def test_jobs(place: Place) -> None:
    """A table is read by several processes as by one."""
    rows = [f'"d {at}, x","{sddl(at)}"' for at in range(30_000)]
    head = '"Path","Sddl"'
    for what, lines in (("a plain table", [head, *rows]),
                        ("blank lines", ["", "", head, *rows[:9000], "", "", *rows[9000:], "", ""]),
                        ("titles again", [head, *rows, head, *rows[:5]]), ("a type", ["#TYPE a.b", head, *rows]),
                        ("no titles", ["x,y", *rows]),
                        ("two columns", ['"Path","Sddl","Descriptor"', *(f'{row},"{sddl(7)}"' for row in rows)]),
                        ("an open quotation mark", [head, *rows[:9000], '"x', *rows[9000:]])):
        place.write("\r\n".join(lines) + "\r\n")
        told = [subprocess.run([sys.executable, "-m", "sdtool.audit", "can", "S-1-1-0", "write", "list", "--jobs", jobs,
                                "--to", "csv"],
                               cwd=place.folder, capture_output=True, text=True, timeout=600,
                               env={**os.environ, "PYTHONPATH": str(TOP / "python"), "PYTHONDONTWRITEBYTECODE": "1"})
                for jobs in ("1", "3")]
        place.count.add(told[0].stdout == told[1].stdout and told[0].returncode == told[1].returncode
                        and told[0].stdout.count("\n") > 29_000,
                        f"{what}: {[(one.returncode, one.stdout[-200:], one.stderr[-200:]) for one in told]}")


class Nothing:
    """A question that finds nothing."""

    rules = ()
    asks_places = ""

    def answer(self, form, kind, texts, place=""):
        from sdtool.audit import findings
        return [findings.Answer(findings.NOTHING)] * len(texts)


class Listed:
    """A report that lists what it gets."""

    rows, rules, lists_all, has_plain_rows = None, (), True, False

    def __init__(self) -> None:
        self.found: list = []

    def add(self, item, answer, groups) -> None:
        self.found.append(item)

    def piece(self) -> list:
        return self.found

    def merge(self, piece, groups, start) -> None:
        self.found += piece


class Processes:
    """Tables that several processes read in parts of a few lines."""

    def __init__(self, place: Place) -> None:
        from sdtool.audit import engine, pool
        from sdtool.audit.reports import reporting
        self._reporting, self._engine, self._path = reporting, engine, place.folder / "table"
        self._pool = pool.Pool(3, engine.Held(Nothing(), lambda: reporting.Report(Listed())))  # type: ignore[arg-type]

    def read(self, text: str) -> Tuple[list, Any]:
        """The objects of a table, and the account of its lines."""
        from sdtool.audit.sources import reading
        from sdtool.audit.sources.options import SourceOptions
        self._path.write_bytes(text.encode())
        units = reading.read_tables(str(self._path), SourceOptions(format="csv"), lambda count: None)
        table = next(units)  # whose file is open until the units end
        listed = Listed()
        report = self._reporting.Report(listed)
        self._reporting.Tables(report, self._engine.Engine(Nothing(), self._pool), self._pool,
                               lambda count: None).add(table)
        return listed.found if report.seen == report.summary.total == len(listed.found) else [], table.account

    def alone(self, text: str) -> Tuple[list, Any]:
        """The same by one process."""
        from sdtool.audit.sources import reading
        from sdtool.audit.sources.options import SourceOptions
        self._path.write_bytes(text.encode())
        accounts: list = []
        return list(reading.read(str(self._path), SourceOptions(format="csv"), accounts=accounts)), accounts[0]

    def end(self) -> None:
        self._pool.close()


def of_odd_csv(count: int, chance: random.Random) -> str:
    """A table with rows of several lines, blank lines, titles that come again, rows that are malformed or too long."""
    rows = ['"Path","Sddl"\n']
    for at in range(count):
        name = chance.choice([f"C:\\d\\{at}"] * 12 + [f'a ""{at}""', f"two\n{at}", f"\n\n{at}", f"a,{at}"])
        rows.append(f'"{name}","{sddl(at)}"' + chance.choice(["\n"] * 20 + ["\n\n", "\r\n", "\n\n\n\n", ",x\n",
                                                                            '\n"Path","Sddl"\n', '\n"x\n', '"\n']))
    return "".join(rows)


def amounts(account) -> tuple:
    """What an account says."""
    return (account.units, account.of_objects, dict(account.nothing), account.lost, account.objects,
            dict(account.notes), account.is_whole)


def test_parts(place: Place) -> None:
    """A table whose parts are read by several processes has the objects and the account that one process gives, also
    where it is damaged; and lines that a process passes over are an object that can't be read."""
    from sdtool.audit.reports import reporting
    from sdtool.audit.sources import delimited, opening
    before = opening.CHUNK, opening.HEAD
    opening.CHUNK, opening.HEAD = 2_000, 500
    processes = Processes(place)
    try:
        chance = random.Random(place.seed)
        revision = bytearray(descriptor(7))
        revision[20] = 3
        for number in range(DAMAGES // 2):
            text = (of_odd_csv(chance.choice((40, 200, 400)), chance) if number % 2
                    else "".join(part.text for part in of_csv(300)))
            text = text.replace(sddl(7), revision.hex())
            for kind, damage in {"none": Damage(text, 0, 0), "blank": Damage(text + "\n" * 99, 0, 0),
                                 **damages(text, chance)}.items():
                told, account = processes.read(damage.text)
                alone, account_alone = processes.alone(damage.text)
                lines = damage.text.count("\n") + (not damage.text.endswith("\n"))
                place.count.add(told == alone and amounts(account) == amounts(account_alone) and account.units == lines,
                                f"a table in parts, {kind} {number}: {amounts(account)} {amounts(account_alone)} of "
                                f"{lines} lines; {[one for one in told if one not in alone][:2]} "
                                f"{[one for one in alone if one not in told][:2]}")
                if kind == "none" and not number % 2:
                    place.expect((len(told), [one for one in told if not one.form], sum(account.notes.values())),
                                 (300, [], 1), "a table without damage")
    finally:
        processes.end()
    text = "".join(part.text for part in of_csv(300))
    whole, part, following = delimited.whole_records, reporting.Part, reporting._Blocks.next
    plants = {"a record": ("whole_records", lambda *words: [one for one in whole(*words) if one[0] % 50]),
              "a line of the account": ("Part", lambda count: part(count - 1)),
              "a block": ("next", lambda blocks: following(blocks) and following(blocks))}
    for what, (name, wrong) in plants.items():
        owner = next(one for one in (delimited, reporting, reporting._Blocks) if hasattr(one, name))
        right = getattr(owner, name)
        setattr(owner, name, wrong)
        processes = Processes(place)
        try:
            told, account = processes.read(text)
            lost = [one for one in told if not one.form]
            place.count.add(bool(lost) and account.units == 301 and account.lost > 0,
                            f"{what} that is passed over: {lost[:3]} {amounts(account)}")
        finally:
            setattr(owner, name, right)
            processes.end()
    opening.CHUNK, opening.HEAD = before


def test_help(place: Place) -> None:
    """Each format says what counts as an object and what as none, and docs/AUDIT-TABLES.md has what makes it."""
    from sdtool.audit.sources import reading
    text = (TOP / "docs/AUDIT-TABLES.md").read_text(encoding="utf-8").replace("`", "")
    help_text = reading.format_help()
    for name in reading.NAMES:
        place.count.add(f"\n{name}: " in "\n" + help_text, f"the help of {name}")
        place.count.add(f"\n- {name}: " in text, f"docs/AUDIT-TABLES.md: {name} is missing")
    for one in reading.FORMATS:
        if one.name in reading.NAMES:
            line = f"\n- {one.name}: {one.made_by}\n"
            place.count.add(line in text, f"docs/AUDIT-TABLES.md: the line of {one.name} isn't {line}")


TESTS = (test_whole, test_damage, test_damaged_bytes, test_volume, test_bytes, test_titles, test_twice, test_others,
         test_drawn, test_shares, test_messages, test_guesses, test_dumps, test_registry, test_archives, test_json,
         test_layouts, test_json_behind_damage, test_ldif, test_spellings, test_more, test_numbers, test_looks,
         test_encodings, test_long, test_pipes, test_jobs, test_parts, test_help)


def add_options(parser: argparse.ArgumentParser) -> None:
    parser.add_argument("--seed", type=int, default=1, help="of what is drawn")


def main(count: preload.Count, given: preload.Given) -> None:
    python = audit.python_with_packages()
    if not python:
        print("skipped: no Python here has click and rich (Debian: python3-click, python3-rich)")
        return
    preload.go_on_in(python)
    os.environ["SDTOOL_LIBRARY"] = audit.LIBRARY
    sys.path.insert(0, str(TOP / "python"))
    for test in filter(preload.is_chosen, TESTS):
        with tempfile.TemporaryDirectory() as folder:
            try:
                test(Place(folder, count, given.seed))
            except Exception as error:  # one test that breaks doesn't hide what the others find
                count.add(False, f"{test.__name__}: {type(error).__name__}: {error}")
