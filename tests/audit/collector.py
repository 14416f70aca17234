"""Tests that sdtool-audit reads what packaging/sdtool-collect.ps1 writes. There is a hand-made line for each kind of
object. The script itself needs Windows, and isn't run here, but the calls of Windows that it declares are compiled by
mcs. It needs what tests/audit/audit.py needs, and is skipped without it.
"""
import contextlib
import json
import shutil
import sqlite3
import subprocess

import audit
import preload
from audit import DATA, Place

SAMPLE = "collected.jsonl"
LONG = "D:\\Data\\" + ("long" * 12 + "\\") * 6 + "plan \u6587.txt"
TEMPLATE = "CN=User,CN=Certificate Templates,CN=Public Key Services,CN=Services,CN=Configuration,DC=example,DC=com"
LAUNCH = "HKLM\\SOFTWARE\\Classes\\AppID\\{00000000-0000-0000-0000-000000000001}: LaunchPermission"
SHARED = json.dumps("\\\\SRV\\Public\\a.txt")
# The kind of each object, whether it is a folder, and what its one ACE lets Everyone do there, or None.
KINDS = {
    "D:\\Data": ("folder", 1, "add files"), LONG: ("file", 0, "write data"),
    "\\\\SRV\\Public\\a.txt": ("file", 0, "write data"),
    "the service manager": ("service-manager", None, "create services"),
    "Spooler": ("service", None, "change configuration"), "HKLM\\SOFTWARE\\Example": ("key", None, "set values"),
    "\\Microsoft\\Backup": ("task", None, "change the task"), "Laser 4": ("printer", None, "Manage this printer"),
    "\\\\SRV\\Public": ("share", None, "write data"), "root\\cimv2": ("wmi", None, "write all classes and instances"),
    LAUNCH: ("com", None, "activate"), "Application": ("log", None, "clear"),
    TEMPLATE: ("template", None, "write properties"),
    "CN=Ann,CN=Users,DC=example,DC=com": ("ds", None, "write properties"),
    "D:\\Data\\Locked": ("file", None, None), "D:\\Data\\Secret\\*": ("file", None, None)}


def test_kinds(place: Place) -> None:
    """Each line is an object of its name and kind, and what can't be read is unknown, with the reason of Windows."""
    text = (DATA / SAMPLE).read_text(encoding="utf-8")
    source = place.write(SAMPLE, text)
    place.ask("risks", source, "--into", "kinds.db", may_write=str(place.folder / "kinds.db"))
    with contextlib.closing(sqlite3.connect(place.folder / "kinds.db")) as database:
        rows = database.execute("SELECT name, objects.kind, is_folder FROM objects ORDER BY id").fetchall()
    place.expect({name: (kind, folder) for name, kind, folder in rows},
                 {name: row[:2] for name, row in KINDS.items()}, "kinds")
    found = {one["name"]: one for one in place.objects("risks", source)}
    place.expect(list(found), list(KINDS), "names")
    for name, (_, _, right) in KINDS.items():
        said = " ".join(f"{one['rights']} {one['text']}" for one in found[name]["findings"])
        place.expect(found[name]["answer"], "found" if right else "unknown", name)
        place.expect((right or "").lower() in said.lower(), True, f"{name}: {said}")
    place.expect(found["D:\\Data\\Locked"]["reason"], "Access is denied", "the reason")
    ended = place.ask("risks", source)
    place.expect("read as" in ended.stderr + ended.stdout, False, "no kind is a guess")


def test_damage(place: Place) -> None:
    """A line that is lost, cut or none of its form is an unknown object, and so is an end that is missing."""
    lines = (DATA / SAMPLE).read_text(encoding="utf-8").splitlines(True)
    for what, damaged, least in (
            ("a line is gone", lines[:3] + lines[4:], 1), ("the end is cut", lines[:-1], 1),
            ("a line is cut", [*lines[:3], lines[3][:30] + "\n", *lines[4:]], 1),
            ("another kind", [*lines[:3], lines[3].replace('"file"', '"hose"'), *lines[4:]], 1),
            ("a name twice", [*lines[:3], lines[3].replace('"Kind"', '"Name":"x","Kind"'), *lines[4:]], 1),
            ("another member", [*lines[:3], lines[3].replace('"Kind"', '"More":"x","Kind"'), *lines[4:]], 1),
            ("a blank name", [*lines[:3], lines[3].replace(SHARED, '" "'), *lines[4:]], 1)):
        objects = place.objects("risks", place.write("damaged.jsonl", "".join(damaged)))
        unknown = [one for one in objects if one["answer"] == "unknown"]
        place.expect(len(unknown) - 2 >= least, True, f"{what}: {[one['name'] for one in unknown]}")
        place.expect(len(objects) >= len(KINDS), True, f"{what}: no object is lost")


# Where the members of WIN32_FIND_DATAW are, by Microsoft's description: a number, three FILETIMEs of two numbers each,
# four numbers, and names of 260 and 14 characters.
MEMBERS = {"Attributes": 0, "Created": 4, "Read": 12, "Written": 20, "SizeHigh": 28, "SizeLow": 32, "Name": 44,
           "Short": 564}
LOOK = """
public static class Look {
    public static void Main(string[] names) {
        var found = typeof(SdtoolCollect).GetNestedType("Found", System.Reflection.BindingFlags.NonPublic);
        foreach (var name in names) Console.WriteLine(name + " " + Marshal.OffsetOf(found, name));
    }
}
"""


def test_declared(place: Place) -> None:
    """What the script says in C# is C# 5, and what it says of Windows' structure of a found file is true."""
    if not shutil.which("mcs") or not shutil.which("mono"):
        print("the script's C#: skipped, there is no mcs or mono (Debian: mono-mcs, mono-runtime)")
        return
    script = (preload.TOP / "packaging/sdtool-collect.ps1").read_text(encoding="ascii")
    place.write("look.cs", script.partition("@'\n")[2].partition("\n'@")[0] + LOOK)
    subprocess.run(["mcs", "-langversion:5", "-out:look.exe", "look.cs"], cwd=place.folder, check=True)
    told = subprocess.run(["mono", "look.exe", *MEMBERS], cwd=place.folder, stdout=subprocess.PIPE, text=True,
                          check=True).stdout
    place.expect(dict(line.split() for line in told.splitlines()),
                 {name: str(at) for name, at in MEMBERS.items()}, "where members are")


TESTS = (test_kinds, test_damage, test_declared)


def main(count: preload.Count) -> None:
    audit.run_tests(count, TESTS)
