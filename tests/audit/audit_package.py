"""Checks the package sdtool.audit as software. It has no private name of another module and no option in a message that
no command has, and runs as on Windows and macOS. It needs what tests/audit/audit.py needs; a line says what is missing.
"""
import ast
import os
import pathlib
import re
import subprocess
import tempfile

import audit
import preload

TOP = pathlib.Path(__file__).resolve().parents[2]
PACKAGE = TOP / "python/sdtool/audit"
MODULES = sorted(PACKAGE.rglob("*.py"))
# Options of the program sdtool and of other programs, which messages may name.
OF_OTHERS = {"--from", "--to", "--numeric", "--kind", "--owner", "--group", "--token", "--want", "--maximum",
             "--level", "--object",
             "--self", "--type", "--domain", "--user-sids", "--help", "--show-binary"}
START = """
from sdtool.audit.__main__ import main
if __name__ == "__main__":
    main()
"""
# Takes away what Windows lacks, and starts the command, which knows a password as one that asks servers does.
WITHOUT = """
import multiprocessing, os, signal, sys
for module, name in ((os, "sched_getaffinity"), (os, "fork"), (signal, "SIGHUP"),
                     (signal, "pthread_sigmask"), (os, "link")):
    if hasattr(module, name):
        delattr(module, name)
multiprocessing.get_all_start_methods = lambda: ["spawn"]
from sdtool.audit import inquiry
from sdtool.audit.live.access import Access, Secret, Who
informed = inquiry.informed
inquiry.informed = lambda common, *words: informed(
    common._replace(access=Access(who=Who(password=Secret("x")))), *words)
""" + START
# What modules see of another system. All the rest is this one's.
SEEN = """
import concurrent.futures.process, multiprocessing, os, stat, sys, types
import click.core
from sdtool.audit import pool, stopping
def like(module, **other):
    return types.SimpleNamespace(**{**vars(module), **other})
"""
# Windows: Python's pool has a limit, click reads patterns and variables in names, a file that is read-only is neither
# replaced nor removed, and none is removed that is open.
WINDOWS = SEEN + """
pool.sys = stopping.sys = concurrent.futures.process.sys = like(sys, platform="win32")
click.core.os = like(os, name="nt")
multiprocessing.get_all_start_methods = lambda: ["spawn"]
def is_read_only(path):
    return os.path.isfile(path) and not os.stat(path).st_mode & stat.S_IWUSR
def is_open(path):
    return any(os.path.realpath(f"/proc/self/fd/{one}") == os.path.realpath(path)
               for one in os.listdir("/proc/self/fd"))
def unless(is_kept, act):
    def acted(*paths):
        if is_kept(paths[-1]):
            raise PermissionError(13, "Access is denied", paths[-1])
        act(*paths)
    return acted
os.replace = unless(is_read_only, os.replace)
os.remove = unless(lambda path: is_read_only(path) or is_open(path), os.remove)
access = os.access
os.access = lambda path, mode: access(path, mode) and not (mode & os.W_OK and is_read_only(path))
""" + START
# macOS: a fork isn't safe.
MACOS = SEEN + """
pool.sys = like(sys, platform="darwin")
def fork():
    raise OSError("a fork")
os.fork = fork
""" + START


def test_private_names(count: preload.Count) -> None:
    """No module uses a name of another one that begins with an underscore, but for the tables and the library."""
    for path in MODULES:
        tree = ast.parse(path.read_text(encoding="utf-8"))
        imported = set()
        for node in ast.walk(tree):
            if isinstance(node, ast.ImportFrom) and (node.module or "").startswith("sdtool.audit"):
                wrong = [one.name for one in node.names if one.name.startswith("_")]
                count.add(not wrong, f"{path.name} imports {wrong} of {node.module}")
                imported.update(one.asname or one.name for one in node.names)
        wrong = sorted({f"{node.value.id}.{node.attr}" for node in ast.walk(tree) if isinstance(node, ast.Attribute)
                        and isinstance(node.value, ast.Name) and node.value.id in imported
                        and re.match(r"_[a-z]+", node.attr)
                        and node.attr not in ("_replace", "_make", "_fields", "_asdict")})
        count.add(not wrong, f"{path.name} uses {wrong}")


def test_options(count: preload.Count, python: str) -> None:
    """Each option that a text of the package names is there."""
    code = ("from sdtool.audit.command import cli; import click\n"
            "print(*(name for command in cli.commands.values() for one in command.params for name in one.opts + "
            "one.secondary_opts))")
    ended = subprocess.run([python, "-c", code],
                           env={**os.environ, "SDTOOL_LIBRARY": audit.LIBRARY, "PYTHONPATH": str(TOP / "python")},
                           capture_output=True, text=True)
    known = set(ended.stdout.split()) | OF_OTHERS
    count.add(len(known) > 40, f"the options of the commands: {ended}")
    for path in MODULES:
        if path.parent.name == "sources":
            continue
        texts = [node.value for node in ast.walk(ast.parse(path.read_text(encoding="utf-8")))
                 if isinstance(node, ast.Constant) and isinstance(node.value, str)]
        named = {name for text in texts for name in re.findall(r"(?<![\w-])--[a-z][a-z-]*[a-z]", text)}
        count.add(named <= known, f"{path.name} names {sorted(named - known)}")


def test_other_systems(count: preload.Count, python: str) -> None:
    """Without fork, sched_getaffinity and other calls that Windows lacks, each command answers as with them."""
    with tempfile.TemporaryDirectory() as folder:
        place = audit.Place(folder, python, count)
        place.write("without.py", WITHOUT)
        source = place.table(((f"C:\\a\\{at // 50}\\{at}",
                               f"O:BAD:AI(A;ID;FA;;;{audit.DOMAIN}-{1000 + at})(A;;FR;;;WD)")
                              for at in range(20_000)), "many.csv")
        tree = place.table([("C:\\a", "O:BAG:SYD:P(A;OICI;FR;;;BU)"),
                            *((f"C:\\a\\{at}", f"O:{audit.DOMAIN}-{1000 + at}G:SYD:AI(A;ID;FR;;;BU)")
                              for at in range(15_000))], "tree.csv")
        directory = place.write("directory.ldif", f"dn: DC=x\nobjectSid: {audit.DOMAIN}\n\n" + "".join(
            f"dn: CN=pc{at},DC=x\nobjectClass: computer\nsAMAccountName: pc{at}$\n"
            f"objectSid: {audit.DOMAIN}-{1000 + at}\n"
            f"nTSecurityDescriptor: O:DAG:DAD:(A;;GA;;;{audit.DOMAIN}-{2000 + at})\n\n" for at in range(6000)))
        place.write("accept.toml", "[[accept]]\nrule = 'takeover'\nobject = '*1'\nreason = 'a test'\n")
        for words in (["risks", source, "--to", "csv"], ["risks", source, "--accept", "accept.toml"],
                      ["who", "change", source, "--to", "jsonl"],
                      ["can", "WD", "read", source, "--to", "csv"], ["inherit", tree, "--to", "csv"],
                      ["diff", source, tree, "--to", "csv"],
                      ["risks", directory, "--to", "csv"], ["who", "change", directory, "--to", "csv"],
                      ["can", "WD", "read", directory, "--to", "csv"],
                      ["risks", tree, "--into", "kept.db"], ["risks", "kept.db"]):
            asked = [*words, *([] if words[0] == "show" else ["--jobs", "2"])]
            got = subprocess.run([python, "without.py", *asked], cwd=folder,
                                 env={**place.environment, "SDTOOL_AUDIT_MAY_WRITE": "kept.db"}, capture_output=True,
                                 text=True, timeout=audit.SECONDS)
            if "--into" in words:
                os.replace(place.folder / "kept.db", place.folder / "other.db")
            wanted = place.ask(*asked, may_write="kept.db")
            count.add((got.returncode, got.stdout, got.stderr) == (wanted.status, wanted.stdout, wanted.stderr),
                      f"{words} without the calls of Linux: {got.returncode} {got.stderr[-500:]} {got.stdout[-300:]}; "
                      f"with them {wanted}")


def run_as(place: audit.Place, script: str, *words: str) -> audit.Ended:
    ended = subprocess.run([place.python, script, *words], cwd=place.folder, capture_output=True, text=True,
                           timeout=audit.SECONDS, env={**place.environment, "SDTOOL_AUDIT_MAY_WRITE": "out.csv"})
    return audit.Ended(ended.returncode, ended.stdout, ended.stderr)


def test_windows_and_macos(count: preload.Count, python: str) -> None:
    """More processes than Windows waits for, names that look like patterns, an output that is read-only, and no fork on
    macOS."""
    with tempfile.TemporaryDirectory() as folder:
        place = audit.Place(folder, python, count)
        place.write("windows.py", WINDOWS)
        place.write("macos.py", MACOS)
        many = place.table(((f"C:\\a\\{at}", f"O:BAD:(A;;FA;;;{audit.DOMAIN}-{1000 + at})") for at in range(40_000)),
                           "many.csv")
        for script, jobs in (("windows.py", "100"), ("macos.py", "2")):
            words = ("risks", many, "--to", "csv", "--jobs", jobs)
            place.expect(run_as(place, script, *words), place.ask(*words[:4], "--jobs", "2"), f"{words} of {script}")
        place.table([("a", "O:BAD:(A;;FA;;;WD)")], "list1.csv")
        for name in ("list[1].csv", "list*.csv", "$HOME.csv", "~.csv"):
            place.table([("b", "O:BAD:(A;;FA;;;BA)")], name)
            ended = run_as(place, "windows.py", "risks", name)
            place.expect((ended.status, ended.stdout.splitlines()[-1:]), (0, ["1 object: 1 nothing"]),
                         f"{name} on Windows: {ended}")
        place.write("out.csv", "before\n")
        os.chmod(place.folder / "out.csv", 0o444)
        ended = run_as(place, "windows.py", "risks", "list1.csv", "--to", "csv", "--out", "out.csv")
        place.expect((ended.status, "out.csv" in ended.stderr), (2, True), f"an output that is read-only: {ended}")
        os.chmod(place.folder / "out.csv", 0o644)
        os.mkfifo(place.folder / "pipe")
        run = subprocess.Popen([python, "windows.py", "risks", "pipe", "--to", "csv", "--out", "out.csv"], cwd=folder,
                               stderr=subprocess.PIPE, env={**place.environment, "SDTOOL_AUDIT_MAY_WRITE": "out.csv"},
                               text=True)
        with open(place.folder / "pipe", "wb") as pipe:
            os.chmod(place.folder / "out.csv", 0o444)
            pipe.write((place.folder / "list1.csv").read_bytes())
        told = run.communicate(timeout=audit.SECONDS)[1]
        place.expect((run.returncode, "Access is denied" in told), (3, True),
                     f"an output that becomes read-only: {told}")
        place.expect(([path.name for path in place.folder.glob(".*")], (place.folder / "out.csv").read_text()),
                     ([], "before\n"), "nothing is left of a report that could not have its name")


def main(count: preload.Count) -> None:
    if preload.is_chosen(f"static {test_private_names.__name__}"):
        test_private_names(count)
    others = [test for test in (test_options, test_other_systems, test_windows_and_macos) if
              preload.is_chosen(test)]
    python = audit.python_with_packages() if others else None
    if python:
        for other in others:
            other(count, python)
    elif others:
        print("skipped: no Python here has click and rich (Debian: python3-click, python3-rich)")
