"""Runs examples/who_may_write.c and examples/who_may_write.py. The first is built with the words that pkg-config gives.
They run on a folder of files that have the attributes of c/share.txt, and on malformed attributes. Both have to print
what is expected here. The recipe of docs/COOKBOOK.md is run on the same folder without the malformed ones.

The attributes are user.NTACL and user.ntfs_acl, which need no rights; where security.NTACL can be written, that too. Is
there no file system that keeps them, nothing is run.
"""
import os
import pathlib
import re
import shutil
import sys
import tempfile

import c_install
import preload
import run_examples

TOP = c_install.TOP
# Who may change each file of share.txt: by its comment there, and MS-DTYP 2.5.3.2. An owner may change permissions,
# unless the DACL has an ACE for OWNER RIGHTS.
WHO = {
    "share": "S-1-5-32-544",
    "share/drop": "S-1-1-0, S-1-5-18",
    "share/drop/denied.txt": "S-1-5-32-544",
    "share/drop/inherits.txt": "S-1-5-32-544, S-1-5-32-545",
    "share/nobody.txt": "nobody",
    "share/null.txt": "S-1-1-0, S-1-5-32-544",
    "share/plan.txt": "S-1-5-21-1-2-3-1001, S-1-5-21-1-2-3-1105",
}
NO_DESCRIPTOR = "unknown, no descriptor in the attribute"


def attributes():
    """Of each file of share.txt its attributes in Samba's form and as ntfs-3g has them."""
    text = (TOP / "tests/library/c/share.txt").read_text(encoding="utf-8")
    found = re.findall(r"^# file: (.*)\n.*\nuser\.NTACL=0x(.*)\nuser\.ntfs_acl=0x(.*)$", text, re.M)
    return {path: (bytes.fromhex(wrapped), bytes.fromhex(plain)) for path, wrapped, plain in found}


def malformed(wrapped, plain):
    """Attributes in Samba's form that have no answer, and what is said of each."""
    at = wrapped.index(plain[:4], 100)
    dacl = int.from_bytes(wrapped[at + 16:at + 20], "little")
    yield "ace", wrapped[:dacl + 10] + b"\xff" + wrapped[dacl + 11:], "unknown, error 11 ace-size dacl"
    yield "cut", wrapped[:-4], "unknown, error 10 acl dacl"
    yield "empty", b"", NO_DESCRIPTOR
    yield "front", wrapped[:at + 16] + at.to_bytes(4, "little") + wrapped[at + 20:], NO_DESCRIPTOR
    yield "header", wrapped[:at + 19], NO_DESCRIPTOR
    yield "null", wrapped[:8] + bytes(4) + wrapped[12:], NO_DESCRIPTOR
    yield "text", wrapped[:78] + wrapped[78:].replace(b"\0", b"x"), NO_DESCRIPTOR
    yield "version", b"\5\0\5\0" + wrapped[4:], NO_DESCRIPTOR
    yield "versions", b"\3\0" + wrapped[2:], NO_DESCRIPTOR


def can_keep(folder, name):
    path = pathlib.Path(folder, "attribute")
    path.touch()
    try:
        os.setxattr(path, name, b"\0")
    except OSError:
        return False
    finally:
        path.unlink()
    return True


def make_share(folder, prefix):
    """The files of share.txt."""
    for path, (wrapped, plain) in attributes().items():
        target = folder / path
        if target.suffix:
            target.touch()
        else:
            target.mkdir()
        os.setxattr(target, f"{prefix}.NTACL", wrapped)
        if prefix == "user":
            os.setxattr(target, "user.ntfs_acl", plain)


def add_malformed(folder, prefix):
    """More files, in a folder that sorts behind the others. Gives what is said of them."""
    more = folder / "share/z"
    more.mkdir()
    said = [("share/z", "unknown, no attribute")]
    for name, data, text in malformed(*attributes()["share"]):
        (more / name).touch()
        os.setxattr(more / name, f"{prefix}.NTACL", data)
        said.append((f"share/z/{name}", text))
    (more / "w\n.txt").touch()
    (more / "link").symlink_to("../plan.txt")
    said.append(("share/z/w?.txt", "unknown, no attribute"))
    return said


def shown(said):
    return "".join(f"{path}: {text}\n" for path, text in sorted(said))


class Programs:
    """The example in both languages."""

    def __init__(self, count, folder):
        self.environment = {**c_install.install(preload.copy_tree(folder / "tree"), folder / "root"),
                            "PYTHONPATH": str(TOP / "python"),
                            "SDTOOL_LIBRARY": str(folder / f"root{c_install.PREFIX}/lib/libsdtool.so")}
        plain, sanitized = folder / "who_may_write", folder / "sanitized"
        printed, status = self.build(plain)
        count.add(status == 0 and printed == "", f"who_may_write.c: {printed}")
        self.commands = [[plain], [sys.executable, "-B", TOP / "examples/who_may_write.py"]]
        # A compiler may lack the sanitizers.
        if self.build(sanitized, "-fsanitize=address,undefined")[1] == 0:
            self.commands.append([sanitized])

    def build(self, program, *flags):
        words = c_install.ran(["pkg-config", "--cflags", "--libs", "sdtool"], env=self.environment)[0].split()
        compiler = [c_install.COMPILERS["c"], "-std=gnu11", *c_install.WARNINGS, "-O1", "-g", *flags]
        return c_install.ran([*compiler, TOP / "examples/who_may_write.c", *words, "-o", program])

    def test(self, count, folder, words, expected, status):
        for command in self.commands:
            found = c_install.ran([*command, *words], cwd=folder, env=self.environment)
            count.add(found == (expected, status), f"{command[-1]} {words}: {found}\n  not {expected!r}, {status}")


def test_recipe(count, folder, environment):
    """The commands of the cookbook that run_examples.py leaves out."""
    text = (TOP / "docs/COOKBOOK.md").read_text(encoding="utf-8")
    examples = [one for one in run_examples.examples_in(run_examples.blocks_of(text, False))
                if run_examples.OF_LIBRARY.search(one.command)]
    count.add(len(examples) == 2, f"the cookbook has {len(examples)} commands for the library")
    os.environ.update(environment)
    for example in examples:
        printed = run_examples.printed_by(example.command, folder, os.environ["PATH"])
        count.add(printed == example.printed, f"docs/COOKBOOK.md: {example.command}\n  printed {printed!r}")


def main(count: preload.Count) -> None:
    room = next((room for room in (tempfile.gettempdir(), TOP / "out") if can_keep(room, "user.NTACL")), None)
    if room is None or not shutil.which("pkg-config"):
        print("skipped: there is no pkg-config, or no file system here keeps attributes of users")
        return
    with tempfile.TemporaryDirectory(dir=room) as name:
        folder = pathlib.Path(name)
        programs = Programs(count, folder)
        user, security = folder / "user", folder / "security"
        shutil.copytree(TOP / "examples", user)
        make_share(user, "user")
        test_recipe(count, user, programs.environment)
        programs.test(count, user, ["share", "user.ntfs_acl"], shown(WHO.items()), 0)
        programs.test(count, user, ["share", "user.NTACL"], shown(WHO.items()), 0)
        programs.test(count, user, ["share"], shown((path, "unknown, no attribute") for path in WHO), 1)
        programs.test(count, user, ["nothing"], "nothing: unknown, No such file or directory\n", 1)
        said = add_malformed(user, "user")
        programs.test(count, user, ["share", "user.NTACL"], shown([*WHO.items(), *said]), 1)
        if can_keep(folder, "security.NTACL"):
            security.mkdir()
            make_share(security, "security")
            programs.test(count, security, ["share"], shown(WHO.items()), 0)
