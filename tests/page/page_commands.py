"""Runs the page's commands that set a descriptor, where they can be: samba-tool and sharesec of Samba, in a private
state. What Samba prints of the object afterwards has to be the edited descriptor, but for what the page says the
command leaves out. SDDL in the commands is the library's, by the module that `make wasm` builds. It needs Node, the
module, and Debian's samba, samba-common-bin and attr; else it is skipped in a line.
"""
import concurrent.futures
import json
import os
import pathlib
import random
import shutil
import subprocess
import tempfile

import preload

HERE = pathlib.Path(__file__).resolve()
MODULE = preload.TOP / "out/systems/wasm/sdtool.mjs"
TOOLS = ("samba-tool", "sharesec", "net", "setfattr")
SECONDS = 600
DOMAIN = "S-1-5-21-1-2-3"
EDITS = 24
TOGETHER = 4
SIDS = ("BA", "SY", "WD", "AU", "CO", "OW", "S-1-5-80-1-2-3", "S-1-15-2-1", f"{DOMAIN}-512", f"{DOMAIN}-1105")
MASKS = ("FA", "FR", "0x1301bf", "0x1200a9", "GA", "GRGW", "0x0", "KA", "CCLCRP", "0x1f01ff", "SDRCWDWO", "0x2000000")
# Files whose names are hostile to a shell, or to a program's options.
NAMES = ("plain", "-x", "--help", "a b'c", "line\nend\n", "$(id)`id`\"", "\u001b[201~;id", "\u202eevil", "a\\101b",
         "%s%n", "\u738b", "'\\''", "~", "*", "-q\n", "a\tb")
SHARES = ("data", "-x", "a b$", "it's", "%n")


def asked(**about):
    ended = subprocess.run(["node", HERE.with_suffix(".mjs"), MODULE], input=json.dumps(about), capture_output=True,
                           text=True, timeout=SECONDS, check=True)
    return json.loads(ended.stdout)


def descriptor(chance):
    def aces(kinds, flags, most):
        return "".join(f"({chance.choice(kinds)};{chance.choice(flags)};{chance.choice(MASKS)};;;{chance.choice(SIDS)})"
                       for _ in range(chance.randrange(most)))

    dacl = aces("AAD", ("", "OICI", "OICIID", "CIIO", "OINP", "ID"), 6)
    sacl = aces(("AU",), ("SA", "FA", "OICISAFA"), 3) + chance.choice(("", "", "(ML;;NW;;;ME)"))
    return (f"O:{chance.choice(SIDS)}G:{chance.choice(SIDS)}D:{chance.choice(('', 'P', 'AI', 'PAI'))}{dacl}"
            + (f"S:{sacl}" if sacl else ""))


class Samba:
    """Samba in a folder of its own. Its programs are called by scripts of their names that add its settings."""

    def __init__(self, folder):
        self.folder = folder
        self.files = folder / "files"
        for name in ("private", "files", "bin"):
            (folder / name).mkdir()
        settings = "".join(f"{name} directory = {folder}/private\n" for name in ("state", "lock", "cache", "pid"))
        shares = "".join(f"[{name}]\npath = {self.files}\n" for name in SHARES)
        self.settings = folder / "smb.conf"
        self.settings.write_text(f"[global]\nnetbios name = TEST\nworkgroup = TESTS\nprivate dir = {folder}/private\n"
                                 f"{settings}{shares}")
        for name, words in (("samba-tool", f'"$@" --xattr-backend=native --use-ntvfs --configfile={self.settings}'),
                            ("sharesec", f'-s {self.settings} "$@"')):
            script = folder / "bin" / name
            script.write_text(f"#!/bin/sh\nexec {shutil.which(name)} {words}\n")
            script.chmod(0o755)
        self.environment = {**os.environ, "PATH": f"{folder}/bin:{os.environ['PATH']}"}
        for which in ("setlocalsid", "setdomainsid"):
            subprocess.run(["net", which, DOMAIN, "-s", self.settings], check=True, capture_output=True)

    def run(self, *words):
        return subprocess.run(words, cwd=self.files, env=self.environment, capture_output=True, text=True,
                              timeout=SECONDS)

    def told(self, tool, name):
        """The descriptor of a file or of a share, as Samba prints it."""
        words = (["samba-tool", "ntacl", "get", "--as-sddl", f"./{name}"] if tool == "samba-tool" else
                 ["sharesec", "--viewsddl", "--", name])
        return self.run(*words).stdout.strip()


def without_label(sddl):
    text = sddl.replace("(ML;;NW;;;ME)", "")
    return text[:-2] if text.endswith("S:") else text


def try_commands(count, samba):
    chance = random.Random(95)
    edits = []
    for at in range(EDITS):
        before, after = descriptor(chance), descriptor(chance)
        edits.append({"kind": "file", "name": NAMES[at % len(NAMES)], "before": before, "after": after})
        edits.append({"kind": "share", "name": SHARES[at % len(SHARES)], "before": before, "after": after})
    jobs = [(edit, row) for edit, rows in zip(edits, asked(edits=edits, domain=DOMAIN)["commands"]) for row in rows
            if row["tool"] in ("samba-tool", "sharesec")]
    count.add(len(jobs) == 2 * EDITS and all(row["text"] for _, row in jobs), f"{len(jobs)} commands: {jobs[:3]}")

    def ran(job):
        edit, row = job
        (samba.files / edit["name"]).touch()
        ended = samba.run("sh", "-c", row["text"])
        return ended.returncode, ended.stderr, samba.told(row["tool"], edit["name"])

    # Of each name one command at a time.
    by_name = {}
    for job in jobs:
        by_name.setdefault((job[1]["tool"], job[0]["name"]), []).append(job)
    with concurrent.futures.ThreadPoolExecutor(TOGETHER) as threads:
        found = list(threads.map(lambda some: [(*job, *ran(job)) for job in some], by_name.values()))
    all_found = [one for some in found for one in some]
    pairs = [(without_label(edit["after"]), told) for edit, _, _, _, told in all_found]
    same = asked(pairs=pairs, domain=DOMAIN)["same"]
    for (edit, row, status, errors, told), is_same in zip(all_found, same):
        count.add(status == 0 and is_same,
                  f"{row['text']} gives {status} {errors[-300:]} and {told}, not {edit['after']}")
        label = [("(ML;" in edit[side]) for side in ("before", "after")]
        count.add(row["leavesOut"] == (["the label"] if label[0] != label[1] else []),
                  f"{edit}: it leaves out {row['leavesOut']}")


def try_library(count):
    """The SDDL of commands is the library's: with names where these are of no domain."""
    before = "O:BAG:SYD:AI(A;OICIID;FA;;;BA)"
    rows = [
        ("file", "D:\\x", "O:BAG:SYD:PAI(A;OICI;FA;;;BA)(A;;0x1301bf;;;DA)", False, "Set-Acl",
         f"'D:PAI(A;OICI;FA;;;BA)(A;;0x1301bf;;;{DOMAIN}-512)', 'Access')"),
        ("file", "D:\\x", "O:DAG:SYD:AI(A;OICIID;FA;;;BA)", True, "Set-Acl", "'O:DA', 'Owner')"),
        ("service", "x", "O:BAG:SYD:(A;;CCLC;;;SU)S:(AU;SA;CC;;;WD)", False, "sc.exe",
         "sc.exe sdset 'x' 'D:(A;;CCLC;;;SU)S:(AU;SA;CC;;;WD)'"),
        ("log", "x", "O:BAG:SYD:(A;;CC;;;SU)", False, "wevtutil sl", "'/ca:O:BAG:SYD:(A;;CC;;;SU)'"),
        ("com", "LaunchPermission", "O:BAG:SYD:(A;;CC;;;SU)", False, "reg", "/d '010004801400000024000000"),
        ("folder", "/x", "O:BAG:SYD:(A;;FA;;;SU)", False, "samba-tool",
         "'O:S-1-5-32-544G:S-1-5-18D:(A;;0x1f01ff;;;S-1-5-6)' '/x'"),
        ("folder", "D:\\x", "O:BAG:SYD:PAI(A;OICI;FA;;;BA)", False, "icacls", "icacls 'D:\\x' /inheritance:d"),
    ]
    edits = [{"kind": kind, "name": name, "before": before, "after": after, "isStandIn": is_stand_in}
             for kind, name, after, is_stand_in, _, _ in rows]
    for (*_, tool, text), told in zip(rows, asked(edits=edits, domain=DOMAIN)["commands"]):
        found = [row for row in told if row["tool"] == tool]
        count.add(len(found) == 1 and text in found[0]["text"], f"{tool}: {found}, not {text}")


def main(count: preload.Count) -> None:
    if not shutil.which("node") or not MODULE.exists():
        print("skipped: node (Debian: nodejs), or the module (make wasm)")
        return
    try_library(count)
    if not all(map(shutil.which, TOOLS)):
        print("skipped: samba-tool, sharesec, net or setfattr (Debian: samba, samba-common-bin, attr)")
        return
    with tempfile.TemporaryDirectory() as folder:
        samba = Samba(pathlib.Path(folder))
        probe = samba.files / "probe"
        probe.touch()
        if subprocess.run(["setfattr", "-n", "security.NTACL", "-v", "0x00", probe], capture_output=True).returncode:
            print("skipped: samba-tool can't set attributes here")
            return
        try_commands(count, samba)
