"""Tests tools/prove.py with an rt that proves nothing but notes what it was asked: each crate is proved once, behind
those below it, by the first rt or by the second; where the second fails, the first proves all; and where the first
ends, nothing of the second is left.
"""
import os
import pathlib
import subprocess
import sys
import tempfile

import preload

LISTED = "low:\nleft: low\nright: low\nhigh: right\ntop: left high\n"
# Takes what is proved from the other, as the true one does between two checkouts.
STUB = """#!/usr/bin/env python3
import os, pathlib, sys, time
sys.path.insert(0, os.environ["TOOLS"])
import prove
state, crate, is_second = pathlib.Path(os.environ["STATE"]), pathlib.Path.cwd().name, sys.argv[1] == "lib"
for name in [crate] if is_second else prove.in_order(crate, prove.dependencies()):
    if is_second and os.environ["SECOND"] == "fails":
        sys.exit(1)
    try:
        (state / name).mkdir()
    except FileExistsError:
        while not (state / name / "proved").exists():
            time.sleep(0.05)
        continue
    below = [one for one in prove.dependencies()[name] if not (state / one / "proved").exists()]
    print(f"rt: chose --jobs 1 for {name}", flush=True)
    if not is_second and name == os.environ["FAILS"]:
        sys.exit(3)
    time.sleep(60 if is_second and os.environ["SECOND"] == "hangs" else 3 if name == "left" else 1)
    with open(state / "log", "a") as log:
        log.write(f"{name} {'second' if is_second else 'first'} {'over ' + ' '.join(below) if below else ''}\\n")
    (state / name / "proved").touch()
"""
RUN = "import sys, prove; prove.has_room = lambda: True; sys.argv = ['prove.py', 'top', 'run']; sys.exit(prove.main())"


def proved(second, fails=""):
    """The status, what was proved by whom, and what is left in out/ and in the list of processes."""
    with tempfile.TemporaryDirectory(prefix="sdtool-proving-") as name:
        folder = pathlib.Path(name)
        for crate in LISTED.split(":")[0], "left", "right", "high", "top":
            (folder / "tree/crates" / crate / "src").mkdir(parents=True)
        for one in ("tree/tools", "bin", "state"):
            (folder / one).mkdir()
        (folder / "tree/crates.txt").write_text(LISTED, encoding="utf-8")
        tool = folder / "tree/tools/prove.py"
        tool.write_bytes((preload.TOP / "tools/prove.py").read_bytes())
        (folder / "bin/rt").write_text(STUB, encoding="utf-8")
        (folder / "bin/rt").chmod(0o755)
        surroundings = {**os.environ, "PATH": f"{folder / 'bin'}:{os.environ['PATH']}", "STATE": str(folder / "state"),
                        "TOOLS": str(tool.parent), "PYTHONPATH": str(tool.parent), "SECOND": second, "FAILS": fails}
        status = subprocess.run([sys.executable, "-c", RUN], env=surroundings, cwd=folder, check=False,
                                stdout=subprocess.DEVNULL).returncode
        log = folder / "state/log"
        rows = [row.split(" ", 2) for row in log.read_text(encoding="utf-8").splitlines()] if log.exists() else []
        left = [one.name for one in (folder / "tree/out").iterdir() if one.is_dir()]
        going = subprocess.run(["pgrep", "-f", f"{name}/"], stdout=subprocess.PIPE, check=False, text=True).stdout
        return status, rows, [*left, *going.split()]


def main(count: preload.Count) -> None:
    names = ["high", "left", "low", "right", "top"]
    for second, fails in (("works", ""), ("fails", ""), ("hangs", "left"), ("works", "low")):
        status, rows, left = proved(second, fails)
        what = f"a second rt that {second}, a first that fails at {fails or 'nothing'}: {status}, {rows}, {left}"
        count.add(status == (3 if fails else 0), what)
        count.add(not any(before for _, _, before in rows) and not left, what)
        if not fails:
            count.add(sorted(crate for crate, _, _ in rows) == names, what)
            count.add(any(who == "second" for _, who, _ in rows) == (second == "works"), what)
