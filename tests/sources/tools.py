"""Tests that files written by scripts are as they write them. Also looks whether each edit still applies, what
formatters and linters say, whether tools/literals.py keeps the reasons in its file, and for files at which the gate
stops before its first proof.
"""
import subprocess

import literals
import preload

COMMANDS = ("tools/alias_places.py --check", "tools/name_cells.py --check", "tools/usual_texts.py --check",
            "tools/contents.py --check", "packaging/completions.py --check", "windows/write.py --check",
            "tools/languages.py --check", "tools/edits.py --apply", "tools/lint")
CHANGE = literals.Change(0, "Rattle.sd_ace.specs.Ace", 4, 2, "1", "2", "", "is_ace")


def judge_literals(count):
    """tests/literals.txt is as it is written. A crate's changes replace its own alone, and each reason stays."""
    text = literals.LEFT.read_text(encoding="utf-8")
    left = literals.Left(text)
    count.add(str(left) == text, f"{literals.LEFT.name} is not as tools/literals.py writes it")
    named = [name for names, _, _ in left.sections for name in names]
    crates = literals.layers.dependencies(preload.TOP)
    count.add(len(named) == len(set(named)) and crates.keys() >= set(named), f"its crates are {named}")
    rows = [f"{crate}.Ace '1' -> '2' in is_ace" for crate in ("sd_ace", "sd_acl_view")]
    before = "# A front.\n\nsd_ace, sd_acl_view: a reason\n"
    left = literals.Left(before + f"  sd_ace.Old '3' -> '4' in is_old\n  {rows[1]}\n")
    left.take("sd_ace", [CHANGE])
    left.take("sd_sid", [CHANGE._replace(module="Rattle.sd_sid.specs.Sid")])
    left.take("sd_text", [])
    after = f"{before}  {rows[1]}\n  {rows[0]}\nsd_sid: {literals.NO_REASON}\n  sd_sid.Sid '1' -> '2' in is_ace\n"
    count.add(str(left) == after, f"changes of three crates were taken, and the file is {left}")


def judge_files(count):
    """`rt ci` proves nothing where the tree has a link, or a source that no check reads."""
    words = ["git", "-C", str(preload.TOP), "ls-files", "--stage"]
    for line in subprocess.run(words, stdout=subprocess.PIPE, check=True, text=True).stdout.splitlines():
        mode, (*_, name) = line[:6], line.split("\t")
        count.add(mode != "120000", f"{name} is a link")
        is_unread = name.endswith((".rt", ".antt")) and not name.startswith("crates/")
        count.add(not is_unread, f"{name} is outside of crates/")


def main(count: preload.Count) -> None:
    judge_files(count)
    if preload.is_chosen(judge_literals):
        judge_literals(count)
    for command in filter(preload.is_chosen, COMMANDS):
        script, *options = command.split()
        count.add_run([str(preload.TOP / script), *options])
