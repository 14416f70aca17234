"""Tests of the page that need no browser, by node: what its readers take of texts, the desk that stops what takes too
long, and damaged lines of a report, words of an address and command lines as a shell reads them. A reader may take half
a second of a processor for a hostile text of 400,000 characters. The sources must have no slow pattern, no table that
is looked up by a text but by `valueIn` or a `Map`, and nothing that goes to another page or makes markup of a text.
Without node it is skipped in a line.
"""
import pathlib
import re
import shutil
import subprocess

import preload

FOLDER = pathlib.Path(__file__).resolve().parent / "web"
SECONDS = 3000


def counted(text, word):
    """The number behind a word in the last lines of node's report."""
    found = re.findall(rf"^# {word} (\d+)$", text, re.M)
    return int(found[-1]) if found else None


def main(count: preload.Count) -> None:
    if not shutil.which("node"):
        print("skipped: node (Debian: nodejs)")
        return
    files = [path for path in sorted(FOLDER.glob("*.test.mjs")) if preload.is_chosen(path.name)]
    if not files:
        return
    ended = subprocess.run(["node", "--test", "--test-reporter=tap", *files], capture_output=True, text=True,
                           timeout=SECONDS)
    passed, failed = counted(ended.stdout, "pass"), counted(ended.stdout, "fail")
    is_told = bool(passed) and failed is not None and (failed > 0) == (ended.returncode != 0)
    count.passed, count.failed = passed or 0, failed or 0
    count.add(is_told, f"node ended with {ended.returncode}")
    if count.failed:
        print(ended.stdout, ended.stderr)
