#!/usr/bin/env python3
"""contents.py [--check]

Writes tests/README.md, what each test and tool does, from the first sentences of their docstrings; modules that only
tests import are left out. A sentence ends at its colon if enough words are before that, and a long one at such a comma.
With --check it writes nothing: a stale page is a failure, and so is a sentence of more than 25 words. The last line is
then 'N passed, M failed'.
"""
import argparse
import ast
import pathlib
import re
import sys
from typing import Dict

sys.dont_write_bytecode = True
sys.path.append(str(pathlib.Path(__file__).resolve().parent.parent / "tests/shared"))
import preload  # noqa: E402

PAGE = preload.TOP / "tests/README.md"
HEAD = """# Tests

`tests/run audit_forms page_kinds` runs two tests, `tests/run audit/` all of a folder; `--only WORD` chooses parts, \
`--list` prints the names. `tools/contents.py` writes this page from the first sentence of each docstring.

`rows/` has the worked rows, `reference/` the independent implementation that answers are compared with.
"""
ENOUGH_WORDS, LONG, MOST_WORDS = 8, 15, 25
SENTENCE = re.compile(r".*?\.(?=\s|$)")
USAGE = re.compile(r"\w+\.py\b")
CUT = re.compile(r"[:,;] (?![^(]*\))")  # outside parentheses
MAIN = re.compile(r"^def main\(", re.M)


def sentence_of(text: str) -> str:
    """The first sentence of a file's docstring, behind the line that says how to call it."""
    text = ast.get_docstring(ast.parse(text)) or ""
    if USAGE.match(text):
        text = text.partition("\n\n")[2]
    found = SENTENCE.match(" ".join(text.split()))
    if not found:
        return ""
    cuts = [cut.start() for cut in CUT.finditer(found[0]) if cut[0] == ": " or len(found[0].split()) > LONG]
    fronts = [found[0][:cut] for cut in cuts if len(found[0][:cut].split()) >= ENOUGH_WORDS]
    return f"{fronts[0]}." if fronts else found[0]


def sentences() -> Dict[str, Dict[str, str]]:
    """The sentence of each test and tool by its name, for each folder."""
    found: Dict[str, Dict[str, str]] = {}
    for path in sorted([*preload.TOP.glob("tests/*/*.py"), *preload.TOP.glob("tools/*.py")]):
        text = path.read_text(encoding="utf-8")
        if MAIN.search(text):
            folder = path.parent.relative_to(preload.TOP).as_posix()
            found.setdefault(folder, {})[path.stem] = sentence_of(text)
    return found


def page() -> str:
    text = HEAD
    for folder, names in sentences().items():
        text += f"\n## {folder}\n\n" + "".join(f"- `{name}`: {sentence}\n" for name, sentence in names.items())
    return text


def check() -> int:
    count = preload.Count(most_shown=1000)
    for folder, names in sentences().items():
        for name, sentence in names.items():
            words = len(sentence.split())
            count.add(0 < words <= MOST_WORDS, f"{folder}/{name}.py: its first sentence has {words} words")
    is_there = PAGE.is_file() and PAGE.read_text(encoding="utf-8") == page()
    count.add(is_there, "tests/README.md is stale: run make figures")
    return count.end()


def main() -> int:
    parser = argparse.ArgumentParser(description="Writes tests/README.md from the docstrings of the tests.")
    parser.add_argument("--check", action="store_true", help="writes nothing, and fails where the page is stale")
    if parser.parse_args().check:
        return check()
    PAGE.write_text(page(), encoding="utf-8")
    return 0


if __name__ == "__main__":
    sys.exit(main())
