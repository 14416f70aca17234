"""Refuses names in backticks that the sources do not have, in the documents that describe them: a word that names no
file and occurs in no file of crates/, tests/, tools/, packaging/ or the Makefile beside comments, and a file that is
not there. So a document cannot keep the name of what was moved or renamed. It also refuses a file of definitions that
docs/DEFINITIONS.md does not name, a document that README does not list, a link of any document to a file or a heading
that is not there, words by which a document says that it tells of older code, and a logic of docs/PROVED.md that is
not the one of `rt version`, where there is rt. Several kits have one logic, so the kit's own name may differ.
"""
import pathlib
import re
import shutil
import subprocess

import preload

TOP = pathlib.Path(__file__).resolve().parents[2]
DOCUMENTS = [*(f"docs/{name}.md" for name in ("ARCHITECTURE", "DECISIONS", "DEFINITIONS", "PERF", "PROVED")),
             "bench/README.md", "tests/README.md"]
OF_DEFINITIONS = "docs/DEFINITIONS.md"
OF_TOOLCHAIN = "docs/PROVED.md"
FOLDERS = ["crates", "tests", "tools", "packaging", "include", "python", "javascript", "web", "systems",
           "examples", "bench", "docs", "windows", "rust", "go", "dotnet"]
# What edits and kept work say is not what the sources say.
LEFT_OUT = {"out", "target", "must-fail", "edits", "__pycache__"}
NO_DEFINITIONS = {"Lib.antt", "Inner.antt"}  # these only list modules
EDITS = ["crates/*/must-fail/*.edit", "tests/edits/*/*.edit"]
# Names and files of the toolchain's libraries.
OTHERS = {"Stdin", "Rfc4648.antt", "GeneralPurpose.antt", "Engines.antt", "std/specs/Io/KnownBytes.antt",
          "core/specs"}
LOGIC = "logic "  # how the toolchain's line names the logic that it proves in
TOOLCHAIN = (LOGIC, "rt ")  # its logic, its commands
FILE = re.compile(r"[\w./*-]*\.(?:rt|antt|py|sh|md|json|txt|c|h|1)")
WORD = re.compile(r"[A-Za-z_]\w*")
COMMENT = {".rt": re.compile(r"//.*"), ".antt": re.compile(r"--.*")}
NONE = re.compile(r"(?!)")
LINK = re.compile(r"\[[^\]]*\]\(([^)#:]*)(?:#([^)]*))?\)")
HEADING = re.compile(r"^#+ (.*)$", re.M)
BLOCK = re.compile(r"^```.*?^```$", re.S | re.M)
# A document says what is true. A figure that is not has to be measured again, or to go.
OLD = re.compile(r"""\b(?:older\ than\ (?!the\ text\b)|not\ (?:taken|measured|counted|run)\ again
                     |(?:measured|counted)\ before\b|before\ (?:the\ changes\ of|there\ (?:was|were))\b
                     |(?:fewer|less)\ (?:\w+\ )?then\b|any\ more\b|no\ longer\b
                     |(?<!is\ )(?<!are\ )(?<!be\ )used\ to\b|formerly\b|previously\b|since\ then\b)""", re.I | re.X)


def files():
    """The files that a document may name."""
    yield from (path for path in TOP.iterdir() if path.is_file())
    for folder in FOLDERS:
        for path in (TOP / folder).rglob("*"):
            if path.is_file() and not LEFT_OUT.intersection(path.relative_to(TOP).parts):
                yield path


def is_source(path):
    is_below = path.relative_to(TOP).parts[0] in ("crates", "tests", "tools", "packaging")
    return path.name == "Makefile" or is_below and path != pathlib.Path(__file__).resolve()


def is_definitions(path):
    parts = path.relative_to(TOP).parts
    return (parts[0] == "crates" and "specs" in parts and "Inner" not in parts and path.suffix == ".antt"
            and path.name not in NO_DEFINITIONS)


def spans_in(text):
    """What stands in backticks outside fenced blocks, with the number of its line."""
    inside = False
    for number, line in enumerate(text.splitlines(), 1):
        if line.startswith("```"):
            inside = not inside
        elif not inside:
            yield from ((number, span) for span in re.findall(r"`([^`]+)`", line))


def anchor_of(heading):
    """What a link names a heading by."""
    return re.sub(r"[^\w\- ]", "", heading.lower()).replace(" ", "-")


def judge_links(count, document):
    for path, anchor in LINK.findall(BLOCK.sub("", document.read_text(encoding="utf-8"))):
        target = document.parent / path if path else document
        is_there = target.exists()
        if is_there and anchor:
            headings = HEADING.findall(BLOCK.sub("", target.read_text(encoding="utf-8")))
            is_there = anchor in map(anchor_of, headings)
        count.add(is_there, f"{document.relative_to(TOP)}: a link leads to {path}#{anchor}, which is not there")


def judge_age(count, document):
    found = OLD.search(" ".join(document.read_text(encoding="utf-8").split()))
    count.add(not found, f"{document.relative_to(TOP)}: it tells of older code by '{found and found[0]}'")


def judge_list(count):
    """The list of documents at the end of README has each of them."""
    listed = (TOP / "README.md").read_text(encoding="utf-8").partition("\n## Documents\n")[2]
    for document in sorted([*TOP.glob("docs/*.md"), TOP / "CONTRIBUTING.md"]):
        name = document.relative_to(TOP)
        count.add(f"]({name})" in listed, f"README.md: the list of documents lacks {name}")


def judge_toolchain(count):
    """The logic that PROVED names is the one that proves here."""
    text = (TOP / OF_TOOLCHAIN).read_text(encoding="utf-8")
    named = [span for _, span in spans_in(text) if span.startswith(LOGIC)]
    count.add(len(named) == 1, f"{OF_TOOLCHAIN}: it names {len(named)} logics")
    if not shutil.which("rt"):
        print(f"the logic of {OF_TOOLCHAIN}: skipped, there is no command rt")
        return
    told = subprocess.run(["rt", "version"], stdout=subprocess.PIPE, check=True).stdout.decode().strip()
    count.add(named == [told[told.find(LOGIC):]], f"{OF_TOOLCHAIN}: it names {named}, and rt version prints {told}")


def is_known(word, words):
    """A word that ends in _ is the front of names."""
    return word in words or word.endswith("_") and any(name.startswith(word) for name in words)


def main(count: preload.Count) -> None:
    paths, words = list(files()), set()
    for path in filter(is_source, paths):
        text = path.read_text(encoding="utf-8", errors="ignore")
        words.update(WORD.findall(COMMENT.get(path.suffix, NONE).sub("", text)), path.relative_to(TOP).parts)
    words.update(path.stem for path in paths)
    words.update(path.stem for place in EDITS for path in TOP.glob(place))
    names = ["/" + str(path.relative_to(TOP)) for path in paths]
    for document in DOCUMENTS:
        for number, span in spans_in((TOP / document).read_text(encoding="utf-8")):
            if span in OTHERS or span.startswith(TOOLCHAIN):
                continue
            if FILE.fullmatch(span):
                pattern = re.compile("/" + re.escape(span).replace(r"\*", "[^/]*") + "$")
                count.add(any(map(pattern.search, names)), f"{document}:{number}: there is no file {span}")
            else:
                missing = [word for word in WORD.findall(span) if not is_known(word, words)]
                count.add(not missing, f"{document}:{number}: nothing is named {', '.join(missing)}")
    for document in [*TOP.glob("*.md"), *TOP.glob("docs/*.md"), *TOP.glob("bench/*.md"), *TOP.glob("tests/*.md")]:
        judge_links(count, document)
        judge_age(count, document)
    judge_list(count)
    judge_toolchain(count)
    named = (TOP / OF_DEFINITIONS).read_text(encoding="utf-8")
    for path in filter(is_definitions, paths):
        is_named = re.search(rf"`(?:[\w/]*/)?{path.stem}(?:\.antt)?`", named)
        count.add(is_named, f"{OF_DEFINITIONS}: it does not name {path.relative_to(TOP)}")
