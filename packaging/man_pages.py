#!/usr/bin/env python3
"""man_pages.py FOLDER

Writes the man pages of the library (section 3) to FOLDER, from the comments and declarations of include/sdtool.h: a
page for each function, and sdtool.h.3 for the structs, the numbers and what holds for all calls. With --list it prints
their names instead, and FOLDER is left out.
"""
import pathlib
import re
import sys
from typing import Iterator, Tuple

HERE = pathlib.Path(__file__).resolve().parent
HEADER = (HERE.parent / "include/sdtool.h").read_text(encoding="utf-8")
VERSION, = re.findall(r"(?m)^Version: (.*)$", (HERE / "control").read_text(encoding="utf-8"))
# A comment and the function directly below it.
FUNCTION = re.compile(r"/\*((?:(?!\*/).)*)\*/\n((?:struct \w+|uint32_t|size_t|bool) (sdtool_\w+)\([^;]*\);)", re.DOTALL)
PARAGRAPH = re.compile(r"\n\s*\n")
WHOLE = "sdtool.h"


def escaped(text: str) -> str:
    """Text of a page: no character of it is a request or an escape."""
    text = text.replace("\\", "\\e").replace("-", "\\-").replace("'", "\\(aq").replace("`",
                                                                                       "\\(ga").replace("^", "\\(ha")
    return re.sub(r"(?m)^\.", r"\\&.", text)


def lines_of(comment: str) -> str:
    """The lines of a comment without what begins each of them."""
    return "\n".join(re.sub(r"^ ?\*? ?", "", line).rstrip() for line in comment.strip().split("\n")).strip()


def paragraphs(comment: str) -> Iterator[str]:
    """A comment as paragraphs; what is indented in it is code."""
    for paragraph in PARAGRAPH.split(lines_of(comment)):
        yield from ((".PP", ".EX", escaped(paragraph), ".EE") if paragraph.startswith("    ")
                    else (".PP", escaped(paragraph)))


def summary(comment: str) -> str:
    """The first sentence of a comment, as the line of a list."""
    first = re.split(r"(?<=[.:])\s", " ".join(lines_of(comment).split()), maxsplit=1)[0].rstrip(".:")
    return first[0].lower() + first[1:]


def page(name: str, about: str, synopsis: str, *sections: str) -> str:
    front = [f".TH {escaped(name).upper()} 3 \"\" \"sdtool {VERSION}\" \"Library Functions Manual\"",
             ".SH NAME", f"{escaped(name)} \\- {escaped(about)}", ".SH LIBRARY", "libsdtool (\\-lsdtool)",
             ".SH SYNOPSIS", ".nf", escaped(synopsis), ".fi"]
    return "\n".join([*front, *sections]) + "\n"


def pages() -> Iterator[Tuple[str, str]]:
    """The name of each page, and the page."""
    functions = [(found[3], found[1], found[2]) for found in FUNCTION.finditer(HEADER)]
    for name, comment, declaration in functions:
        others = [f".BR {other} (3)," for other, *_ in functions if other != name]
        yield f"{name}.3", page(name, summary(comment), f"#include <sdtool.h>\n\n{declaration}",
                                ".SH DESCRIPTION", *list(paragraphs(comment))[1:], ".PP", "The structs, the numbers of",
                                "faults and what holds for all calls are in", f".BR {WHOLE} (3).", ".SH SEE ALSO",
                                *others, f".BR {WHOLE} (3)")
    front = HEADER[len("/*"):HEADER.index("*/")]
    rest = HEADER.partition("#define SDTOOL_VERSION_TEXT")[2].partition("\n\n")[2].partition("#ifdef __cplusplus\n}")[0]
    declared = FUNCTION.sub("", rest)
    yield f"{WHOLE}.3", page(WHOLE, "Windows security descriptors and SDDL", "#include <sdtool.h>",
                             ".SH DESCRIPTION", *list(paragraphs(front))[1:], ".SH DECLARATIONS", ".nf",
                             escaped(re.sub(r"\n{3,}", "\n\n", declared).strip()), ".fi", ".SH SEE ALSO",
                             *(f".BR {name} (3)," for name, *_ in functions), ".BR sdtool (1)")


def main() -> None:
    if sys.argv[1:] == ["--list"]:
        print(*(name for name, _ in pages()))
        return
    if len(sys.argv) != 2:
        sys.exit("usage: man_pages.py FOLDER | --list")
    folder = pathlib.Path(sys.argv[1])
    folder.mkdir(parents=True, exist_ok=True)
    for name, text in pages():
        path = folder / name
        path.write_text(text, encoding="utf-8")
        path.chmod(0o644)


if __name__ == "__main__":
    main()
