"""Checks what each crate and module may import. Modules are those of the audit and of the page. It also checks the size
of crates. Each crate has four checks:

  parts of others  no file names another crate's `specs.Inner`, or a module of its `proofs` outside `proofs.laws`
  laws             no file of `proofs/laws` names `specs.Inner` of its own crate, or the goals of one of its functions
  dependencies     crates.txt lists for this crate each crate that a file of `src` names, and none that no file names
  size             `src` has at most 1,600 lines, since a change below a crate has all of it checked again

Of the page and of the audit, docs/ARCHITECTURE.md has a table of modules from the top. Each imports only what comes
later there, and the table has each module. A name with a slash is a folder of the audit: its modules may import each
other too. No modules of the audit import each other in a circle.
"""
import ast
import graphlib
import re

import preload

COMMENTS = {".rt": re.compile(r"//.*"), ".antt": re.compile(r"(?<!\S)--.*")}
MODULE = re.compile(r"\bRattle[.·](?:\w+[.·]below[.·])?(\w+)((?:[.·][\w-]+)*)")
RUST_PATH = re.compile(r"(?<![\w:.])(\w+)::|\buse\s+(\w+)(?:\s*;|\s+as\b)")
OF_ONE_FUNCTION = {"Goals", "Given", "Answers", "Invariants", "Proof"}
MOST_LINES = 1600  # of src
PAGE = "web"
AUDIT = "sdtool.audit"
IMPORT_OF_PAGE = re.compile(r'\bfrom\s+"\./(\w+)\.mjs"|\bimport\(\s*"\./(\w+)\.mjs"')


def dependencies(top):
    """What crates.txt lists for each crate."""
    rows = [line.partition("#")[0] for line in (top / "crates.txt").read_text(encoding="utf-8").splitlines()]
    named = [row.partition(":") for row in rows if row.strip()]
    return {name.split()[0]: set(libraries.split()) for name, _, libraries in named}


def lines_of(folder):
    """Each line of the crate's files without its comment, with the file's path in the crate and the line's number."""
    for part in ("src", "specs", "proofs"):
        for path in sorted((folder / part).rglob("*")):
            if path.suffix in COMMENTS:
                for number, line in enumerate(path.read_text(encoding="utf-8").splitlines(), 1):
                    yield path.relative_to(folder), number, COMMENTS[path.suffix].sub("", line)


def modules_in(line):
    """Each crate that a path of modules begins with, and the rest of the path."""
    for crate, rest in MODULE.findall(line):
        yield crate, re.split("[.·]", rest)[1:]


def is_inner(module):
    return module[:2] == ["specs", "Inner"]


def is_proof_outside_laws(module):
    return module[:1] == ["proofs"] and module[1:2] != ["laws"]


def is_of_one_function(module):
    return module[:1] == ["proofs"] and not OF_ONE_FUNCTION.isdisjoint(module)


def violations(crate, folder, listed):
    """By the name of the check, each place that breaks its rule."""
    libraries = listed.keys() | set().union(*listed.values())
    beyond, unnamed = libraries - listed[crate] - {crate}, set(listed[crate])
    found = {"parts of others": [], "laws": [], "dependencies": []}
    for path, number, line in lines_of(folder):
        place = f"{path}:{number}: {line.strip()[:100]}"
        is_law = path.parts[:2] in (("proofs", "laws"), ("proofs", "laws.antt"))
        for other, module in modules_in(line):
            unnamed.discard(other)
            if other != crate and other in listed and (is_inner(module) or is_proof_outside_laws(module)):
                found["parts of others"].append(place)
            if other == crate and is_law and (is_inner(module) or is_of_one_function(module)):
                found["laws"].append(place)
        if path.parts[0] == "src":
            named = {name for names in RUST_PATH.findall(line) for name in names}
            named |= {other for other, _ in modules_in(line)}
            found["dependencies"] += [place] if named & beyond else []
            unnamed -= named
    found["dependencies"] += [f"crates.txt lists {other}, which no file names" for other in sorted(unnamed)]
    return found


def size(folder):
    """How many lines `src` has."""
    return sum(len(path.read_text(encoding="utf-8").splitlines()) for path in (folder / "src").rglob("*.rt"))


def modules_of(top, heading):
    """The modules of the table below a heading of ARCHITECTURE, from the top."""
    text = (top / "docs/ARCHITECTURE.md").read_text(encoding="utf-8")
    section = text.partition(f"\n## {heading}\n")[2].partition("\n## ")[0]
    cells = re.findall(r"^\| ((?:`\w+/?`(?:, )?)+) \|", section, re.M)
    return [name for cell in cells for name in re.findall(r"`(\w+/?)`", cell)]


def page_imports(top):
    texts = {path.stem: path.read_text(encoding="utf-8") for path in (top / PAGE).glob("*.mjs")}
    return {name: {one or other for one, other in IMPORT_OF_PAGE.findall(text)} for name, text in texts.items()}


def judge_modules(count, modules, imports):
    """No module of the page imports an earlier one, and each is in the table once."""
    count.add(sorted(modules) == sorted(imports),
              f"web/: ARCHITECTURE has {sorted(modules)}, and these are there: {sorted(imports)}")
    place = {name: at for at, name in enumerate(modules)}
    for name, named in imports.items():
        upward = sorted(other for other in named if place.get(other, -1) <= place.get(name, -1))
        count.add(not upward, f"web/{name}.mjs imports what is above it: {', '.join(upward)}")


def audit_imports(top):
    """For each module of the audit the modules of the audit that it imports, each by its path."""
    folder = top / "python" / AUDIT.replace(".", "/")
    paths = {path.relative_to(folder).with_suffix("").as_posix(): path
             for path in folder.rglob("*.py") if path.name != "__init__.py"}
    found = {}
    for name, path in paths.items():
        named = []
        for node in ast.walk(ast.parse(path.read_text(encoding="utf-8"))):
            if isinstance(node, ast.ImportFrom):
                named += [f"{node.module}.{one.name}" for one in node.names] + [node.module]
            elif isinstance(node, ast.Import):
                named += [one.name for one in node.names]
        inner = {one[len(AUDIT) + 1:].replace(".", "/") for one in named if one.startswith(AUDIT + ".")}
        found[name] = inner & paths.keys()
    return found


def room_of(module):
    """The folder of a module of the audit, or the module itself if it is in none."""
    folder, slash, _ = module.partition("/")
    return folder + slash


def judge_audit(count, rooms, imports):
    """No module of the audit imports what is above its room, none imports itself by way of others, and each room is in
    the table once."""
    there = sorted(set(map(room_of, imports)))
    count.add(sorted(rooms) == there, f"the audit: ARCHITECTURE has {sorted(rooms)}, and these are there: {there}")
    place = {room: at for at, room in enumerate(rooms)}
    for module, named in imports.items():
        upward = sorted(other for other in named if room_of(other) != room_of(module)
                        and place.get(room_of(other), -1) <= place.get(room_of(module), -1))
        count.add(not upward, f"{module}.py of the audit imports what is above it: {', '.join(upward)}")
    try:
        graphlib.TopologicalSorter(imports).prepare()
        circle = []
    except graphlib.CycleError as error:
        circle = error.args[1]
    count.add(not circle, f"modules of the audit that import each other in a circle: {', '.join(circle)}")


def main(count: preload.Count) -> None:
    top = preload.TOP
    listed = dependencies(top)
    count.most_shown = 1000
    for crate in listed:
        for check, places in violations(crate, top / "crates" / crate, listed).items():
            count.add(not places, f"{crate}, {check}:\n  " + "\n  ".join(places))
        lines = size(top / "crates" / crate)
        count.add(lines <= MOST_LINES, f"{crate}, size: {lines:,} lines of src, and not at most {MOST_LINES:,}")
    judge_modules(count, modules_of(top, "The page"), page_imports(top))
    judge_audit(count, modules_of(top, "The audit"), audit_imports(top))
