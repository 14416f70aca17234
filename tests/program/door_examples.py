"""Runs the examples in the documentation of the library. All of them are built as one program, without a proof, each in
a module of its own. They are of two kinds:

- The head of each door has a program. Doors are the crates whose public calls users of the library write. The program
  is compiled as it stands, and has to print what the documentation shows below it.
- The comment of a public item may have statements between ``` lines. They are the body of
  `fn example(rt: impl Abort + AllocGlobal + Drop)`, and say with `assert!` what holds. Above the function are their
  own `use` lines, those of every name that a door re-exports, and what the example of `Sink` declares, so that each
  example can put a text into a `TextSink`. An item that no door has is taken from its crate.

Each function, each trait and each type with public methods that a door re-exports needs an example, at itself or at a
method. A failed assertion ends the program: the test names the example, and those after it were not reached. The last
line is 'N passed, M failed'.
"""
import pathlib
import re
import shutil
import subprocess
import tempfile
from typing import List, NamedTuple

import preload

TOP = pathlib.Path(__file__).resolve().parents[2]
DOORS = ["sd_core", "sd_binary", "sd_sddl", "sd_access", "sd_filter"]
LIBRARIES = "sd_tests"  # crates.txt lists for it all that an example may use
BLOCK = re.compile(r"^```(?:text)?\n(.*?)^```$", re.S | re.M)
ENTRY = "fn main(rt: HostRuntime)"
ASSERTION = "assert!(rt;"
REEXPORTS = re.compile(r"^pub use (\w+)::(?:\{([^}]*)\}|(\w+));", re.M)
SINK = "Sink"
# They need no example: each prints what its `put_` function puts, whose example shows the text.
PRINTERS = {"print_flags", "print_guid", "print_rights", "print_layout", "print_sddl", "print_explain"}
OWNER = re.compile(r"(?:pub )?(?:impl(?:<[^>]*>)? (?:.* for )?|trait |struct |enum )(\w+)")
ITEM = re.compile(r" *pub (?:fn|trait|struct|enum|type|const|static) (\w+)")
MAIN = """//! Runs the examples of the doors.
#![tactic(auto)]

%s
fn main(rt: HostRuntime) {
%s    let _ = println!(rt; "== end");
}
"""
CALL = """    let _ = println!(rt; "== %s");
    if let Ok(given) = rt.clone() {
        let _ = %s(given);
    }
"""


class Example(NamedTuple):
    """The statements of a comment, and the item that it is of."""
    crate: str
    file: str
    owner: str
    item: str
    code: str

    def name(self):
        return self.item if self.owner == self.item else f"{self.owner}::{self.item}"

    def module(self):
        return f"at_{self.crate}_{self.name()}".lower().replace("::", "_")

    def place(self):
        return f"{self.name()} in crates/{self.crate}/src/{self.file}"


def head_of(door):
    """The program at the head of a door and what it prints."""
    lines = (TOP / "crates" / door / "src/lib.rt").read_text(encoding="utf-8").splitlines()
    head = "".join(line[3:].removeprefix(" ") + "\n" for line in lines if line.startswith("//!"))
    blocks = BLOCK.findall(head)
    return blocks if len(blocks) == 2 and blocks[0].count(ENTRY) == 1 else None


def examples_of(path) -> List[Example]:
    """The examples in the comments of a file, each with its item."""
    found, owner, comment = [], "", []
    for line in path.read_text(encoding="utf-8").splitlines():
        text = line.strip()
        if text.startswith("///"):
            comment.append(text[3:].removeprefix(" ") + "\n")
        elif not text.startswith("#["):
            if owned := OWNER.match(line):
                owner = owned[1]
            item = ITEM.match(line)
            for code in BLOCK.findall("".join(comment)):
                name = item[1] if item else text
                inside = owner if line.startswith(" ") else name
                found.append(Example(path.parts[-3], path.name, inside, name, code))
            comment = []
    return found


def reexports():
    """What each door re-exports: the crate and the name."""
    for door in DOORS:
        text = (TOP / "crates" / door / "src/lib.rt").read_text(encoding="utf-8")
        for crate, names, name in REEXPORTS.findall(text):
            for each in re.findall(r"\w+", names or name):
                yield door, crate, each


def home_of(crate, name):
    """The crate that defines what a crate re-exports."""
    text = (TOP / "crates" / crate / "src/lib.rt").read_text(encoding="utf-8")
    for lower, names, alone in REEXPORTS.findall(text):
        if (TOP / "crates" / lower).is_dir() and name in re.findall(r"\w+", names or alone):
            return home_of(lower, name)
    return crate


def needs_example(crate, name):
    """Whether it is a function, a trait or a type with public methods."""
    text = "".join(path.read_text(encoding="utf-8") for path in sorted((TOP / "crates" / crate / "src").glob("*.rt")))
    if re.search(rf"^pub (?:fn|trait) {name}\b", text, re.M):
        return name not in PRINTERS
    bodies = re.findall(rf"^impl(?:<[^\n]*>)? {name}\b[^\n]*\{{\n(.*?)^\}}", text, re.S | re.M)
    return any(re.search(r"^    pub fn ", body, re.M) for body in bodies)


def is_at_a_door(example):
    return any(name == example.owner and home_of(crate, name) == example.crate for _, crate, name in reexports())


def split_uses(code):
    """The `use` lines of an example, and the rest."""
    lines = code.splitlines(True)
    return [line for line in lines if line.startswith("use ")], "".join(x for x in lines if not x.startswith("use "))


def module_of(example, sink):
    """A module whose one function is an example."""
    uses, body = split_uses(example.code)
    sink_uses, items = split_uses(sink)
    names = {}
    for door, _, name in reexports():
        names.setdefault(door, []).append(name)
    uses += sink_uses + [f"use {door}::{{{', '.join(names[door])}}};\n" for door in names]
    if not is_at_a_door(example):
        uses.append(f"use {example.crate}::{example.owner};\n")
    inside = "".join(f"    {line}" if line.strip() else line for line in body.strip("\n").splitlines(True))
    return (f"//! The example at {example.place()}.\n\n{''.join(sorted(set(uses)))}\n"
            f"{items.strip()}\n\npub fn example(rt: impl Abort + AllocGlobal + Drop) {{\n{inside}\n}}\n")


def build(folder, modules, others):
    """A repository with the crates' sources and a program of all modules: what stands in each, and its function. OTHERS
    are crates that examples use beside those of the doors."""
    for crate in (TOP / "crates").iterdir():
        for part in ("src", "specs", "proofs"):
            if (crate / part).is_dir():
                shutil.copytree(crate / part, folder / "crates" / crate.name / part)
    crates = (TOP / "crates.txt").read_text(encoding="utf-8")
    libraries = {*re.search(f"^{LIBRARIES}:(.*)$", crates, re.M)[1].split(), *others}
    (folder / "crates.txt").write_text(f"{crates}doors: {' '.join(sorted(libraries))}\n", encoding="utf-8")
    sources = folder / "crates/doors/src"
    sources.mkdir(parents=True)
    for module, (text, _) in modules.items():
        (sources / f"{module}.rt").write_text(text, encoding="utf-8")
    names = "".join(f"mod {module};\n" for module in modules)
    calls = "".join(CALL % (module, f"{module}::{function}") for module, (_, function) in modules.items())
    (sources / "main.rt").write_text(MAIN % (names, calls), encoding="utf-8")
    return folder / "crates/doors"


def main(count: preload.Count) -> None:
    heads = {door: head_of(door) for door in DOORS}
    for door, head in heads.items():
        count.add(head is not None, f"{door}: no example, or not what it prints")
    heads = {f"of_{door}": head for door, head in heads.items() if head}
    modules = {name: (f"//! The example of {name}.\n\n{head[0].replace(ENTRY, 'pub ' + ENTRY)}", "main")
               for name, head in heads.items()}
    examples = [each for path in sorted(TOP.glob("crates/*/src/*.rt")) for each in examples_of(path)]
    sink = next((each.code for each in examples if each.item == SINK), "")
    run = {each.module(): each for each in examples if each.item != SINK}
    count.add(len(run) == len(examples) - 1, "two examples of one item")
    for module, each in run.items():
        count.add(ASSERTION in each.code, f"the example at {each.place()} has no assert!")
        modules[module] = (module_of(each, sink), "example")
    others = {each.crate for each in run.values() if not is_at_a_door(each)}
    having = {(each.crate, each.owner) for each in examples}
    for door, crate, name in reexports():
        home = home_of(crate, name)
        if needs_example(home, name):
            count.add((home, name) in having, f"no example at {name} of {home}, which {door} re-exports")
    with tempfile.TemporaryDirectory() as name:
        ended = subprocess.run(["rt", "try"], cwd=build(pathlib.Path(name), modules, others), stdin=subprocess.DEVNULL,
                               stdout=subprocess.PIPE, stderr=subprocess.PIPE, text=True)
    count.add(ended.returncode == 0, f"rt try ended with status {ended.returncode}:\n{ended.stdout}{ended.stderr}")
    printed = dict(re.findall(r"^== (\w+)\n((?:(?!== ).*\n)*)", ended.stdout, re.M))
    for module, (_, shown) in heads.items():
        print(module)
        count.add(printed.get(module) == shown, f"it printed {printed.get(module)!r}\n  not     {shown!r}")
    begun = [module for module in modules if module in printed]
    for module, each in run.items():
        is_done = module in printed and (module != begun[-1] or "end" in printed)
        what = "is not true" if module in printed else "was not reached"
        count.add(is_done, f"the example at {each.place()} {what}")
    print(f"{len(examples)} examples at items of {len({each.crate for each in examples})} crates")
