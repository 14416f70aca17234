#!/usr/bin/env python3
"""literals.py [--rules | --members] [--list] [--only WORD] [--rows CRATE,..] [--write] [CRATE ..]

Changes each literal of the definitions to its neighbour, and says whether a worked row refuses it: a number by one, a
text by one character, a case to the next of its enum, a constant or a definition without arguments to the next of its
type. With --rules it also changes rules: a comparison or a connective to the other, a condition or a `not` left out, a
field or a definition to a like one.

With --members it adds instead of changing: to each comparison with a literal or a constant an alternative that is just
outside, as a second word for a value, to each function by cases a case of a variant that has none, and to each table an
entry that differs from all others in one field.

A bug in code and definition alike passes every contract, since contracts only compare the two. Rows (proofs/*Rows.antt)
have their values from elsewhere. So neither code nor contract is looked at here: a change counts as refused only if a
row fails over the changed definitions. The rows tried are those of the crate itself, or of the crates that --rows
lists, but for those that name a proof of their own crate. Tables are changed too, where a definition cites them. Left
out are files that code alone cites (specs/Inner, FieldReading, NamedSid and WholeAce), tables written out again
(*Values.antt), and FoldedReading.antt, which a law proves equal to another definition.

Many changes are judged at once: each changed file, what depends on it and the rows become modules in a copy of the
crate that has the rows, and `rt check --only` runs there. So they may name the private types of that crate. Only rows
that may depend on the change are tried, first the quick ones and then a few at a time until one refuses it. First
`make check` has to pass in all crates. The constants that a measured crate needs are printed by `rt check --generated`
once and kept in out/literals, which takes a minute or two a crate, and longer for sd_sid.

A line tells of each change that no row refuses, and of each that does not read, as a case that stands twice. The last
line counts them: 'N refused, M left, K unread'. The status is 1 where one is left.

--write puts the changes that are left, of rules too, into tests/literals.txt, below the reason that stands there for
their crate. Reasons, and what is left of other crates, stay.
"""
import argparse
import collections
import hashlib
import pathlib
import re
import shutil
import subprocess
import sys
import tempfile
from typing import NamedTuple

sys.dont_write_bytecode = True
sys.path.append(str(pathlib.Path(__file__).resolve().parent.parent / "tests/shared"))
import preload  # noqa: E402, F401  (which finds the tests)
import layers  # noqa: E402

TOP = pathlib.Path(__file__).resolve().parent.parent
KEPT = TOP / "out/literals"
LEFT = TOP / "tests/literals.txt"
NO_REASON = "no reason yet"
AT_ONCE = 40  # changes
SLOW_ROWS = 4  # of one change, tried at once
PROBE = "literals"  # the module of the function that is checked
SPECS, SOURCES = "specs/Lib.antt", "src/lib.rt"
# Records that types of the code hold: a copy of a definition goes on using the record itself.
SHARED = {"SecurityId", "AccessControlEntry", "Descriptor", "Holder", "Asked", "GenericMapping"}
WRITTEN_OUT = {"AreControlBits", "AreListedBits", "AreLimits"}
COMMENT = re.compile(r"(?<!\S)--.*")
USE = re.compile(r"^use (Rattle\.[\w.]+?)(?:\.\{([^}]*)\}| as (\w+))\s*$")
MODULE_OF_USE = re.compile(r"^use (Rattle\.[\w.]+?)(?=\.\{| as )", re.M)
SIGNATURE = re.compile(r"^(?:abbrev |unfoldable )?(?:pub )?([\w◌>=«»]+) : (.*)$")
VARIANTS = re.compile(r"Rattle\.(\w+)\.specs\.declared\.(?:\w+\.)*(\w+)\.TheVariants$")
NOT_CHANGED = re.compile(r"Values$|\.specs\.Inner\.|\.(?:FieldReading|NamedSid|WholeAce|FoldedReading)$")
TOKEN = re.compile(r'codes "((?:[^"\\]|\\.)*)"|char "((?:[^"\\]|\\.)*)"|"(?:[^"\\]|\\.)*"'
                   r"|(?<![\w.◌])(0x[0-9A-Fa-f_]+|\d[\d_]*)(?!\w)|(?<![\w◌])([A-Za-z_«][\w»]*(?:\.[\w«»]+)*)"
                   r"|&&|\|\||≤|<")
END_OF_CONDITION = re.compile(r"[()\[\]{}]|&&|\|\||\bthen\b|\belse\b|∷|,|;|$")
LIKE_FIELDS = (("owner", "group"), ("sacl", "dacl"), ("object", "inherited"), ("read", "write", "execute", "all"),
               ("protected", "auto_inherit_required", "auto_inherited"), ("first", "second"),
               ("security", "take_ownership"))
NEXT_FIELD = {name: like[(i + 1) % len(like)] for like in LIKE_FIELDS for i, name in enumerate(like)}
OTHER = {"&&": "||", "||": "&&", "≤": "<", "<": "≤", "nat_lt": "nat_le", "nat_le": "nat_lt", "true": "false",
         "false": "true"}
# A comparison with a literal or a constant. What is compared stands before `==`, from BEFORE_COMPARED on.
OPERAND = r"(?:[\w.◌]+|\([^()]*\))"
COMPARED = re.compile(rf'(?P<equals>(?:nat_eq|bytes_eq|str_eq_ignore_ascii_case) {OPERAND}) '
                      r'(?P<right>\(codes "[^"\\]+"\)|\d+|0x[0-9A-Fa-f]+|[A-Z][A-Z_]+)'
                      r'| == (?P<second>char '
                      r'"[^"\\]"|\d+|0x[0-9A-Fa-f]+|[A-Za-z_]+)(?=\s*(?:[])},;]|&&|\|\||then\b|else\b|$))')
BEFORE_COMPARED = re.compile(r"[(\[{]|[])}]|&&|\|\||\b(?:if|then|else|not)\b|[=→∷,;]|\. ")
RECORD, FIELD = re.compile(r"record \{(.*?)\}", re.S), re.compile(r"(\w+) = ([^;]*[^;\s])")
DECLARED = re.compile(r"^(?:abbrev |unfoldable )?(?:pub )?(?:record |data |module )?([^\s(){}]+)(?= [:(])")
WORD = re.compile(r"[^\s(){}\[\].,;◌]+")
ERROR = re.compile(r"^(?:\./)?specs/([MR])(\d+)_(\w+)\.antt:(\d+):\d+: error: (?:`([^`]*)`: )?(.*)", re.M)


class Change(NamedTuple):
    number: int
    module: str
    line: int
    column: int
    old: str
    new: str
    use: str  # a line that the new text needs, or nothing
    declared: str

    @property
    def crate(self):
        return self.module.split(".")[1]

    @property
    def name(self):
        return self.module.replace("Rattle.", "").replace(".specs", "")

    @property
    def what(self):
        return f"{self.old!r} -> {self.new!r} in {self.declared}"

    def __str__(self):
        return f"{self.name}:{self.line + 1}:{self.column + 1} {self.what}"


class Left:
    """What tests/literals.txt says: a front of comments, and below crates with a reason the changes that are left."""

    def __init__(self, text):
        self.front, _, rest = text.partition("\n\n")
        self.sections = []  # each with the names of its crates, their reason, and rows
        for line in rest.splitlines():
            if line.startswith("  ") and self.sections:
                self.sections[-1][2].append(line.strip())
            elif ": " in line:
                names, _, reason = line.partition(": ")
                self.sections.append((names.split(", "), reason, []))
            else:
                sys.exit(f"{LEFT.name} has a line that is neither crates with a reason nor a change: {line!r}")

    def take(self, crate, changes):
        """What is left of a crate, in place of what was."""
        rows = [f"{change.name} {change.what}" for change in changes]
        for names, _, kept in self.sections:
            if crate in names:
                kept[:] = [row for row in kept if row.partition(".")[0] != crate] + rows
                return
        if rows:
            self.sections.append(([crate], NO_REASON, rows))

    def __str__(self):
        parts = [[f"{', '.join(names)}: {reason}", *(f"  {row}" for row in rows)]
                 for names, reason, rows in self.sections]
        return "\n".join([self.front, "", *(line for part in parts for line in part)]) + "\n"


def uncommented(text):
    return [COMMENT.sub(lambda found: " " * len(found[0]), line) for line in text.splitlines()]


class Module:
    """A file of definitions, of constants or of rows."""

    def __init__(self, name, crate, text):
        self.name, self.crate, self.text = name, crate, text
        self.short = re.sub(r"\W", "_", name.replace("Rattle.", "").replace(".specs.", "."))
        self.is_constants = name.endswith(".TheConstants")
        self.uses = [found for line in uncommented(text) if (found := USE.match(line))]
        self.types = {}  # of each definition
        lines = uncommented(text)
        for i, line in enumerate(lines):
            if found := SIGNATURE.match(line):
                more = [x.strip() for x in lines[i + 1:i + 4] if x.startswith("    →")]
                self.types[found[1]] = " ".join([found[2].strip(), *more])

    def declarations(self):
        """The text of each declaration by its name. The imports are kept under an empty name."""
        name, found = "", collections.defaultdict(str)
        for line in self.text.splitlines():
            if declared := DECLARED.match(line):
                name = declared[1]
            if line and not line.lstrip().startswith("--"):
                found["" if line.startswith("use ") else name] += line + "\n"
        return found

    def clauses(self):
        """Each line in which something may change: its number, where that begins, the text, whether it stands to the
        right of a `=`, and what is declared there."""
        state = declared = None
        for i, line in enumerate(uncommented(self.text)):
            if not line.strip():
                continue
            if line.startswith((" ", "}")):
                if state == "record":
                    found = re.search(r" : ", line)
                    yield i, found.end() if found else 0, line[found.end() if found else 0:], True, declared
                elif state == "clause":
                    yield i, 0, line, True, declared
            elif found := re.match(r"(?:pub )?(?:record|data) (\w+)", line):
                state, declared = "record", found[1]
            elif line.startswith("use ") or SIGNATURE.match(line):
                state = None
            else:
                state, declared = "clause", line.split()[0]
                found = re.search(r" =( |$)", line)
                end = found.start() if found else len(line)
                yield i, 0, line[:end], False, declared
                if found:
                    yield i, found.end(), line[found.end():], True, declared


def without_proofs(rows):
    """The rows that name no proof of their own crate: their copies are definitions, and these may name none."""
    own = f"Rattle.{rows.crate}.proofs."
    lost = {name for use in rows.uses if use[1].startswith(own) for name in (use[2] or use[3]).split(", ")}
    texts, more = rows.declarations(), lost
    while more:
        more = {name for name, text in texts.items() if name and not words_of(text).isdisjoint(lost)} - lost
        lost |= more
    kept = "".join(text for name, text in texts.items() if name not in lost)
    return Module(rows.name, rows.crate, re.sub(rf"^use {re.escape(own)}.*\n", "", kept, flags=re.M))


def constants_of(crate):
    """By its module below `declared`, the text of each file of constants, as the toolchain prints it."""
    sources = TOP / "crates" / crate / "src"
    digest = hashlib.sha256(b"".join(path.read_bytes() for path in sorted(sources.rglob("*.rt")))).hexdigest()
    folder = KEPT / crate
    if not (folder / digest).is_file():
        print(f"prints the constants of {crate}", flush=True)
        shutil.rmtree(folder, ignore_errors=True)
        folder.mkdir(parents=True)
        command = ["rt", "check", "--generated", str(folder)]
        subprocess.run(command, cwd=TOP / "crates" / crate, stdout=subprocess.DEVNULL, check=True)
        (folder / digest).touch()
    root = folder / f"Rattle-{crate}-specs/declared"
    for path in sorted(root.rglob("TheConstants.antt")):
        text = re.sub(r"^pub mod .*\n", "", path.read_text(encoding="utf-8"), flags=re.M)
        yield ".".join(path.relative_to(root).with_suffix("").parts), text


def enums(crates):
    """The variants of each enum, each with what it holds."""
    found = {}
    for crate in crates:
        for path in (TOP / "crates" / crate / "src").rglob("*.rt"):
            text = re.sub(r"//.*|#\[[^\]]*\]", "", path.read_text(encoding="utf-8"))
            for enum in re.finditer(r"\benum (\w+)[^{]*\{(.*?)\n\}", text, re.S):
                variants = re.findall(r"^ {4}(\w+)\s*(\([^)]*\)|\{[^}]*\})?", enum[2], re.M)
                found[crate, enum[1]] = [(name, re.sub(r"\s", "", held)) for name, held in variants]
    return found


def after(name, names):
    """The next one of a list, where there is another."""
    return names[(names.index(name) + 1) % len(names)] if name in names and len(names) > 1 else None


def next_text(text):
    """A text with its last letter or digit, or else its last character, changed to the next one."""
    escaped = {"\\n": "\\t", "\\t": "\\r", "\\r": "\\n"}
    if text in escaped or not text:
        return escaped.get(text, "a")
    at = [i for i, c in enumerate(text) if c.isalnum() and text[i - 1:i] != "\\"] or [len(text) - 1]
    other = {"z": "y", "Z": "Y", "9": "8", "!": " ", "[": "Z"}.get(text[at[-1]], chr(ord(text[at[-1]]) + 1))
    return text[:at[-1]] + other + text[at[-1] + 1:]


class Definitions:
    """The definitions of all crates that are tried, and their rows."""

    def __init__(self, measured):
        """Reads only constants that a measured crate or one above it cites. By default all crates are measured."""
        self.listed = layers.dependencies(TOP)
        self.crates = [name for name in self.listed if (TOP / "crates" / name / "specs").is_dir()]
        self.enums, self.modules, self.rows = enums(self.crates), {}, {}
        for crate in self.crates:
            folder = TOP / "crates" / crate
            for path in sorted((folder / "specs").rglob("*.antt")):
                parts = path.relative_to(folder / "specs").with_suffix("").parts
                if parts not in (("Lib",), ("Inner",)):
                    self.add(Module(".".join(("Rattle", crate, "specs", *parts)), crate, path.read_text("utf-8")))
            for path in sorted((folder / "proofs").glob("*Rows.antt")):
                module = Module(f"Rattle.{crate}.proofs.{path.stem}", crate, path.read_text("utf-8"))
                self.rows[module.name] = without_proofs(module)
        cited = collections.defaultdict(set)
        for module in [*self.modules.values(), *self.rows.values()]:
            for use in module.uses if self.depends_on(measured or self.crates, module) else ():
                if use[1].endswith(".TheConstants"):
                    cited[use[1]].update(use[2].split(", ") if is_changed(module.name) else [])
        self.cited = cited
        for crate in sorted({name.split(".")[1] for name in cited}):
            for module, text in constants_of(crate):
                self.add(Module(f"Rattle.{crate}.specs.declared.{module}", crate, text))
        self.below = {name: self.all_below(name, set()) for name in self.modules}

    def add(self, module):
        self.modules[module.name] = module

    def all_below(self, name, seen):
        """The modules that one rests on, itself among them."""
        if name in self.modules and name not in seen:
            seen.add(name)
            for use in self.modules[name].uses:
                self.all_below(use[1], seen)
        return seen

    def depends_on(self, crates, module):
        """Whether a module depends on one of these crates, or belongs to it."""
        below = set().union(*(self.all_below(use[1], set()) for use in module.uses))
        named = {use[1] for file in [module, *map(self.modules.get, below)] for use in file.uses}
        return module.crate in crates or any(name.split(".")[1] in crates for name in named)

    def under_rows(self, rows):
        return set().union(*(self.below.get(use[1], set()) for use in self.rows[rows].uses))

    def turns_of(self, change, rows, modules):
        """The names of the rows that may depend on the changed declaration, as lists to try one after the other: first
        all rows without an `unfolding`, which are quick, and then a few at a time."""
        texts = self.rows[rows].declarations()
        cited = {name: words_of(text) for name, text in texts.items()}
        above = [(words_of(name), words) for name, words in cited.items()]
        for module in modules:
            above += [(words_of(name), words_of(text)) for name, text in self.modules[module].declarations().items()]
        changed, more = set(), {change.declared}
        while more:
            changed |= more
            more = set().union(*(names for names, words in above if not words.isdisjoint(changed))) - changed
        found = [name for name, words in cited.items() if name and not words.isdisjoint(changed)]
        slow = [name for name in found if "\nunfolding " in texts[name]]
        parts = [slow[i:i + SLOW_ROWS] for i in range(0, len(slow), SLOW_ROWS)]
        return [[name for name in found if name not in slow], *parts]

    def text_of(self, rows, names):
        """The text of these rows, and of what they cite in their file."""
        texts = self.rows[rows].declarations()
        kept, more = {""}, set(names)
        while more:
            kept |= more
            more = {name for name in texts if any(name in words_of(texts[other]) for other in kept)} - kept
        return "".join(text for name, text in texts.items() if name in kept)

    def changes(self, crates, with_rules, as_members=False):
        for name, module in self.modules.items():
            if module.crate in crates and is_changed(name):
                changes = Changes(self, module, with_rules)
                yield from changes.members() if as_members else changes.all()


def words_of(text):
    return set(WORD.findall(text))


def is_changed(name):
    return not NOT_CHANGED.search(name)


class Changes:
    """The changes of one module."""

    def __init__(self, definitions, module, with_rules):
        self.definitions, self.module, self.with_rules = definitions, module, with_rules
        self.enum_by_prefix, self.enum_of, self.home = {}, {}, {}
        for use in module.uses:
            found = VARIANTS.match(use[1])
            if found and use[3]:
                self.enum_by_prefix[use[3]] = found.groups()
            elif use[2]:
                for name in use[2].split(", "):
                    if found:
                        self.enum_of[name] = (*found.groups(), use[1])
                    elif use[1] in definitions.modules:
                        self.home[name] = use[1]
        self.home.update({name: module.name for name in module.types})

    def all(self):
        cited = self.definitions.cited[self.module.name]
        for line, start, text, is_right, declared in self.module.clauses():
            if declared in WRITTEN_OUT or self.module.is_constants and declared not in cited:
                continue
            for found in TOKEN.finditer(text):
                for old, new, use in self.of_token(found, text, is_right, declared):
                    yield Change(0, self.module.name, line, start + found.start(), old, new, use, declared)

    def of_token(self, found, text, is_right, declared):
        """Each text that the token, or more from its place on, may become, with the line of imports that it needs."""
        token = found[0]
        if found[1] is not None or found[2] is not None:
            word = "codes" if found[2] is None else "char"
            yield token, f'{word} "{next_text(found[1] if found[2] is None else found[2])}"', ""
        elif found[3]:
            # a level of types, and what fills an array up
            if not re.search(r"(Type|\{)\s*$|\(List\.◌∷◌ $", text[:found.start()]) or token != "0":
                number = int(token.replace("_", ""), 0) + 1
                yield token, hex(number) if token.startswith("0x") else str(number), ""
        elif found[4] and not self.module.is_constants:
            yield from self.of_word(token, is_right, declared)
        elif self.with_rules and token in OTHER:
            yield token, OTHER[token], self.prelude(f"◌{OTHER[token]}◌")
            if token in ("&&", "||") and (condition := first_condition(text[found.end():])):
                yield token + condition, "", ""

    def of_word(self, word, is_right, declared):
        first, _, rest = word.partition(".")
        if first in self.enum_by_prefix and rest:
            crate, enum = self.enum_by_prefix[first]
            if other := self.next_variant(crate, enum, rest):
                yield word, f"{first}.{other}", ""
        elif word in self.enum_of:
            crate, enum, path = self.enum_of[word]
            if other := self.next_variant(crate, enum, word):
                yield word, other, "" if other in self.enum_of else f"use {path}.{{{other}}}"
        elif not is_right or word in ("record", "if", "then", "else"):
            return
        elif word in ("true", "false"):
            yield word, OTHER[word], self.prelude(OTHER[word])
        elif word in self.home and word != declared:
            path = self.home[word]
            types = self.definitions.modules[path].types
            kind = types.get(word, "Type")
            if "Type" not in kind and ("→" not in kind or self.with_rules):
                other = after(word, [name for name, t in types.items() if t == kind and name != declared])
                if other:
                    yield word, other, "" if other in self.home else f"use {path}.{{{other}}}"
        elif self.with_rules and word in ("nat_lt", "nat_le"):
            yield word, OTHER[word], self.prelude(OTHER[word])
        elif self.with_rules and word == "not":
            yield word, "", ""
        elif self.with_rules and word.rpartition(".")[2] in NEXT_FIELD and rest:
            yield word, word.rpartition(".")[0] + "." + NEXT_FIELD[word.rpartition(".")[2]], ""

    def next_variant(self, crate, enum, variant):
        """The next variant that holds the same."""
        variants = dict(self.definitions.enums.get((crate, enum), []))
        return after(variant, [name for name, held in variants.items() if held == variants.get(variant)])

    def members(self):
        """Each member that may be added: an alternative to a comparison, a case of a function, an entry of a table."""
        if self.module.is_constants:
            yield from self.entries()
            return
        right = collections.defaultdict(list)
        cases = collections.defaultdict(list)
        for line, start, text, is_right, declared in self.module.clauses():
            if is_right:
                right[declared].append((line, start, text))
            else:
                cases[declared].append((line, text))
        for declared, texts in right.items():
            yield from self.alternatives(declared, texts)
        for declared, heads in cases.items():
            yield from self.cases(declared, heads)

    def alternatives(self, declared, texts):
        """To each comparison of a definition the same with what it compares with no more than once."""
        found = [(line, start, text, one) for line, start, text in texts for one in COMPARED.finditer(text)]
        listed = {one["right"] or one["second"] for *_, one in found}
        for line, start, text, one in found:
            at = one.start() if one["equals"] else begun(text[:one.start()])
            old, compared = text[at:one.end()], one["right"] or one["second"]
            for other, needed in self.outside(compared, listed):
                new = f"({old} || {old.removesuffix(compared)}{other})"
                use = "\n".join(filter(None, map(self.prelude, ("◌||◌", *needed))))
                yield Change(0, self.module.name, line, start + at, old, new, use, declared)

    def outside(self, compared, listed):
        """What is like the literal and is compared with nowhere in the definition, with what it needs of the
        Prelude."""
        if compared.startswith("(codes "):
            word = compared[len('(codes "'):-len('")')]
            for other in (word + "s", word[:-1], word.upper() if word.islower() else word.lower()):
                if other and f'(codes "{other}")' not in listed and other != word:
                    yield f'(codes "{other}")', ()
        elif compared.startswith("char "):
            others = (chr(ord(compared[-2]) + step) for step in range(1, 20))
            yield next(f'char "{other}"' for other in others if f'char "{other}"' not in listed
                       and other not in '"\\'), ()
        elif compared[0].isdigit():
            numbers = {int(one, 0) for one in listed if one[0].isdigit()}
            yield str(next(number for number in range(int(compared, 0) + 1, 1 << 33) if number not in numbers)), ()
        elif self.type_of(compared) in ("ℕ", "(Field.usize-field).Value", "(Field.u32-field).Value",
                                        "(Field.u8-field).Value"):
            yield f"({compared} + 1)", ("◌+◌",)

    def type_of(self, name):
        return self.definitions.modules[self.home[name]].types.get(name) if name in self.home else None

    def cases(self, declared, heads):
        """A further case before the last one, which takes the rest: that of the first variant, for one that has
        none."""
        lines = self.module.text.splitlines()
        last, place = heads[-1][0], None
        named = set()
        for line, head in heads:
            words = head.split()[1:]
            places = [at for at, word in enumerate(words) if self.enum_of_variant(word)]
            if len(places) != 1 or "(" in head or re.search(r"[=→]\s*$", lines[line]):
                continue
            place = places[0] if place is None else place
            named |= {words[at] for at in places}
        rest = heads[-1][1].split()[1:]
        if place is None or len(heads) < 2 or place >= len(rest) or self.enum_of_variant(
                rest[place]) or "(" in heads[-1][1]:
            return
        first, head = next((line, head) for line, head in heads if self.enum_of_variant(head.split()[1:][place]))
        old = head.split()[1:][place]
        crate, enum, before = self.enum_of_variant(old)
        for variant, held in self.definitions.enums.get((crate, enum), []):
            other = f"{before}{variant}"
            if held or other in named or not before and other not in self.enum_of:
                continue
            added = re.sub(rf"(?<![\w.]){re.escape(old)}(?![\w.])", other, lines[first], count=1)
            yield Change(0, self.module.name, last, 0, "", added + "\n", "", declared)

    def enum_of_variant(self, word):
        """The crate and the enum of a variant, and the prefix by which it is named."""
        prefix, dot, rest = word.partition(".")
        if dot and prefix in self.enum_by_prefix and rest[:1].isupper():
            return *self.enum_by_prefix[prefix], f"{prefix}."
        return (*self.enum_of[word][:2], "") if word in self.enum_of else None

    def entries(self):
        """To each table that is cited an entry like the last one, of which one field differs from those of all
        others."""
        lines = self.module.text.splitlines()
        for declared, text in self.module.declarations().items():
            if declared not in self.definitions.cited[self.module.name]:
                continue
            # a record has a line or several; lists in it are in parentheses
            records = [dict(FIELD.findall(one)) for one in RECORD.findall(text)]
            first = next(i for i, line in enumerate(lines) if line.startswith(f"{declared} ="))
            line = first + text.count("\n") - 2  # (the text has the type before that one)
            for field in records[-1] if records else ():
                value = new_value([record[field] for record in records], records, field)
                if value is not None:
                    fields = "; ".join(f"{name} = {value if name == field else old}"
                                       for name, old in records[-1].items())
                    entry = f"(List.◌∷◌ record {{ {fields}; }} List.[])"
                    yield Change(0, self.module.name, line, lines[line].rindex("List.[]"), "List.[]", entry,
                                 "", declared)

    def prelude(self, name):
        """The line that imports a name of the Prelude, where the module lacks it."""
        imported = {x for use in uncommented(self.module.text) if use.startswith("use Rattle.std")
                    for x in re.findall(r"[^\s{},]+", use.partition("{")[2])}
        return "" if name in imported else f"use Rattle.std.specs.Prelude.{{{name}}}"


def new_value(values, records, field):
    """A value of a field that no entry has: a power of two, a letter or a number; or letters in a list."""
    if all(re.fullmatch(r"\d+|0x[0-9A-Fa-f]+", value) for value in values):
        numbers = [int(value, 0) for value in values]
        if len(numbers) > 2 and all(number and not number & number - 1 for number in numbers):
            return str(next(1 << place for place in range(64) if 1 << place not in numbers))
        if all(ord("A") <= number <= ord("Z") for number in numbers):
            others = {name for name in records[-1] if name != field and records[-1][name] in map(str, range(65, 91))}
            taken = {int(record[field]) for record in records
                     if all(record[name] == records[-1][name] for name in others)}
            return next((str(letter) for letter in range(ord("Z"), ord("A"), -1) if letter not in taken), None)
        return str(max(numbers) + 1)
    if all(re.match(r"List\.◌∷◌ \d+", value) for value in values):
        for letter in range(ord("Z"), ord("A"), -1):
            other = re.sub(r"(\d\d)(?!.*\d\d)", str(letter), values[-1], count=1)
            if other not in values:
                return other
    return None


def begun(text):
    """Where a condition begins of which this is the front."""
    begins = [0]
    for found in BEFORE_COMPARED.finditer(text):
        if found[0] in "([{":
            begins.append(found.end())
        elif found[0] in ")]}" and len(begins) > 1:
            begins.pop()
        else:
            begins[-1] = found.end()
    return begins[-1] + len(text[begins[-1]:]) - len(text[begins[-1]:].lstrip())


def first_condition(text):
    """What stands before the end of a condition, where that ends in this line."""
    depth = 0
    for found in END_OF_CONDITION.finditer(text):
        if found[0] and found[0] in "([{":
            depth += 1
        elif depth == 0:
            return text[:found.start()].rstrip()
        elif found[0] and found[0] in ")]}":
            depth -= 1
    return ""


class Probe:
    """A repository with copies of a crate that has rows, and of the crates below it."""

    def __init__(self, definitions, crate, folder):
        self.definitions, self.name, listed = definitions, crate, definitions.listed
        self.needed = {crate}
        for name in reversed(listed):  # crates.txt has the lowest first, so this finds libraries of libraries too
            self.needed |= listed[name] if name in self.needed else set()
        (folder / "crates").mkdir(parents=True)
        lines = [line for line in (TOP / "crates.txt").read_text(encoding="utf-8").splitlines()
                 if re.split("[: ]", line)[0] in self.needed]  # as they are, since kept work depends on their order
        for name in self.needed & set(listed):
            subprocess.run(["cp", "-a", str(TOP / "crates" / name), str(folder / "crates" / name)], check=True)
        more = " ".join(sorted(self.needed - listed[crate] - {crate}))
        lines = [f"{line} {more}" if line.startswith(f"{crate}:") else line for line in lines]
        (folder / "crates.txt").write_text("\n".join(lines) + "\n", encoding="utf-8")
        shutil.copy(TOP / "HANDLES", folder)
        self.crate, self.names = folder / "crates" / crate, []
        self.of_crate = {file: (self.crate / file).read_text(encoding="utf-8") for file in (SPECS, SOURCES)}

    def path(self, name):
        return self.crate / "specs" / f"{name}.antt"

    def write(self, name, text):
        self.names.append(name)
        self.path(name).write_text(text, encoding="utf-8")

    def add(self, file, text):
        (self.crate / file).write_text(self.of_crate[file] + text, encoding="utf-8")

    def renamed(self, text, number, changed):
        """The text with its imports from the copies of a change; constants always have a copy."""
        def by_copy(found):
            module = self.definitions.modules.get(found[1])
            if found[1] in changed:
                return f"use Rattle.{self.name}.specs.M{number}_{module.short}"
            return f"use Rattle.{self.name}.specs.B_{module.short}" if module and module.is_constants else found[0]
        return MODULE_OF_USE.sub(by_copy, text)

    def copied(self, module, change):
        """The module with the change, if it is of this one, and with records that it shares with the code."""
        lines = module.text.splitlines()
        if change.module == module.name:
            line = lines[change.line]
            rest = line[change.column + len(change.old):]
            lines[change.line] = line[:change.column] + change.new + rest
            lines = [change.use, *lines]
        kept, shared = [], None
        for line in lines:
            found = re.match(r"pub record (\w+)", line)
            if found and found[1] in SHARED and found[1] != change.declared:
                shared = f"pub use {module.name}.{{{found[1]}}}"
                kept.insert(0, shared)
            elif shared and line and not line.startswith(" "):
                shared = None
            if not shared:
                kept.append(line)
        return "\n".join(kept) + "\n"

    def judge(self, changes, turn):
        """Tries the rows whose turn it is. Returns by number how each change fares: refused, left, or why it does not
        read; and whether a change has another turn."""
        for name in self.names:
            self.path(name).unlink()
        self.names, uses, last = [], [], 0
        for module in self.definitions.modules.values():
            if module.is_constants and module.crate in self.needed:
                self.write(f"B_{module.short}", module.text)
        for change in changes:
            written = set()
            for rows, module in self.definitions.rows.items():
                if module.crate != self.name:
                    continue
                under = self.definitions.under_rows(rows)
                changed = {name for name in under if change.module in self.definitions.below[name]}
                turns = self.definitions.turns_of(change, rows, changed) if changed else []
                last = max(last, len(turns))
                if turn >= len(turns):
                    continue
                for name in changed - written:
                    below = self.definitions.modules[name]
                    text = self.renamed(self.copied(below, change), change.number, changed)
                    self.write(f"M{change.number}_{below.short}", text)
                written |= changed
                name = f"R{change.number}_{module.short}"
                text = self.renamed(self.definitions.text_of(rows, turns[turn]), change.number, changed)
                self.write(name, f"{text}\npub end_of_{name} : Unit {{0}}\nend_of_{name} = tt\n")
                uses.append(f"ghost use Rattle.{self.name}.specs.{name}.{{end_of_{name}}};\n")
        self.add(SPECS, "".join(f"pub mod {name}\n" for name in sorted(self.names)))
        self.add(SOURCES, f"\nmod {PROBE};\n\npub use {PROBE}::all_rows;\n")
        (self.crate / f"src/{PROBE}.rt").write_text("".join(uses) + "\npub fn all_rows() {}\n", encoding="utf-8")
        command = ["rt", "check", "--only", "all_rows"]
        ended = subprocess.run(command, cwd=self.crate, stdin=subprocess.DEVNULL, stdout=subprocess.PIPE,
                               stderr=subprocess.STDOUT, encoding="utf-8", errors="replace")
        if not re.search(r"^only=1 ", ended.stdout, re.M):
            sys.exit("the check did not reach the rows:\n" + ended.stdout[-2000:])
        fates = {change.number: "left" for change in changes}
        for kind, number, name, line, declared, why in ERROR.findall(ended.stdout):
            if kind == "M" or not declared:
                fates[int(number)] = f"unread: {name}:{line}: {declared}: {why}"
            elif fates[int(number)] == "left":
                fates[int(number)] = "refused"
        return fates, turn + 1 < last


def main():
    parser = argparse.ArgumentParser(description="Changes the literals of definitions, and says what no row refuses.")
    parser.add_argument("crates", nargs="*", metavar="CRATE", help="by default all")
    parser.add_argument("--rules", action="store_true", help="also changes rules")
    parser.add_argument("--members", action="store_true", help="adds members instead of changing literals")
    parser.add_argument("--list", action="store_true", help="only prints the changes")
    parser.add_argument("--only", metavar="WORD", default="", help="only changes with this word in their lines")
    parser.add_argument("--rows", metavar="CRATE,..", default="", help="the crates whose rows are tried")
    parser.add_argument("--write", action="store_true", help="writes what is left, of rules too, to tests/literals.txt")
    given = parser.parse_args()
    if given.write and (given.members or given.list or given.only):
        parser.error("--write takes all changes of a crate, and no members")
    definitions = Definitions(given.crates)
    unknown = {*given.crates, *filter(None, given.rows.split(","))} - set(definitions.crates)
    if unknown:
        parser.error(f"there is no crate {min(unknown)} with definitions")
    measured = given.crates or definitions.crates
    found = definitions.changes(measured, given.rules or given.write, given.members)
    changes = [change._replace(number=i) for i, change in enumerate(found) if given.only in str(change)]
    if given.list:
        print("\n".join(map(str, changes)))
        return 0

    fates = {change.number: "left" for change in changes}
    with tempfile.TemporaryDirectory(prefix="literals-") as room:
        for crate in given.rows.split(",") if given.rows else sorted({change.crate for change in changes}):
            if not any(rows.crate == crate for rows in definitions.rows.values()):
                continue
            probe, turn, goes_on = Probe(definitions, crate, pathlib.Path(room) / crate), 0, True
            while goes_on:
                tried = [c for c in changes if fates[c.number] == "left" and (given.rows or c.crate == crate)]
                goes_on = False
                for start in range(0, len(tried), AT_ONCE):
                    found, has_more = probe.judge(tried[start:start + AT_ONCE], turn)
                    fates.update(found)
                    goes_on |= has_more
                turn += 1
    for change in changes:
        fate, _, why = fates[change.number].partition(": ")
        if fate != "refused":
            print(f"{fate} {change}{': ' + why[:100] if why else ''}", flush=True)
    if given.write:
        kept = Left(LEFT.read_text(encoding="utf-8"))
        for crate in measured:
            kept.take(crate, [change for change in changes if change.crate == crate and fates[change.number] == "left"])
        LEFT.write_text(str(kept), encoding="utf-8")
    count = collections.Counter(fate.partition(":")[0] for fate in fates.values())
    print(f"{count['refused']} refused, {count['left']} left, {count['unread']} unread")
    return 1 if count["left"] else 0


if __name__ == "__main__":
    sys.exit(main())
