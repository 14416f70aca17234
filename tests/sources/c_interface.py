"""Compares include/sdtool.h with the sources of the library for C. Contracts name members and arguments, so no proof
sees their order, the width of a number or the name of an export. The test refuses:

  structs    a struct of the header, or one with #[repr(C)] in sd_call*, sdtool_c or BELOW, without a counterpart, or
             with members of other names, types or order. The doc comment of the one in Rust names the one in C. A
             struct with one private number and nothing else counts as that number.
  functions  an `extern "C"` function that the header does not declare, or declares with another result or with
             arguments of other names, types or order; one without #[unsafe(no_mangle)]; one whose contract does not
             cite the definition that belongs to its name; a function that only the header has
  numbers    a limit or a number of an enum that differs from the one in the sources
  layouts    a size or an offset in the header's table of structs that a 64-bit machine has not
"""
import math
import re
from typing import NamedTuple

import preload

HEADER = "include/sdtool.h"
CRATES = ["crates/sd_call*/src", "crates/sdtool_c/src"]
BELOW = ["crates/sd_inherit/src/origin.rt"]  # with a struct that the library hands on as it is
NUMBERS = {"u8": "uint8_t", "u16": "uint16_t", "u32": "uint32_t", "u64": "uint64_t", "usize": "size_t", "bool": "bool"}
ALLOCATOR = "Global"  # It has no bytes, so C has no such argument.
BYTES = "sdtool_bytes"
# Arguments with names that are not those of the header. The header's name counts if both are names of it.
OTHER_NAMES = {"bytes": "descriptor", "new": "descriptor", "kinds": "entries", "memory": "token"}
# What the header calls the length of a slice, if it is not 'NAME_size'.
LENGTHS = {"entries": "sid_count", "changes": "change_count", "touched": "touched_count",
           "descriptors": "descriptor_count", "verdicts": "verdict_count",
           "token": "token_words", "aces": "ace_count", "offsets": "offset_count",
           "out_offsets": "out_offset_count", "outcomes": "outcome_count", "sacl": "sacl_room", "dacl": "dacl_room"}
# The definition that says what a function answers, which its contract has to cite.
DEFINITIONS = {
    "sdtool_version": "codes", "sdtool_version_number": "100", "sdtool_to_sddl": "to_sddl",
    "sdtool_explain": "explained", "sdtool_normalize": "normalized", "sdtool_from_sddl": "from_sddl",
    "sdtool_check": "checked", "sdtool_derive": "derivation", "sdtool_sid_from_text": "sid_from_text",
    "sdtool_sid_to_text": "sid_to_text", "sdtool_sid_size": "sid_size_at", "sdtool_parts": "contents_in",
    "sdtool_next_ace": "next", "sdtool_check_many": "AnswersMany", "sdtool_token_read": "ReadsToken",
    "sdtool_check_with": "checked_held", "sdtool_build": "built", "sdtool_run": "Runs", "sdtool_fault_text": "name_of",
    "sdtool_convert_many": "ConvertsMany", "sdtool_convert_many_large": "ConvertsMany",
    "sdtool_check_column": "AnswersColumn", "sdtool_check_column_large": "AnswersColumn",
    "sdtool_derive_many": "DerivesMany", "sdtool_derive_many_large": "DerivesMany",
    "sdtool_place": "place_told", "sdtool_sddl_place": "sddl_place_told",
    "sdtool_describe": "described",
    "sdtool_reasons": "explained", "sdtool_reasons_with": "explained_held", "sdtool_derive_origins": "TellsOrigins",
    "sdtool_edit": "EditsWithin", "sdtool_order": "order_told",
    "sdtool_ace_read": "at_front", "sdtool_ace_from_text": "ace_from_text", "sdtool_ace_to_text": "ace_to_text",
    "sdtool_rights_from_text": "rights_in", "sdtool_rights_to_text": "rights_to_text",
    "sdtool_flags_from_text": "flags_in", "sdtool_flags_to_text": "flags_to_text",
    "sdtool_guid_from_text": "guid_from_text", "sdtool_guid_to_text": "guid_to_text",
}


class Named(NamedTuple):
    """Where the sources give the numbers of an enum their names."""
    enum: str
    prefix: str    # of the header's names, behind SDTOOL_
    path: str
    function: str
    is_whole: bool = True  # whether it has each number of the enum except 0


# 0 stands for SDTOOL_OK, SDTOOL_NO_PART, SDTOOL_NO_ARGUMENT and SDTOOL_NO_FIELD, which no arm of a match names so.
WITHOUT_NAMES = {"OK", "NO_PART", "NO_ARGUMENT", "NO_FIELD"}
NAMED = [
    Named("sdtool_fault", "FAULT_", "crates/sd_faults/src/fault_names.rt", "fault_name"),
    Named("sdtool_fault", "FAULT_", "crates/sd_faults/src/line_fault.rt", "number", is_whole=False),
    Named("sdtool_fault", "FAULT_", "crates/sd_call/src/outcome.rt", "number", is_whole=False),
    Named("sdtool_argument", "ARGUMENT_", "crates/sd_call/src/argument.rt", "argument_number"),
    Named("sdtool_part", "", "crates/sd_faults/src/line_fault.rt", "part_number"),
    Named("sdtool_part", "", "crates/sd_call_convert/src/described.rt", "part_numbered"),
    Named("sdtool_mapping", "MAPPING_", "crates/sd_call/src/input.rt", "mapping_in"),
    Named("sdtool_conversion_kind", "CONVERT_", "crates/sd_call_convert/src/row.rt", "kind_in"),
    Named("sdtool_kind", "KIND_", "crates/sd_call_access/src/derivations.rt", "target_in"),
    Named("sdtool_entry", "", "crates/sd_call_access/src/token.rt", "kind_in"),
    Named("sdtool_acl_state", "ACL_", "crates/sd_call/src/contents.rt", "acl_state"),
    Named("sdtool_acl_state", "ACL_", "crates/sd_call_edit/src/change_in.rt", "state_in"),
    Named("sdtool_part", "", "crates/sd_call_edit/src/change_in.rt", "which_in", is_whole=False),
    Named("sdtool_field", "FIELD_", "crates/sd_call_convert/src/told.rt", "field_number"),
    Named("sdtool_reason_kind", "REASON_", "crates/sd_call_access/src/reason.rt", "kind_of"),
]
# The constants of the sources that have the same number as a name of the header.
CONSTANTS = [
    ("SDTOOL_MOST_BYTES", "crates/sd_parts/src/limits.rt", "CAPACITY"),
    ("SDTOOL_MOST_TEXT", "crates/sd_text/src/limits.rt", "MOST_SDDL_TEXT"),
    ("SDTOOL_MOST_SIDS", "crates/sd_token/src/limits.rt", "MOST_ENTRIES"),
    ("SDTOOL_MOST_SID", "crates/sd_parts/src/limits.rt", "MOST_SID_SIZE"),
    ("SDTOOL_MOST_SID_TEXT", "crates/sd_text/src/limits.rt", "MOST_FIELD_SIZE"),
    ("SDTOOL_MOST_ACE_TEXT", "crates/sd_call_convert/src/part_text.rt", "MOST_ACE_TEXT"),
    ("SDTOOL_HAS_LEVEL", "crates/sd_call_access/src/request.rt", "HAS_LEVEL"),
    ("SDTOOL_SECURITY", "crates/sd_call_access/src/request.rt", "SECURITY"),
    ("SDTOOL_TAKE_OWNERSHIP", "crates/sd_call_access/src/request.rt", "TAKE_OWNERSHIP"),
    ("SDTOOL_MAXIMUM", "crates/sd_call_access/src/request.rt", "MAXIMUM"),
    ("SDTOOL_TOO_SMALL", "crates/sd_call/src/outcome.rt", "TOO_SMALL"),
    ("SDTOOL_NO_MEMORY", "crates/sd_call/src/outcome.rt", "NO_MEMORY"),
    ("SDTOOL_ACL_LIST", "crates/sd_call_build/src/new.rt", "LIST"),
    ("SDTOOL_NO_ACE", "crates/sd_call_convert/src/told.rt", "NO_ACE"),
    ("SDTOOL_MOST_DESCRIPTION", "crates/sd_call_convert/src/described.rt", "MOST_DESCRIPTION"),
    ("SDTOOL_RIGHTS", "crates/sd_call_access/src/reason.rt", "RIGHTS"),
    ("SDTOOL_NO_PLACE", "crates/sd_call_access/src/reason.rt", "NO_PLACE"),
    ("SDTOOL_CHANGE", "crates/sd_call/src/outcome.rt", "CHANGE"),
    ("SDTOOL_FAULT_ACL_TOO_LARGE", "crates/sd_call/src/outcome.rt", "ACL_TOO_LARGE"),
    ("SDTOOL_MOST_CHANGES", "crates/sd_call_edit/src/edit.rt", "MOST_CHANGES"),
    ("SDTOOL_NO_ACE", "crates/sd_call_edit/src/order.rt", "NO_ACE"),
    *((f"SDTOOL_{name}", "crates/sd_call_edit/src/change_in.rt", name) for name in (
        "PUT", "TAKE", "REPLACE", "TAKE_EACH", "SET_EACH", "ORDER", "STATE", "SET_OWNER", "SET_GROUP", "CONTROL",
        "AT_END", "BY_ORDER", "COMPARE_KIND", "COMPARE_MASK", "TYPE_NONE", "TYPE_GIVEN")),
    ("SDTOOL_NUMERIC", "crates/sd_call_convert/src/row.rt", "NUMERIC"),
    ("SDTOOL_MOST_DERIVED_ACES", "crates/sd_call_access/src/origins.rt", "MOST_DERIVED_ACES"),
]
IN_HEADER = {name: declared for declared, _, name in CONSTANTS if name == "MOST_SID_SIZE"}  # lengths of arrays


class Item(NamedTuple):
    """A member or an argument, as the header has it."""
    type: str
    name: str

    def __str__(self):
        return self.type + ("" if self.type.endswith("*") else " ") + self.name


class Function(NamedTuple):
    arguments: list
    result: str


class Export(NamedTuple):
    """A function in Rust for C."""
    name: str
    is_named: bool  # whether its symbol has that name
    fields: list
    result: str
    contract: str


class Header(NamedTuple):
    structs: dict
    functions: dict
    enums: dict   # by the name, and the enum without one as ""
    rest: str     # what is none of these


def item_of(declaration):
    """A declaration of C as its type and its name, or as a type without a name if it is none."""
    found = re.fullmatch(r"([\w\s]+?)\s*(\**)\s*\b(\w+)(\[\w+\])?", declaration.strip())
    if not found:
        return Item(declaration.strip(), "")
    base = " ".join(found[1].split())
    return Item(" ".join(filter(None, [base, found[2], found[4]])), found[3])


def header_in(text):
    """What a header declares. Comments and lines of the preprocessor do not count."""
    text = re.sub(r"/\*.*?\*/", " ", text, flags=re.S)
    text = re.sub(r'(?m)^#ifdef __cplusplus\n.*\n#endif$|^#.*$', " ", text)
    header = Header({}, {}, {}, "")

    def take_struct(found):
        header.structs[found[1]] = [item_of(one) for one in found[2].split(";") if one.strip()]
        return " "

    def take_enum(found):
        members = [re.fullmatch(r"\s*(\w+) = (\d+)\s*", member) for member in found[2].split(",")]
        header.enums.setdefault(found[1], {}).update({member[1]: int(member[2]) for member in members if member})
        return " " if all(members) else found[0]

    def take_function(found):
        declared = item_of(found[1])
        numbers = {name: str(number) for members in header.enums.values() for name, number in members.items()}
        given = re.sub(r"\[(\w+)\]", lambda length: f"[{numbers.get(length[1])}]", found[2])
        arguments = [] if given.strip() == "void" else [item_of(one) for one in given.split(",")]
        header.functions[declared.name] = Function(arguments, declared.type)
        return " "

    text = re.sub(r"\bstruct (\w+) \{([^{}]*)\};", take_struct, text)
    text = re.sub(r"\benum (\w*) ?\{([^{}]*)\};", take_enum, text)
    text = re.sub(r"([\w\s*]+)\(([^()]*)\);", take_function, text)
    return header._replace(rest=" ".join(text.split()))


def without_comments(text):
    return re.sub(r"//.*", "", text)


def fields_of(text):
    """The names and types of fields or arguments in Rust, without lifetimes."""
    text = re.sub(r"<'\w+>|'\w+\s+|#\[[^\]]*\]", "", without_comments(text))
    for field in text.split(","):
        if field.strip():
            name, _, kind = field.partition(":")
            yield name.split()[-1], " ".join(kind.split())


def structs_in(text):
    """Each struct with #[repr(C)]: its name, the structs that its doc comment names, and its fields."""
    pattern = r"((?:^[ ]*(?:///|#\[).*\n)+)[ ]*(?:pub(?:\([^)]*\))? )?struct (\w+)(?:<[^>]*>)? \{([^{}]*)^[ ]*\}"
    for above, name, fields in re.findall(pattern, text, re.M):
        if "#[repr(C)]" in map(str.strip, above.splitlines()):
            yield name, re.findall(r"`struct (\w+)` of the header", above), list(fields_of(fields))


def wrapped_numbers_in(text):
    """Each struct with #[repr(C)] around one private number, and what C calls that number."""
    pattern = r"^#\[repr\(C\)\]\n(?:#\[.*\n)*pub struct (\w+) \{\n +\w+: (\w+),\n\}"
    return {name: NUMBERS[kind] for name, kind in re.findall(pattern, text, re.M) if kind in NUMBERS}


def exports_in(text):
    """Each function for C."""
    above, visible, result = r"((?:^#\[.*\n)*)^[ ]*", r"(?:pub(?:\([^)]*\))? )?(?:unsafe )?", r"(?:->\s*([^\s{]+))?"
    pattern = above + visible + r'extern "C" fn (\w+)(?:<[^>]*>)?\s*\(([^)]*)\)\s*' + result + r"([\s\S]*?)^\{$"
    for attributes, name, arguments, result, contract in re.findall(pattern, text, re.M):
        is_named = "#[unsafe(no_mangle)]" in attributes.splitlines()
        yield Export(name, is_named, list(fields_of(arguments)), result, without_comments(contract))


class Sources:
    """What the sources of the library have for C."""

    def __init__(self, top):
        self.texts = {path.relative_to(top): path.read_text(encoding="utf-8")
                      for path in [*(path for crate in CRATES for path in sorted(top.glob(crate + "/**/*.rt"))),
                                   *(top / path for path in BELOW)]}
        self.numbers = dict(NUMBERS)
        for text in self.texts.values():
            self.numbers.update(wrapped_numbers_in(text))
        self.structs = [(path, *struct) for path, text in self.texts.items() for struct in structs_in(text)
                        if struct[0] not in self.numbers]
        self.exports = [(path, export) for path, text in self.texts.items() for export in exports_in(text)]
        self.counterparts = {name: named[0] for _, name, named, _ in self.structs if len(named) == 1}

    def c_type(self, kind):
        """What C calls a type that is no slice. A type that C does not have stays as it is."""
        array = re.fullmatch(r"(?:&mut )?\[(\w+); (\w+)\]", kind)
        if array:
            return f"{self.c_type(array[1])} [{IN_HEADER.get(array[2], array[2])}]"
        pointer = re.fullmatch(r"&(mut )?(\w+)", kind)
        if pointer:
            return f"{'' if pointer[1] else 'const '}{self.c_type(pointer[2])} *"
        return self.numbers.get(kind) or (f"struct {self.counterparts[kind]}" if kind in self.counterparts else kind)

    def slice_of(self, name, kind):
        """The pointer and the length that are a slice in C, or nothing if the type is no slice."""
        found = re.fullmatch(r"&(mut )?\[(\w+)\]", kind)
        if not found:
            return []
        pointer = self.c_type(f"&{found[1] or ''}{found[2]}")
        return [Item(pointer, name), Item("size_t", LENGTHS.get(name, name + "_size"))]

    def members(self, struct, fields):
        """The members that a struct of Rust has in C. Bytes are a struct of their own there, and a bool a byte."""
        for name, kind in fields:
            if kind == "bool":
                yield Item("uint8_t", name)
            elif kind == "&[u8]" and struct == BYTES:
                yield from (Item("const uint8_t *", name), Item("size_t", "size"))
            elif kind == "&[u8]":
                yield Item(f"struct {BYTES}", name)
            else:
                yield from self.slice_of(name, kind) or [Item(self.c_type(kind), name)]

    def arguments(self, fields, names):
        """The arguments that a function of Rust has in C, where the header has these names."""
        for name, kind in fields:
            if kind != ALLOCATOR:
                name = name if name in names else OTHER_NAMES.get(name, name)
                yield from self.slice_of(name, kind) or [Item(self.c_type(kind), name)]


def shown(items):
    return "; ".join(map(str, items))


def compare_structs(count, header, sources):
    for path, name, named, fields in sources.structs:
        count.add(len(named) == 1 and named[0] in header.structs,
                  f"{path}: the doc comment of {name} has to name its `struct sdtool_..` of the header: {named}")
        if len(named) == 1 and named[0] in header.structs:
            found, declared = list(sources.members(named[0], fields)), header.structs[named[0]]
            count.add(found == declared,
                      f"{path}: {name} is '{shown(found)}', but struct {named[0]} '{shown(declared)}'")
    for name in header.structs:
        ours = [f"{path}: {struct}" for path, struct, named, _ in sources.structs if name in named]
        count.add(len(ours) == 1, f"struct {name} has not one struct with #[repr(C)] in the sources: {ours}")


def compare_functions(count, header, sources):
    for path, export in sources.exports:
        count.add(export.is_named, f"{path}: {export.name} lacks #[unsafe(no_mangle)]")
        definition = DEFINITIONS.get(export.name)
        count.add(definition and re.search(rf"\b{definition}\b", export.contract),
                  f"{path}: the contract of {export.name} does not cite its definition, {definition}")
        declared = header.functions.get(export.name)
        count.add(declared, f"{path}: {HEADER} does not declare {export.name}")
        if declared:
            found = list(sources.arguments(export.fields, {argument.name for argument in declared.arguments}))
            count.add(found == declared.arguments,
                      f"{path}: {export.name} takes '{shown(found)}', but in {HEADER} '{shown(declared.arguments)}'")
            result = sources.c_type(export.result) if export.result else "void"
            count.add(result == declared.result,
                      f"{path}: {export.name} gives {result}, but in {HEADER} {declared.result}")
    for name in header.functions:
        found = [str(path) for path, export in sources.exports if export.name == name]
        count.add(len(found) == 1, f"{name} has not one function in the sources: {found}")


def body_of(text, function):
    """What stands between a function's name and the next brace that closes at its own indentation."""
    found = re.search(rf"(?ms)^([ ]*)(?:pub(?:\([^)]*\))? )?fn {function}\b(.*?)^\1\}}", text)
    return without_comments(found[2]) if found else ""


def spelled(name):
    """PrincipalSelf and principal-self as PRINCIPAL_SELF."""
    return re.sub(r"(?<=[a-z0-9])(?=[A-Z])", "_", name).replace("-", "_").upper()


def numbers_in(body):
    """The name and the number of each arm of a match that has both. The innermost name of a pattern counts."""
    for left, right in re.findall(r"(?m)^\s*(.*?) => (.*?),?$", body):
        number, name = (left, right) if left.isdecimal() else (right, left)
        names = re.findall(r"::(\w+)|\"([\w-]+)\"", name)
        if number.isdecimal() and names:
            yield spelled("".join(names[-1])), int(number)


def compare_numbers(count, top, header):
    for enum, prefix, path, function, is_whole in NAMED:
        found = set(numbers_in(body_of((top / path).read_text(encoding="utf-8"), function)))
        declared = {(name.removeprefix("SDTOOL_"), number) for name, number in header.enums.get(enum, {}).items()}
        zeros = {(name, number) for name, number in declared if name in WITHOUT_NAMES}
        named = {(name.removeprefix(prefix), number) for name, number in declared - zeros}
        count.add(found, f"{path}: {function} gives no numbers their names")
        count.add(found <= named, f"{path}: {function} has numbers that enum {enum} lacks: {sorted(found - named)}")
        if is_whole:
            count.add(named <= found, f"{path}: {function} lacks numbers of enum {enum}: {sorted(named - found)}")
        count.add(not any(number for _, number in zeros), f"enum {enum} has another number than 0: {sorted(zeros)}")


def constant(text, name):
    """The number of a constant, which may add and multiply others of its file; 0 if there is none."""
    found = re.search(rf"\bconst {name}: \w+ = ([\w\s+*]+);", text)

    def number(word):
        return int(word, 0) if word[0].isdigit() else constant(text, word)

    return sum(math.prod(map(number, term.split()[::2])) for term in found[1].split("+")) if found else 0


def compare_constants(count, top, header):
    numbers = {name: number for members in header.enums.values() for name, number in members.items()}
    defined = re.findall(r"^#define (\w+) (0x[0-9A-F]+)u$", (top / HEADER).read_text(encoding="utf-8"), re.M)
    numbers.update((name, int(number, 0)) for name, number in defined)
    for declared, path, name in CONSTANTS:
        found = constant((top / path).read_text(encoding="utf-8"), name)
        count.add(found == numbers.get(declared), f"{path}: {name} is {found}, but {declared} {numbers.get(declared)}")


def layouts(structs, numbers):
    """The size of each struct on a 64-bit machine, and the offset of each member."""
    sizes, rows = {"uint8_t": (1, 1), "uint16_t": (2, 2), "uint32_t": (4, 4), "size_t": (8, 8)}, {}
    for name, members in structs.items():
        at, widest, offsets = 0, 1, []
        for member in members:
            one, _, length = member.type.partition(" [")
            size, align = (8, 8) if member.type.endswith("*") else sizes[one]
            size *= int(numbers.get(length[:-1], length[:-1] or 1))
            at += -at % align
            offsets.append(at)
            at, widest = at + size, max(widest, align)
        at += -at % widest
        sizes[f"struct {name}"], rows[name] = (at, widest), (at, offsets)
    return rows


def compare_layouts(count, text, header):
    """The table of the header has a row for each struct."""
    rows = re.findall(r"^ \*     (sdtool_\w+) +(\d+): ([\d ]+)$", text, re.M)
    found = {name: (int(size), list(map(int, offsets.split()))) for name, size, offsets in rows}
    declared = layouts(header.structs, {name: number for one in header.enums.values() for name, number in one.items()})
    count.add(found == declared, f"{HEADER}: the table of layouts is {found}, and not {declared}")


def main(count: preload.Count) -> None:
    top = preload.TOP
    header, sources = header_in((top / HEADER).read_text(encoding="utf-8")), Sources(top)
    count.most_shown = 1000
    count.add(not header.rest, f"{HEADER} declares what this test cannot read: {header.rest[:300]}")
    compare_structs(count, header, sources)
    compare_functions(count, header, sources)
    compare_numbers(count, top, header)
    compare_constants(count, top, header)
    compare_layouts(count, (top / HEADER).read_text(encoding="utf-8"), header)
