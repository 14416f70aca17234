#!/usr/bin/env python3
"""languages.py [--check]

Writes what other languages declare of include/sdtool.h. Rust, .NET and Python's ctypes get its structs, numbers and
functions, and JavaScript gets where members are in WebAssembly. clang reads the header. With --check it writes nothing:
a stale file is a failure, and so is a function that a language neither calls nor leaves out for a reason below, or a
struct of systems/c/wasm.c that is not the header's with 32 bits. The last line is then 'N passed, M failed'.
"""
import argparse
import ast
import itertools
import json
import pathlib
import re
import shutil
import subprocess
import sys
import textwrap
from typing import Any, Callable, Dict, List, NamedTuple, Set, Tuple

sys.dont_write_bytecode = True
sys.path.append(str(pathlib.Path(__file__).resolve().parent.parent / "tests/shared"))
import preload  # noqa: E402

HEADER = preload.TOP / "include/sdtool.h"
HEAD = "`make figures` writes this file from include/sdtool.h"
# The files that call the functions of the header, in each language, and the functions that it has no use for.
READ_ONCE = {"sdtool_check": "sdtool_check_with serves", "sdtool_reasons": "sdtool_reasons_with serves"}
IN_PYTHON = {**READ_ONCE, "sdtool_describe": "_places.py says it"}
NO_NUMBER = {"sdtool_version_number": "sdtool_version serves"}
COLUMNS = ("sdtool_check_column", "sdtool_convert_many", "sdtool_derive_many")
LARGE = {name: f"{name}_large serves" for name in COLUMNS}
SMALL = dict.fromkeys((f"{name}_large" for name in COLUMNS), "no array has as many bytes")
ROWS = dict.fromkeys([*LARGE, *SMALL],
                     "a call for each row serves, as rows have to be copied to the module's memory anyway")
WASM = "systems/c/wasm.c"
OF_STRUCT = {"uint8_t": "B", "uint16_t": "H", "uint32_t": "I"}  # letters of the struct module
CALLERS: Dict[str, Tuple[str, str, Dict[str, str]]] = {
    "Rust": ("rust/sdtool/src/calls.rs", r"\b{name}\b", {**READ_ONCE, **LARGE}),
    "Go": ("go/*.go", r"\b(?:C\.|return ){name}\b", {**READ_ONCE, **LARGE}),
    ".NET": ("dotnet/Sdtool/[!N]*.cs", r"\bCalls\.{camel}\b", {**READ_ONCE, **SMALL}),
    "Python by ctypes": ("python/sdtool/_foreign.py", r"\b{name}\b",
                         {**IN_PYTHON, **NO_NUMBER, **LARGE, "sdtool_check_many": "sdtool_check_column_large serves"}),
    "Python in C": ("python/sdtool/_native.c", r"\bEACH\({short}\)",
                    {**IN_PYTHON, **dict.fromkeys([*LARGE, *SMALL], "calls for single values take less time")}),
    "JavaScript": ("javascript/sdtool.mjs", r'"{name}"', {**NO_NUMBER, **ROWS}),
    "WebAssembly": (WASM, r"\bEXPORT\({name}\)", ROWS),
}
# The names of other numbers in Python, and its tables of words: what is in front of a word, and words of other names.
NAMED_IN_PYTHON = {"_OWNER": "SET_OWNER", "_GROUP": "SET_GROUP", "_CHANGES": "ARGUMENT_CHANGES",
                   "_LONGEST_LINE": "MOST_TEXT"}
TABLES_OF_PYTHON: Dict[str, Tuple[str, Dict[str, str]]] = {
    "MAPPINGS": ("MAPPING_", {}), "KINDS": ("KIND_", {}), "ACLS": ("", {}), "PARTS": ("", {}),
    "STATES": ("ACL_", {}), "PLACES": ("", {"end": "AT_END", "order": "BY_ORDER"}), "FIELDS": ("FIELD_", {}),
    "REASONS": ("REASON_", {}),
    "_ARGUMENTS": ("ARGUMENT_", {"deny_only": "ARGUMENT_ENTRIES", "object_type": "ARGUMENT_OBJECT",
                                 "number": "ARGUMENT_FAULT"})}
TYPE = re.compile(r"(const )?(?:struct )?(\w+)(?: ?(\*))?(?:\[(\d+)\])?")


class Type(NamedTuple):
    base: str  # such as uint8_t, or sdtool_place for a struct
    is_pointer: bool
    is_const: bool
    length: int  # of an array, else 0


class Member(NamedTuple):
    """A member of a struct, or an argument of a function."""
    name: str
    type: Type


class Function(NamedTuple):
    arguments: List[Member]
    result: Type


class Header(NamedTuple):
    structs: Dict[str, List[Member]]
    functions: Dict[str, Function]
    numbers: Dict[str, int]


def type_of(text: str) -> Type:
    found = TYPE.fullmatch(text)
    if not found:
        sys.exit(f"{HEADER}: a type that no language has: {text}")
    return Type(found[2], bool(found[3]), bool(found[1]), int(found[4] or 0))


def value_of(constant: Dict[str, object]) -> int:
    """The number of an enum's member, which is that of the expression behind it."""
    while "value" not in constant:
        constant, = constant["inner"]  # type: ignore[misc]
    return int(str(constant["value"]))


def items_of(path: pathlib.Path, is_ours: Callable[[str], bool]) -> List[Tuple[Dict[str, Any], str, List[Member]]]:
    """What clang says that a file declares, and the members or arguments of what has one of our names."""
    words = ["clang", "-Xclang", "-ast-dump=json", "-fsyntax-only", "-x", "c", str(path)]
    tree = json.loads(subprocess.run(words, stdout=subprocess.PIPE, stderr=subprocess.DEVNULL, check=False).stdout)
    found = []
    for item in tree["inner"]:
        name, inner = item.get("name", ""), item.get("inner", [])
        members = [Member(one["name"], type_of(one["type"]["qualType"])) for one in inner
                   if one["kind"] in ("FieldDecl", "ParmVarDecl") and is_ours(name)]
        found.append((item, name, members))
    return found


def read() -> Header:
    """What the header declares."""
    header = Header({}, {}, {})
    for item, name, members in items_of(HEADER, lambda name: name.startswith("sdtool_")):
        if item["kind"] == "RecordDecl" and members:
            header.structs[name] = members
        elif item["kind"] == "FunctionDecl" and name.startswith("sdtool_"):
            header.functions[name] = Function(members, type_of(item["type"]["qualType"].partition(" (")[0]))
        elif item["kind"] == "EnumDecl":
            header.numbers.update((one["name"], value_of(one)) for one in item["inner"]
                                  if one["name"].startswith("SDTOOL_"))
    words = ["clang", "-dM", "-E", "-x", "c", str(HEADER)]
    macros = subprocess.run(words, stdout=subprocess.PIPE, check=True, text=True).stdout
    header.numbers.update((name, int(number, 0)) for name, number in
                          re.findall(r"^#define (SDTOOL_\w+) (\w+?)u?$", macros, re.M))
    for name, argument, text in re.findall(r"^#define (SDTOOL_\w+)\((\w+)\) (.*)$", macros, re.M):
        first, second = (eval(text.replace("(size_t)", ""), {argument: one}) for one in (0, 1))
        header.numbers.update({f"{name}_FIRST": first, f"{name}_EACH": second - first})
    return header


def camel(name: str) -> str:
    return "".join(map(str.capitalize, name[name.startswith("sdtool_") * len("sdtool_"):].split("_")))


def filled(head: str, items: List[str], end: str) -> str:
    """Items on lines that continue below the first one."""
    text = textwrap.fill(", ".join(item.replace(" ", "\0") for item in items) + end.replace(" ", "\0"), 120,
                         initial_indent=head, subsequent_indent=" " * len(head))
    return text.replace("\0", " ")


# Rust: the crate sdtool-sys.

OF_RUST = {"uint8_t": "u8", "uint16_t": "u16", "uint32_t": "u32", "uint64_t": "u64", "size_t": "usize",
           "_Bool": "bool", "bool": "bool"}


def rust_type(kind: Type) -> str:
    base = OF_RUST.get(kind.base, kind.base)
    if kind.is_pointer:
        return f"*{'const' if kind.is_const else 'mut'} {base}"
    return f"[{base}; {kind.length}]" if kind.length else base


def rust_function(name: str, function: Function) -> str:
    """As rustfmt writes it."""
    given = [f"{one.name}: {rust_type(one.type)}" for one in function.arguments]
    line = f"    pub fn {name}({', '.join(given)}) -> {rust_type(function.result)};"
    if len(line) <= 120:
        return line + "\n"
    return (f"    pub fn {name}(\n" + "".join(f"        {one},\n" for one in given)
            + f"    ) -> {rust_type(function.result)};\n")


def rust(header: Header) -> str:
    text = f"//! The calls of `libsdtool` as C has them, which `sdtool.h` describes.\n//!\n//! {HEAD}.\n"
    text += "#![no_std]\n#![allow(non_camel_case_types)]\n\n"
    text += "".join(f"pub const {name}: u32 = {number};\n" for name, number in header.numbers.items())
    for name, members in header.structs.items():
        text += f"\n#[repr(C)]\n#[derive(Clone, Copy, Debug)]\npub struct {name} {{\n"
        text += "".join(f"    pub {one.name}: {rust_type(one.type)},\n" for one in members) + "}\n"
    text += '\nextern "C" {\n' + "".join(rust_function(*item) for item in header.functions.items()) + "}\n"
    return text


# .NET: all is blittable, so a bool of C is a byte. Other languages refuse a process of 32 bits later; it has no size_t.

OF_CSHARP = {"uint8_t": "byte", "uint16_t": "ushort", "uint32_t": "uint", "uint64_t": "ulong", "size_t": "ulong",
             "_Bool": "byte", "bool": "byte"}
KEYWORDS = {"object", "out", "in", "ref", "params", "fixed", "byte", "uint", "ulong", "ushort"}
CSHARP = """\
// {head}.
using System;
using System.Runtime.InteropServices;
using System.Security;

namespace Sdtool
{{
    /// <summary>The structs, numbers and calls of include/sdtool.h.</summary>
    internal static unsafe class Native
    {{
{numbers}
{structs}{delegates}
        /// <summary>The calls of a library.</summary>
        internal sealed class Calls
        {{
{fields}
            /// <summary>FIND gives the address of a name, or throws.</summary>
            internal Calls(Func<string, IntPtr> find)
            {{
{bound}            }}

            private static T Bound<T>(IntPtr address)
            {{
                return Marshal.GetDelegateForFunctionPointer<T>(address);
            }}
        }}
    }}
}}
"""


def csharp_name(name: str) -> str:
    found = camel(name)
    found = found[0].lower() + found[1:]
    return f"@{found}" if found in KEYWORDS else found


def csharp_type(kind: Type) -> str:
    return (OF_CSHARP.get(kind.base) or camel(kind.base)) + "*" * kind.is_pointer


def csharp_struct(name: str, members: List[Member]) -> str:
    text = f"        [StructLayout(LayoutKind.Sequential)]\n        internal struct {camel(name)}\n        {{\n"
    for member in members:
        kind, called = csharp_type(member.type), csharp_name(member.name)
        array = f"[{member.type.length}]" * bool(member.type.length)
        text += f"            internal {'fixed ' * bool(array)}{kind} {called}{array};\n"
    return text + "        }\n\n"


def csharp_delegate(name: str, function: Function) -> str:
    head = f"        internal delegate {csharp_type(function.result)} {camel(name)}Call("
    given = [f"{csharp_type(one.type)} {csharp_name(one.name)}" for one in function.arguments]
    return ("        [UnmanagedFunctionPointer(CallingConvention.Cdecl), SuppressUnmanagedCodeSecurity]\n"
            + filled(head, given, ");") + "\n")


def csharp(header: Header) -> str:
    names = {name: camel(name) for name in header.functions}
    return CSHARP.format(
        head=HEAD, numbers="".join(f"        internal const uint {name} = {number};\n"
                                   for name, number in header.numbers.items()),
        structs="".join(csharp_struct(*item) for item in header.structs.items()),
        delegates="\n".join(csharp_delegate(*item) for item in header.functions.items()),
        fields="".join(f"            internal readonly {name}Call {name};\n" for name in names.values()),
        bound="".join(f'                {name} = Bound<{name}Call>(find("{call}"));\n' for call, name in names.items()))


# Python: structs of ctypes, and what each call takes and gives.

OF_CTYPES = {"uint8_t": "c_uint8", "uint16_t": "c_uint16", "uint32_t": "c_uint32", "uint64_t": "c_uint64",
             "size_t": "c_size_t", "_Bool": "c_bool", "bool": "c_bool"}
USERS_IN_PYTHON = ("python/sdtool/_foreign.py", "tests/library/*.py", "tests/dotnet/*.py")
PYTHON = """\
# {head}.
from ctypes import POINTER, Structure, c_bool, c_char_p, c_size_t, c_uint8, c_uint16, c_uint32, c_uint64, c_void_p
from typing import Any, Sequence, Tuple

# Those that are asked for.
{numbers}
{structs}


# Bytes that are read, and room for some that are written.
IN, OUT = (c_char_p, c_size_t), (c_void_p, c_size_t)
# Each call, what it takes, and what it gives.
CALLS: Tuple[Tuple[str, Sequence[Any], Any], ...] = (
{calls})
"""


def python_type(kind: Type) -> str:
    """Bytes that a call reads are bytes of Python; those that it writes have an address."""
    base = OF_CTYPES.get(kind.base) or camel(kind.base)
    if kind.is_pointer and base == "c_uint8":
        return "c_char_p" if kind.is_const else "c_void_p"
    return f"POINTER({base})" if kind.is_pointer else f"{base} * {kind.length}" if kind.length else base


def python(header: Header) -> str:
    users = [path.read_text(encoding="utf-8") for pattern in USERS_IN_PYTHON for path in preload.TOP.glob(pattern)]
    used = [f"{name[len('SDTOOL_'):]} = {number}" for name, number in header.numbers.items()
            if any(re.search(rf"\b(?:c|header)\.{name[len('SDTOOL_'):]}\b", text) for text in users)]
    structs = calls = ""
    for name, members in header.structs.items():
        fields = [f'("{one.name}", {python_type(one.type)})' for one in members]
        structs += f"\n\nclass {camel(name)}(Structure):\n{filled('    _fields_ = [', fields, ']')}\n"
    for name, (arguments, result) in header.functions.items():
        given = ", ".join(python_type(one.type) for one in arguments)
        given = given.replace("c_char_p, c_size_t", "*IN").replace("c_void_p, c_size_t", "*OUT")
        end = ("," if given and "," not in given else "") + f"), {python_type(result)}),"
        calls += filled(f'    ("{name[len("sdtool_"):]}", (', given.split(", ") if given else [], end) + "\n"
    return PYTHON.format(head=HEAD, numbers="\n".join(used), structs=structs.rstrip("\n"), calls=calls)


# JavaScript: the names that its file uses of where members are, of sizes, and of numbers. WebAssembly has 32 bits.

SIZES = {"uint8_t": 1, "uint16_t": 2, "uint32_t": 4, "size_t": 4}
OF_POINTER = 4
REGION = re.compile(r"(// What is written from sdtool\.h\b[^\n]*\n).*?(// What is written ends here\.\n)", re.S)


def size_and_alignment(header: Header, kind: Type) -> Tuple[int, int]:
    if kind.is_pointer:
        return OF_POINTER, OF_POINTER
    if kind.base in SIZES:
        return SIZES[kind.base] * (kind.length or 1), SIZES[kind.base]
    _, size, alignment = layout(header, kind.base)
    return size, alignment


def layout(header: Header, struct: str) -> Tuple[Dict[str, int], int, int]:
    """Where the members of a struct are, its size and its alignment."""
    offsets, end, most = {}, 0, 1
    for member in header.structs[struct]:
        size, alignment = size_and_alignment(header, member.type)
        end += -end % alignment
        offsets[member.name], end, most = end, end + size, max(most, alignment)
    return offsets, end + -end % most, most


def names_of_javascript(header: Header) -> Dict[str, int]:
    found = {}
    for struct in header.structs:
        offsets, size, _ = layout(header, struct)
        name = struct[len("sdtool_"):].upper()
        found.update({f"{name}_{member.upper()}_AT": offset for member, offset in offsets.items()})
        found[f"SIZE_OF_{name}"] = size
    found.update({name[len("SDTOOL_"):]: number for name, number in header.numbers.items()})
    return found


def javascript(header: Header) -> str:
    text = (preload.TOP / "javascript/sdtool.mjs").read_text(encoding="utf-8")
    if not REGION.search(text):
        sys.exit("javascript/sdtool.mjs has no place for what is written from sdtool.h")
    rest = re.sub(r"//.*", "", REGION.sub("", text))
    used = [f"{name} = {number}" for name, number in names_of_javascript(header).items()
            if re.search(rf"(?<![\w.\"]){name}\b", rest)]
    return REGION.sub(lambda found: found[1] + filled("const ", used, ";") + "\n" + found[2], text)


FILES: Dict[str, Callable[[Header], str]] = {
    "rust/sdtool-sys/src/lib.rs": rust,
    "dotnet/Sdtool/Native.cs": csharp,
    "python/sdtool/_header.py": python,
    "javascript/sdtool.mjs": javascript,
}


def is_here(name: str) -> bool:
    """Whether the folder of a language is in the tree."""
    return (preload.TOP / name.partition("/")[0]).is_dir()


def judge_calls(count: preload.Count, header: Header) -> None:
    """Each language calls each function, or leaves it out for a reason."""
    for language, (pattern, call, left_out) in CALLERS.items():
        if not is_here(pattern):
            continue
        text = "\n".join(path.read_text(encoding="utf-8") for path in preload.TOP.glob(pattern))
        for name in header.functions:
            pattern_of_call = call.format(name=name, camel=camel(name), short=name[len("sdtool_"):])
            is_called = re.search(pattern_of_call, text) is not None
            count.add(is_called != (name in left_out), f"{language} {'calls' if is_called else 'lacks'} {name}")


def narrow(kind: Type, structs: Set[str]) -> Type:
    """A type as a machine of 32 bits has it, where a file has narrow structs of its own."""
    base = kind.base[len("sdtool_"):] if kind.base.startswith("sdtool_") else kind.base
    if kind.is_pointer or base == "size_t":
        return Type("uint32_t", False, False, 0)
    return kind._replace(base=base) if base in structs else kind


def shown(members: List[Member]) -> str:
    return "; ".join(f"{one.type.base} {one.name}" for one in members)


def with_parts(header: Header, names: Set[str]) -> Set[str]:
    """These types, and those of all members of structs among them."""
    more = {one.type.base for name in names for one in header.structs.get(name, ())} - names
    return with_parts(header, names | more) if more else names


def judge_wasm(count: preload.Count, header: Header) -> None:
    """The structs of WASM that are not the header's are the same with 32 bits, and the others have none wider. It needs
    none that only functions take which it leaves out."""
    left_out = CALLERS["WebAssembly"][2]
    used, unused = (with_parts(header, {
        one.type.base for name, function in header.functions.items() if (name in left_out) == is_left_out
        for one in function.arguments}) for is_left_out in (False, True))
    ours = {struct[len("sdtool_"):] for struct in header.structs}
    found = {name: members for item, name, members in items_of(preload.TOP / WASM, ours.__contains__)
             if item["kind"] == "RecordDecl" and members}
    for struct, members in header.structs.items():
        if struct in unused - used:
            continue
        name = struct[len("sdtool_"):]
        right = [Member(one.name, narrow(one.type, set(found))) for one in members]
        count.add(found.get(name, members) == right, f"{WASM}: struct {name} is {shown(found.get(name, []))}")


def judge_layout(count: preload.Count, header: Header) -> None:
    """clang lays the structs out with 32 bits as JavaScript has them."""
    text = f'#include "{HEADER}"\n'
    for struct in header.structs:
        offsets, size, _ = layout(header, struct)
        text += f'_Static_assert(sizeof(struct {struct}) == {size}, "");\n'
        text += "".join(f'_Static_assert(offsetof(struct {struct}, {member}) == {offset}, "");\n'
                        for member, offset in offsets.items())
    words = ["clang", "--target=wasm32-unknown-unknown", "-ffreestanding", "-fsyntax-only", "-x", "c", "-"]
    ended = subprocess.run(words, input=text, stderr=subprocess.PIPE, text=True, check=False)
    count.add(ended.returncode == 0, f"{HEADER} with 32 bits: {ended.stderr}")


def constants_in(path: pathlib.Path) -> Dict[str, Any]:
    """What a file of Python assigns on its top level: what it is, or for what has to run first the expression."""
    found: Dict[str, Any] = {}
    for node in ast.parse(path.read_text(encoding="utf-8")).body:
        if isinstance(node, ast.Assign):
            target, value = node.targets[0], node.value
        elif isinstance(node, ast.AnnAssign) and node.value:
            target, value = node.target, node.value
        else:
            continue
        try:
            result = eval(compile(ast.Expression(value), path.name, "eval"), {"__builtins__": {}, "range": range})
        except (AttributeError, NameError, TypeError):
            result = value
        names = target.elts if isinstance(target, ast.Tuple) else [target]
        values = result if isinstance(target, ast.Tuple) and not isinstance(result, ast.AST) else [result] * len(names)
        found.update((one.id, value) for one, value in zip(names, values) if isinstance(one, ast.Name))
    return found


def judge_python(count: preload.Count, header: Header) -> None:
    """The numbers of the header that files of Python have by themselves, since _native needs no ctypes."""
    numbers = {name[len("SDTOOL_"):]: number for name, number in header.numbers.items()}
    written = {preload.TOP / f"python/sdtool/{name}.py" for name in ("_header", "_windows")}
    tried: Set[str] = set()
    for path in sorted({*preload.TOP.glob("python/sdtool/_*.py")} - written):
        for name, value in constants_in(path).items():
            number = NAMED_IN_PYTHON.get(name, name.lstrip("_"))
            if type(value) is int and number in numbers:
                count.add(value == numbers[number], f"{path.name}: {name} = {value}, not {numbers[number]}")
                tried.add(name)
            if name in TABLES_OF_PYTHON and isinstance(value, (dict, tuple)):
                prefix, others = TABLES_OF_PYTHON[name]
                rows = value if isinstance(value, dict) else {word: at for at, word in enumerate(value) if word}
                right = {word: numbers.get(others.get(word) or prefix + spelled(word)) for word in rows}
                count.add(rows == right, f"{path.name}: {name} has {rows}, not {right}")
                all_there = sum(bool(prefix) and one.startswith(prefix) for one in numbers)
                count.add(all_there in (0, len(rows)), f"{path.name}: {name} has {len(rows)} of {all_there} numbers")
                tried.add(name)
    expected = {*TABLES_OF_PYTHON, *NAMED_IN_PYTHON}
    count.add(expected <= tried, f"Python lacks {sorted(expected - tried)}")


def spelled(word: str) -> str:
    return word.upper().replace(" ", "_").replace("-", "_")


def judge_change(count: preload.Count, header: Header) -> None:
    """Python's changes have the members of the header's, which the struct module packs."""
    found = constants_in(preload.TOP / "python/sdtool/_changes.py")
    names = [*found["_NUMBERS"], *found["_BYTES"]]
    members = header.structs["sdtool_change"]
    count.add(names == [one.name for one in members], f"_changes.py has the members {names}")
    letters = [f"{one.type.length}s" if one.type.length else OF_STRUCT[one.type.base] for one in members]
    right = "="
    for letter, run in itertools.groupby(letters):
        times = len(list(run))
        right += letter * times if letter.endswith("s") else f"{times}{letter}"
    layout_of = found["_LAYOUT"].args[0].value
    count.add(layout_of == right, f"_changes.py packs {layout_of!r}, not {right}")


def main() -> int:
    words = argparse.ArgumentParser(prog="languages.py", allow_abbrev=False)
    words.add_argument("--check", action="store_true")
    is_check, count = words.parse_args().check, preload.Count(most_shown=1000)
    if not shutil.which("clang"):
        print("skipped: there is no command clang (Debian: clang)")
        return count.end() if is_check else 0
    header = read()
    for name, write in FILES.items():
        if not is_here(name):
            continue
        path, text = preload.TOP / name, write(header)
        if not is_check:
            path.write_text(text, encoding="utf-8")
        else:
            found = path.read_text(encoding="utf-8") if path.exists() else ""
            count.add(found == text, f"{name} is stale: make figures")
    if not is_check:
        return 0
    judge_calls(count, header)
    judge_layout(count, header)
    judge_wasm(count, header)
    judge_python(count, header)
    judge_change(count, header)
    return count.end()


if __name__ == "__main__":
    sys.exit(main())
