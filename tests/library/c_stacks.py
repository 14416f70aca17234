"""Tests how much stack the calls of the library need. include/sdtool.h promises an upper bound.

  by the code     No function of libsdtool.a calls itself, directly or by way of others, and none calls through a
                  pointer. So the stack of a call is that of the longest way down, which is added up from the
                  instructions; with what malloc and the dynamic linker need it has to be within the bound. Of the
                  library that reads command lines a few functions call themselves for each level of commands, or of a
                  tree of options; the program has two levels, and they are counted three times. This reads the
                  instructions of x86-64, and is skipped for other processors.
  by running      Each call is made with its largest inputs, by tests/library/c/calls.c and tests/library/c/runs.c, on a
                  stack of 64 KiB, below which no byte can be touched. What it used has to be within the bound.
"""
import os
import pathlib
import platform
import re
import shutil
import subprocess
import tempfile
from typing import NamedTuple

import preload
from c_library import built

TOP = pathlib.Path(__file__).resolve().parents[2]
ARCHIVE = TOP / "out" / "lib" / "libsdtool.a"
HEADER = TOP / "include" / "sdtool.h"
STACK = 64 * 1024
SECONDS = 3000
MOST_ACL = 65535
LEVELS = 3  # one more than the program's levels of commands, and than those of a tree of its options
BY_LEVELS = re.compile(r"^clap::|clap\+\+|^std_collections::btree::node::Node::destroy::")
# What malloc needs, and the dynamic linker where a function is called for the first time.
BELOW = 6 * 1024
# What the C library's own functions use, which libsdtool.a calls: those of memory and of blocks.
OF_C = {"malloc", "free", "realloc", "calloc", "memcpy", "memmove", "memset", "memcmp", "bcmp", "strlen"}
HEAD = re.compile(r"^[0-9a-f]+ <(.+)>:$")
LINE = re.compile(r"^\s*[0-9a-f]+:\t(?:lock |rep |data16 |cs |notrack )*(\S+)\s*(.*)$")
RELOCATION = re.compile(r"\t[0-9a-f]+: R_X86_64_\w+\t(.+?)(?:[-+]0x[0-9a-f]+)?$")
FALLS_DOWN = re.compile(r"^\$0x([0-9a-f]+),%rsp$")
# A large frame is taken page by page, in a loop down to this place.
FALLS_TO = re.compile(r"^\$0x([0-9a-f]+),%r11$")
LEA_DOWN = re.compile(r"^-0x([0-9a-f]+)\(%rsp\),%rsp$")


class Function(NamedTuple):
    """What a function does with the stack: its frame at most, and what it calls and jumps to with what is below."""
    frame: int
    calls: set
    jumps: set
    unknown: list  # instructions that this cannot read


def promised(name):
    """The bound of the header for a call, in bytes."""
    text = re.sub(r"\s+(?:\*\s+)?", " ", HEADER.read_text(encoding="utf-8"))
    of_run, of_others = re.search(r"sdtool_run needs at most (\d+) KiB of stack, each other call at most (\d+) KiB",
                                  text).groups()
    return int(of_run if name == "sdtool_run" else of_others) * 1024


def exports():
    return sorted(set(re.findall(r"\b(sdtool_\w+)\(", HEADER.read_text(encoding="utf-8"))))


def name_in(section):
    """The function of a section that has one function, or of a symbol."""
    return re.sub(r"^\.text\.(unlikely\.)?", "", section)


def listed():
    """Each function of the archive with its instructions: the name, the operands, and what a relocation names."""
    text = subprocess.run(["objdump", "-d", "-r", "--no-show-raw-insn", "-w", ARCHIVE], stdout=subprocess.PIPE,
                          check=True).stdout.decode()
    functions, current = {}, None
    for line in text.splitlines():
        if head := HEAD.match(line):
            current = functions.setdefault(name_in(head[1]), [])
            continue
        line, *relocations = RELOCATION.split(line)
        if current is not None and (found := LINE.match(line)):
            current.append((found[1], found[2].partition("        # ")[0].strip(),
                            relocations[0] if relocations else None))
    return functions


def target_of(operands, relocation):
    """The function that a call or a jump leads to, or None where it stays in its own."""
    if relocation:
        return name_in(relocation)
    inside = re.search(r"<(.+?)(\+0x[0-9a-f]+)?>$", operands)
    return None if inside is None or inside[2] else name_in(inside[1])


def read(name, instructions):
    frame, calls, jumps, unknown, previous = 0, set(), set(), [], ""
    pushed = lowered = 0
    in_loop = False
    for operation, operands, relocation in instructions:
        if operation.startswith("push"):
            pushed += 8
        elif operation.startswith("sub") and (down := FALLS_TO.match(operands)) and previous == "mov %rsp,%r11":
            lowered += int(down[1], 16)
            in_loop = True
        elif in_loop:
            in_loop = f"{operation} {operands}" != "cmp %r11,%rsp"
        elif operation.startswith("sub") and (down := FALLS_DOWN.match(operands)):
            size = int(down[1], 16)
            lowered += size if size < 1 << 31 else 0
        elif operation.startswith("lea") and (down := LEA_DOWN.match(operands)):
            lowered += int(down[1], 16)
        elif operation.startswith(("sub", "and", "mov", "lea")) and operands.endswith(",%rsp"):
            if not (operation.startswith("and") or operation.startswith("lea")):
                unknown.append(f"{operation} {operands}")
        elif operation.startswith("call"):
            target = target_of(operands, relocation)
            if target is None or operands.startswith("*") and relocation is None:
                unknown.append(f"{operation} {operands}")
            else:
                calls.add(target)
        elif operation.startswith("j"):
            if operands.startswith("*") and relocation is None:
                continue  # a table of places in this function
            target = target_of(operands, relocation)
            if target is not None and target != name:
                jumps.add(target)
        frame = max(frame, pushed + lowered)
        previous = f"{operation} {operands}"
    # The return address of whoever is called.
    return Function(frame + 8, calls, jumps, unknown)


def is_by_levels(group):
    """Whether functions that call each other do so for each level of commands, or of a tree of options."""
    return all(BY_LEVELS.search(name) for name in group)


def groups(functions):
    """Functions that reach each other: the lowest groups first."""
    index, low, stack, found = {}, {}, [], []

    def visit(start):
        work = [(start, iter(sorted(functions[start].calls | functions[start].jumps)))]
        index[start] = low[start] = len(index)
        stack.append(start)
        while work:
            name, rest = work[-1]
            for other in rest:
                if other not in functions:
                    continue
                if other not in index:
                    index[other] = low[other] = len(index)
                    stack.append(other)
                    work.append((other, iter(sorted(functions[other].calls | functions[other].jumps))))
                    break
                if other in stack:
                    low[name] = min(low[name], index[other])
            else:
                work.pop()
                if work:
                    low[work[-1][0]] = min(low[work[-1][0]], low[name])
                if low[name] == index[name]:
                    group = set()
                    while True:
                        group.add(stack.pop())
                        if name in group:
                            break
                    found.append(frozenset(group))

    for name in sorted(functions):
        if name not in index:
            visit(name)
    return found


def calls_itself(group, functions):
    return any(functions[name].calls & group for name in group)


def depths(functions, lowest_first):
    """The stack of each function with all that it calls, and the way down."""
    known = {}
    for group in lowest_first:
        below = {other for name in group for other in functions[name].calls | functions[name].jumps} - group
        deepest = max((known.get(other, (0, ())) for other in below), default=(0, ()))
        own = sum(functions[name].frame for name in group) * (LEVELS if calls_itself(group, functions) else 1)
        for name in group:
            known[name] = own + deepest[0], (f"{name} {own}", *deepest[1])
    return known


def test_code(count):
    if platform.machine() != "x86_64" or not shutil.which("objdump"):
        print("skipped: the code is read by objdump, for x86-64")
        return
    instructions = listed()
    functions = {name: read(name, found) for name, found in instructions.items()}
    # From the exports alone: what the linker would drop is not called.
    reached, work = set(), exports()
    while work:
        name = work.pop()
        if name in functions and name not in reached:
            reached.add(name)
            work += functions[name].calls | functions[name].jumps
    functions = {name: functions[name] for name in reached}
    count.add(set(exports()) <= reached, f"functions of the archive: {sorted(set(exports()) - reached)} are missing")
    lowest_first = groups(functions)
    wrong = [sorted(group) for group in lowest_first if calls_itself(group, functions) and not is_by_levels(group)]
    count.add(not wrong, f"these functions call themselves: {wrong[:5]}")
    outside = set().union(*(function.calls | function.jumps for function in functions.values())) - reached
    count.add(outside <= OF_C, f"functions that the archive lacks: {sorted(outside - OF_C)[:9]}")
    unknown = {name: function.unknown for name, function in functions.items() if function.unknown}
    count.add(not unknown, f"instructions that this test cannot read: {dict(list(unknown.items())[:5])}")
    for name, (depth, way) in sorted(depths(functions, lowest_first).items()):
        if name in exports():
            print(f"{name} needs {depth:,} bytes")
            count.add(depth + BELOW <= promised(name), f"{name} needs {depth} bytes: {' -> '.join(way)}")


def sid(*subs):
    return bytes([1, len(subs), 0, 0, 0, 0, 0, 5]) + b"".join(sub.to_bytes(4, "little") for sub in subs)


def acl(aces):
    return (bytes([4, 0]) + (8 + sum(map(len, aces))).to_bytes(2, "little") + len(aces).to_bytes(2, "little") + bytes(2)
            + b"".join(aces))


def ace(kind, flags, mask, body):
    return bytes([kind, flags]) + (8 + len(body)).to_bytes(2, "little") + mask.to_bytes(4, "little") + body


def largest():
    """A descriptor with as many ACEs as fit, of SIDs and of GUIDs, and the largest SIDs."""
    owner = sid(*[4294967295] * 15)
    plain = ace(0, 0x1B, 0x1F01FF, owner)
    objects = ace(5, 0x13, 0x1F01FF, (3).to_bytes(4, "little") + bytes(range(32)) + owner)
    audits = ace(2, 0xDB, 0xF00F01FF, sid(0))
    dacl = acl(([objects] * 100 + [plain] * 700)[:(MOST_ACL - 8 - 100 * len(objects)) // len(plain) + 100])
    sacl = acl([audits] * ((MOST_ACL - 8) // len(audits)))
    at, parts, offsets = 20, b"", []
    for part in (owner, owner, sacl, dacl):
        offsets.append(at)
        parts, at = parts + part, at + len(part)
    return bytes([1, 0]) + (0x8014).to_bytes(2, "little") + b"".join(o.to_bytes(4, "little") for o in offsets) + parts


def questions(folder):
    """Each job of calls.c with its largest inputs."""
    big, owner = largest(), sid(*[4294967295] * 15)
    text = "D:" + "(A;OICIIOID;CCDCLCSWRPWPDTLOCRSDRCWDWO;;;S-1-281474976710655" + "-4294967295" * 15 + ")"
    texts = [text, "D:" + "(A;;FA;;;WD)" * 3000 + "S:" + "(AU;SAFA;0xf00f01ff;;;WD)" * 3000, "O:" + "x" * 1049870]
    sids, entries = sid(*[4294967295] * 15) * 1024, "00" * 1024
    yield "convert", big.hex() + "\n"
    yield "explain", big.hex() + "\n"
    yield "normalize", big.hex() + "\n"
    yield "from_sddl", "".join(one + "\n" for one in texts)
    for job in ("check", "reasons"):
        yield job, f"{big.hex()} {sids.hex()} {entries} {'00' * 16} {owner.hex()} 0 0 7 8192\n" \
                   f"{big.hex()} {sids.hex()}00 {entries} - - 1 0 0 -\n"
    for job in ("derive", "origins"):
        yield job, f"{big.hex()} {big.hex()} {owner.hex()} {owner.hex()} 1 0\n" \
                   f"{big.hex()} - {owner.hex()} {owner.hex()} 0 0\n"


def stack_in(count, name, most, words, data, status):
    """Runs a test of tests/library/c on a small stack, and reads how much a call used."""
    ended = subprocess.run(words, input=data, capture_output=True, timeout=SECONDS, check=False,
                           env={**os.environ, "STACK": str(STACK), "FORKS": "0"})
    found = re.search(rb"^stack (\d+) of (\d+), (\d+) for the thread itself$", ended.stdout, re.M)
    used = int(found[1]) if found else None
    print(f"{name} used {used} bytes" if found else f"{name}: no answer, status {ended.returncode}")
    count.add(found is not None and ended.returncode == status and used <= most,
              f"{name} on a stack of {STACK}: {used} bytes, status {ended.returncode} {ended.stderr.decode()[:300]}")


def test_running(count):
    with tempfile.TemporaryDirectory() as name:
        folder = pathlib.Path(name)
        calls, said = built(folder, "calls", "plain", [])
        runs, more = built(folder, "runs", "plain", [])
        count.add(calls is not None and runs is not None, said + more)
        if calls is None or runs is None:
            return
        for job, lines in questions(folder):
            stack_in(count, job, promised(job), [calls, job], lines.encode(), 0)
        big = largest().hex() + "\n"
        for words, status in ((["convert"], 0), (["explain"], 0), (["convert", "--to", "base64"], 0), (["--help"], 0),
                              (["convert", "--from", "sddl"], 1),
                              (["derive", "--kind", "file", "--owner", "BA", "--group", "BA", "--creator",
                                "D:(A;;FA;;;WD)"], 0),
                              (["check", "--token", ",".join(["S-1-5-21" + "-4294967295" * 8] * 1024), "--maximum"], 0),
                              ([f"--x{n}" for n in range(3000)], 2)):
            stack_in(count, f"run of {' '.join(words)[:40]}", promised("sdtool_run"), [runs, "once", *words],
                     big.encode() * 3, status)


def main(count: preload.Count) -> None:
    test_code(count)
    test_running(count)
