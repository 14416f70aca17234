#!/usr/bin/env python3
"""lower_memory.py FROM TO

Lowers a WebAssembly module of a 64-bit memory to one of a 32-bit memory. The pass of wasm-opt does so, but for loads
and stores that spread a value over a vector, widen it, or move one lane: it leaves their addresses at 64 bits. In the
text of the module this script wraps the address of exactly those, their first operand, as the pass wraps the others.
wasm-as makes a module of the text again, and refuses one whose types do not fit.

An instruction for memory that neither the pass nor this script is known to lower is refused.
"""
import re
import subprocess
import sys
import tempfile

FEATURES = ["--enable-memory64", "--enable-sign-ext", "--enable-mutable-globals", "--enable-simd"]
WRAP = "i32.wrap_i64"
TOKEN = re.compile(r'"(?:[^"\\]|\\.)*"|;;[^\n]*|[()]|[^\s()";]+')
OF_MEMORY = re.compile(r"\w+\.\w*(load|store|atomic)[\w.]*|memory\.[\w.]+")
OF_THE_PASS = re.compile(r"([if](32|64)|v128)\.(load|store)|[if](32|64)\.(load(8|16|32)_[su]|store(8|16|32))|"
                         r"memory\.(size|grow)")
LEFT = re.compile(r"v128\.(load(8|16|32|64)_(splat|lane)|store(8|16|32|64)_lane|load(32|64)_zero|load(8x8|16x4|"
                  r"32x2)_[su])")


def is_left(name):
    """Whether the pass leaves the address of an instruction at 64 bits."""
    if not OF_MEMORY.fullmatch(name) or OF_THE_PASS.fullmatch(name):
        return False
    if not LEFT.fullmatch(name):
        raise SystemExit(f"nothing is known to lower {name}")
    return True


def operand_of(words, at):
    """Where the first operand of the instruction at a place begins and ends."""
    first = last = words.index("(", at)
    depth = 1
    while depth:
        last += 1
        depth += {"(": 1, ")": -1}.get(words[last], 0)
    return first, last


def lowered(text):
    """The text of a module with a 32-bit address for each instruction."""
    tokens = list(TOKEN.finditer(text))
    words = [token.group() for token in tokens]
    pieces, done = [], 0
    added = {}
    for at in range(1, len(words)):
        if words[at - 1] == "(" and is_left(words[at]):
            first, last = operand_of(words, at)
            if words[first + 1] != WRAP:
                added[tokens[first].start()], added[tokens[last].end()] = f"({WRAP} ", ")"
    for place in sorted(added):
        pieces += [text[done:place], added[place]]
        done = place
    return "".join([*pieces, text[done:]])


def text_of(source):
    """What the pass makes of a module, as text."""
    words = ["wasm-opt", "-n", *FEATURES, "--memory64-lowering", source, "-S", "-o", "-"]
    return subprocess.run(words, stdout=subprocess.PIPE, check=True).stdout.decode("latin-1")


def assemble(text, target):
    """Makes a module of a text. Gives why wasm-as refuses it, or None."""
    with tempfile.NamedTemporaryFile("w", suffix=".wat", encoding="latin-1") as file:
        file.write(text)
        file.flush()
        ended = subprocess.run(["wasm-as", *FEATURES, file.name, "-o", target], stderr=subprocess.PIPE, check=False)
    return ended.stderr.decode() or f"wasm-as ends with {ended.returncode}" if ended.returncode else None


def main():
    source, target = sys.argv[1:]
    return assemble(lowered(text_of(source)), target)


if __name__ == "__main__":
    sys.exit(main())
