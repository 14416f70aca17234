"""Tests systems/lower_memory.py, which gives WebAssembly a 32-bit memory. For each load and store of vectors that
wasm-opt's pass leaves at 64 bits there is a module of one function. wasm-as has to refuse what the pass makes of it.
What the script makes of it has to do in Node what the instruction's definition says, at an address with an offset. An
instruction for memory that nothing is known to lower has to be refused by its name. It needs Node and binaryen, and is
skipped without them.
"""
import json
import pathlib
import shutil
import subprocess
import sys
import tempfile

import preload

SYSTEMS = pathlib.Path(__file__).resolve().parents[2] / "systems"
sys.path.append(str(SYSTEMS))
import lower_memory  # noqa: E402

GIVEN, OFFSET, RESULT = 64, 5, 256  # where the memory has what is read, and where the function writes
DATA = bytes((37 * at + 131) % 256 for at in range(16))
OTHER = bytes(range(1, 17))
LANES = (8, 16, 32, 64)
UNKNOWN = ["memory.fill", "memory.copy", "memory.init", "v128.load128_splat", "v128.load8x4_s", "v128.store64_zero",
           "i8x16.load", "i32.atomic.load8_u", "i64.atomic.rmw32.cmpxchg_u", "memory.atomic.notify", "i32.load_u",
           "f16.store"]
RUN = """
const { readFileSync } = require("node:fs");
const { files, given, at, offset, result } = JSON.parse(readFileSync(0));
const told = files.map((file) => {
  const { exports } = new WebAssembly.Instance(new WebAssembly.Module(readFileSync(file)));
  const bytes = new Uint8Array(exports.memory.buffer);
  bytes.set(given, at + offset);
  exports.run(BigInt(at), BigInt(result));
  return Array.from(bytes.subarray(result, result + 16));
});
console.log(JSON.stringify(told));
"""


def vector(data):
    return f"(v128.const i8x16 {' '.join(map(str, data))})"


def widened(bits, kind):
    """The eight bytes of the data as numbers of twice as many bits."""
    size = bits // 8
    numbers = [int.from_bytes(DATA[at:at + size], "little", signed=kind == "s") for at in range(0, 8, size)]
    return b"".join(number.to_bytes(2 * size, "little", signed=kind == "s") for number in numbers)


def cases():
    """Each instruction's name, the body of a function that reads at $at and writes at $to, and what it writes."""
    def stored(expression):
        return f"(v128.store (local.get $to) {expression})"
    for bits in LANES:
        size, lane = bits // 8, 128 // bits - 1
        name = f"v128.load{bits}_splat"
        yield name, stored(f"({name} offset={OFFSET} (local.get $at))"), DATA[:size] * (16 // size)
        name = f"v128.load{bits}_lane"
        yield name, stored(
            f"({name} offset={OFFSET} {lane} (local.get $at) {vector(OTHER)})"), OTHER[:lane * size] + DATA[:size]
        name = f"v128.store{bits}_lane"
        yield name, f"({name} offset={OFFSET} {lane} (i64.sub (local.get $to) (i64.const {OFFSET})) {vector(OTHER)})", \
            OTHER[lane * size:] + bytes(16 - size)
    for bits in (32, 64):
        name = f"v128.load{bits}_zero"
        yield name, stored(f"({name} offset={OFFSET} (local.get $at))"), DATA[:bits // 8] + bytes(16 - bits // 8)
    for bits in (8, 16, 32):
        for kind in "su":
            name = f"v128.load{bits}x{64 // bits}_{kind}"
            yield name, stored(f"({name} offset={OFFSET} (local.get $at))"), widened(bits, kind)


def module(body):
    return f"""(module (memory i64 1) (data (i64.const 0) ") \\22(i32.load8_u;;") (export "memory" (memory 0))
(func (export "run") (param $at i64) (param $to i64) {body}))"""


def test_known(count, folder):
    """The modules of the instructions, beside what each has to write, where the script made one."""
    for name, body, written in cases():
        source, left, target = (folder / f"{name}.{kind}.wasm" for kind in ("source", "left", "target"))
        count.add(not lower_memory.assemble(module(body), source), f"{name}: wasm-as does not know it")
        text = lower_memory.text_of(source)
        said = lower_memory.assemble(text, left)
        count.add(said and "address must match memory index type" in said, f"{name} with an address of 64 bits: {said}")
        said = lower_memory.assemble(lower_memory.lowered(text), target)
        count.add(not said, f"{name}: {said}")
        if not said:
            yield name, target, list(written)


def test_values(count, made):
    """Node runs the modules."""
    names, files, expected = zip(*made)
    asked = {"files": list(map(str, files)), "given": list(DATA), "at": GIVEN, "offset": OFFSET, "result": RESULT}
    ended = subprocess.run(["node", "-e", RUN], input=json.dumps(asked).encode(), stdout=subprocess.PIPE, check=True)
    for name, found, wanted in zip(names, json.loads(ended.stdout), expected):
        count.add(found == wanted, f"{name} writes {found}, not {wanted}")


def test_unknown(count):
    for name in UNKNOWN:
        try:
            lower_memory.lowered(f"(module (func ({name} offset=8 (local.get 0) (local.get 1))))")
            count.add(False, f"{name} is taken")
        except SystemExit as refusal:
            count.add(name in str(refusal), f"{name}: {refusal}")


def test_left_alone(count):
    """What the pass lowers, and what has nothing to do with memory, stays as it is: an address that is lowered, too."""
    for text in ('(i32.load8_u (i32.wrap_i64 (local.get 0)))',
                 '(i64.store32 offset=4 (i32.wrap_i64 (local.get 0)) (local.get 1))',
                 '(v128.load8_splat (i32.wrap_i64 (local.get 0)))', '(i8x16.splat (local.get 0))', '(memory.size)',
                 '(data (i32.const 0) "(v128.load8_splat (local.get 0))\\"")', ';; (v128.load8_splat (local.get 0))\n'):
        count.add(lower_memory.lowered(text) == text, f"{text} becomes {lower_memory.lowered(text)}")


def main(count: preload.Count) -> None:
    missing = [tool for tool in ("node", "wasm-opt", "wasm-as") if not shutil.which(tool)]
    if missing:
        print(f"lowering: skipped, there is no command {', '.join(missing)}")
        return
    with tempfile.TemporaryDirectory() as name:
        test_values(count, list(test_known(count, pathlib.Path(name))))
    test_unknown(count)
    test_left_alone(count)
