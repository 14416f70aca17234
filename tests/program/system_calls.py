"""Holds the program's reads and writes to a limit: a read for each 64 KiB of the input, and a write for each read and
for each 64,000 bytes of the output. The library faults.c, which is preloaded under it, counts them. So an answer of
many bytes goes out in few writes, and so do the answers to many lines that were read at once. What else the program
asks of the system is not counted.
"""
import pathlib
import tempfile

import device_faults as faults
import preload

READ, WRITE = 65_536, 64_000
MEGABYTE = 1_000_000
EXAMPLES = pathlib.Path(__file__).resolve().parents[2] / "examples/descriptors.hex"
LONGEST_SDDL = faults.LONG_SDDL + b"S" + faults.LONG_SDDL[1:]
# What is converted, and from and to which form.
CONVERTED = {
    "the longest SDDL that is printed": (["--from", "hex", "--to", "sddl"], faults.BOTH_LONG + b"\n"),
    "the same without an LF": (["--from", "hex", "--to", "sddl"], faults.BOTH_LONG),
    "the longest descriptor": (["--from", "hex", "--to", "hex"], faults.BOTH_LONG + b"\n"),
    "the same to base64": (["--from", "hex", "--to", "base64"], faults.BOTH_LONG + b"\n"),
    "the same from base64": (["--from", "base64", "--to", "hex"], faults.BASE64_BOTH_LONG + b"\n"),
    "a line of SDDL that is as long": (["--from", "sddl", "--to", "sddl"], LONGEST_SDDL + b"\n"),
    "the same to hex": (["--from", "sddl", "--to", "hex"], LONGEST_SDDL + b"\n"),
    "faulty lines of a few bytes": (["--from", "hex", "--to", "hex"], b"z\n" * 200_000),
    "empty lines": (["--from", "sddl", "--to", "sddl"], b"\n" * 400_000),
}


def of_examples():
    """The examples again and again, in each form."""
    data = EXAMPLES.read_bytes()
    for source in ("hex", "base64", "sddl"):
        lines = data if source == "hex" else faults.Answers(faults.Job(["convert", "--to", source], data)).all
        for form in ("hex", "base64", "sddl"):
            yield f"examples in {source} to {form}", (["--from", source, "--to", form],
                                                      lines * (MEGABYTE // len(lines)))


def main(count: preload.Count, given: preload.Given) -> None:
    program = given.program
    with tempfile.TemporaryDirectory() as folder:
        runner = faults.Runner(program, preload.build("faults.c", folder))
        for name, (words, data) in {**CONVERTED, **dict(of_examples())}.items():
            ended = runner.run(["convert", *words], data)
            reads, writes = (ended.letters().count(letter) for letter in "rw")
            print(f"{name}: {len(data):,} bytes to {len(ended.stdout):,} in {reads} reads and {writes} writes, "
                  f"{(reads + writes) * MEGABYTE / len(data):.0f} calls a megabyte")
            is_whole = ended.status in (0, 1) and ended.stdout.count(b"\n") == data.count(b"\n") + (data[-1:] != b"\n")
            count.add(is_whole, f"{name}: {ended}")
            # (one read more at the end, and one for a rest)
            count.add(0 < reads <= len(data) // READ + 2, f"{name}: {reads} reads")
            count.add(0 < writes <= reads + len(ended.stdout) // WRITE, f"{name}: {writes} writes")
