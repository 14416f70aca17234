"""Tests that the program never has more than 4 MiB resident, as Linux counts it (VmHWM in /proc), while its input is
still open: on lines of more than 2^32 bytes, whose answer and the one to the line behind them are looked at too, and on
the longest lines that are read.
"""
import array
import fcntl
import pathlib
import re
import subprocess
import termios
import threading
import time
from typing import NamedTuple

import device_faults as faults
import preload

MOST_KIB = 4096
BLOCK = 1 << 20
VERY_LONG = (1 << 32) + 3  # bytes of a line: more than 32 bits count
# The longest lines: of digits, of base64, of SDDL.
LONGEST_HEX, LONGEST_BASE64 = faults.BOTH_LONG, faults.BASE64_BOTH_LONG
LONGEST_SDDL = faults.LONG_SDDL + b"S" + faults.LONG_SDDL[1:]
HEADER = {"hex": b"01000080" + b"00" * 16, "base64": b"AQAAgAAAAAAAAAAAAAAAAAAAAAA=", "sddl": b" "}
HEADER_ANSWER = b"01000080" + b"00" * 16 + b"\n"
TOO_LONG = b"error 1 too-long\n"


class Ended(NamedTuple):
    stdout: bytes
    status: int
    memory: int  # KiB


def repeated(piece, size):
    """So many bytes of a piece again and again, in blocks."""
    block = piece * (BLOCK // len(piece))
    for _ in range(size // len(block)):
        yield block
    yield block[:size % len(block)]


def cases():
    """What is given, as blocks, in which form, and what is answered; None: one line, whatever it is."""
    for form, piece in (("hex", b"0"), ("base64", b"A"), ("sddl", b"O:BA"), ("sddl", b" ")):
        lines = [*repeated(piece, VERY_LONG)], b"\n", HEADER[form], b"\n"
        yield f"{VERY_LONG:,} bytes in a line of {form}, {piece!r}", form, lines, TOO_LONG + HEADER_ANSWER
    for form, line in (("hex", LONGEST_HEX), ("base64", LONGEST_BASE64), ("sddl", LONGEST_SDDL)):
        yield f"the longest line of {form}, 50 times", form, ([line + b"\n"] * 50, HEADER[form], b"\n"), None


def kib_of(process):
    """The most memory that the process had resident so far."""
    return int(re.search(r"VmHWM:\s+(\d+) kB", pathlib.Path(f"/proc/{process.pid}/status").read_text()).group(1))


def kib_once_read(process):
    """The same once nothing of what was written waits in the pipe."""
    waiting = array.array("i", [1])
    while waiting[0] and process.poll() is None:
        fcntl.ioctl(process.stdin, termios.FIONREAD, waiting)
        time.sleep(0.01)
    return kib_of(process)


def run(words, blocks):
    """What the program wrote, its status, and its memory once it has read all that was given."""
    with subprocess.Popen(words, stdin=subprocess.PIPE, stdout=subprocess.PIPE) as child:
        written = []
        reader = threading.Thread(target=lambda: written.extend(iter(lambda: child.stdout.read(BLOCK), b"")))
        reader.start()
        for block in blocks:
            for part in block if isinstance(block, list) else [block]:
                child.stdin.write(part)
        child.stdin.flush()
        memory = kib_once_read(child)
        child.stdin.close()
        reader.join()
        return Ended(b"".join(written), child.wait(), memory)


def main(count: preload.Count, given: preload.Given) -> None:
    program = given.program
    for name, form, blocks, wanted in cases():
        ended = run([program, "convert", "--from", form, "--to", "hex"], blocks)
        print(f"{name}: {ended.memory:,} KiB")
        count.add(0 < ended.memory <= MOST_KIB, f"{name}: {ended.memory} KiB")
        is_faulty = b"error" in ended.stdout
        is_right = ended.stdout == wanted if wanted else ended.stdout.count(b"\n") == 51 and not is_faulty
        count.add(is_right and ended.status == is_faulty, f"{name}: {ended.stdout[:80]} {ended.status}")
