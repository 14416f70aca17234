"""Refuses the program's allocations. A small library (refuse.c) is preloaded under it. First each allocation of a few
command lines in turn: the program says `sdtool: no memory`, ends with status 4, and has neither read nor written
anything. One allocation of each may be dispensable: refused, it changes nothing. Before its first read the program
takes memory for the token, in two allocations, and for the engine, in four that are as large as a descriptor or larger:
none of them is dispensable. No allocation is larger than the engine's buffer for base64, of 174,968 bytes, so a buffer
that is doubled fails the test. Then every allocation from the first read on: there is none, so nothing changes.
"""
import base64
import os
import re
import subprocess
import tempfile
from typing import NamedTuple

import preload

SECONDS = 1200       # for one run
ALLOCATIONS = 5000  # of one command line, at the very most
EMPTY = b"0100008000000000000000000000000000000000"
LIMIT, BASE64_LIMIT, SDDL_LIMIT = 262_452, 174_968, 1_049_872  # bytes of the longest line that is read
DOMAIN = "S-1-5-21-1-2-3"
LONGEST_DOMAIN = "S-1-0xffffffffffff" + "-1" * 14
OF_DOMAIN = b"0100008014000000000000000000000000000000" b"010500000000000515000000" b"01000000020000000300000000020000"
# A DACL with one ACE; a SACL of revision 2 that its object ACE makes one of revision 4; and as many ACEs as there can
# be.
ACE = b"00001400ff011f00010100000000000100000000"
WITH_DACL = b"010004800000000000000000000000001400000002001c0001000000" + ACE
WITH_SACL = (b"010010800000000000000000140000000000000002002000010000000700180001000000" b"fcffffff"
             b"010100000000000100000000")
NULL_ACLS = b"010014bf00000000000000000000000000000000"
LABEL = b"0100108000000000000000001400000000000000" b"02001c0001000000" b"1100140003000000" b"010100000000001000300000"
GUIDS = b"0100048000000000000000000000000014000000" b"0400400001000000" b"0603380000000110" b"03000000" \
        b"ba7a96bfe60dd011a28500aa003049e2" b"9c7a96bfe60dd011a28500aa003049e2" b"010100000000000512000000"
FULL = b"0100048000000000000000000000000014000000" b"0200f8ffff0f0000" + b"01001000ff010ff00100ffffffffffff" * 4095
FAULTY_ACLS = [WITH_DACL[:-2], WITH_DACL[:-40] + b"09" + ACE[2:], WITH_DACL[:-40] + b"0020" + ACE[4:],
               WITH_DACL[:-24] + b"02" + ACE[18:], FULL[:-16] + b"02" + FULL[-14:],
               b"01001480000000000000000014000000140000000200080000000000"]
# The list of words is copied to a block that just fits; where there is no such block, it stays where it is.
DISPENSABLE = 1
# What the library tells of the token, the engine and the first read. An allocation above the most, x, is in none.
TOKEN, ENGINE, READ = b"mm", b"llll", b"r"
CREATOR, LONG_CREATOR = ("O:DAG:DUD:P" + "(A;OICI;FA;;;CO)" * count + "S:(ML;;NW;;;HI)" for count in (200, 3000))
COMMAND_LINES = [
    ["convert"],
    ["convert", "--from", "hex", "--to=hex"],
    ["convert", "--from", "hex", "--to", "sddl", "--numeric"],
    ["convert", "--numeric", "--domain", DOMAIN],
    ["convert", "--to", "hex", "--domain=BA"],
    ["convert", "--domain", LONGEST_DOMAIN],
    ["convert", "--domain", "DA"],
    ["convert", "--domain", "BA", "--from", "sddl"],
    ["convert", "--from=sddl", "--to=hex"],
    ["convert", "--from", "base64", "--to=base64"],
    ["convert", "--domain", "BA", "--from", "xml"],
    ["convert", "--to", "xml"],
    ["convert", "--numeric", "--numeric"],
    ["convert", "--to", "hex", "--to", "hex"],
    ["convert", "--help"],
    ["explain"],
    ["explain", "--from", "sddl", "--numeric", "--domain", LONGEST_DOMAIN],
    ["explain", "--domain", DOMAIN, "--from", "xml"],
    ["check", "--token", ",".join(["!WD"] * 1024), "--maximum", "--domain", DOMAIN],
    ["check", "--token", "WD", "--type", "ds", "--want", "RP", "--object", "bf967aba-0de6-11d0-a285-00aa003049e2",
     "--self", "BA", "--security", "--take-ownership"],
    ["check", "--token", "WD,!BA", "--maximum", "--level", "0000004096"],
    ["check", "--token", "WD", "--maximum", "--level", "4294967296"],
    ["check", "--token", ",".join(["WD"] * 1025)],
    ["check", "--token", "WD"],
    ["derive", "--kind", "container", "--owner", "DA", "--group", "DU", "--domain", DOMAIN, "--from=sddl", "--to=hex",
     "--type", "key", "--numeric"],
    ["derive", "--kind", "file", "--owner", "BA", "--group", "SY", "--domain", DOMAIN, "--creator", CREATOR],
    ["derive", "--kind", "file", "--owner", "BA", "--group", "SY", "--creator", ""],
    ["derive", "--kind", "file", "--owner", "BA", "--group", "SY", "--creator", "O:ZZ"],
    ["derive", "--kind", "file", "--owner", "BA", "--group", "DU"],
    ["derive", "--kind", "file", "--owner", "BA"],
    ["--help"],
    [],
]
# Worked rows: the words, the line and the answer.
WORKED = (b"01000480140000002400000000000000300000000102000000000005200000002002000001010000000000051200000002001c00010"
          b"00000" + ACE)
USER = "S-1-5-21-1-2-3-1001"
EXPLANATION = b"""control 0x8004 DP SR
rm 0x00
owner S-1-5-32-544 BA
group S-1-5-18 SY
dacl list 1
dacl 1 A flags none mask 0x001f01ff rights FA sid S-1-1-0 WD
sacl absent
end"""
ROWS = [
    (["convert", "--to", "hex"], WORKED, WORKED),
    (["convert", "--to", "sddl"], WORKED, b"O:BAG:SYD:(A;;FA;;;WD)"),
    (["check", "--from", "sddl", "--token", f"{USER},!BA", "--want", "FR"], b"D:(A;;FA;;;BA)", b"denied 0x00120089"),
    (["derive", "--from", "sddl", "--kind", "container", "--owner", USER, "--group", "WD"], b"D:(A;OICIIO;GA;;;CO)",
     b"O:S-1-5-21-1-2-3-1001G:WDD:AI(A;ID;FA;;;S-1-5-21-1-2-3-1001)(A;OICIIOID;GA;;;CO)"),
    (["check", "--from", "sddl", "--token", "WD", "--level", "8192", "--maximum"], b"D:(A;;FA;;;WD)S:(ML;;NW;;;HI)",
     b"granted 0x001200a9"),
    (["derive", "--from", "sddl", "--kind", "container", "--owner", "BA", "--group", "SY", "--creator",
      "D:(A;OICI;GA;;;CO)"],
     b"D:(A;OICI;FA;;;SY)", b"O:BAG:SYD:AI(A;;FA;;;BA)(A;OICIIO;GA;;;CO)(A;OICIID;FA;;;SY)"),
    (["explain"], WORKED, EXPLANATION),
]
# The longest line of hex: two SIDs of fifteen sub-authorities and two ACLs of 65,535 bytes.
LONG_ACL, LONG_SID = b"0200ffff00000000" + b"00" * 65_527, b"010f000000000005" + b"00" * 60
LONGEST = b"0100148014000000580000009c0000009b000100" + LONG_SID * 2 + LONG_ACL * 2
LONGEST_SDDL = b"O:S-1-5%bG:S-1-5%bD:S:" % (b"-0" * 15, b"-0" * 15)
HEX_LINES = [EMPTY, b"zz", b"", EMPTY + b"\r", EMPTY + b"f" * (LIMIT - len(EMPTY)), b"0" * (LIMIT + 1), b"0", EMPTY,
             WITH_DACL, WITH_SACL, OF_DOMAIN, NULL_ACLS, LABEL, GUIDS, FULL, *FAULTY_ACLS, WITH_DACL]
SDDL_ACE = (b"(OA;CIIO;0x1f;bf967aba-0de6-11d0-a285-00aa003049e2;bf967a9c-0de6-11d0-a285-00aa003049e2;"
            b"S-1-5-21-1-2-3-512)")
# Of which a file gets two ACLs that are too large.
TOO_LARGE = b"D:" + b"(A;OI;FA;;;CO)" * 3000 + b"S:" + b"(AU;OI;FA;;;CO)" * 3000
FULL_SDDL = b"D:" + b"(AU;OICINPIOIDSAFA;CCDCLCSWRPWPDTLOCRSDRCWDWOGAGXGWGR;;;S-1-0xffffffffffff)" * 4095
# A fault of each kind, and lines at the limit and past it.
FAULTY_SDDL = [b"x", b"D:(A;;FA;;WD)", b"O:BAO:SY", b"O:ZZ", b"O:S-1-4294967296", b"O:", b"D:PX", b"D:(A;;0x;;;WD)",
               b"D:(OA;;FA;x;;WD)", b"S:(XA;;FA;;;WD)", b"D:" + b"(A;;FA;;;WD)" * 3277, b"O:" + b"x" * (SDDL_LIMIT - 2),
               b" " * (SDDL_LIMIT + 1)]
SDDL_LINES = [b"O:BAG:SYD:PAI" + SDDL_ACE + b"S:AR(ML;;NW;;;HI)", b"", b" o:ba ", b"D:NO_ACCESS_CONTROL\r", FULL_SDDL,
              b" " * SDDL_LIMIT, TOO_LARGE, *FAULTY_SDDL, b"G:S-1-5" + b"-4294967295" * 15, b"O:DA", b"D:" + SDDL_ACE]
BASE64_LINES = [base64.b64encode(bytes.fromhex(line.decode())) for line in (EMPTY, WITH_DACL, OF_DOMAIN, GUIDS, FULL)]
BASE64_LINES += [b"", b"AQ", b"AQ==", BASE64_LINES[0] + b"\r", b"A" * BASE64_LIMIT, b"!" * BASE64_LIMIT,
                 b"A" * (BASE64_LIMIT + 1), BASE64_LINES[1]]
LONGEST_LINES = [WORKED, LONGEST, LONGEST + b"00", WORKED]
LONGEST_ANSWERS = [b"O:BAG:SYD:(A;;FA;;;WD)", LONGEST_SDDL, b"error 1 too-long", b"O:BAG:SYD:(A;;FA;;;WD)"]
# The words, and the lines that are read under them.
READING = [
    (["convert", "--to", "hex"], HEX_LINES * 20),
    (["convert", "--domain", DOMAIN], HEX_LINES * 20),
    (["convert", "--domain", LONGEST_DOMAIN, "--to", "sddl", "--numeric"], HEX_LINES * 20),
    (["convert", "--from", "sddl", "--to", "hex"], SDDL_LINES * 5),
    (["convert", "--from", "sddl", "--domain", LONGEST_DOMAIN], SDDL_LINES * 5),
    (["convert", "--to", "base64"], HEX_LINES * 5),
    (["convert", "--from", "base64"], BASE64_LINES * 5),
    (["convert", "--from", "base64", "--to", "base64"], BASE64_LINES * 5),
    (["explain", "--domain", DOMAIN], HEX_LINES * 5),
    (["explain", "--from", "sddl", "--numeric"], SDDL_LINES * 5),
    (["check", "--token", "WD,!BA", "--maximum"], HEX_LINES * 5),
    (["check", "--token", "WD,!BA", "--want", "RC", "--from", "sddl"], SDDL_LINES * 5),
    (["derive", "--kind", "container", "--owner", "BA", "--group", "SY"], HEX_LINES * 5),
    (["derive", "--kind", "file", "--owner", "BA", "--group", "SY", "--from", "sddl", "--to", "hex"], SDDL_LINES * 5),
    (["check", "--token", "WD,!BA", "--maximum", "--level", "4096"], HEX_LINES * 5),
    (["check", "--token", "WD,!BA", "--want", "RC", "--level", "8191", "--from", "sddl"], SDDL_LINES * 5),
    (["derive", "--kind", "container", "--owner", "BA", "--group", "SY", "--creator", "D:(A;OICI;GA;;;CO)S:P"],
     HEX_LINES * 5),
    (["derive", "--kind", "file", "--owner", "BA", "--group", "SY", "--from", "sddl", "--to", "hex", "--domain", DOMAIN,
      "--creator", LONG_CREATOR], SDDL_LINES * 5),
]


class Ended(NamedTuple):
    status: int
    stdout: bytes
    stderr: bytes
    taken: int  # bytes of the input

    def __str__(self):
        return f"status {self.status}, stdout {self.stdout[:80]}, stderr {self.stderr[:80]}, {self.taken} bytes read"


NO_MEMORY = Ended(4, b"", b"sdtool: no memory\n", 0)


def run(command, data, library, **settings):
    """How the command ended, and the letters that the library told."""
    telling, told_to = os.pipe()
    with tempfile.TemporaryFile() as given:
        given.write(data)
        given.seek(0)
        environment = {**os.environ, "LD_PRELOAD": library, "REFUSE_TELL": str(told_to)}
        environment.update({name: str(value) for name, value in settings.items()})
        child = subprocess.run(command, stdin=given, capture_output=True, env=environment, pass_fds=[told_to],
                               timeout=SECONDS)
        os.close(told_to)
        with open(telling, "rb") as events:
            told = events.read()
        taken = os.lseek(given.fileno(), 0, os.SEEK_CUR)
    return Ended(child.returncode, child.stdout, child.stderr, taken), told


def refused_in(told):
    """The letters up to that of the first refused allocation."""
    found = re.match(rb"[a-z]*[A-Z]", told)
    return found[0] if found else b""


def is_told(told):
    """Whether memory for the token and then for the engine was taken last, and just before the first read. Words that
    the command line takes get both before their values are looked at; after a wrong value nothing is read."""
    return re.fullmatch(b"m*" + TOKEN + ENGINE + READ + b"?", told) or re.fullmatch(b"m*", told)


def refuse_each(count, program, words, library, line=EMPTY, answer=None):
    """Each allocation in turn, until there is none any more to refuse."""
    data = line + b"\n"
    shown = " ".join(["sdtool", *words])
    plain, plainly_told = run([program, *words], data, library)
    dispensable, fronts = [], set()
    for number in range(1, ALLOCATIONS):
        ended, told = run([program, *words], data, library, REFUSE_AT=number)
        front = refused_in(told)
        if not front:
            break
        fronts.add(front)
        if ended == plain and front.endswith(b"S"):
            dispensable.append(number)
        else:
            count.add(ended == NO_MEMORY, f"{shown}, allocation {number} refused: {ended}")
    print(f"{shown}: {number - 1} allocations, each refused in turn; dispensable: {dispensable}")
    count.add(number > 1, f"{shown}: no allocation was seen; is the program linked with the C library as a shared one?")
    count.add(len(dispensable) <= DISPENSABLE, f"{shown}: more allocations are dispensable than {DISPENSABLE}")
    stores = plainly_told.rstrip(READ)
    count.add(is_told(plainly_told), f"{shown}: the library told {plainly_told}")
    count.add(all(stores[:at] + stores[at:at + 1].upper() in fronts for at in range(len(stores))),
              f"{shown}: of {stores} not each was refused, but {fronts}")
    count.add(ended == plain, f"{shown}, none refused: {ended}, not {plain}")
    if answer is not None:
        count.add(plain[:3] == (0, answer + b"\n", b""), f"{shown}, none refused: {plain}, not {answer}")


def refuse_when_reading(count, program, words, lines, library, answers=None):
    data = b"\n".join(lines)
    command, shown = [program, *words], " ".join(["sdtool", *words])
    plain, _ = run(command, data, library)
    ended, told = run(command, data, library, REFUSE_WHEN_READING=1)
    count.add(plain.status == 1 and plain.taken == len(data), f"{shown}, plain run: {plain}")
    if answers is not None:
        count.add(plain.stdout == b"".join(answer + b"\n" for answer in answers), f"{shown}, plain run: {plain}")
    count.add(ended == plain, f"{shown}, every allocation refused from the first read on: {ended}, not {plain}")
    count.add(is_told(told) and told.endswith(READ), f"{shown}, the library told {told[:20]}, and no read last")


def main(count: preload.Count, given: preload.Given) -> None:
    program = given.program
    with tempfile.TemporaryDirectory() as folder:
        library = preload.build("refuse.c", folder)
        for words in COMMAND_LINES:
            refuse_each(count, program, words, library)
        for words, line, answer in ROWS:
            refuse_each(count, program, words, library, line, answer)
        refuse_when_reading(count, program, ["convert", "--to", "sddl"], LONGEST_LINES, library, LONGEST_ANSWERS)
        for words, lines in READING:
            refuse_when_reading(count, program, words, lines, library)
