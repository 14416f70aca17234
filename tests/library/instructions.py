"""Counts the instructions of jobs by valgrind's callgrind, and refuses a job that takes more than three per cent above
its figure in instructions.txt. So a gain is not lost again without a word, and a fast path that is never taken is seen.
The jobs are the workloads of bench/workloads.txt with a part of their lines, what `make bench` measures with a few
thousand lines, checks for 20, 300 and 1,024 SIDs, lines that are mostly read by one fast path, and calls of the library
that check 1,000 ACEs for 1,000 SIDs: a call that compares the token once more takes much more. Unlike times, counts do
not move with what else the machine does.

--write puts into the file what a job takes that has no figure, and what a job takes that needs less than its figure. A
figure is raised only with --why, whose text is written above it. Of a job that is gone the figure goes too.

The program sd_bench has to be built beside the program, as `rt ci` does. Calls of the library are left out where
out/lib is not built. Without Debian's valgrind the test is skipped.
"""
import concurrent.futures
import importlib.machinery
import importlib.util
import itertools
import pathlib
import re
import shutil
import struct
import subprocess
import sys
import tempfile
from typing import NamedTuple

import preload

TOP = preload.TOP
BENCH = TOP / "bench"
FIGURES = TOP / "tests/instructions.txt"
sys.path.append(str(BENCH))
import generate  # noqa: E402
import make_inputs  # noqa: E402
import run as bench  # noqa: E402

CHECKER = "counted_checks"
JOBS = 2  # side by side
MOST = 1.03  # of a figure
SEED = "1"
PART = 60  # of the lines of a workload, one in so many
LINES, LONG_LINES, LONGEST_LINES = 2_000, 12, 2
MOST_OF_PATH = 400_000  # characters of the lines for a fast path
GUID = "bf967aba-0de6-11d0-a285-00aa003049e2"
COUNTED = re.compile(rb"Collected : (\d+)")
ROW = re.compile(r"([\d,]+)  (.+)")


ACCOUNT = f"{make_inputs.DOMAIN_TEXT}-1105"
OTHER_ACCOUNT = f"S-1-{'-'.join(map(str, make_inputs.OTHER_DOMAIN))}-1106"
# Of another domain whose first number is the same, so that both domains have one place among those that are kept.
NEXT_ACCOUNT = f"{make_inputs.DOMAIN_TEXT[:-1]}{(int(make_inputs.DOMAIN_TEXT[-1]) + 1) % 10}-1106"
DOMAINS = [f"S-1-5-21-{1_000_000_007 + 271_828_183 * i}-2695158682-2101375467" for i in range(12)]
TO_HEX = ["convert", "--from", "sddl", "--to", "hex"]
TO_SDDL = ["convert", "--from", "sddl", "--to", "sddl"]
# A descriptor whose DACL has eight ACEs for the group Users, each as a layout has it.
HEADS = "0100048000000000000000000000000014000000" + "0200c80008000000"
WRITTEN = HEADS + "00001800ff011f0001020000000000052000000021020000" * 8


def aces(text):
    return TO_HEX, "D:" + text * 8


# Lines for the fast paths: what is asked, and a line. Where a path is never taken, its row takes more. So each kind and
# each form of a mask that is read in place has a row of its own, and so have some texts of flags and some that no table
# has.
PATHS = {
    "an owner and a group": (TO_HEX, f"O:{ACCOUNT}G:{ACCOUNT}"),
    "an owner and a group of other domains": (TO_HEX, "O:S-1-5-21-11-22-33-1001G:S-1-5-21-44-55-66-1002"),
    "owner, group and flags of both ACLs": (TO_HEX, "O:BAG:SYD:PARAIS:PARAI"),
    "an ACE for an account": aces(f"(A;OICIID;0x1301bf;;;{ACCOUNT})"),
    "ACEs for accounts of many domains": aces("(A;;FA;;;S-1-5-21-11-22-33-1001)(A;;FA;;;S-1-5-21-44-55-66-1002)"),
    "ACEs for accounts of two domains in turn": aces(f"(A;;FA;;;{ACCOUNT})(A;;FA;;;{OTHER_ACCOUNT})"),
    "ACEs for accounts of two domains of one place": aces(f"(A;;FA;;;{ACCOUNT})(A;;FA;;;{NEXT_ACCOUNT})"),
    "ACEs for accounts of twelve domains": (TO_HEX, "D:" + "".join(f"(A;;FA;;;{domain}-1105)" for domain in DOMAINS)),
    "an ACE with names": aces("(D;OICINPIO;CCDCLCSWRPWPDTLOCRSDRCWDWO;;;BU)"),
    **{f"an ACE of kind {kind}": aces(f"({kind};;FA;;;BU)") for kind in ("A", "D", "AU", "OA", "OD", "OU", "ML")},
    **{f"an ACE with flags {flags}": aces(f"(A;{flags};FA;;;BU)")
       for flags in ("ID", "OICI", "CIID", "OICIID", "OICIIO", "OICIIOID", "SAFA", "OICIIDSA")},
    **{f"an ACE with rights {rights}": aces(f"(A;;{rights};;;BU)")
       for rights in ("FA", "GRGX", "0x1301bf", "0x1200a8", "0x3", "0x80000001", "")},
    "an ACL with flags PAI": (TO_HEX, "D:PAI(A;;FA;;;BU)"),
    "an ACE with one GUID": aces(f"(OA;CI;RPWP;{GUID};;AU)"),
    "an ACE with an inherited GUID": aces(f"(OA;CIIO;RPWP;;{GUID};AU)"),
    "an ACE with two GUIDs": aces(f"(OA;CI;RPWP;{GUID};{GUID};AU)"),
    "blanks between parts and ACEs": (TO_HEX, "O:BA D:" + " (A;OICI;FA;;;BU)" * 8),
    "blanks before an owner and an ACE": (TO_HEX, "O:" + " " * 40 + "BAD:" + " " * 40 + "(A;;FA;;;BU)"),
    "blanks behind an account": (TO_HEX, f"O:{ACCOUNT} G:{ACCOUNT} D:"),
    "an ACE for an account in small letters": aces(f"(A;;FA;;;{ACCOUNT.lower()})"),
    "an ACE for an account to SDDL, under its domain":
        ([*TO_SDDL, *make_inputs.ONE_DOMAIN.split()], "D:" + f"(A;;FA;;;{ACCOUNT})" * 8),
    **{f"an ACE with flags {flags} and rights {rights} to SDDL": (TO_SDDL, "D:" + f"(A;{flags};{rights};;;BU)" * 8)
       for flags, rights in (("", "FA"), ("OICIIO", "0x1301bf"), ("OICINPIOID", "LCSW"))},
    # Names from the end of the table, and SIDs of one or two numbers that have no name.
    "ACEs for SIDs with a name to SDDL": (TO_SDDL,
                                          "D:" + "".join(f"(A;;FA;;;{name})" for name in ("RM", "AA", "AC", "SI"))),
    "ACEs for SIDs without a name to SDDL":
        (TO_SDDL, "D:" + "".join(f"(A;;FA;;;S-1-{rest})" for rest in ("5-32-581", "5-34", "16-1", "18-3"))),
    "a line far too long": (TO_HEX, "D:" + "(A;;FA;;;WD)" * 90_000),
    # What follows a byte that breaks the shape is passed over.
    "an owner behind a wrong byte": (TO_HEX, "<O:" + ">" * 8_000),
    "flags behind a wrong byte": (TO_HEX, "<D:" + "A" * 8_000),
    # So are blanks that change nothing, and the fields of an ACE behind one that doesn't read.
    "blanks in an ACE": (TO_HEX, "D:(A;;" + " " * 8_000 + "FA;;;WD)"),
    "blanks behind flags": (TO_HEX, "D:P" + " " * 8_000 + "(A;;FA;;;WD)"),
    "letters of flags": (TO_HEX, "D:" + "A" * 8_000 + "(A;;FA;;;WD)"),
    "ACEs behind one that doesn't read": (TO_HEX, "D:(A;;FA;;;QQ)" + "(A;;FA;;;WD)" * 500),
    "ACLs in their written form": (["convert", "--to", "hex"], WRITTEN),
}


class Job(NamedTuple):
    name: str
    program: str  # of those that are built
    words: list
    given: bytes


def joined(lines):
    return b"".join(line.encode() + b"\n" for line in lines)


def taken(count, make):
    return joined(make() for _ in range(count))


def workloads():
    """Each workload, with a part of its lines."""
    loader = importlib.machinery.SourceFileLoader("bench_run", str(BENCH / "run"))
    of_bench = importlib.util.module_from_spec(importlib.util.spec_from_loader("bench_run", loader))
    loader.exec_module(of_bench)
    for name, program, words in of_bench.workloads():
        *words, source = words
        text = (BENCH / source[1:]).read_text(encoding="utf-8")
        fewer = re.sub(r"^# (\d+)", lambda found: f"# {max(1, int(found[1]) // PART)}", text, flags=re.M)
        yield Job(f"workload {name}", program, [SEED if word == "SEED" else word for word in words], fewer.encode())


def lines_of(source, aces):
    """Lines as generate.py makes them: of a mixture, of so many ACEs, or nearly as long as may be."""
    generator = generate.Generator(1)
    spelled = {"hex": bytes.hex, "base64": generate.reference.to_base64, "sddl": generate.sddl}[source]
    if aces == bench.LONGEST:
        longest = generate.in_longest_fields if source == "sddl" else str
        return taken(LONGEST_LINES, lambda: longest(spelled(generator.longest_descriptor())))
    if aces:
        return taken(LONG_LINES, lambda: spelled(generator.long_descriptor(aces)))
    return taken(LINES, {"hex": generator.line, "base64": generator.base64_line, "sddl": generator.sddl_line}[source])


def benched():
    """What `make bench` measures."""
    made = {}
    for name, (source, aces, asked) in bench.MEASURED.items():
        if (source, aces) not in made:
            made[source, aces] = lines_of(source, aces)
        yield Job(name, "sdtool", bench.words_of(source, asked), made[source, aces])


def checks():
    """Checks for tokens of few, many and most SIDs, and for tokens whose first SIDs are those that ACEs name, so that
    whole blocks of entries follow the one that is met. Checks of an owner, for whom the DACL is searched for OWNER
    RIGHTS."""
    lines = lines_of("hex", None)
    for count in (20, 300, 1_024):
        yield Job(f"check, a token of {count:,}", "sdtool",
                  ["check", "--want", "FR", "--token", make_inputs.token(count)], lines)
    for count in (300, 1_000):
        sids = reversed(make_inputs.token(count).split(","))
        yield Job(f"check, a token of {count:,}, usual SIDs first", "sdtool",
                  ["check", "--want", "FR", "--token", ",".join(sids)], lines)
    shapes = make_inputs.Shapes(1)
    owner = generate.sid(*make_inputs.DOMAIN, int(make_inputs.USER.rpartition("-")[2]))
    acl = shapes.generator.acl([shapes.file_ace() for _ in range(1_000)])
    line = shapes.generator.laid_out(owner, owner, b"", acl).hex()
    yield Job("check, an owner and 1,000 ACEs", "sdtool",
              ["check", "--want", "WD", "--token", make_inputs.USER], joined([line] * LONG_LINES))


def paths():
    """Lines for the fast paths."""
    for name, (words, line) in PATHS.items():
        yield Job(f"path: {name}", "sdtool", words, joined([line] * max(1, MOST_OF_PATH // len(line))))


def calls():
    """Calls of the library for 1,000 SIDs, of which none is met: checks of an ACL of 1,000 ACEs, and reasons where no
    DACL is, so that the owner decides nothing."""
    shapes = make_inputs.Shapes(1)
    sids = [generate.sid(*make_inputs.DOMAIN, 200_000 + number) for number in range(1_000)]

    def given(descriptor):
        sizes = len(sids), sum(map(len, sids)), len(descriptor), 0x120089
        return struct.pack("=4I", *sizes) + b"".join(sids) + descriptor

    descriptor = shapes.descriptor(shapes.file_ace, 1_000)
    for call, rounds in (("check", 8), ("with", 8), ("many", 1)):
        yield Job(f"library {call}, 1,000 ACEs and 1,000 SIDs", CHECKER, [call, str(rounds)], given(descriptor))
    owned = shapes.generator.laid_out(shapes.account(), shapes.some_sid(), b"", b"")
    yield Job("library reasons, no DACL and 1,000 SIDs", CHECKER, ["reasons", "2000"], given(owned))


def all_jobs():
    return list(itertools.chain(workloads(), benched(), checks(), paths(), calls()))


def programs_for(program, folder):
    """The programs that jobs ask for. Without a library there is none that calls it."""
    found = {"sdtool": program, "sd_bench": program.parents[2] / "sd_bench/out/sd_bench"}
    library = TOP / "out/lib/libsdtool.a"
    if library.exists():
        found[CHECKER] = folder / CHECKER
        words = [*preload.compiler(), "-O2", f"-I{TOP / 'include'}", TOP / f"tests/library/c/{CHECKER}.c",
                 library, "-o"]
        subprocess.run([*words, found[CHECKER]], check=True)
    return found


def counted(job, programs):
    """The instructions that a job takes, or what went wrong."""
    with tempfile.TemporaryFile() as given:
        given.write(job.given)
        given.seek(0)
        words = ["valgrind", "--tool=callgrind", "--callgrind-out-file=/dev/null", programs[job.program], *job.words]
        ended = subprocess.run(words, stdin=given, stdout=subprocess.DEVNULL, stderr=subprocess.PIPE, check=False)
    found = COUNTED.search(ended.stderr)
    # Status 1 says that some lines have errors.
    return (int(found[1]) if found and ended.returncode in (0, 1)
            else f"status {ended.returncode}: {ended.stderr.decode()[-500:]}")


class Figures:
    """The file of figures: a front of comments, and then for each job a row, below the reasons why it was raised."""

    def __init__(self):
        self.front, self.reasons, self.numbers = [], {}, {}
        front, _, rows = FIGURES.read_text(encoding="utf-8").partition("\n\n")
        self.front, reasons = front, []
        for line in rows.splitlines():
            found = ROW.fullmatch(line)
            if line.startswith("#"):
                reasons.append(line)
            elif found:
                number, name = found.groups()
                self.numbers[name], self.reasons[name], reasons = int(number.replace(",", "")), reasons, []
            else:
                sys.exit(f"{FIGURES.name} has a line that is neither a reason nor a row: {line!r}")

    def take(self, name, number, why):
        """A lower figure, the first one, or a higher one for which there is a reason."""
        old = self.numbers.get(name, number)
        if number > old and why:
            self.reasons[name].append(f"# {why}")
        if number <= old or why:
            self.numbers[name] = number

    def write(self, names):
        rows = [[*self.reasons.get(name, []), f"{self.numbers[name]:,}  {name}"] for name in names]
        FIGURES.write_text("\n".join([self.front, "", *itertools.chain(*rows)]) + "\n", encoding="utf-8")


def judge(count, name, number, figure):
    """Holds what a job takes to its figure."""
    if not isinstance(number, int):
        count.add(False, f"{name}: {number}")
    elif figure is None:
        count.add(False, f"{name} takes {number:,} instructions, and has no figure: --write gives it one")
    else:
        count.add(number <= MOST * figure, f"{name} takes {number:,} instructions, {number / figure:.3f} of its figure")
        if number * MOST < figure:
            print(f"{name} takes {number / figure:.3f} of its figure: --write lowers it")


def add_options(parser):
    parser.add_argument("--write", action="store_true", help="writes lower figures, and those of new jobs")
    parser.add_argument("--why", help="why other figures rise; these are written too")


def main(count: preload.Count, given: preload.Given) -> None:
    # The file is read where valgrind is missing too, so that nobody hands in one that can't be read.
    kept = Figures()
    if not shutil.which("valgrind"):
        print("instructions: skipped, there is no command valgrind")
        return
    jobs = all_jobs()
    chosen = [job for job in jobs if preload.is_chosen(job.name)]
    with tempfile.TemporaryDirectory() as name, concurrent.futures.ThreadPoolExecutor(JOBS) as pool:
        programs = programs_for(pathlib.Path(given.program), pathlib.Path(name))
        if CHECKER not in programs:
            print("instructions: calls of the library are skipped, it is not built")
            chosen = [job for job in chosen if job.program != CHECKER]
        for job, number in zip(chosen, pool.map(lambda job: counted(job, programs), chosen)):
            if given.write and isinstance(number, int):
                kept.take(job.name, number, given.why)
            judge(count, job.name, number, kept.numbers.get(job.name))
    if given.write:
        kept.write([job.name for job in jobs if job.name in kept.numbers])
    else:
        gone = set(kept.numbers) - {job.name for job in jobs}
        count.add(not gone, f"{FIGURES.name} has figures of jobs that there are not: {', '.join(sorted(gone))}")
