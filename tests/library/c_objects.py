"""Tests the library's calls for SIDs, ACEs, tokens and building, and for parts and many checks, by
tests/library/c/objects.c. What they answer has to be what the program answers: of descriptors the lines of `explain` or
the `error` line, and what is built of the parts the layout that `convert` writes; of ACLs the same lines, up to the ACE
that can't be read; of SIDs and their texts what `convert` does with an owner or a trustee; of many checks, and of
checks with a token that is read once, the lines of `check`. The lines are those of the worked rows, the hostile ones of
compare.py, and random ones. The cases of arguments, of ACLs round their limit, of 100,000 descriptors and of the time
of long walks are in objects.c, which also tries each size of the outputs, and walks through ACLs while they change.
examples/may_read.c has to print what docs/LIBRARY.md shows. It runs plain, under the sanitizers for addresses and
undefined behaviour if the compiler has them, under valgrind if that is there, and with a page that cannot be touched
behind each block and in front of it.
"""
import pathlib
import random
import re
import shutil
import tempfile

import c_library
import compare
import preload
import reference

DOMAIN_TEXT = "S-1-5-21-1-2-3"
KINDS = {name: str(number) for number, name in reference.KINDS.items()}
ACE_LINE = re.compile(r"([ds]acl \d+) (\w+) flags (\w+) (mask \w+) rights \w+((?: object \S+)?(?: inherited \S+)? "
                      r"sid \S+)")
# A text that is a field of SDDL by itself, so that an owner and a trustee both can be it.
OWNER_TEXT = re.compile(r"[^\s();:]+")
OF_MANY = 300  # descriptors of one call
MOST_COUNT = 30  # ACEs before one that can't be read


def as_numbers(line):
    """A line of 'explain --numeric' as objects.c prints it."""
    if line.startswith("control "):
        return " ".join(line.split()[:2])
    found = ACE_LINE.fullmatch(line)
    if not found:
        return line
    flags = sum(reference.ACE_FLAGS[name] for name in re.findall("..", found[3])) if found[3] != "none" else 0
    return f"{found[1]} {KINDS[found[2]]} flags {flags} {found[4]}{found[5]}"


def answers(program, words, lines):
    """The program's answers, one line for each line of the input."""
    found = c_library.ran([program, *words], "".join(line + "\n" for line in lines)).stdout.decode("latin-1")
    return c_library.without_name(found).split("\n")[:-1]


def blocks(program, lines):
    """The answers of explain, each as its lines."""
    block = []
    for line in answers(program, ["explain", "--numeric"], lines):
        block.append(as_numbers(line))
        if line == "end" or line.startswith("error"):
            yield block
            block = []


class Runners:
    """A program of tests/library/c, each way in which it runs, and how many lines it gets there."""

    def __init__(self, count, folder, source="objects"):
        self.count, self.under_valgrind = count, set()
        plain, said = c_library.built(folder, source, "plain", [])
        count.add(plain is not None, said)
        self.ways = [("plain", [plain], None)] if plain else []
        checked, _ = c_library.built(folder, source, "checked", c_library.SANITIZERS)
        if checked:
            self.ways.append(("sanitized", [checked], 1500))
        else:
            print("skipped: the compiler has no sanitizers")
        if plain:
            self.ways += [(f"guard {where}", ["env", f"GUARD={where}", plain], 120) for where in c_library.GUARDS]
        if plain and shutil.which("valgrind"):
            self.ways.append(("valgrind", [*c_library.VALGRIND, plain], 25))
        else:
            print("skipped: there is no valgrind")

    def test(self, words, lines, expected, seldom=1):
        """The answers to the lines, each a text that may have several lines, or no answers at all. Ways but the first
        get few of the lines."""
        for name, runner, most in self.ways:
            if name == "valgrind" and words[0] in self.under_valgrind:
                continue  # it is slow, so each job runs once under it
            step = 1 if most is None else max(1, len(lines) // (most // seldom or 1))
            ended = c_library.ran([*runner, *words], "".join(line + "\n" for line in lines[::step]))
            found = ended.stdout.decode("latin-1")
            wanted = "".join(answer + "\n" for answer in (expected or ())[::step])
            pairs = zip(found.split("\n"), wanted.split("\n"))
            wrong = next((f"{a!r} in place of {b!r}" for a, b in pairs if a != b), "")
            self.count.add(found == wanted and ended.returncode == 0 and not ended.stderr,
                           f"{name} {words[:1]}: status {ended.returncode}, {wrong} {ended.stderr.decode()[:400]}")

        self.under_valgrind.add(words[0])

    def test_cases(self):
        """The cases that objects.c has itself."""
        for name, runner, _ in self.ways:
            for job in ("arguments", "large"):
                if name == "valgrind" and job == "large":
                    continue
                ended = c_library.ran([*runner, job], "")
                self.count.add((ended.returncode, ended.stdout, ended.stderr) == (0, b"", b""),
                               f"{name} {job}: status {ended.returncode}, {ended.stderr.decode()[:400]}")


def descriptors(maker, number, choices):
    """Descriptors in hex: those of the rows, hostile ones, and random ones."""
    of_rows, _ = c_library.lines_of_rows()
    makers = (compare.acl_lines, compare.sid_lines, compare.overlap_lines, compare.double_fault_lines)
    hostile = [line for make in makers for line in choices.sample(sorted({one.hex() for one in make()}), number // 4)]
    made = [choices.choice(maker.kinds)().data.hex() for _ in range(number)]
    changed = [c_library.change_bytes(one, choices) for one in choices.sample(made, number // 2) if one]
    return [line for line in (*of_rows, *hostile, *made, *changed) if 0 < len(line) < 100_000]


def test_parts(runners, program, lines):
    layouts = answers(program, ["convert", "--to", "hex"], lines)
    found = list(blocks(program, lines))
    runners.count.add(len(found) == len(layouts) == len(lines), "the program's answers to descriptors")
    runners.test(["parts"], lines, ["\n".join(block if block[-1] != "end" else [*block, layout])
                                    for block, layout in zip(found, layouts)])
    runners.count.add(sum(block[-1] == "end" for block in found) > len(lines) // 5, "few lines are descriptors")


def test_large_parts(runners, program):
    lines = [*(data.hex() for data in compare.large_descriptors()), c_library.TOO_MANY_BYTES]
    layouts = answers(program, ["convert", "--to", "hex"], lines)
    expected = ["\n".join(block if block[-1] != "end" else [*block, layout])
                for block, layout in zip(blocks(program, lines), layouts)]
    for name, runner, _ in runners.ways[:2]:
        ended = c_library.ran([*runner, "parts"], "".join(line + "\n" for line in lines))
        runners.count.add(ended.stdout.decode() == "".join(one + "\n" for one in expected) and ended.returncode == 0,
                          f"{name} large: status {ended.returncode}, {ended.stderr.decode()[:400]}")


def acls(lines):
    """The bytes from the offset of a present ACL on, whatever they are."""
    for line in lines:
        data = bytes.fromhex(line)
        for at, present in ((12, compare.SACL_PRESENT), (16, compare.DACL_PRESENT)):
            if len(data) >= 20 and int.from_bytes(data[2:4], "little") & present:
                found = data[int.from_bytes(data[at:at + 4], "little"):]
                if len(found) >= 8:
                    yield found


def fault_of_walk(data, block):
    """How a walk ends whose ACL has that answer in a descriptor: 'end', or the fault without its part."""
    return "end" if block[-1] == "end" else block[-1].replace(" dacl", "")


def test_walks(runners, program, lines):
    """A walk through an ACL has the ACEs that the program shows of it, and its fault."""
    found = sorted({data for data in acls(lines) if len(data) < 3000})
    # The ACEs before one that can't be read are those of the same ACL with the largest count that the program reads.
    counts = [[*range(min(int.from_bytes(data[4:6], "little"), MOST_COUNT)), None] for data in found]
    shown = blocks(program, [as_dacl(data, count).hex() for data, some in zip(found, counts) for count in some])
    expected = []
    for some in counts:
        of_counts = [next(shown) for _ in some]
        read = [block for block in of_counts if block[-1] == "end"]
        aces = [line for line in read[-1] if re.match(r"dacl \d", line)] if read else []
        expected.append("\n".join([*aces, of_counts[-1][-1].replace(" dacl", "")]))
    runners.test(["walk"], [data.hex() for data in found], expected, seldom=3)


def as_dacl(data, count):
    """The descriptor with this DACL, which says that it has so many ACEs."""
    changed = data if count is None else compare.with_field(data, 4, 2, count)
    return compare.header(dacl=20, control=0x8004) + changed


def sid_texts(maker, number, choices):
    """Texts of SIDs and texts that are nearly some."""
    texts = [*reference.WELL_KNOWN, *reference.OF_THE_DOMAIN, "ZZ", "ba", "B", "BAA", "S-1", "S-1-", "S-1-5",
             "S-2-5-18", "-", "S-1-4294967295", "S-1-4294967296", "S-1-0x100000000", "S-1-0xffffffffffff",
             "S-1-0x1000000000000", "s-1-5-18", "S-1-5-4294967296", "S-1-5-00000000001", "S-1-5" + "-1" * 15,
             "S-1-5" + "-1" * 16, "S-1-5--1", "S-1-5-1-", "S-1-0x5-32", "S-1-5-0x20", "S-1-5" + "-4294967295" * 15,
             "S-1-0xffffffffffff" + "-4294967295" * 15, "1" * 184]
    for _ in range(number):
        texts.append(maker.sid_text(choices.choice(maker.named), None))
    texts += [c_library.change_text(choices.choice(texts), choices) for _ in range(number)]
    return sorted({text for text in texts if text and not set("\r\n") & set(text)})


def options():
    """The domain in hex, and the program's words."""
    # A domain without room for one more number counts as none; the program takes no such word.
    return (("-", []), (c_library.DOMAIN.hex(), ["--domain", DOMAIN_TEXT]), (c_library.FULL_DOMAIN.hex(), []))


def test_sids_from_texts(runners, program, texts):
    """A text is the SID that the program reads of an owner and of a trustee, or has the same fault."""
    texts = [text for text in texts if not set("();") & set(text)]
    owners = [text for text in texts if OWNER_TEXT.fullmatch(text)]
    for domain, words in options():
        words = ["convert", "--from", "sddl", "--to", "hex", *words]
        trustees = answers(program, words, [f"D:(A;;FA;;;{text})" for text in texts])
        # The SID is behind the header of the descriptor, and of the ACL, and the front of the ACE.
        runners.test(["from_text", domain], texts,
                     [one if one.startswith("error") else one[2 * 36:] for one in trustees])
        found = answers(program, words, [f"O:{text}" for text in owners])
        runners.test(["from_text", domain], owners, [one if one.startswith("error") else one[2 * 20:] for one in found])


def test_texts_of_sids(runners, program, sids):
    """The text of a SID is that of an owner; bytes that are no SID are the argument that is wrong."""
    lines = [sid.hex() or "-" for sid in sids]
    owned = [(compare.header(owner=20) + sid).hex() for sid in sids]
    whole = [len(sid) == size_of(sid) > 0 for sid in sids]
    for domain, words in (*options(), (None, ["--numeric"])):
        found = answers(program, ["convert", *words], owned)
        expected = [one.removeprefix("O:") if is_whole else "error 70 12 0" for one, is_whole in zip(found, whole)]
        runners.test(["to_text", domain or c_library.DOMAIN.hex(), *(["numeric"] if domain is None else [])],
                     lines, expected)
    runners.test(["size"], lines, [str(size_of(sid)) for sid in sids])


def size_of(data):
    """The size of the SID at the front by MS-DTYP 2.4.2.2, or 0."""
    if len(data) < 8 or data[0] != 1 or data[1] > 15:
        return 0
    size = 8 + 4 * data[1]
    return size if size <= len(data) else 0


def sids_of(maker, number, choices):
    """SIDs, and bytes that are nearly some."""
    found = {maker.sid() for _ in range(number)} | {sid.to_bytes() for sid in maker.named}
    found |= {bytes.fromhex(c_library.change_bytes(choices.choice(sorted(found)).hex(), choices))
              for _ in range(number)}
    found |= {choices.choice(sorted(found))[:choices.randrange(70)] for _ in range(number // 4)}
    found |= {choices.choice(sorted(found)) + choices.randbytes(choices.randrange(5)) for _ in range(number // 4)}
    return sorted(found)


def test_many(runners, program, maker, lines, choices):
    """Many checks, and checks with a token that is read once, answer what the program answers to the lines."""
    for _ in range(4):
        chosen = choices.sample(lines, min(OF_MANY, len(lines)))
        read = [one for one in map(readable, chosen) if one][:20]
        words = [word for word in compare.check_words(maker, read) if word != "--numeric"]
        question = c_library.Question([word.encode() for word in words], b"")
        fields = question.line().split()
        expected = answers(program, words, chosen)
        runners.test(["many", *fields[1:]], chosen, expected)
        runners.test(["with", *fields[1:]], chosen, expected)


def test_document(count, folder):
    """examples/may_read.c prints what docs/LIBRARY.md shows."""
    text = (c_library.TOP / "docs/LIBRARY.md").read_text(encoding="utf-8")
    shown = re.search(r"With the lines\n\n```\n(.*?)```\n\nit prints\n\n```\n(.*?)```", text, re.DOTALL)
    count.add(shown is not None, "docs/LIBRARY.md shows no lines of a program in C")
    if not shown:
        return
    source, program = c_library.TOP / "examples/may_read.c", folder / "may_read"
    words = [c_library.COMPILER, *c_library.WARNINGS, "-Wpedantic", f"-I{c_library.TOP / 'include'}", source,
             c_library.LIBRARIES / "libsdtool.a", "-o", program]
    ended = c_library.ran(words, "")
    count.add((ended.returncode, ended.stderr) == (0, b""), f"examples/may_read.c: {ended.stderr.decode()[:800]}")
    if ended.returncode == 0:
        ended = c_library.ran([program], shown[1])
        count.add((ended.stdout.decode(), ended.returncode) == (shown[2], 0),
                  f"examples/may_read.c prints {ended.stdout.decode()!r}")
        # A part of these lines is the text of another descriptor.
        for given in "D:" + "(A;;FA;;;WD)" * 200 + "\n", "D:(A;;FA;;;WD)\0(D;;FA;;;BU)\n", "D:(A;;FA;;;WD)":
            ended = c_library.ran([program], given)
            count.add((ended.stdout, ended.returncode) == (b"", 1),
                      f"examples/may_read.c prints {ended.stdout.decode()!r} for a line that it can't read")


def readable(line):
    try:
        found = reference.read(bytes.fromhex(line))
    except reference.parts.Fault:
        return None
    return found if isinstance(found, reference.Descriptor) else None


def add_options(parser):
    parser.add_argument("--lines", type=int, default=400)


def main(count: preload.Count, arguments: preload.Given) -> None:
    choices = random.Random(31)
    maker = compare.Lines(choices)
    with tempfile.TemporaryDirectory() as name:
        runners = Runners(count, pathlib.Path(name))
        lines = descriptors(maker, arguments.lines, choices)
        test_document(count, pathlib.Path(name))
        runners.test_cases()
        test_parts(runners, arguments.program, lines)
        test_large_parts(runners, arguments.program)
        test_walks(runners, arguments.program, lines)
        test_sids_from_texts(runners, arguments.program, sid_texts(maker, arguments.lines // 2, choices))
        test_texts_of_sids(runners, arguments.program, sids_of(maker, arguments.lines // 2, choices))
        test_many(runners, arguments.program, maker, lines, choices)
