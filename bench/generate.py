#!/usr/bin/env python3
"""generate.py [--form FORM] [--aces N | --longest] [--megabytes N] [--seed S] > FILE

Writes lines of hex, of base64 or of SDDL, such as an export of a file server and a directory has them. Each descriptor
has an owner, a group and a DACL of 3 to 10 ACEs, mostly for accounts of a few domains, for groups that each domain has,
and for well-known SIDs; one in four is a directory's, with object ACEs among the others, and one in three has a SACL
too. One in eight is not laid out canonically, one in ten is in upper case if it is hex, and one in twenty is faulty,
with each kind of fault among them. In SDDL they are spelled as they are printed under one of the domains, but for one
in eight, which has its parts in another order and blanks between them, one in ten in lower case, and one in twenty that
is faulty.

With --aces all lines have a DACL of so many ACEs (at most 1,500), of the same mixture, and none is faulty or unusual.
With --longest all lines are nearly as long as a line may be: two ACLs of nearly 65,535 bytes, and in SDDL
most access masks in 183 characters.

Distinct lines are made for a pool, and lines of the pool are written in random order until there are so many megabytes.
The same seed gives the same lines.
"""
import argparse
import pathlib
import random
import re
import struct
import sys

sys.dont_write_bytecode = True
sys.path.append(str(pathlib.Path(__file__).resolve().parent.parent / "tests/shared"))
import preload  # noqa: E402, F401  (which finds the tests)
import reference  # noqa: E402  (what SDDL a descriptor has)

# A line that is too long, and its chance: it is rare here, since it has the size of hundreds of others.
TOO_LONG = {"hex": ("0" * 262_454, 0.00004), "base64": ("A" * 174_970, 0.00004),
            "sddl": ("D:" + "(A;;FA;;;WD)" * 90_000, 0.00001)}
TOO_LARGE = "D:" + "(A;;FA;;;WD)" * 3_277  # for an ACL
DISTINCT_LINES = 20_000
DISTINCT_ACES = 60_000  # in the pool, where each line has very many
LONGEST_LINES = 5
MOST_ACL, MOST_ACE = 65_535, 76  # bytes of an ACL, and of the ACEs of the longest lines
MOST_FIELD = 183  # characters of an access mask in SDDL

WELL_KNOWN = [(1, 0), (3, 0), (3, 1), (3, 4), (5, 9), (5, 11), (5, 18), (5, 19), (5, 20), (5, 32, 544), (5, 32, 545),
              (5, 32, 551)]
HOME = (5, 21, 1004336348, 1177238915, 682003330)  # one of the domains, under which run.py asks for SDDL
DOMAIN_GROUPS = [500, 512, 512, 513, 513, 515, 519]
LABELS = [(16, 4096), (16, 8192), (16, 12288)]
# Full control, change, read and execute, read, write; generic all, generic read and execute.
FILE_MASKS = [0x1f01ff, 0x1f01ff, 0x1301bf, 0x1200a9, 0x1200a9, 0x120089, 0x120116, 0x10000000, 0xa0000000]
# Read property, write property, both, control access, create and delete child, full control.
DIRECTORY_MASKS = [0x10, 0x20, 0x30, 0x100, 0x3, 0xf01ff]
FOLDER_FLAGS = [0x00, 0x03, 0x0b, 0x10, 0x13, 0x1b]
ALLOW, DENY, AUDIT, OBJECT_ALLOW, OBJECT_DENY, OBJECT_AUDIT, LABEL = 0, 1, 2, 5, 6, 7, 0x11
SUCCESS_AND_FAILURE = [0x40, 0x80, 0xc0]
DACL_PRESENT, SACL_PRESENT, AUTO_INHERITED, PROTECTED, SELF_RELATIVE = 0x4, 0x10, 0x400, 0x1000, 0x8000
SPARE_BYTES = 28  # at the end of an ACL that once had an ACE more


def sid(authority, *subs):
    return struct.pack(f">BBHI{4 * len(subs)}s", 1, len(subs), authority >> 32, authority & 0xffff_ffff,
                       struct.pack(f"<{len(subs)}I", *subs))


def ace(ace_type, flags, mask, body):
    return struct.pack("<BBHI", ace_type, flags, 8 + len(body), mask) + body


# In an ACE of SDDL: the place of a field, and a text that does not read in it.
FAULTY_FIELDS = [(0, "XA"), (0, "RA"), (1, "CIX"), (1, "TP"), (2, "0x"), (2, "GA1"), (2, "4294967296"),
                 (3, "{}"), (4, "x"),
                 (5, ""), (5, "ZZ"), (5, "S-1-5-21-"), (5, "S-1-5-21-4294967296")]
PRINTING = reference.Settings(domain=reference.Sid(HOME[0], HOME[1:]))


class Generator:
    def __init__(self, seed):
        self.chance = random.Random(seed)
        bits = self.chance.getrandbits
        self.well_known = [sid(*names) for names in WELL_KNOWN]
        self.labels = [sid(*names) for names in LABELS]
        domains = [HOME, *((5, 21, bits(32), bits(32), bits(32)) for _ in range(11))]
        self.domains = [sid(*names, 0)[:-4] for names in domains]
        # Services, application packages, and the longest that there can be.
        self.long = [sid(5, 80, *(bits(32) for _ in range(5))) for _ in range(20)]
        self.long += [sid(15, 2, *(bits(32) for _ in range(7))) for _ in range(20)]
        self.long += [sid(5, *(bits(32) for _ in range(count))) for count in range(1, 16)]
        self.guids = [self.chance.randbytes(16) for _ in range(300)]
        self.faults = [self.short, self.revision, self.absolute, self.offset, self.bad_sid, self.bad_acl, self.ace_size,
                       self.ace_size, self.ace_type, self.ace_type, self.ace_flags, self.ace_sid, self.one_ace_too_many,
                       self.overlap]

    def some_sid(self):
        kind = self.chance.random()
        if kind < 0.55:
            is_group = self.chance.random() < 0.1
            last = self.chance.choice(DOMAIN_GROUPS) if is_group else int(1000 + 60_000 * self.chance.random() ** 2)
            return self.chance.choice(self.domains) + struct.pack("<I", last)
        return self.chance.choice(self.well_known if kind < 0.96 else self.long)

    def file_ace(self):
        kind = DENY if self.chance.random() < 0.06 else ALLOW
        return ace(kind, self.chance.choice(FOLDER_FLAGS), self.chance.choice(FILE_MASKS), self.some_sid())

    def directory_ace(self):
        """An object ACE, in two cases of three."""
        mask = self.chance.choice(DIRECTORY_MASKS)
        if self.chance.random() < 0.33:
            return ace(ALLOW, self.chance.choice(FOLDER_FLAGS), mask, self.some_sid())
        announced = self.chance.choice([1, 1, 1, 2, 3])
        guids = b"".join(self.chance.choice(self.guids) for bit in (1, 2) if announced & bit)
        kind = OBJECT_DENY if self.chance.random() < 0.04 else OBJECT_ALLOW
        return ace(kind, self.chance.choice(FOLDER_FLAGS), mask, struct.pack("<I", announced) + guids + self.some_sid())

    def sacl_aces(self, of_directory):
        aces = []
        if of_directory:
            body = struct.pack("<I", 1) + self.chance.choice(self.guids) + self.well_known[0]
            aces.append(ace(OBJECT_AUDIT, 0x42, 0x20, body))
        else:
            aces.append(ace(AUDIT, self.chance.choice(SUCCESS_AND_FAILURE) | 0x03, 0x10116, self.some_sid()))
        if self.chance.random() < 0.3:
            aces.append(ace(LABEL, 0, 1, self.chance.choice(self.labels)))
        return aces

    def acl(self, aces, spare=0, is_of_directory=False):
        body = b"".join(aces) + bytes(spare)
        has_objects = any(OBJECT_ALLOW <= one[0] <= OBJECT_AUDIT for one in aces)
        return struct.pack("<BBHHH", 4 if has_objects or is_of_directory else 2, 0, 8 + len(body), len(aces), 0) + body

    def laid_out(self, owner, group, sacl, dacl, order=(0, 1, 2, 3), gap=0):
        """A descriptor with these parts, of which an empty one is not there, in this order."""
        parts, offsets, body = (owner, group, sacl, dacl), [0, 0, 0, 0], b""
        for part in order:
            if parts[part]:
                body += bytes(gap)
                offsets[part] = 20 + len(body)
                body += parts[part]
        control = SELF_RELATIVE | (SACL_PRESENT if sacl else 0) | (DACL_PRESENT if dacl else 0)
        control |= self.chance.choice([0, AUTO_INHERITED, AUTO_INHERITED, PROTECTED | AUTO_INHERITED])
        return struct.pack("<BBHIIII", 1, 0, control, *offsets) + body

    def descriptor(self, last_ace=None):
        """With a last ACE of one's own, where it is given."""
        of_directory = self.chance.random() < 0.25
        aces = [self.directory_ace() if of_directory else self.file_ace() for _ in range(self.chance.randint(3, 10))]
        if last_ace:
            aces[-1] = last_ace
        sacl_aces = self.sacl_aces(of_directory) if self.chance.random() < 0.33 else []
        owner, group = (b"" if self.chance.random() < 0.02 else self.some_sid() for _ in range(2))
        spare, order, gap = 0, (0, 1, 2, 3), 0
        if self.chance.random() < 0.125:
            # As Windows itself writes them, with the ACLs first; with gaps; or with room that an ACE has left.
            spare, order = self.chance.choice([(0, (2, 3, 0, 1)), (SPARE_BYTES, (2, 3, 0, 1)), (SPARE_BYTES, order),
                                               (0, order)])
            gap = self.chance.choice([0, 0, 4, 8])
        sacl = self.acl(sacl_aces) if sacl_aces else b""
        return self.laid_out(owner, group, sacl, self.acl(aces, spare, of_directory), order, gap)

    def short(self):
        return self.descriptor()[:self.chance.randrange(1, 20)]

    def revision(self):
        return b"\2" + self.descriptor()[1:]

    def absolute(self):
        data = bytearray(self.descriptor())
        data[3] &= 0x7f
        return bytes(data)

    def offset(self):
        data = bytearray(self.descriptor())
        at = self.chance.choice((4, 8, 16))
        data[at:at + 4] = struct.pack("<I", len(data) - self.chance.randrange(8))
        return bytes(data)

    def bad_sid(self):
        return self.laid_out(self.chance.choice((b"\2\1", b"\1\x10")) + self.some_sid()[2:], self.some_sid(), b"",
                             self.acl([]))

    def bad_acl(self):
        """Of revision 3, or longer than the descriptor is."""
        if self.chance.random() < 0.5:
            return self.descriptor()[:-self.chance.randrange(1, 9)]
        return self.laid_out(self.some_sid(), self.some_sid(), b"", b"\3" + self.acl([self.file_ace()])[1:])

    def ace_size(self):
        size = self.chance.choice([0, 12, 18, 1000])
        return self.descriptor(struct.pack("<BBHI", ALLOW, 0, size, 0x1f01ff) + self.some_sid())

    def ace_type(self):
        """A callback ACE, a resource attribute, a scoped policy."""
        return self.descriptor(ace(self.chance.choice([0x09, 0x0a, 0x0b, 0x12, 0x13]), 0, 0x1f01ff, self.some_sid()))

    def ace_flags(self):
        return self.descriptor(ace(ALLOW, 0x20, 0x1f01ff, self.some_sid()))

    def ace_sid(self):
        return self.descriptor(ace(ALLOW, 0, 0x1f01ff, b"\1\x0f" + self.some_sid()[2:12]))

    def one_ace_too_many(self):
        acl = bytearray(self.acl([self.file_ace() for _ in range(5)]))
        acl[4] += 1
        return self.laid_out(self.some_sid(), self.some_sid(), b"", bytes(acl))

    def overlap(self):
        """The group is the owner's place, or the owner stands in spare bytes of the DACL."""
        owner, aces = self.some_sid(), [self.file_ace() for _ in range(4)]
        if self.chance.random() < 0.5:
            data = bytearray(self.laid_out(owner, b"", b"", self.acl(aces)))
            data[8:12] = data[4:8]
        else:
            dacl = self.acl(aces, len(owner))
            data = bytearray(self.laid_out(b"", b"", b"", dacl[:-len(owner)] + owner))
            data[4:8] = struct.pack("<I", len(data) - len(owner))
        return bytes(data)

    def line(self):
        kind = self.chance.random()
        if kind < 0.003:
            return self.descriptor().hex()[:-1]
        if kind < 0.006:
            line = self.descriptor().hex()
            at = self.chance.randrange(len(line))
            return line[:at] + "g" + line[at + 1:]
        line = (self.chance.choice(self.faults)() if kind < 0.05 else self.descriptor()).hex()
        return line.upper() if 0.10 < kind < 0.20 else line

    def base64_line(self):
        kind = self.chance.random()
        line = reference.to_base64(self.chance.choice(self.faults)() if 0.006 <= kind < 0.05 else self.descriptor())
        at = self.chance.randrange(len(line))
        if kind < 0.003:
            return line[:at] + line[at + 1:]
        return line[:at] + "-" + line[at + 1:] if kind < 0.006 else line

    def faulty_sddl(self, parts):
        """A field that does not read, a part that stands twice, or a line that has not the shape of SDDL."""
        line = "".join(parts)
        kind = self.chance.random()
        if kind < 0.1:
            return line + self.chance.choice(parts)
        if kind < 0.2:
            return line.replace("D:", "D:PX", 1)
        aces = re.findall(r"\([^()]*\)", line)
        ace_text = self.chance.choice(aces)
        if kind < 0.3:
            return line.replace(ace_text, self.chance.choice([ace_text[:-1], ace_text.replace(";", "", 1),
                                                              f"x{ace_text}", "()"]), 1)
        place, text = self.chance.choice(FAULTY_FIELDS)
        fields = ace_text[1:-1].split(";")
        fields[place] = text
        return line.replace(ace_text, f"({';'.join(fields)})", 1)

    def sddl_line(self):
        parts = re.split(r"(?=[OGDS]:)", sddl(self.descriptor()))[1:]
        kind = self.chance.random()
        if kind < 0.05:
            return self.faulty_sddl(parts)
        if kind < 0.175:
            self.chance.shuffle(parts)
            return " ".join(parts).replace(")(", ") (")
        return "".join(parts).lower() if kind < 0.275 else "".join(parts)

    def long_descriptor(self, count):
        """A DACL of so many ACEs, the object ACEs rarer, so that 1,500 of them fit into an ACL."""
        aces = [self.directory_ace() if self.chance.random() < 0.08 else self.file_ace() for _ in range(count)]
        return self.laid_out(self.some_sid(), self.some_sid(), b"", self.acl(aces))

    def longest_descriptor(self):
        """Two ACLs with as many ACEs as fit into each."""
        acls = []
        for make in (self.file_ace, lambda: self.sacl_aces(False)[0]):
            aces, size = [], 8
            while size + MOST_ACE <= MOST_ACL:
                aces.append(make())
                size += len(aces[-1])
            acls.append(self.acl(aces))
        return self.laid_out(self.some_sid(), self.some_sid(), acls[1], acls[0])


def in_longest_fields(line):
    """SDDL with as many zeros before each access mask as its field has room for, of as many ACEs as the line has."""
    def longest(match):
        return f"{match[1]}0x{reference.rights_of_text(match[2].encode()):0{MOST_FIELD - 2}x};"

    room = (reference.LINE_LIMITS["sddl"] - len(line)) // MOST_FIELD
    return re.sub(r"(\([^;()]*;[^;()]*;)([^;()]*);", longest, line, count=room)


def sddl(data):
    """The descriptor as it is printed under one of the domains."""
    return reference.sddl(reference.read(data), PRINTING)


def main():
    parser = argparse.ArgumentParser(description="Writes the benchmark's input.")
    parser.add_argument("--form", choices=["hex", "base64", "sddl"], default="hex", help="(%(default)s)")
    parser.add_argument("--aces", type=int, help="the number of ACEs of each line")
    parser.add_argument("--longest", action="store_true", help="lines that are nearly as long as may be")
    parser.add_argument("--megabytes", type=int, default=150, help="(%(default)s)")
    parser.add_argument("--seed", type=int, default=1, help="(%(default)s)")
    given = parser.parse_args()
    generator = Generator(given.seed)
    spelled = {"hex": bytes.hex, "base64": reference.to_base64, "sddl": sddl}[given.form]
    if given.longest:
        pool = [spelled(generator.longest_descriptor()) for _ in range(LONGEST_LINES)]
        pool = [in_longest_fields(line) for line in pool] if given.form == "sddl" else pool
    elif given.aces:
        pool = [spelled(generator.long_descriptor(given.aces)) for _ in range(max(1, DISTINCT_ACES // given.aces))]
    else:
        maker = {"hex": generator.line, "base64": generator.base64_line, "sddl": generator.sddl_line}[given.form]
        pool = [maker() for _ in range(DISTINCT_LINES)]
        pool += [TOO_LARGE] if given.form == "sddl" else []
    too_long, chance_of_it = TOO_LONG[given.form]
    size = 0
    while size < given.megabytes * 1_000_000:
        is_too_long = not (given.aces or given.longest) and generator.chance.random() < chance_of_it
        line = (too_long if is_too_long else generator.chance.choice(pool)) + "\n"
        size += len(line)
        sys.stdout.write(line)


if __name__ == "__main__":
    main()
