#!/usr/bin/env python3
"""make_inputs.py: writes the inputs of the workloads, bench/*.txt beside workloads.txt, anew: the same bytes each time.

Each file has sections for sd_bench, whose src/main.rt says what they are. The patterns have the shapes that users have:

- exports of a file server: an owner, a group, 3 to 10 ACEs, mostly for accounts of one domain, a third with a SACL
- folders whose ACEs are inherited by files, by folders or by both, some for CREATOR OWNER
- objects of a directory with 60 to 375 ACEs of two GUIDs each, ACLs near 64 KB, a line near the limit whose last
  character is wrong, and tokens that meet no SID
- SIDs of 15 numbers, and tokens whose entries all differ from them late or not at all, as an attacker may choose them

In a pattern `?` is a hex digit, `%` a decimal digit and `~` a character of base64 that sd_bench chooses: the last
sub-authorities of accounts and some access masks.
"""
import pathlib
import random
import re
import struct
import sys

HERE = pathlib.Path(__file__).resolve().parent
sys.dont_write_bytecode = True
sys.path.append(str(HERE))
import generate  # noqa: E402
from generate import ace, sid  # noqa: E402
import reference  # noqa: E402  (generate.py makes its folder known)

DOMAIN = generate.HOME
DOMAIN_TEXT = "S-1-" + "-".join(map(str, DOMAIN))
OTHER_DOMAIN = (5, 21, 2212615479, 2695158682, 2101375467)
ACCOUNT = struct.pack(">BBHI", 1, 5, 0, 5) + struct.pack("<I", 21)
LAST = 8 + 4 * 4  # the offset of the last sub-authority of an account
WELL_KNOWN = [(1, 0), (5, 11), (5, 18), (5, 32, 544), (5, 32, 545), (5, 32, 551)]
CREATOR_OWNER = (3, 0)
INHERITED = [0x00, 0x01, 0x02, 0x03, 0x03, 0x03, 0x09, 0x0a, 0x0b, 0x13]
PATTERNS = 48
ONE_DOMAIN = f"--domain {DOMAIN_TEXT}"
USER = f"{DOMAIN_TEXT}-1105"


class Shapes:
    def __init__(self, seed):
        self.chance = random.Random(seed)
        self.generator = generate.Generator(seed)
        self.generator.chance = self.chance

    def account(self):
        domain = DOMAIN if self.chance.random() < 0.85 else OTHER_DOMAIN
        return sid(*domain, self.chance.randrange(1000, 65536))

    def some_sid(self):
        kind = self.chance.random()
        if kind < 0.62:
            return self.account()
        if kind < 0.68:
            return sid(*DOMAIN, self.chance.choice([512, 513, 519]))
        if kind < 0.98:
            return sid(*self.chance.choice(WELL_KNOWN))
        return self.chance.choice(self.generator.long)

    def file_ace(self, flags=None):
        kind = generate.DENY if self.chance.random() < 0.06 else generate.ALLOW
        flags = self.chance.choice(generate.FOLDER_FLAGS) if flags is None else flags
        return ace(kind, flags, self.chance.choice(generate.FILE_MASKS), self.some_sid())

    def object_ace(self):
        """With two GUIDs."""
        body = struct.pack("<I",
                           3) + self.chance.choice(self.generator.guids) + self.chance.choice(self.generator.guids)
        return ace(generate.OBJECT_ALLOW, self.chance.choice(generate.FOLDER_FLAGS),
                   self.chance.choice(generate.DIRECTORY_MASKS), body + self.some_sid())

    def folder_ace(self):
        if self.chance.random() < 0.15:
            return ace(generate.ALLOW, self.chance.choice([0x0b, 0x0a]), 0x10000000, sid(*CREATOR_OWNER))
        return self.file_ace(self.chance.choice(INHERITED))

    def descriptor(self, make, count=None):
        aces = [make() for _ in range(count or self.chance.randint(4, 10))]
        aces[0] = ace(generate.ALLOW, aces[0][1], 0x1f01ff, self.account())
        has_sacl = count is None and self.chance.random() < 0.33
        sacl = self.generator.acl(self.generator.sacl_aces(False)) if has_sacl else b""
        return self.generator.laid_out(self.account(), self.some_sid(), sacl, self.generator.acl(aces))

    def places(self, data):
        """The offsets of the lower two bytes of each account's last number, which are new each time."""
        found = []
        for match in re.finditer(re.escape(ACCOUNT), data):
            found += [match.start() + LAST, match.start() + LAST + 1]
        return found

    def mask_places(self, data):
        """The offsets of the lowest byte of one access mask in six."""
        view = reference.read(data)
        return [] if view is None else self.masks_of(data)

    def masks_of(self, data):
        found = []
        for offset in (12, 16):
            at, = struct.unpack_from("<I", data, offset)
            if at:
                count, = struct.unpack_from("<H", data, at + 4)
                at += 8
                for _ in range(count):
                    if self.chance.random() < 1 / 6:
                        found.append(at + 4)
                    at += struct.unpack_from("<H", data, at + 2)[0]
        return found

    def hex(self, data):
        digits = list(data.hex())
        for at in self.places(data) + self.mask_places(data):
            digits[2 * at:2 * at + 2] = "??"
        return "".join(digits)

    def base64(self, data):
        text = list(reference.to_base64(data))
        for at in self.places(data)[::2]:
            for place in range(len(text)):
                if 6 * place >= 8 * at and 6 * place + 6 <= 8 * at + 16:
                    text[place] = "~"
        return "".join(text)

    def sddl(self, data, by_hand=False):
        text = generate.sddl(data)
        parts = re.split(r"(?=[OGDS]:)", text)[1:]
        if by_hand:
            kind = self.chance.randrange(4)
            if kind == 0:
                self.chance.shuffle(parts)
                parts = [" ".join(parts).replace(")(", ") (")]
            elif kind == 1:
                parts = [text.lower()]
            elif kind == 2:
                parts = [re.sub(r"(\([^;()]*;[^;()]*;)([^;()]*);", self.number, text)]
            else:
                parts = [text.replace("FA;", "CCDCLCSWRPWPDTLOSDRCWDWO;")]
        text = re.sub(r"(-21-\d+-\d+-\d+-[1-9])(\d+)", lambda match: match[1] + "%" * len(match[2]),
                      "".join(parts), flags=re.I)
        return re.sub(r"(0x[0-9a-f]{3,})[0-9a-f](?=;)",
                      lambda match: match[1] + ("?" if self.chance.random() < 0.5 else "0"), text)

    def number(self, match):
        mask = reference.rights_of_text(match[2].encode())
        return match[1] + self.chance.choice([f"{mask}", f"0x{mask:x}", f"0x{mask:08x}"]) + ";"


def section(count, words, patterns=()):
    """Without patterns it has those of the section before."""
    return f"# {count} {words}\n" + "".join(pattern + "\n" for pattern in patterns)


def token(count, first=70_000):
    """So many SIDs, as a user of a large organisation has them: the user, groups of the domain, and some that each
    has."""
    usual = [USER, "S-1-1-0", "S-1-5-11", "S-1-5-15", "S-1-5-32-545", f"{DOMAIN_TEXT}-513"]
    groups = [f"{DOMAIN_TEXT}-{first + 3 * n}" for n in range(count - len(usual))]
    return ",".join((groups + usual)[:count])


def token_in_hex(count, first=70_000):
    return " ".join(sid(*map(int, text.split("-")[2:])).hex() for text in token(count, first).split(","))


def strangers(count):
    """SIDs that no descriptor has."""
    return ",".join(f"{DOMAIN_TEXT}-{200_000 + n}" for n in range(count))


def export(shapes):
    data = [shapes.descriptor(shapes.file_ace) for _ in range(3 * PATTERNS)]
    return (section(240_000, f"convert --to sddl {ONE_DOMAIN}", map(shapes.hex, data[:PATTERNS]))
            + section(180_000, "explain", map(shapes.hex, data[PATTERNS:2 * PATTERNS]))
            + section(120_000, "convert --to hex")
            + section(240_000, "convert --from base64 --to sddl", map(shapes.base64, data[2 * PATTERNS:])))


def restore(shapes):
    data = [shapes.descriptor(shapes.file_ace) for _ in range(2 * PATTERNS)]
    spelled = [shapes.sddl(one, by_hand=at % 3 == 0) for at, one in enumerate(data)]
    return (section(270_000, f"convert --from sddl --to hex {ONE_DOMAIN}", spelled[:PATTERNS])
            + section(120_000, f"convert --from sddl --to base64 {ONE_DOMAIN}")
            + section(270_000, f"convert --from sddl --to sddl {ONE_DOMAIN}", spelled[PATTERNS:]))


def check(shapes):
    data = [shapes.hex(shapes.descriptor(shapes.file_ace)) for _ in range(PATTERNS)]
    return (section(300_000, f"check --token {token(20)} --want FR", data)
            + section(150_000, f"check --token {token(20)} --maximum")
            + section(120_000, f"check --token {token(300)} --want FW")
            + section(120_000, f"check --token {token(1_000)} --want FR"))


def inherit(shapes):
    data = [shapes.descriptor(shapes.folder_ace) for _ in range(3 * PATTERNS)]
    plan = f"--owner {USER} --group {DOMAIN_TEXT}-513"
    creator = f"--creator D:(A;OICI;FA;;;{USER})(A;;FR;;;SY)(D;CI;FW;;;BG)"
    return (section(150_000, f"derive --from sddl --kind file {ONE_DOMAIN} {plan}", map(shapes.sddl, data[:PATTERNS]))
            + section(150_000, f"derive --to hex --kind container {plan}", map(shapes.hex, data[PATTERNS:2 * PATTERNS]))
            + section(90_000, f"derive --to hex --kind container {plan} {creator}",
                      map(shapes.hex, data[2 * PATTERNS:])))


def calls(shapes):
    data = [shapes.hex(shapes.descriptor(shapes.file_ace)) for _ in range(PATTERNS)]
    return section(2_400_000, f"each {token_in_hex(20)}", data) + section(1_200_000, f"many {token_in_hex(20)}")


def awkward(shapes):
    objects = [shapes.descriptor(shapes.object_ace, count) for count in (60, 120, 200, 375)]
    large = shapes.descriptor(shapes.file_ace, 1_500)
    longest = shapes.hex(shapes.generator.longest_descriptor())[:-1] + "."
    return (section(6_000, "convert --to sddl", map(shapes.hex, objects))
            + section(6_000,
                      f"check --token {token(20)} --type ds --want CR --object bf967aba-0de6-11d0-a285-00aa003049e2")
            + section(4_000, f"convert --from sddl --to hex {ONE_DOMAIN}", map(shapes.sddl, objects))
            + section(700, f"convert --from sddl --to sddl {ONE_DOMAIN}", [shapes.sddl(large)])
            + section(1_000, "convert --to hex", [shapes.hex(large)])
            + section(300, f"check --token {strangers(1_024)} --want FR")
            + section(500, "convert --to hex", [longest]))


def twins(shapes):
    """SIDs and entries with the same last number and as many numbers. The entries differ in the last number but one, or
    they are the SID itself, deny-only."""
    front = (5, *[1] * 13)
    last = 7
    aces = [ace(generate.ALLOW, 0, 0x120089, sid(*front, 999, last)) for _ in range(500)]
    data = shapes.generator.laid_out(sid(5, 18), sid(5, 18), b"", shapes.generator.acl(aces))
    text = "S-1-" + "-".join(map(str, front))
    late = ",".join(f"{text}-{1_000 + n}-{last}" for n in range(1_024))
    same = ",".join([f"!{text}-999-{last}"] * 1_024)
    return (section(120, f"check --token {late} --want FR", [shapes.hex(data)])
            + section(120, f"check --token {same} --want FR"))


def main():
    for number, make in enumerate([export, restore, check, inherit, calls, awkward, twins]):
        (HERE / f"{make.__name__}.txt").write_text(make(Shapes(number)), encoding="utf-8")


if __name__ == "__main__":
    main()
