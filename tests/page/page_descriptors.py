"""Random descriptors for tests/page/page.py, and who decides about each right, by the rules of docs/FORMAT.md.

The rules are written here once more, in the plainest way, for descriptors that this file makes: what a cell of the grid
and a reason have to say is more than a verdict of the program.
"""
import random
from typing import List, NamedTuple, Optional

MAPPINGS = {  # what GENERIC_READ, GENERIC_WRITE, GENERIC_EXECUTE and GENERIC_ALL mean
    "file": (0x120089, 0x120116, 0x1200A0, 0x1F01FF),
    "key": (0x20019, 0x20006, 0x20019, 0xF003F),
    "ds": (0x20094, 0x20028, 0x20004, 0xF01FF),
}
GENERICS = (0x80000000, 0x40000000, 0x20000000, 0x10000000)
READ_CONTROL, WRITE_DAC, WRITE_OWNER, SYSTEM_SECURITY = 0x20000, 0x40000, 0x80000, 0x1000000
OWNER_RIGHTS = "S-1-3-4"
SIDS = [
    "S-1-1-0",
    "S-1-5-11",
    "S-1-5-32-545",
    "S-1-5-32-544",
    "S-1-5-18",
    "S-1-5-21-1-2-3-1001",
    "S-1-5-21-1-2-3-513",
    OWNER_RIGHTS,
    "S-1-5-10",
    "S-1-3-0",
    "S-1-5-32-546",
    "S-1-5-7",
]
KINDS = ["A"] * 6 + ["D"] * 4 + ["OA", "OD", "AU", "ML"]
MASKS = [
    "FA",
    "FR",
    "FW",
    "FX",
    "KA",
    "KR",
    "GA",
    "GR",
    "GW",
    "GX",
    "RC",
    "WD",
    "WO",
    "SD",
    "CC",
    "DCLC",
    "0x1301bf",
    "0x0",
]
NUMBERS = {
    "FA": 0x1F01FF,
    "FR": 0x120089,
    "FW": 0x120116,
    "FX": 0x1200A0,
    "KA": 0xF003F,
    "KR": 0x20019,
    "GA": 0x10000000,
    "GR": 0x80000000,
    "GW": 0x40000000,
    "GX": 0x20000000,
    "RC": READ_CONTROL,
    "WD": WRITE_DAC,
    "WO": WRITE_OWNER,
    "SD": 0x10000,
    "CC": 0x1,
    "DCLC": 0x6,
    "0x1301bf": 0x1301BF,
    "0x0": 0,
}
FLAGS = ["", "", "", "OICI", "CI", "OICIIO", "CIIO", "IO", "OICINP", "ID", "OICIID"]
GUIDS = ["", "", "bf9679c0-0de6-11d0-a285-00aa003049e2", "ab721a53-1e2f-11d0-9819-00aa0040529b"]


class Ace(NamedTuple):
    kind: str
    flags: str
    mask: int
    object: str
    sid: str


class Descriptor(NamedTuple):
    owner: Optional[str]
    aces: Optional[List[Ace]]  # of the DACL; None if it is absent or null
    text: str


class Maker:
    def __init__(self, seed):
        self.chance = random.Random(seed)

    def ace(self):
        chance = self.chance
        kind, flags = chance.choice(KINDS), chance.choice(FLAGS)
        name = chance.choice(MASKS) if chance.random() < 0.8 else hex(chance.getrandbits(21))
        guid = chance.choice(GUIDS) if kind in ("OA", "OD") else ""
        sid = chance.choice(SIDS)
        mask = NUMBERS[name] if name in NUMBERS else int(name, 16)
        return Ace(kind, flags, mask, guid, sid), f"({kind};{flags};{name};{guid};;{sid})"

    def descriptor(self):
        chance = self.chance
        owner = chance.choice([None, *SIDS])
        front = f"O:{owner}" if owner else ""
        shape = chance.random()
        if shape < 0.04:
            return Descriptor(owner, None, front + chance.choice(["", "D:NO_ACCESS_CONTROL"]) or " ")
        aces = [self.ace() for _ in range(0 if shape < 0.08 else chance.randint(1, 9))]
        text = front + "D:" + chance.choice(["", "AI", "P"]) + "".join(text for _, text in aces)
        return Descriptor(owner, [ace for ace, _ in aces], text)


def trustees(descriptor):
    """The owner, and those of the ACEs that allow or deny, in their order."""
    sids = [ace.sid for ace in descriptor.aces or [] if ace.kind in ("A", "D", "OA", "OD")]
    return list(dict.fromkeys(([descriptor.owner] if descriptor.owner else []) + sids))


def meaning(mask, mapping):
    for bit, meant in zip(GENERICS, MAPPINGS[mapping]):
        if mask & bit:
            mask = mask & ~bit | meant
    return mask


def applies(ace, descriptor, token):
    if ace.kind not in ("A", "D", "OA", "OD") or "IO" in ace.flags or ace.object:
        return False
    meant = descriptor.owner if ace.sid == OWNER_RIGHTS else ace.sid
    return meant is not None and meant in token


def is_owner(descriptor, token):
    """Whether the owner's rule grants to the token."""
    limits = [
        ace
        for ace in descriptor.aces
        if ace.sid == OWNER_RIGHTS and ace.kind in ("A", "D", "OA", "OD") and "IO" not in ace.flags
    ]
    return descriptor.owner in token and not limits


def decision(descriptor, token, right, mapping):
    """'rule', 'granted' or 'denied' with the number of the ACE, or 'none'."""
    if descriptor.aces is None or right in (READ_CONTROL, WRITE_DAC) and is_owner(descriptor, token):
        return "rule", None
    for number, ace in enumerate(descriptor.aces, 1):
        if applies(ace, descriptor, token) and meaning(ace.mask, mapping) & right:
            return "granted" if ace.kind in ("A", "OA") else "denied", number
    return "none", None
