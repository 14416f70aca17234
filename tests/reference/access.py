"""What a descriptor grants to a token (MS-DTYP 2.5.3)."""
import functools
import operator
from typing import NamedTuple, Optional, Tuple

from .parts import LABEL_TYPE, OBJECT_TYPES, Sid
from .tables import ACE_FLAGS, LABEL_RIGHTS

MAXIMUM_ALLOWED, RESERVED = 1 << 25, 3 << 26
PLACES = range(25)  # of the rights that can be granted
READ_CONTROL, WRITE_DAC, WRITE_OWNER, SYSTEM_SECURITY = 17, 18, 19, 24
MANDATORY_LABEL_AUTHORITY, MEDIUM = 16, 0x2000


class Ask(NamedTuple):
    """What check asks: pairs of a SID and whether it only denies, and the rest of the words."""
    token: Tuple[Tuple[Sid, bool], ...]
    wanted: int
    maximum: bool
    mapping: Tuple[int, ...]
    object_type: Optional[bytes]
    principal_self: Optional[Sid]
    security: bool
    take_ownership: bool
    level: Optional[int] = None  # a token without one is limited by no label


class Reason(NamedTuple):
    """Why a right is granted or denied: a word of REASONS, and the place of the ACE in its ACL if it is one."""
    word: str
    place: Optional[int] = None


REASONS = "nothing", "label", "no dacl", "owner", "privilege", "granted", "denied"
GRANTING = REASONS[2:6]


class Label(NamedTuple):
    level: int
    policy: int


def mapped(mask, mapping):
    """The mask with each generic right replaced by what it means."""
    meant = (all_of for place, all_of in zip(range(28, 32), mapping) if mask >> place & 1)
    return functools.reduce(operator.or_, meant, mask % (1 << 28))


def meets(sid, token, deny):
    """Whether an entry has the SID that is enabled, or may be deny-only."""
    return any(entry == sid and (deny or not only_denies) for entry, only_denies in token)


def applies(ace, descriptor, ask):
    """Whether the ACE counts for the token (2.5.3.1)."""
    subject = ace.sid
    if subject == Sid(5, (10,)) and ask.principal_self is not None:
        subject = ask.principal_self
    elif subject == Sid(3, (4,)):
        subject = descriptor.owner
    is_typed = ace.type in OBJECT_TYPES and ace.object_type is not None
    return (not ace.flags & ACE_FLAGS["IO"] and ace.type in (0, 1, 5, 6)
            and (not is_typed or ace.object_type == ask.object_type)
            and subject is not None and meets(subject, ask.token, ace.type in (1, 6)))


def label_place(descriptor):
    """The place in the SACL of the first ACE that is a label for the object itself (2.4.4.13), or None."""
    for index, ace in enumerate(descriptor.sacl.aces if descriptor.sacl else ()):
        names_level = ace.sid.authority == MANDATORY_LABEL_AUTHORITY and len(ace.sid.sub_authorities) == 1
        if ace.type == LABEL_TYPE and names_level and not ace.flags & ACE_FLAGS["IO"]:
            return index
    return None


def label(descriptor):
    """The integrity label of the object: that of its ACE, else medium and no write up."""
    index = label_place(descriptor)
    if index is None:
        return Label(MEDIUM, LABEL_RIGHTS["NW"])
    ace = descriptor.sacl.aces[index]
    return Label(ace.sid.sub_authorities[0], ace.mask & 7)


def label_allows(place, descriptor, ask):
    """Whether the label lets the token have the right at the place at all (2.5.3.3)."""
    level, policy = label(descriptor)
    if ask.level is None or ask.level >= level:
        return True
    _, execute, write, read = ask.mapping
    ways = {"NR": read, "NW": write, "NX": execute}
    return any(rights >> place & 1 for name, rights in ways.items() if not policy & LABEL_RIGHTS[name])


def reason(place, descriptor, ask):
    """Why the one right at the place is granted or denied (2.5.3.2), whatever is wanted."""
    if place == SYSTEM_SECURITY:
        return Reason("privilege" if ask.security else "nothing")
    if not label_allows(place, descriptor, ask):
        return Reason("label", label_place(descriptor))
    if descriptor.dacl is None:
        return Reason("no dacl")
    binds_owner = any(ace.sid == Sid(3, (4,)) and ace.type in (0, 1, 5, 6) and not ace.flags & ACE_FLAGS["IO"]
                      for ace in descriptor.dacl.aces)
    if place in (READ_CONTROL, WRITE_DAC) and meets(descriptor.owner, ask.token, False) and not binds_owner:
        return Reason("owner")
    if place == WRITE_OWNER and ask.take_ownership:
        return Reason("privilege")
    for index, ace in enumerate(descriptor.dacl.aces):
        if mapped(ace.mask, ask.mapping) >> place & 1 and applies(ace, descriptor, ask):
            return Reason("granted" if ace.type in (0, 5) else "denied", index)
    return Reason("nothing")


def reasons(descriptor, ask):
    """Why each right is granted or denied, by its place."""
    return [reason(place, descriptor, ask) for place in PLACES]


def granted(place, descriptor, ask):
    """Whether the one right at the place is granted."""
    return reason(place, descriptor, ask).word in GRANTING


def verdict(descriptor, ask):
    """What the descriptor grants, or which wanted rights are missing."""
    rights = sum(1 << place for place in PLACES if granted(place, descriptor, ask))
    missing = ask.wanted & ~rights
    answered = ask.wanted | rights & ask.mapping[0] * ask.maximum
    return f"denied 0x{missing:08x}" if missing or not answered else f"granted 0x{answered:08x}"
