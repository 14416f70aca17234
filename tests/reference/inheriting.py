"""The descriptor of a new object, by those of its container and of its creator (MS-DTYP 2.5.3.4)."""
from typing import NamedTuple, Tuple

from .access import mapped
from .binary import SELF_RELATIVE
from .parts import ACL_HEADER, ACL_NAMES, LABEL_TYPE, LARGEST_ACL, Acl, Descriptor, Fault, Sid
from .tables import ACE_FLAGS, ACL_FLAGS

CREATOR_OWNER, CREATOR_GROUP = Sid(3, (0,)), Sid(3, (1,))
GENERIC = 0xf000_0000
OWN, ONWARD, HELD = "for itself", "to hand on", "for itself and to hand on"
EITHER = "one for both where they are the same, else one for each"
# The copies of an ACE by those of its flags OI, CI and NP that are set, for a file and for a container.
COPIES = {
    "": ((), ()), "NP": ((), ()), "OI": ((OWN,), (ONWARD,)), "OINP": ((OWN,), ()),
    "CI": ((), EITHER), "CINP": ((), (OWN,)), "OICI": ((OWN,), EITHER), "OICINP": ((OWN,), (OWN,)),
}


class Plan(NamedTuple):
    is_container: bool
    owner: Sid
    group: Sid
    mapping: Tuple[int, ...]


class Origin(NamedTuple):
    """Where an ACE of a new object comes from."""
    place: int  # of the ACE that it was made of, in its ACL
    from_creator: bool  # else from the parent
    inherit_only: bool


def differs(ace):
    """Whether an ACE means one thing for the object itself and another for those in it."""
    return ace.sid in (CREATOR_OWNER, CREATOR_GROUP) or ace.type != LABEL_TYPE and ace.mask & GENERIC


def for_itself(ace, plan, flags):
    """The ACE as it counts for the object itself."""
    sid = {CREATOR_OWNER: plan.owner, CREATOR_GROUP: plan.group}.get(ace.sid, ace.sid)
    mask = ace.mask if ace.type == LABEL_TYPE else mapped(ace.mask, plan.mapping)
    return ace._replace(flags=flags, mask=mask, sid=sid)


def copy(ace, kind, plan):
    """The copy of the parent's ACE for the object itself, for those in it, or for both."""
    onward = ace.flags & (ACE_FLAGS["OI"] | ACE_FLAGS["CI"])
    flags = ace.flags & (ACE_FLAGS["SA"] | ACE_FLAGS["FA"]) | ACE_FLAGS["ID"]
    if kind == ONWARD:
        return ace._replace(flags=flags | onward | ACE_FLAGS["IO"])
    return for_itself(ace, plan, flags | onward * (kind == HELD))


def copies(ace, plan):
    """What an ACE of the parent gives."""
    kinds = COPIES["".join(name for name in ("OI", "CI", "NP") if ace.flags & ACE_FLAGS[name])][plan.is_container]
    if kinds == EITHER:
        kinds = (OWN, ONWARD) if differs(ace) else (HELD,)
    return [copy(ace, kind, plan) for kind in kinds]


def taken(ace, plan):
    """What an ACE of the creator's descriptor gives. One that is inherited there gives nothing."""
    if ace.flags & ACE_FLAGS["ID"]:
        return []
    if ace.flags & ACE_FLAGS["IO"]:
        return [ace] if plan.is_container else []
    own = for_itself(ace, plan, ace.flags & (ACE_FLAGS["SA"] | ACE_FLAGS["FA"]))
    if not plan.is_container or not ace.flags & (ACE_FLAGS["OI"] | ACE_FLAGS["CI"]):
        return [own]
    return [own, ace._replace(flags=ace.flags | ACE_FLAGS["IO"])] if differs(ace) else [ace]


def part_of(descriptor, letter):
    """Whether the descriptor has this ACL, its P, and the ACL, which is None where it is null or absent."""
    present, flags = ACL_FLAGS[letter]
    acl = {"D": descriptor.dacl, "S": descriptor.sacl}[letter]
    return bool(descriptor.control & present), descriptor.control & flags["P"], acl


def derived_acl(letter, parent, creator, plan):
    """The bits that the new object's ACL has in the control word, and the ACL."""
    present, flags = ACL_FLAGS[letter]
    _, _, acl = part_of(parent, letter)
    aces = [one for ace in (acl.aces if acl else ()) for one in copies(ace, plan)]
    is_brought, protected, acl = part_of(creator, letter) if creator else (False, 0, None)
    if not is_brought:
        return (present | flags["AI"], Acl(tuple(aces))) if aces or letter == "D" else (0, None)
    if acl is None:
        return present | protected, None
    own = [one for ace in acl.aces for one in taken(ace, plan)]
    return present | (protected or flags["AI"]), Acl((*own, *(() if protected else aces)))


def origins(letter, parent, creator, plan):
    """Where each ACE of the new object's ACL comes from, in their order."""
    is_brought, protected, own = part_of(creator, letter) if creator else (False, 0, None)
    if is_brought and own is None:
        return []
    inherited = None if is_brought and protected else part_of(parent, letter)[2]
    givers = (True, own, taken), (False, inherited, copies)
    return [Origin(place, from_creator, bool(new.flags & ACE_FLAGS["IO"]))
            for from_creator, acl, gives in givers
            for place, ace in enumerate(acl.aces if acl else ())
            for new in gives(ace, plan)]


def derived(parent, creator, plan):
    """The descriptor of the new object, for which its creator may have brought one or None; or the fault that an ACL
    would be too large."""
    acls = {letter: derived_acl(letter, parent, creator, plan) for letter in "SD"}
    for letter, (_, acl) in acls.items():
        if acl and ACL_HEADER.size + sum(len(ace.to_bytes()) for ace in acl.aces) > LARGEST_ACL:
            raise Fault(40, "derived-too-large", ACL_NAMES[letter])
    control = SELF_RELATIVE | acls["S"][0] | acls["D"][0]
    return Descriptor(control, 0, plan.owner, plan.group, acls["S"][1], acls["D"][1])
