"""Names of SIDs and object types, who has a SID, and whom a directory trusts. The tables are those of windows/."""
import functools
from typing import Dict, NamedTuple, Optional, Tuple

from sdtool._windows import FAMILIES, OBJECT_TYPES, OF_A_DOMAIN, RULE_OF, SIDS, USUAL

EVERYONE, AUTHENTICATED_USERS, ANONYMOUS = "S-1-1-0", "S-1-5-11", "S-1-5-7"
SYSTEM, ADMINISTRATORS = "S-1-5-18", "S-1-5-32-544"
CREATOR_OWNER, CREATOR_GROUP, OWNER_RIGHTS, PRINCIPAL_SELF = "S-1-3-0", "S-1-3-1", "S-1-3-4", "S-1-5-10"
# Classes of SIDs: windows/sids.toml says what they mean.
SERVICE, TRUSTED, STAND_IN, OTHER = "service", "trusted", "stand-in", "other"
EVERYBODY = frozenset(RULE_OF)
_DOMAIN = "S-1-5-21-"
_BUILT_IN_BELOW = 1000  # numbers from here on are those of accounts that somebody made


class Meaning(NamedTuple):
    """What is known of a SID: its name, if it has one of its own, who has it, and what a token of it has besides."""

    name: Optional[str]
    who: str
    also: Tuple[str, ...]
    family: str = ""  # what all SIDs that begin so are


def domain_of(sid: str) -> Tuple[str, int]:
    """The domain of a SID and its last number, or an empty domain."""
    if sid.startswith(_DOMAIN) and sid.count("-") == 7:
        domain, _, number = sid.rpartition("-")
        return domain, int(number)
    return "", 0


@functools.lru_cache(maxsize=4096)
def meaning_of(sid: str) -> Meaning:
    """What the tables know of a SID."""
    known = SIDS.get(sid)
    if known:
        return Meaning(known[1], known[2], tuple(one for one in known[3] if one != sid))
    domain, number = domain_of(sid)
    if domain:
        row = OF_A_DOMAIN.get(number) if number < _BUILT_IN_BELOW else None
        return Meaning(row[1], row[2], row[3]) if row else Meaning(None, OTHER, USUAL)
    for begins, name, who, also in FAMILIES:
        if sid.startswith(begins):
            return Meaning(None, who, also, name)
    return Meaning(None, OTHER, USUAL)


def everybody_class(sid: str) -> str:
    """Which class of everybody has a SID, or nothing."""
    who = meaning_of(sid).who
    return who if who in EVERYBODY else ""


class Trust(NamedTuple):
    """Who is trusted: SIDs, and the administrators of domains, or of all of them where none is named."""

    sids: Tuple[str, ...] = ()
    domains: Tuple[str, ...] = ()
    root: str = ""  # the domain of the forest's own groups, if it isn't one of domains

    def has(self, sid: str) -> bool:
        if sid in self.sids:
            return True
        if meaning_of(sid).who != TRUSTED:
            return False
        domain, number = domain_of(sid)
        return not domain or self.is_of(domain, number)

    def is_of(self, domain: str, number: int) -> bool:
        """Whether a last number stands for what Windows makes in a domain: in the forest's root alone, or in each."""
        if not self.domains:
            return True
        row = OF_A_DOMAIN.get(number)
        return domain == self.root if self.root and row and row[4] == "root" else domain in self.domains


class Names:
    """Names of SIDs: those that a file gives, then those that every system has, then those of the sources. No source
    calls Everyone anything else."""

    def __init__(self, given: Optional[Dict[str, str]] = None, of_sources: Optional[Dict[str, str]] = None,
                 types: Optional[Dict[str, str]] = None) -> None:
        self.given, self.types = given or {}, types or {}
        self.of_sources = {sid: name for sid, name in (of_sources or {}).items() if meaning_of(sid).name is None}
        self.all = {**self.of_sources, **self.given}

    def knows(self, sid: str) -> bool:
        """Whether a SID has a name, or is of a family whose accounts have none."""
        meaning = meaning_of(sid)
        return sid in self.all or meaning.name is not None or bool(meaning.family)

    def name(self, sid: str) -> str:
        """The name of a SID, or the SID if it has none."""
        return self.all.get(sid) or meaning_of(sid).name or sid

    def named(self, sid: str) -> str:
        """The SID with its name, or with what SIDs that begin so are."""
        name = self.all.get(sid) or meaning_of(sid).name or meaning_of(sid).family
        return f"{name} ({sid})" if name else sid

    def object_type(self, guid: str) -> str:
        """A GUID of an object type, with its name if Windows or the sources have one."""
        name = OBJECT_TYPES.get(guid) or self.types.get(guid)
        return f"{name} ({guid})" if name else guid
