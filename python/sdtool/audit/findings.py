"""What a question answers for an object: its findings, what they are about, and what decides."""
from typing import Iterable, List, NamedTuple, Optional, Sequence, Tuple

from sdtool import _windows
from sdtool.audit.library import AnswersFault, Refusal, reason_of
from sdtool.audit.sources import items

FOUND, ACCEPTED, NOTHING, UNKNOWN = "found", "accepted", "nothing", "unknown"
# Only lesser findings than --min-severity asks for; and nothing to compare an object with.
LESSER, NOT_COMPARED = "lesser", "not compared"
ADDED, GONE, CHANGED, SAME = "added", "gone", "changed", "same"
NEW, KNOWN, MENDED = "new", "known", "mended"
TRUSTED = "trusted"  # nobody but trusted trustees, whom who leaves to a count
TRUSTED_RULE = "trusted"
SEVERITIES = _windows.SEVERITIES


class Mark(NamedTuple):
    """The ACEs of a finding: those of its reasons that grant, or those that deny where none grants. Without a key, the
    finding is that of its object alone."""

    numbers: Tuple[int, ...] = ()  # from 1
    key: str = ""                  # by which an object below has the finding too
    is_inherited: bool = False
    is_handed_on: bool = False     # whether an object below can have inherited it

    @property
    def is_of_owner(self) -> bool:
        return self.key.startswith(_OWNER_KEY)

    @property
    def comes_from_above(self) -> bool:
        """Whether an object above may have it too. An owner is the same one below, though nothing is inherited."""
        return self.is_of_owner or bool(self.key) and self.is_inherited


NO_MARK = Mark()


class Because(NamedTuple):
    """What decides about rights: an ACE of the object, or a rule."""

    number: int  # of the ACE in the DACL, from 1; or 0
    text: str    # the ACE in SDDL; or owner, privilege, label, no DACL
    rights: str  # in words
    grants: bool = True
    mask: int = 0  # of these rights


_OWNER_KEY = "owner"


def owner_key(sid: str) -> str:
    """The key of what comes from an owner, and not from an ACE."""
    return f"{_OWNER_KEY} {sid}"


class Finding(NamedTuple):
    """One thing that was found: by which rule, about whom, which rights, and the rest in words."""

    rule: str
    trustee: str
    rights: str
    text: str
    counts: bool = True  # whether it makes the object a found one
    accepted: str = ""   # why it is accepted, if it is
    severity: str = ""   # one of SEVERITIES, or nothing
    sid: str = ""        # of the trustee
    mask: int = 0
    mark: Mark = NO_MARK
    above: int = 0       # the number of the folder's ACE that it is about, from 1
    because: Tuple[Because, ...] = ()  # what grants the rights, or denies them
    object_type: str = ""  # that alone of a directory object


class Answer(NamedTuple):
    status: str
    findings: Tuple[Finding, ...] = ()
    reason: str = ""
    help: str = ""
    place: str = ""  # where an unknown object's descriptor is wrong

    @property
    def said(self) -> str:
        """The reason, with the place."""
        return f"{self.reason}, {self.place}" if self.place else self.reason


class Rule(NamedTuple):
    name: str
    reason: str
    severity: str = ""


def unknown(reason: str, advice: str) -> Answer:
    return Answer(UNKNOWN, (), reason, advice)


def unread(reason: str, advice: str) -> Answer:
    """The answer for an object that has no descriptor."""
    return Answer(GONE, (), reason) if reason == items.GONE else unknown(reason, advice)


def unknown_of(refusal: Refusal) -> Answer:
    return unknown(*reason_of(refusal))._replace(place=refusal.place)


def answer_of(findings: Iterable[Finding]) -> Answer:
    found = tuple(findings)
    return Answer(FOUND if any(finding.counts for finding in found) else NOTHING, found)


def complete(answers: Sequence[Optional[Answer]]) -> List[Answer]:
    """Answers of which none is missing."""
    if any(answer is None for answer in answers):
        raise AnswersFault("an object has no answer")
    return list(answers)  # type: ignore[arg-type]
