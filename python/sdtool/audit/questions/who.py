"""The question who gets any of some rights."""
import itertools
from typing import Dict, Iterable, Iterator, List, NamedTuple, Optional, Sequence, Tuple

from sdtool.audit.checks import (Checks, as_owner, asked_of, kept_of, mark_of, of_allowed_types, refused, shares_of,
                                 trustee_token, without_owner)
from sdtool.audit.directory.groups import Groups, Membership
from sdtool.audit.findings import (FOUND, NOTHING, TRUSTED, TRUSTED_RULE, Answer, Because, Finding, Rule, answer_of,
                                   complete)
from sdtool.audit.library import ALLOWS, Descriptor, Got, Token, answerable, explained, mapped
from sdtool.audit.protocols import Context
from sdtool.audit.shares import Limit, Limits
from sdtool.audit.windows import names as sids
from sdtool.audit.windows import rights


class Listing(NamedTuple):
    """Whom a question who lists, and whom it leaves to a count."""

    groups: Optional[Groups] = None
    most_members: int = 1000
    trust: sids.Trust = sids.Trust()
    lists_trusted: bool = True

    def lists(self, sid: str) -> bool:
        """Whether a finding of a SID is listed by itself."""
        return self.lists_trusted or not self.trust.has(sid)


WHO_RULES = (Rule("who", "a trustee gets one of the rights"),
             Rule("stopped", "an ACE names a trustee that doesn't get the right, since a deny stops it"),
             Rule(TRUSTED_RULE, "trusted trustees get it: --all-trustees lists each of them"))


def without_trusted(findings: Iterable[Tuple[str, Finding]], listing: Listing) -> Answer:
    """An answer of findings, each with its SID. Those of trusted trustees are one finding together, if they aren't
    listed."""
    found: List[Finding] = []
    trusted: Dict[str, None] = {}
    for sid, finding in findings:
        if listing.lists(sid):
            found.append(finding)
        elif finding.counts:
            trusted[finding.trustee] = None
    if trusted:
        found.append(Finding(TRUSTED_RULE, "", "", ", ".join(trusted), False))
    answer = answer_of(found)
    return answer._replace(status=TRUSTED) if trusted and answer.status == NOTHING else answer


class Who:
    """Who gets any of some rights."""

    asks_places = "owners"
    rules = WHO_RULES

    def __init__(self, context: Context, wanted: rights.Wanted, listing: Listing = Listing()) -> None:
        self._context, self._wanted, self._listing = context, wanted, listing
        self._membership = Membership(listing.groups) if listing.groups else None
        self._limits = Limits(context.domain, listing.lists)

    def answer(self, form: str, kind: str, texts: Sequence[str], place: str = "") -> List[Answer]:
        mask = self._wanted.all_of(kind)
        place, limit = self._limits.of(place)
        descriptors = explained(form, texts, self._context.domain)
        answers: List[Optional[Answer]] = [refused(one, kind, mask) for one in descriptors]
        checks = Checks(*answerable(form, texts, descriptors, kind), kind, asked_of(mask, kind), self._context.domain,
                        limit)
        asked = {at: _Trustees(descriptor, mask, kind, limit) for at, descriptor in enumerate(descriptors)
                 if answers[at] is None and isinstance(descriptor, Descriptor)}
        for at, trustees in asked.items():
            checks.know(at, of_allowed_types(trustees.descriptor, mask, kind))
            checks.ask(at, trustee_token(sids.AUTHENTICATED_USERS))
            named = trustees.allowed + trustees.denied
            for sid in named:
                checks.ask(at, trustee_token(sid))
            for member in dict.fromkeys(itertools.chain(*map(self._members, named))):
                token = self._member_token(member, trustees)
                limit.whole.add(token)
                checks.ask(at, token, False)
        checks.run()
        for at, trustees in asked.items():
            answers[at] = checks.too_many(at)
            if answers[at]:
                continue
            answer = without_trusted(self._findings(checks, at, trustees, kind, mask), self._listing)
            is_found = answer.status in (FOUND, TRUSTED)
            answers[at] = answer if is_found else without_owner(trustees.descriptor, mask, kind, place) or answer
        return complete(answers)

    def _members(self, sid: str) -> Sequence[str]:
        members = self._membership.members(sid) if self._membership else ()
        return members if len(members) <= self._listing.most_members else ()

    def _member_token(self, member: str, trustees: "_Trustees") -> Token:
        """The SIDs of a member that the descriptor names: no other one changes the answer."""
        assert self._membership is not None
        named = trustees.named | trustees.limit.named
        groups = [sid for sid in self._membership.groups(member) if sid in named]
        return Token(tuple([member, *groups, sids.EVERYONE, sids.AUTHENTICATED_USERS]))

    def _findings(self, checks: Checks, at: int, trustees: "_Trustees", kind: str,
                  mask: int) -> Iterator[Tuple[str, Finding]]:
        """Each finding with the SID that decides whether it is listed: a member of trusted groups alone is as they
        are."""
        names = self._context.names
        everybody = checks.got(at, trustee_token(sids.AUTHENTICATED_USERS), mask)
        shown: Dict[str, None] = {}
        for sid in trustees.allowed + trustees.denied:
            token = trustee_token(sid)
            got = checks.got(at, token, mask)
            text = trustees.text(sid, self._membership, self._listing.most_members)
            for finding in self._of(sid, token, got, checks, at, trustees, kind, text, self._listing.lists(sid)):
                yield sid, finding
            why = ("an ACE allows it, and a deny or a missing owner stops it" if sid in trustees.allowed
                   else "Everyone or Authenticated Users get it, and a deny stops this one")
            for finding in self._stopped(sid, token, self._missing(sid, got, everybody, trustees), checks, at,
                                         trustees, kind, why):
                yield sid, finding
            for member in self._members(sid):
                if member in shown:
                    continue
                shown[member] = None
                token = self._member_token(member, trustees)
                of_member = checks.got(at, token, mask)
                groups = token.sids[1:-2]
                decides = next((one for one in groups if not self._listing.trust.has(one)),
                               groups[0] if groups else member)
                through = ", ".join(names.name(one) for one in groups)
                if of_member.all:
                    for finding in self._of(member, token, of_member, checks, at, trustees, kind,
                                            f"by way of {through}", self._listing.lists(decides)):
                        yield decides, finding
                    continue
                for finding in self._stopped(member, token, got.all | trustees.allowed_to(groups), checks, at,
                                             trustees, kind, f"a member of {through}, stopped by a deny"):
                    yield decides, finding

    def _of(self, sid: str, token: Token, got: Got, checks: Checks, at: int, trustees: "_Trustees",
            kind: str, text: str, is_listed: bool) -> Iterator[Finding]:
        kept, aces = kept_of(got, self._wanted, kind), trustees.descriptor.aces
        names, asked = self._context.names, self._wanted.all_of(kind)
        text = "; ".join(filter(None, (text, trustees.limit.said(token, kept.mask, names.named))))
        for share in shares_of(kept, kind, text, names, checks.mask(at, token), asked):
            because = checks.because(at, token, share.claimed, aces, share.object_type) if is_listed else ()
            yield Finding("who", self._context.names.named(sid), share.words, share.text, sid=sid, mask=share.mask,
                          mark=mark_of(because, aces, kind, share.mask), because=because)

    def _stopped(self, sid: str, token: Token, missing: int, checks: Checks, at: int, trustees: "_Trustees", kind: str,
                 text: str) -> Iterator[Finding]:
        """What is denied to somebody of some rights that are missing."""
        mask, because = trustees.denied_by(checks, at, token, missing)
        taken = checks.taken(at, token, self._wanted.all_of(kind))
        if taken:
            text = f"the share {trustees.limit.name} takes it away"
            mask, because = mask | taken, because + trustees.limit.because(taken, kind)
        if mask:
            yield Finding("stopped", self._context.names.named(sid), rights.short_text(mask, kind), text, False,
                          sid=sid, mask=mask, mark=mark_of(because, trustees.descriptor.aces, kind), because=because)

    @staticmethod
    def _missing(sid: str, got: Got, everybody: Got, trustees: "_Trustees") -> int:
        """Rights that an ACE names for a trustee, or that everybody gets, and that the trustee doesn't get."""
        if sid in trustees.allowed:
            return trustees.allowed_masks.get(sid, 0) & ~got.all
        return everybody.all & ~got.all


class _Trustees:
    """Whom a descriptor names for some rights."""

    def __init__(self, descriptor: Descriptor, mask: int, kind: str, limit: Limit) -> None:
        self.descriptor, self.limit = descriptor, limit
        self.named = {as_owner(ace.sid, descriptor) for ace in descriptor.deciding} | {descriptor.owner}
        self.allowed_masks: Dict[str, int] = {}
        denied: Dict[str, None] = {}
        for ace in descriptor.deciding:
            sid = as_owner(ace.sid, descriptor)
            named = mapped(ace.mask, kind) & mask
            if not sid or not named:
                continue
            if ace.kind in ALLOWS:
                self.allowed_masks[sid] = self.allowed_masks.get(sid, 0) | named
            else:
                denied[sid] = None
        if descriptor.dacl != "list":
            self.allowed_masks[sids.EVERYONE] = 0
        elif descriptor.owner and mask & (rights.READ_CONTROL | rights.WRITE_DAC):
            self.allowed_masks.setdefault(descriptor.owner, 0)
        self.allowed = list(self.allowed_masks)
        self.denied = [sid for sid in denied if sid not in self.allowed_masks]

    def allowed_to(self, groups: Iterable[str]) -> int:
        """The rights that ACEs allow to some SIDs."""
        mask = 0
        for sid in groups:
            mask |= self.allowed_masks.get(sid, 0)
        return mask

    def denied_by(self, checks: Checks, at: int, token: Token, mask: int) -> Tuple[int, Tuple[Because, ...]]:
        """The rights of a mask that a token is denied, to the object or to one of an object type, and by what."""
        denied, found = 0, []  # type: int, List[Because]
        for object_type in ("", *checks.types(at, token)) if mask else ():
            denied |= checks.denied(at, token, mask, object_type)
            found += checks.because(at, token, mask, self.descriptor.aces, object_type, False)
        return denied, tuple(dict.fromkeys(found))

    def text(self, sid: str, membership: Optional[Membership], most: int) -> str:
        """What is to be said about a trustee beside its rights."""
        said = []
        if self.descriptor.dacl != "list":
            said.append(f"the DACL is {self.descriptor.dacl}, so everybody gets everything")
        if sid == self.descriptor.owner:
            said.append("the owner")
        if sid in (sids.CREATOR_OWNER, sids.CREATOR_GROUP):
            said.append("stands for the creator of new objects, and no user has it")
        members = membership.members(sid) if membership else ()
        if len(members) > most:
            said.append(f"a group of {len(members)} members, which are not listed")
        return "; ".join(said)
