"""The question what a token gets of some rights."""
import re
from typing import Iterator, List, Optional, Sequence, Tuple

from sdtool.audit.checks import Checks, asked_of, kept_of, mark_of, of_allowed_types, refused, shares_of, without_owner
from sdtool.audit.findings import FOUND, UNKNOWN, Answer, Finding, Rule, answer_of, complete, unknown
from sdtool.audit.library import Descriptor, Got, Token, answerable, explained
from sdtool.audit.masks import WITHOUT_MAPPING
from sdtool.audit.protocols import Context
from sdtool.audit.shares import Limit, Limits
from sdtool.audit.sources.places import Above, above_of
from sdtool.audit.windows import rights
from sdtool.audit.windows.kinds import is_folder

_MEDIUM = 8192


def _labels(descriptor: Descriptor) -> List[str]:
    """The SIDs of ACEs that are labels, of which the first counts."""
    return [ace.sid for ace in descriptor.sacl_aces if ace.kind == "ML" and ace.counts
            and re.fullmatch(r"S-1-16-[0-9]+", ace.sid)]


def _level_of(descriptor: Descriptor) -> int:
    """The integrity level of an object: that of its label, or medium."""
    labels = _labels(descriptor)
    return int(labels[0].rpartition("-")[2]) if labels else _MEDIUM


def _without_folder(answer: Answer, why_not: str) -> Answer:
    """An answer about an object whose folder may let it be deleted, and isn't known."""
    why = f"{why_not}, and whoever may delete what is in it may delete this"
    if answer.status != FOUND:
        return answer if answer.status == UNKNOWN else unknown(why, "export the folder with what is in it")
    return answer._replace(findings=tuple(one._replace(text=f"{one.text}; {why}") for one in answer.findings))


class Can:
    """What a token gets of some rights."""

    rules = (Rule("can", "the token gets one of the rights"),
             Rule("stopped", "the token gets none of them, and an ACE of the object denies it some"))

    def __init__(self, context: Context, token: Token, wanted: rights.Wanted) -> None:
        self._context, self._token, self._wanted = context, token, wanted
        self._limits = Limits(context.domain)
        self.asks_places = "all" if wanted.deletes else "owners"

    def answer(self, form: str, kind: str, texts: Sequence[str], place: str = "") -> List[Answer]:
        mask = self._wanted.all_of(kind)
        place, above = above_of(place)
        place, limit = self._limits.of(place)
        limit.whole.add(self._token)
        is_of_files = self._wanted.deletes and kind in rights.OF_FILES
        deletes = is_of_files and not limit.deleting & ~limit.mask(self._token)
        by_folder, why_not = self._by_folder(above) if deletes else ([], "")
        descriptors = explained(form, texts, self._context.domain)
        answers: List[Optional[Answer]] = [refused(one, kind, mask) for one in descriptors]
        checks = Checks(*answerable(form, texts, descriptors, kind), kind, asked_of(mask, kind), self._context.domain,
                        limit)
        asked = [(at, one) for at, one in enumerate(descriptors) if answers[at] is None and isinstance(one, Descriptor)]
        for at, descriptor in asked:
            checks.know(at, of_allowed_types(descriptor, mask, kind))
            checks.ask(at, self._token)
        checks.run()
        for at, descriptor in asked:
            own = mask
            if is_of_files and not (above.is_folder or is_folder(descriptor, kind)):
                own &= ~rights.DELETE_CHILD  # it gives nothing on a file
            got = kept_of(checks.got(at, self._token, own), self._wanted, kind)
            more = by_folder if not got.mask & rights.DELETE else []
            taken = checks.taken(at, self._token, own)
            answer = None if more and not got.all else self._why_unknown(got, descriptor, kind, taken)
            if not (answer or more or got.all):
                answer = without_owner(descriptor, own, kind, place)
            answer = answer or answer_of([*self._findings(got, checks, at, kind, own, descriptor, limit), *more])
            answers[at] = _without_folder(answer, why_not) if why_not and not got.mask & rights.DELETE else answer
        return complete(answers)

    def _by_folder(self, above: Above) -> Tuple[List[Finding], str]:
        """What lets the token delete an object: the right to delete what is in its folder. Or why that isn't known."""
        descriptor = explained(above.form, [above.text], self._context.domain)[0] if above.form else None
        if not isinstance(descriptor, Descriptor):
            return [], "its folder can't be read" if descriptor else above.reason
        checks = Checks(above.form, [above.text], "folder", asked_of(rights.DELETE_CHILD, "folder"),
                        self._context.domain)
        checks.ask(0, self._token)
        checks.run()
        right = checks.mask(0, self._token) & rights.DELETE_CHILD
        because = [one._replace(number=0, text=f"{f'ACE {one.number} ' * bool(one.number)}{one.text} of {above.name}")
                   for one in checks.because(0, self._token, right, descriptor.aces)]
        text = f"by its folder {above.name}: {rights.text(right, 'folder')}"
        return [Finding("can", "", "delete", text, mask=rights.DELETE, because=tuple(because))] if right else [], ""

    def _why_unknown(self, got: Got, descriptor: Descriptor, kind: str, taken: int) -> Optional[Answer]:
        """Why nothing that is found isn't nothing."""
        level = self._token.level
        if level is not None and kind in WITHOUT_MAPPING and level < _level_of(descriptor):
            return unknown(f"the token's level is below the object's, and what that forbids isn't known for a {kind}",
                           "ask without a level, and look at the object on its own system")
        if self._token.missing and not got.all and (taken or descriptor.dacl == "list"):
            reason, _, advice = self._token.missing.partition(": ")
            return unknown(reason, advice)
        return None

    def _findings(self, got: Got, checks: Checks, at: int, kind: str, mask: int, descriptor: Descriptor,
                  limit: Limit) -> Iterator[Finding]:
        missing, taken = mask & ~got.mask, checks.taken(at, self._token, mask)
        text = f"not: {rights.short_text(missing, kind)}" if missing else "all that was asked for"
        text += f"; the share {limit.name} takes away: {rights.short_text(taken, kind)}" if taken else ""
        said = limit.said(self._token, got.mask, self._context.names.named)
        text += f"; {said}" if said else ""
        if descriptor.dacl != "list" and got.mask:
            text += f"; the DACL is {descriptor.dacl}, so everybody gets everything"
        denied = checks.because(at, self._token, missing, descriptor.aces, "", False) + limit.because(taken, kind)
        for share in shares_of(got, kind, text, self._context.names, checks.mask(at, self._token), mask):
            because = checks.because(at, self._token, share.claimed, descriptor.aces, share.object_type) + denied
            yield Finding("can", "", share.words, share.text, mask=share.mask,
                          mark=mark_of(because, descriptor.aces, kind, share.mask), because=because)
        # The label that every object has without one of its own stops no object in particular.
        if not got.all and (taken or any(one.number for one in denied) or denied and _labels(descriptor)):
            yield Finding("stopped", "", ", ".join(dict.fromkeys(one.rights for one in denied)), "", False,
                          mark=mark_of(denied, descriptor.aces, kind), because=denied)
