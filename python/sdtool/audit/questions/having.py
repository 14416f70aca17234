"""The question who can do something with directory objects, such as dcsync: the abilities of windows/directory.toml."""
import functools
from typing import FrozenSet, Iterable, Iterator, List, Optional, Sequence, Tuple

from sdtool._windows import ABILITIES
from sdtool.audit.checks import Checks, as_owner, mark_of, trustee_token, why_unanswerable
from sdtool.audit.findings import Answer, Because, Finding, answer_of, complete, unknown, unknown_of
from sdtool.audit.library import ALLOWS, Descriptor, Refusal, Token, explained
from sdtool.audit.protocols import Context
from sdtool.audit.questions.who import WHO_RULES, Listing, without_trusted
from sdtool.audit.sources.places import Place, known_place
from sdtool.audit.windows import names as sids
from sdtool.audit.windows import rights
from sdtool.audit.windows.abilities import Abilities, Had, Where, is_own
from sdtool.audit.windows.classes import as_one_of, groups_of, here, of_any


class Having:
    """Who can do something with a directory object. Only what ACEs grant counts, and not that an owner could grant
    it."""

    asks_places = "all"
    rules = WHO_RULES

    def __init__(self, context: Context, wanted: Sequence[str], listing: Listing = Listing()) -> None:
        self._context, self._listing = context, listing
        # Without a schema, what its names alone tell may be any type without a known name.
        named = {one["name"] for one in ABILITIES if one["named"]}
        unnamed = ["unknown-type"] if named & set(wanted) else []
        self._wanted = frozenset(wanted)
        self._abilities = Abilities(frozenset([*wanted, *unnamed]), None, {})

    @staticmethod
    def names() -> FrozenSet[str]:
        """The abilities that can be asked for."""
        return frozenset(one["name"] for one in ABILITIES)

    def answer(self, form: str, kind: str, texts: Sequence[str], place: str = "") -> List[Answer]:
        descriptors = explained(form, texts, self._context.domain)
        if kind not in rights.DIRECTORY:
            # An attribute's descriptor grants its one right and nothing else.
            other = answer_of(()) if kind in rights.RULE_OF else \
                unknown(f"this means nothing for a {kind}", "name the kind with --type ds")
            return [unknown_of(one) if isinstance(one, Refusal) else other for one in descriptors]
        where = known_place(place, kind)
        checks = Checks(form, texts, kind, rights.EVERYTHING[kind], self._context.domain)
        answers: List[Optional[Answer]] = []
        asked = []
        for at, descriptor in enumerate(descriptors):
            answers.append(unknown_of(descriptor) if isinstance(descriptor, Refusal)
                           else why_unanswerable(descriptor, kind))
            if isinstance(descriptor, Descriptor) and answers[at] is None:
                asked.append((at, descriptor))
                checks.know(at, descriptor.deciding)
                for sid in _trustees(descriptor):
                    checks.ask(at, trustee_token(sid))
        checks.run()
        for at, descriptor in asked:
            found = self._findings(checks, at, descriptor, kind, where)
            answers[at] = checks.too_many(at) or without_trusted(found, self._listing)
        return complete(answers)

    def _findings(self, checks: Checks, at: int, descriptor: Descriptor, kind: str,
                  place: Place) -> Iterator[Tuple[str, Finding]]:
        groups = groups_of(descriptor, kind, place, self._abilities)
        for sid in _trustees(descriptor):
            of_place = functools.partial(self._of, sid, checks, at, descriptor, kind)
            found = of_any((group, of_place(as_one_of(group, place))) for group in groups)
            for one in found if groups else of_place(here(place)):
                yield sid, one._replace(mark=mark_of(one.because, descriptor.aces, kind, one.mask))

    def _of(self, sid: str, checks: Checks, at: int, descriptor: Descriptor, kind: str,
            where: Where) -> Iterator[Finding]:
        """What a trustee can do."""
        token = trustee_token(sid)
        own = [one for one in checks.types(at, token) if is_own(one, where.own)]
        gives = functools.partial(checks.gives, at, token, own)
        for had in self._abilities.had(sid, checks.got(at, token, rights.EVERYTHING[kind]), where, gives, gives):
            # Whoever has the rights of all types has what was asked for by name.
            if had.rule not in self._wanted and (not had.object_type or is_own(had.object_type, where.own)):
                continue
            of_type = self._context.names.object_type(had.object_type)
            bound = f", only for object type {of_type}" if had.object_type else ""
            because = self._because(checks, at, token, had, descriptor)
            yield Finding("who", self._context.names.named(sid), had.rule, had.says + bound, sid=sid, mask=had.mask,
                          because=because)

    @staticmethod
    def _because(checks: Checks, at: int, token: Token, had: Had, descriptor: Descriptor) -> Tuple[Because, ...]:
        """What gives an ability: one that needs several rights together has them by object type."""
        found = [one for object_type in had.types for one in checks.because(at, token, had.claimed, descriptor.aces,
                                                                            object_type)]
        return tuple(dict.fromkeys(found))


def _trustees(descriptor: Descriptor) -> Iterable[str]:
    """Whoever may have something: those that ACEs allow, or everybody where nothing is forbidden."""
    if descriptor.dacl != "list":
        return (sids.EVERYONE,)
    return dict.fromkeys(sid for sid in (as_owner(ace.sid, descriptor) for ace in descriptor.deciding
                                         if ace.kind in ALLOWS) if sid)
