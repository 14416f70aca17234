"""What is risky about an object: rules with a name, a severity and a reason. windows/ has the rules and what they go
by."""
import functools
from typing import Callable, Dict, FrozenSet, Iterable, Iterator, List, NamedTuple, Optional, Sequence, Set, Tuple

from sdtool._windows import RULES as _RULES
from sdtool._windows import ABILITIES, QUIET, RISKS_OF, RULE_OF, SIDS
from sdtool.audit.checks import Checks, as_owner, mark_of, shares_of, trustee_token, why_unanswerable
from sdtool.audit.findings import SEVERITIES as ORDER
from sdtool.audit.findings import (LESSER, NOTHING, Answer, Because, Finding, Mark, Rule, answer_of, complete,
                                   owner_key, unknown_of)
from sdtool.audit.library import (ALLOWS, CONTAINER_INHERIT, DENIES, INHERIT_ONLY, INHERITED, NO_DACL, NO_PROPAGATE,
                                  OBJECT_INHERIT, PROTECTED, Ace, Descriptor, Got, Refusal, ace_text, explained, mapped,
                                  mapped_below, spelled)
from sdtool.audit.masks import WITHOUT_MAPPING
from sdtool.audit.protocols import Context
from sdtool.audit.shares import Limit, Limits
from sdtool.audit.sources.places import Place, known_place
from sdtool.audit.windows import names as sids
from sdtool.audit.windows import rights
from sdtool.audit.windows.abilities import Abilities, Gives, Where, class_names, is_harmless, is_own
from sdtool.audit.windows.classes import Group, as_one_of, groups_of, here, of_any
from sdtool.audit.windows.defaults import Default, Defaults
from sdtool.audit.windows.kinds import is_folder

_OF_ABILITIES = {one["name"]: (one["severity"], one["says"]) for one in reversed(ABILITIES)}
RULES = (*(Rule(name, reason, severity) for name, severity, _, reason, *_ in _RULES),
         *(Rule(name, f"Somebody who isn't trusted can {_OF_ABILITIES[name][1]}.", _OF_ABILITIES[name][0])
           for name in dict.fromkeys(one["name"] for one in ABILITIES)))
RULE_NAMES = tuple(rule.name for rule in RULES)
SEVERITIES = {rule.name: rule.severity for rule in RULES}
_OF_DIRECTORY = {**SEVERITIES, **{row[0]: row[5] for row in _RULES}}
_OF_ADDING = {row[0]: row[6] for row in _RULES}
_ADDING = rights.risk_of("folder", ("adding",))
_OFF = frozenset(row[0] for row in _RULES if row[2])
DEFAULT_RULES = tuple(name for name in RULE_NAMES if name not in _OFF)


class RiskOptions(NamedTuple):
    """What the words of the command line say."""

    trust: sids.Trust = sids.Trust()
    owners: Tuple[str, ...] = ()
    rules: Tuple[str, ...] = DEFAULT_RULES
    accounts: Dict[str, str] = {}
    of_classes: Tuple[Default, ...] = ()
    named_types: Dict[str, str] = {}  # object types that have another GUID in each forest, by name
    # of objects: how many have inherited an ACE of a trustee and object type
    heirs: Dict[str, Dict[Tuple[str, str], int]] = {}
    severity: str = ORDER[-1]  # of the slightest findings


class _Wanted(NamedTuple):
    """Which rights of a trustee are a finding, and by which rule; which are one for reading, and which in what is made
    below."""

    rule: str
    mask: int
    read: int = 0
    below: int = 0


_NOTHING_WANTED = _Wanted("", 0)

# What grants rights, here or for an object type.
_Why = Callable[[int, str], Tuple[Because, ...]]


def _unsaid(mask: int, object_type: str) -> Tuple[Because, ...]:
    """What grants rights of a finding that is not told."""
    return ()


class _View(NamedTuple):
    """A descriptor that the library is asked about."""

    checks: Checks
    at: int
    is_denied: bool  # whether an ACE denies
    numbers: Optional[Sequence[int]] = None  # of its ACEs in the object's DACL, if it hasn't all of them

    def because(self, sid: str, aces: Sequence[Ace], mask: int, object_type: str = "") -> Tuple[Because, ...]:
        """What grants a trustee rights. aces are those of the object."""
        return self.checks.because(self.at, trustee_token(sid), mask, aces, object_type, True, self.numbers)

    def why(self, sid: str, aces: Sequence[Ace]) -> _Why:
        """What tells what grants a trustee rights, or nothing without the ACEs."""
        if not aces:
            return _unsaid
        return functools.partial(self.because, sid, aces)

    def ask(self, sid: str) -> None:
        self.checks.ask(self.at, trustee_token(sid))

    def got(self, sid: str, mask: int) -> Got:
        return self.checks.got(self.at, trustee_token(sid), mask)

    def gives(self, sid: str, own: Sequence[str]) -> Gives:
        """What answers whether a trustee has a right for object types, of an object whose class is one of own."""
        token = trustee_token(sid)
        of_class = [one for one in self.checks.types(self.at, token) if is_own(one, own)]
        return functools.partial(self.checks.gives, self.at, token, of_class)

    def keeps(self, sid: str, own: Sequence[str]) -> Gives:
        """The same about a right that an ACE gives: only one that denies takes it."""
        return self.gives(sid, own) if self.is_denied else _kept


def _kept(right: int, types: Sequence[str]) -> bool:
    return True


class _Views:
    """The descriptors of one call: as they are, or changed."""

    def __init__(self, form: str, texts: Sequence[str], kind: str, domain: str, limit: Limit) -> None:
        mask = rights.EVERYTHING[kind]
        self._plain = Checks(form, texts, kind, mask, domain, limit)
        self._texts: List[str] = []
        self._changed = Checks("sddl", self._texts, kind, mask, "", limit)

    def plain(self, at: int, aces: Sequence[Ace]) -> _View:
        """A descriptor with the ACEs that decide about it."""
        return self._view(self._plain, at, aces)

    def changed(self, text: str, numbers: Sequence[int], aces: Sequence[Ace]) -> _View:
        self._texts.append(text)
        return self._view(self._changed, len(self._texts) - 1, aces)._replace(numbers=numbers)

    @staticmethod
    def _view(checks: Checks, at: int, aces: Sequence[Ace]) -> _View:
        checks.know(at, aces)
        return _View(checks, at, any(ace.kind in DENIES for ace in aces))

    def run(self) -> None:
        self._plain.run()
        self._changed.run()


class _About(NamedTuple):
    """What answers about a trustee, of an object without what is excused and of all of it: whether rights are given,
    and why."""

    where: Where
    gives: Gives
    gives_all: Gives
    why: _Why
    why_all: _Why


def _about(sid: str, view: _View, whole: _View, where: Where, aces: Sequence[Ace]) -> _About:
    """aces are those of the object, for what is told."""
    return _About(where, view.keeps(sid, where.own), whole.gives(sid, where.own), view.why(sid, aces),
                  whole.why(sid, aces))


class _Case(NamedTuple):
    """What is asked about a descriptor: its trustees here, and below with the classes of the objects that inherit. It
    is one of several if an object's class isn't known: groups has those that it is about."""

    place: Place
    groups: Sequence[Group]
    whole: _View
    own: _View  # without what is excused
    children: Sequence[_View]  # each sort of what inherits
    here: Dict[str, _Wanted]
    below: Dict[str, List[Ace]]
    owner: str
    adding: FrozenSet[str] = frozenset()  # of a folder: who gets no right to change its files by what counts here
    given: Dict[str, _Wanted] = {}  # of those whose ACEs Windows gives to a kind

    def adds(self, sid: str, mask: int) -> bool:
        """Whether rights of a trustee that are a finding let it add to a folder, and no more."""
        return sid in self.adding and not mask & ~_ADDING


class Risks:
    """Which rules an object breaks."""

    rules = RULES
    asks_places = "all"

    def __init__(self, context: Context, options: RiskOptions) -> None:
        self._context, self._options = context, options
        self._on = frozenset(options.rules)
        # What Windows gives is told of what any usual rule would find, whichever others are asked for.
        self._usual = self._on.union(DEFAULT_RULES if _GIVEN in self._on else ())
        self._are_fewer = self._usual > self._on
        self._most_slight = ORDER.index(options.severity)
        self._defaults = Defaults(options.trust, options.accounts, options.of_classes)
        self._abilities = Abilities(self._on, options.trust, options.named_types)
        self._limits = Limits(context.domain, self._is_asked_about)
        self._known: Dict[Tuple[str, str], _Wanted] = {}

    def _is_asked_about(self, sid: str) -> bool:
        return not self._options.trust.has(sid)

    def answer(self, form: str, kind: str, texts: Sequence[str], place: str = "") -> List[Answer]:
        descriptors = explained(form, texts, self._context.domain)
        answers: List[Optional[Answer]] = [None] * len(texts)
        place, limit = self._limits.of(place)
        views = _Views(form, texts, kind, self._context.domain, limit)
        where = known_place(place, kind)
        cases: Dict[int, List[_Case]] = {}
        for at, descriptor in enumerate(descriptors):
            if isinstance(descriptor, Refusal):
                answers[at] = unknown_of(descriptor)
            elif kind == "authority" and any(ace.object_type for ace in descriptor.aces):
                # The object of the authority in the directory.
                answers[at] = self.answer(form, "ds", [texts[at]], Place(("pKIEnrollmentService",)).text())[0]
            else:
                answers[at] = why_unanswerable(descriptor, kind)
                if answers[at] is None:
                    cases[at] = [self._case(views, at, descriptor, kind, one, groups)
                                 for one, groups in self._places(descriptor, kind, where)]
        views.run()
        for at, of_object in cases.items():
            descriptor = descriptors[at]
            assert isinstance(descriptor, Descriptor)
            answers[at] = next(filter(None, map(_too_many, of_object)), None) or \
                self._answer(self._through(limit, self._found(of_object, descriptor, kind), kind), descriptor, kind)
        return complete(answers)

    def _places(self, descriptor: Descriptor, kind: str, place: Place) -> Iterable[Tuple[Place, Sequence[Group]]]:
        """The place of an object, or those that it may have if its class isn't known: with the ACEs that are excused in
        some classes alone, and these."""
        if kind != "ds" or place.classes or descriptor.dacl != "list":
            return [(place, [])]
        excused = {number: self._defaults.classes(ace, kind) for number, ace in enumerate(descriptor.aces, 1)
                   if ace.kind in ALLOWS and not self._defaults.excuse(ace, kind, place)}
        found: Dict[Tuple[int, ...], List[Group]] = {}
        for group in groups_of(descriptor, kind, place, self._abilities, [*filter(None, excused.values())]):
            numbers = tuple(number for number, classes in excused.items() if not set(group[:1]).isdisjoint(classes))
            found.setdefault(numbers, []).append(group)
        return [(place._replace(handed_on=place.handed_on + numbers), listed) for numbers, listed in found.items()]

    def _found(self, cases: Sequence[_Case], descriptor: Descriptor, kind: str) -> Iterable[Finding]:
        if not cases[0].groups:
            return self._findings(cases[0], descriptor, kind, here(cases[0].place))
        return of_any((group, self._findings(case, descriptor, kind, as_one_of(group, case.place)))
                      for case in cases for group in case.groups)

    def _through(self, limit: Limit, findings: Iterable[Finding], kind: str) -> Iterator[Finding]:
        """Findings with what is said of the share. Without a DACL its own permissions alone say who gets what."""
        for one in findings:
            token = trustee_token(one.sid)
            if one.rule in _WITHOUT_DACL and limit.name:
                mask = rights.FULL[kind] & limit.mask(token)
                words = rights.short_text(mask, kind)
                one = one._replace(rights=words, mask=mask, because=(Because(0, NO_DACL, words),))
                if not mask:
                    continue
            said = limit.said(token, one.mask, self._context.names.named) if one.sid else ""
            yield one._replace(text=_joined(one.text, said)) if said else one

    def _answer(self, findings: Iterable[Finding], descriptor: Descriptor, kind: str) -> Answer:
        """The answer of findings, each with its ACEs. Those that are too slight are left out."""
        found = answer_of(findings)
        if not found.findings:
            return found
        kept = [one for one in found.findings if ORDER.index(one.severity) <= self._most_slight]
        answer = answer_of(one._replace(mark=_mark(one, descriptor, kind)) for one in kept)
        return (answer._replace(status=LESSER) if answer.status == NOTHING and len(kept) < len(found.findings)
                else answer)

    # What is asked.

    def _wanted(self, sid: str, kind: str) -> _Wanted:
        found = self._known.get((sid, kind))
        if found is None:
            if len(self._known) > 50_000:
                self._known.clear()
            found = self._known[sid, kind] = self._wanted_of(sid, kind, self._on)
        return found

    def _wanted_of(self, sid: str, kind: str, rules: FrozenSet[str]) -> _Wanted:
        """What of a trustee's rights is a finding by some rules."""
        if self._options.trust.has(sid):
            return _NOTHING_WANTED
        who = sids.everybody_class(sid)
        rule = rights.RULE_OF.get(kind, "")
        if rule:
            is_wanted = rule in rules and (who or not _is_quiet(sid, kind))
            return _Wanted(rule, rights.FULL[kind]) if is_wanted else _NOTHING_WANTED
        read = rights.WORDS["read"][kind] if who and "readable" in rules else 0
        risks = tuple(risk for risk in RISKS_OF.get(who, ()) if risk != "anonymous" or sid == sids.ANONYMOUS)
        changing = rights.risk_of(kind, risks)
        below = changing if "children-change" in rules else 0
        if who and RULE_OF[who] in rules:
            return _Wanted(RULE_OF[who], changing, read, below)
        if "takeover" not in rules or not who and _is_quiet(sid, kind):
            return _Wanted("", 0, read, below)
        return _Wanted("takeover", rights.risk_of(kind, ("takeover",)), read, below)

    def _concerns(self, ace: Ace, sid: str, wanted: _Wanted, kind: str) -> bool:
        """Whether an ACE may give a trustee what is a finding."""
        if kind in rights.DIRECTORY:
            if self._abilities.concern(ace, sid):
                return True
            if is_harmless(ace):
                return False
        mask = mapped_below(ace, kind) if ace.flags & rights.inherits(kind) else 0
        return bool((mask | mapped(ace.mask, kind) if ace.decides else mask) & (wanted.mask | wanted.read)
                    or mask & wanted.below)

    def _case(self, views: _Views, at: int, descriptor: Descriptor, kind: str, place: Place,
              groups: Sequence[Group]) -> _Case:
        whole = views.plain(at, descriptor.deciding)
        asked: Dict[str, _Wanted] = {}
        below: Dict[str, List[Ace]] = {}
        if descriptor.dacl != "list":
            return _Case(place, groups, whole, whole, (), asked, below, "")
        is_directory, inheriting = kind in rights.DIRECTORY, rights.inherits(kind)
        # What an ACE that denies takes here, children may get all the same; and a generic right may mean more for them.
        is_denied = any(ace.kind in DENIES for ace in descriptor.aces)
        kept: List[int] = []
        given: Dict[str, _Wanted] = {}
        are_fewer = self._are_fewer and not is_directory
        filing: Set[str] = set()
        for number, ace in enumerate(descriptor.aces, 1):
            if ace.kind in ALLOWS:
                sid = as_owner(ace.sid, descriptor)
                wanted = self._wanted(sid, kind) if sid else _NOTHING_WANTED
                usual = self._wanted_of(sid, kind, self._usual) if sid and are_fewer else wanted
                is_asked = bool(sid) and self._concerns(ace, sid, wanted, kind)
                if is_asked or sid and are_fewer and self._concerns(ace, sid, usual, kind):
                    is_told = number in place.handed_on and not (
                        place.classes and self._abilities.needs_class(ace, place.classes))
                    if is_told or sid in place.makers or self._defaults.excuse(ace, kind, place):
                        given.update({sid: usual} if ace.decides and not is_directory else {})
                        continue
                if is_asked:
                    if ace.decides:
                        asked[sid] = wanted
                        if ace.flags & OBJECT_INHERIT and mapped(ace.mask, kind) & wanted.mask:
                            filing.add(sid)
                    has_more = (is_denied or ace.flags & INHERIT_ONLY
                                or mapped_below(ace, kind) & ~mapped(ace.mask, kind))
                    if ace.flags & inheriting and (is_directory or has_more and sids.everybody_class(ace.sid)):
                        below.setdefault(sid, []).append(ace)
            kept.append(number)
        adding = frozenset(asked.keys() - filing if is_folder(descriptor, kind) else ())
        owner = self._asked_owner(descriptor, kind, place)
        case = _Case(place, groups, whole, whole, (), asked, below, owner, adding, given)
        if given:  # masks of a kind that the library doesn't map are replaced
            case = case._replace(whole=self._view(views, descriptor, kind, range(1, len(descriptor.aces) + 1)))
        for sid in given:
            case.whole.ask(sid)
        has_questions = asked or below or case.owner or given and are_fewer
        return self._asked(views, descriptor, kind, case, kept) if has_questions else case

    @staticmethod
    def _view(views: _Views, descriptor: Descriptor, kind: str, numbers: Sequence[int]) -> _View:
        """What is left of a descriptor, with masks as a check replaces them."""
        aces = [descriptor.aces[number - 1] for number in numbers]
        texts = [ace_text(ace, ace.flags, mapped(ace.mask, kind)) for ace in aces]
        return views.changed(spelled(descriptor, texts), numbers, [ace for ace in aces if ace.decides])

    def _asked(self, views: _Views, descriptor: Descriptor, kind: str, case: _Case, kept: Sequence[int]) -> _Case:
        """Asks the library what a case needs. Of the ACEs those count that are kept, by their numbers."""
        own = case.whole
        children: List[_View] = []
        if len(kept) < len(descriptor.aces) or kind in WITHOUT_MAPPING:
            own = self._view(views, descriptor, kind, kept)
        for sid in (*case.here, *case.below, *(case.given if self._are_fewer else ()), *filter(None, (case.owner,))):
            own.ask(sid)
        if case.below:
            handed_on = [number for number in kept if _is_handed_on(descriptor.aces[number - 1], kind)]
            for numbers in _sorts(descriptor, handed_on, kind, [ace for aces in case.below.values() for ace in aces]):
                inherited = [descriptor.aces[number - 1] for number in numbers]
                children.append(views.changed(_child_text(descriptor, inherited, kind), numbers, inherited))
                for sid in case.below:
                    children[-1].ask(sid)
        return case._replace(own=own, children=children)

    def _asked_owner(self, descriptor: Descriptor, kind: str, place: Place) -> str:
        """The owner, if it isn't trusted."""
        owner = descriptor.owner
        if "foreign-owner" not in self._on or kind in rights.RULE_OF or not owner:
            return ""
        if owner in (*self._options.owners, *place.makers) or self._options.trust.has(owner):
            return ""
        if sids.everybody_class(owner):
            return owner
        return "" if rights.is_owner_usual(kind) or _is_quiet(owner, kind) else owner

    # What is found.

    def _findings(self, case: _Case, descriptor: Descriptor, kind: str, where: Where) -> Iterator[Finding]:
        # Each right is found once: by the rule for the DACL as a whole, for the owner, for a wider group, or for those
        # left.
        if descriptor.dacl != "list":
            everything = rights.short_text(rights.FULL[kind], kind)
            yield from self._of(_WITHOUT_DACL[descriptor.dacl != "absent"], sids.EVERYONE, everything,
                                because=(Because(0, NO_DACL, everything),))
        else:
            if not descriptor.aces:
                yield from self._of("empty-dacl", "", "")
            of_owner = case.own.got(case.owner, rights.WRITE_DAC).mask if case.owner else 0
            if of_owner:
                because = case.own.because(case.owner, descriptor.aces, of_owner)
                yield from self._of(_OWNER, case.owner, rights.text(of_owner, kind), "", of_owner, because,
                                    severity_of(_OWNER, kind, case.owner))
            # Whoever may only add to a folder tells nothing of its files.
            telling = {sid for sid, wanted in case.here.items()
                       if not (case.adding and case.adds(sid, case.own.got(sid, wanted.mask).mask))}
            # Wider groups come first.
            for sid, wanted in sorted(case.here.items(),
                                      key=lambda one: RULE_NAMES.index(one[1].rule) if one[1].rule else 0):
                if sid == descriptor.owner and rights.is_owner_usual(kind) and not sids.everybody_class(sid):
                    continue
                about = _about(sid, case.own, case.whole, where, descriptor.aces)
                among = case.here if sid in case.adding else telling
                got = self._beyond(case.own, sid, among, case.whole, kind, where)
                own = _without(got, Got(of_owner if sid == case.owner else 0, ()))
                is_adding = case.adds(sid, own.mask & wanted.mask)
                yield from self._of_got(sid, wanted, own, kind, case.place, about, is_adding)
            yield from self._of_below(case, descriptor.aces, kind, where)
            for sid, wanted in case.given.items():
                is_known = sid in case.here or self._are_fewer
                known = case.own.got(sid, wanted.mask) if is_known else Got(0, ())
                got = _without(case.whole.got(sid, wanted.mask), known)
                yield from self._of_mask(_GIVEN, sid, got, kind, "", case.whole.why(sid, descriptor.aces))
            yield from self._of_list(descriptor)
        if self._context.names.given:
            yield from self._of_unknown_sids(descriptor)

    def _beyond(self, view: _View, sid: str, among: Iterable[str], whole: _View, kind: str, where: Where,
                is_below: bool = False) -> Got:
        """What a trustee gets beyond what is found of wider groups."""
        got = view.got(sid, rights.EVERYTHING[kind])
        for group in _wider(sid, among):
            got = _without(got, self._told(view, group, whole, kind, where, is_below))
        return got

    def _told(self, view: _View, sid: str, whole: _View, kind: str, where: Where, is_below: bool) -> Got:
        """What the findings about a wider group tell of its rights."""
        wanted, got = self._wanted(sid, kind), view.got(sid, rights.EVERYTHING[kind])
        if kind not in rights.DIRECTORY and is_below:
            return _only(got, wanted.below)
        told = _only(got, wanted.mask | wanted.read)
        if kind not in rights.DIRECTORY or _is_of_everybody(wanted):
            return told
        masks = {"": told.mask, **dict(told.by_type)}
        about = _about(sid, view, whole, where, ())
        for one in self._abilities.had(sid, got, where, about.gives, about.gives_all):
            for object_type in one.types:
                masks[object_type] = masks.get(object_type, 0) | one.mask
        return Got(masks.pop(""), tuple(masks.items()))

    def _of_got(self, sid: str, wanted: _Wanted, got: Got, kind: str, place: Place, about: _About,
                is_adding: bool = False) -> Iterator[Finding]:
        yield from self._of_mask("readable", sid, _only(got, wanted.read), kind, "", about.why, got.mask, wanted.read)
        if kind in rights.DIRECTORY:
            yield from self._of_directory(sid, wanted, got, kind, place, "", about)
        else:
            own = _only(got, wanted.mask)
            yield from self._of_mask(wanted.rule, sid, own, kind, "", about.why, got.mask, wanted.mask, is_adding)

    def _of_directory(self, sid: str, wanted: _Wanted, got: Got, kind: str, place: Place, below: str,
                      about: _About) -> Iterator[Finding]:
        where = about.where
        over = [(one, mask) for one, mask in (("", got.mask), *got.by_type)
                if mask & wanted.mask & rights.TAKE_OVER and (not one or is_own(one, where.own))]
        for one, mask in over[:1]:
            # Who can change permissions or the owner has every other right too.
            said = _joined(below, self._heirs(place, sid, one))
            changing = mask & rights.WORDS["change"][kind]
            all_got = Got(0, ((one, changing),)) if one else Got(changing, ())
            yield from self._of_mask(wanted.rule, sid, all_got, kind, said, about.why)
            return
        all_had = self._abilities.had(sid, got, where, about.gives, about.gives_all, _is_of_everybody(wanted))
        for had in all_had:
            of_type = self._context.names.object_type(had.object_type)
            bound = f", only for object type {of_type}" if had.object_type else ""
            said = _joined(had.says + bound, below, self._heirs(place, sid, had.object_type))
            of_types = about.why if had.types == (had.object_type,) else about.why_all
            because = tuple(dict.fromkeys(found for one in had.types for found in of_types(had.claimed, one)))
            yield from self._of(had.rule, sid, rights.short_text(had.mask, kind), said, had.mask, because, had.severity,
                                had.object_type)
        if _is_of_everybody(wanted):
            said = _joined(below, self._heirs(place, sid, ""))
            rest = self._abilities.rest(got, all_had, where)
            yield from self._of_mask(wanted.rule, sid, _only(rest, wanted.mask), kind, said, about.why)

    def _heirs(self, place: Place, sid: str, object_type: str) -> str:
        """How many objects of the source have inherited what is found here."""
        count = self._options.heirs.get(place.heirs, {}).get((sid, object_type), 0) if place.heirs else 0
        return f"{count} objects below inherit it" if count else ""

    def _of_below(self, case: _Case, aces: Sequence[Ace], kind: str, where: Where) -> Iterator[Finding]:
        """What is granted in what is made in an object, and not here."""
        if not case.children:
            return
        place, below = case.place, f"in {rights.child_of(kind)}"
        for sid, listed in case.below.items():
            classes = class_names(ace.inherited_type for ace in listed)
            wanted = self._wanted(sid, kind)
            had = case.own.got(sid, rights.EVERYTHING[kind])
            of_object = _about(sid, case.own, case.whole, where, ())
            told = {(one.rule, one.rights, one.object_type)
                    for one in self._of_got(sid, wanted, had, kind, place, of_object)} \
                if kind in rights.DIRECTORY else set()
            known: Set[Tuple[str, str, str]] = set()
            for child in case.children:
                about = _about(sid, child, child, Where(classes, classes, False), aces)
                got = self._beyond(child, sid, case.below, child, kind, about.where, True)
                if kind not in rights.DIRECTORY:
                    more = _without(got, had)
                    had = Got(had.mask | more.mask, ())
                    own = _only(more, wanted.below)
                    yield from self._of_mask("children-change", sid, own, kind, below, about.why, more.mask,
                                             wanted.below)
                    continue
                for one in self._of_directory(sid, wanted, got, kind, place, below, about):
                    is_new = (one.rule, one.rights, one.object_type) not in told
                    if is_new and (one.rule, one.rights, one.text) not in known:
                        known.add((one.rule, one.rights, one.text))
                        yield one

    def _of_list(self, descriptor: Descriptor) -> Iterable[Finding]:
        reason = _disorder(descriptor)
        if reason:
            yield from self._of("order", "", "", reason)
        if descriptor.control & PROTECTED:
            yield from self._of("inheritance-cut", "", "")

    def _of_unknown_sids(self, descriptor: Descriptor) -> Iterable[Finding]:
        places: Dict[str, List[str]] = {}
        for sid, place in ([(descriptor.owner, "owner"), (descriptor.group, "group")]
                           + [(ace.sid, "DACL") for ace in descriptor.aces]
                           + [(ace.sid, "SACL") for ace in descriptor.sacl_aces if ace.kind != "ML"]):
            if sid and not self._context.names.knows(sid) and place not in places.setdefault(sid, []):
                places[sid].append(place)
        for sid, found in places.items():
            yield from self._of("unknown-sid", sid, "", f"in {', '.join(found)}")

    def _of_mask(self, rule: str, sid: str, got: Got, kind: str, text: str, why: _Why, had: int = 0,
                 asked: int = 0, is_adding: bool = False) -> Iterator[Finding]:
        for share in shares_of(got, kind, text, self._context.names, had, asked) if rule in self._on else ():
            severity = _OF_ADDING[rule] if is_adding else severity_of(rule, kind, sid)
            # A finding that is too slight is left out later.
            because = why(share.claimed, share.object_type) if ORDER.index(severity) <= self._most_slight else ()
            yield from self._of(rule, sid, share.words, share.text, share.mask, because, severity, share.object_type)

    def _of(self, rule: str, sid: str, words: str, text: str = "", mask: int = 0, because: Tuple[Because, ...] = (),
            severity: str = "", object_type: str = "") -> Iterator[Finding]:
        severity = severity or SEVERITIES[rule]
        if rule in self._on:
            named = self._context.names.named(sid) if sid else ""
            yield Finding(rule, named, words, text, severity != "note", "", severity, sid, mask, because=because,
                          object_type=object_type)


_OWNER, _GIVEN = "foreign-owner", "given-by-windows"
_WITHOUT_DACL = ("no-dacl", "null-dacl")


def severity_of(rule: str, kind: str, sid: str) -> str:
    """How grave what a rule finds is. An owner can change permissions, which is as grave as having that right."""
    found = _OF_DIRECTORY[rule] if kind in rights.DIRECTORY else SEVERITIES[rule]
    who = sids.everybody_class(sid) if rule == _OWNER else ""
    return min(found, severity_of(RULE_OF[who], kind, sid), key=ORDER.index) if who else found


def _too_many(case: _Case) -> Optional[Answer]:
    """Why nothing is said about a descriptor, if there is too much to ask."""
    return next(filter(None, (view.checks.too_many(view.at) for view in (case.own, *case.children))), None)


def _is_of_everybody(wanted: _Wanted) -> bool:
    """Whether rights are a finding of a rule for everybody."""
    return wanted.rule not in ("", "takeover")


def _mark(finding: Finding, descriptor: Descriptor, kind: str) -> Mark:
    """The ACEs of a finding. What is below an object usually has the same owner."""
    mark = mark_of(finding.because, descriptor.aces, kind, finding.mask)
    return mark._replace(key=owner_key(finding.sid)) if finding.rule == _OWNER else mark


def _is_quiet(sid: str, kind: str) -> bool:
    """Whether nobody in particular has a SID, or an account of the system that may have any right to this kind."""
    who = sids.meaning_of(sid).who
    if who in QUIET or sid == sids.PRINCIPAL_SELF and kind not in rights.DIRECTORY:
        return True
    # The accounts that services share aren't trusted where a right runs code as another account.
    return who == sids.SERVICE and not (rights.runs_code(kind) and sid in SIDS)


def _joined(*texts: str) -> str:
    return "; ".join(text for text in texts if text)


def _wider(sid: str, among: Iterable[str]) -> List[str]:
    """What a token of a SID has besides, of those whose rights are told by themselves."""
    return [one for one in sids.meaning_of(sid).also if one in among]


def _is_handed_on(ace: Ace, kind: str) -> bool:
    """Whether a child inherits an ACE that decides about it."""
    return bool(ace.flags & rights.inherits(kind)) and ace.kind in ALLOWS | DENIES


def _sorts(descriptor: Descriptor, numbers: Sequence[int], kind: str, listed: Sequence[Ace]) -> Iterable[Sequence[int]]:
    """The ACEs that files inherit, and those that containers do. An ACE that denies for one class of children, or one
    level, stops what is for others too only there, so it is left out."""
    aces = [descriptor.aces[number - 1] for number in numbers]
    classes, levels = {ace.inherited_type for ace in listed}, {ace.flags & NO_PROPAGATE for ace in listed}

    def counts(ace: Ace) -> bool:
        return ace.kind in ALLOWS or (not ace.inherited_type or classes <= {ace.inherited_type}) and \
            (not ace.flags & NO_PROPAGATE or levels <= {NO_PROPAGATE})

    return dict.fromkeys(tuple(number for number, ace in zip(numbers, aces) if ace.flags & flag and counts(ace))
                         for flag in (OBJECT_INHERIT, CONTAINER_INHERIT) if flag & rights.inherits(kind))


def _child_text(descriptor: Descriptor, aces: Iterable[Ace], kind: str) -> str:
    """A descriptor with the ACEs that a child inherits, as ACEs for the child itself. It has no owner."""
    return spelled(descriptor._replace(owner="", sacl_aces=()),
                   [ace_text(ace, 0, mapped_below(ace, kind)) for ace in aces])


def _only(got: Got, mask: int) -> Got:
    return Got(got.mask & mask, tuple((one, more & mask) for one, more in got.by_type if more & mask))


def _without(got: Got, less: Got) -> Got:
    """What is got beyond what somebody else gets as well."""
    of_less = dict(less.by_type)
    mask = got.mask & ~less.mask
    by_type = [(one, more & ~less.mask & ~of_less.get(one, 0)) for one, more in got.by_type]
    return Got(mask, tuple((one, more) for one, more in by_type if more))


def _disorder(descriptor: Descriptor) -> str:
    """Why the ACEs are not in canonical order: own ones before inherited ones, and among the own ones denies first."""
    inherited = allows = 0
    for number, ace in enumerate(descriptor.aces, 1):
        if ace.kind not in ALLOWS | DENIES:
            continue
        if ace.flags & INHERITED:
            inherited = inherited or number
        elif inherited:
            return f"ACE {number} is the object's own, and stands behind ACE {inherited}, which is inherited"
        elif ace.kind in ALLOWS:
            allows = allows or number
        elif allows:
            return f"ACE {number} denies, and stands behind ACE {allows}, which allows"
    return ""
