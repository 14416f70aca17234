"""Findings by the place where their permission is set: the object that has the explicit ACE, and how many below inherit
it."""
import collections
from typing import Counter, Dict, List, Optional, Sequence, Tuple

from sdtool.audit.directory.trees import folder_key, folders_above, key_of
from sdtool.audit.findings import SEVERITIES, TRUSTED_RULE, UNKNOWN, Answer, Finding, Mark, Rule
from sdtool.audit.reports.group import ABOVE, BELOW, Group, Key, common_of
from sdtool.audit.reports.owners import Owners
from sdtool.audit.sources.items import Item
from sdtool.audit.windows.rights import TAKE_OVER, WRITE_DAC

_MOST_PLACES = 100_000   # whose names are kept; what objects below further ones inherit is grouped by its ACE alone
_MOST_REASONS = 1_000    # why objects are unknown
_RANKS = {severity: rank for rank, severity in enumerate(SEVERITIES)}
_PLAIN = ""  # the severity of findings that have none


class Groups:
    """The findings of a report in groups, as many of them as a report lists.

    Objects come in any order. What is inherited is counted by folder, and finds its place when all objects are known.
    """

    def __init__(self, most: Optional[int], is_each: bool = False, lists_all: bool = False) -> None:
        self._most, self._is_each, self._lists_all = most, is_each, lists_all
        self._next = 0
        self._rows: Dict[str, List[Group]] = {}      # those without objects below, by severity, as many as are listed
        self._places: Counter[str] = collections.Counter()  # of these, by severity
        self._heads: Dict[Tuple[str, str], Group] = {}  # whoever hands on an ACE, by its key and that of the ACE
        self._groups: Dict[Key, Group] = {}          # findings of these
        self._owners = Owners(_MOST_PLACES)
        self._below: Dict[Key, Group] = {}           # what is inherited, by folder
        self._unknown: Dict[Tuple[str, str], Group] = {}  # the first object for each reason
        self.left_out = 0
        self._last = ("", "")

    # What comes in.

    def add(self, item: Item, answer: Answer) -> None:
        """Takes an object that a report lists."""
        if answer.status == UNKNOWN:
            self._add_unknown(self._group(item, UNKNOWN, None, answer.reason, answer.help)._replace(place=answer.place))
            return
        owner = next((finding for finding in answer.findings if finding.mark.is_of_owner), None)
        for finding in answer.findings:
            if (finding.rule != TRUSTED_RULE or self._lists_all) and not self._is_told_of(owner, finding):
                self._add_finding(item, answer.status, finding)
        if not answer.findings:
            self._add_row(_PLAIN, self._group(item, answer.status, None, answer.reason))

    def _is_told_of(self, owner: Optional[Finding], finding: Finding) -> bool:
        """Whether the finding of an owner tells one of the same object. An owner that can change permissions can take
        ownership."""
        return (owner is not None and owner is not finding and not self._is_each
                and 0 < finding.mask == finding.mask & TAKE_OVER and
                (owner.sid, owner.severity, owner.accepted) == (finding.sid, finding.severity, finding.accepted))

    def _group(self, item: Item, status: str, finding: Optional[Finding], reason: str = "", advice: str = "") -> Group:
        self._next += 1
        return Group(self._next, item.name, item.source, item.line, status, item.kind, finding, reason, advice)

    def _add_row(self, severity: str, group: Group) -> None:
        rows = self._rows.setdefault(severity, [])
        if self._most is None or len(rows) < self._most:
            rows.append(group)
        else:
            self.left_out += 1

    def _add_unknown(self, group: Group) -> None:
        """Each unknown object has a row. The first one for a reason is kept however many rows there are."""
        key = (group.reason, group.help)
        if key in self._unknown or len(self._unknown) >= _MOST_REASONS:
            self._add_row(UNKNOWN, group)
        else:
            self._unknown[key] = group

    def _add_finding(self, item: Item, status: str, finding: Finding) -> None:
        mark = finding.mark
        if self._is_each or not mark.key or not (mark.comes_from_above or mark.is_handed_on):
            if self._most == 0:
                self._places[finding.severity] += not finding.accepted
            else:
                self._add_place(finding, self._group(item, status, finding))
        elif mark.is_of_owner:
            self._add_owned(self._group(item, status, finding))
        elif mark.is_inherited:
            key = (self._folder_key(item.name, item.kind), *common_of(finding))
            found = self._below.get(key)
            if found is not None:
                self._next += 1
                self._below[key] = found.plus(1)
            else:
                self._add_below(key, self._group(item, status, finding)._replace(below=1, origin=ABOVE))
        else:
            self._add_head(key_of(item.name, item.kind), self._group(item, status, finding))

    def _add_place(self, finding: Finding, group: Group) -> None:
        self._places[finding.severity] += not finding.accepted
        self._add_row(finding.severity, group)

    def _add_below(self, key: Key, group: Group) -> None:
        if key not in self._below and len(self._below) >= _MOST_PLACES:
            key = ("", *key[1:])
        found = self._below.get(key)
        self._below[key] = found.plus(group.below) if found else group

    def _add_head(self, name_key: str, group: Group) -> None:
        finding = group.finding
        assert finding is not None
        key = (name_key, *common_of(finding))
        if key in self._groups or len(self._groups) >= _MOST_PLACES:
            self._add_place(finding, group)  # two objects have one name, or there are too many
            return
        self._heads.setdefault((name_key, finding.mark.key), group)
        self._groups[key] = group
        if finding.severity and finding.mask & WRITE_DAC:
            self._owners.tell(group)

    def _add_owned(self, group: Group) -> None:
        if not self._owners.add(group):
            assert group.finding is not None
            self._add_place(group.finding, group)

    def _above(self, name_key: str, mark_key: str, kind: str, before: Optional[int] = None) -> Optional[Group]:
        """The nearest place at or above a name that hands on an ACE, of those that came before."""
        for place in folders_above(name_key, kind):
            found = self._heads.get((place, mark_key))
            if found and (before is None or found.order <= before):
                return found
        return None

    def _folder_key(self, name: str, kind: str) -> str:
        """The key of an object's folder. It is asked for twice in a row."""
        if name != self._last[0]:
            self._last = (name, folder_key(name, kind))
        return self._last[1]

    def origin(self, name: str, kind: str, mark: Mark, before: int) -> str:
        """The object that has set what an object was found to have, of those that came before; else the ACE."""
        if mark.is_of_owner:
            return self._owners.origin(name, kind, mark.key, before)
        found = self._above(self._folder_key(name, kind), mark.key, kind, before)
        return found.name if found else mark.key if mark.is_inherited else name

    @property
    def count(self) -> int:
        """How many findings have come."""
        return self._next

    def merge(self, other: "Groups") -> None:
        """Takes what another process has grouped, which comes behind all that is here."""
        start = self._next
        self._next += other._next

        def moved(group: Group) -> Group:
            return group._replace(order=start + group.order)

        # The first one for a reason may be none here.
        for group in sorted([*other._unknown.values(), *other._rows.pop(UNKNOWN, ())]):
            self._add_unknown(moved(group))
        for severity, rows in other._rows.items():
            for group in rows:
                self._add_row(severity, moved(group))
        self._places.update(other._places)
        self.left_out += other.left_out
        for group in self._owners.merge(other._owners, start):
            assert group.finding is not None
            self._add_place(group.finding, group)
        for (name_key, *_), group in other._groups.items():
            self._add_head(name_key, moved(group))
        for key, group in other._below.items():
            self._add_below(key, moved(group))

    # What comes out.

    def _resolved(self) -> List[Group]:
        """The groups of places, and of ACEs that no place in the source has set."""
        groups = dict(self._groups)
        loose: Dict[Tuple[str, ...], Group] = {}
        for (folder, *common), group in self._below.items():
            above = self._above(folder, common[0], group.kind)
            if above is None:
                found = loose.get(tuple(common))
                loose[tuple(common)] = found.plus(group.below) if found else group
                continue
            assert group.finding is not None
            key = (key_of(above.name, above.kind), *common_of(group.finding))
            # The place may have another finding by this ACE, or none.
            groups[key] = groups[key].plus(group.below) if key in groups else above._replace(
                finding=group.finding, status=group.status, below=group.below, origin=BELOW)
        owners, owned = self._owners.resolved()
        for key, count in owned.items():
            if key in groups:
                groups[key] = groups[key]._replace(owned=count)
        return [*groups.values(), *owners, *loose.values()]

    def end(self, rules: Sequence[Rule]) -> "Ended":
        return Ended(self, rules)


class Ended:
    """The groups of a whole report, in order."""

    def __init__(self, groups: Groups, rules: Sequence[Rule]) -> None:
        self._ranks = {rule.name: rank for rank, rule in enumerate(rules)}
        resolved = groups._resolved()
        rows = {severity: list(of_one) for severity, of_one in groups._rows.items()}
        self.unknown = [*groups._unknown.values(), *rows.pop(UNKNOWN, ())]
        self.plain = rows.pop(_PLAIN, [])
        self.places = groups._places + collections.Counter(
            group.finding.severity for group in resolved if group.finding is not None and not group.finding.accepted)
        self.left_out = groups.left_out
        graded = [group for of_one in rows.values() for group in of_one]
        for group in resolved:
            (self.plain if group.finding is not None and group.finding.severity == _PLAIN else graded).append(group)
        self.plain.sort(key=lambda group: group.order)
        self.graded = sorted(graded, key=self._place_of)

    def _place_of(self, group: Group) -> Tuple[int, ...]:
        """What is severe first, then by rule, then what concerns most objects. What is accepted is last."""
        finding = group.finding
        assert finding is not None
        return (bool(finding.accepted), _RANKS.get(finding.severity, len(_RANKS)),
                self._ranks.get(finding.rule, len(self._ranks)), -group.objects, group.order)
