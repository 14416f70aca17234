"""Findings of owners in groups: one for each owner and folder, and none where something above has told of the same
trustee."""
import collections
from typing import Counter, Dict, Iterator, List, NamedTuple, Optional, Tuple

from sdtool.audit.directory.trees import folder_key, folders_above, key_of
from sdtool.audit.findings import owner_key
from sdtool.audit.reports.group import Group, Key, common_of

_ALONE = "\0"
# The key of a folder and of an owner, and why its findings are accepted.
_Row = Tuple[str, str, str]
_At = Tuple[str, str]  # the key of an object or a folder, and of an owner


class _Told(NamedTuple):
    """An object that has a finding about a trustee: when it came, and the first one of its group."""

    order: int
    head: Group


def _owner(group: Group) -> Tuple[str, str]:
    assert group.finding is not None
    return group.finding.mark.key, group.finding.accepted


def _row_of(head: Group) -> _Row:
    """The group that an object begins. Without a folder it has nothing beside it."""
    return (folder_key(head.name, head.kind) or _ALONE + head.name, *_owner(head))


def _is_of_owner(head: Group) -> bool:
    return head.finding is not None and head.finding.mark.is_of_owner


def _joined(found: Group, group: Group, is_beside: bool) -> Group:
    """A group with the objects of another one."""
    beside = group.objects - group.below if is_beside else 0
    return found._replace(beside=found.beside + beside, below=found.below + group.objects - beside)


class Owners:
    """What belongs to owners that aren't trusted. Objects come in any order."""

    def __init__(self, most: int) -> None:
        self._most = most
        self._rows: Dict[_Row, Group] = {}
        self._first: Dict[_At, Group] = {}  # of each folder
        self._told: Dict[_At, _Told] = {}
        # what belongs to whom other findings are about, by their keys
        self._owned: Counter[Key] = collections.Counter()

    def add(self, group: Group) -> bool:
        """Takes a finding, or refuses it where there are too many."""
        return self._placed(group) is not None

    def tell(self, group: Group) -> None:
        """Takes a finding of another rule, by which a trustee can take over what is below an object too."""
        assert group.finding is not None
        self._tell((key_of(group.name, group.kind), owner_key(group.finding.sid)), _Told(group.order, group))

    def _placed(self, group: Group) -> Optional[Group]:
        """The first object of the group that a finding is counted in."""
        key, accepted = _owner(group)
        own = _row_of(group)
        above = self._above(own[0], key, accepted, group.kind)
        if above is not None and not _is_of_owner(above):
            self._owned[_key_of(above)] += group.objects
            return above
        row = _row_of(above) if above else own
        found = self._rows.get(row)
        if found is None and len(self._rows) >= self._most:
            return None
        self._rows[row] = _joined(found, group, row == own) if found else group
        if row == own:
            self._first.setdefault((own[0], key), group)
            self._tell((key_of(group.name, group.kind), key), _Told(group.order, found or group))
        return found or group

    def _tell(self, at: _At, told: _Told) -> None:
        if len(self._told) < self._most:
            self._told.setdefault(at, told)

    def _above(self, folder: str, key: str, accepted: Optional[str], kind: str,
               before: Optional[int] = None) -> Optional[Group]:
        """The first object of the group that the nearest object at or above a folder is in, of those that came before
        and are accepted for the same reason."""
        for place in folders_above(folder, kind):
            found = self._told.get((place, key))
            if found and (before is None or found.order <= before):
                return found.head if accepted is None or accepted == _owner(found.head)[1] else None
        return None

    def origin(self, name: str, kind: str, key: str, before: int) -> str:
        """The object that an object is counted with, of those that came before."""
        folder = folder_key(name, kind) or _ALONE + name
        found = self._above(folder, key, None, kind, before) or self._first.get((folder, key))
        return found.name if found and found.order <= before else name

    def merge(self, other: "Owners", start: int) -> Iterator[Group]:
        """Takes what another process has grouped, which comes behind so many, and gives what there is no place for."""
        heads: Dict[_Row, Group] = {}
        for row, group in other._rows.items():
            group = group._replace(order=start + group.order)
            head = self._placed(group)
            if head is None:
                yield group
            else:
                heads[row] = head
        for at, told in other._told.items():
            head = heads.get(_row_of(told.head)) if _is_of_owner(told.head) else None
            if head is not None:
                self._tell(at, _Told(start + told.order, head))
        self._owned.update(other._owned)

    def resolved(self) -> Tuple[List[Group], Counter[Key]]:
        """The groups, each with those that an object above tells, which may have come later; and how many objects
        belong to whom other findings are about, by the keys of these."""
        rows, owned = dict(self._rows), collections.Counter(self._owned)
        joined: Dict[_Row, Group] = {}
        for row in sorted(rows, key=lambda one: len(one[0])):  # what is above comes first
            head = self._above(row[0], row[1], row[2], rows[row].kind)
            if head is None:
                continue
            head = joined[row] = joined.get(_row_of(head), head) if _is_of_owner(head) else head
            group = rows.pop(row)
            if _is_of_owner(head):
                rows[_row_of(head)] = _joined(rows[_row_of(head)], group, False)
            else:
                owned[_key_of(head)] += group.objects
        return list(rows.values()), owned


def _key_of(head: Group) -> Key:
    assert head.finding is not None
    return (key_of(head.name, head.kind), *common_of(head.finding))
