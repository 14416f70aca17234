"""ACEs that Windows itself gives: those of windows/defaults.toml, and those of the classes of a schema."""
from typing import Dict, List, NamedTuple, Sequence, Tuple, Union

from sdtool._windows import DEFAULTS
from sdtool.audit.library import INHERIT_ONLY, INHERITED, Ace, mapped, mapped_below
from sdtool.audit.sources.places import Place
from sdtool.audit.windows import names as sids
from sdtool.audit.windows.rights import DIRECTORY


class Default(NamedTuple):
    kinds: Tuple[str, ...]
    classes: Tuple[str, ...]
    at: Tuple[str, ...]
    who: Union[str, int]  # a SID, the last number of a domain's, or the name of an account
    mask: int
    object_type: str      # a GUID, nothing, or "*" for any
    inherited_type: str
    below: bool           # children inherit it


ACCOUNTS = frozenset(row[3] for row in DEFAULTS if isinstance(row[3], str) and not row[3].startswith("S-1-"))


class Defaults:
    """Which ACEs are excused. accounts has the SIDs of accounts that have no fixed number, such as DnsAdmins, with
    their names."""

    def __init__(self, trust: sids.Trust, accounts: Dict[str, str], of_classes: Sequence[Default] = ()) -> None:
        self._trust, self._accounts = trust, accounts
        replaced = {name for row in of_classes for name in row.classes}
        self._rows: Dict[Union[str, int], List[Default]] = {}
        for row in [*map(Default._make, DEFAULTS), *of_classes]:
            # A class of the schema has the defaults that the schema says, and no others, but for those that children
            # inherit.
            left = (row if row in of_classes
                    else row._replace(classes=tuple(one for one in row.classes if one not in replaced)))
            if row.below or left.classes or left.at or not row.classes:
                self._rows.setdefault(row.who, []).append(row if row.below else left)

    def _rows_of(self, sid: str) -> List[Default]:
        rows = self._rows.get(sid, [])
        domain, number = sids.domain_of(sid)
        if domain and number in self._rows and self._trust.is_of(domain, number):
            rows = rows + self._rows[number]
        account = self._accounts.get(sid)
        return rows + self._rows.get(account, []) if account else rows

    def excuse(self, ace: Ace, kind: str, place: Place) -> bool:
        """Whether an ACE is one that Windows gives in this place."""
        return any(_fits(row, ace, kind) and _is_in(row, ace, kind, place) for row in self._rows_of(ace.sid))

    def classes(self, ace: Ace, kind: str) -> Tuple[str, ...]:
        """The classes of objects to which Windows gives an ACE."""
        return tuple(dict.fromkeys(name for row in self._rows_of(ace.sid) if _fits(row, ace, kind)
                                   for name in row.classes))


def _fits(row: Default, ace: Ace, kind: str) -> bool:
    """Whether an ACE is that of a default, in the right place."""
    if kind not in row.kinds or (mapped_below(ace, kind) if row.below else mapped(ace.mask, kind)) & ~row.mask:
        return False
    if row.object_type not in ("*", ace.object_type) or row.inherited_type not in ("", ace.inherited_type):
        return False
    if kind not in DIRECTORY:
        return row.below == bool(ace.flags & INHERIT_ONLY)
    return row.below or not ace.flags & INHERITED


def _is_in(row: Default, ace: Ace, kind: str, place: Place) -> bool:
    """Whether a default is one of an object in this place. An inherited ACE may be in any."""
    if kind not in DIRECTORY or ace.flags & INHERITED or not row.classes and not row.at:
        return True
    return bool(place.classes) and place.classes[-1] in row.classes or place.named in row.at
