"""What the share lets through by which an object of a server is reached: a right that it takes away no file gives."""
from typing import Callable, Dict, List, NamedTuple, Set, Tuple

from sdtool.audit.findings import Because
from sdtool.audit.library import ALLOWS, Descriptor, Token, explained, granted_by_each, layouts
from sdtool.audit.masks import SYSTEM_SECURITY
from sdtool.audit.sources.places import Through, through_of
from sdtool.audit.windows import names as sids
from sdtool.audit.windows import rights

_KIND = "share"
# The rights that Samba lets through any share for who has a privilege.
_BY_PRIVILEGE = {"SeBackupPrivilege": 0x011200a9, "SeRestorePrivilege": 0x011f0116}
_ALL = -1


class _Passes(NamedTuple):
    """What passes for a token, and what passes only if its holder is somebody else too, by whom."""

    mask: int
    by: Tuple[Tuple[str, int], ...] = ()


class Limit:
    """The permissions of a share, of which a right needs one as well. A trustee may be a member of any trustee of the
    share that counts: what these are given may pass. Of a token that has all its groups this is known."""

    def __init__(self, through: Through, domain: str, counts: Callable[[str], bool]) -> None:
        self.name = through.name
        # Samba lets somebody delete by the folder's right only if the share gives that right too.
        self.deleting = rights.DELETE | (rights.DELETE_CHILD if through.samba else 0)
        self._is_samba = bool(through.samba)
        found = explained(through.form, [through.told], domain)[0] if through.form else None
        self._descriptor = found if isinstance(found, Descriptor) else None
        self._bytes = layouts(through.form, [through.told], domain) if self._descriptor else []
        self._counts = counts
        self._known: Dict[Token, _Passes] = {}
        self.whole: Set[Token] = set()  # tokens that have all their groups

    @property
    def named(self) -> Set[str]:
        """The SIDs that the share's permissions name."""
        return {ace.sid for ace in self._descriptor.deciding} if self._descriptor else set()

    def mask(self, token: Token) -> int:
        """The rights that may pass."""
        mask, by = self._passes(token)
        for _, more in by:
            mask |= more
        return mask

    def said(self, token: Token, mask: int, name: Callable[[str], str]) -> str:
        """What is to be said of rights that somebody gets."""
        if not self.name or not mask:
            return ""
        if self._descriptor is None:
            return f"the permissions of the share {self.name} aren't known, and may take it away"
        known = self._passes(token)
        by = [name(sid) for sid, more in known.by if more & mask & ~known.mask]
        return f"through the share {self.name} only as {' or '.join(by)}" if by else ""

    def because(self, mask: int, kind: str) -> Tuple[Because, ...]:
        """Why somebody doesn't get rights that the share takes away."""
        return (Because(0, f"share {self.name}", rights.short_text(mask, kind), False, mask),) if mask else ()

    def _passes(self, token: Token) -> _Passes:
        if self._descriptor is None:
            return _Passes(_ALL)
        found = self._known.get(token)
        if found is None:
            own = self._granted(token)
            by: List[Tuple[str, int]] = []
            for sid in self._others(token) if token not in self.whole else ():
                more = self._granted(token._replace(sids=tuple(dict.fromkeys(
                    [*token.sids, sid, *sids.meaning_of(sid).also])))) & ~own
                by += [(sid, more)] if more else []
            found = self._known[token] = _Passes(own, tuple(by))
        return found

    def _others(self, token: Token) -> List[str]:
        assert self._descriptor is not None
        allowed = dict.fromkeys(ace.sid for ace in self._descriptor.deciding if ace.kind in ALLOWS)
        return [sid for sid in allowed if sid not in token.sids and self._counts(sid)]

    def _granted(self, token: Token) -> int:
        mask = granted_by_each(self._bytes, token, _KIND, rights.FULL[_KIND])[0] | SYSTEM_SECURITY
        for name, more in _BY_PRIVILEGE.items() if self._is_samba else ():
            mask |= more if any(note.startswith(name) for note in token.notes) else 0
        return mask


def _everybody_counts(sid: str) -> bool:
    return True


class Limits:
    """The limits of the shares that objects are reached by. Who counts says which trustees of a share do."""

    def __init__(self, domain: str, counts: Callable[[str], bool] = _everybody_counts) -> None:
        self._domain, self._counts = domain, counts
        self._known: Dict[Through, Limit] = {}

    def of(self, place: str) -> Tuple[str, Limit]:
        """The text of a place without its share, and what that lets through."""
        place, through = through_of(place)
        if through not in self._known:
            self._known[through] = Limit(through, self._domain, self._counts)
        return place, self._known[through]
