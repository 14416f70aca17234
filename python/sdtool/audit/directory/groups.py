"""Who is in which group, and the names of SIDs, as files give them."""
import csv
import os
import re
from typing import Dict, Iterator, List, Mapping, NamedTuple, Sequence, Set, Tuple

from sdtool.audit import library
from sdtool.audit.live.directory import ENTRY
from sdtool.audit.sources import ldif, reading
from sdtool.audit.sources.opening import READ_FAULTS, OpeningFault, chunks, encoding_of, lines, streams, without_cr
from sdtool.audit.store import cache

_SID = re.compile(r"S-1-[0-9]+(?:-[0-9]+)*\Z", re.I)
_LDIF = re.compile(r"(version: [0-9]+|dn::? .*|#.*)", re.I)
_NAME_ATTRIBUTES = ("samaccountname", "cn", "name")


class Groups(NamedTuple):
    """Groups by SID with their direct members by SID, names by SID, and the names of groups that aren't whole."""

    members: Dict[str, Tuple[str, ...]]
    names: Dict[str, str]
    cut: Tuple[str, ...] = ()

    def of(self, sid: str) -> Set[str]:
        """The SIDs of all groups that a SID is in, also by way of other groups."""
        return _closure(sid, self.parents())

    def parents(self) -> Dict[str, List[str]]:
        parents: Dict[str, List[str]] = {}
        for group, members in self.members.items():
            for member in members:
                parents.setdefault(member, []).append(group)
        return parents


def _closure(sid: str, edges: Mapping[str, Sequence[str]]) -> Set[str]:
    """All that is reached from a SID, without itself."""
    found: Set[str] = set()
    waiting = [sid]
    while waiting:
        for following in edges.get(waiting.pop(), ()):
            if following not in found:
                found.add(following)
                waiting.append(following)
    found.discard(sid)
    return found


class Membership:
    """Groups with what is in them and what they are in, each worked out once."""

    def __init__(self, groups: Groups) -> None:
        self._members = groups.members
        self._parents = groups.parents()
        self._inside: Dict[str, Tuple[str, ...]] = {}
        self._around: Dict[str, Tuple[str, ...]] = {}

    def members(self, group: str) -> Tuple[str, ...]:
        """All members of a group, also by way of other groups, but no groups."""
        if group not in self._inside:
            inside = _closure(group, self._members)
            self._inside[group] = tuple(sorted(sid for sid in inside if sid not in self._members))
        return self._inside[group]

    def groups(self, sid: str) -> Tuple[str, ...]:
        if sid not in self._around:
            self._around[sid] = tuple(sorted(_closure(sid, self._parents)))
        return self._around[sid]


def text_lines(path: str) -> Iterator[str]:
    """The lines of a file, whatever its encoding."""
    try:
        for stream in streams(path, lambda count: None):
            yield from without_cr(lines(chunks(stream.raw, encoding_of(stream.head, None))))
    except READ_FAULTS as error:
        raise OpeningFault(f"{path}: {error}") from error


def entries(path: str) -> Iterator[ldif.Entry]:
    """The entries of an LDIF, or those that a directory gave a database."""
    if reading.is_database(path):
        return (ldif.entry_of(name, text) for name, text in cache.facts(path, ENTRY))
    return ldif.entries(text_lines(path))


def named_sid(entry: ldif.Entry) -> Tuple[str, str]:
    """The SID of an entry and its name. A foreign security principal is called as its SID is, which is no name."""
    binary = entry.attributes.get("objectsid")
    if not binary:
        return "", ""
    sid = library.sid_of_value(binary[0])
    named = next((entry.attributes[one][0] for one in _NAME_ATTRIBUTES if entry.attributes.get(one)), b"")
    name = named.decode("utf-8", "replace") or entry.name
    return sid, "" if name == sid else name


def _of_ldif(path: str) -> Groups:
    """Groups of a directory, by objectSid, member, memberOf and primaryGroupID."""
    sid_of: Dict[str, str] = {}
    names: Dict[str, str] = {}
    by_name: List[Tuple[str, str]] = []  # of group and member
    primary: List[Tuple[str, str]] = []
    cut: List[str] = []
    for entry in entries(path):
        if entry.reason:
            raise OpeningFault(f"{path}: line {entry.line}: {entry.reason}")
        own = entry.name.lower()
        if "member" in entry.cut:
            cut.append(entry.name)
        try:
            sid, name = named_sid(entry)
        except ValueError as error:
            raise OpeningFault(f"{path}: line {entry.line}: {error}") from error
        if sid:
            sid_of[own] = sid
            names.update({sid: name} if name else {})
            for number in entry.attributes.get("primarygroupid", []):
                primary.append((sid.rpartition("-")[0] + "-" + number.decode("ascii", "replace"), sid))
        by_name += [(own, spelled.decode("utf-8", "replace").lower()) for spelled in entry.attributes.get("member", [])]
        by_name += [(spelled.decode("utf-8", "replace").lower(), own)
                    for spelled in entry.attributes.get("memberof", [])]
    members: Dict[str, Set[str]] = {}
    for group, member in by_name:
        # A member of another domain, or one whose entry isn't in the file, has no SID here. Its group is shown all the
        # same.
        if group in sid_of and member in sid_of:
            members.setdefault(sid_of[group], set()).add(sid_of[member])
    for group, member in primary:
        members.setdefault(group, set()).add(member)
    return Groups({group: tuple(sorted(inside)) for group, inside in members.items()}, names, tuple(cut))


def _of_table(path: str, domain: str) -> Groups:
    """Lines of GROUP,MEMBER: SIDs, each with a name behind '=' if it has one. '#' begins a comment."""
    members: Dict[str, Set[str]] = {}
    names: Dict[str, str] = {}
    for number, line in enumerate(text_lines(path), 1):
        if not line.strip() or line.lstrip().startswith("#"):
            continue
        row: List[str] = next(csv.reader([line]), [])
        try:
            sids = []
            for cell in row:
                spelled, _, name = cell.partition("=")
                sid = library.sid_of_text(spelled, domain)
                sids.append(sid)
                if name.strip():
                    names[sid] = name.strip()
        except ValueError as error:
            raise OpeningFault(f"{path}: line {number}: {error}") from error
        if len(sids) < 2:
            raise OpeningFault(f"{path}: line {number}: a group and its members belong here")
        members.setdefault(sids[0], set()).update(sids[1:])
    return Groups({group: tuple(sorted(inside)) for group, inside in members.items()}, names)


def read_groups(path: str, domain: str) -> Groups:
    """Groups of an LDIF or of a file of groups."""
    if not os.path.isfile(path):
        raise OpeningFault(f"{path}: no such file")
    if reading.is_database(path):
        return _of_ldif(path)
    first = next((line for line in text_lines(path) if line.strip()), "")
    return _of_ldif(path) if _LDIF.fullmatch(first) and not _starts_table(path) else _of_table(path, domain)


def _starts_table(path: str) -> bool:
    """Whether the first line that is no comment begins with a SID."""
    first = next((line for line in text_lines(path) if line.strip() and not line.startswith("#")), "")
    return not re.match(r"(version:|dn:)", first, re.I)


def read_names(path: str, domain: str) -> Dict[str, str]:
    """Names of SIDs: lines of a SID and a name with a comma, a tab or '=' between them, any CSV with a column of SIDs
    and one of names, or an LDIF."""
    sample = [line for _, line in zip(range(50), text_lines(path))]
    first = next((line for line in sample if line.strip() and not line.startswith("#")), "")
    if re.match(r"(version:|dn:)", first, re.I):
        return _of_ldif(path).names
    names: Dict[str, str] = {}
    at: Sequence[int] = (0, 1)
    for number, line in enumerate(text_lines(path), 1):
        if not line.strip() or line.lstrip().startswith("#"):
            continue
        delimiter = next((mark for mark in ("\t", ";", ",", "=") if mark in line), ",")
        row = [cell.strip() for cell in next(csv.reader([line], delimiter=delimiter), [])]
        lower = [cell.lower() for cell in row]
        if "sid" in lower and not any(map(_SID.match, row)):
            named = next((lower.index(one) for one in ("samaccountname", "name", "account") if one in lower), None)
            if named is None:
                raise OpeningFault(f"{path}: line {number}: no column has names")
            at = (lower.index("sid"), named)
            continue
        if len(row) <= max(at) or not row[at[1]]:
            raise OpeningFault(f"{path}: line {number}: a SID and a name belong here")
        try:
            names[library.sid_of_text(row[at[0]], domain)] = row[at[1]]
        except ValueError as error:
            raise OpeningFault(f"{path}: line {number}: {error}") from error
    return names
