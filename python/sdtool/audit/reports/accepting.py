"""Findings that somebody has accepted, in a file that is kept under version control."""
import datetime
from typing import Any, Dict, List, NamedTuple, Optional, Sequence, Set

from sdtool.audit.findings import ACCEPTED, FOUND, Answer, Finding
from sdtool.audit.sources.opening import OpeningFault

_KEYS = {"rule", "object", "reason", "trustee", "rights", "until"}


class Entry(NamedTuple):
    """An accepted finding. trustee and rights are None where any is accepted."""

    rule: str
    name: str
    reason: str
    trustee: Optional[str]
    rights: Optional[str]
    until: Optional[datetime.date]

    def covers(self, finding: Finding) -> bool:
        return (self.rule == finding.rule and self.trustee in (None, finding.trustee, finding.sid)
                and self.rights in (None, finding.rights))


def _entry(path: str, number: int, given: Any, rules: Sequence[str]) -> Entry:
    where = f"{path}: entry {number}"
    if not isinstance(given, dict) or set(given) - _KEYS:
        raise OpeningFault(f"{where}: its keys are {', '.join(sorted(_KEYS))}")
    for key in ("rule", "object", "reason"):
        if not isinstance(given.get(key), str) or not given[key].strip():
            raise OpeningFault(f"{where}: {key} is missing")
    if given["rule"] not in rules:
        raise OpeningFault(f"{where}: {given['rule']!r} is none of the rules {', '.join(rules)}")
    for key in ("trustee", "rights"):
        if key in given and not isinstance(given[key], str):
            raise OpeningFault(f"{where}: {key} is a text")
    until = given.get("until")
    if until is not None and type(until) is not datetime.date:
        raise OpeningFault(f"{where}: until is a date without a time, such as 2027-01-31")
    return Entry(given["rule"], given["object"], given["reason"], given.get("trustee"), given.get("rights"), until)


def is_called(name: str, wanted: str) -> bool:
    """Whether a name is the wanted one, in which * stands for any text."""
    first, *others = wanted.split("*")
    if not others:
        return name == wanted
    last = others.pop()
    at, end = len(first), len(name) - len(last)
    if at > end or not name.startswith(first) or not name.endswith(last):
        return False
    for part in others:
        found = name.find(part, at, end)
        if found < 0:
            return False
        at = found + len(part)
    return True


class Accepted:
    """The entries of a file, and which of them have covered a finding."""

    def __init__(self, entries: Sequence[Entry] = (), today: Optional[datetime.date] = None) -> None:
        today = today or datetime.date.today()
        self._exact: Dict[str, List[Entry]] = {}
        self._patterns: List[Entry] = []
        self.used: Set[Entry] = set()
        self.entries = entries
        self.expired = [entry for entry in entries if entry.until is not None and entry.until < today]
        expired = set(self.expired)
        for entry in entries:
            if entry in expired:
                continue
            if "*" in entry.name:
                self._patterns.append(entry)
            else:
                self._exact.setdefault(entry.name, []).append(entry)

    def _reason(self, name: str, finding: Finding) -> str:
        covering = [entry for entry in self._exact.get(name, ()) if entry.covers(finding)]
        covering += [entry for entry in self._patterns if entry.covers(finding) and is_called(name, entry.name)]
        self.used.update(covering)
        return covering[0].reason if covering else ""

    def apply(self, name: str, answer: Answer) -> Answer:
        """The answer, with what is accepted marked. What is unknown can't be accepted."""
        if answer.status != FOUND or not self.entries:
            return answer
        findings = []
        for finding in answer.findings:
            reason = self._reason(name, finding) if finding.counts else ""
            findings.append(finding._replace(counts=False, accepted=reason) if reason else finding)
        left = any(finding.counts for finding in findings)
        return Answer(FOUND if left else ACCEPTED, tuple(findings))

    def unused(self) -> List[Entry]:
        told = self.used.union(self.expired)
        return [entry for entry in self.entries if entry not in told]


def read_accepted(path: str, rules: Sequence[str]) -> Accepted:
    """The entries of a TOML file: tables [[accept]] with rule, object and reason, and perhaps trustee, rights and
    until."""
    try:
        import tomllib
    except ImportError as error:
        raise OpeningFault("--accept needs Python 3.11 or later") from error
    try:
        with open(path, "rb") as opened:
            given = tomllib.load(opened)
    except (OSError, ValueError) as error:
        raise OpeningFault(f"{path}: {error}") from error
    if set(given) - {"accept"} or not isinstance(given.get("accept", []), list):
        raise OpeningFault(f"{path}: the file has tables [[accept]] and nothing else")
    return Accepted([_entry(path, number, one, rules) for number, one in enumerate(given.get("accept", []), 1)])
