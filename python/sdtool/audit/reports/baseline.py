"""What is new, changed or mended since a report that was kept."""
import json
import re
from typing import Any, Callable, Dict, Iterable, Iterator, List, NamedTuple, Set, Tuple, Union

from sdtool.audit.directory.trees import Repeats, is_cut, is_rest, unnamed
from sdtool.audit.engine import Answered
from sdtool.audit.findings import ACCEPTED, CHANGED, FOUND, KNOWN, MENDED, NEW, UNKNOWN, Answer, Finding, unknown
from sdtool.audit.sources.items import SDDL, Item
from sdtool.audit.sources.opening import OpeningFault
from sdtool.audit.store.scratch import Scratch, restored, stored

_SID_AT_END = re.compile(r"\((S-1-[0-9-]+)\)\Z")
_OF_BASELINES = (NEW, KNOWN, MENDED)
_GUID = re.compile("[0-9a-f]{8}(?:-[0-9a-f]{4}){3}-[0-9a-f]{12}")


class _Old(NamedTuple):
    """A finding of the baseline."""

    id: int
    rule: str
    trustee: str
    rights: str
    text: str
    severity: str


def _who(trustee: str) -> str:
    """The SID of a trustee: its name may be another one in another report."""
    found = _SID_AT_END.search(trustee)
    return found[1] if found else trustee


def _likeness(finding: Union[_Old, Finding], who: str, is_exact: bool) -> Tuple[str, ...]:
    """What a finding has in common with the same one of another report: the rights and object types if it is exact."""
    exact = (finding.rights, *_GUID.findall(finding.text)) if is_exact else ()
    return (finding.rule, who, *exact)


class Baseline:
    """The findings of a report that was kept, and which of them came again. gone is how many objects came no more.
    is_asked says whether a rule and a severity are asked about, so that a finding that isn't there is mended."""

    def __init__(self, is_asked: Callable[[str, str], bool]) -> None:
        self._is_asked = is_asked
        self._scratch = Scratch()
        self._scratch.database.execute("CREATE TABLE old(id INTEGER PRIMARY KEY, name, nth, source, line, rule, who, "
                                       "trustee, rights, text, severity, seen INTEGER)")
        self._names: Set[int] = set()
        self.gone = 0

    def fill(self, answered: Iterable[Answered]) -> None:
        """Takes the answers of the baseline."""
        self._scratch.database.executemany("INSERT INTO old VALUES (NULL, ?, ?, ?, ?, ?, ?, ?, ?, ?, ?, 0)",
                                           self._rows(answered))
        self._scratch.database.execute("CREATE INDEX old_name ON old(name)")

    def _rows(self, answered: Iterable[Answered]) -> Iterator[Tuple[Any, ...]]:
        repeats = Repeats()
        for item, answer in answered:
            key = unnamed(item)
            nth = repeats.number_of(key)
            for finding in answer.findings:
                if (finding.counts or finding.accepted) and self._is_asked(finding.rule, finding.severity):
                    self._names.add(hash(key))
                    yield (stored(key), nth, stored(item.source), item.line, finding.rule, _who(finding.trustee),
                           finding.trustee, finding.rights, stored(finding.text), finding.severity)

    def _of(self, key: str, nth: int) -> List[Tuple[_Old, str]]:
        if hash(key) not in self._names:
            return []
        rows = self._scratch.database.execute("SELECT id, rule, trustee, rights, text, severity, who FROM old WHERE "
                                              "name = ? AND nth = ? AND seen = 0", (stored(key), nth))
        return [(_Old(number, rule, trustee, rights, restored(text), severity), who)
                for number, rule, trustee, rights, text, severity, who in rows.fetchall()]

    def compared(self, answered: Iterable[Answered]) -> Iterator[Answered]:
        """Each object with what is new about it, then the objects that came no more."""
        is_open, item = False, None
        repeats = Repeats()
        for item, answer in answered:
            is_open = is_open or is_rest(item)
            key = unnamed(item)
            yield Answered(item, self._answer(self._of(key, repeats.number_of(key)), answer))
        is_open = is_open or is_cut(item)
        query = ("SELECT name, nth, source, line, rule, trustee, rights, text, severity FROM old WHERE seen = 0 "
                 "ORDER BY id")
        last: Dict[str, Any] = {}
        for name, nth, source, line, rule, trustee, rights, text, severity in self._scratch.select(query):
            place = (restored(name), restored(source), line, nth)
            if last and last["place"] != place:
                yield self._gone(last, is_open)
                last = {}
            last.setdefault("place", place)
            last.setdefault("findings", []).append(
                Finding(rule, trustee, rights, f"{MENDED}; {restored(text)}".rstrip("; "), False, "", severity))
        if last:
            yield self._gone(last, is_open)

    def _gone(self, last: Dict[str, Any], is_open: bool) -> Answered:
        self.gone += 1
        name, source, line, _ = last["place"]
        item = Item(name, source, line, SDDL, "")
        if is_open:
            return Answered(item, unknown("the baseline has findings of it, and the source is cut before it",
                                          "export the objects again"))
        findings = [finding._replace(text=f"{finding.text}; the object is gone") for finding in last["findings"]]
        return Answered(item, Answer(MENDED, tuple(findings)))

    def _answer(self, old: List[Tuple[_Old, str]], answer: Answer) -> Answer:
        if not old and not answer.findings:
            return answer
        left = dict(old)
        told: List[Finding] = []
        statuses: List[str] = []
        waiting = [finding for finding in answer.findings if finding.counts]
        for is_exact in (True, False):
            rest: List[Finding] = []
            alike: Dict[Tuple[str, ...], List[_Old]] = {}  # the last one first
            for one, who in reversed(list(left.items())):
                alike.setdefault(_likeness(one, who, is_exact), []).append(one)
            for finding in waiting:
                found = alike.get(_likeness(finding, _who(finding.trustee), is_exact))
                if not found:
                    rest.append(finding)
                    continue
                like = found.pop()
                left.pop(like)
                if not is_exact:
                    statuses.append(CHANGED)
                    bound = like.text if like.rights == finding.rights else ""
                    was = f"{CHANGED}, was: {', '.join(filter(None, (like.rights, bound))) or 'no rights'}"
                    told.append(finding._replace(text=f"{was}; {finding.text}" if finding.text else was))
            waiting = rest
        for finding in waiting:
            statuses.append(NEW)
            told.append(finding._replace(text=f"{NEW}; {finding.text}" if finding.text else NEW))
        if old:
            self._scratch.database.executemany("UPDATE old SET seen = 1 WHERE id = ?", [(one.id,) for one, _ in old])
        if answer.status == UNKNOWN:
            return answer
        accepted = {(finding.rule, _who(finding.trustee)) for finding in answer.findings if finding.accepted}
        for one, who in left.items():
            if (one.rule, who) not in accepted:
                statuses.append(MENDED)
                text = f"{MENDED}; {one.text}" if one.text else MENDED
                told.append(Finding(one.rule, one.trustee, one.rights, text, False, "", one.severity))
        status = next((one for one in (NEW, CHANGED, MENDED) if one in statuses),
                      KNOWN if answer.status in (FOUND, ACCEPTED) else answer.status)
        return Answer(status, tuple(told), answer.reason)


def read_report(path: str) -> Iterator[Answered]:
    """The answers of a report in JSON lines."""
    try:
        with open(path, encoding="utf-8") as file:
            for number, line in enumerate(file, 1):
                yield _answered(path, number, json.loads(line))
    except (OSError, ValueError, KeyError, TypeError, AttributeError) as error:
        raise OpeningFault(
            f"--baseline {path}: neither a database of --into nor a report in JSON lines: {error}") from error


def _answered(path: str, number: int, told: Dict[str, Any]) -> Answered:
    if told["answer"] in _OF_BASELINES:
        raise OpeningFault(f"--baseline {path}: line {number}: a report that was compared with a baseline is "
                           "none itself")
    findings = tuple(Finding(one["rule"], one["trustee"], one["rights"], one["text"],
                             one.get("severity") != "note" and not one.get("accepted"), one.get("accepted", ""),
                             one.get("severity", "")) for one in told["findings"])
    return Answered(Item(told["name"], told["source"], told["line"] or 0, SDDL, ""), Answer(told["answer"], findings))
