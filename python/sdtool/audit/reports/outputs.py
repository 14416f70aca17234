"""Forms of a report: a table and Markdown for people, CSV, JSON lines, SARIF and one HTML file."""
import contextlib
import csv
import json
import operator
import os
import urllib.parse
from typing import Any, Dict, List, NamedTuple, Optional, Sequence, TextIO, Tuple

from sdtool._windows import REPORT
from sdtool.audit.findings import UNKNOWN, Answer, Finding, Mark, Rule
from sdtool.audit.reports import tables
from sdtool.audit.reports.groups import Ended, Groups
from sdtool.audit.reports.shown import because_of, note_of, said_of, sentence_of, shown
from sdtool.audit.reports.summing import Summary
from sdtool.audit.sources.items import BY_PATH, UNTOLD, Item
from sdtool.audit.sources.opening import OpeningFault
from sdtool.audit.sources.places import classes_of

TABLE_ROWS = 200
_HTML_GROUPS = 1000
COLUMNS = ("name", "source", "line", "answer", "rule", "trustee", "rights", "text", "help", "severity", "aces",
           "because", "group")


class Form(NamedTuple):
    """What the words say about the form of a report. lists_all says whether objects with nothing found are in it."""

    to: str
    lists_all: Optional[bool]
    most: int
    is_each: bool = False
    is_for_spreadsheets: bool = False


class Output:
    """A report in the making. rows is how many groups it lists, or None for all of them."""

    rows: Optional[int] = 0
    has_plain_rows = False  # whether objects without a finding are among these

    def __init__(self, file: TextIO, rules: Sequence[Rule], lists_all: bool, title: str) -> None:
        self._file, self.rules, self.lists_all, self._title = file, rules, lists_all, title

    def begin(self) -> None:
        """Called before the first object."""

    def add(self, item: Item, answer: Answer, groups: Groups) -> None:
        """Called for each object that is listed, after the groups have it."""

    def end(self, summary: Summary, ended: Ended) -> None:
        """Called after the last object."""

    def piece(self) -> Any:
        """What was written, of an output over a text in memory that was not begun."""
        return self._file.getvalue()  # type: ignore[attr-defined]

    def merge(self, piece: Any, groups: Groups, start: int) -> None:
        """Adds what another process wrote. The groups have its objects, behind so many that they had before."""
        self._file.write(piece)


# A field for a group that is told when all places before it are known: where it begins and ends in a text, and whose it
# is.
_Open = Tuple[int, int, str, str, Mark, int]
# What a program of tables takes for a formula.
_FORMULAS = ("=", "+", "-", "@", "\t", "\r", "\n", "\uff1d", "\uff0b", "\uff0d", "\uff20")


class CsvOutput(Output):
    """CSV. It has every object, in the order of the source."""

    def __init__(self, file: TextIO, rules: Sequence[Rule], lists_all: bool, title: str, is_safe: bool = False) -> None:
        super().__init__(file, rules, lists_all, title)
        self._is_safe = is_safe
        self._plain = csv.writer(file, lineterminator="\n")
        # csv quotes LF by itself, and CR only if all fields are quoted.
        self._quoted = csv.writer(file, lineterminator="\n", quoting=csv.QUOTE_ALL)
        self._open: Optional[List[_Open]] = []  # of a block of lines

    def begin(self) -> None:
        self._open = None
        if self._is_safe:
            self._file.write("\ufeff")  # without it they take UTF-8 for something else
        self._plain.writerow(COLUMNS)

    def add(self, item: Item, answer: Answer, groups: Groups) -> None:
        name, source, status = item.name, item.source, answer.status
        write = self._quoted.writerow if "\r" in name or "\r" in source else self._plain.writerow
        if self._is_safe:
            name, source = _safe(name), _safe(source)
        if not answer.findings:
            reason = _safe(answer.said) if self._is_safe else answer.said
            rule = "unknown" if status == UNKNOWN else ""
            advice = "; ".join(filter(None, [answer.help, note_of(item)]))
            write((name, source, item.line or "", status, rule, "", "", reason, advice, "", "", "", ""))
            return
        start = (name, source, item.line or "", status)
        for finding in answer.findings:
            self._add_finding(write, start, item, finding, groups)

    def _add_finding(self, write: Any, start: Tuple[Any, ...], item: Item, finding: Finding, groups: Groups) -> None:
        said: Tuple[str, ...] = (finding.rule, finding.trustee, finding.rights, said_of(finding), note_of(item),
                                 finding.severity)
        if self._is_safe:
            said = tuple(map(_safe, said))
        mark = finding.mark
        row = (*start, *said, " ".join(map(str, mark.numbers)), because_of(finding))
        if not mark.comes_from_above:
            group = item.name if mark.key else ""
        elif self._open is None:
            group = groups.origin(item.name, item.kind, mark, groups.count)
        else:
            write((*row, ""))
            end = self._file.tell() - 1
            start_of_field = end - 2 if write == self._quoted.writerow else end
            self._open.append((start_of_field, end, item.name, item.kind, mark, groups.count))
            return
        write((*row, _safe(group) if self._is_safe else group))

    def piece(self) -> Any:
        return super().piece(), self._open

    def merge(self, piece: Any, groups: Groups, start: int) -> None:
        text, fields = piece
        at = 0
        for begin, end, name, kind, mark, count in fields:
            group = groups.origin(name, kind, mark, start + count)
            group = _safe(group) if self._is_safe else group
            is_quoted = begin < end or any(one in group for one in '",\r\n')
            self._file.write(text[at:begin] + ('"' + group.replace('"', '""') + '"' if is_quoted else group))
            at = end
        self._file.write(text[at:])


def _safe(text: str) -> str:
    """A text that no program of tables takes for a formula."""
    return "'" + text if text.startswith(_FORMULAS) else text


class JsonOutput(Output):
    """JSON lines: one object a line."""

    def add(self, item: Item, answer: Answer, groups: Groups) -> None:
        told: Dict[str, Any] = {"name": item.name, "source": item.source, "line": item.line or None,
                                "answer": answer.status}
        if answer.status == UNKNOWN:
            told.update(reason=answer.said, help=answer.help)
        elif answer.reason:
            told["reason"] = answer.reason
        if note_of(item):
            told["note"] = note_of(item)
        told["findings"] = [_json_finding(finding) for finding in answer.findings]
        self._file.write(json.dumps(told) + "\n")


def _json_finding(finding: Finding) -> Dict[str, Any]:
    told: Dict[str, Any] = {"rule": finding.rule, "trustee": finding.trustee, "rights": finding.rights,
                            "text": finding.text}
    if finding.accepted:
        told["accepted"] = finding.accepted
    if finding.severity:
        told["severity"] = finding.severity
    if finding.mark.numbers:
        told["aces"] = list(finding.mark.numbers)
        told["inherited"] = finding.mark.is_inherited
    if finding.because:
        told["because"] = _because(finding)
    return told


def _because(finding: Finding) -> List[Dict[str, Any]]:
    """What grants or denies the rights: an ACE by its number and text, or a rule by its word."""
    return [{"ace": one.number or None, "text": one.text, "rights": one.rights, "grants": one.grants}
            for one in finding.because]


class TableOutput(Output):
    """A table on a terminal. It has the first rows; the summary below it counts every object."""

    has_plain_rows = True

    def __init__(self, file: TextIO, rules: Sequence[Rule], lists_all: bool, title: str, most: int) -> None:
        super().__init__(file, rules, lists_all, title)
        self._most = most
        self.rows = most or None

    def piece(self) -> Any:
        return None

    def merge(self, piece: Any, groups: Groups, start: int) -> None:
        """The groups have all of it."""

    def end(self, summary: Summary, ended: Ended) -> None:
        tables.Table(self._file, self.rules, self._most).write(summary, ended)


class MarkdownOutput(TableOutput):
    """A table for a ticket."""

    def end(self, summary: Summary, ended: Ended) -> None:
        tables.Markdown(self._file, self.rules, self._title, self._most).write(summary, ended)


_LEVELS = {"high": "error", "medium": "warning", "low": "note", "note": "note"}
# What GitHub goes by: from 7.0 on it says high, from 4.0 on medium.
_SCORES = {"high": "8.0", "medium": "5.0", "low": "2.0", "note": "0.0"}
_SARIF_SCHEMA = "https://json.schemastore.org/sarif-2.1.0.json"


class SarifOutput(Output):
    """SARIF 2.1.0, for CI. It has what was found, accepted or unknown; notifications count the rest."""

    _comma = ","  # before a result; the first of all has none

    def merge(self, piece: Any, groups: Groups, start: int) -> None:
        if piece:
            self._file.write(piece[1 - len(self._comma):])
            self._comma = ","

    def begin(self) -> None:
        rules = [{"id": rule.name, "shortDescription": {"text": rule.reason}, **_sarif_severity(rule.severity)}
                 for rule in self.rules]
        rules.append({"id": "unknown",
                      "shortDescription": {"text": "The object can't be read, so nothing is known about it."},
                      **_sarif_severity("high")})
        self._file.write('{"$schema": %s, "version": "2.1.0", "runs": [{"tool": {"driver": %s}, "results": ['
                         % (json.dumps(_SARIF_SCHEMA), json.dumps({"name": "sdtool-audit", "rules": rules})))
        self._comma = ""

    def add(self, item: Item, answer: Answer, groups: Groups) -> None:
        if answer.status == UNKNOWN:
            help_text = f" {answer.help}." if answer.help else ""
            self._result(item, "unknown", f"{answer.said}.{help_text}", "error", "", [])
        for finding in answer.findings:
            text = sentence_of(finding._replace(accepted="")) or finding.rule
            level = _LEVELS.get(finding.severity, "error" if finding.counts else "note")
            self._result(item, finding.rule, text, level, finding.accepted, _because(finding))

    def _result(self, item: Item, rule: str, text: str, level: str, accepted: str,
                because: List[Dict[str, Any]]) -> None:
        place: Dict[str, Any] = {"artifactLocation": {"uri": _uri(item.source)}}
        if item.line:
            place["region"] = {"startLine": item.line}
        name = shown(item.name)
        result: Dict[str, Any] = {
            "ruleId": rule, "level": level, "message": {"text": f"{name}: {shown(text)}"},
            "locations": [{"physicalLocation": place, "logicalLocations": [{"fullyQualifiedName": name}]}]}
        if accepted:
            result["suppressions"] = [{"kind": "external", "justification": accepted}]
        if because:
            result["properties"] = {"because": because}
        self._file.write(self._comma + "\n" + json.dumps(result))
        self._comma = ","

    def end(self, summary: Summary, ended: Ended) -> None:
        notifications = [{"level": "note", "message": {"text": shown(text)}}
                         for text in (*summary.notes(), summary.text())]
        self._file.write('\n], "invocations": [%s]}]}\n' % json.dumps(
            {"executionSuccessful": True, "toolExecutionNotifications": notifications}))


def _sarif_severity(severity: str) -> Dict[str, Any]:
    """The level of a rule."""
    if not severity:
        return {}
    return {"defaultConfiguration": {"level": _LEVELS[severity]},
            "properties": {"security-severity": _SCORES[severity]}}


def _uri(path: str) -> str:
    return urllib.parse.quote(path.encode("utf-8", "surrogateescape"))


# The page, and the element of it that a report goes into.
_PAGE_VARIABLE = "SDTOOL_PAGE"
_PLACE = '<script type="application/json" id="report">'
_ROW_OF = {row: operator.itemgetter(*columns) for row, columns in REPORT["rows"].items()}


def page_around() -> Tuple[str, str]:
    """The page, cut where a report goes."""
    audit = os.path.dirname(os.path.dirname(os.path.abspath(__file__)))
    path = os.environ.get(_PAGE_VARIABLE) or os.path.join(audit, "sdtool.html")
    text = ""
    with contextlib.suppress(OSError, UnicodeDecodeError), open(path, encoding="utf-8") as file:
        text = file.read()
    before, mark, after = text.partition(_PLACE)
    if not after.startswith("</script>"):
        raise OpeningFault(f"--to html puts the report into the page, and {path} isn't that: {_PAGE_VARIABLE} can name "
                           "sdtool.html")
    return before + mark, after


class HtmlOutput(Output):
    """One file without any request: the page that shows permissions, with the report in it as lines of JSON, which no
    browser takes for a script or for markup. windows/report.toml has the columns of their rows.
    """

    rows = _HTML_GROUPS

    def __init__(self, file: TextIO, rules: Sequence[Rule], lists_all: bool, title: str,
                 about: Optional[Dict[str, Any]] = None) -> None:
        super().__init__(file, rules, lists_all, title)
        self._about = about or {}
        self._after = ""  # of the page, behind the report

    def begin(self) -> None:
        before, self._after = page_around()
        self._file.write(before + "\n")
        self._line({"report": REPORT["version"], "title": self._title, **self._about})

    def add(self, item: Item, answer: Answer, groups: Groups) -> None:
        self._line(_ROW_OF["object"]({
            "name": item.name, "source": item.source, "line": item.line, "answer": answer.status, "form": item.form,
            "descriptor": item.text if item.form else "",  # of an object that can't be read, it is the answer's reason
            "kind": "file" if item.kind in (UNTOLD, BY_PATH) else item.kind,  # as the answers have it
            "reason": answer.said, "help": answer.help, "classes": classes_of(item.place),
            "findings": [_finding_row(finding) for finding in answer.findings]}))

    def end(self, summary: Summary, ended: Ended) -> None:
        rules = [_ROW_OF["rule"]({"name": rule.name, "count": summary.rules[rule.name], "reason": rule.reason})
                 for rule in self.rules if summary.rules[rule.name]]
        groups = [_ROW_OF["group"]({
            "severity": group.finding.severity, "rule": group.finding.rule,
            "text": sentence_of(group.finding._replace(rule="")), "name": group.name, "place": tables.place_text(group),
            "objects": group.objects})
            for group in (*ended.graded, *ended.plain) if group.finding is not None][:_HTML_GROUPS]
        self._line({"summary": summary.text(), "notes": list(summary.notes()),
                    "severities": summary.severity_text(ended.places), "rules": rules,
                    "listsAll": self.lists_all, "groups": groups})
        self._file.write(self._after)

    def _line(self, value: Any) -> None:
        # Without < nothing in it can end the element that it is in.
        self._file.write(json.dumps(value, separators=(",", ":")).replace("<", "\\u003c") + "\n")


def _finding_row(finding: Finding) -> Any:
    """A finding in the report of the page."""
    causes = [_ROW_OF["cause"](one._asdict()) for one in finding.because]
    return _ROW_OF["finding"]({**finding._asdict(), "numbers": finding.mark.numbers,
                               "isInherited": finding.mark.is_inherited, "because": causes})


OUTPUTS = ("table", "csv", "jsonl", "html", "sarif", "markdown")
# Reports for people list what was found; those for programs list every object.
_LISTS_ALL = frozenset({"csv", "jsonl"})


def output_of(form: Form, file: TextIO, rules: Sequence[Rule], title: str,
              about: Optional[Dict[str, Any]] = None) -> Output:
    """The output of a form."""
    lists_all = form.to in _LISTS_ALL if form.lists_all is None else form.lists_all
    if form.to == "table":
        return TableOutput(file, rules, lists_all, title, form.most)
    if form.to == "markdown":
        return MarkdownOutput(file, rules, lists_all, title, form.most)
    if form.to == "csv":
        return CsvOutput(file, rules, lists_all, title, form.is_for_spreadsheets)
    if form.to == "html":
        return HtmlOutput(file, rules, lists_all, title, about)
    return (SarifOutput(file, rules, lists_all, title) if form.to == "sarif"
            else JsonOutput(file, rules, lists_all, title))
