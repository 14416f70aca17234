"""Tables for people: what is most severe first, then where it is set, then how much is below it."""
import operator
import os
import shutil
import textwrap
import unicodedata
from typing import Any, List, Optional, Sequence, TextIO, Tuple

import click

from sdtool.audit.findings import ACCEPTED, FOUND, NOTHING, SAME, UNKNOWN, Because, Mark, Rule
from sdtool.audit.reports.group import ABOVE, BELOW, Group
from sdtool.audit.reports.groups import Ended
from sdtool.audit.reports.shown import sentence_of, shown, tell
from sdtool.audit.reports.summing import Summary, counted

_LABEL = 10          # columns of a severity
_WIDEST_NAME = 60    # without a terminal
_WIDEST_WORDS = 70
_LEAST_WORDS = 24
_COLORS = {"high": "red", "medium": "yellow", "low": "cyan", FOUND: "red", "changed": "red", "added": "red",
           "gone": "red",
           "new": "red", UNKNOWN: "yellow", NOTHING: "green", SAME: "green", "mended": "green"}


def width_of(text: str) -> int:
    """The columns that a text takes on a terminal."""
    if text.isascii():
        return len(text)
    return sum(0 if unicodedata.combining(one) else 2 if unicodedata.east_asian_width(one) in "WF" else 1
               for one in text)


def _head_of(text: str, width: int) -> str:
    taken, used = 0, 0
    for one in text:
        used += width_of(one)
        if used > width:
            break
        taken += 1
    return text[:taken]


def cut(text: str, width: int) -> str:
    """A text of at most so many columns: the end of a name says more than its middle."""
    if width_of(text) <= width:
        return text
    head = _head_of(text, (width - 2) // 3)
    return head + ".." + _head_of(text[::-1], width - 2 - width_of(head))[::-1]


def _padded(text: str, width: int) -> str:
    return text + " " * (width - width_of(text))


def aces_text(numbers: Sequence[int]) -> str:
    """The ACEs of a finding: ACE 3, or ACEs 3, 4 and 7."""
    if len(numbers) < 2:
        return f"ACE {numbers[0]}" if numbers else ""
    return f"ACEs {', '.join(map(str, numbers[:-1]))} and {numbers[-1]}"


def _rules_of(because: Sequence[Because]) -> List[str]:
    """The rules of reasons, such as that of an owner."""
    return list(dict.fromkeys(one.text for one in because if not one.number))


def place_text(group: Group) -> str:
    """What decides about a finding, where that is set, and how many objects below have it."""
    if group.finding is None:
        return ""
    granting, denying = ([one for one in group.finding.because if one.grants == grants] for grants in (True, False))
    aces = aces_text(sorted({one.number for one in denying if one.number}))
    denied = ", ".join(filter(None, [aces, *_rules_of(denying)]))
    if denying and not granting:
        return f"by {denied}" if aces else denied
    mark = group.finding.mark
    set_at = "; ".join(filter(None, [*(() if mark.is_of_owner else _rules_of(granting)), _set_text(group, mark)]))
    return f"{set_at}; denied by {denied}" if denying else set_at


def _set_text(group: Group, mark: Mark) -> str:
    """Where the ACEs of a finding are set."""
    aces = aces_text(mark.numbers)
    if mark.is_of_owner:
        return "; ".join(filter(None, [aces, _owned_text(group)]))
    if group.origin == ABOVE:
        more = f"; so is that of {counted(group.below - 1, 'more object')}" if group.below > 1 else ""
        return f"{aces}, inherited from above{more}"
    if group.origin == BELOW:
        return f"set here, and inherited by {counted(group.below, 'object')}"
    if mark.is_inherited:
        return f"{aces}, inherited"
    told = [f"{aces}, set here" if aces else "",
            f"inherited by {counted(group.below, 'object')}" if group.below else "",
            f"owner of {counted(group.owned, 'object')} below" if group.owned else ""]
    return "; ".join(filter(None, told))


def _owned_text(group: Group) -> str:
    """How many further objects belong to an owner: in the folder of the first one, and below these."""
    more = [f"{counted(count, 'object')} {where}"
            for count, where in ((group.beside, "beside it"), (group.below, "below")) if count]
    return f"and {' and '.join(more)}" if more else ""


def reason_text(group: Group) -> str:
    """What is said of an object without a finding, and what would help."""
    place = f", {group.place}" if group.place else ""
    return group.reason + place + (f". Help: {group.help}." if group.help else "")


def _rows_of(ended: Ended, most: int) -> Tuple[List[Group], int]:
    """The rows of a table, and how many are left. Neither what is known nor what is unknown is left out because of the
    other."""
    known, unknown, graded = [*ended.graded, *ended.plain], ended.unknown, len(ended.graded)
    taken = known[:most or None]
    rows = [*taken[:graded], *unknown[:most or None], *taken[graded:]]
    return rows, len(known) + len(unknown) - len(rows) + ended.left_out


class Table:
    """A table on a terminal or in a file. It has the first rows; the summary below it counts every object."""

    def __init__(self, file: TextIO, rules: Sequence[Rule], most: int) -> None:
        self._file, self._rules, self._most = file, rules, most
        self._is_terminal = file.isatty()
        self._columns = shutil.get_terminal_size().columns if self._is_terminal else 0
        self._has_colors = self._is_terminal and "NO_COLOR" not in os.environ

    def write(self, summary: Summary, ended: Ended) -> None:
        self._unknown = summary.answers[UNKNOWN]
        rows, left = _rows_of(ended, self._most)
        if any(rule.severity for rule in self._rules):
            self._graded(rows)
        elif rows:
            self._flat(sorted(rows, key=operator.attrgetter("order")))
        if left:
            self._line(f".. and {left:,} more: --most 0 shows all, --to csv or --to html has them.")
        for rule in self._rules:
            if summary.rules[rule.name] and not rule.severity:
                self._line(f"{rule.name}: {summary.rules[rule.name]:,}. {rule.reason}")
        for text in filter(None, (*summary.notes(), summary.severity_text(ended.places), summary.text())):
            self._line(text)

    def _line(self, text: str, styled: str = "", status: str = "", bold: bool = False, behind: str = "") -> None:
        """A line, with a part in the color of a status if a terminal has colors."""
        if not styled or not self._has_colors:
            tell(self._file, (text + styled + behind).rstrip())
            return
        colored = click.style(shown(styled), fg=_COLORS.get(status), bold=bold)
        self._file.write((shown(text) + colored + shown(behind)).rstrip() + "\n")

    def _name_width(self, names: Sequence[str]) -> int:
        widest = max(24, self._columns // 3) if self._is_terminal else _WIDEST_NAME
        return min(widest, max(map(width_of, names), default=0))

    def _words(self, text: str, indent: int) -> Tuple[str, List[str]]:
        """A text as it goes behind so many columns: its first line, and the others."""
        if not self._is_terminal:
            return text, []
        first, *others = textwrap.wrap(text, max(_LEAST_WORDS, self._columns - indent - 1)) or [""]
        return first, [" " * indent + line for line in others]

    # Findings that have severities.

    def _graded(self, taken: Sequence[Group]) -> None:
        names = [shown(row.name) for row in taken]
        width = self._name_width(names)
        words = [self._words_of(row) for row in taken]
        column = min(_WIDEST_WORDS,
                     max((width_of(one) for one, row in zip(words, taken) if place_text(row)), default=0))
        last: Optional[Tuple[str, str]] = None
        for row, name, said in zip(taken, names, words):
            title = self._title(row)
            if title != last:
                self._line("", _padded(title[0].upper(), _LABEL), title[0], True, title[1])
                last = title
            place = place_text(row)
            text = _padded(said, column) + "  " + place if place else said
            start = " " * _LABEL + _padded(cut(name, width), width) + "  "
            first, others = self._words(text if not self._is_terminal else "  ".join(filter(None, [said, place])),
                                        _LABEL + width + 2)
            for line in (start + first, *others):
                self._line(line)

    def _title(self, row: Group) -> Tuple[str, str]:
        if row.finding is None:
            return (row.status, f"{counted(self._unknown, 'object')}, of which nothing is known"
                    if row.status == UNKNOWN else "")
        reason = next((rule.reason for rule in self._rules if rule.name == row.finding.rule), "")
        return (ACCEPTED if row.finding.accepted else row.finding.severity, f"{row.finding.rule}: {reason}")

    @staticmethod
    def _words_of(row: Group) -> str:
        return shown(reason_text(row) if row.finding is None else sentence_of(row.finding._replace(rule="")))

    # Findings in the order of the objects.

    def _flat(self, taken: Sequence[Group]) -> None:
        names = [shown(row.name) for row in taken]
        width = self._name_width(["Object", *names])
        status_width = max(width_of("Answer"), *(width_of(row.status) for row in taken))
        self._line("", f"{_padded('Object', width)}  {_padded('Answer', status_width)}  What", "", True)
        last: Any = None
        for row, name in zip(taken, names):
            told = cut(name, width) if not self._is_terminal or (name, row.source, row.line) != last else ""
            last = (name, row.source, row.line)
            said = shown(sentence_of(row.finding)) if row.finding is not None else self._words_of(row)
            place = place_text(row)
            first, others = self._words(said + (f" [{place}]" if place else ""), width + status_width + 4)
            self._line(f"{_padded(told, width)}  ", _padded(row.status, status_width), row.status, behind=f"  {first}")
            for line in others:
                self._line(line)


class Markdown:
    """The same for a ticket."""

    def __init__(self, file: TextIO, rules: Sequence[Rule], title: str, most: int) -> None:
        self._file, self._rules, self._title, self._most = file, rules, title, most

    def write(self, summary: Summary, ended: Ended) -> None:
        self._file.write(f"# {escaped(self._title)}\n\n{escaped(summary.text())}.\n")
        for text in filter(None, (summary.severity_text(ended.places), *summary.notes())):
            self._file.write(f"{escaped(text)}.\n")
        rows, left = _rows_of(ended, self._most)
        if rows:
            self._file.write("\n| Severity | Object | What | Where |\n|---|---|---|---|\n")
        for row in rows:
            finding = row.finding
            severity = (row.status if finding is None or not finding.severity else ACCEPTED if finding.accepted
                        else finding.severity)
            said = sentence_of(finding) if finding is not None else reason_text(row)
            self._file.write(f"| {escaped(severity)} | {escaped(row.name)} | {escaped(said)} | "
                             f"{escaped(place_text(row))} |\n")
        if left:
            self._file.write(f"\n.. and {left:,} more, which --to csv has.\n")
        reasons = [rule for rule in self._rules if summary.rules[rule.name]]
        if reasons:
            self._file.write("\n" +
                             "".join(f"- {escaped(rule.name)}: {summary.rules[rule.name]:,}. {escaped(rule.reason)}\n"
                                     for rule in reasons))


_MARKS = {one: "\\" + one for one in "\\`*_{}[]<>()#+!|~&@"}


def escaped(text: str) -> str:
    """A text in a table of Markdown: nothing in it is markup, a link or the end of a cell."""
    return "".join(_MARKS.get(one, one) for one in shown(text))
