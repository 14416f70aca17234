"""How many objects have which answer, and which rules found how many."""
import collections
from typing import Counter, Dict, Iterable, Iterator, Optional, Tuple

from sdtool.audit.findings import (ACCEPTED, ADDED, CHANGED, FOUND, GONE, KNOWN, LESSER, MENDED, NEW, NOT_COMPARED,
                                   NOTHING, SAME, SEVERITIES, TRUSTED, UNKNOWN, Answer)

_ORDER = (ADDED, GONE, CHANGED, NEW, MENDED, FOUND, ACCEPTED, UNKNOWN, KNOWN, LESSER, TRUSTED, NOT_COMPARED,
          SAME, NOTHING)
_FOUND = (FOUND, ADDED, GONE, CHANGED, NEW)
# What a report for people counts and doesn't list.
_QUIET = frozenset({KNOWN, LESSER, TRUSTED, NOT_COMPARED, SAME})
SOME_UNKNOWN, FOUND_SOME, FOUND_NOTHING = 3, 1, 0


def is_listed(answer: Answer) -> bool:
    """Whether a report for people lists an object."""
    return answer.status not in _QUIET and (answer.status != NOTHING or bool(answer.findings))


def counted(number: int, word: str) -> str:
    return f"{number:,} {word}{'' if number == 1 else 's'}"


class Summary:
    """Counts of a report. said is what decides about all of its answers beside the words."""

    def __init__(self, said: Tuple[str, ...] = ()) -> None:
        self.said = said
        # The first source, how many objects, and whether other sources have some.
        self._notes: Dict[str, Tuple[str, int, bool]] = {}
        self.answers: Counter[str] = collections.Counter()
        self.rules: Counter[str] = collections.Counter()
        self.severities: Counter[str] = collections.Counter()  # of objects with such a finding that counts
        self.left = 0  # objects that a server listed, and had no more

    def add(self, answer: Answer, count: int = 1) -> None:
        """Counts so many objects with an answer."""
        self.answers[answer.status] += count
        self.left += count if answer.status == GONE and answer.reason else 0
        if not answer.findings:
            return
        for finding in answer.findings:
            if not finding.accepted:
                self.rules[finding.rule] += count
        for severity in {finding.severity for finding in answer.findings if finding.counts}:
            self.severities[severity] += count

    def note(self, text: str, source: str, count: int = 1, has_others: bool = False) -> None:
        """Counts so many objects of a source of which this is to be said."""
        first, before, had_others = self._notes.get(text, (source, 0, False))
        self._notes[text] = first, before + count, had_others or has_others or first != source

    def note_all(self, notes: Iterable[Tuple[str, str, int]]) -> None:
        """Takes what is said of all objects: text, source and count."""
        self._notes.clear()
        for text, source, count in notes:
            self.note(text, source, count)

    def notes(self) -> Iterator[str]:
        """What is said beside the counts."""
        yield from self.said
        for text, (source, count, has_others) in self._notes.items():
            yield f"{source}{' and others' * has_others}: {text} ({count:,})"

    def merge(self, other: "Summary") -> None:
        for text, noted in other._notes.items():
            self.note(text, *noted)
        self.answers.update(other.answers)
        self.rules.update(other.rules)
        self.severities.update(other.severities)
        self.left += other.left

    @property
    def total(self) -> int:
        return sum(self.answers.values())

    def text(self) -> str:
        counts = [f"{self.answers[status]:,} {status}" for status in _ORDER if self.answers[status]]
        return f"{counted(self.total, 'object')}: {', '.join(counts) or 'none'}"

    def severity_text(self, places: Counter[str]) -> str:
        """How many objects have findings of each severity, and at how many places they are set."""
        return "; ".join(f"{severity}: {counted(places[severity], 'place')} with "
                         f"{counted(self.severities[severity], 'object')}"
                         for severity in SEVERITIES if self.severities[severity])

    def status(self, fail_on: Optional[str] = None) -> int:
        """The exit status: 3 if anything is unknown or nothing could be compared, 1 if anything was found."""
        answers = self.answers
        if answers[UNKNOWN] or answers[NOT_COMPARED] and answers[NOT_COMPARED] == self.total:
            return SOME_UNKNOWN
        if fail_on is not None:
            grave = SEVERITIES[:SEVERITIES.index(fail_on) + 1]
            return FOUND_SOME if any(self.severities[severity] for severity in grave) else FOUND_NOTHING
        return FOUND_SOME if sum(answers[status] for status in _FOUND) > self.left else FOUND_NOTHING
