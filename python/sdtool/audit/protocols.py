"""What sources, questions and reports are to each other, and what every question knows. docs/ARCHITECTURE.md says
what a further one needs."""
from typing import Any, Callable, Iterator, List, NamedTuple, Optional, Protocol, Sequence, Tuple

from sdtool.audit.findings import Answer, Rule
from sdtool.audit.sources.items import Item
from sdtool.audit.sources.options import SourceOptions
from sdtool.audit.windows.names import Names


class Source(Protocol):
    """Gives the objects of a path, each once, and an object that can't be read for what can't. It tells how many bytes
    it read."""

    def __call__(self, path: str, options: SourceOptions, tell: Callable[[int], None]) -> Iterator[Item]: ...


class Context(NamedTuple):
    """What every question knows: the domain of aliases, and names."""

    domain: str
    names: Names


class Question(Protocol):
    """Answers for descriptors of one form and one kind, as many as there are texts. Processes get a copy of it."""

    @property
    def rules(self) -> Tuple[Rule, ...]: ...

    @property
    def asks_places(self) -> str: ...

    def answer(self, form: str, kind: str, texts: Sequence[str], place: str = "") -> List[Answer]: ...


class ListQuestion(Question, Protocol):
    """A question about lists as a whole. seen is how many objects these have."""

    seen: int


class ReportForm(Protocol):
    """Writes a report. rows is how many groups it lists, or None for all of them. What another process has written of a
    block is its piece."""

    rows: Optional[int]
    rules: Sequence[Rule]
    lists_all: bool
    has_plain_rows: bool

    def begin(self) -> None: ...

    def add(self, item: Item, answer: Answer, groups: Any) -> None: ...

    def end(self, summary: Any, ended: Any) -> None: ...

    def piece(self) -> Any: ...

    def merge(self, piece: Any, groups: Any, start: int) -> None: ...
