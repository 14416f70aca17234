"""A report of answers: the objects of lists as they come, and the blocks of tables from all processors."""
import collections
import concurrent.futures
import functools
import itertools
from typing import Any, Callable, Deque, Iterable, Iterator, List, NamedTuple, Optional, Tuple

from sdtool.audit import pool
from sdtool.audit.engine import Answered, Engine
from sdtool.audit.findings import Answer
from sdtool.audit.protocols import ReportForm
from sdtool.audit.reports.accepting import Accepted
from sdtool.audit.reports.groups import Ended, Groups
from sdtool.audit.reports.summing import Summary, is_listed
from sdtool.audit.sources import delimited
from sdtool.audit.sources.frame import Account, Part, Piece, cut_item, objects_of_pieces
from sdtool.audit.sources.items import Item, unreadable
from sdtool.audit.sources.opening import READ_FAULTS, whole_lines
from sdtool.audit.sources.reading import Table, empty_item

_AHEAD = 3  # blocks under way for each worker
_NO_ACCOUNT, _TELL = ("what read these lines doesn't account for all of them",
                      "ask again with --jobs 1, and report a bug of sdtool-audit")


class Report:
    """What is written and counted. seen is how many objects the sources have given."""

    def __init__(self, output: ReportForm, accepted: Optional[Accepted] = None, is_each: bool = False,
                 said: Tuple[str, ...] = ()) -> None:
        self.output, self.accepted, self.summary = output, accepted, Summary(said)
        self.groups = Groups(output.rows, is_each, output.lists_all)
        self.seen = 0
        self._unsaid = said  # in the rows

    def answer(self, engine: Engine, items: Iterable[Item]) -> None:
        """Reports the answers for objects."""
        before = engine.seen
        self.add(engine.answer(items))
        self.seen += engine.seen - before

    def add(self, answered: Iterable[Answered]) -> None:
        """Reports answers. Whoever calls this counts what was seen."""
        output, accepted, summary, groups = self.output, self.accepted, self.summary, self.groups
        lists_all, has_plain_rows = output.lists_all, output.has_plain_rows
        for item, answer in answered:
            if accepted is not None:
                answer = accepted.apply(item.name, answer)
            summary.add(answer)
            if item.help and item.form:
                summary.note(item.help, item.source)
            if lists_all or is_listed(answer):
                if has_plain_rows or answer.findings:
                    groups.add(item, answer)
                output.add(self._saying(item) if self._unsaid else item, answer, groups)

    def _saying(self, item: Item) -> Item:
        """An object whose row also says what decides about all: the first one that was read."""
        if not item.form:
            return item
        said, self._unsaid = self._unsaid, ()
        return item._replace(help="; ".join(filter(None, (item.help, *said))))

    def count(self, answer: Answer, count: int) -> None:
        """Counts so many objects with an answer that no report lists."""
        self.summary.add(answer, count)

    def end(self) -> Ended:
        """Ends what is written."""
        ended = self.groups.end(self.output.rules)
        self.output.end(self.summary, ended)
        return ended


class _Piece(NamedTuple):
    """The report of a block, the account of its lines, and how many empty lines stand at its end, which are in no
    account."""

    written: Any
    summary: Summary
    groups: Groups
    account: Account
    used: Any
    blanks: int


class _Block(NamedTuple):
    """Lines of a table, and the number of lines before them."""

    text: str
    before: int
    work: "Optional[concurrent.futures.Future[Optional[_Piece]]]" = None

    @property
    def lines(self) -> List[str]:
        return self.text.split("\n")

    @property
    def length(self) -> int:
        """How many lines it has."""
        return self.text.count("\n") + 1


def _report_block(text: str, before: int, layout: delimited.Layout) -> Optional[_Piece]:
    """The report of a block; None if it has a malformed record, or one that goes on behind it."""
    held = pool.held()
    lines = text.split("\n")
    found = delimited.whole_records(lines, before, layout)
    if found is None:
        return None
    blanks = delimited.blanks_behind(found)
    account = Account(layout.label, delimited.FORMAT.name, delimited.FORMAT.unit, layout.look, layout.guesses)
    pieces = delimited.pieces_of_records(found, layout, delimited.Reading(False))
    items = list(objects_of_pieces(delimited.FORMAT, pieces, Part(len(lines) - blanks), account, before + 1))
    report: Report = held.make_report()
    report.add(_engine_of(held.question).answer(items))
    return _Piece(report.output.piece(), report.summary, report.groups, account,
                  report.accepted.used if report.accepted else None, blanks)


@functools.lru_cache(maxsize=1)
def _engine_of(question: Any) -> Engine:
    """The engine of a worker, which keeps answers from one block to the next."""
    return Engine(question)


class _Blocks:
    """A text in blocks that end where a line does. lines is how many were read, which the accounts of the blocks have
    to add up to; fault is what has ended the text early."""

    def __init__(self, texts: Iterator[str]) -> None:
        self._blocks = whole_lines(self._counted(texts))
        self._before = 0
        self._ends, self._is_open = 0, False
        self.fault: Optional[Exception] = None

    def _counted(self, texts: Iterator[str]) -> Iterator[str]:
        for text in texts:
            self._ends += text.count("\n")
            self._is_open = not text.endswith("\n")
            yield text

    @property
    def lines(self) -> int:
        return self._ends + self._is_open

    def next(self) -> Optional[_Block]:
        """The next block, or None at the end."""
        try:
            text = next(self._blocks, "") if self.fault is None else ""
        except READ_FAULTS as error:
            self.fault, text = error, ""
        if not text:
            return None
        block = _Block(text[:-1] if text.endswith("\n") else text, self._before)
        self._before += block.length
        return block


class _Handed:
    """A part of a table that this process reads: from the empty lines before it, or its first line, to the empty lines
    at its end, or its last line."""

    def __init__(self, reading: delimited.Reading, first: int) -> None:
        # the one behind its last
        self._reading, self.first, self.end = (reading, reading.blanks[0] if reading.blanks else first, first)

    @property
    def count(self) -> int:
        return (self._reading.blanks[0] if self._reading.blanks else self.end) - self.first

    def units(self) -> int:
        return self.count


class Tables:
    """Reports tables by several processes, each of which reads, answers and writes blocks of lines.

    A block is reported as if it began with a record. It does if the blocks before it ended with one; otherwise its
    report is thrown away, and the block is read after the record that goes on in it. Each block has an account of its
    lines, which is compared with the lines that were sent; and their sum with the lines that were read.
    """

    def __init__(self, report: Report, engine: Engine, workers: pool.Pool, advance: Callable[[int], None]) -> None:
        self._report, self._engine, self._pool, self._advance = report, engine, workers, advance
        self._waiting: Deque[_Block] = collections.deque()
        self._source = _Blocks(iter(()))
        self._account = Account("", "", "")

    def add(self, table: Table) -> None:
        """Reports the objects of a table."""
        self._source, self._account = _Blocks(table.texts), table.account
        first = self._source.next()
        lines = first.lines if first else []
        layout = delimited.layout_of(lines, table.label, table.options)
        reading = delimited.Reading(layout.has_header)
        if first:
            self._read(lines, 0, layout, reading)
        while True:
            self._send(layout)
            if not self._waiting:
                break
            self._add_block(self._waiting.popleft(), layout, reading)
        if reading.blanks:
            self._add_pieces(reading.end(), _Handed(reading, reading.blanks[-1] + 1))
        self._end(table.label, layout)

    def _end(self, label: str, layout: delimited.Layout) -> None:
        """Compares the accounts of all blocks with what was read."""
        account, source = self._account, self._source
        missing = source.lines - account.units
        account.units += missing
        account.lost += missing
        if source.fault is not None:
            self._answer([cut_item(label, account.objects, source.fault, layout.look)])
        elif missing:
            self._answer([unreadable(f"{label}: {missing:,} lines", label, 0, _NO_ACCOUNT, _TELL)])
        elif not account.objects:
            self._answer([empty_item(label)])

    def _send(self, layout: delimited.Layout) -> None:
        """Has blocks reported, as many as are under way at once."""
        while len(self._waiting) < self._pool.jobs * _AHEAD:
            block = self._source.next()
            if block is None:
                return
            work = self._pool.submit(_report_block, block.text, block.before, layout)
            self._waiting.append(block._replace(work=work))

    def _add_block(self, block: _Block, layout: delimited.Layout, reading: delimited.Reading) -> None:
        assert block.work is not None
        piece = self._pool.result(block.work)
        if piece is None:
            self._read(block.lines, block.before, layout, reading)
            return
        account, behind = piece.account, block.before + block.length + 1
        if reading.blanks and account.units:
            handed = _Handed(reading, block.before + 1)
            self._add_pieces(iter([reading.as_objects(layout)]), handed)
        reading.blanks += range(behind - piece.blanks, behind)
        groups = self._report.groups
        start = groups.count
        groups.merge(piece.groups)
        self._report.output.merge(piece.written, groups, start)
        self._report.summary.merge(piece.summary)
        self._report.seen += account.objects
        if self._report.accepted is not None:
            self._report.accepted.used |= piece.used
        self._advance(account.objects)
        missing = block.length - piece.blanks - account.units
        self._account.add(account)
        if missing or not account.is_whole:
            self._account.units += missing
            self._account.lost += missing
            name = f"{layout.label}: lines {block.before + 1} to {behind - 1}"
            self._account.objects += 1
            self._answer([unreadable(name, layout.label, block.before + 1, _NO_ACCOUNT, _TELL)])

    def _read(self, lines: List[str], before: int, layout: delimited.Layout, reading: delimited.Reading) -> None:
        """Reports a block that this process reads, and those that a record goes on in."""
        handed = _Handed(reading, before + 1)
        handed.end = before + 1 + len(lines)
        pieces: Iterator[Piece] = iter(())
        if not before:
            pieces = delimited.head_pieces(lines, layout)
            lines, before = lines[layout.skipped:], layout.skipped
        rest = delimited.pieces_of_blocks(lines, self._following(handed), layout, before, reading)
        self._add_pieces(itertools.chain(pieces, rest), handed)

    def _following(self, handed: _Handed) -> Iterator[List[str]]:
        """The lines of the blocks that follow, one block after the other: a record goes on in them."""
        while True:
            block = self._waiting.popleft() if self._waiting else self._source.next()
            if block is None:
                return
            handed.end = block.before + 1 + block.length
            yield block.lines

    def _add_pieces(self, pieces: Iterator[Piece], handed: _Handed) -> None:
        """Reports what this process has read."""
        whole = self._account
        account = Account(whole.label, whole.format_name, whole.unit, whole.look, whole.guesses)
        self._answer(objects_of_pieces(delimited.FORMAT, pieces, handed, account, handed.first))
        self._account.add(account)

    def _answer(self, items: Iterable[Item]) -> None:
        before = self._report.summary.total
        self._report.answer(self._engine, items)
        self._advance(self._report.summary.total - before)


def split(units: Iterator[Any]) -> Iterator[Any]:
    """Tables, and between them iterators of the objects that aren't in tables. Each has to be read to its end."""
    held: List[Tuple[Any]] = []

    def items(first: Item) -> Iterator[Item]:
        yield first
        for one in units:
            if isinstance(one, Table):
                held.append((one,))
                return
            yield one

    while True:
        one = held.pop()[0] if held else next(units, None)
        if one is None:
            return
        yield one if isinstance(one, Table) else items(one)
