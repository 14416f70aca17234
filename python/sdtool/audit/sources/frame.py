"""Each byte of a source belongs to an object, to what its format says is none, or to an object that can't be read.

A reader gives pieces with their places. The frame adds them up: what no reader took is an object that can't be read,
and so is the rest of a source that doesn't come to its end.
"""
import collections
import itertools
from typing import Any, Callable, Counter, Dict, Iterable, Iterator, List, Mapping, NamedTuple, Protocol, Tuple, Union

from sdtool._windows import KINDS
from sdtool.audit.sources.items import Item, unreadable
from sdtool.audit.sources.opening import READ_FAULTS, blocks
from sdtool.audit.sources.options import SourceOptions

BY_NAMES = "by titles or names"  # what decides the kinds of objects in most formats

# What a piece is: an object, the word of what is none, or the objects of a block that its reader has counted.
Taken = Union[Item, str, List[Item]]


class Piece(NamedTuple):
    """A part of a source, from one place to the one behind it: lines from 1, characters or bytes from 0.

    is_strange says that no rule of the format explains the piece, so that the format may be another.
    """

    begin: int
    end: int
    taken: Taken
    is_strange: bool = False


class Look(NamedTuple):
    """The beginning of a text, by which its format is told, and its lines."""

    text: str
    lines: List[str]
    is_whole: bool

    def full(self) -> List[str]:
        """The lines that aren't blank."""
        return [line for line in self.lines if line.strip()]

    def first(self, comment: str = "") -> str:
        """The first line that is neither blank nor a comment."""
        return next((line for line in self.lines if line.strip() and not (comment and line.startswith(comment))), "")


class Reader(Protocol):
    """What reads a source: lines, a text in parts, blocks of lines or a stream of bytes, as its format says."""

    def __call__(self, source: Any, label: str, options: SourceOptions) -> Iterator[Piece]: ...


class Format(NamedTuple):
    """A format: what makes it, what counts as an object, what as none, and what ends it.

    ends has the words of pieces that open a part which has an end, each with the word of that end.
    """

    name: str
    made_by: str
    objects: str
    nothing: Tuple[str, ...]
    recognizes: Callable[[Look], bool]
    read: Reader
    ends: Mapping[str, str] = {}
    takes: str = "lines"  # or "text", "blocks" or "bytes"
    is_sure: bool = True  # whether its first lines alone tell it from a list
    guess: str = ""  # what decides the kinds of its objects, if that is a guess

    @property
    def unit(self) -> str:
        return {"lines": "line", "blocks": "line", "text": "character", "bytes": "byte"}[self.takes]

    def help(self) -> str:
        """A sentence for whoever asks what counts."""
        none = f"; none: {', '.join(self.nothing)}" if self.nothing else ""
        ends = f"; ends with: {', '.join(dict.fromkeys(self.ends.values()))}" if self.ends else ""
        return f"{self.name}: {self.made_by}. Object: {self.objects}{none}{ends}."


class Account:
    """What was read of a stream, or of a part of one: its units, and to how many of them each kind of piece belongs.

    look is what is said of the format beside each object that can't be read, and guesses what is said of the others, by
    their kinds.
    """

    def __init__(self, label: str, format_name: str, unit: str, look: str = "",
                 guesses: Mapping[str, str] = {}) -> None:
        self.label, self.format_name, self.unit, self.look, self.guesses = label, format_name, unit, look, guesses
        self.units = 0
        self.objects = 0  # those that can't be read among them
        self.of_objects = 0  # units
        self.nothing: Counter[str] = collections.Counter()
        self.lost = 0  # units that no reader took
        self.notes: Counter[str] = collections.Counter()  # what was changed to read objects, and of how many
        self.strange = 0  # pieces
        self.unread = 0  # objects

    @property
    def is_whole(self) -> bool:
        """Whether each unit belongs to one of the three."""
        return self.units == self.of_objects + sum(self.nothing.values()) + self.lost

    def add(self, part: "Account") -> None:
        """Adds the account of a part."""
        self.units += part.units
        self.objects += part.objects
        self.of_objects += part.of_objects
        self.nothing.update(part.nothing)
        self.lost += part.lost
        self.notes.update(part.notes)
        self.strange += part.strange
        self.unread += part.unread

    def count(self, item: Item) -> None:
        """Counts what is said of an object."""
        if not item.form:
            self.unread += 1
        elif item.help:
            self.notes[item.help] += 1


class Lines:
    """The lines of a text, without LF and CR LF, in blocks. count is how many were given."""

    def __init__(self, texts: Iterator[str]) -> None:
        self._blocks = blocks(texts)
        self.count = 0

    def _counted(self) -> Iterator[List[str]]:
        for block in self._blocks:
            self.count += len(block)
            yield [line[:-1] if line.endswith("\r") else line for line in block]

    def __iter__(self) -> Iterator[str]:
        return itertools.chain.from_iterable(self._counted())

    def units(self) -> int:
        """How many lines there are, once all were read."""
        for block in self._blocks:
            self.count += len(block)
        return self.count


class LineBlocks:
    """The lines of a text in blocks, with their CR."""

    def __init__(self, texts: Iterator[str]) -> None:
        self._blocks = blocks(texts)
        self.count = 0

    def __iter__(self) -> Iterator[List[str]]:
        return self

    def __next__(self) -> List[str]:
        block = next(self._blocks)
        self.count += len(block)
        return block

    def units(self) -> int:
        for block in self._blocks:
            self.count += len(block)
        return self.count


class Texts:
    """A text in parts."""

    def __init__(self, texts: Iterator[str]) -> None:
        self._texts = texts
        self.count = 0

    def __iter__(self) -> Iterator[str]:
        return self

    def __next__(self) -> str:
        text = next(self._texts)
        self.count += len(text)
        return text

    def units(self) -> int:
        for text in self._texts:
            self.count += len(text)
        return self.count


class Data:
    """A stream of bytes."""

    def __init__(self, stream: Any) -> None:
        self._stream = stream
        self.count = 0

    def read(self, most: int) -> bytes:
        """So many bytes, or all that are left; a fault that was met comes with the next read."""
        parts: List[bytes] = []
        left = most
        while left:
            try:
                part = self._stream.read1(left)
            except READ_FAULTS:
                if parts:
                    break
                raise
            if not part:
                break
            parts.append(part)
            left -= len(part)
        self.count += most - left
        return b"".join(parts)

    def units(self) -> int:
        while self.read(1 << 20):
            pass
        return self.count


class Part:
    """A part of a source that is read by itself, with so many units."""

    def __init__(self, count: int) -> None:
        self.count = count

    def units(self) -> int:
        return self.count


OPENERS: Dict[str, Callable[[Any], Any]] = {"lines": Lines, "blocks": LineBlocks, "text": Texts, "bytes": Data}


def _place(label: str, unit: str, begin: int, end: int) -> Tuple[str, int]:
    """The name of a part of a source that has no other, and its line."""
    if unit == "line":
        return (f"{label}:{begin}" if end == begin + 1 else f"{label}: lines {begin} to {end - 1}"), begin
    return f"{label}: {unit}s {begin} to {end - 1}", 0


def lost_item(label: str, unit: str, begin: int, end: int, look: str = "") -> Item:
    """What stands for a part of a source that no reader took."""
    name, line = _place(label, unit, begin, end)
    return unreadable(name, label, line, "no rule of the format says what this is",
                      "look at what wrote the source" + look)


def cut_item(label: str, count: int, error: Exception, look: str = "") -> Item:
    """What stands for the rest of a source that can't be read to its end."""
    return unreadable(f"{label}: the rest, after {count} objects", label, 0, f"the source can't be read: {error}",
                      "check the file and its --encoding, and copy it again" + look)


def unended_item(label: str, count: int, end: str, look: str = "") -> Item:
    """What stands for the rest of a source that doesn't come to the end that its format has."""
    return unreadable(f"{label}: the rest, after {count} objects", label, 0, f"the source ends before its end, {end}",
                      "export it again" + look)


def guesses_of(one: Format, options: SourceOptions) -> Dict[str, str]:
    """What is said of objects whose kind is a guess, by their kinds. Words of the command line are none."""
    if options.kind or not one.guess:
        return {}
    if one.guess == BY_NAMES:
        # Whatever names tell of files is asked about: see kinds.py.
        return {kind: f"read as {row['title']}, {one.guess}; --type says otherwise" for kind, row in KINDS.items()
                if kind != "file"}
    said = f"read as {one.name}, {one.guess}; --type or --format says otherwise"
    return {} if options.format else dict.fromkeys(KINDS, said)


def _with_guess(item: Item, guesses: Mapping[str, str]) -> Item:
    said = guesses.get(item.kind) if item.form else None
    return item if said is None else item._replace(help=f"{item.help}; {said}" if item.help else said)


def objects_of(one: Format, source: Any, label: str, options: SourceOptions, account: Account) -> Iterator[Item]:
    """The objects of a stream, and one more for each part that no reader took or that can't be read."""
    return objects_of_pieces(one, one.read(source, label, options), source, account, 1 if one.unit == "line" else 0)


def objects_of_pieces(one: Format, pieces: Iterable[Piece], source: Any, account: Account,
                      first: int) -> Iterator[Item]:
    """The objects of the pieces of a source, or of a part of one whose units begin with this."""
    label, look, guesses, at = account.label, account.look, account.guesses, first
    before = (-1, -1)  # the piece before
    awaited = ""       # the end that has to come
    ends, nothing, known = one.ends, account.nothing, frozenset(one.nothing)
    count = 0
    try:
        for begin, end, taken, is_strange in pieces:
            if begin != at:
                if begin > at:
                    count += 1
                    account.lost += begin - at
                    yield lost_item(label, one.unit, at, begin, look)
                elif (begin, end) != before:
                    raise RuntimeError(f"the reader of {one.name} came back to {one.unit} {begin}")
            size = 0 if (begin, end) == before else end - begin  # several objects may be of one piece
            before = (begin, end)
            at = end
            kind = type(taken)
            account.strange += is_strange
            if kind is str:
                if taken not in known:
                    raise RuntimeError(f"the reader of {one.name} took {taken!r} for nothing")
                nothing[taken] += size  # type: ignore[index]
                if taken in ends:
                    if awaited:
                        count += 1
                        yield unended_item(label, count - 1, awaited, look)
                    awaited = ends[taken]  # type: ignore[index]
                elif taken == awaited:
                    awaited = ""
                continue
            account.of_objects += size
            if kind is list:
                if not taken:
                    raise RuntimeError(f"the reader of {one.name} took a piece for objects that has none")
                found: List[Item] = taken  # type: ignore[assignment]
                count += len(found)
                if guesses:
                    found = [_with_guess(item, guesses) for item in found]
                for item in found:
                    if item.help:
                        account.count(item)
                yield from found
            else:
                count += 1
                item = _with_guess(taken, guesses)  # type: ignore[arg-type]
                account.count(item)
                yield item
        account.units = source.units()
        if account.units + first > at:
            count += 1
            account.lost += account.units + first - at
            yield lost_item(label, one.unit, at, account.units + first, look)
        if awaited:
            count += 1
            yield unended_item(label, count - 1, awaited, look)
    except READ_FAULTS as error:
        account.units = source.count
        account.lost += max(0, account.units + first - at)
        count += 1
        yield cut_item(label, count - 1, error, look)
    account.objects = count
