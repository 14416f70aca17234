"""Objects in CSV, TSV and other tables with a delimiter, quoted as in RFC 4180."""
import collections
import csv
import functools
import itertools
import re
from typing import Deque, Iterable, Iterator, List, Mapping, NamedTuple, Optional, Tuple

from sdtool.audit.sources.frame import BY_NAMES, Format, LineBlocks, Look, Piece, guesses_of
from sdtool.audit.sources.items import UNTOLD, Item, item_of, looks_like_descriptor, shortened, unreadable
from sdtool.audit.sources.messages import named_in, strange_item
from sdtool.audit.sources.naming import (CLASS_NAME, DESCRIPTOR_NAMES, NAME_NAMES, attribute_item, is_attribute,
                                         kind_of_name, kind_of_titles, place_of_classes, plain_name, ranked)
from sdtool.audit.sources.options import SourceOptions

_LINES = ("|", "\u2502")
DELIMITERS = (",", ";", "\t", *_LINES)
_MOST_LINES = 1000       # of a record: a quotation mark that stays open takes no more
_MOST_CHARACTERS = 1 << 22
_SAMPLE_LINES = 20
_MOST_SPELLED, _LONGEST_SPELLED = 20_000, 2_000  # texts of descriptors that are kept, and characters of each
_DELIMITER_LINE = re.compile(r'"?sep=([^"\r\n])"?\r?\Z', re.I)
_TYPE_LINE = re.compile(r'"?#TYPE [^\s,;|"]+"?\s*\Z', re.I)
_BLANK, _TITLES = ("blank lines before the first row and behind the last",
                   "titles, also again, dashes below them, a count of rows")
_HEAD = "a line '#TYPE ..' or 'sep=..' before them"
# Lines of dashes of a table that is drawn, and the count of its rows as psql and MySQL print it.
_RULE = re.compile(r"[ \t\r]*(?::?[-+=\u2500-\u257f]{3,}:?|\([0-9]+ \w+\)|[0-9]+ rows? in set\b.*)[ \t\r]*\Z")
_SDDL_INSIDE = re.compile(r"[OGDS]:(?![\\/])", re.I)
_BYTES_INSIDE = re.compile(r"01[0-9a-f]{38}|A[Q-Za-f][A-Za-z0-9+/]{25}", re.I)
READ_AS = "; read as csv"
_MAY_BE_TITLES = "if this row has titles, say --header"

csv.field_size_limit(1 << 26)


class _Unclosed(Exception):
    """A record takes more lines than any should."""


# A row with the line where it begins, or no row, the reason, and the text of its first line; and the number of its
# lines.
Record = Tuple[int, Optional[List[str]], str, str, int]


class Columns(NamedTuple):
    """Which columns have names and descriptors, and how many columns there are.

    rivals are further columns that may have the descriptor, and others those with a name where the first has none.
    reason says why no row can be read, and help what would help; is_words says that the words of the command line are
    what is wrong.
    """

    name: Optional[int]
    descriptor: int
    width: int
    rivals: Tuple[int, ...] = ()
    reason: str = ""
    help: str = ""
    is_words: bool = False
    others: Tuple[int, ...] = ()
    classes: Optional[int] = None  # the column with the classes of directory objects
    attributes: Tuple[int, ...] = ()  # those with other descriptors of these


def _records_of_lines(block: List[str], delimiter: str, quoting: int, before: int) -> Optional[Iterable[Record]]:
    """The records of lines that begin and end with one; None if any is malformed, or may take more lines than it
    should.

    Each line is a record in the usual case, which is fast.
    """
    try:
        rows = list(csv.reader(block, delimiter=delimiter, strict=True, quoting=quoting))
        if len(rows) == len(block):
            return zip(itertools.count(before + 1), rows, itertools.repeat(""), itertools.repeat(""),
                       itertools.repeat(1))
        if sum(map(len, block)) > _MOST_CHARACTERS:
            return None
        found: List[Record] = []
        reader = csv.reader((line + "\n" for line in block), delimiter=delimiter, strict=True, quoting=quoting)
        ended = 0
        for row in reader:
            if reader.line_num - ended > _MOST_LINES:
                return None
            found.append((before + ended + 1, row, "", "", reader.line_num - ended))
            ended = reader.line_num
        return found
    except csv.Error:
        return None


def _record(waiting: Deque[str], following: Iterator[List[str]], delimiter: str,
            quoting: int) -> Tuple[List[str], Optional[List[str]], str]:
    """The first record of the lines that wait: its lines, and its row or the reason why it is none.

    A record that is malformed takes one line; the lines after it are read anew.
    """
    taken: List[str] = []

    def fed() -> Iterator[str]:
        characters = 0
        while True:
            while not waiting:
                block = next(following, None)
                if block is None:
                    return
                waiting.extend(block)
            taken.append(waiting.popleft())
            characters += len(taken[-1])
            if len(taken) > 1 and (len(taken) > _MOST_LINES or characters > _MOST_CHARACTERS):
                raise _Unclosed
            yield taken[-1] + "\n"

    try:
        return taken, next(csv.reader(fed(), delimiter=delimiter, strict=True, quoting=quoting)), ""
    except (csv.Error, _Unclosed) as error:
        is_open = isinstance(error, _Unclosed) or "unexpected end of data" in str(error)
        waiting.extendleft(reversed(taken[1:]))
        return taken[:1], None, "a quotation mark is not closed" if is_open else f"malformed row: {error}"


def _records_of_block(block: List[str], following: Iterator[List[str]], delimiter: str, quoting: int,
                      before: int) -> Iterator[Record]:
    """The records of a block, and of the blocks that follow it until a record ends where a block does."""
    waiting = collections.deque(block)
    while waiting:
        taken, row, reason = _record(waiting, following, delimiter, quoting)
        yield before + 1, row, reason, taken[0], len(taken)
        before += len(taken)


def _quoting(quotes: bool) -> int:
    return csv.QUOTE_MINIMAL if quotes else csv.QUOTE_NONE


def _sample_rows(sample: List[str], delimiter: str, quotes: bool = True) -> List[List[str]]:
    whole = _records_of_lines(sample, delimiter, _quoting(quotes), 0)
    found = whole if whole is not None else _records_of_block(sample, iter(()), delimiter, _quoting(quotes), 0)
    return [record[1] for record in found if record[1] and not (len(record[1]) == 1 and _RULE.match(record[1][0]))]


def _has_descriptor(line: str) -> bool:
    """Whether a descriptor may stand in a line. A text of SDDL has a parenthesis behind its first part, in the same
    cell."""
    for cell in re.split(r"[,\t|]", line) if "(" in line else ():
        found = _SDDL_INSIDE.search(cell)
        if found and cell.rfind("(") >= found.end():
            return True
    return bool(_BYTES_INSIDE.search(line))


def _sample_of(lines: List[str]) -> List[str]:
    """The first lines, and those from the first one with a descriptor on."""
    at = next((at for at, line in enumerate(lines) if _has_descriptor(line)), 0)
    return lines[:_SAMPLE_LINES] + lines[max(_SAMPLE_LINES, at):at + _SAMPLE_LINES]


def _usual_width(rows: List[List[str]]) -> int:
    """How many fields most rows have; of several numbers the least, but for one."""
    counts = collections.Counter(map(len, rows))
    return min(counts, key=lambda width: (-counts[width], width < 2, width)) if counts else 0


def _delimiter(sample: List[str]) -> str:
    """The delimiter of a table: the one that gives the most rows of the same length with a descriptor."""
    best, best_score = ",", (-1, 0)
    for delimiter in DELIMITERS:
        rows = _sample_rows(sample, delimiter)
        width = _usual_width(rows)
        if width < 2:
            continue
        whole = [row for row in rows if len(row) == width]
        # A delimiter that stands in descriptors leaves parts of them, and another one leaves a name behind them.
        described = sum(any(looks_like_descriptor(cell) and cell.count("(") == cell.count(")") and "\t" not in cell
                            for cell in row)
                        for row in whole)
        score = (described, len(whole))
        if score > best_score:
            best, best_score = delimiter, score
    return best if best_score[0] or not any(map(looks_like_descriptor, sample)) else ","


def _chosen_column(chosen: str, header: Optional[List[str]], width: int) -> Optional[int]:
    """The column that a word names, by its title or by its number from 1."""
    if header is not None:
        titles = [cell.strip().lower() for cell in header]
        if chosen.strip().lower() in titles:
            return titles.index(chosen.strip().lower())
    return int(chosen) - 1 if re.fullmatch("[0-9]{1,9}", chosen) and 1 <= int(chosen) <= width else None


def _likely_columns(rows: List[List[str]]) -> List[int]:
    """The columns whose cells look like descriptors, those with the most first."""
    counts = collections.Counter(at for row in rows for at, cell in enumerate(row) if looks_like_descriptor(cell))
    return [at for at, _ in counts.most_common()]


def _title(header: Optional[List[str]], at: int) -> str:
    return header[at] if header is not None and at < len(header) and header[at].strip() else str(at + 1)


def _is_titles(row: List[str], options: SourceOptions) -> bool:
    """Whether a row has titles: one of them is known, or words name it. A row with an empty cell for its descriptor has
    not."""
    if any(map(looks_like_descriptor, row)):
        return False
    words = [word.strip().lower() for word in (options.name_column, options.descriptor_column) if word
             and not word.isdigit()]
    if any(cell.strip().lower() in words for cell in row):
        return True
    descriptors, names = ranked(row, DESCRIPTOR_NAMES), ranked(row, NAME_NAMES)
    return (bool(descriptors and names) or all(cell.strip() for cell in row)
            and bool(descriptors or names and len(row) > 1))


def _titles_at(rows: List[List[str]], options: SourceOptions) -> int:
    """Which of the first rows has the titles; -1 if none has. What stands before it has another number of fields."""
    for at, row in enumerate(rows[:_SAMPLE_LINES]):
        if _is_titles(row, options):
            return at if all(len(one) != len(row) for one in rows[:at]) else -1
        if any(map(looks_like_descriptor, row)):
            break
    return -1


def _columns(rows: List[List[str]], header: Optional[List[str]], options: SourceOptions) -> Columns:
    width = len(header) if header is not None else _usual_width(rows)
    known = f"its columns are {shortened(', '.join(header), 1_000)}" if header else f"it has {width} columns"
    likely = _likely_columns([row for row in rows if header is not None or len(row) == width])
    attributes = [at for at, title in enumerate(header or ()) if is_attribute(title)]
    if set(likely) - set(attributes) or ranked(header or (), DESCRIPTOR_NAMES):
        likely = [at for at in likely if at not in attributes]
    described = set(likely)
    rivals: List[int] = []
    for option, chosen in (("--descriptor-column", options.descriptor_column), ("--name-column", options.name_column)):
        if chosen and _chosen_column(chosen, header, width) is None:
            return Columns(None, 0, width, (), f"no column {chosen!r}: {known}", f"name one with {option}", True)
    if options.descriptor_column:
        descriptor = _chosen_column(options.descriptor_column, header, width)
    else:
        named = ranked(header, DESCRIPTOR_NAMES) if header is not None else []
        named.sort(key=lambda at: at not in described)  # those that have descriptors come first
        if named and (named[0] in described or not likely):
            # Another of these columns counts where it has a descriptor; one of the same title always.
            descriptor, rivals = named[0], named[1:]
        elif not likely:
            return Columns(None, 0, width, (), f"no column has descriptors: {known}",
                           "name one with --descriptor-column", options.format == "csv" and header is not None)
        else:
            descriptor, rivals = likely[0], likely[1:]
    assert descriptor is not None
    same = [at for at in rivals if header is not None
            and plain_name(_title(header, at)) == plain_name(_title(header, descriptor))]
    if same:
        return Columns(None, descriptor, width, (),
                       f"two columns may be the descriptor: {_title(header, descriptor)} and {_title(header, same[0])}",
                       "name one with --descriptor-column, by its number")
    names: List[int] = []
    if options.name_column:
        names = [at for at in (_chosen_column(options.name_column, header, width),) if at is not None]
    else:
        names = [at for at in (ranked(header, NAME_NAMES) if header is not None else []) if at != descriptor]
        twice = [at for at in names[1:] if header is not None
                 and plain_name(header[at]) == plain_name(header[names[0]])]
        if twice:
            return Columns(None, descriptor, width, (), f"two columns may be the name: {_title(header, names[0])} and "
                           f"{_title(header, twice[0])}", "name one with --name-column, by its number")
        names = names or [at for at in range(width) if at != descriptor and not _is_empty(rows, at)][:1]
    if descriptor >= width:  # it has no title
        width = collections.Counter(len(row) for row in rows if len(row) > descriptor).most_common(1)[0][0]
    rivals = [at for at in rivals if at < width]
    classes = next(iter(ranked(header or (), (CLASS_NAME,))), None)
    attributes = [] if options.descriptor_column else [at for at in attributes if at < width]
    return Columns(names[0] if names else None, descriptor, width, tuple(rivals), others=tuple(names[1:]),
                   classes=classes, attributes=tuple(attributes))


def _is_empty(rows: List[List[str]], at: int) -> bool:
    """Whether no row has anything in a column, as the first one of a drawn table."""
    return not any(row[at].strip() for row in rows if at < len(row))


def _looks_delimited(look: Look) -> bool:
    """Whether lines are those of a table with a column of descriptors."""
    begin = _begin_of(look.lines)
    sample = _sample_of(look.lines[begin:])
    if not sample:
        return begin > 0 and any(line.strip() for line in look.lines[:begin])
    if any(map(_TYPE_LINE.match, look.lines[:begin])):
        return True
    rows = _sample_rows(sample, _delimiter(sample))
    if _usual_width(rows) == 1:
        # One column under its title.
        return bool(ranked(rows[0], DESCRIPTOR_NAMES)) and any(looks_like_descriptor(row[0]) for row in rows[1:])
    if _usual_width(rows) < 2 or looks_like_descriptor(sample[0]) and not _has_column_of_descriptors(rows):
        return False
    is_headed = bool(ranked(rows[0], DESCRIPTOR_NAMES)) and bool(ranked(rows[0], NAME_NAMES))
    return is_headed or any(any(map(looks_like_descriptor, row)) for row in rows)


def _has_column_of_descriptors(rows: List[List[str]]) -> bool:
    """Whether most rows have a whole descriptor in one of their fields, and something beside it."""
    good = [row for row in rows if any(looks_like_descriptor(cell) and cell.count("(") == cell.count(")")
                                       for cell in row)
            and sum(bool(cell.strip()) for cell in row) > 1]
    return 2 * len(good) > len(rows)


def _begin_of(first: List[str]) -> int:
    """How many lines stand before the first row. Export-Csv of Windows PowerShell begins with a type, and a spreadsheet
    may begin with its delimiter."""
    begin = 0
    while begin < len(first) and not first[begin].strip():
        begin += 1
    while begin < len(first) and (_TYPE_LINE.match(first[begin]) or _DELIMITER_LINE.match(first[begin])):
        begin += 1
    return begin


class Layout(NamedTuple):
    """What is known of a table once its first lines were seen. skipped is the number of lines before its first row.

    heads are the rows that are no objects wherever they come: the lines before the titles, and the titles at their end.
    """

    label: str
    columns: Columns
    delimiter: str
    quotes: bool
    kind: Optional[str]
    has_header: bool
    skipped: int
    heads: Tuple[List[str], ...] = ()
    first: int = 0  # the line that may have titles, of a table that isn't known to have some
    look: str = ""  # what is said beside each object that can't be read
    guesses: Mapping[str, str] = {}  # and beside the others, by their kinds
    is_drawn: bool = False  # whether blanks and lines of dashes are there for the eye

    def is_head(self, row: List[str]) -> bool:
        """Whether a row is none that has an object."""
        cells = [cell for cell in row if cell.strip()] if self.delimiter in _LINES else []
        return bool(cells) and all(map(_RULE.match, cells)) or row in self.heads


def layout_of(first: List[str], label: str, options: SourceOptions) -> Layout:
    """The layout of a table, by its first lines."""
    skipped = _begin_of(first)
    named = next(filter(None, map(_DELIMITER_LINE.match, first[:skipped])), None)
    sample = _sample_of(first[skipped:])
    delimiter = options.delimiter or (named[1] if named else _delimiter(sample))
    rows = _sample_rows(sample, delimiter, options.quotes) or [sample[:1] or [""]]
    is_typed = any(map(_TYPE_LINE.match, first[:skipped]))
    is_typed = is_typed and not any(map(looks_like_descriptor, rows[0]))
    titles = 0 if options.has_header or is_typed else _titles_at(rows, options) if options.has_header is None else -1
    has_header = titles >= 0
    header = rows[titles] if has_header else None
    columns = _columns(rows[titles + 1:], header, options)
    before = filter(str.strip, first[:min(skipped, _SAMPLE_LINES)])
    heads = [row for line in before for row in _sample_rows([line], delimiter, options.quotes)]
    may_be = options.has_header is None and not has_header and not any(map(looks_like_descriptor, rows[0]))
    kind = options.kind or kind_of_titles(header or ()) or None
    return Layout(label, columns, delimiter, options.quotes, kind, has_header, skipped,
                  tuple([*heads, header] if header else heads), skipped + 1 if may_be else 0,
                  "" if options.format else READ_AS, guesses_of(FORMAT, options), _is_drawn(rows, delimiter))


def _is_drawn(rows: List[List[str]], delimiter: str) -> bool:
    """Whether a table has blanks beside its lines, as psql and others draw it."""
    cells = (cell for row in rows for cell in row)
    return (delimiter in _LINES and all(not cell or cell[0] == " " or cell[-1] in " \r" or _RULE.match(cell)
                                        for cell in cells))


class Reading:
    """How far a table was read: whether its titles come, and the empty lines that were seen last, which count if a row
    follows."""

    def __init__(self, awaits_titles: bool) -> None:
        self.awaits_titles = awaits_titles
        self.blanks: List[int] = []

    def as_objects(self, layout: Layout) -> Piece:
        """The empty lines, which a row follows."""
        blanks = list(self.blanks)
        self.blanks.clear()
        return Piece(blanks[0], blanks[-1] + 1, [_blank_item(blank, layout) for blank in blanks])

    def end(self) -> Iterator[Piece]:
        """The empty lines behind the last row."""
        if self.blanks:
            yield Piece(self.blanks[0], self.blanks[-1] + 1, _BLANK)
            self.blanks.clear()


def head_pieces(lines: List[str], layout: Layout) -> Iterator[Piece]:
    """The lines before the first row."""
    for number, line in enumerate(lines[:layout.skipped], 1):
        yield Piece(number, number + 1, _HEAD if line.strip() else _BLANK)


def _read(source: LineBlocks, label: str, options: SourceOptions) -> Iterator[Piece]:
    """The objects of a table. Lines have their CR."""
    first: List[str] = next(source, [])
    layout = layout_of(first, label, options)
    yield from head_pieces(first, layout)
    reading = Reading(layout.has_header)
    yield from pieces_of_blocks(first[layout.skipped:], source, layout, layout.skipped, reading)
    for block in source:
        yield from pieces_of_blocks(block, source, layout, source.count - len(block), reading)
    yield from reading.end()


def pieces_of_blocks(block: List[str], following: Iterator[List[str]], layout: Layout, before: int,
                     reading: Reading) -> Iterator[Piece]:
    """The pieces of a block, and of the blocks that follow it until a record ends where a block does."""
    whole = whole_records(block, before, layout)
    if whole is not None:
        yield from pieces_of_records(whole, layout, reading)
        return
    for record in _records_of_block(block, following, layout.delimiter, _quoting(layout.quotes), before):
        yield from pieces_of_records([record], layout, reading)


def whole_records(block: List[str], before: int, layout: Layout) -> Optional[List[Record]]:
    """The records of lines that begin and end with one; None if a record is malformed, or goes on behind them."""
    found = _records_of_lines(block, layout.delimiter, _quoting(layout.quotes), before)
    return None if found is None else list(found)


def blanks_behind(found: List[Record]) -> int:
    """How many empty lines stand at the end of records."""
    return len(list(itertools.takewhile(lambda record: record[1] is not None and not record[1], reversed(found))))


def pieces_of_records(found: List[Record], layout: Layout, reading: Reading) -> Iterator[Piece]:
    """The pieces of records: the objects of rows that follow one another, titles, and empty lines once a row follows
    them."""
    label, kind, columns, heads, blanks = layout.label, layout.kind, layout.columns, layout.heads, reading.blanks
    count, name_at, descriptor_at, classes_at = columns.width, columns.name, columns.descriptor, columns.classes
    attributes = columns.attributes
    is_odd = bool(columns.reason or columns.rivals or descriptor_at >= count)
    is_drawn = layout.is_drawn
    items: List[Item] = []
    begin = end = found[0][0] if found else 0  # of the rows in items
    for line, row, reason, text, length in found:
        if (line != end or not row) and items:
            yield Piece(begin, end, items)
            items = []
        if row is not None and not row:
            blanks.append(line)
            begin = end = line + length
            continue
        if not items:
            begin = line
        is_head = reading.awaits_titles and row == heads[-1]
        if blanks:
            yield from reading.end() if is_head else [reading.as_objects(layout)]
        end = line + length
        if row is None:
            items.append(unreadable(text[:1000], label, line, reason,
                                    "quote every field, and double quotation marks in it" + layout.look))
            continue
        if not is_head:
            named = row[name_at] if name_at is not None and name_at < len(row) else None
            name = f"{label}:{line}" if named is None else named
            if is_drawn or not name:
                name = _name_of(row, name, layout)
            if is_odd or len(row) != count:
                lost = _odd_item(row, name, line, layout)
                is_head = layout.is_head(row)
                if lost is not None and not is_head:
                    items.append(lost)
                    continue
        if not is_head:
            spelled = row[descriptor_at].strip() if is_drawn else row[descriptor_at]
            form, text, advice = _spelling(spelled) if len(spelled) <= _LONGEST_SPELLED else _spelled(spelled)
            is_head = not form and layout.is_head(row)
        if is_head:
            reading.awaits_titles = False
            if items:
                yield Piece(begin, line, items)
                items = []
            yield Piece(line, end, _TITLES)
            begin = end
            continue
        if not form:
            advice += f"; {_MAY_BE_TITLES}{layout.look}" if line == layout.first else layout.look
        if descriptor_at not in attributes:
            place = place_of_classes(name, row[classes_at], kind or "") if classes_at is not None else ""
            told = kind or (UNTOLD if named is None else kind_of_name(name))
            items.append(Item(name, label, line, form, text, told, advice, None, place))
        for at in attributes:
            items += [attribute_item(name, heads[-1][at], label, line, row[at])] if row[at].strip() else []
    if items:
        yield Piece(begin, end, items)


def _name_of(row: List[str], name: str, layout: Layout) -> str:
    """The name in a row, or that of another column where it is empty, without the blanks of a table that is drawn."""
    others = (row[at] for at in layout.columns.others if at < len(row))
    found = name if name.strip() else next(filter(str.strip, others), name)
    return found.strip() if layout.is_drawn else found


def _blank_item(line: int, layout: Layout) -> Item:
    return unreadable(f"{layout.label}:{line}", layout.label, line, "the line is empty",
                      "look at the source" + layout.look)


def _spelled(text: str) -> Tuple[str, str, str]:
    """The form, the text and the help of an object whose descriptor is spelled so."""
    item = item_of("", "", 0, text)
    return item.form, item.text, item.help


_spelling = functools.lru_cache(maxsize=_MOST_SPELLED)(_spelled)


def _odd_item(row: List[str], name: str, line: int, layout: Layout) -> Optional[Item]:
    """The object of a row that can't be read, whatever is in its cells; None if it can."""
    columns, label = layout.columns, layout.label
    at = columns.descriptor
    if columns.reason:
        return unreadable(name if columns.name is not None else row[0], label, line, columns.reason,
                          columns.help + layout.look)
    if len(row) != columns.width:
        if len(row) == 1 and named_in(row[0]) is not None:
            return strange_item(row[0], label, line, "", "", "file")
        return unreadable(name, label, line, f"the row has {len(row)} fields, and the table has {columns.width}",
                          "quote the fields, or name the delimiter with --delimiter" + layout.look)
    rival = next((one for one in columns.rivals if looks_like_descriptor(row[one])
                  and row[one].strip() != row[at].strip()), None)
    if rival is None:
        return None
    titles = layout.heads[-1] if layout.has_header else None
    return unreadable(name, label, line,
                      f"two columns may be the descriptor: {_title(titles, at)} and {_title(titles, rival)}",
                      "name one with --descriptor-column" + layout.look)


FORMAT = Format("csv", "Get-Acl | Export-Csv, any CSV or TSV",
                "a row, also with too few or too many fields; a blank line between rows", (_BLANK, _TITLES, _HEAD),
                _looks_delimited, _read, takes="blocks", is_sure=False, guess=BY_NAMES)
