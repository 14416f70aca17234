"""Which format a source has, and its objects."""
import os
import re
from typing import Any, Callable, Dict, Iterator, List, NamedTuple, Optional, Tuple

from sdtool.audit.sources import (binary, collected, columns, delimited, digits, dsacl, getfattr, icacls, json_text,
                                  ldif, listing, ndr, opening, plain, registry, registry_query, sds, secedit, service,
                                  smbcacls, tree, unsupported, wevtutil, xml_text)
from sdtool.audit.sources.archives import Trouble
from sdtool.audit.sources.frame import OPENERS, Account, Format, Look, cut_item, guesses_of, objects_of
from sdtool.audit.sources.items import Item, unreadable
from sdtool.audit.sources.opening import (STANDARD_INPUT, Ahead, OpeningFault, Stream, chunks, contents, encoding_of,
                                          lines, streams)
from sdtool.audit.sources.options import SourceOptions
from sdtool.audit.sources.refused import refused

__all__ = ["FORMATS", "NAMES", "Table", "cut_item", "empty_item", "format_help", "is_database", "read", "read_tables"]

# The order counts where two formats read a text equally well.
FORMATS: Tuple[Format, ...] = (
    registry.FORMAT, registry_query.FORMAT, digits.FORMAT, secedit.FORMAT, getfattr.FORMAT, ldif.FORMAT,
    smbcacls.FORMAT, ndr.FORMAT, dsacl.FORMAT, wevtutil.FORMAT, collected.FORMAT, json_text.LINES_FORMAT,
    json_text.FORMAT, xml_text.FORMAT, listing.FORMAT, columns.FORMAT, service.FORMAT, icacls.FORMAT, delimited.FORMAT,
    unsupported.FORMAT, plain.FORMAT, sds.FORMAT, binary.FORMAT)
_BY_NAME: Dict[str, Format] = {one.name: one for one in FORMATS}
NAMES = tuple(name for name in _BY_NAME if name not in (unsupported.FORMAT.name, digits.FORMAT.name)) + ("tree",)
_TEXTS = tuple(one for one in FORMATS if one.takes != "bytes")
_DATABASE = b"SQLite format 3\0"
_LEAST_LINES = 20        # that are looked at
_MOST_AHEAD = 1 << 23    # characters in which the first descriptor is looked for
# What is in a descriptor, in whatever form: a part of SDDL with an ACE, a SID, digits or letters of bytes.
_SIGN = re.compile(r"[DS]:[A-Z]{0,12}\(|S-1-[0-9]|01(?:[ ,]?[0-9a-f]{2}){19}|A[Q-Za-f][A-Za-z0-9+/]{25}", re.I)
_LONGEST_SIGN, _BEFORE_SIGN = 100, 4_000


class Table(NamedTuple):
    """A table in place of its objects, for a reader that has it read by several processes and fills its account."""

    label: str
    texts: Iterator[str]
    options: SourceOptions
    account: Account


def format_help() -> str:
    """What counts as an object in each format, and what as none."""
    return "\n".join([*(one.help() for one in FORMATS if one.name in NAMES), tree.HELP])


def is_database(path: str) -> bool:
    """Whether a path is a file that --into made. A pipe is none, and no byte of it is read."""
    if not os.path.isfile(path):
        return False
    try:
        with open(path, "rb") as opened:
            return opened.read(len(_DATABASE)) == _DATABASE
    except OSError:
        return False


class _Trial(NamedTuple):
    """How well a format reads the beginning of a text."""

    good: int
    unread: int
    strange: int


def _try(one: Format, look: Look, options: SourceOptions) -> _Trial:
    account = Account("", one.name, one.unit)
    text = look.text if look.is_whole else look.text[:look.text.rfind("\n") + 1] or look.text
    try:
        found = [bool(item.form) for item in objects_of(one, OPENERS[one.takes](iter([text])), "",
                                                        options._replace(names=None), account)]
    except OpeningFault:
        found = []
    return _Trial(sum(found), len(found) - sum(found), account.strange)


def _told(look: Look, options: SourceOptions) -> Format:
    """The format that reads most of what was looked at.

    One that its first lines tell stays unless another reads most of the text and it none, or it meets what no rule of
    it explains and another reads more than twice as much.
    """
    candidates = [(one, _try(one, look, options)) for one in _TEXTS if one.recognizes(look)]
    sure = [(one, trial) for one, trial in candidates if one.is_sure]
    best, trial = max(((one, trial) for one, trial in candidates if not one.is_sure),
                      # Lines of a list by turns are descriptors too, without their names.
                      key=lambda pair: (pair[1].good * (1 if pair[0] is plain.FORMAT else 2), -pair[1].unread,
                                        -pair[1].strange))
    if sure:
        first, of_first = max(sure, key=lambda pair: (pair[1].good, -pair[1].strange))
        # A first name may look like the first line of another format, which then reads none of what follows.
        is_other = 2 * of_first.good < trial.good and of_first.strange if of_first.good else \
            trial.good > trial.unread or of_first.strange and 2 * trial.good > trial.unread
        if not is_other:
            return first
    return best


def _lines_of(text: str) -> List[str]:
    return [line[:-1] if line.endswith("\r") else line for line in lines(iter([text]))]


def _look_at(ahead: Ahead) -> Look:
    """The beginning of a text, so many lines of it at least, however long they are. JSON may be in one line."""
    ahead.read(opening.HEAD)
    is_json = ahead.text.lstrip()[:1] in ("{", "[")
    while not is_json and ahead.lines < _LEAST_LINES and ahead.count < _MOST_AHEAD and not ahead.is_ended:
        ahead.read(ahead.count + opening.HEAD)
    end = opening.HEAD
    for _ in range(0 if is_json else _LEAST_LINES - ahead.text.count("\n", 0, opening.HEAD)):
        end = ahead.text.find("\n", end, _MOST_AHEAD) + 1 or _MOST_AHEAD
    head = ahead.text[:end]
    found = _lines_of(head)
    is_whole = ahead.is_ended and ahead.count <= len(head)
    return Look(head, found if is_whole or len(found) < 2 else found[:-1], is_whole)


def _look_of(ahead: Ahead) -> Look:
    """What a format is told by: the beginning of a text and, if no descriptor shows in it, the part with the first one.
    Before that may stand many objects that nobody could read."""
    first = _look_at(ahead)
    at = len(first.text)
    found = _SIGN.search(first.text)
    while not found and ahead.count < _MOST_AHEAD and not ahead.is_ended:
        ahead.read(ahead.count + 1)
        found = _SIGN.search(ahead.text, max(len(first.text), at - _LONGEST_SIGN))
        at = ahead.count
    if not found or found.start() < len(first.text):
        return first
    ahead.read(found.start() + opening.HEAD)
    begin = (ahead.text.rfind("\n", len(first.text), max(len(first.text), found.start() - _BEFORE_SIGN)) + 1
             or len(first.text))
    part = ahead.text[begin:found.start() + opening.HEAD]
    head = first.lines[:_LEAST_LINES]
    return Look("".join(line + "\n" for line in head) + part, [*head, *_lines_of(part)], False)


def _format_of(look: Look, options: SourceOptions) -> Format:
    if options.format:
        return _BY_NAME[options.format]
    if options.names:
        return plain.FORMAT
    if options.delimiter or (options.descriptor_column
                             or options.name_column) and look.text.lstrip()[:1] not in ("{", "["):
        return ldif.FORMAT if ldif.FORMAT.recognizes(look) and not options.delimiter else delimited.FORMAT
    return _told(look, options)


def _check_words(look: Look, label: str, options: SourceOptions) -> None:
    """Refuses words that name a column which the first table of a file doesn't have."""
    end = "\r" if "\r\n" in look.text else ""
    layout = delimited.layout_of([line + end for line in look.lines], label, options)
    if layout.columns.is_words:
        raise OpeningFault(f"{label}: {layout.columns.reason}; {layout.columns.help}")


def _read_stream(stream: Stream, options: SourceOptions, tables: bool, is_first: bool,
                 accounts: List[Account]) -> Iterator[Any]:
    named = options.format if options.format in ("sds", "binary") else None if options.format else \
        "sds" if sds.looks_like_stream(stream.head) else "binary" if binary.looks_like_descriptor(stream.head) else None
    if named:
        one: Format = _BY_NAME[named]
        source = OPENERS["bytes"](stream.raw)
    else:
        encoding = encoding_of(stream.head, options.encoding)
        why = refused(stream.head, not encoding.startswith("utf-8")) if options.format is None else None
        if why:
            yield unreadable(stream.label, stream.label, 0, *why)
            return
        ahead = Ahead(chunks(stream.raw, encoding))
        look = _look_of(ahead)
        texts = ahead.all()
        one = _format_of(look, options)
        if one is delimited.FORMAT and is_first:
            _check_words(look, stream.label, options)
        source = OPENERS[one.takes](texts)
    told = "" if options.format or one.is_sure or one is unsupported.FORMAT else f"; read as {one.name}"
    account = Account(stream.label, one.name, one.unit, told, guesses_of(one, options))
    accounts.append(account)
    if one is delimited.FORMAT and tables:
        yield Table(stream.label, texts, options, account)
        return
    for item in objects_of(one, source, stream.label, options, account):
        yield item._replace(help=item.help + told) if told and not item.form and not item.help.endswith(told) else item
    if not account.objects:
        yield empty_item(stream.label)


def empty_item(label: str) -> Item:
    """What stands for a source without any object."""
    return unreadable(label, label, 0, "the source has no objects",
                      "check what wrote it, or name its format with --format")


def _check_names(path: str, options: SourceOptions) -> None:
    """Refuses a list that is longer or shorter than its names: each of its objects could have the name of another."""
    if options.names is None:
        return
    if path == STANDARD_INPUT or not os.path.isfile(path):
        raise OpeningFault("--object-names needs a list in a file, which can be counted first")
    counts = [sum(1 for stream in streams(one, lambda count: None)
                  for _ in lines(chunks(stream.raw, encoding_of(stream.head, options.encoding))))
              for one in (path, options.names)]
    if counts[0] != counts[1]:
        raise OpeningFault(f"{path} has {counts[0]} lines and {options.names} has {counts[1]}: "
                           "no object can be sure of its name")


def read(path: str, options: SourceOptions, tell: Callable[[int], None] = lambda count: None,
         accounts: Optional[List[Account]] = None) -> Iterator[Item]:
    """The objects of a source: a file, a pipe, a folder, or standard input as '-'. accounts gets what each stream
    had."""
    return read_tables(path, options, tell, False, accounts)


def read_tables(path: str, options: SourceOptions, tell: Callable[[int], None], tables: bool = True,
                accounts: Optional[List[Account]] = None) -> Iterator[Any]:
    """The same, with a Table in place of the objects of a table if they are wanted so. A source without any object is
    itself unknown, and so is each part of an archive that can't be read."""
    if path != STANDARD_INPUT and (options.format == "tree" or os.path.isdir(path) and options.format is None):
        yield from tree.read_tree(path, options)
        return
    _check_names(path, options)
    count = 0
    is_file = path != STANDARD_INPUT and os.path.isfile(path)
    for content in contents(path, tell):
        count += 1
        if isinstance(content, Trouble):
            yield unreadable(content.label, path, 0, content.reason, content.help)
        else:
            yield from _read_stream(content, options, tables, is_file and count == 1,
                                    accounts if accounts is not None else [])
    if not count:
        yield empty_item(path)
