"""Objects in LDIF, the export of a directory, as RFC 2849 and the programs have it that write it: ldapsearch,
ldbsearch and AdFind."""
import base64
import binascii
import json
import re
from typing import Dict, Iterator, List, NamedTuple, Optional, Tuple, Union

from sdtool._windows import CONTAINERS, DESCRIPTORS
from sdtool.audit.sources import binary, ndr
from sdtool.audit.sources.frame import Format, Lines, Look, Piece
from sdtool.audit.sources.items import Item, bytes_item, item_of, unreadable
from sdtool.audit.sources.options import SourceOptions
from sdtool.audit.sources.places import NAMED_PLACES, Place
from sdtool.audit.sources.samba import Unknown

_NO_DESCRIPTOR = ("ask for nTSecurityDescriptor as a user who may read it, with the control "
                  "1.2.840.113556.1.4.801 (ldapsearch -E '!1.2.840.113556.1.4.801=::MAMCAQc=')")
_AGAIN = "export the directory again"
_BLANK, _COMMENT, _VERSION, _REFERENCE = "a blank line", "a comment", "the version", "a reference to another directory"
_SEARCH, _RESULT = "the head of ldapsearch (# extended LDIF)", "its result (result: 0)"
_RECORD, _RECORDS = "the head of ldbsearch (# record 1)", "its count (# returned N records)"
_COUNT = "its counts"
_REST = "the rest of the search"
_ATTRIBUTE = re.compile(r">?([A-Za-z0-9][\w;.=*-]*):([:<]?) *(.*)", re.S)
_NAME = re.compile(r"dn:", re.I)
_ENTRY_LINE = re.compile(r" ?dn:|version: *[0-9]+\s*\Z", re.I)
_CONTROL = re.compile(r"(search|result|ref|control|matchedDN|text|pagedresults|# ?pagedresults):", re.I)
# What AdFind says before entries, whose attributes it marks with >, and behind them.
_ADFIND = re.compile(r"AdFind V|Using server: |Directory: |Base DN: |([0-9]{1,18}) Objects returned\s*\Z")
_NUMBERED = re.compile(r"# (numResponses|numEntries|numReferences|numPartial|numExtended): ([0-9]{1,18})\s*\Z")
_RETURNED = re.compile(r"# returned ([0-9]{1,18}) records\s*\Z")
_FIRST_RECORD = re.compile(r"# record [0-9]+\s*\Z")
_ENTRIES = re.compile(r"# ([0-9]{1,18}) (entries|referrals)\s*\Z")
_LONGEST_CHARACTER = 4  # bytes
_DUMP = re.compile(r"(?:[A-Za-z0-9][\w;.-]*:)? +(?:NDR|SDDL): struct \w+\s*\Z")


class Entry(NamedTuple):
    """An entry of LDIF: the names of attributes are in lower case."""

    line: int
    name: str
    attributes: Dict[str, List[bytes]]
    reason: str = ""
    cut: Tuple[str, ...] = ()  # attributes of which the entry has only a range
    titles: Dict[str, str] = {}  # names of attributes as they are spelled


def text_of(attributes: Dict[str, List[bytes]]) -> str:
    """The attributes of an entry as a database keeps them."""
    return json.dumps({name: [base64.b64encode(value).decode("ascii") for value in values]
                       for name, values in attributes.items()})


def entry_of(name: str, text: str) -> Entry:
    """An entry that a database keeps."""
    return Entry(0, name, {one: [base64.b64decode(value) for value in values]
                           for one, values in json.loads(text).items()})


class _Block(NamedTuple):
    """The lines of an entry, from its first to the one behind its last."""

    begin: int
    end: int
    lines: List[str]


def _bytes_of(text: str) -> bytes:
    return text.encode("utf-8", "surrogateescape")


def _value(colons: str, text: str) -> bytes:
    if colons == "<":
        raise ValueError("the value is in another file")
    if colons == ":":
        return base64.b64decode(text.strip(" "), validate=True)
    return _bytes_of(text)


def _unfolded(lines: List[str]) -> List[str]:
    """The lines of an entry with those joined that a blank folds, and without comments. A dump keeps its lines."""
    found: List[List[str]] = []  # the parts of each line, which may be many
    is_comment = is_dump = False
    for before, line in zip(["", *lines], lines):
        if line.startswith(" "):
            if is_comment and _is_folded(before, line):
                continue
            if found and not is_comment:
                is_dump = is_dump or _is_dump("".join(found[-1][-2:]), line)
                found[-1].append("\n" + line if is_dump else line[1:])
                continue
        is_comment = line.startswith("#")
        if not is_comment:
            found.append([line])
            is_dump = False
    return ["".join(parts) for parts in found]


def _is_folded(before: str, line: str) -> bool:
    """Whether a line may go on where a program folded the one before: none but the last is shorter than the others."""
    return len(_bytes_of(line)) < len(_bytes_of(before)) + _LONGEST_CHARACTER


def _is_dump(before: str, line: str) -> bool:
    """Whether a line goes on in a value that ldbsearch --show-binary dumps."""
    return before.rstrip().endswith(": struct security_descriptor") or \
        before.endswith((":", ": ")) and line.strip() == "NDR: struct security_descriptor"


def _parsed(block: _Block) -> Entry:
    """The entry of a block."""
    name, attributes, ranges = "", {}, {}  # type: str, Dict[str, List[bytes]], Dict[str, List[str]]
    titles: Dict[str, str] = {}
    reason = ""
    is_named = False
    for line in _unfolded(block.lines):
        found = _ATTRIBUTE.fullmatch(line)
        if not found and not is_named and _NAME.match(line.strip()):
            found = _ATTRIBUTE.fullmatch(line.strip())
            reason = "the line with its name is indented, as if it belonged to the one before"
        if not found:
            reason = reason or f"malformed entry: {line.strip()[:80]!r} is no attribute"
            continue
        title, colons, text = found[1].lower(), found[2], found[3]
        try:
            value = _value(colons, text)
        except (ValueError, binascii.Error) as error:
            reason = (reason or (f"the base64 of {found[1]} is damaged: {error}" if colons == ":"
                                 else f"{found[1]}: {error}"))
            continue
        if title == "dn" and not is_named:
            name, is_named = value.decode("utf-8", "surrogateescape"), True
            continue
        if not is_named:
            reason = reason or "the entry doesn't begin with its name (dn)"
        plain, _, option = title.partition(";")
        attributes.setdefault(plain, []).append(value)
        titles.setdefault(plain, found[1].partition(";")[0])
        if option.startswith("range="):
            ranges.setdefault(plain, []).append(option)
    if not is_named:
        name, reason = f"line {block.begin}", reason or "the entry doesn't begin with its name (dn)"
    cut = tuple(plain for plain, options in ranges.items() if not any(option.endswith("-*") for option in options))
    return Entry(block.begin, name, {} if reason else attributes, reason, cut, titles)


class _Search:
    """How far a search has come, as its program says in comments and in its result."""

    def __init__(self) -> None:
        self.begin()

    def begin(self) -> None:
        self.entries = 0
        self.references = 0
        self.cookie = ""  # of the next page

    def missing(self, count: int) -> str:
        """What is said once of a count that is higher than what came. Pages of a search may be counted together."""
        came, self.entries = self.entries, max(count, self.entries)
        return f"{count:,} entries are said to be there, and {came:,} came" if count > came else ""


_Read = Tuple[int, int, Union[Entry, str], bool]  # places, an entry or a word, and whether it is strange


def _control_of(block: _Block, search: _Search) -> Union[Entry, str]:
    """What a block is that ldapsearch prints beside entries."""
    lines = _unfolded(block.lines)
    for line in block.lines:
        paged = re.match(r"#? ?pagedresults:.*cookie=(.*)", line, re.I)
        if paged:
            search.cookie = paged[1].strip()
    result = next((line[len("result:"):].strip() for line in lines if line.lower().startswith("result:")), None)
    if result is not None and not re.match(r"0\b", result):
        return Entry(block.begin, _REST, {}, f"the search ended early: {result}")
    if result is not None:
        return _RESULT
    search.references += sum(line.lower().startswith("ref:") for line in lines)
    return _REFERENCE


def _comment(line: str, search: _Search) -> Tuple[str, str]:
    """The word for a comment, and what it says is missing."""
    counted, returned = _NUMBERED.match(line), _RETURNED.match(line)
    if line.startswith("# extended LDIF"):
        search.begin()
        return _SEARCH, ""
    if counted:
        return _COUNT, search.missing(int(counted[2])) if counted[1] == "numEntries" else ""
    if returned:
        return _RECORDS, search.missing(int(returned[1]) - search.references)
    entries = _ENTRIES.match(line)
    if entries:
        return _COMMENT, search.missing(int(entries[1])) if entries[2] == "entries" else ""
    return (_RECORD if _FIRST_RECORD.match(line) else _COMMENT), ""


def _read_blocks(source: Lines) -> Iterator[_Read]:
    """The entries of LDIF, and all that is none."""
    search = _Search()
    lines: List[str] = []
    begin = 1
    is_comment = False
    has_record = False
    # whether the last value is a dump of ldbsearch --show-binary, behind which is a blank line of its own
    is_dumped = False
    blank = 0          # that line, if no other came since

    def ended(end: int) -> Iterator[_Read]:
        nonlocal is_dumped, blank
        behind, is_dumped, blank = blank, False, 0
        if not lines:
            return
        if behind:
            yield from parted(behind)
            yield behind, behind + 1, _BLANK, False
        else:
            yield from parted(end)

    def parted(end: int) -> Iterator[_Read]:
        block = _Block(begin, end, list(lines))
        lines.clear()
        unfolded = _unfolded(block.lines)
        if all(_CONTROL.match(line) for line in unfolded):
            found = _control_of(block, search)
            yield begin, end, found, False
            if isinstance(found, Entry):
                yield end, end, _RESULT, False
            return
        of_adfind = [_ADFIND.match(line) for line in unfolded]
        if all(of_adfind):
            count = next((one[1] for one in of_adfind if one and one[1]), "")
            missing = search.missing(int(count)) if count else ""
            yield begin, end, Entry(begin, _REST, {}, missing) if missing else _COMMENT, False
            return
        search.entries += 1
        entry = _parsed(block)
        yield begin, end, entry, entry.reason.startswith("malformed") or not any(map(_NAME.match, unfolded))

    number, line = 0, ""
    for number, current in enumerate(source, 1):
        before, line = line, current
        is_fold = line.startswith(" ")
        if blank and (_NAME.match(line) or _CONTROL.match(line) or not _ATTRIBUTE.fullmatch(line)):
            yield from ended(number)  # the entry doesn't go on behind its dump
        blank = 0
        if not line and is_dumped:
            blank, is_dumped = number, False
        elif not line or line == " " * len(line) and (not lines or not _is_dump(lines[-1], line)):
            yield from ended(number)
            yield number, number + 1, _BLANK, False
            is_comment = False
        elif line.startswith("#") and not is_fold or is_fold and is_comment and _is_folded(before, line):
            if lines:
                lines.append(line)  # a comment inside an entry
                is_comment = True
                continue
            is_comment = True
            word, missing = _comment(line, search)
            if word == _RECORD:
                if not has_record:
                    search.begin()
                word, has_record = (_COMMENT if has_record else _RECORD), True
            elif word == _RECORDS:
                has_record = False
            if missing:
                yield number, number + 1, Entry(number, _REST, {}, missing), False
                if word == _RECORDS:
                    yield number + 1, number + 1, word, False
            else:
                yield number, number + 1, word, False
        elif not lines and re.fullmatch(r"version:\s*[0-9]+\s*", line, re.I):
            yield number, number + 1, _VERSION, False
            is_comment = False
        else:
            is_comment = False
            if lines and _NAME.match(line):
                yield from ended(number)  # no blank line parts it from the entry before
            if not lines:
                begin = number
            is_dumped = bool(_DUMP.match(line)) or is_dumped and is_fold
            lines.append(line)
    yield from ended(number + 1)
    if search.cookie:
        yield number + 1, number + 1, Entry(number, _REST, {}, "the search has more pages"), False


def entries(lines: Iterator[str]) -> Iterator[Entry]:
    """The entries of LDIF. A search that ended early is an entry that can't be read."""
    for _, _, found, _ in _read_blocks(_as_lines(lines)):
        if isinstance(found, Entry):
            yield found


def _as_lines(lines: Iterator[str]) -> Lines:
    return Lines(line + "\n" for line in lines)


_HEAD_OF_ZONES = re.compile(r"DC=(?:Domain|Forest)DnsZones,", re.I)
_BELOW_A_HEAD = re.compile(f"DC=|CN=(?:{'|'.join(CONTAINERS)}),", re.I)
_MOST_LEVELS = 100
_FIRST_PART = re.compile(r"(?:[^,\\]|\\.)*", re.S)


def parent_of(name: str) -> str:
    """The name of the object above, or nothing."""
    return name[_FIRST_PART.match(name).end():].lstrip(",").lstrip()  # type: ignore[union-attr]


def objects_above(name: str) -> Iterator[str]:
    """The names of the objects above, the nearest first. No directory has more levels."""
    for _ in range(_MOST_LEVELS):
        name = parent_of(name)
        if not name:
            return
        yield name


def _named_place(name: str) -> str:
    first = _FIRST_PART.match(name)[0].casefold()  # type: ignore[index]
    known = next((one for one in NAMED_PLACES if one.casefold() == first), "")
    return known if known and _BELOW_A_HEAD.match(parent_of(name)) else ""


def place_of_object(name: str, classes: Tuple[str, ...]) -> str:
    """What a source says of an object: its classes, and whether Windows knows its place."""
    return Place(classes, _named_place(name), not _HEAD_OF_ZONES.match(name)).text()


def place_text(entry: Entry) -> str:
    """What an entry says of its object."""
    classes = entry.attributes.get("objectclass", ())
    return place_of_object(entry.name, tuple(value.decode("utf-8", "replace") for value in classes))


def sddl_of(value: bytes) -> str:
    """The text of a descriptor in SDDL, or that ldbsearch --show-binary dumped."""
    is_dump = b": struct security_descriptor" in value
    return ndr.sddl_of(value.decode("utf-8", "replace").split("\n")) if is_dump else value.decode("latin-1")


def items_of(entry: Entry, label: str, kind: str = "ds", shown: Optional[str] = None,
             advice: str = _NO_DESCRIPTOR) -> Iterator[Item]:
    """The object of an entry, and one for each other attribute that is a descriptor, unless one is named."""
    yield _item(entry, label, shown or "nTSecurityDescriptor", kind, advice)
    if not shown:
        yield from _attribute_items(entry, label)


def _item(entry: Entry, label: str, shown: str, kind: str, advice: str) -> Item:
    if entry.reason:
        return unreadable(entry.name, label, entry.line, entry.reason, _AGAIN, kind)
    values = entry.attributes.get(shown.lower(), [])
    if len(values) != 1 or not values[0]:
        reason = ("the entry has two descriptors" if len(values) > 1 else f"the entry has no {shown}" if not values else
                  f"{shown} is empty")
        return unreadable(entry.name, label, entry.line, reason, advice, kind)
    return _described(entry.name, values[0], shown, entry, label, kind, place_text(entry))


def _described(name: str, value: bytes, shown: str, entry: Entry, label: str, kind: str, place: str = "") -> Item:
    """An object of an entry whose descriptor is a value of an attribute."""
    if value[:1] == b"\1":
        return bytes_item(name, label, entry.line, value, kind, None, place)
    try:
        text = sddl_of(value)
    except Unknown as error:
        return unreadable(name, label, entry.line, f"{shown}: {error}", "run ldbsearch without --show-binary", kind)
    found = item_of(name, label, entry.line, text, kind)
    return found._replace(place=place) if found.form else found


_KIND_OF = {name.lower(): kind for name, kind in DESCRIPTORS.items()}
_OF_THE_OBJECT = "ntsecuritydescriptor"
_SDDL = re.compile(rb"(?:[OG]:[A-Z0-9-]+)*[DS]:[A-Z_]*\([A-Z]{1,2};", re.I)


def _attribute_items(entry: Entry, label: str) -> Iterator[Item]:
    """An object for each value of another attribute that is a descriptor of its own."""
    for attribute, values in entry.attributes.items():
        kind = _KIND_OF.get(attribute)
        for number, value in enumerate(values, 1) if attribute != _OF_THE_OBJECT else ():
            if kind is None and not (binary.looks_like_descriptor(value) or _SDDL.match(value)):
                continue
            name = f"{entry.name}: {entry.titles[attribute]}" + (f" ({number})" if len(values) > 1 else "")
            if kind:
                # What objects of a class begin with is judged as one of them.
                of_class = entry.attributes.get("ldapdisplayname", ()) if kind == "ds" else ()
                place = place_of_object("", tuple(one.decode("utf-8", "replace") for one in of_class))
                yield _described(name, value, entry.titles[attribute], entry, label, kind, place if of_class else "")
            else:
                yield unknown_attribute(name, entry.titles[attribute], label, entry.line)


def unknown_attribute(name: str, title: str, label: str, line: int) -> Item:
    """A descriptor of an attribute of which nobody knows what its rights mean."""
    return unreadable(name, label, line, f"what the ACEs of {title} mean isn't known here",
                      "look at the object on its own system", "ds")


def _read(source: Lines, label: str, options: SourceOptions) -> Iterator[Piece]:
    """The entries as objects."""
    kind, shown = options.kind or "ds", options.descriptor_column
    for begin, end, found, is_strange in _read_blocks(source):
        if isinstance(found, str):
            yield Piece(begin, end, found, is_strange)
            continue
        for number, item in enumerate(items_of(found, label, kind, shown)):
            yield Piece(begin, end, item, is_strange and not number)


def _recognizes(look: Look) -> bool:
    if any(line.startswith("# extended LDIF") or _FIRST_RECORD.match(line) for line in look.lines):
        return True
    return any(_ENTRY_LINE.match(line) for line in look.lines)


FORMAT = Format("ldif", "ldapsearch .. nTSecurityDescriptor, ldbsearch", "an entry, also without a descriptor, and "
                "each other attribute that is one; a search that ended early is one more",
                (_BLANK, _COMMENT, _VERSION, _REFERENCE, _SEARCH, _COUNT, _RESULT, _RECORD, _RECORDS),
                _recognizes, _read, {_SEARCH: _RESULT, _RECORD: _RECORDS})
