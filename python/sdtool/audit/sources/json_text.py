"""Objects in JSON, as ConvertTo-Json writes them, and in JSON lines."""
import collections
import functools
import json
import re
from typing import Any, Dict, Iterable, Iterator, List, NamedTuple, Optional, Tuple, Union

from sdtool.audit.sources.frame import BY_NAMES, Format, Lines, Look, Piece, Texts
from sdtool.audit.sources.items import UNTOLD, Item, item_of, looks_like_descriptor, shortened, unreadable
from sdtool.audit.sources.naming import (CLASS_NAME, DESCRIPTOR_NAMES, NAME_NAMES, attribute_item, is_attribute,
                                         kind_of_name, kind_of_titles, place_of_classes, plain_name, ranked)
from sdtool.audit.sources.opening import READ_FAULTS
from sdtool.audit.sources.options import SourceOptions

_BLANKS = re.compile(r"[ \t\r\n]*")
_ANY_OBJECT, _ANYTHING = re.compile(r"\n[ \t]*(?=\{)"), re.compile(r"\n[ \t]*(?=[\[{])")
_MOST_CHARACTERS = 1 << 24  # of one element
_BLANK, _COMMA, _OPEN, _CLOSE = "blanks", "commas", "[", "]"
_AROUND, _MEMBER = "{ } around a list", "a member beside a list that has no descriptor"
_AGAIN = "export the source again"
_STARTS = ("{", '"', "[")
_MOST_BLANKS = 10_000  # before an element of which the next ones are told
_MOST_NAMED = 1 << 20  # characters of a damaged element in which its name is looked for
_MOST_WAITING = 1_000  # members of an object until it is taken as a map
_COUNTS = ("count", "@odata.count", "total", "totalcount")
_STATES = {"before", "after", "old", "new"}  # members with two states of one object
_PATH = re.compile(r"[\\/]|=.*,")
_MORE = ("error", "errors", "@odata.nextlink", "odata.nextlink", "nextlink", "next")


class _Broken(Exception):
    """The text isn't JSON from here on."""


class _Start(NamedTuple):
    """How the line of an element begins: its blanks, and the first character of the element."""

    blanks: str
    first: str

    def pattern(self, end: str) -> "re.Pattern[str]":
        """A line that begins so, or that ends the list. Line ends are in no string of JSON, and what is inside of an
        element has more blanks before it."""
        return re.compile("\n(?:%s(?=%s)|[ \t]{0,%d}(?=%s))" % (self.blanks, re.escape(self.first), len(self.blanks),
                                                                re.escape(end)))

    def above(self) -> "re.Pattern[str]":
        """A line that begins an object with fewer blanks, or that ends the list: what is inside of an object has
        more."""
        return re.compile("\n[ \t]{0,%d}(?=[{\\]])" % max(0, len(self.blanks) - 1))


class _Members(Dict[str, Any]):
    """The members of an object that has a name twice, and all pairs."""

    pairs: List[Tuple[str, Any]] = []


def _members_of(pairs: List[Tuple[str, Any]]) -> Dict[str, Any]:
    members = dict(pairs)
    if len(members) != len(pairs):
        members = _Members(pairs)
        members.pairs = pairs
    return members


def _twice(value: Dict[str, Any]) -> Dict[str, int]:
    """The names that an object has twice or more, in order."""
    if not isinstance(value, _Members):
        return {}
    return {name: count for name, count in collections.Counter(name for name, _ in value.pairs).items() if count > 1}


_DECODER = json.JSONDecoder(object_pairs_hook=_members_of)


class _Uncounted(str):
    """A text whose lines nobody counts. Of another one Python counts those before each fault."""

    def count(self, *_: Any) -> int:
        return 0

    rfind = count


class _Text:
    """A text that is read as far as it is needed, with the number of the line at hand and the place in the source."""

    def __init__(self, texts: Texts) -> None:
        self._texts = texts
        self.text = ""
        self._uncounted = _Uncounted()  # the same
        self.at = 0
        self.line = 1
        self._before = 0  # characters that are gone
        self._blanks: Optional[str] = ""  # from the begin of the line, if nothing else stands there
        self.fault: Optional[Exception] = None  # that ends the text
        self.is_lost = False  # whether it was read to its end as part of what is damaged

    @property
    def place(self) -> int:
        return self._before + self.at

    def more(self) -> bool:
        """Reads on, at least as much as is there; False at the end."""
        parts = []
        wanted = len(self.text) - self.at
        while wanted >= 0:
            try:
                following = next(self._texts, "") if self.fault is None else ""
            except READ_FAULTS as error:
                self.fault, following = error, ""
            if not following:
                break
            parts.append(following)
            wanted -= len(following)
        self._before += self.at
        self.text = self.text[self.at:] + "".join(parts)
        self._uncounted = _Uncounted(self.text)
        self.at = 0
        return bool(parts)

    def _go(self, end: int) -> None:
        ended = self.text.rfind("\n", self.at, end)
        if ended >= 0:
            self.line += self.text.count("\n", self.at, end)
            self._blanks = ""
        if self._blanks is not None:
            blanks = self._blanks + self.text[max(ended + 1, self.at):end]
            self._blanks = None if blanks.strip(" \t") or len(blanks) > _MOST_BLANKS else blanks
        self.at = end

    def start(self) -> Optional[_Start]:
        """How the line of the value at hand begins, if that begins its line."""
        first = self.text[self.at:self.at + 1]
        return None if self._blanks is None or not first else _Start(self._blanks, first)

    def is_message(self) -> bool:
        """Whether the line at hand is what another program printed: more than a bracket that is damaged."""
        line = self.text[self.at:self.at + 200].split("\n")[0].strip()
        return self._blanks is not None and len(line) > 3 and line[0] not in _STARTS

    def seek(self, pattern: "Optional[re.Pattern[str]]") -> Tuple[bool, str]:
        """Goes to the next line that begins so, or to the end of the text. Gives whether there is one, and what stands
        before it."""
        passed: List[str] = []
        count = 0
        while True:
            found = pattern.search(self.text, self.at) if pattern else None
            last = self.text.rfind("\n", self.at) if pattern else -1  # the line that begins there may go on
            stop = found.end() if found else last if last >= 0 else len(self.text)
            if count < _MOST_NAMED:
                passed.append(self.text[self.at:stop])
                count += stop - self.at
            self._go(stop)
            if found or not self.more():
                break
        if not found:
            passed.append(self.text[self.at:])
            self._go(len(self.text))
        return bool(found), "".join(passed) if count < _MOST_NAMED else ""

    def skip(self) -> str:
        """The next character that is no blank, or nothing at the end."""
        while True:
            self._go(_BLANKS.match(self.text, self.at).end())  # type: ignore[union-attr]
            if self.at < len(self.text):
                return self.text[self.at]
            if not self.more():
                return ""

    def step(self) -> None:
        self._go(self.at + 1)

    def value(self) -> Any:
        """The value at hand, which has to be no longer than an element may be."""
        while True:
            try:
                value, end = _DECODER.raw_decode(self._uncounted, self.at)
            except (ValueError, RecursionError) as error:
                is_damaged = len(self.text) - self.at > _MOST_CHARACTERS or not _may_go_on(error, len(self.text))
                if is_damaged or not self.more():
                    raise _Broken(error.msg if isinstance(error, json.JSONDecodeError) else
                                  "it has too many levels" if isinstance(error, RecursionError) else
                                  "a number has too many digits") from error
                continue
            # A number may go on in the next part of the text.
            if end == len(self.text) and self.text[end - 1] not in "\"]}" and self.more():
                continue
            self._go(end)
            return value


def _may_go_on(error: Exception, length: int) -> bool:
    """Whether what is no JSON may be some, once more was read."""
    if not isinstance(error, json.JSONDecodeError):
        return isinstance(error, RecursionError)
    return error.msg.startswith("Unterminated") or error.pos > length - 20


@functools.lru_cache(maxsize=1_000)
def _known(members: Tuple[str, ...], names: Tuple[str, ...]) -> List[str]:
    """The members that have one of some names, the best first."""
    return [members[at] for at in ranked(members, names)]


def _named(value: Dict[str, Any], names: Tuple[str, ...], chosen: Optional[str]) -> List[str]:
    """The members of an object that have one of these names, or the one that a word chooses."""
    if chosen:
        return [chosen] if chosen in value else []
    return _known(tuple(value), names) if len(value) < 100 else _known.__wrapped__(tuple(value), names)


class _Parts(NamedTuple):
    """What an element says: its name, and its descriptor or the reason why there is none."""

    name: str
    text: Any
    reason: str = ""
    help: str = ""


def _pair_text(value: Any) -> Any:
    if isinstance(value, list) and value and all(type(byte) is int and 0 <= byte < 256 for byte in value):
        return bytes(value).hex()  # as PowerShell writes bytes
    return value


def _parts(value: Dict[str, Any], place: str, options: SourceOptions) -> _Parts:
    names = _named(value, NAME_NAMES, options.name_column)
    texts = [str(value[key]) for key in names if type(value[key]) in (str, int, float)]
    name = next(filter(str.strip, texts), texts[0] if texts else place)
    if len(names) > 1 and plain_name(names[0]) == plain_name(names[1]):
        return _Parts(place, None, f"two members may be the name: {names[0]} and {names[1]}",
                      "name one with --name-column")
    keys = _named(value, DESCRIPTOR_NAMES, options.descriptor_column)
    told = {*names[:1], *keys}
    twice = [key for key in _twice(value) if key in told]
    if twice:
        return _Parts(name if twice[0] not in names else place, None, f"the member {twice[0]} is there twice", _AGAIN)
    if not keys:
        likely = [key for key, text in value.items() if isinstance(text, str) and looks_like_descriptor(text)]
        said = f"two members may be the descriptor: {likely[0]} and {likely[1]}" if len(likely) > 1 else \
            f"no member has the descriptor; the members are {', '.join(list(value)[:10])}"
        return _Parts(name, None, said, "name the member with --descriptor-column")
    rivals = [key for key in keys[1:] if plain_name(key) == plain_name(keys[0])
              or _is_rival(value[keys[0]], value[key])]
    if rivals:
        return _Parts(name, None, f"two members may be the descriptor: {keys[0]} and {rivals[0]}",
                      "name one with --descriptor-column")
    text = _pair_text(value[keys[0]])
    if text is not None and not isinstance(text, str):
        return _Parts(name, None, f"member {keys[0]} is no text", "export the descriptor as SDDL")
    return _Parts(name, text or "")


def _is_rival(first: Any, other: Any) -> bool:
    """Whether a second member may be the descriptor as well as the first."""
    other = _pair_text(other)
    return isinstance(other, str) and looks_like_descriptor(other) and other.strip() != str(_pair_text(first)).strip()


# Names that no member has but one with a descriptor, also where it is empty.
_SURE_NAMES = frozenset({"sddl", "securitydescriptor", "ntsecuritydescriptor", "securitydescriptorsddl", "sddlstring"})


def _is_described(key: str, value: Any, chosen: Optional[str]) -> bool:
    """Whether a member makes what it is in an object with a descriptor, or with none that can be read."""
    name = plain_name(key)
    if key == chosen:
        return True
    if name not in DESCRIPTOR_NAMES:
        return False
    text = _pair_text(value)
    return (isinstance(text, str) and looks_like_descriptor(text) or name in _SURE_NAMES
            and (text is None or isinstance(text, str)))


def _inside(value: Any, chosen: Optional[str] = None) -> Iterator[Tuple[str, Dict[str, Any]]]:
    """The objects with a descriptor inside an element, each with the member that has them. chosen is the member that
    words name."""
    waiting = _inner(value.items()) if isinstance(value, dict) else []
    while waiting:
        key, inner = waiting.pop()
        if isinstance(inner, list):
            waiting += _inner((key, one) for one in inner)
            continue
        if any(_is_described(name, text, chosen) for name, text in inner.items()):
            yield key, inner
        waiting += _inner((key, one) for one in inner.values())


def _inner(pairs: Iterable[Tuple[str, Any]]) -> List[Tuple[str, Any]]:
    """The objects and lists among members, from the last to the first."""
    return [(key, one) for key, one in pairs if isinstance(one, (dict, list))][::-1]


def items_of_element(value: Any, label: str, line: int, options: SourceOptions, place: str = "") -> List[Item]:
    """The object that an element is, and one for each that is inside it, which isn't read. place is its name if it has
    none."""
    place = place or f"{label}:{line}"
    if isinstance(value, str):
        return [item_of(place, label, line, value, options.kind or UNTOLD)]
    if isinstance(value, list) and value:
        return [item for one in value for item in items_of_element(one, label, line, options)]
    if not isinstance(value, dict):
        return [unreadable(place, label, line, "the element is no object", "look at the source")]
    has_attributes = not options.descriptor_column and any(map(is_attribute, value))
    of_attributes = _of_attributes(value) if has_attributes else {}
    parts = _parts({key: one for key, one in value.items() if key not in of_attributes} if of_attributes else value,
                   place, options)
    is_named = parts.name != f"{label}:{line}"
    kind = options.kind or kind_of_titles(value) or (kind_of_name(parts.name) if is_named else UNTOLD)
    found = [attribute_item(parts.name, key, label, line, text) for key, text in of_attributes.items()]
    if not of_attributes or any(plain_name(key) in DESCRIPTOR_NAMES for key in value):
        found.insert(0, unreadable(parts.name, label, line, parts.reason, parts.help, kind) if parts.reason else
                     item_of(parts.name, label, line, parts.text, kind)._replace(
                         place=_place_of(value, parts.name, kind)))
    of_name = shortened(parts.name)
    for key, inner in _inside(value, options.descriptor_column) if any(type(inner) in (dict, list)
                                                                       for inner in value.values()) else ():
        name = _parts(inner, place, options).name
        found.append(unreadable(name, label, line, f"it is inside member {shortened(key)} of {of_name}",
                                "export a list without lists inside", options.kind or kind_of_name(name)))
    return found


def _of_attributes(value: Dict[str, Any]) -> Dict[str, str]:
    """The members of a directory object that are descriptors beside its own."""
    texts = ((key, _pair_text(one)) for key, one in value.items() if is_attribute(key))
    return {key: text for key, text in texts if isinstance(text, str) and text.strip()}


def _place_of(value: Dict[str, Any], name: str, kind: str) -> str:
    """The place of a directory object, by the member with its classes."""
    found = next((inner for key, inner in value.items() if plain_name(key) == CLASS_NAME), None)
    listed = found if isinstance(found, list) else [found]
    return place_of_classes(name, " ".join(one for one in listed if isinstance(one, str)), kind) if found else ""


def _is_count(key: str, value: Any) -> bool:
    return key.lower() in _COUNTS and type(value) is int


def _is_map(pairs: List[Tuple[str, Any]]) -> bool:
    """Whether members are names with descriptors, and not those of one object. Their count may be beside them."""
    pairs = [pair for pair in pairs if not _is_count(*pair)]
    texts = [text for _, text in pairs if text is not None]
    if not all(isinstance(text, str) for text in texts) or not any(map(looks_like_descriptor, texts)):
        return False
    known = sum(plain_name(name) in DESCRIPTOR_NAMES for name, _ in pairs)
    if known and (known > 1 or len(pairs) < 3 or not all(map(looks_like_descriptor, texts))):
        return False  # one object, and not a map in which an object is called so
    return not any(plain_name(name) in _STATES or plain_name(name) in NAME_NAMES
                   and not looks_like_descriptor(text or "")
                   for name, text in pairs)


def _pairs(value: Dict[str, Any]) -> List[Tuple[str, Any]]:
    return value.pairs if isinstance(value, _Members) else list(value.items())


def _map_items(value: Dict[str, Any], label: str, line: int, options: SourceOptions) -> List[Item]:
    """The objects of a map from names to descriptors."""
    twice = _twice(value)
    found: List[Item] = []
    for name, text in _pairs(value):
        if _is_count(name, text):
            continue
        kind = options.kind or kind_of_name(name)
        found.append(unreadable(name, label, line, f"the name {name} is there twice", _AGAIN, kind)
                     if name in twice else
                     item_of(name, label, line, text or "", kind))
    counts = [item for name, text in _pairs(value) if _is_count(name, text)
              for item in _beside(name, text, len(found), label, line)]
    return found + counts


def _whole(value: Any, label: str, line: int, options: SourceOptions, place: str = "") -> List[Item]:
    """The objects of an object that stands by itself: it is one, it has one in each member, or others with members
    around them."""
    if isinstance(value, dict) and options.descriptor_column not in value and _is_map(_pairs(value)):
        return _map_items(value, label, line, options)
    if isinstance(value, dict) and not _named(value, DESCRIPTOR_NAMES, options.descriptor_column):
        pairs = _pairs(value)
        if any(isinstance(inner, list) for _, inner in pairs):
            return _items_around(value, label, line, options)
        if not _named(value, NAME_NAMES,
                      options.name_column) and any(True for _ in _inside(value, options.descriptor_column)) and not any(
                isinstance(inner, str) and looks_like_descriptor(inner) for _, inner in pairs):
            return _items_of_members(value, label, line, options)
    return items_of_element(value, label, line, options, place)


def _items_of_members(value: Dict[str, Any], label: str, line: int, options: SourceOptions) -> List[Item]:
    """The objects of an object that has none but in members. Those without a name have that of their member. If some
    have a descriptor of their own, the others lack it."""
    found: List[Item] = []
    chosen, kind = options.descriptor_column, options.kind
    own = sum(isinstance(inner, dict) and bool(_named(inner, DESCRIPTOR_NAMES, chosen)) for _, inner in _pairs(value))
    # A few texts among objects say why an object has no descriptor, and so does one whose name is a path; others say
    # something of the whole.
    texts_count = sum(isinstance(inner, str) for _, inner in _pairs(value)) < own
    for key, inner in _pairs(value):
        if isinstance(inner, dict) and any(True for _ in _inside({key: inner}, chosen)):
            found += _whole(inner, label, line, options, key)
        elif own and (inner is None or isinstance(inner, dict)):
            found += items_of_element(inner or {}, label, line, options, key)
        elif isinstance(inner, str) and (texts_count or own and _PATH.search(key)):
            found.append(item_of(key, label, line, inner, kind or kind_of_name(key)))
    for key, inner in _pairs(value):
        if not isinstance(inner, dict):
            found += _beside(key, inner, len(found), label, line)
    found += [unreadable(f"{label}:{line}", label, line, f"the member {key} is there twice", _AGAIN)
              for key in _twice(value)]
    return found


def _single(text: _Text, label: str, options: SourceOptions) -> Iterator[Piece]:
    """An object that stands by itself."""
    begin, line = text.place, text.line
    try:
        value = text.value()
    except _Broken:
        # Its lists may be longer than an element may be, or it may be cut.
        yield from _around(text, label, options)
        return
    yield Piece(begin, text.place, _whole(value, label, line, options) or _AROUND)


def _items_around(value: Dict[str, Any], label: str, line: int, options: SourceOptions) -> List[Item]:
    """The objects of the lists of an object, and one for what its other members say is missing."""
    found: List[Item] = []
    elements = 0
    for _, inner in _pairs(value):
        if isinstance(inner, list):
            elements += len(inner)
            for one in inner:
                found += items_of_element(one, label, line, options)
    for key, inner in _pairs(value):
        found += _beside(key, inner, elements, label, line)
    found += [unreadable(f"{label}:{line}", label, line, f"the member {key} is there twice", _AGAIN)
              for key in _twice(value)]
    return found


def _beside(key: str, value: Any, elements: int, label: str, line: int) -> List[Item]:
    """What a member beside a list says is missing."""
    rest = f"{label}: the rest, after {elements} objects"
    if _is_count(key, value) and value > elements:
        return [unreadable(rest, label, line, f"{key} says {value:,} elements, and {elements:,} came", _AGAIN)]
    if key.lower() in _MORE and value:
        return [unreadable(rest, label, line, f"the source isn't whole: it has a member {key}", _AGAIN)]
    if isinstance(value, str) and looks_like_descriptor(value):
        return [unreadable(key, label, line, f"member {key} beside a list has a descriptor",
                           "export a list without others beside it")]
    if isinstance(value, dict):
        return [unreadable(_parts(inner, f"{label}:{line}", SourceOptions()).name, label, line,
                           f"it is inside member {shortened(key)} beside a list",
                           "export a list without others beside it") for _, inner in _inside({key: value})]
    return []


class _Member(NamedTuple):
    """A member of an object that is read member by member, with its place."""

    begin: int
    end: int
    line: int
    key: str
    value: Any


class _Around:
    """An object that is read member by member, since it is too large to be read at once, or damaged: its lists are read
    element by element. Members that aren't lists wait until it is known what they are.

    taken is the place up to which all was given.
    """

    def __init__(self, text: _Text, label: str, options: SourceOptions) -> None:
        self._text, self._label, self._options = text, label, options
        self.taken, self.line = text.place, text.line
        self._waiting: List[_Member] = []
        self._others: List[_Member] = []  # members beside a list
        self._elements = 0
        self._has_list = self._is_map = False
        self._start: Optional[_Start] = None  # of members

    def _symbol(self, word: str) -> Piece:
        self._text.step()
        return Piece(self._text.place - 1, self._text.place, word)

    def _name(self) -> str:
        """The name of a single object that is damaged."""
        members = dict((one.key, one.value) for one in self._waiting)
        return _parts(members, "", self._options).name if members else ""

    def pieces(self) -> Iterator[Piece]:
        """What is in the object. A map from names to descriptors is read behind damage too."""
        text = self._text
        pieces = self._first()
        while True:
            try:
                for piece in pieces:
                    self.taken, self.line = piece.end, text.line
                    yield piece
                return
            except _Broken as error:
                for piece in self._rest():
                    self.taken = piece.end
                    yield piece
                line = text.line if self._is_map else self.line
                is_found, passed = text.seek(self._start.pattern("}")) if self._is_map and self._start else (False, "")
                if not is_found:
                    raise _Damaged(line, self._name(), str(error)) from error
                lost = _damaged_item(self._label, line, text.line - 1, _key_in(passed), error)
                yield Piece(self.taken, text.place, lost, True)
                self.taken = text.place
                pieces = self._members([])

    def _first(self) -> Iterator[Piece]:
        held = [self._symbol(_AROUND), *_blanks(self._text)]
        yield from self._members(held)

    def _members(self, held: List[Piece]) -> Iterator[Piece]:
        """Members up to the end of the object. held are pieces that wait with them."""
        text = self._text
        while text.skip() != "}":
            member = self._begun()
            if text.skip() == "[":
                yield from self._decided(held, True)
                yield Piece(member.begin, text.place, _MEMBER)
                for piece in _Elements(text, self._label, self._options).pieces():
                    self._elements += (len(piece.taken) if isinstance(piece.taken, list)
                                       else isinstance(piece.taken, Item))
                    yield piece
                if text.is_lost:
                    return
            else:
                member = member._replace(value=text.value(), end=text.place)
                self._waiting.append(member)
                held.append(Piece(member.begin, member.end, _MEMBER))
            held += _blanks(text)
            if text.skip() == ",":
                held.append(self._symbol(_COMMA))
                held += _blanks(text)
                if text.skip() == "}":
                    raise _Broken("a member is missing behind ','")
            elif text.skip() != "}":
                raise _Broken("',' or '}' is missing")
            if self._has_list or self._is_map or len(self._waiting) > _MOST_WAITING:
                yield from self._decided(held, self._has_list)
        yield from self._decided(held, self._has_list)
        missing = [item for one in self._others
                   for item in _beside(one.key, one.value, self._elements, self._label, one.line)]
        if missing:
            text.step()
            yield Piece(text.place - 1, text.place, missing)
        else:
            yield self._symbol(_AROUND)

    def _begun(self) -> _Member:
        """The name of the next member."""
        text = self._text
        begin, line, start = text.place, text.line, text.start()
        key = text.value()
        if not isinstance(key, str) or text.skip() != ":":
            raise _Broken("a member has no name")
        text.step()
        self._start = self._start or start
        return _Member(begin, begin, line, key, None)

    def _decided(self, held: List[Piece], has_list: bool) -> Iterator[Piece]:
        """What has waited, once it is known whether members stand beside a list, or are a map from names to
        descriptors."""
        self._has_list = has_list
        self._is_map = self._is_map or not has_list and _is_map([(one.key, one.value) for one in self._waiting])
        found = {one.begin: item_of(one.key, self._label, one.line, one.value or "",
                                    self._options.kind or kind_of_name(one.key))
                 for one in self._waiting if self._is_map and not has_list
                 and (one.value is None or isinstance(one.value, str))}
        self._elements += len(found)
        self._others += [one for one in self._waiting if one.begin not in found]
        yield from [piece._replace(taken=found.get(piece.begin, piece.taken)) if piece.taken == _MEMBER else piece
                    for piece in held]
        held.clear()
        self._waiting.clear()

    def _rest(self) -> Iterator[Piece]:
        """The members that were read before damage, if they are those of a map."""
        waiting = list(self._waiting)
        if self._has_list or not self._is_map and not _is_map([(one.key, one.value) for one in waiting]):
            return
        held: List[Piece] = []
        before = self.taken
        for one in waiting:
            held += [Piece(before, one.begin, _COMMA if held else _AROUND)] if one.begin > before else []
            held.append(Piece(one.begin, one.end, _MEMBER))
            before = one.end
        yield from self._decided(held, False)


def _around(text: _Text, label: str, options: SourceOptions) -> Iterator[Piece]:
    """The pieces of an object that is read member by member."""
    return _Around(text, label, options).pieces()


class _Damaged(_Broken):
    """The text isn't JSON from a line of an object on, which may have a name."""

    def __init__(self, line: int, name: str, reason: str) -> None:
        super().__init__(reason)
        self.line, self.name = line, name


def _blanks(text: _Text) -> Iterator[Piece]:
    begin = text.place
    text.skip()
    if text.place > begin:
        yield Piece(begin, text.place, _BLANK)


def _damaged_item(label: str, line: int, last: int, name: str, reason: object) -> Item:
    """What stands for lines that are no JSON; last is 0 if all that follow are."""
    place = (f"{label}: from line {line} on" if not last else f"{label}: lines {line} to {last}" if last > line
             else f"{label}:{line}")
    return unreadable(name or place, label, line, f"the JSON is cut or damaged: {reason}", _AGAIN)


# A quotation mark behind a backslash begins no text. So no character is looked at again for each mark before it.
_NAMED = re.compile(r'(?<!\\)"((?:[^"\\\n]|\\.)*)"[ \t]*:[ \t]*("(?:[^"\\\n]|\\.)*")')
_KEY = re.compile(r'(?<!\\)"((?:[^"\\\n]|\\.)*)"[ \t]*:')


def _key_in(text: str) -> str:
    """The name of a damaged member, if it has one."""
    found = _KEY.findall(text)
    try:
        return str(json.loads(f'"{found[0]}"')) if len(found) == 1 else ""
    except ValueError:
        return ""


def _name_in(text: str) -> str:
    """The name that a damaged element has, if it has one."""
    found: Dict[str, List[str]] = {}
    for match in _NAMED.finditer(text):
        if plain_name(match[1]) in NAME_NAMES:
            found.setdefault(plain_name(match[1]), []).append(match[2])
    best = min(found, key=NAME_NAMES.index, default="")
    if not best or len(found[best]) > 1:
        return ""
    try:
        return str(json.loads(found[best][0]))
    except ValueError:
        return ""


class _Elements:
    """A list that is read element by element. taken is the place up to which all was given; start is how elements begin
    their lines, as far as it is known."""

    def __init__(self, text: _Text, label: str, options: SourceOptions) -> None:
        self._text, self._label, self._options = text, label, options
        self.taken = text.place
        self.start: Optional[_Start] = None
        self._tried: Optional[_Start] = None  # of the element at hand

    def pieces(self) -> Iterator[Piece]:
        """The elements, up to the end of their list. Where one is damaged, what follows is read from the next line on
        that begins as elements do."""
        text = self._text
        text.step()
        self.taken = text.place
        yield Piece(text.place - 1, text.place, _OPEN)
        while True:
            line = text.line
            try:
                for piece in self._pieces():
                    self.taken, line = piece.end, text.line
                    yield piece
                return
            except _Broken as error:
                is_found, passed = text.seek(_ANY_OBJECT if self.start is None and text.is_message()
                                             else self._following(self._tried))
                if text.fault is not None and not is_found:
                    raise
                name, last = (_name_in(passed), text.line - 1) if is_found else ("", 0)
                yield Piece(self.taken, text.place, _damaged_item(self._label, line, last, name, error), True)
                self.taken = text.place
                if not is_found:
                    text.is_lost = True
                    yield Piece(text.place, text.place, _CLOSE)
                    return

    def _following(self, damaged: Optional[_Start]) -> "Optional[re.Pattern[str]]":
        """How the line of the next element begins, if it can be told: as those before, or as the first one, which is
        damaged."""
        if self.start is not None or damaged is None:
            return self.start and self.start.pattern("]")
        if damaged.first == '"':
            return damaged.above() if damaged.blanks else None
        return _Start(damaged.blanks, "{").pattern("]")

    def _pieces(self) -> Iterator[Piece]:
        text = self._text
        yield from _blanks(text)
        while text.skip() != "]":
            begin, line = text.place, text.line
            self._tried = start = text.start()
            value, end = text.value(), text.place
            follows = text.skip()
            if follows == ":":
                raise _Broken("a name stands outside of an object")
            if isinstance(value, dict) or isinstance(value, str) and looks_like_descriptor(value):
                self.start = start or self.start
            self._tried = None
            yield Piece(begin, end, items_of_element(value, self._label, line, self._options))
            begin = end
            if follows == ",":
                text.step()
                if text.skip() == "]":
                    raise _Broken("an element is missing behind ','")
                yield Piece(begin, text.place, _COMMA)
            elif follows == "]":
                if text.place > begin:
                    yield Piece(begin, text.place, _BLANK)
            else:
                raise _Broken("',' or ']' is missing")
        text.step()
        yield Piece(text.place - 1, text.place, _CLOSE)


def _read(source: Texts, label: str, options: SourceOptions) -> Iterator[Piece]:
    """The objects of a JSON text, element by element; several texts may follow one another. Where one is damaged, what
    follows is read from the next line on that begins as it does, or as the one before does."""
    text = _Text(source)
    taken = 0
    before: Optional[_Start] = None  # of the last object that was read
    is_damaged = False
    while True:
        line, start, first = text.line, None, ""
        try:
            for piece in _blanks(text):
                taken = piece.end
                yield piece
            line, start, first = text.line, text.start(), text.skip()
            if not first:
                break
            for piece in _of_text(text, label, options, is_damaged):
                taken = piece.end
                yield piece
            before = start if start is not None and first == "{" else before
        except _Broken as error:
            if text.fault is not None:
                raise text.fault from error
            begun = before or start
            pattern = re.compile(f"\n{begun.blanks}(?=\\{{)") if begun is not None and begun.first == "{" else \
                None if first == "{" else _ANY_OBJECT if taken else _ANYTHING
            is_found, passed = text.seek(pattern)
            name, line = (error.name, error.line) if isinstance(error, _Damaged) else ("", line)
            name, last = (name or _name_in(passed), text.line - 1) if is_found else (name, 0)
            yield Piece(taken, text.place, _damaged_item(label, line, last, name, error), True)
            taken, is_damaged = text.place, True
            yield Piece(taken, taken, _CLOSE)
            if not is_found:
                break
    if text.fault is not None:
        raise text.fault


def _of_text(text: _Text, label: str, options: SourceOptions, is_damaged: bool) -> Iterator[Piece]:
    """What begins here. Behind damage it may be an element of a list whose begin is lost."""
    first = text.skip()
    begin, line = text.place, text.line
    if first == "[":
        yield from _Elements(text, label, options).pieces()
    elif first == "{":
        yield from _single(text, label, options)
    elif is_damaged and first in (",", "]"):
        text.step()
        yield Piece(begin, text.place, _COMMA if first == "," else _CLOSE)
    else:
        value, end = text.value(), text.place
        if text.skip() == ":":
            raise _Broken("a name stands outside of an object")
        if is_damaged and not (isinstance(value, str) and looks_like_descriptor(value)):
            raise _Broken("this is no element of a list")
        yield Piece(begin, end, items_of_element(value, label, line, options), True)


def _read_lines(source: Lines, label: str, options: SourceOptions) -> Iterator[Piece]:
    """The objects of JSON lines. A line that is none is one object."""
    for number, line in enumerate(source, 1):
        yield Piece(number, number + 1, *_of_line(line, label, number, options))


def _of_line(line: str, label: str, number: int, options: SourceOptions) -> Tuple[Union[Item, List[Item]], bool]:
    place = f"{label}:{number}"
    if not line.strip():
        return unreadable(place, label, number, "the line is empty", "look at the source"), False
    try:
        value = _DECODER.decode(line)
    except (ValueError, RecursionError) as error:
        return unreadable(place, label, number, f"the line is no JSON: {error}", _AGAIN), True
    return (_whole(value, label, number, options)
            or unreadable(place, label, number, "the list is empty", "look at the source"), False)


_BEGIN = re.compile(r'\s*(?:\{|\[(?:\s*\[)*\s*(?:[{"\]\d-]|true|false|null|\Z))')
_TEXT = re.compile(r'\s*"(?:[^"\\]|\\.)*"\s*\Z')
_LINE = re.compile(r'\s*(?:[{}\[\]]|"(?:[^"\\]|\\.)*"\s*:)')
_SECOND = re.compile(r'\s*(?:\[\s*)?\{\s*"|\s*\[(?:\s*\[)*\s*"')


def _recognizes(look: Look) -> bool:
    """Whether a text begins as JSON does, or a line behind what another program printed, or most lines, of which the
    first may be damaged."""
    full = look.full()
    return (bool(_BEGIN.match(look.text)) or any(map(_SECOND.match, full[1:5])) or len(full) > 3
            and 4 * sum(bool(_LINE.match(line)) for line in full) > 3 * len(full))


def _is_text(line: str) -> bool:
    """Whether a line is a text of JSON with a descriptor, as jq prints it."""
    return bool(_TEXT.match(line)) and looks_like_descriptor(line.strip()[1:-1])


def _recognizes_lines(look: Look) -> bool:
    full = look.full()
    texts = sum(map(_is_text, full))
    if texts:  # the first may be the title of a column
        return 2 * texts >= len(full) and (_is_text(full[0]) or not _TEXT.match(full[0]))
    return (len(full) > 1 and 2 * sum(line.lstrip()[:1] == "{" and line.rstrip()[-1:] == "}"
                                      for line in full) >= len(full))


FORMAT = Format("json", "Get-Acl | ConvertTo-Json, and others",
                "an element of a list, a member of a map, or one that is inside another",
                (_BLANK, _COMMA, _OPEN, _CLOSE, _AROUND, _MEMBER), _recognizes, _read,
                {_OPEN: _CLOSE}, "text", guess=BY_NAMES)
LINES_FORMAT = Format("jsonl", "any program that writes JSON in lines", "a line, also an empty one", (),
                      _recognizes_lines, _read_lines, guess=BY_NAMES)
