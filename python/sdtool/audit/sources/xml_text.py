"""Objects in XML: an element whose children or attributes are titles and values, as ConvertTo-Xml, Export-Clixml and
databases write it."""
import itertools
import re
from typing import Dict, Iterator, List, Set, Tuple
from xml.parsers import expat

from sdtool.audit.sources.frame import BY_NAMES, Format, Look, Piece, Texts
from sdtool.audit.sources.items import Item, looks_like_descriptor, unreadable
from sdtool.audit.sources.json_text import items_of_element
from sdtool.audit.sources.naming import DESCRIPTOR_NAMES, NAME_NAMES, plain_name
from sdtool.audit.sources.options import SourceOptions

_BEGIN = re.compile(r"\s*<(?:\?xml\b|!DOCTYPE\b|!--|[A-Za-z_][\w:.-]*(?:\s+[\w:.-]+\s*=|\s*/?>))")
_TITLES = ("Name", "N", "name", "key")  # attributes that say what a value is
_KINDS = {"RegistrationInfo": "task"}
_BEHIND = (9, 17)  # what is wrong where another text begins: an element, or a declaration
_MARKUP = "markup and values that are no descriptors"
_MOST_DEPTH, _MOST_CHARACTERS = 200, 1 << 23
_AGAIN = "export the source again"


def _is_name(title: str, text: str) -> bool:
    return bool(text) and plain_name(title) in NAME_NAMES


class _Element:
    """An element that is open: its values by their titles."""

    def __init__(self, tag: str, attributes: Dict[str, str], line: int) -> None:
        self.tag, self.line = tag.rpartition(":")[2], line
        self.title = next((attributes[one] for one in _TITLES if one in attributes), self.tag)
        self.members: List[Tuple[str, str]] = [(name, text) for name, text in attributes.items()
                                               if name not in _TITLES[:2]]
        self.text: List[str] = []
        self.named = next((one for one in self.members if _is_name(*one)), None)
        self.has_objects = False

    def add(self, title: str, text: str) -> None:
        self.members.append((title, text))
        if self.named is None and _is_name(title, text):
            self.named = title, text


class _Objects:
    """What an XML text has, as far as it was read."""

    def __init__(self, label: str, options: SourceOptions) -> None:
        self._label, self._options = label, options
        self._open: List[_Element] = []
        self._tags: Set[str] = set()  # of elements that were objects
        # Elements with names, by their tags: others of these may be objects.
        self._named: Dict[str, List[Tuple[Dict[str, str], int]]] = {}
        self._length = 0
        self._found: List[Item] = []
        self._lines = self._bytes = 0  # before the text that the parser reads
        self._begin()

    def _begin(self) -> None:
        """Begins a text, which may stand behind another one."""
        self._open.clear()
        self._parser = expat.ParserCreate("utf-8")
        self._parser.StartElementHandler = self._start
        self._parser.EndElementHandler = self._end
        self._parser.CharacterDataHandler = self._text
        self._parser.EntityDeclHandler = self._entity
        self._parser.buffer_text = True
        self._bytes = 0

    @property
    def line(self) -> int:
        return self._lines + self._parser.CurrentLineNumber

    def parse(self, text: str) -> str:
        """Reads on, to the end if nothing comes; gives what is wrong."""
        data = text.encode("utf-8", "surrogatepass")
        while True:
            try:
                self._parser.Parse(data, not text)
                self._bytes += len(data)
                # The parser looks at markup again, from its begin on, until its end has come.
                is_long = 0 <= self._parser.CurrentByteIndex < self._bytes - _MOST_CHARACTERS
                return "a tag or a comment is too long" if is_long else ""
            except expat.ExpatError as error:
                data = data[max(0, self._parser.ErrorByteIndex - self._bytes):]
                if error.code not in _BEHIND or not self._parser.ErrorByteIndex or not data:
                    return str(error)
                self._lines += self._parser.ErrorLineNumber - 1
                self._begin()
            except ValueError as error:
                return str(error)

    def taken(self) -> List[Item]:
        """The objects that were found since the last call."""
        found, self._found = self._found, []
        return found

    def _entity(self, *_: object) -> None:
        raise ValueError("it declares entities")

    def _start(self, tag: str, attributes: Dict[str, str]) -> None:
        if len(self._open) > _MOST_DEPTH:
            raise ValueError("it has too many levels")
        self._open.append(_Element(tag, attributes, self.line))
        self._length = 0

    def _text(self, text: str) -> None:
        self._length += len(text)
        if self._length > _MOST_CHARACTERS:
            raise ValueError("a value is too long")
        if self._open:
            self._open[-1].text.append(text)

    def _end(self, tag: str) -> None:
        element = self._open.pop()
        is_object = any(self._is_descriptor(title, text) for title, text in element.members)
        if is_object or not element.has_objects and element.tag in self._tags and element.members:
            self._add(element.tag, self._members(element), element.line)
            is_object = True
        elif element.named and not element.has_objects:
            self._named.setdefault(element.tag, []).append((dict(element.members), element.line))
        text = "".join(element.text).strip()
        if self._open and (text or not is_object):
            self._open[-1].add(element.title, text)
        if self._open and (is_object or element.has_objects):
            self._open[-1].has_objects = True

    def _add(self, tag: str, members: Dict[str, str], line: int) -> None:
        """An object, and those before it that are called so."""
        options = self._options._replace(kind=self._options.kind or _KINDS.get(tag))
        self._tags.add(tag)
        for one, place in (*self._named.pop(tag, ()), (members, line)):
            self._found += items_of_element(one, self._label, place, options)

    def _is_descriptor(self, title: str, text: str) -> bool:
        chosen = self._options.descriptor_column
        if chosen:
            return title == chosen
        return looks_like_descriptor(text) or not text and plain_name(title) in DESCRIPTOR_NAMES

    def _members(self, element: _Element) -> Dict[str, str]:
        """The values of an object, with the name of what it is in if it has none of its own."""
        members: Dict[str, str] = {}
        for title, text in element.members:
            members[title if title not in members or members[title] == text else f"{title} "] = text
        named = element.named or next((one.named for one in reversed(self._open) if one.named), None)
        return members if element.named or named is None else {**members, named[0]: named[1]}


def _read(source: Texts, label: str, options: SourceOptions) -> Iterator[Piece]:
    """The objects of an XML text. Nothing behind damage is read: what is open there can't be told."""
    objects = _Objects(label, options)
    at = 0
    for text in itertools.chain(source, [""]):
        fault = objects.parse(text)
        found = objects.taken()
        if fault:
            if found:
                yield Piece(at, at, found)
            line = objects.line
            lost = unreadable(f"{label}: from line {line} on", label, line,
                              f"the XML is cut or damaged: {fault}", _AGAIN, options.kind or "file")
            yield Piece(at, source.units(), lost, True)
            return
        if text:
            yield Piece(at, at + len(text), found or _MARKUP)
        at += len(text)


def _recognizes(look: Look) -> bool:
    return bool(_BEGIN.match(look.text))


FORMAT = Format("xml", "ConvertTo-Xml, Export-Clixml, a task, a database",
                "an element with a descriptor, or of the same name", (_MARKUP,), _recognizes, _read, takes="text",
                guess=BY_NAMES)
