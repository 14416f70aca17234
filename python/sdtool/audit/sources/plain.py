"""One descriptor a line: SDDL, hex or base64."""
import re
from typing import Iterator, List, Optional

from sdtool.audit.sources.frame import BY_NAMES, Format, Lines, Look, Piece
from sdtool.audit.sources.items import UNTOLD, WITHOUT_OWNER, Item, item_of, unreadable
from sdtool.audit.sources.messages import strange_item
from sdtool.audit.sources.naming import DESCRIPTOR_NAMES, kind_of_name, kind_of_titles, plain_name
from sdtool.audit.sources.opening import chunks, encoding_of, lines, streams, without_cr
from sdtool.audit.sources.options import SourceOptions

# A name and SDDL in a line, as cacls /s prints them. SDDL begins with an owner, a group, flags or an ACE.
_BEHIND_NAME = re.compile(r"""(?<=[ \t:="'])(?:[OG]:(?:S-1-|[A-Z]{2}(?:[GDS]:|\Z))|[DS]:(?:P|AI|AR)*\()""", re.I)
_QUOTED = re.compile(r"""[ \t]*(?P<mark>["'`])(?P<text>[^"'`]+)(?P=mark)[ \t]*\Z""")


def _names_of(path: Optional[str]) -> Optional[List[str]]:
    if path is None:
        return None
    return [line for stream in streams(path, lambda count: None)
            for line in without_cr(lines(chunks(stream.raw, encoding_of(stream.head, None))))]


def _read(source: Lines, label: str, options: SourceOptions) -> Iterator[Piece]:
    """Each line is an object. Its name is the one in the same line of the file of names, else its place."""
    names = _names_of(options.names)
    for number, line in enumerate(source, 1):
        yield Piece(number, number + 1, _item(line, number, names, label, options.kind))


def _item(line: str, number: int, names: Optional[List[str]], label: str, given: Optional[str]) -> Item:
    name, kind = f"{label}:{number}", given or UNTOLD
    if names is not None:
        if number > len(names):
            return unreadable(name, label, number, "the file of names has no such line",
                              "the two lists have to be as long as each other", kind)
        name = names[number - 1]
        kind = given or kind_of_name(name)
    if not line.strip():
        return unreadable(name, label, number, "the line is empty", "look at what wrote the list", kind)
    quoted = _QUOTED.match(line)
    item = item_of(name, label, number, quoted["text"] if quoted else line, kind)
    if item.form or names is not None:
        return item
    named = _named_item(line, name, label, number, given)
    if named is not None:
        return named
    return strange_item(line, label, number, item.text, item.help, kind)


def _named_item(line: str, place: str, label: str, number: int, given: Optional[str]) -> Optional[Item]:
    """The object of a line with a name and SDDL. A title of descriptors is no name."""
    found = _BEHIND_NAME.search(line)
    if found is None:
        return None
    front, text = line[:found.start()], line[found.start():].rstrip()
    if front[-1] in "\"'" and text.endswith(front[-1]):
        text = text[:-1]
    front = re.sub("[\"']\\Z", "", front).rstrip(" \t:=").strip(" \t\"'")
    if not front or text.count("(") != text.count(")") or not (text[-1].isalnum() or text[-1] == ")"):
        return None
    name = place if plain_name(front) in DESCRIPTOR_NAMES else front
    kind = given or kind_of_titles([front]) or (kind_of_name(front) if name == front else UNTOLD)
    item = item_of(name, label, number, text, kind)
    return item if text[0] in "OGog" else item._replace(place=WITHOUT_OWNER)


def _recognizes(look: Look) -> bool:
    return True


FORMAT = Format("lines",
                "smbcacls --sddl, samba-tool ntacl get --as-sddl, cacls /s, or any list of SDDL, hex or base64",
                "a line, also an empty one", (), _recognizes, _read, is_sure=False, guess=BY_NAMES)
