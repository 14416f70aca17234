"""What packaging/sdtool-collect.ps1 writes: a line of JSON for each object, which says its kind itself."""
import json
import re
from typing import Any, Dict, Iterator, List, Optional, Tuple, Union

from sdtool._windows import KINDS
from sdtool.audit.sources.frame import Format, Lines, Look, Piece
from sdtool.audit.sources.items import Item, item_of, unreadable
from sdtool.audit.sources.naming import place_of_classes
from sdtool.audit.sources.options import SourceOptions

_HEAD, _COUNT = 'the head ({"sdtool-collect": 1})', 'the count ({"Objects": N})'
_FIRST, _LAST = {"sdtool-collect": 1}, "Objects"
_LINE = re.compile(r'\{"sdtool-collect":|\{"Name":.*"Kind":.*"Sddl":')
_AGAIN = "run sdtool-collect.ps1 again"
_MEMBERS = {"Name", "Kind", "Sddl", "Reason", "ObjectClass"}


def _members(pairs: List[Tuple[str, Any]]) -> Dict[str, Any]:
    found = dict(pairs)
    if len(found) != len(pairs):
        raise ValueError("a member is there twice")
    return found


def _fault(value: Any) -> str:
    """Why a line is none of an object, or nothing."""
    if not isinstance(value, dict) or not value.keys() <= _MEMBERS or not {"Name", "Kind", "Sddl"} <= value.keys():
        return "the line hasn't the members Name, Kind and Sddl, or has others"
    if not all(isinstance(one, str) or one is None and name == "Sddl" for name, one in value.items()):
        return "a member is no text"
    if not value["Name"].strip():
        return "the object has no name"
    return "" if value["Kind"] in KINDS else f"the kind {value['Kind']!r} isn't known here"


def _item(value: Dict[str, str], label: str, number: int, kind: Optional[str]) -> Item:
    name, kind, text = value["Name"], kind or value["Kind"], value["Sddl"]
    if text is None:
        reason = value.get("Reason") or "there is no descriptor"
        return unreadable(name, label, number, reason, "run sdtool-collect.ps1 as an administrator", kind)
    found = item_of(name, label, number, text, kind)
    is_folder = {"file": False, "folder": True}.get(kind)
    return found._replace(is_folder=is_folder, place=place_of_classes(name, value.get("ObjectClass", ""), kind)) \
        if found.form else found


def _read(source: Lines, label: str, options: SourceOptions) -> Iterator[Piece]:
    count = 0
    for number, line in enumerate(source, 1):
        place, taken = f"{label}:{number}", None  # type: str, Union[Item, str, None]
        try:
            value = json.loads(line, object_pairs_hook=_members)
        except (ValueError, RecursionError) as error:
            value, taken = None, unreadable(place, label, number, f"the line is no JSON: {error}", _AGAIN)
        if taken is None and value == _FIRST:
            count, taken = 0, _HEAD
        elif taken is None and isinstance(value, dict) and value.keys() == {_LAST}:
            if value[_LAST] != count:
                said = f"{value[_LAST]} lines are said to be there, and {count} came"
                yield Piece(number, number, unreadable(f"{label}: the rest", label, number, said, _AGAIN))
            taken = _COUNT
        else:
            count += 1
            fault = "" if taken else _fault(value)
            taken = taken or (unreadable(place, label, number, fault, _AGAIN) if fault else
                              _item(value, label, number, options.kind))
        yield Piece(number, number + 1, taken, isinstance(taken, Item) and taken.name == place)


def _recognizes(look: Look) -> bool:
    full = look.full()
    return bool(full) and 2 * sum(map(bool, map(_LINE.match, full))) >= len(full)


FORMAT = Format("collected", "sdtool-collect.ps1", "a line", (_HEAD, _COUNT), _recognizes, _read, {_HEAD: _COUNT})
