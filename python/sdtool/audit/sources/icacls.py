"""What icacls /save writes: a line with a name and a line with an ACL by turns."""
import re
from typing import Iterator, Optional, Tuple

from sdtool.audit.sources.frame import BY_NAMES, Format, Lines, Look, Piece
from sdtool.audit.sources.items import WITHOUT_OWNER, item_of, looks_like_descriptor, unreadable
from sdtool.audit.sources.messages import named_in, strange_item
from sdtool.audit.sources.naming import kind_of_name
from sdtool.audit.sources.options import SourceOptions

_ACL_LINE = re.compile(r"[ \t]*[DSOG]:(?![\\/])", re.I)  # D:\Data is a path
_OWNER = re.compile(r"[ \t]*[OG]:", re.I)
_ACL_END = re.compile(r"\)\s*\Z|:[A-Z_]*\s*\Z", re.I)
_AGAIN = "run icacls /save again"
_BLANK = "a blank line before a name"
_MOST_ALONE = 20  # names with ACLs for each ACL alone


def _is_name(line: str) -> bool:
    return not (_ACL_LINE.match(line) or "\t" in line or looks_like_descriptor(line) or named_in(line) is not None)


def _recognizes(look: Look) -> bool:
    """Whether ACLs stand behind names. icacls writes no owner: with owners nearly all have to, since between the lines
    of a list may stand what a program said of those that it could not read."""
    full = look.full()
    are_names = [_is_name(line) for line in full]
    are_acls = [bool(_ACL_LINE.match(line) and _ACL_END.search(line)) for line in full]
    pairs = sum(is_name and is_acl for is_name, is_acl in zip(are_names, are_acls[1:]))
    alone = sum(are_acls) - pairs
    if any(map(_OWNER.match, full)):
        return are_names[0] and pairs > _MOST_ALONE * alone
    # Lines of a list may be hex and base64 beside SDDL.
    return pairs > max(2 * alone, sum(not _ACL_LINE.match(line) and looks_like_descriptor(line) for line in full))


def _read(source: Lines, label: str, options: SourceOptions) -> Iterator[Piece]:
    """A line out of step costs its own object and no other."""
    kind = options.kind or "file"
    name: Optional[Tuple[int, str]] = None
    for number, line in enumerate(source, 1):
        is_acl = bool(_ACL_LINE.match(line))
        if name is not None and (is_acl or not line.strip()):
            # Where the form is a guess, it tells no more of a kind than another list with names.
            told = kind if options.kind or options.format else kind_of_name(name[1])
            item = item_of(name[1], label, name[0], line, told)
            yield Piece(name[0], number + 1, item if _OWNER.match(line) else item._replace(place=WITHOUT_OWNER))
            name = None
            continue
        if name is not None:
            yield Piece(name[0], number, unreadable(name[1], label, name[0], "no ACL follows the name", _AGAIN,
                                                    kind), True)
        name = None
        if is_acl:
            lost = unreadable(f"{label}:{number}", label, number, "no name stands before this ACL", _AGAIN, kind)
            yield Piece(number, number + 1, lost, True)
        elif not line.strip():
            yield Piece(number, number + 1, _BLANK)
        elif named_in(line) is not None:
            yield Piece(number, number + 1, strange_item(line, label, number, "", "", kind), True)
        else:
            name = number, line
    if name is not None:
        yield Piece(name[0], name[0] + 1,
                    unreadable(name[1], label, name[0], "the source ends before its ACL", _AGAIN, kind))


FORMAT = Format("icacls", "icacls FOLDER /save FILE /t", "a name with its ACL, also without", (_BLANK,),
                _recognizes, _read, is_sure=False, guess=BY_NAMES)
