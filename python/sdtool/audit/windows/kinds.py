"""Which kinds of objects have the rights of a descriptor, where a source doesn't tell what its objects are."""
import functools
import operator
from typing import Dict, List, Sequence

from sdtool._windows import KINDS
from sdtool.audit.library import OTHERS, Ace, Descriptor
from sdtool.audit.sources.items import BY_PATH
from sdtool.audit.windows import rights

_SYNCHRONIZE = 0x100000
_SPECIFIC = 0xffff     # the rights that each kind has its own of
_OF_ALL = 0xf30f0000   # generic and standard ones, and two that a token alone has
_OTHERS = _SPECIFIC | 0xe0000000  # those whose meaning depends on the kind: standard ones and all together have one


def _known(kind: str) -> int:
    """Every bit that a kind gives a meaning."""
    row = KINDS[kind]
    masks = [*row["mapping"], *(mask for _, below in row["below"] for mask in below),
             *(mask for mask, _ in row["masks"]), *(right[0] & _SPECIFIC for right in row["rights"])]
    return functools.reduce(operator.or_, masks, _OF_ALL)


_KNOWN: Dict[str, int] = {kind: _known(kind) for kind in KINDS}


def _telling(descriptor: Descriptor) -> List[Ace]:
    """The ACEs whose masks tell of a kind: those that decide, or else those that audit."""
    masked = [ace for ace in (*descriptor.aces, *descriptor.sacl_aces) if ace.kind != "ML" and ace.mask]
    return [ace for ace in masked if ace.kind not in OTHERS] or masked


def _all(aces: Sequence[Ace]) -> int:
    return functools.reduce(operator.or_, (ace.mask for ace in aces), 0)


def why_open(descriptor: Descriptor, kind: str) -> str:
    """Why an object may be none of a file system, though no source tells what it is; or nothing. Windows gives
    SYNCHRONIZE to everybody who may do anything with a file, and a path may be that of a program."""
    aces = _telling(descriptor)
    mask = _all(aces)
    if mask & ~_KNOWN["file"]:
        return "the rights fit no file or folder"
    if mask & _SYNCHRONIZE or not mask & (_SPECIFIC if kind == BY_PATH else _OTHERS):
        return ""
    return "the rights fit several kinds of objects, and nothing tells which this is"


def fitting(descriptor: Descriptor) -> List[str]:
    """The kinds that have all rights of a descriptor."""
    mask = _all(_telling(descriptor))
    return [kind for kind, known in _KNOWN.items() if not mask & ~known and kind not in rights.RULE_OF]


def is_folder(descriptor: Descriptor, kind: str) -> bool:
    """Whether an object is a folder: files hand nothing on."""
    return kind == "folder" or kind in rights.OF_FILES and any(ace.flags & rights.inherits(kind)
                                                               for ace in descriptor.aces)
