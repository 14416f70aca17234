"""Words for rights, for each kind of object."""
import functools
from typing import Dict, List, NamedTuple, Sequence, Tuple

from sdtool._windows import KINDS as _OF_WINDOWS
from sdtool.audit.masks import GENERIC, ROWS, SYSTEM_SECURITY
from sdtool.audit.sources.items import BY_PATH, UNTOLD

_MOST_TEXTS = 10_000  # of masks that are kept
KINDS = tuple(_OF_WINDOWS)
OF_FILES = frozenset(("file", "folder", UNTOLD, BY_PATH))
DIRECTORY = frozenset(kind for kind, row in ROWS.items() if row["library"] == "ds")
# Attributes whose values are descriptors: their kinds have one right, and the rule that finds it.
RULE_OF: Dict[str, str] = {kind: row["rule"] for kind, row in ROWS.items() if row["rule"]}
FULL: Dict[str, int] = {kind: row["mapping"][3] for kind, row in ROWS.items()}

DELETE, READ_CONTROL, WRITE_DAC, WRITE_OWNER = 0x10000, 0x20000, 0x40000, 0x80000
DELETE_CHILD = 0x40  # of a folder
TAKE_OVER = WRITE_DAC | WRITE_OWNER
_RESERVED = 0x0e000000  # bits 25 to 27 are no rights of an object

BITS: Dict[str, Tuple[Tuple[int, str], ...]] = {
    kind: tuple((right[0], right[1]) for right in row["rights"]) for kind, row in ROWS.items()}
_WORDS = ("change", "write", "delete", "permissions", "owner", "read", "execute", "attributes", "start", "stop",
          "control", "remote")


def _mask_of(kind: str, word: str) -> int:
    return sum(right[0] for right in ROWS[kind]["rights"] if word in right[5])


# Each word has a mask for each kind; one right of the mask is enough.
WORDS: Dict[str, Dict[str, int]] = {word: {kind: _mask_of(kind, word) for kind in ROWS} for word in _WORDS}
# What these words need can be said by SDDL's names of rights as well.
NAMES = {"CC": 0x1, "DC": 0x2, "LC": 0x4, "SW": 0x8, "RP": 0x10, "WP": 0x20, "DT": 0x40, "LO": 0x80, "CR": 0x100,
         "SD": DELETE, "RC": READ_CONTROL, "WD": WRITE_DAC, "WO": WRITE_OWNER}
# All bits that mean something for a kind.
EVERYTHING: Dict[str, int] = {kind: FULL[kind] | sum(bit for bit, _ in BITS[kind]) for kind in ROWS}


class RightsFault(ValueError):
    """A word names no right."""


class Wanted(NamedTuple):
    """Rights that a question asks about: the words, and masks for each kind. One right of masks is enough, and all of
    whole are needed together."""

    words: str
    masks: Dict[str, int]
    whole: Dict[str, int]

    @property
    def deletes(self) -> bool:
        """Whether it is asked who may delete an object."""
        return "delete" in self.words.lower().split()

    def all_of(self, kind: str) -> int:
        return self.masks[kind] | self.whole[kind]

    def kept(self, kind: str, mask: int) -> int:
        """The rights of a mask that are wanted."""
        whole = self.whole[kind]
        return mask & self.masks[kind] | (whole if mask & whole == whole else 0)


FULL_WORD = "full"  # every right of a kind together


def _mask(word: str) -> Dict[str, int]:
    if word.lower() in WORDS:
        return WORDS[word.lower()]
    if word.upper() in NAMES:
        return dict.fromkeys(ROWS, NAMES[word.upper()])
    try:
        mask = int(word, 0)
    except ValueError:
        known = ", ".join((*WORDS, FULL_WORD))
        raise RightsFault(f"{word!r} is no right: the words are {known}, a name of SDDL such as DC, or a mask such "
                          "as 0x2") from None
    if not 0 < mask < 1 << 32 or mask & (_RESERVED | GENERIC):
        raise RightsFault(f"{word!r} is no mask of single rights: it has to be above 0, without the bits of 0xfe000000")
    return dict.fromkeys(ROWS, mask)


def wanted(words: Sequence[str]) -> Wanted:
    """The rights that words name, any of them."""
    masks = dict.fromkeys(ROWS, 0)
    whole = dict.fromkeys(ROWS, 0)
    for word in words:
        if word.lower() == FULL_WORD:
            whole = dict(FULL)
            continue
        for kind, mask in _mask(word).items():
            masks[kind] |= mask
    return Wanted(" ".join(words), masks, whole)


@functools.lru_cache(maxsize=_MOST_TEXTS)
def text(mask: int, kind: str) -> str:
    """The rights of a mask in words."""
    named: List[str] = []
    for bit, name in BITS[kind]:
        if mask & bit:
            named.append(name)
            mask &= ~bit
    if mask & SYSTEM_SECURITY:
        named.append("access the SACL")
        mask &= ~SYSTEM_SECURITY
    for bit, name in ((0x10000000, "generic all"), (0x20000000, "generic execute"), (0x40000000, "generic write"),
                      (0x80000000, "generic read")):
        if mask & bit:
            named.append(name)
            mask &= ~bit
    if mask:
        named.append(f"{mask:#x}")
    return ", ".join(named) or "nothing"


# What Windows' dialogs call these masks, the widest first.
_NAMED: Dict[str, Tuple[Tuple[int, str], ...]] = {
    kind: tuple((mask, name[:1].upper() + name[1:])
                for mask, name in sorted(row["masks"], key=lambda one: -bin(one[0]).count("1")))
    for kind, row in ROWS.items()}
_WHOLE = {(kind, mask): name for kind, named in _NAMED.items() for mask, name in named}
_FULL_NAME = {kind: _WHOLE.get((kind, row["mapping"][3]), "") for kind, row in ROWS.items()}


@functools.lru_cache(maxsize=_MOST_TEXTS)
def short_text(mask: int, kind: str) -> str:
    """The rights of a mask in words, with a word for all of them together."""
    if (kind, mask) in _WHOLE:
        return _WHOLE[kind, mask]
    if mask == WORDS["change"][kind]:
        return "every right to change"
    everything, name = FULL[kind], _FULL_NAME[kind]
    if name and mask & everything == everything:
        rest = mask & ~everything
        return name + (f", {text(rest, kind)}" if rest else "")
    return text(mask, kind)


@functools.lru_cache(maxsize=_MOST_TEXTS)
def level_of(found: int, had: int, asked: int, kind: str) -> Tuple[int, str]:
    """The rights that were found of those asked about, in words, and the mask of these words: a level of Windows'
    dialogs that somebody had as a whole, if of what it has the found rights alone were asked about."""
    for mask, name in _NAMED[kind]:
        if mask & had == mask and mask & asked == found:
            return mask, name
    return found, short_text(found, kind)


def risk_of(kind: str, risks: Tuple[str, ...]) -> int:
    """The rights of a kind whose having is a risk of one of these words."""
    return sum(right[0] for right in ROWS[kind]["rights"] if right[6] in risks)


def runs_code(kind: str) -> bool:
    """Whether a right of a kind, beside the standard ones, runs code as another account."""
    return bool(risk_of(kind, ("takeover",)) & (DELETE - 1))


_INHERITS: Dict[str, int] = {kind: {"": 0, "CI": 0x2, "OICI": 0x3}[row["inherits"]] for kind, row in ROWS.items()}


def inherits(kind: str) -> int:
    """The flags by which children inherit an ACE."""
    return _INHERITS[kind]


def title(kind: str) -> str:
    """What an object of a kind is called."""
    return str(ROWS[kind]["title"])


def child_of(kind: str) -> str:
    """What is made in an object of a kind."""
    return str(ROWS[kind]["child"])


def is_owner_usual(kind: str) -> bool:
    """Whether the user who made an object usually owns it."""
    return bool(ROWS[kind]["owner"] == "usual")
