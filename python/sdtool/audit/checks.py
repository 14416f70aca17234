"""Checks of many descriptors for many tokens, asked together, and what findings say by them."""
import functools
import operator
from typing import Dict, FrozenSet, Iterable, List, NamedTuple, Optional, Sequence, Set, Tuple, Union

from sdtool.audit.findings import NO_MARK, Answer, Because, Mark, answer_of, unknown, unknown_of
from sdtool.audit.library import (ALLOWS, DENIES, INHERITED, MOST_SIDS, OTHERS, Ace, AnswersFault, Decided, Descriptor,
                                  Got, Reasons, Refusal, Token, granted, granted_by_each, layouts, mapped, text_of)
from sdtool.audit.masks import MAPPINGS
from sdtool.audit.shares import Limit
from sdtool.audit.sources.items import BY_PATH, UNTOLD, WITHOUT_OWNER
from sdtool.audit.windows import names as sids
from sdtool.audit.windows import rights
from sdtool.audit.windows.kinds import fitting, why_open


def why_unanswerable(descriptor: Descriptor, kind: str) -> Optional[Answer]:
    """Why no question about rights can be answered, though the descriptor was read."""
    for ace in [ace for ace in descriptor.aces if ace.is_odd]:
        if ace.kind not in ALLOWS | DENIES | OTHERS:
            return unknown(f"an ACE has the kind {ace.kind}, which isn't known here",
                           "look at the object on its own system")
        if not ace.counts or ace.kind in OTHERS:
            continue
        if ace.object_type and kind not in rights.DIRECTORY:
            return unknown("an ACE has an object type, so this is an object of a directory", "ask with --type ds")
    reason = why_open(descriptor, kind) if kind in (UNTOLD, BY_PATH) else ""
    kinds = ", ".join(fitting(descriptor)) or "none" if reason else ""
    return unknown(reason, f"name the kind with --type; the rights fit {kinds}") if reason else None


def trustee_token(sid: str) -> Token:
    """A token of a SID: itself, and what whoever has it has besides."""
    return Token(tuple(dict.fromkeys([sid, *sids.meaning_of(sid).also])))


class ObjectTypes:
    """The object types that ACEs which decide name, by trustee. About a type that no ACE names for a token the answer
    is that about the object as a whole, so it isn't asked."""

    def __init__(self, aces: Iterable[Ace]) -> None:
        self._places: Dict[str, int] = {}
        self._of: Dict[str, Dict[str, None]] = {}
        for ace in aces:
            if ace.object_type and ace.kind in ALLOWS | DENIES:
                self._places.setdefault(ace.object_type, len(self._places))
                self._of.setdefault(ace.sid, {})[ace.object_type] = None

    def of(self, token: Token) -> List[str]:
        """Those that may change what a token gets, in the order of the ACEs."""
        if not self._of:
            return []
        of_token = _sids_of(token)
        named = [sid for sid in of_token if sid in self._of] if len(of_token) < len(self._of) else \
            [sid for sid in self._of if sid in of_token]
        return sorted({one for sid in named for one in self._of[sid]}, key=self._places.__getitem__)


@functools.lru_cache(maxsize=1024)
def _sids_of(token: Token) -> FrozenSet[str]:
    """The SIDs of ACEs that may be for a token: its own, and those that may stand for one of them."""
    return frozenset([*(sid.lstrip("!") for sid in token.sids), sids.OWNER_RIGHTS, sids.PRINCIPAL_SELF])


_NO_TYPES = ObjectTypes(())
_FEW = 20  # checks of a token that are done one by one
MOST_TYPED = 20_000  # checks of a descriptor for object types


class Checks:
    """Checks of many descriptors, asked together: a token that many need in one run, and the other tokens one by
    one."""

    def __init__(self, form: str, texts: Sequence[str], kind: str, mask: int, domain: str,
                 limit: Optional[Limit] = None) -> None:
        self._form, self._texts, self._kind, self._mask, self._domain = form, texts, kind, mask, domain
        self._limit = limit
        self._asked: Dict[Tuple[Token, str], Dict[int, Optional[int]]] = {}
        self._reasons = Reasons(form, texts, kind, domain)
        self._types: Dict[int, ObjectTypes] = {}
        self._typed: Dict[int, int] = {}  # how many checks for object types a descriptor has
        self._crowded: Set[int] = set()  # descriptors of which somebody has more SIDs than a token

    def know(self, at: int, aces: Iterable[Ace]) -> None:
        """Says which ACEs decide about a descriptor."""
        self._types[at] = ObjectTypes(aces)

    def types(self, at: int, token: Token) -> List[str]:
        """The object types about which a token is asked."""
        return self._types.get(at, _NO_TYPES).of(token)

    def ask(self, at: int, token: Token, is_bound: bool = True) -> None:
        """Asks what a token gets of a descriptor, as a whole and for each object type that ACEs name for it. Tokens
        that don't come from the descriptor alone aren't bound."""
        if len(token.sids) > MOST_SIDS:
            self._crowded.add(at)
            return
        asked = self._asked.setdefault((token, ""), {})
        if at in asked:
            return
        asked[at] = None
        types = self.types(at, token)
        self._typed[at] = self._typed.get(at, 0) + len(types) * is_bound
        for object_type in types if self._typed[at] <= MOST_TYPED else ():
            self._asked.setdefault((token, object_type), {})[at] = None

    def too_many(self, at: int) -> Optional[Answer]:
        """Why a descriptor has no answer, if its trustees and object types are too many to be asked together, or the
        groups of a member."""
        if at in self._crowded:
            return unknown(f"its ACEs name more groups of somebody than the {MOST_SIDS:,} SIDs of a token",
                           "take groups out of the file")
        if self._typed.get(at, 0) <= MOST_TYPED:
            return None
        return unknown(f"its ACEs name more than {MOST_TYPED:,} pairs of a trustee and an object type",
                       "look at the object on its own system")

    def run(self) -> None:
        for asked in self._asked.values() if max(self._typed.values(), default=0) > MOST_TYPED else ():
            for at in filter(self.too_many, list(asked)):
                del asked[at]
        apart = list(dict.fromkeys(at for asked in self._asked.values() if len(asked) < _FEW for at in asked))
        bytes_of = dict(zip(apart, layouts(self._form, [self._texts[at] for at in apart], self._domain)))
        self._reasons.known.update(bytes_of)
        for (token, object_type), asked in self._asked.items():
            if len(asked) < _FEW:
                asked.update(zip(asked, granted_by_each([bytes_of[at] for at in asked], token, self._kind, self._mask,
                                                        object_type)))
                continue
            masks = granted(self._form, [self._texts[at] for at in asked], token, self._kind, self._mask, self._domain,
                            object_type)
            for at, mask in zip(asked, masks):
                if isinstance(mask, Refusal):
                    raise AnswersFault(f"a descriptor was explained and isn't checked: {mask.line}")
                asked[at] = mask

    def mask(self, at: int, token: Token, object_type: str = "") -> int:
        found = self._asked[token, object_type][at]
        assert found is not None
        return found & self._limit.mask(token) if self._limit else found

    def taken(self, at: int, token: Token, mask: int) -> int:
        """The rights of a mask that the object gives, and the share takes away by which it is reached."""
        return (self._asked[token, ""][at] or 0) & mask & ~self._limit.mask(token) if self._limit else 0

    def got(self, at: int, token: Token, mask: int) -> Got:
        """What a token gets of some rights."""
        plain = self.mask(at, token) & mask
        more = [(one, self.mask(at, token, one) & mask & ~plain) for one in self.types(at, token)]
        return Got(plain, tuple((one, extra) for one, extra in more if extra))

    def gives(self, at: int, token: Token, own: Sequence[str], right: int, types: Sequence[str]) -> bool:
        """Whether a token has a right where ACEs for any of some object types count, and those for the object's own
        class: the first one that decides does."""
        decided = [(one.number, one.grants) for object_type in dict.fromkeys([*types, *own])
                   for one in self._reasons.of(at, token, right, object_type)]
        return bool(decided) and min(decided)[1]

    def denied(self, at: int, token: Token, mask: int, object_type: str = "") -> int:
        """The rights of a mask that something denies to a token."""
        return functools.reduce(operator.or_,
                                (one.mask for one in self._decided(at, token, mask, object_type, False)), 0)

    def because(self, at: int, token: Token, mask: int, aces: Sequence[Ace], object_type: str = "",
                is_granted: bool = True, numbers: Optional[Sequence[int]] = None) -> Tuple[Because, ...]:
        """What grants a token the rights of a mask, or what denies them. aces are those of the object; numbers say
        which of them the descriptor has that is asked about, if it hasn't all."""
        found = []
        for one in self._decided(at, token, mask, object_type, is_granted):
            number = numbers[one.number - 1] if numbers and one.number else one.number
            text = text_of(aces[number - 1]) if number else one.word
            found.append(Because(number, text, rights.short_text(one.mask, self._kind), is_granted, one.mask))
        return tuple(found)

    def _decided(self, at: int, token: Token, mask: int, object_type: str, is_granted: bool) -> List[Decided]:
        return [one for one in self._reasons.of(at, token, mask, object_type) if one.grants == is_granted]


def of_allowed_types(descriptor: Descriptor, mask: int, kind: str) -> List[Ace]:
    """The ACEs for the object types by which ACEs may allow some of these rights."""
    types = {ace.object_type for ace in descriptor.deciding if ace.kind in ALLOWS and mapped(ace.mask, kind) & mask}
    return [ace for ace in descriptor.deciding if ace.object_type in types]


def as_owner(sid: str, descriptor: Descriptor) -> str:
    """A trustee: OWNER RIGHTS stands for the owner, if there is one."""
    return descriptor.owner if sid == sids.OWNER_RIGHTS else sid


def mark_of(because: Sequence[Because], aces: Sequence[Ace], kind: str, mask: int = -1) -> Mark:
    """The ACEs of reasons. aces are those of the object. Those with rights of a mask say where it is set."""
    grants = any(one.grants for one in because)
    named = sorted(one for one in because if one.number and one.grants == grants)
    if not named:
        return NO_MARK
    telling = [aces[one.number - 1] for one in named if one.mask & mask]
    listed = telling or [aces[one.number - 1] for one in named]
    first = next((ace for ace in listed if not ace.flags & INHERITED), listed[0])
    return Mark(tuple(dict.fromkeys(one.number for one in named)),
                key_of_ace(first, kind) if grants and telling else "", bool(first.flags & INHERITED),
                bool(first.flags & rights.inherits(kind)))


def key_of_ace(ace: Ace, kind: str) -> str:
    """What an ACE has in common with those that objects below have inherited of it."""
    return f"({ace.kind};{mapped(ace.mask, kind):#x};{ace.object_type};{ace.sid})"


class Share(NamedTuple):
    """Rights in words: those of an object itself, or those for one object type."""

    words: str
    claimed: int  # the mask of these words, which may be a level that has more rights
    text: str
    mask: int
    object_type: str


def shares_of(got: Got, kind: str, text: str, names: sids.Names, had: int = 0, asked: int = 0) -> List[Share]:
    """What somebody gets of the rights that were asked about, who had some more: those by object type say so."""
    found = []
    if got.mask:
        claimed, words = rights.level_of(got.mask, had or got.mask, asked or got.mask, kind)
        found.append(Share(words, claimed, text, got.mask, ""))
    for object_type, mask in got.by_type:
        bound = f"only for object type {names.object_type(object_type)}"
        text_of_type = f"{bound}; {text}" if text else bound
        found.append(Share(rights.short_text(mask, kind), mask, text_of_type, mask, object_type))
    return found


def asked_of(mask: int, kind: str) -> int:
    """The rights that checks ask for: those of a question, and those that the library tells with them."""
    return mask | rights.FULL[kind] & MAPPINGS[kind][1]


def kept_of(got: Got, wanted: rights.Wanted, kind: str) -> Got:
    """What somebody gets of the rights that a question wants."""
    by_type = [(one, wanted.kept(kind, got.mask | mask) & ~wanted.kept(kind, got.mask)) for one, mask in got.by_type]
    return Got(wanted.kept(kind, got.mask), tuple((one, mask) for one, mask in by_type if mask))


def refused(descriptor: Union[Descriptor, Refusal], kind: str, mask: int) -> Optional[Answer]:
    """The answer without any check: of a descriptor that can't be asked, or if nothing is asked about this kind."""
    if isinstance(descriptor, Refusal):
        return unknown_of(descriptor)
    if not mask and kind in rights.RULE_OF:
        return answer_of(())  # it grants its one right and nothing else
    if not mask:
        return unknown(f"these rights mean nothing for {rights.title(kind)}",
                       "ask for another right, or name the kind with --type")
    return why_unanswerable(descriptor, kind)


_ABOUT_PERMISSIONS = rights.READ_CONTROL | rights.WRITE_DAC | rights.WRITE_OWNER


def without_owner(descriptor: Descriptor, mask: int, kind: str, place: str) -> Optional[Answer]:
    """Why nobody is known to have rights that an owner has, where there is no owner: if an ACE is for the owner's
    rights; or else if the question is about permissions or the owner alone, or the source never has owners."""
    if descriptor.owner or descriptor.dacl != "list":
        return None
    of_owner = [ace for ace in descriptor.deciding if ace.sid == sids.OWNER_RIGHTS]
    if of_owner:
        is_open = any(ace.kind in ALLOWS and mapped(ace.mask, kind) & mask for ace in of_owner)
        why = "an ACE gives the owner some of these rights"
    else:
        is_open = bool(mask & rights.WRITE_DAC) and (not mask & ~_ABOUT_PERMISSIONS or place == WITHOUT_OWNER)
        why = "an owner can change permissions"
    return unknown(f"the source has no owner, and {why}", "export the object with its owner") if is_open else None
