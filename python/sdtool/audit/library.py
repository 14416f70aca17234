"""What the library answers about descriptors, and it alone: batches of lines in, one answer for each line out."""
import base64
import binascii
import functools
import re
from typing import Dict, Iterable, List, NamedTuple, Optional, Sequence, Tuple, Union

import sdtool
from sdtool._errors import MEANINGS
from sdtool._values import decisions
from sdtool._windows import ERRORS
from sdtool.audit.masks import (ALONE, BELOW, GENERIC, GENERIC_BITS, GENERIC_MEANINGS, MAPPINGS, SYSTEM_SECURITY,
                                WITHOUT_MAPPING)
from sdtool.audit.sources.opening import AS_THEY_CAME

# Kinds of ACEs whose meaning is known here; an object with another one is unknown.
ALLOWS, DENIES, OTHERS = frozenset({"A", "OA"}), frozenset({"D", "OD"}), frozenset({"AU", "OU", "ML"})
FLAGS = {"OI": 0x1, "CI": 0x2, "NP": 0x4, "IO": 0x8, "ID": 0x10, "SA": 0x40, "FA": 0x80}
OBJECT_INHERIT, CONTAINER_INHERIT, NO_PROPAGATE, INHERIT_ONLY, INHERITED = 0x1, 0x2, 0x4, 0x8, 0x10
PROTECTED = 0x1000  # control bit of a DACL that is cut off from inheritance
_MOST_ACES = 50_000   # that are kept, so that an ACE of many descriptors is read once
_BATCH = 4_000        # lines in one call
_BATCH_CHARACTERS = 4_000_000
_ERROR = re.compile(r"error ([0-9]+)\b")


class AnswersFault(Exception):
    """The library gave something else than one answer for each line, or refused the words."""


class WordsFault(ValueError):
    """The library refuses a SID or another word of the question."""


class Refusal(NamedTuple):
    """A descriptor that has no answer: the error line, and where the descriptor is wrong, in words and with carets
    below its text or digits. Both are empty where that isn't known."""

    line: str
    place: str = ""
    excerpt: str = ""

    @property
    def number(self) -> int:
        return int(_ERROR.match(self.line)[1])  # type: ignore[index]


class Ace(NamedTuple):
    """An ACE of the library, and what questions go by."""

    kind: str
    flags: int
    mask: int
    object_type: str  # a GUID, or nothing
    inherited_type: str
    sid: str
    counts: bool   # whether it is for the object itself, and not for its children alone
    decides: bool  # whether it also allows or denies
    is_odd: bool   # whether there may be a question that it can't be asked


class Descriptor(NamedTuple):
    """A descriptor of the library, and what questions go by. dacl and sacl are "absent", "null" or "list"."""

    control: int
    owner: str  # a SID, or nothing
    group: str
    dacl: str
    aces: Tuple[Ace, ...]
    sacl: str
    sacl_aces: Tuple[Ace, ...]
    deciding: Tuple[Ace, ...]  # those of the DACL that decide about the object itself


def reason_of(refusal: Refusal) -> Tuple[str, str]:
    """Why a descriptor has no answer, and what would help."""
    meaning, advice = ERRORS[refusal.number]
    return f"{meaning or MEANINGS[refusal.number]} ({refusal.line})", advice


def _refused(fault: sdtool.Fault) -> Refusal:
    """A fault, with its place where it has one."""
    return Refusal(fault.line, fault.where, fault.excerpt())


def _located(form: str, text: str, domain: Optional[sdtool.Sid], refusal: Refusal) -> Refusal:
    """A refusal of the program, with its place where that is in the text or in the bytes that it spells."""
    try:
        if form == "sddl":
            sdtool.from_sddl(text.rstrip("\r"), domain=domain)
        else:
            sdtool.normalize(bytes.fromhex(text) if form == "hex" else base64.b64decode(text))
    except sdtool.Fault as fault:
        if fault.line == refusal.line:
            return _refused(fault)
    except ValueError:
        pass  # the text spells no bytes
    return refusal


def _require_lines(texts: Sequence[str]) -> None:
    """Refuses an empty line or one of blanks: it would be a descriptor without a DACL, which grants everything."""
    for text in texts:
        if not text.strip(" \t\r\n") or "\n" in text:
            raise AnswersFault("a text is empty or has a line end")


def _run(words: Sequence[str], texts: Sequence[str]) -> str:
    """The output of the library."""
    _require_lines(texts)
    data = "\n".join(texts).encode("utf-8", AS_THEY_CAME) + b"\n"
    answers = sdtool.run(list(words), data)
    if answers.status not in (0, 1):
        raise WordsFault(f"{answers.message.strip() or 'the library failed'} (of {' '.join(words)})")
    return answers.output.decode("ascii")


def _batches(texts: Sequence[str]) -> List[Sequence[str]]:
    """The texts in pieces of a bounded size."""
    batches, start, characters = [], 0, 0
    for at, text in enumerate(texts):
        characters += len(text)
        if at + 1 - start >= _BATCH or characters >= _BATCH_CHARACTERS:
            batches.append(texts[start:at + 1])
            start, characters = at + 1, 0
    if start < len(texts):
        batches.append(texts[start:])
    return batches


def _ask(words: Sequence[str], texts: Sequence[str]) -> List[str]:
    """One line for each text."""
    answers: List[str] = []
    for batch in _batches(texts):
        found = _run(words, batch).split("\n")
        if found.pop() != "":
            raise AnswersFault("the last answer is cut")
        if len(found) != len(batch):
            raise AnswersFault(f"{len(batch)} lines have {len(found)} answers")
        answers += found
    return answers


def _domain(domain: str) -> List[str]:
    return ["--domain", domain] if domain else []


_DECIDE = ALLOWS | DENIES
_aces: Dict[sdtool.PlainAce, Ace] = {}


def _ace(plain: sdtool.PlainAce) -> Ace:
    found = _aces.get(plain)
    if found is None:
        kind, flags, mask, sid, object_type, inherited_type = plain
        counts, decides = not flags & INHERIT_ONLY, kind in _DECIDE
        is_odd = kind not in _DECIDE | OTHERS or bool(object_type) or mask & GENERIC != 0
        found = Ace(kind, flags, mask, object_type or "", inherited_type or "", sid, counts, decides and counts, is_odd)
        if len(_aces) >= _MOST_ACES:
            _aces.clear()
        _aces[plain] = found
    return found


class _Acl(NamedTuple):
    """An ACL: what it is, its ACEs, and those that decide about the object itself."""

    state: str
    aces: Tuple[Ace, ...]
    deciding: Tuple[Ace, ...]


def _acl(plain: Union[Tuple[sdtool.PlainAce, ...], str]) -> _Acl:
    if isinstance(plain, str):
        return _Acl(plain, (), ())
    aces = tuple(map(_ace, plain))
    return _Acl("list", aces, tuple([ace for ace in aces if ace.decides]))


def _described(found: Iterable[Union[sdtool.PlainDescriptor, sdtool.Fault]]) -> List[Union[Descriptor, Refusal]]:
    """Answers of one call of the library, in which ACLs that are the same are one object."""
    acls: Dict[int, Tuple[_Acl, object]] = {}  # by the identity of what the library gave, which stays here

    def acl_of(plain: Union[Tuple[sdtool.PlainAce, ...], str]) -> _Acl:
        known = acls.get(id(plain))
        if known is None:
            known = acls[id(plain)] = _acl(plain), plain
        return known[0]

    answers: List[Union[Descriptor, Refusal]] = []
    for one in found:
        if isinstance(one, sdtool.Fault):
            answers.append(_refused(one))
            continue
        owner, group, dacl, sacl, control, _ = one
        (state, aces, deciding), (sacl_state, sacl_aces, _) = acl_of(dacl), acl_of(sacl)
        answers.append(Descriptor(control, owner or "", group or "", state, aces, sacl_state, sacl_aces, deciding))
    return answers


def _given(form: str, text: str) -> Union[str, bytes, None]:
    """What the library is given for a text, or None if the program has to read it or to say what is wrong with it."""
    try:
        if form == "hex":
            return binascii.unhexlify(text)
        if form == "base64":
            data = binascii.a2b_base64(text)
            return data if binascii.b2a_base64(data, newline=False) == text.encode("ascii") else None
    except ValueError:
        return None
    return text if text.isascii() and text[-1:] != "\r" else None


@functools.lru_cache(maxsize=16)
def _sid_of_domain(domain: str) -> Optional[sdtool.Sid]:
    if not domain:
        return None
    _run(["convert", *_domain(domain)], [])  # refuses what the program refuses
    return sdtool.Sid(domain)


def _explained(form: str, texts: Sequence[str], domain: str) -> List[Union[Descriptor, Refusal]]:
    of_domain = _sid_of_domain(domain)
    given: List[Union[str, bytes, Refusal, None]] = [_given(form, text) for text in texts]
    odd = [at for at, one in enumerate(given) if one is None]
    for at, line in zip(odd, converted(form, [texts[at] for at in odd], "hex", domain)):
        given[at] = _located(form, texts[at], of_domain, line) if isinstance(line, Refusal) else bytes.fromhex(line)
    readable = [one for one in given if isinstance(one, (str, bytes))]
    found = _described(sdtool.plain_descriptors(readable, domain=of_domain))
    if len(found) != len(readable):
        raise AnswersFault(f"{len(readable)} descriptors have {len(found)} answers")
    answers = iter(found)
    return [one if isinstance(one, Refusal) else next(answers) for one in given]


def explained(form: str, texts: Sequence[str], domain: str = "") -> List[Union[Descriptor, Refusal]]:
    """The descriptors that texts of one form spell."""
    answers: List[Union[Descriptor, Refusal]] = []
    for batch in _batches(texts):
        _require_lines(batch)
        answers += _explained(form, batch, domain)
    return answers


def converted(form: str, texts: Sequence[str], to: str, domain: str = "") -> List[Union[str, Refusal]]:
    """Descriptors in another form. SDDL has its SIDs as numbers."""
    lines = _ask(["convert", "--from", form, "--to", to, "--numeric", *_domain(domain)], texts)
    return [Refusal(line) if line.startswith("error ") else line for line in lines]


def derived(texts: Sequence[str], container: bool, owner: str, group: str, kind: str) -> List[Union[str, Refusal]]:
    """What children of folders inherit. Folders and answers are SDDL whose SIDs are numbers."""
    lines = _ask(["derive", "--from", "sddl", "--numeric", "--kind", "container" if container else "file",
                  "--owner", owner, "--group", group, "--type", MAPPINGS[kind][0]], texts)
    return [Refusal(line) if line.startswith("error ") else line for line in lines]


MOST_SIDS = 1024  # of a token


class Token(NamedTuple):
    """Who asks: SIDs, those that are deny-only with '!' before them, and what else a check takes. missing says what the
    token lacks that the real one has; notes say what it may do beside what permissions grant."""

    sids: Tuple[str, ...]
    level: Optional[int] = None
    principal_self: str = ""
    privileges: Tuple[str, ...] = ()
    missing: str = ""
    notes: Tuple[str, ...] = ()


def _check_words(form: str, token: Token, kind: str, domain: str, object_type: str) -> List[str]:
    words = ["check", "--from", form, "--token", ",".join(token.sids), "--type", MAPPINGS[kind][0], *_domain(domain)]
    if token.level is not None:
        words += ["--level", str(token.level)]
    if object_type:
        words += ["--object", object_type]
    if token.principal_self:
        words += ["--self", token.principal_self]
    return words + [f"--{name}" for name in token.privileges]


def _mask_of(line: str) -> Union[int, Refusal]:
    """The rights that an answer grants."""
    word, _, mask = line.partition(" ")
    if word == "granted":
        return int(mask, 16)
    if word == "denied":
        return 0
    if word == "error":
        return Refusal(line)
    raise AnswersFault(f"no verdict: {line!r}")


def _single(rights: int, token: Token) -> List[int]:
    """Rights that GENERIC_ALL doesn't include, which are asked for one by one. A privilege alone grants access to the
    SACL."""
    rest = rights & ~GENERIC & ~(0 if "security" in token.privileges else SYSTEM_SECURITY)
    return [1 << place for place in range(32) if rest >> place & 1]


def granted(form: str, texts: Sequence[str], token: Token, kind: str, rights: int, domain: str = "",
            object_type: str = "") -> List[Union[int, Refusal]]:
    """Which of these single rights each descriptor grants to a token."""
    words = _check_words(form, token, kind, domain, object_type)
    everything = MAPPINGS[kind][1]
    masks: List[Union[int, Refusal]] = [0] * len(texts)
    if rights & everything:
        masks = [mask if isinstance(mask, Refusal) else mask & rights
                 for mask in map(_mask_of, _ask([*words, "--maximum"], texts))]
    for bit in _single(rights & ~everything, token):
        for at, mask in enumerate(map(_mask_of, _ask([*words, "--want", hex(bit)], texts))):
            before = masks[at]
            masks[at] = mask if isinstance(mask, Refusal) else before if isinstance(before, Refusal) else before | mask
    return masks


def layouts(form: str, texts: Sequence[str], domain: str = "") -> List[bytes]:
    """The bytes of descriptors that explain has read."""
    found = converted(form, texts, "hex", domain)
    for one in found:
        if isinstance(one, Refusal):
            raise AnswersFault(f"a descriptor was explained and isn't converted: {one.line}")
    return [bytes.fromhex(one) for one in found]  # type: ignore[arg-type]


def granted_by_each(descriptors: Sequence[bytes], token: Token, kind: str, rights: int,
                    object_type: str = "") -> List[int]:
    """What granted gives, for a few descriptors: it starts the program, which takes as long as twenty checks."""
    everything = MAPPINGS[kind][1]
    masks = [0] * len(descriptors)
    if rights & everything:
        ask = _checker(token, kind, object_type)
        masks = [verdict.mask & rights if verdict.granted else 0 for verdict in map(ask, descriptors)]
    for bit in _single(rights & ~everything, token):
        ask = _checker(token, kind, object_type, bit)
        masks = [mask | bit if ask(descriptor).granted else mask for mask, descriptor in zip(masks, descriptors)]
    return masks


def _checker(token: Token, kind: str, object_type: str, wanted: int = 0) -> sdtool.Checker:
    """Checks of a token for some rights, or for all that is granted."""
    holder = sdtool.Token([sid for sid in token.sids if sid[:1] != "!"], level=token.level,
                          deny_only=[sid[1:] for sid in token.sids if sid[:1] == "!"],
                          privileges=token.privileges)  # type: ignore[arg-type]
    return sdtool.Checker(holder, wanted, maximum=not wanted, mapping=MAPPINGS[kind][0],  # type: ignore[arg-type]
                          object_type=object_type or None, principal_self=token.principal_self or None)


class Got(NamedTuple):
    """What a token gets: rights of the object, and more rights by object type."""

    mask: int
    by_type: Tuple[Tuple[str, int], ...]

    @property
    def all(self) -> int:
        mask = self.mask
        for _, more in self.by_type:
            mask |= more
        return mask


class Decided(NamedTuple):
    """What decides about some rights: an ACE of the DACL, by its number from 1, or a rule, by a word."""

    number: int  # 0 for a rule
    word: str
    mask: int
    grants: bool


NO_DACL = "no DACL"
_WORDS = {"no-dacl": NO_DACL}
_GRANTING = frozenset({"no-dacl", "owner", "privilege", "granted"})


class Reasons:
    """Why a token has rights to a descriptor or not. Descriptors are read when they are first asked about."""

    def __init__(self, form: str, texts: Sequence[str], kind: str, domain: str) -> None:
        self._form, self._texts, self._kind, self._domain = form, texts, kind, domain
        self._checkers: Dict[Tuple[Token, str], sdtool.Checker] = {}
        self.known: Dict[int, bytes] = {}  # descriptors that were read

    def of(self, at: int, token: Token, mask: int, object_type: str = "") -> List[Decided]:
        """What decides about the rights of a mask, in the order of the rights; those about which nothing decides are
        left out."""
        found: Dict[Tuple[int, str, bool], int] = {}
        for kind, place, decided in decisions(self._checker(token, object_type), self._descriptor(at)):
            if mask & decided and kind != "nothing":
                grants = kind in _GRANTING
                key = ((place + 1, "", grants) if place is not None and kind in ("granted", "denied")
                       else (0, _WORDS.get(kind, kind), grants))
                found[key] = found.get(key, 0) | mask & decided
        told = [Decided(number, word, of_one, grants) for (number, word, grants), of_one in found.items()]
        return sorted(told, key=_first_right) if len(told) > 1 else told

    def _checker(self, token: Token, object_type: str) -> sdtool.Checker:
        found = self._checkers.get((token, object_type))
        if found is None:
            found = self._checkers[token, object_type] = _checker(token, self._kind, object_type)
        return found

    def _descriptor(self, at: int) -> bytes:
        found = self.known.get(at)
        if found is None:
            found = self.known[at] = self._read(self._texts[at])
        return found

    def _read(self, text: str) -> bytes:
        given = _given(self._form, text)
        if isinstance(given, bytes):
            return given
        if given is not None:
            try:
                return sdtool.from_sddl(given, domain=_sid_of_domain(self._domain))
            except sdtool.Fault:
                pass  # a text of which a run reads less
        return layouts(self._form, [text], self._domain)[0]


def _first_right(decided: Decided) -> int:
    return decided.mask & -decided.mask


_GENERIC_NAMES = {0x10000000: "GA", 0x20000000: "GX", 0x40000000: "GW", 0x80000000: "GR"}
_generic: Dict[str, Dict[int, int]] = {}


def _meanings(kind: str) -> Dict[int, int]:
    """What generic rights mean for a kind: by the library's mapping, or by the table's where the library has none."""
    if kind not in _generic:
        if kind in WITHOUT_MAPPING:
            _generic[kind] = dict(GENERIC_MEANINGS[kind])
        else:
            texts = [f"D:(A;;{name};;;WD)" for name in _GENERIC_NAMES.values()]
            found = granted("sddl", texts, Token(("WD",)), kind, MAPPINGS[kind][1])
            _generic[kind] = {bit: of_bit for bit, of_bit in zip(_GENERIC_NAMES, found) if isinstance(of_bit, int)}
    return _generic[kind]


def mapped(mask: int, kind: str) -> int:
    """A mask whose generic rights are replaced by what they mean for a kind, as a check replaces them, and so is a
    right that means others where it is alone."""
    if mask & GENERIC:
        for bit, of_bit in _meanings(kind).items():
            if mask & bit:
                mask |= of_bit
        mask &= ~GENERIC
    if kind in ALONE:
        alone, meant = ALONE[kind]
        if mask & meant == alone:
            mask |= meant
    return mask


def mapped_below(ace: Ace, kind: str) -> int:
    """The same of the mask of an ACE in what inherits it."""
    mappings = [mapping for flag, mapping in BELOW.get(kind, ()) if ace.flags & flag]
    if not mappings or not ace.mask & GENERIC:
        return mapped(ace.mask, kind)
    mask = ace.mask & ~GENERIC
    for mapping in mappings:
        for bit, of_bit in zip(GENERIC_BITS, mapping):
            mask |= of_bit if ace.mask & bit else 0
    return mask


_FLAG_NAMES = tuple((bit, name) for name, bit in FLAGS.items())


@functools.lru_cache(maxsize=_MOST_ACES)
def text_of(ace: Ace) -> str:
    """An ACE in SDDL."""
    return ace_text(ace, ace.flags, ace.mask)


def ace_text(ace: Ace, flags: int, mask: int) -> str:
    """An ACE in SDDL, with other flags and another mask."""
    named = "".join([name for bit, name in _FLAG_NAMES if flags & bit])
    return f"({ace.kind};{named};{mask:#x};{ace.object_type};{ace.inherited_type};{ace.sid})"


def spelled(descriptor: Descriptor, dacl: Sequence[str]) -> str:
    """A descriptor in SDDL, with other ACEs in its DACL. Its label stays, and so does a DACL that is absent or null."""
    owner = f"O:{descriptor.owner}" if descriptor.owner else ""
    acl = {"absent": "", "null": "D:NO_ACCESS_CONTROL"}.get(descriptor.dacl, "D:" + "".join(dacl))
    labels = "".join([ace_text(ace, ace.flags, ace.mask) for ace in descriptor.sacl_aces if ace.kind == "ML"])
    return owner + acl + (f"S:{labels}" if labels else "") or "G:S-1-0-0"


def with_mapping(descriptor: Descriptor, kind: str) -> str:
    """A descriptor in SDDL whose masks are replaced by what they mean for a kind."""
    return spelled(descriptor, [ace_text(ace, ace.flags, mapped(ace.mask, kind)) for ace in descriptor.aces])


def answerable(form: str, texts: Sequence[str], descriptors: Sequence[Union[Descriptor, Refusal]], kind: str,
               ) -> Tuple[str, Sequence[str]]:
    """The texts that the library is asked about. Where it has no mapping for a kind, masks are replaced in them."""
    if kind not in WITHOUT_MAPPING or not any(
                isinstance(one, Descriptor) and any(mapped(ace.mask, kind) != ace.mask for ace in one.aces)
            for one in descriptors):
        return form, texts
    return "sddl", [with_mapping(one, kind) if isinstance(one, Descriptor) else "G:S-1-0-0" for one in descriptors]


def sid_of_value(data: bytes) -> str:
    """The text of a SID that a directory has: in binary, or as text from ldbsearch."""
    if data.startswith(b"S-"):
        return sid_of_text(data.decode("latin-1"))
    header = bytes([1, 0, 0, 0x80, 20, 0, 0, 0]) + bytes(12)
    answer = _ask(["convert", "--numeric"], [(header + data).hex()])[0]
    if not answer.startswith("O:S-1-"):
        raise ValueError(f"no SID: {answer}")
    return answer[2:]


def sid_of_text(text: str, domain: str = "") -> str:
    """The text of a SID with numbers alone, of a SID or an alias."""
    if not text.strip() or "\n" in text:
        raise WordsFault("a SID is empty")
    answer = _ask(["convert", "--from", "sddl", "--numeric", *_domain(domain)], ["O:" + text.strip()])[0]
    if not answer.startswith("O:S-1-") or ":" in answer[2:]:
        refusal = Refusal(answer) if answer.startswith("error ") else None
        raise WordsFault(f"{text!r} is no SID" + (f": {reason_of(refusal)[0]}" if refusal else ""))
    return answer[2:]
