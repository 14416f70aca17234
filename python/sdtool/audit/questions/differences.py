"""What changed between two lists of the same objects."""
import collections
from typing import Any, Callable, Dict, Iterable, Iterator, List, NamedTuple, Optional, Sequence, Tuple, Union

from sdtool.audit.checks import Checks, as_owner, trustee_token, why_unanswerable
from sdtool.audit.directory.trees import Repeats, is_cut, is_rest, unnamed
from sdtool.audit.engine import NO_PLACES, Answered, Engine
from sdtool.audit.findings import ADDED, CHANGED, GONE, SAME, Answer, Finding, Rule, complete, unknown, unknown_of
from sdtool.audit.library import FLAGS, Ace, Descriptor, Refusal, answerable, converted, explained
from sdtool.audit.protocols import Context
from sdtool.audit.sources.items import HEX, SDDL, UNREADABLE, Item, unreadable
from sdtool.audit.sources.opening import OpeningFault
from sdtool.audit.store.scratch import COLUMNS, Scratch, item_of, row_of, stored
from sdtool.audit.windows import names as sids
from sdtool.audit.windows import rights
from sdtool.audit.windows.aces import ace_in_words

_PAIR = "pair"
_PART = "\0"  # between the parts of a text that is asked about; no descriptor has it
_CONTROLS = ((0x1000, "DACL protected"), (0x2000, "SACL protected"), (0x400, "DACL made by inheritance"),
             (0x800, "SACL made by inheritance"), (0x100, "DACL asks for inheritance"),
             (0x200, "SACL asks for inheritance"),
             (0x1, "owner by default"), (0x2, "group by default"), (0x8, "DACL by default"), (0x20, "SACL by default"),
             (0x40, "bit 0x40"), (0x80, "bit 0x80"), (0x4000, "resource manager byte counts"))


class _Side(NamedTuple):
    form: str
    text: str


class _Pair(NamedTuple):
    old: _Side
    new: _Side


def _pair_of(text: str) -> _Pair:
    old_form, old, new_form, new = text.split(_PART)
    return _Pair(_Side(old_form, old), _Side(new_form, new))


class Differences:
    """Compares objects by name: by the content of their descriptors, not by their spelling."""

    rules = (Rule("owner", "The owner or the group changed."), Rule("ace", "An ACE was added, removed or changed."),
             Rule("order", "The same ACEs are in another order."),
             Rule("acl", "An ACL as a whole came, went or became null."),
             Rule("control", "A flag of the descriptor changed."),
             Rule("rights", "A trustee gets more or less than before."))

    asks_places = NO_PLACES

    def __init__(self, context: Context) -> None:
        self._context = context
        self._scratch = Scratch()
        self._cut: Dict[str, Item] = {}  # what stands for the rest of a list
        self.seen = 0

    def __getstate__(self) -> Dict[str, Any]:
        return {"_context": self._context}  # all that an answer takes

    def read(self, table: str, items: Iterable[Item], root: str = "") -> None:
        """Reads one of the lists, "old" or "new". Names are compared without the root that they begin with."""
        self._scratch.create(table, ", key, nth")
        self._scratch.fill(table, _numbered(self._noted(table, items), root), 10)
        self._scratch.database.execute(f"CREATE INDEX {table}_key ON {table}(key, nth)")
        if root and not any(self._scratch.select(f"SELECT 1 FROM {table} WHERE key IS NOT name LIMIT 1")):
            raise OpeningFault(f"--{table}-root: no name of the {table} list begins with {root}")

    def _noted(self, table: str, items: Iterable[Item]) -> Iterator[Item]:
        """The objects of a list. What stands for its rest is noted."""
        item = None
        for item in items:
            if is_rest(item):
                self._cut.setdefault(table, item)
            yield item
        if item is not None and is_cut(item):
            self._cut.setdefault(table, item)

    def answered(self, engine: Engine) -> Iterator[Answered]:
        """Every object of both lists with its answer: those of the new list in its order, then those that are gone.
        What may stand behind the place where the other list is cut is neither new nor gone."""
        yield from engine.answer(_joined(self._scratch, self._cut))
        query = ("SELECT (SELECT count(*) FROM new) + count(*) FROM old LEFT JOIN new ON new.key = old.key AND new.nth "
                 "= old.nth WHERE new.id IS NULL")
        self.seen = next(self._scratch.select(query))[0]

    def answer(self, form: str, kind: str, texts: Sequence[str], place: str = "") -> List[Answer]:
        if form != _PAIR:
            sides = [_Side(*text.split(_PART)) for text in texts]
            return [unknown_of(one) if isinstance(one, Refusal) else Answer(form)
                    for one in self._explained(sides)]
        pairs = list(map(_pair_of, texts))
        old, new = self._explained([pair.old for pair in pairs]), self._explained([pair.new for pair in pairs])
        same = self._same(pairs)
        answers: List[Optional[Answer]] = []
        changed: List[int] = []
        for at, (before, after) in enumerate(zip(old, new)):
            if isinstance(before, Refusal) or isinstance(after, Refusal):
                answers.append(_unknown_pair(before, after))
            elif same[at]:
                answers.append(Answer(SAME))
            else:
                answers.append(None)
                changed.append(at)
        for at, findings in self._changes(pairs, old, new, changed, kind):
            answers[at] = Answer(CHANGED, tuple(findings))
        return complete(answers)

    def _explained(self, sides: Sequence[_Side]) -> List[Union[Descriptor, Refusal]]:
        return self._by_form(sides, lambda form, texts: explained(form, texts, self._context.domain))

    @staticmethod
    def _by_form(sides: Sequence[_Side], ask: Callable[[str, List[str]], List[Any]]) -> List[Any]:
        """Asks about sides of several forms, and gives the answers in the order of the sides."""
        found: List[Any] = [None] * len(sides)
        for form in dict.fromkeys(side.form for side in sides):
            places = [at for at, side in enumerate(sides) if side.form == form]
            for at, answer in zip(places, ask(form, [sides[at].text for at in places])):
                found[at] = answer
        return found

    def _same(self, pairs: Sequence[_Pair]) -> List[bool]:
        """Whether the sides of each pair have the same content, as far as both forms can say it."""
        # SDDL has no text for some control bits, so a descriptor in bytes is compared with SDDL as SDDL.
        through = [SDDL if SDDL in (pair.old.form, pair.new.form) else HEX for pair in pairs]
        same = [False] * len(pairs)
        for to in dict.fromkeys(through):
            places = [at for at, one in enumerate(through) if one == to]
            both = [self._by_form([getattr(pairs[at], side) for at in places],
                                  lambda form, texts: converted(form, texts, to, self._context.domain))
                    for side in ("old", "new")]
            for at, before, after in zip(places, *both):
                same[at] = isinstance(before, str) and before == after
        return same

    def _changes(self, pairs: Sequence[_Pair], old: Sequence[Any], new: Sequence[Any], changed: Sequence[int],
                 kind: str) -> Iterator[Tuple[int, List[Finding]]]:
        trustees = {at: _trustees(old[at], new[at]) for at in changed
                    if not why_unanswerable(old[at], kind) and not why_unanswerable(new[at], kind)}
        too_many: Dict[int, Answer] = {}
        before = self._granted([pair.old for pair in pairs], old, trustees, kind, too_many)
        after = self._granted([pair.new for pair in pairs], new, trustees, kind, too_many)
        for at in changed:
            findings = list(self._differences(old[at], new[at], kind))
            if not findings:
                findings.append(Finding("control", "", "", "the resource manager byte or a control bit"))
            why = why_unanswerable(old[at], kind) or why_unanswerable(new[at], kind) or too_many.get(at)
            if why:
                findings.append(Finding("rights", "", "", f"whose rights changed is unknown: {why.reason}"))
            told: Dict[Tuple[str, str], int] = {}
            for sid in () if why else trustees[at]:
                findings += self._of_rights(sid, before[at, sid], after[at, sid], kind, told)
            yield at, findings

    def _granted(self, sides: Sequence[_Side], descriptors: Sequence[Any], trustees: Dict[int, List[str]], kind: str,
                 too_many: Dict[int, Answer]) -> Dict[Tuple[int, str], Dict[str, int]]:
        """What trustees get: by object type, or '' for the object itself. too_many takes why an object has none."""
        everything = rights.EVERYTHING[kind]
        found: Dict[Tuple[int, str], Dict[str, int]] = {}
        for form in dict.fromkeys(sides[at].form for at in trustees):
            checks = Checks(*answerable(form, [side.text for side in sides], descriptors, kind), kind, everything,
                            self._context.domain)
            places = [at for at in trustees if sides[at].form == form]
            for at in places:
                checks.know(at, descriptors[at].deciding)
                for sid in trustees[at]:
                    checks.ask(at, trustee_token(sid))
            checks.run()
            for at in places:
                why = checks.too_many(at)
                if why:
                    too_many[at] = why
                for sid in () if why else trustees[at]:
                    token = trustee_token(sid)
                    found[at, sid] = {one: checks.mask(at, token, one) for one in ("", *checks.types(at, token))}
        return found

    def _of_rights(self, sid: str, before: Dict[str, int], after: Dict[str, int], kind: str,
                   told: Dict[Tuple[str, str], int]) -> Iterator[Finding]:
        """What a trustee gets or loses. told has what everybody does, which isn't repeated for others."""
        own: Dict[str, int] = {}  # of the object itself, which counts for every object type
        for one in sorted({*before, *after}):
            old, new = before.get(one, before[""]), after.get(one, after[""])
            for verb, changed in (("gets", new & ~old), ("loses", old & ~new)):
                mask = changed & ~told.get((verb, ""), 0) & ~told.get((verb, one), 0) & ~own.get(verb, 0)
                if sid in (sids.EVERYONE, sids.AUTHENTICATED_USERS):
                    told[verb, one] = told.get((verb, one), 0) | changed
                if not one:
                    own[verb] = changed
                if mask:
                    bound = f"only for object type {self._context.names.object_type(one)}" if one else ""
                    yield Finding("rights", self._context.names.named(sid), f"{verb} {rights.short_text(mask, kind)}",
                                  bound)

    def _differences(self, old: Descriptor, new: Descriptor, kind: str) -> Iterator[Finding]:
        named = self._context.names.named
        for title, before, after in (("owner", old.owner, new.owner), ("group", old.group, new.group)):
            if before != after:
                yield Finding("owner", "", "", f"{title}: {named(before) if before else 'none'}, then "
                                               f"{named(after) if after else 'none'}")
        for title, before, after, old_aces, new_aces in (("DACL", old.dacl, new.dacl, old.aces, new.aces),
                                                         ("SACL", old.sacl, new.sacl, old.sacl_aces, new.sacl_aces)):
            if before != after:
                yield Finding("acl", "", "", f"{title}: {before}, then {after}")
            yield from self._of_aces(title, old_aces, new_aces, kind)
        for bit, name in _CONTROLS:
            if (old.control ^ new.control) & bit:
                yield Finding("control", "", "", f"{name}: {'set' if new.control & bit else 'cleared'}")

    def _of_aces(self, title: str, old: Sequence[Ace], new: Sequence[Ace], kind: str) -> Iterator[Finding]:
        removed, added = surplus(old, new), surplus(new, old)
        left: List[Ace] = []
        partners: List[Ace] = []
        # Those that are added, the last one first, by what an ACE is without its flags.
        alike: Dict[Tuple[str, int, str, str, str], List[Ace]] = {}
        for ace in reversed(added):
            alike.setdefault(_without_flags(ace), []).append(ace)
        for ace in removed:
            found = alike.get(_without_flags(ace))
            if not found:
                left.append(ace)
                continue
            partners.append(found.pop())
            yield Finding("ace", "", "", f"{title}: flags {_flags(ace)}, then {_flags(partners[-1])}: "
                                         f"{ace_in_words(partners[-1], kind, self._context.names)}")
        for verb, aces in (("removed", left), ("added", surplus(added, partners))):
            for ace in aces:
                yield Finding("ace", "", "", f"{title}: {verb}: {ace_in_words(ace, kind, self._context.names)}")
        if not removed and not added and tuple(old) != tuple(new):
            yield Finding("order", "", "", f"{title}: the same ACEs in another order")


def _key(name: str, root: str) -> str:
    """The name by which an object is compared."""
    rest = name[len(root):]
    is_below = name.startswith(root) and (rest[:1] in ("", "\\", "/") or root[-1:] in ("\\", "/", ":"))
    return rest.lstrip("\\/") if root and is_below else name


def _numbered(items: Iterable[Item], root: str) -> Iterator[Tuple[Any, ...]]:
    """Rows of objects; objects with the same key are told apart by their number."""
    repeats = Repeats()
    for item in items:
        key = unnamed(item)
        key = _key(key, root) if key == item.name else key
        yield (*row_of(item), stored(key), repeats.number_of(key))


def _joined(scratch: Scratch, cut: Dict[str, Item]) -> Iterator[Item]:
    """Pairs of objects as items to ask about. cut has what stands for the rest of lists."""
    columns = COLUMNS.split(", ")
    both = ", ".join([f"new.{one}" for one in columns] + [f"old.{one}" for one in columns])
    query = f"SELECT {both} FROM new LEFT JOIN old ON new.key = old.key AND new.nth = old.nth ORDER BY new.id"
    for row in scratch.select(query):
        new, old = item_of(row[:8]), None if row[8] is None else item_of(row[8:])
        yield _pair_item(old, new) if old is not None else _single(ADDED, new, cut.get("old"))
    gone = ", ".join(f"old.{one}" for one in columns)
    query = (f"SELECT {gone} FROM old LEFT JOIN new ON new.key = old.key AND new.nth = old.nth WHERE new.id IS NULL "
             "ORDER BY old.id")
    for row in scratch.select(query):
        yield _single(GONE, item_of(row), cut.get("new"))


def _single(form: str, item: Item, cut: Optional[Item]) -> Item:
    if is_rest(item):
        return item
    if item.form == UNREADABLE:
        return item._replace(text=f"{form}, and it can't be read: {item.text}")
    if cut is not None:
        which = "new" if form == GONE else "old"
        return unreadable(item.name, item.source, item.line,
                          f"not in what can be read of the {which} list: {cut.text}", cut.help, item.kind)
    return item._replace(form=form, text=item.form + _PART + item.text)


def _pair_item(old: Item, new: Item) -> Item:
    for side, item in (("old", old), ("new", new)):
        if item.form == UNREADABLE:
            return unreadable(new.name, item.source, item.line, f"the {side} one: {item.text}", item.help, new.kind)
    return new._replace(form=_PAIR, text=_PART.join([old.form, old.text, new.form, new.text]))


def _unknown_pair(old: Union[Descriptor, Refusal], new: Union[Descriptor, Refusal]) -> Answer:
    refused = [(side, unknown_of(one)) for side, one in (("old", old), ("new", new)) if isinstance(one, Refusal)]
    reason = "; ".join(f"the {side} one: {why.reason}" for side, why in refused)
    places = [f"in the {side} one {why.place}" for side, why in refused if why.place]
    place = "; ".join(places) if len(refused) > 1 else refused[0][1].place
    return unknown(reason, refused[0][1].help)._replace(place=place)


def surplus_places(aces: Sequence[Ace], others: Sequence[Ace]) -> List[int]:
    """The places of ACEs that the others don't have, each as often as it is too many."""
    left = collections.Counter(others)
    found = []
    for at, ace in enumerate(aces):
        if left[ace]:
            left[ace] -= 1
        else:
            found.append(at)
    return found


def surplus(aces: Sequence[Ace], others: Sequence[Ace]) -> List[Ace]:
    """ACEs that the others don't have, each as often as it is too many."""
    return [aces[at] for at in surplus_places(aces, others)]


def _without_flags(ace: Ace) -> Tuple[str, int, str, str, str]:
    return ace.kind, ace.mask, ace.object_type, ace.inherited_type, ace.sid


def _flags(ace: Ace) -> str:
    return "".join(name for name, bit in FLAGS.items() if ace.flags & bit) or "none"


def _trustees(old: Descriptor, new: Descriptor) -> List[str]:
    """Whoever's rights may have changed."""
    found: Dict[str, None] = {sids.EVERYONE: None, sids.AUTHENTICATED_USERS: None}
    for descriptor in (old, new):
        for ace in descriptor.deciding:
            found[as_owner(ace.sid, descriptor)] = None
        found[descriptor.owner] = None
    found.pop("", None)
    return list(found)
