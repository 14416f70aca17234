"""Objects whose inherited ACEs are not those that their folder hands on."""
import contextlib
import csv
import re
from typing import Any, Dict, Iterable, Iterator, List, NamedTuple, Optional, Sequence, TextIO, Tuple, Union

import sdtool
from sdtool._windows import CLASSES
from sdtool.audit import files
from sdtool.audit.directory.trails import Trails, places_of
from sdtool.audit.directory.trees import folder_of, key_of
from sdtool.audit.engine import NO_PLACES, Answered, Engine
from sdtool.audit.findings import NOT_COMPARED, NOTHING, Answer, Finding, Rule, answer_of, complete, unknown, unknown_of
from sdtool.audit.library import (ALLOWS, DENIES, INHERIT_ONLY, INHERITED, OTHERS, PROTECTED, Ace, Descriptor, Refusal,
                                  converted, derived, explained)
from sdtool.audit.masks import GENERIC, WITHOUT_MAPPING
from sdtool.audit.protocols import Context
from sdtool.audit.questions.differences import surplus as surplus_of
from sdtool.audit.questions.differences import surplus_places
from sdtool.audit.sources.items import SDDL, UNREADABLE, Item, unreadable
from sdtool.audit.sources.places import classes_of
from sdtool.audit.store.scratch import COLUMNS, Scratch, item_of, row_of
from sdtool.audit.windows import names as sids
from sdtool.audit.windows.aces import ace_in_words

_CHILD, _TOP = "child", "top"
_PART = "\0"
_FILE, _FOLDER, _EITHER = "file", "folder", "either"
_CREATORS = (sids.CREATOR_OWNER, sids.CREATOR_GROUP)
_INHERITABLE = 0x3
_NOBODY = "S-1-0-0"  # stands for the owner where no ACE is for the creator
_FIX = "fix"


class _Child(NamedTuple):
    """An object and its folder, as they are asked about."""

    folder_form: str
    folder_text: str
    form: str
    text: str
    what: str    # a file, a folder or either
    of_class: str  # of a directory object, if the source says it


class _Handed(NamedTuple):
    """What a folder hands on to an object of an owner and a group."""

    aces: Tuple[Ace, ...]
    folder: str  # in SDDL
    owner: str
    group: str


class Inheritance:
    """Compares the inherited ACEs of each object with what its folder hands on."""

    rules = (Rule("missing", "An ACE that the folder hands on isn't there."),
             Rule("surplus", "An inherited ACE doesn't come from the folder."),
             Rule("order", "The inherited ACEs are in another order than in the folder."),
             Rule("protected", "The DACL is protected, so nothing arrives from the folder."),
             Rule(_FIX, "What would have to be written."))

    asks_places = NO_PLACES

    def __init__(self, context: Context) -> None:
        self._context = context
        self._has_fixes = False
        self._fix_file: Optional[TextIO] = None
        self.seen = 0

    def __getstate__(self) -> Dict[str, Any]:
        return {"_context": self._context, "_has_fixes": self._has_fixes}  # all that an answer takes

    @contextlib.contextmanager
    def fixing(self, path: Optional[str]) -> Iterator[None]:
        """Writes what would have to be written to a file, if one is named."""
        if path is None:
            yield
            return
        with files.whole("--fix", path) as self._fix_file:
            self._has_fixes = True
            csv.writer(self._fix_file, lineterminator="\n").writerow(["name", "sddl"])
            yield

    def answered(self, items: Iterable[Item], engine: Engine) -> Iterator[Answered]:
        """Every object with its answer, in the order of the source."""
        scratch = Scratch()
        scratch.create("objects", ", key, folder, of_class")
        scratch.fill("objects", map(_row, items), 11)
        scratch.database.execute("CREATE INDEX objects_key ON objects(key)")
        scratch.database.execute("CREATE INDEX objects_folder ON objects(folder)")
        self.seen = next(scratch.select("SELECT count(*) FROM objects"))[0]
        file = self._fix_file
        writer = csv.writer(file, lineterminator="\n", quoting=csv.QUOTE_ALL) if file else None
        trails = Trails(scratch, self._context.domain)
        for answered in engine.answer(_children(scratch)):
            for finding in answered.answer.findings:
                if writer and finding.rule == _FIX:
                    writer.writerow([answered.item.name, finding.text])
            yield _with_ways(answered, trails)

    def answer(self, form: str, kind: str, texts: Sequence[str], place: str = "") -> List[Answer]:
        if form == _TOP:
            return self._tops(texts)
        children = [_Child(*text.split(_PART)) for text in texts]
        objects = self._explained([(child.form, child.text) for child in children])
        folders = self._explained([(child.folder_form, child.folder_text) for child in children])
        answers: List[Optional[Answer]] = [_unanswerable(one, folder, kind, child.of_class)
                                           for one, folder, child in zip(objects, folders, children)]
        open_places = [at for at, answer in enumerate(answers) if answer is None]
        handed = {what: self._derived(children, objects, folders, open_places, what, kind) for what in (_FILE, _FOLDER)}
        spelled = self._spelled(children, open_places) if self._has_fixes else {}
        for at in open_places:
            whats = (_FILE, _FOLDER) if children[at].what == _EITHER else (children[at].what,)
            own = objects[at]
            assert isinstance(own, Descriptor)
            answers[at] = self._compared(own, {what: handed[what][at] for what in whats}, kind, spelled.get(at))
        return complete(answers)

    def _tops(self, texts: Sequence[str]) -> List[Answer]:
        """Objects whose folder isn't in the source."""
        found = self._explained([tuple(text.split(_PART)) for text in texts])  # type: ignore[misc]
        return [unknown_of(one) if isinstance(one, Refusal) else
                Answer(NOT_COMPARED, (), "its folder is not in the source") for one in found]

    def _explained(self, sides: Sequence[Tuple[str, str]]) -> List[Union[Descriptor, Refusal]]:
        found: List[Any] = [None] * len(sides)
        for form in dict.fromkeys(side[0] for side in sides):
            places = [at for at, side in enumerate(sides) if side[0] == form]
            for at, one in zip(places, explained(form, [sides[at][1] for at in places], self._context.domain)):
                found[at] = one
        return found

    def _converted(self, sides: Dict[int, Tuple[str, str]]) -> Dict[int, str]:
        """Descriptors that were read before, as SDDL with SIDs as numbers."""
        found: Dict[int, str] = {}
        for form in dict.fromkeys(side[0] for side in sides.values()):
            places = [at for at, side in sides.items() if side[0] == form]
            for at, one in zip(places, converted(form, [sides[at][1] for at in places], SDDL, self._context.domain)):
                assert isinstance(one, str)
                found[at] = one
        return found

    def _spelled(self, children: Sequence[_Child], places: Sequence[int]) -> Dict[int, str]:
        return self._converted({at: (children[at].form, children[at].text) for at in places})

    def _derived(self, children: Sequence[_Child], objects: Sequence[Any], folders: Sequence[Any],
                 places: Sequence[int], what: str, kind: str) -> Dict[int, Union[_Handed, Refusal, None]]:
        """What each folder hands on to an object of its owner and group; None where the owner is needed and unknown."""
        found: Dict[int, Union[_Handed, Refusal, None]] = {at: None for at in places}
        spelled = self._converted({at: (children[at].folder_form, children[at].folder_text) for at in places})
        groups: Dict[Tuple[str, str], List[int]] = {}
        for at in places:
            owner, group = _creator(objects[at], folders[at])
            if owner and group:
                groups.setdefault((owner, group), []).append(at)
        for (owner, group), members in groups.items():
            # A folder without any part would be an empty line; it hands nothing on.
            texts = {at: spelled[at] or "D:" for at in members}
            lines = derived(list(texts.values()), what == _FOLDER, owner, group, kind)
            good = [(at, line) for at, line in zip(members, lines) if isinstance(line, str)]
            for at, one in zip([at for at, _ in good], explained(SDDL, [line for _, line in good])):
                found[at] = one if isinstance(one, Refusal) else \
                    _Handed(_for_class(one.aces, CLASSES.get(children[at].of_class, "")), texts[at], owner, group)
            found.update({at: line for at, line in zip(members, lines) if isinstance(line, Refusal)})
        return found

    def _compared(self, found: Descriptor, handed: Dict[str, Union[_Handed, Refusal, None]], kind: str,
                  spelled: Optional[str]) -> Answer:
        if any(one is None for one in handed.values()):
            return unknown("the folder hands on an ACE for the creator, and the object's owner or group isn't in "
                           "the source", "export owner and group too, as Get-Acl does")
        for one in handed.values():
            if isinstance(one, Refusal):
                return unknown_of(one)
        if found.control & PROTECTED:
            return answer_of([Finding("protected", "", "", "")])
        if found.dacl != "list":
            return answer_of([Finding("missing", "", "", f"the DACL is {found.dacl}, so everybody gets everything")])
        own = [ace for ace in found.aces if ace.flags & INHERITED]
        wanted = {what: one for what, one in handed.items() if isinstance(one, _Handed)}
        if any(tuple(own) == one.aces for one in wanted.values()):
            return Answer(NOTHING)
        # The nearer of the two, if the source doesn't say what the object is.
        what = min(wanted, key=lambda one: len(surplus_of(own, wanted[one].aces)) +
                   len(surplus_of(wanted[one].aces, own)))
        findings = list(self._differences(own, wanted[what], what == _FOLDER, kind))
        if spelled is not None:
            findings.append(self._fixed(found, spelled, wanted, what))
        return answer_of(findings)

    def _differences(self, own: Sequence[Ace], handed: _Handed, is_folder: bool, kind: str) -> Iterator[Finding]:
        missing, surplus = surplus_places(handed.aces, own), surplus_of(own, handed.aces)
        if missing:
            folder = sdtool.SecurityDescriptor.from_sddl(handed.folder)
            above = places_of(folder, is_folder, handed.owner, handed.group, kind)
            for at in missing:
                yield Finding("missing", "", "", ace_in_words(handed.aces[at], kind, self._context.names),
                              above=above[at])
        for ace in surplus:
            yield Finding("surplus", "", "", ace_in_words(ace, kind, self._context.names))
        if not missing and not surplus:
            yield Finding("order", "", "", "")

    def _fixed(self, found: Descriptor, spelled: str, wanted: Dict[str, _Handed], what: str) -> Finding:
        """The object's own ACEs, then those that the folder hands on."""
        if len({one.aces for one in wanted.values()}) > 1:
            return Finding("no-fix", "", "", "the source doesn't say whether this is a file or a folder", False)
        chosen = wanted[what]
        own = [text for ace, text in zip(found.aces, _aces_of(spelled)) if not ace.flags & INHERITED]
        if not own and not chosen.aces:
            return Finding("no-fix", "", "", "the folder hands on nothing, so nobody would get anything", False)
        text = _head_of(spelled) + "D:AI" + "".join(own + [_ace_text(ace) for ace in chosen.aces])
        read = explained(SDDL, [text])[0]
        expected = tuple([ace for ace in found.aces if not ace.flags & INHERITED] + list(chosen.aces))
        if isinstance(read, Refusal) or read.aces != expected:
            return Finding("no-fix", "", "", "what would have to be written has no SDDL", False)
        return Finding(_FIX, "", "", text, False)


def _row(item: Item) -> Tuple[Any, ...]:
    row = row_of(item)
    folder = folder_of(item.name, item.kind)
    key, folder_key = (name.encode("utf-8", "surrogatepass")
                       for name in (key_of(item.name, item.kind), key_of(folder, item.kind) if folder else ""))
    if item.kind == "share":
        key += b"\0"  # it is no folder, though the root of what it shares has its name
    classes = classes_of(item.place)
    return (*row, key, folder_key, classes[-1] if classes else "")


def _children(scratch: Scratch) -> Iterator[Item]:
    """Each object with its folder, as an item to ask about."""
    columns = COLUMNS.split(", ")
    own = ", ".join(f"one.{column}" for column in columns)
    # Of folders with the same name the first counts, if all have the same descriptor.
    query = (f"SELECT {own}, EXISTS (SELECT 1 FROM objects WHERE folder = one.key), "
             "folder.form, folder.text, folder.help, "
             "(SELECT count(DISTINCT form || text) FROM objects WHERE key = one.folder), one.of_class "
             "FROM objects AS one LEFT JOIN objects AS folder ON folder.id = "
             "(SELECT min(id) FROM objects WHERE key = one.folder AND one.folder <> x'' AND id <> one.id) ORDER "
             "BY one.id")
    for row in scratch.select(query):
        item = item_of(row[:8])
        has_children, folder_form, folder_text, advice, different, of_class = row[8:]
        if item.form == UNREADABLE:
            yield item
        elif folder_form is None:
            yield item._replace(form=_TOP, text=item.form + _PART + item.text)
        elif folder_form == UNREADABLE:
            yield unreadable(item.name, item.source, item.line, f"its folder can't be read: {folder_text}",
                             advice, item.kind)
        elif different > 1:
            yield unreadable(item.name, item.source, item.line, "its folder is in the source more than once",
                             "take one of them out", item.kind)
        else:
            # Every object of a directory can have others below it.
            is_folder = (item.is_folder if item.is_folder is not None else True if has_children
                         or item.kind == "ds" else None)
            what = _EITHER if is_folder is None else _FOLDER if is_folder else _FILE
            yield item._replace(form=_CHILD,
                                text=_PART.join([folder_form, folder_text, item.form, item.text, what, of_class]))


def _creator(found: Descriptor, folder: Descriptor) -> Tuple[str, str]:
    """Owner and group for CREATOR OWNER and CREATOR GROUP, where the folder hands on an ACE for them."""
    named = {ace.sid for ace in folder.aces + folder.sacl_aces if ace.flags & _INHERITABLE}
    owner = found.owner if sids.CREATOR_OWNER in named else _NOBODY
    group = found.group if sids.CREATOR_GROUP in named else _NOBODY
    return owner, group


def _for_class(handed: Sequence[Ace], guid: str) -> Tuple[Ace, ...]:
    """What is handed on to an object of a class: an ACE for another class is there only for what is below."""
    return tuple([ace._replace(flags=ace.flags | INHERIT_ONLY, counts=False, decides=False)
                  if ace.inherited_type and ace.inherited_type != guid else ace for ace in handed])


def _with_ways(answered: Answered, trails: Trails) -> Answered:
    """An answer whose findings also say from where an ACE would come."""
    answer = answered.answer
    if not any(finding.above for finding in answer.findings):
        return answered
    findings = [finding._replace(text=f"{finding.text}; {trails.told(answered.item, finding.above)}".rstrip("; "))
                if finding.above else finding for finding in answer.findings]
    return answered._replace(answer=answer._replace(findings=tuple(findings)))


def _unanswerable(found: Union[Descriptor, Refusal], folder: Union[Descriptor, Refusal], kind: str,
                  of_class: str) -> Optional[Answer]:
    if isinstance(found, Refusal):
        return unknown_of(found)
    if isinstance(folder, Refusal):
        answer = unknown_of(folder)
        return answer._replace(reason=f"its folder can't be read: {answer.reason}")
    for ace in (*found.aces, *folder.aces):
        if ace.kind not in ALLOWS | DENIES | OTHERS:
            return unknown(f"an ACE has the kind {ace.kind}, which isn't known here",
                           "look at the object on its own system")
    if kind in WITHOUT_MAPPING and any(ace.mask & GENERIC and ace.flags & _INHERITABLE for ace in folder.aces):
        return unknown(f"the folder hands on an ACE with a generic right, and the library has no mapping for {kind}",
                       "look at the object on its own system")
    if of_class not in CLASSES and any(ace.inherited_type and ace.flags & _INHERITABLE for ace in folder.aces):
        why = f"the class {of_class} isn't known here" if of_class else "the source doesn't say the object's class"
        return unknown(f"the folder hands on an ACE for objects of one class, and {why}", "export objectClass too")
    return None


def _head_of(sddl: str) -> str:
    """Owner and group of SDDL as the library prints it."""
    return re.match(r"(?:O:[^:]*?)?(?:G:[^:]*?)?(?=[DS]:|\Z)", sddl)[0]  # type: ignore[index]


def _aces_of(sddl: str) -> List[str]:
    """The ACEs of the DACL in SDDL as the library prints it, which has no parentheses but theirs."""
    found = re.search(r"D:[A-Z_]*((?:\([^()]*\))*)", sddl)
    return re.findall(r"\([^()]*\)", found[1]) if found else []


def _ace_text(ace: Ace) -> str:
    flags = "".join(name for bit, name in ((1, "OI"), (2, "CI"), (4, "NP"), (8, "IO"), (16, "ID"), (64, "SA"),
                                           (128, "FA"))
                    if ace.flags & bit)
    return f"({ace.kind};{flags};{ace.mask:#x};{ace.object_type};{ace.inherited_type};{ace.sid})"
