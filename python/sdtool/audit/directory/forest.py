"""What the objects of a directory say about each other: which of them are there, what they hand on, and whose SIDs have
no fixed number."""
import collections
import contextlib
import functools
import itertools
import re
from typing import Counter, Dict, Iterable, Iterator, List, Optional, Sequence, Set, Tuple

from sdtool.audit.directory.groups import entries, named_sid, text_lines
from sdtool.audit.directory.machines import Machines
from sdtool.audit.directory.parents import Parents
from sdtool.audit.library import ALLOWS, INHERITED, Ace, Descriptor, Refusal, explained
from sdtool.audit.live.directory import ENTRY, NAME
from sdtool.audit.sources import ldif
from sdtool.audit.sources.items import UNREADABLE, WITHOUT_OWNER, Item
from sdtool.audit.sources.opening import OpeningFault
from sdtool.audit.sources.places import Place, place_of, through_of
from sdtool.audit.sources.reading import is_database
from sdtool.audit.sources.samba import Unknown
from sdtool.audit.store import cache
from sdtool.audit.windows import names as sids
from sdtool.audit.windows import rights
from sdtool.audit.windows.defaults import ACCOUNTS, Default

_BATCH = 1_000
_ACCOUNTS = {name.casefold(): name for name in ACCOUNTS}
# Of all objects the head of a domain alone has a SID without a number of its own.
_HEAD = re.compile(r"S-1-5-21-\d+-\d+-\d+")
Inherited = Tuple[str, str]  # the trustee and the object type of an ACE


class Forest:
    """The objects of sources, once they have been read a first time. Names of objects are compared without regard to
    case."""

    def __init__(self, domain: str, trust: sids.Trust, machines: Machines) -> None:
        self._domain, self._trust, self._machines = domain, trust, machines
        self._parents = Parents(domain)
        self._names: Set[int] = set()  # hashes of those that are there
        self._inherited: Dict[str, Counter[Inherited]] = {}  # by the name above

    def read(self, items: Iterable[Item]) -> None:
        """Reads the objects of a source a first time."""
        for batch in _batches(items):
            self._parents.add(batch)
            self._count(batch)

    def _count(self, items: Sequence[Item]) -> None:
        """Counts the objects directly below each name that have inherited an ACE."""
        for item, found in zip(items, _explained(items, self._domain)):
            self._names.add(hash(item.name.casefold()))
            inherited = {(ace.sid, ace.object_type) for ace in found.aces if self._is_counted(ace)} if found else ()
            if inherited:
                above = ldif.parent_of(item.name).casefold()
                self._inherited.setdefault(above, collections.Counter()).update(inherited)

    def _is_counted(self, ace: Ace) -> bool:
        return ace.kind in ALLOWS and bool(ace.flags & INHERITED) and not self._trust.has(ace.sid)

    @functools.cached_property
    def heirs(self) -> Dict[str, Dict[Inherited, int]]:
        """How many objects below each object have inherited an ACE, once all are read."""
        found: Dict[str, Counter[Inherited]] = {}
        for name, counted in self._inherited.items():
            for above in itertools.chain([name], ldif.objects_above(name)):
                if hash(above) in self._names:
                    found.setdefault(above, collections.Counter()).update(counted)
        return {name: dict(counted) for name, counted in found.items()}

    def placed(self, items: Iterable[Item]) -> Iterator[Item]:
        """The objects, with what is known of their places."""
        for batch in _batches(items):
            for item, found in zip(batch, _explained(batch, self._domain)):
                yield (item._replace(place=self._place(item, found).text())
                       if through_of(item.place)[0] not in ("", WITHOUT_OWNER) else item)

    def _place(self, item: Item, found: Optional[Descriptor]) -> Place:
        name, place = item.name.casefold(), place_of(item.place)
        place = place._replace(heirs=name if name in self.heirs else "")
        if found is None:
            return place
        own = place.classes[-1] if place.classes else ""
        handed_on = self._parents.handed_on(item.name, found, own) if item.kind in rights.DIRECTORY else ()
        return place._replace(handed_on=handed_on, makers=self._machines.makers(item.name, own, found.owner))


def _batches(items: Iterable[Item]) -> Iterator[List[Item]]:
    rest = iter(items)
    batch = list(itertools.islice(rest, _BATCH))
    while batch:
        yield batch
        batch = list(itertools.islice(rest, _BATCH))


def _explained(items: Sequence[Item], domain: str) -> List[Optional[Descriptor]]:
    """The descriptors of objects, or None for those that can't be read. One that comes again is read once."""
    of_texts: Dict[Tuple[str, str], Optional[Descriptor]] = {}
    for form in dict.fromkeys(item.form for item in items if item.form != UNREADABLE):
        texts = list(dict.fromkeys(item.text for item in items if item.form == form))
        for text, found in zip(texts, explained(form, texts, domain)):
            of_texts[form, text] = None if isinstance(found, Refusal) else found
    return [of_texts.get((item.form, item.text)) for item in items]


def has_entries(path: str) -> bool:
    """Whether a file begins as an LDIF of entries, or a directory has filled it."""
    if is_database(path):
        return any(next(cache.facts(path, kind), None) for kind in (ENTRY, NAME))
    with contextlib.suppress(OpeningFault):
        first = next((line for line in text_lines(path) if line and not line.startswith("#")), "")
        return first.lower().startswith(("dn:", "version:"))
    return False


class Told:
    """What LDIF sources say beside their objects: the SIDs of the heads of domains, names of SIDs, which are accounts
    without a fixed number, and which are machines."""

    def __init__(self, paths: Iterable[str]) -> None:
        self.heads: Set[str] = set()
        self.names: Dict[str, str] = {}
        self.types: Dict[str, str] = {}  # names of object types
        self.accounts: Dict[str, str] = {}
        self.machines = Machines()
        self.paths: List[str] = []  # of those that say something
        for path in filter(has_entries, paths):
            before = len(self.names)
            self.names.update(cache.facts(path, NAME) if is_database(path) else ())
            # The report says what can't be read, of a source or of an entry.
            with contextlib.suppress(OpeningFault):
                for entry in entries(path):
                    self._add(entry)
            if len(self.names) > before:
                self.paths.append(path)

    def _add(self, entry: ldif.Entry) -> None:
        self.types.update((guid, name) for name, guid in _types_of(entry))
        try:
            sid, name = named_sid(entry)
            self.machines.add(entry)
        except ValueError:
            return
        if name:
            self.names[sid] = name
        # Of all names this one alone is that of one account of the domain.
        account = entry.attributes.get("samaccountname", [b""])[0].decode("utf-8", "replace")
        self.accounts.update(accounts_of({sid: account}))
        if _HEAD.fullmatch(sid):
            self.heads.add(sid)


def accounts_of(names: Dict[str, str]) -> Dict[str, str]:
    """The SIDs of accounts without a fixed number, with their names."""
    return {sid: _ACCOUNTS[name.casefold()] for sid, name in names.items() if name.casefold() in _ACCOUNTS}


class Schema:
    """Default descriptors of classes, and object types by name, of an LDIF of a schema, or of a database that a
    directory has filled. faults says which defaults can't be read."""

    def __init__(self, path: str, domain: str) -> None:
        self.of_classes: List[Default] = []
        self.named_types: Dict[str, str] = {}
        self.faults: List[str] = []
        texts: List[Tuple[str, str]] = []
        for entry in entries(path):
            names = entry.attributes.get("ldapdisplayname", ())
            self.named_types.update(_types_of(entry))
            if entry.reason or not names:
                continue
            name = names[0].decode("utf-8", "replace")
            for given in entry.attributes.get("defaultsecuritydescriptor", ()):
                try:
                    # Two classes of Windows' schema have a blank behind D:.
                    text = ldif.sddl_of(given).replace(" ", "")
                    if text and "\n" not in text:
                        texts.append((name, text))
                    else:
                        self.faults.append(f"the defaultSecurityDescriptor of {name} is empty or has a line end")
                except Unknown as error:
                    self.faults.append(f"the defaultSecurityDescriptor of {name} can't be read: {error}; run "
                                       "ldbsearch without --show-binary")
        self.has_defaults = bool(texts)
        stand_in = domain or "S-1-5-21-0-0-0"
        for (name, _), descriptor in zip(texts, explained("sddl", [text for _, text in texts], stand_in)):
            if isinstance(descriptor, Refusal):
                self.faults.append(f"the defaultSecurityDescriptor of {name} can't be read: {descriptor.line}")
                continue
            self.of_classes += [_default(name, ace) for ace in descriptor.aces if ace.kind in ALLOWS]


def read_schema(path: str, domain: str) -> Schema:
    """The schema of a file that words name, which has to be one."""
    schema = Schema(path, domain)
    if schema.faults:
        raise OpeningFault(f"{path}: {schema.faults[0]}")
    if not schema.has_defaults:
        raise OpeningFault(f"{path}: no class has a defaultSecurityDescriptor: export the schema with "
                           "lDAPDisplayName, schemaIDGUID and defaultSecurityDescriptor")
    return schema


def told_schema(paths: Iterable[str], domain: str) -> Optional[Schema]:
    """The schema that a directory among the sources tells, if one does."""
    found = (Schema(path, domain) for path in paths if is_database(path))
    return next((one for one in found if one.has_defaults), None)


def _default(name: str, ace: Ace) -> Default:
    domain, number = sids.domain_of(ace.sid)
    return Default(("ds",), (name,), (), number if domain else ace.sid, ace.mask, ace.object_type, ace.inherited_type,
                   bool(ace.flags & 0x2))


def _types_of(entry: ldif.Entry) -> Iterator[Tuple[str, str]]:
    """The object types of an entry of a schema, or of an extended right: names and GUIDs."""
    for title, guid in (("ldapdisplayname", "schemaidguid"), ("cn", "rightsguid")):
        for name, value in zip(entry.attributes.get(title, ()), entry.attributes.get(guid, ())):
            yield name.decode("utf-8", "replace"), _guid_text(value)


def _guid_text(data: bytes) -> str:
    """The text of a GUID, in binary or as ldbsearch prints it."""
    import uuid
    return str(uuid.UUID(bytes_le=data)) if len(data) == 16 else data.decode("latin-1").lower()
