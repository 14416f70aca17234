"""A directory that is asked itself: ldap:// and ldaps://. Its entries are those of LDIF."""
import re
from typing import Callable, Dict, Iterator, List, NamedTuple, Optional, Sequence, Set, Tuple, Union
from urllib.parse import unquote

from sdtool._windows import DESCRIPTORS
from sdtool.audit.live.access import Access
from sdtool.audit.live.address import Address
from sdtool.audit.live.talking import SAID, Client, Fact, NeverOpened, Refused, bytes_of, no_sacls, value_of
from sdtool.audit.sources import ldif
from sdtool.audit.sources.items import GONE, Item, unreadable
from sdtool.audit.sources.opening import OpeningFault

ENTRY, NAME = "entry", "name"  # kinds of facts
# Owner, group and DACL. Who asks for the SACL too, and may not read it, gets no descriptor at all.
_OF_OWNERS, _OF_ALL = 7, 15
_EACH = "(objectClass=*)"
_SCOPES = ("base", "one", "sub")
# What names, groups, machines and schemas are read from, and which entries have some of it.
_ABOUT = ("objectClass", "objectSid", "sAMAccountName", "cn", "member", "primaryGroupID", "adminCount",
          "lDAPDisplayName", "schemaIDGUID", "defaultSecurityDescriptor", "rightsGuid")
_TELLING = ("objectsid", "ldapdisplayname", "rightsguid")
_OF_SECURITY = "(&(objectClass=attributeSchema)(attributeSyntax=2.5.5.15))"
_MOST_NAMED = 5  # referrals
_NO_SUCH_OBJECT = 32
_AS_ANOTHER = "ask as a user who may read it (--user NAME)"
_Root = Dict[str, List[str]]


class Query(NamedTuple):
    """What an address says behind its server."""

    base: str
    scope: str
    pattern: str


def query_of(address: Address) -> Query:
    """BASE??SCOPE?FILTER, as RFC 4516 has it. Without a scope all below the base is meant."""
    parts = list(map(unquote, address.query.split("?")))
    attributes, scope, pattern, *more = parts + [""] * (3 - len(parts))
    if attributes or more:
        raise OpeningFault(f"{address.text}: an address of a directory is ldap://SERVER/BASE??SCOPE?FILTER")
    if scope and scope.lower() not in _SCOPES:
        raise OpeningFault(f"{address.text}: the scope {scope!r} is none of {', '.join(_SCOPES)}")
    return Query(address.path, scope.lower() or "sub", pattern or _EACH)


def _search(client: Client, base: str, scope: str, pattern: str, attributes: Sequence[str],
            flags: int = 0) -> Iterator[Tuple[List[ldif.Entry], List[str]]]:
    """The entries and the referrals of each page."""
    held: Dict[str, List[bytes]] = {}
    titles: Dict[str, str] = {}
    for answer in client.ask("search", base, scope, pattern, list(attributes), flags):
        entries = []
        for piece in value_of(list, value_of(list, answer)[0]):
            name, values, is_last = value_of(str, piece[0]), value_of(dict, piece[1]), value_of(bool, piece[2])
            for title, found in values.items():
                held.setdefault(title.lower(), []).extend(map(bytes_of, found))
                titles[title.lower()] = title
            if is_last:
                entries.append(ldif.Entry(0, name, held, titles=titles))
                held, titles = {}, {}
        yield entries, [value_of(str, one) for one in answer[1]]


class DirectorySource:
    """The objects of a directory, and what it says about them."""

    client_kind = "ldap"

    def __init__(self, address: Address, access: Access, is_known: Callable[[str], bool]) -> None:
        self._label, self._query, self._is_known = address.text, query_of(address), is_known
        self._wants_sacl, self._flags = access.sacl, _OF_OWNERS
        self._given: Set[int] = set()  # hashes of names
        self._begun: Set[str] = set()  # bases
        self._read: Set[str] = set()   # those below which nothing is left
        self._referrals: Dict[str, None] = {}
        self._asked = ""               # the object that is asked for alone
        self._about_server: _Root = {}
        self._bases: List[str] = []

    def begin(self, client: Client) -> None:
        """Refuses a base that isn't there and a filter that is none, and sees whether SACLs can be read."""
        try:
            self._about_server = value_of(dict, client.ask_one("root"))
            self._bases = [self._query.base] if self._query.base else self._about_server.get("namingContexts", [])
            if not self._bases:
                raise NeverOpened("the server has no directory", "name the base: ldap://SERVER/BASE", False)
            for flags in (_OF_OWNERS, _OF_ALL) if self._wants_sacl else (_OF_OWNERS,):
                found = [entry for page, _ in _search(client, self._bases[0], "base", _EACH, ["nTSecurityDescriptor"],
                                                      flags) for entry in page]
                self._flags = flags if found and found[0].attributes.get("ntsecuritydescriptor") else _OF_OWNERS
            list(_search(client, self._bases[0], "base", self._query.pattern, ["1.1"]))
        except Refused as error:
            is_missing = error.code == _NO_SUCH_OBJECT
            raise NeverOpened("there is no such object" if is_missing else error.reason,
                              "name a base that the directory has" if is_missing else f"{_AS_ANOTHER}, or check the "
                              "filter", False) from error

    def items(self, client: Client) -> Iterator[Union[Item, Fact]]:
        """The objects, once each. Where a connection was lost, those that are left are listed, and each is asked for
        alone."""
        about, bases = self._about_server, self._bases
        more: List[str] = []
        if self._wants_sacl and self._flags != _OF_ALL:
            yield no_sacls(self._label)
        try:
            for schema in about.get("schemaNamingContext", []):
                more += [value.decode("utf-8", "replace")
                         for page, _ in _search(client, schema, "one", _OF_SECURITY, ["lDAPDisplayName"])
                         for entry in page for value in entry.attributes.get("ldapdisplayname", [])]
        except Refused as error:
            yield Fact(SAID, f"{self._label}: the schema can't be read: {error.reason}", "")
        attributes = list(dict.fromkeys((*_ABOUT, "nTSecurityDescriptor", *DESCRIPTORS, *more)))
        for base in bases:
            if base not in self._read:
                is_again = base in self._begun
                self._begun.add(base)
                yield from self._below(client, base, attributes, is_again)
                self._read.add(base)
        if self._query != Query("", "sub", _EACH):
            yield from self._about(client, about)
        yield from self._said(bases)

    def skipped(self) -> Optional[Item]:
        """The object that was asked for alone when connections were lost."""
        name, self._asked = self._asked, ""
        if not name:
            return None
        self._given.add(hash(name))
        return unreadable(name, self._label, 0, "the connection was lost each time when this object was asked for",
                          "look at the object on its own system", "ds")

    def _below(self, client: Client, base: str, attributes: Sequence[str],
               is_again: bool) -> Iterator[Union[Item, Fact]]:
        """The objects below a base. If the server refuses to go on, the rest is unknown."""
        asked, count, reason = ["1.1"] if is_again else attributes, 0, ""
        names: List[str] = []  # of objects to ask for when the client has answered
        try:
            for page, referrals in _search(client, base, self._query.scope, self._query.pattern, asked,
                                           0 if is_again else self._flags):
                self._referrals.update(dict.fromkeys(referrals))
                count += len(page)
                for entry in page:
                    if is_again:
                        names.append(entry.name)
                    elif hash(entry.name) not in self._given:
                        yield from self._objects(entry)
            if not count and self._query.pattern == _EACH:
                is_below = self._query.scope == "one"  # where nothing may be
                shown = [page for page, _ in _search(client, base, "base", _EACH, ["1.1"])] if is_below else []
                reason = "" if any(shown) else "the server listed nothing, not even the base"
        except Refused as error:
            reason = error.reason
        for name in names:
            if hash(name) not in self._given:
                yield from self._alone(client, base, name, attributes)
        if reason:
            yield self._unknown(f"{base}: the rest", reason)

    def _alone(self, client: Client, base: str, name: str, attributes: Sequence[str]) -> Iterator[Union[Item, Fact]]:
        """An object of a list, which may be gone when it is asked for. Some are shown in lists alone."""
        self._asked, reason = name, GONE
        found: List[ldif.Entry] = []
        escaped = re.sub(r"[\0*()\\]", lambda mark: f"\\{ord(mark[0]):02x}", name)
        for where in ((name, "base", _EACH), (base, "sub", f"(distinguishedName={escaped})")):
            try:
                found = found or [entry for page, _ in _search(client, *where, attributes, self._flags)
                                  for entry in page]
            except Refused as error:
                reason = reason if error.code == _NO_SUCH_OBJECT else error.reason
        self._asked = ""
        if found:
            yield from self._objects(found[0])
        else:
            yield self._unknown(name, reason)

    def _unknown(self, name: str, reason: str) -> Item:
        self._given.add(hash(name))
        return unreadable(name, self._label, 0, reason, _AS_ANOTHER, "ds")

    def _objects(self, entry: ldif.Entry) -> Iterator[Union[Item, Fact]]:
        yield from self._facts(entry)
        for item in ldif.items_of(entry, self._label, advice=_AS_ANOTHER):
            if not self._is_known(item.name):
                yield item
        self._given.add(hash(entry.name))

    @staticmethod
    def _facts(entry: ldif.Entry) -> Iterator[Fact]:
        """What an entry says about names, groups, machines or the schema, if it does."""
        if not entry.attributes.keys().isdisjoint(_TELLING):
            told = {name.lower() for name in _ABOUT}
            yield Fact(ENTRY, entry.name, ldif.text_of({name: values for name, values in entry.attributes.items()
                                                        if name in told}))

    def _about(self, client: Client, about: _Root) -> Iterator[Fact]:
        """What the directory says about names and the schema where its objects aren't all read."""
        places = {"names of its SIDs": ("defaultNamingContext", "", "(objectSid=*)"),
                  "schema": ("schemaNamingContext", "", "(lDAPDisplayName=*)"),
                  "extended rights": ("configurationNamingContext", "CN=Extended-Rights,", "(rightsGuid=*)")}
        for what, (context, begins, pattern) in places.items():
            try:
                for base in about.get(context, []):
                    for page, _ in _search(client, begins + base, "sub", pattern, _ABOUT):
                        for entry in page:
                            yield from self._facts(entry)
            except Refused as error:
                yield Fact(SAID, f"{self._label}: the {what} can't be read: {error.reason}", "")

    def _said(self, bases: Sequence[str]) -> Iterator[Fact]:
        """What is said of the objects as a whole."""
        if not self._given:
            yield Fact(SAID, f"{self._label}: the server lists no such object", "")
        read = {base.lower() for base in bases}
        elsewhere = [one for one in self._referrals
                     if unquote(one.partition("://")[2].partition("/")[2].partition("?")[0]).lower() not in read]
        if elsewhere:
            names = ", ".join([*elsewhere[:_MOST_NAMED], *([".."] if len(elsewhere) > _MOST_NAMED else [])])
            yield Fact(SAID, f"{self._label} refers to what was not asked: {names}", "")
