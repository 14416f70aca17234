"""Who somebody is on a server: an account's SIDs and privileges, as its directory and the server have them, and the
names of SIDs."""
import contextlib
import json
import re
from typing import Dict, Iterable, Iterator, List, Optional, Sequence, Tuple

from sdtool.audit.directory.tokens import with_everybody, with_privileges
from sdtool.audit.library import Descriptor, Token, explained, sid_of_value
from sdtool.audit.live.access import Access
from sdtool.audit.live.address import Address
from sdtool.audit.live.directory import NAME
from sdtool.audit.live.talking import Client, Lost, NeverOpened, Refused, bytes_of
from sdtool.audit.sources.opening import OpeningFault
from sdtool.audit.sources.reading import is_database
from sdtool.audit.store import cache
from sdtool.audit.windows import names as sids
from sdtool.audit.windows.names import Names

_ACCOUNT = re.compile(r"[^\\@,/:]+\\[^\\@,/:]+|[^\\@,/:]+@[\w.-]+")
_FAULTS = (Lost, NeverOpened, Refused)
# What each logon over a network has, beside what the server says.
_OF_NETWORK = (sids.EVERYONE, sids.AUTHENTICATED_USERS, "S-1-5-15", "S-1-5-2")
_BUILT_IN = "S-1-5-32-"
_TOKEN = "token"  # a kind of facts
_ADMINISTRATOR = "-500"
_ROOT_OF_SAMBA = ("Administrator is root on a domain controller of Samba: there it may do everything with a file, "
                  "whatever its permissions say")


def is_account(word: str) -> bool:
    """Whether a token is named as an account: NAME@DOMAIN or DOMAIN\\NAME."""
    return _ACCOUNT.fullmatch(word) is not None


@contextlib.contextmanager
def _opened(kind: str, address: Address, access: Access) -> Iterator[Client]:
    client = Client(kind, address, access)
    try:
        yield client
    finally:
        client.close()


class _Account:
    """An account that is asked about, and what couldn't be asked."""

    def __init__(self, name: str, address: Address, access: Access) -> None:
        self._name, self._address, self._access = name, address, access
        self._missing: List[str] = []
        self._notes: List[str] = []

    def token(self) -> Token:
        """The token. What it lacks is said, and makes unknown what isn't found."""
        with contextlib.ExitStack() as stack:
            server = None
            try:
                server = stack.enter_context(_opened("tokens", self._address, self._access))
                [sid], [domains] = list(server.ask("account", self._name)), list(server.ask("domains"))
            except _FAULTS as error:
                raise OpeningFault(f"{self._name}: {self._address.text} can't be asked for it: {error}") from error
            if sid is None:
                raise OpeningFault(f"{self._name}: {self._address.text} knows no such account")
            groups = self._groups(server, sid, domains)
            found = list(dict.fromkeys([sid, *groups, *_OF_NETWORK]))
            found += self._asked("its local groups", (one for some in server.ask("aliases", found) for one in some))
            token = with_everybody(Token(tuple(dict.fromkeys(found))))
            privileges = self._asked("the privileges", (one for some in server.ask("privileges", list(token.sids))
                                                        for one in some))
        missing = f"{'; '.join(self._missing)}: ask as a user who may, or list the SIDs of the token" \
            if self._missing else ""
        return with_privileges(token._replace(missing=missing, notes=(*self._notes, *self._missing)), privileges)

    def _asked(self, what: str, answers: Iterable[str]) -> List[str]:
        """Answers as far as they come."""
        found: List[str] = []
        try:
            found.extend(answers)
        except _FAULTS as error:
            self._missing.append(f"{self._address.text} couldn't be asked for {what} ({error})")
        return found

    def _groups(self, server: Client, sid: str, domains: Dict[str, str]) -> List[str]:
        """The groups that the account's directory says. Those that are built in hold on its controllers alone."""
        is_controller, server_name = domains["own"] == domains["sid"], domains["server"]
        if sid.rpartition("-")[0] == domains["own"] and not is_controller:
            return [f"{domains['own']}-513"]  # an account of the server alone
        found: List[str] = []
        name = server_name
        try:
            is_of_domain = sid.rpartition("-")[0] == domains["sid"]
            if not is_controller or not is_of_domain:
                of_name = "" if is_of_domain else self._name.partition("@")[2]
                if not (is_of_domain or is_controller and of_name):
                    self._missing.append(f"it is of another domain than {server_name}, and its groups in both aren't "
                                         "known")
                [name] = server.ask("controller", of_name or domains["name"] or self._name.partition("@")[2])
            scheme = "ldaps" if self._address.scheme == "ldaps" else "ldap"
            with _opened("ldap", Address(scheme, name, "", "", f"{scheme}://{name}"), self._access) as directory:
                [about] = directory.ask("root")
                pieces = [piece for some, _ in directory.ask("search", f"<SID={sid}>", "base", "", ["tokenGroups"], 0)
                          for piece in some]
                found = [sid_of_value(bytes_of(value)) for _, values, _ in pieces
                         for value in values.get("tokenGroups", [])]
                if not found:
                    self._missing.append(f"{name} shows no groups of the account")
                if sid.endswith(_ADMINISTRATOR) and "".join(about.get("vendorName", [])).startswith("Samba"):
                    self._notes.append(_ROOT_OF_SAMBA)
        except (*_FAULTS, LookupError, TypeError, ValueError) as error:
            self._missing.append(f"its directory couldn't be asked for its groups ({error})")
        return [one for one in found if name == server_name or not one.startswith(_BUILT_IN)]


def token_of(name: str, address: Address, access: Access) -> Token:
    """The token that an account has on a server."""
    return _Account(name, address, access).token()


def keep(paths: Sequence[str], name: str, token: Token) -> None:
    """Keeps a token in the databases among the sources."""
    for path in filter(is_database, paths):
        cache.add_facts(path, _TOKEN, [(name.casefold(), json.dumps(token))])


def kept(paths: Sequence[str], name: str) -> Optional[Token]:
    """The token that a database among the sources keeps for an account, the last one."""
    found = None
    for path in filter(is_database, paths):
        for key, text in cache.facts(path, _TOKEN):
            if key == name.casefold():
                sids_, level, principal_self, privileges, missing, notes = json.loads(text)
                found = Token(tuple(sids_), level, principal_self, tuple(privileges), missing, tuple(notes))
    return found


def names_of(path: str, known: Names, domain: str, addresses: Sequence[Address],
             access: Access, sids_: Sequence[str] = ()) -> Tuple[Dict[str, str], List[str]]:
    """The names of these SIDs and of those in a database that servers know, and what is said of those that they
    couldn't be asked for. The database keeps the names."""
    unnamed = [sid for sid in dict.fromkeys((*sids_, *_sids_in(path, domain))) if not known.knows(sid)]
    found: Dict[str, str] = {}
    said: List[str] = []
    for address in {one.server.casefold(): one for one in addresses}.values():
        left = [sid for sid in unnamed if sid not in found]
        if not left:
            break
        try:
            with _opened("tokens", address, access) as server:
                for some in server.ask("names", left):
                    found.update(some)
        except _FAULTS as error:
            said.append(f"{address.text} couldn't be asked for names of SIDs ({error})")
    cache.add_facts(path, NAME, found.items())
    return found, said


def _sids_in(path: str, domain: str) -> Iterable[str]:
    """The SIDs in the descriptors of a database, each once."""
    found: Dict[str, None] = {}
    for form, texts in cache.texts(path):
        for one in explained(form, texts, domain):
            if isinstance(one, Descriptor):
                found.update(dict.fromkeys((one.owner, one.group, *(ace.sid for ace in one.aces + one.sacl_aces))))
    return filter(None, found)
