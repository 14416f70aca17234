"""The objects of a server. A client that is lost is begun again behind what was read."""
import time
from typing import Any, Callable, Dict, Iterator, NamedTuple, Optional, Protocol, Union

from sdtool.audit.live.access import Access
from sdtool.audit.live.address import Address, address_of
from sdtool.audit.live.directory import DirectorySource
from sdtool.audit.live.registry import RegistrySource
from sdtool.audit.live.services import ServicesSource
from sdtool.audit.live.smb import SmbSource
from sdtool.audit.live.talking import Client, Fact, Lost, NeverOpened
from sdtool.audit.sources.items import Item, unreadable
from sdtool.audit.sources.opening import OpeningFault

_MOST_LOSSES = 3  # one after the other
_FIRST_PAUSE = 1.0  # seconds
_LOST = (Lost, LookupError, TypeError, ValueError)  # the client is, or answers what has no such form


class Rest(NamedTuple):
    """What stands for all that wasn't read."""

    item: Item


Found = Union[Item, Fact, Rest]


class Source(Protocol):
    """What asks a server of one kind. begin sees whether what is named is there. items gives each object once: called
    again with another client, it goes on behind what it gave. skipped gives up the object that is being asked, and
    gives what stands for it."""

    client_kind: str

    def begin(self, client: Client) -> None: ...

    def items(self, client: Client) -> Iterator[Union[Item, Fact]]: ...

    def skipped(self) -> Optional[Item]: ...


SOURCES: Dict[str, Callable[[Address, Access, Callable[[str], bool]], Source]] = {
    "smb": SmbSource, "reg": RegistrySource, "svc": ServicesSource, "ldap": DirectorySource, "ldaps": DirectorySource}


class Reading:
    """One address that is read. Names that is_known has were read by an earlier run."""

    def __init__(self, word: str, access: Access, is_known: Callable[[str], bool] = lambda name: False) -> None:
        self.address = address_of(word)
        self._access = access
        self._source = SOURCES[self.address.scheme](self.address, access, is_known)
        self._client: Optional[Client] = None
        self._losses = 0

    def open(self) -> None:
        """Logs in. What may pass is tried again."""
        while True:
            try:
                self._client = Client(self._source.client_kind, self.address, self._access)
                self._source.begin(self._client)
                return
            except (NeverOpened, *_LOST) as error:
                self.close()
                self._losses += 1
                if self._losses < _MOST_LOSSES and (not isinstance(error, NeverOpened) or error.may_pass):
                    self._pause()
                    continue
                advice = error.advice if isinstance(error, NeverOpened) else \
                    "check the name of the server, that this machine reaches it, and --timeout"
                reason = error.reason if isinstance(error, NeverOpened) else str(error)
                raise OpeningFault(f"{self.address.text}: {reason}; {advice}") from None

    def items(self) -> Iterator[Found]:
        """The objects, and at the end what stands for those that were not read."""
        try:
            while True:
                try:
                    if self._client is None:
                        self.open()
                    assert self._client is not None
                    for found in self._source.items(self._client):
                        if not isinstance(found, Fact):  # which may be told again each time
                            self._losses = 0
                        yield found
                    return
                except OpeningFault as error:
                    yield self._rest(str(error))
                    return
                except _LOST as error:
                    self.close()
                    self._losses += 1
                    if self._losses == _MOST_LOSSES:
                        yield self._rest(f"the server was asked {_MOST_LOSSES} times: {error}")
                        return
                    lost = self._source.skipped() if self._losses == _MOST_LOSSES - 1 else None
                    if lost is not None:
                        yield lost._replace(text=f"{lost.text}: {error}")
                    self._pause()
        finally:
            self.close()

    def close(self) -> None:
        if self._client is not None:
            self._client.close()
            self._client = None

    def _pause(self) -> None:
        time.sleep(_FIRST_PAUSE * 2 ** (self._losses - 1))

    def _rest(self, reason: str) -> Rest:
        text = self.address.text
        return Rest(unreadable(f"{text}: the rest", text, 0, reason,
                               "ask again once the server answers; with --into FILE the same command goes on with it"))


def reading_of(word: str, access: Access, is_known: Callable[[str], bool]) -> Any:
    """A reading that is logged in."""
    found = Reading(word, access, is_known)
    found.open()
    return found
