"""A walk through the folders of a server: each is listed once, and then each of its entries is asked for."""
import collections
import re
from typing import Any, Callable, Deque, Iterator, List, NamedTuple, Optional, Tuple, Union

from sdtool.audit.live.access import Access
from sdtool.audit.live.address import Address
from sdtool.audit.live.talking import Client, Fact, Lost, Refused, bytes_of, no_sacls, value_of
from sdtool.audit.sources.items import GONE, Item, bytes_item, unreadable

_MOST_LEVELS = 128
_ASKED, _ANSWERED = 500, 50  # objects in one request, and in one answer
_FOLDER, _REPARSE_POINT = 0x10, 0x400  # attributes
# Numbers of NTSTATUS and of Windows: neither it nor its folder is there, or it is being deleted.
_NOT_FOUND = (0xc0000034, 0xc000003a, 0xc0000056, 2, 3, 1018, 1060, 1072)
_NO_NAME = re.compile(r"[\0/\\:]|\A\.{0,2}\Z")  # behind a colon is a stream
_MAY_READ = "ask as a user who may read its permissions"
NO_BYTES = "the server answers with an empty descriptor"
_AGAIN = "the client ends each time that it asks for it"


def no_name_of(name: str) -> Tuple[str, str]:
    """Why an object that is listed isn't asked for, and what helps."""
    return f"the server lists {name!r}, which is no name", "look at the server"


class Folder(NamedTuple):
    """A folder of a share or of a hive, by its path there."""

    top: str
    path: str
    level: int

    def path_of(self, name: str) -> str:
        return f"{self.path}\\{name}" if self.path and name else self.path or name


class Entry(NamedTuple):
    """An object whose descriptor is to be read, by its name in its folder."""

    folder: Folder
    name: str
    is_folder: bool

    @property
    def path(self) -> str:
        return self.folder.path_of(self.name)


class Work(NamedTuple):
    """What is to be asked, and the object that stands for it if it can't be."""

    act: Callable[[Client], Iterator[Item]]
    instead: Callable[[str, str], Item]


class Walk:
    """What is asked of a server, and what is left to ask. A client that is lost leaves all that it didn't answer."""

    client_kind = ""
    no_name = _NO_NAME

    def __init__(self, address: Address, access: Access, is_known: Callable[[str], bool]) -> None:
        self.address, self._is_known, self._lacks_sacls = address, is_known, False
        self._asked: Deque[Entry] = collections.deque()  # of one share or hive
        self._works: List[Work] = []  # the last one comes first
        self._together = 0  # objects in an answer

    # What differs from one sort of server to the other.

    def name_of(self, top: str, path: str) -> str:
        """The name of an object."""
        raise NotImplementedError

    def kind_of(self, entry: Entry) -> str:
        raise NotImplementedError

    def place(self) -> str:
        """What answers need beside the descriptor."""
        return ""

    def note(self, name: str, more: List[Any]) -> None:
        """Takes what a list says of an entry beside its attributes."""

    def begin(self, client: Client) -> None:
        """The client itself has opened what is asked for."""

    def items(self, client: Client) -> Iterator[Union[Item, Fact]]:
        # Behind a client that was lost, each answer has one object, so that the one which ends clients comes first.
        self._together = 1 if self._together else _ANSWERED
        while self._asked or self._works:
            yield from self._read(client) if self._asked else self._works[-1].act(client)

    def skipped(self) -> Optional[Item]:
        if self._asked:
            entry = self._asked.popleft()
            return self._unknown(entry, _AGAIN, _MAY_READ)
        return self._works.pop().instead(_AGAIN, "look at it on the server") if self._works else None

    def unread(self, name: str, reason: str, advice: str, kind: str = "file") -> Item:
        return unreadable(name, self.address.text, 0, reason, advice, kind)

    def add_work(self, act: Callable[[Client], Iterator[Item]], instead: Callable[[str, str], Item]) -> None:
        self._works.append(Work(act, instead))

    def end_work(self) -> Work:
        """The work that is done."""
        return self._works.pop()

    def add_top(self, top: str, path: List[str]) -> None:
        """Adds the uppermost object that is asked for, which may be none with others in it."""
        entry = Entry(Folder(top, "\\".join(path[:-1]), 0), path[-1] if path else "", True)
        self.add_work(lambda client: self._begin(client, entry), lambda reason, advice:
                      self._unknown(entry, reason, advice))

    def _unknown(self, entry: Entry, reason: str, advice: str) -> Item:
        return self.unread(self.name_of(entry.folder.top, entry.path), reason, advice, self.kind_of(entry))

    def _begin(self, client: Client, entry: Entry) -> Iterator[Item]:
        try:
            is_folder = value_of(bool, client.ask_one("is_folder", entry.folder.top, entry.path))
        except Refused:
            is_folder = True  # whoever asks for more is told why
        self.end_work()
        self._asked.append(entry._replace(is_folder=is_folder))
        if is_folder:
            self._add_folder(Folder(entry.folder.top, entry.path, 0))
        yield from ()

    def _add_folder(self, folder: Folder) -> None:
        self.add_work(lambda client: self._list(client, folder), lambda reason, advice: self.unread(
            self.name_of(folder.top, folder.path_of("*")), f"the folder can't be listed: {reason}", advice))

    def _list(self, client: Client, folder: Folder) -> Iterator[Item]:
        """Asks for what is in a folder."""
        found: List[Tuple[str, int]] = []
        try:
            if folder.level >= _MOST_LEVELS:
                raise Refused(0, f"it is {_MOST_LEVELS} levels down")
            for part in client.ask("entries", folder.top, folder.path):
                for name, mask, *more in value_of(list, part):
                    found.append((value_of(str, name), value_of(int, mask)))
                    self.note(name, more)
        except Refused as error:
            is_gone = error.code in _NOT_FOUND and not self._is_listed(client, folder.top, folder.path)
            work = self.end_work()
            if not is_gone:
                yield work.instead(error.reason, "ask as a user who may list it, or name it as a source")
            return
        self.end_work()
        below = []
        for name, attributes in found:
            entry = Entry(folder, name, bool(attributes & _FOLDER))
            if self.no_name.search(name):
                yield self._unknown(entry, *no_name_of(name))
                continue
            self._asked.append(entry)
            if attributes & _REPARSE_POINT:
                yield self.unread(self.name_of(folder.top, f"{entry.path}\\*"), "a reparse point, which isn't followed",
                                  "ask where it leads")
            elif entry.is_folder:
                below.append(Folder(folder.top, entry.path, folder.level + 1))
        for one in reversed(below):
            self._add_folder(one)

    def _is_listed(self, client: Client, top: str, path: str) -> bool:
        """Whether the server lists an object that it doesn't find: it is there, under a name that it doesn't take or
        behind too many links."""
        folder, _, name = path.rpartition("\\")
        is_listed = False
        try:
            for part in client.ask("entries", top, folder) if path else ():
                is_listed = name in [value_of(str, one[0]) for one in value_of(list, part)] or is_listed
        except Refused as error:
            return error.code not in _NOT_FOUND
        return is_listed

    def _seek(self, client: Client, entry: Entry, reason: str) -> Iterator[Item]:
        """Looks whether an object that isn't found is gone."""
        is_listed = self._is_listed(client, entry.folder.top, entry.path)
        self.end_work()
        yield self._unknown(entry, f"the server lists it, and says: {reason}", _MAY_READ) if is_listed else \
            self._unknown(entry, GONE, "")

    def _add_sought(self, entry: Entry, reason: str) -> None:
        self.add_work(lambda client: self._seek(client, entry, reason),
                      lambda why, advice: self._unknown(entry, why, advice))

    def _read(self, client: Client) -> Iterator[Union[Item, Fact]]:
        """Asks for descriptors of the entries that come next."""
        entries = [self._asked[at] for at in range(min(_ASKED, len(self._asked)))]
        wanted = [one for one in entries if not self._is_known(self.name_of(one.folder.top, one.path))]
        answers = (one for some in client.ask("descriptors", entries[0].folder.top, [one.path for one in wanted],
                                              self._together) for one in value_of(list, some))
        at = 0
        for entry in entries:
            item, lacked_sacls = None, self._lacks_sacls
            if at < len(wanted) and entry is wanted[at]:
                item, at = self._item(entry, next(answers, None)), at + 1
            self._asked.popleft()
            if isinstance(item, str):
                self._add_sought(entry, item)
            elif item is not None:
                yield item
            if self._lacks_sacls and not lacked_sacls:
                yield no_sacls(self.address.text)
        if next(answers, answers) is not answers:
            raise Lost("the client answers what wasn't asked")
        self._together = _ANSWERED

    def _item(self, entry: Entry, answer: Any) -> Union[Item, str]:
        """The object that an answer gives, or why the server doesn't find it."""
        if isinstance(answer, list) and len(answer) == 1:
            self._lacks_sacls, [answer] = True, answer
        if isinstance(answer, str):
            data = bytes_of(answer)
            return bytes_item(self.name_of(entry.folder.top, entry.path), self.address.text, 0, data,
                              self.kind_of(entry), entry.is_folder, self.place()) if data else \
                self._unknown(entry, NO_BYTES, _MAY_READ)
        code, reason = value_of(list, answer) if len(value_of(list, answer)) == 2 else (None, None)
        if value_of(int, code) in _NOT_FOUND and entry.path:
            return value_of(str, reason)
        return self._unknown(entry, value_of(str, reason), _MAY_READ)
