"""What a client does that asks about a registry. Keys are opened to list them or to read their permissions."""
from typing import Any, Callable, Dict, Iterator, List

from samba import WERRORError
from samba.dcerpc import winreg

from sdtool.audit.live.address import hive_of
from sdtool.audit.live.client import READ_CONTROL, Login, each_descriptor, growing, rpc

_ENUMERATE = 0x8
_BACKUP = 0x4  # how a key is opened for a backup
_NO_MORE, _MORE_DATA, _TOO_SMALL = 259, 234, 122
_FOLDER = 0x10
_TOGETHER = 500
_NOT_FOUND = (2, 3)


class Session:
    """A server whose registry is asked about."""

    def __init__(self, login: Login) -> None:
        self.login = login
        self.pipe = rpc(login, winreg.winreg)
        self._hives = {"HKLM": self.pipe.OpenHKLM, "HKU": self.pipe.OpenHKU, "HKCR": self.pipe.OpenHKCR,
                       "HKCC": self.pipe.OpenHKCC}

    def opened(self, hive: str, path: str, mask: int) -> Any:
        """A key, for some rights."""
        top = self._hives[hive](None, _ENUMERATE if path else mask)
        if not path:
            return top
        name = winreg.String()
        name.name = path
        try:
            return self.pipe.OpenKey(top, name, _BACKUP if self.login.backup else 0, mask)
        finally:
            self.pipe.CloseKey(top)


def opened(login: Login) -> Session:
    session = Session(login)
    hive, *path = [part for part in login.path.replace("\\", "/").split("/") if part] or [""]
    if path:
        try:
            session.pipe.CloseKey(session.opened(hive_of(hive), "\\".join(path), READ_CONTROL))
        except WERRORError as error:
            if error.args[0] in _NOT_FOUND:
                raise
    return session


def is_folder(session: Session, hive: str, path: str) -> Iterator[bool]:
    yield True


def entries(session: Session, hive: str, path: str) -> Iterator[List[List[Any]]]:
    """The keys below a key."""
    key = session.opened(hive, path, _ENUMERATE)
    found: List[List[Any]] = []
    number = 0
    while True:
        name, of_class = winreg.StringBuf(), winreg.StringBuf()

        def ask(size: int) -> Any:
            name.size = of_class.size = size
            return session.pipe.EnumKey(key, number, name, of_class, None)[0]

        try:
            found.append([_name_of(growing(ask, 1024, (_MORE_DATA, _TOO_SMALL))), _FOLDER])
        except WERRORError as error:
            if error.args[0] != _NO_MORE:
                raise
            break
        number += 1
        if len(found) == _TOGETHER:
            yield found
            found = []
    yield found
    session.pipe.CloseKey(key)


def _name_of(told: Any) -> str:
    """The name of a key. Samba's module cuts it at a NUL, which it then has behind it, and keeps the length."""
    name, length = str(told.name), int(told.length)
    return name + "\0" * (length > len(name.encode("utf-16-le", "surrogatepass")) + 2)


def descriptors(session: Session, hive: str, paths: List[str], together: int) -> Iterator[List[Any]]:
    """The descriptor of each key, or a number and words."""
    def descriptor(path: str, asked: int, mask: int) -> bytes:
        key = session.opened(hive, path, mask)
        data = winreg.KeySecurityData()

        def ask(size: int) -> Any:
            data.size = size
            return session.pipe.GetKeySecurity(key, asked, data)

        try:
            found = growing(ask, 4096, (_MORE_DATA, _TOO_SMALL))
            return bytes(found.data)[:found.len]
        finally:
            session.pipe.CloseKey(key)

    return each_descriptor(session.login, paths, together, descriptor)


ACTIONS: Dict[str, Callable[..., Iterator[Any]]] = {"is_folder": is_folder, "entries": entries,
                                                    "descriptors": descriptors}
