"""Addresses of servers, which are sources as files are."""
import re
from typing import List, NamedTuple
from urllib.parse import unquote

from sdtool.audit.sources.opening import OpeningFault

_ADDRESS = re.compile(r"(smb|ldaps?|reg|svc)://", re.I)
_SERVER = re.compile(r"\[[0-9A-Fa-f:.]+(?:%\w+)?\]|[\w.-]+")
_HELP = ("an address is smb://SERVER/SHARE/FOLDER, ldap://SERVER/BASE??scope?filter, ldaps://.., "
         "reg://SERVER/HKLM/KEY or svc://SERVER")


_HIVES = {"hklm": "HKLM", "hkey_local_machine": "HKLM", "hku": "HKU", "hkey_users": "HKU", "hkcr": "HKCR",
          "hkey_classes_root": "HKCR", "hkcc": "HKCC", "hkey_current_config": "HKCC"}


class Address(NamedTuple):
    """Where something is asked: path is behind the server's name, query behind the first '?' of a directory."""

    scheme: str
    server: str
    path: str
    query: str
    text: str  # as it was written

    @property
    def parts(self) -> List[str]:
        """The names of the path."""
        return [part for part in re.split(r"[\\/]", self.path) if part]


def is_address(word: str) -> bool:
    """Whether a source is the address of a server. Nothing else is asked of one."""
    return _ADDRESS.match(word) is not None


def refuse_secret(word: str) -> None:
    """Refuses an address with a user or a password, wherever it begins, and doesn't repeat it: others would read it."""
    found = _ADDRESS.search(word)
    scheme, _, rest = word[found.start() if found else len(word):].partition("://")
    server = rest.partition("/")[0]
    if "@" in server or ":" in re.sub(r"\A\[.*\]", "", server) or "@" in rest and not _SERVER.fullmatch(server):
        raise OpeningFault(f"{scheme}://..: an address has no user, password or port; --user NAME or --credentials "
                           "FILE says who asks")


def address_of(word: str) -> Address:
    """An address by its text."""
    refuse_secret(word)
    scheme, _, rest = word.partition("://")
    scheme = scheme.lower()
    server, _, behind = rest.partition("/")
    if not (_SERVER.fullmatch(server) or not server and scheme.startswith("ldap")):
        raise OpeningFault(f"{scheme}://..: no server's name is behind it; {_HELP}")
    path, _, query = behind.partition("?") if scheme.startswith("ldap") else (behind, "", "")
    try:
        path = unquote(path, errors="strict")
        unquote(query, errors="strict")
    except UnicodeDecodeError:
        raise OpeningFault(f"{word}: what % spells isn't UTF-8") from None
    address = Address(scheme, server.strip("[]"), path, query, word)
    if re.search("[\0-\x1f\x7f]", path) or {".", ".."} & set(address.parts) and not scheme.startswith("ldap"):
        raise OpeningFault(f"{word!r}: a part of the path is no name")
    if scheme == "reg" and address.parts:
        hive_of(address.parts[0])
    if scheme == "svc" and address.parts:
        raise OpeningFault(f"{word}: nothing is behind the server's name; {_HELP}")
    return address


def hive_of(word: str) -> str:
    """The short name of a hive of the registry."""
    if word.lower() not in _HIVES:
        raise OpeningFault(f"{word!r} is no hive of a registry: these are {', '.join(sorted(set(_HIVES.values())))}")
    return _HIVES[word.lower()]
