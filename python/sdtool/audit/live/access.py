"""Who asks a server, and how: credentials, and limits."""
import getpass
import os
import stat
import warnings
from typing import Any, NamedTuple, Optional

from sdtool.audit.sources.opening import OpeningFault

_PRIVATE = 0o600


class Secret:
    """A password. No text of an object or of a fault shows it, and nothing takes it to another process by itself."""

    def __init__(self, text: str) -> None:
        self._text = text

    def __bool__(self) -> bool:
        return bool(self._text)

    def __repr__(self) -> str:
        return "Secret(..)"

    def __reduce__(self) -> Any:
        raise TypeError("a secret stays in its process")

    def reveal(self) -> str:
        """The text, for the one who logs in."""
        return self._text


class Who(NamedTuple):
    """Who asks. Without a password it is the user whose ticket of Kerberos there is."""

    user: str = ""
    domain: str = ""
    password: Secret = Secret("")


class Access(NamedTuple):
    """Who asks, and how, as the words say it. who is known once somebody is going to be asked."""

    credentials: Optional[str] = None
    user: Optional[str] = None
    timeout: float = 60
    requests: Optional[float] = None  # a second
    sacl: bool = False
    backup: bool = False
    ca: Optional[str] = None
    who: Optional[Who] = None

    @property
    def asked(self) -> str:
        """What else than the sources decides what a server shows."""
        user, domain, _ = self.who or Who()
        return " ".join([*["--sacl"] * self.sacl, *["--backup"] * self.backup,
                         f"as {domain}\\{user}" if domain else f"as {user}"])

    def told(self) -> "Access":
        """The same with who asks, as the words say it: by a file, or by a name, whose password is asked for."""
        if self.credentials is not None and self.user is not None:
            raise OpeningFault("--credentials and --user both say who asks: use one of them")
        if self.credentials is not None:
            return self._replace(who=_of_file(self.credentials))
        if self.user is None:
            return self
        if not self.user or any(mark in self.user for mark in "%\0\r\n"):
            raise OpeningFault("--user is a name, and its password is asked for")
        return self._replace(who=_named(self.user, "", _asked(self.user)))


def _named(user: str, domain: str, password: str) -> Who:
    """Who asks: a name may be DOMAIN\\NAME, or NAME@REALM."""
    before, found, behind = user.partition("\\")
    return Who(behind if found else user, before if found else domain, Secret(password))


def _asked(user: str) -> str:
    """The password of a name, of whoever is at the terminal. It isn't shown."""
    try:
        with warnings.catch_warnings():
            warnings.simplefilter("error")  # a password that would be shown
            return getpass.getpass(f"Password of {user}: ")
    except UnicodeDecodeError:  # whose words have a part of the password
        raise OpeningFault("--user: what was typed isn't text in the encoding of this terminal") from None
    except (OSError, EOFError, getpass.GetPassWarning):
        raise OpeningFault("--user asks for the password at a terminal, and there is none: use --credentials FILE, or "
                           "kinit") from None


def _of_file(path: str) -> Who:
    """The credentials of a file in the form of smbclient -A, which nobody else may read."""
    try:
        number = os.open(path, os.O_RDONLY | os.O_NOFOLLOW | os.O_NONBLOCK | os.O_CLOEXEC)
        with open(number, encoding="utf-8") as file:
            found = os.fstat(number)
            if not stat.S_ISREG(found.st_mode) or found.st_nlink != 1:
                raise OpeningFault(f"--credentials {path}: no file of its own, or a link to one")
            if stat.S_IMODE(found.st_mode) != _PRIVATE or found.st_uid != os.geteuid():
                raise OpeningFault(f"--credentials {path}: others may read it: chown and chmod 600 make it yours alone")
            lines = file.read(1 << 16).split("\n")
    except OSError as error:
        is_link = os.path.islink(path)
        raise OpeningFault(f"--credentials {path}: {'a link' if is_link else error.strerror}") from None
    except UnicodeDecodeError:
        raise OpeningFault(f"--credentials {path}: not UTF-8") from None
    values = {}
    for line in lines:
        name, mark, value = line.partition("=")
        if mark and not line.lstrip().startswith(("#", ";")):
            values[name.strip().lower()] = value.lstrip(" \t")
    if not values.get("username") or not values.get("password") or "%" in values["username"]:
        raise OpeningFault(f"--credentials {path}: lines 'username = NAME', 'password = ..' and perhaps "
                           "'domain = NAME'")
    return _named(values["username"].rstrip(), values.get("domain", "").rstrip(), values["password"])
