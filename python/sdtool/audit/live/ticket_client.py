"""Asks Kerberos whose ticket there is: the side that is a process of its own."""
from typing import Any, Callable, Dict, Iterator

from sdtool.audit.live.client import Login


def opened(login: Login) -> Any:
    return login.credentials()


def user(session: Any) -> Iterator[str]:
    """The user whose ticket there is."""
    yield session.get_principal()


ACTIONS: Dict[str, Callable[..., Iterator[str]]] = {"user": user}
