"""What a client does that asks about services. The manager and services are opened to list them, or to read their
permissions and what they run."""
import struct
from typing import Any, Callable, Dict, Iterator, List

from samba.dcerpc import svcctl

from sdtool.audit.live.client import Login, Refusal, each_descriptor, fault_of, growing, is_of_transport, rpc

_ENUMERATE, _CONNECT, _QUERY_CONFIG = 0x4, 0x1, 0x1  # of the manager, and of a service
_ALL_KINDS, _ALL_STATES = 0x30 | 0x0f, 3  # of services, drivers among them
_MORE_DATA, _TOO_SMALL = 234, 122
_ROW = 36  # bytes: where its name and its title are, and seven numbers


class Session:
    """A server whose services are asked about."""

    def __init__(self, login: Login) -> None:
        self.login = login
        self.pipe = rpc(login, svcctl.svcctl)

    def manager(self, mask: int) -> Any:
        return self.pipe.OpenSCManagerW(f"\\\\{self.login.server}", None, mask)

    def service(self, name: str, mask: int) -> Any:
        manager = self.manager(_CONNECT)
        try:
            return self.pipe.OpenServiceW(manager, name, mask)
        finally:
            self.pipe.CloseServiceHandle(manager)


def opened(login: Login) -> Session:
    return Session(login)


def is_folder(session: Session, top: str, path: str) -> Iterator[bool]:
    yield True


def entries(session: Session, top: str, path: str) -> Iterator[List[List[Any]]]:
    """The services, each with what it runs and as whom."""
    manager, resume = session.manager(_CONNECT | _ENUMERATE), 0

    def ask(size: int) -> Any:
        return session.pipe.EnumServicesStatusW(manager, _ALL_KINDS, _ALL_STATES, size, resume)

    while True:
        data, _, count, resume = growing(ask, 1 << 16, (_MORE_DATA, _TOO_SMALL))
        found = _names(bytes(data), count)
        yield [[name, 0, *_runs(session, name)] for name in found]
        if not resume or not found:
            break
    session.pipe.CloseServiceHandle(manager)


def _names(data: bytes, count: int) -> List[str]:
    """The names of rows, whose texts are behind them."""
    if count * _ROW > len(data):
        raise Refusal(0, f"the server gives {len(data)} bytes for {count} services")
    found = []
    for at in range(count):
        begin, = struct.unpack_from("<I", data, at * _ROW)
        end = begin
        while data[end:end + 2] not in (b"\0\0", b"", data[end:end + 1]):
            end += 2
        found.append(data[begin:end].decode("utf-16-le", "surrogatepass"))
    return found


def _runs(session: Session, name: str) -> List[str]:
    """What a service runs and as whom, or why that isn't known."""
    def ask(size: int) -> Any:
        return session.pipe.QueryServiceConfigW(handle, size)[0]

    try:
        handle = session.service(name, _QUERY_CONFIG)
        try:
            found = growing(ask, 8192, (_MORE_DATA, _TOO_SMALL))
        finally:
            session.pipe.CloseServiceHandle(handle)
        return [str(found.executablepath or "no binary"), str(found.startname or "no account")]
    except Exception as error:
        code, reason = fault_of(error)
        if is_of_transport(code):
            raise
        return [f"what it runs isn't known: {reason}"]


def descriptors(session: Session, top: str, paths: List[str], together: int) -> Iterator[List[Any]]:
    """The descriptor of each service, and of the manager without a name, or a number and words."""
    def descriptor(path: str, asked: int, mask: int) -> bytes:
        handle = session.service(path, mask) if path else session.manager(mask)

        def ask(size: int) -> Any:
            return session.pipe.QueryServiceObjectSecurity(handle, asked, size)

        try:
            data, needed = growing(ask, 8192, (_MORE_DATA, _TOO_SMALL))
            return bytes(data)[:needed]
        finally:
            session.pipe.CloseServiceHandle(handle)

    return each_descriptor(session.login, paths, together, descriptor)


ACTIONS: Dict[str, Callable[..., Iterator[Any]]] = {"is_folder": is_folder, "entries": entries,
                                                    "descriptors": descriptors}
