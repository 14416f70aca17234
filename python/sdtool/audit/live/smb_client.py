"""What a client does that asks about files and shares. Nothing is opened but to read permissions, and nothing that a
reparse point leads to."""
import struct
from typing import Any, Callable, Dict, Iterator, List

from samba import NTSTATUSError
from samba.dcerpc import srvsvc
from samba.ndr import ndr_pack
from samba.samba3 import libsmb_samba_internal as libsmb

from sdtool.audit.live.client import (TO_CONNECT, Login, Paced, Refusal, each_descriptor, fault_of, pace, rpc,
                                      silence)

_READ_ATTRIBUTES = 0x80
_EVERY_SHARING, _OPEN = 7, 1
_IS_FOLDER, _BACKUP_INTENT, _REPARSE_POINT = 0x1, 0x4000, 0x200000  # how something is opened
_NO_FOLDER, _NO_ANSWER = 0xc0000103, 0xc00000b5  # of NTSTATUS
# Where a descriptor says where its ACLs are, and an ACL how long it is.
_SACL, _DACL, _SIZE_OF_ACL, _ACL_HEADER = 12, 16, 2, 8
_MOST_ENTRIES = 500  # in one answer
_TYPE_OF_SHARE = 0xffff
_UNIX = 0x800  # of what a server says that it is


class Session:
    """A server to which this process is logged in, with a connection to the share that was asked about last."""

    def __init__(self, login: Login) -> None:
        self.login = login
        self._credentials = login.credentials()
        self._files = login.loadparm_of_files()
        self._name, self._share = "", None  # type: str, Any
        self._service: Any = None

    def share(self, name: str, is_new: bool = False) -> Any:
        """The connection to a share. That to another one is closed, since nobody asks about it any more."""
        if is_new or name != self._name:
            self._name, self._share = "", None
            pace(self.login, TO_CONNECT)
            found = libsmb.Conn(self.login.server, name, lp=self._files, creds=self._credentials)
            found.settimeout(int(self.login.timeout * 900))  # so that it can say itself that there was no answer
            self._name, self._share = name, Paced(self.login, found)
        return self._share

    def service(self) -> Any:
        """The service that knows of shares."""
        if self._service is None:
            self._service = rpc(self.login, srvsvc.srvsvc)
        return self._service


def sure(connection: Any) -> None:
    """Sees that a fault was the server's answer: behind one of the connection nothing is answered any more. Where a
    packet's signature is wrong, Samba says access denied."""
    connection.echo()


def opened(login: Login) -> Session:
    session = Session(login)
    parts = [part for part in login.path.replace("\\", "/").split("/") if part]
    if parts:
        share = session.share(parts[0])
        if parts[1:]:
            share.close(_handle(session, share, "\\".join(parts[1:]), _READ_ATTRIBUTES))
    else:
        session.service()
    return session


def _handle(session: Session, share: Any, path: str, mask: int, options: int = 0) -> int:
    """Opens what is there, and never what it leads to."""
    options |= _REPARSE_POINT | (_BACKUP_INTENT if session.login.backup else 0)
    handle: int = share.create(Name=path, DesiredAccess=mask, ShareAccess=_EVERY_SHARING, CreateDisposition=_OPEN,
                               CreateOptions=options)
    return handle


def shares(session: Session) -> Iterator[List[Any]]:
    """The name and the type of each share."""
    found = srvsvc.NetShareInfoCtr()
    found.level, found.ctr = 1, srvsvc.NetShareCtr1()
    told = session.service().NetShareEnumAll(f"\\\\{session.login.server}", found, 0xffffffff, 0)[0]
    for one in told.ctr.array or ():
        yield [str(one.name), int(one.type) & _TYPE_OF_SHARE]


def share_descriptor(session: Session, share: str) -> Iterator[List[Any]]:
    """The descriptor of a share, and whether the server is one of Samba."""
    found = session.service().NetShareGetInfo(f"\\\\{session.login.server}", share, 502)
    if found.sd_buf.sd is None:
        raise Refusal(0, "the server answers without the share's descriptor, as it does who isn't an administrator")
    kind = session.service().NetSrvGetInfo(f"\\\\{session.login.server}", 101).server_type
    yield [_bytes(found.sd_buf.sd).hex(), bool(kind & _UNIX)]


def is_folder(session: Session, share: str, path: str) -> Iterator[bool]:
    """Whether a path is one of a folder."""
    connection = session.share(share)
    try:
        connection.close(_handle(session, connection, path, _READ_ATTRIBUTES, _IS_FOLDER))
        yield True
    except NTSTATUSError as error:
        if fault_of(error)[0] != _NO_FOLDER:
            raise
        yield False


def entries(session: Session, share: str, path: str) -> Iterator[List[Any]]:
    """What is in a folder: names, each with its attributes. An empty list is asked for again, and by another connection
    one that ended in silence: behind a lost byte it is cut, without an error."""
    found: List[Dict[str, Any]] = []
    is_cut = False
    for _ in range(2):
        pace(session.login, 2)  # a folder is opened and closed too
        connection = session.share(share, is_cut)
        try:
            found = connection.list(path, "*", libsmb.FILE_ATTRIBUTE_ALL_MASK)
        except NTSTATUSError:
            sure(connection)
            raise
        is_cut = silence() > session.login.timeout * 0.8
        if found and not is_cut:
            break
    if is_cut:
        raise Refusal(_NO_ANSWER, "the server didn't answer to the end")
    found.reverse()
    while found:
        part = [found.pop() for _ in range(min(len(found), _MOST_ENTRIES))]
        yield [[one["name"], one["attrib"]] for one in part]


def descriptors(session: Session, share: str, paths: List[str], together: int) -> Iterator[List[Any]]:
    """The descriptor of each path, or a number and words."""
    def descriptor(path: str, asked: int, mask: int) -> bytes:
        connection = session.share(share)
        try:
            handle = _handle(session, connection, path, mask)
            try:
                found = connection.get_sd(handle, asked)
            finally:
                connection.close(handle)
        except NTSTATUSError:
            sure(connection)
            raise
        return _bytes(found)

    return each_descriptor(session.login, paths, together, descriptor)


def _bytes(found: Any) -> bytes:
    """The bytes of a descriptor that Samba has parsed, if it has lost none: it drops what is behind the SID of an ACE,
    such as a condition, and keeps the size that the ACE had."""
    data: bytes = ndr_pack(found)
    for acl, place in ((found.sacl, _SACL), (found.dacl, _DACL)):
        if acl is not None:
            begin, = struct.unpack_from("<I", data, place)
            size, = struct.unpack_from("<H", data, begin + _SIZE_OF_ACL)
            lost = _ACL_HEADER + sum([ace.size for ace in acl.aces]) - size
            if lost:
                raise Refusal(0, f"Samba's module loses {lost} bytes of its ACEs")
    return data


ACTIONS: Dict[str, Callable[..., Iterator[Any]]] = {
    "shares": shares, "share_descriptor": share_descriptor, "is_folder": is_folder, "entries": entries,
    "descriptors": descriptors}
