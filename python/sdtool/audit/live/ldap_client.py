"""Asks a directory by LDAP: the side that is a process of its own. A piece of an entry is its name, values of its
attributes in hex, and whether the entry ends with it."""
import contextlib
import os
import re
from typing import Any, Callable, Dict, Iterator, List, NamedTuple, Tuple

import ldb
import samba
from samba import ntstatus
from samba.dcerpc import nbt
from samba.net import Net

from sdtool.audit.live.client import PORTS, TO_CONNECT, Login, Refusal, pace

_PAGE = 500
_MOST = 1 << 20  # digits in one answer, but for the last value
_SCOPES = {"base": ldb.SCOPE_BASE, "one": ldb.SCOPE_ONELEVEL, "sub": ldb.SCOPE_SUBTREE}
_SYSTEM = "/etc/ssl/certs/ca-certificates.crt"
_ROOT = ("defaultNamingContext", "rootDomainNamingContext", "schemaNamingContext", "configurationNamingContext",
         "namingContexts", "vendorName")
_RANGE = ";range="
# What a server answers to a search that it won't do; all else is a fault of the connection.
_ANSWERS = (ldb.ERR_TIME_LIMIT_EXCEEDED, ldb.ERR_SIZE_LIMIT_EXCEEDED, ldb.ERR_STRONG_AUTH_REQUIRED, ldb.ERR_REFERRAL,
            ldb.ERR_ADMIN_LIMIT_EXCEEDED, ldb.ERR_UNSUPPORTED_CRITICAL_EXTENSION, ldb.ERR_INAPPROPRIATE_MATCHING,
            ldb.ERR_NO_SUCH_OBJECT, ldb.ERR_INVALID_DN_SYNTAX, ldb.ERR_INSUFFICIENT_ACCESS_RIGHTS,
            ldb.ERR_UNWILLING_TO_PERFORM, ldb.ERR_PROTOCOL_ERROR)
_ITS_DOMAIN = "name a server (ldap://SERVER), or the user with the domain (NAME@DOMAIN), which DNS has to know"
_NO_FILTER = "search expression"  # what is said of a filter that can't be parsed
Entry = Tuple[str, Dict[str, List[str]]]


class Session(NamedTuple):
    login: Login
    directory: Any

    def search(self, base: Any, scope: int, pattern: str, attributes: List[str], *controls: str) -> Any:
        """One request, and its answer."""
        pace(self.login)
        try:
            return self.directory.search(base, scope=scope, expression=pattern or None, attrs=attributes,
                                         controls=list(controls))
        except ldb.LdbError as error:
            if error.args[0] in _ANSWERS or _NO_FILTER in error.args[1]:
                raise
            raise Refusal(ntstatus.NT_STATUS_CONNECTION_DISCONNECTED, str(error.args[1])) from error


def opened(login: Login) -> Session:
    """A connection: what is sent is signed and sealed, or in TLS, where the password alone can be shown."""
    parameters, credentials = login.loadparm(), login.credentials()
    if login.scheme == "ldaps":
        if not login.password:
            raise Refusal(0, "ldaps:// needs a password", "use --credentials or --user; with a ticket of Kerberos ask "
                          "ldap://, which is sealed too")
        authorities = os.path.abspath(login.ca or _SYSTEM)
        if not os.path.isfile(authorities):
            raise Refusal(0, f"{authorities}: no such file", "--ca FILE names the authorities of the certificate")
        parameters.set("tls verify peer", "ca_and_name")
        parameters.set("tls cafile", authorities)
        credentials.set_bind_dn(f"{login.domain}\\{login.user}" if login.domain else login.user)
    server = login.server or controller_of(login)
    if ":" in server:  # a number of IPv6, which Samba reads with a port alone
        server = f"[{server}]:{PORTS[login.scheme]}"
    pace(login, TO_CONNECT)
    try:
        return Session(login, samba.Ldb(f"{login.scheme}://{server}", lp=parameters, credentials=credentials))
    except ldb.LdbError as error:
        # A name of a server that isn't known is no name of an object.
        found = re.search(r"NT_STATUS_(?!OBJECT)\w+", str(error.args[1]))
        status = found[0] if found else ""
        if error.args[0] == ldb.ERR_INVALID_CREDENTIALS:
            status = "NT_STATUS_LOGON_FAILURE"
        raise Refusal(getattr(ntstatus, status, 0), str(error.args[1])) from error


def controller_of(login: Login, domain: str = "") -> str:
    """A domain controller of a domain, or of that of who asks."""
    credentials = login.credentials()
    of_name = login.user.partition("@")[2] or login.domain * ("." in login.domain)
    domain = domain or of_name or credentials.get_realm() or ""
    if not domain:
        raise Refusal(0, "neither the name of the user nor smb.conf or krb5.conf says which domain", _ITS_DOMAIN)
    try:
        found = Net(credentials, login.loadparm()).finddc(domain=domain, flags=nbt.NBT_SERVER_LDAP | nbt.NBT_SERVER_DS)
    except RuntimeError as error:
        raise Refusal(0, f"no domain controller of {domain} is found: {error.args[-1]}", _ITS_DOMAIN) from error
    return str(found.pdc_dns_name)


def _name_of(message: Any) -> str:
    with contextlib.suppress(UnicodeDecodeError):
        return str(message.dn)
    return repr(message.dn)


def _values(element: Any) -> List[str]:
    return [bytes(value).hex() for value in element]


def _entry(session: Session, message: Any) -> Entry:
    """An entry with all values. Of an attribute with many a server gives a range, and more of them when it is asked."""
    attributes: Dict[str, List[str]] = {}
    for title in message:
        if title == "dn":
            continue
        name, _, limits = title.partition(_RANGE)
        attributes.setdefault(name, []).extend(_values(message[title]))
        while limits and not limits.endswith("-*"):
            wanted = f"{name}{_RANGE}{int(limits.rpartition('-')[2]) + 1}-*"
            [more] = session.search(message.dn, ldb.SCOPE_BASE, "", [wanted])
            title = next((one for one in more if one.lower().startswith(wanted[:-1].lower())), "")
            if not title:
                raise Refusal(0, f"the server gave no more values of {name} of {_name_of(message)}")
            attributes[name] += _values(more[title])
            limits = title.partition(_RANGE)[2]
    return _name_of(message), attributes


def _pieces(name: str, attributes: Dict[str, List[str]]) -> Iterator[List[Any]]:
    """An entry in pieces that answers have place for."""
    part: Dict[str, List[str]] = {}
    size = 0
    for title, values in attributes.items():
        for value in values:
            part.setdefault(title, []).append(value)
            size += len(value)
            if size > _MOST:
                yield [name, part, False]
                part, size = {}, 0
    yield [name, part, True]


def search(session: Session, base: str, scope: str, pattern: str, attributes: List[str],
           flags: int) -> Iterator[List[Any]]:
    """The entries of all pages in pieces: lists of these, and of the referrals that came with them."""
    cookie = ""
    while True:
        paged = [f"paged_results:1:{_PAGE}{cookie and f':{cookie}'}"] if scope != "base" else []
        found = session.search(base, _SCOPES[scope], pattern, attributes, *paged,
                               *([f"sd_flags:1:{flags}"] if flags else []))
        some: List[Any] = []
        size = 0
        for piece in (piece for message in found.msgs for piece in _pieces(*_entry(session, message))):
            some.append(piece)
            size += sum(len(value) for values in piece[1].values() for value in values)
            if size > _MOST:
                yield [some, []]
                some, size = [], 0
        yield [some, [str(one) for one in found.referals]]
        told = [str(one).split(":") for one in found.controls if str(one).startswith("paged_results:")]
        cookie = told[0][2] if told and len(told[0]) > 2 else ""
        if not cookie:
            return


def root(session: Session) -> Iterator[Dict[str, List[str]]]:
    """What the server says about itself."""
    [found] = session.search("", ldb.SCOPE_BASE, "", list(_ROOT))
    yield {name: [str(value) for value in found[name]] for name in _ROOT if name in found}


ACTIONS: Dict[str, Callable[..., Iterator[Any]]] = {"root": root, "search": search}
