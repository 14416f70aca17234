"""Asks a server who somebody is there, by LSA and SAMR: the side that is a process of its own."""
from typing import Any, Callable, Dict, Iterator, List, NamedTuple, Optional

from samba import NTSTATUSError
from samba.dcerpc import lsa, samr, security
from sdtool.audit.live.client import Login, fault_of, is_of_transport, rpc
from sdtool.audit.live.ldap_client import controller_of

_LOOKS_UP, _VIEWS = 0x800, 0x1       # of a policy
_CONNECTS, _OPENS_DOMAINS = 0x30, 0x280
_NOT_FOUND, _NONE_MAPPED, _NO_SUCH_USER, _INVALID = 0xc0000034, 0xc0000073, 0xc0000064, 0xc0000078
_OF_DNS, _OF_THE_DOMAIN, _OF_THE_SERVER = 12, 3, 5  # what is asked about a policy
_MOST = 1_000  # SIDs in one call
_BUILT_IN = "S-1-5-32"


class Session(NamedTuple):
    login: Login
    lsa: Any
    policy: Any


def opened(login: Login) -> Session:
    login = login._replace(server=login.server or controller_of(login))
    pipe = rpc(login, lsa.lsarpc)
    about = lsa.ObjectAttribute()
    about.sec_qos = lsa.QosInfo()
    return Session(login, pipe, pipe.OpenPolicy2("", about, _LOOKS_UP | _VIEWS))


def _string(text: str) -> Any:
    found = lsa.String()
    found.string = text
    return found


def _pointers(sids: List[str], kind: Any) -> List[Any]:
    found = []
    for sid in sids:
        pointer = kind()
        pointer.sid = security.dom_sid(sid)
        found.append(pointer)
    return found


def account(session: Session, name: str) -> Iterator[Optional[str]]:
    """The SID of an account, or None if nobody knows the name."""
    try:
        _, found, _ = session.lsa.LookupNames3(session.policy, [_string(name)], lsa.TransSidArray3(),
                                               lsa.LSA_LOOKUP_NAMES_ALL, 0, 0, 2)
    except NTSTATUSError as error:
        if error.args[0] not in (_NONE_MAPPED, _NO_SUCH_USER):
            raise
        yield None
        return
    yield str(found.sids[0].sid) if found.count and found.sids[0].sid else None


def domains(session: Session) -> Iterator[Dict[str, str]]:
    """The server, the domain that it is in, by its name and SID, and the SID of the server's own accounts. A member of
    a domain that is Samba knows the SID alone."""
    own = session.lsa.QueryInfoPolicy(session.policy, _OF_THE_SERVER)
    try:
        domain = session.lsa.QueryInfoPolicy2(session.policy, _OF_DNS)
        name = domain.dns_domain.string or ""
    except NTSTATUSError as error:
        if is_of_transport(fault_of(error)[0]):
            raise
        domain, name = session.lsa.QueryInfoPolicy(session.policy, _OF_THE_DOMAIN), ""
    yield {"server": session.login.server, "name": name, "sid": str(domain.sid or ""), "own": str(own.sid or "")}


def controller(session: Session, domain: str) -> Iterator[str]:
    """The name of a domain controller."""
    yield controller_of(session.login, domain)


def aliases(session: Session, sids: List[str]) -> Iterator[List[str]]:
    """The local groups that SIDs are in, as the server finds them for a token: those of its own domain, and with them
    those that are built in. It doesn't look for groups in groups, which a directory alone has."""
    pipe = rpc(session.login, samr.samr)
    server = pipe.Connect2("", _CONNECTS)
    _, found, _ = pipe.EnumDomains(server, 0, 0xffff)
    domains_ = [pipe.LookupDomain(server, _string(entry.name.string)) for entry in found.entries]
    known = list(sids)
    for domain in sorted(domains_, key=lambda one: str(one) == _BUILT_IN):
        handle = pipe.OpenDomain(server, _OPENS_DOMAINS, domain)
        asked = lsa.SidArray()
        asked.sids, asked.num_sids = _pointers(known, lsa.SidPtr), len(known)
        new = [f"{domain}-{number}" for number in pipe.GetAliasMembership(handle, asked).ids or ()]
        known += new
        yield new


def privileges(session: Session, sids: List[str]) -> Iterator[List[str]]:
    """The privileges and rights of each SID."""
    for sid in sids:
        try:
            found = session.lsa.EnumAccountRights(session.policy, security.dom_sid(sid))
            yield [one.string for one in found.names or ()]
        except NTSTATUSError as error:
            if error.args[0] != _NOT_FOUND:
                raise
            yield []


def names(session: Session, sids: List[str]) -> Iterator[Dict[str, str]]:
    """The names of SIDs, as far as the server knows them. Where one is none to it, Samba names none of the others."""
    waiting = [sids[start:start + _MOST] for start in range(0, len(sids), _MOST)]
    while waiting:
        some = waiting.pop()
        asked = lsa.SidArray()
        asked.sids, asked.num_sids = _pointers(some, lsa.SidPtr), len(some)
        try:
            domains_, found, _ = session.lsa.LookupSids(session.policy, asked, lsa.TransNameArray(), 1, 0)
        except NTSTATUSError as error:
            if error.args[0] not in (_NONE_MAPPED, _INVALID):
                raise
            if error.args[0] == _INVALID and len(some) > 1:
                waiting += [some[:len(some) // 2], some[len(some) // 2:]]
            continue
        yield {sid: _full_name(domains_, one) for sid, one in zip(some, found.names)
               if one.sid_type not in (lsa.SID_NAME_UNKNOWN, lsa.SID_NAME_INVALID) and one.name.string}


def _full_name(domains_: Any, one: Any) -> str:
    """A name with its domain, as Windows shows it."""
    is_of_domain = 0 <= one.sid_index < domains_.count and one.sid_type != lsa.SID_NAME_DOMAIN
    domain = domains_.domains[one.sid_index].name.string if is_of_domain else ""
    return f"{domain}\\{one.name.string}" if domain else str(one.name.string)


ACTIONS: Dict[str, Callable[..., Iterator[Any]]] = {
    "account": account, "domains": domains, "controller": controller, "aliases": aliases, "privileges": privileges,
    "names": names}
