"""A Samba domain controller for tests, in a network and in mounts of its own. It ends with the test, since both share a
namespace of processes."""
import contextlib
import os
import pathlib
import shutil
import socket
import subprocess
import sys
import time
from typing import Any, Dict, Iterator, Optional

REALM, NETBIOS, HOST, ADDRESS = "AUDIT.TEST", "AUDIT", "dc1.audit.test", "10.97.0.1"
BASE = "DC=audit,DC=test"
ADMINISTRATOR, PASSWORD = "Administrator", "Pass-word1"
_INSIDE = "SDTOOL_TESTS_NAMESPACE"
_SECONDS = 120  # in which a server starts, on a machine with other work
_SERVICES = "s3fs, rpc, ldap, cldap, kdc, winbindd, dns"
_CONFIGURATION = """[global]
server role = active directory domain controller
realm = {realm}
workgroup = {netbios}
netbios name = {name}
private dir = {folder}/private
state directory = {folder}/state
lock directory = {folder}/lock
cache directory = {folder}/cache
pid directory = {folder}/run
ncalrpc dir = {folder}/run/ncalrpc
binddns dir = {folder}/bind
log file = {folder}/log.%m
interfaces = lo {address}
bind interfaces only = yes
server services = {services}
idmap_ldb:use rfc2307 = yes
{more}
[sysvol]
path = {folder}/state/sysvol
read only = no
[netlogon]
path = {folder}/state/sysvol/scripts
read only = no
{shares}
"""


def missing() -> str:
    """What a test with a domain lacks here, or nothing."""
    if os.geteuid():
        return "it runs as root alone"
    needed = {"samba-tool": "samba-common-bin", "samba": "samba", "winbindd": "winbind", "unshare": "util-linux"}
    found = [package for command, package in needed.items() if not shutil.which(command)]
    if not pathlib.Path("/usr/share/samba/setup").is_dir():
        found.append("samba-ad-provision")
    if subprocess.run(["unshare", "--net", "--mount", "--pid", "--fork", "true"], stderr=subprocess.DEVNULL).returncode:
        found.append("the right to make namespaces")
    return ", ".join(found)


def go_inside() -> None:
    """Starts the test again in namespaces of its own, if it isn't there yet."""
    if os.environ.get(_INSIDE) == str(os.getppid()):
        return
    os.environ[_INSIDE] = "0"  # the process that has no parent in its namespace
    sys.stdout.flush()
    os.execvp("unshare", ["unshare", "--net", "--mount", "--pid", "--fork", "--kill-child", "--mount-proc",
                          sys.executable, *sys.argv])


def _run(*words: str, **more: Any) -> str:
    done = subprocess.run(words, stdin=subprocess.DEVNULL, stdout=subprocess.PIPE, stderr=subprocess.STDOUT, text=True,
                          **more)
    if done.returncode:
        raise RuntimeError(f"{' '.join(words)}: {done.stdout[-2000:]}")
    return done.stdout


class Domain:
    """A domain that is provisioned, and then started."""

    def __init__(self, folder: pathlib.Path, shares: str = "", more: str = "") -> None:
        self.folder = folder
        self.configuration = folder / "smb.conf"
        self.client = folder / "client.conf"
        self.environment = {**os.environ, "KRB5_CONFIG": str(folder / "krb5.conf"), "SMB_CONF_PATH": str(self.client)}
        self.environment.pop("KRB5CCNAME", None)
        folder.mkdir(parents=True)
        # In memory, since each change of the directory waits for the disk some times.
        _run("mount", "-t", "tmpfs", "tmpfs", str(folder))
        for name in ("run", "etc", "cache", "lock", "samba"):
            (folder / name).mkdir()
        self._mount()
        self.configuration.write_text(_CONFIGURATION.format(
            realm=REALM, netbios=NETBIOS, name=HOST.partition(".")[0].upper(), folder=folder, address=ADDRESS,
            services=_SERVICES, shares=shares, more=more))
        self.client.write_text(f"[global]\nrealm = {REALM}\nworkgroup = {NETBIOS}\n")
        (folder / "krb5.conf").write_text(f"[libdefaults]\ndefault_realm = {REALM}\ndns_lookup_realm = false\n"
                                          f"dns_lookup_kdc = true\n[domain_realm]\n.audit.test = {REALM}\n")
        self._server: Optional[subprocess.Popen[bytes]] = None

    def _mount(self) -> None:
        """An address, names, and a place for the socket of winbind, which its library has compiled in."""
        _run("ip", "link", "set", "lo", "up")
        _run("ip", "address", "add", f"{ADDRESS}/24", "dev", "lo")
        os.makedirs("/run/samba", exist_ok=True)
        _run("mount", "--bind", str(self.folder / "samba"), "/run/samba")
        for path, text in (("/etc/hosts", f"127.0.0.1 localhost\n{ADDRESS} {HOST} {HOST.partition('.')[0]}\n"),
                           ("/etc/resolv.conf", f"nameserver {ADDRESS}\nsearch {REALM.lower()}\n")):
            own = self.folder / "etc" / os.path.basename(path)
            own.write_text(text)
            _run("mount", "--bind", str(own), os.path.realpath(path))

    def provision(self) -> None:
        _run("samba-tool", "domain", "provision", f"--realm={REALM}", f"--domain={NETBIOS}", "--server-role=dc",
             f"--adminpass={PASSWORD}", f"--host-name={HOST.partition('.')[0]}", f"--host-ip={ADDRESS}",
             "--use-rfc2307", "--dns-backend=SAMBA_INTERNAL", f"--configfile={self.configuration}")
        self._name_services()

    def _name_services(self) -> None:
        """The names by which Kerberos knows the server's services, which it would give itself some time later."""
        import ldb
        database = self.database()
        message = ldb.Message(ldb.Dn(database, f"CN={HOST.partition('.')[0].upper()},OU=Domain Controllers,{BASE}"))
        names = [f"{service}/{HOST}{realm}" for service in ("ldap", "cifs", "HOST")
                 for realm in ("", f"/{REALM.lower()}")]
        found = database.search(message.dn, ldb.SCOPE_BASE, attrs=["servicePrincipalName"])[
                                0].get("servicePrincipalName", [])
        given = {bytes(name).decode().lower() for name in found}
        new = [name for name in names if name.lower() not in given]
        message["names"] = ldb.MessageElement(new, ldb.FLAG_MOD_ADD, "servicePrincipalName")
        database.modify(message)

    def database(self) -> Any:
        """The directory's own files, which need no server."""
        from samba.auth import system_session
        from samba.param import LoadParm
        from samba.samdb import SamDB
        parameters = LoadParm()
        parameters.load(str(self.configuration))
        return SamDB(lp=parameters, session_info=system_session())

    @contextlib.contextmanager
    def started(self) -> Iterator[None]:
        """The server runs. It would end with its standard input."""
        with open(self.folder / "samba.log", "wb") as log:
            self._server = subprocess.Popen(["samba", "-i", "-M", "prefork", "-s", str(self.configuration)],
                                            stdin=subprocess.PIPE, stdout=log, stderr=log)
        try:
            self._wait()
            yield
        finally:
            self._server.terminate()
            self._server.wait(_SECONDS)
            _run("umount", "-l", str(self.folder))

    def _wait(self) -> None:
        """Waits until each service answers."""
        end = time.monotonic() + _SECONDS
        for port in (389, 636, 88, 445, 53, 135):
            while True:
                with contextlib.suppress(OSError), socket.create_connection((ADDRESS, port), 1):
                    break
                if time.monotonic() > end or self._server is None or self._server.poll() is not None:
                    raise RuntimeError(f"port {port}: {(self.folder / 'samba.log').read_text()[-2000:]}")
                time.sleep(0.1)

    def ticket(self, user: str, password: str = PASSWORD) -> Dict[str, str]:
        """The surroundings of a user who has a Kerberos ticket."""
        cache = self.folder / f"ticket.{user}"
        surroundings = {**self.environment, "KRB5CCNAME": f"FILE:{cache}"}
        _run(sys.executable, "-c", _TICKET, user, password, str(self.client), str(cache), env=surroundings)
        return surroundings


_TICKET = """
import sys
from samba.credentials import Credentials, MUST_USE_KERBEROS
from samba.param import LoadParm
user, password, configuration, cache = sys.argv[1:]
lp = LoadParm(); lp.load(configuration)
one = Credentials(); one.guess(lp)
one.set_username(user); one.set_password(password); one.set_realm(lp.get("realm"))
one.set_kerberos_state(MUST_USE_KERBEROS)
one.get_named_ccache(lp, "FILE:" + cache)
"""
