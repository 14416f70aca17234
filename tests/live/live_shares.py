"""Tests what sdtool-audit asks a file server by smb://, reg:// and svc://. The server is a Samba domain of the test's
own, with users, nested groups, and shares that take rights away; a proxy before it cuts, delays, hangs and damages. The
truth is what a user may really do: opens with one right each, as six users on 500 files. It needs root, the library,
and the packages that CONTRIBUTING lists for servers; else a line says what is missing.
"""
import concurrent.futures
import contextlib
import json
import os
import pathlib
import pty
import pwd
import random
import re
import select
import shutil
import signal
import socket
import sqlite3
import subprocess
import sys
import tempfile
import threading
import time
from typing import Any, Dict, Iterator, List, NamedTuple, Optional, Sequence, Set, Tuple

import audit
import faulty_proxy
import preload
import samba_domain

USERS = ("ann", "bob", "cat", "dan", "eve", "fay")
# Of each group the members, which may be groups. fay is an administrator too.
GROUPS = {"readers": ("ann", "bob"), "writers": ("cat", "readers"), "staff": ("writers", "dan"), "others": ("eve",)}
FILES = 500
# The rights that are opened for, each with the word that asks about it.
RIGHTS = {0x1: "0x1", 0x2: "0x2", 0x20: "0x20", 0x100: "0x100", 0x10000: "delete", 0x20000: "0x20000",
          0x40000: "0x40000", 0x80000: "0x80000"}
SHARES = ("free", "tight", "shut", "odd")
# What the server logs of the share 'seen'.
LOGGED = "create_file pwrite pwrite_send ftruncate unlinkat renameat mkdirat fset_nt_acl fsetxattr fchmod fntimes"
READS = 0x01120081  # the SACL, to wait, the other permissions, attributes, and a folder's entries
SEED = 97
LARGE = 20_000  # files
PROXY = "10.97.0.77"
WHOLE = FILES // 2 + FILES // 50 + 2  # objects of a share: files, folders, its root and itself


class World(NamedTuple):
    """A domain with shares, and the command that asks it."""

    domain: samba_domain.Domain
    folder: pathlib.Path
    count: preload.Count
    python: str
    sids: Dict[str, str]
    tokens: Dict[str, List[str]]

    def credentials(self, user: str, password: str = samba_domain.PASSWORD) -> str:
        path = self.folder / f"{user}.credentials"
        path.write_text(f"username = {user}\npassword = {password}\ndomain = {samba_domain.NETBIOS}\n")
        path.chmod(0o600)
        return str(path)

    def environment(self) -> Dict[str, str]:
        top = preload.TOP
        return {**self.domain.environment, "SDTOOL_LIBRARY": preload.LIBRARY, "PYTHONPATH": str(top / "python"),
                "PYTHONDONTWRITEBYTECODE": "1", "COLUMNS": "200"}

    def ask(self, *words: str, user: Optional[str] = samba_domain.ADMINISTRATOR, **more: str) -> audit.Ended:
        who = ["--credentials", self.credentials(user)] if user else []
        ended = subprocess.run([self.python, "-m", "sdtool.audit", *words, *who], cwd=self.folder,
                               stdin=subprocess.DEVNULL, capture_output=True, timeout=audit.SECONDS,
                               env={**self.environment(), **more})
        return audit.Ended(ended.returncode, ended.stdout.decode("utf-8", "surrogateescape"),
                           ended.stderr.decode("utf-8", "replace"))

    def objects(self, *words: str, **more: Any) -> Dict[str, Dict[str, Any]]:
        ended = self.ask(*words, "--to", "jsonl", **more)
        try:
            return {one["name"]: one for one in ended.objects}
        except ValueError:
            self.count.add(False, f"no JSON of {words}: {ended}")
            return {}

    def expect(self, got: Any, wanted: Any, what: str) -> None:
        self.count.add(got == wanted, f"{what}\n  got    {got!r}\n  wanted {wanted!r}")


def name_of(share: str, *path: str) -> str:
    return "\\".join(["", "", samba_domain.HOST, share, *path])


def set_descriptor(path: pathlib.Path, sddl: str, domain_sid: Any) -> None:
    """Gives a file a descriptor as Samba keeps it."""
    from samba.dcerpc import security, xattr
    from samba.ndr import ndr_pack
    kept = xattr.NTACL()
    kept.version = 1
    kept.info = security.descriptor.from_sddl(sddl, domain_sid)
    os.setxattr(path, "security.NTACL", ndr_pack(kept))


def planted(domain: samba_domain.Domain) -> Dict[str, str]:
    """Makes users and groups, and gives their SIDs."""
    database = domain.database()
    for user in USERS:
        database.newuser(user, samba_domain.PASSWORD)
    for group in GROUPS:
        database.newgroup(group)
    for group, members in {**GROUPS, "Domain Admins": ("fay",)}.items():
        database.add_remove_group_members(group, list(members), add_members_operation=True)
    return sids_of(domain)


def sids_of(domain: samba_domain.Domain) -> Dict[str, str]:
    """The SIDs of users and groups."""
    from samba.dcerpc import security
    from samba.ndr import ndr_unpack
    database = domain.database()
    found = database.search(samba_domain.BASE, expression="(|(objectClass=user)(objectClass=group))",
                            attrs=["sAMAccountName", "objectSid"])
    return {str(one["sAMAccountName"]): str(ndr_unpack(security.dom_sid, bytes(one["objectSid"][0]))) for one in found}


def token_of(user: str, sids: Dict[str, str]) -> List[str]:
    """The SIDs of somebody who comes by the network: the groups, and what everybody has who logs on so."""
    groups = {"Domain Users"}
    while True:
        more = {group for group, members in GROUPS.items() if user in members or groups & set(members)} | groups
        if more == groups:
            break
        groups = more
    return [sids[user], *(sids[group] for group in sorted(groups)), "S-1-1-0", "S-1-5-11", "S-1-5-2", "S-1-5-15",
            "S-1-5-32-545"]


def made_files(top: pathlib.Path, sids: Dict[str, str], domain_sid: Any) -> None:
    """Files with permissions by chance: who, which rights, in which order, who owns them; and folders that let
    delete."""
    chance = random.Random(SEED)
    trustees = [sids[name] for name in (*USERS, *GROUPS)] + ["WD", "AU", "NU", "BU", "OW"]
    masks = ["0x1f01ff", "0x1200a9", "0x1301bf", "0x120116", "0x2", "0x1", "0x20", "0x100", "0x10000", "0x20000",
             "0x40000", "0x80000", "0x110000", "0x60000"]

    def sddl(is_folder: bool) -> str:
        aces = [f"({'D' if chance.random() < 0.25 else 'A'};;{chance.choice(masks)};;;{chance.choice(trustees)})"
                for _ in range(chance.randint(1, 5))]
        # Who can't go through a folder can't open what is in it, so all may; some may delete what is in it.
        if is_folder:
            aces = [f"({chance.choice('AAD')};;0x40;;;{chance.choice(trustees)})", *aces[:1], "(A;;0x1200a9;;;WD)"]
            aces[1] = aces[1].replace("(D;", "(A;")
        owner = sids[chance.choice(USERS)] if chance.random() < 0.8 else "BA"
        return f"O:{owner}G:{sids['Domain Users']}D:{''.join(aces)}"

    for share in ("free", "tight"):
        for at in range(FILES // 2):
            folder = top / share / f"d{at // 25}"
            if not folder.exists():
                folder.mkdir(mode=0o777, parents=True)
                folder.chmod(0o777)
                set_descriptor(folder, sddl(True), domain_sid)
            path = folder / f"f{at}.txt"
            path.write_text("x")
            path.chmod(0o666)
            set_descriptor(path, sddl(False), domain_sid)


def odd_files(top: pathlib.Path, sids: Dict[str, str], domain_sid: Any) -> Dict[str, str]:
    """What is easily lost: by its path below the share, the answer about reading."""
    everybody = f"O:BAG:{sids['Domain Users']}D:(A;;0x1f01ff;;;WD)"
    names = {"ünïcödé €.txt": "found", "日本語": "found", "emoji \U0001f600.txt": "found", "n" * 250: "found",
             ".hidden": "found", "a 'quote' and %41.txt": "found", "=formula": "found"}
    for name in names:
        (top / "odd" / name).write_text("x")
        (top / "odd" / name).chmod(0o666)
        set_descriptor(top / "odd" / name, everybody, domain_sid)
    deep = top / "odd/deep"
    deep.mkdir()
    (deep / "inner").mkdir()
    for one in (deep, deep / "inner"):
        one.chmod(0o777)
    set_descriptor(deep, everybody, domain_sid)
    set_descriptor(deep / "inner", f"O:BAG:BAD:(A;;0x1200a9;;;{sids['ann']})", domain_sid)
    (deep / "inner/kept.txt").write_text("x")
    (top / "odd/empty").mkdir()
    set_descriptor(top / "odd/empty", everybody, domain_sid)
    (top / "odd/null.txt").write_text("x")
    set_descriptor(top / "odd/null.txt", f"O:BAG:{sids['Domain Users']}", domain_sid)
    return names


def prepared(top: pathlib.Path) -> samba_domain.Domain:
    """A domain with users and shares, which is not started yet."""
    shares = "".join(f"[{share}]\npath = {top}/{share}\nread only = no\n" for share in SHARES)
    shares += f"[reading]\npath = {top}/free\nread only = no\n"
    shares += (f"[seen]\npath = {top}/free\nread only = no\nvfs objects = full_audit dfs_samba4 acl_xattr\n"
               f"full_audit:success = {LOGGED}\nfull_audit:failure = {LOGGED}\nfull_audit:syslog = no\n"
               "full_audit:prefix = SEEN\n")
    domain = samba_domain.Domain(top / "dc", shares, "vfs objects = dfs_samba4 acl_xattr\n"
                                 "acl_xattr:ignore system acls = yes\nlog level = 0 full_audit:1\n")
    if not (top / "odd").exists():
        domain.provision()
        fill(top, domain)
    return domain


def fill(top: pathlib.Path, domain: samba_domain.Domain) -> None:
    """Makes users, shares and files."""
    sids = planted(domain)
    from samba.dcerpc import security
    domain_sid = security.dom_sid(sids["ann"].rpartition("-")[0])
    for share in SHARES:
        (top / share).mkdir()
        (top / share).chmod(0o777)
        set_descriptor(top / share, f"O:BAG:{sids['Domain Users']}D:(A;;0x1f01ff;;;WD)", domain_sid)
    made_files(top, sids, domain_sid)
    odd_files(top, sids, domain_sid)
    tight = (f"D:(D;;0x40000;;;{sids['dan']})(A;;0x1200a9;;;WD)(A;;0x1301bf;;;{sids['writers']})"
             f"(A;;0x1f01ff;;;{sids['dan']})")
    for share, sddl in (("tight", tight), ("shut", f"D:(A;;0x1f01ff;;;{sids['ann']})(A;;0x1f01ff;;;BA)"),
                        ("reading", "D:(A;;0x1200a9;;;WD)(A;;0x1f01ff;;;BA)")):
        subprocess.run(["sharesec", "-s", str(domain.configuration), share, "-S", sddl], check=True,
                       stdout=subprocess.DEVNULL, stderr=subprocess.DEVNULL)


@contextlib.contextmanager
def world(count: preload.Count, python: str) -> Iterator[World]:
    with tempfile.TemporaryDirectory(prefix="sdtool-live-") as name:
        top = pathlib.Path(name)
        top.chmod(0o755)
        domain = prepared(top)
        sids = sids_of(domain)
        with domain.started():
            yield World(domain, top, count, python, sids, {user: token_of(user, sids) for user in USERS})


def connection(server: str, share: str, domain: str, user: str, password: str) -> Any:
    """A connection of a user, which asks for what the test wants to know."""
    from samba import credentials
    from samba.param import LoadParm
    from samba.samba3 import libsmb_samba_internal as libsmb
    from samba.samba3 import param
    settings = param.get_context()
    with contextlib.suppress(Exception):
        settings.load_default()
    settings.set("log level", "0")
    plain = LoadParm()
    one = credentials.Credentials()
    one.guess(plain)
    one.set_username(user)
    one.set_domain(domain)
    one.set_password(password)
    one.set_kerberos_state(credentials.DONT_USE_KERBEROS)
    return libsmb.Conn(server, share, lp=settings, creds=one)


_OPENS = """
import json, sys
sys.path[:] = json.loads(sys.argv[1])
import preload
import live_shares
from samba import NTSTATUSError
*whom, masks = sys.argv[2:]
one = live_shares.connection(*whom)
found = {}
for path in json.load(sys.stdin):
    found[path] = 0
    for mask in json.loads(masks):
        try:
            one.close(one.create(Name=path, DesiredAccess=mask, ShareAccess=7, CreateDisposition=1))
            found[path] |= mask
        except NTSTATUSError as error:
            if error.args[0] & 0xffffffff not in (0xc0000022,):
                raise
print(json.dumps(found))
"""


def opened(place: World, user: str, share: str, paths: Sequence[str]) -> Dict[str, int]:
    """Which rights a user really opens each file with."""
    done = subprocess.run([place.python, "-c", _OPENS, json.dumps(sys.path), samba_domain.HOST, share,
                           samba_domain.NETBIOS, user, samba_domain.PASSWORD, json.dumps(list(RIGHTS))],
                          input=json.dumps(list(paths)), stdout=subprocess.PIPE, text=True, check=True,
                          env=place.environment())
    return {path: mask for path, mask in json.loads(done.stdout).items()}


class Eye:
    """Sees to whom packets go in this network."""

    def __init__(self) -> None:
        self.seen: Set[str] = set()
        self._socket = socket.socket(socket.AF_PACKET, socket.SOCK_DGRAM, socket.htons(0x800))
        threading.Thread(target=self._look, daemon=True).start()

    def _look(self) -> None:
        while True:
            self.seen.add(socket.inet_ntoa(self._socket.recv(65536)[16:20]))


def test_seen(place: World) -> None:
    """The server's log has nothing but reads, with rights to read, and nobody else is asked anything."""
    subprocess.run(["ip", "route", "add", "local", "0.0.0.0/0", "dev", "lo"], check=True)
    eye = Eye()
    for more in ((), ("--sacl",), ("--backup",)):
        ended = place.ask("can", "WD", "0x1", f"smb://{samba_domain.HOST}/seen", "--to", "jsonl", *more)
        place.expect(len(ended.objects), WHOLE, f"objects of {more}")
    place.ask("can", f"ann@{samba_domain.REALM.lower()}", "0x1", f"smb://{samba_domain.HOST}/seen/d0")
    place.expect(place.ask("risks", "smb://nowhere.audit.test/a", "--timeout", "5").status, 2, "an unknown server")
    place.expect(eye.seen - {samba_domain.ADDRESS, "127.0.0.1"}, set(), "others who are asked")
    logs = "".join(path.read_text(errors="replace") for path in place.domain.folder.glob("log.*"))
    calls = re.findall(r"SEEN\|(.*)", logs)
    opens = [call.split("|") for call in calls if call.startswith("create_file|")]
    place.count.add(len(opens) > 3 * FILES // 2, f"{len(opens)} opens are logged")
    place.expect([call for call in calls if not call.startswith("create_file|")], [], "calls that write")
    place.expect([one for one in opens if int(one[2], 16) & ~READS or one[4] != "open"], [], "opens that don't read")


def test_bytes(place: World) -> None:
    """A descriptor of which Samba's module loses a part is none."""
    done = subprocess.run([place.python, "-c", BYTES], env=place.environment(), stdout=subprocess.PIPE, text=True)
    place.expect(done.stdout.split("\n")[:3], ["True", "Samba's module loses 12 bytes of its ACEs",
                                               "Samba's module loses 4 bytes of its ACEs"], "lost parts")
    done = subprocess.run([place.python, "-c", KEYS], env=place.environment(), stdout=subprocess.PIPE, text=True)
    place.expect(done.stdout.split("\n")[-2:], [str(["Run", "Run\0", "Run\0", "\U0001f600"]), ""], "names of keys")


def test_connections(place: World) -> None:
    """A client has a connection to the share that it asks about, and to no other one."""
    login = ["smb", "smb", samba_domain.HOST, "", "", "", samba_domain.ADMINISTRATOR, samba_domain.NETBIOS,
             samba_domain.PASSWORD, 60, 0, False, False, ""]
    done = subprocess.run([place.python, "-c", CONNECTIONS], env=place.environment(), stdout=subprocess.PIPE, text=True,
                          input=json.dumps(login))
    place.expect(done.stdout, "1 2 2 2\n", "connections with the service, and with one share after the other")


def test_alone(place: World) -> None:
    """A server of Samba that is in no domain answers otherwise than a controller: who its accounts are, what they
    may really do, and how they are called."""
    with alone(place.folder) as (user, own):
        (place.folder / "alone.credentials").touch(0o600)
        (place.folder / "alone.credentials").write_text(f"username = {user}\npassword = {samba_domain.PASSWORD}\n"
                                                        "domain = ALONE\n")
        done = subprocess.run([place.python, "-c", _OPENS, json.dumps(sys.path), ALONE, "data", "ALONE", user,
                               samba_domain.PASSWORD, "[1]"], input=json.dumps(sorted(OF_ALONE)), text=True,
                              stdout=subprocess.PIPE, check=True, env=place.environment())
        real = {name: "found" if mask else "nothing" for name, mask in json.loads(done.stdout).items()}
        words = ("--credentials", str(place.folder / "alone.credentials"))
        ended = place.ask("can", f"ALONE\\{user}", "0x1", f"smb://{ALONE}/data", "--to", "jsonl", *words, user=None)
        answers = {one["name"].rpartition("\\")[2]: one["answer"] for one in ended.objects}
        place.expect({name: answers.get(name) for name in OF_ALONE}, real, f"what {user} may do: {ended.stderr}")
        place.expect(set(real.values()), {"found", "nothing"}, "not all is one answer")
        shown = place.ask("show", f"smb://{ALONE}/data", *words, user=None)
        place.expect(f"ALONE\\{user} ({own}-" in shown.stdout, True, f"names of SIDs: {shown}")


def test_faults(place: World) -> None:
    """Whatever happens on the way, each object is there with its answer, or is unknown and the status is 3."""
    def ask(server: str) -> audit.Ended:
        return place.ask("can", "WD", "0x1", f"smb://{server}/free", "--to", "jsonl", "--timeout", "10")

    def answers(ended: audit.Ended, server: str) -> Dict[str, str]:
        return {one["name"].replace(server, "SERVER", 1): one["answer"] for one in ended.objects}

    # The server would listen there too if the address were there before.
    subprocess.run(["ip", "address", "add", f"{PROXY}/24", "dev", "lo"], check=True)
    whole = answers(ask(samba_domain.ADDRESS), samba_domain.ADDRESS)
    place.expect(len(whole), WHOLE, "objects without a fault")
    for fault, at, times in (("", 0, 0), ("delay", 9_000, 2), ("cut", 20_000, 1), ("cut", 60_000, 2),
                             ("damage", 9_000, 2), ("lose", 20_000, 1), ("hang", 30_000, 1), ("cut", 4_000, 99)):
        proxy = faulty_proxy.Proxy(PROXY, 445, samba_domain.ADDRESS, fault, at, times)
        try:
            ended = ask(PROXY)
        finally:
            proxy.close()
        got = answers(ended, PROXY)
        wrong = {name: answer for name, answer in got.items() if answer not in ("unknown", whole.get(name))}
        is_said = ended.status == 3 and "unknown" in got.values() or ended.status == 2 and not got
        place.count.add(not wrong and (got == whole or times > 1 and is_said),
                        f"{fault} at {at}, {times} times: {len(got)} of {len(whole)}, wrong {wrong}, "
                        f"{str(ended)[-600:]}")


# The server that is in no domain, and who may read each of its files.
ALONE = "10.97.0.30"
OF_ALONE = {"of user": "{own}-{number}", "of users": "{own}-513", "of others": "{own}-9999", "of everyone": "S-1-1-0",
            "of who logs on": "S-1-5-11", "of network": "S-1-5-2", "of administrators": "S-1-5-32-544"}
_ALONE = """[global]
server role = standalone server
workgroup = ALONE
netbios name = ALONE
interfaces = {address}
bind interfaces only = yes
vfs objects = acl_xattr
acl_xattr:ignore system acls = yes
load printers = no
disable spoolss = yes
log file = {folder}/log
private dir = {folder}/private
state directory = {folder}/state
lock directory = {folder}/lock
cache directory = {folder}/cache
pid directory = {folder}/run
ncalrpc dir = {folder}/ncalrpc
[data]
path = {folder}/data
read only = no
"""


@contextlib.contextmanager
def alone(top: pathlib.Path) -> Iterator[Tuple[str, str]]:
    """Such a server, with the name of a user and the SID of its accounts. It doesn't see the domain's winbind."""
    from samba.dcerpc import security
    folder, user = top / "alone", "games"
    for name in ("data", "private", "state", "lock", "cache", "run", "samba"):
        (folder / name).mkdir(parents=True)
    (folder / "data").chmod(0o777)
    configuration = folder / "smb.conf"
    configuration.write_text(_ALONE.format(folder=folder, address=ALONE))
    subprocess.run(["ip", "address", "add", f"{ALONE}/24", "dev", "lo"], check=True)
    # The mount is seen by what is started here.
    started = f"mount --bind {folder}/samba /run/samba && exec \"$@\""
    inside = ["unshare", "--mount", "sh", "-c", started, "sh"]
    subprocess.run([*inside, "smbpasswd", "-c", str(configuration), "-s", "-a", user], check=True, text=True,
                   input=2 * f"{samba_domain.PASSWORD}\n", stdout=subprocess.DEVNULL)
    told = subprocess.run([*inside, "pdbedit", "-s", str(configuration), "-L", "-v", user], check=True, text=True,
                          stdout=subprocess.PIPE).stdout
    own, number = re.search(r"User SID: +(\S+)-(\d+)", told).groups()  # type: ignore[union-attr]
    for name, sid in OF_ALONE.items():
        path = folder / "data" / name
        path.touch(0o666)
        path.chmod(0o666)
        sddl = f"O:S-1-22-1-{pwd.getpwnam(user).pw_uid}G:BAD:(A;;FR;;;{sid.format(own=own, number=number)})"
        set_descriptor(path, sddl, security.dom_sid(own))
    server = subprocess.Popen([*inside, "smbd", "--foreground", "-s", str(configuration)], stdin=subprocess.PIPE,
                              stdout=subprocess.DEVNULL, stderr=subprocess.DEVNULL)
    try:
        end = time.monotonic() + audit.SECONDS
        while server.poll() is None and time.monotonic() < end:
            with contextlib.suppress(OSError), socket.create_connection((ALONE, 445), 1):
                break
            time.sleep(0.1)
        yield user, own
    finally:
        server.terminate()
        server.wait()


CONNECTIONS = """
import json, sys
from sdtool.audit.live import client, smb_client
session = smb_client.opened(client.Login(*json.loads(sys.stdin.readline())))
found = [len(list(client._connections()))]
for share in ("free", "tight", "odd"):
    assert list(smb_client.entries(session, share, ""))
    found.append(len(list(client._connections())))
print(*found)
"""
# The same bytes come back if none are lost; a condition, and what else is behind a SID, is.
BYTES = """
import struct
from samba.dcerpc import security
from samba.ndr import ndr_unpack
from sdtool.audit.live import client, smb_client
sid = bytes.fromhex("010100000000000100000000")
for kind, more in ((0, b""), (9, b"artx" + bytes(8)), (0, bytes(4))):
    aces = b"".join(struct.pack("<BBHI", kind, 0, 20 + len(more), 2) + sid + more
                    for kind, more in ((0, b""), (kind, more)))
    data = struct.pack("<BBHIIII", 1, 0, 0x8004, 20, 32, 0, 44) + 2 * sid
    data += struct.pack("<BBHHH", 2, 0, 8 + len(aces), 2, 0) + aces
    try:
        print(smb_client._bytes(ndr_unpack(security.descriptor, data)) == data)
    except client.Refusal as error:
        print(error.reason)
"""
# A key is listed with all of its name, or as none.
KEYS = """
import struct
from samba import WERRORError
from samba.dcerpc import winreg
from sdtool.audit.live import registry_client
def listed(key, number, *rest):
    if number >= len(NAMES):
        raise WERRORError(259, "no more")
    data = (NAMES[number] + chr(0)).encode("utf-16-le")
    packed = struct.pack("<HHIIII", len(data), 1024, 1, 512, 0, len(data) // 2) + data + bytes(-len(data) % 4)
    answer = winreg.EnumKey()
    answer.__ndr_unpack_out__(packed + bytes(12))
    return answer.out_name, None, None
NAMES = ["Run", "Run" + chr(0), "Run" + chr(0) + "hidden", "\U0001f600"]
class Session:
    login = type("Login", (), {"requests": 0})
    pipe = type("Pipe", (), {"EnumKey": staticmethod(listed), "CloseKey": staticmethod(print)})
    def opened(self, *words):
        return ""
print([name for some in registry_client.entries(Session(), "HKLM", "") for name, _ in some])
"""
PLAIN = """
import json, sys, time
sys.path[:] = json.loads(sys.argv[1])
import preload
import live_shares
one = live_shares.connection(*sys.argv[2:])
began, count, folders = time.monotonic(), 0, [""]
while folders:
    folder = folders.pop()
    for entry in one.list(folder, "*", 0x7fff):
        path = folder + chr(92) * bool(folder) + entry["name"]
        one.get_acl(path, 7, 0x20000)
        count += 1
        if entry["attrib"] & 16:
            folders.append(path)
print(count, time.monotonic() - began)
"""


def test_speed(place: World) -> None:
    """A share is read at 0.8 of the speed of a loop of `list` and `get_acl`, at the best of three tries."""
    top = place.folder / "odd/speed"
    top.mkdir()
    top.chmod(0o777)
    for at in range(LARGE):
        if not at % 1000:
            (top / f"s{at // 1000}").mkdir()
        (top / f"s{at // 1000}/file {at}.txt").touch()
    tries: List[float] = []
    while max(tries, default=0) < 0.8 and len(tries) < 3:
        done = subprocess.run([place.python, "-c", PLAIN, json.dumps(sys.path), samba_domain.HOST, "odd",
                               samba_domain.NETBIOS, samba_domain.ADMINISTRATOR, samba_domain.PASSWORD],
                              stdout=subprocess.PIPE, text=True, check=True, env=place.environment())
        count, plain = done.stdout.split()
        began = time.monotonic()
        ended = place.ask("show", f"smb://{samba_domain.HOST}/odd/speed", "--name", "nothing")
        tries.append(LARGE * float(plain) / int(count) / (time.monotonic() - began))
    place.count.add(max(tries) >= 0.8, f"the audit's speed beside that of a loop: {tries}; {ended.stderr[-300:]}")
    shutil.rmtree(top)


def test_truth(place: World) -> None:
    """What a user may really do is what `can` answers: of each file, by its share's permissions too. The server says
    who the user is."""
    addresses = [f"smb://{samba_domain.HOST}/free", f"smb://{samba_domain.HOST}/tight"]
    names = [(share, f"d{at // 25}\\f{at}.txt") for share in ("free", "tight") for at in range(FILES // 2)]

    def differ(user: str) -> List[str]:
        account, database = f"{user}@{samba_domain.REALM.lower()}", f"{user}.db"
        place.ask("can", account, "0x1", *addresses, "--into", database)
        real = {share: opened(place, user, share, [path for one, path in names if one == share])
                for share in ("free", "tight")}
        wrong = []
        for mask, word in RIGHTS.items():
            answers = place.objects("can", account, word, database, user=None)
            for share, path in names:
                answer = answers.get(name_of(share, path), {}).get("answer")
                if answer != ("found" if real[share][path] & mask else "nothing"):
                    wrong.append(f"{user} {word} {share}\\{path}: {answer}, really {real[share][path]:#x}")
        return wrong

    with concurrent.futures.ThreadPoolExecutor(3) as threads:
        for user, wrong in zip(USERS, threads.map(differ, USERS)):
            place.count.add(not wrong, f"{len(wrong)} answers about {user} that aren't true, such as {wrong[:3]}")


def test_shares(place: World) -> None:
    """The share's own permissions are an object, and what they take away isn't found."""
    token = ",".join(place.tokens["bob"])
    answers = place.objects("can", token, "0x2", f"smb://{samba_domain.HOST}/reading", "--exact")
    place.expect(answers.get(name_of("reading"), {}).get("answer"), "nothing", "a share that lets read alone")
    place.expect({one["answer"] for name, one in answers.items()}, {"nothing"}, "files behind it")
    ended = place.ask("can", token, "0x2", f"smb://{samba_domain.HOST}/reading", "--exact", "--list", "all")
    place.count.add(f"share {name_of('reading')} takes away" in ended.stdout or "[share" in ended.stdout,
                    f"a line says that the share decides: {ended}")
    both = place.objects("can", token, "0x2", f"smb://{samba_domain.HOST}/free", "--exact")
    place.count.add(any(one["answer"] == "found" for one in both.values()), "the same files by a share that lets all")
    risky = place.objects("risks", f"smb://{samba_domain.HOST}/odd", "--list", "all")
    place.expect(risky.get(name_of("odd", "=formula"), {}).get("answer"), "found", "a file that everybody changes")
    through = place.objects("who", "0x2", f"smb://{samba_domain.HOST}/tight", "--all-trustees")
    said = json.dumps(list(through.values()))
    place.count.add("only as" in said, f"members of two groups: {said[:300]}")


def test_names(place: World) -> None:
    """Each name is there, whatever is in it, and what can't be listed or read says so."""
    objects = place.objects("can", "WD", "read", f"smb://{samba_domain.HOST}/odd")
    for name in ("ünïcödé €.txt", "日本語", "emoji \U0001f600.txt", "n" * 250, ".hidden", "a 'quote' and %41.txt",
                 "=formula", "deep", "empty", "null.txt"):
        place.expect(objects.get(name_of("odd", name), {}).get("answer"), "found", f"the object {name!r}")
    place.expect(objects.get(name_of("odd", "")).get("answer"), "found", "the share's root")
    few = place.objects("can", "WD", "read", f"smb://{samba_domain.HOST}/odd/deep", user="bob")
    place.expect({name: one["answer"] for name, one in few.items() if name.startswith(name_of("odd", "deep"))},
                 {name_of("odd", "deep"): "found", name_of("odd", "deep", "inner"): "unknown",
                  name_of("odd", "deep", "inner", "*"): "unknown"}, "a folder that can't be listed")
    one = place.objects("can", "WD", "read", f"smb://{samba_domain.HOST}/odd/deep/inner/kept.txt")
    place.expect(set(one), {name_of("odd"), name_of("odd", "deep", "inner", "kept.txt")}, "one file")
    every = place.objects("can", "WD", "read", f"smb://{samba_domain.HOST}")
    shares = {name_of(share) for share in (*SHARES, "reading", "seen", "sysvol", "netlogon", "IPC$")}
    place.expect(shares - set(every), set(), "all shares")
    place.expect([name for name in every if name.startswith(name_of("IPC$", ""))], [], "what is no share of files")
    ended = place.ask("can", "WD", "read", f"smb://{samba_domain.HOST}/odd/empty", "--sacl", "--to", "jsonl",
                      user="ann")
    found = {one["name"]: one["answer"] for one in ended.objects}
    place.expect((found.get(name_of("odd", "empty")), "SACLs can't be read" in ended.stderr), ("found", True),
                 f"without the privilege to read SACLs: {ended}")


def test_others(place: World) -> None:
    """Registry and services."""
    keys = place.objects("can", "BA", "read", f"reg://{samba_domain.HOST}/HKLM/SOFTWARE")
    place.count.add(len(keys) > 5 and all(name.startswith("HKLM\\SOFTWARE") for name in keys), f"keys: {sorted(keys)}")
    place.expect({one["answer"] for one in keys.values()}, {"found"}, "administrators read keys")
    services = place.objects("can", "BA", "start", f"svc://{samba_domain.HOST}")
    spooler = [name for name in services if name.startswith("Spooler (") and name.endswith(", LocalSystem)")]
    place.count.add(len(spooler) == 1 and services[spooler[0]]["answer"] == "found", f"services: {sorted(services)}")
    place.expect(services.get("scmanager", {}).get("answer"), "unknown", "the manager, which Samba doesn't have")


def test_refused(place: World) -> None:
    """What never opens is status 2, with words that help, and nothing of a password is anywhere."""
    secret = "Not-the-word-77"
    wrong = place.folder / "wrong.credentials"
    wrong.write_text(f"username = ann\npassword = {secret}\ndomain = {samba_domain.NETBIOS}\n")
    wrong.chmod(0o600)
    link = place.folder / "link.credentials"
    link.symlink_to(wrong)
    readable = place.folder / "readable.credentials"
    shutil.copy(wrong, readable)
    readable.chmod(0o640)
    twice = place.folder / "twice.credentials"
    shutil.copy(wrong, twice)
    os.link(twice, place.folder / "other.credentials")
    foreign = place.folder / "foreign.credentials"
    shutil.copy(wrong, foreign)
    foreign.chmod(0o600)
    os.chown(foreign, 12_345, 0)
    right = ("--credentials", place.credentials("ann"))
    for words, help_ in (((f"smb://{samba_domain.HOST}/nope", *right), "name of the share"),
                         ((f"smb://{samba_domain.HOST}/odd/nope", *right), "path"),
                         ((f"smb://{samba_domain.HOST}/odd", "--credentials", str(wrong)), "password"),
                         ((f"smb://{samba_domain.HOST}/odd", "--credentials", str(link)), "link"),
                         ((f"smb://{samba_domain.HOST}/odd", "--credentials", str(readable)), "600"),
                         ((f"smb://{samba_domain.HOST}/odd", "--credentials", str(twice)), "link"),
                         ((f"smb://{samba_domain.HOST}/odd", "--credentials", str(foreign)), "chown"),
                         ((f"smb://{samba_domain.HOST}/odd", "--user", f"ann%{secret}"), "is a name"),
                         ((f"smb://ann:{secret}@{samba_domain.HOST}/odd",), "no user, password"),
                         ((f"smb://{samba_domain.HOST}/odd", "--user", "ann"), "terminal"),
                         ((f"smb://{samba_domain.HOST}/odd",), "kinit"),
                         ((f"reg://{samba_domain.HOST}/HKXX",), "hive")):
        ended = place.ask("risks", *words, user=None)
        place.count.add(ended.status == 2 and help_ in ended.stderr and not ended.stdout and secret not in str(ended),
                        f"{words}: {ended}")


# What a machine's smb.conf may say, and doesn't hold.
CARELESS = """client signing = disabled
client ipc signing = disabled
client ldap sasl wrapping = plain
"""
# A client that is begun again, by another ticket than the first one.
OTHER = """
import sys
from sdtool.audit.live import access, address, talking
try:
    talking.Client("smb", address.address_of(sys.argv[1]), access.Access(who=access.Who("bob@AUDIT.TEST")))
except talking.NeverOpened as error:
    print(error)
"""


def test_tickets(place: World) -> None:
    """Kerberos' ticket says who asks, and a password that is typed is neither shown nor given to anybody."""
    environment = place.domain.ticket("ann")
    ended = place.ask("can", "WD", "read", f"smb://{samba_domain.HOST}/odd", "--to", "jsonl", user=None,
                      KRB5CCNAME=environment["KRB5CCNAME"])
    place.count.add(ended.status == 3 and name_of("odd", "deep").replace("\\", "\\\\") in ended.stdout,
                    f"a run by a ticket: {ended}")
    done = subprocess.run([place.python, "-c", OTHER, f"smb://{samba_domain.HOST}/odd"], stdout=subprocess.PIPE,
                          text=True, env={**place.environment(), "KRB5CCNAME": environment["KRB5CCNAME"]})
    place.count.add("that of ann@AUDIT.TEST, and was that of bob@AUDIT.TEST" in done.stdout,
                    f"another ticket than before: {done.stdout}")
    ended = place.ask("risks", f"smb://{samba_domain.ADDRESS}/odd", user=None, KRB5CCNAME=environment["KRB5CCNAME"])
    place.count.add(ended.status == 2 and "full name" in ended.stderr, f"a ticket and a number: {ended}")
    address = f"smb://{samba_domain.HOST}/odd/empty"
    careless = place.folder / "careless.conf"
    careless.write_text(place.domain.client.read_text() + CARELESS)
    for source in (address, f"reg://{samba_domain.HOST}/HKLM/SOFTWARE"):
        ended = place.ask("can", f"ann@{samba_domain.REALM.lower()}", "read", source, SMB_CONF_PATH=str(careless))
        place.count.add(ended.status in (0, 1) and "couldn't be asked" not in ended.stderr, f"it is signed: {ended}")
        place.count.add(f"the token: AUDIT\\ann ({place.sids['ann']}), " in ended.stderr, f"a token's names: {ended}")
    number, terminal = pty.fork()
    if not number:
        os.chdir(place.folder)
        os.execve(place.python, [place.python, "-m", "sdtool.audit", "can", "WD", "read", address, "--user",
                                 f"{samba_domain.NETBIOS}\\ann", "--no-bar"], place.environment())
    shown, listed = b"", ""
    while select.select([terminal], [], [], audit.SECONDS if not listed else 0.2)[0] or listed:
        try:
            shown += os.read(terminal, 65536) if select.select([terminal], [], [], 0)[0] else b""
        except OSError:
            break  # it has ended
        if b"Password" in shown and not listed:
            os.write(terminal, samba_domain.PASSWORD.encode() + b"\n")
            listed = "asked"
        listed += subprocess.run(["ps", "axeww"], stdout=subprocess.PIPE, text=True).stdout if listed else ""
    os.kill(number, signal.SIGKILL)
    os.waitpid(number, 0)
    is_hidden = samba_domain.PASSWORD.encode() not in shown and samba_domain.PASSWORD not in listed
    place.count.add(name_of("odd", "empty").encode() in shown and bool(listed) and is_hidden,
                    f"a password that is typed: {shown!r}")


def kept_in(path: pathlib.Path) -> int:
    """How many objects a database has that a run may still make."""
    with contextlib.suppress(sqlite3.Error), contextlib.closing(
            sqlite3.connect(f"file:{path}?mode=ro", uri=True)) as database:
        return int(database.execute("SELECT count(*) FROM objects").fetchone()[0])
    return 0


def test_goes_on(place: World) -> None:
    """A run that ended early goes on where it was, by a ticket of the same user, and its file says so until then."""
    words = ("can", "WD", "0x1", f"smb://{samba_domain.HOST}/free", "--into", "parts.db")
    tickets = {user: {"KRB5CCNAME": place.domain.ticket(user)["KRB5CCNAME"]}
               for user in ("ann", samba_domain.ADMINISTRATOR)}
    ticket = tickets[samba_domain.ADMINISTRATOR]
    run = subprocess.Popen([place.python, "-m", "sdtool.audit", *words, "--requests", "100"], cwd=place.folder,
                           stdout=subprocess.DEVNULL, stderr=subprocess.DEVNULL, env={**place.environment(), **ticket})
    while run.poll() is None and kept_in(place.folder / "parts.db") <= 5:
        time.sleep(0.1)
    run.kill()
    run.wait()
    part = place.objects("can", "WD", "0x1", "parts.db", user=None)
    rest = part.get(f"smb://{samba_domain.HOST}/free: the rest", {}).get("answer")
    place.count.add(5 < len(part) < WHOLE and rest == "unknown",
                    f"a file that isn't whole has {len(part)} objects")
    other = place.ask(*words, user=None, **tickets["ann"])
    place.count.add(other.status == 2 and f"as ann@{samba_domain.REALM}:" in other.stderr and not other.stdout,
                    f"another user's ticket: {other}")
    whole = place.objects(*words, user=None, **ticket)
    again = place.ask(*words, user=None, **ticket)
    place.count.add(again.status == 2 and "exists" in again.stderr, f"a file that is whole: {again}")
    at_once = place.objects("can", "WD", "0x1", f"smb://{samba_domain.HOST}/free")
    place.expect({name: one["answer"] for name, one in whole.items()},
                 {name: one["answer"] for name, one in at_once.items()}, "what went on is the same")
    place.expect(len(whole), WHOLE, "files, folders, the root and the share")


TESTS = (test_seen, test_bytes, test_connections, test_alone, test_truth, test_shares, test_names, test_others,
         test_refused, test_tickets, test_goes_on, test_faults)
BY_NAME = (test_speed,)  # which takes a machine without other work


def main(count: preload.Count) -> None:
    lacks = samba_domain.missing()
    python = preload.python_with("click", "rich", "samba")
    if lacks or python is None or not os.path.exists(preload.LIBRARY):
        wanted = lacks or "python3-click, python3-rich, python3-samba or the library"
        print(f"sdtool-audit and servers: skipped, for want of {wanted}")
        return
    preload.go_on_in(python)
    samba_domain.go_inside()
    with world(count, python) as place:
        for test in filter(preload.is_chosen, TESTS + BY_NAME * bool(preload.ONLY)):
            test(place)
