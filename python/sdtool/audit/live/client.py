"""The process of a client: it logs in, does what it is asked, and says what came of it. See talking.py."""
import contextlib
import ctypes
import importlib
import json
import os
import queue
import socket
import struct
import sys
import threading
import time
from typing import Any, Callable, Iterator, List, NamedTuple, Tuple

_ALIVE = 1.0  # seconds between two looks at what has come
_SLOW = 0.5  # seconds in which an answer is told
_HEARD, _BYTES_RECEIVED = 52, 128  # where TCP_INFO has them: milliseconds since something came, and how many came
_SET_DUMPABLE = 4
PORTS = {"ldap": 389, "ldaps": 636}


READ_CONTROL = 0x20000
# Which parts of descriptors are asked for, and the rights that this takes.
_WITHOUT_SACL, _WITH_SACL = (7, READ_CONTROL), (15, READ_CONTROL | 0x01000000)


class Refusal(Exception):
    """The server's answer to one request is none. Where the words are why, advice says what helps."""

    def __init__(self, code: int, reason: str, advice: str = "") -> None:
        super().__init__(reason)
        self.code, self.reason, self.advice = code, reason, advice


class Login(NamedTuple):
    """What this client was told: where it asks, as whom, and how."""

    kind: str
    scheme: str
    server: str
    path: str
    query: str
    text: str
    user: str
    domain: str
    password: str
    timeout: float
    requests: float
    sacl: bool
    backup: bool
    ca: str

    def loadparm(self) -> Any:
        """The machine's smb.conf, which can't switch signing off, or have others asked for names than DNS."""
        from samba.param import LoadParm
        return self._safe(LoadParm())

    def loadparm_of_files(self) -> Any:
        """The same, as calls about files take it."""
        from samba.samba3 import param
        return self._safe(param.get_context())

    @staticmethod
    def _safe(found: Any) -> Any:
        with contextlib.suppress(Exception):  # a machine without smb.conf
            found.load_default()
        for name, value in (("log level", "0"), ("client signing", "required"), ("client ipc signing", "required"),
                            ("client ldap sasl wrapping", "seal"), ("name resolve order", "host")):
            found.set(name, value)
        return found

    def credentials(self) -> Any:
        """Who asks. Without a password Kerberos' ticket says it, of one user all the time, and no NTLM is tried."""
        from samba import credentials, gensec
        found = credentials.Credentials()
        found.guess(self.loadparm())
        found.set_smb_signing(credentials.SMB_SIGNING_REQUIRED)
        found.set_smb_ipc_signing(credentials.SMB_SIGNING_REQUIRED)
        found.set_gensec_features(found.get_gensec_features() | gensec.FEATURE_SEAL)
        if not self.password:
            found.set_username("", credentials.GUESS_ENV)  # a ticket alone says a name
            found.set_kerberos_state(credentials.MUST_USE_KERBEROS)
            user = found.get_principal()
            if not user:
                raise Refusal(_NO_SESSION, "there is no ticket of Kerberos that is still valid")
            if self.user and user != self.user:
                raise Refusal(_NO_SESSION, f"the ticket of Kerberos is that of {user}, and was that of {self.user}")
            return found
        found.set_kerberos_state(credentials.AUTO_USE_KERBEROS)
        if "@" in self.user:
            found.set_principal(self.user)
        found.set_username(self.user)
        if self.domain:
            found.set_domain(self.domain)
        found.set_password(self.password)
        return found


_next_request = 0.0
_waits = False  # for the time of the next request


def pace(login: Login, count: int = 1) -> None:
    """Waits until the server may be asked so many times more."""
    global _next_request, _waits
    if login.requests:
        now = time.monotonic()
        _next_request = max(_next_request, now)
        _waits = True
        time.sleep(_next_request - now)
        _waits = False
        _next_request += count / login.requests


class Paced:
    """A connection of which each call is a request that waits for its turn."""

    def __init__(self, login: Login, connection: Any) -> None:
        self._login, self._connection = login, connection

    def __getattr__(self, name: str) -> Callable[..., Any]:
        call = getattr(self._connection, name)

        def request(*words: Any, **more: Any) -> Any:
            pace(self._login)
            return call(*words, **more)
        return request


TO_CONNECT = 4  # requests
_MOST_BYTES = 1 << 22


def rpc(login: Login, interface: Any) -> Any:
    """A pipe of a server to one of its services. The packets are sealed, and what carries them is signed."""
    pace(login, 2 * TO_CONNECT)
    found = interface(f"ncacn_np:{login.server}[seal]", login.loadparm(), login.credentials())
    found.request_timeout = max(1, int(login.timeout))
    return Paced(login, found)


def growing(ask: Callable[[int], Any], size: int, too_small: Tuple[int, ...]) -> Any:
    """The answer to a call that takes a size, which grows until it suffices."""
    while True:
        try:
            return ask(size)
        except Exception as error:
            if fault_of(error)[0] not in too_small or size >= _MOST_BYTES:
                raise
            size *= 4


def each_descriptor(login: Login, paths: List[str], together: int,
                    ask: Callable[[str, int, int], bytes]) -> Iterator[List[Any]]:
    """For each path its descriptor in hex, in a list if it comes only without its SACL, or a number and words; so many
    of them together, unless they are slow."""
    some: List[Any] = []
    end = time.monotonic() + _SLOW
    for path in paths:
        found = _descriptor(path, ask, _WITH_SACL if login.sacl else _WITHOUT_SACL)
        if login.sacl and not isinstance(found, str) and found[0]:  # the server's number, and no fault of this side
            found = _descriptor(path, ask, _WITHOUT_SACL)
            found = [found] if isinstance(found, str) else found
        some.append(found)
        if len(some) >= together or time.monotonic() > end:
            yield some
            some, end = [], time.monotonic() + _SLOW
    yield some


def _descriptor(path: str, ask: Callable[[str, int, int], bytes], wanted: Tuple[int, int]) -> Any:
    try:
        return ask(path, *wanted).hex()
    except Exception as error:
        code, reason = fault_of(error)
        if is_of_transport(code):
            raise
        return [code, reason]


class _Voice:
    """What this process says, line by line. Threads take turns."""

    def __init__(self, number: int) -> None:
        self._number = number
        self._lock = threading.Lock()

    def say(self, *told: Any) -> None:
        data = json.dumps(told).encode() + b"\n"
        with self._lock:
            while data:
                data = data[os.write(self._number, data):]


def _connections() -> Iterator[bytes]:
    """What the system says about each connection of this process."""
    for name in os.listdir("/proc/self/fd"):
        with contextlib.suppress(OSError):  # it is no connection, or closed by now
            one = socket.socket(fileno=int(name))
            try:
                info = one.getsockopt(socket.IPPROTO_TCP, socket.TCP_INFO, 256)
            finally:
                one.detach()
            yield info


def _received() -> int:
    """How many bytes have come so far."""
    return sum(struct.unpack_from("=Q", info, _BYTES_RECEIVED)[0] for info in _connections())


def silence() -> float:
    """For how many seconds nothing has come."""
    return min((struct.unpack_from("=I", info, _HEARD)[0] for info in _connections()), default=0) / 1000


def _say_alive(voice: _Voice) -> None:
    """Says that answers come, however long one of them takes, or that none was asked for."""
    before = 0
    while True:
        time.sleep(_ALIVE)
        found = _received()
        if found > before or _waits:
            voice.say("alive")
        before = found


def _listen(stream: Any, requests: "queue.Queue[str]") -> None:
    """Takes requests. Where nobody asks any more, the process ends, whatever it waits for."""
    for line in stream:
        requests.put(line)
    os._exit(0)


def serve() -> None:
    """Serves whoever has begun this process. The libraries have no streams to print to."""
    voice, nothing = _Voice(os.dup(1)), os.open(os.devnull, os.O_RDWR)
    for number in (1, 2):
        os.dup2(nothing, number)
    ctypes.CDLL(None).prctl(_SET_DUMPABLE, 0)  # a client that a server ends leaves no file with the password
    login = Login(*json.loads(sys.stdin.readline()))
    requests: "queue.Queue[str]" = queue.Queue()
    threading.Thread(target=_listen, args=(sys.stdin, requests), daemon=True).start()
    threading.Thread(target=_say_alive, args=(voice,), daemon=True).start()
    try:
        module = importlib.import_module(f"sdtool.audit.live.{login.kind}_client")
        voice.say("begun")
        session = module.opened(login)
    except Exception as error:
        voice.say("closed", *why_closed(login, error))
        return
    voice.say("open")
    while True:
        action, *arguments = json.loads(requests.get())
        try:
            for answer in module.ACTIONS[action](session, *arguments):
                voice.say("answer", answer)
            voice.say("end")
        except Exception as error:
            code, reason = fault_of(error)
            if is_of_transport(code):
                voice.say("lost", reason)
                return
            voice.say("refused", code, reason)


def fault_of(error: Exception) -> Tuple[int, str]:
    """The number and the words of a fault: those of NTSTATUS, of Windows or of a directory."""
    if isinstance(error, Refusal):
        return error.code, error.reason
    if len(error.args) >= 2 and isinstance(error.args[0], int):
        return error.args[0] & 0xffffffff, _plain(str(error.args[1]))
    return 0, _plain(f"{type(error).__name__}: {error}")


def _plain(words: str) -> str:
    """Words of a library in one line."""
    return " ".join(words.split())[:300]


# Numbers of NTSTATUS, by MS-ERREF 2.3.1. Those that say something of the connection, or that either side has too little
# memory or too much to do, and nothing of what was asked:
_TRANSPORT = frozenset((
    0xc000020d, 0xc000020c, 0xc0000241, 0xc000023a, 0xc00000b5, 0xc000014b, 0xc00000b0, 0xc00000c9, 0xc0000203,
    0xc00000d6, 0xc00000c3, 0xc0000140, 0xc000023c, 0xc000023d, 0xc000013b, 0xc000013c, 0xc000035c, 0xc002001d,
    0xc0000017, 0xc000009a, 0xc0000008, 0xc000011f, 0xc00000d0, 0xc00000ce, 0xc00000ab, 0xc00000ac, 0xc00000ae))
# those of an account or a password that may not log in, of a ticket that isn't there, and of a path that isn't:
_LOGGED_IN = frozenset((
    0xc000006d, 0xc000006a, 0xc0000064, 0xc0000072, 0xc0000234, 0xc0000193, 0xc000006e, 0xc0000071, 0xc0000224,
    0xc000015b, 0xc0000070, 0xc000006f, 0xc000018d, 0xc0000418, 0xc0000225))
_NO_SESSION = 0xc000005f
_NO_TICKET = frozenset((
    _NO_SESSION, 0xc000005e, 0xc00000da, 0xc0000233, 0xc0000062, 0xc000000d, 0xc00002fc, 0xc0000001, 0xc0000022,
    0xc00000df))
_NO_PATH = frozenset((
    0xc0000034, 0xc000003a, 0xc0000033, 0xc0000103, 0xc000003b))
_OTHER_TIME, _NO_SHARE, _DENIED = 0xc0000133, 0xc00000cc, 0xc0000022
_NO_KEY = (2, 3)  # of Windows


def is_of_transport(code: int) -> bool:
    """Whether a fault is one of the connection."""
    return code in _TRANSPORT


def why_closed(login: Login, error: Exception) -> Tuple[str, str, bool]:
    """Why nothing can be asked, what would help, and whether it may pass."""
    code, words = fault_of(error)
    if isinstance(error, Refusal) and error.advice:
        return words, error.advice, False
    if isinstance(error, ImportError):
        return f"{sys.executable}: {error}", "an address needs Samba's module: Debian's package is python3-samba", False
    if code in _LOGGED_IN:
        return words, "check the name and the password, or take a ticket with kinit", False
    if code == _OTHER_TIME or "clock" in words.lower() or "skew" in words.lower():
        return words, "set the clock of this machine", False
    if code == _NO_SHARE:
        return words, f"check the name of the share; smb://{login.server} asks for all shares", False
    if code in _NO_PATH or login.scheme == "reg" and code in _NO_KEY:
        return words, f"check the path {login.path}", False
    why = _why_not_reached(login) if login.server else ""
    if why:
        return why, "check the name of the server, and that this machine reaches it", True
    if not login.password and code in _NO_TICKET:
        return words, ("without --user or --credentials a ticket of Kerberos says who asks: kinit takes one, and the "
                       "server has to be named by its full name, not by a number"), False
    if code == _DENIED:
        return words, "ask as a user who may, with --user or --credentials", False
    if login.scheme == "ldaps":
        return words, "check the certificate: --ca FILE names its authorities, and its name is the server's", False
    return words, "check the server, the name of the user, and the password", is_of_transport(code)


def _why_not_reached(login: Login) -> str:
    """Why a server isn't reached, in words that Samba doesn't have."""
    try:
        with socket.create_connection((login.server, PORTS.get(login.scheme, 445)), min(login.timeout / 3, 10)):
            return ""
    except socket.gaierror as error:
        return f"the name {login.server} isn't known ({error.strerror})"
    except UnicodeError:
        return f"the name {login.server} isn't known: it has a part that is empty or too long"
    except OSError as error:
        return f"{login.server} isn't reached ({error.strerror or error})"
