"""A client: the process that speaks to a server, as the one that asks sees it.

Samba's calls can neither be interrupted nor trusted to come to an end, and a server may end the process that reads its
answers. So a client is a process of its own. It gets requests as lines of JSON and answers with such lines. What it
says is checked as what a stranger says: it has read a stranger's bytes.
"""
import json
import os
import select
import subprocess
import sys
import time
from typing import Any, Iterator, List, NamedTuple, NoReturn, Type, TypeVar

from sdtool.audit import stopping
from sdtool.audit.live.access import Access, Who
from sdtool.audit.live.address import Address
from sdtool.audit.sources.opening import OpeningFault

# Without the current folder, where anybody may have put a module, even before it has the path of this process.
_BEGIN = ("import sys; sys.path[:] = filter(None, sys.path); import json; "
          "sys.path[:] = json.loads(sys.stdin.readline()); from sdtool.audit.live.client import serve; serve()")
_MOST_LINE = 1 << 24  # bytes of an answer
_CHUNK = 1 << 16
_PATIENCE = 600.0  # seconds in which a process begins, on a machine with other work
# What a client calls by itself, which the surroundings would change.
_ITS_OWN = ("USER", "LOGNAME", "PASSWD", "PASSWD_FD", "PASSWD_FILE")
_Value = TypeVar("_Value")


class Fact(NamedTuple):
    """What a server says beside its objects, which questions need."""

    kind: str
    key: str
    value: str


# Kinds of facts whose keys are sentences. What is said of objects holds as long as they are kept.
SAID, SAID_OF_OBJECTS = "said", "said of objects"


def no_sacls(label: str) -> Fact:
    """What is said where descriptors came without the SACLs that were asked for."""
    return Fact(SAID_OF_OBJECTS, f"{label}: SACLs can't be read, which takes the privilege to manage auditing "
                "(SeSecurityPrivilege)", "")


class Lost(Exception):
    """The client has ended, says nothing any more, or says what it can't mean."""


class Refused(Exception):
    """A server's answer to one request is none: a number, and words."""

    def __init__(self, code: int, reason: str) -> None:
        super().__init__(reason)
        self.code, self.reason = code, reason


class NeverOpened(Exception):
    """Nothing can be asked: why, what would help, and whether that may pass."""

    def __init__(self, reason: str, advice: str, may_pass: bool) -> None:
        super().__init__(f"{reason}: {advice}")
        self.reason, self.advice, self.may_pass = reason, advice, may_pass


def value_of(kind: Type[_Value], value: Any) -> _Value:
    """A part of an answer, of the type that it has to have."""
    if type(value) is not kind:
        raise Lost(f"the client answers {type(value).__name__} for {kind.__name__}")
    return value


def bytes_of(value: Any) -> bytes:
    """Bytes that an answer spells in hex."""
    try:
        return bytes.fromhex(value_of(str, value))
    except ValueError:
        raise Lost("the client answers what isn't hex") from None


class Client:
    """A process that is logged in to a server, by the module of its kind: sdtool.audit.live.KIND_client."""

    def __init__(self, kind: str, address: Address, access: Access) -> None:
        self._timeout = access.timeout
        self._held, self._is_asked = b"", False
        surroundings = {name: value for name, value in os.environ.items() if name not in _ITS_OWN}
        self._process = subprocess.Popen([sys.executable, "-c", _BEGIN], stdin=subprocess.PIPE, stdout=subprocess.PIPE,
                                         stderr=subprocess.DEVNULL, bufsize=0, env=surroundings,
                                         start_new_session=True)
        stopping.before_end.append(self._process.kill)
        try:
            assert self._process.stdin is not None and self._process.stdout is not None
            self._to, self._from = self._process.stdin.fileno(), self._process.stdout.fileno()
            os.set_blocking(self._to, False)
            self._send(sys.path)
            who = access.who or Who()
            self._send([kind, *address, *who[:2], who.password.reveal(), access.timeout, access.requests or 0,
                        access.sacl, access.backup, access.ca or ""])
            tag, *told = self._answer(_PATIENCE)
            if tag == "begun":
                tag, *told = self._answer()
            if tag == "closed" and len(told) == 3:
                raise NeverOpened(value_of(str, told[0]), value_of(str, told[1]), bool(told[2]))
            if tag != "open":
                raise Lost("the client begins with what it can't mean")
        except BaseException:
            self.close()
            raise

    def ask(self, action: str, *arguments: Any) -> Iterator[Any]:
        """The answers to a request, each as it comes. The next one may be sent once all are read."""
        if self._is_asked:
            raise Lost("a request was sent before the last one was answered")
        self._is_asked = True
        self._send([action, *arguments])
        while True:
            tag, *told = self._answer()
            self._is_asked = tag == "answer"
            if tag == "end" and not told:
                return
            if tag == "refused" and len(told) == 2:
                raise Refused(value_of(int, told[0]), value_of(str, told[1]))
            if tag == "lost" and len(told) == 1:
                raise Lost(value_of(str, told[0]))
            if tag != "answer" or len(told) != 1:
                raise Lost("the client says what it can't mean")
            yield told[0]

    def ask_one(self, action: str, *arguments: Any) -> Any:
        """The answer to a request that has one."""
        answers = list(self.ask(action, *arguments))
        if len(answers) != 1:
            raise Lost(f"the client gives {len(answers)} answers for one")
        return answers[0]

    def close(self) -> None:
        """Ends the process, whatever it does."""
        self._process.kill()
        self._process.wait()
        for stream in (self._process.stdin, self._process.stdout):
            if stream is not None:
                stream.close()
        if self._process.kill in stopping.before_end:
            stopping.before_end.remove(self._process.kill)

    def _send(self, request: Any) -> None:
        data = json.dumps(request).encode() + b"\n"
        end = time.monotonic() + self._timeout
        while data:
            self._wait(self._to, select.POLLOUT, end)
            try:
                data = data[os.write(self._to, data):]
            except BlockingIOError:
                continue
            except OSError:
                self._ended()

    def _answer(self, patience: float = 0) -> List[Any]:
        """The next line that isn't only a sign of life."""
        while True:
            line = self._line(patience or self._timeout)
            try:
                found = json.loads(line)
            except (ValueError, RecursionError):
                raise Lost("the client says what isn't JSON") from None
            if not isinstance(found, list) or not found:
                raise Lost("the client says what it can't mean")
            if found != ["alive"]:
                return found

    def _line(self, patience: float) -> bytes:
        parts: List[bytes] = []
        size = 0
        end = time.monotonic() + patience
        while b"\n" not in self._held:
            parts.append(self._held)
            size += len(self._held)
            if size > _MOST_LINE:
                raise Lost("the client says more than an answer can have")
            self._wait(self._from, select.POLLIN, end)
            self._held = os.read(self._from, _CHUNK)
            if not self._held:
                self._ended()
        last, _, self._held = self._held.partition(b"\n")
        return b"".join([*parts, last])

    def _wait(self, number: int, event: int, end: float) -> None:
        """Waits for a pipe, as long as one may."""
        poll = select.poll()
        poll.register(number, event)
        if not poll.poll(max(0.0, end - time.monotonic()) * 1000):
            raise Lost(f"there was no answer in {self._timeout:g} seconds")

    @staticmethod
    def _ended() -> NoReturn:
        raise Lost("the client has ended, which an answer of the server may do")


def known(access: Access, word: str) -> Access:
    """The same with who asks an address. Where the words don't say it, a ticket of Kerberos does."""
    access = access if access.who else access.told()
    if access.who:
        return access
    try:
        client = Client("ticket", Address("", "", "", "", word), access)
        try:
            return access._replace(who=Who(value_of(str, client.ask_one("user"))))
        finally:
            client.close()
    except (Lost, NeverOpened, Refused) as error:
        raise OpeningFault(f"{word}: {error}") from None
