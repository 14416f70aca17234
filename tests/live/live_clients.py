"""Tests sdtool-audit with clients that answer what a server never should: they die, are silent, say rubbish, or have
names and descriptors that lie. A client of the test's own stands for the one that asks by smb://, so no server, no root
and no package of Samba is needed, but click, rich and the library.
"""
import contextlib
import json
import os
import pathlib
import pty
import resource
import sqlite3
import struct
import subprocess
import sys
import tempfile
import time
from typing import Any, Dict, List, NamedTuple

import audit
import preload

COMMAND = str(preload.TOP / "packaging/sdtool-audit")
SERVER = "server.example"
TOP_NAME = f"\\\\{SERVER}\\share"
TICKET = "ann@EXAMPLE"
# By MS-ERREF 2.3.1: no such object, no such folder on its way, and one that is being deleted.
GONE = {"gone": 0xc0000034, "with its folder": 0xc000003a, "deleted": 0xc0000056}
DOMAIN, ADMINISTRATORS = "S-1-5-21-1-2-3", "01020000000000052000000020020000"
# What stands for the modules that ask a server: a share whose folder has what PLAN says, and an account.
CLIENT = '''
import ctypes, glob, json, os, socket, sys, time
from sdtool.audit.live.client import Refusal, each_descriptor, pace, silence
PLAN = json.load(open(os.environ["SDTOOL_TEST_PLAN"]))
BEGUN = PLAN["begun"]
GONE = PLAN["gone"]
PACED = []
LISTED = []
def trickle():
    """A byte comes now and then, as of an answer that takes long."""
    server = socket.create_server(("127.0.0.1", 0))
    ends = socket.create_connection(server.getsockname()), server.accept()[0]
    for _ in range(24):
        ends[1].send(b"x")
        time.sleep(0.5)
def opened(login):
    if login.kind == "ticket":
        return login
    if not login.password and login.user != PLAN["ticket"]:
        raise OSError(0xc000005f, "another ticket")
    with open(BEGUN, "a") as file:
        file.write("x")
    if PLAN.get("closed"):
        raise OSError(*PLAN["closed"])
    if PLAN.get("waits"):
        time.sleep(1000)
    return login
def times():
    return os.path.getsize(BEGUN)
def may(action):
    if action in PLAN.get("refused", ()):
        raise OSError(5, "WERR_ACCESS_DENIED")
def user(session):
    yield PLAN["ticket"]
def account(session, name):
    yield PLAN["of"].get("account", PLAN["domain"]) + "-1100"
def domains(session):
    yield {"server": "server.example", "name": "example", "sid": PLAN["domain"], "own": PLAN["own"]}
def controller(session, domain):
    yield "dc.example"
def aliases(session, sids):
    may("aliases")
    yield []
def privileges(session, sids):
    may("privileges")
    yield []
def names(session, sids):
    yield {}
def root(session):
    yield PLAN.get("root", {})
def search(session, base, scope, pattern, attributes, flags):
    may("search")
    may(base)
    if scope in PLAN.get("dies", ()):
        os.abort()
    yield [[[base, {"tokenGroups": [PLAN["group"]], "nTSecurityDescriptor": [PLAN["descriptor"]]}, True]], []]
def shares(session):
    for name in PLAN.get("shares", ["share"]):
        yield [name, 0]
def share_descriptor(session, share):
    if PLAN["share"] == "dies":
        os.abort()
    if PLAN["share"] == "busy" and times() == 1:
        raise OSError(0xc000011f, "too many opened files")
    if not PLAN["share"]:
        raise OSError(5, "WERR_ACCESS_DENIED")
    yield [PLAN["descriptor" if PLAN["share"] == "busy" else "share"], False]
def is_folder(session, share, path):
    yield True
def entries(session, share, path):
    if path.endswith("denied"):
        raise OSError(0xc0000022, "Access is denied")
    if path in GONE or path.startswith("unseen"):
        raise OSError(GONE.get(path, 0xc0000034), "The folder isn't there.")
    if PLAN.get("deep"):
        yield [["d", 16]]
        return
    found = [one for one in PLAN["entries"] if not path and (one[0] not in GONE or not LISTED)]
    LISTED.append(path)
    if PLAN.get("many") and not path:
        for at in range(0, PLAN["many"], 500):
            yield [[f"name {one:030}", 32] for one in range(at, at + 500)]
    yield found
def without_sacl(path, parts, mask):
    if parts & 8 and path == "lost bytes":
        raise Refusal(0, "bytes are lost")
    if parts & 8:
        raise OSError(0xc0000061, "a privilege lacks")
    return bytes.fromhex(PLAN["descriptor"])
def descriptor(session, path):
    name = path.rpartition(chr(92))[2]
    if name == "dies" or name == "once" and times() == 1:
        os.abort()
    if name == "silent":
        time.sleep(1000)
    if name == "rubbish":
        os.write(os.open("/proc/self/fd/" + PLAN["fd"], os.O_WRONLY), b"\\xff\\x00 not JSON" + b"\\n")
    if name == "nested":
        os.write(os.open("/proc/self/fd/" + PLAN["fd"], os.O_WRONLY), b"[" * 100_000 + b"\\n")
    if name == "mute":
        os.close(int(PLAN["fd"]))
        time.sleep(1000)
    if name == "endless":
        number = os.open("/proc/self/fd/" + PLAN["fd"], os.O_WRONLY)
        while True:
            os.write(number, b"x" * 65536)
    if name == "private":
        modes = list({os.stat(one).st_mode & 0o777 for one in glob.glob(os.environ["TMPDIR"] + "/.sdtool.*")})
        opened = os.listdir("/proc/self/fd")
        modes += [ctypes.CDLL(None).prctl(3), silence(), os.listdir("/proc/self/fd") == opened]
        open(BEGUN + ".modes", "w").write(json.dumps(modes))
    if name == "paced":
        PACED.append(time.monotonic())
        pace(session, 3)
        open(BEGUN + ".paced", "w").write(str(time.monotonic() - PACED[0]))
    if name == "prints":
        print("of a library", flush=True)
    if name == "trickle":
        trickle()
    while name == "held" and not os.path.exists(BEGUN + ".let go"):
        time.sleep(0.05)
    if "large" in PLAN and name.startswith("large"):  # each another one
        return PLAN["large"][:-8] + f"{int(name[5:]):08x}"
    if name in ("no sacl", "lost bytes"):
        return next(each_descriptor(session, [path], 1, without_sacl))[0]
    elif name in GONE or name.startswith("unseen"):
        return [GONE.get(name, 0xc0000034), "The object isn't there."]
    elif name == "denied":
        return [0xc0000022, "Access is denied"]
    else:
        return PLAN["of"].get(name, PLAN["descriptor"])
def descriptors(session, share, paths, together):
    for at in range(0, len(paths), together):
        yield [descriptor(session, path) for path in paths[at:at + together]]
    yield [PLAN["descriptor"]] * PLAN.get("surplus", 0)
ACTIONS = {name: act for name, act in globals().items() if callable(act)}
'''
HOOK = """
import importlib.abc, importlib.machinery, importlib.util, os, sys
class Finder(importlib.abc.MetaPathFinder):
    def find_spec(self, name, path, target=None):
        if name.startswith("sdtool.audit.live.") and name.endswith("_client") and os.environ["SDTOOL_TEST_CLIENT"]:
            return importlib.util.spec_from_file_location(name, os.environ["SDTOOL_TEST_CLIENT"])
        return None
sys.meta_path.insert(0, Finder())
"""


def descriptor(mask: int, count: int = 1, sid: str = "010100000000000100000000") -> str:
    """Everyone or somebody else has these rights, said so many times."""
    ace = struct.pack("<BBHI", 0, 0, 8 + len(sid) // 2, mask) + bytes.fromhex(sid)
    acl = struct.pack("<BBHHH", 2, 0, 8 + count * len(ace), count, 0) + count * ace
    owner = bytes.fromhex(ADMINISTRATORS)
    return (struct.pack("<BBHIIII", 1, 0, 0x8004, 20, 36, 0, 52) + 2 * owner + acl).hex()


EVERYTHING = descriptor(0x1f01ff)
WITHOUT_DACL = EVERYTHING[:32] + "00000000" + EVERYTHING[40:104]


class Place(NamedTuple):
    folder: pathlib.Path
    python: str
    count: preload.Count

    def run(self, *words: str, token: str = "WD", address: str = f"smb://{SERVER}/share",
            **plan: Any) -> audit.Ended:
        """A run that asks a client with this plan."""
        self.planned(**plan)
        return self.ask("can", token, "write", address, "--timeout", str(plan.get("timeout", 120)),
                        *(words or ("--to", "jsonl")))

    def planned(self, **plan: Any) -> None:
        """Says what clients do from now on."""
        begun = self.folder / "begun"
        begun.write_text("")
        given = {"begun": str(begun), "share": EVERYTHING, "descriptor": EVERYTHING, "entries": [], "of": {}, "fd": "3",
                 "domain": DOMAIN, "group": ADMINISTRATORS, "ticket": TICKET, "gone": GONE, **plan}
        (self.folder / "plan").write_text(json.dumps(given))

    def environment(self, has_client: bool = True) -> Dict[str, str]:
        return {**os.environ, "SDTOOL_LIBRARY": preload.LIBRARY, "SDTOOL_TEST_PLAN": str(self.folder / "plan"),
                "TMPDIR": str(self.folder),
                "SDTOOL_TEST_CLIENT": str(self.folder / "client.py") * has_client,
                "PYTHONDONTWRITEBYTECODE": "1",
                "PYTHONPATH": f"{self.folder / 'hooks'}:{preload.TOP / 'python'}"}

    def ask(self, *words: str, has_client: bool = True) -> audit.Ended:
        ended = subprocess.run([self.python, COMMAND, *words], cwd=self.folder, env=self.environment(has_client),
                               stdin=subprocess.DEVNULL, capture_output=True, timeout=audit.SECONDS)
        return audit.Ended(ended.returncode, ended.stdout.decode("utf-8", "surrogateescape"),
                           ended.stderr.decode("utf-8", "replace"))

    def begun(self) -> int:
        """How many clients have begun."""
        return len((self.folder / "begun").read_text())

    def expect(self, got: Any, wanted: Any, what: str) -> None:
        self.count.add(got == wanted, f"{what}\n  got    {got!r}\n  wanted {wanted!r}")


def answers(ended: audit.Ended) -> Dict[str, str]:
    return {one["name"]: one["answer"] for one in ended.objects}


def files(*names: str) -> List[List[Any]]:
    return [[name, 32] for name in names]


WHOLE = {TOP_NAME: "found", TOP_NAME + "\\": "found"}


def of_names(**more: str) -> Dict[str, str]:
    return {**WHOLE, **{f"{TOP_NAME}\\{name}": answer for name, answer in more.items()}}


def test_lost(place: Place) -> None:
    """A client that is lost is begun again behind what was read; an object that ends each one is unknown, and after the
    third in succession the rest is."""
    ended = place.run(entries=files("a", "once", "b"))
    place.expect((ended.status, answers(ended), place.begun()), (1, of_names(a="found", once="found", b="found"), 2),
                 "a client that dies once")
    for share, answer, status, times in (("busy", "found", 1, 2), ("dies", "unknown", 3, 3)):
        ended = place.run(entries=files("a"), share=share)
        place.expect((ended.status, answers(ended), place.begun()),
                     (status, {**of_names(a="found"), TOP_NAME: answer}, times), f"a share whose descriptor is {share}")
    for name, why in (("dies", "ended"), ("silent", "10 seconds"), ("rubbish", "JSON"), ("nested", "JSON"),
                      ("mute", "ended"), ("endless", "more than")):
        timeout = 10 if name == "silent" else 120
        ended = place.run(entries=files("a", name, "b"), timeout=timeout)
        place.expect((ended.status, answers(ended)), (3, of_names(**{"a": "found", name: "unknown", "b": "found"})),
                     f"an object at which each client is lost: {name}")
        both = place.run(entries=files("a", name, name, "b"), timeout=timeout)
        rest = f"smb://{SERVER}/share: the rest"
        got = {one["name"]: one for one in both.objects}
        # With the first one an object is lost that it had read, and not told yet.
        place.expect((both.status, set(got), place.begun()),
                     (3, {*WHOLE, f"{TOP_NAME}\\a", f"{TOP_NAME}\\{name}", rest}, 4), f"two such objects: {name}")
        said = json.dumps(got.get(rest, {}))
        place.count.add(why in said, f"the rest says why: {said}")


def test_answers(place: Place) -> None:
    """Each entry of a list is an object or unknown by its name, whatever its name and its descriptor are."""
    strange = ["..", "a/b", "a\\b", "a\0b", "", ".", "a:b"]
    good = ["\x01\x1b[31m", "a\nb", "\ud800", "\u202e", "n" * 255, "=1+1", " ", "*"]
    ended = place.run(entries=files(*strange, *good))
    got = answers(ended)
    for name in filter(None, strange):
        place.expect(got.get(f"{TOP_NAME}\\{name}"), "unknown", f"the name {name!r}")
    for name in good:
        place.expect(got.get(f"{TOP_NAME}\\{name}"), "found", f"the name {name!r}")
    place.expect(len(ended.objects), 2 + len(strange) + len(good), "as many objects as there are")
    shares = place.run(address=f"smb://{SERVER}", shares=[*strange, "share"])
    unknown = [(f"\\\\{SERVER}\\{name}", "unknown") for name in strange]
    place.expect(sorted((one["name"], one["answer"]) for one in shares.objects), sorted([*WHOLE.items(), *unknown]),
                 "names of shares")
    of = {"large": descriptor(0x2, 3276), "cut": EVERYTHING[:-8], "none": "", "odd": "0"}
    unseen = ["unseen", "unseen folder", "unseen folder\\*"]
    ended = place.run(entries=[*([name, 16] for name in GONE), ["denied", 16], ["link", 0x410], [unseen[1], 16],
                               *files(unseen[0], *of, "last")], of=of)
    got = answers(ended)
    rest = {name: got.get(f"{TOP_NAME}\\{name}") for name in of}
    place.expect(rest, {"large": "found", "cut": "unknown", "none": "unknown", "odd": "unknown"}, "descriptors")
    place.expect(got.get(f"{TOP_NAME}\\last"), "found", "what comes behind them")
    place.expect({name: answer for name, answer in got.items() if answer == "gone" or "gone" in name},
                 {f"{TOP_NAME}\\{name}": "gone" for name in GONE}, "what goes between list and question")
    place.expect([got.get(f"{TOP_NAME}\\{name}") for name in unseen], ["unknown"] * 3, "what is listed and not found")
    top = answers(place.run(gone={"": GONE["gone"]}))
    place.expect(top, {TOP_NAME: "found", TOP_NAME + "\\": "unknown"}, "a root that isn't there")
    place.expect((got.get(f"{TOP_NAME}\\denied"), got.get(f"{TOP_NAME}\\denied\\*")), ("unknown", "unknown"),
                 "a folder that is neither read nor listed")
    place.expect((got.get(f"{TOP_NAME}\\link"), got.get(f"{TOP_NAME}\\link\\*")), ("found", "unknown"),
                 "a reparse point")
    ended = place.run("--sacl", "--to", "jsonl", entries=files("lost bytes", "private"))
    place.expect((answers(ended).get(f"{TOP_NAME}\\lost bytes"), "SACLs can't be read" in ended.stderr),
                 ("unknown", False), "a descriptor that lost bytes of its SACL")
    ended = place.run("--sacl", "--to", "jsonl", entries=files("no sacl"))
    place.expect((answers(ended).get(f"{TOP_NAME}\\no sacl"), "SACLs can't be read" in ended.stderr), ("found", True),
                 "a descriptor without the SACL that was asked for")
    place.expect(json.loads((place.folder / "begun.modes").read_text()), [0o600, 0, 0, True],
                 "nobody else reads what is kept, a client leaves no file, and a look at connections none open")
    place.expect(list(place.folder.glob(".sdtool.*")), [], "what is kept for a run is removed")
    alone = place.run(entries=files("gone"), share=descriptor(0), descriptor=descriptor(0))
    place.expect(alone.status, 0, "what has gone is nothing found, and nothing unknown")
    hidden = {one["name"]: one for one in place.run(entries=files("a"), share="").objects}
    place.expect(hidden[TOP_NAME]["answer"], "unknown", "a share whose permissions can't be read")
    said = json.dumps(hidden[f"{TOP_NAME}\\a"])
    place.count.add('"answer": "found"' in said and "may take it away" in said, f"a file of it counts: {said}")
    deep = answers(place.run(deep=True))
    bottom = TOP_NAME + "\\" + "\\".join(["d"] * 128)
    place.expect((deep.get(bottom), deep.get(bottom + "\\*"), len(deep)), ("found", "unknown", 131), "128 levels")
    for odd in (["a", "32"], ["a"], 5):
        wrong = place.run(entries=[odd])
        place.expect((wrong.status, len(wrong.objects)), (3, 3), f"a list that has no such form: {odd}")
    more = place.run(entries=files("a"), surplus=1)
    place.expect((answers(more), place.begun()), (of_names(a="found"), 3), "an answer too many to each request")
    prints = place.run(entries=files("prints"))
    place.expect((answers(prints), place.begun()), (of_names(prints="found"), 1), "a library that prints")


def test_secrets(place: Place) -> None:
    """A password in an address is refused wherever it stands, and nothing repeats it."""
    for secret in (f"smb://ann:Hidden-1@{SERVER}/share", f"SMB://ann:Hidden/1@{SERVER}", f"ldap://Hidden@{SERVER}"):
        for words in (("risks", secret), ("can", "WD", secret, "write"), ("can", secret, "write", "a"),
                      ("who", secret), ("diff", "a", secret), ("show", "a", "--name", secret), (secret,),
                      ("who", "write", "a", "--groups", secret), ("who", "write", "a", f"--groups={secret}")):
            ended = place.ask(*words)
            place.count.add(ended.status == 2 and "no user, password" in ended.stderr and "Hidden" not in str(ended),
                            f"{words}: {ended}")


def test_folder(place: Place) -> None:
    """A client takes no module from the folder where the command runs: it would get the password."""
    trap, told = place.folder / "json.py", place.folder / "told"
    trap.write_text(f"open({str(told)!r}, 'w')\nraise SystemExit\n")
    ended = place.run(entries=files("a"))
    trap.unlink()
    place.expect((answers(ended), told.exists()), (of_names(a="found"), False), "a module of the folder")


def test_typed(place: Place) -> None:
    """A password that is no text is refused, and no part of it is told."""
    number, terminal = pty.fork()
    if not number:
        os.chdir(place.folder)
        os.execve(place.python, [place.python, COMMAND, "risks", f"smb://{SERVER}/share", "--user", "ann"],
                  {**place.environment(), "LC_ALL": "C.UTF-8"})
    shown = b""
    with contextlib.suppress(OSError):  # it has ended
        while b"Password" not in shown:
            shown += os.read(terminal, 65536)
        os.write(terminal, b"Hidden-\xe4\n")
        while True:
            shown += os.read(terminal, 65536)
    status = os.waitstatus_to_exitcode(os.waitpid(number, 0)[1])
    place.expect((status, b"isn't text" in shown, b"e4" in shown), (2, True, False), f"what was typed: {shown!r}")


def test_tokens(place: Place) -> None:
    """What isn't told of an account leaves unknown what isn't found. Groups that are built in, which its directory
    tells, hold on a domain controller alone."""
    for own, refused, answer in ((DOMAIN, [], "found"), (f"{DOMAIN}-9", [], "nothing"), (DOMAIN, ["search"], "unknown"),
                                 (f"{DOMAIN}-9", ["aliases"], "unknown"), (f"{DOMAIN}-9", ["privileges"], "unknown")):
        ended = place.run(token="ann@example", entries=files("a"), own=own, refused=refused,
                          descriptor=descriptor(0x1f01ff, sid=ADMINISTRATORS))
        place.expect(answers(ended).get(f"{TOP_NAME}\\a"), answer, f"{own}, without {refused}: {ended}")
        place.expect("couldn't be asked" in ended.stderr, bool(refused), "what isn't told is said")
    # A domain knows its own groups alone, and of a name without '@' nobody knows where it is asked for.
    for name, own, answer in (("ann@other", f"{DOMAIN}-9", "unknown"), ("ann@other", DOMAIN, "nothing"),
                              ("OTHER\\ann", DOMAIN, "unknown"), ("DOM\\ann", "", "nothing")):
        ended = place.run(token=name, entries=files("a"), own=own or DOMAIN,
                          of={"account": "S-1-5-21-7-7-7"} if own else {}, descriptor=descriptor(2, sid=ADMINISTRATORS))
        place.expect(answers(ended).get(f"{TOP_NAME}\\a"), answer if own else "found", f"{name} by {own}: {ended}")
    # A group that isn't known may pass a share whose files have no DACL.
    ended = place.run(token="ann@example", entries=files("a"), own=DOMAIN, refused=["search"],
                      share=descriptor(0x1f01ff, sid=ADMINISTRATORS), descriptor=WITHOUT_DACL)
    place.expect(answers(ended).get(f"{TOP_NAME}\\a"), "unknown", f"a share that needs a group: {ended}")


def test_servers(place: Place) -> None:
    """A token is that of one server, of addresses and of databases."""
    for server in ("server.example", "other.example"):
        place.run("--into", f"{server}.db", token="ann@example", address=f"smb://{server}/share", own=DOMAIN)
    for sources in (("server.example.db", "other.example.db"), (f"smb://{SERVER}/share", "other.example.db")):
        ended = place.ask("can", "ann@example", "write", *sources)
        place.expect((ended.status, "sources of one server" in ended.stderr), (2, True), f"{sources}: {ended}")
    ended = place.ask("can", "ann@example", "write", "server.example.db")
    place.expect(ended.status, 1, f"one of them: {ended}")


def test_never_opened(place: Place) -> None:
    """What never opens is status 2; what may pass is tried three times, and a wrong password once."""
    for code, times, help_ in ((0xc000006d, 1, "password"), (0xc0000133, 1, "clock"), (0xc00000cc, 1, "share"),
                               (0xc00000b5, 3, "name of the server")):
        ended = place.run(closed=[code, "words of the server"])
        place.count.add(ended.status == 2 and help_ in ended.stderr and not ended.stdout and place.begun() == times,
                        f"{code:#x}, begun {place.begun()} times: {ended}")
    ended = place.run(address="smb://server..example/share", closed=[0xc00000b5, "words of Samba"])
    place.count.add(ended.status == 2 and "the name server..example isn't known" in ended.stderr,
                    f"a name with an empty part: {ended}")
    ended = place.run(address=f"ldap://{SERVER}/??sub?(cn=%ff)")
    place.count.add(ended.status == 2 and "isn't UTF-8" in ended.stderr, f"a filter that is no text: {ended}")
    ended = place.run("--into", "never.db", closed=[0xc000006d, "no"])
    place.expect((ended.status, (place.folder / "never.db").exists()), (2, False), "nothing is kept of it")
    ended = place.ask("risks", f"smb://{SERVER}/share", has_client=False)
    place.count.add(ended.status == 2 and "python3-samba" in ended.stderr and not ended.stdout,
                    f"without Samba's module: {ended}")


def test_goes_on(place: Place) -> None:
    """Another run goes on with a database if it asks as the first one did. What was unknown is asked again."""
    credentials, odd = (place.folder / name for name in ("credentials", "odd"))
    for path, name in ((credentials, "ann"), (odd, "ann%Hidden-2")):
        path.touch(0o600)
        path.write_text(f"username = {name}\npassword = Hidden-1\n")
    words = ("--into", "parts.db", "--sacl", "--to", "jsonl")
    ended = place.run(*words, entries=files("a", "late", "dies", "dies"), of={"late": ""})
    rest = f"smb://{SERVER}/share: the rest"
    place.expect((ended.status, answers(ended)),
                 (3, of_names(a="found", late="unknown", dies="unknown") | {rest: "unknown"}), "a run that ended early")
    for more, said, *ticket in ((words[:2], "--sacl as"), ((*words, "--backup"), "--backup as"),
                                ((*words, "--credentials", str(credentials)), "as ann:"),
                                ((*words, "--credentials", str(odd)), "'username = NAME'"),
                                (words, "as bob@EXAMPLE:", "bob@EXAMPLE")):
        ended = place.run(*more, entries=files("a"), ticket="".join(ticket) or TICKET)
        place.count.add(ended.status == 2 and said in ended.stderr and not ended.stdout and "Hidden" not in str(ended),
                        f"a run that asks otherwise, {more}: {ended}")
    ended = place.run(*words, entries=files("a", "late", "b"), of={"a": descriptor(0x1)})
    place.expect((ended.status, answers(ended)), (1, of_names(a="found", late="found", b="found")), "what went on")
    words = ("--into", "bare.db", "--sacl", "--to", "jsonl")
    for names in (("no sacl", "dies", "dies"), ("no sacl",)):
        ended = place.run(*words, entries=files(*names))
        place.expect(ended.stderr.count("SACLs can't be read"), 1, f"what is said of {names}: {ended}")


def started(place: Place, *words: str, **plan: Any) -> "subprocess.Popen[bytes]":
    """A run with such a plan that goes on by itself."""
    place.planned(**plan)
    return subprocess.Popen([place.python, COMMAND, "can", "WD", "write", f"smb://{SERVER}/share", *words,
                             "--timeout", "120"], cwd=place.folder, env=place.environment(), stdin=subprocess.DEVNULL,
                            stdout=subprocess.DEVNULL, stderr=subprocess.PIPE)


def is_hot(path: pathlib.Path) -> bool:
    """Whether a database has to be mended by its journal, by SQLite's file format, section 3."""
    journal = path.with_name(f"{path.name}-journal")
    return journal.exists() and journal.read_bytes()[:8] == bytes.fromhex("d9d505f920a163d7")


def test_killed(place: Place) -> None:
    """A run that is killed goes on, wherever it was: before it was logged in, and while it writes."""
    words = ("--into", "early.db")
    run = started(place, *words, waits=True)
    while not place.begun():
        time.sleep(0.05)
    run.kill()
    run.communicate()
    ended = place.run(*words, "--to", "jsonl", entries=files("a"))
    place.expect((ended.status, answers(ended)), (1, of_names(a="found")), f"a run that was killed early: {ended}")
    names, large = [f"large{at}" for at in range(400)], descriptor(0x2, 1800, "01020000000000050000000000000000")
    path = place.folder / "written.db"
    while not is_hot(path):
        path.unlink(missing_ok=True)
        run = started(place, "--into", path.name, entries=files(*names, "silent"), large=large)
        while run.poll() is None and not (is_hot(path) and path.stat().st_size > 1_000_000):
            time.sleep(0.001)
        run.kill()
        run.communicate()
    kept = answers(place.ask("can", "WD", "write", path.name, "--to", "jsonl"))
    rest = f"smb://{SERVER}/share: the rest"
    place.expect((kept.pop(rest, ""), "database" in str(kept)), ("unknown", False), f"what was kept: {kept}")
    ended = place.run("--into", path.name, "--to", "jsonl", entries=files(*names), large=large)
    place.expect((ended.status, len(ended.objects)), (1, len(names) + 2), f"what went on: {ended.stderr}")


def test_together(place: Place) -> None:
    """One run fills a database, and who looks at it meanwhile doesn't end that."""
    run = started(place, "--into", "one.db", entries=files("a", "held", "b"))
    path = place.folder / "one.db"
    while not place.begun():
        time.sleep(0.05)
    other = place.ask("can", "WD", "write", f"smb://{SERVER}/share", "--into", "one.db")
    place.expect((other.status, "another run fills it" in other.stderr), (2, True), f"a second run: {other}")
    with contextlib.closing(sqlite3.connect(path, isolation_level=None)) as database:
        database.execute("BEGIN")
        database.execute("SELECT count(*) FROM objects").fetchone()
        (place.folder / "begun.let go").touch()
        time.sleep(7)  # SQLite itself would wait for five seconds
    said = run.communicate(timeout=audit.SECONDS)[1]
    place.expect(run.returncode, 1, f"the first run: {said!r}")
    place.expect(answers(place.ask("can", "WD", "write", "one.db", "--to", "jsonl")),
                 of_names(a="found", held="found", b="found"), "what it has read")


def test_notes(place: Place) -> None:
    """What a run couldn't read isn't said of one that went on and could."""
    words = ("risks", f"ldap://{SERVER}/DC=example", "--into", "notes.db")
    plan = {"root": {"schemaNamingContext": ["CN=schema"]}}
    for more, said in (({"refused": ["CN=schema"], "dies": ["sub"]}, True), ({}, False)):
        place.planned(**plan, **more)
        ended = place.ask(*words)
        place.expect("schema can't be read" in ended.stderr, said, f"{more}: {ended}")


def test_pace(place: Place) -> None:
    """A client that waits, for so many requests a second or for the rest of an answer, isn't taken for one that is
    lost."""
    ended = place.run("--to", "jsonl", "--requests", "1", entries=files("paced", "a/b", "paced"), timeout=2)
    place.expect((len(ended.objects), place.begun()), (5, 1), f"a slow run: {ended}")
    seconds = float((place.folder / "begun.paced").read_text())
    place.expect(seconds >= 3, True, f"three requests, one a second, in {seconds} seconds")
    ended = place.run(entries=files("trickle"), timeout=8)
    place.expect((answers(ended), place.begun()), (of_names(trickle="found"), 1), f"a long answer: {ended}")


def test_sizes(place: Place) -> None:
    """A size grows until an answer fits, and another fault or an answer without end ends that."""
    sys.path.insert(0, str(preload.TOP / "python"))
    from sdtool.audit.live import client

    def asked(fits: int, fault: int) -> Any:
        sizes: List[int] = []

        def ask(size: int) -> int:
            sizes.append(size)
            if size < fits:
                raise OSError(fault, "more")
            return size

        try:
            return client.growing(ask, 1_000, (122, 234)) >= fits
        except OSError as error:
            return error.args[0], len(sizes) < 20

    for fits, fault, wanted in ((70_000, 234, True), (9, 234, True), (70_000, 5, (5, True)),
                                (1 << 40, 122, (122, True))):
        place.expect(asked(fits, fault), wanted, f"an answer of {fits} bytes, and the fault {fault}")


def test_many(place: Place) -> None:
    """A folder of a million entries, of which none is asked for, takes less than a gigabyte."""
    before = resource.getrusage(resource.RUSAGE_CHILDREN).ru_maxrss
    ended = place.run("--into", "many.db", "--list", "found", "--most", "1", many=100_000)
    used = resource.getrusage(resource.RUSAGE_CHILDREN).ru_maxrss
    place.count.add("100,002 objects" in ended.stdout + ended.stderr, f"100,000 objects: {ended}")
    place.count.add(used <= max(before, 300_000), f"100,000 objects take {used:,} KiB, and not 300,000")


TESTS = (test_lost, test_answers, test_secrets, test_folder, test_typed, test_tokens, test_servers, test_never_opened,
         test_goes_on, test_killed, test_together, test_notes, test_pace, test_sizes, test_many)


def main(count: preload.Count) -> None:
    os.environ.setdefault("SDTOOL_LIBRARY", preload.LIBRARY)
    python = audit.python_with_packages()
    if python is None or not os.path.exists(preload.LIBRARY):
        print("sdtool-audit and its clients: skipped, for want of python3-click, python3-rich or the library")
        return
    with tempfile.TemporaryDirectory() as name:
        folder = pathlib.Path(name)
        (folder / "hooks/samba/dcerpc").mkdir(parents=True)
        for path, text in (("client.py", CLIENT), ("hooks/sitecustomize.py", HOOK), ("hooks/samba/__init__.py", ""),
                           ("hooks/samba/dcerpc/__init__.py", "")):
            (folder / path).write_text(text)
        for test in filter(preload.is_chosen, TESTS):
            test(Place(folder, python, count))
