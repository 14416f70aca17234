"""Tests how sdtool-audit reads a directory. A client of the test's own stands for it, with connections that are lost,
objects that go, refusals and referrals. It needs what tests/audit/audit.py needs, and is skipped without it.
"""
import itertools
import os
import re
import sys
from typing import Any, Dict, Iterator, List, Optional

import audit
import preload

BASE = "DC=audit,DC=test"
# Letters of the last two would be the same without regard to case.
NAMES = [*(f"CN={number},{BASE}" for number in range(8)), f"CN=a(*)\\\\b\0,{BASE}", f"CN=9,{BASE}", f"CN=Gross,{BASE}",
         f"CN=Groß,{BASE}"]
DESCRIPTOR = bytes.fromhex("01000480") + bytes(16)
HEAD_SID = "010400000000000515000000010000000200000003000000"


class Directory:
    """Entries in pages of three. lost and refused say at which of its requests that happens; gone are objects that are
    listed and not there, listed are in lists alone."""

    def __init__(self, lost: str = "", refused: str = "", gone: str = "", listed: str = "") -> None:
        from sdtool.audit.live import talking
        self.faults = {lost: talking.Lost("cut"), refused: talking.Refused(50, "not allowed")}
        self.gone, self.listed, self.asked = gone, [listed], []  # type: str, List[str], List[str]
        self.is_asked = self.is_empty = False
        self.is_shown = True  # whether a base is, below which there may be nothing

    def ask(self, action: str, *words: Any) -> Iterator[Any]:
        """The answers, which come by one pipe: what is asked before all are read would get those that are left."""
        assert not self.is_asked, f"{words} is asked before the last request was answered"
        self.is_asked = True
        try:
            yield from self._answers(action, *words)
        except Exception:
            self.is_asked = False
            raise
        self.is_asked = False

    def _answers(self, action: str, *words: Any) -> Iterator[Any]:
        if action == "root":
            yield {"namingContexts": [BASE], "defaultNamingContext": [BASE]}
            return
        base, scope, pattern, attributes, _ = words
        self.asked.append(base if scope == "base" else pattern)
        found = [base] * (base not in (self.gone, *self.listed) and self.is_shown) if scope == "base" else NAMES
        of_name = re.fullmatch(r"\(distinguishedName=([^()*\0]*)\)", pattern)
        if of_name:  # by RFC 4515, section 3
            wanted = re.sub(r"\\([0-9a-f]{2})", lambda mark: chr(int(mark[1], 16)), of_name[1])
            found = [one for one in NAMES if one == wanted and one != self.gone]
        if self.is_empty and scope != "base":
            found = []
        for at in range(0, len(found), 3):
            step = f"{base if scope == 'base' else scope} {at}"
            if step in self.faults:
                raise self.faults.pop(step)
            yield [[[name, self._values(attributes), True] for name in found[at:at + 3]],
                   ["ldap://other/DC=other", f"ldap://server/{BASE}"] * (not at)]

    def ask_one(self, *words: Any) -> Any:
        [found] = self.ask(*words)
        return found

    @staticmethod
    def _values(attributes: List[str]) -> Dict[str, List[str]]:
        return {} if attributes == ["1.1"] else {"nTSecurityDescriptor": [DESCRIPTOR.hex()], "objectSid": [HEAD_SID],
                                                 "objectClass": ["746f70"]}


class Read:
    """What a source gives, by as many clients as it takes."""

    def __init__(self, directory: Directory, text: str = "ldap://server") -> None:
        from sdtool.audit.live import access, address, directory as module, talking
        source = module.DirectorySource(address.address_of(text), access.Access(), lambda name: False)
        self.objects: Dict[str, Optional[str]] = {}  # names, with the reason of those that are unknown
        self.twice: List[str] = []
        self.said: List[str] = []
        self.losses = 0
        source.begin(directory)
        while True:
            try:
                for one in source.items(directory):
                    self.losses = 0
                    if isinstance(one, talking.Fact):
                        self.said += [one.key] if one.kind == module.SAID else []
                        continue
                    self.twice += [one.name] if one.name in self.objects else []
                    assert len(self.twice) < 100, "the same objects come without end"
                    self.objects[one.name] = None if one.form else one.text
                return
            except talking.Lost:
                self.losses += 1
                lost = source.skipped() if self.losses == 2 else None
                if lost:
                    self.objects[lost.name] = lost.text


def test_lost(place: audit.Place) -> None:
    """Each object comes once, wherever the connection is lost; what has come isn't asked for again."""
    for step in (*(f"sub {at}" for at in (0, 3, 6, 9)), f"{NAMES[4]} 0"):
        directory = Directory(lost=step)
        if step.startswith("CN="):
            directory.faults["sub 3"] = directory.faults[step]
        read = Read(directory)
        place.expect(({name: why for name, why in read.objects.items() if why}, sorted(read.objects), read.twice),
                     ({}, sorted(NAMES), []), f"lost at {step}")
        place.expect(NAMES[0] in directory.asked, step == "sub 0", f"lost at {step}: what is asked again")


def test_gone(place: audit.Place) -> None:
    """An object that goes before it is asked for, and one that nothing comes of, are unknown."""
    from sdtool.audit.sources.items import GONE
    read = Read(Directory(lost="sub 3", gone=NAMES[7]))
    place.expect({name: why for name, why in read.objects.items() if why},
                 {NAMES[7]: GONE}, "gone")
    for name in NAMES[7:9]:
        read = Read(Directory(lost="sub 3", listed=name))
        place.expect((read.objects[name], sorted(read.objects)), (None, sorted(NAMES)), f"in lists alone: {name}")
    directory = Directory(lost="sub 3")
    fault = directory.faults["sub 3"]

    class Again(dict):  # type: ignore[type-arg]
        def pop(self, step: str, *default: Any) -> Any:
            return fault if step == f"{NAMES[5]} 0" else super().pop(step, *default)
    directory.faults = Again({**directory.faults, f"{NAMES[5]} 0": fault})
    read = Read(directory)
    place.expect((sorted(read.objects), [name for name, why in read.objects.items() if why]),
                 (sorted(NAMES), [NAMES[5]]), "an object that ends each connection")


def test_refused(place: audit.Place) -> None:
    """What a server refuses is the unknown rest; referrals are named, and a base that isn't there is told first."""
    read = Read(Directory(refused="sub 6"))
    place.expect(read.objects[f"{BASE}: the rest"], "not allowed", "the rest")
    place.expect(len(read.objects), 7, "what came before")
    place.expect(["ldap://other/DC=other" in line for line in read.said], [True], "referrals")
    place.expect([line for line in read.said if f"/{BASE}" in line], [], "referrals to what is read")
    for query, is_shown, rest in (("", True, [f"{BASE}: the rest"]), (f"/{BASE}??one", True, []),
                                  (f"/{BASE}??one", False, [f"{BASE}: the rest"]), (f"/{BASE}??sub?(cn=a)", True, [])):
        directory = Directory()
        directory.is_empty, directory.is_shown = True, is_shown
        read = Read(directory, f"ldap://server{query}")
        said = ["lists no such object" in line for line in read.said if "refers" not in line]
        place.expect((list(read.objects), said), (rest, [True] * (not rest)),
                     f"a server that lists nothing of {query!r}, and shows the base: {is_shown}")
    from sdtool.audit.live import talking
    try:
        Read(Directory(refused=f"{BASE} 0"))
        place.expect(True, False, "a base that may not be read")
    except talking.NeverOpened as error:
        place.expect("not allowed" in error.reason, True, "why it isn't opened")


def test_endless(place: audit.Place) -> None:
    """A connection that ends each time at one place isn't begun again for ever, whatever comes before."""
    from sdtool.audit.live import access, reading, talking

    class Ending(Directory):
        def ask(self, action: str, *words: Any) -> Iterator[Any]:
            yield from super().ask(action, *words)
            if "(objectSid=*)" in words:
                raise talking.Lost("cut")

        def close(self) -> None:
            """Nothing is open."""

    begin, pause = reading.Client, reading._FIRST_PAUSE
    reading.Client, reading._FIRST_PAUSE = lambda *words: Ending(), 0.0
    try:
        found = list(itertools.islice(reading.Reading(f"ldap://server/{BASE}", access.Access()).items(), 1000))
    finally:
        reading.Client, reading._FIRST_PAUSE = begin, pause
    place.expect([isinstance(one, reading.Rest) for one in found[-2:]], [False, True], "the end of an endless server")
    place.expect(sorted(one.name for one in found if hasattr(one, "form")), sorted(NAMES), "its objects")


def test_asked(place: audit.Place) -> None:
    """A request isn't sent before the last one is answered: it would get the answers that are left."""
    from sdtool.audit.live import talking

    class Answering(talking.Client):
        _is_asked = False

        def __init__(self) -> None:
            """Begins no process."""

        def _send(self, request: Any) -> None:
            """Nobody gets it."""

        def _answer(self, patience: float = 0) -> List[Any]:
            return ["answer", 1]

    client = Answering()
    place.expect(next(client.ask("list")), 1, "an answer of some")
    try:
        place.expect(next(client.ask("one")), None, "a request in between")
    except talking.Lost:
        place.expect(True, True, "it is refused")


TESTS = (test_lost, test_gone, test_refused, test_endless, test_asked)


def main(count: preload.Count) -> None:
    os.environ.setdefault("SDTOOL_LIBRARY", preload.LIBRARY)
    sys.path.insert(0, str(preload.TOP / "python"))
    audit.run_tests(count, TESTS)
