#!/usr/bin/env python3
"""answers.py [THREADS | time DESCRIPTOR SID]

Answers requests from standard input by the package sdtool, one a line, as language_requests.py describes them; or
measures checks and calls that do nothing. A text of SDDL has its place in characters, which become bytes here.
"""
import concurrent.futures
import sys
import time

import sdtool

MAPPINGS, KINDS, STATES = ("file", "key", "ds"), ("file", "container"), ("absent", "null", "list")
PARTS = (None, "owner", "group", "sacl", "dacl")
FIELDS = (None, "kind", "flags", "rights", "object type", "inherited object type", "sid", "size")
REASONS = ("nothing", "label", "no-dacl", "owner", "privilege", "granted", "denied")
PLACES = {0xffff_ffff: "end", 0xffff_fffe: "order"}
OPTIONS = ((2, "security"), (4, "take-ownership"))
HALF = "\ud800"  # no text of a word
HAS_LEVEL, CHANGES, CALLS, ROUNDS = 1, 16, 2_000, 50
WITHOUT_PLACE = ("sid-text", "rights", "flags", "guid-text")  # the text of a field is the place of its fault


def shown(data):
    return bytes(data).hex() or "-"


def number(value):
    return "-" if value is None else str(value)


class Words:
    """The words of a request, taken one after the other, and what of them is a text."""

    def __init__(self, line):
        self.words = iter(line.split())
        self.given = None

    def word(self):
        return next(self.words)

    def number(self):
        return int(self.word())

    def flag(self):
        return self.number() == 1

    def bytes(self):
        word = self.word()
        return b"" if word == "-" else bytes.fromhex(word)

    def text(self):
        self.given = self.bytes().decode()
        return self.given

    def sid(self):
        return sdtool.Sid(self.bytes())

    def sid_or_none(self):
        data = self.bytes()
        return sdtool.Sid(data) if data else None

    def guid(self):
        return self.bytes() or None

    def ace(self):
        kind, flags, mask = self.number(), self.number(), self.number()
        return sdtool.Ace(kind, flags, mask, self.sid(), self.guid(), self.guid())

    def acl(self):
        word = self.word()
        if word in STATES:
            return sdtool.Acl.ABSENT if word == "absent" else sdtool.Acl.NULL
        return sdtool.Acl([self.ace() for _ in range(int(word))])

    def descriptor(self):
        return sdtool.SecurityDescriptor.from_bytes(self.bytes())

    def token(self):
        lists = [[self.bytes() for _ in range(self.number())] for _ in range(2)]
        options = self.number()
        level = self.number() if options & HAS_LEVEL else None
        privileges = [name for bit, name in OPTIONS if options & bit]
        enabled, denying = ([sdtool.Sid(sid) for sid in sids] for sids in lists)
        return sdtool.Token(enabled, deny_only=denying, level=level, privileges=privileges)

    def request(self):
        mapping, maximum = MAPPINGS[self.number()], self.flag()
        return {"mapping": mapping, "maximum": maximum, "object_type": self.guid(),
                "principal_self": self.sid_or_none(), "wanted": self.number()}

    def creation(self):
        found = {"kind": KINDS[self.number()], "mapping": MAPPINGS[self.number()], "owner": self.sid(),
                 "group": self.sid()}
        creator = self.bytes()
        return {**found, "creator": sdtool.SecurityDescriptor.from_bytes(creator) if creator else None}

    def match(self):
        found = {"flags": self.number(), "flags_mask": self.number()}
        sid = self.sid_or_none()
        found.update({"sid": sid} if sid else {})
        for name in ("kind", "mask"):
            if self.flag():
                found[name] = self.number()
        for name in ("object_type", "inherited_object_type"):
            word = self.word()
            if word != "any":
                found[name] = self.guid() if word == "given" else None
        return found

    def change(self):
        kind, acl = self.word(), "sacl" if self.word() == "S" else "dacl"
        make = getattr(sdtool.Change, kind.replace("-", "_"))
        if kind in ("put", "replace"):
            place = self.number()
            return make(acl, PLACES.get(place, place) if kind == "put" else place, self.ace())
        if kind == "take":
            return make(acl, self.number())
        if kind == "take-each":
            return make(acl, **self.match())
        if kind == "set-each":
            names = ("set_sid", "set_mask", "clear_mask", "set_flags", "clear_flags")
            return make(acl, **self.match(), **{name: self.sid_or_none() if name == "set_sid" else self.number()
                                                for name in names})
        if kind == "order":
            return make(acl)
        if kind == "state":
            return make(acl, STATES[self.number()])
        if kind == "control":
            return make(set=self.number(), clear=self.number())
        return make(self.sid_or_none())


def of_ace(ace):
    types = [shown(one.bytes_le) if one else "-" for one in (ace.object_type, ace.inherited_object_type)]
    return ",".join([str(int(ace.kind)), str(int(ace.flags)), str(int(ace.mask)), shown(ace.sid), *types])


def of_acl(acl):
    if not acl.is_list:
        return "null" if acl.is_null else "absent"
    return f"[{';'.join(map(of_ace, acl))}]"


def of_verdict(verdict):
    return f"{int(verdict.granted)} {verdict.mask}"


def of_fault(fault, words, job=""):
    if isinstance(fault, sdtool.ArgumentFault):
        return "! 70"
    place, where, text = fault.place, "-", words.given
    sentence = f"{'changes: ' if fault.argument == 'changes' else ''}{fault.line}: {fault.meaning}"
    if place is not None and job not in WITHOUT_PLACE:
        offset, size = place.offset, place.size
        if text is not None:
            size = len(text[offset:offset + size].encode())
            offset = len(text[:offset].encode())
        where = f"{PARTS.index(place.part)},{number(place.ace)},{FIELDS.index(place.field)},{offset},{size}"
        sentence += f", {fault.where}"
    argument, entry = (CHANGES, fault.index) if fault.argument == "changes" else (0, 0)
    numbers = f"{PARTS.index(fault.part)} {PARTS.index(fault.other_part)} {argument} {entry}"
    return f"! {fault.number} {fault.name} {numbers} {where} {sentence}"


def of_origins(origins):
    return f"[{';'.join(f'{one.place},{int(one.from_creator)},{int(one.inherit_only)}' for one in origins)}]"


class Answers:
    """A method for each job."""

    @staticmethod
    def version(_):
        return sdtool.version()

    @staticmethod
    def bytes(words):
        return shown(words.descriptor().bytes)

    @staticmethod
    def sddl(words):
        text = words.text()
        return shown(sdtool.SecurityDescriptor.from_sddl(text, domain=words.sid_or_none()).bytes)

    @staticmethod
    def to_sddl(words):
        named = {"domain": words.sid_or_none(), "numeric": words.flag()}
        return words.descriptor().sddl(**named)

    @staticmethod
    def explain(words):
        named = {"domain": words.sid_or_none(), "numeric": words.flag()}
        return shown(words.descriptor().explain(**named).encode())

    @staticmethod
    def sid(words):
        sid = words.sid()
        return f"{sid} {sid.alias(domain=words.sid_or_none()) or '-'}"

    @staticmethod
    def sid_text(words):
        text = words.text()
        return shown(sdtool.Sid(text, domain=words.sid_or_none()))

    @staticmethod
    def guid(words):
        return sdtool.guid_to_text(words.bytes())

    @staticmethod
    def guid_text(words):
        return shown(sdtool.guid_from_text(words.text()))

    @staticmethod
    def rights(words):
        return str(sdtool.rights_from_text(words.text()))

    @staticmethod
    def flags(words):
        return str(sdtool.flags_from_text(words.text()))

    @staticmethod
    def rights_text(words):
        return shown(sdtool.rights_to_text(words.number(), label=words.flag()).encode())

    @staticmethod
    def flags_text(words):
        return shown(sdtool.flags_to_text(words.number()).encode())

    @staticmethod
    def ace_text(words):
        text = words.text()
        return of_ace(sdtool.Ace.from_bytes(sdtool.ace_from_text(text, domain=words.sid_or_none())))

    @staticmethod
    def ace(words):
        named = {"domain": words.sid_or_none(), "numeric": words.flag()}
        return words.ace().sddl(**named)

    @staticmethod
    def parts(words):
        found = words.descriptor()
        sids = [shown(sid or b"") for sid in (found.owner, found.group)]
        return " ".join([*sids, of_acl(found.sacl), of_acl(found.dacl), str(int(found.control)),
                         str(found.resource_manager)])

    @staticmethod
    def build(words):
        named = {"control": words.number(), "resource_manager": words.number(), "owner": words.sid_or_none(),
                 "group": words.sid_or_none(), "sacl": words.acl(), "dacl": words.acl()}
        return shown(sdtool.SecurityDescriptor(**named).bytes)

    @staticmethod
    def check(words):
        checker = sdtool.Checker(words.token(), **words.request())
        return of_verdict(checker(words.bytes()))

    @staticmethod
    def check_many(words):
        checker = sdtool.Checker(words.token(), **words.request())
        answers = list(checker.many([words.bytes() for _ in range(words.number())]))
        return " | ".join(of_fault(one, words) if isinstance(one, sdtool.Fault) else of_verdict(one)
                          for one in answers)

    @staticmethod
    def reasons(words):
        token, request = words.token(), words.request()
        named = {name: value for name, value in request.items() if name not in ("wanted", "maximum")}
        descriptor = words.descriptor()
        reasons = descriptor.reasons(token, **named)
        for one in reasons:
            acl = descriptor.sacl if one.kind == "label" else descriptor.dacl
            assert one.ace == (None if one.place is None else acl[one.place])
        return " ".join(f"{REASONS.index(one.kind)},{number(one.place)},{int(bool(one))}" for one in reasons)

    @staticmethod
    def derive(words):
        made = words.creation()
        return shown(words.descriptor().derive(**made).bytes)

    @staticmethod
    def origins(words):
        made = words.creation()
        parent = words.descriptor()
        found = parent.origins(**made)
        for name in ("sacl", "dacl"):
            for one in getattr(found, name):
                assert one.ace == getattr(made["creator"] if one.from_creator else parent, name)[one.place]
        return f"{of_origins(found.sacl)} {of_origins(found.dacl)}"

    @staticmethod
    def edit(words):
        changes = [words.change() for _ in range(words.number())]
        found = words.descriptor().edit(*changes)
        return f"{shown(found.descriptor.bytes)} {','.join(map(str, found.touched))}"

    @staticmethod
    def order(words):
        found = words.descriptor().order
        return f"{number(found.sacl)} {number(found.dacl)}"

    @staticmethod
    def run(words):
        spelled = [HALF if "\0" in word else word for word in [words.text() for _ in range(words.number())]]
        ended = sdtool.run(spelled, words.bytes())
        return f"{ended.status} {shown(ended.output)} {shown(ended.message.encode())}"


def answer(line):
    words = Words(line)
    job = words.word()
    try:
        return getattr(Answers, job.replace("-", "_"))(words)
    except (sdtool.Fault, sdtool.ArgumentFault) as fault:
        return of_fault(fault, words, job)


def measured(call):
    """Nanoseconds of one call of many."""
    best = float("inf")
    for _ in range(ROUNDS):
        began = time.perf_counter()
        for _ in range(CALLS):
            call()
        best = min(best, time.perf_counter() - began)
    return best * 1e9 / CALLS


def main(words):
    if words[:1] == ["time"]:
        given = Words(" ".join(words[1:]))
        descriptor = given.descriptor()
        checker = sdtool.Checker(sdtool.Token([given.sid()]), 0x120089)
        assert checker(descriptor).granted
        print(measured(lambda: checker(descriptor)), measured(sdtool.version))
        return
    lines, threads = sys.stdin.read().splitlines(), int(words[0]) if words else 1
    with concurrent.futures.ThreadPoolExecutor(threads) as pool:
        answers = list(pool.map(lambda _: [answer(line) for line in lines], range(threads)))
    assert all(one == answers[0] for one in answers), "threads have said different things"
    print("\n".join(answers[0]))


if __name__ == "__main__":
    main(sys.argv[1:])
