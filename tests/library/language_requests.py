"""Random requests, hostile ones too, with the answers that calls of the library by ctypes give; and what the tests of a
language share. A program in the language (rust/requests, go/internal/requests, tests/dotnet/cs, tests/library/requests)
answers the same requests by the values of its own interface.
"""
import ctypes
import importlib.util
import itertools
import math
import os
import pathlib
import random
import shutil
import struct
import subprocess
import tempfile
from typing import Any, Callable, Mapping, NamedTuple, Sequence

import c_edits
import c_library
import c_objects
import compare
import preload
from reference.editing import BY_ORDER, END, NOT_ASKED, Match
from reference.parts import LABEL_TYPE

# The package itself would open the library, and fail without one.
of_header = importlib.util.spec_from_file_location("sdtool_header", preload.TOP / "python/sdtool/_header.py")
header = importlib.util.module_from_spec(of_header)
of_header.loader.exec_module(header)
LIBRARIES = pathlib.Path(preload.LIBRARY).parent
SECONDS = 3000
PART_TWICE = 21  # whose place is a second head, which stands in the text of an ACE itself
NO_LIBRARY = {"LD_LIBRARY_PATH": ""}  # for what is linked statically
MOST_OF_C = 1.3    # times that a check may take, and an empty call
# A descriptor and the SID of a token, whose check is timed.
TIMED = ("01000480140000002400000000000000300000000102000000000005200000002002000001010000000000051200000002001c00"
         "0100000000001400ff011f00010100000000000100000000", "010100000000000100000000")
MAPPINGS, KINDS, MOST_SIDS = 3, 2, 1_024
LEVELS = (4096, 8192, 12288, 16384)
MANY_CHANGES = (16_384, 16_385)  # as many as there may be, and one more
MANY_DESCRIPTORS = (1_024, 1_025, 2_048)  # as languages give to one call, and more
OPTIONS = (header.HAS_LEVEL, header.SECURITY, header.TAKE_OWNERSHIP)
WORDS = ([], ["convert"], ["explain"], ["convert", "--to", "hex"], ["--help"], ["convert", "--from", "sddl"],
         ["nothing"], ["explain", "--numeric"], ["convert", "--domain", "S-1-5-21-1-2-3"], ["convert", "--to\0hex"],
         ["check", "--sid", "WD", "--maximum"], ["convert", "\u20ac"])
CONVERSIONS = ("to-sddl", "from-sddl", "normalize")
NUMBERS = {"put": "put", "take": "take", "replace": "replace", "take each": "take-each", "set each": "set-each"}


class Told(Exception):
    """The fault of a call, and its place if it has one."""

    def __init__(self, outcome, place=None):
        super().__init__(outcome.fault)
        self.outcome, self.place = outcome, place


class Library:
    """The calls of the library."""

    def __init__(self):
        library = ctypes.CDLL(preload.LIBRARY)
        for name, arguments, result in header.CALLS:
            call = getattr(library, f"sdtool_{name}")
            call.argtypes, call.restype = list(arguments), result
            setattr(self, name, call)
        self.room = ctypes.create_string_buffer(header.MOST_TEXT)

    def __getattr__(self, name):
        raise AttributeError(f"the header has no call {name}")

    def answer(self, call, *given):
        """What a call gives to an output that suffices."""
        outcome = call(*given, self.room, len(self.room))
        if outcome.fault:
            raise Told(outcome)
        return ctypes.string_at(self.room, outcome.length)

    def said(self, fault):
        """A fault as the programs print it."""
        outcome, place = fault.outcome, fault.place or header.FaultPlace()
        name = self.answer(self.fault_text, outcome.fault).decode()
        sentence = self.answer(self.describe, outcome, place).decode()
        where = "-"
        if place.fault == outcome.fault:
            where = ",".join((str(place.part), number(place.ace, header.NO_ACE), str(place.field),
                              str(place.place.offset), str(place.place.size)))
        numbers = f"{outcome.part} {outcome.other_part} {outcome.argument} {outcome.entry}"
        return f"! {outcome.fault} {name} {numbers} {where} {sentence}"

    def sid(self, data):
        if not data or self.sid_size(data, len(data)) != len(data):
            raise of_argument(header.ARGUMENT_SID)
        return data

    def sid_or_none(self, data):
        return self.sid(data) if data else b""

    def layout(self, data):
        try:
            return self.answer(self.normalize, data, len(data))
        except Told as told:
            raise Told(told.outcome, self.place(data, len(data))) from None

    def layout_of(self, text, domain):
        try:
            return self.answer(self.from_sddl, text, len(text), domain, len(domain))
        except Told as told:
            raise Told(told.outcome, self.sddl_place(text, len(text), domain, len(domain))) from None

    def build_of(self, sids, acls, control, manager):
        new = header.NewDescriptor(*map(in_c, sids), *map(acl_in_c, acls), control, manager)
        return self.answer(self.build, new)

    def alone(self, ace):
        """The bytes of an ACE, which is refused as one of a DACL if it can't be."""
        layout = self.build_of((b"", b""), ("absent", [ace]), 0, 0)
        acl, found = self.parts(layout, len(layout)).dacl.place, header.Ace()
        data = layout[acl.offset:acl.offset + acl.size]
        self.next_ace(data, len(data), found)
        return data[found.place.offset:found.place.offset + found.place.size]


def of_argument(argument):
    return Told(header.Outcome(fault=header.ARGUMENT, argument=argument))


def number(value, none):
    return "-" if value == none else str(value)


def shown(data):
    return data.hex() or "-"


def in_c(data):
    return header.Bytes(data, len(data))


def acl_in_c(acl):
    """An ACL is "absent", "null", or a list of ACEs, each its six fields."""
    if isinstance(acl, str):
        return header.NewAcl(None, 0, header.ACL_NULL if acl == "null" else header.ACL_ABSENT)
    aces = (header.NewAce * len(acl))(*[header.NewAce(in_c(sid), in_c(one), in_c(other), mask, kind, flags)
                                        for kind, flags, mask, sid, one, other in acl])
    return header.NewAcl(aces, len(acl), header.ACL_LIST)


def words_of_ace(ace):
    kind, flags, mask, sid, one, other = ace
    return f"{kind} {flags} {mask} {shown(sid)} {shown(one)} {shown(other)}"


def words_of_acl(acl):
    return acl if isinstance(acl, str) else " ".join([str(len(acl)), *map(words_of_ace, acl)])


def fields_of(ace):
    """The fields of an ACE of the reference."""
    return ace.type, ace.flags, ace.mask, ace.sid.to_bytes(), ace.object_type or b"", ace.inherited_object_type or b""


def verdict_of(verdict):
    return f"{verdict.granted} {verdict.mask}"


def labelled(chance):
    """A descriptor with a label behind other ACEs."""
    found = c_edits.random_descriptor(chance)
    label = c_edits.Ace(LABEL_TYPE, chance.choice((0, 0, 3, 8)), chance.choice((1, 2, 4, 7)), None, None,
                        c_edits.Sid(16, (chance.choice(LEVELS),)))
    others = found.sacl.aces[:2] if found.sacl else ()
    return found._replace(sacl=c_edits.Acl((*others, label)), control=found.control | 0x10)


class Inputs:
    """Descriptors, texts and SIDs, of which many are nearly right."""

    def __init__(self, chance):
        maker = compare.Lines(chance)
        self.chance = chance
        self.descriptors = [chance.choice(maker.kinds)().data for _ in range(300)]
        self.descriptors += [c_edits.binary.layout(c_edits.random_descriptor(chance)) for _ in range(300)]
        self.descriptors += [c_edits.binary.layout(labelled(chance)) for _ in range(150)]
        self.descriptors += [bytes.fromhex(c_library.change_bytes(one.hex(), chance))
                             for one in chance.sample(self.descriptors, 200) if one]
        self.descriptors = [one for one in self.descriptors if len(one) < 3_000] + [b"", bytes(20)]
        self.small = [one for one in self.descriptors if len(one) < 100]
        self.large = [bytes.fromhex(c_library.TOO_MANY_BYTES), next(iter(compare.large_descriptors()))]
        texts = [maker.sddl_line().decode("latin-1") for _ in range(500)]
        texts += [c_library.change_text(chance.choice(texts), chance) for _ in range(200)]
        texts += [text[:2] + chance.choice("\0\xe9\u20ac\U0001f600") + text[2:] for text in chance.sample(texts, 50)]
        self.texts = [text for text in texts if len(text) < 3_000] + ["", "D:", "D:P", "O:BA\n"]
        self.large_texts = ["D:" + "(A;;FA;;;WD)" * 3_276, "D:" + "(A;;FA;;;WD)" * 3_277]
        self.sid_texts = c_objects.sid_texts(maker, 200, chance)
        self.sids = [sid for sid in c_objects.sids_of(maker, 200, chance) if len(sid) < 200]
        self.whole_sids = [sid for sid in self.sids if c_objects.size_of(sid) == len(sid) > 0]

    def one(self, items):
        return self.chance.choice(items)

    def is_rare(self):
        return self.chance.random() < 0.02

    def is_once(self):
        return self.chance.random() < 0.001

    def descriptor(self):
        return self.one(self.large if self.is_once() else self.descriptors)

    def text(self):
        return self.one(self.large_texts if self.is_once() else self.texts)

    def sid(self):
        return self.one(self.sids if self.is_rare() else self.whole_sids)

    def domain(self):
        return self.one((b"", c_library.DOMAIN, c_library.FULL_DOMAIN, self.sid()))

    def flag(self):
        return self.chance.randrange(2)

    def mask(self):
        return self.one((0, 1, 0x2, 0x1f01ff, 0x120089, 0x0200_0000, 0x1000_0000, 1 << self.chance.randrange(32),
                         self.chance.getrandbits(32)))

    def guid(self):
        return self.one((bytes(16), bytes(range(16)), self.chance.randbytes(16)))

    def ace(self):
        ace = list(fields_of(c_edits.random_ace(self.chance)))
        ace[3] = self.one((ace[3], self.sid()))
        if self.is_rare():
            ace[self.chance.randrange(2)] = self.chance.getrandbits(8)
        if self.is_rare():
            ace[4] = self.guid()
        return tuple(ace)

    def acl(self):
        return self.one(("absent", "null", [self.ace() for _ in range(self.one((0, 1, 2, 5)))]))


class Requests:
    """A method for each job gives the words of a request, and a function that asks the library. The checks of a
    language come in the same order: what is in the words from the left, and then the call."""

    def __init__(self, chance):
        self.library, self.inputs, self.chance = Library(), Inputs(chance), chance
        self.checks_aces_first = False

    def answers(self, job, ask):
        """What the library says, where each ACE is checked as it is used, and where all are before."""
        found = []
        for self.checks_aces_first in (False, True) if job in ("build", "edit") else (False,):
            try:
                found.append(ask())
            except Told as told:
                found.append(self.library.said(told))
        return found[0], found[-1]

    def version(self):
        library = self.library
        return "", lambda: f"{library.answer(library.version).decode()} {library.version_number()}"

    def bytes(self):
        data = self.inputs.descriptor()
        return shown(data), lambda: shown(self.library.layout(data))

    def sddl(self):
        text, domain = self.inputs.text().encode(), self.inputs.domain()
        return f"{shown(text)} {shown(domain)}", lambda: shown(
            self.library.layout_of(text, self.library.sid_or_none(domain)))

    def printed(self, call, form):
        data, domain, numeric = self.inputs.descriptor(), self.inputs.domain(), self.inputs.flag()

        def ask():
            of, layout = self.library.sid_or_none(domain), self.library.layout(data)
            return form(self.library.answer(call, layout, len(layout), of, len(of), numeric))

        return f"{shown(domain)} {numeric} {shown(data)}", ask

    def to_sddl(self):
        return self.printed(self.library.to_sddl, bytes.decode)

    def explain(self):
        return self.printed(self.library.explain, shown)

    def sid(self):
        library, sid, domain = self.library, self.inputs.one(self.inputs.sids), self.inputs.domain()

        def ask():
            given, of = library.sid(sid), library.sid_or_none(domain)
            text = library.answer(library.sid_to_text, given, len(given), None, 0, True)
            alias = library.answer(library.sid_to_text, given, len(given), of, len(of), False)
            return f"{text.decode()} {'-' if text == alias else alias.decode()}"

        return f"{shown(sid)} {shown(domain)}", ask

    def sid_text(self):
        library, text, domain = self.library, self.inputs.one(self.inputs.sid_texts).encode(), self.inputs.domain()

        def ask():
            of = library.sid_or_none(domain)
            return shown(library.answer(library.sid_from_text, text, len(text), of, len(of)))

        return f"{shown(text)} {shown(domain)}", ask

    def guid(self):
        guid = self.inputs.guid()
        return shown(guid), lambda: self.library.answer(self.library.guid_to_text, guid, len(guid)).decode()

    def guid_text(self):
        library = self.library
        text = library.answer(library.guid_to_text, self.inputs.guid(), 16).decode()
        changed = c_library.change_text(text, self.chance)
        given = self.inputs.one((text, text.upper(), f"{{{text}}}", text[:-1], changed)).encode()
        return shown(given), lambda: shown(library.answer(library.guid_from_text, given, len(given)))

    def number(self, call, texts):
        text = "".join(self.inputs.one(texts) for _ in range(self.chance.randrange(4)))
        given = (c_library.change_text(text, self.chance) if self.inputs.is_rare() else text).encode()

        def ask():
            found = call(given, len(given))
            if found.outcome.fault:
                raise Told(found.outcome)
            return str(found.number)

        return shown(given), ask

    def rights(self):
        return self.number(self.library.rights_from_text,
                           ("FA", "FR", "WD", "NW", "GA", "CC", "XX", "0x1f", "010", "9", "-1", " "))

    def flags(self):
        return self.number(self.library.flags_from_text, ("OI", "CI", "NP", "IO", "ID", "SA", "FA", "XX", "oi", " "))

    def rights_text(self):
        library, mask, label = self.library, self.inputs.mask(), self.inputs.flag()
        return f"{mask} {label}", lambda: shown(library.answer(library.rights_to_text, mask, label))

    def flags_text(self):
        library, flags = self.library, self.chance.getrandbits(8)
        return str(flags), lambda: shown(library.answer(library.flags_to_text, flags))

    def text_of_ace(self):
        """Of a descriptor's text, from its first parenthesis on; or of an ACE, with another character at times."""
        text = self.inputs.text()
        if self.flag():
            found = self.library.alone(fields_of(c_edits.random_ace(self.chance)))
            text = self.library.answer(self.library.ace_to_text, found, len(found), b"", 0, self.flag()).decode()
        text = text[max(text.find("("), 0):]
        text = text[:text.find(")") + 1 or None] + self.inputs.one(("", "", "", " ", "(", "x"))
        return c_library.change_text(text, self.chance) if self.chance.random() < 0.2 else text

    def flag(self):
        return self.inputs.flag()

    def ace_text(self):
        library, text, domain = self.library, self.text_of_ace().encode(), self.inputs.domain()

        def ask():
            of = library.sid_or_none(domain)
            try:
                found = library.answer(library.ace_from_text, text, len(text), of, len(of))
            except Told as told:
                place = library.sddl_place(b"D:" + text, len(text) + 2, of, len(of))
                place.place.offset = max(place.place.offset - 2, 0)
                if place.part == header.DACL and place.fault != PART_TWICE:
                    place.part, place.ace = header.NO_PART, header.NO_ACE
                raise Told(told.outcome, place) from None
            return self.found_ace(found, library.ace_read(found, len(found)))

        return f"{shown(text)} {shown(domain)}", ask

    def found_ace(self, data, ace):
        parts = [shown(data[place.offset:place.offset + place.size])
                 for place in (ace.sid, ace.object_type, ace.inherited_object_type)]
        return ",".join([str(ace.kind), str(ace.flags), str(ace.mask), *parts])

    def ace(self):
        library, domain, numeric, ace = self.library, self.inputs.domain(), self.flag(), self.inputs.ace()

        def ask():
            of = library.sid_or_none(domain)
            library.sid(ace[3])
            found = library.alone(ace)
            return library.answer(library.ace_to_text, found, len(found), of, len(of), numeric).decode()

        return f"{shown(domain)} {numeric} {words_of_ace(ace)}", ask

    def parts(self):
        data = self.inputs.descriptor()

        def ask():
            layout = self.library.layout(data)
            found = self.library.parts(layout, len(layout))
            sids = [shown(layout[place.offset:place.offset + place.size]) for place in (found.owner, found.group)]
            acls = [self.found_acl(layout, acl) for acl in (found.sacl, found.dacl)]
            return " ".join([*sids, *acls, str(found.control), str(found.resource_manager)])

        return shown(data), ask

    def found_acl(self, layout, acl):
        if acl.state != header.ACL_LIST:
            return "null" if acl.state == header.ACL_NULL else "absent"
        data, ace, aces = layout[acl.place.offset:acl.place.offset + acl.place.size], header.Ace(), []
        while self.library.next_ace(data, len(data), ace):
            aces.append(self.found_ace(data, ace))
        return f"[{';'.join(aces)}]"

    def judge_ace(self, ace):
        """What is wrong with an ACE where it is made."""
        self.library.sid(ace[3])
        if self.checks_aces_first:
            self.library.alone(ace)

    def build(self):
        control, manager = self.chance.getrandbits(16), self.chance.getrandbits(8)
        sids = [self.inputs.one((b"", self.inputs.sid())) for _ in range(2)]
        acls = [self.inputs.acl() for _ in range(2)]

        def ask():
            for sid in sids:
                self.library.sid_or_none(sid)
            for acl in acls:
                for ace in () if isinstance(acl, str) else acl:
                    self.judge_ace(ace)
            return shown(self.library.build_of(sids, acls, control, manager))

        words = [str(control), str(manager), *map(shown, sids), *map(words_of_acl, acls)]
        return " ".join(words), ask

    def token(self):
        """The words of a token, its SIDs and the bytes beside them, and the options and the level."""
        lists = [[self.inputs.sid() for _ in range(self.chance.choice((0, 1, 1, 3, 8)))] for _ in range(2)]
        if self.inputs.is_once():
            lists[0] = [self.inputs.whole_sids[0]] * self.inputs.one((MOST_SIDS, MOST_SIDS + 1))
            lists[1] = []
        options, level = sum(bit for bit in OPTIONS if self.flag()), self.inputs.one((0, 4096, 8192, 0xffff_ffff))
        words = [f"{len(sids)} {' '.join(map(shown, sids))}" for sids in lists]
        words += [str(options)] + ([str(level)] if options & header.HAS_LEVEL else [])
        entries = bytes(len(lists[0])) + bytes([header.DENY_ONLY]) * len(lists[1])
        return " ".join(words), [*lists[0], *lists[1]], entries, options, level

    def question(self):
        """The words of a token and a request, and a function that gives what calls take for them."""
        words, sids, entries, options, level = self.token()
        mapping, maximum, wanted = self.chance.randrange(MAPPINGS), self.flag(), self.inputs.mask()
        guid = self.inputs.one((b"", self.inputs.guid()))
        principal = self.inputs.one((b"", self.inputs.sid()))

        def judge():
            joined = b"".join(map(self.library.sid, sids))
            room = (ctypes.c_uint32 * (2 + 20 * MOST_SIDS))()
            outcome = self.library.token_read(joined, len(joined), entries, len(entries), room, len(room))
            if outcome.fault:
                raise Told(outcome)
            self.library.sid_or_none(principal)
            asker = header.Asker(mapping, level if options & header.HAS_LEVEL else 0, options)
            request = header.Request(asker, wanted, header.MAXIMUM if maximum else 0)
            return (joined, len(joined), entries, len(entries), guid, len(guid), principal, len(principal)), request

        return f"{words} {mapping} {maximum} {shown(guid)} {shown(principal)} {wanted}", judge

    def verdict(self, data, asked, request):
        found = self.library.check(data, len(data), *asked, request)
        if found.outcome.fault:
            raise Told(found.outcome, self.library.place(data, len(data)))
        return verdict_of(found)

    def check(self):
        words, judge = self.question()
        data = self.inputs.descriptor()
        return f"{words} {shown(data)}", lambda: self.verdict(data, *judge())

    def check_many(self):
        words, judge = self.question()
        all_data = [self.inputs.descriptor() for _ in range(self.inputs.one((0, 1, 2, 9)))]
        if self.inputs.is_once():
            all_data = self.chance.choices(self.inputs.small, k=self.inputs.one(MANY_DESCRIPTORS))

        def ask():
            asked, request = judge()
            outcome = self.library.check_many(None, 0, *asked, request, None, 0)
            if outcome.fault:
                raise Told(outcome)
            answers = []
            for data in all_data:
                try:
                    answers.append(self.verdict(data, asked, request))
                except Told as told:
                    answers.append(self.library.said(told))
            return " | ".join(answers)

        return " ".join([words, str(len(all_data)), *map(shown, all_data)]), ask

    def convert_many(self):
        library, kind, domain = self.library, self.inputs.one(CONVERSIONS), self.inputs.domain()
        of_text, numeric = kind == "from-sddl", self.flag() if kind == "to-sddl" else 0
        data, offsets, column = self.column(
            lambda: self.inputs.text().encode() if of_text else self.inputs.descriptor())

        def answer(row, of):
            if of_text:
                return library.layout_of(row, of)
            if kind == "normalize":
                return library.layout(row)
            try:
                return library.answer(library.to_sddl, row, len(row), of, len(of), numeric)
            except Told as told:
                raise Told(told.outcome, library.place(row, len(row))) from None

        def ask():
            of = library.sid_or_none(domain)
            return self.of_rows(data, offsets, lambda row: shown(answer(row, of)))

        words = [kind] + [str(numeric)] * (kind == "to-sddl")
        return " ".join([*words, shown(domain), column]), ask

    def column(self, value):
        """The bytes of a column, its offsets, which sometimes lie, and the words of both."""
        rows = [value() for _ in range(self.inputs.one((0, 1, 2, 9)))]
        data, offsets = b"".join(rows), [0, *itertools.accumulate(map(len, rows))]
        if self.inputs.is_rare():
            lies = (len(data) + 1, 0xffff_ffff, 0xffff_ffff_ffff_ffff, self.chance.randrange(len(data) + 1))
            offsets[self.chance.randrange(len(offsets))] = self.inputs.one(lies)
        return data, offsets, f"{shown(data)} {struct.pack(f'<{len(offsets)}Q', *offsets).hex()}"

    def of_rows(self, data, offsets, answer):
        """What the call for each row by itself gives."""
        answers = []
        for first, last in zip(offsets, offsets[1:]):
            try:
                if not first <= last <= len(data):
                    raise of_argument(header.ARGUMENT_OFFSETS)
                answers.append(answer(data[first:last]))
            except Told as told:
                answers.append(self.library.said(told))
        return " | ".join(answers)

    def check_column(self):
        words, judge = self.question()
        data, offsets, column = self.column(self.inputs.descriptor)

        def ask():
            asked, request = judge()
            outcome = self.library.check_many(None, 0, *asked, request, None, 0)
            if outcome.fault:
                raise Told(outcome)
            return self.of_rows(data, offsets, lambda row: self.verdict(row, asked, request))

        return f"{words} {column}", ask

    def derive_many(self):
        words, given = self.creation()
        data, offsets, column = self.column(self.inputs.descriptor)

        def ask():
            made = given()

            def answer(row):
                layout = self.library.layout(row)
                return shown(self.library.answer(self.library.derive, layout, len(layout), *made))

            return self.of_rows(data, offsets, answer)

        return f"{words} {column}", ask

    def reasons(self):
        words, judge = self.question()
        data = self.inputs.descriptor()

        def ask():
            asked, request = judge()
            layout, told = self.library.layout(data), (header.Reason * header.RIGHTS)()
            outcome = self.library.reasons(layout, len(layout), *asked, request.asker, told)
            if outcome.fault:
                raise Told(outcome)
            granting = (header.REASON_NO_DACL, header.REASON_OWNER, header.REASON_PRIVILEGE, header.REASON_GRANTED)
            return " ".join(f"{one.kind},{number(one.place, header.NO_PLACE)},{int(one.kind in granting)}"
                            for one in told)

        return f"{words} {shown(data)}", ask

    def creation(self):
        kind, mapping = self.chance.randrange(KINDS), self.chance.randrange(MAPPINGS)
        owner, group = self.inputs.sid(), self.inputs.sid()
        creator = self.inputs.one((b"", self.inputs.descriptor()))

        def judge():
            self.library.sid(owner)
            self.library.sid(group)
            brought = self.library.layout(creator) if creator else b""
            return (brought, len(brought), owner, len(owner), group, len(group), kind, mapping)

        return " ".join([str(kind), str(mapping), *map(shown, (owner, group, creator))]), judge

    def derivation(self):
        words, given = self.creation()
        parent = self.inputs.descriptor()

        def judge():
            made, layout = given(), self.library.layout(parent)
            return (layout, len(layout), *made)

        return f"{words} {shown(parent)}", judge

    def derive(self):
        words, judge = self.derivation()
        return words, lambda: shown(self.library.answer(self.library.derive, *judge()))

    def origins(self):
        words, judge = self.derivation()

        def ask():
            acls = [(header.Origin * header.MOST_DERIVED_ACES)() for _ in range(2)]
            told = self.library.derive_origins(*judge(), acls[0], len(acls[0]), acls[1], len(acls[1]))
            if told.outcome.fault:
                raise Told(told.outcome)
            counts = (told.sacl_count, told.dacl_count)
            return " ".join(f"[{';'.join(f'{one.place},{one.from_creator},{one.inherit_only}' for one in acl[:count])}]"
                            for acl, count in zip(acls, counts))

        return words, ask

    def change(self):
        """The words of a change, the ACE in it, the SIDs that it has, and its bytes."""
        change = c_edits.random_change(self.chance)
        if change.match and self.inputs.is_rare():
            change = change._replace(match=Match())
        if change.name == "control" and self.inputs.is_rare():
            change = change._replace(set_bits=self.chance.getrandbits(16))
        if change.setting and self.inputs.is_rare():
            change = change._replace(setting=change.setting._replace(clear_mask=self.inputs.mask()))
        words = [NUMBERS.get(change.name, change.name), change.acl or "D"]
        ace = None
        if change.place is not None:
            words.append(str({END: header.AT_END, BY_ORDER: header.BY_ORDER}.get(change.place, change.place)))
        if change.ace:
            if self.inputs.is_rare():
                change = change._replace(ace=change.ace._replace(flags=0x20))
            ace = fields_of(change.ace)
            words.append(words_of_ace(ace))
        if change.match:
            words.append(words_of_match(change.match))
        if change.setting:
            sid = change.setting.sid.to_bytes() if change.setting.sid else b""
            words += [shown(sid), *map(str, change.setting[1:])]
        if change.name == "state":
            words.append(str(c_edits.STATES[change.state]))
        if change.name in ("owner", "group"):
            words.append(shown(change.sid.to_bytes() if change.sid else b""))
        if change.name == "control":
            words += [str(change.set_bits), str(change.clear_bits)]
        return " ".join(words), ace, c_edits.bytes_of(change)

    def edit(self):
        changes = [self.change() for _ in range(self.inputs.one((0, 1, 2, 3, 6)))]
        if self.inputs.is_once():
            order = c_edits.Change("order", "D")
            changes = [("order D", None, c_edits.bytes_of(order))] * self.inputs.one(MANY_CHANGES)
        data = self.inputs.descriptor()

        def ask():
            for _, ace, _ in changes:
                if ace:
                    self.judge_ace(ace)
            layout, count = self.library.layout(data), len(changes)
            given = (header.Change * count).from_buffer_copy(b"".join(one for _, _, one in changes))
            touched = (ctypes.c_uint32 * count)()
            made = self.library.answer(self.library.edit, layout, len(layout), given, count, touched, count)
            return f"{shown(made)} {','.join(map(str, touched))}"

        return " ".join([str(len(changes)), *(words for words, _, _ in changes), shown(data)]), ask

    def order(self):
        data = self.inputs.descriptor()

        def ask():
            layout = self.library.layout(data)
            found = self.library.order(layout, len(layout))
            return " ".join(number(place, header.NO_ACE) for place in (found.sacl, found.dacl))

        return shown(data), ask

    def run(self):
        words = self.inputs.one(WORDS)
        if self.flag():
            lines = [self.inputs.text().encode() for _ in range(3)]
        else:
            lines = [self.inputs.descriptor().hex().encode() for _ in range(3)]
        data = b"\n".join(lines)

        def ask():
            # A word with a NUL is none.
            spelled = b"".join((b"\xff" if "\0" in word else word.encode()) + b"\0" for word in words)
            sizes = (header.MOST_TEXT, header.MOST_MESSAGE)
            room, message = map(ctypes.create_string_buffer, sizes)
            ending = self.library.run(spelled, len(spelled), data, len(data), room, sizes[0], message, sizes[1])
            said = [ctypes.string_at(room, ending.length), ctypes.string_at(message, ending.message_length)]
            return " ".join([str(ending.status), *map(shown, said)])

        return " ".join([str(len(words)), *(shown(word.encode()) for word in words), shown(data)]), ask


def words_of_match(match):
    words = [str(match.flags), str(match.flags_mask),
             "-" if match.sid is NOT_ASKED else shown(match.sid.to_bytes())]
    for value in (match.type, match.mask):
        words.append("0" if value is NOT_ASKED else f"1 {value}")
    for value in (match.object_type, match.inherited_object_type):
        words.append("any" if value is NOT_ASKED else "none" if value is None else f"given {shown(value)}")
    return " ".join(words)


JOBS = ("version bytes sddl to_sddl explain sid sid_text guid guid_text rights flags rights_text flags_text ace_text"
        " ace parts build check check_many check_column convert_many reasons derive derive_many origins edit order run"
        ).split()


def as_it_is(_, answer):
    return answer


class Way(NamedTuple):
    """A program that answers requests by the interface of a language, and what it does in its own way."""
    words: Sequence[Any]
    checks_aces_first: bool
    surroundings: Mapping[str, str] = {}
    threads: int = 1
    jobs: Sequence[str] = JOBS
    form: Callable[[str, str], str] = as_it_is


def ran(words, folder, surroundings, given=None, **others):
    ended = subprocess.run([str(word) for word in words], cwd=folder, input=given, stdout=subprocess.PIPE,
                           stderr=subprocess.STDOUT, text=True, timeout=SECONDS, check=False, **others,
                           env={**os.environ, "LD_LIBRARY_PATH": str(LIBRARIES), **surroundings})
    return ended.stdout, ended.returncode


def judge_run(count, words, folder, surroundings, given=None):
    """A command that has to end well."""
    said, status = ran(words, folder, surroundings, given)
    count.add(status == 0, f"{' '.join(map(str, words))}: status {status}\n{said[-3000:]}")
    return said


def judge_requests(count, ways, number, seed):
    """The same requests of each job, asked in each way, have the answers of the library."""
    requests, made = Requests(random.Random(seed)), []
    for job in JOBS:
        for _ in range(number):
            words, ask = getattr(requests, job)()
            made.append((job, f"{job.replace('_', '-')} {words}", requests.answers(job, ask)))
    for way in ways:
        asked = [(line, way.form(line, answers[way.checks_aces_first])) for job, line, answers in made
                 if job in way.jobs]
        said, status = ran([*way.words, way.threads], None, way.surroundings, "".join(f"{line}\n" for line, _ in asked))
        found = said.split("\n")[:-1]
        count.add(status == 0 and len(found) == len(asked), f"{way.words}: status {status}, {said[-2000:]}")
        for (line, right), one in zip(asked, found):
            count.add(one == right, f"{way.words[0]}: {line[:600]}: {one[:600]}, not {right[:600]}")


def times(words, surroundings):
    """Nanoseconds of a check and of a call that does nothing, by a program."""
    return list(map(float, ran([*words, *TIMED], None, surroundings)[0].split()))


def program_in_c(folder):
    """The program that says what both take in C."""
    program = pathlib.Path(folder, "check_times")
    subprocess.run([c_library.COMPILER, "-O2", f"-I{preload.TOP / 'include'}",
                    str(preload.TOP / "tests/library/c/check_times.c"), "-o", str(program), f"-L{LIBRARIES}",
                    "-lsdtool"], check=True)
    return [program]


def judge_time(count, way):
    """A check takes at most so many times what it takes in C, and an empty call."""
    with tempfile.TemporaryDirectory() as folder:
        words = program_in_c(folder)
        check = own = empty = math.inf
        for _ in range(10):  # a machine may be busy
            (taken_in_c, _), (taken, called) = times(words, {}), times([*way.words, "time"], way.surroundings)
            check, own, empty = min(check, taken_in_c), min(own, taken), min(empty, called)
            if own <= MOST_OF_C * check + empty:
                break
    said = f"a check takes {own:.0f} ns, in C {check:.0f} ns, and an empty call {empty:.0f} ns"
    count.add(own <= MOST_OF_C * check + empty, f"{way.words}: {said}")
    print(said)


def missing(tools):
    """What of commands or files is not there, with the package of Debian that has it; or that there is no library."""
    if not os.path.exists(preload.LIBRARY):
        return f"skipped, there is no {preload.LIBRARY}"
    for tool, package in tools:
        if not (os.path.exists(tool) if "/" in tool else shutil.which(tool)):
            return f"skipped, there is no {tool} (Debian: {package})"
    return None
