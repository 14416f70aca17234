"""Asks the library why each right is granted or denied.

  lines  100,000 random descriptors, a fifth of them damaged, each with a token and a question that fit it: the reasons
         are those of the reference, by both calls, and a fault is the reference's. After a fault all 25 are nothing.
  time   reasons take at most three times as long as a check with the same token that wants 0x00FFFFFF

It needs a C compiler.
"""
import collections
import pathlib
import random
import subprocess
import tempfile
from ctypes import byref, c_char_p, c_size_t, c_uint32

import c_library
import compare
import preload
import reference
from c_neighbours import HAS_LEVEL, NO_PLACE, OK, SECURITY, TAKE_OWNERSHIP, Asker, Outcome, Reason, call
from reference import Ace, Acl, Descriptor, Sid
from reference.access import PLACES, REASONS, reasons

SOURCE = pathlib.Path(__file__).with_name("c") / "reasons_speed.c"
LINES_OF_A_TOKEN = 20
MOST_TIMES = 3
TRIES = 5  # to take it, on a machine that does other things too
EVERYONE, OTHER, SYSTEM_LEVEL = Sid(1, (0,)), Sid(5, (21, 1, 2, 3, 1001)), Sid(16, (16384,))


def told(name, data, given, asked):
    """The reasons of a call as the reference has them, or the number of its fault."""
    found = (Reason * len(PLACES))(*[Reason(0xaaaa, 0xaaaa) for _ in PLACES])
    outcome = call(name, Outcome, data, *given, *asked, found)
    listed = [(REASONS[one.kind] if one.kind < len(REASONS) else one.kind, None if one.place == NO_PLACE else one.place)
              for one in found]
    if outcome.fault == OK:
        return listed if outcome.length == len(PLACES) else outcome.length
    return outcome.fault if listed == [("nothing", None)] * len(PLACES) else (outcome.fault, listed)


def expected(data, ask):
    try:
        return [(one.word, one.place) for one in reasons(reference.read(data), ask)]
    except reference.parts.Fault as fault:
        return fault.args[0]


def test_lines(count, number, choices):
    """Prints how often each reason came, of which none may be missing."""
    maker, mappings, seen = compare.Lines(choices), list(reference.MAPPINGS.values()), collections.Counter()
    for _ in range(number // LINES_OF_A_TOKEN):
        found = [maker.labelled(maker.with_stand_ins(reference.read(maker.descriptor().data)))
                 for _ in range(LINES_OF_A_TOKEN)]
        words = [word.encode() for word in compare.check_words(maker, found)]
        ask = reference.settings_of(words).ask
        sids = b"".join(sid.to_bytes() for sid, _ in ask.token)
        entries = bytes(only_denies for _, only_denies in ask.token)
        token = (c_uint32 * (2 + 20 * len(entries)))()
        read = call("sdtool_token_read", Outcome, c_char_p(sids), c_size_t(len(sids)), c_char_p(entries),
                    c_size_t(len(entries)), token, c_size_t(len(token)))
        count.add(read.fault == OK, f"the token of {words}: {read.fault}")
        options = (ask.level is not None) * HAS_LEVEL | ask.security * SECURITY | ask.take_ownership * TAKE_OWNERSHIP
        asker = Asker(mappings.index(ask.mapping), ask.level or 0, options)
        asked = [ask.object_type or b"", ask.principal_self.to_bytes() if ask.principal_self else b"", byref(asker)]
        before = [c_char_p(sids), c_size_t(len(sids)), c_char_p(entries), c_size_t(len(entries))]
        for one in found:
            data = reference.layout(one)
            data = bytes.fromhex(c_library.change_bytes(data.hex(), choices)) if choices.random() < 0.2 else data
            right = expected(data, ask)
            for name, given in (("sdtool_reasons", before), ("sdtool_reasons_with", [token, c_size_t(len(token))])):
                answer = told(name, data, given, asked)
                count.add(answer == right, f"{name} of {data.hex()} for {words}:\n  gave {answer}\n  not  {right}")
            seen.update(["fault"] if isinstance(right, int)
                        else (word + ("" if place is None else " at") for word, place in right))
    print(dict(seen.most_common()))
    wanted = {"fault", "nothing", "label", "label at", "no dacl", "owner", "privilege", "granted at", "denied at"}
    count.add(wanted <= set(seen), f"reasons that did not come: {wanted - set(seen)}")


def ace(kind, mask, sid=EVERYONE):
    return Ace(kind, 0, mask, None, None, sid)


def described(*aces, sacl=(), owner=OTHER):
    return reference.layout(Descriptor(0x8014 if sacl else 0x8004, 0, owner, None,
                                       Acl(tuple(sacl)) if sacl else None, Acl(aces)))


def timed():
    """What each case is called, its descriptor, its token and its level."""
    each_right = [ace(right % 2, 1 << right) for right in range(24)]
    many = [Sid(5, (21, 1, 2, 3, 2000 + number)) for number in range(1023)] + [EVERYONE]
    label = [ace(2, 1)] * 30 + [ace(0x11, 7, SYSTEM_LEVEL)]
    yield "one ACE", described(ace(0, 0x1f01ff)), [EVERYONE], 0
    yield "all rights at once", described(ace(0, 0xffffff)), [EVERYONE], 0
    yield "an ACE for each right", described(*each_right), [EVERYONE], 0
    yield "an ACE for each right, and many SIDs", described(*each_right), many, 0
    yield "ACEs for others", described(*[ace(0, 0x1f01ff, OTHER)] * 200), [EVERYONE], 0
    yield "ACEs for others, and many SIDs", described(*[ace(0, 0x1f01ff, Sid(5, (99,)))] * 200), many, 0
    yield "no ACE", described(), [EVERYONE], 0
    yield "the owner", described(ace(0, 0x1f01ff, OTHER)), [OTHER], 0
    yield "no DACL", reference.layout(Descriptor(0x8000, 0, OTHER, None, None, None)), [EVERYONE], 0
    yield "a label that leaves nothing", described(ace(0, 0x1f01ff), sacl=label), [EVERYONE], 4096
    yield "the default label", described(*each_right), [EVERYONE], 4096


def test_time(count, folder):
    program = folder / "reasons_speed"
    words = [c_library.COMPILER, *c_library.WARNINGS, f"-I{c_library.TOP / 'include'}", SOURCE,
             c_library.LIBRARIES / "libsdtool.a", "-o", program]
    compiled = subprocess.run(words, stdout=subprocess.PIPE, stderr=subprocess.STDOUT, check=False)
    count.add(compiled.returncode == 0, compiled.stdout.decode())
    cases = list(timed())
    lines = "".join(f"{data.hex()} {b''.join(sid.to_bytes() for sid in sids).hex()} {level:x}\n"
                    for _, data, sids, level in cases)
    times = [(1.0, float("inf"))] * len(cases)
    for _ in range(TRIES):
        ended = subprocess.run([program], input=lines, stdout=subprocess.PIPE, encoding="ascii",
                               timeout=c_library.SECONDS, check=False)
        told = [tuple(map(float, line.split())) for line in ended.stdout.splitlines()]
        count.add(ended.returncode == 0 and len(told) == len(cases),
                  f"reasons_speed: status {ended.returncode}, {len(told)} times")
        times = [min(pair, key=lambda one: one[1] / one[0]) for pair in zip(times, told)]
        if all(why <= MOST_TIMES * check for check, why in times):
            break
    for (name, *_), (check, why) in zip(cases, times):
        print(f"{name}: a check {check:,.0f} ns, reasons {why:,.0f} ns, {why / check:.2f} times")
        count.add(why <= MOST_TIMES * check, f"{name}: reasons take {why / check:.2f} times as long as a check")


def add_options(parser):
    parser.add_argument("--lines", type=int, default=100_000)


def main(count: preload.Count, given: preload.Given) -> None:
    with tempfile.TemporaryDirectory() as name:
        test_time(count, pathlib.Path(name))
    test_lines(count, given.lines, random.Random(77))
