"""Tests sdtool.plain_descriptors, and sdtool-audit over it. Each descriptor of the worked rows, random ones, and as
many of them with damage have to be what the independent implementation (tests/reference) reads, or have its error line:
as bytes, as objects, and as texts of SDDL with and without a domain; and by the audit as lines of hex, base64 and SDDL.
Also tested: that what comes again is shared, and what is refused.

All of it is tried by the module's extension, where that is built, and by ctypes.
"""
import base64
import itertools
import random
import sys
import threading
import uuid

import c_library
import preload
import reference
from preload import raised
from python_module import WITHOUT_EXTENSION

import sdtool
from sdtool import Fault, PlainAce, PlainDescriptor, SecurityDescriptor, plain_descriptors
from sdtool.audit import library

DOMAIN = "S-1-5-21-1-2-3"
WORDS = {form: [b"explain", b"--from", form.encode()] for form in ("hex", "base64", "sddl")}
# Texts that are nearly hex or base64, or SDDL with a character that no ASCII has.
ODD = {
    "hex": ["z", "zz", "0", "010", " 01", "01 ", "0x01", "01\t", "01\r", "01\r\r", "\r", "01\0", "\u00e9",
            "\u00e9\u00e9", "\udcff", "\udcff\udcff", "\u0661\u0661", "01:00", "01-00", "0" * 262_453,
            "0" * 262_454, "00" * 131_226],
    "base64": ["A", "AA", "AA=", "AA==", "AB==", "AAA", "AAA=", "AAB=", "AAAA=", "AA==AA==", "AAAA\r", "AAAA ", " AAAA",
               "AA AA", "-_-_", "AAAA\u00e9", "\udcff", "=", "====", "AAAA====", "A" * 174_968,
               "A" * 174_972, "AQ==\0"],
    "sddl": ["D:\r", "D:\r\r", "O:BA\r", "\rO:BA", "O:B\rA", "O:BA\0", "O:\u00e9", "O:BA\udcff", "D:(A;;FA;;;WD)\u00e9",
             "\u00e9", "x", "O:" + "\u00e9" * 92, "O:" + "1" * 184, "D:(A;;\u00e9;;;WD)(A;;ZZ;;;WD)",
             " " * 1_049_871 + "\u00e9", "\t D:P", "o:bag:sy"],
}


# ---- what the independent implementation says ----

def acl_of(descriptor, acl, present):
    if not descriptor.control & present:
        return "absent"
    return "null" if acl is None else tuple(ace_of(ace) for ace in acl.aces)


def ace_of(ace):
    guids = [reference.guid_sddl(guid) or None for guid in (ace.object_type, ace.inherited_object_type)]
    return (reference.KINDS[ace.type], ace.flags, ace.mask, ace.sid.text(), *guids)


def plain_of(found):
    """The plain values of a descriptor, or the error line."""
    if not isinstance(found, reference.Descriptor):
        return str(found)
    acls = acl_of(found, found.dacl, reference.DACL_PRESENT), acl_of(found, found.sacl, reference.SACL_PRESENT)
    return (*(sid and sid.text() for sid in (found.owner, found.group)), *acls, found.control, found.resource_manager)


def read(form, text, domain=None):
    words = WORDS[form] + ([b"--domain", domain.encode()] if domain else [])
    data = text.encode("utf-8", "surrogateescape") + b"\n"
    return plain_of(reference.all_shown(data, reference.settings_of(words))[0])


# ---- descriptors ----

def random_sid(choices):
    if choices.randrange(3):
        return reference.sid_of_text(choices.choice([b"BA", b"WD", b"SY", b"BU", b"OW", b"CO", b"S-1-5-21-1-2-3-512"]))
    authority = choices.choice((0, 5, 16, 2**32, 2**48 - 1, choices.randrange(2**48)))
    return reference.Sid(authority, tuple(choices.randrange(2**32) for _ in range(choices.choice((0, 1, 2, 5, 15)))))


def random_ace(choices):
    kind = choices.choice(list(reference.KINDS))
    guids = [choices.choice((None, choices.randbytes(16), uuid.UUID(int=7).bytes_le)) for _ in range(2)]
    mask = choices.choice((0, 0x1f01ff, 0x10000000, choices.randrange(2**32)))
    flags = choices.choice((0, 3, 0x1b, choices.randrange(256))) & ~0x20
    of_kind = guids if kind in reference.OBJECT_TYPES else (None, None)
    return reference.Ace(kind, flags, mask, *of_kind, sid=random_sid(choices))


def random_acl(choices, common):
    if not choices.randrange(4):
        return None
    return reference.Acl(tuple(choices.choice(common) if choices.randrange(2) else random_ace(choices)
                               for _ in range(choices.choice((0, 1, 2, 5, 40)))))


def random_descriptor(choices, common):
    """A descriptor, some of whose ACEs are those of others too."""
    acls = [random_acl(choices, common) for _ in range(2)]
    control = choices.randrange(0x10000) | reference.SELF_RELATIVE
    for acl, present in zip(acls, (reference.SACL_PRESENT, reference.DACL_PRESENT)):
        control |= present if acl else 0
    sids = [random_sid(choices) if choices.randrange(5) else None for _ in range(2)]
    return reference.Descriptor(control, choices.randrange(256), *sids, *acls)


def lines(count, choices):
    """Descriptors in hex, and in SDDL."""
    common = [random_ace(choices) for _ in range(20)]
    made = [random_descriptor(choices, common) for _ in range(count)]
    printing = reference.settings_of([b"convert", b"--numeric"])
    of_hex, of_sddl = c_library.lines_of_rows()
    of_hex = [line for line in of_hex if len(line) < 20_000] + [reference.layout(one).hex() for one in made]
    of_sddl = [line for line in of_sddl if len(line) < 20_000] + [reference.sddl(one, printing) for one in made]
    of_sddl = list(filter(None, of_sddl))
    return (of_hex + c_library.random_lines(of_hex, count, c_library.change_bytes, choices),
            of_sddl + c_library.random_lines(of_sddl, count, c_library.change_text, choices))


def plainly(found):
    """Plain values that can be compared; of a Fault its line. An object of another type is none of them."""
    if type(found) is Fault:
        return found.line
    if type(found) is not PlainDescriptor or \
            any(type(ace) is not PlainAce for acl in found[2:4] if type(acl) is tuple for ace in acl):
        return f"another type: {found!r}"
    return tuple(found)


def compare(count, what, given, found, expected):
    count.add(len(found) == len(expected), f"{what}: {len(found)} answers, not {len(expected)}")
    for one, ours, theirs in zip(given, found, expected):
        count.add(ours == theirs, f"{what} {str(one)[:300]}: {str(ours)[:600]}, not {str(theirs)[:600]}")


# ---- tests ----

def test_descriptors(count, of_hex):
    data = [bytes.fromhex(line) for line in of_hex]
    expected = [read("hex", line) if line else "error 5 short" for line in of_hex]
    compare(count, "bytes", of_hex, list(map(plainly, plain_descriptors(data))), expected)
    compare(count, "one by one", of_hex, list(map(plainly, plain_descriptors(map(bytearray, data), ahead=1))), expected)
    whole = [at for at, one in enumerate(expected) if type(one) is tuple]
    objects = [SecurityDescriptor.from_bytes(data[at]) for at in whole]
    compare(count, "objects", [of_hex[at] for at in whole], list(map(plainly, plain_descriptors(objects))),
            [expected[at] for at in whole])
    count.add(len(whole) > len(of_hex) // 3 and len(set(map(str, expected))) > 200,
              f"{len(whole)} of {len(of_hex)} descriptors are whole")


def test_texts(count, of_sddl):
    for domain in (None, DOMAIN):
        expected = [read("sddl", line, domain) for line in of_sddl]
        found = list(map(plainly, plain_descriptors(of_sddl, domain=domain)))
        compare(count, f"SDDL with the domain {domain}", of_sddl, found, expected)
        whole = sum(type(one) is tuple for one in expected)
        count.add(len(of_sddl) // 5 < whole < len(of_sddl), f"{whole} of {len(of_sddl)} texts are whole")
    empty = "01000080" + "00" * 16
    mixed = ["O:BA", bytes.fromhex(empty), SecurityDescriptor.from_sddl("O:BA"), "", b"", "O:Everyone", "\ud800"]
    nothing = (None, None, "absent", "absent", 0x8000, 0)
    expected = [read("sddl", "O:BA"), read("hex", empty), read("sddl", "O:BA"), nothing,
                "error 5 short", "error 25 sid-form", "error 20 shape"]
    compare(count, "descriptors and texts", mixed, list(map(plainly, plain_descriptors(mixed))), expected)


def audited(found):
    """What the audit has, as the independent implementation would say it; and whether what questions go by follows."""
    if isinstance(found, library.Refusal):
        return found.line, True
    acls = [tuple((ace.kind, ace.flags, ace.mask, ace.sid, ace.object_type or None, ace.inherited_type or None)
                  for ace in acl) if state == "list" else state
            for state, acl in ((found.dacl, found.aces), (found.sacl, found.sacl_aces))]
    deciding = tuple(ace for ace in found.aces if not ace.flags & 0x8 and ace.kind in ("A", "D", "OA", "OD"))
    follows = found.deciding == deciding and all(
        ace.counts == (not ace.flags & 0x8) and ace.decides == (ace.counts and ace.kind in ("A", "D", "OA", "OD")) and
        ace.is_odd == (ace.object_type != "" or ace.mask >= 1 << 28) for ace in found.aces + found.sacl_aces)
    return (found.owner or None, found.group or None, *acls, found.control), follows


def without_resource_manager(expected):
    """The plain values that the audit has."""
    return expected if isinstance(expected, str) else expected[:5]


def test_audit(count, of_hex, of_sddl, choices):
    of_base64 = [base64.b64encode(bytes.fromhex(line)).decode() for line in of_hex]
    texts = {"hex": [choices.choice((line, line.upper())) for line in of_hex], "base64": of_base64, "sddl": of_sddl}
    for form, given in texts.items():
        changed = c_library.random_lines(given, len(given) // 4, c_library.change_text, choices) + ODD[form]
        given = [line for line in [*given, *changed] if line.strip(" \t\r\n")]
        for domain in ("", DOMAIN) if form == "sddl" else ("",):
            found = list(map(audited, library.explained(form, given, domain)))
            expected = [without_resource_manager(read(form, line, domain)) for line in given]
            compare(count, f"the audit's {form}", given, [one for one, _ in found], expected)
            count.add(all(follows for _, follows in found), f"what questions go by, of {form}")
    for text in ("", " ", "\t", "\r", "D:\nD:"):
        problem = raised(library.explained, "sddl", ["O:BA", text])
        count.add(isinstance(problem, library.AnswersFault), f"{text!r}: {problem!r}")
    for domain in ("x", "DA", "S-1-5-21-" + "-".join(map(str, range(14)))):
        problem = raised(library.explained, "sddl", ["O:BA"], domain)
        count.add(isinstance(problem, library.WordsFault), f"the domain {domain}: {problem!r}")


def test_sharing(count):
    """What comes again is the same object; and of more than is kept each is right."""
    guid = "bf967aba-0de6-11d0-a285-00aa003049e2"
    text = f"O:BAG:BAD:(A;;FR;;;BU)(OA;;CR;{guid};{guid};AU)S:(A;;FR;;;BU)"
    first, second = plain_descriptors([text, text.replace("G:BA", "G:SY")])
    count.add(first.dacl is second.dacl and first.sacl[0] is first.dacl[0], "ACLs and ACEs are shared")
    count.add(first.owner is first.group is second.owner, "SIDs are shared")
    ace = first.dacl[1]
    count.add(ace.object_type is ace.inherited_object_type and ace.object_type == guid, "GUIDs are shared")
    many = [f"O:S-1-5-21-{number}D:(A;;{number:#x};;;S-1-5-21-1-{number})(A;;FR;;;BU)" for number in range(20_000)]
    found = list(plain_descriptors(many))
    of_users = ("A", 0, 0x120089, "S-1-5-32-545", None, None)
    count.add(all((one.owner, one.dacl) == (f"S-1-5-21-{at}", (("A", 0, at, f"S-1-5-21-1-{at}", None, None), of_users))
                  for at, one in enumerate(found)), "more than is kept")
    count.add(len({id(one.dacl[1]) for one in found}) < 10, "an ACE of all descriptors is made a few times")
    large = "D:" + "(A;;FR;;;BU)(A;;FW;;;BA)" * 1_000
    found = list(plain_descriptors([large, large]))
    count.add(found[0] == found[1] and len(found[0].dacl) == 2_000, "a large ACL")
    count.add(len(set(map(id, found[0].dacl))) == 2, "the ACEs of a large ACL are shared")


def test_order(count):
    """A Fault in its place, and no more descriptors taken than said."""
    taken = []

    def source():
        for one in ["O:BA", b"short", "O:ZZ"] * 4:
            taken.append(one)
            yield one

    for ahead in (1, 2, 5, 1024):
        taken.clear()
        found = plain_descriptors(source(), ahead=ahead)
        first = next(found)
        count.add(first.owner == "S-1-5-32-544" and len(taken) == min(ahead, 12), f"{len(taken)} taken, {ahead} ahead")
        lines = [one.line if isinstance(one, Fault) else one.owner for one in itertools.chain([first], found)]
        count.add(lines == ["S-1-5-32-544", "error 5 short", "error 22 alias"] * 4, f"{lines}")
    count.add(list(plain_descriptors([])) == [], "no descriptor")


def test_refusals(count):
    for given in (None, 1, "D:", b"D:", bytearray(20), object()):
        count.add(type(raised(plain_descriptors, given)) is sdtool.WrongType, f"{given!r}")
    for item in (None, 1, 1.5, ["D:"], object()):
        count.add(type(raised(list, plain_descriptors(["D:", item]))) is sdtool.WrongType, f"an item {item!r}")
    unmade = SecurityDescriptor.__new__(SecurityDescriptor)
    count.add(type(raised(list, plain_descriptors(["D:", unmade]))) is sdtool.WrongType, "one that is not made")
    wrong, refused = sdtool.WrongType, sdtool.ArgumentFault
    for domain, kind in ((1, wrong), (b"", refused), (bytes(8), refused), ("", Fault), ("x", Fault)):
        problem = raised(plain_descriptors, ["D:"], domain=domain)
        count.add(type(problem) is kind, f"the domain {domain!r}: {problem!r}")
    for ahead, kind in ((0, refused), (-1, refused), (True, wrong), ("1", wrong)):
        count.add(type(raised(plain_descriptors, ["D:"], ahead=ahead)) is kind, f"ahead={ahead!r}")

    def failing():
        yield "D:"
        raise KeyError("of the caller")

    count.add(type(raised(list, plain_descriptors(failing()))) is KeyError, "an iterator that fails")
    for domain in ("BA", sdtool.Sid(DOMAIN), bytes(sdtool.Sid(DOMAIN))):
        count.add(len(list(plain_descriptors(["O:BA"], domain=domain))) == 1, f"the domain {domain!r}")


def test_threads(count):
    texts = [f"O:BAD:(A;;{mask:#x};;;BU)" for mask in range(1, 300)]
    expected = list(plain_descriptors(texts))
    wrong = []

    def work():
        for _ in range(10):
            if list(plain_descriptors(texts, ahead=7)) != expected:
                wrong.append(1)

    threads = [threading.Thread(target=work) for _ in range(6)]
    for thread in threads:
        thread.start()
    for thread in threads:
        thread.join()
    count.add(not wrong and len(expected) == 299, f"threads: {wrong}")


def add_options(parser):
    parser.add_argument("--count", type=int, default=1500)
    parser.add_argument("--seed", type=int, default=1)
    parser.add_argument(WITHOUT_EXTENSION, action="store_true", help="by ctypes alone")


def main(count: preload.Count, arguments: preload.Given) -> None:
    choices = random.Random(arguments.seed)
    of_hex, of_sddl = lines(arguments.count, choices)
    test_descriptors(count, of_hex)
    test_texts(count, of_sddl)
    test_audit(count, of_hex, of_sddl, choices)
    for test in filter(preload.is_chosen, (test_sharing, test_order, test_refusals, test_threads)):
        test(count)
    if not arguments.without_extension:
        if "sdtool._native" not in sys.modules:
            print("skipped: the extension is not built, so this was ctypes")
        else:
            count.add_run([sys.executable, *sys.argv, WITHOUT_EXTENSION], before="without the extension: ")
