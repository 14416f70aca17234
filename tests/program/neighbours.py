"""Tries what is just beside each word, number and line that the program takes. Answers are those of the reference,
which follows MS-DTYP 2.4 and 2.5; what is no text, no command or no option is `sdtool: usage`.

  words    of each option with a list of values: each text of one byte and of two printable ones (c_neighbours.py has
           all of two bytes), each value with a character more, less, changed or in capitals, each value of the other
           options, and each word of the documents; each command and each option with a character more, less, changed or
           in capitals
  texts    of the other options: each byte before, behind and inside a SID of `--token`, and as its mark; numbers of
           `--level` and `--want` round each power of two; blanks, digits, letters and marks of other alphabets
           everywhere
  fields   each text of one and two bytes as each field of SDDL, and as a line; those of other alphabets in each place
           of each field, of hex and of base64; each byte in each place of a line in each form
  numbers  round each power of two in each place of SDDL that has numbers
  GUIDs    zeros, ones, others, and each with a byte off, in object ACEs and after `--object`
  SIDs     zeros, ones, others, and each with a byte off, a number more and one less: as trustees, as owners, in a
           token, after `--self`, `--domain`, `--owner` and `--group`, and as labels
  bits     each byte of flags in an ACE of each type, each right for itself and each type of object: checked and derived
"""
import functools
import itertools
import multiprocessing
import os
import pathlib
import re
import subprocess
import tempfile
from typing import NamedTuple, Tuple

import preload
import reference
from reference import Ace, Acl, Descriptor, Sid

TOP = pathlib.Path(__file__).resolve().parents[2]
SECONDS = 1200  # for one run
AT_ONCE = 250  # words that one process tries
LINES_AT_ONCE = 8000
USAGE = b"sdtool: usage\n"
CHECK = ("check", "--token=WD", "--maximum")
DERIVE = ("derive", "--kind=file", "--owner=BA", "--group=SY")
FORMS, TYPES, KINDS = ("hex", "base64", "sddl"), ("file", "key", "ds"), ("file", "container")
# Each option with a list of values: the words that it follows, and the values (docs/FORMAT.md, docs/sdtool.1).
LISTS = {"from": (("convert",), FORMS), "to": (("convert",), FORMS), "type": (CHECK, TYPES),
         "kind": (("derive", "--owner=BA", "--group=SY"), KINDS)}
# The same options of the other commands.
OTHER_LISTS = [("from", ("explain",), FORMS), ("from", CHECK, FORMS), ("from", DERIVE, FORMS), ("to", DERIVE, FORMS),
               ("type", DERIVE, TYPES)]
# Each command, with its options that have a value and its flags.
COMMANDS = {
    "convert": (("from", "to", "domain"), ("numeric",)),
    "explain": (("from", "domain"), ("numeric",)),
    "check": (("from", "domain", "token", "want", "type", "object", "self", "level"),
              ("maximum", "security", "take-ownership")),
    "derive": (("from", "to", "domain", "type", "kind", "owner", "group", "creator"), ("numeric",)),
}
LETTERS = "abcdefghijklmnopqrstuvwxyz0123456789-_. ,=;:+/"
# Blanks; digits; letters that look like ASCII's or become one of them in another case; signs; what is no text.
FOREIGN = [text.encode() for text in (
    " ", "\t", "\v", "\f", "\x1c", "\x1f", "\x7f", "\x85", "\xa0", "\u1680", "\u2003", "\u200b", "\u2028",
    "\u3000", "\ufeff",
    "\u0661", "\u06f1", "\u0967", "\uff11", "\xb2", "\xb9", "\u2460", "\u2170", "\U0001d7cf",
    "\uff21", "\uff33", "\u0410", "\u0391", "\u0405", "\u017f", "\u212a", "\u0130", "\u0131", "\xdf", "\xaa", "\u24b6",
    "\u2010", "\u2212", "\uff0d", "\uff1b", "\uff08", "\uff1a", "\uff0c", "\uff01", "\u01c3", "\u0301",
    "\x01", "-", "+", "_", ".", "'", '"', "!", ",", "\\", "/", "*", "0x", "x")]
NO_TEXTS = [b"\x80", b"\xa0", b"\xb2", b"\xc1\x81", b"\xe0\x80\x80", b"\xed\xa0\x80", b"\xf4\x90\x80\x80", b"\xff"]
USER = Sid(5, (21, 1004336348, 1177238915, 682003330, 1001))
MOST_NUMBERS = Sid(0xffff_ffff_ffff, (0xffff_ffff,) * 15)
GUID = bytes.fromhex("ba7a96bfe60dd011a28500aa003049e2")
ZEROS, ONES = bytes(16), b"\xff" * 16


class Run(NamedTuple):
    """A run of the program: its words, its input, and what it answers."""
    words: Tuple[bytes, ...]
    data: bytes
    stdout: bytes
    stderr: bytes
    status: int


def is_text(word):
    try:
        word.decode("utf-8")
    except UnicodeDecodeError:
        return False
    return True


def run_of(words, data=b""):
    """The run of these words on the data, with the reference's answers."""
    words = tuple(word if isinstance(word, bytes) else word.encode() for word in words)
    if not all(map(is_text, words)):
        return Run(words, data, b"", USAGE, 2)
    try:
        settings = reference.settings_of(words)
    except reference.Usage as fault:
        return Run(words, data, b"", f"{fault}\n".encode(), 2)
    answers, status = reference.answers(reference.all_shown(data, settings), settings)
    return Run(words, data, b"".join(answer + b"\n" for answer in answers), b"", status)


def wrong(words):
    """A run whose words are none of the command line's."""
    return Run(tuple(word.encode() for word in words), b"", b"", USAGE, 2)


def beside(word):
    """A word with a character more, less or changed, with a letter in capitals, and in capitals whole."""
    found = {word.upper(), word.capitalize(), word + word, word[::-1]}
    for at in range(len(word) + 1):
        found |= {word[:at] + letter + word[at:] for letter in LETTERS}
    for at in range(len(word)):
        found |= {word[:at] + letter + word[at + 1:] for letter in (*LETTERS, word[at].upper())}
        found.add(word[:at] + word[at + 1:])
        found.add(word[:at])
    return sorted(found - {word, ""})


def words_of_documents():
    texts = [(TOP / "README.md"), *sorted((TOP / "docs").glob("*.md")), TOP / "docs/sdtool.1"]
    return sorted(set(re.findall(r"[a-z][a-z0-9-]{2,}", "\n".join(path.read_text(encoding="utf-8") for path in texts))))


# Each part gives functions with their arguments, which give runs: so processes of their own make and judge them.

def in_pieces(make, *fixed, items, size=AT_ONCE):
    items = list(items)
    return [(make, (*fixed, items[at:at + size])) for at in range(0, len(items), size)]


def value_runs(option, before, listed, values):
    """The value of an option with a list: one that is listed is answered, any other is named."""
    for value in values:
        words = (*map(str.encode, before), b"--%s=%s" % (option.encode(), value))
        if not is_text(value):
            yield Run(words, b"", b"", USAGE, 2)
        elif value.decode() not in listed:
            yield Run(words, b"", b"", b"sdtool: usage: --%s\n" % option.encode(), 2)
        else:
            yield run_of(words)


def short_texts():
    """Each text of one byte, and each of two that can be printed."""
    printable = range(0x20, 0x7f)
    return [*(bytes([one]) for one in range(1, 256)), *(bytes(pair) for pair in itertools.product(printable, repeat=2))]


def values():
    every = {value for _, more in LISTS.values() for value in more}
    signs = [*FOREIGN, *NO_TEXTS, b""]
    for option, before, listed in [(option, *row) for option, row in LISTS.items()] + OTHER_LISTS:
        texts = {*every, *(one for value in listed for one in beside(value))}
        texts |= {f"{one}{sign}{other}" for one in listed for other in listed for sign in ("", ",", " ", "|")}
        found = {*map(str.encode, texts), *signs}
        found |= {text[:at] + sign + text[at:] for text in map(str.encode, listed) for at in range(len(text) + 1)
                  for sign in signs}
        if LISTS.get(option) == (before, listed):
            found |= {*map(str.encode, words_of_documents()), *short_texts()}
        yield from in_pieces(value_runs, option, before, listed, items=sorted(found))


def name_runs(names):
    """What is no command or no option is refused, whatever it is like."""
    for command, option in names:
        yield wrong([command] if option is None else [command, *[word for word in DERIVE if command == "derive"][1:],
                                                      *[word for word in CHECK if command == "check"][1:], *option])


def names():
    """Commands and options that are none, and options of other commands."""
    every = {name for pair in COMMANDS.values() for part in pair for name in part}
    found = [(one, None) for command in COMMANDS for one in beside(command)
             if one.strip("-") not in COMMANDS and one not in ("help", "-h") and not one.startswith("-")]
    for command, (with_value, flags) in COMMANDS.items():
        for name in sorted(every - {*with_value, *flags}):
            found += [(command, [f"--{name}"]), (command, [f"--{name}=hex"])]
        for name in (*with_value, *flags):
            more = [] if name in flags else ["hex"]
            near = {name.upper(), name.capitalize(), name[:-1], name[1:], name + "s", name + name[-1],
                    name.replace("-", "_"),
                    name[0], "no-" + name, *(name[:at] + name[at].upper() + name[at + 1:] for at in range(len(name)))}
            near -= {name, "", *with_value, *flags, "h"}
            found += [(command, [f"--{one}", *more]) for one in sorted(near) if one != "-"]
            found += [(command, [f"-{name}", *more]), (command, [f"-{name[0]}", *more]), (command, [name, *more]),
                      (command, [f"/{name}", *more])]
            if name in flags:
                found += [(command, [f"--{name}={value}"]) for value in ("true", "false", "1", "")]
    return in_pieces(name_runs, items=[one for one in found if one[1] != ["-help"]])


TOKEN_LINES = b"D:(D;;FW;;;BA)(A;;FA;;;WD)\nD:(A;;FR;;;BA)\nD:(A;;FR;;;BU)(D;;FX;;;WD)\n\nO:BAD:\n"


def text_runs(command, option, data, texts):
    """The value of an option, as the reference reads it."""
    for text in texts:
        yield run_of((*command, b"--%s=%s" % (option.encode(), text)), data)


def marks():
    """Each byte and each pair of marks round the SIDs of a token."""
    every = [bytes([one]) for one in range(1, 256)]
    marked = [mark + mark_of_second for mark in every for mark_of_second in (b"", mark, b"!")]
    marked += [b"!" + mark for mark in every] + FOREIGN + NO_TEXTS
    texts = [before + b"BA" + behind + b",WD" for mark in marked for before, behind in ((mark, b""), (b"", mark))]
    texts += [b"BA" + mark + b"WD" for mark in marked] + [b"B" + mark + b"A" for mark in marked]
    texts += [b"!" + mark + b"BA,WD" for mark in marked] + [b"WD,BA" + mark for mark in marked]
    texts += [b"!", b",", b"!,WD", b"WD,!", b"WD,", b",WD", b"WD,,BA", b"!!BA", b"!BA!", b"! BA", b""]
    return in_pieces(text_runs, (b"check", b"--from=sddl", b"--maximum"), "token", TOKEN_LINES, items=texts)


def round_powers(most):
    """The numbers beside each power of two, those up to 300, and those beside the powers of ten."""
    powers = {1 << place for place in range(most + 1)} | {10 ** place for place in range(len(str(1 << most)))}
    return sorted({*range(301), *(number + step for number in powers for step in (-1, 0, 1))})


LABELS = b"".join(b"D:(A;;FA;;;WD)S:(ML;;NWNRNX;;;S-1-16-%d)\n" % level for level in
                  (0, 1, 4095, 4096, 4097, 8191, 8192, 8193, 12288, 1 << 31, (1 << 32) - 1)) + b"D:(A;;FA;;;WD)\n"


def numbers_of_options():
    """The numbers of `--level` and `--want`, spelled in each way that they might be."""
    texts = [b"%d" % number for number in round_powers(33)]
    texts += [form % number for number in (0, 1, 8, 8192, (1 << 32) - 1, 1 << 32) for form in (
        b"0%d", b"00%d", b"%d0", b"+%d", b"-%d", b"0x%x", b"0X%X", b"%x", b"0%o", b"0o%o", b"0b%d", b"%d.", b"%d.0",
        b"%d ", b" %d",
        b"%d,0", b"%de1", b"%d-1", b"%010d", b"%011d", b"%dh", b"#%d")]
    asked = (b"check", b"--from=sddl", b"--token=WD")
    yield from in_pieces(text_runs, (*asked, b"--maximum"), "level", LABELS, items=texts)
    yield from in_pieces(text_runs, asked, "want", b"D:(A;;FR;;;WD)\nD:\nD:NO_ACCESS_CONTROL\n", items=texts)


# Values of the options without a list.
TEXTS = [("convert", "domain", "S-1-5-21-1-2-3"), ("check", "self", USER.text()), ("check", "token", USER.text()),
         ("check", "level", "8192"), ("check", "want", "FRWD"), ("check", "want", "0x1200a9"), ("check", "want", "017"),
         ("check", "object", "bf967aba-0de6-11d0-a285-00aa003049e2"), ("derive", "owner", USER.text()),
         ("derive", "owner", "BA"),
         ("derive", "group", USER.text()), ("derive", "group", "SY"), ("derive", "creator", "O:BAD:P(A;;FA;;;SY)")]


def other_values():
    """What is nearly such a value."""
    own = {"check": CHECK, "derive": DERIVE, "convert": ("convert",)}
    signs = [*FOREIGN, *NO_TEXTS]
    for command, option, value in TEXTS:
        words = tuple(word.encode() for word in own[command] if not word.startswith(f"--{option}="))
        value = value.encode()
        places = sorted({0, 1, len(value) // 2, len(value) - 1, len(value)})
        texts = [value[:at] + sign + value[at + step:] for at in places for sign in signs for step in (0, 1)]
        texts += [value[:at] + value[at + 1:] for at in range(len(value))] + [value.lower(), value.upper(),
                                                                              value + value, b""]
        texts += [bytes([byte]) for byte in range(1, 256)] + [b"{%s}" % value, b"(%s)" % value, b'"%s"' % value]
        yield from in_pieces(text_runs, words, option, b"", items=texts)


# What follows gives runs over many lines.

def line_run(words, lines):
    yield run_of(words, b"".join(line + b"\n" for line in lines))


READ = ("convert", "--from=sddl", "--to=hex", "--domain=S-1-5-21-1-2-3")
# A line of each field, with the text that the field has there. Fields of the first are tried with each text of two
# bytes.
FIELDS = {
    b"D:(%s;;FA;;;WD)": b"AU", b"D:(A;%s;FA;;;WD)": b"OICI", b"D:(A;;%s;;;WD)": b"FRWD",
    b"D:(A;;FA;;;%s)": b"S-1-5-32-544",
    b"D:(OA;;CC;%s;;WD)": b"bf967aba-0de6-11d0-a285-00aa003049e2", b"O:%s": b"S-1-0x000000000005-21", b"D:%s": b"PARAI",
    b"S:%s": b"NO_ACCESS_CONTROL", b"%s:": b"D", b"%s": b"O:BA",
}
OTHER_FIELDS = {
    b"D:(ML;;%s;;;HI)": b"0x1200A9", b"D:(OD;;CC;;%s;WD)": b"BF967ABA-0DE6-11D0-A285-00AA003049E2",
    b"D:(A;;FA;%s;;WD)": b"00000000-0000-0000-0000-000000000000", b"G:%s": b"DA", b"D:%s(A;;FA;;;WD)": b"ARAI",
    b"%sD:": b"O:BAG:DA", b"D:(A;;FA;;;WD)%s": b"S:P", b"D%s(A;;FA;;;WD)": b":", b"D:%sA;;FA;;;WD)": b"(",
    b"D:(A;;FA;;;WD%s": b")", b"D:(A%s;FA;;;WD)": b";",
}


def short_fields():
    """Each text of one and two bytes as each field."""
    every = [bytes([one]) for one in range(256)] + [bytes(pair) for pair in itertools.product(range(256), repeat=2)]
    texts = [text for text in every if b"\n" not in text]
    for form in FIELDS:
        yield from in_pieces(line_run, READ, items=[form % text for text in texts], size=2 * LINES_AT_ONCE)


def foreign_fields():
    """Characters of other alphabets in each place of each field, and in place of each character."""
    every = {**FIELDS, **OTHER_FIELDS}
    for form, text in every.items():
        lines = [form % bytes([byte]) for byte in range(256) if byte != 10]
        for sign in (*FOREIGN, *NO_TEXTS, b"\0"):
            lines += [form % (text[:at] + sign + text[at:]) for at in range(len(text) + 1)]
            lines += [form % (text[:at] + sign + text[at + 1:]) for at in range(len(text))]
        lines += [form % (text[:at] + text[at + 1:]) for at in range(len(text))] + [form % other
                                                                                    for other in every.values()]
        yield line_run, (READ, lines)


def spelled_lines():
    """Each text of one and two bytes as a line of hex and of base64, and characters of other alphabets there."""
    given = reference.layout(Descriptor(reference.SELF_RELATIVE, 0, USER, None, None, None))
    for source, text in (("hex", given.hex().encode()), ("base64", reference.to_base64(given).encode())):
        every = [bytes([one]) for one in range(256)] + [bytes(pair) for pair in itertools.product(range(256), repeat=2)]
        lines = [one for one in every if b"\n" not in one]
        lines += changed_bytes(text)
        places = [0, 1, 2, 3, len(text) // 2, len(text) - 1, len(text)]
        signs = [*FOREIGN, *NO_TEXTS, *(bytes([byte]) for byte in range(256) if byte != 10)]
        lines += [text[:at] + sign + text[at + step:] for at in places for sign in signs for step in (0, 1, 2, 4)]
        lines += [text[:at] for at in range(len(text))] + [text + text[:at] for at in range(8)] + [text.upper(),
                                                                                                   text.swapcase()]
        yield from in_pieces(line_run, ("convert", f"--from={source}", "--to=hex"), items=lines, size=LINES_AT_ONCE)


def changed_bytes(text):
    """A text with each other byte in each place, but for the end of a line."""
    return [text[:at] + bytes([byte]) + text[at + 1:] for at in range(len(text)) for byte in range(256)
            if byte not in (10, text[at])]


USUAL_SDDL = b"O:BAG:S-1-5-21-1-2-3-513D:PAI(D;;0x10;;;AN)(OA;CIIO;RPWP;bf967aba-0de6-11d0-a285-00aa003049e2;;PS)" \
             b"(A;OICI;FA;;;SY)S:AR(AU;SAFA;SD;;;WD)(ML;;NW;;;HI)"

# What the usual line lacks: an authority in hex, an octal number, a null ACL, and small letters.
OTHER_SDDL = (b"o:s-1-0x0123456789aB-4294967295 g:da\td:aiarpNO_ACCESS_CONTROL "
              b"S:(ou;cinpfa;017;;bf967aba-0de6-11d0-a285-00aa003049e2;ps)")


def usual_descriptor():
    """A descriptor with each part, each family of types and each field."""
    return reference.layout(reference.sddl_reading.from_sddl(USUAL_SDDL, None))


def changed_lines():
    """A usual descriptor with each other byte in each place, as bytes and as SDDL, and what is done with it."""
    lines = [data.hex().encode() for data in changed_bytes(usual_descriptor())]
    for words in (("convert", "--to=hex"), ("explain",), ("check", "--token=SY,!AN,BA", "--maximum", "--level=8192"),
                  ("derive", "--kind=container", "--owner=BA", "--group=SY", "--to=hex")):
        yield from in_pieces(line_run, words, items=lines, size=LINES_AT_ONCE)
    for text in (USUAL_SDDL, OTHER_SDDL):
        yield from in_pieces(line_run, READ, items=changed_bytes(text), size=LINES_AT_ONCE)
        yield line_run, (READ, [text[:at] + text[at + 1:] for at in range(len(text))])


def numbers_read():
    """Numbers round the powers of two, in each place of SDDL and each base."""
    forms = (b"D:(A;;%d;;;WD)", b"D:(A;;0x%x;;;WD)", b"D:(A;;0X%X;;;WD)", b"D:(A;;0%o;;;WD)", b"D:(ML;;0x%x;;;HI)",
             b"O:S-1-%d", b"O:S-1-0x%012x-1", b"O:S-1-5-%d", b"O:S-1-5-%d-0", b"G:S-1-5-0-%d",
             b"D:(A;;FA;;;S-1-5-21-%d-1)", b"O:S-1-0x%x-1", b"O:S-%d-5-18", b"D:(A;;00x%x;;;WD)", b"D:(A;;0%d;;;WD)",
             b"O:S-1-5-0%d", b"O:S-1-5-00%d", b"O:S-01-5-%d", b"O:S-1-5-0x%x", b"O:S-1-0x%d-32", b"O:S-1-5-%010d",
             b"O:S-1-5-%011d")
    lines = [form % number for form in forms for number in round_powers(49)]
    lines += [b"O:S-1-5" + b"-%d" % 7 * count for count in range(18)]
    yield line_run, (READ, lines)
    yield line_run, (("convert", "--from=sddl"), lines)


def off_by_a_byte(data):
    """Some bytes with each one off: its lowest bit, its highest, and whole."""
    return [data[:at] + bytes([data[at] ^ bits]) + data[at + 1:] for at in range(len(data)) for bits in (1, 0x80, 0xff)]


def guids():
    return sorted({ZEROS, ONES, GUID, GUID[::-1], bytes(range(16)),
                   *(one for guid in (ZEROS, ONES, GUID) for one in off_by_a_byte(guid))})


def one_ace(kind, mask, sid, flags=0, object_type=None, inherited=None, owner=None, behind=()):
    acl = Acl((Ace(kind, flags, mask, object_type, inherited, sid), *behind))
    control = reference.SELF_RELATIVE | reference.DACL_PRESENT
    return reference.layout(Descriptor(control, 0, owner, None, None, acl)).hex().encode()


EVERYONE = Sid(1, (0,))


def guids_compared():
    """Each GUID on one side, and few on the other: zeros, ones, another and none."""
    few, every = [ZEROS, ONES, GUID, None], [None, *guids()]
    some = [*few, *off_by_a_byte(ZEROS)[::3], *off_by_a_byte(GUID)[::3]]

    def lines_of(types):
        lines = [one_ace(kind, 0x1ff, EVERYONE, object_type=one) for kind in (5, 6) for one in types]
        lines += [one_ace(5, 0x1ff, EVERYONE, object_type=one, inherited=other) for one in types for other in few]
        return [*lines, one_ace(0, 0x1ff, EVERYONE), one_ace(7, 0x1ff, EVERYONE, object_type=ZEROS)]
    for asked in every:
        words = ["check", "--type=ds", "--token=WD", "--maximum",
                 *([f"--object={reference.guid_sddl(asked)}"] if asked else [])]
        yield line_run, (words, lines_of(every if asked in few else [*some, asked]))
    for kind in ("file", "container"):
        yield line_run, (("derive", f"--kind={kind}", "--owner=BA", "--group=SY", "--to=hex"), lines_of(every))
    yield line_run, (("explain",), lines_of(every))
    yield line_run, (("convert",), lines_of(every))


def sids_beside(sid):
    """A SID with each byte off, with a number more or less, and with its numbers turned round."""
    data = sid.to_bytes()
    found = {reference.parts.Sid(int.from_bytes(one[2:8], "big"), tuple(
        int.from_bytes(one[at:at + 4], "little") for at in range(8, len(one), 4))) for one in off_by_a_byte(data)
             if one[:2] == data[:2]}
    subs = sid.sub_authorities
    found |= {Sid(sid.authority, subs[:-1]), Sid(sid.authority, subs[1:]), Sid(sid.authority, subs[::-1])}
    found |= {Sid(sid.authority, more) for more in ((*subs, 0), (0, *subs), (*subs, *subs[-1:])) if len(more) <= 15}
    return sorted(found | {sid})


SELF, OWNER_RIGHTS, CREATOR_OWNER, CREATOR_GROUP = Sid(5, (10,)), Sid(3, (4,)), Sid(3, (0,)), Sid(3, (1,))
SIDS = [Sid(0, ()), Sid(0, (0,)), MOST_NUMBERS, EVERYONE, USER, Sid(5, (32, 544)), SELF, OWNER_RIGHTS, CREATOR_OWNER,
        CREATOR_GROUP]


def all_lines(sids, owner=None):
    return [one_ace(kind, 0x6_01ff, sid, owner=owner) for sid in sids for kind in (0, 1)]


def owned(sids):
    empty = [one_ace(0, 0x1, Sid(9, (9,)), owner=sid) for sid in sids]
    return empty + [one_ace(kind, 0x6_0001, OWNER_RIGHTS, owner=sid) for sid in sids for kind in (0, 1)]


def sids_compared():
    """Each SID as a trustee and as an owner, and those beside it in a token, and the other way round."""
    for sid in SIDS:
        near = sids_beside(sid)
        lines = [*all_lines(near), *owned(near)]
        tokens = [f"{mark}{sid.text()}" for mark in ("", "!")] + [",".join(one.text() for one in near if one != sid)]
        tokens += [",".join(["!S-1-9-1", *(f"S-1-9-{number}" for number in range(2, 40)), sid.text()])]
        for token in tokens:
            yield line_run, (("check", f"--token={token}", "--maximum"), lines)
        for one in near[::3]:
            few = [*all_lines([sid, one]), *owned([sid, one])]
            yield line_run, (("check", f"--token={one.text()}", "--maximum"), few)
            yield line_run, (("check", f"--token={one.text()}", f"--self={sid.text()}", "--maximum"),
                             [*all_lines([SELF, one]), *few])
    # PRINCIPAL SELF, OWNER RIGHTS, and what is beside them
    for special, owner in ((SELF, None), (OWNER_RIGHTS, USER), (OWNER_RIGHTS, None)):
        lines = [line for one in sids_beside(special) for line in all_lines([one], owner)]
        for more in ([], [f"--self={USER.text()}"]):
            yield line_run, (("check", f"--token={USER.text()}", "--maximum", *more), lines)
            yield line_run, (("check", f"--token={special.text()}", "--maximum", *more), lines)


def sids_derived():
    """CREATOR OWNER, CREATOR GROUP, and what is beside them, from a parent and from a creator."""
    near = [one for sid in (CREATOR_OWNER, CREATOR_GROUP, OWNER_RIGHTS) for one in sids_beside(sid)]
    for kind in ("file", "container"):
        words = ("derive", f"--kind={kind}", f"--owner={USER.text()}", "--group=BU", "--to=hex")
        yield line_run, (words, [one_ace(0, 0x1f_01ff, sid, flags) for sid in near for flags in (3, 11, 7)])
        creators = "".join(f"(A;OICI;FA;;;{sid.text()})" for sid in near if len(sid.text()) < 100)
        yield line_run, ((*words, f"--creator=D:{creators}"), [b"0100008000000000000000000000000000000000"])


def sids_named():
    """The SIDs beside those that an alias names, under domains that are beside one another."""
    domain = Sid(5, (21, 1, 2, 3))
    known = [Sid(authority, tuple(subs)) for authority, *subs in reference.WELL_KNOWN.values()]
    of_domain = [Sid(domain.authority, (*domain.sub_authorities, last)) for last in reference.OF_THE_DOMAIN.values()]
    near = [one for sid in (*known, *of_domain) for one in sids_beside(sid)]
    lines = [reference.layout(Descriptor(reference.SELF_RELATIVE, 0, sid, None, None, None)).hex().encode()
             for sid in near]
    for under in (None, domain, *sids_beside(domain)[::5]):
        words = ["convert", *([f"--domain={under.text()}"] if under and 0 < len(under.sub_authorities) < 15 else [])]
        yield line_run, (words, lines)


def labels_compared():
    """Label ACEs beside those that limit a token: other authorities, other counts of numbers, levels beside one
    another."""
    levels = (0, 1, 255, 4096, 8191, 8192, 8193, 12288, (1 << 31) - 1, 1 << 31, (1 << 32) - 1)
    near = sorted({one for level in levels for one in sids_beside(Sid(16, (level,)))})
    lines = []
    for sid, mask, flags in itertools.product(near, (1, 6, 0xffff_fff8), (0, 8)):
        sacl = Acl((Ace(0x11, flags, mask, None, None, sid), Ace(0x11, 0, 7, None, None, Sid(16, (8192,)))))
        dacl = Acl((Ace(0, 0, 0x1f_01ff, None, None, EVERYONE),))
        control = reference.SELF_RELATIVE | reference.DACL_PRESENT | reference.SACL_PRESENT
        lines.append(reference.layout(Descriptor(control, 0, None, None, sacl, dacl)).hex().encode())
    for level in levels:
        yield line_run, (("check", "--token=WD", "--maximum", f"--level={level}"), lines)


def bits_checked():
    """Each byte of flags of each type, and each right for itself, for each type of object."""
    flagged = [one_ace(kind, 0x101f_01ff, sid, flags, owner=USER) for kind in reference.KINDS for flags in range(256)
               for sid in (EVERYONE, CREATOR_OWNER)]
    # The same before an ACE that allows all, and for OWNER RIGHTS.
    allows = Ace(0, 0, 0x1f_01ff, None, None, EVERYONE)
    flagged += [one_ace(kind, 0x2_0081, sid, flags, owner=USER, behind=[allows]) for kind in reference.KINDS
                for flags in range(256) for sid in (EVERYONE, OWNER_RIGHTS)]
    flagged += [one_ace(kind, 1, OWNER_RIGHTS, flags, owner=USER) for kind in reference.KINDS for flags in range(256)]
    for token in ("WD", "!WD", USER.text()):
        yield from in_pieces(line_run, ("check", f"--token={token}", "--maximum"), items=flagged, size=LINES_AT_ONCE)
    single = [one_ace(kind, 1 << place, EVERYONE) for kind in reference.KINDS for place in range(32)]
    for kind in ("file", "key", "ds"):
        yield line_run, (("check", "--token=WD", "--maximum", f"--type={kind}"), single)
        for place in range(26):
            yield line_run, (("check", "--token=WD", f"--want={1 << place}", f"--type={kind}"), single)
        for place in range(28, 32):
            yield line_run, (("check", "--token=WD", f"--want={1 << place}", f"--type={kind}"), single)
        for target in ("file", "container"):
            words = ("derive", f"--kind={target}", f"--owner={USER.text()}", "--group=BU", "--to=hex", f"--type={kind}")
            inherited = [one_ace(type_of_ace, 1 << place, EVERYONE, 3) for type_of_ace in reference.KINDS
                         for place in range(32)]
            yield line_run, (words, [*flagged, *inherited] if kind == "file" else inherited)


PARTS = (values, names, marks, numbers_of_options, other_values, short_fields, foreign_fields, spelled_lines,
         changed_lines, numbers_read, guids_compared, sids_compared, sids_derived, sids_named, labels_compared,
         bits_checked)


def executed(program, run):
    """What the program prints and its status."""
    with tempfile.TemporaryFile() as given:
        given.write(run.data)
        given.seek(0)
        ended = subprocess.run([b"sdtool", *run.words], executable=program, stdin=given, capture_output=True,
                               timeout=SECONDS)
    return ended.stdout, ended.stderr, ended.returncode


def executed_on_nothing(program, run):
    """The same without an input, which costs a third of the time."""
    reading, writing = os.pipe2(os.O_CLOEXEC)
    told, telling = os.pipe2(os.O_CLOEXEC)
    streams = [(os.POSIX_SPAWN_OPEN, 0, "/dev/null", os.O_RDONLY, 0), (os.POSIX_SPAWN_DUP2, writing, 1),
               (os.POSIX_SPAWN_DUP2, telling, 2)]
    child = os.posix_spawn(program, [b"sdtool", *run.words], os.environ, file_actions=streams)
    os.close(writing)
    os.close(telling)
    with open(reading, "rb") as stdout, open(told, "rb") as stderr:
        found = stderr.read(), stdout.read()
    return found[1], found[0], os.waitstatus_to_exitcode(os.waitpid(child, 0)[1])


def difference(run, found):
    """How the answers differ, with the line of the first that does."""
    given, wanted = found[0].split(b"\n"), run.stdout.split(b"\n")
    lines = run.data.split(b"\n") if len(wanted) == len(run.data.split(b"\n")) else []
    pairs = itertools.zip_longest(lines, given, wanted, fillvalue=b"")
    line, gave, right = next((pair for pair in pairs if pair[1] != pair[2]), (b"", b"", b""))
    shown = [b" ".join((b"sdtool", *run.words)), line, gave, found[1], right, run.stderr]
    command, line, gave, told, right, to_tell = (text.decode("utf-8", "backslashreplace").strip()[:200]
                                                 for text in shown)
    return f"{command}: {line}\n  gave {gave}{told}, status {found[2]}\n  not  {right}{to_tell}, status {run.status}"


def judge(program, task):
    """How many runs of a task are right, counted by their lines, and how the others differ."""
    make, arguments = task
    passed, failed = 0, []
    for run in make(*arguments):
        found = (executed if run.data else executed_on_nothing)(program, run)
        if found == (run.stdout, run.stderr, run.status):
            passed += max(1, run.data.count(b"\n"))
        else:
            failed.append(difference(run, found))
    return passed, failed


def main(count: preload.Count, given: preload.Given) -> None:
    with multiprocessing.get_context("fork").Pool(os.cpu_count()) as pool:
        results = [(part, pool.imap_unordered(functools.partial(judge, given.program), list(part())))
                   for part in PARTS if preload.is_chosen(part)]
        for part, found in results:
            before = count.passed
            for passed, failed in found:
                count.passed += passed
                for what in failed:
                    count.add(False, what)
            print(f"{part.__name__.replace('_', ' ')}: {count.passed - before}", flush=True)
