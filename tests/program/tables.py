"""Tries every key of the program's tables. What is listed has its value, and nothing else is there. The values are
those of the reference, from MS-DTYP 2.4.2.4, 2.4.3, 2.4.4.1 and 2.5.1.

  read      every text of two letters in each case, as an alias under a domain and under none, as rights, as flags and
            as a kind, by itself and beside a listed one; every single letter as a kind; every text of one or two
            letters as the name of a part, and as the flags of either ACL, by itself and beside a listed one
  printed   SIDs beside one another under each authority and domain; masks of at most three bits, of all choices of the
            named ones, and near the compound ones, in each kind of ACE; each byte of flags and each byte of a type
  explained every control word, every resource manager byte, and each byte of flags in each kind of ACE
  base64    each symbol in each of four places, printed and read; and each byte there, of which no other one is read
"""
import itertools
import string
import subprocess
import tempfile

import preload
import reference
from reference import Ace, Acl, Descriptor, Sid

SECONDS = 1200  # for one run
PAIRS = ["".join(pair) for pair in itertools.product(string.ascii_uppercase, repeat=2)]
SYMBOLS = string.ascii_letters + string.digits + "+/"
EVERYONE = Sid(1, (0,))
EXPLAIN = ["explain"]  # all other words follow `convert`
NO_ALIAS, NEEDS_DOMAIN, NO_FLAGS, NO_RIGHTS, NO_KIND = \
    "error 22 alias", "error 23 needs-domain", "error 26 flags", "error 27 rights", "error 29 kind"
NO_SHAPE, NO_SID = "error 20 shape", "error 25 sid-form"
DOMAIN = Sid(5, (21, 1004336348, 1177238915, 682003330))
# The usual one, the shortest one, one of the builtin groups', the one of a label, and the longest one.
DOMAINS = [DOMAIN, Sid(5, ()), Sid(5, (32,)), Sid(16, ()), Sid(0xfedc_ba98_7654, (4_294_967_295,) * 14)]
OTHER_DOMAINS = [Sid(5, (21, 1004336348, 1177238915, 682003331)), Sid(5, (21, 1004336348, 1177238915)),
                 Sid(5, (*DOMAIN.sub_authorities, 0)), Sid(4, DOMAIN.sub_authorities)]
LAST_SUB_AUTHORITIES = range(1201)
FAR_SUB_AUTHORITIES = range(20_001)  # the last ones of labels that have an alias are below it, too


def in_each_case(pair):
    choices = [(letter.lower(), letter.upper()) for letter in pair]
    return ["".join(letters) for letters in itertools.product(*choices)]


def owner_alone(sid):
    return Descriptor(reference.SELF_RELATIVE, 0, sid, None, None, None)


def dacl_of(*aces):
    return Descriptor(reference.SELF_RELATIVE | reference.DACL_PRESENT, 0, None, None, None, Acl(aces))


def hex_of(descriptor):
    return reference.layout(descriptor).hex()


def ace_text(kind="A", flags="", rights="", sid="WD"):
    return f"D:({kind};{flags};{rights};;;{sid})"


def with_sids(under):
    """All aliases that are known under a domain or None, with their SIDs."""
    listed = {alias: Sid(authority, tuple(subs)) for alias, (authority, *subs) in reference.WELL_KNOWN.items()}
    if under:
        for alias, last in reference.OF_THE_DOMAIN.items():
            listed[alias] = Sid(under.authority, (*under.sub_authorities, last))
    return listed


# What follows gives words of the command line, and lines with their answers.

def aliases_read():
    """Each text of two letters as a SID: an owner, a group, and the trustee of an ACE."""
    for under in (None, *DOMAINS):
        listed, lines = with_sids(under), []
        for pair in PAIRS:
            sid, fault = listed.get(pair), NEEDS_DOMAIN if pair in reference.OF_THE_DOMAIN else NO_ALIAS
            for spelled in in_each_case(pair):
                lines.append((f"O:{spelled}", hex_of(owner_alone(sid)) if sid else fault))
                lines.append((f"G:{spelled}", hex_of(owner_alone(None)._replace(group=sid)) if sid else fault))
                lines.append((ace_text(sid=spelled), hex_of(dacl_of(Ace(0, 0, 0, None, None, sid))) if sid else fault))
        yield ["--from", "sddl", "--to", "hex", *domain_words(under)], lines


def domain_words(under):
    return ["--domain", under.text()] if under else []


def of_kinds(field, listed, fault, place):
    """Each text of two letters, by itself, after a listed one and before one, in this field of each kind of ACE."""
    for kind, kind_name in reference.KINDS.items():
        for pair, spelled in ((pair, spelled) for pair in PAIRS for spelled in in_each_case(pair)):
            yield ace_text(kind_name, **{field: spelled}), answer_of(kind, listed, (pair,), fault, place)
    for name, pair in itertools.product(listed, PAIRS):
        yield ace_text(**{field: name + pair}), answer_of(0, listed, (name, pair), fault, place)
        yield ace_text(**{field: pair + name}), answer_of(0, listed, (pair, name), fault, place)


def answer_of(kind, listed, names, fault, place):
    if not set(names) <= listed.keys():
        return fault
    bits = 0
    for name in names:
        bits |= listed[name]
    return hex_of(dacl_of(Ace(kind, 0, 0, None, None, EVERYONE)._replace(**{place: bits})))


def fields_read():
    words = ["--from", "sddl", "--to", "hex"]
    yield words, of_kinds("rights", reference.EVERY_RIGHT, NO_RIGHTS, "mask")
    yield words, of_kinds("flags", reference.ACE_FLAGS, NO_FLAGS, "flags")


def kinds_read():
    """Each text of one or two letters as a kind, in either ACL."""
    listed, lines = {name: kind for kind, name in reference.KINDS.items()}, []
    for pair in [*string.ascii_uppercase, *PAIRS]:
        for spelled in in_each_case(pair):
            if pair not in listed:
                wanted = [NO_KIND, NO_KIND]
            else:
                dacl = dacl_of(Ace(listed[pair], 0, 0, None, None, EVERYONE))
                sacl = Descriptor(reference.SELF_RELATIVE | reference.SACL_PRESENT, 0, None, None, dacl.dacl, None)
                wanted = [hex_of(dacl), hex_of(sacl)]
            text = ace_text(spelled)
            lines += zip((text, text.replace("D:", "S:", 1)), wanted)
    yield ["--from", "sddl", "--to", "hex"], lines


def parts_read():
    """Each text of one or two letters as the name of a part."""
    sacl = Descriptor(reference.SELF_RELATIVE | reference.SACL_PRESENT, 0, None, None, Acl(()), None)
    listed, lines = {"O": NO_SID, "G": NO_SID, "D": hex_of(dacl_of()), "S": hex_of(sacl)}, []
    for name in [*string.ascii_uppercase, *PAIRS]:
        lines += ((f"{spelled}:", listed.get(name, NO_SHAPE)) for spelled in in_each_case(name))
    yield ["--from", "sddl", "--to", "hex"], lines


def acl_flags_read():
    """Each text of one or two letters as the flags of an ACL, by itself, after a listed one and before one."""
    lines = []
    for letter, (present, listed) in reference.ACL_FLAGS.items():
        known = {**listed, "PP": listed["P"]}
        for name, text in itertools.product(["", *listed], [*string.ascii_uppercase, *PAIRS]):
            acls = (Acl(()), None) if letter == "S" else (None, Acl(()))
            control = reference.SELF_RELATIVE | present | listed.get(name, 0) | known.get(text, 0)
            wanted = hex_of(Descriptor(control, 0, None, None, *acls)) if text in known else NO_FLAGS
            for spelled in in_each_case(text):
                lines += ((f"{letter}:{flags}", wanted) for flags in (name + spelled, spelled + name))
    yield ["--from", "sddl", "--to", "hex"], lines


def fronts():
    """The authorities and first sub-authorities of all SIDs that have an alias, and of some that have none."""
    known = {(authority, tuple(subs[:-1])) for authority, *subs in reference.WELL_KNOWN.values()}
    return sorted(known | {tuple(domain) for domain in (*DOMAINS, *OTHER_DOMAINS)})


def sids_far_on():
    """Under each of these fronts, and under some beside them, all last sub-authorities far beyond the largest."""
    beside = [(authority, ()) for authority in (0, 2, 4, 15, 17, 19)]
    beside += [(5, (21,)), (5, (31,)), (5, (80,)), (15, (3,)), (5, (*DOMAIN.sub_authorities, 512))]
    return (Sid(authority, (*subs, last)) for authority, subs in (*fronts(), *beside) for last in FAR_SUB_AUTHORITIES)


def sids_beside_one_another():
    """Under each authority and each domain that has aliases, all last sub-authorities up to the largest and beyond."""
    known = [Sid(authority, tuple(subs)) for authority, *subs in reference.WELL_KNOWN.values()]
    for authority, subs in fronts():
        numbers = FAR_SUB_AUTHORITIES if (authority, subs) == (16, ()) else LAST_SUB_AUTHORITIES
        yield from (Sid(authority, (*subs, last)) for last in numbers)
    for authority, last in itertools.product(range(64), range(64)):
        for subs in ((last,), (last, last), (32, 544 + last), (2, last), (84, 0, 0, 0, 0, last)):
            yield Sid(authority, subs)
    for authority, subs in known:
        for others in (subs[:-1], (0, *subs), (*subs[:-1], subs[-1] | 1 << 31)):
            yield Sid(authority, others)
        yield from (Sid(authority, (*subs, *[0] * zeros)) for zeros in range(1, 16 - len(subs)))
        yield from (Sid(other, subs) for other in (authority ^ 1, authority | 1 << 32, authority | 1 << 47))
        yield from (Sid(authority, (*subs[:at], subs[at] + 1, *subs[at + 1:])) for at in range(len(subs)))


def aliases_printed():
    sids = sorted(set(sids_beside_one_another()))
    for under in (None, *DOMAINS):
        names = {sid: alias for alias, sid in with_sids(under).items()}
        printed = [(owner_alone(sid), f"O:{names.get(sid) or sid.text()}") for sid in sids]
        yield domain_words(under), [(hex_of(descriptor), text) for descriptor, text in printed]
        if under in (None, DOMAIN):
            lines = [(f"O:{sid.text()}", text) for sid, (_, text) in zip(sids, printed)]
            yield ["--from", "sddl", *domain_words(under)], lines
    yield ["--numeric", *domain_words(DOMAIN)], [(hex_of(owner_alone(sid)), f"O:{sid.text()}") for sid in sids]
    names = {sid: alias for alias, sid in with_sids(DOMAIN).items()}
    far = ((hex_of(owner_alone(sid)), f"O:{names.get(sid) or sid.text()}") for sid in sids_far_on())
    yield domain_words(DOMAIN), far


def some_masks():
    bits = [1 << bit for bit in range(32)]
    masks = {sum(some) for count in range(4) for some in itertools.combinations(bits, count)}
    named = [bit for bit in reference.RIGHTS.values() if bit < 1 << 20]
    masks |= {sum(some) for count in range(len(named) + 1) for some in itertools.combinations(named, count)}
    generic = [bit for bit in reference.RIGHTS.values() if bit >= 1 << 20]
    for some in itertools.chain.from_iterable(itertools.combinations(generic, count) for count in range(5)):
        masks |= {sum(some) | low for low in (0, 1, 0x1_0000, 0xf_01ff)}
    for mask in (*reference.COMPOUND_RIGHTS.values(), sum(reference.RIGHTS.values()), 0xffff_ffff):
        masks |= {mask} | {mask ^ bit for bit in bits} | {mask + step & 0xffff_ffff for step in range(-16, 17)}
    return sorted(masks)


def printed_rights(kind, mask):
    """From the tables alone: a compound name, or the names that make the mask, or the number."""
    is_label = reference.KINDS[kind] == "ML"
    singles = reference.LABEL_RIGHTS if is_label else reference.RIGHTS
    compound = [name for name, bits in reference.COMPOUND_RIGHTS.items() if bits == mask and not is_label]
    names = [name for name, bit in singles.items() if mask & bit]
    if compound:
        return compound[0]
    return "".join(names) if names and sum(map(singles.get, names)) == mask else f"0x{mask:x}"


def fields_printed():
    """Of each kind: each of the masks, and each byte of flags, also in SDDL that is read."""
    masks, lines = some_masks(), []
    for kind, name in reference.KINDS.items():
        for mask in masks if name in ("A", "ML") else masks[::7]:
            descriptor = dacl_of(Ace(kind, 0, mask, None, None, EVERYONE))
            lines.append((hex_of(descriptor), ace_text(name, rights=printed_rights(kind, mask))))
        for flags in range(256):
            names = "".join(name for name, bit in reference.ACE_FLAGS.items() if flags & bit)
            text = "error 13 ace-flags dacl" if flags & 0x20 else ace_text(name, names, "0x0")
            lines.append((hex_of(dacl_of(Ace(kind, flags, 0, None, None, EVERYONE))), text))
    yield [], lines
    texts = [text for _, text in lines if not text.startswith("error")]
    yield ["--from", "sddl"], [(text, text) for text in texts]
    yield ["--from", "sddl", "--to", "hex"], [(text, given) for given, text in lines if not text.startswith("error")]


def types_printed():
    """Each byte as the type of an ACE, which has room for object types."""
    sddl_lines, hex_lines = [], []
    for kind in range(256):
        name = reference.KINDS.get(kind)
        given = hex_of(dacl_of(Ace(kind, 0, 1, None, None, EVERYONE)))
        text = ace_text(name, rights=printed_rights(kind, 1)) if name else "error 12 ace-type dacl"
        sddl_lines.append((given, text))
        hex_lines.append((given, given if name else text))
    yield [], sddl_lines
    yield ["--to", "hex"], hex_lines


def words_explained():
    """Each control word with the bit that it has to have, beside null ACLs, and each resource manager byte."""
    lines = []
    for control in range(reference.SELF_RELATIVE, 1 << 16):
        codes = "".join(f" {code}" for code, bit in reference.CONTROL_CODES.items() if control & bit)
        manager = control % 256
        dacl, sacl = ("null" if control & bit else "absent" for bit in (reference.DACL_PRESENT, reference.SACL_PRESENT))
        lines.append((hex_of(Descriptor(control, manager, None, None, None, None)),
                      f"control 0x{control:04x}{codes}\nrm 0x{manager:02x}\nowner none\ngroup none\n"
                      f"dacl {dacl}\nsacl {sacl}\nend"))
    yield EXPLAIN, lines


def flags_explained():
    """Each byte of flags, in an ACE of each kind."""
    lines = []
    for kind, name in reference.KINDS.items():
        for flags in range(256):
            names = "".join(flag for flag, bit in reference.ACE_FLAGS.items() if flags & bit) or "none"
            text = "control 0x8004 DP SR\nrm 0x00\nowner none\ngroup none\ndacl list 1\n" \
                   f"dacl 1 {name} flags {names} mask 0x00000000 rights 0x0 sid S-1-1-0 WD\nsacl absent\nend"
            lines.append((hex_of(dacl_of(Ace(kind, flags, 0, None, None, EVERYONE))),
                          "error 13 ace-flags dacl" if flags & 0x20 else text))
    yield EXPLAIN, lines


def of_base64():
    """Each symbol in each of the four places that stand for three bytes, and each byte there."""
    printed, read = [], []
    for place, value in itertools.product(range(4), range(64)):
        first, second, third = (value << 18 - 6 * place).to_bytes(3, "big")
        # (the bytes 30, 31 and 32)
        given = reference.layout(owner_alone(Sid(5, (first << 16 | second << 24, third))))
        printed.append((given.hex(), reference.to_base64(given)))
        read.append((reference.to_base64(given), given.hex()))
        if value == 0:
            text = read[-1][0]
            read += ((text[:40 + place] + chr(byte) + text[41 + place:], "error 4 base64")
                     for byte in range(256) if chr(byte) not in SYMBOLS + "\n")
    yield ["--to", "base64"], printed
    yield ["--from", "base64", "--to", "hex"], read


def judge(count, program, words, lines):
    """One run of the program over all of the lines."""
    lines = list(lines)
    command = words if words == EXPLAIN else ["convert", *words]
    shown = " ".join(["sdtool", *command])
    with tempfile.TemporaryFile() as given:
        given.write("".join(f"{line}\n" for line, _ in lines).encode("latin-1"))
        given.seek(0)
        ended = subprocess.run([program, *command], stdin=given, capture_output=True, timeout=SECONDS)
    *answers, rest = ended.stdout.decode("latin-1").split("\n")
    # (an explanation has several lines)
    pieces = [(line, piece) for line, wanted in lines for piece in wanted.split("\n")]
    for (line, wanted), answer in itertools.zip_longest(pieces, answers, fillvalue=("", "no line")):
        count.add(answer == wanted, f"{shown}: {line}\n  gave {answer}\n  not  {wanted}")
    is_faulty = any(wanted.startswith("error") for _, wanted in lines)
    count.add(ended.returncode == is_faulty and not rest and not ended.stderr,
              f"{shown}: status {ended.returncode}, stderr {ended.stderr[:80]}")


def main(count: preload.Count, given: preload.Given) -> None:
    program = given.program
    tests = (aliases_read, fields_read, kinds_read, parts_read, acl_flags_read, aliases_printed, fields_printed,
             types_printed, words_explained, flags_explained, of_base64)
    for part in filter(preload.is_chosen, tests):
        before = count.passed
        for words, lines in part():
            judge(count, program, words, lines)
        print(f"{part.__name__.replace('_', ' ')}: {count.passed - before} lines")
