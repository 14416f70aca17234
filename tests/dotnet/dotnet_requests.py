"""Tests the assembly of dotnet/ in Mono.

  time    a check takes at most 1.3 times what it takes in C, and an empty call
  values  equality, what nothing changes, and wrong arguments, by tests/dotnet/cs/Objects.cs
  places  hostile texts of SDDL: the places of their faults in chars
  peer    Mono's RawSecurityDescriptor, of bytes and of text, where it reads

Without Debian's packages it is skipped.
"""
import pathlib
import random
import re
import tempfile

import assembly
import c_edits
import c_library
import language_requests
import preload
import sddl_texts
from reference import binary
from reference.parts import LABEL_TYPE

PARTS = {None: 0, "owner": 1, "group": 2, "sacl": 3, "dacl": 4}
TEXTS, PEERS = 3_000, 3_000
MOST_AUTHORITY = 1 << 32  # Mono writes others in decimal digits
# SDDL that Mono refuses: no ACL, a null one, one without an ACE, the flags P and AR, and a SID without sub-authorities.
NOT_READ = re.compile(r"NO_ACCESS_CONTROL|[DS]:[A-Z]*(?=$|[OGDS]:)|[DS]:[A-Z]*(?:P|AR)|\bS-1-\d+(?![\d-])")


def requests_way(folder):
    """The program of Requests.cs."""
    assembly.laid_out(folder)
    program = assembly.command(folder, assembly.over_sources(folder, "Requests", "System.Core.dll"))
    return language_requests.Way([program], True)


def answers(count, way, lines):
    """What Requests.cs answers."""
    said, status = language_requests.ran([*way.words, 1], None, {}, "".join(f"{line}\n" for line in lines))
    found = said.split("\n")[:-1]
    count.add(status == 0 and len(found) == len(lines), f"Requests.cs: status {status}, {said[-2000:]}")
    return found


def judge_values(count, folder):
    ended = assembly.ran(assembly.over_assembly(folder, "Objects", "System.Core.dll"))
    if not count.add_counted(ended.stdout, ended.returncode):
        print(f"{ended.stdout}\n{ended.stderr[:2000]}")


def judge_places(count, way, chance):
    lines, right = [], []
    for text in sddl_texts.hostile(chance, TEXTS):
        expected = sddl_texts.expected(text, code_units=True)
        lines.append(f"place {text.encode('utf-16-le', 'surrogatepass').hex() or '-'} {c_library.DOMAIN.hex()}")
        right.append(expected and place_of(expected.place))
    for line, found, place in zip(lines, answers(count, way, lines), right):
        is_right = found == place if place else re.fullmatch(r"0100[0-9a-f]{36,}", found)
        count.add(is_right, f"{line[:600]}: {found}, not {place}")


def place_of(place):
    """A place of the reference as Requests.cs prints it."""
    if place is None:
        return "-"
    fields = package_fields()
    ace = "-" if place.ace is None else place.ace
    return f"{PARTS[place.part]},{ace},{fields.index(place.field)},{place.offset},{place.size}"


def package_fields():
    c_edits.package()
    from sdtool import _places
    return _places.FIELDS


def is_of_peer(descriptor):
    """Whether Mono reads it: it knows no label, and writes a SID in decimal digits."""
    aces = [ace for acl in (descriptor.sacl, descriptor.dacl) if acl for ace in acl.aces]
    sids = [sid for sid in (descriptor.owner, descriptor.group, *(ace.sid for ace in aces)) if sid]
    return not any(ace.type == LABEL_TYPE for ace in aces) and all(sid.authority < MOST_AUTHORITY for sid in sids)


def judge_peer(count, folder, way, chance):
    """Mono reads bytes as the assembly does, and what the assembly writes as SDDL."""
    descriptors = list(filter(is_of_peer, (c_edits.random_descriptor(chance) for _ in range(PEERS))))
    layouts = [binary.layout(one).hex() for one in descriptors]
    parts = answers(count, way, [f"parts {layout}" for layout in layouts])
    texts = answers(count, way, [f"to-sddl - 1 {layout}" for layout in layouts])
    read = answers(count, way, [f"sddl {text.encode().hex() or '-'} -" for text in texts])
    meant = answers(count, way, [f"parts {layout}" for layout in read])
    asked = [(f"bytes {layout}", right) for layout, right in zip(layouts, parts)]
    asked += [(f"text  {text}", right) for text, right in zip(texts, meant)
              if "(" in text and not NOT_READ.search(text)]
    ended = assembly.ran(assembly.compiled(folder, assembly.CS / "Peer.cs", flags=["-reference:System.Core.dll"]),
                         given="".join(f"{line}\n" for line, _ in asked))
    found = ended.stdout.splitlines()
    count.add(len(found) == len(asked) > PEERS // 4, f"Mono answers {len(found)} of {len(asked)}: {ended.stderr[:500]}")
    refused = [line for (line, _), one in zip(asked, found) if line.startswith("text") and one.endswith("Exception")]
    count.add(len(refused) < len(texts) // 10, f"Mono refuses {len(refused)} texts, such as {refused[:1]}")
    for (line, right), one in zip(asked, found):
        count.add(one == right or line in refused, f"{line[:600]}: Mono has {one[:600]}, not {right[:600]}")


def main(count: preload.Count) -> None:
    if not assembly.is_ready("dotnet_requests"):
        return
    with tempfile.TemporaryDirectory() as name:
        folder, chance = pathlib.Path(name), random.Random(2)
        way = requests_way(folder)
        if preload.is_chosen(language_requests.judge_time):
            language_requests.judge_time(count, way)
        if preload.is_chosen(judge_values):
            judge_values(count, folder)
        if preload.is_chosen(judge_places):
            judge_places(count, way, chance)
        if preload.is_chosen(judge_peer):
            judge_peer(count, folder, way, chance)
