"""What the words of the command line ask for."""
import argparse
import re
from typing import NamedTuple, Optional

from .access import MAXIMUM_ALLOWED, RESERVED, Ask, mapped
from .forms import PRINTED, READ
from .inheriting import Plan
from .parts import Descriptor, Fault, Sid
from .sddl_reading import MOST_OF_A_DOMAIN, from_sddl, guid_of_text, rights_of_text, sid_of_text
from .tables import MAPPINGS

FORMS = {"from": READ, "to": PRINTED}
TARGETS = ["file", "container"]  # what is made
EXPLANATION = "explanation"  # what the command explain prints, in place of a form
VERDICT = "verdict"  # and the command check
MOST_ENTRIES = 1024  # of a token
LEVELS = range(1 << 32)


class Usage(Exception):
    """The option whose value does not read, or why nothing can be asked."""

    def __str__(self):
        return f"sdtool: {self.args[0]}" if self.args[0].startswith("error ") else f"sdtool: usage: --{self.args[0]}"


class Settings(NamedTuple):
    """What the words ask for."""
    source: str = "hex"
    to: str = "sddl"
    domain: Optional[Sid] = None
    numeric: bool = False
    ask: Optional[Ask] = None
    plan: Optional[Plan] = None
    creator: Optional[Descriptor] = None


def value_of(given, name, read):
    """The value of an option, or None where it is left out."""
    if given[name] is None:
        return None
    try:
        return read(given[name].encode("latin-1"))
    except Fault:
        raise Usage(name) from None


def entries_of_text(text, domain):
    """The entries of a token, each a SID and whether it only denies."""
    pieces = text.split(b",")
    if len(pieces) > MOST_ENTRIES:
        raise Fault(25, "sid-form")
    return tuple((sid_of_text(piece[1:] if piece[:1] == b"!" else piece, domain), piece[:1] == b"!")
                 for piece in pieces)


def needed_guid(text):
    if not text:
        raise Fault(28, "guid")
    return guid_of_text(text, True)


def level_of_text(text):
    if not re.fullmatch(rb"[0-9]{1,10}", text) or int(text) not in LEVELS:
        raise Fault(24, "number")
    return int(text)


def mapping_of(given):
    """What generic rights mean on the type of object."""
    kind = "file" if given["type"] is None else given["type"]
    if kind not in MAPPINGS:
        raise Usage("type")
    return MAPPINGS[kind]


def plan_of(given, domain):
    """What the words after derive make."""
    mapping = mapping_of(given)
    if given["kind"] not in TARGETS:
        raise Usage("kind")
    owner, group = (value_of(given, name, lambda text: sid_of_text(text, domain)) for name in ("owner", "group"))
    return Plan(given["kind"] == "container", owner, group, mapping)


def ask_of(given, domain):
    """What the words after check ask."""
    mapping = mapping_of(given)
    token = value_of(given, "token", lambda text: entries_of_text(text, domain))
    want = value_of(given, "want", rights_of_text) or 0
    object_type = value_of(given, "object", needed_guid)
    principal_self = value_of(given, "self", lambda text: sid_of_text(text, domain))
    level = value_of(given, "level", level_of_text)
    if not want and not given["maximum"]:
        raise Usage("error 50 empty-request")
    if want & RESERVED:
        raise Usage("error 51 reserved-bits")
    return Ask(token, mapped(want, mapping) & ~MAXIMUM_ALLOWED,
               given["maximum"] or bool(want & MAXIMUM_ALLOWED), mapping, object_type, principal_self,
               given["security"], given["take_ownership"], level)


def settings_of(words):
    """What a command and the words after it ask for, which are options that each stand once and have a value where they
    need one. Values are looked at in this order: domain, from, to, type, kind, owner, group, token, want, object, self,
    level, creator."""
    command, *words = words
    parser = argparse.ArgumentParser(allow_abbrev=False, add_help=False)
    parser.add_argument("--from", default="hex")
    if command in (b"convert", b"derive"):
        parser.add_argument("--to", default="sddl")
    parser.add_argument("--domain")
    if command == b"derive":
        for option in ("kind", "owner", "group"):
            parser.add_argument(f"--{option}", required=True)
        for option in ("type", "creator"):
            parser.add_argument(f"--{option}")
    if command == b"check":
        for option in ("token", "want", "type", "object", "self", "level"):
            parser.add_argument(f"--{option}")
        for flag in ("maximum", "security", "take-ownership"):
            parser.add_argument(f"--{flag}", action="store_true")
    else:
        parser.add_argument("--numeric", action="store_true")
    given = vars(parser.parse_args([word.decode("latin-1") for word in words]))
    domain = None
    if given["domain"] is not None:
        try:
            domain = sid_of_text(given["domain"].encode("latin-1"))
        except Fault:
            raise Usage("domain") from None
        if len(domain.sub_authorities) > MOST_OF_A_DOMAIN:
            raise Usage("domain")
    for name, forms in FORMS.items():
        if name in given and given[name] not in forms:
            raise Usage(name)
    if command == b"check":
        return Settings(given["from"], VERDICT, domain, False, ask_of(given, domain))
    plan = creator = None
    if command == b"derive":
        plan = plan_of(given, domain)
        creator = value_of(given, "creator", lambda text: from_sddl(text, domain))
    return Settings(given["from"], given.get("to", EXPLANATION), domain, given["numeric"], None, plan, creator)
