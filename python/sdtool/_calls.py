"""The calls over bytes."""
from typing import Callable, Iterable, Optional, TypeVar

from . import _arguments, _library
from ._arguments import BytesLike, GuidLike, sid_or_none
from ._errors import Fault
from ._places import HEAD_OF_ACE, FieldName, InField, InText
from ._values import DescriptorLike, SidLike, Verdict, derived, read_token
from ._words import MAPPINGS, Kind, Mapping


def version() -> str:
    """The version of the library.

    >>> version()
    '0.1.0'
    """
    return _library.version()


def to_sddl(descriptor: DescriptorLike, *, domain: Optional[SidLike] = None, numeric: bool = False) -> str:
    """A descriptor as SDDL.

    domain is a SID in binary whose aliases, such as DA, are printed. With numeric no aliases are printed.

    >>> to_sddl(bytes.fromhex("01000480000000000000000000000000140000000200080000000000"))
    'D:'
    >>> to_sddl(from_sddl("O:BA"), numeric=True)
    'O:S-1-5-32-544'
    >>> to_sddl(b"")
    Traceback (most recent call last):
        ...
    sdtool.Fault: error 5 short: fewer than 20 bytes, at byte 0
    """
    return _library.to_sddl(descriptor, domain, _arguments.flag("numeric", numeric))


def from_sddl(text: str, *, domain: Optional[SidLike] = None) -> bytes:
    r"""The descriptor that SDDL describes, in its canonical layout.

    domain is a SID in binary whose aliases are read.

    A line that keeps its newline is refused, as error 20 where it ends with an ACE. Strip it: `line.rstrip("\n")`.

    The empty text, or one of blanks, is a descriptor without parts. So is an empty line of the program. A descriptor
    without a DACL grants everything to everyone, as Windows does, and so does this one. Where a text was lost, that is
    wrong: a caller that has no use for objects without permissions asks whether there is a DACL.

    >>> print(explain(from_sddl("")), end="")
    control 0x8000 SR
    rm 0x00
    owner none
    group none
    dacl absent
    sacl absent
    end
    >>> "\ndacl absent\n" in explain(from_sddl("O:BA"))
    True

    >>> from_sddl("D:P").hex()
    '01000490000000000000000000000000140000000200080000000000'
    >>> from_sddl("D:(A;;FA;;;WD)\n")
    Traceback (most recent call last):
        ...
    sdtool.Fault: error 20 shape: parentheses, colons or the number of fields are wrong, at byte 14, the DACL
    """
    return _library.from_sddl(text, domain)


def normalize(descriptor: DescriptorLike) -> bytes:
    """The canonical layout of a descriptor: equal exactly for descriptors of the same content.

    >>> normalize(from_sddl("D:P")) == from_sddl("D:P")
    True
    """
    return _library.normalize(descriptor)


def explain(descriptor: DescriptorLike, *, domain: Optional[SidLike] = None, numeric: bool = False) -> str:
    """A descriptor as lines of text, as 'sdtool explain' prints it.

    >>> print(explain(from_sddl("O:BAD:(A;;FR;;;BU)")), end="")
    control 0x8004 DP SR
    rm 0x00
    owner S-1-5-32-544 BA
    group none
    dacl list 1
    dacl 1 A flags none mask 0x00120089 rights FR sid S-1-5-32-545 BU
    sacl absent
    end
    """
    return _library.explain(descriptor, domain, _arguments.flag("numeric", numeric))


def check(descriptor: DescriptorLike, sids: Iterable[SidLike], *, deny_only: Iterable[SidLike] = (), wanted: int = 0,
          maximum: bool = False, mapping: Mapping = "file", level: Optional[int] = None,
          object_type: Optional[GuidLike] = None, principal_self: Optional[SidLike] = None, security: bool = False,
          take_ownership: bool = False) -> Verdict:
    """Whether a descriptor grants what is asked for, as 'sdtool check' says it.

    The token is sids and deny_only, SIDs in binary; those of deny_only count only for ACEs that deny. wanted is an
    access mask, and with maximum all that is granted is asked for as well. mapping is "file", "key" or "ds". level is
    an integrity level, such as 8192. object_type is a uuid.UUID, or its 16 bytes in binary, as its bytes_le.
    principal_self is the SID that PRINCIPAL SELF stands for. security and take_ownership are the two privileges.

    >>> users = bytes.fromhex("01020000000000052000000021020000")
    >>> descriptor = from_sddl("O:BAD:(A;;FR;;;BU)")
    >>> verdict = check(descriptor, [users], wanted=0x120089)
    >>> verdict.granted, hex(verdict.mask)
    (True, '0x120089')
    >>> if not check(descriptor, [users], wanted=0x2):
    ...     print("no")
    no
    >>> hex(check(from_sddl("D:(A;;FA;;;BU)"), [users], maximum=True, level=4096).mask)
    '0x1200a9'

    A descriptor without a DACL grants everything, so the empty text does: see from_sddl.

    >>> bool(check(from_sddl(""), [users], wanted=0x1f01ff))
    True
    """
    data = _arguments.layout("descriptor", descriptor)
    token = read_token(_arguments.sids("sids", sids), _arguments.sids("deny_only", deny_only))
    question = _library.question(
        token, _arguments.guid("object_type", object_type), _arguments.sid_or_none("principal_self", principal_self),
        _arguments.number("wanted", wanted), _arguments.word("mapping", mapping, MAPPINGS),
        0 if level is None else _arguments.number("level", level), level is not None,
        _arguments.flag("maximum", maximum),
        _arguments.flag("security", security), _arguments.flag("take_ownership", take_ownership))
    return _library.check(question, data)


def derive(parent: DescriptorLike, owner: SidLike, group: SidLike, *, kind: Kind = "file",
           creator: Optional[DescriptorLike] = None, mapping: Mapping = "file") -> bytes:
    """The descriptor of a new object in a folder that has the descriptor parent, in its canonical layout.

    owner and group are SIDs in binary, and kind is "file" or "container". creator is the descriptor that the creator
    brings, if any. mapping is "file", "key" or "ds".

    >>> system = bytes.fromhex("010100000000000512000000")
    >>> to_sddl(derive(from_sddl("D:(A;OICI;FA;;;SY)"), system, system))
    'O:SYG:SYD:AI(A;ID;FA;;;SY)'
    """
    return derived(_arguments.layout("parent", parent), owner, group, kind, creator, mapping)


def fault_text(number: int) -> str:
    """The name of a fault, by its number.

    >>> fault_text(25)
    'sid-form'
    """
    return _library.fault_text(_arguments.number("number", number))


def ace_from_text(text: str, *, domain: Optional[SidLike] = None) -> bytes:
    """The bytes of an ACE from its text in SDDL. A text that is not one ACE alone is error 20.

    >>> ace_from_text("(A;;FR;;;WD)").hex()
    '0000140089001200010100000000000100000000'
    >>> ace_from_text("(A;;FR;;;Everyone)")
    Traceback (most recent call last):
        ...
    sdtool.Fault: error 25 sid-form: any other text that is not a SID, at byte 9, SID
    """
    spelled, of = _arguments.characters("text", text), sid_or_none("domain", domain)
    try:
        return _library.ace_from_text(spelled, of)
    except Fault as fault:
        if spelled.startswith("("):
            fault._where = InText(_arguments.text("text", HEAD_OF_ACE + spelled), of, _library.sddl_place, True)
        raise


def ace_to_text(ace: BytesLike, *, domain: Optional[SidLike] = None, numeric: bool = False) -> str:
    """The text in SDDL of the bytes of an ACE.

    >>> ace_to_text(ace_from_text("(A;;0x120089;;;BU)"))
    '(A;;FR;;;BU)'
    """
    data = _arguments.data("ace", ace)
    return _library.ace_to_text(data, sid_or_none("domain", domain), _arguments.flag("numeric", numeric))


_Read = TypeVar("_Read")


def _field(field: Optional[FieldName], call: Callable[[str], _Read], text: str) -> _Read:
    """What the text of a field means, all of which is the place of its fault."""
    spelled = _arguments.characters("text", text)
    try:
        return call(spelled)
    except Fault as fault:
        fault._where = InField(spelled, field)
        raise


def rights_from_text(text: str) -> int:
    """The access mask that the rights of an ACE mean in SDDL.

    >>> hex(rights_from_text("FRWD")), rights_from_text(""), rights_from_text("010")
    ('0x160089', 0, 8)
    """
    return _field("rights", _library.rights_from_text, text)


def rights_to_text(mask: int, *, label: bool = False) -> str:
    """The rights of an ACE in SDDL: of a mandatory label, or of any other kind.

    >>> rights_to_text(0x120089), rights_to_text(1, label=True), rights_to_text(0)
    ('FR', 'NW', '0x0')
    """
    return _library.rights_to_text(_arguments.number("mask", mask), _arguments.flag("label", label))


def flags_from_text(text: str) -> int:
    """The flags of an ACE that a text means in SDDL.

    >>> flags_from_text("OICI")
    3
    """
    return _field("flags", _library.flags_from_text, text)


def flags_to_text(flags: int) -> str:
    """The flags of an ACE in SDDL.

    >>> flags_to_text(0x13)
    'OICIID'
    """
    return _library.flags_to_text(_arguments.number("flags", flags))


def guid_from_text(text: str) -> bytes:
    """The 16 bytes of a GUID, as they stand in an ACE.

    >>> guid_from_text("bf967aba-0de6-11d0-a285-00aa003049e2").hex()
    'ba7a96bfe60dd011a28500aa003049e2'
    """
    return _field(None, _library.guid_from_text, text)


def guid_to_text(guid: BytesLike) -> str:
    """The text of the 16 bytes of a GUID.

    >>> guid_to_text(bytes.fromhex("ba7a96bfe60dd011a28500aa003049e2"))
    'bf967aba-0de6-11d0-a285-00aa003049e2'
    """
    return _library.guid_to_text(_arguments.data("guid", guid))
