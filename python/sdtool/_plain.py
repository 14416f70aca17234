"""Many descriptors in plain values, for programs that read so many of them that objects would take too long."""
import itertools
from typing import Any, Dict, Iterable, Iterator, Literal, NamedTuple, Optional, Tuple, Union

from . import _arguments, _library
from ._arguments import sid_or_none
from ._errors import ArgumentFault, Fault
from ._flags import AceKind
from ._values import DescriptorLike, SidLike

_KINDS = {kind.value: str(kind) for kind in AceKind}
_Kept = Tuple[Dict[bytes, Any], ...]


class PlainAce(NamedTuple):
    """An ACE as Ace has it, in texts and numbers alone (MS-DTYP 2.4.4).

    kind is a name of AceKind, such as "A" or "OA". flags and mask are ints. sid is S-1- and numbers, where SDDL has an
    alias too. The GUIDs are in lower case, without braces.
    """

    kind: str
    flags: int
    mask: int
    sid: str
    object_type: Optional[str]
    inherited_object_type: Optional[str]


PlainAcl = Union[Tuple[PlainAce, ...], Literal["null", "absent"]]


class PlainDescriptor(NamedTuple):
    """A descriptor as SecurityDescriptor has it, in texts, numbers and tuples alone (MS-DTYP 2.4.6).

    dacl and sacl are a tuple of ACEs, or "null" or "absent". A DACL that is null or absent grants everything, and an
    empty tuple nothing.
    """

    owner: Optional[str]
    group: Optional[str]
    dacl: PlainAcl
    sacl: PlainAcl
    control: int
    resource_manager: int


def plain_descriptors(descriptors: Iterable[Union[DescriptorLike, str]], *, domain: Optional[SidLike] = None,
                      ahead: int = 1024) -> Iterator[Union[PlainDescriptor, Fault]]:
    """What is in each descriptor, in order, and for one that has no answer its Fault.

    A descriptor is a SecurityDescriptor or bytes, as elsewhere, or a str with SDDL, as from_sddl reads it with domain.
    ACEs, ACLs and texts that come again are the same objects again, as long as there are not too many. At most ahead
    descriptors are taken before their answers come.

    >>> for found in plain_descriptors(["O:BAD:(A;OICI;FR;;;BU)", b"short", "D:NO_ACCESS_CONTROL"]):
    ...     print(found if isinstance(found, Fault) else found.dacl)
    (PlainAce(kind='A', flags=3, mask=1179785, sid='S-1-5-32-545', object_type=None, inherited_object_type=None),)
    error 5 short: fewer than 20 bytes, at byte 5
    null

    The empty text of SDDL is a descriptor without parts, as for from_sddl, and one without a DACL grants everything.
    """
    of = sid_or_none("domain", domain)
    most = _arguments.number("ahead", ahead)
    if most < 1:
        raise ArgumentFault("at least one descriptor has to be taken", "ahead")
    return _answers(_arguments.iterator("descriptors", descriptors, "descriptors and texts"), of, most)


def _answers(given: Iterator[Any], domain: Optional[bytes], most: int) -> Iterator[Union[PlainDescriptor, Fault]]:
    kept: _Kept = ({}, {}, {}, {})
    while True:
        found = _library.plain(itertools.islice(given, most), domain, kept)
        yield from found
        if len(found) < most:
            return


_library.adopt_plain(PlainDescriptor, PlainAce, tuple([*map(_KINDS.get, range(256))]), "absent", "null")
