"""Windows security descriptors (MS-DTYP 2.4.6) and SDDL (MS-DTYP 2.5.1), by the library libsdtool.

The library is the file that the environment variable SDTOOL_LIBRARY names. Without that it is libsdtool.so.0, beside
this module or where the system finds libraries. Threads may share all objects.

>>> descriptor = SecurityDescriptor.from_sddl("O:BAD:(A;;FR;;;BU)")
>>> descriptor.owner, descriptor.dacl[0].sid.alias()
(Sid('S-1-5-32-544'), 'BU')
>>> descriptor.check(Token(["WD", "AU", "BU"]), FileMask.WRITE_DATA)
Verdict(granted=False, mask=2)

The functions from_sddl, to_sddl, normalize, explain, check and derive do the same over bytes. Others, such as
ace_from_text and rights_to_text, read and print parts of SDDL.
"""
from ._calls import (ace_from_text, ace_to_text, check, derive, explain, fault_text, flags_from_text, flags_to_text,
                     from_sddl, guid_from_text, guid_to_text, normalize, rights_from_text, rights_to_text, to_sddl,
                     version)
from ._changes import Change, Edited, Order
from ._errors import ArgumentFault, Error, Fault, Unchangeable, WrongType
from ._flags import AceFlags, AceKind, Control, DirectoryMask, FileMask, KeyMask
from ._plain import PlainAce, PlainDescriptor, plain_descriptors
from ._places import Place
from ._runs import Answers, lines, run
from ._values import Ace, Acl, Checker, NoAces, Origin, Origins, Reason, SecurityDescriptor, Sid, Token, Verdict

__all__ = ["Ace", "AceFlags", "AceKind", "Acl", "Answers", "ArgumentFault", "Change", "Checker", "Control",
           "DirectoryMask", "Edited", "Error", "Fault", "FileMask", "KeyMask", "NoAces", "Order", "Origin", "Origins",
           "Place", "PlainAce", "PlainDescriptor", "Reason", "SecurityDescriptor", "Sid", "Token", "Unchangeable",
           "Verdict", "WrongType", "ace_from_text", "ace_to_text", "check", "derive", "explain", "fault_text",
           "flags_from_text", "flags_to_text", "from_sddl", "guid_from_text", "guid_to_text", "lines", "normalize",
           "plain_descriptors", "rights_from_text", "rights_to_text", "run", "to_sddl", "version"]

for _name in __all__:
    globals()[_name].__module__ = __name__  # where users import them from
del _name
