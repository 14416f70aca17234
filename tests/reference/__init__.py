"""What the program has to answer, written a second time and independently of it, a file for each subject.

The bytes follow MS-DTYP: 2.4.2.2 (SID), 2.4.4 (ACE), 2.4.5 (ACL), 2.4.6 (self-relative SECURITY_DESCRIPTOR). The texts
follow 2.4.2.1 (SID), 2.4.2.4 (well-known SIDs), 2.3.4.3 (GUID) and 2.5.1 (SDDL), and RFC 4648 (base64). Nothing here is
fast, and nothing is shared with the program. What the tests take stands here; a file takes only from those that are
named before it:

  parts.py          SIDs, ACEs and ACLs, and their bytes
  binary.py         the bytes of a descriptor, read and laid out
  spelling.py       bytes spelled as text
  tables.py         names of SIDs, types, flags and rights; what generic rights mean
  sddl_reading.py   SDDL that is read
  sddl_printing.py  SDDL that is printed
  forms.py          the forms of a line and those of an answer
  explaining.py     explanations
  access.py         what a descriptor grants
  inheriting.py     the descriptor of a new object
  command_line.py   what words ask for
  run.py            the lines of an input, and their answers
  places.py         where the fault of bytes or of SDDL is
  editing.py        what changes make of a descriptor
"""
from .access import RESERVED
from .binary import DACL_PRESENT, HEADER, SACL_PRESENT, SELF_RELATIVE, layout, read
from .command_line import Settings, Usage, settings_of
from .forms import LINE_LIMITS
from .parts import ACE_HEADER, ACL_HEADER, OBJECT_TYPES, Ace, Acl, Descriptor, Sid
from .run import all_shown, answers, lines
from .sddl_printing import aliases_under, guid_sddl, sddl
from .sddl_reading import rights_of_text, sid_of_text
from .spelling import HEX_DIGITS, to_base64
from .tables import (ACE_FLAGS, ACL_FLAGS, COMPOUND_RIGHTS, CONTROL_CODES, EVERY_RIGHT, KINDS, LABEL_RIGHTS, MAPPINGS,
                     OF_THE_DOMAIN, RIGHTS, WELL_KNOWN)
