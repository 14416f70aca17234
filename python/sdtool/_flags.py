"""Numbers whose bits have names: those of MS-DTYP, and beside them the letters of SDDL."""
import enum
from typing import Tuple


class _Names(enum.IntFlag):
    """Bits with names. It is an int: any number of 32 bits can be one, also with bits that have no name."""

    def __repr__(self) -> str:
        return f"{type(self).__name__}({self.value:#x})"

    def __str__(self) -> str:
        return f"{self.value:#010x}"

    def __format__(self, spec: str) -> str:
        return format(int(self), spec) if spec else str(self)

    @property
    def names(self) -> Tuple[str, ...]:
        """The names of the bits that are set, in rising order; bits without a name have none here."""
        single = {member.value: name for name, member in reversed(list(type(self).__members__.items()))}
        return tuple([single[bit] for bit in (1 << place for place in range(32)) if self.value & bit and bit in single])


class AceFlags(_Names):
    """The flags of an ACE (MS-DTYP 2.4.4.1)."""

    OBJECT_INHERIT = OI = 0x01
    CONTAINER_INHERIT = CI = 0x02
    NO_PROPAGATE_INHERIT = NP = 0x04
    INHERIT_ONLY = IO = 0x08
    INHERITED = ID = 0x10
    SUCCESSFUL_ACCESS = SA = 0x40
    FAILED_ACCESS = FA = 0x80


class Control(_Names):
    """The control bits of a descriptor (MS-DTYP 2.4.6), with the codes of 'sdtool explain'."""

    OWNER_DEFAULTED = OD = 0x0001
    GROUP_DEFAULTED = GD = 0x0002
    DACL_PRESENT = DP = 0x0004
    DACL_DEFAULTED = DD = 0x0008
    SACL_PRESENT = SP = 0x0010
    SACL_DEFAULTED = SD = 0x0020
    DACL_TRUSTED = DT = 0x0040
    SERVER_SECURITY = SS = 0x0080
    DACL_AUTO_INHERIT_REQUIRED = DC = 0x0100
    SACL_AUTO_INHERIT_REQUIRED = SC = 0x0200
    DACL_AUTO_INHERITED = DI = 0x0400
    SACL_AUTO_INHERITED = SI = 0x0800
    DACL_PROTECTED = PD = 0x1000
    SACL_PROTECTED = PS = 0x2000
    RM_CONTROL_VALID = RM = 0x4000
    SELF_RELATIVE = SR = 0x8000


class FileMask(_Names):
    """The access mask of a file or folder."""

    READ_DATA = LIST_DIRECTORY = 0x1
    WRITE_DATA = ADD_FILE = 0x2
    APPEND_DATA = ADD_SUBDIRECTORY = 0x4
    READ_EA = 0x8
    WRITE_EA = 0x10
    EXECUTE = TRAVERSE = 0x20
    DELETE_CHILD = 0x40
    READ_ATTRIBUTES = 0x80
    WRITE_ATTRIBUTES = 0x100
    DELETE = 0x10000
    READ_CONTROL = 0x20000
    WRITE_DAC = 0x40000
    WRITE_OWNER = 0x80000
    SYNCHRONIZE = 0x100000
    ACCESS_SYSTEM_SECURITY = 0x1000000
    MAXIMUM_ALLOWED = 0x2000000
    GENERIC_ALL = 0x10000000
    GENERIC_EXECUTE = 0x20000000
    GENERIC_WRITE = 0x40000000
    GENERIC_READ = 0x80000000
    FILE_GENERIC_READ = FR = 0x120089
    FILE_GENERIC_WRITE = FW = 0x120116
    FILE_GENERIC_EXECUTE = FX = 0x1200a0
    FILE_ALL_ACCESS = FA = 0x1f01ff


class KeyMask(_Names):
    """The access mask of a registry key."""

    QUERY_VALUE = 0x1
    SET_VALUE = 0x2
    CREATE_SUB_KEY = 0x4
    ENUMERATE_SUB_KEYS = 0x8
    NOTIFY = 0x10
    CREATE_LINK = 0x20
    DELETE = 0x10000
    READ_CONTROL = 0x20000
    WRITE_DAC = 0x40000
    WRITE_OWNER = 0x80000
    SYNCHRONIZE = 0x100000
    ACCESS_SYSTEM_SECURITY = 0x1000000
    MAXIMUM_ALLOWED = 0x2000000
    GENERIC_ALL = 0x10000000
    GENERIC_EXECUTE = 0x20000000
    GENERIC_WRITE = 0x40000000
    GENERIC_READ = 0x80000000
    KEY_READ = KR = 0x20019
    KEY_WRITE = KW = 0x20006
    KEY_EXECUTE = KX = 0x20019
    KEY_ALL_ACCESS = KA = 0xf003f


class DirectoryMask(_Names):
    """The access mask of an object in a directory (MS-ADTS 5.1.3.2)."""

    CREATE_CHILD = CC = 0x1
    DELETE_CHILD = DC = 0x2
    LIST_CONTENTS = LC = 0x4
    SELF = SW = 0x8
    READ_PROPERTY = RP = 0x10
    WRITE_PROPERTY = WP = 0x20
    DELETE_TREE = DT = 0x40
    LIST_OBJECT = LO = 0x80
    CONTROL_ACCESS = CR = 0x100
    DELETE = SD = 0x10000
    READ_CONTROL = RC = 0x20000
    WRITE_DAC = WD = 0x40000
    WRITE_OWNER = WO = 0x80000
    SYNCHRONIZE = 0x100000
    ACCESS_SYSTEM_SECURITY = 0x1000000
    MAXIMUM_ALLOWED = 0x2000000
    GENERIC_ALL = GA = 0x10000000
    GENERIC_EXECUTE = GX = 0x20000000
    GENERIC_WRITE = GW = 0x40000000
    GENERIC_READ = GR = 0x80000000


class AceKind(enum.IntEnum):
    """The types of ACEs that descriptors may have (MS-DTYP 2.4.4.1)."""

    ACCESS_ALLOWED = A = 0x00
    ACCESS_DENIED = D = 0x01
    SYSTEM_AUDIT = AU = 0x02
    ACCESS_ALLOWED_OBJECT = OA = 0x05
    ACCESS_DENIED_OBJECT = OD = 0x06
    SYSTEM_AUDIT_OBJECT = OU = 0x07
    MANDATORY_LABEL = ML = 0x11

    def __repr__(self) -> str:
        return f"AceKind.{self.name}"

    def __str__(self) -> str:
        """The letters of SDDL."""
        return _LETTERS[self.value]


_LETTERS = {member.value: name for name, member in AceKind.__members__.items() if len(name) == 2 or name in ("A", "D")}
