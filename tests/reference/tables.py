"""The names of SIDs (MS-DTYP 2.4.2.4), of types, flags and rights (2.5.1, 2.4.3) and of the bits of the control word
(2.4.6), and what generic rights mean.
"""
import pathlib
import re

from .binary import DACL_PRESENT, SACL_PRESENT

# The aliases are those of the tables that users read, so each is tested too.
FORMAT = pathlib.Path(__file__).resolve().parents[2] / "docs/FORMAT.md"
ALIASES = FORMAT.read_text(encoding="utf-8").split("\n### Aliases\n")[1].split("\n#")[0]
# Each alias, with the authority and the sub-authorities of its SID.
WELL_KNOWN = {alias: tuple(map(int, numbers.split("-")))
              for alias, numbers in re.findall(r"^(\w\w) +S-1-([0-9-]+) ", ALIASES, re.MULTILINE)}
# Each alias of an account or group of the domain, with what follows the domain's own sub-authorities.
OF_THE_DOMAIN = {alias: int(number)
                 for alias, number in re.findall(r"^(\w\w) +([0-9]+) ", ALIASES, re.MULTILINE)}
KINDS = {0x00: "A", 0x01: "D", 0x02: "AU", 0x05: "OA", 0x06: "OD", 0x07: "OU", 0x11: "ML"}
ACE_FLAGS = {"OI": 0x01, "CI": 0x02, "NP": 0x04, "IO": 0x08, "ID": 0x10, "SA": 0x40, "FA": 0x80}
RIGHTS = {
    "CC": 0x1, "DC": 0x2, "LC": 0x4, "SW": 0x8, "RP": 0x10, "WP": 0x20, "DT": 0x40, "LO": 0x80, "CR": 0x100,
    "SD": 0x1_0000, "RC": 0x2_0000, "WD": 0x4_0000, "WO": 0x8_0000,
    "GA": 0x1000_0000, "GX": 0x2000_0000, "GW": 0x4000_0000, "GR": 0x8000_0000,
}
COMPOUND_RIGHTS = {
    "FA": 0x1f_01ff, "FR": 0x12_0089, "FW": 0x12_0116, "FX": 0x12_00a0, "KA": 0xf_003f, "KR": 0x2_0019, "KW": 0x2_0006,
}
LABEL_RIGHTS = {"NW": 1, "NR": 2, "NX": 4}
# All that is read; the last one is never printed, since KR has the same bits.
EVERY_RIGHT = {**RIGHTS, **COMPOUND_RIGHTS, **LABEL_RIGHTS, "KX": 0x2_0019}
# In the control word: the present bit of each ACL, and the flags that SDDL has for it.
ACL_FLAGS = {
    "D": (DACL_PRESENT, {"P": 0x1000, "AR": 0x0100, "AI": 0x0400}),
    "S": (SACL_PRESENT, {"P": 0x2000, "AR": 0x0200, "AI": 0x0800}),
}
# The bits of the control word that have a code, in rising order.
CONTROL_CODES = {
    "OD": 0x0001, "GD": 0x0002, "DP": 0x0004, "DD": 0x0008, "SP": 0x0010, "SD": 0x0020, "DC": 0x0100, "SC": 0x0200,
    "DI": 0x0400, "SI": 0x0800, "PD": 0x1000, "PS": 0x2000, "RM": 0x4000, "SR": 0x8000,
}
# What GENERIC_ALL, GENERIC_EXECUTE, GENERIC_WRITE and GENERIC_READ mean, the bits 28 to 31, on each type of object.
MAPPINGS = {
    "file": (0x1f_01ff, 0x12_00a0, 0x12_0116, 0x12_0089),
    "key": (0xf_003f, 0x2_0019, 0x2_0006, 0x2_0019),
    "ds": (0xf_01ff, 0x2_0004, 0x2_0028, 0x2_0094),
}
