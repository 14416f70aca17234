"""What the bits of a mask mean for each kind of object.

A kind is what the masks of an object mean: see windows/kinds.toml. The library maps generic rights for files, registry
keys and directory objects alone. For another kind they are replaced by the table's mapping, in the descriptor that the
library is asked about.
"""
from typing import Dict, Tuple

from sdtool._windows import KINDS
from sdtool.audit.sources.items import BY_PATH, UNTOLD

# Where no source tells the kind, rights are read as those of files, if they fit. See windows/kinds.py.
ROWS = {**KINDS, **dict.fromkeys((UNTOLD, BY_PATH), KINDS["file"])}
# The --type that the library is given for a kind, and the rights that its GENERIC_ALL includes there: they are asked
# for together, and others one by one.
_OF_LIBRARY = {row["library"]: (row["library"], row["mapping"][3]) for row in ROWS.values() if row["library"]}
MAPPINGS: Dict[str, Tuple[str, int]] = {kind: _OF_LIBRARY[row["library"] or "file"] for kind, row in ROWS.items()}
WITHOUT_MAPPING = frozenset(kind for kind, row in ROWS.items() if not row["library"])
GENERIC = 0xf0000000
SYSTEM_SECURITY = 0x1000000
# What GENERIC_READ, GENERIC_WRITE, GENERIC_EXECUTE and GENERIC_ALL are in a mask.
GENERIC_BITS = (0x80000000, 0x40000000, 0x20000000, 0x10000000)
GENERIC_MEANINGS: Dict[str, Tuple[Tuple[int, int], ...]] = {
    kind: tuple(zip(GENERIC_BITS, row["mapping"])) for kind, row in ROWS.items()}

# A right that means others too where a mask has none of them.
ALONE: Dict[str, Tuple[int, int]] = {kind: row["alone"] for kind, row in ROWS.items() if row["alone"]}

# The mappings of what inherits by a flag, where these are others.
BELOW: Dict[str, Tuple[Tuple[int, Tuple[int, ...]], ...]] = {
    kind: tuple(({"OI": 0x1, "CI": 0x2}[flag], mapping) for flag, mapping in row["below"])
    for kind, row in ROWS.items() if row["below"]}
