"""The words that calls take, and the numbers that include/sdtool.h gives them."""
from typing import Dict, Literal, Tuple

Mapping = Literal["file", "key", "ds"]
Kind = Literal["file", "container"]
AclName = Literal["sacl", "dacl"]
State = Literal["absent", "null", "list"]
Privilege = Literal["security", "take-ownership"]
ReasonKind = Literal["nothing", "label", "no-dacl", "owner", "privilege", "granted", "denied"]

MAPPINGS: Dict[str, int] = {"file": 0, "key": 1, "ds": 2}
KINDS: Dict[str, int] = {"file": 0, "container": 1}
ACLS: Dict[str, int] = {"sacl": 3, "dacl": 4}
STATES: Dict[str, int] = {"absent": 0, "null": 1, "list": 2}
PLACES: Dict[str, int] = {"end": 0xFFFFFFFF, "order": 0xFFFFFFFE}
PRIVILEGES: Dict[str, int] = {"security": 0, "take-ownership": 1}
REASONS: Tuple[ReasonKind, ...] = ("nothing", "label", "no-dacl", "owner", "privilege", "granted", "denied")
