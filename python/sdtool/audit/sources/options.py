"""What the words of the command line say about sources and descriptors."""
from typing import NamedTuple, Optional, Tuple

DEFAULT_ATTRIBUTES = ("security.NTACL", "system.ntfs_acl")


class SourceOptions(NamedTuple):
    """How sources are read. What is None is found by the content of the source."""

    format: Optional[str] = None
    encoding: Optional[str] = None
    delimiter: Optional[str] = None
    quotes: bool = True
    has_header: Optional[bool] = None
    name_column: Optional[str] = None
    descriptor_column: Optional[str] = None
    names: Optional[str] = None
    kind: Optional[str] = None
    attributes: Tuple[str, ...] = DEFAULT_ATTRIBUTES
