"""Keys of a server's registry."""
import re
from typing import Callable

from sdtool.audit.live.access import Access
from sdtool.audit.live.address import Address, hive_of
from sdtool.audit.live.walking import Entry, Walk

_ALL = ("HKU", "HKLM")  # the others are views of these; the last one comes first


class RegistrySource(Walk):
    """What is asked of a server's registry: of a key and those below it, or of all."""

    client_kind = "registry"
    no_name = re.compile(r"[\0\\]|\A\Z")  # a key may have a slash, or be called '..'

    def __init__(self, address: Address, access: Access, is_known: Callable[[str], bool]) -> None:
        super().__init__(address, access, is_known)
        hive, *path = address.parts or [""]
        for one in [hive_of(hive)] if hive else _ALL:
            self.add_top(one, path)

    def name_of(self, top: str, path: str) -> str:
        return f"{top}\\{path}" if path else top

    def kind_of(self, entry: Entry) -> str:
        return "key"
