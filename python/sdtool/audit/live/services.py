"""A server's services, and what manages them."""
import re
from typing import Any, Callable, List

from sdtool.audit.live.access import Access
from sdtool.audit.live.address import Address
from sdtool.audit.live.talking import value_of
from sdtool.audit.live.walking import Entry, Walk

_MANAGER = "scmanager"  # as sc calls it


class ServicesSource(Walk):
    """What is asked of the service manager: itself, and each service with what it runs as whom."""

    client_kind = "services"
    no_name = re.compile(r"[\0/\\]|\A\Z")

    def __init__(self, address: Address, access: Access, is_known: Callable[[str], bool]) -> None:
        super().__init__(address, access, is_known)
        self._runs = {"": _MANAGER}
        self.add_top("", [])

    def name_of(self, top: str, path: str) -> str:
        return self._runs.get(path, path)

    def kind_of(self, entry: Entry) -> str:
        return "service" if entry.path else "service-manager"

    def note(self, name: str, more: List[Any]) -> None:
        """Takes what a service runs, and as whom, or why that isn't known."""
        self._runs[name] = f"{name} ({', '.join(value_of(str, one) for one in more)})"
