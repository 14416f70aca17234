"""Files and folders of a server's shares, with the descriptors of the shares themselves."""
from typing import Callable, Iterator

from sdtool.audit.live.access import Access
from sdtool.audit.live.address import Address
from sdtool.audit.live.talking import Client, Refused, bytes_of, value_of
from sdtool.audit.live.walking import NO_BYTES, Entry, Walk, no_name_of
from sdtool.audit.sources.items import Item, bytes_item
from sdtool.audit.sources.places import Through

_DISK = 0  # the type of a share with files


class SmbSource(Walk):
    """What is asked of a server of files: of one share, or of all."""

    client_kind = "smb"

    def __init__(self, address: Address, access: Access, is_known: Callable[[str], bool]) -> None:
        super().__init__(address, access, is_known)
        self._through = Through()
        if address.parts:
            self._add_share(address.parts[0], _DISK)
        else:
            self.add_work(self._list_shares, lambda reason, advice: self.unread(
                f"\\\\{address.server}\\*", f"the shares can't be listed: {reason}", advice))

    def name_of(self, top: str, path: str) -> str:
        """The name as Windows has it. What ends it tells the root of a share from the share."""
        return f"\\\\{self.address.server}\\{top}\\{path}"

    def kind_of(self, entry: Entry) -> str:
        return "folder" if entry.is_folder else "file"

    def place(self) -> str:
        return self._through.text()

    def _list_shares(self, client: Client) -> Iterator[Item]:
        try:
            found = [(value_of(str, name), value_of(int, kind)) for name, kind in client.ask("shares")]
        except Refused as error:
            yield self.end_work().instead(error.reason, "ask as an administrator, or name a share")
            return
        self.end_work()
        for name, kind in reversed(found):
            if self.no_name.search(name):
                yield self.unread(f"\\\\{self.address.server}\\{name}", *no_name_of(name), "share")
            else:
                self._add_share(name, kind)

    def _add_share(self, share: str, kind: int) -> None:
        """The share itself, and then what is in it."""
        if kind == _DISK:
            self.add_top(share, self.address.parts[1:])
        name = f"\\\\{self.address.server}\\{share}"
        self.add_work(lambda client: self._begin_share(client, name, share),
                      lambda reason, advice: self._unread_share(name, reason, advice))

    def _unread_share(self, name: str, reason: str, advice: str) -> Item:
        item = self.unread(name, f"the share's own permissions can't be read: {reason}", advice, "share")
        self._through = Through(name, item.form, item.text)
        return item

    def _begin_share(self, client: Client, name: str, share: str) -> Iterator[Item]:
        reason, data, is_samba = "", b"", False
        try:
            told = value_of(list, client.ask_one("share_descriptor", share))
            data, is_samba = bytes_of(told[0] if told else None), told[1:] == [True]
            reason = "" if data else NO_BYTES
        except Refused as error:
            reason = error.reason
        work = self.end_work()
        if reason:
            item = work.instead(reason, "ask as an administrator of the server")
        else:
            item = bytes_item(name, self.address.text, 0, data, "share")
            self._through = Through(name, item.form, item.text, "1" * is_samba)
        if not self._is_known(name):
            yield item
