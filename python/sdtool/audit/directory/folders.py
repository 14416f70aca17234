"""The folders of files, as the sources have them: who may delete what is in one may delete a file of it."""
import re
from typing import Iterable, Iterator

from sdtool.audit.directory.trees import folder_of, key_of
from sdtool.audit.sources.items import UNREADABLE, Item
from sdtool.audit.sources.places import Above
from sdtool.audit.store.scratch import Scratch, restored, stored
from sdtool.audit.windows.rights import OF_FILES

_ROOT = re.compile(r"[A-Za-z]:[\\/]*|[\\/]+|[\\/]{2}[^\\/]+[\\/][^\\/]+[\\/]*")


def _key(name: str, kind: str) -> bytes:
    return key_of(name, kind).encode("utf-8", "surrogatepass")


class Folders:
    """The objects of file systems in sources that were read a first time."""

    def __init__(self) -> None:
        self._database = Scratch().database
        self._database.execute("CREATE TABLE objects(key, folder, form, text)")
        self._has_index = False

    def read(self, items: Iterable[Item]) -> None:
        """Reads the objects of a source a first time, also those that can't be read."""
        self._database.executemany("INSERT INTO objects VALUES (?, ?, ?, ?)", (
            (_key(item.name, item.kind), _key(folder_of(item.name, item.kind), item.kind), item.form,
             stored(item.text)) for item in items if item.kind in OF_FILES))

    def placed(self, items: Iterable[Item]) -> Iterator[Item]:
        """The objects, each with its folder."""
        if not self._has_index:
            self._database.execute("CREATE INDEX objects_key ON objects(key)")
            self._database.execute("CREATE INDEX objects_folder ON objects(folder)")
            self._has_index = True
        for item in items:
            yield item._replace(place=self._above(item).with_place(item.place)) if item.kind in OF_FILES else item

    def _above(self, item: Item) -> Above:
        folder = folder_of(item.name, item.kind)
        if _ROOT.fullmatch(item.name):
            return Above(True)
        is_folder = item.kind == "folder" or self._has_children(item)
        rows = self._database.execute("SELECT DISTINCT form, text FROM objects WHERE key = ? LIMIT 2",
                                      (_key(folder, item.kind),)).fetchall() if folder else []
        if not rows:
            return Above(is_folder, reason="its folder isn't in the source")
        if len(rows) > 1 or rows[0][0] == UNREADABLE:
            return Above(is_folder, reason="its folder is in the source more than once" if len(rows) > 1
                         else "its folder can't be read")
        return Above(is_folder, folder, rows[0][0], restored(rows[0][1]))

    def _has_children(self, item: Item) -> bool:
        return self._database.execute("SELECT 1 FROM objects WHERE folder = ? LIMIT 1",
                                      (_key(item.name, item.kind),)).fetchone() is not None
