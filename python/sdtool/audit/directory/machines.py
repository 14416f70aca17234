"""What the machines of a directory make for themselves: what is below their own objects, and their records of DNS."""
import functools
import itertools
import re
from typing import Tuple

from sdtool.audit.library import sid_of_value
from sdtool.audit.sources import ldif
from sdtool.audit.sources.ldif import Entry
from sdtool.audit.store.scratch import Scratch, stored

_MOST_KEPT = 10_000
_CLASS, _RECORD = "computer", "dnsNode"
_LONGEST = 15  # letters of the account of a machine, which are the first ones of its name
_REVERSE = re.compile(r"DC=[^,]*(?:in-addr|ip6)\.arpa,", re.I)  # a zone whose records have addresses for names


class Machines:
    """The accounts of machines, in a file if they are many."""

    def __init__(self) -> None:
        self._database = Scratch().database
        self._database.execute("CREATE TABLE machines(sid PRIMARY KEY, key UNIQUE, label) WITHOUT ROWID")
        self._database.execute("CREATE INDEX machines_label ON machines(label)")
        self._is_empty = True
        self._above = functools.lru_cache(_MOST_KEPT)(self._climbed)

    def add(self, entry: Entry) -> None:
        """Takes an entry of LDIF, if it is the account of a machine."""
        classes = [value.decode("utf-8", "replace") for value in entry.attributes.get("objectclass", [])]
        accounts, sid = entry.attributes.get("samaccountname", []), entry.attributes.get("objectsid", [])
        if _CLASS in classes and len(accounts) == 1 and len(sid) == 1:
            label = accounts[0].decode("utf-8", "replace").rstrip("$").casefold()
            self._database.execute("INSERT OR IGNORE INTO machines VALUES (?, ?, ?)",
                                   (sid_of_value(sid[0]), stored(entry.name.casefold()), label))
            self._is_empty = False

    def makers(self, name: str, of_class: str, owner: str) -> Tuple[str, ...]:
        """The SIDs of the machines that an object is one of their own of."""
        if self._is_empty:
            return ()
        found = self._above(ldif.parent_of(name).casefold())
        return tuple(dict.fromkeys(found + self._recorded(name, owner))) if of_class == _RECORD else found

    def _climbed(self, key: str) -> Tuple[str, ...]:
        """The SID of the machine at or above a name."""
        at_or_above = itertools.chain([key] if key else [], ldif.objects_above(key))
        return next(filter(None, (self._sids("key = ?", stored(one)) for one in at_or_above)), ())

    def _recorded(self, name: str, owner: str) -> Tuple[str, ...]:
        """The SIDs of the machines that a record of DNS may be of."""
        if _REVERSE.match(ldif.parent_of(name)):
            return self._sids("sid = ?", owner)
        label = name.partition(",")[0].partition("=")[2].partition(".")[0].casefold()
        found = self._sids("label = ?", label)
        return found + self._sids("label = ?", label[:_LONGEST]) if len(label) > _LONGEST else found

    def _sids(self, where: str, value: object) -> Tuple[str, ...]:
        return tuple(str(sid) for sid, in self._database.execute(f"SELECT sid FROM machines WHERE {where}", (value,)))
