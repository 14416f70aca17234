"""Objects that are kept in a file of SQLite, each descriptor once, so that the next question is fast.

docs/AUDIT.md describes the tables.
"""
import contextlib
import hashlib
import os
import sqlite3
from typing import Any, Callable, Dict, Iterable, Iterator, List, NamedTuple, Optional, Sequence, Tuple

from sdtool.audit import files, stopping
from sdtool.audit.engine import Answered, Engine
from sdtool.audit.findings import Answer, unknown, unread
from sdtool.audit.live.talking import SAID_OF_OBJECTS
from sdtool.audit.sources.items import UNREADABLE, Item, unreadable
from sdtool.audit.sources.opening import OpeningFault
from sdtool.audit.store.scratch import restored, stored

VERSION = 3
_SCHEMA = """
CREATE TABLE about(version INTEGER NOT NULL, objects INTEGER NOT NULL, descriptors INTEGER NOT NULL);
CREATE TABLE sources(id INTEGER PRIMARY KEY, name NOT NULL);
CREATE TABLE descriptors(id INTEGER PRIMARY KEY, form TEXT NOT NULL, kind TEXT NOT NULL, place TEXT NOT NULL,
                         text NOT NULL, digest BLOB NOT NULL UNIQUE);
CREATE TABLE objects(id INTEGER PRIMARY KEY, name NOT NULL, source INTEGER NOT NULL REFERENCES sources,
                     line INTEGER NOT NULL, descriptor INTEGER REFERENCES descriptors, is_folder INTEGER, reason TEXT,
                     help TEXT, kind TEXT);
"""
_UNSAFE = "PRAGMA journal_mode = OFF; PRAGMA synchronous = OFF;"  # for a file that has no name before it is whole
# What an address is asked for is kept as it comes. A row of asking is a source, in the order of the words.
_ASKING = """
CREATE TABLE asking(id INTEGER PRIMARY KEY, source NOT NULL, is_whole INTEGER NOT NULL, reason TEXT);
CREATE TABLE facts(source NOT NULL, kind TEXT NOT NULL, key NOT NULL, value NOT NULL);
CREATE INDEX objects_name ON objects(name, source);
"""
_BEGIN = "BEGIN IMMEDIATE"  # so that no other run can write in between
_WAITS = 3_600_000  # milliseconds for others who read what is kept so far
_ASKED = "asked"  # a kind of facts
_BATCH = 10_000
_MOST_KNOWN = 500_000  # descriptors whose numbers are kept in memory
_MOST_ANSWERS = 100_000  # to descriptors
_COLUMNS = ("objects.name, sources.name, objects.line, descriptors.form, descriptors.text, "
            "coalesce(descriptors.kind, objects.kind), objects.is_folder, objects.reason, objects.help, "
            "descriptors.place")
_FROM = ("objects LEFT JOIN sources ON sources.id = objects.source LEFT JOIN descriptors ON descriptors.id = "
         "objects.descriptor")
_IS_NOTED = "objects.help IS NOT NULL AND objects.descriptor IS NOT NULL"
_ADVICE = "make it again with --into, and copy it whole"


def _digest(item: Item) -> bytes:
    spelled = f"{item.form}\0{item.kind}\0{item.place}\0{item.text}".encode("utf-8", "surrogatepass")
    return hashlib.blake2b(spelled, digest_size=16).digest()


class _Writer:
    """Fills a new file."""

    def __init__(self, path: str, schema: str = _UNSAFE + _SCHEMA) -> None:
        self._database = sqlite3.connect(path, isolation_level=None, check_same_thread=False)
        stopping.close_early(self.close)
        self._database.executescript(schema)
        self._database.execute(_BEGIN)
        self._objects = 0
        self._known: Dict[bytes, int] = {}
        self._sources: Dict[str, int] = {}
        self._rows: List[Tuple[Any, ...]] = []
        self._descriptors = 0

    def _descriptor(self, item: Item) -> Optional[int]:
        if item.form == UNREADABLE:
            return None
        digest = _digest(item)
        number = self._known.get(digest)
        if number is None:
            found = self._database.execute("SELECT id FROM descriptors WHERE digest = ?", (digest,)).fetchone()
            if found:
                number = found[0]
            else:
                self._descriptors += 1
                number = self._descriptors
                self._database.execute("INSERT INTO descriptors VALUES (?, ?, ?, ?, ?, ?)",
                                       (number, item.form, item.kind, item.place, stored(item.text), digest))
            if len(self._known) >= _MOST_KNOWN:
                self._known.clear()
            self._known[digest] = number
        return number

    def _source(self, name: str) -> int:
        if name not in self._sources:
            self._sources[name] = len(self._sources) + 1
            self._database.execute("INSERT INTO sources VALUES (?, ?)", (self._sources[name], stored(name)))
        return self._sources[name]

    def add(self, item: Item) -> None:
        self._objects += 1
        folder = None if item.is_folder is None else int(item.is_folder)
        reason = stored(item.text) if item.form == UNREADABLE else None
        self._rows.append((stored(item.name), self._source(item.source), item.line, self._descriptor(item),
                           folder, reason, item.help or None, item.kind))
        if len(self._rows) >= _BATCH:
            self._flush()

    def _flush(self) -> None:
        self._database.executemany("INSERT INTO objects VALUES (NULL, ?, ?, ?, ?, ?, ?, ?, ?)", self._rows)
        self._rows.clear()

    def end(self) -> None:
        """What says that the file is whole comes last."""
        self._flush()
        self._database.execute("DROP INDEX IF EXISTS objects_name")
        self._database.execute("CREATE INDEX objects_descriptor ON objects(descriptor)")
        self._database.execute(f"CREATE INDEX objects_help ON objects(help, source) WHERE {_IS_NOTED}")
        self._database.execute("INSERT INTO about VALUES (?, ?, ?)", (VERSION, self._objects, self._descriptors))
        self._database.execute("COMMIT")
        self.close()

    def close(self) -> None:
        self._database.close()


class Asking(_Writer):
    """Fills a file with the objects of addresses, and of other sources. What was read stays, however the run ends, and
    another run that asks the same sources in the same way goes on with it."""

    def __init__(self, path: str, paths: Sequence[str], asked: str) -> None:
        try:
            super().__init__(path, "")
            self._database.execute(f"PRAGMA busy_timeout = {_WAITS}")
            self.is_new = not self._database.execute("SELECT 1 FROM sqlite_master").fetchone()
            if self.is_new:  # what another run needs to go on with it is kept before a server is asked
                for statement in (_SCHEMA + _ASKING).split(";"):
                    self._database.execute(statement)
                self._database.executemany("INSERT INTO asking VALUES (NULL, ?, 0, NULL)",
                                           ((stored(one),) for one in paths))
                self.add_fact("", _ASKED, "", asked)
                self.keep()
            [(before,)] = self._database.execute("SELECT value FROM facts WHERE kind = ?", (_ASKED,))
            if before != asked:
                raise OpeningFault(f"--into {path}: the run that has begun it asked {before}, and this one {asked}: "
                                   "ask as it did, or name a new file")
            self._go_on()
        except sqlite3.Error as error:
            reason = "another run fills it" if "locked" in str(error) else error
            raise OpeningFault(f"--into {path}: {reason}") from error

    def _go_on(self) -> None:
        """Takes up what is in the file. What couldn't be read is asked for again, and what was said of the objects that
        stay holds."""
        query = self._database.execute
        waits = "source IN (SELECT sources.id FROM sources JOIN asking ON source = sources.name WHERE NOT is_whole)"
        query(f"DELETE FROM objects WHERE reason IS NOT NULL AND {waits}")
        query("DELETE FROM facts WHERE kind != ? AND source IN (SELECT source FROM asking WHERE NOT is_whole)",
              (SAID_OF_OBJECTS,))
        query("UPDATE asking SET reason = NULL")
        self._sources = {restored(name): number for number, name in query("SELECT id, name FROM sources")}
        self._objects, = query("SELECT count(*) FROM objects").fetchone()
        self._before, = query("SELECT coalesce(max(id), 0) FROM objects").fetchone()
        self._descriptors, = query("SELECT coalesce(max(id), 0) FROM descriptors").fetchone()

    def waiting(self) -> List[str]:
        """The sources that aren't read to their end."""
        return [restored(name) for name, in
                self._database.execute("SELECT source FROM asking WHERE NOT is_whole ORDER BY id").fetchall()]

    def has(self, source: str, name: str) -> bool:
        """Whether an earlier run has read an object."""
        return bool(self._before) and self._database.execute(
            "SELECT 1 FROM objects WHERE name = ? AND source = ? AND id <= ?",
            (stored(name), self._source(source), self._before)).fetchone() is not None

    def add_fact(self, source: str, kind: str, key: str, value: str) -> None:
        self._database.execute("INSERT INTO facts VALUES (?, ?, ?, ?)",
                               (stored(source), kind, stored(key), stored(value)))

    def keep(self) -> None:
        """What was read so far stays."""
        self._flush()
        self._database.execute("COMMIT")
        self._database.execute(_BEGIN)

    def end_source(self, source: str, reason: Optional[str] = None) -> None:
        """Says that a source is read to its end, or why it isn't."""
        self._database.execute("UPDATE asking SET is_whole = ?, reason = ? WHERE source = ?",
                               (reason is None, reason, stored(source)))
        self.keep()

    def end_all(self) -> None:
        """Says that the file is whole, if it is."""
        if self.waiting():
            self.keep()
            self.close()
        else:
            self.end()


def sources_asked(path: str) -> List[str]:
    """The sources of a file that a run with addresses has begun and not ended."""
    with contextlib.suppress(sqlite3.Error), contextlib.closing(_opened(path)) as database:
        if not database.execute("SELECT 1 FROM about").fetchone():
            return sources_of(path)
    return []


def sources_of(path: str) -> List[str]:
    """The sources of a file that a run with addresses has begun."""
    with contextlib.suppress(sqlite3.Error), contextlib.closing(_opened(path)) as database:
        return [restored(name) for name, in database.execute("SELECT source FROM asking ORDER BY id")]
    return []


def add_facts(path: str, kind: str, pairs: Iterable[Tuple[str, str]]) -> None:
    """Adds what was asked for beside the objects of a database."""
    with contextlib.suppress(sqlite3.Error), contextlib.closing(sqlite3.connect(path)) as database, database:
        database.executemany("INSERT INTO facts VALUES ('', ?, ?, ?)",
                             ((kind, stored(key), stored(value)) for key, value in pairs))


def texts(path: str) -> Iterator[Tuple[str, List[str]]]:
    """The descriptors of a database, some of one form at a time."""
    with contextlib.closing(_opened(path)) as database:
        for form, in database.execute("SELECT DISTINCT form FROM descriptors").fetchall():
            rows = database.execute("SELECT text FROM descriptors WHERE form = ?", (form,))
            for some in iter(lambda: rows.fetchmany(_BATCH), []):
                yield form, [restored(text) for text, in some]


def facts(path: str, kind: str) -> Iterator[Tuple[str, str]]:
    """What servers have said beside their objects: key and value of this kind."""
    with contextlib.closing(_opened(path)) as database:
        try:
            has_facts = database.execute("SELECT 1 FROM sqlite_master WHERE name = 'facts'").fetchone()
        except sqlite3.Error:
            return  # whoever reads its objects is told that it is damaged
        for key, value in database.execute("SELECT key, value FROM facts WHERE kind = ? ORDER BY rowid",
                                           (kind,)) if has_facts else ():
            yield restored(key), restored(value)


@contextlib.contextmanager
def kept(path: Optional[str]) -> Iterator[Callable[[Iterable[Item]], Iterable[Item]]]:
    """Gives what keeps each object that passes. The file gets its name only when it is whole."""
    if path is None:
        yield lambda items: items
        return
    with contextlib.ExitStack() as stack:
        try:
            part = stack.enter_context(files.unfinished(path))
            writer = _Writer(part)
        except (OSError, sqlite3.Error) as error:
            raise OpeningFault(f"--into {path}: {error}") from error
        stack.callback(writer.close)

        def keep(items: Iterable[Item]) -> Iterator[Item]:
            for item in items:
                writer.add(item)
                yield item

        yield keep
        writer.end()
        _give_name(part, path)


def _give_name(part: str, path: str) -> None:
    """Names a file, unless another run has made one of this name in the meantime."""
    try:
        os.link(part, path)
    except FileExistsError:
        raise OSError(f"--into {path}: another run has made it, and this one keeps nothing") from None
    except (OSError, AttributeError, NotImplementedError):
        os.rename(part, path)  # a file system without links


class About(NamedTuple):
    """What a file says about itself."""

    version: int
    objects: int
    descriptors: int


class DamagedFault(Exception):
    """A file isn't what --into made."""


def _about(database: sqlite3.Connection, path: str) -> About:
    try:
        found = database.execute("SELECT * FROM about").fetchone()
    except sqlite3.Error as error:
        raise DamagedFault(f"a database that is damaged, or that --into didn't make: {error}") from error
    if not found or found[0] != VERSION or len(found) != len(About._fields):
        is_older = bool(found) and found[0] != VERSION
        raise DamagedFault("made by another version of sdtool-audit" if is_older else "the database isn't whole")
    return About(*found)


def _opened(path: str) -> sqlite3.Connection:
    if os.path.exists(f"{path}-journal"):  # of a run that was killed, whose last changes are undone
        with contextlib.suppress(sqlite3.Error), contextlib.closing(_connected(path, "rw")) as database:
            database.execute("SELECT 1 FROM sqlite_master")
    return _connected(path, "ro")


def _connected(path: str, mode: str) -> sqlite3.Connection:
    return sqlite3.connect(f"file:{_quoted(path)}?mode={mode}", uri=True, isolation_level=None)


def _quoted(path: str) -> str:
    from urllib.parse import quote
    return quote(os.path.abspath(path).encode("utf-8", "surrogateescape"))


def _item(row: Tuple[Any, ...]) -> Item:
    name, source, line, form, text, kind, folder, reason, advice, place = row
    if form is None:
        # An object has a descriptor or a reason.
        form, text, advice = (UNREADABLE, reason, advice) if reason is not None else \
            (UNREADABLE, "its descriptor isn't in the database", _ADVICE)
    return Item(restored(name), "" if source is None else restored(source), line, form, restored(text), kind or "file",
                advice or "", None if folder is None else bool(folder), place or "")


def _lost(path: str, count: int, reason: str) -> Item:
    """What stands for the objects that a file should have."""
    return unreadable(f"{path}: the rest, after {count:,} objects", path, 0, reason, _ADVICE)


def require_whole(path: str) -> None:
    """Refuses a file that isn't whole, for a question that can't tell what it lacks."""
    last = None
    for last in items(path):
        pass
    if sources_asked(path):
        raise OpeningFault(f"{path}: the run that makes it hasn't ended")
    if last is not None and last.form == UNREADABLE and last.name.startswith(f"{path}: the rest"):
        raise OpeningFault(f"{path}: {last.text}")


def _unread(database: sqlite3.Connection, path: str) -> Iterator[Item]:
    """What stands for the objects of sources that weren't read to their end."""
    for name, reason in database.execute("SELECT source, reason FROM asking WHERE NOT is_whole ORDER BY id"):
        yield unreadable(f"{restored(name)}: the rest", restored(name), 0,
                         reason or f"the run that makes {path} hasn't ended",
                         "the same command with --into goes on with it")


def items(path: str) -> Iterator[Item]:
    """The objects of a file, in their order. What is missing of it is an object that can't be read."""
    count = 0
    database = _opened(path)
    try:
        is_asking = bool(sources_asked(path))
        about = About(VERSION, -1, -1) if is_asking else _about(database, path)
        for row in database.execute(f"SELECT {_COLUMNS} FROM {_FROM} ORDER BY objects.id"):
            count += 1
            yield _item(row)
        if is_asking:
            yield from _unread(database, path)
            return
    except (DamagedFault, sqlite3.Error) as error:
        yield _lost(path, count, str(error))
        return
    finally:
        database.close()
    if count != about.objects:
        yield _lost(path, count, f"the database has {count:,} of its {about.objects:,} objects")
    elif not count and not sources_of(path):  # a server may say that there are none
        yield unreadable(path, path, 0, "the database has no objects", _ADVICE)


class AnsweredDatabase:
    """A question that is asked of a file: once for each descriptor, whose objects then have its answer."""

    def __init__(self, path: str, engine: Engine) -> None:
        self._path = path
        self._database = _opened(path)
        self._engine = engine
        self._counts: Dict[Optional[int], int] = {}
        self._total = 0

    def is_fit(self) -> bool:
        """Whether the file is whole, and the answers to all descriptors fit into memory."""
        try:
            about = _about(self._database, self._path)
            if not about.objects or about.descriptors > _MOST_ANSWERS:
                return False
            self._counts = dict(self._database.execute("SELECT descriptor, count(*) FROM objects GROUP BY descriptor"))
            self._total = about.objects
            known = {number for number, in self._database.execute("SELECT id FROM descriptors")}
        except (DamagedFault, sqlite3.Error):
            return False
        return (sum(self._counts.values()) == about.objects and len(known) == about.descriptors
                and self._counts.keys() <= known | {None})

    @property
    def objects(self) -> int:
        return self._total

    def answered(self, is_listed: Callable[[Answer], bool], count: Callable[[Answer, int], None]) -> Iterator[Answered]:
        """The objects that are listed, with their answers. The others are counted."""
        answers = {item.line: answer for item, answer in self._engine.answer(self._descriptors())}
        counts = self._counts
        listed = [number for number, answer in answers.items() if is_listed(answer)]
        is_most = 20 * sum(counts.get(number, 0) for number in (None, *listed)) > sum(counts.values())
        for number, item in self._objects_of(listed, is_most):
            counts[number] -= 1
            yield Answered(item, answers[number] if number is not None else unread(item.text, item.help))
        for number, left in counts.items():
            if left:
                count(answers[number] if number is not None else unknown("", ""), left)

    def notes(self) -> Iterator[Tuple[str, str, int]]:
        """What is said of objects that can be read: the text, a source, and of how many."""
        query = ("SELECT objects.help, sources.name, count(*) FROM objects LEFT JOIN sources ON sources.id = "
                 f"objects.source WHERE {_IS_NOTED} GROUP BY objects.help, objects.source ORDER BY min(objects.id)")
        for text, source, count in self._database.execute(query):
            yield text, "" if source is None else restored(source), count

    def _descriptors(self) -> Iterator[Item]:
        query = "SELECT id, form, text, kind, place FROM descriptors ORDER BY id"
        for number, form, text, kind, place in self._database.execute(query):
            yield Item("", "", number, form, restored(text), kind, place=place)

    def _objects_of(self, descriptors: Iterable[int], is_most: bool) -> Iterator[Tuple[Optional[int], Item]]:
        """The objects of descriptors and those that can't be read, in their order, each with the number of its
        descriptor."""
        self._database.execute("ATTACH '' AS found")
        self._database.execute("CREATE TABLE found.numbers(id INTEGER PRIMARY KEY)")
        self._database.executemany("INSERT INTO found.numbers VALUES (?)", ((number,) for number in descriptors))
        # Few objects are found by the index and sorted. Of many the first come sooner without it, which is what + does.
        column = "+objects.descriptor" if is_most else "objects.descriptor"
        query = (f"SELECT {_COLUMNS}, objects.descriptor FROM {_FROM} WHERE {column} IN (SELECT id FROM found.numbers) "
                 f"OR {column} IS NULL ORDER BY objects.id")
        for *row, number in self._database.execute(query):
            yield number, _item(tuple(row))
