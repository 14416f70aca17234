"""Tables of objects that are looked up by name: a database of SQLite without a file, which SQLite keeps on disk if it
is large and removes by itself."""
import sqlite3
from typing import Any, Iterable, Iterator, Tuple, Union

from sdtool.audit.sources.items import Item

Name = Union[str, bytes]
COLUMNS = "name, source, line, form, text, kind, help, is_folder"


def stored(text: str) -> Name:
    """A text as SQLite keeps it: one that isn't UTF-8 as bytes."""
    try:
        text.encode("utf-8")
        return text
    except UnicodeEncodeError:
        return text.encode("utf-8", "surrogatepass")


def restored(text: Name) -> str:
    return text.decode("utf-8", "surrogatepass") if isinstance(text, bytes) else text


def row_of(item: Item) -> Tuple[Any, ...]:
    folder = None if item.is_folder is None else int(item.is_folder)
    return (stored(item.name), stored(item.source), item.line, item.form, stored(item.text), item.kind,
            item.help, folder)


def item_of(row: Tuple[Any, ...]) -> Item:
    """An object of the columns above."""
    name, source, line, form, text, kind, advice, folder = row
    return Item(restored(name), restored(source), line, form, restored(text), kind, advice,
                None if folder is None else bool(folder))


class Scratch:
    """A database for one question."""

    def __init__(self) -> None:
        self.database = sqlite3.connect("", isolation_level=None)
        self.database.execute("PRAGMA journal_mode = OFF")
        self.database.execute("PRAGMA synchronous = OFF")
        self.database.execute("BEGIN")

    def create(self, table: str, extra: str = "") -> None:
        self.database.execute(f"CREATE TABLE {table}(id INTEGER PRIMARY KEY, name, source, line, form, text, "
                              f"kind, help, is_folder{extra})")

    def fill(self, table: str, rows: Iterable[Tuple[Any, ...]], width: int) -> None:
        marks = ", ".join("?" * width)
        self.database.executemany(f"INSERT INTO {table} VALUES (NULL, {marks})", rows)

    def select(self, query: str) -> Iterator[Tuple[Any, ...]]:
        return self.database.execute(query)
