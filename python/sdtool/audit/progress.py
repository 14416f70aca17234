"""Progress on standard error, if that is a terminal: objects, objects a second, and the time that is left."""
import os
import sys
from typing import Any, Iterable, Iterator, Sequence

from sdtool.audit import stopping
from sdtool.audit.sources.items import Item


class Bar:
    """A bar. Without the package rich there is none."""

    def __init__(self, paths: Sequence[str], wanted: bool) -> None:
        self._progress: Any = None
        self._count = 0
        self._bytes = 0
        if not wanted or not sys.stderr.isatty():
            return
        try:
            from rich.console import Console
            from rich.progress import BarColumn, Progress, TextColumn, TimeElapsedColumn, TimeRemainingColumn
        except ImportError:
            return
        self._progress = Progress(TextColumn("{task.fields[objects]:,} objects"), BarColumn(),
                                  TextColumn("{task.fields[rate]:,.0f}/s"), TimeElapsedColumn(), TimeRemainingColumn(),
                                  console=Console(stderr=True), transient=True,
                                  # It would send what is written to standard output to the terminal.
                                  redirect_stdout=False, redirect_stderr=False)
        sizes = [os.path.getsize(path) if os.path.isfile(path) else None for path in paths]
        total = None if None in sizes else sum(size for size in sizes if size is not None)
        self._task = self._progress.add_task("", total=total, objects=0, rate=0.0)
        self._progress.start()
        stopping.before_end.append(self.stop)

    def read(self, count: int) -> None:
        self._bytes += count

    def count(self, items: Iterable[Item]) -> Iterable[Item]:
        """The objects, which are counted as they pass."""
        return items if self._progress is None else self._counted(items)

    def _counted(self, items: Iterable[Item]) -> Iterator[Item]:
        for number, item in enumerate(items, 1):
            if number % 5000 == 0:
                self.advance(5000)
            yield item

    def advance(self, count: int) -> None:
        """Tells that so many objects have passed."""
        self._count += count
        if self._progress is not None:
            elapsed = self._progress.tasks[0].elapsed or 0
            self._progress.update(self._task, completed=self._bytes, objects=self._count,
                                  rate=self._count / elapsed if elapsed else 0)

    def stop(self) -> None:
        """Clears the bar, before anything else is written to the terminal."""
        if self._progress is not None:
            self._progress.stop()
            self._progress = None
