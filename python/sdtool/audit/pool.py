"""The pool of processes that answer. Processes are forked where that is safe, and else begin anew."""
import concurrent.futures
import multiprocessing
import os
import sys
import threading
from typing import Any, Callable, Set

from sdtool.audit import stopping

_MOST_ON_WINDOWS = 61  # Python's pool waits for no more processes there
_LOOK = 1.0  # seconds between two looks at the processes
_held: Any = None


def processors() -> int:
    """How many processors this process may use."""
    if hasattr(os, "sched_getaffinity"):
        return len(os.sched_getaffinity(0))
    return os.cpu_count() or 1


def held() -> Any:
    """What the pool of this worker was given."""
    return _held


def hold(given: Any) -> None:
    global _held
    _held = given


def _start(given: Any) -> None:
    stopping.in_worker()
    threading.Thread(target=_end_with_parent, daemon=True).start()
    hold(given)


def _end_with_parent() -> None:
    """A parent that was killed tells its workers nothing, and they would hold its pipes open."""
    parent = multiprocessing.parent_process()
    if parent is not None:
        parent.join()
    os._exit(stopping.NOT_WHOLE)


def _context() -> Any:
    """How processes begin. The libraries of macOS don't stand a fork."""
    if "fork" in multiprocessing.get_all_start_methods() and sys.platform != "darwin":
        return multiprocessing.get_context("fork")
    # What keeps the names of semaphores would tell of those of a run that was interrupted.
    os.environ["PYTHONWARNINGS"] = ",".join(filter(None, (os.environ.get("PYTHONWARNINGS"), "ignore:resource_tracker")))
    return multiprocessing.get_context("spawn")


class Pool:
    """Processes that begin with the first work. Each holds what the pool was given."""

    def __init__(self, jobs: int, given: Any) -> None:
        self.jobs = min(jobs, _MOST_ON_WINDOWS) if sys.platform == "win32" else jobs
        self._given = given
        self._executor: Any = None
        self._processes: Set[multiprocessing.process.BaseProcess] = set()

    @property
    def has_begun(self) -> bool:
        return self._executor is not None

    def submit(self, work: Callable[..., Any], *arguments: Any) -> "concurrent.futures.Future[Any]":
        if self._executor is None:
            self._executor = concurrent.futures.ProcessPoolExecutor(self.jobs, _context(), _start, (self._given,))
            stopping.before_end.append(self._kill)
        with stopping.held_back():  # work may start processes
            future: "concurrent.futures.Future[Any]" = self._executor.submit(work, *arguments)
        if len(self._processes) < self.jobs:
            self._processes.update(multiprocessing.active_children())
        return future

    def result(self, future: "concurrent.futures.Future[Any]") -> Any:
        """What work gives. Python's pool would wait for ever for a process that was killed while it sent its answer."""
        while not concurrent.futures.wait([future], _LOOK).done:
            if self._has_lost_one() and not future.done():
                from concurrent.futures.process import BrokenProcessPool
                raise BrokenProcessPool
        return future.result()

    def _has_lost_one(self) -> bool:
        from multiprocessing import connection
        return bool(connection.wait([process.sentinel for process in self._processes], 0))

    def _kill(self) -> None:
        for process in {*self._processes, *multiprocessing.active_children()}:
            process.kill()

    def close(self) -> None:
        """Ends the processes, which have nothing left to do. Where a fault or a signal ends the run, they may have
        work, for which Python's pool would wait: without an end, if one of them was killed."""
        if self._executor is not None:
            self._kill()
            if sys.exc_info()[0] is None:
                self._executor.shutdown()
                self._executor = None
