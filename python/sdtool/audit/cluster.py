"""A pool whose processes are the workers of a Dask cluster, which may come and go.

Dask gives the work of a worker that died to others. Here is what Dask lacks: each worker has to have the same library
and modules as this process, and a run ends if there is no worker, or no scheduler, for too long.
"""
import concurrent.futures
import contextlib
import functools
import glob
import logging
import os
import pickle
import threading
import time
import warnings
from typing import Any, Callable, Iterator, Tuple

import dask.config
import sdtool
from dask.utils import parse_timedelta
from distributed import Client, KilledWorker
from sdtool.audit import pool
from sdtool.audit.sources.opening import OpeningFault
from sdtool.distributed.bounded import running_loop, within
from sdtool.distributed.work import modules_digest

_LEAST = 16  # as if there were so many workers: what waits makes an adaptive cluster grow
_LOOK = 5.0  # seconds between two looks at the cluster
_CLOSE = 1.0  # seconds
_PATIENCE = "distributed.scheduler.no-workers-timeout", "60s"
_lock = threading.Lock()  # for one thread of a worker at a time: they share what they hold
_FOLDERS = [os.path.relpath(path, os.path.dirname(sdtool._library.__file__))
            for path in glob.glob(os.path.join(os.path.dirname(__file__), "**", ""), recursive=True)]
_MODULES = modules_digest("distributed", *_FOLDERS)  # of what this process imports


@functools.lru_cache(maxsize=None)
def _own() -> Tuple[str, str]:
    return sdtool._library.digest(), _MODULES


@functools.lru_cache(maxsize=2)
def _unpickled(given: bytes) -> Any:
    return pickle.loads(given)


def sdtool_audit(given: bytes, own: Tuple[str, str], work: Callable[..., Any], *arguments: Any) -> Any:
    """What a worker does for a task, which Dask shows by this name."""
    if own != _own():
        from distributed import get_worker
        raise OSError(f"the worker {get_worker().address} has another version of sdtool or its library")
    with _lock:
        pool.hold(_unpickled(given))
        return work(*arguments)


class Cluster(pool.Pool):
    """The workers of a scheduler."""

    def __init__(self, address: str, given: Any) -> None:
        super().__init__(_LEAST, given)
        self._address, self._patience = address, parse_timedelta(dask.config.get(*_PATIENCE))
        logging.disable()  # the run says what it ends for
        warnings.filterwarnings("ignore", "Large object")  # a block is, and Dask sends it once
        try:
            self._client = Client(address, set_as_default=False, loop=running_loop())
        except (OSError, ValueError) as error:
            raise OpeningFault(f"--scheduler {address}: {error}") from error
        self._seen, self._looked = time.monotonic(), 0.0  # a worker, and the cluster

    def submit(self, work: Callable[..., Any], *arguments: Any) -> "concurrent.futures.Future[Any]":
        if self._executor is None:
            self._held = self._client.submit(bytes, pickle.dumps(self._given), pure=False)
            self._executor = self._client.get_executor(pure=False)
        self._look()
        with self._telling():
            future: "concurrent.futures.Future[Any]" = self._executor.submit(sdtool_audit, self._held, _own(), work,
                                                                             *arguments)
        return future

    def result(self, future: "concurrent.futures.Future[Any]") -> Any:
        while not concurrent.futures.wait([future], _LOOK).done:
            self._look()
        with self._telling():
            return future.result()

    @contextlib.contextmanager
    def _telling(self) -> Iterator[None]:
        """Faults of Dask have their reason."""
        try:
            yield
        except concurrent.futures.CancelledError:
            raise OSError(f"the scheduler is lost: {self._address}") from None
        except KilledWorker:
            raise OSError("worker after worker died of one part, or beside it") from None

    def _look(self) -> None:
        """Sees how many threads the cluster has, now and then."""
        now = time.monotonic()
        if now - self._looked < _LOOK:
            return
        threads = sum(within(self._patience, "the scheduler", self._client.nthreads).values())
        self.jobs, self._looked = max(_LEAST, threads), time.monotonic()
        if threads:
            self._seen = now
        elif now - self._seen > self._patience:
            raise OSError(f"the scheduler has no worker: {self._address}")

    def close(self) -> None:
        with contextlib.suppress(Exception):  # all answers are there, or the run ends for another reason
            self._client.close(timeout=_CLOSE)
