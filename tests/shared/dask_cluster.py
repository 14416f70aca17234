"""A Dask scheduler and workers for tests and measurements: processes on 127.0.0.1."""
import contextlib
import functools
import importlib
import json
import os
import pathlib
import shutil
import signal
import subprocess
import sys
import threading
import time

import preload

PYTHON = pathlib.Path(__file__).resolve().parents[2] / "python"
PACKAGES = ("dask", "distributed", "fsspec")
# Dask drops a worker that says nothing for so long, as one may on a busy machine. Runs know silent workers themselves.
WORKER_TTL = "1800s"
SECONDS = 1200  # that a start may take
# Python 3.11 may stop for good where two threads look at the frames of all threads, as Dask's profiler does.
NO_PROFILER = {"DASK_DISTRIBUTED__WORKER__PROFILE__ENABLED": "False"}


def python_with_dask(folder):
    """A Python that has Dask; without one, it is said that the test is skipped."""
    python = preload.python_with(*PACKAGES, folder=folder)
    if python is None:
        print("skipped: no Python here has dask, distributed and fsspec "
              "(Debian: python3-dask, python3-distributed, python3-fsspec)")
    return python


@functools.lru_cache(maxsize=None)
def running_loop():
    """A loop for all clients. Dask stops one of its own while something is under way, and Python says that behind the
    count of a test."""
    loop, runs = importlib.import_module("tornado.ioloop").IOLoop(make_current=False), threading.Event()
    loop.add_callback(runs.set)
    threading.Thread(target=loop.start, daemon=True).start()
    runs.wait()
    return loop


def client_of(address, **more):
    """A client of a scheduler in this process. Its package is called as a test is."""
    path = list(sys.path)
    sys.path[:] = [folder for folder in path if not folder.startswith(str(PYTHON.parent / "tests"))]
    try:
        client = importlib.import_module("distributed").Client
    finally:
        sys.path[:] = path
    return client(address, timeout=SECONDS, loop=running_loop(), **more)


def wait_for(is_so, seconds=SECONDS, what="something"):
    until = time.monotonic() + seconds
    while not is_so():
        if time.monotonic() > until:
            raise TimeoutError(f"{what} did not come in {seconds} seconds")
        time.sleep(0.02)


def end(child):
    """Ends a process, and those in its session."""
    with contextlib.suppress(ProcessLookupError):
        os.killpg(child.pid, signal.SIGKILL)
    child.wait()


class Processes:
    """Processes that are started in a folder, with the library for Python, and ended together.

    They have the module and the library from copies in the folder. Runs compare digests of these files, so a build that
    changes them would change what a run keeps, and which workers are fit."""

    def __init__(self, folder, python, library, ignored=("audit",)):
        self.folder, self.python = pathlib.Path(folder), python
        self.modules, self.library = self.folder / "modules", self.folder / "library/libsdtool.so"
        shutil.copytree(PYTHON / "sdtool", self.modules / "sdtool",
                        ignore=shutil.ignore_patterns("__pycache__", *ignored))
        subprocess.run([python, "-m", "compileall", "-q", self.modules], check=True)
        self.library.parent.mkdir()
        shutil.copy(library, self.library)
        self.children, self.started, self.schedulers = [], 0, 0
        self.environment = {**os.environ, "PYTHONPATH": str(self.modules), "SDTOOL_LIBRARY": str(self.library),
                            "DASK_DISTRIBUTED__SCHEDULER__WORKER_TTL": WORKER_TTL, **NO_PROFILER,
                            "DASK_TEMPORARY_DIRECTORY": str(self.folder)}

    def other_library(self):
        """A library with another digest, which answers the same."""
        path = self.folder / "other" / "libsdtool.so"
        path.parent.mkdir(exist_ok=True)
        path.write_bytes(self.library.read_bytes() + b"\n")
        return {"SDTOOL_LIBRARY": str(path)}

    def start(self, words, environment=None, **others):
        """A process in a session of its own, so that what it starts can be ended with it."""
        environment = {**self.environment, **(environment or {})}
        child = subprocess.Popen(list(map(str, words)), cwd=self.folder, env=environment, stdin=subprocess.DEVNULL,
                                 start_new_session=True, **others)
        self.children.append(child)
        self.started += 1
        return child

    def start_of_dask(self, module, *words, environment=None, before=()):
        with open(self.folder / f"{module}.log", "ab") as log:
            return self.start([*before, self.python, "-m", f"distributed.cli.{module}", *words, "--host", "127.0.0.1",
                               "--no-dashboard", "--dashboard-address", "127.0.0.1:0"], environment,
                              stdout=log, stderr=log)

    def start_scheduler(self):
        """The process and its address."""
        self.schedulers += 1
        file = self.folder / f"scheduler{self.schedulers}.json"
        scheduler = self.start_of_dask("dask_scheduler", "--port", "0", "--scheduler-file", str(file))
        wait_for(lambda: file.exists() and file.read_text().strip().endswith("}"), what="a scheduler")
        return scheduler, json.loads(file.read_text())["address"]

    def start_worker(self, address, environment=None, before=(), memory="0", threads=1):
        """A worker; `before` are the words of a program that starts it, `memory` is its limit, 0 for none."""
        return self.start_of_dask("dask_worker", address, "--nthreads", str(threads), "--no-nanny", "--memory-limit",
                                  memory, "--local-directory", str(self.folder / "workers"), environment=environment,
                                  before=before)

    def asked(self, address, code):
        """What a client of the scheduler prints."""
        code = (f"import os, sys\nfrom distributed import Client\nclient = Client({address!r}, timeout={SECONDS})\n"
                f"{code}\nsys.stdout.flush()\nos._exit(0)")  # Dask may say more as it ends
        return subprocess.run([self.python, "-c", code], cwd=self.folder, env=self.environment, check=True,
                              timeout=4 * SECONDS, stdin=subprocess.DEVNULL, stdout=subprocess.PIPE, text=True).stdout

    def wait_for_workers(self, address, count):
        self.asked(address, f"client.wait_for_workers({count}, timeout={SECONDS})")

    def end_all(self, but=0):
        """Ends the processes, but those that were started first: an idle worker takes time of a processor too."""
        for child in self.children[but:]:
            end(child)
        del self.children[but:]
