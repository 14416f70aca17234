"""Calls in Python and in Node whose instructions are counted."""
import functools
import gc
import json
import os
import pathlib
import re
import subprocess
import sys

import preload

HERE = pathlib.Path(__file__).resolve().parent
PACKAGES = str(preload.TOP / "python")
# Node compiles no function, so that each is read in the same way, and collects no garbage.
NODE = ["node", "--single-threaded", "--no-opt", "--no-sparkplug", "--no-regexp-tier-up", "--min-semi-space-size=64",
        "--max-semi-space-size=64", "--liftoff-only", "--disable-wasm-trap-handler"]


class _Counted:
    """
    A process that makes calls under valgrind, which counts the instructions of each. Other work of the machine does not
    change them. Arguments and answers are values of JSON. What marks a call are two functions of the C library that
    nothing else calls.
    """

    def __init__(self, words, begin, end, folder, environment):
        self._folder, self._calls = pathlib.Path(folder), 0
        valgrind = ["valgrind", "-q", "--tool=callgrind", f"--callgrind-out-file={self._folder}/counted",
                    f"--zero-before={begin}", f"--dump-before={end}"]
        pipes = dict(stdin=subprocess.PIPE, stdout=subprocess.PIPE)
        self._process = subprocess.Popen([*valgrind, *words], **pipes, env=environment, text=True)

    def __enter__(self):
        return self

    def __exit__(self, *_):
        self._process.communicate()

    def call(self, *given):
        """The instructions of a call, and its answer."""
        print(json.dumps(given), file=self._process.stdin, flush=True)
        answer = json.loads(self._process.stdout.readline())
        self._calls += 1
        written = self._folder / f"counted.{self._calls}"
        total = int(re.search(r"^totals: (\d+)", written.read_text(), re.MULTILINE)[1])
        written.unlink()
        return total, answer


class CountedCalls(_Counted):
    """Calls of a function in Python: code defines it, and it has the name call."""

    def __init__(self, python, code, folder):
        environment = {**os.environ, "SDTOOL_LIBRARY": preload.LIBRARY, "PYTHONPATH": f"{HERE}:{PACKAGES}",
                       "PYTHONHASHSEED": "0", "PYTHONPYCACHEPREFIX": f"{folder}/compiled",
                       "PYTHONDONTWRITEBYTECODE": ""}
        # Under valgrind it takes a minute to compile the modules.
        subprocess.run([python, "-c", code], env=environment, check=True)
        words = [python, "-c", f"import counted_calls; counted_calls.answer_calls({code!r})"]
        super().__init__(words, "*sched_get_priority_min", "*sched_get_priority_max", folder, environment)


class CountedScript(_Counted):
    """Calls of a script in Node, which reads lines, and calls umask before and getpriority after each call."""

    def __init__(self, words, folder):
        super().__init__([*NODE, *words], "umask", "getpriority", folder, os.environ)


def answer_calls(code):
    """What the process of CountedCalls does. Each call begins with empty caches, and no garbage is collected in it."""
    names = {}
    exec(code, names)
    answers = os.fdopen(os.dup(1), "w")
    os.dup2(os.open(os.devnull, os.O_WRONLY), 1)
    caches = [one for one in gc.get_objects() if isinstance(one, functools._lru_cache_wrapper)]
    gc.freeze()
    gc.disable()
    for line in sys.stdin:
        given = json.loads(line)
        for cache in caches:
            cache.cache_clear()
        gc.collect()
        os.sched_get_priority_min(os.SCHED_OTHER)
        answer = names["call"](*given)
        os.sched_get_priority_max(os.SCHED_OTHER)
        print(json.dumps(answer), file=answers, flush=True)
