"""Calls that end: file systems and schedulers may hang for ever. And the loop of Dask's clients, which does not end."""
import concurrent.futures
import math
import queue
import threading
import time
from typing import Any, Callable

from tornado.ioloop import IOLoop

MOST_HUNG = 3
LOCAL = threading.local()


class Overdue(TimeoutError):
    """A call has not ended in its time."""


class Helper:
    """A thread that makes the calls of another one, which can stop waiting for them. fsspec opens a connection for each
    thread, so the helper stays until a call hangs."""

    def __init__(self) -> None:
        self.calls: "queue.SimpleQueue[Any]" = queue.SimpleQueue()
        threading.Thread(target=serve, args=(self.calls,), daemon=True).start()

    def __del__(self) -> None:
        self.calls.put(None)


def serve(calls: "queue.SimpleQueue[Any]") -> None:
    while (given := calls.get()) is not None:
        came, call, arguments = given
        try:
            came.set_result(call(*arguments))
        except BaseException as error:
            came.set_exception(error)
        del given, came, call, arguments  # which may be large


def within(seconds: float, what: str, call: Callable[..., Any], *arguments: Any, each: float = math.inf,
           tell: Callable[[float], Any] = abs) -> Any:
    """What a call gives, or Overdue: the call then goes on in its thread, and nothing comes of it. Meanwhile, every few
    seconds, it tells how long the call has taken."""
    if not hasattr(LOCAL, "helper"):
        LOCAL.helper = Helper()
    came: "concurrent.futures.Future[Any]" = concurrent.futures.Future()
    LOCAL.helper.calls.put((came, call, arguments))
    began, taken = time.monotonic(), 0.0
    while not concurrent.futures.wait([came], min(each, seconds - taken)).done:
        taken = time.monotonic() - began
        if taken >= seconds:
            del LOCAL.helper
            raise Overdue(f"{what} has taken more than {seconds:g} seconds")
        tell(taken)
    return came.result()


def running_loop() -> Any:
    """A loop for a client. One that Dask makes is stopped when the client is closed, also where something of it is
    under way. Python and Dask would then tell of that on standard error, at any later moment."""
    loop, runs = IOLoop(make_current=False), threading.Event()
    loop.add_callback(runs.set)
    threading.Thread(target=loop.start, daemon=True).start()
    runs.wait()
    return loop


class Bounded:
    """A driver's calls of file systems. When some have hung it tries no more, so that it comes to an end."""

    def __init__(self, seconds: float) -> None:
        self.seconds, self.left = seconds, MOST_HUNG

    def __call__(self, what: str, call: Callable[..., Any], *arguments: Any) -> Any:
        if self.left <= 0:  # threads may have had several at once
            raise Overdue(f"{what} was not tried, since {MOST_HUNG} such calls have hung")
        try:
            return within(self.seconds, what, call, *arguments)
        except Overdue:
            self.left -= 1
            raise
