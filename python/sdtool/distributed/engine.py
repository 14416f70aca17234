"""The tasks of a run in Dask, and what follows a failure.

Dask's scheduler has a window of tasks that are bound to no worker. So it chooses the workers, moves tasks from slow,
retired and dead ones, and an adaptive cluster sees what waits. Here is what Dask lacks:

- Who failed: each outcome has the worker's address. A task that failed is sent to the others, and a worker whose task
  another one does is left out for a moment.
- A limit of time: the worker gives up a task that hangs. Every few seconds it tells of one that goes on.
- A worker of whose tasks nothing comes, since it is stopped or paused: others get them too, and the first outcome
  counts.
- A task that Dask gives up, since its workers died: it is tried once more, with no other such task beside it.
"""
import collections
import contextlib
import dataclasses
import heapq
import itertools
import pickle
import queue
import time
from typing import Any, Callable, Deque, Dict, List, Set, Tuple

import dask.config
from distributed import Client, Future, KilledWorker, as_completed

from .bounded import Bounded, Overdue, within
from .work import Anew, Given, Work, look

LEAST_WINDOW = 100  # tasks, besides two for each thread of the cluster
STUCK_SECONDS = 30  # of a worker that has tasks, until others get them
PATIENT_SECONDS = 10  # without progress, a line says what is waited for
LOOK_SECONDS, REPORT_SECONDS, REST_SECONDS = 1, 10, 0.05
FIRST_SECONDS = 30  # each task has these, besides those for its bytes
LONG_SECONDS = 45  # of a task that takes so long a line tells, though it may have more
# An unfit worker gets nothing for so long, each time twice as long. Dask prefers who is idle, so a fit one would get
# nothing if unfit ones came back sooner than they say what they are.
LEFT_OUT_SECONDS, MOST_LEFT_OUT = 2, 60
MOST_TURNS = 10  # how often an input is begun anew
BATCH, BATCH_BYTES = 50, 4 << 20  # small inputs in one task
UNPACKED = 20  # how often as long as its file a compressed input may be, for the time that its task has
TOPIC = "sdtool"  # of the events by which workers tell of long tasks
SILENT_SCHEDULER = "the scheduler does not answer"


class Lost(OSError):
    """The run cannot go on."""


@dataclasses.dataclass(eq=False)
class Job:
    """An input, and what there is of its answers."""
    given: Given
    count: int  # of blocks
    blocks: Dict[int, Dict[str, Any]] = dataclasses.field(default_factory=dict)
    compared: int = 0
    is_long: bool = False  # a line has told that a task takes long
    turn: int = 0
    came: Any = None  # counts, or the reason why it has no answers


@dataclasses.dataclass(eq=False)
class Task:
    job: Job
    method: str  # of Work
    arguments: Tuple[Any, ...]
    bytes: int
    turn: int = 0  # of the job
    failed: Dict[str, str] = dataclasses.field(default_factory=dict)  # the last failure of each worker
    failures: float = 0
    failed_at: float = 0  # for the first time
    is_suspect: bool = False  # it may have killed workers
    is_done: bool = False

    @property
    def is_stale(self) -> bool:
        """Nothing that comes of it counts: it is done, or its input has ended or was begun anew."""
        return self.is_done or self.job.came is not None or self.turn != self.job.turn

    @property
    def words(self) -> str:
        what = f"block {self.arguments[0]}" if self.method in ("answer", "compare") else "all"
        return f"{what} of {self.job.given.url}"


@dataclasses.dataclass(eq=False)
class Sent:
    """What is one task for Dask: a task, or some small ones."""
    future: Future
    tasks: List[Task]
    heard_at: float = 0  # when something came of the worker that has it, or none had it
    is_twin: bool = False  # its tasks were sent once more

    @property
    def open(self) -> List[Task]:
        return [task for task in self.tasks if not task.is_stale]


def task_of_dask() -> Callable[..., Any]:
    """What Dask calls. It goes to the workers as code, since it is made in a function: so a worker that has no such
    package, or a broken one, can say which it is."""
    def do(count: int, *arguments: Any) -> Tuple[str, List[Tuple[str, Any]]]:
        import time

        from distributed import get_worker
        try:
            from sdtool.distributed import work
            outcomes = work.done(get_worker(), *arguments)
        except Exception as error:
            time.sleep(1)  # so that it does not take all tasks before it is left out
            outcomes = [("unfit", f"{type(error).__name__}: {error}")] * count
        return get_worker().address, outcomes
    return do


class Engine:
    """The jobs of a run."""

    client: Client
    done: as_completed

    def __init__(self, work: Work, inputs: List[Given], wanted: Any, say: Callable[[str], None]) -> None:
        self.work, self.wanted, self.say = work, wanted, say
        self.jobs = [Job(given, max(1, -(-(given.size or 0) // wanted.block))) for given in inputs]
        self.unbegun, self.left = iter(self.jobs), len(self.jobs)
        self.waiting: Deque[Task] = collections.deque()  # tasks are made when there is room for them
        self.later: List[Tuple[float, int, Task]] = []  # a heap of those that have failed, by when they are sent again
        self.suspects: Deque[Task] = collections.deque()
        self.sent: Dict[str, Sent] = {}
        self.numbers = itertools.count()
        self.heard: "queue.SimpleQueue[Tuple[Any, Dict[str, Any]]]" = queue.SimpleQueue()
        # By the addresses of workers: what the scheduler tells of each, the keys that it has, also of others, when
        # something came of its tasks, when it was found to be unfit, and how long it then gets nothing.
        self.workers: Dict[str, Dict[str, Any]] = {}
        self.keys_of: Dict[str, List[str]] = {}
        self.heard_at: Dict[str, float] = {}
        self.unfit_at: Dict[str, float] = {}
        self.unfit_for: Dict[str, float] = {}
        self.stuck: Set[str] = set()
        self.do, self.bounded = task_of_dask(), Bounded(wanted.wait)
        self.told: Set[str] = set()
        self.is_patient = False
        self.blocks_done = self.bytes_done = 0

    def run(self, client: Client) -> None:
        """Does all jobs. Each has then what came of it. For each task, Dask would read the source of what sends it."""
        with dask.config.set({"distributed.diagnostics.computations.ignore-modules": [".*"]}):
            self.do_all(client)

    def do_all(self, client: Client) -> None:
        self.client = client
        self.done = as_completed([], loop=client.loop, with_results=True, raise_errors=False)
        client.subscribe_topic(TOPIC, self.heard.put)
        self.began = self.progress = self.seen = reported = time.monotonic()
        looked = 0.0
        while self.left:
            is_idle = not self.take()
            if time.monotonic() - looked >= LOOK_SECONDS:
                self.look()
                self.be_patient()
                looked = time.monotonic()
            if time.monotonic() - reported >= REPORT_SECONDS:
                reported = time.monotonic()
                self.report()
                self.require_ownership()
            self.fill()
            if is_idle:
                time.sleep(REST_SECONDS)

    def report(self) -> None:
        blocks, failed = sum(job.count for job in self.jobs), sum(isinstance(job.came, str) for job in self.jobs)
        rate = self.bytes_done / 1e6 / (time.monotonic() - self.began)
        out = len(self.left_out & self.workers.keys())
        self.say(f"[{'#' * (20 * self.blocks_done // blocks):20}] {len(self.jobs) - self.left:,} of {len(self.jobs):,} "
                 f"inputs, {self.blocks_done:,} of {blocks:,} blocks, {rate:.1f} MB/s, workers: {len(self.workers):,}"
                 + f", left out: {out:,}" * bool(out) + f", inputs that failed: {failed:,}" * bool(failed))

    # Jobs.

    def begin(self, job: Job) -> None:
        self.blocks_done -= len(job.blocks)
        job.blocks.clear()
        job.compared = 0
        given, size = job.given, job.given.told["size"] or 0
        if job.count == 1:
            self.add(job, "answer_whole", (given.size,), size * UNPACKED if given.compression else size)
        elif not given.is_new and not job.turn and not self.work.is_parts:
            self.add(job, "keep", (), size)
        else:
            self.begin_blocks(job)

    def begin_blocks(self, job: Job) -> None:
        block, size = self.wanted.block, job.given.told["size"]
        for index in range(job.count):
            start, end = index * block, min((index + 1) * block, size)
            self.add(job, "answer", (index, start, end), end - start)

    def add(self, job: Job, method: str, arguments: Tuple[Any, ...], size: int) -> None:
        self.waiting.append(Task(job, method, arguments, size, job.turn))

    def finished(self, task: Task, value: Any) -> None:
        """Goes on with a job behind a task that is done. Before the parts are put together, many workers compare those
        that stay, and inputs that have no version."""
        job = task.job
        if task.method == "answer":
            job.blocks[task.arguments[0]] = value
            self.blocks_done += 1
            self.bytes_done += task.bytes
            if len(job.blocks) < job.count:
                return
            if self.work.is_parts or not job.given.is_versioned:
                for index, block in sorted(job.blocks.items()):
                    self.add(job, "compare", (index, block), block["bytes"] + block["end"] - block["start"])
                return
        elif task.method == "compare":
            job.compared += 1
            if job.compared < job.count:
                return
        elif task.method == "keep" and value is None:
            self.begin_blocks(job)
            return
        else:
            if task.method != "finish":
                self.blocks_done += job.count
                self.bytes_done += job.given.told["size"] or 0
            self.close(job, value)
            return
        blocks = [job.blocks[index] for index in range(job.count)]
        self.add(job, "finish", (blocks,), sum(block["bytes"] for block in blocks))

    def begin_again(self, task: Task, address: str, damaged: str) -> None:
        """Begins an input anew, of which a part is not what its worker wrote, or the attributes have changed: so all
        answers are to one state of the file. Parts that are whole are kept."""
        job, given = task.job, task.job.given
        told = given.told
        try:
            there = self.bounded(f"a look at {given.url}", look, given.fs, given.path)
            given.require(there)
        except Anew:
            told = there
        except Exception as error:  # file systems have many
            self.close(job, f"{type(error).__name__}: {error}")
            return
        if not damaged and told == given.told:
            self.fail(task, address, "OSError: it is another file there")
            return
        job.turn += 1
        if job.turn > MOST_TURNS:
            self.close(job, f"RuntimeError: {damaged or 'the input'} changes again and again")
            return
        given.told, given.is_new = told, False
        self.begin(job)

    def close(self, job: Job, came: Any) -> None:
        """Ends a job, with its counts or the reason why it has no answers."""
        if job.came is None:
            job.came = came
            self.left -= 1

    # Failures.

    def fail(self, task: Task, address: str, reason: str, weight: float = 1) -> None:
        """A task is tried again after a failure, or that was enough."""
        task.failed[address] = reason
        task.failed_at = task.failed_at or time.monotonic()
        task.failures += weight
        if task.failures > self.wanted.retries and not self.has_hope(task):
            self.close(task.job, reason)
        else:
            again = time.monotonic() + min(5.0, 0.2 * 2 ** min(task.failures, 5))
            heapq.heappush(self.later, (again, next(self.numbers), task))

    def has_hope(self, task: Task) -> bool:
        """Whether one worker alone has failed, and another one may do the task: it works, or nothing says since then
        that it does not. A run waits for that, but not for longer than for any progress."""
        is_late = time.monotonic() - task.failed_at > self.wanted.wait
        return not is_late and len(task.failed) < 2 and any(
            told["status"] == "running" and address not in task.failed.keys() | self.stuck
            and self.unfit_at.get(address, 0) < task.failed_at for address, told in self.workers.items())

    @property
    def left_out(self) -> Set[str]:
        """The workers that get nothing at the moment."""
        now = time.monotonic()
        return self.stuck | {address for address, unfit_at in self.unfit_at.items()
                             if unfit_at + self.unfit_for[address] > now}

    def leave_out(self, address: str, reason: str) -> None:
        if address in self.workers:
            self.tell(f"worker {address} is left out: {reason}")
            now, seconds = time.monotonic(), self.unfit_for.get(address, LEFT_OUT_SECONDS / 2)
            if self.unfit_at.get(address, -seconds) + seconds <= now:
                self.unfit_for[address] = min(2 * seconds, MOST_LEFT_OUT)
            self.unfit_at[address] = now

    def suspect(self, sent: Sent) -> None:
        """Dask has given up a task, since worker after worker died of it, or beside it."""
        for task in sent.open:
            if task.is_suspect:
                self.close(task.job, f"KilledWorker: worker after worker died that had {task.words}")
            else:
                task.is_suspect = True
                self.again(task)

    def tell(self, line: str) -> None:
        """Says a thing once."""
        if line not in self.told:
            self.told.add(line)
            self.say(line)

    def require_ownership(self) -> None:
        """Ends this run if another one has taken its output over."""
        record: Dict[str, Any] = {}
        with contextlib.suppress(Exception):  # file systems have many
            record = self.bounded(f"a look at {self.work.out}", self.work.place.owner)
        if record and record["run"] != self.work.run:
            raise Lost(f"{self.work.out} is another output here, or another run has taken it over")

    # The cluster.

    def asked(self, call: Callable[..., Any], *arguments: Any) -> Any:
        """What the scheduler says; None if it takes too long, or knows no such thing."""
        try:
            return within(PATIENT_SECONDS / 2, "the scheduler", call, *arguments)
        except Overdue:
            silent = time.monotonic() - self.seen
            if silent > min(PATIENT_SECONDS, self.wanted.wait / 2):
                self.tell(SILENT_SCHEDULER)
            if silent > self.wanted.wait:
                raise Lost(f"the scheduler is lost: it has not answered for {self.wanted.wait:g} seconds") from None
        except OSError as error:
            raise Lost(f"the scheduler is lost: {error}") from None
        return None

    def look(self) -> None:
        """Asks the scheduler what its workers are and have. What one has of which nothing comes is sent again."""
        # The first question fails where the connection is lost, and the second one does not.
        had = self.asked(self.client.processing)
        info = None if had is None else self.asked(lambda: self.client.scheduler_info(n_workers=-1))
        if had is None or info is None:
            return
        now = self.seen = time.monotonic()
        self.told.discard(SILENT_SCHEDULER)
        self.take()  # what has come meanwhile is not late, however long this driver was kept from looking
        self.workers, self.keys_of = info["workers"], {address: list(map(str, keys)) for address, keys in had.items()}
        worker_of = {key: address for address, keys in self.keys_of.items() for key in keys}
        self.stuck.clear()
        for key, sent in list(self.sent.items()):
            address = worker_of.get(key, "")  # a stopped one may have an outcome, and Dask says that it is done
            is_queued = not address and sent.future.status == "pending"
            sent.heard_at = now if is_queued else max(sent.heard_at, self.heard_at.get(address, 0))
            if now - sent.heard_at > STUCK_SECONDS:
                self.stuck.add(address)
                if not sent.is_twin:
                    sent.is_twin = True
                    self.again(*sent.open)
                    status = self.workers.get(address, {}).get("status", "gone")
                    self.tell(f"nothing comes of the tasks of worker {address}, which is {status}; others get them")
            elif not sent.open and not sent.is_twin:  # which stays: a stuck worker that seems to be idle would get more
                del self.sent[key]
                sent.future.release()

    def be_patient(self) -> None:
        """Says what is waited for, and ends a run that waits for too long."""
        waited = time.monotonic() - self.progress
        is_late = waited > self.wanted.wait
        if not is_late and (self.is_patient or waited <= min(PATIENT_SECONDS, self.wanted.wait / 2)):
            return
        self.is_patient = True
        status_of = {address: told["status"] for address, told in self.workers.items()}
        waits = [f"worker {address} is {status}" for address, status in status_of.items() if status != "running"]
        others = {address: sum(key not in self.sent for key in keys) for address, keys in sorted(self.keys_of.items())}
        waits += [f"worker {address} has {count} tasks of others" for address, count in others.items() if count]
        is_fit = "running" in (status for address, status in status_of.items() if address not in self.left_out)
        what = "".join(f"; {each}" for each in waits[:5])
        if is_late:
            reason = "nothing has gone on" if is_fit else "no worker has been fit"
            raise Lost(f"{reason} for {self.wanted.wait:g} seconds{what}")
        self.say(f"{'nothing goes on' if is_fit else f'no worker is fit of {len(status_of)}'}, and the run waits{what}")

    def go_on(self) -> None:
        self.progress, self.is_patient = time.monotonic(), False

    # Tasks.

    def fill(self) -> None:
        """Keeps the window full."""
        window = LEAST_WINDOW + 2 * self.threads
        for _ in range(window - sum(not sent.is_twin for sent in self.sent.values())):
            tasks = self.next_tasks()
            if not tasks:
                break
            self.submit(tasks)

    @property
    def threads(self) -> int:
        return sum(told["nthreads"] for told in self.workers.values())

    def next_tasks(self) -> List[Task]:
        """What is sent next: a task, or small inputs together. At last, one by one, those that may have killed
        workers."""
        batch: List[Task] = []
        most, size = min(BATCH, 1 + self.left // (4 * self.threads or 1)), 0
        while self.later and self.later[0][0] <= time.monotonic():
            self.again(heapq.heappop(self.later)[2])
        while len(self.waiting) < BATCH and (job := next(self.unbegun, None)):
            self.begin(job)
        while self.waiting and len(batch) < most:
            task = self.waiting[0]
            is_small = task.method == "answer_whole" and task.bytes <= BATCH_BYTES and not task.failed
            if batch and not (is_small and size + task.bytes <= BATCH_BYTES):
                break
            self.waiting.popleft()
            if not task.is_stale:
                batch.append(task)
                size += task.bytes
                if not is_small:
                    break
        sent = (sent for sent in self.sent.values() if not sent.is_twin)
        if batch or any(task.is_suspect for each in sent for task in each.open):
            return batch
        return [self.suspects.popleft()] if self.suspects else []

    def again(self, *tasks: Task) -> None:
        for task in tasks:
            if task.is_suspect:
                self.suspects.append(task)
            else:
                self.waiting.appendleft(task)

    def submit(self, tasks: List[Task]) -> None:
        """Sends tasks to Dask. Where some workers are left out, or have failed, it names the others."""
        failed, out = {address for task in tasks for address in task.failed}, self.left_out
        fit = [address for address in self.workers if address not in out]
        workers = [address for address in fit if address not in failed] or fit
        is_bound = 0 < len(workers) < len(self.workers)
        name = tasks[0].words if len(tasks) == 1 else f"{len(tasks)} inputs"
        name = name.encode(errors="backslashreplace").decode()  # names of files need not be UTF-8, and Dask's are
        key = f"{self.work.words[0]}-{self.work.run}-{next(self.numbers)} {name}"
        calls = [(task.method, task.job.given, task.arguments, FIRST_SECONDS + task.bytes / self.wanted.slowest)
                 for task in tasks]
        each = min(PATIENT_SECONDS, self.wanted.wait / 3)
        future = self.client.submit(self.do, len(tasks), self.work.fields, pickle.dumps(calls), key, each, key=key,
                                    pure=False, workers=workers if is_bound else None, allow_other_workers=is_bound)
        self.sent[key] = Sent(future, tasks, time.monotonic())
        self.done.add(future)

    def take(self) -> bool:
        """Takes what has come. Gives whether something did."""
        while not self.heard.empty():
            self.hear(self.heard.get()[1])
        came = self.done.next_batch(block=False)
        for future, result in came:
            sent = self.sent.pop(future.key, None)
            if sent is None:
                continue
            if future.status == "finished" and isinstance(result, tuple):
                self.take_outcomes(sent, *result)
            elif future.status != "error":  # another client's restart takes all that a worker has
                self.again(*sent.open)
            elif isinstance(error := future.exception(timeout=PATIENT_SECONDS), KilledWorker):
                self.suspect(sent)
            else:
                for task in sent.open:
                    self.fail(task, "", f"{type(error).__name__}: {error}")
        return bool(came)

    def hear(self, told: Dict[str, Any]) -> None:
        """A worker tells of a task that goes on."""
        sent = self.sent.get(told["key"])
        if sent is None:
            return
        self.heard_at[told["worker"]] = time.monotonic()
        self.go_on()
        task = sent.tasks[told["number"]]
        if told["taken"] > LONG_SECONDS and not task.job.is_long:
            task.job.is_long = True
            self.say(f"worker {told['worker']} has had {task.words} for {told['taken']:.0f} seconds, of "
                     f"{told['limit']:.0f} that it has")

    def take_outcomes(self, sent: Sent, address: str, outcomes: List[Tuple[str, Any]]) -> None:
        unfit = {value for what, value in outcomes if what == "unfit"}
        self.heard_at[address] = time.monotonic()
        if unfit:
            self.require_ownership()
        else:
            self.go_on()
            self.unfit_for[address] = LEFT_OUT_SECONDS
        for reason in unfit:
            self.leave_out(address, reason)
        for task, (what, value) in zip(sent.tasks, outcomes):
            if not task.is_stale:
                self.take_outcome(task, address, what, value)

    def take_outcome(self, task: Task, address: str, what: str, value: Any) -> None:
        if what == "unfit":
            self.again(task)
        elif what == "done":
            task.is_done = True
            for failed, reason in task.failed.items():
                if failed != address:
                    self.leave_out(failed, reason)
            self.finished(task, value)
        elif what == "anew":
            self.begin_again(task, address, value)
        elif what == "hung":  # twice is enough
            self.say(f"worker {address} has had {task.words} for {value:.0f} seconds; another one gets it")
            reason = f"TimeoutError: it took more than {value:.0f} seconds"
            self.fail(task, address, reason, (self.wanted.retries + 1) / 2)
        else:
            self.fail(task, address, value)
