"""Answers for a stream of objects: each descriptor is answered once, by all processors, and the order is kept."""
import collections
import concurrent.futures
import contextlib
import itertools
from typing import Any, Deque, Dict, Iterable, Iterator, List, NamedTuple, Optional, Set, Tuple

from sdtool.audit import pool
from sdtool.audit.findings import Answer, unread
from sdtool.audit.library import AnswersFault
from sdtool.audit.protocols import Question
from sdtool.audit.sources.items import UNREADABLE, WITHOUT_OWNER, Item
from sdtool.audit.sources.opening import OpeningFault
from sdtool.audit.sources.places import SHARE

CHUNK = 4_000          # objects that are answered together
_AHEAD = 3             # chunks under way for each worker
_MOST_CHARACTERS = 16 << 20  # of descriptors whose answers are kept, in either generation
Key = Tuple[str, str, str]  # form, kind, text
_PLACE = "\0"  # between a kind and a place


class Answered(NamedTuple):
    item: Item
    answer: Answer


class Held(NamedTuple):
    """What the processes of a pool hold: the question, and what makes a report of a block."""

    question: Question
    make_report: Any = None


def _answer_groups(groups: Dict[Tuple[str, str], List[str]]) -> List[Tuple[Key, Answer]]:
    return answer_groups(pool.held().question, groups)


def answer_groups(question: Question, groups: Dict[Tuple[str, str], List[str]]) -> List[Tuple[Key, Answer]]:
    """The answers to descriptors, which are grouped by form and kind."""
    found: List[Tuple[Key, Answer]] = []
    for (form, placed), texts in groups.items():
        kind, _, place = placed.partition(_PLACE)
        answers = question.answer(form, kind, texts, place)
        if len(answers) != len(texts):
            raise AnswersFault(f"{len(texts)} descriptors have {len(answers)} answers")
        found += [((form, placed, text), answer) for text, answer in zip(texts, answers)]
    return found


# What a question asks of the places of objects: nothing, whether their sources have owners and of which share they are,
# or all.
NO_PLACES, OWNERS, ALL_PLACES = "", "owners", "all"


def _keys(items: List[Item], asks: str) -> List[Key]:
    """What the answer for an object depends on: form, kind and text, and its place if the question asks for it."""
    if not asks or not any(item.place for item in items):
        return [(item[3], item[5], item[4]) for item in items]
    return [(item[3], item[5] + _PLACE + item.place if item.place
             and (asks == ALL_PLACES or item.place == WITHOUT_OWNER or item.place.startswith(SHARE))
             else item[5], item[4]) for item in items]


class _Memory:
    """Answers of descriptors that were seen lately. The older half is forgotten when the newer one is full."""

    def __init__(self) -> None:
        self.new: Dict[Key, Answer] = {}
        self._old: Dict[Key, Answer] = {}
        self._characters = 0

    def get(self, key: Key) -> Optional[Answer]:
        found = self.new.get(key)
        if found is None:
            found = self._old.get(key)
            if found is not None:
                self.put(key, found)
        return found

    def put(self, key: Key, answer: Answer) -> None:
        self.new[key] = answer
        self._characters += len(key[2]) + 500
        if self._characters > _MOST_CHARACTERS:
            self._old, self.new, self._characters = self.new, {}, 0


class _Chunk(NamedTuple):
    items: List[Item]
    keys: List[Key]
    work: Any  # a future, answers, or None


def _chunks(items: Iterable[Item]) -> Iterator[List[Item]]:
    rest = iter(items)
    size = 200  # the first answers come soon
    while True:
        chunk = list(itertools.islice(rest, size))
        if not chunk:
            return
        yield chunk
        size = CHUNK


class Engine:
    """Answers a question for objects: by this process, and by those of a pool if it has one."""

    def __init__(self, question: Question, workers: Optional[pool.Pool] = None) -> None:
        self._question = question
        self._asks_places = question.asks_places
        self._pool = workers if workers is not None and workers.jobs > 1 else None
        self._memory = _Memory()
        self._under_way: Set[Key] = set()
        self.seen = 0  # objects that the sources have given

    def answer(self, items: Iterable[Item]) -> Iterator[Answered]:
        """Each object with its answer, in order."""
        waiting: Deque[_Chunk] = collections.deque()
        for number, chunk in enumerate(_chunks(items)):
            self.seen += len(chunk)
            keys = _keys(chunk, self._asks_places)
            waiting.append(_Chunk(chunk, keys, self._begin(keys, number)))
            while len(waiting) > (self._pool.jobs * _AHEAD if self._pool and self._pool.has_begun else 0):
                yield from self._end(waiting.popleft())
        while waiting:
            yield from self._end(waiting.popleft())

    def _begin(self, keys: List[Key], number: int) -> Any:
        """Has the descriptors of a chunk answered that are new."""
        groups: Dict[Tuple[str, str], List[str]] = {}
        under_way, memory = self._under_way, self._memory
        for key in dict.fromkeys(keys):
            if key[0] != UNREADABLE and key not in under_way and memory.get(key) is None:
                under_way.add(key)
                groups.setdefault(key[:2], []).append(key[2])
        if not groups:
            return None
        # A short source is answered before workers would have started.
        if self._pool is None or number < 2:
            return answer_groups(self._question, groups)
        return self._pool.submit(_answer_groups, groups)

    def _end(self, chunk: _Chunk) -> Iterator[Answered]:
        work = chunk.work
        found = self._pool.result(work) if self._pool and isinstance(work, concurrent.futures.Future) else work
        for key, answer in found or ():
            self._memory.put(key, answer)
            self._under_way.discard(key)
        known = self._memory.new
        yield from map(Answered, chunk.items, [known.get(key) or self._other(item, key)
                                               for item, key in zip(chunk.items, chunk.keys)])

    def _other(self, item: Item, key: Key) -> Answer:
        """The answer for an object that can't be read, or whose answer isn't among the newest."""
        if item.form == UNREADABLE:
            return unread(item.text, item.help)
        # It may have been forgotten in the meantime.
        return self._memory.get(key) or answer_groups(self._question, {key[:2]: [key[2]]})[0][1]


def workers_of(jobs: Optional[int], scheduler: Optional[str], held: Held) -> pool.Pool:
    """So many processes, one for each processor, or the workers of a Dask scheduler."""
    if scheduler is None:
        return pool.Pool(jobs or pool.processors(), held)
    try:
        from sdtool.audit.cluster import Cluster
    except ImportError as error:
        raise OpeningFault(f"--scheduler: {error}; pip install 'sdtool[distributed]' has what it needs") from error
    return Cluster(scheduler, held)


@contextlib.contextmanager
def engine_of(question: Question, jobs: Optional[int], scheduler: Optional[str]) -> Iterator[Engine]:
    """An engine with a pool of its own."""
    workers = workers_of(jobs, scheduler, Held(question))
    try:
        yield Engine(question, workers)
    finally:
        workers.close()
