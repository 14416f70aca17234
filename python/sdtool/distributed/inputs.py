"""The inputs of a run: every file that the words name, or why it is none."""
import concurrent.futures
import fnmatch
import functools
import itertools
import os
import re
from typing import Any, Dict, Iterator, List, NamedTuple, Optional, Tuple, Union

from fsspec.core import url_to_fs
from fsspec.implementations.local import LocalFileSystem
from fsspec.registry import known_implementations

from .bounded import Bounded, Overdue
from .packed import LONGEST_BEGINNING, kind_of, name_without_suffix
from .work import (AT_ONCE, MAGIC, OURS, STORE_KEYS, Given, Place, entries, is_same, look, plain, printable,
                   reason_of, renames, shown_url)

# The files that runs write beside answers. Their content says whether a run wrote them, or that of run.json.
OF_RUNS = re.compile(rf"(.*/)?{OURS}(-part-\d{{6,}})?\.json|"
                     rf"{OURS}/(run\.json|sdtool-[0-9a-f]{{32}}/[0-9a-f]{{32}}|inputs/.*/part-\d{{6,}})")
SOME = 1000  # inputs, of which a store is asked together


class Found(NamedTuple):
    """A file that was found, by its name below the folder that was given; or a thing that is no input, and why."""
    path: str
    name: str
    problem: str = ""
    told: Optional[Dict[str, Any]] = None  # what a listing of an object store has told


class Finder:
    """Finds what is below a folder: all of it, or what has a pattern's form. What it cannot look into is found too,
    with the reason, which fsspec's find and glob do not tell."""

    def __init__(self, fs: Any, above: str, bounded: Bounded, is_pattern: bool) -> None:
        self.fs, self.above, self.bounded, self.is_pattern = fs, above, bounded, is_pattern

    def found(self, path: str, problem: str = "", told: Optional[Dict[str, Any]] = None) -> Found:
        name = os.path.basename(path) if self.is_pattern else os.path.relpath(path, self.above)
        return Found(path, name, problem, told)

    def find(self, folder: str, parts: List[str]) -> Iterator[Found]:
        """What the parts of a pattern lead to: a part has the form of one name, and ** is any folders."""
        part, *rest = parts
        try:
            listed = sorted(self.bounded(f"the listing of {folder}", entries, self.fs, folder or "/"),
                            key=lambda each: str(each["name"]))
        except Exception as error:  # file systems have many
            if not (self.is_pattern and isinstance(error, (FileNotFoundError, NotADirectoryError))):
                yield self.found(folder, f"cannot be listed: {reason_of(error)}")
            return
        paths, is_output = [each["name"].rstrip("/") for each in listed], False
        try:
            if f"{folder.rstrip('/')}/{OURS}" in paths:
                is_output = bool(self.bounded(f"a look at {folder}", Place(self.fs, folder).owner))
        except Exception as error:
            if folder != self.above:
                yield self.found(folder, f"cannot be looked at: {reason_of(error)}")
                return
        if is_output and folder != self.above:
            yield self.found(folder, "has the answers of a run, and is no input")
            return
        if part == "**" and rest:
            yield from self.find(folder, rest)
        for path, told in zip(paths, listed):
            is_folder, is_alike = told["type"] == "directory", fnmatch.fnmatchcase(os.path.basename(path), part)
            is_of_run = self.is_pattern and is_output and is_folder and os.path.basename(path) == OURS
            if is_of_run or path == folder.rstrip("/"):
                continue
            if part == "**" and is_folder:
                yield from self.find(path, parts)
            elif rest and part != "**" and is_alike and (is_folder or told.get("islink")):
                yield from self.find(path, rest)
            elif not rest and is_alike:
                is_enough = not renames(self.fs) and STORE_KEYS & told.keys()  # so no look at it tells more
                yield self.found(path, told=plain(told) if is_enough else None)


def found(fs: Any, path: str, kind: str, bounded: Bounded) -> Iterator[Found]:
    """What a URL names: a file, all of a folder, or what a pattern matches."""
    magic = MAGIC.search(path)
    if kind == "directory":
        yield from Finder(fs, path, bounded, False).find(path, ["**"])
    elif kind:
        yield Found(path, os.path.basename(path))
    elif magic:
        above, _, pattern = path[:magic.start()].rpartition("/")
        matches = Finder(fs, above, bounded, True).find(above, (pattern + path[magic.start():]).split("/"))
        yield from {one.path: one for one in matches}.values()  # ** may lead to a file in several ways


def kind_at(fs: Any, path: str) -> str:
    """`directory` or another kind of file; nothing where there is none."""
    return str(fs.info(path)["type"]) if fs.exists(path) else "link" if Place(fs, path).is_there(path) else ""


def opened(url: str) -> Any:
    """The file system and the path of a URL. fsspec takes a chain of protocols with one that it does not know for a
    path."""
    for name in url.split("::")[:-1]:
        if name.split("://")[0] not in known_implementations:
            raise ValueError(f"{url}: fsspec knows no protocol {name}")
    try:
        return url_to_fs(url)
    except Exception as error:  # protocols and their packages have many
        raise ValueError(f"{url}: {reason_of(error)}") from None


class Taking:
    """Takes inputs for an output, each with a place for its answers that nothing else has."""

    def __init__(self, place: Place, is_parts: bool, bounded: Bounded) -> None:
        self.place, self.is_parts, self.bounded = place, is_parts, bounded
        self.inputs: List[Given] = []
        self.refused: List[Tuple[str, str]] = []  # the URL of what was found and gets no answers, and why
        # the paths of answers, and with / behind them the folders above, by the argument
        self.taken: Dict[str, int] = {}

    def take_all(self, urls: List[str]) -> None:
        for number, url in enumerate(urls):
            try:
                self.take_url(url, number)
            except Overdue as error:
                self.refused.append((printable(url), f"cannot be read: {error}"))
        if not self.inputs and not self.refused:
            raise ValueError(f"{' '.join(urls)}: no regular file but those of runs")

    def take_url(self, url: str, number: int) -> None:
        fs, path = self.bounded(f"a connection to {url}", opened, url)
        kind = self.bounded(f"a look at {url}", kind_at, fs, path)
        if kind == "directory":
            self.bounded(f"a look at {url}", self.require_apart, fs, path, url)
        count = 0
        for one, seen in self.seen(fs, found(fs, path, kind, self.bounded)):
            count += 1
            if self.is_record(fs, path, one):
                continue
            problem = seen if isinstance(seen, str) else self.take(seen, number)
            if problem and kind and kind != "directory":
                raise ValueError(f"{shown_url(fs, one.path)} {problem}")
            if problem:
                self.refused.append((shown_url(fs, one.path), problem))
        if not count:
            what = "but those of runs" if kind == "directory" else "has such a name"
            raise ValueError(f"{url}: no regular file {what}")

    def require_apart(self, fs: Any, path: str, url: str) -> None:
        """The output is in no input, whatever links lead there."""
        root, folder = ((os.path.realpath(each) if self.place.is_local else each) for each in (self.place.root, path))
        if is_same(fs, self.place.fs) and f"{root}/".startswith(f"{folder.rstrip('/')}/"):
            raise ValueError(f"--out: {shown_url(fs, self.place.root)} is in the input {url}")

    def is_record(self, fs: Any, folder: str, one: Found) -> bool:
        """Whether a run wrote this beside its answers. What cannot be read is no such thing, and is named."""
        if one.problem or not OF_RUNS.fullmatch(one.name):
            return False
        try:
            place, is_below = Place(fs, folder), one.name.startswith(f"{OURS}/")
            wrote: Any = place.owner if is_below else functools.partial(place.read_record, one.path)
            return bool(self.bounded(f"a look at {one.path}", wrote))
        except Exception:  # file systems have many
            return False

    def seen(self, fs: Any, ones: Iterator[Found]) -> Iterator[Tuple[Found, Union[str, Given]]]:
        """What was found, with the input that it is, or why it is none. A store is asked for some at once."""
        if renames(fs):
            yield from ((one, self.see(fs, one)) for one in ones)
            return
        with concurrent.futures.ThreadPoolExecutor(AT_ONCE) as threads:
            for some in iter(lambda: list(itertools.islice(ones, SOME)), []):
                yield from zip(some, threads.map(functools.partial(self.see, fs), some))

    def see(self, fs: Any, one: Found) -> Union[str, Given]:
        """The input that a file is, or why it cannot be one. One bounded call makes all looks, since it costs as much
        as they do."""
        if one.problem:
            return one.problem
        try:
            seen: Union[str, Given] = self.bounded(f"a look at {one.path} or the place of its answers", self.input_of,
                                                   fs, one)
            return seen
        except FileNotFoundError:
            return "is a link that leads nowhere, or is gone"
        except Exception as error:  # file systems have many
            return str(error) if type(error) is ValueError else f"cannot be read: {reason_of(error)}"

    def input_of(self, fs: Any, one: Found) -> Union[str, Given]:
        told = one.told or look(fs, one.path)
        if told["type"] != "file":
            return "is a folder, or a link to one" if told["type"] == "directory" else "is not a regular file"
        beginning = beginning_of(fs, one.path, told["size"])
        kind = kind_of(one.path, beginning)
        if told["size"] == 0 and beginning:
            return "does not tell its size"
        name = name_without_suffix(one.name, kind)
        if f"{name}/".startswith(f"{OURS}/"):
            return "has a name that is kept for runs"
        answers = f"{self.place.root}/{name}"
        folder = answers if self.is_parts else f"{self.place.ours}/inputs/{name}"
        given = Given(fs, one.path, kind, answers, folder, told)
        try:
            given.is_new = not self.place.is_there(folder)
            return self.place.problem_of(given, self.is_parts) or given
        except Exception as error:
            return f"cannot have its answers at {answers}: {reason_of(error)}"

    def take(self, given: Given, number: int) -> str:
        """Takes an input. Gives the reason if another one has its place."""
        answers = given.answers
        above = [f"{answers[:at]}/" for at, character in enumerate(answers) if character == "/"]
        clashing = {self.taken[each] for each in [answers, f"{answers}/", *(each[:-1] for each in above)]
                    if each in self.taken}
        if clashing - {number}:
            raise ValueError(f"{given.url} has the answers of another input; give the folder of both")
        if clashing:
            return f"would have its answers at {answers}, as another input has; answer it alone, to another folder"
        self.taken.update(dict.fromkeys([answers, *above], number))
        self.inputs.append(given)
        return ""


def beginning_of(fs: Any, path: str, size: Optional[int]) -> bytes:
    """The first bytes of a file. A local one is read though it tells of none, as those of /proc have some."""
    if isinstance(fs, LocalFileSystem):
        with open(path, "rb") as file:
            return file.read(LONGEST_BEGINNING)
    return bytes(fs.cat_file(path, start=0, end=LONGEST_BEGINNING))[:LONGEST_BEGINNING] if size else b""
