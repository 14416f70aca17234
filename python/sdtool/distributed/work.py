"""What a worker does in a run: it answers blocks, and puts the parts of an input together."""
import concurrent.futures
import contextlib
import dataclasses
import functools
import hashlib
import io
import itertools
import json
import os
import pickle
import re
import stat
import threading
import uuid
from typing import Any, Callable, Counter, Dict, Iterator, List, Optional, Sequence, Set, Tuple

from fsspec.core import url_to_fs
from fsspec.implementations.local import LocalFileSystem
from fsspec.implementations.memory import MemoryFileSystem
from fsspec.spec import AbstractFileSystem
from sdtool import _library, _runs

from .bounded import Overdue, within
from .packed import Unpacked

AT_ONCE = 16  # small inputs
READ, SEEK = 4 << 20, 1 << 16  # bytes of a request, and of one behind a block, where its last line ends
OF_STORE = 65 << 20  # bytes of a request to an object store: a block with the end of its last line
MAGIC = re.compile(r"[*?\[]")  # in names that fsspec takes for patterns
OURS = "_sdtool"  # the folder of runs, and how their other files begin
MANIFEST = f"{OURS}.json"
PART = re.compile(r"part-(\d{6,})")
EVIDENCE = re.compile(rf"{OURS}-part-(\d{{6,}})\.json")
RUN = re.compile(r"sdtool-[0-9a-f]{32}")
UNFINISHED = re.compile(r"[0-9a-f]{32}")
# With one of these, each change of a file shows.
STORE_KEYS = {"ETag", "etag", "VersionId", "generation", "md5Hash", "Content-MD5", "Digest"}
VERSION_KEYS = {"ino", *STORE_KEYS}
TIME_KEYS = {"created", "mtime", "modified", "modify", "modificationTime", "last_modified", "LastModified", "updated"}
# What may change of a local file though its content does not: `created` is the time of the last change of attributes.
ATTRIBUTES = {"mode", "uid", "gid", "nlink", "created"}
LONGEST_RECORD = 1 << 30  # bytes
SHORT_SECONDS = 30  # for what is done beside a task
new_digest = functools.partial(hashlib.blake2b, digest_size=32)
Record = Dict[str, Any]


class Anew(Exception):
    """An input has to be begun anew: the part that is named is not what its worker wrote; or where none is named, the
    attributes of the input have changed, and perhaps nothing else."""


class Unfit(Exception):
    """The worker cannot work: it has another library, or another output, or cannot write there."""


# File systems.

def is_same(fs: Any, other: Any) -> bool:
    """Whether two file systems are the same one. Those of other threads are not equal for fsspec."""
    return type(fs) is type(other) and (fs.storage_args, fs.storage_options) == (other.storage_args,
                                                                                 other.storage_options)


def renames(fs: Any) -> bool:
    """Whether a file gets another name in one step. In object stores and memory it appears with all its bytes, and a
    new name would be a copy."""
    return isinstance(fs, LocalFileSystem) or type(fs).mv is not AbstractFileSystem.mv


def has_one_connection(fs: Any) -> bool:
    """As SFTP: two threads at once would take each other's answers."""
    return renames(fs) and not isinstance(fs, LocalFileSystem)


def chunks_of(fs: Any, path: str, start: int, end: int, size: int = 0) -> Iterator[bytes]:
    """Bytes of a file, each by a request of its own: threads that open a file of memory:// share its position."""
    size = size or (READ if renames(fs) else OF_STORE)
    while start < end:
        chunk = fs.cat_file(path, start=start, end=min(start + size, end))
        # some servers ignore what is asked for, and give the whole file
        if not 0 < len(chunk) <= min(size, end - start):
            raise OSError(f"{path} has {len(chunk)} bytes in place of those from {start} to {end}")
        start += len(chunk)
        yield from (chunk[at:at + READ] for at in range(0, len(chunk), READ))


def shown_url(fs: Any, path: str) -> str:
    """The URL of a file, without a password and without control characters."""
    return printable(fs.unstrip_protocol(path).replace("///", f"//{getattr(fs, 'host', '')}/", 1))


def printable(text: str) -> str:
    """A text on one line, whose names and reasons move no cursor."""
    return re.sub("[\0-\x1f\x7f-\x9f]", lambda found: f"%{ord(found[0]):02X}", text)


def reason_of(error: BaseException) -> str:
    return str(error) if isinstance(error, Unfit) else f"{type(error).__name__}: {error}"


def plain(told: Record) -> Record:
    """What a file system tells of a file, but for SFTP's `time`, which is that of the last reading."""
    return {key: value if isinstance(value, (int, type(None))) else str(value)
            for key, value in told.items() if key != "time"}


def look(fs: Any, path: str) -> Record:
    fs.invalidate_cache(path)
    return plain(fs.info(path))


def entries(fs: Any, folder: str) -> List[Record]:
    """What is in a folder. fsspec's listing of a local one fails if one of its files goes meanwhile."""
    fs.invalidate_cache(folder)
    if not isinstance(fs, LocalFileSystem):
        return list(fs.ls(folder, detail=True))
    with os.scandir(folder) as found:
        return [{"name": fs._strip_protocol(entry.path), "islink": entry.is_symlink(),
                 "type": "directory" if entry.is_dir(follow_symlinks=False) else "file"} for entry in found]


def files_of(fs: Any, folder: str, *names: "re.Pattern[str]") -> Iterator[Tuple[str, "re.Match[str]"]]:
    """The files in a folder, if it is one, that have such a name as a whole."""
    there: List[Record] = []
    with contextlib.suppress(FileNotFoundError, NotADirectoryError):  # another run may remove it
        there = entries(fs, folder)
    for told in there:
        match = next(filter(None, (name.fullmatch(os.path.basename(told["name"])) for name in names)), None)
        if match and told["type"] != "directory":
            yield told["name"], match


class Upload:
    """A file of an object store or of memory, which appears when it is whole: by one request, or by some if it is
    large."""

    def __init__(self, fs: Any, path: str) -> None:
        self.fs, self.path, self.held = fs, path, io.BytesIO()
        self.file: Any = None

    def write(self, data: bytes) -> None:
        if (self.file is None and self.held.tell() + len(data) > OF_STORE
                and not isinstance(self.fs, MemoryFileSystem)):
            self.file = self.fs.open(self.path, "wb", autocommit=False, block_size=OF_STORE)
            self.file.write(self.held.getvalue())
            self.held = io.BytesIO()
        (self.file or self.held).write(data)

    def commit(self) -> None:
        if self.file is None:
            self.fs.pipe_file(self.path, self.held.getvalue())
        else:
            self.file.close()
            self.file.commit()

    def discard(self) -> None:
        if self.file is not None:
            self.file.discard()


# Records.

def seal_of(record: Record) -> str:
    """The digest of a record, so that one which was changed or torn is none."""
    return new_digest(json.dumps(record, sort_keys=True).encode()).hexdigest()


def total_of(blocks: List[Record]) -> Dict[str, int]:
    return {key: sum(block[key] for block in blocks) for key in ("lines", "errors", "bytes")}


def modules_digest(*folders: str) -> str:
    """The digest of the files of the module, and of folders in it."""
    top, digest = os.path.dirname(os.path.abspath(_library.__file__)), new_digest()
    names = [os.path.join(folder, name) for folder in ("", *folders)
             for name in os.listdir(os.path.join(top, folder))]
    for name in sorted(names):
        if name.endswith((".py", ".so")):
            with open(os.path.join(top, name), "rb") as file:
                digest.update(f"{name}\0{new_digest(file.read()).hexdigest()}\0".encode(errors="surrogateescape"))
    return digest.hexdigest()


# Of what this process has imported, whatever becomes of the files: it counts the answers, and compares them with the
# lines.
MODULES = modules_digest("distributed")


@dataclasses.dataclass
class Given:
    """An input, and where its answers go."""
    fs: Any
    path: str
    compression: Optional[str]
    answers: str  # the path of the file, or with --parts of the folder
    folder: str  # of the parts, their evidence and the manifest
    told: Record  # by this it is the same file with the same content
    is_new: bool = False  # the output has nothing of it

    @property
    def url(self) -> str:
        return shown_url(self.fs, self.path)

    @property
    def size(self) -> Optional[int]:
        """None: it can be read only from its start."""
        return None if self.compression else self.told["size"]

    @property
    def is_versioned(self) -> bool:
        """Whether its file system tells when its content changes. Else only its bytes do."""
        return bool((VERSION_KEYS | TIME_KEYS) & self.told.keys())

    def require_same(self) -> None:
        self.require(look(self.fs, self.path))

    def require(self, told: Record) -> None:
        both = STORE_KEYS & told.keys() & self.told.keys()  # listings of stores tell less than a look at one file
        keys = {"size", *both} if both else {*told, *self.told}
        changed = {key for key in keys if told.get(key) != self.told.get(key)}
        if changed and changed <= ATTRIBUTES and isinstance(self.fs, LocalFileSystem):
            raise Anew
        if changed:
            raise self.changed()

    def changed(self) -> OSError:
        return OSError(f"{self.url} has changed since the run began, or is another file here")

    def pieces(self, start: int, end: Optional[int]) -> Iterator[bytes]:
        """The bytes of the lines that begin in a block, read from the byte before it to the end of its last line; or
        all of a compressed file."""
        if end is None or self.size is None:
            with self.fs.open(self.path, "rb") as raw:
                unpacked = io.BufferedReader(Unpacked(raw.read, str(self.compression)), READ)
                yield from iter(lambda: unpacked.read(READ), b"")
            return
        at, has_begun, behind = max(0, start - 1), start == 0, min(end + SEEK, self.size)
        for first, last, size in (at, behind, 0), (behind, self.size, READ):
            for chunk in chunks_of(self.fs, self.path, first, last, size):
                if not has_begun:
                    skipped = chunk.find(b"\n") + 1
                    at += skipped or len(chunk)
                    if at >= end:
                        return
                    has_begun, chunk = bool(skipped), chunk[skipped or len(chunk):]
                ends = chunk.find(b"\n", max(0, end - 1 - at))
                yield chunk[:ends + 1] if ends >= 0 else chunk
                if ends >= 0:
                    return
                at += len(chunk)

    def require_content(self, block: Record) -> None:
        """Reads a block of an input that has no version again."""
        digest = new_digest()
        for piece in () if self.is_versioned else self.pieces(block["start"], block["end"]):
            digest.update(piece)
        if not self.is_versioned and digest.hexdigest() != block["read"]:
            raise self.changed()


class Place:
    """An output: the folder of answers, and what runs write there."""

    def __init__(self, fs: Any, root: str) -> None:
        self.fs, self.root, self.ours = fs, root, f"{root}/{OURS}"
        self.is_local, self.renames = isinstance(fs, LocalFileSystem), renames(fs)
        self.known: Optional[Set[str]] = None

    def list_all(self) -> None:
        """Lists an object store once, in place of a request for each input."""
        if not self.renames:
            self.fs.invalidate_cache(self.root)
            self.known = {path[:at] for path in self.fs.find(self.root)
                          for at, character in enumerate(path + "/") if character == "/"}

    @contextlib.contextmanager
    def folder_of(self, path: str, is_made: bool = False) -> Iterator[int]:
        """The folder of a local file. None between it and the output is a link, and none becomes one meanwhile."""
        folder = os.open(self.root, os.O_PATH | os.O_DIRECTORY)
        try:
            for name in path[len(self.root) + 1:].split("/")[:-1]:
                if is_made:
                    with contextlib.suppress(FileExistsError):
                        os.mkdir(name, dir_fd=folder)
                try:
                    below = os.open(name, os.O_PATH | os.O_DIRECTORY | os.O_NOFOLLOW, dir_fd=folder)
                except NotADirectoryError:
                    if stat.S_ISLNK(os.lstat(name, dir_fd=folder).st_mode):
                        raise OSError(f"{path} is behind a link") from None
                    raise
                os.close(folder)
                folder = below
            yield folder
        finally:
            os.close(folder)

    def move(self, old: str, new: str, is_made: bool = False) -> None:
        """Gives a file another name, where a file system does that in one step."""
        if self.is_local:
            with self.folder_of(old) as above, self.folder_of(new, is_made) as to:
                os.replace(os.path.basename(old), os.path.basename(new), src_dir_fd=above, dst_dir_fd=to)
            return
        if is_made:
            self.fs.makedirs(os.path.dirname(new), exist_ok=True)
        self.fs.mv(old, new)

    def is_there(self, path: str) -> bool:
        """Whether anything has this name, a link that leads nowhere too."""
        if self.known is not None:
            return path in self.known
        return os.path.lexists(path) if self.is_local else bool(self.fs.exists(path))

    def content(self, path: str) -> Record:
        """What a file of JSON says; nothing where there is no such regular file, or a torn one."""
        try:
            told = self.fs.info(path) if self.renames else {"type": "file"}
            if told["type"] != "file" or told.get("islink") or (told.get("size") or 0) > LONGEST_RECORD:
                return {}
            content = json.loads(self.fs.cat_file(path))
        except (FileNotFoundError, NotADirectoryError, ValueError, RecursionError):
            return {}
        return content if isinstance(content, dict) else {}

    def read_record(self, path: str) -> Record:
        """A record that a run wrote, by its seal; an empty one where there is none."""
        content = self.content(path)
        seal = content.pop("seal", None)
        return content if seal and seal == seal_of(content) else {}

    def owner(self, path: str = "") -> Record:
        """The run that owns the output, or that wrote this file, and its words; nothing where there is none."""
        record = self.content(path or f"{self.ours}/run.json")
        return record if isinstance(record.get("run"), str) and isinstance(record.get("words"), list) else {}

    def problem_of(self, given: Given, is_parts: bool) -> str:
        """Why the answers to an input cannot have their place, if so."""
        for path in (given.answers, f"{given.folder}/{MANIFEST}") if self.is_local else ():
            with contextlib.suppress(FileNotFoundError, NotADirectoryError), self.folder_of(path):
                pass
        if not self.is_there(given.answers):
            return ""
        there, manifest = f"has answers at {given.answers}, which", self.manifest_of(given.folder, is_parts)
        other = f"{self.ours}/inputs/{given.answers[len(self.root) + 1:]}" if is_parts else given.answers
        is_other = not manifest and bool(self.manifest_of(other, not is_parts))
        if is_same(given.fs, self.fs) and given.path == given.answers or not manifest and not is_other:
            return f"{there} no run wrote"
        if is_other:
            return f"{there} a run wrote {'without' if is_parts else 'with'} --parts"
        url = manifest.get("url", given.url)
        if url != given.url:
            return f"{there} are those of {url}"
        is_folder = self.fs.info(given.answers)["type"] == "directory"
        return "" if is_folder == is_parts else f"{there} is no {('file', 'folder')[is_parts]}"

    def manifest_of(self, folder: str, is_parts: bool) -> Record:
        """What a run wrote of the answers to an input; of parts that stay, whole or not."""
        evidence = files_of(self.fs, folder, EVIDENCE) if is_parts else ()
        for path, _ in itertools.chain([(f"{folder}/{MANIFEST}", None)], evidence):
            if "blocks" in (content := self.content(path)):
                return content
        return {}


class Work:
    """A run, as each of its workers knows it."""

    def __init__(self, run: str, words: Sequence[str], library: str, modules: str, out: str, is_parts: bool) -> None:
        self.fields = run, tuple(words), library, modules, out, is_parts
        self.run, self.words, self.library, self.modules, self.out = run, list(words), library, modules, out
        self.is_parts = is_parts
        self.place = Place(*url_to_fs(self.out))
        self.mine = f"{self.place.ours}/{self.run}"
        self.is_fit = False

    def require_fit(self) -> None:
        """Raises Unfit if the library, the module or the output is not the driver's, or nothing can be written
        there."""
        if self.is_fit:  # what is written looks whose the output is
            return
        self.require_ownership()
        for what, own, wanted in ("library", _library.digest(), self.library), ("module", MODULES, self.modules):
            if own != wanted:
                raise Unfit(f"its {what} is not the driver's, but has the digest {own}")
        try:
            probe = f"{self.mine}/{uuid.uuid4().hex}"
            self.place.fs.pipe_file(probe, b"written")
            self.place.fs.rm_file(probe)
        except Exception as error:  # file systems have many
            raise Unfit(f"it cannot write to {self.out}: {reason_of(error)}") from None
        self.is_fit = True

    def require_ownership(self) -> None:
        """Raises Unfit if another run has taken the output over."""
        if self.place.owner().get("run") != self.run:
            raise Unfit(f"{self.out} is gone, is another output here, or another run has taken it over")

    def require_ownership_of(self, path: str) -> None:
        """The same for one file. What is among the files of runs counts only with a digest, so that a run which has
        lost the output may change it."""
        if not path.startswith(f"{self.place.ours}/"):
            self.require_ownership()

    @contextlib.contextmanager
    def written(self, path: str) -> Iterator[Any]:
        """A file that appears when it is whole. Copies of a task write files of their own, and one stays."""
        fs, unfinished = self.place.fs, f"{self.mine}/{uuid.uuid4().hex}"
        if not self.place.renames:
            upload = Upload(fs, path)
            try:
                yield upload
                self.require_ownership_of(path)
                upload.commit()
            except BaseException:
                upload.discard()
                raise
            return
        try:
            with fs.open(unfinished, "wb") as file:
                yield file
            self.require_ownership_of(path)
            self.place.move(unfinished, path, True)
        except BaseException:
            with contextlib.suppress(Exception):
                fs.rm_file(unfinished)
            raise

    def write_record(self, path: str, given: Given, blocks: List[Record]) -> None:
        """Writes what the answers to blocks are, each block on a line."""
        record = {**self.basis(given), **total_of(blocks)}
        head = json.dumps({**record, "seal": seal_of({**record, "blocks": blocks})})
        lines = ",\n".join(map(json.dumps, blocks))
        with self.written(path) as file:
            file.write(f'{head[:-1]}, "blocks": [\n{lines}]}}\n'.encode())

    # Tasks. Each may be done twice at once, by workers that know nothing of each other.

    def outcome(self, tell: Callable[[float], Any], each: float, method: str, given: Given, arguments: Tuple[Any, ...],
                limit: float) -> Tuple[str, Any]:
        """What came of a task: `done` and a value, `anew` and a part or nothing, `hung` and its limit, `failed` and
        why, or `unfit` and why, if it is the worker that cannot go on."""
        try:
            return "done", within(limit, method, getattr(self, method), given, *arguments, each=each, tell=tell)
        except Anew as error:
            return "anew", str(error)
        except Overdue:
            return "hung", limit
        except Exception as error:  # the file systems' and the decompressors', which are many
            try:
                self.is_fit = False
                within(SHORT_SECONDS, "a look at the output", self.require_fit)
            except Exception as problem:
                return "unfit", reason_of(problem)
            return "failed", reason_of(error)

    def basis(self, given: Given) -> Record:
        """What answers depend on."""
        return {"library": self.library, "modules": self.modules, "words": self.words, "url": given.url,
                "input": given.told if VERSION_KEYS & given.told.keys() else self.run}

    def copy(self, path: str, block: Record, at: int = 0, write: Callable[[bytes], Any] = len) -> bool:
        """Copies the answers to a block. Gives whether they are what its worker wrote."""
        digest = new_digest()
        for chunk in chunks_of(self.place.fs, path, at, at + block["bytes"]):
            digest.update(chunk)
            write(chunk)
        return bool(digest.hexdigest() == block["digest"])

    def is_whole(self, path: str, block: Record, at: int = 0) -> bool:
        with contextlib.suppress(OSError):
            return self.copy(path, block, at)
        return False

    def kept(self, given: Given, path: str, record: str) -> List[Record]:
        """The blocks whose answers a file has from an earlier task or run, if nothing has changed since; else none."""
        there = {} if given.is_new else self.place.read_record(record)
        if {**there, **self.basis(given)} != there:
            return []
        blocks: List[Record] = there["blocks"]
        starts = itertools.accumulate((block["bytes"] for block in blocks), initial=0)
        with contextlib.suppress(OSError):
            is_as_long = look(self.place.fs, path)["size"] == there["bytes"]
            if is_as_long and all(self.copy(path, block, at) for block, at in zip(blocks, starts)):
                return blocks
        return []

    def made(self, given: Given, path: str, record: str, write: Callable[[Any], List[Record]]) -> List[Record]:
        """Writes answers to blocks, and what they are in a record, which is there before them."""
        with self.written(path) as file:
            blocks = write(file)
            if path == given.answers:
                problem = self.place.problem_of(given, False)  # which may have come since the run began
                if problem:
                    raise OSError(f"it {problem}")
                if self.place.is_local:
                    file.flush()
                    os.fsync(file.fileno())
            self.write_record(record, given, blocks)
        return blocks

    def answer(self, given: Given, index: int, start: int, end: Optional[int]) -> Record:
        """Answers a block in a part, unless one has its answers."""
        paths = paths_of(given, index)
        blocks = self.kept(given, *paths)
        if [(block["start"], block["end"]) for block in blocks] != [(start, end)]:
            blocks = self.made(given, *paths, lambda file: [self.answer_to(given, start, end, file)])
        return blocks[0]

    def answer_to(self, given: Given, start: int, end: Optional[int], file: Any) -> Record:
        """Writes the answers to a block. Gives their counts and digests."""
        if isinstance(given.fs, LocalFileSystem):  # elsewhere a look takes as long as a small input
            given.require_same()
        total: Counter[str] = Counter()
        digest, read = new_digest(), new_digest()
        pieces = given.pieces(start, end) if given.is_versioned else seen(given.pieces(start, end), read.update)
        for answers in _runs.checked(self.words, pieces, total):
            digest.update(answers)
            file.write(answers)
        given.require_same()
        told = {} if given.is_versioned else {"read": read.hexdigest()}
        return {"start": start, "end": end, **total, "digest": digest.hexdigest(), **told}

    def compare(self, given: Given, index: int, block: Record) -> None:
        """Compares a part with its digest, and a block of an input that has no version with what was read of it. That
        is done when all blocks were read, so that all answers are to one state of the file."""
        if not self.is_whole(paths_of(given, index)[0], block):
            raise Anew(f"part {index}")
        given.require_content(block)

    def keep(self, given: Given) -> Optional[Record]:
        """The counts of answers that a run has put together, if nothing has changed since; else None."""
        blocks = self.kept(given, given.answers, f"{given.folder}/{MANIFEST}")
        if not blocks:
            return None
        self.tidy(given, len(blocks))
        return total_of(blocks)

    def answer_whole(self, given: Given, end: Optional[int]) -> Record:
        """Answers an input of one block, which needs no part."""
        if self.is_parts:
            block = self.answer(given, 0, 0, end)
            self.compare(given, 0, block)
            return self.finish(given, [block])

        def write(file: Any) -> List[Record]:
            block = self.answer_to(given, 0, end, file)
            given.require_content(block)
            return [block]
        manifest = f"{given.folder}/{MANIFEST}"
        blocks = self.kept(given, given.answers, manifest) or self.made(given, given.answers, manifest, write)
        self.tidy(given, 0)
        return total_of(blocks)

    def finish(self, given: Given, blocks: List[Record]) -> Record:
        """Puts the answers to an input together, or says that all parts are there."""
        def write(file: Any) -> List[Record]:
            for index, block in enumerate(blocks):
                self.join(paths_of(given, index)[0], block, index, file)
            return blocks
        manifest = f"{given.folder}/{MANIFEST}"
        if self.is_parts:
            self.write_record(manifest, given, blocks)
        else:
            self.made(given, given.answers, manifest, write)
        self.tidy(given, len(blocks))
        return total_of(blocks)

    def join(self, path: str, block: Record, index: int, file: Any) -> None:
        try:
            if self.copy(path, block, 0, file.write):
                return
        except OSError:
            if self.is_whole(path, block):  # so the other file could not be written
                raise
        raise Anew(f"part {index}")

    def tidy(self, given: Given, count: int) -> None:
        """Removes parts and evidence that the answers do not need: with --parts those of other blocks, else all."""
        fs = self.place.fs
        if given.is_new and not self.is_parts:  # so there are no others
            unneeded = [path for index in range(count) for path in paths_of(given, index)]
        else:
            unneeded = [path for path, match in files_of(fs, given.folder, PART, EVIDENCE)
                        if not self.is_parts or int(match[1]) >= count]
        if unneeded and not self.place.renames and not MAGIC.search(given.folder):  # which would be a pattern
            with contextlib.suppress(FileNotFoundError):  # a copy of this task has removed one, or there is none
                self.require_ownership_of(given.folder)
                fs.rm(unneeded)  # object stores remove many by one request
                return
        for path in unneeded:
            self.remove(path)

    def remove(self, path: str) -> None:
        """Removes a file. A worker that is stopped here may go on when a later run has a file of this name. So it gets
        a name in the folder of this run first, which is gone then. In an object store it looks whose the output is."""
        try:
            if self.place.renames:
                unneeded = f"{self.mine}/{uuid.uuid4().hex}"
                self.place.move(path, unneeded)
                path = unneeded
            else:
                self.require_ownership_of(path)
            self.place.fs.rm_file(path)
        except FileNotFoundError:  # a copy of this task has removed it, or a later run the folder of this one
            self.require_ownership()


def paths_of(given: Given, index: int) -> Tuple[str, str]:
    """A part and its evidence."""
    return f"{given.folder}/part-{index:06}", f"{given.folder}/{OURS}-part-{index:06}.json"


@functools.lru_cache(maxsize=None)
def work_of(thread: int, *fields: Any) -> Work:
    return Work(*fields)


def prepared(fields: Tuple[Any, ...], pickled: bytes) -> Tuple[Work, List[Any]]:
    work = work_of(0, *fields)
    if has_one_connection(work.place.fs):  # which threads do not share
        work = work_of(threading.get_ident(), *fields)
    work.require_fit()
    return work, pickle.loads(pickled)


def done(worker: Any, fields: Tuple[Any, ...], pickled: bytes, key: str, each: float) -> List[Tuple[str, Any]]:
    """What a worker does for one task of Dask, and what came of it: it answers small inputs side by side, as each waits
    for a disk or a server."""
    work, calls = within(SHORT_SECONDS, f"a look at {fields[4]} and the inputs", prepared, fields, pickled)

    def outcome(number: int) -> Tuple[str, Any]:
        def tell(taken: float) -> None:
            worker.log_event("sdtool", {"key": key, "number": number, "worker": worker.address, "taken": taken,
                                        "limit": calls[number][3]})
        what, value = work.outcome(tell, each, *calls[number])
        return what, value

    if len(calls) < 2 or any(map(has_one_connection, (work.place.fs, *(given.fs for _, given, _, _ in calls)))):
        return [outcome(number) for number in range(len(calls))]
    with concurrent.futures.ThreadPoolExecutor(AT_ONCE) as threads:
        return list(threads.map(outcome, range(len(calls))))


def seen(pieces: Iterator[bytes], see: Callable[[bytes], Any]) -> Iterator[bytes]:
    for piece in pieces:
        see(piece)
        yield piece
