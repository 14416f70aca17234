"""The files that the words of a command name: none is read and written, and none has its name before it is whole."""
import contextlib
import os
import stat
import uuid
from typing import Iterator, List, NamedTuple, Optional, Sequence, TextIO

from sdtool.audit import stopping
from sdtool.audit.sources.opening import AS_THEY_CAME, STANDARD_INPUT, OpeningFault


class Named(NamedTuple):
    """A file, with the option or the word that names it."""

    option: str
    path: str


def named(option: str, path: Optional[str]) -> List[Named]:
    """A file that an option names, if it does."""
    return [] if path is None else [Named(option, path)]


def _stat_of(path: str) -> Optional[os.stat_result]:
    try:
        return os.fstat(0) if path == STANDARD_INPUT else os.stat(path)
    except (OSError, ValueError):
        return None


def _is_special(path: str) -> bool:
    """Whether a path is a device or a pipe, which keeps nothing of what is written to it."""
    found = _stat_of(path)
    return found is not None and not stat.S_ISREG(found.st_mode) and not stat.S_ISDIR(found.st_mode)


def is_same(one: str, other: str) -> bool:
    """Whether two names are those of one file, also of one that isn't there yet."""
    first, second = _stat_of(one), _stat_of(other)
    if first is not None and second is not None:
        return os.path.samestat(first, second)
    return first is second is None and _real(one) == _real(other)


def _real(path: str) -> str:
    return os.path.normcase(os.path.realpath(path))


def _is_inside(path: str, folder: str) -> bool:
    return os.path.isdir(folder) and _real(path).startswith(os.path.join(_real(folder), ""))


def refuse(read: Sequence[Named], written: Sequence[Named]) -> None:
    """Refuses an output that is an input, another output, or can't be made. Nothing is read or written before."""
    for at, output in enumerate(written):
        if _is_special(output.path):
            continue
        for other in (*read, *written[:at]):
            if is_same(output.path, other.path):
                raise OpeningFault(f"{output.option} {output.path} is {other.option} too: name another file")
        for source in read:
            if source.option == "a source" and _is_inside(output.path, source.path):
                raise OpeningFault(f"{output.option} {output.path} is in the source {source.path}: name a file "
                                   "elsewhere")
        folder = os.path.dirname(os.path.realpath(output.path))
        if os.path.isdir(output.path):
            raise OpeningFault(f"{output.option} {output.path}: is a folder")
        if not os.path.isdir(folder):
            raise OpeningFault(f"{output.option} {output.path}: no such folder")
        if not os.access(folder, os.W_OK):
            raise OpeningFault(f"{output.option} {output.path}: the folder can't be written to")
        if os.path.exists(output.path) and not os.access(output.path, os.W_OK):
            raise OpeningFault(f"{output.option} {output.path}: the file is read-only")


def refuse_standard_output(read: Sequence[Named]) -> None:
    """Refuses to read a file to which a shell sends standard output."""
    try:
        output = os.fstat(1)
    except OSError:
        return
    for source in read:
        found = _stat_of(source.path)
        if stat.S_ISREG(output.st_mode) and found is not None and os.path.samestat(found, output):
            place = "standard input" if source.path == STANDARD_INPUT else source.path
            raise OpeningFault(f"standard output goes to {place}, which is {source.option} too: name another file")


def part_of(path: str) -> str:
    """A name for a file that isn't whole: no other run has it."""
    folder, name = os.path.split(path)
    return os.path.join(folder, f".{name[:40]}.{uuid.uuid4().hex}.part")


@contextlib.contextmanager
def unfinished(path: str) -> Iterator[str]:
    """A new empty file, which is removed unless it was given its name."""
    part = part_of(path)
    stopping.unfinished.add(part)
    try:
        os.close(os.open(part, os.O_WRONLY | os.O_CREAT | os.O_EXCL, 0o666))
        yield part
    finally:
        stopping.remove(part)


@contextlib.contextmanager
def whole(option: str, path: str) -> Iterator[TextIO]:
    """A file of text that has its name only once all of it is written."""
    target = os.path.realpath(path)
    with contextlib.ExitStack() as stack:
        try:
            part = path if _is_special(path) else stack.enter_context(unfinished(target))
            file = stack.enter_context(open(part, "w", encoding="utf-8", errors=AS_THEY_CAME, newline=""))
        except OSError as error:
            raise OpeningFault(f"{option} {path}: {error.strerror}") from error
        if part != path:
            stopping.close_early(file.close)
        yield file
        file.close()
        if part == path:
            return
        before = _stat_of(target)
        if before is not None:
            os.chmod(part, stat.S_IMODE(before.st_mode))
        os.replace(part, target)


def can_be_read_again(path: str) -> bool:
    """Whether a source can be looked at before it is read: a pipe gives what it has only once."""
    return os.path.isfile(path)


def require(file: Named) -> None:
    """Refuses a file that isn't there."""
    if not os.path.isfile(file.path):
        raise OpeningFault(f"{file.option} {file.path}: no such file")


def root_of(path: str) -> str:
    """What the names of a folder's objects begin with, or nothing for a list."""
    return path if os.path.isdir(path) else ""
