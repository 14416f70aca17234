"""A folder with all below it, by the extended attributes of mounted files."""
import errno
import os
import stat
from typing import Any, Iterator

from sdtool.audit.sources.items import Item, unreadable
from sdtool.audit.sources.opening import OpeningFault
from sdtool.audit.sources.options import SourceOptions
from sdtool.audit.sources.samba import NO_ATTRIBUTE, item_of_attribute

HELP = ("tree: a share or a mounted NTFS volume, by security.NTACL, system.ntfs_acl or --attribute. Object: a file or "
        "folder, also without an attribute; none: a symbolic link.")
getxattr: Any = getattr(os, "getxattr", None)  # Windows has none


def _item_of_path(path: str, label: str, is_folder: bool, options: SourceOptions) -> Item:
    kind = "folder" if is_folder and options.kind in (None, "file") else options.kind or "file"
    for name in options.attributes:
        try:
            data = getxattr(path, name, follow_symlinks=False)
        except OSError as error:
            if error.errno in (errno.ENODATA, errno.ENOTSUP):
                continue
            return unreadable(path, label, 0, f"{name}: {error.strerror}", NO_ATTRIBUTE, kind)
        return item_of_attribute(path, label, 0, name, data, kind, is_folder)
    return unreadable(path, label, 0, f"no attribute {' or '.join(options.attributes)}", NO_ATTRIBUTE, kind)


def read_tree(top: str, options: SourceOptions) -> Iterator[Item]:
    """A folder and all below it, or one file. Symbolic links have no permissions, so they are no objects."""
    kind = options.kind or "file"
    if getxattr is None:
        raise OpeningFault(f"{top}: this system has no extended attributes, so no folder can be read; name a file")
    is_folder = os.path.isdir(top) and not os.path.islink(top)
    waiting = [top] if is_folder else []
    yield _item_of_path(top, top, is_folder, options)
    while waiting:
        folder = waiting.pop()
        try:
            with os.scandir(folder) as scanned:
                found = sorted(scanned, key=lambda entry: entry.name)
        except OSError as error:
            yield unreadable(os.path.join(folder, "*"), top, 0, f"the folder can't be listed: {error.strerror}",
                             "run as a user who may list it", kind)
            continue
        folders = []
        for entry in found:
            try:
                mode = entry.stat(follow_symlinks=False).st_mode
            except OSError as error:
                yield unreadable(entry.path, top, 0, f"{error.strerror}", "run as a user who may look at it", kind)
                continue
            if stat.S_ISLNK(mode):
                continue
            yield _item_of_path(entry.path, top, stat.S_ISDIR(mode), options)
            if stat.S_ISDIR(mode):
                folders.append(entry.path)
        waiting.extend(reversed(folders))
