"""Files that are on the disk before what they stand for is done.

Each step asks `before` first. A test puts a function of its own there, which fails as a full disk does, or ends the
process as a kill does; so each place at which a run can stop is tried.
"""

from __future__ import annotations

import contextlib
import os
from typing import Callable, Iterator, Union

Path = Union[str, "os.PathLike[str]"]
# The ending of what is being written, before it gets its name.
PART = ".new"


def _nothing(step: str, path: str) -> None:
    """Lets each step happen."""


before: Callable[[str, str], None] = _nothing


def _step(name: str, path: Path) -> str:
    text = os.fspath(path)
    before(name, text)
    return text


@contextlib.contextmanager
def naming(path: Path) -> Iterator[None]:
    """Has an error name the file, which the system does for one that couldn't be opened, and not for a full disk."""
    try:
        yield
    except OSError as error:
        if error.filename is None:
            error.filename = os.fspath(path)
        raise


def _sync(path: str, flags: int) -> None:
    handle = os.open(path, flags | os.O_CLOEXEC)
    try:
        with naming(path):
            os.fsync(handle)
    finally:
        os.close(handle)


def sync_file(path: Path) -> None:
    """Waits until the bytes of a file are on the disk."""
    _sync(_step("fsync", path), os.O_RDONLY)


def sync_folder(path: Path) -> None:
    """Waits until the names in a folder are on the disk."""
    _sync(_step("fsync", path), os.O_RDONLY | os.O_DIRECTORY)


def make_folder(path: Path, mode: int = 0o700) -> None:
    """Makes a folder where it is missing, and its name durable. The folder above it is there."""
    text = os.fspath(path)
    if os.path.isdir(text):
        return
    os.mkdir(_step("mkdir", text), mode)
    sync_folder(os.path.dirname(text) or ".")


def write_new(path: Path, data: bytes, mode: int = 0o600) -> None:
    """Writes a file that isn't there yet, and its bytes to the disk. Its name is durable once its folder is synced."""
    text = _step("write", path)
    handle = os.open(text, os.O_WRONLY | os.O_CREAT | os.O_EXCL | os.O_NOFOLLOW | os.O_CLOEXEC, mode)
    with naming(text), os.fdopen(handle, "wb") as file:
        file.write(data)
        file.flush()
        before("fsync", text)
        os.fsync(file.fileno())


def replace(old: Path, new: Path) -> None:
    """Renames a file over what has the new name, and makes both names durable. The bytes of the old one are synced."""
    target = _step("rename", new)
    os.replace(old, target)
    _sync_names(os.fspath(old), target)


def rename_new(old: Path, new: Path) -> None:
    """Renames a file to a name that nothing has, and makes both durable. FileExistsError where something has it."""
    target = _step("rename", new)
    os.link(old, target, follow_symlinks=False)
    before("unlink", os.fspath(old))
    os.unlink(old)
    _sync_names(os.fspath(old), target)


def _sync_names(old: str, new: str) -> None:
    folders = {os.path.dirname(new) or ".", os.path.dirname(old) or "."}
    for folder in sorted(folders):
        sync_folder(folder)


def write_whole(path: Path, data: bytes, mode: int = 0o600) -> None:
    """Puts a file's new bytes in place at once: a reader, or a run after a power cut, sees the old ones or the new."""
    text = os.fspath(path)
    part = text + PART
    remove(part)
    write_new(part, data, mode)
    replace(part, text)


def remove(path: Path) -> None:
    """Removes a file, if it is there. That it is gone is durable once its folder is synced."""
    text = _step("unlink", path)
    try:
        os.unlink(text)
    except FileNotFoundError:
        pass
