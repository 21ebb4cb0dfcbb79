"""Brings an archive to a folder, or hands it to a command of the caller's own."""

from __future__ import annotations

import errno
import os
import stat

from . import durable
from .failure import FAILED, Failure
from .reader_outbox import Archive, Outbox
from .reader_settings import Settings
from .reader_shell import carry_out

_NO_LINKS = (errno.EPERM, errno.ENOTSUP, errno.ENOSYS)


def send(outbox: Outbox, archive: Archive, settings: Settings) -> str:
    """Sends an archive, and gives the words that say where it went."""
    path = outbox.path_of(archive)
    if settings.send_folder:
        _to_folder(outbox, archive, settings.send_folder)
        return f"sent {archive.name} to {settings.send_folder}"
    archive = outbox.begin_to_send(archive)
    status = carry_out(settings.send_command, path)
    if status != 0:
        # It may be there all the same, as where a line was cut at the end.
        said = f"the command to send ended with status {status}, so {path} stays: {settings.send_command}"
        raise Failure(said, FAILED)
    outbox.mark_sent(archive)
    return f"sent {archive.name} by {settings.send_command}"


def _to_folder(outbox: Outbox, archive: Archive, folder: str) -> None:
    """Puts a copy in a folder, whole at once, and replaces nothing there.

    A run that was killed may have put it there before. Then it lies there with the same bytes, and that is enough.
    """
    target = os.path.join(folder, archive.name)
    if not os.path.isdir(folder):
        raise Failure(f"{folder} is no folder, so nothing was sent", FAILED)
    data = outbox.box.read(archive.name)
    if not data:
        raise Failure(f"{archive.name} was taken away meanwhile", FAILED)
    if os.path.lexists(target) and not _has(target, data):
        raise Failure(f"{target} is another file, and wasn't replaced: nothing was sent", FAILED)
    going = outbox.begin_to_send(archive)
    try:
        _copy(data, folder, archive.name)
    except OSError as error:
        if not os.path.lexists(target):
            outbox.stay(going)
        raise Failure(f"{target} wasn't written: {error.strerror}", FAILED) from error
    outbox.mark_sent(going)


def _copy(data: bytes, folder: str, name: str) -> None:
    """Puts bytes in a folder under a name, on the disk, where they may lie already."""
    target = os.path.join(folder, name)
    # Whoever takes archives out of the folder looks for .REP, and so not at this one.
    part = os.path.join(folder, f".{name}.part")
    durable.remove(part)
    if not os.path.lexists(target):
        durable.write_new(part, data)
        os.chmod(part, _mode_in(folder))
        _place(part, target)
    durable.sync_file(target)
    durable.sync_folder(folder)


def _has(path: str, data: bytes) -> bool:
    if not os.path.isfile(path) or os.path.getsize(path) != len(data):
        return False
    with open(path, "rb") as file:
        return file.read() == data


def _mode_in(folder: str) -> int:
    """Gives a copy's mode. Where a folder gives its group to what is in it, that group is to take it."""
    return 0o640 if os.stat(folder).st_mode & stat.S_ISGID else 0o600


def _place(part: str, target: str) -> None:
    """Gives a file a name that nothing has. Without hard links the name is looked for first."""
    try:
        durable.rename_new(part, target)
    except OSError as error:
        if error.errno not in _NO_LINKS or os.path.lexists(target):
            raise
        durable.replace(part, target)
