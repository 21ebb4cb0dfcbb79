"""Zip archives with a packet's files, read within sizes and written whole.

`Unreadable` says that an archive can't be read tomorrow either. Want of memory, and a disk that fails, are other
errors: the archive may be a good one.
"""

from __future__ import annotations

import io
import os
import struct
import zipfile
import zlib
from typing import Iterable, Mapping

from . import durable

MEMBER_LIMIT = 64
RATIO_LIMIT = 1000
# The bytes of an archive that is read: more than those of the largest packet, were it stored.
ARCHIVE_LIMIT = 67_108_864
# The bytes of a file that are taken at once.
_CHUNK = 65536
# Each archive has the same bytes for the same files: the first moment that a zip archive can have.
_MOMENT = (1980, 1, 1, 0, 0, 0)
_METHODS = (zipfile.ZIP_STORED, zipfile.ZIP_DEFLATED)
# What zipfile raises where an archive's own bytes are at fault. They are in memory then, so that no disk is.
_FAULTS = (
    zipfile.BadZipFile,
    zlib.error,
    struct.error,
    EOFError,
    IndexError,
    NotImplementedError,
    OSError,
    OverflowError,
    RecursionError,
    ValueError,
)


class Unreadable(Exception):
    """The archive isn't one that is taken: the words say why."""


def read_member(path: str, name: str, limit: int, most: int = MEMBER_LIMIT) -> bytes:
    """Gives the bytes of an archive's file, whose name may be in small letters, and which has `limit` bytes at most.

    The archive has `most` files at most.
    """
    data = _bytes(path)
    try:
        with zipfile.ZipFile(data) as archive:
            return _read(archive, _found(_entries(archive, most), name), limit)
    except _FAULTS as error:
        raise Unreadable(f"it is no zip archive: {error}") from error


def members(path: str, most: int = MEMBER_LIMIT) -> "list[str]":
    """Gives the names in an archive, each as it stands there."""
    data = _bytes(path)
    try:
        with zipfile.ZipFile(data) as archive:
            return [entry.filename for entry in _entries(archive, most)]
    except _FAULTS as error:
        raise Unreadable(f"it is no zip archive: {error}") from error


def is_whole(path: str, names: Iterable[str]) -> bool:
    """Whether a file is an archive with these files, and each byte in it is as it was written."""
    try:
        data = _bytes(path)
    except Unreadable:
        return False
    try:
        with zipfile.ZipFile(data) as archive:
            entries = _entries(archive, MEMBER_LIMIT)
            is_small = all(entry.file_size <= ARCHIVE_LIMIT for entry in entries)
            return is_small and archive.testzip() is None and set(names) <= {entry.filename for entry in entries}
    except (Unreadable, *_FAULTS):
        return False


def _bytes(path: str) -> io.BytesIO:
    """Gives a file's bytes, so that a disk that fails is an OSError, and no archive that can't be read."""
    with open(path, "rb") as file:
        data = file.read(ARCHIVE_LIMIT + 1)
    if len(data) > ARCHIVE_LIMIT:
        raise Unreadable(f"it has more than {ARCHIVE_LIMIT} bytes")
    return io.BytesIO(data)


def _entries(archive: zipfile.ZipFile, most: int) -> "list[zipfile.ZipInfo]":
    entries = archive.infolist()
    if len(entries) > most:
        raise Unreadable(f"it has {len(entries)} files, and may have {most}")
    return entries


def _found(entries: "list[zipfile.ZipInfo]", name: str) -> zipfile.ZipInfo:
    found = [entry for entry in entries if entry.filename.upper() == name.upper()]
    if not found:
        raise Unreadable(f"it has no {name}")
    if len(found) > 1:
        raise Unreadable(f"it has {len(found)} files {name}")
    return found[0]


def _read(archive: zipfile.ZipFile, entry: zipfile.ZipInfo, limit: int) -> bytes:
    if entry.flag_bits & 1:
        raise Unreadable(f"{entry.filename} asks for a password")
    if entry.compress_type not in _METHODS:
        raise Unreadable(f"{entry.filename} is compressed by method {entry.compress_type}, and not stored or deflated")
    if entry.file_size > limit:
        raise Unreadable(f"{entry.filename} has {entry.file_size} bytes, and may have {limit}")
    if entry.file_size > RATIO_LIMIT * max(entry.compress_size, 1):
        raise Unreadable(f"{entry.filename} unpacks to more than {RATIO_LIMIT} times its size")
    parts = []
    left = limit
    with archive.open(entry) as member:
        while True:
            part = member.read(min(_CHUNK, left + 1))
            if not part:
                return b"".join(parts)
            left -= len(part)
            if left < 0:
                raise Unreadable(f"{entry.filename} has more than {limit} bytes")
            parts.append(part)


def write(path: str, files: Mapping[str, bytes], mode: int = 0o600) -> None:
    """Writes an archive that isn't there yet, of files that are compressed, and its bytes to the disk."""
    handle = os.open(path, os.O_WRONLY | os.O_CREAT | os.O_EXCL | os.O_NOFOLLOW | os.O_CLOEXEC, mode)
    with durable.naming(path), os.fdopen(handle, "wb") as file:
        with zipfile.ZipFile(file, "w", zipfile.ZIP_DEFLATED) as archive:
            for name, data in files.items():
                entry = zipfile.ZipInfo(name, _MOMENT)
                entry.compress_type = zipfile.ZIP_DEFLATED
                entry.external_attr = 0o644 << 16
                archive.writestr(entry, data)
    durable.sync_file(path)
