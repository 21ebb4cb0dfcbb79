"""Who may read a packet that is handed out: those who may read what is made in the folder that it comes to.

A packet is made where nobody else may enter, with the mode 0600, and a rename keeps its rights. So before it is renamed
it gets the group of the folder `out`, which may read it where it may enter the folder; and where the folder has a
default ACL, that ACL, of which it lets people read and no more.
"""

from __future__ import annotations

import errno
import os
import stat
import struct
from typing import Optional

_ACCESS = "system.posix_acl_access"
_DEFAULT = "system.posix_acl_default"
_VERSION = struct.Struct("<I")
# Tag, permissions and id.
_ENTRY = struct.Struct("<HHI")
_OWNER = 1
_READ = 4
_READ_AND_WRITE = 6
_NO_ACL = (errno.ENODATA, errno.ENOSYS, errno.EOPNOTSUPP)


def lend(path: str, folder: str) -> None:
    """Gives a file of one's own the rights with which it is to come to a folder."""
    found = os.stat(folder)
    acl = _default_acl(folder)
    handle = os.open(path, os.O_RDONLY | os.O_NOFOLLOW | os.O_CLOEXEC)
    try:
        if found.st_mode & stat.S_IXGRP:
            if os.fstat(handle).st_gid != found.st_gid:
                _give(handle, found.st_gid, folder)
            os.fchmod(handle, 0o640)
        if acl is not None:
            os.setxattr(handle, _ACCESS, _for_reading(acl))
    finally:
        os.close(handle)


def _give(handle: int, group: int, folder: str) -> None:
    try:
        os.fchown(handle, -1, group)
    except PermissionError as error:
        why = f"this account isn't in its group {group}, to which the packet is to be given"
        raise PermissionError(error.errno, why, folder) from error


def _default_acl(folder: str) -> Optional[bytes]:
    try:
        return os.getxattr(folder, _DEFAULT)
    except OSError as error:
        if error.errno in _NO_ACL:
            return None
        raise


def _for_reading(acl: bytes) -> bytes:
    """Gives an ACL by which the owner may also write, and whoever else it names may read where he might."""
    entries = [
        _ENTRY.pack(tag, permissions & (_READ_AND_WRITE if tag == _OWNER else _READ), person)
        for tag, permissions, person in _ENTRY.iter_unpack(acl[_VERSION.size :])
    ]
    return acl[: _VERSION.size] + b"".join(entries)
