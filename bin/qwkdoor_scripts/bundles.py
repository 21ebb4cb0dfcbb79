"""The packets of a bundle, a zip archive, as packets of their own in `work`.

A bundle that lies in `work` is unpacked, from its beginning if need be, and none of its packets is tossed before it has
gone. So a kill leaves no packet out, and none is unpacked behind its back once it was tossed.
"""

from __future__ import annotations

import os
from typing import Optional

from . import archives, arrivals, durable, packets
from .characters import shown
from .ftn_folders import BUNDLE, PACKET, FtnFolders


class _CannotBeRead(Exception):
    """The disk, or who may read, keeps a bundle from being read, which may be good: it stays."""


def unpack_all(folders: FtnFolders) -> None:
    """Unpacks the bundles that were taken. One that isn't a zip archive, or has more than packets, is set aside."""
    for stem in folders.stems(BUNDLE):
        try:
            faults = _unpack(folders, stem)
        except _CannotBeRead as error:
            folders.complain(stem, "unpack", f"it can't be read: {error}")
            continue
        if faults:
            folders.set_aside(stem + BUNDLE, "unpack", "; ".join(faults))
        else:
            folders.log.note(stem, "unpack", 0, "all packets of it")
            folders.keep(stem + BUNDLE)


def _unpack(folders: FtnFolders, stem: str) -> "list[str]":
    """Writes the packets of a bundle. Gives what is wrong with it."""
    path = os.path.join(folders.work, stem + BUNDLE)
    if not arrivals.is_file(path):
        return ["it isn't a file"]
    try:
        names = archives.members(path)
    except archives.Unreadable as error:
        return [_words(error)]
    except OSError as error:
        raise _CannotBeRead(error.strerror) from error
    durable.sync_file(path)
    packets_in = [os.path.join(folders.work, f"{stem}-{number:02d}{PACKET}") for number in range(1, len(names) + 1)]
    faults = [_unpack_packet(path, name, packet) for name, packet in zip(names, packets_in)]
    return [fault for fault in faults if fault]


def _unpack_packet(path: str, name: str, packet: str) -> Optional[str]:
    if not name.lower().endswith(PACKET):
        return f"{ascii(name)} in it is no packet"
    try:
        data = archives.read_member(path, name, packets.LIMIT)
    except archives.Unreadable as error:
        return _words(error)
    except OSError as error:
        raise _CannotBeRead(error.strerror) from error
    durable.write_whole(packet, data)
    return None


def _words(error: archives.Unreadable) -> str:
    """Gives what is wrong, in which names of the archive may stand, as a terminal shows it."""
    return shown(str(error).encode("utf-8", "replace"), "utf-8")
