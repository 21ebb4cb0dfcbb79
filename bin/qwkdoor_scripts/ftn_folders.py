"""The folders of SHELF/ftn, and how what lies in them is named, taken and set aside.

What a neighbour sends gets a name of the script's own, an ID that sorts by the moment: `20261201T070000Z-000001`. A
packet of a bundle has its number behind it, `ID-01`, and a message that is kept apart has its place, `ID.3`.
"""

from __future__ import annotations

import errno
import os
import re
from typing import Iterator

from . import arrivals, characters, durable, runlog
from .runlog import RunLog

PACKET = ".pkt"
BUNDLE = ".zip"
_BUNDLES = re.compile(r"\.(zip|(mo|tu|we|th|fr|sa|su)[0-9a-z])", re.IGNORECASE)
_STEM = re.compile(r"([0-9]{8}T[0-9]{6}Z)-([0-9]{6,})(?:-([0-9]+))?(?:\.([0-9]+))?")


class FtnFolders:
    """The folders of a shelf's packets, and how many packets and messages were refused or set aside in a run."""

    def __init__(self, shelf: str) -> None:
        self.top = os.path.join(shelf, "ftn")
        self.inbound = os.path.join(self.top, "in")
        self.work = os.path.join(self.top, "work")
        self.kept = os.path.join(self.top, "kept")
        self.bad = os.path.join(self.top, "bad")
        self.copy = os.path.join(self.work, "copy")
        self.log = RunLog(os.path.join(self.top, "log"))
        self.complaints = 0

    def make(self) -> None:
        """Makes the folders that are missing."""
        for folder in (self.top, self.inbound, self.work, self.kept, self.bad):
            durable.make_folder(folder)

    def is_made(self) -> bool:
        """Tells whether packets were ever taken."""
        return os.path.isdir(self.work)

    def has_packets(self, again: bool) -> bool:
        """Tells whether there is anything to be done, with what was set aside or without."""
        under_way = self.stems(PACKET) or self.stems(BUNDLE) or _came(self.inbound)
        return bool(under_way or (again and _stems_of(self.bad, PACKET)))

    def stems(self, ending: str) -> "list[str]":
        """Gives the names without their ending of what lies in `work`, in the order in which it came."""
        return sorted(_stems_of(self.work, ending), key=_order)

    def complain(self, about: str, step: str, words: str) -> None:
        """Logs what was refused, or can't be done."""
        self.complaints += 1
        self.log.note(about, step, 1, words)

    def set_aside(self, name: str, step: str, words: str) -> None:
        """Moves what lies in `work` to `bad`, with a text beside it that says why."""
        stem = os.path.splitext(name)[0]
        durable.write_whole(os.path.join(self.bad, stem + ".txt"), f"{words}\n".encode("utf-8"))
        self.complain(stem, step, words.split("\n", 1)[0])
        durable.replace(os.path.join(self.work, name), os.path.join(self.bad, name))

    def keep(self, name: str) -> None:
        """Moves what is done from `work` to `kept`. Nothing says any more why it once was set aside."""
        text = os.path.join(self.bad, os.path.splitext(name)[0] + ".txt")
        if os.path.lexists(text):
            durable.remove(text)
            durable.sync_folder(self.bad)
        durable.replace(os.path.join(self.work, name), os.path.join(self.kept, name))

    def sweep(self) -> None:
        """Removes the copy that the program has read, and what a run that was killed had begun to write."""
        durable.remove(self.copy)
        for folder in (self.work, self.kept, self.bad):
            for name in (it for it in os.listdir(folder) if it.endswith(durable.PART)):
                durable.remove(os.path.join(folder, name))

    def take(self) -> None:
        """Takes what came in, the oldest first. What its owner took away meanwhile isn't there to be taken."""
        ids = self._free_ids()
        for name in _came(self.inbound):
            ending = PACKET if name.lower().endswith(PACKET) else BUNDLE
            taken = next(ids)
            shown = characters.shown(os.fsencode(name), "utf-8")
            if self._move(os.path.join(self.inbound, name), os.path.join(self.work, taken + ending), shown):
                self.log.note(taken, "take", 0, shown)

    def take_again(self) -> None:
        """Takes the packets that were set aside."""
        for stem in sorted(_stems_of(self.bad, PACKET), key=_order):
            self._move(os.path.join(self.bad, stem + PACKET), os.path.join(self.work, stem + PACKET), stem)

    def _move(self, old: str, new: str, shown: str) -> bool:
        try:
            if not arrivals.can_be_taken(old):
                raise PermissionError(errno.EACCES, arrivals.NOT_READABLE, old)
            durable.replace(old, new)
        except FileNotFoundError:
            return False
        except OSError as error:
            # Where the file has moved, its name isn't on the disk for sure, and the run can't go on.
            if not os.path.lexists(old):
                raise
            self.complain("-", "take", f"{shown} can't be taken: {error.strerror}")
            return False
        return True

    def _free_ids(self) -> "Iterator[str]":
        """Gives IDs of this moment that nothing has."""
        now = runlog.moment(form="%Y%m%dT%H%M%SZ")
        names = [name for folder in (self.work, self.kept, self.bad) for name in os.listdir(folder)]
        matches = (_STEM.match(name) for name in names if name.startswith(now))
        number = max((int(match.group(2)) for match in matches if match), default=0)
        while True:
            number += 1
            yield f"{now}-{number:06d}"


def _came(folder: str) -> "list[str]":
    """Gives the names of the packets and bundles of a folder, the oldest first."""
    found = []
    for name in os.listdir(folder):
        ending = os.path.splitext("x" + name)[1]
        if ending.lower() == PACKET or _BUNDLES.fullmatch(ending):
            try:
                found.append((os.lstat(os.path.join(folder, name)).st_mtime_ns, name))
            except FileNotFoundError:
                pass
    return [name for _, name in sorted(found)]


def _stems_of(folder: str, ending: str) -> "list[str]":
    """Gives the names without this ending that the script itself gave."""
    stems = [name[: -len(ending)] for name in os.listdir(folder) if name.endswith(ending)]
    return [stem for stem in stems if _STEM.fullmatch(stem)]


def _order(stem: str) -> "tuple[str, list[int]]":
    moment, *numbers = re.split(r"[-.]", stem)
    return moment, [int(number) for number in numbers]
