"""A board's day: the callers of the list, one after the other, each by himself.

A run may end at any moment, by a kill or a power cut, and the next one goes on. What is under way is told by the files
of the folder `work`, each of which comes or goes by one rename: `day_intake` and `day_packets` have the two tables.

What a sync stands for, and what comes only after it:

    bytes of work/ID.rep          what is uploaded can be read once more    the upload
    bytes of work/allowance       the day's count has this archive          the upload
    kept/ID.txt and its name      what was said is kept                     kept/ID.rep
    bytes of work/ID.news         the caller hears of it                    kept/ID.rep
    name of kept/ID.rep           the archive is done                       nothing: else it is uploaded again
    bytes and name of the packet  the packet is whole                       work/number
    bytes and name of the number  the packet is known by its number         the packet comes to `out`
    names of the caller's folders what lies in them is there                the packet comes to `out`
    names in out and work         the caller has taken it, and for good     ack
    name of work/seen             the packet was acknowledged               the next export, where one is spared

A sync that fails is an error like any other: what comes only after it isn't done.

Each caller stands alone. What goes wrong with his folders or archives, or is refused to him, is a line and status 1,
and the others are served. A day ends early where the board or the machine is at fault: with the program's status 3, 4
or 7, or with 70 where the program didn't run, where a disk failed or is full, or where memory ran out.
"""

from __future__ import annotations

import os
import stat
from typing import Callable, Optional

from . import caller_folders, callers, durable
from .caller_folders import CallerFault, Folders
from .callers import Caller
from .day_board import DayBoard, of_machine
from .day_intake import Intake
from .day_log import DayLog
from .day_packets import Packets
from .failure import WRONG_WORDS, Failure, reason
from .program import Program
from .runlog import Clock

# The sysop's texts, which CONTROL.DAT names.
TEXTS = ("WELCOME", "GOODBYE")
TEXT_LIMIT = 262_144
# Below these the sysop is warned.
FEW_SLOTS = 500
FEW_BYTES = 2_097_152


class Day:
    """A run over a board and a shelf, whose lock is held."""

    def __init__(self, program: Program, shelf: str, listed: list[Caller], clock: Clock) -> None:
        self.mail = os.path.join(shelf, "mail")
        self.listed = listed
        self.log = DayLog(os.path.join(self.mail, "log"), clock)
        self.board = DayBoard(program, self.log)
        self.texts: dict[str, bytes] = {}

    def run(self, only: Optional[str] = None) -> int:
        """Serves the callers, or one of them, and gives the status with which the day ends."""
        served = [it for it in self.listed if only in (None, it.name)]
        self.texts = {name: text for name in TEXTS for text in self._text(name)}
        self._name_alike([it.name for it in served])
        made = [it for it in served if self._guarded(it, Folders(self.mail, it.name).make)]
        # A run that was killed may have made them, and not synced their names.
        durable.sync_folder(self.mail)
        shared = caller_folders.shared(self.mail, self.board.program.data, [it.name for it in self.listed])
        for caller in made:
            if caller.name in shared:
                self.log.fault(caller.name, "folder", shared[caller.name])
            else:
                self._serve(caller)
        self._warn()
        self._say_totals()
        return self.log.status

    def _name_alike(self, served: list[str]) -> None:
        for name, other in callers.alike(self.listed):
            if name in served:
                said = f"mail/{name} differs from mail/{other} in case alone: give one of them another name"
                self.log.fault(name, "folder", said)

    def _serve(self, caller: Caller) -> None:
        folders = Folders(self.mail, caller.name)
        packets = Packets(self.board, caller, folders, self.texts)
        if not self._guarded(caller, folders.sweep) or not self._guarded(caller, packets.forget_told):
            return
        # One who left what can't be taken gets his packet all the same.
        self._guarded(caller, Intake(self.board, caller, folders).run)
        self._guarded(caller, packets.run)
        self._guarded(caller, folders.sweep)

    def _guarded(self, caller: Caller, step: Callable[[], None]) -> bool:
        """Takes a step for a caller. What goes wrong with him alone is a line, and no more."""
        try:
            step()
        except CallerFault as fault:
            self.log.complain(caller.name, str(fault))
            return False
        except OSError as error:
            if of_machine(error):
                raise
            self.log.fault(caller.name, "file", reason(error))
            return False
        return True

    def _text(self, name: str) -> list[bytes]:
        """Gives the sysop's text of that name, and none where he wrote none. A caller's folder may have the name."""
        path = os.path.join(self.mail, name)
        try:
            found = os.stat(path)
            if not stat.S_ISREG(found.st_mode):
                return []
            if found.st_size > TEXT_LIMIT:
                self.log.fault("-", "text", f"mail/{name} has {found.st_size} bytes, and may have {TEXT_LIMIT}")
                return []
            with open(path, "rb") as file:
                return [file.read(TEXT_LIMIT)]
        except FileNotFoundError:
            return []
        except OSError as error:
            self.log.fault("-", "text", reason(error))
            return []

    def _warn(self) -> None:
        totals = self.board.totals
        for conference, left in totals.slots_left().items():
            if left < FEW_SLOTS:
                self.log.fault("-", "slots", f"{conference} {totals.names[conference]}: {left} slots left")
        if totals.bytes_left() < FEW_BYTES:
            self.log.fault("-", "bytes", f"{totals.bytes_left()} bytes left")

    def _say_totals(self) -> None:
        board = self.board
        letters = f"{board.posted} posted, {board.refused} refused"
        said = f"{letters}, {board.handed_out} handed out, {self.log.faults} faults"
        self.log.note("-", "totals", self.log.status, said)


def one_of(listed: list[Caller], name: Optional[str], path: str) -> Optional[str]:
    """Gives the name of a caller's folder, where the list has it. None where no one caller is wanted."""
    if name is not None and name not in [it.name for it in listed]:
        raise Failure(f"{path} has no caller with the folder {name}", WRONG_WORDS)
    return name
