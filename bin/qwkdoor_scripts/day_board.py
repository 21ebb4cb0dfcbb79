"""The board as a day sees it: commands, their replies judged and noted, and the totals."""

from __future__ import annotations

import errno
import os
from typing import Optional

from . import board_totals, ledger
from .caller_folders import CallerFault
from .day_log import DayLog
from .day_verdicts import Verdicts
from .failure import Failure
from .ledger import People
from .program import DONE, REFUSED, Program, Reply

# The board is damaged, its disk failed or another run holds it, or memory ran out: no other caller would fare better.
_ENDS_THE_DAY = (3, 4, 7)
_OF_MACHINE = (
    errno.EIO,
    errno.ENOSPC,
    errno.EDQUOT,
    errno.EROFS,
    errno.ENOMEM,
    errno.EMFILE,
    errno.ENFILE,
)


def of_machine(error: OSError) -> bool:
    """Whether it is the machine that failed, as a disk that is full, and not what a caller put into his folder."""
    return error.errno in _OF_MACHINE


class DayBoard:
    """A board, and what the day has done with it so far."""

    def __init__(self, program: Program, log: DayLog) -> None:
        self.program = program
        self.log = log
        self.totals = self._checked()
        self.people = self._people()
        self.posted = 0
        self.refused = 0
        self.handed_out = 0

    def _checked(self) -> board_totals.Totals:
        reply = self.program.run("check")
        self.log.note("-", "check", reply.status, reply.last)
        if reply.status != DONE:
            raise Failure(f"check of {self.program.data} {_ended(reply)}", reply.status)
        return board_totals.read(reply.lines)

    def _people(self) -> Optional[People]:
        """Reads the ledger, which `check` has found whole. None where it is one of another version."""
        try:
            people = ledger.read(os.path.join(self.program.data, "LEDGER.DAT"))
        except (OSError, Failure):
            return None
        self.totals.created = people.created
        return people

    def last_packet(self, user: str) -> Optional[int]:
        """Gives the number of the last packet that the board had offered a user when it was looked at."""
        return self.people.last_packet(os.fsencode(user)) if self.people else None

    def ask(self, name: str, *words: str) -> Reply:
        """Carries out a command that touches no board. It is noted where it went wrong."""
        reply = self.program.run(*words)
        if reply.status not in (DONE, REFUSED):
            self.judge(name, words[0], reply)
        return reply

    def carry_out(self, name: str, *words: str) -> Reply:
        """Carries out a command for a caller, which is done or refused."""
        reply = self.program.run(*words)
        self.judge(name, words[0], reply)
        return reply

    def judge(self, name: str, command: str, reply: Reply) -> None:
        """Notes a command. One that was neither done nor refused ends the day, or what is done for this caller."""
        self.log.note(name, command, reply.status, reply.last)
        if reply.status in (DONE, REFUSED):
            return
        if reply.status in _ENDS_THE_DAY:
            raise Failure(f"{name}: {command} {_ended(reply)}", reply.status)
        raise CallerFault(f"{command} {_ended(reply)}")

    def count_upload(self, said: Verdicts) -> None:
        """Counts what an upload posted and refused."""
        if not said.last.startswith(b"posted "):
            return
        self.totals.uploads += 1
        self.posted += said.posted
        self.refused += said.refused
        for conference, number in said.posts():
            self.totals.post(conference, number)


def _ended(reply: Reply) -> str:
    why = "; ".join(it for it in (reply.last, *reply.error.splitlines()) if it)
    return f"ended with status {reply.status}: {why}"
