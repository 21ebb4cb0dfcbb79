"""qwkdoor-upkeep: the messages of a board that are too old or too many, deleted and packed."""

from __future__ import annotations

import os
import sys
import time

from . import call, conferences, durable, program, upkeep_plan
from .failure import BUSY, DONE, REFUSED, Failure
from .ftn_folders import BUNDLE, PACKET, FtnFolders
from .locks import Lock
from .program import Program
from .runlog import RunLog
from .upkeep_plan import Board, Work

NAME = "qwkdoor-upkeep"
USAGE = "usage: qwkdoor-upkeep [-n] [--unread] [-w SECONDS] DATA SHELF (qwkdoor-upkeep --help says more)"
PAGE = """\
usage: qwkdoor-upkeep [-n] [--unread] [-w SECONDS] DATA SHELF

Deletes the messages of a board that are too old, or more than stay, by the list SHELF/upkeep, and packs
their conferences. It reads the board's files, writes a batch of kill and pack, and has qwkdoor carry it out.
A message stays that a member of the conference may see and hasn't acknowledged. Take a back-up first: what
was packed is gone. Where all is well it prints nothing.

DATA, SHELF   the folders of the board, as of qwkdoor
-n            print the batch, and do nothing
--unread      delete also what members haven't acknowledged
-w SECONDS    how long it waits for a run that is still at work: 0 to 86,400, else 600
--help        print this page

The list has a line CONF keep COUNT days DAYS for each conference that is looked after, as '0 keep 5000 days
365': its number, how many messages stay at most, and how many days. One of the two may lack. The day counts on
which a message was written. For a user who calls no more a line 'left "USER"' says that nothing is held for
him. Empty lines and lines that begin with '#' are skipped.

files of SHELF:
  upkeep        the list
  upkeep.log    a line for each step: the moment, the number of the conference, due, kill or pack, its status,
                and how it ended
  upkeep.batch  the batch that is carried out

It holds SHELF/mail/lock, as qwkdoor-day does, so that each waits for the other. The program is the qwkdoor
beside this script, or what QWKDOOR in the environment names.

status:
  0  done
  1  a command was refused: a line on standard error says how many, and the log which. All others were
     carried out, unless check was refused
  2  not the words of a call, or of the list: a line on standard error says which
  3 to 7  the status with which a command of qwkdoor ended. Nothing was done after it
 70  a file couldn't be read or written, memory ran out, or the program didn't run or was killed
 75  another run was at work all the time; or qwkdoor-toss was killed: run it first
"""


def main(words: "list[str]") -> int:
    """Carries out the call. Gives its status."""
    return call.carried_out(NAME, PAGE, lambda: _run(call.read(words, "n", ["unread"], USAGE)))


def _run(wanted: call.Call) -> int:
    os.umask(0o077)
    shelf = call.shelf_folder(wanted.shelf)
    door = Program(program.find(sys.argv[0]), wanted.data, shelf)
    mail = os.path.join(shelf, "mail")
    durable.make_folder(mail)
    with Lock(os.path.join(mail, "lock"), wanted.seconds) as lock:
        door.held = (lock.handle,)
        _look_at_packets(shelf)
        board = Board(wanted.data, conferences.look(door), wanted.seconds)
        works = upkeep_plan.plan(board, os.path.join(shelf, "upkeep"), "--unread" in wanted.options, int(time.time()))
        if "-n" in wanted.options:
            call.say("".join(f"{line}\n" for line in _lines(works)))
            return DONE
        return _Upkeep(door, shelf).carry_out(works)


def _look_at_packets(shelf: str) -> None:
    """Sees that no toss is under way, whose packet would come twice where a pack forgets its msgids."""
    folders = FtnFolders(shelf)
    found = [it + ending for ending in (BUNDLE, PACKET) for it in folders.stems(ending)] if folders.is_made() else []
    if found:
        raise Failure(f"{os.path.join(folders.work, found[0])} is under way: run qwkdoor-toss first", BUSY)


def _lines(works: "list[Work]") -> "list[str]":
    """Gives the lines of the batch, with a remark before the commands of each conference."""
    remarks = [f"# {it.conference.number} {it.conference.name}: {it.remark()}" for it in works]
    return [line for remark, it in zip(remarks, works) for line in (remark, *it.commands())]


class _Upkeep:
    """Has the program carry out what is to be done."""

    def __init__(self, door: Program, shelf: str) -> None:
        self.door = door
        self.batch = os.path.join(shelf, "upkeep.batch")
        self.log = RunLog(os.path.join(shelf, "upkeep.log"))
        self.refused = 0

    def carry_out(self, works: "list[Work]") -> int:
        """Carries out the commands, as batches. Gives the status of the run."""
        self._note_due(works)
        for lines in upkeep_plan.batches(line for it in works for line in it.commands()):
            self._run_batch(lines)
        if self.refused == 0:
            return DONE
        commands = "a command was" if self.refused == 1 else f"{self.refused} commands were"
        call.complain(f"{NAME}: {commands} refused: {self.log.path} says which")
        return REFUSED

    def _note_due(self, works: "list[Work]") -> None:
        for work in (it for it in works if it.due.numbers or it.due.held):
            self.log.note(str(work.conference.number), "due", 0, work.remark())

    def _run_batch(self, lines: "list[str]") -> None:
        durable.remove(self.batch)
        durable.write_new(self.batch, "".join(f"{line}\n" for line in lines).encode("ascii"))
        reply = self.door.run("batch", os.path.basename(self.batch))
        said = [line.decode("latin-1") for line in reply.lines]
        for line, answer in zip(lines, said):
            self._judge(line, answer)
        conferences.end_at_fault("batch", reply)
        durable.remove(self.batch)

    def _judge(self, line: str, answer: str) -> None:
        """Logs what was refused, and each pack."""
        command, number = line.split(" ")[:2]
        refused = answer.startswith("refused")
        self.refused += refused
        if refused or command == "pack":
            self.log.note(number, command, int(refused), f"{line}: {answer}" if refused else answer)
