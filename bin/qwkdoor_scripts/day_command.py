"""The command qwkdoor-day: its words, and how it ends."""

from __future__ import annotations

import os
import sys
import time
from typing import Optional

from . import call, callers, day_plan, day_report, program
from .call import Call
from .characters import shown
from .day import Day, one_of
from .day_board import DayBoard
from .day_log import one_line
from .failure import DONE, WRONG_WORDS, Failure
from .locks import Lock
from .runlog import Clock

_NAME = "qwkdoor-day"
_PAGE = """\
usage: qwkdoor-day [-n] [-w SECONDS] [--caller NAME] DATA SHELF
       qwkdoor-day --report DAYS [-w SECONDS] DATA SHELF

For each caller of the list SHELF/mail/callers: uploads the reply packets that he left, acknowledges the
packet that he took away, and hands out the next one where there is something new for him. Start it as often
as you like, as from cron. It waits for a run that is still at work, and goes on where a run was killed. Where
all is well it prints nothing, and else a line on standard error for each thing that went wrong.

DATA, SHELF   the folders of the board, as of qwkdoor
-w SECONDS    how long it waits for a run that is still at work: 0 to 86,400, else 600
-n            says what it would do, and does nothing
--caller NAME serves the caller with the folder NAME alone, as when he logs in
--report DAYS says how many letters of each caller were posted and refused in the last 1 to 3,660 days, how many
              messages he was handed out, and what each conference and the board have left
--help        print this page

The list has a line "USER" LIMIT NAME for each caller: the name with which he is enrolled, how many messages
a packet of his has at most, 1 to 2,000, and the name of his folder in SHELF/mail. That name has 1 to 32
letters, digits, '.', '_' and '-', doesn't begin with '.', and isn't callers, log or lock. Behind them may stand
how many letters he may send a day, 0 to 9,999, else 200, and behind that how many bytes, 0 to 99,999,999, else
262,144. Empty lines and lines that begin with '#' are skipped. A day is one of UTC. An archive past what is left
of it waits for the next one.

files of SHELF/mail:
  callers     the list
  WELCOME, GOODBYE
              the sysop's texts, which each archive has where they are there
  log         a line for each command: the moment, NAME, the command, its status, the last line of its reply;
              and at the end of a run one of totals
  lock        held by a run
  NAME/in     where the caller leaves archives *.REP, whole, so by a rename. They are taken away
  NAME/out    where BBSID.QWK is put, under that name at once. It is never replaced. Once it is gone, it counts
              as delivered: it is acknowledged, and the next one is put there. Its file NEWS says what became of
              each letter that he sent
  NAME/kept   each archive that was uploaded, as ID.rep, and what was said of it, as ID.txt; and what isn't
              an archive with BBSID.MSG, or has more than a day's letters, as ID.bad. Nothing is ever deleted
  NAME/work   what is under way. Leave it alone

The program is the qwkdoor beside this script, or what QWKDOOR in the environment names.

status:
  0  done
  1  a letter or a command was refused, something was set aside or waits, a caller couldn't be served, or the
     board is nearly full: a line says which. All others were served, unless check was refused
  2  not the words of a call, or of the list: a line on standard error says which
  3  the board is damaged. Nothing was done after it, as with 4, 7 and 70
  4  a file of the board failed, or another run holds the board
  7  the program ran out of memory
 70  a disk failed or is full, a file of SHELF/mail itself couldn't be read or written, memory ran out, or the
     program didn't run or was killed
 75  another run was at work all the time
"""
_SHORT = "usage: qwkdoor-day [-n] [-w SECONDS] [--caller NAME] DATA SHELF (qwkdoor-day --help says more)"


def main(words: list[str], clock: Clock = time.time) -> int:
    """Carries out a call, and gives its status."""
    return call.carried_out(_NAME, _PAGE, lambda: _run(call.read(words, "n", ["caller=", "report="], _SHORT), clock))


def _days(wanted: Call) -> Optional[int]:
    """Gives of how many days a report is wanted. None where none is."""
    if "--report" not in wanted.options:
        return None
    if len(wanted.options.keys() - {"-w"}) > 1:
        raise Failure(_SHORT, WRONG_WORDS)
    return call.number(wanted.options["--report"], 1, 3_660, _SHORT)


def _run(wanted: Call, clock: Clock) -> int:
    os.umask(0o077)
    days = _days(wanted)
    shelf = call.shelf_folder(wanted.shelf)
    mail = os.path.join(shelf, "mail")
    path = os.path.join(mail, "callers")
    door = program.Program(program.find(sys.argv[0]), wanted.data, shelf)
    listed = callers.read(path)
    only = one_of(listed, wanted.options.get("--caller"), path)
    with Lock(os.path.join(mail, "lock"), wanted.seconds) as lock:
        door.held = (lock.handle,)
        if "-n" not in wanted.options and days is None:
            return Day(door, shelf, listed, clock).run(only)
        board = DayBoard(door, day_plan.SilentLog("", clock))
        if days is not None:
            said = day_report.lines(mail, listed, board.totals, days, clock)
        else:
            said = day_plan.lines(board, mail, listed, [it for it in listed if only in (None, it.name)])
        call.say("".join(shown(one_line(line), "latin-1") + "\n" for line in said))
        return DONE
