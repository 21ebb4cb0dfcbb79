"""qwkdoor-toss: the packets of FidoNet neighbours, onto a board."""

from __future__ import annotations

import os
import sys

from . import areas, bundles, call, conferences, durable, program
from .failure import DONE, REFUSED
from .ftn_folders import FtnFolders
from .locks import Lock
from .tossing import Tossing

NAME = "qwkdoor-toss"
USAGE = "usage: qwkdoor-toss [-w SECONDS] [--again] DATA SHELF (qwkdoor-toss --help says more)"
PAGE = """\
usage: qwkdoor-toss [-w SECONDS] [--again] DATA SHELF

Puts the packets that FidoNet neighbours left in SHELF/ftn/in into the conferences of a board, the oldest
first, each once, and keeps them with what was said of each message. A packet that is refused is set aside
with the reason, and the next is taken. So is a message that no conference takes, or has room for. Start it
as often as you like, as from cron: it goes on where a run was killed. Where all is well it prints nothing.

DATA, SHELF   the folders of the board, as of qwkdoor
--again       toss what was set aside too, as after a change of the list of areas
-w SECONDS    how long it waits for a run that is still at work: 0 to 86,400, else 600
--help        print this page

The list of areas has a line TAG CONFERENCE for each area whose tag isn't the name of its conference, as one
of more than 13 bytes. Empty lines and lines that begin with '#' are skipped.

files of SHELF/ftn:
  in      where packets *.pkt and bundles of them are left, whole, so by a rename. A bundle is a zip archive
          *.zip, or *.mo0 to *.suz. Other files there are left alone
  areas   the list of areas, where there is one
  kept    each packet that was tossed, as ID.pkt, and what was said of it, as ID.txt; and each bundle. Nothing
          is ever deleted here
  bad     what was set aside, and beside it as a text the reason: ID.pkt is a packet, ID.zip a bundle, and
          ID.3.pkt the message in place 3 of the packet ID, as a packet of its own
  log     a line for each step: the moment, ID, the step, its status, and how it ended
  work    what is under way. Leave it alone

It holds SHELF/mail/lock, as qwkdoor-day does, so that each waits for the other. The program is the qwkdoor
beside this script, or what QWKDOOR in the environment names.

status:
  0  done. What the board has already is no fault
  1  a packet or a message was refused or set aside: a line on standard error says how many, and the log
     which. All others were tossed, unless check was refused
  2  not the words of a call, or of the list: a line on standard error says which
  3 to 7  the status with which a command of qwkdoor ended. Nothing was done after it
 70  a file couldn't be written or moved, memory ran out, or the program didn't run or was killed
 75  another run was at work all the time
"""


def main(words: "list[str]") -> int:
    """Carries out the call. Gives its status."""
    return call.carried_out(NAME, PAGE, lambda: _run(call.read(words, "", ["again"], USAGE)))


def _run(wanted: call.Call) -> int:
    os.umask(0o077)
    shelf = call.shelf_folder(wanted.shelf)
    door = program.Program(program.find(sys.argv[0]), wanted.data, shelf)
    mail = os.path.join(shelf, "mail")
    durable.make_folder(mail)
    with Lock(os.path.join(mail, "lock"), wanted.seconds) as lock:
        door.held = (lock.handle,)
        folders = FtnFolders(shelf)
        folders.make()
        again = "--again" in wanted.options
        if folders.has_packets(again):
            _toss(door, folders, again)
        folders.sweep()
    if folders.complaints == 0:
        return DONE
    call.complain(f"{NAME}: {_counted(folders.complaints)} refused or set aside: {folders.log.path} says why")
    return REFUSED


def _toss(door: program.Program, folders: FtnFolders, again: bool) -> None:
    """Tosses what lies in `work`, where a run was killed too, and behind that what came since."""
    names = [it.name for it in conferences.look(door)]
    tossing = Tossing(door, folders, areas.read(os.path.join(folders.top, "areas"), names))
    folders.take()
    if again:
        folders.take_again()
    bundles.unpack_all(folders)
    tossing.toss_all()


def _counted(complaints: int) -> str:
    return "a packet or message was" if complaints == 1 else f"{complaints} packets or messages were"
