"""What a caller left: each archive is taken, uploaded, and kept with what was said of it.

An archive is in one place at a time, and each step is one rename:

    in/NAME.REP     the caller's. It is renamed to an id of the script's own
    work/ID.rep     taken, and not uploaded for sure. Its bytes are synced before they are uploaded, and uploading them
                    once more answers `again`
    kept/ID.rep     uploaded. Before it comes there, its verdicts, kept/ID.txt, and what the caller is to hear of them,
                    work/ID.news, are synced
    kept/ID.bad     never uploaded, since its own bytes are at fault, and will be tomorrow
"""

from __future__ import annotations

import errno
import heapq
import os
import re

from . import archives, arrivals, day_verdicts, durable
from .caller_folders import Folders
from .callers import Caller
from .day_allowance import FILE, Allowance
from .day_board import DayBoard, of_machine
from .day_log import one_line
from .failure import reason
from .program import DONE, Reply
from .runlog import moment

# The bytes of an archive with a reply packet, and of the packet.
ARCHIVE_LIMIT = 4_194_304
PACKET_LIMIT = 1_048_576
# How many archives of a caller are under way at once, so that one who leaves a million doesn't keep the others waiting.
TAKEN_LIMIT = 100
# The words on an archive that waits have a name of their own: its verdicts come later.
_WAITS = "-waits"
_OWN_FAULT = re.compile(r"refused (toolarge .*|broken .*|noboardid|board)")


class Intake:
    """A caller's archives."""

    def __init__(self, board: DayBoard, caller: Caller, folders: Folders) -> None:
        self.board = board
        self.log = board.log
        self.caller = caller
        self.folders = folders
        self.count = 0

    def run(self) -> None:
        """Takes what the caller left, and uploads what was taken."""
        self._take()
        today = moment(self.log.clock, "%Y-%m-%d")
        allowance = Allowance(self.folders.in_work(FILE), self.caller, today)
        for archive in self._taken():
            if not self._is_passed(archive, allowance):
                return

    def _taken(self) -> list[str]:
        return sorted(name[:-4] for name in os.listdir(self.folders.work) if name.endswith(".rep"))

    def _take(self) -> None:
        room = max(0, TAKEN_LIMIT - len(self._taken()))
        with os.scandir(self.folders.entry) as entries:
            left = heapq.nsmallest(room + 1, (it.name for it in entries if it.name.lower().endswith(".rep")))
        for name in left[:room]:
            self._take_one(os.path.join(self.folders.entry, name))
        if len(left) > room > 0:
            said = f"{TAKEN_LIMIT} archives are under way: the others wait for a later run"
            self.log.fault(self.caller.name, "in", said)

    def _take_one(self, path: str) -> None:
        try:
            if not arrivals.can_be_taken(path):
                raise PermissionError(errno.EACCES, arrivals.NOT_READABLE, path)
            durable.replace(path, self.folders.in_work(self._new_id() + ".rep"))
        except FileNotFoundError:
            # The caller has changed his mind meanwhile.
            return
        except OSError as error:
            if of_machine(error):
                raise
            self.log.fault(self.caller.name, "in", f"can't take {reason(error)}")

    def _new_id(self) -> str:
        """Gives a name that sorts by the moment and that nothing has."""
        now = moment(self.log.clock, "%Y%m%dT%H%M%SZ")
        while True:
            self.count += 1
            name = f"{now}-{self.count:04d}"
            paths = [self.folders.in_work(name + ".rep")]
            paths += [os.path.join(self.folders.kept, name + ending) for ending in (".rep", ".txt", ".bad")]
            if not any(os.path.lexists(path) for path in paths):
                return name

    def _is_passed(self, archive: str, allowance: Allowance) -> bool:
        """Deals with an archive. One that can't be read or moved keeps none behind it waiting."""
        try:
            return self._is_dealt_with(archive, allowance)
        except OSError as error:
            if of_machine(error):
                raise
            self.log.fault(self.caller.name, "archive", reason(error))
            return True

    def _is_dealt_with(self, archive: str, allowance: Allowance) -> bool:
        """Deals with an archive. False where it waits for another day, and those behind it do."""
        was_begun = allowance.was_begun(archive)
        listing: list[bytes] = []
        letters, size, fault = 1, 0, ""
        try:
            size = self._unpack(archive)
            listing, letters = self._listing()
            if allowance.is_too_much(letters, size):
                fault = f"it has {letters} letters and {size} bytes, where {self._day()}"
        except archives.Unreadable as error:
            fault = str(error)
        if not allowance.admits(archive, 1 if fault else letters, 0 if fault else size):
            self._let_wait(archive, allowance, f"it has {letters} letters and {size} bytes")
            return False
        if fault:
            self._set_aside(archive, fault)
        else:
            self._upload(archive, listing, was_begun)
        return True

    def _day(self) -> str:
        return f"a day takes {self.caller.letters} and {self.caller.bytes}"

    def _unpack(self, archive: str) -> int:
        """Puts an archive's reply packet where the program reads it, and gives its length."""
        path = self.folders.in_work(archive + ".rep")
        if not arrivals.is_file(path):
            raise archives.Unreadable("it isn't a file")
        length = os.path.getsize(path)
        if length > ARCHIVE_LIMIT:
            raise archives.Unreadable(f"it has {length} bytes, and may have {ARCHIVE_LIMIT}")
        durable.sync_file(path)
        packet = archives.read_member(path, self.board.totals.bbsid + ".MSG", PACKET_LIMIT)
        durable.remove(self.folders.in_work("msg"))
        durable.write_new(self.folders.in_work("msg"), packet)
        return len(packet)

    def _listing(self) -> tuple[list[bytes], int]:
        """Gives the letters of the packet, a line each, and how many there are. A broken one has none."""
        reply = self.board.ask(self.caller.name, "list", self._packet())
        found = re.fullmatch(r"(\d+) messages", reply.last) if reply.status == DONE else None
        return (reply.lines[:-1], int(found.group(1))) if found else ([], 0)

    def _packet(self) -> str:
        return f"mail/{self.caller.name}/work/msg"

    def _set_aside(self, archive: str, why: str) -> None:
        said = one_line(f"not taken: {why}")
        self._tell(archive, [said])
        durable.write_whole(os.path.join(self.folders.kept, archive + ".txt"), said + b"\n")
        # It is said before the archive is done, so that a kill can't keep it from being said.
        self.log.fault(self.caller.name, "archive", f"{archive}.bad: {why}")
        durable.replace(self.folders.in_work(archive + ".rep"), os.path.join(self.folders.kept, archive + ".bad"))

    def _let_wait(self, archive: str, allowance: Allowance, what: str) -> None:
        if allowance.waits == archive:
            return
        why = f"waits for tomorrow: {what}, where {self._day()}"
        day_verdicts.keep(self.folders.work, archive + _WAITS, archive, [why.encode("ascii")])
        self.log.fault(self.caller.name, "archive", f"{archive}.rep {why}")
        allowance.keep_wait(archive)

    def _tell(self, archive: str, lines: list[bytes]) -> None:
        day_verdicts.keep(self.folders.work, archive, archive, lines)
        day_verdicts.forget(self.folders.work, [archive + _WAITS])

    def _upload(self, archive: str, listing: list[bytes], was_begun: bool) -> None:
        text = os.path.join(self.folders.kept, archive + ".txt")
        before = _begin(text, was_begun)
        reply = self.board.program.run_into(text, "upload", self.caller.user, self._packet())
        if not self._is_judged(reply):
            _cut(text, before)
            return
        said = day_verdicts.Verdicts(_lines(text))
        self.board.count_upload(said)
        self._tell(archive, said.in_words(self.board.totals.names, listing))
        if said.refused:
            letters = said.posted + said.refused
            self.log.fault(self.caller.name, "refused", f"{said.refused} of {letters} letters: kept/{archive}.txt")
        durable.sync_file(text)
        durable.sync_folder(self.folders.kept)
        durable.replace(self.folders.in_work(archive + ".rep"), os.path.join(self.folders.kept, archive + ".rep"))

    def _is_judged(self, reply: Reply) -> bool:
        """Whether the packet was dealt with for good. One that the board refuses for what isn't its own waits."""
        self.board.judge(self.caller.name, "upload", reply)
        if reply.status == DONE:
            return True
        self.log.complain(self.caller.name, f"upload: {reply.last}")
        return bool(_OWN_FAULT.fullmatch(reply.last))


def _begin(text: str, was_begun: bool) -> int:
    """Gives the length of what an earlier run said of the same upload, and ends it with a line that says so."""
    said = b"".join(it + b"\n" for it in _lines(text)) if os.path.lexists(text) else b""
    if was_begun or said:
        durable.write_whole(text, said + day_verdicts.AGAIN + b"\n")
    return len(said)


def _cut(text: str, size: int) -> None:
    """Takes back what was said of an upload that is done once more."""
    if size == 0:
        durable.remove(text)
    else:
        os.truncate(text, size)


def _lines(text: str) -> list[bytes]:
    with open(text, "rb") as file:
        return file.read().splitlines()
