"""The packets that a caller is handed out: what is open for him, and the next one.

Where a packet stands is told by three files:

    work/number  work/packet  out/BBSID.QWK  it means                          what is done
    -            -            -              nothing is open                   the next is exported, if there is one
    -            yes          -              left over: it was never open      it is made anew
    yes          yes          -              packed, and not handed out        it is handed out
    yes          -            yes            the caller hasn't taken it        nothing
    yes          -            -              the caller has it                 it is acknowledged
    -            any          yes            somebody's file of that name      it is named, and nothing is exported
    yes          yes          yes            the same                          it is named, and the packet stays

`number` comes by one rename, after the packet's bytes and its name were synced: so a packet with a number is whole. It
is handed out by one rename, after `number` was synced, and with the rights that its readers need: so one that is gone
is known, and was read by who took it. It is acknowledged after its absence was synced in both folders. Then `number`
becomes `seen` by one rename: what the last packet that was acknowledged had, by which it is known whether there can be
anything new.
"""

from __future__ import annotations

import json
import os
import re
from dataclasses import dataclass
from typing import Any, Mapping, Optional

from . import archives, day_verdicts, durable, lending
from .board_totals import Seen
from .caller_folders import Folders
from .callers import Caller, folded
from .day_board import DayBoard
from .program import DONE, Reply

PACKET_FILES = ("CONTROL.DAT", "MESSAGES.DAT")
_DISTRUST = "work/number or work/packet isn't whole, or is another user's: what it had is offered again"


@dataclass(frozen=True)
class PacketRecord:
    """A packet that was exported: its number, what the board had then, and which news it has.

    A record of an earlier version has the number alone.
    """

    number: int
    user: Optional[str] = None
    # None where the packet hasn't all that the board had: then the next one is exported whatever the totals are.
    seen: Optional[Seen] = None
    news: tuple[str, ...] = ()

    def written(self) -> bytes:
        """Gives the bytes of the file: the number, and a line with the rest."""
        rest = {"user": self.user, "seen": self.seen.as_json() if self.seen else None, "news": list(self.news)}
        return f"{self.number}\n{json.dumps(rest)}\n".encode("ascii")


def read_record(path: str) -> Optional[PacketRecord]:
    """Gives the record of a file, None where there is none. ValueError where the file isn't one."""
    try:
        with open(path, "rb") as file:
            lines = file.read().decode("ascii").split("\n")
    except FileNotFoundError:
        return None
    if not re.fullmatch(r"[1-9][0-9]{0,9}", lines[0]):
        raise ValueError(f"{path} has no packet's number")
    rest: Any = json.loads(lines[1]) if len(lines) > 1 and lines[1] else {}
    if not isinstance(rest, dict):
        raise ValueError(f"{path} isn't a packet's record")
    user = rest.get("user")
    names = rest.get("news") or []
    return PacketRecord(
        int(lines[0]),
        user if isinstance(user, str) else None,
        Seen.of_json(rest.get("seen")),
        tuple(it for it in names if isinstance(it, str) and "/" not in it),
    )


class Packets:
    """A caller's packets."""

    def __init__(self, board: DayBoard, caller: Caller, folders: Folders, texts: Mapping[str, bytes]) -> None:
        self.board = board
        self.log = board.log
        self.caller = caller
        self.folders = folders
        # What the sysop says to everyone: the files of SHELF/mail that go into each archive.
        self.texts = texts
        self.number = folders.in_work("number")
        self.seen = folders.in_work("seen")
        self.packet = folders.in_work("packet")
        self.qwk = os.path.join(folders.out, board.totals.bbsid + ".QWK")

    def forget_told(self) -> None:
        """Takes away the news that a packet has: a run may have been killed before it did."""
        for path in (self.number, self.seen):
            record = self.record(path)
            day_verdicts.forget(self.folders.work, record.news if record else ())

    def record(self, path: str) -> Optional[PacketRecord]:
        """Gives a record, and None where it can't be trusted, so that nothing rests on it."""
        try:
            found = read_record(path)
        except (ValueError, RecursionError):
            return None
        if found and found.user is not None and folded(found.user) != folded(self.caller.user):
            return None
        return found

    def run(self) -> None:
        """Goes on with the packet that is open, and exports the next one where nothing is."""
        if self._is_settled():
            self._export_next()

    def _is_settled(self) -> bool:
        """Whether no packet is open any more."""
        if not os.path.lexists(self.number):
            return self._is_free()
        record = self.record(self.number)
        has_packet = os.path.lexists(self.packet)
        if record is None or (has_packet and not archives.is_whole(self.packet, PACKET_FILES)):
            self._distrust()
            return self._is_free()
        if has_packet:
            self._hand_out()
            return False
        if os.path.lexists(self.qwk):
            return False
        return self._is_acknowledged(record)

    def _is_free(self) -> bool:
        if os.path.lexists(self.qwk):
            self._name_other()
            return False
        return True

    def _name_other(self) -> None:
        said = f"out/{os.path.basename(self.qwk)} isn't from this script: move it away"
        self.log.fault(self.caller.name, "out", said)

    def _distrust(self) -> None:
        """Forgets a packet that can't be trusted: its messages are offered again."""
        self.log.fault(self.caller.name, "packet", _DISTRUST)
        durable.remove(self.packet)
        self._forget()

    def _forget(self) -> None:
        durable.remove(self.seen)
        durable.remove(self.number)
        durable.sync_folder(self.folders.work)

    def _is_acknowledged(self, record: PacketRecord) -> bool:
        # That the packet is gone must be on the disk before the board says so.
        durable.sync_folder(self.folders.out)
        durable.sync_folder(self.folders.work)
        reply = self.board.carry_out(self.caller.name, "ack", self.caller.user, str(record.number))
        if reply.status == DONE:
            durable.replace(self.number, self.seen)
            return True
        return self._is_refused_for_good(reply, record.number)

    def _is_refused_for_good(self, reply: Reply, number: int) -> bool:
        """Whether the packet is open no more. A run that was killed may have acknowledged it already."""
        found = re.fullmatch(r"refused nopacket (none|\d+)", reply.last)
        if found is None or (found.group(1) != "none" and int(found.group(1)) >= number):
            self.log.complain(self.caller.name, f"ack {number}: {reply.last}")
        if found is not None:
            self._forget()
        return found is not None

    def _export_next(self) -> None:
        durable.remove(self.packet)
        news = day_verdicts.waiting(self.folders.work)
        if not news and self.has_nothing_new():
            return
        seen = self.board.totals.seen()
        reply = self.board.carry_out(
            self.caller.name, "export", self.caller.user, str(self.caller.limit), f"mail/{self.caller.name}/work"
        )
        found = re.fullmatch(r"packet (\d+): (\d+) messages", reply.last)
        if found is None:
            self.log.complain(self.caller.name, f"export: {reply.last}")
            return
        count = int(found.group(2))
        has_all = count < self.caller.limit
        record = PacketRecord(int(found.group(1)), self.caller.user, seen if has_all else None, tuple(news))
        if count == 0 and not news:
            durable.write_whole(self.seen, record.written())
            return
        self._pack(record)
        self._hand_out()
        self.board.handed_out += count

    def has_nothing_new(self) -> bool:
        """Whether the last packet had all that the board has. Where that can't be known, the board is asked."""
        record = self.record(self.seen)
        return record is not None and self.has_nothing_since(record)

    def has_nothing_since(self, record: PacketRecord) -> bool:
        """Whether a packet that was acknowledged had all that the board has.

        A board that has gone back behind that packet has offered him an earlier one last, and one that went on without
        this script a later one.
        """
        is_last = self.board.last_packet(self.caller.user) == record.number
        return is_last and self.board.totals.has_nothing_since(record.seen)

    def _pack(self, record: PacketRecord) -> None:
        part = self.packet + ".new"
        files = {name: self._made(name) for name in PACKET_FILES}
        if record.news:
            files["NEWS"] = day_verdicts.joined(self.folders.work, record.news)
        files.update(self.texts)
        durable.remove(part)
        archives.write(part, files)
        durable.replace(part, self.packet)
        durable.write_whole(self.number, record.written())
        day_verdicts.forget(self.folders.work, record.news)

    def _made(self, name: str) -> bytes:
        with open(self.folders.in_work(name), "rb") as file:
            return file.read()

    def _hand_out(self) -> None:
        if os.path.lexists(self.qwk):
            self._name_other()
            return
        lending.lend(self.packet, self.folders.out)
        # A run that was killed may have renamed them, or made their folders, and not synced their names.
        durable.sync_file(self.packet)
        durable.sync_file(self.number)
        durable.sync_folder(self.folders.work)
        durable.sync_folder(self.folders.top)
        durable.replace(self.packet, self.qwk)
