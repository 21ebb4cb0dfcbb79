"""Tosses the packets that were taken, each once, whatever moment a run is killed at.

What is under way is told by names, each of which comes or goes by one rename:

    in/*.pkt, *.zip, *.mo0     as the neighbour's mailer left it
    work/ID.zip                a bundle that was taken, and isn't unpacked for sure
    work/ID.pkt, ID-01.pkt     a packet that was taken, and isn't tossed for sure
    bad/ID.3.pkt and ID.3.txt  its message in place 3, which was refused, and why; the text is there first
    bad/ID.pkt and ID.txt      a packet that was refused as a whole, or whose one message was
    kept/ID.txt and ID.pkt     what was said of each message, and, once all of this is on the disk, the packet

A packet that lies in `work` is tossed, also where a run was killed that had tossed it already. This posts nothing a
second time. The program refuses a message whose msgid its conference has, also where that message was deleted since.
It would post one without a msgid again, so such a message gets one in the copy that the program reads (copies.py). The
board itself is thus the record of what was tossed, which a record beside it could contradict after a crash, or after a
day in between that put mail into the same conference. What was posted by a run that was killed is `dupe` for the next.
A pack forgets msgids, so qwkdoor-upkeep packs nothing while a packet lies in `work`.

The lock is the day's, SHELF/mail/lock: whoever works on the board takes it, so that each waits for the other, and the
program, whose own lock waits for nobody, is never called twice at once.
"""

from __future__ import annotations

import os
from typing import Optional

from . import arrivals, durable, packets
from .areas import Areas
from .characters import shown
from .conferences import end_at_fault
from .copies import named, parts
from .failure import Failure
from .ftn_folders import PACKET, FtnFolders
from .packets import Message, Packet
from .program import REFUSED, Program

_COPY = "ftn/work/copy"
_POSTED = "posted"
_REFUSED = "refused "
_DUPLICATE = "dupe"
# Why a message is kept apart, for the sysop. What breaks any other rule is refused on each board.
_KEPT_APART = {
    "area": "area: no conference of kind echo takes {tag}: give it one in ftn/areas",
    "length": "length: its text has more than 16,384 bytes",
    "full": "full: the conference has 9,999 slots, or the board as many bytes as it may have",
}


class _PacketRefused(Exception):
    """The program refuses a packet as a whole, with these words."""


class Tossing:
    """Tosses packets onto a board, and keeps them."""

    def __init__(self, program: Program, folders: FtnFolders, areas: Areas) -> None:
        self.program = program
        self.folders = folders
        self.areas = areas

    def toss_all(self) -> None:
        """Tosses the packets that were taken, in the order in which they came."""
        for stem in self.folders.stems(PACKET):
            path = os.path.join(self.folders.work, stem + PACKET)
            if arrivals.is_file(path):
                self._toss_file(stem, path)
            else:
                self.folders.set_aside(stem + PACKET, "toss", "it isn't a file")

    def _toss_file(self, stem: str, path: str) -> None:
        try:
            with open(path, "rb") as file:
                # Of one that is too long the program gets as much as it needs to say so.
                data = file.read(packets.LIMIT + 1)
        except OSError as error:
            self.folders.complain(stem, "toss", f"it can't be read: {error.strerror}")
            return
        durable.sync_file(path)
        self._toss(stem, data)

    def _toss(self, stem: str, data: bytes) -> None:
        packet = packets.read(data) if len(data) <= packets.LIMIT else None
        messages = named(packet) if packet else []
        try:
            verdicts = self._verdicts(packet, messages, data)
        except _PacketRefused as refusal:
            self.folders.set_aside(stem + PACKET, "toss", str(refusal))
            return
        posted = sum(verdict.startswith(_POSTED) for verdict in verdicts)
        total = f"posted {posted} refused {len(verdicts) - posted}"
        self.folders.log.note(stem, "toss", 0, total)
        if packet and len(messages) == 1 and _rule(verdicts[0]) in _KEPT_APART:
            self.folders.set_aside(stem + PACKET, "toss", _reason(messages[0], verdicts[0]))
            return
        if packet:
            self._keep_apart(stem, packet.header, messages, verdicts)
        lines = [f"{place} {verdict}\n" for place, verdict in enumerate(verdicts, 1)]
        text = "".join([*lines, total, "\n"]).encode("latin-1")
        durable.write_whole(os.path.join(self.folders.kept, stem + ".txt"), text)
        self.folders.keep(stem + PACKET)

    def _verdicts(self, packet: Optional[Packet], messages: "list[Message]", data: bytes) -> "list[str]":
        """Has a packet tossed. Gives what is said of each message."""
        if packet is None:
            return self._carry_out(data)
        found: "list[str]" = []
        for part in parts(packet.header, messages, self.areas):
            found += self._carry_out(part)
        if len(found) != len(messages):
            raise Failure(f"toss said {len(found)} verdicts on a packet of {len(messages)} messages")
        return found

    def _carry_out(self, part: bytes) -> "list[str]":
        durable.remove(self.folders.copy)
        durable.write_new(self.folders.copy, part)
        reply = self.program.run("toss", _COPY)
        end_at_fault("toss", reply)
        if reply.status == REFUSED:
            raise _PacketRefused(reply.last)
        return [line.decode("latin-1").split(" ", 1)[1] for line in reply.lines[:-1]]

    def _keep_apart(self, stem: str, header: bytes, messages: "list[Message]", verdicts: "list[str]") -> None:
        """Writes a packet, with its reason, for each refused message that a sysop can make room for."""
        for place, (message, verdict) in enumerate(zip(messages, verdicts), 1):
            rule = _rule(verdict)
            if rule in _KEPT_APART:
                self._write_apart(f"{stem}.{place}", Packet(header, [message]), _reason(message, verdict))
            elif rule and rule != _DUPLICATE:
                self.folders.complain(f"{stem}.{place}", "message", verdict)

    def _write_apart(self, stem: str, packet: Packet, reason: str) -> None:
        for ending, data in ((".txt", f"{reason}\n".encode("utf-8")), (PACKET, packet.data())):
            durable.write_whole(os.path.join(self.folders.bad, stem + ending), data)
        self.folders.complain(stem, "message", reason.split("\n", 1)[0])


def _rule(verdict: str) -> str:
    """Gives the rule that refuses a message, and nothing for one that was posted."""
    return verdict[len(_REFUSED) :] if verdict.startswith(_REFUSED) else ""


def _reason(message: Message, verdict: str) -> str:
    """Says why a message is kept apart, and which one it is."""
    tag = shown(message.tag() or b"")
    lines = [_KEPT_APART[_rule(verdict)].replace("{tag}", tag)]
    for name, value in (("From", message.sender), ("To", message.to), ("Subject", message.subject)):
        lines.append(f"{name}: {shown(value)}")
    return "\n".join(lines)
