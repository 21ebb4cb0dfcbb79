"""A packet that is being read: its messages and areas, what is unread, and which areas are of net mail."""

from __future__ import annotations

import os
from typing import Optional

from . import durable, program
from .characters import shown
from .failure import Failure
from .reader_listing import Entry, Listing, read_listing
from .reader_marks import Marks
from .reader_message import Message, read_message
from .reader_outbox import Outbox
from .reader_packet import Packet
from .reader_quoting import is_net_name
from .reader_search import Progress, Texts
from .reader_settings import Settings

class Session:
    """A packet, its board's folder, and the caller's settings."""

    def __init__(self, packet: Packet, outbox: Outbox, settings: Settings, editing: str) -> None:
        self.packet = packet
        self.box = packet.box
        self.outbox = outbox
        self.door = outbox.door
        self.settings = settings
        self.editing = editing
        self.listing: Listing = read_listing(packet.listing, settings.characters)
        self.marks = Marks(self.box.at("read"))
        entries = self.listing.entries
        self.texts = Texts(self.box, self.door, packet.packet_id, entries, settings.characters)
        self.nets = self._read_nets()

    def area_name(self, area: int) -> str:
        """Gives an area's name, or its number where it has none."""
        name = shown(self.packet.control.areas.get(area, b""), self.settings.characters).strip()
        return name or str(area)

    def area_of(self, words: str) -> Optional[int]:
        """Gives the area of a number, or of a name that no other area has."""
        if words.isdigit():
            return int(words) if int(words) in self.packet.control.areas else None
        found = [it for it in self.packet.control.areas if self.area_name(it).upper() == words.upper()]
        return found[0] if len(found) == 1 else None

    def ask_program(self, *words: str) -> "list[bytes]":
        """Carries out a command that reads. Failure where the program met a fault."""
        reply = self.door.run(*words)
        if reply.status > program.REFUSED:
            raise Failure(f"the program ended with status {reply.status}: {reply.fault}", reply.status)
        return reply.lines

    def read(self, place: int) -> "list[bytes]":
        """Gives what the program says of the message in a place."""
        return self.ask_program("read", self.packet.shelf_name, str(place))

    def message(self, entry: Entry) -> Message:
        """Gives a message of the packet."""
        return read_message(self.read(entry.place), self.settings.characters)

    def is_read(self, entry: Entry) -> bool:
        """Whether the caller has read a message."""
        return self.marks.is_read(entry.area, entry.number)

    def unread(self, entries: "list[Entry]") -> "list[Entry]":
        """Gives those that the caller hasn't read."""
        return [it for it in entries if not self.is_read(it)]

    def is_net(self, area: int) -> bool:
        """Whether an area is one of net mail: as the caller said, else by its name."""
        return self.nets.get(area, is_net_name(self.area_name(area)))

    def say_net(self, area: int, is_net: bool) -> None:
        """Keeps whether an area is one of net mail."""
        self.nets[area] = is_net
        lines = [f"{it} {'yes' if net else 'no'}\n" for it, net in sorted(self.nets.items())]
        durable.write_whole(self.box.at("net"), "".join(lines).encode())

    def _read_nets(self) -> "dict[int, bool]":
        if not os.path.exists(self.box.at("net")):
            return {}
        with open(self.box.at("net"), encoding="ascii", errors="replace") as file:
            pairs = [line.split() for line in file]
        return {int(it[0]): it[1] == "yes" for it in pairs if len(it) == 2 and it[0].isdigit()}

    def having(self, words: str, progress: Progress) -> "list[Entry]":
        """Gives the messages with these words in a name, the subject or the text."""
        found = {it.place for it in self.listing.having(words)} | self.texts.having(words, progress)
        return [it for it in self.listing.entries if it.place in found]

    def news(self) -> "list[str]":
        """Keeps the packet's news, and gives its lines."""
        if self.packet.news is None:
            return []
        path = self.box.at("news", self.packet.packet_id)
        if not os.path.exists(path):
            durable.write_whole(path, self.packet.news)
        return self.lines_of(self.packet.news)

    def old_news(self) -> "list[str]":
        """Gives the news of all packets, the newest first."""
        paths = [self.box.at("news", name) for name in os.listdir(self.box.at("news")) if not name.endswith(".new")]
        lines: "list[str]" = []
        for path in sorted(paths, key=os.path.getmtime, reverse=True):
            with open(path, "rb") as file:
                lines.extend([*self.lines_of(file.read()), ""])
        return lines

    def lines_of(self, data: bytes) -> "list[str]":
        """Gives the lines of a text of the board's."""
        lines = data.replace(b"\r\n", b"\n").rstrip(b"\x1a\n\r ").split(b"\n")
        return [shown(line, self.settings.characters) for line in lines]
