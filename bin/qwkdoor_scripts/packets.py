"""FidoNet packets of type 2 (FTS-0001), taken apart as bytes.

Nothing is judged here: the program reads each packet itself. This reader takes exactly those that the program takes,
so that one which it can't read is refused there too, with the program's words. docs/FORMATS.md has the layout.
"""

from __future__ import annotations

import struct
from dataclasses import dataclass, replace
from typing import Optional

# The longest packet that the program reads, in bytes.
LIMIT = 4_194_304
END = b"\0\0"

_HEADER_LENGTH = 58
_HEAD_LENGTH = 34
_TYPE = struct.pack("<H", 2)
# To, From and Subject, with their NUL.
_WIDTHS = (36, 36, 72)
_AREA = b"AREA:"
_MSGID = b"\x01MSGID: "
_MSGID_LIMIT = 80


@dataclass(frozen=True)
class Message:
    """A packed message: its numbers and date, and its four texts without their NULs."""

    head: bytes
    to: bytes
    sender: bytes
    subject: bytes
    text: bytes

    def data(self) -> bytes:
        """Gives the bytes as they stand in a packet."""
        return b"\0".join((self.head + self.to, self.sender, self.subject, self.text, b""))

    def tag(self) -> Optional[bytes]:
        """Gives the tag of its area. None for net mail."""
        line = self._first_line().replace(b"\n", b"")
        return line[len(_AREA) :].strip(b" ") if line.startswith(_AREA) else None

    def _first_line(self) -> bytes:
        return self.text.split(b"\r", 1)[0]

    def has_msgid(self) -> bool:
        """Tells whether the program finds a msgid in it: what it posts without one it would post a second time."""
        for line in self.text.replace(b"\n", b"").split(b"\r"):
            if line.startswith(_MSGID):
                value = line[len(_MSGID) :].strip(b" ")
                return 1 <= len(value) <= _MSGID_LIMIT and min(value) >= 0x20
        return False

    def with_tag(self, tag: bytes) -> Message:
        """Gives the message with another tag. It has one."""
        return replace(self, text=_AREA + tag + self.text[len(self._first_line()) :])

    def with_msgid(self, msgid: bytes) -> Message:
        """Gives the message with a msgid before all other lines but that of its area: the first one counts."""
        line = _MSGID + msgid + b"\r"
        if self.tag() is None:
            return replace(self, text=line + self.text)
        area, _, rest = self.text.partition(b"\r")
        return replace(self, text=area + b"\r" + line + rest)


@dataclass(frozen=True)
class Packet:
    """A packet: its header, and its messages in their order."""

    header: bytes
    messages: "list[Message]"

    def data(self) -> bytes:
        """Gives the bytes of the packet."""
        return b"".join([self.header, *(it.data() for it in self.messages), END])


def read(data: bytes) -> Optional[Packet]:
    """Takes a packet apart. None where it has a fault, whatever it is."""
    if len(data) < _HEADER_LENGTH or data[18:20] != _TYPE:
        return None
    messages = []
    at = _HEADER_LENGTH
    while data[at : at + 2] not in (b"", END):
        found = _message(data, at)
        if found is None:
            return None
        message, at = found
        messages.append(message)
    return Packet(data[:_HEADER_LENGTH], messages)


def _message(data: bytes, start: int) -> "Optional[tuple[Message, int]]":
    """Gives the message that begins at a place, and the place behind it."""
    at = start + _HEAD_LENGTH
    if data[start : start + 2] != _TYPE or len(data) < at:
        return None
    texts = []
    for limit in (*_WIDTHS, len(data)):
        end = data.find(b"\0", at, at + limit)
        if end < 0:
            return None
        texts.append(data[at:end])
        at = end + 1
    to, sender, subject, text = texts
    return Message(data[start : start + _HEAD_LENGTH], to, sender, subject, text), at
