"""What the scripts read of a ledger: when the board was made, its sysop, and its users, whose ids are places from 1."""

from __future__ import annotations

import struct
from dataclasses import dataclass
from typing import Optional

from .failure import Failure

_MAGIC = b"QMDL"
_VERSION = 2
_COUNTS = struct.Struct("<4s4H")
_CREATED_AT = 16
_NUMBER = struct.Struct("<I")
_TEXTS_AT = 24
# A number, a kind and rules.
_CONFERENCE_LENGTH = 4
# Flags, last packet and members, and four offers, each a number and a number for each conference.
_USER_LENGTH = 13
_LAST_PACKET_AT = 1
_OFFERS = 4


@dataclass(frozen=True)
class People:
    """When the board was made, the sysop's name, and the users in the order of their ids, with their last packets."""

    created: int
    sysop: bytes
    users: "list[bytes]"
    packets: "list[int]"

    def is_sysop(self, user: int) -> bool:
        """Tells whether the user of an id is the sysop, who sees private messages too."""
        return self.users[user - 1].lower() == self.sysop.lower()

    def last_packet(self, user: bytes) -> Optional[int]:
        """Gives the number of the last packet that a user was offered, 0 where he was offered none."""
        found = (packet for name, packet in zip(self.users, self.packets) if name.lower() == user.lower())
        return next(found, None)


def read(path: str) -> People:
    """Reads the ledger of a board that `check` found whole."""
    with open(path, "rb") as file:
        data = file.read()
    try:
        return _people(data)
    except (struct.error, ValueError):
        raise Failure(f"{path} doesn't read, though check found it whole") from None


def _people(data: bytes) -> People:
    magic, version, conferences, users, zones = _COUNTS.unpack_from(data)
    if (magic, version) != (_MAGIC, _VERSION):
        raise ValueError("another version")
    (created,) = _NUMBER.unpack_from(data, _CREATED_AT)
    cursor = _Cursor(data, _TEXTS_AT)
    sysop = [cursor.text(0, 0) for _ in range(5)][3]
    cursor.at += 2 * zones
    for _ in range(conferences):
        cursor.text(_CONFERENCE_LENGTH, 0)
    return People(created, sysop, *_users(cursor, users, _USER_LENGTH + _OFFERS * 4 * (1 + conferences)))


def _users(cursor: _Cursor, count: int, length: int) -> "tuple[list[bytes], list[int]]":
    """Gives the names of so many users, and their last packets. Behind each name stand so many bytes."""
    names, packets = [], []
    for _ in range(count):
        names.append(cursor.text(0, length))
        (packet,) = _NUMBER.unpack_from(cursor.data, cursor.at - length + _LAST_PACKET_AT)
        packets.append(packet)
    return names, packets


class _Cursor:
    """A place in the ledger, which goes on behind what is read."""

    def __init__(self, data: bytes, at: int) -> None:
        self.data = data
        self.at = at

    def text(self, before: int, behind: int) -> bytes:
        """Gives a text, with so many bytes before it and behind it that aren't looked at."""
        start = self.at + before
        (length,) = struct.unpack_from("<H", self.data, start)
        end = start + 2 + length
        if len(self.data) < end + behind:
            raise ValueError("a text that is cut")
        self.at = end + behind
        return self.data[start + 2 : end]
