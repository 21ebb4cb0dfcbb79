"""What a conference's files say of its messages and of its members, read only.

The files are those of a board that `check` found whole (docs/FORMATS.md), and no run holds the board meanwhile. So
a record that isn't as it says there is a fault of the disk, or of another program.
"""

from __future__ import annotations

import struct
import zlib
from dataclasses import dataclass

from .failure import Failure

_BASE_LENGTH = 1024
_SIGNATURE = b"JAM\0"
# The signature, Revision and a reserved number, and seventeen numbers.
_HEADER = struct.Struct("<4s2H17I")
_SUBFIELD = struct.Struct("<2HI")
_LAST_READ = struct.Struct("<4I")
_PRIVATE = 0x4
_DELETED = 0x8000_0000
_SENDER = 2
_RECIPIENT = 3


@dataclass(frozen=True)
class Header:
    """A message: its number, the moment at which it was written, its marks, and the CRCs of who wrote and gets it."""

    number: int
    written: int
    deleted: bool
    private: bool
    people: "tuple[int, ...]"


@dataclass(frozen=True)
class LastRead:
    """A member of a conference: the user's id, and the number up to which he has acknowledged its messages."""

    user: int
    pointer: int


def name_crc(name: bytes) -> int:
    """Gives JAM's CRC of a name, for which large letters are small ones."""
    return zlib.crc32(name.lower()) ^ 0xFFFF_FFFF


def read_headers(path: str) -> "list[Header]":
    """Gives the messages of a .JHR, in rising number."""
    data = _bytes(path)
    found = []
    at = _BASE_LENGTH
    while at < len(data):
        header, at = _header(data, at, path)
        found.append(header)
    return found


def _header(data: bytes, at: int, path: str) -> "tuple[Header, int]":
    """Gives the message whose header stands at a place, and the place behind its subfields."""
    texts = at + _HEADER.size
    if len(data) < texts:
        raise _not_whole(path)
    signature, _, _, length, *numbers = _HEADER.unpack_from(data, at)
    end = texts + length
    if signature != _SIGNATURE or len(data) < end:
        raise _not_whole(path)
    written, number, attribute = numbers[6], numbers[9], numbers[10]
    private = bool(attribute & _PRIVATE)
    people = _people(data[texts:end], path) if private else ()
    return Header(number, written, bool(attribute & _DELETED), private, people), end


def _people(subfields: bytes, path: str) -> "tuple[int, ...]":
    found = []
    at = 0
    while at < len(subfields):
        start = at + _SUBFIELD.size
        if len(subfields) < start:
            raise _not_whole(path)
        kind, _, length = _SUBFIELD.unpack_from(subfields, at)
        at = start + length
        if kind in (_SENDER, _RECIPIENT):
            found.append(name_crc(subfields[start:at]))
    return tuple(found)


def read_last_reads(path: str) -> "list[LastRead]":
    """Gives the members of a .JLR."""
    data = _bytes(path)
    if len(data) % _LAST_READ.size:
        raise _not_whole(path)
    records = _LAST_READ.iter_unpack(data)
    return [LastRead(user, min(last, high)) for _, user, last, high in records]


def _bytes(path: str) -> bytes:
    with open(path, "rb") as file:
        return file.read()


def _not_whole(path: str) -> Failure:
    return Failure(f"{path} doesn't read, though check found it whole")
