"""The texts of a packet's messages, searched in a time that grows as the packet does.

`read` goes through the whole packet for each message. So the packet is cut into small ones, at the bytes at which
`scan` says that a message is cut off: nothing is read out of a message here. Of these, those are read that may have
the words.
"""

from __future__ import annotations

import os
import re
from dataclasses import dataclass
from typing import Callable, Iterator

from . import program
from .failure import Failure
from .reader_listing import Entry
from .reader_message import read_message
from .reader_state import Box

Progress = Callable[[int], None]

# The bytes of the first block, which is no message's, of a piece, and the most pieces that are wanted.
_BLOCK = 128
_SIZE = 32768
_PIECES = 256
# The lines of a message that `read` says before those of its text.
_HEAD = 8
_CUT_OFF = re.compile(r"refused broken truncated (\d+)")


@dataclass(frozen=True)
class Piece:
    """Messages that follow one another: the place of the first, how many, and where their bytes begin and end."""

    first: int
    count: int
    start: int
    end: int


class Texts:
    """The texts of a packet's messages. Those that were read for a search are kept for the next one."""

    def __init__(
        self, box: Box, door: program.Program, packet_id: str, entries: "list[Entry]", characters: str
    ) -> None:
        self.box = box
        self.door = door
        self.packet_id = packet_id
        self.entries = entries
        self.characters = characters
        self.pieces: "list[Piece]" = []
        self.texts: "dict[int, str]" = {}

    def having(self, words: str, progress: Progress) -> "set[int]":
        """Gives the places of the messages with some words in their texts. What is read stays where it is stopped."""
        sought = words.casefold()
        data = self.box.read("packets", self.packet_id, "MESSAGES.DAT")
        found: "set[int]" = set()
        for piece in self._all_pieces(data):
            progress(piece.first)
            if self._may_have(data[piece.start : piece.end], sought):
                found.update(place for place, text in self._texts_of(piece, data) if sought in text)
        return found

    def _may_have(self, data: bytes, sought: str) -> bool:
        """Whether texts of these bytes can have some words. A question mark may stand for any byte."""
        text = data.replace(b"\t", b" ").decode(self.characters, "replace")
        return "?" in sought or sought in text.casefold()

    def _all_pieces(self, data: bytes) -> "Iterator[Piece]":
        yield from self.pieces
        last = self.pieces[-1] if self.pieces else Piece(1, 0, _BLOCK, _BLOCK)
        while last.end < len(data):
            last = self._cut(data, last.first + last.count, last.end)
            self.pieces.append(last)
            yield last

    def _cut(self, data: bytes, first: int, start: int) -> Piece:
        """Gives the piece that begins at a byte, with as many whole messages as go into it, and one at least."""
        size = max(_SIZE, len(data) // _PIECES // _BLOCK * _BLOCK)
        end = start + size
        while True:
            self._write("MESSAGES.DAT", data[:_BLOCK] + data[start:end])
            said = self.door.run("scan", "work/piece/MESSAGES.DAT").last
            cut_off = _CUT_OFF.fullmatch(said)
            if not cut_off:
                return Piece(first, _count(said), start, min(end, len(data)))
            whole = start + int(cut_off.group(1)) - _BLOCK
            size *= 2
            end = whole if whole > start else start + size

    def _texts_of(self, piece: Piece, data: bytes) -> "list[tuple[int, str]]":
        places = range(piece.first, piece.first + piece.count)
        if piece.first not in self.texts:
            self.texts.update(zip(places, self._read(piece, data)))
        return [(place, self.texts[place]) for place in places]

    def _read(self, piece: Piece, data: bytes) -> "list[str]":
        """Has the program read the messages of a piece, in one run."""
        self._write("MESSAGES.DAT", data[:_BLOCK] + data[piece.start : piece.end])
        self._write("CONTROL.DAT", self.box.read("packets", self.packet_id, "CONTROL.DAT"))
        self._write("all", b"".join(b"read work/piece %d\n" % place for place in range(1, piece.count + 1)))
        reply = self.door.run("batch", "work/piece/all")
        said = reply.lines
        entries = self.entries[piece.first - 1 : piece.first - 1 + piece.count]
        if len(said) != sum(_HEAD + it.lines for it in entries):
            raise Failure(f"the program didn't read the lines that it listed: {reply.fault}")
        texts = []
        at = 0
        for entry in entries:
            end = at + _HEAD + entry.lines
            texts.append("\n".join(read_message(said[at:end], self.characters).lines).casefold())
            at = end
        return texts

    def _write(self, name: str, data: bytes) -> None:
        """Writes a file that nothing rests on, for the program."""
        os.makedirs(self.box.at("work", "piece"), exist_ok=True)
        with open(self.box.at("work", "piece", name), "wb") as file:
            file.write(data)


def _count(said: str) -> int:
    found = re.fullmatch(r"(\d+) messages", said)
    if not found:
        raise Failure(f"the program scanned a part of the packet, and gave an unknown reply: {said}")
    return int(found.group(1))
