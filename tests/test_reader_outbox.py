"""Archives of answers that don't all go into one, or that the program refuses."""

from __future__ import annotations

import os
import tempfile
import unittest
from typing import Callable

from tests.reader_support import Letter, letters_of, message_bytes
from qwkdoor_scripts import reader_texts
from qwkdoor_scripts.program import DONE, REFUSED, Program, Reply
from qwkdoor_scripts.reader_outbox import Outbox
from qwkdoor_scripts.reader_state import Box
from qwkdoor_scripts.reader_texts import About


class Door(Program):
    """A program whose reply packets take two answers, and which refuses some answers."""

    def __init__(self, shelf: str, is_refused: "Callable[[int], bool]") -> None:
        super().__init__("program", "none", shelf)
        self.is_refused = is_refused

    def run(self, *words: str) -> Reply:
        """Carries out `reply FOLDER N TEXT REP`."""
        if self.is_refused(int(words[2])):
            return Reply(REFUSED, [b"refused nomessage"], "")
        path = os.path.join(self.shelf, words[4])
        data = b"TESTBBS".ljust(128)
        if os.path.exists(path):
            with open(path, "rb") as file:
                data = file.read()
        if len(data) > 128 + 256:
            return Reply(REFUSED, [b"refused toolarge " + words[4].encode()], "")
        with open(path, "wb") as file:
            file.write(data + message_bytes(Letter(text=words[2].encode()), 1))
        return Reply(DONE, [b"replied"], "")


class Packing(unittest.TestCase):
    """What becomes of five answers."""

    def pack(self, is_refused: "Callable[[int], bool]") -> "tuple[list[list[bytes]], list[int], list[str]]":
        """Gives the letters of each archive, the answers that are kept, and what was said."""
        said: "list[str]" = []
        with tempfile.TemporaryDirectory() as base:
            box = Box(base, "TESTBBS")
            box.make()
            for place in range(1, 6):
                about = About(reader_texts.REPLY, "P", place, 0, "BOB RAY", "Note", False, "", "")
                reader_texts.keep(reader_texts.begin(box, about, b"text"), b"text")
            outbox = Outbox(box, Door(box.path, is_refused), False)
            outbox.pack(said.append)
            archives = [[it.text for it in letters_of(outbox.path_of(archive))] for archive in outbox.lying()]
            return archives, [it.number for it in outbox.kept()], said

    def test_what_is_too_much_for_one_goes_into_the_next(self) -> None:
        self.assertEqual(self.pack(lambda place: False), ([[b"1", b"2"], [b"3", b"4"], [b"5"]], [], []))

    def test_what_is_refused_is_named_and_stays(self) -> None:
        said = ["answer 1 isn't packed: refused nomessage", "answer 4 isn't packed: refused nomessage"]
        self.assertEqual(self.pack(lambda place: place in (1, 4)), ([[b"2", b"3"], [b"5"]], [1, 4], said))


if __name__ == "__main__":
    unittest.main()
