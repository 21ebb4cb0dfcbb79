"""A search finds in the pieces of a packet what `read` shows of its messages one by one."""

from __future__ import annotations

import os
import random
import unittest
from unittest import mock

from tests.reader_support import Caller, Letter, control, messages, numbered
from tests.support import PROGRAM, needs_program
from qwkdoor_scripts import reader_search
from qwkdoor_scripts.program import Program
from qwkdoor_scripts.reader_listing import read_listing
from qwkdoor_scripts.reader_message import read_message
from qwkdoor_scripts.reader_state import Box


@needs_program
class Search(Caller):
    """Pieces are as small as one message here, so that each is cut."""

    def setUp(self) -> None:
        super().setUp()
        self.shelf = Box(self.home, "TESTBBS")
        self.shelf.make()
        self.door = Program(PROGRAM, os.path.join(self.home, "none"), self.shelf.path)

    def open(self, letters: "list[Letter]") -> reader_search.Texts:
        """Gives the texts of a packet of these messages."""
        os.mkdir(self.shelf.at("packets", "P"))
        for name, data in (("CONTROL.DAT", control(count=len(letters))), ("MESSAGES.DAT", messages(letters))):
            with open(self.shelf.at("packets", "P", name), "wb") as file:
                file.write(data)
        entries = read_listing(self.door.run("read", "packets/P").lines, "cp437").entries
        return reader_search.Texts(self.shelf, self.door, "P", entries, "cp437")

    def one_by_one(self, place: int) -> str:
        """Gives the text of a message as `read` of the whole packet says it."""
        return "\n".join(read_message(self.door.run("read", "packets/P", str(place)).lines, "cp437").lines).casefold()

    def test_the_texts_are_those_that_are_read(self) -> None:
        draw = random.Random(80)
        sizes = [0, 1, 127, 128, 129, 255, 256, 600, 5000]
        texts = [bytes(draw.choice(b"ab \n\n\t\0\xe3\x9b\x01") for _ in range(draw.choice(sizes))) for _ in range(40)]
        for size in (128, 1024, 4096):
            with mock.patch.object(reader_search, "_SIZE", size), mock.patch.object(reader_search, "_PIECES", 1 << 30):
                texts_of = self.open(numbered([Letter(text=it) for it in texts]))
                wanted = {place: self.one_by_one(place) for place in range(1, 41)}
                for words in ("ab", "?", "a  b", "AB", "nowhere", ""):
                    found = {place for place, text in wanted.items() if words.casefold() in text}
                    self.assertEqual(texts_of.having(words, lambda place: None), found, words)
                self.assertEqual(texts_of.texts, wanted)
                self.assertEqual([it.first for it in texts_of.pieces][0], 1)
                self.assertEqual(sum(it.count for it in texts_of.pieces), 40)
            os.rename(self.shelf.at("packets", "P"), self.shelf.at("packets", f"P{size}"))

    def test_what_cannot_have_the_words_is_not_read(self) -> None:
        letters = numbered([Letter(text=b"x" * 1000 + (b" needle" if place == 20 else b"")) for place in range(40)])
        with mock.patch.object(reader_search, "_SIZE", 2048), mock.patch.object(reader_search, "_PIECES", 1 << 30):
            texts = self.open(letters)
            self.assertEqual(texts.having("needle", lambda place: None), {21})
        self.assertLess(len(texts.texts), 4)


if __name__ == "__main__":
    unittest.main()
