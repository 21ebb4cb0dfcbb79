"""The list of callers: lines that are none, and lines of an earlier version."""

from __future__ import annotations

import os
import tempfile
import unittest

from tests.support import MEMORY

from qwkdoor_scripts import callers
from qwkdoor_scripts.callers import Caller
from qwkdoor_scripts.failure import Failure


class Lists(unittest.TestCase):
    """SHELF/mail/callers."""

    def test_a_list_is_looked_at_as_a_whole(self) -> None:
        bad = [
            '"" 1 a', '"Ann" a', '"Ann" 1', "Ann 1 a", '"Ann 1 a', '"Ann" 0 a', '"Ann" 2001 a', '"Ann" -1 a',
            '"Ann" 1 .a', '"Ann" 1 ../a', '"Ann" 1 a/b', '"Ann" 1 log', '"Ann" 1 lock', '"Ann" 1 callers',
            '"Ann" 1 ' + "a" * 33, '"Ann" 1 a 10000', '"Ann" 1 a x', '"Ann" 1 a 1 x', '"Ann" 1 a 1 1 1',
            '"A\0nn" 1 a', '"A\x1bnn" 1 a', '"Ann" ' + "9" * 5000 + " a", '"Ann" 1 a\n"Bob" 1 a',
            '"Ann" 1 a\n"aNN" 1 b', '"Ann" \u0661 a',
        ]  # fmt: skip
        for text in bad:
            with self.subTest(text[:40]), self.assertRaises(Failure) as caught:
                self._read(text.encode())
            self.assertEqual(2, caught.exception.status)
            self.assertRegex(str(caught.exception), r"callers, line [12]: ")

    def _read(self, data: bytes) -> list[Caller]:
        with tempfile.TemporaryDirectory(dir=MEMORY) as folder:
            path = os.path.join(folder, "callers")
            with open(path, "wb") as file:
                file.write(data)
            return callers.read(path)

    def test_a_list_of_yesterday_is_read_as_it_was(self) -> None:
        text = b'# callers\r\n\r\n  "Ann Lee"\t2000  ann \r\n"Bob Ray"100 bob\n'
        text += b'"J\xf6rg" 0010 j.1_2-3 5 640\n"Zoe" 1 zoe'
        self.assertEqual(
            [
                Caller("Ann Lee", 2000, "ann", 200, 262_144),
                Caller("Bob Ray", 100, "bob", 200, 262_144),
                Caller(os.fsdecode(b"J\xf6rg"), 10, "j.1_2-3", 5, 640),
                Caller("Zoe", 1, "zoe", 200, 262_144),
            ],
            self._read(text),
        )


if __name__ == "__main__":
    unittest.main()
