"""A session on a terminal: each key, and the screen that it brings."""

from __future__ import annotations

import os
import unittest

from tests.reader_screen import Screen
from tests.reader_support import Caller, Letter, numbered, write_packet
from tests.support import needs_program

LONG = b"\n".join(b"Line %d of a letter" % number for number in range(1, 31))
CONTROLS = b"\x01MSGID: 1:2/3 4\nText\n--- X\n * Origin: Far (2:20/30)\nSEEN-BY: 20/30\n\x01PATH: 20/30"
LETTERS = numbered([
    Letter("BOB RAY", "ANN LEE", "Key", b"The key lies under the stone", status="+"),
    Letter("CY DAY", "ALL", "Boat", LONG),
    Letter("DEE FAR", "ALL", "Weather", CONTROLS, area=7),
])


def row(name: str, here: int, unread: int) -> str:
    """Gives a row of the areas' screen, which has 79 columns."""
    return f"  {name:<59}{here:>6}{unread:>8}"


AREAS = [
    "Test Board, ANN LEE: 3 messages                                here  unread", "", row("Letters to you", 1, 1),
    row("GENERAL", 2, 2), row("NETMAIL (net mail)", 0, 0), row("NEWS", 1, 1),
    "Enter open  u first unread  w write  / search  t texts  h help  q end",
]
GENERAL = [
    "GENERAL: 2 messages", "",
    "*P    1  BOB RAY          ANN LEE          Key                               1",
    "*     2  CY DAY           ALL              Boat                             30",
    "Enter show  u first unread  r answer  w write  / search  h help  q back",
]
KEY = [
    "From:    BOB RAY", "To:      ANN LEE    private", "Subject: Key",
    "Date:    09-09-01 01:46    Area: GENERAL    Number: 1", "", "The key lies under the stone",
]
KEYS = "Enter on  p previous  n next  r answer  R apart  h help  q list"
MORE = KEYS.replace("on", "more", 1)


class ScreenCase(Caller):
    """A test with a packet that is opened on a terminal."""

    def setUp(self) -> None:
        super().setUp()
        self.packet = write_packet(os.path.join(self.home, "SCREEN.QWK"), LETTERS)

    def open(self, *words: str, columns: int = 79, rows: int = 16) -> Screen:
        """Opens the packet on a terminal."""
        return Screen(self.environment, *words, self.packet, columns=columns, rows=rows)

    def end(self, screen: Screen) -> None:
        """Ends the reader from the screen of areas."""
        screen.press("q")
        self.assertEqual(screen.end(), 0)


@needs_program
class Screens(ScreenCase):
    """Each screen, as a person would see it."""

    def test_areas_lists_and_messages(self) -> None:
        """Areas by name, an area's list, its messages, there and back."""
        screen = self.open()
        self.assertEqual(screen.until("q end"), AREAS)
        screen.after("\x1b[B", "q end")
        self.assertEqual(screen.after("\r", "q back"), GENERAL)
        self.assertEqual(screen.after("\r", "q list"), [*KEY, f"1 of 2  {KEYS}"])
        boat = [
            "From:    CY DAY", "To:      ALL", "Subject: Boat", "Date:    09-09-01 01:46    Area: GENERAL    Number: 2",
            "", *(f"Line {number} of a letter" for number in range(1, 11)),
        ]
        self.assertEqual(screen.after("n", "q list"), [*boat, f"2 of 2  {MORE}"])
        second = [f"Line {number} of a letter" for number in range(10, 25)]
        self.assertEqual(screen.after("\r", "Line 24"), [*second, f"2 of 2  {MORE}"])
        self.assertEqual(screen.after(" ", "Line 30")[:-1], [f"Line {number} of a letter" for number in range(16, 31)])
        self.assertEqual(screen.after("\x1b[A", "Line 15")[0], "Line 15 of a letter")
        self.assertEqual(screen.after("b", "Line 1 ")[0], "Line 1 of a letter")
        screen.after("\x1b[6~", "Line 17")
        screen.after("\x1b[6~", "Line 30")
        self.assertEqual(screen.after("\r", "last message")[:-1], boat)
        self.assertEqual(screen.after("p", "stone"), [*KEY, f"1 of 2  {KEYS}"])
        self.assertEqual(screen.after("p", "first message")[:-1], KEY)
        read = [line.replace("*", " ") for line in GENERAL]
        self.assertEqual(screen.after("q", "q back"), read)
        left = [line[:-1] + "0" if "Letters" in line or "GENERAL" in line else line for line in AREAS]
        self.assertEqual(screen.after("q", "q end"), left)
        screen.press("q")
        self.assertEqual(screen.end(), 0)

    def test_unread_marks_stay(self) -> None:
        """What was read is read the next time too, and `m` and `c` change that."""
        screen = self.open()
        screen.until("q end")
        self.assertEqual(screen.after("u", "q list")[2], "Subject: Key")
        screen.after("m", "marked as unread")
        self.assertEqual(screen.after("u", "all messages of this list")[2], "Subject: Key")
        screen.after("\x03", "q end")
        screen.after("\x1b[F", "q end")
        self.assertIn(row("NEWS", 1, 0), screen.after("c", "q end"))
        screen.press("q")
        self.assertEqual(screen.end(), 0)
        screen = self.open()
        self.assertIn(row("NEWS", 1, 0), screen.until("q end"))
        screen.after("\r", "q back")
        self.assertEqual(screen.after("m", "q back")[2:4], [line.replace("*", " ") for line in GENERAL[2:4]])
        screen.after("\x1b[D", "q end")
        screen.press("q")
        screen.end()

    def test_lines_for_programs_are_hidden(self) -> None:
        """Control lines, SEEN-BY, PATH and the tear are shown on demand."""
        screen = self.open()
        screen.until("q end")
        screen.after("\x1b[F", "q end")
        screen.after("\r", "q back")
        self.assertEqual(screen.after("\r", "q list")[5:-1], ["Text", " * Origin: Far (2:20/30)"])
        shown = ["?MSGID: 1:2/3 4", "Text", "--- X", " * Origin: Far (2:20/30)", "SEEN-BY: 20/30", "?PATH: 20/30"]
        self.assertEqual(screen.after("k", "SEEN-BY")[5:-1], shown)
        screen.after("\x03", "q end")
        screen.press("q")
        screen.end()

    def test_search(self) -> None:
        """Names, subjects and texts are searched, and Ctrl-C gives up."""
        screen = self.open()
        screen.until("q end")
        screen.after("/", "Search for:")
        self.assertEqual(screen.after("line 17\n", "q back")[0], "'line 17': 1 messages")
        screen.after("/", "Search for:")
        self.assertEqual(screen.after("weath\n", "'weath'")[2].split()[-2:], ["Weather", "6"])
        screen.after("/", "Search for:")
        screen.after("\x03", "'weath'")
        screen.after("q", "'line 17'")
        screen.after("q", "q end")
        screen.press("q")
        screen.end()

    def test_help_at_each_screen(self) -> None:
        """`h` says the keys of the screen."""
        screen = self.open(rows=24)
        screen.until("q end")
        self.assertIn("c      marks all messages of the area as read", screen.after("h", "any key"))
        screen.after(" ", "q end")
        screen.after("\r", "q back")
        self.assertIn("m      marks it as unread, or as read", screen.after("h", "any key"))
        screen.after(" ", "q back")
        screen.after("\r", "q list")
        self.assertIn("k      shows the lines for programs too, or hides them", screen.after("h", "any key"))
        screen.after(" ", "q list")
        screen.after("\x03", "q end")
        screen.after("t", "nothing was written")
        self.assertIn("b      takes an archive back, so that its answers can be changed", screen.after("h", "any key"))
        screen.after(" ", "nothing was written")
        screen.after("q", "q end")
        screen.press("q")
        screen.end()

    def test_an_area_is_said_to_be_of_net_mail(self) -> None:
        """`m` turns it round, and it stays so the next time."""
        screen = self.open()
        screen.until("q end")
        rows = [row("Letters to you", 1, 1), row("GENERAL (net mail)", 2, 2)]
        self.assertEqual(screen.after("m", "q end")[2:4], rows)
        screen.press("q")
        screen.end()
        screen = self.open()
        self.assertEqual(screen.until("q end")[3], row("GENERAL (net mail)", 2, 2))
        screen.press("q")
        screen.end()

    def test_a_narrow_terminal(self) -> None:
        """Lines wrap at words, and the list's columns fit."""
        screen = self.open(columns=40, rows=10)
        screen.until("here  unread")
        screen.after("\r", "Letters to you: 1")
        shown = screen.after("\r", "From:")
        self.assertEqual(shown[3:5], ["Date:    09-09-01 01:46    Area:", "GENERAL    Number: 1"])
        screen.after("q", "Letters to you: 1")
        self.assertTrue(all(len(line) < 40 for line in screen.lines()))
        screen.after("q", "here  unread")
        screen.press("q")
        screen.end()


if __name__ == "__main__":
    unittest.main()
