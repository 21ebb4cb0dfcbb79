"""Texts on their way to a terminal and into a letter: columns, hidden lines, quotes, addresses, characters."""

from __future__ import annotations

import os
import tempfile
import unittest
from unittest import mock

from tests.reader_support import control
from qwkdoor_scripts.reader_columns import broken, cut, is_picture, padded, width, wrapped
from qwkdoor_scripts.reader_control import Control, read_control
from qwkdoor_scripts.reader_letters import names_of, typed_lines, unwritable_in
from qwkdoor_scripts.reader_listing import list_line, read_listing
from qwkdoor_scripts.reader_marks import Marks
from qwkdoor_scripts.reader_message import Message, text_lines, view
from qwkdoor_scripts.reader_packet import Packet
from qwkdoor_scripts.reader_quoting import address_line, initials, quoted
from qwkdoor_scripts.reader_session import Session
from qwkdoor_scripts.reader_settings import Settings, config_path, data_path, read_settings
from qwkdoor_scripts.reader_state import Box, board_id_of, folder_name
from qwkdoor_scripts.reader_terminal import encoding_of, obeyed_by_none
from qwkdoor_scripts.failure import Failure


def message(text: str, sender: str = "BOB RAY") -> Message:
    """Gives a message of some lines."""
    return Message({"From": sender}, text.split("\n"))


class Columns(unittest.TestCase):
    """Widths and wraps."""

    def test_wraps_at_words(self) -> None:
        self.assertEqual(wrapped("The key lies under the stone", 10), ["The key", "lies under", "the stone"])
        self.assertEqual(wrapped("a" * 12 + " b", 5), ["aaaaa", "aaaaa", "aa b"])
        self.assertEqual(wrapped("", 10), [""])
        self.assertEqual(wrapped(" BR> one two three", 12), [" BR> one two", " BR> three"])
        self.assertEqual(wrapped(" " * 30, 10)[-1].strip(), "")

    def test_wide_characters_take_two_columns(self) -> None:
        self.assertEqual(width("日本e\u0301"), 5)
        self.assertEqual(cut("日本", 3), "日")
        self.assertEqual(padded("日本", 3), "日 ")
        self.assertEqual(broken("日本語", 4), ["日本", "語"])

    def test_pictures_keep_their_lines(self) -> None:
        for line in ("┌────┐", "a      b      c", "  /\\__/\\  ", "--===--==-->"):
            self.assertTrue(is_picture(line), line)
        for line in ("The key lies under the stone.", "", "Why? Because!"):
            self.assertFalse(is_picture(line), line)
        table = "name      number      place"
        self.assertEqual(view([table], 20, False), ["name      number    ", "  place"])
        self.assertEqual(view([table], 20, True), ["name      number", "place"])

    def test_colours_of_pictures_are_left_out(self) -> None:
        self.assertEqual(view(["?[1;31mred?[0m and ?[x"], 40, False), ["red and ?[x"])
        self.assertEqual(quoted(message("?[1;31mred?[0m and ?[x")), " BR> red and ?[x\n")


class Hidden(unittest.TestCase):
    """Lines that are for programs."""

    def test_what_is_hidden(self) -> None:
        lines = [
            "?MSGID: 1:2/3 4", "Text", "?[31mred", "--- a rule", "More", "--- Tosser 1", " * Origin: Far (2:20/30)",
            "SEEN-BY: 20/30 40", "?PATH: 20/30", "",
        ]
        self.assertEqual(text_lines(lines), ["Text", "?[31mred", "--- a rule", "More", " * Origin: Far (2:20/30)"])
        said = ["?what is this", "--- said Bob", "and more"]
        self.assertEqual(text_lines(said), said)


class Quotes(unittest.TestCase):
    """How an answer begins."""

    def test_initials(self) -> None:
        names = {"BOB RAY": "BR", "cy": "C", "Jan van der Berg": "JVD", "": "", "\"X\" Y": "Y", "日 本": "日本"}
        self.assertEqual({name: initials(name) for name in names}, names)

    def test_quotes(self) -> None:
        text = "Hello\n\n CD> old\n> older\n" + "word " * 20 + "\n--- X\n * Origin: Far (2:20/30)\nSEEN-BY: 1/2"
        long = quoted(message(" CD> " + "word " * 17)).split("\n")
        self.assertEqual(long[:2], [" CD>> " + "word " * 13 + "word", " CD>> " + "word " * 3])
        wanted = [" BR> Hello", " BR>", " CD>> old", ">> older", " BR> " + "word " * 13 + "word", " BR> " + "word " * 6]
        found = [it.rstrip() for it in quoted(message(text)).split("\n")]
        self.assertEqual(found, [it.rstrip() for it in [*wanted, ""]])

    def test_addresses(self) -> None:
        cases = {
            ("DEE FAR", "Hi\n * Origin: Far (2:20/30.4)"): "DEE FAR@2:20/30.4",
            ("DEE FAR", " * Origin: (1:1/1) Far (2:20/30@fidonet)"): "DEE FAR@2:20/30",
            ("DEE FAR", "?MSGID: 2:20/30@fidonet.org abcd1234\nHi"): "DEE FAR@2:20/30",
            ("Dee Far@2:20/30", "Hi"): "Dee Far@2:20/30",
            ("Dee Far (2:20/30)", " * Origin: Near (1:1/1)"): "Dee Far@2:20/30",
            ("DEE FAR", "It is 2:20/30 now"): "",
            ("DEE FAR", ""): "",
        }
        for (sender, text), wanted in cases.items():
            self.assertEqual(address_line(message(text, sender)), wanted, text)


class Characters(unittest.TestCase):
    """What is typed, and what a terminal gets."""

    def test_what_a_packet_lacks_is_named(self) -> None:
        found = unwritable_in(["abc\u00fc", "\u20ac \u03c0", "\x1b \u20ac"], "cp437")
        self.assertEqual(names_of(found), "'\u20ac' in line 2, '\u03c0' in line 2, the character 1Bh in line 3")
        self.assertEqual(list(unwritable_in(["\u3042"], "utf-8")), ["\u3042"])
        odd = unwritable_in(typed_lines(b"\xff", "utf-8"), "cp437")
        self.assertEqual(names_of(odd), "bytes that are no characters in line 1")

    def test_typed_lines(self) -> None:
        self.assertEqual(typed_lines(b"\xef\xbb\xbfone\r\n\ttwo \rthree\n\n", "utf-8"), ["one", "        two", "three"])

    def test_no_terminal_gets_what_it_obeys(self) -> None:
        every = "".join(map(chr, range(0x250))) + "\u2028\u202e\u200b\ufffe\U000e0001"
        text = obeyed_by_none(every, "utf-8").decode()
        self.assertEqual([it for it in text if it < " " or "\x7f" <= it <= "\x9f"], [])
        for encoding in ("ascii", "iso8859-1", "cp437", "cp866", "koi8-r", "cp1252", "shift_jis", "gb18030"):
            data = obeyed_by_none(every, encoding)
            self.assertEqual([it for it in data if it < 0x20 or 0x7F <= it <= 0x9F], [], encoding)
        self.assertEqual(obeyed_by_none("caf\u00e9 \u2500", "iso8859-1"), b"caf\xe9 ?")

    def test_the_terminals_characters(self) -> None:
        cases = [
            ({"LC_ALL": "C"}, "ascii"), ({}, "ascii"), ({"LANG": "de_DE.UTF-8"}, "utf-8"),
            ({"LC_ALL": "C", "LANG": "de_DE.UTF-8"}, "ascii"), ({"LC_CTYPE": "de_DE.ISO-8859-15@euro"}, "iso8859-15"),
            ({"LANG": "xx.NOTHING"}, "ascii"), ({"LC_ALL": "xx_YY"}, "ascii"), ({"LC_ALL": "xx.idna"}, "ascii"),
        ]
        for environment, wanted in cases:
            self.assertEqual(encoding_of(environment, ""), wanted, environment)
        self.assertEqual(encoding_of({"LANG": "C"}, "UTF8"), "utf-8")


class Listings(unittest.TestCase):
    """The listing, CONTROL.DAT, and the marks."""

    def test_a_listing(self) -> None:
        said = [b"board Test: Board", b"user ANN LEE", b"1 0/- private B > C > ANN LEE: a: b [12]",
                b"2 7/9999999 killed \x81 > ann lee:  [0]", b"2 messages"]
        listing = read_listing(said, "cp437")
        self.assertEqual((listing.board, listing.user), ("Test: Board", "ANN LEE"))
        first, second = listing.entries
        self.assertEqual((first.number, first.kind, first.sender), (None, "private", "B"))
        self.assertEqual((first.subject, first.lines), ("a: b", 12))
        self.assertEqual((second.number, second.sender), (9999999, "\u00fc"))
        self.assertEqual((second.recipient, second.subject), ("ann lee", ""))
        self.assertEqual(listing.personal(), [second])
        for columns in (20, 40, 79, 200):
            self.assertLessEqual(len(list_line(first, False, columns)), max(columns, 36))

    def test_control(self) -> None:
        found = read_control(control("A,B/C"))
        self.assertEqual((found.board_id, found.news), ("A,B/C", b"NEWS"))
        self.assertEqual(found.areas, {0: b"GENERAL", 1: b"NETMAIL", 7: b"NEWS"})
        self.assertEqual(read_control(b"").areas, {})

    def test_areas_of_one_name_go_by_their_numbers(self) -> None:
        areas = {0: b"GENERAL", 1: b"General", 2: b"NEWS", 9: b"2", 12: b""}
        with tempfile.TemporaryDirectory() as base:
            said = [b"board B", b"user U", b"0 messages"]
            packet = Packet(Box(base, "X"), "P", Control("X", b"", areas, b""), said, None)
            session = Session(packet, mock.Mock(), Settings(), "utf-8")
            found = {words: session.area_of(words) for words in ("general", "1", "news", "2", "9", "12", "3", "", "X")}
        wanted = {"general": None, "1": 1, "news": 2, "2": 2, "9": 9, "12": 12, "3": None, "": None, "X": None}
        self.assertEqual(found, wanted)

    def test_marks(self) -> None:
        with tempfile.TemporaryDirectory() as folder:
            path = os.path.join(folder, "read")
            marks = Marks(path)
            for number in (5, 3, 4, 9, 7, 5):
                marks.mark(0, number)
            marks.mark(7, 1)
            marks.mark(7, None)
            with open(path, encoding="ascii") as file:
                self.assertEqual(file.read(), "0 3-5,7,9\n7 1\n")
            again = Marks(path)
            again.unmark(0, 4)
            again.mark_all([(0, 8), (2, 1), (2, None)])
            with open(path, encoding="ascii") as file:
                self.assertEqual(file.read(), "0 3,5,7-9\n2 1\n7 1\n")
            read = [number for number in range(12) if again.is_read(0, number)]
            self.assertEqual((read, again.is_read(0, None)), ([3, 5, 7, 8, 9], False))

    def test_marks_of_many_messages_take_no_longer_than_they_are(self) -> None:
        with tempfile.TemporaryDirectory() as folder:
            marks = Marks(os.path.join(folder, "read"))
            marks.mark_all([(0, number) for number in range(1, 200001)])
            self.assertEqual(marks.ranges, {0: [(1, 200000)]})

    def test_folder_names(self) -> None:
        names = {
            "TESTBBS": "TESTBBS", "a.b": "a%2Eb", "..": "%2E%2E", "A/B": "A%2FB", "%2F": "%252F", "~": "%7E", "-x": "-x"
        }
        self.assertEqual({it: folder_name(it) for it in names}, names)
        self.assertEqual([board_id_of(it) for it in names.values()], list(names))
        every = [folder_name(chr(it)) for it in range(0x21, 0x7F)]
        self.assertEqual(len(set(every)), len(every))


class SettingsFile(unittest.TestCase):
    """The file of settings."""

    def test_sections(self) -> None:
        with tempfile.TemporaryDirectory() as folder:
            path = os.path.join(folder, "read.conf")
            with open(path, "w", encoding="utf-8") as file:
                file.write("[DEFAULT]\ncharacters = cp850\n")
                file.write("[TESTBBS]\nsend-command = scp \"$1\" host:%s\none-name = yes\n")
            board = read_settings(path, "testbbs", {})
            self.assertEqual((board.characters, board.one_name), ("cp850", True))
            self.assertEqual(board.send_command, 'scp "$1" host:%s')
            other = read_settings(path, "OTHER", {"characters": "latin-1"})
            self.assertEqual((other.characters, other.one_name, other.sends), ("latin-1", False, False))

    def test_what_is_wrong_is_said(self) -> None:
        wrong = {"x = 1": "an unknown setting: x", "one-name = maybe": "one-name = maybe",
                 "characters = ebcdic": "ebcdic", "terminal = hex": "hex", "terminal = utf-16": "utf-16",
                 "terminal = undefined": "undefined", "terminal = idna": "idna", "[": "can't be read"}
        for line, word in wrong.items():
            with tempfile.TemporaryDirectory() as folder:
                path = os.path.join(folder, "read.conf")
                with open(path, "w", encoding="utf-8") as file:
                    file.write(f"[DEFAULT]\n{line}\n")
                with self.assertRaisesRegex(Failure, word):
                    read_settings(path, "TESTBBS", {})

    def test_folders(self) -> None:
        self.assertEqual(data_path({"HOME": "/h"}), "/h/.local/share/qwkdoor")
        self.assertEqual(data_path({"HOME": "/h", "XDG_DATA_HOME": "/d"}), "/d/qwkdoor")
        self.assertEqual(data_path({"QWKDOOR_HOME": "/q", "XDG_DATA_HOME": "/d"}), "/q")
        self.assertEqual(config_path({"HOME": "/h", "XDG_CONFIG_HOME": "/c"}), "/c/qwkdoor/read.conf")
        # A path that isn't whole is none by the rules of XDG: what lies where the caller stands is no setting of his.
        self.assertEqual(config_path({"XDG_CONFIG_HOME": "c"}), "")
        self.assertEqual(data_path({"HOME": "/h", "XDG_DATA_HOME": "d"}), "/h/.local/share/qwkdoor")
        with self.assertRaisesRegex(Failure, "nor HOME says where"):
            data_path({})


if __name__ == "__main__":
    unittest.main()
