"""What a caller lost, sent twice or showed to another by an earlier reader: each of these tests failed on it."""

from __future__ import annotations

import os
import pty
import select
import shutil
import sys
import time
import unittest

from tests.reader_support import READER, THREE, Caller, Letter, letters_of, write_packet
from tests.support import needs_program

_GREEDY = "The key lies under the stone"


@needs_program
class Findings(Caller):
    """Each finding, by its number."""

    def texts_in(self, folder: str) -> "list[bytes]":
        """Gives the last line of each letter in a folder's archives."""
        paths = sorted(os.path.join(folder, name) for name in os.listdir(folder))
        return [letter.text.split(b"\n")[-1] for path in paths for letter in letters_of(path)]

    def tools_without_pager(self) -> str:
        """Gives a folder with all tools but less, which would have hidden such bytes."""
        folder = os.path.join(self.home, "tools")
        os.mkdir(folder)
        os.symlink(sys.executable, os.path.join(folder, "python3"))
        for place in ("/usr/bin", "/bin"):
            for name in os.listdir(place):
                if name != "less" and not os.path.lexists(os.path.join(folder, name)):
                    os.symlink(os.path.join(place, name), os.path.join(folder, name))
        return folder

    def test_two_archives_are_moved_to_one_folder(self) -> None:
        """1. The second archive had the first one's name, and replaced it."""
        folder = os.path.join(self.home, "in")
        os.mkdir(folder)
        for text in ("first", "second"):
            self.read("r 1", "q", editor=self.editor(f'echo {text} >>"$1"'))
            for path in self.archives():
                os.replace(path, os.path.join(folder, os.path.basename(path)))
        self.assertEqual(self.texts_in(folder), [b"first", b"second"])

    def test_a_begun_text_goes_to_no_other_message(self) -> None:
        """2. The text of a killed answer to a private letter was posted to somebody else."""
        self.read("r 1", editor=self.editor('echo "Found it" >>"$1"; kill -KILL 0'), status=-9)
        said = self.read("r 3", "q", editor="true")
        self.assertEqual(self.lying(), [])
        self.assertIn("BOB RAY", said)
        self.assertEqual([_GREEDY in it and "Found it" in it for it in self.kept_texts()], [True])
        self.read("r 3", "q")
        self.assertEqual([(it.recipient, _GREEDY.encode() in it.text) for it in self.lying()], [("DEE FAR", False)])

    def test_a_copied_archive_has_answers_that_no_other_has(self) -> None:
        """3. The archive of the second evening had the first evening's letters in it too."""
        folder = os.path.join(self.home, "copies")
        os.mkdir(folder)
        seen = set()
        for text in ("first", "second"):
            self.read("r 1", "q", editor=self.editor(f'echo {text} >>"$1"'))
            for path in self.archives():
                with open(path, "rb") as file:
                    data = file.read()
                if data not in seen:
                    shutil.copyfile(path, os.path.join(folder, f"{len(seen)}.REP"))
                    seen.add(data)
        self.assertEqual(self.texts_in(folder), [b"first", b"second"])

    def test_an_editor_that_failed_leaves_no_answer(self) -> None:
        """4. What a crashed editor left half-written was posted."""
        self.read("r 2", "q", editor=self.editor('echo half >>"$1"; exit 1'))
        self.read("r 3", "q", editor=self.editor('echo half >>"$1"; kill -SEGV $$'))
        self.assertEqual(self.lying(), [])
        self.assertEqual(len(self.kept_texts()), 2)

    def test_an_emptied_text_is_no_answer(self) -> None:
        """4. An emptied file was posted as an answer without lines."""
        self.read("r 2", "q", editor=self.editor(': >"$1"'))
        self.assertEqual(self.lying(), [])

    def test_an_answer_is_taken_back(self) -> None:
        """4. Nothing could be taken back."""
        self.read("r 1", "r 2", "x 1", "q")
        self.assertEqual([it.recipient for it in self.lying()], ["CY DAY"])

    def test_a_text_whose_editor_was_hung_up_stays(self) -> None:
        """5. An editor that was hung up had not written its text, and it was taken away as not changed."""
        self.read("r 2", "q", editor=self.editor(': >"$(dirname "$1")/.$(basename "$1").swp"'))
        self.assertEqual(self.lying(), [])
        self.assertEqual(len(self.kept_texts()), 1)

    def test_ctrl_c_ends_no_session(self) -> None:
        """5. Ctrl-C while a message was shown ended the reader with 130."""
        child, terminal = pty.fork()
        if child == 0:
            os.execve(READER, [READER, self.packet], self.environment)
        _until_quiet(terminal)
        os.write(terminal, b"\x03")
        _until_quiet(terminal)
        os.write(terminal, b"q\n")
        _until_quiet(terminal)
        os.close(terminal)
        self.assertEqual(os.waitstatus_to_exitcode(os.waitpid(child, 0)[1]), 0)

    def test_net_mail_gets_its_address_line(self) -> None:
        """6. Every plain answer to net mail was refused by `address`."""
        far = Letter("DEE FAR", "ANN LEE", "Far", b"Greetings\n--- X\n * Origin: Far (2:20/30.4)", 1, "9", "+")
        self.read("r 1", "q", packet=write_packet(os.path.join(self.home, "net"), [far]))
        self.assertEqual([it.text.split(b"\n")[0] for it in self.lying()], [b"DEE FAR@2:20/30.4"])

    def test_the_news_tell_of_a_refused_letter(self) -> None:
        """6. A letter that the board refused was told to nobody."""
        news = {"NEWS": b"2 refused address: write NAME@ZONE:NET/NODE first\r\n"}
        said = self.read("q", packet=write_packet(os.path.join(self.home, "news"), THREE, more=news))
        self.assertIn("2 refused address: write NAME@ZONE:NET/NODE first\n", said)

    def test_no_byte_that_a_terminal_obeys_reaches_it(self) -> None:
        """7. Bytes 80h to 9Fh set a title and typed an answer into the session."""
        text = b"title \x9d0;gone\x9c answer \x9b5n"
        packet = write_packet(os.path.join(self.home, "odd"), [Letter(text=text)])
        self.environment["PATH"] = self.tools_without_pager()
        for language in ("C", "C.UTF-8", "en_US.ISO-8859-1"):
            self.environment["LC_ALL"] = language
            child, terminal = pty.fork()
            if child == 0:
                os.execve(READER, [READER, packet], self.environment)
            shown = _until_quiet(terminal)
            turns = 0
            while b"title " not in shown and turns < 5:
                os.write(terminal, b"\n")
                shown += _until_quiet(terminal)
                turns += 1
            os.close(terminal)
            os.waitpid(child, 0)
            self.assertIn(b"title ", shown)
            characters = shown.decode("utf-8") if "UTF" in language else shown.decode("latin-1")
            self.assertEqual([it for it in characters if "\x7f" <= it <= "\x9f"], [], language)

    def test_past_the_last_message_the_last_one_stays(self) -> None:
        """8. Past the last message the count went on, and an answer went to no message."""
        self.read("3", "", "", "r", "q")
        self.assertEqual([it.recipient for it in self.lying()], ["DEE FAR"])


def _until_quiet(terminal: int, seconds: float = 2.0) -> bytes:
    """Gives what comes until nothing came for some time."""
    found = b""
    end = time.monotonic() + 30
    while time.monotonic() < end and select.select([terminal], [], [], seconds if found else 10)[0]:
        try:
            part = os.read(terminal, 65536)
        except OSError:
            return found
        if not part:
            return found
        found += part
    return found


if __name__ == "__main__":
    unittest.main()
