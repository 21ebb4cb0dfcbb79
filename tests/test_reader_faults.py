"""What fails around the reader: outputs, disks, a program that outlives it, and texts that were dropped."""

from __future__ import annotations

import os
import subprocess
import time
import unittest

from tests.reader_support import READER, THREE, Caller, write_packet
from tests.support import PROGRAM, TOP, needs_program
from qwkdoor_scripts import durable, reader_texts
from qwkdoor_scripts.reader_state import Box
from qwkdoor_scripts.reader_texts import About


@needs_program
class Faults(Caller):
    """Each of them ends in a line of the reader's own, and loses nothing."""

    @unittest.skipUnless(os.path.exists("/dev/full"), "there is no /dev/full")
    def test_an_output_that_is_full(self) -> None:
        with open("/dev/full", "wb") as full:
            running = subprocess.run(
                [READER, self.packet], env=self.environment, stdin=subprocess.DEVNULL, stdout=full,
                stderr=subprocess.PIPE,
            )
        wanted = b"qwkdoor-read: can't write to standard output: No space left on device\n"
        self.assertEqual((running.returncode, running.stderr), (70, wanted))

    def test_a_file_that_cannot_be_written_ends_no_session(self) -> None:
        """The mark of a message can't be kept. The message is shown, and the next command is carried out."""
        blocks = self.editor(f'mkdir "{self.box("read.new")}"; echo text >>"$1"')
        said = self.read("r 1", "2", "3", "q", editor=blocks)
        self.assertIn("Is the boat for sale?", said)
        self.assertIn(f"{self.box('read.new')}: ", said)
        self.assertIn("It rains", said)
        self.assertEqual([it.recipient for it in self.lying()], ["BOB RAY"])

    def test_a_number_is_no_other_texts(self) -> None:
        """An editor that outlives its run writes to the path of its own text, where no other text is ever."""
        late = self.editor('echo text >>"$1"; echo "$1" >>"$HOME/paths"')
        self.read("r 1", "x 1", "r 3", "x 2", "q", editor=late)
        self.read("r 2", "q", editor=late)
        with open(os.path.join(self.home, "paths"), encoding="utf-8") as file:
            paths = file.read().split()
        self.assertEqual(len(set(paths)), 3)

    def test_a_program_that_outlives_the_reader_keeps_the_next_one_out(self) -> None:
        """It may write the reply packet still, from which the next one would make an archive."""
        slow = self.editor(f'[ "$3" != reply ] || sleep 30; exec {PROGRAM} "$@"')
        self.environment["QWKDOOR"] = slow
        first = self.start(self.packet)
        assert first.stdin is not None
        first.stdin.write(b"r 1\n")
        first.stdin.flush()
        while not os.path.exists(self.box("drafts", "1", "letter")):
            time.sleep(0.02)
        time.sleep(0.5)
        first.kill()
        first.wait()
        self.assertIn("another run was at work in", self.read("q", status=75))
        os.killpg(first.pid, 9)
        first.communicate()
        self.read("q")

    def test_news_of_any_bytes(self) -> None:
        """A terminal obeys none of them."""
        every = bytes(it for it in range(256) if it not in (10, 13))
        said = self.read("news", "q", packet=write_packet(os.path.join(self.home, "news"), THREE, more={"NEWS": every}))
        self.assertEqual([it for it in said if it < " " and it != "\n" or "\x7f" <= it <= "\x9f"], [])
        self.assertIn("!\"#$%&", said)

    def test_settings_that_cannot_be_read_are_said(self) -> None:
        os.makedirs(os.path.join(self.home, ".config", "qwkdoor", "read.conf"))
        self.assertIn("read.conf: Is a directory", self.read("q", status=70))


class Restored(Caller):
    """An answer whose change is given up."""

    def test_text_and_letter_are_those_of_before(self) -> None:
        box = Box(self.home, "TESTBBS")
        box.make()
        about = About(reader_texts.REPLY, "P", 1, 0, "BOB RAY", "Note", False, "", "")
        draft = reader_texts.begin(box, about, b"begun")
        durable.write_whole(draft.at("letter"), b"letter")
        changed = reader_texts.to_draft(reader_texts.keep(draft, b"text"))
        for name in ("text", "letter"):
            durable.write_whole(changed.at(name), b"changed")
        self.assertFalse(changed.is_as_it_was())
        answer = reader_texts.restore(changed)
        found = (answer.folder, answer.bytes_of("text"), answer.bytes_of("letter"))
        self.assertEqual(found, ("answers", b"text", b"letter"))


class Versions(unittest.TestCase):
    """The reader and the program say one version."""

    def test_one_version(self) -> None:
        paths = [os.path.join(TOP, "bin", it) for it in ("qwkdoor", "qwkdoor-read")]
        said = [subprocess.run([it, "--version"], capture_output=True, check=True).stdout.split() for it in paths]
        self.assertEqual(said[0][1], said[1][1])


if __name__ == "__main__":
    unittest.main()
