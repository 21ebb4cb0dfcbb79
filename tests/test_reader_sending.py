"""Archives that are sent: to a folder, by a command, under one name, and what a run that was killed had sent."""

from __future__ import annotations

import os
import shutil
import stat
import subprocess
import unittest

from tests.reader_support import READER, THREE, Caller, letters_of, write_packet
from tests.support import needs_program
from qwkdoor_scripts.locks import Lock


@needs_program
class Sending(Caller):
    """--send, and archives of one name."""

    def send(self, *words: str) -> "subprocess.CompletedProcess[bytes]":
        """Sends without a packet."""
        return subprocess.run([READER, "--send", *words], env=self.environment, capture_output=True)

    def test_an_archive_is_sent_and_replaces_nothing(self) -> None:
        folder = os.path.join(self.home, "in")
        os.mkdir(folder)
        said = self.read("r 1", "q", words=["--send", folder])
        self.assertIn(f"sent TESTBBS-0001.REP to {folder}\n", said)
        self.assertEqual(os.listdir(folder), ["TESTBBS-0001.REP"])
        self.assertEqual([it.recipient for it in letters_of(os.path.join(folder, "TESTBBS-0001.REP"))], ["BOB RAY"])
        with open(os.path.join(folder, "TESTBBS-0002.REP"), "wb") as file:
            file.write(b"another's")
        said = self.read("r 2", "q", words=["--send", folder], status=70)
        self.assertIn(f"{folder}/TESTBBS-0002.REP is another file, and wasn't replaced: nothing was sent\n", said)
        self.assertEqual([os.path.basename(it) for it in self.archives()], ["TESTBBS-0002.REP"])

    def test_what_lies_there_is_sent_without_a_packet(self) -> None:
        folder = os.path.join(self.home, "in")
        os.mkdir(folder)
        self.read("r 1", "q")
        running = self.send(folder, "--board", "testbbs")
        self.assertEqual((running.returncode, running.stdout.decode()), (0, f"sent TESTBBS-0001.REP to {folder}\n"))
        self.assertEqual(self.send(folder, "--board", "other").returncode, 70)

    def test_a_command_sends(self) -> None:
        os.makedirs(os.path.join(self.home, ".config", "qwkdoor"))
        with open(os.path.join(self.home, ".config", "qwkdoor", "read.conf"), "w", encoding="utf-8") as file:
            file.write(f'[TESTBBS]\nsend-command = cp "$1" {self.home}/copy.REP\n')
        self.read("r 1", "q")
        self.assertEqual(len(letters_of(os.path.join(self.home, "copy.REP"))), 1)
        self.assertEqual(self.archives(), [])

    def test_one_name_waits(self) -> None:
        self.read("r 1", "q", words=["--one-name"])
        said = self.read("r 2", "q", words=["--one-name"])
        self.assertEqual([os.path.basename(it) for it in self.archives()], ["TESTBBS.REP"])
        self.assertEqual([it.recipient for it in self.lying()], ["BOB RAY"])
        self.assertNotIn("TESTBBS-0002", said)
        os.unlink(self.archives()[0])
        self.assertIn("TESTBBS.REP was taken away, so it counts as sent\n", self.read("q", words=["--one-name"]))
        self.assertEqual([it.recipient for it in self.lying()], ["CY DAY"])

    def test_what_a_killed_run_sent_is_not_sent_again(self) -> None:
        """It lies in the folder with the same bytes, and a copy that was half-made goes."""
        folder = os.path.join(self.home, "in")
        os.mkdir(folder)
        self.read("r 1", "q")
        self.go_half(folder)
        said = self.read("q", words=["--send", folder])
        self.assertIn(f"sent TESTBBS-0001.REP to {folder}\n", said)
        self.assertEqual((os.listdir(folder), self.archives()), (["TESTBBS-0001.REP"], []))

    def go_half(self, folder: str) -> None:
        """Leaves all as a run does that is killed when the first archive lies there, and isn't said to be sent."""
        os.replace(self.box("archives", "0001.ready"), self.box("archives", "0001.going"))
        for name in ("TESTBBS-0001.REP", ".TESTBBS-0001.REP.part"):
            shutil.copyfile(self.archives()[0], os.path.join(folder, name))

    def test_what_may_be_sent_is_not_taken_back(self) -> None:
        """Its answers would come twice. Without a terminal it stays."""
        folder = os.path.join(self.home, "in")
        os.mkdir(folder)
        self.read("r 1", "q")
        self.go_half(folder)
        said = self.read("back 1", "q")
        self.assertIn("TESTBBS-0001.REP may have been sent", said)
        self.assertEqual([os.path.basename(it) for it in self.archives()], ["TESTBBS-0001.REP"])

    def test_a_command_that_failed_may_have_sent(self) -> None:
        os.makedirs(os.path.join(self.home, ".config", "qwkdoor"))
        with open(os.path.join(self.home, ".config", "qwkdoor", "read.conf"), "w", encoding="utf-8") as file:
            file.write("[TESTBBS]\nsend-command = exit 9\n")
        self.assertIn("the command to send ended with status 9", self.read("r 1", "q", status=70))
        self.assertTrue(os.path.exists(self.box("archives", "0001.going")))

    def test_what_was_not_sent_is_taken_back(self) -> None:
        """Where the folder isn't there, nothing was sent."""
        words = ["--send", os.path.join(self.home, "none")]
        self.assertIn("is no folder", self.read("r 1", "q", words=words, status=70))
        self.assertIn("was taken back", self.read("back 1", "x 1", "q"))
        self.assertEqual(self.archives(), [])

    def test_a_folder_that_gives_its_group_lets_it_read(self) -> None:
        for mode, wanted in ((0o2770, 0o640), (0o700, 0o600)):
            folder = os.path.join(self.home, f"in{mode:o}")
            os.mkdir(folder)
            os.chmod(folder, mode)
            self.read("r 1", "q", words=["--send", folder])
            path = os.path.join(folder, os.listdir(folder)[0])
            self.assertEqual(stat.S_IMODE(os.stat(path).st_mode), wanted)

    def test_a_board_that_is_busy_keeps_no_other(self) -> None:
        folder = os.path.join(self.home, "in")
        os.mkdir(folder)
        self.read("r 1", "q")
        self.read("r 1", "q", packet=write_packet(os.path.join(self.home, "other"), THREE, "AOTHER"))
        with Lock(os.path.join(os.path.dirname(self.box()), "AOTHER", "lock")):
            running = self.send(folder)
        self.assertEqual((running.returncode, os.listdir(folder)), (75, ["TESTBBS-0001.REP"]))


if __name__ == "__main__":
    unittest.main()
