"""What once went wrong in a board's day, and what must come of it: each seen from outside, as cron sees it."""

from __future__ import annotations

import os
import subprocess
import tempfile
import time
import unittest
import zipfile

from tests.day_support import SCRIPT, board, letter, text_in
from tests.support import PROGRAM, needs_program

_NO_SYNC = "import errno, os\n\ndef fails(handle):\n    raise OSError(errno.EIO, 'the disk')\n\nos.fsync = fails\n"


@needs_program
class FailuresOfADay(unittest.TestCase):
    """A day that met a fault."""

    def test_a_sync_that_fails_hands_nothing_out_and_acknowledges_nothing(self) -> None:
        with board() as it, tempfile.TemporaryDirectory() as tools:
            self._let_syncs_fail(tools)
            ran = it.day(PYTHONPATH=tools, PATH=f"{tools}:{os.environ['PATH']}")
            self.assertEqual((70, []), (ran.returncode, it.names("ann/out")))
            it.day()
            it.fetch("ann")
            ran = it.day(PYTHONPATH=tools, PATH=f"{tools}:{os.environ['PATH']}")
            self.assertEqual((70, []), (ran.returncode, it.logged("ann", "ack")))

    def _let_syncs_fail(self, tools: str) -> None:
        with open(os.path.join(tools, "sitecustomize.py"), "w", encoding="ascii") as file:
            file.write(_NO_SYNC)
        path = os.path.join(tools, "sync")
        with open(path, "w", encoding="ascii") as file:
            file.write("#!/bin/sh\nexit 1\n")
        os.chmod(path, 0o755)

    def test_a_run_waits_for_a_command_whose_script_was_killed(self) -> None:
        with board() as it:
            hold, begun = it.write("hold", b""), os.path.join(it.shelf, "begun")
            waits = f': >"{begun}"\nwhile [ -e "{hold}" ]; do sleep 0.1; done\n'
            slow = it.write("slow", f'#!/bin/sh\n{waits}exec {PROGRAM} "$@"\n'.encode())
            os.chmod(slow, 0o700)
            run = subprocess.Popen([SCRIPT, it.data, it.shelf], env={**os.environ, "QWKDOOR": slow})
            while not os.path.exists(begun):
                time.sleep(0.05)
            run.kill()
            run.wait()
            self.assertEqual(75, it.day("-w", "0").returncode)
            os.remove(hold)
            self.assertEqual((0, ["TESTBBS.QWK"]), (it.day().returncode, it.names("ann/out")))

    def test_a_packet_that_a_power_cut_spoilt_is_made_anew(self) -> None:
        with board() as it:
            it.day()
            os.rename(os.path.join(it.mail, "ann/out/TESTBBS.QWK"), os.path.join(it.mail, "ann/work/packet"))
            it.write("mail/ann/work/packet", b"\0" * 500)
            it.day()
            it.fetch("ann")
            self.assertEqual(["Old 1", "Old 2", "Old 3"], it.has_received("ann"))
            it.write("mail/bob/work/number", b"")
            self.assertEqual(1, it.day().returncode)

    def test_one_caller_cannot_fill_a_conference(self) -> None:
        with board() as it:
            it.day()
            for turn in range(3):
                it.send_letters("bob", [letter("BOB RAY", "ALL", f"{turn} {at}") for at in range(4095)], f"{turn}.rep")
            self.assertEqual(1, it.day().returncode)
            it.send_letters("ann", [letter("ANN LEE", "ALL", "A letter")])
            it.day()
            self.assertIn("A letter", it.subjects())
            self.assertLess(len(it.subjects()), 300)

    def test_the_environment_spoils_no_letter_and_no_packet(self) -> None:
        with board() as it:
            it.day(ZIPOPT="-e", UNZIP="-x *")
            with zipfile.ZipFile(os.path.join(it.mail, "ann/out/TESTBBS.QWK")) as packet:
                self.assertIsNone(packet.testzip())
            it.send_letters("ann", [letter("ANN LEE", "ALL", "A letter")])
            it.day(ZIPOPT="-e", UNZIP="-x *")
            self.assertIn("A letter", it.subjects())

    def test_a_caller_whose_folder_is_a_file_keeps_nobody_from_mail(self) -> None:
        with board() as it:
            it.write("mail/ann/kept", b"")
            ran = it.day()
            self.assertEqual((1, ["TESTBBS.QWK"]), (ran.returncode, it.names("cy/out")))
            self.assertIn(os.path.join(it.mail, "ann/kept"), ran.stderr)

    def test_a_folder_that_leads_to_another_callers_is_named(self) -> None:
        with board() as it:
            it.day()
            os.rename(os.path.join(it.mail, "bob"), os.path.join(it.mail, "old"))
            os.symlink("ann", os.path.join(it.mail, "bob"))
            it.send_letters("ann", [letter("ANN LEE", "ALL", "A letter")])
            ran = it.day()
            self.assertEqual(1, ran.returncode)
            self.assertRegex(ran.stderr, "bob.* is one folder with .*ann")
            self.assertEqual(["0 posted 1 refused 0"], it.logged("ann", "upload"))

    def test_an_archive_without_a_name_is_taken(self) -> None:
        with board() as it:
            it.day()
            it.send_letters("bob", [letter("BOB RAY", "ALL", "A letter")], ".REP")
            it.day()
            self.assertEqual(([], ["0 posted 1 refused 0"]), (it.names("bob/in"), it.logged("bob", "upload")))

    def test_a_letter_that_is_refused_is_told_to_the_sysop_and_to_the_caller(self) -> None:
        with board() as it:
            it.day()
            it.fetch("ann")
            letters = [letter("ANN LEE", "ALL", "A letter"), letter("ANN LEE", "DEE", "Net", conference=1)]
            it.send_letters("ann", letters)
            ran = it.day()
            self.assertEqual(1, ran.returncode)
            self.assertEqual(1, len(ran.stderr.splitlines()))
            self.assertRegex(ran.stderr, "ann: 1 of 2 letters: kept/.*txt")
            self.assertTrue([line for line in it.log() if line.split(" ")[2] != "0" and "1 of 2 letters" in line])
            news = text_in(it.fetch("ann") or b"", "NEWS")
            self.assertIn("1 posted 0 4: letter 4 of GENERAL\r\n", news)
            self.assertIn("2 refused address: the first line of a net letter is NAME@ZONE:NET/NODE\r\n", news)

    def test_nothing_is_exported_where_nothing_is_new(self) -> None:
        with board() as it:
            it.day()
            it.fetch("ann")
            it.day()
            count = len(it.logged("ann", "export"))
            with open(os.path.join(it.data, "LEDGER.DAT"), "rb") as file:
                ledger = file.read()
            self.assertEqual(0, it.day().returncode)
            self.assertEqual(count, len(it.logged("ann", "export")))
            with open(os.path.join(it.data, "LEDGER.DAT"), "rb") as file:
                self.assertEqual(ledger, file.read())
            it.post(["New"])
            it.day()
            it.fetch("ann")
            self.assertEqual(["Old 1", "Old 2", "Old 3", "New"], it.has_received("ann"))


if __name__ == "__main__":
    unittest.main()
