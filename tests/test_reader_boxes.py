"""A board's folder: what an older reader left, odd ids, and packets that are none."""

from __future__ import annotations

import os
import random
import subprocess
import time
import unittest
import zipfile

from tests.reader_screen import Screen
from tests.reader_support import (
    READER, THREE, Caller, Letter, control, letters_of, message_bytes, messages, numbered, write_packet
)
from tests.support import needs_program


@needs_program
class Older(Caller):
    """What the first qwkdoor-read left in HOME/qwk/BBSID."""

    def old(self, name: str, data: bytes) -> None:
        """Writes a file of the old folder."""
        folder = os.path.join(self.home, "qwk", "TESTBBS")
        for part in ("packet", "sent"):
            os.makedirs(os.path.join(folder, part), exist_ok=True)
        with open(os.path.join(folder, name), "wb") as file:
            file.write(data)

    def test_answers_and_a_text_are_taken_over(self) -> None:
        rep = b"TESTBBS".ljust(128) + message_bytes(Letter("ANN LEE", "BOB RAY", "Key", b"Old answer"), 1)
        self.old("TESTBBS.MSG", rep)
        self.old("TESTBBS.REP", b"an archive of it")
        self.old("packed", b"")
        self.old("answer.txt", b"> begun\nhalf\n")
        self.assertIn("are in TESTBBS-0001.REP", self.read("r 3", "q", editor="true"))
        with zipfile.ZipFile(self.box("TESTBBS-0001.REP")) as archive:
            self.assertEqual(archive.read("TESTBBS.MSG"), rep)
        with open(self.box("drafts", "1", "text"), encoding="utf-8") as file:
            self.assertEqual(file.read(), "> begun\nhalf\n")
        self.assertEqual(os.listdir(os.path.join(self.home, "qwk")), ["TESTBBS.taken"])
        self.read("g 1", "k 1", "for 1 2", "k 1", "q")
        self.assertEqual([(it.recipient, it.text) for it in letters_of(self.box("TESTBBS-0002.REP"))],
                         [("CY DAY", b"> begun\nhalf")])

    def test_what_was_sent_stays_sent(self) -> None:
        self.old("TESTBBS.MSG", b"TESTBBS".ljust(128) + message_bytes(Letter(), 1))
        self.old("packed", b"")
        self.read("q")
        self.assertEqual(self.archives(), [])

    def test_an_answer_that_was_cut_is_left_out(self) -> None:
        one = b"TESTBBS".ljust(128) + message_bytes(Letter(text=b"whole"), 1)
        self.old("before", one)
        self.old("TESTBBS.MSG", one + message_bytes(Letter(text=b"cut"), 2)[:200])
        self.read("q")
        self.assertEqual([it.text for it in self.lying()], [b"whole"])

    def test_a_second_older_folder_is_taken_over_too(self) -> None:
        """The older reader was used once more, after a run was killed that had put its folder away."""
        self.environment["QWKDOOR_HOME"] = os.path.join(self.home, "qwk")
        for name, text in (("TESTBBS.old", b"first"), ("TESTBBS", b"second")):
            self.old("TESTBBS.MSG", b"TESTBBS".ljust(128) + message_bytes(Letter(text=text), 1))
            if name != "TESTBBS":
                os.replace(os.path.join(self.home, "qwk", "TESTBBS"), os.path.join(self.home, "qwk", name))
        self.read("q")
        self.assertEqual(sorted(it.text for it in self.lying()), [b"first", b"second"])

    def test_what_was_taken_over_is_not_said_again(self) -> None:
        """A run was killed behind the archive, and before the folder had its other name."""
        rep = b"TESTBBS".ljust(128) + message_bytes(Letter(text=b"old"), 1)
        for _ in range(2):
            self.old("TESTBBS.MSG", rep)
            said = self.read("q")
        self.assertNotIn("are in", said)
        self.assertEqual(len(self.lying()), 1)

    def test_a_named_folder_is_taken_over_in_place(self) -> None:
        self.old("TESTBBS.MSG", b"TESTBBS".ljust(128) + message_bytes(Letter(text=b"old"), 1))
        self.environment["QWKDOOR_HOME"] = os.path.join(self.home, "qwk")
        self.read("q")
        self.assertEqual([it.text for it in self.lying()], [b"old"])


@needs_program
class Packets(Caller):
    """A second packet is opened while texts and answers of the first one are there."""

    def test_texts_and_answers_go_to_the_packet_that_they_answer(self) -> None:
        dies = self.editor('if grep -q rains "$1"; then echo half >>"$1"; kill -KILL 0; fi; echo whole >>"$1"')
        self.read("r 1", "r 3", editor=dies, status=-9)
        others = [Letter("EVE", "ALL", "Other", b"Other text", number=str(place)) for place in (7, 8, 9)]
        second = write_packet(os.path.join(self.home, "second"), others)
        said = self.read("r 3", "g 2", "q", packet=second, editor=self.editor('echo more >>"$1"'))
        self.assertIn("text 2 to DEE FAR: Weather (answers, GENERAL) isn't an answer yet\n", said)
        wanted = [("BOB RAY", "1", b"whole"), ("DEE FAR", "3", b"more"), ("EVE", "9", b"more")]
        found = sorted((it.recipient, it.reference, it.text.split(b"\n")[-1]) for it in self.lying())
        self.assertEqual(found, wanted)
        os.unlink(self.archives()[0])
        self.read("q", packet=second)
        self.assertEqual(len(os.listdir(self.box("packets"))), 1)


@needs_program
class Odd(Caller):
    """Ids, packets and words that nobody would expect."""

    def test_every_odd_byte_of_an_id(self) -> None:
        odd = "".join(chr(it) for it in range(0x21, 0x7F) if not chr(it).isalnum())
        ids = [*(odd[at : at + 8] for at in range(0, len(odd), 8)), ".A", "-A", "~A", "/"]
        for board_id in ids:
            packet = write_packet(os.path.join(self.home, "odd"), THREE[:1], board_id)
            self.assertIn("to be sent: ", self.read("r 1", "q", packet=packet), board_id)
        top = os.path.join(self.home, ".local", "share", "qwkdoor")
        names = {name for name in os.listdir(top) if not name.startswith(".")}
        self.assertEqual(len(names), len(ids))
        self.assertEqual(len(self.archives()), len(ids))
        self.assertEqual(sorted(os.listdir(self.home))[:1], [".local"])

    def test_an_id_of_dots(self) -> None:
        self.read("r 1", "q", packet=write_packet(os.path.join(self.home, "dots"), THREE[:1], ".."))
        self.assertTrue(os.path.exists(os.path.join(self.home, ".local/share/qwkdoor/%2E%2E/%2E%2E-0001.REP")))

    def test_no_id_leads_out_of_the_folder(self) -> None:
        """HOME has a folder `packet`, as an older reader's folder had, and the id is HOME's name below HOME/qwk."""
        for name in ("packet", "qwk"):
            os.mkdir(os.path.join(self.home, name))
        before = os.listdir(self.home)
        self.read("q", packet=write_packet(os.path.join(self.home, "dots"), THREE[:1], ".."))
        self.assertEqual(sorted(os.listdir(self.home)), sorted([*before, "dots", ".local"]))

    def test_what_is_no_packet_is_one_line(self) -> None:
        def write(name: str, data: bytes) -> str:
            path = os.path.join(self.home, name)
            with open(path, "wb") as file:
                file.write(data)
            return path

        with open(self.packet, "rb") as file:
            whole = file.read()
        os.mkdir(os.path.join(self.home, "folder"))
        zipped = os.path.join(self.home, "zipped")
        with zipfile.ZipFile(zipped, "w") as archive:
            archive.writestr("MESSAGES.DAT", b"")
        bomb = os.path.join(self.home, "bomb")
        with zipfile.ZipFile(bomb, "w", zipfile.ZIP_DEFLATED) as archive:
            archive.writestr("CONTROL.DAT", b"\0" * 4194304)
        # Behind the names in the local header of the first file, so that its bytes don't have their sum.
        damaged = bytearray(whole)
        damaged[60] ^= 0xFF
        paths = [
            write("none", b""), write("text", b"no archive"), write("cut", whole[:-30]), write("bad", bytes(damaged)),
            zipped, bomb, os.path.join(self.home, "folder"), os.path.join(self.home, "missing"),
        ]
        for path in paths:
            said = self.read("q", packet=path, status=70)
            self.assertTrue(said.startswith("qwkdoor-read: ") and said.count("\n") == 1 and path in said, said)

    def test_a_number_of_many_digits_is_refused_by_the_program(self) -> None:
        packet = os.path.join(self.home, "digits")
        lines = control().split(b"\r\n")
        lines[10] = b"9" * 5000
        with zipfile.ZipFile(packet, "w") as archive:
            archive.writestr("CONTROL.DAT", b"\r\n".join(lines))
            archive.writestr("MESSAGES.DAT", messages(THREE))
        self.assertEqual(self.read("q", packet=packet, status=1), "refused control number 11\n")

    def test_a_packet_that_the_program_refuses(self) -> None:
        packet = os.path.join(self.home, "short")
        with zipfile.ZipFile(packet, "w") as archive:
            archive.writestr("CONTROL.DAT", control())
            archive.writestr("MESSAGES.DAT", b"short")
        self.assertEqual(self.read("q", packet=packet, status=1), "refused broken truncated 0\n")

    def test_wrong_words(self) -> None:
        many = ([], ["a", "b"], [""], ["--board", "A", "a"])
        options = (["--send"], ["--what", "a"], ["--plain=a", "a"], ["--one-name=no", "a"])
        for words in (*many, *options):
            running = subprocess.run([READER, *words], env=self.environment, capture_output=True)
            self.assertEqual((running.returncode, running.stderr.count(b"\n")), (2, 1), words)

    @unittest.skipUnless(os.environ.get("BIG"), "BIG isn't set: a program that isn't built for speed takes minutes")
    def test_a_packet_of_40_megabytes(self) -> None:
        """The longest packet of 2,000 messages is opened, and its last message shown."""
        every = bytes(it for it in range(256) if it not in (0xE3, 0x0A)) * 80
        letters = numbered([Letter(subject=f"S{place}", text=every) for place in range(2000)])
        said = self.read("2000", "q", packet=write_packet(os.path.join(self.home, "big"), letters))
        self.assertIn("2000 messages\nTESTBBS> From: BOB RAY\nTo: ALL\nSubject: S1999\n", said)
        self.assertIn("\u2592\u2593\u2502\u2524", said)

    def test_two_runs_at_once(self) -> None:
        first = self.start(self.packet, editor=self.editor("sleep 30"))
        assert first.stdin is not None
        first.stdin.write(b"r 1\n")
        first.stdin.flush()
        while not os.path.exists(self.box("drafts", "1")):
            time.sleep(0.02)
        self.assertIn("another run was at work in", self.read("q", status=75))
        os.killpg(first.pid, 9)
        first.communicate()

    def test_many_messages_with_every_byte(self) -> None:
        """2,000 messages of every byte are listed, searched by name, and shown, at both ends."""
        draw = random.Random(80)
        every = bytes(it for it in range(256) if it not in (0xE3, 0x0A))
        odd = [Letter("".join(chr(draw.randrange(256)) for _ in range(20)).replace("\xe3", "x").rstrip(" \0") + "x",
                      "ANN LEE", f"S{place}", every) for place in range(1998)]
        packet = os.path.join(self.home, "many")
        with zipfile.ZipFile(packet, "w", zipfile.ZIP_DEFLATED) as archive:
            archive.writestr("CONTROL.DAT", control(count=2000))
            archive.writestr("MESSAGES.DAT", messages(numbered([THREE[0], *odd, THREE[1]])))
        screen = Screen(self.environment, packet, columns=79, rows=24)
        self.assertIn("Letters to you", screen.until("q end")[2])
        self.assertEqual(screen.after("\r", "q back")[0], "Letters to you: 1999 messages")
        screen.after("\x1b[F", "S1997")
        shown = screen.after("\r", "From:")
        self.assertTrue(any("\u2593" in line for line in shown), shown)
        screen.after("\x03", "q end")
        self.assertEqual(len([it for it in screen.shown if it < 0x20 and it not in b"\x1b\r\n"]), 0)
        screen.press("q")
        self.assertEqual(screen.end(), 0)
