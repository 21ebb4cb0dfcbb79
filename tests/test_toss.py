"""qwkdoor-toss over a board: what it tosses, keeps and sets aside."""

from __future__ import annotations

import fcntl
import io
import os
import subprocess
import time
import unittest
import zipfile
from unittest import mock

from tests.board_support import BIN, BoardCase, lines_of, message, packet, without_moment
from tests.support import PROGRAM

from qwkdoor_scripts import toss

LONG_TAG = b"R50.SYSOP.HELP.AND.OTHER.THINGS"
BOARD = ("0 local - GENERAL", "1 net - NETMAIL", "5 echo - FIDO", "6 echo - R50 SYSOP")


def area(tag: bytes, text: bytes, msgid: bytes = b"") -> bytes:
    """Gives a packed message of an area, with a msgid or without."""
    kludge = b"\x01MSGID: " + msgid + b"\r" if msgid else b""
    return message(b"AREA:" + tag + b"\r" + kludge + text + b"\r")


def archive(*files: "tuple[str, bytes]") -> bytes:
    """Gives a zip archive."""
    data = io.BytesIO()
    with zipfile.ZipFile(data, "w", zipfile.ZIP_DEFLATED) as written:
        for name, member in files:
            written.writestr(name, member)
    return data.getvalue()


class TossTest(BoardCase):
    """Packets that came in, and what becomes of each."""

    def setUp(self) -> None:
        super().setUp()
        self.make_board(*BOARD)
        self.came = 0

    def comes(self, name: str, data: bytes) -> None:
        """Puts a file into the folder of what came in, behind those before it."""
        self.came += 1
        os.utime(self.write("ftn/in/" + name, data), (self.came, self.came))

    def slots(self) -> "dict[str, int]":
        """Gives how many slots each conference has that has any."""
        found = (line.rsplit(":", 1) for line in self.door("check")[1:-1])
        counts = {name.split(" ", 1)[1]: int(words.split()[0]) for name, words in found}
        return {name: count for name, count in counts.items() if count}

    def names(self, folder: str) -> "list[str]":
        """Gives the endings of the names in a folder of ftn behind the moment and the number of each."""
        return sorted(name.split("-", 1)[1][6:] for name in os.listdir(self.path("ftn/" + folder)))

    def only(self, folder: str, ending: str) -> bytes:
        """Gives the bytes of the one file of a folder of ftn whose name has this ending."""
        (name,) = [it for it in os.listdir(self.path("ftn/" + folder)) if it.split("-", 1)[1][6:] == ending]
        return self.read(f"ftn/{folder}/{name}")

    def toss(self, status: int, *options: str) -> str:
        """Runs the script, which is to end with this status and say nothing to its output. Gives what it complains."""
        ran = self.script("qwkdoor-toss", *options)
        self.assertEqual((ran.status, ran.said), (status, ""), ran.error)
        return ran.error

    def test_each_message_goes_where_it_belongs_and_the_packet_is_kept(self) -> None:
        data = packet(area(b"fido", b"Hello"), message(b"Dear Sam\r"), area(b"R50 SYSOP", b"Hi", b"2:5020/400 1"))
        self.comes("0a1b2c3d.PKT", data)
        self.comes("note.txt", b"no packet")
        self.assertEqual(self.toss(0), "")
        self.assertEqual(self.slots(), {"NETMAIL": 1, "FIDO": 1, "R50 SYSOP": 1})
        self.assertEqual(self.only("kept", ".pkt"), data)
        verdicts = lines_of(self.only("kept", ".txt"))
        self.assertEqual(verdicts, ["1 posted 5 1", "2 posted 1 1", "3 posted 6 1", "posted 3 refused 0"])
        self.assertEqual(os.listdir(self.path("ftn/in")), ["note.txt"])
        log = without_moment(self.read("ftn/log"))
        self.assertEqual([" ".join(it[1:]) for it in log], ["take 0 0a1b2c3d.PKT", "toss 0 posted 3 refused 0"])

    def test_what_came_twice_is_posted_once(self) -> None:
        alike = area(b"FIDO", b"Hello")
        for name in ("a.pkt", "b.pkt"):
            self.comes(name, packet(alike, alike, area(b"FIDO", b"Bye", b"2:5020/400 1")))
            self.assertEqual(self.toss(0), "")
        self.assertEqual(self.slots(), {"FIDO": 3})

    def test_a_refused_packet_is_set_aside_and_the_next_is_tossed(self) -> None:
        cut = packet(area(b"FIDO", b"Hello"))[:100]
        self.comes("a.pkt", cut)
        self.comes("b.pkt", b"")
        self.comes("c.pkt", b"x" * 4_194_305)
        self.comes("d.pkt", packet(area(b"FIDO", b"Hello")))
        self.assertIn("3 packets or messages were refused or set aside", self.toss(1))
        self.assertEqual(self.slots(), {"FIDO": 1})
        self.assertEqual(self.names("bad"), [".pkt"] * 3 + [".txt"] * 3)
        said = [line for line in without_moment(self.read("ftn/log")) if line[2] == "1"]
        words = ["refused packet cut 58", "refused packet short 0", "refused toolarge ftn/work/copy"]
        self.assertEqual([" ".join(line[3:]) for line in said], words)
        self.assertEqual(self.toss(0), "")

    def test_a_long_tag_waits_for_its_conference(self) -> None:
        first = area(LONG_TAG, b"No msgid")
        self.comes("a.pkt", packet(first, area(b"FIDO", b"Hello"), area(LONG_TAG, b"Msgid", b"2:5020/400 2")))
        self.assertIn("2 packets or messages", self.toss(1))
        self.assertEqual(self.slots(), {"FIDO": 1})
        self.assertEqual(self.names("bad"), [".1.pkt", ".1.txt", ".3.pkt", ".3.txt"])
        self.assertEqual(self.only("bad", ".3.pkt"), packet(area(LONG_TAG, b"Msgid", b"2:5020/400 2")))
        reason = lines_of(self.only("bad", ".1.txt"))
        self.assertTrue(reason[0].startswith("area: ") and LONG_TAG.decode() in reason[0], reason)
        self.assertEqual(reason[1:], ["From: Joe Far", "To: All", "Subject: Hello"])
        self.toss(1, "--again")
        self.assertEqual(self.names("bad"), [".1.pkt", ".1.txt", ".3.pkt", ".3.txt"])
        self.write("ftn/areas", b"# the areas of 2:5020/400\r\n\r\n" + LONG_TAG.lower() + b"  r50 Sysop \r\n")
        self.toss(0, "--again")
        self.assertEqual(self.slots(), {"FIDO": 1, "R50 SYSOP": 2})
        self.assertEqual(self.names("bad"), [])
        self.comes("b.pkt", packet(first))
        self.toss(0)
        self.assertEqual(self.slots(), {"FIDO": 1, "R50 SYSOP": 2})

    def test_a_long_text_is_kept_apart(self) -> None:
        data = packet(area(b"FIDO", b"x" * 16_384))
        self.comes("a.pkt", data)
        self.toss(1)
        self.assertEqual(self.only("bad", ".pkt"), data)
        self.assertIn("16,384 bytes", self.only("bad", ".txt").decode())
        self.assertEqual(self.names("kept"), [])

    def test_a_full_conference_leaves_the_rest_to_another(self) -> None:
        # A conference all of whose messages were packed: the slots of message numbers 1 to 9,998.
        with open(os.path.join(self.data, "C02.JDX"), "wb") as index:
            index.write(b"\xff" * 8 * 9_998)
        alike = area(b"FIDO", b"Hello")
        self.comes("a.pkt", packet(alike, alike, area(b"FIDO", b"Bye", b"2:5020/400 2")))
        self.assertIn("2 packets or messages", self.toss(1))
        self.assertEqual(self.slots(), {"FIDO": 9_999})
        self.assertEqual(self.names("bad"), [".2.pkt", ".2.txt", ".3.pkt", ".3.txt"])
        self.assertIn("9,999 slots", self.only("bad", ".2.txt").decode())
        self.write("ftn/areas", b"FIDO R50 SYSOP\n")
        self.toss(0, "--again")
        self.assertEqual(self.slots(), {"FIDO": 9_999, "R50 SYSOP": 2})

    def test_a_bundle_is_unpacked(self) -> None:
        bundle = archive(("2.pkt", packet(area(b"FIDO", b"One"))), ("1.PKT", packet(area(b"FIDO", b"Two"))))
        self.comes("0000ffff.SU1", bundle)
        self.assertEqual(self.toss(0), "")
        self.assertEqual(self.names("kept"), ["-01.pkt", "-01.txt", "-02.pkt", "-02.txt", ".zip"])
        self.assertEqual(self.only("kept", ".zip"), bundle)
        self.assertEqual(self.only("kept", "-01.pkt"), packet(area(b"FIDO", b"One")))
        self.assertEqual(self.slots(), {"FIDO": 2})

    def test_a_bad_bundle_holds_nothing_up(self) -> None:
        good = packet(area(b"FIDO", b"One"))
        self.comes("a.mo0", b"Rar!\x1a\x07\x00 and no zip archive")
        self.comes("b.zip", archive(("read\n\x1b.me", b"Hello"), ("1.pkt", good), ("2.pkt", b"\0" * 4_194_305)))
        damaged = bytearray(archive(("1.pkt", packet(area(b"FIDO", b"Two")))))
        damaged[40] ^= 0xFF
        self.comes("c.zip", bytes(damaged))
        self.comes("d.zip", archive(*((f"{number}.pkt", b"") for number in range(65))))
        self.comes("e.pkt", packet(area(b"FIDO", b"Three")))
        self.assertIn("4 packets or messages", self.toss(1))
        self.assertEqual(self.slots(), {"FIDO": 2})
        self.assertEqual(self.names("bad"), [".txt"] * 4 + [".zip"] * 4)
        self.assertEqual(self.names("kept"), ["-02.pkt", "-02.txt", ".pkt", ".txt"])
        self.assertNotIn(b"\x1b", self.read("ftn/log"))

    def test_what_is_no_file_is_set_aside(self) -> None:
        secret = self.write("secret", packet(area(b"FIDO", b"Not for the board")))
        os.makedirs(self.path("ftn/in/folder.pkt/within"))
        os.symlink(secret, self.path("ftn/in/link.pkt"))
        os.symlink(secret, self.path("ftn/in/link.zip"))
        os.mkfifo(self.path("ftn/in/pipe.pkt"))
        self.comes("bad\n\x1b[2Jname.pkt", packet(area(b"FIDO", b"Hello")))
        self.assertIn("4 packets or messages", self.toss(1))
        self.assertEqual(self.slots(), {"FIDO": 1})
        self.assertEqual(self.names("bad"), [".pkt"] * 3 + [".txt"] * 4 + [".zip"])
        taken = [line for line in without_moment(self.read("ftn/log")) if line[1] == "take"]
        self.assertIn("bad??[2Jname.pkt", [line[3] for line in taken])
        self.assertEqual(len(taken), 5)

    def test_what_cannot_be_read_stays_where_its_owner_can_mend_it(self) -> None:
        self.comes("a.pkt", packet(area(b"FIDO", b"Hello")))
        with mock.patch.dict(os.environ, {"QWKDOOR": PROGRAM}), mock.patch("sys.stderr", io.StringIO()):
            with mock.patch("qwkdoor_scripts.arrivals.can_be_taken", return_value=False):
                self.assertEqual(toss.main([self.data, self.shelf]), 1)
        self.assertIn(b"a.pkt can't be taken: this account may not read it", self.read("ftn/log"))
        self.assertEqual(os.listdir(self.path("ftn/in")), ["a.pkt"])
        self.assertEqual(self.toss(0), "")

    def test_a_wrong_list_leaves_all_as_it_is(self) -> None:
        self.comes("a.pkt", packet(area(b"FIDO", b"Hello")))
        rows = (
            (b"FIDO\n", "line 1: a line is a tag and the name of a conference"),
            (b"\nLONG NOWHERE\n", "line 2: the board has no conference NOWHERE"),
            (b"A FIDO\na R50 SYSOP\n", "line 2: the tag a is listed twice"),
        )
        for data, line in rows:
            self.write("ftn/areas", data)
            self.assertEqual(self.toss(2), f"qwkdoor-toss: {self.path('ftn/areas')}, {line}\n")
        self.assertEqual(os.listdir(self.path("ftn/in")), ["a.pkt"])

    def test_it_waits_for_another_run_and_says_what_it_is_called_with(self) -> None:
        os.mkdir(self.path("mail"))
        with open(self.path("mail/lock"), "wb") as lock:
            fcntl.flock(lock, fcntl.LOCK_EX)
            self.assertIn("another run was at work", self.toss(75, "-w", "0"))
        for words in (("-w", "-1"), ("-w", "86401"), ("--never",), ("a word",)):
            self.assertTrue(self.toss(2, *words).startswith("usage: qwkdoor-toss "))

    def test_a_run_waits_for_a_command_whose_script_was_killed(self) -> None:
        self.comes("a.pkt", packet(area(b"FIDO", b"Hello")))
        slow = self.write("slow", f'#!/bin/sh\n: >"$2/begun"\nsleep 3\nexec {PROGRAM} "$@"\n'.encode())
        os.chmod(slow, 0o700)
        words = [os.path.join(BIN, "qwkdoor-toss"), self.data, self.shelf]
        run = subprocess.Popen(words, env={**os.environ, "QWKDOOR": slow})
        while not os.path.exists(self.path("begun")):
            time.sleep(0.05)
        run.kill()
        run.wait()
        self.assertIn("another run was at work", self.toss(75, "-w", "0"))
        self.toss(0)
        self.assertEqual(self.slots(), {"FIDO": 1})

    def test_a_fault_of_the_board_ends_the_run(self) -> None:
        self.comes("a.pkt", packet(area(b"FIDO", b"Hello")))
        with open(os.path.join(self.data, "LOCK"), "rb") as lock:
            fcntl.flock(lock, fcntl.LOCK_EX)
            self.assertIn("check ended with status 4", self.toss(4))
        self.toss(0)
        self.assertEqual(self.slots(), {"FIDO": 1})


if __name__ == "__main__":
    unittest.main()
