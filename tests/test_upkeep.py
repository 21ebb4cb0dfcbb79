"""qwkdoor-upkeep over a board: what it deletes, and what it leaves."""

from __future__ import annotations

import io
import os
import random
import shutil
import subprocess
import time
import unittest
from unittest import mock

from tests.board_support import BoardCase, killed_at, lines_of
from tests.support import PROGRAM

from qwkdoor_scripts import due, headers, upkeep, upkeep_plan
from qwkdoor_scripts.conferences import Conference
from qwkdoor_scripts.upkeep_rules import Rule

DAY = 86_400
USERS = ("Ann Lee", "Bob Ray", "Sam Sysop", "Cy Day")
PEOPLE = ("ANN LEE", "Bob Ray", "cy day", "Sam Sysop", "Far Away", "A Name Of More Than 25 Bytes")


def sheet(days: "list[int]", to: str = "All", sender: str = "Bob Ray", private: bool = False) -> bytes:
    """Gives a sheet of messages that were written so many days ago."""
    now = int(time.time())
    mark = "Private: yes\n" if private else ""
    head = f"From: {sender}\nTo: {to}\nSubject: Hello\n{mark}"
    return "".join(f"{head}Date: {now - day * DAY}\n\nText\n.\n" for day in days).encode("ascii")


class UpkeepTest(BoardCase):
    """A board of three users and two conferences."""

    def setUp(self) -> None:
        super().setUp()
        self.make_board("0 local p GENERAL", "1 net - NETMAIL", "7 echo - NEWS")
        for name, flags, conferences in (("Ann Lee", "n", "all"), ("Bob Ray", "n", "0,1"), ("Sam Sysop", "n", "all")):
            self.door("enroll", name, flags, conferences)

    def import_(self, conference: int, data: bytes) -> None:
        """Puts the messages of a sheet into a conference."""
        self.write("sheet", data)
        self.assertIn("imported", self.door("import", str(conference), "sheet")[0])

    def acknowledge(self, *names: str) -> None:
        """Has users acknowledge all that there is."""
        for name in names:
            packet = self.door("export", name, "2000", "out")[0].split()[1].rstrip(":")
            self.assertEqual(self.door("ack", name, packet), [f"acknowledged {packet}"])

    def upkeep(self, status: int, rules: bytes, *options: str) -> "list[str]":
        """Runs the script by a list. Gives what it says."""
        self.write("upkeep", rules)
        ran = self.script("qwkdoor-upkeep", *options)
        self.assertEqual(ran.status, status, ran.error)
        self.assertEqual(ran.error == "", status == 0, ran.error)
        return [*ran.said.splitlines(), *ran.error.splitlines()]

    def conferences(self) -> "list[str]":
        """Gives what check says of each conference."""
        return self.door("check")[1:-1]

    def batch(self, rules: bytes, *options: str) -> "list[str]":
        """Gives the commands that the script would have carried out."""
        return [line for line in self.upkeep(0, rules, "-n", *options) if not line.startswith("#")]

    def test_the_old_and_those_that_are_too_many_go(self) -> None:
        self.import_(0, sheet([400, 10, 366, 364, 3, 2]))
        self.acknowledge("Ann Lee", "Bob Ray", "Sam Sysop")
        before = self.conferences()
        self.assertEqual(self.batch(b"0 keep 5000\n"), [])
        self.assertEqual(self.batch(b"0 days 365\n"), ["kill 0 1", "kill 0 3", "pack 0"])
        self.assertEqual(self.batch(b"0 keep 4\n"), ["kill 0 1", "kill 0 2", "pack 0"])
        self.assertEqual(self.batch(b"0 days 365 keep 4\n"), ["kill 0 1", "kill 0 2", "kill 0 3", "pack 0"])
        self.assertEqual(self.conferences(), before)
        self.assertEqual(self.upkeep(0, b"0 keep 4 days 365\n"), [])
        self.assertEqual(self.conferences()[0], "0 GENERAL: 6 slots, 3 live")
        self.assertEqual(self.conferences()[1:], before[1:])
        self.door("enroll", "Cy Day", "-", "0")
        self.door("export", "Cy Day", "10", "out")
        listed = [line.split()[1] for line in self.door("read", "out")[2:-1]]
        self.assertEqual(listed, ["0/4", "0/5", "0/6"])
        self.assertEqual(self.door("pack", "0"), ["packed 0: 0"])
        self.assertEqual(self.upkeep(0, b"0 keep 4 days 365\n"), [])
        log = [line.split(" ", 1)[1] for line in lines_of(self.read("upkeep.log"))]
        self.assertEqual(log, ["0 due 0 3 of 6 go", "0 pack 0 packed 0: 3"])

    def test_what_a_member_has_not_acknowledged_stays(self) -> None:
        self.import_(0, sheet([400, 390]))
        self.import_(7, sheet([400]))
        self.acknowledge("Ann Lee", "Bob Ray", "Sam Sysop")
        self.import_(0, sheet([380]))
        self.acknowledge("Ann Lee", "Sam Sysop")
        rules = b"0 days 365\n7 days 365\n"
        said = self.upkeep(0, rules, "-n")
        self.assertIn("not acknowledged by Bob Ray", said[0])
        self.assertEqual(said[1:4] + said[5:], ["kill 0 1", "kill 0 2", "pack 0", "kill 7 1", "pack 7"])
        self.assertEqual(self.batch(rules, "--unread")[:3], ["kill 0 1", "kill 0 2", "kill 0 3"])
        self.assertEqual(self.batch(rules + b'left "bob ray"\n')[:3], ["kill 0 1", "kill 0 2", "kill 0 3"])
        self.door("export", "Bob Ray", "2000", "out")
        self.assertEqual(self.upkeep(0, rules), [])
        self.assertEqual(self.conferences()[0], "0 GENERAL: 3 slots, 1 live")
        self.acknowledge("Bob Ray")
        self.assertEqual(self.upkeep(0, rules), [])
        self.assertEqual(self.conferences()[0], "0 GENERAL: 3 slots, 0 live")

    def test_a_private_letter_is_held_by_those_who_see_it(self) -> None:
        self.door("enroll", "Cy Day", "n", "1")
        self.import_(1, sheet([400], to="Ann Lee", sender="Far Away"))
        self.import_(1, sheet([399], to="bob ray", sender="Far Away"))
        self.import_(1, sheet([398], to="Far Away", sender="ANN LEE"))
        self.import_(1, sheet([397], to="Far Away", sender="Near By"))
        rules = b"1 days 365\n"
        self.assertEqual(self.batch(rules), [])
        self.acknowledge("Sam Sysop")
        self.assertEqual(self.batch(rules), ["kill 1 4", "pack 1"])
        self.acknowledge("Ann Lee")
        self.assertEqual(self.batch(rules), ["kill 1 1", "kill 1 3", "kill 1 4", "pack 1"])
        self.assertIn("not acknowledged by Bob Ray", self.upkeep(0, rules, "-n")[0])

    def offers(self) -> "dict[str, list[str]]":
        """Gives what each user is offered, from a copy of the board, each message but for its place."""
        copy = self.data + ".copy"
        shutil.copytree(self.data, copy)
        found = {}
        for user in USERS:
            for words in (["export", user, "2000", "offer"], ["list", "offer/MESSAGES.DAT"]):
                said = subprocess.run([PROGRAM, copy, self.shelf, *words], capture_output=True, check=True).stdout
            found[user] = [line.split(" ", 1)[1] for line in said.decode("latin-1").splitlines()[:-1]]
        shutil.rmtree(copy)
        return found

    def test_each_member_is_offered_the_same_before_and_after(self) -> None:
        self.door("enroll", "Cy Day", "n", "1,7")
        for seed in range(5):
            draw = random.Random(seed)
            self.acknowledge(*USERS)
            for _ in range(draw.randrange(3, 9)):
                conference, sender, to = draw.choice((0, 1, 7)), draw.choice(PEOPLE), draw.choice(PEOPLE)
                days = [draw.randrange(0, 60) for _ in range(draw.randrange(1, 9))]
                self.import_(conference, sheet(days, to, sender, conference != 7 and draw.random() < 0.6))
                user = draw.choice(USERS)
                packet = self.door("export", user, str(draw.randrange(1, 20)), "out")[0].split()[1].rstrip(":")
                if draw.random() < 0.7:
                    self.door("ack", user, packet)
            before = self.offers()
            live = sum(int(line.split()[-2]) for line in self.conferences())
            rules = f"0 keep {draw.randrange(1, 9)}\n1 days 20\n7 keep 3 days 9\n"
            self.assertEqual(self.upkeep(0, rules.encode()), [])
            self.assertEqual(self.offers(), before, seed)
            # What came before the first seed's letters is nothing, so that nothing of it can go.
            self.assertLess(sum(int(line.split()[-2]) for line in self.conferences()), live + (seed == 0), seed)
            self.assertGreater(sum(map(len, before.values())), 0, seed)

    def test_what_was_deleted_by_hand_is_packed(self) -> None:
        self.import_(0, sheet([3, 2, 1]))
        self.door("kill", "0", "2")
        self.assertEqual(self.upkeep(0, b"0 keep 2\n"), [])
        self.assertEqual(self.conferences()[0], "0 GENERAL: 3 slots, 2 live")
        self.assertEqual(self.door("pack", "0"), ["packed 0: 0"])

    def test_a_list_that_does_not_read_leaves_the_board(self) -> None:
        self.import_(0, sheet([400]))
        rows = (
            (b"0\n", "line 1: a line is CONF keep"),
            (b"# x\n0 keep\n", "line 2: a line is CONF keep"),
            (b"0 keep 0\n", "line 1: a line is CONF keep"),
            (b"0 keep 5 keep 6\n", "line 1: a line is CONF keep"),
            (b"0 days -5\n", "line 1: a line is CONF keep"),
            (b"0 keep 5 days 5 keep 5\n", "line 1: a line is CONF keep"),
            (b"3 keep 5\n", "line 1: the board has no conference 3"),
            (b"0 keep 5\n\n00 days 5\n", "line 3: the conference 0 is listed twice"),
            (b'left "Nobody"\n', "line 1: the board has no user Nobody"),
            (b"left Ann Lee\n", "line 1: a line is CONF keep"),
        )
        for rules, line in rows:
            (said,) = self.upkeep(2, rules, "--unread")
            self.assertTrue(said.startswith(f"qwkdoor-upkeep: {self.path('upkeep')}, {line}"), said)
        os.unlink(self.path("upkeep"))
        self.assertEqual(self.script("qwkdoor-upkeep").status, 70)
        self.assertEqual(self.conferences()[0], "0 GENERAL: 1 slots, 1 live")

    def test_a_kill_at_each_step(self) -> None:
        self.import_(0, sheet([400, 1, 390]))
        self.write("upkeep", b"0 days 365\n")
        with mock.patch.dict(os.environ, {"QWKDOOR": PROGRAM}):
            step = 0
            while killed_at(step, lambda: upkeep.main(["--unread", self.data, self.shelf])) is None:
                step += 1
        self.assertGreater(step, 3)
        self.assertEqual(self.conferences()[0], "0 GENERAL: 3 slots, 1 live")
        self.assertEqual(self.door("pack", "0"), ["packed 0: 0"])

    def test_a_refused_command_is_named(self) -> None:
        self.import_(0, sheet([400, 399]))
        conference = Conference(0, 0, "GENERAL", 2, 2)
        works = [upkeep_plan.Work(conference, due.Due([1, 5], [], []), 0)]
        self.write("upkeep", b"")
        error = io.StringIO()
        with mock.patch.dict(os.environ, {"QWKDOOR": PROGRAM}), mock.patch("sys.stderr", error):
            with mock.patch.object(upkeep_plan, "plan", lambda *_: works):
                self.assertEqual(upkeep.main([self.data, self.shelf]), 1)
        self.assertIn("a command was refused", error.getvalue())
        self.assertIn("0 kill 1 kill 0 5: refused nomessage", self.read("upkeep.log").decode())
        self.assertEqual(self.conferences()[0], "0 GENERAL: 2 slots, 1 live")

    def test_a_change_under_way_is_no_board_to_read(self) -> None:
        board = upkeep_plan.Board(self.data, [], 0)
        self.write("upkeep", b"")
        with open(os.path.join(self.data, "JOURNAL.DAT"), "wb") as journal:
            journal.write(b"O")
        with self.assertRaisesRegex(upkeep_plan.Failure, "JOURNAL.DAT"):
            upkeep_plan.plan(board, self.path("upkeep"), False, 0)


class PartsTest(unittest.TestCase):
    """What needs no board."""

    def test_the_crc_is_jam_s(self) -> None:
        # The check value of CRC-32/JAMCRC, and of an empty text by JAM.
        self.assertEqual(headers.name_crc(b"123456789"), 0x340BC6D9)
        self.assertEqual(headers.name_crc(b""), 0xFFFFFFFF)
        self.assertEqual(headers.name_crc(b"Ann Lee"), headers.name_crc(b"ANN LEE"))

    def test_batches_are_as_long_as_the_program_reads(self) -> None:
        lines = [f"kill {conference} {number}" for conference in range(60_000, 60_020) for number in range(1, 9_999)]
        found = list(upkeep_plan.batches(lines))
        self.assertEqual([line for batch in found for line in batch], lines)
        sizes = [sum(len(line) + 1 for line in batch) for batch in found]
        self.assertLessEqual(max(sizes), 1_048_576)
        self.assertEqual(len(found), -(-sum(sizes) // 1_048_560))

    def test_the_newest_stay_whatever_their_dates(self) -> None:
        found = [headers.Header(number, 1_000_000 - number, number % 2 == 0, False, ()) for number in range(1, 9)]
        self.assertEqual(due.find(Rule(0, 2, None), found, [], 0).numbers, [1, 3])


if __name__ == "__main__":
    unittest.main()
