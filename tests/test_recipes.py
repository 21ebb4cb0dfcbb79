"""Each line of docs/RECIPES.md does what the page says, each recipe on the board of the first one."""

from __future__ import annotations

import os
import shutil
import time
import unittest

from tests.letters import DELETED, base_files, base_record, reply_archive
from tests.recipe_case import ANN, BACK_UP, BOARD, BOB, CRON, FIRST, USERS, RecipeCase, read, write
from tests.board_support import message, packet

# The recipes that need letters, or more, to work on.
SYSOP = "The sysop reads"
ARCHIVES = "Archives, by hand"
KEYS = "How a caller reaches his folders"
ACCOUNTS = "Callers with accounts of the machine"
BASE = "Another tool's base"
FURTHER = "A further conference"
NEIGHBOUR = "A neighbour's mail"
SERVERS = "Other servers of JAM"
PREPARED = (SYSOP, ARCHIVES, KEYS, ACCOUNTS, BASE, FURTHER, NEIGHBOUR, SERVERS)


class Recipes(RecipeCase):
    def test_a_new_board_keeps_its_list_of_users(self) -> None:
        command = self.machine.mapped("qwkdoor /srv/board /srv/shelf batch users.txt")
        status, printed, _ = self.machine.call("session", command)
        self.assertEqual((status, printed), (1, "refused dupuser\n" * 3))

    def test_cron(self) -> None:
        for step in self.steps:
            if step.section == CRON and step.kind != "session":
                self.must_run(step)
        self.assertEqual(read(self.machine.path("/srv/shelf/said")), b"")

    def test_a_copy_and_what_came_after_it(self) -> None:
        self.day()
        self.post("ann", "Ann Lee", "First")
        self.day()

        def later() -> None:
            self.post("bob", "Bob Ray", "Second")
            self.day()
            # An archive's name has the second in which it was taken.
            time.sleep(1)
            self.post("ann", "Ann Lee", "Third")
            self.day()

        self.run_recipe(BACK_UP, {"mv /srv/board": later})
        said = self.door("check")
        self.assertEqual(said[1], "0 GENERAL: 3 slots, 3 live")
        self.assertTrue(said[-1].startswith("3 users, 3 uploads, "), said[-1])
        subjects = [line.split(": ")[1] for line in self.offers("/srv/board")["Sam Sysop"]]
        self.assertEqual(subjects, ["First [1]", "Second [1]", "Third [1]"])
        self.day()

    def test_what_needs_nothing_more(self) -> None:
        """A recipe that has no test of its own runs on a board without letters."""
        sections = dict.fromkeys(step.section for step in self.steps)
        self.assertLessEqual({*FIRST, *PREPARED}, set(sections))
        for section in sections:
            if section not in (*FIRST, *PREPARED):
                with self.subTest(section=section):
                    self.setUp()
                    self.run_recipe(section)

    def test_the_sysop_reads(self) -> None:
        self.import_hello()
        self.day()
        self.run_recipe(SYSOP, given={"qwkdoor-read": b"r 1\nq\n"})
        self.day()
        self.assertEqual(self.door("check")[1], "0 GENERAL: 2 slots, 2 live")

    def test_archives_by_hand(self) -> None:
        self.import_hello()
        self.run_recipe(ARCHIVES)

    def test_keys_of_a_caller(self) -> None:
        self.import_hello()
        self.day()
        answer = reply_archive("TESTBBS", 0, "Ann Lee", "By ssh")
        self.run_recipe(KEYS, given={"cat >": answer})
        self.day()
        self.assertEqual(self.door("check")[1], "0 GENERAL: 2 slots, 2 live")

    @unittest.skipUnless(os.geteuid() == 0, "only root may run a caller's lines as the caller")
    def test_callers_with_accounts(self) -> None:
        self.import_hello()
        os.chmod(os.path.dirname(self.root), 0o711)
        os.chmod(self.machine.path("/tmp"), 0o1777)
        self.day()
        for at, folders, names in os.walk(self.machine.path("/srv")):
            for name in [".", *folders, *names]:
                os.chown(os.path.join(at, name), BOARD.user, BOARD.group, follow_symlinks=False)
        write(self.machine.path("/tmp/TESTBBS.REP"), reply_archive("TESTBBS", 0, "Ann Lee", "Mine"))
        packet = self.machine.path("/srv/shelf/mail/ann/out/TESTBBS.QWK")
        other = self.machine.path("/srv/shelf/mail/bob/out/TESTBBS.QWK")

        def bob_is_kept_out() -> None:
            for command in (f"cat {packet}", f"cat {other}", f"ls {os.path.dirname(packet)}", f"rm -f {packet}"):
                self.assertNotEqual(self.machine.call("session", command, person=BOB)[0], 0, command)

        people = {"mv ": ANN, "install -m 640": ANN}
        self.run_recipe(ACCOUNTS, {"mv /srv/shelf/mail/ann/out": bob_is_kept_out}, people=people)
        self.day(BOARD)
        self.assertEqual(self.door("check")[1], "0 GENERAL: 2 slots, 2 live")
        # Her next packet is hers too, and nobody else's.
        self.assertEqual(self.machine.call("session", f"cat {packet} >{packet}.read", person=ANN)[0], 0)
        bob_is_kept_out()

    def test_another_tools_base(self) -> None:
        records = [base_record(number, f"Letter {number}") for number in (1, 2, 3)]
        records += [base_record(4, "Gone", DELETED), base_record(5, "Broken", too_long=4)]
        for ending, data in base_files(records).items():
            write(self.machine.path(f"/var/spool/ftn/msg/fido.test.{ending}"), data)
        self.run_recipe(BASE)

    def fill_board(self) -> None:
        """Gives each user letters that he has acknowledged and others, beside slots that are empty."""
        sheet = self.machine.path("/srv/shelf/sheet.txt")
        for number, (conference, recipient) in enumerate(
            ((0, "All"), (0, "Bob Ray"), (0, "Ann Lee"), (1, "Ann Lee"), (7, "All"), (0, "All"), (7, "Ann Lee")), 1
        ):
            private = "yes" if conference == 0 and recipient != "All" else "no"
            letter = f"From: Dee Far\nTo: {recipient}\nSubject: Letter {number}\nPrivate: {private}\n\nText\n.\n"
            write(sheet, letter.encode("ascii"))
            self.door("import", str(conference), "sheet.txt")
            if number == 4:
                self.door("kill", "0", "1")
                self.door("pack", "0")
            if number in (3, 5):
                self.acknowledge("Ann Lee", 2 if number == 3 else 2000)
        self.acknowledge("Bob Ray", 1)
        self.acknowledge("Sam Sysop", 4)
        self.door("kill", "7", "1")

    def acknowledge(self, user: str, limit: int) -> None:
        said = self.door("export", user, str(limit), "seen")[0]
        self.door("ack", user, said.split(":")[0].split()[1])

    def test_a_further_conference(self) -> None:
        self.fill_board()
        before = self.offers("/srv/board")
        self.assertEqual([len(before[user]) for user in USERS], [1, 2, 1])
        self.run_recipe(FURTHER, {"mv /srv/board": lambda: self.post("bob", "Bob Ray", "Late")})
        self.assertEqual(self.offers("/srv/board"), before)
        self.assertEqual(self.door("check")[1], "0 GENERAL: 4 slots, 3 live")
        # The letter that came late is posted, by a number that no message of the old board had.
        self.day()
        self.assertEqual(self.door("check")[1], "0 GENERAL: 5 slots, 4 live")
        self.assertEqual(self.door("kill", "0", "5"), ["killed 0 5"])

    def test_a_neighbours_mail(self) -> None:
        letter = message(b"Text\r", to=b"Ann Lee")
        copy = self.machine.path("/srv/copies/20261129T043000Z")
        shutil.copytree(self.machine.path("/srv/board"), copy)
        write(copy + ".check", b"")

        def go_back() -> None:
            shutil.rmtree(self.machine.path("/srv/shelf/ftn/kept"))
            self.toss(packet(letter), 0)
            shutil.rmtree(self.machine.path("/srv/board"))
            shutil.copytree(copy, self.machine.path("/srv/board"))

        # The area of the second is none of the board's.
        unknown = packet(letter, message(b"AREA:FAR.AWAY\rText\r"))
        self.run_recipe(NEIGHBOUR, {"sort | uniq": lambda: self.toss(unknown, 1), "-cnewer": go_back})
        self.assertEqual(self.door("check")[2], "1 NETMAIL: 1 slots, 1 live")

    def toss(self, letters: bytes, wanted: int) -> None:
        """Receives a neighbour's packet, and tosses it with this status."""
        write(self.machine.path("/srv/shelf/ftn/in/0a1b2c3d.pkt"), letters)
        command = self.machine.mapped("qwkdoor-toss /srv/board /srv/shelf")
        self.assertEqual(self.machine.call("session", command)[0], wanted)

    def test_other_servers_of_jam(self) -> None:
        self.import_hello()
        shutil.copytree(self.machine.path("/srv/board"), self.machine.path("/srv/copies/20261129T043000Z"))
        self.run_recipe(SERVERS)
        self.assertEqual(read(self.machine.path("/srv/jam/c00.jhr")), read(self.machine.path("/srv/board/C00.JHR")))


if __name__ == "__main__":
    unittest.main()
