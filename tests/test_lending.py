"""Callers with accounts of the machine read what is handed out, and nobody else does."""

from __future__ import annotations

import os
import shutil
import stat
import struct
import subprocess
import tempfile
import unittest

from tests.day_support import board
from tests.support import MEMORY, needs_program

from qwkdoor_scripts import lending

ANN, BOB = 64201, 64202
NOBODY = 0xFFFFFFFF
# Tags of an ACL: the owner, a person, the group, the mask, all others.
OWNER, PERSON, GROUP, MASK, OTHERS = 1, 2, 4, 16, 32


_NOT_ONES_GROUP = """\
import os

def fails(*words):
    raise PermissionError(1, 'not your group')

os.fchown = fails
"""


def acl(*people: int) -> bytes:
    """Gives the bytes of an ACL by which the owner and these people may do all, and nobody else anything."""
    entries = [(OWNER, 7, NOBODY), *((PERSON, 7, it) for it in people), (GROUP, 0, NOBODY)]
    entries += [(MASK, 7, NOBODY), (OTHERS, 0, NOBODY)]
    return struct.pack("<I", 2) + b"".join(struct.pack("<HHI", *it) for it in entries)


def can_read(path: str, person: int) -> bool:
    """Whether the account of a number, in a group of that number, can read a file."""
    words = ["/bin/cat", path]
    ran = subprocess.run(words, user=person, group=person, extra_groups=[], capture_output=True, check=False)
    return ran.returncode == 0


@unittest.skipUnless(os.geteuid() == 0, "only root can be another account")
class Lending(unittest.TestCase):
    """A packet in a folder `out`."""

    def setUp(self) -> None:
        self.top = tempfile.mkdtemp(dir=MEMORY)
        self.addCleanup(shutil.rmtree, self.top)
        os.chmod(self.top, 0o711)
        self.out = os.path.join(self.top, "out")
        os.mkdir(self.out, 0o700)

    def lent(self) -> str:
        """Writes a packet as a day does, lends it, and puts it into the folder."""
        path = os.path.join(self.top, "packet")
        with open(os.open(path, os.O_WRONLY | os.O_CREAT, 0o600), "wb") as file:
            file.write(b"Mail")
        lending.lend(path, self.out)
        os.replace(path, os.path.join(self.out, "packet"))
        return os.path.join(self.out, "packet")

    def readers(self) -> "list[int]":
        """Gives which of two accounts can read what was lent, and sees that nobody else can."""
        path = self.lent()
        self.assertEqual(0, stat.S_IMODE(os.stat(path).st_mode) & 0o007)
        return [it for it in (ANN, BOB) if can_read(path, it)]

    def test_nobody_reads_what_comes_to_a_folder_of_ones_own(self) -> None:
        self.assertEqual([], self.readers())
        os.chown(self.out, -1, ANN)
        self.assertEqual([], self.readers())
        self.assertEqual(0o600, stat.S_IMODE(os.stat(self.lent()).st_mode))

    def test_the_folders_group_reads_where_it_may_enter(self) -> None:
        os.chown(self.out, -1, ANN)
        for mode in (0o2770, 0o2730, 0o750):
            os.chmod(self.out, mode)
            self.assertEqual([ANN], self.readers(), oct(mode))

    def test_those_of_the_folders_acl_read(self) -> None:
        os.setxattr(self.out, "system.posix_acl_access", acl(BOB))
        self.assertEqual([], self.readers())
        os.setxattr(self.out, "system.posix_acl_default", acl(BOB))
        self.assertEqual([BOB], self.readers())
        self.assertEqual(0o640, stat.S_IMODE(os.stat(self.lent()).st_mode))

    @needs_program
    def test_a_day_lends_what_it_hands_out(self) -> None:
        with board() as it:
            it.day("--caller", "bob")
            it.fetch("bob")
            os.makedirs(os.path.join(it.mail, "ann/out"))
            for folder in (it.top, it.shelf, it.mail, os.path.join(it.mail, "ann")):
                os.chmod(folder, 0o711)
            os.chown(os.path.join(it.mail, "ann/out"), -1, ANN)
            os.chmod(os.path.join(it.mail, "ann/out"), 0o2770)
            it.day()
            path = os.path.join(it.mail, "ann/out/TESTBBS.QWK")
            self.assertEqual([True, False], [can_read(path, person) for person in (ANN, BOB)])
            self.assertEqual(0o600, stat.S_IMODE(os.stat(os.path.join(it.mail, "cy/out/TESTBBS.QWK")).st_mode))

    @needs_program
    def test_a_packet_that_nobody_could_read_is_kept_back(self) -> None:
        with board() as it:
            it.day("--caller", "bob")
            it.fetch("bob")
            it.post(["New"])
            refused = tempfile.mkdtemp()
            self.addCleanup(shutil.rmtree, refused)
            with open(os.path.join(refused, "sitecustomize.py"), "w", encoding="ascii") as file:
                file.write(_NOT_ONES_GROUP)
            os.chown(os.path.join(it.mail, "bob/out"), -1, BOB)
            os.chmod(os.path.join(it.mail, "bob/out"), 0o2770)
            ran = it.day(PYTHONPATH=refused)
            self.assertEqual((1, []), (ran.returncode, it.names("bob/out")))
            self.assertRegex(ran.stderr, f"bob: .*bob/out: this account isn't in its group {BOB}")
            self.assertEqual((0, ["TESTBBS.QWK"]), (it.day().returncode, it.names("bob/out")))


if __name__ == "__main__":
    unittest.main()
