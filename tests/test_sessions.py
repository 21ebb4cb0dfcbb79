"""The sessions of README.md and docs/SESSIONS.md, carried out: the program and the scripts say what stands there."""

from __future__ import annotations

import os
import shutil
import subprocess
import tempfile
import unittest

from tests.sessions import session, shown
from tests.support import PROGRAM, SHELF, TOP, needs_program

DAY = "qwkdoor /tmp/day-board /tmp/day batch day.txt"
READ = "qwkdoor-read --plain --send /tmp/day/mail/bob/in /tmp/bob.QWK"


def read(path: str) -> str:
    with open(path, encoding="utf-8") as file:
        return file.read()


def write(path: str, text: str, mode: int = 0o644) -> None:
    with open(path, "w", encoding="utf-8") as file:
        file.write(text)
    os.chmod(path, mode)


class PageCase(unittest.TestCase):
    """A test with a copy of the shelf, which the pages give a name in /tmp."""

    def setUp(self) -> None:
        self.top = tempfile.mkdtemp()
        self.addCleanup(shutil.rmtree, self.top)

    def path(self, name: str) -> str:
        return os.path.join(self.top, name)

    def shelf(self, name: str) -> str:
        shutil.copytree(SHELF, self.path(name))
        return self.path(name)

    def run_of(self, *words: str, given: str = "", **environment: str) -> "subprocess.CompletedProcess[str]":
        return subprocess.run(
            words,
            input=given,
            env={**os.environ, "QWKDOOR": PROGRAM, **environment},
            capture_output=True,
            text=True,
            check=False,
        )

    def must_say(self, status: int, said: str, *words: str) -> None:
        ran = self.run_of(*words)
        self.assertEqual((ran.returncode, ran.stdout), (status, said), ran.stderr)


@needs_program
class ByHand(PageCase):
    def must_say_as_shown(self, head: str, board: str, shelf: str) -> None:
        found = session(head)
        write(os.path.join(self.shelf(shelf), "session"), found.commands)
        # Each of the two has commands that are refused.
        self.must_say(1, found.said, PROGRAM, self.path(board), self.path(shelf), "batch", "session")

    def test_a_sysops_day(self) -> None:
        self.must_say_as_shown("qwkdoor /tmp/board /tmp/files ", "board", "files")

    def test_a_callers_evening(self) -> None:
        self.must_say_as_shown("qwkdoor nowhere /tmp/caller ", "nowhere", "caller")


@needs_program
class Readme(PageCase):
    def setUp(self) -> None:
        super().setUp()
        self.shelf("day")
        self.mail = self.path("day/mail")

    def log(self) -> "list[str]":
        """Gives the lines of the log, each without the moment in front of it."""
        return [line.partition(" ")[2] for line in read(os.path.join(self.mail, "log")).splitlines()]

    def day(self) -> None:
        script = os.path.join(TOP, "bin/qwkdoor-day")
        self.must_say(0, "", script, self.path("day-board"), self.path("day"))

    def read_packet(self, given: str, *words: str) -> "subprocess.CompletedProcess[str]":
        write(self.path("editor"), '#!/bin/sh\necho "An answer" >>"$1"\n', 0o755)
        return self.run_of(
            os.path.join(TOP, "bin/qwkdoor-read"),
            *words,
            self.path("bob.QWK"),
            given=given,
            VISUAL="",
            EDITOR=f"'{self.path('editor')}'",
            QWKDOOR_HOME=self.path("bob"),
        )

    def answer(self) -> None:
        """Takes Bob's packet away, and answers a letter of it."""
        os.rename(os.path.join(self.mail, "bob/out/TESTBBS.QWK"), self.path("bob.QWK"))
        ran = self.read_packet("r 41\nq\n", "--plain", "--send", os.path.join(self.mail, "bob/in"))
        self.assertEqual(ran.returncode, 0, ran.stderr)
        said = [it.replace("TESTBBS> ", "") for it in ran.stdout.replace(self.mail, "/tmp/day/mail").splitlines()]
        wanted = [it for it in shown(READ).splitlines() if it.startswith(("kept ", "sent "))]
        self.assertEqual(said[-2:], wanted)

    def test_the_day_and_the_next_one(self) -> None:
        self.assertEqual(shown("cat /tmp/day/day.txt"), read(os.path.join(SHELF, "day.txt")))
        self.must_say(0, shown(DAY), PROGRAM, self.path("day-board"), self.path("day"), "batch", "day.txt")
        os.mkdir(self.mail)
        write(os.path.join(self.mail, "callers"), shown("cat /tmp/day/mail/callers"))
        self.day()
        self.assertEqual(self.log(), shown("cut -d ' ' -f 2- /tmp/day/mail/log").splitlines())
        self.answer()
        self.day()
        self.assertEqual(self.log()[-5:], shown("tail -n 5 /tmp/day/mail/log").splitlines())
        kept = os.path.join(self.mail, "bob/kept")
        verdicts = "".join(read(os.path.join(kept, it)) for it in sorted(os.listdir(kept)) if it.endswith(".txt"))
        self.assertEqual(verdicts, shown("cat /tmp/day/mail/bob/kept/*.txt"))
        # A packet that lost a byte on its way, behind the archive's first header, isn't shown.
        with open(self.path("bob.QWK"), "r+b") as file:
            file.seek(60)
            file.write(b"?")
        ran = self.read_packet("")
        self.assertEqual((ran.returncode, ran.stdout), (70, ""))


if __name__ == "__main__":
    unittest.main()
