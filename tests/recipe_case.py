"""A board that docs/RECIPES.md has made, on which its other recipes are tried."""

from __future__ import annotations

import os
import shutil
import tempfile
import unittest
from typing import Callable, Optional

from tests.installed import install_copy
from tests.letters import reply_archive
from tests.recipes import Machine, Person, Step, steps_of
from tests.support import MEMORY, TOP, needs_program

BOARD, ANN, BOB = Person(64200, 64200, (64201,)), Person(64201, 64201), Person(64202, 64202)
NOT_RUN = {
    "useradd": "makes an account of the machine",
    "usermod": "changes an account of the machine",
    "setfacl": "isn't on each machine, and tests/test_lending.py gives folders such ACLs",
    "systemctl": "asks the machine's own systemd, whose units tests/test_install.py looks at",
}
# The recipes on whose sessions the others stand.
NEW_BOARD = "A new board"
CRON = "Cron"
BACK_UP = "Back-up, and a board that moves"
FIRST = (NEW_BOARD, CRON, BACK_UP)
# What a person does in the editor. The last is an answer.
EDITOR = """\
#!/bin/sh
case $1 in
*/further.txt) sed -i '/^conference: 7/i conference: 5 local - SALE' "$1" ;;
*/setup.txt) ;;
*) echo 'An answer.' >>"$1" ;;
esac
"""
USERS = ("Sam Sysop", "Ann Lee", "Bob Ray")


def write(path: str, data: bytes, mode: int = 0o644) -> None:
    os.makedirs(os.path.dirname(path), exist_ok=True)
    with open(path, "wb") as file:
        file.write(data)
    os.chmod(path, mode)


def read(path: str) -> bytes:
    with open(path, "rb") as file:
        return file.read()


@needs_program
class RecipeCase(unittest.TestCase):
    """A test of a recipe."""

    root: str
    saved: str
    machine: Machine
    steps: list[Step]

    @classmethod
    def setUpClass(cls) -> None:
        with open(os.path.join(TOP, "docs/RECIPES.md"), encoding="utf-8") as file:
            cls.steps = list(steps_of(file.read()))
        # The scripts set a mask of their own, also where a test calls them in this process.
        cls.addClassCleanup(os.umask, os.umask(0o022))
        cls.root = os.path.join(tempfile.mkdtemp(dir=MEMORY), "root")
        cls.saved = cls.root + ".saved"
        cls.addClassCleanup(shutil.rmtree, os.path.dirname(cls.root))
        own = Person(os.geteuid(), os.getegid())
        cls.machine = Machine(cls.root, {"board": own, "ann": ANN, "ftn": own}, NOT_RUN)
        for folder in ("home/board", "srv", "tmp", "etc/logrotate.d"):
            os.makedirs(os.path.join(cls.root, folder))
        write(cls.machine.path("/shims/vi"), EDITOR.encode("ascii"), 0o755)
        install_copy(cls.machine.path("/usr/local"))
        for step in cls.steps:
            if step.section == NEW_BOARD or (step.section in FIRST and step.kind == "session"):
                cls.must_run(step)
        shutil.copytree(cls.root, cls.saved, symlinks=True)

    def setUp(self) -> None:
        shutil.rmtree(self.root)
        shutil.copytree(self.saved, self.root, symlinks=True)

    @classmethod
    def must_run(cls, step: Step, given: bytes = b"", person: Optional[Person] = None) -> None:
        fault = cls.machine.runs(step, given, person)
        if fault:
            raise AssertionError(f"docs/RECIPES.md, line {step.line}: {step.command}\n{fault}")

    def run_recipe(
        self,
        section: str,
        before: Optional[dict[str, Callable[[], None]]] = None,
        given: Optional[dict[str, bytes]] = None,
        people: Optional[dict[str, Person]] = None,
    ) -> None:
        """Runs the lines of a section. What is named by a part of a line belongs to that line."""
        steps = [step for step in self.steps if step.section == section]
        self.assertTrue(steps, f"the page has no section {section}")
        for name in [*(before or {}), *(given or {}), *(people or {})]:
            self.assertTrue(any(name in it.command for it in steps), f"{section} has no line with {name}")
        for step in steps:
            for name, action in (before or {}).items():
                if name in step.command:
                    action()
            inputs = [it for name, it in (given or {}).items() if name in step.command]
            persons = [it for name, it in (people or {}).items() if name in step.command]
            self.must_run(step, b"".join(inputs), persons[0] if persons else None)

    def door(self, *words: str) -> list[str]:
        """Carries out a command on the board, and gives its reply."""
        quoted = " ".join(f"'{it}'" for it in words)
        board, shelf = self.machine.path("/srv/board"), self.machine.path("/srv/shelf")
        status, printed, said = self.machine.call("session", f"qwkdoor {board} {shelf} {quoted}")
        self.assertEqual((status, said), (0, ""), f"{words}: {printed}")
        return printed.split("\n")[:-1]

    def day(self, person: Optional[Person] = None) -> None:
        command = self.machine.mapped("qwkdoor-day /srv/board /srv/shelf")
        self.assertEqual(self.machine.call("session", command, person=person), (0, "", ""))

    def post(self, name: str, user: str, subject: str) -> None:
        """Leaves a letter of a caller's."""
        path = self.machine.path(f"/srv/shelf/mail/{name}/in/{subject}.REP")
        write(path, reply_archive("TESTBBS", 0, user, subject))

    def import_hello(self) -> None:
        hello = self.machine.path("/usr/local/share/qwkdoor/shelf/hello.txt")
        shutil.copyfile(hello, self.machine.path("/srv/shelf/hello.txt"))
        self.assertEqual(self.door("import", "0", "hello.txt"), ["imported 1 into 0"])

    def offers(self, board: str) -> dict[str, list[str]]:
        """Gives what each user is offered, each message but for its place and its number, from a copy of a board."""
        found = {}
        copy = self.machine.path("/tmp/copy")
        shelf = self.machine.path("/srv/shelf")
        for user in USERS:
            shutil.copytree(self.machine.path(board), copy)
            offer = f"qwkdoor {copy} {shelf} export '{user}' 2000 seen >{copy}.said && qwkdoor {copy} {shelf} read seen"
            status, printed, said = self.machine.call("session", offer)
            self.assertEqual((status, said), (0, ""))
            lines = [line.split(" ", 2) for line in printed.split("\n")[2:-2]]
            found[user] = [f"{it[1].partition('/')[0]} {it[2]}" for it in lines]
            shutil.rmtree(copy)
        return found
