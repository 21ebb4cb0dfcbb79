"""What the pages say of the edge, beside what the program does there."""

from __future__ import annotations

import os
import re
import subprocess
import unittest

from tests.edge_support import EdgeCase
from tests.support import TOP


def page(name: str) -> str:
    """The text of a page, its words parted by one blank each."""
    with open(os.path.join(TOP, "docs", name), encoding="utf-8") as file:
        return " ".join(file.read().split())


def manual_status(number: int) -> str:
    """What the man page says of a status."""
    statuses = page("qwkdoor.1").partition(".Sh EXIT STATUS")[2].partition(".El")[0]
    return re.sub(r"\.Ar ", "", statuses.partition(f".It {number} ")[2].partition(".It ")[0])


def reference_status(number: int) -> str:
    """What docs/REFERENCE.md says of a status."""
    return page("REFERENCE.md").partition(f"| {number} | ")[2].partition(" | |")[0].partition(f"| {number + 1} |")[0]


class Statuses(EdgeCase):
    """The status of folders that lie in one another is 4."""

    def test_program(self) -> None:
        for shelf in (self.data, self.at("data", "deep"), self.top):
            self.expect(self.door("check", shelf=shelf), 4, "DATA and SHELF must not lie in one another")

    def test_pages(self) -> None:
        for status in (manual_status, reference_status):
            self.assertIn("not a command", status(2).lower())
            self.assertNotIn(" lie", status(2))
            self.assertIn("DATA and SHELF lie in one another", status(4))


class Pages(unittest.TestCase):
    """The pages say what the edge does."""

    def test_memory(self) -> None:
        self.assertNotIn("held in memory whole", page("qwkdoor.1"))
        self.assertIn("A run holds an index of the whole board in memory", page("qwkdoor.1"))

    def test_copies_for_other_programs(self) -> None:
        for name in ("OPERATING.md", "RECIPES.md", "READERS.md", "SESSIONS.md"):
            with self.subTest(name=name):
                self.assertIsNone(re.search(r"cp DATA/\S* /tmp", page(name)))
                self.assertIsNone(re.search(r"cp DATA/C00.* /tmp/general", page(name)))
        self.assertIn("umask 077 mkdir -p ~/jam", page("OPERATING.md"))

    def test_missing_shelf(self) -> None:
        words = [os.path.join(TOP, "bin/qwkdoor"), "--help", "export"]
        said = subprocess.run(words, capture_output=True, text=True, check=True).stdout
        self.assertIn("SHELF too", " ".join(said.split()))
        self.assertIn("isn't there is made, and so is .Ar SHELF :", page("qwkdoor.1"))
        self.assertIn("after a SHELF or a FOLDER that was mistyped", page("OPERATING.md"))

    def test_last_start(self) -> None:
        failed = page("OPERATING.md").partition("## A failed sync")[2].partition("## ")[0]
        for words in ("**A container** has the id of its host", "**A copy of DATA**", "the device and the inode of `LOCK`"):
            self.assertIn(words, failed)

    def test_links(self) -> None:
        machine = page("OPERATING.md").partition("## The machine")[2].partition("## ")[0]
        self.assertIn("Symbolic links in DATA aren't followed", machine)
        self.assertNotIn("lets a command write over the board's own files", machine)


if __name__ == "__main__":
    unittest.main()
