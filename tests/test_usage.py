"""The usage pages: those of bin/qwkdoor, against docs/REFERENCE.md, the sessions and the man page."""

from __future__ import annotations

import os
import re
import subprocess
import unittest

from tests.support import TOP

DOOR = os.path.join(TOP, "bin/qwkdoor")


def text_of(name: str) -> str:
    with open(os.path.join(TOP, name), encoding="utf-8") as file:
        return file.read()


def said_by(*words: str) -> str:
    return subprocess.run(words, capture_output=True, text=True, check=True, cwd=TOP).stdout


def commands() -> list[str]:
    """Gives the commands of the usage page."""
    page = said_by(DOOR, "--help")
    listed = page[page.index("\ncommands:\n") : page.index("\nstatus:\n")]
    return sorted(set(re.findall(r"^  ([a-z]+) ", listed + " ", re.MULTILINE)))


def refusals() -> "dict[str, list[str]]":
    """Gives the refusals of each command as docs/REFERENCE.md has them, a line each."""
    page = text_of("docs/REFERENCE.md")
    table = page[page.index("\n| Command | Its refusals") :].partition("\n## ")[0]
    rows = re.findall(r"^\| *(.*?) *\| *(.*?) *\|$", table, re.MULTILINE)
    found: dict[str, list[str]] = {}
    for heads, refused in rows:
        for name in re.findall(r"`([a-z]+)[` ]", heads):
            found.setdefault(name, []).append(refused.replace("`", ""))
    return found


class Commands(unittest.TestCase):
    def test_the_man_page_has_the_same(self) -> None:
        in_manual = re.findall(r"^\.It Ic ([a-z]*)", text_of("docs/qwkdoor.1"), re.MULTILINE)
        self.assertEqual(commands(), sorted(set(in_manual)))
        self.assertIn("batch", commands())

    def test_each_has_the_refusals_of_the_reference(self) -> None:
        for name in commands():
            page = said_by(DOOR, "--help", name)
            part = page[page.index("\nrefused by:\n") + 13 :].partition("\n\n")[0]
            lines = [re.sub(r"^(with N: )", "", it.strip()) for it in part.splitlines()]
            self.assertEqual([it for it in lines if not it.endswith(":")], refusals()[name], name)

    def test_each_has_an_example_of_a_session(self) -> None:
        pages = (text_of("README.md") + text_of("docs/SESSIONS.md")).splitlines()
        for name in commands():
            example = [it for it in said_by(DOOR, "--help", name).splitlines() if it.startswith("    $ ")]
            self.assertEqual(len(example), 1, name)
            self.assertIn(example[0], pages)


class Pages(unittest.TestCase):
    def test_each_begins_with_the_words_of_a_call(self) -> None:
        self.assertTrue(said_by(DOOR, "--help").startswith("usage: qwkdoor DATA SHELF"))
        self.assertTrue(said_by(os.path.join(TOP, "bin/install"), "--help").startswith("usage: bin/install"))
        self.assertTrue(said_by(os.path.join(TOP, "bin/test"), "--help").startswith("usage: bin/test"))
        self.assertRegex(said_by(DOOR, "--version"), r"\Aqwkdoor [0-9]")

    def test_wrong_words(self) -> None:
        for words in (["board", "shelf"], ["--build", "shelf"]):
            ran = subprocess.run([DOOR, *words], capture_output=True, text=True, check=False)
            self.assertEqual(ran.returncode, 2)
            self.assertTrue(ran.stderr.startswith("usage: qwkdoor DATA SHELF COMMAND"))

    @unittest.skipUnless(os.path.exists("/dev/full"), "there is no /dev/full")
    def test_a_full_output(self) -> None:
        with open("/dev/full", "wb") as full:
            ran = subprocess.run([DOOR, "--help"], stdout=full, stderr=subprocess.DEVNULL, check=False)
        self.assertEqual(ran.returncode, 6)


if __name__ == "__main__":
    unittest.main()
