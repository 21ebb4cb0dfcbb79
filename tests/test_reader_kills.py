"""Runs that are killed at each step on the disk: what was said to be kept is sent once, to its message."""

from __future__ import annotations

import errno
import os
import re
import shutil
import sys
import unittest

from tests.reader_support import THREE, Caller, Letter, letters_of, message_bytes
from tests.support import TOP
from tests import reader_stub
from qwkdoor_scripts import durable, program, reader_shell
from qwkdoor_scripts.reader_command import main

_KILLED = 9
_KEPT = re.compile(r"kept answer (\d+) to ([A-Z ]+): ")


class Kills(Caller):
    """A hook ends the process at the step of a number, as a kill does. The program and the editor are stand-ins."""

    # In memory, where the machine has such a folder: nothing here rests on a disk.
    top = "/dev/shm" if os.access("/dev/shm", os.W_OK) else None

    def setUp(self) -> None:
        super().setUp()
        self.got = os.path.join(self.home, "got")
        os.mkdir(self.got)

    def run_to(self, step: int, words: "list[str]", lines: "list[str]", fails: bool = False) -> "tuple[bool, str]":
        """Runs the reader in a child that ends at a step, or whose step fails. Gives whether it went on to its end."""
        given, said = os.path.join(self.home, "given"), os.path.join(self.home, "said")
        with open(given, "w", encoding="utf-8") as file:
            file.write("".join(f"{line}\n" for line in lines))
        child = os.fork()
        if child == 0:
            self._be_reader(step, words, given, said, fails)
        status = os.waitstatus_to_exitcode(os.waitpid(child, 0)[1])
        self.assertIn(status, (0, 70) if fails else (0, _KILLED))
        with open(said, encoding="utf-8") as file:
            return status == 0, file.read()

    def _be_reader(self, step: int, words: "list[str]", given: str, said: str, fails: bool) -> None:
        left = [step]

        def end_at(name: str, path: str) -> None:
            # A kill before a sync leaves what one before the next step does.
            if name == "fsync" and not fails:
                return
            left[0] -= 1
            if left[0] == 0 and fails:
                raise OSError(errno.ENOSPC, os.strerror(errno.ENOSPC), path)
            if left[0] == 0:
                os._exit(_KILLED)

        status = 99
        try:
            os.environ.update({**self.environment, "QWKDOOR": "/bin/sh"})
            for variable in ("VISUAL", "QWKDOOR_HOME", "XDG_DATA_HOME", "XDG_CONFIG_HOME"):
                os.environ.pop(variable, None)
            sys.stdin = open(given, encoding="utf-8")
            sys.stdout = open(said, "w", encoding="utf-8")
            sys.stderr = open(os.devnull, "w", encoding="utf-8")
            durable.before = end_at
            # No power fails here, and a sync of a busy disk takes long.
            os.fsync = lambda handle: None  # type: ignore[assignment, misc]
            program.Program.run = reader_stub.run  # type: ignore[method-assign]
            reader_shell.edit = reader_stub.Editor(self.home).edit
            status = main(words, TOP)
            sys.stdout.flush()
        finally:
            os._exit(status)

    def take(self) -> None:
        """Takes the archives away, as one that is sent."""
        for path in self.archives():
            os.replace(path, os.path.join(self.got, f"{len(os.listdir(self.got)):04}-{os.path.basename(path)}"))

    def received(self) -> "list[Letter]":
        """Gives the letters of all archives that were taken away or sent, each archive once by its bytes."""
        folders = [self.got, *([self.box("sent")] if os.path.isdir(self.box("sent")) else [])]
        paths = [os.path.join(folder, name) for folder in folders for name in os.listdir(folder)]
        unique = {_bytes(path): path for path in paths if path.endswith(".REP")}
        return [letter for path in unique.values() for letter in letters_of(path)]

    def check(self, said: "set[tuple[str, str]]") -> None:
        """Each said answer came once, to its message, and no other came twice."""
        letters = self.received()
        texts = [letter.text.decode() for letter in letters]
        numbers = re.findall(r"Answer (\d+)\.", "\n".join(texts))
        self.assertEqual(len(numbers), len(set(numbers)), numbers)
        quotes = {it.sender: it.text.decode().split("\n")[0] for it in THREE}
        for letter in letters:
            self.assertIn(quotes[letter.recipient], letter.text.decode())
        edited = os.path.join(self.home, "edited")
        if not os.path.exists(edited):
            self.assertEqual((letters, said), ([], set()))
            return
        given: "dict[str, list[str]]" = {}
        with open(edited, encoding="utf-8") as file:
            for line in file:
                given.setdefault(line.split("/")[-2], []).append(line.split()[-1])
        for answer, recipient in said:
            words = [f"Answer {number}." for number in given[answer]]
            found = [it.recipient for it in letters if any(word in it.text.decode() for word in words)]
            # One that was being changed is a text again, which the reader asks about.
            is_text = os.path.isdir(self.box("drafts", answer))
            self.assertEqual(found, [] if is_text else [recipient], f"answer {answer}")

    def at_each_step(
        self, words: "list[str]", lines: "list[str]", first: "list[str]", fails: bool = False, takes: bool = True
    ) -> None:
        """Kills a run at its first step, another one at its second, until one comes to its end, each in its folder."""
        top = self.home
        said = set(_KEPT.findall(self.run_to(0, [self.packet], first)[1])) if first else set()
        evening = os.path.join(top, "evening")
        shutil.copytree(top, evening, ignore=shutil.ignore_patterns("evening"))
        is_ended = False
        step = 0
        while not is_ended and step < 300:
            step += 1
            self.home = os.path.join(top, str(step))
            self.got = os.path.join(self.home, "got")
            shutil.copytree(evening, self.home)
            self.environment["HOME"] = self.home
            given = [self.got if it == "GOT" else it for it in words]
            is_ended = self.killed_once(step, given, lines, set(said), fails, takes)
            shutil.rmtree(self.home)
        self.assertTrue(is_ended)
        self.assertGreater(step, 20)

    def killed_once(
        self, step: int, words: "list[str]", lines: "list[str]", said: "set[tuple[str, str]]", fails: bool, takes: bool
    ) -> bool:
        """Runs twice: killed at a step, and whole. Gives whether the first came to its end."""
        lying = {path: _bytes(path) for path in self.archives()}
        is_ended, out = self.run_to(step, words, lines, fails)
        said.update(_KEPT.findall(out))
        for path in self.archives():
            self.assertEqual(_bytes(path), lying.get(path, _bytes(path)))
        if takes:
            self.take()
        said.update(_KEPT.findall(self.run_to(0, words, ["q"])[1]))
        self.take()
        self.check({it for it in said if it not in self.dropped(lines)})
        walked = [it for _, folders, files in os.walk(self.box()) for it in (*folders, *files)]
        self.assertEqual([it for it in walked if it.endswith((".new", ".gone")) or it.startswith(".")], [])
        return is_ended

    def dropped(self, lines: "list[str]") -> "set[tuple[str, str]]":
        """Gives the answers that a run drops, which may or may not be gone where it is killed."""
        names = {"1": "BOB RAY", "2": "CY DAY", "3": "DEE FAR"}
        return {(line[2:], names[line[2:]]) for line in lines if line.startswith("x ")}

    def test_answers_are_kept_and_packed(self) -> None:
        """The first evening, from no folder on."""
        self.at_each_step([self.packet], ["r 1", "r 2", "q"], [])

    def test_an_archive_lies_there(self) -> None:
        """A second archive is made while the first one lies there, which doesn't change."""
        self.at_each_step([self.packet], ["r 2", "r 3", "q"], ["r 1", "q"], takes=False)

    def test_archives_are_sent(self) -> None:
        """The reader sends them itself. What a killed run had put there isn't put there again."""
        self.at_each_step(["--send", "GOT", self.packet], ["r 2", "q"], ["r 1", "q"], takes=False)

    def test_one_name(self) -> None:
        """Archives of one name wait for one another."""
        self.at_each_step(["--one-name", self.packet], ["r 2", "sent 1", "q"], ["r 1", "q"], takes=False)

    def test_answers_are_changed_and_dropped(self) -> None:
        """An answer that is being changed is an answer or a text, and never both."""
        self.at_each_step([self.packet], ["r 1", "r 2", "r 3", "e 1", "x 3", "q"], [])

    def test_archives_are_taken_back(self) -> None:
        """The answers of an archive that is taken back are in that one or in the next."""
        self.at_each_step([self.packet], ["back 1", "e 1", "r 2", "q"], ["r 1", "q"], takes=False)

    def test_a_step_that_fails(self) -> None:
        """A full disk at each step is a status of 70, and what was said to be kept isn't lost."""
        self.at_each_step([self.packet], ["r 1", "r 2", "q"], [], fails=True)

    def test_an_older_folder_is_taken_over(self) -> None:
        """What the first reader left comes once, wherever taking it over was killed."""
        top = self.home
        is_ended = False
        step = 0
        while not is_ended and step < 300:
            step += 1
            self.home = os.path.join(top, str(step))
            self.got = os.path.join(self.home, "got")
            self.environment["HOME"] = self.home
            self.make_older()
            is_ended, _ = self.run_to(step, [self.packet], ["q"])
            self.run_to(0, [self.packet], ["q"])
            self.take()
            self.assertEqual([it.text for it in self.received()], [b"old"])
            drafts = os.listdir(self.box("drafts"))
            self.assertEqual([_bytes(self.box("drafts", it, "text")) for it in drafts], [b"half"])
        self.assertGreater(step, 20)

    def make_older(self) -> None:
        """Makes a folder of the first reader."""
        older = os.path.join(self.home, "qwk", "TESTBBS")
        os.makedirs(os.path.join(older, "packet"))
        os.makedirs(self.got)
        files = {"TESTBBS.MSG": b"TESTBBS".ljust(128) + message_bytes(Letter(text=b"old"), 1), "answer.txt": b"half"}
        for name, data in files.items():
            with open(os.path.join(older, name), "wb") as file:
                file.write(data)


def _bytes(path: str) -> bytes:
    with open(path, "rb") as file:
        return file.read()


if __name__ == "__main__":
    unittest.main()
