"""What the program does where the files of SHELF are odd, or are files of DATA."""

from __future__ import annotations

import itertools
import os
import shutil
import socket
import stat
import subprocess
import time
import unittest
from typing import Iterator

from tests.edge_support import SECONDS, EdgeCase, Ran, alone, by_mount, by_strace
from tests.support import SHELF, TOP

APART = "DATA and SHELF must not lie in one another"


class OwnFiles(EdgeCase):
    """No name of the shelf writes a file of DATA."""

    def expect_refused(self, run: Ran, before: dict[str, bytes]) -> None:
        """An export ended with a shelf fault, and no file but those that keep its offer was changed."""
        self.expect(run, 5, APART)
        after = self.files()
        for name in ("LEDGER.DAT", "JOURNAL.DAT"):
            after[name] = before[name]
        self.assertEqual(before, after)
        self.expect_goes_on()

    def test_second_names(self) -> None:
        names = ("CONTROL.DAT", "MESSAGES.DAT")
        for name, own, link in itertools.product(names, ("C00.JDT", "JOURNAL.DAT", "LOCK"), (os.link, os.symlink)):
            with self.subTest(name=name, own=own, link=link.__name__):
                before = self.files()
                path = self.at("shelf", "out", name)
                os.remove(path)
                link(self.at("data", own), path)
                self.expect_refused(self.export(), before)
                os.remove(path)
                shutil.copyfile(os.path.join(SHELF, "out", name), path)

    def test_name_that_leads_to_a_missing_file_of_data(self) -> None:
        before = self.files()
        os.remove(self.at("shelf", "out", "CONTROL.DAT"))
        os.symlink(self.at("data", "C40.JHR"), self.at("shelf", "out", "CONTROL.DAT"))
        self.expect_refused(self.export(), {**before, "C40.JHR": b""})

    def test_folder_that_is_data(self) -> None:
        before = self.files()
        shutil.rmtree(self.at("shelf", "out"))
        os.symlink(self.data, self.at("shelf", "out"))
        self.expect_refused(self.export(), before)
        self.expect_refused(self.export("out/new"), before)
        self.assertFalse(os.path.exists(self.at("data", "new")))

    @by_mount
    def test_data_that_is_mounted_below_the_shelf(self) -> None:
        before = self.files()
        self.expect_refused(self.export(before=alone(f"mount --bind {self.data} {self.shelf}/out")), before)

    @by_mount
    def test_data_that_is_mounted_as_the_shelf(self) -> None:
        os.mkdir(self.at("twice"))
        os.mkdir(self.at("data", "deep"))
        mount = alone(f"mount --bind {self.data} {self.at('twice')}")
        for shelf in (self.at("twice"), self.at("twice", "deep"), self.at("twice", "new")):
            self.expect(self.door("check", shelf=shelf, before=mount), 4, APART)

    def test_shelf_without_a_board(self) -> None:
        self.expect(self.door("reply", "out", "1", "thanks.txt", "TESTBBS.MSG", data=self.shelf), 0)

    def test_shelf_that_is_a_board(self) -> None:
        shutil.copytree(self.at("shelf", "out"), self.at("data", "out"))
        shutil.copy(self.at("shelf", "thanks.txt"), self.data)
        self.expect(self.door("reply", "out", "1", "thanks.txt", "NEW.MSG", shelf=self.data), 5, APART)
        self.assertFalse(os.path.exists(self.at("data", "NEW.MSG")))


class OddFiles(EdgeCase):
    """What is no file with bytes of its own is a shelf fault at once."""

    def odd(self, path: str) -> Iterator[str]:
        """Puts one after the other at a path, and says which."""
        os.mkfifo(path)
        yield "pipe"
        os.remove(path)
        os.mkdir(path)
        yield "folder"
        os.rmdir(path)
        yield self.put_socket(path)
        os.remove(path)
        for target in ("/dev/null", "/dev/zero", "/proc/kmsg", "/proc/self/stat", "/proc/self/comm"):
            os.symlink(target, path)
            yield target
            os.remove(path)
        if os.geteuid() == 0:
            os.mknod(path, 0o600 | stat.S_IFCHR, os.makedev(1, 5))
            yield "device"
            os.remove(path)

    def put_socket(self, path: str) -> str:
        """Puts a socket at a path, whose whole name may be too long for one."""
        here = os.getcwd()
        with socket.socket(socket.AF_UNIX) as listener:
            os.chdir(os.path.dirname(path))
            listener.bind(os.path.basename(path))
            os.chdir(here)
        return "socket"

    def expect_faults(self, path: str, *words: str) -> None:
        """A run ends with a shelf fault on the path, whatever odd file is there."""
        for what in self.odd(path):
            with self.subTest(what=what, path=path):
                self.expect_of(self.door(*words), 5, path)

    def test_read(self) -> None:
        self.expect_faults(self.at("shelf", "odd"), "import", "0", "odd")

    def test_written(self) -> None:
        for name in ("CONTROL.DAT", "MESSAGES.DAT"):
            path = self.at("shelf", "out", name)
            os.remove(path)
            self.expect_faults(path, "export", "Ann Lee", "10", "out")

    def swap(self, path: str, *words: str) -> Ran:
        """A run during which a pipe comes to be at a path, once the path was looked at first."""
        looks = self.at("looks")
        before = ["strace", "-qq", "-o", looks, "-P", path, "-e", "inject=statx:delay_exit=2000000:when=1"]
        line = [*before, self.program, self.data, self.shelf, *words]
        with subprocess.Popen(line, stdin=subprocess.DEVNULL, stdout=-1, stderr=-1, text=True) as run:
            while run.poll() is None and not self.has_looked(looks):
                time.sleep(0.01)
            os.remove(path)
            os.mkfifo(path)
            try:
                said, faults = run.communicate(timeout=SECONDS)
            except subprocess.TimeoutExpired:
                os.close(os.open(path, os.O_RDWR | os.O_NONBLOCK))
                run.kill()
                self.fail(f"the run waits for a pipe: {words}")
        return subprocess.CompletedProcess(line, run.returncode, said, faults)

    def has_looked(self, looks: str) -> bool:
        """Whether the run has looked at the path."""
        if not os.path.exists(looks):
            return False
        with open(looks, encoding="utf-8") as file:
            return "statx(" in file.read()

    @by_strace
    def test_pipe_that_comes_meanwhile(self) -> None:
        path = self.at("shelf", "out", "CONTROL.DAT")
        self.expect_of(self.swap(path, "export", "Ann Lee", "10", "out"), 5, path)

    @by_strace
    def test_pipe_in_data_that_comes_meanwhile(self) -> None:
        lock = self.at("data", "LOCK")
        self.expect_of(self.swap(lock, "check"), 4, lock)


class MissingShelf(EdgeCase):
    """A folder of the shelf is made where it is missing, and the day asks for one that is there."""

    def test_export_makes_it(self) -> None:
        self.expect(self.door("export", "Ann Lee", "10", "a/b", shelf=self.at("mistyped")), 0)
        self.assertTrue(os.path.isfile(self.at("mistyped", "a", "b", "CONTROL.DAT")))

    def test_day_asks_for_it(self) -> None:
        words = [os.path.join(TOP, "bin/qwkdoor-day"), self.data, self.at("mistyped")]
        environment = {**os.environ, "QWKDOOR": self.program}
        run = subprocess.run(words, capture_output=True, text=True, env=environment, check=False)
        self.expect(run, 70, "mistyped isn't a folder")
        self.assertFalse(os.path.exists(self.at("mistyped")))


if __name__ == "__main__":
    unittest.main()
