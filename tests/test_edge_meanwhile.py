"""What the program does where a file comes to be in DATA while it runs, or has another's name there."""

from __future__ import annotations

import os
import subprocess
import time

from tests.edge_support import SECONDS, EdgeCase, Ran, by_strace


class NewFiles(EdgeCase):
    """A file that comes to be there behind the listing of DATA is neither read nor written."""

    def run_with_file(self, data: str, path: str, *words: str) -> Ran:
        """A run during which a file comes to be at a path, once DATA was listed to its end."""
        calls = self.at("calls")
        traced = ["strace", "-qq", "-o", calls, "-e", "trace=getdents64"]
        delayed = ["-e", "inject=getdents64:delay_exit=2000000:when=2"]
        line = [*traced, *delayed, self.program, data, self.shelf, *words]
        run = subprocess.Popen(line, stdin=subprocess.DEVNULL, stdout=subprocess.PIPE, stderr=subprocess.PIPE, text=True)
        while run.poll() is None and self._listings(calls) < 2:
            time.sleep(0.01)
        with open(path, "wb") as file:
            file.write(b"another's")
        said, faults = run.communicate(timeout=SECONDS)
        return subprocess.CompletedProcess(line, run.returncode, said, faults)

    def _listings(self, calls: str) -> int:
        """How often a folder was listed so far."""
        try:
            with open(calls, encoding="utf-8") as file:
                return file.read().count("getdents64(")
        except FileNotFoundError:
            return 0

    @by_strace
    def test_file_that_comes_behind_the_listing(self) -> None:
        data = self.at("new")
        os.mkdir(data, 0o700)
        path = os.path.join(data, "C00.JHR")
        self.expect_of(self.run_with_file(data, path, "init", "setup.txt"), 4, path)
        with open(path, "rb") as file:
            self.assertEqual(file.read(), b"another's")

    def test_names_in_small_letters(self) -> None:
        before = self.files()
        names = ("c00.jhr", "c05.jdt", "ledger.dat")
        for name in names:
            with open(self.at("data", name), "wb") as file:
                file.write(b"another's")
        self.expect(self.door("import", "0", "hello.txt"), 0)
        self.expect(self.door("check"), 0)
        after = self.files()
        self.assertEqual([after[name] for name in names], [b"another's"] * 3)
        self.assertNotIn("C05.JDT", after)
        self.assertNotEqual(before["C00.JHR"], after["C00.JHR"])
