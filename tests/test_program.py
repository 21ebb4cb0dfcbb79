"""The program by its words: statuses, standard streams, and a small stack."""

from __future__ import annotations

import os
import resource
import shutil
import subprocess
import tempfile
import unittest

from tests.support import PROGRAM, SHELF, TOP, needs_program

DATA = os.path.dirname(SHELF)


def listing() -> str:
    """Gives what the gate has the program print: the listing of the packet P1."""
    with open(os.path.join(TOP, "crates/qwkdoor/stdout"), encoding="ascii") as file:
        return file.read()


@needs_program
class Program(unittest.TestCase):
    def setUp(self) -> None:
        self.top = tempfile.mkdtemp()
        self.addCleanup(shutil.rmtree, self.top)
        self.nowhere = os.path.join(self.top, "nowhere")

    def must_say(self, status: int, said: str, *words: str) -> None:
        ran = subprocess.run(words, stdin=subprocess.DEVNULL, capture_output=True, text=True, check=False)
        self.assertEqual((ran.returncode, ran.stdout), (status, said), ran.stderr)

    def test_reading_makes_no_board(self) -> None:
        self.must_say(0, listing(), PROGRAM, self.nowhere, SHELF, "list", "P1")
        self.must_say(0, "1 messages\n", PROGRAM, self.nowhere, SHELF, "scan", "P1")
        self.must_say(5, "", PROGRAM, self.nowhere, DATA, "list", "shelf")
        self.assertFalse(os.path.exists(self.nowhere))

    def test_a_board_in_its_shelf(self) -> None:
        self.must_say(0, listing(), PROGRAM, SHELF, SHELF, "list", "P1")
        self.must_say(4, "", PROGRAM, SHELF, SHELF, "check")

    @unittest.skipUnless(shutil.which("rt"), "the toolchain's command rt isn't in PATH")
    def test_the_launcher_runs_a_program(self) -> None:
        # Where none is proved and built, and none is kept, it compiles the sources.
        ran = subprocess.run(
            ["bin/qwkdoor", "bench/no-such-folder", "crates/qwkdoor/data/shelf", "scan", "P1"],
            cwd=TOP,
            stdin=subprocess.DEVNULL,
            capture_output=True,
            text=True,
            check=False,
        )
        self.assertEqual((ran.returncode, ran.stdout), (0, "1 messages\n"), ran.stderr)

    def test_a_stack_of_64_kilobytes(self) -> None:
        ran = subprocess.run(
            [PROGRAM, self.nowhere, SHELF, "list", "P1"],
            capture_output=True,
            text=True,
            check=False,
            preexec_fn=lambda: resource.setrlimit(resource.RLIMIT_STACK, (65536, 65536)),
        )
        self.assertEqual((ran.stdout, ran.stderr), (listing(), ""))

    @unittest.skipUnless(os.path.exists("/dev/full"), "there is no /dev/full")
    def test_a_full_output(self) -> None:
        with open("/dev/full", "wb") as full:
            ran = subprocess.run(
                [PROGRAM, self.nowhere, SHELF, "list", "P1"], stdout=full, stderr=subprocess.DEVNULL, check=False
            )
        self.assertEqual(ran.returncode, 6)


if __name__ == "__main__":
    unittest.main()
