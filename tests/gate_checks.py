"""What is tried on the program that a gate has proved and built, named by QWKDOOR: the short forms of bench/.

No clause says of the edge what these look for: pipes, the clock and opens; runs that are killed, on a board of program
1.0 too; requests for memory that are refused; syncs, and calls of the system that fail. `.ci/run` runs them behind the
gate, and `bin/test` doesn't.
"""

from __future__ import annotations

import os
import subprocess
import tempfile
import unittest

from tests.support import PROGRAM, SHELF, TOP, needs_program


@needs_program
class ShortForms(unittest.TestCase):
    def must_pass(self, *words: str, seconds: int = 120, **environment: str) -> None:
        """Runs a command of the checkout that names the program in one way or another."""
        ran = subprocess.run(
            words,
            cwd=TOP,
            env={**os.environ, "PROGRAM": PROGRAM, "DOOR": PROGRAM, "QWKDOOR": PROGRAM, **environment},
            stdin=subprocess.DEVNULL,
            stdout=subprocess.PIPE,
            stderr=subprocess.STDOUT,
            timeout=seconds,
            check=False,
        )
        said = ran.stdout.decode("utf-8", "replace")
        self.assertEqual(ran.returncode, 0, f"{' '.join(words)} ends with {ran.returncode}: {said}")

    def test_pipes_clock_and_opens(self) -> None:
        self.must_pass("sh", "bench/shelf.sh")

    def test_runs_that_are_killed(self) -> None:
        self.must_pass("sh", "bench/kill.sh", "25")

    def test_killed_runs_on_a_board_of_1_0(self) -> None:
        self.must_pass("sh", "bench/upgrade.sh", "10")

    def test_memory_that_is_refused(self) -> None:
        self.must_pass("sh", "bench/memory.sh", "12")

    def test_days_that_are_killed(self) -> None:
        self.must_pass("bench/day.py", "25", seconds=300)

    def test_readers_that_are_killed(self) -> None:
        self.must_pass("sh", "bench/read.sh", "25")

    def test_a_packet_of_40_megabytes(self) -> None:
        name = "tests.test_reader_boxes.Odd.test_a_packet_of_40_megabytes"
        self.must_pass("python3", "-B", "-m", "unittest", name, BIG="yes")

    def test_calls_of_a_board_that_is_made(self) -> None:
        self.must_pass("sh", "bench/edge.sh", "init", "setup.txt", CALLS="openat,pwrite64,fsync")

    def test_calls_of_a_board_that_is_changed(self) -> None:
        with tempfile.TemporaryDirectory() as folder:
            data = os.path.join(folder, "data")
            subprocess.run([PROGRAM, data, SHELF, "init", "setup.txt"], check=True, stdout=subprocess.DEVNULL)
            self.must_pass("sh", "bench/edge.sh", "enroll", "Ann Lee", "n", "all", DATA_FROM=data, EVERY="11")

    def test_all_calls_now_and_then(self) -> None:
        self.must_pass("sh", "bench/edge.sh", "--all", "101")


if __name__ == "__main__":
    unittest.main()
