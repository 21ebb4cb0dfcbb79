"""bin/test runs modules and crates of tests side by side, counts what passed and failed, and names what it left."""

from __future__ import annotations

import os
import subprocess
import sys
import tempfile
import time
import unittest

from tests.fake_toolchain import ToolchainCase, write
from tests.support import TOP

from qwkdoor_checkout.jobs import Count, Job, Outcome, run_all
from qwkdoor_checkout.testing import count_of_crate, count_of_module, crates, in_order

MODULE = """\
import os, unittest

class Case(unittest.TestCase):
    def test_passes(self):
        with open(os.environ["QWKDOOR"], "rb"):
            pass

    @unittest.skip("not here")
    def test_skipped(self):
        pass
"""
FAILING = """
    def test_fails(self):
        self.assertEqual(1, 2, "a message")

    def test_errs(self):
        raise OSError
"""
RESULT = "running {count} tests\ntest result: {word}. {passed} passed; {failed} failed; 0 ignored; 0 filtered out\n"


def result(passed: int, failed: int) -> str:
    return RESULT.format(count=passed + failed, word="FAILED" if failed else "ok", passed=passed, failed=failed)


def nothing(_: Outcome) -> None:
    """Tells nobody."""


class Whole(ToolchainCase):
    def setUp(self) -> None:
        super().setUp()
        write(self.path("tests/__init__.py"), "")
        write(self.path("tests/test_one.py"), MODULE)
        self.crate("small", 0, result(3, 0))

    def crate(self, name: str, status: int, said: str) -> None:
        write(self.path(f"crates/{name}/src/lib.rt"), "#[test]\n")
        write(self.path(f"crates/{name}/said"), f"{status}\n{said}")

    def bin_test(self, *words: str) -> "subprocess.CompletedProcess[str]":
        environment = {name: value for name, value in self.environment.items() if name != "QWKDOOR"}
        return subprocess.run(
            [self.path("bin/test"), *words], env=environment, capture_output=True, text=True, check=False
        )

    def test_all_pass(self) -> None:
        ran = self.bin_test()
        lines = ran.stdout.splitlines()
        self.assertEqual((ran.returncode, lines[-1]), (0, "4 passed, 0 failed"), ran.stderr)
        self.assertRegex(lines[0] + lines[1], r"tests\.test_one: 1 passed, 0 failed, 1 skipped, [0-9]+ s")
        self.assertRegex(lines[0] + lines[1], r"small: 3 passed, 0 failed, [0-9]+ s")
        self.assertEqual((len(lines), len(self.kept())), (3, 1))
        self.assert_clear()

    def test_some_fail(self) -> None:
        write(self.path("tests/test_one.py"), MODULE + FAILING)
        write(self.path("tests/test_two.py"), "import no_such_module\n")
        self.crate("other", 1, result(2, 1))
        self.crate("refused", 2, "error: no such name\nrun=none proved=no\n")
        ran = self.bin_test()
        self.assertEqual((ran.returncode, ran.stdout.splitlines()[-1]), (1, "6 passed, 5 failed"), ran.stdout)
        for text in ("a message", "no_such_module", "error: no such name"):
            self.assertIn(text, ran.stdout)

    def test_sources_that_are_refused(self) -> None:
        self.tell("refuses")
        ran = self.bin_test()
        self.assertEqual((ran.returncode, ran.stdout), (70, ""))
        self.assertIn("the sources couldn't be compiled", ran.stderr)

    def test_words(self) -> None:
        self.assertEqual(self.bin_test("--help").returncode, 0)
        self.assertEqual(self.bin_test("other").returncode, 2)


class Jobs(unittest.TestCase):
    def job(self, name: str, seconds: float, may_be_left: bool = False) -> Job:
        words = [sys.executable, "-c", f"import time; time.sleep({seconds}); print('said')"]
        return Job(name, words, TOP, lambda status, said: Count(len(said.split()), status), may_be_left)

    def test_they_run_side_by_side(self) -> None:
        # Each waits for all of the others.
        with tempfile.TemporaryDirectory() as folder:
            text = "import os, sys, time\nopen(sys.argv[1], 'w').close()\nwhile len(os.listdir()) < 4: time.sleep(0.05)"
            jobs = [
                Job(name, [sys.executable, "-c", text, name], folder, lambda status, _: Count(1, status))
                for name in ("a", "b", "c", "d")
            ]
            outcomes = run_all(jobs, 4, time.monotonic() + 60, nothing)
        self.assertEqual([it.count for it in outcomes], [Count(1, 0)] * 4)

    def test_no_more_than_there_are_lanes(self) -> None:
        began = time.monotonic()
        run_all([self.job(str(it), 0.5) for it in range(4)], 2, began + 60, nothing)
        self.assertGreaterEqual(time.monotonic() - began, 1)

    def test_at_the_limit_some_are_left(self) -> None:
        began = time.monotonic()
        jobs = [self.job("long", 60, True), self.job("must", 2), self.job("unbegun", 0, True)]
        told: "list[Outcome]" = []
        outcomes = run_all(jobs, 2, began + 1, told.append)
        self.assertLess(time.monotonic() - began, 30)
        self.assertEqual(sorted(it.job.name for it in outcomes if it.count is None), ["long", "unbegun"])
        self.assertEqual([it.job.name for it in outcomes if it.count], ["must"])
        self.assertEqual(told, outcomes)


class Counts(unittest.TestCase):
    def test_modules(self) -> None:
        for said, status, count in (
            ("Ran 3 tests in 0.1s\n\nOK\n", 0, Count(3, 0)),
            ("Ran 3 tests in 0.1s\n\nOK (skipped=2)\n", 0, Count(1, 0, 2)),
            ("Ran 5 tests in 0.1s\n\nFAILED (failures=1, errors=2, skipped=1)\n", 1, Count(1, 3, 1)),
            ("Ran 1 test in 0.1s\n\nFAILED (unexpected successes=1)\n", 1, Count(0, 1)),
            ("Ran 3 tests in 0.1s\n\nOK\na line after it\n", 0, Count(3, 0)),
            # Those that end otherwise than they say, and those that say nothing.
            ("Ran 3 tests in 0.1s\n\nOK\n", 139, Count(0, 1)),
            ("Segmentation fault\n", 139, Count(0, 1)),
            ("", 0, Count(0, 1)),
        ):
            self.assertEqual(count_of_module(status, said), count, said)

    def test_crates(self) -> None:
        for said, status, count in (
            (result(3, 0), 0, Count(3, 0)),
            (result(3, 2), 1, Count(3, 2)),
            (result(3, 0), 4, Count(0, 1)),
            (result(3, 2), 0, Count(0, 1)),
            ("run=none proved=no\n", 2, Count(0, 1)),
        ):
            self.assertEqual(count_of_crate(status, said), count, said)

    def test_the_crates_of_this_checkout(self) -> None:
        names = [it.name for it in crates(TOP)]
        self.assertIn("test_texts", names)
        self.assertIn("test_commands", names)
        self.assertNotIn("byte_lists", names)
        self.assertTrue(all(os.path.isdir(it.folder) and it.may_be_left for it in crates(TOP)))

    def test_long_crates_begin_first_or_last(self) -> None:
        for lanes, at in ((4, 0), (2, -2)):
            names = [it.name for it in in_order(TOP, lanes)]
            self.assertEqual((names[at], names[-1]), ("test_commands", "test_limits"))
            self.assertEqual(len(names), len(set(names)))
            self.assertIn("tests.test_bin_test", names)


if __name__ == "__main__":
    unittest.main()
