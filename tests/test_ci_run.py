""".ci/run calls bin/test, the gate, and what is checked behind it, and ends as they do."""

from __future__ import annotations

import os
import shutil
import subprocess
import unittest

from tests.fake_toolchain import ToolchainCase, write
from tests.support import TOP

# It sees by the program's path whether it runs before the gate or behind it.
MODULE = """\
import os, unittest

class Case(unittest.TestCase):
    def test_it(self):
        place = "out" if os.environ["QWKDOOR"].endswith("/crates/qwkdoor/out/qwkdoor") else "unproved"
        self.assertFalse(os.path.exists(os.path.join("STATE", f"fails {place}")), f"it fails {place}")
"""


class Gate(ToolchainCase):
    def setUp(self) -> None:
        super().setUp()
        shutil.copytree(os.path.join(TOP, ".ci"), self.path(".ci"))
        text = MODULE.replace("STATE", os.path.dirname(self.state("")))
        for name, it in (("__init__", ""), ("test_one", text), ("gate_checks", text)):
            write(self.path(f"tests/{name}.py"), it)

    def run_gate(self) -> "subprocess.CompletedProcess[str]":
        environment = {**self.environment, "QWKDOOR": "another"}
        return subprocess.run(
            [self.path(".ci/run")], env=environment, capture_output=True, text=True, check=False, cwd=self.top
        )

    def test_all_pass(self) -> None:
        self.tell("proved")
        ran = self.run_gate()
        # The tests come before the gate, whose line is the last one.
        self.assertEqual((ran.returncode, ran.stdout.splitlines()[-2:]), (0, ["1 passed, 0 failed"] * 2), ran.stderr)
        self.assertNotIn("own checks", ran.stderr)

    def test_the_gates_status_comes_first(self) -> None:
        for names in ((), ("fails unproved",)):
            self.tell(*names)
            ran = self.run_gate()
            self.assertEqual((ran.returncode, ran.stdout.splitlines()[-1]), (3, "rt: no proof here"))

    def test_a_test_fails_before_the_gate(self) -> None:
        self.tell("proved", "fails unproved")
        ran = self.run_gate()
        lines = ["0 passed, 1 failed", "1 passed, 0 failed"]
        self.assertEqual((ran.returncode, ran.stdout.splitlines()[-2:]), (1, lines))

    def test_the_checks_fail_behind_the_gate(self) -> None:
        self.tell("proved", "fails out")
        ran = self.run_gate()
        self.assertEqual((ran.returncode, ran.stdout.splitlines()[-1]), (1, "1 passed, 0 failed"))
        # The tests once more, and those of the proved program alone.
        self.assertEqual(ran.stderr.count("own checks: "), 2)
        self.assertIn("it fails out", ran.stderr)


if __name__ == "__main__":
    unittest.main()
