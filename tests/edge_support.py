"""What tests of the edge share: a board of one user and one letter, and runs beside which calls of the system fail."""

from __future__ import annotations

import os
import shutil
import subprocess
import tempfile
import unittest
from typing import Optional, Sequence

from tests.support import PROGRAM, SHELF, needs_program

SECONDS = 60
# The account of nobody, who owns nothing.
NOBODY = 65534

Ran = subprocess.CompletedProcess[str]


def ends_well(words: Sequence[str]) -> bool:
    """Whether a program is there, and ends with 0."""
    try:
        return subprocess.run(words, stderr=subprocess.DEVNULL, check=False).returncode == 0
    except OSError:
        return False


as_root = unittest.skipUnless(os.geteuid() == 0, "it needs root")
by_strace = unittest.skipUnless(ends_well(["strace", "-qq", "-o", os.devnull, "true"]), "strace is missing or may not trace")
by_mount = unittest.skipUnless(
    os.geteuid() == 0 and ends_well(["unshare", "-m", "sh", "-c", "mount --bind / /mnt"]), "no folder can be mounted here"
)


def failing(*paths: str, **calls: str) -> list[str]:
    """The words before a run of which these calls on the paths fail, each by its error, as in `fsync="EIO:when=1"`."""
    line = ["strace", "-qq", "-o", os.devnull]
    for path in paths:
        line += ["-P", path]
    for call, error in calls.items():
        line += ["-e", f"inject={call}:error={error}"]
    return line


def alone(script: str) -> list[str]:
    """The words before a run that comes after this script, with mounts that nobody else sees."""
    return ["unshare", "-m", "sh", "-c", f'{script} && exec "$@"', "sh"]


@needs_program
class EdgeCase(unittest.TestCase):
    """A test with a board of one user and one letter, and a shelf, in a folder of their own that everybody may enter."""

    def setUp(self) -> None:
        # Scripts that ran in this process keep a umask of their own.
        self.addCleanup(os.umask, os.umask(0o022))
        self.top = tempfile.mkdtemp()
        self.addCleanup(shutil.rmtree, self.top, ignore_errors=True)
        os.chmod(self.top, 0o755)
        self.program = self.at("qwkdoor")
        shutil.copyfile(PROGRAM, self.program)
        os.chmod(self.program, 0o755)
        self.data = self.at("data")
        self.shelf = self.at("shelf")
        shutil.copytree(SHELF, self.shelf)
        for words in (["init", "setup.txt"], ["enroll", "Ann Lee", "n", "all"], ["import", "0", "hello.txt"]):
            self.assertEqual(self.door(*words).returncode, 0, words)

    def door(
        self, *words: str, before: Sequence[str] = (), data: str = "", shelf: str = "", user: Optional[int] = None
    ) -> Ran:
        """A run of the program, behind the words of another that starts it."""
        line = [*before, self.program, data or self.data, shelf or self.shelf, *words]
        return subprocess.run(
            line, stdin=subprocess.DEVNULL, capture_output=True, text=True, timeout=SECONDS, user=user, check=False
        )

    def export(self, folder: str = "out", before: Sequence[str] = ()) -> Ran:
        """A run that exports Ann's packet to a folder."""
        return self.door("export", "Ann Lee", "10", folder, before=before)

    def expect(self, run: Ran, status: int, words: str = "") -> None:
        """The status of a run, and words of what it said on standard error."""
        self.assertEqual(run.returncode, status, run.stdout + run.stderr)
        self.assertIn(words, run.stderr)

    def expect_of(self, run: Ran, status: int, path: str) -> None:
        """The status of a run, and the path that a line of standard error is on."""
        self.expect(run, status)
        self.assertTrue(any(line.startswith(f"{path}: ") for line in run.stderr.splitlines()), run.stderr)

    def expect_goes_on(self) -> None:
        """Nothing keeps the next run out."""
        self.expect(self.door("check"), 0)

    def at(self, *names: str) -> str:
        """A path below the folder of the test."""
        return os.path.join(self.top, *names)

    def files(self) -> dict[str, bytes]:
        """The files of the board, but for the lock."""
        files: dict[str, bytes] = {}
        for name in os.listdir(self.data):
            if name != "LOCK":
                with open(self.at("data", name), "rb") as file:
                    files[name] = file.read()
        return files
