"""bin/qwkdoor compiles once where nothing is proved, keeps the program, and becomes it from then on."""

from __future__ import annotations

import os
import shutil
import signal
import subprocess
import time
import unittest
from unittest import mock

from tests.fake_toolchain import PROGRAM, ToolchainCase, write

LINE = "this run isn't proved on this machine"
COMPILING = "compiling the sources without a proof"


class Kept(ToolchainCase):
    def test_the_second_call_compiles_nothing(self) -> None:
        first, second = self.call("scan", "P1"), self.call("scan", "P1")
        self.assertEqual((first.returncode, first.stdout), (0, "1 messages\n"), first.stderr)
        self.assertEqual((second.returncode, second.stdout), (0, "1 messages\n"))
        self.assertEqual((self.compiled(), len(self.kept())), (1, 1))
        self.assertIn(COMPILING, first.stderr)
        self.assertEqual(second.stderr.count("\n"), 1)
        self.assertEqual(
            second.stderr,
            f"qwkdoor: the program isn't built: {LINE}; {self.door} --build proves and builds it\n",
        )
        self.assert_clear()

    def test_it_has_the_callers_words_folder_and_streams(self) -> None:
        # The first call too, which compiles.
        for _ in range(2):
            with self.start("data", "a shelf", "words", "a  b", "", "\udcff*", stdin=subprocess.PIPE) as child:
                said, error = child.communicate("input")
            self.assertEqual(said, f"data\na shelf\nwords\na  b\n\n\udcff*\n{self.top}\ninput\n")
            self.assertTrue(error.endswith("--build proves and builds it\nerror\n") or COMPILING in error)

    def test_it_ends_as_the_program_does(self) -> None:
        for status in (0, 1, 5, 7):
            self.assertEqual(self.call("status", str(status)).returncode, status)
        self.assertEqual(self.call("killed").returncode, -signal.SIGTERM)

    def test_a_closed_pipe_ends_it(self) -> None:
        self.call("scan", "P1")
        with self.start("data", "shelf", "pipe") as child:
            assert child.stdout is not None
            child.stdout.readline()
            child.stdout.close()
            self.assertEqual(child.wait(10), -signal.SIGPIPE)

    def test_only_the_checks_options_are_in_its_environment(self) -> None:
        self.assertEqual(self.call("environment").stdout, "ASAN_OPTIONS=abort_on_error=0:exitcode=70\n")

    def test_what_the_caller_holds_open_stays_open(self) -> None:
        reading, writing = os.pipe()
        os.write(writing, b"held\n")
        os.close(writing)
        os.dup2(reading, 7)
        self.assertEqual(self.call("held", pass_fds=(7,)).stdout, "held\n")
        os.close(reading)
        os.close(7)

    def test_without_standard_streams(self) -> None:
        self.call("scan", "P1")
        for closed in ("<&-", ">&-", "2>&-", "<&- >&- 2>&-"):
            ran = subprocess.run(
                ["sh", "-c", f'"$0" data shelf status 5 {closed}', self.door],
                env=self.environment,
                cwd=self.top,
                capture_output=True,
                check=False,
            )
            self.assertEqual((ran.returncode, ran.stdout), (5, b""), closed)


class Anew(ToolchainCase):
    def test_a_source_or_a_toolchain_that_changed(self) -> None:
        self.call("scan", "P1")
        write(self.path("crates/qwkdoor/src/main.rt"), "fn main() { }\n")
        self.call("scan", "P1")
        self.assertEqual(self.compiled(), 2)
        write(self.path("crates/other/src/lib.rt"), "\n")
        self.call("scan", "P1")
        self.assertEqual(self.compiled(), 3)
        os.utime(self.rt, (1, 1))
        self.call("scan", "P1")
        self.assertEqual(self.compiled(), 4)
        with open(self.rt, encoding="utf-8") as file:
            text = file.read()
        write(self.rt, text.replace("made-up 1", "made-up 2"), 0o755)
        os.utime(self.rt, (1, 1))
        self.call("scan", "P1")
        self.assertEqual((self.compiled(), len(self.kept())), (5, 1))

    def test_what_no_program_is_made_of_may_change(self) -> None:
        self.call("scan", "P1")
        write(self.path("README.md"), "other\n")
        os.utime(self.path("crates/qwkdoor/src/main.rt"), (1, 1))
        self.call("scan", "P1")
        self.assertEqual(self.compiled(), 1)

    def test_a_source_that_changes_meanwhile(self) -> None:
        self.tell("edit")
        ran = self.call("scan", "P1")
        self.assertEqual((ran.returncode, ran.stdout), (70, ""))
        self.assertIn("changed while the sources were compiled: call again", ran.stderr)
        self.assertEqual(self.kept(), [])
        self.assert_clear()

    def test_sources_that_are_refused(self) -> None:
        self.tell("refuses")
        ran = self.call("scan", "P1")
        self.assertEqual((ran.returncode, ran.stdout), (70, ""))
        self.assertIn("rt says: error: no such name\n", ran.stderr)
        self.assertTrue(ran.stderr.endswith("qwkdoor: the sources couldn't be compiled\n"))
        os.unlink(self.state("refuses"))
        self.assertEqual(self.call("scan", "P1").returncode, 0)

    def test_a_program_that_isnt_seen_is_run_by_rt(self) -> None:
        self.tell("elsewhere")
        for count in (2, 4):
            ran = self.call("status", "3")
            self.assertEqual((ran.returncode, self.compiled(), self.kept()), (3, count, []))
        ran = self.call("words")
        self.assertEqual(ran.stdout.splitlines()[:2], [f"{self.top}/data", f"{self.top}/a shelf"])
        self.assertTrue(ran.stderr.endswith("\nerror\n"))
        self.assert_clear()

    def test_a_program_that_reads_otherwise_isnt_kept(self) -> None:
        write(self.state("program"), PROGRAM.replace("scan) echo '1 messages'", "scan) echo '2 messages'"))
        ran = self.call("status", "3")
        self.assertEqual((ran.returncode, self.kept()), (3, []))
        self.assertIn("each call compiles, since the program can't be kept in", ran.stderr)

    def test_without_a_toolchain(self) -> None:
        os.unlink(self.rt)
        paths = [it for it in os.environ["PATH"].split(":") if not os.path.exists(os.path.join(it, "rt"))]
        with mock.patch.dict(os.environ, {"PATH": ":".join(paths)}):
            ran = self.call("scan", "P1")
        self.assertEqual(ran.returncode, 70)
        self.assertIn("the toolchain's command rt isn't in PATH", ran.stderr)


class Stopped(ToolchainCase):
    def until(self, holds: "object") -> None:
        limit = time.monotonic() + 20
        while not holds():  # type: ignore[operator]
            self.assertLess(time.monotonic(), limit)
            time.sleep(0.02)

    def test_two_first_calls_compile_once(self) -> None:
        self.tell("slow")
        calls = [self.start("data", "shelf", "scan", "P1") for _ in range(3)]
        said = [it.communicate() for it in calls]
        self.assertEqual([it[0] for it in said], ["1 messages\n"] * 3)
        self.assertEqual(self.compiled(), 1)
        self.assertEqual(sum("this one waits for it" in it[1] for it in said), 2)

    def test_a_killed_call_keeps_nobody_waiting(self) -> None:
        self.tell("hang")
        with self.start("data", "shelf", "scan", "P1", start_new_session=True) as child:
            self.until(lambda: self.compiled() == 1)
            os.killpg(child.pid, signal.SIGKILL)
        os.unlink(self.state("hang"))
        self.assertEqual(self.kept(), [])
        self.assertEqual(self.call("scan", "P1").returncode, 0)

    def test_a_stopped_call_ends_rt_and_clears_away(self) -> None:
        self.tell("hang")
        for number in (signal.SIGTERM, signal.SIGHUP, signal.SIGINT):
            before = self.compiled()
            with self.start("data", "shelf", "scan", "P1") as child:
                self.until(lambda: self.compiled() > before)
                child.send_signal(number)
                self.assertEqual(child.wait(10), 128 + number)
            self.assert_clear()
            with self.assertRaises(ProcessLookupError):
                os.kill(self.compilers()[-1], 0)

    def test_a_part_that_a_kill_left_is_no_program(self) -> None:
        self.call("scan", "P1")
        kept = self.path(".build/unproved/" + self.kept()[0])
        os.rename(kept, kept + ".new")
        self.assertEqual(self.call("scan", "P1").stdout, "1 messages\n")
        self.assertEqual((self.compiled(), self.kept()), (2, [os.path.basename(kept)]))

    def test_where_nothing_can_be_kept_each_call_compiles(self) -> None:
        write(self.path(".build"), "a file\n")
        for count in (1, 2):
            ran = self.call("status", "5")
            self.assertEqual((ran.returncode, self.compiled()), (5, count))
            self.assertIn("each call compiles, since the program can't be kept in", ran.stderr)
        self.assertEqual(self.call("killed").returncode, 128 + signal.SIGTERM)
        self.assert_clear()


def can_mount() -> bool:
    words = ["unshare", "-m", "mount", "-t", "tmpfs", "none", "/mnt"]
    return subprocess.run(words, capture_output=True, check=False).returncode == 0


@unittest.skipUnless(shutil.which("unshare") and os.geteuid() == 0 and can_mount(), "nothing can be mounted here")
class Mounted(ToolchainCase):
    """A checkout whose `.build` is a file system of its own."""

    def call_over(self, options: str, *words: str) -> "subprocess.CompletedProcess[str]":
        os.makedirs(self.path(".build"), exist_ok=True)
        line = f'mount -t tmpfs -o {options} none "$1" && shift && exec "$@"'
        call = ["unshare", "-m", "sh", "-c", line, "sh", self.path(".build"), self.door, "data", "shelf", *words]
        return subprocess.run(call, env=self.environment, capture_output=True, text=True, check=False)

    def test_where_nothing_may_be_run_written_or_is_left(self) -> None:
        write(self.state("program"), PROGRAM + "#" * 100000)
        for options, reason in (
            ("noexec", "Permission denied"),
            ("ro", "Read-only file system"),
            ("size=64k", "No space left on device"),
        ):
            ran = self.call_over(options, "status", "3")
            self.assertEqual((ran.returncode, ran.stdout), (3, ""), options)
            self.assertIn(f"can't be kept in {self.path('.build/unproved')}: {reason}\n", ran.stderr)
            self.assert_clear()

    def test_it_is_kept_across_file_systems(self) -> None:
        ran = self.call_over("mode=755", "scan", "P1")
        self.assertEqual((ran.returncode, ran.stdout, ran.stderr.count("\n")), (0, "1 messages\n", 2))


class Installing(ToolchainCase):
    def test_an_unproved_program_isnt_installed(self) -> None:
        self.call("scan", "P1")
        place = os.path.join(self.top, "place")
        ran = subprocess.run(
            [self.path("bin/install"), place], env=self.environment, capture_output=True, text=True, check=False
        )
        self.assertEqual((ran.returncode, ran.stdout), (70, ""))
        self.assertTrue(ran.stderr.endswith("install: the program couldn't be built\n"), ran.stderr)
        self.assertEqual([names for _, _, names in os.walk(place) if names], [])
        self.assertEqual(len(self.kept()), 1)


if __name__ == "__main__":
    unittest.main()
