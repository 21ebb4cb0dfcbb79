"""bin/install puts a checkout in place, which runs without it, and takes it away again."""

from __future__ import annotations

import os
import shutil
import stat
import subprocess
import tempfile
import unittest

from tests.installed import copy_checkout
from tests.support import MEMORY, needs_program

def below(folder: str) -> list[str]:
    """Gives the names of all files below a folder, links among them."""
    return sorted(os.path.relpath(os.path.join(at, it), folder) for at, _, names in os.walk(folder) for it in names)


@needs_program
class Installation(unittest.TestCase):
    def setUp(self) -> None:
        self.folder = tempfile.mkdtemp(dir=MEMORY)
        self.addCleanup(shutil.rmtree, self.folder)
        # A blank, since nothing may rest on the names.
        self.place = os.path.join(self.folder, "a place")
        self.checkout = os.path.join(self.folder, "a checkout")
        copy_checkout(self.checkout)

    def run_of(self, *words: str, **environment: str) -> subprocess.CompletedProcess[str]:
        kept = {name: value for name, value in os.environ.items() if name not in ("PREFIX", "DESTDIR", "QWKDOOR")}
        return subprocess.run(
            words, env={**kept, **environment}, capture_output=True, text=True, check=False, cwd=self.folder
        )

    def install(self, *words: str, **environment: str) -> subprocess.CompletedProcess[str]:
        return self.run_of(os.path.join(self.checkout, "bin/install"), *words, **environment)

    def test_what_is_installed_runs_without_the_checkout(self) -> None:
        self.assertEqual(self.install(self.place).returncode, 0)
        shutil.rmtree(self.checkout)
        shelf = os.path.join(self.folder, "files")
        shutil.copytree(os.path.join(self.place, "share/qwkdoor/shelf"), shelf)
        door = (os.path.join(self.place, "bin/qwkdoor"), os.path.join(self.folder, "board"), shelf)
        # As docs/SESSIONS.md shows it: these need all files of the shelf.
        for words, reply in (
            (("init", "setup.txt"), "made 3 conferences"),
            (("adopt", "7", "old"), "1 posted 7 1\n2 posted 7 2\nposted 2 refused 0"),
            (("toss", "fido.pkt"), "1 posted 1 1\n2 refused area\nposted 1 refused 1"),
        ):
            self.assertEqual(self.run_of(*door, *words).stdout.rstrip("\n"), reply)
        self.assertEqual(self.run_of(door[0], "--version").stdout, "qwkdoor 2.0\n")
        self.assertEqual(self.run_of(door[0], "--build").returncode, 70)

    def test_each_command_has_its_page_and_runs(self) -> None:
        self.install(self.place)
        for name in os.listdir(os.path.join(self.place, "bin")):
            ran = self.run_of(os.path.join(self.place, "bin", name), "--help")
            self.assertTrue(ran.stdout.startswith("usage: " + name), name)
            self.assertTrue(os.path.isfile(os.path.join(self.place, "share/man/man1", name + ".1")), name)
            completion = os.path.join(self.place, "share/bash-completion/completions", name)
            self.assertTrue(os.path.isfile(completion), name)
        self.assertTrue(os.path.isfile(os.path.join(self.place, "share/man/man5/qwkdoor.5")))
        readme = os.path.join(self.place, "share/doc/qwkdoor/README.md")
        self.assertTrue(os.path.isfile(os.path.join(os.path.dirname(readme), "docs/RECIPES.md")))

    def test_all_is_taken_away_again(self) -> None:
        self.install("PREFIX=" + self.place)
        gone = self.install("--uninstall", self.place)
        self.assertEqual((gone.returncode, gone.stderr), (0, ""))
        self.assertFalse(os.path.exists(self.place))

    def test_what_others_have_put_there_stays(self) -> None:
        os.makedirs(os.path.join(self.place, "share/man"))
        self.install(self.place)
        own = os.path.join(self.place, "share/qwkdoor/shelf/mine.txt")
        with open(own, "w", encoding="ascii") as file:
            file.write("mine\n")
        said = self.install("--uninstall", self.place).stdout
        self.assertEqual(below(self.place), ["share/qwkdoor/shelf/mine.txt"])
        self.assertTrue(os.path.isdir(os.path.join(self.place, "share/man")))
        self.assertIn(f"left {os.path.dirname(own)}, which has other files\n", said)

    def test_a_new_version_takes_the_files_of_the_old_one_away(self) -> None:
        old = os.path.join(self.checkout, "docs/OLD.md")
        shutil.copyfile(os.path.join(self.checkout, "docs/GLOSSARY.md"), old)
        self.install(self.place)
        os.unlink(old)
        placed = os.path.join(self.place, "share/doc/qwkdoor/docs/OLD.md")
        self.assertTrue(os.path.exists(placed))
        self.assertEqual(self.install(self.place).returncode, 0)
        self.assertFalse(os.path.exists(placed))
        self.install("--uninstall", self.place)
        self.assertFalse(os.path.exists(self.place))

    def test_a_package_is_staged(self) -> None:
        stage = os.path.join(self.folder, "stage")
        self.assertEqual(self.install(PREFIX="/usr", DESTDIR=stage).returncode, 0)
        self.assertEqual(os.listdir(stage), ["usr"])
        with open(os.path.join(stage, "usr/lib/systemd/system/qwkdoor-day.service"), encoding="ascii") as file:
            self.assertIn('\nExecStart="/usr/bin/qwkdoor-day" ', file.read())
        files = below(stage)
        self.assertNotIn("usr/share/qwkdoor/installed", files)
        # What a checkout alone needs stays there, and so does a program that nothing has proved.
        self.assertEqual([it for it in files if "checkout" in it or "unproved" in it], [])
        for name in files:
            path = os.path.join(stage, name)
            wanted = 0o755 if name.split("/")[1] in ("bin", "libexec") else 0o644
            self.assertEqual(stat.S_IMODE(os.stat(path).st_mode), wanted, name)
            with open(path, "rb") as opened:
                self.assertNotIn(os.fsencode(stage), opened.read(), name)
        self.assertEqual(self.install("--uninstall", PREFIX="/usr", DESTDIR=stage).returncode, 0)
        self.assertEqual(os.listdir(stage), [])

    def test_wrong_words_and_places(self) -> None:
        for words in (("a", "b"), ("--other",), ("",), ("PREFIX=a", "b"), ("DESTDIR=",), ("--uninstall", "--help")):
            self.assertEqual(self.install(*words).returncode, 2, words)
        for words, line in (
            ((self.checkout,), f"install: {self.checkout} is a checkout\n"),
            (("--uninstall", self.place), f"install: {self.place} isn't there\n"),
        ):
            ran = self.install(*words)
            self.assertEqual((ran.returncode, ran.stderr), (70, line))
        os.makedirs(os.path.join(self.place, "elsewhere"))
        os.symlink("elsewhere", os.path.join(self.place, "bin"))
        self.assertIn("leads elsewhere", self.install(self.place).stderr)
        self.assertEqual(below(self.place), [])

    @unittest.skipUnless(shutil.which("systemd-analyze"), "systemd-analyze isn't here")
    def test_the_service_is_one(self) -> None:
        self.install(self.place)
        units = os.path.join(self.place, "lib/systemd/system")
        paths = [os.path.join(units, "qwkdoor-day." + it) for it in ("service", "timer")]
        found = self.run_of("systemd-analyze", "verify", "--man=no", *paths)
        about_ours = [line for line in found.stderr.splitlines() if "qwkdoor" in line]
        self.assertEqual((found.returncode, about_ours), (0, []))
        ran = self.run_of("systemd-analyze", "security", "--offline=yes", "--threshold=15", paths[0])
        self.assertEqual(ran.returncode, 0, ran.stdout[-200:])

    def example(self, name: str) -> str:
        """Gives the path of a file for /etc, with a folder of the test in place of /srv and root for board."""
        with open(os.path.join(self.place, "share/qwkdoor", name), encoding="ascii") as file:
            text = file.read().replace("/srv", self.folder + "/srv").replace("board board", "root root")
        path = os.path.join(self.folder, name)
        with open(path, "w", encoding="ascii") as file:
            file.write(text)
        return path

    @unittest.skipUnless(shutil.which("logrotate") and os.geteuid() == 0, "no logrotate for root")
    def test_the_log_is_rotated(self) -> None:
        self.install(self.place)
        mail = os.path.join(self.folder, "srv/shelf/mail")
        os.makedirs(mail, 0o700)
        with open(os.path.join(mail, "log"), "w", encoding="ascii") as file:
            file.write("a line\n")
        ran = self.run_of("logrotate", "-f", "-s", os.path.join(self.folder, "state"), self.example("logrotate.conf"))
        self.assertEqual((ran.returncode, ran.stderr), (0, ""))
        self.assertEqual(os.listdir(mail), ["log.1.gz"])

    @unittest.skipUnless(shutil.which("systemd-tmpfiles") and os.geteuid() == 0, "no systemd-tmpfiles for root")
    def test_the_folders_are_made(self) -> None:
        self.install(self.place)
        ran = self.run_of("systemd-tmpfiles", "--create", self.example("tmpfiles.conf"))
        self.assertEqual((ran.returncode, ran.stderr), (0, ""))
        modes = {it.name: stat.S_IMODE(it.stat().st_mode) for it in os.scandir(os.path.join(self.folder, "srv"))}
        self.assertEqual(modes, {"board": 0o700, "shelf": 0o700, "copies": 0o700})


if __name__ == "__main__":
    unittest.main()
