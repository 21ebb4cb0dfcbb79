"""The man pages, the shell scripts, and what the documents promise of sizes."""

from __future__ import annotations

import glob
import os
import re
import shutil
import subprocess
import sys
import tempfile
import unittest

from tests.support import TOP

SCRIPTS = ("qwkdoor-day", "qwkdoor-read", "qwkdoor-toss", "qwkdoor-upkeep")


def text_of(name: str) -> str:
    with open(os.path.join(TOP, name), encoding="utf-8") as file:
        return file.read()


def paths(pattern: str) -> "list[str]":
    """Gives the files of the checkout that a pattern names, at least one."""
    found = sorted(os.path.relpath(it, TOP) for it in glob.glob(os.path.join(TOP, pattern)))
    assert found, f"there is no {pattern}"
    return found


def run(*words: str) -> "subprocess.CompletedProcess[str]":
    return subprocess.run(words, capture_output=True, text=True, check=False, cwd=TOP)


class Manuals(unittest.TestCase):
    def found_in(self, page: str) -> str:
        """Gives the warnings of a page's formatter, if one is here."""
        if shutil.which("mandoc"):
            return run("mandoc", "-T", "lint", "-W", "warning", page).stdout
        if shutil.which("man"):
            return run("man", "--warnings", "-l", page).stderr
        self.skipTest("neither mandoc nor man is here")

    def test_they_read_without_a_warning(self) -> None:
        for page in paths("docs/*.[15]"):
            self.assertEqual(self.found_in(page), "", page)

    def test_each_script_has_the_options_and_statuses_of_its_usage(self) -> None:
        self.assertEqual([f"docs/{it}.1" for it in SCRIPTS], paths("docs/qwkdoor-*.1"))
        for name in SCRIPTS:
            usage, manual = run(os.path.join("bin", name), "--help").stdout, text_of(f"docs/{name}.1")
            shown = re.findall(r"^(-[-a-z]*) ", usage, re.MULTILINE)
            shown += re.findall(r"^ {1,2}([0-9]+(?: to [0-9])?) ", usage, re.MULTILINE)
            written = ["--" + it for it in re.findall(r"^\.It Fl -([-a-z]*)", manual, re.MULTILINE)]
            written += ["-" + it for it in re.findall(r"^\.It Fl ([a-z])", manual, re.MULTILINE)]
            written += re.findall(r"^\.It ([0-9].*)", manual, re.MULTILINE)
            self.assertEqual(sorted(shown), sorted(written), name)
            self.assertIn("--help", shown, name)


class ShellScripts(unittest.TestCase):
    def test_they_are_shell_scripts(self) -> None:
        names = paths("bin/*") + paths("bench/*") + paths(".ci/run")
        files = [it for it in names if os.path.isfile(os.path.join(TOP, it))]
        scripts = [it for it in files if text_of(it).startswith("#!/bin/sh")]
        self.assertIn("bin/qwkdoor", scripts)
        for name in scripts:
            self.assertEqual(run("sh", "-n", name).returncode, 0, name)
            if shutil.which("shellcheck"):
                self.assertEqual(run("shellcheck", "-s", "sh", "-S", "warning", name).stdout, "", name)


class Definitions(unittest.TestCase):
    def test_the_page_is_that_of_the_specs(self) -> None:
        self.assertEqual(run(sys.executable, "docs/reading_order.py").stdout, text_of("docs/DEFINITIONS.md"))


class Pictures(unittest.TestCase):
    def test_they_are_those_that_are_drawn(self) -> None:
        drawn = tempfile.mkdtemp()
        self.addCleanup(shutil.rmtree, drawn)
        self.assertEqual(run(sys.executable, "docs/pictures.py", drawn).returncode, 0)
        self.assertEqual([os.path.basename(it) for it in paths("docs/pictures/*")], sorted(os.listdir(drawn)))
        for name in os.listdir(drawn):
            with open(os.path.join(drawn, name), encoding="utf-8") as file:
                self.assertEqual(file.read(), text_of(f"docs/pictures/{name}"), name)


class Sizes(unittest.TestCase):
    def test_readme_has_at_most_120_lines(self) -> None:
        self.assertLessEqual(len(text_of("README.md").splitlines()), 120)

    def test_the_examples_of_the_library_are_short(self) -> None:
        page = text_of("docs/LIBRARY.md")
        for name in paths("crates/example_*/src/main.rt"):
            self.assertLess(len(text_of(name).splitlines()), 60, name)
            self.assertIn(name, page)

    def test_crates_txt_has_at_most_300_000_paths(self) -> None:
        # The gate sums files once for each path that leads down crates.txt (docs/PERFORMANCE.md).
        ran = run(sys.executable, "bench/paths.py", "--limit", "300000")
        self.assertEqual(ran.returncode, 0, ran.stdout + ran.stderr)


if __name__ == "__main__":
    unittest.main()
