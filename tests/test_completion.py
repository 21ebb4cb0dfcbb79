"""What bash completes are the commands, the words and the options of the pages that --help prints."""

from __future__ import annotations

import os
import re
import shutil
import subprocess
import tempfile
import unittest

from tests.support import SHELF, TOP

# Has the function of a command complete the last of the words, as bash does at a tab.
DRIVER = r"""
. packaging/completion.bash
COMP_WORDS=("$@")
COMP_CWORD=$(($# - 1))
if ! found=$(complete -p "$1" 2>/dev/null); then found=$(complete -p "${1##*/}") || exit; fi
found=${found#*-F }
"${found%% *}" "$1" "${COMP_WORDS[COMP_CWORD]}" "${COMP_WORDS[COMP_CWORD - 1]}"
[ "${#COMPREPLY[@]}" -eq 0 ] || printf '%s\n' "${COMPREPLY[@]}"
"""


def page_of(command: str) -> list[str]:
    ran = subprocess.run([command, "--help"], capture_output=True, text=True, check=True, cwd=TOP)
    return ran.stdout.splitlines()


def options_of(command: str) -> set[str]:
    """Gives the options at the front of a page's lines."""
    heads = [re.match(r" {0,2}(-[-a-z]+)(?:, (-[-a-z]+))?(?: |$)", line) for line in page_of(command)]
    return {word for head in heads if head for word in head.groups() if word}


def scripts() -> list[str]:
    names = sorted(os.listdir(os.path.join(TOP, "bin")))
    return ["bin/" + name for name in names if name.startswith("qwkdoor-")] + ["bin/install"]


@unittest.skipUnless(shutil.which("bash"), "bash isn't here")
class Completion(unittest.TestCase):
    def complete(self, *words: str) -> list[str]:
        ran = subprocess.run(
            ["bash", "-c", DRIVER, "driver", *words], capture_output=True, text=True, check=False, cwd=TOP
        )
        self.assertEqual(ran.stderr, "")
        return sorted(ran.stdout.splitlines())

    def test_the_commands_of_the_page(self) -> None:
        lines = page_of("bin/qwkdoor")
        inside = lines[lines.index("commands:") + 1 : lines.index("status:")]
        wanted = sorted({it.split()[0] for it in inside if re.match("  [a-z]", it)})
        self.assertIn("export", wanted)
        self.assertEqual(self.complete("bin/qwkdoor", "/tmp", "/tmp", ""), wanted)
        self.assertEqual(self.complete("bin/qwkdoor", "--help", ""), wanted)

    def test_the_options_of_the_pages(self) -> None:
        for command in ["bin/qwkdoor", *scripts()]:
            wanted = options_of(command)
            self.assertIn("--help", wanted, command)
            self.assertEqual(set(self.complete(command, "-")), wanted, command)

    def test_a_script_of_each_name_is_completed(self) -> None:
        with open(os.path.join(TOP, "packaging/completion.bash"), encoding="ascii") as file:
            completed = {word for line in file if line.startswith("complete ") for word in line.split()[3:]}
        self.assertLessEqual({"qwkdoor", "bin/install"}, completed)
        self.assertLessEqual({it.replace("bin/qwkdoor", "qwkdoor") for it in scripts()}, completed)

    def test_the_words_of_a_command(self) -> None:
        with tempfile.TemporaryDirectory() as folder:
            shelf = os.path.join(folder, "files")
            shutil.copytree(SHELF, shelf)
            os.mkdir(os.path.join(shelf, "mail"))
            with open(os.path.join(shelf, "mail/callers"), "w", encoding="ascii") as file:
                file.write('"Ann Lee" 2000 ann\n# "Cy Day" 5 cy\n"Bob Ray" 100 bob\n')
            door = ("bin/qwkdoor", "/tmp", shelf)
            for words, wanted in (
                (("import", "7", "fo"), ["forty.txt"]),
                (("import", ""), []),
                (("read", "o"), ["out"]),
                (("list", "out/"), ["out/CONTROL.DAT", "out/MESSAGES.DAT"]),
                (("adopt", "7", "ol"), ["old"]),
                (("ack", "A"), ["Ann\\ Lee"]),
                (("export", "Ann Lee", "5", "o"), ["out"]),
                (("enroll", "Cy", ""), ["-", "n"]),
                (("enroll", "Cy", "n", ""), ["all"]),
                (("reply", "out", "1", "th"), ["thanks.txt"]),
                (("pack", "7", ""), []),
            ):
                self.assertEqual(self.complete(*door, *words), wanted, words)

    def test_the_folders_of_the_callers(self) -> None:
        with tempfile.TemporaryDirectory() as folder:
            os.makedirs(os.path.join(folder, "a shelf/mail"))
            with open(os.path.join(folder, "a shelf/mail/callers"), "w", encoding="ascii") as file:
                file.write('"Ann Lee" 2000 ann\n# "Cy Day" 5 cy\n"Bob Ray"100\tbob 20 5000\r\n  "Al Fa" 5 al.1-a\n')
            words = ("bin/qwkdoor-day", "/tmp", os.path.join(folder, "a shelf"), "--caller")
            self.assertEqual(self.complete(*words, ""), ["al.1-a", "ann", "bob"])
            self.assertEqual(self.complete(*words, "a"), ["al.1-a", "ann"])
            self.assertEqual(self.complete("bin/qwkdoor-day", "--caller", "a"), [])

    def test_what_follows_an_option_is_no_path(self) -> None:
        self.assertEqual(self.complete("bin/qwkdoor-day", "-w", ""), [])
        self.assertIn("bin", self.complete("bin/qwkdoor-day", "bi"))
        self.assertIn("README.md", self.complete("bin/qwkdoor-read", "READ"))


if __name__ == "__main__":
    unittest.main()
