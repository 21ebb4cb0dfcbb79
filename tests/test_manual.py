"""The examples of the man page qwkdoor(5) are files that the program takes."""

from __future__ import annotations

import os
import re
import subprocess
import tempfile
import unittest

from tests.support import PROGRAM, TOP, needs_program


def examples() -> list[str]:
    """Gives the literal blocks of the page as texts."""
    with open(os.path.join(TOP, "docs/qwkdoor.5"), encoding="ascii") as file:
        blocks = re.findall(r"^\.Bd -literal\n(.*?)^\.Ed$", file.read(), re.DOTALL | re.MULTILINE)
    return [re.sub(r"^\\&", "", block, flags=re.MULTILINE).replace("\\(dq", '"') for block in blocks]


@needs_program
class Examples(unittest.TestCase):
    def test_the_program_takes_them(self) -> None:
        setup, sheet, lists = examples()
        with tempfile.TemporaryDirectory() as folder:
            shelf = os.path.join(folder, "shelf")
            os.mkdir(shelf)
            users = re.findall(r'^("[^"]*") [0-9]+ [a-z]+', lists, re.MULTILINE)
            self.assertEqual(len(users), 2)
            batch = "init setup\n" + "".join(f"enroll {it} n all\n" for it in users) + "import 0 sheet\n"
            for name, text in (("setup", setup), ("sheet", sheet), ("batch", batch)):
                with open(os.path.join(shelf, name), "w", encoding="ascii") as file:
                    file.write(text)
            words = [PROGRAM, os.path.join(folder, "board"), shelf, "batch", "batch"]
            ran = subprocess.run(words, capture_output=True, text=True, check=False)
        said = "made 3 conferences\nuser 1 Sam Sysop\nuser 2 Ann Lee\nimported 1 into 0\n"
        self.assertEqual((ran.returncode, ran.stdout), (0, said))
        names = {line.split()[-1] for line in setup.splitlines() if line.startswith("conference:")}
        area = re.search(r"^[A-Z.]+ ([A-Z]+)$", lists, re.MULTILINE)
        self.assertIsNotNone(area)
        self.assertIn(area.group(1) if area else "", names)


if __name__ == "__main__":
    unittest.main()
