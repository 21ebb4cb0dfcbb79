"""A copy of this checkout, and what it installs."""

from __future__ import annotations

import os
import shutil
import subprocess
import tempfile

from tests.support import PROGRAM, TOP

INSTALLED = ("bin", "docs", "packaging", "README.md", "CHANGELOG.md", "crates.txt", "crates/qwkdoor/data")


def copy_checkout(checkout: str) -> None:
    """Copies what is installed of this checkout, with the program as its build would leave it."""
    for name in INSTALLED:
        source, target = os.path.join(TOP, name), os.path.join(checkout, name)
        os.makedirs(os.path.dirname(target), exist_ok=True)
        if os.path.isdir(source):
            shutil.copytree(source, target)
        else:
            shutil.copy2(source, target)
    os.mkdir(os.path.join(checkout, ".build"))
    shutil.copyfile(PROGRAM, os.path.join(checkout, ".build/qwkdoor"))
    os.chmod(os.path.join(checkout, ".build/qwkdoor"), 0o755)


def install_copy(prefix: str) -> None:
    """Installs this checkout below a folder, which needs the checkout no more then."""
    with tempfile.TemporaryDirectory() as folder:
        checkout = os.path.join(folder, "checkout")
        copy_checkout(checkout)
        subprocess.run(
            [os.path.join(checkout, "bin/install"), prefix, "DESTDIR=/"], check=True, capture_output=True, cwd=folder
        )
