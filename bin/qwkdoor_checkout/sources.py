"""Of which sources, and by which toolchain, a program was compiled: one sum of all of it."""

from __future__ import annotations

import hashlib
import os
import shutil
import subprocess
from typing import Iterator

from qwkdoor_scripts.failure import Failure


def _toolchain() -> "tuple[str, subprocess.Popen[bytes]]":
    """Gives where the command rt is, with its time and size, and asks it for its version."""
    found = shutil.which("rt")
    if found is None:
        raise Failure("the toolchain's command rt isn't in PATH")
    path = os.path.realpath(found)
    stat = os.stat(path)
    asked = subprocess.Popen(
        [found, "version"], stdin=subprocess.DEVNULL, stdout=subprocess.PIPE, stderr=subprocess.DEVNULL
    )
    return f"{path} {stat.st_mtime_ns} {stat.st_size}", asked


def _sources(top: str) -> Iterator[str]:
    """Gives the names of the files that a program is compiled of, in order. A compiler reads no spec and no proof."""
    yield "crates.txt"
    for crate in sorted(os.listdir(os.path.join(top, "crates"))):
        for at, folders, names in os.walk(os.path.join(top, "crates", crate, "src")):
            folders.sort()
            yield from (os.path.relpath(os.path.join(at, name), top) for name in sorted(names))


def sum_of(top: str) -> str:
    """Gives the sum of a checkout's sources and of the toolchain. Failure where there is no toolchain."""
    place, asked = _toolchain()
    whole = hashlib.sha256()
    for name in _sources(top):
        with open(os.path.join(top, name), "rb") as file:
            # A sum for each file, since names and bytes could else run into one another.
            whole.update(os.fsencode(name) + b"\0" + hashlib.sha256(file.read()).digest())
    version = asked.communicate()[0]
    whole.update(os.fsencode(place) + b"\0" + version)
    return whole.hexdigest()
