"""What others left, before it is taken: a file, or something else of that name."""

from __future__ import annotations

import os
import stat

NOT_READABLE = "this account may not read it"


def is_file(path: str) -> bool:
    """Tells whether a name is that of a file, and of no folder, link or pipe."""
    return stat.S_ISREG(os.lstat(path).st_mode)


def can_be_taken(path: str) -> bool:
    """Tells whether a file can be read: if not, its owner mends that where it lies. What is no file can be taken."""
    return not is_file(path) or os.access(path, os.R_OK)
