"""What the tests share: where the checkout is, and the program that they call."""

from __future__ import annotations

import os
import signal
import unittest
from typing import Optional

TOP = os.path.dirname(os.path.dirname(os.path.realpath(__file__)))
PROGRAM = os.environ.get("QWKDOOR", "")
SHELF = os.path.join(TOP, "crates/qwkdoor/data/shelf")


def _memory() -> Optional[str]:
    """Gives a folder that is in memory, in which a sync takes no time and programs run. None where there is none."""
    folder = "/dev/shm"
    is_fit = os.access(folder, os.W_OK) and not os.statvfs(folder).f_flag & os.ST_NOEXEC
    return folder if is_fit else None


# That a sync happens is looked at by `durable.before`.
MEMORY = _memory()

needs_program = unittest.skipUnless(PROGRAM, "QWKDOOR in the environment names no program")

# A shell that starts the tests in the background, and nohup, have them ignore signals that some of them send.
if signal.getsignal(signal.SIGINT) == signal.SIG_IGN:
    signal.signal(signal.SIGINT, signal.default_int_handler)
if signal.getsignal(signal.SIGHUP) == signal.SIG_IGN:
    signal.signal(signal.SIGHUP, signal.SIG_DFL)
