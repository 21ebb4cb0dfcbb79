"""A day that is stopped at each of its steps, by a kill or by a disk that fails, and the days after it."""

from __future__ import annotations

import contextlib
import errno
import io
import os
import re
import shutil
import tempfile
import unittest
from typing import Callable, Iterator, Optional
from unittest import mock

from tests.day_support import archive, letter, received, reply_packet, text_in
from tests.door_model import DoorModel, nothing
from tests.support import MEMORY

from qwkdoor_scripts import durable
from qwkdoor_scripts.callers import Caller
from qwkdoor_scripts.day import Day
from qwkdoor_scripts.failure import Failure

_KILLED = 137
_FAILED = 70
_OLD = ["Old 1", "Old 2", "Old 3"]


class Stage:
    """A caller whose packet was taken away and who has left two archives, and all that he is handed out."""

    def __init__(self) -> None:
        self.top = tempfile.mkdtemp(prefix="steps ", dir=MEMORY)
        self.shelf = os.path.join(self.top, "shelf")
        self.folder = os.path.join(self.shelf, "mail", "ann")
        self.listed = [Caller("Ann Lee", 2, "ann")]
        os.makedirs(os.path.dirname(self.folder))
        self.door = DoorModel("", os.path.join(self.top, "board"), self.shelf)
        self.door.make(["Ann Lee"], _OLD)
        self.now = 1_800_000_000.0
        self.packets: list[bytes] = []
        self.events: list[str] = []
        self.day()
        self.fetch()
        self._send("1.rep", ["Hello", "Bad"])
        self._send("2.rep", ["Bye"])
        self.kept = os.path.join(self.top, "kept")
        shutil.copytree(self.shelf, os.path.join(self.kept, "shelf"))
        shutil.copy(self.door.data, os.path.join(self.kept, "board"))

    def reset(self) -> None:
        """Goes back to the beginning."""
        shutil.rmtree(self.shelf)
        shutil.copytree(os.path.join(self.kept, "shelf"), self.shelf)
        shutil.copy(os.path.join(self.kept, "board"), self.door.data)
        self.packets = self.packets[:1]

    def _send(self, name: str, subjects: list[str]) -> None:
        packet = reply_packet([letter("ANN LEE", "ALL", it) for it in subjects])
        with open(os.path.join(self.folder, "in", name), "wb") as file:
            file.write(archive({"TESTBBS.MSG": packet}))

    def day(self) -> int:
        """Lets a day come to its end."""
        with contextlib.redirect_stderr(io.StringIO()), mock.patch("qwkdoor_scripts.ledger.read", self.door.people):
            return Day(self.door, self.shelf, self.listed, lambda: self.now).run()

    def fetch(self) -> bool:
        """Lets the caller take his packet away."""
        path = os.path.join(self.folder, "out", "TESTBBS.QWK")
        if not os.path.exists(path):
            return False
        with open(path, "rb") as file:
            self.packets.append(file.read())
        os.unlink(path)
        return True

    def finish(self) -> None:
        """Lets days pass until the caller has all."""
        self.day()
        while self.fetch():
            self.day()

    def days_until_stopped(self, stop: Callable[[str, str], None]) -> int:
        """Runs a day whose steps and commands are told to a function, and gives how it ended."""
        durable.before = stop
        self.door.watch = lambda moment: stop("command", moment)
        try:
            return self.day()
        except Failure as failure:
            return failure.status
        except OSError:
            return _FAILED
        finally:
            durable.before = durable._nothing
            self.door.watch = nothing

    def killed_at(self, place: int) -> bool:
        """Kills a day at a step, in a process of its own. False where it has fewer steps."""
        process = os.fork()
        if process == 0:
            with contextlib.suppress(BaseException):
                self.days_until_stopped(_Killer(place))
            os._exit(0)
        return os.waitstatus_to_exitcode(os.waitpid(process, 0)[1]) == _KILLED


class _Killer:
    """Ends the process at the step of a number."""

    def __init__(self, place: int) -> None:
        self.left = place

    def __call__(self, step: str, path: str) -> None:
        self.left -= 1
        if self.left == 0:
            os._exit(_KILLED)


class _Disk:
    """Lets the sync of a number fail, and keeps what came after it."""

    def __init__(self, place: int, code: int) -> None:
        self.left = place
        self.code = code
        self.after: Optional[list[str]] = None

    def __call__(self, step: str, path: str) -> None:
        if self.after is not None:
            self.after.append(f"{step} {path}")
        self.left -= step in ("fsync", "write")
        if self.left == 0 and self.after is None:
            self.after = []
            raise OSError(self.code, os.strerror(self.code), path)


@contextlib.contextmanager
def _stage() -> Iterator[Stage]:
    made = Stage()
    try:
        yield made
    finally:
        shutil.rmtree(made.top)


# What is done, as the first of its kind, and what was synced before it, in this order: the table of `day`.
_ORDER = (
    ("command before upload", "rename work/ID.rep", "fsync in", "fsync work", "fsync work/ID.rep"),
    ("command before upload", "fsync work/msg"),
    ("command before upload", "fsync work/allowance.new", "rename work/allowance", "fsync work"),
    ("rename kept/ID.rep", "command after upload", "fsync kept/ID.txt", "fsync kept"),
    ("rename kept/ID.rep", "fsync work/ID.news.new", "rename work/ID.news", "fsync work"),
    ("command before ack", "fsync out", "fsync work"),
    ("command before export", "command after ack", "rename work/seen", "fsync work"),
    ("rename work/number", "fsync work/packet.new", "rename work/packet", "fsync work", "fsync work/number.new"),
    ("rename out/TESTBBS.QWK", "rename work/number", "fsync work/packet", "fsync work/number", "fsync work", "fsync "),
    ("unlink work/ID.news", "rename work/number", "fsync work"),
)


class StepsOfADay(unittest.TestCase):
    """A day that ends at each of its steps."""

    def _look(self, stage: Stage, place: int) -> None:
        """Looks at what has become of the letters, the packets, the news and the files."""
        with self.subTest(place=place):
            self.assertEqual([*_OLD, "Hello", "Bye"], stage.door.board()["subjects"])
            had = [subject for packet in stage.packets for _, _, subject in received(packet)]
            self.assertEqual([*_OLD, "Hello", "Bye"], had)
            news = "".join(text_in(packet, "NEWS") for packet in stage.packets)
            self.assertEqual((1, 1), (news.count("-0001)"), news.count("-0002)")))
            self.assertEqual(2, news.count("1 posted, "))
            kept = sorted(name[-9:] for name in os.listdir(os.path.join(stage.folder, "kept")))
            self.assertEqual(["-0001.rep", "-0001.txt", "-0002.rep", "-0002.txt"], [name for name in kept])
            left = sorted(os.listdir(os.path.join(stage.folder, "work")) + os.listdir(os.path.join(stage.folder, "in")))
            self.assertEqual(["allowance", "seen"], left)

    def test_what_is_synced_before_what(self) -> None:
        events: list[str] = []

        def keep(step: str, path: str) -> None:
            name = path if step == "command" else os.path.relpath(path, stage.folder).lstrip(".")
            events.append(f"{step} {re.sub('2027[-0-9TZ]+', 'ID', name)}")

        with _stage() as stage:
            os.remove(os.path.join(stage.folder, "in", "2.rep"))
            stage.days_until_stopped(keep)
        for act, *before in _ORDER:
            rest = iter(events[: events.index(act)])
            missing = [event for event in before if event not in rest]
            self.assertEqual([], missing, f"{act} comes without, or before: {events}")

    def test_a_kill_at_each_step_loses_nothing_and_doubles_nothing(self) -> None:
        with _stage() as stage:
            place = 1
            while stage.killed_at(place):
                stage.finish()
                self._look(stage, place)
                stage.reset()
                place += 1
            self.assertGreater(place, 60)

    def test_an_upload_that_midnight_cut_short_is_told_as_it_was(self) -> None:
        with _stage() as stage:
            place = 1
            while stage.killed_at(place):
                stage.now += 86_400
                stage.finish()
                news = "".join(text_in(packet, "NEWS") for packet in stage.packets)
                self.assertEqual((2, 0), (news.count("1 posted, "), news.count("it came before")), place)
                stage.reset()
                stage.now -= 86_400
                place += 1

    def test_a_second_kill_at_the_same_step_does_neither(self) -> None:
        with _stage() as stage:
            place = 1
            while stage.killed_at(place):
                stage.killed_at(place)
                stage.finish()
                self._look(stage, place)
                stage.reset()
                place += 3

    def test_a_sync_that_fails_is_a_failure_behind_which_nothing_is_done(self) -> None:
        with _stage() as stage:
            place = 1
            while self._has_failed(stage, _Disk(place, errno.ENOSPC if place % 2 else errno.EIO)):
                stage.finish()
                self._look(stage, place)
                stage.reset()
                place += 1
            self.assertGreater(place, 25)

    def _has_failed(self, stage: Stage, disk: _Disk) -> bool:
        """Runs a day on a disk that fails, behind which nothing may come. False where the day has fewer syncs."""
        status = stage.days_until_stopped(disk)
        if disk.after is not None:
            self.assertEqual((_FAILED, []), (status, disk.after))
        return disk.after is not None


if __name__ == "__main__":
    unittest.main()
