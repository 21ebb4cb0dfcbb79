"""What a hostile caller can leave: archives and folders. The others are served."""

from __future__ import annotations

import contextlib
import errno
import io
import os
import shutil
import struct
import tempfile
import unittest
import zipfile
from typing import Callable, Iterator
from unittest import mock

from tests.day_support import archive, letter, reply_packet
from tests.door_model import DoorModel
from tests.support import MEMORY

from qwkdoor_scripts import durable
from qwkdoor_scripts.callers import Caller
from qwkdoor_scripts.day import Day

_GOOD = reply_packet([letter("BOB RAY", "ALL", "Hello")])
_ARCHIVE = archive({"TESTBBS.MSG": _GOOD})


class Place:
    """A board in memory with the callers Ann, Bob and Cy, of whom Bob is hostile."""

    def __init__(self) -> None:
        self.top = tempfile.mkdtemp(prefix="hostile ", dir=MEMORY)
        self.shelf = os.path.join(self.top, "shelf")
        self.mail = os.path.join(self.shelf, "mail")
        os.makedirs(self.mail)
        self.door = DoorModel("", os.path.join(self.top, "board"), self.shelf)
        self.door.make(["Ann Lee", "Bob Ray", "Cy Day"], ["Old"])
        self.listed = [Caller("Ann Lee", 9, "ann"), Caller("Bob Ray", 9, "bob"), Caller("Cy Day", 9, "cy")]
        self.said = io.StringIO()
        self.now = 1_800_000_000.0

    def path(self, *parts: str) -> str:
        """Gives a path below `mail`."""
        return os.path.join(self.mail, *parts)

    def send(self, data: bytes, name: str = "a.rep") -> None:
        """Leaves an archive of Bob's."""
        os.makedirs(self.path("bob", "in"), exist_ok=True)
        with open(self.path("bob", "in", name), "wb") as file:
            file.write(data)

    def day(self) -> int:
        """Lets a day come to its end."""
        self.said = io.StringIO()
        with contextlib.redirect_stderr(self.said), mock.patch("qwkdoor_scripts.ledger.read", self.door.people):
            return Day(self.door, self.shelf, self.listed, lambda: self.now).run()

    def names(self, *parts: str) -> list[str]:
        """Gives the names in a folder below `mail`."""
        return sorted(os.listdir(self.path(*parts)))


@contextlib.contextmanager
def _place() -> Iterator[Place]:
    made = Place()
    try:
        yield made
    finally:
        shutil.rmtree(made.top)


def _changed(at: int, value: bytes) -> bytes:
    at %= len(_ARCHIVE)
    return _ARCHIVE[:at] + value + _ARCHIVE[at + len(value) :]


def _with_flag(name: bytes, flag: int) -> bytes:
    """Gives an archive whose file has a name of these bytes and a flag."""
    data = bytearray(archive({"x" * len(name): _GOOD}))
    directory = data.index(b"PK\1\2")
    data[30 : 30 + len(name)] = name
    data[directory + 46 : directory + 46 + len(name)] = name
    data[6:8] = data[directory + 8 : directory + 10] = struct.pack("<H", flag)
    return bytes(data)


def _many(count: int) -> bytes:
    return archive({f"{number}.TXT": b"" for number in range(count)} | {"TESTBBS.MSG": _GOOD})


def _twice() -> bytes:
    made = io.BytesIO()
    with zipfile.ZipFile(made, "w") as file:
        file.writestr("TESTBBS.MSG", _GOOD)
        file.writestr("testbbs.msg", _GOOD)
    return made.getvalue()


def _said_size(size: int) -> bytes:
    """Gives an archive that says another size of its file than it has."""
    data = bytearray(_ARCHIVE)
    directory = data.index(b"PK\1\2")
    data[22:26] = data[directory + 24 : directory + 28] = struct.pack("<I", size)
    return bytes(data)


def _damaged() -> dict[str, bytes]:
    """Gives some archives with a byte that turned, or cut, which can't be read."""
    directory = _ARCHIVE.index(b"PK\1\2")
    method = range(directory + 10, directory + 12)
    checksum_and_place = [*range(directory + 16, directory + 20), *range(directory + 42, directory + 46)]
    # The last bits of what was deflated mean nothing.
    deflated = range(30 + len("TESTBBS.MSG"), directory - 4, 3)
    turned = {f"turned at {at}": _changed(at, bytes([_ARCHIVE[at] ^ 255])) for at in [*checksum_and_place, *deflated]}
    cut = {f"cut to {at}": _ARCHIVE[:at] for at in range(1, len(_ARCHIVE), 4)}
    return {**turned, **cut, **{f"method at {at}": _changed(at, b"\x63") for at in method}}


_BAD: dict[str, bytes] = {
    "nothing": b"",
    "a text": b"From: Bob\n" * 40,
    "zeros": b"\0" * 4096,
    "another archiver's": b"Rar!\x1a\x07\0" + b"x" * 400,
    "no packet in it": archive({"OTHER.MSG": _GOOD}),
    "a folder before it": archive({"a/TESTBBS.MSG": _GOOD}),
    "a way out": archive({"../TESTBBS.MSG": _GOOD}),
    "65 files": _many(64),
    "20,000 files": _many(20_000),
    "two packets": _twice(),
    "a packet too long": archive({"TESTBBS.MSG": os.urandom(1_048_577)}),
    "a bomb": archive({"TESTBBS.MSG": b"\0" * 50_000_000}),
    "packed 1,020 times": archive({"TESTBBS.MSG": b"\0" * 1_048_576}),
    "another method": archive({"TESTBBS.MSG": _GOOD}, zipfile.ZIP_LZMA),
    "a third method": archive({"TESTBBS.MSG": _GOOD}, zipfile.ZIP_BZIP2),
    "a password": _with_flag(b"TESTBBS.MSG", 1),
    "a name that is no UTF-8": _with_flag(b"\xff\xfe\xfd", 0x800),
    "a name with a line's end": _with_flag(b"A\nbob ack 0", 0),
    "a size too small": _said_size(10),
    "a size of 4 GB": _said_size(0xFFFFFFFE),
    "an archive too long": _ARCHIVE + b"\0" * 4_194_304,
    "more letters than a day's": archive({"TESTBBS.MSG": reply_packet([letter("BOB RAY", "ALL", "x")] * 201)}),
    "more bytes than a day's": archive({"TESTBBS.MSG": reply_packet([letter("BOB RAY", "ALL", "x", "y" * 9000)] * 30)}),
}


class HostileCallers(unittest.TestCase):
    """A caller who does harm, or tries to."""

    def test_an_archive_that_cannot_be_read_is_set_aside_and_named(self) -> None:
        cases = [*_BAD.items(), *_damaged().items()]
        self.assertGreater(len(cases), 90)
        with _place() as place:
            for name, data in cases:
                with self.subTest(name):
                    self._set_aside(place, data)
            self.assertEqual(["Old"], place.door.board()["subjects"])

    def _set_aside(self, place: Place, data: bytes) -> None:
        place.now += 86_400
        place.send(data)
        self.assertEqual(1, place.day())
        self.assertEqual(1, len(place.said.getvalue().splitlines()))
        kept = place.names("bob", "kept")[-2:]
        self.assertEqual([".bad", ".txt"], [name[-4:] for name in kept])
        with open(place.path("bob", "kept", kept[0]), "rb") as file:
            self.assertEqual(data, file.read())
        self.assertEqual(["TESTBBS.QWK"], place.names("cy", "out"))

    def test_archives_without_letters_come_to_an_end_too(self) -> None:
        with _place() as place:
            place.listed[1] = Caller("Bob Ray", 9, "bob", letters=50)
            for number in range(120):
                place.send(b"", f"{number:03d}.rep")
            self.assertEqual((1, 100), (place.day(), len(place.names("bob", "kept"))))
            self.assertEqual((0, 100), (place.day(), len(place.names("bob", "kept"))))
            place.now += 86_400
            self.assertEqual((1, 200), (place.day(), len(place.names("bob", "kept"))))

    def test_an_archive_is_taken_in_whatever_form_it_is_good(self) -> None:
        good = {
            "stored": archive({"TESTBBS.MSG": _GOOD}, zipfile.ZIP_STORED),
            "small letters": archive({"testbbs.msg": _GOOD}),
            "63 others": _many(63),
            "behind other bytes": b"#!/bin/sh\n" * 20 + _ARCHIVE,
            "with a remark": _ARCHIVE[:-2] + b"\x05\0hello",
        }
        for name, data in good.items():
            with self.subTest(name), _place() as place:
                place.send(data)
                self.assertEqual((0, ["Old", "Hello"]), (place.day(), place.door.board()["subjects"]))

    def test_a_good_archive_waits_where_memory_or_the_disk_fails(self) -> None:
        for error in (MemoryError(), OSError(5, "the disk")):
            with _place() as place:
                place.send(_ARCHIVE)
                fails = mock.patch("qwkdoor_scripts.archives._bytes", side_effect=error)
                with fails, self.assertRaises(type(error)):
                    place.day()
                self.assertEqual([], place.names("bob", "kept"))
                self.assertEqual((0, ["Old", "Hello"]), (place.day(), place.door.board()["subjects"]))

    def test_what_a_caller_puts_into_his_folders_harms_himself_alone(self) -> None:
        for name, prepare in self._folders().items():
            with self.subTest(name), _place() as place:
                place.day()
                prepare(place)
                self.assertEqual(1, place.day())
                self.assertTrue(all("bob" in line for line in place.said.getvalue().splitlines()))
                self.assertEqual(["TESTBBS.QWK"], place.names("cy", "out"))
                self.assertEqual("TESTBBS.QWK", place.names("ann", "out")[0])

    def _folders(self) -> dict[str, Callable[[Place], object]]:
        return {
            "a folder as an archive": lambda it: os.mkdir(it.path("bob", "in", "a.rep")),
            "a link as an archive": lambda it: os.symlink("/etc/passwd", it.path("bob", "in", "a.rep")),
            "a link to nothing": lambda it: os.symlink("nothing", it.path("bob", "in", "a.rep")),
            "a pipe as an archive": lambda it: os.mkfifo(it.path("bob", "in", "a.rep")),
            "a hundred archives and some": lambda it: [it.send(b"", f"{at}.rep") for at in range(130)],
            "a name with a line's end": lambda it: it.send(b"", "a\nann ack 0.rep"),
            "a name that is no UTF-8": lambda it: os.rename(_sent(it), _sent(it).replace(b"/a.rep", b"/\xff.rep")),
            "a file for in": lambda it: self._turn(it, "in"),
            "a file for kept": lambda it: self._turn(it, "kept"),
            "a file for work": lambda it: self._turn(it, "work"),
            "a folder for msg": lambda it: (it.send(_ARCHIVE), os.mkdir(it.path("bob", "work", "msg"))),
            "in leads to out": lambda it: self._lead(it, "in", "out"),
            "out leads to another's": lambda it: self._lead(it, "out", "../ann/out"),
            "out leads to the shelf": lambda it: self._lead(it, "out", "../.."),
            "work leads to mail": lambda it: self._lead(it, "work", ".."),
            "work leads to another's": lambda it: self._lead(it, "work", "../cy/work"),
            "no number": lambda it: self._write(it, "number", b"x\n"),
            "a number that isn't his": lambda it: self._write(it, "number", b'1\n{"user": "Ann Lee"}\n'),
            "JSON that is no record": lambda it: self._write(it, "number", b"1\n[]\n"),
        }

    def _turn(self, place: Place, part: str) -> None:
        shutil.rmtree(place.path("bob", part))
        with open(place.path("bob", part), "wb"):
            pass

    def _lead(self, place: Place, part: str, other: str) -> None:
        shutil.rmtree(place.path("bob", part))
        os.symlink(other, place.path("bob", part))

    def _write(self, place: Place, name: str, data: bytes) -> None:
        with open(place.path("bob", "work", name), "wb") as file:
            file.write(data)

    def test_an_archive_that_cannot_be_moved_keeps_no_other_waiting(self) -> None:
        replace = durable.replace

        def refused(old: str, new: str) -> None:
            if old.endswith("1.rep"):
                raise PermissionError(errno.EACCES, "Permission denied", old)
            replace(old, new)

        with _place() as place, mock.patch("qwkdoor_scripts.durable.replace", refused):
            place.send(b"", "1\x1b[2J\nann ack 0 1.rep")
            place.send(_ARCHIVE, "2.rep")
            self.assertEqual((1, ["Old", "Hello"]), (place.day(), place.door.board()["subjects"]))
            said = r"bob: can't take .*/1\?\[2J\?ann ack 0 1.rep: Permission denied\n"
            self.assertRegex(place.said.getvalue(), rf"\Aqwkdoor-day: {said}\Z")
            with open(place.path("log"), "rb") as file:
                self.assertRegex(file.read().decode("ascii"), rf"\n2027\S+ bob in 1 {said[5:]}2027")
            self.assertEqual(["TESTBBS.QWK"], place.names("bob", "out"))

    def test_an_archive_that_its_owner_lets_nobody_read_stays_his(self) -> None:
        with _place() as place, mock.patch("os.access", return_value=False):
            place.send(_ARCHIVE)
            self.assertEqual(1, place.day())
            self.assertIn("bob: can't take", place.said.getvalue())
            self.assertEqual(["a.rep"], place.names("bob", "in"))

    def test_folders_that_differ_in_case_alone_are_named(self) -> None:
        with _place() as place:
            place.listed.append(Caller("Ann Lee 2", 9, "Ann"))
            place.door.make(["Ann Lee", "Bob Ray", "Cy Day", "Ann Lee 2"], ["Old"])
            self.assertEqual(1, place.day())
            self.assertIn("mail/Ann differs from mail/ann in case alone", place.said.getvalue())
            self.assertEqual(["TESTBBS.QWK"], place.names("Ann", "out"))


def _sent(place: Place) -> bytes:
    place.send(b"", "a.rep")
    return os.fsencode(place.path("bob", "in", "a.rep"))


if __name__ == "__main__":
    unittest.main()
