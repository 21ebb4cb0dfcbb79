"""The reader of packets against the program, and the copy that the program gets."""

from __future__ import annotations

import random
import struct
import unittest
from unittest import mock

from tests.board_support import BoardCase, message, packet

from qwkdoor_scripts import copies, packets

# Texts, and whether the program finds a msgid in them: by docs/FORMATS.md, "Packed messages".
MSGIDS = (
    (b"AREA:FIDO\r\x01MSGID: 2:5020/400 1\rHello\r", True),
    (b"AREA:FIDO\r\x01MSGID: " + b"x" * 80 + b"\r", True),
    (b"AREA:FIDO\r\x01MSGID: " + b"y" * 81 + b"\r", False),
    (b"AREA:FIDO\r\x01MSGID:    \r", False),
    (b"AREA:FIDO\r\x01MSGID: a\tb\r", False),
    (b"AREA:FIDO\r\x01MSGID:c\r", False),
    (b"AREA:FIDO\r\x01msgid: d\r", False),
    (b"AREA:FIDO\rMSGID: e\r", False),
    (b"AREA:FIDO\r\x01MSGID: \r\x01MSGID: f\r", False),
    (b"AREA:FIDO\r\x01MSGID:g\r\x01MSGID: h\r", True),
    (b"AREA:FIDO\r\n\x01MS\nGID: i\r", True),
    (b"AREA:FIDO\r\x01MSGID: \xff\r", True),
    (b"AREA:FIDO\rHello\x01MSGID: j\r", False),
    (b"AREA:FIDO\r\x01MSGID: k", True),
    (b"AREA:FIDO", False),
    (b"\n\nAREA:FI\nDO\r\nNo msgid\r", False),
    (b"AREA:  fido  \rNo msgid\r", False),
)


def messages_of(data: bytes) -> "list[packets.Message]":
    """Gives the messages of a packet that reads."""
    found = packets.read(data)
    assert found is not None
    return found.messages


def changed(data: bytes, draw: random.Random) -> bytes:
    """Gives a packet with one to three other bytes."""
    found = bytearray(data)
    for _ in range(draw.randrange(1, 4)):
        found[draw.randrange(len(found))] = draw.choice((0, 1, 2, 13, 255))
    return bytes(found)


class ReaderTest(BoardCase):
    """What the reader takes, and what it finds, is what the program takes and finds."""

    def setUp(self) -> None:
        super().setUp()
        self.make_board("5 echo - FIDO")

    def toss_each(self, *files: bytes) -> "list[list[str]]":
        """Has the program toss each of these packets. Gives what it said of each."""
        for number, data in enumerate(files):
            self.write(f"p{number}", data)
        self.write("batch", "".join(f"toss p{number}\n" for number in range(len(files))).encode("ascii"))
        found: "list[list[str]]" = [[]]
        for line in self.door("batch", "batch"):
            found[-1].append(line)
            if line.startswith(("posted", "refused")):
                found.append([])
        return found[:-1]

    def test_takes_what_the_program_takes(self) -> None:
        draw = random.Random(7)
        whole = packet(message(b"AREA:FIDO\r\x01MSGID: 1\rHello\r"), message(b"Dear Sam\r", subject=b"x" * 71))
        cut = [whole[:length] for length in range(0, len(whole), 3)] + [whole[:-1], whole[:-2]]
        mutated = cut + [changed(whole, draw) for _ in range(50)]
        said = self.toss_each(*mutated)
        self.assertEqual(len(said), len(mutated))
        for data, lines in zip(mutated, said):
            found = packets.read(data)
            counted = None if lines[-1].startswith("refused") else len(lines) - 1
            self.assertEqual(len(found.messages) if found else None, counted, data)

    def test_finds_the_msgids_that_the_program_finds(self) -> None:
        files = [packet(message(text)) for text, _ in MSGIDS]
        said = self.toss_each(*files, *files)[len(files) :]
        for (text, has), data, lines in zip(MSGIDS, files, said):
            self.assertEqual(lines[0] == "1 refused dupe", has, text)
            self.assertEqual(messages_of(data)[0].has_msgid(), has, text)

    def test_a_copy_is_tossed_once(self) -> None:
        files = []
        for text, _ in MSGIDS:
            read = packets.read(packet(message(text)))
            assert read is not None
            files += copies.parts(read.header, copies.named(read), {})
        said = self.toss_each(*files, *files)
        self.assertEqual([lines[-1] for lines in said[: len(files)]], ["posted 1 refused 0"] * len(files))
        self.assertEqual([lines[0] for lines in said[len(files) :]], ["1 refused dupe"] * len(files))


class CopyTest(unittest.TestCase):
    """The copy of a packet."""

    def test_a_tag_gets_the_name_and_nothing_else_changes(self) -> None:
        read = packets.read(packet(message(b"AREA:R50.LONG.TAG\r\x01MSGID: 1\rAREA:R50.LONG.TAG\r\nSEEN-BY: 1\r")))
        assert read is not None
        (copy,) = copies.parts(read.header, copies.named(read), {b"r50.long.tag": b"LONG"})
        self.assertEqual(copy, packet(message(b"AREA:LONG\r\x01MSGID: 1\rAREA:R50.LONG.TAG\r\nSEEN-BY: 1\r")))

    def test_a_letter_keeps_its_text(self) -> None:
        read = packets.read(packet(message(b"\x01INTL 2:1/1 2:1/2\rAREA:FIDO\r")))
        assert read is not None
        text = copies.named(read)[0].text
        self.assertRegex(text, rb"\A\x01MSGID: [!-~]{1,80}\r\x01INTL 2:1/1 2:1/2\rAREA:FIDO\r\Z")

    def test_two_that_are_alike_are_two(self) -> None:
        alike = message(b"AREA:FIDO\rHello\r")
        read = packets.read(packet(alike, message(b"AREA:FIDO\rBye\r"), alike))
        assert read is not None
        found = [it.text for it in copies.named(read)]
        self.assertEqual(len(set(found)), 3)
        self.assertEqual(found, [it.text for it in copies.named(read)])

    def test_a_long_copy_is_cut_between_messages(self) -> None:
        texts = [b"AREA:FIDO\r\x01MSGID: %d\r%s" % (number, b"x" * 100 * number) for number in range(9)]
        read = packets.read(packet(*map(message, texts)))
        assert read is not None
        with mock.patch.object(copies, "LIMIT", 1_200):
            parts = list(copies.parts(read.header, copies.named(read), {}))
        self.assertEqual([it.text for part in parts for it in messages_of(part)], texts)
        self.assertEqual({part[:58] for part in parts}, {read.header})
        self.assertLessEqual(max(map(len, parts)), 1_200)
        self.assertGreater(len(parts), 3)

    def test_the_layout_is_that_of_fts_0001(self) -> None:
        data = packet(message(b"Text", to=b"To", sender=b"From", subject=b"Subject"))
        (found,) = messages_of(data)
        self.assertEqual((found.to, found.sender, found.subject, found.text), (b"To", b"From", b"Subject", b"Text"))
        self.assertEqual(struct.unpack_from("<7H", found.head), (2, 400, 1, 5020, 5020, 0, 0))
        self.assertEqual(found.data(), data[58:-2])


if __name__ == "__main__":
    unittest.main()
