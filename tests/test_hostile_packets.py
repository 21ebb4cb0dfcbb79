"""Archives that read, with reply packets that a hostile program could have written, by the real program."""

from __future__ import annotations

import json
import os
import random
import re
import unittest

from tests.day_support import Board, archive, board, letter, reply_packet
from tests.support import needs_program

_CALLERS = '"Ann Lee" 2000 ann\n"Bob Ray" 100 bob 9999 9999999\n"Cy Day" 10 cy\n'
_COUNT = 90
_VERDICT = re.compile(rb"posted (\d+) refused (\d+)")


def _packets() -> list[bytes]:
    """Gives packets with bytes that turned, that are cut, longer than they say, for others, or of control bytes."""
    draw = random.Random(7)
    whole = reply_packet([letter("BOB RAY", "ALL", f"Letter {number}", "Text " * 40) for number in range(4)])
    return [_spoilt(whole, number, draw) for number in range(_COUNT)]


def _spoilt(whole: bytes, number: int, draw: random.Random) -> bytes:
    data = bytearray(whole)
    kind = number % 6
    if kind == 0:
        del data[draw.randrange(len(data)) :]
    elif kind == 1:
        for _ in range(4):
            data[draw.randrange(128, len(data))] = draw.choice((0, 7, 10, 13, 27, 255))
    elif kind == 2:
        data += bytes(draw.randrange(256) for _ in range(draw.randrange(1, 400)))
    elif kind == 3:
        data[:128] = draw.choice((b"ELSEWHERE", b"", b"\0" * 128, b"\x1b[2J", b"TESTBBS\0")).ljust(128)
    elif kind == 4:
        data[128 + 116 : 128 + 122] = draw.choice((b"0     ", b"999999", b"-1    ", b"\0" * 6, b"2\n1   "))
    else:
        data[128 + 21 : 128 + 71] = bytes(draw.choice(b"\x1b[2J\r\n\0\x1a\x9bAnn") for _ in range(50))
    return bytes(data)


@needs_program
class HostilePackets(unittest.TestCase):
    """A caller whose packets are wrong in each way."""

    def test_each_is_dealt_with_once_and_nobody_else_is_harmed(self) -> None:
        with board(callers=_CALLERS) as it:
            for number, data in enumerate(_packets()):
                it.send("bob", archive({"TESTBBS.MSG": data}), f"{number:02d}.rep")
            ran = it.day()
            self.assertEqual((1, []), (ran.returncode, it.names("bob/in")))
            self.assertEqual([["TESTBBS.QWK"]] * 3, [it.names(f"{name}/out") for name in ("ann", "bob", "cy")])
            self._look_at_what_is_kept(it)
            self._look_at_texts(it, ran.stderr)
            self.assertEqual(0, it.day().returncode)

    def _look_at_what_is_kept(self, it: Board) -> None:
        """Sees that each archive has its verdicts, and that each letter that was posted was counted as one."""
        kept = it.names("bob/kept")
        self.assertEqual(2 * _COUNT, len(kept))
        said = [it.read(f"mail/bob/kept/{name}") for name in kept if name.endswith(".txt")]
        found = [_VERDICT.search(text) for text in said if b"again" not in text]
        posted = sum(int(match.group(1)) for match in found if match)
        self.assertEqual(posted + 3, len(it.subjects()))
        self.assertGreater(posted, 20)
        self.assertGreater(sum(b"refused broken" in text for text in said), 20)
        self.assertGreaterEqual(json.loads(it.read("mail/bob/work/allowance"))["letters"], posted)

    def _look_at_texts(self, it: Board, said: str) -> None:
        """Sees that no control byte comes through to a terminal, nor a line that nobody wrote."""
        it.fetch("bob")
        news = it.news("bob").encode("cp437").replace(b"\r\n", b"")
        self.assertEqual([], re.findall(rb"[\x00-\x1f\x7f]", news))
        self.assertEqual([], re.findall(r"[\x00-\x09\x0b-\x1f\x7f-\x9f]", said))
        with open(os.path.join(it.mail, "log"), "rb") as file:
            lines = file.read().split(b"\n")[:-1]
        self.assertEqual([], [line for line in lines if not re.match(rb"[0-9T:Z-]+ \S+ [a-z]+ \d [ -\xff]*\Z", line)])


if __name__ == "__main__":
    unittest.main()
