"""The lines of a packet's CONTROL.DAT that no command of qwkdoor shows: the board id, and the areas' names.

`read` judges the file. So nothing is refused here: a line that isn't there is empty.
"""

from __future__ import annotations

from dataclasses import dataclass

_LINES_BEFORE_AREAS = 11
# A number line has no more: the news are looked for before the program has judged the file.
_MOST_DIGITS = 9


@dataclass(frozen=True)
class Control:
    """What a reader needs of CONTROL.DAT, as bytes of the board's characters."""

    board_id: str
    made: bytes
    areas: "dict[int, bytes]"
    news: bytes


def read_control(data: bytes) -> Control:
    """Reads a CONTROL.DAT that the program has taken."""
    lines = [line[:-1] if line.endswith(b"\r") else line for line in data.split(b"\n")]
    count = _number(_line(lines, 10)) + 1
    after = _LINES_BEFORE_AREAS + 2 * count
    pairs = range(_LINES_BEFORE_AREAS, min(after, len(lines)), 2)
    areas = {_number(lines[at]): _line(lines, at + 1) for at in pairs}
    board_id = _line(lines, 4).partition(b",")[2].strip(b" ").decode("ascii", "replace")
    return Control(board_id, _line(lines, 5), areas, _line(lines, after + 1).strip())


def _line(lines: "list[bytes]", at: int) -> bytes:
    return lines[at] if at < len(lines) else b""


def _number(line: bytes) -> int:
    digits = line.strip(b" ")
    return int(digits) if digits.isdigit() and len(digits) <= _MOST_DIGITS else 0
