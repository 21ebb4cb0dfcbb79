"""Which messages of a board the caller has read: numbers by area, as the readers of Usenet keep them.

A line of the file has an area and the ranges of numbers that are read in it, as `0 1-40,43`.
"""

from __future__ import annotations

import bisect
import os
import re

from . import durable

_LINE = re.compile(r"(\d+) ((?:\d+(?:-\d+)?,)*\d+(?:-\d+)?)")


class Marks:
    """The numbers that are read, an area a list of ranges that don't touch."""

    def __init__(self, path: str) -> None:
        self.path = path
        self.ranges: "dict[int, list[tuple[int, int]]]" = {}
        if os.path.exists(path):
            with open(path, encoding="ascii", errors="replace") as file:
                self._read(file.read().splitlines())

    def _read(self, lines: "list[str]") -> None:
        for line in lines:
            found = _LINE.fullmatch(line)
            if found:
                self._read_ranges(int(found.group(1)), found.group(2))

    def _read_ranges(self, area: int, words: str) -> None:
        for part in words.split(","):
            first, _, last = part.partition("-")
            self._add(area, int(first), int(last or first))

    def _add(self, area: int, first: int, last: int) -> None:
        ranges = self.ranges.setdefault(area, [])
        at = bisect.bisect_left(ranges, (first, first))
        if at > 0 and ranges[at - 1][1] >= first - 1:
            at -= 1
            first = ranges[at][0]
        end = at
        while end < len(ranges) and ranges[end][0] <= last + 1:
            last = max(last, ranges[end][1])
            end += 1
        ranges[at:end] = [(first, last)]

    def is_read(self, area: int, number: "int | None") -> bool:
        """Whether a message is read. One without a number never is."""
        ranges = self.ranges.get(area, [])
        at = bisect.bisect_right(ranges, (number or 0, float("inf")))
        return number is not None and at > 0 and ranges[at - 1][1] >= number

    def mark(self, area: int, number: "int | None") -> None:
        """Marks a message as read."""
        if number is not None and not self.is_read(area, number):
            self._add(area, number, number)
            self._write()

    def unmark(self, area: int, number: "int | None") -> None:
        """Marks a message as unread."""
        if number is None or not self.is_read(area, number):
            return
        ranges = self.ranges[area]
        at = bisect.bisect_right(ranges, (number, float("inf"))) - 1
        first, last = ranges[at]
        ranges[at : at + 1] = [it for it in ((first, number - 1), (number + 1, last)) if it[0] <= it[1]]
        self._write()

    def mark_all(self, messages: "list[tuple[int, int | None]]") -> None:
        """Marks all of these messages as read."""
        for area, number in messages:
            if number is not None:
                self._add(area, number, number)
        self._write()

    def _write(self) -> None:
        lines = [f"{area} {_shown(ranges)}\n" for area, ranges in sorted(self.ranges.items()) if ranges]
        durable.write_whole(self.path, "".join(lines).encode())


def _shown(ranges: "list[tuple[int, int]]") -> str:
    return ",".join(str(first) if first == last else f"{first}-{last}" for first, last in ranges)
