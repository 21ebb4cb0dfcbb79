"""What a day would do, where nothing is to be done."""

from __future__ import annotations

import os

from . import caller_folders, day_verdicts
from .caller_folders import Folders
from .callers import Caller
from .day_board import DayBoard
from .day_log import DayLog
from .day_packets import Packets
from .failure import reason


class SilentLog(DayLog):
    """A log that nothing is written to."""

    def note(self, name: str, command: str, status: int, text: str) -> None:
        """Lets the line go."""

    def complain(self, name: str, text: str) -> None:
        """Lets the line go."""


def lines(board: DayBoard, mail: str, listed: list[Caller], served: list[Caller]) -> list[str]:
    """Gives a line for each thing that would be done, and one for each caller for whom nothing would be."""
    shared = caller_folders.shared(mail, board.program.data, [it.name for it in listed])
    return [line for caller in served for line in _of(board, mail, caller, shared)]


def _of(board: DayBoard, mail: str, caller: Caller, shared: dict[str, str]) -> list[str]:
    if caller.name in shared:
        return [f"{caller.name}: nothing: {shared[caller.name]}"]
    folders = Folders(mail, caller.name)
    try:
        acts = [*_uploads(folders), *_packet(board, caller, folders)]
    except OSError as error:
        return [f"{caller.name}: nothing: {reason(error)}"]
    return [f"{caller.name}: {act}" for act in acts] or [f"{caller.name}: nothing"]


def _uploads(folders: Folders) -> list[str]:
    left = [f"in/{name}" for name in _archives(folders.entry)] + [f"work/{name}" for name in _archives(folders.work)]
    return [f"upload {name}" for name in left]


def _archives(folder: str) -> list[str]:
    try:
        return sorted(name for name in os.listdir(folder) if name.lower().endswith(".rep"))
    except FileNotFoundError:
        return []


def _packet(board: DayBoard, caller: Caller, folders: Folders) -> list[str]:
    packets = Packets(board, caller, folders, {})
    record = packets.record(packets.number)
    is_out = os.path.lexists(packets.qwk)
    if record and os.path.lexists(packets.packet):
        return [] if is_out else [f"hand out packet {record.number}"]
    if is_out:
        return []
    done = [f"acknowledge packet {record.number}"] if record else []
    has_nothing = packets.has_nothing_since(record) if record else packets.has_nothing_new()
    if _news(folders) or not has_nothing:
        done.append("export, where there is mail")
    return done


def _news(folders: Folders) -> bool:
    try:
        return bool(day_verdicts.waiting(folders.work))
    except FileNotFoundError:
        return False
