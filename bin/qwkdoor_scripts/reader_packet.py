"""A packet that is opened: unpacked, listed by the program, and kept in its board's folder."""

from __future__ import annotations

import contextlib
import hashlib
import os
import shutil
from dataclasses import dataclass
from typing import Callable, Optional

from . import archives, durable, program
from .failure import Failure
from .locks import Lock
from .reader_control import Control, read_control
from .reader_state import Box, free_name, is_old

_CONTROL_LIMIT = 4194304
_MESSAGES_LIMIT = 41943040
_NEWS_LIMIT = 1048576
# A board with many areas may put an index for each of them into the packet.
_MEMBERS = 70000
_FILES = ("CONTROL.DAT", "MESSAGES.DAT")
_Take = Callable[[str, str, int], bytes]


class Refused(Exception):
    """The program refused the packet, or met a fault: what it said, and its status."""

    def __init__(self, reply: program.Reply) -> None:
        super().__init__(reply.last)
        self.reply = reply


@dataclass(frozen=True)
class Packet:
    """A packet in a board's folder: its id there, what CONTROL.DAT says, the listing, and the board's news."""

    box: Box
    packet_id: str
    control: Control
    listing: "list[bytes]"
    news: Optional[bytes]

    @property
    def shelf_name(self) -> str:
        """Gives the name by which the program finds it."""
        return f"packets/{self.packet_id}"


def open_packet(path: str, base: str, program_path: str, stack: contextlib.ExitStack) -> Packet:
    """Reads a packet, has the program list it, and puts it into its board's folder, locked until the stack ends."""
    files, news = _take(path)
    scratch = os.path.join(base, ".opening")
    with Lock(os.path.join(base, ".lock"), 30):
        _put(os.path.join(scratch, "packet"), files)
        reply = program.Program(program_path, os.path.join(base, "none"), scratch).run("read", "packet")
        if reply.status != program.DONE:
            shutil.rmtree(scratch)
            raise Refused(reply)
        control = read_control(files["CONTROL.DAT"])
        box = Box(base, control.board_id)
        if is_old(box.path):
            _put_away(box.path)
        durable.make_folder(box.path)
        box.hold(stack)
        box.make()
        packet_id = f"P{hashlib.sha256(files['CONTROL.DAT'] + files['MESSAGES.DAT']).hexdigest()[:31]}"
        if not os.path.isdir(box.at("packets", packet_id)):
            durable.replace(os.path.join(scratch, "packet"), box.at("packets", packet_id))
        shutil.rmtree(scratch)
    return Packet(box, packet_id, control, reply.lines, news)


def _put_away(path: str) -> None:
    """Renames the folder of an older reader that has this one's name. What is in it is taken over later."""
    durable.replace(path, free_name(path + ".old"))


def _put(folder: str, files: "dict[str, bytes]") -> None:
    shutil.rmtree(os.path.dirname(folder), ignore_errors=True)
    durable.make_folder(os.path.dirname(folder))
    durable.make_folder(folder)
    for name, data in files.items():
        durable.write_new(os.path.join(folder, name), data)
    durable.sync_folder(folder)


def _take(path: str) -> "tuple[dict[str, bytes], Optional[bytes]]":
    """Takes the two files of a packet, and the board's news where there are some."""
    take: _Take = _take_from_folder if os.path.isdir(path) else _take_from_archive
    if not os.path.isdir(path) and not os.path.isfile(path):
        raise Failure(f"there is no file or folder {path}")
    try:
        files = {"CONTROL.DAT": take(path, "CONTROL.DAT", _CONTROL_LIMIT)}
        files["MESSAGES.DAT"] = take(path, "MESSAGES.DAT", _MESSAGES_LIMIT)
    except archives.Unreadable as error:
        raise Failure(f"{path} is no packet: {error}") from error
    name = read_control(files["CONTROL.DAT"]).news.decode("ascii", "replace")
    return files, _news(take, path, name) or _news(take, path, "NEWS")


def _news(take: _Take, path: str, name: str) -> Optional[bytes]:
    if not name or "/" in name or name.upper() in _FILES:
        return None
    try:
        return take(path, name, _NEWS_LIMIT)
    except (archives.Unreadable, Failure):
        return None


def _take_from_archive(path: str, name: str, limit: int) -> bytes:
    return archives.read_member(path, name, limit, _MEMBERS)


def _take_from_folder(path: str, name: str, limit: int) -> bytes:
    found = [it for it in (name, name.lower()) if os.path.isfile(os.path.join(path, it))]
    if not found:
        raise archives.Unreadable(f"it has no {name}")
    with open(os.path.join(path, found[0]), "rb") as file:
        data = file.read(limit + 1)
    if len(data) > limit:
        raise archives.Unreadable(f"{name} has more than {limit} bytes")
    return data


def remove_unneeded(box: Box, needed: "set[str]") -> None:
    """Removes the packets that no text and no unsent answer needs."""
    for name in os.listdir(box.at("packets")):
        if name not in needed:
            box.remove_folder("packets", name)
