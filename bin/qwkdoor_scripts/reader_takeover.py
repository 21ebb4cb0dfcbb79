"""Takes over what the first qwkdoor-read left, whose folder for a board was HOME/qwk/BBSID.

It had the answers that weren't sent as one reply packet, and one text that didn't say what it answered. Each step may
be repeated: the packet is known by its digest, and the text by its own.
"""

from __future__ import annotations

import os
import re

from . import durable, program, reader_texts
from .failure import Failure
from .locks import Lock
from .reader_outbox import Outbox
from .reader_state import Box, free_name, is_old
from .reader_texts import About

# The ids that the first reader took.
_OLD_ID = re.compile(r"[A-Za-z0-9_][A-Za-z0-9._-]*")


def old_folders(box: Box) -> "list[str]":
    """Gives the folders of the first reader for this board."""
    named = re.compile(re.escape(box.name) + r"\.old(-\d+)?")
    names = [os.path.join(box.base, it) for it in sorted(os.listdir(box.base)) if named.fullmatch(it)]
    names.append(os.path.join(box.base, box.board_id))
    if not os.environ.get("QWKDOOR_HOME") and os.environ.get("HOME"):
        names.append(os.path.join(os.environ["HOME"], "qwk", box.board_id))
    return [it for it in names if _OLD_ID.fullmatch(box.board_id) and is_old(it)]


def take_over(folder: str, outbox: Outbox) -> "list[str]":
    """Takes over a folder, and gives the lines that say what came of it."""
    said = []
    with Lock(os.path.join(folder, "lock")):
        answers = _unsent(folder, outbox.box.board_id, outbox.door)
        if answers:
            name = outbox.take_over(answers)
            if name:
                said.append(f"the answers from an earlier reader that weren't sent are in {name}")
        text = _read(os.path.join(folder, "answer.txt"))
        if text.strip() and not _is_there(outbox.box, text):
            about = About(reader_texts.UNKNOWN, "", 0, 0, "", "", False, "", "")
            draft = reader_texts.begin(outbox.box, about, text, is_begun=False)
            said.append(f"text {draft.number} is from an earlier reader, which didn't note what it answers")
        taken = free_name(folder + ".taken")
        durable.replace(folder, taken)
    return [*said, f"{folder} was taken over, and is called {os.path.basename(taken)} now"]


def _is_there(box: Box, text: bytes) -> bool:
    return any(it.about.kind == reader_texts.UNKNOWN and it.read() == text for it in reader_texts.drafts(box))


def _unsent(folder: str, board_id: str, door: program.Program) -> bytes:
    """Gives the reply packet that wasn't sent, as the first reader would have found it."""
    answers = f"{board_id}.MSG"
    before = os.path.join(folder, "before")
    path = os.path.join(folder, answers)
    if os.path.exists(before) and not _is_one_more(folder, answers, door):
        return _read(before)
    packed = os.path.exists(os.path.join(folder, "packed"))
    out = [os.path.join(folder, "new.rep"), os.path.join(folder, f"{board_id}.REP")]
    if packed and not any(os.path.exists(it) for it in out):
        return b""
    return _read(path)


def _is_one_more(folder: str, answers: str, door: program.Program) -> bool:
    """Whether the answer during which a run was killed was added whole."""
    counts = [_count(folder, name, door) for name in ("before", answers)]
    return counts[0] is not None and counts[1] == counts[0] + 1


def _count(folder: str, name: str, door: program.Program) -> "int | None":
    if not _read(os.path.join(folder, name)):
        return 0
    reply = program.Program(door.path, door.data, folder).run("scan", name)
    return int(reply.last.split(" ")[0]) if reply.status == program.DONE else None


def _read(path: str) -> bytes:
    try:
        with open(path, "rb") as file:
            return file.read()
    except FileNotFoundError:
        return b""
    except OSError as error:
        raise Failure(f"can't read {path}: {error.strerror}") from error
