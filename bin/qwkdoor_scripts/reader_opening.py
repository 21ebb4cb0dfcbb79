"""What happens before a packet is read, and after it: what an earlier run left is taken up, and answers are packed."""

from __future__ import annotations

from typing import Callable

from . import reader_packet, reader_sending, reader_takeover, reader_texts
from .failure import DONE, FAILED, Failure, reason
from .reader_outbox import Outbox
from .reader_session import Session
from .reader_settings import Settings
from .reader_shell import without_ctrl_c
from .reader_writing import Writing

Say = Callable[[str], None]


def take_up(outbox: Outbox, packet_id: str, say: Say) -> None:
    """Takes a board's folder to where its last run would have, and says what came of it. Ctrl-C doesn't stop it."""
    with without_ctrl_c():
        go_on(outbox, say)
        for folder in reader_takeover.old_folders(outbox.box):
            for line in reader_takeover.take_over(folder, outbox):
                say(line)
        texts = [*reader_texts.drafts(outbox.box), *outbox.unsent_answers()]
        reader_packet.remove_unneeded(outbox.box, {packet_id, *(it.about.packet for it in texts)})


def go_on(outbox: Outbox, say: Say) -> None:
    """Goes on where the last run was killed, and says which archives were taken away since."""
    outbox.box.clean()
    for archive in outbox.go_on():
        say(f"{archive.name} was taken away, so it counts as sent")


def state_lines(session: Session, writing: Writing) -> "list[str]":
    """Says which texts aren't answers yet, which answers aren't packed, and which archives aren't sent."""
    lines = [f"text {writing.describe(it)} isn't an answer yet" for it in writing.drafts()]
    lines.extend(f"answer {writing.describe(it)}" for it in session.outbox.kept())
    for archive in session.outbox.lying():
        first, *rest = writing.describe_archive(archive)
        lines.extend([f"to be sent: {first}", *rest])
    return lines


def finish(session: Session, writing: Writing, say: Say) -> int:
    """Packs the answers, and sends them where the settings say how. Gives the status. Ctrl-C doesn't stop it."""
    with without_ctrl_c():
        return _finish(session, writing, say)


def _finish(session: Session, writing: Writing, say: Say) -> int:
    session.outbox.pack(say)
    for draft in writing.drafts():
        say(f"text {writing.describe(draft)} isn't an answer yet")
    for archive in session.outbox.lying():
        if not session.settings.sends:
            say(f"to be sent: {session.outbox.path_of(archive)}")
    return send_all(session.outbox, session.settings, say)


def send_all(outbox: Outbox, settings: Settings, say: Say) -> int:
    """Sends each archive that lies there, where the settings say how. One that can't go doesn't keep the others."""
    status = DONE
    for archive in outbox.lying() if settings.sends else ():
        try:
            say(reader_sending.send(outbox, archive, settings))
        except Failure as error:
            say(str(error))
            status = error.status
        except OSError as error:
            say(reason(error))
            status = FAILED
    return status
