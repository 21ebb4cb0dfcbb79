"""A message as it is shown: its header, and its text without the lines that are for programs, wrapped at words."""

from __future__ import annotations

import re
from dataclasses import dataclass

from .characters import shown
from .reader_columns import broken, is_picture, wrapped

_FIELDS = 7
_CONTROL = re.compile(
    r"\?(?:MSGID|REPLYADDR|REPLYTO|REPLY|PID|TID|PATH|INTL|FMPT|TOPT|CHRS|CHARSET|CODEPAGE|TZUTC|TZ|Via|FLAGS|AREA"
    r"|SEEN-BY|EID|ACUPDATE|RESCANNED|DOMAIN|GATEWAY|NOTE|SPLIT|BBSID|GMD|XMSGID|RFC)\b.*",
    re.IGNORECASE,
)
_NETWORK = re.compile(r"SEEN-BY: ?[0-9/: ]*.*|PATH: [0-9/: ]+")
_TEAR = re.compile(r"---(?: .*)?")
_ORIGIN = re.compile(r" ?\* Origin: .*")
# The sequences that colour a picture or move in it. The program shows their first byte as a question mark.
_SEQUENCE = re.compile(r"\?\[(?:[0-9;]+[A-HJKSTfmsu]|m)")


@dataclass(frozen=True)
class Message:
    """A message: the fields of its header by name, and the lines of its text."""

    fields: "dict[str, str]"
    lines: "list[str]"

    @property
    def sender(self) -> str:
        """Gives who wrote it."""
        return self.fields.get("From", "")

    @property
    def recipient(self) -> str:
        """Gives to whom it goes."""
        return self.fields.get("To", "")

    @property
    def subject(self) -> str:
        """Gives what it is about."""
        return self.fields.get("Subject", "")


def read_message(said: "list[bytes]", characters: str) -> Message:
    """Reads what `read` said of a message."""
    lines = [shown(line, characters) for line in said]
    pairs = (line.partition(": ") for line in lines[:_FIELDS])
    return Message({name.rstrip(":"): value for name, _, value in pairs}, lines[_FIELDS + 1 :])


def text_lines(lines: "list[str]", with_origin: bool = True) -> "list[str]":
    """Gives the lines of a text that are for people."""
    tear = max((at for at, line in enumerate(lines) if _TEAR.fullmatch(line)), default=-1)
    behind = lines[tear + 1 :] if tear >= 0 else []
    is_tear = tear >= 0 and all(not it.strip() or _is_for_programs(it) or _ORIGIN.fullmatch(it) for it in behind)
    kept = [
        line
        for at, line in enumerate(lines)
        if not _is_for_programs(line) and not (at == tear and is_tear) and (with_origin or not _ORIGIN.fullmatch(line))
    ]
    while kept and not kept[-1].strip():
        kept.pop()
    return kept


def _is_for_programs(line: str) -> bool:
    return bool(_CONTROL.fullmatch(line) or _NETWORK.fullmatch(line))


def uncoloured(line: str) -> str:
    """Gives a line without the sequences that colour it or move in it."""
    return _SEQUENCE.sub("", line)


def view(lines: "list[str]", columns: int, wrap_pictures: bool) -> "list[str]":
    """Gives the lines of a text so that they fit the columns."""
    fitting: "list[str]" = []
    for plain in map(uncoloured, lines):
        if is_picture(plain) and not wrap_pictures:
            fitting.extend(broken(plain, columns))
        else:
            fitting.extend(wrapped(plain, columns))
    return fitting


def header(message: Message, area: str, is_private: bool) -> "list[str]":
    """Gives the lines of a message's header."""
    private = "    private" if is_private else ""
    return [
        f"From:    {message.sender}",
        f"To:      {message.recipient}{private}",
        f"Subject: {message.subject}",
        f"Date:    {message.fields.get('Date', '')}    Area: {area}    Number: {message.fields.get('Number', '')}",
    ]
