"""How an answer begins: the lines of the message behind its writer's initials, and the address of net mail."""

from __future__ import annotations

import re

from .reader_columns import QUOTED, is_picture, wrapped
from .reader_message import Message, text_lines, uncoloured

_COLUMNS = 76
_ADDRESS = r"(\d{1,5}:\d{1,5}/\d{1,5}(?:\.\d{1,5})?)"
_ORIGIN_ADDRESS = re.compile(r" ?\* Origin: .*\(" + _ADDRESS + r"(?:@[^)]*)?\)\s*")
_KLUDGE_ADDRESS = re.compile(r"\?(?:REPLYADDR|MSGID): (?:[^ ]*@)?" + _ADDRESS + r"(?:@\S*)?(?: .*)?")
_NAME_ADDRESS = re.compile(r"(.*?)\s*(?:@| |\()\s*" + _ADDRESS + r"\)?\s*")
ADDRESS_LINE = re.compile(r"\s*[^@\s][^@]{0,35}@" + _ADDRESS + r"\s*")
_NET_NAMES = ("NETMAIL", "NET MAIL", "NET-MAIL", "MATRIX")


def initials(name: str) -> str:
    """Gives the first letters of a name's words, at most three."""
    return "".join(word[0] for word in name.split() if word[0].isalnum())[:3].upper()


def quoted(message: Message) -> str:
    """Gives the text with which an answer begins."""
    mark = f" {initials(message.sender)}> "
    lines = []
    for line in map(uncoloured, text_lines(message.lines, with_origin=False)):
        lines.extend(_quoted_line(line, mark))
    return "".join(f"{line}\n" for line in lines)


def _quoted_line(line: str, mark: str) -> "list[str]":
    if not line.strip():
        return [mark.rstrip()]
    found = QUOTED.match(line)
    if found:
        front = f"{found.group().rstrip()}>"
        rest = line[found.end() :]
        return _behind(rest, f"{front} ") if rest.strip() else [front]
    return _behind(line, mark)


def _behind(line: str, mark: str) -> "list[str]":
    if is_picture(line):
        return [mark + line]
    return [mark + it for it in wrapped(line, _COLUMNS - len(mark))]


def is_net_name(area: str) -> bool:
    """Whether an area's name says that it is one of net mail. The packet doesn't say it otherwise."""
    return any(name in area.upper() for name in _NET_NAMES)


def address_line(message: Message) -> str:
    """Gives the address line for an answer: of the Origin, of an id, or of the From. Empty where there is none."""
    own = _NAME_ADDRESS.fullmatch(message.sender)
    if own:
        return f"{own.group(1)}@{own.group(2)}"
    for pattern in (_ORIGIN_ADDRESS, _KLUDGE_ADDRESS):
        for line in reversed(message.lines):
            found = pattern.fullmatch(line)
            if found:
                return f"{message.sender}@{found.group(1)}"
    return ""
