"""What the last days brought: for each caller the letters posted and refused, and the messages handed out.

The letters are those of the verdicts in `kept`, where each archive stands once, whatever was killed. The messages are
those of the log: a packet was handed out where no other was exported before it was acknowledged.
"""

from __future__ import annotations

import os
import re
from typing import Iterable

from .board_totals import Totals
from .callers import Caller
from .day_verdicts import Verdicts
from .failure import reason
from .runlog import Clock, moment

_EXPORT = re.compile(rb"(\S+) (\S+) export 0 packet \d+: (\d+) messages")
_ACK = re.compile(rb"(\S+) (\S+) ack [01] .*")
_ID = re.compile(r"(\d{8}T\d{6}Z)-\d+\.txt")
_DAY = 86_400


def lines(mail: str, listed: list[Caller], totals: Totals, days: int, clock: Clock) -> list[str]:
    """Gives the report's lines."""
    since = clock() - days * _DAY
    handed_out = _handed_out(_log(mail), moment(lambda: since).encode())
    from_id = moment(lambda: since, "%Y%m%dT%H%M%SZ")
    told = [_caller_line(mail, caller, from_id, handed_out) for caller in listed]
    slots = [f"{number} {totals.names[number]}: {left} slots left" for number, left in totals.slots_left().items()]
    return [*told, *slots, f"{totals.bytes_left()} bytes left"]


def _caller_line(mail: str, caller: Caller, from_id: str, handed_out: dict[str, int]) -> str:
    try:
        posted, refused = _letters(os.path.join(mail, caller.name, "kept"), from_id)
    except OSError as error:
        return f"{caller.name}: can't be counted: {reason(error)}"
    return f"{caller.name}: {posted} posted, {refused} refused, {handed_out.get(caller.name, 0)} handed out"


def _letters(kept: str, from_id: str) -> tuple[int, int]:
    """Counts the letters of the archives that came since then. What a caller sent twice counts once."""
    try:
        found = [(name, _ID.fullmatch(name)) for name in os.listdir(kept)]
    except FileNotFoundError:
        return 0, 0
    names = [name for name, it in found if it and it.group(1) >= from_id]
    said = [it for it in (_verdicts(os.path.join(kept, name)) for name in names) if not it.is_twice]
    return sum(it.posted for it in said), sum(it.refused for it in said)


def _verdicts(path: str) -> Verdicts:
    with open(path, "rb") as file:
        return Verdicts(file.read().splitlines())


def _log(mail: str) -> Iterable[bytes]:
    try:
        with open(os.path.join(mail, "log"), "rb") as file:
            yield from (line.rstrip(b"\n") for line in file)
    except FileNotFoundError:
        return


def _handed_out(log: Iterable[bytes], since: bytes) -> dict[str, int]:
    """Counts the messages of the packets that were exported since then, but for those that another export took over."""
    total: dict[str, int] = {}
    last: dict[str, int] = {}
    for line in log:
        export = _EXPORT.fullmatch(line)
        ack = None if export else _ACK.fullmatch(line)
        if export:
            name = export.group(2).decode("latin-1")
            last[name] = int(export.group(3)) if export.group(1) >= since else 0
        elif ack:
            name = ack.group(2).decode("latin-1")
            total[name] = total.get(name, 0) + last.pop(name, 0)
    return {name: total.get(name, 0) + last.get(name, 0) for name in {*total, *last}}
