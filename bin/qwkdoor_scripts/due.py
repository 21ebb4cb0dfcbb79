"""Which messages of a conference are due: too old, or more than stay; and which of them are held for a caller.

A member holds what he may see and hasn't acknowledged: public messages, and of the private ones those to or from him,
or all of them, where he is the sysop. Names are compared by their CRCs, so that two of one CRC hold too much at worst.
"""

from __future__ import annotations

import math
from dataclasses import dataclass

from .headers import Header, name_crc
from .upkeep_rules import Rule

_DAY = 86_400


@dataclass(frozen=True)
class Member:
    """A member of a conference: his name, whether he is the sysop, and up to which number he has acknowledged."""

    name: bytes
    sysop: bool
    pointer: int


@dataclass(frozen=True)
class Due:
    """The numbers of the messages that can go, those of the ones that are held, and the names of who holds them."""

    numbers: "list[int]"
    held: "list[int]"
    holders: "list[bytes]"


class Holds:
    """What the members of a conference hold."""

    def __init__(self, members: "list[Member]") -> None:
        self.members = members
        self.lowest = min((it.pointer for it in members), default=math.inf)
        self.sysop = min((it.pointer for it in members if it.sysop), default=math.inf)
        self.by_crc: "dict[int, float]" = {}
        for member in members:
            crc = name_crc(member.name)
            self.by_crc[crc] = min(member.pointer, self.by_crc.get(crc, math.inf))

    def hold(self, header: Header) -> bool:
        """Tells whether a member hasn't acknowledged a message that he may see."""
        if not header.private:
            return header.number > self.lowest
        pointers = (self.by_crc.get(crc, math.inf) for crc in header.people)
        return header.number > min([self.sysop, *pointers])

    def holders(self, held: "list[Header]") -> "list[bytes]":
        """Gives the names of the members who hold one of these messages, which rise by number."""
        newest = max((it.number for it in held), default=0)
        public = max((it.number for it in held if not it.private), default=0)
        private = {crc: it.number for it in held for crc in it.people}
        seen = (newest if it.sysop else max(public, private.get(name_crc(it.name), 0)) for it in self.members)
        return [it.name for it, number in zip(self.members, seen) if it.pointer < number]


def find(rule: Rule, headers: "list[Header]", members: "list[Member]", now: int) -> Due:
    """Finds the messages that are due by a rule, for members whose acknowledgement is waited for."""
    live = [it for it in headers if not it.deleted]
    surplus = max(len(live) - rule.keep, 0) if rule.keep else 0
    oldest = now - rule.days * _DAY if rule.days else 0
    due = live[:surplus] + [it for it in live[surplus:] if it.written < oldest]
    holds = Holds(members)
    held = [it for it in due if holds.hold(it)]
    kept = {it.number for it in held}
    return Due([it.number for it in due if it.number not in kept], sorted(kept), holds.holders(held))
