"""The list `upkeep` of a shelf: how many messages a conference keeps, and how long, and who calls no more.

    # number, how many messages stay at most, and how many days
    0 keep 5000 days 365
    7 days 30
    left "Old User"

Of `keep` and `days` one may lack. Nothing is held for a user who has left. Empty lines, and those that begin with `#`,
are skipped.
"""

from __future__ import annotations

import re
from dataclasses import dataclass
from typing import Collection, Optional

from .failure import WRONG_WORDS, Failure

_RULE = re.compile(r"([0-9]{1,5})((?:\s+(?:keep|days)\s+[1-9][0-9]{0,4}){1,2})")
_LEFT = re.compile(r'left\s+"([^"]+)"')


@dataclass(frozen=True)
class Rule:
    """What stays in a conference: its newest messages, so many, and those of so many days."""

    number: int
    keep: Optional[int]
    days: Optional[int]


@dataclass(frozen=True)
class UpkeepRules:
    """The rules of a list, and the users who have left, in small letters."""

    rules: "list[Rule]"
    left: "frozenset[bytes]"


def read(path: str, numbers: Collection[int], users: Collection[bytes]) -> UpkeepRules:
    """Reads the list, for a board with conferences of these numbers, and these users."""
    rules: "dict[int, Rule]" = {}
    left = set()
    known = {name.lower() for name in users}
    for at, line in _lines(path):
        name = _LEFT.fullmatch(line)
        if name is None:
            rule = _rule(line, at)
            _look(rule.number not in rules, f"{at}: the conference {rule.number} is listed twice")
            _look(rule.number in numbers, f"{at}: the board has no conference {rule.number}")
            rules[rule.number] = rule
        else:
            user = name.group(1).encode("latin-1").lower()
            _look(user in known, f"{at}: the board has no user {name.group(1)}")
            left.add(user)
    return UpkeepRules(list(rules.values()), frozenset(left))


def _lines(path: str) -> "list[tuple[str, str]]":
    """Gives the lines that count, each with where it stands."""
    with open(path, encoding="latin-1") as file:
        stripped = [line.strip() for line in file]
    numbered = ((f"{path}, line {number}", line) for number, line in enumerate(stripped, 1))
    return [(at, line) for at, line in numbered if line and not line.startswith("#")]


def _rule(line: str, at: str) -> Rule:
    match = _RULE.fullmatch(line)
    words = match.group(2).split() if match else []
    limits = dict(zip(words[::2], map(int, words[1::2])))
    form = 'a line is CONF keep COUNT days DAYS, or left "USER"'
    _look(match is not None and len(limits) == len(words) // 2, f"{at}: {form}")
    return Rule(int(line.split()[0]), limits.get("keep"), limits.get("days"))


def _look(holds: bool, line: str) -> None:
    if not holds:
        raise Failure(line, WRONG_WORDS)
