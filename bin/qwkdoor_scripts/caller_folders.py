"""A caller's folders in SHELF/mail, and those that lead to one another."""

from __future__ import annotations

import errno
import os
import re
from typing import Optional

from . import durable

PARTS = ("", "in", "out", "kept", "work")
# What a run makes anew each time: a letter's file, an export, what is written before it is renamed, and what today's
# zip left.
_LEFT = re.compile(r"msg|CONTROL\.DAT|MESSAGES\.DAT|packet\.zip|.*\.new|zi.{6}")
_Owners = dict[tuple[int, int], list[tuple[str, str]]]


class CallerFault(Exception):
    """One caller can't be served, or not wholly. The others are."""


class Folders:
    """The paths of a caller."""

    def __init__(self, mail: str, name: str) -> None:
        self.name = name
        self.mail = mail
        self.top = os.path.join(mail, name)
        self.entry = os.path.join(mail, name, "in")
        self.out = os.path.join(mail, name, "out")
        self.kept = os.path.join(mail, name, "kept")
        self.work = os.path.join(mail, name, "work")

    def in_work(self, file: str) -> str:
        """Gives the path of a file of the folder `work`."""
        return os.path.join(self.work, file)

    def make(self) -> None:
        """Makes those that are missing."""
        for part in PARTS:
            path = os.path.join(self.mail, self.name, part).rstrip("/")
            try:
                durable.make_folder(path)
            except FileExistsError as error:
                raise NotADirectoryError(errno.ENOTDIR, "it isn't a folder", path) from error

    def sweep(self) -> None:
        """Takes away what is made anew each time."""
        with os.scandir(self.work) as entries:
            left = [entry.path for entry in entries if _LEFT.fullmatch(entry.name)]
        for path in left:
            durable.remove(path)


def shared(mail: str, data: str, names: list[str]) -> dict[str, str]:
    """Gives the callers who have a folder that is another's too, or twice, or the board's, each with what is wrong.

    Where one of those callers has it under its own path, and the others by a link, it is his.
    """
    faults: dict[str, str] = {}
    for paths in _owners(mail, data, names).values():
        if len(paths) > 1:
            faults.update(_faults(mail, paths))
    return faults


def _owners(mail: str, data: str, names: list[str]) -> _Owners:
    """Gives the callers and paths of each folder that is there. The board's own folders have no caller's name."""
    owners: _Owners = {}
    own = [("", path) for path in (data, os.path.dirname(mail), mail)]
    for name, path in own + [(name, os.path.join(mail, name, part).rstrip("/")) for name in names for part in PARTS]:
        try:
            found = os.stat(path)
        except OSError:
            continue
        owners.setdefault((found.st_dev, found.st_ino), []).append((name, path))
    return owners


def _faults(mail: str, paths: list[tuple[str, str]]) -> dict[str, str]:
    top = os.path.realpath(mail)
    as_named = {path: os.path.join(top, os.path.relpath(path, mail)) for _, path in paths}
    own = [it for it in paths if not it[0] or os.path.realpath(it[1]) == as_named[it[1]]]
    mine = own[0] if len(own) == 1 else None
    return {
        name: f"{path} is one folder with {_other(paths, path, mine)}: this caller isn't served"
        for name, path in paths
        if (name, path) != mine
    }


def _other(paths: list[tuple[str, str]], path: str, mine: Optional[tuple[str, str]]) -> str:
    return mine[1] if mine else next(it for _, it in paths if it != path)
