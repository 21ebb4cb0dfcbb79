"""What a caller may choose: by words of the call, else by a file of settings, a section a board."""

from __future__ import annotations

import configparser
import dataclasses
import os
from dataclasses import dataclass
from typing import Any, Mapping

from .characters import CHARACTERS, terminals
from .failure import WRONG_WORDS, Failure

_FILE = "read.conf"
_SWITCHES = {"yes": True, "no": False}


@dataclass(frozen=True)
class Settings:
    """The settings for a board."""

    characters: str = "cp437"
    terminal: str = ""
    wrap_pictures: bool = False
    one_name: bool = False
    send_folder: str = ""
    send_command: str = ""

    @property
    def sends(self) -> bool:
        """Whether the reader sends an archive itself."""
        return bool(self.send_folder or self.send_command)


def config_path(environment: Mapping[str, str]) -> str:
    """Gives the path of the file of settings. Empty where the environment names no whole path for it."""
    home = _whole_path(environment, "XDG_CONFIG_HOME")
    if not home and environment.get("HOME"):
        home = os.path.join(environment["HOME"], ".config")
    return os.path.join(home, "qwkdoor", _FILE) if home else ""


def _whole_path(environment: Mapping[str, str], name: str) -> str:
    """Gives a folder of the XDG rules, by which a path that isn't whole counts as none."""
    path = environment.get(name, "")
    return path if os.path.isabs(path) else ""


def data_path(environment: Mapping[str, str]) -> str:
    """Gives the folder that has one for each board."""
    if environment.get("QWKDOOR_HOME"):
        return environment["QWKDOOR_HOME"]
    if _whole_path(environment, "XDG_DATA_HOME"):
        return os.path.join(environment["XDG_DATA_HOME"], "qwkdoor")
    if not environment.get("HOME"):
        raise Failure("neither QWKDOOR_HOME, XDG_DATA_HOME nor HOME says where the data are")
    return os.path.join(environment["HOME"], ".local", "share", "qwkdoor")


def read_settings(path: str, board_id: str, chosen: Mapping[str, Any]) -> Settings:
    """Gives the settings for a board: what the file says, and before it what the call says."""
    parser = configparser.ConfigParser(interpolation=None)
    try:
        with open(path, encoding="utf-8") as file:
            parser.read_file(file)
    except (FileNotFoundError, NotADirectoryError):
        pass
    except (configparser.Error, UnicodeDecodeError) as error:
        raise Failure(f"{path} can't be read: {' '.join(str(error).split())}", WRONG_WORDS) from error
    section = next((it for it in parser.sections() if it.upper() == board_id.upper()), parser.default_section)
    values = {**_known(path, dict(parser[section])), **chosen}
    settings = dataclasses.replace(Settings(), **values)
    settings = dataclasses.replace(settings, send_folder=os.path.expanduser(settings.send_folder))
    check_characters(settings.characters)
    check_terminal(settings.terminal or "utf-8")
    return settings


def _known(path: str, words: Mapping[str, str]) -> "dict[str, Any]":
    names = {it.name.replace("_", "-"): it.name for it in dataclasses.fields(Settings)}
    values: "dict[str, Any]" = {}
    for key, value in words.items():
        if key not in names:
            raise Failure(f"{path} has an unknown setting: {key}", WRONG_WORDS)
        values[names[key]] = _value(path, key, value, isinstance(getattr(Settings, names[key]), bool))
    return values


def _value(path: str, key: str, value: str, is_switch: bool) -> object:
    if not is_switch:
        return value
    if value not in _SWITCHES:
        raise Failure(f"{path} has {key} = {value}: say yes or no", WRONG_WORDS)
    return _SWITCHES[value]


def check_characters(name: str) -> None:
    """Failure where a name isn't one of a packet's characters."""
    if name not in CHARACTERS:
        raise Failure(f"the characters {name} aren't known: take one of {', '.join(CHARACTERS)}", WRONG_WORDS)


def check_terminal(name: str) -> None:
    """Failure where a name isn't that of a terminal's characters."""
    if not terminals(name):
        raise Failure(f"the terminal's characters {name} aren't known", WRONG_WORDS)
