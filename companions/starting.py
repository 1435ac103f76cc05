"""How a companion starts: under settings that can be read, and alone in its folder, or not at all."""
from __future__ import annotations

import fcntl
import sys
from collections.abc import Callable
from pathlib import Path
from typing import IO

from companions.command_line import CommandLine
from companions.gate import say
from companions.reader import SettingsFault
from companions.settings import Settings, read
from companions.tables import OtherVersion


def alone(folder: Path) -> IO[str] | None:
    """A hold on a part's folder, or none while another process has it."""
    folder.mkdir(parents=True, exist_ok=True)
    hold = (folder / "lock").open("w", encoding="utf-8")
    try:
        fcntl.flock(hold, fcntl.LOCK_EX | fcntl.LOCK_NB)
    except BlockingIOError:
        hold.close()
        return None
    return hold


def hold_of(part: str, folder: Path) -> IO[str] | None:
    """A part's hold on its folder. Without it the part can't begin: none, and why is said."""
    try:
        hold = alone(folder)
    except OSError as fault:
        say(part, f"stops: its folder can't be used: {fault}")
        return None
    if hold is None:
        say(part, f"stops: another {part} has the folder")
    return hold


def start(part: str, words: list[str], run: Callable[[Settings], int]) -> int:
    """Runs a part under the settings of the file that the words name, and gives the status of its process.

    It is 2 where the words name no file, 1 where the settings are wrong, the part has no folder of its own or a later
    version's, else what `run` gives.
    """
    line = CommandLine(part, sys.modules[run.__module__].__doc__)
    line.add_settings()
    return line.run(words, lambda asked: begin(part, asked.settings, run))


def begin(part: str, file: Path, run: Callable[[Settings], int]) -> int:
    try:
        settings = read(file)
    except SettingsFault as fault:
        print(fault, file=sys.stderr)
        return 1
    hold = hold_of(part, settings.folder / part)
    if hold is None:
        return 1
    with hold:
        try:
            return run(settings)
        except OtherVersion as fault:
            say(part, f"stops: {fault}")
            return 1
