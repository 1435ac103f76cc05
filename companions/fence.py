"""Whether another machine has taken the gate over: asked before this machine's gate is started.

    python3 -m companions.fence companions.toml [ask]

No gate runs here then. So an answer at the gate's address is that of another machine's, and the status is 1. A mark in
the companions' folder keeps lander, adapter and watch from starting too; with `ask` none is made.
"""
from __future__ import annotations

import sys
from pathlib import Path

from companions.command_line import CommandLine
from companions.gate import Gate, NoAnswer, say
from companions.reader import SettingsFault
from companions.settings import read

PART, MARK = "fence", "replaced"
# Seconds that a start is held up at most: nobody answers where this machine is the gate's.
PATIENCE = 5.0


def main(words: list[str]) -> int:
    line = CommandLine(PART, __doc__)
    line.add_settings()
    line.add_argument("ask", nargs="?", choices=["ask"], metavar="ask", help="make no mark")
    return line.run(words, lambda asked: status_of(asked.settings, marks=asked.ask is None))


def status_of(file: Path, marks: bool) -> int:
    """1 if the gate isn't to be started here, else 0."""
    if not file.exists():
        say(PART, f"{file} isn't there, so nobody is asked")
        return 0
    try:
        settings = read(file)
    except SettingsFault as fault:
        # It is no cause to have no gate. The companions say it too.
        say(PART, f"nobody is asked: {fault}")
        return 0
    mark = settings.folder / MARK
    try:
        Gate(settings.url, settings.account("people"), PATIENCE).status()
    except NoAnswer:
        if mark.exists():
            say(PART, f"{mark} is there: this machine was retired. Remove that file if it is to be the gate's again")
            return 1
        return 0
    say(PART, f"another machine's gate answers at {settings.url}: this machine's isn't started. It is the standby now,"
              " or the name leads to the wrong machine")
    if marks:
        mark.touch()
    return 1


if __name__ == "__main__":
    sys.exit(main(sys.argv[1:]))
