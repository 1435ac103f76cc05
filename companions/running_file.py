"""Since when builds run, for the page for people.

The gate has no clock, and a page sees only what begins while it is open.
"""
from __future__ import annotations

import json
from collections.abc import Mapping
from pathlib import Path

from companions import figures

NAME = "running.json"


class RunningFile:
    """Keeps the file in a folder, with the second of the clock in which the watch first saw each build that runs."""

    def __init__(self, folder: Path) -> None:
        self.file = folder / NAME
        self.since: dict[str, int] = {}
        self.written = ""

    def look(self, seen: Mapping[str, float], now: float, clock: float) -> None:
        """Writes the file where other builds run by now. `seen` has when each was first seen, by the time that `now` is
        of; their keys begin with their numbers."""
        self.since = {key: self.since.get(key, round(clock - (now - at))) for key, at in seen.items()}
        text = json.dumps({"builds": {key.partition("/")[0]: since for key, since in self.since.items()}})
        if text != self.written:
            figures.write(self.file, text)
            self.written = text
