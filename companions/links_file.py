"""Where the logs of builds are that a CI has run, for the page for people: the links that `companions.ci` keeps, in the
folder that the proxy gives out."""
from __future__ import annotations

import json
from dataclasses import asdict
from pathlib import Path

from companions import figures, links

NAME = "links.json"
# What else an address may begin with isn't for a page.
WEB = ("http://", "https://")


class LinksFile:
    """Keeps the file in a folder, by what lies in the companions' own."""

    def __init__(self, companions: Path, folder: Path) -> None:
        self.source, self.file = links.file_in(companions), folder / NAME
        self.seen: tuple[int, int] | None = None

    def look(self) -> None:
        """Writes the file where there are other links by now."""
        try:
            said = self.source.stat()
        except FileNotFoundError:
            return
        now = said.st_ino, said.st_mtime_ns
        if now == self.seen and self.file.exists():
            return
        rows = [asdict(it) for it in links.read(self.source) if it.link.startswith(WEB)]
        figures.write(self.file, json.dumps({"builds": rows}))
        self.seen = now
