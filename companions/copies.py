"""Keeps copies of the adapter's tables, which a standby fetches by the proxy.

    python3 -m companions.copies companions.toml

`adapter.tar` has the copies, and `adapter.stamp` its SHA-256. The stamp is written again each second. By its time a
standby knows that the copies have all that the adapter wrote before.
"""
from __future__ import annotations

import hashlib
import os
import sqlite3
import sys
import tarfile
import tempfile
import time
import urllib.parse
from contextlib import closing
from pathlib import Path

from companions.gate import say
from companions.settings import Settings
from companions.starting import start

PART = "copies"
TABLES = ("adapter.db", "people.db")
PAUSE = 1.0


class Copies:
    """Copies of the tables of one folder, kept in another one."""

    def __init__(self, source: Path, target: Path) -> None:
        self.source, self.target = source, target
        self.opened: dict[str, sqlite3.Connection] = {}
        self.copied: dict[str, int] = {}
        self.sum = ""

    def look(self, now: float) -> None:
        """Copies anew where something was written, and says by the stamp that all of before `now` is there."""
        for name in TABLES:
            file = self.source / name
            if name not in self.opened and file.exists():
                self.opened[name] = sqlite3.connect(f"file:{urllib.parse.quote(str(file))}?mode=rw", uri=True)
        # It changes with each step that another connection has written.
        seen = {name: int(it.execute("PRAGMA data_version").fetchone()[0]) for name, it in self.opened.items()}
        if seen != self.copied or not self.sum:
            self.copy()
            self.copied = seen
        stamp = self.target / "adapter.stamp.new"
        stamp.write_text(f"{self.sum}\n", encoding="ascii")
        os.utime(stamp, (now, now))
        stamp.rename(self.target / "adapter.stamp")

    def copy(self) -> None:
        new = self.target / "adapter.tar.new"
        with tempfile.TemporaryDirectory() as folder, tarfile.open(new, "w") as tar:
            for name, tables in self.opened.items():
                with closing(sqlite3.connect(Path(folder) / name)) as copy:
                    tables.backup(copy)
                    # No log stays beside the copy.
                    copy.execute("PRAGMA journal_mode=DELETE")
                tar.add(Path(folder) / name, name)
        with open(new, "rb") as file:
            self.sum = hashlib.file_digest(file, "sha256").hexdigest()
        new.rename(self.target / "adapter.tar")

    def close(self) -> None:
        for it in self.opened.values():
            it.close()
        self.opened.clear()


def run(settings: Settings) -> int:
    if settings.adapter is None or settings.adapter.copies is None:
        say(PART, "stops: the settings have no adapter.copies")
        return 1
    copies, trouble = Copies(settings.folder / "adapter", settings.adapter.copies), ""
    while True:
        try:
            copies.look(time.time())
        except (OSError, sqlite3.Error, tarfile.TarError) as fault:
            copies.close()
            if trouble != str(fault):
                say(PART, f"no copy of the adapter's tables: {fault}")
            trouble = str(fault)
        else:
            trouble = ""
        time.sleep(PAUSE)


def main(words: list[str]) -> int:
    return start(PART, words, run)


if __name__ == "__main__":
    sys.exit(main(sys.argv[1:]))
