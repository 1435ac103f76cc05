"""The files of tables in which the companions keep what has to stay, and the version of their form.

A file of an earlier version is carried over when it is opened, by one transaction. One of a later version is refused:
a program that doesn't know it could only break it.
"""
from __future__ import annotations

import sqlite3
from collections.abc import Iterator, Sequence
from contextlib import contextmanager
from pathlib import Path

# What carries the tables of a file from each version to the next one, the first from 0: files had no version then, and
# the same tables. A statement that is about a table stands behind its name, and is left out where the file has none.
Step = Sequence[tuple[str, str]]
STEPS: list[Step] = [(), (("hint", "ALTER TABLE hint ADD COLUMN is_hook INTEGER DEFAULT 1"),),
                     (("vote", "ALTER TABLE vote ADD COLUMN hash TEXT"),),
                     (("revision", "ALTER TABLE revision ADD COLUMN shown TEXT"),),
                     (("change", "ALTER TABLE change ADD COLUMN left_at REAL"),
                      ("change", "ALTER TABLE change ADD COLUMN dropped INTEGER DEFAULT 0")),
                     (("request", "ALTER TABLE request ADD COLUMN title TEXT DEFAULT ''"),
                      ("request", "ALTER TABLE request ADD COLUMN author TEXT DEFAULT ''"),
                      ("request", "ALTER TABLE request ADD COLUMN said TEXT DEFAULT '[]'"),
                      ("request", "ALTER TABLE request ADD COLUMN ended REAL")),
                     (("revision", "ALTER TABLE revision ADD COLUMN tag TEXT"),)]


class OtherVersion(sqlite3.DatabaseError):
    """A later version of this program has made the file."""


def opened(file: Path, script: str) -> sqlite3.Connection:
    """The tables of a file, those of a script among them, in the form of now."""
    file.parent.mkdir(parents=True, exist_ok=True)
    tables = sqlite3.connect(file, isolation_level=None, check_same_thread=False, timeout=60)
    try:
        version_of(tables, file)
        tables.execute("PRAGMA journal_mode=WAL")
        tables.execute("PRAGMA synchronous=FULL")
        carry_over(tables, file)
        add(tables, script)
    except BaseException:
        tables.close()
        raise
    return tables


def version_of(tables: sqlite3.Connection, file: Path) -> int:
    """The version of a file that may be opened."""
    version = int(tables.execute("PRAGMA user_version").fetchone()[0])
    if version > len(STEPS):
        raise OtherVersion(f"{file} is of version {version}, and this program knows versions up to {len(STEPS)}:"
                           " install the version that made it, or a later one")
    return version


def carry_over(tables: sqlite3.Connection, file: Path) -> None:
    """Carries all tables of a file over to the version of now, or none."""
    if version_of(tables, file) == len(STEPS):
        return
    with at_once(tables):
        for step in STEPS[version_of(tables, file):]:
            for table, statement in step:
                if tables.execute("SELECT 1 FROM sqlite_master WHERE name = ?", (table,)).fetchone():
                    tables.execute(statement)
        tables.execute(f"PRAGMA user_version = {len(STEPS)}")


def add(tables: sqlite3.Connection, script: str) -> None:
    """Makes the tables of a part where a file doesn't have them yet, in the form of now."""
    tables.executescript(script)


@contextmanager
def at_once(tables: sqlite3.Connection) -> Iterator[None]:
    """All that is written within is written at once."""
    tables.execute("BEGIN IMMEDIATE")
    try:
        yield
    except BaseException:
        tables.execute("ROLLBACK")
        raise
    tables.execute("COMMIT")
