"""What the companion adapter has noted, read beside it: which change is which request at which branch."""
from __future__ import annotations

import contextlib
import json
import sqlite3
from pathlib import Path
from typing import Any

from companions.forges import Place

# The adapter makes its tables when it starts, and may be about to.
LACKING = "no such table"


class AdapterFile:
    """The file of an adapter. Each question opens it anew, since the adapter may be killed and started meanwhile."""

    def __init__(self, file: Path) -> None:
        self.file = file
        # What ids are made of beside what they stand for: drawn for a file that has accepted nothing, then its first.
        self.ids: list[str] = []

    def rows(self, question: str, *values: object) -> list[Any]:
        if not self.file.exists():
            return []
        with contextlib.closing(sqlite3.connect(self.file, timeout=60)) as tables:
            try:
                return tables.execute(question, values).fetchall()
            except sqlite3.OperationalError as fault:
                if LACKING in str(fault):
                    return []
                raise

    def note_ids(self) -> bool:
        """Notes what ids are made of by now, if the adapter knows it."""
        for said, in self.rows("SELECT said FROM note WHERE name = 'file'"):
            ids = json.loads(said)["ids"]
            self.ids += [ids] if ids not in self.ids else []
        return bool(self.ids)

    def changes(self, place: Place) -> dict[str, int]:
        """The numbers of a request's changes, by branch."""
        return dict(self.rows("SELECT branch, number FROM change WHERE repository = ? AND request = ?",
                              place.repository, place.number))

    def place(self, change: int) -> Place | None:
        rows = self.rows("SELECT repository, request FROM change WHERE number = ?", change)
        return Place(*rows[0]) if rows else None

    def commits(self, change: int) -> list[str]:
        """The commits of a change's revisions that were told, from the first."""
        return [row[0] for row in self.rows("SELECT hash FROM revision WHERE change = ? ORDER BY number", change)]

    def is_anything_kept(self) -> bool:
        """Whether there is something that the gate hasn't answered."""
        return bool(self.rows("SELECT 1 FROM delivery"))

    def is_hinted(self, place: Place) -> bool:
        where = "repository = ? AND request = ?"
        return bool(self.rows(f"SELECT 1 FROM hint WHERE {where}", place.repository, place.number))

    def is_kept(self, change: int, kind: str) -> bool:
        """Whether something of a kind is kept about a change, which the gate hasn't answered."""
        said = [json.loads(row[0]) for row in self.rows("SELECT said FROM delivery")]
        return any((it["change"], it["kind"]) == (change, kind) for it in said)
