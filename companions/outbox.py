"""What has to be kept on disk: deliveries until the gate has answered them, and a part's own notes."""
from __future__ import annotations

import json
import time
from collections.abc import Callable, Container
from dataclasses import dataclass
from pathlib import Path
from typing import Any

from companions.gate import Answer, Delivery, Gate
from companions.tables import opened

TABLES = """
CREATE TABLE IF NOT EXISTS delivery(place INTEGER PRIMARY KEY AUTOINCREMENT, lane TEXT NOT NULL,
    id TEXT NOT NULL UNIQUE, door TEXT NOT NULL, said TEXT NOT NULL);
CREATE INDEX IF NOT EXISTS delivery_lane ON delivery(lane, place);
CREATE TABLE IF NOT EXISTS note(name TEXT PRIMARY KEY, said TEXT NOT NULL);
"""

# So many notes are written at once.
MANY = 400

# The order is shown to the forge: the lander answers it, and then the gate takes this delivery.
SUBMITTING = "E9"


class Notes:
    """A part's notes, by name, in a file that a crash leaves before or after each change."""

    def __init__(self, file: Path) -> None:
        self.tables = opened(file, TABLES)

    def get(self, name: str) -> Any:
        row = self.tables.execute("SELECT said FROM note WHERE name = ?", (name,)).fetchone()
        return None if row is None else json.loads(row[0])

    def put(self, name: str, said: Any) -> None:
        self.tables.execute("INSERT OR REPLACE INTO note VALUES (?, ?)", (name, json.dumps(said)))

    def put_all(self, said: dict[str, Any]) -> None:
        """Notes all of this, or as many as fit at once of very many."""
        rows = list(said.items())
        for at in range(0, len(rows), MANY):
            some = [it for name, value in rows[at:at + MANY] for it in (name, json.dumps(value))]
            self.tables.execute(f"INSERT OR REPLACE INTO note VALUES {', '.join(['(?, ?)'] * (len(some) // 2))}", some)

    def all(self, beginning: str) -> dict[str, Any]:
        """The notes whose names begin so, in the order of their names."""
        rows = self.tables.execute("SELECT name, said FROM note WHERE name >= ? AND name < ? ORDER BY name",
                                   (beginning, beginning + "\U0010ffff"))
        return {name: json.loads(said) for name, said in rows}

    def drop(self, name: str) -> None:
        self.tables.execute("DELETE FROM note WHERE name = ?", (name,))

    def names(self, beginning: str) -> list[str]:
        """The names that begin so."""
        rows = self.tables.execute("SELECT name FROM note WHERE substr(name, 1, ?) = ? ORDER BY name",
                                   (len(beginning), beginning))
        return [row[0] for row in rows]


@dataclass(frozen=True)
class Kept:
    """A delivery that is kept: the lane in whose order it goes, its id, its door, and what it says beside the id."""
    lane: str
    id: str
    door: str
    said: Delivery


class Outbox(Notes):
    """Deliveries that are kept until they are answered, in lanes.

    Within a lane they are sent in the order in which they were kept, each once the one before it is answered. Lanes
    don't wait for each other: use one a change, so that one change's trouble is its own.
    """

    def __init__(self, file: Path) -> None:
        super().__init__(file)
        self.later: dict[str, float] = {}
        self.shown: dict[str, str] = {}

    def keep(self, delivery: Kept) -> None:
        """Keeps a delivery; one that is kept already, by its id, stays where it is."""
        self.tables.execute("INSERT OR IGNORE INTO delivery(lane, id, door, said) VALUES (?, ?, ?, ?)",
                            (delivery.lane, delivery.id, delivery.door, json.dumps(delivery.said)))

    def is_empty(self) -> bool:
        return self.tables.execute("SELECT 1 FROM delivery LIMIT 1").fetchone() is None

    def is_due(self) -> bool:
        """Whether anything may be sent by now."""
        return any(self.later.get(it.lane, 0.0) <= time.monotonic() for it in self.firsts())

    def firsts(self) -> list[Kept]:
        """The first delivery of each lane, the oldest first."""
        rows = self.tables.execute("SELECT lane, id, door, said FROM delivery JOIN (SELECT min(place) AS first FROM"
                                   " delivery GROUP BY lane) ON place = first ORDER BY place")
        return [Kept(lane, id, door, json.loads(said)) for lane, id, door, said in rows]

    def submitting(self) -> list[Kept]:
        """The first deliveries of those lanes that wait for the answer to an order, as far as the gate has said so."""
        return [it for it in self.firsts() if self.shown.get(it.lane) == it.id] if self.shown else []

    def send(self, gate: Gate, told: Callable[[Kept, Answer], None], pause: float = 1.0,
             waits: Callable[[], None] = lambda: None, held: Container[str] = ()) -> bool:
        """Sends what may be sent by now, but for the lanes that are held, and says whether nothing is left.

        A lane whose order is shown is tried again after a pause. Without an answer all stay as they are: `NoAnswer`.
        `told` is called with each final answer, before the delivery goes, and `waits` where an order is shown.
        """
        moved = True
        while moved:
            moved = False
            for first in self.firsts():
                if first.lane in held or self.later.get(first.lane, 0.0) > time.monotonic():
                    continue
                answer = gate.post(first.door, {"id": first.id, **first.said})
                if answer.code == SUBMITTING:
                    self.later[first.lane] = time.monotonic() + pause
                    self.shown[first.lane] = first.id
                    waits()
                    continue
                self.later.pop(first.lane, None)
                self.shown.pop(first.lane, None)
                told(first, answer)
                self.tables.execute("DELETE FROM delivery WHERE id = ?", (first.id,))
                moved = True
        return self.is_empty()
