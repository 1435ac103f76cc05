"""What the tests of people told share: changes with their requests, a gate, and a forge that notes what is written."""
from __future__ import annotations

import contextlib
import io
import tempfile
import unittest
from collections.abc import Callable
from datetime import datetime, timezone
from pathlib import Path
from typing import Any

from companions.forges import Limits, Place
from companions.gate import Gate
from companions.moments import Moment
from companions.outbox import Notes
from companions.people import Manner, People
from companions.people_seen import Subject
from companions.tests.standin import StandIn

PLACES = {101: Place("o/app", 11), 102: Place("o/app", 12), 103: Place("o/app", 13), 104: Place("o/lib", 14)}
GONE = (404, {"code": "E5", "error": "unknown-change"})
NEWS = Manner(logs="https://logs/{build}", quiet=0.0, limits=Limits(10 ** 6))


def subject(change: int, *commits: str, **other: Any) -> Subject:
    return Subject(change, PLACES[change], commits or (f"{change:040d}",), **other)


class PretendForge:
    """Notes each write. `before` may raise in place of a write, `after` when it is done."""
    limits, leaves_open = Limits(10 ** 6), False

    def __init__(self) -> None:
        self.statuses: dict[str, tuple[str, str]] = {}
        self.comments: dict[int, tuple[Place, str]] = {}
        self.written: list[str] = []
        self.is_open = True
        self.now: datetime | None = datetime(2026, 1, 1, tzinfo=timezone.utc)
        self.takes_statuses = True
        self.before: Callable[[Place | None], None] = lambda place: None
        self.after: Callable[[], None] = lambda: None

    def set_status(self, repository: str, commit: str, state: str, text: str) -> bool:
        self.before(None)
        self.statuses[commit] = state, text
        self.written.append(f"{repository} {commit.lstrip('0') if commit.isdigit() else commit}: {state}: {text}")
        self.after()
        return self.takes_statuses

    def time(self) -> datetime | None:
        return self.now

    def comment(self, place: Place, comment: int | None, text: str) -> int:
        self.before(place)
        if comment not in self.comments:
            # As forges' forms do, which know their own comments.
            comment = self.find(place) or 1 + max(self.comments, default=0)
        self.comments[comment] = place, text
        self.written.append(f"{place.repository} {place.number}, comment {comment}: {text.splitlines()[0]}")
        self.after()
        return comment

    def close(self, place: Place, head: str) -> bool:
        self.before(place)
        self.written.append(f"{place.repository} {place.number}: closed at {head.lstrip('0')}")
        self.after()
        return self.is_open

    def find(self, place: Place) -> int | None:
        return next((at for at, it in self.comments.items() if it[0] == place), None)

    def news(self) -> list[str]:
        news, self.written = self.written, []
        return news


class PretendGate:
    """Two queues, as their texts show them, and the answers about changes and items."""

    def __init__(self) -> None:
        self.items: list[str] = []
        self.waiting: list[int] = []
        self.reports: list[str] = []
        self.changes: dict[int, dict[str, Any]] = {}
        self.orders: dict[int, dict[str, Any]] = {}
        self.answers = True

    def know(self, change: int, *needs: int, **other: Any) -> None:
        said = [{"change": it, "state": "open", "stands": None, "approval": None} for it in needs]
        self.changes[change] = {"approval": None, "change": change, "full": False, "needs": said, "order": None,
                                "queue": "core", "revision": 1, "state": "open", **other}

    def leave(self, order: int, change: int, verdict: str, n: int | str = "-", revision: int = 1) -> None:
        self.reports.append(f"{order} {change} {revision} {verdict} {n}")

    def build(self, order: int, change: int, jobs: dict[str, bool] | None, *failed: str) -> None:
        builds = [{"build": at, "job": job, "live": True, "outcome": "failure"} for at, job in enumerate(failed, 17)]
        told = None if jobs is None else [{"job": job, "slot": "failure", "voting": it} for job, it in jobs.items()]
        self.orders[order] = {"builds": builds, "change": change, "jobs": told}

    def answer(self, _method: str, path: str, _body: bytes) -> tuple[int, Any] | None:
        kind, *rest = path[1:].split("/")
        if not self.answers:
            return None
        if kind == "status":
            waiting = [f"waiting {it} 1" for it in self.waiting]
            return 200, "\n".join(["queue core window 3 landed 0", *self.items, "queue web window 3 landed 0", *waiting,
                                   "end", ""])
        if kind == "history":
            start = int(rest[1])
            rows = [] if rest[0] == "web" else [f"{at} {it}" for at, it in enumerate(self.reports, 1)]
            return 200, "\n".join([f"history {rest[0]}", *rows[start - 1:start + 999], f"end {len(rows)}", ""])
        said = (self.changes if kind == "changes" else self.orders).get(int(rest[0]))
        return (200, said) if said is not None else GONE


class PeopleCase(unittest.TestCase):
    def setUp(self) -> None:
        folder = tempfile.TemporaryDirectory()
        self.addCleanup(folder.cleanup)
        self.folder = Path(folder.name)
        self.gate, self.forge = PretendGate(), PretendForge()
        self.standin = self.enterContext(StandIn(lambda *asked: self.gate.answer(*asked)))
        self.errors = self.enterContext(contextlib.redirect_stderr(io.StringIO()))
        self.people = self.start()
        self.boot, self.now = "one", 1000.0

    def start(self, manner: Manner = NEWS) -> People:
        return People(Gate(self.standin.url, None), Notes(self.folder / "people.db"), self.forge, PLACES.get, manner)

    def look(self, *subjects: Subject) -> list[str]:
        """What a look writes."""
        self.now += 1
        told = subjects or (subject(101),)
        self.done = self.people.look(told, Moment(self.boot, self.now))
        self.is_done = set(self.done) == {it.change for it in told}
        return self.forge.news()

    def asked(self) -> list[str]:
        paths = [path for _, path, _ in self.standin.asked]
        self.standin.asked.clear()
        return paths
