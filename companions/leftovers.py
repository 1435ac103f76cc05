"""Drops the commits of requests that were closed without landing, some days later: here, and what was pushed of them.

Everybody may open requests, and each of their commits would stay for ever. One that is opened again is a new revision,
whose commit is fetched, and pushed once it is approved, as that of a new request.
"""
from __future__ import annotations

import time
from collections.abc import Callable

from companions.gate import Gate, say
from companions.looks import Looks
from companions.repository import Repository

# So many changes are dropped at a time, as each takes a push.
MOST = 50
DAY = 86400.0


class Leftovers:
    """Knows since when each change is closed, by a clock that may be set: then its commit goes sooner or later."""

    def __init__(self, looks: Looks, gate: Gate, clock: Callable[[], float] = time.time) -> None:
        self.looks, self.changes, self.gate, self.clock = looks, looks.changes, gate, clock
        self.keep = looks.adapter.keep * DAY

    def drop(self) -> None:
        """Drops what has been closed for long enough, and nothing that the gate may still land."""
        due = self.changes.left(self.clock(), self.keep)[:MOST]
        touched = dict[str, Repository]()
        for change in due:
            home, place = self.changes.home(change), self.changes.place(change)
            project = self.looks.projects.get(home) if home is not None else None
            if project is None or place is None or self.is_wanted(change):
                continue
            repository = self.looks.repositories[project.name]
            self.take_away(repository, change)
            if not self.changes.is_alive(place):
                repository.drop(*repository.here(self.looks.forge.head_ref(place.number)))
            self.changes.dropped(change)
            touched[project.name] = repository
            say("adapter", f"change {change}, {place.repository} {place.number}: closed without landing, so its commits"
                           " are dropped")
        for repository in touched.values():
            repository.clean()

    def is_wanted(self, change: int) -> bool:
        """Whether a change isn't closed for the gate, or it wasn't told that."""
        known = self.gate.change(change)
        return self.changes.waits(change) or known is not None and (
            known["state"] != "closed" or known["order"] is not None)

    def take_away(self, repository: Repository, change: int) -> None:
        """Takes away all that was pushed of a change."""
        for name, there in repository.listed(f"refs/changes/{change}/*").items():
            repository.take_away(name, there)
        repository.drop(*repository.names(f"refs/changes/{change}"))
