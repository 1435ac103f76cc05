"""The checks of a request at the forge that have to pass before an approval of it is told: `adapter.require`.

They are those of the request's own commit, as its CI says them there: a status, at GitHub also a check run, at GitLab
also a job. Only a success is one. Whoever may write to the repository can set a status, so this spares tests, and
guards nothing: what lands is decided by the gate's jobs.
"""
from __future__ import annotations

import urllib.parse
from collections.abc import Sequence
from typing import Any

from companions.api import ForgeFault, expected
from companions.ci_settings import Ci
from companions.judged import Kind, Report, shown
from companions.outbox import Notes
from companions.requests import Request
from companions.statuses import NONE, OF_FORM, STATUSES, word_of

# So many check runs of a name are read.
RUNS = 100


class Required:
    """Asks a forge for the checks of these names."""

    def __init__(self, names: Sequence[str], form: str, forge: Any, notes: Notes) -> None:
        self.names, self.form, self.forge, self.notes = tuple(names), form, forge, notes

    def unmet(self, so: Request) -> list[str]:
        """Why an approval of a request isn't told yet: a line for each check that hasn't passed. `ForgeFault` where
        nobody knows."""
        if not self.names:
            return []
        with expected(so.repository):
            found = self.of_commit(so.repository, so.head)
            if self.form == "github":
                for name in self.names:
                    found[name] += self.runs(so.repository, so.head, name)
        return [f"{shown(name)} {why}: no approval counts before it has passed" for name in self.names
                if (why := why_not(found[name])) is not None]

    def of_commit(self, repository: str, commit: str) -> dict[str, list[Report]]:
        """The newest status of each name."""
        found: dict[str, list[Report]] = {it: [] for it in self.names}
        statuses = OF_FORM[self.form](self.forge, Ci(), self.notes)
        for row in statuses.newest(repository, commit, STATUSES):
            report = statuses.status(row)
            if report.name in found and not found[report.name]:
                found[report.name] = [report]
                if all(found.values()):
                    break
        return found

    def runs(self, repository: str, commit: str, name: str) -> list[Report]:
        """GitHub's check runs of a name, the last one of each app."""
        query = urllib.parse.urlencode({"check_name": name, "filter": "latest", "per_page": RUNS})
        try:
            path = f"{self.forge.repository(repository)}/commits/{commit}/check-runs?{query}"
            said = self.forge.api.call("GET", path)
        except ForgeFault as fault:
            if fault.status not in NONE:
                raise
            return []
        return [Report(name, int(it["id"]), word_of(it)) for it in said["check_runs"] if it["name"] == name]


def why_not(reports: Sequence[Report]) -> str | None:
    """Why a check hasn't passed, if it hasn't."""
    if not reports:
        return "hasn't come"
    return next((f"is {it}" for it in reports if it.kind is not Kind.SUCCESS), None)
