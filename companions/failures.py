"""Why a change has failed where that is no job's fault: it can't be merged.

A worker tells the gate an outcome and no more. So the adapter makes the same merge itself once an item fails, by the
function by which worker and lander make it, and notes what comes of it.
"""
from __future__ import annotations

import time
from collections.abc import Iterable, Mapping
from dataclasses import asdict
from typing import Any

from companions.conflicts import Cause, Conflict
from companions.gate import Gate, NoAnswer, expected
from companions.outbox import Notes
from companions.reader import SettingsFault
from companions.repository import GitFault
from companions.settings import Settings
from companions.trees import Trees, build_of

# How long a build rests whose merge couldn't be made, in seconds, and how many are made in one look.
REST, MOST = 60.0, 2


class Failures:
    """The merges of builds that have failed. Their mirrors are its own, beside those of the adapter's looks."""

    def __init__(self, settings: Settings, gate: Gate, notes: Notes) -> None:
        self.gate, self.notes = gate, notes
        self.rests: dict[int, float] = {}
        self.left = 0
        try:
            folder = settings.folder / "adapter" / "builds"
            self.trees: Trees | None = Trees(settings, folder, notes, f"GATED_ADAPTER={folder}", self.project_of)
        except SettingsFault:
            # No worker can build by these settings either.
            self.trees = None

    def begin(self) -> None:
        """Takes away what a killed adapter has left."""
        if self.trees is not None:
            self.trees.begin()

    def look(self) -> None:
        """A look at the gate begins."""
        self.left = MOST

    def project_of(self, change: int) -> str | None:
        known = self.gate.change(change)
        return None if known is None else str(known["project"])

    def cause(self, change: int, order: int, builds: Iterable[Mapping[str, Any]]) -> Cause | None:
        """Why an item's change can't be merged, given its builds; none where it can be, or that isn't known yet."""
        failed = [it["build"] for it in builds if it["live"] and it["outcome"] == "failure"]
        if not failed or self.trees is None:
            return None
        number, name = failed[-1], f"merge {change}"
        noted = self.notes.get(name)
        if noted is None or (noted["order"], noted["build"]) != (order, number):
            if self.left <= 0 or self.rests.get(number, 0.0) > time.monotonic():
                return None
            self.left -= 1
            try:
                cause = self.merge(number)
            except (GitFault, NoAnswer, OSError, LookupError):
                self.rests[number] = time.monotonic() + REST
                return None
            self.rests.pop(number, None)
            noted = {"order": order, "build": number, "cause": cause and asdict(cause)}
            self.notes.put(name, noted)
        said = noted["cause"]
        return None if said is None else Cause(tuple(said["files"]), said["other"], said.get("stacked", False))

    def merge(self, number: int) -> Cause | None:
        """Why the change of a build can't be merged. A conflict of two that are ahead of it isn't its own."""
        assert self.trees is not None
        path = f"/builds/{number}"
        said = self.gate.build(number)
        with expected(path):
            build = build_of(said or {})
        found = self.trees.look(build)
        if found.lacking or found.unknown:
            raise LookupError([*found.lacking, *found.unknown][0])
        try:
            self.trees.merge(build, found)
        except Conflict as fault:
            return fault.cause if fault.is_own else None
        finally:
            self.trees.forget(build)
        return None
