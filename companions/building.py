"""Runs one build: makes its trees, runs its job in them, and writes its log.

Logs are kept, one a build: an operator decides how long.
"""
from __future__ import annotations

import os
import sys
import time
from collections.abc import Callable
from dataclasses import dataclass
from pathlib import Path

from companions import job
from companions.conflicts import Conflict
from companions.lfs import Lacking
from companions.outbox import Notes
from companions.room import Room
from companions.sandbox import ENVIRONMENT, Sandbox
from companions.settings import Job, Settings
from companions.trees import Build, Made, Trees, UnknownChange, Unset
from companions.wanted import Look, Unwanted, Waiting


@dataclass(frozen=True)
class Ran:
    """How a build ended: its outcome, why, the trees that it ran on, if they were made, and how long it took."""
    outcome: str
    why: str
    made: Made | None = None
    seconds: float | None = None

    @property
    def commit(self) -> str | None:
        """The commit that was tested."""
        return self.made.commit if self.made is not None else None


class Builder:
    """Runs builds in a worker's folder, one at a time. `mark` is in the environment of all that it starts."""

    def __init__(self, settings: Settings, folder: Path, notes: Notes, trees: Trees, mark: str,
                 say: Callable[[str], None]) -> None:
        self.settings, self.folder, self.notes, self.trees = settings, folder, notes, trees
        self.mark, self.say = mark, say

    def log_of(self, take: str, build: Build) -> Path:
        """A build's log: a number may come again from another file of the gate, with another take. Whoever reads the
        logs of all workers knows the number alone, so there each has a folder."""
        if self.settings.logs is None:
            return self.folder / "logs" / f"{take[:8]}-{build.number}.log"
        return self.settings.logs / str(build.number) / f"{build.job}-{take[:8]}.log"

    def run(self, build: Build, take: str, look: Look, began: Callable[[], None]) -> Ran:
        """Runs a build to its end. `began` is called right before its job begins.

        `Unwanted` where the gate doesn't want it any more. `Unset` where the settings lack what it needs, `GitFault`,
        `OSError` or `sqlite3.Error` where the machine is at fault.
        """
        begin, log = time.monotonic(), self.log_of(take, build)
        log.parent.mkdir(exist_ok=True)
        made: Made | None = None
        try:
            tell(log, f"{build}, after landing {build.after}, behind {build.ahead}")
            wait = Waiting(self.say, look, self.settings.pause).wait
            made = self.trees.make(build, take[:8], wait, self.settings.look)
            outcome, why = self.run_job(build, made, take, look, began)
        except (Conflict, Lacking) as fault:
            outcome, why = "failure", str(fault)
        except UnknownChange as fault:
            outcome, why = "lost", str(fault)
        return Ran(outcome, why, made, round(time.monotonic() - begin, 3))

    def run_job(self, build: Build, made: Made, take: str, look: Look, began: Callable[[], None]) -> tuple[str, str]:
        """The outcome of a build's job in trees that are made, and how it ended."""
        log = self.log_of(take, build)
        for name, commit in made.commits.items():
            tell(log, f"{name}: commit {commit}, tree {made.trees[name]}")
        known = self.settings.projects[made.project].jobs.get(build.job)
        if known is None or known.status:
            raise Unset(self.settings, build.queue, made.project, build.job)
        tell(log, f"in {made.project}, for {known.limit:g} s at most: {known.command}\n")
        command = job.Command(known.command, made.folder / made.project, self.environment(build, made, take),
                              f"GATED_TAKE={take}", log, known.limit, self.sandbox(made, known),
                              known.log_limit, Room(made.folder.parent, self.settings.free, self.settings.space),
                              known.lost)
        began()
        ended = job.run(command, look.wanted, self.settings.look, self.note_group)
        self.notes.drop("group")
        if ended.cause is job.Cause.UNWANTED:
            raise Unwanted
        return ended.outcome, str(ended)

    def sandbox(self, made: Made, known: Job) -> Sandbox | None:
        """What a job runs in, or none where the settings turn sandboxes off."""
        if not self.settings.sandbox:
            return None
        return Sandbox(self.settings.folder.resolve(), self.settings.file, made.folder, made.own,
                       self.trees.objects(made.commits), known.read, known.write, known.network, self.settings.logs)

    def note_group(self, group: int) -> None:
        """Notes the job's processes, which go on if this one is killed."""
        self.notes.put("group", {"number": group, "began": job.began_at(group)})

    def environment(self, build: Build, made: Made, take: str) -> dict[str, str]:
        name, _, folder = self.mark.partition("=")
        mine = {it: value for it, value in os.environ.items() if not it.startswith("GIT_")}
        return {**(ENVIRONMENT if self.settings.sandbox else mine), name: folder,
                "GATED_TAKE": take, "GATED_BUILD": str(build.number), "GATED_QUEUE": build.queue,
                "GATED_CHANGE": str(build.change), "GATED_REVISION": str(build.revision), "GATED_JOB": build.job,
                "GATED_PROJECT": made.project, "GATED_TREES": str(made.folder)}


def tell(log: Path, line: str) -> None:
    with log.open("a", encoding="utf-8") as lines:
        lines.write(f"{line}\n")


def tell_if_possible(log: Path, line: str) -> None:
    """Ends a log; how a build ended doesn't depend on that."""
    try:
        tell(log, line)
    except OSError as fault:
        print(f"{log}: {fault}", file=sys.stderr)
