"""A run: one push of a landing commit as a branch, which a CI tests as it tests any branch, and the jobs of which share
it. What of the queue's other projects is on no branch yet goes to their repositories, under names that start nothing.
"""
from __future__ import annotations

import re
from collections.abc import Callable, Mapping
from dataclasses import asdict, dataclass, field

from companions.moments import Moment
from companions.outbox import Notes
from companions.repository import GitFault, Repository

BRANCH, OTHER = "refs/heads/gate/{queue}/", "refs/gate/{queue}/"
# The last part of a run's names: its commit, and the build that it was made for.
OWN = re.compile(r"(?:[0-9a-f]{40}|[0-9a-f]{64})-[1-9][0-9]{0,17}")


@dataclass
class Run:
    """A run. `jobs` are those that have or had a build in it, and `others` the commits of other projects that are on no
    branch. `status` and `run` are the highest numbers that the forge had before the push, none before they were asked
    for, and `checks` those of the check runs of each App. `is_tried`: the push was begun. `pushed` is when it was done,
    and `came` when each name was seen first, by the machine's uptime in its boot. `is_over`: no build is in it any
    more; `cancels`: what still runs of it is of no use.
    """
    serial: int
    queue: str
    project: str
    commit: str
    build: int
    others: dict[str, str] = field(default_factory=dict)
    jobs: list[str] = field(default_factory=list)
    status: int | None = None
    run: int = 0
    checks: dict[str, int] = field(default_factory=dict)
    is_tried: bool = False
    boot: str = ""
    pushed: float | None = None
    came: dict[str, float] = field(default_factory=dict)
    is_over: bool = False
    cancels: bool = False

    @property
    def last(self) -> str:
        return f"{self.commit}-{self.build}"

    @property
    def short(self) -> str:
        """The branch, as a forge names it."""
        return self.branch.removeprefix("refs/heads/")

    @property
    def branch(self) -> str:
        return BRANCH.format(queue=self.queue) + self.last

    @property
    def other(self) -> str:
        """The name in the repositories of other projects."""
        return OTHER.format(queue=self.queue) + self.last

    def age(self, now: Moment) -> float:
        """The seconds since the push, as far as this boot knows."""
        return now.uptime - self.pushed if self.pushed is not None else 0.0

    def came_for(self, name: str, now: Moment) -> float | None:
        return now.uptime - self.came[name] if name in self.came else None

    def of_boot(self, now: Moment) -> None:
        """In another boot what was seen before counts from the first look."""
        if self.boot != now.boot and self.pushed is not None:
            self.boot, self.pushed = now.boot, now.uptime
            self.came = dict.fromkeys(self.came, now.uptime)


class Runs:
    """The runs of a queue, on disk, and their pushes. `delete` takes a branch of a project away where git may not."""

    def __init__(self, queue: str, notes: Notes, repositories: Mapping[str, Repository],
                 delete: Callable[[str, str], None]) -> None:
        self.queue, self.notes, self.repositories, self.delete = queue, notes, repositories, delete
        kept = (Run(**it) for it in notes.all(f"run {queue} ").values())
        self.all = sorted((it for it in kept if it.project in repositories), key=lambda it: it.serial)

    def note(self, run: Run) -> None:
        self.notes.put(self.key(run), asdict(run))

    def key(self, run: Run) -> str:
        return f"run {self.queue} {run.last}"

    def join(self, project: str, commit: str, job: str, build: int, others: Mapping[str, str]) -> Run:
        """The run of a build: the last one of its commit, unless that has or had a build of this job, or else a new
        one."""
        alike = [it for it in self.all if (it.project, it.commit, it.is_over) == (project, commit, False)]
        if alike and job not in alike[-1].jobs:
            run = alike[-1]
            run.jobs.append(job)
        else:
            serial = max((it.serial for it in self.all), default=0) + 1
            run = Run(serial, self.queue, project, commit, build, dict(others), [job])
            # A gate that was restored gives the same number again.
            self.all = [it for it in self.all if it.last != run.last] + [run]
        self.note(run)
        return run

    def of(self, last: str) -> Run | None:
        return next((it for it in self.all if it.last == last), None)

    def push(self, run: Run) -> None:
        """Pushes a run, its other projects first. `GitFault` where that can't be done now.

        A branch that is there is deleted first: to git one at this very commit is pushed already, and no CI would hear
        of it. But a push of its own whose end wasn't seen stays.
        """
        for project, commit in run.others.items():
            self.renew(project, run.other, commit)
        there = self.repositories[run.project].listed(run.branch).get(run.branch)
        if not run.is_tried or there != run.commit:
            if there is not None:
                self.remove(run.project, run.branch)
            run.is_tried = True
            self.note(run)
            self.renew(run.project, run.branch, run.commit)
        now = Moment.now()
        run.boot, run.pushed = now.boot, now.uptime
        self.note(run)

    def renew(self, project: str, name: str, commit: str) -> None:
        """Pushes a name, in the place of what it is there."""
        repository = self.repositories[project]
        if repository.push({name: (None, commit)}):
            return
        self.remove(project, name)
        if not repository.push({name: (None, commit)}):
            raise GitFault(f"{name} of {project} is pushed by somebody else too: let nobody but the gate's account push"
                           " gate/*")

    def end(self, run: Run) -> None:
        """Takes a run's names away. `GitFault` where that can't be done now."""
        for project in run.others:
            self.remove(project, run.other)
        self.remove(run.project, run.branch)
        self.forget(run)

    def forget(self, run: Run) -> None:
        self.notes.drop(self.key(run))
        self.all = [it for it in self.all if it is not run]

    def remove(self, project: str, *names: str) -> None:
        for it in names:
            if it.startswith("refs/heads/"):
                self.delete(project, it.removeprefix("refs/heads/"))
        self.repositories[project].remove(*names)

    def clear(self, say: Callable[[str], None]) -> None:
        """Takes away what is there of runs that aren't known: of builds that were told or dropped by now."""
        for project, repository in self.repositories.items():
            known = {name for it in self.all for name in (it.branch, it.other)}
            folders = [it.format(queue=self.queue) for it in (BRANCH, OTHER)]
            there = repository.listed(*(f"{it}*" for it in folders))
            left = [it for it in there if it not in known
                    and any(it.startswith(folder) and OWN.fullmatch(it[len(folder):]) for folder in folders)]
            self.remove(project, *left)
            if left:
                say(f"{project}: took {len(left)} branches of earlier runs away")


def others_on_no_branch(commits: Mapping[str, str], heads: Mapping[str, str], project: str) -> dict[str, str]:
    """The commits of the other projects that a build merges, and no branch has yet."""
    return {name: it for name, it in commits.items() if name != project and heads.get(name) != it}
