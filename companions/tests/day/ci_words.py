"""What a team's CI says at the stand-in forge of what it has tested, and what others say there that doesn't count."""
from __future__ import annotations

import contextlib
import json
import random
import threading
import time
import urllib.request
from collections.abc import Iterable
from dataclasses import dataclass, field, replace
from typing import TYPE_CHECKING

from companions.tests.day.forge_stage import WRITERS
from companions.tests.day.layout import APP, LIB, STATUS, Project, pace
from companions.tests.forges.github_shown import signature
from companions.tests.forges.model import Status
from companions.tests.forges.ran import CiJob, CiRun

if TYPE_CHECKING:
    from companions.tests.day.ci_stage import CiStage

# The bot whose statuses count; the account by which all workflows speak, those of writers' own branches too; and a
# writer who sets statuses himself.
TEAM, ACTIONS, WRITER = "team", "github-actions", WRITERS[1]
# The repository of which the forge's own CI tests what is pushed: of others a bot does.
WORKFLOWS = LIB.home
# The project of which the first word comes so late that its name is taken for a wrong setting.
LATE = APP.name
# The first number of a run, and for how long is waited for a look at what was said, in seconds.
FIRST, LOOKED = 500, 60.0


@dataclass
class Push:
    """A commit that was pushed as a branch, to be tested, and the commit of the request that is `merged` by it. `words`
    say how its jobs ended, by the names of statuses."""
    project: Project
    queue: str
    branch: str
    commit: str
    merged: str = ""
    words: dict[str, str] = field(default_factory=dict)

    @property
    def is_workflow(self) -> bool:
        return self.project.home == WORKFLOWS

    @property
    def names(self) -> list[str]:
        return [STATUS.format(job) for job, _ in self.project.jobs]


@dataclass(frozen=True)
class Manner:
    """How the CI says how a job ended: so many seconds late, twice, and before it says that it runs (`is_swapped`). Or
    nothing is said of it (`is_silent`), or the forge has lost it (`is_lost`)."""
    late: float = 0.0
    is_twice: bool = False
    is_swapped: bool = False
    is_silent: bool = False
    is_lost: bool = False

    @staticmethod
    def drawn(chance: random.Random, is_workflow: bool) -> Manner:
        """A bot has no word for a job that is lost."""
        late = chance.choice((0.0, 0.0, chance.uniform(0.0, 2.0), chance.uniform(0.0, 5.0)))
        odd = chance.random()
        return Manner(late, chance.random() < 0.3, chance.random() < 0.3, odd < 0.06, is_workflow and 0.06 < odd < 0.12)

    def heard(self) -> Manner:
        return replace(self, is_silent=False, is_lost=False)


class Words:
    """Says all of it. `said` has each end that the CI itself has said: the branch, the commit, the name, the word."""

    def __init__(self, stage: CiStage, over: threading.Event) -> None:
        self.stage, self.model, self.over = stage, stage.model, over
        self.said: list[tuple[str, str, str, str]] = []
        # Which hooks are lost; without it none is.
        self.chance: random.Random | None = None

    def lie(self, push: Push) -> None:
        """All that doesn't count says that the jobs of a push went well, before anything else is said. By a workflow
        that is a run of a writer's own branch at this very commit, one of this branch at another commit, one that
        somebody has started by hand, and one that had no job; by the bot a status of the request's own commit."""
        if push.is_workflow:
            for branch, commit, event in ((f"{WRITER}/own", push.commit, "push"), (push.branch, push.merged, "push"),
                                          (push.branch, push.commit, "workflow_dispatch")):
                self.begin_run(push, branch, commit, event, push.names, "success").word = "success"
            self.begin_run(push, push.branch, push.commit, "push", [], "").word = "success"
        else:
            for name in push.names:
                self.set(push, push.merged, name, "success", TEAM)
        self.lie_by_status(push)
        self.hook(push)
        self.await_look(push)

    def lie_by_status(self, push: Push) -> None:
        for name in push.names:
            for by in (ACTIONS, WRITER):
                self.set(push, push.commit, name, "success", by)

    def begin(self, push: Push, names: Iterable[str]) -> CiRun | None:
        """The CI says that the jobs of these names will run. What the forge runs is given back."""
        run = None
        if push.is_workflow:
            run = self.begin_run(push, push.branch, push.commit, "push", names, "queued")
        else:
            for name in names:
                self.set(push, push.commit, name, "pending", TEAM)
        self.hook(push)
        return run

    def say(self, push: Push, run: CiRun | None, manners: dict[str, Manner]) -> None:
        """The CI says how the jobs of a push ended, and behind it the others say once more that all is well."""
        if run is not None:
            self.say_by_run(push, run, manners)
        else:
            for name, manner in manners.items():
                self.say_by_status(push, name, manner)
        self.lie_by_status(push)

    def say_by_run(self, push: Push, run: CiRun, manners: dict[str, Manner]) -> None:
        """One that was cancelled says no more."""
        for name, manner in sorted(manners.items(), reverse=any(it.is_swapped for it in manners.values())):
            self.set_job(push, run, name, "in_progress")
            self.over.wait(manner.late)
            self.end_job(push, run, name, "stale" if manner.is_lost else push.words[name])
            for _ in range(1 + manner.is_twice):
                self.hook(push)
        with self.model.lock:
            if not run.is_cancelled:
                run.word = "success" if all(it.word == "success" for it in run.jobs) else "failure"
        self.hook(push)

    def begin_run(self, push: Push, branch: str, commit: str, event: str, names: Iterable[str], word: str) -> CiRun:
        with self.model.lock:
            number = FIRST + len(self.model.ran)
            jobs = [CiJob(number * 1000 + at, name, word) for at, name in enumerate(names)]
            run = CiRun(number, self.stage.name(push.project.home), branch, commit, event, jobs=jobs)
            self.model.ran.append(run)
            return run

    def set_job(self, push: Push, run: CiRun, name: str, word: str) -> None:
        with self.model.lock:
            if not run.is_cancelled:
                run.set(name, word)

    def end_job(self, push: Push, run: CiRun, name: str, word: str) -> None:
        with self.model.lock:
            if not run.is_cancelled:
                self.said.append((push.branch, push.commit, name, word))
                run.set(name, word)

    def say_by_status(self, push: Push, name: str, manner: Manner) -> None:
        self.over.wait(manner.late)
        for at in range(1 + manner.is_twice):
            self.said.append((push.branch, push.commit, name, push.words[name]))
            self.set(push, push.commit, name, push.words[name], TEAM)
            self.hook(push)
            self.over.wait(manner.late if at < manner.is_twice else 0.0)
        if manner.is_swapped:
            self.set(push, push.commit, name, "pending", TEAM)

    def set(self, push: Push, commit: str, name: str, state: str, by: str) -> None:
        where = self.stage.name(push.project.home)
        self.model.set_status(Status(where, commit, state, "", by, context=name, link=f"https://ci.example/{commit}"))

    def hook(self, push: Push) -> None:
        """The forge says that there is news of a commit. Some hooks are lost, and nobody may be there to hear one."""
        if self.chance is not None and self.chance.random() < 0.4:
            return
        body, secret = json.dumps({"sha": push.commit}).encode(), self.stage.forge.secret
        headers = {"github": {"X-Hub-Signature-256": f"sha256={signature(secret, body)}"},
                   "gitea": {"X-Gitea-Signature": signature(secret, body)},
                   "gitlab": {"X-Gitlab-Token": secret}}[self.stage.forge.kind]
        asked = urllib.request.Request(f"http://127.0.0.1:{self.stage.ci_port}/hook", body, headers)
        with contextlib.suppress(OSError), urllib.request.urlopen(asked, timeout=10):
            pass

    def await_look(self, push: Push) -> None:
        """Waits until companions.ci has asked for runs and statuses of a commit, so that it has seen what was said. It
        may be away, or not want the build any more."""
        asked, end = self.stage.forge.server.asked, time.monotonic() + min(LOOKED, self.stage.begins / 3)
        at = len(asked)
        while sum(push.commit in target for _, target in asked[at:]) < 2:
            if self.over.wait(pace() / 4) or time.monotonic() > end or self.is_gone(push):
                return

    def await_held(self, push: Push) -> None:
        """Waits until companions.ci takes the name of a status for a wrong setting, and says so. It may be killed just
        before it does."""
        end = time.monotonic() + 3 * self.stage.begins
        while "held: no status" not in self.stage.log("ci") and time.monotonic() < end and not self.is_gone(push):
            self.over.wait(pace())

    def is_gone(self, push: Push) -> bool:
        """Whether the branch isn't there any more, or the day is over."""
        return self.over.is_set() or not self.stage.git(push.project.name, "for-each-ref", f"refs/heads/{push.branch}")
