"""A team's CI at the stand-in forge: it tests the branches `gate/*` as it tests any branch, and says so as CIs do.

Of some repositories it is the forge's own: what it runs is of a branch and a commit, by a push. Of the others it is a
bot that sets statuses. What it says comes late, twice, out of order or never. And what others say is there before it: a
workflow of a writer's own branch, statuses of accounts that nobody trusts, and successes of other commits.
"""
from __future__ import annotations

import random
import re
import shutil
import subprocess
import tempfile
import threading
from concurrent.futures import ThreadPoolExecutor
from pathlib import Path
from typing import TYPE_CHECKING

from companions.landings import first_name
from companions.tests.day.checks import TRAILER
from companions.tests.day.ci_words import LATE, Manner, Push, Words
from companions.tests.day.layout import STATUS, TOP, Project, pace
from companions.tests.day.parts import Differs, run, wait_for
from companions.tests.day.troubles import Trouble

if TYPE_CHECKING:
    from companions.tests.day.ci_stage import CiStage

BRANCH = re.compile(r"refs/heads/(gate/([^/]+)/[0-9a-f]{40}-[0-9]+)")
WITH = re.compile(r"^Gate-With: (\S+) (\S+)$", re.MULTILINE)
# So many pushes are tested at once, of which so many use the machine; and of so many jobs nothing is said in time.
PUSHES, RUNNERS, SILENCED = 24, 3, 4


class TeamCi(Trouble):
    """Tests whatever is pushed, each push by a thread of its own. `chance` draws how what has to be said is said;
    without one it is said plainly."""

    def __init__(self, stage: CiStage) -> None:
        super().__init__()
        self.stage, self.words = stage, Words(stage, self.over)
        self.chance: random.Random | None = None
        # So many lines were read.
        self.read = 0
        self.runners, self.lock = threading.Semaphore(RUNNERS), threading.Lock()
        # What was begun and can't be, by which a day differs.
        self.strange: list[str] = []
        # The jobs of which nothing was said once, or that were lost.
        self.silenced = set[tuple[str, str, str]]()

    def draw(self, chance: random.Random) -> None:
        self.chance, self.words.chance = chance, random.Random(chance.random())

    def go(self) -> None:
        with ThreadPoolExecutor(max_workers=PUSHES) as pool:
            while not self.over.wait(pace() / 2):
                for push in self.new_pushes():
                    pool.submit(self.work, push, {name: self.manner(push, name) for name in push.names})

    def new_pushes(self) -> list[Push]:
        """The branches that were pushed since."""
        lines = (self.stage.folder / "pushed").read_text(encoding="utf-8").splitlines(keepends=True)
        lines = [it.rstrip("\n") for it in lines if it.endswith("\n")]
        new, self.read = lines[self.read:], len(lines)
        return [push for line in new for push in self.push_of(*line.split(" "))]

    def push_of(self, repository: str, commit: str, name: str) -> list[Push]:
        found = BRANCH.fullmatch(name)
        if found is None or not commit.strip("0"):
            return []
        home = repository.removesuffix(".git")
        project = next((it for it in self.stage.projects if (it.home, it.queue) == (home, found[2])), None)
        if project is None or project.name not in self.stage.of_ci:
            self.strange.append(f"{name} was pushed to {home}, whose jobs no CI runs")
            return []
        self.stage.model.pushed.add((self.stage.name(home), commit))
        push = Push(project, found[2], found[1], commit)
        push.merged = self.trailers(push).get("Commit") or self.stage.git(project.name, "rev-parse", f"{commit}^2")
        return [push]

    def manner(self, push: Push, name: str) -> Manner:
        """How is said what is to be said of a job. Nothing is said of some few, once of each, and never of a name that
        hasn't come for the project yet: its build would be held for ever."""
        if self.chance is None:
            return Manner()
        manner = Manner.drawn(self.chance, push.is_workflow)
        about = (push.project.name, push.merged, name)
        if about in self.silenced or not self.is_known(push, name) or len(self.silenced) == SILENCED:
            manner = manner.heard()
        if manner.is_silent or manner.is_lost:
            self.stage.note(f"the CI {'loses' if manner.is_lost else 'never says'} {name} of {push.branch}")
            self.silenced.add(about)
        return manner

    def is_known(self, push: Push, name: str) -> bool:
        """Whether companions.ci has judged a build of the project by this name before."""
        return any((it["project"], STATUS.format(it["job"])) == (push.project.name, name)
                   and it["why"].startswith("the CI says of ") for it in self.stage.built())

    def work(self, push: Push, manners: dict[str, Manner]) -> None:
        try:
            self.words.lie(push)
            if push.project.name == LATE and self.chance is not None:
                self.words.await_held(push)
            heard = {name: it for name, it in manners.items() if not it.is_silent}
            run = self.words.begin(push, heard)
            with self.runners:
                self.test(push)
            if push.words:
                self.words.say(push, run, heard)
        except Exception as fault:  # pylint: disable=broad-except
            if not self.over.is_set():
                with self.lock:
                    self.strange.append(f"{push.branch}: {type(fault).__name__}: {fault}"[:1000])

    def test(self, push: Push) -> None:
        """Runs the jobs of a push, unless it is gone by now."""
        trees = Path(tempfile.mkdtemp(dir=self.stage.folder / "team"))
        try:
            if not self.fetch(push, trees):
                return
            said = self.trailers(push)
            around = {**self.stage.environment, "GATED_TREES": str(trees), "GATED_QUEUE": push.queue,
                      "GATED_CHANGE": said["Change"], "GATED_REVISION": said["Revision"],
                      "GATED_PROJECT": push.project.name}
            for job, _ in push.project.jobs:
                words = ["sh", str(self.stage.folder / "job"), job]
                ran = subprocess.run(words, cwd=trees / push.project.name, env=around, capture_output=True, check=False)
                push.words[STATUS.format(job)] = "success" if ran.returncode == 0 else "failure"
        finally:
            shutil.rmtree(trees, ignore_errors=True)

    def message(self, push: Push) -> str:
        """The last part of a commit's message."""
        return self.stage.git(push.project.name, "log", "-1", "--format=%B", push.commit).rpartition("\n\n")[2]

    def trailers(self, push: Push) -> dict[str, str]:
        """What the gate says of a commit. What people wrote may look like it, and stands before it."""
        return dict(TRAILER.findall(self.message(push)))

    def fetch(self, push: Push, trees: Path) -> bool:
        """Fetches what was pushed, and beside it the other projects, by the lines that docs/CONNECTING.md has. Whether
        it was there: a run goes once nobody wants it any more."""
        own, wanted = trees / push.project.name, dict(WITH.findall(self.message(push)))
        try:
            run(["git", "clone", "--quiet", "--single-branch", "--branch", push.branch,
                 f"file://{self.stage.folder}/repos/{push.project.name}.git", str(own)], self.stage.environment)
            run(["sh", "-c", fetching(f"file://{self.stage.folder}/repos/")],
                {**self.stage.environment, "BRANCH": push.branch}, folder=own)
            got = {it: run(["git", "-C", str(trees / it), "rev-parse", "HEAD"], self.stage.environment).strip()
                   for it in wanted}
        except Differs as fault:
            wait_for(f"{push.branch} to be gone: it can't be fetched: {fault}", lambda: self.words.is_gone(push))
            return False
        if got != wanted:
            wait_for(f"{push.branch} to be gone: {got} was fetched with it", lambda: self.words.is_gone(push))
            return False
        for it in self.stage.projects:
            if it.queue == push.queue and not (trees / it.name).exists():
                self.clone(it, first_name(it.queue), trees / it.name)
        return True

    def clone(self, project: Project, name: str, folder: Path) -> None:
        """A tree of a name in a project's repository."""
        address = f"file://{self.stage.folder}/repos/{project.name}.git"
        for words in (["init", "--quiet", str(folder)], ["-C", str(folder), "fetch", "--quiet", address, name],
                      ["-C", str(folder), "checkout", "--quiet", "--detach", "FETCH_HEAD"]):
            run(["git", *words], self.stage.environment)


def fetching(address: str) -> str:
    """The lines of docs/CONNECTING.md that fetch the other projects of a queue, from this forge."""
    text = (TOP / "docs" / "CONNECTING.md").read_text(encoding="utf-8")
    begin = text.index("    git log -1 --format='%(trailers:key=Gate-With,")
    lines = text[begin:].partition("\n\n")[0]
    return lines.replace("https://git.example/", address)
