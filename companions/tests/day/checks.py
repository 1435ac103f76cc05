"""What has to be so at the end of a day, by git, by what the workers and their jobs noted, and by the gate."""
from __future__ import annotations

import json
import re
import subprocess
import sys
from collections import Counter
from collections.abc import Callable, Iterator
from dataclasses import dataclass
from typing import Any

from companions.gate import NoAnswer
from companions.tests.day.developers import Developers
from companions.tests.day.layout import BEGINNING, SERVICE, TOOL
from companions.tests.day.parts import Differs, run
from companions.tests.day.stage import Stage

TRAILER = re.compile(r"^Gate-(\w+): (\S+)$", re.MULTILINE)


@dataclass(frozen=True)
class Landed:
    """A landing as git has it: its commit, that of its revision, and the trees of all projects of its queue behind
    it."""
    queue: str
    place: int
    project: str
    commit: str
    merged: str
    change: int
    revision: int
    trees: dict[str, str]

    def __str__(self) -> str:
        return f"landing {self.place} of {self.queue}, revision {self.revision} of change {self.change}"


@dataclass(frozen=True)
class Ran:
    """A job that somebody noted: what of, how it ended, and the trees that it saw."""
    queue: str
    change: int
    revision: int
    job: str
    passed: bool
    trees: dict[str, str]


class Checks:
    """Compares what a day left. Each check yields what differs."""

    def __init__(self, stage: Stage, developers: Developers) -> None:
        self.stage, self.developers = stage, developers
        self.queues = list(dict.fromkeys(it.queue for it in stage.projects))
        self.landings = {queue: self.landings_of(queue) for queue in self.queues}

    def each(self) -> list[Callable[[], Iterator[str]]]:
        return [self.check_places, self.check_branches, self.check_once, self.check_determined, self.check_trees,
                self.check_gate, self.check_deliveries, self.check_changes, self.check_quiet, self.check_evidence]

    def projects_of(self, queue: str) -> list[str]:
        return [it.name for it in self.stage.projects if it.queue == queue]

    def notes(self, project: str, queue: str) -> dict[int, str]:
        """The notes of a project's repository: commits by place."""
        form = "--format=%(refname:lstrip=3) %(objectname) %(*objectname)"
        listed = self.stage.git(project, "for-each-ref", form, f"refs/landings/{queue}")
        return {int(words[0]): words[-1] for words in (line.split() for line in listed.splitlines())}

    def landings_of(self, queue: str) -> list[Landed]:
        """The landings of a queue, in order of place; a place may be there twice."""
        notes = {project: self.notes(project, queue) for project in self.projects_of(queue)}
        # The lander may not have come to note the first heads, which `base` keeps.
        trees = {project: self.tree(project, notes[project].get(0, "base")) for project in notes}
        landings: list[Landed] = []
        for place, project in sorted((place, project) for project in notes for place in notes[project] if place):
            commit = notes[project][place]
            said = dict(TRAILER.findall(self.stage.git(project, "log", "-1", "--format=%B", commit)))
            trees[project] = self.tree(project, commit)
            merged = said.get("Commit") or self.stage.git(project, "rev-parse", f"{commit}^2")
            change, revision = int(said["Change"]), int(said["Revision"])
            landings.append(Landed(queue, place, project, commit, merged, change, revision, dict(trees)))
        return landings

    def tree(self, project: str, commit: str) -> str:
        return self.stage.git(project, "rev-parse", f"{commit}^{{tree}}")

    def all(self) -> list[Landed]:
        return [landed for queue in self.queues for landed in self.landings[queue]]

    def check_places(self) -> Iterator[str]:
        """The places of a queue are 1 to their number, over all its repositories."""
        for queue, landings in self.landings.items():
            places = [it.place for it in landings]
            if places != list(range(1, len(places) + 1)):
                yield f"the notes of {queue} have the places {places}"

    def check_branches(self) -> Iterator[str]:
        """A branch is its first commit and then its notes in order; each merges the very revision that it names."""
        for project in self.stage.projects:
            words = ("log", "--first-parent", "--reverse", "--format=%H", f"base..{project.branch}")
            branch, notes = self.stage.git(project.name, *words).split(), self.notes(project.name, project.queue)
            noted = [notes[place] for place in sorted(notes) if place]
            if branch != noted:
                yield f"the branch of {project.name} isn't its notes: {len(branch)} commits, {len(noted)} notes"
        for it in self.all():
            name = f"refs/changes/{it.change}/{it.revision}"
            if it.merged != self.stage.git(it.project, "rev-parse", f"{name}^{{commit}}"):
                yield f"{it} merges another commit than that of the revision"
            if self.stage.project(it.project).land == "squash":
                yield from self.check_squashed(it, name)
            elif self.stage.git(it.project, "cat-file", "-t", name) != "commit":
                yield f"{it} is of a revision that isn't a commit"

    def check_squashed(self, it: Landed, name: str) -> Iterator[str]:
        """It is one commit on the one before, with the author and the message that its tag has."""
        form = "--format=%P%n%an <%ae>%n%cn <%ce>%n%B"
        parents, author, committer, *message = self.stage.git(it.project, "log", "-1", form, it.commit).split("\n")
        tag = self.stage.git(it.project, "cat-file", "tag", name).partition("\n\nGate-Author: ")[2]
        ends = ["", f"Gate-Queue: {it.queue}", f"Gate-Place: {it.place}", f"Gate-Change: {it.change}",
                f"Gate-Revision: {it.revision}", f"Gate-Commit: {it.merged}"]
        more = [line for line in message if not line.startswith("Gate-With: ")]
        if (len(parents.split()), committer, [author, "", *more]) != (
                1, "gate <gate@localhost>", [*tag.split("\n"), *ends]):
            yield f"{it} isn't the one commit that was fixed with its revision"

    def check_once(self) -> Iterator[str]:
        """Each change landed once at most, and none at a revision whose jobs fail."""
        for change, times in Counter(it.change for it in self.all()).items():
            if times > 1:
                yield f"change {change} landed {times} times"
        for it in self.all():
            if self.developers.is_broken(it.change, it.revision):
                yield f"{it} is broken"

    # Where the records of builds are whose trees somebody has made, in the companions' folder.
    records = "worker/*/builds.jsonl"

    def ran_by_workers(self) -> list[Ran]:
        records = [json.loads(line) for file in (self.stage.folder / "companions").glob(self.records)
                   for line in file.read_text(encoding="utf-8").splitlines()]
        return [Ran(it["queue"], it["change"], it["revision"], it["job"], it["outcome"] == "success", it["trees"])
                for it in records if it.get("trees")]

    def ran_by_jobs(self) -> list[Ran]:
        """What the jobs themselves saw, by the files that were there."""
        rows = [line.split() for line in (self.stage.folder / "witness").read_text(encoding="utf-8").splitlines()]
        return [Ran(row[0], int(row[1]), int(row[2]), row[4], row[5] == "0", dict(it.split("=") for it in row[6:]))
                for row in rows]

    def check_trees(self) -> Iterator[str]:
        """Each voting job of a landing passed on just the trees that the landing left, by its worker and by itself."""
        sources = {"no worker noted": self.ran_by_workers(), "no job saw": self.ran_by_jobs()}
        for landed, job in self.voting():
            for who, ran in sources.items():
                is_of_ci = landed.project in self.stage.of_ci and who == "no worker noted"
                if not is_of_ci and not any(shows(it, landed, job) for it in ran):
                    yield f"{landed}: {who} that {job} passed on its trees"

    def voting(self) -> Iterator[tuple[Landed, str]]:
        """Each landing with each of its voting jobs."""
        voting = {it.name: [job for job, votes in it.jobs if votes] for it in self.stage.projects}
        yield from ((landed, job) for landed in self.all() for job in voting[landed.project])

    def check_determined(self) -> Iterator[str]:
        """A job that ran twice on the same trees came to the same, so that one success is as good as another."""
        ends: dict[tuple[object, ...], set[bool]] = {}
        for it in self.ran_by_jobs():
            about = (it.queue, it.change, it.revision, it.job, *sorted(it.trees.items()))
            ends.setdefault(about, set()).add(it.passed)
        for about, both in ends.items():
            if len(both) > 1:
                yield f"{about[3]} of revision {about[2]} of change {about[1]} passed and failed on the same trees"

    def check_gate(self) -> Iterator[str]:
        """The gate has the same landings in the same order."""
        for queue, landings in self.landings.items():
            rows = [it for it in self.reports(queue) if it[4] == "landed"]
            by_gate = sorted((int(row[5]), int(row[2]), int(row[3])) for row in rows)
            by_git = [(it.place, it.change, it.revision) for it in landings]
            if by_gate != by_git:
                yield f"{queue}: the gate has the landings {by_gate}, the branches have {by_git}"

    def reports(self, queue: str) -> list[list[str]]:
        """The reports of a queue's history, split."""
        return [line.split() for line in (self.stage.gate.lines(f"/history/{queue}") or [])[1:]]

    def deliveries(self) -> list[dict[str, Any]]:
        """All that the gate accepted, in its order."""
        told: list[dict[str, Any]] = []
        while True:
            path = f"/deliveries/{told[-1]['id']}" if told else "/deliveries"
            lines = self.stage.gate.lines(path) or []
            told += [json.loads(line) for line in lines]
            if len(lines) < 1000:
                return told

    def twice(self, told: list[dict[str, Any]]) -> Iterator[str]:
        """What was accepted twice, of which each landing is told once."""
        yield from (f"delivery {id} was accepted {times} times"
                    for id, times in Counter(it["id"] for it in told).items() if times > 1)
        orders = Counter(it["order"] for it in told if it["kind"] == "landed")
        yield from (f"order {order} was landed {times} times" for order, times in orders.items() if times > 1)
        if len(orders) != len(self.all()):
            yield f"the gate accepted {len(orders)} landings, and the branches have {len(self.all())}"

    def check_deliveries(self) -> Iterator[str]:
        """Nothing was acted on twice: each id is there once, and so is each landing, and all that was said."""
        told = self.deliveries()
        yield from self.twice(told)
        accepted = Counter((it["kind"], it["change"], it["revision"]) for it in told
                           if it.get("change", BEGINNING) != BEGINNING)
        said = Counter(self.developers.said)
        landed = {it.change: it.revision for it in self.all()}
        for it in sorted(accepted | said):
            # What came behind the landing needn't be told.
            late = it[1] in landed and (it[0] in ("closed", "withdrawn") or it[2] > landed[it[1]])
            if accepted[it] > said[it] or accepted[it] < said[it] and not late:
                yield (f"{it[0]} of revision {it[2]} of change {it[1]} was said {said[it]} times, and accepted"
                       f" {accepted[it]} times")

    def check_changes(self) -> Iterator[str]:
        """Whatever was approved landed or left with a report, and what had to land has landed."""
        landed = {it.change for it in self.all()}
        left = {int(it[2]) for queue in self.queues for it in self.reports(queue)}
        for number, change in self.developers.changes.items():
            said = [kind for kind, about, _ in self.developers.said if about == number]
            if "approved" in said and number not in landed | left and said[-1] not in ("withdrawn", "closed"):
                yield f"change {number} was approved, and neither landed nor left with a report"
            if change.lands and number not in landed or change.lands is False and number in landed:
                yield f"change {number} {'landed' if number in landed else 'did not land'}"
        if {253, 254} <= landed:
            yield "both of two changes landed that conflict"

    def check_evidence(self) -> Iterator[str]:
        """Whoever checks the landings afterwards, by the companion that does so, accepts them all."""
        if self.stage.turned is not None:
            return
        copy, around = self.stage.folder / "evidence.gate", self.stage.environment
        run([str(SERVICE / "backup"), str(self.stage.file), str(copy)],
            {**around, "GATED_SETTINGS": str(self.stage.settings), "HOME": str(self.stage.folder)})
        for queue in self.queues:
            words = [sys.executable, "-m", "companions.evidence", str(self.stage.folder / "companions.toml"), queue,
                     "--file", str(copy)]
            ran = subprocess.run(words, capture_output=True, text=True, env=around, check=False)
            if ran.returncode != 0 or f" {len(self.landings[queue])} landings hold" not in ran.stdout:
                yield f"evidence of {queue} ended with {ran.returncode}: {ran.stdout[-1000:]}{ran.stderr[-1000:]}"

    def check_quiet(self) -> Iterator[str]:
        """Nothing is left to be done."""
        status = self.stage.gate.status()
        yield from (f"{it.name} has {len(it.items)} items left" for it in status.queues if it.items)
        yield from (f"change {change} waits" for change, _ in status.waiting)


def shows(ran: Ran, landed: Landed, job: str) -> bool:
    """Whether a job passed on the trees of a landing. A project that was added later may be missing."""
    if (ran.queue, ran.change, ran.revision, ran.job) != (landed.queue, landed.change, landed.revision, job):
        return False
    missing = {TOOL.name} - set(ran.trees) if landed.project != TOOL.name else set()
    return ran.passed and ran.trees == {it: tree for it, tree in landed.trees.items() if it not in missing}


def differences(checks: Checks) -> list[str]:
    """All that differs; the gate has to be quiet, or nothing more may come of it."""
    found: list[str] = []
    for check in checks.each():
        try:
            found += check()
        except (Differs, NoAnswer) as fault:
            found.append(str(fault))
    return found
