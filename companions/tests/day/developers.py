"""What the developers of a day do, by a seed: changes that pass, fail, conflict and need each other."""
from __future__ import annotations

import random
from dataclasses import dataclass, field
from pathlib import Path

from companions.tests.day.parts import Differs, run
from companions.tests.day.stage import Stage


@dataclass
class Change:
    """A change at its newest revision. `lands`: it has to, it may not, or chance decides (none)."""
    number: int
    project: str
    files: dict[str, str]
    needs: tuple[int, ...] = ()
    lands: bool | None = True
    revision: int = 0
    # Which revisions may never land: their jobs fail.
    broken: set[int] = field(default_factory=set)


@dataclass(frozen=True)
class Step:
    """Something that a developer does to a change, by the name of a method of `Developers`."""
    what: str
    change: Change
    files: tuple[tuple[str, str], ...] = ()


def good(number: int, project: str, name: str, text: str, *needs: int) -> list[Step]:
    change = Change(number, project, {name: text}, needs)
    return [Step("push", change), Step("approve", change)]


def bad(number: int, project: str, name: str, text: str, *needs: int) -> list[Step]:
    change = Change(number, project, {name: text}, needs, lands=False, broken={1})
    return [Step("push", change), Step("approve", change)]


def revised(number: int) -> list[Step]:
    """Its first revision fails, its second one passes."""
    change = Change(number, "app", {"uses/99": "once"}, broken={1})
    mended = Step("push", change, (("uses/2", "once"),))
    return [Step("push", change), Step("approve", change), mended, Step("approve", change)]


def withdrawn(number: int) -> list[Step]:
    """Its approval is taken back, and given again."""
    change = Change(number, "site", {"style-w": "plain"})
    return [Step(it, change) for it in ("push", "approve", "withdraw", "approve")]


def closed(number: int) -> list[Step]:
    change = Change(number, "site", {"style-c": "plain"}, lands=None)
    return [Step(it, change) for it in ("push", "approve", "close")]


def plan(chance: random.Random) -> list[Step]:
    """The steps of a day, those of each change in their order."""
    changes = [bad(151, "lib", "numbers/500", "many"), bad(152, "app", "uses/98", "once"),
               bad(250, "site", "page", "broken"), bad(153, "app", "uses/500", "once", 151),
               revised(154), withdrawn(251), closed(252), good(155, "lib", "slow", "155")]
    for n in range(3, 6):
        changes.append(good(100 + n, "lib", f"numbers/{n}", "a number"))
        changes.append(good(120 + n, "app", f"uses/{n}", "once", 100 + n))
        changes.append(good(200 + n, "site", f"number-{n}", "shown", *([100 + n] if chance.random() < 0.7 else [])))
    changes += [good(401, "press", "letter-1", "sent", 103), bad(402, "press", "letter-2", "broken"),
                good(403, "press", "letter-3", "sent")]
    # Two that conflict: one of them lands, or, where builds were lost, none.
    for number, title in ((253, "One title"), (254, "Another title")):
        change = Change(number, "site", {"title": title}, lands=None)
        changes.append([Step("push", change), Step("approve", change)])
    return shuffled(chance, changes)


def late_plan(chance: random.Random) -> list[Step]:
    """What is done once the project `tool` is there."""
    changes = [good(301, "tool", "nails", "many"), good(302, "tool", "saw", "sharp", 301, 103),
               bad(303, "tool", "tool", "a stone"), good(206, "site", "number-6", "shown", 301),
               good(106, "lib", "numbers/6", "a number"), good(126, "app", "uses/6", "once", 106, 103)]
    return shuffled(chance, changes)


def shuffled(chance: random.Random, changes: list[list[Step]]) -> list[Step]:
    """One step after another, each of a change by chance."""
    places = [place for place, steps in enumerate(changes) for _ in steps]
    chance.shuffle(places)
    left = [iter(steps) for steps in changes]
    return [next(left[place]) for place in places]


class Developers:
    """Does the steps, by git and by the adapter's commands. Changes have their numbers at the gate."""

    def __init__(self, stage: Stage) -> None:
        self.stage, self.environment = stage, stage.environment
        self.changes: dict[int, Change] = {}
        # What was said of changes, in its order: kind, change and revision.
        self.said: list[tuple[str, int, int]] = []

    def number(self, change: Change) -> int | None:
        """The number that a change has at the gate, if it has one."""
        return change.number

    def of_gate(self, number: int) -> Change:
        """The change of a number at the gate."""
        return self.changes[number]

    def is_broken(self, number: int, revision: int) -> bool:
        """Whether this revision of a change, by its number at the gate, may never land."""
        return revision in self.changes[number].broken

    def do(self, step: Step) -> None:
        if step.files:
            step.change.files = dict(step.files)
        getattr(self, step.what)(step.change)

    def push(self, change: Change) -> None:
        """A new revision is pushed."""
        self.changes[change.number] = change
        message = f"Change {change.number}\n\n" + "".join(f"Depends-On: https://forge/c/{it}\n" for it in change.needs)
        change.revision += 1
        self.commit(change, message, f"refs/changes/{change.number}/{change.revision}")
        self.said.append(("revision", change.number, change.revision))

    def commit(self, change: Change, message: str, name: str) -> str:
        """Makes a commit of a change's files, and pushes it to a name of the repository.

        All begin at the first commit, so that none brings another one along.
        """
        clone = self.clone(change.project)
        for file, text in change.files.items():
            (clone / file).parent.mkdir(exist_ok=True)
            (clone / file).write_text(text + "\n", encoding="utf-8")
        self.git(clone, "add", ".")
        self.git(clone, "commit", "--quiet", "--message", message)
        self.push_commit(change, "HEAD", name)
        return self.git(clone, "rev-parse", "HEAD")

    def push_commit(self, change: Change, commit: str, name: str) -> None:
        """Pushes a commit that the change's clone has to a name of the repository, whatever that was."""
        clone = self.stage.folder / "developer" / change.project
        self.git(clone, "push", "--quiet", self.address(change.project, "developer"), f"+{commit}:{name}")

    def git(self, clone: Path, *words: str) -> str:
        return run(["git", "-C", str(clone), *words], self.environment).strip()

    def address(self, project: str, who: str) -> str:
        return f"ssh://{who}@forge{self.stage.folder}/repos/{self.stage.project(project).home}.git"

    def clone(self, project: str) -> Path:
        """A clone at the first commit, with nothing else in it."""
        clone = self.stage.folder / "developer" / project
        if not clone.exists():
            run(["git", "clone", "--quiet", self.address(project, "developer"), str(clone)], self.environment)
        run(["git", "-C", str(clone), "checkout", "--quiet", "--detach", "origin/base"], self.environment)
        return clone

    def say(self, command: str, kind: str, change: Change) -> None:
        self.stage.adapter(command, str(change.number), str(change.revision))
        self.said.append((kind, change.number, change.revision))

    def approve(self, change: Change) -> None:
        self.say("approve", "approved", change)

    def withdraw(self, change: Change) -> None:
        self.say("withdraw", "withdrawn", change)

    def close(self, change: Change) -> None:
        self.say("close", "closed", change)

    def push_past(self, project: str, merged: str | None = None) -> tuple[str, str]:
        """Somebody who may pushes to the branch, past the lander: what it was, and what it is now.

        It is a commit of its own, or the merge of another one.
        """
        clone = self.clone(project)
        around = {**self.environment, "GIT_DIR": str(clone / ".git"), "GIT_WORK_TREE": str(clone)}
        for _ in range(50):
            run(["git", "fetch", "--quiet", "origin", "main"], around)
            old = run(["git", "rev-parse", "FETCH_HEAD"], around).strip()
            run(["git", "checkout", "--quiet", "--detach", old], around)
            if merged is not None:
                run(["git", "merge", "--quiet", "--no-ff", "--message", "Past the gate", merged], around)
            else:
                (clone / "title").write_text("Past the gate\n", encoding="utf-8")
                run(["git", "add", "."], around)
                run(["git", "commit", "--quiet", "--message", "Past the gate"], around)
            new = run(["git", "rev-parse", "HEAD"], around).strip()
            try:
                run(["git", "push", "--quiet", self.address(project, "lander"), f"{new}:refs/heads/main"], around)
            except Differs:
                continue
            return old, new
        raise Differs(f"nobody could push to {project}")

    def take_back(self, project: str, old: str, new: str) -> None:
        """The push past the lander is taken back."""
        clone = self.stage.folder / "developer" / project
        run(["git", "-C", str(clone), "push", "--quiet", f"--force-with-lease=refs/heads/main:{new}",
             self.address(project, "lander"), f"+{old}:refs/heads/main"], self.environment)
