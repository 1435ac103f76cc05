"""The course of a day: what its developers do, with its troubles between, until nothing is left to be done."""
from __future__ import annotations

import random
import time
from collections.abc import Callable

from companions.gate import NoAnswer
from companions.tests.day.checks import Checks, differences
from companions.tests.day.developers import Developers, Step, late_plan, plan
from companions.tests.day.keeper import Keeper
from companions.tests.day.parts import Differs, wait_for
from companions.tests.day.stage import Stage
from companions.tests.day.troubles import Kills, Trouble


class Course:
    """What a day and a scene have: a stage that is set, developers and an operator."""

    def __init__(self, stage: Stage) -> None:
        self.stage, self.keeper = stage, Keeper(stage)
        self.developers = self.make_developers()

    def make_developers(self) -> Developers:
        return Developers(self.stage)

    def checks(self) -> Checks:
        return Checks(self.stage, self.developers)

    def differences(self) -> list[str]:
        return differences(self.checks())

    def begin(self) -> None:
        """Starts all parts, the gate first."""
        self.stage.make()
        self.keeper.make()
        self.stage.start("nginx")
        self.stage.start_gate()
        self.stage.start("follow", *self.stage.programs)

    def is_idle(self) -> bool:
        """Nothing stands in a queue, and each landing is noted and told. Whoever has to help does."""
        try:
            queues = self.stage.gate.status().queues
            for it in queues:
                self.help(it.name, it.landed)
        except NoAnswer:
            return False
        return all(not it.items and it.landed == len(self.places(it.name)) for it in queues)

    def places(self, queue: str) -> dict[int, str]:
        """The places of a queue's landings that the branches have, each with its project."""
        words = ("for-each-ref", "--format=%(refname:lstrip=3)", f"refs/landings/{queue}")
        projects = [it.name for it in self.stage.projects if it.queue == queue]
        return {int(place): it for it in projects for place in self.stage.git(it, *words).split() if int(place)}

    def help(self, queue: str, landed: int) -> None:
        """The branches have a landing that a restored gate forgot, and its change has left the queue meanwhile, as by
        workers that died: the lander says so, and somebody approves the change again."""
        place = landed + 1
        project = self.places(queue).get(place)
        if project is None:
            return
        note = self.stage.git(project, "log", "-1", "--format=%B", f"refs/landings/{queue}/{place:06d}")
        number = int(note.rpartition("Gate-Change: ")[2].split()[0])
        known = self.stage.gate.change(number)
        if known and known["state"] == "open" and known["order"] is None and known["approval"] is None:
            self.stage.note(f"approve {number} again for the lander")
            self.approve_again(number, known["revision"])

    def approve_again(self, number: int, _revision: int) -> None:
        self.developers.approve(self.developers.of_gate(number))

    def state(self, change: int | None) -> str:
        """What the gate says of a change, by its number there."""
        known = None if change is None else self.stage.gate.change(change)
        return "unknown" if known is None else str(known["state"])

    def settle(self) -> None:
        """Waits until nothing is left.

        What left without fault is approved again, as people do: workers that died three times at a build have failed
        it. What waits for a change that never comes is closed.
        """
        for _ in range(6):
            self.stage.note("settle")
            self.stage.send()
            wait_for("the queues to run empty", self.is_idle, 0.3)
            waiting = {change for change, _ in self.stage.gate.status().waiting}
            at_gate = [(self.developers.number(it), it) for it in self.developers.changes.values()]
            hopeless = [it for number, it in at_gate if number in waiting and not it.lands]
            missing = [it for number, it in at_gate
                       if it.lands and number not in waiting and self.state(number) == "open"]
            self.stage.note(f"approve again {[it.number for it in missing]}, close {[it.number for it in hopeless]}")
            for change in hopeless:
                self.developers.close(change)
            for change in sorted(missing, key=lambda it: it.number):
                self.developers.approve(change)
            if not hopeless and not missing:
                return

    def end(self) -> list[str]:
        """What differs once nothing more happens."""
        found = [f"{it} ended by itself: {self.stage.log(it)[-300:]}" for it in self.stage.parts
                 if self.stage.parts[it].has_ended()]
        try:
            self.settle()
        except Differs as fault:
            found.append(str(fault))
        return found + self.differences()


class Day(Course):
    """A whole day, by its seed."""

    def __init__(self, stage: Stage, seed: int) -> None:
        super().__init__(stage)
        self.chance = random.Random(seed)
        self.past: tuple[str, str] | None = None

    def run(self) -> list[str]:
        self.begin()
        troubles = self.troubles()
        for it in troubles:
            it.start()
        try:
            for name, act in self.acts():
                self.stage.note(name)
                act()
                time.sleep(self.chance.uniform(0.0, 0.5))
        finally:
            for it in troubles:
                it.end()
        return self.end()

    def troubles(self) -> list[Trouble]:
        return [Kills(self.stage, random.Random(self.chance.random()))]

    def end(self) -> list[str]:
        """What differs; the standby has to be what the gate is."""
        found = super().end()
        last = self.checks().deliveries()[-1]["id"]
        try:
            wait_for("the standby to show what the gate shows",
                     lambda: f"both show the same at {last}" in self.stage.log("follow"), 0.3)
        except Differs as fault:
            found.append(f"{fault}: {self.stage.log('follow')[-300:]}")
        return found

    def acts(self) -> list[tuple[str, Callable[[], None]]]:
        """All that happens, in its order: the developers' steps, with the great troubles at random places between."""
        early, late = ([(f"{it.what} {it.change.number}", self.step(it)) for it in steps] for steps in self.plans())
        self.put(early, [self.keeper.backup, self.keeper.stop_following, self.lose_and_restore, self.push_past,
                         self.take_back])
        self.put(late, [self.keeper.stop_following, self.lose_and_take_over])
        return [*early, ("add_project", self.keeper.add_project), *late]

    def plans(self) -> tuple[list[Step], list[Step]]:
        """The steps before a project is added, and those behind."""
        return plan(self.chance), late_plan(self.chance)

    def step(self, it: Step) -> Callable[[], None]:
        return lambda: self.developers.do(it)

    def put(self, acts: list[tuple[str, Callable[[], None]]], great: list[Callable[[], None]]) -> None:
        """Puts acts between others, in their order."""
        places = sorted(self.chance.sample(range(2, len(acts)), len(great)))
        for place, act in reversed(list(zip(places, great))):
            acts.insert(place, (act.__name__, act))

    def lose_and_restore(self) -> None:
        with self.stage.lock:
            self.keeper.lose()
            self.keeper.restore()
        self.stage.tell_again()

    def lose_and_take_over(self) -> None:
        with self.stage.lock:
            self.keeper.lose()
            self.keeper.take_over()
        self.stage.tell_again()

    def push_past(self) -> None:
        self.past = self.developers.push_past("site")

    def take_back(self) -> None:
        if self.past is not None:
            self.developers.take_back("site", *self.past)
