"""The course of a day with a forge, and what its scenes have alike."""
from __future__ import annotations

import random
import time
import uuid
from collections.abc import Callable, Iterator

from companions.tests.day.course import Course, Day
from companions.tests.day.developers import Step
from companions.tests.day.forge_checks import ForgeChecks
from companions.tests.day.forge_developers import ForgeDevelopers
from companions.tests.day.forge_outsider import Outsider
from companions.tests.day.forge_plan import Plan
from companions.tests.day.forge_stage import ForgeStage
from companions.tests.day.layout import pace
from companions.tests.day.troubles import Trouble

# The seconds between two turns in which hooks are sent, as a multiple of `pace`.
SENDING = 0.5
# The seconds in which people have to have been told all, once nothing happens any more.
TELLING = 150.0


class ForgeCourse(Course):
    """What a day and a scene have that have a forge."""

    stage: ForgeStage
    developers: ForgeDevelopers

    def make_developers(self) -> ForgeDevelopers:
        return ForgeDevelopers(self.stage)

    def checks(self) -> ForgeChecks:
        return ForgeChecks(self.stage, self.developers)

    def begin(self) -> None:
        super().begin()
        self.stage.begin_forge()

    def help(self, queue: str, landed: int) -> None:
        """What the adapter has to tell comes to the gate before anybody helps."""
        if self.stage.has_sent():
            super().help(queue, landed)

    def approve_again(self, number: int, revision: int) -> None:
        """By hand, at the gate: the adapter tells no approval of a change that the branch has."""
        identity = uuid.uuid4()
        self.developers.by_hand.add(identity)
        self.stage.gate.post("forge", {"id": str(identity), "kind": "approved", "change": number, "revision": revision})

    def is_idle(self) -> bool:
        return super().is_idle() and self.stage.has_sent()

    def settle(self) -> None:
        """What people are told comes later than what the gate is told: the adapter writes so much a minute."""
        super().settle()
        self.stage.note("people are told")
        checks, end = self.checks(), time.monotonic() + TELLING
        while ([*checks.check_statuses(), *checks.check_votes(), *checks.check_closed()]
               and time.monotonic() < end):
            time.sleep(2 * pace())

    def end(self) -> list[str]:
        hooks = self.stage.forge.hooks
        hooks.stop()
        hooks.release()
        hooks.start(SENDING * pace())
        found, fault = super().end(), self.stage.merges.fault
        return [*found, f"the forge looks at no branches any more: {fault}"] if fault else found


class ForgeDay(ForgeCourse, Day):
    """A whole day with a forge, by its seed."""

    def __init__(self, stage: ForgeStage, seed: int) -> None:
        super().__init__(stage, seed)
        self.plan = Plan(self.chance)
        self.developers.chance = random.Random(self.chance.random())
        stage.forge.form.cap = self.chance.choice((2, 3))
        # He draws nothing from the day's own chance.
        self.outsider = Outsider(stage, self.developers, random.Random(f"outsider {seed}"))

    def begin(self) -> None:
        super().begin()
        self.outsider.open()

    def checks(self) -> ForgeChecks:
        return OutsiderChecks(self.stage, self.developers, self.outsider)

    def plans(self) -> tuple[list[Step], list[Step]]:
        return self.plan.early, self.plan.late_steps

    def troubles(self) -> list[Trouble]:
        return [*super().troubles(), ForgeTroubles(self.stage, random.Random(self.chance.random())), self.outsider]

    def push_past(self) -> None:
        self.past = self.developers.merge_past(self.plan.past)


class OutsiderChecks(ForgeChecks):
    """The checks of a day in which there is an outsider."""

    def __init__(self, stage: ForgeStage, developers: ForgeDevelopers, outsider: Outsider) -> None:
        super().__init__(stage, developers)
        self.outsider = outsider

    def each(self) -> list[Callable[[], Iterator[str]]]:
        return [*super().each(), self.check_outsider]

    def check_comments(self) -> Iterator[str]:
        """Where not all comments can be read, the gate doesn't find its own again once an answer with its number got
        lost."""
        flooded = f"{self.name(self.outsider.flooded)} has "
        yield from (it for it in super().check_comments() if not it.startswith(flooded))

    def check_outsider(self) -> Iterator[str]:
        """Nothing that the outsider does lands, is edited, or is taken for the forge's; and however much he writes on a
        request, that it is closed is told."""
        yield from self.outsider.differences({self.file.place(it.change) for it in self.all()})
        known = self.at(self.outsider.flooded)
        if known is not None and known.state != "closed":
            yield f"{self.name(self.outsider.flooded)} is closed, and {known.state} at the gate"


class ForgeTroubles(Trouble):
    """What a forge does to its adapter: hooks that are lost, late or doubled, and an API that is slow or fails."""

    def __init__(self, stage: ForgeStage, chance: random.Random) -> None:
        super().__init__()
        self.stage, self.chance = stage, chance
        self.server = stage.forge.server

    def go(self) -> None:
        self.server.chance = random.Random(self.chance.random())
        self.stage.forge.hooks.start(SENDING * pace(), random.Random(self.chance.random()))
        while not self.over.wait(self.chance.uniform(0.5, 4.0)):
            self.server.odds = self.chance.choice((0.0, 0.0, 0.05, 0.3))
            self.server.delay = self.chance.choice((0.0, 0.0, 0.0, 0.2))
            if self.chance.random() < 0.2:
                # Too much was asked for: the next question is refused, and a pause is wanted.
                self.server.limits, self.server.plan = {"Retry-After": "1"}, ["limit"]
            self.stage.note(f"forge: odds {self.server.odds}, delay {self.server.delay}, next {self.server.plan}")

    def end(self) -> None:
        super().end()
        self.server.odds, self.server.delay, self.server.plan = 0.0, 0.0, []
