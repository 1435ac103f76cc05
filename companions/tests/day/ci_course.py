"""The course of a day with a forge and a team's CI, and scenes for a companions.ci that believes what doesn't count."""
from __future__ import annotations

import random
from typing import Any

from companions.tests.day.ci_checks import CiChecks
from companions.tests.day.ci_stage import CiStage
from companions.tests.day.developers import Step
from companions.tests.day.forge_course import ForgeCourse, ForgeDay
from companions.tests.day.forge_developers import Proposal
from companions.tests.day.forge_plan import Plan
from companions.tests.day.forge_scenes import ForgeScene
from companions.tests.day.parts import wait_for
from companions.tests.day.scenes import Played
from companions.tests.day.troubles import Kills, Trouble

# In a day a name has to have come within so many seconds, since some never come.
BEGINS = 20.0
# So often companions.ci is killed more than others are.
OFTEN = 5
# A request that is mended, one whose approval is withdrawn, one that is closed, and one to which somebody pushes late.
FICKLE = (154, 251, 252, 168)


# A project that isn't of the queue.
FORGED = f"Gate-With: site {'0' * 40}"


class CiCourse(ForgeCourse):
    """What a day and a scene have that have a CI."""

    stage: CiStage

    def checks(self) -> CiChecks:
        return CiChecks(self.stage, self.developers)

    def settle(self) -> None:
        super().settle()
        wait_for("what was pushed for the CI to be gone", lambda: not self.stage.runs_left())


class CiPlan(Plan):
    """Fewer requests than in other days, since each is tested by a CI and its forge. Some have in their text what looks
    like the gate's own words."""

    def make(self, number: int, project: str, name: str, content: str, **more: Any) -> Proposal:
        forged = {"text": FORGED} if project == "lib" else {}
        return super().make(number, project, name, content, **{**forged, **more})

    def fickle(self) -> list[list[Step]]:
        return [it for it in super().fickle() if it[0].change.number in FICKLE]

    def odd(self) -> list[list[Step]]:
        return []


class CiDay(CiCourse, ForgeDay):
    """A whole day with a CI, by its seed."""

    def __init__(self, stage: CiStage, seed: int) -> None:
        super().__init__(stage, seed)
        self.plan = CiPlan(self.chance)
        stage.begins = BEGINS
        stage.team.draw(random.Random(self.chance.random()))

    def troubles(self) -> list[Trouble]:
        others = [it for it in super().troubles() if not isinstance(it, Kills)]
        return [Kills(self.stage, random.Random(self.chance.random()), ["ci"] * OFTEN), *others]


class CiScene(CiCourse, ForgeScene):
    """A scene with a CI, which says plainly what it has to say."""


def trusts(it: CiScene) -> None:
    """A writer sets the status of a job that fails, before the bot does."""
    it.add(103, "lib", "numbers/3", "three")
    it.add(152, "app", "uses/98", "once", lands=False)


def strays(it: CiScene) -> None:
    """A workflow of a writer's own branch has a job of the same name, and begins before that of the pushed one."""
    it.add(103, "lib", "numbers/3", "three")
    it.add(151, "lib", "numbers/500", "many", lands=False)


CI_SCENES = {
    "ci-trusts": Played(trusts, "was taken for a success, and the CI said: "),
    "ci-strays": Played(strays, "was taken for a success, and the CI said: "),
}
