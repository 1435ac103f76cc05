"""Short days that are written down, each for a part that is wrong in one way: by the right part they end well."""
from __future__ import annotations

from collections.abc import Callable
from dataclasses import dataclass
from typing import Any

from companions.gate import Gate
from companions.tests.day.course import Course
from companions.tests.day.developers import Change
from companions.tests.day.parts import wait_for
from companions.tests.day.stage import WORKERS


class Scene(Course):
    """What scenes are made of."""

    def propose(self, number: int, project: str, name: str, text: str, lands: bool | None = True) -> Change:
        """A change is pushed, and isn't approved yet."""
        change = Change(number, project, {name: text}, lands=lands, broken=set() if lands else {1})
        self.developers.push(change)
        return change

    def add(self, number: int, project: str, name: str, text: str, lands: bool | None = True) -> Change:
        change = self.propose(number, project, name, text, lands)
        self.developers.approve(change)
        return change

    def await_landing(self, change: Change) -> None:
        wait_for(f"change {change.number} to land", lambda: self.state(change.number) == "landed")

    def restore_backup(self) -> None:
        """The file is lost, and the backup is all that there is."""
        self.stage.kill("follow")
        self.keeper.lose()
        self.keeper.restore(follower=False)


def past(it: Scene) -> None:
    """Somebody pushes past the lander, and takes it back later. Nothing may land on what was pushed."""
    it.await_landing(it.add(201, "site", "number-1", "shown"))
    old, new = it.developers.push_past("site")
    it.add(202, "site", "number-2", "shown")
    wait_for("the lander to act", lambda: "past the gate" in it.stage.log("lander") or it.state(202) == "landed")
    if it.state(202) != "landed":
        it.developers.take_back("site", old, new)


def back(it: Scene) -> None:
    """The gate is restored to a moment before a landing, which the branches keep."""
    it.await_landing(it.add(101, "lib", "numbers/3", "three"))
    it.propose(102, "lib", "numbers/4", "four")
    it.propose(103, "lib", "numbers/5", "five")
    it.keeper.backup()
    it.developers.approve(it.developers.changes[102])
    it.await_landing(it.developers.changes[102])
    it.restore_backup()
    # 103 comes first now, and has the order that 102 had.
    it.developers.approve(it.developers.changes[103])
    it.stage.tell_again()


def take_over(it: Scene) -> None:
    """A worker is at a build while the gate is restored, and the build's number goes to a broken change."""
    wait_for("the first heads to be noted", lambda: all(
        it.stage.git(project.name, "for-each-ref", "refs/landings") for project in it.stage.projects))
    it.stage.kill(*WORKERS, "lander")
    slow = it.propose(155, "lib", "slow", "155")
    broken = it.propose(152, "app", "uses/98", "once", lands=False)
    it.keeper.backup()
    it.stage.kill("adapter")
    it.developers.approve(slow)
    it.stage.start("w1")
    wait_for("w1 to have a build", lambda: "build 1:" in it.stage.log("w1"))
    it.stage.kill("nginx")
    it.restore_backup()
    direct = Gate(f"http://127.0.0.1:{it.stage.port}", None)
    # Told past the proxy, as by whoever is first: the broken change has the number that the worker holds.
    approval, take = (f"e0000000-0000-4000-8000-00000000000{it}" for it in (1, 2))
    direct.post("forge", {"id": approval, "kind": "approved", "change": 152, "revision": 1})
    direct.post("worker", {"id": take, "kind": "take", "worker": "nobody"})
    it.developers.said.append(("approved", broken.number, 1))
    it.stage.start("nginx", "adapter", "lander")
    it.stage.tell_again()


def haste(it: Scene) -> None:
    """One change passes and one fails."""
    it.add(101, "lib", "numbers/3", "three")
    it.add(151, "lib", "numbers/500", "many", lands=False)


def lost_file(it: Scene) -> None:
    """The file is lost, and the gate is started again; somebody restores it once it is seen that it doesn't start."""
    it.await_landing(it.add(101, "lib", "numbers/3", "three"))
    it.keeper.backup()
    it.keeper.lose()
    gate, starts = it.stage.parts["gate"], it.stage.log("gate").count("listening")
    gate.start()
    wait_for("the gate to end, or to serve",
             lambda: not gate.is_running() or it.stage.log("gate").count("listening") > starts)
    if not gate.is_running():
        it.stage.kill("follow")
        it.keeper.restore(follower=False)
    it.add(151, "lib", "numbers/500", "many", lands=False)
    it.add(104, "lib", "numbers/6", "six")


@dataclass(frozen=True)
class Played:
    """A scene, which is given its course, and what is found at its end where the part is turned."""
    play: Callable[[Any], None]
    found: str


SCENES = {
    "lander-past": Played(past, "no worker noted that unit passed on its trees"),
    "lander-back": Played(back, "landed 2 times"),
    "worker-keeps": Played(take_over, "change 152 is broken"),
    "worker-hastes": Played(haste, "change 151 is broken"),
    "unit": Played(lost_file, "core: the gate has the landings [], the branches have [(1, 101, 1)"),
}


def scene(course: Course, played: Played) -> list[str]:
    """Plays a scene to its end; what differs."""
    course.begin()
    played.play(course)
    return course.end()


def turned(course: Course, played: Played) -> list[str]:
    """Plays a scene with its wrong part, until what has to be found is there; what differs then."""
    course.begin()
    played.play(course)
    found: list[str] = []

    def is_found() -> bool:
        found[:] = [it for it in course.differences() if played.found in it]
        return bool(found)
    wait_for(f"{played.found!r} to be found", is_found, 0.5)
    return found
