"""Short days with a forge that are written down, each for an adapter that is wrong in one way."""
from __future__ import annotations

from collections.abc import Callable
from typing import Any

from companions.gate import NoAnswer
from companions.tests.day.forge_course import ForgeCourse
from companions.tests.day.forge_developers import Proposal
from companions.tests.day.parts import wait_for
from companions.tests.day.scenes import Played
from companions.tests.day.stage import WORKERS


class ForgeScene(ForgeCourse):
    """What scenes with a forge are made of. Hooks are sent by the scene itself."""

    def begin(self) -> None:
        """The first request that a new file is told is told once more: all others begin at their first revision."""
        super().begin()
        change = Proposal(190, "app", {"uses/2": "once"}, lands=None)
        self.developers.open(change)
        self.tell()
        self.await_gate(change, lambda said: said["revision"] == 2)

    def tell(self) -> None:
        """The hooks of what was done are sent, and the adapter has looked at what they are about."""
        hooks = self.stage.forge.hooks
        places = {it.place for it in hooks.waiting}
        hooks.send_all()
        wait_for("the adapter to look", lambda: not any(map(self.stage.adapter_file.is_hinted, places)))

    def propose(self, number: int, project: str, name: str, text: str, lands: bool | None = True) -> Proposal:
        """A request is opened, and the gate knows it."""
        change = Proposal(number, project, {name: text}, lands=lands, broken={1} if lands is False else set())
        self.developers.open(change)
        self.tell()
        self.await_gate(change, lambda said: said["revision"] == 1)
        return change

    def approve(self, change: Proposal) -> None:
        """A review that approves."""
        self.developers.vote(change, "ann", by_comment=False)
        self.tell()

    def add(self, number: int, project: str, name: str, text: str, lands: bool | None = True) -> Proposal:
        change = self.propose(number, project, name, text, lands)
        self.approve(change)
        return change

    def await_gate(self, change: Proposal, is_so: Callable[[dict[str, Any]], bool]) -> None:
        """Waits until what the gate says of a change is so."""
        wait_for(f"the gate to have change {change.number} so", lambda: self.is_so(change, is_so))

    def is_so(self, change: Proposal, is_so: Callable[[dict[str, Any]], bool]) -> bool:
        number = self.developers.number(change)
        try:
            said = None if number is None else self.stage.gate.change(number)
        except NoAnswer:
            return False
        return said is not None and is_so(said)

    def is_ordered(self, change: Proposal) -> bool:
        return any(it.change == self.developers.number(change) for it in self.stage.gate.orders())


def fresh(it: ForgeScene) -> None:
    """The hook of an approval comes again once the change has failed."""
    broken = it.add(151, "lib", "numbers/500", "many", lands=False)
    approval = [hook for hook, _ in it.stage.forge.hooks.sent if hook.what == "approved"][-1]
    it.await_gate(broken, lambda said: said["approval"] is None and said["order"] is None)
    it.stage.forge.hooks.add(approval)
    it.tell()


def believes(it: ForgeScene) -> None:
    """The first hook of a request comes once more, when a later commit is approved. That of the hook was approved too:
    the adapter has no other one."""
    it.stage.kill(*WORKERS)
    change = Proposal(103, "lib", {"numbers/3": "three"})
    it.developers.open(change)
    it.stage.forge.hooks.double()
    it.stage.forge.hooks.hold()
    it.tell()
    it.await_gate(change, lambda said: said["revision"] == 1)
    it.approve(change)
    it.await_gate(change, lambda said: said["order"] is not None)
    it.developers.push(change)
    it.tell()
    it.await_gate(change, lambda said: said["revision"] == 2)
    it.approve(change)
    it.await_gate(change, lambda said: said["order"] is not None)
    it.stage.forge.hooks.release()
    it.tell()
    it.stage.start(*WORKERS)


def holds(it: ForgeScene) -> None:
    """A request is closed whose order is shown, while the lander is away. The others go on."""
    wait_for("the first heads to be noted", lambda: all(
        it.stage.git(project.name, "for-each-ref", f"refs/landings/{project.queue}") for project in it.stage.projects))
    it.stage.kill("lander")
    first = it.add(103, "lib", "numbers/3", "three", lands=None)
    wait_for("the order to be shown", lambda: it.is_ordered(first))
    it.developers.close(first)
    it.tell()
    number = it.developers.number(first) or 0
    wait_for("the closing to be kept", lambda: it.stage.adapter_file.is_kept(number, "closed"))
    second = Proposal(201, "site", {"number-1": "shown"})
    it.developers.open(second)
    it.tell()
    it.developers.wait(lambda: it.is_so(second, lambda said: said["revision"] == 1))
    if it.is_so(second, lambda said: said["revision"] == 1):
        it.approve(second)
        it.await_gate(second, lambda said: said["order"] is not None)
        it.stage.start("lander")


def blind(it: ForgeScene) -> None:
    """A backup is restored that has an approval and not its withdrawal, and the lander is there before the adapter."""
    it.stage.kill(*WORKERS)
    change = it.add(103, "lib", "numbers/3", "three", lands=False)
    it.await_gate(change, lambda said: said["order"] is not None)
    it.keeper.backup()
    it.developers.withdraw(change)
    it.tell()
    it.await_gate(change, lambda said: said["order"] is None)
    it.stage.kill("adapter", "follow")
    it.keeper.lose()
    it.keeper.restore(follower=False)
    it.stage.start(*WORKERS)
    wait_for("the order to be shown, and the lander to act", lambda: it.is_so(change, lambda said: (
        said["state"] == "landed" or "waits for the adapter: it hasn't seen yet" in it.stage.log("lander"))))
    it.stage.start("adapter")


def squashed(it: ForgeScene) -> None:
    """A change of a project that squashes lands, unless the lander finds that another commit was tested."""
    change = it.add(103, "lib", "numbers/3", "three")
    wait_for("the lander to act", lambda: "what was tested isn't the commit" in it.stage.log("lander") or it.is_so(
        change, lambda said: said["state"] == "landed"))


FORGE_SCENES = {
    "adapter-fresh": Played(fresh, "times by the votes of ann"),
    "adapter-believes": Played(believes, "and the gate was told"),
    "adapter-holds": Played(holds, "acme/site 1 is open, and the gate knows nothing of it"),
    "lander-blind": Played(blind, "acme/lib 2, change 103, landed"),
    "lander-merges": Played(squashed, "isn't the one commit that was fixed with its revision"),
    "worker-merges": Played(squashed, "acme/lib 2, change 103, did not land"),
}
