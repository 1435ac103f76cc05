"""Wrong parts, which a day has to find: python3 -m companions.tests.day.turned NAME companions.toml [WORKER]."""
from __future__ import annotations

import json
import sys
import uuid
from collections.abc import Callable, Mapping
from dataclasses import replace
from pathlib import Path
from typing import Any

from companions import adapter, checks, ci, compared, hooks, keeping, lander, statuses, trees, worker
from companions.building import Builder
from companions.forges import Forge, Place
from companions.gate import Answer, Delivery, Order
from companions.merging import Parent
from companions.outbox import Kept, Outbox
from companions.repository import Repository
from companions.requests import Request, Telling
from companions.settings import read
from companions.told import Changes
from companions.trees import Build, Made
from companions.wanted import Look, Reply


class CarelessLander(lander.QueueLander):
    """Merges whatever is ordered onto whatever the branch has, and asks nobody whether the gate is the same one, what
    was tested, or what the adapter has compared."""

    def carry_out(self, order: Order) -> None:
        project, repository = self.settings.projects[order.project], self.repositories[order.project]
        branch = f"refs/heads/{project.branch}"
        self.branches.look()
        self.branches.heads[order.project] = repository.ask(branch)[branch]
        self.first, self.told = self.gate.first(), self.branches.noted
        self.evidence.check = lambda *_: ()  # type: ignore[assignment]
        self.compared.why_refused = lambda *_: None  # type: ignore[assignment]
        self.land(order)

    def tell(self, order: Order, place: int) -> None:
        self.answer(order, "landed")


class KeepingWorker(worker.Worker):
    """Holds on to its build: it neither looks whether the gate still means it, nor sends its take again."""

    def exchange(self, take: str, reply: Reply, outcome: str, commit: str | None) -> tuple[bool, Answer]:
        return True, self.gate.post("worker", worker.result_of(take, reply, outcome, commit))


class HastyBuilder(Builder):
    """Says that a job went well once the trees are made, and runs nothing on them."""

    def run_job(self, build: Build, made: Made, take: str, look: Look, began: Callable[[], None]) -> tuple[str, str]:
        return "success", "in haste"


class FreshHooks(hooks.Hooks):
    """Takes each hook of an approval for a new one, whether the same came before or not."""

    def take(self, headers: Any, body: bytes) -> tuple[int, str]:
        place, said = self.forge.place_of(headers, body), json.loads(body)
        review, attributes = said.get("review", {}), said.get("object_attributes", {})
        if place and {"approved", "pull_request_review_approved"} & {
                review.get("state"), review.get("type"), attributes.get("action")}:
            self.hints.tables.execute("UPDATE vote SET told_change = NULL, told_revision = NULL"
                                      " WHERE repository = ? AND request = ?", (place.repository, place.number))
        return super().take(headers, body)


class FreshChanges(Changes):
    """Draws a fresh id for each delivery but revisions, which would be told once more and again."""

    def send_later(self, change: int, telling: Telling, said: Delivery) -> None:
        fresh = () if telling.kind == "revision" else (str(uuid.uuid4()),)
        super().send_later(change, replace(telling, stands_for=(*telling.stands_for, *fresh)), said)


class Believing:
    """A forge of which the hooks are believed: a request has the head that its last hook says."""

    def __init__(self, forge: Forge) -> None:
        self.forge, self.heads = forge, dict[Place, str]()

    def __getattr__(self, name: str) -> Any:
        return getattr(self.forge, name)

    def place_of(self, headers: Mapping[str, str], body: bytes) -> Place | None:
        place, said = self.forge.place_of(headers, body), json.loads(body)
        head = (said.get("pull_request") or {}).get("head", {}).get("sha") or said.get(
            "object_attributes", {}).get("last_commit", {}).get("id")
        if place and head:
            self.heads[place] = head
        return place

    def request(self, place: Place) -> Request | None:
        so = self.forge.request(place)
        return replace(so, head=self.heads.get(place, so.head)) if so else None

    def outline(self, place: Place) -> Request | None:
        so = self.forge.outline(place)
        return replace(so, head=self.heads.get(place, so.head)) if so else None


class HoldingOutbox(Outbox):
    """Has one lane for all changes."""

    def keep(self, delivery: Kept) -> None:
        super().keep(replace(delivery, lane="0"))


class MergingRepository(Repository):
    """Merges what is to land as one commit: whoever squashes it makes another one."""

    def parent(self, commit: str) -> Parent:
        return replace(super().parent(commit), squash=None)


class StrayingGitHub(statuses.OfGitHub):
    """Takes whatever a CI has run of a commit for the run's own, of whichever branch it is and whoever began it."""

    def runs(self, repository: str, branch: str, commit: str) -> list[Any]:
        return list(self.listed(f"{self.forge.repository(repository)}/actions/runs?head_sha={commit}", "workflow_runs"))


def land_carelessly(words: list[str]) -> None:
    lander.QueueLander = CarelessLander  # type: ignore[misc]
    lander.Lander(read(Path(words[0]))).run()


def land_blindly(words: list[str]) -> None:
    """Asks nobody whether the adapter has compared."""
    compared.Comparison.why_refused = lambda *it: None  # type: ignore[assignment]
    lander.main(words)


def land_merged(words: list[str]) -> None:
    """Asks nobody either what was tested."""
    lander.Repository = MergingRepository  # type: ignore[attr-defined]
    checks.Evidence.check = lambda *_: ()  # type: ignore[assignment]
    lander.main(words)


def test_merged(words: list[str]) -> None:
    trees.Repository = MergingRepository  # type: ignore[attr-defined]
    worker.main(words)


def keep(words: list[str]) -> None:
    Look.wanted = lambda look: True  # type: ignore[assignment]
    KeepingWorker(read(Path(words[0])), words[1]).run()


def hasten(words: list[str]) -> None:
    keeping.Builder = HastyBuilder  # type: ignore[attr-defined]
    worker.main(words)


def draw_fresh(words: list[str]) -> None:
    adapter.Changes, adapter.Hooks = FreshChanges, FreshHooks  # type: ignore[attr-defined]
    adapter.main(words)


def believe(words: list[str]) -> None:
    clients = dict(adapter.CLIENTS)
    adapter.CLIENTS = {name: lambda *it, client=client: Believing(client(*it))  # type: ignore[misc]
                       for name, client in clients.items()}
    adapter.main(words)


def hold(words: list[str]) -> None:
    adapter.Outbox = HoldingOutbox  # type: ignore[attr-defined]
    adapter.main(words)


def trust(words: list[str]) -> None:
    """Lets the statuses of all accounts count."""
    statuses.Trusted.why_not = lambda *it: None  # type: ignore[assignment]
    ci.main(words)


def stray(words: list[str]) -> None:
    statuses.OF_FORM["github"] = StrayingGitHub
    ci.main(words)


# By the name of the scene that finds it. The part of `unit` is the gate's, which the stage starts.
TURNED: dict[str, Callable[[list[str]], None]] = {
    "lander-past": land_carelessly, "lander-back": land_carelessly, "worker-keeps": keep, "worker-hastes": hasten,
    "adapter-fresh": draw_fresh, "adapter-believes": believe, "adapter-holds": hold, "lander-blind": land_blindly,
    "lander-merges": land_merged, "worker-merges": test_merged, "ci-trusts": trust, "ci-strays": stray}

if __name__ == "__main__":
    TURNED[sys.argv[1]](sys.argv[2:])
