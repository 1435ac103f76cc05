"""What a lander checks of an order before it pushes, all of it outside the gate: that the revision is the commit that
was told, and that each voting job has passed on the very commit that would land.

Both are asked of the gate by ids, as each delivery's id is derived from the hash that it is of. The gate says whether
an id is spent by how it refuses another delivery under it: one that no gate takes.
"""
from __future__ import annotations

from companions import compared
from companions.answers import Answers
from companions.compared import Waits
from companions.gate import Gate, NoAnswer, Order, expected, say
from companions.ids import revision_id, success_id
from companions.landings import Proof
from companions.repository import REVISION
from companions.settings import Settings

# No gate has an order of this number: its numbers end before it.
NO_ORDER = 10 ** 15


class QueueStops(Exception):
    """Nothing may be merged into a queue's branches until somebody has looked."""


class Again(Exception):
    """The order isn't shown any more: look at the orders again."""


class Refused(Exception):
    """The order is to be answered `refused`, for this cause."""


def is_spent(gate: Gate, identity: str) -> bool:
    """Whether the gate has accepted the delivery of this id, which isn't a landing."""
    answer = gate.post("forge", {"id": identity, "kind": "landed", "order": NO_ORDER})
    if answer.code not in ("E4", "E10"):
        raise NoAnswer(f"POST /forge: not what a gate says of order {NO_ORDER}: {answer.said}")
    return answer.code == "E4"


class Revisions:
    """Whether the ref of an order's revision is at the commit that the gate was told.

    Whoever may push could have moved it. The adapter, which knows the commit, sets it right at once; so an order is
    refused only after as many of its answers, or of the lander's looks where it has no adapter.
    """

    def __init__(self, queue: str, settings: Settings, gate: Gate, answers: Answers) -> None:
        self.queue, self.settings, self.gate, self.answers = queue, settings, gate, answers
        # Of each revision whose ref was found to be wrong: what it was at, and how often.
        self.wrong: dict[tuple[int, int], tuple[str, int]] = {}

    def check(self, order: Order, first: str, there: str | None) -> None:
        """Given what the ref is at: `Waits` or `Refused` where that isn't the commit that was told."""
        path, which = f"/changes/{order.change}", (order.change, order.revision)
        change = self.gate.change(order.change)
        with expected(path):
            if change is None or change["revision"] != order.revision:
                raise Again
            needs = [int(it["change"]) for it in change["needs"]]
        name = f"{REVISION.format(change=order.change, revision=order.revision)} of {order.project}"
        if there is not None and is_spent(self.gate, revision_id(first, *which, there, needs)):
            if which in self.wrong:
                say("lander", f"{self.queue}: {name} is at {there} again, and was {self.wrong.pop(which)[0]}")
            self.answers.is_right(*which)
            return
        found = "gone" if there is None else f"at {there}"
        looks = self.wrong.get(which, ("", 0))[1] + 1
        self.wrong[which] = found, looks
        self.answers.is_wrong(*which, order.project)
        what = f"{name} is {found}, and the gate was told of another commit"
        if self.tried(which, looks) >= self.settings.tries:
            del self.wrong[which]
            raise Refused(what)
        raise Waits(what)

    def tried(self, which: tuple[int, int], looks: int) -> int:
        """How often a ref was to be set right by now."""
        if not self.settings.has_adapter:
            return looks
        left = compared.read(compared.file_in(self.settings.folder))
        return 0 if left is None else left.answered.get(f"{which[0]}/{which[1]}", 0)


class Evidence:
    """Whether each voting job of an order has an accepted success of the very commit that would land."""

    def __init__(self, queue: str, gate: Gate) -> None:
        self.queue, self.gate = queue, gate
        # The order that was refused last for want of evidence, if nothing has landed since.
        self.refused: int | None = None

    def check(self, order: Order, commit: str) -> tuple[Proof, ...]:
        """The successes, of each job one; `Refused` where one is missing, and `QueueStops` where that goes on.

        To stop at once would let everybody who may push a ref stop a queue: a worker that fetched it meanwhile has
        tested another commit.
        """
        proofs, missing = self.look(order, commit)
        if not missing:
            return proofs
        why = f"what was tested isn't the commit that would land, {commit}: {', '.join(missing)}"
        if self.refused not in (None, order.order):
            raise QueueStops(f"change {order.change}: {why}. The order before it was refused for the same, so lander"
                             " and workers differ: compare lander.author and the versions of git, and start the lander"
                             " again")
        self.refused = order.order
        raise Refused(why)

    def look(self, order: Order, commit: str) -> tuple[tuple[Proof, ...], list[str]]:
        """The accepted successes of an order's voting jobs, and what is missing."""
        path = f"/items/{order.order}"
        said = self.gate.json(path)
        with expected(path):
            if said is None or said["jobs"] is None or (said["queue"], said["change"], said["revision"]) != (
                    order.queue, order.change, order.revision):
                raise Again
            voting = [str(it["job"]) for it in said["jobs"] if it["voting"]]
            live = [(str(it["job"]), int(it["build"])) for it in said["builds"]
                    if it["live"] and it["outcome"] == "success"]
        proofs, missing = [], []
        for job in voting:
            ids = {build: success_id(build, order.queue, order.change, order.revision, job, commit)
                   for of, build in live if of == job}
            build = next((it for it in ids if is_spent(self.gate, ids[it])), None)
            if build is not None:
                proofs.append(Proof(job, build, ids[build]))
            else:
                builds = ", ".join(map(str, ids)) or "none"
                missing.append(f"{job} has no success of it (live successful builds: {builds})")
        return tuple(proofs), missing

    def landed(self) -> None:
        self.refused = None
