"""Carries out a gate's orders: merges each change into its branch, pushes it, and tells the gate.

    python3 -m companions.lander companions.toml

It may be killed anywhere and started again. A queue's trouble is that queue's: it is told, and the others go on.
"""
from __future__ import annotations

import sys
import time
from collections.abc import Callable
from concurrent.futures import Future, ThreadPoolExecutor
from functools import partial
from typing import Any

from companions.answers import Answers
from companions.branches import Branches
from companions.checks import Again, Evidence, QueueStops, Refused, Revisions
from companions.compared import Comparison, Waits
from companions.conflicts import cause_of
from companions.gate import Gate, NoAnswer, Order, say
from companions.held import why_held
from companions.ids import id_of
from companions.landings import Landed, Note, note_name
from companions.merging import Merge
from companions.outbox import Notes
from companions.repository import REVISION, Declined, GitFault, Repository, untested
from companions.settings import Settings
from companions.starting import start
from companions.tries import Tries


# How long a queue rests whose trouble was told, as a multiple of `gate.pause`.
REST = 5
# How often a queue without orders looks whether its notes are the lander's own, in seconds: workers read them.
NOTES = 300.0


class QueueLander:
    """Lands what is ordered of one queue."""

    def __init__(self, queue: str, settings: Settings, gate: Gate, notes: Notes, answers: Answers) -> None:
        self.queue, self.settings, self.gate, self.notes, self.answers = queue, settings, gate, notes, answers
        projects = settings.projects_of(queue)
        self.repositories = {it.name: Repository(it.repository, settings.folder / "lander" / it.name, settings.author)
                             for it in projects}
        self.branches = Branches(queue, self.repositories, projects, notes)
        self.revisions, self.evidence = Revisions(queue, settings, gate, answers), Evidence(queue, gate)
        self.compared, self.tries = Comparison(queue, settings, gate, notes), Tries(queue, settings.tries, notes)
        # The gate's first accepted delivery, and how many landings of the queue the gate has; none before a look.
        self.first: str | None = None
        self.told = 0
        self.has_begun, self.looked_at = False, 0.0

    def begin(self) -> None:
        """At the start: the heads that projects have before their first landings are noted.

        Without them no worker can make a tree, so no order would ever come.
        """
        for it in self.repositories.values():
            it.unlock()
        self.look_at_notes()
        self.has_begun = True

    def look_at_notes(self) -> None:
        self.branches.look()
        self.looked_at = time.monotonic()

    def carry_out(self, order: Order) -> None:
        """Lands, refuses or tells an order; `QueueStops` where none of it may be.

        After any trouble nothing is taken for known: a push whose end wasn't seen may have been done.
        """
        try:
            self.act(order)
        except (QueueStops, GitFault, NoAnswer):
            self.first = None
            raise

    def act(self, order: Order) -> None:
        if order.project not in self.repositories:
            raise QueueStops(f"order {order.order} is of project {order.project}, which the settings don't have here")
        if not self.is_known():
            self.look()
        if self.told < self.branches.noted:
            self.tell_what_stands(order)
        else:
            try:
                self.land(order)
            except Refused as fault:
                self.refuse(order, str(fault))

    def is_known(self) -> bool:
        """Whether the gate is still the one that took this lander's last delivery: a restored one may have lost it."""
        last = self.notes.get(f"last {self.queue}")
        return self.first is not None and last is not None and self.gate.knows(last)

    def look(self) -> None:
        """Compares the landings that the gate has with those that the branches have."""
        self.branches.look()
        self.first = self.gate.first()
        landed = {it.name: it.landed for it in self.gate.status().queues}
        if self.first is None or self.queue not in landed:
            raise QueueStops("the gate's settings don't have the queue, or its file is new and has accepted nothing")
        self.told = landed[self.queue]
        file = self.branches.file()
        if file not in (None, self.first):
            raise QueueStops(f"the gate has another file: the first delivery of this one is {self.first}, and the"
                             f" branches were landed by that of {file}")
        if self.told > self.branches.noted:
            raise QueueStops(f"the gate has {self.told} landings, and the branches have {self.branches.noted}")
        if self.told < self.branches.noted:
            say("lander", f"{self.queue}: the gate knows {self.told} of {self.branches.noted} landings: nothing is"
                          " merged until it has been told the others")

    def tell_what_stands(self, order: Order) -> None:
        """The gate was restored, or the lander died behind a push: first come the branches' landings, in order."""
        place = self.told + 1
        landing = self.branches.at(place)
        if landing.is_of(order):
            self.tell(order, place)
            return
        lacks = lacking(self.gate.change(landing.change), landing.revision)
        if lacks is not None:
            raise QueueStops(f"the branches have revision {landing.revision} of change {landing.change} next, and the"
                             f" gate doesn't: {lacks}")
        self.refuse(order, f"the branches have change {landing.change} next")

    def land(self, order: Order) -> None:
        """Lands an order, if all is right outside the gate too. `Refused` where it is for this change to wait."""
        self.check_held()
        project, repository = self.settings.projects[order.project], self.repositories[order.project]
        branch, name = f"refs/heads/{project.branch}", REVISION.format(change=order.change, revision=order.revision)
        place, note = self.branches.noted + 1, note_name(self.queue, self.branches.noted + 1)
        there = repository.ask(branch, name, note)
        if there[branch] != self.branches.heads[order.project]:
            raise QueueStops(self.branches.past() or f"{project.branch} of {project.name} moves to and fro")
        self.revisions.check(order, str(self.first), there.get(name))
        landed = self.merged(order, place, there[name])
        proofs = self.evidence.check(order, landed.commit) if project.evidence else None
        made = self.branches.made(order.project, landed.commit, note, Note(self.first, order.order, proofs).text)
        past = self.branches.past()
        if past is not None:
            raise QueueStops(past)
        why = self.compared.why_refused(order, self.first)
        if why is not None:
            raise Refused(why)
        self.confirm(order)
        self.check_held()
        self.push(order, {branch: (landed.parent, landed.commit), note: (there.get(note), made)})
        self.branches.moved(landed, made, str(self.first))
        self.tell(order, place)

    def merged(self, order: Order, place: int, commit: str) -> Landed:
        """The landing commit of an order, on the head that the last landing left."""
        project, repository = self.settings.projects[order.project], self.repositories[order.project]
        head = self.branches.heads[order.project]
        what = Merge(self.queue, place, order.change, order.revision, repository.parent(head),
                     repository.parent(commit), self.branches.others(order.project), self.settings.author)
        merged = repository.merge(what)
        if merged is None:
            cause = cause_of(repository, head, what.commit.hash, [])
            raise Refused(f"it can't be merged into {project.branch}: {cause}")
        return Landed(place, order.project, merged, head, order.change, order.revision)

    def push(self, order: Order, updates: dict[str, tuple[str | None, str]]) -> None:
        """Pushes a landing and its note, both or none."""
        project = self.settings.projects[order.project]
        try:
            is_pushed = self.repositories[order.project].push(updates)
        except Declined as fault:
            raise Refused(self.tries.declined(order, fault)) from fault
        if not is_pushed:
            raise GitFault(f"{project.branch} of {project.name} has moved while it was to be pushed to")
        self.tries.landed()
        self.evidence.landed()

    def check_held(self) -> None:
        """`QueueStops` where an operator holds the queue."""
        held = why_held(self.settings.folder, self.queue)
        if held is not None:
            raise QueueStops(held)

    def confirm(self, order: Order) -> None:
        """Right before an act: the gate that is there by now shows this very order."""
        if order not in self.gate.orders():
            raise Again

    def tell(self, order: Order, place: int) -> None:
        """Tells that an order is landed. Without an answer nothing is known, and the orders are looked at again."""
        said = self.answer(order, "landed")
        if said.get("n") != place:
            raise QueueStops(f"the landing of change {order.change} is the branches' {place}., and the gate says"
                             f" {said}")
        self.told = place
        say("lander", f"{self.queue}: landed change {order.change}, revision {order.revision}, as {place}")

    def refuse(self, order: Order, why: str) -> None:
        self.answers.refuse(order.change, order.revision, why)
        self.answers.is_right(order.change, order.revision)
        said = self.answer(order, "refused")
        say("lander", f"{self.queue}: refused change {order.change}, revision {order.revision}: {why}: {said}")

    def answer(self, order: Order, kind: str) -> dict[str, object]:
        self.confirm(order)
        told = id_of(str(self.first), kind, self.queue, order.order, order.change, order.revision)
        answer = self.gate.post("forge", {"id": told, "kind": kind, "order": order.order})
        if answer.reply is None:
            raise QueueStops(f"{kind} of order {order.order} was refused: {answer.said}")
        self.notes.put(f"last {self.queue}", told)
        return answer.said


def lacking(change: dict[str, Any] | None, revision: int) -> str | None:
    """What has to be done before a gate can order a change at this revision; none if it is queued or waits."""
    if change is None or change["revision"] < revision:
        return "tell that revision and its approval again"
    if change["revision"] > revision or change["state"] != "open":
        return ("it has closed that change, or knows a later revision of it: restore the gate once more, and tell it"
                " nothing of that change but this revision and its approval")
    if change["order"] is None and change["approval"] is None:
        return "approve that revision again"
    return None


class Lander:
    """Asks for the orders, and has each carried out by its queue's lander, side by side."""

    def __init__(self, settings: Settings) -> None:
        self.settings = settings
        self.gate = Gate(settings.url, settings.account("forge"), part="lander")
        notes = Notes(settings.folder / "lander" / "notes.db")
        queues = dict.fromkeys(it.queue for it in settings.projects.values())
        self.answers = Answers(settings.folder)
        self.queues = {it: QueueLander(it, settings, self.gate, notes, self.answers) for it in queues}
        self.at_work: dict[str, Future[None]] = {}
        self.said: dict[str, str] = {}
        self.rests: dict[str, float] = {}
        self.pool = ThreadPoolExecutor(max_workers=len(self.queues))

    def run(self) -> None:
        while True:
            self.turn()
            time.sleep(self.settings.pause)

    def turn(self) -> None:
        """Begins where that hasn't gone well yet, as while a repository was away, and then looks at the orders once."""
        for it in self.queues.values():
            if not it.has_begun:
                self.start(it.queue, it.begin)
        orders = self.gate.until(self.gate.orders, self.settings.pause)
        for order in orders:
            self.take(order)
        for queue in self.queues.keys() - {it.queue for it in orders}:
            self.go_on(queue)
            if self.queues[queue].has_begun and self.queues[queue].looked_at + NOTES <= time.monotonic():
                self.start(queue, self.queues[queue].look_at_notes)

    def take(self, order: Order) -> None:
        queue = self.queues.get(order.queue)
        if queue is None:
            self.tell(order.queue, f"order {order.order} is of project {order.project}, which the settings don't have")
        else:
            self.start(order.queue, partial(queue.carry_out, order))

    def start(self, queue: str, task: Callable[[], None]) -> None:
        """Has a task done for a queue, unless one is being done, or the queue rests."""
        running = self.at_work.get(queue)
        if (running is None or running.done()) and self.rests.get(queue, 0.0) <= time.monotonic():
            self.at_work[queue] = self.pool.submit(self.do, queue, task)

    def do(self, queue: str, task: Callable[[], None]) -> None:
        """Does a task; what goes wrong is told, once while it stays the same, and the queue rests for a while."""
        try:
            task()
        except Again:
            return
        except Exception as fault:  # pylint: disable=broad-except
            is_known = isinstance(fault, (QueueStops, Waits, GitFault, NoAnswer, OSError))
            why = str(fault) if is_known else f"{type(fault).__name__}: {fault}"
            self.tell(queue, why)
            if not isinstance(fault, NoAnswer):
                self.answers.stop(queue, why, fault.since if isinstance(fault, Waits) else None)
            self.rests[queue] = time.monotonic() + REST * self.settings.pause
        else:
            self.said.pop(queue, None)
            self.answers.stop(queue, None)

    def go_on(self, queue: str) -> None:
        """A queue without an order isn't stopped, unless it hasn't begun."""
        running = self.at_work.get(queue)
        if self.queues[queue].has_begun and (running is None or running.done()):
            self.answers.stop(queue, None)
            self.answers.is_over(self.queues[queue].repositories)

    def tell(self, queue: str, what: str) -> None:
        if self.said.get(queue) != what:
            say("lander", f"{queue}: {what}")
        self.said[queue] = what


def run(settings: Settings) -> int:
    try:
        said = untested()
    except GitFault as fault:
        say("lander", f"stops: {fault}")
        return 1
    if said is not None:
        say("lander", said)
    Lander(settings).run()
    return 0


def main(words: list[str]) -> int:
    return start("lander", words, run)


if __name__ == "__main__":
    sys.exit(main(sys.argv[1:]))
