"""What of a gate is to be told to people: one look at all of it, and questions about a change where they are needed."""
from __future__ import annotations

from collections.abc import Iterator, Mapping
from contextlib import AbstractContextManager
from dataclasses import dataclass, field
from typing import Any

from companions.gate import Gate, NoAnswer, QueueStatus, expected
from companions.outbox import Notes
from companions.people_seen import Item, Report, Seen, Subject
from companions.tables import at_once

# The most reports that one answer has, and the most items of a queue.
PAGE, FULL = 1000, 1000

# What is read of an answer about a change and about an item.
CHANGE = ("revision", "state", "approval", "order", "queue", "full", "needs")
NEED = ("change", "state", "stands", "approval")
BUILD, JOB = ("build", "job", "live", "outcome"), ("job", "voting")

# Of the answers that are kept, so many are asked for anew at each look: of those that don't know the last revision yet,
# and of the others. So nothing that was overlooked stays untrue.
UNSETTLED, SETTLED = 5, 1


class Later(Exception):
    """This look has asked enough: the next one goes on."""


@dataclass
class View:
    """The status, by change, and how many questions may still be asked in this look."""
    items: dict[int, Item]
    waits: set[int]
    full: frozenset[str]
    questions: int
    needs: dict[int, tuple[int, ...]] = field(default_factory=dict)


@dataclass(frozen=True)
class Asked:
    """An answer about a change or an item, and for which state of things it holds."""
    said: Mapping[str, Any] | None
    holds_for: tuple[Any, ...]


class Observer:
    """Looks at a gate. A look costs the status, a history answer a queue, and what changed since the last one.

    The last report of each change is kept in notes, since the gate tells it by the history alone.
    """

    def __init__(self, gate: Gate, notes: Notes) -> None:
        self.gate, self.notes = gate, notes
        self.changes: dict[int, Asked] = {}
        self.orders: dict[int, Asked] = {}

    def view(self, questions: int) -> View:
        """The status first and the histories then: so a report of an item's own order says that it is gone."""
        status = self.gate.status()
        with expected("/status"):
            items = {int(row[1]): item for queue in status.queues for row, item in items_of(queue)}
        for queue in status.queues:
            self.follow(queue.name)
        items = {change: it for change, it in items.items() if not self.is_gone(change, it)}
        view = View(items, {change for change, _ in status.waiting},
                    frozenset(it.name for it in status.queues if len(it.items) >= FULL), questions)
        view.needs = {change: unmet(asked.said) for change, asked in self.changes.items()
                      if asked.said is not None and change in view.waits}
        return view

    def follow(self, queue: str) -> None:
        """Reads a history behind the last report that was read, which has to stand there as before.

        Else the gate has another file, or an earlier state of its own, and the queue's history is read anew.
        """
        while True:
            noted: list[str] | None = self.notes.get(f"last {queue}")
            path = f"/history/{queue}/{noted[0] if noted else 1}"
            with expected(path):
                rows = [line.split() for line in (self.gate.lines(path) or [])[1:]]
                reports = [(int(row[2]), [queue, int(row[1]), int(row[3]), row[4],
                                          None if row[5] == "-" else int(row[5])]) for row in rows]
            if noted and rows[:1] != [noted]:
                self.forget(queue)
                continue
            if len(rows) > (1 if noted else 0):
                with self.step():
                    for change, report in reports[1 if noted else 0:]:
                        self.notes.put(f"report {change}", report)
                    self.notes.put(f"last {queue}", rows[-1])
            if len(rows) < PAGE:
                return

    def forget(self, queue: str) -> None:
        """Drops what is noted of a queue's history, and all answers: other changes may have these numbers."""
        self.changes.clear()
        self.orders.clear()
        with self.step():
            for name in self.notes.names("report "):
                if self.notes.get(name)[0] == queue:
                    self.notes.drop(name)
            for name in [*self.notes.names("voting "), *self.notes.names("merge ")]:
                self.notes.drop(name)
            self.notes.drop(f"last {queue}")

    def step(self) -> AbstractContextManager[None]:
        """All that is noted within is noted at once."""
        return at_once(self.notes.tables)

    def report(self, change: int) -> Report | None:
        noted = self.notes.get(f"report {change}")
        return None if noted is None else Report(*noted)

    def is_gone(self, change: int, item: Item) -> bool:
        report = self.report(change)
        return report is not None and report.order >= item.order

    def ask_anew(self, subjects: Mapping[int, Subject]) -> None:
        """Drops a few answers, the oldest first, and those about changes of which nobody is told any more."""
        unsettled, settled = UNSETTLED, SETTLED
        for change, asked in list(self.changes.items()):
            subject = subjects.get(change)
            if subject is None:
                del self.changes[change]
            elif asked.said is None or asked.said["revision"] < subject.revision:
                if unsettled:
                    del self.changes[change]
                unsettled = max(0, unsettled - 1)
            elif settled:
                del self.changes[change]
                settled -= 1
        for change in [it for it in self.orders if it not in subjects]:
            del self.orders[change]

    def seen(self, subject: Subject, view: View) -> Seen:
        """All that the gate says of a change. `Later` where that takes more questions than may be asked by now."""
        change = subject.change
        item, report = view.items.get(change), self.report(change)
        known = self.change(subject, view) if wants_change(subject, item, change in view.waits, report) else None
        circle, failing = frozenset[int](), frozenset[int]()
        if known is not None:
            failing = frozenset(it["change"] for it in known["needs"]
                                if it["state"] != "landed" and not is_ok(view.items.get(it["change"])))
            if change in view.waits:
                view.needs[change] = unmet(known)
                circle = circle_of(change, view.needs)
        if item is not None and any(slot == "failure" for _, slot in item.slots):
            said = self.item(change, item.order, view, (item.how, item.slots))
            voting = frozenset(it["job"] for it in said["jobs"] or () if it["voting"]) if said["jobs"] else None
            if voting is not None and self.notes.get(f"voting {change}") != [item.order, sorted(voting)]:
                self.notes.put(f"voting {change}", [item.order, sorted(voting)])
            return Seen(item, known, report, said["builds"], voting, circle, failing)
        if item is None and report is not None and report.verdict == "failed" and report.revision == subject.revision:
            said = self.item(change, report.order, view, ("gone",))
            noted = self.notes.get(f"voting {change}")
            voting = frozenset(noted[1]) if noted and noted[0] == report.order else None
            return Seen(item, known, report, said["builds"], voting)
        return Seen(item, known, report, circle=circle, failing=failing)

    def change(self, subject: Subject, view: View) -> Mapping[str, Any] | None:
        """The gate's answer about a change, asked for anew where something that it depends on has changed."""
        change, asked = subject.change, self.changes.get(subject.change)
        if asked is None or asked.holds_for != self.depends_on(subject, asked.said, view):
            ask(view)
            said = self.gate.change(change)
            with expected(f"/changes/{change}"):
                check(said, *CHANGE)
                for need in said["needs"] if said is not None else ():
                    check(need, *NEED)
            self.changes.pop(change, None)
            asked = self.changes[change] = Asked(said, self.depends_on(subject, said, view))
        return asked.said

    def ask_again(self, change: int) -> None:
        """Drops the answers about a change and about those that need it."""
        for other, asked in list(self.changes.items()):
            if other == change or asked.said is not None and change in unmet(asked.said):
                del self.changes[other]

    def depends_on(self, subject: Subject, said: Mapping[str, Any] | None, view: View) -> tuple[Any, ...]:
        """What the answer about a change depends on: where it and its needs stand, and how they left last."""
        needs = [it["change"] for it in said["needs"]] if said else []
        item = view.items.get(subject.change)
        return (subject.revision, subject.state, item and (item.how, item.order),
                said is not None and said["queue"] in view.full,
                *((it in view.waits, self.report(it)) for it in (subject.change, *needs)),
                *((it in view.items and view.items[it].queue) for it in needs))

    def item(self, change: int, order: int, view: View, holds_for: tuple[Any, ...]) -> Mapping[str, Any]:
        asked = self.orders.get(change)
        if asked is None or asked.said is None or asked.holds_for != (order, *holds_for):
            ask(view)
            path = f"/items/{order}"
            said = self.gate.json(path)
            with expected(path):
                if said["change"] != change:
                    raise NoAnswer(f"GET {path}: another file than at the look before")
                for build in said["builds"]:
                    check(build, *BUILD)
                for job in said["jobs"] or ():
                    check(job, *JOB)
            asked = self.orders[change] = Asked(said, (order, *holds_for))
        assert asked.said is not None
        return asked.said


def check(said: Mapping[str, Any] | None, *members: str) -> None:
    """`KeyError` where an answer lacks a member."""
    if said is not None:
        for it in members:
            said[it]  # pylint: disable=pointless-statement


def ask(view: View) -> None:
    """Counts a question."""
    if view.questions <= 0:
        raise Later
    view.questions -= 1


def items_of(queue: QueueStatus) -> Iterator[tuple[list[str], Item]]:
    """The items of a queue, from its front. The order is shown of the first that is `ok`, once its jobs have ended."""
    change_of = {row[0]: int(row[1]) for row in queue.items}
    is_first = True
    for place, row in enumerate(queue.items, 1):
        order, _, revision, ahead, how = row[:5]
        slots = tuple((job, slot) for job, _, slot in (it.partition("=") for it in row[5:]))
        lands = is_first and how == "ok" and not {"running", "waiting"} & {slot for _, slot in slots}
        is_first = is_first and how != "ok"
        yield row, Item(queue.name, place, len(queue.items), queue.window, int(order), int(revision),
                        change_of.get(ahead), how, slots, lands)


def wants_change(subject: Subject, item: Item | None, waits: bool, report: Report | None) -> bool:
    """Whether the gate has to be asked about a change, since neither status nor history says enough of it."""
    if item is not None and item.revision == subject.revision:
        return item.how == "blocked"
    if report is not None and report.verdict == "landed":
        return False
    left = report is not None and report.revision == subject.revision and report.verdict != "needs"
    return waits or not left or subject.state.value != "open"


def is_ok(item: Item | None) -> bool:
    return item is not None and item.how == "ok"


def unmet(said: Mapping[str, Any]) -> tuple[int, ...]:
    """The needs for which a change waits."""
    return tuple(it["change"] for it in said["needs"] if it["state"] != "landed" and it["stands"] != said["queue"])


def circle_of(change: int, needs: Mapping[int, tuple[int, ...]]) -> frozenset[int]:
    """Those of a change's needs that need it, by way of others or not, among changes that wait."""
    found = set()
    for need in needs.get(change, ()):
        seen, ahead = {need}, [need]
        while ahead and change not in seen:
            news = set(needs.get(ahead.pop(), ())) - seen
            seen |= news
            ahead += news
        if change in seen:
            found.add(need)
    return frozenset(found)
