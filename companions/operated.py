"""What the adapter does for an operator: a change goes to the front of its queue, or leaves it, by deliveries.

The adapter alone knows which approvals hold. It is asked by a file, `operator/asked-ID.json` in the folder that the
companions share, and what it did is a line of `operator/done.jsonl`. What is left to do is in its tables before the
first step, so it may be killed anywhere. The gate keeps the order in which it was told: so a change goes to the front
where the others are taken back and approved again behind it. They lose their builds.
"""
from __future__ import annotations

import json
import os
import re
from collections.abc import Callable, Sequence
from datetime import datetime, timezone
from functools import partial
from pathlib import Path
from typing import Any

from companions.forges import Place
from companions.front import front_of
from companions.gate import Gate, say
from companions.held import folder_in, why_held
from companions.looks import Looks
from companions.requests import Telling
from companions.told import Changes

ACTS = ("promote", "dequeue")
ID = re.compile(r"[0-9a-f]{32}")
# The most bytes of a file that asks. How long what couldn't be looked at rests, as a multiple of `gate.pause`.
LARGEST, REST = 4096, 10
NOTE = "operated"


class Undone(Exception):
    """What was asked can't be done, and why."""


class Operated:
    """Does what is asked, one thing after another. `attempt` does a task, and gives the fault; `send` sends what is
    kept. A gate without an answer, `NoAnswer`, is raised by both: what is left is done in a later round."""

    def __init__(self, folder: Path, gate: Gate, looks: Looks, attempt: Callable[[str, Callable[[], None]], Any],
                 send: Callable[[], None], pause: float) -> None:
        self.folder, self.gate, self.looks, self.attempt, self.send = folder_in(folder), gate, looks, attempt, send
        self.changes: Changes = looks.changes
        self.outbox, self.rest, self.due = looks.changes.outbox, REST * pause, 0.0

    def once(self, now: float) -> None:
        """Goes on with what was begun, or begins what is asked next."""
        plan = self.outbox.get(NOTE)
        if plan is None:
            plan = self.asked()
        if plan is None or now < self.due:
            return
        self.due = 0.0
        try:
            said = self.dequeue(plan) if plan["do"] == "dequeue" else self.promote(plan, now)
        except Undone as fault:
            said = [f"not done: {fault}"]
        if said is not None:
            self.end(plan, said)

    def asked(self) -> dict[str, Any] | None:
        """The next file that asks for something, whose words are noted before it goes."""
        for file in sorted(self.folder.glob("asked-*.json")) if self.folder.is_dir() else ():
            plan = read_asked(file)
            if plan is not None and plan["id"] != self.outbox.get("operated last"):
                self.outbox.put(NOTE, plan)
            elif plan is None:
                say("adapter", f"{file} asks for nothing that is known: it is put aside")
                os.replace(file, file.with_name(f"wrong-{file.name}"))
                continue
            file.unlink(missing_ok=True)
            if plan is not None and self.outbox.get(NOTE) is not None:
                return plan
        return None

    def end(self, plan: dict[str, Any], said: Sequence[str]) -> None:
        """Writes what was done, and forgets what was to be done."""
        for it in said:
            say("adapter", f"{plan['do']} {plan['change']}: {it}")
        line = {"id": plan["id"], "at": datetime.now(timezone.utc).isoformat(timespec="seconds"), "by": plan["by"],
                "do": plan["do"], "change": plan["change"], "said": list(said)}
        with (self.folder / "done.jsonl").open("a", encoding="utf-8") as lines:
            lines.write(json.dumps(line) + "\n")
        with self.changes.step():
            self.outbox.put("operated last", plan["id"])
            self.outbox.drop(NOTE)

    # Both begin with a look, so that nothing is done by what was so before.

    def fresh(self, change: int) -> Place:
        place = self.changes.place(change)
        if place is None:
            raise Undone(f"change {change} isn't known here")
        fault = self.attempt(f"{place.repository} {place.number}", partial(self.looks.look, place))
        if fault is not None:
            raise Undone(f"its request can't be looked at: {fault}")
        self.send()
        return place

    def approvals(self, change: int) -> tuple[int, tuple[str, ...]]:
        """The last revision of a change, and the approvals of people that hold for it at the gate."""
        told = self.changes.told(change)
        last = len(told.revisions)
        if told.closed or told.landed or not last:
            return last, ()
        return last, tuple(sorted({it for it, at in told.approvals.items() if at == last} - told.withdrawals))

    def dequeue(self, plan: dict[str, Any]) -> list[str]:
        """Takes a change's approval back: whoever wants it to land has to approve it once more."""
        place = self.fresh(plan["change"])
        revision, at_gate = self.approvals(plan["change"])
        if not at_gate:
            raise Undone("nobody's approval of it holds, so it stands in no queue by one")
        telling = Telling("withdrawn", revision, (*at_gate, plan["do"], plan["id"]), at_gate)
        with self.changes.step():
            for name in at_gate:
                self.changes.mark(place, name, plan["change"], telling)
            self.keep(plan["change"], telling)
        self.send()
        if self.changes.waits(plan["change"]):
            return ["its order is shown: the lander refuses it, unless it has pushed it already"]
        return [f"taken out at revision {revision}: it needs a new approval"]

    def promote(self, plan: dict[str, Any], now: float) -> list[str] | None:
        """Does the steps that are left; none where some of them have to wait."""
        if "stage" not in plan:
            plan = self.begin(plan)
            if not plan["others"] and plan["stands"]:
                return ["it stands first already"]
        if plan["stage"] == "withdraw":
            self.drain(plan)
            plan = self.go_on(plan, "first", others=[it for it in plan["others"] if self.has_left(plan, *it)])
        if plan["stage"] == "first":
            self.approve_first(plan)
            plan = self.go_on(plan, "others")
        return self.approve_others(plan, now)

    def begin(self, plan: dict[str, Any]) -> dict[str, Any]:
        """Notes what is to be done, and keeps the withdrawals of all that stands in the queue but for the change, what
        it needs, and what is being landed."""
        change = plan["change"]
        self.fresh(change)
        revision, at_gate = self.approvals(change)
        if not at_gate:
            raise Undone("nobody's approval of it holds: people have to approve it first")
        held = why_held(self.folder.parent, self.looks.queue_of(change))
        if held is not None:
            raise Undone(f"its queue takes no approvals: {held}")
        known = self.gate.change(change)
        if known is None or known["state"] != "open" or known["revision"] != revision:
            raise Undone("the gate doesn't have it open at this revision")
        front = front_of(self.gate, known["queue"], change)
        unknown = [it for it, _ in front.others if self.changes.place(it) is None]
        if unknown:
            raise Undone(f"change {unknown[0]} stands in the queue and isn't known here: nobody could approve it again")
        plan = {**plan, "stage": "withdraw", "revision": revision, "queue": known["queue"],
                "others": list(front.others), "stands": front.stands, "said": []}
        with self.changes.step():
            self.outbox.put(NOTE, plan)
            for it, at in reversed(front.others):
                self.keep(it, taken_back(plan, at))
        return plan

    def keep(self, change: int, telling: Telling) -> None:
        self.changes.send_later(change, telling,
                                {"kind": telling.kind, "change": change, "revision": telling.revision})

    def drain(self, plan: dict[str, Any]) -> None:
        """Sends the withdrawals. What the gate doesn't take, since its order is shown by now, is left as it is."""
        self.send()
        with self.changes.step():
            for change, revision in plan["others"]:
                self.changes.take_away(change, taken_back(plan, revision))

    def has_left(self, plan: dict[str, Any], change: int, revision: int) -> bool:
        """Whether a change has left the queue by its withdrawal. One that had failed before isn't approved again."""
        return self.changes.answer_to(change, taken_back(plan, revision)) in ("removed", "recorded")

    def go_on(self, plan: dict[str, Any], stage: str, **more: Any) -> dict[str, Any]:
        plan = {**plan, "stage": stage, **more}
        self.outbox.put(NOTE, plan)
        return plan

    def approve_first(self, plan: dict[str, Any]) -> None:
        """Has the change approved, if it has left or wasn't there, and people's approval holds."""
        why = self.approve(plan, plan["change"], plan["revision"])
        goes = f"change {plan['change']} goes first in {plan['queue']}"
        plan["said"] += [goes if why is None else f"it isn't approved: {why}"]

    def approve_others(self, plan: dict[str, Any], now: float) -> list[str] | None:
        """Has the others approved again, in their old order, each after a look. What can't be looked at is looked at
        again later, and then stands behind the rest."""
        left, said = [], list(plan["said"])
        todo = [tuple(it) for it in plan["others"]]
        while todo:
            change, revision = todo.pop(0)
            place = self.changes.place(change)
            assert place is not None
            fault = self.attempt(f"{place.repository} {place.number}", partial(self.looks.look, place))
            if fault is not None:
                left.append((change, revision))
            else:
                self.send()
                why = self.approve(plan, change, revision)
                said += [f"change {change} isn't approved again: {why}"] if why else [f"change {change} follows"]
            plan = self.go_on(plan, "others", others=[*left, *todo], said=said)
        if not left:
            return said
        self.due = now + self.rest
        return None

    def approve(self, plan: dict[str, Any], change: int, revision: int) -> str | None:
        """Has a change approved, once, unless it stands or waits; or says why not."""
        last, at_gate = self.approvals(change)
        if last != revision:
            return "it has another revision by now" if last else "it isn't known any more"
        if not at_gate:
            return "it was closed, or nobody's approval of it holds by now"
        known = self.gate.change(change)
        if known is None or known["state"] != "open":
            return "the gate doesn't have it open"
        if known["order"] is None and known["approval"] is None:
            with self.changes.step():
                self.keep(change, Telling("approved", revision, (plan["do"], plan["id"])))
            self.send()
        return None


def taken_back(plan: dict[str, Any], revision: int) -> Telling:
    return Telling("withdrawn", revision, (plan["do"], plan["id"]))


def read_asked(file: Path) -> dict[str, Any] | None:
    """What a file asks for; none where it has another form."""
    try:
        with file.open("rb") as text:
            said = json.loads(text.read(LARGEST + 1)[:LARGEST])
        if (ID.fullmatch(said["id"]) and said["do"] in ACTS and type(said["change"]) is int
                and isinstance(said["by"], str) and said.keys() == {"id", "do", "change", "by"}):
            return dict(said)
    except (OSError, ValueError, KeyError, TypeError, RecursionError):
        pass
    return None
