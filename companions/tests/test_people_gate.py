"""People told what a real gate says: in a day that has each state, and in some that go anyhow."""
from __future__ import annotations

import json
import random
import unittest
from typing import Any

from companions.forges import SUCCESS
from companions.gate import Gate
from companions.moments import Moment
from companions.outbox import Notes
from companions.people import People
from companions.people_seen import Subject
from companions.requests import State
from companions.tests.people_case import NEWS, PLACES, PretendForge, subject
from companions.tests.service import ServiceTest


class PeopleOfAGateTest(ServiceTest):
    """The changes of a day, each state as a real gate has it. 101 is of app, 102 and 104 of lib, 103 of site."""

    def setUp(self) -> None:
        super().setUp()
        self.url = self.serve(self.gate("gate.db", []))[1]
        self.gate_at = Gate(self.url, None)
        self.forge, self.at, self.now = PretendForge(), 0, 0.0
        self.people = People(self.gate_at, Notes(self.folder / "people.db"), self.forge, PLACES.get, NEWS)

    def tell(self, kind: str, **said: Any) -> dict[str, Any]:
        self.at += 1
        answer = self.gate_at.post("worker" if kind in ("take", "result") else "forge",
                                   {"id": f"0d0000000000400080000000{self.at:08d}", "kind": kind, **said})
        return answer.said

    def revise(self, change: int, project: str, *needs: int, revision: int = 1) -> None:
        message = "\n".join(f"Depends-On: https://forge/c/{it}" for it in needs)
        self.tell("revision", change=change, project=project, revision=revision, message=message)

    def build(self, outcome: str) -> tuple[int, str]:
        given = self.tell("take", worker="w1")
        self.tell("result", build=given["build"], outcome=outcome)
        return given["change"], given["job"]

    def any_delivery(self, chance: random.Random, revisions: dict[int, int],
                     running: list[tuple[int, str]]) -> None:
        """One of the deliveries of a day, whether or not it makes sense by now."""
        change = chance.choice(list(PLACES))
        match chance.randrange(12):
            case 0:
                revisions[change] += 1
                needs = chance.sample(list(PLACES), chance.choice((0, 0, 1, 2)))
                self.revise(change, {101: "app", 103: "site"}.get(change, "lib"), *needs, revision=revisions[change])
            case 1 | 2 | 3:
                self.tell("approved", change=change, revision=revisions[change])
            case 4:
                self.tell(chance.choice(("withdrawn", "closed")), change=change, revision=revisions[change])
            case 5 | 6 | 7:
                given = self.tell("take", worker="w1")
                running += [(given["build"], given["job"])] if "build" in given else []
            case 8 | 9 | 10 if running:
                build, job = running.pop(chance.randrange(len(running)))
                ends = ("success",) if job == "docs" else ("success", "success", "success", "failure", "lost")
                self.tell("result", build=build, outcome=chance.choice(ends))
            case _:
                for order in json.loads(self.gate_at.get("/orders") or b""):
                    self.tell(chance.choice(("landed", "refused")), order=order["order"])

    def test_who_looked_on_says_what_who_comes_now_says(self) -> None:
        """All that is kept between looks leaves what is told as if the gate was looked at for the first time."""
        chance = random.Random(57)
        revisions, running = dict.fromkeys(PLACES, 0), list[tuple[int, str]]()
        states = set()
        for day in range(15):
            for _ in range(chance.randrange(1, 12)):
                self.any_delivery(chance, revisions, running)
                if chance.randrange(3) == 0:
                    self.people.look(self.subjects(revisions), Moment("one", self.now))
            subjects = self.subjects(revisions)
            for _ in range(len(PLACES) + 2):
                self.now += 1
                self.people.look(subjects, Moment("one", self.now))
            fresh = PretendForge()
            other = People(self.gate_at, Notes(self.folder / f"fresh{day}.db"), fresh, PLACES.get, NEWS)
            for _ in range(3):
                other.look(subjects, Moment("one", self.now))
            told = {it.change: self.forge.statuses[it.commits[-1]] for it in subjects}
            self.assertEqual(told, {it.change: fresh.statuses[it.commits[-1]] for it in subjects}, f"day {day}")
            comments = {place: text for place, text in self.forge.comments.values()}
            for place, text in fresh.comments.values():
                self.assertEqual(comments[place], text, f"day {day}")
            states |= {text.split()[0] for _, text in told.values()}
        self.assertEqual(len(self.forge.comments), len(PLACES))
        self.assertGreater(len(states), 5, states)

    def subjects(self, revisions: dict[int, int]) -> list[Subject]:
        """The requests with a revision, closed where their changes are."""
        closed = {it for it in PLACES if (self.gate_at.change(it) or {}).get("state") == "closed"}
        return [subject(it, *(f"{it}{at:037d}" for at in range(1, revisions[it] + 1)),
                        state=State.CLOSED if it in closed else State.OPEN) for it in PLACES if revisions[it]]

    def told(self, **other: Subject) -> dict[int, str]:
        """What each request's status is, after looks until all is written."""
        subjects = [other.get(f"at{it}", subject(it)) for it in PLACES]
        for _ in range(5):
            self.now += 1
            self.people.look(subjects, Moment("one", self.now))
        return {it.change: ": ".join(self.forge.statuses.get(it.commits[-1], ("none",))) for it in subjects}

    def test_a_day(self) -> None:
        self.assertEqual(set(self.told().values()), {"pending: The gate doesn't know this commit yet"})
        self.revise(101, "app")
        self.revise(102, "lib", 101)
        self.revise(103, "site", 104)
        self.revise(104, "lib", 102)
        self.assertEqual(set(self.told().values()), {"pending: Waits for approval"})
        for it in (102, 103, 104):
            self.tell("approved", change=it, revision=1)
        self.assertEqual(self.told(), {
            101: "pending: Waits for approval",
            102: "pending: Approved, waits for #11, which isn't approved",
            103: "pending: Approved, waits for o/lib#14, which waits too",
            104: "pending: Approved, waits for o/app#12, which waits too"})
        self.tell("approved", change=101, revision=1)
        self.assertEqual(self.told(), {
            101: "pending: Queued at place 1 of 3 in core, waits for a worker",
            102: "pending: Queued at place 2 of 3 in core, waits for a worker",
            103: "pending: Approved, waits for o/lib#14 to land in core",
            104: "pending: Queued at place 3 of 3 in core, waits for a worker"})
        running = self.tell("take", worker="w1")["build"]
        self.assertEqual(self.build("failure"), (102, "unit"))
        self.assertEqual(self.told(), {
            101: "pending: Testing at place 1 of 3 in core: unit running",
            102: "pending: Failing at place 2 of 3 in core: unit failed",
            103: "pending: Approved, waits for o/lib#14 to land in core",
            104: "pending: Blocked at place 3 of 3 in core: it needs o/app#12, which fails"})
        self.tell("result", build=running, outcome="success")
        self.assertEqual(self.told()[101], "pending: Tests passed, being landed in core")
        late = subject(101, *subject(101).commits, "d" * 40)
        self.assertEqual(self.told(at101=late)[101], "pending: An earlier commit is being landed in core")
        self.assertEqual(self.tell("landed", order=1)["n"], 1)
        self.assertEqual(self.told(at101=late)[101],
                         "failure: Landed in core as 1, without this commit: open a new request")
        self.assertEqual(self.told()[101], "success: Landed in core as 1")
        self.assertEqual(self.told()[102], "pending: Failing at place 1 of 2 in core: unit failed")
        self.assertEqual(self.build("failure"), (102, "docs"))
        self.assertEqual(self.told(), {
            101: "success: Landed in core as 1",
            102: "failure: unit failed (build 2). Mend it and push, or have it approved again",
            103: "pending: Approved, waits for o/lib#14, which isn't approved",
            104: "failure: Left core: o/app#12, which it needs, left without landing"})
        self.assertEqual(self.forge.comments[self.forge.find(PLACES[102]) or 0][1], (
            "**Left `core`: its tests failed.**\n\n- `unit` failed: [build 2](https://logs/2)\n\nMend it, push,"
            " and have the new commit approved. If it failed by chance, have it approved again as it is.\n\nTo"
            f" approve this commit by a comment, write one that is this line alone:\n\n    /gate approve {102:040d}"))
        self.assertEqual(len(self.forge.comments), 4)
        self.losses_and_ends()

    def losses_and_ends(self) -> None:
        self.revise(104, "lib", revision=2)
        new = subject(104, "a" * 40, "b" * 40)
        self.assertEqual(self.told(at104=new)[104], "pending: Waits for a new approval")
        self.tell("approved", change=104, revision=2)
        for _ in range(3):
            self.assertEqual(self.build("lost"), (104, "unit"))
        self.assertEqual(self.build("success"), (104, "docs"))
        self.assertEqual(self.told(at104=new)[104], "failure: unit was lost (build 6). Have it approved again")
        self.tell("withdrawn", change=103, revision=1)
        self.assertEqual(self.told(at104=new)[103], "pending: Waits for approval")
        self.tell("closed", change=103, revision=1)
        self.assertEqual(self.told(at103=subject(103, state=State.CLOSED))[103], "failure: Closed without landing")
        self.assertEqual(self.told(at103=subject(103, state=State.MERGED))[103],
                         "failure: Merged past the gate, which didn't land it")
        self.tell("approved", change=102, revision=1)
        for job in ("unit", "docs"):
            self.assertEqual(self.build("success"), (102, job))
        order = json.loads(self.gate_at.get("/orders") or b"")[0]["order"]
        self.tell("refused", order=order)
        self.assertEqual(self.told(at104=new)[102],
                         "failure: Couldn't be landed. Mend conflicts and push, or have it approved again")
        self.assertIn(SUCCESS, {state for state, _ in self.forge.statuses.values()})


if __name__ == "__main__":
    unittest.main()
