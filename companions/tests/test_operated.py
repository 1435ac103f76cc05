"""What the adapter does for an operator, before the real gate, over a forge in memory and a real repository."""
from __future__ import annotations

import json
import unittest
from typing import Any
from unittest import mock

from companions import held, operator
from companions.forges import Place
from companions.gate import Gate, NoAnswer
from companions.held import Hold
from companions.outbox import Outbox
from companions.requests import State, Vote
from companions.tests.operating_case import Killed, Operating


class Promote(Operating):
    def test_a_queued_change_goes_first(self) -> None:
        """It stays where it is, with its builds, and all others leave."""
        self.stand(4)
        before = self.orders()
        self.assertEqual(self.promote(3), ["change 3 goes first in core", "change 1 follows", "change 2 follows",
                                           "change 4 follows"])
        self.assertEqual(self.queue(), [3, 1, 2, 4])
        self.assertEqual([change for change, order in self.orders().items() if order == before[change]], [3])
        self.assertEqual(self.promote(3), ["it stands first already"])
        self.assertEqual(self.queue(), [3, 1, 2, 4])

    def test_a_new_change_goes_first(self) -> None:
        """It has failed, and people's approval of it holds: nobody else approves it."""
        self.stand(3)
        self.assertEqual(self.build("failure")["change"], 1)
        self.assertEqual(self.queue(), [2, 3])
        self.assertEqual(self.promote(1)[0], "change 1 goes first in core")
        self.assertEqual(self.queue(), [1, 2, 3])

    def test_who_is_not_approved_by_people_is_not_by_promote(self) -> None:
        self.stand(2)
        place = self.be(13, 2)
        self.round(place)
        self.assertEqual(self.promote(3), ["not done: nobody's approval of it holds: people have to approve it first"])
        self.be(11, 0)
        self.assertEqual(self.promote(1), ["not done: nobody's approval of it holds: people have to approve it first"])
        self.assertEqual(self.promote(99), ["not done: change 99 isn't known here"])
        self.assertEqual(self.queue(), [2])

    def test_what_is_being_landed_stays(self) -> None:
        self.stand(3)
        self.assertEqual(self.build("success")["change"], 1)
        self.assertEqual([it.change for it in self.real.orders()], [1])
        self.assertEqual(self.promote(3), ["change 3 goes first in core", "change 2 follows"])
        self.assertEqual(self.queue(), [1, 3, 2])

    def test_what_it_needs_stays_before_it(self) -> None:
        self.stand(2)
        self.be(13, 2, self.approve(3, 2), text="Depends-On: #12")
        self.round(Place("acme/lib", 13))
        self.assertEqual(self.queue(), [1, 2, 3])
        self.promote(3)
        self.assertEqual(self.queue(), [2, 3, 1])

    def test_what_needs_another_one_follows_behind_it(self) -> None:
        """It would leave with what it needs."""
        self.stand(1)
        self.be(12, 1, self.approve(2, 1), text="Depends-On: #11")
        self.round(Place("acme/lib", 12))
        self.be(13, 2, self.approve(3, 2))
        self.round(Place("acme/lib", 13))
        self.assertEqual(self.queue(), [1, 2, 3])
        self.assertEqual(self.promote(3), ["change 3 goes first in core", "change 1 follows", "change 2 follows"])
        self.assertEqual(self.queue(), [3, 1, 2])

    def orders(self) -> dict[int, str]:
        """The order number of each item of core."""
        items = next(queue.items for queue in self.real.status().queues if queue.name == "core")
        return {int(it[1]): it[0] for it in items}

    def test_what_has_failed_meanwhile_is_not_approved_again(self) -> None:
        """It left between the plan and its withdrawal, which is stale then."""
        self.stand(3)
        send = self.adapter.operated.send

        def fail_first() -> None:
            if (self.adapter.outbox.get("operated") or {}).get("stage") == "withdraw" and 1 in self.queue():
                self.build("failure")
            send()

        self.adapter.operated.send = fail_first
        self.assertEqual(self.promote(3), ["change 3 goes first in core", "change 2 follows"])
        self.assertEqual(self.queue(), [3, 2])

    def test_somebody_objects_pushes_or_closes_meanwhile(self) -> None:
        """Between the withdrawals and the approvals. Each look is told what is so, and nothing else is approved."""
        self.stand(6)
        asked = False

        def meanwhile(place: Place) -> None:
            nonlocal asked
            if not asked and self.queue() == [6]:
                asked = True
                self.be(11, 0, self.approve(1, 0), Vote("review 9", "bob", False, self.commits[0]))
                self.be(12, 3, self.approve(2, 1))
                self.be(13, 2, self.approve(3, 2), state=State.CLOSED)

        self.forge.when_asked = meanwhile
        self.assertEqual(self.promote(6), [
            "change 6 goes first in core",
            "change 1 isn't approved again: it was closed, or nobody's approval of it holds by now",
            "change 2 isn't approved again: it has another revision by now",
            "change 3 isn't approved again: it was closed, or nobody's approval of it holds by now",
            "change 4 follows", "change 5 follows"])
        self.assertEqual(self.queue(), [6, 4, 5])
        # Its objection is over: the approval that was taken back needs to be given again.
        self.be(11, 0, self.approve(1, 0), Vote("review 9", "bob", False, self.commits[0]),
                Vote("review 10", "bob", True, self.commits[0]))
        self.round(Place("acme/lib", 11))
        self.assertEqual(self.queue(), [6, 4, 5, 1])

    def test_one_that_cannot_be_looked_at_follows_later(self) -> None:
        places = self.stand(3)
        self.forge.broken = {places[0]}
        self.assertEqual(self.promote(3), [])
        self.assertEqual(self.queue(), [3, 2])
        self.forge.broken.clear()
        self.round()
        [line] = list(operator.done(self.settings.folder))
        self.assertEqual((self.queue(), line["said"]),
                         ([3, 2, 1], ["change 3 goes first in core", "change 2 follows", "change 1 follows"]))

    def test_killed_between_its_steps(self) -> None:
        """At each write to its tables in turn, and at each delivery in turn. What is left is done by the next one."""
        self.stand(4)
        for act in ("put", "post", "answered"):
            for at in range(40):
                order = self.queue()
                change = order[-1]
                operator.ask(self.settings.folder, "promote", change)
                if not self.killed(act, at):
                    break
                self.begin()
                self.round()
                self.assertEqual(self.queue(), [change, *order[:-1]], (act, at))
                self.assertIsNone(self.adapter.outbox.get("operated"))
            self.assertGreater(at, 3, act)
            self.assertEqual(list(held.folder_in(self.settings.folder).glob("asked-*")), [])

    def test_a_new_change_and_somebody_who_objects_while_the_adapter_is_dead(self) -> None:
        """Killed before each second delivery: the new one goes first, and what is objected to follows no more."""
        for at in range(0, 20, 2):
            if at:
                self.setUp()
            self.stand(4)
            self.assertEqual(self.build("failure")["change"], 1)
            operator.ask(self.settings.folder, "promote", 1)
            if not self.killed("post", at):
                break
            objected = self.be(12, 1, self.approve(2, 1), Vote("review 9", "bob", False, self.commits[1]))
            self.begin()
            self.round()
            self.round(objected)
            self.assertEqual(self.queue(), [1, 3, 4], at)
            self.assertIsNone(self.adapter.outbox.get("operated"))
        self.assertGreater(at, 3)

    def killed(self, act: str, at: int) -> bool:
        """Whether the adapter was killed in a round, before its act of this number."""
        count = 0

        def before(call: Any) -> Any:
            def counted(*words: Any, **named: Any) -> Any:
                nonlocal count
                count += 1
                if count > at:
                    raise Killed
                return call(*words, **named)
            return counted

        of = {"put": (Outbox, "put"), "post": (Gate, "post"), "answered": (type(self.adapter.changes), "answered")}[act]
        with mock.patch.object(*of, before(getattr(*of))):
            try:
                self.round()
            except Killed:
                self.adapter.outbox.tables.close()
                return True
        return False

    def test_a_gate_that_is_away_meanwhile(self) -> None:
        self.stand(3)
        post, told = self.adapter.gate.post, list[Any]()

        def once(door: str, said: dict[str, Any]) -> Any:
            told.append(said)
            if len(told) == 2:
                raise NoAnswer("away")
            return post(door, said)

        with mock.patch.object(self.adapter.gate, "post", once):
            self.promote(3)
        self.assertIn("adapter: no answer of the gate: away", self.lines())
        self.round()
        self.assertEqual(self.queue(), [3, 1, 2])


class Dequeue(Operating):
    def test_a_change_leaves_and_needs_a_new_approval(self) -> None:
        places = self.stand(2)
        self.assertEqual(self.promote(1, "dequeue"), ["taken out at revision 1: it needs a new approval"])
        self.round(*places)
        self.assertEqual(self.queue(), [2])
        self.assertEqual(self.promote(1, "dequeue"), [
            "not done: nobody's approval of it holds, so it stands in no queue by one"])
        self.be(11, 0, self.approve(1), self.approve(7))
        self.round(places[0])
        self.assertEqual(self.queue(), [2, 1])

    def test_one_that_is_being_landed(self) -> None:
        """The lander is left word that its order is to be refused."""
        self.stand(1)
        self.build("success")
        self.assertEqual(self.promote(1, "dequeue"), [
            "its order is shown: the lander refuses it, unless it has pushed it already"])
        left = json.loads((self.settings.folder / "adapter" / "compared.json").read_text())
        self.assertEqual(left["refuse"], {"1": "its approval was taken back"})


class Holding(Operating):
    def test_approvals_wait_and_are_told_then(self) -> None:
        self.stand(1)
        held.write(self.settings.folder, {"core": Hold("2026-11-30 12:00 UTC", "a freeze")})
        place = self.be(12, 1, self.approve(2, 1))
        self.round(place)
        self.assertEqual(self.queue(), [1])
        why = "core takes no approvals for now: an operator holds it since 2026-11-30 12:00 UTC: a freeze"
        self.assertEqual(self.adapter.changes.remarks(2, "vote"), [why])
        other = self.be(13, 2, self.approve(3, 2), target="old")
        self.round(other)
        self.assertEqual(self.queue("web"), [3])
        # What is taken back is told, held or not.
        self.be(11, 0)
        self.round(Place("acme/lib", 11))
        self.assertEqual(self.queue(), [])
        held.write(self.settings.folder, {})
        self.round()
        self.round()
        self.assertEqual((self.queue(), self.adapter.changes.remarks(2, "vote")), ([2], []))

    def test_a_queue_that_is_held_takes_no_promotion(self) -> None:
        self.stand(2)
        held.write(self.settings.folder, {"core": Hold("then")})
        self.assertEqual(self.promote(2), ["not done: its queue takes no approvals: an operator holds it since then"])
        self.assertEqual(self.queue(), [1, 2])

    def test_a_file_that_cannot_be_read_holds_all(self) -> None:
        self.stand(1)
        (held.make(self.settings.folder) / "held.json").write_text("{")
        self.round(self.be(12, 1, self.approve(2, 1)))
        self.assertEqual(self.queue(), [1])
        self.assertRegex(self.adapter.changes.remarks(2, "vote")[0], "^core takes no approvals for now: nobody knows"
                                                                     " whether an operator holds it: .*held.json can't")


if __name__ == "__main__":
    unittest.main()
