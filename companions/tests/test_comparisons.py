"""What the adapter leaves for the lander, while it compares and tells."""
from __future__ import annotations

from typing import Any

from companions.api import ForgeFault
from companions.compared import Comparison, Repository, Waits, file_in, read
from companions.forges import Listed
from companions.gate import Gate, Order
from companions.moments import Moment
from companions.outbox import Notes
from companions.tests.adapter_case import Case

UNSEEN = "the adapter can't look at its request"


class Leaving(Case):
    """What was left by now."""

    def setUp(self) -> None:
        super().setUp()
        self.file = file_in(self.settings.folder)

    def lib(self) -> Repository:
        left = read(self.file)
        assert left is not None
        return left.repositories["acme/lib"]

    def refuse(self) -> dict[int, str]:
        left = read(self.file)
        assert left is not None
        return dict(left.refuse)

    def began(self) -> Moment:
        it = self.lib().began
        assert it is not None
        return it


class Left(Leaving):
    def test_a_whole_comparison_is_left_with_what_was_told_last(self) -> None:
        self.be(12, 0, self.approve(1))
        self.look()
        before = Moment.now()
        self.look()
        left = read(self.file)
        assert left is not None
        ids = list(self.gate.accepted)
        self.assertEqual((left.first, left.last, self.lib().waiting, left.refuse), (ids[0], ids[-1], 0, {}))
        self.assertTrue(before.uptime <= self.began().uptime <= Moment.now().uptime)

    def test_it_began_before_its_list(self) -> None:
        listed: list[Moment] = []
        numbers = self.forge.open_requests

        def open_requests(repository: str) -> dict[int, Listed]:
            listed.append(Moment.now())
            return numbers(repository)

        self.forge.open_requests = open_requests  # type: ignore[assignment]
        self.be(12, 0)
        self.look()
        self.assertLessEqual(self.began().uptime, listed[0].uptime)

    def test_what_is_sent_was_left_as_waiting_before(self) -> None:
        seen: list[int] = []
        answers = self.standin.answers

        def look_and_answer(method: str, path: str, body: bytes) -> tuple[int, Any] | None:
            if method == "POST":
                seen.append(self.lib().waiting)
            return answers(method, path, body)

        self.standin.answers = look_and_answer
        places = [self.be(it, it - 12, self.approve(it, it - 12)) for it in (12, 13)]
        self.assertEqual((self.look(*places), seen),
                         (["revision 1 1", "approved 1 1", "revision 2 1", "approved 2 1"], [1, 1, 1, 1]))
        self.assertEqual(self.lib().waiting, 0)

    def test_what_is_not_answered_waits(self) -> None:
        place = self.be(12, 0)
        self.look()
        self.be(12, 1)
        answers = self.standin.answers
        self.standin.answers = lambda method, path, body: (
            None if method == "POST" else answers(method, path, body))
        self.look(place)
        self.assertEqual((self.lib().waiting, self.refuse()), (1, {}))
        self.start()
        self.look()
        self.assertEqual((self.lib().waiting, self.refuse()), (1, {}))
        self.standin.answers = answers
        self.look()
        self.assertEqual(self.lib().waiting, 0)

    def test_what_came_while_the_order_is_shown_has_the_order_refused(self) -> None:
        place, other = self.be(12, 0, self.approve(1)), self.be(13, 2, self.approve(3, 2))
        self.look()
        for made, why in ((lambda: self.be(12, 0), "its approval was taken back"),
                          (lambda: self.be(12, 1), "a new revision of it was pushed")):
            self.gate.order(1)
            made()
            self.look(place)
            self.assertEqual((self.refuse(), self.lib().waiting), ({1: why}, 0))
            self.gate.orders = []
            self.look(other)
            self.assertEqual((self.refuse(), self.lib().waiting), ({}, 0))

    def test_a_repository_of_which_the_forge_tells_nothing_is_not_compared(self) -> None:
        def fail(repository: str) -> dict[int, Listed]:
            raise ForgeFault("GET /pulls: status 500")

        numbers, self.forge.open_requests = self.forge.open_requests, fail  # type: ignore[assignment]
        self.be(12, 0)
        self.look()
        self.assertIsNone(self.lib().began)
        self.forge.open_requests = numbers  # type: ignore[assignment]
        self.look()
        self.assertIsNotNone(self.lib().began)

    def test_a_request_of_which_the_forge_tells_nothing_is_left_out_the_second_time(self) -> None:
        place, other = self.be(12, 0, self.approve(1)), self.be(13, 1)
        self.look()
        began = self.began()
        self.forge.broken.add(place)
        self.look()
        self.look(place, other)
        self.assertEqual((self.began(), self.refuse()), (began, {}))
        self.look()
        self.assertNotEqual(self.began(), began)
        self.assertEqual(self.refuse(), {1: UNSEEN})
        self.forge.broken.clear()
        self.look(place)
        self.assertEqual(self.refuse(), {})

    def test_a_forge_that_is_away_once_leaves_nobody_out(self) -> None:
        place = self.be(12, 0)
        for _ in range(3):
            self.forge.broken.add(place)
            self.look()
            self.assertEqual(self.refuse(), {})
            self.forge.broken.clear()
            self.look(place)

    def test_a_request_that_is_at_fault_itself_is_left_out_at_once(self) -> None:
        self.be(12, 0, self.approve(1))
        self.look()
        began = self.began()
        self.gate.changes[1]["revision"] = 7
        self.look()
        self.assertNotEqual(self.began(), began)
        self.assertEqual(self.refuse(), {1: UNSEEN})

    def test_a_restart_keeps_what_was_compared(self) -> None:
        self.be(12, 0)
        self.look()
        self.look()
        before = self.file.read_text("utf-8")
        self.file.unlink()
        self.start()
        self.adapter.compare_at = 2.0
        self.adapter.once(1.0)
        self.assertEqual(self.file.read_text("utf-8"), before)

    def test_another_file_is_compared_anew(self) -> None:
        self.be(12, 0)
        self.look()
        self.gate.__init__()  # type: ignore[misc]
        self.adapter.compare_at, self.adapter.file.is_known = 2.0, False
        self.forge.broken.update(self.forge.requests)
        self.adapter.once(1.0)
        left = read(self.file)
        assert left is not None
        self.assertEqual((left.first, left.last, self.lib().began), (next(iter(self.gate.accepted)), None, None))


class Restored(Leaving):
    """A gate that has lost the last deliveries, before which the lander asks whether it may push."""

    def setUp(self) -> None:
        super().setUp()
        self.place = self.be(12, 0, self.approve(1))
        self.look()
        self.look()
        notes = Notes(self.folder / "notes.db")
        self.addCleanup(notes.tables.close)
        self.lander = Comparison("core", self.settings, Gate(self.standin.url, None), notes)

    def lose(self, deliveries: int) -> None:
        """The gate forgets its last deliveries; the others are told to it again."""
        first, *kept = list(self.gate.accepted.items())[:-deliveries]
        self.gate.__init__()  # type: ignore[misc]
        self.gate.accepted = dict([first])
        for identity, (said, _) in kept:
            self.gate.take({"id": identity, **said})

    def why(self) -> str | None:
        return self.lander.why_refused(Order("core", 1, "lib", 1, 1), next(iter(self.gate.accepted)))

    def waits(self, why: str) -> None:
        with self.assertRaises(Waits) as raised:
            self.why()
        self.assertEqual(str(raised.exception), f"waits for the adapter: {why}")

    def test_an_objection_that_it_has_lost_keeps_the_change_from_landing(self) -> None:
        self.assertIsNone(self.why())
        self.be(12, 0)
        self.assertEqual(self.look(self.place), ["withdrawn 1 1"])
        self.lose(1)
        # It has the approval again, and shows the order at once.
        self.gate.order(1)
        self.waits("it hasn't seen yet that the gate was restored")
        self.assertEqual(self.look()[-1], "withdrawn 1 1")
        self.assertEqual(self.why(), "its approval was taken back")
        self.gate.orders = []
        self.look()
        self.assertEqual((self.gate.changes[1]["order"], self.refuse()), (None, {}))

    def test_a_repository_that_is_away_is_told_again_later_and_before_anything_else(self) -> None:
        self.be(12, 0)
        self.assertEqual(self.look(self.place), ["withdrawn 1 1"])
        self.lose(2)
        away = self.origin.folder.rename(self.folder / "away")
        self.assertEqual((self.look(), self.look()), ([], []))
        self.waits("it hasn't compared acme/lib yet")
        self.assertEqual(self.lib().waiting, 1)
        away.rename(self.origin.folder)
        self.assertEqual(self.look(), ["revision 1 1", "approved 1 1", "withdrawn 1 1"])
        self.assertEqual((self.gate.changes[1]["order"], self.lib().waiting), (None, 0))

    def test_what_was_kept_is_told_behind_what_is_told_again(self) -> None:
        """Else a withdrawal would come before the approval that it takes back."""
        self.be(12, 0)
        self.adapter.looks.look(self.place)
        self.lose(1)
        self.adapter.compare_at = 2.0
        self.adapter.once(1.0)
        self.assertEqual([it["kind"] for it in self.standin.deliveries()[-2:]], ["approved", "withdrawn"])
        self.assertIsNone(self.gate.changes[1]["order"])

    def test_what_still_stands_may_land_once_it_was_compared(self) -> None:
        self.lose(1)
        self.waits("it hasn't seen yet that the gate was restored")
        self.look()
        self.assertIsNone(self.why())

    def test_the_adapter_sees_it_within_a_look_at_the_gate(self) -> None:
        self.lose(1)
        self.adapter.look_at, self.adapter.compare_at = 0.0, 1e9
        self.adapter.once(1.0)
        self.assertEqual(list(self.gate.accepted.values())[-1][0]["kind"], "approved")
        self.assertIsNone(self.why())


if __name__ == "__main__":
    import unittest
    unittest.main()
