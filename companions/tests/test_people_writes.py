"""How much is written at a forge, and what is written again after a fault: of the forge, or of who writes."""
from __future__ import annotations

import contextlib
import unittest
from dataclasses import replace

from companions.api import ForgeFault, Full
from companions.forges import Limits, Place
from companions.people import Manner
from companions.requests import State
from companions.tests.people_case import PLACES, PeopleCase, subject


class WritesTest(PeopleCase):
    def test_a_minute_has_so_many_writes_and_the_news_first(self) -> None:
        self.people = self.start(Manner(quiet=0.0, limits=Limits(2)))
        both = subject(101), subject(102)
        self.gate.items = ["1 101 1 - ok unit=running", "2 102 1 1 ok unit=running"]
        self.assertEqual([it.split(":")[0] for it in self.look(*both)], ["o/app 101", "o/app 102"])
        self.assertEqual((self.look(*both), self.done), ([], {}))
        self.now += 60
        self.assertEqual([it.split(":")[0] for it in self.look(*both)], ["o/app 11, comment 1", "o/app 12, comment 2"])
        self.assertTrue(self.is_done)
        self.now += 60
        self.gate.items = ["2 102 1 - ok unit=success", "3 103 1 2 ok unit=running", "4 101 1 3 ok unit=running"]
        self.assertEqual([it.split(":")[0] for it in self.look(*both)], ["o/app 102", "o/app 12, comment 2"])
        self.assertEqual(self.done, {102: "landing"})
        self.now += 60
        self.assertEqual([it.split(":")[0] for it in self.look(*both)], ["o/app 101"])
        self.assertTrue(self.is_done)

    def test_an_hour_has_so_many_writes(self) -> None:
        manner = Manner(quiet=0.0, limits=Limits(60, 2))
        self.people = self.start(manner)
        both = subject(101), subject(102)
        self.gate.items = ["1 101 1 - ok unit=running", "2 102 1 1 ok unit=running"]
        self.assertEqual([it.split(":")[0] for it in self.look(*both)], ["o/app 101", "o/app 102"])
        self.now += 3500
        self.assertEqual(self.look(*both), [])
        self.people = self.start(manner)
        self.assertEqual(self.look(*both), [], "a restart begins no other hour")
        self.now += 99
        self.assertEqual([it.split(":")[0] for it in self.look(*both)], ["o/app 11, comment 1", "o/app 12, comment 2"])
        self.boot, self.now, self.people = "another", 10.0, self.start(manner)
        self.gate.items = ["1 101 1 - ok unit=success"]
        self.assertEqual(self.look(*both), [], "nobody knows how long the machine was off")
        self.now += 3600
        self.assertEqual(len(self.look(*both)), 2)

    def test_outsiders_leave_writes_of_an_hour_to_others(self) -> None:
        """Somebody's comments on a request change what is said of it, again and again."""
        self.people = self.start(Manner(quiet=0.0, limits=Limits(10 ** 6, 40)))
        for it in PLACES:
            self.gate.know(it)
        noisy, written = subject(101, votes=("mallory approves 0",)), 0
        for at in range(60):
            written += len(self.look(replace(noisy, votes=(f"mallory approves {at}",))))
        # Three quarters of the hour's, of which twenty before it was noisy.
        self.assertEqual(written, 30)
        # Another one is told, by its status and its comment.
        other = subject(102, votes=("ben isn't among those who may approve",))
        found = self.look(replace(noisy, votes=("mallory approves",)), other)
        self.assertEqual([it.split(":")[0] for it in found], ["o/app 102", "o/app 12, comment 2"])
        # Such ones have nine tenths together, and what was approved all of it.
        for at in range(20):
            written += len(self.look(subject(102, votes=(f"{at}",)), subject(103, votes=(f"{at}",))))
        self.assertEqual(written + len(found), 36)
        self.gate.items = ["1 104 1 - ok unit=running"]
        self.assertEqual(len(self.look(subject(104), subject(103, votes=("eve",)))), 2)
        self.gate.items = ["1 104 1 - ok unit=success"]
        self.assertEqual(len(self.look(subject(104), subject(103, votes=("eve",)))), 2)
        self.now += 3600
        self.assertEqual(len(self.look(replace(noisy, votes=("mallory approves",)))), 1)

    def test_one_that_was_tested_for_long_is_told_that_it_was_closed(self) -> None:
        self.people = self.start(Manner(quiet=0.0, limits=Limits(10 ** 6, 40)))
        for at in range(32):
            self.gate.items = [*["3 104 1 - ok unit=running"][:at % 2], "5 101 1 - ok unit=running"]
            self.look()
        self.gate.items = []
        self.gate.know(101, state="closed")
        self.assertIn("o/app 101: failure: Closed without landing", self.look(subject(101, state=State.CLOSED)))

    def test_only_news_is_written_where_a_commit_takes_few_more_statuses_and_nothing_where_it_takes_none(self) -> None:
        self.people = self.start(Manner(quiet=0.0, limits=Limits(10 ** 6, None, 20)))
        written, before = 0, ["3 104 1 - ok unit=running", "4 103 1 3 ok unit=running"]
        for at in range(30):
            self.gate.items = [*before[:at % 2], "5 101 1 - ok unit=running"]
            written += sum("pending" in it for it in self.look())
        self.assertEqual((written, len(self.forge.statuses)), (18, 1))
        for at in range(2):
            self.gate.items = [f"5 101 1 - ok unit={'running' if at else 'success'}"]
            self.assertEqual(len(self.look()), 2)
        self.gate.items = ["5 101 1 - ok unit=success"]
        self.assertEqual(self.look(), ["o/app 11, comment 1: **Its tests have passed, and it is being landed in"
                                       " `core`.**"])
        self.assertTrue(self.is_done)
        self.assertTrue(self.forge.comments[1][1].endswith(
            "\n\nThe forge takes no more statuses of this commit: this comment says what is so."))
        self.assertIn("o/app 999: pending: Tests passed, being landed in core", self.look(subject(101, "999")))

    def test_a_forge_that_takes_no_more_statuses_is_believed(self) -> None:
        def full(place: Place | None) -> None:
            if place is None:
                raise Full("422")

        self.people = self.start(Manner(quiet=0.0, limits=Limits(10 ** 6, None, 1000)))
        self.forge.before, self.gate.items = full, ["5 101 1 - ok unit=running"]
        self.look()
        self.forge.before, self.gate.items = lambda place: None, ["5 101 1 - ok unit=success"]
        self.assertEqual([it[:21] for it in self.look()], ["o/app 11, comment 1: "])
        self.assertEqual((self.is_done, self.forge.statuses), (True, {}))

    def test_a_look_writes_so_much_and_the_next_one_goes_on(self) -> None:
        self.people = self.start(Manner(quiet=0.0, burst=3))
        self.gate.items = [f"{it} {it} 1 - ok unit=running" for it in PLACES]
        subjects = [subject(it) for it in PLACES]
        self.assertEqual([len(self.look(*subjects)) for _ in range(4)], [3, 3, 2, 0])
        self.assertTrue(self.is_done)

    def test_a_comment_is_there_once_though_people_are_killed(self) -> None:
        class Killed(Exception):
            pass

        def kill() -> None:
            self.forge.after = lambda: None
            raise Killed

        self.gate.items = ["1 101 1 - ok unit=running"]
        # Behind the status, which is written first.
        self.forge.after = lambda: setattr(self.forge, "after", kill)
        self.assertRaises(Killed, self.look)
        self.people = self.start()
        self.gate.items = []
        self.gate.know(101)
        self.look()
        self.assertEqual(list(self.forge.comments), [1])
        self.assertIn("Waits for approval", self.forge.comments[1][1])

    def test_what_was_there_before_is_written_over_a_write_without_an_answer(self) -> None:
        """The forge did what it was asked, and failed then, or whoever asked was killed before he had noted that."""
        def fail() -> None:
            self.forge.after = lambda: None
            raise fault

        for fault in (ForgeFault("500"), KeyboardInterrupt()):
            for skipped in (0, 1):
                with self.subTest(type(fault).__name__, skipped=skipped):
                    self.gate.items = ["1 101 1 - ok unit=running"]
                    self.look()
                    before = dict(self.forge.statuses), dict(self.forge.comments)
                    self.gate.items = ["1 101 1 - ok unit=success"]
                    self.forge.after = fail if not skipped else lambda: setattr(self.forge, "after", fail)
                    with contextlib.suppress(KeyboardInterrupt):
                        self.look()
                    self.people, self.gate.items = self.start(), ["1 101 1 - ok unit=running"]
                    self.look()
                    self.assertEqual((self.forge.statuses, self.forge.comments), before)

    def test_a_comment_that_somebody_removed_is_written_anew(self) -> None:
        self.gate.items = ["1 101 1 - ok unit=running"]
        self.look()
        self.forge.comments = {7: (PLACES[102], "another")}
        self.gate.items = ["1 101 1 - ok unit=success"]
        self.assertIn("o/app 11, comment 8", self.look()[1])
        self.gate.items = ["1 101 1 - ok unit=running"]
        self.assertIn("o/app 11, comment 8", self.look()[1])

    def test_a_request_that_cannot_be_told_holds_up_no_other(self) -> None:
        def fault(place: Place | None) -> None:
            if place == PLACES[101]:
                raise ForgeFault("403")

        self.gate.items = ["1 101 1 - ok unit=running", "2 102 1 1 ok unit=running"]
        self.forge.before = fault
        self.look(subject(101), subject(102))
        self.look(subject(101), subject(102))
        self.assertEqual([it for it, _ in self.forge.comments.values()], [PLACES[102]])
        self.assertEqual(self.errors.getvalue(), "people: o/app, request 11: can't be told: 403\n")
        self.assertFalse(self.is_done)
        self.forge.before = lambda place: None
        self.assertEqual(self.look(subject(101), subject(102)), [])
        self.now += 60
        self.assertEqual(len(self.look(subject(101), subject(102))), 1)
        self.assertTrue(self.is_done)

    def test_a_forge_that_fails_is_left_alone(self) -> None:
        tried = []

        def fault(place: Place | None) -> None:
            tried.append(place)
            raise ForgeFault("500")

        self.gate.items = [f"{it} {it} 1 - ok unit=running" for it in PLACES]
        self.forge.before = fault
        self.look(*map(subject, PLACES))
        self.assertEqual((len(tried), self.is_done), (3, False))


if __name__ == "__main__":
    unittest.main()
