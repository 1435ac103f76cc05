"""People told by a forge that notes what is written, before a stand-in of a gate."""
from __future__ import annotations

import unittest
from datetime import datetime, timezone

from companions.forges import FAILURE, PENDING
from companions.people import Manner
from companions.requests import State
from companions.tests.people_case import PLACES, PeopleCase, subject


class PeopleTest(PeopleCase):
    def test_a_quiet_look_costs_the_status_the_histories_and_one_change(self) -> None:
        self.gate.items = [f"{it} {it} 1 - ok unit=running" for it in (101, 102)]
        for it in (103, 104):
            self.gate.know(it)
        subjects = [subject(it) for it in PLACES]
        self.look(*subjects)
        self.assertTrue(self.is_done)
        self.asked()
        self.assertEqual(self.look(*subjects), [])
        self.assertEqual(self.asked(), ["/status", "/history/core/1", "/history/web/1", "/changes/103"])
        self.look(*subjects)
        self.assertEqual(self.asked()[3:], ["/changes/104"])

    def test_what_was_written_is_written_no_more(self) -> None:
        self.gate.items = ["1 101 1 - ok unit=running"]
        self.assertEqual(self.look(), ["o/app 101: pending: Testing at place 1 of 1 in core: unit running",
                                       "o/app 11, comment 1: **Being tested in `core`.**"])
        self.assertEqual(self.look(), [])
        self.people = self.start()
        self.assertEqual(self.look(), [])
        self.gate.items, self.gate.reports = [], ["1 101 1 landed 1"]
        self.assertEqual(self.look(), ["o/app 101: success: Landed in core as 1",
                                       "o/app 11, comment 1: **Landed in `core` as 1.**"])

    def test_no_comment_before_there_is_news(self) -> None:
        self.gate.know(101)
        self.assertEqual(self.look(), ["o/app 101: pending: Waits for approval"])
        self.assertEqual(self.look(subject(101, lines=("Depends-On: x",))),
                         ["o/app 11, comment 1: **Waits for approval.**"])
        self.assertIn("\n    Depends-On: x\n", self.forge.comments[1][1])
        self.look()
        self.assertNotIn("Depends-On", self.forge.comments[1][1])

    def test_progress_is_written_now_and_then_and_news_at_once(self) -> None:
        self.people = self.start(Manner(quiet=10.0))
        self.gate.items = ["1 102 1 - ok unit=running", "2 101 1 1 ok unit=running"]
        self.assertEqual(len(self.look()), 2)
        self.gate.items = self.gate.items[1:]
        self.assertEqual(self.look(), [])
        self.assertFalse(self.is_done)
        self.now += 10
        self.assertEqual(self.look()[0], "o/app 101: pending: Testing at place 1 of 1 in core: unit running")
        self.assertTrue(self.is_done)
        self.gate.items = ["2 101 1 1 ok unit=success"]
        self.assertIn("o/app 101: pending: Tests passed, being landed in core", self.look())
        self.gate.items = ["2 101 1 1 ok unit=running"]
        self.look()
        self.gate.items = ["3 104 1 - ok unit=running", *self.gate.items]
        self.assertEqual(self.look(), [])
        self.boot = "another"
        self.assertEqual(len(self.look()), 1, "what was written before the machine was started anew is old")

    def test_what_landed_and_is_shown_as_open_is_closed_some_time_later(self) -> None:
        """Once, and its comment says so then. Nothing is closed that has other commits, or that isn't open."""
        cases: list[tuple[bool, State, tuple[str, ...], list[str]]] = [
            (True, State.OPEN, ("9",), ["o/app 11: closed at 9", "o/app 11, comment 1: **Landed in `core` as 1.**"]),
            (False, State.OPEN, ("9",), ["o/app 11: closed at 9"]), (True, State.MERGED, ("9",), []),
            (True, State.OPEN, ("9", "8"), [])]
        for is_open, state, commits, lines in cases:
            with self.subTest(is_open=is_open, state=state, commits=commits):
                self.setUp()
                self.people, self.forge.is_open = self.start(Manner(quiet=0.0, closes=60.0)), is_open
                self.gate.leave(5, 101, "landed", 1)
                about = subject(101, *commits, state=state)
                self.look(about)
                self.now += 58
                self.assertEqual(self.look(about), [])
                self.now += 1
                written = self.look(about) + self.look(about)
                self.people = self.start(Manner(quiet=0.0, closes=60.0))
                self.assertEqual((written, self.look(about)), (lines, []))
                said = "The gate has closed it, since the forge didn't show it as merged. Its branch has its commits."
                self.assertEqual(said in self.forge.comments[1][1], len(lines) == 2)

    def test_places_in_the_queue_are_written_to_the_status_alone(self) -> None:
        self.gate.items = [f"{it} {it} 1 {it - 1} ok unit=waiting" for it in (*range(2, 9), 101)]
        self.look()
        while len(self.gate.items) > 4:
            self.gate.items = self.gate.items[1:]
            self.assertEqual([it.split(" at ")[0] for it in self.look()], ["o/app 101: pending: Queued"])

    def test_a_history_of_another_file_is_read_anew(self) -> None:
        self.gate.leave(1, 102, "landed", 1)
        self.gate.leave(2, 101, "withdrawn")
        self.assertIn("the earlier one was taken back", self.look()[0])
        another, shorter = ["1 102 1 landed 1", "3 101 1 refused -"], ["9 101 1 landed 1"]
        for reports in (another, shorter):
            with self.subTest(reports):
                self.gate.reports = reports
                self.assertEqual(len(self.look()), 2)
        self.gate.know(101)
        self.gate.reports = []
        self.assertEqual(self.look()[0], "o/app 101: pending: Waits for approval")

    def test_a_long_history_comes_by_pages(self) -> None:
        for order in range(1, 2500):
            self.gate.leave(order, 102, "withdrawn")
        self.gate.leave(2500, 101, "landed", 1)
        self.assertEqual(self.look()[0], "o/app 101: success: Landed in core as 1")
        self.assertEqual([it for it in self.asked() if "core" in it],
                         ["/history/core/1", "/history/core/1000", "/history/core/1999"])
        self.look()
        self.assertIn("/history/core/2500", self.asked())

    def test_a_report_that_came_since_the_status_counts(self) -> None:
        self.gate.items = ["5 101 1 - ok unit=running"]
        self.gate.leave(5, 101, "withdrawn")
        self.assertIn("the earlier one was taken back", self.look()[0])
        self.gate.items = ["6 101 1 - ok unit=running"]
        self.assertIn("Testing", self.look()[0])

    def test_what_a_change_waits_for(self) -> None:
        self.gate.know(101, 102, approval=3)
        self.gate.waiting = [101]
        self.assertEqual(self.look()[0], "o/app 101: pending: Approved, waits for #12, which isn't approved")
        self.gate.know(102, 101, approval=4)
        self.gate.changes[101]["needs"][0]["approval"] = 4
        self.gate.waiting = [101, 102]
        self.look(subject(101), subject(102))
        self.look(subject(101), subject(102))
        self.assertEqual({text for _, text in self.forge.statuses.values()},
                         {f"Can't enter core: it and #{it} need each other" for it in (11, 12)})

    def test_what_becomes_of_a_need_is_told_at_the_next_look(self) -> None:
        self.gate.know(101, 102, approval=3)
        self.gate.waiting = [101]
        for it in (103, 104):
            self.gate.know(it)
        others = subject(103), subject(104)
        self.look(*others, subject(101))
        self.gate.changes[101]["needs"][0]["approval"] = 4
        self.gate.waiting = [101, 102]
        self.assertEqual(self.look(*others, subject(101))[0],
                         "o/app 101: pending: Approved, waits for #12, which waits too")
        self.gate.changes[101]["needs"][0] = {"change": 102, "state": "open", "stands": "web", "approval": None}
        self.gate.waiting, self.gate.items = [101], ["1 102 1 - ok unit=running"]
        self.assertEqual(self.look(*others, subject(101))[0],
                         "o/app 101: pending: Approved, waits for #12 to land in web")

    def test_what_left_and_is_closed_or_approved_again(self) -> None:
        self.gate.know(101, 102, approval=3)
        self.gate.leave(5, 101, "withdrawn")
        self.gate.waiting = [101]
        self.assertIn("Approved, waits for #12", self.look()[0])
        self.gate.waiting = []
        self.gate.know(101, state="closed")
        self.assertEqual(self.look(subject(101, state=State.CLOSED))[0], "o/app 101: failure: Closed without landing")

    def test_needs_by_name(self) -> None:
        self.gate.know(101, 102, 103)
        self.gate.items = ["1 103 1 - ok unit=running", "2 102 1 1 failing unit=failure",
                           "3 101 1 1 blocked unit=waiting"]
        self.assertIn("it needs #12, which fails", self.look()[0])
        self.gate.items = []
        self.gate.leave(3, 101, "needs")
        self.assertIn("#12 and #13, which it needs, left without landing", self.look()[0])

    def test_an_answered_delivery_has_the_change_and_those_that_need_it_asked_again(self) -> None:
        self.gate.know(101, 104, approval=3)
        self.gate.waiting = [101]
        for it in (102, 103, 104):
            self.gate.know(it)
        subjects = [subject(it) for it in (103, 102, 101, 104)]
        self.look(*subjects)
        self.asked()
        self.gate.changes[101]["needs"][0]["state"] = self.gate.changes[104]["state"] = "closed"
        self.people.ask_again(104)
        self.look(*subjects[1:])
        self.assertEqual({it for it in self.asked() if "changes" in it},
                         {"/changes/101", "/changes/102", "/changes/104"})
        self.assertEqual(self.forge.statuses[subjects[2].commits[0]][1],
                         "Approved, waits for o/lib#14, which is closed")

    def test_questions_are_bounded(self) -> None:
        self.people = self.start(Manner(questions=2))
        for it in PLACES:
            self.gate.know(it)
        subjects = [subject(it) for it in PLACES]
        self.look(*subjects)
        self.assertEqual((len(self.forge.statuses), self.is_done), (2, False))
        for _ in range(3):
            self.look(*subjects)
        self.assertEqual((len(self.forge.statuses), self.is_done), (4, True))

    def test_votes_are_remembered_once_the_item_is_gone(self) -> None:
        self.gate.items = ["1 102 1 - ok unit=running", "5 101 1 1 failing unit=failure docs=failure"]
        self.gate.build(5, 101, {"unit": True, "docs": False}, "unit", "docs")
        self.assertIn("unit failed", self.look()[0])
        self.gate.items = []
        self.gate.build(5, 101, None, "unit", "docs")
        self.gate.leave(5, 101, "failed")
        self.people = self.start()
        self.assertEqual(self.look()[0], "o/app 101: failure: unit failed (build 17). Mend it and push, or have it"
                                         " approved again")
        self.assertIn("- `unit` failed: [build 17](https://logs/17)\n\nMend it", self.forge.comments[1][1])

    def test_no_answer_of_the_gate_is_told_once(self) -> None:
        self.gate.answers = False
        self.assertEqual((self.look(), self.look(), self.is_done), ([], [], False))
        self.gate.answers = True
        self.gate.items = ["1 101 1 - ok unit=running"]
        self.assertEqual(len(self.look()), 2)
        lines = self.errors.getvalue().splitlines()
        self.assertEqual(len(lines), 2, lines)
        self.assertTrue(lines[0].startswith("people: can't look: no answer of the gate: GET /status: "))
        self.assertEqual(lines[1], "people: the gate answers again")

    def test_answers_of_another_form_are_none(self) -> None:
        self.gate.changes[101] = {"revision": 1}
        self.assertEqual(self.look(), [])
        self.assertIn("GET /changes/101: not what a gate says: KeyError('state')", self.errors.getvalue())

    def test_requests_with_the_same_commit_share_its_status(self) -> None:
        both = subject(101, "c"), subject(102, "c")
        self.gate.items = ["1 101 1 - ok unit=running", "2 102 1 1 ok unit=waiting"]
        written = self.look(*both)
        self.assertEqual(written[0], "o/app c: pending: #11: Testing at place 1 of 2 in core: unit running; #12: Queued"
                                     " at place 2 of 2 in core, waits for a worker")
        self.assertEqual(self.look(*both), [])
        self.gate.items = []
        self.gate.leave(1, 101, "landed", 1)
        self.gate.leave(2, 102, "withdrawn")
        self.look(*both)
        self.assertEqual(self.forge.statuses["c"][0], PENDING)
        self.look(subject(101, "c", state=State.MERGED), both[1])
        self.assertEqual(self.forge.statuses["c"], (PENDING, "Waits for approval: the earlier one was taken back"))
        self.gate.leave(3, 102, "refused")
        self.look(*both)
        self.assertEqual(self.forge.statuses["c"][0], FAILURE)

    def test_a_commit_that_landed_before_another_one_has_its_status(self) -> None:
        self.gate.items = ["1 101 1 - ok unit=running"]
        self.look(subject(101, "a"))
        self.gate.items = []
        self.gate.leave(1, 101, "landed", 1)
        self.assertEqual(self.look(subject(101, "a", "b"))[:2], [
            "o/app b: failure: Landed in core as 1, without this commit: open a new request",
            "o/app a: success: Landed in core as 1"])
        self.assertEqual((self.look(subject(101, "a", "b")), self.done), ([], {101: "landed"}))

    def test_a_head_that_goes_back_gets_its_status_again(self) -> None:
        self.gate.know(101)
        self.look(subject(101, "a"))
        self.gate.know(101, revision=2)
        self.gate.leave(1, 101, "superseded")
        self.look(subject(101, "a", "b"))
        self.gate.know(101, revision=3)
        self.assertEqual(self.look(subject(101, "a", "b", "a"))[0], "o/app a: pending: Waits for a new approval")

    def test_of_a_revision_at_an_earlier_commit_people_are_told_anew_and_when(self) -> None:
        told: list[tuple[int, int, int]] = []
        self.people.shown = lambda change, revision, at: told.append((change, revision, at.second))
        self.gate.know(101)
        for second, commits in ((1, ("a",)), (2, ("a",)), (3, ("a", "a"))):
            self.forge.now = datetime(2026, 1, 1, 0, 0, second, tzinfo=timezone.utc)
            self.gate.know(101, revision=len(commits))
            self.look(subject(101, *commits))
        self.assertEqual(told, [(101, 1, 1), (101, 2, 3)])
        # A forge that tells no time, and one that takes no status of this commit.
        self.forge.now = None
        self.gate.know(101, revision=3)
        self.assertEqual(self.look(subject(101, "a", "a", "a")), ["o/app a: pending: Waits for approval"])
        self.forge.now, self.forge.takes_statuses = datetime(2026, 1, 1, tzinfo=timezone.utc), False
        self.gate.know(101, revision=4)
        self.look(subject(101, "a", "a", "a", "a"))
        self.assertEqual((len(told), self.look(subject(101, "a", "a", "a", "a"))), (2, []))

    def test_a_request_that_waits_for_approval_has_the_line_to_copy_in_its_comment(self) -> None:
        line = ("To approve this commit by a comment, write one that is this line alone:\n\n"
                f"    /gate approve {'a' * 40}")
        self.gate.know(101)
        self.look(subject(101, "a" * 40, votes=("ada wrote something else: comment 4 doesn't count",)))
        self.assertIn(line, self.forge.comments[1][1])
        self.gate.leave(1, 101, "failed")
        self.gate.build(1, 101, {"unit": True}, "unit")
        self.look(subject(101, "a" * 40))
        self.assertIn(line, self.forge.comments[1][1])
        self.gate.items = ["2 101 1 - ok unit=running"]
        self.look(subject(101, "a" * 40))
        self.assertNotIn("/gate approve", self.forge.comments[1][1])


if __name__ == "__main__":
    unittest.main()
