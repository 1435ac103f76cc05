"""The adapter's tables: what was told, and what is told again."""
from __future__ import annotations

import json
import random
import tempfile
import unittest
from dataclasses import replace
from pathlib import Path
from unittest import mock

from companions.forges import Place
from companions.outbox import Outbox
from companions.requests import Request, Revision, State, Telling, Told, Vote, first_seen
from companions.told import Changes

FIRST = "70000000-0000-4000-8000-000000000001"
A, B = "a" * 40, "b" * 40
ADA, SAID = Vote("review 1", "ada", True, A), Vote("comment 2", "bob", True, None)
SO = Request("acme/lib", 12, State.OPEN, A, "main", "Title", "Text", (ADA, SAID))
PLACE = Place("acme/lib", 12)
MORE = {"project": "lib", "message": "Title"}


class Case(unittest.TestCase):
    def setUp(self) -> None:
        temporary = tempfile.TemporaryDirectory()
        self.addCleanup(temporary.cleanup)
        self.file = Path(temporary.name) / "adapter.db"
        self.open()
        self.outbox.put("file", {"first": FIRST, "ids": FIRST})
        self.change = self.changes.number(PLACE, "main")

    def open(self) -> None:
        self.outbox = Outbox(self.file)
        # What is on disk after a crash isn't tested here.
        self.outbox.tables.execute("PRAGMA synchronous=OFF")
        self.changes = Changes(self.outbox)

    def keep(self, kind: str, revision: int, *stands_for: str, votes: tuple[str, ...] = (), so: Request = SO,
             needs: tuple[int, ...] = ()) -> None:
        known = self.changes.told(self.change)
        with self.changes.step():
            self.changes.see(so, self.change, first_seen(so, known, needs))
            self.changes.keep(so, self.change, [Telling(kind, revision, stands_for, votes)], MORE, needs)

    def kept(self) -> list[tuple[str, str]]:
        """The deliveries that are kept, each with its id, in order."""
        return self.outbox.tables.execute("SELECT id, said FROM delivery ORDER BY place").fetchall()

    def kinds(self) -> list[str]:
        said = [json.loads(it) for _, it in self.kept()]
        return [f"{it['kind']} {it['change']} {it['revision']}" for it in said]

    def answer(self, *answers: str) -> None:
        """The gate answers what is kept, in order."""
        for said in answers:
            first = self.outbox.firsts()[0]
            self.changes.answered(first.id, None if said[0] == "E" else said, said if said[0] == "E" else None)
            self.outbox.tables.execute("DELETE FROM delivery WHERE id = ?", (first.id,))


class Tables(Case):
    def test_a_change_is_a_request_at_a_branch(self) -> None:
        numbers = [self.changes.number(*it) for it in (
            (PLACE, "main"), (PLACE, "old"), (Place("acme/lib", 13), "main"), (Place("acme/app", 12), "main"))]
        self.assertEqual(numbers, [1, 2, 3, 4])
        self.open()
        self.assertEqual(self.changes.number(PLACE, "old"), 2)
        self.assertEqual(self.changes.of_request(PLACE), {"main": 1, "old": 2})

    def test_nothing_was_told_of_a_number_alone(self) -> None:
        self.assertEqual(self.changes.told(1), Told(1))
        self.assertFalse(self.changes.stands(1))
        self.assertEqual((self.changes.place(1), self.changes.place(2)), (PLACE, None))
        self.assertEqual(self.changes.still_open("acme/lib"), [])

    def test_all_that_was_told_outlives_a_restart(self) -> None:
        self.keep("revision", 1, A, "3", needs=(3,))
        self.keep("approved", 1, "review 1", votes=("review 1",), needs=(3,))
        self.keep("withdrawn", 1, "review 1", votes=("review 1",), needs=(3,))
        self.open()
        self.assertEqual(self.changes.told(1), Told(
            1, (Revision(A, (3,)),), approvals={"review 1": 1}, withdrawals=frozenset({"review 1"}),
            seen={"review 1": 1, "comment 2": 0}, commits={"review 1": A}))
        self.assertEqual(self.kinds(), ["revision 1 1", "approved 1 1", "withdrawn 1 1"])
        self.assertEqual(self.changes.still_open("acme/lib"), [12])

    def test_a_revision_opens_what_was_closed(self) -> None:
        self.keep("revision", 1, A)
        self.keep("closed", 1, "closed")
        self.assertEqual((self.changes.told(1).closed, self.changes.stands(1), self.changes.still_open("acme/lib")),
                         (True, False, []))
        self.keep("revision", 2, A)
        self.assertEqual((self.changes.told(1).closed, self.changes.stands(1)), (False, True))
        self.changes.land(1)
        self.assertEqual((self.changes.told(1).landed, self.changes.still_open("acme/lib")), (True, []))

    def test_a_vote_of_another_branch_is_of_no_revision_here(self) -> None:
        self.keep("revision", 1, A)
        self.keep("approved", 1, "review 1", votes=("review 1",))
        other = self.changes.told(self.changes.number(PLACE, "old"))
        self.assertEqual((other.approvals, other.seen), ({"review 1": 0}, {"review 1": 0, "comment 2": 0}))
        elsewhere = self.changes.told(self.changes.number(Place("acme/lib", 13), "main"))
        self.assertEqual((elsewhere.approvals, elsewhere.seen), ({}, {}))

    def test_a_step_is_written_whole_or_not(self) -> None:
        with self.assertRaises(KeyboardInterrupt), self.changes.step():
            self.changes.see(SO, 1, {"review 1": 1})
            self.changes.keep(SO, 1, [Telling("revision", 1, (A,))], MORE, ())
            raise KeyboardInterrupt
        self.assertEqual((self.changes.told(1), self.kept()), (Told(1), []))

    def test_ids_come_from_what_is_told(self) -> None:
        self.keep("revision", 1, A)
        self.keep("approved", 1, "review 1", votes=("review 1",))
        ids = [it for it, _ in self.kept()]
        for it in ("delivery", "telling", "revision", "vote"):
            self.outbox.tables.execute(f"DELETE FROM {it}")
        self.keep("revision", 1, A)
        self.keep("approved", 1, "review 1", votes=("review 1",))
        self.assertEqual(ids, [it for it, _ in self.kept()])
        self.keep("approved", 1, "review 7")
        self.keep("revision", 2, A)
        self.assertEqual(len({it for it, _ in self.kept()}), 4)

    def test_remarks_take_the_place_of_those_before(self) -> None:
        self.changes.remark(1, "need", ["a", "b"])
        self.changes.remark(1, "vote", ["d"])
        self.changes.remark(1, "need", ["c"])
        self.assertEqual([self.changes.remarks(*it) for it in ((1, "need"), (1, "vote"), (2, "need"))],
                         [["c"], ["d"], []])

    def test_of_many_votes_the_first_are_dropped_that_were_not_told_and_are_shown_no_more(self) -> None:
        self.keep("revision", 1, A)
        self.keep("approved", 1, "review 1", votes=("review 1",))
        with mock.patch("companions.told.MOST_VOTES", 3):
            for number in range(3, 9):
                self.changes.see(replace(SO, votes=(SAID,)), 1, {f"comment {number}": 1})
                self.changes.see(replace(SO, number=13), None, {f"comment {number}": 0})
        kept = [sorted(self.changes.told(self.changes.number(Place("acme/lib", it), "main")).seen) for it in (12, 13)]
        last = ["comment 6", "comment 7", "comment 8"]
        self.assertEqual(kept, [["comment 2", *last, "review 1"], last])

    def test_what_the_forge_shows_of_many_votes_is_kept(self) -> None:
        votes = tuple(Vote(f"comment {number}", "eve", True, None) for number in range(20))
        with mock.patch("companions.told.MOST_VOTES", 3):
            self.changes.see(replace(SO, votes=votes), 1, {it.object: 1 for it in votes})
        self.assertEqual(len(self.changes.told(1).seen), 20)


class Again(Case):
    def tell_again(self, known: int = 0) -> list[str]:
        with self.changes.step():
            self.changes.tell_again(known=known, home=("acme/lib", "main"))
        return self.kinds()

    def test_what_holds_is_told_again_under_the_same_ids(self) -> None:
        self.keep("revision", 1, A)
        self.keep("approved", 1, "review 1")
        before = self.kept()
        self.answer("recorded", "queued")
        self.assertEqual(self.kinds(), [])
        self.tell_again()
        self.assertEqual(self.kept(), before)

    def test_a_recorded_revision_ends_what_was_before_it(self) -> None:
        self.keep("revision", 1, A)
        self.keep("approved", 1, "review 1")
        self.keep("revision", 2, B)
        self.answer("recorded", "queued", "recorded")
        self.assertEqual(self.tell_again(), ["revision 1 2"])

    def test_a_stale_one_is_told_no_more(self) -> None:
        """The change landed at its first revision; a gate that doesn't know that yet would take the second."""
        self.keep("revision", 1, A)
        self.keep("approved", 1, "review 1")
        self.keep("revision", 2, B)
        self.keep("closed", 2, "closed")
        self.answer("recorded", "queued", "stale", "E6")
        self.changes.land(1)
        self.assertEqual(self.tell_again(), ["revision 1 1", "approved 1 1"])

    def test_what_was_not_answered_is_kept_behind_that(self) -> None:
        self.keep("revision", 1, A)
        self.answer("recorded")
        self.keep("approved", 1, "review 1")
        self.assertEqual(self.tell_again(), ["revision 1 1", "approved 1 1"])
        self.changes.land(1)
        self.assertEqual(self.tell_again(), ["revision 1 1"])

    def test_what_the_gate_lacked_is_told_again_and_what_it_will_never_take_is_not(self) -> None:
        self.keep("revision", 1, A)
        self.keep("approved", 1, "review 1")
        self.answer("E7", "E5")
        self.assertEqual(self.changes.refused(1), "E7")
        self.assertEqual(self.tell_again(), ["revision 1 1", "approved 1 1"])
        self.answer("E13", "E5")
        self.assertEqual(self.changes.refused(1), "E13")
        self.assertEqual(self.tell_again(), ["approved 1 1"])

    def test_changes_are_told_again_in_the_order_of_all(self) -> None:
        self.keep("revision", 1, A)
        one, self.change = self.change, self.changes.number(Place("acme/lib", 13), "main")
        self.keep("revision", 1, A)
        self.keep("approved", 1, "review 9")
        self.change = one
        self.keep("approved", 1, "review 1")
        self.assertEqual(self.tell_again(), ["revision 1 1", "revision 2 1", "approved 2 1", "approved 1 1"])
        with self.changes.step():
            self.changes.tell_again(1)
        self.assertEqual(self.kinds(), ["revision 2 1", "approved 2 1", "revision 1 1", "approved 1 1"])

    def test_what_a_restored_gate_has_still_is_left_out(self) -> None:
        self.keep("revision", 1, A)
        ids = [self.kept()[0][0]]
        for number in range(1, 1001):
            self.answer("recorded")
            self.keep("approved", 1, f"review {number}")
            ids.append(self.kept()[0][0])
        asked = []

        def knows(it: str) -> bool:
            asked.append(it)
            return it in ids[:900]

        known = self.changes.replies_known(knows)
        self.assertEqual((known, len(asked) <= 10), (899, True))
        self.tell_again(known)
        self.assertEqual([it for it, _ in self.kept()], ids[899:])

    def test_all_that_a_restored_gate_has_lost_is_told_again(self) -> None:
        """Also where answers were lost, deliveries had to wait, and the gate is restored more than once."""
        for seed in range(60):
            chance = random.Random(seed)
            self.setUp()
            gate: list[str] = []
            for act in range(60):
                self.act_at(gate, chance, act)
                if chance.random() < 0.1:
                    lost = set(gate[chance.randrange(len(gate) + 1):])
                    gate[:] = [it for it in gate if it not in lost]
                    self.tell_again(self.changes.replies_known(gate.__contains__))
                    left = {it for it, _ in self.kept()}
                    self.assertLessEqual(lost, left, (seed, act))

    def act_at(self, gate: list[str], chance: random.Random, act: int) -> None:
        """One more delivery is kept, or one is sent, whose answer may be lost."""
        if chance.random() < 0.4:
            self.change = self.changes.number(Place("acme/lib", chance.randrange(12, 16)), "main")
            self.keep("approved", 1, f"review {act}")
            return
        firsts = self.outbox.firsts()
        if not firsts:
            return
        # The first lanes may have to wait.
        first = firsts[min(chance.choice((0, 0, 1, 2)), len(firsts) - 1)]
        if chance.random() < 0.2:
            return
        if first.id not in gate:
            gate.append(first.id)
        if chance.random() < 0.7:
            self.changes.answered(first.id, "recorded", None)
            self.outbox.tables.execute("DELETE FROM delivery WHERE id = ?", (first.id,))

    def test_another_file_was_told_nothing(self) -> None:
        self.keep("revision", 1, A)
        self.keep("approved", 1, "review 1", votes=("review 1",))
        self.changes.forget()
        known = self.changes.told(1)
        self.assertEqual((self.kept(), known.closed, known.approvals, self.changes.stands(1)),
                         ([], True, {"review 1": 1}, False))
        self.assertEqual(self.tell_again(), [])


if __name__ == "__main__":
    unittest.main()
