"""The lander over real repositories, and a gate that says what a scene has it say."""
from __future__ import annotations

import dataclasses
import unittest
from unittest import mock

from companions import held, lander
from companions.checks import Again, QueueStops
from companions.gate import NoAnswer, Order
from companions.held import Hold
from companions.ids import id_of, success_id
from companions.lander import Lander
from companions.repository import GitFault, Repository
from companions.tests.lander_case import FIRST, LanderCase


class LanderTest(LanderCase):
    def test_an_order_is_landed(self) -> None:
        self.land(3, 101)
        told = id_of(FIRST, "landed", "core", 3, 101, 1)
        self.assertEqual(self.gate.told, [{"id": told, "kind": "landed", "order": 3}])
        self.assertEqual(self.git("lib", "log", "-1", "--format=%B", "main"),
                         "Land change 101: Make refs/changes/101/1\n\nGate-Queue: core\nGate-Place: 1\n"
                         "Gate-Change: 101\nGate-Revision: 1")
        self.assertEqual(self.git("lib", "show", "main:file-101"), "new")

    def test_a_note_has_what_is_no_function_of_what_is_merged(self) -> None:
        self.land(3, 101)
        identity = success_id(43, "core", 101, 1, "unit", self.head())
        tag = self.git("lib", "cat-file", "tag", "refs/landings/core/000001")
        self.assertRegex(tag, rf"\Aobject {self.head()}\ntype commit\ntag core/000001\ntagger gate <g@l> \d+ \+0000\n\n"
                              rf"Gate-File: {FIRST}\nGate-Order: 3\nGate-Evidence: asked\n"
                              rf"Gate-Job: unit 43 {identity}\Z")
        first = self.git("app", "cat-file", "tag", "refs/landings/core/000000")
        self.assertRegex(first, rf"\Aobject {self.head('app')}\n(.*\n)*\nGate-Author: gate <g@l>\nGate-Git: \d+\.\d+\Z")

    def test_places_are_counted_over_the_projects_of_a_queue(self) -> None:
        self.land(1, 101)
        self.land(2, 102, "app")
        self.assertEqual(self.notes(), {
            "lib core/000000": self.root("lib"), "app core/000000": self.root("app"),
            "lib core/000001": self.head("lib"), "app core/000002": self.head("app")})
        self.assertIn(f"\nGate-With: lib {self.head('lib')}", self.git("app", "log", "-1", "--format=%B", "main"))

    def test_what_conflicts_is_refused(self) -> None:
        self.change(101, text="two")
        self.change(102, text="three")
        self.lander.carry_out(self.order(1, 101))
        head = self.head()
        self.lander.carry_out(self.order(2, 102))
        self.assertEqual([it["kind"] for it in self.gate.told], ["landed", "refused"])
        self.assertEqual(self.head(), head)
        self.assertIn("lander: core: refused change 102, revision 1: it can't be merged into main: it conflicts with"
                      " change 101 in file: {'reply': 'removed'}\n", self.said())

    def test_a_queue_that_is_held_lands_nothing_until_it_is_resumed(self) -> None:
        self.change(101)
        order = self.order(1, 101)
        self.settings.folder.mkdir(exist_ok=True)
        held.write(self.settings.folder, {"core": Hold("2026-11-30 12:00 UTC", "a freeze"), "web": Hold("then")})
        with self.assertRaisesRegex(QueueStops, "^an operator holds it since 2026-11-30 12:00 UTC: a freeze$"):
            self.lander.carry_out(order)
        self.assertEqual((self.head(), self.gate.told), (self.root("lib"), []))
        held.write(self.settings.folder, {"web": Hold("then")})
        self.lander.carry_out(order)
        self.assertEqual([it["kind"] for it in self.gate.told], ["landed"])

    def test_a_queue_that_is_held_while_an_order_is_carried_out(self) -> None:
        """Right before the push. What was pushed before it is told all the same."""
        self.change(101)
        order = self.order(1, 101)
        self.settings.folder.mkdir(exist_ok=True)
        confirm = self.lander.confirm

        def hold(it: Order) -> None:
            confirm(it)
            held.write(self.settings.folder, {"core": Hold("then")})

        with mock.patch.object(self.lander, "confirm", hold), self.assertRaises(QueueStops):
            self.lander.carry_out(order)
        self.assertEqual(self.head(), self.root("lib"))
        held.write(self.settings.folder, {})
        self.gate.silent = True
        with self.assertRaises(NoAnswer):
            self.lander.carry_out(order)
        self.gate.silent = False
        held.write(self.settings.folder, {"core": Hold("then")})
        self.lander.carry_out(order)
        self.assertEqual(len(self.gate.landed), 1)

    def test_what_was_pushed_and_not_told_is_told_once_and_not_merged_again(self) -> None:
        self.change(101)
        order = self.order(1, 101)
        self.gate.silent = True
        with self.assertRaises(NoAnswer):
            self.lander.carry_out(order)
        head, self.gate.silent = self.head(), False
        self.lander = self.start()
        self.lander.carry_out(order)
        self.assertEqual(self.head(), head)
        self.assertEqual([it.change for it in self.gate.landed], [101])
        self.assertEqual(len({it["id"] for it in self.gate.told}), 1)

    def test_a_push_whose_end_was_not_seen_is_told(self) -> None:
        def push_and_lose(repository: Repository, updates: dict[str, tuple[str | None, str]]) -> bool:
            push(repository, updates)
            raise GitFault("the connection was closed")
        self.land(1, 101)
        self.change(102)
        order, push = self.order(2, 102), Repository.push
        with mock.patch.object(Repository, "push", push_and_lose), self.assertRaises(GitFault):
            self.lander.carry_out(order)
        head = self.head()
        self.lander.carry_out(order)
        self.assertEqual(([it.change for it in self.gate.landed], self.head()), ([101, 102], head))

    def test_an_order_that_became_another_changes_is_not_told(self) -> None:
        self.change(101)
        order = self.order(1, 101)
        self.order(1, 102, is_tested=False)
        with self.assertRaises(Again):
            self.lander.carry_out(order)
        self.assertEqual((self.gate.told, self.head()), ([], self.root("lib")))

    def test_a_restored_gate_is_told_what_the_branches_have(self) -> None:
        for order, change in enumerate((101, 102, 103), 1):
            self.land(order, change)
        head = self.head()
        self.lose(2)
        self.lander.carry_out(self.order(7, 102))
        self.lander.carry_out(self.order(8, 103))
        self.assertEqual([(it.change, it.order) for it in self.gate.landed], [(101, 1), (102, 7), (103, 8)])
        self.assertEqual(self.head(), head)
        self.land(9, 104)
        self.assertEqual(self.git("lib", "rev-parse", "main^"), head)

    def test_a_restored_gate_lands_nothing_before_what_the_branches_have(self) -> None:
        self.land(1, 101)
        self.land(2, 102)
        head = self.head()
        self.lose(1)
        self.change(103)
        del self.gate.changes[102]
        with self.assertRaisesRegex(QueueStops, "tell that revision and its approval again"):
            self.lander.carry_out(self.order(2, 103))
        for state, said in (({"revision": 1, "state": "open"}, "approve that revision again"),
                            ({"revision": 1, "state": "closed"}, "restore the gate once more"),
                            ({"revision": 2, "state": "open"}, "restore the gate once more")):
            self.gate.changes[102] = {"order": None, "approval": None, **state}
            with self.assertRaisesRegex(QueueStops, said):
                self.lander.carry_out(self.gate.shown[0])
        self.gate.changes[102] = {"revision": 1, "state": "open", "order": 3, "approval": None}
        self.lander.carry_out(self.order(2, 103))
        self.assertEqual(self.gate.told[-1]["kind"], "refused")
        self.assertEqual((self.head(), [it.change for it in self.gate.landed]), (head, [101]))

    def test_another_file_stops_the_queue(self) -> None:
        self.land(1, 101)
        head = self.head()
        self.gate.file, self.gate.landed, self.gate.taken = "0c000000-0000-4000-8000-000000000001", [], {}
        self.change(102)
        with self.assertRaisesRegex(QueueStops, "the gate has another file"):
            self.lander.carry_out(self.order(1, 102))
        self.lander = self.start()
        with self.assertRaisesRegex(QueueStops, "the gate has another file"):
            self.lander.carry_out(self.gate.shown[0])
        self.assertEqual((self.head(), self.gate.landed), (head, []))

    def test_a_push_past_the_gate_stops_the_queue_until_it_is_taken_back(self) -> None:
        self.land(1, 101)
        kept = self.head()
        self.commit("lib", "main", {"file": "past the gate"}, [kept])
        self.change(102)
        with self.assertRaisesRegex(QueueStops, "take back what was pushed past the gate"):
            self.lander.carry_out(self.order(2, 102))
        self.assertEqual(len(self.gate.landed), 1)
        self.git("lib", "update-ref", "refs/heads/main", kept)
        self.lander.carry_out(self.gate.shown[0])
        self.assertEqual(len(self.gate.landed), 2)

    def test_a_landing_that_the_gate_counts_otherwise_stops_the_queue(self) -> None:
        self.land(1, 101)
        self.gate.landed.append(self.gate.landed[0])
        self.change(102)
        with self.assertRaisesRegex(QueueStops, "the branches' 2., and the gate says .*3"):
            self.lander.carry_out(self.order(2, 102))
        self.change(103)
        with self.assertRaisesRegex(QueueStops, "the gate has 3 landings, and the branches have 2"):
            self.lander.carry_out(self.order(3, 103))

    def test_a_repository_that_is_away_at_the_start_is_noted_later(self) -> None:
        """Its first head has to be there before any worker can build, so before any order."""
        (self.folder / "lib").rename(self.folder / "away")
        every = Lander(dataclasses.replace(self.settings, folder=self.folder / "other", pause=0.01))
        self.addCleanup(every.pool.shutdown)
        every.gate = self.gate  # type: ignore[assignment]
        self.gate.until = lambda ask, pause: ask()  # type: ignore[attr-defined]
        every.turn()
        every.at_work["core"].result()
        (self.folder / "away").rename(self.folder / "lib")
        self.git("lib", "update-ref", "-d", "refs/landings/core/000000")
        every.rests.clear()
        every.turn()
        every.at_work["core"].result()
        self.assertIn("lib core/000000", self.notes())
        every.turn()
        self.assertEqual((self.gate.told, every.said), ([], {}))

    def test_notes_are_looked_at_while_nothing_is_ordered(self) -> None:
        """Workers that read another author in a first note take nothing, so no order would come."""
        every = Lander(dataclasses.replace(self.settings, folder=self.folder / "other", pause=0.01))
        self.addCleanup(every.pool.shutdown)
        every.gate = self.gate  # type: ignore[assignment]
        self.gate.until = lambda ask, pause: ask()  # type: ignore[attr-defined]
        every.turn()
        every.at_work["core"].result()
        self.git("lib", "update-ref", "refs/landings/core/000000", self.commit("lib", "x", {"y": "z"}, []))
        every.turn()
        self.assertNotEqual(self.notes()["lib core/000000"], self.root("lib"))
        with mock.patch.object(lander, "NOTES", 0.0):
            every.turn()
            every.at_work["core"].result()
        self.assertEqual(self.notes()["lib core/000000"], self.root("lib"))

    def test_an_unknown_project_is_told(self) -> None:
        with self.assertRaisesRegex(QueueStops, "is of project site, which the settings don't have"):
            self.lander.carry_out(self.order(1, 101, "site", is_tested=False))
        self.assertEqual(self.gate.told, [])


if __name__ == "__main__":
    unittest.main()
