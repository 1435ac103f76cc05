"""The lander's own notes: what stands beside the branches is set right from them, and said."""
from __future__ import annotations

import unittest
from collections.abc import Callable
from typing import Any
from unittest import mock

from companions.checks import QueueStops
from companions.landings import note_name
from companions.repository import GitFault, Repository
from companions.tests.forge import earlier_message
from companions.tests.lander_case import FIRST, LanderCase

NOTE, FIRST_NOTE = "refs/landings/core/{:06d}", "refs/landings/core/000000"


class NotesCase(LanderCase):
    def forged(self, name: str = "lib", onto: str | None = None) -> str:
        """A commit that says that it is a landing, and stands in no branch."""
        tree = self.git(name, "rev-parse", f"{onto or 'main'}^{{tree}}")
        message = "Land change 999: X\n\nGate-Queue: core\nGate-Place: 2\nGate-Change: 999\nGate-Revision: 1\n"
        return self.git(name, "commit-tree", tree, "-p", "main", "-p", "main", "-m", message)

    def right(self) -> dict[str, str]:
        """The notes as the branches have them: of two landings, each in a project."""
        return {"lib core/000000": self.root("lib"), "app core/000000": self.root("app"),
                "lib core/000001": self.head("lib"), "app core/000002": self.head("app")}

    def land_two(self) -> None:
        self.land(1, 101)
        self.land(2, 102, "app")
        self.assertEqual(self.notes(), self.right())
        self.said()


class Forged(NotesCase):
    def test_a_branch_or_a_tag_whose_name_ends_so_is_no_note(self) -> None:
        self.land(1, 101)
        for name in ("refs/heads/refs/landings/core/000009", "refs/tags/refs/landings/core/000002"):
            self.git("lib", "update-ref", name, self.forged())
        self.lander = self.start()
        self.land(2, 102)
        self.assertEqual([it.change for it in self.gate.landed], [101, 102])

    def test_a_note_that_names_a_landing_of_no_branch_lands_nothing(self) -> None:
        """The gate took it for a landing once, and recorded it."""
        self.land(1, 101)
        self.said()
        self.git("lib", "update-ref", NOTE.format(2), self.forged())
        self.lander = self.start()
        self.change(999)
        self.lander.carry_out(self.order(2, 999))
        self.assertEqual(self.git("lib", "rev-parse", "main^2"), self.git("lib", "rev-parse", "refs/changes/999/1"))
        self.assertIn("lander: core: taken away in lib, as no landing of the branch: refs/landings/core/000002\n",
                      self.said())

    def test_a_note_in_the_way_of_the_next_landing_is_overwritten(self) -> None:
        self.land(1, 101)
        self.change(102)
        order = self.order(2, 102)
        self.git("lib", "update-ref", NOTE.format(2), self.forged())
        self.lander.carry_out(order)
        self.assertEqual(self.notes()["lib core/000002"], self.head())

    def test_a_name_in_the_way_of_all_notes_is_taken_away(self) -> None:
        self.git("lib", "update-ref", "-d", FIRST_NOTE)
        self.git("lib", "update-ref", "refs/landings/core", self.root("lib"))
        self.lander = self.start()
        self.land(1, 101)
        self.git("lib", "update-ref", f"{NOTE.format(2)}/x", self.head())
        self.change(102)
        order = self.order(2, 102)
        with self.assertRaises(GitFault):
            self.lander.carry_out(order)
        self.lander.carry_out(order)
        self.assertEqual(self.notes()["lib core/000002"], self.head())

    def test_notes_that_were_moved_deleted_or_put_into_another_project_are_set_right(self) -> None:
        self.land_two()
        for said, turn in (
                ("set right in lib, by the branch: refs/landings/core/000001",
                 lambda: self.git("lib", "update-ref", NOTE.format(1), self.forged())),
                ("set right in lib, by the branch: refs/landings/core/000001",
                 lambda: self.git("lib", "update-ref", "-d", NOTE.format(1))),
                ("taken away in lib, as no landing of the branch: refs/landings/core/000002",
                 lambda: self.git("lib", "update-ref", NOTE.format(2), self.forged())),
                ("set right in app, by the branch: refs/landings/core/000000",
                 lambda: self.git("app", "update-ref", FIRST_NOTE, self.head("app"))),
                ("set right in app, by the branch: refs/landings/core/000000",
                 lambda: self.git("app", "update-ref", "-d", FIRST_NOTE)),
                ("taken away in app, as no landing of the branch: refs/landings/core/000009",
                 lambda: self.git("app", "update-ref", NOTE.format(9), self.head("app")))):
            turn()
            note = self.git("app", "rev-parse", NOTE.format(2))
            self.lander = self.start()
            self.assertEqual(self.said(), f"lander: core: {said}\n")
            self.assertEqual((self.notes(), self.git("app", "rev-parse", NOTE.format(2))), (self.right(), note))
        self.lander = self.start()
        self.assertEqual(self.said(), "")

    def test_a_lander_that_has_lost_its_folder_reads_the_branches(self) -> None:
        turns: list[Callable[[], object]] = [
            lambda: None, lambda: self.git("lib", "update-ref", FIRST_NOTE, self.head()),
            lambda: self.git("lib", "update-ref", "-d", NOTE.format(1)),
            lambda: self.git("app", "update-ref", "-d", FIRST_NOTE),
            lambda: self.git("app", "update-ref", NOTE.format(2), self.forged("app"))]
        for turn in turns:
            if not self.gate.landed:
                self.land_two()
            turn()
            self.lose_folder()
            self.lander = self.start()
            self.assertEqual(self.notes(), self.right())
            self.assertEqual((self.lander.branches.noted, self.lander.branches.heads, self.lander.branches.landed),
                             (2, {"lib": self.head(), "app": self.head("app")}, {"lib", "app"}))

    def lose_folder(self) -> None:
        """The lander's folder is gone."""
        self.lander.notes.tables.close()
        for it in (self.settings.folder / "lander").glob("notes.db*"):
            it.unlink()

    def test_a_history_is_read_once(self) -> None:
        self.land_two()
        with mock.patch.object(Repository, "line", autospec=True, side_effect=AssertionError("reads")):
            self.lander = self.start()
        self.land(3, 103)
        read: list[tuple[str, ...]] = []
        head = self.head()
        self.lander.notes.drop("landing core 000003")
        self.lander.notes.put("whole core", {**self.lander.notes.get("whole core"), "place": 2, "heads": {
            "lib": self.git("lib", "rev-parse", "main^"), "app": self.head("app")}})
        line = Repository.line

        def noted(of: Repository, *it: Any) -> Any:
            read.append(it)
            return line(of, *it)

        with mock.patch.object(Repository, "line", autospec=True, side_effect=noted):
            self.lander = self.start()
        self.assertEqual((read, self.lander.branches.noted), ([(head, self.git("lib", "rev-parse", "main^"))], 3))

    def test_what_was_pushed_past_the_gate_is_no_landing(self) -> None:
        self.land_two()
        kept = self.head()
        self.commit("lib", "main", {"file": "past"}, [kept])
        for is_lost in (False, True):
            if is_lost:
                self.lose_folder()
            else:
                self.git("lib", "update-ref", "refs/heads/main", self.forged())
            self.lander = self.start()
            self.assertEqual(self.lander.branches.heads["lib"], kept)
            self.change(103)
            with self.assertRaisesRegex(QueueStops, "take back what was pushed past the gate"):
                self.lander.carry_out(self.order(3, 103, is_tested=False))
            self.git("lib", "update-ref", "refs/heads/main", self.commit("lib", "main", {"file": "past"}, [kept]))


class Restarts(NotesCase):
    def test_a_lander_that_died_behind_its_push(self) -> None:
        self.change(101)
        order = self.order(1, 101)
        with mock.patch.object(self.lander.branches, "moved", side_effect=SystemExit), self.assertRaises(SystemExit):
            self.lander.carry_out(order)
        head, note = self.head(), self.git("lib", "rev-parse", NOTE.format(1))
        self.lander = self.start()
        self.lander.carry_out(order)
        self.assertEqual((self.head(), self.git("lib", "rev-parse", NOTE.format(1))), (head, note))
        self.assertEqual([it.change for it in self.gate.landed], [101])

    def test_another_lander_has_landed_meanwhile(self) -> None:
        """A standby took over, and gave back."""
        self.land(1, 101)
        notes = self.lander.notes
        copy = {name: notes.get(name) for name in ("whole core", "last core")}
        self.land(2, 102)
        for name, said in copy.items():
            notes.put(name, said)
        notes.drop("landing core 000002")
        self.lander = self.start()
        self.land(3, 103)
        self.assertEqual([it.change for it in self.gate.landed], [101, 102, 103])

    def test_another_file_is_known_by_the_notes_where_the_folder_is_lost(self) -> None:
        self.land_two()
        Forged.lose_folder(self)  # type: ignore[arg-type]
        self.lander = self.start()
        self.gate.file, self.gate.landed = "0c000000-0000-4000-8000-000000000001", []
        self.change(103)
        with self.assertRaisesRegex(QueueStops, "the gate has another file: the first delivery of this one is 0c0.* and"
                                                f" the branches were landed by that of {FIRST}"):
            self.lander.carry_out(self.order(1, 103, is_tested=False))
        self.assertEqual(self.notes(), self.right())

    def test_a_new_file_begins_where_the_branches_are(self) -> None:
        """By the steps of docs/OPERATING.md: the notes are renamed, and the lander's folder is gone."""
        self.land_two()
        for name, place in (("lib", 0), ("lib", 1), ("app", 0), ("app", 2)):
            self.git(name, "update-ref", NOTE.format(place).replace("landings", "landings-before"), NOTE.format(place))
            self.git(name, "update-ref", "-d", NOTE.format(place))
        Forged.lose_folder(self)  # type: ignore[arg-type]
        self.gate.file, self.gate.landed = "0c000000-0000-4000-8000-000000000001", []
        heads = self.head("lib"), self.head("app")
        self.lander = self.start()
        self.trees.notes.drop("past core")
        self.change(103)
        self.gate.shown = []
        self.assertEqual((self.lander.branches.noted, self.notes()["lib core/000000"],
                          self.notes()["app core/000000"]), (0, *heads))
        self.order(1, 103, is_tested=False)
        self.be_tested(1, 103, after=0)
        self.lander.carry_out(self.gate.shown[0])
        self.assertEqual(self.notes()["lib core/000001"], self.head())
        self.assertIn("\nGate-Place: 1\n", self.git("lib", "log", "-1", "--format=%B", "main"))


class Upgrade(NotesCase):
    """Landings in the form of an earlier version, with notes that are no tags, in one queue with new ones."""

    def earlier(self, order: int, change: int, name: str, place: int) -> None:
        own = self.change(change, name)
        tree = self.git(name, "merge-tree", "--write-tree", "main", own)
        landed = self.git(name, "commit-tree", tree, "-p", "main", "-p", own, "-F", "-",
                          given=earlier_message(FIRST, "core", order, change))
        self.git(name, "update-ref", "refs/heads/main", landed)
        self.git(name, "update-ref", note_name("core", place), landed)
        self.gate.landed.append(self.order(order, change, name, is_tested=False))

    def setUp(self) -> None:
        super().setUp()
        for name in ("lib", "app"):
            self.git(name, "update-ref", FIRST_NOTE, self.root(name))
        Forged.lose_folder(self)  # type: ignore[arg-type]
        self.earlier(1, 101, "lib", 1)
        self.earlier(2, 102, "app", 2)
        self.earlier(3, 103, "app", 3)

    def test_both_forms_stand_in_one_queue(self) -> None:
        notes = self.notes()
        self.lander = self.start()
        self.assertEqual(self.notes(), notes)
        self.land(4, 104)
        self.land(5, 105, "app")
        self.assertEqual([it.change for it in self.gate.landed], [101, 102, 103, 104, 105])
        self.assertIn(f"\nGate-Place: 4\nGate-Change: 104\nGate-Revision: 1\nGate-With: app {notes['app core/000003']}",
                      self.git("lib", "log", "-1", "--format=%B", "main"))
        self.lander = self.start()
        self.assertEqual((self.lander.branches.noted, self.lander.branches.file()), (5, FIRST))
        self.assertEqual(self.git("lib", "cat-file", "-t", NOTE.format(1)), "commit")
        self.assertEqual(self.git("lib", "cat-file", "-t", NOTE.format(4)), "tag")

    def test_a_restored_gate_is_told_landings_of_both_forms(self) -> None:
        self.lander = self.start()
        self.land(4, 104)
        del self.gate.landed[2:]
        self.gate.taken = {}
        self.lander.carry_out(self.order(7, 103, "app", is_tested=False))
        self.lander.carry_out(self.order(8, 104, is_tested=False))
        self.assertEqual([it.change for it in self.gate.landed], [101, 102, 103, 104])

    def test_what_was_queued_at_the_upgrade_is_refused_and_lands_when_it_is_approved_again(self) -> None:
        """Its builds were those of workers whose successes are of no commit."""
        self.lander = self.start()
        self.change(104)
        self.lander.carry_out(self.order(4, 104, is_tested=False))
        self.assertEqual(self.gate.told[-1]["kind"], "refused")
        self.lander.carry_out(self.order(5, 104))
        self.assertEqual([it.change for it in self.gate.landed], [101, 102, 103, 104])

    def test_a_landing_whose_note_is_gone_is_named(self) -> None:
        self.git("app", "update-ref", "-d", NOTE.format(2))
        with self.assertRaisesRegex(GitFault, "no note of core is at [0-9a-f]{40}, a landing in app in the form of an"
                                              " earlier version: set the note of its place to it"):
            self.start()

    def test_another_file_is_known_by_a_commit_of_an_earlier_version(self) -> None:
        self.gate.file, self.gate.landed = "0c000000-0000-4000-8000-000000000001", []
        self.lander = self.start()
        self.change(104)
        with self.assertRaisesRegex(QueueStops, "the gate has another file"):
            self.lander.carry_out(self.order(1, 104, is_tested=False))


if __name__ == "__main__":
    unittest.main()
