"""A change that can't be merged: what its request says, by a merge of the adapter's own."""
from __future__ import annotations

import unittest
from unittest import mock

from companions.failures import MOST, Failures
from companions.repository import GitFault
from companions.tests.adapter_case import Case
from companions.trees import Trees


class Told(Case):
    """Two changes of one file. The second is built behind the first, and fails."""

    def setUp(self) -> None:
        super().setUp()
        self.origin.first("core", self.base)
        for number, head in ((12, 0), (13, 1)):
            self.be(number, head, self.approve(number, head))
        self.look()
        self.gate.reports = ["2 2 1 failed -"]
        self.gate.changes[2]["order"] = None
        self.build(5, [[1, 1]])

    def build(self, number: int, ahead: list[list[int]], change: int = 2, after: int = 0) -> None:
        """The build by which the item failed."""
        self.gate.built = [{"build": number, "job": "unit", "live": True, "outcome": "failure"}]
        self.gate.builds[number] = {"build": number, "queue": "core", "change": change, "revision": 1, "job": "unit",
                                    "after": after, "ahead": ahead, "live": True, "outcome": "failure"}

    def told(self) -> str:
        """The status of the second one."""
        self.tell()
        return self.forge.statuses[self.commits[1]][1]

    def test_the_files_and_the_other_request_are_named(self) -> None:
        self.assertEqual(self.told(), "Can't be merged: conflicts with #12 in a. Mend it and push")
        comment = next(text for place, text in self.forge.comments.values() if place.number == 13)
        self.assertEqual(comment, "**Left `core`: it can't be merged.**\n\nIt conflicts with #12 in:\n\n    a\n\n"
                                  "Mend that: rebase it, or merge its branch into it once the other one has landed."
                                  " Then push, and have the new commit approved.\n\n"
                                  "To approve this commit by a comment, write one that is this line alone:\n\n"
                                  f"    /gate approve {self.commits[1]}")

    def test_one_that_has_landed_is_named_too(self) -> None:
        self.origin.land("core", 1, {"a": "landed"})
        self.build(6, [], after=1)
        self.assertEqual(self.told(), "Can't be merged: conflicts with change 901 in a. Mend it and push")

    def test_where_it_can_be_merged_its_tests_have_failed(self) -> None:
        self.build(6, [])
        self.assertEqual(self.told(), "unit failed (build 6). Mend it and push, or have it approved again")

    def test_a_conflict_of_two_ahead_is_not_its_own(self) -> None:
        self.be(14, 2, self.approve(14, 2))
        self.look()
        self.build(6, [[1, 1], [3, 1]])
        self.assertEqual(self.told(), "unit failed (build 6). Mend it and push, or have it approved again")

    def test_it_is_merged_once(self) -> None:
        with mock.patch.object(Trees, "merge", autospec=True, side_effect=Trees.merge) as merged:
            for _ in range(3):
                self.told()
            self.start()
            self.assertEqual(self.told(), "Can't be merged: conflicts with #12 in a. Mend it and push")
        self.assertEqual(merged.call_count, 1)

    def test_a_repository_that_is_away_is_asked_later(self) -> None:
        with mock.patch.object(Trees, "look", side_effect=GitFault("away")) as looked:
            for _ in range(3):
                self.assertEqual(self.told(), "unit failed (build 5). Mend it and push, or have it approved again")
        self.assertEqual(looked.call_count, 1)
        self.start()
        self.adapter.people.manner = self.adapter.people.manner.__class__(quiet=0.0)
        self.assertEqual(self.told(), "Can't be merged: conflicts with #12 in a. Mend it and push")

    def test_a_look_makes_so_many_merges(self) -> None:
        failures = Failures(self.settings, self.adapter.gate, self.adapter.people.notes)
        failures.look()
        with mock.patch.object(Failures, "merge", return_value=None) as merged:
            for change in range(10, 20):
                failures.cause(change, change, self.gate.built)
        self.assertEqual(merged.call_count, MOST)


if __name__ == "__main__":
    unittest.main()
