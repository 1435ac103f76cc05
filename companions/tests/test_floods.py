"""Outsiders who write so much that it can't all be read: nothing is approved by that, and all else is told."""
from __future__ import annotations

import unittest
from unittest import mock

from companions.tests.adapter_case import Case as AdapterCase
from companions.tests.forges import StandInForge

LIB = "acme/lib"


class EachForm(AdapterCase):
    """A request at a forge of each form, of whose answers few bytes are read."""
    kind = ""

    def setUp(self) -> None:
        self.stand_in = self.enterContext(StandInForge(self.kind))
        super().setUp()
        self.model = self.stand_in.model
        self.model.add(LIB, "ada", "bob")
        self.enterContext(mock.patch("companions.api.LARGEST", 20_000))
        self.origin.name(self.stand_in.client().head_ref(1), self.commits[0])

    def start(self) -> None:
        self.forge = self.stand_in.client()  # type: ignore[assignment]
        super().start()

    def open(self, target: str = "main") -> None:
        self.place = self.model.open(LIB, self.commits[0], target, "Title", author="mallory")

    def flood(self) -> None:
        """More than a hundred comments that are too long two at a time."""
        for _ in range(120):
            self.model.comment(self.place, "mallory", "x" * 12_000)

    def why(self) -> list[str]:
        return self.adapter.changes.remarks(1, "vote")

    def test_who_approved_it_at_another_branch_approves_nothing_behind_a_flood(self) -> None:
        self.open("topic")
        self.model.approve(self.place, "ada")
        self.flood()
        self.model.retarget(self.place, "main")
        self.assertEqual(self.look(self.place), ["revision 1 1"])
        self.assertEqual(self.look(self.place), [])
        self.assertIn("some of its comments are too long to be read: no approval by one of them counts", self.why())
        if self.kind != "github":
            # GitHub's list of what was done has no texts.
            self.assertRegex(self.why()[-1], "^ada approved, while not all that was done to this request could be read:"
                                             " (review|note) [0-9]+ doesn't count$")

    def test_an_approval_by_a_comment_that_may_be_hidden_or_revoked_is_withdrawn(self) -> None:
        self.open()
        self.model.comment(self.place, "ada", f"/gate approve {self.commits[0]}")
        self.assertEqual(self.look(self.place), ["revision 1 1", "approved 1 1"])
        self.flood()
        # At GitHub it stands before what can't be read.
        self.assertEqual(self.look(self.place), [] if self.kind == "github" else ["withdrawn 1 1"])
        self.assertIn("some of its comments are too long to be read: no approval by one of them counts", self.why())

    def test_an_approval_by_a_comment_that_can_not_be_read_any_more_is_withdrawn(self) -> None:
        """An outsider makes his comments before it so long that the forge's calls end before it."""
        self.open()
        # Gitea sends all comments in one answer, and it has to be read at first.
        before = [self.model.comment(self.place, "mallory", "Well") for _ in range(10 if self.kind == "gitea" else 120)]
        self.model.comment(self.place, "ada", f"/gate approve {self.commits[0]}")
        self.assertEqual(self.look(self.place), ["revision 1 1", "approved 1 1"])
        for it in before:
            self.model.edit_comment(self.place, it, "x" * 12_000)
        self.assertEqual((self.look(self.place), self.look(self.place)), (["withdrawn 1 1"], []))
        self.assertEqual(self.why(), ["some of its comments are too long to be read: no approval by one of them"
                                      " counts"])

    def test_a_flood_takes_back_no_review_that_was_seen_before(self) -> None:
        self.open()
        self.model.approve(self.place, "ada")
        self.assertEqual(self.look(self.place), ["revision 1 1", "approved 1 1"])
        self.flood()
        self.assertEqual((self.look(self.place), self.look(self.place)), ([], []))
        # What else is so is told.
        if self.kind != "gitlab":
            objection = self.model.reject(self.place, "bob")
            self.assertEqual(self.look(self.place), ["withdrawn 1 1"])
            self.model.pulls[self.place].entries.remove(objection)
        self.origin.name(self.stand_in.client().head_ref(1), self.commits[1])
        self.model.push(self.place, self.commits[1])
        self.assertEqual(self.look(self.place), ["revision 1 2"])
        self.model.close(self.place)
        self.assertEqual(self.look(self.place), ["closed 1 2"])


class WithReviews(EachForm):
    def test_a_review_that_can_not_be_read_may_be_against_it(self) -> None:
        self.open()
        self.model.approve(self.place, "ada")
        self.assertEqual(self.look(self.place), ["revision 1 1", "approved 1 1"])
        said = self.model.review(self.place, "mallory", "x" * 50_000)
        self.assertEqual((self.look(self.place), self.look(self.place)), (["withdrawn 1 1"], []))
        self.assertEqual(self.why(), ["ada approved, while reviews of it are too long to be read: review 1 doesn't"
                                      " count"])
        self.origin.name(self.stand_in.client().head_ref(1), self.commits[1])
        self.model.push(self.place, self.commits[1])
        self.assertEqual(self.look(self.place), ["revision 1 2"])
        self.model.pulls[self.place].entries.remove(said)
        self.model.approve(self.place, "bob")
        self.assertEqual(self.look(self.place), ["approved 1 2"])


class GitHubTest(WithReviews):
    kind = "github"


class GiteaTest(WithReviews):
    kind = "gitea"


class GitLabTest(EachForm):
    kind = "gitlab"


del AdapterCase, EachForm, WithReviews

if __name__ == "__main__":
    unittest.main()
