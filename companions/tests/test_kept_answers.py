"""Answers of a forge that are kept: nothing is sent again that hasn't changed."""
from __future__ import annotations

import unittest

from companions.api import PAGE
from companions.kept_answers import Content, KeptAnswers
from companions.tests.forges.case import LIB, TWO, Case


class UnchangedTest(Case):
    """GitHub sends nothing again that hasn't changed."""

    def test_what_has_not_changed_is_not_sent_again(self) -> None:
        self.model.approve(self.place, "ann")
        first, server = self.asked(), self.forge.server
        self.assertEqual((self.asked(), server.unchanged, len(server.asked)), (first, 4, 8))
        self.model.approve(self.place, "ben")
        # The request itself has another `updated_at` then.
        self.assertEqual(([it.person for it in self.asked().votes], server.unchanged), (["ann", "ben"], 6))

    def test_a_list_that_grows_by_a_page(self) -> None:
        for number in range(PAGE + 5):
            self.assertEqual(len(list(self.client.open_requests(LIB))), number + 1)
            self.model.open(LIB, TWO, "main", "One more")

    def test_a_full_page_is_not_kept(self) -> None:
        """Its tag may stay the same when the next page comes to be."""
        for _ in range(PAGE - 1):
            self.model.comment(self.place, "ann", "Well")
        self.asked()
        self.model.comment(self.place, "ann", "/gate approve")
        where = f"/repos/{LIB}/issues/1/comments?per_page={PAGE}&page=1"
        self.assertIn(where, self.client.api.kept.of_path)
        self.asked()
        self.assertEqual([it for it in self.client.api.kept.of_path if "comments" in it], [])

    def test_the_oldest_are_dropped(self) -> None:
        kept = KeptAnswers(most=10)
        for path, size, tag in (("a", 4, "x"), ("b", 4, "x"), ("c", 9, ""), ("a", 5, "y"), ("d", 4, "x")):
            kept.keep(path, Content(b"." * size, "", tag))
        self.assertEqual((list(kept.of_path), kept.size), (["a", "d"], 9))
        kept.keep("a", Content(b"", "", ""))
        self.assertEqual((list(kept.of_path), kept.size), (["d"], 4))


del Case

if __name__ == "__main__":
    unittest.main()
