"""What a comparison costs: all that the list shows unchanged isn't asked for."""
from __future__ import annotations

import re
import unittest
from datetime import timedelta
from unittest import mock

from companions.forges import FRESH, Place, shown_in_list
from companions.looked import Looked
from companions.looks import Looks
from companions.tests.adapter_case import NEVER
from companions.tests.adapter_case import Case as AdapterCase
from companions.tests.forges import StandInForge
from companions.tests.forges.model import BEGIN

LIB = "acme/lib"
MANY, APPROVED = 200, 4


class EachForm(AdapterCase):
    """A forge of each form, with open requests of one commit."""
    kind = ""

    def setUp(self) -> None:
        self.stand_in = self.enterContext(StandInForge(self.kind))
        super().setUp()
        self.model = self.stand_in.model
        self.model.add(LIB, "ada", "bob")

    def start(self) -> None:
        self.forge = self.stand_in.client()  # type: ignore[assignment]
        super().start()

    def open(self, head: int = 0, text: str = "") -> Place:
        number = len(self.model.pulls) + 1
        # The test of many asks git nothing.
        if number <= 10:
            self.origin.name(self.stand_in.client().head_ref(number), self.commits[head])
        return self.model.open(LIB, self.commits[head], "main", "Title", text)

    def compare(self) -> list[str]:
        """The calls of one comparison: `list`, or the number of the request that is asked for."""
        before = len(self.stand_in.server.asked)
        self.adapter.rests.end_all()
        self.adapter.compare_at = 0.0
        self.adapter.once(1.0)
        asked = [target for _, target in self.stand_in.server.asked[before:]]
        numbers = [re.search(r"(?:pulls|issues|merge_requests)/(\d+)", it) for it in asked]
        return [it[1] if it else "list" for it in numbers]

    def settle(self) -> None:
        """All is looked at, and once more behind what was told, and nothing has changed for a while."""
        self.model.wait(600)
        self.compare()
        self.compare()

    @mock.patch.object(Looks, "head_of", return_value=b"")
    @mock.patch.object(Looks, "name")
    def test_what_two_hundred_cost_of_which_nothing_has_changed(self, *_: mock.Mock) -> None:
        """What is asked of git doesn't matter here."""
        places = [self.open() for _ in range(MANY)]
        for it in places[:APPROVED]:
            self.model.approve(it, "ada")
        self.settle()
        approved = [it["change"] for it in self.standin.deliveries() if it["kind"] == "approved"]
        self.assertEqual(len(approved), APPROVED)
        calls = self.compare()
        # Gitea's lists end with a page that brings nothing.
        self.assertEqual(calls.count("list"), 5 if self.kind == "gitea" else 4)
        self.assertEqual({*calls}, {"list", *(str(it.number) for it in places[:APPROVED])})
        self.assertLessEqual(len(calls), 5 + APPROVED * (7 if self.kind == "gitea" else 4))
        # Their comparison is whole nevertheless.
        self.assertEqual(self.adapter.comparisons.at_work, {})

    def test_what_has_changed_is_asked_for(self) -> None:
        places = [self.open() for _ in range(5)]
        self.settle()
        self.assertEqual(self.compare(), ["list"] * (2 if self.kind == "gitea" else 1))
        self.model.comment(places[1], "eve", "Nice.")
        self.model.push(places[2], self.commits[0])
        self.model.close(places[3])
        self.assertEqual({*self.compare()}, {"list", "2", "3", "4"})
        # What changed just now may change unseen, as times have whole seconds and copies lag.
        self.assertEqual({*self.compare()}, {"list", "2", "3"})
        self.model.wait(1 + FRESH.total_seconds())
        self.compare()
        self.assertEqual({*self.compare()}, {"list"})

    def test_what_may_change_by_others_is_asked_for(self) -> None:
        """A vote that doesn't count may, once its person may approve. Anybody may give such a vote, on many requests:
        they are asked for once an hour, and those of who may approve each time."""
        uptime = [1000.0]
        self.adapter.looks.looked.clock = lambda: uptime[0]
        self.open()
        outsider, unsure = self.open(), self.open()
        self.model.approve(outsider, "eve")
        for _ in range(3):
            self.model.comment(outsider, "mallory", "/gate approve me")
        self.model.comment(unsure, "ada", "/gate approve of course")
        self.settle()
        for seconds, numbers in ((0.0, {"3"}), (300.0, {"3"}), (3299.0, {"3"}), (1.0, {"2", "3"}), (1.0, {"3"})):
            uptime[0] += seconds
            self.assertEqual({*self.compare()}, {"list", *numbers}, seconds)

    def test_what_failed_and_what_a_gate_has_lost_are_asked_for(self) -> None:
        place = self.open()
        self.settle()
        self.adapter.hints.put(place)
        self.adapter.compare_at = NEVER
        self.stand_in.server.plan = ["fail"]
        self.adapter.once(1.0)
        self.assertEqual({*self.compare()}, {"list", "1"})
        self.assertEqual({*self.compare()}, {"list"})
        self.adapter.is_earlier()
        self.assertEqual({*self.compare()}, {"list", "1"})

    def test_one_whose_approval_was_taken_back_is_asked_for_while_that_shows(self) -> None:
        place = self.open()
        self.compare()
        self.model.comment(place, "ada", f"/gate approve {self.commits[0]}")
        self.settle()
        said = self.model.comments(place, "ada")[0]
        self.model.wait(600)
        # The list doesn't show that a comment was deleted.
        changed = self.model.pulls[place].changed
        self.model.delete_comment(place, said)
        self.model.pulls[place].changed = changed
        self.assertEqual({*self.compare()}, {"list", "1"})
        self.assertEqual(self.standin.deliveries()[-1]["kind"], "withdrawn")


class GitHubTest(EachForm):
    kind = "github"


class GiteaTest(EachForm):
    kind = "gitea"


class GitLabTest(EachForm):
    kind = "gitlab"


class Shown(unittest.TestCase):
    def test_a_list_that_lacks_something_shows_nothing(self) -> None:
        at, updated = BEGIN + timedelta(hours=1), BEGIN.isoformat()
        self.assertEqual(shown_in_list(updated, "a", at), f"{updated} a")
        self.assertEqual(shown_in_list(updated, None, at), f"{updated} None")
        for it in ((None, "a", at), ("", "a", at), (updated, "a", None), (updated, "a", BEGIN + FRESH / 2),
                   (updated, "a", BEGIN - FRESH)):
            self.assertIsNone(shown_in_list(*it))

    def test_what_is_open_no_more_is_forgotten(self) -> None:
        looked = Looked(600.0, lambda: 1.0)
        for number in (1, 2):
            looked.listed[Place(LIB, number)] = "a"
            looked.went_well(Place(LIB, number), 0.0, BEGIN, True)
        self.assertEqual(looked.unchanged(LIB, {2: "a"}, 1.0, BEGIN), {2})
        self.assertEqual([*looked.well, *looked.settled, *looked.listed], [Place(LIB, 2)] * 3)


del AdapterCase, EachForm

if __name__ == "__main__":
    unittest.main()
