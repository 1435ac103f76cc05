"""What it costs a forge that texts name others as needed, and that nobody's texts use up what it answers."""
from __future__ import annotations

import re
import unittest
from dataclasses import replace
from unittest import mock

from companions.forges import Place
from companions.looks import Looks
from companions.named import AGAIN, HOUR, KEPT, MOST, NamedRequests, Seen, TooMany
from companions.needs import Known
from companions.requests import Request, State
from companions.tests.adapter_case import Case as AdapterCase
from companions.tests.forges import StandInForge

LIB = "acme/lib"
SO = Request(LIB, 1, State.OPEN, "a" * 40, "main", "Add one", "")
OPEN, CLOSED, MERGED = (Known("main", it) for it in (State.OPEN, State.CLOSED, State.MERGED))


class NamedTest(unittest.TestCase):
    """Requests by their numbers, at a clock that a test sets."""

    def setUp(self) -> None:
        self.now, self.asked = 0.0, list[int]()
        self.requests = {1: SO, 2: replace(SO, state=State.CLOSED), 3: replace(SO, state=State.MERGED)}
        self.landed = dict[int, str]()
        self.named = NamedRequests(self.outline, lambda it: self.landed.get(it.number), 600.0, lambda: self.now)

    def outline(self, place: Place) -> Request | None:
        self.asked.append(place.number)
        return self.requests.get(place.number)

    def ask(self, *numbers: int) -> list[Known | None]:
        return [self.named.ask(Place(LIB, it)) for it in numbers]

    def test_each_is_asked_for_once_while_that_holds(self) -> None:
        for now, asked in ((0.0, [1, 2, 3, 4]), (599.0, []), (600.0, [1]), (1199.0, []), (1200.0, [1]),
                           (HOUR - 1, [1]), (HOUR, [2, 4]), (9 * HOUR, [1, 2, 4])):
            self.now = now
            self.asked.clear()
            self.assertEqual(self.ask(1, 2, 3, 4, 4, 3, 2, 1), [OPEN, CLOSED, MERGED, None, None, MERGED, CLOSED, OPEN])
            self.assertEqual(self.asked, asked, now)

    def test_what_a_list_or_a_look_shows_is_not_asked_for(self) -> None:
        self.named.listed(LIB, {1: "main", 5: "old"})
        self.named.note(Place(LIB, 6), CLOSED)
        self.assertEqual(self.ask(1, 5, 6), [OPEN, Known("old", State.OPEN), CLOSED])
        self.assertEqual(self.asked, [])
        # It is open no more, and another repository's list says nothing of it.
        self.named.listed("acme/app", {})
        self.assertEqual((self.ask(5), self.asked), ([Known("old", State.OPEN)], []))
        self.named.listed(LIB, {1: "old", 6: "main"})
        self.assertEqual((self.ask(1, 5, 6), self.asked), ([Known("old", State.OPEN), None, OPEN], [5]))

    def test_what_has_landed_is_merged_unless_it_is_shown_otherwise(self) -> None:
        self.landed = {7: "main", 1: "main"}
        self.assertEqual((self.ask(7), self.asked), ([MERGED], []))
        self.named.listed(LIB, {1: "old"})
        self.assertEqual((self.ask(1), self.asked), ([Known("old", State.OPEN)], []))

    def test_no_more_are_asked_for_in_an_hour_and_what_was_known_holds(self) -> None:
        self.ask(1, 2)
        self.now = HOUR - 1
        self.ask(*range(10, 8 + MOST))
        self.assertEqual(len(self.asked), MOST)
        self.assertEqual(self.ask(1, 2, 10), [OPEN, CLOSED, None])
        with self.assertRaisesRegex(TooMany, "^its text names acme/lib 9, and 300 requests that texts name were asked"
                                             " for within an hour: it is looked at again later$"):
            self.ask(9)
        self.assertEqual((len(self.asked), self.named.peek(Place(LIB, 9))), (MOST, None))
        self.now = HOUR
        self.assertEqual((self.ask(9, 8), self.asked[MOST:]), ([None, None], [9, 8]))
        with self.assertRaises(TooMany):
            self.ask(7)

    def test_those_of_which_nothing_is_known_have_room(self) -> None:
        numbers = range(10, 10 + MOST)
        self.ask(*numbers)
        self.now = HOUR
        self.asked.clear()
        self.assertEqual((self.ask(*numbers), self.asked), ([None] * MOST, [*numbers[:AGAIN]]))
        self.assertEqual(self.named.peek(Place(LIB, 309)), Seen(None, 0.0))
        self.ask(*range(1000, 1000 + MOST - AGAIN))
        self.assertEqual(len(self.asked), MOST)

    def test_those_that_were_seen_the_longest_ago_are_forgotten(self) -> None:
        self.ask(2)
        self.named.listed(LIB, {it: "main" for it in range(10, 9 + KEPT)})
        self.assertEqual((self.ask(2), self.asked), ([CLOSED], [2]))
        self.named.listed(LIB, {it: "main" for it in range(10, 10 + KEPT)})
        self.assertEqual((len(self.named.seen), self.ask(2), self.asked), (KEPT, [CLOSED], [2, 2]))


class EachForm(AdapterCase):
    """By a forge of each form. What is asked of git doesn't matter here."""
    kind = ""

    def setUp(self) -> None:
        self.stand_in = self.enterContext(StandInForge(self.kind))
        self.uptime = 1000.0
        super().setUp()
        self.model = self.stand_in.model
        self.model.add(LIB, "ada", "bob")
        self.enterContext(mock.patch.object(Looks, "head_of", return_value=b""))
        self.enterContext(mock.patch.object(Looks, "name"))

    def start(self) -> None:
        self.forge = self.stand_in.client()  # type: ignore[assignment]
        super().start()
        for it in (self.adapter.looks.looked, self.adapter.looks.named):
            it.clock = lambda: self.uptime

    def open(self, *needs: int) -> Place:
        text = "\n".join(f"Depends-On: #{it}" for it in needs)
        return self.model.open(LIB, self.commits[0], "main", "Title", text)

    def round(self, *hooks: Place) -> list[str]:
        """The calls of a comparison, or of a look at what hooks name: the number of a request that is asked for, with
        `of` where it is more than the request itself, or `list`."""
        before = len(self.stand_in.server.asked)
        self.look(*hooks)
        asked = [target.partition("?")[0] for _, target in self.stand_in.server.asked[before:]]
        found = [re.search(r"(?:pulls|issues|merge_requests)/(\d+)(/?)", it) for it in asked]
        return [f"of {it[1]}" if it and it[2] else it[1] if it else "list" for it in found]

    def later(self, seconds: float) -> None:
        self.uptime += seconds
        self.model.wait(seconds)

    def told(self, place: Place) -> list[int] | None:
        """The needs that the gate was told of a request, as the numbers of their requests."""
        change = self.adapter.changes.of_request(place).get("main")
        if change not in self.gate.changes:
            return None
        needs = [self.adapter.changes.place(it["change"]) for it in self.gate.changes[change]["needs"]]
        return [it.number for it in needs if it is not None]

    def test_many_that_name_the_same_have_each_asked_for_once(self) -> None:
        closed = [self.open() for _ in range(12)]
        for it in closed:
            self.model.close(it)
        others = [self.open() for _ in range(20)]
        numbers = [it.number for it in (*closed, *others)]
        naming = [self.open(*numbers) for _ in range(20)]
        self.later(600)
        calls = self.round()
        for it in closed:
            self.assertEqual((calls.count(str(it.number)), calls.count(f"of {it.number}")), (1, 0))
        for it in others:
            self.assertEqual(calls.count(str(it.number)), 1)
        self.assertEqual([self.told(it) for it in naming], [numbers] * 20)
        # Behind what was told, each is looked at once more.
        self.round()
        self.later(300)
        self.assertEqual({*self.round()}, {"list"})

    def test_one_is_looked_at_where_what_it_names_has_changed(self) -> None:
        needed, naming, other = self.open(), self.open(1), self.open(1)
        self.later(600)
        for _ in range(2):
            self.round()
        self.assertEqual({*self.round()}, {"list"})
        self.assertEqual(self.told(naming), [needed.number])
        self.model.retarget(needed, "topic")
        self.assertLessEqual({str(naming.number), str(other.number)}, {*self.round()})
        self.assertEqual(self.told(naming), [])
        self.later(600)
        for _ in range(2):
            self.round()
        self.assertEqual({*self.round()}, {"list"})
        self.model.retarget(needed, "main")
        self.later(600)
        self.round()
        self.assertEqual((self.told(naming), self.told(other)), ([needed.number], [needed.number]))

    def test_outsiders_that_name_many_starve_nobody(self) -> None:
        """Twenty requests that name 33 others each, of which there is none, for two hours."""
        self.open()
        hostile = [self.open(*range(1000 + 33 * it, 1033 + 33 * it)) for it in range(20)]
        self.later(600)
        calls, named = 0, list[int]()
        for at in range(24):
            if at == 6:
                behind = self.open(1)
                self.round(behind)
                self.assertEqual(self.told(behind), [1])
            calls_now = self.round()
            calls += len(calls_now)
            named += [int(it) for it in calls_now if it.isdigit() and int(it) >= 1000]
            self.assertLessEqual(len(named), MOST * (1 + at // 12))
            self.later(300)
        # An hour of GitHub has 5,000.
        self.assertLess(calls, 2 * 2000)
        self.assertGreaterEqual(len({*named}), MOST + AGAIN)
        self.assertGreater(sum(self.told(it) is not None for it in hostile), MOST // 33)


class GitHubTest(EachForm):
    kind = "github"


class GiteaTest(EachForm):
    kind = "gitea"


class GitLabTest(EachForm):
    kind = "gitlab"


del AdapterCase, EachForm

if __name__ == "__main__":
    unittest.main()
