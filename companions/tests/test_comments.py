"""Comments that approve: each is of the commit that its person has read, or names it, whatever was shown between."""
from __future__ import annotations

import unittest
import unittest.mock
from dataclasses import replace

from companions.forges import Forge
from companions.requests import Vote
from companions.tests.adapter_case import NEVER
from companions.tests.adapter_case import Case as AdapterCase
from companions.tests.forges import StandInForge


class Comments(AdapterCase):
    """By requests in memory."""

    def setUp(self) -> None:
        super().setUp()
        self.place = self.be(12, 0)

    def test_one_that_is_made_a_while_behind_the_status_approves(self) -> None:
        self.tell(self.place)
        self.be(12, 0, self.comment(1))
        self.assertEqual(self.look(self.place), ["approved 1 1"])

    def test_one_that_was_made_before_and_comes_late_does_not(self) -> None:
        self.tell(self.place)
        self.be(12, 1)
        self.tell(self.place)
        self.be(12, 1, self.comment(1, 59))
        self.assertEqual(self.look(self.place), [])
        self.tell()
        self.assertIn("    ada approved within 60 seconds of the gate's word of this commit, and named none: comment 1"
                      f" doesn't count\n\n{self.copied(1)}", self.forge.comments[1][1])

    def copied(self, head: int) -> str:
        return ("To approve this commit by a comment, write one that is this line alone:\n\n"
                f"    /gate approve {self.commits[head]}")

    def test_how_long_people_read_is_a_setting(self) -> None:
        assert self.settings.adapter is not None
        self.settings = replace(self.settings, adapter=replace(self.settings.adapter, reading=300.0))
        self.start()
        self.tell(self.place)
        early, late = self.comment(1, 299), self.comment(2, 1)
        self.be(12, 0, early)
        self.assertEqual(self.look(self.place), [])
        self.be(12, 0, early, late)
        self.assertEqual(self.look(self.place), ["approved 1 1"])

    def test_where_nobody_was_told_only_one_that_names_the_commit_does(self) -> None:
        """As of a request from a fork at GitLab, whose commit has no status."""
        self.forge.takes_statuses = False
        self.tell(self.place)
        said = self.comment(1, 600)
        self.be(12, 0, said)
        self.assertEqual(self.look(self.place), [])
        # The comment about that vote is the gate's word of the commit.
        self.tell(self.place)
        self.assertIn("ada approved before the gate has told of this commit", self.forge.comments[1][1])
        self.assertEqual(self.look(self.place), [])
        self.be(12, 0, said, self.comment(2))
        self.assertEqual(self.look(self.place), ["approved 1 1"])
        self.be(12, 1, said, Vote("comment 3", "ada", True, self.commits[1]))
        self.assertEqual(self.look(self.place), ["revision 1 2", "approved 1 2"])

    def test_the_forge_s_time_counts_and_it_is_kept(self) -> None:
        self.tell(self.place)
        told = self.forge.now
        self.start()
        self.assertEqual(self.adapter.changes.told(1).shown, told)
        self.tell(self.place)
        self.assertEqual(self.adapter.changes.told(1).shown, told)

    def test_a_comment_first_seen_behind_a_start_is_none_and_one_from_before_stays(self) -> None:
        self.tell(self.place)
        objection = Vote("review 9", "bob", False, self.commits[0])
        before = self.comment(1, 100)
        self.be(12, 0, before, objection)
        self.look(self.place)
        self.start()
        between, hasty, later = (self.comment(it, seconds) for it, seconds in ((2, 10), (3, 10), (4, 60)))
        self.be(12, 0, before, between, objection)
        self.forge.now = between.said
        self.assertEqual(self.look(self.place), [])
        self.be(12, 0, before, between, hasty, later, objection)
        self.look(self.place)
        self.assertEqual([self.adapter.changes.told(1).seen[it.object] for it in (before, between, hasty, later)],
                         [1, -1, -1, 1])
        self.be(12, 0, between)
        self.look(self.place)
        self.assertEqual(self.adapter.changes.remarks(1, "vote"), [
            "ada approved while the gate couldn't look at this request, or soon behind that, and named no commit:"
            " comment 2 doesn't count"])
        self.be(12, 0, between, before)
        self.assertEqual(self.look(self.place), ["approved 1 1"])

    def test_a_gap_is_a_look_that_failed_and_one_that_comes_late(self) -> None:
        clock = [0.0]
        self.adapter.looks.looked.clock = lambda: clock[0]
        self.tell(self.place)
        longest = self.adapter.looks.looked.longest
        self.assertEqual(longest, 600.0)
        for number, (seconds, is_broken, counts) in enumerate((
                (600.0, False, True), (601.0, False, False), (1.0, True, False), (1.0, False, True)), 1):
            with self.subTest(number=number):
                if is_broken:
                    self.forge.broken = {self.place}
                    self.look(self.place)
                    self.forge.broken = set()
                clock[0] += seconds
                self.be(12, 0, self.comment(number))
                self.assertEqual(self.look(self.place), ["approved 1 1"] if counts else ["withdrawn 1 1"][:number == 2])

    def test_a_gate_that_goes_away_in_a_look_makes_a_gap(self) -> None:
        self.tell(self.place)
        self.be(12, 0, self.comment(1))
        self.forge.when_asked = lambda _: setattr(self.gate, "is_away", True)
        self.assertEqual(self.look(self.place), [])
        self.forge.when_asked, self.gate.is_away = (lambda _: None), False
        self.assertEqual(self.look(self.place), [])


class EachForm(AdapterCase):
    """By a forge of each form, of which hooks are lost."""
    kind = ""
    is_listed = True

    def setUp(self) -> None:
        self.stand_in = self.enterContext(StandInForge(self.kind))
        super().setUp()
        self.model = self.stand_in.model
        self.model.add("acme/lib", "ada", "bob")
        self.place = self.model.open("acme/lib", self.push(0), "main", "Title", author="mallory")
        self.model.wait(600)
        self.say()
        self.assertEqual(self.state(), "pending")
        self.model.wait(600)

    def start(self) -> None:
        self.forge = self.client = self.stand_in.client()  # type: ignore[assignment]
        super().start()

    def push(self, head: int) -> str:
        """The head of the request, which the forge knows once its model is told."""
        client: Forge = self.stand_in.client()
        self.origin.name(client.head_ref(1), self.commits[head])
        return self.commits[head]

    def move(self, head: int) -> None:
        self.model.push(self.place, self.push(head))
        self.model.wait(300)

    def state(self) -> str | None:
        status = self.model.status("acme/lib", self.model.pulls[self.place].head)
        return status.state if status is not None else None

    def say(self) -> None:
        """People are told."""
        self.look(self.place)
        self.adapter.look_at = 0.0
        self.look(self.place)
        self.adapter.look_at = NEVER

    def show_another(self) -> None:
        """An outsider shows another commit, has it approved by a comment, and puts the first one back."""
        self.move(1)
        self.model.comment(self.place, "ada", "/gate approve")
        self.model.wait(300)
        self.move(0)

    def check_that_nothing_is_approved(self) -> None:
        for _ in range(2):
            self.say()
            self.look()
        self.assertNotIn("approved", [it["kind"] for it in self.standin.deliveries()])
        self.assertIn("doesn't count", self.model.comments(self.place, "gate-bot")[-1].text)
        self.model.wait(600)
        self.model.comment(self.place, "ada", f"/gate approve {self.commits[0]}")
        self.look(self.place)
        last = self.standin.deliveries()[-1]
        self.assertEqual((last["kind"], self.adapter.changes.revision(1, last["revision"])),
                         ("approved", self.commits[0]))

    def test_what_was_shown_while_all_hooks_are_lost_is_not_approved(self) -> None:
        self.show_another()
        self.check_that_nothing_is_approved()
        self.assertGreater(self.standin.deliveries()[-1]["revision"], 1)

    def test_what_was_shown_while_the_adapter_was_away_is_not_approved(self) -> None:
        self.show_another()
        self.start()
        self.check_that_nothing_is_approved()

    def test_what_was_shown_while_looks_failed_is_not_approved(self) -> None:
        self.move(1)
        self.stand_in.server.plan = ["fail"]
        self.look(self.place)
        self.model.comment(self.place, "ada", "/gate approve")
        self.stand_in.server.plan = ["", "fail"]
        self.look(self.place)
        self.model.wait(300)
        self.move(0)
        self.check_that_nothing_is_approved()

    def test_who_goes_on_reading_behind_a_gap_approves_nothing_by_that(self) -> None:
        """The page of the other commit is still open where the first one is back and was looked at."""
        self.start()
        self.move(1)
        self.model.push(self.place, self.push(0))
        self.look(self.place)
        self.model.wait(30)
        self.model.comment(self.place, "ada", "/gate approve")
        self.check_that_nothing_is_approved()

    def test_a_comment_that_was_made_before_a_push_and_comes_behind_it(self) -> None:
        said = self.model.comment(self.place, "ada", "/gate approve")
        self.model.pulls[self.place].entries.remove(said)
        self.move(1)
        self.say()
        # As where the copy of the forge's data that answers gets it late.
        self.model.pulls[self.place].entries.append(said)
        self.look(self.place)
        self.assertNotIn("approved", [it["kind"] for it in self.standin.deliveries()])

    def test_comments_approve_that_were_made_while_all_went_well(self) -> None:
        self.model.comment(self.place, "ada", "/gate approve")
        self.look(self.place)
        self.assertEqual(self.standin.deliveries()[-1]["kind"], "approved")


class GitHubTest(EachForm):
    kind = "github"


class GiteaTest(EachForm):
    kind = "gitea"


class GitLabTest(EachForm):
    kind = "gitlab"


class UnlistedTest(EachForm):
    """A forge that lists no pushes: only the gap before a look tells."""
    kind = "github"

    def setUp(self) -> None:
        self.enterContext(unittest.mock.patch("companions.github.GitHub.push_events", ()))
        super().setUp()

    def test_what_was_shown_while_all_hooks_are_lost_is_not_approved(self) -> None:
        """For so long that no comparison came between."""
        self.show_another()
        clock = self.adapter.looks.looked.clock
        self.adapter.looks.looked.clock = lambda: clock() + 601.0
        self.check_that_nothing_is_approved()


del AdapterCase, EachForm

if __name__ == "__main__":
    unittest.main()
