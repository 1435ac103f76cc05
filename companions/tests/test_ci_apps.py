"""Check runs of GitHub's Apps: which count for a run, and which don't."""
from __future__ import annotations

import tempfile
import unittest
import unittest.mock
from pathlib import Path
from typing import Any

from companions import links, statuses
from companions.api import ForgeFault
from companions.ci_settings import ACTIONS, Ci
from companions.judged import Report
from companions.outbox import Notes
from companions.statuses import CHECKS, Mark, Seen, Statuses
from companions.tests.ci_case import LIB, CiCase
from companions.tests.forges import StandInForge
from companions.tests.forges.case import ONE, TWO
from companions.tests.forges.ran import COMPLETED, CheckRun

BRANCH = f"gate/core/{ONE}-7"
APP, OTHER, SECOND = 77, 78, 79
NONE = Mark(0, 0, {str(APP): 0})
LINK = "https://ci.example/builds/7"


class Checks(unittest.TestCase):
    """What is read of them at a stand-in of GitHub."""

    def setUp(self) -> None:
        temporary = tempfile.TemporaryDirectory()
        self.addCleanup(temporary.cleanup)
        self.folder = Path(temporary.name)
        self.forge = self.enterContext(StandInForge("github"))
        self.model = self.forge.model
        self.model.add(LIB, "ann", "mallory")
        self.model.pushed |= {(LIB, ONE), (LIB, TWO)}
        self.statuses = self.start(APP)

    def start(self, *apps: int, kind: str = "github") -> Statuses:
        return statuses.statuses_of(Ci(form=kind, url=self.forge.url, token=self.forge.token,
                                       trusted_apps=frozenset(apps)), Notes(self.folder / "notes.db"))

    def check(self, word: str, app: int = APP, commit: str = ONE, **other: Any) -> CheckRun:
        return self.model.check(LIB, commit, app, other.pop("name", "unit"), word, **other)

    def mark(self) -> Mark:
        return self.statuses.mark(LIB, BRANCH, ONE)

    def look(self, mark: Mark = NONE) -> Seen:
        return self.statuses.look(LIB, BRANCH, ONE, mark)

    def words(self, mark: Mark = NONE) -> list[tuple[str | None, str]]:
        return sorted((it.name or "", it.word) for it in self.look(mark).reports)

    def asked(self) -> list[str]:
        return [path for _, path in self.forge.server.asked if "check" in path]

    def test_one_of_a_trusted_app_counts(self) -> None:
        made = self.check("success", link=LINK)
        self.assertEqual(self.look(), Seen((Report("unit", made.number, "success", LINK, True, APP),)))
        self.assertEqual(self.asked(), [
            f"/repos/acme/lib/commits/{ONE}/check-runs?app_id={APP}&filter=all&per_page=10&page=1"])

    def test_without_a_trusted_app_none_is_asked_for(self) -> None:
        self.check("success")
        self.statuses = self.start()
        self.assertEqual((self.mark(), self.look(), self.asked()), (Mark(), Seen(), []))

    def test_one_of_another_app_says_nothing_and_is_named(self) -> None:
        self.check("success", OTHER)
        self.check("success", ACTIONS, slug="github-actions", name="docs")
        self.assertEqual(self.look(), Seen((), ("unit (of App 78, which isn't in ci.trusted_apps)",
                                                "docs (of Actions, whose jobs count by their runs)")))

    def test_those_of_actions_say_nothing_whichever_number_it_has(self) -> None:
        """A server of one's own gives that App another one, which the settings can't know."""
        self.check("success", slug="github-actions")
        self.assertEqual(self.look(), Seen((), ("unit (of Actions, whose jobs count by their runs)",)))

    def test_one_from_before_the_push_says_nothing(self) -> None:
        """By its number: it says nothing either if its App sets it to another word afterwards."""
        self.check("success", SECOND)
        before = self.check("in_progress")
        self.check("success", commit=TWO)
        mark = self.mark()
        self.assertEqual(mark, Mark(0, 0, {str(APP): before.number}))
        before.word = "success"
        self.assertEqual(self.words(mark), [])
        self.check("success", commit=TWO)
        self.assertEqual(self.words(mark), [])
        self.check("failure")
        self.assertEqual(self.words(mark), [("unit", "failure")])

    def test_one_of_now_counts_though_an_earlier_one_has_ended(self) -> None:
        """GitHub's `latest` would show the one that has ended."""
        self.check("failure")
        mark = self.mark()
        self.check("in_progress")
        self.assertEqual(self.words(mark), [("unit", "in_progress")])

    def test_an_app_that_is_trusted_since_the_push_counts_from_the_next_one_on(self) -> None:
        self.check("success", OTHER)
        mark = self.mark()
        self.statuses = self.start(APP, OTHER)
        self.assertEqual(self.look(mark), Seen((), ("unit (of App 78, not asked for before the push)",)))
        mark = self.mark()
        self.check("success", OTHER)
        self.assertEqual(self.words(mark), [("unit", "success")])

    def test_each_conclusion_and_state_is_read(self) -> None:
        words = (*COMPLETED, "queued", "in_progress", "waiting", "requested", "pending")
        for word in words:
            self.check(word, name=word)
        self.assertEqual(self.words(), sorted((it, it) for it in words))

    def test_what_a_forge_gives_beside_what_was_asked_for_says_nothing(self) -> None:
        """Its filters are known from its documentation alone."""
        row = {"id": 9, "name": "unit", "head_sha": ONE, "status": "completed", "conclusion": "success",
               "app": {"id": APP, "slug": "some-ci"}}
        others: list[dict[str, Any]] = [{}, {"app": {"id": OTHER, "slug": "x"}}, {"app": None}, {"app": {}},
                                        {"head_sha": TWO}]
        for count, other in zip((1, 0, 0, 0, 0), others, strict=True):
            with unittest.mock.patch.object(type(self.statuses), "listed", lambda it, path, member, *_: iter(
                    [{**row, **other}] if member == "check_runs" else [])):
                self.assertEqual(len(self.look().reports), count, other)
                # Asked for by two Apps, each is that of one of them.
                self.statuses = self.start(APP, SECOND)
                self.assertEqual(len(self.look(Mark(0, 0, {str(APP): 0, str(SECOND): 0})).reports), count, other)

    def test_what_is_not_documented_is_a_fault(self) -> None:
        with unittest.mock.patch.object(type(self.statuses), "listed", lambda it, path, member, *_: iter(
                [{"id": 9}] if member == "check_runs" else [])), self.assertRaises(ForgeFault):
            self.look()

    def test_very_many_of_another_app_hide_nothing(self) -> None:
        """With the token of a workflow whoever may push makes them in the name of Actions."""
        for _ in range(10000):
            self.check("failure", ACTIONS, slug="github-actions")
        asked = len(self.forge.server.asked)
        self.assertEqual(len(self.look().uncounted), 1)
        self.check("success")
        self.assertEqual(self.words(), [("unit", "success")])
        self.assertLess(len(self.forge.server.asked) - asked, 10)

    def test_more_of_a_trusted_app_than_are_read_count_for_nothing(self) -> None:
        """One that failed may be behind them, or one from before the push that has the highest number."""
        for _ in range(CHECKS):
            self.check("success")
        seen, mark = self.look(), self.mark()
        self.assertEqual((len(seen.reports), seen.is_cut), (CHECKS, False))
        self.check("failure")
        asked = len(self.forge.server.asked)
        seen = self.look(mark)
        self.assertEqual((seen.reports, seen.is_cut), ((), True))
        self.assertEqual(self.mark(), Mark())
        self.assertLess(len(self.forge.server.asked) - asked, 70)

    def test_long_texts_hide_nothing(self) -> None:
        """Those of an App are as long as GitHub lets them be; others' may be longer than any answer that is read."""
        for number in range(21):
            self.check("success", name=f"job {number}", text="\1" * 65535)
        self.assertEqual((len(self.look().reports), self.mark().checks), (21, {str(APP): 21}))
        self.model.checks.clear()
        for _ in range(10):
            self.check("success", OTHER, text="\1" * 10 ** 5)
        self.assertEqual(self.look(), Seen())

    def test_pages_that_are_smaller_than_asked_for_hide_nothing(self) -> None:
        self.forge.form.cap = 3
        for number in range(20):
            self.check("success", name=f"job {number}")
        self.assertEqual(len(self.look().reports), 20)

    def test_a_forge_in_trouble_is_a_fault(self) -> None:
        for plan in (["", "", "fail"], ["", "", "cut"], ["", "", "limit"]):
            self.statuses = self.start(APP)
            self.forge.server.plan = list(plan)
            with self.assertRaises(ForgeFault):
                self.look()
        self.forge.server.plan = []


class Builds(CiCase):
    """The whole of it, with an App that the settings trust."""
    more = f"trusted_apps = [{APP}]"

    def check(self, commit: str, word: str, app: int = APP, **other: Any) -> CheckRun:
        return self.model.check(LIB, commit, app, other.pop("name", "ci/unit"), word, **other)

    def test_a_check_run_decides(self) -> None:
        self.give(self.reply(7, 103))
        _, commit = self.pushed(7)
        made = self.check(commit, "in_progress", link=LINK)
        self.turn(5)
        self.assertEqual(self.outcomes(), [])
        made.word = "success"
        self.assertEqual(self.ended(7), "success")
        file = links.file_in(self.folder / "state")
        self.assertEqual(links.read(file), [links.Link(7, 103, 1, "unit", LINK)])

    def test_one_of_another_app_or_of_another_commit_says_nothing(self) -> None:
        self.give(self.reply(7, 103), self.reply(8, 104))
        commits = [self.pushed(number)[1] for number in (7, 8)]
        self.check(commits[0], "success", OTHER)
        self.check(commits[0], "success", ACTIONS, slug="github-actions")
        self.check(commits[1], "success")
        self.assertEqual(self.ended(8), "success")
        self.turn(5)
        self.assertEqual(self.outcomes(), [(8, "success")])
        self.check(commits[0], "failure")
        self.assertEqual(self.ended(7), "failure")

    def test_each_conclusion(self) -> None:
        for number, (word, outcome) in enumerate((
                ("success", "success"), ("failure", "failure"), ("skipped", "failure"), ("neutral", "failure"),
                ("action_required", "failure"), ("cancelled", "failure"), ("timed_out", "failure"), ("stale", "lost"),
                ("startup_failure", "lost")), 1):
            self.give(self.reply(number, 103))
            _, commit = self.pushed(number)
            self.check(commit, word)
            self.assertEqual(self.ended(number), outcome, word)
            self.assertIn(f"the CI says of ci/unit: {word.replace('_', ' ')}", self.why(number))

    def test_a_second_run_is_not_judged_by_the_first_one(self) -> None:
        """Also after a restart: what was there before the push is on disk."""
        self.give(self.reply(7, 103))
        _, commit = self.pushed(7)
        first = self.check(commit, "stale")
        self.assertEqual(self.ended(7), "lost")
        self.give(self.reply(9, 103))
        self.assertEqual(self.pushed(9)[1], commit)
        first.word = "success"
        self.turn(5)
        self.again()
        self.turn(5)
        self.assertEqual(self.outcomes(), [(7, "lost")])
        self.check(commit, "failure")
        self.assertEqual(self.ended(9), "failure")

    def test_a_build_whose_app_is_not_trusted_is_held_with_its_number(self) -> None:
        self.again(begins=0.2)
        self.give(self.reply(7, 103))
        _, commit = self.pushed(7)
        self.check(commit, "success", OTHER)
        self.until(lambda: "build 7: held: no status ci/unit came within 0.2 s; what came: nothing; not counted:"
                           " ci/unit (of App 78, which isn't in ci.trusted_apps)." in self.errors.getvalue())
        self.assertEqual(self.outcomes(), [])


if __name__ == "__main__":
    unittest.main()
