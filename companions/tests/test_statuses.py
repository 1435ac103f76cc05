"""What is read of a run at each form of a stand-in forge, and what isn't believed there."""
from __future__ import annotations

import contextlib
import io
import tempfile
import unittest
import unittest.mock
from pathlib import Path

from companions import statuses
from companions.api import ForgeFault
from companions.ci_settings import Ci
from companions.judged import Report
from companions.outbox import Notes
from companions.statuses import Mark, Seen, Statuses, link_of
from companions.tests.forges import StandInForge
from companions.tests.forges.case import LIB, ONE, TWO
from companions.tests.forges.model import GATE, Status
from companions.tests.forges.ran import CiRun

BRANCH = f"gate/core/{ONE}-7"
NONE = Mark(0, 0)
# Whose statuses the settings trust, in letters of another case.
TRUSTED = frozenset({"BuildBot"})


class OfAForm(unittest.TestCase):
    """The same for each form; subclasses name one."""
    kind = ""

    def setUp(self) -> None:
        temporary = tempfile.TemporaryDirectory()
        self.addCleanup(temporary.cleanup)
        self.folder = Path(temporary.name)
        self.forge = self.enterContext(StandInForge(self.kind))
        self.errors = self.enterContext(contextlib.redirect_stderr(io.StringIO()))
        self.model = self.forge.model
        self.model.add(LIB, "ann", "mallory", "buildbot")
        self.model.pushed.add((LIB, ONE))
        self.bot = self.model.account("buildbot")
        self.statuses = self.start()

    def start(self, trusted: frozenset[str] = TRUSTED) -> Statuses:
        return statuses.statuses_of(Ci(form=self.kind, url=self.forge.url, token=self.forge.token, trusted=trusted),
                                    Notes(self.folder / "notes.db"))

    def look(self, mark: Mark = NONE) -> Seen:
        return self.statuses.look(LIB, BRANCH, ONE, mark)

    def ran(self, number: int = 50, branch: str = BRANCH, commit: str = ONE, event: str = "push") -> CiRun:
        run = CiRun(number, LIB, branch, commit, event)
        self.model.ran.append(run)
        return run

    def status(self, state: str, by: str = "buildbot", context: str = "unit", commit: str = ONE,
               link: str | None = None) -> int:
        self.model.set_status(Status(LIB, commit, state, "", by, context=context, link=link))
        return self.model.statuses[-1].number

    def words(self, mark: Mark = NONE) -> list[tuple[str | None, str]]:
        return sorted((it.name or "", it.word) for it in self.look(mark).reports)

    def failed(self) -> str:
        return "failed" if self.kind == "gitlab" else "failure"


class Common(OfAForm):
    """What is so at each form."""

    def test_nothing_is_there_of_a_commit_that_the_forge_does_not_know(self) -> None:
        self.assertEqual(self.statuses.look(LIB, f"gate/core/{TWO}-1", TWO, NONE), Seen())
        self.assertEqual(self.statuses.mark(LIB, f"gate/core/{TWO}-1", TWO), NONE)

    def test_the_jobs_of_the_run_of_the_branch_and_the_commit_count(self) -> None:
        run = self.ran()
        run.set("unit", "success")
        run.set("docs", "failure")
        run.set("lint", "in_progress")
        running = "running" if self.kind == "gitlab" else "in_progress"
        self.assertEqual(self.words(), [("docs", self.failed()), ("lint", running), ("unit", "success")])
        self.assertEqual(self.look().running, (50,))
        link = [it.link for it in self.look().reports if it.name == "unit"]
        self.assertTrue(link[0].startswith("https://forge.example/acme/lib/"), link)

    def test_a_run_of_another_branch_commit_or_event_says_nothing(self) -> None:
        """A writer's own branch has a workflow with a job of the same name, which says success for any commit."""
        for number, (branch, commit, event) in enumerate((
                ("mallory", ONE, "push"), (f"gate/core/{ONE}-70", ONE, "push"), (f"x/{BRANCH}", ONE, "push"),
                (BRANCH, TWO, "push"), (BRANCH, ONE, "pull_request"), (BRANCH, ONE, "workflow_dispatch"),
                (BRANCH, ONE, "web"), (BRANCH, ONE, "external"))):
            self.ran(60 + number, branch, commit, event).set("unit", "success")
        self.assertEqual(self.look(), Seen())

    def test_what_a_forge_gives_beside_what_was_asked_for_says_nothing(self) -> None:
        """Its filters are known from its documentation alone."""
        self.ran(60, "mallory").set("unit", "success")
        with unittest.mock.patch.object(type(self.statuses), "listed", lambda *_: iter([
                {"id": 60, "head_branch": "mallory", "head_sha": ONE, "event": "push", "status": "completed"}])), \
                unittest.mock.patch.object(self.statuses.forge, "rows", lambda path, *_: iter(
                    [{"id": 60, "ref": "mallory", "sha": ONE, "source": "push"}] if "pipelines?" in path else [])):
            self.assertEqual(self.look().reports, ())

    def test_what_ran_before_the_push_says_nothing(self) -> None:
        """A branch of the same name and commit was there before, as after the gate was restored."""
        self.ran(50).set("unit", "success")
        mark = self.statuses.mark(LIB, BRANCH, ONE)
        self.assertEqual((mark.run, self.words(mark)), (50, []))
        self.ran(51).set("unit", "failure")
        self.assertEqual(self.words(mark), [("unit", self.failed())])

    def test_a_status_counts_from_a_trusted_account_alone(self) -> None:
        self.status("success", "mallory")
        self.status("success", GATE)
        self.assertEqual(self.words(), [])
        mallory = self.model.account("mallory")
        self.assertIn(f"unit (of account {mallory}, which isn't in ci.trusted)", self.look().uncounted)
        number = self.status("failure", link="https://bot.example/builds/7")
        self.assertEqual(self.look().reports, (Report("unit", number, self.failed(), "https://bot.example/builds/7",
                                                      True),))

    def test_without_trusted_accounts_no_status_counts(self) -> None:
        self.status("success")
        self.statuses = self.start(frozenset())
        self.assertEqual(self.look().reports, ())
        self.assertEqual(self.look().uncounted, (f"unit (of account {self.bot}, which isn't in ci.trusted)",))

    def test_a_trusted_login_that_somebody_else_takes_counts_no_more(self) -> None:
        self.status("pending")
        self.assertEqual(self.words(), [("unit", "pending")])
        self.model.give_up("buildbot")
        self.model.statuses.clear()
        self.status("success")
        self.assertEqual(self.words(), [])
        self.statuses = self.start()
        self.assertEqual(self.words(), [])

    def test_a_trusted_login_that_is_not_there_is_said_once(self) -> None:
        self.statuses = self.start(frozenset({"nobody"}))
        self.look()
        self.look()
        self.assertEqual(self.errors.getvalue(),
                         "ci: ci.trusted: the forge has no account nobody: no status counts by this name\n")

    def test_a_status_from_before_the_push_says_nothing(self) -> None:
        """By its number: the forge's clock doesn't matter."""
        self.status("success")
        mark = self.statuses.mark(LIB, BRANCH, ONE)
        self.assertEqual(self.words(mark), [])
        self.status("success", commit=TWO)
        self.assertEqual(self.words(mark), [])
        self.model.now = self.model.now.replace(year=2020)
        self.status("failure")
        self.assertEqual(self.words(mark), [("unit", self.failed())])

    def test_many_statuses_cost_a_bounded_number_of_calls(self) -> None:
        """A writer sets ten thousand of them."""
        for _ in range(10000):
            self.model.statuses.append(Status(LIB, ONE, "success", "", "mallory", context="unit",
                                              number=len(self.model.statuses) + 1))
        asked = len(self.forge.server.asked)
        seen = self.look()
        self.assertEqual((seen.reports, seen.is_cut), ((), True))
        self.assertLess(len(self.forge.server.asked) - asked, 50)
        asked = len(self.forge.server.asked)
        self.assertEqual(self.statuses.mark(LIB, BRANCH, ONE).status, 10000)
        self.assertLess(len(self.forge.server.asked) - asked, 5)
        self.model.statuses.append(Status(LIB, ONE, "success", "", "buildbot", context="unit", number=10001))
        asked = len(self.forge.server.asked)
        self.assertEqual(self.words(Mark(10000, 0)), [("unit", "success")])
        self.assertLess(len(self.forge.server.asked) - asked, 6)

    def test_long_texts_hide_nothing(self) -> None:
        """Each page of fifty of them is larger than any answer that is read."""
        number = self.status("success")
        for _ in range(50):
            self.model.set_status(Status(LIB, ONE, "pending", "x" * 400000, "mallory", context="y" * 255))
        seen = self.look()
        self.assertEqual([(it.name, it.number) for it in seen.reports], [("unit", number)])
        self.assertTrue(all(len(it) < 150 for it in seen.uncounted))

    def test_a_forge_in_trouble_is_a_fault(self) -> None:
        self.ran().set("unit", "success")
        for plan in (["fail"], ["", "fail"], ["cut"], ["limit"]):
            self.forge.server.plan = list(plan)
            with self.assertRaises(ForgeFault):
                self.look()
        self.forge.server.plan = []

    def test_a_run_is_cancelled(self) -> None:
        run = self.ran()
        run.set("unit", "in_progress")
        self.statuses.cancel(LIB, 50)
        self.assertEqual((run.is_cancelled, self.look().running), (True, ()))
        cancelled = "canceled" if self.kind == "gitlab" else "cancelled"
        self.assertEqual(self.words(), [("unit", cancelled)])
        self.statuses.cancel(LIB, 50)
        self.statuses.cancel(LIB, 51)

    def test_a_run_that_ended_without_jobs_stands_for_all(self) -> None:
        run = self.ran()
        self.assertEqual(self.look().reports, ())
        run.word = "failure"
        self.assertEqual([(it.name, it.word) for it in self.look().reports], [(None, self.failed())])

    def test_many_jobs_come_by_pages(self) -> None:
        run = self.ran()
        for number in range(120):
            run.set(f"job {number}", "success")
        self.assertEqual(len(self.look().reports), 120)

    def test_pages_that_are_smaller_than_asked_for_hide_nothing(self) -> None:
        """As a Gitea's MAX_RESPONSE_ITEMS has them."""
        self.forge.form.cap = 3
        for number in range(50, 55):
            run = self.ran(number)
            for job in range(7):
                run.set(f"job {number} {job}", "success")
        self.assertEqual(len(self.look().reports), 35)
        self.status("pending")
        for number in range(7):
            self.status("success", "mallory")
        self.assertEqual([it.word for it in self.look().reports if it.is_bare], ["pending"])


class GitHub(Common):
    kind = "github"

    def test_each_conclusion_is_read(self) -> None:
        run = self.ran()
        words = ("success", "failure", "neutral", "cancelled", "skipped", "timed_out", "action_required", "stale",
                 "startup_failure", "queued", "waiting")
        for word in words:
            run.set(word, word)
        self.assertEqual(self.words(), sorted((it, it) for it in words))


class Gitea(Common):
    kind = "gitea"

    def test_one_that_has_no_api_of_runs_has_statuses(self) -> None:
        self.status("success")
        with unittest.mock.patch.object(self.forge.form, "routes", lambda: [
                it for it in type(self.forge.form).routes(self.forge.form) if "actions" not in it[1]]):
            self.assertEqual(self.words(), [("unit", "success")])
            self.statuses.cancel(LIB, 50)


class GitLab(Common):
    kind = "gitlab"

    def test_a_failure_that_is_no_jobs_is_told_by_its_cause(self) -> None:
        run = self.ran()
        for cause in ("script_failure", "runner_system_failure", "stuck_or_timeout_failure", "job_execution_timeout"):
            run.set(cause, "failure", cause)
        self.assertEqual(self.words(), [("job_execution_timeout", "failed"),
                                        ("runner_system_failure", "runner_system_failure"),
                                        ("script_failure", "failed"),
                                        ("stuck_or_timeout_failure", "stuck_or_timeout_failure")])


class Links(unittest.TestCase):
    def test_only_addresses_over_http_are_kept(self) -> None:
        for said, kept in (("https://ci.example/a?b=c#d", "https://ci.example/a?b=c#d"),
                           ("http://ci.example:8010/#/builders/1", "http://ci.example:8010/#/builders/1"),
                           ("https://ci.example/a)[x](y \n<b>`", "https://ci.example/a%29%5Bx%5D%28y%20%0A%3Cb%3E%60"),
                           ("javascript:alert(1)", ""), ("data:text/html,x", ""), ("", ""), (None, ""), (7, ""),
                           ("https://ci.example/" + "x" * 2000, "")):
            self.assertEqual(link_of(said), kept)


del Common, OfAForm


if __name__ == "__main__":
    unittest.main()
