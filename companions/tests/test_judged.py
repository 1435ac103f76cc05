from __future__ import annotations

import unittest

from companions.judged import LEFT_OUT, NOTHING_YET, WORDS, Kind, Report, Verdict, Wanted, judge

NAME, BEGINS, LIMIT = "ci/unit", 900.0, 60.0
# The states that the documentation of each form has, of statuses, checks, jobs and runs.
GITHUB = ("error failure pending success neutral cancelled skipped timed_out action_required stale startup_failure"
          " queued in_progress waiting requested").split()
GITEA = "pending success error failure warning skipped cancelled waiting running blocked".split()
GITLAB = ("created waiting_for_resource preparing pending running success failed canceled canceling skipped manual"
          " scheduled").split()


def said(word: str, number: int = 1, name: str | None = NAME, bare: bool = True) -> Report:
    return Report(name, number, word, f"https://ci.example/{number}", bare)


def judged(*reports: Report, age: float = 10.0, came: float | None = 5.0, known: bool = True,
           uncounted: tuple[str, ...] = (), goes_on: bool = False) -> Verdict:
    return judge(Wanted(NAME, LIMIT, BEGINS, known), reports, uncounted, age, came, goes_on)


class Words(unittest.TestCase):
    def test_each_word_of_each_form_has_a_meaning(self) -> None:
        self.assertEqual({it for it in (*GITHUB, *GITEA, *GITLAB) if it not in WORDS}, set())

    def test_only_success_is_a_success(self) -> None:
        self.assertEqual([word for word, (kind, _) in WORDS.items() if kind is Kind.SUCCESS], ["success"])
        for bare in (True, False):
            for word, (kind, _) in WORDS.items():
                outcome = judged(said(word, bare=bare)).outcome
                self.assertEqual(outcome, None if kind in (Kind.RUNS, Kind.WAITS) else kind.value, word)

    def test_each_end_says_why(self) -> None:
        for word, outcome, why in (
                ("success", "success", "success"), ("failed", "failure", "failed"), ("error", "failure", "error"),
                ("cancelled", "failure", "cancelled"), ("timed_out", "failure", "timed out"),
                ("skipped", "failure", f"skipped, {LEFT_OUT}"), ("neutral", "failure", "neutral, which is no success"),
                ("action_required", "failure", "action required, which is no success: somebody has to let it run"),
                ("manual", "failure", "manual, which is no success: somebody has to let it run"),
                ("stale", "lost", "stale, the forge has given it up"),
                ("startup_failure", "lost", "startup failure, it didn't start"),
                ("runner_system_failure", "lost", "runner system failure, its runner has failed")):
            with self.subTest(word):
                self.assertEqual(judged(said(word, 7)),
                                 Verdict(outcome, f"the CI says of {NAME}: {why}", "https://ci.example/7"))

    def test_a_word_that_is_not_known_ends_nothing(self) -> None:
        self.assertEqual(judged(said("succeeded")), NOTHING_YET)
        self.assertEqual(judged(said("SUCCESS")), NOTHING_YET)


class Several(unittest.TestCase):
    def test_the_last_status_that_says_an_end_counts(self) -> None:
        """Statuses come late, twice and out of order: their numbers say which is the last."""
        for words, outcome in ((["pending", "success"], "success"), (["success", "success"], "success"),
                               (["success", "pending"], "success"), (["failure", "success"], "success"),
                               (["success", "failure"], "failure"), (["success", "failure", "pending"], "failure"),
                               (["pending", "pending"], None)):
            reports = [said(word, number) for number, word in enumerate(words)]
            self.assertEqual(judged(*reports).outcome, outcome, words)
            self.assertEqual(judged(*reversed(reports)).outcome, outcome, words)

    def test_each_job_of_the_name_has_to_succeed(self) -> None:
        """Two workflows may have a job of one name, and a status may have it besides."""
        for words, outcome in ((["success", "success"], "success"), (["success", "failure"], "failure"),
                               (["success", "running"], None), (["failure", "running"], "failure"),
                               (["stale", "running"], None), (["stale", "success"], "lost"),
                               (["stale", "failure"], "failure"), (["success", "skipped"], "failure")):
            jobs = [said(word, number, bare=False) for number, word in enumerate(words)]
            self.assertEqual(judged(*jobs).outcome, outcome, words)
            self.assertEqual(judged(jobs[0], said(words[1], 9)).outcome, outcome, words)

    def test_statuses_and_check_runs_of_each_app_are_judged_each_by_itself(self) -> None:
        """Their numbers have nothing to do with each other."""
        def of_apps(*words: tuple[int, str]) -> str | None:
            reports = [Report(NAME, number, word, "", True, app) for number, (app, word) in enumerate(words, 1)]
            outcomes = {judged(*them).outcome for them in (reports, reversed(reports))}
            self.assertEqual(len(outcomes), 1)
            return outcomes.pop()

        for words, outcome in (
                (((7, "queued"), (7, "success")), "success"), (((7, "success"), (7, "queued")), "success"),
                (((7, "failure"), (7, "success")), "success"), (((7, "success"), (7, "stale")), "lost"),
                (((7, "failure"), (8, "success")), "failure"), (((0, "failure"), (7, "success")), "failure"),
                (((7, "success"), (0, "success"), (8, "in_progress")), None),
                (((7, "success"), (0, "success"), (8, "success")), "success")):
            self.assertEqual(of_apps(*words), outcome, words)

    def test_other_names_say_nothing(self) -> None:
        self.assertEqual(judged(said("success", name="ci/unit2"), said("failure", name="CI/unit")), NOTHING_YET)

    def test_ten_thousand_statuses(self) -> None:
        many = [said("pending", number) for number in range(10000)]
        self.assertEqual(judged(*many), NOTHING_YET)
        self.assertEqual(judged(*many, said("success", 10000)).outcome, "success")


class Times(unittest.TestCase):
    def test_a_job_over_its_limit_is_a_failure(self) -> None:
        self.assertEqual(judged(said("pending"), age=500.0, came=59.9), NOTHING_YET)
        self.assertEqual(judged(said("pending"), age=500.0, came=60.0), Verdict(
            "failure", "the CI says of ci/unit: pending, 60 s after it came: over its limit", "https://ci.example/1",
            is_over_limit=True))
        self.assertEqual(judged(said("in_progress", bare=False), came=60.0).outcome, "failure")
        self.assertEqual(judged(said("success"), came=1000.0).outcome, "success")

    def test_one_that_no_runner_takes_is_lost(self) -> None:
        self.assertEqual(judged(said("queued", bare=False), age=500.0, came=60.0), Verdict(
            "lost", "the CI says of ci/unit: queued, 60 s after it came: no runner has taken it",
            "https://ci.example/1", is_over_limit=True))

    def test_a_name_that_does_not_come_is_a_loss_that_says_what_came(self) -> None:
        self.assertEqual(judged(age=899.9), NOTHING_YET)
        self.assertEqual(judged(age=900.0), Verdict(
            "lost", "no status ci/unit came within 900 s; what came: nothing"))
        reports = [said("success", number, f"job {number}") for number in range(7)]
        self.assertEqual(judged(*reports, age=900.0, uncounted=("ci/unit by mallory",)).why,
                         "no status ci/unit came within 900 s; what came: job 0, job 1, job 2, job 3, job 4 and 2 more;"
                         " not counted: ci/unit by mallory")

    def test_a_name_that_never_came_is_held(self) -> None:
        self.assertEqual(judged(age=899.9, known=False), NOTHING_YET)
        self.assertEqual(judged(said("success", name="units"), age=900.0, known=False), Verdict(
            None, "no status ci/unit came within 900 s; what came: units. None of this name ever came for the project:"
                  " correct project.job.status, or let the CI test the branches gate/**", is_held=True))
        self.assertEqual(judged(said("success"), age=5000.0, known=False).outcome, "success")

    def test_a_run_without_jobs_stands_for_all_names(self) -> None:
        """Its workflow can't be read, or has to be let run by a person."""
        for word, known, outcome in (("startup_failure", True, "lost"), ("startup_failure", False, None),
                                     ("action_required", False, "failure"), ("failed", False, "failure")):
            whole = said(word, name=None, bare=False)
            self.assertEqual(judged(whole, age=60.0, known=known).outcome, outcome, word)
            self.assertEqual(judged(whole, age=59.9, known=known), NOTHING_YET)
            self.assertEqual(judge(Wanted(NAME, LIMIT, 5.0, known), [whole], (), 5.0, None).outcome, outcome, word)
        self.assertEqual(judged(said("startup_failure", name=None), said("success")).outcome, "success")

    def test_a_run_without_jobs_says_nothing_while_another_one_goes_on(self) -> None:
        """A second workflow that can't be read is the fault of no change: the name is the first one's."""
        for word in ("startup_failure", "failed", "action_required"):
            for known in (True, False):
                self.assertEqual(judged(said(word, name=None, bare=False), age=899.9, known=known, goes_on=True),
                                 NOTHING_YET)
        self.assertEqual(judged(said("failed", name=None, bare=False), age=900.0, goes_on=True).outcome, "lost")
        self.assertTrue(judged(said("failed", name=None), age=900.0, known=False, goes_on=True).is_held)
        self.assertEqual(judged(said("failed", name=None), said("success"), goes_on=True).outcome, "success")

    def test_a_run_without_jobs_is_no_success(self) -> None:
        """Its job may have been skipped, or its jobs couldn't be had just then."""
        for known in (True, False):
            self.assertEqual(judged(said("success", name=None, bare=False), age=899.9, known=known), NOTHING_YET)
        self.assertEqual(judged(said("success", name=None, bare=False), age=900.0).outcome, "lost")
        self.assertTrue(judged(said("success", name=None, bare=False), age=900.0, known=False).is_held)
        self.assertEqual(judged(said("success", name=None), said("startup_failure", name=None), age=60.0).outcome,
                         "lost")

    def test_long_and_strange_names_are_shown_short(self) -> None:
        self.assertEqual(judged(said("success", name="x" * 10000), said("failure", name="a\x1b[31m\nb"), age=900.0).why,
                         f"no status ci/unit came within 900 s; what came: a [31m b, {'x' * 57}...")


if __name__ == "__main__":
    unittest.main()
