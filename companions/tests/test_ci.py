from __future__ import annotations

import unittest
from unittest import mock

from companions import ci, links
from companions.ids import id_of, success_id
from companions.repository import GitFault, Repository
from companions.tests.ci_case import LIB, CiCase
from companions.tests.forge import message_of
from companions.tests.worker_case import Said

# Two jobs of the first project.
BOTH = CiCase.jobs + '[[project.job]]\nname = "docs"\nstatus = "ci/docs"\nlimit = 60\n'


class Builds(CiCase):
    def test_a_build_is_pushed_judged_and_told(self) -> None:
        self.give(self.reply(7, 103))
        run = self.run_of(7)
        self.assertEqual(run.branch, f"gate/core/{run.commit}-7")
        self.assertEqual(self.branches(), {f"refs/heads/{run.branch}": run.commit})
        run.set("ci/unit", "in_progress")
        self.turn(3)
        self.assertEqual(self.outcomes(), [])
        run.set("ci/unit", "success")
        self.assertEqual(self.ended(7), "success")
        identity = success_id(7, "core", 103, 1, "unit", run.commit)
        self.assertEqual(self.gate.results, [{"id": identity, "kind": "result", "build": 7, "outcome": "success"}])
        self.until(lambda: not self.branches())
        self.assertFalse(run.is_cancelled)
        [record] = self.records()
        [take] = self.gate.taken
        self.assertEqual(record, {
            "take": take, "build": 7, "queue": "core", "change": 103, "revision": 1, "job": "unit", "project": "lib",
            "outcome": "success", "why": "the CI says of ci/unit: success", "commit": run.commit, "run": run.branch,
            "link": "https://forge.example/acme/lib/actions/runs/500/job/500000"})

    def test_the_commit_is_the_one_that_a_worker_tests(self) -> None:
        self.give(self.reply(7, 103))
        _, commit = self.pushed(7)
        parents = self.lib.git("rev-parse", f"{commit}^1", f"{commit}^2").split()
        self.assertEqual(parents, [self.heads["lib"], self.lib.git("rev-parse", "refs/changes/103/1")])
        self.assertEqual(self.lib.git("log", "-1", "--format=%B", commit), message_of("core", 1, 103).rstrip())

    def test_all_words_but_success_are_none(self) -> None:
        for number, (word, outcome) in enumerate((("failure", "failure"), ("skipped", "failure"),
                                                  ("neutral", "failure"), ("cancelled", "failure"),
                                                  ("timed_out", "failure"), ("stale", "lost"),
                                                  ("action_required", "failure"), ("startup_failure", "lost")), 1):
            self.give(self.reply(number, 103))
            self.run_of(number).set("ci/unit", word)
            self.assertEqual(self.ended(number), outcome, word)
            take = list(self.gate.taken)[-1]
            self.assertEqual(self.gate.results[-1]["id"], id_of(take, "result", number, 103, 1, outcome))
            self.assertIn(word.replace("_", " "), self.why(number))

    def test_a_change_that_can_not_be_merged_is_a_failure(self) -> None:
        self.lib.revision(106, 1, self.lib.commit({"own-103": "other"}, self.heads["lib"]))
        self.give(self.reply(7, 106, ahead=[[103, 1]]))
        self.assertEqual(self.ended(7), "failure")
        self.assertRegex(self.errors.getvalue(), "build 7: failure, change 106, revision 1 .its own. can't be merged")
        self.assertEqual(self.branches(), {})

    def test_a_change_that_the_repository_does_not_have_is_lost(self) -> None:
        self.give(self.reply(7, 109))
        self.assertEqual(self.ended(7), "lost")
        self.assertIn("has no refs/changes/109/1", self.why(7))

    def test_a_landing_that_is_late_is_waited_for(self) -> None:
        self.give(self.reply(7, 103, after=1))
        self.until(lambda: "build 7: waits: no branch of the queue core has its landing 1" in self.errors.getvalue())
        self.turn(20)
        self.assertEqual(self.outcomes(), [])
        self.lib.land("core", 1, {"landed": "1"})
        self.run_of(7).set("ci/unit", "success")
        self.assertEqual(self.ended(7), "success")

    def test_many_builds_go_on_at_once(self) -> None:
        self.again(parallel=2)
        self.give(self.reply(1, 103), self.reply(2, 104), self.reply(3, 105))
        first, second = self.run_of(1), self.run_of(2)
        self.turn(5)
        self.assertEqual((len(self.branches()), len(self.gate.taken)), (2, 2))
        second.set("ci/unit", "success")
        self.ended(2)
        self.run_of(3).set("ci/unit", "failure")
        self.ended(3)
        first.set("ci/unit", "success")
        self.ended(1)
        self.assertEqual(self.outcomes(), [(2, "success"), (3, "failure"), (1, "success")])

    def test_a_build_that_is_not_wanted_is_dropped_and_its_run_cancelled(self) -> None:
        self.give(self.reply(7, 103))
        run = self.run_of(7)
        run.set("ci/unit", "in_progress")
        self.turn(2)
        self.unwanted(7)
        self.until(lambda: not self.branches())
        self.assertEqual((self.outcomes(), run.is_cancelled), ([], True))
        self.assertIn("build 7: not wanted any more", self.errors.getvalue())
        self.assertIn(f"cancelled run 500 of {run.branch}", self.errors.getvalue())

    def test_one_that_the_watch_has_reported_is_dropped(self) -> None:
        self.give(self.reply(7, 103))
        self.pushed(7)
        self.gate.shown[7]["outcome"] = "lost"
        self.until(lambda: not self.branches())
        self.assertEqual(self.outcomes(), [])

    def test_a_job_over_its_limit_is_a_failure_and_its_run_is_cancelled(self) -> None:
        self.again(jobs=self.jobs.replace("limit = 60", "limit = 0.3"))
        self.give(self.reply(7, 103))
        run = self.run_of(7)
        run.set("ci/unit", "in_progress")
        self.assertEqual(self.ended(7), "failure")
        self.assertEqual(self.why(7), "the CI says of ci/unit: in progress, 0.3 s after it came: over its limit")
        self.until(lambda: not self.branches())
        self.assertTrue(run.is_cancelled)


class Shared(CiCase):
    """The jobs of a commit share a run."""
    jobs = BOTH

    def test_two_jobs_of_a_commit_share_a_run(self) -> None:
        self.give(self.reply(7, 103), self.reply(8, 103, "docs"))
        run = self.run_of(7)
        self.turn(3)
        self.assertEqual(len(self.branches()), 1)
        run.set("ci/unit", "success")
        self.ended(7)
        self.turn(3)
        # The second job goes on there.
        self.assertEqual(self.branches(), {f"refs/heads/{run.branch}": run.commit})
        run.set("ci/docs", "failure")
        self.assertEqual(self.ended(8), "failure")
        self.until(lambda: not self.branches())

    def test_a_job_that_is_built_a_second_time_begins_a_run_of_its_own(self) -> None:
        """The builds that go on in the first run are judged there, and a second job doesn't end that run."""
        self.give(self.reply(7, 103), self.reply(8, 103, "docs"))
        first = self.run_of(7)
        first.set("ci/unit", "stale")
        self.assertEqual(self.ended(7), "lost")
        self.give(self.reply(9, 103))
        second = self.run_of(9)
        self.assertEqual((second.commit, second.branch == first.branch), (first.commit, False))
        first.set("ci/unit", "success")
        self.turn(5)
        self.assertEqual(self.outcomes(), [(7, "lost")])
        second.set("ci/docs", "failure")
        self.turn(5)
        self.assertEqual(self.outcomes(), [(7, "lost")])
        second.set("ci/unit", "failure")
        self.assertEqual(self.ended(9), "failure")
        self.until(lambda: list(self.branches()) == [f"refs/heads/{first.branch}"])
        first.set("ci/docs", "success")
        self.assertEqual(self.ended(8), "success")
        self.until(lambda: not self.branches())

    def test_a_failing_status_of_the_first_run_says_nothing_of_the_second(self) -> None:
        self.give(self.reply(7, 103))
        _, commit = self.pushed(7)
        self.status(commit, "failure")
        self.assertEqual(self.ended(7), "failure")
        self.give(self.reply(9, 103))
        self.pushed(9)
        self.turn(5)
        self.assertEqual(self.outcomes(), [(7, "failure")])
        self.status(commit, "success")
        self.assertEqual(self.ended(9), "success")

    def test_nothing_is_cancelled_that_another_build_goes_on_in(self) -> None:
        self.give(self.reply(7, 103), self.reply(8, 103, "docs"))
        run = self.run_of(7)
        run.set("ci/docs", "in_progress")
        self.turn(3)
        self.unwanted(7)
        self.until(lambda: "build 7: not wanted" in self.errors.getvalue())
        self.turn(3)
        self.assertFalse(run.is_cancelled)
        run.set("ci/docs", "success")
        self.assertEqual(self.ended(8), "success")

    def test_a_job_over_its_limit_ends_no_other_one(self) -> None:
        self.again(jobs=self.jobs.replace("limit = 60", "limit = 0.3", 1))
        self.give(self.reply(7, 103), self.reply(8, 103, "docs"))
        run = self.run_of(7)
        run.set("ci/unit", "in_progress")
        self.assertEqual(self.ended(7), "failure")
        self.turn(3)
        self.assertEqual((run.is_cancelled, len(self.branches())), (False, 1))
        run.set("ci/docs", "success")
        self.assertEqual(self.ended(8), "success")
        self.until(lambda: not self.branches())
        self.assertTrue(run.is_cancelled)

    def test_no_build_joins_a_run_that_is_being_taken_away(self) -> None:
        """What still ran of it was cancelled, and its branch can't be deleted just now."""
        self.give(self.reply(7, 103))
        first = self.run_of(7)
        for job in ("ci/unit", "ci/docs"):
            first.set(job, "in_progress")
        self.turn(2)
        with mock.patch.object(Repository, "remove", side_effect=GitFault("the repository is away")):
            self.unwanted(7)
            self.until(lambda: first.is_cancelled)
            self.give(self.reply(8, 103, "docs"))
            self.until(lambda: 8 in [it["build"] for it in self.gate.shown.values()])
            self.turn(5)
        self.assertEqual(self.outcomes(), [])
        second = self.run_of(8)
        self.assertEqual(second.commit, first.commit)
        second.set("ci/docs", "success")
        self.assertEqual(self.ended(8), "success")
        self.until(lambda: not self.branches())


class OtherProjects(CiCase):
    def test_what_is_on_no_branch_goes_to_the_other_repository(self) -> None:
        self.give(self.reply(7, 203, ahead=[[103, 1]]))
        run = self.run_of(7, "app")
        [(name, other)] = self.branches("lib").items()
        self.assertEqual(name, f"refs/gate/core/{run.commit}-7")
        message = self.app.git("log", "-1", "--format=%B", run.commit)
        self.assertIn(f"\nGate-With: lib {other}", message)
        self.assertEqual(self.lib.git("rev-parse", f"{other}^2"), self.lib.git("rev-parse", "refs/changes/103/1"))
        run.set("ci/unit", "success")
        self.ended(7)
        self.until(lambda: not self.branches("app") and not self.branches("lib"))

    def test_what_is_on_a_branch_stays_there(self) -> None:
        self.lib.land("core", 1, {"landed": "1"})
        self.give(self.reply(7, 203, after=1))
        run = self.run_of(7, "app")
        self.assertEqual(self.branches("lib"), {})
        self.assertIn(f"Gate-With: lib {self.lib.git('rev-parse', 'main')}",
                      self.app.git("log", "-1", "--format=%B", run.commit))


class Links(CiCase):
    def test_the_link_of_a_build_is_left_for_the_adapter(self) -> None:
        self.give(self.reply(7, 103), self.reply(8, 104))
        _, commit = self.pushed(7)
        self.status(commit, "pending", link="https://bot.example/#/builds/1")
        file = links.file_in(self.folder / "state")
        self.until(lambda: links.read(file) == [links.Link(7, 103, 1, "unit", "https://bot.example/#/builds/1")])
        self.status(commit, "success", link="javascript:alert(1)")
        self.ended(7)
        self.run_of(8).set("ci/unit", "failure")
        self.ended(8)
        self.assertEqual(links.read(file)[1:], [links.Link(
            8, 104, 1, "unit", "https://forge.example/acme/lib/actions/runs/500/job/500000")])

    def test_a_file_that_is_not_of_this_form_says_nothing(self) -> None:
        file = self.folder / "links.json"
        for text in ("", "[]", '{"builds": [{"build": 1}]}', '{"builds": 7}', "\0"):
            file.write_text(text)
            self.assertEqual(links.read(file), [])
        self.assertEqual(links.read(self.folder / "none"), [])


class Result(CiCase):
    def test_a_gate_with_another_file_gets_none(self) -> None:
        """It was restored while the CI was at work: the take means another build by now."""
        self.give(self.reply(7, 103))
        run = self.run_of(7)
        self.gate.taken.clear()
        self.give(self.reply(7, 104))
        # The number is that of the build that it has, as far as the gate's answer about it goes.
        run.set("ci/unit", "success")
        second = self.until(lambda: next((it for name, it in self.branches().items()
                                          if it != run.commit and name.endswith("-7")), None))
        self.assertEqual(self.outcomes(), [])
        self.model.pushed.add((LIB, second))
        self.status(second, "failure")
        self.assertEqual(self.ended(7), "failure")
        [take] = self.gate.taken
        self.assertEqual(self.gate.results[0]["id"], id_of(take, "result", 7, 104, 1, "failure"))

    def test_the_same_take_goes_right_before_it_and_again_without_an_answer(self) -> None:
        answers: list[Said] = [(502, "bad gateway"), (0, "")]
        self.gate.before = lambda kind, said: answers.pop(0) if kind == "result" and answers else None
        self.give(self.reply(7, 103))
        self.run_of(7).set("ci/unit", "success")
        self.ended(7)
        [take] = self.gate.taken
        own = [it for it in self.standin.deliveries() if it["id"] == take or it["kind"] == "result"]
        self.assertEqual([it["kind"] for it in own], ["take"] + 3 * ["take", "result"])


class Main(CiCase):
    def test_a_wrong_call_is_told(self) -> None:
        for argv in (list[str](), ["companions.toml"], ["companions.toml", "../w1"], ["companions.toml", ""]):
            self.assertEqual(ci.main(argv), 2)
        self.assertIn("usage: python3 -m companions.ci companions.toml NAME\n", self.errors.getvalue())

    def test_settings_without_a_forge_or_a_status_are_refused(self) -> None:
        file = self.write_settings()
        text = file.read_text()
        for old, new, why in ((f'token = "{self.forge.token}"\n', "", "the settings name no forge: give form, url and"
                               " token in [ci], or set up [adapter]"),
                              ('status = "ci/unit"', 'command = "true"', "no job of the settings has a status: run"
                               " workers")):
            file.write_text(text.replace(old, new))
            self.assertEqual(ci.main([str(file), "ci2"]), 1)
            self.assertTrue(self.errors.getvalue().endswith(f"ci ci2: stops: {why}\n"), self.errors.getvalue())

    def test_one_runs_for_a_gate(self) -> None:
        file = self.write_settings()
        with ci.alone(self.folder / "state" / "ci") or self.fail():
            self.assertEqual(ci.main([str(file), "ci2"]), 1)
        self.assertIn("ci ci2: stops: one runs already: there is one for a gate", self.errors.getvalue())


if __name__ == "__main__":
    unittest.main()
