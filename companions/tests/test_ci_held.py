"""Names that don't come: a loss where they have come before, and else a wrong setting, which is no change's fault."""
from __future__ import annotations

import unittest

from companions.faults import OtherSettings
from companions.tests.ci_case import CiCase
from companions.tests.forges.model import Status

BOTH = CiCase.jobs + '[[project.job]]\nname = "docs"\nstatus = "ci/docs"\nlimit = 60\n'


class Held(CiCase):
    begins = 0.3
    jobs = BOTH

    def known(self) -> None:
        """A name has come for the project."""
        self.give(self.reply(1, 104))
        self.run_of(1).set("ci/unit", "failure")
        self.ended(1)

    def test_a_name_that_came_before_and_does_not_come_is_a_loss_that_says_what_came(self) -> None:
        self.again(begins=900)
        self.known()
        self.give(self.reply(7, 103))
        run = self.run_of(7)
        run.set("ci/lint", "success")
        self.status(run.commit, "success", "mallory")
        self.again()
        self.assertEqual(self.ended(7), "lost")
        mallory = self.model.account("mallory")
        self.assertEqual(self.why(7), "no status ci/unit came within 0.3 s; what came: ci/lint; not counted: ci/unit"
                                      f" (of account {mallory}, which isn't in ci.trusted)")

    def test_a_name_that_never_came_is_held(self) -> None:
        self.again(parallel=1)
        self.give(self.reply(7, 103), self.reply(8, 104))
        run = self.run_of(7)
        self.until(lambda: "build 7: held: no status ci/unit came within 0.3 s; what came: nothing. None of this name"
                           " ever came for the project" in self.errors.getvalue())
        # It isn't told, and isn't counted: others are taken.
        second = self.run_of(8)
        self.until(lambda: "build 8: held" in self.errors.getvalue())
        self.turn(10)
        self.assertEqual((self.outcomes(), self.errors.getvalue().count("build 7: held")), ([], 1))
        self.assertEqual(set(self.branches()), {f"refs/heads/{it.branch}" for it in (run, second)})
        # The name comes after all.
        run.set("ci/unit", "success")
        self.assertEqual(self.ended(7), "success")
        # Now it is known, and what was held for it is a loss.
        self.assertEqual(self.ended(8), "lost")

    def test_a_name_that_mallory_sends_is_not_known_by_that(self) -> None:
        """Else three losses would throw each change out."""
        self.give(self.reply(7, 103))
        _, commit = self.pushed(7)
        self.status(commit, "success", "mallory")
        self.until(lambda: "build 7: held: " in self.errors.getvalue())
        self.give(self.reply(8, 104))
        self.pushed(8)
        self.until(lambda: "build 8: held: " in self.errors.getvalue())
        self.assertEqual(self.outcomes(), [])

    def test_names_are_known_for_a_project(self) -> None:
        self.known()
        self.give(self.reply(7, 203))
        self.pushed(7, "app")
        self.until(lambda: "build 7: held: " in self.errors.getvalue())
        self.assertEqual(self.outcomes(), [(1, "failure")])

    def test_a_held_build_stays_so_when_it_is_started_again(self) -> None:
        self.give(self.reply(7, 103))
        run = self.run_of(7)
        self.until(lambda: "build 7: held: " in self.errors.getvalue())
        self.again(parallel=1)
        self.give(self.reply(8, 104))
        self.pushed(8)
        self.assertIn(f"refs/heads/{run.branch}", self.branches())
        run.set("ci/unit", "failure")
        self.assertEqual(self.ended(7), "failure")

    def beats(self) -> list[tuple[int | None, bool]]:
        """What the watch hears by now: builds, and whether each is held."""
        self.gate.beats.clear()
        # A beat waits no longer than the next one, which is soon here.
        self.ci.beating.gate.timeout = 30.0
        self.ci.beating.beat()
        return sorted((it.build or 0, it.held) for it in self.gate.beats)

    def test_its_beat_says_that_it_is_held(self) -> None:
        """So the watch doesn't time it."""
        self.again(begins=900)
        self.assertEqual(self.beats(), [(0, False)])
        self.give(self.reply(7, 103), self.reply(8, 104, "docs"))
        run, other = self.run_of(7), self.run_of(8)
        other.set("ci/docs", "in_progress")
        self.assertEqual(self.beats(), [(7, False), (8, False)])
        self.again()
        self.until(lambda: "build 7: held: " in self.errors.getvalue())
        self.assertEqual(self.beats(), [(7, True), (8, False)])
        self.again()
        self.assertEqual(self.beats(), [(7, True), (8, False)])
        run.set("ci/unit", "in_progress")
        self.until(lambda: "build 7: held no more" in self.errors.getvalue())
        self.assertEqual(self.beats(), [(7, False), (8, False)])
        run.set("ci/unit", "success")
        self.ended(7)
        self.assertEqual(self.beats(), [(8, False)])

    def test_a_held_build_is_judged_by_other_settings(self) -> None:
        """Somebody corrects the name: what came under it counts."""
        self.again(begins=900)
        self.give(self.reply(7, 103))
        self.run_of(7).set("unit", "success")
        self.again()
        self.until(lambda: "build 7: held: no status ci/unit came within 0.3 s; what came: unit." in
                           self.errors.getvalue())
        self.turn(3)
        self.write_settings(jobs=self.jobs.replace("ci/unit", "unit"))
        with self.assertRaises(OtherSettings):
            self.turn(3)
        self.again(jobs=self.jobs.replace("ci/unit", "unit"))
        self.assertEqual(self.ended(7), "success")

    def test_settings_that_can_not_be_read_change_nothing(self) -> None:
        self.give(self.reply(7, 103))
        run = self.run_of(7)
        self.until(lambda: "build 7: held: " in self.errors.getvalue())
        (self.folder / "companions.toml").write_text("no settings")
        self.turn(3)
        run.set("ci/unit", "success")
        self.assertEqual(self.ended(7), "success")

    def test_a_held_build_that_is_not_wanted_goes(self) -> None:
        self.give(self.reply(7, 103))
        self.pushed(7)
        self.until(lambda: "build 7: held: " in self.errors.getvalue())
        self.unwanted(7)
        self.until(lambda: not self.branches())

    def test_a_workflow_that_does_not_start_is_held_or_lost(self) -> None:
        self.give(self.reply(7, 103))
        run = self.run_of(7)
        run.word = "startup_failure"
        self.until(lambda: "build 7: held: " in self.errors.getvalue())
        self.known()
        self.assertEqual(self.ended(7), "lost")
        self.assertEqual(self.why(7), "the CI says of ci/unit: startup failure, it didn't start")

    def test_another_workflow_that_can_not_be_read_says_nothing(self) -> None:
        """It has ended, and the one that has the job goes on."""
        self.give(self.reply(7, 103))
        broken, run = self.run_of(7), self.run_of(7)
        broken.word = "failure"
        self.until(lambda: "build 7: held: no status ci/unit came within 0.3 s" in self.errors.getvalue())
        self.turn(3)
        self.assertEqual(self.outcomes(), [])
        run.set("ci/unit", "success")
        self.assertEqual(self.ended(7), "success")

    def test_a_run_that_went_well_without_jobs_is_no_success(self) -> None:
        """As where its jobs can't be had for a moment: the one that is waited for may have been skipped."""
        self.known()
        self.give(self.reply(7, 103))
        run = self.run_of(7)
        run.word = "success"
        self.assertEqual(self.ended(7), "lost")
        self.assertEqual(self.why(7), "no status ci/unit came within 0.3 s; what came: nothing")


class Uncounted(CiCase):
    def test_more_statuses_than_are_read_are_said(self) -> None:
        self.give(self.reply(7, 103))
        _, commit = self.pushed(7)
        self.model.statuses += [Status("acme/lib", commit, "success", "", "mallory", context="x", number=1000 + it)
                                for it in range(2100)]
        self.again(begins=0.1)
        self.until(lambda: "; not counted: more statuses or check runs than are read, x (of account" in
                   self.errors.getvalue())


if __name__ == "__main__":
    unittest.main()
