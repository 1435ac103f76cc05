"""`companions.ci` runs what is a command as a worker does, since a take can't choose."""
from __future__ import annotations

import unittest

from companions.faults import OtherSettings
from companions.tests.ci_case import CiCase


class Commands(CiCase):
    more = "commands = 2"

    def docs(self, command: str) -> str:
        return f"{self.jobs}[[project.job]]\nname = \"docs\"\ncommand = '''{command}'''\nlimit = 60\n"

    def test_a_command_is_run_as_by_a_worker(self) -> None:
        self.again(jobs=self.docs("cat own-103; test $GATED_JOB = docs"))
        self.give(self.reply(7, 103, "docs"), self.reply(8, 103))
        self.assertEqual(self.ended(7), "success")
        run = self.run_of(8)
        [first] = self.gate.results
        self.assertEqual(first["outcome"], "success")
        run.set("ci/unit", "success")
        self.assertEqual(self.ended(8), "success")
        [log] = (self.folder / "state/ci/ci1").glob("lane-*/logs/*-7.log")
        self.assertIn("\n103ended: success, exit status 0", log.read_text())

    def test_a_command_that_runs_holds_up_no_run(self) -> None:
        self.again(jobs=self.docs("sleep 100"))
        self.give(self.reply(7, 103, "docs"), self.reply(8, 103))
        run = self.run_of(8)
        run.set("ci/unit", "failure")
        self.assertEqual(self.ended(8), "failure")
        self.assertEqual(self.outcomes(), [(8, "failure")])
        self.unwanted(7)
        self.until(lambda: "build 7: not wanted any more" in self.errors.getvalue())

    def test_the_watch_hears_of_a_command_that_runs(self) -> None:
        self.again(jobs=self.docs("sleep 100"))
        self.give(self.reply(7, 103, "docs"))
        self.until(lambda: self.beats() == [(7, False)])
        self.unwanted(7)
        self.until(lambda: self.beats() == [(None, False)])

    def beats(self) -> list[tuple[int | None, bool]]:
        """What the watch hears by now."""
        self.gate.beats.clear()
        self.ci.beating.gate.timeout = 30.0
        self.ci.beating.beat()
        return [(it.build, it.held) for it in self.gate.beats]

    def test_nothing_is_taken_while_no_command_could_be_run(self) -> None:
        self.again(jobs=self.docs("sleep 100"))
        self.give(*(self.reply(number, 103, "docs") for number in (1, 2, 3)))
        self.until(lambda: len(self.gate.taken) == 2)
        self.turn(5)
        self.assertEqual(len(self.gate.taken), 2)
        self.unwanted(1)
        self.until(lambda: len(self.gate.taken) == 3)
        self.unwanted(2)
        self.unwanted(3)
        self.until(lambda: self.errors.getvalue().count("not wanted any more") == 3)

    def test_a_job_that_the_settings_do_not_have_is_kept_until_they_do(self) -> None:
        self.give(self.reply(7, 103, "docs"))
        self.until(lambda: "ci ci1: build 7: kept, since it can't be run here: project lib has no job docs" in
                           self.errors.getvalue())
        self.write_settings(jobs=self.docs("true"))
        with self.assertRaises(OtherSettings):
            self.until(lambda: False)
        self.again(jobs=self.docs("true"))
        self.assertEqual(self.ended(7), "success")

    def test_a_build_whose_job_is_a_ci_s_by_now_goes_to_it(self) -> None:
        self.give(self.reply(7, 103, "docs"))
        self.until(lambda: "build 7: kept" in self.errors.getvalue())
        both = self.jobs + '[[project.job]]\nname = "docs"\nstatus = "ci/docs"\nlimit = 60\n'
        self.write_settings(jobs=both)
        with self.assertRaises(OtherSettings):
            self.until(lambda: False)
        self.again(jobs=both)
        self.run_of(7).set("ci/docs", "success")
        self.assertEqual(self.ended(7), "success")


if __name__ == "__main__":
    unittest.main()
