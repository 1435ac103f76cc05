from __future__ import annotations

import unittest
from pathlib import Path
from unittest import mock

from companions import settings
from companions.ci_settings import Ci
from companions.faults import OtherSettings
from companions.reader import SettingsFault
from companions.settings import Job
from companions.tests.test_core import ADAPTER, WHOLE, Case
from companions.tests.worker_case import WorkerCase
from companions.worker import Worker

# The first job of the first project is a CI's, of one that is no adapter's forge.
STATUS = WHOLE.replace('command = "sh unit.sh"\nlimit = 60', 'status = "ci/unit"\nlimit = 60')
CI = """
[ci]
form = "gitea"
url = "https://git.example/api/v1/"
token = "t2"
secret = "s2"
listen = "127.0.0.1:8091"
trusted = ["buildbot", "jenkins"]
parallel = 3
commands = 2
begins = 60
look = 5
"""


class Settings(Case):
    def read(self, text: str) -> settings.Settings:
        file = self.folder / "companions.toml"
        file.write_text(text)
        return settings.read(file)

    def refused(self, text: str) -> str:
        with self.assertRaises(SettingsFault) as raised:
            self.read(text)
        return str(raised.exception).removeprefix(f"{self.folder}/companions.toml: ")

    def test_a_job_has_a_status_in_the_place_of_a_command(self) -> None:
        known = self.read(STATUS)
        self.assertEqual(known.projects["lib"].jobs, {"unit": Job("unit", "", 60.0, status="ci/unit")})
        self.assertEqual((known.of_ci(), self.read(WHOLE).of_ci()), (["lib"], []))
        self.assertEqual(known.lacking("core", "lib", "unit"),
                         "job unit of project lib is a CI's: companions.ci runs it, and no worker")
        self.assertIsNone(known.lacking("core", "app", "unit"))

    def test_the_watch_gives_it_the_time_to_begin_beside_its_limit(self) -> None:
        only = STATUS[:STATUS.index('[[project]]\nname = "app"')]
        self.assertEqual(self.read(only).limit_of("core", "unit"), 960.0)
        self.assertEqual(self.read(only + CI).limit_of("core", "unit"), 120.0)
        self.assertEqual(self.read(only.replace('status = "ci/unit"', 'command = "x"')).limit_of("core", "unit"), 60.0)

    def test_defaults(self) -> None:
        """They are those of the page's table."""
        known = self.read(STATUS).ci
        self.assertEqual((known.parallel, known.commands, known.begins, known.look), (20, 4, 900.0, 30.0))
        self.assertEqual((known.trusted, known.trusted_apps, known.port), (frozenset(), frozenset(), None))
        page = (Path(__file__).resolve().parents[2] / "docs" / "CONNECTING.md").read_text(encoding="utf-8")
        for member in ("parallel", "commands", "begins", "look"):
            self.assertRegex(page, rf"(?m)^\| `ci\.{member}` \| .* \| {getattr(known, member):g} \|$")

    def test_the_forge_is_the_adapters_unless_the_table_names_one(self) -> None:
        self.assertEqual(self.read(STATUS).ci, Ci())
        self.assertFalse(self.read(STATUS).ci.has_forge)
        self.assertEqual(self.read(STATUS + ADAPTER).ci, Ci(form="github", url="https://api.github.com", token="t",
                                                            secret="s"))
        self.assertEqual(self.read(STATUS + ADAPTER + CI).ci, Ci(
            3, 2, 60.0, 5.0, frozenset({"buildbot", "jenkins"}), "gitea", "https://git.example/api/v1", "t2", "s2",
            "127.0.0.1", 8091))

    def test_apps_of_github_are_given_by_their_numbers(self) -> None:
        text = STATUS + ADAPTER + "[ci]\ntrusted_apps = "
        self.assertEqual(self.read(text + "[12345, 7]").ci.trusted_apps, frozenset({7, 12345}))
        self.assertEqual(self.read(text + "[]").ci.trusted_apps, frozenset())
        # A file without the forge, as a worker's.
        self.assertEqual(self.read(STATUS + "[ci]\ntrusted_apps = [7]").ci.trusted_apps, frozenset({7}))
        self.assertEqual(len(self.read(text + str(list(range(1, 11)))).ci.trusted_apps), 10)
        numbers = "ci.trusted_apps: isn't an array of the numbers of Apps, as [12345]"
        for given, told in (
                ('["circleci"]', numbers), ("12345", numbers), ("[true]", numbers), ("[0]", numbers), ("[-7]", numbers),
                ("[1.5]", numbers), (f"[{10 ** 18}]", numbers), ('["12345"]', numbers),
                ("[7, 15368]", "ci.trusted_apps: 15368 is the App of Actions, by which the workflows of all branches"
                               " speak: leave it out, and their jobs count by branch, commit and event"),
                (str(list(range(1, 12))), "ci.trusted_apps: has more than 10 Apps"),
                *((f'[7]\nform = "{it}"', f"ci.trusted_apps: is for the check runs of GitHub's Apps, and {it} has none")
                  for it in ("gitea", "gitlab"))):
            with self.subTest(given):
                self.assertEqual(self.refused(text + given), told)

    def test_each_fault_is_told_with_its_member(self) -> None:
        for old, new, told in (
                ('"ci/unit"', '""', "project[0].job[0].status: is empty"),
                ('"ci/unit"', "1", "project[0].job[0].status: isn't a text"),
                ('"ci/unit"', '"ci\\nunit"', "project[0].job[0].status: isn't the name of a status: at most 255"
                                             " characters that can be printed, without spaces around"),
                ('"ci/unit"', f'"{"x" * 256}"', "project[0].job[0].status: isn't the name of a status: at most 255"
                                                " characters that can be printed, without spaces around"),
                ('"ci/unit"', '"gate"', "project[0].job[0].status: gate is the adapter's own status, which waits for"
                                        " this job"),
                ('"ci/unit"', '"ci/unit"\ncommand = "x"', "project[0].job[0].command: is of a job that a worker runs:"
                                                          " the CI that sends `status` runs this one"),
                ('"ci/unit"', '"ci/unit"\nnetwork = true', "project[0].job[0].network: is of a job that a worker runs:"
                                                           " the CI that sends `status` runs this one"),
                ('"ci/unit"', '"ci/unit"\n[[project.job]]\nname = "docs"\nstatus = "ci/unit"',
                 "project[0].job[1].status: ci/unit is another job's"),
                ('"gitea"', '"svn"', "ci.form: is none of gitea, github, gitlab"),
                ('"127.0.0.1:8091"', '"8091"', "ci.listen: isn't a host and a port, as 127.0.0.1:8091"),
                ('"127.0.0.1:8091"', '""', "ci.listen: is empty"),
                ('secret = "s2"\n', "", "ci.listen: takes hooks, and neither ci.secret nor adapter.secret says how they"
                                        " are signed"),
                ("parallel = 3", "parallel = 0", "ci.parallel: isn't above 0"),
                ("begins = 60", "begins = 0", "ci.begins: isn't above 0"),
                ('["buildbot", "jenkins"]', '"buildbot"', "ci.trusted: isn't an array of texts"),
                *(('["buildbot", "jenkins"]', f'["buildbot", "{it}"]',
                   f"ci.trusted: {it} is an account by which the workflows of all branches speak: leave it out, and"
                   " their jobs count by branch, commit and event")
                  for it in ("github-actions", "GitHub-Actions[bot]", "gitea-actions")),
                ("look = 5", "looks = 5", "ci.looks: isn't known")):
            with self.subTest(told):
                self.assertIn(old, STATUS + CI)
                self.assertEqual(self.refused((STATUS + CI).replace(old, new, 1)), told)


class OfAWorker(WorkerCase):
    def test_a_worker_asks_for_nothing_where_a_ci_runs_jobs(self) -> None:
        file = self.write_settings()
        text = file.read_text()
        file.write_text(text.replace(f"command = '''{self.command}'''", 'status = "ci/unit"'))
        worker = Worker(settings.read(file), "w2", self.clock)
        with mock.patch.object(worker, "begin", side_effect=OtherSettings), \
                mock.patch.object(worker.beating, "start"), self.assertRaises(OtherSettings):
            worker.run()
        said = [it for it in self.errors.getvalue().splitlines(True) if "takes nothing" in it]
        worker.begin()
        worker.turn()
        worker.turn()
        self.assertEqual(self.kinds(), [])
        self.assertEqual("".join(said), "worker w2: takes nothing: a CI runs jobs of lib (status), and the"
                         " gate gives any job to whoever asks first: run companions.ci for this gate, which runs the"
                         " commands too\n")
        file.write_text("no settings")
        worker.turn()
        self.assertEqual(self.kinds(), [])
        file.write_text(text)
        with self.assertRaises(OtherSettings):
            worker.turn()

    def test_a_build_that_it_holds_is_not_run_once_a_ci_does(self) -> None:
        """Its settings were other ones when it took the build."""
        self.worker = self.start()
        job = self.worker.settings.projects["lib"].jobs["unit"]
        object.__setattr__(job, "status", "ci/unit")
        object.__setattr__(self.worker.settings, "patience", 0.01)
        with self.assertRaises(OtherSettings):
            self.worker.turn()


if __name__ == "__main__":
    unittest.main()
