"""`companions.ci` as a process, which is killed anywhere and started again; and what was left is taken up or away."""
from __future__ import annotations

import contextlib
import os
import random
import signal
import subprocess
import sys
import threading
import time
import unittest
from collections.abc import Iterator
from pathlib import Path
from unittest import mock

from companions.outbox import Notes
from companions.repository import GitFault, Repository
from companions.tests.ci_case import CiCase
from companions.tests.forges.ran import CiRun

TOP = Path(__file__).resolve().parents[2]
BOTH = CiCase.jobs + '[[project.job]]\nname = "docs"\nstatus = "ci/docs"\nlimit = 60\n'


class Dies(BaseException):
    """Stands for the kill of a process at a point."""


class Points(CiCase):
    """It dies at each of the points at which it has written or sent something."""
    jobs = BOTH

    @contextlib.contextmanager
    def dying(self, owner: object, name: str, times: int = 1, after: bool = True) -> Iterator[None]:
        """Dies at the n-th call of a method, before or after it is done."""
        real, calls = getattr(owner, name), 0

        def die(*words: object, **more: object) -> object:
            nonlocal calls
            calls += 1
            if calls == times and not after:
                raise Dies
            said = real(*words, **more)
            if calls == times:
                raise Dies
            return said

        with mock.patch.object(owner, name, die):
            yield

    def dies(self) -> None:
        """Turns until it dies, in whichever of its threads."""
        end = time.monotonic() + 20
        while time.monotonic() < end:
            try:
                self.turn()
            except Dies:
                self.ci.at_work.clear()
                return
            time.sleep(0.01)
        self.fail("it didn't die")

    def goes_on(self) -> None:
        """The build is in one run by now, is judged by it alone, and nothing is left of it."""
        self.again()
        branch, commit = self.pushed(7)
        run = CiRun(600, "acme/lib", branch, commit)
        self.model.ran.append(run)
        run.set("ci/unit", "success")
        self.assertEqual(self.ended(7), "success")
        self.until(lambda: not self.branches())
        self.assertEqual((self.outcomes(), len(self.gate.taken)), ([(7, "success")], 1))

    def test_where_a_take_is_noted_sent_and_answered(self) -> None:
        for after in (False, True):
            self.gate.taken.clear()
            self.gate.results.clear()
            self.model.ran.clear()
            self.give(self.reply(7, 103))
            with self.dying(self.ci.gate, "post", after=after):
                self.dies()
            self.goes_on()

    def test_where_a_build_is_noted(self) -> None:
        for times in range(2, 8):
            self.gate.taken.clear()
            self.gate.results.clear()
            self.model.ran.clear()
            self.give(self.reply(7, 103))
            with self.subTest(times), self.dying(Notes, "put", times):
                self.dies()
                self.goes_on()

    def test_where_a_run_is_pushed(self) -> None:
        for after in (False, True):
            self.gate.taken.clear()
            self.gate.results.clear()
            self.model.ran.clear()
            self.give(self.reply(7, 103))
            with self.dying(Repository, "push", after=after):
                self.dies()
            self.assertEqual(bool(self.branches()), after)
            self.goes_on()

    def test_a_push_whose_end_was_not_seen_stays(self) -> None:
        """What the CI has begun by then counts."""
        self.give(self.reply(7, 103))
        with self.dying(Repository, "push"):
            self.dies()
        [(name, commit)] = self.branches().items()
        run = CiRun(600, "acme/lib", name.removeprefix("refs/heads/"), commit)
        self.model.ran.append(run)
        run.set("ci/unit", "success")
        self.again()
        with mock.patch.object(Repository, "remove", side_effect=AssertionError):
            self.assertEqual(self.ended(7), "success")

    def test_where_an_end_is_noted_and_told(self) -> None:
        for owner, name, after in ((self, "ci.record", True), (self, "ci.gate.post", False),
                                   (self, "ci.gate.post", True), (Notes, "drop", True),
                                   (Repository, "remove", False), (Repository, "remove", True)):
            with self.subTest((name, after)):
                self.gate.taken.clear()
                self.gate.results.clear()
                self.model.ran.clear()
                self.give(self.reply(7, 103))
                run = self.run_of(7)
                run.set("ci/unit", "success")
                where = self.ci.queues["core"] if name == "ci.record" else self.ci.queues["core"].gate if (
                    name == "ci.gate.post") else owner
                word = name.rpartition(".")[2]
                if word == "post":
                    # The main thread's take finds nothing, and isn't sent meanwhile.
                    self.ci.has_room = lambda: False  # type: ignore[assignment]
                with self.dying(where, word, after=after):
                    self.dies()
                self.again()
                self.until(lambda: not self.branches())
                self.assertEqual(set(self.outcomes()), {(7, "success")})
                self.assertEqual(len({it["id"] for it in self.gate.results}), 1)

    def test_what_is_of_no_use_is_cancelled_by_the_next_start(self) -> None:
        """It dies once a build is dropped, or once its end over the limit is noted, and before it has cancelled."""
        for name, limit in (("drop", "limit = 60"), ("note", "limit = 0.3")):
            with self.subTest(name):
                jobs = self.jobs.replace("limit = 60", limit)
                self.again(jobs=jobs)
                self.gate.taken.clear()
                self.model.ran.clear()
                self.give(self.reply(7, 103))
                run = self.run_of(7)
                run.set("ci/unit", "in_progress")
                [build] = self.ci.queues["core"].builds.values()
                self.until(lambda it=build: it.link)
                if name == "drop":
                    self.unwanted(7)
                with self.dying(Notes if name == "drop" else self.ci.queues["core"], name):
                    self.dies()
                self.assertFalse(run.is_cancelled)
                self.again(jobs=jobs)
                self.until(lambda: not self.branches())
                self.assertTrue(run.is_cancelled)

    def test_what_no_live_build_has_is_taken_away(self) -> None:
        """Branches of runs that aren't known any more, as after its folder was lost. Those of others stay."""
        commit, other = self.heads["lib"], self.heads["app"]
        own = [f"refs/heads/gate/core/{commit}-12", f"refs/gate/core/{other}-3"]
        others = [f"refs/heads/gate/web/{commit}-12", "refs/heads/gate/core/readme", f"refs/heads/gate/core/{commit}",
                  f"refs/heads/gate/core/{commit}-012", "refs/heads/gated"]
        for it in own + others:
            self.lib.name(it, commit)
        self.give(self.reply(7, 103))
        run = self.run_of(7)
        self.until(lambda: not set(own) & set(self.branches()))
        self.assertIn(f"refs/heads/{run.branch}", self.branches())
        self.assertIn("lib: took 2 branches of earlier runs away", self.errors.getvalue())
        for it in others:
            self.assertEqual(self.lib.git("rev-parse", it), commit)

    def test_a_repository_that_is_away_holds_the_build_and_is_said_once(self) -> None:
        self.give(self.reply(7, 103))
        self.lib.folder.rename(self.folder / "away.git")
        self.until(lambda: "build 7: git fetch" in self.errors.getvalue())
        self.turn(20)
        self.assertEqual(self.outcomes(), [])
        self.assertEqual(self.errors.getvalue().count("build 7: git fetch"), 1)
        (self.folder / "away.git").rename(self.lib.folder)
        self.run_of(7).set("ci/unit", "success")
        self.assertEqual(self.ended(7), "success")

    def test_a_push_that_is_declined_is_said_and_loses_nothing(self) -> None:
        hook = self.lib.folder / "hooks" / "update"
        hook.parent.mkdir(exist_ok=True)
        hook.write_text("#!/bin/sh\necho 'only the gate may push gate/*' >&2\nexit 1\n")
        hook.chmod(0o755)
        self.give(self.reply(7, 103))
        self.until(lambda: "only the gate may push gate/*" in self.errors.getvalue())
        self.turn(10)
        self.assertEqual((self.outcomes(), self.ci.queues["core"].counted()), ([], 0))
        hook.unlink()
        self.run_of(7).set("ci/unit", "success")
        self.assertEqual(self.ended(7), "success")

    def test_a_forge_that_is_away_loses_nothing(self) -> None:
        self.give(self.reply(7, 103))
        run = self.run_of(7)
        self.forge.server.odds = 1.0
        run.set("ci/unit", "success")
        self.until(lambda: "status 500" in self.errors.getvalue())
        self.turn(20)
        self.assertEqual(self.outcomes(), [])
        self.assertEqual(self.errors.getvalue().count("status 500"), 1)
        self.forge.server.odds = 0.0
        self.assertEqual(self.ended(7), "success")

    def test_a_mirror_that_fails_holds_up_no_other_queue(self) -> None:
        queue = self.ci.queues["core"]
        with mock.patch.object(queue.trees, "look", side_effect=GitFault("x" * 5000)):
            self.give(self.reply(7, 103))
            self.until(lambda: "build 7: xxx" in self.errors.getvalue())
        self.assertLess(max(map(len, self.errors.getvalue().splitlines())), 1100)


class Process(CiCase):
    """The program itself. A CI beside it runs what it finds on the branches."""
    asks = 0.05
    jobs = BOTH + '[[project.job]]\nname = "lint"\ncommand = "sleep 0.3; cat text"\nlimit = 60\n'

    def setUp(self) -> None:
        super().setUp()
        self.ci.end()
        self.process: subprocess.Popen[bytes] | None = None
        self.addCleanup(self.kill)
        self.over = threading.Event()
        self.addCleanup(self.over.set)
        # Each branch's run, which counts how often it was begun.
        self.runs: dict[str, CiRun] = {}

    def begin(self) -> None:
        with open(self.folder / "ci.log", "ab") as log:
            self.process = subprocess.Popen(
                [sys.executable, "-m", "companions.ci", str(self.write_settings()), "ci1"], stdout=log, stderr=log,
                cwd=TOP, env={**os.environ, "PYTHONDONTWRITEBYTECODE": "1"})

    def kill(self, how: int = signal.SIGKILL) -> int:
        if self.process is None:
            return 0
        self.process.send_signal(how)
        return self.process.wait(30)

    def work(self, chance: random.Random) -> None:
        """Runs what is there: each branch once, and says how it ended some time later."""
        for project in ("lib", "app"):
            for name, commit in self.branches(project, "refs/heads/gate").items():
                if name not in self.runs:
                    self.model.pushed.add((f"acme/{project}", commit))
                    run = CiRun(700 + len(self.runs), f"acme/{project}", name.removeprefix("refs/heads/"), commit)
                    self.runs[name] = run
                    self.model.ran.append(run)
                    for job in ("ci/unit", "ci/docs"):
                        run.set(job, "in_progress")
        for run in self.runs.values():
            for of_run in run.jobs:
                if of_run.word == "in_progress" and chance.random() < 0.3:
                    of_run.word = "success"

    def test_it_may_be_killed_anywhere(self) -> None:
        chance, replies = random.Random(3), []
        for number, change in enumerate((103, 104, 105), 1):
            replies += [self.reply(10 * number + at, change, job) for at, job in enumerate(("unit", "docs", "lint"))]
        self.give(*replies)
        wanted = {it["build"] for it in replies}
        end = time.monotonic() + 90
        while {build for build, _ in self.outcomes()} != wanted and time.monotonic() < end:
            self.begin()
            until = time.monotonic() + chance.uniform(0.5, 3.0)
            while time.monotonic() < until:
                self.work(chance)
                time.sleep(0.05)
            self.kill()
        told = {build: outcome for build, outcome in self.outcomes()}
        self.assertEqual(set(told), wanted, (self.folder / "ci.log").read_text())
        # A command that was cut off is lost; what the CI runs isn't.
        self.assertEqual({told[it["build"]] for it in replies if it["job"] != "lint"}, {"success"})
        self.assertLessEqual({told[it["build"]] for it in replies if it["job"] == "lint"}, {"success", "lost"})
        # No result was told as two different ones, and each success is of its own commit.
        self.assertEqual(len({it["id"] for it in self.gate.results}), len(wanted))
        asked = len(self.standin.asked)
        self.begin()
        self.until_true(lambda: not self.branches("lib") and len(self.standin.asked) > asked)
        self.assertEqual(self.kill(signal.SIGTERM), 128 + signal.SIGTERM)

    def until_true(self, true: object) -> None:
        end = time.monotonic() + 30
        while not true():  # type: ignore[operator]
            self.assertLess(time.monotonic(), end, (self.folder / "ci.log").read_text())
            time.sleep(0.05)


if __name__ == "__main__":
    unittest.main()
