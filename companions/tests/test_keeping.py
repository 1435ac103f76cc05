"""A worker whose machine or settings are at fault keeps its build, and begins it again once they aren't."""
from __future__ import annotations

import contextlib
import os
import shutil
import sqlite3
import subprocess
import unittest
from collections.abc import Callable
from pathlib import Path
from typing import Any
from unittest import mock

from companions import sandbox, settings, worker
from companions.faults import OtherSettings
from companions.job import Cause, Ended
from companions.outbox import Notes
from companions.repository import GitFault
from companions.tests.boxes import boxed
from companions.tests.worker_case import PretendClock, Said, WorkerCase

TAKE = "70000000-0000-4000-8000-000000000001"
TOOLS = ("git", "sh", "rm", "chmod", "du", "cat", "env")


class KeepingCase(WorkerCase):
    """A worker with three seconds of patience, that looks eight times a second, by a clock that doesn't wait."""
    look = 0.125
    room = "patience = 3"
    command = "cat text"

    def setUp(self) -> None:
        self.clock = self.pretended = PretendClock()
        super().setUp()

    def said(self) -> list[str]:
        """What the worker says of itself."""
        return [line.removeprefix("worker w1: ") for line in self.errors.getvalue().splitlines()
                if line.startswith("worker w1: ")]

    def kept(self, fault: str) -> list[str]:
        return ["build 7: change 103, revision 1, job unit, queue core",
                f"build 7: kept, since it can't be run here: {fault}"]

    def at(self, seconds: float, then: Callable[[], Any]) -> None:
        """Does something once, after so many seconds."""
        left = [then]
        self.pretended.meanwhile = lambda so_far: left.pop()() if left and so_far >= seconds else None

    def is_kept_until(self, fault: str, then: Callable[[], Any]) -> None:
        """A turn in which a build is kept for a fault, which is over after a second, by `then`."""
        self.at(1.0, then)
        self.worker.turn()
        self.assertEqual(self.outcomes(), [(7, "success")], self.errors.getvalue())
        self.assertEqual(self.pretended.so_far, 1.0)
        self.assertEqual(self.said(), [*self.kept(fault), "build 7: begins again", "build 7: success, exit status 0",
                                       "build 7: success was told, and answered noted"])
        self.assertRegex(self.log(), r"(?s)\ncan't be run here: .*\nbuild 7: change 103, .*\nended: success")

    def is_lost_for(self, fault: str, still: str, then: Callable[[], Any]) -> None:
        """A turn in which a build is lost for a fault, and turns that take nothing until it is over, by `then`."""
        self.gate.left.append(self.reply(8, 104))
        self.worker.turn()
        self.assertEqual(self.pretended.so_far, 3.125)
        self.assertEqual(self.outcomes(), [(7, "lost")])
        asked = len(self.kinds())
        self.worker.turn()
        self.worker.turn()
        self.assertEqual(len(self.kinds()), asked)
        then()
        self.worker.turn()
        self.assertEqual(self.outcomes(), [(7, "lost"), (8, "success")])
        self.assertEqual(self.said()[:7], [
            *self.kept(fault), f"build 7: lost, {fault}", "build 7: lost was told, and answered noted",
            f"takes nothing: {still}", "takes builds again", "build 8: change 104, revision 1, job unit, queue core"])


class Kinds(KeepingCase):
    """Each kind of fault has a look of its own."""

    def fill(self) -> tuple[str, Callable[[], Any]]:
        """Fills a disk of 16 MiB that the companions have, and gives what is said of it, and what frees it."""
        state = self.folder / "state"
        shutil.rmtree(state)
        state.mkdir()
        mounted = subprocess.run(["mount", "-t", "tmpfs", "-o", "size=16m", "none", str(state)], capture_output=True,
                                 check=False)
        if mounted.returncode != 0:
            self.skipTest(f"no disk can be mounted: {mounted.stderr!r}")
        self.addCleanup(lambda: subprocess.run(["umount", "--lazy", str(state)], check=True))
        self.room = "patience = 3\nfree = 4194304"
        self.worker = self.start()

        def fill(kind: str, said: Any) -> None:
            self.gate.before = lambda kind, said: None
            with contextlib.suppress(OSError), open(state / "other", "wb", buffering=0) as other:
                while other.write(bytes(65536)):
                    pass

        self.gate.before = fill
        return "database or disk is full", (state / "other").unlink

    def test_a_full_disk(self) -> None:
        fault, free = self.fill()
        self.at(1.0, free)
        self.worker.turn()
        self.assertEqual(self.outcomes(), [(7, "success")])
        self.assertEqual(self.said()[:2], self.kept(fault))

    def test_a_full_disk_for_longer(self) -> None:
        """Nothing can be noted meanwhile. The loss is told all the same, and nothing is taken."""
        fault, free = self.fill()
        self.gate.left.append(self.reply(8, 104))
        with self.assertRaises(sqlite3.OperationalError):
            self.worker.turn()
        self.assertEqual(self.outcomes(), [(7, "lost")])
        self.assertIn("the loss can't be noted: ", self.errors.getvalue())
        free()
        self.gate.show(self.reply(7, 103), outcome="lost")
        self.worker = self.start()
        self.worker.turn()
        self.worker.turn()
        self.assertEqual(self.outcomes(), [(7, "lost"), (8, "success")])
        self.assertIn("build 7: not wanted any more", self.said())

    def test_a_disk_below_what_is_to_stay_free(self) -> None:
        """Its job is killed, by no fault of its own."""
        full = [True]
        self.worker = self.start("sleep 1.5; cat text")
        with mock.patch("companions.room.Room.is_low", lambda room: full[0]):
            self.at(1.0, lambda: full.clear() or full.append(False))
            self.worker.turn()
        self.assertEqual(self.outcomes(), [(7, "success")])
        self.assertEqual(self.errors.getvalue().count("kept"), 1)
        self.assertRegex(self.said()[1], "^build 7: kept, since it can't be run here: less than worker.free is left on "
                                         "the disk of .*/trees/")

    def tools(self) -> Path:
        """A folder of tools, in which the worker finds all that it calls."""
        tools = self.folder / "bin"
        tools.mkdir()
        for it in TOOLS:
            (tools / it).symlink_to(str(shutil.which(it)))
        self.enterContext(mock.patch.dict(os.environ, PATH=str(tools)))
        self.worker = self.start()
        self.worker.author_at = float("inf")
        return tools

    def test_a_missing_git(self) -> None:
        git = self.tools() / "git"
        real = git.readlink()
        git.unlink()
        self.is_kept_until("[Errno 2] No such file or directory: 'git'", lambda: git.symlink_to(real))

    def test_a_git_that_is_missing_for_longer(self) -> None:
        git = self.tools() / "git"
        real = git.readlink()
        git.unlink()
        self.is_lost_for("[Errno 2] No such file or directory: 'git'", "git isn't installed",
                         lambda: git.symlink_to(real))

    @unittest.skipUnless(boxed(), "jobs have no sandboxes here")
    def test_a_missing_bubblewrap(self) -> None:
        path = sandbox.ENVIRONMENT["PATH"]
        self.enterContext(mock.patch.dict(sandbox.ENVIRONMENT, PATH=str(self.folder)))
        self.is_kept_until("[Errno 2] No such file or directory: 'bwrap'",
                           lambda: sandbox.ENVIRONMENT.update(PATH=path))

    def away(self) -> tuple[str, Callable[[], Any]]:
        """Puts the repository away, and gives what is said of that, and what brings it back."""
        there = self.origin.folder
        away = there.rename(self.folder / "away.git")
        said = (f"fatal: '{there}' does not appear to be a git repository fatal: Could not read from remote repository."
                " Please make sure you have the correct access rights and the repository exists.")
        return said, lambda: away.rename(there)

    def test_a_repository_that_cannot_be_read(self) -> None:
        said, back = self.away()
        fetched = " ".join(f"+{it}" for it in (
            "refs/heads/main:refs/heads/main", "refs/changes/103/1*:refs/changes/103/1*",
            "refs/landings/core/000000*:refs/landings/core/000000*"))
        self.is_kept_until(f"git fetch --quiet --no-tags --prune {self.origin.folder} {fetched}: {said}", back)

    def test_a_repository_that_cannot_be_read_for_longer(self) -> None:
        said, back = self.away()
        self.gate.left.append(self.reply(8, 104))
        self.worker.turn()
        self.worker.turn()
        self.assertEqual(self.outcomes(), [(7, "lost")])
        self.assertEqual(self.said()[-1], f"takes nothing: git fetch --quiet --no-tags --prune {self.origin.folder} "
                                          f"+refs/heads/main:refs/heads/main: {said}")
        back()
        self.worker.turn()
        self.assertEqual(self.outcomes(), [(7, "lost"), (8, "success")])

    @unittest.skipUnless(boxed(), "jobs have no sandboxes here")
    def test_a_sandbox_that_does_not_begin(self) -> None:
        cache = self.folder / "cache"
        self.more = f'read = ["{cache}"]'
        self.worker = self.start()
        why = f"bwrap: Can't find source path {cache}: No such file or directory"
        self.is_kept_until(f"its sandbox didn't begin, or was killed: {why}", cache.mkdir)

    @unittest.skipUnless(boxed(), "jobs have no sandboxes here")
    def test_a_sandbox_that_does_not_begin_for_longer(self) -> None:
        cache = self.folder / "cache"
        self.more = f'write = ["{cache}"]'
        self.worker = self.start()
        why = f"bwrap: Can't find source path {cache}: No such file or directory"
        self.is_lost_for(f"its sandbox didn't begin, or was killed: {why}", f"its sandbox doesn't begin: {why}",
                         cache.mkdir)


class InSettings(KeepingCase):
    """What the settings lack is there once somebody has written it, and the worker has begun with it."""
    lacking = "project lib has no job docs: add its [[project.job]] to companions.toml"

    def setUp(self) -> None:
        super().setUp()
        self.gate.left = [self.reply(7, 103, job="docs")]

    def add_job(self) -> None:
        with (self.folder / "companions.toml").open("a") as file:
            file.write('[[project.job]]\nname = "docs"\ncommand = "cat text"\n')

    def test_a_job_that_is_added_is_run_by_a_worker_that_begins_anew(self) -> None:
        self.at(1.0, self.add_job)
        with self.assertRaises(OtherSettings):
            self.worker.turn()
        self.assertEqual((self.outcomes(), self.said()[1]),
                         ([], f"build 7: kept, since it can't be run here: {self.lacking}"))
        begun = worker.Worker(settings.read(self.folder / "companions.toml"), "w1", self.clock)
        begun.begin()
        self.assertEqual((self.outcomes(), self.held()), ([(7, "success")], None))

    def test_a_job_that_is_not_added_in_time(self) -> None:
        self.worker.turn()
        self.worker.turn()
        self.assertEqual(self.outcomes(), [(7, "lost")])
        self.assertEqual(self.said()[-3:], [
            f"build 7: lost, {self.lacking}", "build 7: lost was told, and answered noted",
            f"takes nothing: {self.lacking}"])
        self.gate.left = [self.reply(8, 103, job="docs")]
        self.add_job()
        with self.assertRaises(OtherSettings):
            self.worker.turn()
        begun = worker.Worker(settings.read(self.folder / "companions.toml"), "w1", self.clock)
        begun.begin()
        begun.turn()
        self.assertEqual(self.outcomes(), [(7, "lost"), (8, "success")])

    def test_settings_that_have_a_fault_meanwhile_are_waited_for(self) -> None:
        file = self.folder / "companions.toml"
        right = file.read_text()
        self.at(0.5, lambda: file.write_text(right + "["))
        self.worker.turn()
        self.worker.turn()
        self.assertRegex(self.said()[-1], f"^takes nothing: {file}: no TOML: ")
        file.write_text(right)
        self.worker.turn()
        self.assertEqual(self.said()[-1], f"takes nothing: {self.lacking}")

    def test_a_queue_and_a_project_that_the_settings_lack(self) -> None:
        for reply, project, said in (
                (self.reply(7, 103, queue="web"), "lib", "no project of the queue web is in companions.toml: add each"),
                (self.reply(8, 104), "site", "the gate has the change in project site: add its [[project]] with the")):
            self.gate.left = [reply]
            self.worker = self.start()
            self.worker.trees.project_of = lambda change: project
            self.worker.keeper.fault = None
            self.worker.turn()
            self.assertIn(f"build {reply['build']}: kept, since it can't be run here: {said}", self.errors.getvalue())
        self.assertEqual(self.outcomes(), [(7, "lost"), (8, "lost")])

    def test_the_program_begins_anew_with_other_settings(self) -> None:
        with mock.patch.object(worker, "work", side_effect=[OtherSettings, OtherSettings, 3]):
            self.assertEqual(worker.main([str(self.folder / "companions.toml"), "w1"]), 3)
        self.assertEqual(self.said(), 2 * ["begins anew with the settings of now"])


class Times(KeepingCase):
    def failing(self) -> list[float]:
        """When the trees of builds were tried to be made, on a machine that fails, though a look finds nothing."""
        tried: list[float] = []

        def make(*_: Any) -> None:
            tried.append(self.pretended.so_far)
            raise GitFault("the index is broken")

        self.enterContext(mock.patch.object(self.worker.trees, "make", make))
        return tried

    def test_what_no_look_finds_is_tried_less_and_less_often(self) -> None:
        tried = self.failing()
        self.worker.turn()
        self.assertEqual(tried, [0.0, 0.125, 0.375, 0.875, 1.875, 3.0])
        self.assertEqual(self.outcomes(), [(7, "lost")])

    def test_patience_is_the_grace_of_the_watch_if_nothing_else_is_said(self) -> None:
        """So a build is not reported by the watch while it is kept."""
        for self.room, patience, grace in (("", 300.0, 300.0), ("[watch]\ngrace = 50", 50.0, 50.0),
                                           ("patience = 7\n[watch]\ngrace = 50", 7.0, 50.0)):
            known = settings.read(self.write_settings())
            self.assertEqual((known.patience, known.grace), (patience, grace))

    def test_patience_goes_on_over_a_restart(self) -> None:
        self.gate.take(TAKE)
        self.notes().put("held", {"take": TAKE, "reply": self.reply(7, 103), "since": self.clock.now() - 2.5})
        self.worker = worker.Worker(settings.read(self.folder / "companions.toml"), "w1", self.clock)
        tried = self.failing()
        self.worker.begin()
        self.assertEqual(tried, [0.0, 0.125, 0.375, 0.5])
        self.assertEqual(self.outcomes(), [(7, "lost")])

    def test_a_worker_that_is_stopped_meanwhile_begins_the_build_again(self) -> None:
        """Its job may have begun, if it was ended by the machine."""

        def killed(*_: Any) -> Ended:
            raise OSError("less than worker.free is left")

        def stop(so_far: float) -> None:
            raise SystemExit

        self.pretended.meanwhile = stop
        with mock.patch("companions.job.run", killed), self.assertRaises(SystemExit):
            self.worker.turn()
        self.assertEqual((self.held()["since"], "began" in self.held()), (1e9, False))
        self.pretended.meanwhile = lambda so_far: None
        self.start()
        self.assertEqual((self.outcomes(), self.held()), ([(7, "success")], None))

    def test_a_worker_that_is_stopped_behind_a_loss_takes_nothing(self) -> None:
        there = self.origin.folder
        away = there.rename(self.folder / "away.git")
        self.worker.turn()
        self.gate.left = [self.reply(8, 104)]
        self.worker = self.start()
        self.worker.turn()
        self.assertEqual(self.outcomes(), [(7, "lost")])
        away.rename(there)
        self.worker = self.start()
        self.worker.turn()
        self.assertEqual(self.outcomes(), [(7, "lost"), (8, "success")])

    def test_a_build_that_is_not_wanted_meanwhile_is_let_go(self) -> None:
        others: list[dict[str, Any]] = [{"live": False}, {"outcome": "lost"}, {"change": 105}]
        for number, other in enumerate(others, 7):
            self.gate.left = [self.reply(number, 103)]
            self.failing()
            self.at(self.pretended.so_far + 0.5, lambda: self.gate.show(self.reply(number, 103), **other))
            self.worker.turn()
            self.assertEqual((self.outcomes(), self.held()), ([], None))
            self.assertEqual(self.said()[-1], f"build {number}: not wanted any more")

    def test_a_gate_that_is_silent_wants_the_build(self) -> None:
        tried = self.failing()
        answer = self.gate.answer

        def proxied(method: str, path: str, body: bytes) -> Said:
            return (502, "bad gateway") if method == "GET" else answer(method, path, body)

        self.gate.answer = proxied  # type: ignore[assignment]
        self.worker.turn()
        self.assertEqual((len(tried), self.outcomes()), (6, [(7, "lost")]))

    def test_what_a_build_does_to_itself_is_not_kept(self) -> None:
        for ended, outcome in ((Ended(Cause.SPACE, -9, 1.0), "failure"), (Ended(Cause.ITSELF, 1, 1.0), "failure"),
                               (Ended(Cause.LIMIT, -9, 1.0), "failure"), (Ended(Cause.ITSELF, 137, 1.0), "lost")):
            self.gate.left, before = [self.reply(len(self.gate.results) + 1, 103)], self.pretended.so_far
            with mock.patch("companions.job.run", return_value=ended):
                self.worker.turn()
            self.assertEqual(self.gate.results[-1]["outcome"], outcome)
            self.assertLessEqual(self.pretended.so_far - before, 0.125)
        self.assertNotIn("kept", self.errors.getvalue())

    def notes(self) -> Notes:
        return Notes(self.folder / "state/worker/w1/notes.db")


if __name__ == "__main__":
    unittest.main()
