from __future__ import annotations

import os
import signal
import subprocess
import sys
import unittest
from pathlib import Path
from typing import Any
from unittest import mock

from companions import job, worker
from companions.outbox import Notes
from companions.tests.test_job import runs
from companions.tests.worker_case import PretendClock, PretendGate, Said, WorkerCase

TOP = Path(__file__).parents[2]


class Wanted(WorkerCase):
    """A build is looked at while its job runs."""
    command = "sleep 1000"

    def turn_with(self, **other: Any) -> None:
        """A turn, in which the build is shown otherwise soon after it was taken."""
        taken = self.gate.take

        def take(take_id: str) -> Said:
            said = taken(take_id)
            self.gate.show(self.gate.taken[take_id], **other)
            return said

        self.gate.take = take  # type: ignore[assignment]
        self.worker.turn()

    def test_a_job_ends_whose_build_is_not_live(self) -> None:
        self.turn_with(live=False)
        self.assertEqual((self.kinds(), self.held()), (["take"], None))
        self.assertIn("ended: not wanted any more", self.log())
        self.assertIn("build 7: not wanted any more", self.errors.getvalue())

    def test_a_job_ends_whose_number_means_another_build(self) -> None:
        others: list[dict[str, Any]] = [{"change": 104}, {"revision": 2}, {"job": "docs"}, {"after": 1},
                                        {"ahead": [[104, 1]]}, {"queue": "web"}]
        for other in others:
            with self.subTest(other):
                self.gate = PretendGate([self.reply(7, 103)])
                self.turn_with(**other)
                self.assertEqual((self.gate.results, self.held()), ([], None))

    def test_a_job_ends_whose_build_somebody_else_has_reported(self) -> None:
        """As the watch does, which takes its worker for dead."""
        self.turn_with(outcome="lost")
        self.assertEqual((self.kinds(), self.held()), (["take"], None))

    def test_a_job_ends_that_the_gate_does_not_know(self) -> None:
        with mock.patch.object(self.gate, "show"):
            self.worker.turn()
        self.assertEqual((self.kinds(), self.held()), (["take"], None))

    def test_a_job_goes_on_while_the_gate_is_silent(self) -> None:
        self.worker = self.start("sleep 0.5")
        silent: list[Said] = [(502, "bad gateway"), (200, {"please": "log in"}), (404, "nothing"), (0, "")]
        answer = self.gate.answer

        def proxied(method: str, path: str, body: bytes) -> Said:
            if method == "GET" and silent:
                status, said = silent.pop(0) or (0, "")
                return (status, said) if status else None
            return answer(method, path, body)

        self.gate.answer = proxied  # type: ignore[assignment]
        self.worker.turn()
        self.assertLess(len(silent), 3)
        self.assertEqual(self.outcomes(), [(7, "success")])

    def test_waiting_for_a_landing_ends_too(self) -> None:
        self.gate.left = [self.reply(7, 103, after=1)]
        asked: list[int] = []

        def answer(number: int) -> None:
            """It is wanted at first."""
            asked.append(number)
            self.gate.show(self.reply(7, 103, after=1), live=len(asked) < 3)

        self.gate.before_build = answer
        self.worker.turn()
        self.assertEqual((self.kinds(), self.held()), (["take"], None))
        self.assertIn("build 7: waits: no branch of the queue core has its landing 1", self.errors.getvalue())


class Lost(WorkerCase):
    def test_what_its_repository_lacks_is_lost_and_told(self) -> None:
        self.gate.left = [self.reply(7, 109)]
        self.worker.turn()
        self.assertEqual(self.outcomes(), [(7, "lost")])
        self.assertIn(f"build 7: lost, {self.origin.folder} has no refs/changes/109/1\n", self.errors.getvalue())

    def test_losses_in_a_row_make_it_rest_longer(self) -> None:
        self.clock = PretendClock()
        self.worker = self.start("test $GATED_CHANGE = 104 || kill -TERM $$")
        for number in range(1, 11):
            self.gate.left = [self.reply(number, 103)]
            self.worker.turn()
        for number, change in ((11, 104), (12, 103)):
            self.gate.left = [self.reply(number, change)]
            self.worker.turn()
        self.assertEqual([round(it * 10) for it in self.clock.slept], [1, 2, 4, 8, 16, 32, 64, 64, 64, 64, 1])

    def test_a_success_is_not_told_before_it_is_on_disk(self) -> None:
        """The build is kept until it can be noted."""
        self.clock, self.room = PretendClock(), "patience = 2"
        self.worker = self.start()
        with mock.patch.object(os, "fsync", side_effect=OSError("no space")):
            self.worker.turn()
        self.assertEqual(self.outcomes(), [(7, "lost")])
        self.gate.left = [self.reply(8, 103)]
        self.worker.turn()
        self.worker.turn()
        self.assertEqual(self.outcomes(), [(7, "lost"), (8, "success")])


class Restart(WorkerCase):
    command = "sleep 1000"

    def put(self, **held: Any) -> None:
        Notes(self.folder / "state/worker/w1/notes.db").put("held", held)

    def test_a_take_without_a_known_reply_is_sent_again_and_its_build_run(self) -> None:
        self.put(take="70000000-0000-4000-8000-000000000001")
        self.start("true").turn()
        self.assertEqual(list(self.gate.taken), ["70000000-0000-4000-8000-000000000001"])
        self.assertEqual(self.outcomes(), [(7, "success")])

    def test_a_build_whose_job_had_begun_is_lost(self) -> None:
        self.gate.take("70000000-0000-4000-8000-000000000001")
        self.put(take="70000000-0000-4000-8000-000000000001", reply=self.reply(7, 103), began=True)
        self.start()
        self.assertEqual((self.kinds(), self.outcomes()), (["take", "result"], [(7, "lost")]))
        self.assertEqual(([it["outcome"] for it in self.records()], self.held()), (["lost"], None))

    def test_a_build_whose_job_had_not_begun_is_begun_again(self) -> None:
        self.gate.take("70000000-0000-4000-8000-000000000001")
        self.put(take="70000000-0000-4000-8000-000000000001", reply=self.reply(7, 103))
        self.start("true")
        self.assertEqual((self.kinds(), self.outcomes()), (["take", "result"], [(7, "success")]))

    def test_a_noted_outcome_is_told(self) -> None:
        self.gate.take("70000000-0000-4000-8000-000000000001")
        self.put(take="70000000-0000-4000-8000-000000000001", reply=self.reply(7, 103), outcome="failure")
        self.start()
        self.assertEqual((self.kinds(), self.outcomes()), (["take", "result"], [(7, "failure")]))

    def test_what_was_held_is_dropped_if_the_gate_has_another_file(self) -> None:
        self.put(take="70000000-0000-4000-8000-000000000001", reply=self.reply(7, 104), outcome="success")
        self.start("true")
        self.assertEqual([(it["change"], it["outcome"]) for it in self.records()], [(103, "success")])
        self.assertEqual([it["id"] for it in self.gate.results], [self.success(103)])


class Killed(WorkerCase):
    """A worker in a process of its own, whose jobs have no sandbox, so that they may outlive it."""
    sandbox = False
    command = "sh -c 'echo $$ > $GATED_TREES/../../../pid; exec sleep 1000'; true"

    def process(self) -> subprocess.Popen[bytes]:
        command = [sys.executable, "-m", "companions.worker", str(self.write_settings()), "w1"]
        started = subprocess.Popen(command, cwd=TOP, stderr=subprocess.DEVNULL)
        self.addCleanup(started.wait)
        self.addCleanup(started.kill)
        return started

    def job(self) -> int:
        file = self.folder / "state/worker/w1/pid"
        return int(self.until(lambda: file.exists() and file.read_text().endswith("\n") and file.read_text()))

    def test_its_job_ends_at_the_next_start_and_is_lost(self) -> None:
        first = self.process()
        running = self.job()
        first.kill()
        first.wait()
        self.assertTrue(runs(running))
        self.process()
        self.until(lambda: self.outcomes() == [(7, "lost")])
        self.until(lambda: not runs(running))

    def test_a_group_without_the_mark_ends_by_its_note(self) -> None:
        left = subprocess.Popen(["sleep", "1000"], env=dict[str, str](), start_new_session=True)
        self.addCleanup(left.wait)
        self.addCleanup(left.kill)
        began = job.began_at(left.pid)
        assert began is not None
        self.worker.notes.put("group", {"number": left.pid, "began": began + 1})
        self.worker.begin()
        self.assertIsNone(left.poll())
        self.worker.notes.put("group", {"number": left.pid, "began": began})
        self.worker.begin()
        self.assertEqual(left.wait(), -signal.SIGKILL)
        self.assertIsNone(self.worker.notes.get("group"))

    def test_a_process_with_the_mark_ends_at_the_start(self) -> None:
        name, _, value = self.worker.mark.partition("=")
        left = subprocess.Popen(["sleep", "1000"], env={name: value}, start_new_session=True)
        self.addCleanup(left.wait)
        self.addCleanup(left.kill)
        self.worker.begin()
        self.assertFalse(runs(left.pid))

    def test_sigterm_ends_it_with_its_job(self) -> None:
        started = self.process()
        running = self.job()
        started.terminate()
        self.assertEqual(started.wait(), 128 + signal.SIGTERM)
        self.until(lambda: not runs(running))

    def test_a_second_one_of_its_name_does_not_run(self) -> None:
        self.process()
        self.job()
        self.assertEqual(worker.main([str(self.write_settings()), "w1"]), 1)
        self.assertIn("stops: a worker of this name runs already", self.errors.getvalue())


if __name__ == "__main__":
    unittest.main()
