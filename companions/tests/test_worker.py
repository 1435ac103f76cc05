from __future__ import annotations

import time
import unittest
from typing import Any
from unittest import mock

from companions import worker
from companions.gate import Answer
from companions.ids import id_of, success_id
from companions.landings import first_text, tag
from companions.tests.worker_case import IDLE, Said, WorkerCase


class Turn(WorkerCase):
    def test_a_build_is_taken_run_and_told(self) -> None:
        self.worker.turn()
        [result] = self.gate.results
        take = next(iter(self.gate.taken))
        commit = "da409481c2e2bf731f2464401e247ddd94cd67ac"
        self.assertEqual(result, {"id": success_id(7, "core", 103, 1, "unit", commit), "kind": "result", "build": 7,
                                  "outcome": "success"})
        [record] = self.records()
        tree = self.origin.tree("refs/changes/103/1")
        self.assertEqual({**record, "seconds": 0}, {
            "take": take, "build": 7, "queue": "core", "change": 103, "revision": 1, "job": "unit", "project": "lib",
            "outcome": "success", "commit": commit, "trees": {"lib": tree}, "seconds": 0})
        self.assertRegex(self.log(), rf"(?s)^build 7: change 103, .*lib: commit {commit}, tree {tree}\n.*\n0\n"
                                     r"ended: success, exit status 0, after ")
        self.assertIsNone(self.held())
        self.assertEqual(list((self.folder / "state/worker/w1").glob("trees/*")), [])

    def test_the_job_is_told_what_it_builds(self) -> None:
        self.worker = self.start('env; test "$(pwd)" = "$GATED_TREES/lib"')
        self.worker.turn()
        log = self.log().splitlines()
        for line in ("GATED_BUILD=7", "GATED_QUEUE=core", "GATED_CHANGE=103", "GATED_REVISION=1", "GATED_JOB=unit",
                     "GATED_PROJECT=lib"):
            self.assertIn(line, log)
        self.assertEqual(self.outcomes(), [(7, "success")])

    def test_a_job_that_fails_or_conflicts_is_a_failure(self) -> None:
        self.origin.revision(105, 1, self.origin.commit({"own": "105"}, self.head))
        for reply, reason in ((self.reply(7, 103, ahead=[[104, 1]]), "change 103, revision 1 .its own. can't"),
                              (self.reply(8, 103, ahead=[[104, 1], [105, 1]]), "change 105, revision 1 .ahead. can't")):
            self.gate.left = [reply]
            self.worker.turn()
            self.assertRegex(self.errors.getvalue(), f"build {reply['build']}: failure, {reason}")
        self.worker = self.start("exit 3")
        self.gate.left = [self.reply(9, 103)]
        self.worker.turn()
        self.assertEqual(self.outcomes(), [(7, "failure"), (8, "failure"), (9, "failure")])

    def test_a_job_that_hangs_is_a_failure_with_its_reason(self) -> None:
        self.worker = self.start("sleep 1000", limit=0.3)
        self.worker.turn()
        self.assertEqual(self.outcomes(), [(7, "failure")])
        self.assertRegex(self.log(), "\nended: failure, killed at its time limit, after ")

    def test_the_answers_to_a_result_are_all_final(self) -> None:
        for number, answer in enumerate(((200, {"reply": "stale"}), (404, {"code": "E11", "error": "unknown-build"}),
                                         (200, {"reply": "noted"}))):
            self.gate.left = [self.reply(number + 1, 103)]
            self.gate.before = lambda kind, said: answer if kind == "result" else None
            self.worker.turn()
            self.assertIsNone(self.held())


class Take(WorkerCase):
    def test_its_id_is_on_disk_before_it_is_sent(self) -> None:
        noted: list[Any] = []

        def before(kind: str, said: dict[str, Any]) -> Said:
            noted.append((self.held() or {}).get("take") == said["id"] or kind == "result")
            return None

        self.gate.before = before
        self.worker.turn()
        self.assertEqual(noted, [True, True, True])

    def test_the_same_is_sent_again_without_an_answer_and_when_idle(self) -> None:
        answers: list[Said] = [(0, ""), (502, "bad gateway"), (401, "who?"), (200, "<html>log in</html>"), IDLE, IDLE]
        self.gate.before = lambda kind, said: answers.pop(0) if answers else None
        for _ in range(3):
            self.worker.turn()
        takes = [it["id"] for it in self.standin.deliveries() if it["kind"] == "take"]
        self.assertEqual((len(takes), len(set(takes))), (8, 1))
        self.assertEqual(self.outcomes(), [(7, "success")])

    def test_it_pauses_when_idle(self) -> None:
        self.gate.left, self.worker.author_at = [], float("inf")
        with mock.patch.object(worker.time, "sleep") as sleep:
            self.worker.turn()
        sleep.assert_called_once_with(0.02)

    def test_each_build_has_a_take_of_its_own(self) -> None:
        self.gate.left.append(self.reply(8, 104))
        self.worker.turn()
        self.worker.turn()
        self.assertEqual((len(self.gate.taken), self.outcomes()), (2, [(7, "success"), (8, "success")]))

    def test_a_wrong_address_is_told(self) -> None:
        answers: list[Said] = [(404, {"error": "no-route"})]
        self.gate.before = lambda kind, said: answers.pop(0) if answers else None
        self.worker.turn()
        self.assertRegex(self.errors.getvalue(), "POST /worker: status 404, .*no-route.* Is the address .* right?")

    def test_another_refusal_is_told_and_not_asked_again_at_once(self) -> None:
        answers: list[Said] = [(507, {"code": "E14", "error": "exhausted"})]
        self.gate.before = lambda kind, said: answers.pop(0) if answers else None
        begin = time.monotonic()
        self.worker.turn()
        self.assertGreater(time.monotonic() - begin, 0.09)
        self.assertIn("its take was refused: {'code': 'E14'", self.errors.getvalue())


class Result(WorkerCase):
    def test_the_same_take_goes_right_before_it(self) -> None:
        self.worker.turn()
        self.assertEqual(self.kinds(), ["take", "take", "result"])
        self.assertEqual(len({it["id"] for it in self.standin.deliveries()[:2]}), 1)

    def test_the_take_goes_again_whenever_it_goes_again(self) -> None:
        answers: list[Said] = [(502, "bad gateway"), (0, "")]
        self.gate.before = lambda kind, said: answers.pop(0) if kind == "result" and answers else None
        self.worker.turn()
        self.assertEqual(self.kinds(), ["take"] + 3 * ["take", "result"])
        self.assertEqual(len({it["id"] for it in self.standin.deliveries() if it["kind"] == "result"}), 1)

    def test_a_gate_with_another_file_gets_none(self) -> None:
        """While the job runs, the gate's file is replaced by one in which the same take gets another build."""
        def before(kind: str, said: dict[str, Any]) -> Said:
            if len(self.kinds()) == 2:
                self.gate.taken.clear()
                self.gate.left = [self.reply(7, 104)]
            return None

        self.gate.before = before
        self.worker.turn()
        self.assertEqual([(it["change"], it["outcome"]) for it in self.records()], [(103, "success"), (104, "success")])
        self.assertEqual([it["id"] for it in self.gate.results], [self.success(104)])

    def test_a_gate_that_has_no_build_gets_none(self) -> None:
        self.gate.before = lambda kind, said: IDLE if len(self.kinds()) == 2 else None
        self.worker.turn()
        self.assertEqual((self.kinds(), self.held()), (["take", "take"], None))
        self.assertIn("build 7: dropped, since the gate was restored without it", self.errors.getvalue())
        self.assertNotIn("was told", self.errors.getvalue())

    def test_a_file_that_is_replaced_between_two_tries_gets_none(self) -> None:
        """The first try reached nobody, and by the next one the number is another build's."""
        def before(kind: str, said: dict[str, Any]) -> Said:
            if kind == "result" and len(self.kinds()) == 3:
                self.gate.taken.clear()
                self.gate.left = [self.reply(7, 104)]
                return 502, "bad gateway"
            return None

        self.gate.before = before
        self.worker.turn()
        self.assertEqual([it["id"] for it in self.gate.results], [self.success(104)])

    def test_its_outcome_and_record_are_on_disk_before_it_is_sent(self) -> None:
        noted: list[Any] = []

        def before(kind: str, said: dict[str, Any]) -> Said:
            if kind == "result":
                noted.append((self.held().get("outcome"), [it["outcome"] for it in self.records()]))
            return None

        self.gate.before = before
        self.worker.turn()
        self.assertEqual(noted, [("success", ["success"])])


class Evidence(WorkerCase):
    def test_a_success_is_of_the_commit_and_of_no_take(self) -> None:
        """The same build, taken by another worker at another time, has the same id."""
        self.worker.turn()
        self.gate.taken.clear()
        self.gate.left = [self.reply(7, 103)]
        self.worker.turn()
        self.assertEqual(len({it["id"] for it in self.gate.results}), 1)
        self.gate.left = [self.reply(7, 103, ahead=[[102, 1]])]
        self.origin.revision(102, 1, self.origin.commit({"other": "1"}, self.head))
        self.gate.taken.clear()
        self.worker.turn()
        self.assertEqual(len({it["id"] for it in self.gate.results}), 2)

    def test_a_failure_and_a_loss_are_of_the_take(self) -> None:
        self.worker = self.start("false")
        self.worker.turn()
        [take] = self.gate.taken
        self.assertEqual([it["id"] for it in self.gate.results], [id_of(take, "result", 7, 103, 1, "failure")])

    def test_a_success_after_a_crash_has_the_same_id(self) -> None:
        post = self.worker.gate.post

        def post_or_die(door: str, said: dict[str, Any]) -> Answer:
            if said["kind"] == "result":
                raise SystemExit
            return post(door, said)

        with mock.patch.object(self.worker.gate, "post", post_or_die), self.assertRaises(SystemExit):
            self.worker.turn()
        self.start()
        self.assertEqual([it["id"] for it in self.gate.results], [self.success(103)])

    def test_a_worker_with_another_author_takes_nothing(self) -> None:
        content = tag(self.head, "core/000000", "g <g@l>", 0, first_text("other <other@localhost>", "2.39")).decode()
        self.origin.first("core", self.origin.git("hash-object", "-t", "tag", "-w", "--stdin", given=content))
        self.worker.turn()
        self.worker.turn()
        self.assertEqual(self.kinds(), [])
        self.assertEqual(self.errors.getvalue(), "worker w1: takes nothing: lander.author is gate <gate@localhost>"
                         " here, and other <other@localhost> where the lander runs: make them the same\n")
        self.origin.first("core", self.head)
        self.worker.turn()
        self.assertEqual(self.outcomes(), [(7, "success")])


class Main(WorkerCase):
    def test_a_wrong_call_is_told(self) -> None:
        for argv in (list[str](), ["companions.toml"], ["companions.toml", "../w1"], ["companions.toml", ""]):
            self.assertEqual(worker.main(argv), 2)
        self.assertIn("usage: python3 -m companions.worker companions.toml NAME\n", self.errors.getvalue())

    def test_a_fault_of_the_settings_is_told(self) -> None:
        self.assertEqual(worker.main([str(self.folder / "none.toml"), "w1"]), 1)
        self.assertIn("none.toml: can't be read", self.errors.getvalue())


if __name__ == "__main__":
    unittest.main()
