"""Logs of builds: where workers leave them, and how the proxy gives them to people."""
from __future__ import annotations

import json
import os
import re
import unittest

from companions.building import Builder
from companions.reader import SettingsFault
from companions.tests.boxes import boxed
from companions.tests.test_proxy import ProxyTest, StandIn
from companions.tests.worker_case import PretendClock, WorkerCase


class LeavingTest(WorkerCase):
    """A worker with a folder for the logs of all workers."""

    def setUp(self) -> None:
        self.clock = PretendClock()
        super().setUp()
        self.logs = self.folder / "logs"
        self.room = f'patience = 30\nlogs = "{self.logs}"'

    def test_a_log_is_found_by_the_number_of_its_build(self) -> None:
        self.logs.mkdir()
        self.worker = self.start()
        self.worker.turn()
        [take] = self.gate.taken
        log, = self.logs.rglob("*.log")
        self.assertEqual(log.relative_to(self.logs).parts, ("7", f"unit-{take[:8]}.log"))
        self.assertRegex(log.read_text(), r"(?s)^build 7: change 103, .*\n0\nended: success, exit status 0, after ")

    def test_two_builds_of_one_number_have_a_log_each(self) -> None:
        self.logs.mkdir()
        self.worker = self.start()
        self.worker.turn()
        self.gate.left = [self.reply(7, 104)]
        self.worker.turn()
        logs = sorted((self.logs / "7").iterdir(), key=lambda it: it.stat().st_mtime_ns)
        first, second = (it.read_text() for it in logs)
        self.assertIn("change 103", first)
        self.assertIn("change 104", second)
        self.assertNotIn("change 103", second)

    def test_a_build_is_kept_while_its_log_cant_be_written(self) -> None:
        self.worker = self.start()
        self.clock.meanwhile = lambda seconds: self.logs.mkdir(exist_ok=True) if seconds > 5 else None
        self.worker.turn()
        self.assertEqual(self.outcomes(), [(7, "success")])
        self.assertIn("build 7: kept, since it can't be run here: [Errno 2] No such file or directory",
                      self.errors.getvalue())
        self.assertIn("build 7: begins again", self.errors.getvalue())

    def test_no_job_sees_the_logs_of_others(self) -> None:
        if not boxed():
            self.skipTest("this machine grants no sandboxes")
        self.logs.mkdir()
        (self.logs / "6").mkdir()
        (self.logs / "6" / "unit-abcdefgh.log").write_text("a secret")
        self.worker = self.start(f"test -z \"$(ls {self.logs})\"")
        self.worker.turn()
        self.assertEqual(self.outcomes(), [(7, "success")])

    def test_no_job_is_given_the_folder_of_logs(self) -> None:
        self.logs.mkdir()
        for given in (self.logs, self.logs / "7", self.folder):
            self.more = f'read = ["{given}"]'
            with self.assertRaisesRegex(SettingsFault, "job unit: .* no job may have it"):
                self.start()

    def test_without_a_folder_each_worker_keeps_its_own(self) -> None:
        self.room = ""
        self.worker = self.start()
        self.worker.turn()
        self.assertIn("ended: success", self.log())
        self.assertFalse(self.logs.exists())
        self.assertIsInstance(self.worker.keeper.builder, Builder)


class GivingTest(ProxyTest):
    """What people get of the logs, by the proxy."""

    def setUp(self) -> None:
        super().setUp()
        self.log = self.folder / "logs" / "17" / "unit-0a0b0c0d.log"
        self.log.parent.mkdir(parents=True)
        self.log.write_bytes(b"<script>alert(1)</script>\n\xff\x1b[31mred\n")

    async def test_a_log_is_text_that_no_browser_runs(self) -> None:
        self.log.write_text("<script>alert(1)</script>\n")
        status, head = await self.head("logs/17/unit-0a0b0c0d.log", "alice")
        self.assertEqual(status, 200)
        for it in ("Content-Type: text/plain; charset=utf-8", "Content-Security-Policy: sandbox; default-src 'none'",
                   "X-Content-Type-Options: nosniff", "Referrer-Policy: no-referrer",
                   "Strict-Transport-Security: max-age=31536000"):
            self.assertIn(f"\r\n{it}\r\n", head)
        self.assertEqual(StandIn.heads, [])

    async def test_its_end_is_had_by_a_range(self) -> None:
        self.log.write_text("0123456789")
        for wanted, status, ends in (("bytes=7-", 206, "\r\n\r\n789"), ("bytes=-2", 206, "\r\n\r\n89"),
                                     ("bytes=10-", 416, "")):
            answered, head = await self.head("logs/17/unit-0a0b0c0d.log", "alice", more=f"Range: {wanted}\r\n")
            self.assertEqual(answered, status)
            self.assertTrue(head.endswith(ends), head)

    async def test_the_logs_of_a_build_are_listed(self) -> None:
        (self.log.parent / "unit-1a1b1c1d.log").write_text("two")
        status, head = await self.head("logs/17/", "alice")
        self.assertEqual(status, 200)
        # It comes in chunks, each behind its length.
        listed = json.loads(re.sub(r"(?:^|\r\n)[0-9a-f]+\r\n", "", head.partition("\r\n\r\n")[2]))
        self.assertEqual([(it["name"], it["type"], it["size"]) for it in listed],
                         [("unit-0a0b0c0d.log", "file", 36), ("unit-1a1b1c1d.log", "file", 3)])

    async def test_logs_are_for_people_and_nothing_else_is_there(self) -> None:
        os.symlink("/etc/passwd", self.log.parent / "unit-link.log")
        (self.folder / "logs" / "18").symlink_to(self.log.parent)
        (self.folder / "logs" / "17" / "other").write_text("x")
        for path in ("logs/17/unit-link.log", "logs/18/unit-0a0b0c0d.log", "logs/18/"):
            self.assertIn(await self.status(path, "alice"), (403, 404), path)
        for path in ("logs/", "logs/017/", "logs/17/other", "logs/17/.log", "logs/17/../../gate.passwords", "logs/19/",
                     "logs/17/none.log", "logs/17", "logs/%2e%2e/gate.passwords"):
            self.assertIn(await self.status(path, "alice"), (400, 404), path)
        for name in ("forge", "worker", "watch", "standby"):
            self.assertEqual(await self.status("logs/17/", name), 403)
        self.assertEqual(await self.status("logs/17/", "alice", "wrong"), 401)


if __name__ == "__main__":
    unittest.main()
