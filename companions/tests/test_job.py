from __future__ import annotations

import os
import subprocess
import tempfile
import time
import unittest
from pathlib import Path
from typing import Any
from unittest import mock

from companions import job
from companions.job import Cause, Command, Ended
from companions.sandbox import Sandbox
from companions.tests.boxes import boxed

LONG = 60.0


class JobCase(unittest.TestCase):
    def setUp(self) -> None:
        temporary = tempfile.TemporaryDirectory()
        self.addCleanup(temporary.cleanup)
        self.folder = Path(temporary.name)
        self.mark = f"GATED_TAKE={self.folder}"
        self.addCleanup(job.kill_marked, self.mark)
        self.groups: list[int] = []

    def command(self, text: str, limit: float = LONG, **more: Any) -> Command:
        name, _, value = self.mark.partition("=")
        return Command(text, self.folder, {**os.environ, name: value}, self.mark, self.folder / "log", limit, **more)

    def run_job(self, text: str, limit: float = LONG) -> Ended:
        return job.run(self.command(text, limit), lambda: True, LONG, self.groups.append)

    def process(self, name: str) -> int:
        """The number that the job has written to a file, once it is there."""
        for _ in range(500):
            if (self.folder / name).exists() and (text := (self.folder / name).read_text()).endswith("\n"):
                return int(text)
            time.sleep(0.01)
        raise AssertionError(f"no {name}")

    def assert_gone(self, process: int) -> None:
        for _ in range(200):
            if not runs(process):
                return
            time.sleep(0.01)
        raise AssertionError(f"process {process} runs")


def runs(process: int) -> bool:
    try:
        return Path(f"/proc/{process}/stat").read_text().rpartition(")")[2].split()[0] not in "ZX"
    except OSError:
        return False


class Outcome(JobCase):
    def test_a_job_ends_by_its_status(self) -> None:
        for text, outcome in (("exit 0", "success"), ("exit 1", "failure"), ("exit 2", "failure"),
                              ("no-such-command", "failure"), ("exit 126", "failure")):
            with self.subTest(text):
                self.assertEqual(self.run_job(text).outcome, outcome)

    def test_a_crash_is_a_failure_and_a_signal_from_outside_a_loss(self) -> None:
        for name, outcome in (("SEGV", "failure"), ("ABRT", "failure"), ("KILL", "lost"), ("TERM", "lost"),
                              ("INT", "lost"), ("HUP", "lost")):
            for text in (f"kill -{name} $$", f"sh -c 'kill -{name} $$'; exit $?"):
                with self.subTest(text):
                    self.assertEqual(self.run_job(text).outcome, outcome)

    def test_a_status_that_means_lost(self) -> None:
        """By default 75, EX_TEMPFAIL, among others; else those that the settings name, and no other one."""
        self.assertEqual([it for it in range(256) if Ended(Cause.ITSELF, it, 0.0).outcome == "lost"],
                         [75, 129, 130, 137, 143])
        self.assertEqual(self.run_job("exit 75").outcome, "lost")
        mine = [job.run(self.command(it, lost=frozenset({3, 137})), lambda: True, LONG, self.groups.append).outcome
                for it in ("exit 3", "exit 75", "kill -KILL $$", "kill -TERM $$")]
        self.assertEqual(mine, ["lost", "failure", "lost", "failure"])

    def test_a_job_that_hangs_is_killed_and_a_failure(self) -> None:
        ended = self.run_job("sh -c 'echo $$ > inner; sleep 20'; true", limit=0.5)
        self.assertEqual((ended.cause, ended.outcome), (Cause.LIMIT, "failure"))
        self.assertLess(ended.seconds, 10)
        self.assert_gone(self.process("inner"))

    def test_a_job_ends_once_its_build_is_unwanted(self) -> None:
        asked: list[float] = []

        def wanted() -> bool:
            asked.append(time.monotonic())
            return len(asked) < 3

        ended = job.run(self.command("sleep 20 & sleep 20"), wanted, 0.1, self.groups.append)
        self.assertEqual((ended.cause, len(asked)), (Cause.UNWANTED, 3))
        self.assertGreater(asked[1] - asked[0], 0.09)

    def test_a_shell_that_cannot_start_is_the_machines_fault(self) -> None:
        command = Command("true", self.folder / "none", dict(os.environ), self.mark, self.folder / "log", LONG)
        with self.assertRaises(OSError):
            job.run(command, lambda: True, LONG, self.groups.append)


# What has something to end elsewhere: it says what it is told, and takes its time. A shell may wait for it.
BRIDGE = """import pathlib, signal, sys, time
def end(number, frame):
    time.sleep(0.3)
    print("cancelled", flush=True)
    pathlib.Path("cancelled").write_text("1\\n")
    sys.exit(0)
signal.signal(signal.SIGTERM, end)
pathlib.Path("began").write_text("1\\n")
time.sleep(1000)
"""


class Ending(JobCase):
    """A job that isn't wanted any more is told so, and has ten seconds."""

    def box(self) -> Sandbox | None:
        return None

    def end(self, text: str, ending: float = 30.0, limit: float | None = None) -> Ended:
        """What comes of a job that isn't wanted once it has written the file `began`, or is over its limit."""
        (self.folder / "bridge.py").write_text(BRIDGE)
        command = self.command(text, limit or LONG, sandbox=self.box())
        with mock.patch.object(job, "ENDING", ending):
            return job.run(command, lambda: limit is not None or not (self.folder / "began").exists(), 0.1,
                           self.groups.append)

    def test_how_long(self) -> None:
        self.assertEqual(job.ENDING, 10.0)

    def test_what_it_has_started_ends_something_elsewhere(self) -> None:
        """Also behind a shell that ends at once, out of its group, and without its mark."""
        for text in ("python3 bridge.py", "python3 bridge.py; true", "sh -c 'python3 bridge.py; true'; true",
                     "setsid python3 bridge.py; true", "env -i /usr/bin/python3 bridge.py; true"):
            with self.subTest(text):
                self.assertEqual(self.end(text).cause, Cause.UNWANTED)
                self.assertTrue((self.folder / "cancelled").exists())
                # A shell may say that what it waited for was ended.
                self.assertIn("cancelled\n", (self.folder / "log").read_text())
                for it in ("began", "cancelled", "log"):
                    (self.folder / it).unlink()

    def test_what_ends_at_once_is_not_waited_for(self) -> None:
        begin = time.monotonic()
        self.end("touch began; sleep 1000; true")
        self.assertLess(time.monotonic() - begin, 20)

    def test_what_does_not_end_is_killed(self) -> None:
        deaf = "trap '' TERM; sleep 1000 & echo $! > inner; touch began; sleep 1000; true"
        begin = time.monotonic()
        self.assertEqual(self.end(deaf, ending=1.0).cause, Cause.UNWANTED)
        self.assertGreater(time.monotonic() - begin, 1)
        self.assert_gone(self.process("inner"))

    def test_it_is_told_at_its_limit_too(self) -> None:
        ended = self.end("python3 bridge.py; true", limit=5.0)
        self.assertEqual((ended.cause, ended.outcome), (Cause.LIMIT, "failure"))
        self.assertTrue((self.folder / "cancelled").exists())

    def test_nobody_else_is_told(self) -> None:
        other = subprocess.Popen(["sleep", "1000"])
        self.addCleanup(other.wait)
        self.addCleanup(other.kill)
        self.end("touch began; sleep 1000; true")
        self.assertIsNone(other.poll())


@unittest.skipUnless(boxed(), "the kernel refuses sandboxes, or bubblewrap is missing")
class EndingBoxed(Ending):
    """The same in a sandbox, whose first process doesn't take the others with it."""

    def box(self) -> Sandbox | None:
        place = self.folder / "boxed"
        place.mkdir(exist_ok=True)
        return Sandbox(place / "folder", place / "file", self.folder, place)

    def test_what_does_not_end_is_killed(self) -> None:
        deaf = "trap '' TERM; setsid sleep 999.25 & touch began; sleep 999.5; true"
        self.assertEqual(self.end(deaf, ending=1.0).cause, Cause.UNWANTED)
        self.assertEqual([it for it in Path("/proc").glob("[0-9]*/cmdline")
                          if content(it).split(b"\0")[:2] in ([b"sleep", b"999.25"], [b"sleep", b"999.5"])], [])


def content(file: Path) -> bytes:
    try:
        return file.read_bytes()
    except OSError:
        return b""


class Processes(JobCase):
    def test_what_a_job_leaves_ends_with_it(self) -> None:
        self.assertEqual(self.run_job("sleep 1000 & echo $! > left").outcome, "success")
        self.assert_gone(self.process("left"))

    def test_what_has_left_the_group_ends_too(self) -> None:
        self.run_job("setsid sh -c 'echo $$ > left; exec sleep 1000' & while ! test -s left; do :; done")
        self.assert_gone(self.process("left"))

    def test_what_has_no_mark_ends_by_the_group(self) -> None:
        self.run_job("env -i sh -c 'echo $$ > left; exec sleep 1000' & while ! test -s left; do :; done")
        self.assert_gone(self.process("left"))

    def test_the_group_is_told_while_the_job_runs(self) -> None:
        began: list[int | None] = []
        job.run(self.command("sleep 0.2"), lambda: True, LONG, lambda group: began.append(job.began_at(group)))
        self.assertIsInstance(began[0], int)

    def test_a_fault_meanwhile_ends_the_job(self) -> None:
        def fail(_: int) -> None:
            self.process("inner")
            raise OSError("no space")

        with self.assertRaises(OSError):
            job.run(self.command("echo $$ > inner; sleep 1000; true"), lambda: True, LONG, fail)
        self.assert_gone(self.process("inner"))

    def test_only_marked_processes_are_killed(self) -> None:
        name, _, value = self.mark.partition("=")
        other = subprocess.Popen(["sleep", "1000"], env={**os.environ, name: f"{value}-other"})
        self.addCleanup(other.wait)
        self.addCleanup(other.kill)
        mine = subprocess.Popen(["sleep", "1000"], env={**os.environ, name: value})
        job.kill_marked(self.mark)
        self.assertEqual(mine.wait(), -9)
        self.assertIsNone(other.poll())

    def test_a_process_is_known_by_when_it_began(self) -> None:
        self.assertIsNone(job.began_at(2 ** 22 + 1))
        self.assertEqual(job.began_at(os.getpid()), job.began_at(os.getpid()))


class Log(JobCase):
    def test_both_outputs_are_added_to_the_log(self) -> None:
        (self.folder / "log").write_text("head\n")
        self.run_job("echo one; echo two >&2; echo three")
        self.assertEqual((self.folder / "log").read_text(), "head\none\ntwo\nthree\n")

    def test_a_job_has_no_input(self) -> None:
        self.assertEqual(self.run_job("cat").outcome, "success")


if __name__ == "__main__":
    unittest.main()
