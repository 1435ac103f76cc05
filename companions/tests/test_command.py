"""What a command finds: the table of docs/CONNECTING.md, row by row, and real jobs that look."""
from __future__ import annotations

import os
import re
import unittest
from pathlib import Path
from unittest import mock

from companions import job, sandbox, settings
from companions.job import Cause, Ended
from companions.tests.boxes import boxed
from companions.tests.worker_case import WorkerCase
from companions.trees import build_of

PAGE = Path(__file__).resolve().parents[2] / "docs" / "CONNECTING.md"
LOOKS = """env; echo "folder=$(pwd)"; echo "head=$(git rev-parse HEAD)"; echo "refs=$(git for-each-ref)"
echo "branch=$(git branch --show-current)"; echo "input=$(cat)"; echo "error=1" >&2"""


def table() -> dict[str, str]:
    """The rows of the page's table, by their first column."""
    part = PAGE.read_text(encoding="utf-8").split("\n### What a command finds\n")[1].split("\n### ")[0]
    return dict(re.findall(r"^\| (.*?) \| (.*) \|$", part, re.MULTILINE)[1:])


def quoted(text: str) -> list[str]:
    return re.findall(r"`([^`]+)`", text)


class Statuses(unittest.TestCase):
    def test_each_status_means_what_the_page_says(self) -> None:
        rows = {it: value for it, value in table().items() if it.startswith("exit status")}
        self.assertEqual(len(rows), 2)
        told = {int(status): re.split(r"\W", value)[0] for it, value in rows.items() for status in quoted(it)}
        other = re.split(r"\W", table()["any other exit status"])[0]
        for status in range(256):
            self.assertEqual(Ended(Cause.ITSELF, status, 0.0).outcome, told.get(status, other), status)
        self.assertEqual(sorted(it for it, outcome in told.items() if outcome == "lost"), sorted(settings.LOST))
        for number in range(1, 65):
            self.assertEqual(Ended(Cause.ITSELF, -number, 0.0).outcome, told.get(128 + number, other), number)

    def test_signals_and_limits(self) -> None:
        self.assertEqual(quoted(table()["SIGKILL"]), [f"{job.ENDING:g}"])
        self.assertEqual(Ended(Cause.LIMIT, 0, 0.0).outcome, table()["after `limit` seconds"])


class Looking(WorkerCase):
    """A job of change 103 says what it finds."""

    def found(self) -> dict[str, str]:
        self.worker = self.start(LOOKS)
        with mock.patch.dict(os.environ, {"GIT_DIR": "/nowhere", "OF_THE_WORKER": "1"}):
            self.worker.turn()
        self.assertEqual(self.outcomes(), [(7, "success")], self.log())
        return dict(it.split("=", 1) for it in self.log().partition("\n\n")[2].splitlines() if "=" in it)

    def listed(self) -> list[str]:
        """The variables that the page lists."""
        return sorted(it for row in table() for it in quoted(row) if it.isupper())

    @unittest.skipUnless(boxed(), "the kernel refuses sandboxes, or bubblewrap is missing")
    def test_in_a_sandbox(self) -> None:
        found = self.found()
        self.assertEqual(sorted(it for it in found if it.isupper() and it not in ("PWD", "OLDPWD", "SHLVL", "_")),
                         self.listed())
        self.assertEqual([found[it] for it in ("PATH", "LANG", "HOME")], quoted(table()["`PATH`, `LANG`, `HOME`"])[:3])
        self.assertEqual({it: found[it] for it in sandbox.ENVIRONMENT}, sandbox.ENVIRONMENT)
        self.compare(found)

    def test_without_a_sandbox(self) -> None:
        self.sandbox = False
        found = self.found()
        self.assertEqual(sorted(it for it in found if it.startswith("GATED_")),
                         [it for it in self.listed() if it.startswith("GATED_")])
        self.assertEqual((found["OF_THE_WORKER"], found.get("GIT_DIR")), ("1", None))
        self.compare(found)

    def compare(self, found: dict[str, str]) -> None:
        """What the rows say in words."""
        [(take, reply)] = self.gate.taken.items()
        build = build_of(reply)
        wanted = {"GATED_TAKE": take, "GATED_BUILD": "7", "GATED_QUEUE": build.queue, "GATED_CHANGE": "103",
                  "GATED_REVISION": "1", "GATED_JOB": "unit", "GATED_PROJECT": "lib",
                  "GATED_WORKER": str((self.folder / "state/worker/w1").resolve())}
        self.assertEqual({it: found[it] for it in wanted}, wanted)
        self.assertEqual(found["folder"], f"{found['GATED_TREES']}/lib")
        [record] = self.records()
        self.assertEqual((found["head"], found["branch"], found["refs"]), (record["commit"], "", ""))
        self.assertEqual((found["input"], found["error"]), ("", "1"))


class Lost(WorkerCase):
    """A command that can't reach what it needs."""

    def test_a_command_that_ends_with_75(self) -> None:
        self.worker = self.start("exit 75")
        self.worker.turn()
        self.assertEqual(self.outcomes(), [(7, "lost")])
        self.assertIn("worker w1: build 7: lost, exit status 75\n", self.errors.getvalue())

    def test_statuses_of_the_settings(self) -> None:
        self.more = "lost = [3]"
        self.gate.left.append(self.reply(8, 104))
        self.worker = self.start('[ $GATED_CHANGE = 103 ] && exit 3; exit 75')
        self.worker.turn()
        self.worker.turn()
        self.assertEqual(self.outcomes(), [(7, "lost"), (8, "failure")])

    def test_wrong_statuses(self) -> None:
        for it in ("[0]", "[256]", "75", "[true]", '["75"]', "[75.0]"):
            self.more = f"lost = {it}"
            said = r"project\[0\]\.job\[0\]\.lost: isn't an array of exit statuses from 1 to 255"
            with self.subTest(it), self.assertRaisesRegex(settings.SettingsFault, said):
                self.start()
        self.more = "lost = []"
        self.assertEqual(settings.read(self.write_settings()).projects["lib"].jobs["unit"].lost, frozenset())


if __name__ == "__main__":
    unittest.main()
