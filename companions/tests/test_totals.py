"""The last line of companions/test.sh, by a python3 that runs no test and says how each has ended."""
from __future__ import annotations

import os
import subprocess
import tempfile
import unittest
from pathlib import Path

SCRIPT = Path(__file__).resolve().parents[1] / "test.sh"
# What is called in the place of python3: it notes its words, and does what a file of the test's name says.
PRETENDER = """#!/bin/sh
echo "$*" >>"{folder}/called"
for it; do name=$it; done
[ ! -e "{folder}/$name" ] || exec sh "{folder}/$name"
echo 'Ran 1 test in 0.001s'
"""
SAYS = "echo .ss; echo 'skipped: recordings of {}, since apt-get update: E: no network' >&2; echo 'Ran 1 test in 0.1s'"


class TotalsTest(unittest.TestCase):
    def setUp(self) -> None:
        self.folder = Path(self.enterContext(tempfile.TemporaryDirectory()))
        self.python = self.folder / "python3"
        self.python.write_text(PRETENDER.format(folder=self.folder), encoding="utf-8")
        self.python.chmod(0o755)

    def be(self, module: str, does: str) -> None:
        (self.folder / f"companions.tests.{module}").write_text(does, encoding="utf-8")

    def run_all(self) -> tuple[int, str, int]:
        """The exit status, the last line, and how many tests there were."""
        called = self.folder / "called"
        called.unlink(missing_ok=True)
        ran = subprocess.run(["sh", str(SCRIPT)], capture_output=True, text=True, check=False, timeout=300, env={
            "PATH": f"{self.folder}:{os.environ['PATH']}", "GATED": "/bin/true", "JOBS": "2", "LC_ALL": "C",
            "DEBIANS_PYTHON": str(self.python)})
        return ran.returncode, ran.stdout.splitlines()[-1], len(called.read_text(encoding="utf-8").splitlines())

    def test_recordings_that_can_not_be_had_are_told_each_once(self) -> None:
        status, line, many = self.run_all()
        self.assertEqual((status, line), (0, f"{many} passed, 0 failed"))
        self.assertGreater(many, 100)
        for module, package in (("test_recorded_github", "pygithub"), ("test_recorded_shapes", "pygithub"),
                                ("test_recorded_hooks", "buildbot")):
            self.be(module, SAYS.format(package))
        self.assertEqual(self.run_all(), (0, f"{many} passed, 0 failed, skipped:"
                                             " recordings of buildbot, since apt-get update: E: no network;"
                                             " recordings of pygithub, since apt-get update: E: no network", many))

    def test_what_fails_or_ends_without_a_word_is_counted(self) -> None:
        self.be("test_api", "echo 'Ran 5 tests in 0.1s'; echo 'FAILED (failures=1, errors=1, skipped=1)'; exit 1")
        self.be("test_hooks", "exit 124")
        status, line, many = self.run_all()
        self.assertEqual((status, line), (1, f"{many - 2 + 3} passed, 3 failed"))


if __name__ == "__main__":
    unittest.main()
