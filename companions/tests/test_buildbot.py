"""examples/buildbot: a real Buildbot, with a real worker, runs the jobs of a gate; and the pages show the lines that it
ran by."""
from __future__ import annotations

import os
import re
import subprocess
import unittest
from pathlib import Path

from companions.tests.service import PROGRAM

TOP = Path(__file__).resolve().parents[2]
EXAMPLE, PAGE = TOP / "examples" / "buildbot", TOP / "docs" / "CONNECTING.md"
SETTINGS = (EXAMPLE / "master.cfg").read_text(encoding="utf-8")
MARK = re.compile(r" +# gate$", re.MULTILINE)


def bare(line: str) -> str:
    """A line without what closes the list around it."""
    return line.strip().rstrip(")]")


class LinesTest(unittest.TestCase):
    def test_six_lines_of_its_settings_are_the_gate_s(self) -> None:
        self.assertEqual(len(MARK.findall(SETTINGS)), 6)

    def test_the_page_shows_lines_that_ran(self) -> None:
        page = PAGE.read_text(encoding="utf-8")
        block, = re.findall(r'^```python\n(c\["change_source"\].*?)^```', page, re.MULTILINE | re.DOTALL)
        ran = {bare(it) for it in MARK.sub("", SETTINGS).splitlines()}
        shown = [bare(it) for it in block.splitlines()]
        self.assertEqual([it for it in shown if it not in ran], ["repourl=REPOSITORY, pollInterval=10,"])

    def test_the_page_fetches_other_projects_as_the_job_did(self) -> None:
        """Line by line, but for the clone, which the job has without a gate too."""
        loop = re.compile(r"^ *git log -1 .*?\bdone \|\| exit 1$", re.MULTILINE | re.DOTALL)
        shown, ran = (loop.findall(it)[0] for it in (PAGE.read_text(encoding="utf-8"), MARK.sub("", SETTINGS)))
        lines = [it.strip() for it in shown.splitlines()]
        self.assertEqual([it for it in lines if not it.startswith("git clone ")],
                         [it.strip() for it in ran.replace("; done ", "\ndone ").splitlines()])


class ExampleTest(unittest.TestCase):
    def test_it_ends_well(self) -> None:
        """It compares the branches with what must have landed, and runs companions.evidence."""
        around = {**os.environ, "GATED": str(PROGRAM), "PATIENCE": "1100"}
        run = subprocess.Popen(["bash", EXAMPLE / "run.sh"], env=around, text=True, stdout=subprocess.PIPE,
                               stderr=subprocess.STDOUT)
        # What it has started ends with it.
        self.addCleanup(run.wait)
        self.addCleanup(run.terminate)
        said, _ = run.communicate(timeout=1180)
        self.assertEqual((run.returncode, said.splitlines()[-1:]), (0, ["ok"]), said)


if __name__ == "__main__":
    unittest.main()
