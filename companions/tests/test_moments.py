"""Which parts read the clock of the day, which people and time servers set."""
from __future__ import annotations

import ast
import unittest
from pathlib import Path

from companions.moments import Moment

PACKAGE = Path(__file__).resolve().parents[1]
# A forge's dates are of the day, when its token ends, dates of commits, a note's date, what another machine reads of a
# copy, for how many days commits of closed requests are kept, and they themselves for the page, what an operator reads
# of what was done, and since when a build runs, as a browser reads it. No other age is measured by it.
OF_THE_DAY = {"api", "tokens", "check_forge", "looks", "branches", "copies", "leftovers", "subjects", "adapter",
              "operated", "operator", "watch"}


class MomentsTest(unittest.TestCase):
    def test_ages_are_of_the_same_boot(self) -> None:
        self.assertEqual(Moment("one", 30.0).since(Moment("one", 10.0)), 20.0)
        self.assertIsNone(Moment("two", 30.0).since(Moment("one", 10.0)))
        self.assertGreaterEqual(Moment.now().since(Moment.now()) or 0.0, -1.0)

    def test_lander_worker_watch_and_adapter_measure_none_by_the_clock_of_the_day(self) -> None:
        found = set()
        for file in PACKAGE.glob("*.py"):
            for it in ast.walk(ast.parse(file.read_text(encoding="utf-8"))):
                if isinstance(it, ast.Attribute) and (isinstance(it.value, ast.Name) and it.value.id == "time"
                                                      and it.attr == "time" or it.attr in ("now", "st_mtime")
                                                      and ast.unparse(it.value) in ("datetime", "datetime.datetime")):
                    found.add(file.stem)
        self.assertEqual(found, OF_THE_DAY)


if __name__ == "__main__":
    unittest.main()
